/*
 * park_step and park_bad_field from C: the session of the scope paper, what a picker is told, why a call is taken, who is served first, which
 * calls are two, every refusal that only the entry can give, the field to blame, and what is left in each buffer. The expected lines are the paper's
 * own, or follow from a sentence of it or of a change request that stands beside them. Each buffer is framed by guard octets.
 */
#include "park.h"

#include <stdio.h>
#include <stdlib.h>
#include <string.h>

#define GUARD 32
#define LARGEST 5000

struct buffer {
    uint8_t octets[GUARD + LARGEST + GUARD];
    size_t len;
};

static struct buffer image, line, answer;
static unsigned long checks;

static void expect(int good, const char *what)
{
    checks++;
    if (!good) {
        printf("park_test: FAILED: %s\n", what);
        exit(1);
    }
}

static uint8_t *start(struct buffer *b) { return b->octets + GUARD; }

/* A buffer of this length with these contents, and guards at both ends. */
static void set(struct buffer *b, const void *contents, size_t len)
{
    memset(b->octets, 0xA5, sizeof b->octets);
    memcpy(start(b), contents, len);
    b->len = len;
}

static void clear(struct buffer *b, uint8_t octet, size_t len)
{
    memset(b->octets, 0xA5, sizeof b->octets);
    memset(start(b), octet, len);
    b->len = len;
}

static int framed(const struct buffer *b)
{
    size_t i;
    for (i = 0; i < GUARD; i++)
        if (b->octets[i] != 0xA5) return 0;
    for (i = GUARD + b->len; i < sizeof b->octets; i++)
        if (b->octets[i] != 0xA5) return 0;
    return 1;
}

static size_t call(void)
{
    struct buffer before = line;
    size_t n = park_step(start(&image), image.len, start(&line), line.len, start(&answer), answer.len);
    expect(framed(&image) && framed(&line) && framed(&answer), "nothing beside the three buffers is touched");
    expect(memcmp(&before, &line, sizeof line) == 0, "the line stays");
    return n;
}

/* The line is answered so, octets beyond the answer stay, and the image stays unless `changes`. */
static void answers(const char *says, int changes)
{
    struct buffer before = image;
    size_t n, i, want = strlen(says);
    clear(&answer, 0x5A, 80);
    n = call();
    expect(n == want, "the count is that of the line, its feed included");
    expect(memcmp(start(&answer), says, want) == 0, says);
    for (i = want; i < 80; i++) expect(start(&answer)[i] == 0x5A, "octets beyond the answer stay");
    if (!changes) expect(memcmp(&before, &image, sizeof image) == 0, "a refusal keeps the image");
}

static void text(const char *s) { set(&line, s, strlen(s)); }

#define ZEROS "00000000000000000000000000000000"
#define ONE "00000000000000000000000000000001"
#define TWO "00000000000000000000000000000002"
#define THREE "00000000000000000000000000000003"
#define FOUR "00000000000000000000000000000004"
#define NEXT_POSITION "4\t" ZEROS "\t0\t1\t901\t0\t0"
#define PARK_17 "1\t" ONE "\t17\t0\t0\t0\t0"
#define RELEASE_WITH_ERROR(invoke) "7\t" ONE "\t0\t0\t0\t" invoke "\t0"
#define RELEASE "8\t" ONE "\t0\t0\t0\t0\t0"
#define T3_EXPIRY "10\t" ONE "\t0\t0\t0\t0\t3"
/* "four fields at its end: message, connection, invoke, error of the second, zeros if there is none" */
#define NO_SECOND "\t0\t0\t0\t0\n"
#define PARKED_17 "0\t" ONE "\t17\t1\t1\t0\t0\t0\t1\t0" NO_SECOND
/* "The answer then has zeros everywhere but its number" */
#define ONLY(number) number "\t" ZEROS "\t0\t0\t0\t0\t0\t0\t0\t0" NO_SECOND
/* "a park refused by 3 or 4 has message 2, error 1" */
#define NOT_PARKED(number) number "\t" ZEROS "\t0\t0\t2\t0\t0\t1\t0\t0" NO_SECOND
/* "message 6, the event's connection and its error", which is 2, callAlreadyPickedUp */
#define TAKEN_901 "\t" ZEROS "\t0\t0\t6\t901\t0\t2\t0\t0" NO_SECOND

/*
 * The record of call ONE: "per place" state, call, connection, count, "the last two high octet first", and after Q-4 "one octet per place,
 * after the count": its rank, which is 1 where no other call is held. In state 4 the connection is 900.
 */
static void put_record(uint8_t *at, uint8_t state, uint8_t count)
{
    at[0] = state;
    at[16] = state != 0;
    if (state == 4) at[17] = 900 / 256, at[18] = 900 % 256;
    at[20] = count;
    at[21] = state != 0;
}

/* "One session in full" */
static void session(void)
{
    static const char *const lines[] = {
        PARK_17,
        "4\t" ONE "\t0\t0\t900\t0\t0",
        "5\t" ONE "\t0\t0\t0\t1\t0",
        "4\t" ZEROS "\t0\t1\t901\t0\t0",
        RELEASE,
    };
    static const char *const says[] = {
        PARKED_17,
        "0\t" ONE "\t17\t4\t4\t0\t1\t0\t4\t0" NO_SECOND,
        "0\t" ONE "\t17\t5\t5\t900\t0\t0\t0\t4" NO_SECOND,
        "6\t" ZEROS "\t0\t0\t6\t901\t0\t1\t0\t0" NO_SECOND,
        "0\t" ONE "\t17\t0\t0\t0\t0\t0\t0\t1" NO_SECOND,
    };
    static const uint8_t states[] = {1, 4, 5, 5, 0};
    static const uint8_t counts[] = {0, 1, 1, 1, 0};
    int i;
    clear(&image, 0, PARK_IMAGE_OCTETS);
    for (i = 0; i < 5; i++) {
        uint8_t want[PARK_IMAGE_OCTETS] = {0};
        text(lines[i]);
        answers(says[i], i != 3);
        put_record(want + 16 * 22, states[i], counts[i]);
        expect(memcmp(start(&image), want, sizeof want) == 0, "the image of the table after the event");
    }
}

/* 26: "answer buffer of the C entry shorter than" what Q-1 counts from, 77 octets; "writes nothing" */
static void short_answers(void)
{
    size_t len;
    expect(PARK_ANSWER_OCTETS == 77, "the header says 77");
    clear(&image, 0, PARK_IMAGE_OCTETS);
    text(PARK_17);
    for (len = 0; len < PARK_ANSWER_OCTETS; len++) {
        struct buffer images = image, answers_;
        clear(&answer, 0x5A, len);
        answers_ = answer;
        expect(call() == 0, "26 gives 0");
        expect(memcmp(&images, &image, sizeof image) == 0, "26 keeps the image");
        expect(memcmp(&answers_, &answer, sizeof answer) == 0, "26 writes nothing");
    }
    clear(&answer, 0x5A, PARK_ANSWER_OCTETS);
    expect(call() == strlen(PARKED_17), "77 octets are enough");
    /* 26 is looked at first: before a bad image and a bad line */
    clear(&image, 0xFF, 7);
    text("x");
    clear(&answer, 0x5A, PARK_ANSWER_OCTETS - 1);
    expect(call() == 0, "26 comes before 25 and 22");
}

/* 25: "image not" 2,112 octets, as Q-4 has it, "or table not sound"; before the line is looked at */
static void refused_image(void)
{
    text(PARK_17);
    answers(ONLY("25"), 0);
    text("");
    answers(ONLY("25"), 0);
}

static uint8_t *record(int place) { return start(&image) + (place - 1) * 22; }

/*
 * "a release (kind 8, and kind 7 taken as 8) in state 4 sends message 6 with error 1, and a T3 expiry in state 4 sends message 7 and
 * then message 6". In any other state nobody waits to be told. The outstanding number is 1, and each of these events frees its place.
 */
static void picker_told(void)
{
    static const struct {
        int place;
        uint8_t state;
        const char *event, *says;
    } ends[] = {
        {17, 4, RELEASE, "0\t" ONE "\t17\t0\t6\t900\t0\t1\t0\t5" NO_SECOND},
        {17, 4, RELEASE_WITH_ERROR("5"), "0\t" ONE "\t17\t0\t6\t900\t0\t1\t0\t5" NO_SECOND},
        {17, 4, RELEASE_WITH_ERROR("1"), "0\t" ONE "\t17\t0\t6\t900\t0\t1\t0\t5" NO_SECOND},
        {17, 4, T3_EXPIRY, "0\t" ONE "\t17\t0\t7\t0\t0\t0\t0\t5\t6\t900\t0\t1\n"},
        {70, 4, RELEASE, "0\t" ONE "\t70\t0\t6\t900\t0\t1\t0\t4" NO_SECOND},
        {70, 4, RELEASE_WITH_ERROR("5"), "0\t" ONE "\t70\t0\t6\t900\t0\t1\t0\t4" NO_SECOND},
        {17, 1, RELEASE, "0\t" ONE "\t17\t0\t0\t0\t0\t0\t0\t1" NO_SECOND},
        {17, 1, T3_EXPIRY, "0\t" ONE "\t17\t0\t7\t0\t0\t0\t0\t1" NO_SECOND},
        {17, 3, RELEASE, "0\t" ONE "\t17\t0\t0\t0\t0\t0\t0\t3" NO_SECOND},
        {17, 3, T3_EXPIRY, "0\t" ONE "\t17\t0\t7\t0\t0\t0\t0\t3" NO_SECOND},
        {17, 5, RELEASE, "0\t" ONE "\t17\t0\t0\t0\t0\t0\t0\t1" NO_SECOND},
        {17, 5, T3_EXPIRY, "0\t" ONE "\t17\t0\t7\t0\t0\t0\t0\t1" NO_SECOND},
    };
    static const uint8_t empty[PARK_IMAGE_OCTETS];
    size_t i;
    for (i = 0; i < sizeof ends / sizeof *ends; i++) {
        clear(&image, 0, PARK_IMAGE_OCTETS);
        put_record(record(ends[i].place), ends[i].state, 1);
        text(ends[i].event);
        answers(ends[i].says, 1);
        expect(memcmp(start(&image), empty, sizeof empty) == 0, "the place is freed");
    }
}

/*
 * "no line of an answer the table gives is longer than 77 octets, line feed included". Fourteen fields take thirteen tabs and a feed. The
 * call has 32 digits; the place has two, and the number of an event that is done has one; a connection has five, and of the two messages
 * one has it, and no invoke; the ten others have a digit each. That is 64, and these events reach it, once by the first message and once
 * by the second.
 */
static void longest_answers(void)
{
    static const char *const lines[] = {
        PARK_17, "4\t" ONE "\t0\t0\t65535\t0\t0", "6\t" ONE "\t0\t0\t0\t1\t0", "4\t" ONE "\t0\t0\t65535\t0\t0", T3_EXPIRY,
    };
    static const char *const says[] = {
        PARKED_17,
        "0\t" ONE "\t17\t4\t4\t0\t1\t0\t4\t0" NO_SECOND,
        "0\t" ONE "\t17\t1\t6\t65535\t0\t1\t0\t4" NO_SECOND,
        "0\t" ONE "\t17\t4\t4\t0\t2\t0\t4\t0" NO_SECOND,
        "0\t" ONE "\t17\t0\t7\t0\t0\t0\t0\t5\t6\t65535\t0\t1\n",
    };
    static const size_t octets[] = {60, 60, 64, 60, 64};
    int i;
    clear(&image, 0, PARK_IMAGE_OCTETS);
    for (i = 0; i < 5; i++) {
        expect(strlen(says[i]) == octets[i], "the expected line is as long as it is said to be");
        text(lines[i]);
        answers(says[i], 1);
    }
}

/*
 * "Keep 7 for state 3, and use 11 for state 4 and 12 for state 5. On the wire all three stay callAlreadyPickedUp." A local pickup sends
 * nothing.
 */
static void taken(void)
{
    static const struct {
        uint8_t state;
        const char *local, *remote;
    } why[] = {
        {3, ONLY("7"), "7" TAKEN_901},
        {4, ONLY("11"), "11" TAKEN_901},
        {5, ONLY("12"), "12" TAKEN_901},
    };
    static const int places[] = {1, 64, 65, 96};
    size_t i, p;
    for (i = 0; i < sizeof why / sizeof *why; i++)
        for (p = 0; p < sizeof places / sizeof *places; p++) {
            clear(&image, 0, PARK_IMAGE_OCTETS);
            put_record(record(places[p]), why[i].state, 1);
            text("3\t" ONE "\t0\t0\t0\t0\t0");
            answers(why[i].local, 0);
            text("4\t" ONE "\t0\t0\t901\t0\t0");
            answers(why[i].remote, 0);
        }
}

/*
 * "Branches find it unfair that position 1 is always served before position 40. With choice 1 or 2, take the waiting call that came first
 * on its side. Each record keeps its rank among the occupied places of its side, from 1; when a place is freed, higher ranks on that side
 * drop by one. A call sent back to waiting keeps its rank."
 */
static void longest_waiting_first(void)
{
    static const struct {
        const char *event, *says;
        uint8_t ranks[4]; /* of positions 40, 1 and 2 and of line 96, after the event */
    } steps[] = {
        {"1\t" ONE "\t40\t0\t0\t0\t0", "0\t" ONE "\t40\t1\t1\t0\t0\t0\t1\t0" NO_SECOND, {1, 0, 0, 0}},
        {"1\t" TWO "\t1\t0\t0\t0\t0", "0\t" TWO "\t1\t1\t1\t0\t0\t0\t1\t0" NO_SECOND, {1, 2, 0, 0}},
        {"2\t" FOUR "\t96\t0\t0\t0\t0", "0\t" FOUR "\t96\t2\t0\t0\t0\t0\t0\t0" NO_SECOND, {1, 2, 0, 1}},
        {"1\t" THREE "\t2\t0\t0\t0\t0", "0\t" THREE "\t2\t1\t1\t0\t0\t0\t1\t0" NO_SECOND, {1, 2, 3, 1}},
        /* position 40 before position 1, and again after it was sent back */
        {NEXT_POSITION, "0\t" ONE "\t40\t4\t4\t0\t1\t0\t4\t0" NO_SECOND, {1, 2, 3, 1}},
        {"6\t" ONE "\t0\t0\t0\t1\t0", "0\t" ONE "\t40\t1\t6\t901\t0\t1\t0\t4" NO_SECOND, {1, 2, 3, 1}},
        {NEXT_POSITION, "0\t" ONE "\t40\t4\t4\t0\t2\t0\t4\t0" NO_SECOND, {1, 2, 3, 1}},
        /* one that is asked for does not wait: position 1 is next */
        {NEXT_POSITION, "0\t" TWO "\t1\t4\t4\t0\t1\t0\t4\t0" NO_SECOND, {1, 2, 3, 1}},
        /* it is freed: only what came after it, on its side, moves up */
        {"8\t" TWO "\t0\t0\t0\t0\t0", "0\t" TWO "\t1\t0\t6\t901\t0\t1\t0\t5" NO_SECOND, {1, 0, 2, 1}},
        /* parked again at position 1, it is the last */
        {"1\t" TWO "\t1\t0\t0\t0\t0", "0\t" TWO "\t1\t1\t1\t0\t0\t0\t1\t0" NO_SECOND, {1, 3, 2, 1}},
        {NEXT_POSITION, "0\t" THREE "\t2\t4\t4\t0\t1\t0\t4\t0" NO_SECOND, {1, 3, 2, 1}},
        {"8\t" FOUR "\t0\t0\t0\t0\t0", "0\t" FOUR "\t96\t0\t0\t0\t0\t0\t0\t0" NO_SECOND, {1, 3, 2, 0}},
        {"8\t" ONE "\t0\t0\t0\t0\t0", "0\t" ONE "\t40\t0\t6\t901\t0\t1\t0\t5" NO_SECOND, {0, 2, 1, 0}},
    };
    static const int places[] = {40, 1, 2, 96};
    size_t i, p;
    clear(&image, 0, PARK_IMAGE_OCTETS);
    for (i = 0; i < sizeof steps / sizeof *steps; i++) {
        text(steps[i].event);
        answers(steps[i].says, 1);
        for (p = 0; p < 4; p++) expect(record(places[p])[21] == steps[i].ranks[p], "the ranks after the event");
    }
}

/* "The ranks of a side with n calls are exactly 1 to n, a free place has 0, and a table otherwise is unsound." */
static void bad_ranks(void)
{
    static const uint8_t bad[][4] = {
        {0, 1, 2, 1}, {1, 2, 4, 1}, {1, 1, 2, 1}, {2, 2, 3, 1}, {2, 3, 4, 1}, {1, 3, 3, 1}, {1, 2, 255, 1}, {3, 2, 0, 1}, {1, 2, 3, 0}, {1, 2, 3, 2}, {1, 2, 3, 4},
    };
    static const uint8_t good[][4] = {{1, 2, 3, 1}, {3, 2, 1, 1}, {2, 3, 1, 1}};
    static const int places[] = {40, 1, 64, 65};
    size_t i, p, set_of;
    for (set_of = 0; set_of < 2; set_of++)
        for (i = 0; i < (set_of ? sizeof good / sizeof *good : sizeof bad / sizeof *bad); i++) {
            clear(&image, 0, PARK_IMAGE_OCTETS);
            for (p = 0; p < 4; p++) {
                record(places[p])[0] = 3, record(places[p])[1] = (uint8_t)(p + 1);
                record(places[p])[21] = set_of ? good[i][p] : bad[i][p];
            }
            if (!set_of) refused_image();
            else text("8\t" ZEROS "\t0\t0\t0\t0\t0"), answers(ONLY("5"), 0);
        }
}

static void bad_images(void)
{
    size_t len;
    int place, octet, state;
    for (len = 0; len <= 64; len++) clear(&image, 0, len), refused_image();
    for (len = PARK_IMAGE_OCTETS - 96; len <= PARK_IMAGE_OCTETS + 96; len++)
        if (len != PARK_IMAGE_OCTETS) clear(&image, 0, len), refused_image();
    clear(&image, 0, 2 * PARK_IMAGE_OCTETS);
    refused_image();
    for (place = 1; place <= 96; place++) {
        /* "park positions have state 0, 1, 3, 4 or 5 and lines 0, 2, 3, 4 or 5"; a state above 5 is none */
        for (state = 6; state < 256; state += 1 + (place != 1 && place != 96) * 50) {
            clear(&image, 0, PARK_IMAGE_OCTETS);
            record(place)[0] = (uint8_t)state, record(place)[21] = 1;
            refused_image();
        }
        clear(&image, 0, PARK_IMAGE_OCTETS);
        record(place)[0] = place <= 64 ? 2 : 1, record(place)[21] = 1;
        refused_image();
        /* "a free record is all zeros", and "a free place has 0" */
        for (octet = 1; octet <= 21; octet++) {
            clear(&image, 0, PARK_IMAGE_OCTETS);
            record(place)[octet] = 1;
            refused_image();
        }
        /* "the connection is 0 except in state 4" */
        for (state = 1; state <= 5; state++) {
            if (state == 4 || state == (place <= 64 ? 2 : 1)) continue;
            clear(&image, 0, PARK_IMAGE_OCTETS);
            record(place)[0] = (uint8_t)state, record(place)[21] = 1;
            record(place)[17] = 1;
            refused_image();
            record(place)[17] = 0;
            record(place)[18] = 255;
            refused_image();
        }
        /* "no two occupied places hold the same call" */
        if (place < 96) {
            int other = place == 95 ? 96 : place + 1 + place % (96 - place);
            clear(&image, 0, PARK_IMAGE_OCTETS);
            record(place)[0] = 3, record(place)[5] = 7, record(place)[21] = 1;
            record(other)[0] = 5, record(other)[5] = 7, record(other)[21] = (uint8_t)(1 + ((place <= 64) == (other <= 64)));
            refused_image();
            /* two calls that differ in the last octet, or in the first, are two calls */
            record(other)[16] = 1;
            text("8\t" ZEROS "\t0\t0\t0\t0\t0");
            answers(ONLY("5"), 0);
            record(other)[16] = 0, record(other)[1] = 1;
            answers(ONLY("5"), 0);
        }
    }
}

/* The line is refused so, and the query names this field (Q-3: "its first bad field, 1 to 7, or 0 when no single field is to blame"). */
static void refused_line(const char *says, unsigned field)
{
    struct buffer before = line;
    answers(says, 0);
    expect(park_bad_field(start(&line), line.len) == field, "the first bad field");
    expect(memcmp(&before, &line, sizeof line) == 0, "the query keeps the line");
}

/* 21 to 24, in that order; "A line feed inside it makes its field bad." */
static void bad_lines(void)
{
    static const char *const twenty_two[] = {"", "\t", "1\t" ONE "\t17\t0\t0\t0", "1\t" ONE "\t17\t0\t0\t0\t0\t0", "1 " ONE " 17 0 0 0 0"};
    static const struct {
        unsigned field;
        const char *line;
    } twenty_three[] = {
        {1, "\t" ONE "\t17\t0\t0\t0\t0"}, {1, "01\t" ONE "\t17\t0\t0\t0\t0"}, {1, "256\t" ONE "\t17\t0\t0\t0\t0"},
        {1, "x\t" ONE "\t17\t0\t0\t0\t0"}, {3, "1\t" ONE "\t\t0\t0\t0\t0"}, {3, "1\t" ONE "\t65536\t0\t0\t0\t0"},
        {3, "1\t" ONE "\t-1\t0\t0\t0\t0"}, {3, "1\t" ONE "\t+1\t0\t0\t0\t0"}, {4, "1\t" ONE "\t17\t256\t0\t0\t0"},
        {5, "1\t" ONE "\t17\t0\t65536\t0\t0"}, {6, "1\t" ONE "\t17\t0\t0\t65536\t0"}, {7, "1\t" ONE "\t17\t0\t0\t0\t256"},
        {7, "1\t" ONE "\t17\t0\t0\t0\t00"}, {3, "1\t" ONE "\t17\n\t0\t0\t0\t0"}, {1, "1\n\t" ONE "\t17\t0\t0\t0\t0"},
        {7, "1\t" ONE "\t17\t0\t0\t0\t0\n"}, {7, "1\t" ONE "\t17\t0\t0\t0\t0\r"}, {1, "01\tx\t17\t0\t0\t0\t0"},
        {1, "\t\t\t\t\t\t"}, {3, "1\t" ONE "\tx\tx\tx\tx\tx"}, {6, "1\t" ONE "\t17\t0\t0\t\t"},
    };
    static const char *const twenty_four[] = {
        "1\t\t17\t0\t0\t0\t0", "1\t0000000000000000000000000000001\t17\t0\t0\t0\t0", "1\t000000000000000000000000000000001\t17\t0\t0\t0\t0",
        "1\t0000000000000000000000000000000A\t17\t0\t0\t0\t0", "1\t0000000000000000000000000000000g\t17\t0\t0\t0\t0",
        "1\t0000000000000000000000000000000\n\t17\t0\t0\t0\t0", "1\tx\tx\t0\t0\t0\t0",
    };
    char longest[LARGEST];
    size_t i, len;
    clear(&image, 0, PARK_IMAGE_OCTETS);
    for (len = 63; len < 200; len++) memset(longest, '\t', len), set(&line, longest, len), refused_line(ONLY("21"), 0);
    memset(longest, '1', sizeof longest);
    set(&line, longest, sizeof longest);
    refused_line(ONLY("21"), 0);
    memset(longest, '\t', 62);
    set(&line, longest, 62);
    refused_line(ONLY("22"), 0);
    for (i = 0; i < sizeof twenty_two / sizeof *twenty_two; i++) text(twenty_two[i]), refused_line(ONLY("22"), 0);
    for (i = 0; i < sizeof twenty_three / sizeof *twenty_three; i++) text(twenty_three[i].line), refused_line(ONLY("23"), twenty_three[i].field);
    for (i = 0; i < sizeof twenty_four / sizeof *twenty_four; i++) text(twenty_four[i]), refused_line(ONLY("24"), 2);
    /* the longest line reads: 62 octets; kind 255 is refused by 1, and that is not for a bad field */
    text("255\t" ONE "\t65535\t255\t65535\t65535\t255");
    expect(line.len == 62, "the longest line has 62 octets");
    refused_line(ONLY("1"), 0);
}

/* A park changes the octets of its own place and no others. */
static void one_place(void)
{
    int place;
    for (place = 1; place <= 64; place++) {
        char event[80];
        struct buffer before;
        size_t i;
        if (place == 1) clear(&image, 0, PARK_IMAGE_OCTETS);
        before = image;
        sprintf(event, "1\t%032x\t0\t0\t0\t0\t0", (unsigned)place * 257);
        text(event);
        clear(&answer, 0, PARK_ANSWER_OCTETS);
        expect(call() > 0 && start(&answer)[0] == '0', "a park is done while there is room");
        for (i = 0; i < PARK_IMAGE_OCTETS; i++)
            if (i / 22 != (size_t)place - 1) expect(start(&image)[i] == start(&before)[i], "the other places stay");
        expect(record(place)[0] == 1, "the lowest free position");
        expect(record(place)[21] == place, "the last of its side");
    }
    text("1\t" ZEROS "\t5\t0\t0\t0\t0");
    answers(NOT_PARKED("4"), 0);
}

/* The call is the only one of its side. */
static void hold(int place, uint8_t state, const uint8_t *call)
{
    record(place)[0] = state;
    memcpy(record(place) + 1, call, 16);
    record(place)[21] = 1;
}

/* An event of this kind that names the call and nothing else. */
static void name(int kind, const uint8_t *call)
{
    char event[80];
    int i, n = sprintf(event, "%d\t", kind);
    for (i = 0; i < 16; i++) n += sprintf(event + n, "%02x", call[i]);
    strcpy(event + n, "\t0\t0\t0\t0\t0");
    text(event);
}

/* 5 "call not in the table", 3 "call already in the table", and "no two occupied places hold the same call" */
static void two_calls(const uint8_t *one, const uint8_t *other)
{
    clear(&image, 0, PARK_IMAGE_OCTETS);
    hold(64, 1, one);
    name(8, other), answers(ONLY("5"), 0);
    name(1, one), answers(NOT_PARKED("3"), 0);
    hold(96, 5, other);
    name(1, other), answers(NOT_PARKED("3"), 0);
    hold(96, 5, one);
    refused_image();
}

/*
 * "Nothing that a caller can see changes." From whichever end they are compared, two calls that differ in a single bit are two, and so are
 * two that differ in one half by 509, low octet first. The test of the image compares such two whole (docs/DECISIONS.md, D-20).
 */
static void every_octet_counts(void)
{
    uint8_t one[16], other[16];
    int bit, half;
    for (bit = 0; bit < 128; bit++) {
        memset(one, 0x3C, 16), memset(other, 0x3C, 16);
        other[bit / 8] ^= (uint8_t)(1 << bit % 8);
        two_calls(one, other), two_calls(other, one);
    }
    for (half = 0; half < 16; half += 8) {
        memset(one, 0x3C, 16), memset(other, 0x3C, 16);
        one[half] = 0, one[half + 1] = 0;
        other[half] = 509 % 256, other[half + 1] = 509 / 256;
        two_calls(one, other), two_calls(other, one);
    }
}

int main(void)
{
    session();
    short_answers();
    picker_told();
    longest_answers();
    taken();
    longest_waiting_first();
    bad_images();
    bad_ranks();
    bad_lines();
    one_place();
    every_octet_counts();
    printf("park_test: %lu checks passed\n", checks);
    return 0;
}
