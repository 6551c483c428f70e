/*
 * host.c: a small host of the park and pickup table, as the firmware around park_step may begin.
 *
 * It keeps the table image and the clocks, turns what happens into event lines, and does what the answer lines say.
 * What happens is read from a script on standard input (script.txt is one), and time is the script's own, so a run can
 * be compared with expected.txt. Where this program prints "send", a real one puts the message on the wire.
 */
#include "park.h"

#include <limits.h>
#include <stdio.h>
#include <stdlib.h>
#include <string.h>

#define PLACES 96
#define RECORD_OCTETS 22
#define CALL_DIGITS 32

enum kind { PARK = 1, ALERT, PICKUP, PICKREQU, RESULT, ERROR, RELEASE_ERROR, RELEASE, ANSWERED, EXPIRY };

/* The kinds by their names in the script. An expiry is not among them: it comes from the clocks below. */
static const char *const kind_names[] = {
    "", "park", "alert", "pickup", "pickrequ", "result", "error", "release-error", "release", "answered",
};

static const char *const state_names[] = {
    "free", "CP-WaitforPickup", "WaitforPickup", "CpickupRequested", "CpickupRemoteRequested", "handed over",
};

static const char *const message_names[] = {
    "nothing",
    "PROGRESS with cpSetup Return Result",
    "cpSetup Return Error",
    "CONNECT with pickup Invoke",
    "FACILITY with pickup Invoke",
    "pickrequ Return Result",
    "pickrequ Return Error",
    "RELEASE COMPLETE",
};

static const char *const error_names[] = {"none", "undefined", "callAlreadyPickedUp"};

/*
 * How long the clocks run is the host's choice: neither the table nor H.450.5 names a duration. Two minutes are a fair
 * wait for a parked caller. T6 and T9 only cover a message there and back; they differ so that a run tells them apart.
 */
#define TIMERS 3
static const struct {
    unsigned number, bit;
    unsigned long seconds;
} timers[TIMERS] = {{3, 1, 120}, {6, 2, 10}, {9, 4, 15}};

struct event {
    unsigned kind, place, choice, connection, invoke, timer;
    char call[CALL_DIGITS + 1];
    unsigned link; /* the signalling connection it came on; the table has no such field */
};

struct message {
    unsigned number, connection, invoke, error;
};

struct answer {
    unsigned number, place, state, started, stopped;
    unsigned bad_field; /* of the event's line; no field of the answer */
    char call[CALL_DIGITS + 1];
    struct message first, second;
};

/* All zeros is the empty table. Only park_step writes here. */
static uint8_t image[PARK_IMAGE_OCTETS];

/* What the host itself has to know of the call at a place. The call is empty where the place is free. */
static struct held {
    char call[CALL_DIGITS + 1];
    unsigned link;
    unsigned long due[TIMERS]; /* the second at which the clock runs out, 0 if it is not armed */
} held[PLACES + 1];

static unsigned long now; /* seconds of the script */

static void fail(const char *why, const char *text)
{
    fprintf(stderr, "host: %s: %s\n", why, text);
    exit(2);
}

/*
 * The event as a line, the step, and the answer line as a struct. Nothing has to be checked first, as any line has an
 * answer. What an answer can hold follows from the table's definition, so its fields index the arrays below unchecked.
 */
static struct answer step(const struct event *e)
{
    char line[128], text[PARK_ANSWER_OCTETS + 1];
    struct answer a;
    int len = snprintf(line, sizeof line, "%u\t%s\t%u\t%u\t%u\t%u\t%u", e->kind, e->call, e->place, e->choice,
                       e->connection, e->invoke, e->timer);
    size_t n = park_step(image, sizeof image, (const uint8_t *)line, (size_t)len, (uint8_t *)text, PARK_ANSWER_OCTETS);
    text[n] = '\0';
    a.bad_field = park_bad_field((const uint8_t *)line, (size_t)len);
    if (sscanf(text, "%u %32s %u %u %u %u %u %u %u %u %u %u %u %u", &a.number, a.call, &a.place, &a.state,
               &a.first.number, &a.first.connection, &a.first.invoke, &a.first.error, &a.started, &a.stopped,
               &a.second.number, &a.second.connection, &a.second.invoke, &a.second.error) != 14)
        fail("no answer to", line);
    return a;
}

/*
 * Connection and invoke may rightly be 0, so the message says whether they are set, not their value. Messages 5 and 6
 * go to the one who picks up; all others go to the far end of the held call, or of the call that could not be parked.
 */
static void send_message(const struct message *m, unsigned link)
{
    printf("    send %s", message_names[m->number]);
    if (m->number == 5 || m->number == 6) printf(" to connection %u", m->connection);
    else if (m->number != 0) printf(" on link %u", link);
    if (m->number == 3 || m->number == 4) printf(", invoke %u", m->invoke);
    if (m->error != 0) printf(", error %u %s", m->error, error_names[m->error]);
    printf("\n");
}

/* Both messages of an answer, in their order. Most have no second one: it tells a picker that T3 ended the wait. */
static void send_messages(const struct answer *a, unsigned link)
{
    send_message(&a->first, link);
    if (a->second.number != 0) send_message(&a->second, link);
}

/*
 * Arms what was started and drops what was stopped. A stopped clock must be gone at once, with any expiry of it that
 * already waits in a queue: the table knows calls, not clocks, and takes a T9 of the last Invoke for that of the next.
 */
static void set_clocks(struct held *h, const struct answer *a)
{
    int t;
    for (t = 0; t < TIMERS; t++) {
        if (a->started & timers[t].bit) {
            h->due[t] = now + timers[t].seconds;
            printf("    arm T%u for %lu s\n", timers[t].number, timers[t].seconds);
        }
        /* the clock whose expiry led to this answer is among the stopped ones, but no longer armed */
        if ((a->stopped & timers[t].bit) && h->due[t] != 0) {
            printf("    cancel T%u with %lu s left\n", timers[t].number, h->due[t] - now);
            h->due[t] = 0;
        }
    }
}

/* Why a call that a pickup names is not to be had. This is for the clerk: on the wire the three are one error. */
static const char *taken_how(unsigned number)
{
    switch (number) {
    case 7: return "it is being picked up here";
    case 11: return "it is being picked up elsewhere";
    case 12: return "it has been handed over";
    default: return NULL;
    }
}

static void tell_refusal(const struct answer *a)
{
    printf("    refused by %u", a->number);
    if (taken_how(a->number) != NULL) printf(": %s", taken_how(a->number));
    if (a->bad_field != 0) printf(": field %u of the line is bad", a->bad_field);
    printf("\n");
}

/* Passes an event to the table and does what the answer says. */
static void take(const struct event *e)
{
    struct answer a = step(e);
    struct held *h = &held[a.place];
    if (a.number != 0) {
        /* the table is as it was and no clock changes, but a refused park or pickrequ still has its error to send */
        tell_refusal(&a);
        send_messages(&a, e->link);
        return;
    }
    if (e->kind == PARK || e->kind == ALERT) {
        memcpy(h->call, a.call, sizeof h->call);
        h->link = e->link;
    }
    printf("    place %u: state %u %s\n", a.place, a.state, state_names[a.state]);
    send_messages(&a, h->link);
    set_clocks(h, &a);
    /* the next park may take the place at once, so nothing of this stay may be left */
    if (a.state == 0) memset(h, 0, sizeof *h);
}

/*
 * Drops what comes on a link that the host has given up. This is the host's duty, and the table cannot do it: it tells
 * results apart by call and invoke number, and when the same CallIdentifier is parked again, the count begins anew at
 * 0. A late result of the first stay may then have the very number that the second stay waits for. So each result is
 * tied to the link that its Invoke was sent on, and what comes on any other link is not passed on. The same goes for a
 * late release, which would free the new stay. If the call is not held at all, the table refuses by 5.
 */
static int dropped(const struct event *e)
{
    unsigned place;
    if (e->kind < RESULT || e->kind > RELEASE) return 0;
    for (place = 1; place <= PLACES; place++)
        if (strcmp(held[place].call, e->call) == 0 && held[place].link != e->link) {
            printf("    dropped: the call is held on link %u\n", held[place].link);
            return 1;
        }
    return 0;
}

/* A clock has run out. It is put off first: whatever the table answers, it must not run out twice. */
static void expire(unsigned place, int t)
{
    struct event e = {.kind = EXPIRY, .timer = timers[t].number};
    memcpy(e.call, held[place].call, sizeof e.call);
    now = held[place].due[t];
    held[place].due[t] = 0;
    printf("%lu s T%u of place %u runs out\n", now, timers[t].number, place);
    take(&e);
}

/* Runs out the clocks that are due before that second, the earliest first. Each may cancel others: search again. */
static void run_clocks(unsigned long before)
{
    for (;;) {
        unsigned place, first_place = 0;
        unsigned long first_due = before;
        int t, first_timer = 0;
        for (place = 1; place <= PLACES; place++)
            for (t = 0; t < TIMERS; t++)
                if (held[place].due[t] != 0 && held[place].due[t] < first_due) {
                    first_place = place;
                    first_timer = t;
                    first_due = held[place].due[t];
                }
        if (first_place == 0) return;
        expire(first_place, first_timer);
    }
}

/* What the table holds, read from its image: per place state, call, connection, count and rank. */
static void show(void)
{
    unsigned place, i, occupied = 0;
    for (place = 1; place <= PLACES; place++) {
        const uint8_t *record = image + (place - 1) * RECORD_OCTETS;
        if (record[0] == 0) continue;
        occupied++;
        printf("    place %u: state %u %s, call ", place, record[0], state_names[record[0]]);
        for (i = 1; i <= 16; i++) printf("%02x", record[i]);
        printf(", connection %u, count %u, rank %u\n", record[17] * 256u + record[18], record[19] * 256u + record[20],
               record[21]);
    }
    if (occupied == 0) printf("    the table is empty\n");
}

static int read_number(const char *value, unsigned *field)
{
    char *end;
    unsigned long number = strtoul(value, &end, 10);
    *field = (unsigned)number;
    return end != value && *end == '\0' && number <= 65535;
}

/* Reads "park call=b2 place=17 link=2" and the like; a call may lack its leading zeros. Gives 0 if it cannot. */
static int read_event(char *text, struct event *e)
{
    static const char *const names[] = {"place", "choice", "connection", "invoke", "link"};
    unsigned *const fields[] = {&e->place, &e->choice, &e->connection, &e->invoke, &e->link};
    char *word = strtok(text, " ");
    unsigned kind;
    memset(e, 0, sizeof *e);
    memset(e->call, '0', CALL_DIGITS);
    for (kind = PARK; kind <= ANSWERED; kind++)
        if (word != NULL && strcmp(word, kind_names[kind]) == 0) e->kind = kind;
    if (e->kind == 0) return 0;
    while ((word = strtok(NULL, " ")) != NULL) {
        char *value = strchr(word, '=');
        size_t i;
        int good = 0;
        if (value == NULL) return 0;
        *value++ = '\0';
        if (strcmp(word, "call") == 0 && strlen(value) <= CALL_DIGITS) {
            memcpy(e->call + CALL_DIGITS - strlen(value), value, strlen(value));
            good = 1;
        }
        for (i = 0; i < sizeof names / sizeof *names; i++)
            if (strcmp(word, names[i]) == 0) good = read_number(value, fields[i]);
        if (!good) return 0;
    }
    return 1;
}

int main(void)
{
    char text[256];
    while (fgets(text, sizeof text, stdin) != NULL) {
        char *what;
        unsigned long at = strtoul(text, &what, 10);
        struct event e;
        text[strcspn(text, "\n")] = '\0';
        if (text[0] == '#' || text[0] == '\0') continue;
        if (what == text || *what != ' ' || at < now) fail("no time, or one that is past", text);
        /* a clock that is due in the same second goes first: it was armed before this event came */
        run_clocks(at + 1);
        now = at;
        printf("%lu s%s\n", now, what);
        if (strcmp(what, " show") == 0) show();
        else if (!read_event(what, &e)) fail("no event", text);
        else if (!dropped(&e)) take(&e);
    }
    run_clocks(ULONG_MAX);
    printf("%lu s end\n", now);
    show();
    return 0;
}
