/*
 * park.h: the park and pickup table of a voice appliance, one event at a time.
 *
 * A table of 96 places holds parked and alerting calls. The caller keeps the table as an image of 2,112 octets; an image of all zeros is
 * the empty table. An event comes as one line of text, and is answered by one line of text.
 *
 * Each place has 22 octets, place 1 first: state, call (16), connection (2), count (2), the last two high octet first, and rank. The calls
 * of a side, park positions 1 to 64 or lines 65 to 96, are ranked from 1 in the order in which they came; a free place has rank 0. A pickup
 * with choice 1 or 2 takes the call that came first of those that wait on that side.
 *
 * Event line, without its line feed, at most 62 octets, seven fields parted by tabs:
 *     kind  call  place  choice  connection  invoke  timer
 * Answer line, ended by a line feed, at most 77 octets with it, fourteen fields parted by tabs:
 *     number  call  place  state  message  connection  invoke  error  started  stopped  message  connection  invoke  error
 * Numbers are decimal with no leading zeros; the call is 32 lowercase hexadecimal digits.
 *
 * The last four fields are those of a second message, to be sent after the first: where T3 ends the wait of a call that was asked for from
 * elsewhere, the held call is released first, and then the picker is told. They are zeros in every other answer.
 *
 * An answer's number is 0 where the event is done. Then the image is that of the table after it. Any other number is a refusal, and the
 * image stays as it was, octet for octet. In the order in which they are looked for:
 *     25  the image has not 2,112 octets, or its table is not sound
 *     21  the line has more than 62 octets
 *     22  not exactly seven fields
 *     23  the first bad field is a number
 *     24  the first bad field is the call
 *      1  the kind is not 1 to 10
 *      2  the choice is above 2, or the timer is not 3, 6 or 9
 *      3  a park or an alert: the call is already held
 *      4  a park or an alert: no place of the side is free
 *      5  the call is not held
 *      6  nothing waits on the side asked for
 *      7  a pickup by name: a pickup at this box is under way (state 3)
 *     11  a pickup by name: a pickup from elsewhere is under way (state 4)
 *     12  a pickup by name: the call is handed over already (state 5)
 *      8  the state of the call does not fit the event
 *      9  the invoke number is not the outstanding one
 *     10  that timer is not running
 * (26, an answer buffer that is too short, is no number of an answer: nothing is written.) To whoever asked from elsewhere 7, 11 and 12 are
 * one error, callAlreadyPickedUp; the number is for the clerk.
 */
#ifndef PARK_H
#define PARK_H

#include <stddef.h>
#include <stdint.h>

#ifdef __cplusplus
extern "C" {
#endif

#define PARK_IMAGE_OCTETS 2112

/*
 * What to set aside for an answer line, its line feed included. It is proved that no answer is longer, whatever the image and the line hold:
 * the call takes 32 octets, the number and the place two each, the two connections and the two invokes five each, the seven other fields
 * one each, thirteen tabs and the feed. No answer needs all of that. A refusal names no place, a message has a connection or an invoke and
 * not both, and of two messages one has neither: the longest line that is given has 64 octets, which is proved too. A buffer is refused
 * below PARK_ANSWER_OCTETS all the same, whatever the answer would have been.
 */
#define PARK_ANSWER_OCTETS 77

/*
 * Takes one event. Gives the count of octets written to the answer, its line feed included, and leaves the octets beyond them as they were.
 * The count is never above PARK_ANSWER_OCTETS.
 * Gives 0, and touches nothing, only where the answer buffer is shorter than PARK_ANSWER_OCTETS. Any other input has an answer: an image
 * of another length or of a table that is not sound is refused by 25, a line that does not read by 21 to 24, an event by 1 to 12.
 *
 * Proved for every content and every length of the three buffers. Left to the caller: each pointer must be valid, and not null, for its
 * length (the image and the answer for writing), the three buffers must not overlap, and no two calls may use one image at the same time.
 */
size_t park_step(uint8_t *image, size_t image_len,
                 const uint8_t *line, size_t line_len,
                 uint8_t *answer, size_t answer_len);

/*
 * The first bad field of an event line, 1 to 7, or 0 where no single field is to blame: the line reads, or it is too long (21), or it has not
 * seven fields (22). It is above 0 exactly where park_step refuses the line by 23 or 24 at a good image, and 2 exactly with 24. The line is
 * only read, and no image is looked at.
 *
 * Proved for every content and every length. Left to the caller: the pointer must be valid, and not null, for its length.
 */
uint8_t park_bad_field(const uint8_t *line, size_t line_len);

#ifdef __cplusplus
}
#endif

#endif
