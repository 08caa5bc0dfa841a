/* compare.h: a call asked of the engine and of brute force, on parts lent between guard bytes, at any address.
 *
 * The answers and every byte are compared: both buffers, the guards on both sides of each, and the other lent
 * parts with theirs.
 */
#ifndef COMPARE_H
#define COMPARE_H

#include "calls.h"
#include "gen.h"

enum { COMPARE_ROOM = 4 * GEN_VECTOR_ROOM + 8, COMPARE_RULES = 17 }; /* the most bytes of a part; refusals */

/* What has come of all calls so far; and for what is said of a difference, the input that they are on. */
extern struct compared {
    unsigned calls, done, refusals[COMPARE_RULES + 1], differ;
    unsigned pairs, caught_pairs[2]; /* of a lead's fault and its reader's; the second of those that cross over */
    const uint8_t *buffer, *tallies; /* as the engine left them */
    uint64_t seed;
    unsigned inputs;
} compared;

/* Seeds the inputs that follow. */
void compare_seed(uint64_t seed);

/* Lends copies of what is asked and buffers of so many bytes of any content, the tallies' for GRADE alone;
 * brute force's answer. */
uint64_t compare(const struct asked *a, size_t room, size_t tallies_room);

/* A lead's two faults are those of the node that reads it: of each pair the marks and the tallies are equal. The
 * words are the engine's; brute force only tells which fault of which node goes with a lead's. */
void compare_pairs(const uint8_t *card, size_t card_len, const uint8_t *marks, const uint8_t *tallies);

/* Counts a difference and says where it is; of the first few, 1, so that more can be said. */
int differ(const char *what);

/* Says where there are fewer than there should be: 1, else 0. */
int too_few(const char *what, unsigned got, unsigned least);

/* A buffer's length in bytes for so many words: mostly enough, with words and leftover bytes to spare or not. */
size_t pick_room(size_t words);

uint32_t word_at(const uint8_t *bytes, size_t at);

#endif
