/* gatesim.h: gate lists by themselves: which are accepted, what values their lines have with stuck faults in or with
 * none, and which faults vectors catch.
 *
 * Written from document 02 alone. It knows inputs, gates and leads, and no graph and no card: a gate is worked out by
 * its truth function, and what faults do is found by putting them in and working out the whole list again. Only
 * gatesim_card knows a card's words.
 */
#ifndef GATESIM_H
#define GATESIM_H

#include <stddef.h>
#include <stdint.h>

enum { AND, OR, NAND, NOR, NOT, BUF, FUNCTIONS };
enum { GATESIM_LINES = 1024, GATESIM_LEADS = 4096, GATESIM_FAULTS = 2 * GATESIM_LEADS + 2 * GATESIM_LINES };

extern const char *const function_names[FUNCTIONS];

/* Inputs and gates are lines, numbered in their order. */
struct gate_list {
    unsigned inputs, lines, leads, observable;
    unsigned kind[GATESIM_LINES];      /* 0 an input, 1 a hidden gate, 2 an observable one */
    unsigned function[GATESIM_LINES];  /* of a gate */
    unsigned first[GATESIM_LINES + 1]; /* the number of a gate's first lead */
    unsigned from[GATESIM_LEADS];      /* the line that a lead names */
    unsigned readers[GATESIM_LINES];   /* how many leads name a line */
};

/* With N leads, fault 2j + v is lead j stuck at v, and fault 2N + 2l + v line l. */
unsigned gatesim_faults(const struct gate_list *g);

/* Takes in a gate list: 0, or its refusal as card_from_gates answers it; 12 is not looked at. */
uint64_t gatesim_take(struct gate_list *g, const uint8_t *gates, size_t len);

/* A word for each line: its value under a right vector, with a right list of faults in, as of card_fault_values; it may be
 * empty. */
void gatesim_values(const struct gate_list *g, const uint8_t *vector, const uint8_t *faults, size_t faults_len, uint8_t *values);

/* A list of right vectors: a word for each fault of marks and of tallies, as of card_grade, and the marked count. */
uint64_t gatesim_grade(const struct gate_list *g, const uint8_t *vectors, size_t len, uint8_t *marks, uint8_t *tallies);

/* As card_from_gates. */
uint64_t gatesim_card(const uint8_t *gates, size_t gates_len, uint8_t *card, size_t card_len);

#endif
