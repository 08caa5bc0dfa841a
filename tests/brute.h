/* brute.h: the calls on cards and the program's text again, by brute force; the one on gate lists is in gatesim.h.
 *
 * Written from documents 01 and 02 alone. It shares nothing with the engine and knows no marking rules:
 * what faults do is found by putting them in and working out the whole card again.
 */
#ifndef BRUTE_H
#define BRUTE_H

#include <stddef.h>
#include <stdint.h>

/* As the functions of cardhost.h. */
uint64_t brute_check(const uint8_t *card, size_t card_len, uint8_t *numbers, size_t numbers_len);
uint64_t brute_good_values(const uint8_t *card, size_t card_len, const uint8_t *vector, size_t vector_len,
                           uint8_t *values, size_t values_len);
uint64_t brute_fault_values(const uint8_t *card, size_t card_len, const uint8_t *vector, size_t vector_len,
                            const uint8_t *faults, size_t faults_len, uint8_t *values, size_t values_len);
uint64_t brute_change_list(const uint8_t *card, size_t card_len, const uint8_t *vector, size_t vector_len,
                           uint32_t graph, uint8_t *list, size_t list_len);
uint64_t brute_critical_nodes(const uint8_t *card, size_t card_len, const uint8_t *vector, size_t vector_len,
                              uint8_t *nodes, size_t nodes_len);
uint64_t brute_grade(const uint8_t *card, size_t card_len, const uint8_t *vectors, size_t vectors_len,
                     uint8_t *marks, size_t marks_len, uint8_t *tallies, size_t tallies_len);
uint64_t brute_join(const uint8_t *a, size_t a_len, const uint8_t *b, size_t b_len, const uint8_t *wires, size_t wires_len,
                    uint8_t *card, size_t card_len);

/* The two cards that brute_join has joined last, worked out together, A and then B with what A has on its
 * wires: no joined card is looked at, also not for the readers of a graph. Vectors, faults and graphs are
 * told as of the joined card, with right vectors, right lists of faults and enough room. The values with a list
 * of faults in, which may be empty; the marks and tallies of a list of vectors, and the marked count. */
void brute_together_values(const uint8_t *vector, const uint8_t *faults, size_t faults_len, uint8_t *values);
uint64_t brute_together_grade(const uint8_t *vectors, size_t vectors_len, uint8_t *marks, uint8_t *tallies);

/* Of the card that a call other than brute_join accepted last: the fault of a graph's one reader that goes with the
 * graph held at 0 or 1, or -1 where the graph has a stem. It is the node stuck at the exit of that number, and of the
 * other one where the read is inverted (crossed). */
long brute_lead_fault(uint32_t graph, unsigned at);
int brute_is_crossed(uint32_t fault);

/* What cardgrade prints for these bytes; the text's length. The room is at least BRUTE_TEXT. */
enum { BRUTE_TEXT = 400000 };
size_t brute_text(const uint8_t *input, size_t len, char *text);

#endif
