/* cardhost.h: the grading engine for logic cards, called from C.
 *
 * Link with libcardhost.a; nothing else is needed. The eight functions keep no state between calls
 * and allocate nothing.
 *
 * WORDS. A card, its vectors, lists of faults and every answer are 32-bit words, each as four bytes,
 * highest byte first, at any address. The parameters that end in _len count bytes.
 *
 * A CARD is a set of decision graphs; docs/FORMAT.md has its words. With N nodes and G graphs it has
 * F = 2N + 2G faults. Fault 2j makes node j always take its 0-exit, 2j + 1 its 1-exit; fault 2N + 2g
 * holds graph g at 0, 2N + 2g + 1 at 1. A vector catches a fault exactly when, with the fault in, an
 * observable graph differs from its value with no fault. A node decides on the value of the graph that
 * it reads or, where bit 16 of its read (a kind 3 word) is set, on one minus that: an inverted read. A
 * node's faults are about its exits, a graph's about its own value.
 *
 * A LIST OF FAULTS is 0 to 8 fault numbers in any order, a word each. They hold together. No number stands in
 * it twice, and not both faults of one node or of one graph. A held graph shows its value whatever its nodes
 * do, so that their faults change nothing there. Gradings are about single faults.
 *
 * A LEAD counts a single time. A graph that is not observable (no input is) and that exactly one node of
 * the card reads is a lead, with no stem: held at 0 it is caught by the same vectors as that node stuck at
 * its 0-exit, and held at 1 as at its 1-exit; where the read is inverted, the other way round. Its two faults
 * do not count in the grade. All others do, also those of a graph that nobody reads. How many count is found
 * from the card's words (examples/host.c does it).
 *
 * A VECTOR for m inputs is w = m / 16 words, rounded up: A0000000 plus, in bit i of word j, the value
 * of input 16 * j + i. A list has 0 to 65,535 vectors, one after the other, numbered from 0.
 *
 * TWO CARDS, A and B, are joined by a wire word for each of B's inputs, in their order: the number of a
 * graph of A, be it an input, hidden or observable, or FFFFFFFF where the input stays free. The joined
 * card has A's inputs, B's free inputs, A's outputs and B's outputs, each in their order, numbered anew
 * from 0. A wired input of B is gone, and its readers read the graph of A, inverted where they were.
 * A's nodes keep their numbers, and B's follow them. All else stays as it was.
 *
 * GATE LISTS stand above cards. A gate list has a word 00000000 for each input, then for each gate a header
 * and its leads. The header is 20000000 for a hidden gate, 40000000 for an observable one, plus the function
 * in bits 28..26 (0 AND, 1 OR, 2 NAND, 3 NOR, 4 NOT, 5 BUF) and the number of leads in bits 15..0; bits 25..16
 * are zero. A lead is 60000000 plus the number of an earlier line: lines are the inputs and the gates, numbered
 * from 0 in their order. In the card that is made of it each line is a graph of the same kind and number and
 * each lead a node, in order, so its faults have the numbers of the card's: lead j stuck at 0 or 1 is node j
 * stuck at that exit, and line l stuck at 0 or 1 is graph l held there. Values and catches are those of the
 * gates. The graph that counts a single time, above, is here a line that is not observable and that one lead
 * alone names.
 *
 * THE ANSWER of every call is one 64-bit number. Below 4294967296 the call is done, and the number is
 *   - of card_grade, the marked count: how many of the faults that count are caught;
 *   - of card_change_list, the length of the list;
 *   - of card_join, the number of words of the joined card;
 *   - of card_from_gates, the number of words of the card;
 *   - of the other calls, 0.
 * Else the call is refused, and the number is refusal * 4294967296 + position (CARD_REFUSAL and
 * CARD_POSITION take it apart). The first broken rule is told, in this order: 1; then word by word 2,
 * 4, 5 and then 3, 6 or 7, with 8 after a graph's last word; 9; 10; 11; 17; 12, of the marks before the
 * tallies. card_join tells those of A, 1 to 9, then those of B, then 13, 14, 12. card_from_gates tells 1; then
 * word by word, at a header 2, 4, 5, 3, 15 and at a lead 4, 5, 16; 9; 12.
 *
 *   no.  when                                                          position
 *    1   card over 9,216 whole words                                   0
 *    2   any word where the header of a 1,025th graph is due           that word
 *    3   a header's node count is 0, or takes the nodes over 4,096     the header
 *    4   kind not due there, an input after an output, or the words    the word, or
 *        end inside a graph; also a card's leftover bytes              the word count
 *    5   a bit that must be zero is set, of a read one of 28..17       the word
 *    6   the graph read is not below its own                           the kind 3 word
 *    7   an exit to a node not later, or not in the graph              the kind 4 word
 *    8   a local node that no exit names                               the header
 *    9   no observable graph                                           the word count
 *   10   vector words: number, kind or bits wrong                      0, or the vector word
 *   11   graph number too high, or any fault number of a list, the     0
 *        ninth and later ones too
 *   12   buffer too short                                              0; of card_grade's tallies 1
 *   13   wire words: another number of them than B has inputs, or one  0, or the wire word
 *        is neither FFFFFFFF nor the number of a graph of A
 *   14   joined card over 1,024 graphs or over 4,096 nodes             0
 *   15   gate's function 6 or 7, no lead, or NOT or BUF without        the header
 *        exactly one
 *   16   lead of a gate names no earlier line                          the kind 3 word
 *   17   list of faults: over 8 numbers, one repeated, both faults of  0
 *        one node or graph, or leftover bytes
 *
 * Of a gate list 1, 2, 4, 5 and 9 are told with its lines for graphs and its gates for outputs; the bits that
 * must be zero are 28..0 of an input, 25..16 of a gate's header and 28..16 of a lead. 3 is told where a header's
 * number of leads takes them over 4,096, and no lead is 15.
 *
 * Positions count words from 0: in the card or gate list, or for refusal 10 in the vector words and for 13 in
 * the wire words; 12's is the buffer's number. Those of B, 0 included, count on after A's words: where A has
 * 9 words, B's word 5 is at 14, and 1 of B is at 9. The number of wire words is looked at before any of
 * them.
 *
 * LEFTOVERS, where a length is no multiple of 4. One to three bytes at the end of a card or a gate list are
 * refusal 4 at the number of its whole words, after the last graph's 8 and just before 9. In vectors they are a
 * wrong number of words, refusal 10 at 0, and in wire words likewise 13 at 0. In a list of faults they are
 * refusal 17, after 11 for its whole words. In a buffer they are unused.
 *
 * BUFFERS. A refused call alters no byte of any buffer. A call that is done writes just the words it
 * names, from a buffer's front; every byte beyond them keeps its content. Cards, vectors, lists of faults, wires
 * and gate lists are only read.
 *
 * TRUSTED, and not looked at: each pointer is good for its length (and not NULL, though nothing is
 * read or written at length 0), and a lent buffer overlaps no other lent part, also not the other buffer.
 * A host that breaks this gets no promise.
 *
 * STACK. A call needs at most CARD_STACK bytes of stack (tests/stack.c measures it on the largest cards and gate
 * lists).
 */
#ifndef CARDHOST_H
#define CARDHOST_H

#include <stddef.h>
#include <stdint.h>

#define CARD_STACK 1048576

#define CARD_REFUSAL(answer) ((uint32_t)((answer) >> 32))
#define CARD_POSITION(answer) ((uint32_t)((answer) & 0xFFFFFFFFu))

#ifdef __cplusplus
extern "C" {
#endif

/* Checks a card. Writes five words: the numbers of inputs, graphs, nodes, observable graphs and
 * faults. Refusals 1 to 9; 12 with under five whole words of buffer. */
uint64_t card_check(const uint8_t *card, size_t card_len, uint8_t *numbers, size_t numbers_len);

/* Writes G words, 0 or 1: each graph's value under the vector, with no fault in. The vector is exactly
 * w words. Refusals 1 to 10; 12 with under G whole words of buffer. */
uint64_t card_good_values(const uint8_t *card, size_t card_len, const uint8_t *vector, size_t vector_len,
                          uint8_t *values, size_t values_len);

/* The same with the faults of a list in, all together. A held graph's own word is the value that it is held
 * at. The empty list gives the good values, and two orders of a list give the same. Also refusal 11, where a
 * fault's number is F or more, and then 17; both are told before 12. */
uint64_t card_fault_values(const uint8_t *card, size_t card_len, const uint8_t *vector, size_t vector_len,
                           const uint8_t *faults, size_t faults_len, uint8_t *values, size_t values_len);

/* Which graphs have another value when this graph alone is held at the opposite of its value: writes
 * their numbers, rising, the graph's own first, and answers how many. Refusal 11 where the graph's
 * number is G or more; 12 with under G whole words of buffer, even where the list would fit. */
uint64_t card_change_list(const uint8_t *card, size_t card_len, const uint8_t *vector, size_t vector_len,
                          uint32_t graph, uint8_t *list, size_t list_len);

/* Writes N words: 1 for a critical node, one whose other exit, forced, alters an observable graph,
 * else 0. Refusal 12 with under N whole words of buffer. */
uint64_t card_critical_nodes(const uint8_t *card, size_t card_len, const uint8_t *vector, size_t vector_len,
                             uint8_t *nodes, size_t nodes_len);

/* Grades a list. Writes F words of marks: for each fault C0000000 where no vector catches it, else
 * E0000000 plus the number of the first that does. And F words of tallies: for each fault the number of
 * vectors that catch it, a repeated vector counted each time; it is 0 exactly where the mark is C0000000.
 * All F faults have both words. Answers the marked count, which leaves out the faults of leads. Refusal 12 at
 * 0 with under F whole words of marks, else at 1 with under F whole words of tallies. */
uint64_t card_grade(const uint8_t *card, size_t card_len, const uint8_t *vectors, size_t vectors_len,
                    uint8_t *marks, size_t marks_len, uint8_t *tallies, size_t tallies_len);

/* Joins two cards by their wires. Writes the joined card's words, at most 9,216, and answers how many they
 * are. They are a card that every other call takes. Refusals 1 to 9 of A and of B; 13; 14; 12 with fewer
 * whole words of buffer than that. */
uint64_t card_join(const uint8_t *a, size_t a_len, const uint8_t *b, size_t b_len, const uint8_t *wires, size_t wires_len,
                   uint8_t *card, size_t card_len);

/* Turns a gate list into a card. Writes the card's words, one for each line and two for each lead, at most 9,216,
 * and answers how many they are. They are a card that every other call takes, its vectors those of the gate list.
 * Refusals 1 to 5, 15, 16 and 9 of the gate list; 12 with fewer whole words of buffer than that. */
uint64_t card_from_gates(const uint8_t *gates, size_t gates_len, uint8_t *card, size_t card_len);

#ifdef __cplusplus
}
#endif

#endif
