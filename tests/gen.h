/* gen.h: generated cards, gate lists, vectors and lists of faults, right ones and spoilt ones. The same seed gives the same
 * inputs. */
#ifndef GEN_H
#define GEN_H

#include <stddef.h>
#include <stdint.h>

enum { GEN_CARD_ROOM = 9300, GEN_VECTOR_ROOM = 2 * 65537 };

struct input {
    uint32_t card[GEN_CARD_ROOM];
    size_t card_words;
    unsigned card_odd; /* leftover bytes */
    uint32_t vectors[GEN_VECTOR_ROOM];
    size_t vector_words;
    unsigned vectors_odd;
    unsigned inputs, graphs, nodes; /* as meant, before anything was spoilt; of a gate list the lines and the leads */
};

void gen_seed(uint64_t seed);
uint32_t gen_below(uint32_t n); /* 0 to n - 1 */
int gen_chance(unsigned percent);

/* A small odd card: equal exits, graphs that nobody reads, observable graphs with readers, and reads
 * of the same graph along several ways. Half of all cards have inverted reads, a quarter of their reads or more. */
void gen_small_card(struct input *in, unsigned most_inputs);

/* A small card, most of whose graphs tell whether two others are unequal: most faults are seen, and two often mask each
 * other. */
void gen_unequal_card(struct input *in);

/* A card at a limit, or one beyond it. Shapes go round with the number. */
enum { GEN_LIMIT_SHAPES = 12 };
void gen_limit_card(struct input *in, unsigned number);

/* Two cards and their wires, of which the joined card is at a limit, or one beyond it. */
enum { GEN_PAIR_SHAPES = 7 };
void gen_limit_pair(struct input *a, struct input *b, unsigned number);

/* So many vectors, now and then out of a few that repeat. */
void gen_vectors(struct input *in, unsigned count);

/* Wire words for a card's inputs, so many of them free, the others on graphs below a number. They stand in
 * the place of its vectors. */
void gen_wires(struct input *in, unsigned graphs, unsigned free);

/* A small odd gate list, in the place of a card: gates of one lead and of several, a line twice in one gate, gates that
 * nobody reads, observable gates with readers. One in eight is wider, with vectors of up to three words. */
void gen_small_gates(struct input *in);

/* A gate list at a limit, or one beyond it. Shapes go round with the number. */
enum { GEN_GATE_SHAPES = 11 };
void gen_limit_gates(struct input *in, unsigned number);

void gen_spoil_card(struct input *in);
void gen_spoil_vectors(struct input *in);
void gen_spoil_wires(struct input *in, unsigned graphs);
void gen_spoil_gates(struct input *in);

/* The fault sites of a card: its nodes, and then its graphs; of a gate list its leads and lines. They are those of the words
 * as they stand, and of a right card exactly its own. */
struct places {
    unsigned nodes, graphs;
    unsigned home[GEN_CARD_ROOM], read[GEN_CARD_ROOM]; /* the graph that a node stands in, and the one that it reads */
    unsigned kind[GEN_CARD_ROOM];                      /* of a graph's header */
};

void gen_places(const struct input *in, struct places *p);

enum { GEN_FAULTS_ROOM = 700, GEN_TOGETHER = 8 }; /* the most numbers of a list that is made here, and of a right one */

struct fault_list {
    uint32_t number[GEN_FAULTS_ROOM];
    size_t count;
    unsigned odd; /* leftover bytes */
};

/* A list of so many numbers, or of fewer where there are fewer places. No two are of one place, and often they are of places that
 * meet: nodes of one graph, a node and the graph that it stands in, a graph and the nodes that read it. */
void gen_faults(struct fault_list *l, const struct places *p, unsigned count);

/* Leftover bytes, a number repeated, both faults of one place, more than eight numbers, or one that is too high, be it the ninth
 * or a later one. */
void gen_spoil_faults(struct fault_list *l, const struct places *p);

/* The same numbers in any order. */
void gen_shuffle(struct fault_list *l);

/* Words as bytes, with leftover bytes after them; the number of bytes. */
size_t gen_bytes(const uint32_t *words, size_t count, unsigned odd, uint8_t *bytes);

#endif
