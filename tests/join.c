/* join.c: card_join against brute force on generated pairs of cards, and the joined cards' values and
 * gradings against those of the two cards worked out together.
 *
 *   join [SEED]    the seed of the part that differs from run to run
 *
 * Exits 1 on any difference, and where the inputs reached too little.
 */
#include "brute.h"
#include "compare.h"

#include <stdio.h>
#include <stdlib.h>
#include <string.h>
#include <time.h>

enum { SMALL_PAIRS = 10000, FRESH_PAIRS = 1000, LIMIT_PAIRS = 490, LIMIT_CARDS = 192, MOST_GRADED = 240, FAULTS = 10240 };

/* ---- counting ---- */

/* What a refusal is about, in the order in which they are told. */
enum stage { IN_A, IN_B, WIRE_NUMBER, WIRE_WORD, LIMITS, BUFFER, STAGES };
static const char *const stage_names[STAGES] = { "A", "B", "number of wires", "wire word", "limits", "buffer" };

static struct {
    unsigned told[STAGES], orders[STAGES][STAGES]; /* told first, and broken as well */
    unsigned card_refusals[2][10];                 /* of A and of B */
    unsigned odd[4][4];                            /* leftovers of 1 to 3 bytes in A, B, wires, buffer */
    unsigned graphs[2], nodes[2];                  /* joined cards at the limit, and one beyond */
    unsigned values, over_both, gradings, faults; /* the second with faults of A and of B in */
} total;

/* The numbers of a card, or those that were meant where it is refused. */
struct numbers {
    unsigned refused, inputs, graphs, nodes;
};

static struct numbers numbers_of(const struct input *in, const uint8_t *card, size_t len)
{
    struct numbers n = { 0, in->inputs, in->graphs, in->nodes };
    uint8_t five[20];
    n.refused = (unsigned)(brute_check(card, len, five, sizeof five) >> 32);
    if (!n.refused) {
        n.inputs = word_at(five, 0);
        n.graphs = word_at(five, 1);
        n.nodes = word_at(five, 2);
    }
    return n;
}

/* The joined card's numbers, as the wires are. */
static struct numbers joined_numbers(const struct numbers *a, const struct numbers *b, const struct input *wires)
{
    struct numbers n = { 0, a->inputs, a->graphs + b->graphs - b->inputs, a->nodes + b->nodes };
    for (size_t i = 0; i < wires->vector_words; i++)
        if (wires->vectors[i] == 0xFFFFFFFFu) {
            n.inputs++;
            n.graphs++;
        }
    return n;
}

static int names_no_graph(const struct input *wires, unsigned graphs)
{
    for (size_t i = 0; i < wires->vector_words; i++)
        if (wires->vectors[i] != 0xFFFFFFFFu && wires->vectors[i] >= graphs)
            return 1;
    return 0;
}

static void count_stages(const int *broken)
{
    int first = 0;
    while (first < STAGES && !broken[first])
        first++;
    if (first == STAGES)
        return;
    total.told[first]++;
    for (int later = first + 1; later < STAGES; later++)
        total.orders[first][later] += broken[later] != 0;
}

/* ---- the joined card, and the two worked out together ---- */

static uint8_t got[4 * FAULTS], want[4 * FAULTS], got_tallies[4 * FAULTS], want_tallies[4 * FAULTS];

/* Whether a fault of the joined card is one of A's: its nodes come first, and each of its inputs and outputs before B's. */
static int is_of_a(uint32_t fault, const struct numbers *n, const struct numbers *a)
{
    unsigned place = fault / 2, outputs = a->graphs - a->inputs;
    if (place < n->nodes)
        return place < a->nodes;
    place -= n->nodes;
    return place < a->inputs || (place >= n->inputs && place < n->inputs + outputs);
}

static void count_halves(const struct fault_list *in, const struct numbers *n, const struct numbers *a)
{
    size_t of_a = 0;
    for (size_t i = 0; i < in->count; i++)
        of_a += (size_t)is_of_a(in->number[i], n, a);
    total.over_both += of_a > 0 && of_a < in->count;
}

/* The values of all graphs, with these faults in. */
static void values_with(struct asked *ask, const struct fault_list *in, const struct numbers *n)
{
    static uint8_t faults[4 * GEN_TOGETHER];
    ask->faults = faults;
    ask->faults_len = gen_bytes(in->number, in->count, 0, faults);
    brute_together_values(ask->vectors, faults, ask->faults_len, want);
    if (ask_engine(ask, got, sizeof got, NULL, 0) || memcmp(got, want, 4 * (size_t)n->graphs))
        differ("the joined card's values");
    total.values++;
}

/* With no fault in, with one and with several. */
static void compare_values(struct asked *ask, const struct input *joined, const struct numbers *n, const struct numbers *a)
{
    static struct places p;
    static struct fault_list in;
    gen_places(joined, &p);
    gen_faults(&in, &p, 0);
    ask->call = GOOD;
    values_with(ask, &in, n);
    ask->call = FAULT;
    gen_faults(&in, &p, 1);
    values_with(ask, &in, n);
    gen_faults(&in, &p, 2 + gen_below(GEN_TOGETHER - 1));
    values_with(ask, &in, n);
    count_halves(&in, n, a);
}

/* Marks and tallies of a list. */
static void compare_grading(struct asked *a, const struct numbers *n)
{
    size_t faults = 2 * (size_t)n->nodes + 2 * (size_t)n->graphs;
    uint64_t marked = brute_together_grade(a->vectors, a->vectors_len, want, want_tallies);
    a->call = GRADE;
    if (ask_engine(a, got, sizeof got, got_tallies, sizeof got_tallies) != marked)
        differ("the joined card's marked count");
    if (memcmp(got, want, 4 * faults))
        differ("the joined card's marks");
    if (memcmp(got_tallies, want_tallies, 4 * faults))
        differ("the joined card's tallies");
    compare_pairs(a->card, a->card_len, got, got_tallies);
    total.gradings++;
    total.faults += (unsigned)faults;
}

static void work_out(const struct numbers *n, const struct numbers *of_a, size_t words)
{
    static struct input joined;
    static uint8_t card[4 * GEN_CARD_ROOM], vectors[4 * 64 * 4];
    struct asked a = { .card = card, .card_len = 4 * words, .vectors = vectors };
    memcpy(card, compared.buffer, 4 * words);
    joined.inputs = n->inputs;
    for (joined.card_words = 0; joined.card_words < words; joined.card_words++)
        joined.card[joined.card_words] = word_at(card, joined.card_words);
    gen_vectors(&joined, 1 + gen_below(3));
    a.vectors_len = gen_bytes(joined.vectors, (n->inputs + 15) / 16, 0, vectors);
    compare_values(&a, &joined, n, of_a);
    if (2 * n->nodes + 2 * n->graphs > MOST_GRADED)
        return;
    a.vectors_len = gen_bytes(joined.vectors, joined.vector_words, 0, vectors);
    compare_grading(&a, n);
}

/* ---- one pair ---- */

static struct input first, second; /* A, and B with the wires */

static void one_pair(void)
{
    static uint8_t a_bytes[4 * GEN_CARD_ROOM + 4], b_bytes[4 * GEN_CARD_ROOM + 4], wires[COMPARE_ROOM];
    struct asked ask = { .call = JOIN, .card = a_bytes, .second = b_bytes, .vectors = wires };
    ask.card_len = gen_bytes(first.card, first.card_words, first.card_odd, a_bytes);
    ask.second_len = gen_bytes(second.card, second.card_words, second.card_odd, b_bytes);
    ask.vectors_len = gen_bytes(second.vectors, second.vector_words, second.vectors_odd, wires);
    struct numbers a = numbers_of(&first, a_bytes, ask.card_len), b = numbers_of(&second, b_bytes, ask.second_len);
    struct numbers n = joined_numbers(&a, &b, &second);
    size_t words = n.graphs + 2 * (size_t)n.nodes, room = pick_room(words);
    int broken[STAGES] = { a.refused != 0, b.refused != 0, ask.vectors_len != 4 * (size_t)b.inputs,
                           names_no_graph(&second, a.graphs), n.graphs > 1024 || n.nodes > 4096, room / 4 < words };
    compared.inputs++;
    count_stages(broken);
    total.card_refusals[0][a.refused]++;
    total.card_refusals[1][a.refused ? 0 : b.refused]++;
    total.odd[0][ask.card_len % 4]++;
    total.odd[1][ask.second_len % 4]++;
    total.odd[2][ask.vectors_len % 4]++;
    total.odd[3][room % 4]++;
    uint64_t answer = compare(&ask, room, 0);
    if (answer >> 32 == 0) {
        total.graphs[0] += n.graphs == 1024;
        total.nodes[0] += n.nodes == 4096;
        work_out(&n, &a, (size_t)answer);
    } else if (answer >> 32 == 14) {
        total.graphs[1] += n.graphs == 1025 && n.nodes <= 4096;
        total.nodes[1] += n.nodes == 4097 && n.graphs <= 1024;
    }
}

/* ---- the inputs ---- */

static void spoil(unsigned percent)
{
    if (gen_chance(percent))
        gen_spoil_card(&first);
    if (gen_chance(percent))
        gen_spoil_card(&second);
    for (unsigned p = percent; gen_chance(p); p = 40) /* now and then in two ways */
        gen_spoil_wires(&second, first.graphs);
}

/* All inputs of B free, all wired, or some. */
static void wire_up(void)
{
    unsigned free = gen_below(second.inputs + 1);
    if (gen_chance(30))
        free = gen_chance(50) ? 0 : second.inputs;
    gen_wires(&second, first.graphs, free);
}

static void small_pairs(unsigned count)
{
    for (unsigned i = 0; i < count; i++) {
        gen_small_card(&first, 33);
        gen_small_card(&second, 33);
        wire_up();
        spoil(15);
        one_pair();
    }
}

static void limit_pairs(unsigned count)
{
    for (unsigned i = 0; i < count; i++) {
        gen_limit_pair(&first, &second, i);
        spoil(i % 2 ? 15 : 0);
        one_pair();
    }
}

/* One of the two cards at its own limits, or one beyond. */
static void limit_cards(unsigned count)
{
    for (unsigned i = 0; i < count; i++) {
        gen_small_card(&first, 33);
        gen_small_card(&second, 33);
        gen_limit_card(i % 2 ? &first : &second, i / 2);
        wire_up();
        spoil(10);
        one_pair();
    }
}

/* ---- the report ---- */

static int reached_too_little(void)
{
    int few = too_few("pairs", compared.inputs, 3000) + too_few("joined cards", 3 * compared.done, compared.calls);
    for (int s = 0; s < STAGES; s++)
        for (int later = s + 1; later < STAGES; later++)
            few += too_few("one order of two refusals", total.orders[s][later], 5);
    for (unsigned r = 1; r <= 9; r++)
        few += too_few("one refusal of A", total.card_refusals[0][r], 3) + too_few("one refusal of B", total.card_refusals[1][r], 3);
    for (int s = WIRE_NUMBER; s < STAGES; s++)
        few += too_few("one refusal after A's and B's", total.told[s], 20);
    for (unsigned part = 0; part < 4; part++)
        for (unsigned odd = 1; odd < 4; odd++)
            few += too_few("leftovers in one part", total.odd[part][odd], 20);
    for (int beyond = 0; beyond < 2; beyond++)
        few += too_few("joined cards at a limit", total.graphs[beyond], 5) + too_few("joined cards at a limit", total.nodes[beyond], 5);
    few += too_few("values with faults of both cards in", total.over_both, 2000);
    return few + too_few("gradings", total.gradings, 1000) + too_few("caught faults of leads", compared.caught_pairs[0], 3000)
           + too_few("caught faults of leads, crossed over", compared.caught_pairs[1], 1000);
}

static void report(void)
{
    printf("join: %u pairs, %u joined; %u values, %u with faults of both in, and %u gradings of %u faults as of the two "
           "together\n", compared.inputs, compared.done, total.values, total.over_both, total.gradings, total.faults);
    for (int card = 0; card < 2; card++) {
        printf("join: refusals of %s", stage_names[card]);
        for (unsigned r = 1; r <= 9; r++)
            printf(" %u:%u", r, total.card_refusals[card][r]);
        printf("\n");
    }
    printf("join: refusals 13 of the number:%u of a word:%u, 14:%u, 12:%u\n", total.told[WIRE_NUMBER], total.told[WIRE_WORD],
           total.told[LIMITS], total.told[BUFFER]);
    printf("join: told first, broken as well:");
    for (int s = 0; s < STAGES; s++)
        for (int later = s + 1; later < STAGES; later++)
            printf("%s %s, %s: %u", s || later > 1 ? ";" : "", stage_names[s], stage_names[later], total.orders[s][later]);
    printf("\njoin: leftovers of 1, 2, 3 bytes in");
    for (unsigned part = 0; part < 4; part++)
        printf("%s %s %u %u %u", part ? "," : "", (const char *[]){ "A", "B", "wires", "buffer" }[part], total.odd[part][1],
               total.odd[part][2], total.odd[part][3]);
    printf("\njoin: with 1024 graphs %u, 1025 %u; with 4096 nodes %u, 4097 %u\n", total.graphs[0], total.graphs[1], total.nodes[0],
           total.nodes[1]);
    printf("join: %u faults of leads as their readers'; %u caught at a direct read, %u at an inverted one\n", compared.pairs,
           compared.caught_pairs[0], compared.caught_pairs[1]);
    printf("join: %u differ\n", compared.differ);
}

int main(int argc, char **argv)
{
    uint64_t fresh = argc > 1 ? strtoull(argv[1], NULL, 10) : (uint64_t)time(NULL);
    compare_seed(5);
    small_pairs(SMALL_PAIRS);
    compare_seed(6);
    limit_pairs(LIMIT_PAIRS);
    limit_cards(LIMIT_CARDS);
    printf("join: fresh seed %llu\n", (unsigned long long)fresh);
    compare_seed(fresh);
    small_pairs(FRESH_PAIRS);
    limit_pairs(GEN_PAIR_SHAPES);
    report();
    return reached_too_little() || compared.differ;
}
