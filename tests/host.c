/* host.c: the engine against brute force, through the six calls on one card, on generated inputs.
 *
 *   host [SEED]    the seed of the part that differs from run to run
 *
 * Exits 1 on any difference, and where the inputs reached too little.
 */
#include "brute.h"
#include "compare.h"

#include <stdio.h>
#include <stdlib.h>
#include <time.h>

enum { SMALL_INPUTS = 20000, FRESH_INPUTS = 2000, LIMIT_CARDS = 192, LIST_CARDS = 6 };

/* ---- counting ---- */

/* Of card_grade on a right card with right vectors; the last four where it was done. */
enum { DONE, MARKS_SHORT, TALLIES_SHORT, BOTH_SHORT, MARKS_LONG, TALLIES_LONG, MARKS_ODD, TALLIES_ODD, GRADED };
static const struct {
    const char *name;
    unsigned least;
} grades[GRADED] = { { "done", 4000 },       { "marks short alone", 800 }, { "tallies short alone", 800 }, { "both short", 150 },
                     { "marks long", 800 }, { "tallies long", 800 },      { "leftover in marks", 1600 },  { "leftover in tallies", 1600 } };

static struct {
    unsigned limits, limits_accepted, cards_accepted, inverted; /* accepted with an inverted read */
    unsigned odd_card, odd_vectors, odd_buffer, short_buffer, long_buffer;
    unsigned lists[4]; /* of 0, 1, 65,535 and 65,536 vectors */
    unsigned grade[GRADED];
} total;

static void count_room(size_t room, size_t words)
{
    total.odd_buffer += room % 4 != 0;
    total.short_buffer += room / 4 < words;
    total.long_buffer += room / 4 > words;
}

/* ---- what came of card_grade ---- */

/* The faults of the card as it is: a spoilt one can still be right, with other numbers. */
static size_t faults_of(const struct asked *a)
{
    uint8_t numbers[20];
    return brute_check(a->card, a->card_len, numbers, sizeof numbers) ? 0 : word_at(numbers, 4);
}

/* Of a right card: whether a read (kind 3) of it is inverted. */
static int has_inverted(const struct asked *a)
{
    for (size_t i = 0; i < a->card_len / 4; i++)
        if (word_at(a->card, i) >> 16 == 0x6001)
            return 1;
    return 0;
}

/* A tally is 0 exactly where the mark is that no vector catches the fault. */
static void check_law(size_t faults)
{
    for (size_t f = 0; f < faults; f++)
        if ((word_at(compared.tallies, f) == 0) != (word_at(compared.buffer, f) == 0xC0000000u)) {
            differ("a fault's mark and tally");
            return;
        }
}

/* The answer must be what the two rooms, and they alone, make of a right card and right vectors. */
static void take_grade(const struct asked *a, uint64_t answer, size_t room, size_t tallies_room)
{
    size_t faults = faults_of(a);
    int few = (room / 4 < faults ? MARKS_SHORT : 0) + (tallies_room / 4 < faults ? TALLIES_SHORT : 0);
    total.grade[few]++;
    if (few == DONE ? answer >> 32 != 0 : answer != ((uint64_t)12 << 32) + (few == TALLIES_SHORT))
        differ("the refusal of a short buffer");
    if (few != DONE)
        return;
    total.grade[MARKS_LONG] += room / 4 > faults;
    total.grade[TALLIES_LONG] += tallies_room / 4 > faults;
    total.grade[MARKS_ODD] += room % 4 != 0;
    total.grade[TALLIES_ODD] += tallies_room % 4 != 0;
    check_law(faults);
    compare_pairs(a->card, a->card_len, compared.buffer, compared.tallies);
}

/* ---- one call ---- */

/* The words that a call writes at most. */
static size_t words_of(enum call call, const struct input *in)
{
    size_t faults = 2 * (size_t)in->nodes + 2 * (size_t)in->graphs;
    switch (call) {
    case CHECK: return 5;
    case CRITICAL: return in->nodes;
    case GRADE: return faults;
    default: return in->graphs;
    }
}

/* A graph's number: mostly below the limit, else at it or far beyond. */
static uint32_t pick_number(uint32_t limit)
{
    static const uint32_t far[] = { 0x7FFFFFFF, 0x80000000, 0xFFFFFFFF, 0x10000, 10240 };
    if (gen_chance(90))
        return gen_below(limit);
    return gen_chance(60) ? limit + gen_below(3) : far[gen_below(5)];
}

/* A list of faults for the card; mostly a right one. tests/faultlists.c looks at such lists more closely. */
static void pick_faults(struct asked *a, const struct input *in)
{
    static struct places p;
    static struct fault_list l;
    static uint8_t faults[4 * GEN_FAULTS_ROOM + 4];
    gen_places(in, &p);
    gen_faults(&l, &p, gen_below(GEN_TOGETHER + 1));
    for (unsigned percent = 15; gen_chance(percent); percent = 30) /* now and then in two ways */
        gen_spoil_faults(&l, &p);
    a->faults = faults;
    a->faults_len = gen_bytes(l.number, l.count, l.odd, faults);
}

static int is_single(enum call call)
{
    return call == GOOD || call == FAULT || call == CHANGE || call == CRITICAL;
}

/* One call on the card and the vectors. Calls on one vector mostly get the first one alone. */
static void one_call(struct asked *a, enum call call, const struct input *in, size_t list_len)
{
    size_t one = 4 * (size_t)((in->inputs + 15) / 16), words = words_of(call, in);
    size_t room = pick_room(words), tallies_room = call == GRADE ? pick_room(words) : 0;
    a->call = call;
    a->vectors_len = list_len;
    if (is_single(call) && list_len > one && gen_chance(95))
        a->vectors_len = one;
    a->number = pick_number(in->graphs);
    count_room(room, words);
    if (call == GRADE)
        count_room(tallies_room, words);
    uint64_t answer = compare(a, room, tallies_room);
    int right = answer >> 32 == 0 || answer >> 32 == 12;
    if (call == CHECK && right) {
        total.cards_accepted++;
        total.inverted += (unsigned)has_inverted(a);
    }
    if (call == GRADE && right)
        take_grade(a, answer, room, tallies_room);
}

/* All calls on one card. */
static void one_input(const struct input *in)
{
    static uint8_t card[COMPARE_ROOM], vectors[COMPARE_ROOM];
    struct asked a = { .card = card, .vectors = vectors };
    pick_faults(&a, in);
    size_t list_len = gen_bytes(in->vectors, in->vector_words, in->vectors_odd, vectors);
    a.card_len = gen_bytes(in->card, in->card_words, in->card_odd, card);
    compared.inputs++;
    total.odd_card += in->card_odd != 0;
    total.odd_vectors += in->vectors_odd != 0;
    for (int call = CHECK; call <= GRADE; call++)
        one_call(&a, (enum call)call, in, list_len);
}

/* ---- the inputs ---- */

static struct input in;

static void small_inputs(unsigned count)
{
    static const unsigned lengths[] = { 0, 1, 1, 1, 2, 3, 4, 6, 9 };
    for (unsigned i = 0; i < count; i++) {
        gen_small_card(&in, 33);
        gen_vectors(&in, gen_chance(1) ? 70 : lengths[gen_below(9)]);
        if (gen_chance(40))
            gen_spoil_card(&in);
        if (gen_chance(20))
            gen_spoil_vectors(&in);
        one_input(&in);
    }
}

static void limit_inputs(unsigned count)
{
    for (unsigned i = 0; i < count; i++) {
        unsigned before = total.cards_accepted;
        gen_limit_card(&in, i);
        gen_vectors(&in, 1 + gen_below(2));
        if (i >= 2 * count / 3 && gen_chance(50))
            gen_spoil_card(&in);
        one_input(&in);
        total.limits++;
        total.limits_accepted += total.cards_accepted - before;
    }
}

/* Lists of 0, 1, 65,535 and 65,536 vectors, with words of one or two to a vector. */
static void long_lists(unsigned cards)
{
    static const unsigned lengths[] = { 0, 1, 65535, 65536 };
    for (unsigned i = 0; i < cards; i++)
        for (unsigned k = 0; k < 4; k++) {
            do
                gen_small_card(&in, i % 3 ? 3 : 20);
            while (in.nodes > 10 || (i % 3 == 0 && in.inputs < 17));
            gen_vectors(&in, lengths[k]);
            if (in.inputs > 4 && k > 1) /* few vectors, repeated */
                for (size_t at = 8; at < in.vector_words; at++)
                    in.vectors[at] = in.vectors[at % 8];
            one_input(&in);
            total.lists[k]++;
        }
}

/* ---- the report ---- */

static const unsigned rules[] = { 1, 2, 3, 4, 5, 6, 7, 8, 9, 10, 11, 12, 17 };
enum { RULES = sizeof rules / sizeof *rules };

static int reached_too_little(void)
{
    int few = too_few("inputs", compared.inputs, 20000) + too_few("accepted cards at the limits", total.limits_accepted, 100);
    few += too_few("accepted cards", 3 * total.cards_accepted, compared.inputs);
    few += too_few("accepted cards with an inverted read", 5 * total.inverted, 2 * total.cards_accepted);
    few += too_few("accepted cards without one", 5 * (total.cards_accepted - total.inverted), 2 * total.cards_accepted);
    few += too_few("calls that are done", 3 * compared.done, compared.calls);
    few += too_few("leftovers in cards", total.odd_card, 500) + too_few("leftovers in vectors", total.odd_vectors, 500);
    few += too_few("leftovers in buffers", total.odd_buffer, 5000) + too_few("short buffers", total.short_buffer, 5000);
    for (unsigned i = 0; i < RULES; i++)
        few += too_few("one refusal", compared.refusals[rules[i]], 20);
    for (int i = 0; i < GRADED; i++)
        few += too_few(grades[i].name, total.grade[i], grades[i].least);
    return few + too_few("caught faults of leads", compared.caught_pairs[0], 3000)
           + too_few("caught faults of leads, crossed over", compared.caught_pairs[1], 1000);
}

static void report(void)
{
    printf("host: %u inputs, %u cards accepted, %u with inverted reads; at the limits or one beyond %u inputs, %u accepted; %u calls, %u done\n",
           compared.inputs, total.cards_accepted, total.inverted, total.limits, total.limits_accepted, compared.calls, compared.done);
    printf("host: refusals");
    for (unsigned i = 0; i < RULES; i++)
        printf(" %u:%u", rules[i], compared.refusals[rules[i]]);
    printf("\nhost: leftovers in %u cards, %u vectors, %u buffers; %u buffers short, %u long\n", total.odd_card,
           total.odd_vectors, total.odd_buffer, total.short_buffer, total.long_buffer);
    printf("host: card_grade");
    for (int i = 0; i < GRADED; i++)
        printf("%s %s %u", i ? "," : "", grades[i].name, total.grade[i]);
    printf("\nhost: lists of 0, 1, 65535, 65536 vectors: %u %u %u %u\n", total.lists[0], total.lists[1], total.lists[2], total.lists[3]);
    printf("host: %u faults of leads as their readers'; %u caught at a direct read, %u at an inverted one\n", compared.pairs,
           compared.caught_pairs[0], compared.caught_pairs[1]);
    printf("host: %u differ\n", compared.differ);
}

int main(int argc, char **argv)
{
    uint64_t fresh = argc > 1 ? strtoull(argv[1], NULL, 10) : (uint64_t)time(NULL);
    compare_seed(1);
    small_inputs(SMALL_INPUTS);
    compare_seed(2);
    limit_inputs(LIMIT_CARDS);
    compare_seed(3);
    long_lists(LIST_CARDS);
    printf("host: fresh seed %llu\n", (unsigned long long)fresh);
    compare_seed(fresh);
    small_inputs(FRESH_INPUTS);
    limit_inputs(GEN_LIMIT_SHAPES);
    report();
    return reached_too_little() || compared.differ;
}
