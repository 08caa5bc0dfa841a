/* faultlists.c: card_fault_values with lists of faults, right ones and spoilt ones, against brute force; and against itself,
 * where two lists must give the same. On generated cards, and with all lists that a few small cards have.
 *
 *   faultlists [SEED]    the seed of the part that differs from run to run
 *
 * Exits 1 on any difference, and where the inputs reached too little.
 */
#include "brute.h"
#include "compare.h"

#include <stdio.h>
#include <stdlib.h>
#include <string.h>
#include <time.h>

enum { SMALL_CARDS = 6000, FRESH_CARDS = 600, LIMIT_CARDS = 36, LISTS = 5, SEEN_LISTS = 4 };
enum { ROOM = 4 * 1100, FAULTS = 10240, LENGTHS = GEN_TOGETHER + 1 };

/* ---- counting ---- */

/* What is wrong with a list: a number too high is 11, and each of the others 17. */
enum { TOO_HIGH, LEFTOVER, TOO_MANY, REPEATED, BOTH, WRONGS };
static const char *const wrong_names[WRONGS] = { "too high", "leftover", "over 8", "repeated", "both faults" };

/* Of accepted lists, with two numbers or more. */
enum { INSIDE, OVERRULED, INPUT_HELD, OTHER_THAN_EACH, MASKED, ONLY_TOGETHER, MEETINGS };
static const struct {
    const char *name;
    unsigned least;
} meetings[MEETINGS] = {
    { "a node's fault in a held graph", 30000 },
    { "one that by itself gives the graph another value than the held one", 18000 },
    { "an input held", 45000 },
    { "values other than the good ones and than with any one fault", 25000 },
    { "an observable graph as good, though each fault by itself alters it", 400 },
    { "an observable graph altered, though no fault by itself alters it", 650 },
};

static struct {
    unsigned lists, length[LENGTHS], several; /* accepted ones, and those of two numbers or more */
    unsigned alone[WRONGS];                   /* wrong in one way, with enough room */
    unsigned also[WRONGS];                    /* a number too high, and the other way */
    unsigned in_short[WRONGS];                /* wrong in one way, with too little room */
    unsigned late;                            /* lists of which only the ninth number or later ones are too high */
    unsigned after_10;                        /* wrong lists with a wrong vector */
    unsigned meeting[MEETINGS];
    unsigned orders, empty, without; /* what is compared of the engine with itself */
} total;

/* ---- what is wrong with a list ---- */

struct wrong {
    int is[WRONGS];
    int late; /* the first eight are not too high */
};

static struct wrong wrong_with(const struct fault_list *l, uint32_t faults)
{
    struct wrong w = { .is = { [LEFTOVER] = l->odd != 0, [TOO_MANY] = l->count > GEN_TOGETHER }, .late = 1 };
    for (size_t i = 0; i < l->count; i++) {
        w.is[TOO_HIGH] |= l->number[i] >= faults;
        w.late &= i >= GEN_TOGETHER || l->number[i] < faults;
        for (size_t k = 0; k < i; k++) {
            w.is[REPEATED] |= l->number[i] == l->number[k];
            w.is[BOTH] |= l->number[i] == (l->number[k] ^ 1);
        }
    }
    return w;
}

static int ways(const struct wrong *w)
{
    int n = 0;
    for (int i = 0; i < WRONGS; i++)
        n += w->is[i];
    return n;
}

static void count_wrong(const struct wrong *w, int is_short)
{
    total.late += w->is[TOO_HIGH] && w->late;
    for (int i = 0; i < WRONGS; i++) {
        total.alone[i] += w->is[i] && ways(w) == 1 && !is_short;
        total.also[i] += w->is[i] && w->is[TOO_HIGH] && ways(w) == 2;
        total.in_short[i] += w->is[i] && ways(w) == 1 && is_short;
    }
}

/* ---- one list of the card ---- */

static struct input in;
static struct places places;
static struct fault_list list;
static uint8_t card[4 * GEN_CARD_ROOM + 4], vectors[COMPARE_ROOM], bytes[4 * GEN_FAULTS_ROOM + 4];
static struct asked a = { .card = card, .vectors = vectors, .faults = bytes };

/* What the engine answers and leaves in a buffer, whose content is the same each time. */
struct left {
    uint64_t answer;
    uint8_t buffer[ROOM];
};

static void engine_leaves(struct left *left, enum call call, const struct fault_list *l, size_t room)
{
    a.call = call;
    a.faults_len = gen_bytes(l->number, l->count, l->odd, bytes);
    memset(left->buffer, 0xC3, ROOM);
    left->answer = ask_engine(&a, left->buffer, room, NULL, 0);
}

static void same(const struct left *one, const struct left *other, const char *what)
{
    if (one->answer != other->answer || memcmp(one->buffer, other->buffer, ROOM))
        differ(what);
}

static int holds(const struct fault_list *l, unsigned graph, unsigned *at)
{
    for (size_t i = 0; i < l->count; i++)
        if (l->number[i] / 2 == places.nodes + graph) {
            *at = l->number[i] % 2;
            return 1;
        }
    return 0;
}

/* Whether a number of the list is a node's fault, and the graph that it stands in is held; at which value. */
static int is_inside(const struct fault_list *l, uint32_t fault, unsigned *at)
{
    return fault / 2 < places.nodes && holds(l, places.home[fault / 2], at);
}

/* Two orders of a list give the same, also where it is refused. */
static void against_other_order(const struct left *first, size_t room)
{
    static struct left second;
    struct fault_list other = list;
    gen_shuffle(&other);
    engine_leaves(&second, FAULT, &other, room);
    same(first, &second, "two orders of a list");
    total.orders++;
}

/* Faults of nodes in graphs that are held change nothing: an accepted list gives the same without them. */
static void against_fewer(const struct left *first, size_t room)
{
    static struct left second;
    struct fault_list fewer = { .count = 0 };
    unsigned at;
    for (size_t i = 0; i < list.count; i++)
        if (!is_inside(&list, list.number[i], &at))
            fewer.number[fewer.count++] = list.number[i];
    if (fewer.count == list.count)
        return;
    engine_leaves(&second, FAULT, &fewer, room);
    same(first, &second, "a list without the faults inside held graphs");
    total.without++;
}

static void against_itself(size_t room, int accepted)
{
    static struct left left;
    engine_leaves(&left, FAULT, &list, room);
    against_other_order(&left, room);
    if (accepted)
        against_fewer(&left, room);
}

/* The empty list is the good values. */
static void against_good_values(size_t room)
{
    static struct left first, second;
    static const struct fault_list empty;
    engine_leaves(&first, FAULT, &empty, room);
    engine_leaves(&second, GOOD, &empty, room);
    same(&first, &second, "the empty list and the good values");
    total.empty++;
}

/* ---- what the faults of an accepted list do to one another ---- */

static uint8_t good[ROOM], alone[GEN_TOGETHER][ROOM];

static void work_out_alone(void)
{
    brute_good_values(card, a.card_len, vectors, a.vectors_len, good, ROOM);
    for (size_t i = 0; i < list.count; i++) {
        uint8_t one[4];
        gen_bytes(list.number + i, 1, 0, one);
        brute_fault_values(card, a.card_len, vectors, a.vectors_len, one, 4, alone[i], ROOM);
    }
}

/* Of one graph: whether each of the faults, by itself, alters its value, and whether none does. */
static void altered_alone(unsigned g, int *by_each, int *by_none)
{
    *by_each = *by_none = 1;
    for (size_t i = 0; i < list.count; i++)
        *(word_at(alone[i], g) == word_at(good, g) ? by_each : by_none) = 0;
}

static void find_meetings(const uint8_t *values, int *found)
{
    size_t len = 4 * (size_t)places.graphs;
    int by_each, by_none;
    unsigned at;
    found[OTHER_THAN_EACH] = memcmp(values, good, len) != 0;
    for (size_t i = 0; i < list.count; i++) {
        uint32_t place = list.number[i] / 2;
        found[OTHER_THAN_EACH] &= memcmp(values, alone[i], len) != 0;
        found[INPUT_HELD] |= place >= places.nodes && places.kind[place - places.nodes] == 0;
        if (is_inside(&list, list.number[i], &at)) {
            found[INSIDE] = 1;
            found[OVERRULED] |= word_at(alone[i], places.home[place]) != at;
        }
    }
    for (unsigned g = 0; g < places.graphs; g++) {
        int altered = word_at(values, g) != word_at(good, g);
        altered_alone(g, &by_each, &by_none);
        found[MASKED] |= places.kind[g] == 2 && by_each && !altered;
        found[ONLY_TOGETHER] |= places.kind[g] == 2 && by_none && altered;
    }
}

static void count_accepted(const uint8_t *values)
{
    int found[MEETINGS] = { 0 };
    total.length[list.count]++;
    if (list.count < 2)
        return;
    total.several++;
    work_out_alone();
    find_meetings(values, found);
    for (int i = 0; i < MEETINGS; i++)
        total.meeting[i] += found[i] != 0;
}

/* ---- one call ---- */

/* Of a right card with a right vector the answer must be what the list and the room, and they alone, make of it. */
static void one_list(size_t room)
{
    struct wrong w = wrong_with(&list, 2 * (places.nodes + places.graphs));
    int is_short = room / 4 < places.graphs;
    unsigned expected = w.is[TOO_HIGH] ? 11 : ways(&w) ? 17 : is_short ? 12 : 0;
    uint64_t answer;
    a.call = FAULT;
    a.faults_len = gen_bytes(list.number, list.count, list.odd, bytes);
    answer = compare(&a, room, 0);
    total.lists++;
    total.after_10 += answer >> 32 == 10 && ways(&w) > 0;
    if (answer >> 32 && answer >> 32 < 11)
        return;
    if (answer != (uint64_t)expected << 32)
        differ("the answer to a list of faults");
    count_wrong(&w, is_short);
    if (answer == 0)
        count_accepted(compared.buffer);
    against_itself(room, answer == 0);
}

static void start_card(void)
{
    compared.inputs++;
    a.card_len = gen_bytes(in.card, in.card_words, in.card_odd, card);
    a.vectors_len = gen_bytes(in.vectors, in.vector_words, in.vectors_odd, vectors);
    gen_places(&in, &places);
}

static void some_lists(unsigned count)
{
    start_card();
    against_good_values(pick_room(in.graphs));
    for (unsigned k = 0; k < count; k++) {
        gen_faults(&list, &places, gen_below(LENGTHS));
        for (unsigned percent = 35; gen_chance(percent); percent = 30) /* now and then in two ways */
            gen_spoil_faults(&list, &places);
        one_list(pick_room(in.graphs));
    }
}

/* ---- generated cards ---- */

/* The faults that the vector catches, as many as a list has room for. No two are of one place, since the other one changes nothing
 * there. */
static void find_seen(struct fault_list *seen)
{
    static uint8_t marks[4 * FAULTS], tallies[4 * FAULTS];
    seen->count = seen->odd = 0;
    if (brute_grade(card, a.card_len, vectors, a.vectors_len, marks, sizeof marks, tallies, sizeof tallies) >> 32)
        return;
    for (uint32_t f = 0; f < 2 * (places.nodes + places.graphs) && seen->count < GEN_FAULTS_ROOM; f++)
        if (word_at(tallies, f) > 0)
            seen->number[seen->count++] = f;
}

/* Few faults that are seen by themselves: so they mask one another most often. */
static void seen_lists(unsigned count)
{
    static struct fault_list seen;
    find_seen(&seen);
    for (unsigned k = 0; k < count && seen.count > 1; k++) {
        gen_shuffle(&seen);
        list = seen;
        list.count = seen.count > 2 && gen_chance(25) ? 3 : 2;
        one_list(pick_room(in.graphs));
    }
}

static void small_cards(unsigned count)
{
    for (unsigned i = 0; i < count; i++) {
        if (gen_chance(75))
            gen_small_card(&in, 33);
        else
            gen_unequal_card(&in);
        gen_vectors(&in, 1);
        if (gen_chance(3))
            gen_spoil_card(&in);
        if (gen_chance(5))
            gen_spoil_vectors(&in);
        some_lists(LISTS);
        seen_lists(SEEN_LISTS);
    }
}

static void limit_cards(unsigned count)
{
    for (unsigned i = 0; i < count; i++) {
        gen_limit_card(&in, i);
        gen_vectors(&in, 1);
        some_lists(LISTS);
    }
}

/* ---- all lists of small cards ---- */

static void take_words(const uint32_t *words, unsigned count, uint32_t vector)
{
    memcpy(in.card, words, 4 * (size_t)count);
    in.card_words = count;
    in.vectors[0] = 0xA0000000u + vector;
    in.vector_words = 1;
    in.card_odd = in.vectors_odd = 0;
    start_card();
}

/* Each place with no fault, or with one of its two: all lists that are right but for their length, each in one order. */
static void all_sets(unsigned place)
{
    if (place == places.nodes + places.graphs) {
        one_list(4 * (size_t)places.graphs);
        return;
    }
    all_sets(place + 1);
    for (uint32_t fault = 2 * place; fault < 2 * place + 2; fault++) {
        list.number[list.count++] = fault;
        all_sets(place + 1);
        list.count--;
    }
}

/* All lists of up to so many numbers from 0 to the first that is too high, right or not, in all orders. */
static void all_orders(unsigned left)
{
    one_list(4 * (size_t)places.graphs);
    for (uint32_t fault = 0; left && fault <= 2 * (places.nodes + places.graphs); fault++) {
        list.number[list.count++] = fault;
        all_orders(left - 1);
        list.count--;
    }
}

/* Card S and Akers's f, and that with an inverted read. */
static void all_lists(void)
{
    static const struct {
        uint32_t words[10], count, vectors;
    } cards[] = {
        { { 0, 0x20000001, 0x60000000, 0x80000001, 0x40000002, 0x60000001, 0x80000003, 0x60000000, 0x80000001 }, 9, 2 },
        { { 0, 0, 0, 0x40000003, 0x60000000, 0x8000C001, 0x60000001, 0x80010000, 0x60000002, 0x80000001 }, 10, 8 },
        { { 0, 0, 0, 0x40000003, 0x60000000, 0x8000C001, 0x60010001, 0x80000004, 0x60000002, 0x80000001 }, 10, 8 },
    };
    list.count = list.odd = 0;
    for (unsigned i = 0; i < sizeof cards / sizeof *cards; i++)
        for (uint32_t v = 0; v < cards[i].vectors; v++) {
            take_words(cards[i].words, cards[i].count, v);
            all_sets(0);
            if (v == 1)
                all_orders(3);
        }
}

/* ---- the report ---- */

static int reached_too_little(void)
{
    int few = too_few("accepted lists of two faults or more", total.several, 60000);
    for (unsigned n = 0; n < LENGTHS; n++)
        few += too_few("accepted lists of one length", total.length[n], 1500);
    for (int i = 0; i < WRONGS; i++) {
        few += too_few("lists wrong in one way", total.alone[i], 600);
        few += too_few("lists wrong in one way, with too little room", total.in_short[i], 100);
    }
    for (int i = LEFTOVER; i < WRONGS; i++)
        few += too_few("lists with a number too high, and wrong in another way", total.also[i], 100);
    for (int i = 0; i < MEETINGS; i++)
        few += too_few(meetings[i].name, total.meeting[i], meetings[i].least);
    few += too_few("lists whose ninth number or later ones alone are too high", total.late, 1500);
    few += too_few("wrong lists with a wrong vector", total.after_10, 200);
    few += too_few("lists in two orders", total.orders, 80000) + too_few("empty lists", total.empty, 5000);
    return few + too_few("lists without faults inside held graphs", total.without, 30000);
}

static void show(const char *title, const unsigned *numbers, int from)
{
    printf("faultlists: %s:", title);
    for (int i = from; i < WRONGS; i++)
        printf("%s %s %u", i > from ? "," : "", wrong_names[i], numbers[i]);
    printf("\n");
}

static void report(void)
{
    printf("faultlists: %u lists of faults on %u cards; refusals 10:%u 11:%u 17:%u 12:%u; accepted of 0 to 8 numbers", total.lists,
           compared.inputs, compared.refusals[10], compared.refusals[11], compared.refusals[17], compared.refusals[12]);
    for (unsigned n = 0; n < LENGTHS; n++)
        printf(" %u", total.length[n]);
    printf(", of two or more %u\n", total.several);
    show("wrong in one way", total.alone, TOO_HIGH);
    show("the same, with too little room", total.in_short, TOO_HIGH);
    show("a number too high, and", total.also, LEFTOVER);
    printf("faultlists: only the ninth number or later ones too high %u; wrong with a wrong vector %u\n", total.late, total.after_10);
    for (int i = 0; i < MEETINGS; i++)
        printf("%s%s %u", i ? "; " : "faultlists: together: ", meetings[i].name, total.meeting[i]);
    printf("\nfaultlists: of the engine with itself: %u lists in two orders, %u empty ones and the good values, %u with and without "
           "faults inside held graphs\n", total.orders, total.empty, total.without);
    printf("faultlists: %u differ\n", compared.differ);
}

int main(int argc, char **argv)
{
    uint64_t fresh = argc > 1 ? strtoull(argv[1], NULL, 10) : (uint64_t)time(NULL);
    compare_seed(10);
    all_lists();
    small_cards(SMALL_CARDS);
    compare_seed(11);
    limit_cards(LIMIT_CARDS);
    printf("faultlists: fresh seed %llu\n", (unsigned long long)fresh);
    compare_seed(fresh);
    small_cards(FRESH_CARDS);
    limit_cards(GEN_LIMIT_SHAPES);
    report();
    return reached_too_little() || compared.differ;
}
