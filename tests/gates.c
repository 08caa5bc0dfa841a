/* gates.c: card_from_gates against gate lists worked out by themselves (gatesim.h). Its words and its refusals; and of the
 * cards that it makes the values with every fault in and with several together, the marks, the tallies and the marked
 * count, all of which must be those of the gates. By hand: every refusal with every other one broken too, the limits, each
 * function, c17 and the 74S181. Then generated lists, right ones and spoilt ones.
 *
 *   gates [SEED]    the seed of the part that differs from run to run
 *
 * Exits 1 on any difference, and where the inputs reached too little.
 */
#include "compare.h"
#include "gatesim.h"

#include <stdarg.h>
#include <stdio.h>
#include <stdlib.h>
#include <string.h>
#include <time.h>

enum { SMALL_LISTS = 4000, FRESH_LISTS = 500, LIMIT_LISTS = 66, CARD_WORDS = 9216 };
enum { MOST_VALUES = 300, MOST_FAULTS = 2000, SAMPLED = 60 }; /* with a larger list some of its faults are put in, else each */
enum { TOGETHER = 4 };                                        /* lists of several faults, of each vector */

#define ENOUGH (4 * (size_t)CARD_WORDS)

/* ---- counting ---- */

static struct {
    unsigned by_hand, accepted, refused, refusals[COMPARE_RULES + 1]; /* the last three of generated lists */
    unsigned one[FUNCTIONS], several[FUNCTIONS];                      /* gates of accepted lists with one lead, and with more */
    unsigned twice, unread, passed_on; /* gates that name a line twice; that nobody reads; observable ones that are read */
    unsigned single;                   /* lines whose faults do not count */
    unsigned odd_gates[4], odd_room[4]; /* leftovers of 1 to 3 bytes */
    unsigned lines[2], leads[2];        /* lists at the limit, and beyond it */
    unsigned values, several_in, gradings, faults, caught; /* the second with two faults in or more */
} total;

static struct input list;
static struct gate_list g;

static int names_a_line_twice(unsigned l)
{
    for (unsigned j = g.first[l]; j < g.first[l + 1]; j++)
        for (unsigned k = j + 1; k < g.first[l + 1]; k++)
            if (g.from[j] == g.from[k])
                return 1;
    return 0;
}

static void count_gate(unsigned l)
{
    unsigned n = g.first[l + 1] - g.first[l];
    total.one[g.function[l]] += n == 1;
    total.several[g.function[l]] += n > 1;
    total.twice += (unsigned)names_a_line_twice(l);
    total.unread += g.readers[l] == 0;
    total.passed_on += g.kind[l] == 2 && g.readers[l] > 0;
}

static void count_accepted(void)
{
    total.lines[0] += g.lines == GATESIM_LINES;
    total.leads[0] += g.leads == GATESIM_LEADS;
    for (unsigned l = 0; l < g.lines; l++) {
        total.single += g.kind[l] != 2 && g.readers[l] == 1;
        if (g.kind[l] != 0)
            count_gate(l);
    }
}

/* ---- what comes of the card, and what of the gates ---- */

enum { FAULT_BYTES = 4 * GATESIM_FAULTS };
static uint8_t got[FAULT_BYTES], want[FAULT_BYTES], got_tallies[FAULT_BYTES], want_tallies[FAULT_BYTES];

static void compare_numbers(struct asked *a)
{
    const unsigned numbers[] = { g.inputs, g.lines, g.leads, g.observable, gatesim_faults(&g) };
    int same;
    a->call = CHECK;
    same = ask_engine(a, got, 20, NULL, 0) == 0;
    for (size_t i = 0; i < 5; i++)
        same &= word_at(got, i) == numbers[i];
    if (!same)
        differ("the card's numbers");
}

/* The values of all lines under one vector, with these faults in. */
static void values_with(struct asked *a, const struct fault_list *in)
{
    static uint8_t faults[4 * GEN_TOGETHER];
    a->faults = faults;
    a->faults_len = gen_bytes(in->number, in->count, 0, faults);
    gatesim_values(&g, a->vectors, faults, a->faults_len, want);
    if (ask_engine(a, got, sizeof got, NULL, 0) || memcmp(got, want, 4 * (size_t)g.lines))
        differ("the values of lines");
    total.values++;
    total.several_in += in->count > 1;
}

/* With no fault in, with each by itself and with some together; of a large list with some by themselves. */
static void one_vector(struct asked *a, const struct places *p)
{
    static struct fault_list in;
    unsigned faults = gatesim_faults(&g), large = faults > MOST_FAULTS;
    gen_faults(&in, p, 0);
    a->call = GOOD;
    values_with(a, &in);
    a->call = FAULT;
    values_with(a, &in);
    in.count = 1;
    for (unsigned k = 0; k < (large ? SAMPLED : faults); k++) {
        in.number[0] = large ? gen_below(faults) : k;
        values_with(a, &in);
    }
    for (unsigned k = 0; k < TOGETHER; k++) {
        gen_faults(&in, p, 2 + gen_below(GEN_TOGETHER - 1));
        values_with(a, &in);
    }
}

/* As many vectors as can be afforded. */
static void compare_values(struct asked *a, const uint8_t *vectors, size_t len)
{
    static struct places p;
    size_t most = 1 + MOST_VALUES / gatesim_faults(&g);
    gen_places(&list, &p);
    a->vectors_len = 4 * (size_t)((g.inputs + 15) / 16);
    for (size_t v = 0; v < most && v < len / a->vectors_len; v++) {
        a->vectors = vectors + v * a->vectors_len;
        one_vector(a, &p);
    }
}

static void compare_grading(struct asked *a, const uint8_t *vectors, size_t len)
{
    unsigned faults = gatesim_faults(&g);
    uint64_t marked = gatesim_grade(&g, vectors, len, want, want_tallies);
    a->call = GRADE;
    a->vectors = vectors;
    a->vectors_len = len;
    if (ask_engine(a, got, sizeof got, got_tallies, sizeof got_tallies) != marked)
        differ("the marked count");
    if (memcmp(got, want, 4 * (size_t)faults))
        differ("the marks");
    if (memcmp(got_tallies, want_tallies, 4 * (size_t)faults))
        differ("the tallies");
    total.gradings++;
    total.faults += faults;
    for (unsigned f = 0; f < faults; f++)
        total.caught += word_at(want_tallies, f) != 0;
}

/* The card that was made last, under the list's vectors. */
static void work_out(size_t words)
{
    static uint8_t card[4 * CARD_WORDS], vectors[COMPARE_ROOM];
    struct asked a = { .card = card, .card_len = 4 * words };
    size_t len = gen_bytes(list.vectors, list.vector_words, 0, vectors);
    memcpy(card, compared.buffer, 4 * words);
    compare_numbers(&a);
    compare_values(&a, vectors, len);
    compare_grading(&a, vectors, len);
}

/* ---- one gate list ---- */

static uint8_t gates[4 * GEN_CARD_ROOM + 4];
static size_t gates_len;

/* Takes in the list's bytes; its refusal, or 0. */
static uint64_t take_list(void)
{
    gates_len = gen_bytes(list.card, list.card_words, list.card_odd, gates);
    return gatesim_take(&g, gates, gates_len);
}

static uint64_t one_call(size_t room)
{
    struct asked a = { .call = GATES, .card = gates, .card_len = gates_len };
    compared.inputs++;
    total.odd_gates[gates_len % 4]++;
    total.odd_room[room % 4]++;
    return compare(&a, room, 0);
}

/* All vectors of few inputs, from any one on, or some. */
static void pick_vectors(void)
{
    unsigned all = list.inputs <= 6 ? 1u << list.inputs : 0, from = gen_below(all + 1);
    if (!all || gen_chance(40)) {
        gen_vectors(&list, 1 + gen_below(list.graphs > 100 ? 2 : 12));
        return;
    }
    list.vector_words = all;
    for (unsigned v = 0; v < all; v++)
        list.vectors[v] = 0xA0000000u + (from + v) % all;
}

/* A generated list, with any room. */
static void any_list(void)
{
    uint64_t refusal = take_list();
    uint64_t answer = one_call(pick_room(refusal ? list.graphs + 2 * list.nodes : g.lines + 2 * g.leads));
    total.lines[1] += refusal >> 32 == 2;
    total.leads[1] += refusal >> 32 == 3;
    total.accepted += answer >> 32 == 0;
    total.refused += answer >> 32 != 0;
    total.refusals[answer >> 32]++;
    if (answer >> 32)
        return;
    list.inputs = g.inputs; /* a spoilt list can still be right, with other numbers */
    list.graphs = g.lines;
    count_accepted();
    pick_vectors();
    work_out((size_t)answer);
}

/* A list by hand, which is right, with its vectors. */
static void right_list(void)
{
    uint64_t refusal = take_list(), answer = one_call(4 * (size_t)(g.lines + 2 * g.leads));
    total.by_hand++;
    if (refusal || answer != g.lines + 2 * g.leads) {
        differ("a right list by hand");
        return;
    }
    count_accepted();
    work_out((size_t)answer);
}

/* A list by hand, which is refused. */
static void refused_list(unsigned rule, size_t position, size_t room)
{
    take_list();
    total.by_hand++;
    if (one_call(room) != ((uint64_t)rule << 32) + position)
        differ("the refusal of a list by hand");
}

/* ---- lists by hand ---- */

static size_t header[GATESIM_LINES + 1]; /* where that of a gate stands */

static void put(uint32_t w)
{
    list.card[list.card_words++] = w;
}

static void start_list(unsigned inputs)
{
    list.card_words = list.card_odd = 0;
    list.inputs = list.graphs = inputs;
    list.nodes = 0;
    while (list.card_words < inputs)
        put(0);
}

/* Adds a hidden gate with its leads to follow; its line. */
static unsigned put_header(unsigned function, unsigned n)
{
    header[list.graphs] = list.card_words;
    put(0x20000000u + (function << 26) + n);
    list.nodes += n;
    return list.graphs++;
}

static unsigned gate(unsigned function, unsigned n, ...)
{
    unsigned line = put_header(function, n);
    va_list leads;
    va_start(leads, n);
    for (unsigned k = 0; k < n; k++)
        put(0x60000000u + va_arg(leads, unsigned));
    va_end(leads);
    return line;
}

static unsigned observe(unsigned line)
{
    list.card[header[line]] += 0x20000000u;
    return line;
}

/* An observable gate of so many leads, which name the inputs in turn. */
static void wide_gate(unsigned function, unsigned n)
{
    observe(put_header(function, n));
    for (unsigned k = 0; k < n; k++)
        put(0x60000000u + k % list.inputs);
}

/* One vector more; its inputs are all 0 or all 1, but for one. */
static void put_vector(unsigned value, unsigned but)
{
    for (unsigned i = 0; i < list.inputs; i++) {
        uint32_t *word = list.vectors + list.vector_words + i / 16;
        *word = (i % 16 ? *word : 0xA0000000u) | (i == but ? 1 - value : value) << i % 16;
    }
    list.vector_words += (list.inputs + 15) / 16;
}

/* All of them, in their order. */
static void all_vectors(void)
{
    list.vector_words = (size_t)1 << list.inputs;
    for (uint32_t v = 0; v < list.vector_words; v++)
        list.vectors[v] = 0xA0000000u + v;
}

/* ---- refusals ---- */

/* What breaks a rule where a header is due, after a gate: the rule that is told, at which of the words, and how many there
 * are. Of those that break two rules at one word, the second one stands behind. */
static const struct broken {
    unsigned rule, at, count;
    uint32_t words[3];
} broken[] = {
    { 4, 0, 1, { 0x60000000 } }, /* a lead for a header */
    { 4, 0, 1, { 0x80000001 } },
    { 4, 0, 1, { 0xA0000000 } },
    { 4, 0, 1, { 0xC0000001 } },
    { 4, 0, 1, { 0xE0000001 } },
    { 4, 0, 1, { 0x00000000 } }, /* an input after a gate */
    { 4, 0, 1, { 0x00000001 } }, /* and 5 */
    { 4, 0, 1, { 0x60010000 } }, /* and 5 */
    { 4, 0, 1, { 0xFFFFFFFF } }, /* and 5 */
    { 4, 0, 2, { 0x80001000, 0x60000000 } }, /* and 3 */
    { 4, 0, 2, { 0x98000001, 0x60000000 } }, /* and 15 */
    { 5, 0, 2, { 0x40010001, 0x60000000 } },
    { 5, 0, 2, { 0x22000001, 0x60000000 } },
    { 5, 0, 2, { 0x40011000, 0x60000000 } }, /* and 3 */
    { 5, 0, 1, { 0x40010000 } },             /* and 15 */
    { 5, 0, 2, { 0x58020001, 0x60000000 } }, /* and 15 */
    { 5, 0, 3, { 0x50010002, 0x60000000, 0x60000000 } }, /* and 15 */
    { 3, 0, 2, { 0x40001000, 0x60000000 } }, /* 4,096 leads after one */
    { 3, 0, 2, { 0x2C00FFFF, 0x60000000 } },
    { 3, 0, 2, { 0x58001000, 0x60000000 } }, /* and 15 */
    { 3, 0, 2, { 0x5C00FFFF, 0x60000000 } }, /* and 15 */
    { 3, 0, 2, { 0x50001000, 0x60000000 } }, /* and 15 */
    { 15, 0, 2, { 0x58000001, 0x60000000 } }, /* function 6 */
    { 15, 0, 2, { 0x3C000001, 0x60000000 } }, /* function 7 */
    { 15, 0, 1, { 0x48000000 } },             /* no lead */
    { 15, 0, 1, { 0x50000000 } },
    { 15, 0, 3, { 0x50000002, 0x60000000, 0x60000000 } }, /* NOT of two */
    { 15, 0, 3, { 0x34000002, 0x60000000, 0x60000000 } }, /* BUF of two */
    { 15, 0, 2, { 0x58000001, 0x80000000 } },             /* then 4 */
    { 4, 1, 2, { 0x40000001, 0x80000000 } },
    { 4, 1, 2, { 0x40000001, 0x40000001 } },
    { 4, 1, 2, { 0x40000001, 0x80010000 } }, /* and 5 */
    { 4, 1, 2, { 0x40000001, 0x0000FFFF } }, /* and 16 */
    { 4, 2, 3, { 0x48000002, 0x60000000, 0x20000001 } },
    { 5, 1, 2, { 0x40000001, 0x60010000 } },
    { 5, 1, 2, { 0x54000001, 0x7001FFFF } }, /* and 16 */
    { 5, 2, 3, { 0x4C000002, 0x60000000, 0x70000000 } },
    { 16, 1, 2, { 0x40000001, 0x6000FFFF } },
    { 16, 1, 2, { 0x20000001, 0x60000400 } },
    { 16, 2, 3, { 0x44000002, 0x60000000, 0x60000400 } },
};
enum { BROKEN = sizeof broken / sizeof *broken };

static void put_broken(const struct broken *b)
{
    for (unsigned i = 0; i < b->count; i++)
        put(b->words[i]);
}

/* Lines before it: inputs, and a gate of one lead. They are two words more than inputs. */
static void start_before(unsigned inputs, int observable)
{
    start_list(inputs);
    gate(AND, 1, 0);
    if (observable)
        observe(inputs);
}

/* One rule broken and then another one, with what is only told at the end: leftovers, nothing observable, no room. */
static void broken_pair(const struct broken *first, const struct broken *second)
{
    for (unsigned odd = 0; odd < 4; odd++)
        for (int observable = 0; observable < 2; observable++) {
            start_before(1, observable);
            put_broken(first);
            put_broken(second);
            list.card_odd = odd;
            refused_list(first->rule, 3 + first->at, 0);
            refused_list(first->rule, 3 + first->at, ENOUGH);
        }
}

/* A rule broken after 5 in an input; in the 1,024th line, before 2; in the 1,025th, after it; and among too many words. */
static void broken_at_limits(const struct broken *b)
{
    start_before(2, 1);
    list.card[1] = 0x10000000;
    put_broken(b);
    refused_list(5, 1, ENOUGH);
    start_before(1022, 1);
    put_broken(b);
    gate(NOT, 1, 0);
    refused_list(b->rule, 1024 + b->at, ENOUGH);
    start_before(1023, 1);
    put_broken(b);
    refused_list(2, 1025, ENOUGH);
    refused_list(2, 1025, 0);
    list.card_odd = 3;
    refused_list(2, 1025, ENOUGH);
    while (list.card_words < CARD_WORDS)
        put(0x60000000);
    refused_list(2, 1025, 0);
    put(0x60000000);
    refused_list(1, 0, ENOUGH);
    refused_list(1, 0, 0);
    start_before(1, 1);
    put_broken(b);
    while (list.card_words < CARD_WORDS + 1)
        put(0);
    refused_list(1, 0, ENOUGH);
}

/* What is told at the end: leftovers, then 9, then 12. Where the words end inside a gate, leftovers make no difference. */
static void refusals_at_end(void)
{
    for (unsigned odd = 0; odd < 4; odd++)
        for (int observable = 0; observable < 2; observable++) {
            start_before(2, observable);
            list.card_odd = odd;
            for (size_t room = 0; room < 20; room++) /* the card has five words */
                if (odd)
                    refused_list(4, 4, room);
                else
                    refused_list(observable ? 12 : 9, observable ? 0 : 4, room);
            for (unsigned n = 1; n < 4; n++) {
                start_before(2, observable);
                list.card_odd = odd;
                put(0x40000003);
                for (unsigned k = 1; k < n; k++)
                    put(0x60000002);
                refused_list(4, 4 + n, n % 2 ? ENOUGH : 0);
            }
        }
}

/* No words, or inputs alone. */
static void refusals_without_gates(void)
{
    for (unsigned inputs = 0; inputs < 3; inputs++)
        for (unsigned odd = 0; odd < 4; odd++) {
            start_list(inputs);
            list.card_odd = odd;
            refused_list(odd ? 4 : 9, inputs, inputs ? 0 : ENOUGH);
        }
}

/* Each bit that must be zero, by itself. */
static void stray_bits(void)
{
    for (unsigned bit = 0; bit < 29; bit++) {
        start_list(2);
        list.card[1] = 1u << bit;
        refused_list(5, 1, ENOUGH);
        if (bit < 16)
            continue;
        start_before(2, 1);
        list.card[3] |= 1u << bit;
        refused_list(5, 3, ENOUGH);
        for (unsigned function = 0; function < 8 && bit < 26; function++)
            for (uint32_t kind = 1; kind < 3; kind++) {
                start_before(2, 1);
                list.card[2] = kind << 29 | function << 26 | 1u << bit | 1;
                refused_list(5, 2, ENOUGH);
            }
    }
}

/* Each function with few leads or none; with a lead on the line before, on its own and on the next. */
static void functions_and_leads(void)
{
    for (unsigned function = 0; function < 8; function++)
        for (unsigned n = 0; n < 4; n++)
            for (unsigned line = 2; line < 6; line++) {
                start_before(2, 1);
                put_header(function, n);
                for (unsigned k = 0; k < n; k++)
                    put(0x60000000u + (k + 1 < n ? 0 : line));
                list.vector_words = 0;
                put_vector(1, 0);
                if (function >= FUNCTIONS || n == 0 || (function >= NOT && n != 1))
                    refused_list(15, 4, ENOUGH);
                else if (line >= 3)
                    refused_list(16, 4 + n, ENOUGH);
                else
                    right_list();
            }
}

static void refusals(void)
{
    for (const struct broken *b = broken; b < broken + BROKEN; b++) {
        for (const struct broken *second = broken; second < broken + BROKEN; second++)
            broken_pair(b, second);
        broken_at_limits(b);
    }
    refusals_at_end();
    refusals_without_gates();
    stray_bits();
    functions_and_leads();
}

/* ---- limits ---- */

/* So many inputs and so many gates of n leads each, the last one observable. */
static void start_gates(unsigned inputs, unsigned count, unsigned n)
{
    start_list(inputs);
    for (unsigned i = 0; i < count; i++) {
        unsigned line = put_header(i % 2 ? NAND : NOR, n);
        for (unsigned k = 0; k < n; k++)
            put(0x60000000u + (i * 7 + k * 5) % line);
    }
    observe(list.graphs - 1);
    list.vector_words = 0;
    put_vector(0, 0);
    put_vector(1, 1);
}

static void limits(void)
{
    static const unsigned sizes[][3] = { { 1023, 1, 1 },    { 1, 1023, 1 },  { 1, 1023, 4 }, { 1, 1, 4096 },
                                         { 1023, 1, 4096 }, { 2, 2, 2048 }, { 512, 512, 8 } };
    for (unsigned i = 0; i < sizeof sizes / sizeof *sizes; i++) {
        start_gates(sizes[i][0], sizes[i][1], sizes[i][2]);
        right_list();
        size_t words = list.card_words, exactly = 4 * (size_t)(list.graphs + 2 * list.nodes);
        for (size_t room = exactly - 5; room < exactly; room++)
            refused_list(12, 0, room);
        put(0x40000001);
        put(0x60000000);
        if (list.graphs == GATESIM_LINES)
            refused_list(2, words, ENOUGH);
        else if (list.nodes == GATESIM_LEADS)
            refused_list(3, words, ENOUGH);
    }
    start_gates(1, 1, 4097);
    refused_list(3, 1, ENOUGH);
    start_gates(2, 2, 2049);
    refused_list(3, 2052, ENOUGH);
    start_list(9216);
    for (list.card_odd = 0; list.card_odd < 4; list.card_odd++)
        refused_list(2, 1024, ENOUGH);
    start_list(9217);
    for (list.card_odd = 0; list.card_odd < 4; list.card_odd++)
        refused_list(1, 0, ENOUGH);
}

/* ---- functions ---- */

/* One observable gate, under vectors with all inputs equal, and with one of them other. */
static void one_gate(unsigned function, unsigned inputs, unsigned n)
{
    start_list(inputs);
    wide_gate(function, n);
    list.vector_words = 0;
    for (unsigned value = 0; value < 2; value++) {
        put_vector(value, inputs);
        put_vector(value, 0);
        put_vector(value, inputs / 2);
        put_vector(value, inputs - 1);
    }
    right_list();
}

/* Each function of one lead, two and 4,096; of two leads that name one line; and as a hidden gate that nobody reads. */
static void functions(void)
{
    for (unsigned function = 0; function < FUNCTIONS; function++) {
        one_gate(function, 1, 1);
        start_list(2);
        gate(function, 1, 0);
        observe(gate(BUF, 1, 1));
        all_vectors();
        right_list();
        if (function >= NOT)
            continue;
        one_gate(function, 2, 2);
        one_gate(function, 1, 2);
        one_gate(function, 1023, 4096);
        one_gate(function, 1, 4096);
    }
}

/* ---- c17 ---- */

/* The smallest of the ISCAS-85 circuits: six NAND gates, inputs 1, 2, 3, 6 and 7, outputs 22 and 23. */
static void c17(void)
{
    unsigned n10, n11, n16, n19, n22, n23;
    start_list(5);
    n10 = gate(NAND, 2, 0, 2);
    n11 = gate(NAND, 2, 2, 3);
    n16 = gate(NAND, 2, 1, n11);
    n19 = gate(NAND, 2, n11, 4);
    n22 = observe(gate(NAND, 2, n10, n16));
    n23 = observe(gate(NAND, 2, n16, n19));
    all_vectors();
    right_list();
    for (unsigned v = 0; v < 32; v++) {
        uint8_t vector[4] = { 0xA0, 0, 0, (uint8_t)v };
        unsigned i1 = v & 1, i2 = v >> 1 & 1, i3 = v >> 2 & 1, i6 = v >> 3 & 1, i7 = v >> 4 & 1, both = i3 & i6;
        gatesim_values(&g, vector, NULL, 0, want);
        if (word_at(want, n22) != ((i1 & i3) | (i2 & !both)) || word_at(want, n23) != ((i2 | i7) & !both))
            differ("c17's function");
    }
}

/* ---- the 74S181 ---- */

/* The net of bench/circuits.py, gate for gate: the equations of the data sheet, with the one-lead ANDs of its
 * AND-OR-invert drawing and four NANDs for an exclusive or; 87 gates. Inputs: A0-3, B0-3, S0-3, M, Cn. Outputs: F0-3,
 * A = B, X, Y, Cn+4. */
enum { A = 0, B = 4, S = 8, M = 12, CN = 13, ALU_INPUTS = 14 };
static struct {
    unsigned d[4], e[4], c[4], f[4], equal, y, carry;
} alu;

static unsigned exclusive_or(unsigned a, unsigned b)
{
    unsigned c = gate(NAND, 2, a, b), d = gate(NAND, 2, a, c), e = gate(NAND, 2, c, b);
    return gate(NAND, 2, d, e);
}

static void alu_operands(void)
{
    for (unsigned i = 0; i < 4; i++) {
        unsigned not_b = gate(NOT, 1, B + i);
        alu.d[i] = gate(NOR, 3, gate(AND, 1, A + i), gate(AND, 2, B + i, S + 0), gate(AND, 2, not_b, S + 1));
        alu.e[i] = gate(NOR, 2, gate(AND, 3, A + i, not_b, S + 2), gate(AND, 3, A + i, B + i, S + 3));
    }
}

static void alu_carries(void)
{
    const unsigned *d = alu.d, *e = alu.e;
    unsigned m = gate(NOT, 1, M);
    alu.c[0] = gate(NAND, 2, m, CN);
    alu.c[1] = gate(NOR, 2, gate(AND, 2, m, d[0]), gate(AND, 3, m, e[0], CN));
    alu.c[2] = gate(NOR, 3, gate(AND, 2, m, d[1]), gate(AND, 3, m, d[0], e[1]), gate(AND, 4, m, e[0], e[1], CN));
    alu.c[3] = gate(NOR, 4, gate(AND, 2, m, d[2]), gate(AND, 3, m, d[1], e[2]), gate(AND, 4, m, d[0], e[1], e[2]),
                    gate(AND, 5, m, e[0], e[1], e[2], CN));
    alu.y = observe(gate(NOR, 4, gate(AND, 1, d[3]), gate(AND, 2, d[2], e[3]), gate(AND, 3, d[1], e[2], e[3]),
                         gate(AND, 4, d[0], e[1], e[2], e[3])));
    observe(gate(NAND, 4, e[0], e[1], e[2], e[3])); /* X */
    alu.carry = observe(gate(NAND, 2, alu.y, gate(NAND, 5, CN, e[0], e[1], e[2], e[3])));
}

static void start_alu(void)
{
    start_list(ALU_INPUTS);
    alu_operands();
    alu_carries();
    for (unsigned i = 0; i < 4; i++)
        alu.f[i] = observe(exclusive_or(exclusive_or(alu.d[i], alu.e[i]), alu.c[i]));
    alu.equal = observe(gate(AND, 4, alu.f[0], alu.f[1], alu.f[2], alu.f[3]));
}

/* The data sheet's tables for active-high operands, S from 0 to 15: the logic functions, and the arithmetic ones, of up to
 * 30, without their carry in. */
static unsigned alu_logic(unsigned s, unsigned a, unsigned b)
{
    const unsigned table[] = { ~a,     ~(a | b),  ~a & b, 0,     ~(a & b), ~b,     a ^ b, a & ~b,
                               ~a | b, ~(a ^ b), b,      a & b, 15,       a | ~b, a | b, a };
    return table[s] & 15;
}

static unsigned alu_sum(unsigned s, unsigned a, unsigned b)
{
    unsigned n = ~b & 15;
    const unsigned table[] = { a,           a | b,             a | n,             15,
                               a + (a & n), (a | b) + (a & n), a + n,             (a & n) + 15,
                               a + (a & b), a + b,             (a | n) + (a & b), (a & b) + 15,
                               a + a,       (a | b) + a,       (a | n) + a,       a + 15 };
    return table[s];
}

/* On all 16,384 vectors. Carries are told inverted. */
static void check_alu(void)
{
    for (unsigned v = 0; v < 1u << ALU_INPUTS; v++) {
        uint8_t vector[4] = { 0xA0, 0, (uint8_t)(v >> 8), (uint8_t)v };
        unsigned a = v & 15, b = v >> 4 & 15, s = v >> 8 & 15, m = v >> M & 1, f = 0;
        unsigned sum = alu_sum(s, a, b) + 1 - (v >> CN & 1);
        gatesim_values(&g, vector, NULL, 0, want);
        for (unsigned i = 0; i < 4; i++)
            f |= word_at(want, alu.f[i]) << i;
        if (f != (m ? alu_logic(s, a, b) : sum & 15) || word_at(want, alu.equal) != (f == 15)
            || (!m && word_at(want, alu.carry) == sum >> 4))
            differ("the 74S181's function");
    }
}

static void alu181(void)
{
    start_alu();
    gen_vectors(&list, 400);
    right_list();
    if (g.lines != ALU_INPUTS + 87 || g.observable != 8)
        differ("the 74S181's gates");
    check_alu();
}

/* ---- generated lists ---- */

/* Each as it is, and then spoilt, now and then in two ways. */
static void small_lists(unsigned count)
{
    for (unsigned i = 0; i < count; i++) {
        gen_small_gates(&list);
        any_list();
        do
            gen_spoil_gates(&list);
        while (gen_chance(25));
        any_list();
    }
}

static void limit_lists(unsigned count)
{
    for (unsigned i = 0; i < count; i++) {
        gen_limit_gates(&list, i);
        any_list();
        gen_spoil_gates(&list);
        any_list();
    }
}

/* ---- the report ---- */

static const unsigned rules[] = { 1, 2, 3, 4, 5, 9, 12, 15, 16 };
enum { RULES = sizeof rules / sizeof *rules };

static int reached_too_little(void)
{
    int few = too_few("accepted gate lists", total.accepted, 3000) + too_few("refused gate lists", total.refused, 3000);
    for (unsigned i = 0; i < RULES; i++)
        few += too_few("one refusal", total.refusals[rules[i]], 5);
    for (unsigned function = 0; function < FUNCTIONS; function++)
        few += too_few(function_names[function], function < NOT ? total.several[function] : total.one[function], 2000);
    for (unsigned odd = 1; odd < 4; odd++) {
        few += too_few("leftovers in gate lists", total.odd_gates[odd], 200);
        few += too_few("leftovers in buffers", total.odd_room[odd], 200);
    }
    for (int beyond = 0; beyond < 2; beyond++) {
        few += too_few("lists at the limit of lines", total.lines[beyond], 15);
        few += too_few("lists at the limit of leads", total.leads[beyond], 15);
    }
    few += too_few("gates with a line twice", total.twice, 2000) + too_few("gates that nobody reads", total.unread, 2000);
    few += too_few("observable gates that are read", total.passed_on, 2000);
    few += too_few("lines that do not count", total.single, 2000);
    few += too_few("values", total.values, 500000) + too_few("values with several faults in", total.several_in, 50000);
    return few + too_few("caught faults", total.caught, 100000)
           + too_few("faults that are not caught", total.faults - total.caught, 100000);
}

static void report(void)
{
    printf("gates: refusals of generated lists");
    for (unsigned i = 0; i < RULES; i++)
        printf(" %u:%u", rules[i], total.refusals[rules[i]]);
    printf("\ngates: accepted with one lead, with more:");
    for (unsigned function = 0; function < FUNCTIONS; function++)
        printf("%s %s %u %u", function ? "," : "", function_names[function], total.one[function], total.several[function]);
    printf("\ngates: with a line twice %u, that nobody reads %u, observable and read %u; lines that do not count %u\n",
           total.twice, total.unread, total.passed_on, total.single);
    printf("gates: leftovers of 1, 2, 3 bytes in lists %u %u %u, buffers %u %u %u\n", total.odd_gates[1], total.odd_gates[2],
           total.odd_gates[3], total.odd_room[1], total.odd_room[2], total.odd_room[3]);
    printf("gates: with 1024 lines %u, more %u; with 4096 leads %u, more %u\n", total.lines[0], total.lines[1], total.leads[0],
           total.leads[1]);
    printf("gates: %u values, %u with several faults in, and %u gradings of %u faults, %u caught, as of the gates\n", total.values,
           total.several_in, total.gradings, total.faults, total.caught);
    printf("gates: %u gate lists accepted, %u refused, %u by hand, %u differ\n", total.accepted, total.refused, total.by_hand,
           compared.differ);
}

int main(int argc, char **argv)
{
    uint64_t fresh = argc > 1 ? strtoull(argv[1], NULL, 10) : (uint64_t)time(NULL);
    compare_seed(7);
    refusals();
    limits();
    functions();
    c17();
    alu181();
    compare_seed(8);
    small_lists(SMALL_LISTS);
    compare_seed(9);
    limit_lists(LIMIT_LISTS);
    printf("gates: fresh seed %llu\n", (unsigned long long)fresh);
    compare_seed(fresh);
    small_lists(FRESH_LISTS);
    limit_lists(GEN_GATE_SHAPES);
    report();
    return reached_too_little() || compared.differ;
}
