/* gen.c: see gen.h. */
#include "gen.h"

#include "gatesim.h"

#include <string.h>

enum { MAX_GRAPHS = 1024, MAX_NODES = 4096, MAX_WORDS = 9216, NONE = 0xFFFF };

/* ---- random numbers (splitmix64) ---- */

static uint64_t state;

void gen_seed(uint64_t seed)
{
    state = seed;
}

static uint64_t next(void)
{
    uint64_t z = state += 0x9E3779B97F4A7C15u;
    z = (z ^ z >> 30) * 0xBF58476D1CE4E5B9u;
    z = (z ^ z >> 27) * 0x94D049BB133111EBu;
    return z ^ z >> 31;
}

uint32_t gen_below(uint32_t n)
{
    return (uint32_t)((next() >> 32) * n >> 32);
}

int gen_chance(unsigned percent)
{
    return gen_below(100) < percent;
}

static unsigned one_of(const unsigned *list, unsigned count)
{
    return list[gen_below(count)];
}

/* ---- cards ---- */

/* The flavour of a card's graphs, in percent. */
static struct {
    unsigned chain;   /* a node named by the one just before it */
    unsigned later;   /* further exits that go to a later node */
    unsigned equal;   /* further exits equal to their node's other one */
    unsigned near;    /* reads of one of the last few graphs */
    unsigned observe; /* observable graphs */
    unsigned invert;  /* inverted reads; of half of the cards none */
} style;

static void pick_style(void)
{
    style.chain = 25 * gen_below(5);
    style.later = 20 * gen_below(4);
    style.equal = gen_chance(50) ? 0 : 30;
    style.near = 30 * gen_below(4);
    style.observe = gen_chance(50) ? 15 : 50;
    style.invert = gen_chance(50) ? 0 : 25 + 25 * gen_below(4);
}

static unsigned exits[MAX_NODES + 1][2];

/* An exit that is not needed to name a node. */
static unsigned spare_exit(unsigned k, unsigned side, unsigned n)
{
    if (exits[k][1 - side] != NONE && gen_chance(style.equal))
        return exits[k][1 - side];
    if (k + 1 < n && gen_chance(style.later))
        return k + 3 + gen_below(n - k - 1);
    return gen_below(2);
}

/* Exits of n nodes, each node but the first named by an earlier one. */
static void make_exits(unsigned n)
{
    static unsigned slot[2 * MAX_NODES + 4];
    unsigned open = 0;
    for (unsigned k = 0; k < n; k++) {
        if (k > 0) {
            unsigned i = gen_chance(style.chain) ? open - 1 - gen_below(2) : gen_below(open);
            exits[slot[i] / 2][slot[i] % 2] = k + 2;
            slot[i] = slot[--open];
        }
        exits[k][0] = exits[k][1] = NONE;
        slot[open++] = 2 * k;
        slot[open++] = 2 * k + 1;
    }
    for (unsigned i = 0; i < open; i++)
        exits[slot[i] / 2][slot[i] % 2] = spare_exit(slot[i] / 2, slot[i] % 2, n);
}

static unsigned pick_read(unsigned below)
{
    unsigned near = below < 4 ? below : 4;
    return gen_chance(style.near) ? below - 1 - gen_below(near) : gen_below(below);
}

static void put(struct input *in, uint32_t w)
{
    if (in->card_words < GEN_CARD_ROOM)
        in->card[in->card_words++] = w;
}

static void put_inputs(struct input *in, unsigned count)
{
    memset(in->card, 0, sizeof in->card);
    in->card_words = in->inputs = in->graphs = count;
    in->nodes = 0;
    in->card_odd = 0;
}

static void put_header(struct input *in, unsigned n, int observable)
{
    put(in, (observable ? 0x40000000u : 0x20000000u) + n);
    in->graphs++;
    in->nodes += n;
}

static void put_node(struct input *in, unsigned read, unsigned exit0, unsigned exit1)
{
    put(in, 0x60000000u + (gen_chance(style.invert) ? 0x10000u : 0) + read);
    put(in, 0x80000000u + (exit0 << 14) + exit1);
}

static void put_graph(struct input *in, unsigned n, int observable)
{
    make_exits(n);
    put_header(in, n, observable);
    for (unsigned k = 0; k < n; k++)
        put_node(in, pick_read(in->graphs - 1), exits[k][0], exits[k][1]);
}

void gen_small_card(struct input *in, unsigned most_inputs)
{
    static const unsigned inputs[] = { 1, 1, 2, 2, 3, 4, 5, 8, 15, 16, 17, 20, 33 };
    static const unsigned outputs[] = { 0, 1, 2, 3, 4, 6, 9, 14 };
    static const unsigned sizes[] = { 1, 2, 3, 4, 8 };
    unsigned m, outs = one_of(outputs, 8), size = one_of(sizes, 5);
    do
        m = one_of(inputs, 13);
    while (m > most_inputs);
    pick_style();
    put_inputs(in, m);
    for (unsigned i = 0; i < outs; i++)
        put_graph(in, 1 + gen_below(size), gen_chance(style.observe));
    put_graph(in, 1 + gen_below(size), 1);
    if (gen_chance(20)) /* a hidden graph last */
        put_graph(in, 1 + gen_below(size), 0);
}

/* The node for one graph, then either of two for the other one. With inverted reads it is also equality, or neither. */
static void put_unequal(struct input *in, int observable)
{
    unsigned one = pick_read(in->graphs), other = pick_read(in->graphs);
    put_header(in, 3, observable);
    put_node(in, one, 3, 4);
    put_node(in, other, 0, 1);
    put_node(in, other, 1, 0);
}

void gen_unequal_card(struct input *in)
{
    pick_style();
    put_inputs(in, 2 + gen_below(5));
    for (unsigned outs = gen_below(8); outs > 0; outs--)
        if (gen_chance(70))
            put_unequal(in, gen_chance(style.observe));
        else
            put_graph(in, 1 + gen_below(3), gen_chance(style.observe));
    put_unequal(in, 1);
}

/* So many graphs with so many nodes in all, spread at random. */
static void put_graphs(struct input *in, unsigned outs, unsigned nodes)
{
    while (outs > 0) {
        unsigned most = nodes - (outs - 1), mean = nodes / outs;
        unsigned n = outs == 1 ? nodes : 1 + gen_below(2 * mean);
        if (n > most)
            n = most;
        put_graph(in, n, outs < 3 || gen_chance(3));
        outs--;
        nodes -= n;
    }
}

static unsigned limit_inputs(void)
{
    static const unsigned inputs[] = { 1, 2, 16, 17, 100, 512, 512, 900 };
    return one_of(inputs, 8);
}

static void chain_of_links(struct input *in)
{
    style.near = 100;
    put_inputs(in, 1);
    for (unsigned i = 0; i < 1023; i++)
        put_graph(in, i == 1022 ? 8 : 4, i == 1022);
}

static void one_large_graph(struct input *in, unsigned n)
{
    style.chain = 100;
    put_inputs(in, 1 + gen_below(20));
    put_graph(in, n, 1);
}

/* Graphs and nodes met, or passed by so many. */
static void at_limits(struct input *in, unsigned graphs, unsigned nodes)
{
    unsigned m = limit_inputs();
    put_inputs(in, m);
    put_graphs(in, graphs - m, nodes);
}

static void few_graphs(struct input *in, unsigned nodes)
{
    put_inputs(in, 1 + gen_below(40));
    put_graphs(in, 1 + gen_below(60), nodes);
}

static void inputs_mostly(struct input *in)
{
    put_inputs(in, 1023);
    put_graph(in, 1 + gen_below(30), 1);
}

static const uint32_t odd_words[] = { 0, 1, 0x20000000, 0x20000001, 0x40000001, 0x40010001, 0x60000000, 0x60000001, 0x60010000, 0x60020000,
                                      0x80000001, 0x80000002, 0x80000003, 0x8000C001, 0x90000001, 0xA0000000,
                                      0xC0000000, 0xFFFFFFFF, 0x4000FFFF, 0x40001000, 0x6000FFFF, 0x8FFFFFFF };
enum { ODD_WORDS = sizeof odd_words / sizeof *odd_words };

void gen_limit_card(struct input *in, unsigned number)
{
    pick_style();
    switch (number % GEN_LIMIT_SHAPES) {
    case 0: /* all three limits */
    case 1: at_limits(in, 1024, 4096); break;
    case 2: at_limits(in, 1024, 2048 + gen_below(2048)); break;
    case 3: few_graphs(in, 4096); break;
    case 4: one_large_graph(in, 4096); break;
    case 5: inputs_mostly(in); break;
    case 6: chain_of_links(in); break;
    case 7: at_limits(in, 1023, 4095); break;
    case 8: /* one graph too many */
        at_limits(in, 1024, 2048 + gen_below(2048));
        put(in, odd_words[gen_below(ODD_WORDS)]);
        break;
    case 9: few_graphs(in, 4097); break;
    case 10: one_large_graph(in, 4097); break;
    default: /* one word too many */
        at_limits(in, 1024, 4096);
        put(in, odd_words[gen_below(ODD_WORDS)]);
    }
}

/* ---- vectors ---- */

static void put_vector(struct input *in, uint32_t *at)
{
    for (unsigned j = 0; 16 * j < in->inputs; j++) {
        unsigned left = in->inputs - 16 * j;
        at[j] = 0xA0000000u + gen_below(left < 16 ? 1u << left : 0x10000u);
    }
}

void gen_vectors(struct input *in, unsigned count)
{
    unsigned w = (in->inputs + 15) / 16, few = gen_chance(30) ? 1 + gen_below(3) : 0;
    in->vectors_odd = 0;
    in->vector_words = 0;
    for (unsigned v = 0; v < count; v++) {
        uint32_t *at = in->vectors + (size_t)v * w;
        if (few && v >= few)
            memmove(at, in->vectors + (size_t)gen_below(few) * w, 4 * (size_t)w);
        else
            put_vector(in, at);
        in->vector_words += w;
    }
}

/* ---- two cards and their wires ---- */

void gen_wires(struct input *in, unsigned graphs, unsigned free)
{
    in->vectors_odd = 0;
    in->vector_words = in->inputs;
    for (unsigned i = 0; i < in->inputs; i++) {
        int stays = gen_below(in->inputs - i) < free;
        in->vectors[i] = stays ? 0xFFFFFFFFu : gen_below(graphs);
        free -= stays;
    }
}

/* A pair whose joined card has so many graphs and nodes, with inputs and outputs shared out at random. */
static void put_pair(struct input *a, struct input *b, unsigned graphs, unsigned nodes)
{
    static const unsigned few[] = { 0, 0, 1, 15, 16, 100, 300 };
    unsigned m = 1 + one_of(few, 7), free = one_of(few, 7), wired = one_of(few, 7) + (free == 0);
    unsigned outs = graphs - m - free, outs_a = 1 + gen_below(outs - 1);
    unsigned most, nodes_a;
    if (free + wired + outs - outs_a > MAX_GRAPHS) /* B is a card itself */
        outs_a = free + wired + outs - MAX_GRAPHS;
    most = nodes - outs; /* beyond one for each output */
    nodes_a = outs_a + gen_below(most + 1);
    put_inputs(a, m);
    put_graphs(a, outs_a, nodes_a);
    put_inputs(b, free + wired);
    put_graphs(b, outs - outs_a, nodes - nodes_a);
    gen_wires(b, a->graphs, free);
}

void gen_limit_pair(struct input *a, struct input *b, unsigned number)
{
    unsigned fewer = 700 + gen_below(300), less = 1024 + gen_below(3000);
    pick_style();
    switch (number % GEN_PAIR_SHAPES) {
    case 0: put_pair(a, b, 1024, 4096); break;
    case 1: put_pair(a, b, 1024, less); break;
    case 2: put_pair(a, b, fewer, 4096); break;
    case 3: put_pair(a, b, 1025, less); break;
    case 4: put_pair(a, b, fewer, 4097); break;
    case 5: put_pair(a, b, 1025, 4097); break;
    default: put_pair(a, b, 1023, 4095);
    }
}

/* ---- gate lists ---- */

static void put_gate_inputs(struct input *in, unsigned count)
{
    pick_style();
    put_inputs(in, count);
}

static void put_gate(struct input *in, unsigned function, unsigned n, int observable)
{
    put(in, (observable ? 0x40000000u : 0x20000000u) + (function << 26) + n);
    for (unsigned k = 0; k < n; k++)
        put(in, 0x60000000u + pick_read(in->graphs));
    in->graphs++;
    in->nodes += n;
}

/* Any function that takes so many leads: from NOT on they take one. */
static void put_any_gate(struct input *in, unsigned n, int observable)
{
    put_gate(in, gen_below(n == 1 ? FUNCTIONS : NOT), n, observable);
}

void gen_small_gates(struct input *in)
{
    static const unsigned sizes[] = { 1, 2, 2, 3, 5 };
    int wide = gen_chance(12);
    unsigned gates = gen_below(wide ? 60 : 20), size = one_of(sizes, 5) + (wide ? 10 : 0);
    put_gate_inputs(in, wide ? 7 + gen_below(30) : 1 + gen_below(6));
    for (unsigned i = 0; i < gates; i++)
        put_any_gate(in, 1 + gen_below(size), i + 1 < gates && gen_chance(style.observe));
    put_any_gate(in, 1 + gen_below(size), 1);
    if (gen_chance(20)) /* a hidden gate last */
        put_any_gate(in, 1 + gen_below(size), 0);
}

/* So many lines with so many leads in all, spread at random. */
static void put_gates(struct input *in, unsigned lines, unsigned leads)
{
    for (unsigned left = lines - in->graphs; left > 0; left--) {
        unsigned most = leads - (left - 1), n = left == 1 ? leads : 1 + gen_below(2 * (leads / left));
        if (n > most)
            n = most;
        put_any_gate(in, n, left < 3 || gen_chance(3));
        leads -= n;
    }
}

static void gates_at_limits(struct input *in, unsigned lines, unsigned leads)
{
    put_gate_inputs(in, limit_inputs());
    put_gates(in, lines, leads);
}

static void few_gates(struct input *in, unsigned leads)
{
    put_gate_inputs(in, 1 + gen_below(40));
    put_gates(in, in->graphs + 1 + gen_below(60), leads);
}

static void one_large_gate(struct input *in, unsigned n)
{
    put_gate_inputs(in, 1 + gen_below(1023));
    put_any_gate(in, n, 1);
}

/* Each gate reads the line below it. */
static void chain_of_gates(struct input *in)
{
    put_gate_inputs(in, 1);
    for (unsigned i = 0; i < 1023; i++) {
        put_gate(in, gen_below(FUNCTIONS), 1, i == 1022);
        in->card[in->card_words - 1] = 0x60000000u + i;
    }
}

static const uint32_t odd_gate_words[] = { 0, 1, 0x20000001, 0x28000002, 0x40000001, 0x40010001, 0x42000001, 0x40000000,
                                           0x50000001, 0x50000002, 0x54000001, 0x54000000, 0x58000001, 0x5C000002,
                                           0x40001000, 0x48001001, 0x4C00FFFF, 0x60000000, 0x60000001, 0x60010000,
                                           0x70000000, 0x6000FFFF, 0x80000001, 0xA0000000, 0xC0000000, 0xFFFFFFFF };
enum { ODD_GATE_WORDS = sizeof odd_gate_words / sizeof *odd_gate_words };

void gen_limit_gates(struct input *in, unsigned number)
{
    switch (number % GEN_GATE_SHAPES) {
    case 0: gates_at_limits(in, 1024, 4096); break;
    case 1: gates_at_limits(in, 1024, 2048 + gen_below(2048)); break;
    case 2: few_gates(in, 4096); break;
    case 3: one_large_gate(in, 4096); break;
    case 4: chain_of_gates(in); break;
    case 5: gates_at_limits(in, 1023, 4095); break;
    case 6: gates_at_limits(in, 1025, 2048 + gen_below(2048)); break;
    case 7: few_gates(in, 4097); break;
    case 8: one_large_gate(in, 4097); break;
    case 9: gates_at_limits(in, 1025, 4097); break;
    default: /* too many words, whatever they are */
        gates_at_limits(in, 1024, 4096);
        while (in->card_words < MAX_WORDS + 1)
            put(in, odd_gate_words[gen_below(ODD_GATE_WORDS)]);
    }
}

/* ---- spoiling ---- */

static uint32_t changed(uint32_t w)
{
    switch (gen_below(5)) {
    case 0: return w ^ 1u << gen_below(32);
    case 1: return w ^ 1u << gen_below(16);
    case 2: return w + 1;
    case 3: return w - 1;
    default: return odd_words[gen_below(ODD_WORDS)];
    }
}

static void insert(uint32_t *words, size_t *count, size_t room, size_t at, uint32_t w)
{
    if (*count + 1 >= room)
        return;
    memmove(words + at + 1, words + at, 4 * (*count - at));
    words[at] = w;
    ++*count;
}

static void cut_out(uint32_t *words, size_t *count, size_t at)
{
    memmove(words + at, words + at + 1, 4 * (*count - at - 1));
    --*count;
}

static void hide_all(struct input *in)
{
    for (size_t i = 0; i < in->card_words; i++)
        if (in->card[i] >> 29 == 2)
            in->card[i] -= 0x20000000u;
}

/* One word changed, put in or taken out, the end cut off, more words, leftover bytes. */
void gen_spoil_card(struct input *in)
{
    size_t n = in->card_words, at = gen_below((uint32_t)n + 1);
    switch (gen_below(10)) {
    case 0: in->card_words = at; break;
    case 1: insert(in->card, &in->card_words, GEN_CARD_ROOM, at, odd_words[gen_below(ODD_WORDS)]); break;
    case 2:
        if (at < n)
            cut_out(in->card, &in->card_words, at);
        break;
    case 3: put(in, odd_words[gen_below(ODD_WORDS)]); break;
    case 4: in->card_odd = 1 + gen_below(3); break;
    case 5: hide_all(in); break;
    case 6: /* a node that names none */
        if (at < n && in->card[at] >> 29 == 4)
            in->card[at] = 0x80000001;
        break;
    default:
        if (at < n)
            in->card[at] = changed(in->card[at]);
    }
    if (gen_chance(10))
        in->card_odd = 1 + gen_below(3);
}

/* A word of a gate list with another kind, function, number or line, a bit more, or any other word. */
static uint32_t changed_gate(uint32_t w, unsigned lines)
{
    switch (gen_below(8)) {
    case 0: return (w & 0x1FFFFFFFu) + (gen_below(8) << 29);
    case 1: return (w & 0xE3FFFFFFu) + (gen_below(8) << 26);
    case 2: return w ^ 1u << (16 + gen_below(13));
    case 3: return w ^ 1u << gen_below(16);
    case 4: return (w & 0xFFFF0000u) + gen_below(4);
    case 5: return (w & 0xFFFF0000u) + lines - 2 + gen_below(4);
    case 6: return changed(w);
    default: return odd_gate_words[gen_below(ODD_GATE_WORDS)];
    }
}

void gen_spoil_gates(struct input *in)
{
    size_t n = in->card_words, at = gen_below((uint32_t)n + 1);
    switch (gen_below(9)) {
    case 0: in->card_words = at; break;
    case 1: insert(in->card, &in->card_words, GEN_CARD_ROOM, at, odd_gate_words[gen_below(ODD_GATE_WORDS)]); break;
    case 2:
        if (at < n)
            cut_out(in->card, &in->card_words, at);
        break;
    case 3: put(in, odd_gate_words[gen_below(ODD_GATE_WORDS)]); break;
    case 4: hide_all(in); break;
    default:
        if (at < n)
            in->card[at] = changed_gate(in->card[at], in->graphs);
    }
    if (gen_chance(15))
        in->card_odd = 1 + gen_below(3);
}

void gen_spoil_vectors(struct input *in)
{
    size_t n = in->vector_words, at = gen_below((uint32_t)n + 1);
    switch (gen_below(6)) {
    case 0: in->vector_words = at; break;
    case 1: insert(in->vectors, &in->vector_words, GEN_VECTOR_ROOM, at, 0xA0000000u); break;
    case 2: in->vectors_odd = 1 + gen_below(3); break;
    default:
        if (at < n)
            in->vectors[at] = changed(in->vectors[at]);
    }
}

/* A word that names no graph, the end cut off, a word more, leftover bytes. */
void gen_spoil_wires(struct input *in, unsigned graphs)
{
    static const uint32_t far[] = { 0xFFFFFFFE, 0x7FFFFFFF, 0x80000000, 0x10000, 0xFFFF, 1024 };
    size_t n = in->vector_words, at = gen_below((uint32_t)n);
    switch (gen_below(6)) {
    case 0: in->vector_words = at; break;
    case 1: insert(in->vectors, &in->vector_words, GEN_VECTOR_ROOM, at, gen_chance(50) ? 0xFFFFFFFFu : gen_below(graphs + 1)); break;
    case 2: in->vectors_odd = 1 + gen_below(3); break;
    case 3: in->vectors[at] = far[gen_below(6)]; break;
    default: in->vectors[at] = graphs + gen_below(2);
    }
}

/* ---- lists of faults ---- */

/* A header is a graph, and a read or a lead (kind 3) a node of the graph before it. */
void gen_places(const struct input *in, struct places *p)
{
    p->nodes = p->graphs = 0;
    for (size_t i = 0; i < in->card_words; i++) {
        uint32_t w = in->card[i];
        if (w >> 29 < 3)
            p->kind[p->graphs++] = w >> 29;
        if (w >> 29 == 3) {
            p->home[p->nodes] = p->graphs - (p->graphs > 0);
            p->read[p->nodes++] = w & 0xFFFF;
        }
    }
}

/* The next node from any one on, in turn, that stands in the graph or reads it; that one where there is none. */
static unsigned node_at(const struct places *p, const unsigned *graphs, unsigned graph)
{
    unsigned from = gen_below(p->nodes), j = from;
    while (graphs[j] != graph && (j + 1) % p->nodes != from)
        j = (j + 1) % p->nodes;
    return j;
}

/* A place that meets this one, or just any one. */
static unsigned pick_place(const struct places *p, unsigned place)
{
    unsigned all = p->nodes + p->graphs;
    if (p->nodes == 0 || place >= all || gen_chance(30))
        return gen_below(all);
    if (place >= p->nodes)
        return node_at(p, gen_chance(50) ? p->home : p->read, place - p->nodes);
    switch (gen_below(3)) {
    case 0: return node_at(p, p->home, p->home[place]);
    case 1: return p->nodes + p->home[place];
    default: return p->nodes + p->read[place];
    }
}

static int has_place(const struct fault_list *l, unsigned place)
{
    for (size_t i = 0; i < l->count; i++)
        if (l->number[i] / 2 == place)
            return 1;
    return 0;
}

/* Adds numbers of further places, up to so many; as far as there are places. */
static void lengthen(struct fault_list *l, const struct places *p, size_t count)
{
    unsigned all = p->nodes + p->graphs;
    while (l->count < count && l->count < all) {
        unsigned place = l->count ? pick_place(p, l->number[gen_below((uint32_t)l->count)] / 2) : gen_below(all);
        while (has_place(l, place))
            place = (place + 1) % all;
        l->number[l->count++] = 2 * place + gen_below(2);
    }
}

void gen_faults(struct fault_list *l, const struct places *p, unsigned count)
{
    l->count = l->odd = 0;
    lengthen(l, p, count);
}

/* Puts a number in, between any two or last, or in the place of another one. */
static void put_fault(struct fault_list *l, uint32_t fault)
{
    size_t at = gen_chance(30) ? l->count : gen_below((uint32_t)l->count + 1);
    if (at < l->count && gen_chance(40))
        l->number[at] = fault;
    else
        insert(l->number, &l->count, GEN_FAULTS_ROOM, at, fault);
}

static uint32_t too_high(uint32_t faults)
{
    static const uint32_t far[] = { 0x7FFFFFFF, 0x80000000, 0xFFFFFFFF, 0xFFFFFFFE, 0x10000, 10240 };
    switch (gen_below(4)) {
    case 0: return far[gen_below(6)];
    case 1: return gen_below(faults) + (1u << (16 + gen_below(16))); /* its lower half is right */
    default: return faults + gen_below(3);
    }
}

/* Nine numbers or more, of other places as far as there are so many, and then of any. */
static void overfill(struct fault_list *l, const struct places *p)
{
    size_t count = GEN_TOGETHER + 1;
    if (gen_chance(50))
        count += gen_below(gen_chance(80) ? 8 : GEN_FAULTS_ROOM - 50);
    lengthen(l, p, count);
    while (l->count < count)
        l->number[l->count++] = gen_below(2 * (p->nodes + p->graphs));
}

void gen_spoil_faults(struct fault_list *l, const struct places *p)
{
    uint32_t faults = 2 * (p->nodes + p->graphs), one = l->count ? l->number[gen_below((uint32_t)l->count)] : gen_below(faults);
    switch (gen_below(6)) {
    case 0: l->odd = 1 + gen_below(3); break;
    case 1: put_fault(l, one); break;
    case 2: put_fault(l, one ^ 1); break;
    case 3: overfill(l, p); break;
    case 4: put_fault(l, too_high(faults)); break;
    default:
        overfill(l, p);
        insert(l->number, &l->count, GEN_FAULTS_ROOM, l->count, too_high(faults));
    }
}

void gen_shuffle(struct fault_list *l)
{
    for (size_t i = l->count; i > 1; i--) {
        size_t k = gen_below((uint32_t)i);
        uint32_t w = l->number[i - 1];
        l->number[i - 1] = l->number[k];
        l->number[k] = w;
    }
}

size_t gen_bytes(const uint32_t *words, size_t count, unsigned odd, uint8_t *bytes)
{
    uint8_t *b = bytes;
    for (size_t i = 0; i < count; i++) {
        *b++ = (uint8_t)(words[i] >> 24);
        *b++ = (uint8_t)(words[i] >> 16);
        *b++ = (uint8_t)(words[i] >> 8);
        *b++ = (uint8_t)words[i];
    }
    for (unsigned i = 0; i < odd; i++)
        *b++ = (uint8_t)gen_below(256);
    return (size_t)(b - bytes);
}
