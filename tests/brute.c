/* brute.c: see brute.h. */
#include "brute.h"

#include <stdio.h>
#include <stdlib.h>
#include <string.h>

enum {
    MAX_GRAPHS = 1024,
    MAX_NODES = 4096,
    MAX_WORDS = 9216,
    MAX_FAULTS = 2 * MAX_NODES + 2 * MAX_GRAPHS,
    MAX_VECTORS = 65535,
    MAX_VECTOR_WORDS = 16384,
    MAX_TOGETHER = 8
};

struct card {
    unsigned inputs, graphs, nodes, observable, faults;
    unsigned kind[MAX_GRAPHS];
    unsigned first[MAX_GRAPHS + 1]; /* the number of a graph's first node */
    unsigned home[MAX_NODES];       /* the graph that a node stands in */
    unsigned read[MAX_NODES];       /* the graph that it reads */
    unsigned inverted[MAX_NODES];   /* 1 where its decision is one minus the value read, else 0 */
    unsigned exit[MAX_NODES][2];
    unsigned readers[MAX_GRAPHS]; /* how many nodes read a graph */
};

static struct card the_card;

static uint64_t refuse(unsigned number, size_t position)
{
    return (uint64_t)number * 4294967296u + position;
}

static uint32_t get_word(const uint8_t *bytes, size_t at)
{
    const uint8_t *b = bytes + 4 * at;
    return (uint32_t)b[0] << 24 | (uint32_t)b[1] << 16 | (uint32_t)b[2] << 8 | b[3];
}

static void put_word(uint8_t *bytes, size_t at, uint32_t w)
{
    uint8_t *b = bytes + 4 * at;
    b[0] = (uint8_t)(w >> 24);
    b[1] = (uint8_t)(w >> 16);
    b[2] = (uint8_t)(w >> 8);
    b[3] = (uint8_t)w;
}

/* ---- the check ---- */

/* Of a word where a header is due: its refusal, or 0. */
static uint64_t header_refusal(const struct card *c, uint32_t w, size_t at)
{
    unsigned kind = w >> 29, n = w & 0xFFFF;
    if (c->graphs == MAX_GRAPHS)
        return refuse(2, at);
    if (kind > 2 || (kind == 0 && c->graphs > c->inputs))
        return refuse(4, at);
    if (w & (kind == 0 ? 0x1FFFFFFFu : 0x1FFF0000u))
        return refuse(5, at);
    if (kind != 0 && (n == 0 || c->nodes + n > MAX_NODES))
        return refuse(3, at);
    return 0;
}

/* Of a word where a read is due. */
static uint64_t read_refusal(const struct card *c, uint32_t w, size_t at)
{
    if (w >> 29 != 3)
        return refuse(4, at);
    if (w & 0x1FFE0000u)
        return refuse(5, at);
    if ((w & 0xFFFF) >= c->graphs)
        return refuse(6, at);
    return 0;
}

static int exit_is_wrong(unsigned e, unsigned local, unsigned n)
{
    return e >= 2 && (e - 2 <= local || e - 2 >= n);
}

/* Of a word where the exits of a local node of n are due. */
static uint64_t exits_refusal(uint32_t w, size_t at, unsigned local, unsigned n)
{
    if (w >> 29 != 4)
        return refuse(4, at);
    if (w & 0x10000000u)
        return refuse(5, at);
    if (exit_is_wrong(w >> 14 & 0x3FFF, local, n) || exit_is_wrong(w & 0x3FFF, local, n))
        return refuse(7, at);
    return 0;
}

/* Takes in the pair of one node, from word at on. */
static uint64_t take_node(struct card *c, const uint8_t *card, size_t words, size_t at, unsigned local, unsigned n)
{
    unsigned j = c->nodes + local;
    uint64_t r;
    if (at >= words)
        return refuse(4, words);
    if ((r = read_refusal(c, get_word(card, at), at)) != 0)
        return r;
    if (at + 1 >= words)
        return refuse(4, words);
    if ((r = exits_refusal(get_word(card, at + 1), at + 1, local, n)) != 0)
        return r;
    c->home[j] = c->graphs;
    c->read[j] = get_word(card, at) & 0xFFFF;
    c->inverted[j] = get_word(card, at) >> 16 & 1;
    c->exit[j][0] = get_word(card, at + 1) >> 14 & 0x3FFF;
    c->exit[j][1] = get_word(card, at + 1) & 0x3FFF;
    return 0;
}

/* Whether each local node but 0, of n from node first on, is named by an exit. */
static int all_named(const struct card *c, unsigned first, unsigned n)
{
    static unsigned char named[MAX_NODES + 2];
    memset(named, 0, n + 2);
    for (unsigned j = first; j < first + n; j++)
        named[c->exit[j][0]] = named[c->exit[j][1]] = 1;
    for (unsigned k = 1; k < n; k++)
        if (!named[k + 2])
            return 0;
    return 1;
}

/* Takes in the graph whose header is word *at, and moves *at past it. */
static uint64_t take_graph(struct card *c, const uint8_t *card, size_t words, size_t *at)
{
    size_t head = *at;
    uint32_t w = get_word(card, head);
    unsigned n = w & 0xFFFF;
    uint64_t r = header_refusal(c, w, head);
    if (r)
        return r;
    c->kind[c->graphs] = w >> 29;
    c->first[c->graphs] = c->nodes;
    for (unsigned k = 0; k < n; k++)
        if ((r = take_node(c, card, words, head + 1 + 2 * k, k, n)) != 0)
            return r;
    if (!all_named(c, c->nodes, n))
        return refuse(8, head);
    c->inputs += w >> 29 == 0;
    c->observable += w >> 29 == 2;
    c->nodes += n;
    c->graphs++;
    *at = head + 1 + 2 * n;
    return 0;
}

static void count_readers(struct card *c)
{
    memset(c->readers, 0, sizeof c->readers);
    for (unsigned j = 0; j < c->nodes; j++)
        c->readers[c->read[j]]++;
}

/* Takes in a card: its refusal, or 0. */
static uint64_t take_card(struct card *c, const uint8_t *card, size_t len)
{
    size_t words = len / 4, at = 0;
    if (words > MAX_WORDS)
        return refuse(1, 0);
    c->inputs = c->graphs = c->nodes = c->observable = 0;
    while (at < words) {
        uint64_t r = take_graph(c, card, words, &at);
        if (r)
            return r;
    }
    if (len % 4)
        return refuse(4, words);
    if (c->observable == 0)
        return refuse(9, words);
    c->first[c->graphs] = c->nodes;
    c->faults = 2 * c->nodes + 2 * c->graphs;
    count_readers(c);
    return 0;
}

/* ---- vectors ---- */

static size_t width(const struct card *c)
{
    return (c->inputs + 15) / 16;
}

/* Of word j of a vector: whether its kind and its bits are right. */
static int vector_word_is_right(const struct card *c, uint32_t w, size_t j)
{
    unsigned in_word = c->inputs - 16 * (unsigned)j;
    if (in_word > 16)
        in_word = 16;
    return w >> 29 == 5 && (w & 0x1FFFFFFFu) >> in_word == 0;
}

/* Of words for a list, or for a single vector: the refusal, or 0. */
static uint64_t vectors_refusal(const struct card *c, const uint8_t *vectors, size_t len, int single)
{
    size_t words = len / 4;
    if (len % 4 || words % width(c))
        return refuse(10, 0);
    if (single ? words != width(c) : words / width(c) > MAX_VECTORS)
        return refuse(10, 0);
    for (size_t i = 0; i < words; i++)
        if (!vector_word_is_right(c, get_word(vectors, i), i % width(c)))
            return refuse(10, i);
    return 0;
}

/* ---- lists of faults ---- */

/* Of a list of fault numbers: the refusal, or 0. A node and a graph have two faults each, an even number and the next one, so
 * that of two equal numbers and of both faults of one place the halves are equal. */
static uint64_t faults_refusal(const struct card *c, const uint8_t *faults, size_t len)
{
    size_t count = len / 4;
    for (size_t i = 0; i < count; i++)
        if (get_word(faults, i) >= c->faults)
            return refuse(11, 0);
    if (len % 4 || count > MAX_TOGETHER)
        return refuse(17, 0);
    for (size_t i = 0; i < count; i++)
        for (size_t k = 0; k < i; k++)
            if (get_word(faults, i) / 2 == get_word(faults, k) / 2)
                return refuse(17, 0);
    return 0;
}

/* The faults that are in, all together. */
struct faults {
    unsigned count, number[MAX_TOGETHER];
};

static const struct faults none;

static struct faults only(unsigned fault)
{
    return (struct faults){ 1, { fault } };
}

/* A right list. */
static struct faults listed(const uint8_t *faults, size_t len)
{
    struct faults in = { 0 };
    while (in.count < len / 4) {
        in.number[in.count] = get_word(faults, in.count);
        in.count++;
    }
    return in;
}

/* A place has the faults 2 * place and the next one: 0 or 1 where that one is in, -1 where neither is. */
static int stuck_at(const struct faults *in, unsigned place)
{
    for (unsigned i = 0; i < in->count; i++)
        if (in->number[i] / 2 == place)
            return (int)(in->number[i] % 2);
    return -1;
}

/* ---- values, by recursion over the definition ---- */

struct run {
    const struct card *c;
    const uint8_t *vector;
    const struct faults *in;
    signed char saved[MAX_GRAPHS]; /* a graph's value, or -1 */
};

/* A node's decision where the graph that it reads has this value. */
static unsigned decided(const struct card *c, unsigned j, unsigned value)
{
    return c->inverted[j] ? 1 - value : value;
}

static unsigned graph_value(struct run *r, unsigned g);

static unsigned node_value(struct run *r, unsigned j)
{
    const struct card *c = r->c;
    int stuck = stuck_at(r->in, j);
    unsigned decision = stuck >= 0 ? (unsigned)stuck : decided(c, j, graph_value(r, c->read[j]));
    unsigned e = c->exit[j][decision];
    return e < 2 ? e : node_value(r, c->first[c->home[j]] + e - 2);
}

static unsigned graph_value(struct run *r, unsigned g)
{
    const struct card *c = r->c;
    int held;
    if (r->saved[g] >= 0)
        return (unsigned)r->saved[g];
    held = stuck_at(r->in, c->nodes + g);
    if (held >= 0) /* whatever its nodes do */
        r->saved[g] = (signed char)held;
    else if (c->kind[g] == 0)
        r->saved[g] = get_word(r->vector, g / 16) >> g % 16 & 1;
    else
        r->saved[g] = (signed char)node_value(r, c->first[g]);
    return (unsigned)r->saved[g];
}

/* The values of all graphs, with faults in or none. */
static void all_values(const struct card *c, const uint8_t *vector, const struct faults *in, uint8_t *values)
{
    static struct run r;
    r.c = c;
    r.vector = vector;
    r.in = in;
    memset(r.saved, -1, c->graphs);
    for (unsigned g = 0; g < c->graphs; g++)
        values[g] = (uint8_t)graph_value(&r, g);
}

/* ---- which faults a vector catches ---- */

static int observed(const struct card *c, const uint8_t *good, const uint8_t *other)
{
    for (unsigned g = 0; g < c->graphs; g++)
        if (c->kind[g] == 2 && good[g] != other[g])
            return 1;
    return 0;
}

static int catches(const struct card *c, const uint8_t *vector, const uint8_t *good, unsigned fault)
{
    static uint8_t other[MAX_GRAPHS];
    struct faults in = only(fault);
    all_values(c, vector, &in, other);
    return observed(c, good, other);
}

/* The same for 64 faults side by side, so that large cards stay affordable: bit i of each value has
 * fault base + i in. Every node of every graph is worked out, as the definition says, for each. */
static uint64_t forced(uint64_t value, long fault, long base)
{
    if (fault < base || fault >= base + 64)
        return value;
    value &= ~((uint64_t)1 << (fault - base));
    return value | (uint64_t)2 << (fault - base);
}

static uint64_t graph_lanes(const struct card *c, unsigned g, const uint64_t *graphs, long base)
{
    static uint64_t value[MAX_NODES + 2];
    value[0] = 0;
    value[1] = ~(uint64_t)0;
    for (unsigned k = c->first[g + 1] - c->first[g]; k-- > 0;) {
        unsigned j = c->first[g] + k;
        uint64_t value_read = graphs[c->read[j]];
        uint64_t decision = forced(c->inverted[j] ? ~value_read : value_read, 2L * j, base);
        value[k + 2] = (decision & value[c->exit[j][1]]) | (~decision & value[c->exit[j][0]]);
    }
    return value[2];
}

static uint64_t catches_lanes(const struct card *c, const uint8_t *good, long base)
{
    static uint64_t graphs[MAX_GRAPHS];
    uint64_t caught = 0;
    for (unsigned g = 0; g < c->graphs; g++) {
        uint64_t v = c->kind[g] == 0 ? (uint64_t)0 - good[g] : graph_lanes(c, g, graphs, base);
        graphs[g] = forced(v, 2L * c->nodes + 2L * g, base);
        if (c->kind[g] == 2)
            caught |= graphs[g] ^ ((uint64_t)0 - good[g]);
    }
    return caught;
}

/* On cards with few faults each is also put in by itself, and both ways must agree. */
static void agree(const struct card *c, const uint8_t *vector, const uint8_t *good, const uint8_t *caught)
{
    if (c->faults > 200)
        return;
    for (unsigned f = 0; f < c->faults; f++)
        if (catches(c, vector, good, f) != caught[f]) {
            fprintf(stderr, "brute force disagrees with itself about fault %u\n", f);
            abort();
        }
}

/* One byte a fault: whether the vector catches it. */
static void all_caught(const struct card *c, const uint8_t *vector, uint8_t *caught)
{
    static uint8_t good[MAX_GRAPHS];
    all_values(c, vector, &none, good);
    for (unsigned base = 0; base < c->faults; base += 64) {
        uint64_t lanes = catches_lanes(c, good, base);
        for (unsigned f = base; f < c->faults && f < base + 64; f++)
            caught[f] = lanes >> (f - base) & 1;
    }
    agree(c, vector, good, caught);
}

/* ---- lists ---- */

/* Lists of repeated vectors are common here: the last few vectors' answers are kept. */
enum { KEPT = 16 };
static struct {
    const uint8_t *vector;
    uint8_t caught[MAX_FAULTS];
} kept[KEPT];

static const uint8_t *caught_by(const struct card *c, const uint8_t *vector)
{
    size_t bytes = 4 * width(c);
    unsigned slot = 0;
    for (size_t i = 0; i < bytes; i++)
        slot = 31 * slot + vector[i];
    slot = (slot ^ slot >> 8) % KEPT;
    if (!kept[slot].vector || memcmp(kept[slot].vector, vector, bytes)) {
        all_caught(c, vector, kept[slot].caught);
        kept[slot].vector = vector;
    }
    return kept[slot].caught;
}

static uint32_t first_vector[MAX_FAULTS], tally[MAX_FAULTS];

/* Takes in what vector v catches. */
static void take_in(const uint8_t *caught, unsigned faults, size_t v)
{
    for (unsigned f = 0; f < faults; f++)
        if (caught[f] && tally[f]++ == 0)
            first_vector[f] = (uint32_t)v;
}

/* A graph that is not observable and that one node alone reads is a lead to that node: no stem. */
static int has_stem(unsigned kind, unsigned readers)
{
    return kind == 2 || readers != 1;
}

/* The last line: of the faults that count, how many are marked, and how many there are. */
struct last_line {
    unsigned marked, total;
};

/* Faults of nodes count, and those of graphs that have a stem (one byte a graph). */
static struct last_line add_up(unsigned nodes, unsigned graphs, const uint8_t *stem)
{
    struct last_line n = { 0, 0 };
    for (unsigned f = 0; f < 2 * nodes + 2 * graphs; f++)
        if (f < 2 * nodes || stem[f / 2 - nodes]) {
            n.marked += tally[f] != 0;
            n.total++;
        }
    return n;
}

/* First vectors and tallies of a whole list. */
static struct last_line grade(const struct card *c, const uint8_t *vectors, size_t len)
{
    static uint8_t stem[MAX_GRAPHS];
    memset(tally, 0, sizeof tally);
    for (unsigned i = 0; i < KEPT; i++)
        kept[i].vector = NULL;
    for (size_t v = 0; v < len / 4 / width(c); v++)
        take_in(caught_by(c, vectors + 4 * width(c) * v), c->faults, v);
    for (unsigned g = 0; g < c->graphs; g++)
        stem[g] = (uint8_t)has_stem(c->kind[g], c->readers[g]);
    return add_up(c->nodes, c->graphs, stem);
}

static void put_grade(uint8_t *marks, uint8_t *tallies, unsigned faults)
{
    for (unsigned f = 0; f < faults; f++) {
        put_word(marks, f, tally[f] ? 0xE0000000u + first_vector[f] : 0xC0000000u);
        put_word(tallies, f, tally[f]);
    }
}

/* ---- the calls ---- */

/* Refusals 1 to 10 of a call on one vector or on a list. */
static uint64_t take(const uint8_t *card, size_t card_len, const uint8_t *vectors, size_t len, int single)
{
    uint64_t r = take_card(&the_card, card, card_len);
    return r ? r : vectors_refusal(&the_card, vectors, len, single);
}

uint64_t brute_check(const uint8_t *card, size_t card_len, uint8_t *numbers, size_t numbers_len)
{
    const struct card *c = &the_card;
    uint64_t r = take_card(&the_card, card, card_len);
    if (r)
        return r;
    if (numbers_len / 4 < 5)
        return refuse(12, 0);
    put_word(numbers, 0, c->inputs);
    put_word(numbers, 1, c->graphs);
    put_word(numbers, 2, c->nodes);
    put_word(numbers, 3, c->observable);
    put_word(numbers, 4, c->faults);
    return 0;
}

static void put_values(const uint8_t *vector, const struct faults *in, uint8_t *values)
{
    static uint8_t v[MAX_GRAPHS];
    all_values(&the_card, vector, in, v);
    for (unsigned g = 0; g < the_card.graphs; g++)
        put_word(values, g, v[g]);
}

uint64_t brute_good_values(const uint8_t *card, size_t card_len, const uint8_t *vector, size_t vector_len,
                           uint8_t *values, size_t values_len)
{
    uint64_t r = take(card, card_len, vector, vector_len, 1);
    if (r)
        return r;
    if (values_len / 4 < the_card.graphs)
        return refuse(12, 0);
    put_values(vector, &none, values);
    return 0;
}

uint64_t brute_fault_values(const uint8_t *card, size_t card_len, const uint8_t *vector, size_t vector_len,
                            const uint8_t *faults, size_t faults_len, uint8_t *values, size_t values_len)
{
    struct faults in;
    uint64_t r = take(card, card_len, vector, vector_len, 1);
    if (r || (r = faults_refusal(&the_card, faults, faults_len)) != 0)
        return r;
    if (values_len / 4 < the_card.graphs)
        return refuse(12, 0);
    in = listed(faults, faults_len);
    put_values(vector, &in, values);
    return 0;
}

uint64_t brute_change_list(const uint8_t *card, size_t card_len, const uint8_t *vector, size_t vector_len,
                           uint32_t graph, uint8_t *list, size_t list_len)
{
    static uint8_t good[MAX_GRAPHS], held[MAX_GRAPHS];
    const struct card *c = &the_card;
    struct faults opposite;
    unsigned length = 0;
    uint64_t r = take(card, card_len, vector, vector_len, 1);
    if (r)
        return r;
    if (graph >= c->graphs)
        return refuse(11, 0);
    if (list_len / 4 < c->graphs)
        return refuse(12, 0);
    all_values(c, vector, &none, good);
    opposite = only(2 * c->nodes + 2 * graph + 1 - good[graph]);
    all_values(c, vector, &opposite, held);
    for (unsigned g = 0; g < c->graphs; g++)
        if (good[g] != held[g])
            put_word(list, length++, g);
    return length;
}

uint64_t brute_critical_nodes(const uint8_t *card, size_t card_len, const uint8_t *vector, size_t vector_len,
                              uint8_t *nodes, size_t nodes_len)
{
    static uint8_t good[MAX_GRAPHS], caught[MAX_FAULTS];
    const struct card *c = &the_card;
    uint64_t r = take(card, card_len, vector, vector_len, 1);
    if (r)
        return r;
    if (nodes_len / 4 < c->nodes)
        return refuse(12, 0);
    all_values(c, vector, &none, good);
    all_caught(c, vector, caught);
    for (unsigned j = 0; j < c->nodes; j++) /* the fault that forces the exit not taken */
        put_word(nodes, j, caught[2 * j + 1 - decided(c, j, good[c->read[j]])]);
    return 0;
}

uint64_t brute_grade(const uint8_t *card, size_t card_len, const uint8_t *vectors, size_t vectors_len,
                     uint8_t *marks, size_t marks_len, uint8_t *tallies, size_t tallies_len)
{
    struct last_line n;
    uint64_t r = take(card, card_len, vectors, vectors_len, 0);
    if (r)
        return r;
    if (marks_len / 4 < the_card.faults)
        return refuse(12, 0);
    if (tallies_len / 4 < the_card.faults)
        return refuse(12, 1);
    n = grade(&the_card, vectors, vectors_len);
    put_grade(marks, tallies, the_card.faults);
    return n.marked;
}

/* ---- a lead and its reader ---- */

long brute_lead_fault(uint32_t graph, unsigned at)
{
    const struct card *c = &the_card;
    unsigned j = 0;
    if (has_stem(c->kind[graph], c->readers[graph]))
        return -1;
    while (c->read[j] != graph)
        j++;
    return 2L * j + (c->inverted[j] ? 1 - at : at);
}

int brute_is_crossed(uint32_t fault)
{
    return the_card.inverted[fault / 2];
}

/* ---- two cards wired together ---- */

#define FREE 0xFFFFFFFFu

static struct {
    struct card a, b;
    uint32_t wire[MAX_GRAPHS]; /* of each input of B */
    struct {
        const struct card *card;
        unsigned graph;
    } origin[2 * MAX_GRAPHS]; /* of each graph of the joined card: the card that it comes from, and its number there */
    unsigned graphs, inputs, nodes;
    unsigned number[2][MAX_GRAPHS]; /* the new numbers of A's graphs and of B's */
} both;

static unsigned *numbers_of(const struct card *c)
{
    return both.number[c == &both.b];
}

static int is_wired(const struct card *c, unsigned g)
{
    return c == &both.b && g < c->inputs && both.wire[g] != FREE;
}

static uint64_t take_wires(const uint8_t *wires, size_t len)
{
    if (len % 4 || len / 4 != both.b.inputs)
        return refuse(13, 0);
    for (unsigned i = 0; i < both.b.inputs; i++) {
        both.wire[i] = get_word(wires, i);
        if (both.wire[i] != FREE && both.wire[i] >= both.a.graphs)
            return refuse(13, i);
    }
    return 0;
}

/* The graphs of one card from number `from` on and below `to`, but for wired inputs, are next in the joined card. */
static void line_up(const struct card *c, unsigned from, unsigned to)
{
    for (unsigned g = from; g < to; g++)
        if (!is_wired(c, g)) {
            numbers_of(c)[g] = both.graphs;
            both.origin[both.graphs].card = c;
            both.origin[both.graphs++].graph = g;
        }
}

static void line_up_all(void)
{
    const struct card *a = &both.a, *b = &both.b;
    both.graphs = 0;
    both.nodes = a->nodes + b->nodes;
    line_up(a, 0, a->inputs);
    line_up(b, 0, b->inputs);
    both.inputs = both.graphs;
    line_up(a, a->inputs, a->graphs);
    line_up(b, b->inputs, b->graphs);
    for (unsigned i = 0; i < b->inputs; i++)
        if (is_wired(b, i))
            both.number[1][i] = both.number[0][both.wire[i]];
}

/* Puts the words of one graph, with its reads renumbered; the number of the word after them. */
static size_t put_graph(uint8_t *card, size_t at, const struct card *c, unsigned g)
{
    put_word(card, at++, (uint32_t)c->kind[g] << 29 | (c->first[g + 1] - c->first[g]));
    for (unsigned j = c->first[g]; j < c->first[g + 1]; j++) {
        put_word(card, at++, (uint32_t)3 << 29 | c->inverted[j] << 16 | numbers_of(c)[c->read[j]]);
        put_word(card, at++, (uint32_t)4 << 29 | c->exit[j][0] << 14 | c->exit[j][1]);
    }
    return at;
}

uint64_t brute_join(const uint8_t *a, size_t a_len, const uint8_t *b, size_t b_len, const uint8_t *wires, size_t wires_len,
                    uint8_t *card, size_t card_len)
{
    size_t words = 0;
    uint64_t r;
    if ((r = take_card(&both.a, a, a_len)) != 0)
        return r;
    if ((r = take_card(&both.b, b, b_len)) != 0)
        return r + a_len / 4;
    if ((r = take_wires(wires, wires_len)) != 0)
        return r;
    line_up_all();
    if (both.graphs > MAX_GRAPHS || both.nodes > MAX_NODES)
        return refuse(14, 0);
    if (card_len / 4 < both.graphs + 2 * both.nodes)
        return refuse(12, 0);
    for (unsigned g = 0; g < both.graphs; g++)
        words = put_graph(card, words, both.origin[g].card, both.origin[g].graph);
    return words;
}

/* The fault of one of the two cards that a fault of the joined one is, or -1 where it is the other card's. */
static long fault_of(const struct card *c, long fault)
{
    long place = fault / 2, before = c == &both.b ? both.a.nodes : 0;
    if (place < (long)both.nodes)
        return place >= before && place < before + (long)c->nodes ? fault - 2 * before : -1;
    place -= both.nodes;
    return both.origin[place].card == c ? 2L * c->nodes + 2L * both.origin[place].graph + fault % 2 : -1;
}

/* Of the faults that are in the joined card, those of one of the two. */
static struct faults faults_of(const struct card *c, const struct faults *in)
{
    struct faults own = { 0 };
    for (unsigned i = 0; i < in->count; i++)
        if (fault_of(c, in->number[i]) >= 0)
            own.number[own.count++] = (unsigned)fault_of(c, in->number[i]);
    return own;
}

/* The values of one card's graphs under a vector of the joined one: a wired input has the value in A of the graph that its wire names. */
static void values_in(const struct card *c, const uint8_t *vector, const struct faults *in, const uint8_t *in_a, uint8_t *values)
{
    static uint8_t own[4 * MAX_GRAPHS / 16];
    struct faults own_faults = faults_of(c, in);
    uint32_t words[MAX_GRAPHS / 16] = { 0 };
    for (unsigned i = 0; i < c->inputs; i++) {
        unsigned n = numbers_of(c)[i];
        uint32_t value = is_wired(c, i) ? in_a[both.wire[i]] : get_word(vector, n / 16) >> n % 16 & 1;
        words[i / 16] |= value << i % 16;
    }
    for (unsigned j = 0; j < width(c); j++)
        put_word(own, j, 0xA0000000u | words[j]);
    all_values(c, own, &own_faults, values);
}

struct pair_values {
    uint8_t a[MAX_GRAPHS], b[MAX_GRAPHS];
};

static void together(const uint8_t *vector, const struct faults *in, struct pair_values *v)
{
    values_in(&both.a, vector, in, NULL, v->a);
    values_in(&both.b, vector, in, v->a, v->b);
}

void brute_together_values(const uint8_t *vector, const uint8_t *faults, size_t faults_len, uint8_t *values)
{
    static struct pair_values v;
    struct faults in = listed(faults, faults_len);
    together(vector, &in, &v);
    for (unsigned g = 0; g < both.graphs; g++)
        put_word(values, g, (both.origin[g].card == &both.a ? v.a : v.b)[both.origin[g].graph]);
}

/* How many nodes of both cards read a graph of the joined one. Those of B that read a wired input read the graph of A on its wire. */
static unsigned readers_together(unsigned g)
{
    const struct card *c = both.origin[g].card;
    unsigned own = both.origin[g].graph, readers = c->readers[own];
    for (unsigned i = 0; c == &both.a && i < both.b.inputs; i++)
        if (both.wire[i] == own)
            readers += both.b.readers[i];
    return readers;
}

uint64_t brute_together_grade(const uint8_t *vectors, size_t vectors_len, uint8_t *marks, uint8_t *tallies)
{
    static struct pair_values good, other;
    static uint8_t caught[MAX_FAULTS], stem[MAX_GRAPHS];
    size_t w = (both.inputs + 15) / 16;
    unsigned faults = 2 * both.nodes + 2 * both.graphs;
    memset(tally, 0, sizeof tally);
    for (size_t v = 0; v < vectors_len / 4 / w; v++) {
        const uint8_t *vector = vectors + 4 * w * v;
        together(vector, &none, &good);
        for (unsigned f = 0; f < faults; f++) {
            struct faults in = only(f);
            together(vector, &in, &other);
            caught[f] = observed(&both.a, good.a, other.a) || observed(&both.b, good.b, other.b);
        }
        take_in(caught, faults, v);
    }
    put_grade(marks, tallies, faults);
    for (unsigned g = 0; g < both.graphs; g++)
        stem[g] = (uint8_t)has_stem(both.origin[g].card->kind[both.origin[g].graph], readers_together(g));
    return add_up(both.nodes, both.graphs, stem).marked;
}

/* ---- the program's text ---- */

static size_t graded_text(struct last_line n, char *text)
{
    const struct card *c = &the_card;
    char *t = text;
    t += sprintf(t, "card %u %u %u %u\n", c->inputs, c->graphs, c->nodes, c->faults);
    for (unsigned f = 0; f < c->faults; f++)
        if (tally[f])
            t += sprintf(t, "%u %u %u\n", f, (unsigned)first_vector[f], (unsigned)tally[f]);
        else
            t += sprintf(t, "%u - 0\n", f);
    t += sprintf(t, "grade %u %u\n", n.marked, n.total);
    return (size_t)(t - text);
}

size_t brute_text(const uint8_t *input, size_t len, char *text)
{
    size_t count, rest;
    uint64_t r;
    if (len < 4)
        return (size_t)sprintf(text, "short\n");
    count = get_word(input, 0);
    if (count > MAX_WORDS)
        return (size_t)sprintf(text, "refused 1 0\n");
    if (len - 4 < 4 * count)
        return (size_t)sprintf(text, "short\n");
    rest = len - 4 - 4 * count;
    if (rest / 4 > MAX_VECTOR_WORDS)
        return (size_t)sprintf(text, "long\n");
    if (rest % 4)
        return (size_t)sprintf(text, "short\n");
    r = take(input + 4, 4 * count, input + 4 + 4 * count, rest, 0);
    if (r)
        return (size_t)sprintf(text, "refused %u %u\n", (unsigned)(r >> 32), (unsigned)(r & 0xFFFFFFFFu));
    return graded_text(grade(&the_card, input + 4 + 4 * count, rest), text);
}
