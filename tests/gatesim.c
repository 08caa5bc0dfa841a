/* gatesim.c: see gatesim.h. */
#include "gatesim.h"

#include <string.h>

enum { MAX_WORDS = 9216 };

const char *const function_names[FUNCTIONS] = { "AND", "OR", "NAND", "NOR", "NOT", "BUF" };

static uint64_t refuse(unsigned number, size_t position)
{
    return (uint64_t)number * 4294967296u + position;
}

static uint32_t get_word(const uint8_t *bytes, size_t at)
{
    const uint8_t *b = bytes + 4 * at;
    return (uint32_t)b[0] << 24 | (uint32_t)b[1] << 16 | (uint32_t)b[2] << 8 | b[3];
}

static void put_word(uint8_t *bytes, size_t at, uint32_t w)
{
    uint8_t *b = bytes + 4 * at;
    b[0] = (uint8_t)(w >> 24);
    b[1] = (uint8_t)(w >> 16);
    b[2] = (uint8_t)(w >> 8);
    b[3] = (uint8_t)w;
}

/* ---- the form ---- */

static int is_no_gate(unsigned function, unsigned n)
{
    switch (function) {
    case AND:
    case OR:
    case NAND:
    case NOR: return n == 0;
    case NOT:
    case BUF: return n != 1;
    default: return 1;
    }
}

/* Of a word where a header is due: its refusal, or 0. */
static uint64_t header_refusal(const struct gate_list *g, uint32_t w, size_t at)
{
    unsigned kind = w >> 29, function = w >> 26 & 7, n = w & 0xFFFF;
    if (g->lines == GATESIM_LINES)
        return refuse(2, at);
    if (kind > 2 || (kind == 0 && g->lines > g->inputs))
        return refuse(4, at);
    if (w & (kind == 0 ? 0x1FFFFFFFu : 0x03FF0000u))
        return refuse(5, at);
    if (kind != 0 && g->leads + n > GATESIM_LEADS)
        return refuse(3, at);
    if (kind != 0 && is_no_gate(function, n))
        return refuse(15, at);
    return 0;
}

/* Of a word where a lead of the next line is due. */
static uint64_t lead_refusal(const struct gate_list *g, uint32_t w, size_t at)
{
    if (w >> 29 != 3)
        return refuse(4, at);
    if (w & 0x1FFF0000u)
        return refuse(5, at);
    if ((w & 0xFFFF) >= g->lines)
        return refuse(16, at);
    return 0;
}

/* Takes in the line whose header is word *at, and moves *at past its leads. */
static uint64_t take_line(struct gate_list *g, const uint8_t *gates, size_t words, size_t *at)
{
    uint32_t w = get_word(gates, *at);
    unsigned n = w & 0xFFFF;
    uint64_t r = header_refusal(g, w, *at);
    if (r)
        return r;
    for (unsigned k = 0; k < n; k++) {
        size_t lead = *at + 1 + k;
        if (lead >= words)
            return refuse(4, words);
        if ((r = lead_refusal(g, get_word(gates, lead), lead)) != 0)
            return r;
        g->from[g->leads + k] = get_word(gates, lead) & 0xFFFF;
    }
    g->kind[g->lines] = w >> 29;
    g->function[g->lines] = w >> 26 & 7;
    g->first[g->lines] = g->leads;
    g->inputs += w >> 29 == 0;
    g->observable += w >> 29 == 2;
    g->leads += n;
    g->lines++;
    *at += 1 + n;
    return 0;
}

static void count_readers(struct gate_list *g)
{
    memset(g->readers, 0, sizeof g->readers);
    for (unsigned j = 0; j < g->leads; j++)
        g->readers[g->from[j]]++;
}

uint64_t gatesim_take(struct gate_list *g, const uint8_t *gates, size_t len)
{
    size_t words = len / 4, at = 0;
    if (words > MAX_WORDS)
        return refuse(1, 0);
    g->inputs = g->lines = g->leads = g->observable = 0;
    while (at < words) {
        uint64_t r = take_line(g, gates, words, &at);
        if (r)
            return r;
    }
    if (len % 4)
        return refuse(4, words);
    if (g->observable == 0)
        return refuse(9, words);
    g->first[g->lines] = g->leads;
    count_readers(g);
    return 0;
}

/* ---- values: 64 copies of the list side by side, one in each bit of a value, each with faults of its own ---- */

enum { COPIES = 64, PLACES = GATESIM_LEADS + GATESIM_LINES };
static const uint64_t all_copies = ~(uint64_t)0;

/* The copies in which a place is stuck at 0, and at 1. The leads are places, and after them the lines; they have two faults
 * each. Places before the first one and from the end on are not stuck, so that they need not be looked up. */
static struct {
    unsigned first, end;
    uint64_t at[2][PLACES];
} in;

unsigned gatesim_faults(const struct gate_list *g)
{
    return 2 * g->leads + 2 * g->lines;
}

static void put_in(uint32_t fault, uint64_t copies)
{
    unsigned place = fault / 2;
    if (in.first == in.end) /* none is in yet */
        in.first = in.end = place;
    if (place < in.first)
        in.first = place;
    if (place >= in.end)
        in.end = place + 1;
    in.at[fault % 2][place] |= copies;
}

static void take_all_out(void)
{
    for (; in.first < in.end; in.first++)
        in.at[0][in.first] = in.at[1][in.first] = 0;
}

/* A place's value in all copies, where it would be `value` with no fault at this place. */
static uint64_t stuck(uint64_t value, unsigned place)
{
    if (place < in.first || place >= in.end)
        return value;
    return (value & ~in.at[0][place]) | in.at[1][place];
}

/* The truth function of a gate, of the values on its n leads. */
static uint64_t gate_value(unsigned function, const uint64_t *leads, unsigned n)
{
    uint64_t all = all_copies, any = 0;
    for (unsigned k = 0; k < n; k++) {
        all &= leads[k];
        any |= leads[k];
    }
    switch (function) {
    case AND: return all;
    case OR: return any;
    case NAND: return ~all;
    case NOR: return ~any;
    case NOT: return ~leads[0];
    default: return leads[0];
    }
}

static uint64_t input_value(const uint8_t *vector, unsigned i)
{
    return get_word(vector, i / 16) >> i % 16 & 1 ? all_copies : 0;
}

/* The values of all lines, with the faults that are in. */
static void work_out(const struct gate_list *g, const uint8_t *vector, uint64_t *lines)
{
    static uint64_t leads[GATESIM_LEADS];
    for (unsigned l = 0; l < g->lines; l++) {
        unsigned n = g->first[l + 1] - g->first[l];
        for (unsigned k = 0; k < n; k++) {
            unsigned j = g->first[l] + k;
            leads[k] = stuck(lines[g->from[j]], j);
        }
        lines[l] = g->kind[l] == 0 ? input_value(vector, l) : gate_value(g->function[l], leads, n);
        lines[l] = stuck(lines[l], g->leads + l);
    }
}

void gatesim_values(const struct gate_list *g, const uint8_t *vector, const uint8_t *faults, size_t faults_len, uint8_t *values)
{
    static uint64_t lines[GATESIM_LINES];
    for (size_t i = 0; i < faults_len / 4; i++)
        put_in(get_word(faults, i), all_copies);
    work_out(g, vector, lines);
    take_all_out();
    for (unsigned l = 0; l < g->lines; l++)
        put_word(values, l, lines[l] & 1);
}

/* ---- which faults vectors catch ---- */

static uint32_t first_vector[GATESIM_FAULTS], tally[GATESIM_FAULTS];

/* Of faults base to base + 63, as far as there are so many, those with which an observable gate has another value than with
 * none. Copy i has fault base + i in. */
static uint64_t caught_from(const struct gate_list *g, const uint8_t *vector, const uint64_t *good, unsigned base)
{
    static uint64_t lines[GATESIM_LINES];
    uint64_t caught = 0;
    for (unsigned f = base; f < gatesim_faults(g) && f < base + COPIES; f++)
        put_in(f, (uint64_t)1 << (f - base));
    work_out(g, vector, lines);
    take_all_out();
    for (unsigned l = 0; l < g->lines; l++)
        if (g->kind[l] == 2)
            caught |= lines[l] ^ good[l];
    return caught;
}

/* Takes in what vector number v catches. */
static void take_in(const struct gate_list *g, const uint8_t *vector, uint32_t v)
{
    static uint64_t good[GATESIM_LINES];
    work_out(g, vector, good);
    for (unsigned base = 0; base < gatesim_faults(g); base += COPIES) {
        uint64_t caught = caught_from(g, vector, good, base);
        for (unsigned f = base; f < gatesim_faults(g) && f < base + COPIES; f++)
            if (caught >> (f - base) & 1 && tally[f]++ == 0)
                first_vector[f] = v;
    }
}

/* A line that is not observable and that one lead alone names is that lead over again, so its faults do not count. */
static int counts(const struct gate_list *g, unsigned fault)
{
    unsigned l = fault / 2 - g->leads;
    return fault < 2 * g->leads || g->kind[l] == 2 || g->readers[l] != 1;
}

uint64_t gatesim_grade(const struct gate_list *g, const uint8_t *vectors, size_t len, uint8_t *marks, uint8_t *tallies)
{
    size_t w = (g->inputs + 15) / 16;
    unsigned marked = 0;
    memset(tally, 0, sizeof tally);
    for (size_t v = 0; v < len / 4 / w; v++)
        take_in(g, vectors + 4 * w * v, (uint32_t)v);
    for (unsigned f = 0; f < gatesim_faults(g); f++) {
        put_word(marks, f, tally[f] ? 0xE0000000u + first_vector[f] : 0xC0000000u);
        put_word(tallies, f, tally[f]);
        marked += tally[f] && counts(g, f);
    }
    return marked;
}

/* ---- the card, of which nothing above knows ---- */

/* A gate's walk: the decision at which it goes on to the next node, and the constant at which it ends at the other one.
 * Where it has gone on past the last node, it ends at the opposite constant. */
static const struct {
    unsigned on, ends;
} walks[FUNCTIONS] = {
    [AND] = { 1, 0 }, [OR] = { 0, 1 }, [NAND] = { 1, 1 }, [NOR] = { 0, 0 }, [NOT] = { 1, 1 }, [BUF] = { 1, 0 },
};

/* The exit at a decision of local node k of n. */
static uint32_t exit_at(unsigned function, unsigned decision, unsigned k, unsigned n)
{
    if (decision != walks[function].on)
        return walks[function].ends;
    return k + 1 < n ? k + 3 : 1 - walks[function].ends;
}

uint64_t gatesim_card(const uint8_t *gates, size_t gates_len, uint8_t *card, size_t card_len)
{
    static struct gate_list g;
    size_t words = 0;
    uint64_t r = gatesim_take(&g, gates, gates_len);
    if (r)
        return r;
    if (card_len / 4 < g.lines + 2 * g.leads)
        return refuse(12, 0);
    for (unsigned l = 0; l < g.lines; l++) {
        unsigned n = g.first[l + 1] - g.first[l], function = g.function[l];
        put_word(card, words++, (uint32_t)g.kind[l] << 29 | n);
        for (unsigned k = 0; k < n; k++) {
            put_word(card, words++, (uint32_t)3 << 29 | g.from[g.first[l] + k]);
            put_word(card, words++, (uint32_t)4 << 29 | exit_at(function, 0, k, n) << 14 | exit_at(function, 1, k, n));
        }
    }
    return words;
}
