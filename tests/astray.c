/* astray.c: for each of the four ways in which a grade goes astray (document 01) a card on which the
 * wrong rule gives another answer. The marking rules stand here once, with the wrong turns as cases:
 * way 0 is right, way 1 to 4 are the four of the document, in its order. The prover refuses the same
 * four, on the same cards: crates/rules/must-fail has them as edits of the rules, only_graph_left,
 * other_good_exits, both_faults_marked and readers_of_observable_left.
 */
#include "astray.h"

#include "calls.h"

#include <stdint.h>
#include <stdio.h>
#include <string.h>

enum { MOST = 16, WORDS = 40, LINE = 200 };

struct small {
    unsigned graphs, nodes, kind[MOST], first[MOST + 1], read[MOST], exit[MOST][2];
    unsigned good[MOST], node[MOST], active[MOST], critical[MOST]; /* under the vector */
};

/* Right cards only. */
static void take(struct small *c, const uint32_t *words, unsigned count)
{
    memset(c, 0, sizeof *c);
    for (unsigned at = 0; at < count; c->graphs++) {
        unsigned n = words[at] & 0xFFFF;
        c->kind[c->graphs] = words[at++] >> 29;
        for (unsigned k = 0; k < n; k++, at += 2) {
            c->read[c->nodes] = words[at] & 0xFFFF;
            c->exit[c->nodes][0] = words[at + 1] >> 14 & 0x3FFF;
            c->exit[c->nodes++][1] = words[at + 1] & 0x3FFF;
        }
        c->first[c->graphs + 1] = c->nodes;
    }
}

static unsigned exit_value(const struct small *c, unsigned g, unsigned j, unsigned side)
{
    unsigned e = c->exit[j][side];
    return e < 2 ? e : c->node[c->first[g] + e - 2];
}

static unsigned walk(const struct small *c, unsigned g, const unsigned *value)
{
    unsigned e = 2;
    while (e >= 2)
        e = c->exit[c->first[g] + e - 2][value[c->read[c->first[g] + e - 2]]];
    return e;
}

/* Rule 1, and the good values of nodes and graphs. */
static void work_out(struct small *c, uint32_t vector)
{
    for (unsigned g = 0; g < c->graphs; g++) {
        unsigned from = c->first[g], to = c->first[g + 1];
        for (unsigned j = to; j-- > from;)
            c->node[j] = exit_value(c, g, j, c->good[c->read[j]]);
        c->good[g] = c->kind[g] ? c->node[from] : vector >> g & 1;
        for (unsigned j = from; j < to; j++) {
            unsigned e = c->exit[j][c->good[c->read[j]]];
            c->active[j] |= j == from;
            if (c->active[j] && e >= 2)
                c->active[from + e - 2] = 1;
        }
    }
}

/* Whether active node j reads a graph that has changed. */
static int affected(const struct small *c, unsigned j, const unsigned *value, int way)
{
    unsigned r = c->read[j];
    if (way == 4 && c->kind[r] == 2) /* leaves an observable graph's readers unchanged */
        return 0;
    return c->active[j] && value[r] != c->good[r];
}

static int any_affected(const struct small *c, unsigned h, const unsigned *value, int way)
{
    for (unsigned j = c->first[h]; j < c->first[h + 1]; j++)
        if (affected(c, j, value, way))
            return 1;
    return 0;
}

/* The value of an affected graph. */
static unsigned value_again(const struct small *c, unsigned h, const unsigned *value, int way)
{
    if (way != 2)
        return walk(c, h, value);
    for (unsigned j = c->first[h]; j < c->first[h + 1]; j++) /* by the other good exits */
        if (affected(c, j, value, way) && exit_value(c, h, j, 1 - c->good[c->read[j]]) != c->good[h])
            return 1 - c->good[h];
    return c->good[h];
}

/* Rule 2 into value; whether the graph is critical (rule 3). */
static unsigned change(const struct small *c, unsigned g, unsigned *value, int way)
{
    unsigned seen = c->kind[g] == 2;
    memcpy(value, c->good, sizeof c->good);
    value[g] = 1 - c->good[g];
    for (unsigned h = g + 1; h < c->graphs; h++) {
        if (!any_affected(c, h, value, way))
            continue;
        value[h] = value_again(c, h, value, way);
        seen |= c->kind[h] == 2 && value[h] != c->good[h];
        if (way == 1 && value[h] != c->good[h]) { /* nothing else to check: takes this graph's */
            unsigned left = 0, own = value[h];
            value[h] = c->good[h];
            for (unsigned k = h + 1; k < c->graphs; k++)
                left += any_affected(c, k, value, way);
            value[h] = own;
            if (!left)
                return seen | c->critical[h];
        }
    }
    return seen;
}

/* Rules 4 and 5: the faults marked, as text. */
static void marked(struct small *c, int way, char *text)
{
    unsigned value[MOST], mark[4 * MOST] = { 0 };
    for (unsigned g = c->graphs; g-- > 0;) {
        c->critical[g] = change(c, g, value, way);
        for (unsigned j = c->first[g]; j < c->first[g + 1]; j++)
            if (c->active[j] && c->critical[g] && exit_value(c, g, j, 0) != exit_value(c, g, j, 1)) {
                mark[2 * j + 1 - c->good[c->read[j]]] = 1;
                mark[2 * j + c->good[c->read[j]]] = way == 3; /* both faults of a critical node */
            }
        if (c->critical[g])
            mark[2 * c->nodes + 2 * g + 1 - c->good[g]] = 1;
    }
    *text = 0;
    for (unsigned f = 0; f < 2 * c->nodes + 2 * c->graphs; f++)
        if (mark[f])
            sprintf(text + strlen(text), " %u", f);
}

/* The change list of a graph, as text. */
static void listed(const struct small *c, unsigned g, int way, char *text)
{
    unsigned value[MOST];
    change(c, g, value, way);
    *text = 0;
    for (unsigned h = 0; h < c->graphs; h++)
        if (value[h] != c->good[h])
            sprintf(text + strlen(text), " %u", h);
}

static uint32_t word_at(const uint8_t *b)
{
    return (uint32_t)b[0] << 24 | (uint32_t)b[1] << 16 | (uint32_t)b[2] << 8 | b[3];
}

/* The same of the engine: faults with a tally, or the words of a change list. */
static void engine_says(const uint32_t *words, unsigned count, uint32_t vector, enum call call, char *text)
{
    uint8_t card[4 * WORDS], bits[4], buffer[4 * 100] = { 0 }, tallies[4 * 100] = { 0 };
    struct asked a = { .call = call, .card = card, .card_len = 4 * (size_t)count, .vectors = bits, .vectors_len = 4 };
    unsigned n;
    for (unsigned i = 0; i < 4 * count; i++)
        card[i] = (uint8_t)(words[i / 4] >> (24 - 8 * (i % 4)));
    for (unsigned i = 0; i < 4; i++)
        bits[i] = (uint8_t)(vector >> (24 - 8 * i));
    n = (unsigned)ask_engine(&a, buffer, sizeof buffer, tallies, sizeof tallies);
    *text = 0;
    for (unsigned i = 0; i < (call == CHANGE ? n : 100); i++)
        if (call == CHANGE || word_at(tallies + 4 * (size_t)i))
            sprintf(text + strlen(text), " %u", call == CHANGE ? (unsigned)word_at(buffer + 4 * (size_t)i) : i);
}

static const struct astray {
    int way;
    const char *name;
    uint32_t words[WORDS];
    unsigned count;
    uint32_t vector;
    enum call call; /* GRADE: the faults caught; CHANGE: the change list of graph 0 */
    const char *right, *wrong;
} ways[] = {
    { 1, "the criticality of the only graph left",
      { 0, 0x20000001, 0x60000000, 0x80000001, 0x40000002, 0x60000001, 0x80000003, 0x60000000, 0x80000001 },
      9, 0xA0000000, GRADE, " 7 11", " 11" },
    { 2, "a graph by the other good exits, which have changed too",
      { 0, 0x20000001, 0x60000000, 0x80000001, 0x40000002, 0x60000001, 0x80000003, 0x60000000, 0x80004000 },
      9, 0xA0000000, GRADE, " 1 3 9 11", " 1 3 7 9 11" },
    { 3, "both faults of a critical node",
      { 0, 0x20000001, 0x60000000, 0x80000001, 0x40000002, 0x60000001, 0x80000003, 0x60000000, 0x80000001 },
      9, 0xA0000001, GRADE, " 0 2 4 6 8 10", " 0 1 2 3 4 5 6 8 10" },
    { 4, "an observable graph's readers left unchanged",
      { 0, 0x40000001, 0x60000000, 0x80000001, 0x20000001, 0x60000001, 0x80000001 },
      7, 0xA0000000, CHANGE, " 0 1 2", " 0 1" },
};

/* What the rules say here, right or wrong. */
static void rules_say(const struct astray *w, int way, char *text)
{
    struct small c;
    take(&c, w->words, w->count);
    work_out(&c, w->vector);
    if (w->call == CHANGE)
        listed(&c, 0, way, text);
    else
        marked(&c, way, text);
}

static unsigned one_way(const struct astray *w)
{
    char engine[LINE], right[LINE], wrong[LINE];
    int bad;
    engine_says(w->words, w->count, w->vector, w->call, engine);
    rules_say(w, 0, right);
    rules_say(w, w->way, wrong);
    bad = strcmp(engine, w->right) || strcmp(right, w->right) || strcmp(wrong, w->wrong);
    printf("astray %d, %s: card", w->way, w->name);
    for (unsigned i = 0; i < w->count; i++)
        printf(" %08X", (unsigned)w->words[i]);
    printf(", vector %08X, %s: the wrong rule says%s, the engine%s%s\n", (unsigned)w->vector,
           w->call == CHANGE ? "change list of graph 0" : "faults caught", wrong, engine, bad ? " DIFFERENCE" : "");
    return bad != 0;
}

unsigned run_astray(unsigned *cases)
{
    unsigned differ = 0;
    for (unsigned i = 0; i < sizeof ways / sizeof *ways; i++, ++*cases)
        differ += one_way(ways + i);
    return differ;
}
