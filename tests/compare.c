/* compare.c: see compare.h. */
#include "compare.h"

#include "brute.h"

#include <stdio.h>
#include <string.h>

struct compared compared;

void compare_seed(uint64_t seed)
{
    compared.seed = seed;
    gen_seed(seed);
}

uint32_t word_at(const uint8_t *bytes, size_t at)
{
    bytes += 4 * at;
    return (uint32_t)bytes[0] << 24 | (uint32_t)bytes[1] << 16 | (uint32_t)bytes[2] << 8 | bytes[3];
}

/* ---- lent parts between guard bytes ---- */

enum { GUARD = 64, ROOM = COMPARE_ROOM + 2 * GUARD };

/* The engine has it now. It should stay as it was, or of a buffer become what brute force makes of it. */
struct lent {
    uint8_t now[ROOM], should[ROOM];
    size_t front, len;
};

static struct lent card, second, vectors, faults, buffer, tallies;

static size_t whole(const struct lent *l)
{
    return l->front + l->len + GUARD;
}

static uint8_t *lend(struct lent *l, const uint8_t *from, size_t len)
{
    l->front = GUARD + gen_below(4);
    l->len = len;
    memset(l->should, 0x5A, l->front);
    if (len)
        memcpy(l->should + l->front, from, len);
    memset(l->should + l->front + len, 0xA5, GUARD);
    memcpy(l->now, l->should, whole(l));
    return l->now + l->front;
}

static uint8_t *lend_buffer(struct lent *l, size_t room)
{
    static uint8_t content[COMPARE_ROOM];
    unsigned any = gen_below(256);
    for (size_t i = 0; i < room; i++)
        content[i] = (uint8_t)(i * 131 + any);
    return lend(l, content, room);
}

static int is_right(const struct lent *l)
{
    return !memcmp(l->now, l->should, whole(l));
}

/* ---- one call ---- */

static void show_part(const char *name, const struct lent *l)
{
    const uint8_t *bytes = l->should + l->front;
    printf("  %s, %zu bytes%s:", name, l->len, is_right(l) ? "" : ", ALTERED");
    for (size_t i = 0; i < l->len && i < 240; i++)
        printf("%s%02X", i % 4 ? "" : " ", bytes[i]);
    printf("%s\n", l->len > 240 ? " .." : "");
}

static void show_buffer(const char *name, const struct lent *l)
{
    for (size_t i = 0; i < whole(l); i++)
        if (l->now[i] != l->should[i]) {
            printf("  %s byte %ld of %zu: %02X, should be %02X\n", name, (long)i - (long)l->front, l->len, l->now[i], l->should[i]);
            return;
        }
}

static void show_difference(const struct asked *a, uint64_t got, uint64_t want)
{
    if (!differ(call_names[a->call]))
        return;
    printf("  graph %u; engine answers %llu %llu, brute force %llu %llu\n", (unsigned)a->number, (unsigned long long)(got >> 32),
           (unsigned long long)(got & 0xFFFFFFFFu), (unsigned long long)(want >> 32), (unsigned long long)(want & 0xFFFFFFFFu));
    show_buffer("buffer", &buffer);
    show_buffer("tallies", &tallies);
    show_part(a->call == GATES ? "gates" : "card", &card);
    show_part("second card", &second);
    show_part(a->call == JOIN ? "wires" : "vectors", &vectors);
    if (a->call == FAULT)
        show_part("faults", &faults);
}

static void count_call(uint64_t answer)
{
    compared.calls++;
    if (answer >> 32)
        compared.refusals[answer >> 32 > COMPARE_RULES ? 0 : answer >> 32]++;
    else
        compared.done++;
}

/* Whether the parts that are only read are as they were. */
static int all_kept(void)
{
    return is_right(&card) && is_right(&second) && is_right(&vectors) && is_right(&faults);
}

uint64_t compare(const struct asked *a, size_t room, size_t tallies_room)
{
    struct asked lent = *a;
    uint64_t got, want;
    lent.card = lend(&card, a->card, a->card_len);
    lent.second = lend(&second, a->second, a->second_len);
    lent.vectors = lend(&vectors, a->vectors, a->vectors_len);
    lent.faults = lend(&faults, a->faults, a->faults_len);
    compared.buffer = lend_buffer(&buffer, room);
    compared.tallies = lend_buffer(&tallies, tallies_room);
    want = ask_brute(&lent, buffer.should + buffer.front, room, tallies.should + tallies.front, tallies_room);
    got = ask_engine(&lent, buffer.now + buffer.front, room, tallies.now + tallies.front, tallies_room);
    count_call(want);
    if (got != want || !is_right(&buffer) || !is_right(&tallies) || !all_kept())
        show_difference(a, got, want);
    return want;
}

/* ---- a lead and its reader ---- */

static void one_pair(size_t of_graph, size_t of_node, const uint8_t *marks, const uint8_t *tally_words)
{
    int crossed = brute_is_crossed((uint32_t)of_node);
    compared.pairs++;
    compared.caught_pairs[crossed] += word_at(tally_words, of_graph) != 0;
    if (word_at(marks, of_graph) != word_at(marks, of_node) || word_at(tally_words, of_graph) != word_at(tally_words, of_node))
        differ("a lead's fault and its reader's");
}

void compare_pairs(const uint8_t *words, size_t len, const uint8_t *marks, const uint8_t *tally_words)
{
    uint8_t numbers[20];
    if (brute_check(words, len, numbers, sizeof numbers))
        return;
    for (uint32_t g = 0; g < word_at(numbers, 1); g++)
        for (unsigned d = 0; d < 2; d++) {
            long fault = brute_lead_fault(g, d);
            if (fault >= 0)
                one_pair(2 * ((size_t)word_at(numbers, 2) + g) + d, (size_t)fault, marks, tally_words);
        }
}

/* ---- rooms, and the report ---- */

size_t pick_room(size_t words)
{
    size_t room = 4 * words;
    switch (gen_below(12)) {
    case 0: room = 4 * gen_below((uint32_t)words + 1); break;
    case 1: room -= 4; break;
    case 2: room += 4; break;
    case 3: room += 4 * gen_below(20); break;
    default: break;
    }
    return room + (gen_chance(40) ? 1 + gen_below(3) : 0);
}

int differ(const char *what)
{
    if (++compared.differ > 5)
        return 0;
    printf("DIFFERENCE: %s, seed %llu, input %u\n", what, (unsigned long long)compared.seed, compared.inputs);
    return 1;
}

int too_few(const char *what, unsigned got, unsigned least)
{
    if (got >= least)
        return 0;
    printf("too few of %s: %u, should be at least %u\n", what, got, least);
    return 1;
}
