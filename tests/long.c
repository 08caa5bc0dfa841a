/* long.c: the grading by the longest list there is, 65,535 vectors of 64 words.
 *
 * The card has 1,023 inputs and one observable graph that copies input WATCHED. So a vector catches the faults that
 * hold the input, the graph or its node at the opposite of the input's value, and nothing else: what is expected
 * is counted from the vectors alone. The input is a lead to the node, so its two faults are not in the marked count.
 */
#include "../include/cardhost.h"

#include <stdio.h>
#include <stdlib.h>

enum { INPUTS = 1023, WIDTH = 64, VECTORS = 65535, WATCHED = 5, FAULTS = 2 * 1 + 2 * 1024 };

static uint8_t card[4 * (INPUTS + 3)], marks[4 * FAULTS], tallies[4 * FAULTS];
static uint32_t tally[2], first[2] = { VECTORS, VECTORS };

static void put(uint8_t *bytes, size_t at, uint32_t word)
{
    bytes += 4 * at;
    bytes[0] = (uint8_t)(word >> 24), bytes[1] = (uint8_t)(word >> 16), bytes[2] = (uint8_t)(word >> 8), bytes[3] = (uint8_t)word;
}

static uint32_t get(const uint8_t *bytes, size_t at)
{
    bytes += 4 * at;
    return (uint32_t)bytes[0] << 24 | (uint32_t)bytes[1] << 16 | (uint32_t)bytes[2] << 8 | bytes[3];
}

/* Random bits in every input; counts, for each value of the watched one, its vectors and the first of them. */
static void fill(uint8_t *vectors)
{
    uint32_t seed = 1;
    for (uint32_t t = 0; t < VECTORS; t++)
        for (uint32_t j = 0; j < WIDTH; j++) {
            seed = seed * 1664525 + 1013904223;
            uint32_t bits = seed >> 16 & (j + 1 < WIDTH ? 0xFFFF : 0x7FFF);
            put(vectors, (size_t)t * WIDTH + j, 0xA0000000u + bits);
            if (j == 0) {
                uint32_t value = bits >> WATCHED & 1;
                tally[value]++;
                if (first[value] == VECTORS)
                    first[value] = t;
            }
        }
}

/* The value of the watched input at which a fault is caught, or 2 where it never is. Even faults hold at 0. */
static uint32_t caught_at(uint32_t fault)
{
    uint32_t place = fault / 2;
    if (place == 0 || place == 1 + WATCHED || place == 1 + INPUTS)
        return 1 - fault % 2;
    return 2;
}

static unsigned differ(void)
{
    unsigned wrong = 0;
    for (uint32_t f = 0; f < FAULTS; f++) {
        uint32_t v = caught_at(f);
        wrong += get(marks, f) != (v < 2 ? 0xE0000000u + first[v] : 0xC0000000u);
        wrong += get(tallies, f) != (v < 2 ? tally[v] : 0);
    }
    return wrong;
}

int main(void)
{
    size_t len = (size_t)4 * WIDTH * VECTORS;
    uint8_t *vectors = malloc(len);
    if (!vectors)
        return 2;
    put(card, INPUTS, 0x40000001);
    put(card, INPUTS + 1, 0x60000000 + WATCHED);
    put(card, INPUTS + 2, 0x80000001);
    fill(vectors);
    uint64_t marked = card_grade(card, sizeof card, vectors, len, marks, sizeof marks, tallies, sizeof tallies);
    unsigned wrong = (marked != 4) + differ();
    printf("long: %d vectors of %d words graded, %u differ\n", VECTORS, WIDTH, wrong);
    free(vectors);
    return wrong != 0;
}
