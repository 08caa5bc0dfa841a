/* host.c: times card_grade through the archive.
 *
 *   host [--first K] [--repeat N] < card-and-vectors
 *
 * Reads what cardgrade reads and prints what it prints, so that the answers can be compared; the marked
 * count is the archive's own. To stderr: the vectors graded, and the best processor time of N calls in
 * nanoseconds; each call has its set-up in it. --first K grades the first K vectors only.
 */
#define _POSIX_C_SOURCE 200809L
#include "../include/cardhost.h"

#include <stdio.h>
#include <stdlib.h>
#include <string.h>
#include <time.h>

enum { CARD_WORDS = 9216, VECTOR_WORDS = 16384, GRAPHS = 1024, FAULTS = 10240 };

static uint8_t input[4 * (1 + CARD_WORDS + VECTOR_WORDS)];
static uint8_t numbers[4 * 5], marks[4 * FAULTS], tallies[4 * FAULTS];
static const uint8_t *card, *vectors;
static size_t card_len, vectors_len;

static uint32_t word(const uint8_t *bytes, size_t at)
{
    bytes += 4 * at;
    return (uint32_t)bytes[0] << 24 | (uint32_t)bytes[1] << 16 | (uint32_t)bytes[2] << 8 | bytes[3];
}

static double now(void)
{
    struct timespec t;
    clock_gettime(CLOCK_PROCESS_CPUTIME_ID, &t);
    return (double)t.tv_sec * 1e9 + (double)t.tv_nsec;
}

/* The best time of some calls; their answer in *answer. */
static double best(int repeat, uint64_t *answer)
{
    double least = 0;
    for (int i = 0; i < repeat; i++) {
        double start = now(), took;
        *answer = card_grade(card, card_len, vectors, vectors_len, marks, sizeof marks, tallies, sizeof tallies);
        took = now() - start;
        if (i == 0 || took < least)
            least = took;
    }
    return least;
}

/* Splits the input; the number of vectors, at most the first so many. */
static size_t take_input(size_t first)
{
    size_t len = fread(input, 1, sizeof input, stdin), width, count;
    card = input + 4;
    card_len = len < 4 ? 0 : 4 * (size_t)word(input, 0);
    if (len < 4 || card_len > len - 4 || card_check(card, card_len, numbers, sizeof numbers)) {
        fprintf(stderr, "host: no right card\n");
        exit(1);
    }
    vectors = card + card_len;
    width = ((size_t)word(numbers, 0) + 15) / 16;
    count = (len - 4 - card_len) / 4 / width;
    if (first < count)
        count = first;
    vectors_len = 4 * width * count;
    return count;
}

/* How many faults count: not those of a graph with one reader that is not observable. Words of kind 0 to 2 are
 * headers, 2 an observable graph's, and those of kind 3 are reads. */
static uint32_t total(uint32_t faults)
{
    static uint32_t readers[GRAPHS];
    uint32_t graph = 0;
    for (size_t at = 0; at < card_len / 4; at++)
        if (word(card, at) >> 29 == 3)
            readers[word(card, at) & 0xFFFF]++;
    for (size_t at = 0; at < card_len / 4; at++) {
        uint32_t kind = word(card, at) >> 29;
        if (kind <= 2 && readers[graph++] == 1 && kind != 2)
            faults -= 2;
    }
    return faults;
}

static void print_grade(uint64_t marked)
{
    uint32_t faults = word(numbers, 4);
    printf("card %u %u %u %u\n", (unsigned)word(numbers, 0), (unsigned)word(numbers, 1), (unsigned)word(numbers, 2), (unsigned)faults);
    for (uint32_t f = 0; f < faults; f++)
        if (word(marks, f) == 0xC0000000)
            printf("%u - %u\n", (unsigned)f, (unsigned)word(tallies, f));
        else
            printf("%u %u %u\n", (unsigned)f, (unsigned)(word(marks, f) - 0xE0000000), (unsigned)word(tallies, f));
    printf("grade %u %u\n", (unsigned)marked, (unsigned)total(faults));
}

int main(int argc, char **argv)
{
    size_t first = VECTOR_WORDS, count;
    int repeat = 1;
    uint64_t marked = 0;
    double ns;
    for (int i = 1; i + 1 < argc; i += 2)
        if (!strcmp(argv[i], "--first"))
            first = strtoul(argv[i + 1], NULL, 10);
        else if (!strcmp(argv[i], "--repeat"))
            repeat = atoi(argv[i + 1]);
    count = take_input(first);
    ns = best(repeat, &marked);
    if (CARD_REFUSAL(marked)) {
        fprintf(stderr, "host: refused %u %u\n", (unsigned)CARD_REFUSAL(marked), (unsigned)CARD_POSITION(marked));
        return 1;
    }
    print_grade(marked);
    fprintf(stderr, "vectors %zu setup_ns 0 best_ns %.0f\n", count, ns);
    return 0;
}
