/* join.c: a small host in C that joins two cards. It reads three files, each a word count, so many words
 * and further words: card A, card B, and the wires. What follows a card is passed over; what follows the
 * wires are vectors for the joined card. It prints the joined card and those vectors as a text of words,
 * with the graph of A or B that each graph is; ./cardgrade calls it.
 *
 *   (cd crates/cardhost && rt lib)
 *   gcc -O2 examples/join.c crates/cardhost/out/libcardhost.a -o join
 *   ./cardgrade --bytes examples/fulladder.words >adder
 *   ./cardgrade --bytes examples/ripple.wires >wires
 *   ./join adder adder wires >two-bits.words
 *
 * A refusal is one line: `refused`, its number and position, then the part that it is about, A, B, wires
 * or both, and the position there. Exit status: 0 joined, 1 refused, 2 where reading or writing fails.
 */
#include "../include/cardhost.h"

#include <stdio.h>
#include <stdlib.h>

#define FREE_WIRE 0xFFFFFFFFu

enum { CARD_WORDS = 9216 };

/* One word more than a card has at most, so that a longer one is refused. */
struct part {
    const char *name;
    FILE *file;
    uint8_t words[4 * (CARD_WORDS + 1)];
    size_t len;
};

static struct part a, b, wires;
static uint8_t joined[4 * CARD_WORDS];

static void error(const char *name, const char *why)
{
    fprintf(stderr, "join: %s: %s\n", name, why);
    exit(2);
}

static uint32_t word(const uint8_t *bytes, size_t at)
{
    bytes += 4 * at;
    return (uint32_t)bytes[0] << 24 | (uint32_t)bytes[1] << 16 | (uint32_t)bytes[2] << 8 | bytes[3];
}

/* Fewer bytes than are wanted are an error. */
static void read_bytes(struct part *part, uint8_t *bytes, size_t len)
{
    if (fread(bytes, 1, len, part->file) < len)
        error(part->name, ferror(part->file) ? "it cannot be read" : "it ends before its word count is met");
}

/* Of a part with too many words for any card the number alone decides, and they are not read. */
static void take_part(struct part *part, const char *name)
{
    uint8_t count[4];
    part->name = name;
    part->file = fopen(name, "rb");
    if (!part->file)
        error(name, "it cannot be opened");
    read_bytes(part, count, sizeof count);
    part->len = sizeof part->words;
    if (word(count, 0) <= CARD_WORDS) {
        part->len = 4 * (size_t)word(count, 0);
        read_bytes(part, part->words, part->len);
    }
}

/* ---- the joined card ---- */

struct numbers {
    uint32_t inputs, graphs;
};

static struct numbers in_a, in_b;
static uint32_t free_inputs; /* of B */

static struct numbers numbers_of(const uint8_t *card, size_t len)
{
    uint8_t five[4 * 5] = { 0 };
    card_check(card, len, five, sizeof five);
    return (struct numbers){ word(five, 0), word(five, 1) };
}

/* Which of B's inputs is the free one with so many free ones before it. */
static uint32_t free_input(uint32_t before)
{
    uint32_t i = 0;
    while (word(wires.words, i) != FREE_WIRE || before-- > 0)
        i++;
    return i;
}

/* Where graph g of the joined card comes from: A's inputs, B's free ones, A's outputs, B's outputs. */
static void print_origin(uint32_t g)
{
    printf("  # graph %u: ", (unsigned)g);
    if (g < in_a.inputs)
        printf("graph %u of A", (unsigned)g);
    else if (g < in_a.inputs + free_inputs)
        printf("graph %u of B", (unsigned)free_input(g - in_a.inputs));
    else if (g < in_a.graphs + free_inputs)
        printf("graph %u of A", (unsigned)(g - free_inputs));
    else
        printf("graph %u of B", (unsigned)(g - in_a.graphs - free_inputs + in_b.inputs));
}

static void print_card(size_t words)
{
    uint32_t graph = 0, node = 0;
    in_a = numbers_of(a.words, a.len);
    in_b = numbers_of(b.words, b.len);
    free_inputs = numbers_of(joined, 4 * words).inputs - in_a.inputs;
    for (size_t i = 0; i < words; i++) {
        uint32_t w = word(joined, i);
        printf("%08X", (unsigned)w);
        if (w >> 29 < 3)
            print_origin(graph++);
        if (w >> 29 == 3)
            printf("  #   node %u reads graph %u", (unsigned)node++, (unsigned)(w & 0xFFFF));
        printf("\n");
    }
}

static void print_vectors(void)
{
    uint8_t bytes[4];
    size_t n;
    printf("vectors\n");
    while ((n = fread(bytes, 1, sizeof bytes, wires.file)) == sizeof bytes)
        printf("%08X\n", (unsigned)word(bytes, 0));
    if (n > 0 || ferror(wires.file))
        error(wires.name, "it cannot be read, or ends inside a word");
}

/* ---- what a refusal is about ---- */

static void print_refusal(uint64_t answer)
{
    unsigned rule = CARD_REFUSAL(answer), at = CARD_POSITION(answer);
    const char *part = rule == 13 ? "wires" : "both";
    printf("refused %u %u", rule, at);
    if (rule <= 9) {
        uint8_t five[4 * 5];
        part = CARD_REFUSAL(card_check(a.words, a.len, five, sizeof five)) ? "A" : "B";
        at -= *part == 'B' ? (unsigned)(a.len / 4) : 0;
    }
    printf(" %s %u\n", part, at);
}

int main(int argc, char **argv)
{
    uint64_t answer;
    if (argc != 4)
        error("usage", "join A B WIRES");
    take_part(&a, argv[1]);
    take_part(&b, argv[2]);
    take_part(&wires, argv[3]);
    answer = card_join(a.words, a.len, b.words, b.len, wires.words, wires.len, joined, sizeof joined);
    if (CARD_REFUSAL(answer)) {
        print_refusal(answer);
    } else {
        print_card((size_t)answer);
        print_vectors();
    }
    if (fflush(stdout) || ferror(stdout))
        error("standard output", "it did not take the whole text");
    return CARD_REFUSAL(answer) != 0;
}
