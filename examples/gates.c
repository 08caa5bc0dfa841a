/* gates.c: a small host in C that turns a gate list into a card. It reads one file, a word count, so many
 * words and further words: the gate list, and vectors for it. It prints the card and those vectors as a text
 * of words, with the line or lead that each graph and node is; ./cardgrade calls it.
 *
 *   (cd crates/cardhost && rt lib)
 *   gcc -O2 examples/gates.c crates/cardhost/out/libcardhost.a -o gates
 *   ./cardgrade --bytes examples/c17.gates >list
 *   ./gates list >c17.words
 *
 * A refusal is one line: `refused`, its number and its position in the gate list. Exit status: 0 for a card,
 * 1 refused, 2 where reading or writing fails.
 */
#include "../include/cardhost.h"

#include <stdio.h>
#include <stdlib.h>

enum { WORDS = 9216 };

static const char *const functions[] = { "AND", "OR", "NAND", "NOR", "NOT", "BUF" };

static const char *name;
static FILE *file;
static uint8_t gates[4 * (WORDS + 1)], card[4 * WORDS]; /* one word more than a list has at most, so that a longer one is refused */
static size_t gates_len;

static void error(const char *what, const char *why)
{
    fprintf(stderr, "gates: %s: %s\n", what, why);
    exit(2);
}

static uint32_t word(const uint8_t *bytes, size_t at)
{
    bytes += 4 * at;
    return (uint32_t)bytes[0] << 24 | (uint32_t)bytes[1] << 16 | (uint32_t)bytes[2] << 8 | bytes[3];
}

/* Fewer bytes than are wanted are an error. */
static void read_bytes(uint8_t *bytes, size_t len)
{
    if (fread(bytes, 1, len, file) < len)
        error(name, ferror(file) ? "it cannot be read" : "it ends before its word count is met");
}

/* Of a list with too many words the number alone decides, and they are not read. */
static void take_gates(void)
{
    uint8_t count[4];
    file = fopen(name, "rb");
    if (!file)
        error(name, "it cannot be opened");
    read_bytes(count, sizeof count);
    gates_len = sizeof gates;
    if (word(count, 0) <= WORDS) {
        gates_len = 4 * (size_t)word(count, 0);
        read_bytes(gates, gates_len);
    }
}

/* A line's word tells its kind and, of a gate, the function. */
static void print_line(unsigned line, uint32_t w)
{
    printf("  # graph %u: line %u, %s", line, line, w >> 29 == 0 ? "input" : functions[w >> 26 & 7]);
}

/* The list and its card have the same lines and leads, in the same order; a lead's exits are the card's alone. */
static void print_card(size_t words)
{
    size_t at = 0; /* in the gate list */
    unsigned line = 0, lead = 0;
    for (size_t i = 0; i < words; i++) {
        uint32_t w = word(card, i);
        printf("%08X", (unsigned)w);
        if (w >> 29 < 3)
            print_line(line++, word(gates, at++));
        if (w >> 29 == 3) {
            printf("  #   node %u is lead %u, reads graph %u", lead, lead, (unsigned)(w & 0xFFFF));
            lead++;
            at++;
        }
        printf("\n");
    }
}

static void print_vectors(void)
{
    uint8_t bytes[4];
    size_t n;
    printf("vectors\n");
    while ((n = fread(bytes, 1, sizeof bytes, file)) == sizeof bytes)
        printf("%08X\n", (unsigned)word(bytes, 0));
    if (n > 0 || ferror(file))
        error(name, "it cannot be read, or ends inside a word");
}

int main(int argc, char **argv)
{
    uint64_t answer;
    if (argc != 2)
        error("usage", "gates LIST");
    name = argv[1];
    take_gates();
    answer = card_from_gates(gates, gates_len, card, sizeof card);
    if (CARD_REFUSAL(answer)) {
        printf("refused %u %u\n", (unsigned)CARD_REFUSAL(answer), (unsigned)CARD_POSITION(answer));
    } else {
        print_card((size_t)answer);
        print_vectors();
    }
    if (fflush(stdout) || ferror(stdout))
        error("standard output", "it did not take the whole text");
    return CARD_REFUSAL(answer) != 0;
}
