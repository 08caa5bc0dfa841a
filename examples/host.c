/* host.c: a small host in C. It reads what cardgrade reads, a card's word count, the card and vector
 * words to the end, calls the engine, and prints what cardgrade prints, byte for byte and for every
 * input (tests/example-host compares).
 *
 *   (cd crates/cardhost && rt lib)
 *   gcc -O2 examples/host.c crates/cardhost/out/libcardhost.a -o host
 *   ./cardgrade --bytes examples/s.words | ./host
 *
 * Exit status: 0 after a grading; 1 after refused, short or long; 2 where reading or writing fails.
 */
#include "../include/cardhost.h"

#include <stdio.h>

/* The most words of a card, vector words and graphs, and the faults of 4,096 nodes and 1,024 graphs. */
enum { CARD_WORDS = 9216, VECTOR_WORDS = 16384, GRAPHS = 1024, FAULTS = 10240 };

/* One vector word more than is graded, so that a longer list shows. */
static uint8_t count[4], card[4 * CARD_WORDS], vectors[4 * (VECTOR_WORDS + 1)];
static size_t card_len, vectors_len;
static uint8_t numbers[4 * 5], marks[4 * FAULTS], tallies[4 * FAULTS];

static uint32_t word(const uint8_t *bytes, size_t at)
{
    bytes += 4 * at;
    return (uint32_t)bytes[0] << 24 | (uint32_t)bytes[1] << 16 | (uint32_t)bytes[2] << 8 | bytes[3];
}

/* Reads no further than decides, so that an endless input has its answer too. NULL where there is a
 * list to grade, else the line that is printed in its place. */
static const char *take_input(void)
{
    if (fread(count, 1, sizeof count, stdin) < sizeof count)
        return "short";
    if (word(count, 0) > CARD_WORDS)
        return "refused 1 0";
    card_len = 4 * (size_t)word(count, 0);
    if (fread(card, 1, card_len, stdin) < card_len)
        return "short";
    vectors_len = fread(vectors, 1, sizeof vectors, stdin);
    if (vectors_len == sizeof vectors)
        return "long";
    return vectors_len % 4 ? "short" : NULL;
}

static void print_fault(uint32_t fault)
{
    uint32_t mark = word(marks, fault);
    if (mark == 0xC0000000)
        printf("%u - %u\n", (unsigned)fault, (unsigned)word(tallies, fault));
    else
        printf("%u %u %u\n", (unsigned)fault, (unsigned)(mark - 0xE0000000), (unsigned)word(tallies, fault));
}

/* How many of a right card's faults count in the grade. A graph that is not observable and that one node alone
 * reads is a lead to that node, and the node's two faults count, not its own. A word's top three bits are 0 to 2 in
 * a graph's header, 2 where it is observable, and 3 in a read, which has the graph's number in bits 15..0. */
static uint32_t total(uint32_t faults)
{
    static uint32_t readers[GRAPHS];
    uint32_t graph = 0;
    for (size_t at = 0; at < card_len / 4; at++)
        if (word(card, at) >> 29 == 3)
            readers[word(card, at) & 0xFFFF]++;
    for (size_t at = 0; at < card_len / 4; at++) {
        uint32_t kind = word(card, at) >> 29;
        if (kind <= 2 && readers[graph++] == 1 && kind != 2)
            faults -= 2;
    }
    return faults;
}

/* Grades the list and answers the exit status. The buffers are long enough for every card, so a card that
 * is graded passes the check as well. */
static int grade(void)
{
    uint64_t marked = card_grade(card, card_len, vectors, vectors_len, marks, sizeof marks, tallies, sizeof tallies);
    if (CARD_REFUSAL(marked)) {
        printf("refused %u %u\n", (unsigned)CARD_REFUSAL(marked), (unsigned)CARD_POSITION(marked));
        return 1;
    }
    card_check(card, card_len, numbers, sizeof numbers);
    printf("card %u %u %u %u\n", (unsigned)word(numbers, 0), (unsigned)word(numbers, 1), (unsigned)word(numbers, 2),
           (unsigned)word(numbers, 4));
    for (uint32_t fault = 0; fault < word(numbers, 4); fault++)
        print_fault(fault);
    printf("grade %u %u\n", (unsigned)marked, (unsigned)total(word(numbers, 4)));
    return 0;
}

int main(void)
{
    const char *line = take_input();
    int status = 1;
    if (ferror(stdin)) { /* a failed read is no end of the input: nothing is graded */
        perror("host: standard input");
        return 2;
    }
    if (line)
        puts(line);
    else
        status = grade();
    if (fflush(stdout) || ferror(stdout)) {
        perror("host: standard output");
        return 2;
    }
    return status;
}
