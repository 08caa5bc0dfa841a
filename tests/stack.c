/* stack.c: how much stack the calls use, on the largest cards and gate lists. Each call runs in a thread of its own
 * whose stack was filled with one byte before; what is still that byte afterwards was not used. Fails
 * where a call uses more than cardhost.h says.
 */
#define _GNU_SOURCE
#include "../include/cardhost.h"
#include "calls.h"

#include <pthread.h>
#include <stdio.h>
#include <stdlib.h>
#include <string.h>
#include <sys/mman.h>

enum { STACK = 16 << 20, FILL = 0x5C, WORDS = 9216 };

static uint8_t card[4 * WORDS], vector[4 * 64], faults[4 * 8], wires[4 * 1024], buffer[4 * 10240], tallies[4 * 10240];
static size_t words, vector_words;

static void put_word(uint8_t *bytes, size_t at, uint32_t w)
{
    for (unsigned i = 0; i < 4; i++)
        bytes[4 * at + i] = (uint8_t)(w >> (24 - 8 * i));
}

static void put(uint32_t w)
{
    put_word(card, words++, w);
}

/* An observable graph of n nodes that read one graph, the path going through all of them where it is 1. */
static void put_graph(unsigned n, unsigned read)
{
    put(0x40000000u + n);
    for (unsigned k = 0; k < n; k++) {
        put(0x60000000u + read);
        put(k + 1 == n ? 0x80000001u : 0x80000003u + k);
    }
}

/* So many inputs, then graphs of n nodes, each reading the one below; all inputs are 1. */
static void make_card(unsigned inputs, unsigned graphs, unsigned n)
{
    words = 0;
    for (unsigned i = 0; i < inputs; i++)
        put(0);
    for (unsigned i = 0; i < graphs; i++)
        put_graph(n, inputs + i - 1);
    vector_words = (inputs + 15) / 16;
    for (unsigned j = 0; j < vector_words; j++) {
        unsigned left = inputs - 16 * j;
        put_word(vector, j, 0xA0000000u + (left < 16 ? (1u << left) - 1 : 0xFFFF));
    }
}

static void *one_call(void *asked)
{
    uint64_t answer = ask_engine(asked, buffer, sizeof buffer, tallies, sizeof tallies);
    return answer >> 32 ? asked : NULL; /* no call here is refused */
}

/* The bytes of stack that a call used, its thread's own included. */
static size_t measure(struct asked *a)
{
    uint8_t *stack = mmap(NULL, STACK, PROT_READ | PROT_WRITE, MAP_PRIVATE | MAP_ANONYMOUS, -1, 0);
    pthread_attr_t attributes;
    pthread_t thread;
    void *refused = NULL;
    size_t unused = 0;
    if (stack == MAP_FAILED)
        exit(2);
    memset(stack, FILL, STACK);
    pthread_attr_init(&attributes);
    if (pthread_attr_setstack(&attributes, stack, STACK) || pthread_create(&thread, &attributes, one_call, a))
        exit(2);
    pthread_join(thread, &refused);
    while (unused < STACK && stack[unused] == FILL)
        unused++;
    munmap(stack, STACK);
    if (refused) {
        printf("stack: %s is refused\n", call_names[a->call]);
        exit(1);
    }
    return STACK - unused;
}

static size_t most[CALLS];

static void take_in(struct asked *a)
{
    size_t used = measure(a);
    if (used > most[a->call])
        most[a->call] = used;
}

/* The longest list of faults: eight nodes are forced to the exits that they take anyway, so that all paths stay as long. They
 * stand far apart, so that each graph still calls for the one below. */
static void each_call(unsigned nodes)
{
    for (unsigned i = 0; i < 8; i++)
        put_word(faults, i, 2 * (i * (nodes / 8)) + 1);
    for (int call = CHECK; call <= GRADE; call++) {
        struct asked a = { .call = (enum call)call, .card = card, .card_len = 4 * words, .vectors = vector, .vectors_len = 4 * vector_words };
        a.faults = faults;
        a.faults_len = sizeof faults;
        take_in(&a);
    }
}

/* The card on itself, all inputs wired to its last graphs. */
static void join_itself(unsigned inputs, unsigned graphs)
{
    struct asked a = { .call = JOIN, .card = card, .card_len = 4 * words, .vectors = wires, .vectors_len = 4 * (size_t)inputs };
    a.second = card;
    a.second_len = a.card_len;
    for (unsigned i = 0; i < inputs; i++)
        put_word(wires, i, graphs - 1 - i);
    take_in(&a);
}

/* So many inputs, then observable NANDs of n leads, which name the line below. */
static void turn_gates(unsigned inputs, unsigned gates, unsigned n)
{
    struct asked a = { .call = GATES, .card = card };
    words = 0;
    for (unsigned i = 0; i < inputs; i++)
        put(0);
    for (unsigned i = 0; i < gates; i++) {
        put(0x48000000u + n);
        for (unsigned k = 0; k < n; k++)
            put(0x60000000u + inputs + i - 1);
    }
    a.card_len = 4 * words;
    take_in(&a);
}

int main(void)
{
    size_t all = 0;
    make_card(1, 1, 4096); /* the longest path in one graph */
    each_call(4096);
    make_card(1, 1023, 4); /* the longest chain of graphs */
    each_call(4092);
    make_card(512, 512, 8); /* all three limits */
    each_call(4096);
    make_card(512, 256, 8); /* twice half of them */
    join_itself(512, 768);
    make_card(1, 1, 2048);
    join_itself(1, 2);
    turn_gates(512, 512, 8); /* both limits, and a card with all three */
    turn_gates(1, 1023, 4);
    turn_gates(1, 1, 4096);
    printf("stack:");
    for (int call = CHECK; call < CALLS; call++) {
        printf(" %s %zu", call_names[call], most[call]);
        if (most[call] > all)
            all = most[call];
    }
    printf("; the header says %d\n", CARD_STACK);
    return all > CARD_STACK;
}
