/* cases.c: fixed cases through the host's calls, with the expected answers written out.
 *
 * They are document 01's own figures where it has some; the others follow from its rules and from those of
 * document 02, worked out by hand. A card, a gate list, a list of vectors or of faults, wires and the words of
 * a buffer are written as text:
 *
 *   60000001    eight hexadecimal digits, a word       A0000001*65535   a word so many times
 *   12          fewer digits, a decimal number         +2               two leftover bytes
 *   chain3      the pairs of three nodes that read graph 0, with the exits 0 and the next node, the
 *               last with 0 and 1                      part3            the same, the last going on too
 *   obs3        an observable graph of such a chain    link3            the same, reading the graph below
 *
 * Of a call that is done, the text has the answer, a colon and the words written, of card_grade the marks, a |
 * and the tallies; the test sees to it that the rest of both buffers is as it was. Of a refused call all is.
 */
#include "astray.h"
#include "calls.h"

#include <ctype.h>
#include <stdio.h>
#include <stdlib.h>
#include <string.h>

#define CARD_S "00000000 20000001 60000000 80000001 40000002 60000001 80000003 60000000 80000001"
#define CARD_F "00000000 00000000 00000000 40000003 60000000 8000C001 60000001 80010000 60000002 80000001"
/* Akers's f with an inverter: node 1 reads B inverted, with its exits the other way round. Two inverters in a row. */
#define CARD_I "00000000 00000000 00000000 40000003 60000000 8000C001 60010001 80000004 60000002 80000001"
#define CARD_II "00000000 20000001 60010000 80000001 40000001 60010001 80000001"
/* A not equal to B: node 0 for A, then node 1 or 2 for B. */
#define CARD_X "00000000 00000000 40000003 60000000 8000C004 60000001 80000001 60000001 80004000"
#define CUT_S "00000000 20000001 60000000 80000001"
#define CARD_16 "0*16 40000001 6000000F 80000001"
#define CARD_17 "0*17 40000001 6000000F 80000001"
#define ALL_INPUTS "0*1023 40000001 600003FE 80000001"
#define FREE "FFFFFFFF"
#define W(words) (4 * (words))

/* S on S: the inputs; A's hidden graph of one node, and its observable one of two nodes; the same two of B, whose reads go by the wire. */
#define S_OUTPUTS "20000001 60000000 80000001 40000002 60000001 80000003 60000000 80000001 "
#define S_ON_0 "0 " S_OUTPUTS "20000001 60000000 80000001 40000002 60000003 80000003 60000000 80000001"
#define S_ON_1 "0 " S_OUTPUTS "20000001 60000001 80000001 40000002 60000003 80000003 60000001 80000001"
#define S_ON_2 "0 " S_OUTPUTS "20000001 60000002 80000001 40000002 60000003 80000003 60000002 80000001"
#define S_FREE "0 0 20000001 60000000 80000001 40000002 60000002 80000003 60000000 80000001 " \
               "20000001 60000001 80000001 40000002 60000004 80000003 60000001 80000001"

/* ---- the check: name, card, answer (the five numbers, or the refusal) ---- */

static const struct check_case {
    const char *name, *card, *want;
} check_cases[] = {
    { "refusal 1, 9,217 zeros", "0*9217", "refused 1 0" },
    { "refusal 2, 1,025 zeros", "0*1025", "refused 2 1024" },
    { "refusal 3, no node", "00000000 20000000", "refused 3 1" },
    { "refusal 4, kind 3 for a header", "00000000 60000000", "refused 4 1" },
    { "refusal 5, bit 0 of an input", "00000001", "refused 5 0" },
    { "refusal 6, own graph read", "00000000 40000001 60000001 80000001", "refused 6 2" },
    { "refusal 7, exit 2", "00000000 40000001 60000000 80000002", "refused 7 3" },
    { "refusal 8, local 1 not named", "00000000 40000002 60000000 80000001 60000000 80000001", "refused 8 1" },
    { "refusal 9, an input alone", "00000000", "refused 9 1" },
    { "S", CARD_S, "1 3 3 1 12" },
    { "Akers's f", CARD_F, "3 4 3 1 14" },
    { "exit 3 at local 0 of two", "00000000 40000002 60000000 80000003 60000000 80000001", "1 2 2 1 8" },
    { "exit 3 at local 1 of two", "00000000 40000002 60000000 80000003 60000000 80000003", "refused 7 5" },
    { "the empty card", "", "refused 9 0" },
    { "two exits 0", "00000000 40000001 60000000 80000000", "1 2 1 1 6" },
    { "two exits 1", "00000000 40000001 60000000 80004001", "1 2 1 1 6" },
    { "two exits 3", "00000000 40000002 60000000 8000C003 60000000 80000001", "1 2 2 1 8" },
    { "an input that nobody reads", "00000000 00000000 40000001 60000000 80000001", "2 3 1 1 8" },
    { "an output that nobody reads", "00000000 20000001 60000000 80000001 40000001 60000000 80000001", "1 3 2 1 10" },
    { "an observable graph read", "00000000 40000001 60000000 80000001 40000001 60000001 80000001", "1 3 2 2 10" },
    { "a hidden graph last", "00000000 40000001 60000000 80000001 20000001 60000001 80000001", "1 3 2 1 10" },
    { "named by a 0-exit only", "00000000 40000002 60000000 8000C001 60000000 80000001", "1 2 2 1 8" },
    { "named by 1-exits only",
      "00000000 40000003 60000000 80000003 60000000 80000004 60000000 80000001", "1 2 3 1 10" },
    { "named by two nodes", "00000000 40000003 60000000 8000C004 60000000 80010001 60000000 80000001", "1 2 3 1 10" },
    { "two named by one node",
      "00000000 40000003 60000000 80010003 60000000 80000001 60000000 80000001", "1 2 3 1 10" },
    { "bit 15 of an input", "00000000 00008000", "refused 5 1" },
    { "bit 28 of an input", "00000000 10000000", "refused 5 1" },
    { "bit 16 of a kind 1 header", "00000000 20010001", "refused 5 1" },
    { "bit 28 of a kind 1 header", "00000000 30000001", "refused 5 1" },
    { "bit 16 of a kind 2 header", "00000000 40010001", "refused 5 1" },
    { "bit 28 of a kind 2 header", "00000000 50000001", "refused 5 1" },
    { "no node, kind 2, the last word", "00000000 40000000", "refused 3 1" },
    { "kind 4 for a header", "00000000 80000001", "refused 4 1" },
    { "kind 5 for a header", "00000000 A0000000", "refused 4 1" },
    { "kind 6 for a header", "00000000 C0000000", "refused 4 1" },
    { "kind 7 for a header", "00000000 E0000000", "refused 4 1" },
    { "kind 3 as the first word", "60000000", "refused 4 0" },
    { "kind 3 after a graph", "00000000 40000001 60000000 80000001 60000000", "refused 4 4" },
    { "an input after an output", "00000000 40000001 60000000 80000001 00000000", "refused 4 4" },
    { "a read of a higher graph", "00000000 40000001 60000002 80000001", "refused 6 2" },
    { "a read of graph 65,535", "00000000 40000001 6000FFFF 80000001", "refused 6 2" },
    { "bit 16 of a read, an inverted one", "00000000 40000001 60010000 80000001", "1 2 1 1 6" },
    { "bit 17 of a read", "00000000 40000001 60020000 80000001", "refused 5 2" },
    { "bit 18 of a read", "00000000 40000001 60040000 80000001", "refused 5 2" },
    { "bit 19 of a read", "00000000 40000001 60080000 80000001", "refused 5 2" },
    { "bit 20 of a read", "00000000 40000001 60100000 80000001", "refused 5 2" },
    { "bit 21 of a read", "00000000 40000001 60200000 80000001", "refused 5 2" },
    { "bit 22 of a read", "00000000 40000001 60400000 80000001", "refused 5 2" },
    { "bit 23 of a read", "00000000 40000001 60800000 80000001", "refused 5 2" },
    { "bit 24 of a read", "00000000 40000001 61000000 80000001", "refused 5 2" },
    { "bit 25 of a read", "00000000 40000001 62000000 80000001", "refused 5 2" },
    { "bit 26 of a read", "00000000 40000001 64000000 80000001", "refused 5 2" },
    { "bit 27 of a read", "00000000 40000001 68000000 80000001", "refused 5 2" },
    { "bit 28 of a read", "00000000 40000001 70000000 80000001", "refused 5 2" },
    { "bits 16 and 17 of a read", "00000000 40000001 60030000 80000001", "refused 5 2" },
    { "bits 16 and 28 of a read", "00000000 40000001 70010000 80000001", "refused 5 2" },
    { "an inverted read of its own graph", "00000000 40000001 60010001 80000001", "refused 6 2" },
    { "an inverted read of graph 65,535", "00000000 40000001 6001FFFF 80000001", "refused 6 2" },
    { "an inverted read, then the end", "00000000 40000001 60010000", "refused 4 3" },
    { "kind 0 for a read", "00000000 40000001 00000000 80000001", "refused 4 2" },
    { "kind 4 for a read", "00000000 40000001 80000001 80000001", "refused 4 2" },
    { "kind 7 for a read", "00000000 40000001 E0000000 80000001", "refused 4 2" },
    { "no input to read", "40000001 60000000 80000001", "refused 6 1" },
    { "own graph read at local 1", "00000000 40000002 60000000 80000003 60000001 80000001", "refused 6 4" },
    { "bit 28 of exits", "00000000 40000001 60000000 90000001", "refused 5 3" },
    { "bit 27 of exits, a 0-exit", "00000000 40000001 60000000 88000001", "refused 7 3" },
    { "exit 2 as the 0-exit", "00000000 40000001 60000000 80008001", "refused 7 3" },
    { "kind 0 for exits", "00000000 40000001 60000000 00000000", "refused 4 3" },
    { "kind 3 for exits", "00000000 40000001 60000000 60000000", "refused 4 3" },
    { "kind 5 for exits", "00000000 40000001 60000000 A0000000", "refused 4 3" },
    { "exit 2 at local 1", "00000000 40000002 60000000 80000003 60000000 80000002", "refused 7 5" },
    { "exit 3 at local 2", "00000000 40000003 60000000 80000003 60000000 80000004 60000000 80000003", "refused 7 7" },
    { "exit 3 in a graph of one", "00000000 40000001 60000000 80000003", "refused 7 3" },
    { "1-exit 16,383", "00000000 40000001 60000000 80003FFF", "refused 7 3" },
    { "0-exit 16,383", "00000000 40000001 60000000 8FFFC001", "refused 7 3" },
    { "1-exit 4 in a graph of two", "00000000 40000002 60000000 8000C004 60000000 80000001", "refused 7 3" },
    { "0-exit 4 in a graph of two", "00000000 40000002 60000000 80010003 60000000 80000001", "refused 7 3" },
    { "exit 3, the next graph's node",
      "00000000 20000001 60000000 80000003 40000001 60000000 80000001", "refused 7 3" },
    { "local 1 of three not named",
      "00000000 40000003 60000000 80000004 60000000 80000001 60000000 80000001", "refused 8 1" },
    { "local 2 of three not named",
      "00000000 40000003 60000000 80000003 60000000 80000001 60000000 80000001", "refused 8 1" },
    { "8 in the second output",
      "00000000 20000001 60000000 80000001 40000002 60000000 80000001 60000000 80000001", "refused 8 4" },
    { "named in the graph before only",
      "00000000 20000002 60000000 80000003 60000000 80000001 40000002 60000000 80000001 60000000 80000001", "refused 8 6" },
    { "a hidden output only", "00000000 20000001 60000000 80000001", "refused 9 4" },
    { "4 before 5 at word 0", "FFFFFFFF", "refused 4 0" },
    { "4 before 5 at a header", "00000000 60010000", "refused 4 1" },
    { "4 before 5 at a late input", "00000000 40000001 60000000 80000001 00000001", "refused 4 4" },
    { "4 before 5 at a read", "00000000 40000001 90000001 80000001", "refused 4 2" },
    { "4 before 5 at a read, kind 0", "00000000 40000001 00000001 80000001", "refused 4 2" },
    { "4 before 5 at exits", "00000000 40000001 60000000 60010000", "refused 4 3" },
    { "4 before 3 at a header", "00000000 80000000", "refused 4 1" },
    { "4 before 6 at a read", "00000000 40000001 40000001 80000001", "refused 4 2" },
    { "4 before 7 at exits", "00000000 40000001 60000000 60000002", "refused 4 3" },
    { "5 before 3, no node", "00000000 40010000", "refused 5 1" },
    { "5 before 3, 4,097 nodes", "00000000 30001001", "refused 5 1" },
    { "5 before 6", "00000000 40000001 60020001 80000001", "refused 5 2" },
    { "5 before 6 at an inverted read", "00000000 40000001 60030001 80000001", "refused 5 2" },
    { "5 before 7", "00000000 40000001 60000000 90000002", "refused 5 3" },
    { "5, then 3", "00000001 20000000", "refused 5 0" },
    { "3, then 4", "00000000 40000000 60000000 80000001", "refused 3 1" },
    { "6, then 5", "00000000 40000001 60000001 90000001", "refused 6 2" },
    { "7, then 4", "00000000 40000002 60000000 80000002 60000000 60000000", "refused 7 3" },
    { "6, then the end", "00000000 40000001 60000001", "refused 6 2" },
    { "7, then the end", "00000000 40000002 60000000 80000004", "refused 7 3" },
    { "7 at the last word before 8", "00000000 40000002 60000000 80000001 60000000 80000002", "refused 7 5" },
    { "8 before 4 at the next word", "00000000 40000002 60000000 80000001 60000000 80000001 60000000", "refused 8 1" },
    { "8 before 4 at a late input", "00000000 40000002 60000000 80000001 60000000 80000001 00000000", "refused 8 1" },
    { "8 before 5 at the next word", "00000000 40000002 60000000 80000001 60000000 80000001 40010001", "refused 8 1" },
    { "8 before 3 at the next word", "00000000 40000002 60000000 80000001 60000000 80000001 40000000", "refused 8 1" },
    { "8 before 4 at the end", "00000000 40000002 60000000 80000001 60000000 80000001 40000001", "refused 8 1" },
    { "8 before 9", "00000000 20000002 60000000 80000001 60000000 80000001", "refused 8 1" },
    { "cut short by a word, never 8", "00000000 40000002 60000000 80000001 60000000", "refused 4 5" },
    { "cut short by a pair, never 8", "00000000 40000002 60000000 80000001", "refused 4 4" },
    { "S cut to 0 words", "", "refused 9 0" },
    { "S cut to 1 word", "00000000", "refused 9 1" },
    { "S cut to 2 words", "00000000 20000001", "refused 4 2" },
    { "S cut to 3 words", "00000000 20000001 60000000", "refused 4 3" },
    { "S cut to 4 words", "00000000 20000001 60000000 80000001", "refused 9 4" },
    { "S cut to 5 words", "00000000 20000001 60000000 80000001 40000002", "refused 4 5" },
    { "S cut to 6 words", "00000000 20000001 60000000 80000001 40000002 60000001", "refused 4 6" },
    { "S cut to 7 words", "00000000 20000001 60000000 80000001 40000002 60000001 80000003", "refused 4 7" },
    { "S cut to 8 words", "00000000 20000001 60000000 80000001 40000002 60000001 80000003 60000000", "refused 4 8" },
    { "S with its 9 words", CARD_S, "1 3 3 1 12" },
    { "S and 1 byte", CARD_S " +1", "refused 4 9" },
    { "S and 2 bytes", CARD_S " +2", "refused 4 9" },
    { "S and 3 bytes", CARD_S " +3", "refused 4 9" },
    { "S cut to 8 words and 2 bytes",
      "00000000 20000001 60000000 80000001 40000002 60000001 80000003 60000000 +2", "refused 4 8" },
    { "S cut to 4 words, no byte", "00000000 20000001 60000000 80000001", "refused 9 4" },
    { "S cut to 4 words and 1 byte", "00000000 20000001 60000000 80000001 +1", "refused 4 4" },
    { "an input and 1 byte", "00000000 +1", "refused 4 1" },
    { "the empty card and 3 bytes", "+3", "refused 4 0" },
    { "5 before 3 bytes", "00000001 +3", "refused 5 0" },
    { "8 before 1 byte", "00000000 40000002 60000000 80000001 60000000 80000001 +1", "refused 8 1" },
    { "1,024 inputs", "0*1024", "refused 9 1024" },
    { "9,216 zeros", "0*9216", "refused 2 1024" },
    { "1,024 inputs and 1 byte", "0*1024 +1", "refused 4 1024" },
    { "2 before 1 byte", "0*1025 +1", "refused 2 1024" },
    { "5, then 2", "1 0*1024", "refused 5 0" },
    { "1 before 5", "1 0*9216", "refused 1 0" },
    { "9,216 words", "0*512 obs8*512", "512 1024 4096 512 10240" },
    { "9,217 words", "0*512 obs8*512 0", "refused 1 0" },
    { "9,216 words and 3 bytes", "0*512 obs8*512 +3", "refused 4 9216" },
    { "9,217 words and 1 byte", "0*512 obs8*512 0 +1", "refused 1 0" },
    { "1,024 graphs, a read of 1,022", "0*1023 40000001 600003FE 80000001", "1023 1024 1 1 2050" },
    { "1,024 graphs and 1 byte", "0*1023 40000001 600003FE 80000001 +1", "refused 4 1026" },
    { "1,024 graphs, a read of 1,023", "0*1023 40000001 600003FF 80000001", "refused 6 1024" },
    { "graph 1,025 of kind 1", "0*1023 obs1 20000001", "refused 2 1026" },
    { "graph 1,025 of kind 2", "0*1023 obs1 40000001", "refused 2 1026" },
    { "2 before 4 at a late input", "0*1023 obs1 0", "refused 2 1026" },
    { "2 before 4", "0*1023 obs1 60000000", "refused 2 1026" },
    { "2 before 5", "0*1023 obs1 40010001", "refused 2 1026" },
    { "2 before 3", "0*1023 obs1 40000000", "refused 2 1026" },
    { "2 before 4, all bits set", "0*1023 obs1 FFFFFFFF", "refused 2 1026" },
    { "8 before 2", "0*1023 40000002 60000000 80000001 60000000 80000001 0", "refused 8 1023" },
    { "1,023 outputs", "0 obs1*1023", "1 1024 1023 1023 4094" },
    { "4,096 nodes", "0 obs4096", "1 2 4096 1 8196" },
    { "4,097 nodes, with their words", "0 40001001 chain4096 0*2", "refused 3 1" },
    { "4,097 nodes, the last word", "0 40001001", "refused 3 1" },
    { "65,535 nodes", "0 4000FFFF", "refused 3 1" },
    { "1 node and 4,095", "0 obs1 40000FFF", "refused 4 5" },
    { "1 node and 4,096", "0 obs1 40001000", "refused 3 4" },
    { "exit 4,097 in 4,096 nodes", "0 40001000 60000000 80001001", "refused 4 4" },
    { "exit 4,098 in 4,096 nodes", "0 40001000 60000000 80001002", "refused 7 3" },
    { "100 nodes, cut by a word", "0 40000064 part99 60000000", "refused 4 201" },
    { "100 nodes, the last not named", "0 40000064 part98 60000000 80000001 60000000 80000001", "refused 8 1" },
};

/* ---- values of all graphs: with no fault, then with fault 0, 1 and so on ---- */

static const struct value_case {
    const char *card, *vector, *want;
} value_cases[] = {
    { CARD_S, "A0000000",
      "000 000 010 000 000 000 000 000 111 000 010 000 001" },
    { CARD_S, "A0000001",
      "111 100 111 110 111 110 111 000 111 100 111 110 111" },
    { CARD_F, "A0000000",
      "0000 0000 0001 0000 0000 0000 0001 0000 1001 0000 0100 0000 0011 0000 0001" },
    { CARD_F, "A0000001",
      "1001 1000 1001 1001 1001 1001 1001 0000 1001 1001 1101 1001 1011 1000 1001" },
    { CARD_F, "A0000002",
      "0100 0100 0101 0100 0100 0100 0100 0100 1101 0000 0100 0100 0110 0100 0101" },
    { CARD_F, "A0000003",
      "1101 1100 1101 1101 1101 1101 1101 0100 1101 1001 1101 1101 1111 1100 1101" },
    { CARD_F, "A0000004",
      "0011 0011 0011 0011 0010 0010 0011 0011 1011 0011 0110 0000 0011 0010 0011" },
    { CARD_F, "A0000005",
      "1011 1011 1011 1011 1011 1011 1011 0011 1011 1011 1111 1001 1011 1010 1011" },
    { CARD_F, "A0000006",
      "0110 0110 0111 0111 0110 0110 0110 0110 1111 0011 0110 0100 0110 0110 0111" },
    { CARD_F, "A0000007",
      "1111 1110 1111 1111 1111 1111 1111 0110 1111 1011 1111 1101 1111 1110 1111" },
    /* inverted reads: a node's fault is about its exits, a graph's about its own value */
    { CARD_I, "A0000004",
      "0011 0011 0011 0010 0011 0010 0011 0011 1011 0011 0110 0000 0011 0010 0011" },
    { CARD_I, "A0000006",
      "0110 0110 0111 0110 0111 0110 0110 0110 1111 0011 0110 0100 0110 0110 0111" },
    { CARD_II, "A0000000",
      "010 001 010 010 011 010 101 001 010 010 011" },
};

/* ---- single calls: call, card, vectors (one list, or several with | between), graph number, the buffer's
 * bytes, answer ---- */

static const struct call_case {
    enum call call;
    const char *card, *vectors;
    uint32_t number;
    size_t room;
    const char *want;
} call_cases[] = {
    /* document 01: S under both vectors */
    { GOOD, CARD_S, "A0000000", 0, W(3), "0: 0 0 0" },
    { GOOD, CARD_S, "A0000001", 0, W(3), "0: 1 1 1" },
    { CHANGE, CARD_S, "A0000000", 0, W(3), "3: 0 1 2" },
    { CHANGE, CARD_S, "A0000000", 1, W(3), "1: 1" },
    { CHANGE, CARD_S, "A0000000", 2, W(3), "1: 2" },
    { CHANGE, CARD_S, "A0000001", 0, W(3), "3: 0 1 2" },
    { CHANGE, CARD_S, "A0000001", 1, W(5), "2: 1 2" },
    { CHANGE, CARD_S, "A0000001", 2, W(3), "1: 2" },
    { CRITICAL, CARD_S, "A0000000", 0, W(3), "0: 0 0 0" },
    { CRITICAL, CARD_S, "A0000001", 0, W(4), "0: 1 1 1" },
    /* document 01: Akers's f under A0000004 */
    { GOOD, CARD_F, "A0000004", 0, W(4), "0: 0 0 1 1" },
    { CHANGE, CARD_F, "A0000004", 0, W(4), "1: 0" },
    { CHANGE, CARD_F, "A0000004", 1, W(4), "2: 1 3" },
    { CHANGE, CARD_F, "A0000004", 2, W(4), "2: 2 3" },
    { CHANGE, CARD_F, "A0000004", 3, W(4), "1: 3" },
    { CRITICAL, CARD_F, "A0000004", 0, W(3), "0: 0 1 1" },
    /* an observable graph that is read, a graph that nobody reads, a node with equal exits */
    { CHANGE, "0 40000001 60000000 80000001 20000001 60000001 80000001", "A0000000", 0, W(3), "3: 0 1 2" },
    { CHANGE, "0 40000001 60000000 80000001 20000001 60000001 80000001", "A0000000", 2, W(3), "1: 2" },
    { CRITICAL, "0 40000002 60000000 8000C003 60000000 80000001", "A0000001", 0, W(2), "0: 0 1" },
    /* inverted reads: of one input, twice in a row, and of one graph both ways */
    { GOOD, CARD_I, "A0000004", 0, W(4), "0: 0 0 1 1" },
    { CHANGE, CARD_I, "A0000004", 1, W(4), "2: 1 3" },
    { CRITICAL, CARD_I, "A0000004", 0, W(3), "0: 0 1 1" },
    { GOOD, CARD_II, "A0000000", 0, W(3), "0: 0 1 0" },
    { CHANGE, CARD_II, "A0000001", 0, W(3), "3: 0 1 2" },
    { CRITICAL, CARD_II, "A0000001", 0, W(2), "0: 1 1" },
    { GOOD, "0 0 20000001 60000001 80000001 40000003 60000000 8000C004 60000002 80000001 60010002 80000001", "A0000001", 0, W(4),
      "0: 1 0 0 1" },
    { CHANGE, "0 0 20000001 60000001 80000001 40000003 60000000 8000C004 60000002 80000001 60010002 80000001", "A0000001", 2, W(4),
      "2: 2 3" },
    /* numbers too high */
    { CHANGE, CARD_S, "A0000000", 3, W(3), "refused 11 0" },
    { CHANGE, CARD_S, "A0000000", 4294967295u, W(3), "refused 11 0" },
    { CHANGE, CARD_S, "A0000000", 3, W(2), "refused 11 0" },
    { CHANGE, CARD_S, "60000000", 3, W(2), "refused 10 0" },
    /* buffers too short: a change list's is, even where the list would fit */
    { CHANGE, CARD_S, "A0000000", 1, W(2) + 3, "refused 12 0" },
    { CHANGE, CARD_S, "A0000000", 1, 0, "refused 12 0" },
    { CRITICAL, CARD_S, "A0000001", 0, W(2) + 3, "refused 12 0" },
    { CHECK, CARD_S, "", 0, W(4) + 3, "refused 12 0" },
    { CHECK, CARD_S, "", 0, 0, "refused 12 0" },
    /* leftover bytes of a buffer are unused */
    { CHECK, CARD_S, "", 0, W(5) + 3, "0: 1 3 3 1 12" },
    { CHECK, CARD_S, "", 0, W(9), "0: 1 3 3 1 12" },
    { GOOD, CARD_S, "A0000001", 0, W(3) + 1, "0: 1 1 1" },
    { CHANGE, CARD_S, "A0000001", 1, W(3) + 3, "2: 1 2" },
    { CRITICAL, CARD_S, "A0000001", 0, W(3) + 2, "0: 1 1 1" },
    /* leftover bytes of a card: 4 at the word count, before 10 and 12 */
    { CHECK, CARD_S " +1", "", 0, 0, "refused 4 9" },
    { GOOD, CARD_S " +2", "60000000", 0, 0, "refused 4 9" },
    { CHANGE, CARD_S " +1", "A0000001", 9, 0, "refused 4 9" },
    /* leftover bytes of vectors: a wrong number of words, before any word's kind */
    { GOOD, CARD_S, "A0000001 +1 | A0000001 +3 | +2 | 60000000 +1", 0, W(3), "refused 10 0" },
    { CRITICAL, CARD_17, "A0000000 60000000 +1 | A0000000 +3", 0, W(1), "refused 10 0" },
    /* a call on one vector wants just one */
    { CRITICAL, CARD_S, " | A0000000 A0000001", 0, W(3), "refused 10 0" },
    { CHANGE, CARD_S, " | A0000000 A0000001", 0, W(3), "refused 10 0" },
    { GOOD, CARD_17, "A0000000 60000000 A0000000", 0, W(18), "refused 10 0" },
    /* orders: 9 and 10 before 12 */
    { CHECK, CUT_S, "", 0, 0, "refused 9 4" },
    { CRITICAL, CARD_S, "60000000", 0, 0, "refused 10 0" },
    /* a card at all three limits: 512 inputs, and 512 graphs of 8 nodes that read input 0 */
    { GOOD, "0*512 obs8*512", "A0000001 A0000000*31", 0, W(1024), "0: 1 0*511 1*512" },
    { CHANGE, "0*512 obs8*512", "A0000000*32", 1, W(1024), "1: 1" },
    { CRITICAL, "0*512 obs8*512", "A0000001 A0000000*31", 0, W(4096), "0: 1*4096" },
    /* S, vectors */
    { GOOD, CARD_S, "", 0, W(3), "refused 10 0" },
    { GOOD, CARD_S, "A0000000", 0, W(3), "0: 0 0 0" },
    { GOOD, CARD_S, "A0000000 A0000000 | A0000000 A0000000 A000FFFF", 0, W(3), "refused 10 0" },
    { GOOD, CARD_S, "A0000001", 0, W(3), "0: 1 1 1" },
    { GOOD, CARD_S, "A0000002 | A0000007 | A0000008 | A0008000 | A000FFFF | A0010000 | A8000001 | "
      "B0000000 | 00000000 | 20000001 | 60000000 | 80000001 | C0000000 | FFFFFFFF", 0, W(3), "refused 10 0" },
    /* Akers's f, vectors */
    { GOOD, CARD_F, "A0000000", 0, W(4), "0: 0*4" },
    { GOOD, CARD_F, "A0000001", 0, W(4), "0: 1 0 0 1" },
    { GOOD, CARD_F, "A0000002", 0, W(4), "0: 0 1 0 0" },
    { GOOD, CARD_F, "A0000007", 0, W(4), "0: 1*4" },
    { GOOD, CARD_F, "A0000008 | A0008000 | A000FFFF | A0010000 | A8000001 | B0000000 | "
      "00000000 | 20000001 | 60000000 | 80000001 | C0000000 | FFFFFFFF", 0, W(4), "refused 10 0" },
    /* 16 inputs */
    { GOOD, CARD_16, "", 0, W(17), "refused 10 0" },
    { GOOD, CARD_16, "A0000000", 0, W(17), "0: 0*17" },
    { GOOD, CARD_16, "A0000000 A0000000 | A0000000 A0000000 A000FFFF", 0, W(17), "refused 10 0" },
    { GOOD, CARD_16, "A0000001", 0, W(17), "0: 1 0*16" },
    { GOOD, CARD_16, "A0000002", 0, W(17), "0: 0 1 0*15" },
    { GOOD, CARD_16, "A0000007", 0, W(17), "0: 1 1 1 0*14" },
    { GOOD, CARD_16, "A0000008", 0, W(17), "0: 0 0 0 1 0*13" },
    { GOOD, CARD_16, "A0008000", 0, W(17), "0: 0*15 1 1" },
    { GOOD, CARD_16, "A000FFFF", 0, W(17), "0: 1*17" },
    { GOOD, CARD_16, "A0010000 | A8000001 | B0000000 | 00000000 | "
      "20000001 | 60000000 | 80000001 | C0000000 | FFFFFFFF", 0, W(17), "refused 10 0" },
    /* 17 inputs */
    { GOOD, CARD_17, " | A0000000", 0, W(18), "refused 10 0" },
    { GOOD, CARD_17, "A0000000 A0000000", 0, W(18), "0: 0*18" },
    { GOOD, CARD_17, "A0000000 A0000000 A000FFFF", 0, W(18), "refused 10 0" },
    { GOOD, CARD_17, "A000FFFF A0000001", 0, W(18), "0: 1*18" },
    { GOOD, CARD_17, "A0008000 A0000000", 0, W(18), "0: 0*15 1 0 1" },
    { GOOD, CARD_17, "A0000000 A0000002 | A0000000 A0010000 | A0000000 60000000", 0, W(18), "refused 10 1" },
    { GOOD, CARD_17, "60000000 A0000000 | A0010000 A0000000 | "
      "A0010000 60000000 | 60000000 A0000002", 0, W(18), "refused 10 0" },
    /* S, buffers */
    { GOOD, CARD_S, "A0000001", 0, W(0), "refused 12 0" },
    { GOOD, CARD_S, "A0000001", 0, W(1), "refused 12 0" },
    { GOOD, CARD_S, "A0000001", 0, W(2), "refused 12 0" },
    { GOOD, CARD_S, "A0000001", 0, W(4), "0: 1 1 1" },
    { GOOD, CARD_S, "A0000001", 0, W(5), "0: 1 1 1" },
    /* Akers's f, buffers */
    { GOOD, CARD_F, "A0000001", 0, W(0), "refused 12 0" },
    { GOOD, CARD_F, "A0000001", 0, W(1), "refused 12 0" },
    { GOOD, CARD_F, "A0000001", 0, W(2), "refused 12 0" },
    { GOOD, CARD_F, "A0000001", 0, W(3), "refused 12 0" },
    { GOOD, CARD_F, "A0000001", 0, W(5), "0: 1 0 0 1" },
    /* S, orders */
    { GOOD, CARD_S, "60000000", 0, W(2), "refused 10 0" },
    /* S cut to 4 words, orders */
    { GOOD, CUT_S, "A0000001", 0, W(3), "refused 9 4" },
    { GOOD, CUT_S, "A0000001", 0, W(2), "refused 9 4" },
    { GOOD, CUT_S, "60000000", 0, W(3), "refused 9 4" },
    { GOOD, CUT_S, "60000000", 0, W(2), "refused 9 4" },
    /* 17 inputs, orders */
    { GOOD, CARD_17, "A000FFFF A0000001", 0, W(17), "refused 12 0" },
    { GOOD, CARD_17, "A0000000 A0000002", 0, W(17), "refused 10 1" },
    /* 1,024 graphs and 4,096 nodes */
    { GOOD, "0 link4*1022 link8", "A0000000", 0, W(1030), "0: 0*1024" },
    { GOOD, "0 link4*1022 link8", "A0000001", 0, W(1030), "0: 1*1024" },
    /* a graph of 4,096 nodes */
    { GOOD, "0 link4096", "A0000000", 0, W(1030), "0: 0*2" },
    { GOOD, "0 link4096", "A0000001", 0, W(1030), "0: 1*2" },
    /* 1,000 graphs, each reading the one below twice */
    { GOOD, "0 link2*1000", "A0000000", 0, W(1030), "0: 0*1001" },
    { GOOD, "0 link2*1000", "A0000001", 0, W(1030), "0: 1*1001" },
    /* 1,023 inputs */
    { GOOD, ALL_INPUTS, "A000FFFF*64", 0, W(1030), "refused 10 63" },
    { GOOD, ALL_INPUTS, "A000FFFF*63 A0007FFF", 0, W(1030), "0: 1*1024" },
    { GOOD, ALL_INPUTS, "A000FFFF*63", 0, W(1030), "refused 10 0" },
    /* S on S's observable graph */
    { GOOD, S_ON_2, "A0000001", 0, W(5), "0: 1*5" },
};

/* ---- values with a list of faults: card, vectors and lists of faults (of both one, or several with | between), the
 * buffer's bytes, answer ---- */

static const struct fault_case {
    const char *card, *vectors, *faults;
    size_t room;
    const char *want;
} fault_cases[] = {
    /* lists of one; leftover bytes of a buffer are unused */
    { CARD_S, "A0000001", "0", W(3) + 2, "0: 1 0 0" },
    /* a call on one vector wants just one */
    { CARD_S, " | A0000000 A0000001", "0", W(3), "refused 10 0" },
    /* document 01: S, fault 12 */
    { CARD_S, "A0000000", "12", W(3), "refused 11 0" },
    /* S, fault numbers and buffers */
    { CARD_S, "A0000001", "12", W(4), "refused 11 0" },
    { CARD_S, "A0000001", "2147483647", W(4), "refused 11 0" },
    { CARD_S, "A0000001", "2147483648", W(4), "refused 11 0" },
    { CARD_S, "A0000001", "4294967295", W(4), "refused 11 0" },
    { CARD_S, "A0000001", "0", W(0), "refused 12 0" },
    { CARD_S, "A0000001", "0", W(1), "refused 12 0" },
    { CARD_S, "A0000001", "0", W(2), "refused 12 0" },
    { CARD_S, "A0000001", "0", W(3), "0: 1 0 0" },
    { CARD_S, "A0000001", "0", W(4), "0: 1 0 0" },
    { CARD_S, "A0000001", "0", W(5), "0: 1 0 0" },
    /* Akers's f, fault numbers and buffers */
    { CARD_F, "A0000001", "14", W(4), "refused 11 0" },
    { CARD_F, "A0000001", "2147483647", W(4), "refused 11 0" },
    { CARD_F, "A0000001", "2147483648", W(4), "refused 11 0" },
    { CARD_F, "A0000001", "4294967295", W(4), "refused 11 0" },
    { CARD_F, "A0000001", "0", W(0), "refused 12 0" },
    { CARD_F, "A0000001", "0", W(1), "refused 12 0" },
    { CARD_F, "A0000001", "0", W(2), "refused 12 0" },
    { CARD_F, "A0000001", "0", W(3), "refused 12 0" },
    { CARD_F, "A0000001", "0", W(4), "0: 1 0 0 0" },
    { CARD_F, "A0000001", "0", W(5), "0: 1 0 0 0" },
    /* S, orders */
    { CARD_S, "A0000001", "11", W(3), "0: 1 1 1" },
    { CARD_S, "A0000001", "12", W(3), "refused 11 0" },
    { CARD_S, "A0000001", "11", W(2), "refused 12 0" },
    { CARD_S, "A0000001", "12", W(2), "refused 11 0" },
    { CARD_S, "60000000", "11", W(3), "refused 10 0" },
    { CARD_S, "60000000", "12", W(3), "refused 10 0" },
    { CARD_S, "60000000", "11", W(2), "refused 10 0" },
    { CARD_S, "60000000", "12", W(2), "refused 10 0" },
    /* S cut to 4 words, orders */
    { CUT_S, "A0000001", "11", W(3), "refused 9 4" },
    { CUT_S, "A0000001", "12", W(3), "refused 9 4" },
    { CUT_S, "A0000001", "11", W(2), "refused 9 4" },
    { CUT_S, "A0000001", "12", W(2), "refused 9 4" },
    { CUT_S, "60000000", "11", W(3), "refused 9 4" },
    { CUT_S, "60000000", "12", W(3), "refused 9 4" },
    { CUT_S, "60000000", "11", W(2), "refused 9 4" },
    { CUT_S, "60000000", "12", W(2), "refused 9 4" },
    /* 17 inputs, orders */
    { CARD_17, "A000FFFF A0000001", "37", W(18), "0: 1*18" },
    { CARD_17, "A000FFFF A0000001", "38", W(18), "refused 11 0" },
    { CARD_17, "A000FFFF A0000001", "37", W(17), "refused 12 0" },
    { CARD_17, "A000FFFF A0000001", "38", W(17), "refused 11 0" },
    { CARD_17, "A0000000 A0000002", "37", W(18), "refused 10 1" },
    { CARD_17, "A0000000 A0000002", "38", W(18), "refused 10 1" },
    { CARD_17, "A0000000 A0000002", "37", W(17), "refused 10 1" },
    { CARD_17, "A0000000 A0000002", "38", W(17), "refused 10 1" },
    /* 1,024 graphs and 4,096 nodes */
    { "0 link4*1022 link8", "A0000000", "8190", W(1030), "0: 0*1024" },
    { "0 link4*1022 link8", "A0000000", "9216", W(1030), "0: 0*1024" },
    { "0 link4*1022 link8", "A0000000", "10239", W(1030), "0: 0*1023 1" },
    { "0 link4*1022 link8", "A0000000", "10240", W(1030), "refused 11 0" },
    { "0 link4*1022 link8", "A0000001", "8190", W(1030), "0: 1*1023 0" },
    { "0 link4*1022 link8", "A0000001", "9216", W(1030), "0: 1*512 0*512" },
    { "0 link4*1022 link8", "A0000001", "10239", W(1030), "0: 1*1024" },
    { "0 link4*1022 link8", "A0000001", "10240", W(1030), "refused 11 0" },
    /* a graph of 4,096 nodes */
    { "0 link4096", "A0000000", "4096", W(1030), "0: 0*2" },
    { "0 link4096", "A0000000", "8190", W(1030), "0: 0*2" },
    { "0 link4096", "A0000000", "8195", W(1030), "0: 0 1" },
    { "0 link4096", "A0000000", "8196", W(1030), "refused 11 0" },
    { "0 link4096", "A0000001", "4096", W(1030), "0: 1 0" },
    { "0 link4096", "A0000001", "8190", W(1030), "0: 1 0" },
    { "0 link4096", "A0000001", "8195", W(1030), "0: 1*2" },
    { "0 link4096", "A0000001", "8196", W(1030), "refused 11 0" },
    /* 1,000 graphs, each reading the one below twice */
    { "0 link2*1000", "A0000000", "1000", W(1030), "0: 0*1001" },
    { "0 link2*1000", "A0000000", "5000", W(1030), "0: 0*1001" },
    { "0 link2*1000", "A0000000", "6001", W(1030), "0: 0*1000 1" },
    { "0 link2*1000", "A0000000", "6002", W(1030), "refused 11 0" },
    { "0 link2*1000", "A0000001", "1000", W(1030), "0: 1*251 0*750" },
    { "0 link2*1000", "A0000001", "5000", W(1030), "0: 1*500 0*501" },
    { "0 link2*1000", "A0000001", "6001", W(1030), "0: 1*1001" },
    { "0 link2*1000", "A0000001", "6002", W(1030), "refused 11 0" },
    /* the empty list: the good values */
    { CARD_S, "A0000000", "", W(3), "0: 0 0 0" },
    { CARD_S, "A0000001", "", W(3) + 1, "0: 1 1 1" },
    { CARD_F, "A0000004", "", W(5), "0: 0 0 1 1" },
    { CARD_II, "A0000000", "", W(3), "0: 0 1 0" },
    { "0 link4*1022 link8", "A0000001", "", W(1024), "0: 1*1024" },
    { CARD_S, "A0000001", "", W(2) + 3, "refused 12 0" },
    { CARD_S, "60000000", "", W(2), "refused 10 0" },
    { CUT_S, "A0000001", "", W(3), "refused 9 4" },
    /* S: graph 1 copies the input by node 0, and graph 2 is both, by node 1 (the copy) and then node 2 (the input). Faults 0 to 5
     * are of the nodes, 6 to 11 of the graphs. Neighbouring numbers of two places: */
    { CARD_S, "A0000001", "1 2 | 2 1", W(3), "0: 1 1 0" },   /* node 1 ends at its 0-exit */
    { CARD_S, "A0000001", "3 4 | 4 3", W(3), "0: 1 1 0" },   /* node 2 does */
    { CARD_S, "A0000001", "5 6 | 6 5", W(3), "0: 0 0 0" },   /* the input is 0, and so is its copy; node 1 ends there */
    { CARD_S, "A0000001", "7 8 | 8 7", W(3), "0: 1 0 0" },   /* the copy is 0 */
    { CARD_S, "A0000001", "9 10 | 10 9", W(3), "0: 1 1 0" }, /* graph 2 itself */
    /* Values that neither fault has by itself. The copy is held at 0, but node 1 goes on, and the input is 1. The input is held at
     * 0, but its copy at 1; with node 2 at its 1-exit as well, graph 2 is 1. The input is held at 1, but node 0 keeps its copy at 0. */
    { CARD_S, "A0000001", "8 3 | 3 8", W(3), "0: 1 0 1" },
    { CARD_S, "A0000001", "6 9 | 9 6", W(3), "0: 0 1 0" },
    { CARD_S, "A0000001", "5 6 9 | 5 9 6 | 6 5 9 | 6 9 5 | 9 5 6 | 9 6 5", W(3), "0: 0 1 1" },
    { CARD_S, "A0000000", "7 0 | 0 7", W(3), "0: 1 0 0" },
    { CARD_S, "A0000000", "1 5 | 5 1", W(3), "0: 0 1 1" }, /* both nodes that read the input */
    { CARD_S, "A0000000", "3 5 | 5 3", W(3), "0: 0 0 1" }, /* both nodes of graph 2 */
    { CARD_S, "A0000000", "7 0 11 | 7 11 0 | 0 7 11 | 0 11 7 | 11 0 7 | 11 7 0", W(3), "0: 1 0 1" },
    /* all six places of S: the held graphs are what they are held at; without them the nodes are seen */
    { CARD_S, "A0000000", "1 3 5 6 8 11 | 11 8 6 5 3 1 | 0 2 4 6 8 11", W(3), "0: 0 0 1" },
    { CARD_S, "A0000001", "0 2 4 7 9 11 | 1 3 5 7 9 11 | 11 9 7 4 2 0", W(3), "0: 1 1 1" },
    { CARD_S, "A0000000", "1 3 5", W(3), "0: 0 1 1" },
    /* a node's fault in a held graph: the graph shows what it is held at, for its readers and for itself, either way */
    { CARD_S, "A0000001", "0 9 | 9 0 | 1 9 | 9 1", W(3), "0: 1 1 1" },
    { CARD_S, "A0000001", "0 8 | 8 0 | 1 8 | 8 1", W(3), "0: 1 0 0" },
    { CARD_S, "A0000000", "0 9 | 9 0 | 1 9 | 9 1", W(3), "0: 0 1 0" },
    { CARD_S, "A0000000", "0 8 | 8 0 | 1 8 | 8 1", W(3), "0: 0 0 0" },
    { CARD_S, "A0000001", "2 11 | 11 2 | 3 11 | 4 11 | 2 4 11 | 11 4 2 | 2 11 4 | 3 5 11", W(3), "0: 1 1 1" },
    { CARD_S, "A0000001", "2 10 | 10 2 | 3 10 | 4 10 | 3 5 10 | 10 3 5 | 3 10 5 | 2 4 10", W(3), "0: 1 1 0" },
    { CARD_S, "A0000000", "3 5 10 | 10 5 3 | 2 10 | 4 10", W(3), "0: 0 0 0" },
    { CARD_II, "A0000000", "0 7 | 7 0 | 1 7", W(3), "0: 0 1 0" }, /* graph 1 is held at its good value, and graph 2 is not that */
    { CARD_II, "A0000000", "1 6 | 6 1 | 0 6", W(3), "0: 0 0 1" },
    /* inverted reads: a stuck node takes the exit of its number, and a held graph is read inverted */
    { CARD_II, "A0000000", "5 7 | 7 5", W(3), "0: 1 1 0" },
    { CARD_II, "A0000000", "5 6 | 6 5", W(3), "0: 1 0 1" },
    { CARD_II, "A0000000", "5 3 | 3 5", W(3), "0: 1 0 1" },
    { CARD_II, "A0000000", "0 2 | 2 0", W(3), "0: 0 0 0" },
    { CARD_I, "A0000006", "3 4 | 4 3", W(4), "0: 0 1 1 0" }, /* node 1 goes on, and node 2 ends at 0 */
    { CARD_I, "A0000006", "3 10 | 10 3", W(4), "0: 0 1 0 0" },
    /* Akers's f, A or (not B and C): faults 0 to 5 of the nodes for A, B and C, 6 to 11 of these, 12 and 13 of f */
    { CARD_F, "A0000006", "2 5 | 5 2", W(4), "0: 0 1 1 1" },
    { CARD_F, "A0000006", "2 10 | 10 2", W(4), "0: 0 1 0 0" },
    { CARD_F, "A0000006", "8 10 | 10 8", W(4), "0: 0 0 0 0" },
    { CARD_F, "A0000006", "7 12 | 12 7", W(4), "0: 1 1 1 0" },
    { CARD_F, "A0000001", "0 2 11 | 11 2 0 | 2 11 0", W(4), "0: 1 0 1 1" }, /* past A and B to C */
    { CARD_F, "A0000007", "0 2 4 6 8 10 12 | 12 10 8 6 4 2 0", W(4), "0: 0 0 0 0" },
    { CARD_F, "A0000000", "1 3 5 7 9 11 13 | 0 3 4 7 9 11 13", W(4), "0: 1 1 1 1" },
    { CARD_F, "A0000000", "0 2 5 6 8 10", W(4), "0: 0 0 0 1" },
    /* Two faults that mask each other, in A not equal to B: each alters graph 2, and both together leave it. A and B are both held
     * at 1 (7, 9), or node 0 goes on as if A were 1, and B is held at 1 (1, 9). Under A = 1, A is held at 0 and B at 1 (6, 9), or node 0
     * goes on as if A were 0, and B is held at 1 (0, 9). */
    { CARD_X, "A0000000", "7", W(3), "0: 1 0 1" },
    { CARD_X, "A0000000", "9", W(3), "0: 0 1 1" },
    { CARD_X, "A0000000", "7 9 | 9 7", W(3), "0: 1 1 0" },
    { CARD_X, "A0000000", "1", W(3), "0: 0 0 1" },
    { CARD_X, "A0000000", "1 9 | 9 1", W(3), "0: 0 1 0" },
    { CARD_X, "A0000001", "6", W(3), "0: 0 0 0" },
    { CARD_X, "A0000001", "9", W(3), "0: 1 1 0" },
    { CARD_X, "A0000001", "6 9 | 9 6", W(3), "0: 0 1 1" },
    { CARD_X, "A0000001", "0", W(3), "0: 1 0 0" },
    { CARD_X, "A0000001", "0 9 | 9 0", W(3), "0: 1 1 1" },
    { CARD_X, "A0000000", "7 9 11 | 11 9 7 | 9 11 7", W(3), "0: 1 1 1" }, /* but for a held graph 2 */
    /* Eight numbers on S on S's observable graph: faults 0 to 11 of six nodes, 12 to 21 of five graphs. All nodes at their 1-exits
     * make all graphs 1 that are not held. The eighth number is in as well, and so is the first. */
    { S_ON_2, "A0000000", "1 3 5 7 9 11 13 15 | 15 13 11 9 7 5 3 1 | 9 1 13 5 15 7 3 11", W(5), "0: 1*5" },
    { S_ON_2, "A0000000", "1 3 5 7 9 11 12 15 | 0 3 5 7 9 11 12 15", W(5), "0: 0 1 1 1 1" },
    { S_ON_2, "A0000000", "1 3 5 7 9 10 13 15 | 10 1 3 5 7 9 13 15 | 1 3 5 7 9 13 15 10", W(5), "0: 1 1 1 1 0" },
    { S_ON_2, "A0000000", "1 3 5 7 9 11 13 20 | 20 1 3 5 7 9 11 13 | 1 3 5 7 20 9 11 13", W(5), "0: 1 1 1 1 0" },
    { S_ON_2, "A0000000", "3 5 7 9 11 12 14 16 | 16 14 12 11 9 7 5 3", W(5), "0: 0 0 0 1 1" },
    /* 17: nine numbers or more, all of other places; or not */
    { S_ON_2, "A0000000", "1 3 5 7 9 11 13 15 17 | 17 15 13 11 9 7 5 3 1", W(5), "refused 17 0" },
    { S_ON_2, "A0000000", "1 3 5 7 9 11 13 15 17 19 | 1 3 5 7 9 11 13 15 17 19 21", W(5), "refused 17 0" },
    { S_ON_2, "A0000000", "1 3 5 7 9 11 13 15 1 | 1 3 5 7 9 11 13 15 0 | 1 3 5 7 9 11 13 15 15 | 1*9 | 1*65536 | 0 1*100000", W(5),
      "refused 17 0" },
    /* 17: a number repeated, next to itself or not; in the last place of eight */
    { CARD_S, "A0000001", "0 0 | 1 1 | 5 5 | 6 6 | 10 10 | 11 11 | 11 11 11", W(3), "refused 17 0" },
    { CARD_S, "A0000001", "0 2 0 | 2 0 0 | 6 2 8 2 | 2 6 8 10 4 2 | 11 0 11", W(3), "refused 17 0" },
    { S_ON_2, "A0000000", "1 3 5 7 9 11 13 1 | 1 3 5 7 9 11 13 13 | 1 3 5 7 9 11 5 13 | 1 1 3 5 7 9 11 13", W(5), "refused 17 0" },
    /* 17: both faults of one node, and of one graph */
    { CARD_S, "A0000001", "0 1 | 1 0 | 2 3 | 3 2 | 4 5 | 5 4 | 4 6 5 | 5 8 11 4 | 0 2 6 8 10 3", W(3), "refused 17 0" },
    { CARD_S, "A0000001", "6 7 | 7 6 | 8 9 | 9 8 | 10 11 | 11 10 | 8 0 9 | 11 2 4 0 10 | 7 0 2 4 8 6", W(3), "refused 17 0" },
    { S_ON_2, "A0000000", "1 3 5 7 9 11 13 0 | 1 3 5 7 9 11 13 12 | 20 3 5 7 9 11 13 21 | 1 3 5 4 9 11 13 21", W(5),
      "refused 17 0" },
    /* 17: leftover bytes after no number, one, and eight; and where more is wrong */
    { CARD_S, "A0000001", "+1 | +2 | +3 | 0 +1 | 0 +2 | 0 +3 | 11 +1 | 0 2 +2", W(3), "refused 17 0" },
    { S_ON_2, "A0000000", "1 3 5 7 9 11 13 15 +1 | 1 3 5 7 9 11 13 15 +2 | 1 3 5 7 9 11 13 15 +3", W(5), "refused 17 0" },
    { S_ON_2, "A0000000", "1 3 5 7 9 11 13 15 17 +1 | 1 1 +2 | 20 21 +3 | 1*9 +3", W(5), "refused 17 0" },
    /* 11 before 17: a number too high anywhere in a list that is wrong in another way too, be it the ninth or a later one */
    { S_ON_2, "A0000000", "1 3 5 7 9 11 13 15 22 | 22 1 3 5 7 9 11 13 15 | 1 3 5 22 7 9 11 13 15 | 1 3 5 7 9 11 13 22 15", W(5),
      "refused 11 0" },
    { S_ON_2, "A0000000", "1 3 5 7 9 11 13 15 17 22 | 1 3 5 7 9 11 13 15 22 17 | 1 3 5 7 9 11 13 15 FFFFFFFF | 22*9", W(5),
      "refused 11 0" },
    { S_ON_2, "A0000000", "1*9 22 | 1*65535 22 | 22 1*100000 | 0 1*99999 80000001 | 1*50000 22 1*50000", W(5), "refused 11 0" },
    { CARD_S, "A0000001", "12 12 | 0 0 12 | 12 0 0 | 0 12 0 | 0 1 12 | 12 6 7 | 6 12 7 | 12 13 | 13 12", W(3), "refused 11 0" },
    { CARD_S, "A0000001", "12 +1 | 12 +2 | 12 +3 | 0 12 +1 | 12 0 +2 | 0 0 12 +3", W(3), "refused 11 0" },
    { S_ON_2, "A0000000", "1 3 5 7 9 11 13 15 22 +1 | 22 1 3 5 7 9 11 13 +3 | 1 3 5 7 9 11 13 22 +2 | 1*9 22 +1", W(5),
      "refused 11 0" },
    /* numbers too high in lists that are right in all else */
    { CARD_S, "A0000001", "0 12 | 12 0 | 0 2 4 6 8 12 | 12 2 4 6 8 10 | 0 FFFFFFFF | 80000000 0 | 0 00010002 | 0 01000002 | 0 00000102",
      W(3), "refused 11 0" },
    { S_ON_2, "A0000000", "1 3 5 7 9 11 13 22 | 22 3 5 7 9 11 13 15 | 1 3 5 7 22 11 13 15 | 1 3 5 7 9 11 13 80000001", W(5),
      "refused 11 0" },
    /* 17 before 12, and 11 before both */
    { CARD_S, "A0000001", "0 0 | 0 1 | 6 7 | 11 11 | +1 | 0 +2 | 0 2 4 6 8 10 0 2 4", W(2) + 3, "refused 17 0" },
    { CARD_S, "A0000001", "0 0 | 0 1 | 6 7 | 11 11 | +3 | 0 +2 | 0 2 4 6 8 10 0 2 4", 0, "refused 17 0" },
    { CARD_S, "A0000001", "12 12 | 0 1 12 | 12 +1 | 0 2 4 6 8 10 0 2 12", 0, "refused 11 0" },
    { S_ON_2, "A0000000", "1 3 5 7 9 11 13 15 17", W(4), "refused 17 0" },
    { S_ON_2, "A0000000", "1 3 5 7 9 11 13 15 | 1 3 | 1 | ", W(4) + 3, "refused 12 0" },
    /* 10 before 11 and 17, and the card's own before all */
    { CARD_S, "60000000 |  | A0000000 A0000001 | A0000001 +1", "12 | 0 0 | 0 1 | 0 +1 | 12 12 | 12 +3 | 0 2", W(3),
      "refused 10 0" },
    { CARD_17, "A0000000 A0000002", "38 | 0 0 | 36 37 | +1 | 0 2 4 6 8 10 12 14 16", W(17), "refused 10 1" },
    { CUT_S, "A0000001 | 60000000", "12 | 0 0 | 0 1 | 0 +1 | 12 12", W(3), "refused 9 4" },
    { CARD_S " +1", "A0000001", "12 | 0 0 | 0 1 | 0 +1 | ", W(3), "refused 4 9" },
    /* 17 inputs: the input that is seen, and one in the second word, are held; graph 17 copies input 15 by node 0 */
    { CARD_17, "A0000000 A0000000", "33 35 | 35 33", W(18), "0: 0*15 1 1 1" },
    { CARD_17, "A0000000 A0000000", "33 0 | 0 33", W(18), "0: 0*15 1 0 0" },
    { CARD_17, "A000FFFF A0000001", "2 4 6 8 10 12 14 16 | 16 14 12 10 8 6 4 2", W(18), "0: 0*8 1*10" },
    /* Eight on the largest cards. 1,024 graphs in a chain, of 4 nodes each and the last one of 8: every hundredth graph is held, at 1
     * and 0 by turns; then graph 1 is 1 by all its nodes, 301 is 0 by its first one, 700 is held at 1, 901 is 0 by its first node, and
     * the last one is held at 1. */
    { "0 link4*1022 link8", "A0000000", "8393 8592 8793 8992 9193 9392 9593 9792 | 9792 8393 9593 8592 9392 8793 9193 8992",
      W(1024), "0: 0*100 1*100 0*100 1*100 0*100 1*100 0*100 1*100 0*224" },
    { "0 link4*1022 link8", "A0000000", "1 3 5 7 2400 9593 7200 10239 | 10239 7 9593 5 7200 3 2400 1", W(1030),
      "0: 0 1*300 0*399 1*201 0*122 1" },
    { "0 link4*1022 link8", "A0000000", "1 3 5 7 2400 9593 7200 10239 10237 | 1 3 5 7 2400 9593 7200 10239 10238", W(1030),
      "refused 17 0" },
    { "0 link4*1022 link8", "A0000000", "1 3 5 7 2400 9593 7200 10240 | 1 3 5 7 2400 9593 7200 10239 10240", W(1030),
      "refused 11 0" },
    /* The last graph by all its eight nodes; by seven of them with the first or the last one at its 0-exit; held at 0. */
    { "0*512 obs8*512", "A0000000*32", "8177 8179 8181 8183 8185 8187 8189 8191 | 8191 8189 8187 8185 8183 8181 8179 8177",
      W(1024), "0: 0*1023 1" },
    { "0*512 obs8*512", "A0000000*32", "8176 8179 8181 8183 8185 8187 8189 8191 | 8177 8179 8181 8183 8185 8187 8189 8190",
      W(1024), "0: 0*1024" },
    { "0*512 obs8*512", "A0000000*32", "8177 8179 8181 8183 8185 8187 8189 8191 10239", W(1024), "refused 17 0" },
    { "0*512 obs8*512", "A0000000*32", "8177 8179 8181 8183 8185 8187 8189 10238 | 10238 8179 8181 8183 8185 8187 8189 8191",
      W(1024), "0: 0*1024" },
    /* 4,096 nodes of one graph: any one at its 0-exit ends it, unless it is held; or the input is held, and all go on. */
    { "0 link4096", "A0000001", "0 1000 2000 3000 4000 5000 8190 8195 | 8195 8190 5000 4000 3000 2000 1000 0", W(2), "0: 1 1" },
    { "0 link4096", "A0000001", "1 1001 2001 3001 4001 5001 6001 8190 | 8190 1 1001 2001 3001 4001 5001 6001", W(2), "0: 1 0" },
    { "0 link4096", "A0000000", "1 1001 2001 3001 4001 5001 8191 8193 | 8193 8191 5001 4001 3001 2001 1001 1", W(2), "0: 1 1" },
    { "0 link4096", "A0000000", "1 1001 2001 3001 4001 5001 8191 8192", W(2), "0: 0 0" },
};

/* ---- gradings: card, vectors (once, or several with | between), the bytes of marks and of tallies, answer ---- */

/* S's marks under A0000001, and under A0000000 with A0000001 after it. */
#define S_MARKS_1 "E0000000 C0000000 E0000000 C0000000 E0000000 C0000000 E0000000 C0000000 E0000000 C0000000 E0000000 C0000000"
#define S_MARKS_01 "E0000001 C0000000 E0000001 C0000000 E0000001 C0000000 E0000001 E0000000 E0000001 C0000000 E0000001 E0000000"

static const struct grade_case {
    const char *card, *vectors;
    size_t marks_room, tallies_room;
    const char *want;
} grade_cases[] = {
    /* document 01: S under both vectors */
    { CARD_S, "", W(12), W(12), "0: C0000000*12 | 0*12" },
    { CARD_S, "A0000000", W(12), W(12), "2: C0000000*7 E0000000 C0000000*3 E0000000 | 0*7 1 0*3 1" },
    { CARD_S, "A0000001", W(12), W(12), "5: " S_MARKS_1 " | 1 0 1 0 1 0 1 0 1 0 1 0" },
    { CARD_S, "A0000000 A0000001", W(14), W(14), "7: " S_MARKS_01 " | 1 0 1 0 1 0 1 1 1 0 1 1" },
    /* a repeated vector counts each time; the first vector stays the first */
    { CARD_S, "A0000000 A0000001 A0000000", W(12), W(12), "7: " S_MARKS_01 " | 1 0 1 0 1 0 1 2 1 0 1 2" },
    { CARD_S, "A0000000 A0000001 A0000000 A0000000 A0000001", W(12), W(12), "7: " S_MARKS_01 " | 2 0 2 0 2 0 2 3 2 0 2 3" },
    { CARD_S, "A0000001 A0000001 A0000000", W(12), W(12),
      "7: E0000000 C0000000 E0000000 C0000000 E0000000 C0000000 E0000000 E0000002 E0000000 C0000000 E0000000 E0000002 | "
      "2 0 2 0 2 0 2 1 2 0 2 1" },
    /* document 01: Akers's f under A0000004 */
    { CARD_F, "A0000004", W(14), W(14),
      "3: C0000000*3 E0000000*2 C0000000*4 E0000000*2 C0000000 E0000000 C0000000 | 0 0 0 1 1 0 0 0 0 1 1 0 1 0" },
    /* inverted reads of leads: graphs 1 and, of the second card, 0 and 1 go with their readers' other exits */
    { CARD_I, "A0000004 A0000006", W(14), W(14),
      "6: C0000000 E0000001 E0000000 E0000001 E0000000 C0000000*2 E0000001*2 E0000000*2 C0000000 E0000000 E0000001 | "
      "0 1 1 1 1 0 0 1 1 1 1 0 1 1" },
    { CARD_II, "A0000000", W(10), W(10),
      "3: E0000000 C0000000*2 E0000000 C0000000 E0000000*2 C0000000*2 E0000000 | 1 0 0 1 0 1 1 0 0 1" },
    /* an observable graph that is read, a graph that nobody reads, a node with equal exits */
    { "0 40000001 60000000 80000001 20000001 60000001 80000001", "A0000000", W(10), W(10),
      "2: C0000000 E0000000 C0000000*3 E0000000 C0000000 E0000000 C0000000*2 | 0 1 0 0 0 1 0 1 0 0" },
    { "0 40000002 60000000 8000C003 60000000 80000001", "A0000001", W(8), W(8),
      "3: C0000000*2 E0000000 C0000000 E0000000 C0000000 E0000000 C0000000 | 0 0 1 0 1 0 1 0" },
    /* marks too short: at 0, whatever the tallies' room is */
    { CARD_S, "A0000001", W(11), W(12), "refused 12 0" },
    { CARD_S, "A0000001", W(11), W(40), "refused 12 0" },
    { CARD_S, "A0000001", W(11), W(11), "refused 12 0" },
    { CARD_S, "A0000001", 0, W(12), "refused 12 0" },
    { CARD_S, "A0000001", 0, 0, "refused 12 0" },
    { CARD_S, "", W(11) + 3, W(12), "refused 12 0" },
    { CARD_S, "", W(11) + 3, W(11) + 3, "refused 12 0" },
    { "0*512 obs8*512", "A0000000*32", W(10239) + 3, W(10240), "refused 12 0" },
    /* the tallies alone too short: at 1 */
    { CARD_S, "A0000001", W(12), W(11), "refused 12 1" },
    { CARD_S, "A0000001", W(40), W(11), "refused 12 1" },
    { CARD_S, "A0000001", W(12), W(11) + 1, "refused 12 1" },
    { CARD_S, "A0000001", W(12) + 1, W(11) + 3, "refused 12 1" },
    { CARD_S, "", W(12), W(11) + 3, "refused 12 1" },
    { CARD_S, "", W(12), 0, "refused 12 1" },
    { CARD_S, "A0000001", W(12) + 3, 0, "refused 12 1" },
    { "0*512 obs8*512", "A0000000*32", W(10240), W(10239) + 3, "refused 12 1" },
    /* leftover bytes of a buffer are unused, and so are words beyond the faults */
    { CARD_S, "", W(12) + 3, W(12) + 1, "0: C0000000*12 | 0*12" },
    { CARD_S, "A0000000", W(12), W(12) + 3, "2: C0000000*7 E0000000 C0000000*3 E0000000 | 0*7 1 0*3 1" },
    { CARD_S, "A0000000", W(40), W(12), "2: C0000000*7 E0000000 C0000000*3 E0000000 | 0*7 1 0*3 1" },
    { CARD_S, "A0000001", W(12) + 1, W(12) + 2, "5: " S_MARKS_1 " | 1 0 1 0 1 0 1 0 1 0 1 0" },
    /* leftover bytes of a card: 4 at the word count, before 10 and 12 */
    { CARD_S " +3", "A0000001 +1", 0, 0, "refused 4 9" },
    { CARD_S " +3", "A0000001 +1", W(12), 0, "refused 4 9" },
    { CUT_S " +1", "A0000001", W(12), W(12), "refused 4 4" },
    /* leftover bytes of vectors: a wrong number of words, before any word's kind */
    { CARD_S, "A0000001 +1 | +2 | +3 | A0000000 60000000 +1", W(12), W(12), "refused 10 0" },
    { CARD_17, "A0000000 60000000 +1 | A0000000 +3", W(38), W(38), "refused 10 0" },
    /* a list: its number of words, then each word */
    { CARD_17, "A0000000 | A0000000 A0000000 A0000000 | A0000000 60000000 A0000000", W(38), W(38), "refused 10 0" },
    { CARD_17, "A0000000 A0000000 A0000000 A0000002 | A0000000*3 60000000 | A0000000*3 A0010000", W(38), W(38), "refused 10 3" },
    { CARD_17, "A0000000*2 60000000 A0000002 | A0000000*2 A0010000 60000000", W(38), W(38), "refused 10 2" },
    { CARD_17, "A0000000*2 A0000001 A0000001", W(38), W(38),
      "2: C0000000 E0000000 C0000000*31 E0000000 C0000000*3 E0000000 | 0 2 0*31 2 0 0 0 2" },
    { CARD_S, "A0000000 60000000 | A0000001 A0000002", W(12), W(12), "refused 10 1" },
    /* orders: 9, 10, 12 of the marks, 12 of the tallies */
    { CUT_S, "60000000", 0, 0, "refused 9 4" },
    { CUT_S, "60000000", W(12), 0, "refused 9 4" },
    { CARD_S, "60000000", W(11), W(12), "refused 10 0" },
    { CARD_S, "60000000", W(12), W(11), "refused 10 0" },
    { CARD_S, "60000000 | A0000001*65536", 0, 0, "refused 10 0" },
    { CARD_S, "A0000000 60000000", W(11), W(12), "refused 10 1" },
    { CARD_S, "A0000000 A0000000 60000000", W(12), W(11), "refused 10 2" },
    /* 65,535 vectors, and one more */
    { CARD_S, "A0000001*65535", W(12), W(12),
      "5: " S_MARKS_1 " | 65535 0 65535 0 65535 0 65535 0 65535 0 65535 0" },
    { CARD_S, "A0000000*65534 A0000001", W(12), W(12),
      "7: E000FFFE C0000000 E000FFFE C0000000 E000FFFE C0000000 E000FFFE E0000000 E000FFFE C0000000 E000FFFE E0000000 | "
      "1 0 1 0 1 0 1 65534 1 0 1 65534" },
    { CARD_S, "A0000001*65536 | 60000000*65536 | A0000001 60000000*65535 | A0000001*65536 +1", W(12), W(12), "refused 10 0" },
    { CARD_S, "A0000001*65534 60000000", W(12), W(12), "refused 10 65534" },
    { CARD_17, "A0000000*131070", W(38), W(38),
      "2: C0000000 E0000000 C0000000*31 E0000000 C0000000*3 E0000000 | 0 65535 0*31 65535 0 0 0 65535" },
    { CARD_17, "A0000000*131072 | A0000000*131071 | A0000000 60000000 A0000000*131070", W(38), W(38), "refused 10 0" },
    /* S on S's observable graph: with input 1 all is 1 and every stuck 0 is seen; with 0 graphs 0, 2 and 4 held at 1 are. Graphs 1
     * and 3 are leads. */
    { S_ON_2, "A0000001", W(22), W(22),
      "9: " S_MARKS_1 " E0000000 C0000000 E0000000 C0000000 E0000000 C0000000 E0000000 C0000000 E0000000 C0000000 | "
      "1 0 1 0 1 0 1 0 1 0 1 0 1 0 1 0 1 0 1 0 1 0" },
    { S_ON_2, "A0000000", W(22), W(22),
      "3: C0000000*13 E0000000 C0000000*3 E0000000 C0000000*3 E0000000 | 0*12 0 1 0 0 0 1 0 0 0 1" },
    /* S beside S: what each vector catches on its own S */
    { S_FREE, "A0000001", W(24), W(24),
      "7: E0000000 C0000000 E0000000 C0000000 E0000000 C0000000*7 E0000000 C0000000*2 E0000000 E0000000 C0000000 E0000000 "
      "C0000000*4 E0000000 | 1 0 1 0 1 0 0*6 1 0 0 1 1 0 1 0 0 0 0 1" },
    /* A graph that two nodes of one graph read counts: nodes are counted, and not graphs. Held at 1 it is seen under A0000000 (9),
     * but neither node stuck at its 1-exit is (3, 5), so its faults are those of no one node. The input, with one reader, is left out. */
    { "0 20000001 60000000 80000001 40000002 60000001 80000003 60000001 80000001", "A0000000 A0000001", W(12), W(12),
      "8: E0000001 E0000000 E0000001 C0000000 E0000001 C0000000 E0000001 E0000000 E0000001 E0000000 E0000001 E0000000 | "
      "1 1 1 0 1 0 1*6" },
    /* A graph that nobody reads counts, though no fault of it is caught. Its node is a reader of the input, if one of which
     * nothing is seen, so the input has two and counts. */
    { "0 20000001 60000000 80000001 40000001 60000000 80000001", "A0000000 A0000001", W(10), W(10),
      "6: C0000000*2 E0000001 E0000000 E0000001 E0000000 C0000000*2 E0000001 E0000000 | 0 0 1 1 1 1 0 0 1 1" },
    /* An observable graph with one reader counts: A seen, and A and B. Under A = 1, B = 0 graph 2 held at 0 (10) is seen at once, and its
     * reader stuck at its 0-exit (2) is not. The inputs A and B are left out, with 6 and 9 marked. */
    { "0 0 40000001 60000000 80000001 40000002 60000002 80000003 60000001 80000001", "A0000001", W(14), W(14),
      "4: E0000000 C0000000*4 E0000000*2 C0000000*2 E0000000*2 C0000000*2 E0000000 | 1 0 0 0 0 1 1 0 0 1 1 0 0 1" },
    /* An input with one reader does not count, as no input is observable: four of six, all being caught. */
    { "0 40000001 60000000 80000001", "A0000000 A0000001", W(6), W(6),
      "4: E0000001 E0000000 E0000001 E0000000 E0000001 E0000000 | 1*6" },
    /* One reader is one, though both its exits are 1 and it is never seen: graph 1 held at 0 is all that is caught, and counts. */
    { "0 40000001 60000000 80004001", "A0000000 A0000001", W(6), W(6), "1: C0000000*4 E0000000 C0000000 | 0 0 0 0 2 0" },
    /* A chain of leads, each left out: A, a copy of it, its opposite and a copy of that, seen in a fourth graph. All 18 faults are
     * caught, and those of the four nodes and of the observable graph count. Under A0000000 half of both are. */
    { "0 20000001 60000000 80000001 20000001 60000001 80004000 20000001 60000002 80000001 40000001 60000003 80000001",
      "A0000000 A0000001", W(18), W(18),
      "10: E0000001 E0000000 E0000001 E0000000*2 E0000001 E0000000 E0000001*2 E0000000 E0000001 E0000000*2 E0000001 E0000000 E0000001 "
      "E0000000 E0000001 | 1*18" },
    { "0 20000001 60000000 80000001 20000001 60000001 80004000 20000001 60000002 80000001 40000001 60000003 80000001",
      "A0000000", W(18), W(18),
      "5: C0000000 E0000000 C0000000 E0000000*2 C0000000 E0000000 C0000000*2 E0000000 C0000000 E0000000*2 C0000000 E0000000 C0000000 "
      "E0000000 C0000000 | 0 1 0 1 1 0 1 0 0 1 0 1 1 0 1 0 1 0" },
    /* Every graph but the observable ones is left out: A, B and C, and the hidden A and B, which graph 4 shows; graph 5 is not C. With
     * all three 1, ten faults are caught, and four of them are of leads (8, 10, 12, 14). */
    { "0 0 0 20000002 60000000 80000003 60000001 80000001 40000001 60000003 80000001 40000001 60000002 80004000", "A0000007", W(20), W(20),
      "6: E0000000 C0000000 E0000000 C0000000 E0000000 C0000000 E0000000 C0000000 E0000000 C0000000 E0000000 C0000000 E0000000 C0000000 "
      "E0000000 C0000000 E0000000 C0000000*2 E0000000 | 1 0 1 0 1 0 1 0 1 0 1 0 1 0 1 0 1 0 0 1" },
};

/* ---- two cards wired together: name, card A, card B, its wires (once, or several with | between), the
 * buffer's bytes, answer ---- */

#define ONE_READ "00000000 00000000 40000001 60000000 80000001" /* two inputs, of which the first is read */
#define BAD_B "00000000 40000001 60000000 80000002"             /* refusal 7 at its word 3 */
#define FULL "0*1023 40000001 60000000 80000001"                /* 1,024 graphs, so that every joined card is over the limit */

static const struct join_case {
    const char *name, *a, *b, *wires;
    size_t room;
    const char *want;
} join_cases[] = {
    { "S on S, on its input", CARD_S, CARD_S, "0", W(17), "17: " S_ON_0 },
    { "S on S, on its hidden graph", CARD_S, CARD_S, "1", W(17), "17: " S_ON_1 },
    { "S on S, on its observable graph", CARD_S, CARD_S, "2", W(17), "17: " S_ON_2 },
    { "S beside S, free", CARD_S, CARD_S, FREE, W(18), "18: " S_FREE },
    { "an inverted read of B's wired input", CARD_S, "0 40000001 60010000 80000001", "1", W(12),
      "12: 0 " S_OUTPUTS "40000001 60010001 80000001" },
    { "an inverted read of B's free input", CARD_S, "0 40000001 60010000 80000001", FREE, W(13),
      "13: 0 0 20000001 60000000 80000001 40000002 60000002 80000003 60000000 80000001 40000001 60010001 80000001" },
    { "an inverted read in A, and S on it", "0 40000001 60010000 80000001", CARD_S, "1", W(12),
      "12: 0 40000001 60010000 80000001 20000001 60000001 80000001 40000002 60000002 80000003 60000001 80000001" },
    { "inverted reads in both, one of a graph", CARD_II, CARD_II, "2", W(13),
      "13: 0 20000001 60010000 80000001 40000001 60010001 80000001 20000001 60010002 80000001 40000001 60010003 80000001" },
    { "f on S, all free", CARD_S, CARD_F, FREE "*3", W(19),
      "19: 0*4 20000001 60000000 80000001 40000002 60000004 80000003 60000000 80000001 "
      "40000003 60000001 8000C001 60000002 80010000 60000003 80000001" },
    { "f on S, all wired", CARD_S, CARD_F, "0 1 2", W(16),
      "16: 0 " S_OUTPUTS "40000003 60000000 8000C001 60000001 80010000 60000002 80000001" },
    { "f on S, all wired, crosswise", CARD_S, CARD_F, "2 0 1", W(16),
      "16: 0 " S_OUTPUTS "40000003 60000002 8000C001 60000000 80010000 60000001 80000001" },
    { "f on S, three inputs on one graph", CARD_S, CARD_F, "1 1 1", W(16),
      "16: 0 " S_OUTPUTS "40000003 60000001 8000C001 60000001 80010000 60000001 80000001" },
    { "f on S, two inputs on one graph, one free", CARD_S, CARD_F, "2 2 " FREE, W(17),
      "17: 0 0 20000001 60000000 80000001 40000002 60000002 80000003 60000000 80000001 "
      "40000003 60000003 8000C001 60000003 80010000 60000001 80000001" },
    { "f on S, free, wired, free", CARD_S, CARD_F, FREE " 1 " FREE, W(18),
      "18: 0 0 0 20000001 60000000 80000001 40000002 60000003 80000003 60000000 80000001 "
      "40000003 60000001 8000C001 60000003 80010000 60000002 80000001" },
    { "f on S, wired, free, wired", CARD_S, CARD_F, "0 " FREE " 2", W(17),
      "17: 0 0 20000001 60000000 80000001 40000002 60000002 80000003 60000000 80000001 "
      "40000003 60000000 8000C001 60000001 80010000 60000003 80000001" },
    { "S on f, on its observable graph", CARD_F, CARD_S, "3", W(18),
      "18: " CARD_F " 20000001 60000003 80000001 40000002 60000004 80000003 60000003 80000001" },
    { "S on f, on its last input", CARD_F, CARD_S, "2", W(18),
      "18: " CARD_F " 20000001 60000002 80000001 40000002 60000004 80000003 60000002 80000001" },
    { "a free input that nobody reads stays", CARD_S, ONE_READ, "1 " FREE, W(13),
      "13: 0 0 20000001 60000000 80000001 40000002 60000002 80000003 60000000 80000001 40000001 60000002 80000001" },
    { "a wired input that nobody reads goes", CARD_S, ONE_READ, FREE " 1", W(13),
      "13: 0 0 20000001 60000000 80000001 40000002 60000002 80000003 60000000 80000001 40000001 60000001 80000001" },
    { "17 inputs on three graphs", CARD_S, CARD_17, "0*15 1 2", W(12), "12: 0 " S_OUTPUTS "40000001 60000001 80000001" },
    /* the limits */
    { "1,024 graphs, most of them inputs of A", "0*1022 obs1", "0 obs1", "0", W(1028), "1028: 0*1022 obs1*2" },
    { "1,025 graphs, most of them inputs of A", "0*1022 obs1", "0 obs1", FREE, W(1029), "refused 14 0" },
    { "1,024 graphs, most of them outputs of A", "0 obs1*1022", "0 obs1", "0", W(3070), "3070: 0 obs1*1023" },
    { "1,025 graphs, most of them outputs of A", "0 obs1*1022", "0 obs1*2", "0", W(3073), "refused 14 0" },
    { "1,024 graphs, most of them outputs of B", "0 obs1", "0 obs1*1022", "0", W(3070), "3070: 0 obs1*1023" },
    { "1,025 graphs, most of them outputs of B", "0 obs1", "0 obs1*1023", "0", W(3073), "refused 14 0" },
    { "1,024 graphs, most of them free inputs of B", CARD_S, ALL_INPUTS, "0 1 2 " FREE "*1020", W(1032),
      "1032: 0*1021 20000001 60000000 80000001 40000002 600003FD 80000003 60000000 80000001 40000001 600003FC 80000001" },
    { "1,025 graphs, most of them free inputs of B", CARD_S, ALL_INPUTS, "0 1 " FREE "*1021", W(1033), "refused 14 0" },
    { "1,023 wired inputs of B", CARD_S, ALL_INPUTS, "0*1022 2", W(12), "12: 0 " S_OUTPUTS "40000001 60000002 80000001" },
    { "1,024 graphs of A alone", FULL, CARD_S, "0", W(1040), "refused 14 0" },
    { "4,096 nodes, most of them of A", "0 obs4095", "0 obs1", "0", W(8195), "8195: 0 obs4095 obs1" },
    { "4,096 nodes, the last on a free input", "0 obs4095", "0 obs1", FREE, W(8196), "8196: 0 0 obs4095 40000001 60000001 80000001" },
    { "4,097 nodes, all but one of A", "0 obs4096", "0 obs1", "0", W(8197), "refused 14 0" },
    { "4,097 nodes, all but two of A", "0 obs4095", "0 obs2", "0", W(8197), "refused 14 0" },
    { "4,096 nodes, most of them of B", "0 obs1", "0 obs4095", "0", W(8195), "8195: 0 obs1 obs4095" },
    { "4,097 nodes, all but one of B", "0 obs1", "0 obs4096", "0", W(8197), "refused 14 0" },
    { "all three limits", "0*512 obs8*511", "0 obs8", "0", W(9216), "9216: 0*512 obs8*512" },
    { "all three limits, on A's last graph", "0*512 obs8*511", "0 obs8", "1022", W(9216), "9216: 0*512 obs8*511 link8" },
    { "1,025 graphs and 4,097 nodes", "0*512 obs8*512", "0 obs1", "0", W(10000), "refused 14 0" },
    /* refusals of A, at A's words */
    { "A, refusal 1", "0*9217", BAD_B, "", 0, "refused 1 0" },
    { "A, refusal 2", "0*1025", BAD_B, "", 0, "refused 2 1024" },
    { "A, refusal 3", "00000000 20000000", BAD_B, "", 0, "refused 3 1" },
    { "A, refusal 4", "00000000 60000000", BAD_B, "", 0, "refused 4 1" },
    { "A, refusal 4 at its end", "00000000 40000001 60000000", BAD_B, "", 0, "refused 4 3" },
    { "A, refusal 5", "00000001", BAD_B, "", 0, "refused 5 0" },
    { "A, refusal 6", "00000000 40000001 60000001 80000001", BAD_B, "", 0, "refused 6 2" },
    { "A, refusal 7", BAD_B, "00000001", "", 0, "refused 7 3" },
    { "A, refusal 8", "00000000 40000002 60000000 80000001 60000000 80000001", BAD_B, "", 0, "refused 8 1" },
    { "A, refusal 9", CUT_S, BAD_B, "", 0, "refused 9 4" },
    { "A empty, refusal 9", "", "", "", 0, "refused 9 0" },
    { "A and 1 byte", CARD_S " +1", CARD_S, "0", W(17), "refused 4 9" },
    { "A and 2 bytes, before B", CARD_S " +2", BAD_B, "", 0, "refused 4 9" },
    { "A and 3 bytes, before 9", CUT_S " +3", CARD_S, "0", W(17), "refused 4 4" },
    { "A, 8 before 1 byte", "00000000 40000002 60000000 80000001 60000000 80000001 +1", BAD_B, "", 0, "refused 8 1" },
    /* refusals of B, counted on after A's 9 words; before wires and buffer */
    { "B, refusal 1, at A's length", CARD_S, "0*9217", "", 0, "refused 1 9" },
    { "B, refusal 2", CARD_S, "0*1025", "", 0, "refused 2 1033" },
    { "B, refusal 3", CARD_S, "00000000 20000000", "", 0, "refused 3 10" },
    { "B, refusal 4", CARD_S, "00000000 60000000", "", 0, "refused 4 10" },
    { "B, refusal 4 at its end", CARD_S, "00000000 40000001 60000000", "", 0, "refused 4 12" },
    { "B, refusal 5 at its word 0", CARD_S, "00000001", "", 0, "refused 5 9" },
    { "B, refusal 6", CARD_S, "00000000 40000001 60000001 80000001", "", 0, "refused 6 11" },
    { "B, refusal 7", CARD_S, BAD_B, "3 | 0 0 | 0 +1", 0, "refused 7 12" },
    { "B, refusal 8", CARD_S, "00000000 40000002 60000000 80000001 60000000 80000001", "", 0, "refused 8 10" },
    { "B, refusal 9", CARD_S, CUT_S, "3", 0, "refused 9 13" },
    { "B empty, refusal 9", CARD_S, "", "", 0, "refused 9 9" },
    { "B, refusal 7, after A's 1,026 words", FULL, BAD_B, "", 0, "refused 7 1029" },
    { "B, 9,216 words of A before it", "0*512 obs8*512", "00000001", "", 0, "refused 5 9216" },
    { "B and 1 byte", CARD_S, CARD_S " +1", "0", W(17), "refused 4 18" },
    { "B and 2 bytes, before 9", CARD_S, CUT_S " +2", "0", W(17), "refused 4 13" },
    { "B, 3 bytes alone", CARD_S, "+3", "", W(17), "refused 4 9" },
    { "B and 3 bytes, before 13", CARD_S, CARD_S " +3", "3 | ", 0, "refused 4 18" },
    { "B, 9,216 words and 3 bytes", CARD_S, "0*512 obs8*512 +3", "", 0, "refused 4 9225" },
    { "B, 9,217 words and 1 byte", CARD_S, "0*9217 +1", "", 0, "refused 1 9" },
    /* the number of wire words, before any of them is looked at */
    { "13, another number", CARD_S, CARD_F, " | 0 | 0 1 | 0 1 2 0 | " FREE "*4", W(40), "refused 13 0" },
    { "13, the number before a word", CARD_S, CARD_F, "0 3 | 0 1 3 0 | 0 FFFFFFFE | 0 0 0 3", W(40), "refused 13 0" },
    { "13, leftover bytes", CARD_S, CARD_F, "0 1 2 +1 | 0 1 2 +2 | 0 1 2 +3 | 0 1 +1 | 0 1 +3 | +2", W(40), "refused 13 0" },
    { "13, leftover bytes before a word", CARD_S, CARD_F, "0 1 3 +1 | 0 3 0 +2 | 0 FFFFFFFE 0 +3", W(40), "refused 13 0" },
    { "13, a number of 1,023", CARD_S, ALL_INPUTS, "0*1022 | 0*1024 | 0*1023 +1", W(40), "refused 13 0" },
    /* a wire word that names no graph of A, counted among the wire words */
    { "13 at 0", CARD_S, CARD_S, "3 | 4 | 1024 | 65535 | 65536 | 7FFFFFFF | 80000000 | FFFF0000 | FFFFFFFE", W(40), "refused 13 0" },
    { "13 at 1", CARD_S, CARD_F, "0 3 0 | 2 3 3 | " FREE " FFFFFFFE " FREE " | 0 00010000 0", W(40), "refused 13 1" },
    { "13 at 2", CARD_S, CARD_F, "0 1 3 | " FREE " " FREE " 3 | 2 2 FFFFFFFE", W(40), "refused 13 2" },
    { "13, graph 3 is there in f", CARD_F, CARD_F, "3 3 4", W(40), "refused 13 2" },
    { "13 at 1022", CARD_S, ALL_INPUTS, FREE "*1022 3", W(40), "refused 13 1022" },
    /* orders: 13, 14, 12 */
    { "13's number before 14", FULL, CARD_F, "0 0 | 0 0 0 0 | 0 0 0 +1", W(2000), "refused 13 0" },
    { "13's word before 14", FULL, CARD_F, "0 0 1024", W(2000), "refused 13 2" },
    { "14, all wires right", FULL, CARD_F, "0 0 1023 | 0 " FREE " 1023", W(2000), "refused 14 0" },
    { "13's number before 12", CARD_S, CARD_F, "0 0 | 0 0 0 +3", 0, "refused 13 0" },
    { "13's word before 12", CARD_S, CARD_F, "0 0 3", 0, "refused 13 2" },
    { "13 before 14 and 12", FULL, CARD_F, "0 1024 0", 0, "refused 13 1" },
    { "14 before 12", FULL, CARD_F, "0 0 0", 0, "refused 14 0" },
    { "14 of nodes before 12", "0 obs4096", "0 obs1", "0", W(8194), "refused 14 0" },
    /* the buffer */
    { "12, a word short", CARD_S, CARD_S, "0 | 1 | 2", W(16), "refused 12 0" },
    { "12, a byte short", CARD_S, CARD_S, "0 | 1 | 2", W(16) + 3, "refused 12 0" },
    { "12, a word short for a free input", CARD_S, CARD_S, FREE, W(17) + 3, "refused 12 0" },
    { "12, no buffer", CARD_S, CARD_S, "0", 0, "refused 12 0" },
    { "12, 9,215 words", "0*512 obs8*511", "0 obs8", "0", W(9215) + 3, "refused 12 0" },
    { "1 byte of the buffer unused", CARD_S, CARD_S, "2", W(17) + 1, "17: " S_ON_2 },
    { "2 bytes of the buffer unused", CARD_S, CARD_S, "1", W(17) + 2, "17: " S_ON_1 },
    { "3 bytes of the buffer unused", CARD_S, CARD_S, FREE, W(18) + 3, "18: " S_FREE },
    { "a longer buffer", CARD_S, CARD_S, "0", W(10240), "17: " S_ON_0 },
};

/* ---- gate lists: name, gate list, the buffer's bytes, answer ---- */

#define GATE_C17 "0*5 28000002 60000000 60000002 28000002 60000002 60000003 28000002 60000001 60000006 28000002 60000006 60000004 " \
                 "48000002 60000005 60000007 48000002 60000007 60000008"
#define CARD_C17 "0*5 20000002 60000000 80004003 60000002 80004000 20000002 60000002 80004003 60000003 80004000 " \
                 "20000002 60000001 80004003 60000006 80004000 20000002 60000006 80004003 60000004 80004000 " \
                 "40000002 60000005 80004003 60000007 80004000 40000002 60000007 80004003 60000008 80004000"
#define ONE_AND "0 0 40000002 60000000 60000001" /* five words, whose card has seven */

static const struct gate_case {
    const char *name, *gates;
    size_t room;
    const char *want;
} gate_cases[] = {
    /* each function: AND goes on at 1 and OR at 0; NAND, NOR and NOT have the other constants */
    { "AND of one", "0 40000001 60000000", W(4), "4: 0 40000001 60000000 80000001" },
    { "OR of one", "0 44000001 60000000", W(4), "4: 0 40000001 60000000 80000001" },
    { "NAND of one", "0 48000001 60000000", W(4), "4: 0 40000001 60000000 80004000" },
    { "NOR of one", "0 4C000001 60000000", W(4), "4: 0 40000001 60000000 80004000" },
    { "NOT", "0 50000001 60000000", W(4), "4: 0 40000001 60000000 80004000" },
    { "BUF", "0 54000001 60000000", W(4), "4: 0 40000001 60000000 80000001" },
    { "AND of two", ONE_AND, W(7), "7: 0 0 40000002 60000000 80000003 60000001 80000001" },
    { "OR of two", "0 0 44000002 60000000 60000001", W(7), "7: 0 0 40000002 60000000 8000C001 60000001 80000001" },
    { "NAND of two", "0 0 48000002 60000000 60000001", W(7), "7: 0 0 40000002 60000000 80004003 60000001 80004000" },
    { "NOR of two", "0 0 4C000002 60000000 60000001", W(7), "7: 0 0 40000002 60000000 8000C000 60000001 80004000" },
    { "AND of three", "0 0 40000003 60000001 60000000 60000001", W(9),
      "9: 0 0 40000003 60000001 80000003 60000000 80000004 60000001 80000001" },
    { "OR of three", "0 0 44000003 60000001 60000000 60000001", W(9),
      "9: 0 0 40000003 60000001 8000C001 60000000 80010001 60000001 80000001" },
    { "NAND of three", "0 0 48000003 60000001 60000000 60000001", W(9),
      "9: 0 0 40000003 60000001 80004003 60000000 80004004 60000001 80004000" },
    { "NOR of three", "0 0 4C000003 60000001 60000000 60000001", W(9),
      "9: 0 0 40000003 60000001 8000C000 60000000 80010000 60000001 80004000" },
    { "one line twice", "0 48000002 60000000 60000000", W(6), "6: 0 40000002 60000000 80004003 60000000 80004000" },
    { "a hidden gate, read", "0 30000001 60000000 50000001 60000001", W(7), "7: 0 20000001 60000000 80004000 40000001 60000001 80004000" },
    { "a hidden gate that nobody reads, last", "0 50000001 60000000 30000001 60000001", W(7),
      "7: 0 40000001 60000000 80004000 20000001 60000001 80004000" },
    { "an input that nobody reads", "0 0 54000001 60000001", W(5), "5: 0 0 40000001 60000001 80000001" },
    { "c17", GATE_C17, W(35), "35: " CARD_C17 },
    { "AND of 4,096", "0 40001000 60000000*4096", W(8194), "8194: 0 obs4096" },
    { "several gates of one line", "0 40000001 60000000 54000001 60000000 50000001 60000000", W(10),
      "10: 0 obs1*2 40000001 60000000 80004000" },
    { "1,024 lines, most of them inputs", "0*1023 40000001 600003FE", W(1026), "1026: " ALL_INPUTS },
    /* each refusal */
    { "1, 9,217 words", "0*9217", W(9300), "refused 1 0" },
    { "2, a 1,025th line", "0*1023 40000001 60000000 40000001 60000000", W(9300), "refused 2 1025" },
    { "3, 4,097 leads", "0 40001001 60000000*4097", W(9300), "refused 3 1" },
    { "3, 4,096 leads after one", "0 40000001 60000000 40001000 60000000*4096", W(9300), "refused 3 3" },
    { "4, a lead for a header", "0 60000000", W(9), "refused 4 1" },
    { "4, an input after a gate", "0 40000001 60000000 0", W(9), "refused 4 3" },
    { "4, a header for a lead", "0 40000002 60000000 40000001 60000000", W(9), "refused 4 3" },
    { "4, exits for a lead", "0 40000001 80000001", W(9), "refused 4 2" },
    { "4, the end for the first lead", "0 40000001", W(9), "refused 4 2" },
    { "4, the end for the second lead", "0 40000002 60000000", W(9), "refused 4 3" },
    { "4, 1 byte more", ONE_AND " +1", W(9), "refused 4 5" },
    { "4, 2 bytes more", ONE_AND " +2", W(9), "refused 4 5" },
    { "4, 3 bytes more", ONE_AND " +3", W(9), "refused 4 5" },
    { "4, 3 bytes alone", "+3", W(9), "refused 4 0" },
    { "4, the end for a lead, and 2 bytes", "0 40000001 +2", W(9), "refused 4 2" },
    { "5, bit 0 of an input", "0 1", W(9), "refused 5 1" },
    { "5, bit 26 of an input", "0 04000000", W(9), "refused 5 1" },
    { "5, bit 16 of a gate", "0 40010001 60000000", W(9), "refused 5 1" },
    { "5, bit 25 of a gate", "0 22000001 60000000", W(9), "refused 5 1" },
    { "5, bit 16 of a lead, no inverted read here", "0 40000001 60010000", W(9), "refused 5 2" },
    { "5, bit 28 of a lead", "0 40000001 70000000", W(9), "refused 5 2" },
    { "9, inputs alone", "0 0", W(9), "refused 9 2" },
    { "9, hidden gates alone", "0 20000001 60000000", W(9), "refused 9 3" },
    { "9, no word", "", W(9), "refused 9 0" },
    { "12, a word short", ONE_AND, W(6), "refused 12 0" },
    { "12, a byte short", ONE_AND, W(7) - 1, "refused 12 0" },
    { "12, no buffer", ONE_AND, 0, "refused 12 0" },
    { "12, the gate list would fit", ONE_AND, W(5), "refused 12 0" },
    { "1 byte of the buffer unused", ONE_AND, W(7) + 1, "7: 0 0 40000002 60000000 80000003 60000001 80000001" },
    { "15, function 6", "0 58000001 60000000", W(9), "refused 15 1" },
    { "15, function 7, hidden", "0 3C000001 60000000", W(9), "refused 15 1" },
    { "15, no lead", "0 48000000", W(9), "refused 15 1" },
    { "15, NOT without a lead", "0 50000000", W(9), "refused 15 1" },
    { "15, NOT of two", "0 50000002 60000000 60000000", W(9), "refused 15 1" },
    { "15, BUF of two", "0 54000002 60000000 60000000", W(9), "refused 15 1" },
    { "16, its own line", "0 40000001 60000001", W(9), "refused 16 2" },
    { "16, a later line", "0 40000001 60000002 40000001 60000000", W(9), "refused 16 2" },
    { "16, at the second lead", "0 44000002 60000000 60000001", W(9), "refused 16 3" },
    { "16, line 65,535", "0 40000001 6000FFFF", W(9), "refused 16 2" },
    { "16, no line before", "40000001 60000000", W(9), "refused 16 1" },
    /* orders */
    { "1 before all", "60000000*9217 +1", 0, "refused 1 0" },
    { "2 before 4", "0*1024 60000000", 0, "refused 2 1024" },
    { "2 before 5", "0*1024 1", 0, "refused 2 1024" },
    { "2 before 3", "0*1024 40001001", 0, "refused 2 1024" },
    { "2 before 15", "0*1024 40000000", 0, "refused 2 1024" },
    { "4 before 5 at a header", "0 40000001 60000000 1", 0, "refused 4 3" },
    { "4 before 15 at a header", "0 80000000", 0, "refused 4 1" },
    { "5 before 3", "0 40011001 60000000", 0, "refused 5 1" },
    { "5 before 15", "0 58010000", 0, "refused 5 1" },
    { "3 before 15, function 6", "0 58001001 60000000", 0, "refused 3 1" },
    { "3 before 15, NOT of 4,097", "0 50001001 60000000", 0, "refused 3 1" },
    { "15 before 4 at its lead", "0 58000001 80000000", 0, "refused 15 1" },
    { "15 before 16", "0 58000001 60000001", 0, "refused 15 1" },
    { "4 before 5 at a lead", "0 40000001 80010000", 0, "refused 4 2" },
    { "4 before 16", "0 40000001 80000001", 0, "refused 4 2" },
    { "5 before 16", "0 40000001 60010001", 0, "refused 5 2" },
    { "16, then 15", "0 40000001 60000001 58000001", 0, "refused 16 2" },
    { "16 before bytes", "0 40000001 60000001 +1", 0, "refused 16 2" },
    { "bytes before 9", "0 20000001 60000000 +1", 0, "refused 4 3" },
    { "bytes before 12", ONE_AND " +3", 0, "refused 4 5" },
    { "9 before 12", "0 20000001 60000000", 0, "refused 9 3" },
};

/* ---- words out of text ---- */

enum { ROOM_WORDS = 64 * 65536 + 16 };

struct text_words {
    uint32_t *words;
    size_t count;
    unsigned odd;
    unsigned graphs; /* so far, for the reads of links */
};

static void push(struct text_words *t, uint32_t w)
{
    if (t->count < ROOM_WORDS)
        t->words[t->count++] = w;
}

static void push_nodes(struct text_words *t, unsigned n, uint32_t read, int goes_on)
{
    for (unsigned k = 0; k < n; k++) {
        push(t, 0x60000000u + read);
        push(t, k + 1 == n && !goes_on ? 0x80000001u : 0x80000003u + k);
    }
}

/* One token without its repetition. */
static void push_token(struct text_words *t, const char *token, size_t len)
{
    unsigned n = (unsigned)strtoul(token + strcspn(token, "0123456789"), NULL, 10);
    if (!strncmp(token, "chain", 5) || !strncmp(token, "part", 4)) {
        push_nodes(t, n, 0, token[0] == 'p');
    } else if (!strncmp(token, "obs", 3) || !strncmp(token, "link", 4)) {
        push(t, 0x40000000u + n);
        push_nodes(t, n, token[0] == 'l' ? t->graphs - 1 : 0, 0);
        t->graphs++;
    } else {
        push(t, (uint32_t)strtoul(token, NULL, len == 8 ? 16 : 10));
        t->graphs += t->words[t->count - 1] == 0;
    }
}

/* Takes text up to its end or a |; where it stopped. */
static const char *parse(const char *text, struct text_words *t)
{
    t->count = t->odd = t->graphs = 0;
    for (;;) {
        size_t len, times = 1;
        text += strspn(text, " ");
        if (!*text || *text == '|')
            return text;
        if (*text == '+') {
            t->odd = (unsigned)(text[1] - '0');
            text += 2;
            continue;
        }
        len = strcspn(text, " *|");
        if (text[len] == '*')
            times = strtoul(text + len + 1, NULL, 10);
        while (times-- > 0)
            push_token(t, text, len);
        text += strcspn(text, " |");
    }
}

/* The bytes of parsed words. Leftover bytes are no words, so their content is free. */
static uint8_t *bytes_of(const struct text_words *t, size_t *len)
{
    uint8_t *bytes = malloc(4 * t->count + t->odd + 1);
    if (!bytes)
        abort();
    for (size_t i = 0; i < 4 * t->count; i++)
        bytes[i] = (uint8_t)(t->words[i / 4] >> (24 - 8 * (i % 4)));
    memset(bytes + 4 * t->count, 0x80, t->odd);
    *len = 4 * t->count + t->odd;
    return bytes;
}

static struct text_words card_words, vector_words, fault_words, want_words;

/* ---- one call against its expected answer ---- */

static unsigned cases, differ;

enum { GUARD = 16, BUFFER = W(10400), CONTENT = 0x6B };
static struct lent {
    uint8_t now[BUFFER + 2 * GUARD], want[BUFFER + 2 * GUARD];
} buffer, tallies;

static uint64_t answer_of(const char *text)
{
    unsigned long long number, position;
    if (sscanf(text, "refused %llu %llu", &number, &position) == 2)
        return number * 4294967296u + position;
    return strtoull(text, NULL, 10);
}

/* A buffer is expected as it was, with a text's words at its front; where the text stopped. */
static const char *expect(struct lent *l, const char *text)
{
    size_t len;
    uint8_t *bytes;
    memset(l, CONTENT, sizeof *l);
    text = parse(text, &want_words);
    bytes = bytes_of(&want_words, &len);
    memcpy(l->want + GUARD, bytes, len);
    free(bytes);
    return text;
}

static void expect_buffers(const char *text)
{
    text = expect(&buffer, isdigit((unsigned char)text[0]) ? strchr(text, ':') + 1 : "");
    expect(&tallies, *text ? text + 1 : "");
}

static int is_right(const struct lent *l)
{
    return !memcmp(l->now, l->want, sizeof l->now);
}

static void tell_buffer(const char *name, const struct lent *l)
{
    size_t i = 0;
    if (is_right(l))
        return;
    while (l->now[i] == l->want[i])
        i++;
    printf(", %s byte %ld is %02X, should be %02X", name, (long)i - GUARD, l->now[i], l->want[i]);
}

static void tell(const char *name, const struct asked *a, const char *text, uint64_t got)
{
    differ++;
    printf("DIFFERENCE: %s%s%s, graph %u, %zu bytes of faults: expected %.100s, engine %llu %llu", name ? name : "",
           name ? ", " : "", call_names[a->call], (unsigned)a->number, a->faults_len, text, (unsigned long long)(got >> 32),
           (unsigned long long)(got & 0xFFFFFFFFu));
    tell_buffer("buffer", &buffer);
    tell_buffer("tallies", &tallies);
    printf("\n");
}

static uint8_t *copy_of(const uint8_t *bytes, size_t len)
{
    uint8_t *copy = malloc(len + 1);
    if (!copy)
        abort();
    if (len)
        memcpy(copy, bytes, len);
    return copy;
}

/* Whether a lent copy is as it was; it is given back. */
static int kept(uint8_t *copy, const uint8_t *was, size_t len)
{
    int same = !len || !memcmp(copy, was, len);
    free(copy);
    return same;
}

/* Lends copies, so that their bytes can be compared afterwards. */
static void one_call(const char *name, const struct asked *a, size_t room, size_t tallies_room, const char *text)
{
    uint8_t *card = copy_of(a->card, a->card_len), *second = copy_of(a->second, a->second_len);
    uint8_t *vectors = copy_of(a->vectors, a->vectors_len), *faults = copy_of(a->faults, a->faults_len);
    struct asked lent = *a;
    uint64_t got;
    int all_kept;
    lent.card = card;
    lent.second = second;
    lent.vectors = vectors;
    lent.faults = faults;
    expect_buffers(text);
    cases++;
    got = ask_engine(&lent, buffer.now + GUARD, room, tallies.now + GUARD, tallies_room);
    all_kept = kept(card, a->card, a->card_len) & kept(second, a->second, a->second_len)
               & kept(vectors, a->vectors, a->vectors_len) & kept(faults, a->faults, a->faults_len);
    if (got != answer_of(text) || !is_right(&buffer) || !is_right(&tallies) || !all_kept)
        tell(name, a, text, got);
}

/* One card with each list of vectors, or of wires, in a text. */
static void each_list(const char *name, struct asked *a, const char *card, const char *vectors, size_t room, size_t tallies_room,
                      const char *text)
{
    uint8_t *card_bytes, *vector_bytes;
    parse(card, &card_words);
    card_bytes = bytes_of(&card_words, &a->card_len);
    a->card = card_bytes;
    do {
        vectors = parse(vectors, &vector_words);
        vector_bytes = bytes_of(&vector_words, &a->vectors_len);
        a->vectors = vector_bytes;
        one_call(name, a, room, tallies_room, text);
        free(vector_bytes);
    } while (*vectors++ == '|');
    free(card_bytes);
}

/* ---- the tables ---- */

static void run_checks(void)
{
    for (size_t i = 0; i < sizeof check_cases / sizeof *check_cases; i++) {
        const struct check_case *c = check_cases + i;
        struct asked a = { .call = CHECK };
        char text[80];
        snprintf(text, sizeof text, "%s%s", isdigit((unsigned char)c->want[0]) ? "0: " : "", c->want);
        each_list(c->name, &a, c->card, "", W(5), 0, text);
    }
}

/* The values of one row: the first are the good ones, fault f has those after them. */
static void run_value_row(const struct value_case *c)
{
    const char *bits = c->want;
    for (unsigned k = 0; *bits; k++) {
        uint8_t fault[4] = { 0, 0, 0, (uint8_t)(k - 1) };
        struct asked a = { .call = k ? FAULT : GOOD, .faults = fault, .faults_len = k ? 4 : 0 };
        char text[80] = "0:";
        size_t n = strcspn(bits, " ");
        for (size_t g = 0; g < n; g++) {
            char word[4] = { ' ', bits[g], 0, 0 };
            strcat(text, word);
        }
        each_list("values", &a, c->card, c->vector, W(n + 1), 0, text);
        bits += n;
        bits += strspn(bits, " ");
    }
}

static void run_values(void)
{
    for (size_t i = 0; i < sizeof value_cases / sizeof *value_cases; i++)
        run_value_row(value_cases + i);
}

static void run_calls(void)
{
    for (size_t i = 0; i < sizeof call_cases / sizeof *call_cases; i++) {
        const struct call_case *c = call_cases + i;
        struct asked a = { .call = c->call, .number = c->number };
        char name[24];
        snprintf(name, sizeof name, "row %zu", i);
        each_list(name, &a, c->card, c->vectors, c->room, 0, c->want);
    }
}

static void run_fault_row(const struct fault_case *c, const char *name)
{
    const char *faults = c->faults;
    do {
        struct asked a = { .call = FAULT };
        uint8_t *bytes;
        faults = parse(faults, &fault_words);
        bytes = bytes_of(&fault_words, &a.faults_len);
        a.faults = bytes;
        each_list(name, &a, c->card, c->vectors, c->room, 0, c->want);
        free(bytes);
    } while (*faults++ == '|');
}

static void run_fault_lists(void)
{
    for (size_t i = 0; i < sizeof fault_cases / sizeof *fault_cases; i++) {
        char name[120];
        snprintf(name, sizeof name, "faults %.100s", fault_cases[i].faults);
        run_fault_row(fault_cases + i, name);
    }
}

static void run_gradings(void)
{
    for (size_t i = 0; i < sizeof grade_cases / sizeof *grade_cases; i++) {
        const struct grade_case *c = grade_cases + i;
        struct asked a = { .call = GRADE };
        char name[24];
        snprintf(name, sizeof name, "grading %zu", i);
        each_list(name, &a, c->card, c->vectors, c->marks_room, c->tallies_room, c->want);
    }
}

static void run_joins(void)
{
    for (size_t i = 0; i < sizeof join_cases / sizeof *join_cases; i++) {
        const struct join_case *c = join_cases + i;
        struct asked a = { .call = JOIN };
        uint8_t *second;
        parse(c->b, &card_words);
        second = bytes_of(&card_words, &a.second_len);
        a.second = second;
        each_list(c->name, &a, c->a, c->wires, c->room, 0, c->want);
        free(second);
    }
}

static void run_gates(void)
{
    for (size_t i = 0; i < sizeof gate_cases / sizeof *gate_cases; i++) {
        const struct gate_case *c = gate_cases + i;
        struct asked a = { .call = GATES };
        each_list(c->name, &a, c->gates, "", c->room, 0, c->want);
    }
}

/* The longest lists: vectors of 64 words for 1,023 inputs, all of them 1, 65,536 of them in 16 MiB. The
 * graph reads the last input, so of the 2,050 faults the node's 0-exit (0) and the two graphs held at 0
 * on its way (2,046 and 2,048) are caught; the input is a lead, so two of them count. A word that is wrong
 * at the very end is found. */
static void run_longest_lists(void)
{
    struct asked a = { .call = GRADE };
    size_t words = 64 * (size_t)65536;
    uint8_t *card, *list = malloc(4 * words);
    if (!list)
        abort();
    parse(ALL_INPUTS, &card_words);
    card = bytes_of(&card_words, &a.card_len);
    for (size_t i = 0; i < words; i++)
        memcpy(list + 4 * i, i % 64 == 63 ? "\xA0\x00\x7F\xFF" : "\xA0\x00\xFF\xFF", 4);
    a.card = card;
    a.vectors = list;
    a.vectors_len = 4 * 64 * 200;
    one_call("200 vectors of 64 words", &a, W(2050), W(2050),
             "2: E0000000 C0000000*2045 E0000000 C0000000 E0000000 C0000000 | 200 0*2045 200 0 200 0");
    a.vectors_len = 4 * words;
    one_call("65,536 vectors of 64 words", &a, W(2050), W(2050), "refused 10 0");
    a.vectors_len = 4 * (words - 64);
    list[a.vectors_len - 2] = 0xFF; /* a sixteenth input */
    one_call("65,535 vectors of 64 words, the last one wrong", &a, W(2050), W(2050), "refused 10 4194239");
    free(list);
    free(card);
}

int main(void)
{
    card_words.words = malloc(4 * (size_t)ROOM_WORDS);
    vector_words.words = malloc(4 * (size_t)ROOM_WORDS);
    fault_words.words = malloc(4 * (size_t)ROOM_WORDS);
    want_words.words = malloc(4 * (size_t)ROOM_WORDS);
    if (!card_words.words || !vector_words.words || !fault_words.words || !want_words.words)
        abort();
    run_checks();
    run_values();
    run_calls();
    run_fault_lists();
    run_gradings();
    run_joins();
    run_gates();
    run_longest_lists();
    differ += run_astray(&cases);
    printf("cases: %u cases, %u differ\n", cases, differ);
    free(card_words.words);
    free(vector_words.words);
    free(fault_words.words);
    free(want_words.words);
    return differ != 0;
}
