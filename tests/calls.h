/* calls.h: the eight calls under one name, of the engine and of brute force. */
#ifndef CALLS_H
#define CALLS_H

#include <stddef.h>
#include <stdint.h>

enum call { CHECK, GOOD, FAULT, CHANGE, CRITICAL, GRADE, JOIN, GATES, CALLS };

extern const char *const call_names[CALLS];

/* What a call is given. FAULT alone takes a list of faults, and CHANGE alone a graph's number. JOIN takes a
 * second card, and wire words in the place of vectors; GATES a gate list in the place of the card, and nothing else. */
struct asked {
    enum call call;
    const uint8_t *card;
    size_t card_len;
    const uint8_t *vectors;
    size_t vectors_len;
    const uint8_t *faults;
    size_t faults_len;
    uint32_t number;
    const uint8_t *second;
    size_t second_len;
};

/* GRADE writes its marks into the buffer. The tallies are its second buffer, and no other call gets them. */
uint64_t ask_engine(const struct asked *a, uint8_t *buffer, size_t len, uint8_t *tallies, size_t tallies_len);
uint64_t ask_brute(const struct asked *a, uint8_t *buffer, size_t len, uint8_t *tallies, size_t tallies_len);

#endif
