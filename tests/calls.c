/* calls.c: see calls.h. */
#include "calls.h"

#include "../include/cardhost.h"
#include "brute.h"
#include "gatesim.h"

const char *const call_names[CALLS] = { "card_check",          "card_good_values", "card_fault_values", "card_change_list",
                                        "card_critical_nodes", "card_grade",       "card_join",         "card_from_gates" };

uint64_t ask_engine(const struct asked *a, uint8_t *buffer, size_t len, uint8_t *tallies, size_t tallies_len)
{
    switch (a->call) {
    case CHECK: return card_check(a->card, a->card_len, buffer, len);
    case GOOD: return card_good_values(a->card, a->card_len, a->vectors, a->vectors_len, buffer, len);
    case FAULT: return card_fault_values(a->card, a->card_len, a->vectors, a->vectors_len, a->faults, a->faults_len, buffer, len);
    case CHANGE: return card_change_list(a->card, a->card_len, a->vectors, a->vectors_len, a->number, buffer, len);
    case CRITICAL: return card_critical_nodes(a->card, a->card_len, a->vectors, a->vectors_len, buffer, len);
    case GRADE: return card_grade(a->card, a->card_len, a->vectors, a->vectors_len, buffer, len, tallies, tallies_len);
    case JOIN: return card_join(a->card, a->card_len, a->second, a->second_len, a->vectors, a->vectors_len, buffer, len);
    default: return card_from_gates(a->card, a->card_len, buffer, len);
    }
}

uint64_t ask_brute(const struct asked *a, uint8_t *buffer, size_t len, uint8_t *tallies, size_t tallies_len)
{
    switch (a->call) {
    case CHECK: return brute_check(a->card, a->card_len, buffer, len);
    case GOOD: return brute_good_values(a->card, a->card_len, a->vectors, a->vectors_len, buffer, len);
    case FAULT: return brute_fault_values(a->card, a->card_len, a->vectors, a->vectors_len, a->faults, a->faults_len, buffer, len);
    case CHANGE: return brute_change_list(a->card, a->card_len, a->vectors, a->vectors_len, a->number, buffer, len);
    case CRITICAL: return brute_critical_nodes(a->card, a->card_len, a->vectors, a->vectors_len, buffer, len);
    case GRADE: return brute_grade(a->card, a->card_len, a->vectors, a->vectors_len, buffer, len, tallies, tallies_len);
    case JOIN: return brute_join(a->card, a->card_len, a->second, a->second_len, a->vectors, a->vectors_len, buffer, len);
    default: return gatesim_card(a->card, a->card_len, buffer, len);
    }
}
