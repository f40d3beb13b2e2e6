/* The peer: a plain evaluator of the derivation. */
#ifndef PEER_H
#define PEER_H

#include "bench.h"

#include <stdbool.h>

/* What a derivation had to do, whoever does it: facts given by a rule, known ones too, and look-ups of facts by what is known of them. */
typedef struct {
    uint64_t fired, looked_up;
} peer_work;

typedef struct {
    bool full; /* more facts than there is room for */
    uint32_t facts, rounds;
    peer_work work;
} peer_report;

/* The fact table of accepted slices in the lent buffer, then 0. */
peer_report peer_derive(const slices *given, uint8_t *facts, size_t facts_len);

#endif
