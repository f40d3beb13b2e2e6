/* What the engine says of these: format POLICY REQUEST WITHDRAWALS HIERARCHY FACTS ANSWERS prints the report, and writes the buffers' filled parts
   to files. */
#include <stdio.h>

#include "../../bench/bench.h"

static file policy, request, withdrawals, hierarchy;
static uint8_t facts[65536], answers[1024];

int main(int argc, char **argv)
{
    if (argc != 7)
        return 2;
    read_file(&policy, ".", argv[1]);
    read_file(&request, ".", argv[2]);
    read_file(&withdrawals, ".", argv[3]);
    read_file(&hierarchy, ".", argv[4]);
    slices s = {{policy.bytes, policy.len}, {request.bytes, request.len}, {withdrawals.bytes, withdrawals.len}, {hierarchy.bytes, hierarchy.len}};
    secpal_report r = decide(&s, facts, sizeof facts, answers, sizeof answers);
    printf("%u %u %u %u %u %llu %llu\n", r.decision, r.refusal, r.side, r.facts, r.rounds, (unsigned long long)r.place,
           (unsigned long long)r.answers);
    write_file(".", argv[5], facts, (size_t)SECPAL_RECORD * r.facts);
    write_file(".", argv[6], answers, SECPAL_ANSWER * r.answers);
    return 0;
}
