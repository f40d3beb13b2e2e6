/* One decision of the engine on what stands in a folder, with what it took: for policies on which a limit of time must be set from outside. */
#include "bench.h"

#include <stdio.h>

static uint8_t facts[FACTS_LEN], answers[ANSWERS_LEN];

int main(int argc, char **argv) {
    static const char *const word[] = {"refused", "allow", "deny"};
    if (argc != 2) {
        fprintf(stderr, "usage: once FOLDER\n");
        return 2;
    }
    slices s = read_slices(argv[1]), asked_nothing = s;
    /* A request of no bytes is refused at once, on the request's side if the policy is accepted. */
    asked_nothing.request.len = 0;
    if (decide(&asked_nothing, facts, FACTS_LEN, answers, ANSWERS_LEN).side != SECPAL_SIDE_REQUEST) {
        fprintf(stderr, "once: %s: the policy is refused\n", argv[1]);
        return 1;
    }
    double start = clock_ms();
    secpal_report r = decide(&s, facts, FACTS_LEN, answers, ANSWERS_LEN);
    double took = clock_ms() - start;
    printf("| %s | %s", base_name(argv[1]), word[r.decision]);
    if (r.decision == 0) printf(" %u", r.refusal);
    printf(" | %u | %u | %.3f |\n", r.facts, r.rounds, took / 1e3);
    return r.refusal != 0 && r.refusal != 8;
}
