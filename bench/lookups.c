/* What the calls beside the decision take: microseconds of processor time, the mean of many turns. */
#include "bench.h"

#include <stdio.h>

enum { TURNS = 300 };

static slices given;
static uint32_t offsets[SECPAL_CONSTANTS];
static uint8_t marks[SECPAL_CONSTANTS];
static const uint8_t absent[] = "nobody has this label";

static void label(void) {
    secpal_slice out;
    secpal_label(given.policy.data, given.policy.len, 0, &out);
}

static void constants(void) { secpal_constants(given.policy.data, given.policy.len, offsets, SECPAL_CONSTANTS); }

static void verbs(void) { secpal_verbs(given.policy.data, given.policy.len, offsets, SECPAL_VERBS); }

static void find(void) { secpal_find(given.policy.data, given.policy.len, SECPAL_PRINCIPAL, absent, sizeof absent - 1); }

static void reach(void) {
    secpal_reach(given.policy.data, given.policy.len, given.request.data, given.request.len, given.withdrawals.data, given.withdrawals.len,
                 given.hierarchy.data, given.hierarchy.len, marks, sizeof marks);
}

static double mean(void (*call)(void)) {
    call();
    double start = clock_ms();
    for (int i = 0; i < TURNS; i++)
        call();
    return (clock_ms() - start) / TURNS * 1e3;
}

int main(int argc, char **argv) {
    static void (*const calls[])(void) = {label, constants, verbs, find, reach};
    printf("| workload | policy bytes | label | constants | verbs | find | reach |\n|---|---|---|---|---|---|---|\n");
    for (int i = 1; i < argc; i++) {
        given = read_slices(argv[i]);
        printf("| %s | %zu |", base_name(argv[i]), given.policy.len);
        for (size_t c = 0; c < sizeof calls / sizeof *calls; c++)
            printf(" %.1f |", mean(calls[c]));
        printf("\n");
    }
    return 0;
}
