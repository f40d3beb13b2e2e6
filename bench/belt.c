/* The belt case with the buffers of the desk's program: microseconds a decision, by the clock on the wall. */
#include "bench.h"

#include <stdio.h>
#include <time.h>

enum { TURNS = 20000 };

static file policy, request;
static uint8_t facts[65536], answers[1024];

static double now_us(void) {
    struct timespec t;
    clock_gettime(CLOCK_MONOTONIC, &t);
    return (double)t.tv_sec * 1e6 + (double)t.tv_nsec / 1e3;
}

int main(int argc, char **argv) {
    if (argc != 2) {
        fprintf(stderr, "usage: belt FOLDER\n");
        return 2;
    }
    read_file(&policy, argv[1], "policy.bin");
    read_file(&request, argv[1], "otto.bin");
    slices s = {{policy.bytes, policy.len}, {request.bytes, request.len}, no_entries, no_entries};
    double best = 1e9, start = now_us();
    for (int i = 0; i < TURNS; i++) {
        double from = now_us();
        secpal_report r = decide(&s, facts, sizeof facts, answers, sizeof answers);
        double took = now_us() - from;
        if (r.decision != SECPAL_ALLOW || r.facts != 10) return 1;
        if (took < best) best = took;
    }
    printf("The belt case with a fact buffer of 65,536 bytes: best %.1f, mean %.1f microseconds a decision, of %d.\n", best, (now_us() - start) / TURNS, TURNS);
    return 0;
}
