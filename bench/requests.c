/* What answering takes: a request is measured beside one that needs the same facts but is denied at once, by a test that fails before it. */
#include "bench.h"
#include "writer.h"

#include <stdio.h>
#include <string.h>

enum { TURNS = 15, SAYS = 1, TEST = 2, ALL = 3, IS_FITTER = 1, MAY_ENTER = 5, MAY_RELIEVE = 6, DOOR = 56 };

static slices given;
static writer request;
static uint8_t facts[FACTS_LEN], answers[ANSWERS_LEN];

typedef struct {
    secpal_report report;
    double ms;
} result;

/* The folder's own request. */
static void own(void) {
    size_t len = given.request.len - SECPAL_REQUEST_NODE;
    memcpy(request.bytes + request.len, given.request.data + SECPAL_REQUEST_NODE, len);
    request.len += len;
}

/* v0 may relieve v1 at a door, and v1 may enter there: for w4_4k. */
static void relieved(void) {
    put_one(&request, ALL);
    put_one(&request, 2);
    put_one(&request, SAYS);
    put_two(&request, 0);
    fact(&request, V0, MAY_RELIEVE, 2, V1, DOOR, 0);
    put_one(&request, SAYS);
    put_two(&request, 0);
    fact(&request, V1, MAY_ENTER, 1, DOOR, 0, 0);
}

/* The airport says that v0 is a fitter, and so does v1: for w2_4k. */
static void vouched(void) {
    put_one(&request, ALL);
    put_one(&request, 2);
    put_one(&request, SAYS);
    put_two(&request, 0);
    fact(&request, V0, IS_FITTER, 0, 0, 0, 0);
    put_one(&request, SAYS);
    put_two(&request, V1);
    fact(&request, V0, IS_FITTER, 0, 0, 0, 0);
}

/* The best time of a request; with `denied` a test stands before it that "constant 0 is constant 1". */
static result timed(void (*node)(void), int denied) {
    result r = {.ms = 1e12};
    begun(&request);
    put_four(&request, 9000);
    if (denied) {
        put_one(&request, ALL);
        put_one(&request, 2);
        put_one(&request, TEST);
        tested(&request, 1, 0, 1);
    }
    node();
    ended(&request);
    slices s = {given.policy, {request.bytes, request.len}, given.withdrawals, given.hierarchy};
    for (int i = 0; i < TURNS; i++) {
        double start = clock_ms();
        r.report = decide(&s, facts, FACTS_LEN, answers, ANSWERS_LEN);
        double ms = clock_ms() - start;
        if (ms < r.ms) r.ms = ms;
    }
    return r;
}

/* A row of the table. The two must have the same facts, one is allowed and one denied. */
static int row(const char *root, const char *name, const char *what, void (*node)(void)) {
    char dir[4096];
    snprintf(dir, sizeof dir, "%s/%s", root, name);
    given = read_slices(dir);
    result asked = timed(node, 0), denied = timed(node, 1);
    printf("| %s | %s | %u | %u | %.3f | %.3f | %.3f |\n", name, what, asked.report.facts, (unsigned)asked.report.answers, asked.ms, denied.ms,
           asked.ms - denied.ms);
    if (asked.report.decision == 1 && denied.report.decision == 2 && asked.report.facts == denied.report.facts) return 0;
    fprintf(stderr, "requests: %s: not allowed and denied over the same facts\n", name);
    return 1;
}

int main(int argc, char **argv) {
    if (argc != 2) {
        fprintf(stderr, "usage: requests WORKLOADS\n");
        return 2;
    }
    printf("Milliseconds of processor time inside the process, best of %d. Answering is the difference; what is near 0 is noise.\n\n", TURNS);
    printf("| workload | request | facts | answers | decision | denied at once | answering |\n|---|---|---|---|---|---|---|\n");
    int faults = row(argv[1], "w2_30k", "its own, closed", own);
    faults += row(argv[1], "w4_4k", "v0 may-relieve v1 56, v1 may-enter 56", relieved);
    faults += row(argv[1], "w2_4k", "0 says v0 is-fitter, v1 says v0 is-fitter", vouched);
    return faults != 0;
}
