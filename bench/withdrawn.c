/* What withdrawals cost: a decision on a policy with statements that 256 entries withdraw, beside the decision on the policy without those statements,
 * with no entries. Request and table of facts are the same, so what is more is reading those statements and the entries, and finding what they withdraw.
 * A workload without entries gets as many statements as it has room for, and 256 entries; w7_withdrawn has both, and is compared with w2_4k beside it. */
#include "bench.h"
#include "writer.h"

#include <stdbool.h>
#include <stdio.h>
#include <string.h>

enum { TURNS = 25, MOST_TURNS = 100, SERIAL = 1000 };

/* How many times as long the first may take. */
static const double MOST = 1.2;

/* A decision with fewer facts than this is done in about a tenth of a millisecond. Merely reading 256 statements and 256 entries is a fifth of that, so of
 * such a workload the row is shown and not judged. */
enum { FEWEST_FACTS = 2 * SECPAL_WITHDRAWALS };

/* The workload that has its entries, and what they leave of it. */
static const char *const WITHDRAWN = "w7_withdrawn", *const LEFT = "w2_4k";

static writer policy, withdrawals;
static uint8_t facts[FACTS_LEN], expected[FACTS_LEN], answers[ANSWERS_LEN];

/* Where an accepted policy's count of assertions stands: behind its last verb, or behind the count of verbs. */
static size_t assertions_at(secpal_slice p) {
    uint32_t constants[SECPAL_CONSTANTS], verbs[SECPAL_VERBS];
    uint32_t constant_count = secpal_constants(p.data, p.len, constants, SECPAL_CONSTANTS), verb_count = secpal_verbs(p.data, p.len, verbs, SECPAL_VERBS);
    uint32_t last = verb_count > 0 ? verbs[verb_count - 1] : constants[constant_count - 1];
    return last + 1u + p.data[last] + (verb_count > 0 ? 0 : 2);
}

static unsigned statements(secpal_slice p) {
    size_t at = assertions_at(p);
    return p.data[at] * 256u + p.data[at + 1];
}

/* The policy with as many statements more as it has room for: "0 says 0 can act as 0", and so on, which give new facts unless they are withdrawn. */
static secpal_slice filled(secpal_slice p) {
    memcpy(policy.bytes, p.data, p.len);
    policy.len = p.len;
    policy.count_at = assertions_at(p);
    for (unsigned added = 0; statements(p) + added < SECPAL_ASSERTIONS; added++) {
        said_under(&policy, 0, SERIAL + added);
        fact(&policy, 0, 0, 1, 0, 0, 0);
        put_two(&policy, 0);
        closed(&policy);
    }
    ended(&policy);
    return (secpal_slice){policy.bytes, policy.len};
}

/* 256 entries, every second one with a test that holds; those past the added statements meet none. */
static secpal_slice entries(void) {
    begun(&withdrawals);
    list(&withdrawals);
    for (unsigned i = 0; i < SECPAL_WITHDRAWALS; i++) {
        withdrawn(&withdrawals, 0, SERIAL + i, i % 2);
        if (i % 2) tested(&withdrawals, 1, TODAY, TODAY);
    }
    ended(&withdrawals);
    return (secpal_slice){withdrawals.bytes, withdrawals.len};
}

/* One decision; the least of its times so far goes to *best. */
static secpal_report timed(const slices *s, uint8_t *table, double *best) {
    double start = clock_ms();
    secpal_report r = decide(s, table, FACTS_LEN, answers, ANSWERS_LEN);
    double took = clock_ms() - start;
    if (took < *best) *best = took;
    return r;
}

/* Both decisions, in turns, so that both meet the machine alike; more turns where a busy machine may have made the first look long. */
static int row(const char *dir, const slices *with, const slices *without) {
    double ms = 1e12, ms_without = 1e12;
    secpal_report r = {0}, left = {0};
    for (int i = 0; i < TURNS || (ms > MOST * ms_without && i < MOST_TURNS); i++) {
        left = timed(without, expected, &ms_without);
        r = timed(with, facts, &ms);
    }
    printf("| %s | %u | %u | %.3f | %.3f | %.2f |\n", base_name(dir), r.facts, statements(with->policy) - statements(without->policy), ms, ms_without,
           ms / ms_without);
    bool same = r.refusal == 0 && left.refusal == 0 && r.decision == left.decision && memcmp(facts, expected, FACTS_LEN) == 0;
    if (same && (r.facts < FEWEST_FACTS || ms <= MOST * ms_without)) return 0;
    fprintf(stderr, "withdrawn: %s: %s\n", dir, same ? "more than 1.2 times as long" : "refused, or the decisions differ");
    return 1;
}

/* A workload without entries. */
static int filled_row(const char *dir) {
    slices given = read_slices(dir);
    slices with = {filled(given.policy), given.request, entries(), given.hierarchy};
    return row(dir, &with, &given);
}

/* The one that has them: its slices are kept, since the next call of read_slices takes their room. */
static int withdrawn_row(const char *dir) {
    static file own_policy, own_request, own_withdrawals;
    char beside[4096];
    snprintf(beside, sizeof beside, "%.*s%s", (int)(base_name(dir) - dir), dir, LEFT);
    read_file(&own_policy, dir, "policy.bin");
    read_file(&own_request, dir, "request.bin");
    read_file(&own_withdrawals, dir, "withdrawals.bin");
    slices with = {{own_policy.bytes, own_policy.len}, {own_request.bytes, own_request.len}, {own_withdrawals.bytes, own_withdrawals.len}, no_entries};
    slices without = read_slices(beside);
    return row(dir, &with, &without);
}

int main(int argc, char **argv) {
    int faults = 0;
    if (argc < 2) {
        fprintf(stderr, "usage: withdrawn FOLDER..\n");
        return 2;
    }
    printf("Milliseconds of processor time inside the process, best of %d, or of %d where the ratio is above %.1f.\n\n", TURNS, MOST_TURNS, MOST);
    printf("| workload | facts | statements withdrawn | with 256 entries | without those statements | ratio |\n|---|---|---|---|---|---|\n");
    for (int i = 1; i < argc; i++) faults += strcmp(base_name(argv[i]), WITHDRAWN) == 0 ? withdrawn_row(argv[i]) : filled_row(argv[i]);
    return faults != 0;
}
