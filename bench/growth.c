/* Whether cost grows with what the rules have to do: families of policies at sizes 1, 2 and 4, with the facts that rules give (known ones too) and the look-ups of facts
   that the peer counts, the engine's time, and that time for each of them. */
#include "bench.h"
#include "peer.h"
#include "writer.h"

#include <stdio.h>
#include <string.h>

enum { TURNS = 9, MARKED = 1, GIVEN, LINKED, FROM };

static writer policy, request;
static uint8_t facts[FACTS_LEN], answers[ANSWERS_LEN], peer_facts[FACTS_LEN];

/* n principals, a few days, and the verbs: marked, given (principal), linked (principal, principal), from (day). */
static void start(unsigned n) {
    static const uint8_t principals[2] = {PRINCIPAL, PRINCIPAL}, day[1] = {DAY};
    begun(&policy);
    list(&policy);
    for (unsigned i = 0; i < n; i++) labelled(&policy, PRINCIPAL, "p", i);
    for (unsigned i = 0; i < 4; i++) numbered(&policy, DAY, 9000 + 100 * i);
    list(&policy);
    verb(&policy, "marked", 0, principals);
    verb(&policy, "given", 1, principals);
    verb(&policy, "linked", 2, principals);
    verb(&policy, "from", 1, day);
    list(&policy);
}

/* "0 says SUBJECT VERB A." */
static void stated(unsigned subject, unsigned verb, unsigned arity, unsigned a) {
    said(&policy, 0);
    fact(&policy, subject, verb, arity, a, 0, 0);
    put_two(&policy, 0);
    closed(&policy);
}

/* Each of n can act as the next, and the last is marked. */
static void acting(unsigned size) {
    unsigned n = 30 * size;
    start(n + 1);
    for (unsigned i = 1; i < n; i++) stated(i, 0, 1, i + 1);
    stated(n, MARKED, 0, 0);
}

/* n firms, each trusted by the one before to any depth, the last of which marks everybody it names. */
static void trusting(unsigned size) {
    unsigned n = 25 * size;
    start(2 * n);
    for (unsigned i = 0; i + 1 < n; i++) {
        said(&policy, i);
        put_one(&policy, 1);
        put_two(&policy, i + 1);
        put_one(&policy, 1);
        put_two(&policy, V0);
        put_one(&policy, MARKED);
        put_two(&policy, 0);
        closed(&policy);
    }
    for (unsigned i = n; i < 2 * n; i++) {
        said(&policy, n - 1);
        fact(&policy, i, MARKED, 0, 0, 0, 0);
        put_two(&policy, 0);
        closed(&policy);
    }
}

/* Bodies of three facts and a test: who is linked through another, marked, from a day that has come. */
static void joined(unsigned size) {
    unsigned n = 8 * size;
    start(n + 1);
    for (unsigned i = 1; i <= n; i++) {
        stated(i, MARKED, 0, 0);
        stated(i, FROM, 1, n + 1 + i % 4);
    }
    said(&policy, 0);
    fact(&policy, V0, GIVEN, 1, V1, 0, 0);
    put_one(&policy, 2);
    fact(&policy, V0, MARKED, 0, 0, 0, 0);
    fact(&policy, V1, MARKED, 0, 0, 0, 0);
    put_one(&policy, 1);
    tested(&policy, 2, V0, V1);
    closed(&policy);
    said(&policy, 0);
    fact(&policy, V0, LINKED, 2, V1, V2, 0);
    put_one(&policy, 4);
    fact(&policy, V0, GIVEN, 1, V1, 0, 0);
    fact(&policy, V1, GIVEN, 1, V2, 0, 0);
    fact(&policy, V2, FROM, 1, V3, 0, 0);
    fact(&policy, V0, MARKED, 0, 0, 0, 0);
    put_one(&policy, 2);
    tested(&policy, 3, V3, TODAY);
    tested(&policy, 2, V0, V2);
    closed(&policy);
}

typedef struct {
    const char *name;
    void (*write)(unsigned size);
} family;

static const family families[] = {{"who can act as whom, a chain", acting}, {"trust handed on, a chain", trusting}, {"bodies of two and four facts with tests", joined}};

/* Asks whether 0 says that 1 is marked. */
static void ask(void) {
    begun(&request);
    put_four(&request, 9350);
    put_one(&request, 1);
    put_two(&request, 0);
    fact(&request, 1, MARKED, 0, 0, 0, 0);
    ended(&request);
}

static int row(const family *f, unsigned size) {
    f->write(size);
    ended(&policy);
    ask();
    slices s = {{policy.bytes, policy.len}, {request.bytes, request.len}, no_entries, no_entries};
    peer_report peer = peer_derive(&s, peer_facts, FACTS_LEN);
    secpal_report engine = {0};
    double best = 1e12;
    for (int i = 0; i < TURNS; i++) {
        double from = clock_ms();
        engine = decide(&s, facts, FACTS_LEN, answers, ANSWERS_LEN);
        double took = clock_ms() - from;
        if (took < best) best = took;
    }
    uint64_t work = peer.work.fired + peer.work.looked_up;
    printf("| %s | %u | %u | %llu | %llu | %.3f | %.1f |\n", f->name, size, engine.facts, (unsigned long long)peer.work.fired,
           (unsigned long long)peer.work.looked_up, best, best * 1e6 / (double)work);
    if (engine.refusal != 0 || memcmp(facts, peer_facts, FACTS_LEN) != 0) {
        fprintf(stderr, "growth: %s, size %u: refused, or the tables differ\n", f->name, size);
        return 1;
    }
    return 0;
}

int main(void) {
    int faults = 0;
    printf("Milliseconds of processor time, best of %d, and nanoseconds for each fact that a rule gives and each look-up.\n\n", TURNS);
    printf("| family | size | facts | given by rules | looked up | engine | ns each |\n|---|---|---|---|---|---|---|\n");
    for (size_t i = 0; i < sizeof families / sizeof *families; i++)
        for (unsigned size = 1; size <= 4; size *= 2) faults += row(&families[i], size);
    return faults != 0;
}
