/* Policies with a hierarchy of up to 1,024 entries, each in a folder of its own: the entries make a chain, a star, a grid of diamonds or a ring of the
   things, for one verb after another until all entries are used, or stand between any two of a few things, for the first verb alone. Each principal may
   do to the first thing what a verb says. */
#include "bench.h"
#include "writer.h"

#include <stdio.h>

enum { PRINCIPALS = 15, THINGS = 240, WIDTH = 16, DENSE = 32, VERBS = 5 };

static writer policy, request, hierarchy;

static unsigned thing(unsigned i) {
    return PRINCIPALS + i;
}

static void write_policy(void) {
    static const uint8_t kinds[1] = {THING};
    static const char *const labels[VERBS] = {"order", "store", "carry", "mount", "scrap"};
    begun(&policy);
    list(&policy);
    for (unsigned i = 0; i < PRINCIPALS; i++) labelled(&policy, PRINCIPAL, "p", i);
    for (unsigned i = 0; i < THINGS; i++) labelled(&policy, THING, "t", i);
    list(&policy);
    for (unsigned i = 0; i < VERBS; i++) verb(&policy, labels[i], 1, kinds);
    list(&policy);
    for (unsigned i = 0; i < PRINCIPALS * VERBS; i++) {
        said(&policy, 0);
        fact(&policy, i / VERBS, 1 + i % VERBS, 1, thing(0), 0, 0);
        put_two(&policy, 0);
        closed(&policy);
    }
    ended(&policy);
}

/* "0 says 1 may order the last thing." */
static void write_request(void) {
    begun(&request);
    put_four(&request, 9000);
    put_one(&request, 1);
    put_two(&request, 0);
    fact(&request, 1, 1, 1, thing(THINGS - 1), 0, 0);
    ended(&request);
}

/* Entries so far; a shape calls this for each of its pairs, and no more than there is room for are written. */
static unsigned entries;

static void entry(unsigned verb, unsigned parent, unsigned child) {
    if (entries == SECPAL_HIERARCHY) return;
    leveled(&hierarchy, verb, 1, thing(parent), thing(child));
    entries++;
}

static void chain(unsigned verb) {
    for (unsigned i = 0; i + 1 < THINGS; i++) entry(verb, i, i + 1);
}

static void star(unsigned verb) {
    for (unsigned i = 1; i < THINGS; i++) entry(verb, 0, i);
}

/* Each thing stands over the next of its row and of its column. */
static void diamonds(unsigned verb) {
    for (unsigned i = 0; i < THINGS; i++) {
        if (i % WIDTH + 1 < WIDTH) entry(verb, i, i + 1);
        if (i + WIDTH < THINGS) entry(verb, i, i + WIDTH);
    }
}

static void ring(unsigned verb) {
    for (unsigned i = 0; i < THINGS; i++) entry(verb, i, (i + 1) % THINGS);
}

/* Each of a few things stands over each other one. */
static void dense(unsigned verb) {
    if (verb != 1) return;
    for (unsigned i = 0; i < DENSE * DENSE; i++) {
        if (i / DENSE != i % DENSE) entry(verb, i / DENSE, i % DENSE);
    }
}

static void write_folder(const char *out, const char *name, void (*shape)(unsigned verb)) {
    char dir[4096];
    snprintf(dir, sizeof dir, "%s/%s", out, name);
    begun(&hierarchy);
    list(&hierarchy);
    entries = 0;
    for (unsigned v = 1; v <= VERBS; v++) shape(v);
    ended(&hierarchy);
    write_file(dir, "policy.bin", policy.bytes, policy.len);
    write_file(dir, "request.bin", request.bytes, request.len);
    write_file(dir, "hierarchy.bin", hierarchy.bytes, hierarchy.len);
}

int main(int argc, char **argv) {
    if (argc != 2) {
        fprintf(stderr, "usage: families FOLDER\n");
        return 2;
    }
    write_policy();
    write_request();
    write_folder(argv[1], "chain", chain);
    write_folder(argv[1], "star", star);
    write_folder(argv[1], "diamonds", diamonds);
    write_folder(argv[1], "ring", ring);
    write_folder(argv[1], "dense", dense);
    return 0;
}
