/* Hostile policies: 256 assertions and 255 constants each (i and j: 180), accepted, made to cost as much as they can; h is a hostile request. Each goes into a
   folder of its own. */
#include "bench.h"
#include "writer.h"

#include <stdbool.h>
#include <stdio.h>

enum { ASSERTIONS = 256, CONSTANTS = 255 };
/* Verbs: linked has three parameters, given and paired have one. */
enum { MARKED = 1, LINKED, GIVEN, ABSENT, PAIRED };

static writer policy, request;

/* The bucket of the label "pN" where the engine looks for alike ones (crates/labels). */
static unsigned bucket(unsigned n) {
    char label[33];
    unsigned h = 0;
    snprintf(label, sizeof label, "p%u", n);
    for (const char *c = label; *c; c++) h = (33 * h + (unsigned char)*c) % 65536;
    return h % 251;
}

/* So many principals, all in one bucket if so asked, and the verbs; then the list of assertions begins. */
static void start_with(unsigned principal_count, bool one_bucket) {
    static const uint8_t principals[3] = {PRINCIPAL, PRINCIPAL, PRINCIPAL};
    begun(&policy);
    list(&policy);
    for (unsigned i = 0, n = 0; n < principal_count; i++) {
        if (one_bucket && bucket(i) != 0) continue;
        labelled(&policy, PRINCIPAL, "p", i);
        n++;
    }
    list(&policy);
    verb(&policy, "marked", 0, principals);
    verb(&policy, "linked", 3, principals);
    verb(&policy, "given", 1, principals);
    verb(&policy, "absent", 0, principals);
    verb(&policy, "paired", 1, principals);
    list(&policy);
}

static void start(void) {
    start_with(CONSTANTS, false);
}

/* The node "0 says SUBJECT is marked". */
static void asked(unsigned subject) {
    put_one(&request, 1);
    put_two(&request, 0);
    fact(&request, subject, MARKED, 0, 0, 0, 0);
}

/* Asks for each of v0 to v6 who is marked, with a test last that rejects all. */
static void asked_much(void) {
    put_one(&request, 3);
    put_one(&request, 8);
    for (unsigned i = 0; i < 7; i++) asked(V0 + i);
    put_one(&request, 2);
    tested(&request, 2, V6, V6);
}

static void finish_with(const char *out, const char *name, bool much) {
    char dir[4096];
    ended(&policy);
    begun(&request);
    put_four(&request, 9000);
    if (much) asked_much();
    else asked(1);
    ended(&request);
    snprintf(dir, sizeof dir, "%s/%s", out, name);
    write_file(dir, "policy.bin", policy.bytes, policy.len);
    write_file(dir, "request.bin", request.bytes, request.len);
}

static void finish(const char *out, const char *name) {
    finish_with(out, name, false);
}

/* "0 says SUBJECT VERB A." */
static void stated(unsigned subject, unsigned verb, unsigned arity, unsigned a) {
    said(&policy, 0);
    fact(&policy, subject, verb, arity, a, 0, 0);
    put_one(&policy, 0);
    put_one(&policy, 0);
    closed(&policy);
}

/* Principals 1 to n are marked. */
static void marked(unsigned n) {
    for (unsigned i = 1; i <= n; i++) stated(i, MARKED, 0, 0);
}

/* Body facts "v_i marked", n of them. */
static void marked_body(unsigned n) {
    for (unsigned i = 0; i < n; i++) fact(&policy, V0 + i, MARKED, 0, 0, 0, 0);
}

/* a: "v0 given p if v0 marked, v1 marked, v2 marked, v3 marked", each rule with a p of its own. */
static void apart(const char *out) {
    enum { FACTS = 128 };
    start();
    marked(FACTS);
    for (unsigned i = FACTS; i < ASSERTIONS; i++) {
        said(&policy, 0);
        fact(&policy, V0, GIVEN, 1, i % CONSTANTS, 0, 0);
        put_one(&policy, 4);
        marked_body(4);
        put_one(&policy, 0);
        closed(&policy);
    }
    finish(out, "a_apart");
}

/* The head "1 can say v0 can say v1 can say v2 linked v3 v4 v5", at unlimited depth throughout. */
static void wide_head(void) {
    put_one(&policy, 3);
    for (unsigned i = 0; i < 3; i++) {
        put_two(&policy, i == 0 ? 1 : V0 + i - 1);
        put_one(&policy, 1);
    }
    put_two(&policy, V2);
    put_one(&policy, LINKED);
    for (unsigned i = 0; i < 3; i++) put_two(&policy, V3 + i);
}

/* b: six free variables, and a test that rejects all. */
static void free_heads(const char *out) {
    start();
    for (unsigned i = 0; i < ASSERTIONS; i++) {
        said(&policy, 0);
        wide_head();
        put_one(&policy, 0);
        put_one(&policy, 1);
        tested(&policy, 2, V0 + i % 6, V0 + i % 6);
        closed(&policy);
    }
    finish(out, "b_free_heads");
}

/* c: n principals in a ring, each of which can act as the next, and something said of one. */
static void ring(const char *out, const char *name, unsigned n) {
    start();
    for (unsigned i = 1; i <= n; i++) stated(i, 0, 1, i % n + 1);
    for (unsigned i = n; i < ASSERTIONS; i++) stated(1, MARKED, 0, 0);
    finish(out, name);
}

/* d: "v0 linked v1 v2 v3 if v0 marked, .., v3 marked, v3 differs from v3". */
static void apart_tested(const char *out) {
    enum { FACTS = 128 };
    start();
    marked(FACTS);
    for (unsigned i = FACTS; i < ASSERTIONS; i++) {
        said(&policy, 0);
        fact(&policy, V0, LINKED, 3, V1, V2, V3);
        put_one(&policy, 4);
        marked_body(4);
        put_one(&policy, 1);
        tested(&policy, 2, V3, V3);
        closed(&policy);
    }
    finish(out, "d_apart_tested");
}

/* e: 120 facts with one subject, and "v0 linked v1 v2 1 if v0 given v3, v1 given v4, v2 given v5". */
static void one_subject(const char *out) {
    enum { FACTS = 120 };
    start();
    for (unsigned i = 0; i < FACTS; i++) stated(1, GIVEN, 1, i);
    for (unsigned i = FACTS; i < ASSERTIONS; i++) {
        said(&policy, 0);
        fact(&policy, V0, LINKED, 3, V1, V2, 1);
        put_one(&policy, 3);
        for (unsigned j = 0; j < 3; j++) fact(&policy, V0 + j, GIVEN, 1, V3 + j, 0, 0);
        put_one(&policy, 0);
        closed(&policy);
    }
    finish(out, "e_one_subject");
}

/* f: "v0 paired v1 if v0 marked, v1 marked" gives thousands of facts; the other rules look for three of them apart, then for one that is not there. */
static void no_match(const char *out) {
    enum { FACTS = 120 };
    start();
    marked(FACTS);
    said(&policy, 0);
    fact(&policy, V0, PAIRED, 1, V1, 0, 0);
    put_one(&policy, 2);
    marked_body(2);
    put_one(&policy, 0);
    closed(&policy);
    for (unsigned i = FACTS + 1; i < ASSERTIONS; i++) {
        said(&policy, 0);
        fact(&policy, V0, GIVEN, 1, V1, 0, 0);
        put_one(&policy, 4);
        for (unsigned j = 0; j < 3; j++) fact(&policy, V0 + 2 * j, PAIRED, 1, V1 + 2 * j, 0, 0);
        fact(&policy, V6, ABSENT, 0, 0, 0, 0);
        put_one(&policy, 0);
        closed(&policy);
    }
    finish(out, "f_no_match");
}

/* g: as b, with tests that hold for the variables that are chosen first, and one that rejects the last. */
static void late_test(const char *out) {
    start();
    for (unsigned i = 0; i < ASSERTIONS; i++) {
        said(&policy, 0);
        wide_head();
        put_one(&policy, 0);
        put_one(&policy, 4);
        for (unsigned j = 0; j < 4; j++) tested(&policy, j == 3 ? 2 : 1, V0 + (i + j) % 6, V0 + (i + j) % 6);
        closed(&policy);
    }
    finish(out, "g_late_test");
}

/* h: a plain policy, and a request whose last variable is rejected by a test. */
static void late_answer(const char *out) {
    start();
    for (unsigned i = 0; i < ASSERTIONS; i++) stated(i % CONSTANTS, MARKED, 0, 0);
    finish_with(out, "h_late_answer", true);
}

/* The head "1 can say v1 linked v2 1 1", at unlimited depth. */
static void quoted_head(void) {
    put_one(&policy, 1);
    put_two(&policy, 1);
    put_one(&policy, 1);
    put_two(&policy, V1);
    put_one(&policy, LINKED);
    put_two(&policy, V2);
    put_two(&policy, 1);
    put_two(&policy, 1);
}

/* Of 180 principals this head has 32,400 instances, at both depths nearly as many as there is room for. */
enum { FEWER = 180 };

/* i: every rule lets 1 say of any two principals that they are linked: each fact is given 256 times. */
static void same_heads(const char *out) {
    start_with(FEWER, false);
    for (unsigned i = 0; i < ASSERTIONS; i++) {
        said(&policy, 0);
        quoted_head();
        put_one(&policy, 0);
        put_one(&policy, 0);
        closed(&policy);
    }
    finish(out, "i_same_heads");
}

/* j: the same head if v0 given v3: each of 64 facts gives all heads by each of 192 rules. */
static void many_causes(const char *out) {
    enum { FACTS = 64 };
    start_with(FEWER, false);
    for (unsigned i = 0; i < FACTS; i++) stated(i, GIVEN, 1, i);
    for (unsigned i = FACTS; i < ASSERTIONS; i++) {
        said(&policy, 0);
        quoted_head();
        put_one(&policy, 1);
        fact(&policy, V0, GIVEN, 1, V3, 0, 0);
        put_one(&policy, 0);
        closed(&policy);
    }
    finish(out, "j_many_causes");
}

/* k: 255 labels that fall into one bucket. */
static void one_bucket(const char *out) {
    start_with(CONSTANTS, true);
    for (unsigned i = 0; i < ASSERTIONS; i++) stated(i % CONSTANTS, MARKED, 0, 0);
    finish(out, "k_one_bucket");
}

int main(int argc, char **argv) {
    if (argc != 2) {
        fprintf(stderr, "usage: hostile FOLDER\n");
        return 2;
    }
    apart(argv[1]);
    free_heads(argv[1]);
    ring(argv[1], "c_ring", 254);
    ring(argv[1], "c_ring_that_fits", 178);
    apart_tested(argv[1]);
    one_subject(argv[1]);
    no_match(argv[1]);
    late_test(argv[1]);
    late_answer(argv[1]);
    same_heads(argv[1]);
    many_causes(argv[1]);
    one_bucket(argv[1]);
    return 0;
}
