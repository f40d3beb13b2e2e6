/* A policy as a logic program: says(issuer, depth, fact), where a fact is c(speaker, depth, fact) or f(subject, verb, three parameters). The three
   rules of SecPAL, an assertion's instances, and the constants with their kinds and numbers. */
#include "asp.h"

#include "program.h"

#include <stdio.h>
#include <stdlib.h>
#include <string.h>

const char *const clingo_time = "the processor time that it reports";

static void print_expr(FILE *out, uint16_t e) {
    if (e >= VARIABLE) fprintf(out, "V%d", e - VARIABLE);
    else fprintf(out, "%d", e);
}

static void print_fact(FILE *out, const uint16_t *field) {
    for (unsigned i = 0; i < field[NEST]; i++) {
        fprintf(out, "c(");
        print_expr(out, field[SPEAKER + 2 * i]);
        fprintf(out, ",%d,", field[SPEAKER + 2 * i + 1]);
    }
    for (unsigned i = SUBJECT; i < FIELDS; i++) {
        fprintf(out, i == SUBJECT ? "f(" : ",");
        print_expr(out, field[i]);
    }
    for (unsigned i = 0; i <= field[NEST]; i++) fprintf(out, ")");
}

static void print_says(FILE *out, const rule *r, const uint16_t *field) {
    fprintf(out, "says(%d,D,", r->issuer);
    print_fact(out, field);
    fprintf(out, ")");
}

/* The number of a day; of a quantity how many are below it, since clingo's numbers have 32 bits with a sign. */
static uint32_t number_of(const program *g, const constant *c) {
    uint32_t n = 0;
    if (c->kind == DAY) return c->number;
    for (uint32_t i = 0; i < g->constants; i++) n += g->constant[i].kind == QUANTITY && g->constant[i].number < c->number;
    return n;
}

/* Names the number of an expression: `name` is its variable. */
static void print_number(FILE *out, const program *g, uint16_t e, const char *name) {
    if (e == TODAY) {
        fprintf(out, ", %s = %u", name, g->today);
    } else {
        fprintf(out, ", number(");
        print_expr(out, e);
        fprintf(out, ",%s)", name);
    }
}

static void print_test(FILE *out, const program *g, const test *t, unsigned i) {
    static const char *const sign[] = {"", "=", "!=", "<="};
    char left[8], right[8];
    if (t->op == 4 || (t->op <= 2 && t->left != TODAY && t->right != TODAY)) {
        fprintf(out, t->op == 4 ? ", begins(" : ", ");
        print_expr(out, t->left);
        fprintf(out, t->op == 4 ? "," : " %s ", sign[t->op % 4]);
        print_expr(out, t->right);
        fprintf(out, t->op == 4 ? ")" : "");
        return;
    }
    snprintf(left, sizeof left, "L%u", i % 4);
    snprintf(right, sizeof right, "R%u", i % 4);
    print_number(out, g, t->left, left);
    print_number(out, g, t->right, right);
    if (t->op == 5) fprintf(out, ", year_after(%s,A%u), %s <= A%u", right, i % 4, left, i % 4);
    else fprintf(out, ", %s %s %s", left, sign[t->op % 4], right);
}

static void print_rule(FILE *out, const program *g, const rule *r) {
    print_says(out, r, r->head);
    fprintf(out, " :- depth(D)");
    for (unsigned v = 0; v < 8; v++)
        if (r->kind[v] != 0) fprintf(out, ", kind(V%u,%d)", v, r->kind[v]);
    for (unsigned i = 0; i < r->bodies; i++) {
        fprintf(out, ", ");
        print_says(out, r, r->body[i]);
    }
    for (unsigned i = 0; i < r->tests; i++) print_test(out, g, &r->test[i], i);
    fprintf(out, ".\n");
}

static void print_constants(FILE *out, const program *g) {
    for (uint32_t i = 0; i < g->constants; i++) {
        const constant *c = &g->constant[i];
        fprintf(out, "kind(%u,%d).\n", i, c->kind);
        if (c->kind >= DAY) fprintf(out, "number(%u,%u).\n", i, number_of(g, c));
        if (c->kind == DAY) fprintf(out, "year_after(%u,%u).\n", c->number, year_after(c->number));
        for (uint32_t j = 0; c->kind == THING && j < g->constants; j++)
            if (g->constant[j].kind == THING && holds(g, 4, (uint16_t)i, (uint16_t)j)) fprintf(out, "begins(%u,%u).\n", i, j);
    }
}

/* The hierarchy: its levels, what is the same or below, and a fact with other parameters inside as many quotes. */
static void print_levels(FILE *out, const program *g) {
    for (unsigned v = 1; v <= g->verbs; v++)
        for (unsigned i = 0; i < g->arity[v]; i++)
            for (unsigned p = 0; p < g->constants; p++)
                for (uint16_t n = g->first[v][i][p]; n != 0; n = g->level[n - 1].next) fprintf(out, "level(%u,%u,%u,%d).\n", v, i, p, g->level[n - 1].child);
    fprintf(out, "#defined level/4.\nbelow(V,I,P,C) :- level(V,I,P,C).\nbelow(V,I,P,C) :- level(V,I,P,D), below(V,I,D,C).\n");
    fprintf(out, "part(F) :- says(A,D,F).\npart(F) :- part(c(B,K,F)).\n");
    fprintf(out, "some(V,0,P,P) :- part(f(S,V,P,Q,R)).\nsome(V,1,Q,Q) :- part(f(S,V,P,Q,R)).\nsome(V,2,R,R) :- part(f(S,V,P,Q,R)).\n");
    fprintf(out, "some(V,I,P,C) :- below(V,I,P,C).\n");
    fprintf(out, "lower(f(S,V,P,Q,R),f(S,V,X,Y,Z)) :- part(f(S,V,P,Q,R)), some(V,0,P,X), some(V,1,Q,Y), some(V,2,R,Z).\n");
    fprintf(out, "lower(c(B,K,F),c(B,K,G)) :- part(c(B,K,F)), lower(F,G).\nsays(A,D,G) :- says(A,D,F), lower(F,G).\n");
}

static void print_program(FILE *out, const program *g) {
    fprintf(out, "#show.\n#defined number/2.\n#defined begins/2.\n#defined says/3.\ndepth(0..1).\n");
    fprintf(out, "year_after(%u,%u).\n", g->today, year_after(g->today));
    print_constants(out, g);
    for (uint32_t i = 0; i < g->rules; i++) print_rule(out, g, &g->rule[i]);
    fprintf(out, "says(A,1,F) :- says(A,1,c(B,K,F)), says(B,K,F).\n");
    fprintf(out, "says(A,D,f(B,V,P,Q,R)) :- says(A,D,f(B,0,C,0,0)), says(A,D,f(C,V,P,Q,R)).\n");
    if (g->version == 1) fprintf(out, "says(A,D,c(B,K,F)) :- says(A,D,f(B,0,C,0,0)), says(A,D,c(C,K,F)).\n");
}

static FILE *start(const char *options, const char *path) {
    char command[4096];
    snprintf(command, sizeof command, "clingo %s '%s'", options, path);
    FILE *in = popen(command, "r");
    if (!in) {
        perror(command);
        exit(2);
    }
    return in;
}

/* How many facts clingo derives. */
static uint32_t count_facts(const char *path) {
    char line[512];
    uint32_t n = 0;
    FILE *in = start("--mode=gringo --text", path);
    while (fgets(line, sizeof line, in)) n += strncmp(line, "says(", 5) == 0;
    pclose(in);
    return n;
}

/* The seconds of its line "CPU Time : 0.012s", in milliseconds. */
static double reported_ms(const char *path) {
    char line[512];
    double seconds = -1;
    FILE *in = start("--quiet=2", path);
    while (fgets(line, sizeof line, in))
        if (strncmp(line, "CPU Time", 8) == 0) sscanf(line, "CPU Time : %lfs", &seconds);
    pclose(in);
    if (seconds < 0) {
        fprintf(stderr, "measure: clingo tells no time on %s\n", path);
        exit(2);
    }
    return seconds * 1e3;
}

clingo_report clingo_run(const slices *given, const char *path) {
    static program g;
    FILE *out = fopen(path, "w");
    if (!out) {
        perror(path);
        exit(2);
    }
    read_program(&g, given);
    print_program(out, &g);
    if (given->hierarchy.len > SECPAL_NONE_LEN) print_levels(out, &g);
    fclose(out);
    clingo_report r = {count_facts(path), 1e12};
    for (int i = 0; i < CLINGO_TURNS; i++) {
        double ms = reported_ms(path);
        if (ms < r.ms) r.ms = ms;
    }
    return r;
}
