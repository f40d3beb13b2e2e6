/* Reads accepted slices; nothing is checked. */
#include "program.h"

#include <string.h>

static uint16_t two(const uint8_t *p) {
    return (uint16_t)(p[0] << 8 | p[1]);
}

static uint32_t four(const uint8_t *p) {
    return (uint32_t)two(p) << 16 | two(p + 2);
}

static void note_kind(rule *r, uint16_t e, uint8_t kind) {
    if (r && e >= VARIABLE) r->kind[e - VARIABLE] = kind;
}

/* Reads the fact at p into its fields, and notes the kinds of its variables in r. Returns what follows it. */
static const uint8_t *read_fact(const program *g, rule *r, uint16_t *field, const uint8_t *p) {
    memset(field, 0, FIELDS * sizeof *field);
    field[NEST] = *p++;
    for (unsigned i = 0; i < field[NEST]; i++, p += 3) {
        field[SPEAKER + 2 * i] = two(p);
        field[SPEAKER + 2 * i + 1] = p[2];
        note_kind(r, two(p), PRINCIPAL);
    }
    field[SUBJECT] = two(p);
    note_kind(r, two(p), PRINCIPAL);
    uint8_t verb = p[2];
    field[VERB] = verb;
    p += 3;
    for (unsigned i = 0; i < g->arity[verb]; i++, p += 2) {
        field[PARAMETER + i] = two(p);
        note_kind(r, two(p), g->parameter[verb][i]);
    }
    return p;
}

static const uint8_t *read_constant(constant *c, const uint8_t *p) {
    uint8_t len = *p++;
    *c = (constant){.kind = p[0]};
    if (c->kind <= THING) {
        c->len = (uint8_t)(len - 1);
        c->label = p + 1;
    } else {
        c->number = four(p + 1);
    }
    return p + len;
}

static const uint8_t *read_verb(program *g, uint32_t v, const uint8_t *p) {
    g->arity[v] = p[1];
    memcpy(g->parameter[v], p + 2, p[1]);
    return p + 1 + p[0];
}

static const uint8_t *read_rule(const program *g, rule *r, const uint8_t *p) {
    memset(r->kind, 0, sizeof r->kind);
    r->serial = four(p + 2);
    r->issuer = (uint8_t)two(p + 6);
    p = read_fact(g, r, r->head, p + 8);
    r->bodies = *p++;
    for (unsigned i = 0; i < r->bodies; i++) p = read_fact(g, r, r->body[i], p);
    r->tests = *p++;
    for (unsigned i = 0; i < r->tests; i++, p += 5) r->test[i] = (test){p[0], two(p + 1), two(p + 3)};
    return p;
}

static void reach_out(program *g, uint16_t e) {
    for (uint32_t c = 0; c < g->constants; c++)
        if (g->constant[c].kind == PRINCIPAL && (e >= VARIABLE || e == c)) g->reached[c] = true;
}

/* Marks the issuers of the node at p. Returns what follows it. */
static const uint8_t *reach_asked(program *g, const uint8_t *p) {
    uint16_t field[FIELDS];
    switch (*p++) {
    case 1:
        reach_out(g, two(p));
        return read_fact(g, NULL, field, p + 2);
    case 2:
        return p + 5;
    case 5:
        return reach_asked(g, p);
    case 6:
        return reach_asked(g, p + 1);
    }
    uint8_t parts = *p++;
    while (parts--) p = reach_asked(g, p);
    return p;
}

static void reach_on(program *g) {
    uint32_t before, after = 0;
    do {
        before = after;
        for (uint32_t i = 0; i < g->rules; i++) {
            const rule *r = &g->rule[i];
            if (!g->reached[r->issuer]) continue;
            if (r->head[NEST] > 0) reach_out(g, r->head[SPEAKER]);
            else if (r->head[VERB] == 0 && g->version == 1) reach_out(g, r->head[SUBJECT]);
        }
        after = 0;
        for (uint32_t c = 0; c < g->constants; c++) after += g->reached[c];
    } while (after != before);
}

/* Keeps the rules that are not of an issuer and a serial. */
static void keep_others(program *g, uint8_t issuer, uint32_t serial) {
    uint32_t kept = 0;
    for (uint32_t i = 0; i < g->rules; i++)
        if (g->rule[i].issuer != issuer || g->rule[i].serial != serial) g->rule[kept++] = g->rule[i];
    g->rules = kept;
}

static void withdraw(program *g, const uint8_t *withdrawals) {
    const uint8_t *p = withdrawals + 7;
    for (unsigned entries = two(withdrawals + 5); entries > 0; entries--) {
        const uint8_t *entry = p;
        bool all_hold = true;
        p += 7;
        for (unsigned tests = entry[6]; tests > 0; tests--, p += 5) all_hold = all_hold && holds(g, p[0], two(p + 1), two(p + 3));
        if (all_hold) keep_others(g, (uint8_t)two(entry), four(entry + 2));
    }
}

static void read_levels(program *g, const uint8_t *hierarchy) {
    const uint8_t *p = hierarchy + 7;
    memset(g->first, 0, sizeof g->first);
    for (unsigned i = 0; i < two(hierarchy + 5); i++, p += 6) {
        uint16_t *first = &g->first[p[0]][p[1] - 1][two(p + 2)];
        g->level[i] = (level){(uint8_t)two(p + 4), *first};
        *first = (uint16_t)(i + 1);
    }
}

uint32_t descendants(const program *g, uint8_t verb, unsigned parameter, uint8_t constant, uint8_t found[255]) {
    bool known[255] = {false};
    uint32_t count = 0, next = 0;
    for (uint8_t parent = constant;; parent = found[next++]) {
        for (uint16_t i = g->first[verb][parameter][parent]; i != 0; i = g->level[i - 1].next) {
            uint8_t child = g->level[i - 1].child;
            if (!known[child]) found[count++] = child;
            known[child] = true;
        }
        if (next == count) return count;
    }
}

void read_program(program *g, const slices *given) {
    const uint8_t *policy = given->policy.data, *request = given->request.data, *p = policy + 7;
    g->version = policy[0];
    g->constants = two(policy + 5);
    for (uint32_t i = 0; i < g->constants; i++) p = read_constant(&g->constant[i], p);
    g->verbs = two(p);
    p += 2;
    g->arity[0] = 1;
    g->parameter[0][0] = PRINCIPAL;
    for (uint32_t i = 1; i <= g->verbs; i++) p = read_verb(g, i, p);
    g->rules = two(p);
    p += 2;
    for (uint32_t i = 0; i < g->rules; i++) p = read_rule(g, &g->rule[i], p);
    memset(g->reached, 0, sizeof g->reached);
    g->today = four(request + 5);
    withdraw(g, given->withdrawals.data);
    read_levels(g, given->hierarchy.data);
    reach_asked(g, request + 9);
    reach_on(g);
    uint32_t kept = 0;
    for (uint32_t i = 0; i < g->rules; i++)
        if (g->reached[g->rule[i].issuer]) g->rule[kept++] = g->rule[i];
    g->rules = kept;
}

/* Days before each month, in a year that is no leap year and in one that is. */
static const uint16_t before[2][12] = {{0, 31, 59, 90, 120, 151, 181, 212, 243, 273, 304, 334}, {0, 31, 60, 91, 121, 152, 182, 213, 244, 274, 305, 335}};

/* Years from 2000 to 2100. */
static bool leap(uint32_t years) {
    return years % 4 == 0 && years != 100;
}

uint32_t year_after(uint32_t day) {
    uint32_t years = 4 * day / 1461, over = day - (365 * years + (years + 3) / 4), month = 11;
    while (over < before[leap(years)][month]) month--;
    uint32_t date = over - before[leap(years)][month];
    if (month == 1 && date == 28) date = 27;
    years++;
    return 365 * years + (years + 3) / 4 + before[leap(years)][month] + date;
}

bool holds(const program *g, uint8_t op, uint16_t left, uint16_t right) {
    constant today = {.kind = DAY, .number = g->today};
    const constant *l = left == TODAY ? &today : &g->constant[left];
    const constant *r = right == TODAY ? &today : &g->constant[right];
    bool alike = l->number == r->number && l->len == r->len && (l->len == 0 || memcmp(l->label, r->label, l->len) == 0);
    switch (op) {
    case 1:
        return alike;
    case 2:
        return !alike;
    case 3:
        return l->number <= r->number;
    case 4:
        return l->len >= r->len && memcmp(l->label, r->label, r->len) == 0;
    }
    return l->number <= year_after(r->number);
}
