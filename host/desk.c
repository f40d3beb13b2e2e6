/*
 * A release desk's host to start from: desk [--facts] POLICY REQUEST [WITHDRAWALS [HIERARCHY]] decides the request under the policy, without the
 * statements that are withdrawn, and says what came of it, in words; with --facts also every derived fact, by round. A dash stands for no withdrawals.
 * Exit status: 0 allow, 1 deny, 2 refused or an error, so that `desk P Q && release` is right.
 */
#include <stdio.h>
#include <stdlib.h>
#include <string.h>

#include "secpal.h"

static uint8_t policy[65536], request[65536], withdrawals[65536], hierarchy[65536], facts[SECPAL_RECORD * SECPAL_RECORDS], answers[65536];
static size_t policy_len, request_len, withdrawals_len, hierarchy_len;

static const char *const refusals[] = {
    "",
    "the version is absent or not known",
    "the length field is short or wrong",
    "a count, arity, kind, label, nest, depth, operator, node, variable, day or length has no meaning",
    "a constant or verb is alike to an earlier one",
    "an expression, kind or verb number does not fit",
    "an assertion is not safe",
    "the request is not safe",
    "more facts are derivable than there is room for",
    "there are more answers than there is room for",
    "an entry has a variable",
    "an entry has one constant as parent and child",
};
static const char *const sides[] = {"", " in the policy", " in the request", " in the withdrawals", " in the hierarchy"};

static size_t load(const char *path, uint8_t *to, size_t room)
{
    FILE *f = fopen(path, "rb");
    size_t n = f ? fread(to, 1, room, f) : 0;
    if (!f || ferror(f) || fgetc(f) != EOF) {
        fprintf(stderr, "%s: cannot be read, or longer than %zu bytes\n", path, room);
        exit(2); /* no answer */
    }
    fclose(f);
    return n;
}

/* A file of entries may be left out, or a dash stand for it: then none are lent. */
static size_t load_entries(const char *path, uint8_t *to, size_t room)
{
    if (path && strcmp(path, "-") != 0)
        return load(path, to, room);
    memcpy(to, SECPAL_NONE, SECPAL_NONE_LEN);
    return SECPAL_NONE_LEN;
}

static unsigned u16_at(const uint8_t *s, size_t at) { return s[at] * 256u + s[at + 1]; }

/* Where the items of an accepted policy stand, asked once: the labels are parts of its bytes. */
static uint32_t constants[SECPAL_CONSTANTS], verbs[SECPAL_VERBS];

static void look_up_names(void)
{
    secpal_constants(policy, policy_len, constants, SECPAL_CONSTANTS);
    secpal_verbs(policy, policy_len, verbs, SECPAL_VERBS);
}

static unsigned days_of_month(unsigned year, unsigned month)
{
    static const unsigned char days[] = {0, 31, 28, 31, 30, 31, 30, 31, 31, 30, 31, 30, 31};
    return days[month] + (month == 2 && year % 4 == 0); /* 2000 to 2099: every fourth year is a leap year */
}

/* A day's number as its date: day 0 is 2000-01-01. */
static void print_day(unsigned long day)
{
    unsigned year = 2000, month = 1;
    for (unsigned long n; day >= (n = year % 4 ? 365 : 366); year++)
        day -= n;
    for (unsigned n; day >= (n = days_of_month(year, month)); month++)
        day -= n;
    printf("%04u-%02u-%02lu", year, month, day + 1);
}

static unsigned long u32_at(const uint8_t *s, size_t at) { return (unsigned long)u16_at(s, at) << 16 | u16_at(s, at + 2); }

/* A constant: its label, a day's date, or a quantity. An item is its length, its kind, its value. */
static void print_constant(unsigned c)
{
    const uint8_t *item = policy + constants[c];
    switch (item[1]) {
    case SECPAL_DAY:
        print_day(u32_at(item, 2));
        break;
    case SECPAL_QUANTITY:
        printf("%lu", u32_at(item, 2));
        break;
    default:
        printf("%.*s", item[0] - 1, (const char *)item + 2);
    }
}

/* A verb's item is its length, its arity, a kind for each parameter, its label. Verb 0 is built in. */
static unsigned arity(unsigned verb) { return verb == 0 ? 1 : policy[verbs[verb - 1] + 1]; }

static void print_verb(unsigned verb)
{
    if (verb == 0) {
        printf("can act as");
        return;
    }
    const uint8_t *item = policy + verbs[verb - 1];
    printf("%.*s", item[0] - 1 - item[1], (const char *)item + 2 + item[1]);
}

/* "Works says North can say Otto is-fitter" */
static void print_fact(const uint8_t *r)
{
    print_constant(r[SECPAL_RECORD_ISSUER]);
    printf(r[SECPAL_RECORD_DEPTH] ? " says " : " says, depth 0, ");
    for (unsigned i = 0; i < r[SECPAL_RECORD_NEST]; i++) {
        print_constant(r[SECPAL_RECORD_SPEAKERS + 2 * i]);
        printf(r[SECPAL_RECORD_SPEAKERS + 2 * i + 1] ? " can say " : " can say, depth 0, ");
    }
    print_constant(r[SECPAL_RECORD_SUBJECT]);
    printf(" ");
    print_verb(r[SECPAL_RECORD_VERB]);
    for (unsigned i = 0; i < arity(r[SECPAL_RECORD_VERB]); i++) {
        printf(" ");
        print_constant(r[SECPAL_RECORD_PARAMETERS + i]);
    }
}

/* The facts by round. They stand in the order of their bytes 2 to 15, so they are counted by round first, and then laid out. */
static void print_facts(uint32_t count, uint32_t rounds)
{
    static uint32_t next[SECPAL_RECORDS + 2], order[SECPAL_RECORDS];
    for (uint32_t i = 0; i < count; i++)
        next[u16_at(facts, (size_t)SECPAL_RECORD * i + SECPAL_RECORD_ROUND) + 1]++;
    for (uint32_t round = 1; round <= rounds; round++)
        next[round] += next[round - 1];
    for (uint32_t i = 0; i < count; i++)
        order[next[u16_at(facts, (size_t)SECPAL_RECORD * i + SECPAL_RECORD_ROUND)]++] = i;
    for (uint32_t i = 0; i < count; i++) {
        const uint8_t *f = facts + (size_t)SECPAL_RECORD * order[i];
        printf("  round %u: ", u16_at(f, SECPAL_RECORD_ROUND));
        print_fact(f);
        printf("\n");
    }
}

/* The expression at `at` of the request: a variable, today, or a constant. */
static void print_expression(size_t at)
{
    unsigned e = u16_at(request, at);
    if (e >= 0x8000)
        printf("v%u", e - 0x8000);
    else if (e == 0x4000)
        printf("today");
    else
        print_constant(e);
}

/* The fact at `at` of the request; where it ends. The request is accepted. */
static size_t print_asked_fact(size_t at)
{
    size_t p = at + 1;
    for (unsigned i = 0; i < request[at]; i++, p += 3) {
        print_expression(p);
        printf(request[p + 2] ? " can say " : " can say, depth 0, ");
    }
    unsigned verb = request[p + 2];
    print_expression(p);
    printf(" ");
    print_verb(verb);
    p += 3;
    for (unsigned i = 0; i < arity(verb); i++, p += 2) {
        printf(" ");
        print_expression(p);
    }
    return p;
}

/* The node at `at` of the request, in words; where it ends. */
static size_t print_node(size_t at)
{
    static const char *const operators[] = {"", "is", "is not", "is at most", "begins with", "is no later than a year after"};
    size_t p = at + 2;
    switch (request[at]) {
    case 1:
        print_expression(at + 1);
        printf(" says ");
        return print_asked_fact(at + 3);
    case 2:
        print_expression(at + 2);
        printf(" %s ", operators[request[at + 1]]);
        print_expression(at + 4);
        return at + 6;
    case 5:
        printf("not ");
        return print_node(at + 1);
    case 6:
        printf("for some v%u, ", request[at + 1]);
        return print_node(at + 2);
    default:
        printf(request[at] == 3 ? "all of (" : "any of (");
        for (unsigned i = 0; i < request[at + 1]; i++) {
            printf(i ? "; " : "");
            p = print_node(p);
        }
        printf(")");
        return p;
    }
}

static void print_answer(const uint8_t *a)
{
    unsigned bound = 0;
    for (unsigned v = 0; v < SECPAL_VARIABLES; v++) {
        if (a[v] == SECPAL_UNBOUND)
            continue;
        printf("%s v%u = ", bound++ ? "," : "  answer:", v);
        print_constant(a[v]);
    }
    if (bound)
        printf("\n");
}

enum { EXIT_ALLOW = 0, EXIT_DENY = 1, EXIT_NO_ANSWER = 2 };

int main(int argc, char **argv)
{
    int with_facts = argc > 1 && strcmp(argv[1], "--facts") == 0;
    char **files = argv + 1 + with_facts; /* argv ends with NULL */
    int count = argc - 1 - with_facts;
    if (count < 2 || count > 4)
        return fprintf(stderr, "usage: %s [--facts] POLICY REQUEST [WITHDRAWALS [HIERARCHY]]\n", argv[0]), EXIT_NO_ANSWER;
    policy_len = load(files[0], policy, sizeof policy);
    request_len = load(files[1], request, sizeof request);
    withdrawals_len = load_entries(files[2], withdrawals, sizeof withdrawals);
    hierarchy_len = load_entries(count == 4 ? files[3] : NULL, hierarchy, sizeof hierarchy);

    secpal_report r = secpal_decide(policy, policy_len, request, request_len, withdrawals, withdrawals_len, hierarchy, hierarchy_len, facts,
                                    sizeof facts, answers, sizeof answers);

    if (r.decision == SECPAL_REFUSED) {
        printf("refused (%u): %s", (unsigned)r.refusal, refusals[r.refusal]);
        if (r.side != SECPAL_SIDE_NONE)
            printf(",%s, at byte %llu", sides[r.side], (unsigned long long)r.place);
        printf("\n");
        return EXIT_NO_ANSWER;
    }
    look_up_names();
    print_node(SECPAL_REQUEST_NODE);
    if (r.decision == SECPAL_ALLOW) {
        printf(": allowed\n");
    } else {
        printf(": denied, it does not follow from the policy on ");
        print_day(u32_at(request, SECPAL_REQUEST_TODAY));
        printf("\n");
    }
    for (uint64_t i = 0; i < r.answers; i++)
        print_answer(answers + SECPAL_ANSWER * i);
    if (with_facts)
        print_facts(r.facts, r.rounds);
    return r.decision == SECPAL_ALLOW ? EXIT_ALLOW : EXIT_DENY;
}
