/* Large permits: 240 assertions with bodies of four facts and a date that rules all of them out, or all but one. In the first two the date stands in a constraint
   alone; in the third the second fact of the body binds it. Beside each decision what reading its policy takes. */
#include "bench.h"
#include "writer.h"

#include <stdbool.h>
#include <stdio.h>

enum { TURNS = 25, FITTERS = 4, PERMITS = 240, CREW = 1, UNTIL, BADGED, TRAINED, MAY, AT_MOST = 3, PAST = 9000, NOW = 9350, AHEAD = 9400 };

/* The constants: the desk and the fitters, the things, and two days. */
enum { FIRST_THING = FITTERS + 1, OVER = FIRST_THING + PERMITS, COMING };

static writer policy, request;
static uint8_t facts[FACTS_LEN], answers[ANSWERS_LEN];

static void start(void) {
    static const uint8_t day[1] = {DAY}, thing[1] = {THING};
    begun(&policy);
    list(&policy);
    for (unsigned i = 0; i <= FITTERS; i++) labelled(&policy, PRINCIPAL, "p", i);
    for (unsigned i = 0; i < PERMITS; i++) labelled(&policy, THING, "t", i);
    numbered(&policy, DAY, PAST);
    numbered(&policy, DAY, AHEAD);
    list(&policy);
    verb(&policy, "crew", 0, day);
    verb(&policy, "until", 1, day);
    verb(&policy, "badged", 0, day);
    verb(&policy, "trained", 0, day);
    verb(&policy, "may", 1, thing);
    list(&policy);
}

/* "0 says FITTER VERB A", for all fitters. */
static void stated(unsigned verb, unsigned arity, unsigned a) {
    for (unsigned i = 1; i <= FITTERS; i++) {
        said(&policy, 0);
        fact(&policy, i, verb, arity, a, 0, 0);
        put_two(&policy, 0);
        closed(&policy);
    }
}

/* "0 says v0 may THING if v0 crew, v0 until v1, v0 badged, v0 trained; today at most DAY" */
static void permit(unsigned thing, unsigned day) {
    said(&policy, 0);
    fact(&policy, V0, MAY, 1, FIRST_THING + thing, 0, 0);
    put_one(&policy, 4);
    fact(&policy, V0, CREW, 0, 0, 0, 0);
    fact(&policy, V0, UNTIL, 1, V1, 0, 0);
    fact(&policy, V0, BADGED, 0, 0, 0, 0);
    fact(&policy, V0, TRAINED, 0, 0, 0, 0);
    put_one(&policy, 1);
    tested(&policy, AT_MOST, TODAY, day);
    closed(&policy);
}

/* The date is bound by the second fact or stands there; one permit is left or none. */
static void permits(bool bound, bool one) {
    start();
    stated(CREW, 0, 0);
    stated(UNTIL, 1, OVER);
    stated(BADGED, 0, 0);
    stated(TRAINED, 0, 0);
    for (unsigned i = 0; i < PERMITS; i++) permit(i, bound ? V1 : one && i == 0 ? COMING : OVER);
    ended(&policy);
}

static void ask(void) {
    begun(&request);
    put_four(&request, NOW);
    put_one(&request, 1);
    put_two(&request, 0);
    fact(&request, 1, MAY, 1, FIRST_THING, 0, 0);
    ended(&request);
}

/* The best time of a call, with a request or with none: that is refused once the policy is read. */
static double best(size_t asked, secpal_report *r) {
    double least = 1e12;
    for (int i = 0; i < TURNS; i++) {
        double from = clock_ms();
        *r = secpal_decide(policy.bytes, policy.len, request.bytes, asked, SECPAL_NONE, SECPAL_NONE_LEN, SECPAL_NONE, SECPAL_NONE_LEN, facts,
                           FACTS_LEN, answers, ANSWERS_LEN);
        double took = clock_ms() - from;
        if (took < least) least = took;
    }
    return least;
}

static int row(const char *name, bool bound, bool one) {
    secpal_report none, r;
    permits(bound, one);
    ask();
    double reading = best(0, &none), decision = best(request.len, &r);
    printf("| %s | %u | %.3f | %.3f | %.1f |\n", name, r.facts, reading, decision, decision / reading);
    if (none.side == 2 && r.refusal == 0) return 0;
    fprintf(stderr, "permits: %s: refused with %u\n", name, r.refusal);
    return 1;
}

int main(void) {
    printf("Milliseconds of processor time, best of %d.\n\n| %d permits | facts | reading | decision | times |\n|---|---|---|---|---|\n", TURNS, PERMITS);
    int faults = row("today rules all out", false, false) + row("today rules all but one out", false, true);
    faults += row("the second fact's date rules all out", true, false);
    return faults != 0;
}
