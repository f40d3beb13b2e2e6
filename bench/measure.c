/* The engine beside the C peer on workloads, in one process: the same table is asked of both, byte for byte, and the best time of each is told.
   With --clingo also clingo's own time on the same policy as a logic program. */
#include "asp.h"
#include "bench.h"
#include "peer.h"

#include <stdio.h>
#include <string.h>

enum { TURNS = 15 };

static uint8_t facts[FACTS_LEN], answers[ANSWERS_LEN], peer_facts[FACTS_LEN];

typedef struct {
    secpal_report engine;
    peer_report peer;
    double engine_ms, peer_ms;
} result;

static double least(double a, double b) {
    return a < b ? a : b;
}

/* Engine and peer in turn. */
static result measure(const slices *s) {
    result r = {.engine_ms = 1e12, .peer_ms = 1e12};
    for (int i = 0; i < TURNS; i++) {
        double start = clock_ms();
        r.engine = decide(s, facts, FACTS_LEN, answers, ANSWERS_LEN);
        double middle = clock_ms();
        r.peer = peer_derive(s, peer_facts, FACTS_LEN);
        double end = clock_ms();
        r.engine_ms = least(r.engine_ms, middle - start);
        r.peer_ms = least(r.peer_ms, end - middle);
    }
    return r;
}

/* What is wrong with a result, or an empty text. */
static const char *fault(const result *r) {
    if (r->engine.refusal != 0 && r->engine.refusal != 8) return "the engine refuses the input";
    if (r->peer.full != (r->engine.refusal == 8)) return "one of them has no room";
    if (r->peer.facts != r->engine.facts) return "the counts of facts differ";
    if (r->peer.rounds != r->engine.rounds) return "the counts of rounds differ";
    if (memcmp(facts, peer_facts, FACTS_LEN) != 0) return "the tables differ";
    return "";
}

static int row(const char *dir, bool with_clingo, const char *scratch) {
    slices s = read_slices(dir);
    result r = measure(&s);
    const char *wrong = fault(&r);
    printf("| %s | %u | %u | %.3f | %.3f | %.2f |", base_name(dir), r.engine.facts, r.engine.rounds, r.engine_ms, r.peer_ms, r.engine_ms / r.peer_ms);
    if (with_clingo && (*wrong || r.engine.refusal != 0)) {
        printf(" |");
    } else if (with_clingo) {
        clingo_report c = clingo_run(&s, scratch);
        printf(" %.0f |", c.ms);
        if (c.facts != r.engine.facts) wrong = "clingo's count of facts differs";
    }
    printf("\n");
    fflush(stdout);
    if (*wrong) fprintf(stderr, "measure: %s: %s\n", dir, wrong);
    return *wrong != 0;
}

int main(int argc, char **argv) {
    bool with_clingo = false;
    int first = 1;
    const char *scratch = "";
    if (argc > 2 && strcmp(argv[1], "--clingo") == 0) {
        scratch = argv[2];
        with_clingo = true;
        first = 3;
    }
    if (first >= argc) {
        fprintf(stderr, "usage: measure [--clingo SCRATCH.lp] FOLDER..\n");
        return 2;
    }
    printf("Milliseconds of processor time inside the process, best of %d, engine and peer in turn.", TURNS);
    if (with_clingo) printf(" clingo: %s, from reading the program's text on, best of %d.", clingo_time, CLINGO_TURNS);
    printf("\n\n| workload | facts | rounds | engine | C peer | engine / peer |%s\n", with_clingo ? " clingo |" : "");
    printf("|---|---|---|---|---|---|%s\n", with_clingo ? "---|" : "");
    int faults = 0;
    for (int i = first; i < argc; i++) faults += row(argv[i], with_clingo, scratch);
    return faults != 0;
}
