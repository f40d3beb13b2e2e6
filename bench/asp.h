/* A policy as a logic program for clingo. */
#ifndef ASP_H
#define ASP_H

#include "bench.h"

enum { CLINGO_TURNS = 5 };

typedef struct {
    uint32_t facts;
    double ms;
} clingo_report;

/* What clingo_run's milliseconds are, in words. */
extern const char *const clingo_time;

/* Runs clingo on accepted slices, by way of the file `path`; ends the program where clingo fails. */
clingo_report clingo_run(const slices *given, const char *path);

#endif
