/* An accepted policy as plain C data: its constants, the assertions that count for a request and are not withdrawn, and the hierarchy. */
#ifndef PROGRAM_H
#define PROGRAM_H

#include "bench.h"

#include <stdbool.h>

enum { PRINCIPAL = 1, THING = 2, DAY = 3, QUANTITY = 4 };
enum { TODAY = 0x4000, VARIABLE = 0x8000 };
/* Where a fact's parts stand in the 12 fields of a record from byte 4 on: nest, three speaker and depth pairs, subject, verb, three parameters. */
enum { NEST = 0, SPEAKER = 1, SUBJECT = 7, VERB = 8, PARAMETER = 9, FIELDS = 12 };

typedef struct {
    uint8_t kind, len; /* of the label, 0 where there is none */
    const uint8_t *label;
    uint32_t number; /* of a day or a quantity */
} constant;

typedef struct {
    uint8_t op;
    uint16_t left, right;
} test;

typedef struct {
    uint32_t serial;
    uint8_t issuer, bodies, tests;
    uint8_t kind[8]; /* of each variable, 0 where it has no place in head and body */
    uint16_t head[FIELDS], body[4][FIELDS];
    test test[4];
} rule;

/* A child, and the next of its parent's; numbers from 1 on, 0 for none. */
typedef struct {
    uint8_t child;
    uint16_t next;
} level;

typedef struct {
    uint32_t version, constants, verbs, rules, today;
    constant constant[255];
    uint8_t arity[65], parameter[65][3];
    bool reached[255];
    rule rule[256];
    uint16_t first[65][3][255]; /* the first level below a constant as a parameter of a verb */
    level level[1024];
} program;

/* Fills in the program of slices, which must be accepted ones. */
void read_program(program *g, const slices *given);

/* Writes what is below a constant as a parameter of a verb, over one level or more, and returns how many there are. */
uint32_t descendants(const program *g, uint8_t verb, unsigned parameter, uint8_t constant, uint8_t found[255]);

/* The day one year after, by the calendar. */
uint32_t year_after(uint32_t day);

/* Whether a test holds between two constants, or today. */
bool holds(const program *g, uint8_t op, uint16_t left, uint16_t right);

#endif
