/* What the programs of bench/ share: the engine's C interface, and small helpers. */
#ifndef BENCH_H
#define BENCH_H

#include "../host/secpal.h"

enum {
    FACTS_LEN = SECPAL_RECORD * SECPAL_RECORDS, /* room for all records that count */
    ANSWERS_LEN = 65536,
    FILE_LEN = 65536 /* the most that is read of a file */
};

typedef struct {
    size_t len;
    uint8_t bytes[FILE_LEN];
} file;

/* What a decision reads. */
typedef struct {
    secpal_slice policy, request, withdrawals, hierarchy;
} slices;

/* A slice without entries. */
static const secpal_slice no_entries = {SECPAL_NONE, SECPAL_NONE_LEN};

/* Reads DIR/NAME; ends the program where that fails. */
void read_file(file *f, const char *dir, const char *name);

/* A folder's policy.bin and request.bin, and withdrawals.bin and hierarchy.bin where it has them; until the next call. */
slices read_slices(const char *dir);

/* Writes DIR/NAME, and makes the folder where it is missing; ends the program where that fails. */
void write_file(const char *dir, const char *name, const uint8_t *bytes, size_t len);

/* The last part of a path. */
const char *base_name(const char *path);

/* Milliseconds of processor time that this process has had: other programs on the machine count little. */
double clock_ms(void);

/* The engine's decision. */
static inline secpal_report decide(const slices *s, uint8_t *facts, size_t facts_len, uint8_t *answers, size_t answers_len) {
    return secpal_decide(s->policy.data, s->policy.len, s->request.data, s->request.len, s->withdrawals.data, s->withdrawals.len, s->hierarchy.data,
                         s->hierarchy.len, facts, facts_len, answers, answers_len);
}

#endif
