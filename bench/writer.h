/* Writes the bytes of policies, requests, withdrawals and hierarchies. */
#ifndef WRITER_H
#define WRITER_H

#include <stddef.h>
#include <stdint.h>

enum { PRINCIPAL = 1, THING = 2, DAY = 3, QUANTITY = 4 };

/* An expression: a constant is its number. */
enum { TODAY = 0x4000, V0 = 0x8000, V1, V2, V3, V4, V5, V6, V7 };

typedef struct {
    size_t len, count_at, item_at; /* the bytes so far, where the list's count stands and the item's length */
    uint8_t bytes[65536];
} writer;

void put_one(writer *w, unsigned x);
void put_two(writer *w, unsigned x);
void put_four(writer *w, unsigned x);

/* Version and room for the length, which ended() fills in. */
void begun(writer *w);
void ended(writer *w);

/* A list: its count goes up with each item. */
void list(writer *w);
void labelled(writer *w, unsigned kind, const char *letters, unsigned number);
void numbered(writer *w, unsigned kind, unsigned value);
void verb(writer *w, const char *label, unsigned arity, const uint8_t *kinds);

/* An assertion: said() opens it, with serial 0, then come the head, counted body facts and counted tests, and closed() ends it. */
void said(writer *w, unsigned issuer);
void said_under(writer *w, unsigned issuer, unsigned serial);
void closed(writer *w);

/* An entry of withdrawals; its tests follow. */
void withdrawn(writer *w, unsigned issuer, unsigned serial, unsigned tests);

/* An entry of a hierarchy. */
void leveled(writer *w, unsigned verb, unsigned position, unsigned parent, unsigned child);

/* A flat fact with the verb's parameters, and a test. */
void fact(writer *w, unsigned subject, unsigned verb, unsigned arity, unsigned a, unsigned b, unsigned c);
void tested(writer *w, unsigned op, unsigned left, unsigned right);

#endif
