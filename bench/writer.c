/* Writes the bytes of policies, requests, withdrawals and hierarchies. */
#include "writer.h"

#include <stdio.h>
#include <string.h>

void put_one(writer *w, unsigned x) {
    w->bytes[w->len++] = (uint8_t)x;
}

void put_two(writer *w, unsigned x) {
    put_one(w, x >> 8);
    put_one(w, x);
}

void put_four(writer *w, unsigned x) {
    put_two(w, x >> 16);
    put_two(w, x);
}

/* Writes two bytes over those at `at`. */
static void set_two(writer *w, size_t at, size_t x) {
    w->bytes[at] = (uint8_t)(x >> 8);
    w->bytes[at + 1] = (uint8_t)x;
}

void begun(writer *w) {
    w->len = 0;
    put_one(w, 1);
    put_four(w, 0);
}

void ended(writer *w) {
    size_t rest = w->len - 5;
    set_two(w, 1, rest >> 16);
    set_two(w, 3, rest & 0xffff);
}

void list(writer *w) {
    w->count_at = w->len;
    put_two(w, 0);
}

static void counted(writer *w) {
    set_two(w, w->count_at, (size_t)(w->bytes[w->count_at] << 8 | w->bytes[w->count_at + 1]) + 1);
}

static void put_text(writer *w, const char *text) {
    while (*text) put_one(w, (unsigned char)*text++);
}

void labelled(writer *w, unsigned kind, const char *letters, unsigned number) {
    char label[33];
    snprintf(label, sizeof label, "%s%u", letters, number);
    counted(w);
    put_one(w, (unsigned)strlen(label) + 1);
    put_one(w, kind);
    put_text(w, label);
}

void numbered(writer *w, unsigned kind, unsigned value) {
    counted(w);
    put_one(w, 5);
    put_one(w, kind);
    put_four(w, value);
}

void verb(writer *w, const char *label, unsigned arity, const uint8_t *kinds) {
    counted(w);
    put_one(w, 1 + arity + (unsigned)strlen(label));
    put_one(w, arity);
    for (unsigned i = 0; i < arity; i++) put_one(w, kinds[i]);
    put_text(w, label);
}

void said_under(writer *w, unsigned issuer, unsigned serial) {
    counted(w);
    w->item_at = w->len;
    put_two(w, 0);
    put_four(w, serial);
    put_two(w, issuer);
}

void said(writer *w, unsigned issuer) {
    said_under(w, issuer, 0);
}

void closed(writer *w) {
    set_two(w, w->item_at, w->len - w->item_at - 2);
}

void withdrawn(writer *w, unsigned issuer, unsigned serial, unsigned tests) {
    counted(w);
    put_two(w, issuer);
    put_four(w, serial);
    put_one(w, tests);
}

void leveled(writer *w, unsigned verb, unsigned position, unsigned parent, unsigned child) {
    counted(w);
    put_one(w, verb);
    put_one(w, position);
    put_two(w, parent);
    put_two(w, child);
}

void fact(writer *w, unsigned subject, unsigned verb, unsigned arity, unsigned a, unsigned b, unsigned c) {
    const unsigned parameter[3] = {a, b, c};
    put_one(w, 0);
    put_two(w, subject);
    put_one(w, verb);
    for (unsigned i = 0; i < arity; i++) put_two(w, parameter[i]);
}

void tested(writer *w, unsigned op, unsigned left, unsigned right) {
    put_one(w, op);
    put_two(w, left);
    put_two(w, right);
}
