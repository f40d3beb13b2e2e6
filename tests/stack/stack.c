/*
 * How much stack a decision takes: stack FACT_BYTES FOLDER.. decides what stands in each folder on a thread whose stack was filled
 * with a pattern, and prints the most bytes that were written. What a thread takes to start and end is counted with it, some thousand bytes.
 */
#include <pthread.h>
#include <stdio.h>
#include <stdlib.h>
#include <string.h>
#include <sys/mman.h>

#include "../../bench/bench.h"

enum { STACK = 16 << 20, PATTERN = 0xA5 };

struct call {
    slices read;
    uint8_t answers[ANSWERS_LEN];
    uint8_t *facts;
    size_t facts_len;
};

static void *decide_on_thread(void *argument)
{
    struct call *c = argument;
    decide(&c->read, c->facts, c->facts_len, c->answers, sizeof c->answers);
    return NULL;
}

/* The stack grows downwards: what is still the pattern at its low end was not touched. */
static size_t used(struct call *call, uint8_t *stack)
{
    pthread_attr_t attributes;
    pthread_t thread;
    memset(stack, PATTERN, STACK);
    if (pthread_attr_init(&attributes) || pthread_attr_setstack(&attributes, stack, STACK) ||
        pthread_create(&thread, &attributes, decide_on_thread, call) || pthread_join(thread, NULL)) {
        fprintf(stderr, "stack: no thread\n");
        exit(2);
    }
    pthread_attr_destroy(&attributes);
    size_t untouched = 0;
    while (untouched < STACK && stack[untouched] == PATTERN)
        untouched++;
    return STACK - untouched;
}

int main(int argc, char **argv)
{
    if (argc < 3)
        return fprintf(stderr, "usage: %s FACT_BYTES FOLDER..\n", argv[0]), 2;
    static struct call call;
    call.facts_len = strtoul(argv[1], NULL, 10);
    call.facts = malloc(call.facts_len);
    uint8_t *stack = mmap(NULL, STACK, PROT_READ | PROT_WRITE, MAP_PRIVATE | MAP_ANONYMOUS, -1, 0);
    if (!call.facts || stack == MAP_FAILED)
        return fprintf(stderr, "stack: no memory\n"), 2;
    size_t most = 0;
    for (int i = 2; i < argc; i++) {
        call.read = read_slices(argv[i]);
        size_t bytes = used(&call, stack);
        if (bytes > most)
            most = bytes;
    }
    printf("%zu\n", most);
    return 0;
}
