/*
 * The engine's interface for C. Link with build/libengine.a, which scripts/library builds, or, where it is installed, with what
 * `pkg-config --cflags --libs secpal` says.
 *
 * docs/FORMAT.md has the layout of policies, requests, withdrawals, hierarchies, records and answers to the byte, and every refusal with its
 * condition and place.
 *
 * What a call costs: each call but secpal_version reads the policy once, from front to back: about 0.001 ms for the belt policy of 114 bytes,
 * 0.02 ms for one of 6,000 bytes with 255 constants. secpal_reach and secpal_decide then read the other slices. secpal_decide derives, which takes as
 * long as the policy makes it take: from 0.004 ms to many minutes. NO CALL HAS A LIMIT OF TIME. Every call ends, by proof, but a host that takes
 * policies from strangers should run secpal_decide where it can give it up, in a process of its own. docs/SPEED.md has figures.
 *
 * In a debugger: the archive is optimized code. It has the names of its functions, but no line numbers, no variables and no unwind tables
 * (.eh_frame). At a breakpoint on an entry point the back trace is whole, and `finish` works; where a debugger, a profiler or a sanitizer looks at
 * the stack inside a call, the trace names functions of the engine and ends there, before the caller.
 */
#ifndef SECPAL_H
#define SECPAL_H

#include <stddef.h>
#include <stdint.h>

#ifdef __cplusplus
extern "C" {
#endif

/* The limits, by name. crates/engine has them under the same names. */
enum {
    SECPAL_VERSION = 1,       /* the first byte of each slice */
    SECPAL_POLICY_VERSIONS = 2, /* a policy's is 1 or 2; in 2 acting as somebody does not carry what he can say */
    SECPAL_CONSTANTS = 255,   /* constants in a policy */
    SECPAL_VERBS = 64,        /* verbs in a policy, beside verb 0, "can act as" */
    SECPAL_ASSERTIONS = 256,  /* assertions in a policy */
    SECPAL_LABEL = 32,        /* bytes of a label */
    SECPAL_ARITY = 3,         /* parameters of a verb */
    SECPAL_NEST = 3,          /* speakers of a fact */
    SECPAL_BODY = 4,          /* body facts of an assertion */
    SECPAL_CONSTRAINTS = 4,   /* constraints of an assertion or an entry */
    SECPAL_WITHDRAWALS = 256, /* entries of withdrawals */
    SECPAL_HIERARCHY = 1024,  /* entries of a hierarchy */
    SECPAL_VARIABLES = 8,     /* variables of an assertion or a request */
    SECPAL_PARTS = 8,         /* parts of an all-of or any-of */
    SECPAL_DEPTH = 8,         /* nodes inside each other */
    SECPAL_LAST_DAY = 36524,  /* days since 1 January 2000 */
    SECPAL_RECORD = 16,       /* bytes of a fact record */
    SECPAL_RECORDS = 65535,   /* fact records at most, however long the buffer is */
    SECPAL_ANSWER = 8,        /* bytes of an answer */
    SECPAL_UNBOUND = 255      /* in an answer: this variable is not free */
};

/* The kinds of constants and of a verb's parameters. */
enum { SECPAL_PRINCIPAL = 1, SECPAL_THING = 2, SECPAL_DAY = 3, SECPAL_QUANTITY = 4 };

/* The fields of a record in `facts`, by offset. A constant is one byte, its number; an unlimited depth is 1; unused bytes are 0. */
enum {
    SECPAL_RECORD_ROUND = 0,      /* 2 bytes, big-endian: the round in which the fact first appears */
    SECPAL_RECORD_ISSUER = 2,     /* who says it */
    SECPAL_RECORD_DEPTH = 3,      /* at which depth */
    SECPAL_RECORD_NEST = 4,       /* how many speakers, 0 to 3 */
    SECPAL_RECORD_SPEAKERS = 5,   /* three pairs of speaker and depth, outermost first: "speaker can say, depth, .." */
    SECPAL_RECORD_SUBJECT = 11,
    SECPAL_RECORD_VERB = 12,
    SECPAL_RECORD_PARAMETERS = 13 /* three */
};

/* An answer in `answers` is SECPAL_VARIABLES bytes: byte v is the number of the constant for variable v, or SECPAL_UNBOUND. */

/* The fields of a request, by offset, after the version and the length. */
enum { SECPAL_REQUEST_TODAY = 5, SECPAL_REQUEST_NODE = 9 };

/* secpal_report.decision */
enum { SECPAL_REFUSED = 0, SECPAL_ALLOW = 1, SECPAL_DENY = 2 };

/* secpal_report.refusal: 0 with a decision, else one of these */
enum {
    SECPAL_BAD_VERSION = 1,
    SECPAL_BAD_LENGTH = 2,
    SECPAL_BAD_FORM = 3,
    SECPAL_ALIKE = 4,            /* a constant or verb alike to an earlier one; capitals do not tell labels apart */
    SECPAL_NO_FIT = 5,           /* an expression, kind or verb number with no fit */
    SECPAL_UNSAFE_ASSERTION = 6,
    SECPAL_UNSAFE_REQUEST = 7,
    SECPAL_TOO_MANY_FACTS = 8,
    SECPAL_TOO_MANY_ANSWERS = 9,
    SECPAL_OPEN_WITHDRAWAL = 10, /* an entry of withdrawals with a variable */
    SECPAL_OWN_CHILD = 11        /* an entry of a hierarchy whose parent and child are one */
};

/* secpal_report.side: where a refusal's place is; none with 8 and 9 */
enum { SECPAL_SIDE_NONE = 0, SECPAL_SIDE_POLICY = 1, SECPAL_SIDE_REQUEST = 2, SECPAL_SIDE_WITHDRAWALS = 3, SECPAL_SIDE_HIERARCHY = 4 };

/* A slice without entries, for a caller that has no withdrawals or no hierarchy: secpal_decide(.., SECPAL_NONE, SECPAL_NONE_LEN, ..). No bytes at all
   are refused. */
#define SECPAL_NONE ((const uint8_t *)"\1\0\0\0\2\0")
#define SECPAL_NONE_LEN ((size_t)7)

typedef struct {
    uint32_t decision; /* SECPAL_REFUSED, SECPAL_ALLOW or SECPAL_DENY */
    uint32_t refusal;  /* which refusal, 0 with a decision */
    uint32_t side;     /* in which input the refusal's place is */
    uint32_t facts;    /* how many records stand at the front of `facts` */
    uint32_t rounds;   /* the last round that added a fact */
    uint64_t place;    /* the offset of the first byte of the item that is refused */
    uint64_t answers;  /* how many answers stand at the front of `answers` */
} secpal_report;

/*
 * Decides a request under a policy, without the statements that are withdrawn.
 *
 * policy, request,  the bytes, read only, of any content and any length, and in this order. An entry of withdrawals removes every assertion of
 * withdrawals,      its issuer and serial while its constraints hold on the request's day. An entry of the hierarchy says for a parameter of a verb
 * hierarchy         that a child is below its parent: what is said with a constant is also said with those below it. SECPAL_NONE has no entries
 * facts             lent for the facts: room for facts_len / 16 records, at most 65,535 of them. Afterwards: with a refusal from the input (1 to 7,
 *                   10, 11) as it was; with 8 all 0; else the records in ascending order of their bytes 2 to 15, and 0 after them
 * answers           lent for the answers: room for answers_len / 8. Afterwards: with a refusal from the input and with 8 as it was; with 9 all 0;
 *                   else the answers in ascending order, a constant's number for each of the eight variables, 255 where one is not free, and 0
 *                   after them
 *
 * No pointer may be NULL, also where its length is 0; `facts` and `answers` must not overlap each other or an input. Nothing is kept
 * after the call, and calls at the same time on different buffers do not disturb each other. It takes stack and no other memory: below 200,000 bytes
 * with a fact buffer of at most 65,536 bytes, below 1,000,000 with a larger one, on all that was tried (tests/stack measures both on each check).
 */
secpal_report secpal_decide(const uint8_t *policy, size_t policy_len, const uint8_t *request, size_t request_len,
                            const uint8_t *withdrawals, size_t withdrawals_len, const uint8_t *hierarchy, size_t hierarchy_len,
                            uint8_t *facts, size_t facts_len, uint8_t *answers, size_t answers_len);

/* A part of the policy's bytes. */
typedef struct {
    const uint8_t *data;
    size_t len;
} secpal_slice;

/*
 * The label of a constant, a principal or a thing: *label becomes that part of the caller's policy bytes, not a copy, so it lives as long as
 * they do, in their own case, and no 0 byte ends it. For other kinds, numbers not present and policies that are not accepted it is a part of
 * length 0.
 * policy and label may not be NULL.
 */
void secpal_label(const uint8_t *policy, size_t policy_len, uint32_t constant, secpal_slice *label);

/*
 * Where each constant's item stands in the policy: offsets[i] becomes the offset of the length byte of constant i, for as many constants as
 * offsets_len items have room for; the others stay as they were. Returns the count of constants, 0 for a policy that is not accepted (offsets
 * are then as they were). One call in the place of a secpal_label for each constant: an item is its length byte, its kind, its value. With
 * offsets_len 0 it counts, and says whether the policy is accepted. offsets may not be NULL, also where offsets_len is 0.
 */
uint32_t secpal_constants(const uint8_t *policy, size_t policy_len, uint32_t *offsets, size_t offsets_len);

/* The same for the verbs: offsets[i] is where verb i + 1 stands, an item being its length byte, its arity, its kinds, its label. */
uint32_t secpal_verbs(const uint8_t *policy, size_t policy_len, uint32_t *offsets, size_t offsets_len);

/*
 * The number of the principal or thing (kind SECPAL_PRINCIPAL or SECPAL_THING) with this label, A to Z being read as a to z, or
 * SECPAL_NOT_FOUND: there is none, the kind is another one, or the policy is not accepted. There is never a second one (refusal 4).
 */
uint32_t secpal_find(const uint8_t *policy, size_t policy_len, uint32_t kind, const uint8_t *label, size_t label_len);
#define SECPAL_NOT_FOUND UINT32_MAX

/*
 * Whose words count for this request: marks[i] becomes 1 if constant i is a principal in the request's reach, and 0 otherwise, for all of
 * marks_len. The reach is the least set of principals that has every issuer in the request's says nodes and, for each assertion issued in the
 * set and not withdrawn, the outermost speaker of a nested head and, in a policy of version 1, the subject of a flat head with verb 0; where one of
 * these is a variable, all principals join. The hierarchy brings nobody in.
 * Nobody outside can change a byte of the decision: whatever statements they add, result and both buffers stay the same
 * (demand 3 of docs/PROOFS.md). No derivation is done. With a refusal from the input (1 to 7, 10, 11) the report's refusal, side and place are those
 * that secpal_decide would give, and the marks are as they were; otherwise all fields of the report are 0, and the marks are written.
 */
secpal_report secpal_reach(const uint8_t *policy, size_t policy_len, const uint8_t *request, size_t request_len,
                           const uint8_t *withdrawals, size_t withdrawals_len, const uint8_t *hierarchy, size_t hierarchy_len,
                           uint8_t *marks, size_t marks_len);

/* The library's version: major * 65536 + minor * 256 + patch. */
uint32_t secpal_version(void);

#ifdef __cplusplus
}
#endif

#endif
