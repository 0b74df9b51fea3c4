/* What a run went through. It is written at its end to the file that the
 * environment variable FUZZ_REPORT names. */
#ifndef TALLY_H
#define TALLY_H

#include <stddef.h>
#include <stdint.h>

enum call { READ, PREEMPTS, RACES, ILLEGAL, THRESHOLDS, FRESH, STEP, LISTING, CALLS };
enum { REFUSALS = 19 };
extern const char *const call_names[CALLS];

void count_call(enum call call, uint64_t answer);
void count_input(size_t length, uint64_t reading);

/* Tells the fuzzer that something worth keeping an input for came up, of a
 * size that is told apart by its power of two. */
void remark(unsigned what, size_t size);

enum {
    NODES,
    LOCKS,
    RESOURCES,
    ACCESSES,
    RACES_FOUND,
    ILLEGAL_FOUND,
    STEPS,              /* and the step's kind: the refusal */
    PLACES = STEPS + 4, /* and the refusal: its place */
    REMARKS = PLACES + 12
};

#endif
