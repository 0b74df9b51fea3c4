/* See tally.h. */
#include "tally.h"

#include <stdio.h>
#include <stdlib.h>

#include "../include/chinebright.h"

const char *const call_names[CALLS] = {"read",       "preempts", "races", "illegal",
                                       "thresholds", "fresh",    "step",  "listing"};
static uint64_t answers[CALLS][REFUSALS];
static uint64_t inputs, accepted, calls, long_inputs;
static size_t longest;

/* The fuzzer keeps an input that sets one of these for the first time: the
 * library has no counters of its own, so its answers stand for its branches. */
__attribute__((section("__libfuzzer_extra_counters"))) static uint8_t seen_answers[CALLS][REFUSALS];
__attribute__((section("__libfuzzer_extra_counters"))) static uint8_t seen_sizes[REMARKS][24];

void remark(unsigned what, size_t size)
{
    unsigned power = 0;
    while (size > 0 && power < 23) {
        size >>= 1;
        power++;
    }
    seen_sizes[what][power] = 1;
}

static void report(void)
{
    const char *path = getenv("FUZZ_REPORT");
    FILE *file = path ? fopen(path, "w") : NULL;
    if (file == NULL)
        return;
    fprintf(file, "inputs %llu\naccepted %llu\nlonger %llu\nlongest %zu\ncalls %llu\n",
            (unsigned long long)inputs, (unsigned long long)accepted,
            (unsigned long long)long_inputs, longest, (unsigned long long)calls);
    for (int call = 0; call < CALLS; call++)
        for (int number = 0; number < REFUSALS; number++)
            if (answers[call][number] > 0)
                fprintf(file, "%s %d %llu\n", call_names[call], number,
                        (unsigned long long)answers[call][number]);
    fclose(file);
}

void count_call(enum call call, uint64_t answer)
{
    uint32_t number = chinebright_number(answer);
    calls++;
    if (number < REFUSALS) {
        answers[call][number]++;
        seen_answers[call][number] = 1;
    }
}

void count_input(size_t length, uint64_t reading)
{
    if (inputs++ == 0)
        atexit(report);
    accepted += chinebright_number(reading) == 0;
    long_inputs += length > CHINEBRIGHT_LONGEST_TABLE;
    if (length > longest)
        longest = length;
}
