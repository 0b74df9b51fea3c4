/*
 * The stack that each call uses: it is run on a stack of its own that was
 * filled with a pattern, and what it overwrote is counted. `stack TABLE..`
 */
#define _GNU_SOURCE
#include <stdio.h>
#include <stdlib.h>
#include <string.h>
#include <ucontext.h>

#include "../include/chinebright.h"

enum { SIZE = 1 << 20, PATTERN = 0xA5 };

static uint8_t table[CHINEBRIGHT_LONGEST_TABLE + 1], out[1 << 20], state[CHINEBRIGHT_PLACES];
static size_t length;
static uint8_t *stack;
static ucontext_t here, there;

static void nothing(void) {}
static void call_read(void) { chinebright_read(table, length); }
static void call_races(void) { chinebright_races(table, length, out, sizeof out); }
static void call_illegal(void) { chinebright_illegal(table, length, out, sizeof out); }
static void call_thresholds(void) { chinebright_thresholds(table, length, out, sizeof out); }
static void call_listing(void) { chinebright_listing(table, length, out, sizeof out); }

static void call_preempts(void)
{
    for (size_t t = 0; t < 128; t++)
        for (size_t u = 0; u < 128; u++)
            chinebright_preempts(table, length, t, u);
}

/* Every step that is granted, each task and each access tried once. */
static void call_step(void)
{
    chinebright_fresh(state, sizeof state);
    for (int kind = 0; kind < 4; kind++)
        for (size_t n = 0; n < 128; n++)
            chinebright_step(table, length, state, sizeof state, (uint8_t)kind, n);
}

static size_t used(void (*call)(void))
{
    memset(stack, PATTERN, SIZE);
    getcontext(&there);
    there.uc_stack.ss_sp = stack;
    there.uc_stack.ss_size = SIZE;
    there.uc_link = &here;
    makecontext(&there, call, 0);
    swapcontext(&here, &there);
    size_t free = 0;
    while (free < SIZE && stack[free] == PATTERN) free++;
    return SIZE - free;
}

static const struct {
    const char *name;
    void (*call)(void);
} calls[] = {
    {"read", call_read},       {"preempts", call_preempts}, {"races", call_races},     {"illegal", call_illegal},
    {"thresholds", call_thresholds}, {"step", call_step},   {"listing", call_listing},
};

int main(int argc, char **argv)
{
    stack = malloc(SIZE);
    size_t most[sizeof calls / sizeof *calls] = {0};
    size_t base = used(nothing);
    for (int i = 1; i < argc; i++) {
        FILE *file = fopen(argv[i], "rb");
        if (!file) {
            fprintf(stderr, "stack: no file %s\n", argv[i]);
            return 2;
        }
        length = fread(table, 1, sizeof table, file);
        fclose(file);
        for (size_t c = 0; c < sizeof calls / sizeof *calls; c++) {
            size_t bytes = used(calls[c].call) - base;
            if (bytes > most[c]) most[c] = bytes;
        }
    }
    for (size_t c = 0; c < sizeof calls / sizeof *calls; c++) printf("%-10s %zu\n", calls[c].name, most[c]);
    return 0;
}
