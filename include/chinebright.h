/*
 * Chinebright: a table of tasks, schedulers, locks and accesses, read and
 * judged. Link libchinebright.a.
 *
 * Every call answers a uint64_t: the refusal number (0 where there is none)
 * times 2^32 plus a value. The value is the answer, or the refusal's place.
 *
 *     uint64_t answer = chinebright_races(table, length, out, room);
 *     if (chinebright_number(answer) == 0)
 *         pairs = chinebright_value(answer);
 *
 * What is lent is a pointer and then its length in bytes.
 *   - No pointer may be null, also where its length is 0.
 *   - A lent buffer is apart from the table; only the call uses it meanwhile.
 *   - A refused call leaves every lent byte as found.
 *   - An accepted call writes only the bytes of its answer, from the start of
 *     the buffer; later bytes stay.
 *   - A table is never written to.
 *
 * Every call that takes a table reads it first: refusals 1 to 11 come before
 * all others (chinebright_listing alone has a text for them instead).
 */
#ifndef CHINEBRIGHT_H
#define CHINEBRIGHT_H

#include <stddef.h>
#include <stdint.h>

#ifdef __cplusplus
extern "C" {
#endif

/* The most that a table holds, and the length of the longest one in bytes. */
#define CHINEBRIGHT_MOST_NODES 128
#define CHINEBRIGHT_MOST_LOCKS 32
#define CHINEBRIGHT_MOST_RESOURCES 64
#define CHINEBRIGHT_MOST_ACCESSES 128
#define CHINEBRIGHT_LONGEST_TABLE 1253

/* A machine's state has 128 places of one byte, one for each node number: 0
 * idle, 1 active, 2 + i inside access i. */
#define CHINEBRIGHT_PLACES 128

/* The refusal numbers: when each is given, and (its place). A place is a
 * byte's number in the table, unless something else is said. */
enum chinebright_refusal {
    /* the due byte, count or record runs past the end (the table's length) */
    CHINEBRIGHT_SHORT = 1,
    /* the form is not 1 (0) */
    CHINEBRIGHT_FORM = 2,
    /* a count is outside its limits (the count) */
    CHINEBRIGHT_COUNT = 3,
    /* a parent is no scheduler of a smaller number, or the root's is not 0 (the parent) */
    CHINEBRIGHT_PARENT = 4,
    /* a node kind is above 4, or a lock kind above 1 (the kind) */
    CHINEBRIGHT_KIND = 5,
    /* a provider is no scheduler of the table (the provider) */
    CHINEBRIGHT_PROVIDER = 6,
    /* a mask's is no child of its provider, or a blocking lock's is not 0 (the covered byte) */
    CHINEBRIGHT_COVERED = 7,
    /* an access names no task of the table (the task byte) */
    CHINEBRIGHT_TASK = 8,
    /* an access names no resource of the table (the resource byte) */
    CHINEBRIGHT_RESOURCE = 9,
    /* a set holds a lock that the table has not (the set's first byte) */
    CHINEBRIGHT_LOCK_SET = 10,
    /* bytes follow the last access (the first of them) */
    CHINEBRIGHT_LEFTOVER = 11,
    /* the lent output is too short (the number of bytes needed) */
    CHINEBRIGHT_ROOM = 12,
    /* a node is of kind 4, or a scheduler is a child of kind 2 or 3 (0) */
    CHINEBRIGHT_NO_THRESHOLDS = 13,
    /* the state is malformed (0) */
    CHINEBRIGHT_STATE = 14,
    /* the step names no task, or no access (0) */
    CHINEBRIGHT_NAME = 15,
    /* the step does not fit the task's phase (0) */
    CHINEBRIGHT_PHASE = 16,
    /* the processor is not the task's to take (0) */
    CHINEBRIGHT_PROCESSOR = 17,
    /* a blocking lock is held by another task (0) */
    CHINEBRIGHT_HELD = 18
};

/* The kinds of a step. */
enum chinebright_kind {
    CHINEBRIGHT_START = 0,
    CHINEBRIGHT_OPEN = 1,
    CHINEBRIGHT_CLOSE = 2,
    CHINEBRIGHT_FINISH = 3
};

/* The refusal number of an answer, 0 where there is none. */
static inline uint32_t chinebright_number(uint64_t answer)
{
    return (uint32_t)(answer >> 32);
}

/* The value of an answer: what was asked for, or the refusal's place. */
static inline uint32_t chinebright_value(uint64_t answer)
{
    return (uint32_t)answer;
}

/* Is this a table? The value is 0. */
uint64_t chinebright_read(const uint8_t *table, size_t table_length);

/* May task t preempt task u? The value is 1 or 0; 0 where either number is no
 * task of the table. */
uint64_t chinebright_preempts(const uint8_t *table, size_t table_length, size_t t, size_t u);

/* The races: two bytes a pair, access i and access j, by i and then j. The
 * value is the number of pairs. */
uint64_t chinebright_races(const uint8_t *table, size_t table_length,
                           uint8_t *out, size_t out_length);

/* The illegal locks: two bytes a pair, access and lock, by access and then
 * lock. The value is the number of pairs. */
uint64_t chinebright_illegal(const uint8_t *table, size_t table_length,
                             uint8_t *out, size_t out_length);

/* Two bytes a node, priority and then threshold, 0 the highest; a scheduler
 * shows 255 twice. The value is the number of bytes. Refusal 13 comes before
 * 12. */
uint64_t chinebright_thresholds(const uint8_t *table, size_t table_length,
                                uint8_t *out, size_t out_length);

/* Writes 128 idle places. The value is 128. */
uint64_t chinebright_fresh(uint8_t *state, size_t state_length);

/* One step of the machine, which alters the state in place. The number n is a
 * task, for an open an access. A state of another length than 128 is
 * malformed; a kind above 3 names no task. The value is 0. */
uint64_t chinebright_step(const uint8_t *table, size_t table_length,
                          uint8_t *state, size_t state_length,
                          uint8_t kind, size_t n);

/* The text that the findings program writes, for a refused table too; it does
 * not end in a zero byte. The value is the number of bytes. Only 12 refuses. */
uint64_t chinebright_listing(const uint8_t *table, size_t table_length,
                             uint8_t *out, size_t out_length);

#ifdef __cplusplus
}
#endif

#endif
