/*
 * Calls the library for `compare`: requests on standard input, on standard
 * output a reply for each, in order, until the input ends. Numbers are
 * little-endian, as x86-64 has them.
 *
 * A request is
 *     4 bytes  the call: 0 read, 1 preempts, 2 races, 3 illegal,
 *              4 thresholds, 5 fresh, 6 step, 7 listing
 *     4 bytes  the table's length
 *     4 bytes  the lent buffer's length
 *     4 bytes  0
 *     8 bytes  the first number: t of preempts, the kind of step
 *     8 bytes  the second number: u of preempts, n of step
 *     the table, then the buffer; `fresh` has an empty table, `read` and
 *     `preempts` have an empty buffer
 * and a reply is
 *     4 bytes  0 done, 1 this call is not in the library
 *     4 bytes  harm: 1 wrote before the table, 2 wrote to the table, 4 wrote
 *              before the buffer, or a sum of these
 *     8 bytes  the answer
 *     the buffer as it is after the call
 *
 * Table and buffer each end right before an inaccessible page: one byte read
 * or written past the end is a fault at once. However the program ends, the
 * replies that were ready are written, so the first request without one is the
 * one at fault.
 */
#define _DEFAULT_SOURCE

#include <signal.h>
#include <stdio.h>
#include <stdlib.h>
#include <string.h>
#include <sys/mman.h>
#include <sys/resource.h>
#include <unistd.h>

#include "../../include/chinebright.h"

#ifndef __x86_64__
#error "the library holds x86-64 code"
#endif

/* A library may have only some of the calls. */
#pragma weak chinebright_read
#pragma weak chinebright_preempts
#pragma weak chinebright_races
#pragma weak chinebright_illegal
#pragma weak chinebright_thresholds
#pragma weak chinebright_fresh
#pragma weak chinebright_step
#pragma weak chinebright_listing

enum call { READ, PREEMPTS, RACES, ILLEGAL, THRESHOLDS, FRESH, STEP, LISTING };
enum status { DONE, NOT_IN_LIBRARY };
enum harm { BEFORE_TABLE = 1, IN_TABLE = 2, BEFORE_BUFFER = 4 };

struct request {
    uint32_t call, table_length, buffer_length, zero;
    uint64_t first, second;
};

struct reply {
    uint32_t status, harm;
    uint64_t answer;
};

static void give_up(const char *why)
{
    fprintf(stderr, "caller: %s\n", why);
    exit(3);
}

/* Input and output, many requests and replies at a time. */

#define CHUNK (1 << 18)
static uint8_t in[CHUNK], out[CHUNK];
static size_t in_next, in_end, out_end;

static void flush(void)
{
    size_t written = 0;
    while (written < out_end) {
        ssize_t n = write(1, out + written, out_end - written);
        if (n <= 0)
            _exit(3);
        written += (size_t)n;
    }
    out_end = 0;
}

static void put(const void *bytes, size_t length)
{
    const uint8_t *from = bytes;
    while (length > 0) {
        size_t part = CHUNK - out_end < length ? CHUNK - out_end : length;
        memcpy(out + out_end, from, part);
        out_end += part;
        from += part;
        length -= part;
        if (out_end == CHUNK)
            flush();
    }
}

/* The next bytes of the input: 1, or 0 where it has ended before them. */
static int take(void *bytes, size_t length)
{
    uint8_t *to = bytes;
    size_t wanted = length;
    while (length > 0) {
        if (in_next == in_end) {
            ssize_t n;
            flush();
            n = read(0, in, CHUNK);
            if (n < 0)
                give_up("cannot read");
            if (n == 0 && length == wanted)
                return 0;
            if (n == 0)
                give_up("the input ends inside a request");
            in_next = 0;
            in_end = (size_t)n;
        }
        size_t part = in_end - in_next < length ? in_end - in_next : length;
        memcpy(to, in + in_next, part);
        in_next += part;
        to += part;
        length -= part;
    }
    return 1;
}

/* Writes what is ready; then the fault happens again and ends the program. */
static void at_fault(int number)
{
    (void)number;
    flush();
}

static void watch_faults(void)
{
    static uint8_t stack[1 << 16];
    static const int faults[] = {SIGSEGV, SIGBUS, SIGILL, SIGFPE, SIGABRT, SIGTRAP};
    stack_t other = {.ss_sp = stack, .ss_size = sizeof stack};
    struct sigaction action = {.sa_handler = at_fault, .sa_flags = SA_RESETHAND | SA_ONSTACK};
    struct rlimit no_core = {0, 0};
    setrlimit(RLIMIT_CORE, &no_core);
    sigaltstack(&other, NULL);
    for (size_t n = 0; n < sizeof faults / sizeof *faults; n++)
        sigaction(faults[n], &action, NULL);
}

/* Lent memory. */

#define ROOM (1 << 20) /* longer than any listing */
#define PAGE (1 << 16) /* as many bytes as a page has anywhere, or more */
#define GUARD 256

/* The end of a room: before it `ROOM` bytes, then nothing accessible. */
static uint8_t *room(void)
{
    size_t whole = 3 * PAGE + ROOM;
    uint8_t *start = mmap(NULL, whole, PROT_NONE, MAP_PRIVATE | MAP_ANONYMOUS, -1, 0);
    if (start == MAP_FAILED)
        give_up("no memory");
    /* A page at least on each side, from a whole page on. */
    start += 2 * PAGE - (uintptr_t)start % PAGE;
    if (mprotect(start, ROOM, PROT_READ | PROT_WRITE) != 0)
        give_up("no memory");
    return start + ROOM;
}

/* The guard bytes of call number n: other ones each time. */
static const uint8_t *guard(size_t n)
{
    static uint8_t pattern[2 * GUARD];
    if (n == 0)
        for (size_t k = 0; k < 2 * GUARD; k++)
            pattern[k] = (uint8_t)(k * k * 29 + k * 167 + 91);
    return pattern + n % GUARD;
}

/* Does the library have the call? If so, makes it. */

#define MAKE(name, ...)                            \
    do {                                           \
        if (chinebright_##name == NULL)            \
            return NOT_IN_LIBRARY;                 \
        *answer = chinebright_##name(__VA_ARGS__); \
        return DONE;                               \
    } while (0)

static enum status make(const struct request *r, const uint8_t *table, uint8_t *buffer,
                        uint64_t *answer)
{
    size_t table_length = r->table_length, length = r->buffer_length;
    switch (r->call) {
    case READ:
        MAKE(read, table, table_length);
    case PREEMPTS:
        MAKE(preempts, table, table_length, r->first, r->second);
    case RACES:
        MAKE(races, table, table_length, buffer, length);
    case ILLEGAL:
        MAKE(illegal, table, table_length, buffer, length);
    case THRESHOLDS:
        MAKE(thresholds, table, table_length, buffer, length);
    case FRESH:
        MAKE(fresh, buffer, length);
    case STEP:
        MAKE(step, table, table_length, buffer, length, (uint8_t)r->first, r->second);
    case LISTING:
        MAKE(listing, table, table_length, buffer, length);
    }
    give_up("unknown call");
    return NOT_IN_LIBRARY;
}

int main(void)
{
    static uint8_t sent[ROOM];
    uint8_t *table_end = room(), *buffer_end = room();
    struct request request;
    watch_faults();
    atexit(flush);
    for (size_t n = 0; take(&request, sizeof request); n++) {
        struct reply reply = {0, 0, 0};
        size_t table_length = request.table_length, buffer_length = request.buffer_length;
        if (table_length > ROOM - GUARD || buffer_length > ROOM - GUARD)
            give_up("a request is too long");
        uint8_t *table = table_end - table_length, *buffer = buffer_end - buffer_length;
        if (!take(sent, table_length) || !take(buffer, buffer_length))
            give_up("the input ends inside a request");
        memcpy(table, sent, table_length);
        memcpy(table - GUARD, guard(n), GUARD);
        memcpy(buffer - GUARD, guard(n), GUARD);
        reply.status = make(&request, table, buffer, &reply.answer);
        if (memcmp(table - GUARD, guard(n), GUARD) != 0)
            reply.harm |= BEFORE_TABLE;
        if (memcmp(table, sent, table_length) != 0)
            reply.harm |= IN_TABLE;
        if (memcmp(buffer - GUARD, guard(n), GUARD) != 0)
            reply.harm |= BEFORE_BUFFER;
        put(&reply, sizeof reply);
        put(buffer, buffer_length);
    }
    return 0;
}
