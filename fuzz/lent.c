/* See lent.h. */
#define _GNU_SOURCE
#include "lent.h"

#include <stdarg.h>
#include <stdio.h>
#include <stdlib.h>
#include <string.h>
#include <sys/mman.h>

enum { PAGE = 1 << 12, GUARD = 256 };

void broken(const char *what, ...)
{
    va_list arguments;
    va_start(arguments, what);
    fputs("\nfound: ", stderr);
    vfprintf(stderr, what, arguments);
    fputs("\n", stderr);
    va_end(arguments);
    abort();
}

/* `size` bytes, a multiple of the page's, with an untouchable page on each side. */
static uint8_t *arena(size_t size)
{
    uint8_t *start = mmap(NULL, size + 2 * PAGE, PROT_NONE, MAP_PRIVATE | MAP_ANONYMOUS, -1, 0);
    if (start == MAP_FAILED || mprotect(start + PAGE, size, PROT_READ | PROT_WRITE) != 0) {
        perror("no memory to lend");
        exit(2);
    }
    return start + PAGE;
}

/* The table: `sent` is what was lent, kept to look at again. In the first two
 * ways its pages are read-only while it is lent. */
static uint8_t *tables[WAYS];
static uint8_t sent[LONGEST_INPUT];
static size_t table_length;

/* The pages of an arena's first or last `length` bytes, opened or closed. */
static void set_pages(enum way way, uint8_t *arena, size_t length, int protection)
{
    size_t pages = (length + PAGE - 1) / PAGE * PAGE;
    uint8_t *start = way == BEGINS ? arena : arena + LONGEST_INPUT - pages;
    if (pages > 0 && mprotect(start, pages, protection) != 0) {
        perror("mprotect");
        exit(2);
    }
}

/* The heap's table back, unless a call wrote to it. */
static void take_back_table(void)
{
    if (tables[HEAP] != NULL && memcmp(tables[HEAP], sent, table_length) != 0)
        broken("the table was written to");
    free(tables[HEAP]);
    tables[HEAP] = NULL;
}

void lend_table(const uint8_t *bytes, size_t length)
{
    static uint8_t *arenas[2];
    take_back_table();
    for (enum way way = ENDS; way <= BEGINS; way++) {
        if (arenas[way] == NULL)
            arenas[way] = arena(LONGEST_INPUT);
        set_pages(way, arenas[way], table_length, PROT_READ | PROT_WRITE);
    }
    memmove(sent, bytes, length);
    table_length = length;
    for (enum way way = ENDS; way <= BEGINS; way++) {
        tables[way] = way == BEGINS ? arenas[way] : arenas[way] + LONGEST_INPUT - length;
        memcpy(tables[way], sent, length);
        set_pages(way, arenas[way], length, PROT_READ);
    }
    tables[HEAP] = malloc(length);
    memcpy(tables[HEAP], sent, length);
}

const uint8_t *table_lent(enum way way)
{
    return tables[way];
}

size_t table_length_lent(void)
{
    return table_length;
}

/* Is the heap's table as it was sent? Of a long one the first and last bytes;
 * the whole is looked at when it is taken back. */
static int table_is_unchanged(void)
{
    const size_t most = 4096;
    size_t some = table_length < most ? table_length : most;
    return memcmp(tables[HEAP], sent, some) == 0 &&
           memcmp(tables[HEAP] + table_length - some, sent + table_length - some, some) == 0;
}

/* The buffer: `held` is what it held when it was lent. */
static uint8_t *buffers[WAYS];
static uint8_t patterns[WAYS][MOST_ROOM];
static uint8_t given[MOST_ROOM];
static const uint8_t *held[WAYS];
static size_t rooms[WAYS];

static uint8_t *buffer_arena(enum way way)
{
    static uint8_t *arenas[2];
    if (arenas[way] == NULL) {
        arenas[way] = arena(MOST_ROOM + PAGE);
        for (size_t k = 0; k < MOST_ROOM; k++)
            for (int w = 0; w < WAYS; w++)
                patterns[w][k] = (uint8_t)(k * 167 + (k >> 8) * 29 + 91 + 85 * (size_t)w);
    }
    return arenas[way];
}

/* Where the guard bytes stand: before a buffer that ends at a page, after one that begins there. */
static uint8_t *guard(enum way way)
{
    return way == ENDS ? buffers[way] - GUARD : buffers[way] + rooms[way];
}

uint8_t *lend_buffer(enum way way, const uint8_t *bytes, size_t room)
{
    rooms[way] = room;
    if (way == HEAP) {
        free(buffers[HEAP]);
        buffers[HEAP] = malloc(room);
    } else {
        uint8_t *arena = buffer_arena(way);
        buffers[way] = way == BEGINS ? arena : arena + MOST_ROOM + PAGE - room;
        memcpy(guard(way), patterns[way] + PAGE, GUARD);
    }
    held[way] = patterns[way];
    if (bytes != NULL) {
        memmove(given, bytes, room);
        held[way] = given;
    }
    memcpy(buffers[way], held[way], room);
    return buffers[way];
}

const uint8_t *buffer_lent(enum way way)
{
    return buffers[way];
}

void check_lent(enum way way, size_t written)
{
    if (!table_is_unchanged())
        broken("the table was written to");
    if (written > rooms[way])
        broken("an answer of %zu bytes in a room of %zu", written, rooms[way]);
    if (way != HEAP && memcmp(guard(way), patterns[way] + PAGE, GUARD) != 0)
        broken("bytes %s the buffer were written to", way == ENDS ? "before" : "after");
    if (memcmp(buffers[way] + written, held[way] + written, rooms[way] - written) != 0)
        broken("a byte of the buffer that is no part of the answer was written to");
}

void end_lending(void)
{
    take_back_table();
    free(buffers[HEAP]);
    buffers[HEAP] = NULL;
}
