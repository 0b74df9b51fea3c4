/*
 * The fuzz target over the eight calls of the C interface. Each call is made
 * in every way of lending (lent.h), and its answer is held against the other
 * calls' answers and against the rule sheet as far as a few lines can say it.
 * The whole of the rule sheet is the second program's business.
 */
#include <string.h>

#include "asking.h"
#include "input.h"
#include "lists.h"
#include "machine.h"

static uint64_t ask_reading(void)
{
    return ask(&(struct question){READ, 0, 0, NULL}, 0);
}

static void check_fresh(const struct asks *asks)
{
    static const uint8_t idle[CHINEBRIGHT_PLACES];
    const size_t rooms[] = {0, CHINEBRIGHT_PLACES - 1, CHINEBRIGHT_PLACES,
                            room_of(asks, CHINEBRIGHT_PLACES)};
    for (size_t k = 0; k < sizeof rooms / sizeof *rooms; k++) {
        uint64_t answer = ask(&(struct question){FRESH, 0, 0, NULL}, rooms[k]);
        expect("fresh", answer, rooms[k] < CHINEBRIGHT_PLACES ? CHINEBRIGHT_ROOM : 0,
               CHINEBRIGHT_PLACES);
        if (rooms[k] >= CHINEBRIGHT_PLACES && memcmp(answered(), idle, sizeof idle) != 0)
            broken("a fresh state is not idle");
    }
}

static int has_thresholds(const struct view *v)
{
    for (size_t n = 0; n < v->nodes; n++) {
        int above = kind_of(v, parent_of(v, n));
        if (kind_of(v, n) == 4 || (n > 0 && kind_of(v, n) != 0 && (above == 2 || above == 3)))
            return 0;
    }
    return 1;
}

static void check_thresholds(const struct asks *asks, const struct view *v)
{
    static uint8_t numbers[2 * 128];
    uint64_t answer = ask_list(THRESHOLDS, asks, numbers);
    if (!has_thresholds(v)) {
        expect("thresholds", answer, CHINEBRIGHT_NO_THRESHOLDS, 0);
        return;
    }
    expect("thresholds", answer, 0, (uint32_t)(2 * v->nodes));
    for (size_t n = 0; n < v->nodes; n++) {
        int priority = numbers[2 * n], threshold = numbers[2 * n + 1];
        if (is_task(v, n) ? threshold > priority || priority > 127
                          : priority != 255 || threshold != 255)
            broken("node %zu has priority %d and threshold %d", n, priority, threshold);
    }
}

/* A number of `preempts`: the byte, or one that a byte cannot hold. */
static size_t widened(size_t byte, unsigned how)
{
    const size_t numbers[4] = {byte, byte + 256, byte + ((size_t)1 << 32), ~byte};
    return numbers[how & 3];
}

static void check_preempts(const struct asks *asks, const struct view *v)
{
    size_t t = widened(asks->first, asks->wide), u = widened(asks->second, asks->wide >> 2);
    if ((may_preempt(t, u) || may_preempt(u, t)) && (!is_task(v, t) || !is_task(v, u) || t == u))
        broken("preempts %zu %zu, though these are no two tasks", t, u);
    t %= v->nodes;
    u %= v->nodes;
    if (may_preempt(t, u) && may_preempt(u, t) && has_thresholds(v))
        broken("%zu and %zu preempt each other under no time-sliced scheduler", t, u);
}

static void check_accepted(const struct asks *asks, const uint8_t *table)
{
    struct view v = view_of(table);
    check_lists(asks, &v);
    check_thresholds(asks, &v);
    check_preempts(asks, &v);
    check_machine(asks, &v);
    remark(NODES, v.nodes);
    remark(LOCKS, v.locks);
    remark(RESOURCES, v.resources);
    remark(ACCESSES, v.accesses);
}

/* Every call gives the reading's refusal; the listing has a text for it. */
static void check_refused(const struct asks *asks, uint64_t reading)
{
    static uint8_t nothing[1];
    uint32_t number = chinebright_number(reading), place = chinebright_value(reading);
    struct question preempts = {PREEMPTS, asks->first, asks->second, NULL};
    struct question step = {STEP, asks->step[0][0], asks->step[0][1], asks->state};
    expect("races", ask_list(RACES, asks, nothing), number, place);
    expect("illegal", ask_list(ILLEGAL, asks, nothing), number, place);
    expect("thresholds", ask_list(THRESHOLDS, asks, nothing), number, place);
    expect("preempts", ask(&preempts, 0), number, place);
    expect("step", ask(&step, sizeof asks->state), number, place);
    check_refused_listing(asks, number, place);
    remark(PLACES + number, place);
}

/* What reading says of the bytes up to the fault, or without the last byte
 * and with one more, and of a long input cut after 1,254 bytes. */
static void check_neighbours(const uint8_t *table, size_t length, uint64_t reading)
{
    static uint8_t longer[CHINEBRIGHT_LONGEST_TABLE + 1];
    uint32_t number = chinebright_number(reading), place = chinebright_value(reading);
    if (number == 0) {
        memcpy(longer, table, length);
        lend_table(longer, length + 1);
        expect("with a byte more", ask_reading(), CHINEBRIGHT_LEFTOVER, (uint32_t)length);
        lend_table(table, length - 1);
        expect("without the last byte", ask_reading(), CHINEBRIGHT_SHORT, (uint32_t)length - 1);
    } else if (number != CHINEBRIGHT_SHORT) {
        lend_table(table, place);
        if (number == CHINEBRIGHT_LEFTOVER)
            expect("without what follows", ask_reading(), 0, 0);
        else
            expect("cut at the fault", ask_reading(), CHINEBRIGHT_SHORT, place);
    }
    if (length > CHINEBRIGHT_LONGEST_TABLE + 1) {
        lend_table(table, CHINEBRIGHT_LONGEST_TABLE + 1);
        expect("cut after 1,254 bytes", ask_reading(), number, place);
    }
}

int LLVMFuzzerTestOneInput(const uint8_t *input, size_t size)
{
    struct asks asks;
    size_t length = take_apart(input, size, &asks);
    if (length > LONGEST_INPUT)
        return -1;
    lend_table(input, length);
    uint64_t reading = ask_reading();
    count_input(length, reading);
    if (chinebright_number(reading) == 0 && length > CHINEBRIGHT_LONGEST_TABLE)
        broken("a table of %zu bytes is accepted", length);
    check_fresh(&asks);
    if (chinebright_number(reading) == 0)
        check_accepted(&asks, input);
    else
        check_refused(&asks, reading);
    check_neighbours(input, length, reading);
    end_lending();
    return 0;
}
