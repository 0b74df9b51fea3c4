/*
 * A library that is wrong in one way, to see that the target finds it: each
 * call is the true one but for the fault that FUZZ_WRONG names. Linked with
 * --wrap for every call.
 */
#include <stdlib.h>
#include <string.h>

#include "../include/chinebright.h"

#define TRUE_CALL(name, ...)                         \
    uint64_t __real_chinebright_##name(__VA_ARGS__); \
    uint64_t __wrap_chinebright_##name(__VA_ARGS__)

/* Is this the fault to make? */
static int wrong(const char *fault)
{
    static const char *chosen;
    if (chosen == NULL) {
        chosen = getenv("FUZZ_WRONG");
        chosen = chosen == NULL ? "" : chosen;
    }
    return strcmp(chosen, fault) == 0;
}

/* A byte that is only read. */
static void look_at(const volatile uint8_t *byte)
{
    (void)*byte;
}

TRUE_CALL(read, const uint8_t *table, size_t length)
{
    uint64_t answer = __real_chinebright_read(table, length);
    if (wrong("reads-after-the-table"))
        look_at(table + length);
    if (wrong("reads-before-the-table"))
        look_at(table - 1);
    if (wrong("writes-to-the-table") && length > 0)
        ((uint8_t *)table)[length - 1]++;
    if (wrong("place-outside-of-the-table") && chinebright_number(answer) == CHINEBRIGHT_PARENT)
        return answer - chinebright_value(answer) + length;
    if (wrong("place-one-too-far") && chinebright_number(answer) == CHINEBRIGHT_LOCK_SET)
        return answer + 1;
    if (wrong("unknown-number") && chinebright_number(answer) == CHINEBRIGHT_LEFTOVER)
        return (uint64_t)19 << 32;
    return answer;
}

TRUE_CALL(preempts, const uint8_t *table, size_t length, size_t t, size_t u)
{
    if (wrong("wraps-task-numbers"))
        return __real_chinebright_preempts(table, length, (uint8_t)t, (uint8_t)u);
    return __real_chinebright_preempts(table, length, t, u);
}

TRUE_CALL(races, const uint8_t *table, size_t length, uint8_t *out, size_t room)
{
    static unsigned times;
    if (wrong("finds-no-race") && __real_chinebright_read(table, length) == 0)
        return 0;
    uint64_t answer = __real_chinebright_races(table, length, out, room);
    uint32_t number = chinebright_number(answer), value = chinebright_value(answer);
    if (wrong("writes-after-the-buffer"))
        out[room] = 1;
    if (wrong("writes-before-the-buffer"))
        out[-1]++;
    if (wrong("reads-after-the-buffer"))
        look_at(out + room);
    if (wrong("reads-before-the-buffer"))
        look_at(out - 1);
    if (wrong("refused-yet-writes") && number == CHINEBRIGHT_ROOM && room > 0)
        out[0]++;
    if (wrong("writes-after-its-answer") && number == 0 && room > 2 * (size_t)value)
        out[2 * value]++;
    if (wrong("changes-its-mind") && number == 0 && value > 0)
        return answer - (++times % 3 == 0);
    if (wrong("asks-for-too-much") && number == CHINEBRIGHT_ROOM)
        return answer + 1;
    if (wrong("names-another-race") && number == 0 && value > 0)
        out[2 * value - 1]++;
    return answer;
}

TRUE_CALL(illegal, const uint8_t *table, size_t length, uint8_t *out, size_t room)
{
    if (wrong("finds-no-illegal-lock") && __real_chinebright_read(table, length) == 0)
        return 0;
    return __real_chinebright_illegal(table, length, out, room);
}

TRUE_CALL(thresholds, const uint8_t *table, size_t length, uint8_t *out, size_t room)
{
    uint64_t answer = __real_chinebright_thresholds(table, length, out, room);
    if (wrong("threshold-above-priority") && chinebright_number(answer) == 0)
        for (uint32_t n = 0; n < chinebright_value(answer); n += 2)
            out[n + 1] += out[n] != 255;
    if (wrong("room-before-thresholds") &&
        chinebright_number(answer) == CHINEBRIGHT_NO_THRESHOLDS && room < 2)
        return (uint64_t)CHINEBRIGHT_ROOM << 32 | 2;
    return answer;
}

TRUE_CALL(fresh, uint8_t *state, size_t length)
{
    if (wrong("fresh-writes-nothing") && length >= CHINEBRIGHT_PLACES)
        return CHINEBRIGHT_PLACES;
    return __real_chinebright_fresh(state, length);
}

TRUE_CALL(step, const uint8_t *table, size_t length, uint8_t *state, size_t state_length,
          uint8_t kind, size_t n)
{
    uint8_t before[CHINEBRIGHT_PLACES];
    if (state_length == sizeof before)
        memcpy(before, state, sizeof before);
    uint64_t answer = __real_chinebright_step(table, length, state, state_length, kind,
                                              wrong("wraps-steps") ? (uint8_t)n : n);
    if (wrong("refused-yet-steps") && chinebright_number(answer) == CHINEBRIGHT_PROCESSOR)
        state[n % CHINEBRIGHT_PLACES] ^= 1;
    if (wrong("granted-yet-stays") && answer == 0)
        memcpy(state, before, sizeof before);
    if (wrong("ignores-held-locks") && chinebright_number(answer) == CHINEBRIGHT_HELD)
        return 0;
    return answer;
}

TRUE_CALL(listing, const uint8_t *table, size_t length, uint8_t *out, size_t room)
{
    uint64_t answer = __real_chinebright_listing(table, length, out, room);
    if (wrong("miscounts-in-the-listing") && chinebright_number(answer) == 0 &&
        memcmp(out, "races 3", 7) == 0)
        out[6] = '4';
    return answer;
}
