/* See asking.h. */
#include "asking.h"

#include <string.h>

static uint64_t make(const struct question *q, const uint8_t *table, size_t length, uint8_t *buffer,
                     size_t room)
{
    switch (q->call) {
    case READ:
        return chinebright_read(table, length);
    case PREEMPTS:
        return chinebright_preempts(table, length, q->first, q->second);
    case RACES:
        return chinebright_races(table, length, buffer, room);
    case ILLEGAL:
        return chinebright_illegal(table, length, buffer, room);
    case THRESHOLDS:
        return chinebright_thresholds(table, length, buffer, room);
    case FRESH:
        return chinebright_fresh(buffer, room);
    case STEP:
        return chinebright_step(table, length, buffer, room, (uint8_t)q->first, q->second);
    default:
        return chinebright_listing(table, length, buffer, room);
    }
}

size_t bytes_of(enum call call, uint64_t answer)
{
    size_t value = chinebright_value(answer);
    if (chinebright_number(answer) != 0 || call == READ || call == PREEMPTS)
        return 0;
    if (call == RACES || call == ILLEGAL)
        return 2 * value;
    return call == STEP ? CHINEBRIGHT_PLACES : value;
}

/* Is the number one that the call may answer? */
static int number_fits(enum call call, uint32_t number)
{
    if (number == 0)
        return 1;
    if (number <= CHINEBRIGHT_LEFTOVER)
        return call != FRESH && call != LISTING;
    if (number == CHINEBRIGHT_ROOM)
        return call == RACES || call == ILLEGAL || call == THRESHOLDS || call == FRESH ||
               call == LISTING;
    if (number == CHINEBRIGHT_NO_THRESHOLDS)
        return call == THRESHOLDS;
    return call == STEP && number <= CHINEBRIGHT_HELD;
}

/* Is the value one that the call may answer where it is not refused? */
static int value_fits(enum call call, size_t value)
{
    static const size_t most[CALLS] = {
        [READ] = 0,           [PREEMPTS] = 1,         [RACES] = 128 * 127,
        [ILLEGAL] = 128 * 32, [THRESHOLDS] = 2 * 128, [FRESH] = CHINEBRIGHT_PLACES,
        [STEP] = 0,           [LISTING] = MOST_ROOM,
    };
    return value <= most[call];
}

/* Is the place one that the rule sheet gives this refusal? */
static int place_fits(uint32_t number, size_t place, size_t room)
{
    if (number == CHINEBRIGHT_SHORT)
        return place == table_length_lent();
    if (number == CHINEBRIGHT_COUNT ||
        (number >= CHINEBRIGHT_PARENT && number <= CHINEBRIGHT_LEFTOVER))
        return place >= 1 && place < table_length_lent() && place <= CHINEBRIGHT_LONGEST_TABLE;
    if (number == CHINEBRIGHT_ROOM)
        return place > room;
    return place == 0;
}

static void check_answer(enum call call, uint64_t answer, size_t room)
{
    uint32_t number = chinebright_number(answer), value = chinebright_value(answer);
    int fits = number == 0 ? value_fits(call, value) : place_fits(number, value, room);
    if (!number_fits(call, number) || !fits)
        broken("%s answered %u with %u", call_names[call], number, value);
}

uint64_t ask(const struct question *question, size_t room)
{
    uint64_t answer = 0;
    for (enum way way = 0; way < WAYS; way++) {
        uint8_t *buffer = lend_buffer(way, question->state, room);
        uint64_t again = make(question, table_lent(way), table_length_lent(), buffer, room);
        if (way == 0) {
            answer = again;
            check_answer(question->call, answer, room);
        }
        size_t written = bytes_of(question->call, answer);
        if (again != answer)
            broken("%s answered first %llx and then %llx", call_names[question->call],
                   (unsigned long long)answer, (unsigned long long)again);
        check_lent(way, written);
        if (memcmp(buffer, buffer_lent(0), written) != 0)
            broken("%s wrote other bytes the second time", call_names[question->call]);
    }
    count_call(question->call, answer);
    return answer;
}

const uint8_t *answered(void)
{
    return buffer_lent(0);
}

void expect(const char *what, uint64_t answer, uint32_t number, uint32_t value)
{
    if (chinebright_number(answer) != number || chinebright_value(answer) != value)
        broken("%s: answered %u with %u, and not %u with %u", what, chinebright_number(answer),
               chinebright_value(answer), number, value);
}
