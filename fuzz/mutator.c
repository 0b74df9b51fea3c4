/*
 * How inputs are altered. Chance bytes are hardly ever a table, so most
 * alterations are mended: each field that breaks the rule sheet is replaced by
 * one that does not, and now and then one byte is spoiled again.
 */
#include <string.h>

#include "input.h"
#include "lent.h"

size_t LLVMFuzzerMutate(uint8_t *data, size_t size, size_t most);

/* The bytes that are mended, with chance after their end, and the table they become. */
static const uint8_t *from;
static size_t left, length;
static uint64_t dice;
static uint8_t table[CHINEBRIGHT_LONGEST_TABLE];

static uint8_t take(void)
{
    if (left == 0)
        return (uint8_t)draw(&dice);
    left--;
    return *from++;
}

static size_t put(size_t byte)
{
    table[length++] = (uint8_t)byte;
    return byte;
}

/* A count within its limits. */
static size_t count(size_t least, size_t most)
{
    size_t byte = take();
    return put(byte >= least && byte <= most ? byte : least + byte % (most - least + 1));
}

/* A count that must be 0. */
static size_t none(void)
{
    take();
    return put(0);
}

static size_t nodes, tasks;
static uint8_t parents[128], kinds[128];

static size_t scheduler(size_t byte, size_t end)
{
    size_t n = byte < end ? byte : byte % end;
    return kinds[n] == 0 ? parents[n] : n;
}

static void mend_nodes(void)
{
    nodes = count(1, 128);
    tasks = 0;
    for (size_t n = 0; n < nodes; n++) {
        size_t parent = take(), kind = take();
        kind = kind > 4 ? kind % 5 : kind;
        if (n == 0 && nodes > 1 && kind == 0)
            kind = 1 + below(&dice, 4);
        parents[n] = (uint8_t)put(n == 0 ? 0 : scheduler(parent, n));
        kinds[n] = (uint8_t)put(kind);
        tasks += kind == 0;
    }
}

/* A child of the scheduler, the first from `byte` on; 0 where it has none. */
static size_t child(size_t provider, size_t byte)
{
    for (size_t k = 0; k < nodes; k++) {
        size_t n = (byte + k) % nodes;
        if (n > 0 && parents[n] == provider)
            return n;
    }
    return 0;
}

static size_t mend_locks(void)
{
    size_t locks = kinds[0] == 0 ? none() : count(0, 32);
    for (size_t k = 0; k < locks; k++) {
        size_t provider = put(scheduler(take(), nodes)), kind = take() & 1, byte = take();
        size_t covered = kind == 1 ? child(provider, byte) : 0;
        put(covered > 0);
        put(covered);
    }
    return locks;
}

static size_t task(size_t byte)
{
    size_t n = byte % nodes;
    while (kinds[n] != 0)
        n = (n + 1) % nodes;
    return n;
}

/* Makes a table of any bytes. One that is a table already stays as it is. */
static void mend(const uint8_t *bytes, size_t size)
{
    from = bytes;
    left = size;
    length = 0;
    take();
    put(1);
    mend_nodes();
    size_t locks = mend_locks();
    size_t resources = count(0, 64);
    for (size_t k = 0; k < 2 * resources; k++)
        put(take());
    size_t accesses = tasks == 0 || resources == 0 ? none() : count(0, 128);
    for (size_t i = 0; i < accesses; i++) {
        put(task(take()));
        put(take() % resources);
        for (size_t k = 32; k > 0; k -= 8) {
            size_t in_table = locks >= k ? 8 : locks > k - 8 ? locks - (k - 8) : 0;
            put(take() & ((1u << in_table) - 1));
        }
    }
}

/* Makes one byte of the table another. */
static void spoil(void)
{
    size_t place =
        below(&dice, 3) == 0 ? below(&dice, length < 8 ? length : 8) : below(&dice, length);
    const uint8_t values[] = {
        0, 1, 2, 5, 33, 65, 129, 255, (uint8_t)(table[place] + 1), (uint8_t)draw(&dice)};
    table[place] = values[below(&dice, sizeof values)];
}

/* A long input: the table, and chance bytes after it. */
static size_t lengthen(uint8_t *input, size_t size, size_t most)
{
    size_t more = (size_t)1 << below(&dice, 23);
    for (size_t k = 0; k < more && size < most; k++)
        input[size++] = (uint8_t)(draw(&dice) >> 11);
    return size;
}

static size_t with_asks(uint8_t *input, size_t size, size_t most, const struct asks *asks)
{
    if (size + sizeof *asks > most)
        return size;
    memcpy(input + size, asks, sizeof *asks);
    return size + sizeof *asks;
}

size_t LLVMFuzzerCustomMutator(uint8_t *data, size_t size, size_t most, unsigned int seed)
{
    struct asks asks;
    dice = seed;
    if (below(&dice, 12) == 0)
        return LLVMFuzzerMutate(data, size, most);
    size = take_apart(data, size, &asks);
    if (size > CHINEBRIGHT_LONGEST_TABLE && below(&dice, 8) != 0)
        size = CHINEBRIGHT_LONGEST_TABLE;
    switch (below(&dice, 4)) {
    case 0:
        draw_asks(&dice, &asks);
        break;
    case 1:
        asks.step[below(&dice, MOST_STEPS)][below(&dice, 2)] = (uint8_t)draw(&dice);
        asks.steps++;
        break;
    default:
        size = LLVMFuzzerMutate(data, size, most);
    }
    if (size > 2 * CHINEBRIGHT_LONGEST_TABLE)
        return with_asks(data, size, most, &asks);
    mend(data, size);
    for (size_t k = below(&dice, 8); k > 5; k--)
        spoil();
    if (length > most)
        return LLVMFuzzerMutate(data, size, most);
    memcpy(data, table, length);
    if (below(&dice, 512) == 0)
        length = lengthen(data, length, most);
    return with_asks(data, length, most, &asks);
}
