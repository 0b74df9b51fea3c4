/* The least time of each call on one table, in nanoseconds: `times TABLE`. One round; the script takes the least of many. */
#define _POSIX_C_SOURCE 199309L
#include <stdio.h>
#include <time.h>

#include "../include/chinebright.h"

static uint8_t table[CHINEBRIGHT_LONGEST_TABLE + 1], out[1 << 20];
static size_t length;

static uint64_t call_read(void) { return chinebright_read(table, length); }
static uint64_t call_races(void) { return chinebright_races(table, length, out, sizeof out); }
static uint64_t call_illegal(void) { return chinebright_illegal(table, length, out, sizeof out); }
static uint64_t call_listing(void) { return chinebright_listing(table, length, out, sizeof out); }

static const struct {
    const char *name;
    uint64_t (*call)(void);
} calls[] = {{"read", call_read}, {"races", call_races}, {"illegal", call_illegal}, {"listing", call_listing}};

static double now(void)
{
    struct timespec t;
    clock_gettime(CLOCK_MONOTONIC, &t);
    return 1e9 * (double)t.tv_sec + (double)t.tv_nsec;
}

int main(int argc, char **argv)
{
    FILE *file = argc == 2 ? fopen(argv[1], "rb") : NULL;
    if (!file) {
        fprintf(stderr, "usage: times TABLE\n");
        return 2;
    }
    length = fread(table, 1, sizeof table, file);
    fclose(file);
    for (size_t c = 0; c < sizeof calls / sizeof *calls; c++) {
        double least = 1e18;
        volatile uint64_t sink = 0;
        for (int batch = 0; batch < 20; batch++) {
            double start = now();
            for (int i = 0; i < 100; i++) sink += calls[c].call();
            double each = (now() - start) / 100;
            if (each < least) least = each;
        }
        (void)sink;
        printf("%s %.0f\n", calls[c].name, least);
    }
    return 0;
}
