/* Priorities and thresholds: `thresholds TABLE` writes a line a task. */
#include <stdio.h>

#include "../include/chinebright.h"

int main(int argc, char **argv)
{
    static uint8_t table[CHINEBRIGHT_LONGEST_TABLE + 1], numbers[2 * CHINEBRIGHT_MOST_NODES];
    FILE *file = argc == 2 ? fopen(argv[1], "rb") : NULL;
    if (!file) {
        fprintf(stderr, "usage: thresholds TABLE\n");
        return 2;
    }
    size_t length = fread(table, 1, sizeof table, file);
    fclose(file);
    uint64_t answer = chinebright_thresholds(table, length, numbers, sizeof numbers);
    if (chinebright_number(answer) != 0) {
        printf("refused %u at %u\n", chinebright_number(answer), chinebright_value(answer));
        return 2;
    }
    for (size_t n = 0; n < chinebright_value(answer) / 2; n++)
        if (numbers[2 * n] != 255)
            printf("task %zu: priority %u, threshold %u\n", n, numbers[2 * n], numbers[2 * n + 1]);
    return 0;
}
