/* How many races and illegal locks a table has: `count TABLE`. */
#include <stdio.h>

#include "../include/chinebright.h"

int main(int argc, char **argv)
{
    static uint8_t table[CHINEBRIGHT_LONGEST_TABLE + 1], pairs[2 * 128 * 128];
    FILE *file = argc == 2 ? fopen(argv[1], "rb") : NULL;
    if (!file) {
        fprintf(stderr, "usage: count TABLE\n");
        return 2;
    }
    size_t length = fread(table, 1, sizeof table, file);
    fclose(file);
    uint64_t races = chinebright_races(table, length, pairs, sizeof pairs);
    if (chinebright_number(races) != 0) {
        printf("refused %u at %u\n", chinebright_number(races), chinebright_value(races));
        return 2;
    }
    uint64_t illegal = chinebright_illegal(table, length, pairs, sizeof pairs);
    printf("races %u, illegal %u\n", chinebright_value(races), chinebright_value(illegal));
    return chinebright_value(races) + chinebright_value(illegal) != 0;
}
