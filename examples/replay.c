/* Plays steps from fresh: `replay TABLE start 6 open 2 ..` says which are granted, and stops at the first refusal. */
#include <stdio.h>
#include <stdlib.h>
#include <string.h>

#include "../include/chinebright.h"

static const char *const kinds[] = {"start", "open", "close", "finish"};

int main(int argc, char **argv)
{
    static uint8_t table[CHINEBRIGHT_LONGEST_TABLE + 1], state[CHINEBRIGHT_PLACES];
    FILE *file = argc >= 2 ? fopen(argv[1], "rb") : NULL;
    if (!file || argc % 2 != 0) {
        fprintf(stderr, "usage: replay TABLE [start TASK | open ACCESS | close TASK | finish TASK]..\n");
        return 2;
    }
    size_t length = fread(table, 1, sizeof table, file);
    fclose(file);
    chinebright_fresh(state, sizeof state);
    for (int i = 2; i < argc; i += 2) {
        uint8_t kind = 0;
        while (kind < 4 && strcmp(argv[i], kinds[kind]) != 0) kind++;
        uint64_t answer = chinebright_step(table, length, state, sizeof state, kind, strtoul(argv[i + 1], NULL, 10));
        if (chinebright_number(answer) != 0) {
            printf("%s %s: refused %u at %u\n", argv[i], argv[i + 1], chinebright_number(answer), chinebright_value(answer));
            return 1;
        }
        printf("%s %s: granted\n", argv[i], argv[i + 1]);
    }
    return 0;
}
