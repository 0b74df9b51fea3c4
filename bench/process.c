/* The least time of a whole process that reads one table from standard input, in microseconds: `process TABLE TIMES PROGRAM..`, the programs
 * taken in turn. What they write is thrown away. */
#define _POSIX_C_SOURCE 200112L
#include <fcntl.h>
#include <spawn.h>
#include <stdio.h>
#include <stdlib.h>
#include <sys/wait.h>
#include <time.h>

extern char **environ;

static double now(void)
{
    struct timespec t;
    clock_gettime(CLOCK_MONOTONIC, &t);
    return 1e6 * (double)t.tv_sec + (double)t.tv_nsec / 1e3;
}

/* The time that the program takes, or less than 0 where it does not run. */
static double run(const char *table, char *program)
{
    posix_spawn_file_actions_t files;
    posix_spawn_file_actions_init(&files);
    posix_spawn_file_actions_addopen(&files, 0, table, O_RDONLY, 0);
    posix_spawn_file_actions_addopen(&files, 1, "/dev/null", O_WRONLY, 0);
    char *arguments[] = {program, NULL};
    pid_t child;
    int status = 1;
    double start = now();
    if (posix_spawn(&child, program, &files, NULL, arguments, environ) == 0) waitpid(child, &status, 0);
    double taken = now() - start;
    posix_spawn_file_actions_destroy(&files);
    return status == 0 ? taken : -1;
}

int main(int argc, char **argv)
{
    enum { MOST = 4 };
    double least[MOST];
    if (argc < 4 || argc > 3 + MOST) {
        fprintf(stderr, "usage: process TABLE TIMES PROGRAM..\n");
        return 2;
    }
    for (int p = 3; p < argc; p++) least[p - 3] = 1e18;
    for (long left = strtol(argv[2], NULL, 10); left > 0; left--)
        for (int p = 3; p < argc; p++) {
            double taken = run(argv[1], argv[p]);
            if (taken < 0) {
                fprintf(stderr, "process: %s did not run\n", argv[p]);
                return 1;
            }
            if (taken < least[p - 3]) least[p - 3] = taken;
        }
    for (int p = 3; p < argc; p++) printf("%s %.0f\n", argv[p], least[p - 3]);
    return 0;
}
