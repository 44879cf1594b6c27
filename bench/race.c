/* Runs programs in turn on the same input and prints how many lines a second each answers: race LINES COUNT RUNS PROGRAM...

   LINES is the input, which has COUNT lines. Output goes to /dev/null. Counted is the processor time, user and system, of the best of RUNS
   runs: the programs wait for nothing, and other work on the machine disturbs it least. The last column is the first program's lines a
   second over this one's. */
#define _DEFAULT_SOURCE
#include <fcntl.h>
#include <stdio.h>
#include <stdlib.h>
#include <sys/resource.h>
#include <sys/wait.h>
#include <unistd.h>

enum { MOST_PROGRAMS = 8 };

static void give_up(const char *why, const char *what)
{
    fprintf(stderr, "race: %s %s\n", why, what);
    exit(1);
}

static void become(const char *program, const char *lines)
{
    int in = open(lines, O_RDONLY), out = open("/dev/null", O_WRONLY);
    if (in < 0 || out < 0 || dup2(in, STDIN_FILENO) < 0 || dup2(out, STDOUT_FILENO) < 0) {
        _exit(126);
    }
    execl(program, program, (char *)NULL);
    _exit(127);
}

static double seconds(struct timeval t)
{
    return (double)t.tv_sec + (double)t.tv_usec / 1e6;
}

/* The processor seconds of one run. */
static double run(const char *program, const char *lines)
{
    struct rusage used;
    int status;
    pid_t child = fork();
    if (child == 0) {
        become(program, lines);
    }
    if (child < 0 || wait4(child, &status, 0, &used) != child || !WIFEXITED(status) || WEXITSTATUS(status) != 0) {
        give_up("cannot run", program);
    }
    return seconds(used.ru_utime) + seconds(used.ru_stime);
}

int main(int argc, char **argv)
{
    int programs = argc - 4;
    double best[MOST_PROGRAMS];
    if (programs < 1 || programs > MOST_PROGRAMS) {
        give_up("usage:", "race LINES COUNT RUNS PROGRAM...");
    }
    double count = strtod(argv[2], NULL);
    long runs = strtol(argv[3], NULL, 10);
    for (long i = 0; i < runs; i++) {
        for (int p = 0; p < programs; p++) {
            double taken = run(argv[4 + p], argv[1]);
            if (i == 0 || taken < best[p]) {
                best[p] = taken;
            }
        }
    }
    printf("%-24s %10s %14s %8s\n", "program", "seconds", "lines/second", "ratio");
    for (int p = 0; p < programs; p++) {
        printf("%-24s %10.3f %14.0f %8.2f\n", argv[4 + p], best[p], count / best[p], best[p] / best[0]);
    }
    return 0;
}
