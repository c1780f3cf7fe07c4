/*
 * Times frame runners on one script, in turn, and prints lines a second:
 *
 *   throughput SCRIPT RUNNER...
 *
 * Each runner reads the script as a file and writes to /dev/null. The ratio
 * is to the last runner's time.
 */
#define _POSIX_C_SOURCE 200809L /* fork, clock_gettime */

#include <fcntl.h>
#include <stdio.h>
#include <stdlib.h>
#include <sys/wait.h>
#include <time.h>
#include <unistd.h>

enum { SAMPLES = 9, RUNNERS_MOST = 8 };

static _Noreturn void give_up(const char *what)
{
    perror(what);
    exit(EXIT_FAILURE);
}

static double now(void)
{
    struct timespec t;
    clock_gettime(CLOCK_MONOTONIC, &t);
    return (double)t.tv_sec + (double)t.tv_nsec * 1e-9;
}

static void become(char *runner, const char *script)
{
    int in = open(script, O_RDONLY);
    int out = open("/dev/null", O_WRONLY);
    if (in < 0 || out < 0) {
        give_up(script);
    }
    dup2(in, STDIN_FILENO);
    dup2(out, STDOUT_FILENO);
    execl(runner, runner, (char *)NULL);
    give_up(runner);
}

/* Seconds for the script. */
static double run(char *runner, const char *script)
{
    int status;
    double start = now();
    pid_t child = fork();
    if (child < 0) {
        give_up("fork");
    }
    if (child == 0) {
        become(runner, script);
    }
    if (waitpid(child, &status, 0) != child || !WIFEXITED(status) || WEXITSTATUS(status) != 0) {
        fprintf(stderr, "throughput: %s failed\n", runner);
        exit(EXIT_FAILURE);
    }
    return now() - start;
}

static double count_lines(const char *script)
{
    FILE *file = fopen(script, "r");
    if (file == NULL) {
        give_up(script);
    }
    double lines = 0;
    for (int c = getc(file); c != EOF; c = getc(file)) {
        lines += c == '\n';
    }
    fclose(file);
    return lines;
}

static int by_size(const void *a, const void *b)
{
    double x = *(const double *)a;
    double y = *(const double *)b;
    return (x > y) - (x < y);
}

int main(int argc, char **argv)
{
    static double times[RUNNERS_MOST][SAMPLES];
    int runners = argc - 2;

    if (runners < 1 || runners > RUNNERS_MOST) {
        fprintf(stderr, "usage: throughput SCRIPT RUNNER..., at most %d runners\n", RUNNERS_MOST);
        return EXIT_FAILURE;
    }
    double lines = count_lines(argv[1]);
    for (int sample = 0; sample < SAMPLES; sample++) {
        for (int i = 0; i < runners; i++) {
            times[i][sample] = run(argv[2 + i], argv[1]);
        }
    }
    for (int i = 0; i < runners; i++) {
        qsort(times[i], SAMPLES, sizeof times[i][0], by_size);
    }
    printf("| runner | best, million lines a second | median | ratio of best times |\n"
           "|---|---|---|---|\n");
    for (int i = 0; i < runners; i++) {
        printf("| %s | %.2f | %.2f | %.2f |\n", argv[2 + i], lines / times[i][0] * 1e-6,
               lines / times[i][SAMPLES / 2] * 1e-6, times[i][0] / times[runners - 1][0]);
    }
    return EXIT_SUCCESS;
}
