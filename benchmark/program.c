/* program FOLDER ROUNDS SREC: times `SREC canon` beside `objcopy -I srec -O srec` on texts of 1 and 16 MiB, in order and
 * shuffled, with the files in a folder. See README.md here. */
#define _DEFAULT_SOURCE
#include <fcntl.h>
#include <signal.h>
#include <stdio.h>
#include <stdlib.h>
#include <string.h>
#include <sys/resource.h>
#include <sys/wait.h>
#include <time.h>
#include <unistd.h>

#include "generate.h"
#include "twin.h"

/* A record of 16 data bytes has 47 characters with its line end. */
enum { MIB = 1 << 20, LARGEST = 16, SIZE = 16, RECORD = 47, MOST = LARGEST * MIB / RECORD * SIZE };
/* A program that takes more seconds is stopped, and not run on that text again. */
enum { LIMIT = 60 };
enum { SREC, OBJCOPY, PROGRAMS };

static char in[4096], out[4096];

/* The best of the rounds. */
struct best {
    double seconds;
    long kib;
    int stopped;
};

static void fail(const char *what)
{
    perror(what);
    exit(2);
}

static double now(void)
{
    struct timespec t;
    clock_gettime(CLOCK_MONOTONIC, &t);
    return (double)t.tv_sec + 1e-9 * (double)t.tv_nsec;
}

/* In the child: objcopy takes the output's name, srec writes to standard output. */
static void become(int program, char *srec)
{
    char *const canon[] = {srec, "canon", in, NULL};
    char *const objcopy[] = {"objcopy", "-I", "srec", "-O", "srec", in, out, NULL};

    alarm(LIMIT);
    if (program == SREC) {
        int file = open(out, O_WRONLY | O_CREAT | O_TRUNC, 0600);
        if (file >= 0 && dup2(file, 1) == 1)
            execv(srec, canon);
    } else {
        execvp("objcopy", objcopy);
    }
    perror(program == SREC ? srec : "objcopy");
    _exit(127);
}

/* Runs a program once. Time and peak memory are the child's own. */
static void run(int program, char *srec, struct best *best)
{
    struct rusage usage;
    int status;
    double began = now();
    pid_t child = fork();

    if (child == 0)
        become(program, srec);
    if (child < 0 || wait4(child, &status, 0, &usage) != child)
        fail("program");
    double seconds = now() - began;
    best->stopped = WIFSIGNALED(status) && WTERMSIG(status) == SIGALRM;
    if (best->stopped)
        return;
    if (!WIFEXITED(status) || WEXITSTATUS(status) != 0) {
        fprintf(stderr, "program: %s failed\n", program == SREC ? srec : "objcopy");
        exit(2);
    }
    if (best->seconds == 0 || seconds < best->seconds)
        best->seconds = seconds;
    if (best->kib == 0 || usage.ru_maxrss < best->kib)
        best->kib = usage.ru_maxrss;
}

/* A text, and the program that read it last. */
struct job {
    size_t mib;
    enum order order;
    const char *name;
};

/* Takes a step in a process of its own: a program that is started later has the memory of the one that started it among
 * its own peak. */
static void apart(void (*step)(const struct job *), const struct job *job)
{
    int status;
    pid_t child = fork();

    if (child == 0) {
        step(job);
        exit(0);
    }
    if (child < 0 || waitpid(child, &status, 0) != child)
        fail("program");
    if (status != 0)
        exit(1);
}

static struct text text_of(const struct job *job)
{
    return generate(job->order, job->mib * MIB / RECORD * SIZE, SIZE);
}

static void write_file(const struct job *job)
{
    struct text text = text_of(job);
    FILE *file = fopen(in, "wb");

    if (!file || fwrite(text.chars, 1, text.length, file) != text.length || fclose(file) != 0)
        fail(in);
}

/* Ends the process if what was written last has not just the cells of the text. */
static void check(const struct job *job)
{
    static uint8_t memory[2][MOST], marks[2][MOST], chars[4 * LARGEST * MIB];
    struct text text = text_of(job);
    size_t cells = text.cells;
    FILE *file = fopen(out, "rb");
    if (!file)
        fail(out);
    size_t length = fread(chars, 1, sizeof chars, file);
    fclose(file);
    uint32_t rows = tuned_load(text.chars, text.length, 0, memory[0], cells, marks[0], cells);
    rows |= tuned_load(chars, length, 0, memory[1], cells, marks[1], cells);
    if (rows != 0 || memcmp(memory[0], memory[1], cells) != 0 || memcmp(marks[0], marks[1], cells) != 0) {
        fprintf(stderr, "program: %s wrote other cells\n", job->name);
        exit(1);
    }
}

static void print_row(size_t mib, enum order order, const struct best best[PROGRAMS])
{
    printf("| %zu | %s |", mib, order == IN_ORDER ? "in order" : "shuffled");
    for (int program = 0; program < PROGRAMS; program++)
        if (best[program].stopped)
            printf(" > %d | - |", LIMIT);
        else
            printf(" %.3f | %.1f |", best[program].seconds, (double)best[program].kib / 1024);
    if (best[SREC].stopped)
        printf(" - |\n");
    else if (best[OBJCOPY].stopped)
        printf(" > %.0f |\n", LIMIT / best[SREC].seconds);
    else
        printf(" %.1f |\n", best[OBJCOPY].seconds / best[SREC].seconds);
    fflush(stdout);
}

/* A row of the table. Programs take turns, so that a disturbance does not meet one of them alone. */
static void compare(size_t mib, enum order order, long rounds, char *srec)
{
    struct job job = {mib, order, NULL};
    struct best best[PROGRAMS] = {{0, 0, 0}, {0, 0, 0}};

    apart(write_file, &job);
    for (long round = 0; round < rounds; round++)
        for (int program = 0; program < PROGRAMS; program++) {
            if (best[program].stopped)
                continue;
            run(program, srec, &best[program]);
            job.name = program == SREC ? srec : "objcopy";
            if (round == 0 && !best[program].stopped)
                apart(check, &job);
        }
    print_row(mib, order, best);
}

int main(int argc, char **argv)
{
    long rounds = argc == 4 ? strtol(argv[2], NULL, 10) : 0;

    if (rounds <= 0) {
        fputs("usage: program FOLDER ROUNDS SREC\n", stderr);
        return 2;
    }
    snprintf(in, sizeof in, "%s/in.srec", argv[1]);
    snprintf(out, sizeof out, "%s/out.srec", argv[1]);
    printf("| MiB | records | srec canon, s | MiB | objcopy, s | MiB | times as fast |\n");
    printf("|--:|---|--:|--:|--:|--:|--:|\n");
    fflush(stdout);
    for (size_t mib = 1; mib <= LARGEST; mib *= LARGEST) {
        compare(mib, IN_ORDER, rounds, argv[3]);
        compare(mib, SHUFFLED, rounds, argv[3]);
    }
    return 0;
}
