/* compare [--packed] [--quick] [--lines] [ROUNDS]: the library and its twins on the same texts, in turn, in one
 * process.
 *
 * Prints Markdown tables. A time is the minimum over ROUNDS rounds. A round goes through all texts, and on each text
 * through all programs, so that a disturbance of some seconds hits all of them, and one round alone. Before they are
 * timed all programs must give equal results, else the exit status is 1. --quick leaves out texts above 1 MiB.
 *
 * --packed is for the section on packed marks alone. It takes no --lines.
 *
 * --lines is for run.sh --places: the library and `tuned` alone, and for each text that is loaded and written one line
 * of three fields with tabs between them, the text and the seconds of the two.
 */
#include <stdio.h>
#include <stdlib.h>
#include <string.h>

#include "programs.h"

enum { ROUNDS = 5, MOST_ROUNDS = 10000 };
enum { LOAD, WRITE, OPERATIONS };

/* A set of programs has the bit 1 << program for each. */
enum { ALL = (1 << PROGRAMS) - 1, LIBRARY_ALONE = 1 << LIBRARY, LIBRARY_AND_TUNED = 1 << LIBRARY | 1 << TUNED };

static const uint32_t entry = 0;

static const char *const operations[OPERATIONS] = {"load", "write"};
static const char *const orders[] = {"in order", "sparse", "shuffled"};

/* A text, and the best times in seconds of a set of programs on it. */
struct trial {
    enum order order;
    size_t mib;
    size_t size;
    unsigned set;
    struct text text;
    double best[OPERATIONS][PROGRAMS];
};

/* There are twelve texts to compare on. */
enum { TEXTS = 12 };

/* ---- running ---- */

/* Long enough for each text. All programs use the same ones. */
struct buffers {
    uint8_t *memory;
    uint8_t *marks;
    uint8_t *out;
};

static struct buffers allocate_buffers(const struct trial *trials, size_t number)
{
    size_t cells = 0, room = 0;

    for (size_t i = 0; i < number; i++) {
        const struct text *text = &trials[i].text;
        cells = text->cells > cells ? text->cells : cells;
        room = text->room > room ? text->room : room;
    }
    return (struct buffers){allocate_filled(cells), allocate_filled(cells), allocate_filled(room)};
}

static void free_buffers(struct buffers *buffers)
{
    free(buffers->memory);
    free(buffers->marks);
    free(buffers->out);
}

static int runs(const struct trial *trial, int program)
{
    return trial->set >> program & 1;
}

static size_t run_write(int program, const struct text *text, struct buffers *buffers)
{
    return programs[program].write(BASE, buffers->memory, text->cells, buffers->marks, text->cells, header,
                                   sizeof header, entry, buffers->out, text->room);
}

/* ---- checking ---- */

/* Runs a program in buffers that hold nothing of an earlier run, and returns the length of its text. */
static size_t run_afresh(int program, const struct text *text, struct buffers *buffers)
{
    memset(buffers->memory, FILL, text->cells);
    memset(buffers->marks, FILL, text->cells);
    memset(buffers->out, FILL, text->room);
    uint32_t row = run_load(program, text, buffers->memory, buffers->marks, text->cells);
    expect(row == 0, program, "refuses to load");
    size_t length = run_write(program, text, buffers);
    expect(length != 0, program, "refuses to write");
    return length;
}

/* The library must mark as many cells as there are data bytes, and the twins must give what it gives. */
static void check(const struct trial *trial, struct buffers *expected, struct buffers *buffers)
{
    const struct text *text = &trial->text;
    size_t expected_length = run_afresh(LIBRARY, text, expected);

    expect(count_marks(expected->marks, text->cells) == text->bytes, LIBRARY, "wrong number of marks");
    for (int program = PLAIN; program < PROGRAMS; program++) {
        if (!runs(trial, program))
            continue;
        size_t length = run_afresh(program, text, buffers);
        expect(memcmp(buffers->memory, expected->memory, text->cells) == 0, program, "memory is not the library's");
        expect(memcmp(buffers->marks, expected->marks, text->cells) == 0, program, "marks are not the library's");
        expect(length == expected_length, program, "the length is not the library's");
        expect(memcmp(buffers->out, expected->out, text->room) == 0, program, "the output is not the library's");
    }
}

static void check_all(const struct trial *trials, size_t number, struct buffers *buffers)
{
    struct buffers expected = allocate_buffers(trials, number);

    for (size_t i = 0; i < number; i++)
        check(&trials[i], &expected, buffers);
    free_buffers(&expected);
}

/* ---- timing ---- */

/* Times each program once, in turn. */
static void measure(struct trial *trial, struct buffers *buffers)
{
    const struct text *text = &trial->text;

    for (int program = 0; program < PROGRAMS; program++) {
        if (!runs(trial, program))
            continue;
        double start = now();
        uint32_t row = run_load(program, text, buffers->memory, buffers->marks, text->cells);
        double loaded = now();
        size_t length = run_write(program, text, buffers);
        double written = now();
        expect(row == 0 && length != 0, program, "refuses what it accepted before");
        keep_best(&trial->best[LOAD][program], loaded - start);
        keep_best(&trial->best[WRITE][program], written - loaded);
    }
}

static void measure_all(struct trial *trials, size_t number, struct buffers *buffers, long rounds)
{
    for (long round = 1; round <= rounds; round++) {
        print_round(round, rounds);
        for (size_t i = 0; i < number; i++)
            for (int again = trials[i].mib < SMALL ? MORE : 1; again > 0; again--)
                measure(&trials[i], buffers);
    }
}

static void run(struct trial *trials, size_t number, long rounds)
{
    for (size_t i = 0; i < number; i++)
        trials[i].text = generate(trials[i].order, trials[i].mib * MIB, trials[i].size);
    struct buffers buffers = allocate_buffers(trials, number);
    check_all(trials, number, &buffers);
    measure_all(trials, number, &buffers, rounds);
    free_buffers(&buffers);
    for (size_t i = 0; i < number; i++)
        free(trials[i].text.chars);
}

/* ---- tables ---- */

/* How many times as fast as a twin the library is. */
static double ratio(const struct trial *trial, int operation, int twin)
{
    return trial->best[operation][twin] / trial->best[operation][LIBRARY];
}

static double speed(const struct trial *trial, int operation, int program)
{
    return (double)trial->text.bytes / trial->best[operation][program] / 1e6;
}

static void print_ranges(const struct trial *trials, size_t number)
{
    printf("How many times as fast as each twin the library is, the least and the greatest of all texts:\n\n");
    printf("| | times plain | times table | times tuned |\n|---|--:|--:|--:|\n");
    for (int operation = 0; operation < OPERATIONS; operation++) {
        printf("| %-5s |", operations[operation]);
        for (int twin = PLAIN; twin < PROGRAMS; twin++) {
            double least = ratio(&trials[0], operation, twin), greatest = least;
            for (size_t i = 1; i < number; i++) {
                double next = ratio(&trials[i], operation, twin);
                least = next < least ? next : least;
                greatest = next > greatest ? next : greatest;
            }
            printf(" %.2f to %.2f |", least, greatest);
        }
        printf("\n");
    }
}

/* The first columns of a row. */
static void print_text(const struct trial *trial, int operation)
{
    printf("| %-5s | %-8s | %2zu | %3zu |", operations[operation], orders[trial->order], trial->mib, trial->size);
}

static void print_row(const struct trial *trial, int operation)
{
    print_text(trial, operation);
    for (int twin = PLAIN; twin < PROGRAMS; twin++)
        printf(" %5.2f |", ratio(trial, operation, twin));
    for (int program = 0; program < PROGRAMS; program++)
        printf(" %5.0f |", speed(trial, operation, program));
    printf("\n");
}

/* Runs a set of programs on the texts to compare on, and returns how many there are. */
static size_t run_texts(struct trial trials[TEXTS], unsigned set, int quick, long rounds)
{
    static const size_t sizes[] = {16, 250};
    size_t number = 0;

    for (int order = IN_ORDER; order <= SHUFFLED; order++)
        for (size_t mib = 1; mib <= (quick ? 1 : 16); mib *= 16)
            for (int i = 0; i < 2; i++)
                trials[number++] = (struct trial){.order = order, .mib = mib, .size = sizes[i], .set = set};
    run(trials, number, rounds);
    return number;
}

static void compare(int quick, long rounds)
{
    struct trial trials[TEXTS] = {0};
    size_t number = run_texts(trials, ALL, quick, rounds);

    print_ranges(trials, number);
    printf("\nThe same for each text, and MB of data per second:\n\n");
    printf("| | order | MiB | record | times plain | times table | times tuned "
           "| library MB/s | plain MB/s | table MB/s | tuned MB/s |\n");
    printf("|---|---|--:|--:|--:|--:|--:|--:|--:|--:|--:|\n");
    for (int operation = 0; operation < OPERATIONS; operation++)
        for (size_t i = 0; i < number; i++)
            print_row(&trials[i], operation);
    fflush(stdout);
}

static void print_lines(int quick, long rounds)
{
    struct trial trials[TEXTS] = {0};
    size_t number = run_texts(trials, LIBRARY_AND_TUNED, quick, rounds);

    for (int operation = 0; operation < OPERATIONS; operation++)
        for (size_t i = 0; i < number; i++) {
            const struct trial *trial = &trials[i];
            print_text(trial, operation);
            printf("\t%.9f\t%.9f\n", trial->best[operation][LIBRARY], trial->best[operation][TUNED]);
        }
}

static void grow(int quick, long rounds)
{
    struct trial trials[4] = {0};
    size_t number = 0;

    for (size_t mib = 1; mib <= (quick ? 1 : 64); mib *= 4)
        trials[number++] = (struct trial){.order = IN_ORDER, .mib = mib, .size = 16, .set = LIBRARY_ALONE};
    run(trials, number, rounds);
    printf("\nGrowth: the library alone, in order, records of 16 bytes:\n\n");
    printf("| MiB | load MB/s | load ns/byte | write MB/s | write ns/byte |\n|--:|--:|--:|--:|--:|\n");
    for (size_t i = 0; i < number; i++) {
        double load = speed(&trials[i], LOAD, LIBRARY), write = speed(&trials[i], WRITE, LIBRARY);
        printf("| %2zu | %5.0f | %5.2f | %5.0f | %5.2f |\n", trials[i].mib, load, 1e3 / load, write, 1e3 / write);
    }
    fflush(stdout);
}

/* Is the next word this one? Then it is passed over. */
static int take(char ***words, const char *word)
{
    if (!**words || strcmp(**words, word) != 0)
        return 0;
    ++*words;
    return 1;
}

static void run_all(int quick, long rounds)
{
    printf("Minimum of %ld rounds, of %ld below %d MiB and for refusals, small loads, tapes, parts and overlays.\n\n", rounds,
           MORE * rounds, SMALL);
    compare(quick, rounds);
    grow(quick, rounds);
    refusals(quick, rounds);
    small_loads(rounds);
    tapes(rounds);
    parts(quick, rounds);
    overlays(quick, rounds);
    packed_marks(quick, rounds);
}

static void run_packed(int quick, long rounds)
{
    printf("Minimum of %ld rounds, of %ld below %d MiB.\n", rounds, MORE * rounds, SMALL);
    packed_marks(quick, rounds);
}

int main(int argc, char **argv)
{
    char **words = argv + (argc > 0);
    int packed = take(&words, "--packed"), quick = take(&words, "--quick");
    int lines = !packed && take(&words, "--lines");
    char *end = "";
    long rounds = *words ? strtol(*words++, &end, 10) : ROUNDS;

    if (*words || *end != '\0' || rounds < 1 || rounds > MOST_ROUNDS) {
        fputs("usage: compare [--packed] [--quick] [--lines] [ROUNDS]\n", stderr);
        return TROUBLE;
    }
    if (lines)
        print_lines(quick, rounds);
    else if (packed)
        run_packed(quick, rounds);
    else
        run_all(quick, rounds);
    return 0;
}
