/* srec: Motorola S-records and MOS Technology paper tapes at the command line. What matters is done by the library; here are
 * the command's words, files and messages. tools/srec.1 is the manual. */
#include <fcntl.h>
#include <stdio.h>
#include <string.h>
#include <unistd.h>

#include "commands.h"
#include "options.h"
#include "output.h"
#include "srec.h"
#include "status.h"

enum {
    READING = OPTION_FROM | OPTION_EDITION,
    LOADING = READING | OPTION_WINDOW,
    MANY = 1 << 30
};

static const struct command {
    const char *name;
    const char *usage;
    const char *words;
    enum status (*run)(const struct options *options);
    unsigned options;
    int least; /* operands */
    int most;
} commands[] = {
    {"check", "FILE..", "tells which files are refused, where and why", run_check, LOADING, 1, MANY},
    {"canon", "[-o OUT] FILE", "writes the canonical text", run_canon, LOADING | OPTION_OUT, 1, 1},
    {"diff", "A B", "compares header, entry and cells", run_diff, LOADING, 2, 2},
    {"info", "[--map] FILE", "shows what an image consists of", run_info, LOADING | OPTION_MAP, 1, 1},
    {"where", "FILE ADDRESS..", "tells which line gives a cell", run_where, LOADING, 2, MANY},
    {"convert", "--to srec|tape [--edition repeat|sum] [--entry ADDRESS] [-o OUT] FILE", "writes the other format",
     run_convert, LOADING | OPTION_TO | OPTION_ENTRY | OPTION_OUT, 1, 1},
    {"merge", "[--entry ADDRESS] [-o OUT] BASE PATCH..", "lays patches over a base, in order", run_merge,
     LOADING | OPTION_ENTRY | OPTION_OUT, 2, MANY},
    {"deal", "-k 2|4 FILE OUT", "writes the texts of 2 or 4 chips, OUT.0 and so on", run_deal, LOADING | OPTION_CHIPS, 2,
     2},
    {"collect", "-k 2|4 IN OUT", "brings IN.0 and so on together again", run_collect, READING | OPTION_CHIPS, 2, 2},
    {"patch", "--symbols TEXT [--over BASE] [--entry ADDRESS] [-o OUT] SHEET",
     "writes a patch sheet as a text, or laid over a base", run_patch,
     LOADING | OPTION_SYMBOLS | OPTION_OVER | OPTION_ENTRY | OPTION_OUT, 1, 1},
};

enum { COMMANDS = sizeof commands / sizeof commands[0] };

static void print_common(void)
{
    printf("\nA FILE may be -, which is standard input. Numbers are in hex digits, with or without 0x.\n"
           "  --from srec|tape|tape-sum|symbols   the format that is read; else the first character tells it\n"
           "  --edition repeat|sum                how the last line of a tape is checked; else repeat\n"
           "  --window BASE:LENGTH                the addresses that may be used; else those that are\n"
           "  --help, --version\n"
           "Exit status: 0, 1 if a text is refused or two differ, 2 for trouble. More is in srec(1).\n");
}

static enum status print_help(void)
{
    printf("usage: srec COMMAND [OPTION..] OPERAND..\n\n");
    for (size_t i = 0; i < COMMANDS; i++)
        printf("  srec %s %s\n      %s\n", commands[i].name, commands[i].usage, commands[i].words);
    print_common();
    return DONE;
}

static enum status print_usage(const struct command *command)
{
    printf("usage: srec %s %s\n  %s\n", command->name, command->usage, command->words);
    print_common();
    return DONE;
}

/* What is closed at the start is opened in a way in which it cannot be used, so that no file gets its number. */
static void hold_standard_files(void)
{
    for (int fd = STDIN_FILENO; fd <= STDERR_FILENO; fd++) {
        if (fcntl(fd, F_GETFD) < 0 && open("/dev/null", fd == STDIN_FILENO ? O_WRONLY : O_RDONLY) < 0)
            return;
    }
}

static const struct command *find_command(const char *name)
{
    for (size_t i = 0; i < COMMANDS; i++) {
        if (strcmp(commands[i].name, name) == 0)
            return &commands[i];
    }
    return NULL;
}

/* Standard input can be read once. */
static int stdin_twice(const struct options *options)
{
    int count = 0;

    for (int i = 0; i < options->operand_count; i++)
        count += strcmp(options->operands[i], "-") == 0;
    count += options->symbols && strcmp(options->symbols, "-") == 0;
    count += options->over && strcmp(options->over, "-") == 0;
    return count > 1;
}

static enum status wrong_usage(const struct command *command)
{
    fprintf(stderr, "usage: srec %s %s\n", command->name, command->usage);
    return TROUBLE;
}

static enum status run_command(const struct command *command, char **words, int count)
{
    struct options options;

    if (read_options(words, count, command->options, &options) != DONE)
        return wrong_usage(command);
    if (options.given & OPTION_HELP)
        return print_usage(command);
    if (options.operand_count < command->least || options.operand_count > command->most)
        return wrong_usage(command);
    if (stdin_twice(&options))
        return trouble(NULL, "standard input can be read once");
    return command->run(&options);
}

static enum status run(int argc, char **argv)
{
    const struct command *command;

    if (argc > 1 && strcmp(argv[1], "--help") == 0)
        return print_help();
    if (argc > 1 && strcmp(argv[1], "--version") == 0) {
        printf("srec %s\n", SREC_VERSION);
        return DONE;
    }
    command = argc > 1 ? find_command(argv[1]) : NULL;
    if (command)
        return run_command(command, argv + 2, argc - 2);
    if (argc > 1)
        trouble(NULL, "there is no command '%s'", argv[1]);
    fprintf(stderr, "usage: srec COMMAND [OPTION..] OPERAND..; srec --help shows the commands\n");
    return TROUBLE;
}

int main(int argc, char **argv)
{
    enum status status;

    hold_standard_files();
    status = run(argc, argv);
    return (int)worse(status, close_output());
}
