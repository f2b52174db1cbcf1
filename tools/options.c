#include "options.h"

#include <stdlib.h>
#include <string.h>

static const struct option {
    const char *name; /* with its dashes */
    unsigned bit;
    int has_value;
} known[] = {
    {"--help", OPTION_HELP, 0},       {"--from", OPTION_FROM, 1},   {"--edition", OPTION_EDITION, 1},
    {"--window", OPTION_WINDOW, 1},   {"--entry", OPTION_ENTRY, 1}, {"-o", OPTION_OUT, 1},
    {"-k", OPTION_CHIPS, 1},          {"--to", OPTION_TO, 1},       {"--map", OPTION_MAP, 0},
    {"--symbols", OPTION_SYMBOLS, 1}, {"--over", OPTION_OVER, 1},
};

enum { KNOWN = sizeof known / sizeof known[0] };

static int digit_of(char c)
{
    if (c >= '0' && c <= '9')
        return c - '0';
    if (c >= 'A' && c <= 'F')
        return c - 'A' + 10;
    if (c >= 'a' && c <= 'f')
        return c - 'a' + 10;
    return -1;
}

int read_hex(const char *word, uint64_t most, uint64_t *number)
{
    uint64_t value = 0;

    if (word[0] == '0' && (word[1] == 'x' || word[1] == 'X'))
        word += 2;
    if (*word == '\0')
        return -1;
    for (; *word != '\0'; word++) {
        int digit = digit_of(*word);

        /* The most is at most 2^32, so value * 16 stays far below 2^64. */
        if (digit < 0)
            return -1;
        value = value * 16 + (uint64_t)digit;
        if (value > most)
            return -1;
    }
    *number = value;
    return 0;
}

static enum status bad_value(const char *option, const char *value, const char *wanted)
{
    return trouble(NULL, "%s takes %s, not '%s'", option, wanted, value);
}

static enum status take_from(const char *value, struct options *options)
{
    static const struct {
        const char *name;
        enum kind kind;
    } names[] = {
        {"srec", KIND_RECORDS},
        {"tape", KIND_TAPE_REPEAT},
        {"tape-sum", KIND_TAPE_SUM},
        {"symbols", KIND_SYMBOLS},
    };

    for (size_t i = 0; i < sizeof names / sizeof names[0]; i++) {
        if (strcmp(value, names[i].name) == 0) {
            options->has_from = 1;
            options->from = names[i].kind;
            return DONE;
        }
    }
    return bad_value("--from", value, "srec, tape, tape-sum or symbols");
}

static enum status take_edition(const char *value, struct options *options)
{
    options->edition_sum = strcmp(value, "sum") == 0;
    if (!options->edition_sum && strcmp(value, "repeat") != 0)
        return bad_value("--edition", value, "repeat or sum");
    return DONE;
}

static enum status take_to(const char *value, struct options *options)
{
    options->to = strcmp(value, "tape") == 0 ? SREC_TAPE_REPEAT : SREC_RECORDS;
    if (options->to == SREC_RECORDS && strcmp(value, "srec") != 0)
        return bad_value("--to", value, "srec or tape");
    return DONE;
}

static enum status take_chips(const char *value, struct options *options)
{
    if (strcmp(value, "2") != 0 && strcmp(value, "4") != 0)
        return bad_value("-k", value, "2 or 4");
    options->chips = value[0] == '2' ? 2 : 4;
    return DONE;
}

static enum status take_entry(const char *value, struct options *options)
{
    uint64_t entry;

    if (read_hex(value, UINT32_MAX, &entry) != 0)
        return bad_value("--entry", value, "an address in hex digits");
    options->entry = (uint32_t)entry;
    return DONE;
}

static enum status take_window(char *value, struct options *options)
{
    const uint64_t end = (uint64_t)UINT32_MAX + 1;
    char *colon = strchr(value, ':');
    uint64_t base = 0;
    int good = 0;

    if (colon) {
        *colon = '\0';
        good = read_hex(value, UINT32_MAX, &base) == 0 && read_hex(colon + 1, end, &options->length) == 0;
        *colon = ':';
    }
    if (!good)
        return bad_value("--window", value, "BASE:LENGTH in hex digits");
    if (base + options->length > end)
        return trouble(NULL, "the window %s passes address FFFFFFFF", value);
    if (options->length > SIZE_MAX)
        return trouble(NULL, "the window %s is too long for this machine", value);
    options->base = (uint32_t)base;
    return DONE;
}

static enum status take(const struct option *option, char *value, struct options *options)
{
    options->given |= option->bit;
    if (!value)
        return DONE;
    switch (option->bit) {
    case OPTION_FROM:
        return take_from(value, options);
    case OPTION_EDITION:
        return take_edition(value, options);
    case OPTION_WINDOW:
        return take_window(value, options);
    case OPTION_ENTRY:
        return take_entry(value, options);
    case OPTION_CHIPS:
        return take_chips(value, options);
    case OPTION_TO:
        return take_to(value, options);
    case OPTION_OUT:
        options->out = strcmp(value, "-") == 0 ? NULL : value;
        return DONE;
    case OPTION_SYMBOLS:
        options->symbols = value;
        return DONE;
    case OPTION_OVER:
        options->over = value;
        return DONE;
    default:
        return DONE;
    }
}

/* The option that a word begins with. *value is what stands behind it in the same word, NULL if nothing does. */
static const struct option *find(char *word, char **value)
{
    for (size_t i = 0; i < KNOWN; i++) {
        size_t length = strlen(known[i].name);
        int is_long = known[i].name[1] == '-';

        if (strncmp(word, known[i].name, length) != 0)
            continue;
        *value = NULL;
        if (word[length] == '\0')
            return &known[i];
        if (!is_long || word[length] == '=') {
            *value = word + length + (is_long ? 1 : 0);
            return &known[i];
        }
    }
    return NULL;
}

/* Reads the option at *at, and moves *at behind it. */
static enum status read_option(char **words, int count, int *at, unsigned taken, struct options *options)
{
    char *word = words[(*at)++];
    char *value;
    const struct option *option = find(word, &value);

    if (!option || !(taken & option->bit))
        return trouble(NULL, "there is no option %s here", word);
    if (!option->has_value && value)
        return trouble(NULL, "%s takes no value", option->name);
    if (options->given & option->bit)
        return trouble(NULL, "%s is given twice", option->name);
    if (option->has_value && !value) {
        if (*at == count)
            return trouble(NULL, "%s needs a value", option->name);
        value = words[(*at)++];
    }
    return take(option, value, options);
}

/* The edition is that of the tape that is written, where one is, and else that of the tapes that are read. */
static enum status settle_edition(struct options *options)
{
    if (options->to != SREC_RECORDS) {
        if (options->edition_sum)
            options->to = SREC_TAPE_SUM;
        return DONE;
    }
    options->read_sum = options->edition_sum;
    if ((options->given & OPTION_EDITION) && options->has_from && options->from == KIND_TAPE_SUM && !options->read_sum)
        return trouble(NULL, "--from tape-sum and --edition repeat contradict each other");
    return DONE;
}

enum status read_options(char **words, int count, unsigned taken, struct options *options)
{
    int only_operands = 0;
    int at = 0;

    memset(options, 0, sizeof *options);
    options->to = SREC_RECORDS;
    options->operands = words;
    while (at < count) {
        char *word = words[at];

        if (!only_operands && strcmp(word, "--") == 0) {
            only_operands = 1;
            at++;
        } else if (!only_operands && word[0] == '-' && word[1] != '\0') {
            if (read_option(words, count, &at, taken | OPTION_HELP, options) != DONE)
                return TROUBLE;
        } else {
            words[options->operand_count++] = words[at++];
        }
    }
    return settle_edition(options);
}
