/* diff: two files by what they say, not by how. */
#include <inttypes.h>
#include <stdio.h>
#include <string.h>

#include "commands.h"
#include "image.h"
#include "print.h"

/* Cells of a line are in one such block of addresses, as in canonical texts. */
enum { BLOCK = 16 };

/* What is told of a cell: its sign in the output, or SAME. */
enum { SAME = 0, ONLY_FIRST = '-', ONLY_SECOND = '+', CHANGED = '!' };

static int sign_at(const struct window *first, const struct window *second, size_t i)
{
    if (first->marks[i] != second->marks[i])
        return first->marks[i] ? ONLY_FIRST : ONLY_SECOND;
    return first->marks[i] && first->memory[i] != second->memory[i] ? CHANGED : SAME;
}

static void print_bytes(const uint8_t *bytes, size_t count)
{
    for (size_t i = 0; i < count; i++)
        printf(" %02X", bytes[i]);
}

static void print_cells(int sign, const struct window *first, const struct window *second, size_t from, size_t to)
{
    uint64_t base = first->base;

    printf("%c %08" PRIX64, sign, base + from);
    if (to - from > 1)
        printf("..%08" PRIX64, base + to - 1);
    if (sign != ONLY_SECOND)
        print_bytes(first->memory + from, to - from);
    if (sign == CHANGED)
        printf(" ->");
    if (sign != ONLY_FIRST)
        print_bytes(second->memory + from, to - from);
    putchar('\n');
}

/* Both windows have the same base and length. */
static enum status compare_cells(const struct window *first, const struct window *second)
{
    enum status status = DONE;
    size_t i = 0;

    while (i < first->length) {
        int sign = sign_at(first, second, i);
        size_t from = i++;

        if (sign == SAME)
            continue;
        while (i < first->length && (first->base + i) % BLOCK != 0 && sign_at(first, second, i) == sign)
            i++;
        print_cells(sign, first, second, from, i);
        status = DIFFERENT;
    }
    return status;
}

static enum status compare_headers(const struct srec_loaded *first, const struct srec_loaded *second)
{
    if (first->header_len == second->header_len && memcmp(first->header, second->header, first->header_len) == 0)
        return DONE;
    printf("header: ");
    print_header(first);
    putchar(' ');
    print_header(second);
    putchar('\n');
    return DIFFERENT;
}

static enum status compare_entries(const struct srec_loaded *first, const struct srec_loaded *second)
{
    if (first->has_entry == second->has_entry && first->entry == second->entry)
        return DONE;
    printf("entry: ");
    print_entry(first);
    putchar(' ');
    print_entry(second);
    putchar('\n');
    return DIFFERENT;
}

static enum status compare(const struct image *first, const struct image *second)
{
    enum status status = compare_headers(&first->answer, &second->answer);

    status = worse(status, compare_entries(&first->answer, &second->answer));
    return worse(status, compare_cells(&first->window, &second->window));
}

/* Loads both inputs into windows that hold the cells of either, and compares them. */
static enum status load_and_compare(const struct input *inputs, const struct options *options)
{
    struct srec_range span = both_spans(span_of(&inputs[0]), span_of(&inputs[1]));
    struct image images[2];
    enum status status = DONE;

    memset(images, 0, sizeof images);
    for (int i = 0; i < 2 && status != TROUBLE; i++)
        status = worse(status, open_window(options, span, 1, NULL, &images[i].window));
    /* The second is loaded also if the first is refused, so that both refusals are told. */
    for (int i = 0; i < 2 && status != TROUBLE; i++)
        status = worse(status, load_image(&inputs[i], &images[i]));
    /* As with diff: what cannot be compared is trouble, since 1 would say that they differ. */
    status = status == DONE ? compare(&images[0], &images[1]) : TROUBLE;
    for (int i = 0; i < 2; i++)
        close_image(&images[i]);
    return status;
}

enum status run_diff(const struct options *options)
{
    struct input inputs[2];
    enum status status = DONE;

    memset(inputs, 0, sizeof inputs);
    for (int i = 0; i < 2; i++)
        status = worse(status, open_input(options->operands[i], options, &inputs[i]));
    if (status == DONE)
        status = load_and_compare(inputs, options);
    for (int i = 0; i < 2; i++)
        close_input(&inputs[i]);
    return status;
}
