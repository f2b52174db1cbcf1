#include "input.h"

#include <errno.h>
#include <fcntl.h>
#include <stdlib.h>
#include <string.h>
#include <sys/stat.h>
#include <unistd.h>

#include "pages.h"

enum { FIRST_ROOM = 65536 };

/* How many bytes a descriptor still has, and one more so that the end is seen without more room; a guess where the system
 * does not say. */
static size_t first_room(int fd)
{
    struct stat about;
    off_t at;

    if (fstat(fd, &about) != 0 || !S_ISREG(about.st_mode) || about.st_size <= 0)
        return FIRST_ROOM;
    at = lseek(fd, 0, SEEK_CUR);
    if (at < 0 || at >= about.st_size || (uintmax_t)(about.st_size - at) >= SIZE_MAX)
        return FIRST_ROOM;
    return (size_t)(about.st_size - at) + 1;
}

/* Makes room for more bytes than there are. Returns 0, or an error number. */
static int grow(struct input *input, size_t *room)
{
    uint8_t *bytes;

    if (*room > SIZE_MAX / 2)
        return ENOMEM;
    bytes = realloc(input->bytes, 2 * *room);
    if (!bytes)
        return ENOMEM;
    input->bytes = bytes;
    *room *= 2;
    return 0;
}

/* Reads to the end. Returns 0, or an error number. */
static int read_all(int fd, struct input *input)
{
    size_t room = first_room(fd);

    input->bytes = malloc(room);
    if (!input->bytes)
        return ENOMEM;
    use_large_pages(input->bytes, room);
    for (;;) {
        int error = input->length == room ? grow(input, &room) : 0;
        ssize_t got;

        if (error != 0)
            return error;
        got = read(fd, input->bytes + input->length, room - input->length);
        if (got == 0)
            return 0;
        if (got > 0)
            input->length += (size_t)got;
        else if (errno != EINTR)
            return errno;
    }
}

/* Returns 0, or an error number. */
static int read_file(const char *path, struct input *input)
{
    int fd = open(path, O_RDONLY | O_NOCTTY);
    int error;

    if (fd < 0)
        return errno;
    error = read_all(fd, input);
    close(fd);
    return error;
}

static int ends_line(uint8_t byte)
{
    return byte == '\r' || byte == '\n';
}

/* A tape may begin with NUL and XOFF. Ahead of anything else they are refused, whatever the format. */
static enum kind kind_of(const uint8_t *bytes, size_t length)
{
    size_t i = 0;

    while (i < length && (ends_line(bytes[i]) || bytes[i] == 0x00 || bytes[i] == 0x13))
        i++;
    if (i < length && bytes[i] == ';')
        return KIND_TAPE_REPEAT;
    if (i < length && bytes[i] == '$')
        return KIND_SYMBOLS;
    return KIND_RECORDS;
}

const char *input_name(const char *path)
{
    return strcmp(path, "-") == 0 ? "<stdin>" : path;
}

uint32_t format_of(enum kind kind)
{
    return kind == KIND_SYMBOLS ? (uint32_t)SREC_RECORDS : (uint32_t)kind;
}

enum status open_input(const char *path, const struct options *options, struct input *input)
{
    int error;

    memset(input, 0, sizeof *input);
    input->name = input_name(path);
    error = strcmp(path, "-") == 0 ? read_all(STDIN_FILENO, input) : read_file(path, input);
    if (error != 0)
        return system_trouble(input->name, error);
    input->kind = options->has_from ? options->from : kind_of(input->bytes, input->length);
    if (input->kind == KIND_TAPE_REPEAT && options->read_sum)
        input->kind = KIND_TAPE_SUM;
    if (input->kind == KIND_SYMBOLS)
        input->start = srec_behind(input->bytes, input->length);
    return DONE;
}

void close_input(struct input *input)
{
    free(input->bytes);
    memset(input, 0, sizeof *input);
}

struct records records_of(const struct input *input)
{
    struct records records = {
        format_of(input->kind),
        input->bytes + input->start,
        input->length - input->start,
    };
    return records;
}

const char *kind_name(enum kind kind)
{
    switch (kind) {
    case KIND_RECORDS:
        return "S-records";
    case KIND_TAPE_REPEAT:
        return "paper tape";
    case KIND_TAPE_SUM:
        return "paper tape, edition sum";
    default:
        return "S-records behind a block of symbols";
    }
}
