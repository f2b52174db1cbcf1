#include "status.h"

#include <stdarg.h>
#include <stdio.h>
#include <string.h>

enum status worse(enum status one, enum status other)
{
    return one > other ? one : other;
}

static void say(const char *sort, const char *name, const char *format, va_list words)
{
    fprintf(stderr, "srec: %s", sort);
    if (name)
        fprintf(stderr, "%s: ", name);
    vfprintf(stderr, format, words);
    fputc('\n', stderr);
}

enum status trouble(const char *name, const char *format, ...)
{
    va_list words;

    va_start(words, format);
    say("", name, format, words);
    va_end(words);
    return TROUBLE;
}

enum status system_trouble(const char *name, int error)
{
    return trouble(name, "%s", strerror(error));
}

void warn(const char *name, const char *format, ...)
{
    va_list words;

    va_start(words, format);
    say("warning: ", name, format, words);
    va_end(words);
}
