/* status.h: the exit statuses of srec, and words on standard error. */
#ifndef STATUS_H
#define STATUS_H

/* A larger one is worse: of several files the worst status is the program's. */
enum status {
    DONE = 0,
    REFUSED = 1,   /* a text or a write is refused, or an address is not given */
    DIFFERENT = 1, /* diff alone */
    TROUBLE = 2    /* usage, files, memory */
};

enum status worse(enum status one, enum status other);

/* Prints `srec: NAME: ` and the words of a format as printf has them; no name, no `NAME: `. Returns TROUBLE. */
enum status trouble(const char *name, const char *format, ...);

/* The same for an error number of the system. */
enum status system_trouble(const char *name, int error);

/* Prints `srec: warning: NAME: ` and the words. */
void warn(const char *name, const char *format, ...);

#endif
