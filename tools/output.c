/* For realpath. */
#define _XOPEN_SOURCE 700

#include "output.h"

#include <errno.h>
#include <fcntl.h>
#include <signal.h>
#include <stdio.h>
#include <stdlib.h>
#include <string.h>
#include <sys/stat.h>
#include <unistd.h>

/* A file that is written beside the one that it is to replace. */
struct draft {
    char *target;    /* the file itself where the path is a link to it */
    char *temporary; /* NULL where the target is no regular file: a device is written at once */
};

enum { MOST_DRAFTS = 4 };

static enum status put_bytes(int fd, const char *name, const struct product *product)
{
    size_t done = 0;

    while (done < product->length) {
        ssize_t put = write(fd, product->bytes + done, product->length - done);

        if (put >= 0)
            done += (size_t)put;
        else if (errno != EINTR)
            return system_trouble(name, errno);
    }
    return DONE;
}

static enum status put_standard(const struct product *product)
{
    if (fwrite(product->bytes, 1, product->length, stdout) != product->length || fflush(stdout) != 0) {
        int error = errno;

        /* So that the end of the program does not tell it again. */
        clearerr(stdout);
        return system_trouble("standard output", error);
    }
    return DONE;
}

static enum status put_device(const char *path, const struct product *product)
{
    int fd = open(path, O_WRONLY | O_NOCTTY);
    enum status status;

    if (fd < 0)
        return system_trouble(path, errno);
    status = put_bytes(fd, path, product);
    if (close(fd) != 0 && status == DONE)
        status = system_trouble(path, errno);
    return status;
}

/* Gives a file the permissions and the owner of the one that it will replace, or those of a new file. */
static int set_mode(int fd, const struct stat *old)
{
    if (!old) {
        mode_t mask = umask(0);

        umask(mask);
        return fchmod(fd, 0666 & ~mask);
    }
    /* Only a privileged user can give a file away; any other one keeps it. */
    if (fchown(fd, old->st_uid, old->st_gid) != 0 && errno != EPERM)
        return -1;
    return fchmod(fd, old->st_mode & 0777);
}

/* Not every file system can do it. */
static int is_on_disk(int fd)
{
    return fsync(fd) == 0 || errno == EINVAL;
}

/* Fills an open temporary file and closes it. */
static enum status fill(int fd, const char *name, const struct stat *old, const struct product *product)
{
    enum status status = put_bytes(fd, name, product);

    if (status == DONE && (set_mode(fd, old) != 0 || !is_on_disk(fd)))
        status = system_trouble(name, errno);
    if (close(fd) != 0 && status == DONE)
        status = system_trouble(name, errno);
    return status;
}

/* Opens a file of a new name beside the target. Returns its descriptor, or -1 after trouble. */
static int open_beside(struct draft *draft, const char *path)
{
    static const char ending[] = ".XXXXXX";
    size_t length = strlen(draft->target);
    char *name = malloc(length + sizeof ending);
    int fd = -1;

    if (name) {
        memcpy(name, draft->target, length);
        memcpy(name + length, ending, sizeof ending);
        fd = mkstemp(name);
    }
    if (fd < 0) {
        system_trouble(path, errno);
        free(name);
        return -1;
    }
    draft->temporary = name;
    return fd;
}

/* The file that a path leads to, which is to be freed: a link stays, and what it names is replaced. */
static char *target_of(const char *path, int exists)
{
    size_t size = strlen(path) + 1;
    char *copy;

    if (exists)
        return realpath(path, NULL);
    copy = malloc(size);
    if (copy)
        memcpy(copy, path, size);
    return copy;
}

/* Writes a text beside its path. */
static enum status begin_draft(const char *path, const struct product *product, struct draft *draft)
{
    struct stat old;
    int exists = stat(path, &old) == 0;
    int fd;

    /* A link that leads nowhere is not replaced either. */
    if (!exists && lstat(path, &old) == 0)
        return system_trouble(path, ENOENT);
    if (exists && !S_ISREG(old.st_mode))
        return put_device(path, product);
    if (exists && access(path, W_OK) != 0)
        return system_trouble(path, errno);
    draft->target = target_of(path, exists);
    if (!draft->target)
        return system_trouble(path, errno);
    fd = open_beside(draft, path);
    if (fd < 0)
        return TROUBLE;
    return fill(fd, path, exists ? &old : NULL, product);
}

/* Puts a draft in its place if all went well so far, and else removes it. */
static enum status end_draft(struct draft *draft, const char *path, enum status status)
{
    if (draft->temporary) {
        if (status == DONE && rename(draft->temporary, draft->target) != 0)
            status = system_trouble(path, errno);
        if (status != DONE)
            unlink(draft->temporary);
    }
    free(draft->temporary);
    free(draft->target);
    return status;
}

/* Holds back what would end the program with a temporary file left behind. *before is to be set again. */
static void hold_signals(sigset_t *before)
{
    sigset_t signals;

    sigemptyset(&signals);
    sigaddset(&signals, SIGHUP);
    sigaddset(&signals, SIGINT);
    sigaddset(&signals, SIGTERM);
    sigprocmask(SIG_BLOCK, &signals, before);
}

enum status put_products(const char *const *paths, const struct product *products, size_t count)
{
    struct draft drafts[MOST_DRAFTS] = {{NULL, NULL}};
    enum status status = DONE;
    sigset_t before;
    size_t begun = 0;

    hold_signals(&before);
    while (status == DONE && begun < count && begun < MOST_DRAFTS) {
        status = begin_draft(paths[begun], &products[begun], &drafts[begun]);
        begun++;
    }
    for (size_t i = 0; i < begun; i++)
        status = end_draft(&drafts[i], paths[i], status);
    sigprocmask(SIG_SETMASK, &before, NULL);
    return status;
}

enum status put_product(const char *path, const struct product *product)
{
    return path ? put_products(&path, product, 1) : put_standard(product);
}

enum status close_output(void)
{
    int lost = ferror(stdout);

    errno = 0;
    if (fclose(stdout) != 0 || lost)
        return trouble("standard output", "%s", errno != 0 ? strerror(errno) : "not all of it could be written");
    return DONE;
}
