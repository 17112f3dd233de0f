/*
 * To be preloaded into a program: of the file whose path ends in $FAILS_IN, reads give $FAILS_AFTER bytes and then fail, as on a worn
 * memory card.
 */
#define _GNU_SOURCE
#include <errno.h>
#include <stdio.h>
#include <stdlib.h>
#include <string.h>
#include <sys/syscall.h>
#include <unistd.h>

static size_t given;

/* Whether the descriptor's path ends in `name`. */
static int is_of(int fd, const char *name)
{
    char link[64], path[4096];
    ssize_t length;
    snprintf(link, sizeof link, "/proc/self/fd/%d", fd);
    length = readlink(link, path, sizeof path - 1);
    if (length < 0) {
        return 0;
    }
    path[length] = 0;
    return (size_t)length >= strlen(name) && strcmp(path + length - strlen(name), name) == 0;
}

ssize_t read(int fd, void *bytes, size_t room)
{
    const char *name = getenv("FAILS_IN"), *after = getenv("FAILS_AFTER");
    size_t left;
    ssize_t got;
    if (name == NULL || after == NULL || !is_of(fd, name)) {
        return syscall(SYS_read, fd, bytes, room);
    }
    left = strtoull(after, NULL, 10) - given;
    if (left == 0 && room > 0) {
        errno = EIO;
        return -1;
    }
    got = syscall(SYS_read, fd, bytes, room < left ? room : left);
    given += got > 0 ? (size_t)got : 0;
    return got;
}
