/* Makes calls of the C library fail, in a program that loads this by LD_PRELOAD. The variable FAULT
 * has words that say which:
 *
 *     read 0 2 3 EIO       three reads of descriptor 0 fail, from the second on
 *     write 1 1 9 short    nine writes to descriptor 1 take one byte
 *     open - 1 1 EINTR     the first file can't be opened
 *
 * The calls are read, write and open. `zero` in place of an error is a call that returns 0. */
#define _GNU_SOURCE
#include <dlfcn.h>
#include <errno.h>
#include <fcntl.h>
#include <stdarg.h>
#include <stdio.h>
#include <stdlib.h>
#include <string.h>
#include <sys/types.h>

static const struct {
    const char *name;
    int number;
} errors[] = {{"EINTR", EINTR}, {"EIO", EIO}, {"EACCES", EACCES}, {"EISDIR", EISDIR}, {"ENOSPC", ENOSPC}, {"EPIPE", EPIPE}, {"EAGAIN", EAGAIN}, {"EBADF", EBADF}};

enum { NONE = -1, SHORT = -2, ZERO = -3 };

/* Returns what this call is to do: an error, or one of the words. */
static int fault(const char *call, int descriptor) {
    static unsigned long count;
    char name[16], where[16], what[16];
    unsigned long first, times;
    const char *words = getenv("FAULT");
    if (!words || sscanf(words, "%15s %15s %lu %lu %15s", name, where, &first, &times, what) != 5) {
        return NONE;
    }
    if (strcmp(name, call) != 0 || (strcmp(where, "-") != 0 && atoi(where) != descriptor)) {
        return NONE;
    }
    count++;
    if (count < first || count - first >= times) {
        return NONE;
    }
    if (strcmp(what, "short") == 0) {
        return SHORT;
    }
    if (strcmp(what, "zero") == 0) {
        return ZERO;
    }
    for (size_t i = 0; i < sizeof errors / sizeof *errors; i++) {
        if (strcmp(what, errors[i].name) == 0) {
            return errors[i].number;
        }
    }
    abort();
}

static ssize_t failed(int error) {
    errno = error;
    return -1;
}

ssize_t read(int descriptor, void *buffer, size_t length) {
    ssize_t (*next)(int, void *, size_t) = (ssize_t(*)(int, void *, size_t))dlsym(RTLD_NEXT, "read");
    int error = fault("read", descriptor);
    if (error >= 0) {
        return failed(error);
    }
    return error == ZERO ? 0 : next(descriptor, buffer, error == SHORT && length > 1 ? 1 : length);
}

ssize_t write(int descriptor, const void *bytes, size_t length) {
    ssize_t (*next)(int, const void *, size_t) = (ssize_t(*)(int, const void *, size_t))dlsym(RTLD_NEXT, "write");
    int error = fault("write", descriptor);
    if (error >= 0) {
        return failed(error);
    }
    return error == ZERO ? 0 : next(descriptor, bytes, error == SHORT && length > 1 ? 1 : length);
}

int open(const char *path, int flags, ...) {
    int (*next)(const char *, int, ...) = (int (*)(const char *, int, ...))dlsym(RTLD_NEXT, "open");
    int error = fault("open", -1);
    return error >= 0 ? (int)failed(error) : next(path, flags);
}

int open64(const char *path, int flags, ...) {
    return open(path, flags);
}
