/* Preloaded into a program: each read of standard input gives at most READ_PIECE bytes and each write to standard output
   takes at most WRITE_PIECE, and the read and the write with the numbers FAIL_READ and FAIL_WRITE, counted from 1, fail, and
   with FAIL_ALL each later one as well. */
#define _GNU_SOURCE
#include <dlfcn.h>
#include <errno.h>
#include <stdlib.h>
#include <unistd.h>

static unsigned long number_of(const char *name) {
    const char *text = getenv(name);
    return text ? strtoul(text, 0, 10) : 0;
}

static size_t piece(const char *name, size_t bytes) {
    unsigned long most = number_of(name);
    return most && most < bytes ? most : bytes;
}

static int fails(const char *name, unsigned long number) {
    unsigned long first = number_of(name);
    return first && (number == first || (number > first && getenv("FAIL_ALL")));
}

ssize_t read(int file, void *place, size_t bytes) {
    static ssize_t (*next)(int, void *, size_t);
    static unsigned long reads;
    if (!next) next = dlsym(RTLD_NEXT, "read");
    if (file != 0) return next(file, place, bytes);
    if (fails("FAIL_READ", ++reads)) return errno = EIO, -1;
    return next(file, place, piece("READ_PIECE", bytes));
}

ssize_t write(int file, const void *place, size_t bytes) {
    static ssize_t (*next)(int, const void *, size_t);
    static unsigned long writes;
    if (!next) next = dlsym(RTLD_NEXT, "write");
    if (file != 1) return next(file, place, bytes);
    if (fails("FAIL_WRITE", ++writes)) return errno = EIO, -1;
    return next(file, place, piece("WRITE_PIECE", bytes));
}
