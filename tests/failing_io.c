/* Loaded before the C library under check_lines: reads of standard input and writes of standard output that are short, or fail.
   The environment says how: READ_MOST, WRITE_MOST the most bytes of a call; READ_FAILS, WRITE_FAILS the number of the call, from 1, that fails,
   with READ_ERROR, WRITE_ERROR as its errno. What is not named is as ever. */
#define _GNU_SOURCE
#include <errno.h>
#include <stdlib.h>
#include <sys/syscall.h>
#include <unistd.h>

static long named(const char *name) {
    const char *text = getenv(name);
    return text ? atol(text) : 0;
}

static size_t least(size_t n, long most) {
    return most > 0 && (size_t)most < n ? (size_t)most : n;
}

ssize_t read(int fd, void *to, size_t n) {
    static long calls;
    if (fd != 0) return syscall(SYS_read, fd, to, n);
    if (++calls == named("READ_FAILS")) {
        errno = (int)named("READ_ERROR");
        return -1;
    }
    return syscall(SYS_read, fd, to, least(n, named("READ_MOST")));
}

ssize_t write(int fd, const void *from, size_t n) {
    static long calls;
    if (fd != 1) return syscall(SYS_write, fd, from, n);
    if (++calls == named("WRITE_FAILS")) {
        errno = (int)named("WRITE_ERROR");
        return -1;
    }
    return syscall(SYS_write, fd, from, least(n, named("WRITE_MOST")));
}
