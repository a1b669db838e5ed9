// Stands before the C library (LD_PRELOAD) and makes reads of standard input and writes to standard output fail, as the
// environment says: READ_FAILS or WRITE_FAILS is the number of the call that fails, with the error ERROR; later calls
// are made. With INTERRUPTED every other call is answered as if a signal had interrupted it, and with MOST no call
// moves more bytes than that. tests/failing.py uses it.
#define _GNU_SOURCE
#include <errno.h>
#include <stdlib.h>
#include <sys/syscall.h>
#include <unistd.h>

static long number(const char *name) {
    const char *text = getenv(name);
    return text ? atol(text) : 0;
}

// Whether a call fails; else the bytes that it may move are limited.
static int fails(const char *which, long call, size_t *count) {
    const size_t most = (size_t)number("MOST");
    if (call == number(which)) {
        errno = (int)number("ERROR");
        return 1;
    }
    if (number("INTERRUPTED") && call % 2 == 1) {
        errno = EINTR;
        return 1;
    }
    if (most && most < *count)
        *count = most;
    return 0;
}

ssize_t read(int fd, void *bytes, size_t count) {
    static long calls;
    if (fd == STDIN_FILENO && fails("READ_FAILS", ++calls, &count))
        return -1;
    return syscall(SYS_read, fd, bytes, count);
}

ssize_t write(int fd, const void *bytes, size_t count) {
    static long calls;
    if (fd == STDOUT_FILENO && fails("WRITE_FAILS", ++calls, &count))
        return -1;
    return syscall(SYS_write, fd, bytes, count);
}
