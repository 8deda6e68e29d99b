/* Makes a read of standard input and a write to standard output fail in the program that it is preloaded into;
   tools/fail-io compiles and uses it.

   Calls of both kinds are numbered from 1. The read FAIL_READ and the write FAIL_WRITE (variables of the environment)
   fail with EIO; each other call moves at most READ_MOST or WRITE_MOST bytes, where these are given. At the program's
   end a line is written to the file FAIL_COUNT: how many reads and writes there were, and how many bytes they moved. */
#define _GNU_SOURCE
#include <errno.h>
#include <fcntl.h>
#include <stddef.h>
#include <stdio.h>
#include <stdlib.h>
#include <sys/syscall.h>
#include <sys/uio.h>
#include <unistd.h>

/* The calls of one kind so far. */
struct calls {
    unsigned long number, failing, most, moved;
};

static struct calls reads, writes;

static unsigned long number_in(const char *variable) {
    const char *text = getenv(variable);
    return text ? strtoul(text, NULL, 10) : 0;
}

__attribute__((constructor)) static void start(void) {
    reads = (struct calls){0, number_in("FAIL_READ"), number_in("READ_MOST"), 0};
    writes = (struct calls){0, number_in("FAIL_WRITE"), number_in("WRITE_MOST"), 0};
}

__attribute__((destructor)) static void end(void) {
    const char *path = getenv("FAIL_COUNT");
    int file = path ? open(path, O_WRONLY | O_CREAT | O_TRUNC, 0600) : -1;
    if (file >= 0) {
        dprintf(file, "%lu %lu %lu %lu\n", reads.number, writes.number, reads.moved, writes.moved);
        close(file);
    }
}

/* Makes the next call of a kind, by the number of the system's call; it fails where it is to. */
static ssize_t next_call(struct calls *calls, long call, int file, const void *bytes, size_t count) {
    calls->number++;
    if (calls->number == calls->failing) {
        errno = EIO;
        return -1;
    }
    if (calls->most && count > calls->most)
        count = calls->most;
    ssize_t moved = syscall(call, file, bytes, count);
    if (moved > 0)
        calls->moved += moved;
    return moved;
}

ssize_t read(int file, void *into, size_t count) {
    if (file != STDIN_FILENO)
        return syscall(SYS_read, file, into, count);
    return next_call(&reads, SYS_read, file, into, count);
}

ssize_t write(int file, const void *bytes, size_t count) {
    if (file != STDOUT_FILENO)
        return syscall(SYS_write, file, bytes, count);
    return next_call(&writes, SYS_write, file, bytes, count);
}

/* Of several pieces the first that has bytes is moved, as a call may. */
static const struct iovec *first_piece(const struct iovec *pieces, int count) {
    while (count > 1 && pieces->iov_len == 0) {
        pieces++;
        count--;
    }
    return pieces;
}

ssize_t readv(int file, const struct iovec *pieces, int count) {
    if (file != STDIN_FILENO || count < 1)
        return syscall(SYS_readv, file, pieces, count);
    const struct iovec *first = first_piece(pieces, count);
    return next_call(&reads, SYS_read, file, first->iov_base, first->iov_len);
}

ssize_t writev(int file, const struct iovec *pieces, int count) {
    if (file != STDOUT_FILENO || count < 1)
        return syscall(SYS_writev, file, pieces, count);
    const struct iovec *first = first_piece(pieces, count);
    return next_call(&writes, SYS_write, file, first->iov_base, first->iov_len);
}
