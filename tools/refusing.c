/* Refuses requests for memory of the program that it is preloaded into; tools/refuse-memory compiles and uses it.

   Requests are numbered from 1, from the program's start on, after the loader has done its work. Those with the
   numbers from REFUSE_FROM to REFUSE_TO (variables of the environment) are answered as where there is no memory, and all
   others by the C library. At the program's end the number of all requests is written to the file REFUSE_COUNT. */
#define _GNU_SOURCE
#include <errno.h>
#include <fcntl.h>
#include <stddef.h>
#include <stdio.h>
#include <stdlib.h>
#include <sys/mman.h>
#include <sys/syscall.h>
#include <unistd.h>

/* What the C library answers requests by. */
void *__libc_malloc(size_t size);
void *__libc_calloc(size_t number, size_t size);
void *__libc_realloc(void *old, size_t size);
void *__libc_memalign(size_t alignment, size_t size);

static int has_started;
static unsigned long requests, first_refused, last_refused;

static unsigned long number_in(const char *variable) {
    const char *text = getenv(variable);
    return text ? strtoul(text, NULL, 10) : 0;
}

__attribute__((constructor)) static void start(void) {
    first_refused = number_in("REFUSE_FROM");
    last_refused = number_in("REFUSE_TO");
    has_started = 1;
}

__attribute__((destructor)) static void end(void) {
    has_started = 0;
    const char *path = getenv("REFUSE_COUNT");
    int file = path ? open(path, O_WRONLY | O_CREAT | O_TRUNC, 0600) : -1;
    if (file >= 0) {
        dprintf(file, "%lu\n", requests);
        close(file);
    }
}

/* Whether the next request is refused. */
static int is_refused(void) {
    if (!has_started)
        return 0;
    requests++;
    if (requests < first_refused || requests > last_refused)
        return 0;
    errno = ENOMEM;
    return 1;
}

void *malloc(size_t size) {
    return is_refused() ? NULL : __libc_malloc(size);
}

void *calloc(size_t number, size_t size) {
    return is_refused() ? NULL : __libc_calloc(number, size);
}

void *realloc(void *old, size_t size) {
    return is_refused() ? NULL : __libc_realloc(old, size);
}

void *aligned_alloc(size_t alignment, size_t size) {
    return is_refused() ? NULL : __libc_memalign(alignment, size);
}

int posix_memalign(void **place, size_t alignment, size_t size) {
    void *got = is_refused() ? NULL : __libc_memalign(alignment, size);
    if (!got)
        return ENOMEM;
    *place = got;
    return 0;
}

void *mmap(void *address, size_t length, int protection, int flags, int file, off_t offset) {
    if (is_refused())
        return MAP_FAILED;
    return (void *)syscall(SYS_mmap, address, length, protection, flags, file, offset);
}
