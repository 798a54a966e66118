/* Stands before the C library for bench/refused: counts what the program allocates, its reads of files and its writes to standard
   output, and lets one of them fail. Each of these names one, from 1; what is not set fails not at all.
     FAIL_ALLOCATION     it gives nothing
     FAIL_READ           it fails (EIO)
     FAIL_WRITE, TAKEN   it takes so many bytes, and what comes after them fails (ENOSPC)
     STOP                the read and the write with this number are interrupted (EINTR)
     MOST                no read and no write moves more bytes than this
   At its end the program's counts are written to the file COUNT_FILE: allocations, reads, writes. */
#define _GNU_SOURCE
#include <errno.h>
#include <stddef.h>
#include <stdio.h>
#include <stdlib.h>
#include <sys/syscall.h>
#include <unistd.h>

static long count, reads, writes;
static long failing = -1;

/* The number in a variable of the environment, or 0. */
static long number(const char *name) {
    const char *word = getenv(name);
    return word ? atol(word) : 0;
}

/* Whether this allocation is the one that fails. */
static int fails(void) {
    if (failing < 0)
        failing = number("FAIL_ALLOCATION");
    count += 1;
    if (count != failing)
        return 0;
    errno = ENOMEM;
    return 1;
}

void *__libc_malloc(size_t);
void *__libc_calloc(size_t, size_t);
void *__libc_realloc(void *, size_t);
void *__libc_memalign(size_t, size_t);

void *malloc(size_t size) {
    return fails() ? NULL : __libc_malloc(size);
}

void *calloc(size_t times, size_t size) {
    return fails() ? NULL : __libc_calloc(times, size);
}

void *realloc(void *old, size_t size) {
    return fails() ? NULL : __libc_realloc(old, size);
}

void *aligned_alloc(size_t align, size_t size) {
    return fails() ? NULL : __libc_memalign(align, size);
}

int posix_memalign(void **made, size_t align, size_t size) {
    void *found = fails() ? NULL : __libc_memalign(align, size);
    if (found == NULL)
        return ENOMEM;
    *made = found;
    return 0;
}

/* How many of these bytes a call may move. */
static size_t moved(size_t size) {
    size_t most = (size_t)number("MOST");
    return most > 0 && size > most ? most : size;
}

ssize_t read(int file, void *bytes, size_t size) {
    if (file <= 2)
        return syscall(SYS_read, file, bytes, size);
    reads += 1;
    if (reads == number("FAIL_READ") || reads == number("STOP")) {
        errno = reads == number("STOP") ? EINTR : EIO;
        return -1;
    }
    return syscall(SYS_read, file, bytes, moved(size));
}

ssize_t write(int file, const void *bytes, size_t size) {
    long fault = number("FAIL_WRITE"), taken = number("TAKEN");
    if (file != 1)
        return syscall(SYS_write, file, bytes, size);
    writes += 1;
    if (writes == number("STOP")) {
        errno = EINTR;
        return -1;
    }
    if (fault > 0 && (writes > fault || (writes == fault && taken == 0))) {
        errno = ENOSPC;
        return -1;
    }
    if (writes == fault && size > (size_t)taken)
        size = (size_t)taken;
    return syscall(SYS_write, file, bytes, moved(size));
}

__attribute__((destructor)) static void told(void) {
    const char *name = getenv("COUNT_FILE");
    long allocations = count;
    failing = 0;
    if (name) {
        FILE *file = fopen(name, "w");
        if (file) {
            fprintf(file, "%ld %ld %ld\n", allocations, reads, writes);
            fclose(file);
        }
    }
}
