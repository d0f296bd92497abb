/* Makes calls of a program fail, by their numbers from 1: an allocation, a read of standard input, a write to standard
 * output. It is put in front of the C library of a program that is run (LD_PRELOAD), and told by the environment:
 *
 *   FAILING_COUNTS  a file that gets the three counts of calls, 8 bytes each in the machine's order
 *   FAIL_ALLOCATION, FAIL_READ, FAIL_WRITE  which call fails; none where it is missing or 0
 *   FAIL_FROM       where it is set, each later call of that kind fails too
 *   FAIL_ERROR      the error of a read or write that fails; EIO where it is missing
 *   READ_PIECE, WRITE_PIECE  how many bytes a read gives or a write takes at most
 *   WRITE_ROOM      how many bytes the output takes in all, as a disk that gets full
 *   FAIL_STAT       the error of each question what a file is; none where it is missing or 0
 *
 * The names behind `malloc` are those of the GNU C library. */
#define _GNU_SOURCE
#include <errno.h>
#include <fcntl.h>
#include <stddef.h>
#include <stdint.h>
#include <stdlib.h>
#include <sys/mman.h>
#include <sys/stat.h>
#include <sys/syscall.h>
#include <sys/uio.h>
#include <unistd.h>

enum kind { ALLOCATION, READ, WRITE, KINDS };

extern void *__libc_malloc(size_t);
extern void *__libc_calloc(size_t, size_t);
extern void *__libc_realloc(void *, size_t);
extern void *__libc_memalign(size_t, size_t);

static uint64_t nowhere[KINDS];
static uint64_t *counts = nowhere;
static uint64_t failing[KINDS], error_number = EIO, fails_on, stat_error, room = UINT64_MAX;
static uint64_t piece[KINDS] = {UINT64_MAX, UINT64_MAX, UINT64_MAX};

static uint64_t number(const char *name, uint64_t otherwise) {
    const char *text = getenv(name);
    return text ? strtoull(text, NULL, 10) : otherwise;
}

__attribute__((constructor)) static void begin(void) {
    const char *file = getenv("FAILING_COUNTS");
    int at = file ? open(file, O_RDWR) : -1;
    if (at >= 0) {
        void *found = mmap(NULL, sizeof nowhere, PROT_READ | PROT_WRITE, MAP_SHARED, at, 0);
        close(at);
        if (found != MAP_FAILED)
            counts = found;
    }
    failing[ALLOCATION] = number("FAIL_ALLOCATION", 0);
    failing[READ] = number("FAIL_READ", 0);
    failing[WRITE] = number("FAIL_WRITE", 0);
    fails_on = number("FAIL_FROM", 0);
    error_number = number("FAIL_ERROR", EIO);
    piece[READ] = number("READ_PIECE", UINT64_MAX);
    piece[WRITE] = number("WRITE_PIECE", UINT64_MAX);
    room = number("WRITE_ROOM", UINT64_MAX);
    stat_error = number("FAIL_STAT", 0);
}

/* Counts a call, and tells whether it is to fail. */
static int fails(enum kind kind) {
    uint64_t call = ++counts[kind];
    return failing[kind] && (fails_on ? call >= failing[kind] : call == failing[kind]);
}

static void *refused(void) {
    errno = ENOMEM;
    return NULL;
}

void *malloc(size_t size) {
    return fails(ALLOCATION) ? refused() : __libc_malloc(size);
}

void *calloc(size_t count, size_t size) {
    return fails(ALLOCATION) ? refused() : __libc_calloc(count, size);
}

void *realloc(void *old, size_t size) {
    return fails(ALLOCATION) ? refused() : __libc_realloc(old, size);
}

void *aligned_alloc(size_t alignment, size_t size) {
    return fails(ALLOCATION) ? refused() : __libc_memalign(alignment, size);
}

void *memalign(size_t alignment, size_t size) {
    return aligned_alloc(alignment, size);
}

int posix_memalign(void **into, size_t alignment, size_t size) {
    void *found = aligned_alloc(alignment, size);
    if (!found)
        return ENOMEM;
    *into = found;
    return 0;
}

static ssize_t failed(uint64_t error) {
    errno = (int)error;
    return -1;
}

static size_t least(size_t one, uint64_t other) {
    return one < other ? one : (size_t)other;
}

int statx(int folder, const char *path, int flags, unsigned mask, struct statx *into) {
    if (stat_error)
        return (int)failed(stat_error);
    return (int)syscall(SYS_statx, folder, path, flags, mask, into);
}

ssize_t read(int file, void *into, size_t size) {
    if (file == STDIN_FILENO) {
        if (fails(READ))
            return failed(error_number);
        size = least(size, piece[READ]);
    }
    return syscall(SYS_read, file, into, size);
}

ssize_t readv(int file, const struct iovec *parts, int count) {
    while (count > 1 && parts->iov_len == 0)
        parts++, count--;
    return read(file, parts->iov_base, parts->iov_len);
}

ssize_t write(int file, const void *from, size_t size) {
    if (file == STDOUT_FILENO) {
        if (fails(WRITE))
            return failed(error_number);
        if (size > 0 && room == 0)
            return failed(ENOSPC);
        size = least(least(size, piece[WRITE]), room);
    }
    ssize_t taken = syscall(SYS_write, file, from, size);
    if (file == STDOUT_FILENO && taken > 0)
        room -= room == UINT64_MAX ? 0 : (uint64_t)taken;
    return taken;
}

ssize_t writev(int file, const struct iovec *parts, int count) {
    while (count > 1 && parts->iov_len == 0)
        parts++, count--;
    return write(file, parts->iov_base, parts->iov_len);
}
