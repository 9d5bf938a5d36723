// Stands between a program and the C library (LD_PRELOAD), and lets its calls fail as it is told by
// the environment. Numbers count from 1; what is not told doesn't happen.
//
//   FAIL_ALLOCATION=K   the K-th allocation is refused
//   FAIL_LATER=1        and all later ones too
//   FAIL_READ=K         the K-th read of standard input fails
//   FAIL_WRITE=K        the K-th write of standard output fails
//   FAIL_TELL=K         the K-th write of standard error fails
//   FAIL_ERROR=E        those calls fail with the error E; else with EIO
//   MOVE_AT_MOST=N      a read or a write moves N bytes at most
//   MOVE_SEED=S         and how many of these is drawn for each call from the seed S
//   CUT_AT=N            no read goes over the end of the first N bytes of standard input
//   READ_AT_MOST=N      a read after those gives N bytes at most
//   END_AFTER=SECONDS   a program that hangs is ended by SIGALRM
//   COUNTS_TO=FD        where the program ends, a line is written to this descriptor: the numbers of
//                       allocations, of reads, of writes and of bytes read, and the peak of memory in
//                       kilobytes

#define _GNU_SOURCE
#include <errno.h>
#include <fcntl.h>
#include <stdio.h>
#include <stdlib.h>
#include <string.h>
#include <sys/syscall.h>
#include <unistd.h>

extern void *__libc_malloc(size_t size);
extern void *__libc_calloc(size_t count, size_t size);
extern void *__libc_realloc(void *old, size_t size);

static int begun;
static unsigned long fail_allocation, fail_later, fail_read, fail_write, fail_error, at_most, seed;
static unsigned long fail_tell, cut_at, read_at_most;
static unsigned long counts_to, allocations, reads, writes, tells, bytes_read;

// The calls themselves; tests/again.c has others in their place.
#ifndef TAKE
#define TAKE(bytes, size) syscall(SYS_read, 0, bytes, size)
#define GIVE(file, bytes, size) syscall(SYS_write, file, bytes, size)
#endif

static unsigned long told(const char *name)
{
    const char *value = getenv(name);
    return value ? strtoul(value, NULL, 10) : 0;
}

__attribute__((constructor)) static void begin(void)
{
    fail_allocation = told("FAIL_ALLOCATION");
    fail_later = told("FAIL_LATER");
    fail_read = told("FAIL_READ");
    fail_write = told("FAIL_WRITE");
    fail_tell = told("FAIL_TELL");
    cut_at = told("CUT_AT");
    read_at_most = told("READ_AT_MOST");
    fail_error = getenv("FAIL_ERROR") ? told("FAIL_ERROR") : EIO;
    at_most = told("MOVE_AT_MOST");
    seed = told("MOVE_SEED");
    counts_to = told("COUNTS_TO");
    alarm((unsigned)told("END_AFTER"));
    begun = 1;
}

// The kernel's high-water mark. That of getrusage counts what ran before exec too.
static unsigned long peak_of_memory(void)
{
    char text[4096];
    int file = open("/proc/self/status", O_RDONLY);
    ssize_t length = syscall(SYS_read, file, text, sizeof text - 1);
    close(file);
    text[length < 0 ? 0 : length] = 0;
    const char *mark = strstr(text, "VmHWM:");
    return mark ? strtoul(mark + 6, NULL, 10) : 0;
}

__attribute__((destructor)) static void end(void)
{
    char line[200];
    begun = 0;
    if (counts_to == 0) return;
    int length = snprintf(line, sizeof line, "%lu %lu %lu %lu %lu\n", allocations, reads, writes,
                          bytes_read, peak_of_memory());
    syscall(SYS_write, (int)counts_to, line, (size_t)length);
}

static int is_refused(void)
{
    if (!begun) return 0;
    allocations += 1;
    if (fail_allocation == 0 || allocations < fail_allocation) return 0;
    if (allocations > fail_allocation && !fail_later) return 0;
    errno = ENOMEM;
    return 1;
}

void *malloc(size_t size)
{
    return is_refused() ? NULL : __libc_malloc(size);
}

void *calloc(size_t count, size_t size)
{
    return is_refused() ? NULL : __libc_calloc(count, size);
}

void *realloc(void *old, size_t size)
{
    return is_refused() ? NULL : __libc_realloc(old, size);
}

// How many of so many bytes one call moves.
static size_t moved(size_t wanted)
{
    size_t most = at_most;
    if (most == 0) return wanted;
    if (seed != 0) {
        seed = seed * 6364136223846793005u + 1442695040888963407u;
        most = 1 + (seed >> 33) % at_most;
    }
    return wanted < most ? wanted : most;
}

// How many of so many bytes a read of standard input may give.
static size_t given(size_t wanted)
{
    size_t most = bytes_read < cut_at ? cut_at - bytes_read : read_at_most;
    return moved(most != 0 && most < wanted ? most : wanted);
}

ssize_t read(int file, void *bytes, size_t size)
{
    if (!begun || file != 0) return syscall(SYS_read, file, bytes, size);
    reads += 1;
    if (reads == fail_read) {
        errno = (int)fail_error;
        return -1;
    }
    ssize_t length = TAKE(bytes, given(size));
    if (length > 0) bytes_read += (unsigned long)length;
    return length;
}

ssize_t write(int file, const void *bytes, size_t size)
{
    if (!begun || (file != 1 && file != 2)) return syscall(SYS_write, file, bytes, size);
    unsigned long count = file == 1 ? ++writes : ++tells;
    if (count == (file == 1 ? fail_write : fail_tell)) {
        errno = (int)fail_error;
        return -1;
    }
    return GIVE(file, bytes, moved(size));
}

ssize_t __read(int file, void *bytes, size_t size)
{
    return read(file, bytes, size);
}

ssize_t __write(int file, const void *bytes, size_t size)
{
    return write(file, bytes, size);
}
