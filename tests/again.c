// Runs a program's `main` again and again in one process (LD_PRELOAD), as tests/run.py asks: a new
// process for each of half a million runs would take an hour. Each time a request comes from the
// descriptor AGAIN_FROM, with the bytes of standard input where they are others than before, and
// what the run came to goes to AGAIN_TO. Which calls fail, and how many bytes a read gives, is as
// in ../.ci/failing.c.

#include <stddef.h>
#include <sys/types.h>

static ssize_t take(void *bytes, size_t size);
static ssize_t give(int file, const void *bytes, size_t size);

#define TAKE(bytes, size) take(bytes, size)
#define GIVE(file, bytes, size) give(file, bytes, size)
#include "../.ci/failing.c"

#include <setjmp.h>
#include <stdint.h>

struct asked {
    uint64_t cut_at, read_at_most, fail_read, fail_write, fail_tell;
    uint64_t length; // of the standard input that follows, or SAME
};

struct answered {
    uint64_t status, reads, writes, tells;
    uint64_t out_length, err_length; // of what follows
};

#define SAME UINT64_MAX
#define SECONDS 60 // after so many a run that hangs is ended by SIGALRM

struct text {
    char *bytes;
    size_t length, room;
};

static struct text input, printed[3]; // by the descriptor: 1 or 2
static size_t taken;
static jmp_buf ended;
static int status;

static void make_room(struct text *text, size_t more)
{
    if (text->length + more <= text->room) return;
    text->room = 2 * (text->length + more);
    text->bytes = __libc_realloc(text->bytes, text->room);
    if (text->bytes == NULL) abort();
}

static ssize_t take(void *bytes, size_t size)
{
    size_t left = input.length - taken;
    size_t length = size < left ? size : left;
    memcpy(bytes, input.bytes + taken, length);
    taken += length;
    return (ssize_t)length;
}

static ssize_t give(int file, const void *bytes, size_t size)
{
    make_room(&printed[file], size);
    memcpy(printed[file].bytes + printed[file].length, bytes, size);
    printed[file].length += size;
    return (ssize_t)size;
}

// Moves all of so many bytes by a pipe; without a request there is no more to do.
static void get(int file, void *bytes, size_t size)
{
    while (size > 0) {
        ssize_t length = syscall(SYS_read, file, bytes, size);
        if (length <= 0) _exit(0);
        bytes = (char *)bytes + length;
        size -= (size_t)length;
    }
}

static void put(int file, const void *bytes, size_t size)
{
    while (size > 0) {
        ssize_t length = syscall(SYS_write, file, bytes, size);
        if (length <= 0) _exit(1);
        bytes = (const char *)bytes + length;
        size -= (size_t)length;
    }
}

void exit(int code)
{
    status = code;
    longjmp(ended, 1);
}

static void begin_again(const struct asked *asked)
{
    cut_at = asked->cut_at;
    read_at_most = asked->read_at_most;
    fail_read = asked->fail_read;
    fail_write = asked->fail_write;
    fail_tell = asked->fail_tell;
    reads = writes = tells = bytes_read = 0;
    taken = printed[1].length = printed[2].length = 0;
    alarm(SECONDS);
}

int __libc_start_main(int run(int, char **, char **), int count, char **words)
{
    int from = (int)told("AGAIN_FROM"), to = (int)told("AGAIN_TO");
    for (;;) {
        struct asked asked;
        get(from, &asked, sizeof asked);
        if (asked.length != SAME) {
            input.length = 0;
            make_room(&input, asked.length);
            input.length = asked.length;
            get(from, input.bytes, input.length);
        }
        begin_again(&asked);
        if (setjmp(ended) == 0) status = run(count, words, words + count + 1);
        alarm(0);
        struct answered answered = {(uint64_t)status, reads, writes, tells, printed[1].length,
                                    printed[2].length};
        put(to, &answered, sizeof answered);
        put(to, printed[1].bytes, printed[1].length);
        put(to, printed[2].bytes, printed[2].length);
    }
}
