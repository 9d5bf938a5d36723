// Stands in for the C library's crt1.o and the toolchain's args.c, dir.c, env.c and errno.c, of which it
// has code for x86-64 alone (libos_c.a), in the program pmb for aarch64. It starts with glibc from 2.17 on,
// the first for aarch64, and with musl.

typedef __SIZE_TYPE__ size_t;
typedef int entry(int count, char **words, char **environment);

extern int __libc_start_main(entry *program, int count, char **words, void (*construct)(void),
                             void (*end)(void), void (*end_libraries)(void), void *stack);
extern int main(int count, char **words);

extern int openat(int folder, const char *name, int flags, ...);

#include "../clock_gettime.h"
#include "../getdents64.h"
#include "../statx.h"

#pragma GCC visibility push(hidden)

static size_t word_count;
static char **all_words;
static char **all_variables;

static int run(int count, char **words, char **environment)
{
    word_count = (size_t)count;
    all_words = words;
    all_variables = environment;
    return main(count, words);
}

// The system starts a program here: on the stack are the number of its words and the words, and x0
// has what the loader wants to be called at the end. (Where musl's loader was called by its name, the
// stack is not at a multiple of 16, as code relies on.)
__asm__(".globl _start\n.hidden _start\n.type _start, %function\n_start:\n"
        "mov x29, xzr\nmov x30, xzr\nmov x1, x0\nmov x0, sp\nand sp, x0, #-16\nb start_at\n");

__attribute__((noreturn, used)) void start_at(long *stack, void (*end_libraries)(void))
{
    // (the program has no constructors, nor what is called at its end)
    __libc_start_main(run, (int)*stack, (char **)(stack + 1), 0, 0, end_libraries, stack);
    __builtin_trap();
}

size_t rattle_arg_count(void)
{
    return word_count;
}

// Puts a text into the room, and returns its length, or -2 where it doesn't fit, and then the room is
// full.
static long put(const char *text, char *room, size_t size)
{
    size_t length = 0;
    for (; text[length] != 0; length++) {
        if (length == size)
            return -2;
        room[length] = text[length];
    }
    return (long)length;
}

// The same of a word, or -1 where there is no such word.
long rattle_arg(size_t number, char *room, size_t size)
{
    if (number >= word_count || all_words[number] == 0)
        return -1;
    return put(all_words[number], room, size);
}

// The same of the value of a variable.
long rattle_env(const char *name, char *room, size_t size)
{
    for (char **next = all_variables; *next != 0; next++) {
        size_t length = 0;
        while (name[length] != 0 && (*next)[length] == name[length])
            length++;
        if (name[length] == 0 && (*next)[length] == '=')
            return put(*next + length + 1, room, size);
    }
    return -1;
}

// The same of a variable with its name, by its number.
long rattle_env_at(size_t number, char *room, size_t size)
{
    for (char **next = all_variables; *next != 0; next++, number--)
        if (number == 0)
            return put(*next, room, size);
    return -1;
}

// Opens a folder, but no link to one.
int rattle_open_dir_at(int folder, const char *name)
{
    enum { DIRECTORY = 0x4000, NO_LINK = 0x8000, CLOSE_ON_EXEC = 0x80000 };
    return openat(folder, name, DIRECTORY | NO_LINK | CLOSE_ON_EXEC);
}

int rattle_errno(void)
{
    return *__errno_location();
}

void rattle_set_errno(int error)
{
    *__errno_location() = error;
}
