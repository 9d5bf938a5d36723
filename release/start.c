// Stands beside the program's object in the link of the released program (release/link), so that
// other C libraries than that of the toolchain start it: glibc from 2.14 on, and musl. The
// toolchain's own link takes six things from the C library that these lack: its start under the
// version of glibc 2.34, the list of what the processor has, of 2.33, `getdents64`, of 2.30, `statx`, of
// 2.28, `clock_gettime`, of 2.17, and a second name of `write`.

typedef int entry(int count, char **words, char **environment);
typedef void constructor(int count, char **words, char **environment);

// The start under its first name, which each C library has.
extern int first_start(entry *main, int count, char **words, constructor *construct,
                       void (*end)(void), void (*end_libraries)(void), void *stack);
__asm__(".symver first_start, __libc_start_main@GLIBC_2.2.5");
extern long write(int file, const void *bytes, unsigned long count);

#include "clock_gettime.h"
#include "getdents64.h"
#include "statx.h"

#pragma GCC visibility push(hidden)

// The linker sets these around the program's own constructors, one of which keeps the words. glibc
// before 2.34 does not call them, and musl calls them with no words: they are called here.
extern constructor *const __init_array_start[];
extern constructor *const __init_array_end[];

static entry *program;

static int run(int count, char **words, char **environment)
{
    for (constructor *const *next = __init_array_start; next != __init_array_end; next++)
        (*next)(count, words, environment);
    return program(count, words, environment);
}

static void construct_nothing(int count, char **words, char **environment)
{
    (void)count, (void)words, (void)environment;
}

int __libc_start_main(entry *main, int count, char **words, constructor *none, void (*end)(void),
                      void (*end_libraries)(void), void *stack)
{
    (void)none;
    program = main;
    // (glibc from 2.34 on calls them only where it is given no function to do so)
    return first_start(run, count, words, construct_nothing, end, end_libraries, stack);
}

long __write(int file, const void *bytes, unsigned long count)
{
    return write(file, bytes, count);
}

// What the processor has by one call of cpuid, and what of that can be used, each in the registers
// eax, ebx, ecx and edx.
struct features {
    unsigned has[4];
    unsigned usable[4];
};

// The program asks for two of these lists as it starts, and in them for what x86-64-v2 has beyond
// the first x86-64, which needs nothing of the system. Nothing else is answered to be usable.
const struct features *__x86_get_cpuid_feature_leaf(unsigned list)
{
    static const struct {
        unsigned call, asked;
    } lists[] = {
        // SSE3, SSSE3, CMPXCHG16B, SSE4.1, SSE4.2 and POPCNT
        [0] = {0x00000001, 1u << 0 | 1u << 9 | 1u << 13 | 1u << 19 | 1u << 20 | 1u << 23},
        // LAHF and SAHF
        [2] = {0x80000001, 1u << 0},
    };
    static struct features found[3];
    static const struct features nothing;
    if (list > 2 || lists[list].call == 0)
        return &nothing;
    struct features *it = &found[list];
    __asm__("cpuid"
            : "=a"(it->has[0]), "=b"(it->has[1]), "=c"(it->has[2]), "=d"(it->has[3])
            : "0"(lists[list].call), "2"(0));
    it->usable[2] = it->has[2] & lists[list].asked;
    return it;
}
