/* Starts a program without a C library, with what it asks of that and of the compiler's own one: on
 * a bare board under qemu, where it writes, and ends with its status, by semihosting, for Arm's M
 * processors and for RISC-V; and on Linux for aarch64. */
#include "board.h"

#include <stdarg.h>
#include <stdint.h>

int main(void);
void board_start(void);
void board_main(void);
static void end(int status);

/* ---- where it runs */

#if defined(__aarch64__)
static void ask_linux(long number, long first, const void *second, long third)
{
    register long call __asm__("x8") = number;
    register long a __asm__("x0") = first;
    register const void *b __asm__("x1") = second;
    register long c __asm__("x2") = third;
    __asm__ volatile("svc 0" : "+r"(a) : "r"(call), "r"(b), "r"(c) : "memory");
}

static void write_text(const char *text)
{
    ask_linux(64, 1, text, (long)strlen(text));
}

static void end(int status)
{
    for (;;) ask_linux(93, status, NULL, 0);
}

__asm__(".section .vectors,\"ax\"\n.globl board_start\nboard_start:\n bl board_main\n");
#else
extern char board_stack[];

#if defined(__riscv)
static intptr_t ask_host(intptr_t request, const void *with)
{
    register intptr_t number __asm__("a0") = request;
    register const void *words __asm__("a1") = with;
    __asm__ volatile(".balign 16\n.option push\n.option norvc\n"
                     "slli x0, x0, 0x1f\nebreak\nsrai x0, x0, 7\n.option pop"
                     : "+r"(number)
                     : "r"(words)
                     : "memory");
    return number;
}

__asm__(".section .vectors,\"ax\"\n.globl board_start\nboard_start:\n"
        " la sp, board_stack\n call board_main\n");
#else
static intptr_t ask_host(intptr_t request, const void *with)
{
    register intptr_t number __asm__("r0") = request;
    register const void *words __asm__("r1") = with;
    __asm__ volatile("bkpt 0xab" : "+r"(number) : "r"(words) : "memory");
    return number;
}

static void fault(void)
{
    ask_host(4, "board: a fault of the processor\n");
    end(99);
}

void board_start(void)
{
    board_main();
}

/* The stack's top, the start, and the faults. */
__attribute__((section(".vectors"), used)) static void *const vectors[16] = {
    board_stack, (void *)board_start, (void *)fault, (void *)fault,
    (void *)fault, (void *)fault, (void *)fault,
};
#endif

static void write_text(const char *text)
{
    ask_host(4, text);
}

static void end(int status)
{
    const intptr_t ended[2] = {0x20026, status};
    for (;;) ask_host(0x20, ended);
}
#endif

__attribute__((used)) void board_main(void)
{
    end(main());
}

/* ---- the C library's */

void *memcpy(void *to, const void *from, size_t count)
{
    char *a = to;
    const char *b = from;
    while (count--) *a++ = *b++;
    return to;
}

void *memmove(void *to, const void *from, size_t count)
{
    char *a = to;
    const char *b = from;
    if (a < b) return memcpy(to, from, count);
    while (count--) a[count] = b[count];
    return to;
}

void *memset(void *to, int byte, size_t count)
{
    char *a = to;
    while (count--) *a++ = (char)byte;
    return to;
}

int memcmp(const void *one, const void *other, size_t count)
{
    const unsigned char *a = one, *b = other;
    for (; count > 0; a++, b++, count--)
        if (*a != *b) return *a - *b;
    return 0;
}

size_t strlen(const char *text)
{
    size_t length = 0;
    while (text[length] != 0) length++;
    return length;
}

int strcmp(const char *one, const char *other)
{
    while (*one != 0 && *one == *other) one++, other++;
    return (unsigned char)*one - (unsigned char)*other;
}

/* Writes a number with at least so many digits. */
static char *put_number(char *to, uint32_t number, uint32_t base, int digits)
{
    char text[32];
    int count = 0;
    while (number != 0 || count < digits) {
        text[count++] = "0123456789abcdef"[number % base];
        number /= base;
    }
    while (count > 0) *to++ = text[--count];
    return to;
}

/* %d of what is not negative, %s, %c, %02x and %08x. */
static int put(char *to, const char *form, va_list words)
{
    char *const start = to;
    for (; *form != 0; form++) {
        if (*form != '%') {
            *to++ = *form;
            continue;
        }
        form++;
        if (*form == 'd') to = put_number(to, (uint32_t)va_arg(words, int), 10, 1);
        if (*form == 'c') *to++ = (char)va_arg(words, int);
        if (*form == 's') {
            const char *text = va_arg(words, const char *);
            while (*text != 0) *to++ = *text++;
        }
        if (*form == '0') {
            to = put_number(to, va_arg(words, uint32_t), 16, form[1] - '0');
            form += 2;
        }
    }
    *to = 0;
    return (int)(to - start);
}

int sprintf(char *to, const char *form, ...)
{
    va_list words;
    int length;
    va_start(words, form);
    length = put(to, form, words);
    va_end(words);
    return length;
}

int fprintf(FILE *file, const char *form, ...)
{
    char line[512];
    va_list words;
    int length;
    (void)file;
    va_start(words, form);
    length = put(line, form, words);
    va_end(words);
    write_text(line);
    return length;
}

int printf(const char *form, ...)
{
    char line[512];
    va_list words;
    int length;
    va_start(words, form);
    length = put(line, form, words);
    va_end(words);
    write_text(line);
    return length;
}

/* ---- the compiler's own library, as far as it is asked for, bit by bit */

#if defined(__aarch64__)
typedef unsigned __int128 huge;

static huge divide(huge number, huge by, huge *rest)
{
    huge part = 0, found = 0;
    int bit = 127;
    while (bit >= 0 && (number >> bit & 1) == 0) bit--;
    for (; bit >= 0; bit--) {
        const int carry = (int)(part >> 127);
        part = part << 1 | (number >> bit & 1);
        if (carry || part >= by) {
            part -= by;
            found |= (huge)1 << bit;
        }
    }
    *rest = part;
    return found;
}

huge __udivti3(huge number, huge by)
{
    huge rest;
    return divide(number, by, &rest);
}

huge __umodti3(huge number, huge by)
{
    huge rest;
    divide(number, by, &rest);
    return rest;
}
#else
typedef union wide {
    uint64_t whole;
    uint32_t words[2];
} wide;

static uint64_t left(uint64_t number, uint32_t count)
{
    const wide of = {number};
    wide made = {0};
    if (count == 0) return number;
    made.words[1] = count < 32 ? of.words[1] << count | of.words[0] >> (32 - count)
                               : of.words[0] << (count - 32);
    if (count < 32) made.words[0] = of.words[0] << count;
    return made.whole;
}

/* (a number below 0 has ones above it) */
static uint64_t right(uint64_t number, uint32_t count, uint32_t above)
{
    const wide of = {number};
    wide made;
    if (count == 0) return number;
    made.words[0] = of.words[0] >> count | of.words[1] << (32 - count);
    made.words[1] = of.words[1] >> count | above << (32 - count);
    if (count < 32) return made.whole;
    made.words[0] = count == 32 ? of.words[1] : of.words[1] >> (count - 32) | above << (64 - count);
    made.words[1] = above;
    return made.whole;
}

static uint64_t divide(uint64_t number, uint64_t by, uint64_t *rest)
{
    wide part = {0}, found = {0};
    const wide of = {number};
    int bit = of.words[1] != 0 ? 63 : 31;
    while (bit >= 0 && (of.words[bit / 32] >> bit % 32 & 1) == 0) bit--;
    for (; bit >= 0; bit--) {
        const uint32_t carry = part.words[1] >> 31;
        part.words[1] = part.words[1] << 1 | part.words[0] >> 31;
        part.words[0] = part.words[0] << 1 | (of.words[bit / 32] >> bit % 32 & 1);
        if (carry || part.whole >= by) {
            part.whole -= by;
            found.words[bit / 32] |= 1u << bit % 32;
        }
    }
    *rest = part.whole;
    return found.whole;
}

static uint64_t product(uint64_t one, uint64_t other)
{
    const wide a = {one}, b = {other};
    const uint32_t low = (a.words[0] & 0xffff) * (b.words[0] & 0xffff);
    const uint32_t first = (a.words[0] >> 16) * (b.words[0] & 0xffff) + (low >> 16);
    const uint32_t second = (a.words[0] & 0xffff) * (b.words[0] >> 16) + (first & 0xffff);
    wide made;
    made.words[0] = second << 16 | (low & 0xffff);
    made.words[1] = (a.words[0] >> 16) * (b.words[0] >> 16) + (first >> 16) + (second >> 16) +
                    a.words[0] * b.words[1] + a.words[1] * b.words[0];
    return made.whole;
}

int __clzsi2(uint32_t number)
{
    int count = 32;
    for (; number != 0; number >>= 1) count--;
    return count;
}

#if defined(__riscv)
uint64_t __ashldi3(uint64_t number, int count) { return left(number, (uint32_t)count); }
uint64_t __lshrdi3(uint64_t number, int count) { return right(number, (uint32_t)count, 0); }
uint64_t __muldi3(uint64_t one, uint64_t other) { return product(one, other); }
int64_t __ashrdi3(int64_t number, int count)
{
    return (int64_t)right((uint64_t)number, (uint32_t)count, number < 0 ? 0xffffffffu : 0);
}
uint64_t __udivdi3(uint64_t number, uint64_t by)
{
    uint64_t rest;
    return divide(number, by, &rest);
}
uint64_t __umoddi3(uint64_t number, uint64_t by)
{
    uint64_t rest;
    divide(number, by, &rest);
    return rest;
}
#else
uint64_t __aeabi_llsl(uint64_t number, int count) { return left(number, (uint32_t)count); }
uint64_t __aeabi_llsr(uint64_t number, int count) { return right(number, (uint32_t)count, 0); }
uint64_t __aeabi_lmul(uint64_t one, uint64_t other) { return product(one, other); }
int64_t __aeabi_lasr(int64_t number, int count)
{
    return (int64_t)right((uint64_t)number, (uint32_t)count, number < 0 ? 0xffffffffu : 0);
}
uint32_t __aeabi_uidiv(uint32_t number, uint32_t by)
{
    uint64_t rest;
    return (uint32_t)divide(number, by, &rest);
}
int32_t __aeabi_idiv(int32_t number, int32_t by)
{
    const uint32_t whole = __aeabi_uidiv(number < 0 ? 0u - (uint32_t)number : (uint32_t)number,
                                         by < 0 ? 0u - (uint32_t)by : (uint32_t)by);
    return (int32_t)((number < 0) == (by < 0) ? whole : 0u - whole);
}
uint64_t board_divide(uint64_t number, uint64_t by, uint64_t *rest)
{
    return divide(number, by, rest);
}
/* What is left comes in the registers behind the quotient's. */
__asm__(".syntax unified\n.text\n.thumb\n.balign 4\n"
        ".globl __aeabi_uldivmod\n.type __aeabi_uldivmod, %function\n.thumb_func\n"
        "__aeabi_uldivmod:\n push {r4, lr}\n sub sp, #16\n add r4, sp, #8\n str r4, [sp]\n"
        " bl board_divide\n ldr r2, [sp, #8]\n ldr r3, [sp, #12]\n add sp, #16\n pop {r4, pc}\n"
        ".globl __aeabi_uidivmod\n.type __aeabi_uidivmod, %function\n.thumb_func\n"
        "__aeabi_uidivmod:\n push {r4, r5, r6, lr}\n movs r4, r0\n movs r5, r1\n"
        " bl __aeabi_uidiv\n movs r1, r0\n muls r1, r5, r1\n subs r1, r4, r1\n"
        " pop {r4, r5, r6, pc}\n"
        ".globl __aeabi_idivmod\n.type __aeabi_idivmod, %function\n.thumb_func\n"
        "__aeabi_idivmod:\n push {r4, r5, r6, lr}\n movs r4, r0\n movs r5, r1\n"
        " bl __aeabi_idiv\n movs r1, r0\n muls r1, r5, r1\n subs r1, r4, r1\n"
        " pop {r4, r5, r6, pc}\n");
#endif
#endif
