/* A program without a C library: the functions of pmb.h that take no memory need memcpy and memmove
 * alone, where the linker leaves out what isn't called. Its status is how many answers are wrong.
 * For Linux on x86-64. */
#include "pmb.h"

void *memcpy(void *to, const void *from, size_t count)
{
    char *a = to;
    const char *b = from;
    while (count--) *a++ = *b++;
    return to;
}

void *memmove(void *to, const void *from, size_t count)
{
    char *a = to;
    const char *b = from;
    if (a < b) return memcpy(to, from, count);
    while (count--) a[count] = b[count];
    return to;
}

static int wrong(int holds)
{
    return holds ? 0 : 1;
}

static long run(void)
{
    static const uint8_t bytes[] = {0xb0, 0x21, 0x00, 0x18};
    const pmb_format format = {.kind = PMB_LINEAR11};
    const pmb_quantity wanted = {12, 1};
    pmb_quantity found = {0, 0};
    pmb_lexer lexer = {0};
    pmb_event event = {0, 0};
    char text[PMB_MOST_QUANTITY_TEXT + 1];
    uint16_t code = 0;
    size_t length = 0;
    long count = wrong(pmb_version() == PMB_VERSION);
    count += wrong(pmb_pec(0, bytes, sizeof bytes) == 0xf8 && pmb_pec_next(0, 0) == 0);
    count += wrong(pmb_encode(&format, wanted, &code) == PMB_OK && code == 0xd300);
    count += wrong(pmb_decode(&format, code, &found) == PMB_OK && found.numerator == 12);
    count += wrong(pmb_quantity_parse("-3/2", 4, &found) == PMB_OK && found.numerator == -3);
    count += wrong(pmb_quantity_text(found, text, sizeof text, &length) == PMB_OK && length == 4);
    count += wrong(pmb_command_name(0x88, text, sizeof text, &length) == PMB_OK && length == 8);
    count += wrong(pmb_bit_name(0x79, 15, text, sizeof text, &length) == PMB_OK && length == 4);
    count += wrong(pmb_lex(&lexer, "S P", 3, &length, &event) == PMB_OK && event.kind == PMB_START);
    count += wrong(pmb_lex(&lexer, "P", 1, &length, &event) == PMB_NO_EVENT);
    count += wrong(pmb_lex_end(&lexer, &event) == PMB_OK && event.kind == PMB_STOP);
    return count;
}

/* (called on an aligned stack) */
__attribute__((used)) static void ends(void)
{
    __asm__ volatile("syscall" : : "a"(60L), "D"(run()));
    for (;;) {
    }
}

__asm__(".globl _start\n_start: xor %ebp, %ebp\n call ends\n");
