/* Prints a line for each format, and for each other function in the first part of pmb.h: a sum over
 * all that it returns for many values, so that two processors can be compared. For each code of two
 * bytes that is its value, and the code of that value; for each fifth one also its text, the codes
 * of values near by, and its value's code in another format. With BOARD defined it fails where a
 * function takes 2 KB of stack or more. C99. */
#include <stdio.h>
#include <string.h>

#include "pmb.h"

/* Of so many codes one is tried. */
#ifndef SHARE
#define SHARE 1
#endif

static uint32_t sum;

static void add(uint64_t number)
{
    int i;
    for (i = 0; i < 8; i++) {
        const uint32_t half = i < 4 ? (uint32_t)number : (uint32_t)(number >> 32);
        sum = (sum ^ (half >> i % 4 * 8 & 0xff)) * 16777619u;
    }
}

static void add_text(const char *text, size_t length)
{
    size_t i;
    add(length);
    for (i = 0; i < length; i++) sum = (sum ^ (uint8_t)text[i]) * 16777619u;
}

static void tell(const char *name, int number)
{
    printf("%s %d: %08x\n", name, number, (unsigned)sum);
    sum = 2166136261u;
}

/* Numbers of no order, the same on each processor. */
static uint64_t state = 1;

static uint32_t any(void)
{
    state = state * UINT64_C(6364136223846793005) + UINT64_C(1442695040888963407);
    return (uint32_t)(state >> 32);
}

static const pmb_format formats[] = {
    {.kind = PMB_LINEAR11},
    {.kind = PMB_LINEAR11_FIXED, .exponent = -3},
    {.kind = PMB_ULINEAR16, .exponent = -9},
    {.kind = PMB_SLINEAR16, .exponent = 15},
    {.kind = PMB_DIRECT, .m = 3, .b = 2, .r = 1},
    {.kind = PMB_DIRECT, .m = -32768, .b = 32767, .r = -9},
    {.kind = PMB_VOUT, .mode = 0x17},
    {.kind = PMB_VOUT_SIGNED, .mode = 0x40, .m = 7, .b = -1, .r = 9},
    {.kind = PMB_HALF},
    {.kind = PMB_VID_TABLE, .mode = PMB_VID_VR11},
    {.kind = PMB_VID_TABLE, .mode = PMB_VID_VR12},
    {.kind = PMB_VID_TABLE, .mode = PMB_VID_VR13},
    {.kind = PMB_VID_TABLE, .mode = PMB_VID_IMVP9},
    {.kind = PMB_VID_TABLE, .mode = PMB_VID_AMD625MV},
    {.kind = PMB_VID_TABLE, .mode = PMB_VID_NVIDIA195MV},
    {.kind = PMB_UDIRECT, .m = 3, .b = 2, .r = 1},
};

enum { FORMATS = sizeof formats / sizeof *formats };

static void encode(const pmb_format *format, int64_t numerator, int64_t denominator)
{
    const pmb_quantity quantity = {numerator, denominator};
    uint16_t code = 0x5aa5;
    add((uint32_t)pmb_encode(format, quantity, &code));
    add(code);
}

static void codes(int which)
{
    uint32_t code;
    for (code = 0; code < 65536; code += SHARE) {
        pmb_quantity value = {-7, -9};
        char text[PMB_MOST_QUANTITY_TEXT + 1];
        size_t length = 99;
        add((uint32_t)pmb_decode(&formats[which], (uint16_t)code, &value));
        add((uint64_t)value.numerator);
        add((uint64_t)value.denominator);
        encode(&formats[which], value.numerator, value.denominator);
        if (code % 5 != 0) continue;
        encode(&formats[code % FORMATS], value.numerator, value.denominator);
        encode(&formats[which], value.numerator, value.denominator + 1);
        encode(&formats[which], value.numerator * 3 - 1, value.denominator * 3);
        add((uint32_t)pmb_quantity_text(value, text, code % sizeof text, &length));
        add(length);
        if (length < code % sizeof text) add_text(text, length);
    }
    tell("codes", which);
}

/* Fractions of every size. */
static void fractions(void)
{
    uint32_t i;
    for (i = 0; i < 40000; i++) {
        uint64_t numerator = (uint64_t)any() << 32, denominator = (uint64_t)any() << 32;
        numerator = (numerator | any()) >> (any() & 63);
        denominator = (denominator | any()) >> (any() & 63);
        encode(&formats[i % FORMATS], (int64_t)numerator, (int64_t)denominator);
    }
    tell("fractions", (int)i);
}

static void names(void)
{
    char text[64];
    uint32_t code, bit;
    size_t length;
    for (code = 0; code < 256; code++) {
        add((uint32_t)pmb_command_name((uint8_t)code, text, sizeof text, &length));
        add_text(text, length);
        for (bit = 0; bit < 17; bit++) {
            add((uint32_t)pmb_bit_name((uint8_t)code, (uint8_t)bit, text, sizeof text, &length));
            add_text(text, length);
        }
        add((uint32_t)pmb_status_name((int32_t)code - 100, text, sizeof text, &length));
        add_text(text, length);
    }
    tell("names", (int)code);
}

static void texts(void)
{
    static const char letters[] = "0123456789/.-0099 ";
    uint32_t i;
    for (i = 0; i < 20000; i++) {
        char text[40];
        const size_t length = any() % sizeof text;
        pmb_quantity found = {-7, -9};
        size_t at;
        for (at = 0; at < length; at++) {
            const uint32_t most = i % 4 == 0 ? sizeof letters - 1 : at == 1 + i % 9 ? 12 : 10;
            text[at] = letters[any() % most];
        }
        add((uint32_t)pmb_quantity_parse(text, length, &found));
        add((uint64_t)found.numerator);
        add((uint64_t)found.denominator);
    }
    tell("texts", (int)i);
}

static void events(void)
{
    static const char letters[] = "S A P N b0 21 # \n\tfF";
    pmb_lexer lexer;
    uint32_t i;
    memset(&lexer, 0, sizeof lexer);
    for (i = 0; i < 40000; i++) {
        char text[12];
        const size_t length = any() % sizeof text;
        pmb_event event = {9, 9};
        size_t used = 999, at;
        for (at = 0; at < length; at++)
            text[at] = i % 3 == 0 ? letters[any() % (sizeof letters - 1)]
                                  : "S b0 A 21 A P "[(i + at) % 14];
        add((uint32_t)pmb_lex(&lexer, text, length, &used, &event));
        add(used);
        if (i % 11 == 0) add((uint32_t)pmb_lex_end(&lexer, &event));
        add(event.kind * 256u + event.byte);
        add(lexer.used);
        add(lexer.at);
        if (lexer.place > 3) memset(&lexer, 0, sizeof lexer);
        add(lexer.place * 65536u + lexer.first * 256u + lexer.second);
    }
    tell("events", (int)i);
}

static void error_codes(void)
{
    uint8_t bytes[300];
    uint32_t i;
    for (i = 0; i < sizeof bytes; i++) bytes[i] = (uint8_t)any();
    for (i = 0; i < 65536; i++) add(pmb_pec_next((uint8_t)(i >> 8), (uint8_t)i));
    for (i = 0; i < sizeof bytes; i++) add(pmb_pec((uint8_t)i, bytes + i, sizeof bytes - i));
    tell("error codes", (int)i);
}

#ifdef BOARD

/* ---- the stack that a call takes */

enum { PAINTED = 3072, MOST_STACK = 2048 };

static volatile uint8_t *painted;

__attribute__((noinline)) static void paint(void)
{
    volatile uint8_t bytes[PAINTED];
    size_t i;
    for (i = 0; i < PAINTED; i++) bytes[i] = 0xa5;
    painted = bytes;
}

__attribute__((noinline)) static size_t used_stack(void)
{
    size_t i = 0;
    while (i < PAINTED && painted[i] == 0xa5) i++;
    return PAINTED - i;
}

static int stack(void)
{
    static const char number[] = "-4611686018427387903/4611686018427387902";
    size_t most = 0;
    int i;
    for (i = 0; i < 5 + 2 * FORMATS; i++) {
        const pmb_format *format = &formats[i % FORMATS];
        pmb_quantity quantity = {INT64_C(0x3fffffffffffffff), 0x3ffffffd};
        pmb_lexer lexer;
        pmb_event event;
        char text[PMB_MOST_QUANTITY_TEXT + 1];
        size_t length, used;
        uint16_t code;
        memset(&lexer, 0, sizeof lexer);
        paint();
        if (i < FORMATS) pmb_encode(format, quantity, &code);
        else if (i < 2 * FORMATS) pmb_decode(format, 0x7a55, &quantity);
        else if (i == 2 * FORMATS) pmb_quantity_text(quantity, text, sizeof text, &length);
        else if (i == 2 * FORMATS + 1) pmb_quantity_parse(number, sizeof number - 1, &quantity);
        else if (i == 2 * FORMATS + 2) pmb_command_name(0x88, text, sizeof text, &length);
        else if (i == 2 * FORMATS + 3) pmb_bit_name(0x79, 15, text, sizeof text, &length);
        else pmb_lex(&lexer, " b0 ", 4, &length, &event);
        used = used_stack();
        if (used > most) most = used;
    }
    printf("stack: %d\n", (int)most);
    return most >= MOST_STACK;
}

#else

static int stack(void)
{
    return 0;
}

#endif

int main(void)
{
    int which;
    sum = 2166136261u;
    for (which = 0; which < FORMATS; which++) codes(which);
    fractions();
    names();
    texts();
    events();
    error_codes();
    return stack();
}
