/* Calls each function of pmb.h at its limits, alone and from four threads. What is expected is
 * computed here, or worked out by hand from the standard. C99 and C++. How many commands have a name
 * is said by -DSTANDARD_COMMANDS=N: as many as the table in docs/profiles.md has rows. */
#include <pthread.h>
#include <stdio.h>
#include <string.h>

#include "pmb.h"

#define THREADS 4
/* (a board with little memory has less) */
#ifndef LARGE
#define LARGE 65536
#endif

static int fail(const char *what, int line)
{
    fprintf(stderr, "calls: line %d: %s\n", line, what);
    return 1;
}

#define EXPECT(holds)                                                                              \
    do {                                                                                           \
        if (!(holds)) return fail(#holds, __LINE__);                                               \
    } while (0)

/* CRC-8 bit by bit: x^8 + x^2 + x + 1. */
static uint8_t slow_pec(uint8_t crc, const uint8_t *bytes, size_t length)
{
    size_t i;
    int bit;
    for (i = 0; i < length; i++) {
        crc = (uint8_t)(crc ^ bytes[i]);
        for (bit = 0; bit < 8; bit++) crc = (uint8_t)((crc & 0x80) ? (crc << 1) ^ 0x07 : crc << 1);
    }
    return crc;
}

static int pecs(void)
{
    static const uint8_t digits[] = {'1', '2', '3', '4', '5', '6', '7', '8', '9'};
    uint8_t bytes[LARGE];
    size_t i;
    unsigned crc, byte;
    EXPECT(pmb_pec(0, digits, 9) == 0xf4);
    for (crc = 0; crc < 256; crc++) {
        EXPECT(pmb_pec((uint8_t)crc, digits, 0) == crc);
        for (byte = 0; byte < 256; byte++) {
            uint8_t one = (uint8_t)byte;
            uint8_t right = slow_pec((uint8_t)crc, &one, 1);
            EXPECT(pmb_pec_next((uint8_t)crc, one) == right);
            EXPECT(pmb_pec((uint8_t)crc, &one, 1) == right);
        }
    }
    for (i = 0; i < LARGE; i++) bytes[i] = (uint8_t)(i * i / 7 + i);
    EXPECT(pmb_pec(0, bytes, LARGE) == slow_pec(0, bytes, LARGE));
    for (i = 0; i <= 300; i++)
        EXPECT(pmb_pec(pmb_pec(0, bytes, i), bytes + i, 300 - i) == slow_pec(0, bytes, 300));
    return 0;
}

static pmb_format format_of(int kind, int exponent, int mode, int m, int b, int r)
{
    pmb_format format;
    format.kind = (uint8_t)kind;
    format.exponent = (int8_t)exponent;
    format.mode = (uint8_t)mode;
    format.m = (int16_t)m;
    format.b = (int16_t)b;
    format.r = (int8_t)r;
    return format;
}

static pmb_quantity quantity_of(int64_t numerator, int64_t denominator)
{
    pmb_quantity quantity;
    quantity.numerator = numerator;
    quantity.denominator = denominator;
    return quantity;
}

/* Whether a quantity comes to a status, and to a code where that is PMB_OK. */
static int encodes(pmb_format format, pmb_quantity quantity, int status, unsigned code)
{
    uint16_t found = 0x5aa5;
    if (pmb_encode(&format, quantity, &found) != status) return 0;
    return found == (status == PMB_OK ? code : 0x5aa5u);
}

static int decodes(pmb_format format, unsigned code, int64_t numerator, int64_t denominator)
{
    pmb_quantity found = quantity_of(-7, -7);
    return pmb_decode(&format, (uint16_t)code, &found) == PMB_OK &&
           found.numerator == numerator && found.denominator == denominator;
}

/* Whether a code has no value, for this reason, and what stood there is left. */
static int has_no_value(pmb_format format, unsigned code, int status)
{
    pmb_quantity found = quantity_of(-7, -9);
    return pmb_decode(&format, (uint16_t)code, &found) == status && found.numerator == -7 &&
           found.denominator == -9;
}

/* Whether both calls refuse a format with a status, and leave what stood there. */
static int refuses(pmb_format format, int status)
{
    pmb_quantity found = quantity_of(-7, -9);
    return encodes(format, quantity_of(1, 1), status, 0) &&
           encodes(format, quantity_of(1, 0), status, 0) &&
           pmb_decode(&format, 0xffff, &found) == status && found.numerator == -7 &&
           found.denominator == -9;
}

static int formats(void)
{
    const pmb_format linear11 = format_of(PMB_LINEAR11, 99, 99, 0, 0, 99);
    const pmb_format unsigned16 = format_of(PMB_ULINEAR16, -9, 99, 0, 0, 99);
    const pmb_format signed16 = format_of(PMB_SLINEAR16, -9, 99, 0, 0, 99);
    const pmb_format fixed = format_of(PMB_LINEAR11_FIXED, -3, 99, 0, 0, 99);
    const pmb_format direct = format_of(PMB_DIRECT, 99, 99, 3, 2, 1);
    const int64_t most = INT64_C(0x3fffffffffffffff);
    int kind, number;

    /* LINEAR11: 12 is 768 * 2^-6. The greatest value is 1023 * 2^15, the least -1024 * 2^15. */
    EXPECT(encodes(linear11, quantity_of(12, 1), PMB_OK, 0xd300));
    EXPECT(encodes(linear11, quantity_of(-24, -2), PMB_OK, 0xd300));
    EXPECT(encodes(linear11, quantity_of(-1, 3), PMB_OK, 0xad55));
    EXPECT(encodes(linear11, quantity_of(0, -5), PMB_OK, 0));
    EXPECT(encodes(linear11, quantity_of(33521664, 1), PMB_OK, 0x7bff));
    EXPECT(encodes(linear11, quantity_of(33521665, 1), PMB_ABOVE, 0));
    EXPECT(encodes(linear11, quantity_of(-33554432, 1), PMB_OK, 0x7c00));
    EXPECT(encodes(linear11, quantity_of(-33554433, 1), PMB_BELOW, 0));
    EXPECT(encodes(linear11, quantity_of(1, most), PMB_OK, 0));
    EXPECT(encodes(linear11, quantity_of(most, 1), PMB_ABOVE, 0));
    EXPECT(encodes(linear11, quantity_of(-most, 1), PMB_BELOW, 0));
    EXPECT(encodes(linear11, quantity_of(most + 1, 1), PMB_TOO_LARGE, 0));
    EXPECT(encodes(linear11, quantity_of(1, most + 1), PMB_TOO_LARGE, 0));
    EXPECT(encodes(linear11, quantity_of(INT64_MIN, 1), PMB_TOO_LARGE, 0));
    EXPECT(encodes(linear11, quantity_of(INT64_MIN, INT64_MIN), PMB_OK, 0xba00));
    EXPECT(encodes(linear11, quantity_of(INT64_MIN, -1), PMB_TOO_LARGE, 0));
    EXPECT(encodes(linear11, quantity_of(0, 0), PMB_ZERO_DENOMINATOR, 0));
    EXPECT(decodes(linear11, 0xd300, 12, 1) && decodes(linear11, 0x7c00, -33554432, 1));
    EXPECT(decodes(linear11, 0x8001, 1, 65536) && decodes(linear11, 0x87ff, -1, 65536));

    /* LINEAR11 with the exponent -3: eighths, from -128 to 1023/8; any word is read as LINEAR11. */
    EXPECT(encodes(fixed, quantity_of(-1, 3), PMB_OK, 0xeffd));
    EXPECT(encodes(fixed, quantity_of(0, 1), PMB_OK, 0xe800));
    EXPECT(encodes(fixed, quantity_of(1023, 8), PMB_OK, 0xebff));
    EXPECT(encodes(fixed, quantity_of(1024, 8), PMB_ABOVE, 0));
    EXPECT(encodes(fixed, quantity_of(-1025, 8), PMB_BELOW, 0));
    EXPECT(decodes(fixed, 0xd300, 12, 1));

    /* ULINEAR16 and SLINEAR16 with the exponent -9: 512ths. */
    EXPECT(encodes(unsigned16, quantity_of(12, 1), PMB_OK, 0x1800));
    EXPECT(encodes(unsigned16, quantity_of(33, 10), PMB_OK, 0x069a));
    EXPECT(encodes(unsigned16, quantity_of(1, 1024), PMB_OK, 0));
    EXPECT(encodes(unsigned16, quantity_of(3, 1024), PMB_OK, 2));
    EXPECT(encodes(unsigned16, quantity_of(65535, 512), PMB_OK, 0xffff));
    EXPECT(encodes(unsigned16, quantity_of(65536, 512), PMB_ABOVE, 0));
    EXPECT(encodes(unsigned16, quantity_of(-1, most), PMB_BELOW, 0));
    EXPECT(decodes(unsigned16, 0xffff, 65535, 512));
    EXPECT(encodes(signed16, quantity_of(-64, 1), PMB_OK, 0x8000));
    EXPECT(encodes(signed16, quantity_of(32767, 512), PMB_OK, 0x7fff));
    EXPECT(encodes(signed16, quantity_of(64, 1), PMB_ABOVE, 0));
    EXPECT(decodes(signed16, 0x8000, -64, 1) && decodes(signed16, 0xffff, -1, 512));

    /* DIRECT with m = 3, b = 2, R = 1: Y = (3 X + 2) * 10. */
    EXPECT(encodes(direct, quantity_of(1, 1), PMB_OK, 50));
    EXPECT(decodes(direct, 50, 1, 1) && decodes(direct, 0, -2, 3));
    EXPECT(decodes(direct, 0xffff, -7, 10));

    /* VOUT_MODE 17h is the exponent -9; 40h is DIRECT. */
    EXPECT(encodes(format_of(PMB_VOUT, 99, 0x17, 0, 0, 0), quantity_of(12, 1), PMB_OK, 0x1800));
    EXPECT(decodes(format_of(PMB_VOUT, 99, 0x17, 0, 0, 0), 0x8000, 64, 1));
    EXPECT(decodes(format_of(PMB_VOUT_SIGNED, 99, 0x17, 0, 0, 0), 0x8000, -64, 1));
    for (kind = PMB_VOUT; kind <= PMB_VOUT_SIGNED; kind++) {
        EXPECT(decodes(format_of(kind, 99, 0x40, 3, 2, 1), 50, 1, 1));
        EXPECT(decodes(format_of(kind, 99, 0x5f, 3, 2, 1), 50, 1, 1));
        EXPECT(refuses(format_of(kind, 0, 0x40, 0, 2, 99), PMB_NO_COEFFICIENTS));
        EXPECT(refuses(format_of(kind, 0, 0x40, 3, 2, 10), PMB_BAD_SCALE));
        EXPECT(refuses(format_of(kind, 0, 0x20, 3, 2, 1), PMB_VID));
        EXPECT(refuses(format_of(kind, 0, 0x60, 3, 2, 1), PMB_IEEE));
        for (number = 0x80; number < 0x100; number++)
            EXPECT(refuses(format_of(kind, 0, number, 3, 2, 1), PMB_RELATIVE));
    }
    for (kind = PMB_LINEAR11_FIXED; kind <= PMB_SLINEAR16; kind++)
        for (number = -128; number < 128; number++) {
            const pmb_format format = format_of(kind, number, 0xff, 0, 0, 99);
            if (number < -16 || number > 15) EXPECT(refuses(format, PMB_BAD_EXPONENT));
            else EXPECT(decodes(format, 0, 0, 1));
        }
    for (number = -128; number < 128; number++)
        if (number < -9 || number > 9)
            EXPECT(refuses(format_of(PMB_DIRECT, 0, 0, -1, 0, number), PMB_BAD_SCALE));
    EXPECT(refuses(format_of(PMB_DIRECT, 0, 0, 0, 0, 99), PMB_ZERO_SLOPE));
    for (kind = PMB_UDIRECT + 1; kind < 256; kind++)
        EXPECT(refuses(format_of(kind, 0, 0, 1, 0, 0), PMB_BAD_FORMAT));
    return 0;
}

/* Half precision: 12 is 1.5 * 2^3, so the field is 18 and the fraction 512. 2049 lies between the codes
 * of 2048 and 2050, and 2^-25 between zero and the least code above it. */
static int half_precision(void)
{
    const pmb_format half = format_of(PMB_HALF, 99, 99, 0, 0, 99);
    unsigned code;
    EXPECT(encodes(half, quantity_of(12, 1), PMB_OK, 0x4a00));
    EXPECT(encodes(half, quantity_of(2049, 1), PMB_OK, 0x6800));
    EXPECT(encodes(half, quantity_of(-1, INT64_C(1) << 25), PMB_OK, 0));
    EXPECT(encodes(half, quantity_of(65504, 1), PMB_OK, 0x7bff));
    EXPECT(encodes(half, quantity_of(65505, 1), PMB_ABOVE, 0));
    EXPECT(encodes(half, quantity_of(-65504, 1), PMB_OK, 0xfbff));
    EXPECT(encodes(half, quantity_of(-65505, 1), PMB_BELOW, 0));
    EXPECT(encodes(half, quantity_of(0, 0), PMB_ZERO_DENOMINATOR, 0));
    EXPECT(decodes(half, 0x4a00, 12, 1) && decodes(half, 0x8000, 0, 1));
    for (code = 0; code < 65536; code++) {
        const unsigned field = code >> 10 & 31, fraction = code & 1023;
        /* the value times 2^24, and then both halved as long as they are even */
        int64_t numerator = field == 0 ? fraction : (int64_t)(1024 + fraction) << (field - 1);
        int64_t denominator = 1 << 24;
        if (field == 31) {
            EXPECT(has_no_value(half, code, PMB_NOT_A_NUMBER));
            continue;
        }
        while (denominator > 1 && numerator % 2 == 0) {
            numerator /= 2;
            denominator /= 2;
        }
        if (code >> 15) numerator = -numerator;
        EXPECT(decodes(half, code, numerator, denominator));
        EXPECT(encodes(half, quantity_of(numerator, denominator), PMB_OK, code == 0x8000 ? 0 : code));
    }
    return 0;
}

/* The VID tables: their first and last codes, the volts of the first one and the step to the next, in
 * hundredths of a millivolt, and whether 0 is off. */
static int vid_tables(void)
{
    static const struct {
        int table, first, last, volts, step, off;
    } tables[] = {
        {PMB_VID_VR11, 2, 178, 160000, -625, 0},    {PMB_VID_VR12, 1, 255, 25000, 500, 1},
        {PMB_VID_VR13, 1, 255, 50000, 1000, 1},     {PMB_VID_IMVP9, 1, 255, 20000, 1000, 1},
        {PMB_VID_AMD625MV, 0, 216, 155000, -625, 0}, {PMB_VID_NVIDIA195MV, 1, 255, 19500, 500, 1},
    };
    size_t i;
    int code, number;
    for (i = 0; i < sizeof tables / sizeof *tables; i++) {
        const pmb_format vid = format_of(PMB_VID_TABLE, 99, tables[i].table, 0, 0, 99);
        const int end = tables[i].volts + (tables[i].last - tables[i].first) * tables[i].step;
        const int least = end < tables[i].volts ? end : tables[i].volts;
        const int greatest = end < tables[i].volts ? tables[i].volts : end;
        EXPECT(encodes(vid, quantity_of(least - 1, 100000), PMB_BELOW, 0));
        EXPECT(encodes(vid, quantity_of(greatest + 1, 100000), PMB_ABOVE, 0));
        EXPECT(encodes(vid, quantity_of(0, 1), PMB_BELOW, 0));
        EXPECT(encodes(vid, quantity_of(0, 0), PMB_ZERO_DENOMINATOR, 0));
        for (code = 0; code < 65536; code++) {
            pmb_quantity found;
            const int volts = tables[i].volts + (code - tables[i].first) * tables[i].step;
            if (code < tables[i].first || code > tables[i].last) {
                EXPECT(has_no_value(vid, (unsigned)code, code == 0 && tables[i].off ? PMB_OFF : PMB_NO_CODE));
                continue;
            }
            EXPECT(encodes(vid, quantity_of(volts, 100000), PMB_OK, (unsigned)code));
            EXPECT(pmb_decode(&vid, (uint16_t)code, &found) == PMB_OK);
            EXPECT(found.numerator * 100000 == volts * found.denominator && found.denominator > 0);
            EXPECT(decodes(vid, (unsigned)code, found.numerator, found.denominator));
        }
    }
    /* a tie between codes goes to the even one: 0.2525 V between 1 and 2 */
    EXPECT(encodes(format_of(PMB_VID_TABLE, 0, PMB_VID_VR12, 0, 0, 0), quantity_of(101, 400), PMB_OK, 2));
    EXPECT(decodes(format_of(PMB_VID_TABLE, 0, PMB_VID_VR12, 0, 0, 0), 0x97, 1, 1));
    EXPECT(refuses(format_of(PMB_VID_TABLE, 0, 0, 1, 0, 0), PMB_BAD_FORMAT));
    for (number = PMB_VID_NVIDIA195MV + 1; number < 256; number++)
        EXPECT(refuses(format_of(PMB_VID_TABLE, 0, number, 1, 0, 0), PMB_BAD_FORMAT));
    return 0;
}

/* DIRECT whose words have no sign: with m = 3, b = 2, R = 1 the greatest is (6553.5 - 2) / 3. Beside a
 * VOUT_MODE that says DIRECT words have a sign. */
static int unsigned_direct(void)
{
    const pmb_format direct = format_of(PMB_UDIRECT, 99, 99, 3, 2, 1);
    const pmb_format whole = format_of(PMB_UDIRECT, 0, 0, 1, 0, 0);
    int number;
    EXPECT(encodes(direct, quantity_of(1, 1), PMB_OK, 50));
    EXPECT(encodes(direct, quantity_of(-2, 3), PMB_OK, 0));
    EXPECT(encodes(direct, quantity_of(-7, 10), PMB_BELOW, 0));
    EXPECT(encodes(direct, quantity_of(13103, 6), PMB_OK, 0xffff));
    EXPECT(encodes(direct, quantity_of(13104, 6), PMB_ABOVE, 0));
    EXPECT(decodes(direct, 0xffff, 13103, 6) && decodes(direct, 0x8000, 5458, 5));
    EXPECT(decodes(whole, 0xffff, 65535, 1));
    EXPECT(decodes(format_of(PMB_VOUT, 0, 0x40, 1, 0, 0), 0xffff, -1, 1));
    EXPECT(decodes(format_of(PMB_VOUT_SIGNED, 0, 0x40, 1, 0, 0), 0xffff, -1, 1));
    for (number = -128; number < 128; number++)
        if (number < -9 || number > 9)
            EXPECT(refuses(format_of(PMB_UDIRECT, 0, 0, -1, 0, number), PMB_BAD_SCALE));
    EXPECT(refuses(format_of(PMB_UDIRECT, 0, 0, 0, 0, 99), PMB_ZERO_SLOPE));
    return 0;
}

/* Each code's value has a code of that value. */
static int round_trips(void)
{
    const pmb_format all[] = {
        format_of(PMB_LINEAR11, 0, 0, 0, 0, 0),       format_of(PMB_ULINEAR16, -16, 0, 0, 0, 0),
        format_of(PMB_SLINEAR16, 15, 0, 0, 0, 0),     format_of(PMB_VOUT, 0, 0x17, 0, 0, 0),
        format_of(PMB_DIRECT, 0, 0, -32768, 32767, 9), format_of(PMB_DIRECT, 0, 0, 1, -1, -9),
        format_of(PMB_UDIRECT, 0, 0, -32768, 32767, 9), format_of(PMB_UDIRECT, 0, 0, 1, -1, -9),
    };
    size_t i;
    unsigned code;
    for (i = 0; i < sizeof all / sizeof *all; i++)
        for (code = 0; code < 65536; code += 7) {
            pmb_quantity value, again;
            uint16_t nearest;
            EXPECT(pmb_decode(&all[i], (uint16_t)code, &value) == PMB_OK);
            EXPECT(pmb_encode(&all[i], value, &nearest) == PMB_OK);
            EXPECT(all[i].kind == PMB_LINEAR11 || nearest == code);
            EXPECT(pmb_decode(&all[i], nearest, &again) == PMB_OK);
            EXPECT(again.numerator == value.numerator && again.denominator == value.denominator);
        }
    return 0;
}

static int parses(const char *text, int status, int64_t numerator, int64_t denominator)
{
    pmb_quantity found = quantity_of(-7, -9);
    if (pmb_quantity_parse(text, strlen(text), &found) != status) return 0;
    return status == PMB_OK ? found.numerator == numerator && found.denominator == denominator
                            : found.numerator == -7 && found.denominator == -9;
}

static int texts_in(void)
{
    char large[LARGE];
    EXPECT(parses("12", PMB_OK, 12, 1) && parses("-6/4", PMB_OK, -3, 2));
    EXPECT(parses("-1.50", PMB_OK, -3, 2) && parses("-0", PMB_OK, 0, 1));
    EXPECT(parses("4611686018427387903", PMB_OK, INT64_C(0x3fffffffffffffff), 1));
    EXPECT(parses("4611686018427387904", PMB_TOO_LARGE, 0, 0));
    EXPECT(parses("0.000000000000000001", PMB_OK, 1, INT64_C(1000000000000000000)));
    EXPECT(parses("0.0000000000000000000000001", PMB_TOO_LARGE, 0, 0));
    EXPECT(parses("9223372036854775808/2", PMB_TOO_LARGE, 0, 0));
    EXPECT(parses("9223372036854775807/9223372036854775807", PMB_OK, 1, 1));
    EXPECT(parses("", PMB_EMPTY, 0, 0) && parses("1/0", PMB_ZERO_DENOMINATOR, 0, 0));
    EXPECT(parses("-", PMB_BAD_DIGIT, 0, 0) && parses("1.", PMB_BAD_DIGIT, 0, 0));
    EXPECT(parses(".5", PMB_BAD_DIGIT, 0, 0) && parses("+1", PMB_BAD_DIGIT, 0, 0));
    EXPECT(parses("1 ", PMB_BAD_DIGIT, 0, 0) && parses("1e3", PMB_BAD_DIGIT, 0, 0));
    memset(large, '0', sizeof large);
    large[sizeof large - 2] = '7';
    large[sizeof large - 1] = 0;
    EXPECT(parses(large, PMB_OK, 7, 1));
    large[1] = '.';
    EXPECT(parses(large, PMB_TOO_LARGE, 0, 0));
    return 0;
}

/* Whether a call that writes a text writes this one into each room: whole where it and its NUL fit,
 * nothing where they don't, and never beside it. */
typedef int32_t (*writer)(int, int, char *, size_t, size_t *);

static int writes(writer write, int first, int second, int status, const char *text)
{
    const size_t length = strlen(text);
    size_t room, at;
    for (room = 0; room <= 64; room++) {
        char bytes[66];
        size_t told = 999;
        int32_t found;
        memset(bytes, '~', sizeof bytes);
        found = write(first, second, bytes + 1, room, &told);
        EXPECT(found == (status == PMB_OK && room <= length ? PMB_NO_ROOM : status));
        EXPECT(told == length);
        EXPECT(found != PMB_OK || memcmp(bytes + 1, text, length + 1) == 0);
        for (at = 0; at < sizeof bytes; at++)
            if (found != PMB_OK || at < 1 || at > length + 1) EXPECT(bytes[at] == '~');
    }
    return 0;
}

static int32_t write_command(int code, int unused, char *text, size_t room, size_t *length)
{
    (void)unused;
    return pmb_command_name((uint8_t)code, text, room, length);
}

static int32_t write_bit(int code, int bit, char *text, size_t room, size_t *length)
{
    return pmb_bit_name((uint8_t)code, (uint8_t)bit, text, room, length);
}

static int32_t write_status(int status, int unused, char *text, size_t room, size_t *length)
{
    (void)unused;
    return pmb_status_name(status, text, room, length);
}

static const pmb_quantity quantities[] = {
    {12, 1}, {-6, 4}, {2, -3}, {0, 9}, {1, INT64_C(0x3fffffffffffffff)}, {1, 65536}, {5, 0},
    {INT64_MIN, 1}, {-INT64_C(0x3fffffffffffffff), INT64_C(1) << 24},
};

static int32_t write_quantity(int which, int unused, char *text, size_t room, size_t *length)
{
    (void)unused;
    return pmb_quantity_text(quantities[which], text, room, length);
}

static int texts_out(void)
{
    int code, bit, names = 0;
    EXPECT(!writes(write_quantity, 0, 0, PMB_OK, "12"));
    EXPECT(!writes(write_quantity, 1, 0, PMB_OK, "-1.5"));
    EXPECT(!writes(write_quantity, 2, 0, PMB_OK, "-2/3"));
    EXPECT(!writes(write_quantity, 3, 0, PMB_OK, "0"));
    EXPECT(!writes(write_quantity, 4, 0, PMB_OK, "1/4611686018427387903"));
    EXPECT(!writes(write_quantity, 5, 0, PMB_OK, "0.0000152587890625"));
    EXPECT(!writes(write_quantity, 6, 0, PMB_ZERO_DENOMINATOR, ""));
    EXPECT(!writes(write_quantity, 7, 0, PMB_TOO_LARGE, ""));
    EXPECT(!writes(write_quantity, 8, 0, PMB_OK, "-274877906943.999999940395355224609375"));
    EXPECT(!writes(write_command, 0x00, 0, PMB_OK, "PAGE"));
    EXPECT(!writes(write_command, 0x49, 0, PMB_OK, "IOUT_OC_LV_FAULT_RESPONSE"));
    EXPECT(!writes(write_command, 0x88, 0, PMB_OK, "READ_VIN"));
    EXPECT(!writes(write_command, 0x07, 0, PMB_NO_NAME, ""));
    EXPECT(!writes(write_command, 0xff, 0, PMB_NO_NAME, ""));
    EXPECT(!writes(write_bit, 0x79, 15, PMB_OK, "VOUT"));
    EXPECT(!writes(write_bit, 0x79, 0, PMB_OK, "NONE_OF_THE_ABOVE"));
    EXPECT(!writes(write_bit, 0x7e, 2, PMB_NO_NAME, ""));
    EXPECT(!writes(write_bit, 0x79, 16, PMB_NO_NAME, ""));
    EXPECT(!writes(write_bit, 0x79, 255, PMB_NO_NAME, ""));
    EXPECT(!writes(write_bit, 0x21, 0, PMB_NO_NAME, ""));
    EXPECT(!writes(write_status, PMB_OK, 0, PMB_OK, "PMB_OK"));
    EXPECT(!writes(write_status, PMB_BAD_FORMAT, 0, PMB_OK, "PMB_BAD_FORMAT"));
    EXPECT(!writes(write_status, PMB_ZERO_DENOMINATOR, 0, PMB_OK, "PMB_ZERO_DENOMINATOR"));
    EXPECT(!writes(write_status, PMB_OFF, 0, PMB_OK, "PMB_OFF"));
    EXPECT(!writes(write_status, PMB_CLOSED, 0, PMB_OK, "PMB_CLOSED"));
    EXPECT(!writes(write_status, PMB_BAD_DIGITS, 0, PMB_OK, "PMB_BAD_DIGITS"));
    EXPECT(!writes(write_status, PMB_BAD_DEVICE, 0, PMB_OK, "PMB_BAD_DEVICE"));
    EXPECT(!writes(write_status, PMB_BAD_SOURCE, 0, PMB_OK, "PMB_BAD_SOURCE"));
    EXPECT(!writes(write_status, PMB_BAD_RATE, 0, PMB_OK, "PMB_BAD_RATE"));
    EXPECT(!writes(write_status, PMB_SIGROK_ONLY, 0, PMB_OK, "PMB_SIGROK_ONLY"));
    EXPECT(!writes(write_status, PMB_NO_BUS, 0, PMB_OK, "PMB_NO_BUS"));
    EXPECT(!writes(write_status, PMB_NO_BUS + 1, 0, PMB_NO_NAME, ""));
    EXPECT(!writes(write_status, -1, 0, PMB_NO_NAME, ""));
    EXPECT(!writes(write_status, INT32_MIN, 0, PMB_NO_NAME, ""));
    EXPECT(!writes(write_status, INT32_MAX, 0, PMB_NO_NAME, ""));
    for (code = 0; code <= PMB_NO_BUS; code++) {
        char text[PMB_MOST_STATUS_NAME + 1];
        size_t length;
        EXPECT(pmb_status_name(code, text, sizeof text, &length) == PMB_OK);
        EXPECT(length <= PMB_MOST_STATUS_NAME);
    }
    for (code = 0; code < 256; code++) {
        char text[PMB_MOST_COMMAND_NAME + 1];
        size_t length;
        names += pmb_command_name((uint8_t)code, text, sizeof text, &length) == PMB_OK;
        for (bit = 0; bit < 256; bit++) {
            int32_t status = write_bit(code, bit, text, PMB_MOST_BIT_NAME + 1, &length);
            EXPECT(status == PMB_OK || status == PMB_NO_NAME);
            EXPECT(length <= PMB_MOST_BIT_NAME);
        }
    }
    EXPECT(names == STANDARD_COMMANDS);
    return 0;
}

/* ---- events */

#define MOST_EVENTS 64

/* What a lexer came to: a letter or two digits for each event, and the last status. */
typedef struct reading {
    char events[3 * MOST_EVENTS + 1];
    size_t count;
    int32_t status;
    pmb_lexer lexer;
} reading;

static void begin(reading *found)
{
    memset(found, 0, sizeof *found);
    found->status = PMB_NO_EVENT;
}

/* Adds an event; 0 where it has senseless numbers. */
static int add_event(reading *found, pmb_event event)
{
    static const char letters[] = {'S', 0, 'A', 'N', 'P'};
    char *end = found->events + strlen(found->events);
    if (event.kind > PMB_STOP || found->count == MOST_EVENTS) return 0;
    if (event.kind != PMB_BYTE && event.byte != 0) return 0;
    if (event.kind == PMB_BYTE) sprintf(end, "%02x ", event.byte);
    else sprintf(end, "%c ", letters[event.kind]);
    found->count++;
    return 1;
}

/* Gives a piece of a text; 0 where a call does what it may not. The lexer is put aside each time. */
static int give(reading *found, const char *piece, size_t length)
{
    while (found->status != PMB_BAD_TOKEN) {
        const pmb_event before = {9, 9};
        pmb_lexer lexer = found->lexer;
        pmb_event event = before;
        size_t used = 999;
        found->status = pmb_lex(&lexer, piece, length, &used, &event);
        if (used > length || lexer.used != found->lexer.used + used) return 0;
        found->lexer = lexer;
        if (found->status == PMB_OK) {
            if (used == 0 || !add_event(found, event)) return 0;
        } else if (event.kind != 9 || event.byte != 9) {
            return 0;
        }
        if (found->status == PMB_NO_EVENT) return used == length;
        piece += used;
        length -= used;
    }
    return 1;
}

static int end_text(reading *found)
{
    const uint64_t used = found->lexer.used;
    pmb_event event = {9, 9};
    found->status = pmb_lex_end(&found->lexer, &event);
    if (found->lexer.used != used) return 0;
    if (found->status == PMB_OK) return add_event(found, event);
    return event.kind == 9 && event.byte == 9;
}

/* Whether a text has these events and then this status, where its bad token is, and how many bytes were
 * used: cut in each two places, and byte by byte. */
static int reads(const char *text, const char *events, int32_t status, uint64_t at, uint64_t used)
{
    const size_t length = strlen(text);
    size_t first, second;
    for (first = 0; first <= length; first++)
        for (second = first; second <= length + 1; second++) {
            reading found;
            size_t i;
            begin(&found);
            if (second > length) {
                /* (byte by byte from the first cut on) */
                EXPECT(give(&found, text, first));
                for (i = first; i < length; i++) EXPECT(give(&found, text + i, 1));
            } else {
                EXPECT(give(&found, text, first));
                EXPECT(give(&found, text + first, second - first));
                EXPECT(give(&found, text + second, length - second));
            }
            EXPECT(end_text(&found));
            EXPECT(strcmp(found.events, events) == 0);
            EXPECT(found.status == status);
            EXPECT(status != PMB_BAD_TOKEN || found.lexer.at == at);
            EXPECT(found.lexer.used == used);
        }
    return 0;
}

/* A lexer that has met a word that is no token stays there. */
static int stays_bad(pmb_lexer lexer)
{
    pmb_lexer same = lexer;
    pmb_event event = {9, 9};
    size_t used = 999;
    EXPECT(pmb_lex(&lexer, "S S ", 4, &used, &event) == PMB_BAD_TOKEN && used == 0);
    EXPECT(pmb_lex(&lexer, "", 0, &used, &event) == PMB_BAD_TOKEN && used == 0);
    EXPECT(pmb_lex_end(&lexer, &event) == PMB_BAD_TOKEN);
    EXPECT(event.kind == 9 && event.byte == 9);
    EXPECT(lexer.used == same.used && lexer.at == same.at && lexer.place == same.place);
    EXPECT(lexer.first == same.first && lexer.second == same.second);
    return 0;
}

static int events(void)
{
    static const char *const bad[] = {"Q", "s ", "S b0A", "S 1 ", "S 1", "SS", "0g", "#\nx", "b0#\n1#"};
    static const uint64_t places[] = {0, 0, 2, 2, 2, 0, 0, 2, 4};
    static const uint64_t counts[] = {0, 0, 4, 3, 3, 1, 1, 2, 5};
    size_t i;
    EXPECT(sizeof(pmb_lexer) == 24 && sizeof(pmb_event) == 2);
    EXPECT(!reads("", "", PMB_NO_EVENT, 0, 0));
    EXPECT(!reads("S b0 A 21 A 00 N P\n", "S b0 A 21 A 00 N P ", PMB_NO_EVENT, 0, 19));
    EXPECT(!reads("  S\tB0\r\nA", "S b0 A ", PMB_OK, 0, 9));
    EXPECT(!reads("#S\n\nS# A S\nfF#P", "S ff ", PMB_NO_EVENT, 0, 15));
    EXPECT(!reads("S ## #\n#\n 0f#", "S 0f ", PMB_NO_EVENT, 0, 13));
    EXPECT(!reads("S 0f", "S 0f ", PMB_OK, 0, 4));
    EXPECT(!reads("S b0 A zz A", "S b0 A ", PMB_BAD_TOKEN, 7, 7));
    EXPECT(!reads("S # b0 0\n b00 P", "S ", PMB_BAD_TOKEN, 10, 12));
    EXPECT(!reads("S b0 A 2", "S b0 A ", PMB_BAD_TOKEN, 7, 8));
    for (i = 0; i < sizeof bad / sizeof *bad; i++) {
        reading found;
        begin(&found);
        EXPECT(give(&found, bad[i], strlen(bad[i])) && end_text(&found));
        EXPECT(found.status == PMB_BAD_TOKEN && found.lexer.at == places[i]);
        EXPECT(found.lexer.used == counts[i]);
        EXPECT(!stays_bad(found.lexer));
    }
    return 0;
}

/* Whether a byte is one of the characters. (There is no strchr on a bare board.) */
static int is_one_of(const char *characters, unsigned byte)
{
    for (; *characters; characters++)
        if ((unsigned char)*characters == byte) return 1;
    return 0;
}

/* Whether some text leaves these numbers in a lexer, as far as they count at its place. Between words
 * any do. In a comment one byte or more was used, the `#`. A word has bytes of a token, and as many
 * were used since it began. */
static int is_at_a_text(const pmb_lexer *lexer)
{
    static const char tokens[] = "SPAN0123456789abcdefABCDEF";
    const unsigned word = lexer->place == 2 ? 1 : 2;
    if (lexer->place == 0) return 1;
    if (lexer->place == 1) return lexer->used > 0;
    if (lexer->place > 3) return 0;
    if (lexer->used != (lexer->at > UINT64_MAX - word ? UINT64_MAX : lexer->at + word)) return 0;
    if (word == 1) return is_one_of(tokens, lexer->first);
    return is_one_of(tokens + 4, lexer->first) && is_one_of(tokens + 4, lexer->second);
}

/* Gives a new lexer a text that leaves these numbers: spaces, and then nothing, a `#` or the word. */
static int goes_there(reading *found, const pmb_lexer *numbers)
{
    char word[2];
    const size_t length = numbers->place == 0 ? 0 : numbers->place == 3 ? 2 : 1;
    word[0] = numbers->place == 1 ? '#' : (char)numbers->first;
    word[1] = (char)numbers->second;
    begin(found);
    while (found->lexer.used + length < numbers->used) EXPECT(give(found, " ", 1));
    EXPECT(give(found, word, length) && found->status == PMB_NO_EVENT && found->count == 0);
    EXPECT(found->lexer.used == numbers->used && found->lexer.place == numbers->place);
    if (numbers->place < 2) return 0;
    EXPECT(found->lexer.at == numbers->at && found->lexer.first == numbers->first);
    EXPECT(numbers->place == 2 || found->lexer.second == numbers->second);
    return 0;
}

/* A lexer with these numbers reads a text in the same way, whole and byte by byte, and as one that was
 * given a text that leaves them. */
static int reads_on(pmb_lexer lexer, const char *text)
{
    const size_t length = strlen(text);
    reading whole, ways[2];
    size_t i;
    begin(&whole);
    begin(&ways[0]);
    whole.lexer = ways[0].lexer = lexer;
    EXPECT(!goes_there(&ways[1], &lexer));
    EXPECT(give(&whole, text, length) && end_text(&whole));
    for (i = 0; i < length; i++) EXPECT(give(&ways[0], text + i, 1));
    EXPECT(give(&ways[1], text, length));
    for (i = 0; i < 2; i++) {
        EXPECT(end_text(&ways[i]));
        EXPECT(strcmp(whole.events, ways[i].events) == 0 && whole.status == ways[i].status);
        EXPECT(whole.status != PMB_BAD_TOKEN || whole.lexer.at == ways[i].lexer.at);
        EXPECT(whole.lexer.used == ways[i].lexer.used);
    }
    return 0;
}

/* It is not refused. */
static int is_accepted(pmb_lexer lexer)
{
    pmb_event event;
    size_t used = 999;
    EXPECT(pmb_lex(&lexer, "", 0, &used, &event) == PMB_NO_EVENT && used == 0);
    return 0;
}

/* Any numbers: a lexer has them at some text, or it is refused. */
static int any_numbers(void)
{
    static const char *const texts[] = {"", "A", " ", "#", "\n", "0 b0", "zz", "P b0 ", "#\nS", "S0"};
    static const uint64_t counts[] = {0, 1, 2, 10, UINT64_MAX - 1, UINT64_MAX};
    const size_t all = sizeof texts / sizeof *texts;
    unsigned place, bytes, word;
    size_t count, i;
    for (place = 0; place < 8; place++)
        for (bytes = 0; bytes < 65536; bytes += place == 3 ? 17 : 257)
            for (count = 0; count < sizeof counts / sizeof *counts; count++)
                for (word = 0; word < 4; word++) {
                    /* (where no word is under way, one of the texts for each two bytes) */
                    const size_t step = place < 2 ? all : 1;
                    pmb_lexer lexer;
                    memset(&lexer, 0, sizeof lexer);
                    lexer.used = counts[count];
                    lexer.at = bytes % 20 ? lexer.used - word : UINT64_MAX;
                    lexer.place = (uint8_t)place;
                    lexer.first = (uint8_t)(bytes >> 8);
                    lexer.second = (uint8_t)bytes;
                    if (!is_at_a_text(&lexer)) EXPECT(!stays_bad(lexer));
                    else EXPECT(!is_accepted(lexer));
                    if (!is_at_a_text(&lexer) || lexer.used > 10) continue;
                    for (i = bytes % step; i < all; i += step) EXPECT(!reads_on(lexer, texts[i]));
                }
    return 0;
}

/* Numbers that no call leaves in a lexer. */
static int senseless(void)
{
    static const char *const pieces[] = {"", "A", " ", "#", "\n", "0 b", "zz", "P b0 "};
    unsigned place, bytes;
    size_t i;
    for (place = 0; place < 256; place += place < 5 ? 1 : 25)
        for (bytes = 0; bytes < 65536; bytes += place == 3 ? 13 : 257)
            for (i = bytes % 4; i < sizeof pieces / sizeof *pieces; i += 4) {
                const size_t length = strlen(pieces[i]);
                pmb_event event = {9, 9};
                size_t used = 999;
                int32_t status;
                pmb_lexer lexer;
                memset(&lexer, 0, sizeof lexer);
                lexer.used = UINT64_MAX - (bytes % 3);
                lexer.at = bytes;
                lexer.place = (uint8_t)place;
                lexer.first = (uint8_t)(bytes >> 8);
                lexer.second = (uint8_t)bytes;
                if (place >= 4) EXPECT(!stays_bad(lexer));
                status = pmb_lex(&lexer, pieces[i], length, &used, &event);
                EXPECT(used <= length && lexer.used >= UINT64_MAX - 2);
                EXPECT(status == PMB_OK || status == PMB_NO_EVENT || status == PMB_BAD_TOKEN);
                EXPECT((status == PMB_OK) == (event.kind != 9));
                EXPECT(status != PMB_NO_EVENT || used == length);
                status = pmb_lex_end(&lexer, &event);
                EXPECT(status == PMB_OK || status == PMB_NO_EVENT || status == PMB_BAD_TOKEN);
            }
    return 0;
}

/* Offsets stay at the greatest number of 64 bits. */
static int far_offsets(void)
{
    pmb_lexer lexer;
    pmb_event event;
    size_t used;
    memset(&lexer, 0, sizeof lexer);
    lexer.used = UINT64_MAX - 1;
    EXPECT(pmb_lex(&lexer, "S b", 3, &used, &event) == PMB_OK && lexer.used == UINT64_MAX);
    EXPECT(pmb_lex(&lexer, "b", 1, &used, &event) == PMB_NO_EVENT && lexer.used == UINT64_MAX);
    EXPECT(pmb_lex(&lexer, "z", 1, &used, &event) == PMB_BAD_TOKEN && lexer.at == UINT64_MAX);
    EXPECT(lexer.used == UINT64_MAX);
    return 0;
}

/* A pointer whose length is 0 may be null. */
static int nulls(void)
{
    const pmb_quantity twelve = {12, 1};
    pmb_quantity quantity;
    pmb_lexer lexer;
    pmb_event event;
    size_t length = 9, used = 9;
    EXPECT(pmb_pec(0x5a, NULL, 0) == 0x5a);
    EXPECT(pmb_quantity_parse(NULL, 0, &quantity) == PMB_EMPTY);
    EXPECT(pmb_quantity_text(twelve, NULL, 0, &length) == PMB_NO_ROOM && length == 2);
    EXPECT(pmb_command_name(0x88, NULL, 0, &length) == PMB_NO_ROOM && length == 8);
    EXPECT(pmb_bit_name(0x79, 15, NULL, 0, &length) == PMB_NO_ROOM && length == 4);
    EXPECT(pmb_status_name(PMB_OK, NULL, 0, &length) == PMB_NO_ROOM && length == 6);
    memset(&lexer, 0, sizeof lexer);
    EXPECT(pmb_lex(&lexer, NULL, 0, &used, &event) == PMB_NO_EVENT && used == 0);
    return 0;
}

static void *all(void *result)
{
    *(int *)result = pmb_version() != PMB_VERSION || pecs() || formats() || half_precision() ||
                     vid_tables() || unsigned_direct() || round_trips() || texts_in() ||
                     texts_out() || events() || any_numbers() || senseless() || far_offsets() ||
                     nulls();
    return result;
}

int main(void)
{
    pthread_t threads[THREADS];
    int results[THREADS], alone, i, failed;
    all(&alone);
    failed = alone;
    for (i = 0; i < THREADS; i++)
        if (pthread_create(&threads[i], NULL, all, &results[i])) return fail("pthread_create", __LINE__);
    for (i = 0; i < THREADS; i++) {
        pthread_join(threads[i], NULL);
        failed |= results[i];
    }
    return failed;
}
