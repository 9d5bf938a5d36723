/* Calls pmb_reader_open_items, pmb_reader_next and pmb_reason_name of pmb.h: the layout of an item;
 * captures with the fields of each of their items, which were worked out by hand from docs/packets.md,
 * docs/errors.md, docs/numbers.md and docs/json.md, however a capture is cut; the longest legs; closed handles, readers of
 * the other kind and handles of other things; and, with REFUSES defined and the linker's --wrap of malloc,
 * realloc and free, with each allocation refused. C99 and C++. */
#include <stddef.h>
#include <stdio.h>
#include <stdlib.h>
#include <string.h>

#include "pmb.h"

#define MOST 16384

static int fail(const char *what, int line)
{
    fprintf(stderr, "items: line %d: %s\n", line, what);
    return 1;
}

#define EXPECT(holds)                                                                              \
    do {                                                                                           \
        if (!(holds)) return fail(#holds, __LINE__);                                               \
    } while (0)

#include "allocations.h"

/* ---- the layout: that of crates/pmb_items/specs/Record.antt */

#define SIZED(type, size) typedef char type##_has_##size[sizeof(type) == (size) ? 1 : -1]
#define STANDS(type, field, at)                                                                    \
    typedef char type##_##field##_at_##at[offsetof(type, field) == (at) ? 1 : -1]

SIZED(pmb_leg, 260);
SIZED(pmb_short_text, 42);
SIZED(pmb_item, 680);
STANDS(pmb_leg, bytes, 2);
STANDS(pmb_short_text, bytes, 2);
STANDS(pmb_item, at, 0);
STANDS(pmb_item, line, 8);
STANDS(pmb_item, column, 16);
STANDS(pmb_item, part, 24);
STANDS(pmb_item, parts, 32);
STANDS(pmb_item, value, 40);
STANDS(pmb_item, code, 56);
STANDS(pmb_item, page, 58);
STANDS(pmb_item, phase, 60);
STANDS(pmb_item, pec, 62);
STANDS(pmb_item, right_pec, 64);
STANDS(pmb_item, device, 66);
STANDS(pmb_item, kind, 68);
STANDS(pmb_item, refused, 69);
STANDS(pmb_item, number, 70);
STANDS(pmb_item, assumed, 71);
STANDS(pmb_item, reason, 72);
STANDS(pmb_item, expected, 73);
STANDS(pmb_item, got, 74);
STANDS(pmb_item, got_byte, 75);
STANDS(pmb_item, sent, 76);
STANDS(pmb_item, reply, 336);
STANDS(pmb_item, time, 596);
STANDS(pmb_item, word, 638);

/* ---- the text of an item */

typedef struct text {
    size_t length;
    char bytes[MOST];
} text;

static const char *const kinds[] = {"?",     "write", "read",    "call",     "refused",
                                    "alert", "other", "refusal", "bad_token"};

static void put(text *out, const char *what)
{
    const size_t length = strlen(what);
    if (length >= MOST - out->length) return;
    memcpy(out->bytes + out->length, what, length);
    out->length += length;
}

/* A number in a form. */
static void put_in(text *out, const char *form, long long number)
{
    char digits[64];
    snprintf(digits, sizeof digits, form, number);
    put(out, digits);
}

/* A number that isn't there has no text. */
static void put_number(text *out, const char *form, uint16_t number)
{
    if (number != PMB_ITEM_NONE) put_in(out, form, number);
}

static void put_selected(text *out, const char *what, uint16_t number)
{
    if (number == PMB_ITEM_NONE) return;
    put(out, what);
    if (number == PMB_ITEM_ALL) put(out, " all");
    else if (number == PMB_ITEM_UNKNOWN) put(out, " ?");
    else put_in(out, " %lld", number);
}

/* Bytes in digits, and `-` for none. After them there are zeros. */
static int put_leg(text *out, const char *what, const pmb_leg *leg)
{
    const size_t length = leg->length == PMB_ITEM_NONE ? 0 : leg->length;
    size_t i;
    EXPECT(length <= sizeof leg->bytes);
    for (i = length; i < sizeof leg->bytes; i++) EXPECT(leg->bytes[i] == 0);
    if (leg->length == PMB_ITEM_NONE) return 0;
    put(out, what);
    put(out, length == 0 ? " -" : " ");
    for (i = 0; i < length; i++) put_in(out, "%02llx", leg->bytes[i]);
    return 0;
}

static int put_text(text *out, const char *what, const pmb_short_text *it, size_t most)
{
    const size_t length = it->length == PMB_ITEM_NONE ? 0 : it->length;
    size_t i;
    EXPECT(length <= most);
    for (i = length; i < sizeof it->bytes; i++) EXPECT(it->bytes[i] == 0);
    if (it->length == PMB_ITEM_NONE) return 0;
    put(out, what);
    for (i = 0; i < length; i++) {
        const char one[2] = {it->bytes[i], 0};
        if (one[0] > 0x20 && one[0] < 0x7f) put(out, one);
        else put_in(out, "\\x%02llx", (unsigned char)one[0]);
    }
    return 0;
}

/* A line: the kind, `at`, the place, and each field that says something, by its name. */
static int put_item(text *out, const pmb_item *item)
{
    EXPECT(item->kind <= PMB_ITEM_BAD_TOKEN && item->assumed <= 1);
    put(out, kinds[item->kind]);
    put_in(out, " %lld", (long long)item->at);
    put_in(out, " %lld", (long long)item->line);
    put_in(out, ":%lld", (long long)item->column);
    if (put_text(out, " time ", &item->time, 40)) return 1;
    if (item->part != 0 || item->parts != 0) {
        put_in(out, " part %lld", (long long)item->part);
        put_in(out, "/%lld", (long long)item->parts);
    }
    put_number(out, " device %02llx", item->device);
    put_number(out, " code %02llx", item->code);
    put_selected(out, " page", item->page);
    put_selected(out, " phase", item->phase);
    put_number(out, " pec %lld", item->pec);
    put_number(out, " right_pec %02llx", item->right_pec);
    if (put_leg(out, " sent", &item->sent) || put_leg(out, " reply", &item->reply)) return 1;
    if (item->number != PMB_NUMBER_NONE) put_in(out, " number %lld", item->number);
    if (item->value.numerator != 0 || item->value.denominator != 0) {
        put_in(out, " value %lld", item->value.numerator);
        put_in(out, "/%lld", item->value.denominator);
    }
    if (item->assumed) put(out, " assumed");
    if (item->refused != 0) put_in(out, " refused %lld", item->refused);
    if (item->reason != 0) {
        char name[PMB_MOST_REASON_NAME + 1];
        size_t length;
        EXPECT(pmb_reason_name(item->reason, name, sizeof name, &length) == PMB_OK);
        put(out, " reason ");
        put(out, name);
    }
    if (item->expected != 0) put_in(out, " expected %lld", item->expected);
    if (item->got != 0) put_in(out, " got %lld", item->got);
    if (item->got == 1 << PMB_BYTE) put_in(out, " got_byte %02llx", item->got_byte);
    else EXPECT(item->got_byte == 0);
    if (put_text(out, " word ", &item->word, 32)) return 1;
    put(out, "\n");
    return 0;
}

/* ---- captures and their items */

static const char toml[] = "ignore = [0x50]\n"
                           "[[device]]\n"
                           "address = 0x58\n"
                           "pec = \"optional\"\n"
                           "[[device.command]]\n"
                           "code = 0xd0\n"
                           "name = \"RATIO\"\n"
                           "read = \"two\"\n"
                           "kind = \"direct\"\n"
                           "m = 3\n"
                           "b = 2\n"
                           "r = 1\n"
                           "[[device]]\n"
                           "address = 0x59\n"
                           "pec = \"off\"\n"
                           "pages = 2\n"
                           "phases = 2\n"
                           "vid = \"vr12\"\n";

static const pmb_choice choices[] = {{6, PMB_ALL_KNOWN, PMB_END},
                                     {12, PMB_ALL_KNOWN, PMB_GO_ON},
                                     {0, PMB_LATE, PMB_END},
                                     {6, PMB_LATE_FIXED_MODE, PMB_END}};
static const uint8_t devices[] = {0x59};

/* A capture, read with a choice, and of some devices only where `wanted` is not 0; and what is told. */
static const struct row {
    size_t choice, wanted;
    const char *capture, *items;
    uint64_t packets, refusals;
} rows[] = {
    {0, 0, "", "", 0, 0},
    /* A write with its packet error code: 1800h is 6144 steps of 1/512, by the profile's VOUT_MODE. */
    {0, 0, "# 1.5 s\nS b0 A 21 A 00 A 18 A f8 A P\n",
     "write 0 2:1 time 1.5 part 1/1 device 58 code 21 page 0 pec 1 sent 0018 number 1 value 12/1 assumed\n",
     1, 0},
    /* A group, with the longest time, and the same of one device. */
    {0, 0, "# 1234567890123456789012345678901234567890 s\nS b0 A 03 A S b2 A 03 A P\n",
     "write 0 2:1 time 1234567890123456789012345678901234567890 part 1/2 device 58 code 03 pec 0 sent -\n"
     "write 5 2:13 time 1234567890123456789012345678901234567890 part 2/2 device 59 code 03 pec 0 sent -\n",
     1, 0},
    {0, 1, "S b0 A 03 A S b2 A 03 A P\nS 19 N P\nS b0 A 03 A 47 A P\nS b0 X ",
     "write 5 1:13 part 2/2 device 59 code 03 pec 0 sent -\n"
     "alert 11 2:1\n"
     "bad_token 25 4:6 word X\n",
     2, 2},
    /* Reads: LINEAR11 with and without a code, 768/64 and -5/2; DIRECT, (100/10 - 2)/3; a status; blocks,
     * the second one empty. */
    {0, 0,
     "S b0 A 88 A S b1 A 00 A d3 A f6 N P\n"
     "S b0 A 8d A S b1 A fb A ff N P\n"
     "S b0 A d0 A S b1 A 64 A 00 N P\n"
     "S b0 A 79 A S b1 A 40 A 88 N P\n"
     "S b0 A 99 A S b1 A 03 A 50 A 4d A 42 N P\n"
     "S b0 A 99 A S b1 A 00 A 51 N P\n",
     "read 0 1:1 device 58 code 88 page 0 pec 1 reply 00d3 number 1 value 12/1\n"
     "read 15 2:1 device 58 code 8d page 0 pec 0 reply fbff number 1 value -5/2\n"
     "read 28 3:1 device 58 code d0 pec 0 reply 6400 number 1 value 8/3\n"
     "read 41 4:1 device 58 code 79 page 0 pec 0 reply 4088\n"
     "read 54 5:1 device 58 code 99 pec 0 reply 504d42\n"
     "read 71 6:1 device 58 code 99 pec 1 reply -\n",
     6, 0},
    /* Calls. */
    {0, 0, "S b0 A 1b A 01 A 7a A S b1 A 01 A 10 N P\nS b0 A 1b A 01 A 7a A S b1 A 01 A 10 A 7a N P\n",
     "call 0 1:1 device 58 code 1b pec 0 sent 7a reply 10\n"
     "call 17 2:1 device 58 code 1b pec 1 sent 7a reply 10\n",
     2, 0},
    /* What devices refuse: addresses, a code, packet error codes, another byte, to be read. */
    {0, 0,
     "S 40 N P\n"
     "S b2 A 03 A S 40 N P\n"
     "S b0 A c8 N P\n"
     "S b0 A 03 A 47 N P\n"
     "S b0 A 03 A 46 N P\n"
     "S b2 A 00 A 05 N P\n"
     "S b0 A 21 A S b1 N P\n",
     "refused 0 1:1 part 1/1 device 20 sent - refused 1\n"
     "write 4 2:1 part 1/2 device 59 code 03 pec 0 sent -\n"
     "refused 9 2:13 part 2/2 device 20 sent - refused 1\n"
     "refused 13 3:1 part 1/1 device 58 code c8 sent c8 refused 2\n"
     "refused 19 4:1 part 1/1 device 58 code 03 pec 0 right_pec 46 sent 0347 refused 3\n"
     "refused 27 5:1 part 1/1 device 58 code 03 pec 1 right_pec 46 sent 0346 refused 3\n"
     "refused 35 6:1 part 1/1 device 59 code 00 sent 0005 refused 3\n"
     "refused 43 7:1 part 1/1 device 58 code 21 page 0 sent 21 refused 4\n",
     7, 0},
    /* Alerts, and packets to an address that the profile ignores. */
    {0, 0, "S 19 A b0 A f3 N P\nS 19 A b0 N P\nS 19 N P\n# 2026-01-25T15\nS a0 A 00 A 10 A P\nS a1 N P\n",
     "alert 0 1:1 device 58 pec 1 reply b0\n"
     "alert 8 2:1 device 58 pec 0 reply b0\n"
     "alert 14 3:1\n"
     "other 19 5:3 time 2026-01-25T15 device 50\n"
     "other 27 6:3 device 50\n",
     3, 0},
    /* Each reason; START is 1, a byte 2, ACK 4, NACK 8, STOP 16. */
    {0, 0,
     "S b1 P\n"
     "S b0 A 03 A S b0 P\n"
     "S b0 A 88 A S b1 A 00 A d3 A f7 N P\n"
     "S b0 A 03 A 47 A P\n"
     "S 40 A P\n"
     "S b0 A c8 A P\n"
     "S b2 A 19 A S b3 A b0 A P\n"
     "S b0 A 88 A S b1 A 00 N P\n"
     "S b0 A 88 A 00 P\n"
     "P\n"
     "S b0 A 21 A 00",
     "refusal 1 1:3 reason ReadFirst expected 2 got 2 got_byte b1\n"
     "refusal 9 2:15 device 58 code 03 sent 03 reason BadRestart expected 2 got 2 got_byte b0\n"
     "refusal 23 3:30 device 58 code 88 page 0 right_pec f6 sent 88 reply 00d3 "
     "reason BadPec expected 2 got 2 got_byte f7\n"
     "refusal 32 4:16 device 58 code 03 right_pec 46 sent 0347 reason BadPec expected 8 got 4\n"
     "refusal 36 5:6 device 20 sent - reason UnknownDevice expected 8 got 4\n"
     "refusal 42 6:11 device 58 code c8 sent c8 reason UnknownCommand expected 8 got 4\n"
     "refusal 53 7:23 device 59 code 19 sent 19 reply b0 reason TooLong expected 8 got 4\n"
     "refusal 64 8:23 device 58 code 88 page 0 sent 88 reply 00 reason TooShort expected 4 got 8\n"
     "refusal 71 9:13 device 58 code 88 page 0 sent 88 reason WrongEvent expected 1 got 2 got_byte 00\n"
     "refusal 73 10:1 reason WrongEvent expected 1 got 16\n"
     "refusal 80 11:15 device 58 code 21 page 0 sent 2100 reason Truncated expected 12\n",
     0, 11},
    /* Words that are no token, in a packet with a time and between packets; the last one has 40 bytes. */
    {1, 0,
     "# 2 s\n"
     "S b0 hm A P\n"
     "S b0 A 03 A P xyz\n"
     "w\xff\" S\n"
     "0123456789abcdef0123456789ABCDEF01234567",
     "bad_token 2 2:6 time 2 word hm\n"
     "write 2 3:1 part 1/1 device 58 code 03 pec 0 sent -\n"
     "bad_token 8 3:15 word xyz\n"
     "bad_token 8 4:1 word w\\xff\"\n"
     "bad_token 8 5:1 word 0123456789abcdef0123456789ABCDEF\n",
     1, 4},
    /* Output voltages of a device without a VID table and without coefficients, by its VOUT_MODE: relative
     * and linear, 461/512; relative and VID; VID; DIRECT; half precision, an infinity and 1.5 times 8. */
    {0, 0,
     "S b0 A 20 A 97 A P\n"
     "S b0 A 43 A cd A 01 A P\n"
     "S b0 A 20 A a1 A P\n"
     "S b0 A 43 A 97 A 00 A P\n"
     "S b0 A 21 A 97 A 00 A P\n"
     "S b0 A 20 A 40 A P\n"
     "S b0 A 21 A 97 A 00 A P\n"
     "S b0 A 20 A 60 A P\n"
     "S b0 A 21 A 00 A 7c A P\n"
     "S b0 A 21 A 00 A 4a A P\n",
     "write 0 1:1 part 1/1 device 58 code 20 page 0 pec 0 sent 97\n"
     "write 8 2:1 part 1/1 device 58 code 43 page 0 pec 0 sent cd01 number 2 value 461/512\n"
     "write 18 3:1 part 1/1 device 58 code 20 page 0 pec 0 sent a1\n"
     "write 26 4:1 part 1/1 device 58 code 43 page 0 pec 0 sent 9700 number 6\n"
     "write 36 5:1 part 1/1 device 58 code 21 page 0 pec 0 sent 9700 number 5\n"
     "write 46 6:1 part 1/1 device 58 code 20 page 0 pec 0 sent 40\n"
     "write 54 7:1 part 1/1 device 58 code 21 page 0 pec 0 sent 9700 number 7\n"
     "write 64 8:1 part 1/1 device 58 code 20 page 0 pec 0 sent 60\n"
     "write 72 9:1 part 1/1 device 58 code 21 page 0 pec 0 sent 007c number 8\n"
     "write 82 10:1 part 1/1 device 58 code 21 page 0 pec 0 sent 004a number 1 value 12/1\n",
     10, 0},
    /* Pages and phases: the VID code 97h of VR12 is 1 V, 0 is off, 100h is no code; page 5 isn't there; the
     * pages differ in VOUT_MODE; LINEAR11 ca80h is 640/128. */
    {0, 0,
     "S b2 A 00 A 01 A P\n"
     "S b2 A 20 A 21 A P\n"
     "S b2 A 8b A S b3 A 97 A 00 N P\n"
     "S b2 A 8b A S b3 A 00 A 00 N P\n"
     "S b2 A 8b A S b3 A 00 A 01 N P\n"
     "S b2 A 00 A 05 A P\n"
     "S b2 A 8b A S b3 A 97 A 00 N P\n"
     "S b2 A 00 A ff A P\n"
     "S b2 A 8b A S b3 A 97 A 00 N P\n"
     "S b2 A 8c A S b3 A 80 A ca N P\n"
     "S b2 A 04 A 01 A P\n"
     "S b2 A 8c A S b3 A 80 A ca N P\n"
     "S b2 A 04 A ff A P\n"
     "S b2 A 8c A S b3 A 80 A ca N P\n",
     "write 0 1:1 part 1/1 device 59 code 00 pec 0 sent 01\n"
     "write 8 2:1 part 1/1 device 59 code 20 page 1 pec 0 sent 21\n"
     "read 16 3:1 device 59 code 8b page 1 pec 0 reply 9700 number 1 value 1/1\n"
     "read 29 4:1 device 59 code 8b page 1 pec 0 reply 0000 number 10\n"
     "read 42 5:1 device 59 code 8b page 1 pec 0 reply 0001 number 9\n"
     "write 55 6:1 part 1/1 device 59 code 00 pec 0 sent 05\n"
     "read 63 7:1 device 59 code 8b page 5 pec 0 reply 9700 number 4\n"
     "write 76 8:1 part 1/1 device 59 code 00 pec 0 sent ff\n"
     "read 84 9:1 device 59 code 8b page all pec 0 reply 9700 number 4\n"
     "read 97 10:1 device 59 code 8c page all phase ? pec 0 reply 80ca number 1 value 5/1\n"
     "write 110 11:1 part 1/1 device 59 code 04 page all pec 0 sent 01\n"
     "read 118 12:1 device 59 code 8c page all phase 1 pec 0 reply 80ca number 1 value 5/1\n"
     "write 131 13:1 part 1/1 device 59 code 04 page all pec 0 sent ff\n"
     "read 139 14:1 device 59 code 8c page all phase all pec 0 reply 80ca number 1 value 5/1\n",
     14, 0},
    /* A capture that begins in the middle, where VOUT_MODE isn't known, and where it is the profile's. */
    {2, 0, "S b2 A 8b A S b3 A 00 A 18 N P\n",
     "read 0 1:1 device 59 code 8b page ? pec 0 reply 0018 number 3\n", 1, 0},
    {3, 0, "S b2 A 8b A S b3 A 00 A 18 N P\n",
     "read 0 1:1 device 59 code 8b page ? pec 0 reply 0018 number 1 value 12/1 assumed\n", 1, 0},
};
#define ROWS (sizeof rows / sizeof *rows)

static int is_filled(const pmb_item *item)
{
    const unsigned char *bytes = (const unsigned char *)item;
    size_t i;
    for (i = 0; i < sizeof *item; i++)
        if (bytes[i] != '~') return 0;
    return 1;
}

/* A result that tells of no fault and no place. */
static int is_plain(const pmb_result *told)
{
    return told->fault == 0 && told->device == -1 && told->command == -1 && told->line == 0 &&
           told->column == 0;
}

static int is_closed(const pmb_result *told)
{
    return told->status == PMB_CLOSED && is_plain(told) && told->length == 0 && told->packets == 0 &&
           told->refusals == 0;
}

/* Takes each item that is ready; its text goes behind what was taken before. */
static int take(pmb_reader *reader, text *out, pmb_result *told)
{
    size_t left = 0, moved = 0;
    do {
        const int is_first = moved == 0;
        pmb_item item;
        memset(&item, '~', sizeof item);
        memset(told, '~', sizeof *told);
        moved = pmb_reader_next(reader, &item, told);
        EXPECT(is_first || told->length == left);
        EXPECT(is_plain(told) && moved == (told->length > 0));
        EXPECT(told->status == (told->length > 1 ? PMB_NO_ROOM : PMB_OK));
        left = told->length - moved;
        if (moved == 0) EXPECT(is_filled(&item));
        else if (put_item(out, &item)) return 1;
    } while (moved != 0);
    return 0;
}

/* Feeds pieces of a row's capture. `cut` is where it is cut in two; with a `seed` its pieces are drawn, or
 * are single bytes where that is 1. */
static int fed(pmb_profile *profile, const struct row *row, size_t cut, unsigned seed)
{
    static text out;
    const pmb_choice *choice = &choices[row->choice];
    const size_t size = strlen(row->capture);
    pmb_result told;
    pmb_reader reader = {0};
    size_t used = 0;
    int32_t status;
    out.length = 0;
    status = pmb_reader_open_items(&reader, profile, choice, row->wanted ? devices : NULL, row->wanted);
    EXPECT(status == PMB_OK);
    while (used < size) {
        size_t piece = seed == 0   ? (used < cut ? cut : size) - used
                       : seed == 1 ? 1
                                   : (seed = seed * 69069 + 1) >> 28;
        if (piece > size - used) piece = size - used;
        status = pmb_reader_feed(&reader, piece == 0 ? NULL : row->capture + used, piece);
        EXPECT(status == PMB_OK || (choice->bad_words == PMB_END && status == PMB_ENDED));
        used += piece;
        if ((cut + seed) % 2 == 1 && take(&reader, &out, &told)) return 1;
    }
    EXPECT(pmb_reader_feed(&reader, NULL, 0) == status);
    EXPECT(pmb_reader_end(&reader) == PMB_ENDED);
    if (take(&reader, &out, &told)) return 1;
    EXPECT(told.packets == row->packets && told.refusals == row->refusals);
    EXPECT(pmb_reader_feed(&reader, "S b0 P ", 7) == PMB_ENDED && pmb_reader_end(&reader) == PMB_ENDED);
    if (take(&reader, &out, &told)) return 1;
    EXPECT(told.length == 0 && told.packets == row->packets && told.refusals == row->refusals);
    pmb_reader_close(&reader);
    EXPECT(reader.held == NULL);
    out.bytes[out.length] = 0;
    if (strcmp(out.bytes, row->items) != 0) {
        fprintf(stderr, "items: wanted\n%sgot\n%s", row->items, out.bytes);
        return fail("other items", __LINE__);
    }
    return 0;
}

static int items(void)
{
    pmb_profile profile = {0};
    pmb_result told;
    size_t i, cut;
    unsigned seed;
    EXPECT(pmb_profile_open(&profile, toml, sizeof toml - 1, &told) == PMB_OK);
    for (i = 0; i < ROWS; i++) {
        for (cut = 0; cut <= strlen(rows[i].capture); cut++)
            if (fed(&profile, &rows[i], cut, 0)) return fail("cut in two", (int)cut);
        for (seed = 1; seed < 20; seed++)
            if (fed(&profile, &rows[i], 0, seed)) return fail("in pieces", (int)seed);
    }
    pmb_profile_close(&profile);
    return 0;
}

/* A block of 255 bytes: written, with a packet error code that is wrong and refused; and read. */
static int longest(void)
{
    static text capture;
    pmb_profile profile = {0};
    pmb_reader reader = {0};
    pmb_result told;
    pmb_item item;
    uint8_t covered[259] = {0xb0, 0x99, 0xff};
    int i;
    for (i = 0; i < 255; i++) covered[3 + i] = (uint8_t)(i * 7 + 1);
    covered[258] = (uint8_t)(pmb_pec(0, covered, 258) ^ 0x81);
    put(&capture, "S b0 A 99 A ff ");
    for (i = 3; i < 259; i++) put_in(&capture, "A %02llx ", covered[i]);
    put(&capture, "N P\nS b0 A 99 A S b1 A ff ");
    for (i = 3; i < 258; i++) put_in(&capture, "A %02llx ", covered[i]);
    put(&capture, "N P\n");
    EXPECT(pmb_profile_open(&profile, toml, sizeof toml - 1, &told) == PMB_OK);
    EXPECT(pmb_reader_open_items(&reader, &profile, choices, NULL, 0) == PMB_OK);
    EXPECT(pmb_reader_feed(&reader, capture.bytes, capture.length) == PMB_OK);
    EXPECT(pmb_reader_next(&reader, &item, &told) == 1 && told.status == PMB_NO_ROOM && told.length == 2);
    EXPECT(item.kind == PMB_ITEM_REFUSED && item.refused == PMB_REFUSED_BYTE && item.pec == 0);
    EXPECT(item.right_pec == (covered[258] ^ 0x81) && item.reply.length == PMB_ITEM_NONE);
    EXPECT(item.sent.length == 258 && memcmp(item.sent.bytes, covered + 1, 258) == 0);
    EXPECT(pmb_reader_next(&reader, &item, &told) == 1 && told.status == PMB_OK && told.length == 1);
    EXPECT(item.kind == PMB_ITEM_READ && item.sent.length == PMB_ITEM_NONE && item.at == 520);
    EXPECT(item.reply.length == 255 && memcmp(item.reply.bytes, covered + 3, 255) == 0);
    pmb_reader_close(&reader);
    pmb_profile_close(&profile);
    return 0;
}

/* ---- the names of reasons */

static int reasons(void)
{
    static const char *const names[] = {"ReadFirst",     "BadRestart",     "BadPec",
                                        "UnknownDevice", "UnknownCommand", "TooLong",
                                        "TooShort",      "WrongEvent",     "Truncated"};
    static const int32_t none[] = {0, PMB_REASON_TRUNCATED + 1, -1, 256, 257, INT32_MIN, INT32_MAX};
    char out[PMB_MOST_REASON_NAME + 2];
    size_t length, room, i;
    int32_t reason;
    for (reason = PMB_REASON_READ_FIRST; reason <= PMB_REASON_TRUNCATED; reason++) {
        const char *name = names[reason - 1];
        for (room = 0; room <= sizeof out; room++) {
            const int fits = room > strlen(name);
            int32_t status;
            memset(out, '~', sizeof out);
            status = pmb_reason_name(reason, room == 0 ? NULL : out, room, &length);
            EXPECT(status == (fits ? PMB_OK : PMB_NO_ROOM));
            EXPECT(length == strlen(name) && length <= PMB_MOST_REASON_NAME);
            EXPECT(fits ? strcmp(out, name) == 0 : out[0] == '~');
            EXPECT(out[sizeof out - 1] == '~' || room == sizeof out);
        }
    }
    for (i = 0; i < sizeof none / sizeof *none; i++) {
        memset(out, '~', sizeof out);
        length = 7;
        EXPECT(pmb_reason_name(none[i], out, sizeof out, &length) == PMB_NO_NAME);
        EXPECT(length == 0 && out[0] == '~');
    }
    return 0;
}

/* ---- closed handles, readers of the other kind, and handles of other things */

static int gives_nothing(pmb_reader *reader)
{
    pmb_item item;
    pmb_result told;
    memset(&item, '~', sizeof item);
    memset(&told, '~', sizeof told);
    EXPECT(pmb_reader_next(reader, &item, &told) == 0 && is_closed(&told) && is_filled(&item));
    return 0;
}

static int takes_nothing(pmb_reader *reader)
{
    char out[8] = "~~~~~~~";
    pmb_result told;
    memset(&told, '~', sizeof told);
    EXPECT(pmb_reader_take(reader, out, sizeof out, &told) == 0 && is_closed(&told));
    EXPECT(strcmp(out, "~~~~~~~") == 0);
    memset(&told, '~', sizeof told);
    EXPECT(pmb_reader_take(reader, NULL, 0, &told) == 0 && is_closed(&told));
    return 0;
}

static int kinds_of_readers(void)
{
    static const char packet[] = "S b0 A 03 A P\n";
    static const pmb_choice wrong[] = {{13, 0, 0}, {6, 3, 0}, {6, 0, 2}};
    static const uint8_t eight_bits[] = {0x58, 0xb0};
    pmb_profile profile = {0}, as_profile = {0};
    pmb_reader reader = {0}, other = {0};
    pmb_bus bus = {0};
    pmb_item item;
    pmb_result told;
    char out[512];
    size_t i;
    /* Closed ones. */
    EXPECT(pmb_reader_open_items(&reader, &profile, choices, NULL, 0) == PMB_CLOSED);
    EXPECT(reader.held == NULL);
    if (gives_nothing(&reader) || takes_nothing(&reader)) return 1;
    EXPECT(pmb_profile_open(&profile, toml, sizeof toml - 1, &told) == PMB_OK);
    for (i = 0; i < 3; i++) {
        EXPECT(pmb_reader_open_items(&reader, &profile, choices, NULL, 0) == PMB_OK);
        EXPECT(reader.held != NULL);
        EXPECT(pmb_reader_open_items(&reader, &profile, &wrong[i], NULL, 0)
               == (i == 0 ? PMB_BAD_DIGITS : PMB_BAD_CHOICE));
        EXPECT(reader.held == NULL);
    }
    EXPECT(pmb_reader_open_items(&reader, &profile, choices, eight_bits, 2) == PMB_BAD_DEVICE);
    EXPECT(pmb_reader_open_items(&reader, &profile, choices, eight_bits, 1) == PMB_OK);
    pmb_reader_close(&reader);
    pmb_reader_close(&reader);
    EXPECT(pmb_reader_feed(&reader, "S", 1) == PMB_CLOSED && pmb_reader_end(&reader) == PMB_CLOSED);
    if (gives_nothing(&reader)) return 1;
    /* A reader of each kind: the call of the other kind does nothing, and loses nothing. */
    EXPECT(pmb_reader_open_items(&reader, &profile, choices, NULL, 0) == PMB_OK);
    EXPECT(pmb_reader_open(&other, &profile, choices, NULL, 0) == PMB_OK);
    EXPECT(pmb_reader_feed(&reader, packet, sizeof packet - 1) == PMB_OK);
    EXPECT(pmb_reader_feed(&other, packet, sizeof packet - 1) == PMB_OK);
    if (takes_nothing(&reader) || gives_nothing(&other)) return 1;
    EXPECT(pmb_reader_next(&reader, &item, &told) == 1 && told.length == 1 && told.packets == 1);
    EXPECT(told.status == PMB_OK && item.kind == PMB_ITEM_WRITE && item.code == 0x03);
    EXPECT(pmb_reader_take(&other, out, sizeof out, &told) == told.length && told.length > 40);
    EXPECT(told.status == PMB_OK && memcmp(out, "{\"at\":0,", 8) == 0);
    /* At an end there are lines of counts, and no items of them. */
    EXPECT(pmb_reader_end(&reader) == PMB_ENDED && pmb_reader_end(&other) == PMB_ENDED);
    EXPECT(pmb_reader_next(&reader, &item, &told) == 0 && told.status == PMB_OK && told.packets == 1);
    EXPECT(pmb_reader_take(&other, out, sizeof out, &told) > 0);
    /* What is open is closed first, a reader of the other kind too. */
    EXPECT(pmb_reader_open(&reader, &profile, choices, NULL, 0) == PMB_OK);
    if (gives_nothing(&reader)) return 1;
    EXPECT(pmb_reader_take(&reader, out, sizeof out, &told) == 0 && told.status == PMB_OK);
    EXPECT(pmb_reader_open_items(&other, &profile, choices, NULL, 0) == PMB_OK);
    if (takes_nothing(&other)) return 1;
    EXPECT(pmb_reader_next(&other, &item, &told) == 0 && told.status == PMB_OK && told.packets == 0);
    /* An item is ready as soon as its last word has ended, also where the profile is closed and the reader
     * has moved. */
    pmb_profile_close(&profile);
    pmb_reader_close(&reader);
    reader.held = other.held;
    EXPECT(pmb_reader_feed(&reader, packet, sizeof packet - 2) == PMB_OK);
    EXPECT(pmb_reader_next(&reader, &item, &told) == 0 && told.status == PMB_OK && told.packets == 0);
    EXPECT(pmb_reader_feed(&reader, "\n", 1) == PMB_OK);
    EXPECT(pmb_reader_next(&reader, &item, &told) == 1 && told.packets == 1);
    /* Handles of other things. */
    EXPECT(pmb_profile_open(&profile, toml, sizeof toml - 1, &told) == PMB_OK);
    EXPECT(pmb_bus_open(&bus, &profile) == PMB_OK);
    other.held = bus.held;
    if (gives_nothing(&other) || takes_nothing(&other)) return 1;
    EXPECT(pmb_reader_feed(&other, "S", 1) == PMB_CLOSED && pmb_reader_end(&other) == PMB_CLOSED);
    bus.held = other.held;
    other.held = profile.held;
    if (gives_nothing(&other)) return 1;
    profile.held = other.held;
    other.held = NULL;
    as_profile.held = reader.held;
    EXPECT(pmb_profile_show(&as_profile, "S", 1, out, sizeof out, &told) == 0 && is_closed(&told));
    EXPECT(pmb_reader_open_items(&other, &as_profile, choices, NULL, 0) == PMB_CLOSED);
    reader.held = as_profile.held;
    EXPECT(pmb_reader_next(&reader, &item, &told) == 0 && told.status == PMB_OK && told.packets == 1);
    pmb_bus_close(&bus);
    pmb_reader_close(&reader);
    pmb_profile_close(&profile);
    return 0;
}

/* ---- each allocation refused */

#ifdef REFUSES
/* A round in which the allocation of the number `refused` is refused. */
static int refused_round(const struct row *row, int *was_whole)
{
    static text out;
    pmb_profile profile = {0};
    pmb_reader reader = {0};
    pmb_result told;
    size_t i;
    const size_t size = strlen(row->capture);
    int32_t status;
    out.length = 0;
    counting = 1;
    *was_whole = 0;
    status = pmb_profile_open(&profile, toml, sizeof toml - 1, &told);
    EXPECT(status == PMB_OK || (status == PMB_NO_MEMORY && !profile.held));
    if (status == PMB_OK) {
        status = pmb_reader_open_items(&reader, &profile, &choices[row->choice], devices, row->wanted);
        EXPECT(status == PMB_OK || (status == PMB_NO_MEMORY && !reader.held));
        if (status == PMB_OK) {
            for (i = 0; i < size && status == PMB_OK; i += 40)
                status = pmb_reader_feed(&reader, row->capture + i, size - i < 40 ? size - i : 40);
            if (status == PMB_OK) status = pmb_reader_end(&reader);
            EXPECT(status == PMB_ENDED || status == PMB_OK || status == PMB_NO_MEMORY);
            if (take(&reader, &out, &told)) return 1;
            /* What is taken is a front of the right items. */
            EXPECT(out.length <= strlen(row->items) && memcmp(out.bytes, row->items, out.length) == 0);
            if (status == PMB_NO_MEMORY) {
                EXPECT(pmb_reader_feed(&reader, "S", 1) == PMB_NO_MEMORY);
            } else {
                EXPECT(out.length == strlen(row->items));
                *was_whole = 1;
            }
        }
    }
    pmb_reader_close(&reader);
    pmb_profile_close(&profile);
    counting = 0;
    EXPECT(live == 0);
    return 0;
}

static int refusals(void)
{
    int was_whole = 0;
    size_t i;
    for (i = 0; i < ROWS; i++) {
        for (later = 0; later < 2; later++) {
            for (refused = 1;; refused++) {
                allocations = 0;
                if (refused_round(&rows[i], &was_whole)) return fail("a refused allocation", (int)refused);
                if (allocations < refused) break;
            }
            EXPECT(refused > 10 && was_whole);
        }
    }
    refused = 0;
    return 0;
}
#endif

int main(void)
{
    if (items() || longest() || reasons() || kinds_of_readers()) return 1;
#ifdef REFUSES
    if (refusals()) return 1;
#endif
    (void)counting, (void)later, (void)allocations, (void)live, (void)refused;
    return 0;
}
