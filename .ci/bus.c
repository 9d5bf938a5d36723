/* Calls the functions of pmb.h over a bus of simulated devices: messages one by one and as transfers,
 * requests, and what was logged of them; closed handles, those of another kind, and threads; and, with
 * REFUSES defined and the linker's --wrap of malloc, realloc and free, with each allocation refused. Then it
 * also counts them, and writes the figures of memory that docs/devices.md has. What is expected is worked out
 * by docs/devices.md and docs/requests.md. C99 and C++. */
#include <pthread.h>
#include <stdio.h>
#include <stdlib.h>
#include <string.h>

#include "pmb.h"

#define THREADS 4
#define MOST 8192
#ifndef STACK
#define STACK (1 << 20)
#endif

/* The errors of Linux that a message can have. */
#define NO_DEVICE (-6)
#define NOT_OPEN (-9)
#define NO_MEMORY (-12)
#define INVALID (-22)
#define BAD_COUNT (-71)
#define BAD_FLAGS (-95)
#define REFUSED (-121)

static int fail(const char *what, int line)
{
    fprintf(stderr, "bus: line %d: %s\n", line, what);
    return 1;
}

#define EXPECT(holds)                                                                              \
    do {                                                                                           \
        if (!(holds)) return fail(#holds, __LINE__);                                               \
    } while (0)

#include "allocations.h"

/* Two of the devices of the sample profile. VOUT_MODE 17h: steps of 2^-9 V. */
static const char toml[] = "[[device]]\n"
                           "address = 0x58\n"
                           "pec = \"optional\"\n"
                           "pages = 2\n"
                           "vout_mode = 0x17\n"
                           "[[device.command]]\n"
                           "name = \"READ_VIN\"\n"
                           "initial = \"00d3\"\n"
                           "[[device]]\n"
                           "address = 0x59\n"
                           "pec = \"off\"\n";

static int is_status(const pmb_result *told, int32_t status)
{
    return told->status == status && told->fault == 0 && told->device == -1 && told->command == -1 &&
           told->length == 0 && told->packets == 0 && told->refusals == 0 && told->line == 0 &&
           told->column == 0;
}

static int open_bus(pmb_bus *bus)
{
    pmb_profile profile = {0};
    pmb_result told;
    EXPECT(pmb_profile_open(&profile, toml, sizeof toml - 1, &told) == PMB_OK);
    EXPECT(pmb_bus_open(bus, &profile) == PMB_OK && bus->held != NULL);
    /* It may be closed before the bus. */
    pmb_profile_close(&profile);
    return 0;
}

/* Takes what was logged, which is this text. */
static int logged(pmb_bus *bus, const char *text)
{
    char out[MOST];
    pmb_result told;
    const size_t size = strlen(text);
    memset(out, '~', sizeof out);
    if (pmb_bus_events(bus, out, MOST - 1, &told) != size || memcmp(out, text, size) != 0 ||
        out[size] != '~') {
        fprintf(stderr, "bus: logged %.*s, and not %s\n", (int)told.length, out, text);
        return 1;
    }
    EXPECT(told.status == PMB_OK && told.length == size && told.fault == 0 && told.device == -1);
    return 0;
}

/* ---- messages */

/* A message: the bytes that are written or read; whether STOP comes; what is returned, and logged. */
static const struct row {
    uint16_t address, flags;
    const char *bytes; /* of two digits each */
    uint8_t last;
    int32_t returned;
    const char *events;
} rows[] = {
    /* A register is written, and read with a repeated START. */
    {0x58, PMB_WRITE, "210018", 1, 0, "S b0 A 21 A 00 A 18 A P\n"},
    {0x58, PMB_WRITE, "21", 0, 0, "S b0 A 21 A "},
    {0x58, PMB_READ, "0018", 1, 0, "S b1 A 00 A 18 N P\n"},
    /* The packet error code of a reply, f6h, and after it bytes that no device gives. */
    {0x58, PMB_WRITE, "88", 0, 0, "S b0 A 88 A "},
    {0x58, PMB_READ, "00d3f6", 1, 0, "S b1 A 00 A d3 A f6 N P\n"},
    {0x58, PMB_WRITE, "88", 0, 0, "S b0 A 88 A "},
    {0x58, PMB_READ, "00d3f6ffff", 1, 0, "S b1 A 00 A d3 A f6 A ff A ff N P\n"},
    /* A block by its count, without and with a packet error code. */
    {0x58, PMB_WRITE, "9903414243", 1, 0, "S b0 A 99 A 03 A 41 A 42 A 43 A P\n"},
    {0x58, PMB_WRITE, "99", 0, 0, "S b0 A 99 A "},
    {0x58, PMB_READ_BLOCK, "03414243", 1, 0, "S b1 A 03 A 41 A 42 A 43 N P\n"},
    {0x58, PMB_WRITE, "99", 0, 0, "S b0 A 99 A "},
    {0x58, PMB_READ_BLOCK, "0341424327", 1, 0, "S b1 A 03 A 41 A 42 A 43 A 27 N P\n"},
    /* Counts of 0, of 40h and of 33. */
    {0x58, PMB_WRITE, "9a", 0, 0, "S b0 A 9a A "},
    {0x58, PMB_READ_BLOCK, "", 1, BAD_COUNT, "S b1 A 00 N P\n"},
    {0x58, PMB_WRITE, "214018", 1, 0, "S b0 A 21 A 40 A 18 A P\n"},
    {0x58, PMB_WRITE, "21", 0, 0, "S b0 A 21 A "},
    {0x58, PMB_READ_BLOCK, "", 0, BAD_COUNT, "S b1 A 40 N P\n"},
    {0x58, PMB_WRITE, "212118", 1, 0, "S b0 A 21 A 21 A 18 A P\n"},
    {0x58, PMB_WRITE, "21", 0, 0, "S b0 A 21 A "},
    {0x58, PMB_READ_BLOCK, "", 1, BAD_COUNT, "S b1 A 21 N P\n"},
    /* Quick commands. An address for reading gets ACK only where a reply is due. */
    {0x58, PMB_WRITE, "", 1, 0, "S b0 A P\n"},
    {0x58, PMB_READ, "", 1, NO_DEVICE, "S b1 N P\n"},
    {0x58, PMB_WRITE, "88", 0, 0, "S b0 A 88 A "},
    {0x58, PMB_READ, "", 1, 0, "S b1 A P\n"},
    /* No device, also where another message was to come. */
    {0x20, PMB_WRITE, "00", 1, NO_DEVICE, "S 40 N P\n"},
    {0x20, PMB_READ, "eeee", 0, NO_DEVICE, "S 41 N P\n"},
    {0x20, PMB_READ_BLOCK, "", 1, NO_DEVICE, "S 41 N P\n"},
    {0x7f, PMB_WRITE, "00", 1, NO_DEVICE, "S fe N P\n"},
    /* A value of PAGE, and a code, that the device refuses: no byte after it is sent. */
    {0x58, PMB_WRITE, "0005", 1, REFUSED, "S b0 A 00 A 05 N P\n"},
    {0x58, PMB_WRITE, "c80000", 0, REFUSED, "S b0 A c8 N P\n"},
    /* STATUS_CML has BAD_COMMAND of the code, and BAD_VALUE of the value. */
    {0x58, PMB_WRITE, "7e", 0, 0, "S b0 A 7e A "},
    {0x58, PMB_READ, "c0", 1, 0, "S b1 A c0 N P\n"},
    /* A register of each page. */
    {0x58, PMB_WRITE, "0001", 1, 0, "S b0 A 00 A 01 A P\n"},
    {0x58, PMB_WRITE, "213412", 1, 0, "S b0 A 21 A 34 A 12 A P\n"},
    {0x58, PMB_WRITE, "0000", 1, 0, "S b0 A 00 A 00 A P\n"},
    {0x58, PMB_WRITE, "21", 0, 0, "S b0 A 21 A "},
    {0x58, PMB_READ, "2118", 1, 0, "S b1 A 21 A 18 N P\n"},
    {0x58, PMB_WRITE, "0001", 1, 0, "S b0 A 00 A 01 A P\n"},
    {0x58, PMB_WRITE, "21", 0, 0, "S b0 A 21 A "},
    {0x58, PMB_READ, "3412", 255, 0, "S b1 A 34 A 12 N P\n"},
    /* A group. */
    {0x58, PMB_WRITE, "210020", 0, 0, "S b0 A 21 A 00 A 20 A "},
    {0x59, PMB_WRITE, "03", 1, 0, "S b2 A 03 A P\n"},
};
#define ROWS (sizeof rows / sizeof *rows)

static size_t bytes_of(const char *digits, uint8_t *bytes)
{
    size_t count = 0;
    unsigned byte;
    for (; sscanf(digits + 2 * count, "%2x", &byte) == 1; count++) bytes[count] = (uint8_t)byte;
    return count;
}

static int sent(pmb_bus *bus, const struct row *row)
{
    uint8_t right[64], bytes[64];
    const size_t count = bytes_of(row->bytes, right);
    const int is_block = row->flags == PMB_READ_BLOCK;
    size_t length = count, room = count;
    memset(bytes, 0xee, sizeof bytes);
    if (row->flags == PMB_WRITE) memcpy(bytes, right, count);
    if (is_block) length = count > 1 ? count - 1 - right[0] : 0;
    if (is_block) room = 33 + length;
    EXPECT(pmb_bus_message(bus, row->address, row->flags, bytes, room, &length, row->last) ==
           row->returned);
    EXPECT(memcmp(bytes, right, count) == 0 && bytes[count] == 0xee);
    EXPECT(length == count);
    return logged(bus, row->events);
}

static int messages(void)
{
    pmb_bus bus = {0};
    size_t i;
    if (open_bus(&bus)) return 1;
    for (i = 0; i < ROWS; i++)
        if (sent(&bus, &rows[i])) return fail("a message, by its place among the rows", (int)i);
    /* It may be moved. */
    {
        pmb_bus moved = bus;
        bus.held = NULL;
        EXPECT(pmb_bus_message(&bus, 0x58, PMB_WRITE, NULL, 0, &i, 1) == NOT_OPEN);
        if (sent(&moved, &rows[0])) return 1;
        bus = moved;
    }
    /* What is open is closed first: the devices are new. */
    if (open_bus(&bus)) return 1;
    if (logged(&bus, "")) return 1;
    {
        static const struct row again[] = {
            {0x58, PMB_WRITE, "21", 0, 0, "S b0 A 21 A "},
            {0x58, PMB_READ, "0000", 1, 0, "S b1 A 00 A 00 N P\n"}};
        if (sent(&bus, &again[0]) || sent(&bus, &again[1])) return 1;
    }
    pmb_bus_close(&bus);
    EXPECT(bus.held == NULL);
    pmb_bus_close(&bus);
    return 0;
}

/* What is wrong with a message, so that nothing is sent. */
static int unsent(void)
{
    static const struct {
        uint16_t address, flags;
        size_t room, length;
        int32_t returned;
    } wrong[] = {
        {0x80, PMB_WRITE, 2, 2, INVALID},         {0xb0, PMB_READ, 2, 2, INVALID},
        {0xffff, PMB_READ_BLOCK, 34, 1, INVALID}, {0x158, PMB_WRITE, 2, 2, INVALID},
        {0x58, PMB_WRITE, 2, 3, INVALID},         {0x58, PMB_READ, 0, 1, INVALID},
        {0x58, PMB_READ_BLOCK, 32, 0, INVALID},   {0x58, PMB_READ_BLOCK, 33, 1, INVALID},
        {0x58, PMB_READ_BLOCK, 64, 32, INVALID},  {0x58, PMB_READ_BLOCK, 64, SIZE_MAX, INVALID},
        {0x58, PMB_READ, 64, SIZE_MAX, INVALID},  {0x58, 0x0400, 64, 0, BAD_FLAGS},
        {0x58, 0x0010, 2, 2, BAD_FLAGS},          {0x58, 0x0003, 2, 2, BAD_FLAGS},
        {0x58, 0x4000, 2, 2, BAD_FLAGS},          {0x58, 0x8401, 64, 0, BAD_FLAGS},
    };
    pmb_bus bus = {0};
    size_t i, k;
    if (open_bus(&bus)) return 1;
    for (i = 0; i < sizeof wrong / sizeof *wrong; i++) {
        uint8_t bytes[64];
        size_t length = wrong[i].length;
        memset(bytes, 0x21, sizeof bytes);
        EXPECT(pmb_bus_message(&bus, wrong[i].address, wrong[i].flags, bytes, wrong[i].room, &length,
                               1) == wrong[i].returned);
        EXPECT(length == wrong[i].length);
        for (k = 0; k < sizeof bytes; k++) EXPECT(bytes[k] == 0x21);
        if (logged(&bus, "")) return 1;
    }
    pmb_bus_close(&bus);
    return 0;
}

/* ---- transfers */

static int transfers(void)
{
    uint8_t code[] = {0x21, 0x00, 0x18}, word[2], block[35], nothing[1] = {0xee};
    pmb_message some[3];
    pmb_bus bus = {0};
    pmb_result told;
    if (open_bus(&bus)) return 1;
    memset(some, 0, sizeof some);
    EXPECT(pmb_bus_transfer(&bus, NULL, 0) == 0);
    some[0].address = some[1].address = some[2].address = 0x58;
    some[0].length = sizeof code, some[0].bytes = code;
    EXPECT(pmb_bus_transfer(&bus, some, 1) == 1);
    if (logged(&bus, "S b0 A 21 A 00 A 18 A P\n")) return 1;
    some[0].length = 1;
    some[1].flags = PMB_READ, some[1].length = sizeof word, some[1].bytes = word;
    EXPECT(pmb_bus_transfer(&bus, some, 2) == 2);
    EXPECT(word[0] == 0x00 && word[1] == 0x18);
    if (logged(&bus, "S b0 A 21 A S b1 A 00 A 18 N P\n")) return 1;
    /* A block with its packet error code. The command has an empty one at first. */
    code[0] = 0x99, code[1] = 0x01, code[2] = 0x41, some[0].length = 3;
    EXPECT(pmb_bus_transfer(&bus, some, 1) == 1);
    some[0].length = 1;
    some[1].flags = PMB_READ_BLOCK, some[1].length = 34, some[1].bytes = block, block[0] = 2;
    EXPECT(pmb_bus_transfer(&bus, some, 2) == 2);
    EXPECT(some[1].length == 3 && block[0] == 0x01 && block[1] == 0x41);
    EXPECT(block[2] == pmb_pec(0, (const uint8_t *)"\xb0\x99\xb1\x01\x41", 5));
    {
        char out[MOST], right[MOST];
        const size_t size = (size_t)sprintf(right, "S b0 A 99 A 01 A 41 A P\n"
                                                   "S b0 A 99 A S b1 A 01 A 41 A %02x N P\n", block[2]);
        EXPECT(pmb_bus_events(&bus, out, MOST, &told) == size && memcmp(out, right, size) == 0);
    }
    some[1].length = 33, block[0] = 1;
    EXPECT(pmb_bus_transfer(&bus, some, 2) == 2 && some[1].length == 2 && block[1] == 0x41);
    if (logged(&bus, "S b0 A 99 A S b1 A 01 A 41 N P\n")) return 1;
    /* The first that fails ends it, with STOP; those after it are not sent. */
    some[0].address = 0x20, some[1].length = 33;
    EXPECT(pmb_bus_transfer(&bus, some, 2) == NO_DEVICE && some[1].length == 33);
    if (logged(&bus, "S 40 N P\n")) return 1;
    some[0].address = 0x58, code[0] = 0xc8, code[1] = 0x00, some[0].length = 2;
    EXPECT(pmb_bus_transfer(&bus, some, 2) == REFUSED);
    if (logged(&bus, "S b0 A c8 N P\n")) return 1;
    code[0] = 0x9a, some[0].length = 1, some[1].length = 33, block[0] = 1;
    some[2].length = 1, some[2].bytes = nothing;
    EXPECT(pmb_bus_transfer(&bus, some, 3) == BAD_COUNT && some[1].length == 33);
    if (logged(&bus, "S b0 A 9a A S b1 A 00 N P\n")) return 1;
    /* Nothing is sent where one of them is wrong, and the transfer is over. */
    block[0] = 0;
    EXPECT(pmb_bus_transfer(&bus, some, 3) == INVALID);
    block[0] = 2;
    EXPECT(pmb_bus_transfer(&bus, some, 3) == INVALID);
    some[1].length = 0;
    EXPECT(pmb_bus_transfer(&bus, some, 3) == INVALID);
    some[1].length = 33, block[0] = 1, some[2].flags = 0x0400;
    EXPECT(pmb_bus_transfer(&bus, some, 3) == BAD_FLAGS);
    some[2].flags = PMB_READ, some[2].address = 0x80;
    EXPECT(pmb_bus_transfer(&bus, some, 3) == INVALID);
    some[2].address = 0x58, some[2].length = 8193;
    EXPECT(pmb_bus_transfer(&bus, some, 3) == INVALID);
    EXPECT(pmb_bus_transfer(&bus, some, (size_t)1 << 32) == INVALID);
    if (logged(&bus, "")) return 1;
    EXPECT(pmb_bus_request(&bus, "read 59 79", 10, &told) == PMB_OK && told.packets == 1);
    pmb_bus_close(&bus);
    EXPECT(pmb_bus_transfer(&bus, some, 1) == NOT_OPEN);
    return 0;
}

/* ---- requests */

static int asked(pmb_bus *bus, const char *line, uint64_t done, uint64_t failed, const char *text)
{
    pmb_result told;
    EXPECT(pmb_bus_request(bus, line, strlen(line), &told) == PMB_OK);
    EXPECT(told.status == PMB_OK && told.packets == done && told.refusals == failed);
    EXPECT(told.fault == 0 && told.device == -1 && told.command == -1);
    if (logged(bus, text)) return fail(line, __LINE__);
    return 0;
}

static int requests(void)
{
    uint8_t byte[3] = {0x21, 0, 0};
    size_t length = 1;
    pmb_result told;
    pmb_bus bus = {0};
    if (open_bus(&bus)) return 1;
    if (asked(&bus, "get 58 88", 1, 0, "S b0 A 88 A S b1 A 00 A d3 N P\n# 12\n") ||
        /* 3.3 * 512 is 1689.6: 1690, 069ah */
        asked(&bus, "set 58 21 3.3", 1, 0, "S b0 A 21 A 9a A 06 A P\n# done\n") ||
        asked(&bus, "read 58 21", 1, 0, "S b0 A 21 A S b1 A 9a A 06 N P\n# 9a 06\n") ||
        asked(&bus, "write 58 00 02", 0, 1, "S b0 A 00 A 02 N P\n# refused: leg 1 byte 2\n") ||
        asked(&bus, "read 59 7e # as it is", 1, 0, "S b2 A 7e A S b3 A 00 N P\n# 00\n") ||
        asked(&bus, "", 0, 0, "") || asked(&bus, "# nothing", 0, 0, ""))
        return 1;
    /* What messages write is followed: page 1, and there VOUT_MODE 18h, in steps of 2^-8 V. */
    {
        static const struct row writes[] = {{0x58, PMB_WRITE, "0001", 1, 0, "S b0 A 00 A 01 A P\n"},
                                            {0x58, PMB_WRITE, "2018", 1, 0, "S b0 A 20 A 18 A P\n"}};
        if (sent(&bus, &writes[0]) || sent(&bus, &writes[1])) return 1;
    }
    if (asked(&bus, "set 58 21 1", 1, 0, "S b0 A 21 A 00 A 01 A P\n# done\n") ||
        asked(&bus, "get 58 21", 1, 0, "S b0 A 21 A S b1 A 00 A 01 N P\n# 1\n"))
        return 1;
    /* None is taken while a transfer is under way. */
    EXPECT(pmb_bus_message(&bus, 0x58, PMB_WRITE, byte, 1, &length, 0) == 0);
    EXPECT(pmb_bus_request(&bus, "get 58 88", 9, &told) == PMB_BUSY && is_status(&told, PMB_BUSY));
    if (logged(&bus, "S b0 A 21 A ")) return 1;
    EXPECT(pmb_bus_request(&bus, "get 58 88", 9, &told) == PMB_BUSY && is_status(&told, PMB_BUSY));
    length = 2;
    EXPECT(pmb_bus_message(&bus, 0x58, PMB_READ, byte, 3, &length, 1) == 0);
    EXPECT(byte[0] == 0x00 && byte[1] == 0x01 && byte[2] == 0x00);
    if (asked(&bus, "get 58 88", 1, 0, "S b1 A 00 A 01 N P\nS b0 A 88 A S b1 A 00 A d3 N P\n# 12\n"))
        return 1;
    pmb_bus_close(&bus);
    return 0;
}

/* A bus that got requests alone has logged what pmb_run writes of them. */
static int as_run(void)
{
    static const char *const lines[] = {"set 58 21 3.3 pec", "get 58 21 pec",   "write 58 00 02",
                                        "hm",                "call 58 30 21 1", "get 59 79",
                                        "write 58 00 01 + 59 03", "set 58 21 128"};
    char input[MOST], right[MOST], out[MOST];
    pmb_result expected, told;
    pmb_bus bus = {0};
    size_t i, size = 0, done = 0, failed = 0;
    if (open_bus(&bus)) return 1;
    for (i = 0; i < sizeof lines / sizeof *lines; i++) {
        size += (size_t)sprintf(input + size, "%s\n", lines[i]);
        EXPECT(pmb_bus_request(&bus, lines[i], strlen(lines[i]), &told) == PMB_OK);
        done += told.packets, failed += told.refusals;
    }
    size = pmb_run(toml, sizeof toml - 1, input, size, right, MOST, &expected);
    EXPECT(done == expected.packets && failed == expected.refusals && done == 3 && failed == 5);
    EXPECT(pmb_bus_events(&bus, out, MOST, &told) == size && memcmp(out, right, size) == 0);
    pmb_bus_close(&bus);
    return 0;
}

/* The longest request: a group of 16 blocks of 255 bytes, each with a packet error code. On the wire each
 * part has START, the address, the code, the count, its bytes and the packet error code, and each of these
 * 259 bytes has ACK: 2 + 259 * 5 characters. */
static int longest(void)
{
    static char devices[1024], line[16384], out[1 << 15];
    const size_t all = 16 * (2 + 259 * 5) + 2 + 7;
    pmb_profile profile = {0};
    pmb_bus bus = {0};
    pmb_result told;
    size_t size = 0, used = 0;
    int i, k;
    for (i = 0; i < 16; i++) {
        size += (size_t)sprintf(devices + size, "[[device]]\naddress = %d\npec = \"on\"\n", 16 + i);
        used += (size_t)sprintf(line + used, "%s %02x 99", i > 0 ? " +" : "write", 16u + (unsigned)i);
        for (k = 0; k < 255; k++) used += (size_t)sprintf(line + used, " 41");
        used += (size_t)sprintf(line + used, " pec");
    }
    EXPECT(pmb_profile_open(&profile, devices, size, &told) == PMB_OK);
    EXPECT(pmb_bus_open(&bus, &profile) == PMB_OK);
    pmb_profile_close(&profile);
    for (i = 0; i < 3; i++) {
        EXPECT(pmb_bus_request(&bus, line, used, &told) == PMB_OK);
        EXPECT(told.packets == 1 && told.refusals == 0);
        EXPECT(pmb_bus_events(&bus, out, sizeof out, &told) == all && told.status == PMB_OK);
        EXPECT(memcmp(out, "S 20 A 99 A ff A 41 A 41 A ", 27) == 0);
        EXPECT(memcmp(out + all - 9, "P\n# done\n", 9) == 0);
    }
    pmb_bus_close(&bus);
    return 0;
}

/* ---- what was logged, in pieces */

static int pieces(void)
{
    static const char right[] = "S b0 A 88 A S b1 A 00 A d3 N P\n# 12\nS b0 A 03 A P\n# done\n";
    const size_t size = sizeof right - 1;
    size_t step;
    for (step = 1; step <= size + 1; step++) {
        char out[sizeof right + 8];
        size_t used = 0, moved;
        pmb_result told;
        pmb_bus bus = {0};
        if (open_bus(&bus)) return 1;
        EXPECT(pmb_bus_request(&bus, "get 58 88", 9, &told) == PMB_OK);
        EXPECT(pmb_bus_events(&bus, NULL, 0, &told) == 0 && told.status == PMB_NO_ROOM);
        EXPECT(told.length == size - 21);
        moved = pmb_bus_events(&bus, out, step < 8 ? step : 8, &told);
        EXPECT(moved == (step < 8 ? step : 8) && told.length == size - 21);
        used += moved;
        /* What comes later stands after what was left. */
        EXPECT(pmb_bus_request(&bus, "write 58 03", 11, &told) == PMB_OK);
        do {
            memset(out + used, '~', sizeof out - used);
            moved = pmb_bus_events(&bus, out + used, step < sizeof out - used ? step : sizeof out - used,
                                   &told);
            EXPECT(told.length == size - used && out[used + moved] == '~');
            used += moved;
            EXPECT(told.status == (used < size ? PMB_NO_ROOM : PMB_OK));
        } while (moved > 0 && used < size);
        EXPECT(used == size && memcmp(out, right, size) == 0);
        if (logged(&bus, "")) return 1;
        pmb_bus_close(&bus);
    }
    return 0;
}

/* ---- closed handles, and those of another kind */

/* What each call does with a handle that holds no bus. */
static int holds_none(pmb_bus *bus)
{
    uint8_t bytes[34] = {0x21};
    char out[8] = "~~~~~~~";
    size_t length = 1;
    pmb_result told;
    EXPECT(pmb_bus_message(bus, 0x58, PMB_WRITE, bytes, 1, &length, 1) == NOT_OPEN);
    EXPECT(pmb_bus_message(bus, 0x58, PMB_READ, bytes, 1, &length, 1) == NOT_OPEN);
    EXPECT(pmb_bus_message(bus, 0x58, PMB_READ_BLOCK, bytes, 34, &length, 1) == NOT_OPEN);
    EXPECT(length == 1 && bytes[0] == 0x21 && bytes[1] == 0);
    EXPECT(pmb_bus_request(bus, "get 58 88", 9, &told) == PMB_CLOSED && is_status(&told, PMB_CLOSED));
    EXPECT(pmb_bus_events(bus, out, sizeof out, &told) == 0 && is_status(&told, PMB_CLOSED));
    EXPECT(memcmp(out, "~~~~~~~", 8) == 0);
    return 0;
}

static int closed(void)
{
    static const pmb_choice choice = {6, PMB_ALL_KNOWN, PMB_END};
    pmb_profile profile = {0}, as_profile;
    pmb_reader reader = {0}, as_reader;
    pmb_bus bus = {0}, wrong;
    pmb_result told;
    char out[8] = "~~~~~~~";
    if (holds_none(&bus)) return 1;
    pmb_bus_close(&bus);
    EXPECT(pmb_bus_open(&bus, &profile) == PMB_CLOSED && bus.held == NULL);
    /* A closed profile closes what was open. */
    if (open_bus(&bus)) return 1;
    EXPECT(pmb_bus_open(&bus, &profile) == PMB_CLOSED && bus.held == NULL);
    /* Handles whose types were mixed up. */
    EXPECT(pmb_profile_open(&profile, toml, sizeof toml - 1, &told) == PMB_OK);
    wrong.held = profile.held;
    if (holds_none(&wrong)) return 1;
    profile.held = wrong.held;
    EXPECT(pmb_reader_open(&reader, &profile, &choice, NULL, 0) == PMB_OK);
    wrong.held = reader.held;
    if (holds_none(&wrong)) return 1;
    reader.held = wrong.held;
    if (open_bus(&bus)) return 1;
    as_profile.held = bus.held;
    EXPECT(pmb_profile_show(&as_profile, "S", 1, out, sizeof out, &told) == 0);
    EXPECT(is_status(&told, PMB_CLOSED) && memcmp(out, "~~~~~~~", 8) == 0);
    {
        pmb_bus other = {0};
        EXPECT(pmb_bus_open(&other, &as_profile) == PMB_CLOSED && other.held == NULL);
    }
    as_reader.held = as_profile.held;
    EXPECT(pmb_reader_feed(&as_reader, "S", 1) == PMB_CLOSED);
    bus.held = as_reader.held;
    if (sent(&bus, &rows[0])) return 1;
    pmb_bus_close(&bus);
    pmb_reader_close(&reader);
    pmb_profile_close(&profile);
    return 0;
}

/* ---- each allocation refused */

#ifdef REFUSES
/* What was sent, as it is to be logged. */
struct told {
    char right[MOST];
    size_t size;
};

static void tells(struct told *all, const char *text)
{
    all->size += (size_t)sprintf(all->right + all->size, "%s", text);
}

/* A round on a bus, in which the allocation of the number `refused` is refused: all that was sent is
 * logged, and nothing of what was refused. */
static int refused_round(int *was_whole)
{
    static struct told all;
    pmb_profile profile = {0};
    pmb_bus bus = {0};
    pmb_result told;
    char out[MOST];
    size_t length = 0;
    int32_t status;
    int i;
    all.size = 0;
    counting = 1;
    *was_whole = 0;
    status = pmb_profile_open(&profile, toml, sizeof toml - 1, &told);
    if (status == PMB_OK) status = pmb_bus_open(&bus, &profile);
    EXPECT(status == PMB_OK || (status == PMB_NO_MEMORY && bus.held == NULL));
    if (status == PMB_OK) {
        *was_whole = 1;
        for (i = 0; i < 40; i++) {
            uint8_t bytes[] = {0x21, 0x00, 0x18};
            length = sizeof bytes;
            status = pmb_bus_message(&bus, 0x58, PMB_WRITE, bytes, sizeof bytes, &length, 1);
            EXPECT(status == 0 || status == NO_MEMORY);
            if (status == 0) tells(&all, "S b0 A 21 A 00 A 18 A P\n");
            if (status != 0) *was_whole = 0;
            status = pmb_bus_request(&bus, "get 58 88", 9, &told);
            EXPECT(status == told.status && (status == PMB_OK || is_status(&told, PMB_NO_MEMORY)));
            if (status == PMB_OK) tells(&all, "S b0 A 88 A S b1 A 00 A d3 N P\n# 12\n");
            if (status != PMB_OK) *was_whole = 0;
        }
        length = pmb_bus_events(&bus, out, MOST, &told);
        EXPECT(told.status == PMB_OK && length == all.size && memcmp(out, all.right, length) == 0);
    }
    pmb_bus_close(&bus);
    pmb_profile_close(&profile);
    counting = 0;
    EXPECT(live == 0);
    return 0;
}

static int refusals(void)
{
    int was_whole = 0;
    for (later = 0; later < 2; later++) {
        for (refused = 1;; refused++) {
            allocations = 0;
            if (refused_round(&was_whole)) return fail("a refused allocation", (int)refused);
            if (allocations < refused) break;
        }
        EXPECT(refused > 10 && was_whole);
    }
    refused = 0;
    return 0;
}
#endif

/* ---- how much memory is taken */

#ifdef REFUSES
/* A profile of so many devices with so many pages each. A device has so many commands with a register for all
 * pages, and one that has a register for each. */
static size_t profile_of(char *text, int devices, int pages, int commands)
{
    size_t size = (size_t)sprintf(text, "device = [");
    int i, k;
    for (i = 0; i < devices; i++) {
        size += (size_t)sprintf(text + size, "{ address = %d, pages = %d, pec = 'off', ", 16 + i, pages);
        size += (size_t)sprintf(text + size, "standard = false, command = [");
        for (k = 0; k < commands; k++)
            size += (size_t)sprintf(text + size, "{ code = %d, read = 'one' },", 208 + k);
        size += (size_t)sprintf(text + size, "{ code = 207, read = 'two', paged = true }] },");
    }
    return size + (size_t)sprintf(text + size, "]\n");
}

/* Calls of each kind take memory for text that waits alone: none once there was as much of it before. */
static int calls_take_none(pmb_bus *bus)
{
    static const char *const lines[] = {
        "read 10 cf", "get 10 cf", "set 10 cf 1", "write 10 cf 01 02", "call 10 cf 01 02", "hm",
    };
    char out[MOST];
    pmb_result told;
    int turn;
    for (turn = 0; turn < 3; turn++) {
        uint8_t bytes[40] = {207};
        size_t i, length = 1;
        allocations = 0;
        EXPECT(pmb_bus_message(bus, 16, PMB_WRITE, bytes, 1, &length, 0) != NO_MEMORY);
        length = 2;
        EXPECT(pmb_bus_message(bus, 16, PMB_READ, bytes, 2, &length, 1) != NO_MEMORY);
        length = 0;
        EXPECT(pmb_bus_message(bus, 16, PMB_READ_BLOCK, bytes, 34, &length, 1) != NO_MEMORY);
        for (i = 0; i < sizeof lines / sizeof *lines; i++)
            EXPECT(pmb_bus_request(bus, lines[i], strlen(lines[i]), &told) == PMB_OK);
        EXPECT(pmb_bus_events(bus, out, MOST, &told) > 0 && told.status == PMB_OK);
        EXPECT(turn == 0 || allocations == 0);
    }
    return 0;
}

/* Opens a bus: how many allocations that takes, and how many bytes. */
static int opened(const char *text, size_t size, long *count, size_t *bytes)
{
    pmb_profile profile = {0};
    pmb_bus bus = {0};
    pmb_result told;
    EXPECT(pmb_profile_open(&profile, text, size, &told) == PMB_OK);
    allocations = 0, asked_for = 0, counting = 1;
    EXPECT(pmb_bus_open(&bus, &profile) == PMB_OK);
    *count = allocations, *bytes = asked_for;
    if (calls_take_none(&bus)) return 1;
    pmb_bus_close(&bus);
    counting = 0;
    pmb_profile_close(&profile);
    return 0;
}

static int opened_with(int devices, int pages, int commands, long *count, size_t *bytes)
{
    static char text[1 << 16];
    return opened(text, profile_of(text, devices, pages, commands), count, bytes);
}

/* How many bytes a bus of 64 devices with all standard commands takes. */
static int standard(int pages, size_t *bytes)
{
    static char text[1 << 16];
    size_t size = 0;
    long count;
    int i;
    for (i = 0; i < 64; i++)
        size += (size_t)sprintf(text + size, "[[device]]\naddress = %d\npec = 'off'\npages = %d\n", 16 + i,
                                pages);
    return opened(text, size, &count, bytes);
}

/* A bus takes memory once for the registers of each device and once for the devices, beside what one without
 * devices takes; and each register takes the same. */
static int memory(void)
{
    static const int sizes[][2] = {{1, 1}, {1, 2}, {1, 32}, {2, 1}, {3, 5}, {5, 3}, {64, 1}, {64, 32}};
    long none, count, more_count;
    size_t bytes, more, each = 0, i;
    if (opened_with(0, 1, 0, &none, &bytes)) return 1;
    for (i = 0; i < sizeof sizes / sizeof *sizes; i++) {
        const int devices = sizes[i][0], pages = sizes[i][1];
        if (opened_with(devices, pages, 1, &count, &bytes)) return 1;
        EXPECT(count == none + devices + 1);
        if (opened_with(devices, pages, 3, &more_count, &more)) return 1;
        if (i == 0) each = (more - bytes) / 2;
        EXPECT(more_count == count && more == bytes + 2 * each * (size_t)devices);
        if (pages == 1) continue;
        if (opened_with(devices, pages - 1, 3, &more_count, &bytes)) return 1;
        EXPECT(more_count == count && more == bytes + each * (size_t)devices);
    }
    if (standard(1, &bytes) || standard(32, &more)) return 1;
    printf("%zu bytes, %zu MB, %zu MB\n", each, (bytes + 500000) / 1000000, (more + 500000) / 1000000);
    return 0;
}
#endif

/* ---- threads */

static void *one_thread(void *given)
{
    pmb_bus *mine = (pmb_bus *)given;
    int failed = 0, turn;
    size_t i;
    for (turn = 0; turn < 20 && !failed; turn++) {
        failed = asked(mine, "write 58 00 00", 1, 0, "S b0 A 00 A 00 A P\n# done\n") ||
                 asked(mine, "write 58 03", 1, 0, "S b0 A 03 A P\n# done\n");
        for (i = 0; i < ROWS && !failed; i++) failed = sent(mine, &rows[i]);
    }
    pmb_bus_close(mine);
    return failed ? given : NULL;
}

static int threads(void)
{
    pmb_profile profile = {0};
    pmb_bus buses[THREADS];
    pthread_t thread[THREADS];
    pthread_attr_t attributes;
    pmb_result told;
    int i, failed = 0;
    EXPECT(pmb_profile_open(&profile, toml, sizeof toml - 1, &told) == PMB_OK);
    EXPECT(pthread_attr_init(&attributes) == 0);
    EXPECT(pthread_attr_setstacksize(&attributes, STACK) == 0);
    for (i = 0; i < THREADS; i++) {
        buses[i].held = NULL;
        EXPECT(pmb_bus_open(&buses[i], &profile) == PMB_OK);
        EXPECT(pthread_create(&thread[i], &attributes, one_thread, &buses[i]) == 0);
    }
    pmb_profile_close(&profile);
    for (i = 0; i < THREADS; i++) {
        void *result;
        EXPECT(pthread_join(thread[i], &result) == 0);
        failed |= result != NULL;
    }
    EXPECT(pthread_attr_destroy(&attributes) == 0);
    return failed;
}

int main(void)
{
    if (messages() || unsent() || transfers() || requests() || as_run() || longest() || pieces() ||
        closed() || threads())
        return 1;
#ifdef REFUSES
    if (refusals() || memory()) return 1;
#endif
    (void)counting, (void)later, (void)allocations, (void)live, (void)refused;
    return 0;
}
