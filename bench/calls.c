/* The calls of pmb.h that bench/kinds counts, each as a row of bench/kinds.txt.
 *
 *     calls             the rows: how many of what is named the call does, and the name
 *     calls NAME        prepares a row, and does its call once, inside `counted`
 *
 * The profiles are in the files `one` and `many` of the working folder: one device, and 64 with 40
 * commands of their own each. The status is 1 where a call does not do what it should. */
#include <fcntl.h>
#include <stdio.h>
#include <stdlib.h>
#include <string.h>
#include <unistd.h>

#include "pmb.h"

#define MOST (1 << 20)
#define TIMES 100

/* A write and a read of 58h, with their packet error codes. */
#define PACKET "S b0 A 21 A 00 A 18 A f8 A P\n"
#define EVENTS 12
static const char packet[] = PACKET;
static const char line[] = "write 58 21 00 18 pec\n";
static const char request[] = "set 58 21 12 pec\n";
static const char recording[] = "a-1 [000] 1.000100: i2c_write: i2c-3 #0 a=058 f=0000 l=4 [21-00-18-f8]\n"
                                "a-1 [000] 1.000200: i2c_result: i2c-3 n=1 ret=1\n";
static const char faulty[] = "[[device]]\naddress = 0x58\npec = \"optional\"\n[[device.command]]\nnmae = \"READ_VIN\"\n";
static const pmb_choice choice = {6, PMB_ALL_KNOWN, PMB_END};

static char one[MOST], many[MOST], out[MOST];
static size_t one_length, many_length;
static pmb_profile profile, other;
static pmb_reader reader;
static pmb_bus bus;
static pmb_result told;
static pmb_item item;

/* ---- what is prepared */

static int nothing(void) { return 1; }
static int open_one(void) { return pmb_profile_open(&profile, one, one_length, &told) == PMB_OK; }
static int open_many(void) { return pmb_profile_open(&profile, many, many_length, &told) == PMB_OK; }

static int feed(int objects)
{
    const int fed = pmb_reader_feed(&reader, packet, sizeof packet - 1) == PMB_OK;
    if (objects) return fed && pmb_reader_take(&reader, out, MOST, &told) > 0 && told.status == PMB_OK;
    return fed && pmb_reader_next(&reader, &item, &told) == 1;
}

static int open_reader(void)
{
    return open_one() && pmb_reader_open(&reader, &profile, &choice, NULL, 0) == PMB_OK && feed(1);
}

static int open_items(void)
{
    return open_one() && pmb_reader_open_items(&reader, &profile, &choice, NULL, 0) == PMB_OK && feed(0);
}

/* A transfer as a driver has it: a word is written to a device, or read. */
static int transfer(uint16_t address, int is_read)
{
    static uint8_t word[] = {0x21, 0x00, 0x18}, reply[2];
    pmb_message write = {0, PMB_WRITE, 3, NULL};
    pmb_message both[] = {{0, PMB_WRITE, 1, NULL}, {0, PMB_READ, 2, NULL}};
    write.address = both[0].address = both[1].address = address;
    write.bytes = both[0].bytes = word;
    both[1].bytes = reply;
    return is_read ? pmb_bus_transfer(&bus, both, 2) == 2 : pmb_bus_transfer(&bus, &write, 1) == 1;
}

/* What was logged is taken, so that there is room for what comes. */
static int open_bus(void)
{
    if (pmb_bus_open(&bus, &profile) != PMB_OK || !transfer(0x58, 0)) return 0;
    return pmb_bus_events(&bus, out, MOST, &told) > 0;
}

static int bus_of_one(void) { return open_one() && open_bus(); }
static int bus_of_many(void) { return open_many() && open_bus(); }

/* ---- whole inputs, by the text of a profile and by its handle */

static int show(void) { return pmb_show(one, one_length, packet, sizeof packet - 1, out, MOST, &told) > 0; }
static int show_many(void) { return pmb_show(many, many_length, packet, sizeof packet - 1, out, MOST, &told) > 0; }
static int check(void) { return pmb_check(one, one_length, packet, sizeof packet - 1, out, MOST, &told) > 0; }
static int build(void) { return pmb_build(one, one_length, line, sizeof line - 1, out, MOST, &told) > 0; }
static int run(void) { return pmb_run(one, one_length, request, sizeof request - 1, out, MOST, &told) > 0; }

static int json(void)
{
    return pmb_json(one, one_length, packet, sizeof packet - 1, &choice, NULL, 0, out, MOST, &told) > 0;
}

static int import(void)
{
    static const pmb_recorder recorder = {0, PMB_KERNEL, 0, 0};
    pmb_import(&recorder, NULL, 0, recording, sizeof recording - 1, out, MOST, &told);
    return told.packets == 1 && told.refusals == 0;
}

static int fault(void) { return pmb_profile_fault(faulty, sizeof faulty - 1, out, MOST, &told) > 0; }
static int share(void) { return pmb_profile_share(&profile, &other) == PMB_OK; }

static int close_profile(void)
{
    pmb_profile_close(&profile);
    return profile.held == NULL;
}

static int profile_show(void) { return pmb_profile_show(&profile, packet, sizeof packet - 1, out, MOST, &told) > 0; }
static int profile_check(void) { return pmb_profile_check(&profile, packet, sizeof packet - 1, out, MOST, &told) > 0; }
static int profile_build(void) { return pmb_profile_build(&profile, line, sizeof line - 1, out, MOST, &told) > 0; }
static int profile_run(void) { return pmb_profile_run(&profile, "get 58 21\n", 10, out, MOST, &told) > 0; }

static int profile_json(void)
{
    return pmb_profile_json(&profile, packet, sizeof packet - 1, &choice, NULL, 0, out, MOST, &told) > 0;
}

/* ---- readers */

static int reader_open(void) { return pmb_reader_open(&reader, &profile, &choice, NULL, 0) == PMB_OK; }
static int items_open(void) { return pmb_reader_open_items(&reader, &profile, &choice, NULL, 0) == PMB_OK; }

static int feed_and_take(void)
{
    int i, ok = 1;
    for (i = 0; i < TIMES; i++) ok &= feed(1);
    return ok;
}

static int feed_and_next(void)
{
    int i, ok = 1;
    for (i = 0; i < TIMES; i++) ok &= feed(0);
    return ok;
}

static int reader_end(void) { return pmb_reader_end(&reader) == PMB_ENDED; }

static int reader_close(void)
{
    pmb_reader_close(&reader);
    return reader.held == NULL;
}

/* ---- buses */

static int bus_open(void) { return pmb_bus_open(&bus, &profile) == PMB_OK; }

static int bus_writes(void)
{
    int i, ok = 1;
    for (i = 0; i < TIMES; i++) ok &= transfer(0x58, 0);
    return ok;
}

static int bus_reads(void)
{
    int i, ok = 1;
    for (i = 0; i < TIMES; i++) ok &= transfer(0x58, 1);
    return ok;
}

static int nobody(void) { return transfer(0x7f, 0) == 0; }

static int bus_requests(void)
{
    int i, ok = 1;
    for (i = 0; i < TIMES; i++)
        ok &= pmb_bus_request(&bus, "get 58 21", 9, &told) == PMB_OK && told.refusals == 0;
    return ok;
}

static int logged(void) { return bus_of_one() && bus_writes(); }
static int bus_events(void) { return pmb_bus_events(&bus, out, MOST, &told) > TIMES; }

static int bus_close(void)
{
    pmb_bus_close(&bus);
    return bus.held == NULL;
}

/* ---- the first part of pmb.h: TIMES calls each */

static const pmb_format formats[] = {
    {PMB_LINEAR11, 0, 0, 0, 0, 0}, {PMB_ULINEAR16, -9, 0, 0, 0, 0}, {PMB_DIRECT, 0, 0, 1, 3, 2},
    {PMB_HALF, 0, 0, 0, 0, 0},     {PMB_VID_TABLE, 0, PMB_VID_VR12, 0, 0, 0},
};

static int encode(int format)
{
    int i, ok = 1;
    uint16_t code;
    for (i = 0; i < TIMES; i++) {
        const pmb_quantity quantity = {300 + i, 301};
        ok &= pmb_encode(&formats[format], quantity, &code) == PMB_OK;
    }
    return ok;
}

static int decode(int format)
{
    int i, ok = 1;
    pmb_quantity quantity;
    for (i = 0; i < TIMES; i++) ok &= pmb_decode(&formats[format], (uint16_t)(i + 1), &quantity) == PMB_OK;
    return ok;
}

static int encode_linear11(void) { return encode(0); }
static int encode_ulinear16(void) { return encode(1); }
static int encode_direct(void) { return encode(2); }
static int encode_half(void) { return encode(3); }
static int encode_vid(void) { return encode(4); }
static int decode_linear11(void) { return decode(0); }
static int decode_ulinear16(void) { return decode(1); }
static int decode_direct(void) { return decode(2); }
static int decode_half(void) { return decode(3); }
static int decode_vid(void) { return decode(4); }

static int parse(void)
{
    int i, ok = 1;
    pmb_quantity quantity;
    for (i = 0; i < TIMES; i++) ok &= pmb_quantity_parse("-12.0625", 8, &quantity) == PMB_OK;
    return ok;
}

static int text(void)
{
    int i, ok = 1;
    size_t length;
    for (i = 0; i < TIMES; i++) {
        const pmb_quantity quantity = {300 + i, 512};
        ok &= pmb_quantity_text(quantity, out, MOST, &length) == PMB_OK;
    }
    return ok;
}

static int names(void)
{
    int ok = 1, code;
    size_t length;
    for (code = 0x20; code < 0x2c; code++) ok &= pmb_command_name((uint8_t)code, out, MOST, &length) == PMB_OK;
    for (code = 8; code < 16; code++) ok &= pmb_bit_name(0x79, (uint8_t)code, out, MOST, &length) == PMB_OK;
    for (code = 0; code < 16; code++) ok &= pmb_status_name(code, out, MOST, &length) == PMB_OK;
    for (code = 1; code < 10; code++) ok &= pmb_reason_name(code, out, MOST, &length) == PMB_OK;
    return ok;
}

static int pec(void)
{
    static uint8_t bytes[TIMES];
    return pmb_pec(1, bytes, TIMES) != 0;
}

static int pec_next(void)
{
    int i;
    uint8_t code = 1;
    for (i = 0; i < TIMES; i++) code = pmb_pec_next(code, 0);
    return code != 0;
}

static int lex(void)
{
    int i, ok = 1;
    for (i = 0; i < TIMES; i++) {
        pmb_lexer lexer = {0};
        pmb_event event;
        size_t used, at = 0;
        int n = 0;
        while (pmb_lex(&lexer, packet + at, sizeof packet - 1 - at, &used, &event) == PMB_OK) at += used, n++;
        ok &= n == EVENTS && pmb_lex_end(&lexer, &event) == PMB_NO_EVENT;
    }
    return ok;
}

/* ---- the rows */

typedef int step(void);
static const struct row {
    const char *name;
    int count;
    step *prepare, *call;
} rows[] = {
    {"pmb_show: one packet", 1, nothing, show},
    {"pmb_show: one packet, 64 devices", 1, nothing, show_many},
    {"pmb_check: one packet", 1, nothing, check},
    {"pmb_json: one packet", 1, nothing, json},
    {"pmb_build: one line", 1, nothing, build},
    {"pmb_run: one request", 1, nothing, run},
    {"pmb_import: one packet", 1, nothing, import},
    {"pmb_profile_fault", 1, nothing, fault},
    {"pmb_profile_open: one device", 1, nothing, open_one},
    {"pmb_profile_open: 64 devices", 1, nothing, open_many},
    {"pmb_profile_share", 1, open_one, share},
    {"pmb_profile_close: one device", 1, open_one, close_profile},
    {"pmb_profile_close: 64 devices", 1, open_many, close_profile},
    {"pmb_profile_show: one packet", 1, open_one, profile_show},
    {"pmb_profile_check: one packet", 1, open_one, profile_check},
    {"pmb_profile_json: one packet", 1, open_one, profile_json},
    {"pmb_profile_build: one line", 1, open_one, profile_build},
    {"pmb_profile_run: one request", 1, open_one, profile_run},
    {"pmb_profile_show: one packet, 64 devices", 1, open_many, profile_show},
    {"pmb_profile_json: one packet, 64 devices", 1, open_many, profile_json},
    {"pmb_profile_run: one request, 64 devices", 1, open_many, profile_run},
    {"pmb_reader_open", 1, open_one, reader_open},
    {"pmb_reader_open: 64 devices", 1, open_many, reader_open},
    {"pmb_reader_open_items", 1, open_one, items_open},
    {"pmb_reader_feed and _take: a packet", TIMES, open_reader, feed_and_take},
    {"pmb_reader_feed and _next: a packet", TIMES, open_items, feed_and_next},
    {"pmb_reader_end", 1, open_reader, reader_end},
    {"pmb_reader_close", 1, open_reader, reader_close},
    {"pmb_bus_open: one device", 1, open_one, bus_open},
    {"pmb_bus_open: 64 devices", 1, open_many, bus_open},
    {"pmb_bus_transfer: write word, one device", TIMES, bus_of_one, bus_writes},
    {"pmb_bus_transfer: write word, 64 devices", TIMES, bus_of_many, bus_writes},
    {"pmb_bus_transfer: read word, one device", TIMES, bus_of_one, bus_reads},
    {"pmb_bus_transfer: read word, 64 devices", TIMES, bus_of_many, bus_reads},
    {"pmb_bus_transfer: nobody there, 64 devices", 1, bus_of_many, nobody},
    {"pmb_bus_request: get, one device", TIMES, bus_of_one, bus_requests},
    {"pmb_bus_request: get, 64 devices", TIMES, bus_of_many, bus_requests},
    {"pmb_bus_events: a write word", TIMES, logged, bus_events},
    {"pmb_bus_close: one device", 1, bus_of_one, bus_close},
    {"pmb_encode: LINEAR11", TIMES, nothing, encode_linear11},
    {"pmb_encode: ULINEAR16", TIMES, nothing, encode_ulinear16},
    {"pmb_encode: DIRECT", TIMES, nothing, encode_direct},
    {"pmb_encode: half", TIMES, nothing, encode_half},
    {"pmb_encode: VID", TIMES, nothing, encode_vid},
    {"pmb_decode: LINEAR11", TIMES, nothing, decode_linear11},
    {"pmb_decode: ULINEAR16", TIMES, nothing, decode_ulinear16},
    {"pmb_decode: DIRECT", TIMES, nothing, decode_direct},
    {"pmb_decode: half", TIMES, nothing, decode_half},
    {"pmb_decode: VID", TIMES, nothing, decode_vid},
    {"pmb_quantity_parse", TIMES, nothing, parse},
    {"pmb_quantity_text", TIMES, nothing, text},
    {"pmb_command_name and other names", 12 + 8 + 16 + 9, nothing, names},
    {"pmb_pec: a byte", TIMES, nothing, pec},
    {"pmb_pec_next: a byte", TIMES, nothing, pec_next},
    {"pmb_lex: an event", TIMES * EVENTS, nothing, lex},
};
#define ROWS (sizeof rows / sizeof *rows)

/* valgrind counts what runs in here. */
__attribute__((noinline)) int counted(const struct row *row)
{
    return row->call();
}

/* (stdio would leave memory on the heap, as much as the file system likes) */
static size_t read_file(const char *name, char *text)
{
    const int file = open(name, O_RDONLY);
    size_t length = 0;
    ssize_t more = 0;
    while (file >= 0 && (more = read(file, text + length, MOST - length)) > 0) length += (size_t)more;
    if (file >= 0) close(file);
    return more < 0 ? 0 : length;
}

int main(int words, char **word)
{
    size_t i;
    /* (so that the heap's own start is not counted as a call's) */
    void *volatile first = malloc(1);
    free(first);
    one_length = read_file("one", one);
    many_length = read_file("many", many);
    for (i = 0; i < ROWS; i++) {
        if (words == 1) printf("%d %s\n", rows[i].count, rows[i].name);
        else if (strcmp(word[1], rows[i].name) == 0)
            return !(one_length && many_length && rows[i].prepare() && counted(&rows[i]));
    }
    return words != 1;
}
