/* Tries a driver on simulated devices: it sends messages as a driver of Linux does, and prints what was
 * on the wire.
 *
 *     cc -std=c99 -Iinclude examples/c/bus.c release/libpmb.a -o bus
 *     ./bus
 *
 * On a board `pmb_bus_transfer` is the driver's function, or the I2C_RDWR of /dev/i2c-N. */
#include <stdio.h>
#include <string.h>

#include "pmb.h"

enum { VOUT_COMMAND = 0x21, READ_VIN = 0x88, MFR_ID = 0x99 };

static const char devices[] = "[[device]]\n"
                              "address = 0x58\n"
                              "pec = \"optional\"\n"
                              "vout_mode = 0x17\n"
                              "[[device.command]]\n"
                              "name = \"READ_VIN\"\n"
                              "initial = \"00d3\"\n"
                              "[[device.command]]\n"
                              "name = \"MFR_ID\"\n"
                              "initial = \"414243\"\n";

/* ---- the driver: each returns 0, or an error of Linux */

/* Reads a word, and checks the packet error code after it. */
static int32_t read_word(pmb_bus *bus, uint8_t address, uint8_t command, uint16_t *word)
{
    uint8_t reply[3] = {0}, crc;
    pmb_message both[] = {{address, PMB_WRITE, 1, &command}, {address, PMB_READ, 3, reply}};
    const int32_t done = pmb_bus_transfer(bus, both, 2);
    if (done < 0) return done;
    crc = pmb_pec_next(0, (uint8_t)(address << 1));
    crc = pmb_pec_next(crc, command);
    crc = pmb_pec_next(crc, (uint8_t)(address << 1 | 1));
    *word = (uint16_t)(reply[0] | reply[1] << 8);
    return pmb_pec(crc, reply, 3) == 0 ? 0 : -74;
}

static int32_t write_word(pmb_bus *bus, uint8_t address, uint8_t command, uint16_t word)
{
    uint8_t bytes[] = {command, (uint8_t)word, (uint8_t)(word >> 8)};
    pmb_message one = {address, PMB_WRITE, sizeof bytes, bytes};
    const int32_t done = pmb_bus_transfer(bus, &one, 1);
    return done < 0 ? done : 0;
}

/* Reads a block of up to 32 bytes, as the SMBus calls of Linux do, and tells its length. */
static int32_t read_block(pmb_bus *bus, uint8_t address, uint8_t command, uint8_t *block, size_t *length)
{
    uint8_t reply[33] = {1};
    pmb_message both[] = {{address, PMB_WRITE, 1, &command}, {address, PMB_READ_BLOCK, 33, reply}};
    const int32_t done = pmb_bus_transfer(bus, both, 2);
    if (done < 0) return done;
    *length = reply[0];
    memcpy(block, reply + 1, *length);
    return 0;
}

/* ---- what it does, and what was on the wire */

static int drive(pmb_bus *bus)
{
    static const pmb_format linear11 = {PMB_LINEAR11, 0, 0, 0, 0, 0};
    static const pmb_format vout = {PMB_VOUT, 0, 0x17, 0, 0, 0};
    char text[PMB_MOST_QUANTITY_TEXT + 1];
    const pmb_quantity wanted = {12, 10};
    pmb_quantity volts;
    uint8_t name[32];
    uint16_t word;
    size_t length;
    int32_t error = read_word(bus, 0x58, READ_VIN, &word);
    if (error != 0 || pmb_decode(&linear11, word, &volts) != PMB_OK) return 1;
    pmb_quantity_text(volts, text, sizeof text, &length);
    printf("input: %s V\n", text);
    if (read_block(bus, 0x58, MFR_ID, name, &length) != 0) return 1;
    printf("made by: %.*s\n", (int)length, (const char *)name);
    if (pmb_encode(&vout, wanted, &word) != PMB_OK) return 1;
    if (write_word(bus, 0x58, VOUT_COMMAND, word) != 0) return 1;
    /* -6 is ENXIO: no device took the address. */
    error = read_word(bus, 0x59, READ_VIN, &word);
    printf("59h: error %d\n", (int)-error);
    return 0;
}

int main(void)
{
    static const char request[] = "get 58 21";
    static char events[4096], lines[4096];
    pmb_profile profile = {0};
    pmb_bus bus = {0};
    pmb_result told;
    size_t length;
    if (pmb_profile_open(&profile, devices, sizeof devices - 1, &told) != PMB_OK) return 1;
    if (pmb_bus_open(&bus, &profile) != PMB_OK || drive(&bus) != 0) return 1;
    /* A request, as `pmb run` has it, tells what a register came to. */
    if (pmb_bus_request(&bus, request, sizeof request - 1, &told) != PMB_OK) return 1;
    length = pmb_bus_events(&bus, events, sizeof events, &told);
    printf("%.*s", (int)length, events);
    length = pmb_profile_show(&profile, events, length, lines, sizeof lines, &told);
    printf("%.*s", (int)length, lines);
    pmb_bus_close(&bus);
    pmb_profile_close(&profile);
    return 0;
}
