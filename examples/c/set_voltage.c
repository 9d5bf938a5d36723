/* Sets an output voltage, reads it back and checks the packet error codes, as firmware does: no
 * memory from the heap, no files, one function that moves bytes over the bus.
 *
 *     cc -std=c99 -Iinclude examples/c/set_voltage.c release/libpmb.a -o set_voltage
 *     ./set_voltage
 *
 * The bus here is a stand-in for a converter at 58h whose VOUT_MODE is 17h. On a board,
 * `bus_transfer` is the driver's function. */
#include <stdio.h>
#include <string.h>

#include "pmb.h"

enum { ADDRESS = 0x58, VOUT_MODE = 0x20, VOUT_COMMAND = 0x21, MOST = 8 };

/* ---- the bus: writes bytes to a device and then reads bytes from it; 0 where it acknowledged */

static uint8_t registers[256][2];

static int bus_transfer(uint8_t address, const uint8_t *out, size_t out_length, uint8_t *in,
                        size_t in_length)
{
    const uint8_t write_address = (uint8_t)(address << 1);
    uint8_t crc;
    if (address != ADDRESS || out_length == 0) return -1;
    crc = pmb_pec(pmb_pec_next(0, write_address), out, out_length);
    if (in_length == 0) {
        /* (a device refuses a packet whose error code is wrong) */
        if (crc != 0) return -1;
        memcpy(registers[out[0]], out + 1, out_length - 2);
        return 0;
    }
    memcpy(in, registers[out[0]], in_length - 1);
    crc = pmb_pec_next(crc, (uint8_t)(write_address | 1));
    in[in_length - 1] = pmb_pec(crc, in, in_length - 1);
    return 0;
}

/* ---- the driver */

/* Writes so many bytes to a command, with a packet error code. */
static int write_bytes(uint8_t command, const uint8_t *data, size_t length)
{
    uint8_t packet[MOST + 2];
    if (length > MOST) return -1;
    packet[0] = command;
    memcpy(packet + 1, data, length);
    packet[length + 1] = pmb_pec(pmb_pec_next(0, ADDRESS << 1), packet, length + 1);
    return bus_transfer(ADDRESS, packet, length + 2, NULL, 0);
}

/* Reads so many bytes of a command, and checks the packet error code after them. */
static int read_bytes(uint8_t command, uint8_t *data, size_t length)
{
    uint8_t reply[MOST + 1], crc;
    if (length > MOST || bus_transfer(ADDRESS, &command, 1, reply, length + 1) != 0) return -1;
    crc = pmb_pec_next(0, ADDRESS << 1);
    crc = pmb_pec_next(crc, command);
    crc = pmb_pec_next(crc, (ADDRESS << 1) | 1);
    if (pmb_pec(crc, reply, length + 1) != 0) return -1;
    memcpy(data, reply, length);
    return 0;
}

/* Sets the output to a voltage, in the format that the device's VOUT_MODE names, and tells what the
 * device then has. */
static int32_t set_voltage(pmb_quantity wanted, pmb_quantity *set)
{
    pmb_format format;
    uint8_t data[2];
    uint16_t code;
    int32_t status;
    memset(&format, 0, sizeof format);
    format.kind = PMB_VOUT;
    if (read_bytes(VOUT_MODE, &format.mode, 1) != 0) return -1;
    status = pmb_encode(&format, wanted, &code);
    if (status != PMB_OK) return status;
    data[0] = (uint8_t)code;
    data[1] = (uint8_t)(code >> 8);
    if (write_bytes(VOUT_COMMAND, data, 2) != 0 || read_bytes(VOUT_COMMAND, data, 2) != 0) return -1;
    return pmb_decode(&format, (uint16_t)(data[0] | data[1] << 8), set);
}

int main(void)
{
    static const pmb_quantity steps[] = {{9, 10}, {12, 10}, {33, 10}, {12, 1}, {128, 1}};
    size_t i;
    registers[VOUT_MODE][0] = 0x17;
    for (i = 0; i < sizeof steps / sizeof *steps; i++) {
        char wanted[PMB_MOST_QUANTITY_TEXT + 1], is[PMB_MOST_QUANTITY_TEXT + 1];
        size_t length;
        pmb_quantity set;
        const int32_t status = set_voltage(steps[i], &set);
        pmb_quantity_text(steps[i], wanted, sizeof wanted, &length);
        if (status == PMB_ABOVE) {
            printf("%s is above the range\n", wanted);
        } else if (status != PMB_OK) {
            printf("%s: status %ld\n", wanted, (long)status);
            return 1;
        } else {
            pmb_quantity_text(set, is, sizeof is, &length);
            printf("%s is set as %s\n", wanted, is);
        }
    }
    return 0;
}
