/* wire.h: what libpmb-i2cdev.so and pmb-i2cd say to each other.
 *
 * A program's open file is a connection of its own, a socket of packets (SOCK_SEQPACKET). A request is
 * one packet, and with it comes one descriptor: the end of a pair of sockets on which the reply goes
 * out, one packet too. So several threads, or a program and its fork, may use one open file side by
 * side, and none gets the reply of another. Both ends are on one machine: numbers are in its own byte
 * order.
 *
 * The server ends a connection whose packet is no request. It does so without a reply.
 */
#ifndef WIRE_H
#define WIRE_H

#include <stdint.h>

#include "kernel.h"

/* The first word of each request. It changes with the protocol. */
#define WIRE_MARK 0x31624d50u

/* The kinds of requests: those of ioctl by their own numbers (I2C_SLAVE, I2C_RDWR ..), and these. */
enum wire_kind { WIRE_READ = 1, WIRE_WRITE = 2 };

/* The head of a request, and what follows it:
 *   I2C_SLAVE, I2C_SLAVE_FORCE, I2C_TENBIT, I2C_PEC, I2C_RETRIES, I2C_TIMEOUT
 *               argument is that of ioctl; nothing follows
 *   I2C_FUNCS   argument is 0; nothing follows
 *   I2C_SMBUS   argument is 0; a wire_smbus follows
 *   I2C_RDWR    argument is how many messages there are, 1 to MOST_MESSAGES; as many wire_message
 *               follow, and then the buffers of all messages, of those that are read too
 *   WIRE_READ   argument is how many bytes are read, 0 to MOST_LENGTH; nothing follows
 *   WIRE_WRITE  argument is how many bytes are written, 0 to MOST_LENGTH; they follow
 */
struct wire_request {
    uint32_t mark; /* WIRE_MARK */
    uint32_t kind;
    uint64_t argument;
};

struct wire_smbus {
    uint32_t size; /* I2C_SMBUS_QUICK .. */
    uint8_t read_write;
    uint8_t command;
    uint8_t has_data; /* 0 where the program gave a null pointer */
    uint8_t unused;
    uint8_t data[36]; /* union i2c_smbus_data, and two bytes of 0 */
};

struct wire_message {
    uint16_t address;
    uint16_t flags;
    uint16_t length; /* 0 to MOST_LENGTH */
    uint16_t unused;
};

/* The head of a reply, and what follows it where nothing failed:
 *   I2C_FUNCS   eight bytes, the mask
 *   I2C_SMBUS   36 bytes, as data of wire_smbus
 *   I2C_RDWR    the buffers of the messages that were read, whole: what was not read is as it came
 *   WIRE_READ   the bytes
 */
struct wire_reply {
    int32_t result;  /* what the call returns, or an errno below 0 */
    uint32_t length; /* how many bytes follow */
};

/* The longest packet. */
#define MOST_REQUEST \
    (sizeof(struct wire_request) + MOST_MESSAGES * (sizeof(struct wire_message) + MOST_LENGTH))

/* The size that a socket's buffer needs for the longest packet. (The kernel takes it twice.) */
#define WIRE_BUFFER 212992

#endif
