/* kernel.h: what i2c-dev of Linux allows, and which memory of a program an access of SMBus has. */
#ifndef KERNEL_H
#define KERNEL_H

#include <stddef.h>
#include <stdint.h>

#include <linux/i2c-dev.h>
#include <linux/i2c.h>

/* The most messages of a transfer (I2C_RDWR), and the most bytes of each. */
#define MOST_MESSAGES I2C_RDWR_IOCTL_MAX_MSGS
#define MOST_LENGTH 8192

/* How many bytes of its union an access of SMBus has; 0 where there is no such access. */
static inline size_t smbus_data_length(uint32_t size)
{
    switch (size) {
    case I2C_SMBUS_BYTE:
    case I2C_SMBUS_BYTE_DATA:
        return 1;
    case I2C_SMBUS_WORD_DATA:
    case I2C_SMBUS_PROC_CALL:
        return 2;
    case I2C_SMBUS_BLOCK_DATA:
    case I2C_SMBUS_I2C_BLOCK_BROKEN:
    case I2C_SMBUS_BLOCK_PROC_CALL:
    case I2C_SMBUS_I2C_BLOCK_DATA:
        return sizeof(union i2c_smbus_data);
    default:
        return 0;
    }
}

/* Whether an access of SMBus has no data besides its command. */
static inline int smbus_has_no_data(uint32_t size, uint8_t read_write)
{
    return size == I2C_SMBUS_QUICK || (size == I2C_SMBUS_BYTE && read_write == I2C_SMBUS_WRITE);
}

/* Whether an access of SMBus takes data of the program, and whether it gives it data. */
static inline int smbus_takes_data(uint32_t size, uint8_t read_write)
{
    return read_write == I2C_SMBUS_WRITE || size == I2C_SMBUS_PROC_CALL ||
           size == I2C_SMBUS_BLOCK_PROC_CALL || size == I2C_SMBUS_I2C_BLOCK_DATA;
}

static inline int smbus_gives_data(uint32_t size, uint8_t read_write)
{
    return read_write == I2C_SMBUS_READ || size == I2C_SMBUS_PROC_CALL ||
           size == I2C_SMBUS_BLOCK_PROC_CALL;
}

#endif
