/* file.h: an open file of the bus, with the calls of the kernel's i2c-dev. */
#ifndef FILE_H
#define FILE_H

#include <stdint.h>

#include "adapter.h"

/* What an open file keeps; with all 0 it is one that was opened just now. */
struct open_file {
    uint16_t address; /* of I2C_SLAVE */
    uint8_t pec;      /* of I2C_PEC */
};

/* Each of these returns what the call returns, or an errno below 0. */

/* ioctl with a number: I2C_SLAVE, I2C_SLAVE_FORCE, I2C_TENBIT, I2C_PEC, I2C_RETRIES, I2C_TIMEOUT.
 * ENOTTY for every other request. */
int file_control(struct open_file *file, uint32_t request, uint64_t argument);

/* ioctl with I2C_SMBUS. data is null where the program gave a null pointer. */
int file_smbus(const struct open_file *file, struct adapter *adapter, uint8_t read_write,
               uint8_t command, uint32_t size, union i2c_smbus_data *data);

/* ioctl with I2C_RDWR; there are `count` messages, 1 to 42, of up to 8,192 bytes. `len` stays as it
 * is. */
int file_transfer(struct adapter *adapter, struct i2c_msg *messages, size_t count);

/* read and write: one message with the file's address, of up to 8,192 bytes. */
int file_read(const struct open_file *file, struct adapter *adapter, uint8_t *bytes, uint16_t length);
int file_write(const struct open_file *file, struct adapter *adapter, uint8_t *bytes, uint16_t length);

#endif
