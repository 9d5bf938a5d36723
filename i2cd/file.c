/* file.c: an open file of the bus, with the calls of the kernel's i2c-dev, as Linux documents them in
 * Documentation/i2c/dev-interface.rst. */
#include "file.h"

#include <errno.h>
#include <limits.h>
#include <stddef.h>

#include "smbus.h"
#include "wire.h"

int file_control(struct open_file *file, uint32_t request, uint64_t argument)
{
    switch (request) {
    case I2C_SLAVE:
    case I2C_SLAVE_FORCE:
        if (argument > 0x7f)
            return -EINVAL;
        file->address = (uint16_t)argument;
        return 0;
    case I2C_TENBIT:
        /* the adapter has no I2C_FUNC_10BIT_ADDR */
        return argument == 0 ? 0 : -EINVAL;
    case I2C_PEC:
        file->pec = argument != 0;
        return 0;
    case I2C_RETRIES:
    case I2C_TIMEOUT:
        /* nothing here is ever tried again, nor waited for */
        return argument > INT_MAX ? -EINVAL : 0;
    default:
        return -ENOTTY;
    }
}

int file_smbus(const struct open_file *file, struct adapter *adapter, uint8_t read_write,
               uint8_t command, uint32_t size, union i2c_smbus_data *data)
{
    if (size != I2C_SMBUS_QUICK && smbus_data_length(size) == 0)
        return -EINVAL;
    if (read_write != I2C_SMBUS_READ && read_write != I2C_SMBUS_WRITE)
        return -EINVAL;
    if (data == NULL && !smbus_has_no_data(size, read_write))
        return -EINVAL;
    if (size == I2C_SMBUS_I2C_BLOCK_BROKEN) {
        /* what programs of long ago ask for: a block of I2C, and always 32 bytes of it are read */
        size = I2C_SMBUS_I2C_BLOCK_DATA;
        if (read_write == I2C_SMBUS_READ)
            data->block[0] = I2C_SMBUS_BLOCK_MAX;
    }
    return smbus_access(adapter, file->address, file->pec, read_write, command, size, data);
}

/* Whether a message that begins with a count is one that the kernel takes: its first byte says how
 * many bytes come besides the block, which has room after them. */
static int is_counted_right(const struct i2c_msg *message)
{
    return (message->flags & I2C_M_RD) && message->len >= 1 && message->buf[0] >= 1 &&
           message->len >= message->buf[0] + I2C_SMBUS_BLOCK_MAX;
}

int file_transfer(struct adapter *adapter, struct i2c_msg *messages, size_t count)
{
    struct i2c_msg changed[MOST_MESSAGES];
    for (size_t i = 0; i < count; i++) {
        changed[i] = messages[i];
        if (messages[i].flags & I2C_M_RECV_LEN) {
            if (!is_counted_right(&messages[i]))
                return -EINVAL;
            changed[i].len = messages[i].buf[0];
        }
    }
    int result = adapter_transfer(adapter, changed, count);
    return result < 0 ? result : (int)count;
}

static int one_message(const struct open_file *file, struct adapter *adapter, uint16_t flags,
                       uint8_t *bytes, uint16_t length)
{
    struct i2c_msg message = { file->address, flags, length, bytes };
    int result = adapter_transfer(adapter, &message, 1);
    return result < 0 ? result : length;
}

int file_read(const struct open_file *file, struct adapter *adapter, uint8_t *bytes, uint16_t length)
{
    return one_message(file, adapter, I2C_M_RD, bytes, length);
}

int file_write(const struct open_file *file, struct adapter *adapter, uint8_t *bytes, uint16_t length)
{
    return one_message(file, adapter, 0, bytes, length);
}
