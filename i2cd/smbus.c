/* smbus.c: the accesses of SMBus (SMBus 3.0 section 6.5), made of one or two messages, as Linux
 * documents them in Documentation/i2c/smbus-protocol.rst.
 *
 * An access is planned first: what is written, then how much is read. Packet error codes are added
 * after that, and tested once all is read; they cover the address bytes too. */
#include "smbus.h"

#include <errno.h>
#include <string.h>

/* The messages of an access. */
struct plan {
    int writes, reads; /* whether there is a written message, and one that is read after it */
    int is_counted;    /* the device says how many bytes it gives */
    uint8_t out[I2C_SMBUS_BLOCK_MAX + 3]; /* a command, a count, a block, and a packet error code */
    uint16_t out_length;
    uint8_t in[I2C_SMBUS_BLOCK_MAX + 2]; /* a count, a block, and a packet error code */
    uint16_t in_length;                  /* without the code; 1 for the count where is_counted is 1 */
};

/* Puts bytes after those that are written. */
static void add(struct plan *plan, const uint8_t *bytes, size_t length)
{
    memcpy(plan->out + plan->out_length, bytes, length);
    plan->out_length = (uint16_t)(plan->out_length + length);
}

static void add_word(struct plan *plan, uint16_t word)
{
    uint8_t bytes[2] = { (uint8_t)word, (uint8_t)(word >> 8) };
    add(plan, bytes, sizeof bytes);
}

/* A byte or a word of data: written, or read. */
static void plan_data(struct plan *plan, int is_read, const union i2c_smbus_data *data, int is_word)
{
    if (is_read) {
        plan->reads = 1;
        plan->in_length = is_word ? 2 : 1;
    } else if (is_word) {
        add_word(plan, data->word);
    } else {
        add(plan, &data->byte, 1);
    }
}

/* A block with its count: written, or read, or both for a call. */
static int plan_block(struct plan *plan, int is_written, int is_read, const union i2c_smbus_data *data)
{
    if (is_written) {
        if (data->block[0] > I2C_SMBUS_BLOCK_MAX)
            return -EINVAL;
        add(plan, data->block, 1u + data->block[0]);
    }
    if (is_read) {
        plan->reads = 1;
        plan->is_counted = 1;
        plan->in_length = 1;
    }
    return 0;
}

/* A block without a count on the wire; block[0] says how long it is. */
static int plan_i2c_block(struct plan *plan, int is_read, const union i2c_smbus_data *data)
{
    if (data->block[0] > I2C_SMBUS_BLOCK_MAX)
        return -EINVAL;
    if (is_read) {
        plan->reads = 1;
        plan->in_length = data->block[0];
    } else {
        add(plan, data->block + 1, data->block[0]);
    }
    return 0;
}

static int plan_access(struct plan *plan, int is_read, uint8_t command, uint32_t size,
                       const union i2c_smbus_data *data)
{
    memset(plan, 0, sizeof *plan);
    plan->writes = 1;
    if (size == I2C_SMBUS_QUICK || (size == I2C_SMBUS_BYTE && is_read)) {
        /* the address alone says all; no command goes out */
        plan->writes = !is_read;
        plan->reads = is_read;
        plan->in_length = size == I2C_SMBUS_BYTE;
        return 0;
    }
    add(plan, &command, 1);
    switch (size) {
    case I2C_SMBUS_BYTE:
        return 0;
    case I2C_SMBUS_BYTE_DATA:
        plan_data(plan, is_read, data, 0);
        return 0;
    case I2C_SMBUS_WORD_DATA:
        plan_data(plan, is_read, data, 1);
        return 0;
    case I2C_SMBUS_PROC_CALL:
        plan_data(plan, 0, data, 1);
        plan_data(plan, 1, data, 1);
        return 0;
    case I2C_SMBUS_BLOCK_DATA:
        return plan_block(plan, !is_read, is_read, data);
    case I2C_SMBUS_BLOCK_PROC_CALL:
        return plan_block(plan, 1, 1, data);
    case I2C_SMBUS_I2C_BLOCK_DATA:
        return plan_i2c_block(plan, is_read, data);
    default:
        return -EOPNOTSUPP;
    }
}

/* The packet error code of a message that comes after others, whose code is crc. */
static uint8_t message_pec(uint8_t crc, const struct i2c_msg *message)
{
    uint8_t address = (uint8_t)(message->addr << 1 | (message->flags & I2C_M_RD));
    return pmb_pec(pmb_pec_next(crc, address), message->buf, message->len);
}

/* Gives the caller what was read. */
static void give(const struct plan *plan, uint32_t size, union i2c_smbus_data *data)
{
    switch (size) {
    case I2C_SMBUS_BYTE:
    case I2C_SMBUS_BYTE_DATA:
        data->byte = plan->in[0];
        break;
    case I2C_SMBUS_WORD_DATA:
    case I2C_SMBUS_PROC_CALL:
        data->word = (uint16_t)(plan->in[0] | plan->in[1] << 8);
        break;
    case I2C_SMBUS_BLOCK_DATA:
    case I2C_SMBUS_BLOCK_PROC_CALL:
        memcpy(data->block, plan->in, 1u + plan->in[0]);
        break;
    case I2C_SMBUS_I2C_BLOCK_DATA:
        memcpy(data->block + 1, plan->in, plan->in_length);
        break;
    default:
        break;
    }
}

int smbus_access(struct adapter *adapter, uint16_t address, int pec, uint8_t read_write,
                 uint8_t command, uint32_t size, union i2c_smbus_data *data)
{
    struct plan plan;
    struct i2c_msg messages[2];
    uint16_t count = 0;
    uint8_t crc = 0;
    int has_pec = pec && size != I2C_SMBUS_QUICK && size != I2C_SMBUS_I2C_BLOCK_DATA;
    int result = plan_access(&plan, read_write == I2C_SMBUS_READ, command, size, data);
    if (result != 0)
        return result;
    if (plan.writes) {
        struct i2c_msg *written = &messages[count++];
        *written = (struct i2c_msg){ address, 0, plan.out_length, plan.out };
        crc = message_pec(0, written);
        if (has_pec && !plan.reads)
            written->buf[written->len++] = crc;
    }
    if (plan.reads) {
        uint16_t flags = plan.is_counted ? I2C_M_RD | I2C_M_RECV_LEN : I2C_M_RD;
        uint16_t length = (uint16_t)(plan.in_length + has_pec);
        messages[count++] = (struct i2c_msg){ address, flags, length, plan.in };
    }
    result = adapter_transfer(adapter, messages, count);
    if (result != 0 || !plan.reads)
        return result;
    if (has_pec) {
        struct i2c_msg *read = &messages[count - 1];
        read->len--;
        if (message_pec(crc, read) != read->buf[read->len])
            return -EBADMSG;
    }
    give(&plan, size, data);
    return 0;
}
