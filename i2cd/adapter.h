/* adapter.h: the simulated bus as a kernel's adapter: transfers of messages, and their log. */
#ifndef ADAPTER_H
#define ADAPTER_H

#include <stddef.h>
#include <stdint.h>

#include "kernel.h"
#include "pmb.h"

/* What the adapter can do (I2C_FUNCS): all of SMBus by messages, and these themselves. */
#define ADAPTER_FUNCTIONS (I2C_FUNC_I2C | I2C_FUNC_SMBUS_EMUL_ALL)

/* The most characters that the events of one message have as text: those of its bytes with their
 * answers, START, the address, and STOP. A block that tells its length may be 32 bytes longer. */
#define MOST_EVENTS (5 * (MOST_LENGTH + I2C_SMBUS_BLOCK_MAX) + 16)

struct adapter {
    pmb_profile profile;
    pmb_bus bus;
    int log;                 /* a descriptor, or -1 where there is no log */
    int log_error;           /* the errno of the write that failed, or 0 */
    int bus_error;           /* ENOMEM where a transfer could not go on, or 0 */
    size_t written, waiting; /* how many bytes of `events` are in the log, and how many are to be */
    char events[MOST_MESSAGES * MOST_EVENTS]; /* those of the last transfer */
};

/* Opens the bus of a profile's text.
 * Returns a status of pmb.h; told has more of it where that is PMB_BAD_PROFILE. */
int32_t adapter_open(struct adapter *adapter, const char *text, size_t length, pmb_result *told);

/* Closes the bus, and the log. */
void adapter_close(struct adapter *adapter);

/* Has the log at a path, at whose end it goes on. Returns 0, or an errno below 0. */
int adapter_open_log(struct adapter *adapter, const char *path);

/* Whether the log has yet to take what is in `events`, as where it is a pipe that is full. Then there
 * may be no transfer. */
int adapter_is_behind(const struct adapter *adapter);

/* Writes what the log takes now, without waiting. */
void adapter_write_log(struct adapter *adapter);

/* One transfer: each message after START or a repeated START, and STOP after the last one, or where
 * an address or a byte is not acknowledged. Of a message with I2C_M_RECV_LEN, `len` is 1 for the count
 * and 1 for each byte after the block; then as many bytes as came, for which `buf` has room for
 * I2C_SMBUS_BLOCK_MAX more.
 * Returns 0, or an errno below 0: ENXIO for an address, EREMOTEIO for a byte, EPROTO for a count that
 * is not 1 to 32; or EOPNOTSUPP for other flags, EINVAL for an address of more than seven bits, and
 * then nothing goes over the bus; or ENOMEM. */
int adapter_transfer(struct adapter *adapter, struct i2c_msg *messages, size_t count);

#endif
