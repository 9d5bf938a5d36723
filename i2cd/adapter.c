/* adapter.c: transfers over the bus of the library, and what was on the wire into the log.
 *
 * The events are fetched after each message, and go to the log when the transfer has ended: a reader of
 * the log sees whole packets. A log that is full, as a pipe may be, is not waited for here, where no
 * signal would end that: the next transfer comes once it has all (adapter_is_behind). */
#include "adapter.h"

#include <errno.h>
#include <fcntl.h>
#include <unistd.h>

int32_t adapter_open(struct adapter *adapter, const char *text, size_t length, pmb_result *told)
{
    int32_t status;
    adapter->profile.held = NULL;
    adapter->bus.held = NULL;
    adapter->log = -1;
    adapter->log_error = adapter->bus_error = 0;
    adapter->written = adapter->waiting = 0;
    status = pmb_profile_open(&adapter->profile, text, length, told);
    if (status != PMB_OK)
        return status;
    status = pmb_bus_open(&adapter->bus, &adapter->profile);
    /* (the bus has what it needs of it) */
    pmb_profile_close(&adapter->profile);
    return status;
}

void adapter_close(struct adapter *adapter)
{
    pmb_bus_close(&adapter->bus);
    if (adapter->log >= 0)
        close(adapter->log);
    adapter->log = -1;
}

/* ---- the log */

int adapter_open_log(struct adapter *adapter, const char *path)
{
    /* (what doesn't wait is asked for after that: a pipe is opened once somebody reads it) */
    int log = open(path, O_WRONLY | O_CREAT | O_APPEND | O_CLOEXEC, 0666);
    if (log < 0)
        return -errno;
    int flags = fcntl(log, F_GETFL);
    if (flags < 0 || fcntl(log, F_SETFL, flags | O_NONBLOCK) != 0) {
        int error = errno;
        close(log);
        return -error;
    }
    adapter->log = log;
    return 0;
}

int adapter_is_behind(const struct adapter *adapter)
{
    return adapter->waiting > 0;
}

void adapter_write_log(struct adapter *adapter)
{
    while (adapter->waiting > 0) {
        ssize_t count = write(adapter->log, adapter->events + adapter->written, adapter->waiting);
        if (count < 0 && errno == EINTR)
            continue;
        if (count < 0) {
            if (errno != EAGAIN)
                adapter->log_error = errno;
            return;
        }
        adapter->written += (size_t)count;
        adapter->waiting -= (size_t)count;
    }
    adapter->written = 0;
}

/* Takes what was on the wire from the bus, which would keep it; where there is no log it is dropped. */
static void fetch_events(struct adapter *adapter)
{
    pmb_result told;
    size_t room = sizeof adapter->events - adapter->waiting;
    size_t length = pmb_bus_events(&adapter->bus, adapter->events + adapter->waiting, room, &told);
    if (told.status != PMB_OK)
        adapter->log_error = EOVERFLOW;
    else if (adapter->log >= 0)
        adapter->waiting += length;
}

/* ---- transfers */

/* What is refused before anything goes over the bus. */
static int refusal(const struct i2c_msg *messages, size_t count)
{
    for (size_t i = 0; i < count; i++) {
        /* (the kernel gives I2C_M_DMA_SAFE to each message, and it says nothing of the bus) */
        if (messages[i].flags & ~(I2C_M_RD | I2C_M_RECV_LEN | I2C_M_DMA_SAFE))
            return -EOPNOTSUPP;
        if (messages[i].addr > 0x7f)
            return -EINVAL;
    }
    return 0;
}

/* One message. Of one that tells its length, `len` becomes how many bytes came. */
static int transfer_message(struct adapter *adapter, struct i2c_msg *message, int is_last)
{
    int is_counted = (message->flags & I2C_M_RECV_LEN) != 0;
    size_t length = (size_t)message->len - (size_t)is_counted;
    size_t room = (size_t)message->len + (is_counted ? I2C_SMBUS_BLOCK_MAX : 0);
    uint16_t flags = message->flags & (I2C_M_RD | I2C_M_RECV_LEN);
    int result = pmb_bus_message(&adapter->bus, message->addr, flags, message->buf, room, &length,
                                 (uint8_t)is_last);
    if (result == 0 && is_counted)
        message->len = (uint16_t)length;
    return result;
}

int adapter_transfer(struct adapter *adapter, struct i2c_msg *messages, size_t count)
{
    int result = refusal(messages, count);
    for (size_t i = 0; i < count && result == 0; i++) {
        result = transfer_message(adapter, &messages[i], i + 1 == count);
        fetch_events(adapter);
        if (result == -ENOMEM && i > 0) /* the packet can't be ended */
            adapter->bus_error = ENOMEM;
    }
    adapter_write_log(adapter);
    return result;
}
