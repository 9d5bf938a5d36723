/* smbus.h: the accesses of SMBus, made of messages as the kernel makes them. */
#ifndef SMBUS_H
#define SMBUS_H

#include <stdint.h>

#include "adapter.h"

/* One access: quick, byte, byte data, word data, process call, block, block process call, or block of
 * I2C. With `pec` not 0 the packets carry packet error codes, but for quick and the block of I2C. data
 * holds what is written, and gets what is read; it is not looked at for quick and for a byte that is
 * written.
 * Returns 0, or an errno below 0: as adapter_transfer, EBADMSG for a wrong packet error code of a
 * device, EINVAL for a block of more than 32 bytes, EOPNOTSUPP for another size. */
int smbus_access(struct adapter *adapter, uint16_t address, int pec, uint8_t read_write,
                 uint8_t command, uint32_t size, union i2c_smbus_data *data);

#endif
