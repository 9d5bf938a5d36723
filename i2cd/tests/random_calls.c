/* random_calls.c: random calls of i2c-dev, right ones and wrong ones, by a seed. It prints what each
 * returns, with a sum of all memory that it may have written. Over the shim and over the device it has to
 * print the same, and the same has to be on the wire. (CUSE does nothing for reads and writes of 0 bytes,
 * and sees a bad pointer of a read before it, so there are none of these.)
 *
 *   random_calls PATH COUNT SEED
 */
#define _GNU_SOURCE
#include <errno.h>
#include <fcntl.h>
#include <stdint.h>
#include <stdio.h>
#include <stdlib.h>
#include <string.h>
#include <sys/ioctl.h>
#include <sys/mman.h>
#include <unistd.h>

#include <linux/i2c-dev.h>
#include <linux/i2c.h>

static uint64_t state;
static uint8_t *wall; /* a page that can be neither read nor written */
static uint8_t memory[43 * 8300 + 4096];

/* splitmix64 */
static uint64_t next(void)
{
    uint64_t z = state += 0x9e3779b97f4a7c15u;
    z = (z ^ z >> 30) * 0xbf58476d1ce4e5b9u;
    z = (z ^ z >> 27) * 0x94d049bb133111ebu;
    return z ^ z >> 31;
}

static unsigned below(unsigned limit)
{
    return (unsigned)(next() % limit);
}

#define ONE_OF(...) \
    (((const unsigned[]){ \
        __VA_ARGS__ })[below(sizeof((const unsigned[]){ __VA_ARGS__ }) / sizeof(unsigned))])

static unsigned code(void)
{
    return ONE_OF(0x00, 0x03, 0x20, 0x21, 0x21, 0x30, 0x7e, 0x88, 0x88, 0x98, 0x99, 0x99, 0x9a, 0xd0,
                  0x07, 0x78);
}

static unsigned address(void)
{
    return below(20) ? ONE_OF(0x58, 0x58, 0x58, 0x59, 0x5a)
                     : ONE_OF(0x20, 0x0c, 0x00, 0x7f, 0x80, 0xffff);
}

static long random_smbus(int file)
{
    uint8_t *data = memory + 1 + below(8);
    struct i2c_smbus_ioctl_data call = { (uint8_t)(below(30) ? below(2) : 2), (uint8_t)code(),
                                         below(40) ? below(9) : ONE_OF(9, 255, 0x80000000u), NULL };
    call.data = (union i2c_smbus_data *)data;
    if (below(2))
        data[0] = (uint8_t)ONE_OF(0, 1, 2, 2, 3, 32, 33);
    if (below(25) == 0)
        call.data = below(2) ? NULL : (union i2c_smbus_data *)wall;
    return ioctl(file, I2C_SMBUS, below(100) ? (void *)&call : wall);
}

/* One message, whose bytes begin at a place. */
static struct i2c_msg message(unsigned number, uint8_t *bytes)
{
    struct i2c_msg made = { (uint16_t)address(), 0, 1, bytes };
    if (number == 1 ? below(10) < 8 : below(10) == 0) {
        made.flags = I2C_M_RD;
        made.len = (uint16_t)ONE_OF(0, 1, 2, 3, 5, 33, 34, 64, 300, 8192);
        if (below(3) == 0) {
            made.flags |= I2C_M_RECV_LEN;
            bytes[0] = (uint8_t)ONE_OF(0, 1, 1, 1, 2, 2, 2, 255);
        }
    } else {
        bytes[0] = (uint8_t)code();
        made.len = (uint16_t)ONE_OF(0, 1, 1, 1, 1, 2, 3, 3, 4, 5, 40, 258, 8192);
    }
    if (below(60) == 0)
        made.flags |= (uint16_t)ONE_OF(I2C_M_TEN, I2C_M_NOSTART, I2C_M_STOP, I2C_M_DMA_SAFE,
                                       I2C_M_RECV_LEN, I2C_M_IGNORE_NAK, 0xf8ee);
    if (below(100) == 0)
        made.len = (uint16_t)ONE_OF(8193, 65535);
    else if (below(100) == 0)
        made.buf = wall;
    return made;
}

static long random_transfer(int file)
{
    static struct i2c_msg messages[43];
    unsigned count = below(40) ? ONE_OF(1, 1, 2, 2, 2, 2, 3, 4) : ONE_OF(0, 41, 42, 43);
    struct i2c_rdwr_ioctl_data call = { messages, count };
    unsigned shared = address();
    for (unsigned i = 0; i < count; i++) {
        messages[i] = message(i, memory + 1 + i * 8300 + below(4));
        if (below(5))
            messages[i].addr = (uint16_t)shared;
    }
    if (below(60) == 0)
        call.msgs = below(2) ? NULL : (struct i2c_msg *)wall;
    return ioctl(file, I2C_RDWR, below(100) ? (void *)&call : wall);
}

static long random_call(int file)
{
    unsigned long functions = 0;
    long told;
    switch (below(24)) {
    case 0:
        return ioctl(file, I2C_SLAVE, (unsigned long)address());
    case 1:
        return ioctl(file, I2C_SLAVE_FORCE, (unsigned long)address());
    case 2:
        return ioctl(file, I2C_PEC, (unsigned long)below(3));
    case 3:
        return ioctl(file, ONE_OF(I2C_TENBIT, I2C_RETRIES, I2C_TIMEOUT, 0x0709, 0x0700),
                     below(2) ? 0ul : (unsigned long)next());
    case 4:
        told = ioctl(file, I2C_FUNCS, below(5) ? (void *)&functions : wall);
        memcpy(memory, &functions, sizeof functions);
        return told;
    case 5:
        return read(file, memory + 5, ONE_OF(1, 2, 300, 8192, 9000));
    case 6:
        memory[3] = (uint8_t)code();
        return write(file, below(20) ? memory + 3 : wall, ONE_OF(1, 2, 3, 4, 300, 8192, 9000));
    case 7:
    case 8:
    case 9:
    case 10:
    case 11:
    case 12:
    case 13:
        return random_smbus(file);
    default:
        return random_transfer(file);
    }
}

/* FNV-1a */
static uint32_t sum(void)
{
    uint32_t hash = 2166136261u;
    for (size_t i = 0; i < sizeof memory; i++)
        hash = (hash ^ memory[i]) * 16777619u;
    return hash;
}

int main(int count, char **words)
{
    int files[2];
    if (count != 4)
        return 2;
    long calls = strtol(words[2], NULL, 10);
    state = strtoull(words[3], NULL, 10);
    wall = mmap(NULL, 4096, PROT_NONE, MAP_PRIVATE | MAP_ANONYMOUS, -1, 0);
    for (int i = 0; i < 2; i++) {
        files[i] = open(words[1], O_RDWR);
        if (files[i] < 0) {
            perror(words[1]);
            return 1;
        }
    }
    for (long i = 0; i < calls; i++) {
        if (below(10) == 0)
            for (size_t at = 0; at < sizeof memory; at += 1 + below(64))
                memory[at] = (uint8_t)next();
        long told = random_call(files[below(8) == 0]);
        printf("%ld %ld %08x\n", i, told < 0 ? -(long)errno : told, sum());
    }
    return 0;
}
