/* calls.c: the calls of i2c-dev on the sample profile's bus, at their limits; and open files that are
 * shared. It runs with the shim, and, linked statically, on the device that pmb-i2cd makes. What is
 * expected comes from docs/devices.md and from Linux's documentation, by hand.
 *
 *   calls PATH   it prints what is wrong, and then the counts; the status is 1 where anything is
 */
#define _GNU_SOURCE
#include <errno.h>
#include <fcntl.h>
#include <pthread.h>
#include <stdint.h>
#include <stdio.h>
#include <stdlib.h>
#include <string.h>
#include <sys/ioctl.h>
#include <sys/mman.h>
#include <sys/socket.h>
#include <sys/uio.h>
#include <sys/wait.h>
#include <unistd.h>

#include <linux/i2c-dev.h>
#include <linux/i2c.h>

static int passed, failed;
static const char *path;

#define IS(expression, wanted) is((expression), (wanted), __LINE__, #expression)

/* Compares; a failed call is its errno below 0. */
static void is(long found, long wanted, int line, const char *text)
{
    if (found == wanted) {
        passed++;
    } else {
        failed++;
        printf("calls.c:%d: %s is %ld, and not %ld\n", line, text, found, wanted);
    }
}

static long result(long value)
{
    return value < 0 ? -errno : value;
}

/* ---- calls */

static long set(int file, unsigned long request, unsigned long argument)
{
    return result(ioctl(file, request, argument));
}

static long smbus(int file, int is_read, uint8_t command, uint32_t size, void *data)
{
    struct i2c_smbus_ioctl_data call = { (uint8_t)is_read, command, size, data };
    return result(ioctl(file, I2C_SMBUS, &call));
}

static long read_word(int file, uint8_t command)
{
    union i2c_smbus_data data;
    long told = smbus(file, 1, command, I2C_SMBUS_WORD_DATA, &data);
    return told < 0 ? told : data.word;
}

static long read_byte(int file, uint8_t command)
{
    union i2c_smbus_data data;
    long told = smbus(file, 1, command, I2C_SMBUS_BYTE_DATA, &data);
    return told < 0 ? told : data.byte;
}

static long write_word(int file, uint8_t command, uint16_t word)
{
    union i2c_smbus_data data = { .word = word };
    return smbus(file, 0, command, I2C_SMBUS_WORD_DATA, &data);
}

static long write_byte(int file, uint8_t command, uint8_t byte)
{
    union i2c_smbus_data data = { .byte = byte };
    return smbus(file, 0, command, I2C_SMBUS_BYTE_DATA, &data);
}

static long transfer(int file, struct i2c_msg *messages, uint32_t count)
{
    struct i2c_rdwr_ioctl_data call = { messages, count };
    return result(ioctl(file, I2C_RDWR, &call));
}

/* What a command of 58h has: written, and then so many bytes are read. */
static long get(int file, uint8_t command, uint16_t flags, uint8_t *bytes, uint16_t length)
{
    struct i2c_msg both[2] = { { 0x58, 0, 1, &command },
                               { 0x58, (uint16_t)(I2C_M_RD | flags), length, bytes } };
    return transfer(file, both, 2);
}

static long put(int file, const void *bytes, uint16_t length)
{
    struct i2c_msg one = { 0x58, 0, length, (uint8_t *)(uintptr_t)bytes };
    return transfer(file, &one, 1);
}

/* ---- what a file keeps */

static void plain(int file)
{
    unsigned long functions = 0;
    union i2c_smbus_data data;
    IS(result(ioctl(file, I2C_FUNCS, &functions)), 0);
    IS((long)functions, 0x0fff8009);
    IS(set(file, I2C_SLAVE, 0x80), -EINVAL);
    IS(set(file, I2C_SLAVE_FORCE, 0x58), 0);
    IS(read_word(file, 0x88), 0xd300);
    IS(set(file, I2C_SLAVE, 0x59), 0);
    IS(read_word(file, 0x88), 0);
    IS(set(file, I2C_SLAVE, 0x20), 0);
    IS(read_word(file, 0x88), -ENXIO);
    IS(set(file, I2C_SLAVE, 0x58), 0);
    IS(set(file, I2C_TENBIT, 0), 0);
    IS(set(file, I2C_TENBIT, 1), -EINVAL);
    IS(set(file, I2C_RETRIES, 3), 0);
    IS(set(file, I2C_RETRIES, 0x80000000ul), -EINVAL);
    IS(set(file, I2C_TIMEOUT, 10), 0);
    IS(set(file, I2C_TIMEOUT, 0x80000000ul), -EINVAL);
    IS(set(file, 0x0709, 0), -ENOTTY);
    IS(isatty(file), 0);
    IS(smbus(file, 0, 0, I2C_SMBUS_QUICK, NULL), 0);
    IS(smbus(file, 1, 0, I2C_SMBUS_QUICK, NULL), -ENXIO);
    IS(smbus(file, 1, 0, I2C_SMBUS_BYTE, &data), -ENXIO);
    IS(smbus(file, 0, 0x03, I2C_SMBUS_BYTE, NULL), 0);
    IS(smbus(file, 0, 0x07, I2C_SMBUS_BYTE, NULL), -EREMOTEIO);
    IS(read_byte(file, 0x7e), 0x80);
    IS(write_byte(file, 0x7e, 0x80), 0);
    IS(read_byte(file, 0x7e), 0);
}

static void numbers(int file)
{
    union i2c_smbus_data data;
    uint8_t bytes[34] = { 2, 0xd0, 1 };
    IS(write_word(file, 0x21, 0x069a), 0);
    IS(read_word(file, 0x21), 0x069a);
    IS(read_byte(file, 0x21), 0x9a);
    IS(write_byte(file, 0x00, 1), 0);
    IS(read_word(file, 0x21), 0);
    IS(write_byte(file, 0x00, 2), -EREMOTEIO);
    IS(read_byte(file, 0x00), 1);
    IS(read_byte(file, 0x7e), 0x40);
    IS(write_byte(file, 0x7e, 0x40), 0);
    IS(write_byte(file, 0x00, 0), 0);
    data.word = 0x1234;
    IS(smbus(file, 0, 0x30, I2C_SMBUS_PROC_CALL, &data), -ENXIO); /* 34h is its count */
    memcpy(data.block, bytes, sizeof bytes);
    IS(smbus(file, 0, 0x30, I2C_SMBUS_BLOCK_PROC_CALL, &data), 0);
    IS(memcmp(data.block, "\5\3\0\2\0\1", 6), 0);
    IS(set(file, I2C_PEC, 1), 0);
    memcpy(data.block, bytes, sizeof bytes);
    IS(smbus(file, 1, 0x30, I2C_SMBUS_BLOCK_PROC_CALL, &data), 0);
    IS(memcmp(data.block, "\5\3\0\2\0\1", 6), 0);
    IS(set(file, I2C_PEC, 0), 0);
}

static void codes(int file)
{
    union i2c_smbus_data data;
    /* 59h has no packet error codes: what is read as one is ffh */
    IS(set(file, I2C_SLAVE, 0x59), 0);
    IS(set(file, I2C_PEC, 1), 0);
    IS(read_word(file, 0x88), -EBADMSG);
    IS(write_word(file, 0x21, 1), -EREMOTEIO);
    /* 5ah takes only packets with them */
    IS(set(file, I2C_SLAVE, 0x5a), 0);
    IS(write_word(file, 0x21, 0x1234), 0);
    IS(set(file, I2C_PEC, 0), 0);
    IS(write_word(file, 0x21, 0x4321), 0);
    IS(read_word(file, 0x21), 0x1234);
    IS(set(file, I2C_PEC, 1), 0);
    IS(read_word(file, 0x21), 0x1234);
    IS(smbus(file, 0, 0x03, I2C_SMBUS_BYTE, NULL), 0);
    /* and in 58h a wrong one sets a bit; 47h would be right for 04h, not for 03h (docs/devices.md) */
    IS(set(file, I2C_SLAVE, 0x58), 0);
    IS(set(file, I2C_PEC, 0), 0);
    IS(put(file, "\x03\x47", 2), -EREMOTEIO);
    IS(read_byte(file, 0x7e), 0x20);
    IS(write_byte(file, 0x7e, 0x20), 0);
    IS(set(file, I2C_PEC, 1), 0);
    data.block[0] = 2;
    memcpy(data.block + 1, "AB", 2);
    IS(smbus(file, 0, 0x99, I2C_SMBUS_BLOCK_DATA, &data), 0);
    memset(&data, 0, sizeof data);
    IS(smbus(file, 1, 0x99, I2C_SMBUS_BLOCK_DATA, &data), 0);
    IS(memcmp(data.block, "\2AB", 4), 0);
    IS(set(file, I2C_PEC, 0), 0);
    /* a block of I2C has no code */
    data.block[0] = 5;
    IS(smbus(file, 1, 0x88, I2C_SMBUS_I2C_BLOCK_DATA, &data), 0);
    IS(memcmp(data.block, "\5\0\xd3\xf6\xff\xff", 6), 0);
    IS(smbus(file, 1, 0x88, I2C_SMBUS_I2C_BLOCK_BROKEN, &data), 0);
    IS(memcmp(data.block, "\40\0\xd3\xf6\xff\xff", 6), 0);
}

/* ---- blocks */

static void blocks(int file)
{
    uint8_t bytes[300], block[258] = { 0x99, 255 };
    union i2c_smbus_data data;
    memset(bytes, 0x77, sizeof bytes);
    bytes[0] = 1;
    IS(get(file, 0x99, I2C_M_RECV_LEN, bytes, 33), 2);
    IS(memcmp(bytes, "\2AB\x77\x77", 5), 0);
    bytes[0] = 2;
    bytes[3] = 0;
    IS(get(file, 0x99, I2C_M_RECV_LEN, bytes, 34), 2);
    IS(bytes[0] == 2 && bytes[3] == 0x48 && bytes[4] == 0x77, 1);
    bytes[0] = 2;
    IS(get(file, 0x99, I2C_M_RECV_LEN, bytes, 33), -EINVAL);
    bytes[0] = 0;
    IS(get(file, 0x99, I2C_M_RECV_LEN, bytes, 33), -EINVAL);
    bytes[0] = 1;
    IS(get(file, 0x99, I2C_M_RECV_LEN, bytes, 32), -EINVAL);
    IS(get(file, 0x9a, I2C_M_RECV_LEN, bytes, 33), -EPROTO);
    IS(smbus(file, 1, 0x9a, I2C_SMBUS_BLOCK_DATA, &data), -EPROTO);
    for (int i = 0; i < 256; i++)
        block[2 + i] = (uint8_t)i;
    IS(put(file, block, 257), 1);
    IS(put(file, block, 258), -EREMOTEIO);
    IS(get(file, 0x99, 0, bytes, 256), 2);
    IS(memcmp(bytes, block + 1, 256), 0);
    IS(smbus(file, 1, 0x99, I2C_SMBUS_BLOCK_DATA, &data), -EPROTO);
    block[1] = 33;
    IS(put(file, block, 35), 1);
    IS(smbus(file, 1, 0x99, I2C_SMBUS_BLOCK_DATA, &data), -EPROTO);
    data.block[0] = 33;
    IS(smbus(file, 0, 0x99, I2C_SMBUS_BLOCK_DATA, &data), -EINVAL);
    IS(smbus(file, 0, 0x99, I2C_SMBUS_I2C_BLOCK_DATA, &data), -EINVAL);
    IS(smbus(file, 1, 0x99, I2C_SMBUS_I2C_BLOCK_DATA, &data), -EINVAL);
    IS(smbus(file, 0, 0x30, I2C_SMBUS_BLOCK_PROC_CALL, &data), -EINVAL);
    block[1] = 32;
    IS(put(file, block, 34), 1);
    IS(smbus(file, 1, 0x99, I2C_SMBUS_BLOCK_DATA, &data), 0);
    IS(memcmp(data.block, block + 1, 33), 0);
    IS(smbus(file, 0, 0x99, I2C_SMBUS_BLOCK_DATA, &data), 0);
    IS(read_byte(file, 0x7e), 0x20); /* of the byte that is no packet error code */
    IS(write_byte(file, 0x7e, 0x20), 0);
}

/* ---- limits */

static void limits(int file)
{
    static uint8_t bytes[43][8193];
    struct i2c_msg messages[43];
    uint8_t code = 0x88;
    IS(get(file, 0x88, 0, bytes[0], 8192), 2);
    IS(memcmp(bytes[0], "\0\xd3\xf6\xff", 4) == 0 && bytes[0][8191] == 0xff, 1);
    IS(get(file, 0x88, 0, bytes[0], 8193), -EINVAL);
    for (int i = 0; i < 43; i++)
        messages[i] = (struct i2c_msg){ 0x20, I2C_M_RD, 8192, bytes[i] };
    IS(transfer(file, messages, 42), -ENXIO);
    IS(transfer(file, messages, 43), -EINVAL);
    IS(transfer(file, messages, 0), -EINVAL);
    IS(transfer(file, NULL, 1), -EINVAL);
    messages[0] = (struct i2c_msg){ 0x58, 0, 1, &code };
    messages[1].addr = 0x58;
    memset(bytes, 0, sizeof bytes);
    IS(transfer(file, messages, 42), -ENXIO); /* nothing is given where the whole fails */
    IS(bytes[1][1], 0);
    for (int i = 0; i < 42; i++)
        messages[i] = (struct i2c_msg){ 0x58, 0, 8192, bytes[i] };
    IS(transfer(file, messages, 42), -EREMOTEIO);
    messages[0] = (struct i2c_msg){ 0x58, 0, 0, NULL };
    messages[1] = (struct i2c_msg){ 0x59, 0, 0, NULL };
    messages[2] = (struct i2c_msg){ 0x5a, I2C_M_DMA_SAFE, 0, NULL };
    IS(transfer(file, messages, 3), 3);
    messages[1].flags = I2C_M_TEN;
    IS(transfer(file, messages, 3), -EOPNOTSUPP);
    messages[1].flags = I2C_M_NOSTART;
    IS(transfer(file, messages, 3), -EOPNOTSUPP);
    messages[1] = (struct i2c_msg){ 0xd8, 0, 0, NULL };
    IS(transfer(file, messages, 3), -EINVAL);
    messages[1] = (struct i2c_msg){ 0x59, I2C_M_RECV_LEN, 33, bytes[0] };
    IS(transfer(file, messages, 3), -EINVAL);
    IS(smbus(file, 0, 0, 9, bytes[0]), -EINVAL);
    IS(smbus(file, 2, 0, I2C_SMBUS_BYTE_DATA, bytes[0]), -EINVAL);
    IS(smbus(file, 1, 0x88, I2C_SMBUS_WORD_DATA, NULL), -EINVAL);
    IS(read_byte(file, 0x7e), 0x20); /* of a third 00h, which is no packet error code of PAGE 00h */
    IS(write_byte(file, 0x7e, 0x20), 0);
}

static void pointers(int file)
{
    uint8_t *wall = mmap(NULL, 4096, PROT_NONE, MAP_PRIVATE | MAP_ANONYMOUS, -1, 0);
    uint8_t room[200], word[3], code = 0x88;
    struct i2c_msg both[2] = { { 0x58, 0, 1, &code }, { 0x58, I2C_M_RD, 2, word + 1 } };
    struct i2c_rdwr_ioctl_data call = { NULL, 2 };
    struct i2c_smbus_ioctl_data access = { 1, 0x88, I2C_SMBUS_WORD_DATA, NULL };
    IS(result(ioctl(file, I2C_FUNCS, wall)), -EFAULT);
    IS(result(ioctl(file, I2C_RDWR, NULL)), -EFAULT);
    IS(result(ioctl(file, I2C_RDWR, wall)), -EFAULT);
    IS(result(ioctl(file, I2C_SMBUS, wall)), -EFAULT);
    IS(transfer(file, (struct i2c_msg *)wall, 1), -EFAULT);
    IS(put(file, wall, 1), -EFAULT);
    IS(get(file, 0x88, 0, wall, 2), -EFAULT);
    IS(smbus(file, 1, 0x88, I2C_SMBUS_WORD_DATA, wall), -EFAULT);
    IS(smbus(file, 0, 0x21, I2C_SMBUS_WORD_DATA, wall), -EFAULT);
    IS(result(write(file, wall, 2)), -EFAULT);
    /* all at odd addresses: the calls, the messages, and the data */
    memcpy(room + 33, both, sizeof both);
    call.msgs = (struct i2c_msg *)(room + 33);
    memcpy(room + 1, &call, sizeof call);
    memset(word, 0, sizeof word);
    IS(result(ioctl(file, I2C_RDWR, room + 1)), 2);
    IS(word[1] | word[2] << 8, 0xd300);
    memset(word, 0, sizeof word);
    access.data = (union i2c_smbus_data *)(word + 1);
    memcpy(room + 1, &access, sizeof access);
    IS(result(ioctl(file, I2C_SMBUS, room + 1)), 0);
    IS(word[1] | word[2] << 8, 0xd300);
    IS(result(ioctl(file, I2C_FUNCS, room + 1)), 0);
    munmap(wall, 4096);
}

static void read_and_write(int file)
{
    static uint8_t bytes[20000] = { 0x21, 0x34, 0x12 };
    int reader = open(path, O_RDONLY | O_CLOEXEC), writer = open(path, O_WRONLY | O_CLOEXEC);
    IS(result(write(file, bytes, 3)), 3);
    IS(read_word(file, 0x21), 0x1234);
    IS(result(write(file, bytes, 1)), 1);
    IS(result(read(file, bytes, 2)), -ENXIO);
    IS(result(write(file, "\0\7", 2)), -EREMOTEIO);
    IS(write_byte(file, 0x7e, 0x40), 0);
    IS(result(write(file, bytes, 0)), 0);
    bytes[0] = 0x99;
    bytes[1] = 255;
    IS(result(write(file, bytes, sizeof bytes)), -EREMOTEIO);
    IS(write_byte(file, 0x7e, 0xff), 0);
    IS(fcntl(reader, F_GETFD), FD_CLOEXEC);
    IS(set(reader, I2C_SLAVE, 0x58), 0);
    IS(set(writer, I2C_SLAVE, 0x58), 0);
    IS(result(write(reader, bytes, 1)), -EBADF);
    IS(result(read(writer, bytes, 1)), -EBADF);
    IS(result(write(writer, "\x03", 1)), 1);
    IS(read_word(reader, 0x88), 0xd300);
    IS(close(reader), 0);
    IS(close(writer), 0);
    IS(result(read(reader, bytes, 1)), -EBADF);
    IS(set(reader, I2C_SLAVE, 0x58), -EBADF);
}

/* ---- one open file, by several descriptors and processes */

static int ended(pid_t process)
{
    int reported = 0;
    waitpid(process, &reported, 0);
    return WIFEXITED(reported) ? WEXITSTATUS(reported) : 255;
}

static void copies(int file)
{
    int copy = dup(file), other = fcntl(file, F_DUPFD, 100), last = open(path, O_RDWR);
    FILE *stream;
    IS(set(copy, I2C_SLAVE, 0x59), 0);
    IS(read_word(file, 0x88), 0); /* the address is that of the open file */
    IS(set(file, I2C_SLAVE, 0x58), 0);
    IS(read_word(other, 0x88), 0xd300);
    IS(read_word(last, 0x88), -ENXIO); /* another open file has its own, which is 0 */
    stream = fdopen(copy, "r+");
    IS(stream != NULL, 1);
    IS(fclose(stream), 0);
    IS(set(copy, I2C_SLAVE, 0x58), -EBADF);
    IS(read_word(other, 0x88), 0xd300);
    IS(close(other), 0);
    IS(read_word(file, 0x88), 0xd300);
    IS(dup2(file, last), last);
    IS(read_word(last, 0x88), 0xd300);
    IS(dup2(STDIN_FILENO, last), last);
    IS(set(last, I2C_SLAVE, 0x58) < 0, 1);
    IS(close(last), 0);
    /* the number of a closed one is another file's */
    copy = dup(file);
    close(copy);
    IS(open("/dev/null", O_RDWR), copy);
    IS(set(copy, I2C_SLAVE, 0x58), -ENOTTY);
    IS(result(write(copy, "ab", 2)), 2);
    close(copy);
}

/* Reads a command again and again, and counts what is wrong. */
static int read_often(int file, uint8_t command, uint16_t wanted)
{
    int wrong = 0;
    for (int i = 0; i < 300; i++) {
        uint8_t word[2] = { 0, 0 };
        if (get(file, command, 0, word, 2) != 2 || (word[0] | word[1] << 8) != wanted)
            wrong++;
    }
    return wrong;
}

struct work {
    int file;
    uint8_t command;
    int wrong;
};

static void *work_on(void *given)
{
    struct work *work = given;
    work->wrong = read_often(work->file, work->command, (uint16_t)(work->command * 0x0101));
    return NULL;
}

static void side_by_side(int file)
{
    static const uint8_t commands[] = { 0x21, 0x24, 0x25, 0x26 };
    struct work work[4];
    pthread_t threads[4];
    pid_t processes[4];
    for (int i = 0; i < 4; i++)
        IS(write_word(file, commands[i], (uint16_t)(commands[i] * 0x0101)), 0);
    for (int i = 0; i < 4; i++) {
        processes[i] = fork();
        if (processes[i] == 0)
            _exit(read_often(file, commands[i], (uint16_t)(commands[i] * 0x0101)) != 0);
    }
    for (int i = 0; i < 4; i++) {
        work[i] = (struct work){ file, commands[i], 0 };
        IS(pthread_create(&threads[i], NULL, work_on, &work[i]), 0);
    }
    for (int i = 0; i < 4; i++) {
        pthread_join(threads[i], NULL);
        IS(work[i].wrong, 0);
        IS(ended(processes[i]), 0);
    }
}

/* Sends a descriptor to a process that has none of the bus. */
static void sent(int file)
{
    union {
        struct cmsghdr head;
        char room[CMSG_SPACE(sizeof(int))];
    } control = { { 0 } };
    char byte = 0;
    struct iovec part = { &byte, 1 };
    struct msghdr packet = { .msg_iov = &part,
                             .msg_iovlen = 1,
                             .msg_control = control.room,
                             .msg_controllen = sizeof control.room };
    int pair[2];
    IS(socketpair(AF_UNIX, SOCK_STREAM, 0, pair), 0);
    pid_t process = fork();
    if (process == 0) {
        int got;
        close(file);
        close(pair[0]);
        if (recvmsg(pair[1], &packet, 0) != 1 || CMSG_FIRSTHDR(&packet) == NULL)
            _exit(2);
        memcpy(&got, CMSG_DATA(CMSG_FIRSTHDR(&packet)), sizeof got);
        _exit(read_word(got, 0x88) != 0xd300);
    }
    close(pair[1]);
    control.head.cmsg_len = CMSG_LEN(sizeof file);
    control.head.cmsg_level = SOL_SOCKET;
    control.head.cmsg_type = SCM_RIGHTS;
    memcpy(CMSG_DATA(&control.head), &file, sizeof file);
    IS(result(sendmsg(pair[0], &packet, 0)), 1);
    close(pair[0]);
    IS(ended(process), 0);
}

static void processes(int file)
{
    char number[12];
    pid_t process = fork();
    if (process == 0)
        _exit(read_word(file, 0x88) != 0xd300 || set(file, I2C_SLAVE, 0x59) != 0);
    IS(ended(process), 0);
    IS(read_word(file, 0x88), 0); /* the child has set the address for both */
    IS(set(file, I2C_SLAVE, 0x58), 0);
    process = fork();
    if (process == 0) {
        snprintf(number, sizeof number, "%d", file);
        execl("/proc/self/exe", "calls", "--inherited", number, (char *)NULL);
        _exit(2);
    }
    IS(ended(process), 0);
    sent(file);
    IS(read_word(file, 0x88), 0xd300);
}

int main(int count, char **words)
{
    if (count == 3 && strcmp(words[1], "--inherited") == 0)
        return read_word(atoi(words[2]), 0x88) != 0xd300;
    path = count > 1 ? words[1] : "/dev/i2c-0";
    int file = open(path, O_RDWR);
    if (file < 0) {
        perror(path);
        return 1;
    }
    plain(file);
    numbers(file);
    codes(file);
    blocks(file);
    limits(file);
    pointers(file);
    read_and_write(file);
    copies(file);
    side_by_side(file);
    processes(file);
    IS(close(file), 0);
    IS(set(file, I2C_SLAVE, 0x58), -EBADF);
    printf("%d passed, %d failed\n", passed, failed);
    return failed != 0;
}
