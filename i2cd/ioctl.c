/* ioctl.c: the ioctls of i2c-dev over /dev/cuse.
 *
 * They have pointers. The kernel gives only what these point to if it is asked: the reply
 * says which memory of the program is wanted and which is to be written (FUSE_IOCTL_RETRY), and the
 * request comes again, with that. So I2C_RDWR comes four times: bare, with the struct, with its
 * messages, and with their buffers. Nothing is kept in between; a request that comes has all, or more
 * is asked for. That way the kernel gives 128 KB at most. For a longer transfer the program's memory is
 * read and written by process_vm_readv and process_vm_writev, as far as the server may do that. */
#define _GNU_SOURCE
#include <errno.h>
#include <string.h>
#include <unistd.h>

#include "fuse.h"
#include "kernel.h"

/* An ioctl under way: what came of the program's memory, and what is asked for. */
struct call {
    const struct request *request;
    struct fuse_ioctl_in head;
    uint8_t *in;
    struct fuse_ioctl_iovec wanted[2 + 2 * MOST_MESSAGES];
    uint32_t ins, outs; /* how many of them are to be read, and then to be written */
    uint64_t in_length, out_length;
};

/* The end of an ioctl: what it returns, and what is written to the program's memory, in up to
 * MOST_MESSAGES parts. */
static void reply_call(const struct cuse *cuse, const struct call *call, int result,
                       const struct iovec *data, size_t count)
{
    struct fuse_ioctl_out out = { .result = result };
    struct iovec parts[1 + MOST_MESSAGES] = { { &out, sizeof out } };
    for (size_t i = 0; i < count; i++)
        parts[1 + i] = data[i];
    if (result < 0)
        reply_error(cuse, call->request, result);
    else
        reply(cuse, call->request, 0, parts, 1 + count);
}

/* ---- the program's memory */

/* The call wants so many bytes there, to read them; or to write them, once all of those are named. */
static void want_in(struct call *call, uint64_t base, size_t length)
{
    if (length > 0)
        call->wanted[call->ins++] = (struct fuse_ioctl_iovec){ base, length };
    call->in_length += length;
}

static void want_out(struct call *call, uint64_t base, size_t length)
{
    if (length > 0)
        call->wanted[call->ins + call->outs++] = (struct fuse_ioctl_iovec){ base, length };
    call->out_length += length;
}

/* Whether the request came with all that is wanted. If not, that is asked for. */
static int has_wanted(const struct cuse *cuse, struct call *call)
{
    struct fuse_ioctl_out out = { 0, FUSE_IOCTL_RETRY, call->ins, call->outs };
    struct iovec parts[2] = { { &out, sizeof out },
                              { call->wanted, (call->ins + call->outs) * sizeof *call->wanted } };
    if (call->head.in_size == call->in_length && call->head.out_size == call->out_length)
        return 1;
    reply(cuse, call->request, 0, parts, 2);
    return 0;
}

/* ---- ioctl */

static void functions(const struct cuse *cuse, struct call *call)
{
    unsigned long mask = ADAPTER_FUNCTIONS;
    struct iovec data = { &mask, sizeof mask };
    want_out(call, call->head.arg, sizeof mask);
    if (has_wanted(cuse, call))
        reply_call(cuse, call, 0, &data, 1);
}

static void smbus(const struct cuse *cuse, struct call *call, const struct open_file *file)
{
    struct i2c_smbus_ioctl_data access;
    union i2c_smbus_data data;
    size_t length = 0;
    memset(&data, 0, sizeof data);
    want_in(call, call->head.arg, sizeof access);
    if (call->head.in_size < call->in_length) {
        has_wanted(cuse, call);
        return;
    }
    memcpy(&access, call->in, sizeof access);
    int has_data = access.data && !smbus_has_no_data(access.size, access.read_write);
    if (has_data) {
        length = smbus_data_length(access.size);
        if (smbus_takes_data(access.size, access.read_write))
            want_in(call, (uintptr_t)access.data, length);
        if (smbus_gives_data(access.size, access.read_write))
            want_out(call, (uintptr_t)access.data, length);
    }
    if (!has_wanted(cuse, call))
        return;
    memcpy(&data, call->in + sizeof access, call->in_length - sizeof access);
    int result = file_smbus(file, cuse->adapter, access.read_write, access.command, access.size,
                            has_data ? &data : NULL);
    struct iovec part = { &data, (size_t)call->out_length };
    reply_call(cuse, call, result, &part, 1);
}

/* Names the buffers of a transfer's messages: all are fetched, and those that are read are written.
 * Returns 0, or EINVAL below 0. */
static int want_buffers(struct call *call, const struct i2c_msg *messages, size_t count)
{
    for (size_t i = 0; i < count; i++) {
        if (messages[i].len > MOST_LENGTH)
            return -EINVAL;
        want_in(call, (uintptr_t)messages[i].buf, messages[i].len);
    }
    for (size_t i = 0; i < count; i++)
        if (messages[i].flags & I2C_M_RD)
            want_out(call, (uintptr_t)messages[i].buf, messages[i].len);
    return 0;
}

/* Copies the messages' memory, as it is wanted: all that is written and read to `buffers`, or what was
 * read back from there. Returns 0, or an errno below 0. */
static int copy_buffers(const struct call *call, uint32_t first, uint32_t count, struct iovec *buffers,
                        size_t parts, int is_back)
{
    struct iovec there[MOST_MESSAGES];
    pid_t program = (pid_t)call->request->head.pid;
    ssize_t length = 0;
    for (uint32_t i = 0; i < count; i++) {
        const struct fuse_ioctl_iovec *wanted = &call->wanted[first + i];
        there[i] = (struct iovec){ (void *)(uintptr_t)wanted->base, wanted->len };
        length += (ssize_t)wanted->len;
    }
    ssize_t copied = is_back ? process_vm_writev(program, buffers, parts, there, count, 0)
                             : process_vm_readv(program, buffers, parts, there, count, 0);
    if (copied < 0 && errno != EFAULT)
        return -ENOMEM; /* the server may not do that: it is as where the kernel is asked for more */
    return copied == length ? 0 : -EFAULT;
}

/* The transfer itself, whose messages are in `buffers`, one after the other. What was read is in
 * `read`. Returns what the call returns. */
static int do_transfer(const struct cuse *cuse, struct i2c_msg *messages, size_t count,
                       uint8_t *buffers, struct iovec *read, size_t *parts)
{
    *parts = 0;
    for (size_t i = 0; i < count; i++) {
        messages[i].buf = buffers;
        if (messages[i].flags & I2C_M_RD)
            read[(*parts)++] = (struct iovec){ buffers, messages[i].len };
        buffers += messages[i].len;
    }
    return file_transfer(cuse->adapter, messages, count);
}

/* A transfer that is too long for the kernel's way. Its messages want what comes from `first` on. */
static void transfer_long(const struct cuse *cuse, struct call *call, struct i2c_msg *messages,
                          size_t count, uint32_t first)
{
    static uint8_t bytes[MOST_MESSAGES * MOST_LENGTH];
    struct iovec whole = { bytes, sizeof bytes }, read[MOST_MESSAGES];
    size_t parts = 0;
    int result = copy_buffers(call, first, call->ins - first, &whole, 1, 0);
    if (result == 0)
        result = do_transfer(cuse, messages, count, bytes, read, &parts);
    if (result >= 0) {
        int copied = copy_buffers(call, call->ins, call->outs, read, parts, 1);
        result = copied < 0 ? copied : result;
    }
    reply_call(cuse, call, result, NULL, 0);
}

/* A transfer. As in i2c-dev the buffers of all messages are fetched before it, those that are read too:
 * with a bad pointer nothing goes over the bus. */
static void transfer(const struct cuse *cuse, struct call *call)
{
    struct i2c_rdwr_ioctl_data all;
    struct i2c_msg messages[MOST_MESSAGES] = { { 0, 0, 0, NULL } };
    struct iovec read[MOST_MESSAGES];
    size_t parts = 0;
    want_in(call, call->head.arg, sizeof all);
    if (call->head.in_size < call->in_length) {
        has_wanted(cuse, call);
        return;
    }
    memcpy(&all, call->in, sizeof all);
    if (all.msgs == NULL || all.nmsgs == 0 || all.nmsgs > MOST_MESSAGES) {
        reply_error(cuse, call->request, -EINVAL);
        return;
    }
    want_in(call, (uintptr_t)all.msgs, all.nmsgs * sizeof *messages);
    if (call->head.in_size < call->in_length) {
        has_wanted(cuse, call);
        return;
    }
    memcpy(messages, call->in + sizeof all, all.nmsgs * sizeof *messages);
    uint8_t *buffers = call->in + call->in_length;
    uint32_t first = call->ins;
    if (want_buffers(call, messages, all.nmsgs) != 0) {
        reply_error(cuse, call->request, -EINVAL);
    } else if (call->in_length > MOST_DATA || call->out_length > MOST_DATA) {
        transfer_long(cuse, call, messages, all.nmsgs, first);
    } else if (has_wanted(cuse, call)) {
        int result = do_transfer(cuse, messages, all.nmsgs, buffers, read, &parts);
        reply_call(cuse, call, result, read, parts);
    }
}

void serve_ioctl(struct cuse *cuse, const struct request *request)
{
    struct call call = { .request = request };
    if (request->length < sizeof call.head) {
        reply_error(cuse, request, -EIO);
        return;
    }
    memcpy(&call.head, request->body, sizeof call.head);
    call.in = request->body + sizeof call.head;
    int has_pointers =
        call.head.cmd == I2C_FUNCS || call.head.cmd == I2C_SMBUS || call.head.cmd == I2C_RDWR;
    if (call.head.fh >= MOST_CUSE_FILES || !cuse->file[call.head.fh].is_open ||
        request->length - sizeof call.head < call.head.in_size) {
        reply_error(cuse, request, -EIO);
        return;
    }
    struct open_file *file = &cuse->file[call.head.fh].file;
    if (has_pointers && (call.head.flags & FUSE_IOCTL_COMPAT))
        reply_error(cuse, request, -ENOTTY); /* the pointers of a 32-bit program are others */
    else if (call.head.cmd == I2C_FUNCS)
        functions(cuse, &call);
    else if (call.head.cmd == I2C_SMBUS)
        smbus(cuse, &call, file);
    else if (call.head.cmd == I2C_RDWR)
        transfer(cuse, &call);
    else
        reply_call(cuse, &call, file_control(file, call.head.cmd, call.head.arg), NULL, 0);
}
