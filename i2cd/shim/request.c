/* request.c: the calls of a program on its bus, as requests to pmb-i2cd, which wire.h has.
 *
 * Memory of the program is read and written by process_vm_readv and process_vm_writev, or by the
 * kernel with the packets: a bad pointer is EFAULT, as it is for a real device. */
#define _GNU_SOURCE
#include "request.h"

#include <errno.h>
#include <poll.h>
#include <stdint.h>
#include <string.h>
#include <sys/socket.h>
#include <sys/uio.h>
#include <unistd.h>

#include "../wire.h"

/* ---- the program's memory */

/* Copies from the program's memory. Returns 0, or EFAULT below 0. */
static int fetch(void *to, const void *from, size_t length)
{
    struct iovec here = { to, length }, there = { (void *)(uintptr_t)from, length };
    ssize_t count = process_vm_readv(getpid(), &here, 1, &there, 1, 0);
    if (count < 0 && errno != EFAULT && from != NULL) {
        memcpy(to, from, length); /* the kernel has no such call, or a sandbox refuses it */
        return 0;
    }
    return count == (ssize_t)length ? 0 : -EFAULT;
}

/* Copies to the program's memory. */
static int store(void *to, const void *from, size_t length)
{
    struct iovec here = { (void *)(uintptr_t)from, length }, there = { to, length };
    ssize_t count = process_vm_writev(getpid(), &here, 1, &there, 1, 0);
    if (count < 0 && errno != EFAULT && to != NULL) {
        memcpy(to, from, length);
        return 0;
    }
    return count == (ssize_t)length ? 0 : -EFAULT;
}

/* ---- packets */

static ssize_t send_whole(int connection, const struct msghdr *packet)
{
    for (;;) {
        ssize_t count = sendmsg(connection, packet, MSG_NOSIGNAL);
        if (count >= 0)
            return count;
        if (errno == EAGAIN) { /* the program has made it one that doesn't wait */
            struct pollfd room = { connection, POLLOUT, 0 };
            poll(&room, 1, -1);
        } else if (errno != EINTR) {
            return -1;
        }
    }
}

/* Sends a request with the end for its reply. Returns 0, or an errno below 0. */
static int send_request(int connection, struct wire_request head, const struct iovec *data,
                        size_t count, int reply)
{
    union {
        struct cmsghdr head;
        char room[CMSG_SPACE(sizeof(int))];
    } control = { { 0 } };
    struct iovec parts[2 + MOST_MESSAGES] = { { &head, sizeof head } };
    struct msghdr packet = { .msg_iov = parts,
                             .msg_iovlen = 1 + count,
                             .msg_control = control.room,
                             .msg_controllen = sizeof control.room };
    size_t length = 0;
    control.head.cmsg_len = CMSG_LEN(sizeof reply);
    control.head.cmsg_level = SOL_SOCKET;
    control.head.cmsg_type = SCM_RIGHTS;
    memcpy(CMSG_DATA(&control.head), &reply, sizeof reply);
    for (size_t i = 0; i < count; i++) {
        parts[1 + i] = data[i];
        length += data[i].iov_len;
    }
    if (length > 65536) {
        int size = WIRE_BUFFER;
        setsockopt(connection, SOL_SOCKET, SO_SNDBUF, &size, sizeof size);
    }
    if (send_whole(connection, &packet) >= 0)
        return 0;
    switch (errno) {
    case EFAULT:
        return -EFAULT;
    case EMSGSIZE:
    case ENOBUFS:
    case ENOMEM:
    case ETOOMANYREFS:
        return -ENOMEM;
    default:
        return -ENODEV; /* the server is gone */
    }
}

/* Takes the reply, and what follows its head, into so many places. */
static int take_reply(int reply, const struct iovec *data, size_t count)
{
    struct wire_reply head = { 0, 0 };
    struct iovec parts[1 + MOST_MESSAGES] = { { &head, sizeof head } };
    struct msghdr packet = { .msg_iov = parts, .msg_iovlen = 1 + count };
    size_t room = 0;
    ssize_t length;
    for (size_t i = 0; i < count; i++) {
        parts[1 + i] = data[i];
        room += data[i].iov_len;
    }
    do {
        length = recvmsg(reply, &packet, 0);
    } while (length < 0 && errno == EINTR);
    /* The server sends the reply, and closes its end. Where both happen between two looks of the kernel, first
     * for a packet and then for the end, a wait returns the end (__skb_wait_for_more_packets of
     * net/core/datagram.c), and the packet is there all the same. */
    if (length == 0)
        length = recvmsg(reply, &packet, MSG_DONTWAIT);
    if (length < 0 && (errno == ENOMEM || errno == ENOBUFS))
        return -ENOMEM;
    if (length < 0)
        return errno == EFAULT ? -EFAULT : -ENODEV;
    if ((size_t)length < sizeof head) /* the server is gone, or has ended the connection */
        return -ENODEV;
    if (head.result >= 0 && (head.length != room || (size_t)length != sizeof head + room))
        return -ENODEV;
    return head.result;
}

/* One request and its reply, with what follows their heads. Returns what the server says. */
static int ask(int connection, struct wire_request head, const struct iovec *out, size_t outs,
               const struct iovec *in, size_t ins)
{
    int pair[2];
    if (socketpair(AF_UNIX, SOCK_SEQPACKET | SOCK_CLOEXEC, 0, pair) != 0)
        return -ENOMEM;
    int result = send_request(connection, head, out, outs, pair[1]);
    /* (only the server holds that end now: where it closes it, nothing comes any more) */
    close(pair[1]);
    if (result == 0)
        result = take_reply(pair[0], in, ins);
    close(pair[0]);
    return result;
}

/* ---- calls */

static struct wire_request request_of(uint32_t kind, uint64_t argument)
{
    return (struct wire_request){ WIRE_MARK, kind, argument };
}

static int ask_functions(int connection, void *mask)
{
    uint64_t functions = 0;
    struct iovec in = { &functions, sizeof functions };
    int result = ask(connection, request_of(I2C_FUNCS, 0), NULL, 0, &in, 1);
    unsigned long value = (unsigned long)functions;
    return result < 0 ? result : store(mask, &value, sizeof value);
}

static int ask_smbus(int connection, const void *argument)
{
    struct i2c_smbus_ioctl_data call;
    struct wire_smbus access = { 0 };
    uint8_t data[sizeof access.data];
    struct iovec out = { &access, sizeof access }, in = { data, sizeof data };
    if (fetch(&call, argument, sizeof call) != 0)
        return -EFAULT;
    size_t length = smbus_data_length(call.size);
    access.size = call.size;
    access.read_write = call.read_write;
    access.command = call.command;
    access.has_data = call.data != NULL && !smbus_has_no_data(call.size, call.read_write);
    if (access.has_data && smbus_takes_data(call.size, call.read_write) &&
        fetch(access.data, call.data, length) != 0)
        return -EFAULT;
    int result = ask(connection, request_of(I2C_SMBUS, 0), &out, 1, &in, 1);
    if (result == 0 && access.has_data && smbus_gives_data(call.size, call.read_write))
        return store(call.data, data, length);
    return result;
}

/* The kernel fetches the buffers of all messages before a transfer, those that are read too; so they are
 * all sent. What was read comes back into them. */
static int ask_transfer(int connection, const void *argument)
{
    struct i2c_rdwr_ioctl_data call;
    struct i2c_msg messages[MOST_MESSAGES];
    struct wire_message heads[MOST_MESSAGES];
    struct iovec out[1 + MOST_MESSAGES], in[MOST_MESSAGES];
    size_t ins = 0;
    if (fetch(&call, argument, sizeof call) != 0)
        return -EFAULT;
    if (call.msgs == NULL || call.nmsgs == 0 || call.nmsgs > MOST_MESSAGES)
        return -EINVAL;
    if (fetch(messages, call.msgs, call.nmsgs * sizeof *messages) != 0)
        return -EFAULT;
    out[0] = (struct iovec){ heads, call.nmsgs * sizeof *heads };
    for (size_t i = 0; i < call.nmsgs; i++) {
        struct i2c_msg *message = &messages[i];
        if (message->len > MOST_LENGTH)
            return -EINVAL;
        heads[i] = (struct wire_message){ message->addr, message->flags, message->len, 0 };
        out[1 + i] = (struct iovec){ message->buf, message->len };
        if (message->flags & I2C_M_RD)
            in[ins++] = out[1 + i];
    }
    return ask(connection, request_of(I2C_RDWR, call.nmsgs), out, 1 + call.nmsgs, in, ins);
}

ssize_t ask_read(int connection, void *bytes, size_t length)
{
    struct iovec in = { bytes, length < MOST_LENGTH ? length : MOST_LENGTH };
    return ask(connection, request_of(WIRE_READ, in.iov_len), NULL, 0, &in, 1);
}

ssize_t ask_write(int connection, const void *bytes, size_t length)
{
    struct iovec out = { (void *)(uintptr_t)bytes, length < MOST_LENGTH ? length : MOST_LENGTH };
    return ask(connection, request_of(WIRE_WRITE, out.iov_len), &out, 1, NULL, 0);
}

int ask_ioctl(int connection, uint32_t request, void *argument)
{
    switch (request) {
    case I2C_SLAVE:
    case I2C_SLAVE_FORCE:
    case I2C_TENBIT:
    case I2C_PEC:
    case I2C_RETRIES:
    case I2C_TIMEOUT:
        return ask(connection, request_of(request, (uintptr_t)argument), NULL, 0, NULL, 0);
    case I2C_FUNCS:
        return ask_functions(connection, argument);
    case I2C_SMBUS:
        return ask_smbus(connection, argument);
    case I2C_RDWR:
        return ask_transfer(connection, argument);
    default:
        return -ENOTTY;
    }
}
