/* fuzz_calls.c: inputs of all kinds for the two places where pmb-i2cd takes what others write: packets of
 * its socket (server.c, request.c), and requests of /dev/cuse with the ioctls of programs (cuse.c,
 * ioctl.c), which come again with memory of the program as the kernel has them. Each request has to have
 * a reply of the right form, and what is no request ends its connection alone; the sanitizers find the rest.
 *
 * It is a target of libFuzzer (clang -fsanitize=fuzzer); with OWN_MAIN it needs none, and changes the
 * inputs at random. .ci/fuzz builds and runs it; corpus.txt has the inputs that are kept.
 *
 * The first byte of an input says which place, and then come steps. Where the input has ended there are
 * zeros. */
#define _GNU_SOURCE
#include <errno.h>
#include <fcntl.h>
#include <poll.h>
#include <stdio.h>
#include <stdlib.h>
#include <string.h>
#include <sys/socket.h>
#include <sys/uio.h>
#include <unistd.h>

#include <linux/fuse.h>

#include "../adapter.h"
#include "../cuse.h"
#include "../server.h"
#include "../wire.h"

/* The most steps of an input. */
#define MOST_STEPS 48

/* The longest request of the kernel, as cuse.c has it. */
#define MOST_FUSE (sizeof(struct fuse_in_header) + 4096 + 131072)

static const char board[] = "[[device]]\naddress = 0x58\npec = 'optional'\npages = 2\nvout_mode = 0x17\n"
                            "[[device.command]]\nname = 'READ_VIN'\ninitial = '00d3'\n"
                            "[[device.command]]\ncode = 0xd1\nname = 'NOTES'\nwrite = 'block'\nread = 'block'\n"
                            "[[device]]\naddress = 0x59\npec = 'off'\n[[device]]\naddress = 0x5a\npec = 'on'\n";

static struct adapter adapter;

static void wrong(const char *what)
{
    dprintf(STDERR_FILENO, "fuzz_calls: %s\n", what);
    abort();
}

/* ---- the input */

static const uint8_t *input;
static size_t left;

static uint8_t next_byte(void)
{
    if (left == 0)
        return 0;
    left--;
    return *input++;
}

static uint16_t next_word(void)
{
    uint16_t low = next_byte();
    return (uint16_t)(low | next_byte() << 8);
}

static void next_bytes(void *to, size_t length)
{
    size_t there = length < left ? length : left;
    if (length == 0)
        return;
    memset(to, 0, length);
    memcpy(to, input, there);
    input += there;
    left -= there;
}

/* ---- packets */

/* How long the reply to a request is that doesn't fail; -1 where the packet is no request. */
static long reply_length(const uint8_t *packet, size_t length)
{
    struct wire_request head;
    size_t body = length - sizeof head, sum = 0;
    long given = 0;
    if (length < sizeof head)
        return -1;
    memcpy(&head, packet, sizeof head);
    if (head.mark != WIRE_MARK)
        return -1;
    switch (head.kind) {
    case I2C_SLAVE:
    case I2C_SLAVE_FORCE:
    case I2C_TENBIT:
    case I2C_PEC:
    case I2C_RETRIES:
    case I2C_TIMEOUT:
        return body == 0 ? 0 : -1;
    case I2C_FUNCS:
        return body == 0 ? 8 : -1;
    case I2C_SMBUS:
        return body == sizeof(struct wire_smbus) ? 36 : -1;
    case WIRE_READ:
        return body == 0 && head.argument <= MOST_LENGTH ? (long)head.argument : -1;
    case WIRE_WRITE:
        return head.argument == body && body <= MOST_LENGTH ? 0 : -1;
    case I2C_RDWR:
        break;
    default:
        return -1;
    }
    if (head.argument < 1 || head.argument > MOST_MESSAGES ||
        body < head.argument * sizeof(struct wire_message))
        return -1;
    for (size_t i = 0; i < head.argument; i++) {
        struct wire_message message;
        memcpy(&message, packet + sizeof head + i * sizeof message, sizeof message);
        if (message.length > MOST_LENGTH)
            return -1;
        sum += sizeof message + message.length;
        given += message.flags & I2C_M_RD ? message.length : 0;
    }
    return sum == body ? given : -1;
}

/* Whether the reply is one to a request whose reply has so many bytes. */
static void judge_reply(const uint8_t *bytes, ssize_t count, long length)
{
    struct wire_reply head;
    if (count < (ssize_t)sizeof head)
        wrong("a request has no reply");
    memcpy(&head, bytes, sizeof head);
    if (count != (ssize_t)(sizeof head + head.length) || head.result > MOST_LENGTH || head.result < -134 ||
        head.length != (head.result < 0 ? 0 : length))
        wrong("a reply has another form");
}

/* Sends a packet with some descriptors. */
static int send_packet(int connection, uint8_t *packet, size_t length, const int *descriptors, size_t count)
{
    union {
        struct cmsghdr head;
        char room[CMSG_SPACE(8 * sizeof(int))];
    } control;
    struct iovec whole = { packet, length };
    struct msghdr all = { .msg_iov = &whole, .msg_iovlen = 1 };
    memset(&control, 0, sizeof control);
    if (count > 0) {
        all.msg_control = control.room;
        all.msg_controllen = CMSG_SPACE(count * sizeof(int));
        control.head.cmsg_len = CMSG_LEN(count * sizeof(int));
        control.head.cmsg_level = SOL_SOCKET;
        control.head.cmsg_type = SCM_RIGHTS;
        memcpy(CMSG_DATA(&control.head), descriptors, count * sizeof(int));
    }
    return sendmsg(connection, &all, MSG_DONTWAIT | MSG_NOSIGNAL) == (ssize_t)length;
}

/* One packet: how many descriptors come with it, its length, and its bytes. */
static void try_packet(struct server *server, int connection)
{
    static uint8_t packet[MOST_REQUEST + 4096], bytes[MOST_REQUEST];
    uint8_t kind = next_byte();
    size_t length = (size_t)next_word() * (kind & 8 ? 6 : 1), others = (kind & 7) < 5 ? 1 : (kind & 7) * 2u - 10;
    int pair[2];
    length = length < sizeof packet ? length : sizeof packet;
    next_bytes(packet, length);
    if (socketpair(AF_UNIX, SOCK_SEQPACKET | SOCK_CLOEXEC, 0, pair) != 0)
        return;
    int sent[] = { pair[1], pair[1], pair[1], pair[1] };
    if (send_packet(connection, packet, length, sent, others)) {
        struct pollfd polls[2] = { { -1, 0, 0 }, { server->client[0].socket, POLLIN, POLLIN } };
        server_serve(server, polls, 2);
        long right = others == 1 && length <= MOST_REQUEST ? reply_length(packet, length) : -1;
        ssize_t count = recv(pair[0], bytes, sizeof bytes, MSG_DONTWAIT);
        if (right >= 0 && server->count == 0)
            wrong("a request ends its connection");
        if (right < 0 && (server->count == 1 || count > 0))
            wrong("what is no request has a reply, or leaves its connection");
        if (right >= 0)
            judge_reply(bytes, count, right);
    }
    close(pair[0]);
    close(pair[1]);
}

static void try_packets(void)
{
    static struct server server;
    int pair[2] = { -1, -1 };
    server.adapter = &adapter;
    server.listener = -1;
    server.most = MOST_CLIENTS;
    for (int steps = 0; left > 0 && steps < MOST_STEPS; steps++) {
        if (server.count == 0) {
            int size = WIRE_BUFFER;
            if (pair[0] >= 0)
                close(pair[0]);
            if (socketpair(AF_UNIX, SOCK_SEQPACKET | SOCK_CLOEXEC, 0, pair) != 0)
                return;
            setsockopt(pair[0], SOL_SOCKET, SO_SNDBUF, &size, sizeof size);
            memset(&server.client[0], 0, sizeof server.client[0]);
            server.client[0].socket = pair[1];
            server.count = 1;
        }
        try_packet(&server, pair[0]);
    }
    if (server.count == 1)
        close(server.client[0].socket);
    server.count = 0;
    close(pair[0]);
}

/* ---- requests of the kernel */

static uint8_t request[MOST_FUSE];
static size_t request_length;

/* In place of the C library's: no process is touched. */
static ssize_t moved(const struct iovec *parts, unsigned long count, int is_read)
{
    ssize_t sum = 0;
    if (next_byte() & 1) {
        errno = next_byte() & 1 ? EPERM : EFAULT;
        return -1;
    }
    for (unsigned long i = 0; i < count; i++) {
        if (is_read)
            next_bytes(parts[i].iov_base, parts[i].iov_len);
        sum += (ssize_t)parts[i].iov_len;
    }
    return sum;
}

ssize_t process_vm_readv(pid_t process, const struct iovec *here, unsigned long heres, const struct iovec *there,
                         unsigned long theres, unsigned long flags)
{
    ssize_t length = 0;
    struct iovec part = { here->iov_base, 0 };
    (void)process, (void)heres, (void)flags;
    for (unsigned long i = 0; i < theres; i++)
        length += (ssize_t)there[i].iov_len;
    if ((size_t)length > here->iov_len)
        wrong("more is read of a program than there is room for");
    part.iov_len = (size_t)length;
    return moved(&part, 1, 1);
}

ssize_t process_vm_writev(pid_t process, const struct iovec *here, unsigned long heres, const struct iovec *there,
                          unsigned long theres, unsigned long flags)
{
    (void)process, (void)there, (void)theres, (void)flags;
    return moved(here, heres, 0);
}

/* Begins a request of the kernel. */
static void begin(uint32_t opcode)
{
    struct fuse_in_header head = { .opcode = opcode, .unique = 7, .pid = 1 };
    memcpy(request, &head, sizeof head);
    request_length = sizeof head;
}

static void add(const void *bytes, size_t length)
{
    memcpy(request + request_length, bytes, length);
    request_length += length;
}

/* Whether a request says that more follows than does. */
static int is_cut(void)
{
    struct fuse_in_header head;
    struct fuse_ioctl_in ioctl;
    struct fuse_write_in written;
    size_t length = request_length - sizeof head;
    memcpy(&head, request, sizeof head);
    if (head.opcode == FUSE_IOCTL && length >= sizeof ioctl) {
        memcpy(&ioctl, request + sizeof head, sizeof ioctl);
        return ioctl.in_size > length - sizeof ioctl;
    }
    if (head.opcode != FUSE_WRITE || length < sizeof written)
        return 0;
    memcpy(&written, request + sizeof head, sizeof written);
    return (written.size < MOST_LENGTH ? written.size : MOST_LENGTH) > length - sizeof written;
}

/* Gives a request to the server. Returns the length of its reply, or 0 where it has none. */
static size_t serve(struct cuse *cuse, int kernel, uint8_t *bytes, size_t room)
{
    struct fuse_out_header head;
    struct fuse_in_header asked;
    memcpy(&asked, request, sizeof asked);
    ((struct fuse_in_header *)request)->len = (uint32_t)request_length;
    if (send(kernel, request, request_length, MSG_DONTWAIT) < 0)
        return 0;
    int result = cuse_serve(cuse);
    ssize_t count = recv(kernel, bytes, room, MSG_DONTWAIT);
    if (result == 0 && count < 0 && (asked.opcode == FUSE_INTERRUPT || asked.opcode == FUSE_FORGET))
        return 0;
    if (result != 0)
        wrong("the device is given up");
    if (count < (ssize_t)sizeof head)
        wrong("a request of the kernel has no reply");
    memcpy(&head, bytes, sizeof head);
    if (head.len != (size_t)count || head.unique != asked.unique || head.error > 0 || head.error < -512 ||
        (head.error != 0 && count != sizeof head))
        wrong("a reply to the kernel has another form");
    if (is_cut() && head.error == 0)
        wrong("a request that is cut is done");
    return (size_t)count;
}

/* Puts in what the reply to an ioctl wants of the program's memory. Returns whether it comes again. */
static int answer(struct fuse_ioctl_in *in, const uint8_t *reply, size_t length)
{
    struct fuse_ioctl_out out;
    struct fuse_ioctl_iovec part;
    uint64_t sums[2] = { 0, 0 };
    if (length < sizeof(struct fuse_out_header) + sizeof out)
        return 0;
    reply += sizeof(struct fuse_out_header);
    length -= sizeof(struct fuse_out_header) + sizeof out;
    memcpy(&out, reply, sizeof out);
    if (!(out.flags & FUSE_IOCTL_RETRY)) {
        if (length > in->out_size)
            wrong("more is written to a program than it was asked for");
        return 0;
    }
    if (out.in_iovs + out.out_iovs > FUSE_IOCTL_MAX_IOV || length != (out.in_iovs + out.out_iovs) * sizeof part)
        wrong("the kernel is asked for memory in another form");
    for (uint32_t i = 0; i < out.in_iovs + out.out_iovs; i++) {
        memcpy(&part, reply + sizeof out + i * sizeof part, sizeof part);
        sums[i >= out.in_iovs] += part.len;
    }
    if (sums[0] > 131072 || sums[1] > 131072)
        return 0; /* (the kernel says ENOMEM) */
    in->in_size = (uint32_t)sums[0];
    in->out_size = (uint32_t)sums[1];
    return 1;
}

static void try_ioctl(struct cuse *cuse, int kernel, uint8_t *reply, size_t room)
{
    static const uint32_t commands[] = { I2C_SLAVE, I2C_SLAVE_FORCE, I2C_TENBIT, I2C_PEC, I2C_RETRIES, I2C_TIMEOUT,
                                         I2C_FUNCS, I2C_SMBUS, I2C_SMBUS, I2C_RDWR, I2C_RDWR, I2C_RDWR };
    static uint8_t memory[131072];
    uint8_t command = next_byte(), flags = next_byte();
    struct fuse_ioctl_in in = { .fh = flags >> 4 & 3,
                                .flags = FUSE_IOCTL_UNRESTRICTED | (flags & 1 ? FUSE_IOCTL_COMPAT : 0),
                                .cmd = command < 12 ? commands[command] : command | 0x700u,
                                .arg = next_byte() };
    size_t kept = 0;
    if (flags & 2)
        in.arg = in.arg << 56 | 0xffffffff;
    for (int times = 0; times < 5; times++) {
        begin(FUSE_IOCTL);
        add(&in, sizeof in);
        /* (what came before is the same, but where another thread of the program changes it) */
        kept = flags & 4 || kept > in.in_size ? 0 : kept;
        next_bytes(memory + kept, in.in_size - kept);
        kept = in.in_size;
        add(memory, in.in_size);
        if (!answer(&in, reply, serve(cuse, kernel, reply, room)))
            return;
    }
    if (!(flags & 4))
        wrong("an ioctl is asked for again and again");
}

static void try_request(struct cuse *cuse, int kernel)
{
    static uint8_t reply[MOST_FUSE], bytes[16384];
    uint8_t kind = next_byte();
    struct fuse_release_in release = { .fh = kind >> 4 };
    struct fuse_read_in some = { .fh = kind >> 4 };
    struct fuse_write_in written = { .fh = kind >> 4 };
    switch (kind & 15) {
    case 0: /* any bytes, with any head */
        begin(next_byte() | (next_byte() & 16u) << 8);
        some.size = next_word() % sizeof bytes;
        next_bytes(bytes, some.size);
        add(bytes, some.size);
        break;
    case 1:
        begin(FUSE_OPEN);
        add(&some, sizeof(struct fuse_open_in));
        break;
    case 2:
        begin(FUSE_RELEASE);
        add(&release, sizeof release);
        break;
    case 3:
        begin(FUSE_READ);
        some.size = next_word();
        add(&some, sizeof some);
        break;
    case 4:
        begin(FUSE_WRITE);
        written.size = next_word();
        add(&written, sizeof written);
        next_bytes(bytes, written.size % sizeof bytes);
        add(bytes, written.size % sizeof bytes);
        break;
    default:
        try_ioctl(cuse, kernel, reply, sizeof reply);
        return;
    }
    serve(cuse, kernel, reply, sizeof reply);
}

static void try_requests(void)
{
    static struct cuse cuse;
    int pair[2], size = WIRE_BUFFER;
    if (socketpair(AF_UNIX, SOCK_SEQPACKET | SOCK_CLOEXEC | SOCK_NONBLOCK, 0, pair) != 0)
        return;
    setsockopt(pair[0], SOL_SOCKET, SO_SNDBUF, &size, sizeof size);
    setsockopt(pair[1], SOL_SOCKET, SO_SNDBUF, &size, sizeof size);
    memset(&cuse, 0, sizeof cuse);
    cuse.adapter = &adapter;
    cuse.name = "i2c-0";
    cuse.descriptor = pair[1];
    cuse.file[0].is_open = 1;
    for (int steps = 0; left > 0 && steps < MOST_STEPS; steps++)
        try_request(&cuse, pair[0]);
    close(pair[0]);
    close(pair[1]);
}

/* ---- an input */

int LLVMFuzzerTestOneInput(const uint8_t *data, size_t size);

int LLVMFuzzerTestOneInput(const uint8_t *data, size_t size)
{
    static int has_begun;
    pmb_result told;
    input = data;
    left = size;
    if (!has_begun)
        stderr = fopen("/dev/null", "w"); /* (what the server says of packets that are no requests) */
    has_begun = 1;
    /* (each on a bus as it is at first, so that an input always does the same) */
    if (adapter_open(&adapter, board, sizeof board - 1, &told) != PMB_OK)
        wrong("the board is no profile");
    if (next_byte() & 1)
        try_requests();
    else
        try_packets();
    if (adapter.bus_error != 0 || adapter.log_error != 0)
        wrong("the bus has failed");
    adapter_close(&adapter);
    return 0;
}

/* ---- without libFuzzer */

#ifdef OWN_MAIN
#include <time.h>

/* The inputs, and the one that is tried. */
static struct {
    uint8_t bytes[4096];
    size_t length;
} inputs[2000], tried;

static uint64_t state = 1;

/* splitmix64 */
static unsigned below(unsigned limit)
{
    uint64_t z = state += 0x9e3779b97f4a7c15u;
    z = (z ^ z >> 30) * 0xbf58476d1ce4e5b9u;
    z = (z ^ z >> 27) * 0x94d049bb133111ebu;
    return (unsigned)((z ^ z >> 31) % limit);
}

static void change(void)
{
    unsigned at = tried.length ? below((unsigned)tried.length) : 0;
    switch (below(4)) {
    case 0:
        tried.bytes[at] ^= (uint8_t)(1u << below(8));
        break;
    case 1:
        tried.bytes[at] = (uint8_t)((const unsigned[]){ 0, 1, 0x20, 0x7f, 0x80, 0xff, 0x2a, 0x58 })[below(8)];
        break;
    case 2: /* a piece is left out */
        if (tried.length > 0) {
            size_t length = 1 + below(8);
            length = length < tried.length - at ? length : tried.length - at;
            memmove(tried.bytes + at, tried.bytes + at + length, tried.length - at - length);
            tried.length -= length;
        }
        break;
    default: /* a piece comes twice */
        if (tried.length > 0 && tried.length + 8 <= sizeof tried.bytes) {
            memmove(tried.bytes + at + 8, tried.bytes + at, tried.length - at);
            tried.length += 8;
        }
    }
}

/* fuzz_calls SECONDS SEED INPUT.. */
int main(int count, char **words)
{
    size_t all = 0;
    unsigned long runs = 0;
    if (count < 4)
        return 2;
    for (int i = 3; i < count && all < sizeof inputs / sizeof *inputs; i++) {
        FILE *file = fopen(words[i], "rb");
        if (file == NULL)
            return 2;
        inputs[all].length = fread(inputs[all].bytes, 1, sizeof inputs[all].bytes, file);
        fclose(file);
        LLVMFuzzerTestOneInput(inputs[all].bytes, inputs[all].length);
        all++;
    }
    state = strtoull(words[2], NULL, 10);
    for (time_t end = time(NULL) + atoi(words[1]); time(NULL) < end; runs++) {
        tried = inputs[below((unsigned)all)];
        for (unsigned changes = 1 + below(6); changes > 0; changes--)
            change();
        LLVMFuzzerTestOneInput(tried.bytes, tried.length);
    }
    printf("Done %lu runs\n", runs);
    return 0;
}
#endif
