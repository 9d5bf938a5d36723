/* server.c: takes connections, and does each request as its packet comes.
 *
 * A packet comes as a whole and its reply goes out as a whole, so nothing of a request is kept, and
 * nobody is waited for: a program that ends in the middle leaves a connection that is closed, and one
 * that doesn't read its replies loses them alone. wire.h has the packets. */
#define _GNU_SOURCE
#include "server.h"

#include <errno.h>
#include <fcntl.h>
#include <stdarg.h>
#include <stdint.h>
#include <stdio.h>
#include <string.h>
#include <sys/file.h>
#include <sys/resource.h>
#include <sys/socket.h>
#include <sys/stat.h>
#include <sys/uio.h>
#include <time.h>
#include <unistd.h>

#include "request.h"
#include "wire.h"

/* How often the folder's lock is asked for, and the time in between, in milliseconds. */
#define LOCK_TRIES 200
#define LOCK_WAIT 10

/* How old a directory without a socket is that its server must have left, in seconds. */
#define NEW_SECONDS 60

/* Descriptors that the server needs besides those of connections, with some to spare. */
#define OTHER_DESCRIPTORS 16

/* The most lines a minute of what went wrong with connections. */
#define MOST_LINES 20

/* ---- the socket */

/* Whether a path is that of a socket at which nobody listens. */
static int is_left_over(const struct sockaddr_un *name)
{
    struct stat found;
    if (lstat(name->sun_path, &found) != 0 || !S_ISSOCK(found.st_mode))
        return 0;
    int probe = socket(AF_UNIX, SOCK_SEQPACKET | SOCK_CLOEXEC | SOCK_NONBLOCK, 0);
    if (probe < 0)
        return 0;
    int refused =
        connect(probe, (const struct sockaddr *)name, sizeof *name) != 0 && errno == ECONNREFUSED;
    close(probe);
    return refused;
}

/* Locks the folder of the name, so that of two servers that find a socket left over each doesn't remove the
 * other's. Returns a descriptor that has the lock until it is closed, or -1 without one: it helps, and
 * isn't waited for for long. */
static int lock_folder(const struct sockaddr_un *name)
{
    char folder[sizeof name->sun_path + 1];
    const char *last = strrchr(name->sun_path, '/');
    size_t length = last ? (size_t)(last - name->sun_path) + 1 : 0;
    memcpy(folder, name->sun_path, length);
    strcpy(folder + length, ".");
    int descriptor = open(folder, O_RDONLY | O_DIRECTORY | O_CLOEXEC);
    for (int tries = 0; descriptor >= 0 && tries < LOCK_TRIES; tries++) {
        if (flock(descriptor, LOCK_EX | LOCK_NB) == 0)
            return descriptor;
        poll(NULL, 0, LOCK_WAIT);
    }
    if (descriptor >= 0)
        close(descriptor);
    return -1;
}

/* Binds to the name, so that only the user may connect. */
static int bind_name(const struct server *server)
{
    const struct sockaddr *name = (const struct sockaddr *)&server->name;
    mode_t before = umask(0177);
    int result = bind(server->listener, name, sizeof server->name);
    if (result != 0 && errno == EADDRINUSE && is_left_over(&server->name)) {
        unlink(server->name.sun_path);
        result = bind(server->listener, name, sizeof server->name);
    }
    umask(before);
    return result == 0 ? 0 : -errno;
}

/* How many connections there is room for. */
static size_t most_clients(void)
{
    struct rlimit limit;
    if (getrlimit(RLIMIT_NOFILE, &limit) != 0 || limit.rlim_cur >= MOST_CLIENTS + OTHER_DESCRIPTORS)
        return MOST_CLIENTS;
    return limit.rlim_cur > OTHER_DESCRIPTORS ? (size_t)limit.rlim_cur - OTHER_DESCRIPTORS : 1;
}

int server_open(struct server *server, struct adapter *adapter, const char *path)
{
    struct stat made;
    memset(server, 0, sizeof *server);
    server->adapter = adapter;
    server->most = most_clients();
    server->name.sun_family = AF_UNIX;
    if (*path == 0 || strlen(path) >= sizeof server->name.sun_path)
        return *path == 0 ? -EINVAL : -ENAMETOOLONG;
    strcpy(server->name.sun_path, path);
    server->listener = socket(AF_UNIX, SOCK_SEQPACKET | SOCK_CLOEXEC | SOCK_NONBLOCK, 0);
    if (server->listener < 0)
        return -errno;
    int lock = lock_folder(&server->name);
    int result = bind_name(server);
    if (result == 0 && (lstat(path, &made) != 0 || listen(server->listener, 64) != 0)) {
        result = -errno;
        unlink(path);
    }
    if (lock >= 0)
        close(lock);
    if (result != 0) {
        close(server->listener);
        return result;
    }
    server->device = made.st_dev;
    server->inode = made.st_ino;
    return 0;
}

void server_clear_directory(const char *path)
{
    struct sockaddr_un name = { .sun_family = AF_UNIX };
    struct stat found;
    int length = snprintf(name.sun_path, sizeof name.sun_path, "%s/" SOCKET_NAME, path);
    if (length >= (int)sizeof name.sun_path || lstat(path, &found) != 0 || !S_ISDIR(found.st_mode) ||
        found.st_uid != geteuid())
        return;
    /* (a server that begins has this lock until it listens) */
    int lock = lock_folder(&name);
    if (lock < 0)
        return;
    int is_new = found.st_mtime + NEW_SECONDS > time(NULL);
    if (is_left_over(&name))
        is_new = unlink(name.sun_path) != 0;
    if (!is_new)
        rmdir(path);
    close(lock);
}

void server_close(struct server *server)
{
    struct stat found;
    if (lstat(server->name.sun_path, &found) == 0 && found.st_dev == server->device &&
        found.st_ino == server->inode)
        unlink(server->name.sun_path);
    close(server->listener);
    while (server->count > 0)
        close(server->client[--server->count].socket);
}

/* ---- what went wrong */

/* Says what went wrong with a connection. Whoever may connect can make these lines, so there are a few in a
 * minute, and then one that no more come; and there are none where standard error is full. */
__attribute__((format(printf, 2, 3))) static void tell(const struct client *client, const char *why, ...)
{
    static time_t minute;
    static unsigned lines;
    struct ucred program = { 0, 0, 0 };
    socklen_t length = sizeof program;
    struct pollfd room = { STDERR_FILENO, POLLOUT, 0 };
    time_t now = time(NULL) / 60;
    if (now != minute)
        lines = 0;
    minute = now;
    if (lines > MOST_LINES || poll(&room, 1, 0) != 1)
        return;
    if (lines++ == MOST_LINES) {
        fprintf(stderr, "pmb-i2cd: what goes wrong with connections is left out for up to a minute\n");
        return;
    }
    va_list rest;
    getsockopt(client->socket, SOL_SOCKET, SO_PEERCRED, &program, &length);
    fprintf(stderr, "pmb-i2cd: connection of process %ld: ", (long)program.pid);
    va_start(rest, why);
    vfprintf(stderr, why, rest);
    va_end(rest);
    fputc('\n', stderr);
}

/* ---- replies */

/* Whether a reply can't be sent since nobody waits for it any more. */
static int is_left(int error)
{
    return error == EPIPE || error == ECONNRESET || error == ECONNREFUSED || error == ENOTCONN;
}

/* Sends the reply. Returns whether its end can be one of a program's. */
static int send_reply(const struct client *client, struct request *request, int result)
{
    struct wire_reply head = { result, 0 };
    struct iovec parts[1 + MOST_MESSAGES] = { { &head, sizeof head } };
    struct msghdr packet = { .msg_iov = parts, .msg_iovlen = 1 };
    if (result >= 0) {
        for (size_t i = 0; i < request->parts; i++) {
            parts[1 + i] = request->data[i];
            head.length += (uint32_t)request->data[i].iov_len;
        }
        packet.msg_iovlen += request->parts;
    }
    if (head.length > 65536) {
        int size = WIRE_BUFFER;
        setsockopt(request->reply, SOL_SOCKET, SO_SNDBUF, &size, sizeof size);
    }
    ssize_t sent = sendmsg(request->reply, &packet, MSG_DONTWAIT | MSG_NOSIGNAL);
    if (sent < 0 && (errno == EMSGSIZE || errno == ENOBUFS || errno == ENOMEM)) {
        head = (struct wire_reply){ -ENOMEM, 0 };
        packet.msg_iovlen = 1;
        sent = sendmsg(request->reply, &packet, MSG_DONTWAIT | MSG_NOSIGNAL);
    }
    if (sent >= 0 || is_left(errno))
        return 1;
    int is_socket = errno != ENOTSOCK && errno != EBADF;
    tell(client, is_socket ? "a reply is lost: %s" : "ended, the descriptor for a reply: %s", strerror(errno));
    return is_socket;
}

/* ---- packets */

/* Finds the one descriptor that came with a packet; all are closed where there are others.
 * Returns -1 where there isn't exactly one. */
static int one_descriptor(struct msghdr *packet)
{
    int found = -1, others = 0;
    for (struct cmsghdr *at = CMSG_FIRSTHDR(packet); at; at = CMSG_NXTHDR(packet, at)) {
        if (at->cmsg_level != SOL_SOCKET || at->cmsg_type != SCM_RIGHTS)
            continue;
        size_t count = (at->cmsg_len - CMSG_LEN(0)) / sizeof(int);
        for (size_t i = 0; i < count; i++) {
            int descriptor;
            memcpy(&descriptor, CMSG_DATA(at) + i * sizeof descriptor, sizeof descriptor);
            if (found >= 0) {
                close(descriptor);
                others = 1;
            } else {
                found = descriptor;
            }
        }
    }
    if (found >= 0 && (others || (packet->msg_flags & (MSG_TRUNC | MSG_CTRUNC)))) {
        close(found);
        return -1;
    }
    return found;
}

/* Says why a connection ends at a packet that can't have a reply, but where its program has closed it. */
static void tell_end(const struct client *client, ssize_t length, int flags)
{
    if (length < 0)
        tell(client, "ended, no packet can be taken: %s", strerror(errno));
    else if (flags & MSG_TRUNC)
        tell(client, "ended, a packet is too long");
    else if (flags & MSG_CTRUNC)
        tell(client, "ended, a packet came with more descriptors than there is room for");
    else if (length > 0)
        tell(client, "ended, a packet came without one descriptor for its reply, or with two");
}

/* Takes a connection's next packet, and does its request. Returns whether the connection goes on. */
static int serve_client(struct client *client, struct adapter *adapter)
{
    static uint8_t bytes[MOST_REQUEST];
    union {
        struct cmsghdr head;
        char room[CMSG_SPACE(sizeof(int))];
    } control;
    struct iovec whole = { bytes, sizeof bytes };
    struct msghdr packet = { .msg_iov = &whole,
                             .msg_iovlen = 1,
                             .msg_control = control.room,
                             .msg_controllen = sizeof control.room };
    ssize_t length = recvmsg(client->socket, &packet, MSG_DONTWAIT | MSG_CMSG_CLOEXEC);
    if (length < 0 && (errno == EAGAIN || errno == EINTR))
        return 1;
    struct request request = { .packet = bytes, .length = (size_t)length };
    request.reply = length < 0 ? -1 : one_descriptor(&packet);
    if (request.reply < 0) {
        tell_end(client, length, packet.msg_flags);
        return 0;
    }
    int result = perform(&request, &client->file, adapter);
    if (result == -EBADE)
        tell(client, "ended, a packet of %zd bytes is no request", length);
    int goes_on = result != -EBADE && send_reply(client, &request, result);
    close(request.reply);
    return goes_on;
}

/* Whether an errno says that there is no descriptor or no memory now. */
static int is_scarce(int error)
{
    return error == EMFILE || error == ENFILE || error == ENOBUFS || error == ENOMEM;
}

/* Takes a connection, where one more descriptor is left then: with each request comes one for its reply. */
static void take_client(struct server *server)
{
    int spare = fcntl(server->listener, F_DUPFD_CLOEXEC, 0);
    int socket = spare < 0 ? -1 : accept4(server->listener, NULL, NULL, SOCK_CLOEXEC | SOCK_NONBLOCK);
    server->is_short = socket < 0 && is_scarce(errno);
    if (spare >= 0)
        close(spare);
    if (socket >= 0)
        server->client[server->count++] = (struct client){ socket, { 0, 0 } };
}

/* ---- the loop's part */

size_t server_polls(const struct server *server, struct pollfd *polls)
{
    /* (a descriptor below 0 is passed over) */
    int is_full = server->count == server->most || server->is_short;
    polls[0] = (struct pollfd){ is_full ? -1 : server->listener, POLLIN, 0 };
    for (size_t i = 0; i < server->count; i++)
        polls[1 + i] = (struct pollfd){ server->client[i].socket, POLLIN, 0 };
    return 1 + server->count;
}

void server_serve(struct server *server, const struct pollfd *polls, size_t count)
{
    server->is_short = 0;
    /* backwards: the last connection takes the place of one that ends */
    for (size_t i = count - 1; i-- > 0 && !adapter_is_behind(server->adapter);) {
        if (polls[1 + i].revents == 0 || serve_client(&server->client[i], server->adapter))
            continue;
        close(server->client[i].socket);
        server->client[i] = server->client[--server->count];
    }
    if (polls[0].revents != 0)
        take_client(server);
}
