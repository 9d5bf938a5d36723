/* server.h: the Unix socket over which programs reach the bus, and their connections. */
#ifndef SERVER_H
#define SERVER_H

#include <poll.h>
#include <stddef.h>
#include <sys/types.h>
#include <sys/un.h>

#include "adapter.h"
#include "file.h"

/* The most connections, which are open files of programs. Others wait until one is closed. */
#define MOST_CLIENTS 1000

struct client {
    int socket;
    struct open_file file;
};

struct server {
    struct adapter *adapter;
    int listener;
    int is_short; /* the last accept found no descriptor or no memory: the next one waits a while */
    struct sockaddr_un name;
    dev_t device; /* of the socket's file, and its inode: whether it is still that of this server */
    ino_t inode;
    size_t most, count;
    struct client client[MOST_CLIENTS];
};

/* Listens at a path. A socket there that nobody listens at any more is replaced.
 * Returns 0, or an errno below 0: EADDRINUSE where somebody listens there, or where the file is no
 * socket; ENAMETOOLONG. */
int server_open(struct server *server, struct adapter *adapter, const char *path);

/* The name of a socket in a directory of its own. */
#define SOCKET_NAME "socket"

/* Removes a directory of the user's that has nothing but such a socket at which nobody listens any more,
 * as where its server was killed. One without a socket may be new, and stays for a minute. */
void server_clear_directory(const char *path);

/* Ends all connections, and removes the socket. */
void server_close(struct server *server);

/* Writes what is to be polled, MOST_CLIENTS + 1 at most. Returns how many there are. */
size_t server_polls(const struct server *server, struct pollfd *polls);

/* Does what can be done without waiting, where polls are those that server_polls wrote. */
void server_serve(struct server *server, const struct pollfd *polls, size_t count);

#endif
