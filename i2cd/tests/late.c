/* late.c: a reply that the kernel tells too late, for LD_PRELOAD. A wait for a packet may return the end
 * of the connection where the packet and the end have come while it looked for both: here it always does.
 * (interrupted.c beside this has the kernel do so.) */
#define _GNU_SOURCE
#include <dlfcn.h>
#include <poll.h>
#include <sys/socket.h>

ssize_t recvmsg(int descriptor, struct msghdr *packet, int flags)
{
    ssize_t (*real)(int, struct msghdr *, int);
    *(void **)&real = dlsym(RTLD_NEXT, "recvmsg");
    int type = 0;
    socklen_t length = sizeof type;
    getsockopt(descriptor, SOL_SOCKET, SO_TYPE, &type, &length);
    if (flags & MSG_DONTWAIT || type != SOCK_SEQPACKET)
        return real(descriptor, packet, flags);
    struct pollfd end = { descriptor, POLLRDHUP, 0 };
    poll(&end, 1, -1);
    return 0;
}
