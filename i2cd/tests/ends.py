#!/usr/bin/env python3
"""Makes pmb-i2cd end connections in each way, one after the other. What it says of them is in ends.txt
beside this; of one that its program closes, or whose program doesn't wait for a reply, it says nothing.

    i2cd/tests/ends.py SOCKET
"""
import array
import os
import socket
import sys

from fuzz import FUNCS, Server, has_ended, head

REQUEST = head(FUNCS, 0)


def send(connection, packet, descriptors):
    control = [(socket.SOL_SOCKET, socket.SCM_RIGHTS, array.array("i", descriptors))] if descriptors else []
    connection.sendmsg([packet], control)


def main(path):
    server = Server(path)
    mine, theirs = socket.socketpair(socket.AF_UNIX, socket.SOCK_SEQPACKET)
    null = os.open("/dev/null", os.O_RDWR)
    server.connect().close()
    left = server.connect()
    other, end = socket.socketpair(socket.AF_UNIX, socket.SOCK_SEQPACKET)
    send(left, REQUEST, [end.fileno()])
    other.close()
    end.close()
    if left.close() or not server.is_well():
        return 1
    # packets that are no request, one that is too long, no descriptor, two, many, and one of no socket
    for packet, descriptors in (
        (REQUEST[1:], [theirs.fileno()]),
        (b"\0", [theirs.fileno()]),
        (REQUEST + bytes(400000), [theirs.fileno()]),
        (REQUEST, []),
        (REQUEST, [theirs.fileno()] * 2),
        (REQUEST, [theirs.fileno()] * 40),
        (REQUEST, [null]),
    ):
        connection = server.connect()
        connection.setsockopt(socket.SOL_SOCKET, socket.SO_SNDBUF, 212992)
        send(connection, packet, descriptors)
        if not has_ended(connection):
            return 1
    # many of them: a few lines, and one more
    for _ in range(40):
        connection = server.connect()
        send(connection, b"", [theirs.fileno()])
        if not has_ended(connection):
            return 1
    return 0 if server.is_well() else 1


if __name__ == "__main__":
    if len(sys.argv) != 2:
        sys.exit(__doc__)
    sys.exit(main(sys.argv[1]))
