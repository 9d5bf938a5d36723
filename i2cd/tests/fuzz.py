#!/usr/bin/env python3
"""Sends packets of all kinds to pmb-i2cd: requests, requests that are changed, cut or too long, with no
descriptor or several or wrong ones, and connections that end in the middle. A packet that is a request
(i2cd/wire.h) has to have a reply of the right length; one that is none has to end its connection alone.
In between a connection that behaves well reads READ_VIN of the sample profile's 58h.

    i2cd/tests/fuzz.py SOCKET [COUNT [SEED]]
"""

import array
import os
import random
import socket
import struct
import sys

MARK = 0x31624d50
SLAVE, TENBIT, FUNCS, SLAVE_FORCE, RDWR, PEC, SMBUS, RETRIES, TIMEOUT = (
    0x703, 0x704, 0x705, 0x706, 0x707, 0x708, 0x720, 0x701, 0x702)
READ, WRITE = 1, 2
PLAIN = (SLAVE, TENBIT, SLAVE_FORCE, PEC, RETRIES, TIMEOUT)
CODES = (0x00, 0x03, 0x20, 0x21, 0x30, 0x7e, 0x88, 0x99, 0x9a, 0xd0, 0x07)
ADDRESSES = (0x58, 0x58, 0x58, 0x59, 0x5a, 0x20, 0x0c, 0x80)
LIMIT = 10.0


def head(kind, argument):
    return struct.pack("<IIQ", MARK, kind, argument)


def some_bytes(chance, most):
    return bytes(chance.randrange(256) for _ in range(chance.randrange(most + 1)))


def transfer(chance):
    """A transfer of a few messages, mostly such as devices take."""
    heads, buffers = b"", b""
    count = chance.choice((1, 1, 2, 2, 2, 3, 5, 42))
    for i in range(count):
        address = chance.choice(ADDRESSES)
        reads = chance.random() < (0.7 if i == 1 else 0.2)
        flags = int(reads)
        if reads and chance.random() < 0.3:
            flags |= 0x400
        if chance.random() < 0.03:
            flags |= chance.choice((0x10, 0x200, 0x400, 0x4000, 0x8000, 0xffff))
        if reads:
            length = chance.choice((0, 1, 2, 3, 33, 34, 40, 256, 300, 8192))
            data = bytes((chance.choice((0, 1, 1, 1, 2, 2, 9, 255)),)) + bytes(length)
            data = data[:length]
        else:
            data = bytes((chance.choice(CODES),)) + some_bytes(chance, chance.choice((0, 1, 2, 3, 40, 300)))
            if chance.random() < 0.05:
                data = bytes(chance.choice((0, 8192)))
        heads += struct.pack("<HHHH", address, flags, len(data), 0)
        buffers += data
    return head(RDWR, count) + heads + buffers


def smbus(chance):
    data = some_bytes(chance, 34).ljust(36, b"\0")
    if chance.random() < 0.7:
        data = bytes((chance.choice((0, 1, 2, 32, 33)),)) + data[1:]
    return head(SMBUS, 0) + struct.pack(
        "<IBBBB", chance.choice((0, 1, 2, 3, 4, 5, 6, 7, 8, 8, 9, 1 << 31)),
        chance.choice((0, 1, 1, 0, 2)), chance.choice(CODES), chance.choice((1, 1, 1, 0)), 0) + data


def request(chance):
    """A packet that is a request."""
    kind = chance.choice((RDWR, RDWR, RDWR, SMBUS, SMBUS, SMBUS, READ, WRITE, FUNCS) + PLAIN)
    if kind == RDWR:
        return transfer(chance)
    if kind == SMBUS:
        return smbus(chance)
    if kind == READ:
        return head(READ, chance.choice((0, 1, 2, 255, 8192)))
    if kind == WRITE:
        data = bytes((chance.choice(CODES),)) + some_bytes(chance, 20)
        return head(WRITE, len(data)) + data
    if kind == FUNCS:
        return head(FUNCS, 0)
    return head(kind, chance.choice((0, 1, 0x58, 0x58, 0x59, 0x5a, 0x7f, 0x80, 1 << 31, 1 << 63)))


def changed(chance, packet):
    """The packet with something changed, which may leave it a request."""
    way = chance.randrange(7)
    if way == 0:
        return packet[:chance.randrange(len(packet) + 1)]
    if way == 1:
        return packet + some_bytes(chance, 40)
    if way == 2:
        return packet + bytes(400000 - len(packet))
    if way == 3:
        return some_bytes(chance, 80)
    data = bytearray(packet)
    for _ in range(chance.choice((1, 1, 2, 8))):
        # the first bytes decide most
        at = chance.randrange(min(len(data), chance.choice((16, 40, 400000))))
        data[at] = chance.choice((0, 1, 0xff, data[at] ^ 1 << chance.randrange(8)))
    return bytes(data)


def reply_length(packet):
    """How long the reply to a request is that doesn't fail; None where the packet is no request."""
    if len(packet) < 16:
        return None
    mark, kind, argument = struct.unpack_from("<IIQ", packet)
    body = packet[16:]
    if mark != MARK:
        return None
    if kind in PLAIN or kind == FUNCS:
        return None if body else 8 if kind == FUNCS else 0
    if kind == SMBUS:
        return 36 if len(body) == 44 else None
    if kind == READ:
        return argument if not body and argument <= 8192 else None
    if kind == WRITE:
        return 0 if len(body) == argument and argument <= 8192 else None
    if kind != RDWR or not 1 <= argument <= 42 or len(body) < 8 * argument:
        return None
    heads = [struct.unpack_from("<HHHH", body, 8 * i) for i in range(argument)]
    if any(length > 8192 for _, _, length, _ in heads):
        return None
    if 8 * argument + sum(length for _, _, length, _ in heads) != len(body):
        return None
    return sum(length for _, flags, length, _ in heads if flags & 1)


class Server:
    def __init__(self, path):
        self.path = path
        self.good = self.connect()
        self.ask(self.good, head(SLAVE, 0x58))

    def connect(self):
        made = socket.socket(socket.AF_UNIX, socket.SOCK_SEQPACKET)
        made.setsockopt(socket.SOL_SOCKET, socket.SO_SNDBUF, 212992)
        made.connect(self.path)  # (it waits, where many do so)
        made.settimeout(LIMIT)
        return made

    @staticmethod
    def ask(connection, packet):
        """A request as the shim makes it. Returns the reply, b"" where its end is closed."""
        mine, theirs = socket.socketpair(socket.AF_UNIX, socket.SOCK_SEQPACKET)
        mine.settimeout(LIMIT)
        try:
            connection.sendmsg([packet], [(socket.SOL_SOCKET, socket.SCM_RIGHTS,
                                           array.array("i", [theirs.fileno()]))])
        finally:
            theirs.close()
        with mine:
            return mine.recv(400000)

    def is_well(self):
        """Whether the good connection reads what it should: READ_VIN by I2C_RDWR, whatever is set."""
        packet = (head(RDWR, 2) + struct.pack("<HHHHHHHH", 0x58, 0, 1, 0, 0x58, 1, 2, 0) +
                  b"\x88\0\0")
        reply = self.ask(self.good, packet)
        if struct.unpack_from("<i", reply)[0] == -6:
            # all pages are selected, or a packet was left open by nobody: select page 0, and read again
            self.ask(self.good, head(RDWR, 1) + struct.pack("<HHHH", 0x58, 0, 2, 0) + b"\0\0")
            reply = self.ask(self.good, packet)
        return reply == struct.pack("<iI", 2, 2) + b"\0\xd3"


def has_ended(connection):
    try:
        return connection.recv(1) == b""
    except ConnectionError:
        return True


def odd_descriptors(chance):
    """Descriptors that no shim would send, and what to close after that."""
    way = chance.randrange(5)
    if way == 0:
        return [], []
    if way == 1:
        ends = os.pipe()
        return [ends[1]], list(ends)
    if way == 2:
        file = os.open("/dev/null", os.O_RDWR)
        return [file], [file]
    pair = [each.detach() for each in socket.socketpair(socket.AF_UNIX, socket.SOCK_SEQPACKET)]
    return [pair[0]] * (2 if way == 3 else 40), pair


def send_oddly(chance, server, connection):
    """Sends a request with other descriptors than one end of a pair. The connection has to end."""
    descriptors, to_close = odd_descriptors(chance)
    control = [(socket.SOL_SOCKET, socket.SCM_RIGHTS, array.array("i", descriptors))]
    connection.sendmsg([request(chance)], control if descriptors else [])
    for each in to_close:
        os.close(each)
    return has_ended(connection)


def main(path, count, seed):
    chance = random.Random(seed)
    server = Server(path)
    connections, wrong = [], []
    tally = {"replies": 0, "ended": 0, "left": 0}
    for number in range(count):
        if not connections or chance.random() < 0.05:
            connections.append(server.connect())
        connection = chance.choice(connections)
        way = chance.random()
        if way < 0.05:
            # ends in the middle: the request is there, and nobody waits for its reply
            mine, theirs = socket.socketpair(socket.AF_UNIX, socket.SOCK_SEQPACKET)
            connection.sendmsg([request(chance)], [(socket.SOL_SOCKET, socket.SCM_RIGHTS,
                                                    array.array("i", [theirs.fileno()]))])
            for each in (mine, theirs, connection):
                each.close()
            connections.remove(connection)
            tally["left"] += 1
        elif way < 0.1:
            if not send_oddly(chance, server, connection):
                wrong.append("{}: odd descriptors are taken".format(number))
            connection.close()
            connections.remove(connection)
            tally["ended"] += 1
        else:
            packet = request(chance) if way < 0.55 else changed(chance, request(chance))
            wanted = reply_length(packet)
            try:
                reply = server.ask(connection, packet)
            except OSError as fault:
                reply = b""
                if wanted is not None:
                    wrong.append("{}: {}".format(number, fault))
            if wanted is None:
                if reply or not has_ended(connection):
                    wrong.append("{}: {} has a reply".format(number, packet[:60].hex()))
                connection.close()
                connections.remove(connection)
                tally["ended"] += 1
            else:
                result, length = struct.unpack_from("<iI", reply) if len(reply) >= 8 else (None, 0)
                if result is None or len(reply) != 8 + length or length != (
                        wanted if result >= 0 else 0) or not -134 < result <= 8192:
                    wrong.append("{}: {}.. has the reply {}..".format(
                        number, packet[:60].hex(), reply[:20].hex()))
                tally["replies"] += 1
        if number % 10 == 0 and not server.is_well():
            wrong.append("{}: the good connection reads something else".format(number))
        if len(wrong) > 5:
            break
    # more connections than there may be: those over the limit wait, and others go on
    crowd = []
    for _ in range(120):
        crowd.append(server.connect())
    if not server.is_well():
        wrong.append("the good connection reads something else among 120 others")
    for each in crowd + connections:
        each.close()
    if not server.is_well():
        wrong.append("the good connection reads something else at the end")
    for line in wrong:
        print("fuzz: " + line)
    print("fuzz: {} packets: {}".format(
        count, ", ".join("{} {}".format(tally[name], name) for name in sorted(tally))))
    return 1 if wrong else 0


if __name__ == "__main__":
    if len(sys.argv) not in (2, 3, 4):
        sys.exit(__doc__)
    sys.exit(main(sys.argv[1], int((sys.argv[2:3] or ["3000"])[0]), int((sys.argv[3:4] or ["1"])[0])))
