"""Tries `pmb.Bus` and `pmb.Device`: each access by what the standards and docs/devices.md say of it, the
limits and errors of Linux, the methods of smbus2 where it is there, and scripts that are made for it.

    PYTHONPATH=python python3 .ci/bus.py
"""

import contextlib
import copy
import errno
import inspect
import io
import os
import pickle
import runpy
import sys
import threading
import types
from decimal import Decimal
from fractions import Fraction

import pmb

ROOT = os.path.join(os.path.dirname(os.path.abspath(__file__)), os.pardir)
PROFILE = """
[[device]]
address = 0x58
pec = "optional"
pages = 2
vout_mode = [0x17, 0x18]

[[device]]
address = 0x59
pec = "off"

[[device.command]]
code = 0xd0
name = "NOTES"
write = "block"
read = "block"

[[device.command]]
code = 0xd1
name = "WIDE"
write = "four"
read = "four"

[[device]]
address = 0x5a
pec = "on"

[[device.command]]
name = "READ_VIN"
kind = "direct"
m = 3
b = 2
r = 1

[[device.command]]
code = 0xe0
name = "ASK"
call = "two"
"""
failed = 0


def check(holds, what):
    global failed
    if not holds:
        failed += 1
        print("bus:", what, file=sys.stderr)


def equal(found, right, what):
    check(found == right, "{}: {!r} in place of {!r}".format(what, found, right))


def raised(call, *given, **named):
    """What a call returns, or the kind of its error, with the number of Linux where it has one."""
    try:
        return call(*given, **named)
    except OSError as error:
        return type(error).__name__, errno.errorcode[error.errno]
    except Exception as error:
        return type(error).__name__


def code_of(text):
    """The packet error code of bytes (SMBus 3.0 section 6.4.1.2: x^8 + x^2 + x + 1), bit by bit."""
    rest = 0
    for byte in bytes.fromhex(text):
        rest ^= byte
        for _ in range(8):
            rest = (rest << 1) ^ (0x107 if rest & 0x80 else 0)
    return "{:02x}".format(rest)


def wire(text):
    """A line of a capture. Each `pec` of it is the code of the bytes of its packet before it."""
    words, sent = [], []
    for word in text.split():
        if word == "pec":
            word = code_of("".join(sent))
        if len(word) == 2:
            sent.append(word)
        words.append(word)
    return " ".join(words) + "\n"


NXIO, REMOTE = ("OSError", "ENXIO"), ("OSError", "EREMOTEIO")
WRONG, BAD_COUNT = ("OSError", "EBADMSG"), ("OSError", "EPROTO")

# On a new bus: `pec`, an access, what it returns, and what is on the wire.
ACCESSES = [
    (0, ("write_quick", 0x58), None, "S b0 A P"),
    (1, ("write_quick", 0x58), None, "S b0 A P"),
    (0, ("write_quick", 0x57), NXIO, "S ae N P"),
    (0, ("read_byte", 0x58), NXIO, "S b1 N P"),
    (0, ("write_byte", 0x58, 0x03), None, "S b0 A 03 A P"),
    (1, ("write_byte", 0x58, 0x03), None, "S b0 A 03 A 46 A P"),
    (0, ("write_byte", 0x58, 0xC8), REMOTE, "S b0 A c8 N P"),
    (0, ("read_byte_data", 0x58, 0x20), 0x17, "S b0 A 20 A S b1 A 17 N P"),
    (1, ("read_byte_data", 0x58, 0x20), 0x17, "S b0 A 20 A S b1 A 17 A pec N P"),
    (0, ("read_byte_data", 0x57, 0x20), NXIO, "S ae N P"),
    (0, ("read_byte_data", 0x58, 0xC8), REMOTE, "S b0 A c8 N P"),
    (0, ("read_byte_data", 0x58, 0x03), NXIO, "S b0 A 03 A S b1 N P"),
    (0, ("write_byte_data", 0x58, 0x01, 0x80), None, "S b0 A 01 A 80 A P"),
    (1, ("write_byte_data", 0x58, 0x01, 0x80), None, "S b0 A 01 A 80 A pec A P"),
    (0, ("write_byte_data", 0x58, 0x00, 2), REMOTE, "S b0 A 00 A 02 N P"),
    (0, ("write_word_data", 0x58, 0x21, 0x1800), None, "S b0 A 21 A 00 A 18 A P"),
    (1, ("write_word_data", 0x58, 0x21, 0x1800), None, "S b0 A 21 A 00 A 18 A f8 A P"),
    (0, ("read_word_data", 0x58, 0x79), 0, "S b0 A 79 A S b1 A 00 A 00 N P"),
    (1, ("read_word_data", 0x58, 0x79), 0, "S b0 A 79 A S b1 A 00 A 00 A d4 N P"),
    # a device without codes gives none, and what it doesn't give is ff
    (1, ("read_word_data", 0x59, 0x79), WRONG, "S b2 A 79 A S b3 A 00 A 00 A ff N P"),
    (1, ("write_byte", 0x59, 0x03), REMOTE, "S b2 A 03 A " + code_of("b203") + " N P"),
    (0, ("process_call", 0x5A, 0xE0, 0x0201), NXIO, "S b4 A e0 A 01 A 02 A S b5 N P"),
    (0, ("write_block_data", 0x58, 0x9E, [0x41, 0x42]), None, "S b0 A 9e A 02 A 41 A 42 A P"),
    (1, ("write_block_data", 0x58, 0x9E, b"A"), None, "S b0 A 9e A 01 A 41 A pec A P"),
    (0, ("write_block_data", 0x58, 0x9E, []), None, "S b0 A 9e A 00 A P"),
    (0, ("read_block_data", 0x58, 0x9E), BAD_COUNT, "S b0 A 9e A S b1 A 00 N P"),
    (
        1,
        ("block_process_call", 0x5A, 0x30, [0x88, 1]),
        [3, 0, 2, 0, 1],
        "S b4 A 30 A 02 A 88 A 01 A S b5 A 05 A 03 A 00 A 02 A 00 A 01 A pec N P",
    ),
    (
        0,
        ("block_process_call", 0x5A, 0x30, [0x88, 1]),
        [3, 0, 2, 0, 1],
        "S b4 A 30 A 02 A 88 A 01 A S b5 A 05 A 03 A 00 A 02 A 00 A 01 N P",
    ),
    (1, ("write_i2c_block_data", 0x58, 0x21, [0, 0x18]), None, "S b0 A 21 A 00 A 18 A P"),
    (1, ("read_i2c_block_data", 0x59, 0x20, 1), [0x17], "S b2 A 20 A S b3 A 17 N P"),
    (0, ("read_i2c_block_data", 0x59, 0x20, 3), [0x17, 255, 255], "S b2 A 20 A S b3 A 17 A ff A ff N P"),
]

# What no bus gets to see.
REFUSED = [
    (("write_quick", 128), "ValueError"),
    (("write_quick", -1), "ValueError"),
    (("write_quick", "58"), "TypeError"),
    (("write_byte", 0x58, 256), "ValueError"),
    (("write_byte", 0x58, 3.0), "TypeError"),
    (("read_byte_data", 0x58, 256), "ValueError"),
    (("read_word_data", 0x58, None), "TypeError"),
    (("write_byte_data", 0x58, 1, 0x117), "ValueError"),
    (("write_byte_data", 0x58, 0x117, 1), "ValueError"),
    (("write_byte_data", 0x58, 1, -1), "ValueError"),
    (("write_word_data", 0x58, 0x21, 0x10000), "ValueError"),
    (("process_call", 0x58, 0xE0, 0x10000), "ValueError"),
    (("write_block_data", 0x58, 0x9E, [0] * 33), "ValueError"),
    (("write_block_data", 0x58, 0x9E, [256]), "ValueError"),
    (("write_block_data", 0x58, 0x9E, "AB"), "TypeError"),
    (("write_block_data", 0x58, 0x9E, 3), "TypeError"),
    (("block_process_call", 0x58, 0x9E, [0] * 33), "ValueError"),
    (("write_i2c_block_data", 0x58, 0x9E, [0] * 33), "ValueError"),
    (("read_i2c_block_data", 0x58, 0x9E, 33), "ValueError"),
    (("read_i2c_block_data", 0x58, 0x9E, -1), "ValueError"),
    (("i2c_rdwr",), ("OSError", "EINVAL")),
    (("i2c_rdwr", 5), "TypeError"),
    (("i2c_rdwr", b"\x03"), "TypeError"),
    (("transfer", 5), "TypeError"),
    (("transfer", "S"), "TypeError"),
    (("request", 5), "TypeError"),
    (("request", "get 58 21\nget 58 21"), "ValueError"),
    (("enable_pec", 2), "ValueError"),
]


def try_accesses():
    for pec, (name, *given), right, text in ACCESSES:
        with pmb.Bus(PROFILE) as bus:
            bus.pec = pec
            found = raised(getattr(bus, name), *given)
            equal(found, right, "{} {} with pec {}".format(name, given, pec))
            equal(bus.events(), wire(text), "the wire of {} {} with pec {}".format(name, given, pec))
    with pmb.Bus(PROFILE) as bus:
        bus.write_quick(0x58, force=True)
        bus.events()
        for (name, *given), right in REFUSED:
            equal(raised(getattr(bus, name), *given), right, "{} {}".format(name, given))
        equal(bus.events(), "", "the wire of what is refused")
    # what is written stays
    with pmb.Bus(PROFILE) as bus:
        bus.write_word_data(0x58, 0x21, 0x069A)
        bus.write_block_data(0x58, 0x9E, list(range(32)))
        bus.write_byte_data(0x58, 0, 1)
        equal(bus.read_word_data(0x58, 0x21), 0, "the word of the other page")
        bus.write_byte_data(0x58, 0, 0)
        equal(bus.read_word_data(0x58, 0x21), 0x069A, "a word")
        equal(bus.read_block_data(0x58, 0x9E), list(range(32)), "a block of 32 bytes")
        bus.pec = 1
        equal(bus.read_block_data(0x58, 0x9E), list(range(32)), "a block of 32 bytes and a code")
        # a wrong code is refused, and STATUS_CML tells it (docs/devices.md)
        bus.pec = 0
        equal(raised(bus.write_i2c_block_data, 0x58, 0x03, [0x47]), REMOTE, "a wrong code")
        equal(bus.read_byte_data(0x58, 0x7E), 0x20, "STATUS_CML")


def message(address, flags, data):
    """A message of any flags."""
    made = pmb.i2c_msg.write(0, data)
    made.addr, made.flags = address, flags
    return made


def try_messages():
    made = pmb.i2c_msg.write(0x58, [0x21, 0, 0x18])
    equal((made.addr, made.flags, made.len, len(made)), (0x58, 0, 3, 3), "a written message")
    equal((list(made), bytes(made), made.buf[2]), ([33, 0, 24], b"!\0\x18", b"\x18"), "its bytes")
    equal(list(pmb.i2c_msg.write(0x58, "A\xff")), [65, 255], "a message of characters")
    equal((pmb.i2c_msg.read(0x58, 2).flags, list(pmb.i2c_msg.read(0x58, 2))), (1, [0, 0]), "a read one")
    for call, given, right in (
        (pmb.i2c_msg.write, (0xB0, [3]), "ValueError"),
        (pmb.i2c_msg.write, (0x58, [256]), "ValueError"),
        (pmb.i2c_msg.write, (0x58, 3), "TypeError"),
        (pmb.i2c_msg.read, (0x58, -1), "ValueError"),
        (pmb.i2c_msg.read, ("58", 1), "TypeError"),
    ):
        equal(raised(call, *given), right, "a message of {}".format(given))
    write, invalid = pmb.i2c_msg.write, ("OSError", "EINVAL")
    # (which has two names)
    other_flags = "OSError", errno.errorcode[errno.EOPNOTSUPP]
    with pmb.Bus(PROFILE) as bus:
        for given, right in (
            ([write(0x59, [3])] * 43, invalid),
            ([write(0x59, [0] * 8193)], invalid),
            ([write(0x59, [3]), message(0x80, 0, [3])], invalid),
            ([write(0x59, [3]), message(0x59, 2, [3])], other_flags),
            ([message(0x59, 0x400, [1])], other_flags),
            # a block needs room for its count and 32 bytes, and what comes beside them
            ([message(0x59, 0x401, [1] + [0] * 31)], invalid),
            ([message(0x59, 0x401, [2] + [0] * 32)], invalid),
            ([message(0x59, 0x401, [0] + [0] * 32)], invalid),
            ([message(0x59, 0x401, [])], invalid),
            ([write(0x59, [3]), 5], "TypeError"),
        ):
            equal(raised(bus.i2c_rdwr, *given), right, "i2c_rdwr of {}".format(given[-1]))
        equal(bus.events(), "", "the wire of messages that are refused")
        # (a device takes its address once in a packet)
        equal(raised(bus.i2c_rdwr, *[write(0x59, [3])] * 42), NXIO, "42 messages")
        equal(bus.events(), "S b2 A 03 A S b2 N P\n", "the wire of 42 messages")
        equal(bus.transfer([write(0x59, [3])]), [], "a transfer that reads nothing")
        bus.i2c_rdwr(write(0x59, [0xD0, 40] + list(range(40))))
        long = pmb.i2c_msg.read(0x59, 42)
        bus.i2c_rdwr(write(0x59, [0xD0]), long)
        equal(list(long), [40] + list(range(40)) + [255], "a block of 40 bytes, and one more")
        equal(raised(bus.read_block_data, 0x59, 0xD0), BAD_COUNT, "a block of 40 bytes by SMBus")
        bus.i2c_rdwr(write(0x59, [0xD0, 2, 65, 66]))
        counted = message(0x59, 0x401, [1] + [0] * 32)
        bus.i2c_rdwr(write(0x59, [0xD0]), counted)
        equal((counted.len, list(counted)[:3]), (33, [2, 65, 66]), "a block whose count tells its length")
        counted = message(0x59, 0x401, [2] + [0] * 33)
        found = bus.transfer([write(0x59, [0xD0]), counted])
        equal(found, [b"\x02AB\xff"], "a block, and one byte after it")


def try_handle():
    """Opening and closing, errors of profiles, requests, and several threads."""
    bus = pmb.Bus()
    equal((bus.closed, bus.funcs, bus.pec, repr(bus)), (True, 0, 0, "<pmb.Bus, closed>"), "a new bus")
    for name, *given in (
        ("write_quick", 0x58),
        ("read_word_data", 0x58, 0x21),
        ("i2c_rdwr", pmb.i2c_msg.write(0x58, [3])),
        ("transfer", []),
        ("request", "get 58 21"),
        ("enable_pec",),
    ):
        equal(raised(getattr(bus, name), *given), "ValueError", name + " of a closed bus")
    with pmb.Profile(PROFILE) as profile:
        bus.open(profile)
    bus.pec = 1
    bus.write_byte(0x58, 3)
    bus.open(PROFILE)
    equal((bus.pec, bus.closed, repr(bus)), (0, False, "<pmb.Bus, open>"), "a bus opened again")
    bus.close()
    bus.close()
    equal(bus.events(), "S b0 A 03 A 46 A P\n", "the wire of a bus that was closed")
    equal(bus.events(), "", "the wire after that")
    equal(raised(pmb.Bus, "[[device]]"), "ProfileError", "a profile with a fault")
    equal(raised(pmb.Bus, 1), "TypeError", "a number as a profile")
    equal(raised(pmb.Bus, profile), "ValueError", "a closed profile")
    for way in (copy.copy, pickle.dumps):
        equal(raised(way, pmb.Bus(PROFILE)), "TypeError", "a copy of a bus")
    with pmb.Bus(PROFILE) as bus:
        bus.write_quick(0x59)
        text = bus.request("set 58 21 12")
        equal((text, text.packets, text.refusals), ("S b0 A 21 A 00 A 18 A P\n# done\n", 1, 0), "a request")
        equal(bus.events(), "S b2 A P\n" + text, "the wire of a request")
        text = bus.request(b"get 40 21\n")
        check(text.endswith(": UnknownDevice\n"), "a request for no device")
        equal((text.packets, text.refusals), (0, 1), "the counts of a request for no device")
    wrong = []

    def work(address):
        with pmb.Bus(PROFILE) as own:
            for number in range(300):
                shared.write_word_data(address, 0x25, number)
                own.write_word_data(address, 0x25, number)
                both = shared.read_word_data(address, 0x25), own.read_word_data(address, 0x25)
                if both != (number, number):
                    wrong.append(both)

    with pmb.Bus(PROFILE) as shared:
        shared.pec = 0
        threads = [threading.Thread(target=work, args=(address,)) for address in (0x58, 0x59)]
        for each in threads:
            each.start()
        for each in threads:
            each.join()
        equal(wrong, [], "words of two threads")
        found = pmb.check(PROFILE, shared.events())
        equal((found.packets, found.refusals), (1200, 0), "the wire of two threads")


# ---- devices


class Real:
    """A bus that is none of `pmb`, as smbus2 has one: what it sends goes to a simulated bus."""

    funcs = 0x00000001

    def __init__(self, bus):
        self.bus = bus

    def i2c_rdwr(self, *messages):
        given = [pmb.i2c_msg(it.addr, it.flags, it.len, it.buf) for it in messages]
        self.bus.i2c_rdwr(*given)


class Counting(Real):
    """One that reads blocks whose count tells their length."""

    funcs = 0x01000001


class i2c_msg(pmb.i2c_msg):
    """The messages of these, which are not those of pmb."""

    @staticmethod
    def read(address, length):
        made = pmb.i2c_msg.read(address, length)
        return i2c_msg(made.addr, made.flags, made.len, made.buf)

    @staticmethod
    def write(address, data):
        made = pmb.i2c_msg.write(address, data)
        return i2c_msg(made.addr, made.flags, made.len, made.buf)


def device_of(address, **named):
    """A device, its bus, and its log."""
    bus, log = pmb.Bus(PROFILE), []
    return pmb.Device(bus, PROFILE, address, log=log.append, **named), bus, log


def try_values():
    device, bus, log = device_of(0x58, pec=False)
    # 3.3 V are 1689.6 steps of 1/512 V on page 0, and 844.8 of 1/256 V on page 1
    device.write("VOUT_COMMAND", "3.3", page=0)
    device.write("VOUT_COMMAND", 3.3, page=1)
    found = device["VOUT_COMMAND"]
    right = pmb.Reading("VOUT_COMMAND", b"\x4d\x03", 1, Fraction(845, 256), "V")
    equal(found, right, "a voltage")
    equal((str(found), float(found)), ("3.30078125 V", 3.30078125), "a voltage as a text and a number")
    equal(pickle.loads(pickle.dumps(found)), found, "a copy of a voltage")
    equal(device.read("VOUT_COMMAND", page=0).value, Fraction(845, 256), "the voltage of the other page")
    text = "".join(log)
    equal(bus.events(), text, "the log and the wire")
    equal(text.count("S b0 A 00 A 01 A P"), 1, "writes of PAGE")
    equal(text.count("S b0 A 21 A 9a A 06 A P"), 1, "the word of page 0")
    equal(text.count("S b0 A 21 A 4d A 03 A P"), 1, "the word of page 1")
    # another VOUT_MODE: steps of 1/4096 V
    device["VOUT_MODE"] = 0x14
    device["VOUT_COMMAND"] = Fraction(1, 3)
    equal(bus.read_word_data(0x58, 0x21), 1365, "a third by another VOUT_MODE")
    device.write("VOUT_COMMAND", Decimal("0.5"), page=1)
    equal(device["VOUT_COMMAND"].data, b"\x80\x00", "a half on the other page")
    device.write("VOUT_TRIM", -1)
    equal(bus.read_word_data(0x58, 0x22), 0xFF00, "a correction")
    # LINEAR11: 1/3 is 683 steps of 2^-11, and 1e-5 rounded to steps of 2^-16 is 1
    device["TON_DELAY"] = 1e-5
    equal(device["TON_DELAY"].value, Fraction(1, 65536), "a small number")
    device[0x60] = "2/6"
    equal(device[0x60], pmb.Reading("TON_DELAY", b"\xab\xaa", 1, Fraction(683, 2048), "ms"), "a third")
    for name, value, right in (
        ("OPERATION", 0x80, b"\x80"),
        ("OPERATION", b"\x40", b"\x40"),
        ("OPERATION", [0], b"\x00"),
        ("MFR_SERIAL", "A17", b"A17"),
        ("MFR_SERIAL", b"", b""),
    ):
        device[name] = value
        equal(device[name].data, right, "{} of {!r}".format(name, value))
    device["MFR_SERIAL"] = "A17"
    equal((device["MFR_SERIAL"].text, str(device["MFR_SERIAL"])), ("A17", "A17"), "a text")
    for name, value, right in (
        ("OPERATION", 256, "ValueError"),
        ("OPERATION", -1, "ValueError"),
        ("OPERATION", 1.5, "TypeError"),
        ("OPERATION", b"\0\0", "Error"),
        ("OPERATION", None, "Error"),
        ("MFR_SERIAL", 5, "TypeError"),
        ("CLEAR_FAULTS", 1, "Error"),
        ("READ_VIN", 1, "Error"),
        ("VOUT_COMMAND", 1e300, "Error"),
        ("VOUT_COMMAND", float("nan"), "ValueError"),
        ("VOUT_COMMAND", "1 # 2", "Error"),
        ("VOUT_COMMAND", {}, "TypeError"),
        ("READ_VON", 1, "KeyError"),
        (0x117, 1, "KeyError"),
        (1.5, 1, "TypeError"),
    ):
        bus.events()
        equal(raised(device.write, name, value), right, "{} of {!r}".format(name, value))
        check("S b0 A 01" not in bus.events(), "{} of {!r} is on the wire".format(name, value))
    equal(raised(device.read, "CLEAR_FAULTS"), "Error", "a read of what is only written")
    try:
        device["TON_DELAY"] = 1e9
    except pmb.Error as error:
        equal((error.fault, error.place), ("Above", "TON_DELAY"), "the error of a number")


def try_pages():
    device, bus, _ = device_of(0x58, pec=False)
    equal((device.page, bus.events()), (0, "S b0 A 00 A S b1 A 00 N P\n"), "the first page")
    device.page = 0
    equal(bus.events(), "S b0 A 00 A 00 A P\n", "a page that is set")
    bus.write_byte_data(0x58, 0, 1)
    equal(device.page, 0, "the page that was set")
    device.page = None
    equal(device.page, 1, "the page of somebody else")
    equal(raised(setattr, device, "page", 2), REMOTE, "a page that there isn't")
    equal(device.page, 1, "the page after that")
    equal(raised(setattr, device, "page", "1"), "TypeError", "a text as a page that is set")
    device.write("STATUS_VOUT", b"\xff", page=255)
    equal(device.page, 255, "all pages")
    equal(raised(device.read, "READ_VOUT"), NXIO, "a read of all pages")
    equal(device.status(page=0)["STATUS_CML"], ["BAD_VALUE"], "STATUS_CML after that")
    equal(raised(device.read, "READ_VOUT", page=256), "ValueError", "a page over 255")
    equal(raised(device.read, "READ_VOUT", page="1"), "TypeError", "a text as a page")
    device.write("CLEAR_FAULTS", page=255)
    found = device.status(page=1)
    equal(set(map(tuple, found.values())), {()}, "the bits after CLEAR_FAULTS")
    equal(list(found)[:3], ["STATUS_BYTE", "STATUS_WORD", "STATUS_VOUT"], "the status registers")


def try_modes():
    """VOUT_MODE of the device, where it isn't that of the profile."""
    board = "[[device]]\naddress = 0x58\npec = 'off'\npages = 2\nvout_mode = [0x14, 0x15]\n"
    board += "[[device.command]]\nname = 'READ_VOUT'\ninitial = ['0010', '0020']\n"
    other = "[[device]]\naddress = 0x58\npec = 'off'\npages = 2\nvout_mode = [0x17, 0x18]\n"
    with pmb.Bus(board) as bus:
        # 1000h are 1 V by 14h, and 2000h are 4 V by 15h; by the profile they would be 8 V and 32 V
        bus.write_byte_data(0x58, 0, 1)
        device = pmb.Device(bus, other, 0x58, exclusive=True)
        bus.events()
        equal(device["READ_VOUT"].value, 4, "a voltage of the page that was selected before")
        lines = ["8b", "00", "20", "8b"]
        found = [line.split()[3] for line in bus.events().splitlines()]
        equal(found, lines, "what is read for the first voltage")
        equal(device.read("READ_VOUT", page=0).value, 1, "a voltage of the other page")
        bus.events()
        equal(device["READ_VOUT"].value, 1, "the same voltage")
        equal(len(bus.events().splitlines()), 1, "packets for a voltage whose VOUT_MODE is known")
        device["VOUT_COMMAND"] = 1
        equal(bus.read_word_data(0x58, 0x21), 0x1000, "1 V by the VOUT_MODE of the device")
        # what a restore has changed is read again
        device.write("RESTORE_DEFAULT_ALL")
        bus.write_byte_data(0x58, 0x20, 0x13)
        equal(device["READ_VOUT"].value, Fraction(1, 2), "a voltage after a restore")
    fixed = "[[device.command]]\nname = 'VOUT_MODE'\nwrite = 'none'\n"
    for mode, right in (("0x17", None), ("0x14", "Error")):
        with pmb.Bus("[[device]]\naddress = 0x58\npec = 'off'\nvout_mode = " + mode) as bus:
            said = "[[device]]\naddress = 0x58\npec = 'off'\nvout_mode = 0x17\n" + fixed
            device = pmb.Device(bus, said, 0x58)
            equal(raised(device.write, "VOUT_COMMAND", 1), right, "VOUT_MODE " + mode)
            equal(bus.read_word_data(0x58, 0x21), 0 if right else 0x200, "1 V by VOUT_MODE " + mode)


def try_codes():
    """Packet error codes by the profile."""
    for address, pec, has in ((0x58, None, True), (0x58, False, False), (0x59, None, False)):
        device, bus, log = device_of(address, pec=pec, exclusive=True)
        device.write("CLEAR_FAULTS")
        device.read("STATUS_BYTE")
        first = "{:02x}".format(2 * address)
        second = "{:02x}".format(2 * address + 1)
        line = "S {0} A 03 A pec A P" if has else "S {0} A 03 A P"
        read = "S {0} A 78 A S {1} A 00 A pec N P" if has else "S {0} A 78 A S {1} A 00 N P"
        equal(bus.events(), wire(line.format(first)) + wire(read.format(first, second)), "codes")
    for address, pec in ((0x59, True), (0x5A, False)):
        equal(raised(device_of, address, pec=pec), "ValueError", "codes against the profile")
    equal(raised(device_of, 0x40), "ValueError", "a device that the profile lacks")
    equal(raised(device_of, 0x158), "ValueError", "an address of nine bits")
    # a device that gives another code than the profile says
    with pmb.Bus(PROFILE) as bus:
        device = pmb.Device(bus, "[[device]]\naddress = 0x59\npec = 'on'", 0x59)
        try:
            device.read("STATUS_BYTE")
            check(False, "a reply without a code is taken")
        except pmb.TransferError as error:
            told = error.reason, error.errno, error.events
            right = "BadPec", errno.EBADMSG, "S b2 A 78 A S b3 A 00 A ff N P\n"
            equal(told, right, "a reply without a code")
            for other in (copy.copy(error), pickle.loads(pickle.dumps(error))):
                equal((other.reason, other.events), (error.reason, error.events), "a copy of it")
        equal(raised(device.write, "CLEAR_FAULTS"), REMOTE, "a code that the device refuses")
    device, bus, _ = device_of(0x5A)
    equal(device.call("COEFFICIENTS", [0x88, 1]).data, b"\3\0\2\0\1", "the coefficients of READ_VIN")
    equal(raised(device.call, "COEFFICIENTS", [0x8B, 1]), NXIO, "the coefficients of another command")
    equal(raised(device.call, "ASK", [1, 2]), NXIO, "a call that is refused")
    equal(raised(device.call, "ASK", [1]), "Error", "a call with too few bytes")
    equal(raised(device.call, "READ_VIN", []), "Error", "a call of what is only read")


def try_blocks():
    """Blocks of each length, over each kind of bus."""
    for kind in (None, Real, Counting):
        bus, log = pmb.Bus(PROFILE), []
        over = bus if kind is None else kind(bus)
        device = pmb.Device(over, PROFILE, 0x59, log=log.append)
        for length in (0, 1, 31, 32, 33, 64, 255):
            data = bytes(range(length))
            device["NOTES"] = data
            equal(device["NOTES"].data, data, "a block of {} bytes over {}".format(length, kind))
        device["WIDE"] = 0x04030201
        equal(device["WIDE"].data, bytes([1, 2, 3, 4]), "four bytes over {}".format(kind))
        if kind is None:
            equal("".join(log), bus.events(), "the log of blocks")
        else:
            # (of what failed nothing is known but that)
            said = [line for line in "".join(log).splitlines() if not line.startswith("#")]
            done = iter(bus.events().splitlines())
            check(all(line in done for line in said), "the log over {}".format(kind))
    with pmb.Bus(PROFILE) as bus:
        log = io.StringIO()
        device = pmb.Device(Real(bus), PROFILE, 0x58, log=log, pec=False, exclusive=True)
        bus.write_byte_data(0x58, 0, 255)
        equal(raised(device.read, "OPERATION"), NXIO, "a read that is refused")
        equal(log.getvalue(), "# 58 01 failed: No such device or address\n", "the log of it")
    equal(raised(pmb.Device, object(), PROFILE, 0x58), "TypeError", "no bus")
    device, bus, _ = device_of(0x59)
    equal(("NOTES" in device, 0xD1 in device, "NOTE" in device), (True, True, False), "what is in it")
    check(len(device) == len(device.commands) == len(list(device)), "how many commands there are")
    equal(device.commands[-2:], ("NOTES", "WIDE"), "the last commands")
    equal(raised(copy.copy, device), "TypeError", "a copy of a device")


# ---- beside smbus2


def smbus2_of():
    """smbus2 itself, or None."""
    with contextlib.suppress(ImportError):
        import smbus2

        return smbus2
    return None


def try_methods(smbus2):
    """The methods of smbus2 have the same arguments here."""
    for name, method in sorted(vars(smbus2.SMBus).items()):
        if name.startswith("_") or not inspect.isfunction(method):
            continue
        right = [(it.name, it.default) for it in inspect.signature(method).parameters.values()]
        own = inspect.signature(getattr(pmb.Bus, name)).parameters.values()
        if name == "open":
            right = [("self", inspect.Parameter.empty), ("profile", inspect.Parameter.empty)]
        equal([(it.name, it.default) for it in own], right, "the arguments of " + name)
    for name in ("read", "write"):
        right = list(inspect.signature(getattr(smbus2.i2c_msg, name)).parameters)
        equal(list(inspect.signature(getattr(pmb.i2c_msg, name)).parameters), right, name)
    # its messages go over a bus of pmb, and a device of pmb over a bus of it
    with pmb.Bus(PROFILE) as bus:
        reply = smbus2.i2c_msg.read(0x59, 1)
        bus.i2c_rdwr(smbus2.i2c_msg.write(0x59, [0x20]), reply)
        equal(list(reply), [0x17], "a message of smbus2")

        class Simulated(smbus2.SMBus):
            def i2c_rdwr(self, *messages):
                check(all(type(it) is smbus2.i2c_msg for it in messages), "messages of smbus2")
                bus.i2c_rdwr(*messages)

        device = pmb.Device(Simulated(), PROFILE, 0x58)
        device["VOUT_COMMAND"] = 12
        equal(str(device["VOUT_COMMAND"]), "12 V", "a voltage over smbus2")


def try_scripts():
    """examples/python/bench.py, which is made for smbus2, on a bus of pmb."""
    board = "[[device]]\naddress = 0x58\npec = 'on'\n[[device.command]]\n"
    board += "name = 'STATUS_WORD'\ninitial = '4088'\n"
    buses = []

    def made(number):
        buses.append(pmb.Bus(board))
        return buses[-1]

    stands_in = types.ModuleType("smbus2")
    stands_in.SMBus, stands_in.i2c_msg = made, pmb.i2c_msg
    kept, words = sys.modules.get("smbus2"), sys.argv
    sys.modules["smbus2"], sys.argv = stands_in, ["bench.py", "1"]
    folder = os.path.join(ROOT, "examples", "python")
    told = io.StringIO()
    with contextlib.redirect_stdout(told):
        runpy.run_path(os.path.join(folder, "bench.py"), run_name="__main__")
    del sys.modules["smbus2"]
    if kept is not None:
        sys.modules["smbus2"] = kept
    sys.argv = words
    with open(os.path.join(folder, "bench.out"), encoding="ascii") as file:
        equal(told.getvalue(), file.read(), "what bench.py prints")
    # (VOUT_MODE, four voltages set and read, and STATUS_WORD)
    found = pmb.check(board, buses[0].events())
    equal((found.packets, found.refusals), (10, 0), "the packets of bench.py")


def main():
    try_accesses()
    try_messages()
    try_handle()
    try_values()
    try_pages()
    try_modes()
    try_codes()
    try_blocks()
    smbus2 = smbus2_of()
    if smbus2 is not None:
        try_methods(smbus2)
    try_scripts()
    return 1 if failed else 0


if __name__ == "__main__":
    sys.exit(main())
