"""Tries `pmb.Device` on a bus with other masters: what is on the wire of each access; what is done where
somebody else writes PAGE or VOUT_MODE between two transfers of it; what `exclusive` keeps, and when it
forgets. Then random steps of two devices and of another master in turns, and random accesses in the
midst of which another master writes PAGE and VOUT_MODE. Each reading has to be that of its page, and
each write has to be on the page that was asked for; or there is a TransferError.

    PYTHONPATH=python python3 .ci/masters.py [STEPS [SEED]]
    PYTHONPATH=python python3 .ci/masters.py --i2cset BUS [STEPS [SEED]]

The second does the steps in turns over smbus2, on the bus /dev/i2c-BUS with the devices of
i2cd/tests/masters.toml; the other master is i2cset.
"""

import errno
import os
import random
import subprocess
import sys
from fractions import Fraction

import pmb

ROOT = os.path.join(os.path.dirname(os.path.abspath(__file__)), os.pardir)
with open(os.path.join(ROOT, "i2cd", "tests", "masters.toml"), encoding="ascii") as opened:
    BOARD = opened.read()
ADDRESS = 0x58
PAGE, OPERATION, VOUT_MODE, VOUT_COMMAND, READ_VOUT = 0x00, 0x01, 0x20, 0x21, 0x8B
# What the profile has of each page: VOUT_MODE, and the words of READ_VOUT.
MODES, WORDS = [0x17, 0x18, 0x16], [1, 2, 3]
passed = failed = 0


def check(holds, what):
    global passed, failed
    if holds:
        passed += 1
    else:
        failed += 1
        print("masters:", what, file=sys.stderr)


def equal(found, right, what):
    check(found == right, "{}: {!r} in place of {!r}".format(what, found, right))


def done(call, *given, **named):
    """What a call returns, or its error."""
    try:
        return call(*given, **named)
    except pmb.TransferError as error:
        return error.reason, errno.errorcode[error.errno]
    except OSError as error:
        return "OSError", errno.errorcode[error.errno]
    except pmb.Error as error:
        return error.fault, error.place


def volts(word, mode):
    """A voltage in a linear format, whose exponent is five bits with a sign (PMBus Part II 1.3 section
    8.4.1)."""
    return word * Fraction(2) ** ((mode & 0x1F) - 2 * (mode & 0x10))


def in_short(text):
    """The packets of a capture without packet error codes: `00=01` writes PAGE, and `00` reads it. A
    comment is `#`."""
    found = []
    for line in text.splitlines():
        bytes_of = [word for word in line.partition(" S ")[0].split()[2:] if len(word) == 2]
        is_sent = " S " not in line and len(bytes_of) > 1
        found.append("#" if line[0] == "#" else bytes_of[0] + ("=" + "".join(bytes_of[1:])) * is_sent)
    return " ".join(found)


class i2c_msg(pmb.i2c_msg):
    """The messages of the next bus, beside which they are."""

    @staticmethod
    def read(address, length):
        made = pmb.i2c_msg.read(address, length)
        return i2c_msg(made.addr, made.flags, made.len, made.buf)

    @staticmethod
    def write(address, data):
        made = pmb.i2c_msg.write(address, data)
        return i2c_msg(made.addr, made.flags, made.len, made.buf)


class Between:
    """A bus on which `other` is called before each transfer, with what is sent."""

    def __init__(self, bus, other):
        self.bus, self.other = bus, other

    def i2c_rdwr(self, *messages):
        self.other(bytes(messages[0]), len(messages) == 1)
        self.bus.i2c_rdwr(*[pmb.i2c_msg(it.addr, it.flags, it.len, it.buf) for it in messages])


def disturbed(others, exclusive=False, profile=BOARD):
    """A device, its bus, and its log. `others` has what another master writes, by the number of the
    transfer before which it does."""
    bus, log, count = pmb.Bus(profile), [], [0]

    def other(_data, _is_write):
        for register, value in others.get(count[0], ()):
            bus.write_byte_data(ADDRESS, register, value)
        count[0] += 1

    over = Between(bus, other)
    more = {"exclusive": True} if exclusive else {}
    return pmb.Device(over, profile, ADDRESS, log=log.append, **more), bus, log


def word_of(bus, page, register=VOUT_COMMAND):
    """A word of a page, as another master reads it."""
    bus.write_byte_data(ADDRESS, PAGE, page)
    return bus.read_word_data(ADDRESS, register)


# ---- what is on the wire

STATUS = "78 79 7a 7b 7c 7d 7e 7f 80 81 82"
# An access, its packets, and where the bus is the device's alone those of it and of the same again.
ACCESSES = [
    (("read", "OPERATION", 1), "00=01 01 00", "00=01 01", "01"),
    (("read", "OPERATION"), "00 01 00", "01", "01"),
    (("write", "OPERATION", 128, 1), "00=01 01=80 00", "00=01 01=80", "01=80"),
    (("write", "OPERATION", 128), "00 01=80 00", "01=80", "01=80"),
    (("write", "CLEAR_FAULTS", None, 255), "00=ff 03 00", "00=ff 03", "03"),
    (("write", "CLEAR_FAULTS"), "00 03 00", "03", "03"),
    (("read", "READ_VOUT", 1), "00=01 20 8b 20 00", "00=01 8b 20 8b", "8b"),
    (("read", "READ_VOUT"), "00 20 8b 20 00", "8b 00 20 8b", "8b"),
    (("write", "VOUT_COMMAND", 1, 1), "00=01 20 21=0001 20 00", "00=01 20 21=0001", "20 21=0001"),
    (("write", "VOUT_COMMAND", 1), "00 20 21=0002 20 00", "00 20 21=0002", "20 21=0002"),
    (("write", "VOUT_COMMAND", b"\0\1", 255), "00=ff 21=0001 00", "00=ff 21=0001", "21=0001"),
    (("read", "VOUT_MODE", 1), "00=01 20 00", "00=01 20", "20"),
    (("write", "VOUT_MODE", 0x14, 1), "00=01 20=14 00", "00=01 20=14", "20=14"),
    # (this bus reads a block's count first, and then the whole)
    (("read", "NOTES", 1), "00=01 d0 d0 00", "00=01 d0 d0", "d0 d0"),
    (("call", "COEFFICIENTS", [0x88, 1]), "00 30 30 00", "30 30", "30 30"),
    (("status", 1), "00=01 " + STATUS + " 00", "00=01 " + STATUS, STATUS),
    (("status",), "00 " + STATUS + " 00", STATUS, STATUS),
    (("read", "PAGE"), "00", "00", "00"),
    (("write", "PAGE", 1), "00=01", "00=01", "00=01"),
    (("__setattr__", "page", 1), "00=01", "00=01", ""),
    (("__getattribute__", "page"), "00", "00", ""),
]
ONE_PAGE = BOARD.replace("pages = 3\n", "").replace("[0x17, 0x18, 0x16]", "0x17")
ONE_PAGE = ONE_PAGE.replace('["0100", "0200", "0300"]', '"0100"')
WITHOUT_PAGE = ONE_PAGE.replace("# (the standard's commands)", "standard = false")
WITHOUT_PAGE += "[[device.command]]\nname = 'VOUT_MODE'\n"
READ_ONLY = BOARD + "[[device.command]]\nname = '{}'\nwrite = 'none'\n"
WRITE_ONLY = BOARD + "[[device.command]]\nname = '{}'\nread = 'none'\n"
PROTECTED = BOARD.replace("pages = 3", "pages = 3\nprotect = true")
PROTECTED += "[[device.command]]\nname = 'WRITE_PROTECT'\ninitial = '80'\n"
# The same with profiles of other devices.
OTHERS = [
    (ONE_PAGE, ("read", "OPERATION"), "01"),
    (ONE_PAGE, ("read", "OPERATION", 0), "00=00 01 00"),
    (ONE_PAGE, ("read", "READ_VOUT"), "20 8b 20"),
    (ONE_PAGE, ("write", "VOUT_COMMAND", 1), "20 21=0002 20"),
    (WITHOUT_PAGE, ("read", "READ_VOUT"), "20 8b 20"),
    (WITHOUT_PAGE, ("read", "READ_VOUT", 0), ("UnknownCommand", "PAGE")),
    (READ_ONLY.format("PAGE"), ("read", "READ_VOUT"), "00 20 8b 20 00"),
    (READ_ONLY.format("PAGE"), ("read", "READ_VOUT", 0), ("NotAllowed", "PAGE")),
    (WRITE_ONLY.format("PAGE"), ("read", "READ_VOUT", 1), "00=01 20 8b 20"),
    (WRITE_ONLY.format("PAGE"), ("read", "OPERATION"), "01"),
    (WRITE_ONLY.format("VOUT_MODE"), ("read", "READ_VOUT", 1), "00=01 8b 00"),
    (WRITE_ONLY.format("VOUT_MODE"), ("write", "VOUT_COMMAND", 1, 1), "00=01 21=0001 00"),
    (READ_ONLY.format("VOUT_MODE"), ("write", "VOUT_COMMAND", 1, 1), "00=01 20 21=0001 20 00"),
    # (a device that acknowledges PAGE and doesn't take it)
    (PROTECTED, ("write", "VOUT_COMMAND", b"\0\1", 1), ("PageChanged", "EAGAIN")),
    (PROTECTED, ("write", "VOUT_COMMAND", b"\0\1", 0), "00=00 21=0001 00"),
    # VOUT_MODE of all pages is no single one
    (BOARD, ("write", "VOUT_COMMAND", 1, 255), ("ModeUnknown", "VOUT_COMMAND")),
    (BOARD, ("read", "READ_VOUT", 255), ("OSError", "ENXIO")),
]


def try_accesses():
    for (name, *given), shared, first, again in ACCESSES:
        for exclusive, rights in ((False, (shared, shared)), (True, (first, again))):
            device, _, log = disturbed({}, exclusive)
            for right in rights:
                done(getattr(device, name), *given)
                equal(in_short("".join(log)), right, "{} {}, exclusive {}".format(name, given, exclusive))
                log.clear()
    for profile, (name, *given), right in OTHERS:
        device, _, log = disturbed({}, profile=profile)
        found = done(getattr(device, name), *given)
        if isinstance(right, str):
            found = in_short("".join(log))
        equal(found, right, "{} {} with {}".format(name, given, profile[-60:]))
    # a VOUT_MODE that can't be read is the profile's, until it is written
    device, _, _ = disturbed({}, profile=WRITE_ONLY.format("VOUT_MODE"))
    equal(device.read("READ_VOUT", 1).value, volts(2, 0x18), "a voltage by the profile's VOUT_MODE")
    device.write("VOUT_MODE", 0x14, 1)
    equal(device.read("READ_VOUT", 1).raw, "unknown", "a voltage by a VOUT_MODE that nobody can read")
    found = done(device.write, "VOUT_COMMAND", 1, 1)
    equal(found, ("ModeUnknown", "VOUT_COMMAND"), "to write such a voltage")


# ---- another master between two transfers

TO_0, TO_1, TO_2, TO_ALL = [(PAGE, 0)], [(PAGE, 1)], [(PAGE, 2)], [(PAGE, 255)]
CHANGED = "PageChanged", "EAGAIN"
READ, READ_0, WRITE = ("READ_VOUT",), ("READ_VOUT", 0), ("VOUT_COMMAND", 1)
WRITE_0, BRACKETED = ("VOUT_COMMAND", 1, 0), "00=00 20 8b 20 00"
AGAIN = BRACKETED + " # " + BRACKETED
WRITTEN, HAPPENED = "00=00 20 21=0002 20 00", (0x200, 0x200, 0)
# What another master writes, by the number of the transfer before which it does; what is read or
# written, what comes of it (of a write the words of the three pages), and what the device logs.
DISTURBANCES = [
    ({}, READ_0, volts(1, 0x17), BRACKETED),
    ({0: TO_1}, READ_0, volts(1, 0x17), BRACKETED),
    ({1: TO_1}, READ_0, volts(1, 0x17), AGAIN),
    ({2: TO_1}, READ_0, volts(1, 0x17), AGAIN),
    ({3: TO_1}, READ_0, volts(1, 0x17), AGAIN),
    ({4: TO_1}, READ_0, volts(1, 0x17), AGAIN),
    ({5: TO_1}, READ_0, volts(1, 0x17), BRACKETED),
    ({2: TO_1, 7: TO_2, 12: TO_1}, READ_0, volts(1, 0x17), AGAIN + " # " + AGAIN),
    ({2: TO_1, 7: TO_2, 12: TO_1, 17: TO_1}, READ_0, CHANGED, AGAIN + " # " + AGAIN + " #"),
    # VOUT_MODE: the word is 1, and the new steps are of 2^-12 V
    ({2: [(VOUT_MODE, 0x14)]}, READ_0, volts(1, 0x14), AGAIN),
    ({3: [(VOUT_MODE, 0x14)]}, READ_0, volts(1, 0x14), AGAIN),
    ({4: [(VOUT_MODE, 0x14)]}, READ_0, volts(1, 0x17), BRACKETED),
    # (after that of page 0 was changed, page 1 is selected: its VOUT_MODE is that of before)
    ({2: [(VOUT_MODE, 0x18)], 3: TO_1}, READ_0, volts(1, 0x18), AGAIN),
    (
        {at: [(VOUT_MODE, 0x18 + at // 5)] for at in (2, 7, 12, 17)},
        READ_0,
        ("ModeChanged", "EAGAIN"),
        AGAIN + " # " + AGAIN + " #",
    ),
    # all pages: the device refuses what is read
    ({1: TO_ALL}, READ_0, volts(1, 0x17), "00=00 # 00 # " + BRACKETED),
    ({2: TO_ALL}, READ_0, volts(1, 0x17), "00=00 20 # 00 # " + BRACKETED),
    ({3: TO_ALL}, READ_0, volts(1, 0x17), "00=00 20 8b # 00 # " + BRACKETED),
    # without a page it is the one that is selected
    ({0: TO_1}, READ, volts(2, 0x18), "00 20 8b 20 00"),
    ({2: TO_1}, READ, volts(2, 0x18), "00 20 8b 20 00 # 00 20 8b 20 00"),
    # what is written on a wrong page stays there, and is then written on the right one
    ({}, WRITE_0, (0x200, 0, 0), WRITTEN),
    ({2: TO_1}, WRITE_0, HAPPENED, WRITTEN + " # " + WRITTEN),
    ({3: TO_1}, WRITE_0, (0x200, 0, 0), WRITTEN + " # " + WRITTEN),
    ({2: TO_1, 7: TO_1, 12: TO_1, 17: TO_1}, WRITE_0, CHANGED, " ".join([WRITTEN, "#"] * 4)),
    ({2: [(VOUT_MODE, 0x18)]}, WRITE_0, (0x100, 0, 0), WRITTEN + " # 00=00 20 21=0001 20 00"),
    # where no page is named, it is never written again on another one
    ({2: TO_1}, WRITE, CHANGED, "00 20 21=0002 20 00 # 00"),
    ({2: TO_1, 5: TO_0}, WRITE, HAPPENED, "00 20 21=0002 20 00 # 00 20 21=0002 20 00"),
    # what nobody can see: another page is selected for as long as the access takes
    ({2: TO_1, 3: TO_0}, READ_0, volts(2, 0x17), BRACKETED),
    ({2: TO_1, 3: TO_0}, WRITE_0, (0, 0x200, 0), WRITTEN),
]


def try_disturbances():
    for others, given, right, log_of in DISTURBANCES:
        device, bus, log = disturbed(others)
        call = device.read if given[0] == "READ_VOUT" else device.write
        found = done(call, *given)
        if isinstance(found, pmb.Reading):
            found = found.value
        elif found is None:
            found = tuple(word_of(bus, page) for page in range(3))
        what = "{} where others write {}".format(given, others)
        equal(found, right, what)
        equal(in_short("".join(log)), log_of, "the log of " + what)
    # status registers are all of one page
    device, bus, log = disturbed({5: TO_1})
    bus.write_byte_data(ADDRESS, PAGE, 1)
    done(bus.write_byte_data, ADDRESS, PAGE, 7)
    bus.write_byte_data(ADDRESS, PAGE, 0)
    equal(set(map(tuple, device.status(0).values())), {()}, "the status of page 0")
    equal(in_short("".join(log)), "00=00 {0} 00 # 00=00 {0} 00".format(STATUS), "its log")
    # the error has all that was on the wire
    device, _, log = disturbed({at: TO_1 for at in (2, 5, 8, 11)})
    try:
        device.read("OPERATION", 0)
        check(False, "a page that is always another one is taken")
    except pmb.TransferError as error:
        text = "".join(line for line in "".join(log).splitlines(True) if line[0] != "#")
        equal(error.events, text, "the events of the error")


# ---- what is kept


def try_keeping():
    for exclusive in (False, True):
        # a power cycle: page 0 is selected again
        bus = pmb.Bus(BOARD)
        more = {"exclusive": True} if exclusive else {}
        device = pmb.Device(bus, BOARD, ADDRESS, **more)
        device.write("VOUT_MODE", 0x14, page=1)
        device.write("VOUT_COMMAND", 1, page=1)
        equal(word_of(bus, 1), 0x1000, "1 V in steps of 2^-12 V")
        bus.write_byte_data(ADDRESS, PAGE, 1)
        bus.open(BOARD)
        device.write("VOUT_COMMAND", 1, page=1)
        equal([word_of(bus, page) for page in range(3)], [0, 0x100, 0], "1 V after a power cycle")
        device.page = 2
        bus.open(BOARD)
        device["VOUT_COMMAND"] = 1
        equal([word_of(bus, page) for page in range(3)], [0, 0, 0x400], "1 V on the page that is set")
        equal(device.read("READ_VOUT", 1).value, volts(2, 0x18), "a voltage after a power cycle")
        # an error of any kind
        device.write("VOUT_MODE", 0x14, page=2)
        for call, *given in (
            (device.read, "OPERATION", 255),
            (device.read, "OPERATION", 256),
            (device.write, "TON_DELAY", 1e9),
            (device.read, "NONE"),
            (bus.write_byte_data, ADDRESS, PAGE, 9),
        ):
            device.read("READ_VOUT", 2)
            try:
                call(*given)
                check(False, "{} is no error".format(given))
            except (OSError, ValueError, KeyError):
                pass
            if call == bus.write_byte_data:
                continue
            bus.write_byte_data(ADDRESS, PAGE, 2)
            bus.write_byte_data(ADDRESS, VOUT_MODE, 0x13)
            bus.write_byte_data(ADDRESS, PAGE, 1)
            equal(device.read("READ_VOUT", 2).value, volts(3, 0x13), "a voltage after {}".format(given))
            device.write("VOUT_MODE", 0x14, page=2)
        # another page in between leaves the one that is set
        device.page = 0
        device.read("READ_VOUT", 1)
        equal(device["READ_VOUT"].page, 0, "the page that is set, after another one")
        device["PAGE"] = 1
        equal((device.page, device["READ_VOUT"].page), (1, 1), "the page that PAGE is written to")
        device.page = None
        bus.write_byte_data(ADDRESS, PAGE, 2)
        equal((device.page, device["READ_VOUT"].page), (2, 2), "the page of somebody else")


# ---- in turns


class Model:
    """What the registers of the board should have, and the page that each device has set."""

    def __init__(self, chosen):
        self.page, self.modes, self.words = 0, list(MODES), [0, 0, 0]
        self.chosen = chosen


def first(*pages):
    """The first page that is one."""
    return next(page for page in pages if page is not None)


def step_of_device(device, model, draw, what):
    """A random access of a device; what is wrong with it is told."""
    named = draw.choice([None, None, 0, 1, 2])
    if draw.random() < 0.2:
        device.page = model.chosen[device] = draw.choice([None, 0, 1, 2])
        model.page = first(model.chosen[device], model.page)
    page = first(named, model.chosen[device], model.page)
    kind = draw.choice(["read", "read", "command", "write", "mode"])
    word = draw.randrange(1 << 16)
    if kind == "read":
        found = device.read("READ_VOUT", named)
        equal((found.page, found.value), (page, volts(WORDS[page], model.modes[page])), what)
    elif kind == "command":
        found = device.read("VOUT_COMMAND", named)
        equal((found.page, found.value), (page, volts(model.words[page], model.modes[page])), what)
    elif kind == "write":
        device.write("VOUT_COMMAND", volts(word, model.modes[page]), named)
        model.words[page] = word
    else:
        model.modes[page] = draw.randrange(0x10, 0x20)
        device.write("VOUT_MODE", model.modes[page], named)
    model.page = page


def step_of_other(write, model, draw):
    """A random write of the other master."""
    kind = draw.choice(["page", "page", "mode", "word"])
    if kind == "page":
        model.page = draw.randrange(3)
        write(PAGE, model.page, 1)
    elif kind == "mode":
        model.modes[model.page] = draw.randrange(0x10, 0x20)
        write(VOUT_MODE, model.modes[model.page], 1)
    else:
        model.words[model.page] = draw.randrange(1 << 16)
        write(VOUT_COMMAND, model.words[model.page], 2)


def try_turns(bus, devices, write, steps, draw, power_cycle=None):
    """Random steps of devices and of another master, with a look at all pages after each."""
    chosen = {device: None for device in devices}
    model = Model(chosen)
    for number in range(steps):
        what, who = "step {}".format(number), draw.randrange(len(devices) + 1)
        try:
            if power_cycle and draw.random() < 0.01:
                power_cycle()
                model = Model(chosen)
            elif who < len(devices):
                step_of_device(devices[who], model, draw, what)
            else:
                step_of_other(write, model, draw)
            found = []
            for page in range(3):
                bus.write_byte_data(ADDRESS, PAGE, page)
                mode = bus.read_byte_data(ADDRESS, VOUT_MODE)
                found.append((mode, bus.read_word_data(ADDRESS, VOUT_COMMAND)))
            bus.write_byte_data(ADDRESS, PAGE, model.page)
        except OSError as error:
            print("masters: {}: {}".format(what, error), file=sys.stderr)
            raise
        equal(found, list(zip(model.modes, model.words)), "the registers after " + what)


# ---- at random moments


class Intruder:
    """Another master, which writes PAGE and VOUT_MODE at random moments of an access. It never writes
    back what it has changed, since nobody can see that. It also watches the bus: `selected` and `modes`
    are the device's, and `seen` the accesses to VOUT_COMMAND, each with the page and VOUT_MODE of then.
    """

    def __init__(self, bus, draw):
        self.bus, self.draw = bus, draw
        self.selected, self.modes, self.words = 0, list(MODES), [0, 0, 0]
        self.begin(0)

    def begin(self, rate):
        self.rate, self.seen, self.written = rate, [], False
        self.pages, self.past = set(), [{mode} for mode in self.modes]

    def __call__(self, data, is_write):
        if self.draw.random() < self.rate:
            self.intrude()
        if data[0] == PAGE:
            if is_write:
                self.selected = data[1]
            self.pages.add(self.selected)
        if data[0] == VOUT_COMMAND:
            self.seen.append((self.selected, self.modes[self.selected] if self.selected < 3 else None))
            if is_write:
                for page in range(3) if self.selected == 255 else [self.selected]:
                    self.words[page] = int.from_bytes(data[1:3], "little")

    def intrude(self):
        others = [page for page in (0, 1, 2, 255) if page not in self.pages]
        if others and self.draw.random() < 0.6:
            self.selected = self.draw.choice(others)
            self.bus.write_byte_data(ADDRESS, PAGE, self.selected)
        elif self.selected < 3:
            fresh = [it for it in range(0x10, 0x20) if it not in self.past[self.selected]]
            if fresh:
                self.modes[self.selected] = self.draw.choice(fresh)
                self.past[self.selected].add(self.modes[self.selected])
                self.bus.write_byte_data(ADDRESS, VOUT_MODE, self.modes[self.selected])


def try_moments(steps, draw):
    """Random accesses of a device, with an intruder."""
    bus, ends = pmb.Bus(BOARD), {}
    intruder = Intruder(bus, draw)
    device, chosen = pmb.Device(Between(bus, intruder), BOARD, ADDRESS), None
    for number in range(steps):
        intruder.begin(0)
        if draw.random() < 0.1:
            device.page = chosen = draw.choice([None, 0, 1, 2])
        intruder.begin(draw.choice([0, 0.05, 0.3, 0.9]))
        named = draw.choice([None, 0, 1, 2])
        # (each VOUT_MODE has a word for it)
        value = Fraction(draw.randrange(1 << 16), 1 << 16)
        is_write = draw.random() < 0.5
        if is_write:
            found = done(device.write, "VOUT_COMMAND", value, named)
        else:
            found = done(device.read, "VOUT_COMMAND", named)
        wanted = chosen if named is None else named
        what = "access {}".format(number)
        if isinstance(found, tuple) and not isinstance(found, pmb.Reading):
            ends[found[0]] = ends.get(found[0], 0) + 1
            is_known = found[0] in ("PageChanged", "ModeChanged")
            # (all pages are no single one, where none is named)
            check(is_known or wanted is None and 255 in intruder.pages, "{}: {}".format(what, found))
            continue
        page, mode = intruder.seen[-1]
        end = "done" if len(intruder.seen) == 1 else "done again"
        ends[end] = ends.get(end, 0) + 1
        check(wanted in (None, page), "{}: page {} in place of {}".format(what, page, wanted))
        if is_write:
            near = abs(volts(intruder.words[page], mode) - value)
            check(near <= volts(1, mode) / 2, "{}: {} V are written as another voltage".format(what, value))
        else:
            right = page, volts(intruder.words[page], mode)
            equal((found.page, found.value), right, what)
    for end in ("done", "done again", "PageChanged", "ModeChanged"):
        check(ends.get(end, 0) >= steps // 500, "{} of {}: {}".format(end, steps, ends))


# ---- which trials


def i2cset(number):
    """A write of another master by i2cset."""

    def write(register, value, size):
        words = ["i2cset", "-y", number, str(ADDRESS), str(register), str(value), "bw"[size - 1]]
        subprocess.run(words, check=True)

    return write


def try_over_smbus2(number, steps, draw):
    """Two devices, each on a bus of its own that is opened as /dev/i2c-N, and i2cset, in turns."""
    import smbus2

    with smbus2.SMBus(int(number)) as one, smbus2.SMBus(int(number)) as other:
        devices = [pmb.Device(one, BOARD, ADDRESS), pmb.Device(other, BOARD, ADDRESS)]
        try_turns(other, devices, i2cset(number), steps, draw)


def try_over_pmb(steps, draw):
    """The same on a bus of pmb that also loses its power."""
    bus = pmb.Bus(BOARD)
    devices = [pmb.Device(bus, BOARD, ADDRESS), pmb.Device(bus, BOARD, ADDRESS)]

    def write(register, value, size):
        (bus.write_byte_data if size == 1 else bus.write_word_data)(ADDRESS, register, value)

    def power_cycle():
        bus.open(BOARD)
        bus.events()

    try_turns(bus, devices, write, steps, draw, power_cycle)


def main(words):
    number = words[1] if words[:1] == ["--i2cset"] else None
    steps, seed = ([int(it) for it in words[2 if number else 0 :]] + [10000, 1])[:2]
    draw = random.Random(seed)
    if number:
        try_over_smbus2(number, steps, draw)
    else:
        try_accesses()
        try_disturbances()
        try_keeping()
        try_over_pmb(steps, draw)
        try_moments(steps, draw)
    print("masters: {} passed, {} failed".format(passed, failed))
    return 1 if failed else 0


if __name__ == "__main__":
    sys.exit(main(sys.argv[1:]))
