"""Recordings that are drawn: transfers, what a program writes of each, and the capture that
`pmb import` makes of that. The capture is worked out from the transfers, and takes nothing from
recordings.py. `DAMAGES` has ways in which a recording loses something.
"""

from fractions import Fraction
from typing import NamedTuple

BOM = b"\xef\xbb\xbf"


class Span(NamedTuple):
    """The lines that give a transfer's events, and its packet, or None where it has none."""
    own: tuple
    time: object  # the line in front of the packet, or None
    packet: object


class Recording(NamedTuple):
    source: str
    options: dict
    bus: object  # its name, where the source has several
    lines: list
    spans: list
    wanted: bytes  # the capture
    status: int
    front: bytes = b""
    line_end: bytes = b"\n"

    def text(self):
        return self.front + b"".join(line + self.line_end for line in self.lines)


class Sheet:
    """The lines of a recording while they are drawn."""

    def __init__(self, chance):
        self.chance, self.lines, self.spans, self.wanted = chance, [], [], []
        self.noise = []  # makers of lines that say nothing or are passed over
        self.passed, self.packets, self.is_bad = {}, 0, False
        self.codes = 0  # error codes that the recording does not show

    def put(self, line):
        """A line, with noise in front of it; its number."""
        while self.noise and self.chance.random() < 0.15:
            what, some = self.chance.choice(self.noise)()
            self.lines.append(some)
            if what:
                self.passed[what] = self.passed.get(what, 0) + 1
        self.lines.append(line)
        return len(self.lines)

    def end_transfer(self, own, time, packet):
        if packet is not None:
            self.wanted += [time, packet] if time else [packet]
            self.packets += 1
        self.spans.append(Span(tuple(own), time, packet))

    def tell(self, number, told):
        self.wanted.append(b"# line %d: %b" % (number, told))

    def recording(self, source, options, bus):
        wanted = list(self.wanted)
        for what in ("smbus", "i2c", "other buses"):
            if what in self.passed:
                wanted.append(b"# %d lines of %b were passed over"
                              % (self.passed[what], what.encode()))
        if not self.packets:
            wanted.append(b"# no packets")
        if self.codes:
            wanted.append(b"# %d error codes are computed, since the recording shows none"
                          % self.codes)
        status = 1 if self.is_bad or not self.packets else 0
        capture = b"".join(line + b"\n" for line in wanted)
        front = BOM if self.chance.random() < 0.1 else b""
        line_end = b"\r\n" if self.chance.random() < 0.1 else b"\n"
        return Recording(source, options, bus, self.lines, self.spans, capture, status, front,
                         line_end)


def some_bytes(chance, most):
    count = chance.choice((0, 1, 1, 1, 2, 2, 3, chance.randrange(most)))
    return [chance.choice((0, 3, 0x58, 0xFF, chance.randrange(256))) for _ in range(count)]


def hexadecimal(chance, byte):
    return b"%02x" % byte if chance.random() < 0.5 else b"%02X" % byte


# What is on the wires: legs of (address byte, its answer, [(byte, answer)])

def legs(chance):
    found = []
    for _ in range(chance.choice((1, 1, 1, 2, 2, 3))):
        address = 2 * chance.choice((0x58, 0x20, 0x0C, chance.randrange(128))) + chance.randrange(2)
        answered = [(byte, chance.random() < 0.85) for byte in some_bytes(chance, 8)]
        found.append((address, chance.random() < 0.85, answered))
    return found


def packet_of(some_legs):
    words = []
    for address, is_acknowledged, answered in some_legs:
        words.append(b"S")
        for byte, is_answered in [(address, is_acknowledged)] + answered:
            words += [b"%02x" % byte, b"A" if is_answered else b"N"]
    return b" ".join(words + [b"P"])


# sigrok

# What the decoder says of its classes, where that is more than their names.
DESCRIBED = {b"start": b"Start condition", b"repeat-start": b"Repeat start condition",
             b"stop": b"Stop condition", b"bit": b"Data/address bit", b"ack": b"ACK",
             b"nack": b"NACK"}


def label_of(kind, labels):
    """What PulseView writes before an annotation."""
    if labels == "name":
        return kind
    if labels == "description":
        return DESCRIBED.get(kind, kind.replace(b"-", b" ").capitalize())
    row = b"Bits" if kind == b"bit" else b"Address/Data"
    return row.capitalize() if labels == "newer row" else row


def sigrok(chance):
    sheet = Sheet(chance)
    form = chance.choice(("plain", "plain", "quoted", "full", "pulseview"))
    labels = chance.choice(("row", "newer row", "name", "description"))
    has_samples = form == "pulseview" or chance.random() < 0.7
    name = "I²C".encode() if form == "pulseview" else b"i2c-1"
    bits, words = chance.choice(("none", "none", "before", "behind")), chance.choice(
        ("before", "behind", "none"))
    options = {"unshifted": chance.random() < 0.3}
    if chance.random() < 0.7:
        options["rate"] = chance.choice((1, 1000, 24000000, 10**9, 18446744073))
    if chance.random() < 0.5:
        options["bus"] = name
    sample = [chance.choice((0, 1000, 2**64 - 200, 10**30)) if chance.random() < 0.2
              else chance.randrange(10**9)]

    def line(kind, text, *others, of=name):
        sample[0] += chance.randrange(1, 20)
        front = b"%d-%d " % (sample[0], sample[0] + chance.randrange(9)) if has_samples else b""
        front += of + b": "
        if form == "quoted":
            return front + b'"' + text + b'"'
        if form == "full":
            return front + kind + b': "' + b'" "'.join((text,) + others) + b'"'
        if form == "pulseview":
            return front + label_of(kind, labels) + b": " + text
        return front + text

    def noise():
        kind = chance.choice(("blank", "other", "log"))
        if kind == "blank":
            return None, b""
        if kind == "log":
            return None, chance.choice((b"sr: x", b"srd: i2c-1: Start", b"cli: y", b" - /usr/lib"))
        text = chance.choice((b"Start", b"Stop", b"rubbish", b""))
        return "other buses", line(b"start", text, b"S", of=b"uart-1")

    def put_byte(kind, byte, shown, reads, own):
        digits = hexadecimal(chance, shown)
        in_bits = [b"%d" % (byte >> i & 1) for i in range(8)]
        word = (b"Address " if kind == b"A" else b"Data ") + (b"read" if reads else b"write")
        short = kind + (b"R" if reads else b"W")
        klass = (b"address-" if kind == b"A" else b"data-") + (b"read" if reads else b"write")
        direction = line(klass, *((b"Read", b"Rd", b"R") if reads else (b"Write", b"Wr", b"W")))
        if bits == "before":
            own += [sheet.put(line(b"bit", bit)) for bit in in_bits]
        if kind == b"A" and words == "before":
            own.append(sheet.put(direction))
        text = line(klass, word + b": " + digits, short + b": " + digits, digits)
        own.append(sheet.put(text))
        if bits == "behind":
            own += [sheet.put(line(b"bit", bit)) for bit in reversed(in_bits)]
        if kind == b"A" and words == "behind":
            own.append(sheet.put(direction))

    def put_answer(is_acknowledged, own):
        word = line(b"ack", b"ACK", b"A") if is_acknowledged else line(b"nack", b"NACK", b"N")
        own.append(sheet.put(word))

    for _ in range(chance.randrange(1, 9)):
        own, time, some_legs = [], None, legs(chance)
        for i, (address, is_acknowledged, answered) in enumerate(some_legs):
            if i:
                own.append(sheet.put(line(b"repeat-start", b"Start repeat", b"Sr")))
            else:
                start = line(b"start", b"Start", b"S")
                own.append(sheet.put(start))
                if has_samples and "rate" in options:
                    at = int(start.split(b"-")[0])
                    seconds = Fraction(at, options["rate"])
                    whole = seconds.numerator // seconds.denominator
                    rest = int((seconds - whole) * 10**9)
                    if at < 2**64:
                        time = b"# %d.%s s" % (whole, (b"%d" % rest).rjust(9, b"0"))
            if not sheet.noise:
                # The first line settles the bus, so the others come behind it.
                sheet.noise.append(noise)
            reads = address % 2 == 1
            shown = address if options["unshifted"] else address // 2
            put_byte(b"A", address, shown, reads, own)
            put_answer(is_acknowledged, own)
            for byte, is_answered in answered:
                put_byte(b"D", byte, byte, reads, own)
                put_answer(is_answered, own)
        own.append(sheet.put(line(b"stop", b"Stop", b"P")))
        sheet.end_transfer(own, time, packet_of(some_legs))
    return sheet.recording("sigrok", options, name)


# Tables

def field(chance, text, often):
    """A field of CSV, in quotes where it needs them."""
    if chance.random() < often or b'"' in text or b"," in text:
        return b'"' + text.replace(b'"', b'""') + b'"'
    return text


def row(chance, columns, values, often):
    return b",".join(field(chance, values.get(name, b""), often) for name in columns)


def saleae(chance, plain=False):
    """With `plain`: as Logic 2 writes it, in hexadecimal, the names in quotes."""
    sheet = Sheet(chance)
    columns = [b"name", b"type", b"start_time", b"duration", b"ack", b"address", b"read", b"data"]
    if not plain:
        columns += [b"miso"] * chance.randrange(2)
        chance.shuffle(columns)
    often = 0.0 if plain else chance.choice((0.0, 0.3, 1.0))
    name = b"I2C" if plain else chance.choice((b"I2C", b'I2C, "main"', b"I2C 2"))
    is_decimal = not plain and chance.random() < 0.4
    is_dated = not plain and chance.random() < 0.3
    options = {"bus": name} if chance.random() < 0.5 else {}
    clock = [chance.randrange(10**9)]

    def number(byte):
        return b"%d" % byte if is_decimal else b"0x" + hexadecimal(chance, byte)

    sign = b"" if plain else chance.choice((b"", b"", b"-"))
    form = "" if plain else chance.choice(("", "", "nanoseconds", "microseconds"))
    zone = chance.choice((b"", b"Z", b"+02:00", b"-0800"))

    def time():
        """As the table has it, and as it is told."""
        clock[0] += chance.randrange(1, 2000)
        seconds, rest = divmod(clock[0], 10**9)
        if is_dated:
            date = b"2026-05-17T10:34:%02d.%09d" % (seconds % 60, rest) + zone
            return date, date
        told = sign + b"%d.%09d" % (seconds, rest)
        if form == "nanoseconds":
            return sign + b"%de-09" % clock[0], told
        if form == "microseconds":
            return sign + b"%d.%03dE-6" % divmod(clock[0], 1000), told
        return told, told

    def line(kind, **values):
        text, told = time()
        known = {b"name": name, b"type": kind, b"start_time": text, b"duration": b"1e-06"}
        known.update((key.encode(), value) for key, value in values.items())
        if plain:
            known[b"name"], known[b"type"] = b'"' + name + b'"', b'"' + kind + b'"'
            return b",".join(known.get(column, b"") for column in columns), told
        return row(chance, columns, known, often), told

    def noise():
        if chance.random() < 0.3:
            return None, b""
        kind = chance.choice((b"start", b"data", b"enable"))
        known = {b"name": b"SPI", b"type": kind, b"start_time": b"x", b"data": b"9"}
        return "other buses", row(chance, columns, known, often)

    def truth(holds):
        return b"true" if holds else b"false"

    sheet.put(b",".join(field(chance, column, often) for column in columns))
    for _ in range(chance.randrange(1, 9)):
        own, begun, some_legs = [], None, legs(chance)
        for address, is_acknowledged, answered in some_legs:
            text, at = line(b"start")
            begun = begun or at
            own.append(sheet.put(text))
            if not sheet.noise:
                sheet.noise.append(noise)
            text, _ = line(b"address", ack=truth(is_acknowledged), read=truth(address % 2 == 1),
                           address=number(address // 2))
            own.append(sheet.put(text))
            for byte, is_answered in answered:
                text, _ = line(b"data", ack=truth(is_answered), data=number(byte))
                own.append(sheet.put(text))
        own.append(sheet.put(line(b"stop")[0]))
        time_line = b"# " + begun + (b"" if is_dated else b" s")
        sheet.end_transfer(own, time_line, packet_of(some_legs))
    return sheet.recording("saleae", options, name)


def plain_saleae(chance):
    return saleae(chance, plain=True)


def beagle(chance):
    sheet = Sheet(chance)
    columns = [b"Level", b"Index", b"m:s.ms.us", b"Dur", b"Len", b"Err", b"S/P", b"Addr", b"Record",
               b"Data"]
    if chance.random() < 0.3:
        chance.shuffle(columns)
    often = chance.choice((0.0, 0.3, 1.0))
    clock = [chance.randrange(10**9)]
    index = [chance.randrange(3)]

    def line(record, **values):
        clock[0] += chance.randrange(1, 2000)
        minutes, rest = divmod(clock[0], 60 * 10**6)
        known = {b"Level": b"0", b"Index": b"%d" % index[0], b"Record": record, b"m:s.ms.us":
                 b"%d:%02d.%03d.%03d" % (minutes, rest // 10**6, rest // 1000 % 1000, rest % 1000)}
        known.update((key.replace("_", "/").encode(), value) for key, value in values.items())
        index[0] += 1
        return row(chance, columns, known, often), clock[0]

    def starred(byte, is_acknowledged):
        return hexadecimal(chance, byte) + (b"" if is_acknowledged else b"*")

    sheet.put(b"# Data Center CSV export")
    heading = b",".join(field(chance, column, often) for column in columns)
    sheet.put((b"# " if chance.random() < 0.3 else b"") + heading)
    if chance.random() < 0.8:
        sheet.put(line(b"Capture started (Aggregate)")[0])
    sheet.noise.append(lambda: (None, chance.choice((b"", b"# a comment"))))
    for _ in range(chance.randrange(1, 12)):
        own, begun, some_legs = [], None, legs(chance)
        for i, (address, is_acknowledged, answered) in enumerate(some_legs):
            record = b"Read Transaction" if address % 2 else b"Write Transaction"
            text, at = line(
                record, Len=b"%d B" % len(answered), Addr=starred(address // 2, is_acknowledged),
                S_P=b"SP" if i == len(some_legs) - 1 else b"S",
                Data=b" ".join(starred(*each) for each in answered))
            begun = begun or at
            own.append(sheet.put(text))
        time = b"# %d.%06d s" % divmod(begun, 10**6)
        sheet.end_transfer(own, time, packet_of(some_legs))
    if chance.random() < 0.8:
        sheet.put(line(b"Capture stopped")[0])
    return sheet.recording("beagle", {}, None)


# Traces

class Tracer:
    """How a program prints events."""

    def __init__(self, chance, bus):
        self.chance, self.bus = chance, bus
        self.form = chance.choice(("trace", "trace-cmd", "perf", "bare", "graph"))
        self.clock = chance.randrange(10**9)

    def line(self, name, text, bus=None):
        """The line, and the line of its time in a capture."""
        self.clock += self.chance.randrange(1, 2000)
        at = b"%d.%06d" % divmod(self.clock, 10**6)
        name, kind = name + b":", name.split(b"_")[0]
        text = (bus or self.bus) + b" " + text
        if self.form == "bare":
            return name + b" " + text, None
        if self.form == "graph":
            front = b"%9s |  " % at if self.chance.random() < 0.3 else b""
            return front + b" 1)               |  /* " + name + b" " + text + b" */", None
        if self.form == "trace":
            front = b"%16s-%-7d [000] .n... %12s: " % (b"poll", 91, at)
            return front + name + b" " + text, b"# " + at + b" s"
        if self.form == "perf":
            full = b"poll    91 [000] %12s: %21s " % (at, kind + b":" + name)
            return full + text, b"# " + at + b" s"
        front = b"%16s-%-5d [000] %12s: " % (b"poll", 91, at)
        return front + b"%-22s" % name + text, b"# " + at + b" s"

    def result(self, number):
        """A result: trace-cmd and perf print sixteen bits without a sign."""
        is_unsigned = number < 0 and self.form in ("trace-cmd", "perf")
        return b"%d" % (number + 65536 if is_unsigned else number)

    def heading(self, sheet):
        if self.form == "graph":
            sheet.put(b"# tracer: function_graph")
        if self.form == "trace":
            sheet.put(b"# tracer: nop")
            sheet.put(b"# entries-in-buffer/entries-written: 25/25   #P:1")
        elif self.form == "trace-cmd":
            sheet.put(b"cpus=2")

    def noise(self, other):
        """What is passed over: events of the other kind and of other buses."""
        names = (b"write", b"read", b"reply", b"result")

        def nothing():
            switch = b"  poll-91 [000] 1.0: sched_switch: prev_comm=poll"
            call = b" 0)   1.250 us    |      i2c_adapter_depth();"
            lost = b"CPU:0 [LOST x EVENTS]"
            return None, self.chance.choice((b"", b"# a comment", switch, call, lost))

        def other_kind():
            text = self.chance.choice((b"rubbish", b"a=058 f=0000 c=88 WORD_DATA", b"n=1 ret=1"))
            line, _ = self.line(other + b"_" + self.chance.choice(names), text)
            return other.decode(), line

        def other_bus():
            own = b"i2c" if other == b"smbus" else b"smbus"
            line, _ = self.line(own + b"_" + self.chance.choice(names), b"n=1 ret=1", b"i2c-77")
            return "other buses", line

        return [nothing, other_kind, other_bus]


def digits_of(some):
    return b"-".join(b"%02x" % byte for byte in some)


def words_of(some_legs):
    """The packet of (reads, address, bytes): all acknowledged but a read's last byte."""
    words = []
    for reads, address, some in some_legs:
        words += [b"S", b"%02x" % (2 * address + reads), b"A"]
        for left, byte in zip(range(len(some), 0, -1), some):
            words += [b"%02x" % byte, b"N" if reads and left == 1 else b"A"]
    return b" ".join(words + [b"P"])


def names_of(some_legs):
    return b", ".join((b"read " if reads else b"write ") + b"%02x" % address
                      for reads, address, _ in some_legs)


def kernel(chance):
    sheet = Sheet(chance)
    tracer = Tracer(chance, b"i2c-%d" % chance.randrange(12))
    options = {"bus": tracer.bus} if chance.random() < 0.5 else {}
    tracer.heading(sheet)
    for _ in range(chance.randrange(1, 9)):
        messages, own, begun = [], [], None
        for number in range(chance.choice((1, 1, 2, 2, 2, 3, 4))):
            reads = chance.random() < 0.5
            address = chance.choice((0x58, 0x20, chance.randrange(128)))
            some = some_bytes(chance, 64)
            flags = chance.choice((0, 0, 4, 0x200, 0x204)) | reads
            asked = len(some)
            if reads and chance.random() < 0.3:
                # A block: the first byte says how many follow, and there may be a code.
                flags |= 0x400
                asked = chance.choice((1, 2))
                some = some[:20]
                some = [len(some)] + some + [0x46] * (asked - 1)
            messages.append((reads, address, some))
            text = b"#%d a=%03x f=%04x l=%d" % (number, address, flags, asked)
            if not reads:
                text += b" [" + digits_of(some) + b"]"
            line, time = tracer.line(b"i2c_read" if reads else b"i2c_write", text)
            own.append(sheet.put(line))
            begun = begun if number else time
            messages[-1] += (flags,)
            if not sheet.noise:
                sheet.noise += tracer.noise(b"smbus")
        count = len(messages)
        others = -6, -110, count - 1, count + 1
        returned = count if chance.random() < 0.8 else chance.choice(others)
        for number, (reads, address, some, flags) in enumerate(messages[:max(returned, 0)]):
            if reads:
                text = b"#%d a=%03x f=%04x l=%d [%b]" % (
                    number, address, flags, len(some), digits_of(some))
                own.append(sheet.put(tracer.line(b"i2c_reply", text)[0]))
        line, _ = tracer.line(b"i2c_result", b"n=%d ret=%b" % (count, tracer.result(returned)))
        own.append(sheet.put(line))
        some_legs = [message[:3] for message in messages]
        if returned == count:
            sheet.end_transfer(own, begun, words_of(some_legs))
        else:
            told = b"a transfer failed with %d: %b" % (returned, names_of(some_legs))
            sheet.tell(own[-1], told)
            sheet.end_transfer(own, begun, None)
    return sheet.recording("kernel", options, tracer.bus)


def remainder(some):
    """The packet error code: the remainder of the bytes, as one polynomial, by 107h."""
    value = int.from_bytes(bytes(some), "big") << 8
    for place in range(value.bit_length() - 1, 7, -1):
        if value >> place & 1:
            value ^= 0x107 << (place - 8)
    return value


PROTOCOLS = (b"QUICK", b"BYTE", b"BYTE_DATA", b"WORD_DATA", b"PROC_CALL", b"BLOCK_DATA",
             b"BLOCK_PROC_CALL", b"I2C_BLOCK_DATA")


def smbus_transfer(chance, protocol, reads, code):
    """What is written and replied, as it is shown, and the legs (reads, bytes)."""
    def data():
        if protocol == b"BYTE_DATA":
            return [chance.randrange(256)]
        if protocol in (b"WORD_DATA", b"PROC_CALL"):
            return [chance.randrange(256), chance.randrange(256)]
        some = some_bytes(chance, 32)
        return [len(some)] + some

    if protocol == b"QUICK":
        return [], [], [(reads, [])]
    if protocol == b"BYTE":
        byte = [chance.randrange(256)]
        return ([], byte, [(True, byte)]) if reads else ([], [], [(False, [code])])
    written, replied = data(), data()
    first = 1 if protocol == b"I2C_BLOCK_DATA" else 0
    if protocol in (b"PROC_CALL", b"BLOCK_PROC_CALL"):
        return written, replied, [(False, [code] + written), (True, replied)]
    if reads:
        return [], replied, [(False, [code]), (True, replied[first:])]
    return written, [], [(False, [code] + written[first:])]


def smbus(chance):
    sheet = Sheet(chance)
    tracer = Tracer(chance, b"i2c-%d" % chance.randrange(12))
    options = {"bus": tracer.bus} if chance.random() < 0.5 else {}
    tracer.heading(sheet)
    hidden = chance.random() < 0.1  # the program does not print the bytes

    def shown(some):
        text = b"ARG TYPE NOT FIELD BUT 2" if hidden else digits_of(some)
        return b" l=%d [%b]" % (len(some), text)

    for _ in range(chance.randrange(1, 9)):
        protocol, reads = chance.choice(PROTOCOLS), chance.random() < 0.5
        address, code = chance.choice((0x58, 0x20, chance.randrange(128))), chance.randrange(256)
        has_code, is_call = chance.random() < 0.5, b"PROC" in protocol
        written, replied, some_legs = smbus_transfer(chance, protocol, reads, code)
        res = chance.choice((0, 0, 0, 0, 0, 2, -6, -74))
        flags, masked = (4 if has_code else 0) | chance.choice((0, 0x200, 0x8000)), 4 * has_code
        own = []

        def event(name, flags, text):
            words = b"a=%03x f=%04x c=%x %b" % (address, flags, code, protocol)
            line, time = tracer.line(b"smbus_" + name, words + text)
            own.append(sheet.put(line))
            return time

        if reads and not is_call:
            begun = event(b"read", flags, b"")
        else:
            begun = event(b"write", flags, shown(written))
        if not sheet.noise:
            sheet.noise += tracer.noise(b"i2c")
        has_reply = reads and (res >= 0 or chance.random() < 0.3)
        if has_reply:
            event(b"reply", masked, shown(replied))
        result = b"rd" if reads else b"wr", tracer.result(res)
        event(b"result", masked, b" %b res=%b" % result)
        needed = [some for some in (written, replied if has_reply else []) if some]
        if protocol == b"I2C_BLOCK_DATA":
            needed = [some for some in needed if len(some) > 1]
        packet = None
        if res < 0:
            whole = [(leg_reads, address, some) for leg_reads, some in some_legs]
            sheet.tell(own[-1], b"a transfer failed with %d: %b" % (res, names_of(whole)))
        elif hidden and needed:
            sheet.tell(own[-1], b"the bytes of the transfer from line %d are not shown" % own[0])
            sheet.is_bad = True
        elif is_call and not reads:
            sheet.tell(own[-1], b"the reply of the call from line %d is not shown" % own[0])
            sheet.is_bad = True
        else:
            if has_code and protocol not in (b"QUICK", b"I2C_BLOCK_DATA"):
                wire = [byte for leg_reads, some in some_legs
                        for byte in [2 * address + leg_reads] + some]
                some_legs[-1] = some_legs[-1][0], some_legs[-1][1] + [remainder(wire)]
                sheet.codes += 1
            packet = words_of([(leg_reads, address, some) for leg_reads, some in some_legs])
        sheet.end_transfer(own, begun, packet)
    return sheet.recording("smbus", options, tracer.bus)


DRAWN = {"sigrok": sigrok, "saleae": saleae, "beagle": beagle, "kernel": kernel, "smbus": smbus}


# Damages: each gives the lines of a damaged recording, the number of lines in front of the damage,
# and the numbers of the lines (of the whole recording) that it touches.

def one_line_gone(chance, lines, spans):
    number = chance.choice([own for span in spans for own in span.own])
    return lines[:number - 1] + lines[number:], number - 1, {number}


def lines_of_a_transfer_gone(chance, lines, spans):
    """Several lines of one transfer, not all."""
    span = chance.choice(spans)
    count = chance.randrange(1, max(2, len(span.own)))
    gone = set(chance.sample(span.own, count))
    kept = [line for number, line in enumerate(lines, 1) if number not in gone]
    return kept, min(gone) - 1, gone


def events_lost(chance, lines, spans):
    """A run of lines is lost, and the tracer says so."""
    first = chance.randrange(1, len(lines) + 1)
    last = min(len(lines), first + chance.choice((0, 0, 1, 2, 3, 5, 8, 12)))
    count = last - first + 1
    told = chance.choice((b"[LOST %d EVENTS]" % count, b"[LOST EVENTS]", b"[EVENTS DROPPED]",
                          b"CPU:0 [LOST %d EVENTS]" % count, b"CPU:3 [%d EVENTS DROPPED]" % count,
                          b"perf 1 [000] 1.5: PERF_RECORD_LOST lost %d" % count))
    return lines[:first - 1] + [told] + lines[last:], first - 1, set(range(first, last + 1))


def rows_gone(chance, lines, spans):
    """Some rows inside: neither the first nor the last one."""
    own = [number for span in spans for number in span.own][1:-1]
    gone = set(chance.sample(own, min(len(own), chance.choice((1, 1, 2, 3, 5)))))
    kept = [line for number, line in enumerate(lines, 1) if number not in gone]
    return kept, min(gone, default=len(lines)) - 1, gone


def lines_cut(chance, lines, spans):
    """Some lines lack their end."""
    own = [number for span in spans for number in span.own]
    cut = set(chance.sample(own, min(len(own), chance.choice((1, 1, 2, 3)))))
    found = list(lines)
    for number in cut:
        found[number - 1] = lines[number - 1][:chance.randrange(1, len(lines[number - 1]))]
    return found, min(cut) - 1, cut


def fronts_gone(chance, lines, spans):
    """Some lines lack their front."""
    own = [number for span in spans for number in span.own]
    cut = set(chance.sample(own, min(len(own), chance.choice((1, 1, 2, 3)))))
    found = list(lines)
    for number in cut:
        found[number - 1] = lines[number - 1][chance.randrange(1, len(lines[number - 1])):]
    return found, min(cut) - 1, cut


def records_spoiled(chance, lines, spans):
    """Some rows of Beagle are of no record that is known. Where STOP stands is as it was."""
    own = [number for span in spans for number in span.own]
    spoiled = set(chance.sample(own, min(len(own), chance.choice((1, 1, 2, 3, 5)))))
    found = list(lines)
    for number in spoiled:
        found[number - 1] = lines[number - 1].replace(b"Transaction", b"Transactio")
    return found, min(spoiled) - 1, spoiled


def end_gone(chance, lines, spans):
    count = chance.randrange(len(lines))
    return lines[:count], count, set(range(count + 1, len(lines) + 1))


def one_line_twice(chance, lines, spans):
    number = chance.choice([own for span in spans for own in span.own])
    return lines[:number] + lines[number - 1:], number - 1, {number}


def two_lines_swapped(chance, lines, spans):
    own = [number for span in spans for number in span.own]
    first, second = sorted((chance.choice(own), chance.choice(own)))
    found = list(lines)
    found[first - 1], found[second - 1] = lines[second - 1], lines[first - 1]
    return found, first - 1, {first, second}


def one_byte_changed(chance, lines, spans):
    number = chance.choice([own for span in spans for own in span.own])
    line = lines[number - 1]
    at = chance.randrange(len(line))
    byte = bytes([chance.choice(b' 0123456789abcdefxX,":*#-=[]SP\r\x00\xff')])
    found = list(lines)
    found[number - 1] = line[:at] + byte + line[at + 1:]
    return found, number - 1, {number}


def rubbish_put_in(chance, lines, spans):
    at = chance.randrange(len(lines) + 1)
    rubbish = chance.choice(
        (b"rubbish", b"i2c_write: ", b"i2c-1: x", b",,,,,,,", b'"', b"x" * 70000))
    return lines[:at] + [rubbish] + lines[at:], at, set()


# The kinds in which no packet may come out that the bus did not have, and each one missing is told.
JUDGED = [
    ("kernel", kernel, one_line_gone), ("kernel", kernel, lines_of_a_transfer_gone),
    ("kernel", kernel, events_lost), ("smbus", smbus, one_line_gone),
    ("smbus", smbus, lines_of_a_transfer_gone), ("smbus", smbus, events_lost),
    ("sigrok", sigrok, one_line_gone), ("beagle", beagle, rows_gone),
    ("beagle", beagle, records_spoiled), ("saleae", plain_saleae, lines_cut),
    ("saleae", plain_saleae, fronts_gone),
]
# Others: what comes before them is as it was.
OTHERS = [one_line_gone, one_line_twice, two_lines_swapped, one_byte_changed, rubbish_put_in,
          lines_cut, end_gone]
