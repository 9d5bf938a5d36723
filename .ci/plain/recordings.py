"""`pmb import`, said a second time: what comes of a recording of a logic analyser or of the Linux
kernel. Slowly and plainly, from the rules alone, whose words stand beside what follows them.

Each source has a class below. Its `class_of` says of a line which of the four kinds it is: it gives
events, it says nothing of the bus, it is of another bus, or it is a fault. `Machine` takes the
classified lines one by one and writes the capture. What may follow what in a packet is said by
`WirePacket`, `KernelPacket` and `SmbusPacket`.
"""

import re
import sys
from typing import NamedTuple

# A recording may have numbers of any length.
if hasattr(sys, "set_int_max_str_digits"):
    sys.set_int_max_str_digits(0)

LONGEST_LINE = 65536
ROOM = 16384
MOST_READS = 1024
GREATEST_SAMPLE = 2**64 - 1
GREATEST_RATE = 18446744073

NO_SENSE = b"makes no sense"
NO_ORDER = b"does not follow"

# Sources where a START may be a repeated one, so that it begins a packet only where none is under
# way and nothing is skipped.
STARTS_MAY_BE_REPEATED = ("saleae", "beagle")


# "Each line of the recording is one of four"

class Events(NamedTuple):
    """It gives events (also where they are skipped, behind a fault)."""
    given: object
    begins: bool = False  # a packet, or may begin one
    ends: bool = False  # it is, or has, a STOP or result
    time: object = None  # the line with the time of what begins here, or None


class Nothing(NamedTuple):
    """It says nothing of the bus (a heading, a blank line, the tracer's comments)."""
    cuts: bool = False  # the recording breaks or starts anew


class Lost(NamedTuple):
    """It says nothing of the bus, but that events were lost."""
    count: bytes  # empty where there is no number


class Other(NamedTuple):
    """It is of another bus, or has the name of an event of the other kind."""
    what: str


class Fault(NamedTuple):
    """It is a fault."""
    reason: bytes
    ends: bool = False  # it can be read, and is itself a STOP or a result


class FaultOfLine(Exception):
    """Ends the reading of a line, with the reason."""

    def __init__(self, reason, ends=False):
        super().__init__(reason)
        self.reason, self.ends = reason, ends


class DoesNotFollow(Exception):
    """A line contradicts lines before it."""


class NoRoom(Exception):
    """A packet has more bytes than there is room for."""


def need(holds, reason=NO_SENSE, ends=False):
    if not holds:
        raise FaultOfLine(reason, ends)


def need_order(holds):
    if not holds:
        raise DoesNotFollow


def lines_of(data):
    """The lines with their numbers; None for one that is too long or without its LF."""
    # "a byte order mark as the first three bytes of the input" is dropped
    if data[:3] == b"\xef\xbb\xbf":
        data = data[3:]
    lines = data.split(b"\n")
    open_end = lines.pop()
    for number, line in enumerate(lines, 1):
        # "CR before LF is dropped"
        if line[-1:] == b"\r":
            line = line[:-1]
        # "a line over 65,536 bytes behind that .. is a fault"
        yield number, line if len(line) <= LONGEST_LINE else None
    # "what stands behind the last LF, is a fault"
    if open_end:
        yield len(lines) + 1, None


# What a capture has of a packet

def spelled(legs):
    """The packet of some legs, each (reads, address, bytes): of a read's bytes the last one is not
    acknowledged, all others are."""
    words = []
    for reads, address, some_bytes in legs:
        words += [b"S", b"%02x" % (2 * address + reads), b"A"]
        for i, byte in enumerate(some_bytes):
            is_last_read = reads and i == len(some_bytes) - 1
            words += [b"%02x" % byte, b"N" if is_last_read else b"A"]
    return b" ".join(words + [b"P"])


def named(legs):
    """`write 58, read 58`: "`write` or `read` and the address"."""
    return b", ".join(
        (b"read" if reads else b"write") + b" %02x" % address for reads, address, _ in legs
    )


def error_code(some_bytes):
    """SMBus's packet error code: the remainder by x^8 + x^2 + x + 1."""
    code = 0
    for byte in some_bytes:
        code ^= byte
        for _ in range(8):
            code = (code << 1) ^ (0x107 if code & 0x80 else 0)
    return code


class Packet(NamedTuple):
    """What ends well."""
    text: bytes
    is_code_computed: bool = False


class Failed(NamedTuple):
    """A transfer that failed: told, and no fault."""
    told: bytes


class NotShown(NamedTuple):
    """A transfer of which the recording does not have all bytes: told, the status 1."""
    told: bytes


class WirePacket:
    """A packet of sigrok, Saleae or Beagle: what was on the wire, event by event."""

    def __init__(self):
        self.words, self.on_wire, self.before = [], 0, None
        self.reads = None  # the direction of the leg, once its address is known
        self.said = None  # the direction by sigrok's `Read` or `Write`

    def take(self, events):
        outcome = None
        for event, *values in events:
            outcome = getattr(self, event)(*values)
        return outcome

    def start(self):
        need_order(self.before in (None, "answer"))
        self.words.append(b"S")
        self.before, self.reads, self.said = "start", None, None

    def direction(self, reads):
        # "`Read` and `Write` may stand on either side of the address, or be missing"
        need_order(self.before in ("start", "address") and self.said is None)
        need_order(self.reads in (None, reads))
        self.said = reads

    def address(self, byte):
        need_order(self.before == "start")
        self.reads = byte % 2 == 1
        # "bit 0 of an unshifted address has to agree with them"
        need_order(self.said in (None, self.reads))
        self.put(byte)
        self.before = "address"

    def byte(self, byte, reads=None):
        need_order(self.before == "answer")
        # "directions .. that the source gives are compared"
        need_order(reads in (None, self.reads))
        self.put(byte)
        self.before = "byte"

    def answer(self, word):
        need_order(self.before in ("address", "byte"))
        self.words.append(word)
        self.before = "answer"

    def bit(self):
        """"they and bits are events": a bit is one of a byte that has its own line."""

    def stop(self):
        # "START and STOP with nothing between do not follow"
        need_order(self.before == "answer")
        return Packet(b" ".join(self.words + [b"P"]))

    def put(self, byte):
        # "A packet has room for 16,384 bytes on the wire, addresses .. counted."
        if self.on_wire == ROOM:
            raise NoRoom
        self.on_wire += 1
        self.words.append(b"%02x" % byte)


class Source:
    """What all sources share: the bus."""
    packet = WirePacket

    def __init__(self, bus):
        self.bus = bus

    def is_other(self, bus):
        """"The bus is `--bus`, exactly as the recording writes it, else that of the first line that
        can be read, a fault or not"."""
        if self.bus is None:
            self.bus = bus
        return bus != self.bus

    def class_of(self, line):
        """Which of the four a line is, without its CR and LF; None is too long or lacks its LF."""
        try:
            need(line is not None)
            return self.read(line)
        except FaultOfLine as fault:
            return Fault(fault.reason, fault.ends)


# sigrok

# What the I2C decoder says, as it says it at levels 4 and 5: the class of an annotation, its text
# and the shorter texts. Two digits stand for each byte.
ANNOTATIONS = [
    (b'start: "Start" "S"', [("start",)]),
    (b'repeat-start: "Start repeat" "Sr"', [("start",)]),
    (b'stop: "Stop" "P"', [("stop",)]),
    (b'ack: "ACK" "A"', [("answer", b"A")]),
    (b'nack: "NACK" "N"', [("answer", b"N")]),
    (b'bit: "0"', [("bit",)]),
    (b'bit: "1"', [("bit",)]),
    (b'address-read: "Read" "Rd" "R"', [("direction", True)]),
    (b'address-write: "Write" "Wr" "W"', [("direction", False)]),
    (b'address-read: "Address read: %b" "AR: %b" "%b"', ("address", True)),
    (b'address-write: "Address write: %b" "AW: %b" "%b"', ("address", False)),
    (b'data-read: "Data read: %b" "DR: %b" "%b"', ("byte", True)),
    (b'data-write: "Data write: %b" "DW: %b" "%b"', ("byte", False)),
]
# What the decoder says of its classes, where that is more than their names.
DESCRIPTIONS = {
    b"start": [b"start condition"],
    b"repeat-start": [b"start repeat", b"repeat start condition"],
    b"stop": [b"stop condition"],
    b"bit": [b"data/address bit"],
}


def labels_of(annotation):
    """What PulseView may write in front of an annotation, in small letters: its row or its class."""
    name = annotation.partition(b":")[0]
    row = b"bits" if name == b"bit" else b"address/data"
    return [row, name] + DESCRIPTIONS.get(name, [name.replace(b"-", b" ")])


class Sigrok(Source):
    """"what `sigrok-cli -P i2c` prints .. at its levels .., and PulseView's exports"."""

    def __init__(self, bus, rate, unshifted):
        super().__init__(bus)
        self.rate, self.unshifted = rate, unshifted

    def read(self, line):
        # "A blank line has no byte."
        # "Lines that begin `sr:`, `srd:`, `cli:` or ` - ` say nothing"
        if line == b"" or line.startswith((b"sr:", b"srd:", b"cli:", b" - ")):
            return Nothing()
        # "with or without `--protocol-decoder-samplenum`"
        match = re.match(rb"([0-9]+)-[0-9]+ ", line)
        sample = int(match.group(1)) if match else None
        rest = line[match.end():] if match else line
        # "any other without `NAME: ` is a fault (NAME is all up to the first `: `, without a
        # colon)"
        name, separator, text = rest.partition(b": ")
        need(separator and name and b":" not in name)
        said = self.said(text)
        # "a line settles the bus only if it is an event of the decoder"
        need(said or self.bus is not None)
        if self.is_other(name):
            return Other("other buses")
        need(said)
        annotation, events, digits = said
        if isinstance(events, tuple):
            events = [self.byte(*events, int(digits, 16))]
        start = annotation.startswith(b"start:")
        return Events(
            events,
            # "`Start` .. cut[s] the packet under way and begin[s its] own"
            begins=start,
            ends=events == [("stop",)],
            time=self.time(sample) if start else None,
        )

    def said(self, text):
        """The annotation of a text, its events and its digits; None where it is none."""
        found = self.spelled(text)
        if found:
            return found
        # "the row (`I²C: Address/Data: Start`) or the class (`I²C: Start condition: Start`), in any
        # case"
        label, _, rest = text.partition(b":")
        found = self.spelled(rest[1:]) if rest[:1] == b" " else None
        return found if found and label.lower() in labels_of(found[0]) else None

    def spelled(self, text):
        """The same of a text without a label."""
        digits = (re.findall(rb"\b[0-9a-fA-F]{2}\b", text) or [b""])[0]
        for annotation, events in ANNOTATIONS:
            annotation = annotation.replace(b"%b", digits)
            plain = annotation.split(b'"')[1]
            # "at its levels (`-l 3`: `"Start"` in quotes; 4 and 5: `start: "Start" "S"`)"
            if text in (plain, b'"' + plain + b'"', annotation):
                return None if isinstance(events, tuple) and not digits else (
                    annotation, events, digits)
        return None

    def byte(self, event, reads, byte):
        if event == "byte":
            return "byte", byte, reads
        if self.unshifted:
            # "bit 0 of an unshifted address has to agree with them"
            need(byte % 2 == reads)
            return "address", byte
        # "over 7fh without `--unshifted` is a fault"
        need(byte <= 0x7F)
        return "address", 2 * byte + reads

    def time(self, sample):
        # "sigrok: sample / HZ, nine digits, rounded down, no line without `--rate` or for a sample
        # over 2^64-1"
        if sample is None or self.rate is None or sample > GREATEST_SAMPLE:
            return None
        billionths = sample * 10**9 // self.rate
        return b"# %d.%09d s" % divmod(billionths, 10**9)


# Tables

def fields_of(line):
    """The fields of a CSV record that can be read, and whether all can."""
    fields, at = [], 0
    while True:
        if line[at:at + 1] == b'"':
            field, at = b"", at + 1
            while True:
                end = line.find(b'"', at)
                # "A CSV record ends with its line; an open quote there is a fault of that line"
                if end < 0:
                    return fields, False
                field, at = field + line[at:end], end + 1
                # Two quotes in a quoted field are one.
                if line[at:at + 1] != b'"':
                    break
                field, at = field + b'"', at + 1
            # "what stands between a closing quote and the comma is a fault"
            if line[at:at + 1] not in (b"", b","):
                return fields, False
        else:
            # "a quote inside an unquoted field is a byte of it .., CR inside a line is a byte as
            # any other"
            end = line.find(b",", at)
            end = len(line) if end < 0 else end
            field, at = line[at:end], end
        fields.append(field)
        if at == len(line):
            return fields, True
        at += 1


class Table:
    """The columns that a heading names, and the row that is read."""

    def __init__(self, needed, others):
        self.needed, self.others = needed, others
        self.columns, self.row, self.is_whole = None, [], False

    def is_heading(self, line):
        """Whether a line names the columns, which hold then."""
        names, is_whole = fields_of(line)
        if not is_whole or any(names.count(name) != 1 for name in self.needed):
            return False
        if any(names.count(name) > 1 for name in self.others):
            return False
        self.columns = names
        return True

    def read(self, line):
        self.row, self.is_whole = fields_of(line)

    def can_be_read(self):
        """Whether the row has as many fields as the heading."""
        return self.columns is not None and self.is_whole and len(self.row) == len(self.columns)

    def of(self, name, absent=None):
        """A field of a row that can be read."""
        return self.row[self.columns.index(name)] if name in self.columns else absent


# Saleae

SECONDS = rb"[0-9]+\.[0-9]+"
NUMBER = rb"([-+]?)([0-9]+)(?:\.([0-9]+))?(?:[eE]([-+]?[0-9]+))?"
ISO_8601 = (
    rb"[0-9]{4}-[0-9]{2}-[0-9]{2}T[0-9]{2}:[0-9]{2}:[0-9]{2}(\.[0-9]+)?"
    rb"(Z|[-+][0-9]{2}:[0-9]{2}|[-+][0-9]{4})?"
)
# "by 40 places at most, over 40 digits at most in front of the point and behind it"
MOST_PLACES = 40


def written_out(sign, whole, part, exponent):
    """A number without its exponent, exactly; None where it is too long."""
    places = int(exponent)
    if max(abs(places), len(whole), len(part)) > MOST_PLACES:
        return None
    value = int(whole + part)
    behind = max(0, len(part) - places)
    value *= 10 ** (behind + places - len(part))
    digits = b"%0*d" % (behind + 1, value)
    front, back = digits[:len(digits) - behind], digits[len(digits) - behind:]
    return sign + front + (b"." + back if back else b"")


class Saleae(Source):
    """"Logic 2's table of an I2C analyzer: any order of columns"."""

    def __init__(self, bus):
        super().__init__(bus)
        self.table = Table([b"name", b"type", b"ack", b"address", b"read", b"data"], [b"start_time"])
        self.radix = None

    def read(self, line):
        if line == b"":
            return Nothing()
        # "A second heading .. say[s] nothing, and cut[s]"
        if self.table.is_heading(line):
            return Nothing(cuts=True)
        self.table.read(line)
        # "a row with another number of fields than the heading is a fault", of whatever bus
        need(self.table.can_be_read())
        # "the analyzer's `name`" (an empty one is none)
        name = self.table.of(b"name")
        need(name != b"")
        if self.is_other(name):
            # (the end of the name that is followed, and a quote behind it: the row lost its front)
            need(not (name[-1:] == b'"' and self.bus.endswith(name[:-1])))
            return Other("other buses")
        kind = self.table.of(b"type")
        if kind == b"start":
            return Events([("start",)], begins=True, time=self.time())
        if kind == b"stop":
            return Events([("stop",)], ends=True)
        # "the first number settles which", also where the rest of its row makes no sense
        if kind == b"address":
            address = self.number(b"address")
            answer, reads = self.answer(), self.is_true(b"read")
            need(address <= 0x7F)
            return Events([("address", 2 * address + reads), answer])
        need(kind == b"data")
        byte = self.number(b"data")
        return Events([("byte", byte), self.answer()])

    def is_true(self, name):
        need(self.table.of(name) in (b"true", b"false"))
        return self.table.of(name) == b"true"

    def answer(self):
        return "answer", b"A" if self.is_true(b"ack") else b"N"

    def number(self, name):
        # "hexadecimal data (`0x` and two digits) or decimal (the first number settles which)";
        # "Decimal data has one to three digits; the radix holds for the whole recording."
        text = self.table.of(name)
        if re.fullmatch(rb"0x[0-9a-fA-F]{2}", text):
            radix = 16
        else:
            need(re.fullmatch(rb"[0-9]{1,3}", text))
            radix = 10
        if self.radix is None:
            self.radix = radix
        need(radix == self.radix)
        value = int(text, radix)
        need(value <= 0xFF)
        return value

    def time(self):
        # "saleae: a sign or none, digits, a point and digits or not, an exponent or none, or
        # `YYYY-MM-DDThh:mm:ss`, a point and digits or not, then `Z`, `+hh:mm`, `+hhmm`, `-hh:mm`,
        # `-hhmm` or nothing (anything else gives no line)"
        text = self.table.of(b"start_time", b"")
        seconds = re.fullmatch(NUMBER, text)
        if seconds:
            sign, whole, part, exponent = seconds.groups()
            # "as the table has them (exponents written out)"
            if exponent:
                text = written_out(sign, whole, part or b"", exponent)
            return b"# " + text + b" s" if text else None
        # "(ISO 8601: `# T`)"
        return b"# " + text if re.fullmatch(ISO_8601, text) else None


# Beagle

class Beagle(Source):
    """"Total Phase Data Center's CSV of transactions". There is one bus."""

    def __init__(self):
        super().__init__(None)
        self.table = Table(
            [b"Index", b"S/P", b"Addr", b"Record", b"Data"], [b"m:s.ms.us", b"Len", b"Err"]
        )
        self.index = None  # of the row before, where it is known

    def class_of(self, line):
        if line is None:
            self.index = None
        return super().class_of(line)

    def read(self, line):
        if line == b"":
            return Nothing()
        if self.table.is_heading(line.lstrip(b"# ") if line[:1] == b"#" else line):
            self.index = None
            return Nothing(cuts=True)
        # "Lines that begin `#` say nothing, unless they name the columns."
        if line[:1] == b"#":
            return Nothing()
        before, self.index = self.index, None
        self.table.read(line)
        need(self.table.can_be_read())
        try:
            return self.read_row(before)
        except FaultOfLine as fault:
            # "a row whose `S/P` ends in P, whatever is wrong with it" (if it has no quote)
            marks = self.table.of(b"S/P")
            raise FaultOfLine(fault.reason, marks[-1:] == b"P" and b'"' not in marks)

    def read_row(self, before):
        """What a row with all its fields is, behind one with a number."""
        of = self.table.of
        need(re.fullmatch(rb"[0-9]+", of(b"Index")))
        self.index = int(of(b"Index"))
        record = of(b"Record")
        is_transaction = record in (b"Write Transaction", b"Read Transaction")
        # "(the first of: its form; beagle: missing rows, record, `Err`, range and `Len`; ..)"
        if is_transaction:
            address, answer, some_bytes = self.transaction()
        # "`Index` rises by one from row to row"
        need(before is None or self.index == before + 1, b"rows are missing in front")
        # "Beagle's `Capture started` and `Capture stopped` say nothing, and cut"
        if record.startswith((b"Capture started", b"Capture stopped")):
            return Nothing(cuts=True)
        # "a record that is not known makes no sense"
        need(is_transaction)
        # "a non-empty `Err` `is marked as an error`"
        need(of(b"Err", b"") == b"", b"is marked as an error")
        need(address <= 0x7F)
        # "`Len` is the number of bytes"
        length = re.fullmatch(rb"([0-9]+)( ?B)?", of(b"Len", b"%d" % (len(some_bytes) // 2)))
        need(length and int(length.group(1)) == len(some_bytes) // 2)
        starts, stops = b"S" in of(b"S/P"), b"P" in of(b"S/P")
        events = [("start",)] if starts else []
        events += [("address", 2 * address + (record[:4] == b"Read")), answer] + some_bytes
        events += [("stop",)] if stops else []
        return Events(events, begins=starts, ends=stops, time=self.time() if starts else None)

    def transaction(self):
        """The address, what answers it, and the bytes with their answers."""
        of = self.table.of
        need(of(b"S/P") in (b"", b"S", b"P", b"SP"))
        address, answer = self.answered(of(b"Addr"))
        some_bytes = []
        for word in of(b"Data").split(b" "):
            if word:
                byte, byte_answer = self.answered(word)
                some_bytes += [("byte", byte), byte_answer]
        return address, answer, some_bytes

    def answered(self, word):
        """A byte and its answer: `*` is a NACK."""
        match = re.fullmatch(rb"([0-9a-fA-F]{2})(\*?)", word)
        need(match)
        return int(match.group(1), 16), ("answer", b"N" if match.group(2) else b"A")

    def time(self):
        # "beagle: `0:01.234.567` is `1.234567`"
        match = re.fullmatch(
            rb"([0-9]+):([0-9]{2})\.([0-9]{3})\.([0-9]{3})", self.table.of(b"m:s.ms.us", b"")
        )
        if match is None:
            return None
        minutes, seconds, *parts = match.groups()
        whole = 60 * int(minutes) + int(seconds)
        # (more seconds than any number has give no line)
        return b"# %d.%s s" % (whole, b"".join(parts)) if whole <= GREATEST_SAMPLE else None


# The kernel: what `kernel` and `smbus` share

# "An event's name stands at the start or behind a blank, `i2c:` or `smbus:` in front or not, `:`
# and a blank or the end behind"
EVENT = re.compile(
    rb"(?<![^ ])(?:i2c:|smbus:)?(i2c|smbus)_(write|read|reply|result):(?![^ ])"
)
# "whole lines `[LOST K EVENTS]`, `[LOST EVENTS]`, `[K EVENTS DROPPED]`, `[EVENTS DROPPED]`, with
# `CPU:N ` in front or without"
LOST = re.compile(
    rb"(?:CPU:[0-9]+ )?\[(?:LOST (?P<lost>[0-9]+) EVENTS|LOST EVENTS"
    rb"|(?P<dropped>[0-9]+) EVENTS DROPPED|EVENTS DROPPED)\]"
)
# "a line that ends `PERF_RECORD_LOST lost K`"
PERF_LOST = re.compile(rb"PERF_RECORD_LOST lost ([0-9]+)$")
# "`entries-in-buffer/entries-written: A/B` with B over A"
ENTRIES = re.compile(rb"# entries-in-buffer/entries-written: ([0-9]+)/([0-9]+)(?![^ ])")

# "`/*` in front of the name, and ` */` at the end of the line"
COMMENT_END = b" */"

DIGIT = rb"[0-9a-fA-F]"
BYTES = rb"(?:%s{2}(?:-%s{2})*)?" % (DIGIT, DIGIT)
NOT_SHOWN = b"ARG TYPE NOT FIELD BUT 2"


def loss_of(line):
    """How many events a line says were lost, empty without a number; None if it says no such
    thing."""
    match = LOST.fullmatch(line)
    if match:
        return match.group("lost") or match.group("dropped") or b""
    match = PERF_LOST.search(line)
    if match:
        return match.group(1)
    match = ENTRIES.match(line)
    if match:
        kept, written = map(int, match.groups())
        return b"%d" % (written - kept) if written > kept else None
    return None


def result_of(text):
    """A result as it is told: 32,768 to 65,535 is that number less 65,536."""
    number = int(text)
    is_unsigned = text[:1] != b"-" and 32768 <= number <= 65535
    return b"%d" % (number - 65536) if is_unsigned else text


def bytes_of(text):
    return [int(byte, 16) for byte in text.split(b"-")] if text else []


def need_shown(some_bytes, length):
    # "Fewer bytes than `l=`: `# line N: shows K of L bytes`"; L is "told as the recording writes"
    # it. More of them contradict it.
    need(len(some_bytes) <= int(length))
    reason = b"shows %d of %b bytes" % (len(some_bytes), length)
    need(len(some_bytes) == int(length), reason)


class Trace(Source):
    """What trace, trace_pipe, `trace-cmd report` and `perf script` print."""
    other_kind = b""

    def read(self, line):
        lost = loss_of(line)
        if lost is not None:
            return Lost(lost)
        # "`# tracer:`, `cpus=` .. say nothing, and cut"
        if line.startswith((b"# tracer:", b"cpus=")):
            return Nothing(cuts=True)
        # "lines with none of the eight say nothing, and so do lines that begin `#`"
        names = list(EVENT.finditer(line))
        if line.startswith(b"#") or not names:
            return Nothing()
        # "it .. has the name of an event of the other kind (`i2c`, `smbus`), whatever else it has"
        if any(name.group(1) == self.other_kind for name in names):
            return Other(self.other_kind.decode())
        name = names[0]
        # The tracer function_graph has an event as a comment: both ends of it, or none.
        is_opened = re.search(rb"(?:^| )/\* +$", line[:name.start()]) is not None
        need(is_opened == line.endswith(COMMENT_END))
        if is_opened:
            line = line[:-len(COMMENT_END)]
        # "(blanks behind the event's name ..)"
        match = re.match(rb" +(i2c-[0-9]+)(?: (.*)|$)", line[name.end():], re.S)
        need(match)
        bus, text = match.groups()
        if self.is_other(bus):
            return Other("other buses")
        return self.event(name.group(2), text or b"", self.time(line[:name.start()]))

    def time(self, front):
        # "kernel and smbus: digits, a point, digits and `:` in front of the name of a transfer's
        # first event, any other word gives no line"
        word = front.rstrip(b" ").split(b" ")[-1]
        return b"# " + word[:-1] + b" s" if re.fullmatch(SECONDS + b":", word) else None


# kernel

class Message(NamedTuple):
    """`i2c_write` or `i2c_read`."""
    number: int
    reads: bool
    address: int
    flags: int
    length: int
    some_bytes: list


class Reply(NamedTuple):
    number: int
    address: int
    flags: int
    length: int
    some_bytes: list


class Result(NamedTuple):
    count: int
    returned: bytes


class KernelPacket:
    """"A transfer is its messages `#0 #1 ..` in order, then its replies in order, then
    `i2c_result`"."""

    def __init__(self):
        self.messages, self.replies, self.on_wire = [], {}, 0

    def take(self, event):
        if isinstance(event, Message):
            self.message(event)
        elif isinstance(event, Reply):
            self.reply(event)
        else:
            return self.result(event)
        return None

    def message(self, event):
        need_order(event.number == len(self.messages) and not self.replies)
        # "or messages after 1,024 that read"
        if sum(message.reads for message in self.messages) >= MOST_READS:
            raise NoRoom
        self.put(1 + len(event.some_bytes))
        self.messages.append(event)

    def reply(self, event):
        # Each read has a reply, in order: so this is the first one that has none.
        waiting = [
            message for message in self.messages
            if message.reads and message.number not in self.replies
        ]
        need_order(waiting and waiting[0].number == event.number)
        message = waiting[0]
        # "numbers, lengths, flags, results, directions .. are compared"
        need_order((event.address, event.flags) == (message.address, message.flags))
        # "With 0400 a reply's `l` is the read's plus its first byte, without it they are equal."
        if message.flags & 0x0400:
            need_order(event.some_bytes)
            need_order(event.length == message.length + event.some_bytes[0])
        else:
            need_order(event.length == message.length)
        self.put(len(event.some_bytes))
        self.replies[event.number] = event.some_bytes

    def result(self, event):
        # "`i2c_result`, whose `n=` is their number"
        need_order(event.count == len(self.messages))
        # "message i that reads has a reply where i < `ret`"
        returned = int(event.returned)
        need_order(all(
            (message.number in self.replies) == (message.number < returned)
            for message in self.messages if message.reads
        ))
        legs = [
            (message.reads, message.address, self.replies.get(message.number, message.some_bytes))
            for message in self.messages
        ]
        # "`ret=n` is a packet, repeated START before each message but the first; any other `ret` a
        # failed transfer, `# line N: a transfer failed with RET: write 20, read 20` (`write` or
        # `read` and the address, message by message)"
        if returned == event.count:
            return Packet(spelled(legs))
        return Failed(b"a transfer failed with %b: %b" % (event.returned, named(legs)))

    def put(self, count):
        # "A packet has room for 16,384 bytes on the wire, addresses .. counted."
        self.on_wire += count
        if self.on_wire > ROOM:
            raise NoRoom


class Kernel(Trace):
    """"the four events of `i2c`"."""
    other_kind, packet = b"smbus", KernelPacket

    def event(self, name, text, time):
        if name == b"result":
            match = re.fullmatch(rb"n=([0-9]+) ret=(-?[0-9]+)", text)
            need(match)
            return Events(Result(int(match.group(1)), result_of(match.group(2))), ends=True)
        shape = rb"#([0-9]+) a=(%b{3}) f=(%b{4}) l=([0-9]+)" % (DIGIT, DIGIT)
        if name != b"read":
            shape += rb" \[(" + BYTES + rb")\]"
        match = re.fullmatch(shape, text)
        need(match)
        number, address, flags, length, *shown = match.groups()
        reads = name != b"write"
        # A flag 0001 that is not that of the event's direction contradicts it.
        need((int(flags, 16) & 0x0001 != 0) == reads)
        # "An address over 7 bits makes no sense."
        need(int(address, 16) <= 0x7F)
        some_bytes = bytes_of(shown[0]) if shown else []
        if shown:
            need_shown(some_bytes, length)
        # "Flags 0001, 0004 .., 0200, and 0400 on reads are read; any other: `# line N: flags F
        # change what is on the wire`"
        may_be = 0x0001 | 0x0004 | 0x0200 | (0x0400 if reads else 0)
        need(int(flags, 16) & ~may_be == 0, b"flags %b change what is on the wire" % flags)
        event = [int(number), int(address, 16), int(flags, 16), int(length), some_bytes]
        if name == b"reply":
            return Events(Reply(*event))
        event.insert(1, reads)
        # "`#0` .. cut[s] the packet under way and begin[s its] own"
        return Events(Message(*event), begins=int(number) == 0, time=time)


# smbus

CALLS = (b"PROC_CALL", b"BLOCK_PROC_CALL")
BLOCKS = (b"BLOCK_DATA", b"BLOCK_PROC_CALL", b"I2C_BLOCK_DATA")
WRITTEN = {b"QUICK": 0, b"BYTE": 0, b"BYTE_DATA": 1, b"WORD_DATA": 2, b"PROC_CALL": 2}
REPLIED = {b"QUICK": 0, b"BYTE": 1, b"BYTE_DATA": 1, b"WORD_DATA": 2, b"PROC_CALL": 2}


class Smbus(NamedTuple):
    """An event of `smbus`. `some_bytes` is None where they are needed and not shown."""
    name: bytes
    address: int
    code: int
    protocol: bytes
    has_error_code: bool
    some_bytes: object = ()
    reads: object = None  # of a result
    returned: bytes = b""  # of a result

    def transfer(self):
        # "`a`, `c`, the protocol and bit 0004 are compared, other flags differ by design"
        return self.address, self.code, self.protocol, self.has_error_code


class SmbusPacket:
    """"`smbus_write` or `smbus_read`, `smbus_reply`, `smbus_result` become the packet that SMBus
    draws for the protocol"."""

    def __init__(self):
        self.head = self.reply = None

    def take(self, event):
        if self.head is None:
            self.head = event
            return None
        need_order(event.transfer() == self.head.transfer())
        is_call = self.head.protocol in CALLS
        if event.name == b"reply":
            need_order(self.head.name == b"read" or is_call)
            need_order(self.reply is None)
            self.reply = event
            return None
        # "directions .. are compared": a call may be written as such, or read
        need_order(is_call or event.reads == (self.head.name == b"read"))
        # "A negative `res` is a failed transfer, told with the legs that SMBus draws .., before all
        # else."
        if int(event.returned) < 0:
            told = b"a transfer failed with %b: %b" % (event.returned, named(self.legs()))
            return Failed(told)
        need_order((self.reply is not None) == event.reads)
        # "where a program prints `[ARG TYPE NOT FIELD BUT 2]` for bytes that are needed, `# line N:
        # the bytes of the transfer from line M are not shown` (before the other); N is the result's
        # line"
        if self.head.some_bytes is None or (self.reply and self.reply.some_bytes is None):
            return NotShown(b"the bytes of the transfer from line %d are not shown")
        # "A process call that was written as such has no reply in the trace: `# line N: the reply
        # of the call from line M is not shown`"
        if is_call and self.reply is None:
            return NotShown(b"the reply of the call from line %d is not shown")
        return Packet(spelled(self.legs()), self.has_code())

    def has_code(self):
        # "QUICK and I2C_BLOCK_DATA never have an error code"
        has_none = self.head.protocol in (b"QUICK", b"I2C_BLOCK_DATA")
        return self.head.has_error_code and not has_none

    def legs(self):
        """The legs that SMBus draws; of bytes that are not known none."""
        head, protocol = self.head, self.head.protocol
        reads = head.name == b"read"
        written = list(head.some_bytes or ())
        replied = list(self.reply.some_bytes or ()) if self.reply else []
        # "of I2C_BLOCK_DATA the first byte shown is the count and not on the wire"
        if protocol == b"I2C_BLOCK_DATA":
            written, replied = written[1:], replied[1:]
        if protocol == b"QUICK":
            legs = [(reads, [])]
        elif protocol == b"BYTE":
            # "BYTE: a write's byte is `c`, a read has no code"
            legs = [(True, replied)] if reads else [(False, [head.code])]
        else:
            legs = [(False, [head.code] + written)]
            if reads or protocol in CALLS:
                legs.append((True, replied))
        # "with the right error code where bit 0004 is set"
        if self.has_code():
            on_wire = []
            for is_read, some_bytes in legs:
                on_wire += [2 * head.address + is_read] + some_bytes
            legs[-1][1].append(error_code(on_wire))
        return [(is_read, head.address, some_bytes) for is_read, some_bytes in legs]


class SmbusTrace(Trace):
    """"the four events of `smbus` .., for adapters that make SMBus themselves"."""
    other_kind, packet = b"i2c", SmbusPacket

    def event(self, name, text, time):
        shape = rb"a=(%b{3}) f=(%b{4}) c=(%b{1,2}) ([^ ]+)" % (DIGIT, DIGIT, DIGIT)
        if name in (b"write", b"reply"):
            shape += rb" l=([0-9]+) \[(" + BYTES + b"|" + NOT_SHOWN + rb")\]"
        elif name == b"result":
            shape += rb" (rd|wr) res=(-?[0-9]+)"
        match = re.fullmatch(shape, text)
        need(match)
        address, flags, code, protocol, *more = match.groups()
        # "I2C_BLOCK_BROKEN and unknown protocols make no sense in each of the four"
        need(protocol in WRITTEN or protocol in BLOCKS)
        # "An address over 7 bits makes no sense." (but such a result can be read)
        need(int(address, 16) <= 0x7F, ends=name == b"result")
        # "`smbus_read` of a process call makes no sense."
        need(name != b"read" or protocol not in CALLS)
        event = Smbus(
            name, int(address, 16), int(code, 16), protocol, int(flags, 16) & 0x0004 != 0
        )
        if name in (b"write", b"reply"):
            lengths = WRITTEN if name == b"write" else REPLIED
            event = event._replace(some_bytes=self.shown(lengths, protocol, *more))
        elif name == b"result":
            event = event._replace(reads=more[0] == b"rd", returned=result_of(more[1]))
        # "0010 in `smbus_write` and `smbus_read` changes what is on the wire"
        begins = name in (b"write", b"read")
        is_plain = not begins or int(flags, 16) & 0x0010 == 0
        need(is_plain, b"flags %b change what is on the wire" % flags)
        # "`smbus_write` and `smbus_read` cut the packet under way and begin their own"
        return Events(event, begins, ends=name == b"result", time=time)

    def shown(self, lengths, protocol, length, text):
        """The bytes, or None where they are needed and not shown."""
        is_shown = text != NOT_SHOWN
        some_bytes = bytes_of(text) if is_shown else []
        # "a length that the protocol does not have" makes no sense
        if protocol in lengths:
            need(int(length) == lengths[protocol])
        # "a block's first byte is any, and `l` is one more (at least 1 where the bytes are not
        # shown)"
        elif some_bytes:
            need(int(length) == some_bytes[0] + 1)
        else:
            need(int(length) >= 1)
        if is_shown:
            need_shown(some_bytes, length)
            return some_bytes
        # Of an I2C_BLOCK_DATA's the count is not on the wire.
        is_needed = int(length) > (1 if protocol == b"I2C_BLOCK_DATA" else 0)
        return None if is_needed else []


# The capture

class Machine:
    """Takes the classified lines in order, and writes the capture."""

    def __init__(self, name, packet_of):
        self.name, self.packet_of = name, packet_of
        self.out, self.is_bad, self.packets, self.passed = [], False, 0, {}
        self.packet = None  # that is under way
        self.first = self.last = self.time = None  # its first line, its last one, its time
        # "behind a heading, and at the start, reading begins at once"
        self.skipping = False
        self.codes = 0  # error codes that were computed

    def take(self, number, line):
        """A line that is classified."""
        if isinstance(line, Events):
            self.events(number, line)
        elif isinstance(line, Nothing):
            # "behind a heading .. reading begins at once"
            if line.cuts:
                self.cut()
                self.skipping = False
        elif isinstance(line, Lost):
            # "`# line N: K events were lost` (`# line N: events were lost` without a number)"
            self.drop(number, (line.count + b" " if line.count else b"") + b"events were lost")
        elif isinstance(line, Other):
            self.passed[line.what] = self.passed.get(line.what, 0) + 1
        else:
            self.drop(number, line.reason)
            # "reading begins behind it"
            self.skipping = not line.ends

    def tell(self, number, what):
        self.out.append(b"# line %d: %b" % (number, what))

    def cut(self):
        # "`# line N: the packet from line M is cut` (M its first line, N the last that gave it an
        # event), in front of the line of what cut it"
        if self.packet is not None:
            self.tell(self.last, b"the packet from line %d is cut" % self.first)
            self.is_bad, self.packet = True, None

    def drop(self, number, reason):
        """A fault or a loss: "a packet under way .. is dropped"; behind it lines are skipped."""
        self.cut()
        self.tell(number, reason)
        self.is_bad = self.skipping = True

    def events(self, number, line):
        is_busy = self.packet is not None or self.skipping
        if line.begins and not (is_busy and self.name in STARTS_MAY_BE_REPEATED):
            self.cut()
            self.packet, self.first, self.time = self.packet_of(), number, line.time
            self.skipping = False
        elif self.skipping:
            # "lines that can't begin a packet are skipped in silence up to a STOP or result (saleae
            # and beagle: all lines up to it)"
            self.skipping = not line.ends
            return
        try:
            need_order(self.packet is not None)
            outcome = self.packet.take(line.given)
        except DoesNotFollow:
            self.drop(number, NO_ORDER)
            # "a line at fault that can be read and is itself a STOP, a result or a whole packet's
            # row"
            self.skipping = not line.ends
        except NoRoom:
            # "`# line N: the packet from line M is too long` (N the line whose bytes have no room)"
            self.tell(number, b"the packet from line %d is too long" % self.first)
            self.is_bad, self.packet, self.skipping = True, None, not line.ends
        else:
            self.last = number
            if outcome is not None:
                self.end_packet(number, outcome)

    def end_packet(self, number, outcome):
        self.packet = None
        if isinstance(outcome, Packet):
            # "In front of each packet stands a line `# T s` .., T the time of its START as the
            # source gives it"
            if self.time is not None:
                self.out.append(self.time)
            self.out.append(outcome.text)
            self.packets += 1
            self.codes += outcome.is_code_computed
        elif isinstance(outcome, Failed):
            # "failed transfers do not change it", the status
            self.tell(number, outcome.told)
        else:
            self.tell(number, outcome.told % self.first)
            self.is_bad = True

    def end(self):
        # "at the end a packet that is cut, then `# K lines of smbus were passed over` .., then
        # `# K lines of other buses were passed over`, then `# no packets` where there is none, then
        # `# K error codes are computed, since the recording shows none`. Always the plural."
        self.cut()
        for what in ("smbus", "i2c", "other buses"):
            if what in self.passed:
                told = "# %d lines of %s were passed over" % (self.passed[what], what)
                self.out.append(told.encode())
        if self.packets == 0:
            self.out.append(b"# no packets")
        if self.codes:
            told = "# %d error codes are computed, since the recording shows none" % self.codes
            self.out.append(told.encode())
        # "The status is 1 where there was a fault, a cut or too long packet, lost events or no
        # packet; 0 otherwise"
        status = 1 if self.is_bad or self.packets == 0 else 0
        return b"".join(line + b"\n" for line in self.out), status


def imported(source, data, bus=None, rate=None, unshifted=False):
    """The capture that a recording becomes, and the status."""
    if source == "sigrok":
        reader = Sigrok(bus, rate, unshifted)
    elif source == "saleae":
        reader = Saleae(bus)
    elif source == "beagle":
        reader = Beagle()
    elif source == "kernel":
        reader = Kernel(bus)
    else:
        reader = SmbusTrace(bus)
    machine = Machine(source, reader.packet)
    for number, line in lines_of(data):
        machine.take(number, reader.class_of(line))
    return machine.end()


def asked(words):
    """What the words after `import` ask for: (source, bus, rate, unshifted); None for words that
    have status 2."""
    source, left = words[0], list(words[1:])
    bus, rate, unshifted = None, None, False
    while left:
        word = left.pop(0)
        if word == b"--bus" and left:
            bus = left.pop(0)
        elif word == b"--rate" and left:
            # "HZ is decimal digits, 1 to 18,446,744,073; `BadRate` otherwise, status 2"
            text = left.pop(0)
            if not re.fullmatch(rb"[0-9]+", text) or not 1 <= int(text) <= GREATEST_RATE:
                return None
            rate = int(text)
        elif word == b"--unshifted":
            unshifted = True
        else:
            return None
    # "`--rate` and `--unshifted` with another source than sigrok, `--bus` with beagle: status 2"
    if source not in (b"sigrok", b"saleae", b"beagle", b"kernel", b"smbus"):
        return None
    if source != b"sigrok" and (rate is not None or unshifted):
        return None
    if source == b"beagle" and bus is not None:
        return None
    return source.decode(), bus, rate, unshifted


def program(words, given):
    """The exit status and the standard output of `pmb import` with these words after it."""
    if words[0] in (b"vcd", b"samples"):
        from . import waves

        return waves.program(words, given)
    request = asked(words)
    if request is None:
        return 2, b""
    source, bus, rate, unshifted = request
    capture, status = imported(source, given, bus, rate, unshifted)
    return status, capture
