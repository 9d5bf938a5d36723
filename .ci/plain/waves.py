"""`pmb import vcd` and `pmb import samples`, said a second time: the packets of a recording of SCL
and SDA themselves. Slowly and plainly, from the rules alone, each a function of lists:

    words or rows -> changes and faults -> pieces -> runs -> filtered runs -> steps -> events -> told

A time is a whole number of femtoseconds. A level is "0", "1" or "x".
"""

import re
from typing import NamedTuple

from .recordings import LONGEST_LINE, NO_ORDER, NO_SENSE, ROOM, Packet, lines_of

UNITS = {"s": 10**15, "ms": 10**12, "us": 10**9, "ns": 10**6, "ps": 10**3, "fs": 1}
MOST_NUMBER = 2**64 - 1
MOST_NAME, MOST_ID, MOST_NAMES = 255, 64, 16
MOST_DIGITS, MOST_SECONDS, MOST_COLUMNS = 64, 10**9, 65536


class Change(NamedTuple):
    """From this time on a wire has this level."""
    line: int
    time: int
    wire: str  # "SCL" or "SDA"
    level: str


class Fault(NamedTuple):
    """A fault of reading: a piece ends."""
    line: int
    reason: bytes


class Last(NamedTuple):
    """What is told at the end of what is read; nothing more is read behind it. Without a line it
    is told behind the packet that the end cuts."""
    line: int
    told: bytes


# ---- pieces and runs

class Run(NamedTuple):
    """A time in which a wire has one level: from here to the next run."""
    time: int
    line: int
    level: str


def pieces(read):
    """The changes between faults, each list with the fault behind it, or None at the end."""
    found, changes = [], []
    for item in read:
        if isinstance(item, Change):
            changes.append(item)
        else:
            found.append((changes, item))
            changes = []
    return found + [(changes, None)]


def settled(changes):
    """Of several changes of a wire at one time the last counts."""
    return [c for c, after in zip(changes, changes[1:] + [None]) if not after or after.time > c.time]


def runs(changes, first):
    """The runs of the levels of one wire. A wire that is not written at the piece's first time is x
    there."""
    found = []
    if not changes or changes[0].time > first:
        found.append(Run(first, 0, "x"))
    for change in settled(changes):
        if not found or found[-1].level != change.level:
            found.append(Run(change.time, change.line, change.level))
    return found


def without_spikes(some_runs, glitch):
    """"A run shorter than NS has the level of the last one before it that is not shorter; the first
    and the last run of a piece never are. A level's time and line are those of the first run that
    has it.\""""
    found = []
    for i, run in enumerate(some_runs):
        is_end = i in (0, len(some_runs) - 1)
        if is_end or some_runs[i + 1].time - run.time >= glitch:
            if not found or found[-1].level != run.level:
                found.append(run)
    return found


def spikes(some_runs, glitch):
    """The runs that are shorter."""
    return [
        run for run, after in zip(some_runs[1:-1], some_runs[2:]) if after.time - run.time < glitch
    ]


# ---- steps and events

class Step(NamedTuple):
    """At this time one wire changes, or both do. A wire that does not has no line."""
    time: int
    scl: str
    sda: str
    scl_line: int
    sda_line: int


def steps(scl_runs, sda_runs):
    """One list for both wires."""
    found = []
    for time in sorted({run.time for run in scl_runs + sda_runs}):
        def level(some_runs):
            before = [run for run in some_runs if run.time <= time]
            return before[-1].level if before else "x"

        def line(some_runs):
            return next((run.line for run in some_runs if run.time == time), None)

        found.append(Step(time, level(scl_runs), level(sda_runs), line(scl_runs), line(sda_runs)))
    return found


def kind(before, after):
    """What a pair of steps is: exactly one of these."""
    (scl, sda), (new_scl, new_sda) = before, after
    if new_scl == "x":
        return "x" if scl != "x" else "none"
    if new_scl == "0":
        return "fall" if scl != "0" else "none"
    if new_sda == "x":
        return "x"
    if scl != "1":
        return "rise"
    return {("1", "0"): "start", ("0", "1"): "stop"}.get((sda, new_sda), "none")


class Event(NamedTuple):
    """What a step is, with the line of the recording, and what it gives."""
    kind: str  # start, stop, bit, low, x, slow
    line: int
    time: int = 0
    value: int = 0
    reason: bytes = b""
    both: bool = False  # a START in a time of SCL 1 that began with both wires rising at once


def events(some_steps, timeout):
    """The events of the steps of a piece."""
    found = []
    before, known = ("x", "x"), False
    rise = None  # (both, free of START and STOP) of the time of SCL 1 that began with a rise
    low_since = None
    for step in some_steps:
        after = (step.scl, step.sda)
        what = kind(before, after)
        if what == "x" and known:
            if step.scl == "x":
                found.append(Event("x", step.scl_line, reason=b"SCL is x"))
            else:
                line = step.scl_line if step.sda_line is None else step.sda_line
                found.append(Event("x", line, reason=b"SDA is x"))
        if what == "fall":
            # "A bit is a time in which SCL is 1, from its rise to its fall, without START and STOP
            # in it; its value is SDA's there"
            if rise is not None and rise[1]:
                found.append(Event("bit", step.scl_line, value=int(before[1])))
            else:
                found.append(Event("low", step.scl_line))
            low_since, rise = step.time, None
        if what == "rise":
            rise = None
            if before[0] == "0":
                # "SCL was low for over MS ms (at its rise, in a packet)"
                if timeout and step.time - low_since > timeout:
                    found.append(Event("slow", step.scl_line))
                rise = [before[1] == "0" and after[1] == "1", True]
        if what in ("start", "stop"):
            line = step.sda_line
            both = what == "start" and rise is not None and rise[0]
            found.append(Event(what, line, time=step.time, both=both))
            if rise is not None:
                rise[1] = False
        if what == "x":
            rise = None
        known = known or "x" not in after
        before = after
    return found


# ---- packets

def seconds(time):
    """Seconds with nine digits, rounded down."""
    billionths = time // 10**6
    sign = b"-" if billionths < 0 else b""
    return sign + b"%d.%09d" % divmod(abs(billionths), 10**9)


class Reading:
    """What is told of the events and faults, and what is counted."""

    def __init__(self, timeout_ms):
        self.timeout_ms = timeout_ms
        self.out, self.packets, self.is_bad = [], 0, False
        self.skipping = False
        self.drop()

    def drop(self):
        self.first = self.last = self.time = None
        self.words, self.on_wire, self.bits, self.at_start = [], 0, [], False

    def tell(self, line, what):
        self.out.append(b"# line %d: %b" % (line, what))
        self.is_bad = True

    def cut(self):
        if self.first is not None:
            self.tell(self.last, b"the packet from line %d is cut" % self.first)
        self.drop()

    def fault(self, line, reason, ends=False):
        self.cut()
        self.tell(line, reason)
        self.skipping = not ends

    def take(self, event):
        is_stop = event.kind == "stop"
        if event.kind == "x":
            # "in silence but for x"
            return self.fault(event.line, event.reason)
        if self.skipping:
            self.skipping = not is_stop
            return None
        if self.first is None:
            # "Outside a packet SCL low, at the start too, and STOP do not follow."
            if event.kind == "start":
                self.begin(event)
                return None
            return None if event.kind == "slow" else self.fault(event.line, NO_ORDER, is_stop)
        return self.inside(event)

    def begin(self, event):
        self.first = self.last = event.line
        self.time, self.words, self.at_start = event.time, [b"S"], True

    def inside(self, event):
        if event.kind == "slow":
            return self.fault(event.line, b"SCL was low for over %d ms" % self.timeout_ms)
        if event.kind == "low":  # behind START
            return None
        if event.kind == "bit":
            self.last = event.line
            self.bits.append(event.value)
            return self.byte(event.line) if len(self.bits) == 9 else None
        is_stop = event.kind == "stop"
        if event.both:
            return self.fault(event.line, b"a STOP may be lost in front")
        if self.bits:
            # "A START or STOP behind one to eight bits of a byte cuts; behind that STOP reading
            # goes on."
            self.cut()
            self.skipping = not is_stop
            return None
        if self.at_start:
            # "START and then START or STOP without a byte between does not follow."
            return self.fault(event.line, NO_ORDER, is_stop)
        self.last = event.line
        if is_stop:
            self.out.append(b"# %b s" % seconds(self.time))
            self.out.append(b" ".join(self.words + [b"P"]))
            self.packets += 1
            return self.drop()
        self.words.append(b"S")
        self.at_start = True
        return None

    def byte(self, line):
        """Nine bits are a byte and its answer."""
        if self.on_wire == ROOM:
            self.tell(line, b"the packet from line %d is too long" % self.first)
            self.drop()
            self.skipping = True
            return
        value = int("".join(map(str, self.bits[:8])), 2)
        self.words += [b"%02x" % value, b"N" if self.bits[8] else b"A"]
        self.on_wire += 1
        self.bits, self.at_start = [], False


def told(read, last, glitch, timeout_ms):
    """The capture of what was read, and the status."""
    reading = Reading(timeout_ms)
    for changes, fault in pieces(read):
        first = changes[0].time if changes else 0
        filtered = [
            without_spikes(runs([c for c in changes if c.wire == wire], first), glitch * UNITS["ns"])
            for wire in ("SCL", "SDA")
        ]
        for event in events(steps(*filtered), timeout_ms * UNITS["ms"]):
            reading.take(event)
        if fault is not None:
            reading.fault(fault.line, fault.reason)
    reading.cut()
    if last is not None:
        if last.line:
            reading.tell(last.line, last.told)
        else:
            reading.out.append(b"# " + last.told)
            reading.is_bad = True
    if reading.packets == 0:
        reading.out.append(b"# no packets")
    status = 1 if reading.is_bad or reading.packets == 0 else 0
    return b"".join(line + b"\n" for line in reading.out), status


# ---- names

def without_blanks(text):
    return re.sub(rb"[ \t]", b"", text)


def is_named(name, wanted):
    """NAME is the signal's, or what stands behind a `.` of it."""
    return name == wanted or name.endswith(b"." + wanted)


def matching(signals, wanted, wire):
    """The signals that a wire may be, each (its identity, its name). Those of one identity are
    one, by the first name that fits."""
    if wanted is not None:
        found = [s for s in signals if is_named(s[1], without_blanks(wanted))]
    else:
        def last(signal):
            return signal[1].rpartition(b".")[2].lower()

        word = wire.lower().encode()
        found = [s for s in signals if last(s) == word] or [s for s in signals if word in last(s)]
    return once(found)


def once(signals):
    """The first signal of each identity."""
    found = {}
    for signal in signals:
        found.setdefault(signal[0], signal)
    return list(found.values())


def listed(signals):
    signals = once(signals)
    names = [name for _, name in signals[:MOST_NAMES]]
    return b", ".join(names + [b".."] * (len(signals) > MOST_NAMES))


def chosen(signals, wanted):
    """The identities of SCL and SDA, or what is told."""
    found = []
    for wire, name in zip(("SCL", "SDA"), wanted):
        may_be = matching(signals, name, wire)
        if not may_be:
            return None, b"%b is none of %b" % (wire.encode(), listed(signals))
        if len(may_be) > 1:
            return None, b"%b may be %b" % (wire.encode(), listed(may_be))
        found.append(may_be[0][0])
    if found[0] == found[1]:
        return None, b"SCL and SDA are one signal"
    return found, None


# ---- VCD

LEVELS = {**dict.fromkeys("0lL", "0"), **dict.fromkeys("1hHzZ", "1"),
          **dict.fromkeys("xXuUwW-", "x")}
DUMPS = (b"$dumpvars", b"$dumpall", b"$dumpon", b"$dumpoff")


def words_of(data):
    """The words with their lines; None for a line that is too long or lacks its LF."""
    for number, line in lines_of(data):
        if line is None:
            yield number, None
            continue
        for word in re.split(rb"[ \t]+", line):
            if word:
                yield number, word


def vcd_head(words):
    """The timescale in fs, the signals (ID, name), the line of `$enddefinitions`'s `$end`, the
    faults so far and how many words these are. Without `$enddefinitions` the line is None."""
    scale, signals, scopes, faults = None, [], [], []
    section = []
    for i, (line, word) in enumerate(words):
        if word is None:
            faults.append(Fault(line, NO_SENSE))
            continue
        if not section:
            section = [word] if word[:1] == b"$" and word != b"$end" else []
            continue
        if word != b"$end":
            section.append(word)
            continue
        name, rest = section[0], section[1:]
        section = []
        if name == b"$enddefinitions":
            return scale, signals, line, faults, i + 1
        if name == b"$timescale":
            match = re.fullmatch(rb"(1|10|100)(s|ms|us|ns|ps|fs)", b"".join(rest))
            scale = int(match[1]) * UNITS[match[2].decode()] if match else None
        if name == b"$scope":
            scopes.append(rest[1] if len(rest) > 1 else b"")
        if name == b"$upscope":
            scopes = scopes[:-1]
        if name == b"$var" and len(rest) > 3 and rest[1] == b"1":
            signal = b".".join(scopes + [b"".join(rest[3:])])
            if len(signal) <= MOST_NAME and len(rest[2]) <= MOST_ID:
                signals.append((rest[2], signal))
    return scale, signals, None, faults, len(words)


def vcd_read(data, wanted, simulated):
    """The changes and faults of a VCD, and what is told last."""
    words = list(words_of(data))
    scale, signals, end, faults, count = vcd_head(words)
    if end is None:
        return faults, Last(0, b"no $enddefinitions")
    if scale is None:
        return faults, Last(end, b"no $timescale")
    if not signals:
        return faults, Last(end, b"no signal has WIDTH 1")
    ids, why = chosen(signals, wanted)
    if ids is None:
        return faults, Last(end, why)
    return faults + vcd_changes(words[count:], ids, scale, simulated), None


def vcd_changes(words, ids, scale, simulated):
    read, number, has = [], 0, {}
    section = None  # the `$dump..` or other section that is open
    value = None  # of a vector, real number or text, whose ID comes next
    skipped = None  # the line whose rest is skipped

    def fault(line, reason):
        read.append(Fault(line, reason))
        has.clear()

    def no_sense(line):
        nonlocal skipped, value
        fault(line, NO_SENSE)
        skipped, value = line, None

    def level(line, text, some_id):
        if some_id not in ids:
            return
        wire = ("SCL", "SDA")[ids.index(some_id)]
        new = LEVELS[text]
        if has.get(wire) == new and section is None and not simulated:
            fault(line, NO_ORDER)
            return
        has[wire] = new
        read.append(Change(line, number * scale, wire, new))

    for line, word in words:
        if word is None:
            fault(line, NO_SENSE)
            continue
        if line == skipped:
            continue
        first, rest = word[:1].decode("latin-1"), word[1:]
        if section is not None and section not in DUMPS:
            section = None if word == b"$end" else section
        elif value is not None:
            text, value = value, None
            if word not in ids or text[:1] not in b"bB":
                continue
            if len(text) == 2 and text[1:].decode("latin-1") in LEVELS:
                level(line, text[1:].decode("latin-1"), word)
            else:
                no_sense(line)
        elif word == b"$end":
            section = None
        elif first == "$" and rest:
            section = word
        elif first == "#" and re.fullmatch(rb"[0-9]+", rest) and int(rest) <= MOST_NUMBER:
            if int(rest) < number:
                fault(line, NO_ORDER)
            number = int(rest)
        elif first in LEVELS and rest:
            level(line, first, rest)
        elif first in "bBrRsS" and rest:
            value = word
        else:
            no_sense(line)
    return read


# ---- samples

def fields(line, mark=b","):
    """The fields of a line between commas, or between these and another mark, blanks around them and
    empty ones at the end dropped; None where an open quote or what stands behind one is at fault."""
    ends = (b",", mark)
    found, at = [], 0
    while True:
        while line[at:at + 1] in (b" ", b"\t") and line[at:at + 1] not in ends:
            at += 1
        if line[at:at + 1] == b'"':
            field, at = b"", at + 1
            while True:
                end = line.find(b'"', at)
                if end < 0:
                    return None
                field, at = field + line[at:end], end + 1
                if line[at:at + 1] != b'"':
                    break
                field, at = field + b'"', at + 1
            while line[at:at + 1] in (b" ", b"\t") and line[at:at + 1] not in ends:
                at += 1
            if line[at:at + 1] not in (b"", *ends):
                return None
        else:
            end = min([e for e in map(line.find, ends, (at, at)) if e >= 0], default=len(line))
            field, at = line[at:end], end
        found.append(field.strip(b" \t"))
        if at == len(line):
            break
        at += 1
    while found and not found[-1]:
        found.pop()
    return found


NUMBER = rb"([-+]?)([0-9]*)(?:\.([0-9]*))?(?:[eE]([-+]?[0-9]+))?"


def number(text):
    """A number as (numerator, denominator), exact; None where it is none."""
    match = re.fullmatch(NUMBER, text) if len(text) <= MOST_DIGITS else None
    if not match or not (match[2] or match[3]):
        return None
    places = int(match[4] or 0) - len(match[3] or b"")
    value = int(match[2] + (match[3] or b"")) * (-1 if match[1] == b"-" else 1)
    if value == 0:
        return 0, 1
    # Beyond this it is out of every range, or nothing.
    places = max(min(places, 100), -1000)
    return (value * 10**places, 1) if places >= 0 else (value, 10**-places)


def at_least(a, b):
    return a[0] * b[1] >= b[0] * a[1]


TIME_WORDS = {b"ms": "ms", b"milliseconds": "ms", b"us": "us", b"microseconds": "us", b"ns": "ns",
              b"nanoseconds": "ns", b"seconds": "s"}


def unit_of(name):
    """The unit that a heading says, or None."""
    for word in re.findall(rb"[a-zA-Z]+", name):
        if word.lower() in TIME_WORDS:
            return TIME_WORDS[word.lower()]
    return None


class Samples(NamedTuple):
    scl: bytes
    sda: bytes
    rate: int
    time: bytes
    low: tuple
    high: tuple
    has_volts: bool


def is_column(name):
    return name is not None and re.fullmatch(rb"[0-9]+", name) and 0 < int(name) <= MOST_COLUMNS


def named_columns(names):
    """The columns that have a name that is not too long."""
    named = [(place, without_blanks(name)) for place, name in enumerate(names) if name]
    return [(place, name) for place, name in named if len(name) <= MOST_NAME]


def columns_of(names, options):
    """The columns of a line that would be a heading: (SCL, SDA), what is told, or neither."""
    signals = named_columns(names)
    found = []
    for wire, name in (("SCL", options.scl), ("SDA", options.sda)):
        may_be = [(int(name) - 1, b"")] if is_column(name) else matching(signals, name, wire)
        if not may_be:
            return None, None
        found.append((wire, may_be))
    for wire, may_be in found:
        if len(may_be) > 1:
            return None, b"%b may be %b" % (wire.encode(), listed(may_be))
    scl, sda = found[0][1][0][0], found[1][1][0][0]
    return (None, b"SCL and SDA are one signal") if scl == sda else ((scl, sda), None)


def other_comma(text, options):
    """What a line has in place of commas that would be a heading with them, or None."""
    for mark, name in ((b";", b";"), (b"\t", b"TAB")):
        other = fields(text, mark) if mark in text else None
        if other is not None and columns_of(other, options)[0]:
            return name
    return None


def time_column(names, wires, options):
    """The column of times, "rows", or what is told."""
    wanted = options.time
    if wanted == b"rows":
        return "rows", None
    if wanted is None:
        if 0 not in wires:
            return 0, None
        return ("rows", None) if options.rate else (None, b"there are no times without --rate")
    if is_column(wanted):
        return int(wanted) - 1, None
    signals = named_columns(names)
    may_be = [s for s in signals if is_named(s[1], without_blanks(wanted))]
    if len(may_be) == 1:
        return may_be[0][0], None
    return None, b"the time %b %b" % (
        (b"may be", listed(may_be)) if may_be else (b"is none of", listed(signals)))


def time_of(text, unit, rate):
    """The time of a row in fs, rounded down; None where it is none."""
    value = number(text)
    if value is None:
        return None
    top, bottom = value
    if rate:
        if top % bottom:
            return None
        top, bottom = top // bottom, rate
    else:
        bottom *= 10**15 // UNITS[unit]
    return top * 10**15 // bottom if abs(top) < MOST_SECONDS * bottom else None


def volt_level(text, before, options):
    value = number(text)
    if value is None:
        return None
    if at_least(options.low, value):
        return "0"
    return "1" if at_least(value, options.high) else before


def samples_read(data, options):
    """The changes and faults of samples, and what is told last."""
    read, columns, count, times = [], None, None, None
    unit, is_sigrok = "s", False
    rows, last_time, digital, has = 0, None, None, {}
    if is_column(options.scl) and is_column(options.sda) and options.scl != options.sda:
        # "With two of them there is no heading": but without times, or with a name for these, the
        # first line that says something is read as one.
        columns = (int(options.scl) - 1, int(options.sda) - 1)
        times, why = time_column([], columns, options)
        columns = None if why or columns[0] == columns[1] else columns

    def fault(line, reason):
        read.append(Fault(line, reason))
        has.clear()

    for line, text in lines_of(data):
        if text is None:
            fault(line, NO_SENSE)
            continue
        is_sigrok = is_sigrok or text.startswith(b"; CSV generated by libsigrok")
        if text[:1] in (b";", b"#") or not text.strip(b" \t"):
            continue
        row = fields(text)
        if columns is None:
            columns, why = columns_of(row, options) if row is not None else (None, None)
            if columns is None and other_comma(text, options):
                fault(line, b"has %b between its columns" % other_comma(text, options))
                continue
            if why:
                return read, Last(line, why)
            if columns is None:
                continue
            count = len(row)
            times, why = time_column(row, columns, options)
            if why:
                return read, Last(line, why)
            if times != "rows" and not options.rate:
                name = row[times] if times < len(row) else b""
                said = unit_of(name)
                if said is None and is_sigrok:
                    return read, Last(line, b"%b has no unit" % name[:MOST_NAME])
                unit = said or "s"
            continue
        given = row_of(row, columns, times, digital, unit, rows, has, options)
        if rows == 0 and given is None:
            # "Lines before the first row say nothing .., but one behind the heading that begins
            # with a digit, sign or point is a row."
            if count is None or not re.match(rb"[-+.0-9]", text):
                continue
        rows += 1
        if row is not None and count is not None and len(row) > count:
            fault(line, b"has %d columns, not %d" % (len(row), count))
        elif given is None:
            fault(line, NO_SENSE)
        else:
            time, levels, kinds = given
            digital = digital or kinds
            if last_time is not None and time <= last_time:
                fault(line, NO_ORDER)
            else:
                for wire, new in zip(("SCL", "SDA"), levels):
                    has[wire] = new
                    read.append(Change(line, time, wire, new))
            last_time = time
    if columns is None:
        return read, Last(0, b"no line names SCL and SDA")
    return read, None


def row_of(row, columns, times, digital, unit, rows, has, options):
    """The time of a row, its levels and how its columns are written; None where it has another
    form."""
    if row is None or max(columns) >= len(row):
        return None
    if times == "rows":
        time = rows * 10**15 // options.rate
    else:
        time = time_of(row[times], unit, options.rate) if times < len(row) else None
    if time is None:
        return None
    texts = [row[column] for column in columns]
    kinds = digital or [t in (b"0", b"1") and not options.has_volts for t in texts]
    levels = []
    for wire, text, is_digital in zip(("SCL", "SDA"), texts, kinds):
        if is_digital:
            levels.append(text.decode() if text in (b"0", b"1") else None)
        else:
            levels.append(volt_level(text, has.get(wire, "x"), options))
    return None if None in levels else (time, levels, kinds)


# ---- what the words ask for

def whole(text, least, most):
    return int(text) if re.fullmatch(rb"[0-9]+", text) and least <= int(text) <= most else None


def program(words, given):
    """The exit status and the standard output of `pmb import vcd|samples` with these words."""
    source, left = words[0], list(words[1:])
    names, simulated, rate, time, volts = [None, None], False, None, None, None
    glitch, timeout = 50, 25
    while left:
        word = left.pop(0)
        if word == b"--simulated" and source == b"vcd":
            simulated = True
            continue
        if not left:
            return 2, b""
        value = left.pop(0)
        if word in (b"--scl", b"--sda"):
            names[word == b"--sda"] = value
        elif word == b"--glitch":
            glitch = whole(value, 0, 999999999)
        elif word == b"--timeout":
            timeout = whole(value, 0, MOST_NUMBER)
        elif word == b"--rate" and source == b"samples":
            rate = whole(value, 1, 18446744073)
            if rate is None:
                return 2, b""
        elif word == b"--time" and source == b"samples":
            time = value
        elif word == b"--volts" and source == b"samples":
            volts = [number(part) for part in value.split(b",")]
            if len(volts) != 2 or None in volts or not at_least(volts[1], volts[0]):
                return 2, b""
        else:
            return 2, b""
        if glitch is None or timeout is None:
            return 2, b""
    if source == b"vcd":
        read, last = vcd_read(given, names, simulated)
    else:
        if time == b"rows" and rate is None:
            return 2, b""
        low, high = volts or ((8, 10), (135, 100))
        options = Samples(names[0], names[1], rate, time, low, high, volts is not None)
        read, last = samples_read(given, options)
    capture, status = told(read, last, glitch, timeout)
    return status, capture
