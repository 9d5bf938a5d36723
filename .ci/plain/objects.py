"""What `json` writes of a capture, by docs/json.md: an object a line."""

from functools import partial
from typing import NamedTuple, Optional

from . import meaning, numbers, packets, reading, voltages
from .known import Known
from .packets import ACK, ALERT, START, STOP, Alert, Call, NoAlert, Refused, Write
from .profiles import ALL_PAGES
from .times import last_time

COUNTED = ("writes", "reads", "calls", "refused", "refusals")
EVENTS = {"S": "Start", "P": "Stop", "A": "Ack", "N": "Nack"}


class Choice(NamedTuple):
    """What the flags say."""
    late: bool = False
    fixed: bool = False
    keep_going: bool = False
    digits: int = 6
    devices: tuple = ()


# Texts

def string(text):
    return '"%s"' % text


def digits_of(data):
    return string("".join("%02x" % byte for byte in data))


def escaped(word):
    """A word's bytes, those that stand for themselves in JSON and in ASCII as they are."""
    plain = lambda byte: 0x20 <= byte <= 0x7E and byte not in b'"\\'
    return string("".join(chr(byte) if plain(byte) else "\\u%04x" % byte for byte in word))


def array(texts):
    return "[%s]" % ",".join(string(text) for text in texts)


def flag(value):
    return "true" if value else "false"


def rounded(number, places):
    """The nearest decimal with so many places, ties to even, without zeros at its end."""
    units = round(number * 10**places)  # of a fraction: to the nearest, ties to even
    text = "%0*d" % (places + 1, abs(units))
    whole, part = (text[:-places], text[-places:]) if places else (text, "")
    part = part.rstrip("0")
    return ("-" if units < 0 else "") + whole + ("." + part if part else "")


def bit_names(device, code, data):
    """The names of the bits that are set, highest first."""
    word = word_of(data)
    bits = [bit for bit in range(8 * len(data) - 1, -1, -1) if word >> bit & 1]
    return [device.bit_name(code, bit) or "bit%d" % bit for bit in bits]


def text_of(data):
    """Characters as a string, or None where one of them can't be printed."""
    return escaped(data) if all(0x20 <= byte <= 0x7E for byte in data) else None


def word_of(data):
    """The number of some bytes, the low one first."""
    return sum(byte << 8 * i for i, byte in enumerate(data))


def due_code(device, address, sent):
    """The right packet error code, where the last byte that was sent is in its place; else None."""
    entry = device and device.entry(sent[0])
    if not entry or entry.write is None or device.pec == "off":
        return None
    if packets.missing(entry.write, sent[1:-1]) != 0:
        return None
    return packets.pec([2 * address] + sent[:-1])


# Objects: lists of keys with their texts

class Objects:
    """The objects of a capture."""

    def __init__(self, profile, choice):
        self.profile = profile
        self.choice = choice
        self.known = Known(profile, choice.late, choice.fixed)
        self.told = Known(profile, is_late=True)
        self.counts = {}
        self.packets = self.refusals = self.bad_tokens = self.others = 0
        self.lines = []

    def put(self, device, members):
        """An object that names a device, or None."""
        if device is None or not self.choice.devices or device in self.choice.devices:
            self.lines.append("{%s}\n" % ",".join('"%s":%s' % member for member in members))

    def count(self, address, what):
        counts = self.counts.setdefault(address, dict.fromkeys((*COUNTED, "others"), 0))
        counts[what] += 1

    # members

    def named(self, address):
        """An address, and the name of the device there."""
        device = self.profile.device(address)
        name = device.name if device else None
        members = [("device", digits_of([address]))]
        return members if name is None else members + [("name", escaped(name.encode()))]

    def command(self, address, code):
        """Code, name, and the page and the phase of a command that has one."""
        members = [("code", digits_of([code]))]
        device = self.profile.device(address)
        entry = device and device.entry(code)
        if entry:
            members.append(("command", string(entry.name)))
            texts = {None: "null", ALL_PAGES: string("all")}
            if entry.paged:
                page = self.known.pages[address]
                members.append(("page", texts.get(page, str(page))))
                if page is not None and self.told.pages[address] is None and device.pages > 1:
                    members.append(("page_mode", string("assumed")))
            if device.has_phases(entry):
                phase = self.known.phases[address]
                members.append(("phase", texts.get(phase, str(phase))))
        return members

    def meaning(self, told, data, is_write):
        """What data of a part or of a read say."""
        device = self.profile.device(told.address)
        entry = device.entry(told.code)
        members = []
        if data and entry.kind == "status":
            members = [("clears" if is_write else "bits", array(bit_names(device, told.code, data)))]
        if data and entry.is_number():
            members = self.number(device, entry, data)
        if entry.has_text(entry.write if is_write else entry.read):
            members += [("text", text) for text in [text_of(data)] if text is not None]
        return members + self.says(told)

    def number(self, device, entry, data):
        """A number, a factor, or why a word has no value."""
        try:
            way = self.way(device, entry)
            number = numbers.decode(way.form, word_of(data))
        except numbers.Fault as fault:
            return [("raw", string(voltages.WORDLESS.get(str(fault), str(fault))))]
        mark = [("mode", string("assumed"))] if self.is_assumed(device, entry) else []
        if way.is_ratio:
            return [("ratio", string(numbers.text(number)))] + mark
        unit = [("unit", escaped(entry.unit.encode()))] if entry.unit is not None else []
        return [("value", string(numbers.text(number))),
                ("number", rounded(number, self.choice.digits))] + mark + unit

    def says(self, told):
        """What the fields of the data of a part, a read or a call say, where they have some."""
        found = meaning.fields(self.profile.device(told.address), told.code, told)
        return [("says", meaning.as_object(found))] if found else []

    def way(self, device, entry):
        """How a number is read; a fault where it can't be."""
        if entry.is_voltage():
            return voltages.way_of(self.known, device, entry)
        return voltages.Way(entry.number_format(), False)

    def is_assumed(self, device, entry):
        """Whether a number rests on a VOUT_MODE that was not told, or on a VID table that goes by a PAGE that
        was not."""
        return entry.is_voltage() and voltages.is_unknown(self.told, device, entry)

    # packets

    def packet(self, starts, transaction, where):
        if isinstance(transaction, (Write, Refused)):
            count = len(transaction.parts) + isinstance(transaction, Refused)
            for i, part in enumerate(transaction.parts):
                self.part(where(starts[i]), i + 1, count, part)
            if isinstance(transaction, Refused):
                self.refused(where(starts[len(transaction.parts)]), count, transaction)
        elif isinstance(transaction, Alert):
            device = transaction.byte // 2
            self.put(device, where(starts[0]) + [("kind", string("alert"))] + self.named(device)
                     + [("byte", digits_of([transaction.byte])), ("pec", flag(transaction.pec))])
        elif isinstance(transaction, NoAlert):
            self.put(None, where(starts[0]) + [("kind", string("alert")), ("device", "null")])
        else:
            self.reply(where(starts[0]), transaction)
        self.packets += 1
        self.known.observe(transaction)
        self.told.observe(transaction)

    def part_members(self, part, count):
        return [("part", str(part)), ("parts", str(count))] if count > 1 else []

    def part(self, place, number, count, part):
        self.count(part.address, "writes")
        self.put(part.address, place + [("kind", string("write"))]
                 + self.part_members(number, count)
                 + self.named(part.address) + self.command(part.address, part.code)
                 + [("bytes", digits_of(part.data)), ("pec", flag(part.pec))]
                 + self.meaning(part, part.data, True))

    def reply(self, place, transaction):
        address, code = transaction.address, transaction.code
        is_call = isinstance(transaction, Call)
        self.count(address, "calls" if is_call else "reads")
        members = place + [("kind", string("call" if is_call else "read"))]
        members += self.named(address) + self.command(address, code)
        if is_call:
            members += [("sent", digits_of(transaction.data))]
        members += [("reply" if is_call else "bytes", digits_of(transaction.reply)),
                    ("pec", flag(transaction.pec))]
        if is_call:
            members += self.says(transaction)
        else:
            members += self.meaning(transaction, transaction.reply, False)
        self.put(address, members)

    def refused(self, place, count, refused):
        address, sent = refused.address, list(refused.sent)
        self.count(address, "refused")
        what = {0: "address", 1: "code"}.get(len(sent), "byte")
        members = place + [("kind", string("refused"))] + self.part_members(count, count)
        members += self.named(address)
        members += [("refused", string("read address" if refused.at_read else what))]
        members += self.command(address, sent[0]) if sent else []
        members += [("sent", digits_of(sent))]
        if not refused.at_read and len(sent) > 1:
            members += self.error_code(address, sent)
        self.put(address, members)

    def error_code(self, address, sent):
        """Of a refused byte in the place of a write's error code."""
        right = due_code(self.profile.device(address), address, sent)
        if right is None:
            return []
        verdict = "right" if sent[-1] == right else "wrong"
        return [("pec", string(verdict)), ("right_pec", digits_of([right]))]

    # refusals

    def refusal(self, refusal, place):
        named = [leg for leg in refusal.legs if leg]
        written = [leg for leg in named if leg[0] % 2 == 0]
        device = None
        if named and named[-1][0] != ALERT:
            device = named[-1][0] // 2
        members = place + [
            ("kind", string("refusal")), ("reason", string(refusal.reason)),
            ("expected", array(refusal.expected)), ("got", self.got(refusal.got))]
        if device is not None:
            members += self.named(device)
            self.count(device, "refusals")
        if written:
            address, sent = written[-1][0] // 2, written[-1][1:]
            members += self.command(address, sent[0]) if sent else []
            members.append(("sent", digits_of(sent)))
        last = refusal.legs[-1] if refusal.legs else []
        if last and last[0] % 2 == 1:
            members.append(("reply", digits_of(last[1:])))
        if refusal.reason == "BadPec":
            covered = last[:-1] if refusal.got == ACK else sum(refusal.legs, [])
            members.append(("right_pec", digits_of([packets.pec(covered)])))
        self.refusals += 1
        self.put(device, members)

    def got(self, event):
        if event is None:
            return "null"
        return digits_of([event]) if reading.is_byte(event) else string(EVENTS[event])

    # what is neither

    def other(self, place, address):
        """A packet to an address that speaks no PMBus."""
        self.others += 1
        self.count(address, "others")
        self.put(address, place + [("kind", string("other")), ("device", digits_of([address]))])

    def bad_token(self, place, word):
        self.bad_tokens += 1
        self.put(None, place + [("kind", string("bad_token")), ("word", escaped(word[:32]))])

    # the end

    def end(self):
        for address in sorted(self.counts):
            self.put(address, [("kind", string("device"))] + self.named(address)
                     + self.counted(COUNTED, self.counts[address]))
        self.put(None, [("kind", string("end"))]
                 + self.counted(("packets", "refusals", "bad_tokens"), vars(self)))

    def counted(self, keys, counts):
        """Counts by their keys, the others last where the profile ignores addresses."""
        keys += () if self.profile.ignored is None else ("others",)
        return [(key, str(counts[key])) for key in keys]


# A capture

class Span(NamedTuple):
    """Events up to and with a STOP, or the last ones, after so many others."""
    first: int
    events: list
    time: Optional[bytes]

    def is_open(self):
        return self.events[-1] != STOP


def place_of(text, at):
    """The members that say where a byte of a text stands."""
    before = text[:at]
    line = before.count(b"\n") + 1
    return [("line", str(line)), ("column", str(at - (before.rfind(b"\n") + 1) + 1))]


def head(text, starts, first, time, at):
    """The members that say which event an object begins with, where its word stands, and when it came.
    The first of the words has a number."""
    members = [("at", str(at))] + place_of(text, starts[at - first])
    return members if time is None else members + [("time", string(time.decode()))]


def json(profile, given, choice):
    """The lines, and how many refusals and bad words there are."""
    objects = Objects(profile, choice)
    read_all(objects, profile, given, choice)
    objects.end()
    return "".join(objects.lines), objects.refusals + objects.bad_tokens


def read_all(objects, profile, given, choice):
    """Reads a capture: all that it says goes to objects."""
    first, begin = 0, 0  # events before, and the byte at which reading begins
    while begin is not None:
        first, begin = read_on(objects, profile, given, choice, first, begin)


def read_on(objects, profile, given, choice, first, begin):
    """Reads up to the first bad word or the end: how many events that makes, and where to go on."""
    events, bounds, bad = words_from(given, begin)
    spans = spans_of(given, events, [(begin, begin)] + bounds, first)
    starts = [start for start, _ in bounds] + [bounds[-1][1] if bounds else begin]
    for span in spans:
        where = partial(head, given, starts, first, span.time)
        read_span(objects, profile, span, bad is None, where)
    first += len(events)
    if bad is None:
        return first, None
    word, at = bad
    time = spans[-1].time if spans and spans[-1].is_open() else None
    objects.bad_token(head(given, [at], first, time, first), word)
    line_end = given.find(b"\n", at)
    if not choice.keep_going or line_end < 0:
        return first, None
    forget(objects)
    return first, line_end + 1


def forget(objects):
    """Devices may have been told what nobody knows."""
    objects.known.drop_line()
    objects.told.drop_line()


def words_from(given, begin):
    """The events of a text from a place on, up to its first word that is none; where each word begins
    and ends; and that word with its place."""
    events, bounds = [], []
    for word, at in reading.words(given[begin:]):
        event = reading.event_of(word)
        if event is None:
            return events, bounds, (word, begin + at)
        events.append(event)
        bounds.append((begin + at, begin + at + len(word)))
    return events, bounds, None


def spans_of(given, events, bounds, first):
    """The spans of events, with the times between them. `bounds` begins with where reading begins."""
    spans = []
    for i, event in enumerate(events):
        if not spans or not spans[-1].is_open():
            time = last_time(given, bounds[i][1], bounds[i + 1][0])
            spans.append(Span(first + i, [], time))
        spans[-1].events.append(event)
    return spans


def read_span(objects, profile, span, ends, where):
    """The objects of a span. Where the events end with the capture, one that is open is cut."""
    address = other_address(profile, span.events)
    if address is not None:
        objects.other(where(span.first + 1), address)
    for outcome in reading.outcomes(profile, span.events, ends, span.first):
        is_packet = isinstance(outcome, reading.Packet)
        if address is None and is_packet:
            objects.packet(outcome.starts, outcome.transaction, where)
        elif address is None:
            objects.refusal(outcome, where(outcome.at))
        if not is_packet and outcome.loses(profile, span.events[outcome.at - span.first:]):
            forget(objects)


def other_address(profile, events):
    """The address that a packet is to, where it speaks no PMBus; else None."""
    if len(events) < 2 or events[0] != START or not reading.is_byte(events[1]):
        return None
    address = events[1] // 2
    return address if address in (profile.ignored or ()) else None
