"""The first profile of a capture, by docs/draft.md: what `pmb scan` writes, from the events of the capture and
the table of standard commands on docs/profiles.md. It is plain and slow: each number is counted anew from the
list of packets."""

from typing import NamedTuple

from .packets import ACK, NACK, START, STOP, pec
from .profiles import STANDARD

MOST_DEVICES, MOST_PAGES, ALL_PAGES = 64, 32, 0xFF
PAGE, VOUT_MODE, DEFAULT_MODE = 0x00, 0x20, 0x17
KEPT = (0x00, 0x03, 0x20, 0x30, 0x7E)  # commands whose forms are the standard's in each profile
SIZES = {"one": 1, "two": 2, "four": 4, "eight": 8}
DATA_FORMS, CALL_FORMS = ("one", "two", "four", "eight", "block"), ("two", "block")
MODES = ("on", "off", "optional")
BY_CODE = {entry.code: entry for entry in STANDARD}


class Leg(NamedTuple):
    """What a written leg says, with the reply where the next leg reads one. `sent` is None where what was sent
    is not whole, and `reply` where nothing is read."""
    address: int
    code: int
    sent: tuple = None
    reply: tuple = None

    def bytes(self):
        """All bytes of the packet, with those of the addresses."""
        read = () if self.reply is None else (2 * self.address + 1, *self.reply)
        return (2 * self.address, self.code, *self.sent, *read)


# From events to packets

def acknowledged(events):
    """The addresses that acknowledged, each where it first did."""
    found = {}
    for start, byte, answer in zip(events, events[1:], events[2:]):
        if start == START and isinstance(byte, int) and answer == ACK:
            found.setdefault(byte // 2)
    return list(found)


def packets(events):
    """The events of each packet, from after its START up to before its STOP; and those of one without STOP."""
    found, under_way = [], None
    for event in events:
        if under_way is None:
            under_way = [] if event == START else None
        elif event == STOP:
            found.append(under_way)
            under_way = None
        else:
            under_way.append(event)
    return found, under_way or []


def acked(events):
    """The bytes in front that have ACK each, and what follows them."""
    bytes_, at = [], 0
    while at + 1 < len(events) and isinstance(events[at], int) and events[at + 1] == ACK:
        bytes_.append(events[at])
        at += 2
    return tuple(bytes_), events[at:]


def legs_of(packet, ended):
    """The written legs of a packet whose code was acknowledged: the first one, or each part of a group. Without
    STOP none is whole but those that other parts follow."""
    parts, cut = [], [i for i, event in enumerate(packet) if event == START]
    for at, end in zip([0, *(i + 1 for i in cut)], [*cut, len(packet)]):
        parts.append(packet[at:end])
    found = [leg_of(*parts[i:i + 3]) for i in range(len(parts))]
    last = len(parts) - 1
    if not ended:
        found = [leg and Leg(leg.address, leg.code) if i == last or leg and leg.reply is not None else leg
                 for i, leg in enumerate(found)]
    return [leg for leg in found if leg]


def leg_of(part, following=None, further=None):
    """The leg of a part of a packet, before those that follow; None where it has no code that was acknowledged."""
    first, rest = acked(part)
    if len(first) < 2 or first[0] % 2 == 1:
        return None
    address, code, sent = first[0] // 2, first[1], first[2:]
    if rest or following == []:
        return Leg(address, code)
    if following is None or is_written(following[0]):
        return Leg(address, code, sent)
    second, end = acked(following)
    if following[0] != 2 * address + 1 or second == () or further is not None:
        return Leg(address, code)
    if len(end) == 2 and isinstance(end[0], int) and end[1] == NACK:
        return Leg(address, code, sent, (*second[1:], end[0]))
    return Leg(address, code, sent, second[1:]) if not end and second[1:] else Leg(address, code)


def is_written(event):
    """Whether it is the byte of an address that is written to."""
    return isinstance(event, int) and event % 2 == 0


# Forms

def has_form(form, data, over):
    """Whether data and so many bytes more have a form."""
    if form == "zero":
        return len(data) == over
    if form == "block":
        return len(data) > 0 and len(data) == data[0] + 1 + over
    return len(data) == SIZES[form] + over


def fits(way, form, checked, leg):
    """Whether a packet is one of a command that is written, read or called in a form, and has a packet error
    code, or has none."""
    if leg.sent is None or (checked and pec(leg.bytes()) != 0):
        return False
    if way == "write":
        return leg.reply is None and has_form(form, leg.sent, checked)
    if leg.reply is None:
        return False
    if way == "read":
        return leg.sent == () and has_form(form, leg.reply, checked)
    return has_form(form, leg.sent, 0) and has_form(form, leg.reply, checked)


def count(legs, way, form, mode):
    """How many packets fit a form, under a mode of packet error codes; none fits no form."""
    if form is None:
        return 0
    return sum(mode != "off" and fits(way, form, True, leg) or mode != "on" and fits(way, form, False, leg)
               for leg in legs)


def most(forms, first, number):
    """The form with the greatest number: of several the standard's, or else the one that comes first. None
    where no number is greater than 0."""
    best = max(forms, key=lambda form: (number(form), form == first, -forms.index(form)))
    return best if number(best) > 0 else None


class Ways(NamedTuple):
    """The forms in which a command is written, read and called, and that of its data."""
    write: str = None
    read: str = None
    call: str = None

    def data(self):
        return self.read or (None if self.write == "zero" else self.write)


def standard_ways(code):
    entry = BY_CODE.get(code)
    return Ways(entry.write, entry.read, entry.call) if entry else Ways()


def ways_of(code, legs, mode):
    """The forms of a command, by its packets: those of the standard, and those that most packets have."""
    standard = standard_ways(code)
    if code in KEPT:
        return standard

    def both(form):
        return count(legs, "write", form, mode) + count(legs, "read", form, mode)

    data = most(DATA_FORMS, standard.data(), both) or standard.data()
    zero = count(legs, "write", "zero", mode)
    if zero > count(legs, "write", data, mode):
        write = "zero"
    elif data and (count(legs, "write", data, mode) > 0 or standard.write == data):
        write = data
    else:
        write = "zero" if standard.write == "zero" else None
    read = data if data and (count(legs, "read", data, mode) > 0 or standard.read == data) else None
    call = most(CALL_FORMS, standard.call, lambda form: count(legs, "call", form, mode)) or standard.call
    return Ways(write, read, call)


def whole(legs, ways, mode):
    """How many packets of a command fit its forms."""
    return sum(count(legs, way, getattr(ways, way), mode) for way in ("write", "read", "call"))


def fitting(code, legs, mode):
    """How many packets of a command tell of packet error codes: those in the standard's forms, of a command
    that the standard has, or else those in the forms that most have."""
    return whole(legs, standard_ways(code) if code in BY_CODE else ways_of(code, legs, mode), mode)


# A device

def by_code(legs):
    return {code: [leg for leg in legs if leg.code == code] for code in sorted({leg.code for leg in legs})}


def votes(legs, mode):
    return sum(fitting(code, of, mode) for code, of in by_code(legs).items())


def pec_mode(legs):
    """`on` where all packets that tell have an error code, `off` where none has one, and else `optional`."""
    told = votes(legs, "optional")
    return next((mode for mode in MODES if told and votes(legs, mode) == told), "optional")


def byte_of(leg):
    """The byte that a packet writes or reads, or None."""
    for way, data in (("write", leg.sent), ("read", leg.reply)):
        if any(fits(way, "one", checked, leg) for checked in (False, True)):
            return data[0]
    return None


def pages_of(legs):
    """How many pages PAGE tells of, None without one, and the greatest that no profile can have."""
    told = {byte_of(leg) for leg in legs if leg.code == PAGE} - {None, ALL_PAGES}
    within = [page for page in told if page < MOST_PAGES]
    return max(within) + 1 if within else None, sorted(told - set(within))


def modes_of(legs, pages):
    """VOUT_MODE of each page at first, or None where no packet tells it."""
    page, found = 0, {}
    for leg in legs:
        byte = byte_of(leg)
        if byte is None:
            continue
        if leg.code == PAGE:
            page = byte
        elif leg.code == VOUT_MODE:
            of_all = range(pages) if page == ALL_PAGES and leg.reply is None else ()
            for one in of_all if page == ALL_PAGES else [page]:
                found.setdefault(one, byte)
    known = [found[one] for one in range(pages) if one in found]
    return [found.get(one, known[0]) for one in range(pages)] if known else None


# The text

def number(count_, word):
    return "%d %s%s" % (count_, word, "" if count_ == 1 else "s")


def key(name, form):
    return '%s = "%s"' % (name, form or "none")


def row(code, ways):
    """The table of a command, or None where the standard's will do."""
    entry = BY_CODE.get(code)
    if entry is None:
        keys = [key(way, getattr(ways, way)) for way in ("write", "read", "call") if getattr(ways, way)]
        return "code = 0x%02x, " % code + ", ".join(keys or [key("write", "two"), key("read", "two")])
    standard = standard_ways(code)
    if ways == standard:
        return None
    keys = ['name = "%s"' % entry.name]
    keys += [key(way, getattr(ways, way)) for way in ("write", "read", "call")
             if getattr(ways, way) != getattr(standard, way)]
    return ", ".join(keys + (['kind = "raw"'] if ways.data() != standard.data() else []))


def device(address, legs):
    mode = pec_mode(legs)
    pages, beyond = pages_of(legs)
    modes = modes_of(legs, pages or 1)
    with_code, without = (sum(whole(of, ways_of(code, of, mode), one) for code, of in by_code(legs).items())
                          for one in ("on", "off"))
    lines = ["", "# %s: %d with a packet error code, %d without" % (number(len(legs), "packet"), with_code, without)]
    if legs and with_code + without == 0:
        lines.append("# If this speaks no PMBus, remove its table, and write at the top: ignore = [0x%02x]" % address)
    lines += ["# PAGE was %02x: a profile has at most 32 pages" % page for page in beyond]
    lines += ["[[device]]", "address = 0x%02x" % address, 'pec = "%s"' % mode]
    if pages is not None:
        lines.append("pages = %d" % pages)
    if modes is not None:
        told = ["0x%02x" % it for it in modes]
        lines.append("vout_mode = " + (told[0] if len(set(told)) == 1 else "[%s]" % ", ".join(told)))
    rows, seen = [], []
    for code, of in by_code(legs).items():
        ways = ways_of(code, of, mode)
        note = "# %d of %s" % (whole(of, ways, mode), number(len(of), "packet"))
        table = row(code, ways)
        if table is None:
            seen.append("# %02x %s: %s" % (code, BY_CODE[code].name, note[2:]))
        else:
            rows.append("    { %s }, %s%s" % (table, note, "" if any(ways) else ": a guess"))
    if rows:
        lines += ["command = [", *rows, "]"]
    return lines + seen


def is_fine(address):
    """Whether a device of a profile may have it."""
    return 0x08 <= address <= 0x77 and address != 0x0C


def left_out(met, listed, bad):
    """A comment for each address that acknowledged and has no table, ascending, and for a bad token."""
    lines = []
    for one in sorted(met):
        if not is_fine(one):
            lines.append("# %02x acknowledged: no device of a profile may have this address" % one)
        elif one not in listed:
            lines.append("# %02x acknowledged too: a profile has at most 64 devices" % one)
    return lines + ([] if bad is None else ["# bad token at byte %d: the capture was read up to there" % bad])


def draft(events, bad=None):
    """The profile. `bad` is the place of the first word that is no token, where there is one."""
    whole_ones, under_way = packets(events)
    legs = [leg for packet in whole_ones for leg in legs_of(packet, True)] + legs_of(under_way, False)
    met = acknowledged(events)
    listed = [one for one in met if is_fine(one)][:MOST_DEVICES]
    lines = ["# Made by pmb scan of %s. A capture shows no names, and not what the numbers of a maker's own"
             % number(len(whole_ones), "packet"), "# commands mean: add what you know.", *left_out(met, listed, bad)]
    if not listed:
        lines.append("device = []")
    for address in sorted(listed):
        lines += device(address, [leg for leg in legs if leg.address == address])
    return "".join(line + "\n" for line in lines)
