"""What `stats` writes of a capture, by docs/stats.md: a table, or an object for each device and one
for the whole, and what makes its status 1."""

from typing import NamedTuple

from . import numbers
from .objects import Objects, digits_of, escaped, read_on, rounded, string
from .packets import Alert, Call, NoAlert, Refused, Write
from .profiles import ALL_PAGES

COUNTS = ("writes", "reads", "calls", "alerts", "nacks", "refusals", "others")
PLACES = ("address", "code", "byte", "read address")
REASONS = ("ReadFirst", "BadRestart", "BadPec", "UnknownDevice", "UnknownCommand", "TooLong",
           "TooShort", "WrongEvent", "Truncated")
ORDERS = {"nacks": PLACES, "refusals": REASONS}
WORDS = ("refusals", "bad-tokens", "nacks", "alerts", "faults", "none-read")
NO_FAULTS = ("BUSY", "OFF", "POWER_GOOD_N")
# Which values have a mean together: all linear ones and IEEE halves, and what is here.
MEANS = {"direct": "direct", "udirect": "direct", "vid": "vid"}
# Where these stand behind all pages, and phases behind all phases, whose numbers are the same.
UNKNOWN_PAGE, NO_PAGES = ALL_PAGES + 1, ALL_PAGES + 2


class Bit:
    """A bit of a status register that was read set."""

    def __init__(self, name):
        self.name = name
        self.count = 0
        self.first = self.last = self.gone = None
        self.is_set = False

    def see(self, is_set, time):
        """A read of its register."""
        if is_set:
            self.first = self.first if self.count else time
            self.last, self.gone = time, None
            self.count += 1
        elif self.is_set:
            self.gone = time
        self.is_set = is_set


class Numbers:
    """The numbers of a command."""

    def __init__(self, unit):
        self.unit = unit
        self.values, self.kinds, self.assumed = [], set(), 0

    def see(self, value, kind, is_assumed):
        self.values.append(value)
        self.kinds.add(kind)
        self.assumed += is_assumed

    def mean(self):
        return sum(self.values) / len(self.values) if len(self.kinds) == 1 else None

    def told(self, digits):
        """Least, mean, greatest and last, as texts; no mean where there is none."""
        found = (min(self.values), self.mean(), max(self.values), self.values[-1])
        return [None if one is None else rounded(one, digits) for one in found]


class Page(NamedTuple):
    """What a page has: bits by code and phase, and then by their numbers; numbers by code and phase."""
    bits: dict
    numbers: dict


class Counts:
    """What is counted of a device, or of all."""

    def __init__(self):
        self.of = {key: {} if key in ORDERS else 0 for key in COUNTS}
        self.pages = {}

    def count(self, key, place=None):
        if place is None:
            self.of[key] += 1
        else:
            self.of[key][place] = self.of[key].get(place, 0) + 1

    def page(self, number):
        return self.pages.setdefault(number, Page({}, {}))


def place(has_some, selected, count):
    """Where data stand among pages or phases: one that the device lacks is not known."""
    if not has_some:
        return NO_PAGES
    is_one = selected is not None and (selected == ALL_PAGES or selected < count)
    return selected if is_one else UNKNOWN_PAGE


class Stats(Objects):
    """Counts in the place of the objects of `json`: what is known of PAGE and VOUT_MODE is the same."""

    def __init__(self, profile, choice):
        super().__init__(profile, choice)
        self.of_device = {}
        self.whole = Counts()
        self.first = self.last = None

    def note(self, members):
        """The time of an object of `json`, by its first members; the first and last are kept."""
        time = dict(members).get("time")
        if time is not None:
            self.first = time if self.first is None else self.first
            self.last = time
        return time

    def add(self, address, key, place=None):
        """One more of a sort, of a device or of none."""
        self.whole.count(key, place)
        if address is not None:
            self.counts_of(address).count(key, place)

    def counts_of(self, address):
        return self.of_device.setdefault(address, Counts())

    # packets

    def packet(self, starts, transaction, where):
        time = self.note(where(starts[0]))
        self.packets += 1
        if isinstance(transaction, (Write, Refused)):
            for part in transaction.parts:
                self.add(part.address, "writes")
                self.number(part.address, part.code, part.data)
        if isinstance(transaction, Refused):
            what = {0: "address", 1: "code"}.get(len(transaction.sent), "byte")
            place = "read address" if transaction.at_read else what
            self.add(transaction.address, "nacks", place)
        elif isinstance(transaction, Alert):
            self.add(transaction.byte // 2, "alerts")
        elif isinstance(transaction, Call):
            self.add(transaction.address, "calls")
        elif not isinstance(transaction, (Write, NoAlert)):
            self.add(transaction.address, "reads")
            self.number(transaction.address, transaction.code, transaction.reply)
            self.status(transaction.address, transaction.code, transaction.reply, time)
        self.known.observe(transaction)
        self.told.observe(transaction)

    def page_of(self, device, entry):
        """The page that a command's data belong to."""
        return place(entry.paged, self.known.pages[device.address], device.pages)

    def phase_of(self, device, entry):
        """The phase that they belong to."""
        return place(device.has_phases(entry), self.known.phases[device.address], device.phases)

    def number(self, address, code, data):
        """A number that was read or written."""
        device = self.profile.device(address)
        entry = device.entry(code)
        if not entry.is_number() or not data:
            return
        try:
            way = self.way(device, entry)
            value = numbers.decode(way.form, data[0] + 256 * data[1])
        except numbers.Fault:
            return
        if way.is_ratio:
            return
        found = self.counts_of(address).page(self.page_of(device, entry)).numbers
        several = found.setdefault((code, self.phase_of(device, entry)), Numbers(entry.unit))
        several.see(value, MEANS.get(way.form[0], "linear"), self.is_assumed(device, entry))

    def status(self, address, code, data, time):
        """A read of a status register."""
        device = self.profile.device(address)
        entry = device.entry(code)
        if entry.kind != "status":
            return
        found = self.counts_of(address).page(self.page_of(device, entry)).bits
        bits = found.setdefault((code, self.phase_of(device, entry)), {})
        for i in range(8 * len(data)):
            is_set = data[i // 8] >> i % 8 & 1 == 1
            if is_set and i not in bits:
                bits[i] = Bit(device.bit_name(code, i) or "bit%d" % i)
            if i in bits:
                bits[i].see(is_set, time)

    # what is none

    def refusal(self, refusal, place):
        self.note(place)
        self.refusals += 1
        named = [leg for leg in refusal.legs if leg]
        device = named[-1][0] // 2 if named and named[-1][0] != 0x19 else None
        self.add(device, "refusals", refusal.reason)

    def other(self, place, address):
        self.note(place)
        self.add(address, "others")

    def bad_token(self, place, word):
        self.note(place)
        self.bad_tokens += 1

    # what came of it

    def picked(self):
        """The devices that were counted and are asked for, by their addresses."""
        return [(address, self.of_device[address]) for address in sorted(self.of_device)
                if not self.choice.devices or address in self.choice.devices]

    def has_fault(self):
        """Whether a bit was read set that tells of a fault."""
        names = [bit.name for counts in self.of_device.values() for page in counts.pages.values()
                 for bits in page.bits.values() for bit in bits.values()]
        return any(name not in NO_FAULTS and not name.endswith(("_WARN", "_OVERRIDE"))
                   for name in names)

    def fails(self, fail_on):
        """Whether the status is 1, by the words of --fail-on, or None without it."""
        words = ("refusals", "bad-tokens") if fail_on is None else fail_on
        holds = {
            "refusals": self.refusals > 0, "bad-tokens": self.bad_tokens > 0,
            "nacks": bool(self.whole.of["nacks"]), "alerts": self.whole.of["alerts"] > 0,
            "faults": self.has_fault(), "none-read": self.packets == 0,
        }
        return any(holds[word] for word in words)


def stats(profile, given, choice, is_json, fail_on):
    """The text, and whether the status is 1."""
    found = Stats(profile, choice)
    first, begin = 0, 0
    while begin is not None:
        first, begin = read_on(found, profile, given, choice, first, begin)
    return objects(found) if is_json else table(found), found.fails(fail_on)


# As objects

def item(members):
    """An object. What is None is left out."""
    return "{%s}" % ",".join('"%s":%s' % member for member in members if member[1] is not None)


def listed(items):
    """A list, or None where it is empty."""
    return "[%s]" % ",".join(items) if items else None


def positive(count):
    return str(count) if count else None


def counted(counts):
    """The counts by their keys, what is 0 left out."""
    members = []
    for key in COUNTS:
        found = counts.of[key]
        if key in ORDERS:
            inner = [(place, str(found[place])) for place in ORDERS[key] if place in found]
            members.append((key, item(inner) if inner else None))
        else:
            members.append((key, positive(found)))
    return members


def objects(found):
    lines = [device_object(found, address, counts) for address, counts in found.picked()]
    members = [("kind", string("end")), ("packets", str(found.packets))] + counted(found.whole)
    members += [("bad_tokens", positive(found.bad_tokens)), ("first", found.first),
                ("last", found.last)]
    return "".join(line + "\n" for line in lines + [item(members)])


def device_object(found, address, counts):
    pages = [page_object(found, address, number, counts.pages[number])
             for number in sorted(counts.pages)]
    return item([("kind", string("device"))] + found.named(address) + counted(counts)
                + [("pages", listed([page for page in pages if page is not None]))])


def page_object(found, address, number, page):
    """What a page has, or None where that is nothing."""
    bits = [bit_object(found, address, *one) for one in bits_of(page)]
    several = [numbers_object(found, address, *one) for one in sorted(page.numbers.items())]
    if not bits and not several:
        return None
    return item([("page", place_text(number)), ("bits", listed(bits)), ("numbers", listed(several))])


def place_text(number):
    """A page or a phase, or None where a command has none."""
    return {ALL_PAGES: string("all"), UNKNOWN_PAGE: "null", NO_PAGES: None}.get(number, str(number))


def bits_of(page):
    """The bits that were read set, with their codes and phases: by these, the highest first."""
    return [(place, page.bits[place][i]) for place in sorted(page.bits)
            for i in sorted(page.bits[place], reverse=True)]


def command_of(found, address, code, phase):
    name = found.profile.device(address).entry(code).name
    return [("code", digits_of([code])), ("command", string(name)), ("phase", place_text(phase))]


def bit_object(found, address, place, bit):
    return item(command_of(found, address, *place)
                + [("bit", string(bit.name)), ("count", str(bit.count)), ("first", bit.first),
                   ("last", bit.last), ("gone", bit.gone)])


def numbers_object(found, address, place, several):
    keys = ("least", "mean", "greatest", "last")
    return item(command_of(found, address, *place)
                + [("count", str(len(several.values))), ("assumed", positive(several.assumed))]
                + list(zip(keys, several.told(found.choice.digits)))
                + [("unit", several.unit and escaped(several.unit.encode()))])


# As a table

BIT_WIDTH, COUNT_WIDTH, ASSUMED_WIDTH, NUMBER_WIDTH, TIME_WIDTH = 17, 8, 7, 10, 10


def plain(time):
    """A time without its quotes."""
    return "" if time is None else time[1:-1]


def line(cells):
    """Cells, each at the left (a negative width) or the right of so many columns, two blanks between."""
    texts = [text.ljust(-width) if width < 0 else text.rjust(width) for text, width in cells]
    return ("  " + "  ".join(texts)).rstrip(" ") + "\n"


def table(found):
    widths = [len(entry.name) for device in found.profile.devices for entry in device.entries.values()]
    command = -max(widths + [len("command")])
    time = max(TIME_WIDTH, len(plain(found.last)))
    text = "".join(device_table(found, address, counts, command, time)
                   for address, counts in found.picked())
    words = ["packets %d" % found.packets] + count_words(found.whole)
    words += ["bad tokens %d" % found.bad_tokens] if found.bad_tokens else []
    words += ["first %s  last %s" % (plain(found.first), plain(found.last))] if found.first else []
    return text + "  ".join(["total"] + words) + "\n"


def count_words(counts):
    words = []
    for key in COUNTS:
        found = counts.of[key]
        if key in ORDERS and found:
            inner = ", ".join("%s %d" % (place, found[place])
                              for place in ORDERS[key] if place in found)
            words.append("%s %d (%s)" % (key, sum(found.values()), inner))
        elif found:
            words.append("%s %d" % (key, found))
    return words


def device_table(found, address, counts, command, time):
    """A device's head, its bits and its numbers, and an empty line."""
    device = found.profile.device(address)
    head = "%02x" % address + ("  " + device.name if device and device.name else "")
    entry_name = lambda code: device.entry(code).name
    pages = [(place_sign(number), counts.pages[number]) for number in sorted(counts.pages)]
    text = head + "\n" + "  " + "  ".join(count_words(counts)) + "\n"
    rows = [[sign, place_sign(phase), entry_name(code), bit.name, str(bit.count),
             *map(plain, (bit.first, bit.last, bit.gone))]
            for sign, page in pages for (code, phase), bit in bits_of(page)]
    text += under(found, ["page", "phase", "command", "bit", "count", "first", "last", "gone"],
                  [4, 5, command, -BIT_WIDTH, COUNT_WIDTH, time, time, time], rows)
    rows = [[sign, place_sign(phase), entry_name(code), str(len(several.values)),
             positive(several.assumed) or "",
             *[one or "" for one in several.told(found.choice.digits)], several.unit or ""]
            for sign, page in pages for (code, phase), several in sorted(page.numbers.items())]
    text += under(found, ["page", "phase", "command", "count", "assumed", "least", "mean", "greatest",
                          "last", "unit"],
                  [4, 5, command, COUNT_WIDTH, ASSUMED_WIDTH, *[NUMBER_WIDTH] * 4, -4], rows)
    return text + "\n"


def place_sign(number):
    """A page or a phase."""
    return {ALL_PAGES: "*", UNKNOWN_PAGE: "?", NO_PAGES: ""}.get(number, str(number))


def under(found, heading, widths, rows):
    """Rows under their heading, or nothing where there is none. The second column, of phases, is there
    only where a device has some."""
    has_phases = any(device.phases is not None for device in found.profile.devices)
    columns = [i for i in range(len(heading)) if i != 1 or has_phases]
    return "".join(line([(row[i], widths[i]) for i in columns])
                   for row in [heading] + rows) if rows else ""
