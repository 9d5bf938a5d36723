"""Sums of `pmb stats --json` of several captures or pieces, as docs/stats.md has them, and the
table or the objects of a sum.

Each piece is asked for numbers with twelve digits after the point, and what is written has at most
as many as were asked for. A mean is that of the pieces weighted by their counts. `_total` finds the
exact sum behind a mean where it can. """

import json
import re
from decimal import Decimal
from fractions import Fraction
from typing import Any, Dict, Iterator, List, NamedTuple, Optional, Tuple, Union

# How many digits after the point the numbers of the pieces have.
DIGITS = 12

_MOST = (1 << 64) - 1
_COUNTS = ("writes", "reads", "calls", "alerts", "nacks", "refusals", "others", "bad_tokens")
# The places of a NACK and the reasons of refusals, in their order.
_INNER = {
    "nacks": ("address", "code", "byte", "read address"),
    "refusals": (
        "ReadFirst",
        "BadRestart",
        "BadPec",
        "UnknownDevice",
        "UnknownCommand",
        "TooLong",
        "TooShort",
        "WrongEvent",
        "Truncated",
    ),
}
# The words of --fail-on that the sums can say, in the order of `Sums.fails`.
FAILS = ("refusals", "bad-tokens", "none-read")
# What sums of values are multiples of, coarse steps first: VID, DIRECT with few digits, LINEAR11
# and LINEAR16, DIRECT with more of them, half precision.
_STEPS = (800, 10**3, 1 << 16, 10**6, 1 << 24)

# A page or a phase: a number, "all", `None` where it isn't known, or _NONE where a command has
# none.
_Place = Union[int, str, None]
_NONE = "none"
_Counts = Dict[str, Any]
Members = List[Tuple[str, Optional[str]]]


class Register(NamedTuple):
    """A command of a device, on a page and for a phase."""

    device: str
    page: _Place
    code: str
    phase: _Place


class Bit:
    """A bit that was read set, and in which of the pieces it was last."""

    def __init__(self, it: Dict[str, Any], piece: int) -> None:
        self.command: str = it["command"]
        self.name: str = it["bit"]
        self.count: int = it["count"]
        self.first: Optional[str] = it.get("first")
        self.last: Optional[str] = it.get("last")
        self.gone: Optional[str] = it.get("gone")
        self.piece = piece

    def add(self, later: "Bit") -> None:
        self.count = min(self.count + later.count, _MOST)
        self.last, self.gone, self.piece = later.last, later.gone, later.piece


class Numbers:
    """The numbers of a command. There is no `total` where a piece has no mean."""

    def __init__(self, it: Dict[str, Any]) -> None:
        self.command: str = it["command"]
        self.count: int = it["count"]
        self.assumed: int = it.get("assumed", 0)
        self.least, self.greatest, self.last = (
            Fraction(it[key]) for key in ("least", "greatest", "last")
        )
        self.total = _total(it["mean"], self.count) if "mean" in it else None
        self.unit: Optional[str] = it.get("unit")

    def add(self, later: "Numbers") -> None:
        self.count += later.count
        self.assumed += later.assumed
        self.least = min(self.least, later.least)
        self.greatest = max(self.greatest, later.greatest)
        self.last = later.last
        both = self.total is not None and later.total is not None
        self.total = self.total + later.total if both else None  # type: ignore[operator]

    def mean(self) -> Optional[Fraction]:
        return None if self.total is None else self.total / self.count


class Sums:
    """What pieces come to, one after the other."""

    def __init__(self) -> None:
        self.whole: _Counts = {}
        self.devices: Dict[str, _Counts] = {}
        self.names: Dict[str, str] = {}
        self.first: Optional[str] = None
        self.last: Optional[str] = None
        # (of a register the bits by their names)
        self.bits: Dict[Register, Dict[str, Bit]] = {}
        self.numbers: Dict[Register, Numbers] = {}

    def packets(self) -> int:
        packets: int = self.whole.get("packets", 0)
        return packets

    def fails(self, words: List[str]) -> bool:
        """Whether one of these words of --fail-on holds, of those in `FAILS`."""
        whole = self.whole
        holds = bool(whole.get("refusals")), bool(whole.get("bad_tokens")), self.packets() == 0
        return any(word in words for word, does in zip(FAILS, holds) if does)

    @classmethod
    def of(cls, text: str, piece: int = 0) -> "Sums":
        """What `pmb stats --json --digits 12` wrote of a piece."""
        found = cls()
        for line in text.splitlines():
            it = json.loads(line, parse_float=Decimal)
            if it["kind"] == "end":
                found.whole = _counts_of(it)
                found.first, found.last = it.get("first"), it.get("last")
            else:
                found._put_device(it, piece)
        return found

    def _put_device(self, it: Dict[str, Any], piece: int) -> None:
        device = it["device"]
        self.devices[device] = _counts_of(it)
        if "name" in it:
            self.names[device] = it["name"]
        for page in it.get("pages", []):
            number = page.get("page", _NONE)
            for found in page.get("bits", []):
                register = Register(device, number, found["code"], found.get("phase", _NONE))
                self.bits.setdefault(register, {})[found["bit"]] = Bit(found, piece)
            for found in page.get("numbers", []):
                register = Register(device, number, found["code"], found.get("phase", _NONE))
                self.numbers[register] = Numbers(found)

    def add(self, later: "Sums") -> None:
        """Adds the sums of what comes later."""
        _add_counts(self.whole, later.whole)
        self.names.update(later.names)
        for device, counts in later.devices.items():
            _add_counts(self.devices.setdefault(device, {}), counts)
        self.first = later.first if self.first is None else self.first
        self.last = self.last if later.last is None else later.last
        for register, bits in later.bits.items():
            own = self.bits.setdefault(register, {})
            for name, bit in bits.items():
                if name in own:
                    own[name].add(bit)
                else:
                    own[name] = bit
        for register, numbers in later.numbers.items():
            if register in self.numbers:
                self.numbers[register].add(numbers)
            else:
                self.numbers[register] = numbers

    def take_off(self, front: "Sums") -> None:
        """Takes off the counts of what was read before a piece."""
        _take_off(self.whole, front.whole)
        for device, counts in front.devices.items():
            _take_off(self.devices.get(device, {}), counts)


def _counts_of(it: Dict[str, Any]) -> _Counts:
    return {key: it[key] for key in ("packets", *_COUNTS) if key in it}


def _add_counts(counts: _Counts, later: _Counts) -> None:
    for key, count in later.items():
        if isinstance(count, dict):
            _add_counts(counts.setdefault(key, {}), count)
        else:
            counts[key] = min(counts.get(key, 0) + count, _MOST)


def _take_off(counts: _Counts, front: _Counts) -> None:
    for key, count in front.items():
        if isinstance(count, dict):
            _take_off(counts[key], count)
        else:
            counts[key] -= count
        # (such a count is left out where it is 0)
        if key != "packets" and not counts[key]:
            del counts[key]


def _total(mean: Union[int, Decimal], count: int) -> Fraction:
    """The sum of so many values with a mean that was rounded to twelve digits: where only one
    multiple of a step is near enough, it is that one."""
    about = Fraction(mean) * count
    most = Fraction(count, 2 * 10**DIGITS)
    for step in _STEPS:
        near = Fraction(round(about * step), step)
        if 2 * most * step < 1 and abs(near - about) <= most:
            return near
    return about


# ---- order


def _place_order(place: _Place) -> Tuple[int, int]:
    if isinstance(place, int):
        return 0, place
    return {"all": 1, None: 2, _NONE: 3}[place], 0


def _order(register: Register) -> Tuple[Any, ...]:
    return _place_order(register.page), register.code, _place_order(register.phase)


class Layout(NamedTuple):
    """What a profile says: the width of its commands' names, of each device how many pages and
    phases it has, and of each status register the names of its bits, from the highest down, by
    device and code."""

    command: int
    sizes: Dict[str, Tuple[int, Optional[int]]]
    bits: Dict[Tuple[str, str], List[str]]

    def has_phases(self) -> bool:
        return any(phases is not None for _, phases in self.sizes.values())


def layout_of(profile: str) -> Layout:
    """The layout by what `pmb profile` writes, without bits."""
    names = re.findall(r"(?m)^[0-9a-f]{2}   (\S+) ", profile)
    sizes: Dict[str, Tuple[int, Optional[int]]] = {}
    device = ""
    for key, text in re.findall(r"(?m)^(address|pages|phases) +([0-9a-f]+)", profile):
        if key == "address":
            device = text
        elif key == "pages":
            sizes[device] = int(text), None
        else:
            sizes[device] = sizes[device][0], int(text)
    return Layout(max([7] + [len(name) for name in names]), sizes, {})


def _bits_of(sums: Sums, register: Register, layout: Layout) -> List[Bit]:
    """The bits of a register, from the highest down."""
    order = layout.bits.get((register.device, register.code), [])
    found = sums.bits[register]
    return sorted(
        found.values(), key=lambda bit: order.index(bit.name) if bit.name in order else len(order)
    )


def _registers_of(some: Any, device: str) -> List[Register]:
    return sorted((it for it in some if it.device == device), key=_order)


# ---- text


def rounded(number: Fraction, digits: int) -> str:
    """The nearest decimal with so many digits, ties to even, without zeros at its end."""
    units = round(number * 10**digits)
    text = "{:0{}d}".format(abs(units), digits + 1)
    whole, part = (text[:-digits], text[-digits:].rstrip("0")) if digits else (text, "")
    return ("-" if units < 0 else "") + whole + ("." + part if part else "")


def string(text: str) -> str:
    """A string of JSON, as the program writes it."""
    return '"{}"'.format(text.replace("\\", "\\u005c").replace('"', "\\u0022"))


def object_of(members: Members) -> str:
    """An object of JSON. What is None is left out."""
    inner = ",".join('"{}":{}'.format(key, text) for key, text in members if text is not None)
    return "{" + inner + "}"


def _list(items: List[str]) -> Optional[str]:
    return "[" + ",".join(items) + "]" if items else None


def _maybe(text: Optional[str]) -> Optional[str]:
    return None if text is None else string(text)


def _place_text(place: _Place) -> Optional[str]:
    if place is None:
        return "null"
    if isinstance(place, int):
        return str(place)
    return None if place == _NONE else string(place)


def _each_count(counts: _Counts) -> Iterator[Tuple[str, Any]]:
    """The counts that are not 0, those of an inner object in their order."""
    for key in _COUNTS:
        count = counts.get(key)
        if isinstance(count, dict):
            yield key, [(inner, count[inner]) for inner in _INNER[key] if inner in count]
        elif count:
            yield key, count


def objects(sums: Sums, layout: Layout, digits: int) -> str:
    """The sums as `pmb stats --json` writes them."""
    lines = []
    for device in sorted(sums.devices):
        members: Members = [("kind", string("device")), ("device", string(device))]
        members += [("name", _maybe(sums.names.get(device)))]
        members += _count_members(sums.devices[device])
        lines.append(object_of(members + [("pages", _pages(sums, device, layout, digits))]))
    members = [("kind", string("end")), ("packets", str(sums.packets()))]
    members += _count_members(sums.whole)
    members += [("first", _maybe(sums.first)), ("last", _maybe(sums.last))]
    return "".join(line + "\n" for line in [*lines, object_of(members)])


def _count_members(counts: _Counts) -> Members:
    found: Members = []
    for key, count in _each_count(counts):
        if isinstance(count, list):
            found.append((key, object_of([(inner, str(each)) for inner, each in count])))
        else:
            found.append((key, str(count)))
    return found


def _pages(sums: Sums, device: str, layout: Layout, digits: int) -> Optional[str]:
    bits, numbers = _registers_of(sums.bits, device), _registers_of(sums.numbers, device)
    pages = sorted({it.page for it in bits + numbers}, key=_place_order)
    return _list(
        [
            object_of(
                [
                    ("page", _place_text(page)),
                    (
                        "bits",
                        _list(
                            [
                                _bit_object(it, bit)
                                for it in bits
                                if it.page == page
                                for bit in _bits_of(sums, it, layout)
                            ]
                        ),
                    ),
                    (
                        "numbers",
                        _list(
                            [
                                _numbers_object(it, sums.numbers[it], digits)
                                for it in numbers
                                if it.page == page
                            ]
                        ),
                    ),
                ]
            )
            for page in pages
        ]
    )


def _command_members(register: Register, command: str) -> Members:
    phase = _place_text(register.phase)
    return [("code", string(register.code)), ("command", string(command)), ("phase", phase)]


def _bit_object(register: Register, bit: Bit) -> str:
    members = _command_members(register, bit.command)
    members += [("bit", string(bit.name)), ("count", str(bit.count)), ("first", _maybe(bit.first))]
    return object_of(members + [("last", _maybe(bit.last)), ("gone", _maybe(bit.gone))])


def _numbers_object(register: Register, numbers: Numbers, digits: int) -> str:
    members = _command_members(register, numbers.command) + [("count", str(numbers.count))]
    members += [("assumed", str(numbers.assumed) if numbers.assumed else None)]
    members += list(zip(("least", "mean", "greatest", "last"), _values(numbers, digits)))
    return object_of(members + [("unit", _maybe(numbers.unit))])


def _values(numbers: Numbers, digits: int) -> List[Optional[str]]:
    four = (numbers.least, numbers.mean(), numbers.greatest, numbers.last)
    return [None if it is None else rounded(it, digits) for it in four]


def table(sums: Sums, layout: Layout, digits: int) -> str:
    """The sums as `pmb stats` writes them."""
    text = "".join(_paragraph(sums, device, layout, digits) for device in sorted(sums.devices))
    words = ["total", "packets {}".format(sums.packets()), *_count_words(sums.whole)]
    words += [
        "{} {}".format(key, time)
        for key, time in (("first", sums.first), ("last", sums.last))
        if time is not None
    ]
    return text + "  ".join(words) + "\n"


def _count_words(counts: _Counts) -> List[str]:
    found = []
    for key, count in _each_count(counts):
        word = key.replace("_", " ")
        if isinstance(count, list):
            inner = ", ".join("{} {}".format(*each) for each in count)
            found.append("{} {} ({})".format(word, sum(each for _, each in count), inner))
        else:
            found.append("{} {}".format(word, count))
    return found


def _paragraph(sums: Sums, device: str, layout: Layout, digits: int) -> str:
    name = sums.names.get(device)
    text = device + ("  " + name if name else "") + "\n"
    text += "  " + "  ".join(_count_words(sums.devices[device])) + "\n"
    time = max(10, len(sums.last or ""))
    rows = [
        [_sign(it.page), _sign(it.phase), bit.command, bit.name, str(bit.count)]
        + [bit.first or "", bit.last or "", bit.gone or ""]
        for it in _registers_of(sums.bits, device)
        for bit in _bits_of(sums, it, layout)
    ]
    heading = "page phase command bit count first last gone".split()
    text += _under(heading, [4, 5, -layout.command, -17, 8, time, time, time], rows, layout)
    rows = []
    for it in _registers_of(sums.numbers, device):
        found = sums.numbers[it]
        values = [value or "" for value in _values(found, digits)]
        counts = [str(found.count), str(found.assumed) if found.assumed else ""]
        places = [_sign(it.page), _sign(it.phase), found.command]
        rows.append(places + counts + values + [found.unit or ""])
    heading = "page phase command count assumed least mean greatest last unit".split()
    return text + _under(heading, [4, 5, -layout.command, 8, 7, *[10] * 4, -4], rows, layout) + "\n"


def _sign(place: _Place) -> str:
    if place is None:
        return "?"
    return {"all": "*", _NONE: ""}.get(place, "") if isinstance(place, str) else str(place)


def _under(heading: List[str], widths: List[int], rows: List[List[str]], layout: Layout) -> str:
    """Rows under their heading, or nothing where there is none. A negative width is that of a
    column at the left."""
    text = ""
    for row in [heading, *rows] if rows else []:
        cells = [
            cell.ljust(-width) if width < 0 else cell.rjust(width)
            for number, (cell, width) in enumerate(zip(row, widths))
            if number != 1 or layout.has_phases()
        ]
        text += ("  " + "  ".join(cells)).rstrip(" ") + "\n"
    return text
