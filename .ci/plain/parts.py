"""Simulated parts on a drawn bus with damage, and what holds in them before each packet. What is done
here goes by what happens on a bus, and not by what `pmb` makes of its capture: a leg that stands in an
error, in a packet to a chip that speaks no PMBus, or behind one of these up to STOP, is done or not, as
is drawn. Two of the parts take what is written at a global address, too; a packet that reaches a part
twice acts in either order."""

from typing import NamedTuple

PROFILE = b"""ignore = [0x50]
[[device]]
address = 0x58
pec = "optional"
pages = 2
also = [0x5b]
[[device]]
address = 0x59
pec = "off"
[[device]]
address = 0x60
pec = "off"
phases = 3
pages = 3
also = [0x5b]
[[device]]
address = 0x5b
pec = "off"
pages = 3
%%
"""
PAGES = {0x58: 2, 0x59: 1, 0x60: 3}
GLOBAL = 0x5B
LISTENERS = (0x58, 0x60)
MODES = (0x14, 0x17)
ALL_PAGES = 0xFF
RESTORES = (0x12, 0x16)
# Fronts of packets in which an error comes, with it. Most write to no device of the profile.
ERRORS = (
    "S 40 A 03 A", "S 42 A", "S b1 A 12 N", "S b5 A 12 A", "S a0 A 00 A", "S a0 A 00 A 10 A", "S a1 A 4d N",
    "S b2 A 88 A S b3 A 00 A d3 A 55 N", "S b2 A 88 A S b3 A 00 N", "S b0 A 79 A S b1 A 00 A 08 A 00 N",
    "S", "S S", "S 19 A b0 A", "S c0 A 88 A S 41 A", "S a0 A 00 A S a1 A 4d A 4e N",
)


class Reading(NamedTuple):
    """A read of a register, at a line: the truth of its device."""
    line: int
    device: int
    page: int
    mode: object  # None where the selected pages have several
    phase: object


class Part:
    """A device."""

    def __init__(self, chance, address):
        pages = PAGES[address]
        self.address, self.page = address, chance.choice([*range(pages), ALL_PAGES])
        self.modes = [chance.choice(MODES) for _ in range(pages)]
        self.phase = chance.randrange(3)

    def mode(self):
        found = set(self.modes if self.page == ALL_PAGES else [self.modes[self.page]])
        return found.pop() if len(found) == 1 else None

    def do(self, chance, code, data):
        if code == 0x00 and (data[0] in range(PAGES[self.address]) or data[0] == ALL_PAGES):
            self.page = data[0]
        if code == 0x04:
            self.phase = data[0]
        if code == 0x20:
            self.modes = [data[0] if self.page in (page, ALL_PAGES) else mode
                          for page, mode in enumerate(self.modes)]
        if code == 0x05 and data[1] in range(PAGES[self.address]):
            self.modes[data[1]] = data[3]
        if code in RESTORES:
            self.modes = [chance.choice(MODES) for _ in self.modes]


class Everyone:
    """The global address: what is written there each of its parts does."""

    address = GLOBAL

    def __init__(self, parts):
        self.parts = [part for part in parts if part.address in LISTENERS]

    def do(self, chance, code, data):
        for part in self.parts:
            part.do(chance, code, data)


def leg(chance, part):
    """Something that is written: the command, and its data."""
    pages = [*range(PAGES.get(part.address, 3)), ALL_PAGES]
    found = [(0x00, [chance.choice(pages)]), (0x20, [chance.choice(MODES)]), (0x20, [chance.choice(MODES)]),
             (chance.choice(RESTORES), []), (0x03, []),
             (0x05, [3, chance.choice(pages[:-1]), 0x20, chance.choice(MODES)])]
    if part.address in (0x60, GLOBAL):
        found.append((0x04, [chance.randrange(3)]))
    return chance.choice(found)


def words_of(part, code, data):
    return "S " + " A ".join("%02x" % byte for byte in (2 * part.address, code, *data)) + " A"


def drawn(chance, count):
    """The lines of a capture, and the reads in it that tell a voltage or a phase's current."""
    parts = [Part(chance, address) for address in PAGES]
    written = [*parts, Everyone(parts)]
    lines, readings = [], []
    for number in range(1, count + 1):
        part = chance.choice(parts)
        what = chance.random()
        if what < 0.45:
            code = 0x8C if part.address == 0x60 and chance.random() < 0.3 else 0x8B
            at = 2 * part.address
            lines.append("S %02x A %02x A S %02x A 00 A 18 N P" % (at, code, at + 1))
            readings.append(Reading(number, part.address, part.page, part.mode(), part.phase))
        elif what < 0.6:
            told = {0x00: part.page, 0x20: part.mode()}
            if part.address == 0x60:
                told[0x04] = part.phase
            code = chance.choice(sorted(told))
            if told[code] is None:
                lines.append("# nothing")
                continue
            at = 2 * part.address
            lines.append("S %02x A %02x A S %02x A %02x N P" % (at, code, at + 1, told[code]))
        elif what < 0.8:
            group = chance.sample(written, chance.choice((1, 1, 1, 2)))
            said = [(it, leg(chance, it)) for it in group]
            text = " ".join(words_of(it, *told) for it, told in said)
            if chance.random() < 0.15:
                # (one that is refused writes nothing)
                other = chance.choice([it for it in written if it not in group])
                text += " S %02x N" % (2 * other.address)
            lines.append(text + " P")
            for it, told in chance.sample(said, len(said)):
                it.do(chance, *told)
        else:
            lines.append(damage(chance, written))
    return "\n".join(lines) + "\n", readings


def damage(chance, written):
    """A line with an error, or with a word that is none."""
    said = [(it, leg(chance, it)) for it in chance.choices(written, k=chance.choice((0, 0, 1, 2)))]
    begin = chance.choice((*ERRORS, *ERRORS, "x", None))
    text = " ".join(words_of(it, *told) for it, told in said)
    if begin is None:
        # a packet whose STOP comes once more, or without its last ACK
        it = chance.choice(written)
        told = leg(chance, it)
        said.insert(0, (it, told))
        begin = words_of(it, *told) + chance.choice((" A", " N A", " 00 00", " S A"))
    for it, told in said:
        for part in it.parts if isinstance(it, Everyone) else (it,):
            if chance.random() < 0.5:
                part.do(chance, *told)
    return "%s %s P" % (begin, text)
