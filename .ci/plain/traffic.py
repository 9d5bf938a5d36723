"""Captures that are drawn for `json`: packets with comments between and inside, packets that tell
VOUT_MODE or PHASE or leave it untold, data with fields, texts and bits, and packets to addresses that
speak no PMBus."""

from . import meaning, packets, profiles
from .packets import Call, Part, Read, Write

PAGE, PHASE, PAGE_PLUS_WRITE, VOUT_MODE = 0x00, 0x04, 0x05, 0x20
RESTORES = (0x12, 0x14, 0x16, 0x18)
VOLTAGES = (0x21, 0x22, 0x24, 0x25, 0x40, 0x42, 0x5F, 0x8B, 0x8B)
# VID of three types, DIRECT and half precision, and the same with limits that are factors.
MODES = (0x20, 0x21, 0x22, 0x60, 0x7F, 0x97, 0x97, 0x8F, 0xA0, 0xA1, 0xC0, 0xE0, 0xE0)
TOLD = (PAGE, PHASE, VOUT_MODE, VOUT_MODE, PAGE_PLUS_WRITE, *RESTORES, *VOLTAGES, *VOLTAGES)
# Whose data have fields, and texts.
FIELDS = tuple(profiles.standard(name).code for name in
               dict.fromkeys(name for name, _, _ in meaning.examples()))
STATUS = (0x78, 0x79, 0x7A, 0x7B, 0x7E, 0x80)
# Time lines, and what is nearly one; %d is a number that is drawn.
COMMENTS = [
    "# %d s", "# %d.5 s", "# %d. s", "# .%d s", "# 2026-01-25T%02d", "# 2026-01-25T15:%02d:08.5Z",
    "# %d", "# %d s ", "#  %d s", " # %d s", "#%d s", "# %d  s", "# %d.0.1 s", "# %de1 s", "# . s",
    "# 2026-01-25 %02d", "# 2026-1-25T%02d:00", "# " + "0" * 38 + "%02d s", "# " + "0" * 39 + "%02d s",
    "# done", "",
]


def comment(chance):
    """A line without words: most often a time line."""
    line = COMMENTS[0] if chance.random() < 0.5 else chance.choice(COMMENTS)
    line = line % chance.randrange(100) if "%" in line else line
    return line + chance.choice(("\n", "\n", "\n", "\r\n", "\r\r\n"))


def data(chance, device, entry):
    """What is told to a register, or by one."""
    if entry.code == PAGE:
        return (chance.choice((0, 0, 1, device.pages - 1, device.pages, 0xFF)),)
    if entry.code == PHASE and (entry.write or entry.read) == "one":
        count = device.phases or 1
        return (chance.choice((0, 0, 1, count - 1, count, 0xFE, 0xFF)),)
    if entry.code == VOUT_MODE:
        return (chance.choice((*device.modes, 0x13, 0x14, 0x17, 0x40, 0x97, *MODES)),)
    if entry.code == PAGE_PLUS_WRITE:
        told = (0, chance.choice((0x20, 0x20, 0x21)), 0x13, 0x20)
        return told[: chance.randrange(5)]
    form = entry.read if entry.write in (None, "zero") else entry.write
    size = packets.SIZES.get(form, chance.choice((0, 1, 2, 3, 6)))
    some = [chance.randrange(256) for _ in range(size)]
    if entry.has_text(form) and chance.random() < 0.7:
        some = [chance.choice((0x20, 0x22, 0x5C, 0x7E, chance.randrange(0x20, 0x7F)))
                for _ in range(size)]
    elif entry.code == 0x1B and size == 2:
        some[0] = chance.choice(STATUS)
    elif size == 2 and entry.is_number():
        # Often a VID code, or an IEEE half that is no number.
        some[1] = chance.choice((some[1], some[1], 0, 0, 0x7C, 0xFF))
        some[0] = chance.choice((some[0], some[0], some[0], 0))
    return tuple(some)


def told(chance, profile):
    """A packet of a device that says something of PAGE and VOUT_MODE, or none."""
    return packet(chance, profile, chance.choice(profile.devices), chance.choice(TOLD))


def voltages(chance, profile):
    """A text of packets of one device: PAGE, VOUT_MODE and voltages."""
    device = chance.choice(profile.devices)
    codes = [chance.choice((PAGE, VOUT_MODE, VOUT_MODE, *VOLTAGES)) for _ in range(12)]
    return "".join(packets.events_text(packet(chance, profile, device, code)) for code in codes)


def fields(chance, profile):
    """A text of packets of one device: PHASE, and data with fields, bits and texts."""
    device = chance.choice(profile.devices)
    if chance.random() < 0.5:
        device = chance.choice([one for one in profile.devices if one.phases] or profile.devices)
    own = [entry.code for entry in device.entries.values() if entry.phased or entry.code >= 0xD0]
    own += [entry.code for entry in device.entries.values() if entry.kind in ("status", "text")]
    phased = [entry.code for entry in device.entries.values() if device.has_phases(entry)]
    sorts = [FIELDS, profiles.TEXTS, own or FIELDS, *([phased, phased, [PHASE]] if phased else [])]
    codes = [chance.choice(chance.choice(sorts)) for _ in range(16)]
    return "".join(packets.events_text(packet(chance, profile, device, code)) for code in codes)


def call(chance, device, entry, pec):
    """A call, most often of bytes that have fields."""
    of_fields = {0x06: (2, 3), 0x1A: (1, 1), 0x1B: (1, 1), 0x30: (2, 5)}
    sizes = of_fields.get(entry.code, (2, 2)) if entry.call == "block" else (2, 2)
    sent, reply = ([chance.randrange(256) for _ in range(size)] for size in sizes)
    if entry.code == 0x1B:
        sent[0] = chance.choice(STATUS)
    if entry.code == 0x30:
        sent[1] = chance.choice((0, 1, 2))
    if entry.call == "block" and chance.random() < 0.1:
        reply = reply[1:]
    return Call(device.address, entry.code, tuple(sent), tuple(reply), pec)


def packet(chance, profile, device, code):
    """A packet that tells what a register holds, or none where a device has no such command."""
    entry = device.entry(code)
    if entry is None:
        return []
    pec = device.pec == "on" or (device.pec == "optional" and chance.random() < 0.3)
    some = data(chance, device, entry)
    drawn = Write((Part(device.address, entry.code, () if entry.write == "zero" else some, pec),))
    if entry.read and (entry.write is None or chance.random() < 0.4):
        drawn = Read(device.address, entry.code, some, pec)
    if entry.call and (not entry.write or chance.random() < 0.5):
        drawn = call(chance, device, entry, pec)
    return [] if packets.check(profile, drawn) else packets.events_of(profile, drawn)


def other(chance, profile):
    """A packet to an address that is ignored, or to any, of any events."""
    address = chance.choice(profile.ignored or [chance.randrange(128)])
    sent = [2 * address + chance.randrange(2), *(chance.randrange(256) for _ in range(3))]
    events = packets.refused_leg(sent[: chance.randrange(1, 5)])
    if chance.random() < 0.3:
        events[-1:] = packets.events_of(profile, packets.NoAlert())
    if chance.random() < 0.3:
        events[-2] = chance.choice("AS")
    return events


def spelled(chance, events):
    """The text of a packet: most often a line, seldom with a comment or a bad word in it."""
    words = packets.events_text(events).split()
    if words and chance.random() < 0.1:
        at = chance.randrange(len(words) + 1)
        words[at:at] = [chance.choice(("x", "0", "\n" + comment(chance)))]
    return " ".join(words) + chance.choice(("\n", "\n", "\n", " ", " # 7 s\n", "\r\n"))


def capture(chance, profile, draw):
    """A text of packets, some of which `draw` gives."""
    text = ""
    for _ in range(chance.randrange(2, 12)):
        for _ in range(chance.choice((0, 1, 1, 2))):
            text += comment(chance)
        kind = chance.random()
        if kind < 0.25:
            text += spelled(chance, other(chance, profile))
        elif kind < 0.7:
            text += spelled(chance, told(chance, profile))
        else:
            text += spelled(chance, draw())
    return text
