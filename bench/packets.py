"""The packets whose cost is counted: one of each kind under the sample profile, and the spellings of
canonical ones. A packet here is a text that begins with START and ends with `P` and LF."""

from mix import leg, pec


def with_code(*data):
    return [*data, pec(data)]


def read(first, reply, coded=False):
    """A read: the written leg, and the reply after the address for reading."""
    second = [first[0] | 1, *reply]
    if coded:
        second.append(pec([*first, *second]))
    return leg(first) + leg(second, "N")


TEXT = [16, *b"Jackmango PMBus "]
SET = [0xB0, 0x21, 0x00, 0x18]
# Canonical packets that all devices acknowledge. The mix has each of them.
CANONICAL = {
    "send byte": leg([0xB0, 0x03]),
    "write byte": leg([0xB0, 0x01, 0x80]),
    "write word": leg(SET),
    "write word, PEC": leg(with_code(*SET)),
    "write block of 16, PEC": leg(with_code(0xB0, 0x99, *TEXT)),
    "read byte": read([0xB0, 0x20], [0x17]),
    "read word": read([0xB0, 0x88], [0x00, 0xD3]),
    "read word, PEC": read([0xB0, 0x88], [0x00, 0xD3], coded=True),
    "read STATUS_WORD, PEC": read([0xB0, 0x79], [0x40, 0x08], coded=True),
    "read block of 16, PEC": read([0xB0, 0x99], TEXT, coded=True),
    "block process call": read([0xB0, 0x1A, 0x01, 0x88], [0x01, 0xA0]),
    "group of two": leg([0xB0, 0x01, 0x80]) + leg([0xB2, 0x01, 0x80]),
    "group of three": leg(SET) + leg([0xB2, 0x03]) + leg(with_code(0xB4, *SET[1:])),
}
OTHERS = {
    "write word, upper-case digits": leg(SET).upper().replace("00", "0A"),
    "write word after a comment": "# set\n" + leg(SET),
    "alert": leg([0x19, 0xB0], "N"),
    "address not acknowledged": leg([0x40], "N"),
    "byte not acknowledged": leg([0xB0, 0x21, 0x00], "N"),
    "address not acknowledged, in a group": leg([0xB0, 0x01, 0x80]) + leg([0xB2], "N"),
    "refusal: wrong PEC": read([0xB0, 0x88], [0x00, 0xD3, 0x00]),
    "refusal: no such device": leg([0x40, 0x21]),
    "refusal: no such command": leg([0xB0, 0xC8, 0x00]),
    "refusal: cut short": leg([0xB0, 0x21, 0x00]),
}
KINDS = {kind: legs + "P\n" for kind, legs in {**CANONICAL, **OTHERS}.items()}
MIX = [KINDS[kind] for kind in CANONICAL]

TIME = "# 0.000500000 s"
SPELLINGS = {
    "canonical": lambda packet: packet,
    "time line in front": lambda packet: f"{TIME}\n{packet}",
    "time behind": lambda packet: f"{packet[:-1]} {TIME}\n",
    "CR LF": lambda packet: packet.replace("\n", "\r\n"),
    "upper case": str.upper,
    "upper case, CR LF": lambda packet: packet.upper().replace("\n", "\r\n"),
    "time line in front, CR LF": lambda packet: f"{TIME}\r\n{packet[:-1]}\r\n",
    "an event a line": lambda packet: packet.replace(" ", "\n"),
    "an event a line, CR LF": lambda packet: packet.replace(" ", "\n").replace("\n", "\r\n"),
    "tabs": lambda packet: packet.replace(" ", "\t"),
    "two spaces": lambda packet: packet.replace(" ", "  "),
    "space behind P": lambda packet: packet[:-1] + " \n",
    "all on one line": lambda packet: packet[:-1] + " ",
    "P on a line of its own": lambda packet: packet.replace("P\n", "\nP\n"),
    "S on a line of its own": lambda packet: packet.replace("S ", "S\n"),
    "comment inside": lambda packet: packet.replace(" A ", " A # set\n", 1),
    "a time on each event's line": lambda packet: packet.replace("\n", " ").replace(" ", f" {TIME}\n"),
}
