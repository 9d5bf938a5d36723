"""Profiles, by docs/keys.md, and by docs/profiles.md, whose tables of standard commands and status bits
are read from that page. The profiles that rows are tried under stand here twice, as data and as texts. How TOML
is read is not said here."""

import os
import re
from typing import NamedTuple, Optional, Union

from .numbers import direct, linear, vid

ROOT = os.path.dirname(os.path.dirname(os.path.dirname(os.path.abspath(__file__))))
ALL_PAGES = 0xFF


class Entry(NamedTuple):
    code: int
    name: str
    write: Optional[str] = None
    read: Optional[str] = None
    call: Optional[str] = None
    kind: str = "raw"
    paged: bool = False
    coefficients: Optional[tuple] = None  # a format, direct or udirect
    exponent: Optional[int] = None
    initial: Union[bytes, list, None] = None  # a list has an item for each page
    unit: Optional[str] = None
    bits: Optional[dict] = None  # the names that the profile gives bits, by their numbers
    phased: bool = False

    def form_held(self):
        """The form of the register, or None where there is none (docs/devices.md)."""
        return self.read or (self.write if self.write != "zero" else None)

    def is_number(self):
        """Whether its data are numbers."""
        return self.kind not in ("raw", "status", "text")

    def is_voltage(self):
        """Whether VOUT_MODE says what its numbers are."""
        return self.kind in ("vout", "vout_signed")

    def number_format(self):
        """The format of its numbers, where VOUT_MODE doesn't say it."""
        if self.kind == "direct":
            return self.coefficients
        if self.kind == "half":
            return ("half",)
        if self.kind.startswith("vid:"):
            return vid(self.kind[len("vid:"):])
        if self.kind in ("ulinear16", "slinear16"):
            return linear(self.kind, self.exponent)
        if self.exponent is not None:
            return linear("linear11 fixed", self.exponent)
        return ("linear11",)

    def has_standard_name(self):
        """Whether it has the name that the standard gives its code."""
        return self.name == STANDARD_NAMES.get(self.code)

    def is_plain(self):
        """Whether it is the standard's, and the profile says nothing of its data."""
        return self.kind == "raw" and self.has_standard_name()

    def has_text(self, form):
        """Whether its data in a form are characters."""
        return self.kind == "text" or (
            self.code in TEXTS and form == "block" and self.is_plain())

    def initial_on(self, page):
        """The bytes that the profile gives the register of a page, or None."""
        return self.initial[page] if isinstance(self.initial, list) else self.initial


# The values of WRITE_PROTECT, and the other commands that may be written under each; None: all.
PROTECTIONS = {0x80: (), 0x40: (0x00, 0x01), 0x20: (0x00, 0x01, 0x02, 0x21), 0x00: None}


class Device(NamedTuple):
    address: int
    pec: str
    entries: dict  # by their codes, in their order
    modes: list  # VOUT_MODE at first, of each page
    vout_direct: Optional[tuple] = None  # a format, direct or udirect
    name: Optional[str] = None
    vid: Union[str, list, dict, None] = None  # a table, one for each page, or some by types
    phases: Optional[int] = None
    protect: bool = False  # whether it keeps to WRITE_PROTECT
    also: list = []  # the other addresses at which its part takes what is written, each once, in order

    @property
    def pages(self):
        """How many there are."""
        return len(self.modes)

    def entry(self, code):
        return self.entries.get(code)

    def has_phases(self, entry):
        """Whether a command has a value for each phase."""
        of_standard = entry.code in PHASED and entry.has_standard_name()
        return self.phases is not None and (entry.phased or of_standard)

    def bit_name(self, code, bit):
        """The name of a bit of a status register: the profile's, or else the standard's; None without
        one."""
        entry = self.entry(code)
        return (entry and entry.bits or {}).get(bit) or bit_name(code, bit)


class Profile(NamedTuple):
    devices: tuple
    ignored: Optional[list] = None  # each address once, in order; None where there is no `ignore`

    def device(self, address):
        return next((one for one in self.devices if one.address == address), None)


# The page's tables

with open(os.path.join(ROOT, "docs", "profiles.md"), encoding="utf-8") as page:
    PAGE_TEXT = page.read()


def rows_under(heading):
    """The cells of the tables' rows in a section whose first cell is a code."""
    section = PAGE_TEXT.split("\n## " + heading + "\n")[1].split("\n## ")[0]
    rows = [line.strip("| ").split(" | ") for line in section.split("\n")]
    return [row for row in rows if re.fullmatch("[0-9a-f]{2}", row[0]) and row[1].isidentifier()]


def standard_entry(code, name, write, read, call, kind, paged, unit):
    forms = [None if form == "–" else form for form in (write, read, call)]
    return Entry(int(code, 16), name, *forms, kind, paged == "yes",
                 unit=None if unit == "–" else unit)


STANDARD = [standard_entry(*row) for row in rows_under("The standard commands")]
STANDARD_NAMES = {entry.code: entry.name for entry in STANDARD}
# Of the standard's commands: whose blocks are characters, and which have a value for each phase.
TEXTS = (0x99, 0x9A, 0x9B, 0x9C, 0x9D, 0x9E, 0xAD, 0xAE)
PHASED = (0x38, 0x39, 0x8C)
BITS = {int(row[0], 16): row[2:] for row in rows_under("The bits of the status commands")}
HIGH_BITS = "VOUT IOUT_POUT INPUT MFR_SPECIFIC POWER_GOOD_N FANS OTHER UNKNOWN".split()


def bit_name(code, bit):
    """The name of a bit of a status command, or None."""
    if code == 0x79:
        return HIGH_BITS[15 - bit] if bit > 7 else bit_name(0x78, bit)
    name = BITS[code][7 - bit] if code in BITS and bit < 8 else "–"
    return None if name == "–" else name


# Profiles as data

def standard(name, **changes):
    """A standard command, changed. With a kind of its own it has no unit."""
    if "kind" in changes:
        changes = {"unit": None, **changes}
    return next(entry for entry in STANDARD if entry.name == name)._replace(**changes)


def device(address, pec, *commands, base=STANDARD, modes=(0x17,), **others):
    """A device with the commands of a base and its own: one takes the place of the one with its
    code, a new one goes last."""
    entries = {entry.code: entry for entry in base}
    for command in commands:
        entries[command.code] = command
    return Device(address, pec, entries, list(modes), **others)


def example(path):
    with open(os.path.join(ROOT, "examples", path), "rb") as file:
        return file.read()


SAMPLE_TEXT = PAGE_TEXT.split("`--sample` stands for this profile:\n\n```\n")[1]
SAMPLE_TEXT = SAMPLE_TEXT.split("```")[0].encode()
SAMPLE = Profile((
    device(
        0x58, "optional",
        standard("READ_VIN", initial=b"\x00\xd3"),
        Entry(0xD0, "RATIO", "two", "two", kind="direct", coefficients=direct(3, 2, 1)),
        modes=[0x17, 0x17],
    ),
    device(0x59, "off"),
    device(0x5A, "on"),
))

BOARD_TEXT = example("sessions/power_up.toml")
BOARD = Profile((
    device(
        0x40, "optional",
        standard("TON_DELAY", exponent=-2),
        standard("TON_RISE", exponent=-2),
        Entry(0xD7, "MFR_IOUT_PEAK", read="two", kind="linear11", paged=True, unit="A"),
        modes=[0x13, 0x13],
    ),
    device(
        0x10, "off",
        standard("CLEAR_FAULTS"),
        standard("READ_VIN", kind="direct", coefficients=direct(6720, 0, -1), unit="V"),
        base=(),
    ),
))

LTC3880_TEXT = example("profiles/ltc3880.toml")
LTC3880 = Profile((
    device(
        0x4F, "optional",
        standard("VOUT_MODE", write=None),
        standard("VIN_ON", paged=False),
        standard("VIN_OFF", paged=False),
        standard("VIN_OV_FAULT_LIMIT", paged=False),
        standard("VIN_UV_WARN_LIMIT", paged=False),
        standard("IIN_OC_WARN_LIMIT", paged=False),
        standard("STATUS_INPUT", paged=False),
        standard("STATUS_CML", paged=False),
        standard("READ_VIN", paged=False),
        standard("READ_IIN", paged=False),
        standard("READ_TEMPERATURE_2", paged=False),
        standard("MFR_ID", write=None),
        standard("MFR_MODEL", write=None),
        standard("MFR_SERIAL", write=None),
        standard("USER_DATA_00", write="two", read="two"),
        standard("USER_DATA_01", write="two", read="two", paged=True),
        standard("USER_DATA_02", write="two", read="two"),
        standard("USER_DATA_03", write="two", read="two", paged=True),
        standard("USER_DATA_04", write="two", read="two"),
        Entry(0xDD, "MFR_VOUT_PEAK", read="two", kind="vout", paged=True, unit="V"),
        Entry(0xD7, "MFR_IOUT_PEAK", read="two", kind="linear11", paged=True, unit="A"),
        Entry(0xF6, "MFR_IOUT_CAL_GAIN_TC", write="two", read="two", kind="direct", paged=True, coefficients=("direct", 1, 0, 0), unit="ppm/degC"),
        Entry(0xDE, "MFR_VIN_PEAK", read="two", kind="linear11", unit="V"),
        Entry(0xDF, "MFR_TEMPERATURE_1_PEAK", read="two", kind="linear11", paged=True, unit="degC"),
        Entry(0xF4, "MFR_TEMPERATURE_2_PEAK", read="two", kind="linear11", unit="degC"),
        Entry(0xF8, "MFR_TEMP_1_GAIN", write="two", read="two", kind="direct", paged=True, coefficients=("direct", 16384, 0, 0)),
        Entry(0xF9, "MFR_TEMP_1_OFFSET", write="two", read="two", kind="linear11", paged=True, unit="degC"),
        Entry(0xE7, "MFR_SPECIAL_ID", read="two"),
        Entry(0xE5, "MFR_PADS_LTC3880", read="two"),
        Entry(0xEF, "MFR_COMMON", read="one"),
        Entry(0xD0, "MFR_CHAN_CONFIG_LTC3880", write="one", read="one", paged=True),
        Entry(0xD1, "MFR_CONFIG_ALL_LTC3880", write="one", read="one"),
        Entry(0xD2, "MFR_GPIO_PROPAGATE_LTC3880", write="two", read="two", paged=True),
        Entry(0xD4, "MFR_PWM_MODE_LTC3880", write="one", read="one", paged=True),
        Entry(0xD5, "MFR_GPIO_RESPONSE", write="one", read="one", paged=True),
        Entry(0xDB, "MFR_RETRY_DELAY", write="two", read="two", kind="linear11", paged=True, unit="ms"),
        Entry(0xDC, "MFR_RESTART_DELAY", write="two", read="two", kind="linear11", paged=True, unit="ms"),
        Entry(0xE6, "MFR_ADDRESS", write="one", read="one"),
        Entry(0xF5, "MFR_PWM_CONFIG_LTC3880", write="one", read="one"),
        Entry(0xFA, "MFR_RAIL_ADDRESS", write="one", read="one", paged=True),
        Entry(0xE3, "MFR_CLEAR_PEAKS", write="zero"),
        Entry(0xF0, "MFR_COMPARE_USER_ALL", write="zero"),
        Entry(0xFD, "MFR_RESET", write="zero"),
        Entry(0xEA, "MFR_FAULT_LOG_STORE", write="zero"),
        Entry(0xEC, "MFR_FAULT_LOG_CLEAR", write="zero"),
        Entry(0xEE, "MFR_FAULT_LOG", read="block"),
        modes=[0x14, 0x14], also=[0x5B],
    ),
    device(
        0x5B, "optional",
        standard("VOUT_MODE", write=None),
        Entry(0xE3, "MFR_CLEAR_PEAKS", write="zero"),
        Entry(0xEA, "MFR_FAULT_LOG_STORE", write="zero"),
        Entry(0xEC, "MFR_FAULT_LOG_CLEAR", write="zero"),
        Entry(0xFD, "MFR_RESET", write="zero"),
        modes=[0x14, 0x14],
    ),
    device(
        0x5A, "optional",
        standard("VOUT_MODE", write=None),
        Entry(0xE3, "MFR_CLEAR_PEAKS", write="zero"),
        Entry(0xEA, "MFR_FAULT_LOG_STORE", write="zero"),
        Entry(0xEC, "MFR_FAULT_LOG_CLEAR", write="zero"),
        Entry(0xFD, "MFR_RESET", write="zero"),
        modes=[0x14],
    ),
))

PFE1100_TEXT = example("profiles/pfe1100.toml")
PFE1100 = Profile((device(0x58, "optional", modes=[0x16]),))

BENCH_TEXT = example("transactions/bench_setup.toml")
BENCH = Profile((
    device(0x4F, "optional", modes=[0x14, 0x14]),
    device(0x20, "off"),
))

RAILS_TEXT = example("profiles/two_rails.toml")
RAILS = Profile(
    (
        device(
            0x40, "optional",
            standard("VOUT_COMMAND", initial=[b"\x33\x13", b"\x9a\x69"]),
            standard("READ_VOUT", initial=[b"\x33\x13", b"\x9a\x69"]),
            modes=[0x14, 0x13], name="U7 CORE/IO",
        ),
    ),
    ignored=[0x48, 0x50],
)

# Commands of every form, with their own kinds and pages.
ODD_TEXT = b"""
[[device]]
address = 0x10
pec = "optional"
pages = 3
vout_mode = 0x40
vout_direct = { m = -7, b = 5, r = -1 }
command = [
    { code = 0xe0, write = "four", read = "four" },
    { code = 0xe1, read = "eight", initial = "0102030405060708", paged = true },
    { name = "VOUT_MODE", paged = false },
    { code = 0xe2, write = "zero", read = "two", kind = "linear11" },
    { code = 0xe3, write = "two", call = "two", kind = "status" },
    { code = 0xe4, write = "block", read = "block", call = "block", initial = "4142", paged=true },
    { name = "STATUS_CML", paged = false },
    { code = 0xe5, call = "two", paged = true },
]

[[device]]
address = 0x11
pec = "on"
standard = false

[[device.command]]
name = "VIN_ON"
exponent = -3

[[device.command]]
name = "COEFFICIENTS"

[[device.command]]
name = "READ_VOUT"
initial = "0001"

[[device]]
address = 0x77
pec = "off"
command = [{ name = "PAGE", write = "none" }, { name = "STATUS_CML", read = "none" }]
"""
ODD = Profile((
    device(
        0x10, "optional",
        Entry(0xE0, "CMD_e0", "four", "four"),
        Entry(0xE1, "CMD_e1", read="eight", initial=bytes(range(1, 9)), paged=True),
        standard("VOUT_MODE", paged=False),
        Entry(0xE2, "CMD_e2", "zero", "two", kind="linear11"),
        Entry(0xE3, "CMD_e3", "two", call="two", kind="status"),
        Entry(0xE4, "CMD_e4", "block", "block", "block", initial=b"AB", paged=True),
        standard("STATUS_CML", paged=False),
        Entry(0xE5, "CMD_e5", call="two", paged=True),
        modes=[0x40, 0x40, 0x40], vout_direct=direct(-7, 5, -1),
    ),
    device(
        0x11, "on",
        standard("VIN_ON", exponent=-3),
        standard("COEFFICIENTS"),
        standard("READ_VOUT", initial=b"\x00\x01"),
        base=(),
    ),
    device(
        0x77, "off",
        standard("PAGE", write=None),
        standard("STATUS_CML", read=None),
    ),
))

# Pages that begin unlike each other, names of all characters, and addresses that are ignored.
UNLIKE_TEXT = b"""
ignore = [0x50, 0x48, 0x0c, 0x50, 0, 127]

[[device]]
address = 0x20
pec = "optional"
pages = 3
vout_mode = [0x17, 0x40, 0x97]
vout_direct = { m = 2, b = -1, r = 1 }
name = ' !"#$%&\\~'
command = [
    { name = "VOUT_COMMAND", initial = ["0018", "0102", "ffff"] },
    { name = "STATUS_CML", initial = ["00", "Ff", "01"] },
    { name = "READ_VIN", initial = "00d3" },
    { code = 0xe0, write = "block", read = "block", paged = true, initial = ["", "41", "4243"] },
    { code = 0xe1, read = "four", paged = true, initial = ["01020304", "00000000", "05060708"] },
    { code = 0xe2, write = "one", paged = true, initial = ["01", "02", "03"] },
]

[[device]]
address = 0x21
pec = "off"
pages = 2
vout_mode = [0x13, 0x1f]
standard = false
name = "abcdefghijklmnopqrstuvwxyz 01234"
command = [{ name = "PAGE" }, { name = "READ_VOUT", initial = ["0010", "1000"] }]

[[device]]
address = 0x22
pec = "on"
pages = 2
vout_mode = [0x14, 0x14]
command = [{ name = "VOUT_MODE", paged = false }]

[[device]]
address = 0x23
pec = "on"
vout_mode = [0x1e]
command = [{ name = "VOUT_MODE", paged = false }, { name = "OPERATION", initial = ["80"] }]
"""
UNLIKE = Profile(
    (
        device(
            0x20, "optional",
            standard("VOUT_COMMAND", initial=[b"\x00\x18", b"\x01\x02", b"\xff\xff"]),
            standard("STATUS_CML", initial=[b"\x00", b"\xff", b"\x01"]),
            standard("READ_VIN", initial=b"\x00\xd3"),
            Entry(0xE0, "CMD_e0", "block", "block", paged=True, initial=[b"", b"A", b"BC"]),
            Entry(0xE1, "CMD_e1", read="four", paged=True,
                  initial=[bytes(range(1, 5)), bytes(4), bytes(range(5, 9))]),
            Entry(0xE2, "CMD_e2", "one", paged=True, initial=[b"\1", b"\2", b"\3"]),
            modes=[0x17, 0x40, 0x97], vout_direct=direct(2, -1, 1), name=' !"#$%&\\~',
        ),
        device(
            0x21, "off",
            standard("PAGE"),
            standard("READ_VOUT", initial=[b"\x00\x10", b"\x10\x00"]),
            base=(), modes=[0x13, 0x1F], name="abcdefghijklmnopqrstuvwxyz 01234",
        ),
        device(0x22, "on", standard("VOUT_MODE", paged=False), modes=[0x14, 0x14]),
        device(
            0x23, "on",
            standard("VOUT_MODE", paged=False),
            standard("OPERATION", initial=[b"\x80"]),
            modes=[0x1E],
        ),
    ),
    ignored=[0x00, 0x0C, 0x48, 0x50, 0x7F],
)

# VID tables in each shape, IEEE halves, DIRECT without a sign, and a fixed exponent of 16 bits.
VOLTS_TEXT = b"""
[[device]]
address = 0x20
pec = "optional"
pages = 2
vout_mode = [0x21, 0x60]
vout_direct = { m = 2, b = 0, r = 3, unsigned = true }
vid = ["vr12", "vr13"]
command = [
    { code = 0xe0, write = "two", read = "two", kind = "half", initial = "003c" },
    { code = 0xe1, write = "two", read = "two", kind = "vid:amd625mv", paged = true, initial = ["0000", "d900"] },
    { code = 0xe2, write = "two", read = "two", kind = "ulinear16", exponent = -9 },
    { code = 0xe3, write = "two", read = "two", kind = "slinear16", exponent = 15 },
    { code = 0xe4, write = "two", read = "two", kind = "direct", m = 1, b = 0, r = 0, unsigned = true, initial = "ffff" },
    { name = "READ_VIN", kind = "half", initial = "007c" },
    { name = "READ_IIN", kind = "direct", m = -3, b = 1, r = 1, unsigned = false },
    { name = "VOUT_MARGIN_HIGH", kind = "vout_signed" },
]

[[device]]
address = 0x21
pec = "off"
vout_mode = 0xa1
vid = { 0 = "vr11", 1 = "imvp9", 31 = "nvidia195mv" }

[[device]]
address = 0x22
pec = "off"
vout_mode = 0x20
vid = "amd625mv"

[[device]]
address = 0x23
pec = "off"
pages = 2
vout_mode = 0x3f
vid = ["vr13", "vr13"]
vout_direct = { unsigned = false, m = -3, b = 1, r = -2 }

[[device]]
address = 0x24
pec = "off"
vid = {}
"""
VOLTS = Profile((
    device(
        0x20, "optional",
        Entry(0xE0, "CMD_e0", "two", "two", kind="half", initial=b"\x00\x3c"),
        Entry(0xE1, "CMD_e1", "two", "two", kind="vid:amd625mv", paged=True,
              initial=[b"\0\0", b"\xd9\0"]),
        Entry(0xE2, "CMD_e2", "two", "two", kind="ulinear16", exponent=-9),
        Entry(0xE3, "CMD_e3", "two", "two", kind="slinear16", exponent=15),
        Entry(0xE4, "CMD_e4", "two", "two", kind="direct", initial=b"\xff\xff",
              coefficients=direct(1, 0, 0, "udirect")),
        standard("READ_VIN", kind="half", initial=b"\x00\x7c"),
        standard("READ_IIN", kind="direct", coefficients=direct(-3, 1, 1)),
        standard("VOUT_MARGIN_HIGH", kind="vout_signed"),
        modes=[0x21, 0x60], vout_direct=direct(2, 0, 3, "udirect"), vid=["vr12", "vr13"],
    ),
    device(0x21, "off", modes=[0xA1], vid={0: "vr11", 1: "imvp9", 31: "nvidia195mv"}),
    device(0x22, "off", modes=[0x20], vid="amd625mv"),
    device(0x23, "off", modes=[0x3F, 0x3F], vid=["vr13", "vr13"], vout_direct=direct(-3, 1, -2)),
    device(0x24, "off", vid={}),
))

# Units, names of bits, texts and phases: of the standard's commands, changed ones and new ones.
NAMED_TEXT = b"""
[[device]]
address = 0x20
pec = "optional"
pages = 2
phases = 3
command = [
    { name = "READ_VIN", kind = "half", unit = "mV" },
    { name = "READ_IIN", phased = true },
    { name = "READ_PIN", kind = "linear11" },
    { name = "VIN_ON", exponent = -3 },
    { name = "VOUT_COMMAND", unit = "V/512 \\" \\\\ of 12", phased = true },
    { name = "IOUT_CAL_GAIN", kind = "direct", m = 1, b = 0, r = 0, paged = false },
    { code = 0x39, name = "OFFSET", read = "two", kind = "linear11" },
    { name = "STATUS_WORD", phased = true, bits = { 15 = "PLUS_5_V", 3 = "LOW_WARN", 2 = "NAME_OF_A_BIT_WITH_32_CHARACTERS" } },
    { name = "STATUS_VOUT", bits = { 7 = "OVER", 0 = "BUSY" } },
    { name = "STATUS_MFR_SPECIFIC", bits = { 0 = "FUSE", 7 = "WATCHDOG_WARN" } },
    { name = "STATUS_CML", bits = {} },
    { code = 0xd0, name = "PHASES", write = "two", read = "two", kind = "status", phased = true, bits = { 15 = "A", 8 = "B", 0 = "C" } },
    { code = 0xd1, write = "block", read = "block", kind = "text", paged = true, phased = true },
    { code = 0xd2, write = "zero", read = "two", kind = "text" },
    { code = 0xd3, write = "zero", read = "one", kind = "status", phased = true },
    { name = "MFR_MODEL", write = "none", read = "four" },
    { code = 0x9b, name = "REVISION", write = "block", read = "block" },
    { code = 0x9c, name = "MFR_LOCATION", write = "block", read = "block", phased = true },
    { code = 0x01, name = "OPERATION", write = "one", read = "one", phased = true },
    { code = 0x02, write = "one", read = "one" },
    { name = "CAPABILITY", kind = "text" },
    { name = "PMBUS_REVISION", write = "one" },
    { name = "WRITE_PROTECT", kind = "status" },
    { name = "PAGE_PLUS_WRITE", write = "two" },
    { name = "SMBALERT_MASK", phased = true },
    { name = "READ_EIN", read = "eight" },
]

[[device]]
address = 0x21
pec = "off"
phases = 255
standard = false
command = [{ name = "PHASE" }, { name = "READ_IOUT", unit = "A" }, { name = "STATUS_IOUT", phased = true }]

[[device]]
address = 0x22
pec = "on"
command = [{ name = "READ_VIN", phased = true }, { name = "STATUS_FANS_3_4", bits = { 7 = "FAN_3_FAULT" } }]

[[device]]
address = 0x23
pec = "off"
phases = 1
command = [{ code = 0x04, name = "PHASE", write = "two", read = "two" }, { code = 0x8c, name = "READ_IOUT", read = "block" }]

[[device]]
address = 0x24
pec = "off"
phases = 2
command = [{ code = 0x04, name = "STAGE", write = "block", read = "block", kind = "text", phased = true }]
"""
NAMED = Profile((
    device(
        0x20, "optional",
        standard("READ_VIN", kind="half", unit="mV"),
        standard("READ_IIN", phased=True),
        standard("READ_PIN", kind="linear11"),
        standard("VIN_ON", exponent=-3),
        standard("VOUT_COMMAND", unit='V/512 " \\ of 12', phased=True),
        standard("IOUT_CAL_GAIN", kind="direct", coefficients=direct(1, 0, 0), paged=False),
        Entry(0x39, "OFFSET", read="two", kind="linear11"),
        standard("STATUS_WORD", phased=True, bits={
            2: "NAME_OF_A_BIT_WITH_32_CHARACTERS", 3: "LOW_WARN", 15: "PLUS_5_V"}),
        standard("STATUS_VOUT", bits={0: "BUSY", 7: "OVER"}),
        standard("STATUS_MFR_SPECIFIC", bits={0: "FUSE", 7: "WATCHDOG_WARN"}),
        standard("STATUS_CML", bits={}),
        Entry(0xD0, "PHASES", "two", "two", kind="status", phased=True,
              bits={0: "C", 8: "B", 15: "A"}),
        Entry(0xD1, "CMD_d1", "block", "block", kind="text", paged=True, phased=True),
        Entry(0xD2, "CMD_d2", "zero", "two", kind="text"),
        Entry(0xD3, "CMD_d3", "zero", "one", kind="status", phased=True),
        standard("MFR_MODEL", write=None, read="four"),
        Entry(0x9B, "REVISION", "block", "block"),
        Entry(0x9C, "MFR_LOCATION", "block", "block", phased=True),
        Entry(0x01, "OPERATION", "one", "one", phased=True),
        Entry(0x02, "CMD_02", "one", "one"),
        standard("CAPABILITY", kind="text"),
        standard("PMBUS_REVISION", write="one"),
        standard("WRITE_PROTECT", kind="status"),
        standard("PAGE_PLUS_WRITE", write="two"),
        standard("SMBALERT_MASK", phased=True),
        standard("READ_EIN", read="eight"),
        modes=[0x17, 0x17], phases=3,
    ),
    device(
        0x21, "off",
        standard("PHASE"),
        standard("READ_IOUT"),
        standard("STATUS_IOUT", phased=True),
        base=(), phases=255,
    ),
    device(
        0x22, "on",
        standard("READ_VIN", phased=True),
        standard("STATUS_FANS_3_4", bits={7: "FAN_3_FAULT"}),
    ),
    device(
        0x23, "off",
        Entry(0x04, "PHASE", "two", "two"),
        Entry(0x8C, "READ_IOUT", read="block"),
        phases=1,
    ),
    device(0x24, "off", Entry(0x04, "STAGE", "block", "block", kind="text", phased=True), phases=2),
))

# A device on each of 17 addresses, so that a group can be too long.
MANY_TEXT = b"".join(
    b"[[device]]\naddress = %d\npec = 'off'\n" % address for address in range(0x10, 0x21)
)
MANY = Profile(tuple(device(address, "off") for address in range(0x10, 0x21)))

KNOWN = {
    SAMPLE_TEXT: SAMPLE, BOARD_TEXT: BOARD, LTC3880_TEXT: LTC3880, PFE1100_TEXT: PFE1100,
    BENCH_TEXT: BENCH, RAILS_TEXT: RAILS, ODD_TEXT: ODD, UNLIKE_TEXT: UNLIKE, VOLTS_TEXT: VOLTS,
    NAMED_TEXT: NAMED, MANY_TEXT: MANY,
    b"device = []\n": Profile(()), b"ignore = []\ndevice = []\n": Profile((), ignored=[]),
}

# Profiles with a mistake, and how it is told.
ONE = b"[[device]]\naddress = 0x10\npec = 'off'\n"
COMMAND = ONE + b"[[device.command]]\n"
FAULTS = {
    b"": "MissingKey",
    b" " * 1048576: "MissingKey",
    b" " * 1048575 + b"\n": "MissingKey",
    SAMPLE_TEXT + b"%%": "NotToml",
    SAMPLE_TEXT + b" %%\n": "NotToml",
    SAMPLE_TEXT + b"%% \nS b0": "NotToml",
    b"=": "NotToml",
    b"x = 1": "UnknownKey",
    b"device = 1": "WrongType",
    b"[[device]]\naddress = 0x0c\npec = 'off'\n": "BadAddress in device 0",
    ONE + ONE: "AddressTwice in device 1",
    ONE + b"pages = 33\n": "BadPages in device 0",
    b"[[device]]\naddress = 0x10\npec = 'maybe'\n": "BadValue in device 0",
    ONE * 65: "TooManyDevices",
    COMMAND + b"name = 'VOUT'\n": "UnknownName in device 0 command 0",
    COMMAND + b"name = 'READ_VIN'\ninitial = '00'\n": "BadInitial in device 0 command 0",
    COMMAND + b"code = 256\n": "BadValue in device 0 command 0",
    COMMAND + b"code = 0xd0\nname = 'a'\nread = 'one'\n": "BadName in device 0 command 0",
    COMMAND + b"code = 0xd0\n": "BadForm in device 0 command 0",
    COMMAND + b"code = 0xd0\nwrite = 'word'\n": "BadForm in device 0 command 0",
    COMMAND + b"code = 0xd0\nread = 'two'\nkind = 'direct'\nm = 0\nb = 0\nr = 0\n":
        "BadCoefficients in device 0 command 0",
    COMMAND + b"code = 0xd0\nread = 'two'\nkind = 'direct'\nb = 0\nr = 0\n":
        "MissingKey in device 0 command 0",
    COMMAND + b"code = 0xd0\nread = 'one'\n[[device.command]]\ncode = 0xd0\nread = 'one'\n":
        "CodeTwice in device 0 command 1",
    COMMAND + b"name = 'VIN_ON'\nexponent = 16\n": "BadValue in device 0 command 0",
    COMMAND + b"name = 'MFR_ID'\nexponent = 0\n": "UnknownKey in device 0 command 0",
    b"ignore = [0x50]\n": "MissingKey",
    b"ignore = 0x50\n" + ONE: "WrongType",
    b"ignore = [0x50, '0x48']\n" + ONE: "WrongType",
    b"ignore = [0x80]\n" + ONE: "BadValue",
    b"ignore = [0x48, 0x10]\n" + ONE: "BadValue in device 0",
    ONE + b"vout_mode = [256]\n": "BadValue in device 0",
    ONE + b"pages = 2\nvout_mode = [0x14]\n": "BadValue in device 0",
    ONE + b"pages = 2\nvout_mode = [0x14, 0x13]\n"
    b"command = [{ name = 'VOUT_MODE', paged = false }]\n": "BadValue in device 0",
    ONE + b"name = ''\n": "BadName in device 0",
    ONE + b"name = 1\n": "WrongType in device 0",
    COMMAND + b"name = 'READ_VIN'\ninitial = ['00d3', '00d3']\n":
        "BadInitial in device 0 command 0",
    COMMAND + b"name = 'MFR_ID'\ninitial = ['41']\n": "BadInitial in device 0 command 0",
    COMMAND + b"name = 'READ_VIN'\ninitial = [1]\n": "WrongType in device 0 command 0",
    ONE + b"vid = 'vr14'\n": "BadValue in device 0",
    ONE + b"vid = 1\nname = ''\n": "BadName in device 0",
    ONE + b"vid = 1\n": "WrongType in device 0",
    ONE + b"vid = ['vr11', 1, 'x']\n": "WrongType in device 0",
    ONE + b"vid = ['vr11', 'vr11']\n": "BadValue in device 0",
    ONE + b"vid = { 1 = 1, 32 = 'vr11' }\n": "BadValue in device 0",
    ONE + b"vid = { 10 = 'x', 9 = 1 }\n": "WrongType in device 0",
    ONE + b"vout_direct = { m = 1, b = 0, r = 0, unsigned = 1 }\n": "WrongType in device 0",
    ONE + b"vout_direct = { m = 0, b = 0, r = 0, unsigned = 1 }\n": "BadCoefficients in device 0",
    ONE + b"unsigned = true\n": "UnknownKey in device 0",
    ONE + b"phases = 0\n": "BadValue in device 0",
    ONE + b"phases = 256\nvid = 'vr14'\n": "BadValue in device 0",
    ONE + b"phases = '1'\nvid = 1\n": "WrongType in device 0",
    ONE + b"protect = 1\n": "WrongType in device 0",
    ONE + b"also = 0x10\n": "WrongType in device 0",
    ONE + b"also = [0x10, '0x11']\n": "WrongType in device 0",
    ONE + b"also = [0x5b]\nstandard = false\nprotect = true\n": "BadValue in device 0",
    ONE + b"also = [128]\n": "BadValue in device 0",
    ONE + b"also = [0x5b, 1.5]\n": "BadValue in device 0",
    ONE + b"protect = true\nstandard = false\n": "BadValue in device 0",
    ONE + b"protect = true\ncommand = [{ name = 'WRITE_PROTECT', paged = true }]\n":
        "BadValue in device 0",
    ONE + b"protect = true\ncommand = [{ name = 'WRITE_PROTECT', initial = '01' }]\n":
        "BadInitial in device 0",
    COMMAND + b"name = 'MFR_ID'\nunit = 'V'\n": "UnknownKey in device 0 command 0",
    COMMAND + b"name = 'READ_VIN'\nunit = ''\nbits = 1\n": "BadValue in device 0 command 0",
    COMMAND + b"name = 'READ_VIN'\nbits = {}\n": "UnknownKey in device 0 command 0",
    COMMAND + b"name = 'STATUS_CML'\nbits = { 8 = 1 }\n": "BadValue in device 0 command 0",
    COMMAND + b"name = 'STATUS_CML'\nbits = { 7 = 1, 6 = 'a' }\n": "BadName in device 0 command 0",
    COMMAND + b"name = 'STATUS_CML'\nbits = { 7 = 'A', 0 = 'A' }\nphased = 1\n":
        "BadName in device 0 command 0",
    COMMAND + b"name = 'READ_IOUT'\nphased = 1\n": "WrongType in device 0 command 0",
    COMMAND + b"name = 'PAGE'\nkind = 'text'\n": "BadForm in device 0 command 0",
    COMMAND + b"name = 'READ_VIN'\nunsigned = false\n": "UnknownKey in device 0 command 0",
    COMMAND + b"name = 'READ_VIN'\nunsigned = 1\n": "WrongType in device 0 command 0",
    COMMAND + b"name = 'READ_VIN'\nkind = 'slinear16'\n": "MissingKey in device 0 command 0",
    COMMAND + b"name = 'READ_VIN'\nkind = 'ulinear16'\nexponent = -17\n":
        "BadValue in device 0 command 0",
    COMMAND + b"name = 'READ_VIN'\nkind = 'half'\nexponent = 0\n":
        "UnknownKey in device 0 command 0",
    COMMAND + b"name = 'READ_VIN'\nkind = 'vid:vr10'\n": "BadValue in device 0 command 0",
    COMMAND + b"name = 'MFR_ID'\nkind = 'vid:vr11'\n": "BadForm in device 0 command 0",
}
