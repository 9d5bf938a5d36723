"""Short lists of requests, each for devices in their first state: devices with registers of every
form, a board of converters, and as many devices as a bus may have. Most requests select a page, set
a VOUT_MODE, or depend on one of them. Most are done; some are refused or have no packet."""

from . import numbers, packets, profiles, tables
from .drawn import FORMATS, quantity, some_bytes


def commands(*of_standard):
    return [{"name": name} for name in of_standard]


def wide(code, **keys):
    return {"code": code, **keys}


EVERY_FORM = {"device": [
    {
        "address": 0x20, "pec": "off", "pages": 3, "standard": False,
        "vout_direct": {"m": -2, "b": 300, "r": -1},
        "command": commands("PAGE", "CLEAR_FAULTS", "VOUT_MODE", "VOUT_COMMAND", "COEFFICIENTS",
                            "STATUS_WORD", "STATUS_CML", "SMBALERT_MASK") + [
            {"name": "MFR_ID", "initial": "414243"},
            wide(0xE0, write="block", read="block", paged=True),
            wide(0xE1, write="four", read="four", paged=True, initial="01020304"),
            wide(0xE2, write="eight", read="eight"),
            wide(0xE3, write="one", read="one", kind="status", initial="ff"),
            wide(0xE4, write="two"),
            wide(0xE5, write="zero", read="two"),
            wide(0xE6, write="two", read="two", call="two", kind="direct", m=7, b=-1, r=2,
                 paged=True),
            wide(0xE7, read="block", initial="aa55"),
            wide(0xE8, write="zero", call="two", paged=True),
            wide(0xE9, write="two", read="two", kind="half", initial="01fe"),
            wide(0xEA, write="two", read="two", kind="vid:vr12", paged=True),
            wide(0xEB, write="two", read="two", kind="slinear16", exponent=-3),
        ],
    },
    {
        "address": 0x21, "pec": "optional", "pages": 2, "standard": False,
        "command": commands("PAGE", "CLEAR_FAULTS", "VOUT_MODE", "VOUT_COMMAND", "COEFFICIENTS",
                            "MFR_ID", "SMBALERT_MASK") + [
            {"name": "STATUS_WORD", "paged": False, "initial": "ffff"},
            {"name": "STATUS_CML", "paged": False},
            wide(0xE0, write="block", read="block", call="block"),
            wide(0xE1, write="four"),
            wide(0xE5, write="zero", read="two", paged=True),
            wide(0xE6, write="two", read="two", call="two"),
            wide(0xE7, write="two", read="two", kind="ulinear16", exponent=2),
            wide(0xE8, write="two", read="two", kind="direct", m=3, b=-7, r=0, unsigned=True),
            wide(0xE9, write="two", read="two", kind="vid:vr11"),
        ],
    },
    {
        "address": 0x22, "pec": "on", "standard": False,
        "command": commands("CLEAR_FAULTS", "VOUT_COMMAND") + [
            {"name": "PAGE", "read": "none"},
            {"name": "STATUS_CML", "read": "none"},
            wide(0xE0, write="block", read="block"),
            wide(0xE5, write="zero", read="two"),
        ],
    },
]}

BOARD = {"device": [
    {
        "address": 0x40, "pec": "optional", "pages": 2, "vout_mode": 0x13,
        "command": [{"name": "TON_DELAY", "exponent": -2}],
    },
    {
        "address": 0x41, "pec": "on", "pages": 4, "vout_mode": 0x40,
        "vout_direct": {"m": 200, "b": -15, "r": 1, "unsigned": True},
    },
    {
        "address": 0x10, "pec": "off", "standard": False,
        "command": [
            {"name": "CLEAR_FAULTS"},
            {"name": "READ_VIN", "kind": "direct", "m": 6720, "b": 0, "r": -1, "initial": "801f"},
            {"name": "COEFFICIENTS"},
        ],
    },
]}

FULL_BUS = {"device": [
    {
        "address": address, "pec": "optional", "pages": 2, "standard": False,
        "command": commands("PAGE", "CLEAR_FAULTS", "VOUT_COMMAND", "STATUS_CML"),
    }
    for address in range(0x10, 0x50)
]}


def known(table):
    """Words, what stands in front of the requests, and the profile."""
    text = tables.text_of(table)
    profiles.KNOWN[text] = tables.profile_of(table)
    return [], text + b"%%\n", profiles.KNOWN[text]


# Each with its share of the lists.
BUSES = [
    (["--sample"], b"", profiles.SAMPLE, 3), (*known(EVERY_FORM), 10), (*known(BOARD), 4),
    (*known(FULL_BUS), 3),
]


def data(chance, entry, form):
    """Data of a form: of PAGE mostly a page, of VOUT_MODE mostly a linear one."""
    count = packets.SIZES[form] if form != "block" else chance.choice((0, 1, 2, 3, 16, 255))
    drawn = list(some_bytes(chance, count))
    if entry.code == 0x00 and drawn:
        drawn[0] = chance.choice((0, 0, 0, 1, 1, 0xFF, 2, drawn[0]))
    if entry.code == 0x20 and drawn:
        drawn[0] = chance.choice((0x10, 0x13, 0x14, 0x17, 0x40, 0x1F, 0x0F, drawn[0]))
    if entry.kind == "half" and drawn and chance.random() < 0.2:
        drawn[1] |= 0x7C  # no number
    if entry.kind.startswith("vid:") and drawn and chance.random() < 0.7:
        drawn[1] = 0
    return drawn


def entry_of(chance, device):
    """A command of a device; often PAGE, STATUS_CML, VOUT_MODE or VOUT_COMMAND."""
    likely = chance.choice((0x00, 0x00, 0x7E, 0x20, 0x21, *[None] * 5))
    return device.entries.get(likely) or chance.choice(list(device.entries.values()))


def pec_of(chance, device):
    return {"off": False, "on": True, "optional": chance.random() < 0.5}[device.pec]


def written(chance, device):
    """A part of a write, or None where the command isn't written."""
    entry = entry_of(chance, device)
    if entry.write is None:
        return None
    words = [device.address, entry.code, *data(chance, entry, entry.write)]
    return " ".join(["%02x" % word for word in words] + ["pec"] * pec_of(chance, device))


def write(chance, profile):
    """A write of one part, or of a group."""
    devices = profile.devices
    first = chance.randrange(len(devices))
    most = chance.choice((1, 1, 16))
    chosen = [devices[(first + i) % len(devices)] for i in range(min(most, len(devices)))]
    parts = [part for part in (written(chance, device) for device in chosen) if part]
    return "write " + " + ".join(parts) if parts else ""


def set_value(chance, entry):
    """A quantity for a command, mostly one of its format's."""
    if entry.is_voltage():
        name = "ulinear16" if entry.kind == "vout" else "slinear16"
        return quantity(chance, (name, chance.choice((-16, -13, -12, -9, -1, 15))))
    if entry.kind == "linear11" or not entry.is_number() or chance.random() < 0.1:
        return quantity(chance, numbers.format_of(chance.choice(FORMATS)))
    return quantity(chance, entry.number_format())


def call_data(chance, device, entry):
    """What a call sends; to COEFFICIENTS mostly a code of the device."""
    if entry.code == 0x30 and chance.random() < 0.75:
        return [chance.choice(list(device.entries)), chance.choice((0, 1))]
    return data(chance, entry, entry.call)


def request(chance, profile):
    """A request of some kind."""
    device = chance.choice(profile.devices)
    entry = entry_of(chance, device)
    kind = chance.choice(("read", "get", "set", "call", "write", "write", "write", "write"))
    is_number = entry.is_number()
    words = ["%02x" % device.address, "%02x" % entry.code]
    if kind == "set" and is_number and entry.write not in (None, "zero"):
        words.append(set_value(chance, entry))
    elif kind == "call" and entry.call:
        words += ["%02x" % byte for byte in call_data(chance, device, entry)]
    elif not (kind in ("read", "get") and entry.read and (is_number or kind == "read")):
        return write(chance, profile)
    return " ".join([kind, *words] + ["pec"] * pec_of(chance, device))


def rows(chance, count):
    """About so many lists of 2 to 9 requests."""
    found = []
    for flag, front, profile, share in BUSES:
        for _ in range(count * share // 20):
            asked = [request(chance, profile) for _ in range(chance.randrange(2, 10))]
            found.append((["run", *flag], front + "\n".join(asked + [""]).encode()))
    return found
