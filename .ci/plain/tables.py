"""What a profile's TOML table says, by docs/keys.md and docs/mistakes.md: the profile, or its first fault with its
place. A table is a dict here, an array a list; how TOML is read is not told."""

import re

from .numbers import TABLES, Fault, direct
from .packets import SIZES
from .profiles import PROTECTIONS, STANDARD, Device, Entry, Profile

NAMED = {entry.name: entry for entry in STANDARD}
CODED = {entry.code: entry for entry in STANDARD}
WORDS = {
    "write": ("none", "zero", "one", "two", "four", "eight", "block"),
    "read": ("none", "one", "two", "four", "eight", "block"),
    "call": ("none", "two", "block"),
}
ONE_EXPONENT = ("ulinear16", "slinear16")  # kinds that need an exponent
KINDS = ("raw", "linear11", "vout", "vout_signed", "direct", "status", "half", *ONE_EXPONENT,
         *("vid:" + table for table in TABLES), "text")
TYPES = [str(number) for number in range(32)]  # of VID tables, as keys
DEVICE_KEYS = ("address", "pec", "pages", "vout_mode", "standard", "vout_direct", "command", "name",
               "vid", "phases", "protect", "also")
COMMAND_KEYS = ("code", "name", *WORDS, "kind", "m", "b", "r", "exponent", "paged", "initial",
                "unsigned", "unit", "bits", "phased")


def need(holds, name):
    if not holds:
        raise Fault(name)


def known_keys(table, keys):
    need(isinstance(table, dict), "WrongType")
    need(set(table) <= set(keys), "UnknownKey")


def value_of(table, key, kind, otherwise=None):
    """The value of a key, of the type that it asks for."""
    need(key not in table or type(table[key]) is kind, "WrongType")
    return table.get(key, otherwise)


def profile_of(table):
    """The profile. A fault is told with its place after it."""
    need(set(table) <= {"device", "ignore"}, "UnknownKey")
    need("device" in table, "MissingKey")
    array = value_of(table, "device", list)
    need(len(array) <= 64, "TooManyDevices")
    ignored = ignored_of(table)
    named = [one.get("address") for one in array if isinstance(one, dict)]
    devices = []
    for i, one in enumerate(array):
        place = "in device %d" % i
        device = placed(place, device_of, one, devices, ignored or [], named)
        for j, command in enumerate(one.get("command", [])):
            device = placed("%s command %d" % (place, j), with_command, device, one, j, command)
        placed(place, modes_go_together, device)
        placed(place, can_protect, device)
        devices.append(device)
    return Profile(tuple(devices), ignored)


def ignored_of(table):
    """The addresses that speak no PMBus, or None without the key."""
    array = value_of(table, "ignore", list)
    for address in array or []:
        need(type(address) is int, "WrongType")
        need(0 <= address <= 127, "BadValue")
    return None if array is None else sorted(set(array))


def placed(place, rule, *given):
    try:
        return rule(*given)
    except Fault as fault:
        raise Fault("%s %s" % (fault, place)) from None


def device_of(table, before, ignored, named):
    """A device by its own keys, with the standard commands or none; `named` is what the tables of all devices
    have at `address`."""
    known_keys(table, DEVICE_KEYS)
    need("address" in table, "MissingKey")
    address = value_of(table, "address", int)
    need(0x08 <= address <= 0x77 and address != 0x0C, "BadAddress")
    need(address not in [device.address for device in before], "AddressTwice")
    need(address not in ignored, "BadValue")
    need("pec" in table, "MissingKey")
    pec = value_of(table, "pec", str)
    need(pec in ("off", "on", "optional"), "BadValue")
    pages = value_of(table, "pages", int, 1)
    need(1 <= pages <= 32, "BadPages")
    modes = modes_of(table.get("vout_mode", 0x17), pages)
    entries = CODED if value_of(table, "standard", bool, True) else {}
    vout_direct = None
    if "vout_direct" in table:
        known_keys(table["vout_direct"], ("m", "b", "r", "unsigned"))
        vout_direct = coefficients(table["vout_direct"])
        if value_of(table["vout_direct"], "unsigned", bool, False):
            vout_direct = unsigned(vout_direct)
    value_of(table, "command", list)
    name = value_of(table, "name", str)
    need(name is None or re.fullmatch("[ -~]{1,32}", name), "BadName")
    vid = vid_of(table["vid"], pages) if "vid" in table else None
    phases = value_of(table, "phases", int)
    need(phases is None or 1 <= phases <= 255, "BadValue")
    protect = value_of(table, "protect", bool, False)
    also = value_of(table, "also", list, [])
    for other in also:
        need(type(other) is int, "WrongType")
        need(0 <= other <= 127 and has_number(named, other), "BadValue")
    also = sorted(set(also))
    return Device(address, pec, entries, modes, vout_direct, name, vid, phases, protect, also)


def has_number(values, number):
    """Whether the number is among values of any types."""
    return any(type(value) is int and value == number for value in values)


def modes_of(value, pages):
    """VOUT_MODE at first, of each page: an integer is that of all pages, an array has an item for
    each."""
    items = value if type(value) is list else [value]
    for item in items:
        need(type(item) is int, "WrongType")
        need(0 <= item <= 255, "BadValue")
    if type(value) is int:
        return [value] * pages
    need(len(value) == pages, "BadValue")
    return value


def vid_of(value, pages):
    """The tables of VID codes: one, one for each page, or by the types of VOUT_MODE's bits 4:0."""
    if type(value) is dict:
        need(set(value) <= set(TYPES), "BadValue")
        return {int(one): table_name(value[one]) for one in TYPES if one in value}
    if type(value) is list:
        names = [table_name(one) for one in value]
        need(len(names) == pages, "BadValue")
        return names
    return table_name(value)


def table_name(value):
    need(type(value) is str, "WrongType")
    need(value in TABLES, "BadValue")
    return value


def modes_go_together(device):
    """A VOUT_MODE that is not paged is one for all pages."""
    entry = device.entry(0x20)
    need(entry is None or entry.paged or len(set(device.modes)) == 1, "BadValue")


def can_protect(device):
    """A device that keeps to WRITE_PROTECT has it as one byte, which begins with one of its values."""
    if device.protect:
        entry = device.entry(0x10)
        need(entry and entry.write == "one" and entry.read == "one", "BadValue")
        need(not entry.paged and entry.kind != "status", "BadValue")
        need(entry.initial is None or entry.initial[0] in PROTECTIONS, "BadInitial")


def coefficients(table):
    numbers = []
    for key, least, most in (("m", -32768, 32767), ("b", -32768, 32767), ("r", -9, 9)):
        need(key in table, "MissingKey")
        number = value_of(table, key, int)
        need(least <= number <= most and (key, number) != ("m", 0), "BadCoefficients")
        numbers.append(number)
    return direct(*numbers)


def unsigned(form):
    """DIRECT with words that have no sign."""
    return ("udirect", *form[1:])


def with_command(device, device_table, place, table):
    """The device with a command of the profile."""
    entry = command_of(table)
    before = [code_of(other) for other in device_table["command"][:place]]
    need(entry.code not in before, "CodeTwice")
    need(goes_together(entry), "BadForm")
    if entry.initial is not None:
        entry = entry._replace(initial=initial_of(entry, device.pages))
    return device._replace(entries={**device.entries, entry.code: entry})


def code_of(table):
    return table["code"] if "code" in table else NAMED[table["name"]].code


def command_of(table):
    """A command by its keys, one after the other."""
    known_keys(table, COMMAND_KEYS)
    code = value_of(table, "code", int)
    need(code is None or 0 <= code <= 255, "BadValue")
    need("code" in table or "name" in table, "MissingKey")
    name = value_of(table, "name", str)
    if code is None:
        need(name in NAMED, "UnknownName")
        entry = NAMED[name]
    else:
        need(name is None or re.fullmatch("[A-Z0-9_]{1,32}", name), "BadName")
        entry = Entry(code, "CMD_%02x" % code if name is None else name)
    for key, known in WORDS.items():
        word = value_of(table, key, str)
        need(word is None or word in known, "BadForm")
        if word is not None:
            entry = entry._replace(**{key: None if word == "none" else word})
    kind = value_of(table, "kind", str, entry.kind)
    need(kind in KINDS, "BadValue")
    entry = entry._replace(kind=kind)
    if kind == "direct":
        entry = entry._replace(coefficients=coefficients(table))
    for key in ("m", "b", "r"):
        value_of(table, key, int)
        need(key not in table or kind == "direct", "UnknownKey")
    need("exponent" in table or kind not in ONE_EXPONENT, "MissingKey")
    exponent = value_of(table, "exponent", int)
    need(exponent is None or kind in ("linear11", *ONE_EXPONENT), "UnknownKey")
    need(exponent is None or -16 <= exponent <= 15, "BadValue")
    paged = value_of(table, "paged", bool, entry.paged)
    initial = table.get("initial")
    texts = initial if type(initial) is list else [initial]
    need("initial" not in table or all(type(text) is str for text in texts), "WrongType")
    is_unsigned = value_of(table, "unsigned", bool)
    need(is_unsigned is None or kind == "direct", "UnknownKey")
    if is_unsigned:
        entry = entry._replace(coefficients=unsigned(entry.coefficients))
    entry = entry._replace(exponent=exponent, paged=paged, initial=initial)
    unit = value_of(table, "unit", str)
    need(unit is None or entry.is_number(), "UnknownKey")
    need(unit is None or re.fullmatch("[ -~]{1,16}", unit), "BadValue")
    if unit is None and "code" not in table and "kind" not in table:
        unit = entry.unit
    bits = bits_of(entry, table) if "bits" in table else None
    phased = value_of(table, "phased", bool, False)
    return entry._replace(unit=unit, bits=bits, phased=phased)


def bits_of(entry, table):
    """The names that a profile gives bits, from the lowest up."""
    given = value_of(table, "bits", dict)
    need(entry.kind == "status", "UnknownKey")
    bits = TYPES[: 8 if (entry.read or entry.write) == "one" else 16]
    need(set(given) <= set(bits), "BadValue")
    found = {}
    for bit in bits:
        if bit in given:
            name = value_of(given, bit, str)
            need(re.fullmatch("[A-Z0-9_]{1,32}", name) and name not in found.values(), "BadName")
            found[int(bit)] = name
    return found


def goes_together(entry):
    """Whether the parts of a command go together."""
    if not (entry.write or entry.read or entry.call):
        return False
    if entry.write not in (None, "zero", entry.read) and entry.read:
        return False
    if entry.code in (0x00, 0x03, 0x20, 0x30, 0x7E):
        own = CODED[entry.code]
        if entry.write not in (None, own.write) or entry.read not in (None, own.read):
            return False
        if entry.call not in (None, own.call):
            return False
    if entry.code in (0x00, 0x03, 0x20, 0x30) and entry.kind != "raw":
        return False
    if entry.code == 0x00 and entry.paged:
        return False
    form = entry.read or entry.write
    if entry.kind == "status":
        return form in ("one", "two")
    return not entry.is_number() or form == "two"


def initial_of(entry, pages):
    """The bytes that a command holds at first: the same on each page, or a list."""
    form = entry.form_held()
    need(entry.code not in (0x00, 0x20) and form, "BadInitial")
    if isinstance(entry.initial, str):
        return bytes_of(form, entry.initial)
    need(entry.paged and len(entry.initial) == pages, "BadInitial")
    return [bytes_of(form, text) for text in entry.initial]


def bytes_of(form, text):
    """The bytes of a form that a text has."""
    need(re.fullmatch("([0-9a-fA-F]{2})*", text), "BadInitial")
    held = bytes.fromhex(text)
    need(len(held) <= 255 if form == "block" else len(held) == SIZES[form], "BadInitial")
    return held


def toml_text(text):
    """A text as TOML, with escapes for what can't stand in it."""
    plain = lambda char: " " <= char <= "~" and char not in '"\\'
    return '"%s"' % "".join(char if plain(char) else "\\u%04x" % ord(char) for char in text)


def toml(value):
    """A value as TOML, on one line."""
    if isinstance(value, bool):
        return "true" if value else "false"
    if isinstance(value, dict):
        return "{ %s }" % ", ".join("%s = %s" % (key, toml(value[key])) for key in value)
    if isinstance(value, list):
        return "[ %s ]" % ", ".join(toml(one) for one in value)
    return toml_text(value) if isinstance(value, str) else str(value)


def text_of(table):
    """A whole table as a TOML text."""
    return "".join("%s = %s\n" % (key, toml(table[key])) for key in table).encode()
