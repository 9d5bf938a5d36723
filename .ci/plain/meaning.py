"""What the fields of a command's data say, by docs/meaning.md: a table a command."""

import re

from .packets import Call, Read
from .profiles import ALL_PAGES, ROOT, bit_name

RESERVED = "reserved"


# Values of some bits, which are given as a number

def words(*names):
    """A word for each number from 0 on. Those after them are reserved."""
    return lambda number: names[number] if number < len(names) else RESERVED


def named(**names):
    """A word for some numbers (`_0` and so on); others are reserved."""
    return lambda number: names.get("_%d" % number, RESERVED)


def zero_alone(number):
    return 0 if number == 0 else RESERVED


def signed(number, bits):
    """A number in two's complement."""
    return number - (1 << bits) if number >> (bits - 1) else number


def exponent(number):
    return signed(number, 5)


def retries(number):
    return {0: "none", 7: "unlimited"}.get(number, number)


def revision(number):
    return "1.%d" % number if number < 4 else number


def writable(number):
    return {
        0x00: "all",
        0x20: ["WRITE_PROTECT", "OPERATION", "PAGE", "ON_OFF_CONFIG", "VOUT_COMMAND"],
        0x40: ["WRITE_PROTECT", "OPERATION", "PAGE"],
        0x80: ["WRITE_PROTECT"],
    }.get(number, RESERVED)


def pulses(number):
    return number + 1


def page_of(byte):
    return "all" if byte == ALL_PAGES else byte


# Fields of one byte: the bits, the key, what they say, and when they are a field

def always(byte):
    return True


def mode_is(*modes):
    return lambda byte: (byte >> 5 & 3) in modes


def is_margin(byte):
    return (byte >> 4 & 3) in (1, 2)


def is_supported(byte):
    return byte >= 0x80


OPERATION = [
    (7, 7, "output", words("off", "on"), always),
    (6, 6, "turn_off", words("immediate", "soft"), always),
    (5, 4, "voltage_source",
     words("VOUT_COMMAND", "VOUT_MARGIN_LOW", "VOUT_MARGIN_HIGH", "AVS_VOUT_COMMAND"), always),
    (3, 2, "margin_faults", named(_1="ignore", _2="act"), is_margin),
    (1, 1, "transition", words("keep", "copy"), always),
]
ON_OFF_CONFIG = [
    (4, 4, "power_up", words("any_time", "commanded"), always),
    (3, 3, "operation", words("ignored", "required"), always),
    (2, 2, "control_pin", words("ignored", "required"), always),
    (1, 1, "control_polarity", words("active_low", "active_high"), always),
    (0, 0, "control_off", words("soft", "immediate"), always),
]
WRITE_PROTECT = [(7, 0, "writable", writable, always)]
CAPABILITY = [
    (7, 7, "pec", bool, always),
    (6, 5, "bus_speed", words("100 kHz", "400 kHz", "1 MHz"), always),
    (4, 4, "smbalert", bool, always),
    (3, 3, "numeric_format", words("linear_or_direct", "half"), always),
    (2, 2, "avsbus", bool, always),
]
QUERIED = [
    (7, 7, "supported", bool, always),
    (6, 6, "write", bool, is_supported),
    (5, 5, "read", bool, is_supported),
    (4, 2, "format",
     named(_0="linear", _1="signed_16", _3="direct", _4="unsigned_8", _5="vid", _6="manufacturer",
           _7="not_numeric"), is_supported),
]
VOUT_MODE = [
    (7, 7, "relative", bool, always),
    (6, 5, "mode", words("linear", "vid", "direct", "half"), always),
    (4, 0, "exponent", exponent, mode_is(0)),
    (4, 0, "vid_type", int, mode_is(1)),
    (4, 0, "parameter", zero_alone, mode_is(2, 3)),
]
PMBUS_REVISION = [(7, 4, "part_i", revision, always), (3, 0, "part_ii", revision, always)]


def fans(first, second):
    """The fields of FAN_CONFIG, for its two fans."""
    found = []
    for fan, low in ((first, 4), (second, 0)):
        found += [
            (low + 3, low + 3, "fan_%d_installed" % fan, bool, always),
            (low + 2, low + 2, "fan_%d_command" % fan, words("duty", "rpm"), always),
            (low + 1, low, "fan_%d_pulses" % fan, pulses, always),
        ]
    return found


def response(*names):
    """The fields of a response to a fault, by what bits 7:6 say."""
    return [
        (7, 6, "response", words(*names), always),
        (5, 3, "retries", retries, always),
        (2, 0, "delay_units", int, always),
    ]


OF_VOLTAGES = response("continue", "continue_for_delay", "shut_down", "off_while_fault")
OF_CURRENTS = response("limit", "limit_to_low_voltage", "limit_for_delay", "shut_down")
# One byte that is written or read, and one that is only read.
HELD = {
    "OPERATION": OPERATION, "ON_OFF_CONFIG": ON_OFF_CONFIG, "WRITE_PROTECT": WRITE_PROTECT,
    "VOUT_MODE": VOUT_MODE, "FAN_CONFIG_1_2": fans(1, 2), "FAN_CONFIG_3_4": fans(3, 4),
    **dict.fromkeys(("VOUT_OV_FAULT_RESPONSE", "VOUT_UV_FAULT_RESPONSE", "OT_FAULT_RESPONSE",
                     "UT_FAULT_RESPONSE", "VIN_OV_FAULT_RESPONSE", "VIN_UV_FAULT_RESPONSE",
                     "TON_MAX_FAULT_RESPONSE", "POUT_OP_FAULT_RESPONSE"), OF_VOLTAGES),
    **dict.fromkeys(("IOUT_OC_FAULT_RESPONSE", "IOUT_OC_LV_FAULT_RESPONSE",
                     "IOUT_UC_FAULT_RESPONSE", "IIN_OC_FAULT_RESPONSE"), OF_CURRENTS),
}
TOLD = {"CAPABILITY": CAPABILITY, "PMBUS_REVISION": PMBUS_REVISION}


def fields_of_byte(table, byte):
    return [(key, value(byte >> low & (1 << (high - low + 1)) - 1))
            for high, low, key, value, is_field in table if is_field(byte)]


# Fields of several bytes

def number_of(some):
    """The number of some bytes, the low one first."""
    return sum(byte << 8 * i for i, byte in enumerate(some))


def signed_of(some):
    return signed(number_of(some), 8 * len(some))


def mask(register, byte, name_of):
    """The fields of SMBALERT_MASK; `name_of` gives the name of a bit of a register, or None."""
    bits = [bit for bit in range(7, -1, -1) if byte >> bit & 1]
    return [("register", bytes([register])),
            ("mask", [name_of(register, bit) or "bit%d" % bit for bit in bits])]


def written(name, data, name_of):
    """The fields of data that are written."""
    if name in HELD and len(data) == 1:
        return fields_of_byte(HELD[name], data[0])
    if name == "PAGE_PLUS_WRITE" and len(data) >= 2:
        return [("page", page_of(data[0])), ("code", bytes(data[1:2])), ("data", bytes(data[2:]))]
    if name == "SMBALERT_MASK" and len(data) == 2:
        return mask(data[0], data[1], name_of)
    return []


def read(name, data):
    """The fields of data that are read."""
    if len(data) == 1 and name in {**HELD, **TOLD}:
        return fields_of_byte({**HELD, **TOLD}[name], data[0])
    if name in ("READ_EIN", "READ_EOUT") and len(data) == 6:
        return [("accumulator", number_of(data[:2])), ("rollovers", data[2]),
                ("samples", number_of(data[3:]))]
    return []


def called(name, sent, reply, name_of):
    """The fields of what a call sends, and of its reply."""
    if name == "PAGE_PLUS_READ" and len(sent) == 2:
        return [("page", page_of(sent[0])), ("code", bytes(sent[1:])), ("data", bytes(reply))]
    if name == "QUERY" and (len(sent), len(reply)) == (1, 1):
        return [("code", bytes(sent))] + fields_of_byte(QUERIED, reply[0])
    if name == "SMBALERT_MASK" and (len(sent), len(reply)) == (1, 1):
        return mask(sent[0], reply[0], name_of)
    if name == "COEFFICIENTS" and (len(sent), len(reply)) == (2, 5):
        return [("code", bytes(sent[:1])), ("direction", words("write", "read")(sent[1])),
                ("m", signed_of(reply[:2])), ("b", signed_of(reply[2:4])), ("r", signed_of(reply[4:]))]
    return []


def fields(device, code, told):
    """The fields of the data of a part, a read or a call, with their values; none where the command
    is another than the standard's, or the profile says what its data are."""
    entry = device.entry(code)
    if not entry.is_plain():
        return []
    if isinstance(told, Call):
        return called(entry.name, told.data, told.reply, device.bit_name)
    if isinstance(told, Read):
        return read(entry.name, told.reply)
    return written(entry.name, told.data, device.bit_name)


# As text

def json_value(value):
    if isinstance(value, bool):
        return "true" if value else "false"
    if isinstance(value, bytes):
        return '"%s"' % value.hex()
    if isinstance(value, list):
        return "[%s]" % ",".join('"%s"' % one for one in value)
    return str(value) if isinstance(value, int) else '"%s"' % value


def as_object(found):
    return "{%s}" % ",".join('"%s":%s' % (key, json_value(value)) for key, value in found)


def word_value(value):
    if isinstance(value, bool):
        return "true" if value else "false"
    if isinstance(value, bytes):
        return value.hex(" ") or "none"
    return " ".join(value) or "none" if isinstance(value, list) else str(value)


def as_words(found):
    return ", ".join("%s %s" % (key, word_value(value)) for key, value in found)


# The page's examples

def examples():
    """The rows of the page's two tables of examples: the command, its data (what is sent and what is
    replied, where it is called), and what they say, or None."""
    with open(ROOT + "/docs/meaning.md", encoding="utf-8") as page:
        text = page.read()
    section = text.split("\n## Examples\n")[1]
    for name, data, said in re.findall(r"(?m)^\| ([A-Z0-9_]+) \| (.*?) \| (.*) \|$", section):
        sent, reply = data, None
        if data.startswith("sent "):
            sent, reply = re.fullmatch(r"sent (`.*`), reply (`.*`)", data).groups()
        given = [bytes.fromhex(one.strip("`")) for one in (sent, reply) if one is not None]
        yield name, given, None if said.startswith("none") else said.strip("`")


def differing():
    """How many examples the page has, and those that are told otherwise here, written or read. (What
    is only read has no fields where it is written.)"""
    found, count = [], 0
    for name, given, said in examples():
        if len(given) == 2:
            ways = [called(name, *given, bit_name)]
        else:
            ways = [way for way in (written(name, *given, bit_name), read(name, *given)) if way] or [[]]
        tell = as_object if said is None or said.startswith("{") else as_words
        told = [tell(way) if way else None for way in ways]
        count += 1
        if set(told) != {said}:
            found.append("%s %s: %s, and not %s" % (name, [one.hex() for one in given], told, said))
    return count, found
