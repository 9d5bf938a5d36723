"""Rows that are drawn: profiles, packets, lines, requests and quantities of every kind, most of
them right."""

from fractions import Fraction

from . import lines, numbers, packets, profiles, tables, traffic
from .packets import Alert, Call, NoAlert, Part, Read, Refused, Write

PROFILES = (
    (["--sample"], b"", profiles.SAMPLE),
    ([], profiles.ODD_TEXT + b"%%\n", profiles.ODD),
    ([], profiles.UNLIKE_TEXT + b"%%\n", profiles.UNLIKE),
    ([], profiles.VOLTS_TEXT + b"%%\n", profiles.VOLTS),
    ([], profiles.NAMED_TEXT + b"%%\n", profiles.NAMED),
)
OFTEN = (0x00, 0x01, 0x02, 0x03, 0x04, 0x10, 0x1B, 0x20, 0x21, 0x22, 0x25, 0x30, 0x79, 0x7E, 0x88, 0x8C, 0x99)


def some_bytes(chance, count):
    likely = (0, 1, 0x20, 0x21, 0x40, 0x80, 0xFF)
    return tuple(chance.choice((*likely, chance.randrange(256))) for _ in range(count))


def data(chance, form):
    """Data of a form; seldom of another length."""
    if form in (None, "block") or chance.random() < 0.05:
        return some_bytes(chance, chance.choice((0, 1, 2, 2, 3, 4)))
    return some_bytes(chance, packets.SIZES[form])


def command(chance, profile, has_form):
    """A device and a command of it with some form; seldom another address or code."""
    device = chance.choice(profile.devices)
    entries = [entry for entry in device.entries.values() if has_form(entry)]
    likely = [entry for entry in entries if entry.code in OFTEN or entry.code >= 0xD0]
    entries = likely if likely and chance.random() < 0.7 else entries
    entry = chance.choice(entries) if entries else None
    if entry is None or chance.random() < 0.03:
        entry = profiles.Entry(chance.randrange(256), "")
    address = device.address if chance.random() < 0.97 else chance.randrange(256)
    pec = chance.random() < {"off": 0.03, "on": 0.97, "optional": 0.4}[device.pec]
    return address, entry, pec


def part(chance, profile):
    address, entry, pec = command(chance, profile, lambda entry: entry.write)
    return Part(address, entry.code, data(chance, entry.write), pec)


def parts(chance, profile, count):
    return tuple(part(chance, profile) for _ in range(count))


def transaction(chance, profile):
    """A transaction; `check` says whether it has a packet."""
    kind = chance.choice(("write", "write", "read", "read", "call", "refused", "refused", "alert"))
    if kind == "write":
        return Write(parts(chance, profile, chance.choice((1, 1, 1, 2, 3))))
    if kind == "read":
        address, entry, pec = command(chance, profile, lambda entry: entry.read)
        return Read(address, entry.code, data(chance, entry.read), pec)
    if kind == "call":
        address, entry, pec = command(chance, profile, lambda entry: entry.call)
        sent, reply = data(chance, entry.call), data(chance, entry.call)
        return Call(address, entry.code, sent, reply, pec)
    if kind == "refused":
        return refused(chance, profile)
    return chance.choice((NoAlert(), Alert(chance.randrange(256), chance.random() < 0.5)))


def refused(chance, profile):
    """A packet whose last leg was refused, somewhere."""
    before = parts(chance, profile, chance.choice((0, 0, 0, 1, 2)))
    address, entry, _ = command(chance, profile, lambda entry: True)
    form = chance.choice((entry.write, entry.call, entry.read and "zero"))
    sent = data(chance, form)
    sent = (entry.code, *((len(sent), *sent) if form == "block" else sent))
    if chance.random() < 0.3:
        return Refused(before, address, sent, True)
    sent = (*sent, chance.randrange(256))[: chance.randrange(len(sent) + 2)]
    return Refused(before, address, sent, False)


def packet(chance, profile):
    """The events of a packet; seldom none."""
    drawn = transaction(chance, profile)
    return packets.events_of(profile, drawn) if packets.check(profile, drawn) is None else []


def capture(chance, profile, count):
    """Packets one after the other."""
    events = [event for _ in range(count) for event in packet(chance, profile)]
    return packets.events_text(events)


def flags(chance, profile):
    """Flags of `json` and `log`."""
    addresses = [device.address for device in profile.devices] + (profile.ignored or [])
    return [
        *chance.choice(([], [], ["--late"], ["--late", "--fixed-vout-mode"])),
        *chance.choice(([], ["--keep-going"])),
        *chance.choice(([], [], ["--digits", "2"])),
        *chance.choice(([], [], [], [], ["--device", "%02x" % chance.choice(addresses)])),
    ]


def is_asked(kind, entry):
    """Whether a command is one for a request of a kind."""
    if kind in ("read", "call"):
        return entry.read if kind == "read" else entry.call
    return entry.is_number()


def request_line(chance, profile):
    """A request; the transaction lines of writes are requests too."""
    kind = chance.choice(("write", "write", "read", "call", "set", "get"))
    if kind == "write":
        return lines.line_of(Write(parts(chance, profile, chance.choice((1, 1, 2)))))
    address, entry, pec = command(chance, profile, lambda entry: is_asked(kind, entry))
    words = [kind, "%02x" % address, "%02x" % entry.code]
    if kind == "call":
        words += ["%02x" % byte for byte in data(chance, entry.call)]
    if kind == "set":
        of_mode = entry.is_voltage() or not entry.is_number()
        form = ("ulinear16", -9) if of_mode else entry.number_format()
        words.append(quantity(chance, form if chance.random() < 0.7 else ("ulinear16", -9)))
    return " ".join(words + (["pec"] if pec else []))


def quantity(chance, form):
    """A value of a format, or a number half way to another one, or close to that."""
    ordered, codes = numbers.values(form)
    one = numbers.decode(form, chance.choice(codes))
    place = chance.choice((0, 1, len(ordered) - 2, chance.randrange(len(ordered) - 1)))
    half = Fraction(ordered[place] + ordered[place + 1], 2 * numbers.denominator(form))
    little = Fraction(chance.choice((-1, 0, 0, 1)), 10 ** chance.randrange(1, 9))
    end = Fraction(chance.choice((ordered[0], ordered[-1])), numbers.denominator(form))
    return numbers.text(chance.choice((one, half, half + little, half + little, end + little)))


def rows_under(chance, flag, front, profile):
    """Captures, lines and requests."""
    some = capture(chance, profile, chance.randrange(1, 7)).encode()
    timed = traffic.capture(chance, profile, lambda: packet(chance, profile)).encode()
    volts = traffic.voltages(chance, profile).encode()
    fields = traffic.fields(chance, profile).encode()
    drawn = [lines.line_of(transaction(chance, profile)) for _ in range(6)]
    asked = [request_line(chance, profile) for _ in range(12)]
    return [
        (["show", *flag], front + some),
        (["json", *flag, *flags(chance, profile)], front + timed),
        (["log", *flag, *flags(chance, profile)], front + timed),
        (["json", *flag, *flags(chance, profile)], front + volts),
        (["log", *flag, *flags(chance, profile)], front + volts),
        (["json", *flag, *flags(chance, profile)], front + fields),
        (["log", *flag, *flags(chance, profile)], front + fields),
        (["stats", *flag, *chance.choice(([], ["--json"], ["--json", "--late"]))],
         front + chance.choice((volts, fields))),
        (["stats", *flag, *chance.choice((["--json"], ["--fail-on", "faults"]))], front + fields),
        (["build", *flag], front + "\n".join(drawn).encode()),
        (["run", *flag], front + "\n".join(asked).encode()),
    ]


def rows(chance, count):
    """So many rows of each kind, and four times as many profiles."""
    found = []
    for _ in range(count):
        for flag, front, profile in PROFILES:
            found += rows_under(chance, flag, front, profile)
        word = chance.choice(FORMATS)
        form = numbers.format_of(word)
        quantities = [quantity(chance, form) for _ in range(30)]
        found.append((["encode", word], "\n".join(quantities).encode()))
        codes = ["%04x" % some_code(chance) for _ in range(30)]
        found.append((["decode", word], "\n".join(codes).encode()))
    for _ in range(4 * count):
        found.append((["decode", format_word(chance)], b"d300\n0001\n"))
        table = profile_table(chance)
        text = tables.text_of(table)
        try:
            profile = profiles.KNOWN[text] = tables.profile_of(table)
        except numbers.Fault as fault:
            profiles.FAULTS[text] = str(fault)
            found.append((["check"], text))
            continue
        if profile.devices:
            found += rows_under(chance, [], text + b"%%\n", profile)
    return found


def some_code(chance):
    """A code; often one that a VID table may have, or an IEEE half that is no number."""
    codes = (chance.randrange(2**16), chance.randrange(0x104), 0x7C00 | chance.randrange(2**16))
    return chance.choice(codes)


def long_rows(chance):
    """Rows that are longer than what the program reads at once."""
    found = []
    for flag, front, profile in PROFILES:
        some = capture(chance, profile, 4000).encode()
        found += [([task, *flag], front + some) for task in ("show", "check")]
        drawn = [lines.line_of(transaction(chance, profile)) for _ in range(4000)]
        found.append((["build", *flag], front + "\n".join(drawn).encode()))
        asked = [request_line(chance, profile) for _ in range(4000)]
        found.append((["run", *flag], front + "\n".join(asked).encode()))
    quantities = [quantity(chance, ("linear11",)) for _ in range(4000)]
    found.append((["encode", "linear11"], "\n".join(quantities).encode()))
    codes = ["%04x" % chance.randrange(2**16) for _ in range(12000)]
    found.append((["decode", "direct:7,-5,-9"], "\r\n".join(codes).encode()))
    return found


def format_word(chance):
    """A FORMAT with one character changed, removed or doubled. None begins with a dash, since that
    may be a flag."""
    word = chance.choice(FORMATS + [
        "vout:0F", "ulinear16:127", "direct:32767,-32768,9", "udirect:-32768,32767,-9"])
    at = chance.randrange(1, len(word))
    other = chance.choice(("", word[at] * 2, *"0123456789abfF:,.-+ x"))
    return word[:at] + other + word[at + 1:]


# Profiles

def spoiled(chance, table, seldom=0.01):
    """A table with a key too many, one too few, or a value of another type, now and then."""
    table = {key: value for key, value in table.items() if value is not None}
    if chance.random() < seldom:
        keys = ("colour", "m", "code", "name", "address", "vid", "unsigned", "exponent", "unit",
                "bits", "phased", "phases", "protect", "also")
        table[chance.choice(keys)] = 1
    for key in list(table):
        if chance.random() < seldom:
            others = (1.5, "x", True, 7, -1, 300, [], {}, [7], [1.5, 7], ["00", 7], {"1": 7},
                      "vr12", ["vr12", 7], {"1": "vr12", "x": "vr12"}, {"7": "A", "8": "B"})
            table[key] = chance.choice(others)
        elif chance.random() < seldom / 3:
            del table[key]
    return table


def often(chance, share, *values):
    """One of the values, or None for a key that isn't there."""
    return chance.choice(values) if chance.random() < share else None


def profile_table(chance):
    devices = [device_table(chance) for _ in range(chance.choice((1, 1, 2, 3)))]
    addresses = [device.get("address", 0x10) for device in devices]
    for device in devices:
        if chance.random() < 0.3:
            device["also"] = other_addresses(chance, addresses)
    if chance.random() < 0.02:
        devices[-1] = 1
    return spoiled(chance, {"ignore": ignored(chance), "device": devices})


def ignored(chance):
    """Addresses that speak no PMBus; seldom one of a device, or one that is no address."""
    if chance.random() < 0.6:
        return None
    drawn = chance.sample(range(0x78, 0x80), chance.randrange(4)) + [0x0C] * chance.randrange(3)
    if chance.random() < 0.2:
        drawn += [chance.randrange(0x78), chance.choice((0, 127, 127, chance.choice((128, -1))))]
    chance.shuffle(drawn)
    return drawn


def other_addresses(chance, addresses):
    """Addresses of devices; seldom one that no device has, or one that is no address."""
    drawn = [chance.choice(addresses) for _ in range(chance.choice((0, 1, 1, 2, 3)))]
    if chance.random() < 0.05:
        drawn.append(chance.choice((0x00, 0x5B, 127, 128, -1)))
    chance.shuffle(drawn)
    return drawn


def device_table(chance):
    pages = often(chance, 0.5, 1, 2, 2, 2, 3, 3, 3, 32, chance.choice((0, 33, 2, 2)))
    mode = lambda: chance.choice((0x13, 0x13, 0x1F, 0x0F, 0x40, 0x40, 0x97, *traffic.MODES))
    commands = [command_table(chance, pages or 1) for _ in range(chance.randrange(5))]
    return spoiled(chance, {
        "address": chance.choice((*range(0x08, 0x78), 0x07, 0x0C, 0x78)),
        "pec": chance.choice(("off", "on", "optional", "optional")),
        "pages": pages,
        "vout_mode": often(chance, 0.6, mode(), of_each_page(chance, pages or 1, mode)),
        "standard": often(chance, 0.5, True, False),
        "vout_direct": vout_direct(chance) if chance.random() < 0.3 else None,
        "command": commands or None,
        "name": often(chance, 0.4, device_name(chance)),
        "vid": often(chance, 0.5, vid_tables(chance, pages or 1)),
        "phases": often(chance, 0.35, 1, 2, 4, 255, chance.choice((0, 2, 2, 256))),
        "protect": often(chance, 0.3, True, True, True, False),
    })


def of_each_page(chance, pages, item):
    """A list with an item for each page; seldom with one more or one less, or with the same ones."""
    count = pages + (chance.choice((-1, 1)) if chance.random() < 0.05 else 0)
    if chance.random() < 0.2:
        return [item()] * count
    return [item() for _ in range(count)]


def vid_tables(chance, pages):
    """What `vid` names, in one of its shapes; seldom a table or a type that there isn't."""
    table = lambda: chance.choice(TABLES) if chance.random() < 0.99 else chance.choice(("VR12", ""))
    shape = chance.choice(("one", "pages", "types"))
    if shape == "one":
        return table()
    if shape == "pages":
        return of_each_page(chance, pages, table)
    types = chance.sample(range(32), chance.choice((0, 1, 2, 32))) + [0, 1, 2]
    found = {str(one): table() for one in types[: chance.choice((0, 3, 35))]}
    if chance.random() < 0.03:
        found[chance.choice(("32", "01", "-1", "x", "1_0"))] = table()
    return found


def device_name(chance):
    """A name of a device; seldom one that is too long, or has another character."""
    length = chance.choice((1, 8, 32, chance.randrange(34)))
    drawn = "".join(chr(chance.randrange(0x20, 0x7F)) for _ in range(length))
    return drawn + chance.choice("\t\x1f\x7f\xe9\u2126") if chance.random() < 0.05 else drawn


def unit(chance):
    """A unit; seldom one that is too long, or has another character."""
    length = chance.choice((1, 2, 16, chance.randrange(18)))
    drawn = "".join(chr(chance.randrange(0x20, 0x7F)) for _ in range(length))
    return drawn + chance.choice("\t\x1f\x7f\xb0\u2126") if chance.random() < 0.05 else drawn


def bits(chance, count):
    """Names of bits; seldom a bit that there isn't, a name that is none, or one twice."""
    chosen = chance.sample(range(count), chance.choice((0, 1, 2, 3, count)))
    found = {str(bit): "BIT_%d" % bit for bit in chosen}
    if chance.random() < 0.05:
        found[chance.choice(("8", "15", "16", "01", "x"))] = "OTHER"
    if found and chance.random() < 0.05:
        bit = chance.choice(list(found))
        found[bit] = chance.choice(("a", "", "BIT_0", "BIT_3", "A" * 33, 1))
    return found


def coefficients_table(chance):
    return spoiled(chance, {
        "m": chance.choice((1, -1, 3, 6720, -32768, 32767, chance.choice((0, 32768, 5)))),
        "b": chance.choice((0, 2, -5, 32767, -32768)),
        "r": chance.choice((0, 1, -1, 3, -9, 9, chance.choice((10, 2)))),
    })


def vout_direct(chance):
    """The coefficients of output voltages, now and then of words without a sign."""
    found = coefficients_table(chance)
    if chance.random() < 0.4:
        found["unsigned"] = chance.choice((True, True, False, chance.choice((1, "true", True))))
    return found


def command_table(chance, pages):
    """A standard command changed, or one of its own, most often with parts that go together."""
    form = chance.choice(("one", "two", "two", "two", "four", "eight", "block"))
    kind = chance.choice(("raw", "raw", "raw", "text", "status" if form == "one" else "raw"))
    if form == "two":
        of_old = ("linear11", "vout", "vout_signed", "direct", "direct", "status", "raw", "text")
        of_new = ("half", "ulinear16", "slinear16", "vid:" + chance.choice(TABLES))
        kind = chance.choice(of_old + of_new)
    elif chance.random() < 0.02:
        kind = chance.choice(("half", "slinear16", "vid:vr12"))
    size = {"four": 4, "eight": 8, "one": 1, "two": 2}.get(form, 3)
    share = {"linear11": 0.3, "ulinear16": 0.95, "slinear16": 0.95}.get(kind, 0.02)
    command = {
        "code": chance.choice((*range(0xD0, 0xFF), chance.choice((0x00, 0x20, 0x21, 0x30, 0x7E)))),
        "name": often(chance, 0.3, "RATIO", "X_9", "A" * 32, chance.choice(("A" * 33, "a", "B"))),
        "write": chance.choice((form, form, "none", "zero", None)),
        "read": chance.choice((form, form, form, "none", None)),
        "call": often(chance, 0.2, "two", "block", "none"),
        "kind": often(chance, 0.9, kind if chance.random() < 0.99 else chance.choice(NO_KINDS)),
        "exponent": often(chance, share, -3, 15, -16, 0, chance.choice((16, -17, -9))),
        "paged": often(chance, 0.5, True, False),
        "initial": often(chance, 0.2, "41" * size, "fF" * size, "4" * size),
        "unsigned": often(chance, 0.4 if kind == "direct" else 0.02, True, True, False),
        "unit": often(chance, 0.02 if kind in ("raw", "status", "text") else 0.4, unit(chance)),
        "bits": often(chance, 0.6 if kind == "status" else 0.01, bits(chance, 8 if form == "one" else 16)),
        "phased": often(chance, 0.2, True, True, False),
    }
    if command["paged"] and chance.random() < 0.3 or chance.random() < 0.02:
        command["initial"] = of_each_page(chance, pages, lambda: digits(chance, size))
    if kind == "direct":
        command.update(coefficients_table(chance))
    if chance.random() < 0.4:
        del command["code"]
        names = [entry.name for entry in profiles.STANDARD if entry.code in OFTEN]
        command["name"] = chance.choice((
            *names, "VIN_ON", "READ_VOUT", "OPERATION", "STATUS_VOUT", "IOUT_CAL_GAIN", "MFR_IDS"))
        for key in ("write", "read", "call", "kind", "paged", "exponent", "initial", "unsigned",
                    "unit", "bits", "phased"):
            if chance.random() < 0.8:
                command[key] = None
        if chance.random() < 0.2:
            size = 1 if "STATUS_CML" == command["name"] else 2
            command["initial"] = of_each_page(chance, pages, lambda: digits(chance, size))
        if command["name"] == "WRITE_PROTECT":
            command["initial"] = often(chance, 0.5, "80", "40", "20", "00", "41")
    return spoiled(chance, command)


def digits(chance, size):
    """What a register of so many bytes begins with."""
    return chance.choice(("41", "fF", "00", "18", "7e")) * size


TABLES = tuple(numbers.TABLES)
NO_KINDS = ("vid", "vid:", "vid:vr14", "HALF", "half ", "udirect", "linear16", "ulinear16:-9")
FORMATS = """linear11 linear11:-3 linear11:15 ulinear16:-9 slinear16:-16 vout:17 direct:3,2,1
direct:-32768,32767,9 direct:7,-5,-9 half vid:vr11 vid:vr12 vid:vr13 vid:imvp9 vid:amd625mv
vid:nvidia195mv udirect:3,2,1 udirect:-7,5,-9""".split()
