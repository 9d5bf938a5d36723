"""Hostile profiles: each is made from code, and is taken or refused by its name, in little time and
memory."""

import random
import re

try:
    import tomllib
except ImportError:  # before Python 3.11
    tomllib = None

from inputs import SAMPLE, SEED
from program import name_of, short, tells_fault

# The longest profile that is read.
LIMIT = 1_048_576
# Processor time: docs/mistakes.md says two seconds, which other work on the machine can double. Most
# take a tenth of it.
SECONDS = 4.0
# docs/mistakes.md says 41 MB at most, but for the profiles below.
PEAK_KILOBYTES = 64_000
PEAKS_OF_SOME = {
    "arrays, 78 deep, side by side": 100_000,
    "an array of tables of one key": 200_000,
    "inline tables, 78 deep, side by side": 280_000,
    "dotted keys, 78 deep, each with a front of its own": 660_000,
    "dotted keys of one inline table, each with a front of its own": 660_000,
    "tables, 78 deep, each with a front of its own": 660_000,
    "arrays of tables, 78 deep, each with a front of its own": 660_000,
}
# docs/devices.md says 145 MB for the largest bus.
LARGEST_BUS_KILOBYTES = 160_000

TAKEN = (0, b"")


def refused(name, place=""):
    return (2, f"pmb: profile: {name}{place}\n".encode())


def fill(head, unit, tail="", size=LIMIT):
    """`head`, then `unit` as often as there is room, then `tail`, and spaces up to the size."""
    count = (size - len(head) - len(tail)) // len(unit)
    text = head + unit * count + tail
    return text + "\n" + " " * (size - len(text) - 1) if len(text) < size else text


def numbered(head, form, tail="", size=LIMIT, joint=""):
    """`head`, then items made from 0, 1, 2 .. as many as there is room for, then `tail`."""
    parts, room, number = [head], size - len(head) - len(tail), 0
    while True:
        item = (joint if number else "") + form(number)
        if len(item) > room:
            break
        parts.append(item)
        room -= len(item)
        number += 1
    return "".join(parts) + tail


def nested(opens, closes, head="device = ", middle="", size=LIMIT):
    depth = (size - len(head) - len(middle)) // (len(opens) + len(closes))
    return head + opens * depth + middle + closes * depth


def form_of(code):
    return {0x03: "write='zero'", 0x30: "call='block'"}.get(code, "read='one'")


def all_commands(size):
    """64 devices with 256 commands each, and a comment up to the size."""
    devices = []
    for address in range(0x10, 0x50):
        commands = ",".join(f"{{code={c},{form_of(c)}}}" for c in range(256))
        devices.append(f"{{address={address},pec='off',command=[{commands}]}}")
    text = "device=[" + ",".join(devices) + "]\n"
    return text + "#" * (size - len(text))


def long_initials(size):
    """Devices with blocks of 255 bytes at first, as many as there is room for."""
    codes = [c for c in range(256) if c not in (0x00, 0x03, 0x20, 0x30, 0x7e)]
    text = []
    room = size
    for address in range(0x10, 0x50):
        head = f"[[device]]\naddress={address}\npec='off'\nstandard=false\n"
        if room < len(head):
            break
        text.append(head)
        room -= len(head)
        for code in codes:
            digits = f"{code:02x}" * 255
            item = f"[[device.command]]\ncode={code}\nread='block'\ninitial='{digits}'\n"
            if len(item) > room:
                break
            text.append(item)
            room -= len(item)
    return "".join(text) + "#" * room


def lists_of_pages(size):
    """Devices with a mode of each page, and blocks without bytes on each of 32 pages, as many as there
    is room for."""
    codes = [c for c in range(256) if c not in (0x00, 0x03, 0x20, 0x30, 0x7e)]
    modes = ",".join(str(page) for page in range(32))
    empty = ",".join(["''"] * 32)
    text, room = [], size
    for address in range(0x10, 0x50):
        head = f"[[device]]\naddress={address}\npec='off'\nstandard=false\npages=32\nvout_mode=[{modes}]\n"
        items = [f"[[device.command]]\ncode={code}\nread='block'\npaged=true\ninitial=[{empty}]\n"
                 for code in codes]
        for item in [head] + items if len(head) <= room else []:
            if len(item) > room:
                break
            text.append(item)
            room -= len(item)
    return "".join(text) + "#" * room


def units_and_bits(size, key):
    """Devices whose commands have a key of the longest kind, as many as there is room for."""
    codes = [c for c in range(256) if c not in (0x00, 0x03, 0x20, 0x30, 0x7e)]
    text, room = [], size
    for address in range(0x10, 0x50):
        head = f"[[device]]\naddress={address}\npec='off'\nstandard=false\nphases=255\n"
        items = [f"[[device.command]]\ncode={code}\nread='two'\nphased=true\n{key}\n" for code in codes]
        for item in [head] + items if len(head) <= room else []:
            if len(item) > room:
                break
            text.append(item)
            room -= len(item)
    return "".join(text) + "#" * room


LONG_UNIT = "kind='half'\nunit='0123456789abcdef'"
LONG_BITS = "kind='status'\nbits={%s}" % ",".join(f"{bit}='{bit:X}{'A' * 31}'" for bit in range(16))


def profiles():
    """The name of each, its bytes, and what is answered."""
    for size in (LIMIT, LIMIT - 1):
        yield f"64 x 256 commands, {size}", all_commands(size), TAKEN
        yield f"blocks of 255 bytes, {size}", long_initials(size), TAKEN
        yield f"a mode and blocks of each of 32 pages, {size}", lists_of_pages(size), TAKEN
        yield f"commands with units, {size}", units_and_bits(size, LONG_UNIT), TAKEN
        yield f"commands with names of 16 bits, {size}", units_and_bits(size, LONG_BITS), TAKEN
    first = " in device 0 command 0"
    not_toml = refused("NotToml")
    unknown = refused("UnknownKey")
    wrong = refused("WrongType")
    many = refused("TooManyDevices")
    missing = refused("MissingKey")
    bad = refused("BadValue")

    # nesting
    yield "arrays, one in another", nested("[", "]"), not_toml
    yield "arrays, 79 deep", "device = " + "[" * 79 + "]" * 79, refused("WrongType", " in device 0")
    yield "arrays without an end", fill("device = ", "["), not_toml
    yield "inline tables, one in another", nested("{a=", "}", middle="1"), not_toml
    yield "inline tables without an end", fill("device = ", "{a="), not_toml
    yield "arrays and tables, one in another", nested("[{a=", "}]", middle="1"), not_toml
    yield "closing brackets", fill("device = ", "]"), not_toml

    # keys
    yield "the longest key", "a" * (LIMIT - 2) + "=1", unknown
    yield "the longest key in quotes", '"' + "a" * (LIMIT - 4) + '"=1', unknown
    yield "the longest key of escapes", fill('"', "\\u0041", '"=1'), unknown
    yield "a key without an end", '"' + "a" * (LIMIT - 1), not_toml
    yield "dotted keys, one in another", fill("a", ".a", "=1"), not_toml
    yield "dotted keys, 79 deep", "a" + ".a" * 78 + "=1", unknown
    yield "dotted keys, side by side", numbered("", lambda n: f"a.{n}=1\n"), unknown
    yield ("dotted keys, 79 deep, side by side",
           numbered("", lambda n: "a" + ".a" * 75 + f".{n}=1\n"), unknown)
    yield ("dotted keys, 78 deep, each with a front of its own",
           numbered("", lambda n: f"{n}" + ".a" * 77 + "=1\n"), unknown)
    yield ("dotted keys of one inline table, each with a front of its own",
           numbered("a={", lambda n: f"{n}" + ".a" * 76 + "=1", "}", joint=","), unknown)
    yield "dotted keys in inline tables", numbered("a={", lambda n: f"a.{n}=1", "}", joint=","), unknown
    yield "the most keys", numbered("", lambda n: f"{n}=1\n"), unknown
    yield "the most keys, backwards", numbered("", lambda n: f"{999999 - n}=1\n"), unknown
    yield "the most keys, the last twice", numbered("", lambda n: f"{n}=1\n", "0=1"), not_toml
    yield "keys with a long front in common", numbered("", lambda n: "a" * 1000 + f"{n}=1\n"), unknown
    yield "the longest key twice", ("a" * (LIMIT // 2 - 4) + "=1\n") * 2, not_toml

    # tables
    yield "headers, one in another", fill("[a", ".a", "]"), not_toml
    yield "the most tables", numbered("", lambda n: f"[{n}]\n"), unknown
    yield "tables of one table", numbered("", lambda n: f"[a.{n}]\n"), unknown
    yield "tables, 79 deep, side by side", numbered("", lambda n: "[a" + ".a" * 75 + f".{n}]\n"), unknown
    yield ("tables, 78 deep, each with a front of its own",
           numbered("", lambda n: f"[{n}" + ".a" * 77 + "]\n"), unknown)
    yield ("arrays of tables, 78 deep, each with a front of its own",
           numbered("", lambda n: f"[[{n}" + ".a" * 77 + "]]\n"), unknown)
    yield "the most devices", fill("", "[[device]]\n"), many
    yield "the most arrays of tables", numbered("", lambda n: f"[[{n}]]\n"), unknown
    yield ("arrays of tables in the last device",
           fill("[[device]]\n", "[[device.a]]\n"), refused("UnknownKey", " in device 0"))
    yield ("empty commands",
           fill("[[device]]\naddress=16\npec='off'\n", "[[device.command]]\n"),
           refused("MissingKey", first))
    bus = "".join(f"[[device]]\naddress={a}\npec='off'\n" for a in range(16, 79))
    yield ("the last of 64 devices with the most keys",
           numbered(bus + "[[device]]\n", lambda n: f"{n}=1\n"), refused("UnknownKey", " in device 63"))
    yield ("257 commands",
           numbered("[[device]]\naddress=16\npec='off'\n", lambda n: (
               f"[[device.command]]\ncode={n % 256}\n{form_of(n % 256)}\n")),
           refused("CodeTwice", " in device 0 command 256"))

    # arrays
    yield "the most arrays", fill("device=[", "[],", "]"), many
    yield ("the most arrays in an array",
           fill("device=[[", "[],", "]]"), refused("WrongType", " in device 0"))
    yield "arrays, 78 deep, side by side", fill("device=[", "[" * 78 + "]" * 78 + ",", "]"), many
    yield ("inline tables, 78 deep, side by side",
           fill("device=[", "{a=" * 78 + "1" + "}" * 78 + ",", "]"), many)
    yield "an array of tables of one key", fill("device=[", "{a=1},", "]"), many
    yield "the most inline tables", fill("device=[", "{},", "]"), many
    yield "the most integers", fill("device=[", "1,", "]"), many
    yield "the most integers of another key", fill("a=[", "1,", "]"), unknown
    yield "the most addresses to ignore", fill("ignore=[", "1,", "]\ndevice=[]"), TAKEN
    yield "the most addresses to ignore, the last none", fill("ignore=[", "1,", "128]\ndevice=[]"), bad
    yield "the most other addresses", fill("[[device]]\naddress=16\npec='off'\nalso=[", "16,", "]"), TAKEN
    yield ("the most other addresses, the last no device's",
           fill("[[device]]\naddress=16\npec='off'\nalso=[", "16,", "17]"),
           refused("BadValue", " in device 0"))
    yield ("the most modes of pages",
           fill("[[device]]\naddress=16\npec='off'\nvout_mode=[", "1,", "]"),
           refused("BadValue", " in device 0"))
    yield ("the most first bytes of pages",
           fill("[[device]]\naddress=16\npec='off'\n[[device.command]]\nname='READ_VIN'\ninitial=[", "'00d3',", "]"),
           refused("BadInitial", first))
    yield "the most booleans", fill("device=[", "true,", "]"), many
    yield "the most floats", fill("device=[", "0.,".replace(".", ".0"), "]"), many
    yield "the most dates", fill("device=[", "1979-05-27,", "]"), many
    yield "the most empty strings", fill("device=[", "'',", "]"), many
    yield "an array of ends of lines", fill("device=[", "\n", "]"), TAKEN
    yield "an array of comments", fill("device=[", "#\n", "]"), TAKEN

    # strings
    yield "the longest string", fill('device="', "a", '"'), wrong
    yield "the longest literal string", fill("device='", "a", "'"), wrong
    yield "the longest string of lines", fill('device="""', "a\n", '"""'), wrong
    yield "the longest string of quotes", fill('device="""', '""a', '"""'), wrong
    yield "the longest string of escapes", fill('device="', "\\u0041", '"'), wrong
    yield "a string without an end", fill('device="', "a"), not_toml
    yield "a string of lines without an end", fill('device="""', "\n"), not_toml
    yield "a string of joined lines", fill('device="""', "\\\n", '"""'), wrong
    yield ("the longest string of wide characters",
           ("device='" + "\u00e9" * ((LIMIT - 9) // 2) + "'").encode(), wrong)
    command = "[[device]]\naddress=16\npec='off'\n[[device.command]]\n"
    initial = command + "name='MFR_ID'\ninitial='"
    yield "the longest initial", fill(initial, "0", "'"), refused("BadInitial", first)
    yield ("the longest initial, the last no digit",
           fill(initial, "0", "g'"), refused("BadInitial", first))
    yield "the longest name", fill(command + "code=1\nname='", "A", "'"), refused("BadName", first)
    yield ("the longest name of a device",
           fill("[[device]]\naddress=16\npec='off'\nname='", "A", "'"), refused("BadName", " in device 0"))
    word = command + "name='STATUS_WORD'\nbits={"
    yield "the longest unit", fill(command + "name='READ_VIN'\nunit='", "a", "'"), refused("BadValue", first)
    yield "the longest name of a bit", fill(word + "0='", "A", "'}"), refused("BadName", first)
    yield "the longest number of a bit", fill(word, "0", "='A'}"), refused("BadValue", first)
    yield ("the most names of bits",
           numbered(word, lambda n: f"{n}='A{n}'", "}", joint=","), refused("BadValue", first))
    yield "the longest name of none", fill(command + "name='", "A", "'"), refused("UnknownName", first)

    # numbers
    yield "the longest integer", fill("device=", "1"), not_toml
    yield "the longest integer with underscores", fill("device=1", "_1"), not_toml
    yield "the longest hexadecimal integer", fill("device=0x", "0"), wrong
    yield "the longest float", fill("device=0.", "1"), wrong
    # A float out of the range of 64 bits is no TOML for the reader, as such an integer is.
    yield "the longest front of a float", fill("device=1", "0", ".0"), not_toml
    yield "the longest exponent", fill("device=1e", "9"), not_toml
    yield "the longest fraction of a second", fill("device=1979-05-27T00:00:00.", "1"), wrong

    # lines
    yield "the most comment lines", fill("device=[]\n", "#\n"), TAKEN
    yield "comment lines alone", fill("", "#\n"), missing
    yield "one endless comment", fill("device=[]#", "a"), TAKEN
    yield "one endless line", "a" * LIMIT, not_toml
    yield "one line of spaces", " " * LIMIT, missing
    yield "empty lines", "\n" * LIMIT, missing
    yield "empty lines with carriage returns", fill("", "\r\n"), missing
    yield "carriage returns", "\r" * LIMIT, not_toml
    yield "bytes of no text", b"\xff" * LIMIT, not_toml
    yield "a comment whose last byte is of no text", b"#" * (LIMIT - 1) + b"\xff", not_toml
    yield "bytes of value 0", b"\0" * LIMIT, not_toml
    yield "lines that almost end the profile", fill("", "%\n"), not_toml
    yield "one byte too many", " " * (LIMIT + 1), (2, b"pmb: profile too long\n")
    yield "one line of ten megabytes", "a" * (10 * LIMIT), (2, b"pmb: profile too long\n")


def largest_bus():
    """The profile whose devices have the most to hold: 64 of them, with 251 blocks on 32 pages."""
    codes = [it for it in range(256) if it not in (0x00, 0x03, 0x20, 0x30, 0x7E)]
    command = "{{code={},write='block',read='block',paged=true}}"
    commands = ",".join(map(command.format, codes))
    device = "[[device]]\naddress={}\npec='off'\npages=32\nstandard=false\ncommand=[{}]\n"
    return "".join(device.format(address, commands) for address in range(0x10, 0x50))


def costs_little(report, run, answer, most, seconds=SECONDS):
    """Holds an answer to the time and the peak of memory that it may take."""
    report.holds(answer.seconds <= seconds, run, f"at most {seconds} s of processor time",
                 answer.seconds)
    peak = answer.counts.peak_kilobytes
    report.holds(0 < peak <= most, run, f"a peak of at most {most} KB", f"{peak} KB")


def describe(program, report, name, text, wanted, most):
    """`profile` takes or refuses a profile as `show` does. One with a fault it may read three times, and
    the last time it holds nothing of it."""
    answer = program.run_once(["profile"], text)
    run = f"pmb profile of a profile: {name}"
    if wanted == TAKEN:
        is_so = (answer.status, answer.err) == TAKEN and answer.out != b""
        costs_little(report, run, answer, most)
    else:
        is_so = tells_fault(["profile"], wanted[1], answer)
        costs_little(report, run, answer, 2 * most, 3 * SECONDS)
    report.holds(is_so, run, short(wanted), (answer.status, answer.err, answer.out))


def hostile_profiles(program, report):
    """`show` of each profile alone, whose capture is empty, and `profile` of it; and `run` on the
    largest bus."""
    count = peak = slowest = 0
    for name, profile, wanted in program.some(profiles()):
        text = profile if isinstance(profile, bytes) else profile.encode()
        answer = program.run_once(["show"], text)
        run = f"pmb show under a profile: {name}"
        report.holds((answer.status, answer.err) == wanted and answer.out == b"", run, short(wanted),
                     (answer.status, answer.err, answer.out))
        most = PEAKS_OF_SOME.get(name, PEAK_KILOBYTES)
        costs_little(report, run, answer, most)
        describe(program, report, name, text, wanted, most)
        count += 1
        peak = max(peak, answer.counts.peak_kilobytes)
        slowest = max(slowest, answer.seconds)
    bus = program.run_once(["run"], largest_bus().encode() + b"%%\nread 10 01\n")
    run = name_of(["run"]) + " on the largest bus"
    report.same(run, (0, b"S 20 A 01 A S 21 A 00 N P\n# empty\n", b""), (bus.status, bus.out, bus.err))
    costs_little(report, run, bus, LARGEST_BUS_KILOBYTES)
    return (f"hostile profiles: {count}, peak {peak // 1000} MB, at most {slowest:.1f} s of processor "
            f"time; the largest bus takes {bus.counts.peak_kilobytes // 1000} MB, {bus.seconds:.1f} s")


# What may stand where a byte was.
BYTES = [bytes([it]) for it in b" \n\r\t#\"'=[]{}.,_-+019afxzAZ%\\\0\x80\xff"]
# The names of docs/mistakes.md.
FAULTS = set(b"""NotToml UnknownKey MissingKey WrongType TooManyDevices BadAddress AddressTwice BadPages
    BadName UnknownName BadValue CodeTwice BadForm BadCoefficients BadInitial""".split())


def changed(rng, text):
    """Each front of a text, the text twice, and with each byte changed to some, removed and doubled."""
    yield from (text[:end] for end in range(len(text)))
    yield text + text
    for at, byte in enumerate(text):
        for other in [b"", bytes([byte] * 2), *rng.sample(BYTES, 4)]:
            yield text[:at] + other + text[at + 1:]


def is_toml(text):
    """Whether Python's own reader takes it."""
    try:
        tomllib.loads(text.decode())
    except (tomllib.TOMLDecodeError, UnicodeDecodeError):
        return False
    return True


def fault_of(err):
    """The name in a line on standard error that tells a fault of a profile; else None."""
    front, _, fault = err.partition(b"pmb: profile: ")
    name = re.match(b"[A-Za-z]+", fault)
    return name[0] if front == b"" and fault[-1:] == b"\n" and name else None


def changed_profiles(program, report):
    """The sample, changed at each place, is taken or refused by a name, and for that it is no TOML
    exactly where Python's reader finds none, where it has one."""
    rng = random.Random(SEED)
    tried = taken = 0
    if tomllib is None:
        print("hostile: Python 3.11 with its tomllib is missing, so profiles beside it were not tried")
        report.skipped += 1
    for text in program.some(changed(rng, SAMPLE)):
        answer = program.run_once(["profile"], text)
        fault = fault_of(answer.err)
        is_named = answer.status == 2 and answer.out == b"" and fault in FAULTS
        is_taken = answer.status == 0 and answer.err == b"" and answer.out != b""
        run = f"pmb profile of a changed sample: {short(text, 600)}"
        report.holds(is_named or is_taken, run, "a bus, or a fault by its name",
                     (answer.status, answer.err))
        if tomllib:
            report.same(run, is_toml(text), fault != b"NotToml")
        tried += 1
        taken += is_taken
    return f"changed profiles: {tried}, of which {taken} are taken"
