"""The rows of bench/kinds.txt that count a run of the program. Those of the library are in calls.c.

A row has a name, the program's words, what it reads, and how many of what it names that has. The
figure is the instructions of the run, less those of a run on `nothing`, for one of them. A start has
none of that: its figure is the whole run.
"""

from collections import namedtuple

from packets import KINDS, MIX, SPELLINGS

PACKETS = 1000
# How many of what takes longer.
FEW = 100


class Row(namedtuple("Row", "name words text count nothing status", defaults=(1, None, 0))):
    """`status` is the one that the run has to end with; the run on nothing may have 0 or 1."""
    __slots__ = ()


# ---- profiles

ONE = '[[device]]\naddress = 0x58\npec = "optional"\n'
ADDRESSES = list(range(0x20, 0x60))
OWN = "".join(f'[[device.command]]\ncode = {code}\nname = "OWN_{code:02X}"\nwrite = "two"\nread = "two"\n'
              for code in range(0xD0, 0xF8))
# 64 devices, each with 40 commands of its own.
MANY = "".join(f'[[device]]\naddress = {it}\npec = "off"\n{OWN}' for it in ADDRESSES)
FAULTY = ONE + '[[device.command]]\nnmae = "READ_VIN"\n'
FRONT = MANY + "%%\n"


# ---- captures

def of_kinds():
    for task in ("show", "check", "json"):
        for kind, packet in KINDS.items():
            yield Row(f"{task}: {kind}", [task, "--sample"], packet * PACKETS, PACKETS, "",
                      int(kind.startswith("refusal")))


def of_spellings():
    """The mix of canonical packets, spelled in each way."""
    times = PACKETS // len(MIX)
    for task in ("show", "check", "json"):
        for name, spell in SPELLINGS.items():
            text = "".join(map(spell, MIX)) * times
            yield Row(f"{task}, spelled: {name}", [task, "--sample"], text, times * len(MIX), "")
    text = "".join(MIX) * times
    yield Row("json: a byte of the mix", ["json", "--sample"], text, len(text), "")
    for name, words in {
        "log: a packet of the mix": ["log"],
        "stats: a packet of the mix": ["stats"],
        "stats --json: a packet of the mix": ["stats", "--json"],
        "json --late --keep-going: a packet of the mix": ["json", "--late", "--keep-going"],
        "json --device 59: a packet of the mix": ["json", "--device", "59"],
    }.items():
        yield Row(name, [*words, "--sample"], text, times * len(MIX), "")
    yield Row("scan: a packet of the mix", ["scan"], text, times * len(MIX), "")


def of_captures():
    bad = "S b0 A 21 A hm 18 A P\n" * FEW
    for task in ("json", "log", "stats"):
        yield Row(f"{task} --keep-going: a bad line", [task, "--sample", "--keep-going"], bad, FEW, "", 1)
    to_each = "".join(f"S {2 * it:02x} A 21 A 00 A 18 A P\n" for it in ADDRESSES)
    for task in ("show", "check", "json", "log", "stats"):
        yield Row(f"{task}, 64 devices: write word", [task], FRONT + to_each * 16, 16 * 64, FRONT)


# ---- recordings: a write and a read of a word with their packet error codes, again and again

def sigrok(at):
    said = ["Start", "Write", "Address write: 58", "ACK"]
    for byte in ("21", "00", "18", "F8"):
        said += [f"Data write: {byte}", "ACK"]
    said += ["Stop", "Start", "Write", "Address write: 58", "ACK", "Data write: 88", "ACK", "Start repeat",
             "Read", "Address read: 58", "ACK"]
    for byte in ("00", "D3", "F6"):
        said += [f"Data read: {byte}", "ACK"]
    said[-1] = "NACK"
    return "".join(f"{24000 * at + 100 * n}-{24000 * at + 100 * n + 99} i2c-1: {it}\n"
                   for n, it in enumerate([*said, "Stop"]))


def saleae(at):
    one = [("start", "", "", "")] + [("address", "true", "0x58", "false")]
    written = [("data", "true", "", it) for it in ("0x21", "0x00", "0x18", "0xF8")]
    two = [("data", "true", "", "0x88"), ("start", "", "", ""), ("address", "true", "0x58", "true")]
    reply = [("data", ack, "", it) for ack, it in (("true", "0x00"), ("true", "0xD3"), ("false", "0xF6"))]
    stop = [("stop", "", "", "")]
    lines = []
    for n, (kind, ack, *more) in enumerate([*one, *written, *stop, *one, *two, *reply, *stop]):
        address, way = more if kind == "address" else ("", "")
        byte = more[1] if kind == "data" else ""
        lines.append(f'"I2C","{kind}",{at}.{n:06},1e-06,{ack},{address},{way},{byte}\n')
    return "".join(lines)


def beagle(at):
    front = f"0:{at // 1000:02}.{at % 1000:03}"
    return (f"0,{3 * at},{front}.000,0.455 ms,4 B,,SP,58,Write Transaction,21 00 18 F8\n"
            f"0,{3 * at + 1},{front}.600,0.185 ms,1 B,,S,58,Write Transaction,88\n"
            f"0,{3 * at + 2},{front}.800,0.185 ms,3 B,,SP,58,Read Transaction,00 D3 F6*\n")


def kernel(at):
    front = f"           bench-731     [001] .....  2101.{at:03}"
    return (f"{front}100: i2c_write: i2c-3 #0 a=058 f=0000 l=4 [21-00-18-f8]\n"
            f"{front}200: i2c_result: i2c-3 n=1 ret=1\n"
            f"{front}300: i2c_write: i2c-3 #0 a=058 f=0000 l=1 [88]\n"
            f"{front}400: i2c_read: i2c-3 #1 a=058 f=0001 l=3\n"
            f"{front}500: i2c_reply: i2c-3 #1 a=058 f=0001 l=3 [00-d3-f6]\n"
            f"{front}600: i2c_result: i2c-3 n=2 ret=2\n")


def smbus(at):
    front = f"           bench-731     [001] .....  2101.{at:03}"
    return (f"{front}100: smbus_write: i2c-3 a=058 f=0004 c=21 WORD_DATA l=2 [00-18]\n"
            f"{front}200: smbus_result: i2c-3 a=058 f=0004 c=21 WORD_DATA wr res=0\n"
            f"{front}300: smbus_read: i2c-3 a=058 f=0004 c=88 WORD_DATA\n"
            f"{front}400: smbus_reply: i2c-3 a=058 f=0004 c=88 WORD_DATA l=2 [00-d3]\n"
            f"{front}500: smbus_result: i2c-3 a=058 f=0004 c=88 WORD_DATA rd res=0\n")


HEADS = {
    saleae: 'name,type,start_time,duration,"ack","address","read","data"\n',
    beagle: "Level,Index,m:s.ms.us,Dur,Len,Err,S/P,Addr,Record,Data\n",
}


def of_recordings():
    for source in (sigrok, saleae, beagle, kernel, smbus):
        lines = HEADS.get(source, "") + source(0)
        more = lines + "".join(source(at) for at in range(1, FEW + 1))
        words = ["import", source.__name__, *(["--rate", "24000000"] if source is sigrok else [])]
        yield Row(f"import {source.__name__}: a packet", words, more, 2 * FEW, lines)


# ---- lines

LINES = {
    "write, PEC": "write 58 21 00 18 pec",
    "read, PEC": "read 58 88 : 00 d3 pec",
    "write of a block": "write 58 99 4a 61 63 6b 6d 61 6e 67 6f",
    "call": "call 58 1b 01 79 : 01 40",
    "group of two": "write 58 01 80 + 59 01 80",
    "alert": "alert b0",
    "refused": "refused 20",
    "bad line": "write 58 21 00",
}
REQUESTS = {
    "set, PEC": "set 58 21 12 pec",
    "get": "get 58 21",
    "write": "write 58 21 00 18",
    "read": "read 58 88",
    "group of two": "write 58 03 + 59 03",
    "call": "call 58 1b 01 79",
    "bad line": "get 58 99",
}
FORMATS = ["linear11", "linear11:-3", "ulinear16:-9", "slinear16:-9", "half", "direct:3,2,1", "udirect:3,2,1",
           "vid:vr12", "vout:17"]
QUANTITIES = "0\n1\n0.5\n1.25\n1.3\n0.875\n1.6\n3/4\n1.0001\n0.7\n"
CODES = "0001\n0020\n0040\n0055\n0070\n0081\n00a0\n00b3\n00c0\n00fe\n"


def of_lines():
    for name, line in LINES.items():
        yield Row(f"build: {name}", ["build", "--sample"], (line + "\n") * PACKETS, PACKETS, "",
                  int(name == "bad line"))
    for name, line in REQUESTS.items():
        yield Row(f"run: {name}", ["run", "--sample"], (line + "\n") * FEW, FEW, "",
                  int(name in ("call", "bad line")))
    four = "set {0:02x} 21 12\nget {0:02x} 21\nwrite {0:02x} 21 00 18\nread {0:02x} 88\n"
    for name, front, addresses in (
            ("one device", ONE + "%%\n", [0x58]), ("64 devices", FRONT, ADDRESSES[::4])):
        text = "".join(map(four.format, addresses)) * (32 // len(addresses))
        yield Row(f"run, {name}: a request", ["run"], front + text, 4 * 32, front)
    for name in FORMATS:
        yield Row(f"encode {name}: a quantity", ["encode", name], QUANTITIES * FEW, 10 * FEW, "", None)
        yield Row(f"decode {name}: a code", ["decode", name], CODES * FEW, 10 * FEW, "", None)


# ---- starts

def of_starts():
    """Whole runs, from `main` to its end."""
    for task in ("show", "check", "json", "log", "stats", "build", "run"):
        yield Row(f"start: {task} --sample", [task, "--sample"], "")
        yield Row(f"start: {task}, 64 devices", [task], FRONT)
    yield Row("start: stats --json --sample", ["stats", "--json", "--sample"], "")
    yield Row("start: scan", ["scan"], "")
    yield Row("start: parts --help", ["parts", "--help"], "")
    yield Row("start: profile --sample", ["profile", "--sample"], "")
    yield Row("start: profile, 64 devices", ["profile"], MANY)
    yield Row("start: profile with a fault", ["profile"], FAULTY, status=2)
    for source in (sigrok, saleae, beagle, kernel, smbus):
        yield Row(f"start: import {source.__name__}", ["import", source.__name__], "", status=1)
    for task in ("encode", "decode"):
        for name in ("linear11", "direct:3,2,1"):
            yield Row(f"start: {task} {name}", [task, name], "")
    yield Row("start: --help", ["--help"], "")
    yield Row("start: --version", ["--version"], "")
    yield Row("start: json --help", ["json", "--help"], "")
    yield Row("start: a word that is no command", ["shwo"], "", status=2)


GROUPS = {
    "A packet of each kind": of_kinds,
    "A packet of the mix of canonical ones, spelled in other ways": of_spellings,
    "Bad lines, and captures under another profile": of_captures,
    "Recordings": of_recordings,
    "Lines, requests and numbers": of_lines,
    "Starts: the whole run": of_starts,
}
