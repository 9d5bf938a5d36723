"""Inputs: small ones row by row, large ones from a fixed seed, and the profiles in front."""

import random

SEED = 58
MEGABYTE = 1_000_000
LARGE = 3 * MEGABYTE

# The text of the sample profile, from docs/profiles.md.
SAMPLE = b"""[[device]]
address = 0x58
pec = "optional"
pages = 2
vout_mode = 0x17

[[device.command]]
name = "READ_VIN"
initial = "00d3"

[[device.command]]
code = 0xd0
name = "RATIO"
write = "two"
read = "two"
kind = "direct"
m = 3
b = 2
r = 1

[[device]]
address = 0x59
pec = "off"

[[device]]
address = 0x5a
pec = "on"
"""
FRONT = SAMPLE + b"%%\n"

# A profile of one device with one command, for runs of which each byte counts.
SMALL_BUS = b'[[device]]\naddress = 0x58\npec = "off"\nstandard = false\n' \
    b'[[device.command]]\nname = "READ_VIN"\n'

# Profiles with a fault: one that the rules refuse, one that is no TOML, one with bad digits.
FAULTY = [
    (b'[[device]]\naddress = 0x0c\npec = "off"\n', b"pmb: profile: BadAddress in device 0\n"),
    (b"[[device]\naddress == 1\n", b"pmb: profile: NotToml\n"),
    (b'[[device]]\naddress = 0x20\npec = "off"\n[[device.command]]\nname = "READ_VIN"\n'
     b'initial = "0g"\n', b"pmb: profile: BadInitial in device 0 command 0\n"),
]

# Each row ends where a packet or a line ends, so an input of the first rows is an input too.
CAPTURE = [
    b"S b0 A 21 A 00 A 18 A f8 A P\n",
    b"S b0 A 79 A S b1 A 40 A 88 N P # a read\n",
    b"S b0 A 03 A 47 N P\n",
    b"S b0 A 03 A 47 A P\n",
    b"S b0 A 21 A 00 A 18 A f8 A P\n",
    b"S B0\tA 20 A\r\n14 A P\n",
    b"# 1.5 s\r\nS b0 A 21 A 00 A 18 A P\n",
    b"S b0 A 03 A S b2 A 03 A P\n",
    b"S b0 A 88 A S b1 A 00 A d3 A f7 N P\n",
    b"S 19 A b0 N P\n",
    b"S 40 N P\n",
]
TRANSACTIONS = [
    b"write 58 21 00 18 pec\n",
    b"# all outputs off\n",
    b"read 58 88 : 00 d3 pec\n",
    b"write 58 2\n",
    b"write 58 03 + 59 03\r\n",
    b"call 58 1b 7a : 10\n",
    b"\n",
    b"refused 58 03 47\n",
    b"write 59 21 00 18 pec\n",
    b"write 58 88 00 00\n",
    b"write 58 21 00\n",
    b"write 58 c8\n",
    b"write 20 03\n",
    b"write 58 03 + 58 03\n",
    b"refused 20\n",
    b"alert none\n",
]
REQUESTS = [
    b"write 58 00 01\n",
    b"set 58 21 3.3\n",
    b"get 58 21\n",
    b"read 58 79 pec\n",
    b"# a comment\n",
    b"write 58 00 02\n",
    b"read 58 7e\r\n",
    b"set 58 21 128\n",
    b"call 58 1b 7a\n",
    b"wrote 58\n",
    b"write 58 03 + 59 03\n",
    b"write 58 00 ff\n",
    b"set 58 21 12\n",
    b"write 58 00 01\n",
    b"get 58 21\n",
    b"write 58 00 ff\n",
    b"get 58 21\n",
]
QUANTITIES = [b"12\n", b"1\n", b"1023.5\n", b"33521664\n", b"33521665\n", b"-1/3\n", b"0.5\r\n", b"\n",
              b"1/0\n", b"x\n", b"1" * 300 + b"\n"]
CODES = [b"d300\n", b"0001\n", b"12g4\n", b"0032\r\n", b"\n", b"7bff\n", b"d" * 300 + b"\n"]
# Recordings, of which a row is a packet, or a line that makes no sense.
TRACE = [
    b"x-1 [000] 1.5: i2c_write: i2c-0 #0 a=058 f=0000 l=1 [03]\n"
    b"x-1 [000] 1.6: i2c_result: i2c-0 n=1 ret=1\n",
    b"x-1 [000] 2.5: i2c_write: i2c-0 #0 a=058 f=0000 l=1 [88]\r\n"
    b"x-1 [000] 2.5: i2c_read: i2c-0 #1 a=058 f=0001 l=2\r\n"
    b"x-1 [000] 2.6: i2c_reply: i2c-0 #1 a=058 f=0001 l=2 [00-d3]\r\n"
    b"x-1 [000] 2.6: i2c_result: i2c-0 n=2 ret=2\r\n",
    b"x-1 [000] 3.5: i2c_write: i2c-0 #0 a=05g f=0000 l=1 [03]\n",
    b"CPU:0 [LOST 12 EVENTS]\n",
    b"x-1 [000] 4.5: i2c_write: i2c-0 #0 a=020 f=0000 l=0 []\n"
    b"x-1 [000] 4.6: i2c_result: i2c-0 n=1 ret=-6\n",
    b"\n",
]
DECODED = [
    b"7-9 i2c-1: Start\n7-9 i2c-1: Address write: 58\n7-9 i2c-1: ACK\n"
    b"7-9 i2c-1: Data write: 03\n7-9 i2c-1: ACK\n9-9 i2c-1: Stop\n",
    b"9-9 i2c-1: Stop\n",
    b"12-13 i2c-1: Start\r\n12-13 i2c-1: Address read: 20\r\n12-13 i2c-1: NACK\r\n"
    b"13-13 i2c-1: Stop\r\n",
    b"i2c-1\n",
]

# Each subcommand with the rows that it is given.
UNDER_SAMPLE = [
    (["show", "--sample"], CAPTURE),
    (["check", "--sample"], CAPTURE),
    (["json", "--sample"], CAPTURE),
    (["log", "--sample"], CAPTURE),
    (["stats", "--sample"], CAPTURE),
    (["stats", "--sample", "--json"], CAPTURE),
    (["log", "--sample", "--color", "always"], CAPTURE),
    (["stats", "--sample", "--color=always"], CAPTURE),
    (["build", "--sample"], TRANSACTIONS),
    (["run", "--sample"], REQUESTS),
]
BEHIND_A_PROFILE = [([words[0]] + words[2:], rows) for words, rows in UNDER_SAMPLE]
# `profile`, which reads no more than a profile, and with `--sample` nothing.
DESCRIPTIONS = [(["profile"], SMALL_BUS + b"%%\n"), (["profile", "--sample"], b"")]
# The words of each subcommand that reads a profile.
WITH_A_PROFILE = [words for words, _ in BEHIND_A_PROFILE] + [["profile"]]
CONVERSIONS = [
    (["encode", "linear11"], QUANTITIES),
    (["decode", "linear11"], CODES),
    (["encode", "direct:3,2,1"], QUANTITIES),
    (["decode", "direct:3,2,1"], CODES),
]
IMPORTS = [
    (["import", "kernel"], TRACE),
    (["import", "sigrok", "--rate", "1000"], DECODED),
]
# `scan`, which reads a capture alone, and writes at its end.
SCANS = [(["scan"], CAPTURE)]
# Words that read nothing: calls for help and the version, none, and bad ones.
HELP = [["help"], ["--help"], ["--version"], ["show", "--help"], ["help", "encode"],
        ["profile", "--help"], ["parts", "--help"]]
BAD_WORDS = [[], ["bad"], ["show", "--bad"], ["encode"], ["encode", "foo"], ["decode", "linear11:99"]]


def large_lines(templates, size=LARGE):
    """Lines drawn from templates, with two bytes and a number of their own, about so many bytes."""
    rng = random.Random(SEED)
    lines, length = [], 0
    while length < size:
        line = rng.choice(templates).format(
            low=f"{rng.randrange(256):02x}", high=f"{rng.randrange(256):02x}",
            number=f"{rng.uniform(-60, 60):.3f}", whole=rng.randint(1, 10**6))
        lines.append(line + "\n")
        length += len(line) + 1
    return "".join(lines).encode()


def large_transactions():
    block = " {low} {high}" * 16
    return large_lines([
        "write 58 21 {low} {high} pec", "read 58 88 : {low} {high}", "read 58 79 : {low} {high} pec",
        "write 58 21 {low} {high} + 59 21 {high} {low}", "call 58 1b {low} : {high}",
        "write 58 99" + block, "read 58 99 :" + block + " pec", "refused 58 03 {low}", "refused 20",
        "alert {low}", "alert none", "write 58 00 01", "write 58 20 14", "write 58 20 17",
        "write 58 21 {low}", "wrote {low}", "# {low}", "",
    ])


def large_requests():
    return large_lines([
        "write 58 21 {low} {high}", "read 58 88 pec", "set 58 21 {number}", "get 58 21",
        "set 58 46 {whole}/7", "call 58 1b {low}", "write 58 99 {low} {high} {low}", "read 58 99",
        "write 58 00 01", "write 58 00 00", "write 58 20 17", "read 58 7e", "write 58 03 + 59 03",
        "write 58 21 {low}", "get {low} 21", "# {low}", "",
    ])


def large_quantities():
    return large_lines(["{number}", "{whole}", "-{whole}/7", "{low}", "{whole}000000", "1/0", ""])


def large_codes():
    return large_lines(["{low}{high}", "{high}{low}", "{low}", "x{low}{high}", ""])


def large_capture(program):
    """The packets that `build` makes of large transactions, with comments for its bad lines, and
    packets among them that are refused."""
    built = program.run(["build", "--sample"], large_transactions()).out.splitlines(True)
    broken = [b"S b0 A 03 A 47 A P\n", b"S b0 A 88 A S b1 A 00 A d3 A f7 N P\n", b"S b0 A c8 A 00 A P\n"]
    text = b"".join(line + (broken[at // 7 % 3] if at % 7 == 0 else b"")
                    for at, line in enumerate(built))
    return text[: text.rindex(b"\n", 0, LARGE) + 1]


def large_inputs(program):
    """Each subcommand with its large input."""
    capture = large_capture(program)
    return [
        (["show", "--sample"], capture),
        (["check", "--sample"], capture),
        (["json", "--sample"], capture),
        (["log", "--sample"], capture),
        (["stats", "--sample"], capture),
        (["stats", "--sample", "--json"], capture),
        (["build", "--sample"], large_transactions()),
        (["run", "--sample"], large_requests()),
        (["encode", "linear11"], large_quantities()),
        (["decode", "linear11"], large_codes()),
        (["import", "kernel"], b"".join(TRACE) * (LARGE // len(b"".join(TRACE)))),
        (["scan"], capture),
        (["show"], FRONT + capture),
    ]
