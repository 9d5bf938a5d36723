"""Compares what the Python package answers with what the program answers: on each line of the
examples, and on random inputs from a fixed seed.

    python3 .ci/calls.py PROGRAM [COUNT]
"""

import array
import asyncio
import bisect
import builtins
import collections
import concurrent.futures
import contextlib
import copy
import decimal
import doctest
import functools
import glob
import gzip
import io
import itertools
import json
import math
import mmap
import multiprocessing
import os
import pathlib
import pickle
import random
import re
import runpy
import shutil
import signal
import socket
import struct
import subprocess
import sys
import tempfile
import threading
import typing
import unittest.mock
from decimal import Decimal
from fractions import Fraction

import pmb

FORMATS = ["linear11", "vout:17", "vout:00", "vout:1f", "direct:3,2,1", "direct:-32768,32767,-9"]
FORMATS += [f"linear11:{e}" for e in (-16, -3, 15)] + [f"ulinear16:{e}" for e in (-16, -9, 15)]
FORMATS += [f"slinear16:{e}" for e in (-16, -9, 15)] + ["direct:1,-1,9", "direct:-7,0,0"]
FORMATS += ["half", "udirect:1,-1,9", "udirect:-7,0,0", "udirect:1,0,0"]
FORMATS += [f"vid:{table}" for table in ("vr11", "vr12", "vr13", "imvp9", "amd625mv", "nvidia195mv")]
BAD = ["", "linear", "LINEAR11", "linear11:", "linear11:16", "ulinear16:-17", "slinear16:+1"]
BAD += ["ulinear16:128", "ulinear16:-0", "slinear16:0015", "vout:1", "vout:g0", "vout:40", "vout:20"]
BAD += ["vout:60", "vout:80", "vout:ff", "vout:FF", "direct:0,1,2", "direct:1,2", "direct:1,2,10"]
BAD += ["direct:0,0,10", "direct:1,2,3,4", "direct:32768,0,0", "direct:1,,1", " linear11"]
BAD += ["half:", "HALF", "half ", "vid", "vid:", "vid:vr14", "vid:VR12", "vid:vr12 ", "vid:1", "vid:vr12:0"]
BAD += ["udirect", "udirect:", "udirect:1,2", "udirect:0,1,2", "udirect:1,2,10", "udirect:0,0,10"]
BAD += ["ulinear16:" + "0" * 40 + "1", "ulinear16:99999999999999999999", "ulinear16:\u0661"]
ROOT = os.path.join(os.path.dirname(os.path.abspath(__file__)), os.pardir)
failed = 0


def check(holds, what):
    global failed
    if not holds:
        failed += 1
        print("library:", what, file=sys.stderr)


def answers(program, command, form, lines):
    text = "".join(line + "\n" for line in lines)
    ran = subprocess.run([program, command, form], input=text.encode(), capture_output=True)
    return ran.returncode, ran.stdout.decode().splitlines(), ran.stderr.decode().strip()


def answer(call, *given):
    try:
        return call(*given)
    except pmb.Error as error:
        return "! " + error.fault


def number(random_numbers):
    """A text that is a quantity's, or nearly."""
    r = random_numbers
    whole = str(r.randrange(10 ** r.randrange(1, 21)))
    kind = r.randrange(10)
    if kind < 4:
        text = whole + "." + "".join(r.choice("0123456789") for _ in range(r.randrange(1, 27)))
    elif kind < 7:
        text = whole + "/" + str(r.randrange(10 ** r.randrange(1, 20)))
    else:
        text = whole
    text = r.choice(["", "-"]) + text
    if r.randrange(12) == 0:
        at = r.randrange(len(text) + 1)
        text = text[:at] + r.choice(["+", " ", "-", ".", "/", "e", "", "x"]) + text[at + 1 :]
    return text


def compare(program, count):
    r = random.Random(26)
    each = count // (2 * len(FORMATS)) + 1
    for form in FORMATS:
        texts = ["", "0", "12", "-1/3", "33521665", "3.3"] + [number(r) for _ in range(each)]
        _, right, _ = answers(program, "encode", form, texts)
        check(len(right) == len(texts), f"encode {form}: {len(right)} answers")
        for text, line in zip(texts, right):
            found = answer(pmb.encode, form, text)
            found = found if isinstance(found, str) else f"{found:04x}"
            check(found == line, f"encode {form} of {text!r}: {found}, the program says {line}")
            value = answer(pmb.quantity, text)
            if isinstance(value, Fraction):
                check(pmb.quantity(pmb.quantity_text(value)) == value, f"the text of {value}")
                again = answer(pmb.encode, form, value)
                again = again if isinstance(again, str) else f"{again:04x}"
                check(again == line, f"encode {form} of {value}: {again}, and not {line}")
        codes = [0, 1, 2, 0xFF, 0x100, 0x7BFF, 0x7C00, 0x7FFF, 0x8000, 0xFFFF]
        codes += [r.randrange(65536) for _ in range(each)]
        _, right, _ = answers(program, "decode", form, [f"{code:04x}" for code in codes])
        check(len(right) == len(codes), f"decode {form}: {len(right)} answers")
        for code, line in zip(codes, right):
            found = answer(pmb.decode, form, code)
            found = found if isinstance(found, str) else pmb.quantity_text(found)
            check(found == line, f"decode {form} of {code:04x}: {found}, the program says {line}")
    for form in FORMATS + BAD:
        status, _, said = answers(program, "encode", form, [])
        found = answer(pmb.encode, form, "")
        # (no text is always refused, so that a good format tells `Empty`)
        good = found == "! Empty"
        check(good == (status == 0), f"the format {form!r}: {found}, the program says {said}")
        check(good or found[2:] in said, f"the format {form!r}: {found}, the program says {said}")


def compare_names(program):
    """Names, beside the notes of `show`: each status bit alone."""
    sizes = {0x78: 8, 0x79: 16, 0x7A: 8, 0x7B: 8, 0x7C: 8, 0x7D: 8, 0x7E: 8, 0x81: 8}
    events, names = [], []
    for code, bits in sizes.items():
        for bit in range(bits):
            data = " A ".join(f"{byte:02x}" for byte in (1 << bit).to_bytes(bits // 8, "little"))
            events.append(f"S b0 A {code:02x} A S b1 A {data} N P\n")
            names.append([pmb.command_name(code), pmb.bit_name(code, bit)])
    ran = subprocess.run(
        [program, "show", "--sample"], input="".join(events).encode(), capture_output=True
    )
    for line, (command, bit) in zip(ran.stdout.decode().splitlines(), names):
        words = line.partition("# ")[2].split()
        right = words[:1] + [word for word in words[1:] if word.isupper() or "_" in word]
        check(words[0] == command, f"{line}: {command}")
        check(bit is None or bit in right, f"{line}: {bit}")


def compare_packets(program):
    """Packet error codes, beside those that `build` writes for the transactions of the examples."""
    here = os.path.dirname(os.path.abspath(__file__))
    folder = os.path.join(here, os.pardir, "examples", "transactions")
    count = 0
    for name in sorted(os.listdir(folder)):
        if not name.endswith(".txt"):
            continue
        with open(os.path.join(folder, name)) as file:
            lines = [line.split("#")[0].split() for line in file]
        text = "".join(" ".join(words) + "\n" for words in lines if words and words[-1] == "pec")
        profile = os.path.join(folder, name[:-4] + ".toml")
        given = text
        options = ["--sample"]
        if os.path.exists(profile):
            with open(profile) as file:
                given, options = file.read() + "%%\n" + text, []
        ran = subprocess.run([program, "build"] + options, input=given.encode(), capture_output=True)
        for line in ran.stdout.decode().splitlines():
            if line.startswith("S") and "+" not in line and line.count("S ") <= 2:
                data = bytes(int(word, 16) for word in line.split() if len(word) == 2)
                check(pmb.pec(data[:-1]) == data[-1], f"the packet error code of {line}")
                check(pmb.pec(data) == 0, f"the remainder of {line}")
                check(pmb.pec(data[2:-1], pmb.pec(data[:2])) == data[-1], f"in two parts: {line}")
                count += 1
    check(count >= 4, f"only {count} packets in the examples have an error code")


def ran(program, command, profile, text, flags=()):
    """What the program writes of an input, and what it says."""
    given = profile + b"\n%%\n" + text
    done = subprocess.run([program, command, *flags], input=given, capture_output=True)
    return done.returncode, done.stdout.decode(), done.stderr.decode().strip()


def flags_of(options):
    flags = [f"--{name.replace('_', '-')}" for name, value in options.items() if value is True]
    flags += [f"--digits={options.get('digits', 6)}"]
    return flags + [f"--device={address:02x}" for address in options.get("devices", ())]


def compare_whole(program, command, profile, text, options={}):
    """One input, from Python and by the program."""
    if command == "json":
        status, right, said = ran(program, command, profile, text, flags_of(options))
    else:
        status, right, said = ran(program, command, profile, text)
    call = getattr(pmb, command)
    what = f"{command} of {text[:60]!r} under {profile[:60]!r}"
    try:
        found = call(profile, text, **options)
    except pmb.ProfileError as error:
        place = "" if error.place == "profile" else " in " + error.place
        check(said == f"pmb: profile: {error.fault}{place}", f"{what}: {error}, and not {said}")
        compare_fault(program, profile, error)
        return
    except pmb.LineError as error:
        line = right.partition(f"# line {error.line}: ")
        check(command == "build" and line[2].split("\n")[0] == error.fault, f"{what}: {error}")
        check("# line" not in line[0], f"{what}: {error} is not the first")
        found = pmb.build(profile, text, strict=False)
    check(found == right, f"{what}: {found[:200]!r}, and not {right[:200]!r}")
    check(status == (1 if found.refusals else 0), f"{what}: {found.refusals} refusals, status {status}")
    if command == "json":
        objects = [json.loads(line) for line in right.splitlines()]
        for it in objects:
            compare_object(it)
        objects = [it for it in objects if it["kind"] not in ("device", "end")]
        for it in objects:
            if it.get("device"):
                it["address"] = ADDRESSES[it["device"]]
        check(list(pmb.transactions(profile, text, **options)) == objects, f"transactions: {what}")


ADDRESSES = {f"{address:02x}": address for address in range(128)}
KINDS = {
    typing.get_args(typing.get_type_hints(kind)["kind"])[0]: kind
    for kind in vars(pmb.objects).values()
    if hasattr(kind, "__total__") and "kind" in typing.get_type_hints(kind)
}
HINTS = {kind: typing.get_type_hints(found) for kind, found in KINDS.items()}
# How many objects of a kind there were, how many had a key, and which words a key of it had.
OBJECTS, WITH_KEY = collections.Counter(), collections.Counter()
WORDS = collections.defaultdict(set)


def is_of(value, hint):
    """Whether a value has a type."""
    origin, among = typing.get_origin(hint), typing.get_args(hint)
    if origin is typing.Union:
        return any(is_of(value, each) for each in among)
    if origin is typing.Literal:
        return value in among
    if origin is list:
        return type(value) is list and all(is_of(each, among[0]) for each in value)
    if origin is dict:
        return type(value) is dict and all(
            is_of(key, among[0]) and is_of(each, among[1]) for key, each in value.items())
    # (a number without a point is an int)
    return type(value) is hint or hint is float and type(value) is int


def compare_object(it):
    """The keys and values of an object of `pmb json`, beside the type of its kind."""
    kind = it["kind"]
    OBJECTS[kind] += 1
    for key, value in it.items():
        hint = HINTS[kind].get(key)
        check(hint is not None and is_of(value, hint), f"{kind}: {key} is {value!r}, not {hint}")
        WITH_KEY[kind, key] += 1
        WORDS[kind, key].update(value if isinstance(value, (list, dict)) else [value])


def words_of(hint):
    """The words that a type allows, and no others."""
    among = typing.get_args(hint)
    if typing.get_origin(hint) is typing.Literal:
        return set(among)
    return set().union(*map(words_of, among))


def told_of_kinds():
    """The kinds of objects, each with its keys, as docs/json.md has them."""
    page = read("docs", "json.md").decode()
    table = page.split("\n| `kind` |")[1].split("\n\n")[0]
    for row in table.splitlines()[2:]:
        kind, _, keys = row.strip("|").split("|")
        kind, found = kind.strip(" `"), {"kind", *re.findall("`([a-z_]+)`", keys)}
        if "what the data mean" in keys:
            found |= {"value", "number", "ratio", "mode", "unit", "raw", "text", "says"}
            found.add("bits" if kind == "read" else "clears")
        if kind not in ("device", "end"):
            found |= {"at", "line", "column", "time"}
        yield kind, found


# Devices whose output voltages can't be read, each for another reason, and one with a name and phases.
RARE = """ignore = [0x50]
[[device]]
address = 0x58
pec = "optional"
name = "U1"
pages = 2
vout_mode = [0x14, 0x13]
phases = 2
command = [
    { code = 0xe0, name = "ASK", call = "two", paged = true, phased = true },
    { name = "VOUT_COMMAND", phased = true }, { name = "READ_VOUT", phased = true, unit = "mV" },
]
"""
for address, mode in ((0x60, 0x20), (0x61, 0x40), (0x62, 0x60), (0x63, 0x97), (0x64, 0x20), (0x65, 0xa0)):
    RARE += f"[[device]]\naddress = {address}\npec = 'optional'\nvout_mode = {mode}\n"
    RARE += "vid = 'vr12'\n" if address == 0x64 else ""
# Words of them, with the command's code: VID without a table, DIRECT without coefficients, a number and
# none in half precision, a factor of VOUT_COMMAND, a VID code that is off and one that is none, and a
# factor under VID.
RARE_WORDS = [(0x60, "21", "00 A 18"), (0x61, "21", "00 A 18"), (0x62, "21", "00 A 18"), (0x62, "21", "00 A 7c"),
              (0x63, "25", "00 A 02"), (0x64, "21", "00 A 00"), (0x64, "21", "00 A 18"), (0x65, "25", "00 A 18")]


def compare_kinds_of_objects(program):
    """The types of objects beside the table in docs/json.md, and beside the objects of all captures
    here: no object lacks a key that its type always has, and no type has a key or a word that no
    object had."""
    sample = read("docs", "profiles.md").split(b"## The sample profile")[1].split(b"```\n")[1]
    page = read("docs", "errors.md").decode()
    reasons = re.findall("(?m)^\\| `([A-Z][A-Za-z]+)` \\|.*\\| `(S [^|`]*)` \\|", page)
    for _, capture in reasons:
        compare_whole(program, "json", sample, capture.encode())
    lines = [f"S {at << 1:02x} A {code} A {word} A P" for at, code, word in RARE_WORDS]
    lines += [f"S {at << 1:02x} A {code} A S {at << 1 | 1:02x} A {word} N P" for at, code, word in RARE_WORDS]
    lines += ["S b0 A e0 A 01 A 02 A S b1 A 05 A 06 N P", "S 19 A b0 N P", "S 19 N P", "S a0 N P"]
    lines += ["S c0 A 03 A S b0 A 03 A P", "S c0 A 03 A S b0 A 21 N P", "S b0 A 88 A S b1 N P"]
    lines += ["S b0 hm", "S b0 A 03 A 46 N P", "S b0 A 03 A 47 N P", "S b0 N P", "S b0 A 7a A 80 A P"]
    lines += ["S b0 A 99 A 01 A 41 A P", "S b0 A 99 A S b1 A 02 A 22 A 5c N P", "S b0 A 01 A 80 A P"]
    lines += ["S b0 A 98 A S b1 A 33 N P", "S b0 A 20 A S b1 A 15 N P", "S b0 A 10 A 40 A P"]
    lines += ["S b0 A 1b A 01 A 7a A S b1 A 01 A 10 N P", "S b0 A 04 A ff A P"]
    lines += ["S b0 A 00 A ff A P", "S b0 A 8b A S b1 A 00 A 18 N P", "S b0 A 21 A 00 A 18 A P"]
    lines += ["S b0 A e0 A 01 A 02 A S b1 A 05 A 06 N P"]
    lines += ["S b0 A 21 N P", "S b0 A 21 A 00 A 18 A A P", "S b0 A 88 A S b1 A 00 A d3 A f7 A P"]
    timed = "".join(f"# {at}.5 s\n{line}\n" for at, line in enumerate(lines))
    for text in (timed, timed + "S b0 A"):
        for late in (False, True):
            options = {"keep_going": True, "late": late}
            compare_whole(program, "json", RARE.encode(), text.encode(), options)
    found = words_of(HINTS["refusal"]["reason"])
    check(found == {reason for reason, _ in reasons}, f"the reasons of docs/errors.md: {found}")
    kinds = dict(told_of_kinds())
    check(kinds.keys() == KINDS.keys(), f"the kinds: {set(KINDS)}, and not {set(kinds)}")
    for kind, keys in kinds.items():
        own = {"address"} if HINTS[kind].keys() - keys == {"address"} else set()
        check(HINTS[kind].keys() == keys | own, f"{kind}: {set(HINTS[kind])}, and not {keys}")
        check(bool(own) == (kind not in ("bad_token", "device", "end")), f"{kind}: {own}")
        had = {key for key in keys if WITH_KEY[kind, key]}
        check(had == keys, f"{kind}: no object had {keys - had}")
        always = {key for key in keys if WITH_KEY[kind, key] == OBJECTS[kind]}
        # (Python 3.8 can't tell)
        required = set(getattr(KINDS[kind], "__required_keys__", always)) - own
        check(required == always, f"{kind}: always there are {always}, and not {required}")
        for key in keys & HINTS[kind].keys():
            words = words_of(HINTS[kind][key]) - WORDS[kind, key]
            check(not words, f"{kind}: no object had {words} as {key}")


def compare_fault(program, profile, error):
    """A profile's fault, beside what `pmb profile` says of it."""
    done = subprocess.run([program, "profile"], input=profile, capture_output=True)
    first, _, hint = done.stderr.decode().partition("\n")
    place = "" if error.place == "profile" else " in " + error.place
    check(first == f"pmb: profile: {error.fault}{place}", f"the fault of {profile[:60]!r}: {error}")
    check(error.hint == hint.rstrip("\n"), f"the hint of {profile[:60]!r}: {error.hint!r}")
    begins = f"  line {error.line}, column {error.column}: "
    check(hint.startswith(begins), f"the place in {profile[:60]!r}: {begins!r}, and not {hint!r}")
    right = "\n".join([f"{error.fault} in {error.place}"] + hint.splitlines())
    check(str(error) == right, f"the text of {profile[:60]!r}: {error}")


def read(*names):
    with open(os.path.join(ROOT, *names), "rb") as file:
        return file.read()


def examples():
    """The examples: the commands that take one, its profile and its text."""
    sample = read("docs", "profiles.md").split(b"## The sample profile")[1].split(b"```\n")[1]
    captures, lines, requests = ("show", "check", "json"), ("build",), ("run",)
    for folder, commands in (
        ("captures", captures),
        ("sessions", captures),
        ("profiles", captures),
        ("transactions", lines),
        ("requests", requests),
    ):
        for name in sorted(glob.glob(os.path.join(ROOT, "examples", folder, "*.txt"))):
            own = name[:-4] + ".toml"
            profile = read(own) if os.path.exists(own) else sample
            if folder == "requests":
                profile = read("examples", "sessions", "power_up.toml")
            yield commands, profile, read(name)


def disturbed(r, text):
    """The text with some words dropped, doubled, or in the place of others, and a byte changed."""
    words = text.split(b" ")
    for _ in range(r.randrange(4)):
        at, other = r.randrange(len(words)), r.randrange(len(words))
        words[at : at + 1] = r.choice([[], [words[at]] * 2, [words[other]]]) or [b""]
    text = bytearray(b" ".join(words))
    if text and r.randrange(3) == 0:
        text[r.randrange(len(text))] = r.choice(b"\n #SPAN0f\xff\0\"z")
    return bytes(text)


def compare_wholes(program, count):
    r = random.Random(2026)
    kept = list(examples())
    for commands, profile, text in kept:
        for command in commands:
            compare_whole(program, command, profile, text)
            compare_whole(program, command, profile, b"")
            compare_whole(program, command, b"", text)
    for _ in range(count // 20):
        commands, profile, text = r.choice(kept)
        command = r.choice(commands)
        at = r.randrange(len(text))
        text = disturbed(r, text[at : at + r.randrange(600)])
        options = {}
        if command == "json":
            options = {"digits": r.randrange(13), "keep_going": r.randrange(2) == 1}
            options["late"] = r.randrange(2) == 1
            options["fixed_vout_mode"] = options["late"] and r.randrange(2) == 1
            options["devices"] = r.sample([0x10, 0x40, 0x58, 0x4F], r.randrange(3))
        if r.randrange(8) == 0:
            profile = disturbed(r, profile)
        # (a profile before an input ends at its first line %%)
        if b"%%" not in profile:
            compare_whole(program, command, profile, text, options)


def plain_events(text):
    """The events of a text, and where its first word is that is no token, by the rules in words."""
    blank = re.sub(rb"#[^\n]*", lambda comment: b" " * len(comment.group()), text)
    letters = {b"S": "start", b"A": "ack", b"N": "nack", b"P": "stop"}
    events = []
    for word in re.finditer(rb"[^ \t\r\n]+", blank):
        if word.group() in letters:
            events.append((letters[word.group()], None))
        elif re.fullmatch(rb"[0-9A-Fa-f]{2}", word.group()):
            events.append(("byte", int(word.group(), 16)))
        else:
            return events, word.start()
    return events, None


def compare_events(count):
    """The events of the examples' captures, whole, by lines and in pieces, some of them disturbed."""
    r = random.Random(7)
    texts = [text for commands, _, text in examples() if "show" in commands]
    for at in range(count // 20):
        text = texts[at] if at < len(texts) else disturbed(r, r.choice(texts)[: r.randrange(400)])
        cuts = sorted(r.randrange(len(text) + 1) for _ in range(r.randrange(9)))
        pieces = [text[a:b] for a, b in zip([0] + cuts, cuts + [len(text)])]
        for given in (text, pieces, text.splitlines(True), [text[i : i + 1] for i in range(len(text))]):
            found, bad = [], None
            try:
                for event in pmb.events(given):
                    found.append(event)
            except pmb.TokenError as error:
                bad = error.at
            check((found, bad) == plain_events(text), f"the events of {text[:60]!r}: {bad}")
    lines = texts[0].decode().splitlines(True)
    check(list(pmb.events(lines)) == list(pmb.events(texts[0])), "the events of a str")


def compare_kinds():
    """What else is taken as a quantity or a format."""
    check(pmb.encode("linear11", 12) == pmb.encode("linear11", Fraction(24, 2)) == 0xD300, "12")
    check(pmb.encode("linear11", -0.5) == pmb.encode("linear11", Decimal("-0.5")), "-0.5")
    check(pmb.encode(pmb.Format.vout(0x17), "12") == 0x1800, "VOUT_MODE 17h")
    direct = pmb.Format.direct(3, 2, 1)
    check(pmb.encode(direct, 1) == pmb.encode(pmb.Format.vout(0x40, direct=direct), 1) == 50, "DIRECT")
    check(pmb.decode(pmb.Format.vout(0x17, signed=True), 0x8000) == -64, "signed")
    for given, right in (
        ((pmb.Format.direct(0, 0, 99), 1), ("ZeroSlope", "format")),
        ((pmb.Format.direct(1, 0, 999), 1), ("BadFormat", "format")),
        ((pmb.Format(10), 1), ("BadFormat", "format")),
        ((pmb.Format(8, mode=7), 1), ("BadFormat", "format")),
        ((pmb.Format.direct(0, 0, 99, unsigned=True), 1), ("ZeroSlope", "format")),
        (("vid:vr14", "x"), ("BadFormat", "format")),
        # (the code 0, which is off, is no fault of the format)
        (("vid:vr12", "x"), ("BadDigit", "quantity")),
        (("vid:vr12", 0), ("Below", "quantity")),
        (("linear11", "1" + "0" * 20), ("TooLarge", "quantity")),
        (("linear11", 33521665), ("Above", "quantity")),
        (("ulinear16:16", "x"), ("BadExponent", "format")),
    ):
        try:
            found = pmb.encode(*given)
        except pmb.Error as error:
            found = (error.fault, error.place)
        check(found == right, f"{given}: {found}, and not {right}")
    unsigned = pmb.Format.direct(1, 0, 0, unsigned=True)
    for given, right in (
        ((pmb.Format.half(), 0x4A00), 12),
        ((pmb.Format.half(), 0x7C00), ("NotANumber", "code")),
        ((pmb.Format.vid("vr12"), 0x97), 1),
        ((pmb.Format.vid("vr12"), 0), ("Off", "code")),
        ((pmb.Format.vid("vr12"), 0x100), ("NoCode", "code")),
        ((pmb.Format.vid("vr12"), 0x10000), ("BadCode", "code")),
        ((pmb.Format(8, mode=0), 0x10000), ("BadFormat", "format")),
        ((unsigned, 0xFFFF), 65535),
        # (beside a VOUT_MODE a word has no sign for an unsigned command alone)
        ((pmb.Format.vout(0x40, direct=unsigned), 0xFFFF), 65535),
        ((pmb.Format.vout(0x40, signed=True, direct=unsigned), 0xFFFF), -1),
        ((pmb.Format.vout(0x40, direct=pmb.Format.direct(1, 0, 0)), 0xFFFF), -1),
        ((pmb.Format.vout(0x17, direct=unsigned), 0xFFFF), Fraction(65535, 512)),
        ((pmb.Format.vout(0x40, direct=unsigned._replace(m=0)), 1), ("NoCoefficients", "format")),
    ):
        try:
            found = pmb.decode(*given)
        except pmb.Error as error:
            found = (error.fault, error.place)
        check(found == right, f"decode {given}: {found}, and not {right}")
    for number in (1 << 80, Fraction(1, 1 << 62), 1e300):
        check(answer(pmb.quantity_text, number) == "! TooLarge", f"the text of {number}")
    for code in (-1, 65536):
        check(answer(pmb.decode, "linear11", code) == "! BadCode", f"the code {code}")
    check(pmb.command_name(0xFF) is None and pmb.bit_name(0x7A, 15) is None, "no name")


def compare_floats():
    """Numbers of any size and of any number of digits, beside the nearest value of all codes."""
    # By hand: LINEAR11 with the exponent -16 has multiples of 1/65536, and 0.0001 is 6.55 of these,
    # 1e-5 is 0.66. 12.3 V at VOUT_MODE 17h is 6297.6 of 1/512.
    for form, number, right in (
        ("linear11", 0.0001, 0x8007),
        ("linear11", -0.0001, 0x87F9),
        ("linear11", 1e-5, 0x8001),
        ("linear11", -1e-5, 0x87FF),
        ("linear11", 7e-6, 0x0000),
        ("linear11", 5e-324, 0x0000),
        ("linear11", -5e-324, 0x0000),
        ("linear11", Decimal("1e-999999999"), 0x0000),
        ("linear11", 1e300, "! Above"),
        ("linear11", -1e300, "! Below"),
        ("linear11", sys.float_info.max, "! Above"),
        ("linear11", 10**5000, "! Above"),
        ("linear11", -(10**5000), "! Below"),
        ("linear11", Decimal("1e999999999"), "! Above"),
        ("linear11", Decimal("-1e999999999"), "! Below"),
        ("linear11", 33521664.0, 0x7BFF),
        ("linear11", Fraction(33521664 * 3**200 + 1, 3**200), "! Above"),
        ("vout:17", 12.3, 6298),
        ("vout:17", -5e-324, "! Below"),
        ("vout:17", Decimal("-1e-999999999"), "! Below"),
        ("slinear16:-9", -5e-324, 0x0000),
        # (2/3 of a code is 1, and half a code is 0, the even one, but for a little more)
        ("ulinear16:0", Fraction(2 * 10**300 + 1, 3 * 10**300), 1),
        ("ulinear16:0", Fraction(10**300 + 1, 2 * 10**300), 1),
        ("ulinear16:0", Fraction(10**300 - 1, 2 * 10**300), 0),
        ("ulinear16:0", 0.5, 0),
        ("ulinear16:0", 1.5, 2),
        ("ulinear16:0", True, 1),
        ("direct:1,0,-9", 1e10, 10),
        ("direct:1,0,-9", Fraction(10**400 + 1, 10**400), 0),
        # (0 is worth (0 - 32767) / -32768)
        ("direct:-32768,32767,9", Fraction(32767, 32768), 0),
        ("direct:-32768,32767,9", Fraction(32767 * 10**100 + 1, 32768 * 10**100), 0),
        ("ulinear16:16", 1e300, "! BadExponent"),
        ("direct:0,0,0", 1e300, "! ZeroSlope"),
        ("direct:1,0,10", 5e-324, "! BadScale"),
        ("vout:40", 1e300, "! NoCoefficients"),
        # (2^-25 is half way between 0 and the least half above it)
        ("half", Fraction(1, 1 << 25), 0x0000),
        ("half", Fraction(10**100 + 1, 10**100 << 25), 0x0001),
        ("half", -5e-324, 0x0000),
        ("half", 65504.0, 0x7BFF),
        ("half", Fraction(65504 * 3**200 + 1, 3**200), "! Above"),
        ("half", Decimal("-1e999999999"), "! Below"),
        ("vid:vr12", 1.0, 0x97),
        # (0.2525 V is half way between the codes 1 and 2)
        ("vid:vr12", Fraction(101, 400), 2),
        ("vid:vr12", Fraction(101 * 10**100 - 1, 400 * 10**100), 1),
        ("vid:vr12", 5e-324, "! Below"),
        ("vid:amd625mv", 1e300, "! Above"),
        ("vid:vr14", 1e300, "! BadFormat"),
        ("udirect:1,0,0", 65535.0, 0xFFFF),
        ("udirect:1,0,0", -5e-324, "! Below"),
        ("udirect:1,0,-9", 1e10, 10),
        ("udirect:0,0,0", 1e300, "! ZeroSlope"),
    ):
        found = answer(pmb.encode, form, number)
        kind = type(number).__name__
        check(found == right, f"encode {form} of a {kind}: {found}, and not {right}")
    for number in (math.nan, math.inf, -math.inf, Decimal("nan"), Decimal("snan"), Decimal("-inf")):
        for call in (functools.partial(pmb.encode, "linear11"), pmb.quantity_text):
            try:
                found = call(number)
            except ValueError as error:
                found = "finite" in str(error) and not isinstance(error, pmb.Error)
            check(found is True, f"{number}: {found}")


def canonical(codes, form):
    """The values of codes, in their order, and the code that is written for each."""
    found = {}
    for code in codes:
        value = pmb.decode(form, code)
        # (in LINEAR11 that with the least exponent, and 0 for zero)
        exponent = (code >> 11 ^ 16) - 16
        if value not in found or value != 0 and exponent < (found[value] >> 11 ^ 16) - 16:
            found[value] = code
    return sorted(found), found


def nearest(exact, values, code_of):
    """What is written for an exact number, by looking at all values."""
    if exact < values[0] or exact > values[-1]:
        return "! Below" if exact < values[0] else "! Above"
    at = bisect.bisect(values, exact)
    near = values[max(at - 1, 0) : at + 1]
    least = min(abs(value - exact) for value in near)
    codes = [code_of[value] for value in near if abs(value - exact) == least]
    return codes[0] if len(codes) == 1 else [code for code in codes if code % 2 == 0][0]


def compare_neighbours():
    """On both sides of each quantity at which the nearest code changes, ever so little beside it;
    half way between two values; and at any float. What is right is found in the list of all
    values."""
    r = random.Random(53)
    for form in (
        "linear11",
        "linear11:-3",
        "vout:17",
        "ulinear16:15",
        "slinear16:-16",
        "direct:3,2,1",
        "direct:-32768,32767,-9",
        "direct:-7,32767,9",
        pmb.Format.vout(0x1F, signed=True),
        pmb.Format.vout(0x40, signed=True, direct=pmb.Format.direct(-3, 1, 2)),
        "half",
        "vid:vr11",
        "vid:vr12",
        "vid:amd625mv",
        "udirect:3,2,1",
        "udirect:-7,-32768,-9",
    ):
        # (LINEAR11 with one exponent has the codes whose bits 15:11 are that; half precision and
        # VID tables have those with a value)
        codes = range(29 << 11, 30 << 11) if form == "linear11:-3" else range(65536)
        codes = [code for code in codes if isinstance(answer(pmb.decode, form, code), Fraction)]
        values, code_of = canonical(codes, form)
        # each such quantity, with what is encoded on either side of it
        ends = [(values[0], "! Below", values[0]), (values[-1], values[-1], "! Above")]
        places = [0, 1, len(values) // 2, len(values) - 2]
        places += [bisect.bisect(values, 0) + i for i in (-2, -1, 0, 1)]
        places += [r.randrange(len(values) - 1) for _ in range(60)]
        for at in places:
            if 0 <= at < len(values) - 1:
                below, above = values[at], values[at + 1]
                ends.append(((below + above) / 2, below, above))
        for middle, below, above in ends:
            for little in (Fraction(1, 10**400), Fraction(1, 2**1074), Fraction(1, 3**60)):
                for quantity, near in ((middle - little, below), (middle + little, above)):
                    found = answer(pmb.encode, form, quantity)
                    found = pmb.decode(form, found) if isinstance(found, int) else found
                    check(found == near, f"encode {form} beside {middle}: {found}, and not {near}")
        # half way, in each type of number that can tell it
        for middle, below, _ in ends[2:]:
            right = nearest(middle, values, code_of)
            check(right in (code_of[below], code_of[middle + middle - below]), f"{form}: {middle}")
            with decimal.localcontext(decimal.Context(prec=60)):
                others = [float(middle), Decimal(middle.numerator) / middle.denominator]
            for quantity in [middle] + [each for each in others if Fraction(each) == middle]:
                found = answer(pmb.encode, form, quantity)
                check(found == right, f"encode {form} of {quantity!r}: {found}, and not {right}")
        # any float and decimal
        for at in range(600):
            number = struct.unpack("d", struct.pack("Q", r.getrandbits(64)))[0]
            if at % 3:
                number = math.ldexp(r.random() - 0.5, r.randrange(-40, 50))
            if at % 3 == 2:
                number = Decimal(number).scaleb(r.randrange(-9, 9))
            if not math.isfinite(number):
                continue
            found, right = answer(pmb.encode, form, number), nearest(Fraction(number), values, code_of)
            check(found == right, f"encode {form} of {number!r}: {found}, and not {right}")


PLAIN = '[[device]]\naddress = 0x58\npec = "optional"\n'


def compare_wrong_types():
    """What is not an argument: a TypeError, and a ValueError where only its value is wrong."""
    words = array.array("H", [1])
    for wrong, call, *given in (
        (TypeError, pmb.pec, 0xB0),
        (TypeError, pmb.pec, "b0"),
        (TypeError, pmb.pec, None),
        (TypeError, pmb.pec, 1.5),
        (TypeError, pmb.pec, words),
        (TypeError, pmb.pec, b"", 1.0),
        (TypeError, pmb.pec, b"", "0"),
        (ValueError, pmb.pec, b"", 256),
        (ValueError, pmb.pec, b"", -1),
        (ValueError, pmb.pec, [256]),
        (TypeError, pmb.encode, None, 1),
        (TypeError, pmb.encode, b"linear11", 1),
        (TypeError, pmb.encode, "linear11", None),
        (TypeError, pmb.encode, "linear11", 1j),
        (TypeError, pmb.encode, "linear11", b"1"),
        (TypeError, pmb.encode, "linear11", [1]),
        (TypeError, pmb.encode, pmb.Format("x"), 1),
        (TypeError, pmb.encode, pmb.Format(1, 1.5), 1),
        (TypeError, pmb.Format.parse, 5),
        (TypeError, pmb.Format.vid, 1),
        (TypeError, pmb.Format.vout, 0x40, False, 5),
        (TypeError, pmb.decode, "linear11", 3.0),
        (TypeError, pmb.decode, "linear11", "d300"),
        (TypeError, pmb.decode, None, 3),
        (TypeError, pmb.quantity, 5),
        (TypeError, pmb.quantity_text, None),
        (ValueError, pmb.command_name, 256),
        (ValueError, pmb.command_name, -1),
        (ValueError, pmb.bit_name, 0x179, 1),
        (ValueError, pmb.bit_name, 0x79, 16),
        (ValueError, pmb.bit_name, 0x79, -1),
        (TypeError, pmb.command_name, 136.0),
        (TypeError, pmb.command_name, "88"),
        (TypeError, pmb.bit_name, 0x79, "15"),
        (TypeError, pmb.events, 5),
        (TypeError, list, pmb.events([5])),
        (TypeError, pmb.build, PLAIN, ["write 58 03"]),
    ):
        check_raises(wrong, call, *given)
    for call in (pmb.show, pmb.check, pmb.build, pmb.run, pmb.json, pmb.transactions):
        for given in ((PLAIN, 5), (PLAIN, None), (5, ""), (None, "")):
            check_raises(TypeError, call, *given)
        if call is not pmb.transactions:
            check_raises(TypeError, call, PLAIN, [83, 32])
    for wrong, options in (
        (TypeError, {"devices": 0x58}),
        (TypeError, {"devices": "58"}),
        (TypeError, {"devices": [5.0]}),
        (TypeError, {"devices": [None]}),
        (pmb.Error, {"devices": [0xD8]}),
        (pmb.Error, {"devices": [0x58, 0x80]}),
        (pmb.Error, {"devices": [-1]}),
        (pmb.Error, {"devices": [1 << 70]}),
        (pmb.Error, {"devices": ["d8"]}),
        (pmb.Error, {"devices": ["058"]}),
        (pmb.Error, {"devices": ["5g"]}),
        (pmb.Error, {"digits": 13}),
        (pmb.Error, {"digits": -1}),
        (TypeError, {"digits": 6.0}),
        (TypeError, {"digits": "6"}),
        (TypeError, {"digits": 13, "devices": [0xD8, None]}),
        (pmb.Error, {"fixed_vout_mode": True}),
    ):
        for call in (pmb.json, pmb.transactions):
            check_raises(wrong, functools.partial(call, **options), PLAIN, "")
        check_raises(wrong, functools.partial(pmb.Reader, **options), PLAIN)
    # .. and what is one
    byte = b"\xb0"
    for data in (byte, bytearray(byte), memoryview(byte), array.array("B", byte), [0xB0], iter(byte)):
        check(pmb.pec(data) == 0x19, f"pec of {data!r}")
    packets = "S b0 A 03 A P S b2 A 03 A P"
    for devices in ([0x58], ["58"], b"\x58", {0x58}, (each for each in (0x58, "20")), [0x58, 0x7F]):
        found = [it["device"] for it in pmb.transactions(PLAIN, packets, devices)]
        check(found == ["58"], f"devices {devices!r}: {found}")
    for given in (bytearray(b"S b0 A 03 A P"), memoryview(b"S b0 A 03 A P")):
        check(pmb.check(PLAIN, given).packets == 1, f"{given!r}")
        check([event.kind for event in pmb.events(given)][:2] == ["start", "byte"], f"{given!r}")
    check(pmb.json(PLAIN, "x\nS b0 A 03 A P", keep_going=2).packets == 1, "keep_going=2")
    check(pmb.command_name(True) == "OPERATION", "an int is a bool too")
    one = Index(1)
    check(pmb.pec(b"", one) == 1 and pmb.pec([one]) == pmb.pec(b"\1"), "pec of an index")
    check(pmb.decode("linear11", one) == 1 and pmb.command_name(one) == "OPERATION", "an index")
    check(pmb.encode(pmb.Format.direct(one, one, one), 0) == 10, "a format of an index")
    check(pmb.bit_name(0x79, one) == pmb.bit_name(0x79, 1) is not None, "a bit that is an index")
    check(pmb.json(PLAIN, "", [one], one) == pmb.json(PLAIN, "", [1], 1), "json of an index")


def compare_choices(program):
    """Of choices that ask for nothing, the fault that the program names: its name, its place, and which
    is first."""
    places = {"NeedsLate": "fixed_vout_mode", "BadDigits": "digits", "BadAddress": "devices"}
    found = collections.Counter()
    addresses = [[], ["58"], ["7f"], ["80"], ["ff"], ["58", "d8"], ["5"], ["058"], ["0x58"], ["5g"]]
    for digits in (0, 6, 12, 13, 255, 10**30):
        for devices in addresses:
            for late, fixed in ((False, False), (True, False), (True, True), (False, True)):
                words = ["json", "--digits", str(digits)] + ["--late"] * late
                words += ["--fixed-vout-mode"] * fixed
                for device in devices:
                    words += ["--device", device]
                ran = subprocess.run([program, *words], input=PLAIN.encode(), capture_output=True)
                right = ran.stderr.decode().strip()
                options = dict(devices=devices, digits=digits, late=late, fixed_vout_mode=fixed)
                for call, *given in ((pmb.json, ""), (pmb.transactions, ""), (pmb.Reader,)):
                    fault = ""
                    try:
                        call(PLAIN, *given, **options)
                    except pmb.Error as error:
                        fault = "pmb: json: " + error.fault
                        text = f"{error.fault} in {places[error.fault]}: "
                        check(error.place == places[error.fault], f"{words}: {error.place}")
                        check(str(error).startswith(text), f"{words}: {error}")
                        check(ran.returncode == 2, f"{words}: status {ran.returncode}")
                    check(fault == right, f"{words}: {fault!r}, and not {right!r}")
                    found[fault] += 1
    check(len(found) == 4, f"{found}")


def compare_recorders(program):
    """Of what no recording is, the fault that the program names: its name, its place, and which is first."""
    found = collections.Counter()
    sources, rates = (*pmb._SOURCES, "awk"), (None, 0, 1, 18446744073, 18446744074, 1 << 64)
    for source, bus, rate, unshifted in itertools.product(sources, (None, "0"), rates, (False, True)):
        words = ["import", source] + ["--unshifted"] * unshifted
        words += [] if bus is None else ["--bus", bus]
        words += [] if rate is None else ["--rate", str(rate)]
        ran = subprocess.run([program, *words], input=b"", capture_output=True)
        places = {
            "BadSource": "source",
            "BadRate": "rate",
            "SigrokOnly": "unshifted" if rate is None else "rate",
            "NoBus": "bus",
        }
        fault = ""
        try:
            pmb.imported(source, "", bus, rate, unshifted)
        except pmb.Error as error:
            fault = f"pmb: import: {error.fault}"
            check(error.place == places[error.fault], f"{words}: {error.place}")
            check(str(error).startswith(f"{error.fault} in {error.place}: "), f"{words}: {error}")
        # (a recording of no bytes has no packets)
        right = fault or "pmb: import: no packets"
        check(right == ran.stderr.decode().strip(), f"{words}: {right!r}, and not {ran.stderr!r}")
        check((ran.returncode == 2) == bool(fault), f"{words}: status {ran.returncode}")
        found[fault] += 1
    check(len(found) == 5, f"{found}")


class Index:
    """What Python takes as an int, as it does numbers of numpy."""

    def __init__(self, number):
        self.number = number

    def __index__(self):
        return self.number


def compare_names_of_arguments():
    """What is wrong with an argument, word for word: its name, and what would be right."""
    numbers = "data is bytes or a list of their numbers, "
    address = "BadAddress in devices: "
    either = "an int or two hexadecimal digits, not "
    file = "capture is a str, bytes, a file, or an iterable of such pieces, "
    for right, call, *given in (
        (numbers + "not int", pmb.pec, 0xB0),
        (numbers + "not NoneType", pmb.pec, None),
        (numbers + "not items of 2 bytes", pmb.pec, array.array("H", [1])),
        ("a byte of data is from 0 to 255, not 256", pmb.pec, [0, 256]),
        ("a byte of data is an int, not str", pmb.pec, iter(["b0"])),
        ("crc is from 0 to 255, not -1", pmb.pec, b"", -1),
        ("crc is an int, not str", pmb.pec, b"", "00"),
        ("format is a str or a pmb.Format, not NoneType", pmb.encode, None, 1),
        ("format is a str or a pmb.Format, not int", pmb.Format.parse, 5),
        ("m of format is an int, not str", pmb.encode, pmb.Format.direct("3", 2, 1), 1),
        ("table is a str, not int", pmb.Format.vid, 1),
        ("direct is a pmb.Format, not str", pmb.Format.vout, 0x40, False, "direct:1,2,3"),
        ("quantity is a number or a str, not NoneType", pmb.encode, "linear11", None),
        ("quantity is a finite number, not nan", pmb.encode, "linear11", math.nan),
        ("code is an int, not float", pmb.decode, "linear11", 3.0),
        ("code is from 0 to 255, not 256", pmb.command_name, 256),
        ("bit is from 0 to 15, not 16", pmb.bit_name, 0x79, 16),
        ("text is a str or bytes, not int", pmb.quantity, 5),
        ("text is a str, bytes, or an iterable of such pieces, not int", pmb.events, 5),
        ("a piece of text is a str or bytes, not int", list, pmb.events([5])),
        ("profile is a str, bytes or a pmb.Profile, not int", pmb.show, 5, ""),
        ("profile is a str, bytes or a pmb.Profile, not NoneType", pmb.transactions, None, ""),
        ("text is a str or bytes, not int", pmb.Profile, 5),
        ("capture is a str or bytes, not int", pmb.show, PLAIN, 5),
        ("capture is a str or bytes, not int", pmb.check, PLAIN, 5),
        ("capture is a str or bytes, not int", pmb.json, PLAIN, 5),
        (file + "not int", pmb.transactions, PLAIN, 5),
        ("lines is a str or bytes, not list", pmb.build, PLAIN, ["write 58 03"]),
        ("requests is a str or bytes, not list", pmb.run, PLAIN, []),
        ("text is a str or bytes, not NoneType", pmb.imported, "kernel", None),
        ("bus is a str or bytes, not int", pmb.imported, "kernel", "", 0),
        ("BadRate in rate: from 1 to 18446744073, not 0", pmb.imported, "sigrok", "", None, 0),
        ("rate is an int, not str", pmb.imported, "awk", "", None, "1"),
        ("source is a str, not bytes", pmb.imported, b"kernel", ""),
        ("BadSource in source: one of sigrok, saleae, beagle, kernel, smbus, not 'awk'", pmb.imported, "awk", ""),
        ("SigrokOnly in rate: the source is 'kernel'", pmb.imported, "kernel", "", None, 1, True),
        ("SigrokOnly in unshifted: the source is 'beagle'", pmb.imported, "beagle", "", "0", None, True),
        ("NoBus in bus: recordings of 'beagle' have one bus, without a name", pmb.imported, "beagle", "", "0"),
        ("devices is a list of addresses, not int", pmb.json, PLAIN, "", 0x58),
        ("devices is a list of addresses, not str", pmb.json, PLAIN, "", "58"),
        (address + "0xd8 is the 8-bit form of 0x6c", pmb.json, PLAIN, "", [0xD8]),
        (address + "0xd8 is the 8-bit form of 0x6c", pmb.transactions, PLAIN, "", ["d8"]),
        (address + "from 0 to 127, not -1", pmb.json, PLAIN, "", [-1]),
        (address + "from 0 to 127, not 256", pmb.json, PLAIN, "", [0x58, 256]),
        ("an address in devices is " + either + "float", pmb.json, PLAIN, "", [88.0]),
        (address + either + "'0x58'", pmb.json, PLAIN, "", ["0x58"]),
        ("BadDigits in digits: from 0 to 12, not 13", pmb.json, PLAIN, "", (), 13),
        ("digits is an int, not str", pmb.transactions, PLAIN, "", (), "6"),
        ("NeedsLate in fixed_vout_mode: only with late", pmb.json, PLAIN, "", (), 6, False, True),
    ):
        try:
            found = call(*given)
        except (TypeError, ValueError) as error:
            found = str(error)
        check(found == right, f"{call}{given!r}: {found!r}, and not {right!r}")


def compare_keys():
    """What an object has of its packet's time, of its device's name, and of what is assumed."""
    named = "ignore = [0x50]\n" + PLAIN + "name = 'VDD \"0\"'\n"
    capture = "# 1.5 s\nS a0 N P\n# 2026-01-25T15:30:08Z\nS b0 A 21 A 00 A 18 A P\nx"
    found = list(pmb.transactions(named, capture))
    kinds = [(it["kind"], it.get("device"), it.get("name"), it.get("time")) for it in found]
    check(kinds == [
        ("other", "50", None, "1.5"),
        ("write", "58", 'VDD "0"', "2026-01-25T15:30:08Z"),
        ("bad_token", None, None, None),
    ], f"the keys of objects: {kinds}")
    check([it.get("mode") for it in found] == [None, "assumed", None], f"what is assumed: {found}")
    check([it.get("address") for it in found] == [0x50, 0x58, None], f"addresses: {found}")
    (alert,) = pmb.transactions(PLAIN, "S 19 N P")
    check(alert["device"] is None and "address" not in alert, f"an alert without device: {alert}")
    text = pmb.json(named, capture)
    check((text.packets, text.refusals) == (1, 1), f"others: {text.packets}, {text.refusals}")
    check(json.loads(text.splitlines()[-1])["others"] == 1, "others at the end")
    check("others" not in pmb.json(PLAIN, capture), "others of a profile that ignores nothing")


def check_raises(wrong, call, *given):
    try:
        found = repr(call(*given))
    except Exception as error:
        # (a plain one, since no name of the program says so)
        found = wrong if type(error) is wrong and str(error) else f"{type(error).__name__}: {error}"
    check(found is wrong, f"{call}{given!r}: {found}, and no {wrong.__name__}")


def told(error):
    return type(error), str(error), error.args, sorted(error.__dict__.items())


def compare_copies():
    """Each class, copied and pickled, is as it was."""
    errors = []
    for call, *given in (
        (pmb.encode, "linear11", "128x"),
        (pmb.encode, "linear11", 1e300),
        (pmb.build, PLAIN, "\nwrite 58"),
        (pmb.show, PLAIN + "x = 1", ""),
        (pmb.show, PLAIN.replace("0x58", "0xb0"), ""),
        (lambda text: list(pmb.events(text)), "S hm"),
        (pmb.json, PLAIN, "", [0xD8]),
    ):
        try:
            call(*given)
        except pmb.Error as error:
            errors.append(error)
    kinds = [pmb.Error, pmb.Error, pmb.LineError, pmb.ProfileError, pmb.ProfileError, pmb.TokenError]
    kinds += [pmb.Error]
    check([type(error) for error in errors] == kinds, f"{errors}")
    for error, right in zip(errors[2:], ("BadWord at 8 in line 2", "UnknownKey in device 0\n")):
        check(str(error).startswith(right), f"{error}, and not {right}")
    check(errors[2].line == 2 and errors[5].at == 2, f"{errors}")
    check(str(errors[4]).startswith("BadAddress in device 0\n"), str(errors[4]))
    check("0xb0 is the 8-bit form of 58h" in errors[4].hint, str(errors[4]))
    check(str(errors[5]) == "BadToken in byte 2", str(errors[5]))
    text = pmb.show(PLAIN, "S b0 A 03 A P S")
    others = [text, pmb.Event("byte", 5), pmb.Format.parse("direct:3,2,1")]
    others += [pmb.decode("linear11", 0xD301), *pmb.transactions(PLAIN, "S b0 A 03 A P S")]
    ways = [copy.copy, copy.deepcopy]
    for protocol in range(pickle.HIGHEST_PROTOCOL + 1):
        ways.append(lambda it, protocol=protocol: pickle.loads(pickle.dumps(it, protocol)))
    for way in ways:
        for error in errors:
            error.note = "kept"
            check(told(way(error)) == told(error), f"{error!r} becomes {way(error)!r}")
        for it in others:
            check(way(it) == it and type(way(it)) is type(it), f"{it!r} becomes {way(it)!r}")
        again = way(text)
        check((again.packets, again.refusals) == (1, 1), f"{again!r}")
        # (what is not read yet)
        for length in (3, 9000):
            found = pmb.transactions(PLAIN, "S b0 A 03 A P\n" * length)
            next(found)
            again = way(found)
            check([it["line"] for it in again] == list(range(2, length + 1)), f"{again}")
            check([it["line"] for it in found] == list(range(2, length + 1)), f"{found}")


def bad_token(text):
    return list(pmb.events(text))


def compare_pools():
    """Calls in pools of processes, whose arguments, results and errors are pickled."""
    captures = ["", "S b0 A 03 A P", "S b0 A 03 A P x", "S S"]
    shown = [pmb.show(PLAIN, capture) for capture in captures]
    bad = PLAIN.replace("0x58", "0xb0")
    for kind in ("fork", "spawn"):
        context = multiprocessing.get_context(kind)
        with context.Pool(2) as pool:
            found = pool.map_async(functools.partial(pmb.show, PLAIN), captures).get(60)
            packets = [it.packets for it in found]
            check(found == shown and packets == [0, 1, 1, 0], f"{kind}: {found}")
            for call, given, fault in (
                (functools.partial(pmb.show, bad), "", pmb.ProfileError),
                (bad_token, "S hm", pmb.TokenError),
                (functools.partial(pmb.build, PLAIN), "write", pmb.LineError),
            ):
                try:
                    pool.apply_async(call, (given,)).get(60)
                    check(False, f"{kind}: no {fault}")
                except pmb.Error as error:
                    try:
                        call(given)
                    except pmb.Error as here:
                        check(type(error) is fault and str(error) == str(here), f"{kind}: {error}")
        with concurrent.futures.ProcessPoolExecutor(2, context) as pool:
            found = list(pool.map(functools.partial(pmb.json, PLAIN), captures, timeout=60))
            check(found == [pmb.json(PLAIN, capture) for capture in captures], f"{kind}: futures")
            found = pool.map(functools.partial(pmb.transactions, PLAIN), captures, timeout=60)
            right = [list(pmb.transactions(PLAIN, capture)) for capture in captures]
            check([list(it) for it in found] == right, f"{kind}: the objects of futures")


def analysers():
    """The recordings of the examples: a source, options, and the text."""
    for name in sorted(os.listdir(os.path.join(ROOT, "examples", "analysers"))):
        if not name.endswith((".txt", ".csv")):
            continue
        source = name.partition(".")[0].partition("_")[0]
        options = {}
        if source == "sigrok":
            options = {"unshifted": True, "bus": "i2c-2"} if "two" in name else {"rate": 10**6}
        yield source, options, read("examples", "analysers", name)
        if name == "kernel_smbus.txt":
            yield "smbus", {"bus": b"i2c-0"}, read("examples", "analysers", name)


def compare_import(program, source, options, text):
    """One recording, from Python and by the program."""
    flags = []
    if options.get("bus") is not None:
        flags += ["--bus", options["bus"]]
    if options.get("rate") is not None:
        flags += ["--rate", str(options["rate"])]
    flags += ["--unshifted"] if options.get("unshifted") else []
    done = subprocess.run([program, "import", source, *flags], input=text, capture_output=True)
    what = f"import {source} {options} of {text[:60]!r}"
    found = pmb.imported(source, text, **options)
    right = done.stdout.decode()
    check(found == right, f"{what}: {found[:200]!r}, and not {right[:200]!r}")
    packets = sum(line.startswith("S ") for line in right.splitlines())
    check(found.packets == packets, f"{what}: {found.packets} packets")
    status = 1 if found.refusals else 0
    check(status == done.returncode, f"{what}: {found.refusals}, and status {done.returncode}")


def compare_imports(program, count):
    """Recordings, some of them damaged; and what is refused, as the program refuses it."""
    for wrong, source, options in (
        (pmb.Error, "awk", {}),
        (pmb.Error, "", {}),
        (pmb.Error, "sigrok", {"rate": 0}),
        (pmb.Error, "sigrok", {"rate": -1}),
        (pmb.Error, "sigrok", {"rate": 18446744074}),
        (pmb.Error, "sigrok", {"rate": 1 << 70}),
        (pmb.Error, "kernel", {"rate": 1}),
        (pmb.Error, "saleae", {"unshifted": True}),
        (pmb.Error, "beagle", {"bus": "i2c-0"}),
        (pmb.Error, "beagle", {"bus": ""}),
        (TypeError, None, {}),
        (TypeError, b"kernel", {}),
        (TypeError, "sigrok", {"rate": 24e6}),
        (TypeError, "sigrok", {"rate": "24000000"}),
        (TypeError, "kernel", {"bus": 0}),
    ):
        check_raises(wrong, functools.partial(pmb.imported, **options), source, "")
    check_raises(TypeError, pmb.imported, "kernel", 5)
    check_raises(TypeError, pmb.imported, "kernel", ["a line"])
    if pmb._IMPORT is None:
        check_raises(NotImplementedError, pmb.imported, "kernel", "")
        print("library: it has no pmb_import, so no recording was imported", file=sys.stderr)
        return
    r = random.Random(45)
    kept = list(analysers())
    for source, options, text in kept:
        for each in ({}, options):
            compare_import(program, source, each, text)
        compare_import(program, source, options, b"")
        compare_import(program, "kernel", {"bus": ""}, text)
    for _ in range(count // 40):
        source, options, text = r.choice(kept)
        lines = text.splitlines(True)
        for _ in range(r.randrange(4)):
            at = r.randrange(len(lines))
            lines[at : at + 1] = r.choice([[], [lines[at]] * 2, [disturbed(r, lines[at])]])
            lines = lines or [b""]
        compare_import(program, source, options, b"".join(lines))
    for given in (str(kept[0][2], "utf-8"), bytearray(kept[0][2]), memoryview(kept[0][2])):
        found = pmb.imported(kept[0][0], given)
        check(found == pmb.imported(kept[0][0], kept[0][2]), f"a recording in a {type(given)}")
    times = pmb._IMPORT
    try:
        right = pmb.imported("kernel", "i2c_result: \n" * 50000)
        pmb._IMPORT = times._replace(times=0)
        check(pmb.imported("kernel", "i2c_result: \n" * 50000) == right, "in a small room")
    finally:
        pmb._IMPORT = times


def compare_rooms():
    """The library is called once, also for the inputs whose text is longest; and where the room was
    too small after all, the text is the same."""
    block = '[[device.command]]\ncode = 0xe0\nname = "X"\nread = "block"\n'
    block += 'initial = "' + "00" * 255 + '"\n'
    addresses = range(0x20, 0x60)
    many = "".join(f"[[device]]\naddress = {address}\npec = 'on'\n" for address in addresses)
    wide = "".join(f"S {address << 1:02x} A 03 A 00 N P\n" for address in addresses)
    for call, name, profile, text in (
        (pmb.show, "_SHOW", PLAIN, "P " * 50000),
        (pmb.check, "_CHECK", PLAIN, "P\n" * 50000),
        (pmb.json, "_JSON", PLAIN, "P\n" * 50000),
        (pmb.json, "_JSON", PLAIN, "P " * 50000),
        (pmb.json, "_JSON", many, wide),
        (functools.partial(pmb.build, strict=False), "_BUILD", PLAIN, "x\n" * 50000),
        (pmb.run, "_RUN", PLAIN + block, "read 58 e0\n" * 2000),
        (pmb.show, "_SHOW", PLAIN, ""),
    ):
        task, made = getattr(pmb, name), []

        def counted(*given):
            made.append(given)
            return task.alone(*given)

        try:
            setattr(pmb, name, task._replace(alone=counted))
            right = call(profile, text)
            check(len(made) == 1, f"{name} of {text[:12]!r} is called {len(made)} times")
            made.clear()
            setattr(pmb, name, task._replace(alone=counted, times=0))
            check(call(profile, text) == right, f"{name} of {text[:12]!r} in a small room")
            calls = 1 if len(right) <= pmb._BESIDES else 2
            check(len(made) == calls, f"{name} in a small room: {len(made)} calls")
        finally:
            setattr(pmb, name, task)
    # objects of a text of some 20 MB
    packets = "S b0 A 03 A P\n" * 150000
    found = pmb.transactions(PLAIN, packets)
    for at, it in enumerate(found):
        if it["line"] != at + 1 or it["command"] != "CLEAR_FAULTS":
            break
    check(at == 149999 and it["line"] == 150000, f"object {at}: {it}")


def compare_messages():
    """The messages of built packets: no byte of a reply is sent to a device."""
    folder = os.path.join(ROOT, "examples", "python")
    sys.path.insert(0, folder)
    try:
        messages = runpy.run_path(os.path.join(folder, "build_and_check.py"))["messages"]
    finally:
        sys.path.remove(folder)
    profile = PLAIN + '[[device.command]]\ncode = 0xe0\nname = "X"\ncall = "two"\n'
    for line, right in (
        ("write 58 03", [(0x58, 0, [0x03])]),
        ("write 58 21 00 18", [(0x58, 0, [0x21, 0x00, 0x18])]),
        ("read 58 88 : 00 d3", [(0x58, 0, [0x88]), (0x58, 1, [0, 0])]),
        ("read 58 88 : 00 d3 pec", [(0x58, 0, [0x88]), (0x58, 1, [0, 0, 0])]),
        # (a block comes with its count)
        ("read 58 99 : 41 42", [(0x58, 0, [0x99]), (0x58, 1, [0, 0, 0])]),
        ("call 58 e0 01 02 : 05 06", [(0x58, 0, [0xE0, 0x01, 0x02]), (0x58, 1, [0, 0])]),
        ("refused 58 88 read", [(0x58, 0, [0x88]), (0x58, 1, [])]),
        # (the Alert Response Address is 0ch)
        ("alert b0", [(0x0C, 1, [0])]),
    ):
        found = [(it.addr, it.flags, list(it)) for it in messages(pmb.build(profile, line))]
        check(found == right, f"the messages of {line}: {found}, and not {right}")


def compare_package():
    """What the package says of itself."""
    names = {}
    exec("from json import *; import json; from pmb import *", names)
    check(names["json"] is json, "from pmb import * replaces json")
    taken = set(dir(builtins)) | set(getattr(sys, "stdlib_module_names", ())) | {"json", "typing"}
    hidden = taken.intersection(pmb.__all__)
    check(not hidden, f"from pmb import * hides {hidden}")
    modules = {name for name, it in vars(pmb).items() if isinstance(it, type(pmb))}
    check(not modules.intersection(pmb.__all__), f"from pmb import * brings in {modules}")
    check(pmb.__version__ == pmb.version(), pmb.__version__)
    for name in ("pyproject.toml", "wheel_of_clone.py"):
        check(f'"{pmb.__version__}"' in read("python", name).decode(), f"the version in {name}")
    # what pyproject.toml says is in the wheel
    builder = runpy.run_path(os.path.join(ROOT, "python", "wheel_of_clone.py"))
    told = [line.partition(": ") for line in builder["METADATA"].splitlines()]
    project = read("python", "pyproject.toml").decode()
    for field, key in (("Summary", "description"), ("Requires-Python", "requires-python")):
        right = re.findall(f'(?m)^{key} = "(.*)"$', project)
        check([it[2] for it in told if it[0] == field] == right != [], f"{field} in wheel_of_clone.py")
    for field, key in (("Classifier", "classifiers"), ("Keywords", "keywords")):
        right = re.findall('"(.*?)"', re.findall(f"(?s){key} = \\[(.*?)\\]", project)[0])
        found = [part for it in told if it[0] == field for part in it[2].split(",")]
        check(found == right != [], f"{field} in wheel_of_clone.py")
    # each public name has an example, and all of them are right
    public = [(pmb, name) for name in pmb.__all__ + ["json"]]
    public += [(pmb.Format, name) for name in ("parse", "half", "vid", "direct", "vout")]
    public += [(pmb.objects, name) for name in pmb.objects.__all__ if name != "Object"]
    for owner, name in public:
        text = getattr(owner, name).__doc__ or ""
        check(">>> " in text.replace(">>> import", ""), f"no example in {owner.__name__}.{name}")
    for module in (pmb, pmb.objects):
        printed = io.StringIO()
        with contextlib.redirect_stdout(printed):
            wrong, count = doctest.testmod(module)
        check(wrong == 0 and count >= 40, f"{module.__name__}: {count} examples\n{printed.getvalue()}")


def compare_reports():
    """A report of the same recordings is the same bytes, whenever it is made."""
    made = []
    with tempfile.TemporaryDirectory() as folder:
        for at in (1e9, 2e9):
            path = os.path.join(folder, str(at))
            with unittest.mock.patch("time.time", lambda at=at: at):
                pmb.report(PLAIN, {"one.txt": SMALL}, path)
            with open(path, "rb") as file:
                made.append(file.read())
    check(made[0] == made[1] != b"", "a report at another time is other bytes")


def compare_program(program):
    """`python3 -m pmb` is the released program, and says where there is none."""
    def started(words, folder=None):
        environment = {**os.environ, "PYTHONPATH": folder} if folder else None
        words = [sys.executable, "-m", "pmb", *words]
        done = subprocess.run(words, input=b"S b0 A 03 A P S", capture_output=True, env=environment)
        return done.returncode, done.stdout.decode(), done.stderr.decode()

    released = os.path.join(ROOT, "release", "pmb")
    for words in (["show", "--sample"], ["json", "--sample", "--digits=2"], ["show", "x"], []):
        done = subprocess.run([released, *words], input=b"S b0 A 03 A P S", capture_output=True)
        right = done.returncode, done.stdout.decode(), done.stderr.decode()
        check(started(words) == right, f"python3 -m pmb {words}: {started(words)}, and not {right}")
    with tempfile.TemporaryDirectory() as folder:
        package = os.path.join(folder, "pmb")
        shutil.copytree(os.path.join(ROOT, "python", "pmb"), package)
        shutil.copy(os.path.join(ROOT, "release", "libpmb.so"), package)
        beside = os.path.join(package, "pmb")
        right = 125, "", "pmb: this package has the library without the program, which would be "
        found = started(["--version"], folder)
        check(found == (*right[:2], right[2] + beside + "\n"), f"without the program: {found}")
        # (one that may be read alone is started by the loader)
        shutil.copyfile(released, beside)
        found = started(["--version"], folder)
        check(found[0] == 0 and found[1].startswith(f"pmb {pmb.version()}\n") and found[2] == "",
              f"a program that may only be read: {found}")
        with open(beside, "w") as file:
            file.write("#!/no/such/shell\n")
        os.chmod(beside, 0o755)
        found = started(["--version"], folder)
        check(found[0] == 125 and "can't be started" in found[2], f"a bad program: {found}")


def compare_page():
    """The blocks of Python in docs/python.md, docs/bus.md and the package's README print what stands in
    their comments."""
    names = ("docs", "python.md"), ("docs", "bus.md"), ("python", "README.md")
    pages = [read(*name).decode() for name in names]
    blocks = [each for page in pages for each in re.findall("(?ms)^```python\n(.*?)^```$", page)]
    check(len(blocks) >= 3, f"the pages have {len(blocks)} blocks of Python")
    for block in blocks:
        if "Reader" in block and not has_readers():
            continue
        printed = io.StringIO()
        with contextlib.redirect_stdout(printed):
            # (a file's own name, for what is found by it, such as classes that are pickled)
            exec(compile(block, "docs/python.md", "exec"), {"__name__": "page"})
        right = re.findall("(?m)^ *print\\(.*  # (.*)$", block)
        check(right != [] and printed.getvalue().splitlines() == right, f"{block}{printed.getvalue()}")


def compare_threads():
    commands, profile, text = next(examples())
    shown = pmb.show(profile, text)

    def work(right):
        for code in range(0, 65536, 97):
            if pmb.encode("vout:17", pmb.decode("vout:17", code)) != code:
                right.append(code)
            if code % 8 == 0 and pmb.show(profile, text) != shown:
                right.append("show")

    wrong = []
    threads = [threading.Thread(target=work, args=(wrong,)) for _ in range(4)]
    for thread in threads:
        thread.start()
    for thread in threads:
        thread.join()
    check(not wrong, f"in threads: {wrong[:3]}")


# ---- profiles that are read once, and captures that come in pieces

# A write, a read, a refused leg, a refusal, a word that is no token with what is left of its line, and
# a packet that the end cuts off, with times and a name.
SMALL = """# 1.5 s
S b0 A 21 A 00 A 18 A f8 A P
S b0 A 8b A S b1 A 00 A 18 N P # as it is
# 2.5 s
S b0 A 21 N P
S b0 P
S b0 A hm A 21
\tS b0\r
A 20 A S b1 A 17 N P S 19 A b0 N P S a0 N P
S b0 A 88 """
IGNORES = "ignore = [0x50]\n" + PLAIN + "name = 'VDD'\n"


def has_profiles():
    if not pmb._HAS_PROFILES:
        print("library: it has no pmb_profile_open, so no profile was kept", file=sys.stderr)
    return pmb._HAS_PROFILES


def has_readers():
    if not pmb._HAS_READERS:
        print("library: it has no pmb_reader_open, so no capture was cut", file=sys.stderr)
    return pmb._HAS_READERS


def read_in_pieces(profile, pieces, **options):
    """The objects of a reader, and what it counted."""
    with pmb.Reader(profile, **options) as reader:
        found = [it for piece in pieces for it in reader.feed(piece)] + reader.end()
        check(reader.ended and not reader.closed, f"{reader}")
    check(reader.closed, f"{reader} after its block")
    return found, reader.packets, reader.refusals


def compare_profiles(count):
    """Calls under a profile that was read once, beside those under its text."""
    if not has_profiles():
        return
    r = random.Random(64)
    kept = [(command, *rest) for commands, *rest in examples() for command in commands]
    opened = {profile: pmb.Profile(profile) for _, profile, _ in kept}
    for at in range(len(kept) + count // 200):
        command, profile, text = kept[at] if at < len(kept) else r.choice(kept)
        text = text if at < len(kept) else disturbed(r, text[: r.randrange(600)])
        options = {"strict": False} if command == "build" else {}
        if command == "json":
            options = {"digits": r.randrange(13), "keep_going": True, "devices": [0x58, "40"]}
        right = getattr(pmb, command)(profile, text, **options)
        held = opened[profile]
        for found in (
            getattr(held, command)(text, **options),
            getattr(pmb, command)(held, text, **options),
        ):
            counts = found.packets, found.refusals
            check(found == right, f"{command} under {held} of {text[:60]!r}: {found[:200]!r}")
            check(counts == (right.packets, right.refusals), f"{command} under {held}: {counts}")
        if command == "json":
            right = list(pmb.transactions(profile, text, **options))
            check(list(held.transactions(text, **options)) == right, f"transactions under {held}")
    for wrong in (5, None, ["x"]):
        check_raises(TypeError, pmb.Profile, wrong)
    for bad in (PLAIN + "x = 1", b"x", PLAIN.replace("0x58", "0xb0")):
        errors = []
        for call in (pmb.Profile, lambda bad: pmb.show(bad, "")):
            try:
                call(bad)
            except pmb.ProfileError as error:
                errors.append(told(error))
        check(len(errors) == 2 and errors[0] == errors[1], f"{bad!r}: {errors}")


def compare_closed():
    """Profiles that are closed, also twice, and copies of those that are open."""
    if not has_profiles():
        return
    profile = pmb.Profile(bytearray(PLAIN.encode()))
    check(not profile.closed and repr(profile) == f"<pmb.Profile of {len(PLAIN)} bytes>", f"{profile}")
    for _ in range(2):
        profile.close()
        check(profile.closed and repr(profile).endswith(", closed>"), f"{profile}")
    for call, *given in (
        (profile.show, ""),
        (profile.check, ""),
        (profile.build, ""),
        (profile.run, ""),
        (profile.json, ""),
        (profile.transactions, ""),
        (pmb.show, profile, ""),
        (pmb.transactions, profile, ""),
        (profile.__enter__,),
        (copy.copy, profile),
        (pickle.dumps, profile),
    ):
        check(raised(ValueError, call, *given) == "the profile is closed", f"{call} of a closed profile")
    with pmb.Profile(PLAIN) as profile:
        for way in (copy.copy, copy.deepcopy, lambda it: pickle.loads(pickle.dumps(it))):
            again = way(profile)
            check(again.show("S b0 A 03 A P") == profile.show("S b0 A 03 A P"), f"{again}")
    check(profile.closed, f"{profile} after its block")
    captures = ["", "S b0 A 03 A P", "S"]
    for kind in ("fork", "spawn"):
        with multiprocessing.get_context(kind).Pool(2) as pool, pmb.Profile(PLAIN) as profile:
            for call in (profile.show, functools.partial(pmb.show, profile)):
                found = pool.map_async(call, captures).get(60)
                check(found == [call(capture) for capture in captures], f"{kind}: {found}")


def raised(wrong, call, *given):
    """What an error says that a call raises, or what it returns."""
    try:
        return call(*given)
    except wrong as error:
        return str(error)


def compare_ended():
    """Readers that are closed, and at the end of a capture, and whose profile is closed."""
    if not has_readers():
        return
    with pmb.Profile(PLAIN) as profile:
        objects, reader = profile.transactions(["S b0 A 03 A P "] * 3), pmb.Reader(profile)
        first = next(objects), *reader.feed("S b0 A 03 A P ")
        stream = profile.transactions(waits([]))
        for way in (copy.copy, copy.deepcopy, pickle.dumps):
            for it in (reader, objects, stream):
                check_raises(TypeError, way, it)
    check(raised(ValueError, pmb.Reader, profile) == "the profile is closed", f"{profile}")
    rest = [*objects, *reader.feed("S b0 A 03 A P S")]
    check([it["kind"] for it in (*first, *rest)] == ["write"] * 5, f"{first}, {rest}")
    check(reader.end()[0]["reason"] == "Truncated" and reader.end() == [], f"{reader}")
    check(reader.feed("S b0 A 03 A P ") == [] and reader.ended, f"{reader} after the end")
    for _ in range(2):
        reader.close()
    for call, *given in ((reader.feed, "S"), (reader.end,), (reader.__enter__,)):
        check(raised(ValueError, call, *given) == "the reader is closed", f"{call} of a closed reader")
    counts = reader.packets, reader.refusals, reader.closed, repr(reader)
    right = (2, 1, True, "<pmb.Reader: 2 packets, 1 refusals, closed>")
    check(counts == right, f"a closed reader: {counts}")
    with pmb.Reader(PLAIN) as reader:
        reader.feed("S b0 A")
    check(reader.closed and not reader.ended, f"{reader}")


def compare_cuts(count):
    """However a text is cut, and in whatever form it comes, its objects are those of the whole."""
    if not has_readers():
        return
    r = random.Random(27)
    profile = pmb.Profile(IGNORES)
    for options in (
        {"keep_going": True},
        {"keep_going": True, "late": True, "fixed_vout_mode": True, "digits": 12},
        {"keep_going": True, "devices": ["58"]},
        {},
    ):
        text = pmb.json(profile, SMALL, **options)
        right = list(pmb.transactions(profile, SMALL, **options)), text.packets, text.refusals
        for at in range(len(SMALL) + 1):
            for cut in ([SMALL[:at], SMALL[at:]], [SMALL[:at].encode(), b"", SMALL[at:]]):
                found = read_in_pieces(profile, cut, **options)
                check(found == right, f"{cut} {options}: {found}, and not {right}")
        found = read_in_pieces(profile, SMALL, **options)
        check(found == right, f"each character {options}: {found}, and not {right}")
    texts = [(profile, text) for commands, profile, text in examples() if "json" in commands]
    for at in range(count // 40):
        profile, text = texts[at] if at < len(texts) else r.choice(texts)
        text = text if at < len(texts) else disturbed(r, text[: r.randrange(2000)])
        options = {"keep_going": r.randrange(2) == 1, "digits": r.randrange(13)}
        right = list(pmb.transactions(profile, text, **options))
        cuts = sorted(r.randrange(len(text) + 1) for _ in range(r.randrange(9)))
        pieces = [text[a:b] for a, b in zip([0] + cuts, cuts + [len(text)])]
        found = read_in_pieces(profile, pieces, **options)[0]
        check(found == right, f"{text[:60]!r} cut at {cuts}: {len(found)} of {len(right)}")
        for given in (pieces, iter(pieces), map(bytearray, pieces), map(memoryview, pieces)):
            found = list(pmb.transactions(profile, given, **options))
            check(found == right, f"{text[:60]!r} in pieces: {len(found)} of {len(right)}")
    # (longer than one piece of the package's own, and than its first room)
    packets = "S b0 A 03 A P\n" * 12000
    right = list(range(1, 12001))
    for given in (packets, packets.encode(), [packets], [packets.encode(), ""]):
        found = [it["line"] for it in pmb.transactions(PLAIN, given)]
        check(found == right, f"{len(found)} objects of a long {type(given).__name__}")
    reader = pmb.Reader(PLAIN)
    found = [it["line"] for it in reader.feed(packets)]
    check(found == right and reader.packets == 12000, f"{len(found)} objects of a long piece")


def files_of(text, folder):
    """A text in each kind of file."""
    name = os.path.join(folder, "capture.txt")
    with open(name, "w", encoding="ascii", newline="") as file:
        file.write(text)
    with gzip.open(name + ".gz", "wt", encoding="ascii", newline="") as file:
        file.write(text)
    yield open(name, "rb")
    yield open(name, encoding="ascii")
    yield open(name, "rb", buffering=0)
    yield gzip.open(name + ".gz")
    yield gzip.open(name + ".gz", "rt")
    yield io.BytesIO(text.encode())
    yield io.StringIO(text)
    with open(name, "rb") as file:
        yield mmap.mmap(file.fileno(), 0, access=mmap.ACCESS_READ)
    done = subprocess.Popen(["cat", name], stdout=subprocess.PIPE)
    yield done.stdout
    done.wait()
    done = subprocess.Popen(["cat", name], stdout=subprocess.PIPE, encoding="ascii")
    yield done.stdout
    done.wait()


class Lines:
    """A file that has nothing but whole lines, as that of somebody's own."""

    def __init__(self, text):
        self.lines = text.splitlines(True)

    def read(self, size=-1):
        raise AssertionError("it would wait for all of it")

    def readline(self, size=-1):
        return self.lines.pop(0) if self.lines else ""


class NoData(io.RawIOBase):
    """A file that has no data yet, and doesn't wait."""

    def readline(self, size=-1):
        return None


def compare_files():
    """Captures in files, and in what is none."""
    if not has_readers():
        return
    text = SMALL.replace("hm", "A") + "A\n" + "S b0 A 03 A P\n" * 6000
    right = list(pmb.transactions(IGNORES, text))
    with tempfile.TemporaryDirectory() as folder:
        # (one after the other: a pipe has no room for all of it)
        for file in itertools.chain(files_of(text, folder), [Lines(text)]):
            found = list(pmb.transactions(IGNORES, file))
            check(found == right, f"{file}: {len(found)} objects, and not {len(right)}")
            if not isinstance(file, Lines):
                file.close()
        # (those of which nobody has the file, and those that were begun, or are of other bytes)
        name = os.path.join(folder, "other.txt")
        for encoding in ("utf-8", "latin-1", "utf-16", "ascii"):
            begin = "# \xb5s\n" if encoding != "ascii" else "#\n"
            with open(name, "w", encoding=encoding, newline="") as file:
                file.write(begin + text)
            found = list(pmb.transactions(IGNORES, open(name, encoding=encoding)))
            lines = [it["line"] for it in found]
            check(lines == [it["line"] + 1 for it in right], f"{encoding}: {len(found)} objects")
            with open(name, encoding=encoding) as file:
                check(file.readline() == begin, encoding)
                found = list(pmb.transactions(IGNORES, file))
            check(found == right, f"{encoding}, begun: {len(found)} objects")
    for given, why in (
        (5, "capture is a str, bytes, a file, or an iterable of such pieces, not int"),
        (None, "capture is a str, bytes, a file, or an iterable of such pieces, not NoneType"),
        (pathlib.Path("capture.txt"), "capture is a str, bytes, a file, or an iterable of such "
                                      "pieces, not a path: open it, as open(path, 'rb')"),
        ([83, 32], "a piece of capture is a str or bytes, not int"),
        (["S", None], "a piece of capture is a str or bytes, not NoneType"),
        (NoData(), "capture is a file that has no data yet and doesn't wait for it"),
    ):
        try:
            found = list(pmb.transactions(PLAIN, given))
        except (TypeError, BlockingIOError) as error:
            found = str(error)
        check(found == why, f"{given!r}: {found}")
    for why, call in (
        ("data is a str or bytes, not int", lambda: pmb.Reader(PLAIN).feed(5)),
        ("profile is a str, bytes or a pmb.Profile, not int", lambda: pmb.Reader(5)),
    ):
        try:
            found = call()
        except TypeError as error:
            found = str(error)
        check(found == why, f"a reader: {found}, and not {why}")


def compare_live():
    """The objects of a packet are there before what follows is written."""
    if not has_readers():
        return
    packets = ["S b0 A 03 A P\n", "S b0 A 21 A 00 ", "A 18 A P\nS b0 A 2", "1 N P\n"]
    right = [1, 0, 1, 1]

    def written(write, close, seen):
        for at, packet in enumerate(packets):
            write(packet.encode())
            if right[at] and not seen.acquire(timeout=60):
                check(False, f"the objects of {packet!r} came late")
        close()

    for kind in ("rb", "r", "raw", "socket"):
        seen = threading.Semaphore(0)
        if kind == "socket":
            end, other = socket.socketpair()
            file, write, close = end.makefile("rb"), other.sendall, other.close
        else:
            number, other = os.pipe()
            options = {"mode": "rb", "buffering": 0} if kind == "raw" else {"mode": kind}
            file = open(number, **options)
            write, close = functools.partial(os.write, other), functools.partial(os.close, other)
        writer = threading.Thread(target=written, args=(write, close, seen))
        writer.start()
        found = []
        for it in pmb.transactions(PLAIN, file):
            found.append(it["line"])
            seen.release()
        writer.join()
        file.close()
        if kind == "socket":
            end.close()
        check(found == [1, 2, 3], f"{kind}: the objects of lines {found}")
    # (behind the end of reading nothing is asked for, and an error loses nothing)
    pieces = iter(["S b0 A 03 A P ", "hm ", "S"])
    found = [it["kind"] for it in pmb.transactions(PLAIN, pieces)]
    check(found == ["write", "bad_token"] and list(pieces) == ["S"], f"up to a bad token: {found}")
    objects = pmb.transactions(PLAIN, Fails(["S b0 A 0", None, "3 A P\n", None]))
    found = []
    for _ in range(4):
        try:
            found.append(next(objects)["line"])
        except OSError as error:
            found.append(str(error))
        except StopIteration:
            found.append("end")
    check(found == ["it failed", 1, "it failed", "end"], f"after an error: {found}")


class Fails:
    """Pieces, some of which can't be read yet."""

    def __init__(self, pieces):
        self.pieces = pieces

    def __iter__(self):
        return self

    def __next__(self):
        if not self.pieces:
            raise StopIteration
        piece = self.pieces.pop(0)
        if piece is None:
            raise OSError("it failed")
        return piece


async def waits(pieces):
    for piece in pieces:
        await asyncio.sleep(0)
        yield piece


async def in_tasks(right):
    """What is read by `async for`."""
    profile = pmb.Profile(IGNORES)
    for pieces in ([SMALL], SMALL, [SMALL[:99].encode(), b"", SMALL[99:]]):
        found = [it async for it in profile.transactions(waits(pieces), keep_going=True)]
        check(found == right, f"asynchronous pieces: {found}")
    stream = asyncio.StreamReader()
    objects = pmb.transactions(profile, stream, (), 6, False, False, True)
    stream.feed_data(SMALL[:40].encode())
    found = [await objects.__anext__()]
    # (one that is not there yet may be waited for again)
    for _ in range(2):
        try:
            found.append(await asyncio.wait_for(objects.__anext__(), 0.01))
        except asyncio.TimeoutError:
            pass
    check(found == right[:1], f"an object before the next piece: {found}")
    stream.feed_data(SMALL[40:].encode())
    stream.feed_eof()
    found += [it async for it in objects]
    check(found == right, f"of a stream: {found}")
    check([it async for it in objects] == [], "after the end of a stream")
    number, other = os.pipe()
    stream = asyncio.StreamReader()
    transport, _ = await asyncio.get_running_loop().connect_read_pipe(
        lambda: asyncio.StreamReaderProtocol(stream), open(number, "rb"))
    objects = profile.transactions(stream, keep_going=True)
    os.write(other, SMALL[:40].encode())
    found = [await asyncio.wait_for(objects.__anext__(), 60)]
    os.write(other, SMALL[40:].encode())
    os.close(other)
    found += [it async for it in objects]
    transport.close()
    check(found == right, f"of a pipe: {found}")
    long = "S b0 A 03 A P\n" * 12000
    found = [it["line"] async for it in profile.transactions(waits([long]))]
    check(found == list(range(1, 12001)), f"{len(found)} objects of a long piece")
    for pieces in ([5], ["S", None, 5]):
        try:
            found = [it async for it in pmb.transactions(PLAIN, waits(pieces))]
        except TypeError as error:
            found = str(error)
        name = "int" if len(pieces) == 1 else "NoneType"
        check(found == f"a piece of capture is a str or bytes, not {name}", f"{pieces}: {found}")


def compare_tasks():
    if has_readers():
        asyncio.run(in_tasks(list(pmb.transactions(IGNORES, SMALL, keep_going=True))))


def in_threads(count, work):
    threads = [threading.Thread(target=work, args=(at,)) for at in range(count)]
    for thread in threads:
        thread.start()
    for thread in threads:
        thread.join()


def compare_shared():
    """One profile and one iterator in several threads."""
    if not has_profiles():
        return
    _, toml, text = next(examples())
    profile = pmb.Profile(toml)
    shown, objects = pmb.show(toml, text), list(pmb.transactions(toml, text))
    wrong = []

    def under_profile(at):
        for _ in range(40):
            if profile.show(text) != shown or list(profile.transactions(text)) != objects:
                wrong.append(at)

    in_threads(4, under_profile)
    check(not wrong and 1 <= len(profile._free) <= 4, f"{wrong[:3]}, {len(profile._free)} handles")
    whole, found = pmb.transactions(PLAIN, "S b0 A 03 A P\n" * 20000), [[] for _ in range(3)]

    def taken(at):
        for it in whole:
            found[at].append(it["line"])

    in_threads(3, taken)
    lines = sorted(line for each in found for line in each)
    check(lines == list(range(1, 20001)), f"{len(lines)} objects in three threads")
    # closed by one thread while another is in a call
    for _ in range(20):
        profile = pmb.Profile(toml)
        ended = []

        def until_closed(at):
            try:
                while profile.show(text) == shown:
                    pass
                ended.append("something else")
            except ValueError as error:
                ended.append(str(error))

        in_threads(3, lambda at: until_closed(at) if at else profile.close())
        check(ended == ["the profile is closed"] * 2, f"closed in another thread: {ended}")


def compare_older():
    """A library without readers, where a text is read as a whole, and nothing else is read."""
    if pmb._HAS_READERS:
        return
    for capture in ([], io.StringIO(), waits([])):
        why = raised(NotImplementedError, pmb.transactions, PLAIN, capture)
        check(why == "the library is older, and has no pmb_reader_open", f"{capture}: {why}")
    check(not hasattr(pmb, "Reader"), "a Reader of an older library")


def compare_fed_by_threads():
    """One reader in two threads."""
    if not has_readers():
        return
    reader, found = pmb.Reader(PLAIN), [[], []]

    def fed(at):
        for _ in range(300):
            found[at] += reader.feed("S b0 A 03 A P\n")

    in_threads(2, fed)
    lines = sorted(it["line"] for each in found for it in each)
    check(lines == list(range(1, 601)) and reader.packets == 600, f"{reader}: {len(lines)} objects")


def compare_follow():
    """What examples/python/follow.py prints of a pipe, and of a file that is still being written."""
    if not has_readers():
        return
    right = read("examples", "python", "follow.out")
    names = [os.path.join(ROOT, "examples", "sessions", "undervoltage" + end) for end in (".toml", ".txt")]
    text = read("examples", "sessions", "undervoltage.txt")
    words = [sys.executable, os.path.join(ROOT, "examples", "python", "follow.py")]
    for given, piped in ([], b""), (names[:1], text):
        done = subprocess.run(words + given, input=piped, capture_output=True)
        found = done.returncode, done.stdout, done.stderr
        check(found == (0, right, b""), f"follow.py {given}: {found}")
    with tempfile.NamedTemporaryFile() as file:
        file.write(text[:1000])
        file.flush()
        with subprocess.Popen(words + [names[0], file.name], stdout=subprocess.PIPE) as follows:
            late = threading.Timer(60, follows.kill)
            late.start()
            found = follows.stdout.readline()
            file.write(text[1000:])
            file.flush()
            found += b"".join(follows.stdout.readline() for _ in range(right.count(b"\n") - 1))
            late.cancel()
            # (Ctrl-C may be ignored here)
            follows.terminate()
            found += follows.stdout.read()
        check((follows.returncode, found) == (-signal.SIGTERM, right), f"follow.py of a file: {found}")


def compare_memory():
    """No memory in the library, and little for a long capture."""
    if not has_readers():
        return
    feed, calls = pmb._LIBRARY.pmb_reader_feed, []

    def refusing(at, piece, length):
        calls.append(length)
        return pmb._NO_MEMORY if len(calls) >= 3 else feed(at, piece, length)

    pmb._LIBRARY.pmb_reader_feed = refusing
    try:
        reader = pmb.Reader(PLAIN)
        found = reader.feed("S b0 A 03 A P\n" * 10000)
        # (of 16 KB each, of which the third is refused)
        check(calls == [16384] * 3 and len(found) == 2340, f"{calls}, {len(found)} objects")
        check_raises(MemoryError, reader.feed, "S")
        calls.clear()
        objects = pmb.transactions(PLAIN, "S b0 A 03 A P\n" * 10000)
        check(sum(1 for _ in zip(range(2340), objects)) == 2340, f"{calls}")
        check_raises(MemoryError, next, objects)
    finally:
        pmb._LIBRARY.pmb_reader_feed = feed
    program = f"""
import pmb
def most():
    with open("/proc/self/status") as file:
        return int(file.read().split("VmHWM:")[1].split()[0])
def read(count):
    packets = "S b0 A 03 A P\\n" * 1000
    pieces = (packets for _ in range(count))
    return sum(it["kind"] == "write" for it in pmb.transactions({PLAIN!r}, pieces))
read(20)
before = most()
print(read(200), most() - before)
"""
    done = subprocess.run([sys.executable, "-c", program], capture_output=True)
    check(done.returncode == 0, f"a long capture: {done.stderr.decode()}")
    packets, grown = map(int, done.stdout.split())
    check(packets == 200000 and grown < 4096, f"{packets} packets took {grown} KB more")


def main():
    program = os.path.abspath(sys.argv[1])
    compare(program, int(sys.argv[2]) if len(sys.argv) > 2 else 10000)
    compare_names(program)
    compare_packets(program)
    compare_wholes(program, int(sys.argv[2]) if len(sys.argv) > 2 else 10000)
    compare_events(int(sys.argv[2]) if len(sys.argv) > 2 else 10000)
    compare_kinds()
    compare_floats()
    compare_neighbours()
    compare_kinds_of_objects(program)
    compare_wrong_types()
    compare_choices(program)
    if pmb._IMPORT is not None:
        compare_recorders(program)
    compare_names_of_arguments()
    compare_keys()
    compare_copies()
    compare_pools()
    compare_rooms()
    compare_imports(program, int(sys.argv[2]) if len(sys.argv) > 2 else 10000)
    compare_messages()
    compare_package()
    compare_reports()
    compare_program(program)
    compare_page()
    compare_threads()
    compare_profiles(int(sys.argv[2]) if len(sys.argv) > 2 else 10000)
    compare_closed()
    compare_ended()
    compare_cuts(int(sys.argv[2]) if len(sys.argv) > 2 else 10000)
    compare_files()
    compare_live()
    compare_tasks()
    compare_shared()
    compare_fed_by_threads()
    compare_older()
    compare_follow()
    compare_memory()
    ran = subprocess.run([program, "--version"], capture_output=True)
    check(ran.stdout.decode().split()[1] == pmb.version(), f"the version {pmb.version()}")
    return 1 if failed else 0


if __name__ == "__main__":
    sys.exit(main())
