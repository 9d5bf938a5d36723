#!/usr/bin/env python3
"""Compares the items of pmb_reader_next with the objects of `pmb json`: for each object of a packet, a
refusal or a word that is no token there is one item, in the same order, whose fields are what
docs/json.md says of the object's keys.

    items.py PROGRAM [LIBRARY] [--seed N] [--draw N]

The captures are the rows of tests/rows that ask for `json`, and those of its captures and sessions; the
captures of examples/; and drawn ones, under many profiles and with many flags, some of them with a byte
changed. Each is fed in pieces that are drawn, to release/libpmb.so or another library. The structs and
numbers are those of include/pmb.h. At the end each kind of item, number and reason has to have come."""

import argparse
import ctypes
import json
import random
import re
import subprocess
import sys
from fractions import Fraction
from pathlib import Path

sys.dont_write_bytecode = True
ROOT = Path(__file__).resolve().parent.parent
for folder in (".ci", "tests", "tools"):
    sys.path.insert(0, str(ROOT / folder))

import header  # noqa: E402
import library as whole_calls  # noqa: E402
from plain import drawn, profiles  # noqa: E402
from rowfile import rows_of  # noqa: E402

SHOWN = 10
passed = failed = 0
came = set()


def check(holds, what):
    global passed, failed
    if holds:
        passed += 1
        return
    failed += 1
    if failed <= SHOWN:
        print("items: %.1500s" % what, file=sys.stderr)


# ---- the header

TYPES = {
    "uint8_t": ctypes.c_uint8, "uint16_t": ctypes.c_uint16, "uint32_t": ctypes.c_uint32,
    "uint64_t": ctypes.c_uint64, "int8_t": ctypes.c_int8, "int16_t": ctypes.c_int16,
    "int32_t": ctypes.c_int32, "int64_t": ctypes.c_int64, "size_t": ctypes.c_size_t,
    "char": ctypes.c_uint8, "void *": ctypes.c_void_p, "uint8_t *": ctypes.c_void_p,
}
NUMBERS, STRUCTS = {}, {}


def type_of(text):
    """A type, by its text in the header."""
    name, _, count = text.partition("[")
    found = STRUCTS.get(name) or TYPES[name]
    return found * int(count.rstrip("]")) if count else found


def read_header():
    """The numbers of enums and constants, and the structs."""
    for item in header.items((ROOT / "include/pmb.h").read_text(encoding="utf-8")):
        if item.kind == "enum":
            NUMBERS.update((name, int(number, 0)) for name, number, _ in header.values(item))
        elif item.kind == "constant":
            NUMBERS[item.name] = int(item.plain.split()[2].rstrip("u"), 0)
        elif item.kind == "struct":
            fields = [(name, type_of(text)) for name, text in header.fields(item)]
            STRUCTS[item.name] = type(item.name, (ctypes.Structure,), {"_fields_": fields})


def number_of(front, name):
    """The number of an enum's name, such as PMB_REASON_BAD_PEC of the front `PMB_REASON_` and `BadPec`."""
    name = re.sub(r"(?<=[a-z])(?=[A-Z])", "_", name).replace(" ", "_").upper()
    return NUMBERS[front + name]


# ---- what an object says, by docs/json.md

def byte_of(digits):
    return NUMBERS["PMB_ITEM_NONE"] if digits is None else int(digits, 16)


def selected(it, key):
    """A page or a phase."""
    if key not in it:
        return NUMBERS["PMB_ITEM_NONE"]
    if it[key] == "all":
        return NUMBERS["PMB_ITEM_ALL"]
    return NUMBERS["PMB_ITEM_UNKNOWN"] if it[key] is None else it[key]


def number_in(it):
    """What the data are as a number, and the numbers of the exact fraction."""
    for key, name in (("value", "PMB_NUMBER_VALUE"), ("ratio", "PMB_NUMBER_RATIO")):
        if key in it:
            exact = Fraction(it[key])
            return NUMBERS[name], (exact.numerator, exact.denominator)
    return number_of("PMB_NUMBER_", it.get("raw", "none")), (0, 0)


def legs_in(it):
    """The bytes that were sent and replied."""
    sent, reply = it.get("sent"), it.get("reply")
    if it["kind"] == "write":
        sent = it["bytes"]
    if it["kind"] == "read":
        reply = it["bytes"]
    if it["kind"] == "alert":
        reply = it.get("byte")
    return [None if digits is None else bytes.fromhex(digits) for digits in (sent, reply)]


def event_in(got):
    """The kind of the refused event, and its byte."""
    if got is None:
        return 0, 0
    if re.fullmatch("[0-9a-f]{2}", got):
        return 1 << NUMBERS["PMB_BYTE"], int(got, 16)
    return 1 << number_of("PMB_", got), 0


def wanted(it):
    """The fields of an object's item."""
    kind, is_part = it["kind"], int(it["kind"] in ("write", "refused"))
    number, value = number_in(it)
    sent, reply = legs_in(it)
    got, got_byte = event_in(it.get("got"))
    time, word = it.get("time"), it.get("word")
    return {
        "kind": number_of("PMB_ITEM_", kind),
        "at": it["at"], "line": it["line"], "column": it["column"],
        "time": None if time is None else time.encode("latin-1"),
        "part": it.get("part", is_part), "parts": it.get("parts", is_part),
        "device": byte_of(it.get("device")), "code": byte_of(it.get("code")),
        "page": selected(it, "page"), "phase": selected(it, "phase"),
        "pec": {None: NUMBERS["PMB_ITEM_NONE"], True: 1, False: 0, "right": 1, "wrong": 0}[it.get("pec")],
        "right_pec": byte_of(it.get("right_pec")),
        "number": number, "value": value, "assumed": int(it.get("mode") == "assumed"),
        "refused": number_of("PMB_REFUSED_", it["refused"]) if kind == "refused" else 0,
        "reason": number_of("PMB_REASON_", it["reason"]) if kind == "refusal" else 0,
        "expected": sum(1 << number_of("PMB_", name) for name in it.get("expected", ())),
        "got": got, "got_byte": got_byte, "sent": sent, "reply": reply,
        "word": None if word is None else word.encode("latin-1"),
    }


# ---- what an item says

def bytes_in(it):
    """The bytes of a leg or a text, after which there are zeros."""
    room = bytes(it.bytes)
    length = 0 if it.length == NUMBERS["PMB_ITEM_NONE"] else it.length
    if length > len(room) or any(room[length:]):
        return "%d bytes in %s" % (length, room.hex())
    return None if it.length == NUMBERS["PMB_ITEM_NONE"] else room[:length]


def fields_of(item):
    found = {}
    for name, _ in item._fields_:
        field = getattr(item, name)
        if isinstance(field, STRUCTS["pmb_quantity"]):
            field = field.numerator, field.denominator
        elif isinstance(field, ctypes.Structure):
            field = bytes_in(field)
        found[name] = field
    return found


class Library:
    """The calls of the library."""

    def __init__(self, path):
        self.calls = ctypes.CDLL(str(path))
        for name in ("pmb_reader_next", "pmb_reader_take"):
            getattr(self.calls, name).restype = ctypes.c_size_t

    def reason_name(self, reason):
        out, length = ctypes.create_string_buffer(32), ctypes.c_size_t()
        status = self.calls.pmb_reason_name(
            ctypes.c_int32(reason), out, ctypes.c_size_t(32), ctypes.byref(length))
        return out.value.decode() if status == NUMBERS["PMB_OK"] else None

    def items(self, profile, capture, words, chance):
        """The fields of each item of a capture that is fed in pieces, and the last counts; or None, where
        the profile has a fault."""
        held, reader = STRUCTS["pmb_profile"](), STRUCTS["pmb_reader"]()
        told = STRUCTS["pmb_result"]()
        status = self.calls.pmb_profile_open(
            ctypes.byref(held), profile, ctypes.c_size_t(len(profile)), ctypes.byref(told))
        if status != NUMBERS["PMB_OK"]:
            return None
        choice, devices = whole_calls.choice_of(words)
        status = self.calls.pmb_reader_open_items(
            ctypes.byref(reader), ctypes.byref(held), ctypes.byref(choice), devices,
            ctypes.c_size_t(len(devices)))
        assert status == NUMBERS["PMB_OK"], status
        self.calls.pmb_profile_close(ctypes.byref(held))
        found, at = [], 0
        most = chance.choice((1, 7, 100, 5000))
        while at < len(capture):
            piece = capture[at : at + chance.randrange(most + 1)]
            self.calls.pmb_reader_feed(ctypes.byref(reader), piece, ctypes.c_size_t(len(piece)))
            at += len(piece)
            if chance.random() < 0.3:
                found += self.ready(reader)[0]
        self.calls.pmb_reader_end(ctypes.byref(reader))
        last, counts = self.ready(reader)
        self.calls.pmb_reader_close(ctypes.byref(reader))
        return found + last, counts

    def ready(self, reader):
        """What is ready, and the counts so far."""
        found, told = [], STRUCTS["pmb_result"]()
        item = STRUCTS["pmb_item"]()
        while self.calls.pmb_reader_next(ctypes.byref(reader), ctypes.byref(item), ctypes.byref(told)):
            found.append(fields_of(item))
        return found, (told.packets, told.refusals)


# ---- captures

def tried(program, library, name, words, given, chance):
    """The items of a capture beside its objects. `words` come after `pmb json`."""
    done = subprocess.run([program, "json", *words], input=given, stdout=subprocess.PIPE,
                          stderr=subprocess.DEVNULL, check=False)
    if done.returncode > 1:
        return
    objects = [json.loads(line) for line in done.stdout.splitlines()]
    words = [word.encode() for word in words]
    profile, capture = (profiles.SAMPLE_TEXT, given) if b"--sample" in words else whole_calls.split(given)
    found = library.items(profile, capture, words, chance)
    if found is None:
        check(False, "%s: a profile with a fault" % name)
        return
    items, counts = found
    told = [it for it in objects if "at" in it]
    check(len(items) == len(told), "%s: %d items of %d objects" % (name, len(items), len(told)))
    for it, item in zip(told, items):
        right = wanted(it)
        unlike = {key: (right[key], item.get(key)) for key in right if right[key] != item.get(key)}
        check(not unlike and len(right) == len(item), "%s: (wanted, got) %r of %r" % (name, unlike, it))
        if "reason" in it:
            check(library.reason_name(item["reason"]) == it["reason"], "%s: no name of %r" % (name, it))
        came.update((key, right[key]) for key in ("kind", "number", "refused", "reason"))
        came.update((key, it[key]) for key in ("mode", "pec", "page", "phase") if key in it)
    end = objects[-1]
    right = end["packets"], end["refusals"] + end["bad_tokens"]
    check(counts == right, "%s: the counts %r, and not %r" % (name, counts, right))


def rows():
    """Words and inputs of rows, and of examples."""
    yield "a code that is right and refused", ["--sample"], b"S b0 A 03 A 46 N P\n"
    values = {"standard_commands": b"0"}
    for file in ("json_objects", "captures", "sessions", "profiles", "forms"):
        for row in rows_of(ROOT / "tests/rows" / (file + ".txt"), values):
            words = [word.decode("utf-8", "replace") for word in row.stages[0]]
            if len(row.stages) > 1 or row.calls or words[:1] not in (["json"], ["show"], ["check"]):
                continue
            yield "%s: %s" % (file, row.name), words[1:], row.given
    examples = ROOT / "examples"
    for capture in sorted([*examples.glob("captures/*.txt"), *examples.glob("analysers/*.capture")]):
        yield capture.name, ["--sample", "--keep-going"], capture.read_bytes()
    for profile in sorted([*examples.glob("profiles/*.toml"), *examples.glob("sessions/*.toml")]):
        for capture in (profile.with_suffix(".txt"), profile.with_name(profile.stem + "_start.txt")):
            if capture.exists():
                yield capture.name, [], profile.read_bytes() + b"%%\n" + capture.read_bytes()


def changed(chance, given):
    """An input with one byte of its capture changed or removed."""
    kept = len(given) - len(whole_calls.split(given)[1]) if b"%%" in given else 0
    at = chance.randrange(kept, len(given))
    other = chance.choice((b"", b" ", b"\n", b"#", b"S", b"P", b"A", b"N", b"0", b"f", b"\xff"))
    return given[:at] + other + given[at + 1:]


def drawn_rows(chance, count):
    """Words and inputs that are drawn."""
    for words, given in drawn.rows(chance, count):
        if words[0] == "json":
            yield "drawn", words[1:], given
            _, matter = whole_calls.split(given) if "--sample" not in words else (b"", given)
            if matter:
                yield "drawn and changed", words[1:], changed(chance, given)


def all_came():
    """Each number of the enums came, and what else an object may say."""
    for key, front in (("kind", "PMB_ITEM_"), ("number", "PMB_NUMBER_"), ("refused", "PMB_REFUSED_"),
                       ("reason", "PMB_REASON_")):
        for name, number in NUMBERS.items():
            if name.startswith(front) and number < NUMBERS["PMB_ITEM_ALL"]:
                check((key, number) in came, "%s never came" % name)
    for key, values in (("mode", ["assumed"]), ("pec", [True, False, "right", "wrong"]),
                        ("page", [None, "all", 0, 1]), ("phase", [None, "all", 0, 1])):
        for value in values:
            check((key, value) in came, "%s %r never came" % (key, value))


def main():
    parser = argparse.ArgumentParser(description=__doc__.splitlines()[0])
    parser.add_argument("program")
    parser.add_argument("library", nargs="?", default=ROOT / "release/libpmb.so")
    parser.add_argument("--seed", type=int, default=48)
    parser.add_argument("--draw", type=int, default=20)
    words = parser.parse_args()
    read_header()
    check(ctypes.sizeof(STRUCTS["pmb_item"]) == 680, "an item has another size")
    library = Library(words.library)
    chance = random.Random(words.seed)
    for name, flags, given in [*rows(), *drawn_rows(chance, words.draw)]:
        tried(words.program, library, name, flags, given, chance)
    all_came()
    print("items: %d passed, %d failed" % (passed, failed))
    return failed > 0


if __name__ == "__main__":
    sys.exit(main())
