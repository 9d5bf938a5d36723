#!/usr/bin/env python3
"""Writes captures of all packets under the sample profile, drawn from a seed.

    bench/mix.py capture SEED BYTES > FILE
    bench/mix.py damaged SEED COUNT FOLDER
    bench/mix.py bench BYTES > FILE

`capture` has about so many bytes. Each packet is drawn anew: reads and writes of every command in
every form, with and without packet error code, calls, groups, alerts, packets in which a device
answered NACK, and what is no packet, for each of the reasons; some are spelled in another way.
`damaged` writes so many small captures into a folder, each with bytes changed, removed or doubled
or the end cut off, at random places. `bench` writes the capture of bench/run.
"""

import importlib.machinery
import importlib.util
import random
import sys
from pathlib import Path

sys.dont_write_bytecode = True
HERE = Path(__file__).resolve().parent
sys.path.insert(0, str(HERE.parent / ".ci"))

from plain.profiles import SAMPLE  # noqa: E402

SIZES = {"zero": 0, "one": 1, "two": 2}
DEVICES = SAMPLE.devices
# What notes go by or spell out: each of these is drawn more often than other commands.
OFTEN = (0x00, 0x03, 0x20, 0x21, 0x22, 0x79, 0x7E, 0x88, 0x8B, 0xD0)
LIKELY = (0x00, 0x01, 0x14, 0x17, 0x20, 0x40, 0x80, 0xFF)


def code_of(byte):
    for _ in range(8):
        byte = byte << 1 ^ (0x107 if byte & 0x80 else 0)
    return byte


CODES = [code_of(byte) for byte in range(256)]


def pec(data):
    """The packet error code of some bytes."""
    code = 0
    for byte in data:
        code = CODES[code ^ byte]
    return code


def leg(data, last="A"):
    """START and bytes, each with ACK but the last, which has another answer where one is said."""
    return "S " + " A ".join(f"{byte:02x}" for byte in data) + f" {last} "


def commands(form_of):
    """For each device its commands that have a form, those that are often drawn three times."""
    found = []
    for device in DEVICES:
        having = [one for one in device.entries.values() if form_of(one)]
        found.append(having + 2 * [one for one in having if one.code in OFTEN])
    return found


WRITTEN = commands(lambda one: one.write)
READ = commands(lambda one: one.read)
CALLED = commands(lambda one: one.call)


def some_bytes(rng, count):
    return [rng.choice(LIKELY) if rng.random() < 0.2 else rng.randrange(256) for _ in range(count)]


def data(rng, form):
    """Data of a form as they go over the bus. Few blocks are long."""
    if form != "block":
        return some_bytes(rng, SIZES[form])
    count = rng.choice((0, 1, 2, 3, 4, 6, 8, 12, 16, 32))
    if rng.random() < 0.02:
        count = rng.randrange(256)
    return [count, *some_bytes(rng, count)]


def has_code(rng, device):
    return device.pec == "on" or device.pec == "optional" and rng.random() < 0.5


def part(rng, at):
    """The bytes of a leg that writes to a device."""
    command = rng.choice(WRITTEN[at])
    sent = [2 * DEVICES[at].address, command.code, *data(rng, command.write)]
    return [*sent, pec(sent)] if has_code(rng, DEVICES[at]) else sent


def asked(rng, at, is_call=False):
    """What is sent to a device to be read or called, and the form of the reply."""
    command = rng.choice((CALLED if is_call else READ)[at])
    sent = [2 * DEVICES[at].address, command.code]
    if is_call:
        return [*sent, *data(rng, command.call)], command.call
    return sent, command.read


def device(rng):
    return rng.randrange(len(DEVICES))


def write(rng):
    return leg(part(rng, device(rng)))


def reply(rng, at, first, form):
    second = [first[0] + 1, *data(rng, form)]
    return [*second, pec(first + second)] if has_code(rng, DEVICES[at]) else second


def read(rng, is_call=False):
    at = device(rng)
    first, form = asked(rng, at, is_call)
    return leg(first) + leg(reply(rng, at, first, form), "N")


def call(rng):
    return read(rng, True)


def places(rng, least, most):
    return rng.sample(range(len(DEVICES)), rng.randint(least, most))


def group(rng):
    return "".join(leg(part(rng, at)) for at in places(rng, 2, len(DEVICES)))


def alert(rng):
    sent = [0x19, 2 * rng.choice(DEVICES).address if rng.random() < 0.7 else rng.randrange(256)]
    return leg(rng.choice(([0x19], sent, [*sent, pec(sent)])), "N")


def refused(rng):
    """A packet in which NACK was answered: at an address, at a code, at a byte, or to be read."""
    at, *before = places(rng, 1, len(DEVICES))
    legs = "".join(leg(part(rng, one)) for one in before)
    address = 2 * DEVICES[at].address
    kind = rng.randrange(5)
    if kind == 0:
        return legs + leg([address if rng.random() < 0.3 else 2 * rng.randrange(0x20, 0x50)], "N")
    if kind == 1:
        return legs + leg([address, rng.randrange(256)], "N")
    if kind == 2:
        return leg(asked(rng, at, rng.random() < 0.3)[0]) + leg([address + 1], "N")
    sent = part(rng, at)
    return legs + leg(sent[: rng.randint(2, len(sent))], "N")


def broken(rng):
    """Events that no packet can have there, once for each reason."""
    at = device(rng)
    address = 2 * DEVICES[at].address
    first, form = asked(rng, at)
    second = reply(rng, at, first, form)
    sent = part(rng, at)
    return rng.choice((
        lambda: leg([address + 1, *some_bytes(rng, 1)], "N"),
        lambda: leg(sent) + leg(sent),
        lambda: leg(first) + leg([address + 3 & 0xFF, *second[1:]], "N"),
        lambda: leg(first) + leg([*second[:-1], second[-1] ^ 1 << rng.randrange(8)], "N"),
        lambda: leg([*sent, pec(sent) ^ 1 << rng.randrange(8)]),
        lambda: leg([2 * rng.randrange(0x20, 0x50), *some_bytes(rng, 1)]),
        lambda: leg([address, rng.choice((0xC8, 0x34, 0xE0)), *some_bytes(rng, 1)]),
        lambda: leg(first) + leg(second),
        lambda: leg(first) + leg([*second, *some_bytes(rng, 1)], "N"),
        lambda: leg(first) + leg(second[: rng.randint(1, len(second))], "N"),
        lambda: leg(sent[: rng.randint(1, len(sent))]),
        lambda: leg(sent, "N") + leg(sent),
        lambda: leg([0x19, address, pec([0x19, address]) ^ 0x10], "N"),
        lambda: rng.choice("SPAN") + " " + write(rng),
    ))()


def spelled(rng, packet):
    """The same packet in upper case, with tabs or line ends, or with a comment."""
    return rng.choice((
        lambda: packet.upper(),
        lambda: packet.replace(" ", "\t"),
        lambda: packet.replace(" A ", "\r\nA  "),
        lambda: packet[:-1] + f" # {rng.randrange(65536)} in a comment\n",
        lambda: packet[:-1] + "#set\r\n",
        lambda: f"# {rng.randrange(65536):04x}: set\n" + packet,
    ))()


KINDS = (write, read, call, group, alert, refused, broken)
WEIGHTS = (36, 36, 5, 6, 3, 8, 6)


def capture(seed, size):
    """The text of packets, of about so many bytes."""
    rng = random.Random(seed)
    while size > 0:
        packet = rng.choices(KINDS, WEIGHTS)[0](rng) + "P\n"
        if rng.random() < 0.05:
            packet = spelled(rng, packet)
        size -= len(packet)
        yield packet


def damage(rng, text):
    """The same bytes with a few changes."""
    others = b" \n\r\t#SPANXafF059\0\xff"
    for _ in range(rng.randint(1, 6)):
        at = rng.randrange(len(text))
        length = rng.choice((1, 1, 2, 3, 5, 20))
        found = text[at : at + length]
        change = rng.random()
        if change < 0.6:
            # Most changes leave words, since reading ends at a bad one.
            at = text.rfind(b" ", 0, at) + 1
            found = text[at:].split(b" ", 1)[0] + b" "
            words = (b"A ", b"N ", b"P ", b"S ", b"", found * 2, b"%02x " % rng.randrange(256))
            text = text[:at] + rng.choice(words) + text[at + len(found) :]
        elif change < 0.7:
            text = text[:at] + text[at + length :]
        elif change < 0.8:
            text = text[:at] + found + text[at:]
        elif change < 0.95:
            text = text[:at] + bytes([rng.choice(others)]) + text[at + 1 :]
        else:
            text = text[: at + 1]
    return text


def damaged(seed, count, folder):
    rng = random.Random(seed)
    for i in range(count):
        text = "".join(capture(rng.random(), rng.randint(100, 3000))).encode()
        (Path(folder) / f"damaged_{i:03}").write_bytes(damage(rng, text))


def bench(size):
    """The packets that bench/run draws, in its order."""
    loader = importlib.machinery.SourceFileLoader("run", str(HERE / "run"))
    run = importlib.util.module_from_spec(importlib.util.spec_from_loader("run", loader))
    loader.exec_module(run)
    run.write_capture("/dev/stdout", size)


def main():
    task, *words = sys.argv[1:] or [""]
    if task == "capture" and len(words) == 2:
        sys.stdout.writelines(capture(int(words[0]), int(words[1])))
    elif task == "damaged" and len(words) == 3:
        damaged(int(words[0]), int(words[1]), words[2])
    elif task == "bench" and len(words) == 1:
        bench(int(words[0]))
    else:
        sys.exit(__doc__)


if __name__ == "__main__":
    main()
