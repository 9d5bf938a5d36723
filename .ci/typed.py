"""What `mypy --strict` knows of the package: it reads this file, and nobody runs it.

A line that mypy has to refuse says so by `type: ignore` with the reason, since such a comment is an
error of its own where mypy has nothing to refuse.
"""

import asyncio
import json
import pathlib
import socket
import subprocess
import sys
from typing import IO, Any, AsyncIterator, Dict, Iterator, List, Optional, Union

import pmb
import pmb.cluster
from pmb.objects import BadToken, Device, End, Object, Read, Write


def keys_of_a_kind(it: Object) -> None:
    line: int = it["line"]
    time: Optional[str] = it.get("time")
    if it["kind"] == "read":
        read: Read = it
        value: str = it["value"]
        number: float = it["number"]
        bits: List[str] = it["bits"]
        unit: str = it["unit"]
        text: str = it["text"]
        phase: Union[int, str, None] = it["phase"]
        field: Union[str, int, bool, List[str]] = it["says"]["mode"]
        address: int = it["address"]
        print(it["vlaue"])  # type: ignore[typeddict-item]
        print(it["clears"])  # type: ignore[typeddict-item]
        print(it["adress"])  # type: ignore[typeddict-item]
        device: int = it["device"]  # type: ignore[assignment]
        print(it["unit"] == 1)  # type: ignore[comparison-overlap]
        print(it["says"] + "")  # type: ignore[operator]
        print(read, value, number, bits, unit, text, phase, field, address, device, line, time)
    elif it["kind"] == "bad_token":
        bad: BadToken = it
        print(bad["word"])
        print(it["device"])  # type: ignore[typeddict-item]
    elif it["kind"] == "alert":
        print(it["device"] + "")  # type: ignore[operator]
    elif it["kind"] == "call":
        print(it["says"], it["phase"])
        print(it["text"])  # type: ignore[typeddict-item]
    elif it["kind"] == "refused":
        print(it["refused"] == "adress")  # type: ignore[comparison-overlap]
    elif it["kind"] == "raed":  # type: ignore[comparison-overlap]
        pass


def keys_without_a_kind(it: Object) -> Optional[int]:
    # (a bad token has none, and an alert may have none)
    print(it["device"])  # type: ignore[typeddict-item]
    print(it["comand"])  # type: ignore[typeddict-item]
    if "number" in it:
        either: Union[Write, Read] = it
        print(either["number"])
    return it["address"] if "address" in it else None


def two_kinds(it: Object) -> str:
    if it["kind"] == "read" or it["kind"] == "write":
        return it["bytes"]
    print(it["bytes"])  # type: ignore[typeddict-item]
    return ""


def calls(capture: str) -> None:
    found: Iterator[pmb.objects.Object] = pmb.transactions("", capture, devices=[0x58, "59"])
    for it in pmb.transactions("", capture):
        print(it["vlaue"])  # type: ignore[typeddict-item]
    text: pmb.Text = pmb.json("", capture)
    lines = text.splitlines()
    device: Device = json.loads(lines[-2])
    end: End = json.loads(lines[-1])
    print(device["writes"], end["packets"], text.refusals, [each["kind"] for each in found])
    print(end["packtes"])  # type: ignore[typeddict-item]
    pmb.pec(0xB0)  # type: ignore[arg-type]
    pmb.transactions("", capture, devices=0x58)  # type: ignore[call-overload]
    pmb.show("", 5)  # type: ignore[arg-type]
    pmb.encode(None, 1)  # type: ignore[arg-type]
    pmb.decode("linear11", 3.0)  # type: ignore[arg-type]


def captures(profile: pmb.Profile, file: IO[str], pipe: "subprocess.Popen[bytes]") -> None:
    """All that a capture may be, and what it may not be."""
    found: Iterator[Object] = pmb.transactions(profile, file, late=True)
    assert pipe.stdout is not None
    for capture in (pipe.stdout, sys.stdin.buffer, socket.socket().makefile("rb")):
        found = profile.transactions(capture)
    found = pmb.transactions("", ["S b0", b"A"])
    found = profile.transactions(line for line in file)
    found = profile.transactions(bytearray(b"S"), ["58"], digits=3)
    for it in profile.transactions(open("capture.txt", "rb", buffering=0)):
        print(it["vlaue"])  # type: ignore[typeddict-item]
    pmb.transactions(profile, pathlib.Path("capture.txt"))  # type: ignore[call-overload]
    pmb.transactions(profile, [83, 32])  # type: ignore[list-item]
    profile.transactions(5)  # type: ignore[call-overload]
    print(found)


async def stream(profile: pmb.Profile, reader: asyncio.StreamReader) -> None:
    found: AsyncIterator[Object] = pmb.transactions(profile, reader, late=True)
    async for it in profile.transactions(reader, ["58"]):
        print(it["kind"], it["vlaue"])  # type: ignore[typeddict-item]

    async def pieces() -> AsyncIterator[bytes]:
        yield b"S b0"

    async for it in pmb.transactions("", pieces()):
        print(it["at"])
    for it in pmb.transactions("", pieces()):  # type: ignore[attr-defined]
        pass
    print(found)


def handles(text: str) -> int:
    with pmb.Profile(text) as profile, pmb.Reader(profile, devices=[0x58], late=True) as reader:
        shown: pmb.Text = profile.show(text)
        both: List[Object] = reader.feed(b"S b0") + reader.feed("A") + reader.end()
        print(shown.packets, pmb.check(profile, text), both[0]["line"], reader.ended, profile.closed)
        reader.feed(5)  # type: ignore[arg-type]
        pmb.Reader(profile, [0x58])  # type: ignore[misc]
        pmb.Profile(profile)  # type: ignore[arg-type]
        reader.packets = 0  # type: ignore[misc]
        return reader.packets + reader.refusals


def buses(profile: pmb.Profile, file: IO[str]) -> None:
    with pmb.Bus(profile, force=True) as bus:
        word: int = bus.read_word_data(0x58, 0x21, force=False)
        block: List[int] = bus.read_block_data(0x58, 0x9E)
        bus.write_block_data(0x58, 0x9E, b"A17")
        bus.write_block_data(0x58, 0x9E, block)
        bus.pec = True
        bus.i2c_rdwr(pmb.i2c_msg.write(0x58, [word]), pmb.i2c_msg.read(0x58, 2))
        came: List[bytes] = bus.transfer([pmb.i2c_msg.read(0x58, 2)])
        told: pmb.Text = bus.request(bus.events())
        bus.write_byte("58", 3)  # type: ignore[arg-type]
        bus.read_byte_date(0x58, 3)  # type: ignore[attr-defined]
        print(came, told.packets, bus.funcs + 1, pmb.i2c_msg.read(0x58, 2).len)
    device = pmb.Device(bus, profile, 0x58, pec=True, log=file)
    pmb.Device(bus, "", 0x58, log=print, exclusive=True)
    pmb.Device(bus, "", 0x58, exclusiv=True)  # type: ignore[call-arg]
    pmb.Device(file, profile, 0x58)  # type: ignore[arg-type]
    device["VOUT_COMMAND"] = 3.3
    device[0x21] = b"\0\x18"
    device["VOUT_COMMAND"] = file  # type: ignore[assignment]
    reading: pmb.Reading = device["READ_VOUT"]
    print(float(reading), reading.value, reading.unit, device.read(0x8B, page=1).bits)
    print(reading.vlaue)  # type: ignore[attr-defined]
    status: Dict[str, List[str]] = device.status()
    page: Optional[int] = device.page
    names: List[str] = list(device)
    print(status, page, names)


def cluster(words: List[str]) -> int:
    status: int = pmb.cluster.main(["check", *words])
    pmb.cluster.main(5)  # type: ignore[arg-type]
    pmb.cluster.mian(words)  # type: ignore[attr-defined]
    return status


def made() -> Write:
    return {  # type: ignore[typeddict-item]
        "at": 0,
        "line": 1,
        "column": 1,
        "kind": "write",
        "device": "58",
        "address": 0x58,
        "code": "03",
        "bytes": "",
    }


def tables(profile: pmb.Profile, text: str, file: IO[str]) -> int:
    table: pmb.Table = pmb.table(profile, file, devices=[0x58], late=True, time="text")
    columns: Dict[str, List[Any]] = profile.table([text]).to_pydict(["time", "value"])
    capsule: object = table.__arrow_c_stream__()
    pmb.table(profile, text, digits=3)  # type: ignore[call-overload]
    pmb.table(profile, text, time=3)  # type: ignore[call-overload]
    pmb.table(profile, 5)  # type: ignore[call-overload]
    table.packets = 0  # type: ignore[misc]
    print(columns, capsule, table.colums)  # type: ignore[attr-defined]
    return len(table) + table.packets + table.refusals + table.nbytes


async def awaited_tables(profile: pmb.Profile, reader: asyncio.StreamReader) -> int:
    table: pmb.Table = await pmb.table(profile, reader, late=True)
    task: "asyncio.Task[pmb.Table]" = asyncio.create_task(profile.table(reader, time="text"))
    print(len(pmb.table("", reader)))  # type: ignore[arg-type, misc]
    await pmb.table("", ["S b0"])  # type: ignore[misc]
    return len(table) + len(await task)


def reports(path: pathlib.Path) -> None:
    pmb.report(None, [path, "trace.txt"], path)
    pmb.report("", {"one.txt": b"S", "two.txt": "S"}, "report.html", name="bench.toml")
    pmb.report(None, 3, path)  # type: ignore[arg-type]
    pmb.report(b"", [path], path)  # type: ignore[arg-type]
