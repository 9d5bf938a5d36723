"""Reads captures on the workers of a Dask cluster, where one machine isn't enough:

    python3 -m pmb.cluster stats --scheduler tcp://HOST:8786 -p board.toml captures/*.txt

`stats` makes one table of all captures, `json` writes the objects of each and `check` its refusals,
in the order of the captures. A capture of more than a block is cut behind lines that end with STOP,
and its pieces are read side by side. docs/scale.md has an example, and says where the answer may be
another one than that of one machine. Short captures of this machine are read by one process here.

It needs Dask's `distributed` (`pip install './python[cluster]'`, or Debian's python3-distributed),
and on each worker this package, or the program `pmb` on its path. A worker runs the program that it
finds there. All else is sent to it, so its package may be of another version, which is told.

    >>> import pmb.cluster
    >>> try:
    ...     pmb.cluster.main(["--help"])  # doctest: +ELLIPSIS
    ... except SystemExit as ended:
    ...     print(ended.code)
    usage: python3 -m pmb.cluster ...
    0
"""

import argparse
import collections
import contextlib
import fcntl
import glob
import importlib
import importlib.util
import json
import logging
import os
import re
import shutil
import signal
import subprocess
import sys
import tempfile
import threading
import time
import uuid
from typing import (
    Any,
    BinaryIO,
    Deque,
    Dict,
    Iterator,
    List,
    NamedTuple,
    Optional,
    Sequence,
    Set,
    Tuple,
)

from . import _sums, _worker
from ._worker import Answer, Job, Start

__all__ = ["main"]

# The exit statuses of docs/program.md, and the launcher's where there is nothing to run.
_DONE, _FOUND, _WRONG, _UNREAD, _NO_MEMORY, _NOTHING_TO_RUN = 0, 1, 2, 3, 4, 125
# Captures of fewer bytes in all are read by one process here.
_LEAST = 100 << 20
# How the folders of what workers write are named.
_PARTS = "pmb-cluster-"


# ---- on the cluster


class _Gone(Exception):
    """There is no scheduler, or not any more."""


class _Slot:
    """A capture that isn't begun yet, or a piece of one, in its place of the order."""

    def __init__(
        self,
        path: str,
        piece: Optional[Tuple[int, int]] = None,
        start: Optional[Start] = None,
    ) -> None:
        self.path = path
        self.piece = piece
        # What is known where it begins; `None` while that isn't known.
        self.start = start
        # The next piece that waits for what this one tells.
        self.after: Optional["_Slot"] = None
        self.is_last = piece is None
        self.is_dropped = False
        self.future: Any = None
        self.telling: Any = None
        self.answer: Optional[Answer] = None
        self.tells: Optional[Answer] = None
        self.error: Optional[BaseException] = None

    def has_told(self) -> bool:
        return self.tells is not None or self.after is not None and self.after.error is not None

    def is_done(self) -> bool:
        return self.answer is not None or self.error is not None


class _Cluster:
    """The workers of a scheduler."""

    def __init__(self, address: str, retries: int) -> None:
        self._dask: Any = importlib.import_module("distributed")
        # (what Dask logs of a lost connection is said here in a line)
        for name in list(logging.root.manager.loggerDict):
            if name.partition(".")[0] in ("distributed", "asyncio", "tornado"):
                logging.getLogger(name).setLevel(logging.CRITICAL + 1)
        by_value: Any = importlib.import_module("cloudpickle")
        if hasattr(by_value, "register_pickle_by_value"):
            by_value.register_pickle_by_value(_worker)
        try:
            self._client = self._dask.Client(address, timeout=10)
        except (OSError, ValueError, self._dask.TimeoutError) as error:
            raise _Gone("{}: no scheduler answers: {}".format(address, error)) from None
        self._address, self._retries = address, retries
        self._workers: Set[str] = set()
        self._versions: Set[Tuple[str, str]] = set()
        self._looked = 0.0
        self._came = threading.Event()
        self._is_waiting = False
        self._own = _worker.version()
        self._run = "pmb-{}".format(uuid.uuid4().hex)
        self._number = 0
        self.room, self.threads = 4, 1
        self.look()

    def close(self) -> None:
        """Ends the connection, and with it what is still asked for."""
        with contextlib.suppress(Exception):
            self._client.close(timeout=5)

    def submit(self, function: Any, *given: Any) -> Any:
        """Asks for what a function of `_worker` returns, anywhere."""
        self._number += 1
        key = "{}-{}".format(self._run, self._number)
        future = self._client.submit(function, *given, key=key, pure=False, retries=self._retries)
        future.add_done_callback(lambda _: self._came.set())
        return future

    def wait(self) -> None:
        """Waits until something has come, and not much longer than half a second."""
        self._came.wait(0.5)
        self._came.clear()
        if time.monotonic() - self._looked > 0.5:
            self.look()

    def look(self) -> None:
        """Tells which workers were lost, and how much may be asked for at a time."""
        self._looked = time.monotonic()
        if self._client.status not in ("running", "connecting"):
            raise _Gone("{}: the scheduler is gone".format(self._address))
        found = self._client.scheduler_info().get("workers", {})
        for lost in sorted(self._workers - set(found)):
            _tell("the worker {} is gone, and what it had is read again".format(lost))
        self._workers = set(found)
        threads = sum(each.get("nthreads", 1) for each in found.values())
        self.threads = max(threads, 1)
        self.room = 2 * self.threads + 2
        if not found and not self._is_waiting:
            _tell("{} has no worker, so this waits for one".format(self._address))
        self._is_waiting = not found

    def take(self, future: Any) -> Tuple[Optional[Answer], Optional[BaseException]]:
        """What came of what was asked for and is done: an answer, or why there is none."""
        answer: Optional[Answer] = None
        error: Optional[BaseException] = None
        if future.status == "finished":
            answer = future.result()
            self._compare(answer)
        elif future.status == "error":
            error = future.exception()
        else:
            raise _Gone("{}: the scheduler is gone".format(self._address))
        future.release()
        return answer, error

    def _compare(self, answer: Any) -> None:
        """Tells, once, that a worker's program has another version."""
        if "version" in answer:
            found = answer["worker"], answer["version"]
            if found[1] != self._own and found not in self._versions:
                self._versions.add(found)
                _tell("the worker {} has {}, and here is {}".format(*found, self._own))


def _in_order(cluster: _Cluster, job: Job, slots: Deque[_Slot], function: Any) -> Iterator[_Slot]:
    """The answers for the captures or pieces, in their order. No more is asked for than has
    room."""
    total, done = len(slots), 0
    asked: List[_Slot] = []
    telling: List[_Slot] = []
    while slots:
        # (what is under way, and what is out of order, takes room)
        for slot in [slots[number] for number in range(min(len(slots), cluster.room))]:
            path = os.path.abspath(slot.path)
            if slot.after is not None and slot.telling is None and not slot.has_told():
                assert slot.piece is not None
                slot.telling = cluster.submit(_worker.tells, job, path, *slot.piece)
                telling.append(slot)
            if slot.future is not None or slot.is_done():
                continue
            if slot.piece is None:
                slot.future = cluster.submit(_worker.capture, job, path)
            elif slot.start is not None:
                slot.future = cluster.submit(function, job, path, *slot.piece, slot.start)
            if slot.future is not None:
                asked.append(slot)
        cluster.wait()
        for slot in [slot for slot in asked if slot.future.done()]:
            asked.remove(slot)
            slot.answer, slot.error = cluster.take(slot.future)
            slot.future = None
            if slot.answer is not None and "cuts" in slot.answer:
                total += _split(slots, slot, job["carries"]) - 1
        telling = [slot for slot in telling if not _has_told(cluster, job, slot)]
        while slots and slots[0].is_done():
            done += 1
            _progress(done, total)
            yield slots.popleft()
            # (the caller may have dropped some)
            total = done + len(slots)
            asked = [slot for slot in asked if not slot.is_dropped]
            telling = [slot for slot in telling if not slot.is_dropped]
    _progress(0, 0)


def _has_told(cluster: _Cluster, job: Job, slot: _Slot) -> bool:
    """Takes over what a piece tells to the next ones, if that is there."""
    if not slot.telling.done():
        return False
    answer, error = cluster.take(slot.telling)
    slot.telling = None
    assert slot.after is not None
    slot.tells, slot.after.error = answer, error
    _hand_on(job, slot)
    return True


def _hand_on(job: Job, slot: _Slot) -> None:
    """What is known before a piece, and what it tells, is known before the next one."""
    here: Optional[_Slot] = slot
    while here is not None and here.start is not None and here.tells is not None:
        told, events, lines = here.start
        tells = here.tells
        if here.after is not None and here.after.start is None:
            told = _worker.reduced(told + tells["tells"], job["read_words"], job["pages"])
            here.after.start = told, events + tells["events"], lines + tells["lines"]
        here = here.after


def _split(slots: Deque[_Slot], slot: _Slot, carries: bool) -> int:
    """Puts the pieces of a capture in its place, and returns their number."""
    assert slot.answer is not None
    places = slot.answer["cuts"]
    nothing: Start = ([], 0, 0)
    pieces = [
        _Slot(slot.path, piece, None if carries else nothing) for piece in zip(places, places[1:])
    ]
    pieces[0].start = nothing
    pieces[-1].is_last = True
    if carries:
        for one, after in zip(pieces, pieces[1:]):
            one.after = after
    at = slots.index(slot)
    slots.rotate(-at)
    slots.popleft()
    slots.extendleft(reversed(pieces))
    slots.rotate(at)
    return len(pieces)


def _drop(slots: Deque[_Slot]) -> None:
    """Drops the pieces of a capture that are still to come, up to its last one."""
    while slots:
        slot = slots.popleft()
        slot.is_dropped = True
        for future in (slot.future, slot.telling):
            if future is not None:
                future.cancel()
        if slot.answer is not None and "part" in slot.answer:
            with contextlib.suppress(OSError):
                os.unlink(slot.answer["part"])
        if slot.is_last:
            break


# ---- what is told


def _shown(path: str) -> str:
    return path if path.isprintable() else repr(path)


def _tell(text: str) -> None:
    _progress(0, 0)
    with contextlib.suppress(OSError):
        print("pmb.cluster: " + text, file=sys.stderr, flush=True)


_bar = {"width": 0}


def _progress(done: int, total: int) -> None:
    """A bar on standard error, if that is a terminal; none for a total of 0."""
    if sys.stderr is None or not sys.stderr.isatty():
        return
    text = ""
    if total:
        text = "[{:<40}] {} of {}".format("#" * (40 * done // total), done, total)
    if text or _bar["width"]:
        with contextlib.suppress(OSError):
            sys.stderr.write("\r" + text.ljust(_bar["width"]) + ("" if text else "\r"))
            sys.stderr.flush()
    _bar["width"] = len(text)


# ---- what the answers come to


class _Capture:
    """A capture whose pieces come in."""

    def __init__(self, path: str) -> None:
        self.path = path
        self.events = 0
        self.pieces: List[Tuple[int, int, Start]] = []


class _Lines:
    """What is written line by line, in the order of the captures."""

    def __init__(self, out: BinaryIO, count: int) -> None:
        self._out, self._has_heads = out, count > 1

    def _append(self, part: str) -> None:
        """Writes what a worker has put into a file, and removes that."""
        with open(part, "rb", buffering=0) as file:
            os.unlink(part)
            self._out.flush()
            place = 0
            # (not every system or file can do this; what is left is copied)
            with contextlib.suppress(AttributeError, OSError, ValueError):
                while True:
                    sent = os.sendfile(self._out.fileno(), file.fileno(), place, 1 << 24)
                    if not sent:
                        return
                    place += sent
            file.seek(place)
            shutil.copyfileobj(file, self._out, 1 << 20)

    def begin(self, capture: _Capture) -> None:
        if self._has_heads:
            self._out.write(self.head(capture.path).encode() + b"\n")

    def head(self, path: str) -> str:
        raise NotImplementedError

    def close(self) -> int:
        self._out.flush()
        return _DONE


class _Check(_Lines):
    """What `check` says: refusals, and at the end of each capture the counts."""

    def __init__(self, out: BinaryIO, count: int) -> None:
        super().__init__(out, count)
        self._packets = self._refusals = 0

    def head(self, path: str) -> str:
        return "# " + _shown(path)

    def add(self, capture: _Capture, answer: Answer) -> bool:
        """Adds the answer of a piece. False if reading ends in it."""
        self._packets += answer["packets"]
        self._refusals += answer["refusals"]
        if not capture.events:
            self._append(answer["part"])
        else:
            with open(answer["part"], "rb") as file:
                os.unlink(answer["part"])
                for lines in iter(lambda: file.readlines(1 << 20), []):
                    told = _moved(rb"(?m)^# refusal at (\d+)", b"".join(lines), capture.events)
                    told = _moved(rb"(?m)^# bad token at byte (\d+)", told, answer["begin"])
                    self._out.write(told)
        return not answer["bad"]

    def end(self, capture: _Capture) -> None:
        counts = b"packets %d refusals %d\n" % (self._packets, self._refusals)
        self._out.write(counts)
        self._packets = self._refusals = 0

    def unread(self, capture: _Capture) -> None:
        self._packets = self._refusals = 0


def _moved(pattern: bytes, text: bytes, by: int) -> bytes:
    """A text with the number of a pattern moved."""
    if by == 0:
        return text

    def move(found: "re.Match[bytes]") -> bytes:
        front = found.group()[: found.start(1) - found.start()]
        return front + b"%d" % (int(found.group(1)) + by)

    return re.sub(pattern, move, text)


class _Json(_Lines):
    """What `json` says: objects, and at the end of each capture those of its counts."""

    def __init__(self, out: BinaryIO, count: int, keeps_going: bool) -> None:
        super().__init__(out, count)
        self._keeps_going = keeps_going
        self._status = _DONE
        self._devices: Dict[str, Dict[str, Any]] = {}
        self._whole: Dict[str, Any] = {}

    def head(self, path: str) -> str:
        return '{{"kind":"capture","path":{}}}'.format(json.dumps(path))

    def add(self, capture: _Capture, answer: Answer) -> bool:
        """Adds the answer of a piece. False if reading ends in it."""
        counts = [json.loads(line) for line in answer["counts"].splitlines()]
        for it in counts:
            _add(
                self._devices.setdefault(it["device"], {}) if "device" in it else self._whole, it, 1
            )
        for it in map(json.loads, answer["front"].splitlines()):
            _add(self._devices[it["device"]] if "device" in it else self._whole, it, -1)
        self._append(answer["part"])
        return self._keeps_going or not counts[-1]["bad_tokens"]

    def end(self, capture: _Capture) -> None:
        for device in sorted(self._devices):
            self._write(self._devices[device])
        self._write(self._whole)
        if self._whole["refusals"] or self._whole["bad_tokens"]:
            self._status = _FOUND
        self._devices, self._whole = {}, {}

    def _write(self, it: Dict[str, Any]) -> None:
        members: _sums.Members = [
            (key, _sums.string(found) if isinstance(found, str) else str(found))
            for key, found in it.items()
        ]
        self._out.write(_sums.object_of(members).encode("ascii") + b"\n")

    def unread(self, capture: _Capture) -> None:
        self._devices, self._whole = {}, {}

    def close(self) -> int:
        return max(self._status, super().close())


def _add(sums: Dict[str, Any], it: Dict[str, Any], times: int) -> None:
    for key, found in it.items():
        sums[key] = sums.get(key, 0) + times * found if isinstance(found, int) else found


class _Stats:
    """One table of all captures."""

    def __init__(self, out: BinaryIO, cluster: _Cluster, job: Job, asked: "_Asked") -> None:
        self._out, self._cluster, self._job, self._asked = out, cluster, job, asked
        self._all, self._one = _sums.Sums(), _sums.Sums()
        self._status = _DONE
        profile = job["profile"]
        self._sample = ["--sample"] if profile is None else []
        self._front = b"" if profile is None else profile + b"\n%%\n"
        self._layout = _sums.layout_of(asked.profile_text())

    def begin(self, capture: _Capture) -> None:
        self._one = _sums.Sums()

    def add(self, capture: _Capture, answer: Answer) -> bool:
        """Adds the answer of a piece. False if reading ends in it."""
        piece = _sums.Sums.of(answer["text"].decode("ascii"), len(capture.pieces) - 1)
        piece.take_off(_sums.Sums.of(answer["front"].decode("ascii")))
        self._one.add(piece)
        return self._asked.keeps_going or not piece.whole.get("bad_tokens")

    def end(self, capture: _Capture) -> None:
        if len(capture.pieces) > 1:
            self._find_gone(capture)
        self._all.add(self._one)

    def unread(self, capture: _Capture) -> None:
        pass

    def _find_gone(self, capture: _Capture) -> None:
        """Finds when bits were gone that were last read set in one piece and clear in a later
        one."""
        opened = {
            (register, name): bit
            for register, bits in self._one.bits.items()
            for name, bit in bits.items()
            if bit.gone is None
        }
        if not opened:
            return
        first = min(bit.piece for bit in opened.values())
        places = sorted(
            {(register, capture.pieces[bit.piece][0]) for (register, _), bit in opened.items()},
            key=repr,
        )
        job = dict(
            self._job,
            opened=[(list(register), begin) for register, begin in places],
            sizes=self._layout.sizes,
        )
        slots = collections.deque(
            _Slot(capture.path, (begin, end), start) for begin, end, start in capture.pieces[first:]
        )
        for number, slot in enumerate(_in_order(self._cluster, job, slots, _worker.reads), first):
            reads = [] if slot.answer is None else slot.answer["reads"]
            for (register, name), bit in list(opened.items()):
                if number < bit.piece:
                    continue
                if slot.error is not None or _is_settled(register, name, bit, number, reads):
                    del opened[register, name]
            if slot.error is not None:
                self._status = _status_of(slot.error)
                _tell(
                    "{}: when bits were gone is not known: {}".format(
                        _shown(capture.path), _why(slot.error)
                    )
                )
            if not opened:
                _drop(slots)

    def close(self) -> int:
        layout = self._with_bits()
        digits = self._asked.digits
        if self._asked.is_json:
            text = _sums.objects(self._all, layout, 6 if digits is None else digits)
        else:
            text = _sums.table(self._all, layout, 4 if digits is None else digits)
        self._out.write(text.encode("ascii"))
        self._out.flush()
        fails = self._all.fails(self._asked.fail_on)
        return max(self._status, _FOUND if fails else _DONE)

    def _with_bits(self) -> _sums.Layout:
        """What the profile says, with the bits of the registers that have some."""
        sample, front, layout = self._sample, self._front, self._layout
        registers = sorted({(it.device, it.code) for it in self._all.bits})
        lines = [
            "read {} {} :{}{}\n".format(device, code, data, pec)
            for device, code in registers
            for data in (" ff", " ff ff")
            for pec in ("", " pec")
        ]
        packets = _said(["build", *sample], front + "".join(lines).encode()).encode()
        for line in _said(["json", *sample], front + packets).splitlines():
            it = json.loads(line)
            if "bits" in it:
                layout.bits[it["device"], it["code"]] = it["bits"]
        return layout


def _is_settled(
    register: _sums.Register, name: str, bit: _sums.Bit, number: int, reads: List[List[Any]]
) -> bool:
    """Whether the reads of a piece, from the one on in which a bit was last set, say what came of
    it. If it is gone, the bit gets the time."""
    for device, page, code, phase, first, last_bits in reads:
        if (device, page, code, phase) != tuple(register):
            continue
        if number == bit.piece:
            # (it is still set, or was gone at a read without a time)
            return name not in last_bits
        bit.gone = first
        return True
    return False


def _said(words: List[str], given: bytes) -> str:
    """What the program of this machine writes."""
    ran = subprocess.run(
        [_worker.program(), *words], input=given, stdout=subprocess.PIPE, check=False
    )
    return ran.stdout.decode("ascii")


def _why(error: Optional[BaseException]) -> str:
    """Why a piece could not be read."""
    if isinstance(error, OSError) and error.strerror:
        return error.strerror
    if type(error).__name__ == "KilledWorker":
        return "each worker that read it died"
    return "{}".format(error) or type(error).__name__


# ---- the command line

_ABOUT = """Reads captures on the workers of a Dask cluster.

stats   one table of all captures, as 'pmb stats' writes it of one
json    what each capture says, as lines of JSON, in the order of the captures
check   the refusals of each capture, and the numbers of packets and of refusals
"""
_MORE = """The workers read the captures, so each capture has to lie under the same path on all of
them. A capture of more than a block is cut behind lines that end with STOP, and its pieces are read
side by side. What a piece has to know of PAGE, PHASE and VOUT_MODE is found in the pieces before
it, so the answer is that of one machine; docs/scale.md says where it may differ. With '--block 0'
nothing is cut. Without --block, captures of less than 100 MiB in all that are on this machine are
read by one process here.

Standard error names each capture that can't be read, with the reason, each worker that is lost, and
each worker whose program is of another version. What a lost worker had is read again by another
one. A capture that can't be read to its end is left out of the table; json and check write what
came before, without the counts at its end.

The exit status is 0 if all went well; 1 if there was a refusal or a bad token, or by --fail-on; 2
for a wrong command line or profile; 3 if a capture could not be read, or the scheduler is not
there; 4 if a worker had no memory; 125 if Dask or the program is missing. Of several it is the
greatest.

Example, with the scheduler and two workers on this machine:
  dask scheduler --host 127.0.0.1 &
  dask worker tcp://127.0.0.1:8786 --nworkers 2 --nthreads 1 &
  python3 -m pmb.cluster stats --scheduler tcp://127.0.0.1:8786 --sample captures/*.txt
"""


class _Asked(NamedTuple):
    """What the command line asks for."""

    task: str
    scheduler: str
    profile: Optional[bytes]
    late: bool
    fixed_vout_mode: bool
    keeps_going: bool
    digits: Optional[int]
    devices: List[str]
    is_json: bool
    fail_on: List[str]
    block: Optional[int]
    parts: Optional[str]
    retries: int
    paths: List[str]

    def fails_on_reads(self) -> List[str]:
        """The words of --fail-on that go to the program, for each piece. The sums say the others,
        without what the front of a piece counts."""
        return [word for word in self.fail_on if word not in _sums.FAILS]

    def words(self) -> List[str]:
        """The program's words for a capture, without those of numbers."""
        words = ["--sample"] if self.profile is None else []
        words += ["--keep-going"] if self.keeps_going else []
        words += ["--late"] if self.late else []
        return words + (["--fixed-vout-mode"] if self.fixed_vout_mode else [])

    def profile_text(self) -> str:
        """What the program says of the profile."""
        sample = ["--sample"] if self.profile is None else []
        return _said(["profile", *sample], self.profile or b"")

    def job(self, threads: int, parts: str) -> Job:
        """What a worker has to know: also how many threads the workers have, and the folder for
        what they write."""
        more: List[str] = [word for device in self.devices for word in ("--device", device)]
        if self.task == "stats":
            more += ["--json", "--digits", str(_sums.DIGITS)]
            more += ["--fail-on", ",".join(self.fails_on_reads() or ["none-read"])]
        elif self.digits is not None:
            more += ["--digits", str(self.digits)]
        profile = self.profile_text()
        # (what is written to several devices at once stands in no front)
        is_whole = self.task != "check" and re.search("(?m)^also ", profile) is not None
        return {
            "task": self.task,
            "profile": self.profile,
            "words": self.words() + more,
            "read_words": self.words(),
            "block": 0 if is_whole else self.block,
            "threads": threads,
            "pages": {device: pages for device, (pages, _) in _sums.layout_of(profile).sizes.items()},
            "parts": parts,
            "carries": self.task != "check",
        }


def _size(text: str) -> int:
    found = re.fullmatch("([0-9]+)([KMG]?)", text)
    if found is None:
        raise argparse.ArgumentTypeError("a number of bytes, such as 500000, 100M or 0")
    return int(found.group(1)) << {"": 0, "K": 10, "M": 20, "G": 30}[found.group(2)]


def _parser() -> argparse.ArgumentParser:
    parser = argparse.ArgumentParser(
        prog="python3 -m pmb.cluster",
        description=_ABOUT,
        epilog=_MORE,
        allow_abbrev=False,
        formatter_class=argparse.RawDescriptionHelpFormatter,
    )
    add = parser.add_argument
    add("task", choices=("stats", "json", "check"), metavar="stats|json|check")
    add("paths", nargs="+", metavar="FILE", help="a capture: its path, on the workers")
    add("--scheduler", required=True, metavar="tcp://HOST:PORT", help="where the scheduler listens")
    profile = parser.add_mutually_exclusive_group(required=True)
    profile.add_argument("-p", "--profile", metavar="FILE", help="the profile, a file here")
    profile.add_argument("--sample", action="store_true", help="take the sample profile")
    add("--late", action="store_true", help="of stats and json: each capture begins in the middle")
    add(
        "--fixed-vout-mode",
        action="store_true",
        help="with --late: VOUT_MODE begins as the profile says, and only PAGE is unknown",
    )
    add(
        "--keep-going",
        action="store_true",
        help="of stats and json: go on in the line after a word that is no token",
    )
    add(
        "--digits",
        metavar="N",
        help="of stats and json: the most digits after the point of a number, 0 to 12",
    )
    add(
        "--device",
        action="append",
        default=[],
        metavar="HH",
        help="of stats and json: only this device; repeatable",
    )
    add("--json", action="store_true", help="of stats: write objects instead of the table")
    add("--fail-on", metavar="WHAT", help="of stats: what makes the exit status 1")
    add(
        "--block",
        type=_size,
        metavar="SIZE",
        help="cut captures into pieces of about so many bytes, such as 500000, 100M or 1G, and "
        "use the cluster however short they are; 0 cuts none; without this pieces have 8M to 64M",
    )
    add(
        "--parts",
        metavar="FOLDER",
        help="where workers put what json and check write until its turn comes: a folder that all "
        "of them and this machine share; without this one for temporary files",
    )
    add(
        "--retries",
        type=int,
        default=2,
        metavar="N",
        help="how often a capture that can't be read is tried again; 2 without this",
    )
    return parser


def _asked(words: Optional[Sequence[str]]) -> _Asked:
    """What the command line asks for. A wrong one, or a profile that can't be read, is a
    SystemExit."""
    parser = _parser()
    it = parser.parse_args(words)
    if it.retries < 0:
        parser.error("argument --retries: a number from 0 on")
    facts = {"--late": it.late, "--fixed-vout-mode": it.fixed_vout_mode}
    facts.update({"--keep-going": it.keep_going, "--digits": it.digits is not None})
    facts.update({"--device": bool(it.device)})
    sums = {"--json": it.json, "--fail-on": it.fail_on is not None}
    for flags, tasks in ((facts, ("stats", "json")), (sums, ("stats",))):
        for flag, is_given in flags.items():
            if is_given and it.task not in tasks:
                parser.error("argument {}: it is of {} alone".format(flag, " and ".join(tasks)))
    try:
        program = _worker.program()
    except OSError as error:
        _tell(error.strerror or "")
        sys.exit(_NOTHING_TO_RUN)
    # What the program refuses for one capture is refused in its words.
    own = ["--digits={}".format(it.digits)] if it.digits is not None else []
    own += ["--device={}".format(device) for device in it.device]
    own += ["--json"] if it.json else []
    own += ["--fail-on={}".format(it.fail_on)] if it.fail_on is not None else []
    own += ["--keep-going"] if it.keep_going else []
    own += ["--late"] if it.late else []
    own += ["--fixed-vout-mode"] if it.fixed_vout_mode else []
    profile = None
    if not it.sample:
        try:
            with open(it.profile, "rb") as file:
                profile = file.read()
        except OSError as error:
            _tell("{}: {}".format(_shown(it.profile), error.strerror))
            sys.exit(_UNREAD)
    given = b"" if profile is None else profile + b"\n%%\n"
    own += ["--sample"] if profile is None else []
    ran = subprocess.run([program, it.task, *own], input=given, capture_output=True, check=False)
    if ran.returncode not in (_DONE, _FOUND):
        said = ran.stderr.decode("utf-8", "replace")
        if profile is not None and said.startswith("pmb: profile: "):
            # (this one says more of it)
            ran = subprocess.run(
                [program, "profile"], input=profile, capture_output=True, check=False
            )
            said = ran.stderr.decode("utf-8", "replace") or said
            said = said.replace("pmb: profile: ", "pmb.cluster: {}: ".format(_shown(it.profile)), 1)
        sys.stderr.write(said)
        sys.exit(ran.returncode or _WRONG)
    return _Asked(
        it.task,
        it.scheduler,
        profile,
        it.late,
        it.fixed_vout_mode,
        it.keep_going,
        None if it.digits is None else int(it.digits),
        it.device,
        it.json,
        ["refusals", "bad-tokens"] if it.fail_on is None else it.fail_on.split(","),
        it.block,
        it.parts,
        it.retries,
        it.paths,
    )


def _is_short(asked: _Asked) -> bool:
    """Whether one process of this machine reads the captures: they are here, and short."""
    if asked.block is not None:
        return False
    are_here = all(os.path.isfile(path) and os.access(path, os.R_OK) for path in asked.paths)
    if not are_here or asked.task == "stats" and len(asked.paths) > 1:
        return False
    with contextlib.suppress(OSError):
        return sum(map(os.path.getsize, asked.paths)) < _LEAST
    return False


def _read_here(asked: _Asked, out: BinaryIO) -> int:
    """Reads captures with the program of this machine, one after the other."""
    job = asked.job(1, "")
    words = asked.words()
    words += [word for device in asked.devices for word in ("--device", device)]
    words += [] if asked.digits is None else ["--digits", str(asked.digits)]
    if asked.task == "stats":
        words += ["--json"] if asked.is_json else []
        words += ["--fail-on", ",".join(asked.fail_on)]
    result: Any = _Check(out, len(asked.paths))
    if asked.task == "json":
        result = _Json(out, len(asked.paths), asked.keeps_going)
    status = _DONE
    for path in asked.paths:
        if asked.task != "stats":
            result.begin(_Capture(path))
        out.flush()
        try:
            status = max(status, _worker.whole(job, [asked.task, *words], path, out))
        except (OSError, ValueError, MemoryError) as error:
            status = max(status, _status_of(error))
            _tell("{}: {}".format(_shown(path), _why(error)))
    return status


def _read(cluster: _Cluster, asked: _Asked, out: BinaryIO, parts: str) -> int:
    """Reads all captures, and returns the exit status."""
    job = asked.job(cluster.threads, parts)
    result: Any
    if asked.task == "stats":
        result = _Stats(out, cluster, job, asked)
    elif asked.task == "json":
        result = _Json(out, len(asked.paths), asked.keeps_going)
    else:
        result = _Check(out, len(asked.paths))
    # (of other tasks the counts say it, without what the front of a piece counts)
    has_status = asked.task == "check" or asked.task == "stats" and asked.fails_on_reads()
    status = _DONE
    capture: Optional[_Capture] = None
    slots = collections.deque(_Slot(path) for path in asked.paths)
    for slot in _in_order(cluster, job, slots, _worker.piece):
        if capture is None:
            capture = _Capture(slot.path)
            result.begin(capture)
        goes_on = not slot.is_last
        if slot.answer is None:
            status = max(status, _status_of(slot.error))
            _tell("{}: {}".format(_shown(slot.path), _why(slot.error)))
            result.unread(capture)
            if goes_on:
                _drop(slots)
            capture = None
            continue
        answer = slot.answer
        capture.pieces.append((answer["begin"], answer["end"], answer["start"]))
        status = max(status, answer["status"] if has_status else _DONE)
        if not result.add(capture, answer) and goes_on:
            _drop(slots)
            goes_on = False
        capture.events += answer["events"]
        if not goes_on:
            result.end(capture)
            capture = None
    # (workers may have been lost since it was last looked)
    with contextlib.suppress(_Gone):
        cluster.look()
    closed: int = result.close()
    return max(status, closed)


@contextlib.contextmanager
def _parts_in(folder: Optional[str]) -> Iterator[str]:
    """A new folder for what the workers write, which is removed again. A client that is killed
    leaves its folder to the next one: while a client runs it holds the lock of its own."""
    try:
        parts = os.path.abspath(tempfile.mkdtemp(prefix=_PARTS, dir=folder))
        lock = open(os.path.join(parts, "new"), "wb")
        with contextlib.suppress(OSError):
            fcntl.flock(lock, fcntl.LOCK_EX)
            # (so nobody meets it without its lock)
            os.rename(lock.name, os.path.join(parts, "lock"))
    except OSError as error:
        raise _Gone("{}: {}".format(folder or "temporary files", error.strerror)) from None
    try:
        _remove_old(os.path.dirname(parts))
        yield parts
    finally:
        lock.close()
        _remove(parts)


def _remove_old(folder: str) -> None:
    """Removes the folders of this user's clients that were killed."""
    for path in glob.glob(os.path.join(glob.escape(folder), _PARTS + "*", "lock")):
        old = os.path.dirname(path)
        with contextlib.suppress(OSError):
            with open(path, "r+b") as lock:
                fcntl.flock(lock, fcntl.LOCK_EX | fcntl.LOCK_NB)
            if os.lstat(old).st_uid == os.geteuid():
                _remove(old)


def _remove(parts: str) -> None:
    # (a worker may be writing still)
    for _ in range(3):
        shutil.rmtree(parts, ignore_errors=True)


def _status_of(error: Optional[BaseException]) -> int:
    if isinstance(error, MemoryError):
        return _NO_MEMORY
    return _WRONG if isinstance(error, ValueError) else _UNREAD


def main(words: Optional[Sequence[str]] = None) -> int:
    """Does what the words of a command line ask for, those of this process if none are given, and
    returns the exit status. A wrong command line is a SystemExit with the status 2.

        >>> import pmb.cluster
        >>> try:
        ...     pmb.cluster.main(["--help"])  # doctest: +ELLIPSIS
        ... except SystemExit as ended:
        ...     print(ended.code)
        usage: python3 -m pmb.cluster ...
        0
    """
    asked = _asked(words)
    if _is_short(asked):
        try:
            return _read_here(asked, sys.stdout.buffer)
        except KeyboardInterrupt:
            return 130
    if importlib.util.find_spec("distributed") is None:
        _tell("this needs Dask: pip install distributed, or apt-get install python3-distributed")
        return _NOTHING_TO_RUN
    cluster = None
    try:
        cluster = _Cluster(asked.scheduler, asked.retries)
        with _parts_in(asked.parts) as parts:
            return _read(cluster, asked, sys.stdout.buffer, parts)
    except _Gone as error:
        _tell("{}".format(error))
    except KeyboardInterrupt:
        return 130
    except OSError:
        _tell("write failed")
        # (what was not written yet is not tried again)
        os.dup2(os.open(os.devnull, os.O_WRONLY), sys.stdout.fileno())
    finally:
        if cluster is not None:
            cluster.close()
    return _UNREAD


if __name__ == "__main__":
    # (so that the parts are removed)
    signal.signal(signal.SIGTERM, lambda *_: sys.exit(143))
    sys.exit(main())
