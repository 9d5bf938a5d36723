#!/usr/bin/env python3
"""Tries the rows of tests/rows on the built program and the built library.

    tests/run.py PROGRAM [--all] [FILE..]

Each row is run whole, in a process of its own, and then in each way in which its bytes may come and
its calls may fail:

- cut in two at each place, in rows of more than 200 bytes at some that are drawn;
- in reads of 1 to 13 bytes at most;
- one byte a read, with each read and each write failing in its turn, and with nothing to be
  written on standard error. What was printed before stays: whole lines, of `show` and `check` those
  of the writes before, and of `build`, `run`, `encode` and `decode` just those of the lines that
  had ended;
- a row of `show` as one of `check`, which prints its refusals and counts;
- through the library, into rooms of each size.

rowfile.py has the format of the files. The ways need a C compiler, for again.c; without one they
are skipped, and so are the rows that tell of calls that fail. `--all` draws more places.
"""

import argparse
import os
import random
import re
import subprocess
import sys
import tempfile
import time
from concurrent.futures import ProcessPoolExecutor
from pathlib import Path

sys.dont_write_bytecode = True
ROOT = Path(__file__).resolve().parent.parent
sys.path.insert(0, str(ROOT / "tests"))

import library as whole_calls  # noqa: E402
from program import Ended, Programs, Ran, compiled, run_alone  # noqa: E402
from rowfile import Row, rows_of  # noqa: E402

EACH_PLACE = 200  # bytes of a row that is cut at each place
DRAWN, DRAWN_OF_ALL = 24, 200  # places of a longer row
LONG, DRAWN_OF_LONG = 20000, 3
READ_FAILED, WRITE_FAILED = b"pmb: read failed\n", b"pmb: write failed\n"
WAITING = 30000  # a line may be longer than what waits for a write; then it is written in pieces
LONGEST = 32768  # a line of words that is longer is answered, whatever it says
LINE_BY_LINE = (b"build", b"run", b"encode", b"decode")
SHOWN = 10


class Unlike(Exception):
    """A run came to something else than its row says."""


def need(holds, way, told, ran=None):
    if not holds:
        raise Unlike("%s: %s%s" % (way, told, "" if ran is None else "\n    got %s" % short(ran)))


def short(ran):
    told = repr(tuple(ran))
    return told if len(told) <= 1500 else told[:750] + " .. " + told[-750:]


# What a row says

def lines_in(text):
    """The lines of a text, each with its LF."""
    return text.splitlines(True) if b"\r" not in text else re.findall(rb"[^\n]*\n|[^\n]+$", text)


def answers_of(task, out):
    """What is written for each line: a line, of `run` lines up to one that begins with #."""
    if task != b"run":
        return lines_in(out)
    found, answer = [], b""
    for line in lines_in(out):
        answer += line
        if line.startswith(b"#"):
            found.append(answer)
            answer = b""
    return found


def is_answered(task, line):
    """Whether a line is answered: of lines of words, one that has words."""
    if task in (b"encode", b"decode") or len(line) > LONGEST:
        return True
    line = line[:-1] if line.endswith(b"\r") else line
    return line.split(b"#", 1)[0].strip(b" \t") != b""


def matter_at(words, given):
    """Where the matter begins, after a profile."""
    if b"--sample" in words or words[0] in (b"encode", b"decode", b"import"):
        return 0
    match = re.search(rb"^%%\r?\n", given, re.M)
    return match.end() if match else len(given)


def ended_lines(task, matter, count):
    """How many of the lines that end within so many bytes are answered."""
    return sum(is_answered(task, line) for line in matter[:max(count, 0)].split(b"\n")[:-1])


def as_check(row):
    """A row of `show` as one of `check`, where it says what that prints."""
    if row.calls or row.environment or len(row.stages) > 1 or row.stages[0][:1] != [b"show"] or None in row.out:
        return None
    if row.status > 1 or row.err:
        out = row.out
    else:
        lines = lines_in(b"".join(row.out))
        refusals = [line for line in lines if line.startswith(b"#")]
        tally = b"packets %d refusals %d\n" % (len(lines) - len(refusals), len(refusals))
        out = [b"".join(refusals) + tally]
    words = [b"check"] + row.stages[0][1:]
    return Row(row.place, row.name + ", as check", [words], row.given, out, row.err, row.status)


def comes_twice(row):
    """The input and the output of a row that comes twice in one run."""
    lines = row.given if row.given.endswith(b"\n") or not row.given else row.given + b"\n"
    out, count = b"".join(row.out), lines.count(b"\n")
    again = re.sub(rb"^# line (\d+):", lambda it: b"# line %d:" % (int(it.group(1)) + count), out,
                   flags=re.M)
    return lines + lines, out + again


# The ways

class Trial:
    """The ways of one row."""

    def __init__(self, row, given, whole, program, most):
        self.row, self.words, self.given, self.whole = row, row.stages[-1], given, whole
        self.program, self.runs, self.most = program, 0, most
        self.chance = random.Random(row.place + row.name)

    def run(self, **how):
        self.runs += 1
        return self.program.run(self.given, **how)

    def places(self, count):
        """Numbers below a count: each, or some that are drawn, with the first and the last ones."""
        if count <= EACH_PLACE + 1:
            return range(count)
        drawn = DRAWN_OF_LONG if len(self.given) > LONG else self.most
        ends = {0, 1, count - 2, count - 1}
        return sorted(ends.union(self.chance.randrange(count) for _ in range(drawn)))

    def is_as_whole(self, ran, way):
        need(ran[:3] == self.whole[:3], way, "unlike the whole", ran)

    def cuts(self):
        for place in self.places(len(self.given) + 1)[1:]:
            self.is_as_whole(self.run(cut_at=place), "cut at %d" % place)
        for most in range(2, 14):
            if len(self.given) <= LONG:
                self.is_as_whole(self.run(read_at_most=most), "in reads of %d bytes" % most)

    def failing_reads(self, reads):
        """Each of the reads of single bytes fails."""
        task, before = self.words[0], b""
        start = matter_at(self.words, self.given)
        by_line = task in LINE_BY_LINE and self.row.status < 2
        answers = answers_of(task, self.whole.out) if by_line else None
        for count in self.places(reads):
            way = "the read after %d fails" % count
            ran = self.run(read_at_most=1, fail_read=count + 1)
            need((ran.status, ran.err) == (3, READ_FAILED), way, "not reported", ran)
            need(self.whole.out.startswith(ran.out) and ran.out[-1:] in (b"", b"\n"), way,
                 "no front of whole lines", ran)
            need(ran.out.startswith(before), way, "less than after fewer reads", ran)
            before = ran.out
            if by_line:
                ended = ended_lines(task, self.given[start:], count - start)
                need(ran.out == b"".join(answers[:ended]), way, "not the lines that had ended", ran)
        past = self.run(read_at_most=1, fail_read=reads + 1)
        self.is_as_whole(past, "a read after all")

    def failing_writes(self, writes):
        """Each of the writes fails, where bytes come one a read."""
        task, out = self.words[0], self.whole.out
        lines = lines_in(out)
        is_short = all(len(line) < WAITING for line in lines)
        each = None
        if is_short and task in LINE_BY_LINE + (b"show", b"check") and self.row.status < 2:
            each = answers_of(task, out)
            if task == b"check" and writes == len(each) - 1:
                # What the end of the capture shows is written with the counts.
                each[-2:] = [each[-2] + each[-1]]
            need(writes == len(each), "writes", "%d of %d answers" % (writes, len(each)))
        for count in self.places(writes):
            way = "the write after %d fails" % count
            ran = self.run(read_at_most=1, fail_write=count + 1)
            need((ran.status, ran.err) == (3, WRITE_FAILED), way, "not reported", ran)
            need(out.startswith(ran.out) and len(ran.out) < len(out), way, "no front", ran)
            if each is not None:
                need(ran.out == b"".join(each[:count]), way, "not what was written before", ran)
            elif is_short and len(out) < WAITING:
                need(ran.out[-1:] in (b"", b"\n"), way, "no whole lines", ran)
        self.is_as_whole(self.run(read_at_most=1, fail_write=writes + 1), "a write after all")

    def failing_tells(self, tells):
        """Nothing can be written on standard error; what can be is written at once."""
        if self.whole.err:
            need(tells == 1, "standard error", "%d writes" % tells)
            ran = self.run(fail_read=1 if self.row.calls else 0, fail_tell=1)
            need(ran[:3] == (self.whole.status, self.whole.out, b""), "an untold fault", "differs", ran)

    def all_ways(self):
        single = self.run(read_at_most=1)
        self.is_as_whole(single, "one byte a read")
        self.cuts()
        self.failing_reads(single.reads)
        self.failing_writes(single.writes)
        self.failing_tells(single.tells)
        if self.row.is_twice:
            self.given, out = comes_twice(self.row)
            for most in (0, 1):
                ran = self.run(read_at_most=most)
                need((ran.out, ran.err) == (out, b""), "twice", "unlike", ran)

    def calls_of_row(self):
        """The calls that the row itself lets fail."""
        calls = self.row.calls
        ranges = [range(it[0], it[1] + 1) if it else (None,)
                  for it in (calls.reads, calls.writes, calls.tells)]
        for reads in ranges[0]:
            for writes in ranges[1]:
                for tells in ranges[2]:
                    fails = [0 if it is None else it + 1 for it in (reads, writes, tells)]
                    ran = self.run(cut_at=calls.one_by_one_from, read_at_most=1, fail_read=fails[0],
                                   fail_write=fails[1], fail_tell=fails[2])
                    is_so = self.row.is_out(ran.out) and self.row.is_err(ran.err)
                    need(is_so and ran.status == self.row.status, "the calls of the row",
                         "unlike the row after %r" % ((reads, writes, tells),), ran)
        if calls.reads == (0, 0) and self.row.status < 3:
            self.calls_without_reads()

    def calls_without_reads(self):
        """Nothing is read; each write and each tell fails in its turn."""
        self.whole = self.run(fail_read=1)
        need(self.whole.reads == 0, "no reads", "read", self.whole)
        for count in range(self.whole.writes):
            ran = self.run(fail_read=1, fail_write=count + 1)
            is_so = (ran.status, ran.err) == (3, WRITE_FAILED) and len(ran.out) < len(self.whole.out)
            need(is_so and self.whole.out.startswith(ran.out), "a write fails", "not reported", ran)
        if self.row.calls.tells is None:
            self.failing_tells(self.whole.tells)


class Worker:
    """Tries rows, one after the other."""

    def __init__(self, path, shim, library, most):
        self.path, self.library, self.most = path, library, most
        self.programs = Programs(path, shim) if shim else None

    def whole(self, row):
        """The input of the last stage, and what it comes to in a process of its own."""
        given = row.given
        for words in row.stages[:-1]:
            ran = run_alone(self.path, words, given)
            need((ran.status, ran.err) == (0, b""), " ".join(map(repr, words)), "fails", ran)
            given = row.front + ran.out
        ran = run_alone(self.path, row.stages[-1], given, row.environment)
        is_so = row.is_out(ran.out) and row.is_err(ran.err) and ran.status == row.status
        need(is_so, "whole", "unlike the row", ran)
        return given, ran

    def attempt(self, row):
        """Tries a row in all ways; returns how many runs that took."""
        runs = 0
        if row.calls is None:
            given, whole = self.whole(row)
            runs = 1
        else:
            given, whole = row.given, Ran(row.status, b"", b"", 0, 0, 0)
        if row.environment:
            return runs
        if self.programs:
            words = row.stages[-1]
            trial = Trial(row, given, whole, self.programs.of(words), self.most)
            try:
                trial.all_ways() if row.calls is None else trial.calls_of_row()
            except Ended:
                self.programs.drop(words)
                raise Unlike("the program was ended by a signal") from None
            runs += trial.runs
        if self.library and self.library.takes(row):
            fault = self.library.fault(row, whole.out)
            need(fault is None, "through the library", fault)
        return runs


def standard_commands():
    """How many rows the table of standard commands in docs/profiles.md has."""
    page = (ROOT / "docs/profiles.md").read_text(encoding="utf-8")
    return len(re.findall(r"^\| [0-9a-f]{2} \|.*\| (?:yes|no) \|[^|]*\|$", page, re.M))


def sample():
    """The sample profile, as docs/profiles.md has it."""
    page = (ROOT / "docs/profiles.md").read_text(encoding="utf-8")
    return page.split("## The sample profile", 1)[1].split("```\n")[1].encode()


def loaded_library():
    """The library, or None where it doesn't load."""
    header = (ROOT / "include/pmb.h").read_text(encoding="utf-8")
    try:
        return whole_calls.Library(ROOT / "release/libpmb.so", header, sample())
    except OSError as fault:
        print("rows: the library doesn't load, so nothing goes through it: %s" % fault)
        return None


def tried(share):
    """A share of the rows: how many were skipped, the runs, and what failed."""
    path, shim, most, rows = share
    library = loaded_library()
    worker = Worker(path, shim, library, most)
    skipped, runs, failures = 0, 0, []
    for row in rows:
        if row.calls and not shim:
            skipped += 1
            continue
        try:
            runs += worker.attempt(row)
        except (Unlike, subprocess.TimeoutExpired) as unlike:
            failures.append("%s: %s: %s" % (row.place, row.name, unlike))
    if worker.programs:
        worker.programs.end()
    return skipped, runs, failures, library is None


def main():
    parser = argparse.ArgumentParser(description="Tries the rows of tests/rows.")
    parser.add_argument("program")
    parser.add_argument("files", nargs="*", type=Path)
    parser.add_argument("--all", action="store_true")
    chosen = parser.parse_args()
    path = str(Path(chosen.program).resolve())
    files = chosen.files or sorted((ROOT / "tests/rows").glob("*.txt"))
    values = {"standard_commands": b"%d" % standard_commands()}
    by_file = [(file, rows_of(file, values)) for file in files]
    rows = [row for _, some in by_file for row in some]
    empty = [file for file, some in by_file if not some]
    rows += [row for row in map(as_check, rows) if row]
    rows.sort(key=lambda row: row.stages)
    began = time.monotonic()
    workers = len(os.sched_getaffinity(0))
    with tempfile.TemporaryDirectory() as folder:
        shim = compiled(folder, "rows")
        if shim is None:
            print("rows: each is run whole alone")
        most = DRAWN_OF_ALL if chosen.all else DRAWN
        shares = [(path, shim, most, rows[i:i + 40]) for i in range(0, len(rows), 40)]
        with ProcessPoolExecutor(workers) as pool:
            found = list(pool.map(tried, shares))
    skipped, runs, failures = 0, 0, []
    for some_skipped, some_runs, some_failures, _ in found:
        skipped += some_skipped
        runs += some_runs
        failures += some_failures
    failures = ["%s has no row" % file for file in empty] + failures
    for failure in failures[:SHOWN]:
        print("rows: " + failure)
    print("rows: %d runs in %.0f seconds" % (runs, time.monotonic() - began))
    passed = len(rows) - skipped - len(failures) + len(empty)
    print("rows: %d passed, %d failed%s" % (passed, len(failures),
                                            ", %d skipped" % skipped if skipped else ""))
    return 1 if failures or not rows else 0


if __name__ == "__main__":
    sys.exit(main())
