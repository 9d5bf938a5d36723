"""Failing streams: reads and writes that fail, are interrupted, or move few bytes."""

import errno
import os

from inputs import (BAD_WORDS, BEHIND_A_PROFILE, CONVERSIONS, DESCRIPTIONS, FAULTY, FRONT, HELP, IMPORTS,
                    SCANS, SMALL_BUS, UNDER_SAMPLE, WITH_A_PROFILE, large_inputs)
from profiles import LIMIT, all_commands
from program import name_of, told

READ_FAILED = b"pmb: read failed\n"
WRITE_FAILED = b"pmb: write failed\n"
# Seeds and sizes of reads and writes that move a random number of bytes.
RANDOM_MOVES = [{"move_at_most": most, "move_seed": seed}
                for seed, most in enumerate([2, 7, 64, 5000], 1)]
# Which reads and writes of large inputs are interrupted.
INTERRUPTED = [1, 2, 17]


def small_runs():
    """Words, the front and the rows of each small run."""
    runs = [(words, b"", rows) for words, rows in UNDER_SAMPLE + CONVERSIONS + IMPORTS + SCANS]
    return runs + [(words, FRONT, rows) for words, rows in BEHIND_A_PROFILE]


def rows_within(front, rows, length):
    """The whole rows among the first bytes of an input."""
    at, count = len(front), 0
    while count < len(rows) and at + len(rows[count]) <= length:
        at += len(rows[count])
        count += 1
    return count


def answers_to_rows(program, words, front, rows):
    """What is written for the first rows, for each number of them. The last line of `check` is not
    among that, nor are the last objects of `json`, all that `stats` and `scan` write and that `import` has
    no packets, since they are for an input that has ended."""
    if words[0] in ("stats", "scan"):
        return [b""] * (len(rows) + 1)
    outs = [program.run(words, front + b"".join(rows[:count])).out for count in range(len(rows) + 1)]
    if words[0] == "check":
        outs = [b"".join(out.splitlines(True)[:-1]) for out in outs]
    if words[0] == "json":
        last = (b'{"kind":"device"', b'{"kind":"end"')
        outs = [b"".join(line for line in out.splitlines(True) if not line.startswith(last)) for out in outs]
    if words[0] == "import":
        outs = [out.replace(b"# no packets\n", b"") for out in outs]
    return outs


def failed_read_holds(report, run, answer, ordinary, so_far):
    """After a failed read a front of whole lines is out, and at least the lines given."""
    report.same(run, (3, READ_FAILED), (answer.status, answer.err))
    is_front = ordinary.out.startswith(answer.out) and answer.out.startswith(so_far)
    report.holds(is_front and answer.out[-1:] in (b"", b"\n"), run,
                 "a front of whole lines of the ordinary output, with those for what was read",
                 answer.out)


def small_reads(program, report):
    """Each read of a small input fails, where a read gives one byte."""
    runs = small_runs()
    tried = 0
    for words, front, rows in runs:
        text = front + b"".join(rows)
        ordinary = program.run(words, text)
        outs = answers_to_rows(program, words, front, rows)
        for at in program.some(range(1, len(text) + 2)):
            faults = {"fail_read": at, "move_at_most": 1}
            answer = program.run(words, text, **faults)
            so_far = outs[rows_within(front, rows, at - 1)]
            failed_read_holds(report, name_of(words, faults), answer, ordinary, so_far)
            if words[0] not in ("show", "check", "json", "log"):
                # Of lines just those that have ended are answered. A packet may end before its row.
                report.same(name_of(words, faults), so_far, answer.out)
            tried += 1
    tried += profile_reads(program, report)
    return f"failing reads: {len(runs) + 2} small inputs, {tried} places"


def profile_reads(program, report):
    """Each read of a profile fails, where a read gives one byte, and nothing is written. Behind the
    line `%%` nothing is read."""
    tried = 0
    for text, reads in ((SMALL_BUS, len(SMALL_BUS) + 1), (SMALL_BUS + b"%%\nP", len(SMALL_BUS) + 3)):
        ordinary = program.run(["profile"], text, move_at_most=1)
        report.same("pmb profile, reads", (0, reads), (ordinary.status, ordinary.counts.reads))
        for at in program.some(range(1, reads + 1)):
            faults = {"fail_read": at, "move_at_most": 1}
            report.same(name_of(["profile"], faults), (3, b"", READ_FAILED),
                        told(program.run(["profile"], text, **faults)))
            tried += 1
    return tried


def failed_write_holds(report, run, answer, ordinary):
    report.same(run, (3, WRITE_FAILED), (answer.status, answer.err))
    report.holds(ordinary.out.startswith(answer.out) and answer.out != ordinary.out, run,
                 "a front of the ordinary output", answer.out)


def small_writes(program, report):
    """Each write of a small output fails, where a write takes one byte; and where the bytes that a
    read and a write move are few, nothing changes."""
    runs = small_runs() + [(words, b"", []) for words in HELP]
    runs.append((["profile"], SMALL_BUS, []))
    tried = moved = 0
    for words, front, rows in runs:
        text = front + b"".join(rows)
        ordinary = program.run(words, text)
        for at in program.some(range(1, len(ordinary.out) + 1)):
            faults = {"fail_write": at, "move_at_most": 1}
            answer = program.run(words, text, **faults)
            failed_write_holds(report, name_of(words, faults), answer, ordinary)
            report.same(name_of(words, faults), at - 1, len(answer.out))
            tried += 1
        for faults in [{"move_at_most": 1}, *RANDOM_MOVES]:
            answer = program.run(words, text, **faults)
            report.same(name_of(words, faults), told(ordinary), told(answer))
            moved += 1
    return (f"failing writes: {len(runs)} small outputs, {tried} places; {moved} runs of short reads "
            "and writes")


def interruptions(program, report):
    """A read or a write that a signal interrupts (EINTR) is made again."""
    tried = 0
    for words, front, rows in small_runs():
        text = front + b"".join(rows)
        ordinary = program.run(words, text)
        calls = program.run(words, text, move_at_most=16).counts
        for kind, count in (("fail_read", calls.reads), ("fail_write", calls.writes)):
            for at in program.some(range(1, count + 1)):
                faults = {kind: at, "fail_error": errno.EINTR, "move_at_most": 16}
                answer = program.run(words, text, **faults)
                report.same(name_of(words, faults), told(ordinary), told(answer))
                tried += 1
    return f"interrupted reads and writes: {tried}"


def large_reads(program, report, words, text, ordinary):
    """Each read of a large input fails."""
    last = b""
    for at in program.some(range(1, ordinary.counts.reads + 1)):
        faults = {"fail_read": at}
        answer = program.run(words, text, **faults)
        run = name_of(words, faults) + " on 3 MB"
        failed_read_holds(report, run, answer, ordinary, last)
        last = answer.out
        if words[0] in ("encode", "decode"):
            lines = text.count(b"\n", 0, answer.counts.bytes_read)
            report.same(run + ", lines", lines, answer.out.count(b"\n"))
    return ordinary.counts.reads


def large_writes(program, report, words, text, ordinary):
    """Each write of a large output fails."""
    for at in program.some(range(1, ordinary.counts.writes + 1)):
        faults = {"fail_write": at}
        answer = program.run(words, text, **faults)
        failed_write_holds(report, name_of(words, faults) + " on 3 MB", answer, ordinary)
    return ordinary.counts.writes


def large_streams(program, report):
    runs = program.some(large_inputs(program) + [(["profile"], all_commands(LIMIT).encode())])
    reads = writes = 0
    for words, text in runs:
        ordinary = program.run(words, text)
        report.holds(ordinary.status in (0, 1) and ordinary.err == b"" and len(ordinary.out) > 100,
                     name_of(words) + " on 3 MB", "an ordinary answer", (ordinary.status, ordinary.err))
        reads += large_reads(program, report, words, text, ordinary)
        writes += large_writes(program, report, words, text, ordinary)
        interrupted = [{kind: at, "fail_error": errno.EINTR}
                       for kind in ("fail_read", "fail_write") for at in INTERRUPTED]
        few = [{"move_at_most": 1}, *RANDOM_MOVES[-2:]] if program.share == 1 else RANDOM_MOVES[-1:]
        for faults in [*few, *interrupted]:
            answer = program.run(words, text, **faults)
            report.same(name_of(words, faults) + " on 3 MB", told(ordinary), told(answer))
    return (f"failing streams of 3 MB, and a profile of 1 MB: {len(runs)} inputs, each of {reads} "
            f"reads and {writes} writes")


def failing_standard_error(program, report):
    """Where standard error fails, status and standard output stay what they are."""
    runs = [(words, FRONT + b"".join(rows), {}) for words, rows in BEHIND_A_PROFILE]
    runs += [(words, b"".join(rows), faults) for words, rows in UNDER_SAMPLE + CONVERSIONS + IMPORTS + SCANS
             for faults in ({}, {"fail_read": 1}, {"fail_write": 1}, {"fail_allocation": 3})]
    runs += [(words, text, faults) for words, text in DESCRIPTIONS
             for faults in ({}, {"fail_write": 1}, {"fail_allocation": 3})]
    runs += [(words, text, {}) for text, _ in FAULTY for words in WITH_A_PROFILE]
    runs += [(words, b"", {}) for words in HELP + BAD_WORDS]
    full = os.open("/dev/full", os.O_WRONLY)
    for words, text, faults in runs:
        ordinary = program.run(words, text, **faults)
        for name, err in (("closed", None), ("/dev/full", full)):
            answer = run_with_error(program, words, text, err, faults)
            report.same(f"{name_of(words, faults)}, standard error {name}",
                        (ordinary.status, ordinary.out), answer)
    os.close(full)
    return f"standard error closed and full: {len(runs)} runs each"


def run_with_error(program, words, text, err, faults):
    """The status and the output of a run whose standard error is that descriptor."""
    source = os.open(program.file_of(text), os.O_RDONLY)
    out = os.open(os.path.join(program.folder, "alone"), os.O_RDWR | os.O_CREAT | os.O_TRUNC)
    status, _, _ = program.ended(program.start(words, [source, out, err], **faults))
    written = os.pread(out, os.fstat(out).st_size, 0)
    os.close(source)
    os.close(out)
    return status, written
