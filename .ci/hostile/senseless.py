"""Senseless input: each subcommand gives a named answer, in little memory and in linear time."""

import os
import random

from inputs import CONVERSIONS, IMPORTS, MEGABYTE, SCANS, SEED, UNDER_SAMPLE
from program import Answer, contents, name_of, said, short

PEAK_KILOBYTES = 4096
# `scan` has room for what it keeps of 64 devices.
SCAN_KILOBYTES = 8192
SIZES = [MEGABYTE, 10 * MEGABYTE, 100 * MEGABYTE]
# Ten times the input may take so many times as long, where times under the least one are noise. What
# took longer is run again, since a machine that does other work too may have been slow at that moment.
GROWTH = 20
LEAST_SECONDS = 0.05
TRIES = 3
EVENTS = [b"S", b"P", b"A", b"N", b"b0", b"b1", b"21", b"00", b"03", b"88"]
WORDS = [b"write", b"read", b"set", b"58", b"+", b":", b"pec", b"zz", b"1/3", b"-", b"d300", b"#", b"\t"]


def random_bytes(size):
    return random.Random(SEED).getrandbits(8 * size).to_bytes(size, "little")


def random_words(size, words, ends):
    rng = random.Random(SEED)
    piece = b"".join(rng.choice(words) + rng.choice(ends) for _ in range(20_000))
    return (piece * (size // len(piece) + 1))[:size]


KINDS = {
    "bytes": random_bytes,
    "bytes after one that is no token": lambda size: b"\xff" + random_bytes(size - 1),
    "words": lambda size: random_words(size, WORDS, [b" ", b" ", b" ", b"\n"]),
    "events": lambda size: random_words(size, EVENTS, [b" ", b" ", b" ", b"\n"]),
    "one line of events": lambda size: random_words(size, EVENTS, [b" "]),
    "one line of digits": lambda size: b"5" * size,
    "one comment": lambda size: b"#" + b"x" * (size - 1),
    "NUL": lambda size: b"\0" * size,
    "CR": lambda size: b"\r" * size,
    "LF": lambda size: b"\n" * size,
}


# Words that are tokens but follow no pattern, and what may be shown of them.
TOKENS = [b"S ", b"P\n", b"N ", b"b0 ", b"21 ", b"A ", b"A ", b"A "]
SHOWN = (b"refused 58", b"write 58", b"# refusal at ")


def tokens(count):
    """So many of them, from a fixed seed."""
    words, state = [], 0x2545F491
    for _ in range(count):
        state = (state * 1_664_525 + 1_013_904_223) % 2**32
        words.append(TOKENS[state >> 29])
    return b"".join(words)


def senseless_tokens(program, report):
    """What `show` says of 400,000 tokens is lines of their kinds, and `check` says the same."""
    text = tokens(400_000)
    shown = program.run_once(["show", "--sample"], text)
    checked = program.run_once(["check", "--sample"], text)
    lines = shown.out.splitlines(True)
    refusals = [line for line in lines if line.startswith(b"#")]
    report.same("pmb show --sample on tokens", (1, b""), (shown.status, shown.err))
    others = [line for line in lines if not line.startswith(SHOWN)]
    report.holds(lines and not others, "pmb show --sample on tokens", "lines of their kinds", others)
    tally = b"packets %d refusals %d\n" % (len(lines) - len(refusals), len(refusals))
    report.same("pmb check --sample on tokens", (1, b"".join(refusals) + tally, b""),
                (checked.status, checked.out, checked.err))


# Not tried in the largest size: each byte is a line, so the answers are eight times as long.
SMALLER = ["LF"]


def answer_of(program, words, source):
    """The status, what is on standard error, the counts and the seconds of a run on an input from its
    front. What is on standard output is not kept."""
    os.lseek(source, 0, os.SEEK_SET)
    os.ftruncate(program.err, 0)
    os.lseek(program.err, 0, os.SEEK_SET)
    unkept = os.open(os.devnull, os.O_WRONLY)
    status, counts, seconds = program.ended(program.start(words, [source, unkept, program.err]))
    os.close(unkept)
    return Answer(status, b"", said(words, status, contents(program.err)), counts, seconds)


def has_little_peak(report, run, answer, most=PEAK_KILOBYTES):
    peak = answer.counts.peak_kilobytes
    report.holds(0 < peak < most, run, f"a peak under {most} KB", f"{peak} KB")


def named_answer(report, run, answer, most):
    """Whether senseless input was answered as input is: done, or with refusals."""
    is_named = answer.status in (0, 1) and answer.err == b""
    report.holds(is_named, run, "status 0 or 1 and nothing on standard error",
                 (answer.status, answer.err))
    has_little_peak(report, run, answer, most)


def too_long(program, report, run, words, source):
    """Without a line `%%` all is profile, and ten megabytes of it are too many."""
    answer = answer_of(program, words, source)
    report.same(run, (2, b"pmb: profile too long\n"), (answer.status, answer.err))
    has_little_peak(report, run, answer)


def most_after(seconds):
    """The most seconds that ten times the input may take after these."""
    return GROWTH * max(seconds[-1], LEAST_SECONDS) if seconds else float("inf")


def linear(report, run, seconds):
    """Ten times the input takes about ten times as long."""
    for place in range(1, len(seconds)):
        report.holds(seconds[place] <= most_after(seconds[:place]), run,
                     f"ten times the input in {GROWTH} times the time", short(seconds))


def senseless_inputs(program, report):
    senseless_tokens(program, report)
    peak, slowest = 0, [0.0] * len(SIZES)
    for kind, make in KINDS.items():
        seconds = {}
        sizes = SIZES[: -1 if kind in SMALLER else None] if program.share == 1 else SIZES[:1]
        for place, size in enumerate(sizes):
            source = program.scratch("senseless")
            os.write(source, make(size))
            for words, _ in UNDER_SAMPLE + CONVERSIONS[:2] + IMPORTS + SCANS:
                run = f"{name_of(words)} on {kind}"
                most = SCAN_KILOBYTES if words == ["scan"] else PEAK_KILOBYTES
                so_far = seconds.setdefault(run, [])
                least = float("inf")
                for _ in range(TRIES):
                    answer = answer_of(program, words, source)
                    named_answer(report, run, answer, most)
                    peak = max(peak, answer.counts.peak_kilobytes)
                    least = min(least, answer.seconds)
                    if least <= most_after(so_far):
                        break
                so_far.append(least)
                slowest[place] = max(slowest[place], least)
            if size > MEGABYTE:
                for words in (["show"], ["profile"]):
                    too_long(program, report, f"{name_of(words)} under a profile of {kind}", words, source)
            os.close(source)
        for run, taken in seconds.items():
            linear(report, run, taken)
    times = ", ".join(f"{it:.1f}" for it in slowest[:place + 1])
    sizes = "1, 10 and 100" if program.share == 1 else "1"
    return (f"senseless input: {len(KINDS)} kinds of {sizes} MB through each subcommand, peak "
            f"{peak} KB, at most {times} s of processor time")
