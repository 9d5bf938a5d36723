"""Refused memory: each allocation of a run is refused in turn."""

import collections
import os
import re

from inputs import (BAD_WORDS, BEHIND_A_PROFILE, CONVERSIONS, DESCRIPTIONS, FAULTY, FRONT, HELP, IMPORTS,
                    SCANS, UNDER_SAMPLE, WITH_A_PROFILE)
from program import name_of, tells_fault, told

NO_MEMORY = b"pmb: no memory\n"
# One run: its words and input, how long the profile in front is, whether a front of its output may
# be out where it wants memory, and what else it is run under.
Case = collections.namedtuple("Case", "words text front may_tell faults")


def cases():
    for words, rows in UNDER_SAMPLE + CONVERSIONS + IMPORTS:
        yield Case(words, b"".join(rows), 0, False, {})
    for words, rows in SCANS:
        # (for the text it wants memory once the capture has been read)
        yield Case(words, b"".join(rows), len(b"".join(rows)), False, {})
    for words, rows in BEHIND_A_PROFILE:
        # Read byte by byte, so that what was read beyond the profile shows.
        yield Case(words, FRONT + b"".join(rows), len(FRONT), False, {"move_at_most": 1})
    for words, text in DESCRIPTIONS:
        yield Case(words, text, len(text), False, {"move_at_most": 1})
    for text, _ in FAULTY:
        for words in WITH_A_PROFILE:
            yield Case(words, text, len(text), False, {})
    for words in HELP:
        yield Case(words, b"", 0, True, {})
    for words in BAD_WORDS:
        yield Case(words, b"", 0, False, {})


def wants_memory(case, answer, ordinary):
    """Whether an answer is the one for want of memory, with nothing done before it."""
    may_be_out = ordinary.out.startswith(answer.out) if case.may_tell else answer.out == b""
    is_unread = answer.counts.bytes_read <= case.front and (case.front or answer.counts.reads == 0)
    return answer.status == 4 and answer.err == NO_MEMORY and may_be_out and is_unread


def is_explained_less(case, answer, ordinary):
    """Whether a fault of a profile was told as it is, and explained by fewer lines or none."""
    fault = ordinary.err.partition(b"\n")[0] + b"\n"
    return (case.words == ["profile"] and ordinary.status == 2
            and tells_fault(case.words, fault, answer) and ordinary.err.startswith(answer.err))


def refuse_each(program, report, case, ordinary, later):
    """Refuses the first allocation, then the next one of the share, until a run meets none; returns how
    many were refused, and how many runs did without."""
    without, refused, at = 0, 0, 1
    while True:
        faults = {**case.faults, "fail_allocation": at, **later}
        answer = program.run(case.words, case.text, **faults)
        is_ordinary = (told(answer) == told(ordinary)
                       or is_explained_less(case, answer, ordinary))
        met = answer.counts.allocations >= at
        report.holds(is_ordinary or met and wants_memory(case, answer, ordinary),
                     name_of(case.words, faults),
                     "the ordinary answer, or status 4, 'pmb: no memory', nothing written or read",
                     (told(answer), answer.counts))
        if not met:
            return refused, without
        without += is_ordinary
        refused += 1
        at += program.share


def refuse_memory(program, report):
    figures, refusals = [], 0
    for case in cases():
        ordinary = program.run(case.words, case.text, **case.faults)
        name = name_of(case.words)
        report.holds(ordinary.counts.allocations > 0, name, "an allocation", ordinary.counts)
        for later in ({}, {"fail_later": 1}):
            refused, without = refuse_each(program, report, case, ordinary, later)
            report.same(name + " after refused memory", told(ordinary),
                        told(program.run(case.words, case.text, **case.faults)))
            refusals += refused
            if not later:
                figures.append(f"    {ordinary.counts.allocations} allocations, {without} of them "
                               f"dispensable: {describe(case)}")
    report.same("docs/promises.md, runs with refused memory", runs_of_page(), [f"{len(figures):,}"])
    return "\n".join([f"refused memory: {len(figures)} runs, {refusals} allocations refused, each "
                      "alone and with all later ones", *figures])


def runs_of_page():
    """How many runs docs/promises.md says that there are, as it has the number."""
    root = os.path.dirname(os.path.dirname(os.path.dirname(os.path.abspath(__file__))))
    with open(os.path.join(root, "docs", "promises.md"), encoding="utf-8") as page:
        return re.findall(r"each allocation of ([0-9,]+) runs in turn", page.read())


def describe(case):
    after = " with a profile" if case.front else ""
    is_faulty = [text for text, _ in FAULTY].count(case.text) > 0
    return name_of(case.words) + (" with a faulty profile" if is_faulty else after)


def faulty_profiles(program, report):
    """The ordinary answers to the faulty profiles, to which those under refused memory are held."""
    for text, fault in FAULTY:
        for words in WITH_A_PROFILE:
            answer = program.run(words, text)
            report.holds(tells_fault(words, fault, answer), name_of(words) + " with a faulty profile",
                         (2, b"", fault), told(answer))
    return f"faulty profiles: {len(FAULTY)}, each by its name"
