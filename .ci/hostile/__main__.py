"""Tries the built program under hostile conditions, as `python3 .ci/hostile PROGRAM [--share N]`:
memory that is refused, streams that fail or stand in odd places, senseless input, hostile profiles.
`--share` tries one of so many cases, and none of the largest inputs. A shim (`../failing.c`), which
the C compiler makes in a temporary folder, lets the calls fail; without one all is skipped. Prints
a line for each subject and each failure; the status is 1 where anything failed."""

import argparse
import ctypes
import os
import shutil
import subprocess
import sys
import tempfile

sys.dont_write_bytecode = True

from program import Program, Report  # noqa: E402
import memory  # noqa: E402
import streams  # noqa: E402
import places  # noqa: E402
import senseless  # noqa: E402
import profiles  # noqa: E402

SUBJECTS = [
    memory.faulty_profiles,
    memory.refuse_memory,
    streams.small_reads,
    streams.small_writes,
    streams.interruptions,
    streams.large_streams,
    streams.failing_standard_error,
    places.odd_places,
    senseless.senseless_inputs,
    profiles.hostile_profiles,
    profiles.changed_profiles,
]


def compiled_shim(folder):
    """Compiles the shim; returns its path, or None without a C compiler, or where it doesn't load."""
    source = os.path.join(os.path.dirname(os.path.dirname(os.path.abspath(__file__))), "failing.c")
    shim = os.path.join(folder, "failing.so")
    compiler = shutil.which("cc") or shutil.which("gcc")
    if compiler is None:
        print("hostile: cc is missing, so want of memory and failing streams were not tried")
        return None
    subprocess.run([compiler, "-O1", "-shared", "-fPIC", "-o", shim, source], check=True)
    try:
        ctypes.CDLL(shim)
    except OSError as fault:
        print(f"hostile: .ci/failing.c doesn't load here ({fault}), so failures were not tried")
        return None
    return shim


def processor_seconds():
    """What this and the programs that it ran have used."""
    return sum(os.times()[:4])


def main():
    parser = argparse.ArgumentParser(prog="hostile")
    parser.add_argument("program")
    parser.add_argument("--share", type=int, default=1)
    chosen = parser.parse_args()
    report = Report()
    with tempfile.TemporaryDirectory() as folder:
        shim = compiled_shim(folder)
        if shim is None:
            print("hostile: 0 passed, 0 failed, 1 skipped")
            return 0
        program = Program(chosen.program, shim, folder, chosen.share)
        for subject in SUBJECTS:
            begun = processor_seconds()
            line, *figures = subject(program, report).split("\n")
            taken = f"({processor_seconds() - begun:.0f} s of processor time)"
            print("\n".join([f"{line} {taken}", *figures]), flush=True)
    skipped = f", {report.skipped} skipped" if report.skipped else ""
    print(f"hostile: {report.passed} passed, {report.failed} failed{skipped}")
    return 1 if report.failed else 0


sys.exit(main())
