"""Follows a capture that is still being written: prints the bits of a status register, with the time of
its packet, each time that they have changed.

    pmb import kernel </sys/kernel/tracing/trace_pipe | python3 examples/python/follow.py PROFILE
    python3 examples/python/follow.py PROFILE CAPTURE

The first reads a pipe up to its end. The second waits at the end of the file for what is written next,
up to Ctrl-C. Without words it follows what `cat` writes of a second on a bench, examples/sessions.
"""

import os
import subprocess
import sys
import time
from typing import Dict, Iterable, Iterator, List, Tuple

import pmb

SESSIONS = os.path.join(os.path.dirname(os.path.abspath(__file__)), os.pardir, "sessions")


def growing(name: str) -> Iterator[bytes]:
    """What is in a file, and then what is written to it."""
    with open(name, "rb") as file:
        while True:
            piece = file.read1(65536)
            if not piece:
                time.sleep(0.1)
            yield piece


def follow(profile: pmb.Profile, capture: Iterable[bytes]) -> None:
    told: Dict[Tuple[object, ...], List[str]] = {}
    for it in profile.transactions(capture, keep_going=True):
        if it["kind"] == "read" and "bits" in it:
            place = it.get("name", it["device"]), it.get("page"), it.get("command")
            if told.get(place) != it["bits"]:
                told[place] = it["bits"]
                print(it.get("time"), *place, *it["bits"] or ["none"], flush=True)


def main() -> None:
    names = sys.argv[1:] or [os.path.join(SESSIONS, "undervoltage.toml")]
    with open(names[0], "rb") as file:
        profile = pmb.Profile(file.read())
    if len(names) > 1:
        follow(profile, growing(names[1]))
    elif len(sys.argv) > 1:
        follow(profile, sys.stdin.buffer)
    else:
        words = ["cat", os.path.join(SESSIONS, "undervoltage.txt")]
        with subprocess.Popen(words, stdout=subprocess.PIPE) as written:
            assert written.stdout is not None
            follow(profile, written.stdout)


if __name__ == "__main__":
    try:
        main()
    except KeyboardInterrupt:
        pass
