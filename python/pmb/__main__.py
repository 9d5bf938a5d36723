"""Runs the released program with the words of the command line:

    python3 -m pmb show --sample <capture.txt

It stands beside the library, and takes the place of Python's process. Where there is none that can
start, the exit status is 125, as it is of the program's launcher. One command is Python's own, and
writes the page with recordings inside:

    python3 -m pmb report -p bench.toml trace.txt -o report.html
"""

import os
import platform
import signal
import sys
from typing import List

from ._library import released
from ._report import main as report

# What starts a program that may be read and not executed, and where there is no glibc. Each is a
# name that the system gives to it.
_LOADERS = ("/lib64/ld-linux-x86-64.so.2", "/lib/ld-musl-x86_64.so.1")
if platform.machine() == "aarch64":
    _LOADERS = ("/lib/ld-linux-aarch64.so.1", "/lib/ld-musl-aarch64.so.1")


def _started(program: str) -> List[str]:
    """The words that start the program."""
    if os.access(program, os.X_OK) and os.path.exists(_LOADERS[0]):
        return [program]
    return [loader for loader in _LOADERS if os.path.exists(loader)][:1] + [program]


def main() -> None:
    """Runs the program, and does not return."""
    if sys.argv[1:2] == ["report"]:
        sys.exit(report(sys.argv[2:]))
    program = os.path.join(released(), "pmb")
    if not os.path.exists(program):
        why = "this package has the library without the program, which would be {}".format(program)
    else:
        words = _started(program)
        # (Python ignores these two, and the program would ignore them from then on)
        signal.signal(signal.SIGPIPE, signal.SIG_DFL)
        signal.signal(signal.SIGXFSZ, signal.SIG_DFL)
        try:
            os.execv(words[0], words + sys.argv[1:])
        except OSError as error:
            why = "the program can't be started: {}: {}".format(words[0], error.strerror)
    print("pmb: " + why, file=sys.stderr)
    sys.exit(125)


if __name__ == "__main__":
    main()
