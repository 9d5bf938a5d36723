#!/usr/bin/env python3
"""Runs i2c-tools, python3-smbus and smbus2 on the simulated buses of four profiles, and compares what
they print, and what was on the wire, with what `pmb run` makes of the same requests. What no request
can say is worked out by hand, by docs/devices.md.

    i2cd/tests/clients.py PROGRAM PMB [--cuse]

PROGRAM is pmb-i2cd, with libpmb-i2cdev.so beside it, and PMB the program pmb. With --cuse the clients
use the device /dev/i2c-0 that PROGRAM makes, and else the shim. A client that isn't there counts as
skipped.

A row has what is done, what goes over the bus, and what comes of it. What goes over the bus is in
requests (separated by `;`), which `pmb run` answers, or, where it begins with S, the wire itself. In
that `hh` is a byte that no device gives, so that the wires stay high.
"""

import json
import os
import re
import shutil
import subprocess
import sys
import tempfile
import time

sys.dont_write_bytecode = True

from call_rows import CALL_ROWS, TRANSFER_ROWS  # noqa: E402
from expected import dump_rows  # noqa: E402
from tool_rows import POWER_UP_TOOLS, PROTECTED_TOOLS, SAMPLE_TOOLS, TWO_RAILS_TOOLS  # noqa: E402

ROOT = os.path.join(os.path.dirname(os.path.abspath(__file__)), os.pardir, os.pardir)
CALLS = os.path.join(os.path.dirname(os.path.abspath(__file__)), "python_calls.py")

# How the log shows a byte that no device gives.
HIGH = "ff"

PROFILES = [
    ("sample", None, SAMPLE_TOOLS),
    ("power_up", "examples/sessions/power_up.toml", POWER_UP_TOOLS),
    ("two_rails", "examples/profiles/two_rails.toml", TWO_RAILS_TOOLS),
    ("protected", "i2cd/tests/protected.toml", PROTECTED_TOOLS),
]


# ---- what runs

class Bench:
    """A server with a profile, and the environment of its clients."""

    def __init__(self, program, profile, is_cuse, directory):
        self.log = os.path.join(directory, "log")
        self.path = "/dev/i2c-0" if is_cuse else os.path.join(directory, "socket")
        open(self.log, "w").close()
        where = ["--cuse", "i2c-0"] if is_cuse else ["--socket", self.path]
        self.environment = dict(os.environ)
        if not is_cuse:
            shim = os.path.join(os.path.dirname(program), "libpmb-i2cdev.so")
            self.environment.update(LD_PRELOAD=shim, PMB_I2C_SOCKET=self.path)
        self.server = subprocess.Popen([program, profile, "--log", self.log] + where)
        until = time.monotonic() + 20
        while not os.path.exists(self.path) and time.monotonic() < until:
            time.sleep(0.01)
        self.read = 0

    def wire(self):
        """What was on the wire since the last call."""
        with open(self.log) as file:
            file.seek(self.read)
            text = file.read()
        self.read += len(text)
        return text

    def run(self, words, given=None):
        # (close_fds: else Python forks itself, which takes long in user-mode-linux)
        done = subprocess.run(words, env=self.environment, input=given, stdout=subprocess.PIPE,
                              stderr=subprocess.STDOUT, universal_newlines=True, timeout=120,
                              stdin=subprocess.DEVNULL if given is None else None, close_fds=False)
        return done.stdout

    def close(self):
        self.server.terminate()
        status = self.server.wait(timeout=20)
        until = time.monotonic() + 20
        while os.path.exists(self.path) and time.monotonic() < until:
            time.sleep(0.01)
        return status == 0 and not os.path.exists(self.path)


class Requests:
    """What `pmb run` makes of the requests of some rows, all in one run."""

    def __init__(self, pmb, profile, rows):
        lines = [part.strip() for row in rows if row[-2] and not row[-2].startswith("S ")
                 for part in row[-2].split(";")]
        self.answers = []
        if not lines:
            return
        with open(profile) as file:
            text = file.read()
        done = subprocess.run([pmb, "run"], input=text + "\n%%\n" + "\n".join(lines) + "\n",
                              stdout=subprocess.PIPE, universal_newlines=True, timeout=120)
        wire = ""
        for line in done.stdout.splitlines():
            if line.startswith("#"):
                self.answers.append((wire, line[2:]))
                wire = ""
            else:
                wire += line + "\n"
        assert len(self.answers) == len(lines), "pmb run answers other requests than were made"

    def expected(self, row):
        """The wire of a row, and the bytes of its last reply, or None."""
        if not row[-2] or row[-2].startswith("S "):
            return row[-2].replace("hh", HIGH), None
        wire, data = "", None
        for _ in row[-2].split(";"):
            text, result = self.answers.pop(0)
            wire += text
            data = None
            if re.fullmatch("([0-9a-f]{2} ?)+", result):
                data = list(bytes.fromhex(result.replace(" ", "")))
        return wire, data


def reads_of_all(pmb, profile):
    """What a read of each code of 58h is: a fault, or the bytes that the device gives."""
    rows = [("", "read 58 {:02x} pec".format(code), None) for code in range(256)]
    reads = []
    for wire, result in Requests(pmb, profile, rows).answers:
        fault = re.fullmatch(r"line \d+: (\w+)", result)
        if fault:
            reads.append((fault.group(1), None))
        else:
            given = wire.split(" S b1 A ")[1]
            reads.append((None, [int(token, 16) for token in re.findall("[0-9a-f]{2}", given)]))
    return reads


class Count:
    passed = failed = skipped = 0

    def compare(self, what, found, wanted):
        if found == wanted:
            self.passed += 1
        else:
            self.failed += 1
            print("clients: {}\n  found  {!r}\n  wanted {!r}".format(what, found, wanted))


def wanted_of(expected, data):
    return expected(data) if callable(expected) else expected


def tools(count, bench, requests, name, rows):
    for row in rows:
        wire, data = requests.expected(row)
        text = bench.run(row[0].split())
        count.compare("{}: {}: printed".format(name, row[0]), text, wanted_of(row[2], data))
        count.compare("{}: {}: on the wire".format(name, row[0]), bench.wire(), wire)


def calls(count, bench, requests, name, rows, library, python):
    said = bench.run([python, CALLS, library], json.dumps([[row[0], row[1]] for row in rows]))
    try:
        results = json.loads(said)
    except ValueError:
        count.compare("{}: {}".format(name, library), said, "results")
        return
    wires = ""
    for row, found in zip(rows, results):
        wire, data = requests.expected(row)
        wires += wire
        count.compare("{}: {}.{}{}".format(name, library, row[0], tuple(row[1])), found,
                      wanted_of(row[-1], data))
    count.compare("{}: {}: on the wire".format(name, library), bench.wire(), wires)


def python_with(library):
    """A Python that has the library: Debian's has those of its packages."""
    for python in (sys.executable, "/usr/bin/python3"):
        if subprocess.run([python, "-c", "import " + library], stderr=subprocess.DEVNULL).returncode == 0:
            return python
    return None


def main(program, pmb, is_cuse):
    count = Count()
    program, pmb = os.path.abspath(program), os.path.abspath(pmb)
    pythons = {library: python_with(library) for library in ("smbus", "smbus2")}
    has_tools = shutil.which("i2cget") is not None
    with tempfile.TemporaryDirectory() as directory:
        for name, path, rows in PROFILES:
            profile = os.path.join(ROOT, path) if path else os.path.join(directory, "sample.toml")
            if not path:
                with open(os.path.join(ROOT, "docs/profiles.md")) as file:
                    text = file.read().split("## The sample profile")[1].split("```")[1]
                with open(profile, "w") as file:
                    file.write(text)
            groups = []
            if has_tools:
                groups.append((tools, rows, ()))
                if name == "sample":
                    groups.append((tools, dump_rows(reads_of_all(pmb, profile)), ()))
            for library, python in pythons.items():
                if python:
                    own = TRANSFER_ROWS[name] if library == "smbus2" else []
                    groups.append((calls, CALL_ROWS[name] + own, (library, python)))
            for run, rows, more in groups:
                requests = Requests(pmb, profile, rows)
                bench = Bench(program, profile, is_cuse, directory)
                try:
                    run(count, bench, requests, name, rows, *more)
                finally:
                    count.compare(name + ": ends, and removes what it made", bench.close(), True)
    for missing, has in [("i2c-tools", has_tools)] + list(pythons.items()):
        if not has:
            count.skipped += 1
            print("clients: {} is missing, so it was not tried".format(missing))
    print("clients: {} passed, {} failed, {} skipped".format(count.passed, count.failed, count.skipped))
    return 1 if count.failed else 0


if __name__ == "__main__":
    if len(sys.argv) not in (3, 4) or sys.argv[3:] not in ([], ["--cuse"]):
        sys.exit(__doc__)
    sys.exit(main(sys.argv[1], sys.argv[2], len(sys.argv) == 4))
