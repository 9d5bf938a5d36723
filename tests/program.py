"""Runs of the program: in a process of its own, or by again.c again and again in one, with calls
that fail."""

import collections
import ctypes
import os
import shutil
import struct
import subprocess
from pathlib import Path

Ran = collections.namedtuple("Ran", "status out err reads writes tells")
ASKED, ANSWERED = struct.Struct("6Q"), struct.Struct("6Q")
SAME = 2**64 - 1
MOST = 24  # programs that wait at once
UNEXPLAINED = {"PMB_EXPLAIN": "0"}  # whatever standard error is


def compiled(folder, who):
    """The shim again.c, or None where there is no C compiler, or another C library than glibc."""
    compiler = shutil.which("cc") or shutil.which("gcc") or shutil.which("clang")
    if compiler is None:
        print("%s: cc is missing, so the ways of each row were not tried" % who)
        return None
    shim = os.path.join(folder, "again.so")
    source = Path(__file__).resolve().parent / "again.c"
    subprocess.run([compiler, "-O2", "-shared", "-fPIC", "-o", shim, str(source)], check=True)
    try:
        ctypes.CDLL(shim)
    except OSError as fault:
        print("%s: again.c doesn't load here (%s), so the ways of each row were not tried" % (who, fault))
        return None
    return shim


def run_alone(program, words, given, environment=None):
    """A run in a process of its own; a signal that ends it is a negative status."""
    env = dict(os.environ, **(environment or UNEXPLAINED))
    done = subprocess.run([program, *words], input=given, stdout=subprocess.PIPE, env=env,
                          stderr=subprocess.PIPE, close_fds=False, timeout=120, check=False)
    return Ran(done.returncode, done.stdout, done.stderr, None, None, None)


class Ended(Exception):
    """The program ended where its `main` should have returned."""


class Again:
    """A program with some words that is run again and again."""

    def __init__(self, program, shim, words):
        asked, self.to = os.pipe()
        self.back, answered = os.pipe()
        environment = dict(os.environ, **UNEXPLAINED, LD_PRELOAD=shim, AGAIN_FROM=str(asked),
                           AGAIN_TO=str(answered))
        self.process = subprocess.Popen([program, *words], stdin=subprocess.DEVNULL, env=environment,
                                        pass_fds=(asked, answered))
        os.close(asked)
        os.close(answered)
        self.given = None

    def end(self):
        os.close(self.to)
        os.close(self.back)
        self.process.wait()

    def get(self, size):
        parts = []
        while size > 0:
            part = os.read(self.back, size)
            if not part:
                raise Ended
            parts.append(part)
            size -= len(part)
        return b"".join(parts)

    def run(self, given, cut_at=0, read_at_most=0, fail_read=0, fail_write=0, fail_tell=0):
        """A run in which bytes come in some way, and the call of a number fails."""
        is_same = given is self.given
        asked = ASKED.pack(cut_at, read_at_most, fail_read, fail_write, fail_tell,
                           SAME if is_same else len(given))
        left = memoryview(asked if is_same else asked + given)
        try:
            while left:
                left = left[os.write(self.to, left):]
        except BrokenPipeError:
            raise Ended from None
        self.given = given
        status, reads, writes, tells, out, err = ANSWERED.unpack(self.get(ANSWERED.size))
        text = self.get(out + err)
        return Ran(status, text[:out], text[out:], reads, writes, tells)


class Programs:
    """The programs that wait, each by its words."""

    def __init__(self, program, shim):
        self.program, self.shim, self.waiting = program, shim, collections.OrderedDict()

    def of(self, words):
        words = tuple(words)
        if words not in self.waiting:
            if len(self.waiting) == MOST:
                self.waiting.popitem(last=False)[1].end()
            self.waiting[words] = Again(self.program, self.shim, words)
        return self.waiting[words]

    def drop(self, words):
        self.waiting.pop(tuple(words)).end()

    def end(self):
        for program in self.waiting.values():
            program.end()
        self.waiting = collections.OrderedDict()
