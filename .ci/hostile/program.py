"""The program, run under faults, and the report of what it answered."""

import collections
import os
import signal

# Status (of a signal: its number, negative), both outputs, the shim's counts, and seconds of
# processor time.
Answer = collections.namedtuple("Answer", "status out err counts seconds")
Counts = collections.namedtuple("Counts", "allocations reads writes bytes_read peak_kilobytes")
NO_COUNTS = Counts(0, 0, 0, 0, 0)
# Far above what any run takes: it ends a program that hangs.
END_AFTER = 100


class Program:
    """Runs the program with its streams on files, and with the shim loaded."""

    def __init__(self, path, shim, folder, share=1):
        self.share = share
        self.path = os.path.abspath(path)
        self.folder = folder
        self.shim = shim
        self.files = {}
        self.out, self.err, self.counts = (self.scratch(it) for it in ("out", "err", "counts"))

    def some(self, cases):
        """The share of some cases that is tried."""
        return list(cases)[:: self.share]

    def scratch(self, name):
        return os.open(os.path.join(self.folder, name), os.O_RDWR | os.O_CREAT | os.O_TRUNC)

    def file_of(self, text):
        """The path of a file with these bytes, which is written once."""
        if text not in self.files:
            self.files[text] = os.path.join(self.folder, f"input{len(self.files)}")
            with open(self.files[text], "wb") as file:
                file.write(text)
        return self.files[text]

    def environment(self, faults):
        told = {name.upper(): str(value) for name, value in faults.items()}
        return {"LD_PRELOAD": self.shim, "COUNTS_TO": "3", "END_AFTER": str(END_AFTER), "PMB_EXPLAIN": "0",
                "NO_COLOR": "1", **told}

    def start(self, words, streams, **faults):
        """Starts the program with these descriptors as standard input, output and error, None for
        a closed one, and the counts on 3; returns the process."""
        actions = [
            (os.POSIX_SPAWN_CLOSE, at) if file is None else (os.POSIX_SPAWN_DUP2, file, at)
            for at, file in enumerate([*streams, self.counts])
        ]
        os.ftruncate(self.counts, 0)
        os.lseek(self.counts, 0, os.SEEK_SET)
        # Python ignores SIGPIPE, and a child would inherit that.
        return os.posix_spawn(self.path, [self.path, *words], self.environment(faults),
                              file_actions=actions, setsigdef=[signal.SIGPIPE])

    def ended(self, process):
        """Waits for a process, and returns its status, counts and seconds."""
        _, status, used = os.wait4(process, 0)
        status = -os.WTERMSIG(status) if os.WIFSIGNALED(status) else os.WEXITSTATUS(status)
        told = os.pread(self.counts, 200, 0).split()
        counts = Counts(*map(int, told)) if len(told) == 5 else NO_COUNTS
        return status, counts, used.ru_utime + used.ru_stime

    def run(self, words, text=b"", **faults):
        """Runs the program on an input, with its outputs on files of their own."""
        source = os.open(self.file_of(text), os.O_RDONLY)
        answer = self.run_on(words, source, **faults)
        os.close(source)
        return answer

    def run_once(self, words, text, **faults):
        """The same, on an input of which no file is kept."""
        source = self.scratch("once")
        os.write(source, text)
        os.lseek(source, 0, os.SEEK_SET)
        answer = self.run_on(words, source, **faults)
        os.close(source)
        return answer

    def run_on(self, words, source, **faults):
        """The same on an open descriptor, or None for closed standard input."""
        for file in (self.out, self.err):
            os.ftruncate(file, 0)
            os.lseek(file, 0, os.SEEK_SET)
        status, counts, seconds = self.ended(
            self.start(words, [source, self.out, self.err], **faults))
        return Answer(status, contents(self.out), said(words, status, contents(self.err)), counts, seconds)


def said(words, status, text):
    """What was said on standard error, without the line that ends an `import` with status 1."""
    lines = text.splitlines(True)
    if words[:1] == ["import"] and status == 1 and lines and lines[-1].startswith(b"pmb: import: "):
        return b"".join(lines[:-1])
    return text


def contents(file):
    return os.pread(file, os.fstat(file).st_size, 0)


def short(value, most=160):
    """A value as text that fits on a line."""
    text = repr(value)
    return text if len(text) <= most else f"{text[:most]}.. ({len(text)} characters)"


class Report:
    """Counts what held, and prints a line for each thing that did not."""

    def __init__(self):
        self.passed = self.failed = self.skipped = 0

    def holds(self, is_so, run, wanted, came):
        """Notes one thing that was wanted of a run."""
        if is_so:
            self.passed += 1
        else:
            self.failed += 1
            print(f"FAILED: {run}: wanted {wanted}, came {short(came)}", flush=True)
        return is_so

    def same(self, run, wanted, came):
        return self.holds(wanted == came, run, short(wanted), came)


def tells_fault(words, line, answer):
    """Whether a faulty profile was refused by this line. `profile` may explain it in more lines, each
    after two spaces."""
    first, *others = answer.err.splitlines(True) or [b""]
    may_explain = words[:1] == ["profile"] and all(it.startswith(b"  ") for it in others)
    return (answer.status, answer.out, first) == (2, b"", line) and (not others or may_explain)


def told(answer):
    """What a user sees of an answer."""
    return answer.status, answer.out, answer.err


def name_of(words, faults=()):
    """A run as a line names it."""
    given = "".join(f" {name.upper()}={value}" for name, value in dict(faults).items())
    return f"pmb {' '.join(words)}".strip() + given
