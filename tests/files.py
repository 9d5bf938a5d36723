#!/usr/bin/env python3
"""Tries the built program over files: the rows of tests/files/rows.txt, and what rows can't say.

    tests/files.py PROGRAM

Each row is run in a folder that has its files. Then come files that no row can have: one that is gone
between the look at it and its turn, one that grows, FIFOs, /dev/stdin, thousands of names, no
descriptor left, and a name that is not UTF-8. What a file may not be read by is not tried by root."""

import argparse
import os
import pty
import re
import resource
import signal
import subprocess
import sys
import tempfile
import threading
import time
from pathlib import Path

sys.dont_write_bytecode = True
ROOT = Path(__file__).resolve().parent.parent
sys.path.insert(0, str(ROOT / "tests"))

from rowfile import Reading, Row, stages_of, text_of  # noqa: E402

PACKET = b"S b0 A 21 A 00 A 18 A P\n"
SHOWN = b"write 58 21 00 18 # VOUT_COMMAND 12\n"
passed, failed, skipped = 0, 0, 0


def tell(name, holds, got=None):
    global passed, failed
    if holds:
        passed += 1
    else:
        failed += 1
        print("files: %s: got %s" % (name, repr(got)[:400]))


class ReadingFiles(Reading):
    """A file of rows with files while it is read."""

    def take(self, line):
        if line.startswith("+"):
            self.number += 1
            name, _, mode = line[1:].strip().partition(" ")
            self.row.setdefault("files", []).append((name, mode, []))
        elif line.startswith("<") and self.row and "files" in self.row:
            self.number += 1
            self.row["files"][-1][2].append(line[1:])
        else:
            super().take(line)

    def end_row(self):
        row, self.row = self.row, None
        if row is None:
            return
        found = Row(row["place"], row["name"], stages_of(row["$"]), b"".join(text_of(row["given"], {})),
                    text_of(row["out"], {}), text_of(row["err"], {}), row["status"],
                    environment=dict([row["&"].split("=", 1)]) if "&" in row else {"PMB_EXPLAIN": "0"})
        found.files = [(name, mode, b"".join(text_of(lines, {}))) for name, mode, lines in
                       row.get("files", [])]
        self.rows.append(found)


def rows_with_files(path):
    reading = ReadingFiles(path.name, {})
    for line in path.read_text(encoding="utf-8").split("\n")[:-1]:
        try:
            reading.take(line)
        except (ValueError, KeyError, IndexError, TypeError) as fault:
            raise SystemExit("%s:%d: %s" % (path, reading.number, fault))
    reading.end_row()
    return reading.rows


def run(program, words, folder, given=b"", **more):
    done = subprocess.run([program, *words], input=given, cwd=folder, stdout=subprocess.PIPE,
                          stderr=subprocess.PIPE, timeout=120, check=False, **more)
    return done.returncode, done.stdout, done.stderr


def try_row(program, row):
    global skipped
    if any(mode for _, mode, _ in row.files) and os.geteuid() == 0:
        skipped += 1
        return
    with tempfile.TemporaryDirectory() as folder:
        for name, mode, text in row.files:
            path = os.path.join(folder, name)
            if name.endswith("/"):
                os.mkdir(path)
                continue
            with open(path, "wb") as file:
                file.write(text)
            if mode:
                os.chmod(path, 0)
        got = run(program, row.stages[0], folder, row.given, env=dict(os.environ, **row.environment))
        tell("%s: %s" % (row.place, row.name),
             got[0] == row.status and row.is_out(got[1]) and row.is_err(got[2]), got)


def write(folder, name, text):
    with open(os.path.join(folder, name), "wb") as file:
        file.write(text)


def try_fifo(program, folder):
    """A FIFO is only looked at, so that what writes into it is read whole."""
    os.mkfifo(os.path.join(folder, "fifo"))

    def give():
        with open(os.path.join(folder, "fifo"), "wb") as file:
            file.write(PACKET)

    giver = threading.Thread(target=give)
    giver.start()
    got = run(program, ["show", "--sample", "fifo"], folder)
    giver.join()
    tell("a FIFO", got == (0, SHOWN, b""), got)


def try_substitution(program, folder):
    """Bash's `<(..)`, for the profile too."""
    write(folder, "board.toml", b'[[device]]\naddress = 0x10\npec = "off"\n')
    line = '"$0" show -p <(cat board.toml) <(echo S 20 A 03 A P)'
    try:
        done = subprocess.run(["bash", "-c", line, program], cwd=folder, capture_output=True, timeout=60)
    except FileNotFoundError:
        return
    got = done.returncode, done.stdout, done.stderr
    tell("bash's <(..)", got == (0, b"write 10 03 # CLEAR_FAULTS\n", b""), got)


def try_missing_later(program, folder):
    """A file that is gone when its turn comes, while the one before it, a FIFO, is read."""
    write(folder, "gone.txt", PACKET)
    os.mkfifo(os.path.join(folder, "first"))
    process = subprocess.Popen([program, "show", "--sample", "--joined", "first", "gone.txt"], cwd=folder,
                               stdout=subprocess.PIPE, stderr=subprocess.PIPE)
    with open(os.path.join(folder, "first"), "wb") as file:
        # The program has opened the FIFO, and so has looked at both.
        os.unlink(os.path.join(folder, "gone.txt"))
        file.write(PACKET)
    out, err = process.communicate(timeout=60)
    got = process.returncode, out, err
    tell("gone when its turn comes", got == (3, SHOWN, b"pmb: gone.txt: read failed: no such file\n"), got)


def try_directory_later(program, folder):
    """A file that has become a directory."""
    write(folder, "other", PACKET)
    os.mkfifo(os.path.join(folder, "before"))
    process = subprocess.Popen([program, "show", "--sample", "--joined", "before", "other"], cwd=folder,
                               stdout=subprocess.PIPE, stderr=subprocess.PIPE)
    with open(os.path.join(folder, "before"), "wb") as file:
        os.unlink(os.path.join(folder, "other"))
        os.mkdir(os.path.join(folder, "other"))
        file.write(PACKET)
    out, err = process.communicate(timeout=60)
    got = process.returncode, out, err
    tell("a directory when its turn comes",
         got == (3, SHOWN, b"pmb: other: read failed: is a directory\n"), got)


def try_growing(program, folder):
    """What is appended while the file is read is read too: the reader ends where the file does then."""
    write(folder, "growing", PACKET)
    os.mkfifo(os.path.join(folder, "slow"))
    process = subprocess.Popen([program, "show", "--sample", "--joined", "slow", "growing"], cwd=folder,
                               stdout=subprocess.PIPE, stderr=subprocess.PIPE)
    with open(os.path.join(folder, "slow"), "wb") as file:
        file.write(PACKET)
        with open(os.path.join(folder, "growing"), "ab") as growing:
            growing.write(PACKET)
    out, err = process.communicate(timeout=60)
    got = process.returncode, out, err
    tell("a file that grows", got == (0, SHOWN * 3, b""), got)


def try_standard_input(program, folder):
    """/dev/stdin as a pipe and as a file."""
    got = run(program, ["show", "--sample", "/dev/stdin"], folder, PACKET)
    tell("/dev/stdin, a pipe", got == (0, SHOWN, b""), got)
    write(folder, "input", PACKET)
    with open(os.path.join(folder, "input"), "rb") as file:
        done = subprocess.run([program, "show", "--sample", "/dev/stdin"], stdin=file, capture_output=True,
                              timeout=60, check=False)
    got = done.returncode, done.stdout, done.stderr
    tell("/dev/stdin, a file", got == (0, SHOWN, b""), got)


def try_many(program, folder):
    """3,000 files, of which one is open at a time."""
    names = ["n%04d" % number for number in range(3000)]
    for name in names:
        write(folder, name, PACKET)

    def few():
        resource.setrlimit(resource.RLIMIT_NOFILE, (16, 16))

    got = run(program, ["check", "--sample", "--joined", *names], folder, preexec_fn=few)
    tell("3,000 files", got == (0, b"packets 3000 refusals 0\n", b""), got)


def try_no_descriptor(program, folder):
    """A file can't be opened when its turn comes: by then the process may open no more."""
    path = os.path.join(folder, "fifo")
    os.mkfifo(path)
    write(folder, "a.txt", PACKET)
    words = [program, "show", "--sample", "--joined", "fifo", "a.txt"]
    with subprocess.Popen(words, cwd=folder, stdin=subprocess.DEVNULL, stdout=subprocess.PIPE,
                          stderr=subprocess.PIPE) as process:
        with open(path, "wb") as fifo:
            resource.prlimit(process.pid, resource.RLIMIT_NOFILE, (3, 3))
            fifo.write(PACKET)
        out, err = process.communicate(timeout=60)
    os.unlink(path)
    got = process.returncode, out, err
    wanted = 3, SHOWN, b"pmb: a.txt: read failed: too many open files\n"
    tell("no descriptor left", got == wanted, got)


def try_no_utf8(program, folder):
    """A name that is not UTF-8 is refused as any word is."""
    write(os.fsencode(folder), b"\xff", PACKET)
    got = run(program, [b"show", b"--sample", b"\xff"], folder)
    tell("a name that is not UTF-8",
         got == (2, b"", b"error: the words of the command are not UTF-8\n"), got)


def tell_closed(name, program, folder, *words):
    """Nobody reads the output: no text, and status 3."""
    process = subprocess.Popen([program, *words], cwd=folder, stdout=subprocess.PIPE, stderr=subprocess.PIPE)
    process.stdout.read(10)
    process.stdout.close()
    err = process.stderr.read()
    got = process.wait(timeout=60), err
    process.stderr.close()
    tell(name, got == (3, b""), got)


def try_closed(program, folder):
    write(folder, "long", PACKET * 20000)
    tell_closed("nobody reads the output", program, folder, "show", "--sample", "long")
    tell_closed("nobody reads that of two files", program, folder, "log", "--sample", "long", "long")


def try_live(program, folder):
    """Each packet appears while the FIFO is still open."""
    os.mkfifo(os.path.join(folder, "live"))
    process = subprocess.Popen([program, "show", "--sample", "live"], cwd=folder, stdout=subprocess.PIPE)
    with open(os.path.join(folder, "live"), "wb", buffering=0) as file:
        file.write(PACKET)
        began = time.monotonic()
        line = process.stdout.readline()
        tell("live", line == SHOWN and time.monotonic() - began < 10, line)
    process.stdout.close()
    process.wait(timeout=60)


# ---- colour (docs/color.md)

NACK = b"S b0 A 03 A 47 N P\n"
REFUSED = b"            58     CLEAR_FAULTS               refused at its error code 47: 46 is right\n"
YELLOW = REFUSED.replace(b"refused", b"\x1b[33mrefused").replace(b"right", b"right\x1b[0m")


def plain(text):
    """A text without the sequences of colours."""
    return re.sub(rb"\x1b\[(?:31|33|0)m", b"", text)


def on_terminal(program, words, folder, **environment):
    """What a run writes to a terminal, with the LFs that it wrote."""
    ours, its = pty.openpty()
    kept = {name: value for name, value in os.environ.items() if name not in ("NO_COLOR", "TERM")}
    process = subprocess.Popen([program, *words], cwd=folder, stdin=subprocess.DEVNULL, stdout=its,
                               stderr=subprocess.PIPE, env=dict(kept, **environment))
    os.close(its)
    text = b""
    while True:
        try:
            piece = os.read(ours, 4096)
        except OSError:
            break
        if not piece:
            break
        text += piece
    os.close(ours)
    process.stderr.close()
    process.wait(timeout=60)
    return text.replace(b"\r\n", b"\n")


def try_terminal(program, folder):
    """Colour on a terminal, unless NO_COLOR, TERM or the flag say otherwise."""
    write(folder, "a.txt", NACK)
    words = ["log", "--sample", "a.txt"]
    never, auto, always = [[*words, "--color", word] for word in ("never", "auto", "always")]
    for name, given, environment, wanted in [
            ("by itself", words, {"TERM": "xterm"}, YELLOW), ("by auto", auto, {"TERM": "xterm"}, YELLOW),
            ("without TERM", words, {}, YELLOW), ("NO_COLOR that is empty", words, {"NO_COLOR": ""}, YELLOW),
            ("NO_COLOR", words, {"NO_COLOR": "1", "TERM": "xterm"}, REFUSED),
            ("a NO_COLOR that is not UTF-8", words, {"NO_COLOR": os.fsdecode(b"\xff")}, REFUSED),
            ("TERM is dumb", words, {"TERM": "dumb"}, REFUSED), ("never", never, {"TERM": "xterm"}, REFUSED),
            ("always and NO_COLOR", always, {"NO_COLOR": "1"}, YELLOW),
            ("always and TERM is dumb", always, {"TERM": "dumb"}, YELLOW)]:
        got = on_terminal(program, given, folder, **environment)
        tell("colour on a terminal: %s" % name, got == wanted, got)
    for name, given in [("show", ["show", "--sample", "a.txt"]), ("help", ["log", "--help"]),
                        ("objects", ["stats", "--json", "--sample", "a.txt"])]:
        got = on_terminal(program, given, folder, TERM="xterm")
        tell("no colour on a terminal: %s" % name, got and b"\x1b" not in got, got)


def try_same_text(program, folder):
    """Without its sequences each output is that without colour; and so are the status and standard error."""
    captures = sorted((ROOT / "examples/captures").glob("*.txt"))
    write(folder, "words", b"S b0 A \x1b[31m A P\n" + NACK + b"S b0 A 79 A S b1 A ff A ff N P\n" * 3000)
    for path in [*captures, Path(folder) / "words"]:
        profile = path.with_suffix(".toml")
        under = ["-p", str(profile)] if profile.exists() else ["--sample"]
        for task in (["log"], ["log", "--late", "--keep-going"], ["stats"], ["stats", "--keep-going"]):
            words = [*task, *under, str(path)]
            colour = run(program, [*words, "--color", "always"], folder)
            none = run(program, [*words, "--color", "never"], folder)
            tell("the text of %s with colour" % " ".join(words),
                 (colour[0], plain(colour[1]), colour[2]) == none and b"\x1b" not in none[1], colour)


def try_color_with_parts(program, folder):
    """A bad word comes before what the parts have."""
    for words in (["log", "--part", "none@10", "--color", "yes"], ["log", "--color", "yes", "--part", "none@10"]):
        got = run(program, words, folder)
        tell("a bad colour and a bad part", got == (2, b"", b"pmb: log: BadColor\n"), got)


def try_live_color(program, folder):
    """With colour too each line appears while the FIFO is still open."""
    os.mkfifo(os.path.join(folder, "live"))
    process = subprocess.Popen([program, "log", "--sample", "--color", "always", "live"], cwd=folder,
                               stdout=subprocess.PIPE)
    with open(os.path.join(folder, "live"), "wb", buffering=0) as file:
        file.write(NACK)
        began = time.monotonic()
        line = process.stdout.readline()
        tell("live, with colour", line == YELLOW and time.monotonic() - began < 10, line)
    process.stdout.close()
    process.wait(timeout=60)


def try_closed_color(program, folder):
    write(folder, "long", NACK * 20000)
    tell_closed("nobody reads the coloured output", program, folder, "log", "--sample", "--color", "always", "long")


# ---- the line of progress (docs/program.md)

PROGRESS = re.compile(rb"\rpmb: (\d+%|[\d.]+ [kMG]B)  [\d.]+ [kM]B/s(  packets \d+)? *")
LONG = 3.0


def screen(text):
    """What is left on a terminal, of a text with CR and LF."""
    lines, column = [[]], 0
    for byte in text:
        if byte == 13:
            column = 0
        elif byte == 10:
            lines.append([])
            column = 0
        else:
            row = lines[-1]
            row.extend([32] * (column + 1 - len(row)))
            row[column] = byte
            column += 1
    return b"\n".join(bytes(row).rstrip() for row in lines)


def watched(program, words, folder, give, out="file", **environment):
    """A run whose standard error is a terminal: the status, what standard output got, and what the terminal was
    sent. `out` is `file`, `pipe`, or the same `terminal`; `give` is called with the process, while it runs."""
    ours, its = pty.openpty()
    kept = {name: value for name, value in os.environ.items() if name not in ("TERM", "PMB_EXPLAIN")}
    with open(os.path.join(folder, "out"), "w+b") as file:
        stdout = {"file": file, "pipe": subprocess.PIPE, "terminal": its}[out]
        process = subprocess.Popen([program, *words], cwd=folder, stdin=subprocess.DEVNULL, stdout=stdout,
                                   stderr=its, env=dict(kept, PMB_EXPLAIN="0", **environment),
                                   start_new_session=True)
        os.close(its)
        giver = threading.Thread(target=give, args=(process,))
        giver.start()
        text = b""
        while True:
            try:
                piece = os.read(ours, 4096)
            except OSError:
                break
            if not piece:
                break
            text += piece
        os.close(ours)
        giver.join()
        written = process.stdout.read() if out == "pipe" else b""
        status = process.wait(timeout=60)
        if out == "pipe":
            process.stdout.close()
        file.seek(0)
        return status, written + file.read(), text.replace(b"\r\n", b"\n")


def slowly(folder, *pieces, pause=LONG, first=None):
    """Writes pieces into the FIFO `slow`, with a pause before each but the first. `first` is called when it is open."""
    os.mkfifo(os.path.join(folder, "slow"))

    def give(_process):
        with open(os.path.join(folder, "slow"), "wb", buffering=0) as file:
            if first:
                first()
            for number, piece in enumerate(pieces):
                time.sleep(pause if number else 0)
                file.write(piece)

    return give


def shown_late(program, folder):
    """The line appears when reading has taken two seconds, and is wiped."""
    got = watched(program, ["show", "--sample", "slow"], folder, slowly(folder, PACKET, PACKET))
    line = PROGRESS.search(got[2])
    tell("progress", got[:2] == (0, SHOWN * 2) and line and line[2] == b"  packets 2", got)
    tell("progress: wiped", screen(got[2]) == b"", got)


def shown_in_share(program, folder):
    """Of a file the share is told. The program is stopped while it reads it, if it doesn't end too soon for that."""
    write(folder, "long", PACKET * 500000)
    path = os.path.realpath(os.path.join(folder, "long"))

    def stop(process):
        found = "/proc/%d/fd" % process.pid
        until = time.monotonic() + 30
        while time.monotonic() < until and process.poll() is None:
            try:
                for name in os.listdir(found):
                    if os.readlink(os.path.join(found, name)) == path:
                        place = Path("/proc/%d/fdinfo/%s" % (process.pid, name)).read_text().split()[1]
                        if int(place) > 0:
                            process.send_signal(signal.SIGSTOP)
                            time.sleep(LONG)
                            process.send_signal(signal.SIGCONT)
                            return
            except OSError:
                pass

    for _ in range(3):
        got = watched(program, ["log", "--sample", "long"], folder, stop)
        line = PROGRESS.search(got[2])
        if line:
            break
    tell("progress of a file", got[0] == 0 and line and line[1].endswith(b"%") and line[2], got[2])
    tell("progress of a file: wiped", screen(got[2]) == b"", got[2])
    tell("progress of a file: the output", got[1] == run(program, ["log", "--sample", "long"], folder)[1])


def shown_before_sums(program, folder):
    """`stats` on a terminal: the line is wiped before the table."""
    write(folder, "both", PACKET * 2)
    table = run(program, ["stats", "--sample", "both"], folder)[1]
    words = ["stats", "--sample", "--color", "never", "slow"]
    got = watched(program, words, folder, slowly(folder, PACKET, PACKET), out="terminal")
    tell("progress before sums", got[0] == 0 and PROGRESS.search(got[2]) and screen(got[2]) == table, (got, table))


def shown_before_pipe(program, folder):
    """.. and beside a pipe it is there until the first output."""
    got = watched(program, ["check", "--sample", "slow"], folder, slowly(folder, PACKET, PACKET), out="pipe")
    tell("progress beside a pipe", got[0] == 0 and PROGRESS.search(got[2]) and screen(got[2]) == b"", got)


def hidden_by_output(program, folder):
    """Beside output to a pipe, or to the terminal, there is none."""
    got = watched(program, ["show", "--sample", "slow"], folder, slowly(folder, PACKET, PACKET), out="pipe")
    tell("no progress after output to a pipe", got == (0, SHOWN * 2, b""), got)


def hidden_on_terminal(program, folder):
    got = watched(program, ["show", "--sample", "slow"], folder, slowly(folder, PACKET, PACKET), out="terminal")
    tell("no progress after output to a terminal", got == (0, b"", SHOWN * 2), got)


def hidden_when_soon(program, folder):
    """Nothing below two seconds."""
    got = watched(program, ["show", "--sample", "slow"], folder, slowly(folder, PACKET, PACKET, pause=0.2))
    tell("no progress so soon", got == (0, SHOWN * 2, b""), got)


def hidden_when_dumb(program, folder):
    give = slowly(folder, PACKET, PACKET)
    got = watched(program, ["show", "--sample", "slow"], folder, give, TERM="dumb")
    tell("no progress where TERM is dumb", got == (0, SHOWN * 2, b""), got)


def hidden_in_background(program, folder):
    """A job in the background writes none over what is typed."""
    ours, its = pty.openpty()
    give = slowly(folder, PACKET, PACKET)
    line = 'set -m; "$0" show --sample slow > out & wait $!'
    process = subprocess.Popen(["setsid", "-c", "sh", "-c", line, program], cwd=folder, stdin=its, stdout=its,
                               stderr=its)
    os.close(its)
    give(process)
    status, text = process.wait(timeout=60), b""
    try:
        text = os.read(ours, 4096)
    except OSError:
        pass
    os.close(ours)
    out = Path(folder, "out").read_bytes()
    tell("no progress in the background", out == SHOWN * 2 and not PROGRESS.search(text), (status, out, text))


def whole_faults(program, folder):
    """A fault after the line is whole, and alone."""
    write(folder, "gone", PACKET)
    give = slowly(folder, PACKET, PACKET, first=lambda: os.unlink(os.path.join(folder, "gone")))
    got = watched(program, ["show", "--sample", "--joined", "slow", "gone"], folder, give)
    tell("a fault after progress", got[:2] == (3, SHOWN * 2) and PROGRESS.search(got[2])
         and screen(got[2]) == b"pmb: gone: read failed: no such file\n", got)


def whole_recordings(program, folder):
    """A recording has no packets yet."""
    path = ROOT / "examples/analysers/kernel.txt"
    text = path.read_bytes()
    give = slowly(folder, text[:1000], text[1000:])
    got = watched(program, ["import", "kernel", "slow"], folder, give)
    usual = run(program, ["import", "kernel", str(path)], folder)
    line = PROGRESS.search(got[2])
    tell("progress of a recording", got[:2] == usual[:2] and line and not line[2]
         and screen(got[2]) == usual[2], got)


def try_progress(program, folder):
    """All of them side by side, since each takes some seconds."""
    attempts = (shown_late, shown_in_share, shown_before_sums, shown_before_pipe, hidden_by_output,
                hidden_on_terminal, hidden_when_soon, hidden_when_dumb,
                hidden_in_background, whole_faults, whole_recordings)
    threads = []
    for attempt in attempts:
        inside = os.path.join(folder, attempt.__name__)
        os.mkdir(inside)
        threads.append(threading.Thread(target=attempt, args=(program, inside)))
        threads[-1].start()
    for thread in threads:
        thread.join()


def main():
    parser = argparse.ArgumentParser(description="Tries the program over files.")
    parser.add_argument("program")
    program = os.path.abspath(parser.parse_args().program)
    for row in rows_with_files(ROOT / "tests/files/rows.txt"):
        try_row(program, row)
    for attempt in (try_fifo, try_substitution, try_missing_later, try_directory_later, try_growing,
                    try_standard_input, try_many, try_no_descriptor, try_no_utf8, try_closed, try_live,
                    try_terminal, try_same_text, try_color_with_parts, try_live_color, try_closed_color,
                    try_progress):
        with tempfile.TemporaryDirectory() as folder:
            attempt(program, folder)
    print("files: %d passed, %d failed%s" % (passed, failed, ", %d skipped" % skipped if skipped else ""))
    return 1 if failed or not passed else 0


if __name__ == "__main__":
    sys.exit(main())
