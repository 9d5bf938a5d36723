"""Standard streams in odd places: one file for two of them, folders, full devices, closed ends,
terminals."""

import os
import pty
import select
import termios
import time

from inputs import (BEHIND_A_PROFILE, CONVERSIONS, DESCRIPTIONS, FRONT, HELP, IMPORTS, MEGABYTE, SCANS, SMALL_BUS,
                    UNDER_SAMPLE)
from profiles import LIMIT, all_commands
from program import contents, name_of, said
from streams import READ_FAILED, WRITE_FAILED, answers_to_rows

# What standard error has where standard input is a terminal.
AT_TERMINAL = b"pmb: reading from the terminal until Ctrl-D; 'pmb COMMAND FILE' reads a file\n"
# A terminal that gives no answer within so many seconds counts as silent.
PATIENCE = 20


def runs():
    """Words with an input of some rows, or of a profile."""
    return [(words, b"".join(rows)) for words, rows in UNDER_SAMPLE + CONVERSIONS + IMPORTS + SCANS] + [
        (words, FRONT + b"".join(rows)) for words, rows in BEHIND_A_PROFILE] + [
        (["profile"], SMALL_BUS)]


def on_new_file(program, name):
    return os.open(os.path.join(program.folder, name), os.O_RDWR | os.O_CREAT | os.O_TRUNC)


def started_on(program, words, text, out, err, **faults):
    """Starts a run on an input, with those outputs."""
    source = os.open(program.file_of(text), os.O_RDONLY)
    process = program.start(words, [source, out, err], **faults)
    os.close(source)
    return process


def both_outputs_on_one_file(program, report):
    """`>file 2>&1`: the lines that were read, and after them the fault."""
    for words, text in runs():
        faults = {"fail_read": len(text), "move_at_most": 1}
        apart = program.run(words, text, **faults)
        file = on_new_file(program, "both")
        program.ended(started_on(program, words, text, file, file, **faults))
        report.same(f"{name_of(words, faults)} >file 2>&1", apart.out + READ_FAILED, contents(file))
        os.close(file)


def input_that_cannot_be_read(program, report):
    """A folder as standard input, and closed standard input."""
    folder = os.open(program.folder, os.O_RDONLY)
    for words, _ in runs():
        for name, source in (("a folder", folder), ("closed", None)):
            answer = program.run_on(words, source)
            report.same(f"{name_of(words)}, standard input {name}", (3, b"", READ_FAILED),
                        (answer.status, answer.out, answer.err))
    os.close(folder)


def output_that_cannot_be_written(program, report):
    """/dev/full as standard output, and closed standard output."""
    full = os.open("/dev/full", os.O_WRONLY)
    for words, text in runs() + DESCRIPTIONS + [(words, b"") for words in HELP]:
        for name, out in (("/dev/full", full), ("closed", None)):
            err = on_new_file(program, "told")
            status, _, _ = program.ended(started_on(program, words, text, out, err))
            report.same(f"{name_of(words)}, standard output {name}", (3, WRITE_FAILED),
                        (status, said(words, status, contents(err))))
            os.close(err)
    os.close(full)


def closed_pipe(program, report):
    """`| head -n 1`: the pipe is closed once it has given something, and is far too small for the
    rest. No signal ends the program, and no line says what whoever closed it knows. What `stats` and `scan`
    write is too little for that."""
    inputs = [(["profile"], all_commands(LIMIT).encode())]
    for words, rows in UNDER_SAMPLE + CONVERSIONS + IMPORTS + SCANS:
        if words[0] in ("stats", "scan"):
            continue
        row = rows[3] if words[0] == "check" else rows[0]
        inputs.append((words, row * (2 * MEGABYTE // len(row))))
    for words, text in inputs:
        receiver, out = os.pipe()
        err = on_new_file(program, "told")
        process = started_on(program, words, text, out, err)
        os.close(out)
        begun = os.read(receiver, 10)
        os.close(receiver)
        status, _, _ = program.ended(process)
        report.holds(begun != b"", name_of(words) + " | head", "some output", begun)
        report.same(name_of(words) + " | head", (3, b""), (status, said(words, status, contents(err))))
        os.close(err)


def input_that_is_the_output(program, report):
    """`<>file >&0`: what is written stands where reading goes on, so there it ends."""
    for words, text in runs():
        file = on_new_file(program, "same")
        os.write(file, text)
        os.lseek(file, 0, os.SEEK_SET)
        err = on_new_file(program, "told")
        ordinary = program.run(words, text)
        status, _, _ = program.ended(program.start(words, [file, file, err]))
        report.same(f"{name_of(words)} <>file >&0",
                    (ordinary.status, text + ordinary.out, b""), (status, contents(file), said(words, status, contents(err))))
        os.close(file)
        os.close(err)


def shown_by(terminal, length):
    """The next bytes that a terminal shows, so many unless it falls silent."""
    shown = b""
    end = time.monotonic() + PATIENCE
    while len(shown) < length and time.monotonic() < end:
        if select.select([terminal], [], [], 0.5)[0]:
            shown += os.read(terminal, length - len(shown))
    return shown


def silent_terminal():
    """Both ends of a terminal that shows what is written to it as it is, and not what is typed."""
    user, line = pty.openpty()
    settings = termios.tcgetattr(line)
    settings[1] &= ~termios.OPOST
    settings[3] &= ~termios.ECHO
    termios.tcsetattr(line, termios.TCSANOW, settings)
    return user, line


def terminal(program, report):
    """A terminal as all three streams: each line that is typed is answered, and ^D is the end."""
    for words, rows in UNDER_SAMPLE + CONVERSIONS + IMPORTS + SCANS:
        # A terminal makes a LF of a CR.
        rows = [row for row in rows if b"\r" not in row]
        outs = answers_to_rows(program, words, b"", rows)
        ordinary = program.run(words, b"".join(rows))
        user, line = silent_terminal()
        process = program.start(words, [line, line, line])
        report.same(f"{name_of(words)} on a terminal, at first", AT_TERMINAL, shown_by(user, len(AT_TERMINAL)))
        typed = [(row, out[len(before):]) for row, before, out in zip(rows, outs, outs[1:])]
        for row, wanted in [*typed, (b"\x04", ordinary.out[len(outs[-1]):])]:
            os.write(user, row)
            report.same(f"{name_of(words)} on a terminal, {row[:40]!r}", wanted,
                        shown_by(user, len(wanted)))
        status, _, _ = program.ended(process)
        report.same(f"{name_of(words)} on a terminal, status", ordinary.status, status)
        os.close(user)
        os.close(line)


PLACES = [both_outputs_on_one_file, input_that_cannot_be_read, output_that_cannot_be_written,
          closed_pipe, input_that_is_the_output, terminal]


def odd_places(program, report):
    before = report.passed + report.failed
    for place in PLACES:
        place(program, report)
    tried = report.passed + report.failed - before
    return f"odd places: {len(PLACES)} sorts, {tried} answers"
