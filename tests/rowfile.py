"""The rows of tests/rows, read from their texts.

    # a comment
    @ NAME           begins a frame, which rows are put in
    : KEY = VALUE    what rows under the frame say where they have \\(KEY)
    | TEXT           a line of the frame; \\(input) in it is the row's input, \\(name) its name
    == TITLE         begins a section
    = NAME           begins a row
    $ WORD..         the words after `pmb`; `WORDS | WORDS` gives one run's output to the next run
    & NAME=VALUE     a variable of the environment; such a row is run whole alone
    % NAME, NAME     the frames that a row is put in, one after the other
    ~ CALLS          which call fails: `fails after 5 to 9 reads`, `.. 0 writes`, `.. 0 tells` (of
                     standard error); bytes come one a read then, or `one by one from N` on; or
                     `twice`: each row also comes twice in one run, whose line numbers go on
    < TEXT           a line of standard input
    > TEXT           a line of standard output; `>...` stands for any bytes
    ! TEXT           a line of standard error; `!...` stands for any bytes
    ? N              the exit status, where it isn't 0

`$`, `&`, `%` and `~` of a section hold for its rows, unless a row has its own. In a text \\r, \\t, \\n,
\\\\ and \\xHH are bytes, \\{N*TEXT} is a text so many times, and a \\ at a line's end says that no LF
ends the line. \\(KEY+N) is the number of \\(KEY) and N more, and \\(standard_commands) is how many
rows the table of standard commands in docs/profiles.md has. In `$` a word without characters is ''.
"""

import re

ESCAPE = re.compile(
    r"\\(?:([rtn\\])|x([0-9a-f]{2})|\{(\d+)\*((?:[^}\\]|\\.)*)\}|\((\w+)(?:\+(\d+))?\))", re.S)
BYTES = {"r": b"\r", "t": b"\t", "n": b"\n", "\\": b"\\"}
CALLS = re.compile(r"(\d+)(?: to (\d+))? (reads|writes|tells)|one by one from (\d+)")


class Calls:
    """Which calls go through before one fails: for each kind a first and a last number, or None; and
    from which byte on the bytes come one a read."""

    def __init__(self, text):
        self.reads = self.writes = self.tells = None
        self.one_by_one_from = 0
        rest = text
        if rest.startswith("fails after "):
            rest = rest[len("fails after "):]
        for part in rest.split(", "):
            match = CALLS.fullmatch(part)
            if match is None:
                raise ValueError("calls: " + text)
            if match.group(4):
                self.one_by_one_from = int(match.group(4))
            else:
                first = int(match.group(1))
                setattr(self, match.group(3), (first, int(match.group(2) or first)))


class Row:
    """A row: where it stands, its words, and its texts. `out` and `err` are lists of bytes, with None
    for any bytes. `front` stands before the input of each stage of several."""

    def __init__(self, place, name, stages, given, out, err, status, calls=None, is_twice=False,
                 environment=None):
        self.environment = environment
        self.place, self.name, self.stages, self.given = place, name, stages, given
        self.out, self.err, self.status = out, err, status
        self.calls, self.is_twice, self.front = calls, is_twice, b""

    def is_out(self, text):
        return fits(self.out, text)

    def is_err(self, text):
        return fits(self.err, text)


def fits(parts, text):
    """Whether a text is these parts, one after the other, with any bytes for None."""
    if None not in parts:
        return b"".join(parts) == text
    pattern = b"".join(b".*" if part is None else re.escape(part) for part in parts)
    return re.fullmatch(pattern, text, re.S) is not None


def unescaped(text, values):
    """The bytes that a text spells."""
    found, at = [], 0
    for match in ESCAPE.finditer(text):
        found.append(plain(text[at:match.start()]))
        at = match.end()
        byte, code, times, piece, key, more = match.groups()
        if byte:
            found.append(BYTES[byte])
        elif code:
            found.append(bytes([int(code, 16)]))
        elif times:
            found.append(unescaped(piece, values) * int(times))
        else:
            found.append(b"%d" % (int(values[key]) + int(more)) if more else values[key])
    return b"".join(found + [plain(text[at:])])


def plain(text):
    if "\\" in text:
        raise ValueError("no such escape: " + text)
    return text.encode()


def text_of(lines, values):
    """The parts of a text, by its lines."""
    parts = [b""]
    for line in lines:
        if line == "...":
            parts += [None, b""]
            continue
        line = line[1:]
        # An odd number of them at the end: the last one belongs to the line's end.
        is_open = (len(line) - len(line.rstrip("\\"))) % 2 == 1
        parts[-1] += unescaped(line[:-1] if is_open else line, values) + (b"" if is_open else b"\n")
    return [part for part in parts if part != b""]


def stages_of(text):
    """Words by their stages."""
    return [[unescaped("" if word == "''" else word, {}) for word in stage.split()]
            for stage in text.split(" | ")]


class Reading:
    """A file while it is read."""

    def __init__(self, name, values):
        self.name, self.values, self.rows, self.frames, self.number = name, values, [], {}, 0
        self.section, self.frame, self.row = {}, None, None

    def take(self, line):
        """Takes a line."""
        self.number += 1
        sign, rest = line[:1], line[1:]
        if sign in ("", "#"):
            return
        if line.startswith("== "):
            self.end_row()
            self.section, self.frame = {}, None
        elif sign == "=":
            self.end_row()
            self.frame = None
            self.row = dict(self.section, name=rest[1:], place="%s:%d" % (self.name, self.number),
                            given=[], out=[], err=[], status=0)
        elif sign == "@":
            self.end_row()
            self.frame = self.frames[rest.strip()] = ([], {})
        elif sign == "|":
            self.frame[0].append(rest)
        elif sign == ":":
            key, value = rest.strip().split(" = ", 1)
            self.frame[1][key] = value.encode()
        elif sign in "$&%~":
            (self.section if self.row is None else self.row)[sign] = rest.strip()
        elif sign in "<>!":
            self.row[{"<": "given", ">": "out", "!": "err"}[sign]].append(rest)
        elif sign == "?":
            self.row["status"] = int(rest)
        else:
            raise ValueError("no such line")

    def end_row(self):
        """The row is whole; under several frames it is several."""
        row, self.row = self.row, None
        if row is None:
            return
        names = row["%"].split(", ") if "%" in row else [None]
        for name in names:
            lines, values = self.frames[name] if name else ([], {})
            values = {**self.values, **values, "name": unescaped(row["name"], {})}
            values["input"] = b"".join(text_of(row["given"], values))
            given = b"".join(text_of(lines, values)) if name else values["input"]
            stages = stages_of(row["$"])
            calls = row.get("~")
            is_twice = calls == "twice"
            found = Row(row["place"], row["name"] + (", " + name if len(names) > 1 else ""), stages,
                        given, text_of(row["out"], values), text_of(row["err"], values),
                        row["status"], None if calls is None or is_twice else Calls(calls), is_twice,
                        dict([row["&"].split("=", 1)]) if "&" in row else None)
            found.front = given[:len(given) - len(values["input"])]
            self.rows.append(found)


def rows_of(path, values):
    """The rows of a file, in its order, with values that all rows know."""
    reading = Reading(path.name, values)
    with open(path, encoding="utf-8", newline="\n") as file:
        for line in file:
            try:
                reading.take(line.rstrip("\n"))
            except (ValueError, KeyError, IndexError, TypeError) as fault:
                raise SystemExit("%s:%d: %s" % (path, reading.number, fault))
    reading.end_row()
    return reading.rows
