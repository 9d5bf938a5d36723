"""The profile of a board, by docs/parts.md: what `pmb parts NAME@HH ..` writes, from the texts of its parts, and
what `pmb parts` says of each part. Here a text is a list of lines."""

import re
import tomllib

DEVICE = re.compile(r"[ \t]*\[\[[ \t]*device[ \t]*\]\][ \t]*(#.*)?")
ADDRESS = re.compile(r"([ \t]*address[ \t]*=)[^#\r\n]*?([ \t]*#.*)?\r?")
ABOUT = 200


class Unfit(Exception):
    """A part's text can't be taken apart."""


def about(text):
    """What a part is: the first sentence of the comment at the top of its profile."""
    words = ""
    for line in text.split("\n"):
        if not line.startswith("#"):
            break
        words += " " + line[1:].strip()
    words = " ".join(words.split())
    end = re.search(r"\.( |$)", words)
    return words[:end.start() + 1] if end else words


def is_said(line):
    """Whether a line is more than blanks and a comment."""
    return not re.fullmatch(r"[ \t\r]*(#.*)?", line)


def tables(text):
    """The lines before the first table of a device, and for each table the comment above it and its lines."""
    lines = text.split("\n")
    if lines[-1] == "":
        lines.pop()
    heads = [i for i, line in enumerate(lines) if DEVICE.fullmatch(line.rstrip("\r"))]
    ends = [*heads[1:], len(lines)]
    front, found = lines[:heads[0]] if heads else lines, []
    comment = []
    for head, end in zip(heads, ends):
        last = max(i for i in range(head, end) if is_said(lines[i]))
        found.append((comment, lines[head:last + 1]))
        comment = lines[last + 1:end]
    return front, found


def at(table, address):
    """A table of a device with another address."""
    for i, line in enumerate(table):
        if i > 0 and line.lstrip(" \t").startswith("["):
            break
        match = ADDRESS.fullmatch(line)
        if match:
            return [*table[:i], "%s 0x%02x%s" % (match[1], address, match[2] or ""), *table[i + 1:]]
    raise Unfit


def board(parts):
    """The text of a board of parts, each the text of its profile and its address. The profiles are accepted."""
    lines, further, ignored = [], [], set()
    met = set()
    for text, address in parts:
        said = tomllib.loads(text)
        front, found = tables(text)
        if len(found) != len(said["device"]) or not found:
            raise Unfit
        ignored |= set(said.get("ignore", ()))
        lines += [line for line in front if not is_said(line)] + at(found[0][1], address) + [""]
        for device, (comment, table) in zip(said["device"][1:], found[1:]):
            if device["address"] not in met:
                met.add(device["address"])
                further += [line for line in comment if line.strip()] + table + [""]
    top = ["ignore = [%s]" % ", ".join("0x%02x" % one for one in sorted(ignored)), ""] if ignored else []
    return "".join(line + "\n" for line in [*top, *lines, *further][:-1])
