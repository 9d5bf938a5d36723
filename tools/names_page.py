#!/usr/bin/env python3
"""Writes docs/names.md: each name of a fault with what `pmb explain` says of it.

    tools/names_page.py PROGRAM [--check]

The names and what is said of them are the program's, from the one list in the crate pmb_explain, so the
page forgets none. With --check nothing is written; the status is 1 if the page would be another one."""
import subprocess
import sys
from pathlib import Path

PAGE = Path(__file__).resolve().parent.parent / "docs/names.md"
HEAD = """# Names of faults

Each name that `pmb` prints for something wrong, and what `pmb explain NAME` says of it. NAME may be
in either case. Where standard error is a terminal, or with `PMB_EXPLAIN=1`, the commands [explain
their faults](program.md#faults-explained) by themselves, with what was written.

[tools/names_page.py](../tools/names_page.py) makes this page from the program.
"""
TITLES = {
    "a protocol error in a capture": "Protocol errors",
    "in a capture": "Words of a capture",
    "in a profile": "Profiles",
    "in a line of build or run": "Lines of `build` and `run`",
    "in a request of run": "Requests of `run`, and their results",
    "in a line of encode or decode": "Lines of `encode` and `decode`",
    "in FORMAT": "FORMAT",
    "on the command line": "The command line",
}


def said(program, *names):
    done = subprocess.run([program, "explain", *names], stdin=subprocess.DEVNULL, capture_output=True, check=True)
    return done.stdout.decode()


def explanations(program):
    """What is said, by subject: a list of names with their lines and their page."""
    found = {}
    names = [name for line in said(program).splitlines() for name in line.split(":", 1)[-1].split()]
    for name in dict.fromkeys(names):
        for line in said(program, name).splitlines():
            if not line.startswith("  "):
                head, subject = line.rstrip(":").split(", ", 1)
                found.setdefault(subject, []).append((head, []))
                now = found[subject][-1][1]
            else:
                now.append(line[2:])
    return found


def page(program):
    parts = [HEAD]
    found = explanations(program)
    for subject, title in TITLES.items():
        parts.append("\n## %s\n\n| name | what it means |\n| --- | --- |\n" % title)
        for name, lines in found.pop(subject):
            text = " ".join(lines[:-1]).replace("|", "\\|")
            link = lines[-1].removeprefix("docs/")
            parts.append("| `%s` | %s ([more](%s)) |\n" % (name, text, link))
    if found:
        sys.exit("names_page.py: no title for " + ", ".join(found))
    return "".join(parts)


def main():
    text = page(sys.argv[1])
    if sys.argv[2:] == ["--check"]:
        if PAGE.read_text(encoding="utf-8") != text:
            sys.exit("docs/names.md is not what the program says: tools/names_page.py PROGRAM writes it")
    else:
        PAGE.write_text(text, encoding="utf-8")


if __name__ == "__main__":
    main()
