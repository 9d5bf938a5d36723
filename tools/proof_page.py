"""The page docs/proof.md, as it stands: for tools/statement.

    read_page(root)   the statements, definitions and names that the page has"""
import re
from pathlib import Path
from typing import Dict, Iterator, List, NamedTuple, Set, Tuple

from source_text import Unreadable

PAGE, PROMISES = "docs/proof.md", "docs/promises.md"
Key = Tuple[str, str]  # of a definition: its file and its name


class Row(NamedTuple):
    """A row of a table: of statements, or of definitions of one file."""

    heading: str  # above its table
    names: List[str]
    words: str


class Page(NamedTuple):
    """What the page says."""

    statements: List[Row]
    definitions: List[Row]
    counts: Dict[Key, int]  # the lines of each definition, in the page's order
    ahead: Set[Tuple[str, str]]  # names of definitions: the first one uses the other, which comes later
    given: Dict[str, str]  # a name that needs no definition, and the statement that gives it
    libraries: Dict[str, Set[str]]  # names of the toolchain by their module
    sums: List[Tuple[int, int]]  # how many definitions, and lines
    digests: Dict[str, str]  # of all statements, and of all definitions
    quotes: Dict[str, str]  # the text of a statement
    promised: Set[str]  # the functions that carry the headline, by docs/promises.md


def section(page: str, heading: str) -> str:
    found = page.partition("\n## %s\n" % heading)[2].partition("\n## ")[0]
    if not found:
        raise Unreadable('no section "%s" in a page' % heading)
    return found


def rows(page: str, heading: str) -> Iterator[Tuple[str, List[str]]]:
    """The cells of the tables of a section, each row with the heading above its table."""
    above = ""
    for line in section(page, heading).split("\n"):
        if line.startswith("### "):
            above = line[4:]
        elif line.startswith("| ") and "`" in line:
            yield above, re.split(r" *\| *", line)[1:-1]


def statements_of(cell: str) -> List[str]:
    """The statements of a cell: a name, and after it the clauses, if not all count. The name
    `crate::laws::{one, other}` stands for two."""
    name, *clauses = re.findall(r"`([^`]+)`", cell) or [""]
    if not name:
        raise Unreadable("%s: a row names no statement: %s" % (PAGE, cell))
    front, brace, inner = name.partition("{")
    each = [front + part.strip() for part in inner.rstrip("}").split(",")] if brace else [name]
    return [".".join([one] + clauses) for one in each]


def read_page(root: Path) -> Page:
    page = (root / PAGE).read_text(encoding="utf-8")
    statements = [Row(above, statements_of(cells[0]), cells[1]) for above, cells in rows(page, "The statements")]
    definitions, counts = [], {}
    for above, cells in rows(page, "The definitions"):
        link = re.search(r"\]\(\.\./([^)]*)\)", cells[0])
        if not link:
            raise Unreadable("%s: a row leads to no file: %s" % (PAGE, cells[0]))
        some = re.findall(r"`([^`]+)` (\d+)", cells[1])
        definitions.append(Row(above, [name for name, _ in some], "%s: %s" % (link[1], cells[2])))
        for name, count in some:
            if (link[1], name) in counts:
                raise Unreadable("%s has %s of %s twice" % (PAGE, name, link[1]))
            counts[link[1], name] = int(count)
    front = (root / PROMISES).read_text(encoding="utf-8").partition("\nAnd at both ends of the bus:\n")[0]
    return Page(
        statements=statements,
        definitions=definitions,
        counts=counts,
        ahead=set(re.findall(r"`(\w+)`\s+names\s+`(\w+)`", section(page, "The definitions"))),
        given={cells[0].strip("`"): cells[1].strip("`") for _, cells in rows(page, "Names that need no definition")},
        libraries={cells[0].strip("`"): set(re.findall(r"`([^`]+)`", cells[1]))
                   for _, cells in rows(page, "What is trusted")},
        sums=[(int(one), int(other)) for one, other in re.findall(r"(\d+) definitions of (\d+) lines", page)],
        digests=dict(re.findall(r"(?m)^(\w+) +sha256 ([0-9a-f]{64})$", page)),
        quotes=dict(re.findall(r"(?ms)^```\n(\S+)\n(.*?)^```$", page)),
        promised={name for _, cells in rows(front, "The headline")
                  for name in re.findall(r"\b([a-z_]+)`", cells[1])},
    )
