"""include/pmb.h, read into its parts: for tools/man3, which makes the manual's pages of it, and for
.ci/abi, which compares what it declares with what was released.

    items(text)    each part of the header, in its order

The header is C in one style: a comment stands in front of what it is about, which goes up to the next
empty line, a section begins with a comment `---- NAME`, and there is one declaration at a time. What it can't read it refuses with the
line, so that nothing is left out in silence. Of a function with a body, `static inline`, the body is
passed over: no other file need know it."""
import re
from typing import List, NamedTuple, Optional, Tuple


class Unreadable(Exception):
    """A part of the header that is in no known form."""


class Item(NamedTuple):
    """A part of the header."""

    kind: str  # head, section, constant, enum, struct, function, inline, callback or opaque
    name: str
    comment: List[str]  # the lines of the comment in front, without its marks
    code: str  # as it stands in the header, with the comments in it
    plain: str  # the same without comments, in one line with single blanks


NAME = r"pmb_[a-z0-9_]+"
FORMS = (
    ("enum", re.compile(r"enum (%s) \{.*\};" % NAME)),
    ("struct", re.compile(r"typedef struct (%s) \{.*\} \1;" % NAME)),
    ("opaque", re.compile(r"typedef struct (%s) \1;" % NAME)),
    ("callback", re.compile(r"typedef [^()]*\(\*(%s)\)\(.*\);" % NAME)),
    ("function", re.compile(r"[a-z][^()=]*?\b(%s)\([^()]*(?:\([^()]*\)[^()]*)*\);" % NAME)),
)
COMMENT = re.compile(r"/\*.*?\*/", re.S)
CONSTANT = re.compile(r"#define (PMB_[A-Z0-9_]+) (\S+)")
# What frames the header: it declares nothing.
FRAME = re.compile(r"#(?:if|ifndef|ifdef|endif|include|define PMB_H$)\b|extern \"C\" \{$|\}$")
INLINE = "static inline "


def lines_of(comment: str) -> List[str]:
    """The lines of a comment, without `/*`, `*/` and the ` * ` in front."""
    inner = comment[2:-2].split("\n")
    found = [inner[0].strip()] + [re.sub(r"^\s*\* ?", "", line).rstrip() for line in inner[1:]]
    while found and not found[-1]:
        found.pop()
    while found and not found[0]:
        found.pop(0)
    return found


def plain(code: str) -> str:
    return " ".join(COMMENT.sub(" ", code).split())


def end_of_declaration(text: str, at: int) -> int:
    """The place after the `;` that ends a declaration, or the `}` that ends a function's body. It is in no
    braces and in no comment."""
    depth, place = 0, at
    last = "}" if text.startswith(INLINE, at) else ";"
    while place < len(text):
        if text.startswith("/*", place):
            place = text.index("*/", place) + 2
            continue
        depth += {"{": 1, "}": -1}.get(text[place], 0)
        place += 1
        if text[place - 1] == last and depth == 0:
            return place
    raise Unreadable("a declaration has no end: " + text[at:].split("\n")[0])


def declaration(code: str, comment: List[str]) -> Item:
    if code.startswith(INLINE):
        code = code[: code.index("{")].rstrip() + ";"
    words = plain(code)
    for kind, form in FORMS:
        match = form.fullmatch(words)
        if match:
            kind = "inline" if code.startswith(INLINE) else kind
            return Item(kind, match[1], comment, code, words)
    raise Unreadable("a declaration in no known form: " + words)


def items(text: str) -> List[Item]:
    """Each part of the header. The head is the comment at its start."""
    found: List[Item] = []
    comment: Optional[List[str]] = None
    place = 0
    while place < len(text):
        if text[place].isspace():
            # (an empty line ends what a comment is about)
            if text.startswith("\n\n", place):
                comment = None
            place += 1
            continue
        end = text.find("\n", place) % (len(text) + 1)
        line = text[place:end].rstrip()
        if text.startswith("/*", place):
            end = text.index("*/", place) + 2
            comment = lines_of(text[place:end])
            if not found:
                found.append(Item("head", "", comment, "", ""))
                comment = None
            elif comment[0].startswith("---- "):
                found.append(Item("section", comment[0][5:].strip(), comment[1:], "", ""))
                comment = None
            place = end
            continue
        if FRAME.match(line):
            comment = None
            place = end
            continue
        if line.startswith("#"):
            match = CONSTANT.fullmatch(line)
            if not match:
                raise Unreadable("a line in no known form: " + line)
            found.append(Item("constant", match[1], comment or [], line, line))
            place = end
            continue
        end = end_of_declaration(text, place)
        found.append(declaration(text[place:end], comment or []))
        place = end
    return found


def values(enum: Item) -> List[Tuple[str, str, List[str]]]:
    """The names of an enum with their numbers, each with the comment in front of it. One comment may
    stand for several names below it."""
    body = enum.code[enum.code.index("{") + 1 : enum.code.rindex("}")]
    found: List[Tuple[str, str, List[str]]] = []
    comment: List[str] = []
    for part in re.finditer(r"(/\*.*?\*/)|(PMB_[A-Z0-9_]+) = (-?\w+)|([^\s,])", body, re.S):
        if part[4]:
            raise Unreadable("in %s: %s" % (enum.name, body[part.start() :].split("\n")[0]))
        if part[1]:
            comment = lines_of(part[1])
        else:
            found.append((part[2], part[3], comment))
    return found


def fields(struct: Item) -> List[Tuple[str, str]]:
    """The fields of a struct, each with its type."""
    body = plain(struct.code[struct.code.index("{") + 1 : struct.code.rindex("}")])
    found = []
    for part in body.split(";")[:-1]:
        match = re.fullmatch(r"(.*?[ *])([a-z][a-z0-9_]*)((?:\[\w+\])?)", part.strip())
        if not match or "," in part:
            raise Unreadable("in %s: %s" % (struct.name, part))
        found.append((match[2], match[1].strip() + match[3]))
    return found


def prototype(function: Item) -> Tuple[str, List[str]]:
    """The type that a function returns, and those of its parameters, without their names."""
    returned, _, given = function.plain[:-2].partition(function.name + "(")
    if "(" in given:
        raise Unreadable("%s: give the type of a function that is handed over a name" % function.name)
    types = []
    for part in given.split(","):
        match = re.fullmatch(r"(.*?[ *])([a-z][a-z0-9_]*)", part.strip())
        types.append(match[1].strip() if match and part.strip() != "void" else part.strip())
    return returned.strip(), types
