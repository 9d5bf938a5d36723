"""Texts of sources as the toolchain reads them: for tools/sources.py.

    Texts(root).read(path)    the text of a file without comments and attributes, by `rattle fmt --tokens`

A name in « » is read as the name alone, as the toolchain does. In the place of a text in quotes stands
its digest in quotes, so that nothing in it is taken for code and no change of it is lost. Lines stay
lines."""
import hashlib
import json
import re
import shutil
import subprocess
import tempfile
import textwrap
from pathlib import Path
from typing import Dict, Iterable, List, NamedTuple, Tuple


class Unreadable(Exception):
    """A part of the sources that is in no known form."""


class Token(NamedTuple):
    """A token: where it begins and ends in the file's bytes, its kind, and its text without « »."""

    start: int
    end: int
    kind: str
    text: str


class Text(NamedTuple):
    """A file: its text as the toolchain reads it, and its lines as they are."""

    read: str
    lines: List[str]


COMMENT = {".antt": r"--.*", ".rt": r"//.*"}
# Words that a name in « » may be: those that the notation has taken.
TAKEN = set("Type abbrev axiom coe com data elim fcoe hcom infix infixl infixr module mutual open package record"
            " ruleset tcoe unfold unfoldable unfolding using".split())
# Of attributes that stand in code: what each one says is said to the compiler, to tests or to tactics.
ATTRIBUTES = set("allow cfg default deny derive doc error expect inline must_use no_std repr tactic test"
                 " unsafe cold rattlefmt::skip".split())


class Texts:
    """The files of a project. `changed` has the bytes of files that are read as if they were these,
    or None for one that is read as if it were not there."""

    def __init__(self, root: Path, tokens: "Tokens" = None, changed: Dict[str, bytes] = None) -> None:
        self.root, self.tokens, self.changed = root, tokens or Tokens(), changed or {}
        self.texts: Dict[str, Text] = {}

    def paths(self, folder: str, suffix: str) -> List[str]:
        """The files below a folder, and those of links to folders, with a suffix."""
        found = {str(it.relative_to(self.root)) for it in (self.root / folder).rglob("*" + suffix)}
        found |= {it for it in self.changed if it.startswith(folder + "/") and it.endswith(suffix)}
        return sorted(it for it in found if self.has(it))

    def has(self, path: str) -> bool:
        if path in self.changed:
            return self.changed[path] is not None
        return (self.root / path).is_file()

    def data(self, path: str) -> bytes:
        if not self.has(path):
            raise Unreadable("there is no file %s" % path)
        return self.changed[path] if path in self.changed else (self.root / path).read_bytes()

    def read(self, path: str) -> str:
        return self.text(path).read

    def text(self, path: str) -> Text:
        if path not in self.texts:
            data = self.data(path)
            lines = data.decode("utf-8").split("\n")
            self.texts[path] = Text(self.tokens.read(path, data), lines)
        return self.texts[path]

    def prepare(self, paths: Iterable[str]) -> None:
        """Has the toolchain read many files at once."""
        self.tokens.prepare([(path, self.data(path)) for path in paths])


class Tokens:
    """What the toolchain reads in a file, by the file's bytes: each is read once."""

    def __init__(self) -> None:
        self.kept: Dict[Tuple[str, bytes], List[Token]] = {}
        self.texts: Dict[Tuple[str, bytes], str] = {}

    def read(self, path: str, data: bytes) -> str:
        if (path, data) not in self.texts:
            self.prepare([(path, data)])
            self.texts[path, data] = as_read(path, data, self.kept[Path(path).suffix, data])
        return self.texts[path, data]

    def prepare(self, files: List[Tuple[str, bytes]]) -> None:
        keys = {(Path(path).suffix, data): path for path, data in files}
        keys = {key: path for key, path in keys.items() if key not in self.kept}
        if not keys:
            return
        rattle = shutil.which("rattle")
        if not rattle:
            raise Unreadable("the command rattle is missing: install the Rattle toolchain and put it on the PATH")
        with tempfile.TemporaryDirectory(prefix="statement-") as room:
            names = []
            for number, (suffix, data) in enumerate(keys):
                names.append("%s/%d%s" % (room, number, suffix))
                Path(names[-1]).write_bytes(data)
            # (what is laid out in one way alone can be read line by line)
            for words in ["--check"], ["--tokens"]:
                ran = subprocess.run([rattle, "fmt", *words, *names], stdin=subprocess.DEVNULL, capture_output=True)
                if ran.returncode != 0:
                    said = (ran.stdout + ran.stderr).decode("utf-8", "replace").strip()
                    for name, path in zip(names, keys.values()):
                        said = said.replace(name, path)
                    raise Unreadable("rattle fmt %s: %s" % (words[0], said[:300]))
        parts = re.split(r"(?m)^file \d+\n", ran.stdout.decode("utf-8"))[1:]
        for key, part in zip(keys, parts):
            rows = (row.split(" ", 4)[1:] for row in part.splitlines())
            self.kept[key] = [Token(int(start), int(end), kind, json.loads(text)) for start, end, kind, text in rows]


def as_read(path: str, data: bytes, tokens: List[Token]) -> str:
    """The text of a file without comments and attributes."""
    made, at, mark = [], 0, re.compile(COMMENT[Path(path).suffix])
    for token in [*tokens, Token(len(data), len(data), "", "")]:
        between = data[at : token.start].decode("utf-8")
        at = token.end
        if data[token.start : token.start + 2] == "«".encode() and token.text not in TAKEN:
            raise Unreadable("%s: the name «%s» needs no « »" % (path, token.text))
        kept = mark.sub("", between)
        if kept.strip():
            line = data[: token.start].count(b"\n") + 1
            raise Unreadable("%s:%d: a comment that isn't of one line, or a text in no known form" % (path, line))
        made.append(kept)
        if token.kind == "Literal" and token.text.startswith(("///", "//!", "/**")):
            made.append("\n" * token.text.count("\n"))
        elif token.kind in ("Literal", "Text") and re.search("[\"']", token.text):
            made.append('"%s"' % hashlib.sha256(token.text.encode()).hexdigest() + "\n" * token.text.count("\n"))
        else:
            made.append(token.text)
    text = "".join(made)
    return without_attributes(path, text) if path.endswith(".rt") else text


def without_attributes(path: str, text: str) -> str:
    """With blanks for attributes. One that is not known is refused, since it may change what is compiled."""
    for match in reversed(list(re.finditer(r"#!?\[", text))):
        end = closed(text, match.end() - 1, "[]")
        inner = text[match.end() : end - 1]
        name = re.match(r"\s*([\w:]*)", inner)[1]
        if name not in ATTRIBUTES or (name == "cfg" and inner.strip() != "cfg(test)"):
            raise Unreadable("%s: an attribute that is not known: %s" % (path, text[match.start() : end]))
        text = text[: match.start()] + re.sub(r"[^\n]", " ", text[match.start() : end]) + text[end:]
    return text


def with_comments(lines: List[str], first: int, last: int) -> str:
    """Lines of a file, and the comment right above them; attributes are left out."""
    while first > 0 and re.match(r" *(?:--|//|#\[)", lines[first - 1]):
        first -= 1
    return textwrap.dedent("\n".join(line for line in lines[first : last + 1] if not line.lstrip().startswith("#[")))


def closed(text: str, at: int, pair: str = "{}") -> int:
    """The place after the brace that closes the one at `at`."""
    depth = 0
    for place in range(at, len(text)):
        depth += {pair[0]: 1, pair[1]: -1}.get(text[place], 0)
        if depth == 0:
            return place + 1
    raise Unreadable("a brace is never closed: " + text[at : at + 60])


def leaves(tree: str, before: Tuple[str, ...] = ()) -> List[Tuple[Tuple[str, ...], str]]:
    """The paths of a `use` of Rust, each with the name that it brings in."""
    tree = tree.strip().lstrip(":")
    match = re.match(r"(?:\w+::)*\{", tree)
    if not match:
        path, _, alias = tree.partition(" as ")
        whole = before + tuple(path.strip().split("::"))
        whole = whole[:-1] if whole[-1] == "self" else whole
        return [(whole, alias.strip() or whole[-1])]
    before += tuple(tree[: match.end() - 1].split("::")[:-1])
    found, depth, start = [], 0, match.end()
    for place in range(match.end(), len(tree)):
        depth += {"{": 1, "}": -1}.get(tree[place], 0)
        if (tree[place] == "," and depth == 0) or depth < 0:
            if tree[start:place].strip():
                found += leaves(tree[start:place], before)
            start = place + 1
    return found
