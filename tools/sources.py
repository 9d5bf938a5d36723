"""The sources of the crates, as far as definitions and contracts go: for tools/statement.

    Sources(root).statement(text)    a contract that a page names
    Sources(root).definition(target) a definition of `specs`, or a type of `src`

Each comes as a Part: its text, and where each name in it comes from. Texts are what the toolchain reads
(source_text.py). What can't be read is refused with its place, so that no name is left out in silence;
and so is what could mean something else to the toolchain than to this reader: a name that two lines
bring in or define, code that is not always compiled, a file that no `mod` names."""
import re
import textwrap
from pathlib import Path
from typing import Dict, Iterator, List, NamedTuple, Optional, Set, Tuple

from source_text import Texts, Unreadable, closed, leaves, with_comments

# Where a name comes from: ("spec", crate, module, name), ("type", crate, name) and perhaps the variant,
# ("library", path, name), or ("unclear", why).
Target = Tuple[str, ...]
Scope = Dict[str, Target]

NAME = r"[^\W\d_]\w*"
HEAD = re.compile(r" *(?:(?:abbrev|unfoldable) )?(?:pub )?((?:record|data) )?([^\s{(:]+)")
MODULE = re.compile(r" *module .* where$")
USE = re.compile(r"(?:unfoldable\s+)?(pub\s+)?\buse\s+([\w.]+?)(?:\.\{([^}]*)\}|\s+as\s+(\w+))?\s*(?:;|$)", re.M)
# Words that begin other lines of a file of `specs`: what they would change isn't known here.
OTHER = re.compile(r"\b(?:axiom|infix|infixl|infixr|mutual|open|package|ruleset)\b")
TYPE = r"^(?:pub(?:\([^)]*\))? )?(?:struct|enum|union|type) %s\b"
ANY_TYPE = r"(?<![\w.'])(?:struct|enum|union|type)\s+%s\b"
RUST_USE = re.compile(r"(?<![\w.])(ghost\s+)?use\s+([^;]+);")
# Macros that are expressions, or whose items are neither types nor functions.
MACROS = set("assert assert_eq assert_ne bitflag_items debug_assert debug_assert_eq format matches panic print println"
             " todo unreachable vec write writeln".split())
PRIMITIVE = set("bool char f32 f64 i8 i16 i32 i64 i128 isize str u8 u16 u32 u64 u128 usize".split())


class Part(NamedTuple):
    """A definition or a statement."""

    name: str
    path: str  # of its file
    kind: str  # statement, spec, machine, type or opaque
    text: str  # without comments
    signature: str  # of a statement what stands before its clauses, of a definition its module's line
    scope: Scope
    shown: str  # with its comments

    @property
    def lines(self) -> int:
        return sum(bool(line.strip()) for line in self.text.split("\n"))


class Module(NamedTuple):
    """A file of `specs`."""

    parts: Dict[str, Part]
    owners: Dict[str, str]  # of a constructor its type
    handed_on: Scope  # by `pub use`
    unclear: Dict[str, str]  # names that stand for two things, and why


class Brought(NamedTuple):
    """What a `use` of Rust brings in: its path, what that is, its name here, and whether the `use` stands at
    the top of its file, outside of functions and modules."""

    path: Tuple[str, ...]
    target: Target
    name: str
    is_top: bool


class Impl(NamedTuple):
    """An `impl` or a trait: where it begins and ends, and the last names of its trait and its type."""

    first: int
    last: int
    trait: str
    name: str


class Sources:
    def __init__(self, texts: Texts) -> None:
        self.texts = texts
        listed = texts.data("crates.txt").decode("utf-8").split("\n")
        self.listed = [line.partition("#")[0].strip() for line in listed]
        for line in self.listed:
            if "-" in line:
                raise Unreadable("crates.txt: a name with `-` may be another one's with `_`: %s" % line)
        self.crates = {re.split(r"[\s:]", line)[0] for line in self.listed if line}
        self.modules: Dict[Tuple[str, str], Module] = {}
        self.sources: Dict[str, Dict[str, str]] = {}
        self.specs: Dict[str, Set[str]] = {}
        self.uses_of: Dict[str, List[Brought]] = {}
        self.blocks: Dict[str, List[Impl]] = {}

    # ---- crates

    def files(self, crate: str) -> Dict[str, str]:
        """The texts of a crate's `src`, by their paths."""
        if crate not in self.sources:
            self.look_at(crate)
        return self.sources[crate]

    def look_at(self, crate: str) -> None:
        """Reads a crate, and refuses what could be another crate for the toolchain."""
        folder = "crates/" + crate
        lines = [line for line in self.listed if re.match(r"(?:\S*/)?%s\b(?!/)" % crate, line)]
        if len(lines) != 1 or not re.match(crate + r"\s*(?::|$)", lines[0]):
            raise Unreadable("crates.txt has %s otherwise than once by its name alone" % crate)
        for place in ("", "crates/", folder + "/"):
            for name in ("BUILD.bazel", "BUILD", "MODULE.bazel", "WORKSPACE"):
                if self.texts.has(place + name):
                    raise Unreadable("%s%s may say where sources are" % (place, name))
        if self.texts.has(folder + "/crates.txt"):
            raise Unreadable("%s has a crates.txt of its own" % folder)
        found, specs = self.texts.paths(folder + "/src", ".rt"), self.texts.paths(folder + "/specs", ".antt")
        self.texts.prepare(found + specs)
        used = [path for path in (folder + "/src/main.rt", folder + "/src/lib.rt") if path in found]
        if len(used) != 1:
            raise Unreadable("%s has %d of src/main.rt and src/lib.rt" % (crate, len(used)))
        for path in used:
            inside = re.sub(r"/(?:lib|main|mod)\.rt$|\.rt$", "", path)
            for name in re.findall(r"(?m)^(?:pub(?:\([^)]*\))? )?mod (\w+);", self.texts.read(path)):
                files = [it for it in ("%s/%s.rt" % (inside, name), "%s/%s/mod.rt" % (inside, name)) if it in found]
                if len(files) != 1:
                    raise Unreadable("%s: %d files for `mod %s`" % (path, len(files), name))
                used += files
        self.refuse_others(found, used)
        used = [path for path in [folder + "/specs/Lib.antt"] if path in specs]
        for path in used:
            inside = re.sub(r"/Lib\.antt$|\.antt$", "", path)
            for line in self.texts.read(path).split("\n"):
                match = re.match(r"(?:pub )?mod (\w+)$", line)
                if not match and (path == used[0] and line.strip() and not re.match(r"pub use |  ", line)
                                  or re.match(r".*\bmod\b", line)):
                    raise Unreadable("%s: a line in no known form: %s" % (path, line))
                used += ["%s/%s.antt" % (inside, match[1])] if match else []
        self.refuse_others(specs, used)
        if any(path.startswith(folder + "/specs/declared") for path in specs):
            raise Unreadable("%s has a module of the toolchain's name: declared" % crate)
        self.specs[crate] = set(specs)
        self.sources[crate] = {path: self.texts.read(path) for path in found}
        for path, text in self.sources[crate].items():
            self.look_at_code(path, text)

    @staticmethod
    def refuse_others(found: List[str], used: List[str]) -> None:
        for path in found:
            if used.count(path) != 1:
                raise Unreadable("%s: %d lines `mod` name this file" % (path, used.count(path)))

    def look_at_code(self, path: str, text: str) -> None:
        """Refuses what may make other code of a file: macros, and names that everybody takes for granted."""
        for name in re.findall(r"(?<![\w.'])(\w+)\s*!\s*(?=[\w({\[])(?!=)", text):
            if name not in MACROS | {"else", "if", "in", "match", "return", "while"}:
                raise Unreadable("%s: what the macro %s! makes isn't known" % (path, name))
        if re.search(r"(?<![\w.'])extern\s+crate\b", text):
            raise Unreadable("%s: `extern crate` may give a crate another name" % path)
        for it in self.brought(path):
            if it.name == "*" and it.path != ("super", "*"):
                raise Unreadable("%s: `use %s` brings in names that aren't told" % (path, "::".join(it.path)))
        brought = {it.name for it in self.brought(path) if it.name != it.path[-1] or it.path[0] in self.crates}
        declared = set(re.findall(r"(?<![\w.'])(?:struct|enum|union|type|trait|mod|fn)\s+(\w+)", text))
        for name in sorted(brought & (MACROS | PRIMITIVE) | declared & PRIMITIVE):
            raise Unreadable("%s: %s has another meaning here" % (path, name))
        for name in sorted((brought & self.crates) - {"crate"}):
            raise Unreadable("%s: %s is a crate's name, and another one's here" % (path, name))

    def brought(self, path: str) -> List[Brought]:
        """What the `use` lines of a file bring in."""
        text = self.texts.read(path)
        if path not in self.uses_of:
            self.uses_of[path] = found = []
            inside = {"crate", "self", "super", *re.findall(r"(?<![\w.'])mod (\w+)", text)}
            for match in RUST_USE.finditer(text):
                is_top = text.count("{", 0, match.start()) == text.count("}", 0, match.start())
                for where, name in [] if match[1] else leaves(" ".join(match[2].split())):
                    owner = path.split("/")[1] if where[0] in inside else where[0]
                    known = owner in self.crates
                    target = ("type", owner, where[-1]) if known else ("library", "::".join(where[:-1]), where[-1])
                    found.append(Brought(where, target, name, is_top))
        return self.uses_of[path]

    # ---- specs

    def target(self, path: str, name: str) -> Target:
        """Where a name of a `use` line comes from."""
        words = path.split(".")
        if words[0] != "Rattle" or words[1] not in self.crates:
            return "library", path, name
        if words[2:3] != ["specs"] or len(words) < 4:
            return "unclear", "%s of %s is no definition of specs" % (name, path)
        if words[3] == "declared":
            of = words[-2] if words[-1] == "TheVariants" else words[-1]
            return ("type", words[1], of) + ((name,) if name not in (of, "") else ())
        return "spec", words[1], ".".join(words[3:]), name

    def uses(self, text: str, where: str, only_pub: bool = False) -> Scope:
        """What the `use` lines of antt in a text bring in."""
        scope: Scope = {}
        lines = USE.findall(text)
        if len(lines) != len(re.findall(r"(?<![\w.'])use\b", text)):
            raise Unreadable("%s: a `use` in no known form" % where)
        for pub, path, names, alias in lines:
            if only_pub and not pub:
                continue
            some = [(alias, self.target(path, ""))] if alias else []
            for each in filter(None, (part.strip() for part in names.split(","))):
                name, _, other = each.partition(" as ")
                some.append(((other or name).strip(), self.target(path, name.strip())))
            if not some:
                raise Unreadable("%s: `use %s` names nothing that it brings in" % (where, path))
            for name, target in some:
                scope[name] = ("unclear", "two `use` bring in %s" % name) if name in scope else target
        return scope

    def module(self, crate: str, module: str) -> Module:
        if (crate, module) not in self.modules:
            self.modules[crate, module] = self.read_module(crate, module)
        return self.modules[crate, module]

    def read_module(self, crate: str, module: str) -> Module:
        self.files(crate)
        where = "crates/%s/specs/%s.antt" % (crate, module.replace(".", "/"))
        if where not in self.specs[crate]:
            raise Unreadable("%s has no specs/%s.antt" % (crate, module))
        text = self.texts.text(where)
        if OTHER.search(text.read):
            raise Unreadable("%s: what `%s` does isn't known" % (where, OTHER.search(text.read)[0]))
        scope, owners, unclear, parts = self.uses(text.read, where), {}, {}, {}

        def define(name: str) -> None:
            if name in scope:
                unclear[name] = "%s is defined twice, or brought in too" % name
            scope[name] = ("unclear", unclear[name]) if name in unclear else ("spec", crate, module, name)

        kind = "machine" if "machine" in module.split(".") else "spec"
        for name, headers, first, last in self.blocks_of(where, text.read):
            lines = text.read.split("\n")[first : last + 1]
            define(name)
            if HEAD.match(lines[0])[1] == "data ":
                for names in re.findall(r"(?m)^ +(%s(?: %s)*) :" % (NAME, NAME), "\n".join(lines[1:])):
                    for member in names.split():
                        define(member)
                        owners[member] = name
            parts[name] = Part(name, where, kind, "\n".join(lines), "\n".join(headers), scope,
                               with_comments(text.lines, first, last))
        return Module(parts, owners, self.uses(text.read, where, only_pub=True), unclear)

    def blocks_of(self, where: str, text: str) -> Iterator[Tuple[str, List[str], int, int]]:
        """The definitions of a file of `specs`: a name, the lines `module` around it, the first and the last
        line. Each line of the file is in one of them, or is a `use`, `mod` or `module`."""
        headers: List[str] = []
        block, last = None, 0
        for number, line in enumerate(text.split("\n")):
            indent = len(line) - len(line.lstrip())
            if not line.strip():
                continue
            if block and indent > 2 * len(headers):
                last = number
                continue
            if re.match(r"(?:unfoldable )?(?:pub )?(?:use|mod) ", line):
                if block:
                    raise Unreadable("%s:%d: a `use` below a definition" % (where, number + 1))
                head = None
                continue
            if not block and not headers and indent and not MODULE.match(line):
                continue  # (of a `use` of several lines)
            name = (HEAD.match(line) or [""] * 3)[2]
            if block and indent == 2 * len(headers) and self.goes_on(block[0], line):
                last = number
                continue
            if block:
                yield (*block, last)
                block = None
            while len(headers) > indent // 2:
                headers.pop()
            if indent != 2 * len(headers):
                raise Unreadable("%s:%d: a line that begins nothing" % (where, number + 1))
            if MODULE.match(line):
                headers.append(line.strip())
            elif re.match(r" *(?:abbrev|unfoldable|pub|record|data) |[^=]* : ", line) and name:
                block, last = (name, headers[:], number), number
            else:
                raise Unreadable("%s:%d: a line in no known form: %s" % (where, number + 1, line.strip()))
        if block:
            yield (*block, last)

    @staticmethod
    def goes_on(name: str, line: str) -> bool:
        """Whether a line at the depth of a definition is one of its equations."""
        words = line.split()
        if words[0] in ("abbrev", "unfoldable", "pub", "record", "data", "module"):
            return False
        marks = [mark for mark in name.split("◌") if mark]
        return words[0] in (name, "}", "})") or ("◌" in name and all(mark in line for mark in marks))

    # ---- src

    def shown(self, where: str, at: int, end: int) -> str:
        """The lines from one place to another of a file of `src`, with the comment above."""
        text = self.texts.text(where)
        return with_comments(text.lines, text.read.count("\n", 0, at), text.read.count("\n", 0, end))

    def rust_scope(self, where: str) -> Scope:
        """The types that a file of `src` names, its own too."""
        scope: Scope = {}
        own = re.findall(r"(?m)" + TYPE % r"(\w+)", self.texts.read(where))
        some = [(it.name, it.target) for it in self.brought(where) if it.is_top]
        inner = [(it.name, it.target) for it in self.brought(where) if not it.is_top]
        for name, target in some + [(name, ("type", where.split("/")[1], name)) for name in own] + inner:
            if scope.get(name, target) != target:
                scope[name] = "unclear", "%s is two things in one file" % name
            elif (name, target) not in inner:
                scope[name] = target
        return scope

    def type_part(self, crate: str, name: str) -> Optional[Part]:
        """A type of a crate, or one that it hands on; nothing where the name is no type's."""
        files = self.files(crate)
        found = [(path, match.start()) for path, text in files.items()
                 for match in re.finditer(TYPE % name, text, re.M)]
        count = sum(len(re.findall(ANY_TYPE % name, text)) for text in files.values())
        others = {it.target for path in files for it in self.brought(path)
                  if it.name == name and it.target != ("type", crate, name)}
        if count > 1 or count > len(found) or len(others) + len(found) > 1:
            raise Unreadable("%s has several types of the name %s, or one in another place" % (crate, name))
        if found:
            return self.read_type(crate, name, *found[0])
        for target in others:
            return self.type_part(target[1], target[2]) if target[0] == "type" else None
        return None

    def read_type(self, crate: str, name: str, path: str, at: int) -> Part:
        text = self.files(crate)[path]
        ends = [text.find(mark, at) % (len(text) + 1) for mark in "{;"]
        end = closed(text, ends[0]) if ends[0] < ends[1] else ends[1] + 1
        body, scope = text[at:end], self.rust_scope(path)
        models = [(where, it) for where in self.files(crate) for it in self.impls(where)
                  if it.trait == "Model" and it.name == self.named(where, it.name) == name]
        if len(models) > 1:
            raise Unreadable("%s: %s has two models" % (path, name))
        for where, it in models:
            block = self.files(crate)[where][it.first : it.last]
            values = [it for it in self.members(block, where) if it.startswith("ghost Value ")]
            if len(values) != 1:
                raise Unreadable("%s: the Model of %s has no Value, or two" % (where, name))
            scope = {**self.rust_scope(where), **self.uses("\n".join(re.findall(r"ghost (use [^;]*;)", block)), where)}
            head = self.shown(path, at, at).rstrip(" {(;")
            return Part(name, path, "type", values[0], "", scope, head + "\n    " + values[0])
        named = re.search(r"struct \w+[^({;]*\{", body)
        kind = "opaque" if named and not re.search(r"(?m)^ +pub ", body) else "type"
        return Part(name, path, kind, body, "", scope, self.shown(path, at, end - 1))

    def named(self, where: str, name: str) -> str:
        """The name of the type that an impl of Model is for. It has to be a struct or an enum of the crate, by
        its own name: by another one, nobody would see that the type has a Model."""
        target = self.rust_scope(where).get(name, ("", "", ""))
        crate = where.split("/")[1]
        declared = r"(?m)^(?:pub(?:\([^)]*\))? )?(?:struct|enum|union) %s\b" % name
        if target != ("type", crate, name) or not any(re.search(declared, it) for it in self.files(crate).values()):
            raise Unreadable("%s: an impl of Model for %s, which is no type of this crate by its name" % (where, name))
        return name

    def impls(self, where: str) -> List[Impl]:
        """Each impl and each trait of a file, wherever it stands."""
        if where in self.blocks:
            return self.blocks[where]
        text, found = self.texts.read(where), []
        for match in re.finditer(r"(?:^|[{};]|\bunsafe)\s*((?:pub(?:\([^)]*\))? )?(?:impl|trait)\b)([^{;]*)\{", text):
            head, level = match[2], 0
            for at, sign in enumerate(head) if head.startswith("<") else []:
                level += (sign == "<") - (sign == ">" and head[at - 1] not in "-=")
                if level == 0:
                    head = head[at + 1 :]
                    break
            head = re.split(r"\bwhere\b", head)[0]
            if match[1].endswith("trait"):
                trait, name = "", re.match(r"\s*(\w*)", head)[1]
            else:
                trait, _, name = head.rpartition(" for ")
            names = [(re.findall(r"(\w+)\s*(?:<.*)?$", part.strip()) or [""])[0] for part in (trait, name)]
            # (a reference, a tuple or a slice has no name, and no contract here is of one)
            found.append(Impl(match.start(1), closed(text, match.end() - 1), *names))
        self.blocks[where] = found
        return found

    # ---- statements

    def statement(self, named: str) -> Part:
        """A statement that a page names: `crate::function`, `crate::laws::function`,
        `crate::Type::function`, or `crate: impl Trait for Type`; each may be followed by `.clause`."""
        match = re.fullmatch(r"(\w+): impl (\w+) for (\w+)", named)
        if match:
            return self.read_impl(named, *match.groups())
        path, *clauses = named.split(".")
        crate, *middle, name = path.split("::")
        if crate not in self.crates:
            raise Unreadable("%s: there is no crate %s" % (named, crate))
        owner = middle[0] if middle and middle[0] != "laws" else ""
        if owner:
            self.type_part(crate, owner)
        found = []
        for where, text in self.files(crate).items():
            if any(it.name == name and it.path[-1] != name for it in self.brought(where)):
                raise Unreadable("%s: %s hands on another function by that name" % (named, where))
            whole = text if owner else self.outside(where)
            blocks = [(it.first, it.last) for it in self.impls(where) if owner and (it.trait, it.name) == ("", owner)]
            for first, last in blocks if owner else [(0, len(text))]:
                for match in re.compile(r"\bfn %s\b" % name).finditer(whole, first, last):
                    found.append(self.read_function(named, clauses, owner, where, whole, first, match.start()))
        if len(found) != 1:
            raise Unreadable("%s: the sources have %d functions of that name" % (named, len(found)))
        return found[0]

    def outside(self, where: str) -> str:
        """A file with blanks for its impls and traits."""
        text = self.texts.read(where)
        for it in self.impls(where):
            text = text[: it.first] + re.sub(r"[^\n]", " ", text[it.first : it.last]) + text[it.last :]
        return text

    @staticmethod
    def members(block: str, where: str) -> List[str]:
        """The ghost members of an impl or of a trait, with what they are given. They stand in it directly,
        and not inside a function."""
        found, depth, place = [], 0, 0
        for match in re.finditer(r"[{}]|\bghost (?!use\b)(\w+)", block):
            if match.start() < place:
                continue
            if not match[1]:
                depth += 1 if match[0] == "{" else -1
                continue
            form = re.compile(r"\s*[:=]\s*\{").match(block, match.end())
            if depth != 1:
                continue
            if not form:
                raise Unreadable("%s: the ghost member %s is in no known form" % (where, match[1]))
            place = closed(block, form.end() - 1)
            more = re.compile(r"\s*=\s*\{").match(block, place)
            place = closed(block, more.end() - 1) if more else place
            if block[place : place + 1] != ";":
                raise Unreadable("%s: the ghost member %s is in no known form" % (where, match[1]))
            found.append(block[match.start() : place + 1])
        return found

    def scope_of(self, where: str, block: str) -> Scope:
        """Where the names of a clause come from: in an impl or a trait, its own `ghost use` count too."""
        own = self.uses("\n".join(re.findall(r"ghost (use [^;]*;)", self.outside(where) + block)), where)
        scope = self.rust_scope(where)
        for name, target in own.items():
            same = scope.get(name, target) == target
            scope[name] = target if same else ("unclear", "%s is one thing in code and another in clauses" % name)
        return scope

    def read_impl(self, named: str, crate: str, trait: str, name: str) -> Part:
        found = [(where, it) for where in self.files(crate) for it in self.impls(where)
                 if (it.trait, it.name) == (trait, name)]
        self.type_part(crate, name)
        if len(found) != 1:
            raise Unreadable("%s: the sources have it %d times" % (named, len(found)))
        where, it = found[0]
        block = self.files(crate)[where][it.first : it.last]
        clauses = self.members(block, where)
        head = self.shown(where, it.first, it.first).rstrip(" {")
        return Part(named, where, "statement", "\n".join(clauses), self.head(block), self.scope_of(where, block),
                    "\n    ".join([head] + clauses))

    @staticmethod
    def head(block: str) -> str:
        """The line that begins an impl or a trait."""
        return " ".join(block[: block.find("{")].split())

    def read_function(self, named: str, wanted: List[str], owner: str, where: str, text: str, first: int,
                      at: int) -> Part:
        """What a function requires, and what it ensures: all, or the clauses that are wanted; of a trait
        its ghost members too. `first` is where its impl or trait begins."""
        clause = re.compile(r"\s*(requires|ensures)\s*(\w*)\s*\{")
        place = min(end for end in (text.find(mark, at) for mark in ("requires", "ensures", "{", ";\n")) if end > 0)
        signature, found = text[at:place].rstrip(), []
        head = self.shown(where, at, at + len(signature))
        match = clause.match(text, place)
        while match:
            begin, place = match.start(1), closed(text, match.end() - 1)
            found.append((match[2], " ".join([match[1], match[2], text[match.end() - 1 : place]]),
                          self.shown(where, begin, place - 1), match[1]))
            match = clause.match(text, place)
        if not found or not re.match(r"\s*[{;]", text[place:]):
            raise Unreadable("%s: it has no contract, or another clause" % named)
        for name in wanted:
            if [clause_name for clause_name, *_ in found].count(name) != 1:
                raise Unreadable("%s: the contract has no clause %s, or two" % (named, name))
        block = text[first : closed(text, text.index("{", first))] if owner else ""
        members = self.members(block, where)
        chosen = [each for each in found if not wanted or each[0] in wanted or each[3] == "requires"]
        shown = members + [head] + [textwrap.indent(each[2], "    ").rstrip(";") for each in chosen]
        if block.startswith("impl"):
            signature = self.head(block) + " " + re.sub(r"\bSelf\b", owner, signature)
        return Part(named, where, "statement", "\n".join(members + [each[1] for each in chosen]), signature,
                    self.scope_of(where, block), "\n".join(shown))

    def definition(self, target: Target) -> Optional[Part]:
        """The definition of a target; nothing for a name of Rust that is no type's."""
        if target[0] == "unclear":
            raise Unreadable(target[1])
        if target[0] == "type":
            return self.type_part(target[1], target[2])
        _, crate, module, name = target
        read = self.module(crate, module)
        if name in read.unclear:
            raise Unreadable("%s: specs/%s.antt: %s" % (crate, module, read.unclear[name]))
        if name in read.owners:
            name = read.owners[name]
        if name in read.parts:
            return read.parts[name]
        if name in read.handed_on:
            return self.definition(read.handed_on[name])
        raise Unreadable("%s: specs/%s.antt defines no %s" % (crate, module, name))
