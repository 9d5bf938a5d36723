"""Wrong bodies as files: how an edit is read, and which functions it changes.

An edit is a file NAME.edit with a line `file: src/lexer.rt` and then pairs of lines `old: TEXT` and
`new: TEXT`, where each TEXT stands in that file exactly once. Further `file:` lines may follow.
`rt must-fail` reads it in the same way.

Which functions an edit changes is told by the prover's own tokens (`rattle fmt --tokens`), of the
file before and after: the edit is of bodies alone if no token outside the bodies changes.
"""
import json
import os
import re
import subprocess
import tempfile


PARTS = ("src", "specs", "proofs")


class Unreadable(Exception):
    """Why an edit can't be read or applied."""


def named_well(name):
    return re.fullmatch(r"[A-Za-z0-9_-][A-Za-z0-9_.-]*\.edit", name)


def applied(edit, folder):
    """Returns the whole text of each file of the crate that the edit changes, by its path there."""
    try:
        with open(edit, encoding="utf-8") as file:
            lines = file.read().split("\n")
    except (OSError, UnicodeDecodeError) as error:
        raise Unreadable(f"it cannot be read: {error}")
    path, old, texts, pairs = None, None, {}, 0
    for line in lines:
        if line.startswith("file: "):
            path = line[len("file: "):].strip()
            if os.path.normpath(path) != path or path.split("/")[0] not in PARTS:
                raise Unreadable(f"{path} is no file below src/, specs/ or proofs/")
        elif line.startswith("old: "):
            old = line[len("old: "):]
        elif line.startswith("new:"):
            new = re.sub(r"\A ", "", line[len("new:"):])
            if not path or not old:
                raise Unreadable("a 'new:' line stands before any 'file:' or 'old:' line")
            if path not in texts:
                try:
                    with open(f"{folder}/{path}", encoding="utf-8") as file:
                        texts[path] = file.read()
                except (OSError, UnicodeDecodeError):
                    raise Unreadable(f"there is no file {path}")
            found = texts[path].count(old)
            if found != 1:
                raise Unreadable(f"an 'old:' text is in {path} {found} times, and not once")
            texts[path] = texts[path].replace(old, new)
            old, pairs = None, pairs + 1
    if not pairs:
        raise Unreadable("it has no 'old:' and 'new:' pair")
    return texts


class Token:
    """A token of a file: its bytes from start to end, and whether it is of code or stated."""

    def __init__(self, start, end, kind, text):
        self.start, self.end, self.kind, self.text = start, end, kind, text


def tokens_of(rattle, texts):
    """Returns the tokens of each text of a .rt file, by its key; None for one without any."""
    found = {}
    with tempfile.TemporaryDirectory(prefix="wrong-tokens-") as room:
        files = {}
        for at, (key, text) in enumerate(texts.items()):
            files[key] = f"{room}/{at}.rt"
            with open(files[key], "w", encoding="utf-8", newline="") as file:
                file.write(text)

        def read(keys):
            words = [rattle, "fmt", "--tokens", *(files[key] for key in keys)]
            ran = subprocess.run(words, stdin=subprocess.DEVNULL, capture_output=True)
            parts = re.split(r"(?m)^file \d+\n", ran.stdout.decode("utf-8", "replace"))[1:]
            if ran.returncode == 0 and len(parts) == len(keys):
                found.update((key, rows(part)) for key, part in zip(keys, parts))
            elif len(keys) == 1:
                found[keys[0]] = None
            else:
                # One text with no tokens hides those of all others.
                for key in keys:
                    read([key])

        if files:
            read([*files])
    return found


def rows(part):
    made = []
    for row in part.splitlines():
        _, start, end, kind, text = row.split(" ", 4)
        made.append(Token(int(start), int(end), kind, json.loads(text)))
    return made


class Function:
    """A function with a body: its name as a check prints it, without the crate's, or None where
    that isn't known; the bytes of its body with the braces; and the body's tokens."""

    def __init__(self, name, start):
        self.name, self.start, self.end, self.tokens = name, start, None, []
        # Whether a change of its body might be seen elsewhere than in this function's own proof.
        self.is_seen = False


# Words that in a body may begin an item, which can reach past the function.
ITEMS = {"fn", "impl", "struct", "enum", "union", "trait", "mod", "static", "extern", "macro_rules"}


class Unclear(Exception):
    """A text whose functions aren't found for sure."""


def types_of(tokens):
    """Returns the names of the types that a file declares."""
    is_type = lambda it: it.kind == "Code" and it.text in ("struct", "enum", "union")
    return {two.text for one, two in zip(tokens, tokens[1:]) if is_type(one)}


def functions_of(tokens, module, homes):
    """Returns the file's functions that stand in modules and impls, in their order, and the tokens
    outside their bodies: a list between each two bodies. homes has the module of each type."""
    found, gaps, stack, head, depth, body = [], [[]], [], [], 0, None
    for token in tokens:
        if depth and token.kind in ("Code", "Literal"):
            token.kind = "Antt"
        (body.tokens if body else gaps[-1]).append(token)
        if token.kind == "Head":
            depth += token.text == "{"
        elif token.kind == "End":
            depth -= 1
        elif token.kind in ("Antt", "Text"):
            continue
        elif token.kind == "Literal":
            head.append('""')
        elif token.text == "{":
            inside, name, attributes, words = opened(head, module, stack, homes)
            stack.append((inside, name))
            if inside == "fn" and not body and all(it in ("mod", "impl") for it, _ in stack[:-1]):
                gaps[-1].pop()
                body = Function(name, token.start)
                body.tokens.append(token)
                body.level = len(stack)
                body.is_seen = "cycle" in attributes or "impl" in words or words[0] == "const"
            head = []
        elif token.text in ("(", "["):
            stack.append((token.text, None))
            head.append(token.text)
        elif token.text in (")", "]", "}"):
            if not stack or (stack[-1][0] in "([") != (token.text in ")]"):
                raise Unclear
            if body and len(stack) == body.level:
                body.end = token.end
                found.append(body)
                gaps.append([])
                body = None
            stack.pop()
            head = [*head, token.text] if token.text in ")]" else []
        elif token.text == ";" and not (stack and stack[-1][0] in "(["):
            head = []
        else:
            head.append(token.text)
            if body and token.text in ITEMS:
                body.is_seen = True
    if stack or depth or body:
        raise Unclear
    return found, gaps


def opened(head, module, stack, homes):
    """Returns what a brace opens, by the words before it: 'fn', 'impl', 'mod' or 'other'; its name;
    and the words of its attributes and of the item."""
    words, attributes = [*head], []
    while words[:2] == ["#", "["]:
        level, at = 1, 2
        while level and at < len(words):
            level += (words[at] == "[") - (words[at] == "]")
            at += 1
        attributes += words[2:at]
        words = words[at:]
    if words[:1] == ["pub"]:
        words = words[words.index(")") + 1:] if words[1:2] == ["("] else words[1:]
    while words[:1] and words[0] in ("unsafe", "default", "extern", '""'):
        words = words[1:]
    if "test" in attributes:
        return "other", None, attributes, words
    if words[:1] == ["mod"] and len(words) == 2:
        return "mod", words[1], attributes, words
    if words[:1] == ["impl"]:
        return "impl", name_of_impl(words[1:]), attributes, words
    at = 1 if words[:1] == ["const"] else 0
    if words[at:at + 1] == ["fn"] and re.fullmatch(r"\w+", "".join(words[at + 1:at + 2])):
        # A brace after one of these is an argument's, and the body comes later.
        if words[-1] in ("<", ",", "="):
            raise Unclear
        names = [name for _, name in stack]
        # A type's methods have the name of the module that declares the type, wherever the impl is.
        if names and names[-1] in homes:
            module, names = homes[names[-1]], names[-1:]
        parts = [*module, *names, words[at + 1]]
        return "fn", "::".join(parts) if None not in parts else None, attributes, words
    return "other", None, attributes, words


def name_of_impl(words):
    """Returns the name that the functions of an impl have in it, as PlaceDebug, or None."""
    parts, level = [[]], 0
    for at, word in enumerate(words):
        is_arrow = word == ">" and at and words[at - 1] in ("-", "=")
        level += (word == "<") - (word == ">" and not is_arrow)
        if word == "for" and not level:
            parts.append([])
        elif word == "where" and not level:
            break
        else:
            parts[-1].append(word)
    if parts[0][:1] == ["<"]:
        level, at = 0, 0
        for at, word in enumerate(parts[0]):
            level += (word == "<") - (word == ">" and parts[0][at - 1] not in ("-", "="))
            if not level:
                break
        parts[0] = parts[0][at + 1:]
    if len(parts) > 2 or not all(parts):
        return None
    # A trait with arguments has them in the name: ToolFaultFromRunFault.
    made = ""
    for part in reversed(parts):
        words = [it for it in part if re.fullmatch(r"[A-Za-z_]\w*", it)]
        path = part[:part.index("<")] if "<" in part else part
        names = [it for it in path if re.fullmatch(r"[A-Za-z_]\w*", it)]
        if not names or not set(path) <= {*names, ":"}:
            return None
        made += names[-1]
        if part is parts[0] and len(parts) == 2 and "<" in part:
            made += "".join(it for it in words[len(names):])
    return made


class Change:
    """What an edit changes: functions by file, with their bodies before and after; and files in
    which it changes what is stated (a clause, specs), proofs, or code outside of all bodies."""

    def __init__(self):
        self.bodies, self.states, self.proofs, self.other = [], [], [], []

    def names(self):
        return [before.name for _, before, _ in self.bodies]

    def is_seen(self):
        return any(it.is_seen for _, *both in self.bodies for it in both)


# The kinds of tokens, as rattle names them.
CODE = ("Code", "Literal")
STATED = ("Head", "Antt", "Text", "End")


def words(gaps, kinds):
    return [[it.text for it in gap if it.kind in kinds] for gap in gaps]


def change_of(texts, before, after, homes):
    """Returns what an edit changes: texts are its files; before and after their tokens."""
    made = Change()
    for path in texts:
        if path.startswith("specs/"):
            made.states.append(path)
            continue
        if path.startswith("proofs/"):
            made.proofs.append(path)
            continue
        try:
            # A file with no tokens, or that is none of code.
            if before.get(path) is None or after.get(path) is None:
                raise Unclear
            old, gaps_before = functions_of(before[path], module_of(path), homes)
            new, gaps_after = functions_of(after[path], module_of(path), homes)
        except Unclear:
            made.other.append(path)
            continue
        if words(gaps_before, CODE) != words(gaps_after, CODE):
            made.other.append(path)
        stated = [words(gaps, STATED) for gaps in (gaps_before, gaps_after)]
        if len(old) != len(new):
            # With a function more or less, clauses stand between other bodies, and may be the same.
            stated = [sum(it, []) for it in stated]
        if stated[0] != stated[1]:
            made.states.append(path)
        for one, two in zip(old, new):
            if [it.text for it in one.tokens] != [it.text for it in two.tokens]:
                made.bodies.append((path, one, two))
    return made


def module_of(path):
    parts = path[len("src/"):-len(".rt")].split("/")
    return [] if parts in (["lib"], ["main"]) else parts[:-1] if parts[-1] == "mod" else parts


def homes_of(tokens):
    """Returns the module that declares each type, by the tokens of all files of a crate. A type
    that is declared twice has none."""
    found = {}
    for path, rows in tokens.items():
        for name in types_of(rows or []):
            found[name] = [None] if name in found else module_of(path)
    return found
