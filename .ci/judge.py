"""Which wrong bodies the prover refuses, and how that is found: for .ci/wrong, whose page says the rule.

A verdict rests on this file and on edits.py. A digest of both stands beside each that is on record, so
what does not judge, as options and records, stands in .ci/wrong."""
import contextlib
import hashlib
import os
import re
import resource
import shutil
import signal
import subprocess
import sys
import tempfile
import threading
import time

import edits

ROOT = os.path.dirname(os.path.dirname(os.path.realpath(__file__)))
PARTS = ("src", "specs", "proofs")
# Memory that a check may take, in bytes: the largest crates have taken as much.
NEED = 2_500_000_000
# After so many processor seconds a check of some functions ends, and its edits are tried alone; and
# a check of a whole crate ends without a verdict.
LIMIT, LIMIT_ALONE = 600, 1200

MEANING = "refused by meaning"
NAME = "refused by name only"
ACCEPTED = "NOT REFUSED"
UNTRIED = "NOT TRIED"
# In a check of several: it may be hidden by another edit, or it may not be refused at all.
HIDDEN, UNCLEAR = "hidden", "unclear"

# What a check prints.
FUNCTION = re.compile(r"fn (\S+): (.*)")
OTHER = re.compile(r"(struct|enum|union|impl|trait) (\S+): (?!proved)")
ERROR = re.compile(r"(?:\./)?(\S+?):\d+:\d+: error(\[[\w-]+\])?: (.*)")
OPEN = re.compile(r"note: \S+:\d+:\d+: it is not proved that")
IS_FALSE = "allow values at which this goal is false"
CALLS = re.compile(
    r"it calls (.*), which (?:is|are) not proved|a call of (`[^`]*`), which has no proof"
)
# Of a proof that names what the code no longer has, and of what cites that proof.
MISSING = re.compile(r"has no field|is not in scope|has no `|was not admitted")
# Of a text that has no meaning, where a statement that is only false has one.
SENSELESS = re.compile(
    r"is not in scope|has no field|is no name|operand is missing|expected the end|cannot continue"
)


def stop(why):
    print(f"wrong: {why}", file=sys.stderr)
    sys.exit(2)


# A second signal may come while the first one is dealt with, so the lock can be taken twice.
RUNNING, LOCK = set(), threading.RLock()


def ran(words, folder, limit=None):
    """Runs a command that ends with this script, for so many processor seconds at most. Returns its
    status and what it said."""
    how = {"cwd": folder, "stdin": subprocess.DEVNULL, "stdout": subprocess.PIPE}
    how.update(stderr=subprocess.STDOUT, errors="replace", start_new_session=True)
    with LOCK:
        it = subprocess.Popen(words, **how)
        RUNNING.add(it)
    try:
        if limit:
            with contextlib.suppress(ProcessLookupError):
                resource.prlimit(it.pid, resource.RLIMIT_CPU, (limit, limit))
        # By the clock too, for one that waits. Others may keep the processors busy.
        text = it.communicate(timeout=limit and 10 * limit)[0]
    except subprocess.TimeoutExpired:
        os.killpg(it.pid, signal.SIGKILL)
        text = it.communicate()[0]
    finally:
        with LOCK:
            RUNNING.discard(it)
    return it.returncode, text


def end_all(number, _):
    with LOCK:
        for it in RUNNING:
            with contextlib.suppress(ProcessLookupError):
                os.killpg(it.pid, signal.SIGKILL)
        shutil.rmtree(tempfile.gettempdir(), ignore_errors=True)
        os._exit(128 + number)


class Kit:
    """The toolchain that the `rt` of the PATH belongs to."""

    def __init__(self):
        if not shutil.which("rt"):
            stop("the command rt is missing: install the Rattle toolchain and put it on the PATH")
        status, page = ran(["rt", "doc"], ROOT)
        self.folder = os.path.dirname(page.strip())
        self.rattle = f"{self.folder}/bin/rattle"
        self.project = f"{self.folder}/rattle/logic/antt-project.json"
        self.logic = f"{self.folder}/logic_built"
        for it in (self.rattle, self.project, self.logic, f"{self.folder}/rlibs"):
            if status or not os.path.exists(it):
                stop(f"this toolchain is laid out in another way: there is no {it}")


class Crate:
    def __init__(self, name, kind, uses, all_crates, line):
        self.name, self.kind, self.uses, self.all, self.line = name, kind, uses, all_crates, line
        self.folder = f"{ROOT}/crates/{name}"
        self.rlib = f"{self.folder}/out/rlib/{name}.rlib"

    def below(self):
        """The repository's crates below this one, each after those that it uses."""
        found = []
        for it in self.uses:
            if it in self.all:
                found += [low for low in [*self.all[it].below(), self.all[it]] if low not in found]
        return found

    def words(self, kit):
        """The words after `rattle check` for this crate over the libraries that are built."""
        is_program = os.path.isfile(f"{self.folder}/src/main.rt")
        words = ["--crate-name", self.name, "src/main.rt" if is_program else "src/lib.rt"]
        for it in ["std", *(it for it in self.uses if it not in self.all)]:
            words += ["--extern", f"{it}={kit.folder}/rlibs/{it}.rlib"]
        words += ["-L", f"dependency={kit.folder}/rlibs"]
        for it in self.uses:
            if it in self.all:
                words += ["--extern", f"{it}={self.all[it].rlib}"]
        for it in self.below():
            words += ["-L", f"dependency={os.path.dirname(it.rlib)}"]
        words += ["--antt-project", kit.project, "--logic-built", kit.logic]
        words += ["--jobs", "1", "--links", f"{self.name}="]
        return words + (["--crate-type", "staticlib"] if self.kind else [])

    def changed(self):
        """When a file of the crate was last changed, made or removed, or put there with an older time."""
        times = [0.0]
        for part in PARTS:
            for at, _, files in os.walk(f"{self.folder}/{part}"):
                paths = [at, *(f"{at}/{name}" for name in files)]
                times += [max(it.st_mtime, it.st_ctime) for it in map(os.stat, paths)]
        return max(times)

    def sources(self):
        """The text of each .rt file, by its path in the crate."""
        found = {}
        for at, _, files in os.walk(f"{self.folder}/src"):
            for name in files:
                if name.endswith(".rt"):
                    with open(f"{at}/{name}", encoding="utf-8", newline="") as file:
                        found[os.path.relpath(f"{at}/{name}", self.folder)] = file.read()
        return found

    def built(self):
        """When the crate's library came here, or 0.0. (Its files may be those of an earlier run, with the
        times of that one; their folder is new.)"""
        try:
            os.stat(f"{self.rlib}/format")
            return os.stat(self.rlib).st_ctime
        except OSError:
            return 0.0

    def is_library(self):
        return not self.kind and not os.path.isfile(f"{self.folder}/src/main.rt")


def crates_of():
    found = {}
    with open(f"{ROOT}/crates.txt", encoding="utf-8") as file:
        for line in file:
            line = line.partition("#")[0].strip()
            if not line:
                continue
            head, _, uses = line.partition(":")
            name, *kinds = head.split()
            others = [it for it in kinds if it != "staticlib" and "=" not in it]
            if others:
                stop(f"crates.txt: {name} is of a kind that this script doesn't know: {others[0]}")
            uses = uses.replace(",", " ").split()
            found[name] = Crate(name, "staticlib" in kinds, uses, found, " ".join(line.split()))
    return found


def have_built(crates, all_crates, are_proved):
    """Has the libraries below these crates as the sources are. What isn't built at all is told, and
    what is older than its sources is left to rt, which knows whether it still fits. Where all are said
    to be proved as they are, such a one is an error, that of a crate that is tried too."""
    wanted = {low.name for it in crates for low in it.below()}
    if are_proved:
        wanted |= {it.name for it in crates if it.is_library()}
    wanted = sorted((all_crates[it] for it in wanted), key=lambda it: len(it.below()))
    missing = [it.name for it in wanted if not it.built()]
    if missing:
        stop(f"not built: {' '.join(missing)}. Run release/build, or rt lib in each crate")
    older = [it.name for it in wanted if are_proved and it.built() <= it.changed()]
    if older:
        stop(f"older than their sources, so not proved as they are: {' '.join(older)}")
    for it in wanted if not are_proved else []:
        sources = max(it.changed(), *(low.built() for low in it.below()), 0.0)
        if it.built() <= sources:
            print(f"wrong: {it.name} is older than its sources: rt lib", file=sys.stderr)
            if ran([f"{ROOT}/tools/rt", "lib", "--jobs", "1"], it.folder)[0]:
                stop(f"{it.name} is not proved: run rt lib in {it.folder}")


def folders_of(name):
    """The folders that a function's own proofs may be in: the second if it calls itself."""
    path, _, last = f"proofs/{name.replace('::', '/')}".rpartition("/")
    return f"{path}/{last}/", f"{path}/+{last}/"


class Answer:
    """What a check printed."""

    def __init__(self, status, text):
        self.status, self.lines = status, text.rstrip("\n").split("\n")
        # The line of each function, the notes on its open goals; errors with their file.
        self.functions, self.goals, self.errors, self.others, notes = {}, {}, [], [], []
        for line, more in zip(self.lines, [*self.lines[1:], ""]):
            at = ERROR.match(line)
            if at:
                # An error that begins with a long name goes on in the next line.
                more = f" {more.strip()}" if more.startswith("  ") else ""
                self.errors.append((at[1], at[2], at[3] + more, line + more))
            if OPEN.match(line):
                notes.append(line)
            if OTHER.match(line):
                self.others.append(line)
            at = FUNCTION.match(line)
            if at:
                name = at[1].partition("::")[2]
                self.functions[name], self.goals[name], notes = at[2], notes, []

    def compiled(self):
        """Whether the code and what is stated had a meaning, so that functions were tried."""
        read = any(kind or file.startswith(("src/", "specs/")) for file, kind, _, _ in self.errors)
        return bool(self.functions) and not read and not self.is_stale()

    def is_stale(self):
        return any("Run the lower steps again" in line for line in self.lines)

    def errors_of(self, name):
        """The errors in a function's own proof files."""
        return [it for it in self.errors if it[0].startswith(folders_of(name))]

    def has_lost(self, name):
        """Whether what is stated of a function's loops has a name that is missing. Then it isn't
        known, so that goals are open, or even false, which says nothing of the code."""
        files = [file for file, _, text, _ in self.errors_of(name) if MISSING.search(text)]
        return any(it.endswith("/Invariants.antt") for it in files)

    def parts(self, name):
        """A function and the closures in it, as the check names them."""
        found = [name]
        for it in self.functions:
            path, inside, rest = f"::{it}".rpartition("::fn::")
            if inside and f"{path}::{rest}".startswith(f"::{name}::"):
                found.append(it)
        return found

    def called(self, name):
        """The functions that aren't proved and that this one calls."""
        said = CALLS.search(self.functions.get(name, ""))
        names = re.findall(r"`([^`]+)`", said[1] or said[2]) if said else []
        return {it.partition("::")[2] for it in names}

    def of_one(self, names):
        """What the check says of an edit of these functions, and the line that says so."""
        is_hidden, missing = False, ""
        for name in names:
            parts = self.parts(name)
            for it in parts:
                said = self.functions.get(it, "")
                if self.called(it) - {*parts}:
                    is_hidden = True
                    continue
                own = self.errors_of(it)
                meant = [line for _, _, text, line in own if not MISSING.search(text)]
                missing = missing or (own[0][3] if own else "")
                if self.has_lost(it):
                    continue
                # Where a name is missing, a goal may be open because its answer has another name.
                goals = [line for line in self.goals.get(it, ()) if IS_FALSE in line or not own]
                if said.startswith("not proved") and meant:
                    return MEANING, meant[0]
                if said.startswith(("not proved", "no proof: expected answers")) and goals:
                    return MEANING, goals[0]
        return (HIDDEN if is_hidden else UNCLEAR), missing

    def is_clear(self, names):
        """Whether nothing failed but these functions, and what calls them."""
        if self.status not in (0, 1) or not self.compiled() or self.others:
            return False
        if not re.match(r"only=\d+ proved=\d+$", self.lines[-1]):
            return False
        own = {part for name in names for part in self.parts(name)}
        folders = tuple(folder for it in own for folder in folders_of(it))
        for it, said in self.functions.items():
            is_above = said.startswith("no proof: ") and self.called(it)
            if it not in own and said != "proved" and not is_above:
                return False
        return all(file.startswith(folders) for file, _, _, _ in self.errors)

    def of_whole(self, texts):
        """What a check of the whole crate says of the one edit in it, as `rt must-fail` does."""
        if self.status == 0:
            return ACCEPTED, "the crate is proved with it"
        for file, kind, text, line in self.errors:
            if kind:
                return UNTRIED, f"it does not compile: {line}"
            named = re.match(r"`[^`]*`: ", text)
            if file in texts or file.startswith(("src/", "specs/")):
                if not named or SENSELESS.search(re.sub(r"`[^`]*`", "", text)):
                    return UNTRIED, f"the prover can't read it: {line}"
        is_judged = self.status == 1 and self.lines[-1].startswith("logic=not-proved")
        if not is_judged or self.is_stale():
            return UNTRIED, f"the prover gives no verdict: {self.lines[-1]}"
        lost = [it for it in self.functions if self.has_lost(it)]
        folders = tuple(folder for it in lost for folder in folders_of(it))
        is_missing = lambda file, text: file.startswith("proofs/") and MISSING.search(text)
        is_said = lambda file, text: not is_missing(file, text) and not file.startswith(folders)
        said = [line for file, _, text, line in self.errors if is_said(file, text)]
        missing = [line for file, _, text, line in self.errors if is_missing(file, text)]
        # Where a name is missing, a goal may be open because its answer has another name.
        for name, line in self.functions.items():
            if name in lost:
                continue
            said += [it for it in self.goals[name] if IS_FALSE in it or not missing]
            said += [f"fn {name}: {line}"] if "did not prove" in line and not missing else []
        open_ones = [f"fn {it}: {line}" for it, line in self.functions.items() if line != "proved"]
        return (MEANING, said[0]) if said else (NAME, [*missing, *open_ones, self.lines[-1]][0])


class Edit:
    def __init__(self, crate, file):
        self.crate, self.file = crate, file
        self.name = re.sub(r"\.edit\Z", "", os.path.basename(file))
        self.verdict, self.why, self.texts, self.change, self.how = None, "", {}, None, ""

    def set(self, verdict, why, how):
        self.verdict, self.why, self.how = verdict, why, how

    def is_named(self):
        """Whether it changes bodies alone, of functions whose names are known."""
        if self.change.states or self.change.proofs or self.change.other:
            return False
        names = self.change.names()
        return bool(names) and None not in names


class Trial:
    """The edits of a crate, over what is kept of its proof in a folder of this run."""

    def __init__(self, kit, crate, chosen, options):
        self.kit, self.crate, self.edits, self.options = kit, crate, chosen, options
        self.checks, self.wholes = 0, False

    def run(self):
        begun = time.monotonic()
        with tempfile.TemporaryDirectory(prefix="wrong-") as room:
            self.room, self.kept = room, f"{room}/kept"
            self.read()
            tried = [it for it in self.edits if not it.verdict]
            if tried:
                before = f"{self.crate.folder}/out/incremental"
                if os.path.isdir(before):
                    shutil.copytree(before, self.kept)
                os.makedirs(self.kept, exist_ok=True)
                if not self.options.each:
                    self.try_together([it for it in tried if it.is_named()])
                for it in tried:
                    if not it.verdict:
                        self.try_alone(it)
                # (what leaves no library says nothing of when it was proved)
                is_known = self.options.proved and self.crate.is_library()
                if not is_known and not self.is_proved(tried):
                    why = f"{self.crate.name} is not proved as it is: run rt check there"
                    for it in tried:
                        it.set(UNTRIED, why, "")
        self.seconds = time.monotonic() - begun
        return self

    def read(self):
        for it in self.edits:
            try:
                if not edits.named_well(os.path.basename(it.file)):
                    why = "its name is not of letters, digits, _, - and ., or doesn't end in .edit"
                    raise edits.Unreadable(why)
                it.texts = edits.applied(it.file, self.crate.folder)
            except edits.Unreadable as error:
                it.set(UNTRIED, str(error), "")
        read = [it for it in self.edits if not it.verdict]
        self.texts = self.crate.sources()
        before = edits.tokens_of(self.kit.rattle, self.texts)
        homes = edits.homes_of(before)
        texts = [(it.file, path, text) for it in read for path, text in it.texts.items()]
        after = {(file, path): text for file, path, text in texts if path in before}
        after = edits.tokens_of(self.kit.rattle, after)
        for it in read:
            texts = {path: after.get((it.file, path)) for path in it.texts}
            it.change = edits.change_of(it.texts, before, texts, homes)
            if it.change.states:
                why = f"it changes what is stated, in {it.change.states[0]}"
                it.set(UNTRIED, f"{why}, so it says nothing of a body", "")
            elif it.change.proofs and not it.change.bodies and not it.change.other:
                why = f"it changes a proof alone, {it.change.proofs[0]}"
                it.set(UNTRIED, f"{why}, so it says nothing of a body", "")

    def check(self, texts, names=None, limit=LIMIT_ALONE):
        """Checks a copy of the crate with these texts in it: all, or these functions alone."""
        with tempfile.TemporaryDirectory(prefix="copy-", dir=self.room) as copy:
            for part in PARTS:
                if os.path.isdir(f"{self.crate.folder}/{part}"):
                    shutil.copytree(f"{self.crate.folder}/{part}", f"{copy}/{part}")
            for path, text in texts.items():
                with open(f"{copy}/{path}", "w", encoding="utf-8", newline="") as file:
                    file.write(text)
            words = [self.kit.rattle, "check", *self.crate.words(self.kit)]
            words += ["--incremental", self.kept]
            for name in names or ():
                words += ["--only", name]
            self.checks += 1
            status, text = ran(words, copy, limit)
        if status < 0:
            text += f"\nit had not ended after {limit} processor seconds, or was killed"
        return Answer(status, text)

    def try_together(self, waiting):
        """Tries edits of different functions in one check, until each is refused by meaning or left
        to be tried alone."""
        single = [it for it in waiting if it.change.is_seen()]
        waiting = [it for it in waiting if not it.change.is_seen()]
        while waiting:
            group, later, taken = [], [], set()
            for it in waiting:
                names = {*it.change.names()}
                (later if names & taken else group).append(it)
                taken |= names if it in group else set()
            hidden = self.try_group(group)
            if len(hidden) == len(group):
                # Each hides another one, so none can stand beside the others.
                single, hidden = single + hidden, []
            waiting = later + hidden
        for it in single:
            self.try_group([it])

    def try_group(self, group):
        """Tries these edits in one check, and returns those that another one of them may hide."""
        names = [name for it in group for name in it.change.names()]
        answer = self.check(self.merged(group), names, LIMIT)
        if not answer.is_clear(names):
            if len(group) == 1:
                # Its own failure says enough, whatever else failed through it.
                self.take(group[0], answer, 1)
                return []
            half = len(group) // 2
            return self.try_group(group[:half]) + self.try_group(group[half:])
        taken = [(it, self.take(it, answer, len(group))) for it in group]
        return [it for it, verdict in taken if verdict == HIDDEN and len(group) > 1]

    def take(self, edit, answer, count):
        verdict, why = answer.of_one(edit.change.names())
        if verdict == MEANING and answer.status == 1 and answer.compiled():
            edit.set(MEANING, why, f"with {count - 1} more" if count > 1 else "")
        return verdict

    def merged(self, group):
        """The texts of the files with the bodies of all these edits."""
        bodies = {}
        for it in group:
            for path, before, after in it.change.bodies:
                new = it.texts[path].encode()[after.start:after.end]
                bodies.setdefault(path, []).append((before.start, before.end, new))
        made = {}
        for path, parts in bodies.items():
            text = self.texts[path].encode()
            for start, end, new in sorted(parts, reverse=True):
                text = text[:start] + new + text[end:]
            made[path] = text.decode()
        return made

    def try_alone(self, edit):
        answer = self.check(edit.texts)
        edit.set(*answer.of_whole(edit.texts), "alone")
        self.wholes = True

    def is_proved(self, tried):
        """Whether the functions are proved as they are, or the crate, if it was checked whole."""
        if self.wholes:
            return self.check({}).status == 0
        names = sorted({name for it in tried for name in it.change.names()})
        return self.check({}, names).status == 0
