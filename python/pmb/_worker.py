"""What a worker of a Dask cluster does with a capture or a piece of one, for `pmb.cluster`.

All of it is sent to the workers as it is here, so what they are given and what they return is plain
data, and nothing else of the package is used.

A piece other than the first is read after a front: packets that tell PAGE, PHASE and VOUT_MODE as
the capture has told them up to there, and a refusal where something was lost, which is where a line
was dropped, or there was a refusal at which a device may have been written to. `tells` finds what a
piece tells of these, from its end backwards and no further than needed, and `reduced` keeps what
still counts. What the front itself counts is subtracted again by the caller.

The program gets a piece from its file, and writes objects and refusals into a file of the folder
that the caller names. The caller is sent the file's name, and no text. For `json` a filler comes
first, a refused packet and empty lines, so that the program itself counts on from where the piece
begins. Only the high digits of large numbers are put in afterwards. """

import contextlib
import errno
import fcntl
import importlib
import importlib.util
import itertools
import json
import os
import re
import shutil
import subprocess
import tempfile
import threading
import uuid
from typing import (
    IO,
    Any,
    BinaryIO,
    Callable,
    Dict,
    Iterable,
    Iterator,
    List,
    Optional,
    Set,
    Tuple,
    Union,
)

# How many bytes are read, or handed to the program, at a time; and of objects, which are searched
# faster in parts that the processor's cache holds.
_CHUNK = 1 << 20
_PART = 1 << 18
# How many bytes of a piece's end are searched first for what it tells, and at most at a time.
_FIRST_BLOCK, _MOST_BLOCK = 1 << 18, 1 << 22
# The sizes of pieces, if none is asked for.
_LEAST_PIECE, _MOST_PIECE = 8 << 20, 64 << 20
# A filler gives the program all events before a piece if they are fewer than `_FILL_EVENTS`, and
# else one step and what is left of dividing by it. The same for lines.
_STEP_EVENTS, _FILL_EVENTS = 10**5, 2 * 10**5
_STEP_LINES, _FILL_LINES = 10**7, 4 * 10**7
# A line whose last word is `P`, whatever comment follows.
_ENDS_WITH_STOP = re.compile(rb"(?:[^#\n]*[ \t\r])?P[ \t\r]*(?:#[^\n]*)?\n")
_COMMENT = re.compile(rb"#[^\n]*")
_WORD = re.compile(rb"[^ \t\r\n]+")
_TOKEN = re.compile(rb"[SPAN]|[0-9A-Fa-f]{2}")
# A blank before a word that is no token, outside of comments.
_BAD_WORD = re.compile(rb"[ \t\r\n](?!(?:[SPAN]|[0-9A-Fa-f]{2})?(?![^ \t\r\n]))")
_SMALL = bytes(range(256)).lower()
# Where words and blanks are: what is no blank becomes an x.
_WORDS = bytes(32 if each in b" \t\r\n" else 120 for each in range(256))

# What goes to a worker, and what comes back.
Job = Dict[str, Any]
Answer = Dict[str, Any]
# What a packet tells of a device: its address, what (`page`, `phase`, `mode`, or `untold` for a
# restore), the data, and the transaction's line. That something was lost is told of no device.
Told = Tuple[str, str, str, str]
_LOST: Told = ("", "lost", "", "")
# What is kept of it, and the PAGE that was selected: `None` for that from before, and `_LOST` where
# it isn't known.
Kept = Tuple[Optional[Told], Told]
# What there is where a piece begins: what was told before it, and the numbers of events and lines.
Start = Tuple[List[Told], int, int]

# The start of a leg of a command that tells something, or that may leave VOUT_MODE untold.
_TELLS = re.compile(rb"S\s+[0-9A-Fa-f]{2}\s+A\s+(?:00|04|05|12|14|16|18|20)\s+A")
_RESTORES = ("12", "14", "16", "18")
_ANY_LEG = re.compile(rb"s..a(?:00|04|05|12|14|16|18|20)a")
# What `check` says of a refusal: how many events come before the refused one.
_REFUSAL = re.compile(rb"# refusal at ([0-9]+): ")
# What `profile` says of a device: its address byte of a write.
_ADDRESS = re.compile(rb"address +[0-9a-f]{2}, as a byte ([0-9a-f]{2}) to write")

# ---- where to cut


def cuts(capture: BinaryIO, block: int) -> List[int]:
    """Where a capture is cut into pieces of about `block` bytes: the places of its pieces' first
    bytes, and its end. Each cut is behind a line whose last word is `P`, so a packet or a time is
    never apart. `capture` is a file of bytes that can be sought.

    >>> import io
    >>> import pmb.cluster
    >>> text = b"S b0 A 03 A P # CLEAR_FAULTS\\n# up to P\\nS 40 N P\\nS 42 N P\\n"
    >>> pmb.cluster.cuts(io.BytesIO(text), 20)
    [0, 29, 58]
    >>> pmb.cluster.cuts(io.BytesIO(text), 100)
    [0, 58]
    """
    size = capture.seek(0, os.SEEK_END)
    found = [0]
    while found[-1] + block < size:
        # (from the last byte of the block on, so that a line may begin just behind it)
        capture.seek(found[-1] + block - 1)
        at = _after_stop(capture)
        if at >= size:
            break
        found.append(at)
    return found + [size]


def _after_stop(capture: BinaryIO) -> int:
    """Goes on to the end of the next line that begins here or later and ends with STOP, or to the
    end of the capture, and returns that place."""
    begun, line = False, b"-"
    while line:
        line = capture.readline(_CHUNK)
        if begun and _ends_with_stop(line):
            break
        # (what comes behind a part without an LF is no whole line)
        begun = line.endswith(b"\n")
    return capture.tell()


def _ends_with_stop(line: bytes) -> bool:
    """Whether a line ends with STOP, and has no bad token, with which its rest would be dropped."""
    words = b"\n" + _COMMENT.sub(b"", line)
    return _ENDS_WITH_STOP.fullmatch(line) is not None and _BAD_WORD.search(words) is None


# ---- on a worker


def program() -> str:
    """The program of this machine's package, of its clone, or of the path."""
    found = importlib.util.find_spec("pmb")
    for folder in (found.submodule_search_locations or []) if found else []:
        clone = os.path.dirname(os.path.dirname(os.path.abspath(folder)))
        for path in (os.path.join(folder, "pmb"), os.path.join(clone, "release", "pmb")):
            if os.path.isfile(path) and os.access(path, os.X_OK):
                return path
    path_of = shutil.which("pmb")
    if path_of is None:
        raise FileNotFoundError(errno.ENOENT, "there is no program pmb, and no package that has it")
    return path_of


class _Count:
    """How many events and lines a text has that comes in chunks: words that are outside of
    comments."""

    def __init__(self) -> None:
        self.events = self.lines = 0
        self._in_comment = self._in_word = False

    def of(self, chunks: Iterator[bytes]) -> Iterator[bytes]:
        """The chunks, counted as they go by."""
        for chunk in chunks:
            self.add(chunk)
            yield chunk

    def add(self, chunk: bytes) -> None:
        self.lines += chunk.count(b"\n")
        if self._in_comment:
            end = chunk.find(b"\n")
            if end < 0:
                return
            chunk = chunk[end:]
        self._in_comment = b"#" in chunk[chunk.rfind(b"\n") + 1 :]
        words = _COMMENT.sub(b" ", chunk).translate(_WORDS)
        self.events += words.count(b" x") + (words[:1] == b"x" and not self._in_word)
        self._in_word = words[-1:] == b"x"


def _chunks(path: str, begin: int, end: int) -> Iterator[bytes]:
    with open(path, "rb") as file:
        file.seek(begin)
        while begin < end:
            chunk = file.read(min(_CHUNK, end - begin))
            if not chunk:
                raise OSError(errno.EIO, "it became shorter while it was read", path)
            begin += len(chunk)
            yield chunk


class _Range:
    """Bytes of a file, which the system hands to the program without a copy here."""

    def __init__(self, path: str, begin: int, end: int) -> None:
        self.path, self.begin, self.end = path, begin, end

    def chunks(self) -> Iterator[bytes]:
        return _chunks(self.path, self.begin, self.end)


Given = Iterable[Union[bytes, _Range]]
_ENOUGH = "enough"


def _feed(stdin: BinaryIO, given: Given) -> None:
    for each in given:
        if isinstance(each, bytes):
            stdin.write(each)
            continue
        stdin.flush()
        begin = each.begin
        with open(each.path, "rb") as file, contextlib.suppress(AttributeError, OSError):
            # (not every system can do this; what is wrong otherwise is met again below)
            while begin < each.end:
                sent = os.sendfile(stdin.fileno(), file.fileno(), begin, each.end - begin)
                if not sent:
                    break
                begin += sent
        for chunk in _chunks(each.path, begin, each.end):
            stdin.write(chunk)


def _ran(
    words: List[str],
    given: Given,
    use: Callable[[BinaryIO], Any],
    out: Optional[IO[bytes]] = None,
) -> Tuple[Any, int]:
    """Runs the program over what is given, in a thread of its own, and uses what it writes; and the
    program's status. What it writes goes to `out` instead if there is one. `_ENOUGH` is returned
    where not all of it was used. An error of reading is raised here."""
    wrong: List[BaseException] = []
    with tempfile.TemporaryFile() as told:
        process = subprocess.Popen(
            [program(), *words],
            stdin=subprocess.PIPE,
            stdout=subprocess.PIPE if out is None else out,
            stderr=told,
        )
        stdin: Any = process.stdin
        stdout: Any = process.stdout
        with contextlib.suppress(AttributeError, OSError):
            # (a longer pipe means fewer changes of process)
            for pipe in (stdin, stdout):
                fcntl.fcntl(pipe.fileno(), 1031, _CHUNK)

        def feed() -> None:
            try:
                _feed(stdin, given)
            except BrokenPipeError:
                pass  # (the program has read enough)
            except BaseException as error:
                wrong.append(error)
            with contextlib.suppress(OSError):
                stdin.close()

        feeder = threading.Thread(target=feed)
        feeder.start()
        try:
            used = use(stdout) if out is None else None
        finally:
            # (what is not read any more ends the program, and so the thread)
            if out is None:
                stdout.close()
            feeder.join()
            status = process.wait()
        if wrong:
            raise wrong[0]
        if (status > 1 or status < 0) and used != _ENOUGH:
            told.seek(0)
            why = told.read(2000).decode("utf-8", "replace").strip()
            if status == 3 and out is not None:
                why = why or "write failed"
            _raise(status, why or "the program ended with status {}".format(status))
    return used, status


def _read_all(stdout: BinaryIO) -> bytes:
    return stdout.read()


def _raise(status: int, why: str) -> None:
    if status == 4:
        raise MemoryError(why)
    if status == 2:
        raise ValueError(why)
    raise OSError(errno.EIO, why)


def _worker() -> str:
    """The name of this worker, or nothing on another machine."""
    with contextlib.suppress(Exception):
        name: str = importlib.import_module("distributed").get_worker().address
        return name
    return ""


def version() -> str:
    """The name and the version of this machine's program, and the digits of its sources."""
    said = subprocess.run([program(), "--version"], stdout=subprocess.PIPE, check=True).stdout
    return ", ".join(said.decode("utf-8", "replace").splitlines())


@contextlib.contextmanager
def _naming(path: str) -> Iterator[None]:
    """Gives an error the worker's name, and one of reading the path."""
    where = " (on the worker {})".format(_worker()) if _worker() else ""
    try:
        yield
    except OSError as error:
        raise OSError(error.errno, "{}{}".format(error.strerror or error, where), path) from None
    except MemoryError as error:
        raise MemoryError("{}{}".format(error, where)) from None
    except ValueError as error:
        raise ValueError("{}{}".format(error, where)) from None


# ---- what a piece tells of PAGE, PHASE and VOUT_MODE


def _whole_lines(chunks: Iterator[bytes]) -> Iterator[bytes]:
    """The text in parts of whole lines, and then its last line if that has no end."""
    line = b""
    for chunk in chunks:
        text = line + chunk
        whole = text.rfind(b"\n") + 1
        line = text[whole:]
        yield text[:whole]
    yield line


def _mended(chunks: Iterator[bytes], instead: bytes) -> Iterator[bytes]:
    """The text without bad tokens: each of them, and the rest of its line, is replaced."""
    for text in _whole_lines(chunks):
        if _BAD_WORD.search(b"\n" + _COMMENT.sub(b"", text)):
            text = b"\n".join(_mended_line(line, instead) for line in text.split(b"\n"))
        yield text


def _mended_line(line: bytes, instead: bytes) -> bytes:
    words = _WORD.findall(_COMMENT.sub(b"", line))
    tokens = list(itertools.takewhile(_TOKEN.fullmatch, words))
    return line if len(tokens) == len(words) else b" ".join([*tokens, instead])


def _refusals(said: BinaryIO) -> Iterator[int]:
    """The numbers of the refused events that `check` tells of."""
    for line in said:
        found = _REFUSAL.match(line)
        if found is not None:
            yield int(found.group(1))


class _Losses:
    """Where something may be lost: a write to a device of the profile, in a packet that is refused or
    in what is passed over with it, may have set PAGE, PHASE or VOUT_MODE. (Where the refusal is in a
    reply, the legs of the packet itself don't count.)"""

    def __init__(self, job: Job) -> None:
        profile = [] if job["profile"] is None else [job["profile"]]
        said, _ = _ran(["profile", *_sample(job)], profile, _read_all)
        addresses = _ADDRESS.findall(said)
        # (outside of comments, S is always START)
        writes = b"|".join(addresses) or b"(?!)"
        self._writes = re.compile(rb"S(?:\s+[AN])*\s+(?i:%s)(?!\S)" % writes)
        # What was heard since the refusal, as far as it isn't looked at yet; and whether it had a write.
        self._rest, self._has_write = b"", False
        # A packet that is refused at its second START, behind which there is a write.
        self.mark = b" ".join([b"S S", *addresses[:1], b"P"])

    def refused(self, front: bytes) -> None:
        """Begins with the packet that is refused. Where a reply is read, the leg before it only says
        what is to be read."""
        leg = front.rpartition(b"S")[2].split()
        is_reply = b"S" in front and leg != [] and int(leg[0], 16) % 2 == 1
        self._rest, self._has_write = b"" if is_reply else front, False

    def pass_over(self, text: bytes) -> None:
        heard = self._rest + text
        self._has_write = self._has_write or self._writes.search(heard) is not None
        # (the address may come after the last START)
        _, start, rest = heard.rpartition(b"S")
        self._rest = b"S " if start and not set(rest.split()) - {b"A", b"N"} else b""

    def found(self) -> bool:
        return self._has_write


def _packets_and_losses(
    chunks: Iterator[bytes], refusals: Iterator[int], losses: _Losses
) -> Iterator[bytes]:
    """Of a text that has such refusals: the packets that may tell something, and a mark for each
    refusal at which something may be lost. No other refusal is there."""
    refusal = next(refusals, None)
    # What is left of the text so far, how many events come before it, and whether it is passed over
    # up to the next STOP.
    rest, before, passes = b" ", 0, False
    for lines in _whole_lines(chunks):
        # (outside of comments, P is always STOP and S is always START)
        text = rest + _COMMENT.sub(b" ", lines)
        words = b"" if refusal is None else text.translate(_WORDS)
        at, place = 0, 0
        while place >= 0:
            if passes:
                begun, at = at, text.find(b"P", at) + 1
                passes, at = not at, at or len(text)
                before += words.count(b" x", begun, at)
                losses.pass_over(text[begun:at])
                if not passes and losses.found():
                    yield losses.mark + b"\n"
            place = -1
            if refusal is not None and not passes:
                place = _place_of_word(words, at, refusal - before)
            stop = text.rfind(b"P", at, len(text) if place < 0 else place) + 1 or at
            yield from _packets_that_tell(text, at, stop)
            if refusal is not None and place >= 0:
                losses.refused(text[stop:place])
                # (the blank before the refused event)
                at, before, passes = place - 1, refusal, True
                refusal = next(refusals, None)
        before += words.count(b" x", at, stop)
        rest = text[stop:] or b" "


def _place_of_word(words: bytes, at: int, number: int) -> int:
    """Where a word begins, counted from 0 from a blank on, or -1 if there are not that many."""
    size = 64
    while True:
        count = words.count(b" x", at, at + size)
        if number < count:
            break
        if at + size >= len(words):
            return -1
        number, at, size = number - count, at + size - 1, 2 * size
    while size > 64:
        size = size // 2 + 1
        count = words.count(b" x", at, at + size)
        if number >= count:
            number, at = number - count, at + size - 1
    for _ in range(number + 1):
        at = words.index(b" x", at) + 1
    return at


def _packets_that_tell(text: bytes, begin: int, end: int) -> Iterator[bytes]:
    """The packets between two places of a text that have a leg of such a command, and maybe some
    more. Each ends with STOP."""
    stop = begin
    for found in _TELLS.finditer(text, begin, end):
        if found.start() >= stop:
            start = text.rfind(b"P", stop, found.start()) + 1 or stop
            stop = text.index(b"P", found.end(), end) + 1
            yield text[start:stop] + b"\n"


def _told_by(it: Dict[str, Any]) -> Optional[Told]:
    """What an object of `json` tells of its device, if anything, or of all."""
    if it["kind"] == "refusal":
        return _LOST
    if it["kind"] not in ("write", "read"):
        return None
    device, code, data, is_read = it["device"], it["code"], it["bytes"], it["kind"] == "read"
    words = [it["kind"], device, code, ":" if is_read else "", bytes.fromhex(data).hex(" ")]
    line = " ".join(word for word in [*words, "pec" if it["pec"] else ""] if word)
    if code == "00":
        return device, "page", data[:2], line
    if code == "04" and len(data) == 2:
        return device, "phase", data, line
    if code == "20":
        return device, "mode", data[:2], line
    # (PAGE_PLUS_WRITE sets VOUT_MODE of another page than the selected one, or restores)
    if not is_read and (data[2:4] in ("20", *_RESTORES) if code == "05" else code in _RESTORES):
        return device, "untold", "", line
    return None


def _told_in(job: Job, losses: _Losses, block: _Range) -> List[Told]:
    """All that a part of a piece tells. `check` finds the refusals, and `json` reads only what may
    tell something."""
    found: List[Told] = []
    keeps_going = "--keep-going" in job["read_words"]

    def text(instead: bytes) -> Iterator[bytes]:
        # (without --keep-going nothing is read after a bad token)
        chunks = block.chunks()
        return _mended(chunks, instead) if keeps_going else chunks

    # At a bad token the packet that was begun is dropped, and something may be lost. So the first
    # of these ends the packet, and the second is refused even if the first was passed over.
    drops = losses.mark + b" " + losses.mark

    def use_told(stdout: BinaryIO) -> None:
        most = 10000
        for line in stdout:
            it = _told_by(json.loads(line))
            if it is not None:
                found.append(it)
                if len(found) > most:
                    found[:] = reduced(found, job["read_words"], job["pages"])
                    most = max(most, 2 * len(found))

    def use_refusals(stdout: BinaryIO) -> None:
        refusals = _refusals(stdout)
        packets = _packets_and_losses(text(drops), refusals, losses)
        _ran(["json", *job["read_words"]], itertools.chain(profile, packets), use_told)
        # (`json` may have ended first, at a bad token)
        for _ in refusals:
            pass

    profile = _profile(job)
    _ran(["check", *_sample(job)], itertools.chain(profile, text(drops)), use_refusals)
    return found


def tells(job: Job, path: str, begin: int, end: int) -> Answer:
    """What a piece tells of PAGE, PHASE and VOUT_MODE, reduced, and for `json` how many events and
    lines it has."""
    with _naming(path):
        told = _told_until(job, path, begin, end)
        events, lines = _counted(job, path, begin, end) if job["task"] == "json" else (0, 0)
    return {"tells": told, "events": events, "lines": lines}


def _told_until(job: Job, path: str, begin: int, end: int) -> List[Told]:
    """What a piece tells, reduced. It is searched from its end, up to where nothing that comes
    before makes a difference."""
    told: List[Told] = []
    losses, needs = _Losses(job), _Needs(job)
    for block in _blocks_from_end(path, begin, end):
        missing = needs.of(told)
        if not missing:
            break
        if _may_tell(job, block, missing):
            told = _told_in(job, losses, block) + told
            told = reduced(told, job["read_words"], job["pages"])
    return told


def _blocks_from_end(path: str, begin: int, end: int) -> Iterator[_Range]:
    """The blocks of a piece, the last one first. Each begins where a piece may begin."""
    size = _FIRST_BLOCK
    with open(path, "rb") as file:
        while begin < end:
            at = begin
            if end - begin > size:
                file.seek(end - size - 1)
                at = _after_stop(file)
            if at < end:
                yield _Range(path, at, end)
                end = at
                size = min(4 * size, _MOST_BLOCK)
            else:
                size *= 4


class _Needs:
    """What has to be known of the devices of the profile: of each one the number of its pages, and
    whether PAGE, PHASE and VOUT_MODE make a difference, and that something was lost."""

    def __init__(self, job: Job) -> None:
        words = job["read_words"]
        self._is_late = "--late" in words
        self._loses_modes = self._is_late and "--fixed-vout-mode" not in words
        self._devices: Dict[str, Tuple[int, Set[str]]] = {}
        profile = [] if job["profile"] is None else [job["profile"]]
        said, _ = _ran(["profile", *_sample(job)], profile, _read_all)
        for text in re.split(rb"(?m)^device ", said)[1:]:
            address, pages = (
                re.findall(rb"(?m)^%s +([0-9a-f]+)" % key, text)[0].decode()
                for key in (b"address", b"pages")
            )
            what = {"lost"}
            what |= {"page"} if int(pages) > 1 or re.search(rb"(?m)^00 ", text) else set()
            what |= {"phase"} if re.search(rb"(?m)^phases ", text) else set()
            what |= {"mode"} if re.search(rb"(?m)^20 |^[0-9a-f]{2} .* vout", text) else set()
            self._devices[address] = int(pages), what

    def of(self, told: List[Told]) -> Set[Tuple[str, str]]:
        """What of it does still depend on what was told before this: devices, and what of each."""
        if self._loses_modes and _LOST in told:
            return set()
        missing = {
            (device, one)
            for device, (_, what) in self._devices.items()
            for one in what - self._told_of(device, told)
        }
        return missing if any(one != "lost" for _, one in missing) else set()

    def _told_of(self, device: str, told: List[Told]) -> Set[str]:
        pages, what = self._devices[device]
        found = {"phase"} if _LOST in told else set()
        modes: Set[int] = set()
        page, is_told, is_page_used = "", False, False
        for it in told:
            if it == _LOST:
                page = "" if self._is_late or not _has_page(pages, page) else page
                is_told = is_told or self._is_late
            elif it[0] == device and it[1] == "page":
                page, is_told = it[2], True
            elif it[0] == device and it[1] == "phase":
                found.add("phase")
            elif it[0] == device and it[1] == "mode":
                # (this one is of the page from before)
                is_page_used = is_page_used or "page" in what and not is_told
                if page == "ff" or "page" not in what:
                    modes.update(range(pages))
                elif page:
                    modes.add(int(page, 16))
        if not is_page_used:
            # (a VOUT_MODE of the page from before depends on whether that was lost)
            found |= {"page"} if is_told else set()
            found |= {"lost"} if _LOST in told else set()
        return found | ({"mode"} if modes.issuperset(range(pages)) else set())


def _has_page(pages: int, page: str) -> bool:
    return page == "ff" or page != "" and int(page, 16) < pages


def _may_tell(job: Job, block: _Range, missing: Set[Tuple[str, str]]) -> bool:
    """Whether a block may have something of what is missing: a command that tells it, and, if it
    makes a difference, one that restores VOUT_MODE, or something that was lost. Where nothing of
    that kind is there, this is faster than a look at each packet."""
    if block.end - block.begin > 2 * _MOST_BLOCK:
        return True
    text = b"".join(block.chunks())
    # (no comment is inside of a packet if each is behind a line that ends with P)
    if b"#" in text and text.count(b"#") != text.count(b"P\n#") + text.startswith(b"#"):
        text = _COMMENT.sub(b"", text)
    # (what has more than one spelling becomes one)
    bare = text.translate(_SMALL, b" \t\r\n")
    codes = {"page": ["00"], "phase": ["04"], "mode": ["20"], "lost": ["05", *_RESTORES]}
    legs = {
        "s{:02x}a{}a".format(2 * int(device, 16), code).encode()
        for device, what in missing
        for code in codes[what]
    }
    # (a search for each is faster where these are few)
    if len(legs) <= 3 and any(leg in bare for leg in legs):
        return True
    if len(legs) > 3 and any(found.group() in legs for found in _ANY_LEG.finditer(bare)):
        return True
    if all(what != "lost" for _, what in missing):
        return False
    said, _ = _ran(["check", *_sample(job)], [*_profile(job), block], _last_lines)
    return not said.endswith(b" refusals 0\n") or b"# bad token" in said


def _last_lines(stdout: BinaryIO) -> bytes:
    """The end of what the program writes."""
    last = b""
    for chunk in iter(lambda: stdout.read(_PART), b""):
        last = (last + chunk)[-_PART:]
    return last


# What `check` says at the end of an event that no packet begins with.
_COUNTED = re.compile(
    rb"(?:# refusal at ([0-9]+): [^\n]*\n)?packets ([0-9]+) refusals ([0-9]+)\n\Z"
)


def _counted(job: Job, path: str, begin: int, end: int) -> Tuple[int, int]:
    """How many events and lines there are in a piece that ends with STOP. `check` counts the
    events: it says at which one a STOP behind the piece is."""
    lines = [0]

    def given() -> Iterator[bytes]:
        yield from _profile(job)
        for chunk in _chunks(path, begin, end):
            lines[0] += chunk.count(b"\n")
            yield chunk
        yield b"\nP\n"

    said, _ = _ran(["check", *_sample(job)], given(), _last_lines)
    found = _COUNTED.search(said)
    if found is not None and found.group(1) is not None and b"# bad token" not in said:
        return int(found.group(1)), lines[0]
    if "--keep-going" not in job["read_words"]:
        # (nothing is read after this piece)
        return 0, 0
    count = _Count()
    for _ in count.of(_mended(_chunks(path, begin, end), b"")):
        pass
    return count.events, count.lines


def reduced(
    told: List[Told], words: List[str], pages: Optional[Dict[str, int]] = None
) -> List[Told]:
    """What has the same effect on PAGE, PHASE and VOUT_MODE of each device, whatever they were
    before, for a program with these words, and is short: each page's last VOUT_MODE, the last
    restore, PHASE and PAGE, and of what was told before something was lost only what stays. It is
    shorter if it is said how many pages each device has."""
    if _LOST not in told:
        return _reduced_each(told)
    last = len(told) - 1 - told[::-1].index(_LOST)
    before = [it for it in told[:last] if it[1] in ("page", "mode", "lost")]
    if "--late" not in words:
        # (PAGE and VOUT_MODE stay, but a PAGE that its device lacks is unknown; PHASE is unknown)
        kept = _pages_and_modes(before, pages or {})
    elif "--fixed-vout-mode" in words:
        kept = _modes_that_stay(before)
    else:
        kept = []
    return [*kept, _LOST, *_reduced_each(told[last + 1 :])]


def _pages_and_modes(told: List[Told], pages: Dict[str, int]) -> List[Told]:
    """What counts for PAGE and VOUT_MODE without --late: where something was lost, both stay, but a PAGE
    that its device lacks is unknown. That makes a difference to a VOUT_MODE that is told then. (No device
    lacks page 0 or ffh. What its PAGE was before isn't known here.)"""
    needed = set()
    for device in {it[0] for it in told if it != _LOST}:
        may_lack, lost = True, None
        for at, it in enumerate(told):
            if it == _LOST:
                if may_lack and lost is None:
                    lost = at
            elif it[:2] == (device, "page"):
                may_lack, lost = not _has_page(pages.get(device, 1), it[2]), None
            elif it[:2] == (device, "mode") and lost is not None:
                needed.add(lost)
    kept: List[Told] = []
    begun = 0
    for at in sorted(needed):
        kept += [*_reduced_each([it for it in told[begun:at] if it != _LOST]), _LOST]
        begun = at
    return kept + _reduced_each([it for it in told[begun:] if it != _LOST])


def _modes_that_stay(told: List[Told]) -> List[Told]:
    """What counts for VOUT_MODE of each page, with --fixed-vout-mode: where something was lost,
    VOUT_MODE stays, and PAGE is unknown."""
    first: List[Told] = []
    later: List[Told] = []
    for device in sorted({it[0] for it in told if it != _LOST}):
        found = _modes_of_device(told, device)
        # (where something was lost, PAGE of all devices is unknown, so that comes after all that needs
        # the PAGE from before)
        at = found.index(_LOST) if _LOST in found else len(found)
        first += found[:at]
        later += found[at:]
    return first + later


def _modes_of_device(told: List[Told], device: str) -> List[Told]:
    page: Optional[Told] = None
    kept: List[Kept] = []
    for it in told:
        if it == _LOST or it[:2] == (device, "page"):
            page = it
        elif it[0] == device:
            kept = _without_overwritten(kept, page, it)
            kept.append((page, it))
    return _with_pages(kept)


def _reduced_each(told: List[Told]) -> List[Told]:
    of_device: Dict[str, List[Told]] = {}
    for it in told:
        of_device.setdefault(it[0], []).append(it)
    return [it for device in sorted(of_device) for it in _reduced(of_device[device])]


def _reduced(told: List[Told]) -> List[Told]:
    page: Optional[Told] = None
    phase: Optional[Told] = None
    kept: List[Kept] = []
    for it in told:
        what = it[1]
        if what == "page":
            page = it
        elif what == "phase":
            phase = it
        else:
            kept = _without_overwritten(kept, page, it)
            kept.append((page, it))
    found = _with_pages(kept)
    selected = kept[-1][0] if kept else None
    found += [phase] if phase is not None else []
    return found + ([page] if page is not None and page is not selected else [])


def _with_pages(kept: List[Kept]) -> List[Told]:
    """What was kept, each after the PAGE that was selected."""
    found: List[Told] = []
    selected: Optional[Told] = None
    for page, it in kept:
        if page is not None and page is not selected:
            found.append(page)
            selected = page
        found.append(it)
    return found


def _without_overwritten(kept: List[Kept], page: Optional[Told], it: Told) -> List[Kept]:
    """What of the kept still counts after something was told on a page."""
    kept = [old for old in kept if not _is_overwritten(old, page, it)]
    if it[1] == "mode" and page in (None, _LOST):
        # (a device with one page has the last of these, and one whose page isn't known has none
        # after two that differ)
        modes = [old for old in kept if old[0] == page and old[1][1] == "mode"]
        counts = [old for old in modes if old[1][2] != it[2]][-1:]
        kept = [old for old in kept if old not in modes or old in counts]
    return kept


def _is_overwritten(old: Kept, page: Optional[Told], it: Told) -> bool:
    """Whether nothing is left of what was told on a page after something else on another one."""
    if it[1] == "untold":
        return old[1][1] == "untold"
    if page is None or page == _LOST:
        return False
    if page[2] == "ff":
        return True
    return old[1][1] == "mode" and old[0] is not None and old[0][2] == page[2]


# ---- captures and their pieces


def _sample(job: Job) -> List[str]:
    return [word for word in job["read_words"] if word == "--sample"]


def _profile(job: Job) -> List[bytes]:
    return [] if job["profile"] is None else [job["profile"] + b"\n%%\n"]


def _front(job: Job, told: List[Told]) -> bytes:
    """What comes before a piece: packets that tell what was told, and a mark where something was
    lost, each on a line."""
    if not told:
        return b""
    lines = "".join(it[3] + "\n" for it in told if it != _LOST).encode()
    built, status = _ran(["build", *_sample(job)], [*_profile(job), lines], _read_all)
    if status:
        raise ValueError("the profile has no packet for what was told of PAGE, PHASE and VOUT_MODE")
    packets = iter(built.splitlines(True))
    mark = _Losses(job).mark + b"\n" if _LOST in told else b""
    return b"".join(mark if it == _LOST else next(packets) for it in told)


@contextlib.contextmanager
def _part(job: Job) -> Iterator[IO[bytes]]:
    """A new file in the folder of the parts, which is removed again if something goes wrong."""
    path = os.path.join(job["parts"], uuid.uuid4().hex)
    try:
        file = open(path, "x+b", buffering=0)
    except OSError as error:
        why = "{}: {} (--parts names a folder that client and workers share)"
        raise OSError(error.errno, why.format(job["parts"], error.strerror)) from None
    try:
        with file:
            yield file
    except BaseException:
        with contextlib.suppress(OSError):
            os.unlink(path)
        raise


def piece(job: Job, path: str, begin: int, end: int, start: Start) -> Answer:
    """What the program says of a piece of a capture, and of its front what it counts."""
    read = {"stats": _stats_of, "json": _json_of, "check": _check_of}[job["task"]]
    with _naming(path):
        answer = read(job, _Range(path, begin, end), start)
    answer.update(begin=begin, end=end, start=start, worker=_worker(), version=version())
    return answer


def whole(job: Job, words: List[str], path: str, out: IO[bytes]) -> int:
    """Runs the program over a whole capture, and returns its status. It writes to `out` itself."""
    with _naming(path):
        with open(path, "rb") as file:
            size = file.seek(0, os.SEEK_END)
        _, status = _ran(words, [*_profile(job), _Range(path, 0, size)], _read_all, out)
    return status


def _stats_of(job: Job, it: _Range, start: Start) -> Answer:
    words = ["stats", *job["words"]]
    front = _front(job, start[0])
    text, status = _ran(words, [*_profile(job), front, it], _read_all)
    before = _ran(words, [*_profile(job), front], _read_all)[0] if front else b""
    if b'"pages":' in before:
        raise ValueError("PHASE or a restore has numbers or bits, so take --block 0")
    return {"text": text, "front": before, "status": status, "events": 0}


def _check_of(job: Job, it: _Range, start: Start) -> Answer:
    """The refusals of a piece, in a part, and its counts. If it ends with STOP, another one comes
    after it, and is refused: where that is, is the number of events."""
    with open(it.path, "rb") as file:
        file.seek(max(it.begin, it.end - _CHUNK))
        last = file.read(it.end - file.tell())
    is_counted = _ends_with_stop(last[last.rfind(b"\n", 0, -1) + 1 :])
    with _part(job) as part:
        given: Given = [*_profile(job), it, b"P\n" if is_counted else b""]
        _ran(["check", *job["words"]], given, _read_all, part)
        size = part.seek(0, os.SEEK_END)
        part.seek(max(0, size - _PART))
        said = part.read(_PART)
        found = _COUNTED.search(said)
        assert found is not None
        packets, refusals, events = int(found.group(2)), int(found.group(3)), 0
        kept = found.start(2) - len(b"packets ")
        has_bad = said[:kept].rpartition(b"\n")[0].rpartition(b"\n")[2].startswith(b"# bad token")
        if is_counted and not has_bad:
            kept, refusals, events = found.start(), refusals - 1, int(found.group(1))
        part.truncate(size - len(said) + kept)
    answer = {"part": part.name, "packets": packets, "refusals": refusals, "bad": has_bad}
    return dict(answer, events=events, status=int(refusals > 0 or has_bad))


def _json_of(job: Job, it: _Range, start: Start) -> Answer:
    """The objects of a piece, in a part, with the places of the whole capture; and its counts."""
    words = ["json", *job["words"]]
    told, events, lines = start
    front = _front(job, told)
    fill = _Filler(events, lines, front)
    # (a short filler has the same objects and counts)
    known = fill.short + front
    before = _ran(words, [*_profile(job), known], _read_all)[0] if known else b""
    front_objects, front_counts = _parted(before)
    skipped = front_objects.count(b"\n")

    def use(stdout: BinaryIO) -> bytes:
        for _ in range(skipped):
            stdout.readline()
        # (each object comes after the end of a line; the first of these is not written)
        held, begin = b"\n", 1
        for chunk in iter(lambda: stdout.read(_PART), b""):
            held += chunk
            # (what comes last may be counts)
            whole = held.rfind(b"\n", 0, max(0, len(held) - _PART))
            if whole > 0:
                _write_all(part, memoryview(fill.moved(held[:whole]))[begin:])
                held, begin = held[whole:], 0
        objects, counts = _parted(held)
        _write_all(part, memoryview(fill.moved(objects))[begin:])
        return counts

    with _part(job) as part:
        if known or events or lines:
            given: Given = itertools.chain(_profile(job), fill.text(), [front, it])
            counts, status = _ran(words, given, use)
        else:
            _, status = _ran(words, [*_profile(job), it], _read_all, part)
            size = part.seek(0, os.SEEK_END)
            part.seek(max(0, size - _PART))
            counts = _parted(part.read(_PART))[1]
            part.truncate(size - len(counts))
    answer = {"part": part.name, "counts": counts, "front": front_counts}
    return dict(answer, status=status, events=0)


def _write_all(file: IO[bytes], view: memoryview) -> None:
    while view:
        view = view[file.write(view) :]


class _Filler:
    """What is read before the front of a piece, so that the program counts events and lines from
    there on as those of the whole capture: a packet that is refused, and empty lines. Numbers that
    would need too long a filler lack high digits, which `moved` puts in."""

    def __init__(self, events: int, lines: int, front: bytes) -> None:
        count = _Count()
        count.add(front)
        fill_events, self._more_events = _filled(events, _STEP_EVENTS, _FILL_EVENTS)
        fill_lines, self._more_lines = _filled(lines, _STEP_LINES, _FILL_LINES)
        self._events, self._lines = fill_events - count.events, fill_lines - count.lines
        # (there is a capture with fewer events than its front has)
        self._is_there = self._events >= 3 and self._lines >= 1
        self._by = events - count.events, lines - count.lines
        self.short = b"S S P\n" if self._is_there else b""

    def text(self) -> Iterator[bytes]:
        if self._is_there:
            yield b"S S "
            for left in range(self._events - 3, 0, -_PART):
                yield b"A " * min(left, _PART)
            yield b"P"
            for left in range(self._lines, 0, -_PART):
                yield b"\n" * min(left, _PART)

    def moved(self, objects: bytes) -> bytes:
        """Objects with the places of the whole capture, which are their first keys."""
        if not self._is_there:
            return _moved(objects, *self._by)
        objects = _raised(objects, b'\n{"at":', _STEP_EVENTS, self._more_events)
        return _raised(objects, b',"line":', _STEP_LINES, self._more_lines)


def _filled(number: int, step: int, most: int) -> Tuple[int, int]:
    """How much of a number a filler gives, and how many steps are to be added."""
    if number < most:
        return number, 0
    return step + number % step, number // step - 1


def _raised(text: bytes, key: bytes, step: int, more: int) -> bytes:
    """Objects in which so many steps are added to the numbers of a key. These are at least a step,
    and never become smaller. So many in a row have the same high digits, and take one
    replacement."""
    at = text.rfind(key)
    if not more or at < 0:
        return text
    low = len(str(step)) - 1
    last = _high_digits(text, at + len(key), low)
    done: List[bytes] = []
    while text:
        high = _high_digits(text, text.index(key) + len(key), low)
        at = len(text)
        if high != last:
            at = text.find(key + b"%d" % (high + 1))
            if at < 0:
                # (a long packet has all events of a step, or more)
                at = _place_of_other(text, key, high, low)
        done.append(text[:at].replace(key + b"%d" % high, key + b"%d" % (high + more)))
        text = text[at:]
    return b"".join(done)


def _high_digits(text: bytes, at: int, low: int) -> int:
    digits = re.compile(rb"[0-9]+").match(text, at)
    assert digits is not None
    return int(digits.group()[:-low])


def _place_of_other(text: bytes, key: bytes, high: int, low: int) -> int:
    """The place of the first key whose number has other high digits."""
    at = text.index(key)
    while _high_digits(text, at + len(key), low) == high:
        at = text.index(key, at + 1)
    return at


def _parted(text: bytes) -> Tuple[bytes, bytes]:
    """What `json` wrote, parted: its objects with places, and then those of counts."""
    at = len(text)
    while at > 0:
        begin = text.rfind(b"\n", 0, at - 1) + 1
        if not text.startswith(b'{"kind":', begin):
            break
        at = begin
    return text[:at], text[at:]


def _moved(objects: bytes, events: int, lines: int) -> bytes:
    """Objects with the places of the whole capture, which are their first keys."""
    if events == 0 and lines == 0:
        return objects

    def move(found: "re.Match[bytes]") -> bytes:
        places = int(found.group(1)) + events, int(found.group(2)) + lines
        return b'{"at":%d,"line":%d' % places

    return re.sub(rb'(?m)^\{"at":(\d+),"line":(\d+)', move, objects)


def capture(job: Job, path: str) -> Answer:
    """Where a capture has to be cut, or what the program says of one that hasn't."""
    with _naming(path), open(path, "rb") as file:
        size = file.seek(0, os.SEEK_END)
        block = job["block"]
        if block is None:
            # (each thread of a worker gets one or two pieces, if they are not too small)
            block = max(_LEAST_PIECE, min(_MOST_PIECE, size // (2 * job["threads"]) + 1))
        found = cuts(file, block) if block else [0, size]
    return {"cuts": found} if len(found) > 2 else piece(job, path, found[0], found[1], ([], 0, 0))


def _place(place: Any, count: Optional[int]) -> Any:
    """A page or a phase as `stats` has it: one that the device lacks is not known."""
    return None if isinstance(place, int) and place >= (count or 0) else place


def reads(job: Job, path: str, begin: int, end: int, start: Start) -> Answer:
    """Of each status register of `job` that was opened before a piece, the time of its first read
    in it, and of each that was opened in it the bits of its last read. (It was opened where a bit
    was last read set. The registers have their devices, pages and phases.)"""
    first: Dict[str, Any] = {}
    last: Dict[str, Any] = {}
    firsts = {json.dumps(it) for it, opened in job["opened"] if opened < begin}
    lasts = {json.dumps(it) for it, opened in job["opened"] if opened == begin}

    def use_first(stdout: BinaryIO) -> str:
        for register, it in _registers_in(job, stdout):
            if register in firsts:
                first.setdefault(register, it.get("time"))
                if len(first) == len(firsts):
                    return _ENOUGH
        return ""

    def use_last(stdout: BinaryIO) -> None:
        found.update((register, it["bits"]) for register, it in _registers_in(job, stdout))

    devices = sorted({json.loads(register)[0] for register in firsts | lasts})
    words = ["json", *[word for it in devices for word in ("--device", it)], *job["read_words"]]
    with _naming(path):
        if firsts:
            front = _front(job, start[0])
            _ran(words, [*_profile(job), front, _Range(path, begin, end)], use_first)
        for block in _blocks_from_end(path, begin, end):
            if lasts.issubset(last):
                break
            told = start[0] + _told_until(job, path, begin, block.begin)
            front = _front(job, reduced(told, job["read_words"], job["pages"]))
            found: Dict[str, Any] = {}
            _ran(words, [*_profile(job), front, block], use_last)
            last = {**found, **last}
    registers = sorted((firsts & set(first)) | (lasts & set(last)))
    return {"reads": [[*json.loads(it), first.get(it), last.get(it, [])] for it in registers]}


def _registers_in(job: Job, stdout: BinaryIO) -> Iterator[Tuple[str, Dict[str, Any]]]:
    """The reads of status registers among objects, each with its device, page, code and phase."""
    for line in stdout:
        if b'"bits":[' not in line:
            continue
        it = json.loads(line)
        if "bits" in it:
            pages, phases = job["sizes"][it["device"]]
            page = _place(it.get("page", "none"), pages)
            phase = _place(it.get("phase", "none"), phases)
            yield json.dumps([it["device"], page, it["code"], phase]), it
