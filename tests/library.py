"""Rows through the released library: `pmb_show` and its like, into rooms of each size."""

import ctypes
import re

TASKS = ("show", "check", "build", "run", "json", "import")
ROOMS = 200  # a text that is longer has some of the rooms alone


class Result(ctypes.Structure):
    _fields_ = [("status", ctypes.c_int32), ("fault", ctypes.c_int32), ("device", ctypes.c_int32),
                ("command", ctypes.c_int32), ("length", ctypes.c_size_t),
                ("packets", ctypes.c_uint64), ("refusals", ctypes.c_uint64)]


class Choice(ctypes.Structure):
    _fields_ = [("digits", ctypes.c_uint8), ("start", ctypes.c_uint8), ("bad_words", ctypes.c_uint8)]


class Recorder(ctypes.Structure):
    _fields_ = [("rate", ctypes.c_uint64), ("source", ctypes.c_uint8),
                ("names_bus", ctypes.c_uint8), ("unshifted", ctypes.c_uint8)]


def numbers_of(header, enum):
    """The numbers of an enum of the header, by its names."""
    body = re.search(r"enum %s \{(.*?)\}" % enum, header, re.S).group(1)
    return {name: int(number) for name, number in re.findall(r"PMB_(\w+) = (\d+)", body)}


def split(given):
    """The profile in front and what stands after the line `%%`."""
    match = re.search(rb"^%%\r?\n", given, re.M)
    return (given[:match.start()], given[match.end():]) if match else (given, b"")


def choice_of(words):
    """The choice and the addresses that the words of `json` ask for."""
    choice, devices = Choice(6, 0, 0), b""
    if b"--late" in words:
        choice.start = 1 if b"--fixed-vout-mode" in words else 2
    if b"--keep-going" in words:
        choice.bad_words = 1
    for word, value in zip(words, words[1:]):
        if word == b"--digits":
            choice.digits = int(value)
        if word == b"--device":
            devices += bytes([int(value, 16)])
    return choice, devices


def recorder_of(words, sources):
    """What wrote a recording, by the words of `import`, and the name of its bus."""
    recorder, bus = Recorder(source=sources[words[1].decode().upper()]), b""
    for word, value in zip(words, words[1:] + [b""]):
        if word == b"--bus":
            recorder.names_bus, bus = 1, value
        if word == b"--rate":
            recorder.rate = int(value)
        if word == b"--unshifted":
            recorder.unshifted = 1
    return recorder, bus


def tally_of(task, out):
    """The numbers of packets and of refusals that a text tells."""
    lines = out.splitlines()
    if task == "import":
        told = [line for line in lines if line.startswith((b"# line", b"# no packets"))]
        failed = sum(b": a transfer failed with " in line for line in told)
        return sum(line.startswith(b"S ") for line in lines), len(told) - failed
    if task in ("check", "json"):
        last = re.findall(rb"\d+", lines[-1])
        numbers = [int(number) for number in last]
        return (numbers[0], numbers[1]) if task == "check" else (numbers[0], numbers[1] + numbers[2])
    refusals = (b"# line", b"# refused") if task == "run" else (b"#",)
    told = [line for line in lines if task != "run" or line.startswith(b"#")]
    refused = sum(line.startswith(refusals) for line in told)
    return len(told) - refused, refused


class Library:
    """The library, and what the header says of it."""

    def __init__(self, path, header, sample):
        self.sample = sample
        self.functions = {}
        library = ctypes.CDLL(str(path))
        for task in TASKS:
            if not hasattr(library, "pmb_" + task):
                continue
            function = getattr(library, "pmb_" + task)
            function.restype = ctypes.c_size_t
            self.functions[task] = function
        self.statuses = numbers_of(header, "pmb_status")
        self.sources = numbers_of(header, "pmb_source")
        names = numbers_of(header, "pmb_fault")
        self.faults = {"".join(part.title() for part in name.split("_")).encode(): number
                       for name, number in names.items()}

    def takes(self, row):
        """Whether the library has what a row asks for."""
        words = row.stages[0]
        if len(row.stages) > 1 or row.calls or not words:
            return False
        task = words[0].decode("utf-8", "replace")
        is_profile = task == "profile" and words[1:] == []
        is_known = row.status in (0, 1) or is_fault(row)
        return (task in self.functions or is_profile) and is_known

    def call(self, words, given, room):
        """The text and the result of a call, with a room of a size; in front of the room's end, what
        the room begins with is left where nothing is written."""
        task = words[0].decode()
        profile, matter = (self.sample, given) if b"--sample" in words else split(given)
        if task == "profile":
            task, profile, matter = "check", split(given)[0], b""
        out = ctypes.create_string_buffer(b"~" * (room + 1), room + 1)
        told = Result()
        front = [profile, ctypes.c_size_t(len(profile)), matter, ctypes.c_size_t(len(matter))]
        if task == "import":
            recorder, bus = recorder_of(words, self.sources)
            front = [ctypes.byref(recorder), bus, ctypes.c_size_t(len(bus))]
            front += [given, ctypes.c_size_t(len(given))]
        if task == "json":
            choice, devices = choice_of(words)
            front += [ctypes.byref(choice), devices, ctypes.c_size_t(len(devices))]
        length = self.functions[task](*front, out, ctypes.c_size_t(room), ctypes.byref(told))
        return length, out.raw, told

    def fault(self, row, out):
        """What is wrong with the calls for a row whose text is `out`, or None."""
        words = row.stages[0]
        is_listing = words[0] == b"profile"
        wanted = b"packets 0 refusals 0\n" if is_listing else out
        if row.status == 2:
            return self.profile_fault(row, words)
        size = len(wanted)
        rooms = range(size + 3) if size <= ROOMS else (0, 1, size // 2, size - 1, size, size + 1)
        tally = (0, 0) if is_listing else tally_of(words[0].decode(), wanted)
        for room in rooms:
            length, text, told = self.call(words, row.given, room)
            status = self.statuses["OK" if size <= room else "NO_ROOM"]
            kept = wanted[:room] + b"~" * (room + 1 - min(room, size))
            found = (told.status, length, told.length, (told.packets, told.refusals), text)
            if found != (status, size, size, tally, kept):
                return "a room of %d bytes: %r" % (room, found)
        return None

    def profile_fault(self, row, words):
        """What is wrong with a call for a row whose profile has a fault."""
        name, device, command = is_fault(row)
        length, text, told = self.call(words, row.given, 8)
        found = (told.status, told.fault, told.device, told.command, length, text)
        wanted = (self.statuses["BAD_PROFILE"], self.faults[name], device, command, 0, b"~" * 9)
        return None if found == wanted else "%r" % (found,)


def is_fault(row):
    """The name of a profile's fault, the device and the command, -1 where there is none; None where
    the row tells of no such fault."""
    text = row.err[0] if row.err and row.err[0] is not None else b""
    match = re.match(rb"pmb: profile: (\w+)(?: in device (\d+)(?: command (\d+))?)?\n", text)
    if match is None:
        return None
    return match.group(1), int(match.group(2) or -1), int(match.group(3) or -1)
