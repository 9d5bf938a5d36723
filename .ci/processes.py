"""What the system tells of the processes that run, under /proc."""
import os
from typing import NamedTuple

TICKS = os.sysconf("SC_CLK_TCK")
PAGE = os.sysconf("SC_PAGE_SIZE")


class Process(NamedTuple):
    parent: int
    began: int
    seconds: float  # of processor
    of_ended: float  # seconds of those that it started, and that have ended
    resident: int  # bytes


def processes():
    """Of each process, by its number."""
    found = {}
    for name in os.listdir("/proc"):
        if name.isdigit():
            try:
                with open("/proc/%s/stat" % name, encoding="utf-8", errors="replace") as file:
                    fields = file.read().rpartition(")")[2].split()
            except OSError:
                continue
            used = [int(it) / TICKS for it in fields[11:15]]
            found[int(name)] = Process(int(fields[1]), int(fields[19]), sum(used[:2]), sum(used[2:]),
                                       int(fields[21]) * PAGE)
    return found


def below(top, found):
    """The numbers of those below a process, each after its parent."""
    children = {}
    for number, process in found.items():
        children.setdefault(process.parent, []).append(number)
    listed = [top]
    for number in listed:
        listed += children.get(number, ())
    return listed[1:]


def words(number):
    """The words that a process was started with; none where it has ended."""
    try:
        with open("/proc/%d/cmdline" % number, "rb") as file:
            return file.read().decode("utf-8", "replace").split("\0")
    except OSError:
        return []


def peak(number):
    """The most memory that a process had resident so far, in bytes; 0 where it has ended."""
    try:
        with open("/proc/%d/status" % number, encoding="utf-8", errors="replace") as file:
            for line in file:
                if line.startswith("VmHWM:"):
                    return int(line.split()[1]) * 1024
    except OSError:
        pass
    return 0
