#!/usr/bin/env python3
"""Runs a program with no other calls of the kernel than a unit of systemd leaves it (SystemCallFilter):
another one ends it by SIGSYS, as it would there. On x86-64 alone. What is in a group, as @file-system,
systemd-analyze knows; the numbers are those of the kernel's headers.

    i2cd/tests/filtered.py UNIT PROGRAM [WORD ..]
    i2cd/tests/filtered.py UNIT --list
"""
import ctypes
import glob
import os
import re
import struct
import subprocess
import sys

# linux/bpf_common.h, linux/seccomp.h, linux/audit.h and linux/prctl.h
LOAD, EQUAL, RETURN = 0x20, 0x15, 0x06
KILL, ALLOW = 0x80000000, 0x7FFF0000
X86_64 = 0xC000003E
NO_NEW_PRIVS, SECCOMP, FILTER = 38, 22, 2


def group(name, found):
    """The calls of a group, and of those that it names."""
    said = subprocess.run(["systemd-analyze", "--no-pager", "syscall-filter", name], check=True,
                          stdout=subprocess.PIPE).stdout.decode()
    for line in said.splitlines()[1:]:
        it = line.strip()
        if it.startswith("@"):
            group(it, found)
        elif it and not it.startswith("#"):
            found.add(it)
    return found


def allowed(unit):
    """The calls that a unit leaves: what @default has is always among them."""
    found = group("@default", set())
    with open(unit, encoding="ascii") as opened:
        for words in re.findall(r"(?m)^SystemCallFilter=(.*)$", opened.read()):
            words = words.split()
            is_taken = words[0].startswith("~")
            words[0] = words[0].lstrip("~")
            these = set()
            for it in words:
                these |= group(it, set()) if it.startswith("@") else {it}
            found = found - these if is_taken else found | these
    return found


def numbers(names):
    paths = glob.glob("/usr/include/x86_64-linux-gnu/asm/unistd_64.h") + ["/usr/include/asm/unistd_64.h"]
    with open(paths[0], encoding="ascii") as opened:
        known = dict(re.findall(r"(?m)^#define __NR_(\w+) (\d+)$", opened.read()))
    return sorted(int(known[it]) for it in names if it in known)


def install(those):
    """The filter: the architecture first, and then one number after the other."""
    step = struct.Struct("<HBBI").pack
    program = step(LOAD, 0, 0, 4) + step(EQUAL, 1, 0, X86_64) + step(RETURN, 0, 0, KILL) + step(LOAD, 0, 0, 0)
    for number in those:
        program += step(EQUAL, 0, 1, number) + step(RETURN, 0, 0, ALLOW)
    program += step(RETURN, 0, 0, KILL)
    room = ctypes.create_string_buffer(program, len(program))
    whole = struct.pack("@HP", len(program) // 8, ctypes.addressof(room))
    call = ctypes.CDLL(None, use_errno=True).prctl
    call.argtypes = [ctypes.c_int] + [ctypes.c_ulong] * 4
    place = ctypes.create_string_buffer(whole, len(whole))
    if call(NO_NEW_PRIVS, 1, 0, 0, 0) or call(SECCOMP, FILTER, ctypes.addressof(place), 0, 0):
        sys.exit("filtered.py: {}".format(os.strerror(ctypes.get_errno())))


def main(words):
    names = allowed(words[0])
    if words[1:] == ["--list"]:
        print("\n".join(sorted(names)))
        return 0
    install(numbers(names))
    os.execv(words[1], words[1:])
    return 1


if __name__ == "__main__":
    if len(sys.argv) < 3:
        sys.exit(__doc__)
    sys.exit(main(sys.argv[1:]))
