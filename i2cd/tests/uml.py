#!/usr/bin/env python3
"""Runs a command in Debian's user-mode-linux, a kernel with /dev/cuse that needs no rights.

    i2cd/tests/uml.py DIRECTORY COMMAND [WORD ..]

Its root is that of this machine, which is only read; DIRECTORY can be written. What the command
writes comes after it has ended, and its exit status is that of this program. 77 says that
user-mode-linux, or a module of it, is missing, or that it starts no program on this processor: of
some it can't restore the registers for floating point, as of those with more of them than it knows.
"""

import ctypes
import glob
import json
import os
import shutil
import subprocess
import sys

MODULES = "/usr/lib/uml/modules/{}/kernel/fs/fuse/{}.ko"
SECONDS = 280


def outside(directory, words):
    """Starts the kernel, which runs this file once more, as its first process."""
    kernel = shutil.which("linux.uml") or shutil.which("linux")
    if kernel is None or not glob.glob(MODULES.format("*", "cuse")):
        print("user-mode-linux or its module cuse is missing", file=sys.stderr)
        return 77
    directory = os.path.realpath(directory)
    with open(os.path.join(directory, "words"), "w") as file:
        json.dump({"words": words, "environment": dict(os.environ), "here": os.getcwd()}, file)
    status = os.path.join(directory, "status")
    if os.path.exists(status):
        os.remove(status)
    line = [kernel, "mem=256M", "rootfstype=hostfs", "ro", "quiet", "uml_dir=" + directory,
            "con=null", "con0=null,fd:1", "ssl=null", "init=" + os.path.realpath(sys.executable),
            "--", os.path.realpath(__file__), "--inside", directory]
    try:
        kernel = subprocess.run(line, stdin=subprocess.DEVNULL, stdout=subprocess.PIPE,
                                stderr=subprocess.STDOUT, timeout=SECONDS)
        told = kernel.stdout
    except subprocess.TimeoutExpired as fault:
        told = (fault.stdout or b"") + b"user-mode-linux did not end\n"
    for name, stream in (("out", sys.stdout), ("err", sys.stderr)):
        try:
            with open(os.path.join(directory, name), "rb") as file:
                stream.buffer.write(file.read())
        except FileNotFoundError:
            pass
    try:
        with open(status) as file:
            return int(file.read())
    except (FileNotFoundError, ValueError):
        if b"ptrace set fp regs failed" in told:
            print("user-mode-linux starts no program on this processor", file=sys.stderr)
            return 77
        sys.stderr.buffer.write(told)
        return 1


def inside(directory):
    """The first process of the kernel: mounts, loads modules, runs the command, and ends all."""
    libc = ctypes.CDLL(None, use_errno=True)

    def mount(source, target, kind, options=b""):
        return libc.mount(source, target, kind, 0, options)

    path = directory.encode()
    mount(b"proc", b"/proc", b"proc")
    mount(b"sys", b"/sys", b"sysfs")
    if not os.path.exists("/dev/console"):
        mount(b"dev", b"/dev", b"devtmpfs")
    mount(b"tmp", b"/tmp", b"tmpfs")
    mount(b"run", b"/run", b"tmpfs")
    os.makedirs(directory, exist_ok=True)  # (where it is one below /tmp)
    mount(b"none", path, b"hostfs", path)
    status = 1
    try:
        for name in ("fuse", "cuse"):
            with open(MODULES.format(os.uname().release, name), "rb") as module:
                libc.syscall(313, module.fileno(), b"", 0)  # finit_module
        with open(os.path.join(directory, "words")) as file:
            task = json.load(file)
        with open(os.path.join(directory, "out"), "wb") as out:
            with open(os.path.join(directory, "err"), "wb") as err:
                os.chdir(task["here"])
                status = subprocess.run(task["words"], env=task["environment"], stdout=out,
                                        stderr=err, stdin=subprocess.DEVNULL).returncode
    finally:
        with open(os.path.join(directory, "status"), "w") as file:
            file.write(str(status))
        os.sync()
        libc.reboot(0x4321FEDC)  # RB_POWER_OFF


if __name__ == "__main__":
    if sys.argv[1:2] == ["--inside"]:
        inside(sys.argv[2])
    elif len(sys.argv) < 3:
        sys.exit(__doc__)
    else:
        sys.exit(outside(sys.argv[1], sys.argv[2:]))
