"""Counts instructions with valgrind, so that the same program has the same count on each machine.

valgrind itself places the program, its stack and its heap, so the system's random addresses make no
difference. What else would is fixed here: the environment and the name of the program, whose length
moves the stack; that functions of the C library are found before `main`; and which variants of
memcpy and its like the C library takes, which are otherwise those of the processor at hand. Only
what runs inside one function is counted, `main` or another, so that the system's loader is not.
"""

import os
import re
import shutil
import subprocess
import tempfile
from collections import namedtuple
from concurrent.futures import ThreadPoolExecutor

# What the C library may not use, under the names of glibc 2.33 and later and of those before.
LEFT_OUT = ("AVX AVX2 AVX512F AVX512VL AVX512BW ERMS FSRM RTM SSSE3 AVX_Fast_Unaligned_Load "
            "AVX2_Usable AVX512F_Usable Prefer_ERMS Prefer_FSRM Prefer_No_VZEROUPPER").split()
TUNABLES = {
    "glibc.cpu.hwcaps": ",".join("-" + name for name in LEFT_OUT),
    "glibc.cpu.x86_data_cache_size": "0x8000",
    "glibc.cpu.x86_shared_cache_size": "0x100000",
    "glibc.cpu.x86_non_temporal_threshold": "0xc0000",
}
ENVIRONMENT = {
    "PATH": "/usr/bin:/bin",
    "LC_ALL": "C",
    "LD_BIND_NOW": "1",
    "GLIBC_TUNABLES": ":".join(f"{name}={value}" for name, value in TUNABLES.items()),
}


class NotCounted(Exception):
    """valgrind can't run the program, or what it ran did not do what it should."""


# A run: a program, its words, what it reads, and the function inside which instructions count.
Run = namedtuple("Run", "program words text within", defaults=("", "main"))


def valgrind():
    return shutil.which("valgrind")


def counted_with():
    """What the counts depend on beside the program."""
    said = subprocess.run([valgrind(), "--version"], stdout=subprocess.PIPE, text=True, check=True)
    try:
        library = os.confstr("CS_GNU_LIBC_VERSION")
    except ValueError:
        library = "another C library than glibc"
    return f"{said.stdout.strip().replace('-', ' ')} and {library}"


def instructions(run):
    """The instructions of a run, and the status with which it ended. The program is called by a name in
    its own folder, so that it has the same name wherever that is."""
    folder, name = os.path.split(os.path.abspath(run.program))
    with tempfile.TemporaryFile() as given:
        given.write(run.text.encode())
        given.seek(0)
        ran = subprocess.run(
            [valgrind(), "--command-line-only=yes", "--tool=callgrind", f"--toggle-collect={run.within}",
             "--callgrind-out-file=/dev/null", "./" + name, *run.words],
            cwd=folder, env=ENVIRONMENT, stdin=given, stdout=subprocess.DEVNULL,
            stderr=subprocess.PIPE, check=False)
    said = ran.stderr.decode("utf-8", "replace")
    found = re.search(r"Collected : (\d+)", said)
    if not found or int(found[1]) == 0:
        raise NotCounted(f"{name} {' '.join(run.words)}: status {ran.returncode}: {said}")
    return int(found[1]), ran.returncode


def all_instructions(runs):
    """Those of each run, by the run; as many at a time as there are processors."""
    different = list(dict.fromkeys(runs))
    with ThreadPoolExecutor(os.cpu_count()) as workers:
        return dict(zip(different, workers.map(instructions, different)))
