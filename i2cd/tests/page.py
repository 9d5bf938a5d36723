#!/usr/bin/env python3
"""Runs the commands of docs/i2cd.md that begin with `$ `, and compares what they print with what the page
has under them. Where `cat >` names a file, what the page has under it becomes that file.

    i2cd/tests/page.py BUILT PMB

BUILT is the folder with pmb-i2cd and libpmb-i2cdev.so. What needs i2c-tools or smbus2, where they are
missing, is told, and counts as skipped.
"""

import os
import re
import shutil
import subprocess
import sys
import tempfile

ROOT = os.path.dirname(os.path.dirname(os.path.dirname(os.path.abspath(__file__))))


def commands(text):
    """Each command with what is under it."""
    for block in re.findall(r"^```\n(.*?)^```$", text, re.M | re.S):
        if block.startswith("$ "):
            for part in re.split(r"^\$ ", block, flags=re.M)[1:]:
                command, _, under = part.partition("\n")
                yield command, under


def lacks(command, read):
    """What a command needs and is not there: a tool of i2c-tools, or smbus2, for what it reads."""
    words = command + " " + read
    tools = [it for it in re.findall(r"\bi2c(?:detect|dump|get|set|transfer)\b", words) if not shutil.which(it)]
    if tools:
        return tools[0]
    python = re.search(r"\S*python3", command)
    if python and "smbus2" in read:
        tried = subprocess.run([python.group(), "-c", "import smbus2"], stderr=subprocess.DEVNULL)
        return "smbus2" if tried.returncode else None
    return None


def main(built, pmb):
    passed, failed, skipped, read, made_by = 0, 0, 0, "", {}
    with open(os.path.join(ROOT, "docs/i2cd.md")) as file:
        text = file.read()
    with tempfile.TemporaryDirectory() as folder:
        os.mkdir(os.path.join(folder, "i2cd"))
        os.symlink(os.path.abspath(built), os.path.join(folder, "i2cd/out"))
        os.symlink(os.path.join(ROOT, "examples"), os.path.join(folder, "examples"))
        os.symlink(os.path.abspath(pmb), os.path.join(folder, "pmb"))
        for command, under in commands(text):
            made = re.fullmatch(r"cat > (\S+)", command)
            if made:
                made_by[made.group(1)] = under
                with open(os.path.join(folder, made.group(1)), "w") as file:
                    file.write(under)
                continue
            read = " ".join(text for name, text in made_by.items() if name in command.split())
            lacking = lacks(command, read)
            # (what a skipped command would have written is missing for those after it)
            if lacking or skipped and "wire.txt" in command:
                skipped += 1
                print("page: {} is missing, so this was not tried: {}".format(lacking or "wire.txt", command))
            elif command != "i2cd/build":
                done = subprocess.run(command, shell=True, cwd=folder, stdout=subprocess.PIPE,
                                      stderr=subprocess.STDOUT, universal_newlines=True, timeout=60)
                if done.stdout == under:
                    passed += 1
                else:
                    failed += 1
                    print("page: {}\n{}".format(command, done.stdout))
    print("page: {} passed, {} failed, {} skipped".format(passed, failed, skipped))
    return 1 if failed or passed + skipped < 6 else 0


if __name__ == "__main__":
    if len(sys.argv) != 3:
        sys.exit(__doc__)
    sys.exit(main(sys.argv[1], sys.argv[2]))
