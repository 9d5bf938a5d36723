"""Builds the wheel of a clone: the package, and in it the released library and program. Also a source
archive, from which the wheel can be built elsewhere, and what `pip install -e ./python` asks for.

It needs nothing but Python, so `pip install ./python` fetches nothing. The wheel is one for the
processor of this machine, or for the one that `pip wheel -C processor=aarch64 ./python` names.

Of the same files it always makes the same bytes: what it makes has the time SOURCE_DATE_EPOCH, or else the
first that a wheel can tell.
"""

import base64
import gzip
import hashlib
import io
import os
import platform
import stat
import sys
import tarfile
import time
import zipfile

HERE = os.path.dirname(os.path.abspath(__file__))
# The released files: those of a clone, or those in an archive of sources.
RELEASE = os.path.join(HERE, os.pardir, "release")
ARCHIVED = os.path.join(HERE, "release")
# Their folder for each processor.
FOLDERS = {"x86_64": "", "aarch64": "aarch64"}
VERSION = "0.2.0"
NAME = "pmb-{}".format(VERSION)
INFO = NAME + ".dist-info"
# (`.ci/calls.py` compares it with pyproject.toml)
METADATA = """Metadata-Version: 2.1
Name: pmb
Version: {}
Summary: The proved PMBus codec: numbers, packets, captures and simulated devices
Keywords: pmbus,smbus,i2c,power,codec,simulation
Classifier: Development Status :: 4 - Beta
Classifier: Intended Audience :: Developers
Classifier: Intended Audience :: Manufacturing
Classifier: Operating System :: POSIX :: Linux
Classifier: Programming Language :: Python :: 3
Classifier: Programming Language :: Python :: 3 :: Only
Classifier: Topic :: Software Development :: Embedded Systems
Classifier: Topic :: Software Development :: Testing
Classifier: Topic :: System :: Hardware
Classifier: Typing :: Typed
Requires-Python: >=3.8
Provides-Extra: cluster
Requires-Dist: distributed; extra == "cluster"
Description-Content-Type: text/markdown

""".format(VERSION)
# What the library needs is in glibc 2.17 and in musl.
SYSTEMS = ("manylinux_2_17_{}", "manylinux2014_{}", "musllinux_1_1_{}")
# The first time that a wheel can tell, 1980-01-01.
FIRST = 315532800
WHEEL = """Wheel-Version: 1.0
Generator: wheel_of_clone
Root-Is-Purelib: false
"""


def read(path):
    with open(path, "rb") as file:
        return file.read()


def metadata():
    return METADATA.encode() + read(os.path.join(HERE, "README.md"))


def moment():
    """The time of each file, in seconds since 1970."""
    return max(int(os.environ.get("SOURCE_DATE_EPOCH") or FIRST), FIRST)


def release():
    """The folder of the released files."""
    return ARCHIVED if os.path.isdir(ARCHIVED) else RELEASE


def released(processor):
    """The folder of the released files for a processor."""
    return os.path.join(release(), FOLDERS[processor])


def rights():
    """What is said of licences: that none is chosen, and which the libraries have that are linked in."""
    return read(os.path.join(release(), "COPYRIGHT"))


def page():
    """The page: of the archive, or of the clone."""
    archived = os.path.join(ARCHIVED, "pmb.html")
    return archived if os.path.isdir(ARCHIVED) else os.path.join(os.path.dirname(RELEASE), "web", "pmb.html")


def processor_of(config_settings):
    """The processor that the wheel is for. Where there is no library for it, pip shows the sentence."""
    found = (config_settings or {}).get("processor", platform.machine())
    bits = 64 if sys.maxsize > 2 ** 32 else 32
    if found not in FOLDERS or sys.platform != "linux" or bits != 64:
        sys.exit(
            "pmb is there for 64-bit Python on Linux, for the processors {}, and this is {}-bit"
            " Python on {}, for {}".format(" and ".join(FOLDERS), bits, sys.platform, found)
        )
    return found


# ---- what is in each


def modules():
    """The files of the package: their names, and their bytes."""
    package = os.path.join(HERE, "pmb")
    for name in sorted(os.listdir(package)):
        if name.endswith((".py", ".typed")):
            yield "pmb/" + name, read(os.path.join(package, name))


def parts():
    """The profiles of real parts: of the archive, or of the clone."""
    archived = os.path.join(ARCHIVED, "profiles")
    folder = archived if os.path.isdir(archived) else os.path.join(os.path.dirname(RELEASE), "examples", "profiles")
    for name in sorted(os.listdir(folder)):
        if name.endswith(".toml"):
            yield "profiles/" + name, read(os.path.join(folder, name))


def files(processor):
    """Each file of a wheel but those of its own: its name, its mode and its bytes."""
    folder = released(processor)
    for name, content in modules():
        yield name, 0o644, content
    yield "pmb/libpmb.so", 0o755, read(os.path.join(folder, "libpmb.so"))
    # (pmb.table makes its columns there)
    yield "pmb/libpmb_table.so", 0o755, read(os.path.join(folder, "libpmb_table.so"))
    # (python3 -m pmb starts it)
    yield "pmb/pmb", 0o755, read(os.path.join(folder, "pmb"))
    # (pmb.report writes it with recordings inside)
    yield "pmb/page.html", 0o644, read(page())
    # (`pmb parts` looks beside the program)
    for name, content in parts():
        yield "pmb/" + name, 0o644, content


def sources():
    """Each file of an archive of sources."""
    yield "PKG-INFO", 0o644, metadata()
    for name in ("README.md", "pyproject.toml", "wheel_of_clone.py"):
        yield name, 0o644, read(os.path.join(HERE, name))
    for name, content in modules():
        yield name, 0o644, content
    yield "release/COPYRIGHT", 0o644, rights()
    yield "release/pmb.html", 0o644, read(page())
    for name, content in parts():
        yield "release/" + name, 0o644, content
    for processor, folder in FOLDERS.items():
        for name in ("libpmb.so", "libpmb_table.so", "pmb"):
            path = os.path.join("release", folder, name)
            yield path, 0o755, read(os.path.join(released(processor), name))


# ---- archives


def entry(path, mode):
    """What a wheel says of a file."""
    found = zipfile.ZipInfo(path, time.gmtime(moment())[:6])
    found.external_attr = (stat.S_IFREG | mode) << 16
    found.compress_type = zipfile.ZIP_DEFLATED
    return found


def write_wheel(directory, tags, content):
    """Writes a wheel of files, and returns its name."""
    name = "{}-py3-none-{}.whl".format(NAME, ".".join(tags))
    lines = "".join("Tag: py3-none-{}\n".format(tag) for tag in tags)
    own = [
        (INFO + "/METADATA", 0o644, metadata()),
        (INFO + "/COPYRIGHT", 0o644, rights()),
        (INFO + "/WHEEL", 0o644, (WHEEL + lines).encode()),
    ]
    record = ""
    with zipfile.ZipFile(os.path.join(directory, name), "w") as wheel:
        for path, mode, data in [*content, *own]:
            wheel.writestr(entry(path, mode), data)
            digest = base64.urlsafe_b64encode(hashlib.sha256(data).digest()).rstrip(b"=")
            record += "{},sha256={},{}\n".format(path, digest.decode(), len(data))
        wheel.writestr(entry(INFO + "/RECORD", 0o644), record + INFO + "/RECORD,,\n")
    return name


def write_archive(directory, name, top, content, when):
    """Writes an archive of files, all in one folder and of one time, and returns its name."""
    path = os.path.join(directory, name + ".tar.gz")
    # (gzip would tell the file's name and the time at which it was packed)
    with open(path, "wb") as file, gzip.GzipFile("", "wb", 9, file, when) as packed:
        with tarfile.open(fileobj=packed, mode="w", format=tarfile.PAX_FORMAT) as archive:
            for inner, mode, data in content:
                found = tarfile.TarInfo(top + "/" + inner)
                found.size, found.mode, found.mtime = len(data), mode, when
                archive.addfile(found, io.BytesIO(data))
    return name + ".tar.gz"


# ---- what pip calls


def build_wheel(wheel_directory, config_settings=None, metadata_directory=None):
    processor = processor_of(config_settings)
    tags = [system.format(processor) for system in SYSTEMS]
    return write_wheel(wheel_directory, tags, files(processor))


def build_editable(wheel_directory, config_settings=None, metadata_directory=None):
    """A wheel that names this folder: the package is used where it lies, with the clone's library."""
    processor = processor_of(config_settings)
    if not os.path.isdir(RELEASE) or os.path.isdir(ARCHIVED):
        sys.exit("pmb is used where it lies in a clone alone: here, install it without -e")
    path = [("pmb_of_clone.pth", 0o644, (HERE + "\n").encode())]
    return write_wheel(wheel_directory, ["linux_" + processor], path)


def build_sdist(sdist_directory, config_settings=None):
    """An archive of what makes the wheel. The library and the program are in it as they were released:
    to build these takes a clone, and the toolchain."""
    return write_archive(sdist_directory, NAME, NAME, sources(), moment())
