"""What the scripts here that pack what is released share: its version, the time of its files, and gzip."""
import calendar
import os
import re
import struct
import sys
import zlib
from pathlib import Path

ROOT = Path(os.path.dirname(os.path.dirname(os.path.realpath(__file__))))


def fail(why):
    """Ends the script that runs, with its name and the reason."""
    print("release/{}: {}".format(os.path.basename(sys.argv[0]), why), file=sys.stderr)
    sys.exit(1)


def version():
    """The version, which is the header's."""
    number = re.search(r"^#define PMB_VERSION (0x[0-9a-fA-F]+)u$", (ROOT / "include/pmb.h").read_text(), re.M)
    if not number:
        fail("include/pmb.h has no PMB_VERSION")
    whole = int(number[1], 16)
    return "{}.{}.{}".format(whole >> 16, whole >> 8 & 255, whole & 255)


def moment():
    """The time of all files: SOURCE_DATE_EPOCH, or else the day on which the version was released."""
    if os.environ.get("SOURCE_DATE_EPOCH"):
        return int(os.environ["SOURCE_DATE_EPOCH"])
    heading = re.search(r"^## \[{}\] - (\d+)-(\d+)-(\d+)$".format(re.escape(version())),
                        (ROOT / "CHANGELOG.md").read_text(encoding="utf-8"), re.M)
    if not heading:
        fail("CHANGELOG.md has no heading `## [{}] - YEAR-MONTH-DAY`".format(version()))
    return calendar.timegm((*map(int, heading.groups()), 0, 0, 0))


def gzipped(content):
    """As `gzip -9n` writes it."""
    packer = zlib.compressobj(9, zlib.DEFLATED, -15)
    packed = packer.compress(content) + packer.flush()
    return b"\x1f\x8b\x08\0\0\0\0\0\x02\x03" + packed + struct.pack("<II", zlib.crc32(content), len(content))
