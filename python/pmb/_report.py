"""Reports: the page with recordings inside, as one file."""

import argparse
import base64
import gzip
import json
import os
import sys
from typing import Dict, Iterable, List, Mapping, Optional, Union

Path = Union[str, "os.PathLike[str]"]
Recordings = Union[Mapping[str, Union[str, bytes]], Iterable[Path]]

_PLACE = '<script type="text/plain" id="inside"></script>'


def _page() -> str:
    """The text of the page: the package's own, that of a clone, or that of Debian's package."""
    here = os.path.dirname(os.path.abspath(__file__))
    clone = os.path.dirname(os.path.dirname(here))
    for path in (
        os.path.join(here, "page.html"),
        os.path.join(clone, "web", "pmb.html"),
        "/usr/share/pmb/page/pmb.html",
    ):
        if os.path.exists(path):
            with open(path, encoding="utf-8") as file:
                return file.read()
    missing = os.path.join(here, "page.html")
    raise FileNotFoundError("this package has no page, which would be {}".format(missing))


def _contents(recordings: Recordings) -> List[Dict[str, str]]:
    """The names of recordings, and their bytes as characters from 0 to 255."""
    found = []
    if isinstance(recordings, Mapping):
        for name, content in recordings.items():
            data = content.encode("utf-8") if isinstance(content, str) else bytes(content)
            found.append({"name": name, "text": data.decode("latin-1")})
        return found
    if isinstance(recordings, (str, bytes)) or not isinstance(recordings, Iterable):
        raise TypeError(
            "recordings are paths in a list, or texts by their names, and not {}".format(
                type(recordings).__name__
            )
        )
    for path in recordings:
        with open(path, "rb") as file:
            text = file.read().decode("latin-1")
        found.append({"name": os.path.basename(os.fspath(path)), "text": text})
    return found


def report(
    profile: Optional[str],
    recordings: Recordings,
    out: Path,
    name: str = "profile.toml",
) -> None:
    """Writes a report: the page (docs/page.md) with recordings inside, as one file to mail, or to
    keep with the results of a test. Opened in a browser, it shows them at once, and loads and sends
    nothing.

    `profile` is the profile's text, or `None` for one that is made of the addresses that answered.
    `recordings` are paths in a list, or texts or bytes by their names: captures, and whatever
    `pmb import` reads. `out` is the file that is written, and `name` what the page calls the
    profile. Raises an `OSError` where a file can't be read or written, and a `ValueError` without
    a recording.

        >>> import os, tempfile
        >>> import pmb
        >>> out = os.path.join(tempfile.mkdtemp(), "report.html")
        >>> profile = "[[device]]\\naddress = 0x58\\npec = 'optional'"
        >>> pmb.report(profile, {"one.txt": "S b0 A 03 A P"}, out)
        >>> open(out).read(15)
        '<!doctype html>'
    """
    inside = _contents(recordings)
    if not inside:
        raise ValueError("a report has one recording at least")
    own = None if profile is None else {"text": profile, "name": name}
    data = json.dumps({"profile": own, "recordings": inside}).encode()
    # (without a time, so that the same recordings make the same bytes)
    packed = base64.b64encode(gzip.compress(data, 9, mtime=0)).decode()
    before, after = _page().split(_PLACE)
    with open(out, "w", encoding="utf-8") as file:
        file.write(before + _PLACE.replace("></", ">" + packed + "</") + after)


report.__module__ = "pmb"


def main(words: List[str]) -> int:
    """Runs `python3 -m pmb report`, and returns its exit status."""
    parser = argparse.ArgumentParser(
        prog="python3 -m pmb report",
        description="Writes the page with recordings inside, as one file.",
    )
    parser.add_argument(
        "recordings", nargs="+", metavar="RECORDING", help="a recording or a capture"
    )
    parser.add_argument(
        "-p",
        "--profile",
        metavar="FILE",
        help="the profile of the bus; without it one is made of the addresses that answered",
    )
    parser.add_argument(
        "-o", "--out", metavar="FILE", required=True, help="the file to write, such as report.html"
    )
    given = parser.parse_args(words)
    try:
        profile = None
        if given.profile is not None:
            with open(given.profile, encoding="utf-8") as file:
                profile = file.read()
        name = os.path.basename(given.profile or "profile.toml")
        report(profile, given.recordings, given.out, name)
    except (OSError, UnicodeDecodeError) as error:
        print("pmb: report: {}".format(error), file=sys.stderr)
        return 3
    return 0
