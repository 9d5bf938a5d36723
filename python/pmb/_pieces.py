"""The pieces of a capture, as they come: of a text, of a file or a pipe, and of what is iterable.

Nothing here waits for more than the next piece, and none is longer than `MOST`.
"""

import codecs
import contextlib
import io
import mmap
import os
import sys
from typing import Any, Awaitable, Callable, Iterable, Iterator, Optional, Union

# A text, such as a capture's or a profile's.
Content = Union[str, bytes, bytearray, memoryview]

# The greatest number of bytes that are asked of a file, or handed on, at one time; of a str so many
# characters. (The objects of more are slower to make, since they don't fit into the processor's cache.)
MOST = 1 << 14

_PIECES = "a str, bytes, a file, or an iterable of such pieces"


def wrong_type(what: str, wanted: str, given: Any) -> TypeError:
    return TypeError("{} is {}, not {}".format(what, wanted, type(given).__name__))


def bytes_of(what: str, text: Any) -> bytes:
    """The bytes of a text."""
    if isinstance(text, str):
        return text.encode("utf-8", "surrogatepass")
    if isinstance(text, bytes):
        return text
    if isinstance(text, (bytearray, memoryview)):
        return bytes(text)
    raise wrong_type(what, "a str or bytes", text)


class Pieces(Iterator[bytes]):
    """Pieces of any length, cut into short ones. What raises an error may be asked again."""

    def __init__(self, what: str, pieces: Iterable[Content]) -> None:
        self._what, self._pieces = what, iter(pieces)
        self._piece: Union[str, bytes] = b""
        self._at = 0

    def __next__(self) -> bytes:
        while self._at >= len(self._piece):
            piece = next(self._pieces)
            # (a str is made bytes as it is cut, so that a long one is not there twice)
            self._piece = piece if isinstance(piece, str) else bytes_of(self._what, piece)
            self._at = 0
        begin, self._at = self._at, self._at + MOST
        return bytes_of(self._what, self._piece[begin : self._at])


class _File(Iterator[Content]):
    """What a file has, as it comes."""

    def __init__(self, file: Any) -> None:
        # (kept, since a file that nobody has any more is closed, and what is beneath it too)
        self._file = file
        self._read = _reading(_bytes_beneath(file))

    def __next__(self) -> Content:
        piece: Optional[Content] = self._read(MOST)
        if piece is None:
            raise BlockingIOError("capture is a file that has no data yet and doesn't wait for it")
        if not piece:
            raise StopIteration
        return piece


def _bytes_beneath(file: Any) -> Any:
    """The file of bytes beneath one that was opened as text, such as `sys.stdin`, where its bytes are
    those of the text, and nothing was read yet. Of a pipe the text comes only line by line."""
    if isinstance(file, io.TextIOWrapper):
        if codecs.lookup(file.encoding).name in ("ascii", "utf-8"):
            # (this changes nothing, and is refused once something was read)
            with contextlib.suppress(io.UnsupportedOperation):
                file.reconfigure(encoding=file.encoding, errors=file.errors)
                return file.buffer
    return file


def _reading(file: Any) -> Any:
    """The method of a file that gives what is there, and waits only where nothing is."""
    if hasattr(file, "read1"):
        return file.read1
    # (`read` of what can't be sought waits until all is there that was asked for)
    seekable = getattr(file, "seekable", None)
    if isinstance(file, (io.FileIO, mmap.mmap)) or seekable is not None and seekable():
        return file.read
    return getattr(file, "readline", file.read)


def pieces_of(capture: Any) -> Iterator[bytes]:
    """The pieces of a capture, in whatever form it is given."""
    if isinstance(capture, (str, bytes, bytearray, memoryview)):
        return Pieces("capture", [capture])
    if isinstance(capture, os.PathLike):
        raise TypeError("capture is {}, not a path: open it, as open(path, 'rb')".format(_PIECES))
    if hasattr(capture, "read"):
        return Pieces("a piece of capture", _File(capture))
    try:
        return Pieces("a piece of capture", iter(capture))
    except TypeError:
        raise wrong_type("capture", _PIECES, capture) from None


def awaited_pieces(capture: Any) -> Callable[[], Awaitable[Content]]:
    """What waits for the next piece of an asynchronous capture. Its end is a StopAsyncIteration."""
    asyncio = sys.modules.get("asyncio")
    if asyncio is None or not isinstance(capture, asyncio.StreamReader):
        found: Callable[[], Awaitable[Content]] = capture.__aiter__().__anext__
        return found

    # (iterated, it would give lines)
    async def read() -> Content:
        piece: bytes = await capture.read(MOST)
        if not piece:
            raise StopAsyncIteration
        return piece

    return read
