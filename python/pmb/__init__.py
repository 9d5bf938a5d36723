"""The proved PMBus codec: numbers, packet error codes and names; captures, packets and simulated
devices under a profile; recordings of analysers and of the Linux kernel.

    >>> import pmb
    >>> pmb.decode("linear11", 0xd300)
    Fraction(12, 1)
    >>> hex(pmb.encode("vout:17", "3.3"))
    '0x69a'
    >>> hex(pmb.pec(bytes.fromhex("b0 21 00 18")))
    '0xf8'
    >>> profile = "[[device]]\\naddress = 0x58\\npec = 'optional'"
    >>> pmb.build(profile, "write 58 21 00 18")
    'S b0 A 21 A 00 A 18 A P\\n'
    >>> [it["value"] for it in pmb.transactions(profile, "S b0 A 21 A 00 A 18 A P")]
    ['12']
    >>> [event.byte for event in pmb.events("S b0 A 21 A P") if event.kind == "byte"]
    [176, 33]

A `Profile` is read once for many calls, and a `Reader` takes a capture in pieces.

    >>> with pmb.Profile(profile) as opened:
    ...     print([opened.check(capture).packets for capture in ("", "S b0 A 03 A P")])
    [0, 1]

A `Bus` has the devices of a profile, simulated, and the methods of `smbus2.SMBus`. A `Device` is
read and written by the names of its commands, on such a bus or on a real one.

    >>> with pmb.Bus(profile) as bus:
    ...     device = pmb.Device(bus, profile, 0x58)
    ...     device["VOUT_COMMAND"] = 12
    ...     print(device["VOUT_COMMAND"])
    12 V

Every call may be made from several threads side by side. What is returned, but for the iterators of
`events` and of `transactions` of a file or a stream, and each error can be pickled and copied, and
so goes through pools of processes; so does a `Profile`. An argument of another type is a `TypeError`
that names it. `pmb.objects` has the types of the objects that `transactions` gives, and
`python3 -m pmb` is the program.
"""

import contextlib
import ctypes
import json as _json
import math
import mmap
import numbers
import operator
import re
import threading
from decimal import Decimal
from fractions import Fraction
from typing import (
    Any,
    AsyncIterable,
    AsyncIterator,
    Awaitable,
    Callable,
    Coroutine,
    Iterable,
    Iterator,
    List,
    NamedTuple,
    Optional,
    Tuple,
    Union,
    overload,
)

from . import objects as objects
from ._library import LIBRARY as _LIBRARY
from ._library import Choice as _Choice
from ._library import Event as _Event
from ._library import Format as _Format
from ._library import Held as _Held
from ._library import Lexer as _Lexer
from ._library import Quantity as _Quantity
from ._library import Recorder as _Recorder
from ._library import Result as _Result
from ._pieces import Content
from ._pieces import Pieces as _Pieces
from ._pieces import awaited_pieces as _awaited_pieces
from ._report import report as report
from ._pieces import bytes_of as _bytes
from ._pieces import pieces_of as _pieces_of
from ._pieces import wrong_type as _wrong_type

__version__ = "0.2.0"

# (not `json`, which `from pmb import *` would put in the place of Python's own; and no module)
__all__ = [
    "Bus",
    "Device",
    "Error",
    "Event",
    "Format",
    "LineError",
    "Profile",
    "ProfileError",
    "Reader",
    "Reading",
    "Table",
    "Text",
    "TokenError",
    "TransferError",
    "bit_name",
    "build",
    "check",
    "command_name",
    "decode",
    "encode",
    "events",
    "i2c_msg",
    "imported",
    "pec",
    "quantity",
    "quantity_text",
    "report",
    "run",
    "show",
    "table",
    "transactions",
    "version",
]

# What an older library lacks.
_HAS_PROFILES = hasattr(_LIBRARY, "pmb_profile_open")
_HAS_READERS = hasattr(_LIBRARY, "pmb_reader_open")
_HAS_BUSES = hasattr(_LIBRARY, "pmb_bus_open")

# The names of the faults, which are those that the program `pmb` prints, by the library's statuses.
_FAULTS = {
    1: "Below",
    2: "Above",
    3: "BadFormat",
    4: "BadExponent",
    5: "ZeroSlope",
    6: "BadScale",
    7: "Relative",
    8: "Vid",
    9: "Ieee",
    10: "NoCoefficients",
    11: "Empty",
    12: "BadDigit",
    13: "ZeroDenominator",
    14: "TooLarge",
    22: "NotANumber",
    23: "NoCode",
    24: "Off",
}
_OK, _NO_NAME, _NO_ROOM, _BAD_PROFILE, _NO_MEMORY = 0, 15, 16, 17, 18
_NO_EVENT, _BAD_TOKEN, _ENDED = 20, 21, 26

# The kinds of events, by the library's numbers.
_KINDS = ("start", "byte", "ack", "nack", "stop")

# What wrote a recording, by the library's numbers, and the greatest number of samples in a second.
_SOURCES = ("sigrok", "saleae", "beagle", "kernel", "smbus")
_MOST_RATE = 18446744073

# The names of the faults of profiles, by the library's numbers.
_PROFILE_FAULTS = (
    "NotToml UnknownKey MissingKey WrongType TooManyDevices BadAddress AddressTwice BadValue BadPages "
    "UnknownName BadName BadForm BadCoefficients CodeTwice BadInitial"
).split()

# The kinds of formats, by the library's numbers.
_LINEAR11, _LINEAR11_FIXED, _ULINEAR16, _SLINEAR16, _DIRECT, _VOUT, _VOUT_SIGNED = range(7)
_HALF, _VID, _UDIRECT = 7, 8, 9

# The VID tables, by the library's numbers.
_TABLES = ("vr11", "vr12", "vr13", "imvp9", "amd625mv", "nvidia195mv")


class Error(ValueError):
    """A format, a quantity, a code, a choice of objects or what is said of a recording has a fault.

    `fault` is the fault's name, as the program prints it: `Below`, `BadExponent`, `BadAddress` and so
    on. `place` is the argument in which it lies: `format`, `quantity`, `code`; of objects
    `fixed_vout_mode`, `digits` or `devices`; of a recording `source`, `rate`, `unshifted` or `bus`.
    Of objects and recordings the error's text says more.

        >>> import pmb
        >>> try:
        ...     pmb.encode("linear11", "1e5")
        ... except pmb.Error as error:
        ...     print(error.fault, error.place, error, sep=", ")
        BadDigit, quantity, BadDigit in quantity
        >>> try:
        ...     pmb.json("", "", devices=[0xb0])
        ... except pmb.Error as error:
        ...     print(error)
        BadAddress in devices: 0xb0 is the 8-bit form of 0x58
    """

    def __init__(self, fault: str, place: str, why: str = "") -> None:
        super().__init__("{} in {}{}".format(fault, place, ": " + why if why else ""))
        self.fault = fault
        self.place = place
        self._why = why

    # An exception is pickled and copied by the arguments of its class, which are not its text.
    def __reduce__(self) -> Tuple[Any, ...]:
        return type(self), self._arguments(), self.__dict__

    def _arguments(self) -> Tuple[Any, ...]:
        return self.fault, self.place, self._why


class ProfileError(Error):
    """A profile has a fault: `fault` is its name, as `BadPages`, and `place` is `profile`, or `device
    0`, or `device 0 command 2`. `device` and `command` are the numbers, counted from 0, or `None`.
    `hint` has the lines with which `pmb profile` helps, and may be empty. The error's text has them
    too. `line` and `column` are where the fault stands in the profile's text, both counted from 1,
    the column in bytes of UTF-8; or `None`, if there was no memory to look for it.

        >>> import pmb
        >>> try:
        ...     pmb.show("[[device]]\\naddress = 0x58", "")
        ... except pmb.ProfileError as error:
        ...     print(error.fault, error.device, error.command, error.line, error, sep=", ")
        MissingKey, 0, None, 1, MissingKey in device 0
          line 1, column 1: pec is missing, such as pec = "optional"
    """

    def __init__(
        self,
        fault: str,
        device: Optional[int],
        command: Optional[int],
        hint: str = "",
        line: Optional[int] = None,
        column: Optional[int] = None,
    ) -> None:
        place = "profile"
        if device is not None:
            place = "device {}".format(device)
        if command is not None:
            place += " command {}".format(command)
        super().__init__(fault, place)
        self.device = device
        self.command = command
        self.hint = hint
        self.line = line
        self.column = column

    def __str__(self) -> str:
        return "\n".join([super().__str__()] + self.hint.splitlines())

    def _arguments(self) -> Tuple[Any, ...]:
        return self.fault, self.device, self.command, self.hint, self.line, self.column


class LineError(Error):
    """A line can't be built: `fault` is its fault as the program prints it, as `BadWord at 8`, and
    `place` is `line 2`. `line` is the number, counted from 1.

        >>> import pmb
        >>> try:
        ...     pmb.build("[[device]]\\naddress = 0x58\\npec = 'on'", "write 58 03 pec\\nwrite 5")
        ... except pmb.LineError as error:
        ...     print(error.fault, error.line, error, sep=", ")
        BadWord at 6, 2, BadWord at 6 in line 2
    """

    def __init__(self, fault: str, line: int) -> None:
        super().__init__(fault, "line {}".format(line))
        self.line = line

    def _arguments(self) -> Tuple[Any, ...]:
        return self.fault, self.line


class TokenError(Error):
    """A word of a capture's text is no token: `fault` is `BadToken`, and `place` is `byte 5`. `at` is
    the number of the word's first byte, counted from 0.

        >>> import pmb
        >>> try:
        ...     list(pmb.events("S b0 hm"))
        ... except pmb.TokenError as error:
        ...     print(error.fault, error.at, error, sep=", ")
        BadToken, 5, BadToken in byte 5
    """

    def __init__(self, at: int) -> None:
        super().__init__("BadToken", "byte {}".format(at))
        self.at = at

    def _arguments(self) -> Tuple[Any, ...]:
        return (self.at,)


class Event(NamedTuple):
    """An event of a bus: its kind is `start`, `byte`, `ack`, `nack` or `stop`; `byte` is the byte of a
    `byte`, and else `None`.

        >>> import pmb
        >>> next(pmb.events("b0"))
        Event(kind='byte', byte=176)
    """

    kind: str
    byte: Optional[int] = None


class Text(str):
    """What a call wrote, a `str`, and how many packets and refusals it counted.

        >>> import pmb
        >>> text = pmb.show("[[device]]\\naddress = 0x58\\npec = 'optional'", "S b0 A 03 A P S")
        >>> print(text, text.packets, text.refusals)
        write 58 03 # CLEAR_FAULTS
        # refusal at 7: Truncated, expected Byte
         1 1
    """

    packets: int
    refusals: int

    def __new__(cls, text: str, packets: int, refusals: int) -> "Text":
        made = super().__new__(cls, text)
        made.packets = packets
        made.refusals = refusals
        return made

    # (the arguments with which a copy is made)
    def __getnewargs__(self) -> Tuple[str, int, int]:  # type: ignore[override]
        return str(self), self.packets, self.refusals


class Format(NamedTuple):
    """A number format of two bytes: its kind, and the numbers that the kind asks for.

    Make one by `Format.parse`, or by one of the other methods.

        >>> import pmb
        >>> pmb.Format.parse("vout:17") == pmb.Format.vout(0x17)
        True
    """

    kind: int
    exponent: int = 0
    mode: int = 0
    r: int = 0
    m: int = 0
    b: int = 0

    @classmethod
    def parse(cls, text: str) -> "Format":
        """The format that a text names: `linear11`, `linear11:E`, `ulinear16:E`, `slinear16:E`,
        `vout:HH`, `half`, `vid:TABLE`, `direct:M,B,R` or `udirect:M,B,R`. E is the exponent of two,
        HH a VOUT_MODE in two hexadecimal digits, TABLE a VID table, and M, B and R are DIRECT's
        coefficients. The words of `udirect` have no sign.

        Any other text, or a number of more than 8 bits (16 for M and B), is a `BadFormat`.

            >>> import pmb
            >>> pmb.encode(pmb.Format.parse("direct:3,2,1"), 1)
            50
        """
        if not isinstance(text, str):
            raise _wrong_type("format", "a str or a pmb.Format", text)
        if text == "linear11":
            return cls(_LINEAR11)
        if text == "half":
            return cls.half()
        kinds = {"linear11": _LINEAR11_FIXED, "ulinear16": _ULINEAR16, "slinear16": _SLINEAR16}
        kind, colon, numbers = text.partition(":")
        if colon and kind in kinds:
            return cls(kinds[kind], exponent=_integer(numbers, 8))
        if colon and kind == "vout" and re.fullmatch("[0-9A-Fa-f]{2}", numbers):
            return cls.vout(int(numbers, 16))
        if colon and kind == "vid":
            return cls.vid(numbers)
        if colon and kind in ("direct", "udirect") and numbers.count(",") == 2:
            m, b, r = numbers.split(",")
            return cls.direct(
                _integer(m, 16), _integer(b, 16), _integer(r, 8), unsigned=kind == "udirect"
            )
        raise Error("BadFormat", "format")

    @classmethod
    def half(cls) -> "Format":
        """IEEE 754 half precision (binary16).

            >>> import pmb
            >>> hex(pmb.encode(pmb.Format.half(), 12))
            '0x4a00'
        """
        return cls(_HALF)

    @classmethod
    def vid(cls, table: str) -> "Format":
        """The codes of a VID table: `vr11`, `vr12`, `vr13`, `imvp9`, `amd625mv` or `nvidia195mv`.
        Another name is a `BadFormat`.

            >>> import pmb
            >>> hex(pmb.encode(pmb.Format.vid("vr12"), 1))
            '0x97'
        """
        if not isinstance(table, str):
            raise _wrong_type("table", "a str", table)
        if table not in _TABLES:
            raise Error("BadFormat", "format")
        return cls(_VID, mode=1 + _TABLES.index(table))

    @classmethod
    def direct(cls, m: int, b: int, r: int, unsigned: bool = False) -> "Format":
        """DIRECT: a word Y is worth (Y * 10^-r - b) / m. m is not 0, and r is from -9 to 9. Y has a
        sign, as the standard has it, or with `unsigned` none.

            >>> import pmb
            >>> pmb.decode(pmb.Format.direct(3, 2, 1), 0)
            Fraction(-2, 3)
            >>> pmb.decode(pmb.Format.direct(1, 0, 0, unsigned=True), 0xffff)
            Fraction(65535, 1)
        """
        return cls(_UDIRECT if unsigned else _DIRECT, m=m, b=b, r=r)

    @classmethod
    def vout(
        cls, mode: int, signed: bool = False, direct: Optional["Format"] = None
    ) -> "Format":
        """The format that a VOUT_MODE names, for a command whose linear words are unsigned, as
        VOUT_COMMAND, or signed, as VOUT_TRIM; with the coefficients of a DIRECT format, if any.
        Where these are for words without a sign, they are so for an unsigned command alone.

            >>> import pmb
            >>> pmb.decode(pmb.Format.vout(0x17, signed=True), 0xffff)
            Fraction(-1, 512)
            >>> pmb.encode(pmb.Format.vout(0x40, direct=pmb.Format.direct(3, 2, 1)), 1)
            50
        """
        kind = _VOUT_SIGNED if signed else _VOUT
        if not (direct is None or isinstance(direct, Format)):
            raise _wrong_type("direct", "a pmb.Format", direct)
        if direct is None:
            return cls(kind, mode=mode)
        if direct.kind == _UDIRECT and not signed and direct.m != 0:
            # (the library's VOUT_MODE has coefficients for words with a sign alone)
            if _index("mode of format", mode) >> 5 == 2:
                return direct
        return cls(kind, mode=mode, m=direct.m, b=direct.b, r=direct.r)


# What is taken as a quantity. A text is read as the program reads it, as "12", "-1.5" or "2/3". A
# float is the exact number that it holds.
Number = Union[Fraction, int, Decimal, float, str]

# What a call takes as a profile, and as the addresses of the wanted devices.
_Profiled = Union[Content, "Profile"]
_Devices = Optional[Iterable[Union[int, str]]]
# A choice, the wanted addresses and their number, as the library takes them.
_Chosen = Tuple[Any, bytes, int]


def version() -> str:
    """The version of the library, as `0.2.0`.

        >>> import pmb
        >>> pmb.version() == pmb.__version__
        True
    """
    number = _LIBRARY.pmb_version()
    return "{}.{}.{}".format(number >> 16, number >> 8 & 0xFF, number & 0xFF)


def pec(data: Union[bytes, Iterable[int]], crc: int = 0) -> int:
    """The packet error code (SMBus 3.0 section 6.4) of bytes, or of a list of their numbers, after
    others whose code is `crc`.

    In a packet it covers every byte before it, address bytes included.

        >>> import pmb
        >>> hex(pmb.pec([0xb0, 0x03])), hex(pmb.pec(b"\\x03", pmb.pec(b"\\xb0")))
        ('0x46', '0x46')
    """
    before, found = _within("crc", crc, 255), _data(data)
    return int(_LIBRARY.pmb_pec(before, found, len(found)))


def encode(format: Union[str, Format], quantity: Number) -> int:
    """The code of two bytes that is nearest to a quantity, the even one where two are equally near.

    A number may have any size and any number of digits; one that is not finite is a `ValueError`.
    Raises an `Error` with what is wrong with the format, or else with the quantity's text, or else
    `Below` or `Above` for a quantity outside the format's range.

        >>> import pmb
        >>> [pmb.encode("ulinear16:-9", it) for it in (3.3, "3.3", pmb.quantity("33/10"))]
        [1690, 1690, 1690]
        >>> pmb.encode("linear11", 1e300)
        Traceback (most recent call last):
        pmb.Error: Above in quantity
    """
    named = _format(format)
    code = ctypes.c_uint16()
    try:
        number = _quantity(quantity)
    except Error as error:
        # The format's fault comes before the quantity's.
        _raise_format_fault(named)
        if isinstance(quantity, str) or error.fault != "TooLarge":
            raise
        number = _as_near(_exact(quantity), _unit(named))
    _raise_fault(_LIBRARY.pmb_encode(ctypes.byref(named), number, ctypes.byref(code)))
    return code.value


def decode(format: Union[str, Format], code: int) -> Fraction:
    """The exact value of a code of two bytes.

    Raises an `Error` with what is wrong with the format, or `BadCode` for a code that is not from 0
    to 65535, or else why the code has no value: `NotANumber` in half precision, `NoCode` or `Off` in
    a VID table.

        >>> import pmb
        >>> value = pmb.decode("linear11", 0xd301)
        >>> value, float(value), f"{float(value):.3f}"
        (Fraction(769, 64), 12.015625, '12.016')
        >>> pmb.decode("vid:vr12", 0)
        Traceback (most recent call last):
        pmb.Error: Off in code
    """
    named = _format(format)
    quantity = _Quantity()
    number = _index("code", code)
    if not 0 <= number < 1 << 16:
        _raise_format_fault(named)
        raise Error("BadCode", "code")
    _raise_fault(_LIBRARY.pmb_decode(ctypes.byref(named), number, ctypes.byref(quantity)))
    return Fraction(quantity.numerator, quantity.denominator)


def quantity(text: Content) -> Fraction:
    """The quantity that a text spells: an optional `-`, digits, and then nothing, a point and
    digits, or a slash and digits. Raises an `Error`: `Empty`, `BadDigit`, `ZeroDenominator` or
    `TooLarge`.

        >>> import pmb
        >>> pmb.quantity("-1.5"), pmb.quantity("2/6")
        (Fraction(-3, 2), Fraction(1, 3))
    """
    found = _parse(text)
    return Fraction(found.numerator, found.denominator)


def quantity_text(quantity: Number) -> str:
    """The text of a quantity: its shortest exact decimal where one has at most 24 digits after the
    point, as `-1.5`, and otherwise numerator and denominator, as `-2/3`. One with a number of 2^62
    or more in lowest terms is `TooLarge`.

        >>> import pmb
        >>> pmb.quantity_text(1.5), pmb.quantity_text(pmb.decode("direct:3,2,1", 0))
        ('1.5', '-2/3')
    """
    number = _quantity(quantity)
    room, length = ctypes.create_string_buffer(46), ctypes.c_size_t()
    _raise_fault(_LIBRARY.pmb_quantity_text(number, room, len(room), ctypes.byref(length)))
    return room.value.decode("ascii")


def command_name(code: int) -> Optional[str]:
    """The name of a standard command (PMBus Part II Appendix I), as `READ_VIN` of 0x88; `None`
    where the standard has none. A code is from 0 to 255.

        >>> import pmb
        >>> pmb.command_name(0x88), pmb.command_name(0xff)
        ('READ_VIN', None)
    """
    byte = _within("code", code, 255)
    room, length = ctypes.create_string_buffer(33), ctypes.c_size_t()
    status = _LIBRARY.pmb_command_name(byte, room, len(room), ctypes.byref(length))
    return None if status == _NO_NAME else room.value.decode("ascii")


def bit_name(code: int, bit: int) -> Optional[str]:
    """The name of a bit of a status command (PMBus Part II section 17), as `VOUT` of bit 15 of
    0x79, STATUS_WORD; `None` where it has none. Bits are counted from 0, the lowest, to 15.

        >>> import pmb
        >>> pmb.bit_name(0x79, 15), pmb.bit_name(0x88, 15)
        ('VOUT', None)
    """
    byte, place = _within("code", code, 255), _within("bit", bit, 15)
    room, length = ctypes.create_string_buffer(33), ctypes.c_size_t()
    status = _LIBRARY.pmb_bit_name(byte, place, room, len(room), ctypes.byref(length))
    return None if status == _NO_NAME else room.value.decode("ascii")


def events(text: Union[Content, Iterable[Content]]) -> Iterator[Event]:
    """The events of a capture's text, each as soon as its word has ended.

    The text may come in pieces, cut anywhere: those of a list, or the lines of an open file. Raises a
    `TokenError` at the first word that is no token.

        >>> import pmb
        >>> [event.kind for event in pmb.events(["S b", "0 N P"])]
        ['start', 'byte', 'nack', 'stop']
    """
    if isinstance(text, (str, bytes, bytearray, memoryview)):
        return _events(iter([text]))
    return _events(_each("text", "a str, bytes, or an iterable of such pieces", text))


def _events(pieces: Iterator[Content]) -> Iterator[Event]:
    lexer, event, used = _Lexer(), _Event(), ctypes.c_size_t()
    status = _NO_EVENT
    for piece in pieces:
        given = _bytes("a piece of text", piece)
        at, end = ctypes.cast(ctypes.c_char_p(given), ctypes.c_void_p).value or 0, len(given)
        while True:
            status = _LIBRARY.pmb_lex(
                ctypes.byref(lexer), at, end, ctypes.byref(used), ctypes.byref(event)
            )
            if status != _OK:
                break
            yield _event(event)
            at, end = at + used.value, end - used.value
        if status == _BAD_TOKEN:
            raise TokenError(lexer.at)
    status = _LIBRARY.pmb_lex_end(ctypes.byref(lexer), ctypes.byref(event))
    if status == _BAD_TOKEN:
        raise TokenError(lexer.at)
    if status == _OK:
        yield _event(event)


def show(profile: _Profiled, capture: Content) -> Text:
    """What `pmb show` writes of a capture: a line for each packet, with what it says, and for each
    refusal. Raises a `ProfileError`.

        >>> import pmb
        >>> profile = "[[device]]\\naddress = 0x58\\npec = 'optional'"
        >>> print(pmb.show(profile, "S b0 A 88 A S b1 A 00 A d3 N P"), end="")
        read 58 88 : 00 d3 # READ_VIN 12
    """
    return _text(_SHOW, profile, _bytes("capture", capture))


def check(profile: _Profiled, capture: Content) -> Text:
    """What `pmb check` writes of a capture: a line for each refusal, and one with the numbers of
    packets and refusals, which the text has as `packets` and `refusals` too. Raises a
    `ProfileError`.

        >>> import pmb
        >>> profile = "[[device]]\\naddress = 0x58\\npec = 'optional'"
        >>> found = pmb.check(profile, "S b0 A 03 A P")
        >>> found, found.packets, found.refusals
        ('packets 1 refusals 0\\n', 1, 0)
    """
    return _text(_CHECK, profile, _bytes("capture", capture))


def build(profile: _Profiled, lines: Content, strict: bool = True) -> Text:
    """The events of the packets of transaction lines, as `pmb build` writes them.

    Raises a `ProfileError`, and a `LineError` for the first line that has a fault. Where it is not
    `strict` the text has a comment for each such line.

        >>> import pmb
        >>> profile = "[[device]]\\naddress = 0x58\\npec = 'optional'"
        >>> print(pmb.build(profile, "write 58 21 00 18 pec\\nwrite", strict=False), end="")
        S b0 A 21 A 00 A 18 A f8 A P
        # line 2: BadWord at 5
    """
    text = _text(_BUILD, profile, _bytes("lines", lines))
    if strict and text.refusals:
        found = re.search("^# line ([0-9]+): (.*)$", text, re.MULTILINE)
        if found:
            raise LineError(found.group(2), int(found.group(1)))
    return text


def run(profile: _Profiled, requests: Content) -> Text:
    """What `pmb run` writes of request lines: what is recorded of each on a bus of simulated devices,
    and its result. Raises a `ProfileError`.

        >>> import pmb
        >>> profile = "[[device]]\\naddress = 0x58\\npec = 'optional'"
        >>> print(pmb.run(profile, "get 58 21"), end="")
        S b0 A 21 A S b1 A 00 A 00 N P
        # 0
    """
    return _text(_RUN, profile, _bytes("requests", requests))


def json(
    profile: _Profiled,
    capture: Content,
    devices: _Devices = None,
    digits: int = 6,
    late: bool = False,
    fixed_vout_mode: bool = False,
    keep_going: bool = False,
) -> Text:
    """What `pmb json` writes of a capture: JSON Lines.

    The objects of these devices are wanted, and all where none is named: addresses of seven bits,
    as 0x58, or in two hexadecimal digits, as an object has its `device`, "58". Numbers have at most
    `digits` digits after the point, 0 to 12. `late` says that the capture begins in the middle, so
    that PAGE and VOUT_MODE are unknown at first; `fixed_vout_mode`, beside it, that VOUT_MODE is
    the profile's; `keep_going` that reading continues with the next line after a word that is no
    token. Raises an `Error`, which is the first of `NeedsLate`, `BadDigits` and `BadAddress`, or else
    a `ProfileError`.

    The text has `packets` and `refusals`; packets to addresses that the profile ignores are neither.

        >>> import pmb
        >>> profile = "[[device]]\\naddress = 0x58\\npec = 'optional'"
        >>> print(pmb.json(profile, "S b0 A 03 A P").splitlines()[-1])
        {"kind":"end","packets":1,"refusals":0,"bad_tokens":0}
    """
    choice = _choice(devices, digits, late, fixed_vout_mode, keep_going)
    return _text(_JSON, profile, _bytes("capture", capture), *choice)


@overload
def transactions(
    profile: _Profiled,
    capture: Union[Content, Iterable[Content]],
    devices: _Devices = None,
    digits: int = 6,
    late: bool = False,
    fixed_vout_mode: bool = False,
    keep_going: bool = False,
) -> Iterator[objects.Object]: ...


@overload
def transactions(
    profile: _Profiled,
    capture: AsyncIterable[Content],
    devices: _Devices = None,
    digits: int = 6,
    late: bool = False,
    fixed_vout_mode: bool = False,
    keep_going: bool = False,
) -> AsyncIterator[objects.Object]: ...


def transactions(
    profile: _Profiled,
    capture: Any,
    devices: _Devices = None,
    digits: int = 6,
    late: bool = False,
    fixed_vout_mode: bool = False,
    keep_going: bool = False,
) -> Any:
    """The packets of a capture in their order, and its refusals and bad words: dicts, those of `pmb
    json` without the counts at the end. Options and errors are those of `json`.

    A capture is a text; or a file, such as a pipe or what `socket.makefile` gives; or an iterable of
    pieces of a text, cut anywhere. It is read as it comes, at most 16 KB at a time, and the objects of
    a packet are there when the byte after its last word has come. An `asyncio.StreamReader` and an
    asynchronous iterable of pieces are read so too: what is returned is iterated by `async for` then.

    Each has a `kind`, and `pmb.objects` has a type for each kind. A `time` is a text, and is there
    where a comment tells it. A voltage whose VOUT_MODE the capture has not told has `"mode":
    "assumed"`. A value has the `unit` of its command, where that has one; `says` is a dict of the
    fields of the data, as docs/meaning.md has them. An object with a `device`, such as "58", also
    has its `address` as a number, 0x58; where no device answered an alert, `device` is `None`, and
    there is no `address`.

        >>> import pmb
        >>> profile = "[[device]]\\naddress = 0x58\\npec = 'optional'\\nname = 'VDD'"
        >>> it = next(pmb.transactions(profile, "# 0.5 s\\nS b0 A 21 A 00 A 18 A P"))
        >>> it["time"], it["name"], it["command"], it["value"], it["mode"], it["unit"]
        ('0.5', 'VDD', 'VOUT_COMMAND', '12', 'assumed', 'V')
        >>> it["device"], it["address"] == 0x58
        ('58', True)
    """
    choice = _choice(devices, digits, late, fixed_vout_mode, keep_going)
    is_whole = isinstance(capture, (str, bytes, bytearray, memoryview))
    if is_whole and not _HAS_READERS:
        room, told = _whole(_JSON, profile, _bytes("capture", capture), *choice)
        return _Objects(_Written(room, told.length))
    if hasattr(capture, "__aiter__"):
        if not _HAS_READERS:
            raise _older("pmb_reader_open")
        return _AsyncObjects(Reader._of(profile, choice), _awaited_pieces(capture))
    pieces = _pieces_of(capture)
    if not _HAS_READERS:
        raise _older("pmb_reader_open")
    return _Objects(_Lines(Reader._of(profile, choice), pieces), is_whole)


def imported(
    source: str,
    text: Content,
    bus: Optional[Content] = None,
    rate: Optional[int] = None,
    unshifted: bool = False,
) -> Text:
    """The capture of a recording, as `pmb import` writes it: whole packets with their times, and
    lines that begin with `#` and tell what is missing.

    `source` is what wrote the recording: `sigrok`, `saleae`, `beagle`, or for a trace of Linux
    `kernel` (the events of `i2c`) or `smbus`. `bus` is the bus to read, as the recording names it;
    without it, that of the first line that names one. For sigrok, `rate` is the number of samples
    in a second, 1 to 18446744073, without which packets have no times, and `unshifted` says that
    an address is a whole byte.

        >>> import pmb
        >>> trace = "1.5: i2c_write: i2c-0 #0 a=058 f=0000 l=1 [03]\\n"
        >>> print(pmb.imported("kernel", trace + "1.6: i2c_result: i2c-0 n=1 ret=1\\n"), end="")
        # 1.5 s
        S b0 A 03 A P

    The text has `packets`, how many there are, and `refusals`, how many lines tell that something
    is missing; `# no packets` is one of them. If `refusals` is 0, nothing is missing.

    Raises an `Error` for what the program refuses, the first of these: `BadSource` for another
    source, `BadRate` for a rate out of range, `SigrokOnly` for `rate` or `unshifted` with another
    source than sigrok, and `NoBus` for `bus` with beagle. Where the library is older and has no such
    call, that is a `NotImplementedError`.
    """
    recorder, name = _recorder(source, bus, rate, unshifted)
    given = _bytes("text", text)
    if _IMPORT is None:
        raise _older("pmb_import")
    asked = (ctypes.byref(recorder), name, len(name), given, len(given))
    room, told = _filled(_IMPORT.alone, _IMPORT.times, len(given), *asked)
    if told.status != _OK:
        raise RuntimeError("the library's status is {}".format(told.status))
    capture = _str(room, told)
    del room
    return Text(capture, told.packets, told.refusals)


class Profile:
    """A profile that is read once, for many calls: each function that takes a profile takes it in the
    place of the text, and those that work under one are its methods too. Raises a `ProfileError`.

        >>> import pmb
        >>> profile = pmb.Profile("[[device]]\\naddress = 0x58\\npec = 'optional'")
        >>> profile.check("S b0 A 03 A P").packets, pmb.check(profile, "S b0 A 03 A P S").refusals
        (1, 1)
        >>> profile.close()
        >>> profile.check("")
        Traceback (most recent call last):
        ValueError: the profile is closed

    A `with` block closes it at its end. It may be used by several threads at one time. A copy, also
    one that was pickled, is read anew from the text.
    """

    def __init__(self, text: Content) -> None:
        self._text = _bytes("text", text)
        self._lock = threading.RLock()
        # A handle is used by one call at a time: the first is only there to open others, which are
        # lent to calls and kept for the next.
        self._first: Optional[_Handle] = _open_profile(self._text)
        self._free: List[_Handle] = []

    def show(self, capture: Content) -> Text:
        """What `pmb.show` returns under this profile.

            >>> import pmb
            >>> profile = pmb.Profile("[[device]]\\naddress = 0x58\\npec = 'optional'")
            >>> print(profile.show("S b0 A 88 A S b1 A 00 A d3 N P"), end="")
            read 58 88 : 00 d3 # READ_VIN 12
        """
        return show(self, capture)

    def check(self, capture: Content) -> Text:
        """What `pmb.check` returns under this profile.

            >>> import pmb
            >>> pmb.Profile("[[device]]\\naddress = 0x58\\npec = 'optional'").check("S b0 A 03 A P")
            'packets 1 refusals 0\\n'
        """
        return check(self, capture)

    def build(self, lines: Content, strict: bool = True) -> Text:
        """What `pmb.build` returns under this profile.

            >>> import pmb
            >>> pmb.Profile("[[device]]\\naddress = 0x58\\npec = 'on'").build("write 58 03 pec")
            'S b0 A 03 A 46 A P\\n'
        """
        return build(self, lines, strict)

    def run(self, requests: Content) -> Text:
        """What `pmb.run` returns under this profile. Each call has new devices.

            >>> import pmb
            >>> profile = pmb.Profile("[[device]]\\naddress = 0x58\\npec = 'optional'")
            >>> profile.run("get 58 21")
            'S b0 A 21 A S b1 A 00 A 00 N P\\n# 0\\n'
        """
        return run(self, requests)

    def json(
        self,
        capture: Content,
        devices: _Devices = None,
        digits: int = 6,
        late: bool = False,
        fixed_vout_mode: bool = False,
        keep_going: bool = False,
    ) -> Text:
        """What `pmb.json` returns under this profile.

            >>> import pmb
            >>> profile = pmb.Profile("[[device]]\\naddress = 0x58\\npec = 'optional'")
            >>> print(profile.json("S b0 A 03 A P").splitlines()[-1])
            {"kind":"end","packets":1,"refusals":0,"bad_tokens":0}
        """
        return json(self, capture, devices, digits, late, fixed_vout_mode, keep_going)

    @overload
    def transactions(
        self,
        capture: Union[Content, Iterable[Content]],
        devices: _Devices = None,
        digits: int = 6,
        late: bool = False,
        fixed_vout_mode: bool = False,
        keep_going: bool = False,
    ) -> Iterator[objects.Object]: ...

    @overload
    def transactions(
        self,
        capture: AsyncIterable[Content],
        devices: _Devices = None,
        digits: int = 6,
        late: bool = False,
        fixed_vout_mode: bool = False,
        keep_going: bool = False,
    ) -> AsyncIterator[objects.Object]: ...

    def transactions(
        self,
        capture: Any,
        devices: _Devices = None,
        digits: int = 6,
        late: bool = False,
        fixed_vout_mode: bool = False,
        keep_going: bool = False,
    ) -> Any:
        """What `pmb.transactions` returns under this profile. It may be closed meanwhile.

            >>> import pmb
            >>> with pmb.Profile("[[device]]\\naddress = 0x58\\npec = 'optional'") as profile:
            ...     found = profile.transactions("S b0 A 03 A P\\n" * 3)
            >>> [it["line"] for it in found]
            [1, 2, 3]
        """
        return transactions(self, capture, devices, digits, late, fixed_vout_mode, keep_going)

    @overload
    def table(
        self,
        capture: Union[Content, Iterable[Content]],
        devices: _Devices = None,
        *,
        late: bool = False,
        fixed_vout_mode: bool = False,
        keep_going: bool = False,
        time: str = "seconds",
    ) -> "Table": ...

    @overload
    def table(
        self,
        capture: AsyncIterable[Content],
        devices: _Devices = None,
        *,
        late: bool = False,
        fixed_vout_mode: bool = False,
        keep_going: bool = False,
        time: str = "seconds",
    ) -> Coroutine[Any, Any, "Table"]: ...

    def table(
        self,
        capture: Any,
        devices: _Devices = None,
        *,
        late: bool = False,
        fixed_vout_mode: bool = False,
        keep_going: bool = False,
        time: str = "seconds",
    ) -> Any:
        """What `pmb.table` returns under this profile.

            >>> import pmb
            >>> profile = pmb.Profile("[[device]]\\naddress = 0x58\\npec = 'optional'")
            >>> len(profile.table("S b0 A 03 A P\\n" * 3))
            3
        """
        return table(
            self,
            capture,
            devices,
            late=late,
            fixed_vout_mode=fixed_vout_mode,
            keep_going=keep_going,
            time=time,
        )

    def close(self) -> None:
        """Gives the memory back. Calls and readers that are under way go on. To close it again does
        nothing, and each other call is a `ValueError` from then on.

            >>> import pmb
            >>> profile = pmb.Profile("device = []")
            >>> profile.close()
            >>> profile
            <pmb.Profile of 11 bytes, closed>
        """
        with self._lock:
            self._first = None
            self._free.clear()

    @property
    def closed(self) -> bool:
        """Whether it is closed.

            >>> import pmb
            >>> with pmb.Profile("device = []") as profile:
            ...     print(profile.closed)
            False
            >>> profile.closed
            True
        """
        return self._first is None

    def __enter__(self) -> "Profile":
        self._opened()
        return self

    def __exit__(self, kind: object, error: object, trace: object) -> None:
        self.close()

    def __repr__(self) -> str:
        closed = ", closed" if self.closed else ""
        return "<pmb.Profile of {} bytes{}>".format(len(self._text), closed)

    def __reduce__(self) -> Tuple[Any, ...]:
        self._opened()
        return type(self), (self._text,)

    def _opened(self) -> "_Handle":
        first = self._first
        if first is None:
            raise ValueError("the profile is closed")
        return first

    @contextlib.contextmanager
    def _lent(self) -> Iterator["_Handle"]:
        """A handle that no other call uses."""
        with self._lock:
            first = self._opened()
            handle = self._free.pop() if self._free else _shared(first)
        try:
            yield handle
        finally:
            with self._lock:
                # (the last that knows a handle closes it)
                if not self.closed:
                    self._free.append(handle)


class Reader:
    """Reads a capture whose text comes in pieces, cut anywhere: each piece is given to `feed`, which
    returns the objects of what it completes, and `end` returns those of the end. Together they are
    those of `transactions`, whose options a reader has.

        >>> import pmb
        >>> profile = "[[device]]\\naddress = 0x58\\npec = 'optional'"
        >>> reader = pmb.Reader(profile, devices=[0x58])
        >>> for piece in (b"S b0 A 03 A", b" P\\nS b0 A 2", b"1 A"):
        ...     print([it["command"] for it in reader.feed(piece)])
        []
        ['CLEAR_FAULTS']
        []
        >>> [(it["kind"], it["reason"]) for it in reader.end()]
        [('refusal', 'Truncated')]
        >>> reader
        <pmb.Reader: 1 packets, 1 refusals, ended>

    A profile is a `Profile`, which may be closed before the reader, or a text, for which a
    `ProfileError` may be raised. Objects of these devices are wanted, and all where none is named.

    A `with` block closes the reader at its end, and doesn't give it the capture's: call `end` first,
    if the capture is over. Calls of several threads come one after the other. There is no copy of a
    reader, since it stands in the middle of a capture.
    """

    def __init__(
        self,
        profile: _Profiled,
        *,
        devices: _Devices = None,
        digits: int = 6,
        late: bool = False,
        fixed_vout_mode: bool = False,
        keep_going: bool = False,
    ) -> None:
        choice = _choice(devices, digits, late, fixed_vout_mode, keep_going)
        self._begin(profile, choice)

    @classmethod
    def _of(cls, profile: _Profiled, choice: _Chosen) -> "Reader":
        made = cls.__new__(cls)
        made._begin(profile, choice)
        return made

    def _begin(self, profile: _Profiled, choice: _Chosen) -> None:
        self._lock = threading.RLock()
        self._packets = self._refusals = 0
        self._ended = self._failed = False
        self._told = _Result()
        self._told_at = ctypes.byref(self._told)
        self._make_room(_BESIDES)
        opened = profile if isinstance(profile, Profile) else Profile(_profile_bytes(profile))
        self._handle: Optional[_Handle] = _new_handle("pmb_reader")
        with opened._lent() as under:
            _raise_status(_LIBRARY.pmb_reader_open(self._handle.at, under.at, *choice))

    def feed(self, data: Content) -> List[objects.Object]:
        """The objects of what the next piece of the capture completes. A piece may have any length,
        and be cut in the middle of a word: the word that it ends with waits for what follows.

        After the end, also after a word that is no token, nothing is read: the list is empty. Where
        the library has no memory to read on, the objects before that are returned, and the next call
        is a `MemoryError`.

            >>> import pmb
            >>> reader = pmb.Reader("[[device]]\\naddress = 0x58\\npec = 'optional'")
            >>> reader.feed("S b0 A 03 A P"), len(reader.feed("\\n"))
            ([], 1)
        """
        found: List[objects.Object] = []
        with self._lock:
            self._opened()
            for piece in _Pieces("data", [data]):
                try:
                    found += _parsed(self._completed(piece))
                except MemoryError:
                    self._failed = True
                    if not found:
                        raise
                    break
                if self._ended:
                    break
        return found

    def end(self) -> List[objects.Object]:
        """The objects of the end of the capture: of a packet whose last word it ends, or of an end
        inside a packet. A second time there are none.

            >>> import pmb
            >>> reader = pmb.Reader("[[device]]\\naddress = 0x58\\npec = 'optional'")
            >>> len(reader.feed("S b0 A 03 A P")), len(reader.end()), len(reader.end())
            (0, 1, 0)
        """
        with self._lock:
            return _parsed(self._last())

    @property
    def packets(self) -> int:
        """How many packets there were so far; those to addresses that the profile ignores don't count.

            >>> import pmb
            >>> reader = pmb.Reader("[[device]]\\naddress = 0x58\\npec = 'optional'")
            >>> found = reader.feed("S b0 A 03 A P " * 1000)
            >>> reader.packets, len(found)
            (1000, 1000)
        """
        return self._packets

    @property
    def refusals(self) -> int:
        """How many refusals there were so far, words that are no token among them.

            >>> import pmb
            >>> reader = pmb.Reader("device = []")
            >>> found = reader.feed("S b0 A 03 A P ")
            >>> reader.refusals, found[0]["reason"]
            (1, 'UnknownDevice')
        """
        return self._refusals

    @property
    def ended(self) -> bool:
        """Whether reading has ended: by `end`, or at a word that is no token, unless it is to go on.

            >>> import pmb
            >>> reader = pmb.Reader("device = []")
            >>> reader.feed("hm "), reader.ended
            ([{'at': 0, 'line': 1, 'column': 1, 'kind': 'bad_token', 'word': 'hm'}], True)
        """
        return self._ended

    def close(self) -> None:
        """Gives the memory back. To close it again does nothing. `feed` and `end` are a `ValueError`
        from then on.

            >>> import pmb
            >>> reader = pmb.Reader("device = []")
            >>> reader.close()
            >>> reader.feed("S")
            Traceback (most recent call last):
            ValueError: the reader is closed
        """
        with self._lock:
            self._handle = None

    @property
    def closed(self) -> bool:
        """Whether it is closed.

            >>> import pmb
            >>> with pmb.Reader("device = []") as reader:
            ...     print(reader.closed)
            False
            >>> reader.closed
            True
        """
        return self._handle is None

    def __enter__(self) -> "Reader":
        self._opened()
        return self

    def __exit__(self, kind: object, error: object, trace: object) -> None:
        self.close()

    def __repr__(self) -> str:
        state = ", closed" if self.closed else ", ended" if self._ended else ""
        return "<pmb.Reader: {} packets, {} refusals{}>".format(
            self._packets, self._refusals, state
        )

    def __reduce__(self) -> Tuple[Any, ...]:
        raise TypeError("a pmb.Reader has no copy, since it stands in the middle of a capture")

    def _opened(self) -> "_Handle":
        handle = self._handle
        if handle is None:
            raise ValueError("the reader is closed")
        if self._failed:
            raise MemoryError("no memory to read on")
        return handle

    def _completed(self, piece: bytes) -> str:
        """The lines of the objects that a piece completes."""
        with self._lock:
            at = self._opened().at
            return self._taken(at, _LIBRARY.pmb_reader_feed(at, piece, len(piece)))

    def _last(self) -> str:
        """The lines of the objects of the end."""
        with self._lock:
            at = self._opened().at
            return self._taken(at, _LIBRARY.pmb_reader_end(at))

    def _taken(self, at: Any, status: int) -> str:
        """The lines that are ready after a call, which had this status."""
        self._ended = self._ended or status == _ENDED
        told, lines = self._told, ""
        while True:
            length = _LIBRARY.pmb_reader_take(at, self._room, len(self._room), self._told_at)
            lines += str(self._written[:length], "ascii")
            if told.status != _NO_ROOM:
                break
            # (room for all, which the next pieces need too)
            self._make_room(told.length)
        self._packets, self._refusals = told.packets, told.refusals
        if status == _NO_MEMORY:
            raise MemoryError("no memory to read on")
        return lines

    def _make_room(self, size: int) -> None:
        self._room = ctypes.create_string_buffer(size)
        self._written = memoryview(self._room)


class _Handle:
    """A handle of the library's. The last that knows it closes it."""

    def __init__(self, kind: str) -> None:
        self._close = getattr(_LIBRARY, kind + "_close")
        self.at = ctypes.byref(_Held())

    def __del__(self) -> None:
        self._close(self.at)


def _older(name: str) -> NotImplementedError:
    return NotImplementedError("the library is older, and has no " + name)


def _new_handle(kind: str) -> _Handle:
    if not hasattr(_LIBRARY, kind + "_open"):
        raise _older(kind + "_open")
    return _Handle(kind)


def _open_profile(toml: bytes) -> _Handle:
    handle, told = _new_handle("pmb_profile"), _Result()
    status = _LIBRARY.pmb_profile_open(handle.at, toml, len(toml), ctypes.byref(told))
    if status == _BAD_PROFILE:
        raise _profile_error(toml)
    _raise_status(status)
    return handle


def _shared(first: _Handle) -> _Handle:
    """Another handle of the same profile."""
    handle = _new_handle("pmb_profile")
    _raise_status(_LIBRARY.pmb_profile_share(first.at, handle.at))
    return handle


# ---- the objects of a capture

_READ = _json.JSONDecoder().raw_decode
_ADDRESSES = {"{:02x}".format(address): address for address in range(128)}


def _parsed(lines: str) -> List[Any]:
    """The objects of lines of JSON, of which the counts at the end are left out."""
    # (an object of the capture begins with `at`, and one of the counts with `kind`)
    end = 0 if lines.startswith('{"kind"') else lines.find('\n{"kind"') + 1 or len(lines)
    if end == 0:
        return []
    found: List[Any] = _READ("[" + lines[: end - 1].replace("\n", ",") + "]")[0]
    for it in found:
        device = it.get("device")
        if device is not None:
            it["address"] = _ADDRESSES[device]
    return found


class _Written(Iterator[str]):
    """The lines in a room, some at a time. Their memory goes back as they are read."""

    def __init__(self, room: Union[bytearray, mmap.mmap], length: int) -> None:
        self._room, self._length, self._at, self._back = room, length, 0, 0

    def __next__(self) -> str:
        room, at = self._room, self._at
        if at >= self._length:
            raise StopIteration
        self._at = end = room.find(b"\n", min(at + _BESIDES, self._length - 1)) + 1
        lines = str(room[at:end], "ascii")
        if end - self._back >= _STEP and isinstance(room, mmap.mmap):
            _give_back(room, self._back, end - end % _STEP - self._back)
            self._back = end - end % _STEP
        return lines


def _give_back(room: mmap.mmap, start: int, length: int) -> None:
    """Gives pages back whose text is read. Nothing depends on it but how much memory is in use."""
    advise = getattr(room, "madvise", None)
    if advise is not None and hasattr(mmap, "MADV_DONTNEED"):
        with contextlib.suppress(OSError):
            advise(mmap.MADV_DONTNEED, start, length)


class _Lines(Iterator[str]):
    """The lines of the objects of a capture, for one piece after the other."""

    def __init__(self, reader: Reader, pieces: Iterator[bytes]) -> None:
        self._reader, self._pieces = reader, pieces

    def __next__(self) -> str:
        if self._reader.ended:
            raise StopIteration
        try:
            piece = next(self._pieces)
        except StopIteration:
            return self._reader._last()
        return self._reader._completed(piece)


class _Objects(Iterator[objects.Object]):
    """The objects of lines that come in parts. Where these are those of a text there is a copy."""

    def __init__(self, lines: Iterable[str], is_whole: bool = True) -> None:
        self._lines, self._is_whole = iter(lines), is_whole
        self._ready: Iterator[objects.Object] = iter(())
        self._lock = threading.RLock()

    def __next__(self) -> objects.Object:
        while True:
            for it in self._ready:
                return it
            with self._lock:
                # (another thread may have been first)
                if not operator.length_hint(self._ready):
                    self._ready = iter(_parsed(self._next_lines()))

    def _next_lines(self) -> str:
        try:
            return next(self._lines)
        except StopIteration:
            # (all is read, and the memory is given back)
            self._lines = iter(())
            raise

    # A copy has what is not read yet, as lines.
    def __reduce__(self) -> Tuple[Any, ...]:
        if not self._is_whole:
            raise TypeError("the objects of a file or a stream have no copy: make a list of them")
        with self._lock:
            ready = "".join(_json.dumps(it) + "\n" for it in self._ready)
            rest = [ready, *self._lines]
            self._lines = iter(rest)
        return _Objects, (rest,)


class _AsyncObjects(AsyncIterator[objects.Object]):
    """The objects of a capture whose pieces are waited for."""

    def __init__(self, reader: Reader, read: Callable[[], Awaitable[Content]]) -> None:
        self._reader, self._read = reader, read
        self._pieces: Iterator[bytes] = iter(())
        self._ready: Iterator[objects.Object] = iter(())

    async def __anext__(self) -> objects.Object:
        while True:
            for it in self._ready:
                return it
            if self._reader.ended:
                raise StopAsyncIteration
            self._ready = iter(_parsed(await self._next_lines()))

    async def _next_lines(self) -> str:
        for piece in self._pieces:
            return self._reader._completed(piece)
        try:
            given = await self._read()
        except StopAsyncIteration:
            return self._reader._last()
        self._pieces = _Pieces("a piece of capture", [given])
        return ""

    def __reduce__(self) -> Tuple[Any, ...]:
        raise TypeError("the objects of a stream have no copy: make a list of them")


def _event(event: _Event) -> Event:
    kind = _KINDS[event.kind]
    return Event(kind, event.byte if kind == "byte" else None)


# ---- arguments


def _index(what: str, number: Any) -> int:
    try:
        return operator.index(number)
    except TypeError:
        raise _wrong_type(what, "an int", number) from None


def _within(what: str, number: Any, most: int) -> int:
    found = _index(what, number)
    if not 0 <= found <= most:
        raise ValueError("{} is from 0 to {}, not {}".format(what, most, found))
    return found


def _each(what: str, wanted: str, given: Any) -> Iterator[Any]:
    try:
        return iter(given)
    except TypeError:
        raise _wrong_type(what, wanted, given) from None


def _data(data: Any) -> bytes:
    """Bytes of a bus. (`bytes(3)` would be three zeros.)"""
    if isinstance(data, bytes):
        return data
    wanted = "bytes or a list of their numbers"
    if isinstance(data, (str, numbers.Number)):
        raise _wrong_type("data", wanted, data)
    try:
        itemsize = memoryview(data).itemsize
    except TypeError:
        if hasattr(data, "__bytes__"):
            return bytes(data)
        found = list(_each("data", wanted, data))
        try:
            return bytes(found)
        except (TypeError, ValueError):
            return bytes([_within("a byte of data", it, 255) for it in found])
    if itemsize != 1:
        raise TypeError("data is {}, not items of {} bytes".format(wanted, itemsize))
    return bytes(data)


_ADDRESS = "an int or two hexadecimal digits"


def _address_given(device: Any) -> Union[str, int]:
    if isinstance(device, str):
        return device
    try:
        return operator.index(device)
    except TypeError:
        raise _wrong_type("an address in devices", _ADDRESS, device) from None


def _address(device: Union[str, int]) -> int:
    if isinstance(device, int):
        address = device
    elif re.fullmatch("[0-9A-Fa-f]{2}", device):
        address = int(device, 16)
    else:
        raise Error("BadAddress", "devices", "{}, not {!r}".format(_ADDRESS, device))
    if 0x80 <= address < 0x100:
        form = "0x{:02x} is the 8-bit form of 0x{:02x}".format(address, address >> 1)
        raise Error("BadAddress", "devices", form)
    if not 0 <= address < 0x80:
        raise Error("BadAddress", "devices", "from 0 to 127, not {}".format(address))
    return address


def _choice(
    devices: Any, digits: int, late: bool, fixed_vout_mode: bool, keep_going: bool
) -> _Chosen:
    """What is chosen. Its faults, and their order, are those of the program's flags."""
    if isinstance(devices, str):
        raise _wrong_type("devices", "a list of addresses", devices)
    each = _each("devices", "a list of addresses", () if devices is None else devices)
    given = [_address_given(device) for device in each]
    most_digits = _index("digits", digits)
    if fixed_vout_mode and not late:
        raise Error("NeedsLate", "fixed_vout_mode", "only with late")
    if not 0 <= most_digits <= 12:
        raise Error("BadDigits", "digits", "from 0 to 12, not {}".format(most_digits))
    wanted = bytes([_address(device) for device in given])
    start = (1 if fixed_vout_mode else 2) if late else 0
    return ctypes.byref(_Choice(most_digits, start, 1 if keep_going else 0)), wanted, len(wanted)


def _recorder(source: Any, bus: Any, rate: Any, unshifted: Any) -> Tuple[_Recorder, bytes]:
    """What wrote a recording, and the name of its bus. Its faults, and their order, are those of the
    program's flags."""
    if not isinstance(source, str):
        raise _wrong_type("source", "a str", source)
    name = b"" if bus is None else _bytes("bus", bus)
    samples = 0 if rate is None else _index("rate", rate)
    if source not in _SOURCES:
        raise Error("BadSource", "source", "one of {}, not {!r}".format(", ".join(_SOURCES), source))
    if rate is not None and not 1 <= samples <= _MOST_RATE:
        raise Error("BadRate", "rate", "from 1 to {}, not {}".format(_MOST_RATE, samples))
    if source != "sigrok" and (rate is not None or unshifted):
        place = "unshifted" if rate is None else "rate"
        raise Error("SigrokOnly", place, "the source is {!r}".format(source))
    if source == "beagle" and bus is not None:
        raise Error("NoBus", "bus", "recordings of 'beagle' have one bus, without a name")
    recorder = _Recorder(
        samples,
        _SOURCES.index(source),
        0 if bus is None else 1,
        1 if unshifted else 0,
    )
    return recorder, name


# ---- whole inputs


class _Task(NamedTuple):
    """A function over whole inputs, alone and under a handle; and how many bytes a byte of input comes
    to at most, as far as is known. Most inputs come to less, and one that comes to more is read twice.
    It is address space that is asked for, and only what is written takes memory."""

    alone: Any
    under: Any
    times: int


def _task(name: str, times: int) -> _Task:
    under = getattr(_LIBRARY, "pmb_profile_" + name, None)
    return _Task(getattr(_LIBRARY, "pmb_" + name), under, times)


# For captures where each word is a refused STOP, for lines of one letter, and for a block of 255 bytes
# that `run` reads.
_SHOW, _CHECK, _BUILD = _task("show", 32), _task("check", 32), _task("build", 32)
_RUN, _JSON = _task("run", 208), _task("json", 80)
# (lines of one letter, each of which makes no sense; None where the library has no such call)
_IMPORT = _task("import", 32) if hasattr(_LIBRARY, "pmb_import") else None

# How many bytes may be had besides, such as the objects of 64 devices at the end of `json`.
_BESIDES = 16384
# From how many bytes on memory is asked for that is not written to at once.
_LARGE = 1 << 16
# How many read bytes are given back at a time: whole pages.
_STEP = 1 << 22


def _room(size: int) -> Union[bytearray, mmap.mmap]:
    """A room of so many bytes. Those of a large one take memory only once they are written."""
    if size < _LARGE:
        return bytearray(size)
    unreserved = getattr(mmap, "MAP_NORESERVE", 0x4000)
    return mmap.mmap(-1, size, mmap.MAP_PRIVATE | mmap.MAP_ANONYMOUS | unreserved)


def _first_room(times: int, length: int) -> Union[bytearray, mmap.mmap]:
    """A room that has place for what an input of so many bytes comes to; or, where so much address
    space can't be had, for what most inputs come to."""
    for each in (times, 6, 1):
        try:
            return _room(_BESIDES + each * length)
        except (OSError, OverflowError, ValueError):
            continue
    return bytearray(_BESIDES)


def _filled(
    call: Any, times: int, length: int, *given: Any
) -> Tuple[Union[bytearray, mmap.mmap], _Result]:
    """What a function writes of an input of so many bytes, in its room, and what it tells."""
    room, told = _first_room(times, length), _Result()
    while True:
        start = ctypes.c_char.from_buffer(room)
        call(*given, ctypes.addressof(start), len(room), ctypes.byref(told))
        del start
        if told.status != _NO_ROOM:
            return room, told
        # (the text is longer than was thought)
        try:
            room = _room(told.length)
        except OSError:
            raise MemoryError("no memory for {} bytes".format(told.length)) from None


def _whole(
    task: _Task, profile: _Profiled, given: bytes, *more: Any
) -> Tuple[Union[bytearray, mmap.mmap], _Result]:
    """What a function writes under a profile, in its room, and what it tells."""
    asked = (given, len(given), *more)
    if isinstance(profile, Profile):
        with profile._lent() as handle:
            room, told = _filled(task.under, task.times, len(given), handle.at, *asked)
    else:
        toml = _profile_bytes(profile)
        room, told = _filled(task.alone, task.times, len(given), toml, len(toml), *asked)
        if told.status == _BAD_PROFILE:
            raise _profile_error(toml)
    _raise_status(told.status)
    return room, told


def _raise_status(status: int) -> None:
    if status == _NO_MEMORY:
        raise MemoryError("no memory for the profile")
    if status != _OK:
        raise RuntimeError("the library's status is {}".format(status))


def _profile_bytes(profile: Any) -> bytes:
    if not isinstance(profile, (str, bytes, bytearray, memoryview)):
        raise _wrong_type("profile", "a str, bytes or a pmb.Profile", profile)
    return _bytes("profile", profile)


def _text(task: _Task, profile: _Profiled, given: bytes, *more: Any) -> Text:
    room, told = _whole(task, profile, given, *more)
    written = _str(room, told)
    # (a Text is a copy, and two of a long text are enough)
    del room
    return Text(written, told.packets, told.refusals)


def _str(room: Union[bytearray, mmap.mmap], told: _Result) -> str:
    with memoryview(room) as whole, whole[: told.length] as written:
        return str(written, "ascii")


def _profile_error(toml: bytes) -> Exception:
    """The fault of a profile, with the lines that help."""
    room, told = ctypes.create_string_buffer(4096), _Result()
    _LIBRARY.pmb_profile_fault(toml, len(toml), room, len(room), ctypes.byref(told))
    if told.status != _BAD_PROFILE:
        return MemoryError("no memory for the profile")
    # (the first line has the fault and its place)
    lines = room.raw[: told.length].decode("utf-8", "replace").partition("\n")[2]
    device = None if told.device < 0 else told.device
    command = None if told.command < 0 else told.command
    fault, hint = _PROFILE_FAULTS[told.fault - 1], lines.rstrip("\n")
    return ProfileError(fault, device, command, hint, told.line or None, told.column or None)


# ---- formats and quantities


def _integer(text: str, bits: int) -> int:
    if not re.fullmatch("-?[0-9]+", text):
        raise Error("BadFormat", "format")
    # (no number of more digits fits, but for zeros in front)
    digits = text.lstrip("-").lstrip("0")
    number = int(digits or "0") if len(digits) < 10 else 1 << 32
    number = -number if text[0] == "-" else number
    return _fitting("format", number, -(1 << bits - 1), (1 << bits - 1) - 1)


def _fitting(what: str, number: Any, least: int, most: int) -> int:
    found = _index(what, number)
    if not least <= found <= most:
        raise Error("BadFormat", "format")
    return found


def _format(format: Union[str, Format]) -> _Format:
    if not isinstance(format, Format):
        format = Format.parse(format)
    return _Format(
        _fitting("kind of format", format.kind, 0, 255),
        _fitting("exponent of format", format.exponent, -128, 127),
        _fitting("mode of format", format.mode, 0, 255),
        _fitting("r of format", format.r, -128, 127),
        _fitting("m of format", format.m, -32768, 32767),
        _fitting("b of format", format.b, -32768, 32767),
    )


def _parse(text: Content) -> _Quantity:
    given, found = _bytes("text", text), _Quantity()
    _raise_fault(_LIBRARY.pmb_quantity_parse(given, len(given), ctypes.byref(found)))
    return found


# 10^60 is beyond the range of each format, and 10^-60 nearer to 0 than each quantity at which the
# nearest code changes, but 0 itself.
_MOST = 60


def _exact(quantity: Any) -> Fraction:
    """The exact value of a number. For a Decimal that may have more digits than there is memory
    for, such as 1e999999999, it is another one with the same nearest code."""
    if isinstance(quantity, Decimal):
        if quantity.is_finite() and quantity and abs(quantity.adjusted()) > _MOST:
            sign = -1 if quantity < 0 else 1
            return sign * Fraction(10) ** (_MOST if quantity.adjusted() > 0 else -_MOST)
    elif isinstance(quantity, numbers.Integral):
        return Fraction(int(quantity))
    elif isinstance(quantity, numbers.Rational):
        return Fraction(int(quantity.numerator), int(quantity.denominator))
    elif not (isinstance(quantity, numbers.Real) and hasattr(quantity, "as_integer_ratio")):
        raise _wrong_type("quantity", "a number or a str", quantity)
    try:
        numerator, denominator = quantity.as_integer_ratio()
    except (OverflowError, ValueError):
        raise ValueError("quantity is a finite number, not {}".format(quantity)) from None
    return Fraction(int(numerator), int(denominator))


def _unit(named: _Format) -> Fraction:
    """A number of which each value of a format is a multiple, by less than 2^47 in size."""
    in_mode = named.kind in (_VOUT, _VOUT_SIGNED) and named.mode >> 5 == 2
    if named.kind in (_DIRECT, _UDIRECT) or in_mode:
        return Fraction(1, abs(named.m) * 10 ** max(named.r, 0))
    if named.kind == _HALF:
        return Fraction(1, 1 << 24)
    if named.kind == _VID:
        # (volts are a hundredth, a 160th or a 200th of a whole number)
        return Fraction(1, 800)
    # (y * 2^n with n from -16 on)
    return Fraction(1, 1 << 16)


def _as_near(exact: Fraction, unit: Fraction) -> _Quantity:
    """A quantity with the same nearest code, or on the same side of the range, whose numbers are
    below 2^62, as the library needs them.

    The answer changes at the ends of the range, and in the middle between two values. Each of these
    is a multiple of half the unit. So a quantity that is such a multiple stays as it is; another
    one lies between two neighbouring multiples, and all that lie there have the answer of the
    quantity in the middle. Each value is less than 2^48 halves from 0, so what is further away has
    the answer of what is that far.
    """
    halves = exact / (unit / 2)
    below = min(max(math.floor(halves), -1 << 48), 1 << 48)
    near = Fraction(2 * below + (0 if halves == below else 1), 4) * unit
    return _Quantity(near.numerator, near.denominator)


def _quantity(quantity: Number) -> _Quantity:
    if isinstance(quantity, str):
        return _parse(quantity)
    exact = _exact(quantity)
    # (a number of 64 bits would lose what is above)
    if abs(exact.numerator) >= 1 << 62 or exact.denominator >= 1 << 62:
        raise Error("TooLarge", "quantity")
    return _Quantity(exact.numerator, exact.denominator)


def _raise_fault(status: int) -> None:
    if status != _OK:
        place = "format" if _is_of_format(status) else "code" if status >= 22 else "quantity"
        raise Error(_FAULTS[status], place)


def _raise_format_fault(named: _Format) -> None:
    """Raises what is wrong with a format, if anything is."""
    nothing = _Quantity(0, 0)
    status = _LIBRARY.pmb_encode(ctypes.byref(named), nothing, ctypes.byref(ctypes.c_uint16()))
    if _is_of_format(status):
        _raise_fault(status)


def _is_of_format(status: int) -> bool:
    return 3 <= status <= 10


# (these stand on what is above)
from ._bus import Bus as Bus  # noqa: E402
from ._bus import i2c_msg as i2c_msg  # noqa: E402
from ._device import Device as Device  # noqa: E402
from ._reading import Reading as Reading  # noqa: E402
from ._reading import TransferError as TransferError  # noqa: E402
from ._table import Table as Table  # noqa: E402
from ._table import table as table  # noqa: E402

if not _HAS_BUSES:
    # (an older library)
    for _name in ("Bus", "Device", "Reading", "TransferError", "i2c_msg"):
        __all__.remove(_name)
        del globals()[_name]

if not _HAS_READERS:
    # (an older library: a capture that comes in pieces is a NotImplementedError)
    for _name in ("Reader", "Table", "table"):
        __all__.remove(_name)
        del globals()[_name]
