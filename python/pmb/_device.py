"""A device on a bus, by the names and the number formats of its profile.

What a command looks like on the bus, and which code a quantity has, is asked of the library: of the
lines and the requests that it builds, and of the objects that its reader makes of what was on the wire.
"""

import contextlib
import operator
import threading
from functools import partial
from typing import Any, Callable, Dict, Iterator, List, Optional, Protocol, Tuple, Union

from . import (
    Error,
    Number,
    Profile,
    Text,
    _data,
    _exact,
    _profile_bytes,
    _Profiled,
    _within,
    quantity_text,
)
from ._bus import Bus
from ._commands import BLOCK, PAGE, VOUT_MODE, Command, commands_of, first_leg, has_pages
from ._pieces import wrong_type as _wrong_type
from ._reading import Reading, reading_of
from ._selection import Exclusive, Selection, Shared
from ._transfers import Transfers, Wire, fault_of

# Numbers of this size are outside the range of each format.
_MOST = 1 << 61
# What is written as it is.
_RAW = (bytes, bytearray, memoryview, list)

# What is written: nothing, a quantity, bytes, or a number or a text that stands for bytes.
Value = Union[None, Number, bytes, bytearray, memoryview, List[int]]
_Key = Union[str, int]


class _File(Protocol):
    """What a device needs of a file that it logs to."""

    def write(self, text: str, /) -> Any: ...


class Device:
    """A device of a profile on a bus: a `pmb.Bus`, or an `smbus2.SMBus` of the machine. Its commands
    are read and written by their names, and numbers are in the unit of the command.

        >>> import pmb
        >>> profile = "[[device]]\\naddress = 0x58\\npec = 'on'"
        >>> device = pmb.Device(pmb.Bus(profile), profile, 0x58)
        >>> device["VOUT_COMMAND"] = 3.3
        >>> print(device["VOUT_COMMAND"], float(device["VOUT_COMMAND"]))
        3.30078125 V 3.30078125
        >>> device["READ_VIN"].value, device["STATUS_BYTE"].bits
        (Fraction(0, 1), [])

    What is written is

    - a number, or its text such as "3.3", for a command whose data are one: the nearest code;
    - bytes, or a list of their numbers, as they are;
    - an `int` for another command of 1, 2, 4 or 8 bytes, low byte first, and a text for a block;
    - `None` for a command without data.

    A voltage is in the format that VOUT_MODE names. On a device with several pages `page` says of which
    one a command is read or written; without it, it is the page that `device.page = N` has set, or else
    the one that is selected on the device.

    Another master, a program or a firmware may write PAGE and VOUT_MODE too. So PAGE is written, or
    read, and VOUT_MODE is read, before each access, and both are read again after it. Where one of them
    was changed, all is done once more, up to three times, and then a `TransferError` says so. With
    `exclusive=True` nobody else writes them: they are kept, until `bus.open()` or an error.

        >>> board = "[[device]]\\naddress = 0x58\\npec = 'off'\\npages = 2"
        >>> for exclusive in (False, True):
        ...     bus = pmb.Bus(board)
        ...     device = pmb.Device(bus, board, 0x58, exclusive=exclusive)
        ...     for _ in range(2):
        ...         device.write("OPERATION", 0x80, page=1)
        ...     print(bus.events(), end="")
        S b0 A 00 A 01 A P
        S b0 A 01 A 80 A P
        S b0 A 00 A S b1 A 01 N P
        S b0 A 00 A 01 A P
        S b0 A 01 A 80 A P
        S b0 A 00 A S b1 A 01 N P
        S b0 A 00 A 01 A P
        S b0 A 01 A 80 A P
        S b0 A 01 A 80 A P

    Packets have packet error codes if the profile says `on`, and if it says `optional` unless `pec` is
    `False`. Each transfer is one `i2c_rdwr` of the bus; where that fails, as where a device refuses a
    byte, its `OSError` goes to the caller.

    Each packet is read by a `Reader` under the profile: one that it refuses, such as one with a wrong
    packet error code, is a `TransferError`. `log` is a file of text, or is called with a text: it gets
    what was on the wire, a line for each packet. Over another bus than a `pmb.Bus` that is made of
    what was sent and what came, and a transfer that failed is a comment. So is what is done once more.

    Calls of several threads come one after the other, over a `pmb.Bus` those of several devices too.
    """

    __module__ = "pmb"

    def __init__(
        self,
        bus: Union[Bus, Wire],
        profile: _Profiled,
        address: int,
        *,
        pec: Optional[bool] = None,
        log: Union[None, _File, Callable[[str], object]] = None,
        exclusive: bool = False,
    ) -> None:
        given = profile if isinstance(profile, Profile) else Profile(_profile_bytes(profile))
        self._profile, self._address = given, _within("address", address, 0x7F)
        mode, self._commands = commands_of(given, self._address)
        self._by_name = {it.name: it for it in self._commands.values()}
        if pec is not None and mode != "optional" and pec != (mode == "on"):
            raise ValueError("the profile says pec = {!r} of {:02x}".format(mode, address))
        has_pec = mode == "on" or mode == "optional" and pec is not False
        writes_log = log if log is None or callable(log) else log.write
        self._transfers = Transfers(bus, given, self._address, has_pec, writes_log)
        kind = Exclusive if exclusive else Shared
        several = has_pages(given, self._address, mode, self._commands)
        self._selection: Selection = kind(self._transfers, self._commands, several)
        # (an access is some transfers: no other device of the same bus comes between them)
        self._simulated = bus if isinstance(bus, Bus) else None
        self._openings = self._simulated._openings if self._simulated else 0
        self._lock = self._simulated._lock if self._simulated else threading.RLock()

    @property
    def address(self) -> int:
        """The device's address.

            >>> import pmb
            >>> profile = "[[device]]\\naddress = 0x58\\npec = 'on'"
            >>> hex(pmb.Device(pmb.Bus(profile), profile, 0x58).address)
            '0x58'
        """
        return self._address

    @property
    def commands(self) -> Tuple[str, ...]:
        """The names of the device's commands, by their codes.

            >>> import pmb
            >>> profile = "[[device]]\\naddress = 0x58\\npec = 'on'"
            >>> pmb.Device(pmb.Bus(profile), profile, 0x58).commands[:3]
            ('PAGE', 'OPERATION', 'ON_OFF_CONFIG')
        """
        return tuple(self._by_name)

    @property
    def page(self) -> Optional[int]:
        """The page of what names none, 255 for all. To set it selects it, by a write of PAGE. While it
        isn't set, or `None`, that is the page which is selected on the device: it is read, and is
        `None` if there is no PAGE to read.

            >>> import pmb
            >>> profile = "[[device]]\\naddress = 0x58\\npec = 'off'\\npages = 2"
            >>> bus = pmb.Bus(profile)
            >>> device = pmb.Device(bus, profile, 0x58)
            >>> device.page, bus.events()
            (0, 'S b0 A 00 A S b1 A 00 N P\\n')
            >>> device.page = 1
            >>> device.page, bus.events()
            (1, 'S b0 A 00 A 01 A P\\n')
        """
        with self._call():
            return self._selection.page()

    @page.setter
    def page(self, page: Optional[int]) -> None:
        with self._call():
            self._selection.choose(page)

    def read(self, command: _Key, page: Optional[int] = None) -> Reading:
        """Reads a command, by its name or its code, of a page or of that of `device.page`.

            >>> import pmb
            >>> profile = "[[device]]\\naddress = 0x58\\npec = 'off'\\npages = 2\\nvout_mode = [23, 24]"
            >>> device = pmb.Device(pmb.Bus(profile), profile, 0x58)
            >>> [device.read("VOUT_MODE", page=page).data for page in (0, 1)]
            [b'\\x17', b'\\x18']
        """
        with self._call():
            named = self._command(command)
            if named.read is None:
                raise Error("NotAllowed", named.name)
            get = partial(self._transfers.get, named)
            return reading_of(self._access(named, page, get, named.is_voltage))

    def write(self, command: _Key, value: Value = None, page: Optional[int] = None) -> None:
        """Writes a command. Without a value it is one without data. What can't be written is an `Error`
        with the fault that `pmb run` has for it, and the command as its place. To write PAGE sets
        `device.page`.

            >>> import pmb
            >>> profile = "[[device]]\\naddress = 0x58\\npec = 'optional'"
            >>> bus = pmb.Bus(profile)
            >>> device = pmb.Device(bus, profile, 0x58, pec=False)
            >>> device.write("CLEAR_FAULTS")
            >>> device.write("OPERATION", 0x80)
            >>> bus.events().splitlines()
            ['S b0 A 03 A P', 'S b0 A 01 A 80 A P']
            >>> device.write("TON_DELAY", 1e9)
            Traceback (most recent call last):
            pmb.Error: Above in TON_DELAY
        """
        with self._call():
            named = self._command(command)
            if named.is_voltage and value is not None and not isinstance(value, _RAW):
                put_voltage = partial(self._put_voltage, named, _quantity(value))
                self._access(named, page, put_voltage, is_voltage=True, is_write=True)
                return
            sent = self._encoded(named, value)
            self._access(named, page, partial(self._transfers.put, sent), is_write=True)
            if named.code == PAGE:
                self._selection.chosen = sent[1]
            elif named.code == VOUT_MODE:
                self._selection.is_fixed = False

    def call(
        self, command: _Key, data: Union[bytes, List[int]], page: Optional[int] = None
    ) -> Reading:
        """A process call: sends data, and reads the reply.

            >>> import pmb
            >>> profile = "[[device]]\\naddress = 0x58\\npec = 'on'\\n[[device.command]]\\n"
            >>> profile += "name = 'READ_VIN'\\nkind = 'direct'\\nm = 3\\nb = 2\\nr = 1"
            >>> device = pmb.Device(pmb.Bus(profile), profile, 0x58)
            >>> list(device.call("COEFFICIENTS", [0x88, 1]).data)
            [3, 0, 2, 0, 1]
        """
        with self._call():
            named = self._command(command)
            if named.called is None:
                raise Error("NotAllowed", named.name)
            reply = " 00" * (2 if named.called == BLOCK else named.called)
            line = "call {:02x} {:02x} {} :{}"
            sent = self._transfers.first_leg(
                named, line.format(self._address, named.code, _data(data).hex(" "), reply)
            )
            ask = partial(self._transfers.ask, sent, named.called)
            return reading_of(self._access(named, page, ask, is_write=True))

    def status(self, page: Optional[int] = None) -> Dict[str, List[str]]:
        """The bits that are set in each status register, by their names, all of one page.

            >>> import pmb
            >>> profile = "[[device]]\\naddress = 0x58\\npec = 'on'\\nstandard = false\\n"
            >>> profile += "[[device.command]]\\nname = 'STATUS_BYTE'\\n"
            >>> profile += "[[device.command]]\\nname = 'STATUS_CML'"
            >>> pmb.Device(pmb.Bus(profile), profile, 0x58).status()
            {'STATUS_BYTE': [], 'STATUS_CML': []}
        """
        with self._call():
            registers = [it for it in self._commands.values() if it.is_status and it.read]
            found: Dict[str, List[str]] = self._selection.under(
                page, lambda: {it.name: self._transfers.get(it)["bits"] for it in registers}
            )
            return found

    def __getitem__(self, command: _Key) -> Reading:
        return self.read(command)

    def __setitem__(self, command: _Key, value: Value) -> None:
        self.write(command, value)

    def __contains__(self, command: object) -> bool:
        return command in self._by_name or command in self._commands

    def __iter__(self) -> Iterator[str]:
        return iter(self._by_name)

    def __len__(self) -> int:
        return len(self._by_name)

    def __repr__(self) -> str:
        return "<pmb.Device {:02x}: {} commands>".format(self._address, len(self))

    def __reduce__(self) -> Tuple[Any, ...]:
        raise TypeError("a pmb.Device has no copy")

    # ---- accesses

    @contextlib.contextmanager
    def _call(self) -> Iterator[None]:
        """A call: none of another thread comes between, and after an error nothing is kept."""
        with self._lock:
            self._transfers.events = ""
            if self._simulated and self._simulated._openings != self._openings:
                self._openings = self._simulated._openings
                self._selection.forget()
            try:
                yield
            except BaseException:
                self._selection.forget()
                raise

    def _access(
        self,
        named: Command,
        page: Optional[int],
        act: Callable[[], Any],
        is_voltage: bool = False,
        is_write: bool = False,
    ) -> Any:
        """The object of an access to a command, under a page."""
        if named.code != PAGE:
            return self._selection.under(page, act, is_voltage, is_write)
        # (PAGE is the same on each page, and is not what it was after it is written)
        if page is not None:
            self._selection.select(_within("page", page, 0xFF))
        return act()

    def _command(self, command: _Key) -> Command:
        if isinstance(command, str):
            found, named = self._by_name.get(command), command
        elif isinstance(command, int):
            found, named = self._commands.get(command), "{:02x}".format(command)
        else:
            raise _wrong_type("command", "a name or a code", command)
        if found is None:
            raise KeyError("the device at {:02x} has no command {}".format(self._address, named))
        return found

    # ---- what is written

    def _encoded(self, named: Command, value: Value) -> bytes:
        """What a write that is no voltage sends after the address, with its packet error code."""
        if value is None or isinstance(value, _RAW):
            return self._transfers.written(named, b"" if value is None else _data(value))
        if self._requested(named, "0")[1] == "NotAQuantity":
            return self._transfers.written(named, _plain(named, value))
        return self._encoded_quantity(named, _quantity(value))

    def _put_voltage(self, named: Command, text: str) -> Any:
        """Writes a voltage under the page and the VOUT_MODE that were told for it."""
        return self._transfers.put(self._encoded_quantity(named, text, self._mode_of_voltages(named)))

    def _encoded_quantity(
        self, named: Command, text: str, before: Tuple[str, ...] = ()
    ) -> bytes:
        """What a write of a quantity sends, on devices that are as simulated ones are after other
        requests."""
        packet, fault = self._requested(named, text, before)
        if fault:
            raise Error(fault, named.name)
        return first_leg(packet)

    def _requested(
        self, named: Command, quantity: str, before: Tuple[str, ...] = ()
    ) -> Tuple[str, str]:
        """The packet that sets a quantity, on simulated devices and after other requests; or else its
        fault."""
        line = "set {:02x} {:02x} {}".format(self._address, named.code, quantity)
        told = self._run(*before, line).splitlines()
        return (told[-2], "") if told[-1] == "# done" else ("", fault_of(told[-1]))

    def _mode_of_voltages(self, named: Command) -> Tuple[str, ...]:
        """The requests that bring simulated devices to the page and the VOUT_MODE of this one."""
        lines, page, mode, reply = [], self._transfers.page, self._selection.mode, "# done"
        if page is not None:
            lines.append("write {:02x} 00 {:02x}".format(self._address, page))
        if mode is not None:
            line = "write {:02x} 20 {}".format(self._address, mode)
            if self._commands[VOUT_MODE].written is None:
                # (it can only be what the profile says)
                line, reply = "read {:02x} 20".format(self._address), "# " + mode
            lines.append(line)
        elif not self._selection.is_fixed:
            raise Error("ModeUnknown", named.name)
        told = self._run(*lines)
        if told.refusals or lines and told.splitlines()[-1] != reply:
            raise Error("ModeUnknown", named.name)
        return tuple(lines)

    def _run(self, *requests: str) -> Text:
        """What `pmb run` writes of requests on devices of their own."""
        return self._profile.run("\n".join(map(self._transfers.with_code, requests)))


# ---- values


def _plain(named: Command, value: Any) -> bytes:
    """The bytes that a number or a text stands for, where the data are no quantity."""
    if isinstance(value, str):
        return value.encode("ascii")
    if named.written is None or named.written == BLOCK:
        raise _wrong_type("the value of " + named.name, "bytes or a str", value)
    try:
        return operator.index(value).to_bytes(named.written, "little")
    except TypeError:
        raise _wrong_type("the value of " + named.name, "an int or bytes", value) from None
    except OverflowError:
        most = 256**named.written - 1
        raise ValueError(
            "the value of {} is from 0 to {}, and not {}".format(named.name, most, value)
        ) from None


def _quantity(value: Any) -> str:
    """The text of a quantity. For a number with more digits than the library has room for it is one
    that is as good as equal."""
    if isinstance(value, str):
        # (what is no number is one word, and so a BadDigit)
        return value if value and not set(value) - set("-0123456789./") else "x"
    try:
        return quantity_text(value)
    except Error:
        exact = _exact(value)
    if abs(exact) >= _MOST:
        return str(_MOST if exact > 0 else -_MOST)
    near = exact.limit_denominator(_MOST // (abs(int(exact)) + 1))
    return "{}/{}".format(near.numerator, near.denominator)
