"""A bus of simulated devices, with the methods of `smbus2.SMBus`.

The accesses of SMBus are made of messages as Linux makes them for an adapter that knows only messages
(`i2c_smbus_xfer_emulated`), so that each ends as it does on a real bus.
"""

import ctypes
import errno
import os
import threading
from typing import Any, Iterable, Iterator, List, NamedTuple, Optional, Sequence, Tuple, Union

from . import (
    _NO_MEMORY,
    _NO_ROOM,
    Profile,
    Text,
    _data,
    _Handle,
    _new_handle,
    _profile_bytes,
    _Profiled,
    _raise_status,
    _within,
    pec,
)
from ._library import LIBRARY as _LIBRARY
from ._library import Result as _Result
from ._pieces import Content
from ._pieces import bytes_of as _bytes
from ._pieces import wrong_type as _wrong_type

# The flags of messages, and the adapter's functions, as <linux/i2c.h> has them: I2C, and all accesses
# of SMBus.
WRITES, READS, READS_BLOCK = 0, 0x0001, 0x0401
FUNCTIONS = 0x00000001 | 0x0EFF0008 | 0x00008000 | 0x01000000
# The most bytes of a block of SMBus, and the limits of i2c-dev.
MOST_BLOCK, _MOST_LENGTH, _MOST_MESSAGES = 32, 8192, 42


class i2c_msg(ctypes.Structure):
    """A message, as `smbus2.i2c_msg` has it: bytes to write to a device, or room for those that it
    replies. `addr` is the address, `flags` are those of Linux, `len` is how many bytes `buf` has.

        >>> import pmb
        >>> message = pmb.i2c_msg.write(0x58, [0x21, 0x00, 0x18])
        >>> message.addr, message.flags, message.len, list(message), bytes(message)
        (88, 0, 3, [33, 0, 24], b'!\\x00\\x18')
    """

    __module__ = "pmb"

    _fields_ = [
        ("addr", ctypes.c_uint16),
        ("flags", ctypes.c_uint16),
        ("len", ctypes.c_uint16),
        ("buf", ctypes.POINTER(ctypes.c_char)),
    ]
    addr: int
    flags: int
    len: int
    buf: Any

    @staticmethod
    def read(address: int, length: int) -> "i2c_msg":
        """A message that reads so many bytes.

            >>> import pmb
            >>> bytes(pmb.i2c_msg.read(0x58, 2))
            b'\\x00\\x00'
        """
        room = ctypes.create_string_buffer(_within("length", length, 0xFFFF))
        return i2c_msg(_address(address), READS, length, room)

    @staticmethod
    def write(address: int, buf: Union[str, bytes, Iterable[int]]) -> "i2c_msg":
        """A message that writes bytes: numbers from 0 to 255, or the characters of a str.

            >>> import pmb
            >>> pmb.i2c_msg.write(0x58, [3])
            i2c_msg(88,0,b'\\x03')
        """
        data = _data([ord(each) for each in buf] if isinstance(buf, str) else buf)
        length = _within("the length of buf", len(data), 0xFFFF)
        return i2c_msg(_address(address), WRITES, length, ctypes.create_string_buffer(data, length))

    def __iter__(self) -> Iterator[int]:
        return iter(bytes(self))

    def __len__(self) -> int:
        return self.len

    def __bytes__(self) -> bytes:
        return ctypes.string_at(self.buf, self.len)

    def __repr__(self) -> str:
        return "i2c_msg({},{},{!r})".format(self.addr, self.flags, bytes(self))

    def __str__(self) -> str:
        return bytes(self).decode(errors="ignore")


class _Message(NamedTuple):
    """A message for the library. `length` is how many bytes are written or read; of a block that is
    read, how many come after it."""

    address: int
    flags: int
    buffer: Any
    room: int
    length: int


class Bus:
    """A bus of the devices of a profile, simulated as docs/devices.md says. It has the methods of
    `smbus2.SMBus`, with the same arguments, so that a script which talks to a board runs on it.

        >>> import pmb
        >>> profile = "[[device]]\\naddress = 0x58\\npec = 'optional'"
        >>> with pmb.Bus(profile) as bus:
        ...     bus.write_word_data(0x58, 0x21, 0x1800)
        ...     bus.pec = 1
        ...     print(hex(bus.read_word_data(0x58, 0x21)))
        ...     print(bus.events(), end="")
        0x1800
        S b0 A 21 A 00 A 18 A P
        S b0 A 21 A S b1 A 00 A 18 A d0 N P

    The devices keep what is written to them until the bus is closed. A profile is a text or a
    `Profile`, which may be closed before the bus; a bus without one waits for `open`.

    An address is a number from 0 to 127, a register and a byte from 0 to 255, a word from 0 to 65535:
    another number is a `ValueError`, where smbus2 takes its lowest bits. `force` makes no difference,
    since no address is ever busy. What goes wrong on the bus is an `OSError` with the number that
    Linux has for it:

    - `ENXIO`: no device took the address.
    - `EREMOTEIO`: a device refused a byte.
    - `EBADMSG`: the packet error code of a reply is wrong.
    - `EPROTO`: the count of a block that is read is not 1 to 32.
    - `EINVAL`, `EOPNOTSUPP`: `i2c_rdwr` has a message that is not allowed.

    Calls of several threads come one after the other. A bus has no copy.
    """

    __module__ = "pmb"

    def __init__(self, profile: Optional[_Profiled] = None, force: bool = False) -> None:
        self.force = force
        self._lock = threading.RLock()
        self._handle: Optional[_Handle] = None
        self._pec = 0
        # How often it was opened, so how many power-ups its devices had.
        self._openings = 0
        # What the library has logged and `events` has not returned.
        self._log: List[str] = []
        self._room = ctypes.create_string_buffer(4096)
        if profile is not None:
            self.open(profile)

    def open(self, profile: _Profiled) -> None:
        """Makes the devices of a profile, as they are at power-up. A bus that is open is closed first.

            >>> import pmb
            >>> bus = pmb.Bus()
            >>> bus.open("[[device]]\\naddress = 0x58\\npec = 'optional'")
            >>> bus.write_quick(0x58)
        """
        with self._lock:
            self.close()
            opened = profile if isinstance(profile, Profile) else Profile(_profile_bytes(profile))
            handle = _new_handle("pmb_bus")
            with opened._lent() as under:
                status = _LIBRARY.pmb_bus_open(handle.at, under.at)
            if status == _NO_MEMORY:
                raise MemoryError("no memory for the devices")
            _raise_status(status)
            self._handle = handle
            self._openings += 1

    def close(self) -> None:
        """Gives the memory back. To close it again does nothing. Each call but `events` and `open` is
        a `ValueError` from then on.

            >>> import pmb
            >>> bus = pmb.Bus("[[device]]\\naddress = 0x58\\npec = 'optional'")
            >>> bus.close()
            >>> bus.read_byte_data(0x58, 0x20)
            Traceback (most recent call last):
            ValueError: the bus is closed
        """
        with self._lock:
            if self._handle is not None:
                self._logged()
            self._handle = None
            self._pec = 0

    @property
    def closed(self) -> bool:
        """Whether it is closed.

            >>> import pmb
            >>> pmb.Bus().closed, pmb.Bus("device = []").closed
            (True, False)
        """
        return self._handle is None

    def __enter__(self) -> "Bus":
        return self

    def __exit__(self, kind: object, error: object, trace: object) -> None:
        self.close()

    def __repr__(self) -> str:
        return "<pmb.Bus, {}>".format("closed" if self.closed else "open")

    def __reduce__(self) -> Tuple[Any, ...]:
        raise TypeError("a pmb.Bus has no copy")

    @property
    def funcs(self) -> int:
        """What the bus can do, as I2C_FUNCS of Linux tells it: I2C, and all accesses of SMBus.

            >>> import pmb
            >>> bool(pmb.Bus("device = []").funcs & 8)      # SMBUS_PEC
            True
        """
        return 0 if self.closed else FUNCTIONS

    def enable_pec(self, enable: Union[bool, int] = True) -> None:
        """Sets `pec`.

            >>> import pmb
            >>> bus = pmb.Bus("[[device]]\\naddress = 0x58\\npec = 'on'")
            >>> bus.enable_pec()
            >>> bus.pec
            1
        """
        wanted = _within("pec", enable, 1)
        with self._lock:
            self._opened()
            self._pec = wanted

    @property
    def pec(self) -> int:
        """1 where accesses have packet error codes, and 0, as at first, where they have none. The code
        is added to what is written, and asked for and tested in what is read. Quick commands, blocks
        of I2C and `i2c_rdwr` never have one of their own.

            >>> import pmb
            >>> bus = pmb.Bus("[[device]]\\naddress = 0x58\\npec = 'on'")
            >>> bus.pec = 1
            >>> bus.write_byte(0x58, 0x03)
            >>> bus.events()
            'S b0 A 03 A 46 A P\\n'
        """
        return self._pec

    @pec.setter
    def pec(self, enable: Union[bool, int]) -> None:
        self.enable_pec(enable)

    # ---- accesses of SMBus

    def write_quick(self, i2c_addr: int, force: Optional[bool] = None) -> None:
        """Only the address, for writing: whether a device takes it.

            >>> import pmb
            >>> bus = pmb.Bus("[[device]]\\naddress = 0x58\\npec = 'optional'")
            >>> bus.write_quick(0x58)
            >>> bus.write_quick(0x59)
            Traceback (most recent call last):
            OSError: [Errno 6] No such device or address
        """
        self._write(i2c_addr, b"", has_code=False)

    def read_byte(self, i2c_addr: int, force: Optional[bool] = None) -> int:
        """A byte, read without a command. A device replies only to a command, so each refuses this.

            >>> import pmb
            >>> pmb.Bus("[[device]]\\naddress = 0x58\\npec = 'optional'").read_byte(0x58)
            Traceback (most recent call last):
            OSError: [Errno 6] No such device or address
        """
        return self._read(i2c_addr, None, 1)[0]

    def write_byte(self, i2c_addr: int, value: int, force: Optional[bool] = None) -> None:
        """A command without data.

            >>> import pmb
            >>> bus = pmb.Bus("[[device]]\\naddress = 0x58\\npec = 'optional'")
            >>> bus.write_byte(0x58, 0x03)
            >>> bus.events()
            'S b0 A 03 A P\\n'
        """
        self._write(i2c_addr, _register(value, "value"))

    def read_byte_data(self, i2c_addr: int, register: int, force: Optional[bool] = None) -> int:
        """The byte of a command.

            >>> import pmb
            >>> bus = pmb.Bus("[[device]]\\naddress = 0x58\\npec = 'optional'")
            >>> hex(bus.read_byte_data(0x58, 0x20))
            '0x17'
        """
        return self._read(i2c_addr, _register(register), 1)[0]

    def write_byte_data(
        self, i2c_addr: int, register: int, value: int, force: Optional[bool] = None
    ) -> None:
        """Writes the byte of a command.

            >>> import pmb
            >>> bus = pmb.Bus("[[device]]\\naddress = 0x58\\npec = 'optional'")
            >>> bus.write_byte_data(0x58, 0x01, 0x80)
            >>> bus.events()
            'S b0 A 01 A 80 A P\\n'
        """
        self._write(i2c_addr, _register(register) + _register(value, "value"))

    def read_word_data(self, i2c_addr: int, register: int, force: Optional[bool] = None) -> int:
        """The word of a command, whose low byte comes first.

            >>> import pmb
            >>> bus = pmb.Bus("[[device]]\\naddress = 0x58\\npec = 'optional'")
            >>> bus.write_word_data(0x58, 0x21, 0x069a)
            >>> hex(bus.read_word_data(0x58, 0x21))
            '0x69a'
        """
        return int.from_bytes(self._read(i2c_addr, _register(register), 2), "little")

    def write_word_data(
        self, i2c_addr: int, register: int, value: int, force: Optional[bool] = None
    ) -> None:
        """Writes the word of a command, low byte first.

            >>> import pmb
            >>> bus = pmb.Bus("[[device]]\\naddress = 0x58\\npec = 'optional'")
            >>> bus.write_word_data(0x58, 0x21, 0x1800)
            >>> bus.events()
            'S b0 A 21 A 00 A 18 A P\\n'
        """
        self._write(i2c_addr, _register(register) + _word(value))

    def process_call(
        self, i2c_addr: int, register: int, value: int, force: Optional[bool] = None
    ) -> int:
        """Sends a word, and reads the one that is the reply. Simulated devices reply to no such call.

            >>> import pmb
            >>> profile = "[[device]]\\naddress = 0x58\\npec = 'optional'\\n"
            >>> profile += "[[device.command]]\\ncode = 0xe0\\nname = 'ASK'\\ncall = 'two'"
            >>> bus = pmb.Bus(profile)
            >>> bus.process_call(0x58, 0xe0, 0x0201)
            Traceback (most recent call last):
            OSError: [Errno 6] No such device or address
            >>> bus.events()
            'S b0 A e0 A 01 A 02 A S b1 N P\\n'
        """
        return int.from_bytes(self._read(i2c_addr, _register(register) + _word(value), 2), "little")

    def read_block_data(
        self, i2c_addr: int, register: int, force: Optional[bool] = None
    ) -> List[int]:
        """The block of a command, without its count: 1 to 32 bytes. A longer one is read by
        `i2c_rdwr`.

            >>> import pmb
            >>> bus = pmb.Bus("[[device]]\\naddress = 0x58\\npec = 'optional'")
            >>> bus.write_block_data(0x58, 0x9e, b"A17")
            >>> bytes(bus.read_block_data(0x58, 0x9e))
            b'A17'
        """
        return list(self._read(i2c_addr, _register(register), None)[1:])

    def write_block_data(
        self, i2c_addr: int, register: int, data: Sequence[int], force: Optional[bool] = None
    ) -> None:
        """Writes a block, its count first: at most 32 bytes.

            >>> import pmb
            >>> bus = pmb.Bus("[[device]]\\naddress = 0x58\\npec = 'optional'")
            >>> bus.write_block_data(0x58, 0x9e, [0x41, 0x42])
            >>> bus.events()
            'S b0 A 9e A 02 A 41 A 42 A P\\n'
        """
        self._write(i2c_addr, _register(register) + _block(data))

    def block_process_call(
        self, i2c_addr: int, register: int, data: Sequence[int], force: Optional[bool] = None
    ) -> List[int]:
        """Sends a block, and reads the one that is the reply. Simulated devices reply to COEFFICIENTS.

            >>> import pmb
            >>> profile = "[[device]]\\naddress = 0x58\\npec = 'optional'\\n[[device.command]]\\n"
            >>> profile += "name = 'READ_VIN'\\nkind = 'direct'\\nm = 3\\nb = 2\\nr = 1"
            >>> pmb.Bus(profile).block_process_call(0x58, 0x30, [0x88, 1])
            [3, 0, 2, 0, 1]
        """
        return list(self._read(i2c_addr, _register(register) + _block(data), None)[1:])

    def read_i2c_block_data(
        self, i2c_addr: int, register: int, length: int, force: Optional[bool] = None
    ) -> List[int]:
        """So many bytes of a command, at most 32. What a device doesn't give is read as 255.

            >>> import pmb
            >>> bus = pmb.Bus("[[device]]\\naddress = 0x58\\npec = 'off'")
            >>> bus.read_i2c_block_data(0x58, 0x20, 3)
            [23, 255, 255]
        """
        wanted = _within("length", length, MOST_BLOCK)
        return list(self._read(i2c_addr, _register(register), wanted, has_code=False))

    def write_i2c_block_data(
        self, i2c_addr: int, register: int, data: Sequence[int], force: Optional[bool] = None
    ) -> None:
        """Writes bytes without a count, at most 32.

            >>> import pmb
            >>> bus = pmb.Bus("[[device]]\\naddress = 0x58\\npec = 'optional'")
            >>> bus.write_i2c_block_data(0x58, 0x21, [0x00, 0x18])
            >>> bus.events()
            'S b0 A 21 A 00 A 18 A P\\n'
        """
        self._write(i2c_addr, _register(register) + _short(data), has_code=False)

    # ---- messages

    def i2c_rdwr(self, *i2c_msgs: Any) -> None:
        """Sends messages in one packet, a START before each: those of `pmb.i2c_msg` or of
        `smbus2.i2c_msg`, 1 to 42 of up to 8,192 bytes. What is read is in their `buf`.

        A message that reads may also have I2C_M_RECV_LEN (0x0400) in its `flags`: the first byte that
        comes says how many follow. Before, the first byte of `buf` says how many come besides the
        block's own, its count among them: 1, or 2 with a packet error code.

            >>> import pmb
            >>> bus = pmb.Bus("[[device]]\\naddress = 0x58\\npec = 'off'")
            >>> reply = pmb.i2c_msg.read(0x58, 1)
            >>> bus.i2c_rdwr(pmb.i2c_msg.write(0x58, [0x20]), reply)
            >>> list(reply)
            [23]
        """
        if not 1 <= len(i2c_msgs) <= _MOST_MESSAGES:
            raise _error(errno.EINVAL)
        if any(_field(it, "len") > _MOST_LENGTH for it in i2c_msgs):
            raise _error(errno.EINVAL)
        self._transfer([_message(it) for it in i2c_msgs])

    def transfer(self, messages: Iterable[Any]) -> List[bytes]:
        """Sends messages as `i2c_rdwr` does, but any number, each of up to 65,535 bytes, and returns
        the bytes of each that reads.

            >>> import pmb
            >>> bus = pmb.Bus("[[device]]\\naddress = 0x58\\npec = 'off'")
            >>> bus.transfer([pmb.i2c_msg.write(0x58, [0x20]), pmb.i2c_msg.read(0x58, 1)])
            [b'\\x17']
        """
        if isinstance(messages, (str, bytes)) or not hasattr(messages, "__iter__"):
            raise _wrong_type("messages", "a list of i2c_msg", messages)
        given = [_message(it) for it in messages]
        came = self._transfer(given)
        return [
            ctypes.string_at(it.buffer, length)
            for it, length in zip(given, came)
            if it.flags & READS
        ]

    # ---- what pmb has besides

    def request(self, line: Content) -> Text:
        """Does a request of `pmb run` on the devices as they are, and returns what that writes of it:
        the packet, and the result as a comment. The text's `packets` is 1 where it was done, and its
        `refusals` is 1 where it failed.

            >>> import pmb
            >>> bus = pmb.Bus("[[device]]\\naddress = 0x58\\npec = 'optional'")
            >>> print(bus.request("set 58 21 12"), end="")
            S b0 A 21 A 00 A 18 A P
            # done
        """
        given, told = _bytes("line", line), _Result()
        given = given[:-1] if given.endswith(b"\n") else given
        if b"\n" in given:
            raise ValueError("line is one line, not {}".format(given.count(b"\n") + 1))
        with self._lock:
            self._logged()
            at = self._opened().at
            status = _LIBRARY.pmb_bus_request(at, given, len(given), ctypes.byref(told))
            if status == _NO_MEMORY:
                raise MemoryError("no memory for the log")
            _raise_status(status)
            return Text(self._logged(), told.packets, told.refusals)

    def events(self) -> str:
        """What was on the wire since the last call, as the text of a capture: a line for each packet,
        for `pmb.show` or a `Reader`, and the results of requests as comments. What nobody asks for
        stays in memory. It may be asked for after the bus is closed, too.

            >>> import pmb
            >>> profile = "[[device]]\\naddress = 0x58\\npec = 'optional'"
            >>> bus = pmb.Bus(profile)
            >>> bus.write_byte_data(0x58, 0x01, 0x80)
            >>> print(pmb.show(profile, bus.events()), end="")
            write 58 01 80 # OPERATION
            >>> bus.events()
            ''
        """
        with self._lock:
            if self._handle is not None:
                self._logged()
            text = "".join(self._log)
            self._log.clear()
            return text

    def _opened(self) -> _Handle:
        handle = self._handle
        if handle is None:
            raise ValueError("the bus is closed")
        return handle

    def _logged(self) -> str:
        """What the library has logged since the last call. It is kept for `events`."""
        at, told, text = self._opened().at, _Result(), ""
        while True:
            length = _LIBRARY.pmb_bus_events(at, self._room, len(self._room), ctypes.byref(told))
            text += str(memoryview(self._room)[:length], "ascii")
            if told.status != _NO_ROOM:
                break
            self._room = ctypes.create_string_buffer(told.length)
        if text:
            self._log.append(text)
        return text

    def _transfer(self, messages: List[_Message]) -> List[int]:
        """Sends messages in one packet, and returns how many bytes each wrote or read."""
        came = []
        with self._lock:
            at = self._opened().at
            for number, it in enumerate(messages, 1):
                length = ctypes.c_size_t(it.length)
                number_of_error = _LIBRARY.pmb_bus_message(
                    at,
                    it.address,
                    it.flags,
                    it.buffer,
                    it.room,
                    ctypes.byref(length),
                    number == len(messages),
                )
                if number_of_error:
                    raise _error(-number_of_error)
                came.append(length.value)
        return came

    def _write(self, i2c_addr: int, data: bytes, has_code: bool = True) -> None:
        """Writes a message, with a packet error code where accesses have one."""
        address = _address(i2c_addr)
        if has_code and self._pec:
            data += bytes([pec(bytes([address << 1]) + data)])
        self._transfer([_written(address, data)])

    def _read(
        self, i2c_addr: int, sent: Optional[bytes], length: Optional[int], has_code: bool = True
    ) -> bytes:
        """Writes a message if there is one, and then reads so many bytes, or a block with its count. A
        packet error code is tested."""
        address = _address(i2c_addr)
        code = 1 if has_code and self._pec else 0
        room = ctypes.create_string_buffer((1 + MOST_BLOCK if length is None else length) + code)
        flags = READS_BLOCK if length is None else READS
        read = _Message(address, flags, room, len(room), code if length is None else len(room))
        before = b"" if sent is None else bytes([address << 1]) + sent
        came = self._transfer([read] if sent is None else [_written(address, sent), read])[-1]
        reply = room.raw[:came]
        if not code:
            return reply
        if pec(before + bytes([address << 1 | 1]) + reply) != 0:
            raise _error(errno.EBADMSG)
        return reply[:-1]


def _error(number: int) -> Exception:
    """The error of a number of Linux."""
    if number == errno.ENOMEM:
        return MemoryError("no memory for the log")
    return OSError(number, os.strerror(number))


# ---- arguments


def _address(address: int) -> int:
    return _within("an address", address, 0x7F)


def _register(number: int, what: str = "register") -> bytes:
    return bytes([_within(what, number, 0xFF)])


def _word(value: int) -> bytes:
    return _within("value", value, 0xFFFF).to_bytes(2, "little")


def _short(data: Any) -> bytes:
    """The bytes of a block of SMBus."""
    found = _data(data)
    if len(found) > MOST_BLOCK:
        raise ValueError("data has at most {} bytes, not {}".format(MOST_BLOCK, len(found)))
    return found


def _block(data: Any) -> bytes:
    """A block with its count."""
    found = _short(data)
    return bytes([len(found)]) + found


def _written(address: int, data: bytes) -> _Message:
    room = ctypes.create_string_buffer(data, len(data))
    return _Message(address, WRITES, room, len(data), len(data))


def _field(message: Any, name: str) -> int:
    """A number that a message has."""
    try:
        return int(getattr(message, name))
    except (AttributeError, TypeError, ValueError):
        raise _wrong_type("a message", "a pmb.i2c_msg or an smbus2.i2c_msg", message) from None


def _message(message: Any) -> _Message:
    """A message for the library, of one that smbus2 or this package has made. One that the library
    would not send is an error here, before those that come earlier are sent."""
    address, flags, length = (_field(message, name) for name in ("addr", "flags", "len"))
    try:
        buffer = ctypes.cast(message.buf, ctypes.c_void_p)
    except (AttributeError, ctypes.ArgumentError, TypeError):
        raise _wrong_type("a message", "a pmb.i2c_msg or an smbus2.i2c_msg", message) from None
    if flags not in (WRITES, READS, READS_BLOCK):
        raise _error(errno.EOPNOTSUPP)
    if not 0 <= address <= 0x7F:
        raise _error(errno.EINVAL)
    if length and not buffer:
        raise _error(errno.EFAULT)
    if flags != READS_BLOCK:
        return _Message(address, flags, buffer, length, length)
    beside = ctypes.string_at(buffer, 1)[0] if length else 0
    if not 1 <= beside <= length - MOST_BLOCK:
        raise _error(errno.EINVAL)
    return _Message(address, flags, buffer, length, beside - 1)
