"""The transfers of a device: what is sent over a bus, and the objects that a reader makes of what was
on the wire. Which of them an access has is up to `_selection.py`."""

import errno
import os
import sys
from typing import Any, Callable, List, Optional, Protocol, Tuple, Union

from . import Error, Profile, Reader
from ._bus import MOST_BLOCK, READS_BLOCK, Bus
from ._commands import BLOCK, Command, first_leg
from ._pieces import wrong_type as _wrong_type
from ._reading import TransferError

# What `funcs` has of a bus that reads blocks whose first byte tells their length.
_READS_BLOCKS = 0x01000000


class Wire(Protocol):
    """What a device needs of a bus."""

    def i2c_rdwr(self, *i2c_msgs: Any) -> Any: ...


class Transfers:
    """The transfers of a device. What an object says rests on the packets since `begin`, and `page` is
    what these tell of PAGE. `events` is their text, until somebody clears it."""

    def __init__(
        self,
        bus: Union[Bus, Wire],
        profile: Profile,
        address: int,
        has_pec: bool,
        log: Optional[Callable[[str], object]],
    ) -> None:
        self._bus, self._messages = bus, _message_class(bus)
        self._profile, self._address, self._has_pec = profile, address, has_pec
        self._log, self.events = log, ""
        self.begin(False)

    def begin(self, fixed_vout_mode: bool) -> None:
        """Forgets what was told before. A VOUT_MODE that is fixed is the profile's."""
        self._reader = Reader(self._profile, late=True, fixed_vout_mode=fixed_vout_mode)
        self.page: Optional[int] = None

    def first_leg(self, named: Command, line: str) -> bytes:
        """What the packet of a line sends first, after the address. Its fault is an `Error`."""
        built = self._profile.build(self.with_code(line), strict=False)
        if built.refusals:
            raise Error(fault_of(built), named.name)
        return first_leg(built)

    def written(self, named: Command, data: bytes) -> bytes:
        """What the packet sends, after the address, that writes bytes."""
        line = "write {:02x} {:02x} {}".format(self._address, named.code, data.hex(" "))
        return self.first_leg(named, line)

    def with_code(self, line: str) -> str:
        """A line of a packet that has a packet error code where the device's have one."""
        return line + " pec" if self._has_pec else line

    def remark(self, text: str) -> None:
        """Writes a comment to the log."""
        if self._log is not None:
            self._log("# {:02x} {}\n".format(self._address, text))

    def get(self, named: Command) -> Any:
        """The object of a command that is read."""
        assert named.read is not None
        return self.ask(bytes([named.code]), named.read)

    def put(self, sent: bytes) -> Any:
        """The object of what is written."""
        return self._send(self._messages.write(self._address, sent))

    def ask(self, sent: bytes, form: int) -> Any:
        """The object of what is sent, and then of data of a form that are read."""
        write, code = self._messages.write(self._address, sent), int(self._has_pec)
        length = form
        if form == BLOCK:
            found, length = self._block(write, code)
            if found is not None:
                return found
        return self._send(write, self._messages.read(self._address, length + code))

    def _block(self, write: Any, code: int) -> Tuple[Any, int]:
        """The object of a block of SMBus. For another block, `None` and how many bytes it has with its
        count."""
        if getattr(self._bus, "funcs", 0) & _READS_BLOCKS:
            read = self._messages.read(self._address, 1 + MOST_BLOCK + code)
            read.flags = READS_BLOCK
            read.buf[0] = bytes([1 + code])
            try:
                return self._send(write, read), 0
            except OSError as error:
                if error.errno != errno.EPROTO or isinstance(error, TransferError):
                    raise
        # (its count alone makes no packet)
        read = self._messages.read(self._address, 1)
        self._send(write, read, is_packet=False)
        return None, 1 + next(iter(read))

    def _send(self, *messages: Any, is_packet: bool = True) -> Any:
        """Sends messages, and returns the object of their packet."""
        if isinstance(self._bus, Bus):
            text, error = _recorded(self._bus, messages)
        else:
            text, error = _made(self._bus, self._address, messages)
        self.events += text
        if self._log is not None:
            self._log(text)
        if error is not None:
            raise error
        # (of what is no packet the reader would forget PAGE and VOUT_MODE)
        if not is_packet:
            return None
        found: List[Any] = self._reader.feed(text)
        if not found or found[0]["kind"] == "refusal":
            raise TransferError(found[0]["reason"] if found else "Truncated", text)
        it = found[0]
        if it["code"] == "00" and it["kind"] in ("read", "write"):
            self.page = int(it["bytes"], 16)
        return it


def fault_of(comment: str) -> str:
    """The fault that a comment of the library tells, as `# line 1: Above`."""
    return comment.partition(": ")[2].strip()


def _message_class(bus: Any) -> Any:
    """The class of the messages that a bus takes: it is beside that of the bus, or of what it
    inherits from."""
    for each in reversed(type(bus).__mro__):
        found = getattr(sys.modules.get(each.__module__), "i2c_msg", None)
        if found is not None and hasattr(bus, "i2c_rdwr"):
            return found
    raise _wrong_type("bus", "a pmb.Bus or an smbus2.SMBus", bus)


def _recorded(bus: Bus, messages: Any) -> Tuple[str, Optional[OSError]]:
    """What a simulated bus has recorded of messages, and how they failed."""
    with bus._lock:
        bus._logged()
        try:
            bus.i2c_rdwr(*messages)
        except OSError as error:
            return bus._logged(), error
        return bus._logged(), None


def _made(bus: Any, address: int, messages: Any) -> Tuple[str, Optional[OSError]]:
    """What was on the wire, by what was sent and what came; or how it failed, which doesn't say what
    was on the wire until then."""
    try:
        bus.i2c_rdwr(*messages)
    except OSError as error:
        sent = " ".join(bytes(it).hex() for it in messages if not it.flags)
        why = os.strerror(error.errno or errno.EIO)
        return "# {:02x} {} failed: {}\n".format(address, sent, why), error
    words = []
    for it in messages:
        data = bytes(it)
        if it.flags == READS_BLOCK:
            data = data[: data[0] + len(data) - MOST_BLOCK]
        sent = " A ".join(map("{:02x}".format, bytes([address << 1 | it.flags & 1]) + data))
        words.append("S {} {}".format(sent, "N" if it.flags else "A"))
    return " ".join(words) + " P\n", None
