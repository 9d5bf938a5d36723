"""What a device replied, and the error of a reply that is no packet or can't be trusted."""

import errno
from fractions import Fraction
from typing import Any, Dict, List, NamedTuple, Optional, Tuple, Union

from . import quantity_text


# (as Linux has it for another master on the bus: Documentation/i2c/fault-codes.rst)
_ERRNO = {"BadPec": errno.EBADMSG, "PageChanged": errno.EAGAIN, "ModeChanged": errno.EAGAIN}


class TransferError(OSError):
    """What a device replied is no packet of its profile, or another master has changed its page or its
    VOUT_MODE during an access, each time that it was done. `reason` is why: that of a `Refusal` of
    `pmb.objects`, or `PageChanged` or `ModeChanged`. `events` is what was on the wire, as the text of a
    capture. `errno` is EBADMSG for a wrong packet error code, EAGAIN for what was changed, and else
    EPROTO.

        >>> import pmb
        >>> print(pmb.TransferError("BadPec", "S b0 A 20 A S b1 A 17 A 00 N P\\n"))
        [Errno 74] BadPec: S b0 A 20 A S b1 A 17 A 00 N P
    """

    __module__ = "pmb"

    def __init__(self, reason: str, events: str) -> None:
        super().__init__(_ERRNO.get(reason, errno.EPROTO), "{}: {}".format(reason, events.strip()))
        self.reason = reason
        self.events = events

    def __reduce__(self) -> Tuple[Any, ...]:
        return type(self), (self.reason, self.events)


class Reading(NamedTuple):
    """What a device replied to a command: the data, the page where the command has one, and what the
    data mean. `unit`, `raw`, `bits`, `text` and `says` are as in docs/json.md, and so are `value` and
    `ratio`, as fractions. What doesn't apply is `None`.

        >>> import pmb
        >>> reading = pmb.Reading("READ_VOUT", b"\\x00\\x06", value=pmb.quantity("3"), unit="V")
        >>> print(reading, float(reading))
        3 V 3.0
    """

    command: str
    data: bytes
    page: Union[int, str, None] = None
    value: Optional[Fraction] = None
    unit: Optional[str] = None
    ratio: Optional[Fraction] = None
    raw: Optional[str] = None
    bits: Optional[List[str]] = None
    text: Optional[str] = None
    says: Optional[Dict[str, Union[str, int, bool, List[str]]]] = None

    def __float__(self) -> float:
        if self.value is None:
            raise TypeError("{} is no number: {}".format(self.command, self))
        return float(self.value)

    def __str__(self) -> str:
        if self.value is not None:
            return quantity_text(self.value) + (" " + self.unit if self.unit else "")
        if self.bits is not None:
            return " ".join(self.bits) or "none"
        return self.data.hex() if self.text is None else self.text


def reading_of(it: Any) -> Reading:
    """The reading of an object of a read or of a call."""
    value, ratio = it.get("value"), it.get("ratio")
    return Reading(
        it.get("command", it["code"]),
        bytes.fromhex(it["reply"] if it["kind"] == "call" else it["bytes"]),
        it.get("page"),
        None if value is None else Fraction(value),
        it.get("unit"),
        None if ratio is None else Fraction(ratio),
        it.get("raw"),
        it.get("bits"),
        it.get("text"),
        it.get("says"),
    )
