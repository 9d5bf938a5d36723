"""The objects of a capture, for tools that check types: a `TypedDict` for each kind of object that
docs/json.md has. `pmb.transactions` gives an `Object`, which is one of the first eight.

    >>> import pmb
    >>> from pmb.objects import Object
    >>> def volts(it: Object) -> float:
    ...     if it["kind"] == "read" and "number" in it:
    ...         return it["number"]
    ...     return 0.0
    >>> profile = "[[device]]\\naddress = 0x58\\npec = 'on'"
    >>> [volts(it) for it in pmb.transactions(profile, "S b0 A 88 A S b1 A 00 A d3 A f6 N P")]
    [12]

After a test of `kind`, or of a key by `in`, such a tool knows which keys there are: `mypy --strict`
refuses one that is misspelt, and one that no object of this kind has. A running program meets plain
dicts, in which nothing is tested.

docs/json.md says what each key means. One key is the package's own: `address` is the number of
seven bits whose two digits are `device`. An object whose `device` is `None`, or that has none, has
no `address`.
"""

from typing import Dict, List, Literal, Optional, TypedDict, Union, final

__all__ = [
    "Alert",
    "BadToken",
    "Call",
    "Device",
    "End",
    "Object",
    "Other",
    "Read",
    "Refusal",
    "Refused",
    "Write",
]

# Why a packet can't continue: docs/errors.md has the reasons.
_Reason = Literal[
    "ReadFirst",
    "BadRestart",
    "BadPec",
    "UnknownDevice",
    "UnknownCommand",
    "TooLong",
    "TooShort",
    "WrongEvent",
    "Truncated",
]
_EventName = Literal["Start", "Byte", "Ack", "Nack", "Stop"]
_Raw = Literal[
    "unknown", "page", "relative", "vid", "coefficients", "nan", "code", "off"
]
# The fields of a command's data, by their names: docs/meaning.md has those of each command.
_Fields = Dict[str, Union[str, int, bool, List[str]]]

# ---- what several kinds have: of a class with `total=False`, the keys that may be left out


class _Place(TypedDict):
    at: int
    line: int
    column: int


class _Time(_Place, total=False):
    time: str


class _Part(TypedDict, total=False):
    part: int
    parts: int


class _Name(TypedDict, total=False):
    name: str


class _Page(_Name, total=False):
    page: Union[int, Literal["all"], None]
    page_mode: Literal["assumed"]
    phase: Union[int, Literal["all"], None]


class _Number(TypedDict, total=False):
    value: str
    number: float
    ratio: str
    mode: Literal["assumed"]
    unit: str
    raw: _Raw


class _Says(TypedDict, total=False):
    says: _Fields


class _Text(_Says, total=False):
    text: str


class _Bits(TypedDict, total=False):
    bits: List[str]


class _Clears(TypedDict, total=False):
    clears: List[str]


class _MayRefused(_Page, total=False):
    code: str
    command: str
    pec: Literal["right", "wrong"]
    right_pec: str


class _MayAlert(_Name, total=False):
    address: int
    byte: str
    pec: bool


class _MayRefusal(_Page, total=False):
    device: str
    address: int
    code: str
    command: str
    sent: str
    reply: str
    right_pec: str


class _MayCount(_Name, total=False):
    others: int


class _MayEnd(TypedDict, total=False):
    others: int


# ---- the kinds


@final
class Write(_Time, _Part, _Page, _Number, _Clears, _Text):
    """A write, or a part of a group.

    >>> import pmb
    >>> profile = "[[device]]\\naddress = 0x58\\npec = 'optional'"
    >>> it = next(pmb.transactions(profile, "S b0 A 21 A 00 A 18 A P"))
    >>> it["kind"], it["device"], it["address"], it["bytes"], it["value"], it["unit"]
    ('write', '58', 88, '0018', '12', 'V')
    """

    kind: Literal["write"]
    device: str
    address: int
    code: str
    command: str
    bytes: str
    pec: bool


@final
class Read(_Time, _Page, _Number, _Bits, _Text):
    """A read.

    >>> import pmb
    >>> profile = "[[device]]\\naddress = 0x58\\npec = 'optional'"
    >>> it = next(pmb.transactions(profile, "S b0 A 7a A S b1 A 80 N P"))
    >>> it["kind"], it["command"], it["bytes"], it["bits"]
    ('read', 'STATUS_VOUT', '80', ['VOUT_OV_FAULT'])
    >>> it = next(pmb.transactions(profile, "S b0 A 9a A S b1 A 02 A 41 A 31 N P"))
    >>> it["command"], it["text"]
    ('MFR_MODEL', 'A1')
    >>> it = next(pmb.transactions(profile, "S b0 A 98 A S b1 A 33 N P"))
    >>> it["command"], it["says"]
    ('PMBUS_REVISION', {'part_i': '1.3', 'part_ii': '1.3'})
    """

    kind: Literal["read"]
    device: str
    address: int
    code: str
    command: str
    bytes: str
    pec: bool


@final
class Call(_Time, _Page, _Says):
    """A process call: bytes that were sent, and the reply to them.

    >>> import pmb
    >>> profile = "[[device]]\\naddress = 0x58\\npec = 'optional'\\n"
    >>> profile += "[[device.command]]\\ncode = 0xe0\\nname = 'ASK'\\ncall = 'two'"
    >>> it = next(pmb.transactions(profile, "S b0 A e0 A 01 A 02 A S b1 A 05 A 06 N P"))
    >>> it["kind"], it["command"], it["sent"], it["reply"]
    ('call', 'ASK', '0102', '0506')
    """

    kind: Literal["call"]
    device: str
    address: int
    code: str
    command: str
    sent: str
    reply: str
    pec: bool


@final
class Refused(_Time, _Part, _MayRefused):
    """A packet in which a device refused a byte.

    >>> import pmb
    >>> profile = "[[device]]\\naddress = 0x58\\npec = 'optional'"
    >>> it = next(pmb.transactions(profile, "S b0 A 21 A 00 N P"))
    >>> it["kind"], it["refused"], it["sent"]
    ('refused', 'byte', '2100')
    """

    kind: Literal["refused"]
    device: str
    address: int
    refused: Literal["address", "code", "byte", "read address"]
    sent: str


@final
class Alert(_Time, _MayAlert):
    """A read of the Alert Response Address, which devices answer that ask for attention. Where none
    answers, `device` is `None`, and there is no `address`.

    >>> import pmb
    >>> profile = "[[device]]\\naddress = 0x58\\npec = 'optional'"
    >>> found = list(pmb.transactions(profile, "S 19 A b0 N P S 19 N P"))
    >>> [(it["kind"], it["device"], it.get("address")) for it in found]
    [('alert', '58', 88), ('alert', None, None)]
    """

    kind: Literal["alert"]
    device: Optional[str]


@final
class Other(_Time):
    """A packet to an address that the profile ignores.

    >>> import pmb
    >>> next(pmb.transactions("ignore = [0x50]\\ndevice = []", "S a0 N P"))
    {'at': 1, 'line': 1, 'column': 3, 'kind': 'other', 'device': '50', 'address': 80}
    """

    kind: Literal["other"]
    device: str
    address: int


@final
class Refusal(_Time, _MayRefusal):
    """An event that no packet allows there, or an end inside a packet, where `got` is `None`.

    >>> import pmb
    >>> profile = "[[device]]\\naddress = 0x58\\npec = 'optional'"
    >>> it = next(pmb.transactions(profile, "S b0 A 03 A A"))
    >>> it["kind"], it["reason"], it["expected"], it["got"], it["address"]
    ('refusal', 'WrongEvent', ['Start', 'Byte', 'Stop'], 'Ack', 88)
    """

    kind: Literal["refusal"]
    reason: _Reason
    expected: List[_EventName]
    got: Optional[str]


@final
class BadToken(_Time):
    """A word that is no token.

    >>> import pmb
    >>> next(pmb.transactions("device = []", "hm"))
    {'at': 0, 'line': 1, 'column': 1, 'kind': 'bad_token', 'word': 'hm'}
    """

    kind: Literal["bad_token"]
    word: str


@final
class Device(_MayCount):
    """The counts of a device, in a line at the end of the text of `pmb.json`. That text is the
    program's, and has no `address`.

    >>> import json
    >>> import pmb
    >>> profile = "[[device]]\\naddress = 0x58\\npec = 'optional'"
    >>> it = json.loads(pmb.json(profile, "S b0 A 03 A P").splitlines()[-2])
    >>> it["kind"], it["device"], it["writes"], it["reads"]
    ('device', '58', 1, 0)
    """

    kind: Literal["device"]
    device: str
    writes: int
    reads: int
    calls: int
    refused: int
    refusals: int


@final
class End(_MayEnd):
    """The counts of a capture, in the last line of the text of `pmb.json`.

    >>> import json
    >>> import pmb
    >>> json.loads(pmb.json("device = []", "S").splitlines()[-1])
    {'kind': 'end', 'packets': 0, 'refusals': 1, 'bad_tokens': 0}
    """

    kind: Literal["end"]
    packets: int
    refusals: int
    bad_tokens: int


# What `pmb.transactions` gives.
Object = Union[Write, Read, Call, Refused, Alert, Other, Refusal, BadToken]
