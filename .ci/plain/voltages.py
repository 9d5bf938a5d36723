"""How `json`, `log` and `stats` read an output voltage, by docs/json.md: by VOUT_MODE, and for VID by
the tables that the profile names."""

from typing import NamedTuple

from . import numbers
from .known import UNKNOWN
from .numbers import Fault
from .profiles import ALL_PAGES

LINEAR, VID, DIRECT, HALF = range(4)  # bits 6:5 of VOUT_MODE
# Where bit 7 is set, these are factors of VOUT_COMMAND, whatever the profile calls them.
FACTORS = (0x25, 0x26, 0x40, 0x42, 0x43, 0x44, 0x5E, 0x5F)
# What words without a value are called in `raw`.
WORDLESS = {"NotANumber": "nan", "NoCode": "code", "Off": "off"}


class Way(NamedTuple):
    """How a voltage's word is read."""
    form: tuple
    is_ratio: bool  # a factor of VOUT_COMMAND, and no number of volts


def way_of(known, device, entry):
    """How a word is read; the fault is why it can't be, as `raw` of json has it."""
    mode = known.mode(device.address)
    if isinstance(mode, str):
        raise Fault(mode)
    sort, is_ratio = mode >> 5 & 3, mode >= 0x80 and entry.code in FACTORS
    is_signed = entry.kind == "vout_signed"
    if sort == VID:
        if is_ratio:
            raise Fault("relative")
        if is_signed:
            raise Fault("vid")
        return Way(numbers.vid(table_of(known, device, mode)), False)
    if sort == HALF:
        return Way(("half",), is_ratio)
    if sort == DIRECT and device.vout_direct is None:
        raise Fault("coefficients")
    return Way(numbers.vout_format(mode & 0x7F, is_signed, device.vout_direct), is_ratio)


def is_unknown(known, device, entry):
    """Whether it isn't known how a word is read."""
    try:
        way_of(known, device, entry)
    except Fault as fault:
        return str(fault) == UNKNOWN
    return False


def table_of(known, device, mode):
    """The name of the VID table."""
    if device.vid is None:
        raise Fault("vid")
    if isinstance(device.vid, str):
        return device.vid
    if isinstance(device.vid, dict):
        if mode & 0x1F not in device.vid:
            raise Fault("vid")
        return device.vid[mode & 0x1F]
    if len(set(device.vid)) == 1:
        return device.vid[0]
    page = known.pages[device.address]
    if page is None:
        raise Fault(UNKNOWN)
    if page == ALL_PAGES:
        raise Fault("page")
    return device.vid[page]
