"""What a transaction means, by docs/text.md: its note, and what it tells of PAGE and VOUT_MODE."""

from . import numbers
from .packets import Alert, Call, NoAlert, Read, Refused, Write
from .profiles import ALL_PAGES, bit_name


class Context:
    """PAGE of each device and VOUT_MODE of each of its pages, as far as transactions told them."""

    def __init__(self, profile):
        self.profile = profile
        self.pages = {device.address: 0 for device in profile.devices}
        self.modes = {device.address: list(device.modes) for device in profile.devices}

    def mode(self, address):
        """The VOUT_MODE of the selected page, or the one that all selected pages share."""
        page, modes = self.pages[address], self.modes[address]
        if page == ALL_PAGES:
            return modes[0] if len(set(modes)) == 1 else None
        return modes[page] if page < len(modes) else None

    def observe(self, transaction):
        if isinstance(transaction, (Write, Refused)):
            for part in transaction.parts:
                self.tell(part.address, part.code, part.data)
        if isinstance(transaction, Read):
            self.tell(transaction.address, transaction.code, transaction.reply)

    def tell(self, address, code, data):
        """A value of PAGE or VOUT_MODE was written or read."""
        if code == 0x00:
            self.pages[address] = data[0]
        if code == 0x20:
            page, modes = self.pages[address], self.modes[address]
            is_paged = self.profile.device(address).entry(code).paged
            for i in range(len(modes)):
                if page in (i, ALL_PAGES) or not is_paged:
                    modes[i] = data[0]


def number_format(device, entry, mode):
    """The number format of a command's data. A VOUT_MODE that isn't known is a fault."""
    if not entry.is_voltage():
        return entry.number_format()
    if mode is None:
        raise numbers.Fault("ModeUnknown")
    return numbers.vout_format(mode, entry.kind == "vout_signed", device.vout_direct)


def data_note(context, address, code, data):
    """The name of a command, and what its data say."""
    device = context.profile.device(address)
    entry = device.entry(code)
    word = sum(byte << 8 * i for i, byte in enumerate(data))
    if entry.kind in ("raw", "text") or not data:
        return entry.name
    if entry.kind == "status":
        bits = [
            bit_name(code, bit) or "bit%d" % bit
            for bit in range(8 * len(data) - 1, -1, -1)
            if word >> bit & 1
        ]
        return " ".join([entry.name] + (bits or ["none"]))
    try:
        number = numbers.decode(number_format(device, entry, context.mode(address)), word)
    except numbers.Fault:
        return entry.name + " raw"
    return entry.name + " " + numbers.text(number)


def note(context, transaction):
    """The note of a transaction, by what was told before it."""
    if isinstance(transaction, (Write, Refused)):
        notes = [
            data_note(context, part.address, part.code, part.data)
            for part in transaction.parts
        ]
        if isinstance(transaction, Refused):
            sent = {0: "address refused", 1: "code refused"}
            sent = sent.get(len(transaction.sent), "byte refused")
            notes.append("read address refused" if transaction.at_read else sent)
        return " + ".join(notes)
    if isinstance(transaction, Read):
        return data_note(context, transaction.address, transaction.code, transaction.reply)
    if isinstance(transaction, Call):
        return context.profile.device(transaction.address).entry(transaction.code).name
    if isinstance(transaction, Alert):
        return "device %02x" % (transaction.byte // 2)
    assert isinstance(transaction, NoAlert)
    return "no device"
