"""What is known of PAGE, PHASE and VOUT_MODE where a capture may begin in the middle, by
docs/known.md."""

from .packets import Read, Refused, Write, has_write
from .profiles import ALL_PAGES

UNKNOWN = "unknown"
RESTORES = (0x12, 0x14, 0x16, 0x18)
PAGE_PLUS_WRITE = 0x05
VOUT_MODE = 0x20


def untells(code, data):
    """Whether a write leaves VOUT_MODE of its device untold."""
    if code == PAGE_PLUS_WRITE:
        return len(data) > 1 and data[1] in (VOUT_MODE, *RESTORES)
    return code in RESTORES


class Known:
    """PAGE and PHASE of each device, and VOUT_MODE of each of its pages, as far as they are known: None
    where they are not."""

    def __init__(self, profile, is_late=False, is_fixed=False):
        self.profile = profile
        self.is_late = is_late
        self.is_told = is_late and not is_fixed  # VOUT_MODE is what was told alone
        self.pages = {}
        self.phases = dict.fromkeys(device.address for device in profile.devices)
        self.modes = {}
        for device in profile.devices:
            modes = [None] * device.pages if self.is_told else list(device.modes)
            self.pages[device.address] = None if is_late else 0
            self.modes[device.address] = modes

    def mode(self, address):
        """The VOUT_MODE of what is selected, "unknown", or "page" where there is none."""
        page, modes = self.pages[address], self.modes[address]
        told = {mode for mode in modes if mode is not None}
        if page is None:
            return modes[0] if len(told) == 1 and None not in modes else UNKNOWN
        if page == ALL_PAGES:
            if len(told) > 1:
                return "page"
            return UNKNOWN if None in modes else modes[0]
        if page >= len(modes):
            return "page"
        return UNKNOWN if modes[page] is None else modes[page]

    def observe(self, transaction):
        if isinstance(transaction, (Write, Refused)):
            for device in self.profile.devices:
                self.take_parts(device, transaction.parts)
        if isinstance(transaction, Read):
            self.tell(transaction.address, transaction.code, transaction.reply)

    def drop_line(self):
        """A line was dropped, and may have set PAGE, PHASE and VOUT_MODE of each device."""
        for address in self.pages:
            self.forget(address)

    def forget(self, address):
        """What was told of a device is not known any more. Where the capture is read from its begin, PAGE and
        VOUT_MODE go on, but for a PAGE that the device lacks."""
        page, count = self.pages[address], len(self.modes[address])
        self.phases[address] = None
        if self.is_late or not (page == ALL_PAGES or page is not None and page < count):
            self.pages[address] = None
        if self.is_told:
            self.modes[address] = [None] * count

    def take_parts(self, device, parts):
        """Complete parts of a packet. One that reaches the device at two of its addresses, which PMBus forbids,
        leaves nothing known."""
        elsewhere = [part for part in parts if part.address in device.also and has_write(device, part.code, part.data)]
        taken = [part for part in parts if part.address == device.address or part in elsewhere]
        if elsewhere and len(taken) > 1:
            self.forget(device.address)
            return
        for part in taken:
            self.take(device.address, part.code, part.data)

    def take(self, address, code, data):
        """A device takes what is written, at its own address or at another one."""
        self.tell(address, code, data)
        if self.is_told and untells(code, data):
            self.modes[address] = [None] * len(self.modes[address])

    def tell(self, address, code, data):
        if code == 0x00:
            self.pages[address] = data[0]
        if code == 0x04 and len(data) == 1:
            self.phases[address] = data[0]
        if code == 0x20:
            self.tell_mode(address, data[0])

    def tell_mode(self, address, mode):
        page, modes = self.pages[address], self.modes[address]
        entry = self.profile.device(address).entry(VOUT_MODE)
        if entry is None or not entry.paged or page == ALL_PAGES:
            modes[:] = [mode] * len(modes)
        elif page is None and len(modes) > 1:
            modes[:] = [one if one == mode else None for one in modes]
        elif page is None:
            modes[0] = mode
        elif page < len(modes):
            modes[page] = mode
