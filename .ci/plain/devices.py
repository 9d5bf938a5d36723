"""Simulated devices and the requests made of them, by docs/devices.md and docs/requests.md."""

from . import numbers
from .lines import Ask, Get, Set
from .notes import number_format
from .numbers import Fault
from .packets import SIZES, Call, Part, Read, Refused, Write, check_parts, check_pec, fits, has_write
from .profiles import ALL_PAGES, PROTECTIONS

BAD_COMMAND, BAD_VALUE = 0x80, 0x40


class SimulatedDevice:
    """A device's page and registers, which change at the STOP of a packet."""

    def __init__(self, device):
        self.device = device
        self.page = 0
        self.changed = {}

    def register(self, page, entry):
        """What a register holds."""
        if (page, entry.code) in self.changed:
            return self.changed[page, entry.code]
        return first_value(self.device, page, entry)

    def pages_of(self, entry):
        """The pages whose registers of a command are meant: the selected one or all of them. A
        register that is not paged stands under page 0."""
        if not entry.paged:
            return [0]
        return range(self.device.pages) if self.page == ALL_PAGES else [self.page]

    def is_page(self, value):
        return value < self.device.pages or value == ALL_PAGES

    def answer(self, code, sent):
        """The reply to a read or a call, or the bit that is noted where it is refused. Of a read
        `sent` is None."""
        entry = self.device.entry(code)
        if entry.form_held() and entry.paged and self.page == ALL_PAGES:
            return None, BAD_VALUE
        if sent is None:
            return self.register(self.pages_of(entry)[0], entry), None
        if code != 0x30:
            return None, BAD_COMMAND
        asked = self.device.entry(sent[0]) if len(sent) == 2 else None
        coefficients = None
        if asked and asked.kind == "direct":
            coefficients = asked.coefficients
        if asked and asked.kind in ("vout", "vout_signed"):
            coefficients = self.device.vout_direct
        if coefficients is None:
            return None, BAD_VALUE
        _, m, b, r = coefficients
        return (m & 255, m >> 8 & 255, b & 255, b >> 8 & 255, r & 255), None

    def is_enabled(self, code, data):
        """Whether a device that keeps to WRITE_PROTECT lets a write act."""
        if code == 0x10:
            return data[0] in PROTECTIONS
        enabled = PROTECTIONS[self.register(0, self.device.entry(0x10))[0]]
        return enabled is None or code in enabled

    def write(self, code, data):
        """A part of a write takes effect, or is disabled."""
        if self.device.protect and not self.is_enabled(code, data):
            self.note(BAD_VALUE)
            return
        entry = self.device.entry(code)
        if code == 0x00:
            self.page = data[0]
        if code == 0x03:
            for other in self.device.entries.values():
                if other.kind == "status" and other.form_held():
                    for page in self.pages_of(other):
                        old = self.register(page, other)
                        self.changed[page, other.code] = (0,) * len(old)
        if entry.write == "zero":
            return
        for page in self.pages_of(entry):
            value = tuple(data)
            if entry.kind == "status":
                old = self.register(page, entry)
                value = tuple(byte & ~cleared for byte, cleared in zip(old, data))
            self.changed[page, code] = value

    def take(self, code, data):
        """What came to another address acts if it is a write of the device's own commands."""
        if has_write(self.device, code, data):
            self.write(code, data)

    def note(self, bit):
        """A refusal sets a bit of STATUS_CML, if that can be read."""
        entry = self.device.entry(0x7E)
        if entry and entry.read:
            for page in self.pages_of(entry):
                self.changed[page, 0x7E] = (self.register(page, entry)[0] | bit,)


def first_value(device, page, entry):
    """What the register of a page begins with."""
    if entry.code == 0x20:
        return (device.modes[page],)
    if entry.initial is not None:
        return tuple(entry.initial_on(page))
    form = entry.form_held()
    return () if form == "block" else (0,) * SIZES[form]


class Bench:
    """A bus of simulated devices, and a host that makes requests."""

    def __init__(self, profile, context):
        self.profile = profile
        self.context = context
        self.devices = {one.address: SimulatedDevice(one) for one in profile.devices}

    def make(self, request):
        """The transaction that a request comes to, and its result."""
        if isinstance(request, Write):
            fault = check_parts(self.profile, request.parts)
            if fault:
                raise Fault(fault)
            return self.make_write(request.parts)
        device = self.profile.device(request.address)
        if device is None:
            raise Fault("UnknownDevice")
        entry = device.entry(request.code)
        if entry is None:
            raise Fault("UnknownCommand")
        if isinstance(request, Set):
            return self.make_write([self.part_of(device, entry, request)])
        form = entry.read
        if isinstance(request, Ask) and request.data is not None:
            form = entry.call
        if form is None:
            raise Fault("NotAllowed")
        if isinstance(request, Ask):
            if request.data is not None and not fits(form, request.data):
                raise Fault("WrongLength")
            fault = check_pec(device, request.pec)
            if fault:
                raise Fault(fault)
            return self.make_read(request, entry, request.data, bytes_result)
        form = self.format_asked(device, entry, request)

        def value_result(reply):
            code = reply[0] + 256 * reply[1]
            has_value = numbers.has_value(form, code)
            return numbers.text(numbers.decode(form, code)) if has_value else "raw"

        return self.make_read(request, entry, None, value_result)

    def format_asked(self, device, entry, request):
        """The number format of a set or a get."""
        if not entry.is_number():
            raise Fault("NotAQuantity")
        fault = check_pec(device, request.pec)
        if fault:
            raise Fault(fault)
        return number_format(device, entry, self.context.mode(device.address))

    def part_of(self, device, entry, request):
        """The write that a set is."""
        if entry.write in (None, "zero"):
            raise Fault("NotAllowed")
        form = self.format_asked(device, entry, request)
        code = numbers.encode(form, request.value)
        return Part(device.address, entry.code, (code & 255, code >> 8), request.pec)

    def make_write(self, parts):
        """A write, up to the first value of PAGE that a device refuses."""
        for i, part in enumerate(parts):
            device = self.devices[part.address]
            if part.code == 0x00 and not device.is_page(part.data[0]):
                before = tuple(parts[:i])
                self.act(before)
                device.note(BAD_VALUE)
                self.act_elsewhere(before)
                sent = (part.code, part.data[0])
                result = "refused: leg %d byte 2" % (i + 1)
                return Refused(before, part.address, sent, False), result
        self.act(parts)
        self.act_elsewhere(parts)
        return Write(tuple(parts)), "done"

    def act(self, parts):
        """Each part acts on the device that has its address."""
        for part in parts:
            self.devices[part.address].write(part.code, part.data)

    def act_elsewhere(self, parts):
        """Then each device takes those at its other addresses, in the order of the addresses."""
        at = {part.address: part for part in parts}
        for address, device in self.devices.items():
            for other in device.device.also:
                if other != address and other in at:
                    device.take(at[other].code, at[other].data)

    def make_read(self, request, entry, sent, result_of):
        """A read, or a call that sends some bytes."""
        device = self.devices[request.address]
        reply, bit = device.answer(entry.code, sent)
        if bit is None:
            result = result_of(reply)
            if sent is None:
                return Read(request.address, entry.code, reply, request.pec), result
            return Call(request.address, entry.code, sent, reply, request.pec), result
        device.note(bit)
        body = (entry.code,)
        if sent is not None:
            body += (len(sent), *sent) if entry.call == "block" else sent
        return Refused((), request.address, body, True), "refused: read address"


def bytes_result(reply):
    return " ".join("%02x" % byte for byte in reply) or "empty"
