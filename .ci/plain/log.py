"""What `pmb log` writes of a capture, by docs/log.md: a line for each packet, part, refusal and bad
token."""

from . import meaning, numbers, objects, packets, reading, voltages
from .known import UNKNOWN, Known
from .packets import ACK, ALERT, START, STOP, Alert, NoAlert, Refused, Write
from .profiles import ALL_PAGES

# Why a VOUT_MODE gives no number, and what words without a value are called.
MODES = {"relative": "relative", "vid": "VID", "coefficients": "DIRECT, no coefficients"}
WORDLESS = {"NotANumber": "not a number", "NoCode": "no VID code", "Off": "off"}
EVENTS = {"S": "START", "P": "STOP", "A": "ACK", "N": "NACK"}
KINDS = {"Start": "START", "Byte": "a byte", "Ack": "ACK", "Nack": "NACK", "Stop": "STOP"}

OFF_HINT = ' (a right error code: pec is "off" in the profile)'
LONG_HINT = ' (an error code? pec is "off" in the profile)'
MISSING_HINT = ' (the error code is missing: pec is "on" in the profile)'
FIRST_HINT = " (Receive Byte, or a capture that begins inside a packet)"


# Texts

def digits(some_bytes):
    return " ".join("%02x" % byte for byte in some_bytes) or "no bytes"


def after(some_bytes):
    """What came before, where something did."""
    return " after " + digits(some_bytes) if some_bytes else ""


def part_of(number, count):
    return " (part %d of %d)" % (number, count) if count > 1 else ""


def event_text(event):
    return "%02x" % event if reading.is_byte(event) else EVENTS[event]


class Layout:
    """How wide the columns are that the profile fixes."""

    def __init__(self, profile):
        names = [len(device.name or "") for device in profile.devices]
        commands = [len(e.name) for device in profile.devices for e in device.entries.values()]
        pages = max((device.pages for device in profile.devices), default=0)
        self.name = max(names, default=0)
        self.page = 0 if pages < 2 else len(str(pages - 1))
        self.command = max(commands, default=0)


# Lines

class Lines:
    """The lines of a capture."""

    def __init__(self, profile, choice):
        self.profile = profile
        self.choice = choice
        self.layout = Layout(profile)
        self.known = Known(profile, choice.late, choice.fixed)
        self.told = Known(profile, is_late=True)
        self.bad = 0  # refusals and words that are no token
        self.lines = []

    def put(self, place, address, command, says):
        """A line that names an address, or None, and a command (an address and a code), or None."""
        wanted = self.choice.devices
        if address is not None and wanted and address not in wanted:
            return
        device = self.profile.device(address)
        columns = [dict(place).get("time", "").strip('"').rjust(10),
                   "  " if address is None else "%02x" % address]
        if self.layout.name:
            columns.append(((device.name if device else None) or "").ljust(self.layout.name))
        if self.layout.page:
            columns.append(self.page(command).rjust(self.layout.page))
        columns.append(self.command_name(command).ljust(self.layout.command))
        self.lines.append("  ".join(columns + [says]) + "\n")

    # columns

    def entry(self, command):
        device = self.profile.device(command[0]) if command else None
        return device and device.entry(command[1])

    def page(self, command):
        """The selected page of a paged command, where its device has more than one."""
        entry = self.entry(command)
        if not entry or not entry.paged or self.profile.device(command[0]).pages < 2:
            return ""
        page = self.known.pages[command[0]]
        return {None: "?", ALL_PAGES: "*"}.get(page, str(page))

    def command_name(self, command):
        if command is None:
            return ""
        entry = self.entry(command)
        return entry.name if entry else "%02x" % command[1]

    # data

    def data(self, told, data, form):
        """What data of a part or of a read say, which go in a form."""
        device = self.profile.device(told.address)
        entry = device.entry(told.code)
        if entry.has_text(form):
            return objects.text_of(data) or digits(data)
        if not data:
            return digits(data)
        if entry.kind == "status":
            return " ".join(objects.bit_names(device, told.code, data)) or "no bits"
        if entry.is_voltage():
            return self.voltage(device, entry, data)
        if entry.is_number():
            return self.number(voltages.Way(entry.number_format(), False), entry, data, "")
        return digits(data) + self.fields(told)

    def fields(self, told):
        """What the fields of the data of a part, a read or a call say, where they have some."""
        found = meaning.fields(self.profile.device(told.address), told.code, told)
        return " (%s)" % meaning.as_words(found) if found else ""

    def phase(self, told):
        """The selected phase, where the command has a value for each."""
        device = self.profile.device(told.address)
        if not device.has_phases(device.entry(told.code)):
            return ""
        phase = self.known.phases[told.address]
        words = {None: "phase unknown", ALL_PAGES: "all phases"}
        return " (%s)" % words.get(phase, "phase %s" % phase)

    def number(self, way, entry, data, mark):
        """A number with its unit and a mark, or a factor; or the bytes, and why they have no value."""
        try:
            value = numbers.decode(way.form, objects.word_of(data))
        except numbers.Fault as fault:
            return digits(data) + " (%s)" % WORDLESS[str(fault)]
        unit = "" if entry.unit is None else " " + entry.unit
        says = " of VOUT_COMMAND" if way.is_ratio else unit
        return objects.rounded(value, self.choice.digits) + says + mark

    def voltage(self, device, entry, data):
        """An output voltage, by the VOUT_MODE of the selected page; or its bytes, and why."""
        mode = self.known.mode(device.address)
        try:
            way = voltages.way_of(self.known, device, entry)
        except numbers.Fault as fault:
            return digits(data) + " (%s)" % self.reason(device, str(fault), mode)
        is_assumed = voltages.is_unknown(self.told, device, entry)
        mark = " (VOUT_MODE %02x assumed)" % mode if is_assumed else ""
        return self.number(way, entry, data, mark)

    def reason(self, device, fault, mode):
        """Why a voltage can't be read."""
        if fault == UNKNOWN:
            return "VOUT_MODE unknown" if mode == UNKNOWN else "PAGE unknown"
        if fault == "page":
            is_all = self.known.pages[device.address] == ALL_PAGES
            return "pages differ" if is_all else "no such page"
        return "VOUT_MODE %02x %s" % (mode, MODES[fault])

    # packets

    def packet(self, starts, transaction, where):
        if isinstance(transaction, (Write, Refused)):
            count = len(transaction.parts) + isinstance(transaction, Refused)
            for i, part in enumerate(transaction.parts):
                says = self.written(part) + part_of(i + 1, count)
                self.put(where(starts[i]), part.address, (part.address, part.code), says)
            if isinstance(transaction, Refused):
                self.refused(where(starts[len(transaction.parts)]), count, transaction)
        elif isinstance(transaction, Alert):
            self.put(where(starts[0]), transaction.byte // 2, None, "answered an alert")
        elif isinstance(transaction, NoAlert):
            self.put(where(starts[0]), None, None, "alert, and no device answered")
        else:
            command = transaction.address, transaction.code
            self.put(where(starts[0]), command[0], command, self.replied(transaction))
        self.known.observe(transaction)
        self.told.observe(transaction)

    def written(self, part):
        if not part.data:
            return "sent"
        entry = self.entry((part.address, part.code))
        verb = "clear " if entry.kind == "status" else "write "
        return verb + self.data(part, part.data, entry.write) + self.phase(part)

    def replied(self, transaction):
        if isinstance(transaction, packets.Call):
            both = "call %s, reply %s" % (digits(transaction.data), digits(transaction.reply))
            return both + self.fields(transaction)
        entry = self.entry((transaction.address, transaction.code))
        return self.data(transaction, transaction.reply, entry.read) + self.phase(transaction)

    def refused(self, place, count, refused):
        address, sent = refused.address, list(refused.sent)
        command = (address, sent[0]) if sent else None
        if refused.at_read:
            says = "refused at its read address"
        elif len(sent) < 2:
            says = "refused at its code" if sent else "refused at its address"
        else:
            says = self.refused_byte(address, sent)
        self.put(place, address, command, says + part_of(count, count))

    def refused_byte(self, address, sent):
        right = objects.due_code(self.profile.device(address), address, sent)
        if right is None:
            return "refused at byte %02x" % sent[-1] + after(sent[1:-1])
        verdict = ", which is right" if sent[-1] == right else ": %02x is right" % right
        return "refused at its error code %02x" % sent[-1] + verdict

    # refusals

    def refusal(self, refusal, place):
        legs = [leg for leg in refusal.legs if leg]
        written = [leg for leg in legs if leg[0] % 2 == 0]
        address = legs[-1][0] // 2 if legs and legs[-1][0] != ALERT else None
        command = None
        if written and len(written[-1]) > 1:
            command = written[-1][0] // 2, written[-1][1]
        self.bad += 1
        self.put(place, address, command, self.sentence(refusal, address, written))

    def sentence(self, refusal, address, written):
        """Why no packet can have the event there."""
        reason, got = refusal.reason, refusal.got
        last = refusal.legs[-1] if refusal.legs else []
        reply = last[1:] if last and last[0] % 2 == 1 else []
        device = self.profile.device(address)
        pec = device.pec if device else None
        if reason == "Truncated":
            return "the capture ends inside the packet"
        if reason == "ReadFirst":
            return "%02x reads without a command" % got + FIRST_HINT
        if reason == "BadRestart":
            return "%02x cannot come after a repeated START" % got
        if reason == "BadPec":
            return self.wrong_code(refusal.legs, got)
        if reason == "UnknownDevice":
            return "acknowledged, but the profile has no such device"
        if reason == "UnknownCommand":
            return self.unknown_command(written[-1])
        if reason == "TooLong":
            says = "read on after %s, which is all" % digits(reply)
            return says + (LONG_HINT if pec == "off" else "")
        if reason == "TooShort":
            says = "ended after %s: more bytes have to come" % digits(reply)
            return says + (MISSING_HINT if pec == "on" and self.has_all(written[-1], reply) else "")
        says = "%s came, but %s can come" % (
            event_text(got), " or ".join(KINDS[kind] for kind in refusal.expected))
        if self.is_code(refusal.legs, got):
            return says + OFF_HINT
        return says + (MISSING_HINT if got in (START, STOP) and self.lacks_code(last) else "")

    def wrong_code(self, legs, got):
        """A packet error code that is wrong: the byte itself in a reply, the byte before an ACK in
        what was sent."""
        last = legs[-1]
        if got == ACK:
            code, right = last[-1], packets.pec(last[:-1])
            before = after(last[2:-1]) + " was acknowledged"
        else:
            code, right, before = got, packets.pec(sum(legs, [])), after(last[1:])
        return "wrong error code %02x%s: %02x is right" % (code, before, right)

    def unknown_command(self, leg):
        has_it = self.entry((leg[0] // 2, leg[1]))
        why = "it cannot come here" if has_it else "the profile has no such command"
        return "code %02x acknowledged, but %s" % (leg[1], why)

    def has_all(self, leg, reply):
        """Whether a reply has all its data."""
        entry = self.entry((leg[0] // 2, leg[1]))
        return packets.missing(entry.read if len(leg) == 2 else entry.call, reply) == 0

    def is_code(self, legs, got):
        """Whether a byte is the right packet error code of the leg before it, which is written to a
        device that takes none."""
        if not legs or not legs[-1] or legs[-1][0] % 2 == 1 or not reading.is_byte(got):
            return False
        device = self.profile.device(legs[-1][0] // 2)
        return device is not None and device.pec == "off" and got == packets.pec(legs[-1])

    def lacks_code(self, leg):
        """Whether only the packet error code is missing after a leg that is written: it is whole, and
        no reply can follow it."""
        if not leg or leg[0] % 2 == 1:
            return False
        device, (_, *sent) = self.profile.device(leg[0] // 2), leg
        entry = device.entry(sent[0]) if device and sent else None
        if not entry or device.pec != "on" or entry.write is None:
            return False
        reply = entry.read if len(sent) == 1 else entry.call
        return packets.missing(entry.write, sent[1:]) == 0 and reply is None

    # what is neither

    def other(self, place, address):
        self.put(place, address, None, "not PMBus")

    def bad_token(self, place, word):
        self.bad += 1
        at = dict(place)
        spelled = objects.escaped(word[:32])[1:-1]
        self.put(place, None, None,
                 "no token: %s at line %s column %s" % (spelled, at["line"], at["column"]))


def log(profile, given, choice):
    """The lines, and how many refusals and bad words there are."""
    lines = Lines(profile, choice)
    objects.read_all(lines, profile, given, choice)
    return "".join(lines.lines), lines.bad
