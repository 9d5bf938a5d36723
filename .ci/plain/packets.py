"""Packets and transactions, by docs/packets.md: which events say what, and what has no packet.

An event is "S", "P", "A", "N" or a byte, a number from 0 to 255.
"""

from typing import NamedTuple

START, STOP, ACK, NACK = "S", "P", "A", "N"
ALERT = 0x19  # the Alert Response Address, read


class Part(NamedTuple):
    address: int
    code: int
    data: tuple
    pec: bool


class Write(NamedTuple):
    parts: tuple


class Read(NamedTuple):
    address: int
    code: int
    reply: tuple
    pec: bool


class Call(NamedTuple):
    address: int
    code: int
    data: tuple
    reply: tuple
    pec: bool


class Refused(NamedTuple):
    parts: tuple
    address: int
    sent: tuple
    at_read: bool


class Alert(NamedTuple):
    byte: int
    pec: bool


class NoAlert(NamedTuple):
    pass


# Bytes

def pec(covered):
    """The packet error code: the remainder of a long division by x^8 + x^2 + x + 1."""
    number = 0
    for byte in covered:
        number = number * 256 + byte
    number *= 256
    for place in range(number.bit_length() - 1, 7, -1):
        if number >> place & 1:
            number ^= 0b100000111 << (place - 8)
    return number


SIZES = {"zero": 0, "one": 1, "two": 2, "four": 4, "eight": 8}


def wire(form, data):
    """The data in a form as they go over the bus."""
    return ((len(data),) if form == "block" else ()) + tuple(data)


def fits(form, data):
    """Whether so many data have the form."""
    return len(data) <= 255 if form == "block" else len(data) == SIZES[form]


def has_write(device, code, data):
    """Whether a device has such a write: the command, in a form that takes these data, and of PAGE a value
    that is one of its own."""
    entry = device.entry(code)
    if entry is None or entry.write is None or not fits(entry.write, data):
        return False
    return code != 0x00 or data[0] < device.pages or data[0] == 0xFF


def missing(form, sent):
    """How many bytes are missing, at least, after those of a wire; below 0 if it was over."""
    if form != "block":
        return SIZES[form] - len(sent)
    return 1 + sent[0] - len(sent) if sent else 1


def unwired(form, sent):
    """The data of a whole wire."""
    return tuple(sent[1:] if form == "block" else sent)


# Bodies: the bytes after the address of a leg that is written

def write_body(device, body):
    """The data and whether there is a packet error code, if the bytes are a write body."""
    entry = device.entry(body[0]) if body else None
    if entry is None or entry.write is None:
        return None
    if missing(entry.write, body[1:]) == 0 and device.pec != "on":
        return unwired(entry.write, body[1:]), False
    if missing(entry.write, body[1:-1]) == 0 and len(body) > 1 and device.pec != "off":
        if body[-1] == pec([2 * device.address] + body[:-1]):
            return unwired(entry.write, body[1:-1]), True
    return None


def read_form(device, body):
    """The form of the reply, if the bytes are the body of a read or of a call."""
    entry = device.entry(body[0]) if body else None
    if entry is None:
        return None
    if len(body) == 1:
        return entry.read
    if entry.call is not None and missing(entry.call, body[1:]) == 0:
        return entry.call
    return None


def may_follow(device, body, is_first_leg):
    """The bytes that some body which is allowed in the leg can have here."""
    if not body:
        return {
            entry.code
            for entry in device.entries.values()
            if entry.write is not None or is_first_leg
        }
    entry = device.entry(body[0])
    following = set()
    if entry is None:
        return following
    if entry.write is not None:
        rest = missing(entry.write, body[1:])
        if rest > 0:
            following |= set(range(256))
        if rest == 0 and device.pec != "off":
            following.add(pec([2 * device.address] + body))
    if entry.call is not None and is_first_leg and missing(entry.call, body[1:]) > 0:
        following |= set(range(256))
    return following


# Transactions

def check_part(profile, part, before):
    """The first rule that a part of a write breaks."""
    device = profile.device(part.address)
    if device is None:
        return "UnknownDevice"
    if part.address in before:
        return "AddressTwice"
    entry = device.entry(part.code)
    if entry is None:
        return "UnknownCommand"
    if entry.write is None:
        return "NotAllowed"
    if not fits(entry.write, part.data):
        return "WrongLength"
    return check_pec(device, part.pec)


def check_pec(device, with_pec):
    if device.pec == ("off" if with_pec else "on"):
        return "PecMode"
    return None


def check_parts(profile, parts):
    for i, part in enumerate(parts):
        fault = check_part(profile, part, [other.address for other in parts[:i]])
        if fault:
            return fault
    return None


def check_reply(profile, transaction, form_of, lists):
    """The same of a read or a call, whose lists are in one form."""
    device = profile.device(transaction.address)
    if device is None:
        return "UnknownDevice"
    entry = device.entry(transaction.code)
    if entry is None:
        return "UnknownCommand"
    form = form_of(entry)
    if form is None:
        return "NotAllowed"
    if not all(fits(form, one) for one in lists):
        return "WrongLength"
    return check_pec(device, transaction.pec)


def check_refused(profile, refused):
    fault = check_parts(profile, refused.parts)
    if fault:
        return fault
    if refused.address > 0x7F:
        return "UnknownDevice"
    if refused.address in [part.address for part in refused.parts]:
        return "AddressTwice"
    if not refused.sent and not refused.at_read:
        return None
    device = profile.device(refused.address)
    if device is None:
        return "UnknownDevice"
    if refused.at_read and refused.parts:
        return "NotAllowed"
    if refused.at_read and not refused.sent:
        return "WrongLength"
    if len(refused.sent) == 1 and not refused.at_read:
        return None
    entry = device.entry(refused.sent[0])
    if entry is None:
        return "UnknownCommand"
    sent = list(refused.sent)
    if refused.at_read:
        if entry.read is None and entry.call is None:
            return "NotAllowed"
        return "WrongLength" if read_form(device, sent) is None else None
    is_first_leg = not refused.parts
    if entry.write is None and not is_first_leg:
        return "NotAllowed"
    return None if may_follow(device, sent[:-1], is_first_leg) else "WrongLength"


def check(profile, transaction):
    """The first rule that a transaction breaks, or None where it has a packet."""
    if isinstance(transaction, Write):
        return check_parts(profile, transaction.parts) if transaction.parts else "NoParts"
    if isinstance(transaction, Read):
        return check_reply(
            profile, transaction, lambda entry: entry.read, [transaction.reply]
        )
    if isinstance(transaction, Call):
        lists = [transaction.data, transaction.reply]
        return check_reply(profile, transaction, lambda entry: entry.call, lists)
    if isinstance(transaction, Refused):
        return check_refused(profile, transaction)
    return None


def leg(sent):
    """START, and each byte with its ACK."""
    events = [START]
    for byte in sent:
        events += [byte, ACK]
    return events


def refused_leg(sent):
    """The same with NACK after the last byte, and STOP."""
    return leg(sent)[:-1] + [NACK, STOP]


def part_bytes(profile, part):
    """The bytes of a part's leg."""
    entry = profile.device(part.address).entry(part.code)
    sent = [2 * part.address, part.code, *wire(entry.write, part.data)]
    return sent + [pec(sent)] if part.pec else sent


def events_of(profile, transaction):
    """The packet of a transaction that has one."""
    if isinstance(transaction, Write):
        legs = [leg(part_bytes(profile, part)) for part in transaction.parts]
        return sum(legs, []) + [STOP]
    if isinstance(transaction, Alert):
        sent = [ALERT, transaction.byte]
        return refused_leg(sent + [pec(sent)] if transaction.pec else sent)
    if isinstance(transaction, NoAlert):
        return refused_leg([ALERT])
    address = transaction.address
    if isinstance(transaction, Refused):
        before = sum([leg(part_bytes(profile, part)) for part in transaction.parts], [])
        sent = [2 * address, *transaction.sent]
        if transaction.at_read:
            return leg(sent) + refused_leg([2 * address + 1])
        return before + refused_leg(sent)
    entry = profile.device(address).entry(transaction.code)
    asked = [2 * address, transaction.code]
    form = entry.read
    if isinstance(transaction, Call):
        form = entry.call
        asked += wire(form, transaction.data)
    reply = [2 * address + 1, *wire(form, transaction.reply)]
    if transaction.pec:
        reply.append(pec(asked + reply))
    return leg(asked) + refused_leg(reply)


def events_text(events):
    """The canonical text of events."""
    words = [word if isinstance(word, str) else "%02x" % word for word in events]
    return "".join(word + ("\n" if word == STOP else " ") for word in words)
