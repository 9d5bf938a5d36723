"""Lines of words: transaction lines, by docs/text.md, and requests, by docs/requests.md."""

import re
from typing import NamedTuple

from . import numbers
from .numbers import Fault
from .packets import Alert, Call, NoAlert, Part, Read, Refused, Write

LONGEST_LINE = 32768


class Set(NamedTuple):
    address: int
    code: int
    value: object
    pec: bool


class Get(NamedTuple):
    address: int
    code: int
    pec: bool


class Ask(NamedTuple):
    """A read or a call that is asked for; of a read `data` is None."""
    address: int
    code: int
    data: object
    pec: bool


# Writing

def line_of(transaction):
    """The line of a transaction."""
    words = []
    if isinstance(transaction, Write):
        for part in transaction.parts:
            words += ["+"] + part_words(part)
        words[0] = "write"
    elif isinstance(transaction, Refused):
        words = ["refused"]
        for part in transaction.parts:
            words += part_words(part) + ["+"]
        words += digits([transaction.address, *transaction.sent])
        words += ["read"] if transaction.at_read else []
    elif isinstance(transaction, Alert):
        words = ["alert"] + digits([transaction.byte]) + pec_word(transaction.pec)
    elif isinstance(transaction, NoAlert):
        words = ["alert", "none"]
    else:
        words = ["read"] + digits([transaction.address, transaction.code])
        if isinstance(transaction, Call):
            words = ["call"] + words[1:] + digits(transaction.data)
        words += [":"] + digits(transaction.reply) + pec_word(transaction.pec)
    return " ".join(words)


def part_words(part):
    return digits([part.address, part.code, *part.data]) + pec_word(part.pec)


def digits(some_bytes):
    return ["%02x" % byte for byte in some_bytes]


def pec_word(with_pec):
    return ["pec"] if with_pec else []


# Reading

class Words:
    """The words of a line from left to right, each with its place."""

    def __init__(self, line):
        if line.endswith(b"\r"):
            line = line[:-1]
        self.length = len(line)
        self.words = list(re.finditer(rb"[^ \t]+", line.split(b"#")[0]))

    def next(self):
        """The next word, which is not used; empty after the last one."""
        return self.words[0][0] if self.words else b""

    def take(self):
        return self.words.pop(0)[0]

    def refuse(self, name="BadWord"):
        """The fault of the next word, or of the line's end where words are missing."""
        at = self.words[0].start() if self.words else self.length
        raise Fault("%s at %d" % (name, at))

    def take_if(self, word):
        if self.next() != word:
            return False
        self.take()
        return True

    def need(self, word):
        if not self.take_if(word):
            self.refuse()

    def is_byte(self):
        return re.fullmatch(rb"[0-9a-fA-F]{2}", self.next()) is not None

    def byte(self):
        if not self.is_byte():
            self.refuse()
        return int(self.take(), 16)

    def bytes(self, room):
        """As many bytes as there are."""
        some_bytes = []
        while self.is_byte():
            if len(some_bytes) == room:
                self.refuse("TooLong")
            some_bytes.append(self.byte())
        return tuple(some_bytes)

    def end(self):
        if self.words:
            self.refuse()


def parse_write(words):
    parts = []
    while not parts or words.take_if(b"+"):
        if words.is_byte() and len(parts) == 16:
            words.refuse("TooLong")
        part = Part(words.byte(), words.byte(), words.bytes(255), words.take_if(b"pec"))
        parts.append(part)
    return Write(tuple(parts))


def parse_reply(words):
    """What stands after the bytes of a read or a call."""
    words.need(b":")
    return words.bytes(255), words.take_if(b"pec")


def parse_refused(words):
    parts = []
    while True:
        address = words.byte()
        sent = words.bytes(258)
        if words.next() not in (b"pec", b"+"):
            return Refused(tuple(parts), address, sent, words.take_if(b"read"))
        # A part, then, which has a code.
        if not sent:
            words.refuse()
        if len(parts) == 15 or len(sent) > 256:
            words.refuse("TooLong")
        parts.append(Part(address, sent[0], sent[1:], words.take_if(b"pec")))
        words.need(b"+")


def parse_alert(words):
    if words.take_if(b"none"):
        return NoAlert()
    return Alert(words.byte(), words.take_if(b"pec"))


def parse_transaction(line):
    """The transaction that a line spells; None for a line without words."""
    words = Words(line)
    if not words.words:
        return None
    if words.take_if(b"write"):
        transaction = parse_write(words)
    elif words.take_if(b"read"):
        transaction = Read(words.byte(), words.byte(), *parse_reply(words))
    elif words.take_if(b"call"):
        transaction = Call(
            words.byte(), words.byte(), words.bytes(255), *parse_reply(words)
        )
    elif words.take_if(b"refused"):
        transaction = parse_refused(words)
    elif words.take_if(b"alert"):
        transaction = parse_alert(words)
    else:
        words.refuse()
    words.end()
    return transaction


def parse_request(line):
    """The request that a line spells; None for a line without words."""
    words = Words(line)
    quantity = None
    if not words.words:
        return None
    if words.take_if(b"write"):
        request = parse_write(words)
    elif words.take_if(b"read"):
        request = Ask(words.byte(), words.byte(), None, words.take_if(b"pec"))
    elif words.take_if(b"call"):
        request = Ask(
            words.byte(), words.byte(), words.bytes(255), words.take_if(b"pec")
        )
    elif words.take_if(b"get"):
        request = Get(words.byte(), words.byte(), words.take_if(b"pec"))
    elif words.take_if(b"set"):
        address, code = words.byte(), words.byte()
        if not words.words:
            words.refuse()
        quantity = words.take()
        request = Set(address, code, quantity, words.take_if(b"pec"))
    else:
        words.refuse()
    words.end()
    if quantity is not None:
        # All words come before the quantity is looked at.
        request = request._replace(value=numbers.parse(quantity))
    return request


def numbered_lines(text):
    """The lines of a text, with their numbers from 1. What follows the last LF is a line where
    there is something."""
    lines = text.split(b"\n")
    if lines[-1] == b"":
        lines.pop()
    return list(enumerate(lines, 1))


def parsed(parse, line):
    """What a line spells, where it isn't too long."""
    if len(line) > LONGEST_LINE:
        raise Fault("TooLong at %d" % LONGEST_LINE)
    return parse(line)
