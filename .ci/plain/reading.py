"""How a capture is read, by docs/packets.md and docs/errors.md: its packets and refusals, in order."""

import re
from typing import NamedTuple

from .packets import (
    ACK, ALERT, NACK, START, STOP,
    Alert, Call, NoAlert, Part, Read, Refused, Write,
    may_follow, missing, pec, read_form, unwired, write_body,
)

BYTES = set(range(256))
KINDS = ((START, "Start"), (None, "Byte"), (ACK, "Ack"), (NACK, "Nack"), (STOP, "Stop"))


def is_byte(event):
    return isinstance(event, int)


def part_of(profile, one_leg):
    """The part that a whole leg is, or None."""
    device = profile.device(one_leg[0] // 2)
    written = device and one_leg[0] % 2 == 0 and write_body(device, one_leg[1:])
    if not written:
        return None
    return Part(device.address, one_leg[1], *written)


def reply_form(profile, legs):
    """The form in which the first leg, if it stands alone, asks for a reply."""
    device = profile.device(legs[0][0] // 2)
    if len(legs) != 1 or device is None or legs[0][0] % 2 == 1:
        return None
    return read_form(device, legs[0][1:])


def may_come(profile, legs, last):
    """The events that some packet can have next. `legs` has the bytes from each START, and `last`
    is the last event; each byte before has its ACK."""
    if last is None:
        return {START}
    if last == NACK:
        return {STOP}
    one_leg = legs[-1]
    if not one_leg:
        return address_may_come(profile, legs[:-1])
    if one_leg[0] == ALERT:
        return alert_may_go_on(one_leg, last)
    if one_leg[0] % 2 == 1:
        return reply_may_go_on(profile, legs, last)
    return written_may_go_on(profile, legs, last)


def address_may_come(profile, before):
    """The first byte of a leg."""
    if not before:
        return {2 * address for address in range(128)} | {ALERT}
    addresses = set()
    parts = [part_of(profile, one_leg) for one_leg in before]
    if all(parts) and len(parts) <= 15:
        addresses |= {2 * address for address in range(128)}
        addresses -= {2 * part.address for part in parts}
    if reply_form(profile, before):
        addresses.add(before[0][0] + 1)
    return addresses


def alert_may_go_on(one_leg, last):
    """Behind START 19: the byte of a device, and perhaps its packet error code."""
    if is_byte(last):
        return {ACK, NACK} if len(one_leg) <= 2 else {NACK}
    return BYTES if len(one_leg) == 1 else {pec(one_leg)}


def reply_may_go_on(profile, legs, last):
    """Behind an address for reading."""
    device = profile.device(legs[0][0] // 2)
    form = reply_form(profile, legs[:1])
    reply = legs[1][1:]
    rest = missing(form, reply)
    if last == ACK:
        return BYTES if rest > 0 else {pec(legs[0] + legs[1])}
    if not reply:
        return {ACK, NACK}
    if rest > 0:
        return {ACK}
    if rest < 0:
        return {NACK}
    return {"off": {NACK}, "on": {ACK}, "optional": {ACK, NACK}}[device.pec]


def written_may_go_on(profile, legs, last):
    """Behind an address for writing."""
    one_leg = legs[-1]
    body = one_leg[1:]
    is_first_leg = len(legs) == 1
    device = profile.device(one_leg[0] // 2)
    if is_byte(last):
        # Any byte may be refused; it is taken where a body goes on with it.
        is_taken = device and (
            not body or body[-1] in may_follow(device, body[:-1], is_first_leg)
        )
        return {ACK, NACK} if is_taken else {NACK}
    events = set()
    if not body or may_follow(device, body, is_first_leg):
        events |= BYTES
    if write_body(device, body):
        events.add(STOP)
        if len(legs) <= 15:
            events.add(START)
    if reply_form(profile, legs):
        events.add(START)
    return events


def transaction_of(profile, legs, last):
    """What a whole packet says; `last` is the event before its STOP."""
    first = legs[0]
    if first[0] == ALERT:
        return Alert(first[1], len(first) == 3) if len(first) > 1 else NoAlert()
    parts = [part_of(profile, one_leg) for one_leg in legs]
    if last == ACK:
        return Write(tuple(parts))
    if legs[-1][0] % 2 == 0:
        return Refused(tuple(parts[:-1]), legs[-1][0] // 2, tuple(legs[-1][1:]), False)
    address = first[0] // 2
    if len(legs[1]) == 1:
        return Refused((), address, tuple(first[1:]), True)
    form = reply_form(profile, legs[:1])
    reply = legs[1][1:]
    with_pec = missing(form, reply) < 0
    reply = unwired(form, reply[:-1] if with_pec else reply)
    if len(first) == 2:
        return Read(address, first[1], reply, with_pec)
    return Call(address, first[1], unwired(form, first[2:]), reply, with_pec)


def reason_of(legs, last, event, allowed):
    """Why no packet can have an event at its place."""
    if is_byte(event) and any(is_byte(other) for other in allowed):
        if legs[-1]:
            return "BadPec"
        return "ReadFirst" if len(legs) == 1 else "BadRestart"
    if is_byte(last) and event == ACK and allowed == {NACK}:
        if legs[-1][0] % 2 == 1:
            return "TooLong"
        return {1: "UnknownDevice", 2: "UnknownCommand"}.get(len(legs[-1]), "BadPec")
    if is_byte(last) and event == NACK and allowed == {ACK} and legs[-1][0] % 2 == 1:
        return "TooShort"
    return "WrongEvent"


def kind_names(allowed):
    """The kinds of events, by their names, in one order."""
    kinds = {None if is_byte(event) else event for event in allowed}
    return [name for kind, name in KINDS if kind in kinds]


class Packet(NamedTuple):
    """A packet, before which so many events came. `starts` are the numbers of its STARTs."""
    at: int
    starts: tuple
    transaction: object


class Refusal(NamedTuple):
    """An event, or the end, that no packet can have there, after legs of an unfinished packet."""
    at: int
    reason: str
    expected: list
    got: object
    legs: list

    def loses(self, profile, passed):
        """Whether devices may have been told what nobody knows: some leg is a write to a device, in the
        packet or in what is passed over, the refused event first. Where a reply is read, the leg before
        it only says what is to be read."""
        is_reply = bool(self.legs and self.legs[-1]) and self.legs[-1][0] % 2 == 1
        legs = legs_with([] if is_reply else self.legs, passed)
        return any(leg and leg[0] % 2 == 0 and profile.device(leg[0] // 2) for leg in legs)


def legs_with(legs, events):
    """The bytes from each START, with more events. Bytes before the first START are in none."""
    legs = [list(one_leg) for one_leg in legs]
    for event in events:
        if event == START:
            legs.append([])
        elif is_byte(event) and legs:
            legs[-1].append(event)
    return legs


def outcomes(profile, events, ends, first=0):
    """The packets and the refusals, in order; so many events came before. Where the events end with
    the capture, an end inside a packet is a refusal."""
    legs, starts, last, is_passing = [], (), None, False
    for at, event in enumerate(events, first):
        if is_passing:
            is_passing = event != STOP
            continue
        allowed = may_come(profile, legs, last)
        if event not in allowed:
            reason = reason_of(legs, last, event, allowed)
            yield Refusal(at, reason, kind_names(allowed), event, legs)
            legs, starts, last, is_passing = [], (), None, event != STOP
        elif event == STOP:
            yield Packet(starts[0], starts, transaction_of(profile, legs, last))
            legs, starts, last = [], (), None
        else:
            if event == START:
                legs = legs + [[]]
                starts += (at,)
            if is_byte(event):
                legs = legs[:-1] + [legs[-1] + [event]]
            last = event
    if ends and last is not None:
        expected = kind_names(may_come(profile, legs, last))
        yield Refusal(first + len(events), "Truncated", expected, None, legs)


def reading(profile, events, ends):
    """The packets' transactions and the refusals' lines, in order."""
    for outcome in outcomes(profile, events, ends):
        if isinstance(outcome, Packet):
            yield outcome.transaction
        else:
            expected = " or ".join(outcome.expected)
            yield "# refusal at %d: %s, expected %s" % (outcome.at, outcome.reason, expected)


def words(text):
    """The words of a capture (docs/text.md), each with the place of its first byte."""
    # A comment is made blank, so that places stay.
    text = re.sub(rb"#[^\n]*", lambda comment: b" " * len(comment[0]), text)
    return [(word[0], word.start()) for word in re.finditer(rb"[^ \t\r\n]+", text)]


def event_of(word):
    """The event that a word is the token of, or None."""
    if word in (b"S", b"P", b"A", b"N"):
        return word.decode()
    return int(word, 16) if re.fullmatch(rb"[0-9a-fA-F]{2}", word) else None


def spelled(text):
    """The events of a capture's words, up to the first word that is none, and the place of that word
    or None."""
    events = []
    for word, at in words(text):
        event = event_of(word)
        if event is None:
            return events, at
        events.append(event)
    return events, None
