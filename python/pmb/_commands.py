"""The commands of a device of a profile, as the library tells them: by the lines that have a packet,
and by the objects of these packets."""

from typing import Any, Dict, List, NamedTuple, Optional, Tuple

from . import Profile, events, transactions

PAGE, VOUT_MODE = 0x00, 0x20

# The form of a command's data is how many bytes they have, or that they are a block.
BLOCK = -1
_SIZES = (0, 1, 2, 4, 8)
# A number of bytes that only a block can have.
_OF_A_BLOCK = 3
# (those that tell a page or a VOUT_MODE come last, so that no voltage before them has a known one)
_CODES = [it for it in range(256) if it not in (PAGE, VOUT_MODE)] + [VOUT_MODE, PAGE]


class Command(NamedTuple):
    """A command of a device, with the form of what is written, of what is read, and of the reply to a
    call: `None` where it is none of these."""

    code: int
    name: str
    written: Optional[int]
    read: Optional[int]
    called: Optional[int]
    is_status: bool
    # Whether VOUT_MODE says what its words are.
    is_voltage: bool
    # Whether it has a register for each page.
    is_paged: bool


def commands_of(profile: Profile, address: int) -> Tuple[str, Dict[int, Command]]:
    """The `pec` of a device in its profile, and its commands by their codes."""
    mode, packets = _packets(profile, address)
    objects: Dict[int, List[Any]] = {}
    for it in transactions(profile, "\n".join(packets), late=True):
        if it["kind"] == "write" or it["kind"] == "read" or it["kind"] == "call":
            objects.setdefault(int(it["code"], 16), []).append(it)
    return mode, {code: _command(code, objects[code]) for code in sorted(objects)}


def _command(code: int, found: List[Any]) -> Command:
    """The command of the objects of its packets."""
    return Command(
        code,
        found[0].get("command", found[0]["code"]),
        _form([it["bytes"] for it in found if it["kind"] == "write"]),
        _form([it["bytes"] for it in found if it["kind"] == "read"]),
        _form([it["reply"] for it in found if it["kind"] == "call"]),
        any("bits" in it or "clears" in it for it in found),
        any(it.get("raw") == "unknown" for it in found),
        any("page" in it for it in found),
    )


def has_pages(profile: Profile, address: int, mode: str, commands: Dict[int, Command]) -> bool:
    """Whether a device has PAGE and several pages: whether a simulated one takes the second as PAGE.
    (Where PAGE isn't written there may be several.)"""
    if PAGE not in commands or commands[PAGE].written is None:
        return PAGE in commands
    line = "write {:02x} 00 01{}".format(address, "" if mode == "off" else " pec")
    return profile.run(line).endswith("# done\n")


def _form(found: List[str]) -> Optional[int]:
    """The form of data that were found possible."""
    lengths = [len(it) // 2 for it in found]
    return BLOCK if _OF_A_BLOCK in lengths else lengths[0] if lengths else None


def _packets(profile: Profile, address: int) -> Tuple[str, List[str]]:
    """The `pec` of a device, and the packets of its commands with data of each form."""
    lines = []
    for code in _CODES:
        for size in _SIZES + (_OF_A_BLOCK,):
            data = " 00" * size
            lines.append("write {:02x} {:02x}{}".format(address, code, data))
            lines.append("read {:02x} {:02x} :{}".format(address, code, data))
            lines.append("call {:02x} {:02x}{} :{}".format(address, code, data, data))
    built = _built(profile, lines)
    if built[0].endswith(": UnknownDevice"):
        raise ValueError("the profile has no device with the address 0x{:02x}".format(address))
    with_code = _built(profile, [line + " pec" for line in lines])
    packets = [it for it in built if it.startswith("S")]
    packets_with_code = [it for it in with_code if it.startswith("S")]
    if not packets:
        return "on", packets_with_code
    return "optional" if packets_with_code else "off", packets


def _built(profile: Profile, lines: List[str]) -> List[str]:
    """For each line its packet, or a comment with its fault."""
    return profile.build("\n".join(lines), strict=False).splitlines()


def first_leg(packet: str) -> bytes:
    """The bytes that a packet writes in its first leg, after the address."""
    sent = []
    for event in list(events(packet))[1:]:
        if event.kind in ("start", "stop"):
            break
        if event.byte is not None:
            sent.append(event.byte)
    return bytes(sent[1:])
