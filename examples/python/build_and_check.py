"""A bench script that builds packets from lines, sends them, and checks what a logic analyser
recorded of them.

    pip install ./python && python3 examples/python/build_and_check.py

`SMBus` and `i2c_msg` of simulated.py are used as those of smbus2 are, over a simulated converter.
On a bench they come from smbus2, and the capture from the analyser.
"""

from typing import Iterator, List

import pmb
from simulated import SMBus, i2c_msg

PROFILE = """
[[device]]
address = 0x58
pec = "on"          # each packet carries a packet error code
"""

# Of a read only the number of its bytes is sent: the device gives them.
LINES = """\
write 58 03 pec
write 58 21 00 18 pec
read 58 21 : 00 00 pec
"""


def messages(packet: str) -> Iterator[i2c_msg]:
    """The messages of a packet's events, one from each START on: the bytes for a device, or room
    for those that it replies. The lowest bit of the address byte says which."""
    legs: List[List[int]] = []
    for event in pmb.events(packet):
        if event.kind == "start":
            legs.append([])
        elif event.byte is not None:
            legs[-1].append(event.byte)
    for address, *data in legs:
        if address & 1:
            yield i2c_msg.read(address >> 1, len(data))
        else:
            yield i2c_msg.write(address >> 1, data)


def main() -> None:
    bus = SMBus(1)
    for packet in pmb.build(PROFILE, LINES).splitlines():
        bus.i2c_rdwr(*messages(packet))
    found = pmb.check(PROFILE, bus.capture)
    print(found.packets, "packets,", found.refusals, "refusals")
    for it in pmb.transactions(PROFILE, bus.capture):
        # (a refusal, say, has other keys)
        if it["kind"] == "write" or it["kind"] == "read":
            print(it["kind"], it["command"], it.get("value", it["bytes"]))

    # What can't be built is told with its place, as is what is wrong with a profile.
    for profile, line in ((PROFILE, "write 58 03"), (PROFILE.replace("0x58", "0xb0"), "")):
        try:
            pmb.build(profile, line)
        except pmb.Error as error:
            print(error)

    # A byte that was disturbed on the bus is found by its packet error code.
    disturbed = pmb.check(PROFILE, bus.capture.replace("21 A 00 A 18", "21 A 00 A 19"))
    print(disturbed.packets, "packets,", disturbed.refusals, "refusals")


if __name__ == "__main__":
    main()
