"""Tries a bench script before there is a board: sets the two outputs of a converter, reads them back, and
prints what its status registers say after a mistake.

    pip install ./python && python3 examples/python/bus.py
    python3 examples/python/bus.py 1

The first runs it on a bus of simulated devices, those of examples/sessions/power_up.toml. The second talks
to the bus /dev/i2c-1 by smbus2.
"""

import importlib
import os
import sys
from typing import Any, List

import pmb

EXAMPLES = os.path.join(os.path.dirname(os.path.abspath(__file__)), os.pardir)
CONVERTER = 0x40


def bring_up(bus: Any, profile: pmb.Profile) -> str:
    """Runs the script on a bus, and returns what was on the wire."""
    log: List[str] = []
    converter = pmb.Device(bus, profile, CONVERTER, log=log.append)
    converter.write("CLEAR_FAULTS", page=255)
    for page, volts in enumerate(["1", "3.3"]):
        converter.write("VOUT_COMMAND", volts, page=page)
        print("output", page, "is set to", converter.read("VOUT_COMMAND", page=page))
    converter["TON_DELAY"] = 5
    print("the delay is", converter["TON_DELAY"])
    try:
        bus.write_byte(CONVERTER, 0xFF)
    except OSError as error:
        print("ffh is refused:", error.strerror)
    for name, bits in converter.status().items():
        if bits:
            print(name, *bits)
    return "".join(log)


def main() -> None:
    with open(os.path.join(EXAMPLES, "sessions", "power_up.toml"), encoding="utf-8") as file:
        profile = pmb.Profile(file.read())
    if len(sys.argv) > 1:
        with importlib.import_module("smbus2").SMBus(int(sys.argv[1])) as bus:
            events = bring_up(bus, profile)
    else:
        with pmb.Bus(profile) as bus:
            events = bring_up(bus, profile)
    print(profile.check(events), end="")
    for line in profile.show(events).splitlines():
        if line.startswith("write"):
            print(line)


if __name__ == "__main__":
    main()
