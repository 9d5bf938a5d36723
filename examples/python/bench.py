"""A bench script: sets output voltages of a converter at 58h, reads them back and checks the packet
error codes.

    pip install ./python && python3 examples/python/bench.py
    python3 examples/python/bench.py 1

The second talks to the bus /dev/i2c-1 by smbus2 (`pip install smbus2`, or Debian's python3-smbus2).
The first takes the simulated converter of simulated.py in its place.
"""

import sys

import pmb

if len(sys.argv) == 1:
    from simulated import SMBus, i2c_msg
else:
    from smbus2 import SMBus, i2c_msg  # type: ignore

ADDRESS, VOUT_MODE, VOUT_COMMAND, STATUS_WORD = 0x58, 0x20, 0x21, 0x79


def write(bus: SMBus, command: int, data: bytes) -> None:
    """Writes the bytes of a command, and the packet error code."""
    packet = bytes([command]) + data
    code = pmb.pec(bytes([ADDRESS << 1]) + packet)
    bus.i2c_rdwr(i2c_msg.write(ADDRESS, packet + bytes([code])))


def read(bus: SMBus, command: int, length: int) -> bytes:
    """The bytes of a command, whose packet error code is right."""
    reply = i2c_msg.read(ADDRESS, length + 1)
    bus.i2c_rdwr(i2c_msg.write(ADDRESS, [command]), reply)
    found = bytes(list(reply))
    if pmb.pec(bytes([ADDRESS << 1, command, ADDRESS << 1 | 1]) + found) != 0:
        raise OSError("wrong packet error code")
    return found[:length]


def main() -> None:
    with SMBus(int(sys.argv[1]) if len(sys.argv) > 1 else 1) as bus:
        vout = pmb.Format.vout(read(bus, VOUT_MODE, 1)[0])
        for wanted in ("0.9", "1.2", "3.3", "12", "128"):
            try:
                code = pmb.encode(vout, wanted)
            except pmb.Error as error:
                print(wanted, "is refused:", error.fault)
                continue
            write(bus, VOUT_COMMAND, code.to_bytes(2, "little"))
            found = int.from_bytes(read(bus, VOUT_COMMAND, 2), "little")
            print(wanted, "is set as", pmb.quantity_text(pmb.decode(vout, found)))
        status = int.from_bytes(read(bus, STATUS_WORD, 2), "little")
    names = [pmb.bit_name(STATUS_WORD, bit) for bit in range(15, -1, -1) if status >> bit & 1]
    print(pmb.command_name(STATUS_WORD), *names)


if __name__ == "__main__":
    main()
