"""Stands in for smbus2 where no bus is at hand: what the scripts beside this call of it, over a
simulated converter at 58h whose VOUT_MODE is 17h, with a logic analyser on the bus.

`SMBus` and `i2c_msg` are used as those of smbus2 are, so a script that brings them in from there
talks to a bus of the machine.
"""

import errno
from typing import Iterable, Iterator, NoReturn, Union

import pmb

ADDRESS = 0x58


class i2c_msg:
    """Bytes for a device, or, with `flags` 1, room for those that it replies."""

    def __init__(self, address: int, flags: int, data: bytes) -> None:
        self.addr, self.flags, self.len, self.data = address, flags, len(data), data

    @staticmethod
    def write(address: int, buf: Iterable[int]) -> "i2c_msg":
        return i2c_msg(address, 0, bytes(buf))

    @staticmethod
    def read(address: int, length: int) -> "i2c_msg":
        return i2c_msg(address, 1, bytes(length))

    def __iter__(self) -> Iterator[int]:
        return iter(self.data)

    def __len__(self) -> int:
        return self.len


class SMBus:
    """A bus with the converter. It keeps what is written to it, and refuses a packet without its
    error code. `capture` is what the analyser saw, as capture text."""

    def __init__(self, bus: Union[int, str, None] = None, force: bool = False) -> None:
        # VOUT_MODE, VOUT_COMMAND and STATUS_WORD
        self.registers = {0x20: b"\x17", 0x21: b"\0\0", 0x79: b"\x40\x88"}
        self.capture = ""

    def __enter__(self) -> "SMBus":
        return self

    def __exit__(self, exc_type: object, exc_val: object, exc_tb: object) -> None:
        pass

    def i2c_rdwr(self, *i2c_msgs: i2c_msg) -> None:
        """Makes one packet of the messages: a START before each, and a STOP."""
        sent = b""
        for message in i2c_msgs:
            sent += bytes([message.addr << 1 | message.flags])
            self.capture += "S {:02x} ".format(sent[-1])
            if message.addr != ADDRESS:
                self.refuse(errno.ENXIO, "no device has the address {:02x}".format(message.addr))
            self.capture += "A "
            if message.flags:
                reply = self.registers.get(sent[1], b"\0")
                message.data = (reply + bytes([pmb.pec(sent + reply)]))[: message.len]
                self.capture += " A ".join(map("{:02x}".format, message.data)) + " N "
                sent += message.data
            else:
                sent += bytes(message)
                self.capture += " A ".join(map("{:02x}".format, message))
                # (the byte before a START is the command's alone)
                if len(i2c_msgs) == 1 and pmb.pec(sent) != 0:
                    self.capture += " "
                    self.refuse(errno.EREMOTEIO, "the packet error code is wrong")
                self.capture += " A "
        self.capture += "P\n"
        if len(i2c_msgs) == 1 and not i2c_msgs[0].flags:
            self.registers[sent[1]] = sent[2:-1]

    def refuse(self, number: int, why: str) -> NoReturn:
        self.capture += "N P\n"
        raise OSError(number, why)
