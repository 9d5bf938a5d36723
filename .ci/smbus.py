"""Runs examples/python/bench.py over smbus2 itself: what smbus2 asks of the kernel is answered by
the simulated bus of the examples. Prints what the example prints.

    PYTHONPATH=python python3 .ci/smbus.py
"""

import ctypes
import os
import runpy
import sys

import smbus2.smbus2 as real

EXAMPLES = os.path.join(os.path.dirname(os.path.abspath(__file__)), os.pardir, "examples", "python")
sys.path.insert(0, EXAMPLES)

import simulated  # noqa: E402

I2C_FUNCS, I2C_RDWR = 0x0705, 0x0707
BUS = simulated.SMBus(1)
OPEN, OPENED = os.open, []


def open_bus(name, *flags):
    """The bus's device file is another file here, so that it can be closed."""
    if name != "/dev/i2c-1":
        return OPEN(name, *flags)
    OPENED.append(name)
    return OPEN(os.devnull, os.O_RDONLY)


def ioctl(file, request, argument):
    """The kernel's part: hands each message on, and puts what is replied where it is wanted."""
    if request == I2C_FUNCS:
        argument.value = 0x00000001
    elif request == I2C_RDWR:
        asked = [argument.msgs[at] for at in range(argument.nmsgs)]
        given = []
        for each in asked:
            data = ctypes.string_at(each.buf, each.len)
            given.append(simulated.i2c_msg(each.addr, each.flags, data))
        BUS.i2c_rdwr(*given)
        for each, message in zip(asked, given):
            if each.flags & 1:
                ctypes.memmove(each.buf, bytes(message), each.len)
    else:
        raise OSError("bench.py asks for {:04x}".format(request))
    return 0


def main():
    os.open, real.ioctl = open_bus, ioctl
    sys.argv = ["bench.py", "1"]
    runpy.run_path(os.path.join(EXAMPLES, "bench.py"), run_name="__main__")
    return 0 if OPENED == ["/dev/i2c-1"] and BUS.capture.count("P\n") == 10 else 1


if __name__ == "__main__":
    sys.exit(main())
