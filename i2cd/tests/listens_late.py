#!/usr/bin/env python3
"""A program opens a bus whose server has made its socket, and listens a moment later: it gets a
connection. Where the server never listens, it gets ENODEV.

    i2cd/tests/listens_late.py SHIM SOCKET
"""
import errno
import os
import socket
import subprocess
import sys
import time

OPENS = """
import os, sys
try:
    os.open("/dev/i2c-0", os.O_RDWR)
except OSError as error:
    sys.exit(error.errno)
"""


def tried(shim, path, listens):
    """The status of the program."""
    listener = socket.socket(socket.AF_UNIX, socket.SOCK_SEQPACKET)
    listener.bind(path)
    environment = {**os.environ, "LD_PRELOAD": shim, "PMB_I2C_SOCKET": path}
    program = subprocess.Popen([sys.executable, "-c", OPENS], env=environment)
    if listens:
        time.sleep(0.3)
        listener.listen()
    status = program.wait()
    listener.close()
    os.unlink(path)
    return status


def main(shim, path):
    found = tried(shim, path, True), tried(shim, path, False)
    if found != (0, errno.ENODEV):
        print("listens_late: {} and not {}".format(found, (0, errno.ENODEV)), file=sys.stderr)
        return 1
    return 0


if __name__ == "__main__":
    sys.exit(main(*sys.argv[1:]))
