"""Makes calls of python3-smbus or smbus2 on bus 0, for clients.py, which starts it.

    python_calls.py LIBRARY

Standard input has the calls, as JSON: a list of [METHOD, ARGUMENTS]. The results go out as a list: what
the method returns, or its errno below 0.
"""

import importlib
import json
import sys


def transfer(library, bus, messages):
    """A transfer of smbus2: what was read comes back, of all messages."""
    made = []
    for address, what in messages:
        if isinstance(what, list):
            made.append(library.i2c_msg.write(address, what))
        else:
            made.append(library.i2c_msg.read(address, what))
    bus.i2c_rdwr(*made)
    return [byte for message in made if message.flags & 1 for byte in list(message)]


def call(library, bus, method, arguments):
    try:
        if method == "pec":
            bus.pec = arguments[0]
            return None
        if method == "funcs":
            return int(bus.funcs)
        if method == "i2c_rdwr":
            return transfer(library, bus, arguments)
        return getattr(bus, method)(*arguments)
    except OSError as fault:
        return -fault.errno


def main():
    library = importlib.import_module(sys.argv[1])
    bus = library.SMBus(0)
    results = [call(library, bus, *each) for each in json.load(sys.stdin)]
    bus.close()
    json.dump(results, sys.stdout)


if __name__ == "__main__":
    main()
