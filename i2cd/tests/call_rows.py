"""The calls of python3-smbus and smbus2 that clients.py makes, by profile. A row has the method, its
arguments, what goes over the bus, as clients.py describes it, and what is returned: a value, or a
function of the bytes that come; or, as an errno below 0, what is raised."""

import errno

from expected import first, pec, word

# The methods of SMBus, which python3-smbus and smbus2 have alike.
CALL_ROWS = {
    "sample": [
        ("write_quick", [0x58], "S b0 A P\n", None),
        ("write_quick", [0x20], "S 40 N P\n", -errno.ENXIO),
        ("read_byte", [0x58], "S b1 N P\n", -errno.ENXIO),
        ("write_byte", [0x58, 0x03], "write 58 03", None),
        ("write_byte", [0x58, 0x07], "S b0 A 07 N P\n", -errno.EREMOTEIO),
        ("read_byte_data", [0x58, 0x7e], "S b0 A 7e A S b1 A 80 N P\n", 0x80),
        ("write_byte_data", [0x58, 0x7e, 0x80], "write 58 7e 80", None),
        ("read_byte_data", [0x58, 0x20], "read 58 20", first),
        ("write_byte_data", [0x58, 0x00, 0x01], "write 58 00 01", None),
        ("write_byte_data", [0x58, 0x00, 0x00], "write 58 00 00", None),
        ("read_word_data", [0x58, 0x88], "read 58 88", word),
        ("write_word_data", [0x58, 0x21, 0x069a], "write 58 21 9a 06", None),
        ("read_word_data", [0x58, 0x21], "read 58 21", word),
        ("process_call", [0x58, 0x30, 0x01d0], "S b0 A 30 A d0 A 01 A S b1 N P\n", -errno.ENXIO),
        ("write_block_data", [0x58, 0x99, [0x41, 0x42]], "write 58 99 41 42", None),
        ("read_block_data", [0x58, 0x99], "read 58 99", list),
        ("read_block_data", [0x58, 0x9a], "S b0 A 9a A S b1 A 00 N P\n", -errno.EPROTO),
        ("block_process_call", [0x58, 0x30, [0xd0, 0x01]], "call 58 30 d0 01", list),
        ("write_i2c_block_data", [0x58, 0x24, [0x12, 0x34]], "write 58 24 12 34", None),
        ("read_i2c_block_data", [0x58, 0x24, 2], "read 58 24", list),
        ("read_i2c_block_data", [0x59, 0x20, 4], "S b2 A 20 A S b3 A 17 A hh A hh A hh N P\n",
         [0x17, 0xff, 0xff, 0xff]),
        ("read_i2c_block_data", [0x59, 0x20, 32],
         "S b2 A 20 A S b3 A 17 A " + "hh A " * 30 + "hh N P\n", [0x17] + [0xff] * 31),
        ("pec", [1], "", None),
        ("write_quick", [0x58], "S b0 A P\n", None),
        ("read_byte", [0x58], "S b1 N P\n", -errno.ENXIO),
        ("write_byte", [0x5a, 0x03], "write 5a 03 pec", None),
        ("read_byte_data", [0x58, 0x20], "read 58 20 pec", first),
        ("write_byte_data", [0x58, 0x01, 0x80], "write 58 01 80 pec", None),
        ("read_word_data", [0x58, 0x88], "read 58 88 pec", word),
        ("write_word_data", [0x5a, 0x21, 0x069a], "write 5a 21 9a 06 pec", None),
        ("read_word_data", [0x5a, 0x21], "read 5a 21 pec", word),
        ("write_block_data", [0x5a, 0x99, list(range(32))],
         "write 5a 99 " + " ".join("{:02x}".format(byte) for byte in range(32)) + " pec", None),
        ("read_block_data", [0x5a, 0x99], "read 5a 99 pec", list),
        ("block_process_call", [0x58, 0x30, [0xd0, 0x01]], "call 58 30 d0 01 pec", list),
        ("write_i2c_block_data", [0x58, 0x24, [0x56, 0x78]], "write 58 24 56 78", None),
        ("read_i2c_block_data", [0x58, 0x24, 2], "read 58 24", list),
        ("read_word_data", [0x59, 0x88], "S b2 A 88 A S b3 A 00 A 00 A hh N P\n", -errno.EBADMSG),
        ("read_byte_data", [0x59, 0x20], "S b2 A 20 A S b3 A 17 A hh N P\n", -errno.EBADMSG),
        ("pec", [0], "", None),
        ("read_word_data", [0x59, 0x88], "read 59 88", word),
    ],
    "power_up": [
        ("write_byte_data", [0x40, 0x00, 0xff], "write 40 00 ff", None),
        ("write_word_data", [0x40, 0x21, 0x2000], "write 40 21 00 20", None),
        ("read_word_data", [0x40, 0x21], "read 40 21", -errno.ENXIO),
        ("write_byte_data", [0x40, 0x00, 0x01], "write 40 00 01", None),
        ("read_word_data", [0x40, 0x21], "read 40 21", word),
        ("read_byte_data", [0x40, 0x7e], "read 40 7e", first),
        ("read_word_data", [0x10, 0x88], "read 10 88", word),
        ("write_byte", [0x10, 0x03], "write 10 03", None),
        ("pec", [1], "", None),
        ("read_word_data", [0x40, 0xd7], "read 40 d7 pec", word),
        ("write_byte", [0x10, 0x03], "S 20 A 03 A {:02x} N P\n".format(pec([0x20, 0x03])),
         -errno.EREMOTEIO),
    ],
    "two_rails": [
        ("read_word_data", [0x40, 0x8b], "read 40 8b", word),
        ("pec", [1], "", None),
        ("write_byte_data", [0x40, 0x00, 0x01], "write 40 00 01 pec", None),
        ("read_word_data", [0x40, 0x8b], "read 40 8b pec", word),
        ("read_byte_data", [0x40, 0x20], "read 40 20 pec", first),
        ("write_byte_data", [0x40, 0x00, 0x02], "S 80 A 00 A 02 N P\n", -errno.EREMOTEIO),
        ("read_byte_data", [0x40, 0x7e],
         "S 80 A 7e A S 81 A 40 A {:02x} N P\n".format(pec([0x80, 0x7e, 0x81, 0x40])), 0x40),
    ],
    "protected": [
        ("write_byte_data", [0x58, 0x10, 0x40], "S b0 A 10 A 40 A P\n", None),
        ("write_word_data", [0x58, 0x21, 0x0700], "S b0 A 21 A 00 A 07 A P\n", None),
        ("read_word_data", [0x58, 0x21], "S b0 A 21 A S b1 A 9a A 06 N P\n", 0x069a),
        ("read_byte_data", [0x58, 0x7e], "S b0 A 7e A S b1 A 40 N P\n", 0x40),
        ("write_byte_data", [0x58, 0x10, 0x00], "S b0 A 10 A 00 A P\n", None),
        ("write_word_data", [0x58, 0x21, 0x0700], "S b0 A 21 A 00 A 07 A P\n", None),
        ("read_word_data", [0x58, 0x21], "S b0 A 21 A S b1 A 00 A 07 N P\n", 0x0700),
        ("write_byte", [0x58, 0x03], "S b0 A 03 A P\n", None),
        ("read_byte_data", [0x58, 0x7e], "S b0 A 7e A S b1 A 00 N P\n", 0x00),
    ],
}

# What only smbus2 has: transfers. Each message is an address and bytes that are written, or how many
# are read; the bytes of all that are read come back.
TRANSFER_ROWS = {
    "sample": [
        ("i2c_rdwr", [[0x58, [0x88]], [0x58, 2]], "read 58 88", list),
        ("i2c_rdwr", [[0x58, [0x03]], [0x59, [0x03]]], "write 58 03 + 59 03", []),
        ("i2c_rdwr", [[0x58, [0x99, 0x21] + [0x33] * 33]],
         "write 58 99" + " 33" * 33, []),
        ("read_block_data", [0x58, 0x99], "S b0 A 99 A S b1 A 21 N P\n", -errno.EPROTO),
        ("i2c_rdwr", [[0x58, [0x99]], [0x58, 34]], "read 58 99", lambda data: [len(data)] + data),
        ("i2c_rdwr", [[0x58, [0x99, 0xff] + [0x44] * 255]], "write 58 99" + " 44" * 255, []),
        ("i2c_rdwr", [[0x58, [0x99]], [0x58, 256]], "read 58 99", lambda data: [len(data)] + data),
        ("i2c_rdwr", [[0x58, 1]], "S b1 N P\n", -errno.ENXIO),
        ("funcs", [], "", 0x0fff8009),
    ],
    "power_up": [
        ("i2c_rdwr", [[0x40, [0x03]], [0x10, [0x03]]], "write 40 03 + 10 03", []),
    ],
    "two_rails": [
        ("i2c_rdwr", [[0x40, [0x8b]], [0x40, 2]], "S 80 A 8b A S 81 A 9a A 69 N P\n", [0x9a, 0x69]),
    ],
    "protected": [
        ("i2c_rdwr", [[0x58, [0x10, 0x20]]], "S b0 A 10 A 20 A P\n", []),
        ("i2c_rdwr", [[0x58, [0x24, 0x00, 0x08]]], "S b0 A 24 A 00 A 08 A P\n", []),
        ("i2c_rdwr", [[0x58, [0x24]], [0x58, 2]], "S b0 A 24 A S b1 A 00 A 00 N P\n", [0, 0]),
    ],
}
