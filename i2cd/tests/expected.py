"""What clients.py expects of i2c-tools: what they print of some bytes, a scan, the functions of a bus,
and i2cdump."""


def word(data):
    return data[0] | data[1] << 8


def show_word(data):
    return "0x{:04x}\n".format(word(data))


def show_bytes(data):
    return " ".join("0x{:02x}".format(byte) for byte in data) + "\n"


def first(data):
    return data[0]


def pec(data):
    """The packet error code: x^8 + x^2 + x + 1 (SMBus 3.0 section 6.4.1.3)."""
    crc = 0
    for byte in data:
        crc ^= byte
        for _ in range(8):
            crc = (crc << 1 ^ (0x07 if crc & 0x80 else 0)) & 0xff
    return crc


NOTHING = ""
READ_FAILED = "Error: Read failed\n"
WRITE_FAILED = "Error: Write failed\n"


def nothing_sent(text):
    return "Error: Sending messages failed: {}\n".format(text)


def mismatch(wrote, read):
    return "Warning - data mismatch - wrote {}, read back {}\n".format(wrote, read)


def match(wrote):
    return "Value {} written, readback matched\n".format(wrote)


def scan(found, asks=lambda address: "quick"):
    """What i2cdetect prints, and what it puts on the wire, where so many addresses have a device. A
    device takes its address for writing alone; so a quick command finds it, and receive byte doesn't."""
    lines, wire = ["     0  1  2  3  4  5  6  7  8  9  a  b  c  d  e  f\n"], []
    for row in range(0, 128, 16):
        cells = ""
        for address in range(row, row + 16):
            if not 0x08 <= address <= 0x77:
                cells += "   "
            elif asks(address) == "quick" and address in found:
                cells += "{:02x} ".format(address)
            else:
                cells += "-- "
            if 0x08 <= address <= 0x77:
                reads = asks(address) != "quick"
                answer = "A" if not reads and address in found else "N"
                wire.append("S {:02x} {} P\n".format(address << 1 | reads, answer))
        lines.append("{:02x}: {}\n".format(row, cells))
    return "".join(lines), "".join(wire)


def by_default(address):
    """What i2cdetect asks for where no option says it: receive byte, where EEPROMs are."""
    return "byte" if 0x30 <= address <= 0x37 or 0x50 <= address <= 0x5f else "quick"


def scan_rows(found):
    rows = []
    for option, asks in (("-q", lambda _: "quick"), ("-r", lambda _: "byte"), ("", by_default)):
        text, wire = scan(found, asks)
        rows.append((" ".join("i2cdetect -y {} 0".format(option).split()), wire, text))
    return rows


FUNCTIONS = """\
Functionalities implemented by /dev/i2c-0:
I2C                              yes
SMBus Quick Command              yes
SMBus Send Byte                  yes
SMBus Receive Byte               yes
SMBus Write Byte                 yes
SMBus Read Byte                  yes
SMBus Write Word                 yes
SMBus Read Word                  yes
SMBus Process Call               yes
SMBus Block Write                yes
SMBus Block Read                 yes
SMBus Block Process Call         yes
SMBus PEC                        yes
I2C Block Write                  yes
I2C Block Read                   yes
"""


def dump_rows(reads):
    """The rows of i2cdump for 58h of the sample, from what a read of each of its commands is: the fault
    of `pmb run` where there is none, and else all the bytes that the device gives, also the code."""
    given = []
    for code, (fault, data) in enumerate(reads):
        if code == 0x7e:
            # a code that the device hasn't was refused before, and this read's code has that bit
            data = [0x80, pec([0xb0, 0x7e, 0xb1, 0x80])]
        given.append((fault, data))

    def wire(code, count):
        fault, data = given[code]
        if fault == "UnknownCommand":
            return "S b0 A {:02x} N P\n".format(code)
        if fault:
            return "S b0 A {:02x} A S b1 N P\n".format(code)
        tokens = (["{:02x}".format(byte) for byte in data] + ["hh"] * count)[:count]
        return "S b0 A {:02x} A S b1 A {} N P\n".format(code, " A ".join(tokens))

    def cell(code, count):
        fault, data = given[code]
        if fault:
            return "XX" * count
        data = (data + [0xff] * count)[:count]
        return "".join("{:02x}".format(byte) for byte in reversed(data))

    def letter(code):
        fault, data = given[code]
        if fault:
            return "X"
        return "." if data[0] in (0, 0xff) else chr(data[0]) if 32 <= data[0] < 127 else "?"

    by_byte = "     0  1  2  3  4  5  6  7  8  9  a  b  c  d  e  f    0123456789abcdef\n"
    by_word = "     0,8  1,9  2,a  3,b  4,c  5,d  6,e  7,f\n"
    bytes_text = by_byte + "".join(
        "{:02x}: {}    {}\n".format(row, " ".join(cell(code, 1) for code in range(row, row + 16)),
                                    "".join(letter(code) for code in range(row, row + 16)))
        for row in range(0, 256, 16))
    words_text = by_word + "".join(
        "{:02x}: {} \n".format(row, " ".join(cell(code, 2) for code in range(row, row + 8)))
        for row in range(0, 256, 8))
    nothing = by_byte + "".join(
        "{:02x}: {}    {}\n".format(row, " ".join(["XX"] * 16), "X" * 16) for row in range(0, 256, 16))
    return [
        ("i2cdump -y 0 0x58 b", "".join(wire(code, 1) for code in range(256)), bytes_text),
        ("i2cdump -y 0 0x58 w", "".join(wire(code, 2) for code in range(256)), words_text),
        ("i2cdump -y 0 0x58 c", "S b0 A 00 A P\n" + "S b1 N P\n" * 256, nothing),
        ("i2cdump -y 0 0x58 i", "".join(wire(code, 32) for code in range(0, 256, 32)),
         "Error: Block read failed, return code -121\n"),
        ("i2cdump -y 0 0x58 s", wire(0, 1),
         "SMBus block mode is deprecated, please use i2cget instead\n"
         "Error: Block read failed, return code -71\n"),
    ]
