#!/usr/bin/env python3
"""Wave forms of I2C packets, what sigrok-cli's decoder says of them, and the captures that
`pmb import sigrok` makes of that: examples/analysers/sigrok_*.

    waves.py            sigrok-cli says what stands in examples/analysers
    waves.py --write    puts both there, the recordings and the captures

The captures are worked out from what is drawn here, not from what sigrok-cli says: clocks that a
device stretches, a recording that begins in a packet and ends in one, glitches, two buses. Without
sigrok-cli nothing is tried.
"""

import shutil
import subprocess
import sys
import tempfile
from pathlib import Path

ANALYSERS = Path(__file__).resolve().parent.parent / "examples" / "analysers"


class Wave:
    """SCL and SDA of a bus. A time is a number of samples."""

    def __init__(self, quarter):
        self.quarter, self.now, self.edges = quarter, 0, [(0, 1, 1)]
        self.starts = []  # the samples at which SDA falls for a START between two packets

    def set(self, scl=None, sda=None, wait=0):
        """Another level, and that for so long."""
        _, old_scl, old_sda = self.edges[-1]
        levels = (old_scl if scl is None else scl, old_sda if sda is None else sda)
        self.edges.append((self.now, *levels))
        self.now += wait

    def idle(self, quarters=8):
        self.now += quarters * self.quarter

    def start(self, is_repeated=False):
        if is_repeated:
            self.set(sda=1, wait=self.quarter)
            self.set(scl=1, wait=self.quarter)
        else:
            self.starts.append(self.now)
        self.set(sda=0, wait=2 * self.quarter)
        self.set(scl=0, wait=self.quarter)

    def bit(self, value, stretch=0, glitch=None):
        """A bit, before which the device holds SCL low for some time. A glitch of two samples is a
        pulse on SCL while it is low, or one on SDA while SCL is high."""
        self.set(sda=value, wait=self.quarter + stretch)
        if glitch == "SCL":
            self.set(scl=1, wait=2)
            self.set(scl=0, wait=self.quarter)
        self.set(scl=1, wait=self.quarter)
        if glitch == "SDA":
            self.set(sda=1 - value, wait=2)
            self.set(sda=value)
        self.set(wait=self.quarter)
        self.set(scl=0, wait=self.quarter)

    def byte(self, value, is_acknowledged=True, stretch=0, glitch=None):
        """A byte and its answer; `glitch` is (what, the bit that has it)."""
        for i in range(8):
            what = glitch[0] if glitch and glitch[1] == i else None
            self.bit(value >> (7 - i) & 1, stretch if i == 0 else 0, what)
        self.bit(0 if is_acknowledged else 1)

    def stop(self):
        self.set(sda=0, wait=self.quarter)
        self.set(scl=1, wait=self.quarter)
        self.set(sda=1)
        self.idle()

    def packet(self, words, stretch=0):
        """A packet by the words of its capture. In front of the first byte that it sends, the
        device holds SCL low."""
        words, is_repeated = words.split(), False
        while words:
            word = words.pop(0)
            if word == "S":
                self.start(is_repeated)
                address = int(words.pop(0), 16)
                self.byte(address, words.pop(0) == "A")
                is_repeated, held = True, stretch if address % 2 else 0
            elif word == "P":
                self.stop()
            else:
                self.byte(int(word, 16), words.pop(0) == "A", held)
                held = 0

    def between(self, first, last):
        """What a recording has that begins and ends at these samples."""
        at_first = [edge for edge in self.edges if edge[0] <= first][-1]
        inside = [edge for edge in self.edges if first < edge[0] <= last]
        return [(0, *at_first[1:])] + [(at - first, scl, sda) for at, scl, sda in inside]


def vcd(waves, last, unit):
    """The wave forms of some buses, up to a sample."""
    signs = "!#%&"
    lines = ["$timescale %s $end" % unit, "$scope module bus $end"]
    changes = {}
    for number, edges in enumerate(waves):
        for place, name in enumerate(("SCL", "SDA")):
            sign = signs[2 * number + place]
            lines.append("$var wire 1 %s %s%d $end" % (sign, name, number + 1))
            for edge in edges:
                changes.setdefault(edge[0], {})[sign] = edge[1 + place]
    lines += ["$upscope $end", "$enddefinitions $end"]
    for at in sorted(changes):
        lines.append("#%d" % at)
        lines += ["%d%s" % (level, sign) for sign, level in changes[at].items()]
    return "\n".join(lines + ["#%d" % last, ""])


def decoded(text, *words):
    """What sigrok-cli prints of wave forms."""
    with tempfile.NamedTemporaryFile("w", suffix=".vcd") as file:
        file.write(text)
        file.flush()
        command = ["sigrok-cli", "-I", "vcd", "-i", file.name, *words]
        return subprocess.run(command, stdout=subprocess.PIPE, stderr=subprocess.DEVNULL,
                              check=True).stdout


def bus(number, *more):
    return ":".join(("i2c", "scl=SCL%d" % number, "sda=SDA%d" % number) + more)


def timed(samples, rate, packets):
    """The lines of packets with their times."""
    lines = []
    for sample, packet in zip(samples, packets):
        billionths = sample * 10**9 // rate
        lines += ["# %d.%09d s" % divmod(billionths, 10**9), packet]
    return lines


def lines_of(packet, per_byte):
    """How many lines the decoder has for a packet: one for START, STOP and each answer, so many for
    each byte, and one more for an address (`Read`, `Write`)."""
    words = packet.split()
    addresses = words.count("S")
    count = sum(1 for word in words if len(word) == 2)
    return addresses + words.count("P") + count + per_byte * count + addresses


# The recordings: what is drawn, with what sigrok-cli is called, and the capture.

def stretched():
    """A device that holds SCL low before it replies, at 100 kHz and a sample each microsecond."""
    packets = [
        "S b0 A 21 A 00 A 18 A f8 A P", "S b0 A 79 A S b1 A 40 A 88 N P", "S 40 N P",
        "S b0 A 99 A S b1 A 03 A 41 A 42 A 43 N P", "S b0 A 03 A 47 N P",
        "S b0 A 03 A S b2 A 03 A P", "S 19 A b0 N P", "S b0 A P",
    ]
    wave = Wave(quarter=3)
    wave.idle()
    for number, packet in enumerate(packets):
        wave.packet(packet, stretch=37 * (number + 1))
    text = vcd([wave.edges], wave.now, "1 us")
    said = decoded(text, "-P", bus(1), "-A", "i2c=addr-data", "--protocol-decoder-samplenum")
    return said, timed(wave.starts, 10**6, packets)


def middle():
    """A recording that begins in a byte that is written, and ends in one that is read. The decoder
    takes the repeated START for one, so what is left of the first packet looks like one."""
    packets = ["S b0 A 79 A S b1 A 40 A 88 N P", "S b0 A 21 A 00 A 18 A f8 A P",
               "S b0 A 8b A S b1 A 9a A 13 N P"]
    wave = Wave(quarter=3)
    wave.idle()
    for packet in packets:
        wave.packet(packet)
    # A bit is four quarters long, a START three; a repeated one has two in front of SDA's edge.
    bit, start = 12, 9
    first = wave.starts[0] + start + 12 * bit
    repeated = wave.starts[0] + start + 18 * bit + 6
    last = wave.starts[2] + start + 18 * bit + 6 + start + 13 * bit
    text = vcd([wave.between(first, last)], last - first, "1 us")
    said = decoded(text, "-l", "4", "-P", bus(1), "-A", "i2c", "--protocol-decoder-samplenum")
    starts = [repeated - first, wave.starts[1] - first]
    seen = ["S b1 A 40 A 88 N P", packets[1]]
    before = sum(lines_of(packet, 9) for packet in seen)
    cut = lines_of("S b0 A 8b A S b1 A", 9)
    told = "# line %d: the packet from line %d is cut" % (before + cut, before + 1)
    return said, timed(starts, 10**6, seen) + [told]


def glitches():
    """Pulses of 20 ns at 400 kHz, a sample each 10 ns, and a byte that STOP cuts. What the decoder
    reads then was not on the bus, and nothing shows that: it is what the capture has."""
    wave = Wave(quarter=62)
    wave.idle()
    wave.packet("S b0 A 03 A P")
    # A pulse on SCL in front of the third bit of 21h is one more bit, a 1. All that comes behind it
    # is a bit later: 0011 0000 and the answer 1, then 0000 0000 and 0, then 0000 1100 and 0.
    wave.start()
    wave.byte(0xB0)
    wave.byte(0x21, glitch=("SCL", 2))
    wave.byte(0x00)
    wave.byte(0x18)
    wave.stop()
    # STOP behind three bits of a byte: the decoder drops them.
    wave.start()
    wave.byte(0xB0)
    wave.byte(0x21)
    for _ in range(3):
        wave.bit(0)
    wave.stop()
    # SDA falls while SCL is high in the third bit of ffh: a repeated START. Behind it five bits 1,
    # the answer 0, and two bits 1 of the next byte are an address, and a 1 its answer.
    wave.start()
    wave.byte(0xB0)
    wave.byte(0xFF, glitch=("SDA", 2))
    wave.byte(0xFF)
    wave.stop()
    # SDA rises while SCL is high in the third bit of 01h: STOP, and then START, behind which there
    # are seven bits up to the end.
    wave.start()
    wave.byte(0xB0)
    wave.byte(0x01, glitch=("SDA", 2))
    wave.stop()
    text = vcd([wave.edges], wave.now, "10 ns")
    said = decoded(text, "-P", bus(1), "-A", "i2c=addr-data", "--protocol-decoder-samplenum")
    seen = ["S b0 A 03 A P", "S b0 A 30 N 00 A 0c A P", "S b0 A 21 A P", "S b0 A S fb N P",
            "S b0 A P"]
    last = sum(lines_of(packet, 1) for packet in seen) + 1
    told = "# line %d: the packet from line %d is cut" % (last, last)
    return said, timed(wave.starts, 10**8, seen) + [told]


def two():
    """Two buses, the second one with whole bytes for addresses, in quotes and without samples."""
    packets = [["S b0 A 88 A S b1 A 00 A d3 N P", "S b0 A 03 A P"],
               ["S b4 A 20 A S b5 A 14 N P", "S 80 A 04 A P", "S 7e N P"]]
    waves = []
    for number, some in enumerate(packets):
        wave = Wave(quarter=3 + number)
        wave.idle(8 + 5 * number)
        for packet in some:
            wave.packet(packet)
        waves.append(wave)
    last = max(wave.now for wave in waves)
    text = vcd([wave.edges for wave in waves], last, "1 us")
    said = decoded(text, "-l", "3", "-P", bus(1), "-P", bus(2, "address_format=unshifted"), "-A",
                   "i2c=addr-data")
    passed = sum(lines_of(packet, 1) for packet in packets[0])
    return said, packets[1] + ["# %d lines of other buses were passed over" % passed]


WAVES = {"sigrok_stretched": stretched, "sigrok_middle": middle, "sigrok_glitches": glitches,
         "sigrok_two": two}


def main(words):
    if shutil.which("sigrok-cli") is None:
        print("waves: sigrok-cli is missing, so what it says of the wave forms was not tried")
        print("waves: 0 passed, 0 failed, %d skipped" % len(WAVES))
        return 0
    passed = failed = 0
    for name, draw in WAVES.items():
        said, lines = draw()
        capture = "".join(line + "\n" for line in lines).encode()
        files = [(ANALYSERS / (name + ".txt"), said), (ANALYSERS / (name + ".capture"), capture)]
        for path, text in files:
            if words == ["--write"]:
                path.write_bytes(text)
            if path.exists() and path.read_bytes() == text:
                passed += 1
            else:
                failed += 1
                print("waves: %s is another" % path.name)
    print("waves: %d passed, %d failed" % (passed, failed))
    return 1 if failed else 0


if __name__ == "__main__":
    sys.exit(main(sys.argv[1:]))
