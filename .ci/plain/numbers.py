"""Quantities and number formats, by docs/numbers.md."""

import bisect
import re
from fractions import Fraction
from functools import lru_cache
from typing import NamedTuple


class Fault(Exception):
    """A fault that is reported by its name."""


# Quantities

def parse(text):
    """The quantity that a text spells."""
    if text == b"":
        raise Fault("Empty")
    spelled = re.fullmatch(rb"(-?)([0-9]+)(?:\.([0-9]+)|/([0-9]+))?", text)
    if not spelled:
        raise Fault("BadDigit")
    sign, whole, decimals, divisor = spelled.groups()
    number = Fraction(int(whole))
    if divisor is not None:
        if int(divisor) == 0:
            raise Fault("ZeroDenominator")
        if int(whole) >= 2**63 or int(divisor) >= 2**63:
            raise Fault("TooLarge")
        number = Fraction(int(whole), int(divisor))
    if decimals is not None:
        decimals = decimals.rstrip(b"0")
        if len(decimals) > 24:
            raise Fault("TooLarge")
        number = Fraction(int(whole + decimals), 10 ** len(decimals))
    if number.numerator >= 2**62 or number.denominator >= 2**62:
        raise Fault("TooLarge")
    return -number if sign else number


def text(number):
    """How a quantity is written: its shortest decimal, or numerator/denominator."""
    for places in range(25):
        if 10**places % number.denominator == 0:
            shifted = abs(number.numerator) * 10**places // number.denominator
            digits = "%0*d" % (places + 1, shifted)
            point = len(digits) - places
            sign = "-" if number < 0 else ""
            return sign + digits[:point] + ("." + digits[point:] if places else "")
    return "%d/%d" % (number.numerator, number.denominator)


# Formats: each is a tuple of its name and its numbers or its table, so that it can be a key.

class Table(NamedTuple):
    """A VID table: the codes that have a voltage, that of the first of them and the step from one to
    the next, and whether the code 0 is off."""
    first: int
    last: int
    volts: Fraction
    step: Fraction
    has_off: bool = False


TABLES = {
    "vr11": Table(2, 178, Fraction("1.6"), -Fraction("0.00625")),
    "vr12": Table(1, 255, Fraction("0.25"), Fraction("0.005"), True),
    "vr13": Table(1, 255, Fraction("0.5"), Fraction("0.01"), True),
    "imvp9": Table(1, 255, Fraction("0.2"), Fraction("0.01"), True),
    "amd625mv": Table(0, 216, Fraction("1.55"), -Fraction("0.00625")),
    "nvidia195mv": Table(1, 255, Fraction("0.195"), Fraction("0.005"), True),
}


def signed(bits, word):
    """A word of so many bits as a two's complement number."""
    return word - 2**bits if word >= 2 ** (bits - 1) else word


def denominator(form):
    """What the values of all codes of a format are fractions over."""
    if form[0] in ("direct", "udirect"):
        _, m, _, r = form
        return abs(m) * 10 ** max(r, 0)
    return {"half": 2**24, "vid": 800}.get(form[0], 2**16)


def half_numerator(code):
    """The value of an IEEE half, times 2^24."""
    sign, field, fraction = code >> 15, code >> 10 & 31, code % 1024
    if field == 31:
        raise Fault("NotANumber")
    size = fraction if field == 0 else (1024 + fraction) * 2 ** (field - 1)
    return -size if sign else size


def vid_numerator(name, code):
    """The voltage of a VID code, times 800."""
    table = TABLES[name]
    if code == 0 and table.has_off:
        raise Fault("Off")
    if not table.first <= code <= table.last:
        raise Fault("NoCode")
    return int((table.volts + (code - table.first) * table.step) * 800)


def numerator(form, code):
    """The value of a code, times that denominator. That a code has none is a fault."""
    name = form[0]
    if name == "half":
        return half_numerator(code)
    if name == "vid":
        return vid_numerator(form[1], code)
    if name in ("linear11", "linear11 fixed"):
        return signed(11, code % 2**11) * 2 ** (signed(5, code // 2**11) + 16)
    if name == "ulinear16":
        return code * 2 ** (form[1] + 16)
    if name == "slinear16":
        return signed(16, code) * 2 ** (form[1] + 16)
    # (Y * 10^-R - b) / m
    _, m, b, r = form
    word = code if name == "udirect" else signed(16, code)
    steps = word * 10 ** max(-r, 0) - b * 10 ** max(r, 0)
    return steps if m > 0 else -steps


def decode(form, code):
    """The exact value of a code. That it has none is a fault."""
    return Fraction(numerator(form, code), denominator(form))


def has_value(form, code):
    """Whether a code has a value."""
    try:
        numerator(form, code)
    except Fault:
        return False
    return True


@lru_cache(maxsize=None)
def values(form):
    """All values of a format, as numerators in their order, and the canonical code of each."""
    codes = range(2**16)  # of an IEEE half 0000 before 8000
    if form[0] in ("half", "vid"):
        codes = [code for code in codes if has_value(form, code)]
    if form[0] == "linear11":
        # The least exponent first; zero is 0000.
        codes = [0] + sorted(codes, key=lambda code: signed(5, code // 2**11))
    if form[0] == "linear11 fixed":
        codes = [code for code in codes if signed(5, code // 2**11) == form[1]]
    canonical = {}
    for code in codes:
        canonical.setdefault(numerator(form, code), code)
    ordered = sorted(canonical)
    return ordered, [canonical[value] for value in ordered]


def encode(form, number):
    """The code nearest to a quantity; at a tie the even one."""
    ordered, codes = values(form)
    number *= denominator(form)
    if number < ordered[0]:
        raise Fault("Below")
    if number > ordered[-1]:
        raise Fault("Above")
    above = bisect.bisect_left(ordered, number)
    neighbours = [i for i in (above - 1, above) if 0 <= i < len(ordered)]
    nearest = min(abs(ordered[i] - number) for i in neighbours)
    best = [codes[i] for i in neighbours if abs(ordered[i] - number) == nearest]
    return best[0] if len(best) == 1 else [code for code in best if code % 2 == 0][0]


def linear(name, exponent):
    """A format with one exponent."""
    if not -16 <= exponent <= 15:
        raise Fault("BadExponent")
    return (name, exponent)


def direct(m, b, r, name="direct"):
    """DIRECT with its coefficients; "udirect" has words without a sign."""
    if m == 0:
        raise Fault("ZeroSlope")
    if not -9 <= r <= 9:
        raise Fault("BadScale")
    return (name, m, b, r)


def vid(table):
    """A VID table."""
    if table not in TABLES:
        raise Fault("BadFormat")
    return ("vid", table)


def vout_format(mode, is_signed, coefficients):
    """What a VOUT_MODE names. Coefficients without a sign are those of words without one alone."""
    if mode & 0x80:
        raise Fault("Relative")
    if mode & 0x60 == 0x20:
        raise Fault("Vid")
    if mode & 0x60 == 0x60:
        raise Fault("Ieee")
    if mode & 0x60 == 0x40:
        if coefficients is None:
            raise Fault("NoCoefficients")
        return ("direct", *coefficients[1:]) if is_signed else coefficients
    return linear("slinear16" if is_signed else "ulinear16", signed(5, mode & 0x1F))


def number_within(bits, word):
    """A decimal number of so many bits in a FORMAT."""
    number = int(word)
    if not -(2 ** (bits - 1)) <= number < 2 ** (bits - 1):
        raise Fault("BadFormat")
    return number


def format_of(word):
    """The format that FORMAT names (docs/program.md)."""
    if word == "linear11":
        return ("linear11",)
    exponent = re.fullmatch(r"(linear11|ulinear16|slinear16):(-?[0-9]+)", word)
    if exponent:
        name = "linear11 fixed" if exponent[1] == "linear11" else exponent[1]
        return linear(name, number_within(8, exponent[2]))
    mode = re.fullmatch(r"vout:([0-9a-fA-F]{2})", word)
    if mode:
        return vout_format(int(mode[1], 16), False, None)
    if word == "half":
        return ("half",)
    if word.startswith("vid:"):
        return vid(word[len("vid:"):])
    three = re.fullmatch(r"(u?direct):(-?[0-9]+),(-?[0-9]+),(-?[0-9]+)", word)
    if three:
        m = number_within(16, three[2])
        b = number_within(16, three[3])
        return direct(m, b, number_within(8, three[4]), three[1])
    raise Fault("BadFormat")
