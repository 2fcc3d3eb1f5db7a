#!/usr/bin/env python3
"""Prints cases for steps.c: base type, scale, offset, the bits of a value, and the item that is nearest to it, halves away from zero, or `-` where there is
none. They are worked out by fractions, and floats of four bytes by Python's struct: each edge of each type, numbers halfway between two items and the doubles
next to these, and doubles of all sizes."""
import fractions
import math
import random
import struct

SIGNED, UNSIGNED = (True, False)
# Code: bytes, signed or not, the item that stands for no value.
TYPES = {0x00: (1, UNSIGNED, 0xFF), 0x01: (1, SIGNED, 0x7F), 0x02: (1, UNSIGNED, 0xFF), 0x0A: (1, UNSIGNED, 0), 0x83: (2, SIGNED, 0x7FFF), 0x84: (2, UNSIGNED, 0xFFFF),
         0x85: (4, SIGNED, 0x7FFFFFFF), 0x86: (4, UNSIGNED, 0xFFFFFFFF), 0x8B: (2, UNSIGNED, 0), 0x8C: (4, UNSIGNED, 0), 0x8E: (8, SIGNED, 2 ** 63 - 1),
         0x8F: (8, UNSIGNED, 2 ** 64 - 1), 0x90: (8, UNSIGNED, 0)}
MOST = 2 ** 32 - 1
SCALES = [(1, 0), (2, 0), (3, 7), (5, 500), (10, 0), (100, 0), (256, 0), (1000, 0), (1, MOST), (MOST, 0), (MOST, MOST), (2 ** 31, 1), (0x10001, 0xFFFFFF)]


def bits(value):
    return struct.unpack('<Q', struct.pack('<d', value))[0]


def item(code, scale, offset, value):
    """The item as 64 bits, or None."""
    width, signed, invalid = TYPES[code]
    if math.isinf(value):
        return None
    exact = (fractions.Fraction(value) + offset) * scale
    size = math.floor(abs(exact) + fractions.Fraction(1, 2))
    raw = -size if exact < 0 else size
    least, most = (-2 ** (8 * width - 1), 2 ** (8 * width - 1) - 1) if signed else (0, 2 ** (8 * width) - 1)
    return None if raw == invalid or not least <= raw <= most else raw % 2 ** 64


def case(code, scale, offset, value, wanted):
    print(code, scale, offset, f'{bits(value):x}', '-' if wanted is None else f'{wanted:x}')


def near(number, scale, offset):
    """The double nearest to a number of halves of a step, and those beside it."""
    value = float(fractions.Fraction(number, 2 * scale) - offset)
    return [value, math.nextafter(value, math.inf), math.nextafter(value, -math.inf)]


def whole_numbers(some):
    odd = [0.0, -0.0, 5e-324, -5e-324, 2.0 ** -64, -2.0 ** -64, 0.5, -0.5, 2.0 ** 52 + 0.5, 1e300, -1e300, math.inf, -math.inf, 1.7976931348623157e308]
    odd += [sign * 2.0 ** power for sign in (1, -1) for power in (31, 32, 33, 52, 53, 54, 62, 63, 64, 65, 96, 97, 128)]
    for code, (width, signed, invalid) in TYPES.items():
        least = -2 ** (8 * width - 1) if signed else 0
        for scale, offset in SCALES:
            edges = [least, least + 1, -1, 0, 1, 2, invalid, least + 2 ** (8 * width) - 1, least + 2 ** (8 * width) - 2]
            raws = edges + [some.randrange(least, least + 2 ** (8 * width)) for _ in range(20)] + [least - 1, least + 2 ** (8 * width)]
            values = [value for raw in raws for half in (-1, 0, 1) for value in near(2 * raw + half, scale, offset)] + odd
            values += [some.choice((1, -1)) * math.ldexp(some.random() + 1, some.randrange(-70, 70)) for _ in range(20)] + [-float(offset)]
            for value in values:
                case(code, scale, offset, value, item(code, scale, offset, value))


def next_to_a_half():
    """Values a hair more than a half below offset * scale: of the bits after the point the first is 1, the next 63 are 0, and one after them is 1."""
    for scale in range(2 ** 31 + 1, 2 ** 31 + 20001, 2):
        more = -2 ** 84 % scale
        if 0 < more < 2 ** 21:
            value = -math.ldexp((2 ** 84 + more) // scale, -85)
            case(0x8F, scale, 1, value, item(0x8F, scale, 1, value))


def floats(some):
    values = [0.0, -0.0, 5e-324, 1e-45, 7e-46, 1.17549435e-38, 0.1, math.inf, -math.inf, 3.4028234663852886e38, 1.7976931348623157e308]
    limit = 2.0 ** 128 - 2.0 ** 103
    values += [limit, math.nextafter(limit, 0), -limit, -math.nextafter(limit, 0), 1 + 2.0 ** -24, 1 + 3 * 2.0 ** -24, math.nextafter(1 + 2.0 ** -24, 2)]
    values += [struct.unpack('<d', some.randbytes(8))[0] for _ in range(2000)] + [some.uniform(-1e6, 1e6) for _ in range(2000)]
    case(0x88, 2, 3, 1.5, 0x41100000)
    case(0x89, 4, 1, -0.25, bits(3.0))
    case(0x89, 2, 0, 1.7e308, None)
    for value in filter(lambda value: not math.isnan(value), values):
        case(0x89, 1, 0, value, bits(value))
        try:
            case(0x88, 1, 0, value, struct.unpack('<I', struct.pack('<f', value))[0])
        except OverflowError:
            case(0x88, 1, 0, value, None)


whole_numbers(random.Random(1))
next_to_a_half()
floats(random.Random(2))
