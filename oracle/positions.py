#!/usr/bin/env python3
"""Positions in hours and degrees, read from paper 02, 2.7, and from nothing of the engine: fractions of arcseconds, and the
machine's own floats. Makes the lists in oracle/stored/positions, which program `test_position` answers in the gate.

    positions.py lines      the lines that are asked
    positions.py answers    the answers to the lines on standard input
"""
import itertools
import random
import struct
import sys
from fractions import Fraction

OUT_OF_RANGE, NO_THOUSANDTH = 30, 31
A_SECOND_OF_TIME = 15  # arcseconds
MILLI = 1000


def position(hours, minutes, thousandths, minus, degrees, arcminutes, arcthousandths):
    """Milliarcseconds of the fields, or a number."""
    ranges = [(hours, 23), (minutes, 59), (thousandths, 59999), (minus, 1), (degrees, 90), (arcminutes, 59), (arcthousandths, 59999)]
    if any(field not in range(last + 1) for field, last in ranges):
        return OUT_OF_RANGE
    seconds = 3600 * hours + 60 * minutes + Fraction(thousandths, 1000)
    arcseconds = 3600 * degrees + 60 * arcminutes + Fraction(arcthousandths, 1000)
    if degrees == 90 and arcseconds != 90 * 3600:
        return OUT_OF_RANGE
    if minus and not (degrees or arcminutes or arcthousandths):
        return OUT_OF_RANGE
    right_ascension = seconds * A_SECOND_OF_TIME * MILLI
    declination = arcseconds * MILLI * (-1 if minus else 1)
    assert right_ascension.denominator == declination.denominator == 1
    return int(right_ascension), int(declination)


def is_reached(right_ascension, declination):
    """By size: from nothing to what the largest fields give, and declination either way."""
    last, _ = position(23, 59, 59999, 0, 0, 0, 0)
    _, north = position(0, 0, 0, 0, 90, 0, 0)
    return 0 <= right_ascension <= last and abs(declination) <= north


def parts(whole):
    """Thousandths as hours or degrees, minutes and thousandths."""
    minutes, thousandths = divmod(whole, 60 * MILLI)
    return (*divmod(minutes, 60), thousandths)


def fields(right_ascension, declination):
    if not is_reached(right_ascension, declination):
        return OUT_OF_RANGE
    thousandths, left = divmod(right_ascension, A_SECOND_OF_TIME)
    if left:
        return NO_THOUSANDTH
    found = (*parts(thousandths), int(declination < 0), *parts(abs(declination)))
    assert position(*found) == (right_ascension, declination)
    return found


def pattern(whole):
    """The bits of a whole number as a float, which holds it exactly."""
    number = float(whole)
    packed = struct.pack("<f", number)
    assert struct.unpack("<f", packed)[0] == whole
    return struct.unpack("<I", packed)[0]


def vector(right_ascension, declination):
    if not is_reached(right_ascension, declination):
        return OUT_OF_RANGE
    sign = -1 if declination < 0 else 1
    seconds, thousandths = divmod(abs(declination), MILLI)
    whole = [*divmod(right_ascension, MILLI), sign * seconds, sign * thousandths]
    return [pattern(n) for n in whole]


def answer(line):
    kind, *numbers = line.split()
    numbers = [int(n) for n in numbers]
    if kind == "f":
        found = position(*numbers)
        return str(found) if found == OUT_OF_RANGE else "%d %d" % found
    back, floats = fields(*numbers), vector(*numbers)
    said = str(back) if isinstance(back, int) else " ".join(str(n) for n in back)
    told = str(floats) if isinstance(floats, int) else " ".join(["4"] + ["%08x" % n for n in floats])
    return said + " | " + told


def lines():
    chance = random.Random(27)
    for hours, minutes, thousandths in itertools.product((0, 12, 23, 24), (0, 59, 60), (0, 1, 59999, 60000)):
        yield "f %d %d %d 0 1 2 3" % (hours, minutes, thousandths)
    for sign, degrees, arcminutes, thousandths in itertools.product((0, 1, 2), (0, 1, 89, 90, 91), (0, 1, 59, 60), (0, 1, 59999, 60000)):
        yield "f 1 2 3 %d %d %d %d" % (sign, degrees, arcminutes, thousandths)
    for field in range(7):
        typed = [1] * 7
        typed[field] = 4294967295
        yield "f " + " ".join(str(n) for n in typed)
    for _ in range(300):
        yield "f %d %d %d %d %d %d %d" % tuple(chance.randrange(n) for n in (24, 60, 60000, 2, 90, 60, 60000))
    rising = [-1, 0, 1, 14, 15, 999, 1000, 1500, 54000000, 1295999984, 1295999985, 1295999986, 1295999999, 1296000000, 4294967295]
    sizes = [0, 1, 499, 500, 999, 1000, 1001, 323999999, 324000000, 324000001, 4294967295]
    for ra, size, sign in itertools.product(rising, sizes, (1, -1)):
        if size or sign > 0:
            yield "p %d %d" % (ra, sign * size)
    for _ in range(300):
        yield "p %d %d" % (15 * chance.randrange(86400000), chance.randrange(-324000000, 324000001))
        yield "p %d %d" % (chance.randrange(1295999986), chance.randrange(-2000, 2001))


def main():
    if sys.argv[1:] == ["lines"]:
        print("\n".join(lines()))
    elif sys.argv[1:] == ["answers"]:
        for line in sys.stdin:
            print(answer(line))
    else:
        sys.exit(__doc__)


main()
