"""Sine and cosine as the converter's library has them (docs/FORMAT.md 16), bit for bit: from the table that sinetable prints.

NOT PROVED: this is plain Python for people. hosts/test.sh holds it against the library.
"""
import functools
import os
import struct
import sys

HALF_TURN = 0x3243F6A8885A308D  # in 2^-60
STEP = 1 << 24  # parts of a step of the table
HERE = os.path.dirname(os.path.abspath(__file__))


@functools.cache
def table():
    """The 1,025 entries."""
    with open(os.path.join(HERE, '..', 'crates', 'sinetable', 'stdout'), encoding='ascii') as file:
        return [int(line) for line in file]


def value_at(place, weight):
    """Between two entries, at a place of a quarter turn and back: in 2^-24."""
    def entry(k):
        return table()[min(k, 2048 - k)]
    return ((STEP - weight) * entry(place) + weight * entry(place + 1)) // (1 << 30)


def size_at(place, weight):
    """The same of the cosine's size."""
    def entry(k):
        return table()[abs(1024 - k)]
    return ((STEP - weight) * entry(place) + weight * entry(place + 1)) // (1 << 30)


def sin_cos(angle):
    """Of an angle that is an f32."""
    bits, = struct.unpack('>I', struct.pack('>f', angle))
    size, minus = bits & 0x7fffffff, bits >> 31 == 1
    if size > 0x44800000:
        return 0.0, 1.0
    significand, exponent = size & 0x7fffff, size >> 23
    if exponent:
        significand, exponent = significand | 0x800000, exponent - 1
    parts = (significand << exponent) // (HALF_TURN << 54)
    place, weight = parts // STEP % 4096, parts % STEP
    if place >= 2048:
        place, weight, minus = 4095 - place, STEP - weight, not minus
    sine, cosine = value_at(place, weight) / STEP, size_at(place, weight) / STEP
    return (-sine if minus else sine), (-cosine if place >= 1024 else cosine)


def main():
    """Angles as bits, a word of hexadecimal digits on a line, become the bits of their sines and cosines."""
    for line in sys.stdin:
        angle, = struct.unpack('>f', bytes.fromhex(line.strip()))
        print(*(struct.pack('>f', x).hex() for x in sin_cos(angle)))


if __name__ == '__main__':
    main()
