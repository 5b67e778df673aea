#!/usr/bin/env python3
"""Holds the stored table of the sine (docs/FORMAT.md 16.1) against its rule, worked out with exact fractions."""
import os
import sys
from fractions import Fraction
from math import factorial, floor

STORED = os.path.join(os.path.dirname(os.path.abspath(__file__)), '..', 'crates', 'sinetable', 'stdout')
P = Fraction(0x3243F6A8885A308D, 2**60)


def series(x):
    """The sine series through power 21."""
    return sum((-1)**(n // 2) * x**n / factorial(n) for n in range(1, 22, 2))


def main():
    with open(STORED, encoding='ascii', newline='') as file:
        lines = file.read().split('\n')
    wanted = [str(floor(2**30 * series(k * P / 2048) + Fraction(1, 2))) for k in range(1025)] + ['']
    wrong = [k for k, (line, entry) in enumerate(zip(lines, wanted)) if line != entry]
    print(f'{len(lines) - 1} entries, {len(wrong)} wrong')
    return 1 if wrong or len(lines) != len(wanted) else 0


if __name__ == '__main__':
    sys.exit(main())
