#!/usr/bin/env python3
"""Input for the speed run: bench_lines.py SHEETS SEED. Each sheet is opened, given 12 equations, and shown.

All sheets are whole ones of 24 unknowns. No coefficient is 0; those of a sheet are within 3, 9 or 100, which keeps most
sheets within range: with 10000 sheets and seed 1, 119288 of 120000 postings are taken, the others overflow.
"""
import random
import sys

UNKNOWNS, POSTINGS = 24, 12
COEFFICIENTS = [[c for c in range(-size, size + 1) if c] for size in (3, 9, 100)]


def line(frame, numbers):
    return "%02X%02X" % (frame, len(numbers)) + "".join("%08X" % (n & 0xFFFFFFFF) for n in numbers)


def main():
    sheets, seed = int(sys.argv[1]), int(sys.argv[2])
    r = random.Random(seed)
    for _ in range(sheets):
        coefficients = r.choice(COEFFICIENTS)
        print(line(0x01, [0, UNKNOWNS, r.randrange(65536)]))
        for _ in range(POSTINGS):
            print(line(0x02, r.choices(coefficients, k=UNKNOWNS) + [r.randint(-9, 9)]))
        print(line(0x05, []))


if __name__ == "__main__":
    main()
