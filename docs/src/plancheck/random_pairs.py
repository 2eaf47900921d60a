#!/usr/bin/env python3
"""Random pairs of an equation line and a plan line: random_pairs.py COUNT SEED."""
import random
import sys


def word(n):
    return b"%08X" % (n & 0xFFFFFFFF)


def line(frame, numbers):
    return b"%02X%02X" % (frame, len(numbers)) + b"".join(word(n) for n in numbers)


def number(r):
    size = r.choice([3, 10, 1000, 50000, 2147483647])
    return r.randint(-size, size)


def pair(r):
    n = r.choice([1, 1, 2, 2, 3, 4, 8, 23, 24])
    size = r.choice([3, 10, 1000, 20000])
    plan = [r.randint(-size, size) for _ in range(n)] if r.random() < 0.8 else [number(r) for _ in range(n)]
    row = [r.randint(-size, size) for _ in range(n)]
    right = sum(c * x for c, x in zip(row, plan)) + r.choice([0, 0, 0, 1, -1])
    if abs(right) > 2147483648:
        right = number(r)
    return line(0x02, row + [right]), line(0x82, plan)


def damage(r, text):
    b = bytearray(text)
    how = r.randrange(9)
    if how == 0:
        return bytes(b[: r.randrange(len(b) + 1)])
    if how == 1:
        return bytes(b) + r.randbytes(r.randrange(1, 300)).replace(b"\n", b"0")
    if how == 2:
        b[r.randrange(len(b))] = r.choice(b"abcdefg/:@G \x00\xff\r")
    elif how == 3:
        b[r.randrange(len(b))] = r.choice(b"0123456789ABCDEF")
    elif how == 4:
        b[0:2] = b"%02X" % r.randrange(256)
    elif how == 5:
        b[2:4] = b"%02X" % r.randrange(30)
    elif how == 6 and len(b) >= 12:
        place = 4 + 8 * r.randrange((len(b) - 4) // 8)
        b[place : place + 8] = b"80000000"
    elif how == 7:
        return line(r.choice([0x02, 0x82]), [number(r) for _ in range(r.randrange(27))])
    else:
        return r.randbytes(r.randrange(260)).replace(b"\n", b"")
    return bytes(b)


def main():
    count, seed = int(sys.argv[1]), int(sys.argv[2])
    r = random.Random(seed)
    out = sys.stdout.buffer
    for _ in range(count):
        for text in pair(r):
            out.write((damage(r, text) if r.random() < 0.1 else text) + b"\n")
    out.write(b"0203000000030000000500000001" if seed % 2 else b"")


if __name__ == "__main__":
    main()
