#!/usr/bin/env python3
"""Random sessions for the program sheet: random_lines.py COUNT SEED [DAMAGED].

DAMAGED is the share of lines that are damaged, one in ten unless given.
"""
import random
import sys

DIGITS = b"0123456789ABCDEF"
LARGEST = 2147483647


def line(frame, numbers):
    return b"%02X%02X" % (frame, len(numbers)) + b"".join(b"%08X" % (n & 0xFFFFFFFF) for n in numbers)


def any_number(r):
    size = r.choice([3, 10, 1000, 50000, LARGEST])
    return r.choice([r.randint(-size, size), r.randint(size - 2, size), r.randint(-size, 2 - size)])


class Session:
    """Writes lines for a sheet of which it knows the kind, the unknowns and, by guess, the moves."""

    def __init__(self, r):
        self.r = r
        self.modulus, self.n = 0, 2
        self.clear()

    def clear(self):
        """A new sheet: no equations, and a hidden plan that most of those to come will meet."""
        self.moves, self.rows = self.n, []
        size = self.r.choice([4, 4, 1000, 1000000])
        self.hidden = [self.r.randint(-size, size) for _ in range(self.n)]

    def open(self):
        r = self.r
        modulus = 0 if r.random() < 0.6 else 7
        n = r.choice([1, 1, 2, 2, 2, 3, 3, 3, 4, 4, 5, 6, 8, 11, 16, 23, 24])
        number = r.choice([0, 1, 65535, r.randrange(65536)])
        if r.random() < 0.12:
            return line(0x01, [
                modulus if r.random() < 0.7 else r.choice([-7, -1, 1, 2, 6, 8, 14, LARGEST]),
                n if r.random() < 0.5 else r.choice([-1, 0, 25, 26, 1000, -LARGEST]),
                number if r.random() < 0.3 else r.choice([-1, 65536, LARGEST, -LARGEST]),
            ])
        self.modulus, self.n = modulus, n
        self.clear()
        return line(0x01, [modulus, n, number])

    def met(self, row):
        return sum(c * x for c, x in zip(row, self.hidden))

    def coefficients(self):
        r = self.r
        zeros = r.choice([0, 0, 0.3, 0.7])
        size = r.choice([1, 1, 2, 3, 5, 10, 10, 100, 1000, 50000])
        row = [0 if r.random() < zeros else r.randint(-size, size) for _ in range(self.n)]
        if r.random() < 0.05:
            row[r.randrange(self.n)] = any_number(r)
        return row

    def taken(self, row):
        """The guess that an equation will be taken."""
        if any(c % self.modulus if self.modulus else c for c in row):
            self.moves = max(0, self.moves - 1)

    def equation(self):
        r = self.r
        how = r.random()
        if how < 0.55 or not self.rows:
            row = self.coefficients()
            right = self.met(row)
            self.rows.append(row)
            self.taken(row)
        elif how < 0.8:
            # A sum of multiples of earlier ones.
            a, b = r.choice(self.rows), r.choice(self.rows)
            p, q = r.randint(-3, 3), r.choice([0, 0, 1, -1, 2])
            row = [p * x + q * y for x, y in zip(a, b)]
            right = self.met(row) + r.choice([0, 0, 0, 1, -1])
        elif how < 0.9:
            row = self.coefficients()
            right = self.met(row) + r.choice([0, 1, any_number(r), any_number(r)])
            self.taken(row)
        elif how < 0.93:
            row, right = [0] * self.n, r.choice([0, 0, 1, any_number(r)])
        elif how < 0.97:
            # One or two entries, one of them 1 or -1.
            row, right = [0] * self.n, r.choice([0, any_number(r)])
            row[r.randrange(self.n)] = r.choice([0, any_number(r)])
            row[r.randrange(self.n)] = r.choice([1, -1])
            self.taken(row)
        else:
            row, right = [any_number(r) for _ in range(self.n)], any_number(r)
            if self.modulus:
                self.taken(row)
        words = row + [right]
        if self.modulus and r.random() < 0.97:
            return [w % self.modulus for w in words]
        return [max(-LARGEST, min(LARGEST, w)) for w in words]

    def choice(self):
        r = self.r
        count = self.moves if r.random() < 0.85 else max(0, self.moves + r.choice([-1, 1, 2]))
        if self.modulus and r.random() < 0.95:
            return [r.randrange(self.modulus) for _ in range(count)]
        if r.random() < 0.2:
            return [any_number(r) for _ in range(count)]
        return [r.randint(-20, 20) for _ in range(count)]

    def line(self, may_open):
        r = self.r
        if may_open and r.random() < 1 / (8 + self.n):
            return self.open()
        kind = r.choices(["post", "show", "pick", "clear", "count", "frame"], [64, 20, 12, 2, 4, 2])[0]
        if kind == "show":
            return line(0x05, [])
        if kind == "pick":
            return line(0x04, self.choice()[:25])
        if kind == "clear":
            self.clear()
            return line(0x03, [])
        if kind == "count":
            return line(r.choice([1, 2, 2, 2, 3, 4, 5]), [any_number(r) for _ in range(r.randrange(26))])
        if kind == "frame":
            return line(r.choice([0, 6, 7, 0x12, 0x20, 0x81, 0x82, 0x83, 0x84, 0xFF]), self.equation())
        return line(0x02, self.equation())


def damage(r, text):
    b = bytearray(text)
    how = r.randrange(12)
    if how == 0:
        return b""
    if how == 1:
        return bytes(b[: r.randrange(len(b))])
    if how == 2:
        more = r.randint(200, 700) - len(b)
        return bytes(b) + bytes(r.choices(DIGITS, k=max(1, more)))
    if how == 3:
        return bytes(b) + r.choice([b"\r", b" ", b"\x00", b"0", b"00000000"])
    if how == 4:
        return bytes(b).lower()
    if how == 5:
        return r.randbytes(r.randrange(260)).replace(b"\n", b"")
    if how == 6:
        b[r.randrange(len(b))] = r.choice(b"abcdefg/:@G \x00\xff\r")
    elif how == 7:
        b[r.randrange(len(b))] ^= 1 << r.randrange(8)
    elif how == 8:
        b[r.randrange(len(b))] = r.choice(DIGITS)
    elif how == 9:
        b[2:4] = b"%02X" % r.randrange(30)
    else:
        for _ in range(r.choice([1, 1, 2])):
            place = 4 + 8 * r.randrange(max(1, (len(b) - 4) // 8))
            b[place : place + 8] = b"80000000"
    return bytes(b).replace(b"\n", b"0")


def main():
    words = sys.argv[1:]
    count, seed = int(words[0]), int(words[1])
    r = random.Random(seed)
    session = Session(r)
    damaged = float(words[2]) if len(words) > 2 else 0.1
    lines = []
    for i in range(count):
        before = dict(vars(session))
        text = session.line(i >= 50)
        if r.random() < damaged:
            text = damage(r, text)
            vars(session).update(before)
        lines.append(text)
    # The last line lacks its line feed where the seed is odd.
    sys.stdout.buffer.write(b"\n".join(lines) + (b"" if seed % 2 else b"\n"))


if __name__ == "__main__":
    main()
