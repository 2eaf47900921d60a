#!/usr/bin/env python3
"""Checks the model's sheets by trying plans one by one: check_model.py MODEL SHEETS SEED, MODEL being its program.

On random small sheets of both kinds it compares the plans that the shown sheet makes with those that meet the equations
taken, and each posting's answer with how many of the plans before it meet the equation posted. A weekday sheet's plans
are all tried; of a whole sheet those within a box, and the plans of a box of choices, and its answers are also told by
the moves' common divisor.
"""
import itertools
import math
import random
import subprocess
import sys
from fractions import Fraction

BOX = {1: 60, 2: 25, 3: 8}


def line(frame, numbers):
    return "%02X%02X" % (frame, len(numbers)) + "".join("%08X" % (n & 0xFFFFFFFF) for n in numbers)


def numbers(text):
    words = [int(text[i : i + 8], 16) for i in range(4, len(text), 8)]
    return [w - (w >> 31 << 32) for w in words]


def meets(plan, equation, modulus):
    rest = sum(c * x for c, x in zip(equation, plan)) - equation[-1]
    return (rest % modulus if modulus else rest) == 0


def made(fixed, moves, choice, modulus):
    plan = [x + sum(q * m[i] for q, m in zip(choice, moves)) for i, x in enumerate(fixed)]
    return tuple(x % modulus for x in plan) if modulus else tuple(plan)


def by_divisor(row, fixed, moves):
    """A whole posting's answer: the moves change the left side by the multiples of their common divisor."""
    left = [sum(c * x for c, x in zip(row, column)) for column in (fixed, *moves)]
    rest, divisor = left[0] - row[-1], math.gcd(*left[1:])
    if divisor == 0:
        return 16 if rest else 1
    return 16 if rest % divisor else 0


class Choices:
    """Finds the whole choice that makes a plan, by elimination on the moves' entries."""

    def __init__(self, fixed, moves):
        n, k = len(fixed), len(moves)
        rows = [[Fraction(m[i]) for m in moves] + [Fraction(i == j) for j in range(n)] for i in range(n)]
        for j in range(k):
            at = next((i for i in range(j, n) if rows[i][j]), None)
            assert at is not None, "two choices make the same plan"
            rows[j], rows[at] = rows[at], rows[j]
            rows[j] = [x / rows[j][j] for x in rows[j]]
            for i in range(n):
                if i != j:
                    rows[i] = [x - rows[i][j] * y for x, y in zip(rows[i], rows[j])]
        self.fixed, self.k, self.rows = fixed, k, [row[k:] for row in rows]

    def makes(self, plan):
        step = [x - y for x, y in zip(plan, self.fixed)]
        found = [sum(a * s for a, s in zip(row, step)) for row in self.rows]
        return all(q.denominator == 1 for q in found[: self.k]) and not any(found[self.k :])


def session(r, modulus):
    """A sheet's equations."""
    n = r.randint(1, 3)
    rows = []
    for _ in range(r.randint(1, 5)):
        size = r.choice([1, 3, 8])
        row = [r.randint(-size, size) for _ in range(n + 1)]
        if rows and r.random() < 0.4:
            row = [r.choice([-2, 1, 3]) * x for x in r.choice(rows)]
            row[-1] += r.choice([0, 0, 1])
        rows.append([x % modulus for x in row] if modulus else row)
    return n, rows


def main():
    model, sheets, seed = sys.argv[1], int(sys.argv[2]), int(sys.argv[3])
    r = random.Random(seed)
    asked = [(modulus, *session(r, modulus)) for modulus in (0, 7) for _ in range(sheets)]
    text = []
    for modulus, n, rows in asked:
        text.append(line(0x01, [modulus, n, 0]))
        for row in rows:
            text += [line(0x02, row), line(0x05, [])]
    out = subprocess.run([model], input="\n".join(text), capture_output=True, text=True, check=True).stdout.split("\n")
    place, counts = 0, {}

    def take(frame):
        nonlocal place
        place += 1
        assert out[place - 1].startswith(frame), out[place - 1]
        return numbers(out[place - 1])

    for modulus, n, rows in asked:
        assert take("8103")[1:] == [0, -1]
        box = range(7) if modulus else range(-BOX[n], BOX[n] + 1)
        plans = list(itertools.product(box, repeat=n))
        fixed, moves = [0] * n, [[int(i == j) for i in range(n)] for j in range(n)]
        for row in rows:
            answer = take("8103")[1]
            counts[answer] = counts.get(answer, 0) + 1
            met = [p for p in plans if meets(p, row, modulus)]
            before = (fixed, moves)
            assert take("8103")[1] == 0
            fixed, moves = take("83"), []
            while out[place].startswith("84"):
                moves.append(take("84"))
            # The answer.
            if answer != 0:
                assert answer in (1, 16) and (fixed, moves) == before
                assert len(met) == (len(plans) if answer == 1 else 0)
            elif modulus:
                assert 0 < len(met) < len(plans)
            if not modulus:
                assert answer == by_divisor(row, *before)
            if answer != 16:
                plans = met
            # The plans made.
            if modulus:
                all_made = [made(fixed, moves, c, 7) for c in itertools.product(range(7), repeat=len(moves))]
                assert len(set(all_made)) == len(all_made) and set(all_made) == set(plans)
                continue
            choices = Choices(fixed, moves)
            assert all(choices.makes(p) for p in plans)
            inside = {made(fixed, moves, c, 0) for c in itertools.product(range(-6, 7), repeat=len(moves))}
            known = set(plans)
            assert all(p in known for p in inside if all(abs(x) <= BOX[n] for x in p))
    print(f"{2 * sheets} small sheets hold the plans they should; answers {dict(sorted(counts.items()))}")


if __name__ == "__main__":
    main()
