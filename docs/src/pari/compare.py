#!/usr/bin/env python3
"""Compares the program sheet with PARI/GP on random small systems: compare.py SHEET COUNT SEED, SHEET being its path.

Half of the systems are whole, half weekday. COUNT is at most 125,000, as the program reads a million lines. PARI is
asked by check.gp, in one process, and is told of the program's answers nothing but which postings overflowed.
"""
import collections
import json
import math
import os
import random
import subprocess
import sys

LARGEST = 2147483647
VERDICTS = {0: "taken", 1: "implied", 16: "contradicted"}
OVERFLOW = 15


def line(frame, numbers):
    return "%02X%02X" % (frame, len(numbers)) + "".join("%08X" % (n & 0xFFFFFFFF) for n in numbers)


def numbers(text):
    words = [int(text[i : i + 8], 16) for i in range(4, len(text), 8)]
    return [w - (w >> 31 << 32) for w in words]


def system(r, modulus):
    """The unknowns and the equations, which a hidden plan meets but for what is added to some right sides."""
    n = r.randint(1, 6)
    hidden = [r.randint(-5, 5) for _ in range(n)]
    rows = []
    for _ in range(r.randint(1, 6)):
        size = r.choice([1, 2, 2, 3, 3, 4, 6, 6, 10, 10, 20, 50, 40000])
        zeros = r.choice([0, 0, 0.3, 0.7])
        row = [0 if r.random() < zeros else r.randint(-size, size) for _ in range(n)]
        fresh = row = row + [sum(c * x for c, x in zip(row, hidden))]
        added = r.choice([0, 0, 0, 0, 1, -1, 2])
        how = r.random()
        if rows and how < 0.3:
            # A combination of earlier ones.
            p, q = r.randint(-3, 3), r.choice([0, 0, 1, -1, 2])
            row = [p * a + q * b for a, b in zip(r.choice(rows), r.choice(rows))]
        elif rows and how < 0.45:
            # A multiple of an earlier one, but for multiples of d.
            p, d = r.choice([1, -1, 2, 3]), r.choice([2, 3, 4, 6])
            row = [p * a + d * b for a, b in zip(r.choice(rows), fresh)]
        elif rows and how < 0.5:
            # An earlier one, its coefficients' common divisor taken out.
            row = r.choice(rows)
            row = [a // (math.gcd(*row[:-1]) or 1) for a in row]
        elif how < 0.65:
            d = r.choice([2, 3, 4, 6])
            row = [d * a for a in fresh]
        else:
            added = r.choice([0, 0, 0, added])
        row = row[:-1] + [row[-1] + added]
        if max(map(abs, row)) > LARGEST:
            row = fresh
        rows.append([a % modulus for a in row] if modulus else row)
    return n, rows


def sheet_says(program, systems):
    """The answers to each system's postings, and the fixed plan and the moves shown after them."""
    text = []
    for modulus, n, rows in systems:
        text += [line(0x01, [modulus, n, 0]), *(line(0x02, row) for row in rows), line(0x05, [])]
    out = subprocess.run([program], input="\n".join(text), capture_output=True, text=True, check=True).stdout.split("\n")
    place = count = 0

    def take(frame):
        nonlocal place
        place += 1
        if not out[place - 1].startswith(frame):
            sys.exit(f"line {place} of the output should have frame {frame}: {out[place - 1]}")
        return numbers(out[place - 1])

    def answer():
        nonlocal count
        count += 1
        number, given, _ = take("81")
        if number != count:
            sys.exit(f"line {count} is answered as line {number}")
        return given

    said = []
    for modulus, n, rows in systems:
        opened = answer()
        answers = [answer() for _ in rows]
        if opened or answer():
            sys.exit(f"an opening or a showing is refused before line {count + 1}")
        fixed, moves = take("83"), []
        while out[place].startswith("84"):
            moves.append(take("84"))
        said.append((answers, fixed, moves))
    return said


def skipped(modulus, answer):
    """Whether a posting is not compared: it overflowed, and left the sheet as it was. No weekday number overflows."""
    return answer == OVERFLOW and not modulus


def pari_says(systems, said):
    """What check.gp prints of each system, without the postings that are skipped."""
    with open(os.path.join(os.path.dirname(os.path.abspath(__file__)), "check.gp")) as f:
        text = [f.read()]
    for (modulus, n, rows), (answers, fixed, moves) in zip(systems, said):
        rows = [row for row, answer in zip(rows, answers) if not skipped(modulus, answer)]
        text.append(f"sheet({modulus}, {n}, {rows}, {fixed}, {moves});\n")
    gp = subprocess.run(["gp", "-q", "-f"], input="".join(text), capture_output=True, text=True)
    out = gp.stdout.splitlines()
    if gp.returncode or gp.stderr or len(out) != len(systems):
        sys.exit(f"gp failed, with {len(out)} lines of output:\n{gp.stderr[:2000]}")
    return [json.loads(one) for one in out]


def main():
    program, count, seed = sys.argv[1], int(sys.argv[2]), int(sys.argv[3])
    r = random.Random(seed)
    systems = [(modulus, *system(r, modulus)) for modulus in (7 * (i % 2) for i in range(count))]
    said = sheet_says(program, systems)
    asked = pari_says(systems, said)
    tallies = {0: collections.Counter(), 7: collections.Counter()}
    for (modulus, n, rows), (answers, fixed, moves), (verdicts, by_divisor, right) in zip(systems, said, asked):
        compared = [answer for answer in answers if not skipped(modulus, answer)]
        if compared != verdicts or right != [1, 1, 1]:
            print(f"Disagreement, modulus {modulus}, {n} unknowns; each equation with the program's and PARI's verdict:")
            left = iter(verdicts)
            for row, answer in zip(rows, answers):
                print("  ", *row[:-1], "=", row[-1], ":", answer, "-" if skipped(modulus, answer) else next(left))
            print("fixed plan", fixed, "moves", moves)
            print("number of moves, lattice, fixed plan:", *("right" if x else "WRONG" for x in right))
            sys.exit(1)
        tally = tallies[modulus]
        tally.update(VERDICTS[answer] for answer in compared)
        tally.update(systems=1, postings=len(rows), skipped=len(rows) - len(compared))
        tally.update(divisor=by_divisor, moving=len(moves) > 0)
    for modulus, name in ((0, "whole"), (7, "weekday")):
        tally = tallies[modulus]
        print(
            f"{name}: {tally['systems']} systems, {tally['postings']} postings: {tally['taken']} taken, "
            f"{tally['implied']} implied, {tally['contradicted']} contradicted "
            f"({tally['divisor']} by divisibility alone), {tally['skipped']} skipped for overflow; "
            f"{tally['systems']} lattices, {tally['moving']} of them with moves"
        )
    print("All verdicts and lattices agree.")


if __name__ == "__main__":
    main()
