#!/usr/bin/env python3
"""An independent model of the program plancheck: standard input to standard output.

It shares no code with the program. Python's integers have no bound, so the sums here are exact, and the range of the
whole kind is tested where docs/costing.md says so.
"""
import sys

MEANING = {
    3: "is shorter than 4 or longer than 204 bytes",
    4: "has a byte that is not one of 0 to 9 and A to F",
    5: "is not as long as its count says",
    6: "has another frame",
    7: "has the number 80000000",
}
DIGITS = b"0123456789ABCDEF"
LARGEST = 2147483647


def read(line, frame):
    """(numbers, None) of a line that is accepted, else (None, (answer, place))."""
    if not 4 <= len(line) <= 204:
        return None, (3, -1)
    for place, byte in enumerate(line):
        if byte not in DIGITS:
            return None, (4, place)
    count = int(line[2:4], 16)
    if len(line) != 4 + 8 * count:
        return None, (5, 2)
    if int(line[0:2], 16) != frame:
        return None, (6, 0)
    numbers = []
    for place in range(4, len(line), 8):
        n = int(line[place : place + 8], 16)
        if n == 0x80000000:
            return None, (7, place)
        numbers.append(n - (n >> 31 << 32))
    return numbers, None


def shown(line):
    text = "".join(chr(b) if 0x20 <= b < 0x7F else "." for b in line[:60])
    return 'not read: "' + text + ("..." if len(line) > 60 else "") + '"'


def equation_text(line):
    numbers, _ = read(line, 0x02)
    if numbers is None:
        return shown(line)
    if not numbers:
        return "no numbers"
    text = "" if len(numbers) > 1 else "0"
    for i, c in enumerate(numbers[:-1]):
        text += f"{c} x1" if i == 0 else f" {'-' if c < 0 else '+'} {abs(c)} x{i + 1}"
    return f"{text} = {numbers[-1]}"


def plan_text(line):
    numbers, _ = read(line, 0x82)
    if numbers is None:
        return shown(line)
    return ", ".join(f"x{i + 1} = {x}" for i, x in enumerate(numbers)) or "no numbers"


def answer(equation, plan):
    """The answer's number and its meaning."""
    e, fault = read(equation, 0x02)
    if fault:
        return fault[0], f"refused, the equation's line {MEANING[fault[0]]}, place {fault[1]}"
    p, fault = read(plan, 0x82)
    if fault:
        return fault[0], f"refused, the plan's line {MEANING[fault[0]]}, place {fault[1]}"
    if not (1 <= len(p) <= 24 and len(e) == len(p) + 1):
        return 9, "refused, the plan has not 1 to 24 numbers, or the equation has not one more"
    total = -e[-1]
    for c, x in zip(e, p):
        total += c * x
        if abs(total) > LARGEST:
            return 15, "refused, a running sum is not within -2147483647 to 2147483647"
    met = sum(c * x for c, x in zip(e, p)) == e[-1]
    return int(met), "the plan meets the equation" if met else "the plan does not meet the equation"


def main():
    data = sys.stdin.buffer.read()
    lines = data.split(b"\n")
    if lines[-1] == b"":
        lines.pop()
    out = []
    for i in range(0, len(lines) - 1, 2):
        e, p = lines[i][:205], lines[i + 1][:205]
        number, meaning = answer(e, p)
        out += [f"lines {i + 1} and {i + 2}", f"  equation: {equation_text(e)}", f"  plan: {plan_text(p)}", f"  answer {number}: {meaning}"]
    if len(lines) % 2:
        e = lines[-1][:205]
        out += [f"line {len(lines)}", f"  equation: {equation_text(e)}", "  no answer: the input ends before the equation's plan"]
    sys.stdout.write("".join(line + "\n" for line in out))


if __name__ == "__main__":
    main()
