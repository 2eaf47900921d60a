#!/usr/bin/env python3
"""Counts the answers that the program sheet gave: answers.py IN OUT, its input and its output."""
import collections
import sys

FRAMES = {b"01": "open", b"02": "post", b"03": "clear", b"04": "pick", b"05": "show"}
WORKED = (0, 1, 15, 16)


def main():
    with open(sys.argv[1], "rb") as file:
        lines = file.read().split(b"\n")
    if lines[-1] == b"":
        lines.pop()
    lines = lines[:1000000]
    with open(sys.argv[2], "rb") as file:
        answers = [int(text[12:20], 16) for text in file if text.startswith(b"81")]
    if len(lines) != len(answers):
        sys.exit(f"{len(lines)} lines and {len(answers)} answers")
    table = collections.Counter((answer, FRAMES.get(text[:2], "other")) for text, answer in zip(lines, answers))
    posted = sum(table[answer, "post"] for answer in WORKED)
    print(f"{len(lines)} lines; {posted} postings worked to their end, {table[0, 'post']} of them taken")
    names = [*FRAMES.values(), "other"]
    print("answer" + "".join(f"{name:>9}" for name in ["all", *names]))
    for answer in sorted({answer for answer, _ in table}):
        row = [table[answer, name] for name in names]
        print(f"{answer:6}" + "".join(f"{count:9}" for count in [sum(row), *row]))


if __name__ == "__main__":
    main()
