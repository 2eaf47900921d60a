#!/usr/bin/env python3
"""Runs a program at the edges of its input and output, and tells what is wrong: edges.py NAME PROGRAM [MODEL...].

What it writes must be the model's: for input of many chunks, at and behind the last line that is read, and for a last line
that lacks its line feed. An answer must come before more input does, and a failure to read or write must end it with 1.
"""
import os
import random
import select
import subprocess
import sys

EQUATION, MET, MISSED = b"0203000000030000000500000001", b"8202FFFFFFFD00000002", b"82020000000100000001"


def sheet_inputs():
    opened, r = b"0103000000000000000200000001\n", random.Random(1)
    yield "no input", b""
    yield "one byte", b"0"
    yield "a last line that lacks its line feed", opened + EQUATION
    yield "many chunks", opened + b"".join(r.choice([EQUATION, b"0500", b"0300", b"", b"zz", b"F" * 300]) + b"\n" for _ in range(20000))
    yield "over a thousand chunks", (b"F" * 300 + b"\n") * 60000
    yield "more lines than are read", b"0500\n" * 1010003
    yield "as many lines as are read, the last lacking its line feed", b"05\n" * 999999 + b"0500"


def plancheck_inputs():
    r = random.Random(2)
    yield "no input", b""
    yield "a last line of one byte that lacks its line feed", EQUATION + b"\n0"
    yield "an equation alone", EQUATION + b"\n"
    yield "an equation alone that lacks its line feed", EQUATION
    yield "an equation alone behind a pair", b"\n".join([EQUATION, MET, EQUATION])
    yield "equations of no unknowns and of no numbers", b"020100000000\n8200\n0200\n8200\n"
    yield "many chunks", b"".join(EQUATION + b"\n" + r.choice([MET, MISSED, b"", b"\x00\xff", b"F" * 300]) + b"\n" for _ in range(20000))


INPUTS = {"sheet": sheet_inputs, "plancheck": plancheck_inputs}
# What is given while the input stays open, and how many lines must come for it.
OPEN = {"sheet": (b"0103000000000000000200000001\n", 1), "plancheck": (EQUATION + b"\n" + MET + b"\n", 4)}


def answers_at_once(program, given, lines):
    """Whether as many lines come while the input stays open."""
    with subprocess.Popen([program], stdin=subprocess.PIPE, stdout=subprocess.PIPE) as run:
        run.stdin.write(given)
        run.stdin.flush()
        came = b""
        while came.count(b"\n") < lines and select.select([run.stdout], [], [], 10)[0]:
            more = run.stdout.read1()
            if not more:
                break
            came += more
        run.kill()
    return came.count(b"\n") == lines


def status(program, given, to):
    with open(to, "wb") as out:
        return subprocess.run([program], input=given, stdout=out, stderr=subprocess.DEVNULL).returncode


def status_on_folder(program):
    """The status where the input cannot be read, as it is a folder."""
    folder = os.open("/", os.O_RDONLY)
    try:
        return subprocess.run([program], stdin=folder, stdout=subprocess.DEVNULL, stderr=subprocess.DEVNULL).returncode
    finally:
        os.close(folder)


def wrong(name, program, model):
    for what, given in INPUTS.get(name, tuple)():
        run = subprocess.run([program], input=given, capture_output=True)
        expected = subprocess.run(model, input=given, capture_output=True, check=True)
        if run.returncode or run.stdout != expected.stdout:
            yield what
    given, lines = OPEN.get(name, (b"", 0))
    if lines and not answers_at_once(program, given, lines):
        yield "an answer does not come before more input does"
    if status(program, given, "/dev/full") != 1:
        yield "a failure to write does not end it with 1"
    if lines and status_on_folder(program) != 1:
        yield "a failure to read does not end it with 1"


def main():
    name, program, model = sys.argv[1], sys.argv[2], sys.argv[3:]
    found = list(wrong(name, program, model))
    for what in found:
        print(f"{name}: {what}")
    sys.exit(len(found) != 0)


main()
