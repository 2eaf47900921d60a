#!/usr/bin/env python3
"""Short lines that the program sheet refuses: short_lines.py COUNT."""
import sys

LINES = [
    b"",
    b"050",
    b"0500",
    b"0300",
    b"0400",
    b"zzzz",
    b"05 0",
    b"0600",
    b"FF00",
    b"0501",
    b"020100000001",
    b"020180000000",
    b"0203000000030000000500000001",
    b"010200000000000000FF",
    b"0103000000030000000200000001",
    b"0103000000000000001900000001",
    b"0103000000070000000200010000",
    b"\xff\x00\r\x80",
]


def main():
    whole, rest = divmod(int(sys.argv[1]), len(LINES))
    text = b"".join(line + b"\n" for line in LINES)
    sys.stdout.buffer.write(text * whole + b"".join(line + b"\n" for line in LINES[:rest]))


if __name__ == "__main__":
    main()
