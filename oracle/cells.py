#!/usr/bin/env python3
"""Whether Python's csv module splits well-formed texts into the same cells.

Reads what `oracle cells` writes: a line has a text in hex, the number of its rows, and each row's cells in hex, divided
by commas, behind a space. Python reads the bytes as Latin-1, one character each, with line ends as they are, in strict
mode. It gives a line of no byte as a row of no cell, which RFC 4180 has as a row of one empty cell.
"""
import csv
import io
import sys

# No text written here has a longer cell.
LONGEST_CELL = 1 << 30


def by_python(text):
    lines = io.StringIO(text.decode("latin-1"), newline="")
    rows = csv.reader(lines, strict=True)
    return [[cell.encode("latin-1") for cell in row] or [b""] for row in rows]


def by_oracle(rows):
    return [[bytes.fromhex(cell) for cell in row.split(",")] for row in rows]


def main():
    csv.field_size_limit(LONGEST_CELL)
    texts = cells = 0
    for line in sys.stdin:
        text, count, *rows = line.rstrip("\n").split(" ")
        text, ours = bytes.fromhex(text), by_oracle(rows)
        if len(ours) != int(count):
            sys.exit(f"a line of {len(ours)} rows says that it has {count}")
        theirs = by_python(text)
        if theirs != ours:
            sys.exit(f"{text!r}\nPython {theirs!r}\noracle {ours!r}")
        texts += 1
        cells += sum(len(row) for row in ours)
    if texts == 0:
        sys.exit("no text to compare")
    print(f"Python's csv module: {texts} texts, {cells} cells, no difference")


main()
