"""Compares what an implementation printed of a turns script with the right text, and prints the first line that differs.

    python3 bindings/python/example.py SCRIPT.json TEXT
"""
import itertools
import sys

import gakyhera


def main():
    if len(sys.argv) != 3:
        return 2
    with open(sys.argv[1], "rb") as script, open(sys.argv[2], "rb") as text:
        right, mine = gakyhera.turns(script.read()).text, text.read()
    lines = itertools.zip_longest(right.splitlines(True), mine.splitlines(True), fillvalue=b"")
    for number, (line, own) in enumerate(lines, 1):
        if line != own:
            print("line %d must be: %s" % (number, line.decode().rstrip("\n")))
            return 1
    print("the same")
    return 0


if __name__ == "__main__":
    sys.exit(main())
