#!/usr/bin/env python3
"""Tidies generated lists twice: the second time nothing may change, and the list must stay the same.

Use: (cd crates/tidy && rt run <stdin >/dev/null) && scripts/tidy_twice.py [COUNT] [SEED]
It runs crates/tidy/out/tidy on COUNT lists and on what it printed for them, and compares the bytes; that the
lists are the same it tells by the second reader of compare_reading.py.
"""
import random
import subprocess
import sys
from pathlib import Path

import compare_reading as second

PROGRAM = Path(__file__).resolve().parent.parent / "crates" / "tidy" / "out" / "tidy"


def tidy(text):
    return subprocess.run([PROGRAM], input=text, capture_output=True, check=True).stdout


def lines_of(text):
    """The lines of a text as the second reader shows them, without the answer's first row."""
    return second.read(text)[1:]


def good_text(rng):
    """A list that is read, in some pasted form."""
    second.ROOM = 1024
    while True:
        text = second.some_text(rng)
        if second.read(text)[0].startswith("list"):
            return text


def main():
    count = int(sys.argv[1]) if len(sys.argv) > 1 else 1000
    rng = random.Random(int(sys.argv[2]) if len(sys.argv) > 2 else 1)
    changed = lost = 0
    for _ in range(count):
        text = good_text(rng)
        once = tidy(text)
        if tidy(once) != once:
            changed += 1
            print("changed again:", text, once)
        if lines_of(once) != lines_of(text):
            lost += 1
            print("another list:", text, once)
    print(f"{count} lists: {changed} changed when tidied again, {lost} became another list")
    return 1 if changed or lost else 0


if __name__ == "__main__":
    sys.exit(main())
