#!/usr/bin/env python3
"""Compares the Rust evaluation in bench/reckoning with the reckoner.

    python3 tools/agree.py [N [SEED]]     the whole corpus, and N damaged and random sheets (20,000 unless said)

Both are written to a directory for the time of the comparison only.
"""

import os
import subprocess
import sys
import tempfile

from corpus import LINES, SHEETS, all_sheets, files_of, write
from damage import damaged_sheets
from make import Random

CRATE = os.path.join(os.path.dirname(os.path.abspath(__file__)), "..", "bench", "reckoning")


def build():
    """Builds the crate, and returns the path of its corpus program."""
    subprocess.run(["cargo", "build", "--release", "--quiet", "--jobs", "1"], cwd=CRATE, check=True)
    return os.path.join(CRATE, "target", "release", "corpus")


def differing_lines(program, directory):
    """Prints the lines that differ; returns their number."""
    found = subprocess.run([program, os.path.join(directory, SHEETS)], check=True, capture_output=True, text=True)
    with open(os.path.join(directory, LINES)) as file:
        expected = file.read().splitlines()
    lines = found.stdout.splitlines()
    differing = [at for at in range(max(len(lines), len(expected))) if lines[at:at + 1] != expected[at:at + 1]]
    for at in differing[:20]:
        print(f"sheet {at}: reckoner {expected[at:at + 1]}, Rust {lines[at:at + 1]}")
    print(f"{len(expected) - len(differing)} lines agree, {len(differing)} differ")
    return len(differing)


def compare(program, sheets):
    with tempfile.TemporaryDirectory() as directory:
        write(directory, files_of(sheets))
        return differing_lines(program, directory)


def main(count=20000, seed=1):
    program = build()
    sheets = all_sheets()
    print("the corpus")
    differing = compare(program, sheets)
    print("damaged and random sheets")
    differing += compare(program, list(damaged_sheets(Random(seed), sheets, count)))
    return 1 if differing else 0


if __name__ == "__main__":
    sys.exit(main(*[int(argument) for argument in sys.argv[1:]]))
