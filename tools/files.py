#!/usr/bin/env python3
"""The files that `crates/files` opens by name, one sheet in each, and what it must print.

    python3 tools/files.py --write DIR     writes data/ and stdout
    python3 tools/files.py --check DIR     fails unless DIR holds what --write would write, and nothing else in data/

DIR is crates/files. A file's name is its number in two digits; data/contents.txt says what each holds. stdout has the
name of each file with the reckoner's line, then the jobs that cannot be done.
"""

import os
import sys

from corpus import check, write
from reckon import ACCELERATION_RUN, MOST_SHEET_BYTES, RECORD_BYTES, line, records_of
from sheets import closing, decibels, run, sheet, vehicle, worked_runs, worked_sheet

DATA = "data"
MOST_RECORDS = MOST_SHEET_BYTES // RECORD_BYTES
NOT_DONE = ("directory . NOT READ", "closed input NOT READ", "closed output 25 NOT WRITTEN")


def whole_sheet(records):
    """A sheet of so many records: struck runs, then those of document 01's whole sheet. Without its last four it is refused."""
    struck = run(ACCELERATION_RUN, 2, decibels("74.0"), decibels("74.0"), 430, 570, struck=1)
    runs = worked_runs()
    return sheet(vehicle(), [struck] * (records - 2 - len(runs)) + runs)


def short_files():
    """Document 01's whole sheet and parts of it: what each holds, and its bytes."""
    worked = worked_sheet()
    records = len(records_of(worked))
    yield "empty", b""
    for length in (1, 31, 32, 33, *range(2 * RECORD_BYTES, len(worked), RECORD_BYTES)):
        yield f"the worked sheet's first {length} bytes", worked[:length]
    yield f"the worked sheet, {records} records", worked
    for length in (333, len(worked) - 33, len(worked) - 31, len(worked) - 1):
        yield f"the worked sheet's first {length} bytes", worked[:length]
    yield "the worked sheet and a zero byte", worked + bytes(1)
    yield "the worked sheet and 32 zero bytes", worked + bytes(RECORD_BYTES)


def long_files():
    """A sheet of 1,024 records, less and more than it, and faults in its last records."""
    full = whole_sheet(MOST_RECORDS)
    last_run = len(full) - 2 * RECORD_BYTES
    yield "the long sheet, 1,024 records", full
    for length in (len(full) - RECORD_BYTES, len(full) - 1):
        yield f"the long sheet's first {length:,} bytes", full[:length]
    yield "the long sheet and a zero byte", full + bytes(1)
    yield "the long sheet and 31 zero bytes", full + bytes(RECORD_BYTES - 1)
    yield "the long sheet and 32 zero bytes", full + bytes(RECORD_BYTES)
    yield "the long sheet and its closing record again", full + full[-RECORD_BYTES:]
    yield "the long sheet twice", full + full
    yield "the long sheet with a gear of 0 in its last run", full[:last_run + 1] + bytes(1) + full[last_run + 2:]
    yield "the long sheet with one run less in its closing record", full[:-RECORD_BYTES] + closing(MOST_RECORDS - 3)
    yield "a sheet of 1,025 records", whole_sheet(MOST_RECORDS + 1)


def made():
    """Each file of the crate, with its bytes."""
    sheets = [(f"{number:02}", what, content) for number, (what, content) in enumerate((*short_files(), *long_files()))]
    contents = [f"{name} {what}" for name, what, _ in sheets]
    lines = [f"{name} {line(content)}" for name, _, content in sheets] + list(NOT_DONE)
    files = {os.path.join(DATA, name): content for name, _, content in sheets}
    files[os.path.join(DATA, "contents.txt")] = text_of(contents)
    files["stdout"] = text_of(lines)
    return files


def text_of(lines):
    return "".join(text + "\n" for text in lines).encode()


def no_others(directory, files):
    """Whether data/ has these files alone."""
    others = {os.path.join(DATA, name) for name in os.listdir(os.path.join(directory, DATA))} - set(files)
    for name in sorted(others):
        print(f"{name}: NOT MADE HERE")
    return not others


def main(arguments):
    if len(arguments) == 2 and arguments[0] == "--write":
        write(arguments[1], made())
        return True
    if len(arguments) == 2 and arguments[0] == "--check":
        files = made()
        return check(arguments[1], files) and no_others(arguments[1], files)
    print(__doc__, file=sys.stderr)
    return False


if __name__ == "__main__":
    sys.exit(0 if main(sys.argv[1:]) else 1)
