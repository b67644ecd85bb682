#!/usr/bin/env python3
"""Other readings of documents 01 and 02, and the sheets of the corpus that tell each from the reckoner's.

    python3 tools/readings.py [--all] [--sheets] [WORDS]
        for each reading with these words in its name, how many sheets tell it apart; stops at a few of them unless --all
        --sheets adds the first such sheet with both lines

Readings that answer every sheet as the paper does are listed with the reason. The command fails if one of these is told
apart, or if any other is not told apart by two sheets. An edit of the reckoner that only ends in errors of its own is no
reading: it is counted. A reading written by hand that does so fails the command.
"""

import multiprocessing
import os
import signal
import sys
from collections import Counter
from itertools import zip_longest

import background_readings
import edits
import gear_readings
import limit_readings
import reckon
import sheet_readings
import shortage_readings
import window_readings
from corpus import corpus
from misread import ENOUGH, reading

LONG = 4000  # bytes
SECONDS = 60  # for a reading that does not come to an end

EDITS = {words for words, _ in edits.READINGS}
SUBJECTS = (sheet_readings, background_readings, limit_readings, window_readings, gear_readings, shortage_readings, edits)
READINGS = [one for subject in SUBJECTS for one in subject.READINGS]
REASONS = {words: reason for subject in SUBJECTS for reason, names in subject.EQUIVALENT.items() for words in names}
TRIED = window_readings.TRIED + gear_readings.TRIED  # what some of the reasons rest on


def sheets_in_turn():
    """The sheets of the corpus, one of each group in turn and the long ones last: so a reading is soon told apart."""
    groups = {}
    for name, sheet in corpus():
        groups.setdefault(name, []).append(sheet)
    in_turn = [sheet for turn in zip_longest(*groups.values()) for sheet in turn if sheet is not None]
    return sorted(in_turn, key=lambda sheet: len(sheet) > LONG)


KNOWN = []  # each sheet with the paper's line; filled before the processes part


class TooSlow(BaseException):
    pass


def give_up(*_):
    raise TooSlow


def other_line(sheet):
    """The line under a reading, or None if the reading ends in an error."""
    try:
        return reckon.line(sheet)
    except Exception:
        return None


def telling(enough):
    """The sheets that tell the reading apart, each with the paper's line and the other; and how many end in an error."""
    found, errors = [], 0
    for sheet, paper in KNOWN:
        other = other_line(sheet)
        errors += other is None
        if other not in (None, paper):
            found.append((sheet, paper, other))
        if len(found) == enough:
            break
    return found, errors


def tried(job):
    """A reading's number, how many sheets tell it apart, the first of them with both lines, and the errors."""
    at, enough = job
    signal.signal(signal.SIGALRM, give_up)
    signal.alarm(SECONDS if enough else 0)
    try:
        with reading(READINGS[at][1]):
            found, errors = telling(enough)
    except TooSlow:
        return at, 0, None, 1
    finally:
        signal.alarm(0)
    first = found and f"{len(found[0][0])} bytes: {found[0][1]}; under this reading: {found[0][2]}"
    return at, len(found), first, errors


def verdict(words, count, errors):
    """What became of a reading: told apart, equivalent, an edit's error; or what should not be."""
    if words in REASONS:
        return "CALLED EQUIVALENT, TOLD APART" if count or errors else "equivalent"
    if count:
        return "told apart" if count >= ENOUGH else "TOLD APART BY ONE ONLY"
    if errors:
        return "error" if words in EDITS else "ERRORS ONLY"
    return "NOT TOLD APART"


def report(results, enough, with_sheets):
    """Prints each reading; returns how many there are of each verdict."""
    totals = Counter()
    for at, count, first, errors in results:
        words = READINGS[at][0]
        became = verdict(words, count, errors)
        totals[became] += 1
        shown = f"{count}{'+' if count == enough else ''}" if became == "told apart" else became
        print(f"{shown:>10}  {words}{': ' + REASONS[words] if words in REASONS else ''}", flush=True)
        if first and with_sheets:
            print(f"            {first}")
    return totals


def main(arguments):
    names = [words for words, _ in READINGS]
    faults = [f"no reading: {name}" for name in sorted(set(REASONS) - set(names))]
    faults += [f"two readings: {name}" for name, count in Counter(names).items() if count > 1]
    faults += [f"does not hold: {holds.__name__}" for holds in TRIED if not holds()]
    words = " ".join(argument for argument in arguments if not argument.startswith("--"))
    enough = None if "--all" in arguments else ENOUGH
    KNOWN.extend((sheet, reckon.line(sheet)) for sheet in sheets_in_turn())
    jobs = [(at, enough) for at, name in enumerate(names) if words in name]
    with multiprocessing.Pool(os.cpu_count()) as pool:
        totals = report(pool.imap(tried, jobs, chunksize=4), enough, "--sheets" in arguments)
    print("".join(fault + "\n" for fault in faults), end="")
    print(f"{sum(totals.values())} readings: " + ", ".join(f"{count} {became}" for became, count in sorted(totals.items())))
    return 1 if faults or set(totals) - {"told apart", "equivalent", "error"} else 0


if __name__ == "__main__":
    sys.exit(main(sys.argv[1:]))
