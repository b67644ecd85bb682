#!/usr/bin/env python3
"""The corpus: a fixed set of sheets with the reckoner's line for each, beside the driven examples by sheets.

    python3 tools/corpus.py --spread                the spread over rules, refusals and groups; fails if one is thin
    python3 tools/corpus.py --write DIR             writes data/examples.bin, data/sheets.bin and stdout
    python3 tools/corpus.py --check DIR             fails unless DIR holds what --write would write
    python3 tools/corpus.py --damaged N SEED DIR    writes N damaged and random sheets with their lines
    python3 tools/corpus.py --demand3               checks "close" and "rising" of demand 3

DIR is crates/corpus, or one like it; --damaged writes data/sheets.bin and stdout alone. A file of sheets holds, for
each, its length in four bytes, low byte first, and its bytes; a length of 0xFFFFFFFF ends it. stdout holds the line of
each sheet: those of the examples, then those of the corpus.
"""

import os
import sys
from collections import Counter

from background_groups import rising_by_side, rising_on_both_sides
from damage import damaged_sheets, raised
from examples import example_sheets
from groups import GROUPS
from make import Random, beside_starts, of_groups, random_session, with_right_backgrounds
from reckon import Refused, chosen_records, class_limits, excess, is_close, line, reckon, records_of, rise
from window_groups import rising_at_steps

EXAMPLES, SHEETS, LINES = os.path.join("data", "examples.bin"), os.path.join("data", "sheets.bin"), "stdout"
SEED = 51
END = 2 ** 32 - 1
LEAST_SHEETS, LEAST_OF_EACH = 2000, 30
PAIRS_OF_A_SHEET, MORE_SESSIONS = 8, 2000  # for demand 3


def corpus():
    """Each sheet with the name of its group."""
    return of_groups(GROUPS, SEED)


def packed(sheets):
    """The bytes of a file of sheets."""
    parts = [len(sheet).to_bytes(4, "little") + sheet for sheet in sheets]
    return b"".join(parts) + END.to_bytes(4, "little")


def lines(sheets):
    """The bytes of stdout."""
    return "".join(line(sheet) + "\n" for sheet in sheets).encode()


def files_of(sheets):
    """Each file for these sheets, with its bytes."""
    return {SHEETS: packed(sheets), LINES: lines(sheets)}


def corpus_files():
    """Each file of crates/corpus, with its bytes."""
    examples, sheets = example_sheets(), all_sheets()
    return {EXAMPLES: packed(examples), SHEETS: packed(sheets), LINES: lines(examples + sheets)}


def write(directory, files):
    os.makedirs(os.path.join(directory, os.path.dirname(SHEETS)), exist_ok=True)
    for name, content in files.items():
        with open(os.path.join(directory, name), "wb") as file:
            file.write(content)
        print(f"{name}: {len(content)} bytes")


def check(directory, files):
    """Whether a directory holds these files."""
    same = True
    for name, content in files.items():
        with open(os.path.join(directory, name), "rb") as file:
            agrees = file.read() == content
        print(f"{name}: {'as made' if agrees else 'DIFFERS'}")
        same = same and agrees
    return same


def command(arguments, words, made, others):
    """Does --write DIR or --check DIR with the files that `made` makes, or one of the others; prints `words` if it is none."""
    if len(arguments) == 1 and arguments[0] in others:
        return others[arguments[0]]()
    if len(arguments) == 2 and arguments[0] == "--write":
        write(arguments[1], made())
        return True
    if len(arguments) == 2 and arguments[0] == "--check":
        return check(arguments[1], made())
    print(words, file=sys.stderr)
    return False


def print_line(words, line):
    """Prints the line of the 16-bit numbers in words, or which word is none."""
    for word in words:
        if not (word.isascii() and word.isdecimal()) or int(word) >= 2 ** 16:
            print(f"{word} is no 16-bit number", file=sys.stderr)
            return False
    print(line(*(int(word) for word in words)))
    return True


def example_inputs(examples, made_of, line):
    """What `made_of` makes of the numbers of each example; fails if its line is another than the one beside them."""
    inputs = []
    for words, expected in examples:
        one = made_of(*(int(word) for word in words.split()))
        if line(*one) != expected:
            raise SystemExit(f"{words}: should give {expected}, the reckoner has {line(*one)}")
        inputs.append(one)
    return inputs


def print_groups(found, answers):
    """Prints how often each answer comes up, by group and in all; returns the totals. `found` has pairs of a group and an answer."""
    groups, totals = {}, Counter()
    for name, answer in found:
        groups.setdefault(name, Counter())[answer] += 1
        totals[answer] += 1
    for name, counts in (*groups.items(), ("all", totals)):
        print(f"{name:<36}{counts.total():>6}  " + ", ".join(f"{answer} {counts[answer]}" for answer in answers if counts[answer]))
    return totals


def outcome(text):
    """A rule or a refusal, from a line."""
    word, number = text.split()[:2]
    return f"rule {number}" if word == "OK" else f"refusal {number}"


# What else the corpus has to hold, by a test of a line's numbers and of its sheet.
FEATURES = {
    "W < C": lambda numbers, _: len(numbers) == 13 and numbers[5] < numbers[6],
    "PMR below 25.0": lambda numbers, _: len(numbers) == 13 and numbers[10] < 250,
    "kp 0.00 from PMR 25.0": lambda numbers, _: len(numbers) == 13 and numbers[10] >= 250 and numbers[4] == 0,
    "fails its limit": lambda numbers, _: len(numbers) == 13 and numbers[12] == 0,
    "1,024 records": lambda _, sheet: len(sheet) == 32768,
    "limit looked up": lambda numbers, sheet: len(numbers) == 13 and not any(sheet[14:16]),
    "own background on the right": lambda numbers, sheet: len(numbers) == 13 and any(sheet[18:20] + sheet[-26:-24]),
    "16 gears": lambda _, sheet: len({record[1] for record in records_of(sheet)[1:-1] if record[0] == 2}) == 16,
}

OUTCOMES = [f"rule {n}" for n in range(1, 6)] + [f"refusal {n}" for n in (*range(2, 13), 14, 15)]
ENTRIES_OF_LIMITS = 12  # of the table of document 02, wish 1


def entry_and_verdict(text, sheet):
    """The class, by its limits, and the phase that a limit is looked up by, with the pass field; None for any other sheet."""
    if not text.startswith("OK") or any(sheet[14:16]):
        return None
    PMR, _, passes = (int(word) for word in text.split()[-3:])
    return class_limits(PMR, sheet[17] == 1), sheet[16], passes


def spread():
    """Prints the spread; returns whether it is wide enough."""
    answers = [(group, line(sheet), sheet) for group, sheet in corpus()]
    print(f"{len(answers)} sheets, {sum(len(sheet) for *_, sheet in answers)} bytes\n\nby group")
    totals = print_groups([(group, outcome(text)) for group, text, _ in answers], OUTCOMES)
    print("\nof them")
    for name, holds in FEATURES.items():
        totals[name] = sum(holds([int(word) for word in text.split()[1:]], sheet) for _, text, sheet in answers)
        print(f"  {name:<28}{totals[name]:>5}")
    PMRs = {int(text.split()[11]) for _, text, _ in answers if text.startswith("OK")}
    met = [q in PMRs for q in beside_starts()]
    print(f"  {met.count(True)} of the {len(met)} PMRs at and before the starts of a_urban and a_ref")
    verdicts = Counter(entry_and_verdict(text, sheet) for _, text, sheet in answers)
    del verdicts[None]
    print(f"  each of the {ENTRIES_OF_LIMITS} limits by class as a pass and as a fail, {min(verdicts.values())} times or more")
    return (len(answers) >= LEAST_SHEETS and all(totals[result] >= LEAST_OF_EACH for result in OUTCOMES)
            and all(totals[name] > 0 for name in FEATURES) and all(met)
            and len(verdicts) == 2 * ENTRIES_OF_LIMITS and min(verdicts.values()) >= LEAST_OF_EACH)


def all_sheets():
    return [sheet for _, sheet in corpus()]


def accepted(sheets):
    """The accepted sheets with their evaluations."""
    for sheet in sheets:
        try:
            yield sheet, reckon(sheet)
        except Refused:
            pass


def check_close(evaluations):
    """Prints how many reported values are close, and the worst error; returns whether all are."""
    close = sum(is_close(evaluation) for evaluation in evaluations)
    worst = max(excess(evaluation) for evaluation in evaluations)
    attained = sum(excess(evaluation) == worst for evaluation in evaluations)
    print(f"close: {close} of {len(evaluations)} accepted sheets; "
          f"worst |error| - (Dk + Dp)/200 is {worst} dB ({attained} times), at most 3/5 allowed")
    return close == len(evaluations)


def rises(random, found):
    """For each accepted sheet, pairs made by raising chosen levels: how far L_urban rises, or None (see `rise`)."""
    for sheet, evaluation in found:
        for _ in range(PAIRS_OF_A_SHEET if len(sheet) < 3000 else 2):
            second = raised(random, sheet, chosen_records(evaluation))
            yield "alike" if second == sheet else rise(sheet, second)


def check_rising(found):
    """Prints how many pairs rise; returns whether none falls."""
    counts = Counter(rises(Random(SEED), found))
    fallen = sum(counts[by] for by in counts if isinstance(by, int) and by < 0)
    risen = sum(counts[by] for by in counts if isinstance(by, int) and by > 0)
    print(f"rising: {risen} pairs rise, {counts[0]} stay, {fallen} fall; "
          f"{counts[None]} pairs had other runs chosen or a refusal, {counts['alike']} were alike")
    return fallen == 0


def check_steps():
    """Prints how many of the corpus's own pairs rise; returns whether demand 3 speaks of each of them and none falls."""
    pairs = {group.__name__ for group in (rising_at_steps, rising_by_side, rising_on_both_sides)}
    sheets = [sheet for group, sheet in corpus() if group in pairs]
    found = [rise(first, second) for first, second in zip(sheets[::2], sheets[1::2])]
    risen, stayed = sum(by is not None and by > 0 for by in found), found.count(0)
    print(f"at the steps of the corrections: {risen} of {len(found)} pairs rise, {stayed} stay")
    return risen > 0 and risen + stayed == len(found)


def demand_3():
    random = Random(SEED)
    sessions = [random_session(random) for _ in range(MORE_SESSIONS)]
    two_sided = [with_right_backgrounds(random, session) for session in sessions]
    found = list(accepted(all_sheets() + sessions + two_sided))
    close = check_close([evaluation for _, evaluation in found])
    steps = check_steps()
    return check_rising(found) and steps and close


def write_damaged(count, seed, directory):
    write(directory, files_of(list(damaged_sheets(Random(seed), all_sheets(), count))))


def main(arguments):
    if len(arguments) == 4 and arguments[0] == "--damaged":
        write_damaged(int(arguments[1]), int(arguments[2]), arguments[3])
        return True
    return command(arguments, __doc__, corpus_files, {"--spread": spread, "--demand3": demand_3})


if __name__ == "__main__":
    sys.exit(0 if main(sys.argv[1:]) else 1)
