#!/usr/bin/env python3
"""Checks docs/TRACE.md against the tree, and tells which sentence of document 01 or 02 a number means.

    python3 tools/trace.py --check         prints the counts, or a line for each fault; fails if there is one
    python3 tools/trace.py --paper FILE    prints the sentences of the paper with their numbers; fails on other counts

Every name in a row must exist, every sentence and every must-fail edit must have a row, and the rows must stand in the
paper's order. A cell is a dash, or references with a comma or a semicolon between them:

    definition        `crate/Module: name, name`    declared in crates/crate/specs/Module.antt
    function          `crate: name, name`           a function, type or constant in crates/crate/src
    law or promise    `crate/Module: name, name`    declared in crates/crate/proofs/Module.antt
                      `crate: name, name`           a promise by its name (`ensures name`) in crates/crate/src
                      D "title"                     an entry of docs/DECISIONS.md, by its title in bold, or a section
    must-fail         `crate/label`                 crates/crate/must-fail/label.edit
    test              `name`                        a test program, by its output crates/name/stdout
                      `driven: label`               a line of that program's output, without its answer
                      `corpus: group, group`        groups of tools/groups.py, or `examples`
                      `differential`                the program in bench/speed
                      `file.py: name, name`         functions of tools/file.py
                      `bench/file`                  a file of bench/

What stands in italics is not checked.
"""

import re
import sys
from functools import lru_cache
from pathlib import Path

ROOT = Path(__file__).resolve().parent.parent
TRACE = "docs/TRACE.md"

# Each section with its title and the number of its sentences: 0 is the client's demands, a number after W is a wish of
# document 02, the others are document 01.
SECTIONS = {
    "0": ("The demands", 7), "1": ("Scope", 3), "2": ("The sheet", 30), "3": ("Refusals and what remains", 13),
    "4": ("From levels to windows", 17), "5": ("Gears", 15), "6": ("L_urban", 26), "7": ("Driven examples", 15),
    "8": ("Whole sheet and the program", 9), "9": ("Where the spreadsheet tempts", 4),
    "10": ("The shape of each place", 14), "11": ("Note from the buyer", 7),
    "W1": ("Limits by class", 7), "W2": ("Differences at the nearest whole decibel", 5), "W3": ("The four-run span in one walk", 3),
    "W5": ("Which kind of shortage", 5),
    "W8": ("A background for each microphone", 6), "W11": ("Production checks", 7), "W13": ("Test mass of lorries", 9),
    "W14": ("Motorcycles", 8),
}
SENTENCES = [(section, at) for section, (_, count) in SECTIONS.items() for at in range(1, count + 1)]

COLUMNS = ("no.", "sentence", "definition", "function", "law or promise", "must-fail", "test")
ITEM = r'(?:`[^`]+`|D "[^"]+"|\*[^*]+\*)'
CELL = re.compile(rf"—|{ITEM}(?:[,;] {ITEM})*")

# For each column: what a reference may be, the path that its parts make, and a pattern that the text there must match,
# with the last part in it.
DECLARATION = r"^(?:(?:abbrev|unfoldable|pub) )*(?:(?:record|data) {0} |{0} :)"
FORMS = {
    "definition": ((r"(\w+)/(\w+): (\S+)", "crates/{}/specs/{}.antt", DECLARATION),),
    "function": ((r"(\w+): (\w+)", "crates/{}/src", r'^ *(?:pub )?(?:extern "C" )?(?:fn|struct|enum|const) {}\b'),),
    "law or promise": ((r"(\w+)/(\w+): (\S+)", "crates/{}/proofs/{}.antt", DECLARATION),
                       (r"(\w+): (\w+)", "crates/{}/src", r"^ *ensures {} "),
                       (r'D "(.+)"', "docs/DECISIONS.md", r"^(?:\*\*{0}\.?\*\*|## {0}$)")),
    "must-fail": ((r"(\w+)/(\w+)", "crates/{}/must-fail/{}.edit", ""),),
    "test": ((r"driven: (.+)", "crates/driven/stdout", r"^{}(?: not valid| one \d \d| \d+| \d+ \d+)$"),
             (r"corpus: (examples)", "crates/corpus/data/{}.bin", ""),
             (r"corpus: (\w+)", "tools/groups.py", r"(?s)^GROUPS = .*\b{}\b"),
             (r"(\w+\.py): (\w+)", "tools/{}", r"^def {}\("),
             (r"(differential)", "bench/speed/src/bin/{}.rs", ""),
             (r"(bench/(?:run|\w+\.py))", "{}", ""),
             (r"(\w+)", "crates/{}/stdout", "")),
}


# ---- documents 01 and 02

def paper_sections(text):
    """The sentences of each section of a paper, under its number.

    A heading begins a section, and so does a first sentence in bold; one that names a wish has W and the wish's number,
    the others are counted from 1. A row of a table is a sentence. Any other line is a paragraph or an item of a list; in
    it a sentence ends with a full stop before a space, or with the line.
    """
    sections = {}
    for line in filter(None, map(str.strip, text.splitlines())):
        title = re.match(r"#+ .*|\*\*(?:Wish (\d+)\. )?[^*]+\.\*\* ", line)
        if title:
            sentences = sections.setdefault(f"W{title[1]}" if title[1] else str(len(sections) + 1), [])
            line = line[title.end():]
        if line.startswith("|"):
            sentences += [line] if set(line) - set("|-") else []
        elif line:
            sentences += re.split(r"(?<=\.) ", re.sub(r"^(?:-|\d+\.) ", "", line))
    return sections


def print_paper(path):
    """Prints the numbered sentences of document 01, or of the built wishes of document 02; returns whether there are as
    many as SECTIONS says."""
    found = paper_sections(Path(path).read_text(encoding="utf-8"))
    of_wishes = any(section.startswith("W") for section in found)
    expected = {section: count for section, (_, count) in SECTIONS.items()
                if section != "0" and section.startswith("W") == of_wishes}
    for section in expected:
        for at, sentence in enumerate(found.get(section, []), start=1):
            print(f"{section}.{at} {sentence}")
    counts = {section: len(sentences) for section, sentences in found.items() if not of_wishes or section in expected}
    if counts != expected:
        print(f"{path}: the sections have {counts} sentences, expected {expected}")
    return counts == expected


# ---- the tree

def outline(text):
    """The lines of an .antt file at its left edge and at those of its modules: no field of a record is among them."""
    lines, edge = [], 0
    for line in text.splitlines():
        code = line.lstrip()
        indent = len(line) - len(code)
        if code and not code.startswith("--"):
            edge = min(edge, indent)
            if indent == edge:
                lines.append(code)
                edge += 2 if code.startswith("module ") else 0
    return "\n".join(lines)


@lru_cache(maxsize=None)
def text_of(path):
    """The text of a file, or of all files of a crate's src/; of an .antt file its outline."""
    found = ROOT / path
    files = sorted(found.glob("*.rt")) if found.is_dir() else [found]
    text = "\n".join(file.read_text(encoding="utf-8") for file in files)
    return outline(text) if path.endswith(".antt") else text


def lack_of(column, reference):
    """What the tree lacks of a reference, in words; None if it exists."""
    for form, path, pattern in FORMS[column]:
        parts = re.fullmatch(form, reference)
        if parts:
            path, name = path.format(*parts.groups()), parts[parts.lastindex]
            if not (ROOT / path).exists():
                return f"there is no {path}"
            is_there = not pattern or re.search(pattern.format(re.escape(name)), text_of(path), re.MULTILINE)
            return None if is_there else f"{path} has no {name}"
    return "this is no reference"


# ---- docs/TRACE.md

def read_rows():
    """The rows of the tables, each with the number of its line. A line without seven cells is a cell as a whole."""
    heading = ""
    for at, line in enumerate(text_of(TRACE).splitlines(), start=1):
        heading = line[3:] if line.startswith("## ") else heading
        cells = tuple(cell.strip() for cell in line.strip("|").split("|"))
        if line.startswith("|") and cells != COLUMNS and set(line) - set("|-"):
            cells = cells if len(cells) == len(COLUMNS) else (line, *"——————")
            yield at, {"heading": heading, **dict(zip(COLUMNS, cells))}


def references(cell):
    """The references of a cell, each with one name: `a/B: c, d` is two. What is in italics is none."""
    for item in re.findall(ITEM, cell):
        prefix, colon, names = item.strip("`").partition(": ")
        if item.startswith("`") and colon and prefix != "driven":
            yield from (f"{prefix}: {name}" for name in names.split(", "))
        elif not item.startswith("*"):
            yield item.strip("`")


def numbers_of(row):
    """The sentences of a row, each a section and a number in it; none if its first cell has anything else."""
    if not re.fullmatch(r"W?\d+\.\d+(?:, W?\d+\.\d+)*", row["no."]):
        return []
    return [(section, int(at)) for section, at in (number.split(".") for number in row["no."].split(", "))]


def number_faults(rows):
    """Numbers that are not the paper's, not in its order or not in their section, and sentences without a row."""
    last = SENTENCES[0]
    for at, row in rows:
        numbers = numbers_of(row)
        if not numbers or not set(numbers) <= set(SENTENCES):
            yield f"{TRACE}:{at}: no.: {row['no.']}: this is no number of a sentence"
        elif [last, *numbers] != sorted([last, *numbers], key=SENTENCES.index):
            yield f"{TRACE}:{at}: no.: {row['no.']}: this is out of order"
        else:
            last = numbers[0]
            if row["heading"] != f"{last[0]} {SECTIONS[last[0]][0]}":
                yield f"{TRACE}:{at}: no.: {row['no.']}: this stands under the heading {row['heading']}"
    named = {number for _, row in rows for number in numbers_of(row)}
    yield from (f"{TRACE}: no row has {section}.{at}" for section, at in SENTENCES if (section, at) not in named)


def name_faults(rows):
    """Cells that are no list of references, and names that do not exist."""
    for at, row in rows:
        for column in FORMS:
            if not CELL.fullmatch(row[column]):
                yield f"{TRACE}:{at}: {column}: {row[column]}: this is no list of references"
            for reference in references(row[column]):
                lack = lack_of(column, reference)
                if lack:
                    yield f"{TRACE}:{at}: {column}: {reference}: {lack}"


def edit_faults(rows):
    """Edits that no row names."""
    named = {edit for _, row in rows for edit in references(row["must-fail"])}
    for path in sorted(ROOT.glob("crates/*/must-fail/*.edit")):
        if f"{path.parent.parent.name}/{path.stem}" not in named:
            yield f"{path.relative_to(ROOT)}: no row names it"


def check():
    """Prints the faults, or the counts if there is none; returns whether there is none."""
    rows = list(read_rows())
    faults = [*number_faults(rows), *name_faults(rows), *edit_faults(rows)]
    names = {column: {name for _, row in rows for name in references(row[column])} for column in FORMS}
    edits = len(names.pop("must-fail"))
    counts = f"{len(rows)} rows, {len(SENTENCES)} sentences, {sum(map(len, names.values()))} names, {edits} edits"
    print("\n".join(faults) or counts)
    return not faults


def main(arguments):
    if arguments == ["--check"]:
        return check()
    if len(arguments) == 2 and arguments[0] == "--paper":
        return print_paper(arguments[1])
    print(__doc__, file=sys.stderr)
    return False


if __name__ == "__main__":
    sys.exit(0 if main(sys.argv[1:]) else 1)
