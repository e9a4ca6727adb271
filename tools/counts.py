"""Compares the counts and limits in the pages with the tree, and the shares of time that sentences
name with bench/results.txt, as the tables of bench/tables.py have them, or writes the right ones
into the pages. Each page must have its sentences once.
"""
import glob
import pathlib
import re
import statistics
import sys

import definitions
from rattle import TOP, constant, exports_for_c, lines_with_unsafe, text_of

sys.path.insert(0, f"{TOP}/bench")
import tables  # noqa: E402


def files(pattern):
    """How many files of the tree have such a path."""
    return len(glob.glob(f"{TOP}/{pattern}"))


def lines(pattern):
    """How many lines the files with such a path have."""
    return sum(it.read_bytes().count(b"\n") for it in pathlib.Path(TOP).glob(pattern))


def commands(path, name):
    """How many lines of a file ask this command."""
    return len(re.findall(rf"^{name} ", text_of(f"{TOP}/{path}"), re.M))


SHARES = tables.rows()[0]


def shares(*names):
    """The least and the greatest of the median shares of rows with such a name."""
    medians = [statistics.median(row) for name, row in SHARES.items()
               if any(re.fullmatch(it, name) for it in names)]
    return min(medians), max(medians)


def share(name, digits=2):
    return f"{shares(name)[0]:.{digits}f}"


def spread(*names, digits=2):
    """The count of each end of a spread, as a sentence has them."""
    return tuple(f"{it:.{digits}f}" for it in shares(*names))


LINE_DEPTH = constant(f"{TOP}/crates/jsonb_cli/src/command.rt", "MAX_WORD_DEPTH")
WITHOUT_MEMORY = sum("Global" not in it.signature for _, it in exports_for_c())
# The statuses for C that are neither 0 nor the number of an error of the library.
OTHER_STATUSES = len(re.findall(r"^abbrev pub \w+ : ℕ$",
                                text_of(f"{TOP}/crates/kohiblad/specs/Status.antt"), re.M))
KEYS = "tests/lines/jsonb_probe/comparable-keys.in"
NEIGHBOURS = commands(KEYS, "cmp")
ALIKE = r"(?:middle|last) of \d+ numbered"
NUMBER = r"([\d.]+\d)"
# The counts of each page: its sentence, with the places of the counts, and these.
PAGES = {
    "README.md": [
        (r"tries ([\d,]+) wrong bodies", files("crates/*/must-fail/*.edit")),
        (r"tries ([\d,]+) further wrong bodies", files("crates/*/wrong/*.edit")),
        (r"of\smore than ([\d,]+) levels", LINE_DEPTH),
        (rf"a binary tree, at {NUMBER} times the crate's encoder", share("halves 17 canon", 1)),
    ],
    "docs/PROOFS.md": [
        (r"rests on ([\d,]+) definitions, ([\d,]+) lines in ([\d,]+) files",
         definitions.of_headline()),
        # Each line asks one of the two readers.
        (r"run on ([\d,]+) byte strings", lines("tests/lines/jsonb_probe/reader_faults.in") // 2),
        (r"([\d,]+) lines of `jsonb_cli`", lines("tests/lines/jsonb_cli/*.in")),
        (r"([\d,]+) of `jsonb_probe`", lines("tests/lines/jsonb_probe/*.in")),
        (r"nests deeper than ([\d,]+) is accepted", LINE_DEPTH),
        (r"at its limit of ([\d,]+) levels", LINE_DEPTH),
    ],
    "docs/ARCHITECTURE.md": [
        (r"at ([\d,]+) calls of `str::from_utf8_unchecked`", len(lines_with_unsafe())),
    ],
    "docs/CONFORMANCE.md": [
        (r"on ([\d,]+) byte strings", lines("tests/lines/jsonb_probe/reader_faults.in") // 2),
        (r"an array or object nested deeper than ([\d,]*\d)", LINE_DEPTH),
    ],
    "docs/GLOSSARY.md": [
        (r"or one of ([\d,]+) more", OTHER_STATUSES),
    ],
    "docs/DECISIONS.md": [
        (r"than ([\d,]+) levels on a line of its input", LINE_DEPTH),
        (r"the ([\d,]+) exports that take none", WITHOUT_MEMORY),
    ],
    "docs/COMPARABLE.md": [
        (r"have ([\d,]+) byte strings with their keys", commands(KEYS, "key")),
        (r"([\d,]+) comparisons of neighbours", NEIGHBOURS),
        (r"all ([\d,]+) ordered pairs", (NEIGHBOURS + 1) ** 2),
        (r"ordered pairs of the ([\d,]+)", NEIGHBOURS + 1),
    ],
    "bench/README.md": [
        (r"limit of `jsonb_cli`, ([\d,]+) levels", LINE_DEPTH),
        (rf"keys that begin alike take {NUMBER} to {NUMBER}", spread(ALIKE)),
        (rf"Keys that differ early take {NUMBER} to {NUMBER}",
         spread(r"(?:middle|last) of \d+ scattered")),
        (rf"and `get`, which compares texts, {NUMBER} to {NUMBER}",
         spread(r"(?:middle|last) of \d+ \w+ \(get of a document\)")),
        (rf"of 1,000 levels\*\*: {NUMBER} and {NUMBER}",
         (share("objects build"), share("deep build"))),
        (rf"on 1,000 levels\*\*: {NUMBER}, {NUMBER} and {NUMBER}",
         (share("objects encode"), share("of 3000 encode"), share("deep encode"))),
        (rf"form on `\[\[\.\.\],\[\]\]`\*\*: {NUMBER} and {NUMBER}",
         (share("beside 1000 encode", 1), share("beside 1000 canon", 1))),
        (rf"form on a binary tree\*\*: {NUMBER} and {NUMBER}",
         (share("halves 17 encode", 1), share("halves 17 canon", 1))),
        (rf"form of `\[1,\[\.\.\]\]`\*\*: {NUMBER} to {NUMBER}",
         spread(r"last \d+ canon", digits=1)),
        (rf"of arrays of 50\*\*: {NUMBER} and {NUMBER}",
         (share("of 20 sort", 1), share("arrays sort", 1))),
        (rf"checks each view once: {NUMBER} and {NUMBER}",
         (share("of 20 sort views"), share("arrays sort views"))),
        (rf"a JSON text takes {NUMBER}, and {NUMBER} with",
         (share("text parse"), share("text document"))),
        (rf"objects of four strings\*\*: {NUMBER}\.", share("objects array")),
        (rf"already checked it is {NUMBER}\.", share("objects array checked")),
    ],
}


def compare(is_to_write):
    """The faults, and how many pages have counts."""
    faults = []
    for page, counts in PAGES.items():
        text = was = text_of(f"{TOP}/{page}")
        for sentence, count in counts:
            # A sentence may be broken into lines.
            found = [*re.finditer(sentence.replace(" ", r"\s+"), text)]
            if len(found) != 1:
                faults.append(f"{page}: {sentence} is there {len(found)} times, and not once")
                continue
            wanted = count if isinstance(count, tuple) else (count,)
            wanted = [it if isinstance(it, str) else f"{it:,}" for it in wanted]
            if list(found[0].groups()) != wanted and not is_to_write:
                faults.append(f"{page}: {found[0].groups()} is now {wanted}: {sentence}")
            for group, right in reversed(list(enumerate(wanted, 1))):
                begin, end = found[0].span(group)
                text = f"{text[:begin]}{right}{text[end:]}"
        if is_to_write and text != was:
            with open(f"{TOP}/{page}", "w", encoding="utf-8") as file:
                file.write(text)
    return faults, f"counts of {len(PAGES)} pages"
