#!/usr/bin/env python3
"""Asks the model of meaning.py the examples of crates/jsonb_path/specs/Examples.antt, and those of
the tables of docs/PATHS.md, which have each path that the help of `kohiblad` shows.

    tests/paths/examples.py

A line of examples.txt has a document, a path, the values that the path gives as an array, and the
SQLSTATE of an error if they end with one, with tabs between them. A line of the page's tables has a
path, a document, and values, `nothing`, or an error's name. The last line is
`N examples, D differ`, and the status is 1 unless D is 0. A path of the help that is not on the page
counts as one that differs.
"""
import os
import re
import sys

sys.dont_write_bytecode = True
from meaning import Outcome, path_gives
from texts import read_document, read_path, write_document
from values import PathError

HERE = os.path.dirname(os.path.abspath(__file__))
TABLE = f"{HERE}/examples.txt"
PAGE = f"{HERE}/../../docs/PATHS.md"
HEAD = "| path | document | gives |"
HELP = f"{HERE}/../../crates/kohiblad_shell/src/path_help.rt"
# How wide the paths of the help are.
WIDTH = 31


def lines_of(path):
    with open(path, encoding="utf-8") as file:
        return file.read().split("\n")


def examples():
    """The lines of the table, as lists of their parts."""
    return [it.split("\t") for it in lines_of(TABLE) if it and not it.startswith("#")]


def examples_of_page():
    """The lines of the page's tables with this head, in the same form."""
    is_inside = False
    for line in lines_of(PAGE):
        is_inside = line == HEAD or is_inside and line.startswith("|")
        if is_inside and line.startswith("| `"):
            path, document, given = re.split(r" \| ", line.strip("| ").replace("\\|", "\0"))
            path, document = (it[1:-1].replace("\0", "|") for it in (path, document))
            yield document, path, *parts_given(given)


def paths_of_help():
    """The paths that the help shows: some of a line, with spaces between them."""
    for line in lines_of(HELP):
        if line.startswith("  "):
            yield from re.split(" {3,}", line[2:].replace('\\"', '"')[:WIDTH].strip())


def parts_given(given):
    """The values of a line of the page as an array, and the SQLSTATE of an error."""
    if name := re.fullmatch(r"error `(\w+)`", given):
        snake = re.sub(r"(?<=[a-z])(?=[A-Z])", "_", name[1]).upper()
        return "[]", PathError[snake].value
    values = [] if given == "nothing" else re.findall(r"`([^`]*)`", given)
    return (f"[{', '.join(values)}]",)


def expected_of(values, error=None):
    """The outcome of a line."""
    return Outcome(read_document(values), PathError(error) if error else None)


def shown(outcome):
    """An outcome in words."""
    return write_document(outcome.values) + (f" {outcome.error.name}" if outcome.error else "")


def main():
    count = differ = 0
    of_page = {path for _, path, *_ in examples_of_page()}
    for path in paths_of_help():
        count += 1
        if path not in of_page:
            differ += 1
            print(f"not on the page: {path}")
    for document, path, *expected in [*examples(), *examples_of_page()]:
        count += 1
        found = path_gives(read_path(path), {}, read_document(document))
        if found != expected_of(*expected):
            differ += 1
            print(f"differs: {path} of {document}: {shown(found)}")
    print(f"{count} examples, {differ} differ")
    return differ > 0


if __name__ == "__main__":
    sys.exit(main())
