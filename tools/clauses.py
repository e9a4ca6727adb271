"""Compares the pages PAGES of docs with the code: each clause that they name after a call must be a
clause of that call.

Clauses are written as CALLS: CLAUSES, each name in backticks, and end at the first other word. A
call is a function, or a method as TYPE::NAME.
"""
import collections
import os
import re

from rattle import TOP, files_of, functions_of, text_of

PAGES = ("PROOFS", "COMPARABLE", "TYPED")
CALLS, CLAUSES = r"(`[\w:]+`(?:, `[\w:]+`)*)", r"(`\w+`(?:, `\w+`)*)"
ITEM = re.compile(rf"{CALLS}(?: of `\w+`)?: {CLAUSES}")


def clauses():
    """The names of the clauses of each function and method, by its name; of each that has it."""
    found = collections.defaultdict(list)
    for crate in os.listdir(f"{TOP}/crates"):
        for path in files_of(crate):
            for it in functions_of(path):
                found[it.title].append({name for _, name, _ in it.clauses})
    return found


def compare(_):
    """The faults, and how many calls were compared."""
    found, count, faults = clauses(), 0, []
    for page in PAGES:
        text = re.sub(r"\n *(?=\S)", " ", text_of(f"{TOP}/docs/{page}.md"))
        for calls, listed in ITEM.findall(text):
            names = set(re.findall(r"\w+", listed))
            for call in re.findall(r"[\w:]+", calls):
                count += 1
                if not any(names <= there for there in found.get(call, [])):
                    faults.append(f"docs/{page}.md: {call} has not all of "
                                  + " ".join(sorted(names)))
    if not count:
        faults.append("no page names a clause")
    return faults, f"{count} calls with clauses"
