"""Compares the drawings of docs/pictures with what their scripts make of the tree, or writes them.

Each script of docs/pictures but drawing.py makes the SVG of its name, from pages and files of the
tree, and fails if it shows what is no longer in the tree.
"""
import importlib
import os
import sys

from rattle import TOP, text_of

FOLDER = f"{TOP}/docs/pictures"


def read(path):
    return text_of(f"{TOP}/{path}")


def compare(is_to_write):
    """The faults, and how many pictures there are."""
    sys.path.insert(0, FOLDER)
    names = sorted(it[:-3] for it in os.listdir(FOLDER)
                   if it.endswith(".py") and it != "drawing.py")
    faults = []
    for name in names:
        made = str(importlib.import_module(name).draw(read))
        path = f"{FOLDER}/{name}.svg"
        if os.path.exists(path) and text_of(path) == made:
            continue
        if is_to_write:
            with open(path, "w", encoding="utf-8") as file:
                file.write(made)
            print(f"docs/pictures/{name}.svg: written")
        else:
            faults.append(f"docs/pictures/{name}.svg is not what tools/pages --write makes")
    if not names:
        faults.append("docs/pictures has no scripts")
    return faults, f"{len(names)} pictures"
