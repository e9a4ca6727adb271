"""The command `rt` of the kit as a module, and how many provers run side by side."""
import importlib.machinery
import importlib.util
import os
import shutil
import sys

# The most memory, in bytes, that one prover of one job was seen to take, and a little more; and
# what each further job takes.
MEMORY = 3_300_000_000
MORE = 1_500_000_000


def loaded(path, name="rt"):
    """A program of Python as a module."""
    # Nothing is to be left in the kit's folder.
    sys.dont_write_bytecode = True
    loader = importlib.machinery.SourceFileLoader(name, path)
    made = importlib.util.module_from_spec(importlib.util.spec_from_loader(name, loader))
    loader.exec_module(made)
    return made


rt = loaded(os.path.realpath(shutil.which("rt") or sys.exit("the command rt is not on the path")))
rtlib = rt.rtlib


def lanes():
    """How many provers run side by side: one a processor, as far as the free memory goes."""
    return max(1, min(rt.processors(), rt.free() // MEMORY))
