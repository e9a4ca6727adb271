"""Compares the sample of README with the file that the gate proves.

The first Rust code of README must be crates/uses/src/sample.rt without its heading, its `ghost use`
lines and its clauses.
"""
import re

from rattle import TOP, text_of, without_contracts

PROVED = "crates/uses/src/sample.rt"


def compare(_):
    """The faults, and what was compared."""
    sample = re.search(r"```rust\n(.*?)```", text_of(f"{TOP}/README.md"), re.S)[1]
    is_same = sample.strip() == without_contracts(text_of(f"{TOP}/{PROVED}")).strip()
    faults = [] if is_same else [f"the sample of README is not {PROVED}, but for its clauses"]
    return faults, "the program of README"
