#!/usr/bin/env python3
"""Makes a cargo project of the core of the Rust crate, to time and to compare this library with.

    bench/baseline.py REFERENCE OUT
    (cd OUT && cargo build --release --offline)

REFERENCE has source files of the crate `jsonb` 0.5.6 as they were published, each under its path
with `--` between the parts and `.txt` at the end: `src--src--raw.rs.txt` is src/raw.rs. OUT becomes
the project `crate_baseline`. Of each file its items are kept as they are, but for those that need
what is not among the files: serde, the JSON parser and the texts. What is private becomes public,
so that a program can call it. Missing modules are replaced by those of bench/baseline, which are
this project's own: among them the order of numbers and of extension values, so that nothing is
learned of the crate by comparing these two orders.

It needs Debian's packages librust-byteorder-dev, librust-serde-json-dev and librust-itoa-dev.
Nothing of OUT belongs in this repository.
"""
import pathlib
import re
import shutil
import subprocess
import sys

STAND_INS = pathlib.Path(__file__).resolve().parent / "baseline"
CORE = "core--databend--"
WHOLE = [CORE + name for name in ["constants", "jentry", "util", "iterator", "builder"]]
# Of these files an item is kept where its first line holds the pattern.
CHOSEN = {
    CORE + "ser": r"\b(Base|JsonAst)?Encoder\b",
    CORE + "de": r"\bDecoder\b",
    "core--item": "",
    "raw": r"^(?!pub fn from_raw_jsonb)",
    "owned": r"^(?!impl (FromStr|Display)|pub fn to_owned_jsonb)",
}
# Names that are imported from what is not there.
MISSING = re.compile(
    r"^use (serde|num_traits|crate::constants)\b|\b(Serializer|Deserializer|parse_value);$")
MOVED = {"crate::parser::JsonAst": "crate::value::JsonAst", "use ethnum::": "use crate::ethnum::"}


def items(lines, indent):
    """The items that begin at an indent, each with the comments and attributes before it."""
    item = []
    for line in lines:
        item.append(line)
        if re.match(indent + r"(?! |//|#).*[;}]$", line):
            yield item
            item = []
    if any(line.strip() for line in item):
        raise SystemExit("an item has no end: " + item[0])


def head(item):
    """The first line of an item after its comments and attributes, without its indent."""
    lines = (line.strip() for line in item)
    return next((line for line in lines if line and not line.startswith(("//", "#"))), "")


def without_texts(item):
    """The methods of `impl RawJsonb` but the two texts, which serde_json prints."""
    texts = ("pub fn to_string", "pub fn to_pretty_string")
    start = next(at for at, line in enumerate(item) if line.startswith("impl")) + 1
    methods = [m for m in items(item[start:-1], "    ") if not head(m).startswith(texts)]
    return item[:start] + sum(methods, []) + item[-1:]


def kept(text, pattern):
    """The text of a file with the items alone that are kept, and all of it public."""
    for before, after in MOVED.items():
        text = text.replace(before, after)
    lines = []
    for item in items(text.splitlines(), ""):
        if head(item).startswith("use "):
            wanted = not MISSING.search(head(item))
        else:
            wanted = re.search(pattern, head(item))
        if any("pub fn to_string" in line for line in item):
            item = without_texts(item)
        lines += item if wanted else []
    return re.sub(r"\bpub\((crate|super)\)", "pub", "\n".join(lines) + "\n")


def registry():
    """Where Debian keeps the sources of its Rust packages."""
    command = ["dpkg", "-L", "librust-byteorder-dev"]
    files = subprocess.run(command, capture_output=True, text=True, check=True).stdout.split("\n")
    return next(path for path in files if path.endswith("/registry"))


def put_plain_serde_json(out):
    """Copies serde_json under another name: cargo builds a package with one set of features."""
    source = next(pathlib.Path(registry()).glob("serde_json-1.*"))
    shutil.copytree(source, out, dirs_exist_ok=True)
    manifest = out / "Cargo.toml"
    text = manifest.read_text().replace('name = "serde_json"', 'name = "plain_serde_json"', 1)
    # Its own tests and benches are not built, and what they need is not there.
    manifest.write_text(re.sub(r"\[dev-dependencies.*?(?=^\[(?!dev-dependencies)|\Z)", "", text,
                               flags=re.S | re.M))


def main(reference, out):
    for name, pattern in CHOSEN.items() | dict.fromkeys(WHOLE, "").items():
        text = (reference / f"src--src--{name}.rs.txt").read_text()
        file = out / "src" / (name.replace("--", "/") + ".rs")
        file.parent.mkdir(parents=True, exist_ok=True)
        file.write_text(kept(text, pattern))
    for file in STAND_INS.glob("*.rs"):
        (out / "src" / file.name).write_text(file.read_text())
    (out / "Cargo.toml").write_text((STAND_INS / "Cargo.toml.in").read_text())
    (out / ".cargo").mkdir(exist_ok=True)
    (out / ".cargo" / "config.toml").write_text(
        '[source.crates-io]\nreplace-with = "packaged"\n\n'
        f'[source.packaged]\ndirectory = "{registry()}"\n')
    put_plain_serde_json(out / "plain_serde_json")


if __name__ == "__main__":
    if len(sys.argv) != 3:
        raise SystemExit(__doc__)
    main(*map(pathlib.Path, sys.argv[1:]))
