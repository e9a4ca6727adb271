"""Compares each place that names the version with the file VERSION, or writes it there.

A new version is one edit of VERSION and one call of `tools/pages --write version`. PostgreSQL also
needs the script from the version before, which its Makefile and META.json name.
"""
import re

from rattle import TOP, text_of

# How each word of PLACES looks in a file.
FORMS = {"<version>": r"\d+\.\d+\.\d+", "<minor>": r"\d+\.\d+", "<number>": r"\d+",
         "<first>": r"\d+"}
SONAME = "libkohiblad.so.<minor>"
# The places by their files. A place may be there more than once.
PLACES = {
    "README.md": ["This is version <version> of"],
    "bench/typed/columns.py": [SONAME],
    "crates/jsonb_probe/src/arguments.rt": ['"jsonb_probe <version>\\n"'],
    "crates/kohiblad_shell/src/command_line.rt": ['.version("<version>")'],
    "tests/shell/wrong_input.md": ["kohiblad <version>"],
    "crates/kohiblad/src/answer.rt": ["const VERSION: u32 = <number>;",
                                      "ensures { result ≡ <number> }"],
    "bindings/kohiblad.h": ["#define KOHIBLAD_VERSION <number>"],
    "bindings/kohiblad_cffi.h": ["#define KOHIBLAD_VERSION <number>"],
    "bindings/postgresql/META.json": ['"version": "<version>",\n    "maintainer"',
                                      '"version": "<version>"\n        }'],
    "bindings/postgresql/README.md": ["the version of the library, as `<version>`"],
    "bindings/postgresql/kohiblad.control": ["default_version = '<minor>'"],
    "bindings/postgresql/kohiblad_compat.control": ["default_version = '<minor>'"],
    "bindings/postgresql/kohiblad_jsonb_order.control": ["default_version = '<minor>'"],
    "bindings/python/.gitignore": [SONAME],
    "bindings/python/README.md": [SONAME],
    "bindings/python/build_backend/kohiblad_build.py": [SONAME],
    "bindings/python/src/kohiblad/__init__.py": ['__version__ = "<version>"'],
    "bindings/python/src/kohiblad/_library.py": [SONAME, "OLDEST_VERSION = <first>"],
    "bindings/python/src/native/native.h": ["KOHIBLAD_VERSION < <first>",
                                            "of version <first> or newer"],
    "bindings/rust/Cargo.lock": ['name = "kohiblad"\nversion = "<version>"'],
    "bindings/rust/Cargo.toml": ['name = "kohiblad"\nversion = "<version>"'],
    "bindings/rust/build.rs": ["kohiblad >= <minor>"],
    "bindings/rust/src/lib.rs": ["<number> is <version>.", "kohiblad::version() >= <first>"],
    "bindings/sqlite/FUNCTIONS.md": ["the version of the library, as `<version>`"],
    "docs/RELEASE.md": ["libkohiblad<minor>_*.deb", "need `libkohiblad<minor>`",
                        "minor version, as <minor>:"],
    "docs/STABILITY.md": ["within a minor version, as <minor> "],
    "docs/C.md": [SONAME, "`KOHIBLAD_<minor>`"],
    "tools/install": [SONAME],
}


def words_of(version):
    """What stands for each word: the number is a million a major, a thousand a minor version."""
    major, minor, patch = map(int, version.split("."))
    first = major * 1_000_000 + minor * 1000
    return {"<version>": version, "<minor>": f"{major}.{minor}", "<number>": str(first + patch),
            "<first>": str(first)}


def replaced(template, words):
    return re.sub("<[a-z]+>", lambda it: words[it[0]], template)


def compare(is_to_write):
    """The faults, and how many places there are."""
    words = words_of(text_of(f"{TOP}/VERSION").strip())
    faults = []
    for path, templates in PLACES.items():
        text = made = text_of(f"{TOP}/{path}")
        for template in templates:
            right = replaced(template, words)
            made, count = re.subn(replaced(re.escape(template), FORMS), lambda _: right, made)
            if not count:
                faults.append(f"{path}: there is no place as {template}")
        if made != text and is_to_write:
            with open(f"{TOP}/{path}", "w", encoding="utf-8") as file:
                file.write(made)
        elif made != text:
            faults.append(f"{path} has another version than VERSION: tools/pages --write version")
    return faults, f"{sum(map(len, PLACES.values()))} places of {words['<version>']}"
