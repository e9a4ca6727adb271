"""The exports of the library for C, each as one description, of which the functions of
bindings/kohiblad.h, the prototypes of the bindings and the tests of tests/c_library are made.

What an export takes and returns is its declaration in kohiblad.h; whether it takes memory, the
allocator in its signature in crates/kohiblad; and what neither says is in tools/data/exports. An
export that the header does not declare yet is declared after the one above it in its file.
"""
import functools
import re

import rattle
from rattle import TOP, text_of

HEADER = f"{TOP}/bindings/kohiblad.h"
TABLE = f"{TOP}/tools/data/exports"
# The declaration of a function of the header: its result, its name and its arguments.
DECLARATION = re.compile(r'^static inline ((?:struct )?\w+) kohiblad_(\w+)\(([^)]*)\)\s*'
                         r'KOHIBLAD_INLINE\("kohiblad_(\w+)"\);', re.M)
COMMENT = re.compile(r"/\*.*?\*/", re.S)
# What the tests of all exports give an argument that has another name than this.
GIVEN = dict.fromkeys(("bytes", "left", "target", "payload", "prefix", "value"), "document")
GIVEN |= {"right": "other", "patch": "other", "name": "key"}


class Argument:
    """An argument as C has it, its type without a qualifier and a star."""

    def __init__(self, written):
        self.written = " ".join(written.split())
        self.name = re.search(r"\w+$", self.written)[0]
        # With the qualifier and the star.
        self.whole_type = self.written.removesuffix(self.name).rstrip()
        self.is_pointer = self.whole_type.endswith("*")
        self.is_written = self.is_pointer and not self.whole_type.startswith("const ")
        self.type = self.whole_type.removeprefix("const ").removesuffix("*").rstrip()


class Block:
    """Memory that a call reads or writes: values of a type, as many as the argument `count` says,
    or one where there is none."""

    def __init__(self, argument, count):
        self.name, self.type, self.count = argument.name, argument.type, count
        self.is_written = argument.is_written

    @property
    def size(self):
        """Its size in bytes, as C writes it."""
        if not self.count:
            return f"sizeof *{self.name}"
        return self.count if self.type == "uint8_t" else f"{self.count} * sizeof *{self.name}"


class Export:
    """An export, named without kohiblad_."""

    def __init__(self, result, name, listed):
        self.result, self.name = result, name
        self.arguments = [Argument(it) for it in listed.split(",") if it.strip() != "void"]
        self.blocks = list(self._blocks())
        self.has_depth = any(it.name == "depth" for it in self.arguments)

    def _blocks(self):
        for it, after in zip(self.arguments, [*self.arguments[1:], None]):
            if not it.is_pointer:
                continue
            has_count = after and after.type == "size_t" and not after.is_pointer
            is_room = has_count and re.search("room$", after.name)
            yield Block(it, after.name if has_count and (is_room or not it.is_written) else None)

    @property
    def read(self):
        return [it for it in self.blocks if not it.is_written]

    @property
    def written(self):
        return [it for it in self.blocks if it.is_written]

    @property
    def returns_struct(self):
        return self.result.startswith("struct ")

    def with_name(self, name):
        """The declaration by another name, without its end."""
        listed = ", ".join(it.written for it in self.arguments) or "void"
        return f"{self.result} {name}({listed})"


class Facts:
    """What the table says of an export."""

    def __init__(self, words):
        self.stack, *said = words
        named = dict(it.split("=") for it in said)
        self.deep = named.pop("deep", "INVALID_JSONB")
        self.given = named


def declared_in(header):
    """The exports that a header declares, in its order."""
    return [Export(result, name, listed)
            for result, name, listed, _ in DECLARATION.findall(COMMENT.sub("", header))]


@functools.lru_cache(maxsize=None)
def table():
    """What the table says, by the names of exports."""
    lines = [it.split() for it in text_of(TABLE).split("\n") if it and not it.startswith("#")]
    return {name: Facts(words) for name, *words in lines}


def given(export, block):
    """What the tests of all exports give a call for what it reads."""
    facts, read = table().get(export.name), [it.name for it in export.read]
    if facts and block.name in facts.given:
        return facts.given[block.name]
    if block.name == "bytes" and {"offsets", "places"} & {*read}:
        return "rows"
    return GIVEN.get(block.name, block.name)


@functools.lru_cache(maxsize=None)
def takers_of_memory():
    """The names of the exports that take an allocator."""
    return {it.name.removeprefix("kohiblad_") for _, it in rattle.exports_for_c()
            if "Global" in it.signature}


def faults_of_table(exports):
    """Where the table has other exports than the header, or lacks one with a depth."""
    named = {it.name: it for it in exports}
    for name, facts in table().items():
        if name not in named:
            yield f"tools/data/exports: there is no export {name}"
            continue
        read = [it.name for it in named[name].read]
        yield from (f"tools/data/exports: {name} reads no {it}" for it in facts.given
                    if it not in read)
    for name, it in named.items():
        if it.has_depth and name not in table():
            yield f"tools/data/exports has no line for {name}, which takes a depth"
