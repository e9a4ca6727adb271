"""Compares what bindings say of the exports with the description of these: the prototypes and
structs of Python, all of bindings/python/src/kohiblad/_exports.py, and those of Rust, all of
bindings/rust/src/exports.rs. Both can be written.
"""
import re
import textwrap

import exports
from rattle import TOP, text_of

PYTHON = "bindings/python/src/kohiblad/_exports.py"
RUST = "bindings/rust/src/exports.rs"
STRUCT = re.compile(r"^struct (\w+) \{(.*?)^\};", re.M | re.S)
FIELD = re.compile(r"(struct \w+|\w+) (\w+);")

PYTHON_HEAD = '''\
"""The exports of libkohiblad, with what they take and return: tools/pages makes this file of
kohiblad.h.
"""
from ctypes import Structure, c_bool, c_int32, c_int64, c_size_t, c_uint32, c_uint64, c_void_p
from typing import Any, Dict, Tuple

# A pointer, and the length of what is there.
_BLOCK = (c_void_p, c_size_t)
'''
TABLE_HEAD = '''
# By the name without kohiblad_ the type of the result, and then those of the arguments.
PROTOTYPES: Dict[str, Tuple[Any, ...]] = {
'''

RUST_HEAD = '''\
//! The exports of libkohiblad, with what they take and return: tools/pages makes this file of
//! kohiblad.h.
// The crate does not call all of them.
#![allow(dead_code)]
'''
RUST_STRUCT = '''
#[repr(C)]
#[derive(Clone, Copy, Debug, Default)]
pub struct {name} {{
{fields}}}
'''


def structs_of(header):
    """The structs that cross, with the types and names of their fields."""
    for name, body in STRUCT.findall(exports.COMMENT.sub("", header)):
        # Those with pointers are for the functions of the header alone.
        if "*" not in body:
            yield name, FIELD.findall(body)


def in_words(name):
    """The name of a struct as a class has it."""
    return "".join(it.title() for it in name.removeprefix("kohiblad_").split("_"))


def python_type(kind):
    if kind.startswith("struct "):
        return in_words(kind.removeprefix("struct "))
    return "c_" + kind.removesuffix("_t") if kind != "size_t" else "c_size_t"


def python_class(name, fields):
    listed = ", ".join(f'("{field}", {python_type(kind)})' for kind, field in fields)
    # A pair stays in one line.
    joined = re.sub(r", (?=\w)", ",\0", f"    _fields_ = [{listed}]")
    lines = textwrap.fill(joined, 100, subsequent_indent=" " * 16, break_long_words=False)
    lines = lines.replace("\0", " ")
    return f"\nclass {in_words(name)}(Structure):\n{lines}\n"


def python_prototype(export):
    types = [python_type(export.result)]
    counts = {it.count for it in export.blocks}
    blocks = {it.name: "*_BLOCK" if it.count else "c_void_p" for it in export.blocks}
    types += [blocks.get(it.name) or python_type(it.type) for it in export.arguments
              if it.name not in counts]
    text = f'    "{export.name}": ({", ".join(types)}{"," * (len(types) == 1)}),'
    indent = " " * (text.index("(") + 1)
    return textwrap.fill(text, 100, subsequent_indent=indent, break_long_words=False) + "\n"


def for_python(header, described):
    classes = [python_class(name, fields) for name, fields in structs_of(header)]
    lines = [python_prototype(it) for it in described]
    return "\n".join([PYTHON_HEAD, *classes, TABLE_HEAD]) + "".join(lines) + "}\n"


def rust_type(kind):
    if kind.startswith("struct "):
        return in_words(kind.removeprefix("struct "))
    if kind == "bool":
        return kind
    sign, bits = re.fullmatch(r"(u?)int(\d+)_t|size_t", kind).groups()
    return f"{'u' if sign else 'i'}{bits}" if bits else "usize"


def rust_name(name):
    return "r#type" if name == "type" else name


def rust_struct(name, fields):
    lines = "".join(f"    pub {rust_name(field)}: {rust_type(kind)},\n" for kind, field in fields)
    return RUST_STRUCT.format(name=in_words(name), fields=lines)


def rust_function(export):
    """The declaration of an export, as rustfmt lays it out."""
    listed = []
    for it in export.arguments:
        star = "" if not it.is_pointer else "*mut " if it.is_written else "*const "
        listed.append(f"{rust_name(it.name)}: {star}{rust_type(it.type)}")
    head = f"    pub fn kohiblad_{export.name}("
    short, end = f"{head}{', '.join(listed)})", f" -> {rust_type(export.result)};"
    if len(short + end) < 100:
        return f"{short}{end}\n"
    if len(short + end) == 100:
        return f"{short}\n       {end}\n"
    lines = "".join(f"        {it},\n" for it in listed)
    return f"{head}\n{lines}    ){end}\n"


def for_rust(header, described):
    structs = [rust_struct(name, fields) for name, fields in structs_of(header)]
    functions = [rust_function(it) for it in described]
    return "".join([RUST_HEAD, *structs, '\nextern "C" {\n', *functions, "}\n"])


def compare(is_to_write):
    """The faults, and how many prototypes there are."""
    header = text_of(exports.HEADER)
    described = exports.declared_in(header)
    made = {PYTHON: for_python(header, described), RUST: for_rust(header, described)}
    faults = []
    for path, text in made.items():
        if is_to_write:
            with open(f"{TOP}/{path}", "w", encoding="utf-8") as file:
                file.write(text)
        if text_of(f"{TOP}/{path}") != text:
            faults.append(f"{path} is not what is made of kohiblad.h: tools/pages --write")
    return faults, f"{len(described)} exports for {len(made)} languages"
