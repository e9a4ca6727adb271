#!/usr/bin/env python3
"""Asks each statement of PostgreSQL's own regression tests of paths once of jsonb, and once of
documents.

    tests/paths/against_regress.py SOURCES [--here]

SOURCES is the folder of the server's sources: `src/test/regress/sql` in it has `jsonpath.sql` and
`jsonb_jsonpath.sql`, which Debian's `apt-get source postgresql-15` brings.

A statement of jsonb_jsonpath.sql is asked as it is, and with `kohiblad` for each `jsonb`. The
answers are the same if both have the same rows, digit for digit, or are errors with one SQLSTATE.
The extension's messages tell who followed the paths: only a path with what is left out by name
(LEFT_OUT) may be handed over to the server. A path of jsonpath.sql is read by the server and by the
library for C: both refuse it, or both read it, and then the server writes the path that the library
prints as it writes the path itself.

The server is started by bindings/postgresql/tests/server.sh, which has the settings, and is stopped
and removed at the end; without one the status is 77. With --here it is the one that PGHOST and
PGUSER name, with the client PSQL. The library is the one that pkg-config finds.

The last line is `N statements, L with what is left out, H handed over, D differ, K as named`. The H
are statements without what is left out whose paths the server followed, and the K, which are not
among the D, differ in a way that is named (NAMED). The status is 1 unless H and D are 0.
"""
import argparse
import collections
import ctypes
import json
import os
import re
import subprocess
import sys

sys.dont_write_bytecode = True
from against_extension import FOLLOWED, HERE, START, TOP

FILES = "jsonpath.sql", "jsonb_jsonpath.sql"
NO_DOCUMENT = "a number that no document has"
# What is left out of the language, by the names that its statements are counted under.
LEFT_OUT = {
    ".datetime()": re.compile(r"\.datetime\("),
    ".double()": re.compile(r"\.double\("),
    "/": re.compile(r"[\w)\]] ?/ ?[-+$@\w(]"),
    ".keyvalue() as an object": re.compile(r"\.keyvalue\(\)(?!\.(?:key|value)\b)"),
    NO_DOCUMENT: re.compile(r"1e1000"),
}
READ_BY_SERVER = "what the library does not read of like_regex"
# Where the server has another answer.
NAMED = {"a sign at the end of `exists`": re.compile(r"@\? '[-+]\$")}
# A statement, with texts and comments in which a semicolon ends none.
STATEMENT = re.compile(r"(?:'(?:[^']|'')*'|--[^\n]*|[^;'])+;")
PATH = re.compile(r"select\s+'((?:[^']|'')*)'::jsonpath")
FUNCTION = """
CREATE FUNCTION pg_temp.answer(statement text) RETURNS text LANGUAGE plpgsql AS $function$
DECLARE
    answer text;
    state text;
BEGIN
    EXECUTE 'SELECT coalesce(json_agg(row_to_json(s)), ''[]'') FROM (' || statement || ') s'
        INTO answer;
    RETURN replace(answer, E'\\n', '');
EXCEPTION WHEN OTHERS THEN
    GET STACKED DIAGNOSTICS state = RETURNED_SQLSTATE;
    RETURN to_json(state);
END $function$;
"""


# ---- the statements

def statements(sources):
    """The statements of the files that ask something, and the settings between them, in order."""
    for name in FILES:
        with open(f"{sources}/src/test/regress/sql/{name}", encoding="utf-8") as file:
            text = file.read()
        for it in STATEMENT.findall(text):
            yield re.sub(r"^\s*(--[^\n]*\s*)*", "", re.sub(r"--[^'\n]*$", "", it, flags=re.M))[:-1]


def is_setting(statement):
    return statement.lower().startswith("set ")


def of_documents(statement):
    """The statement that asks documents."""
    return statement.replace("jsonb", "kohiblad")


def quoted(text):
    """The text as a constant of SQL."""
    return "'" + text.replace("'", "''") + "'"


def script_of(asked):
    """What psql is asked. Each statement is asked after a line with its number on standard error,
    since the extension's messages come there."""
    yield FUNCTION
    yield "SET client_min_messages = debug1;"
    for number, statement in enumerate(asked):
        yield f"\\warn = {number}"
        yield f"{statement};" if is_setting(statement) else (
            f"SELECT pg_temp.answer({quoted(statement)});")


def ask(asked, is_here):
    """The answers to statements, and who followed the paths of each."""
    ran = subprocess.run(
        ["bash", "-c", HERE if is_here else START], cwd=TOP, input="\n".join(script_of(asked)),
        capture_output=True, text=True, check=False,
    )
    if ran.returncode:
        print(ran.stdout, ran.stderr[-2000:], end="")
        sys.exit(ran.returncode)
    answers = iter(ran.stdout.splitlines())
    read = lambda: json.loads(next(answers), object_pairs_hook=list, parse_float=str, parse_int=str)
    told = re.split(r"^= \d+\n", ran.stderr, flags=re.M)[1:]
    return [(None if is_setting(statement) else read(), set(FOLLOWED.findall(it)))
            for statement, it in zip(asked, told)]


# ---- the library's reader

class Refusal(ctypes.Structure):
    """`struct kohiblad_path_refusal` of the header."""
    _fields_ = [
        ("status", ctypes.c_uint32), ("reason", ctypes.c_uint32), ("offset", ctypes.c_uint64),
        ("expected", ctypes.c_uint32), ("mark", ctypes.c_uint32), ("found", ctypes.c_uint32),
        ("left_out", ctypes.c_uint32),
    ]


def library():
    """The installed library for C."""
    prefix = os.environ.get("PREFIX")
    places = {**os.environ, "PKG_CONFIG_PATH": f"{prefix}/lib/pkgconfig"} if prefix else None
    words = ["pkg-config", "--variable=libdir", "kohiblad"]
    found = subprocess.run(words, env=places, stdout=subprocess.PIPE, text=True, check=True)
    made = ctypes.CDLL(f"{found.stdout.strip()}/libkohiblad.so")
    made.kohiblad_path_fault.restype = Refusal
    return made


def printed(made, path):
    """The path that the library prints, or its refusal."""
    text, length = path.encode(), ctypes.c_size_t()
    size = ctypes.c_size_t(len(text))
    refusal = made.kohiblad_path_fault(text, size)
    if refusal.status:
        return refusal
    room = ctypes.create_string_buffer(16 * len(text) + 64)
    status = made.kohiblad_path_print(text, size, room, ctypes.c_size_t(len(room)),
                                      ctypes.byref(length))
    assert status == 0, (path, status)
    return room.raw[: length.value].decode()


def path_of(statement):
    """The text of a statement's path, if it asks for nothing else."""
    found = PATH.fullmatch(statement)
    return found[1].replace("''", "'") if found else None


# ---- the comparison

def same_names(answer):
    """An answer with the names of jsonb."""
    return json.dumps(answer).replace("kohiblad", "jsonb")


def why_left_out(statement, shown):
    """The names of what is left out, in a statement whose path the library prints or refuses."""
    names = [name for name, pattern in LEFT_OUT.items() if pattern.search(statement)]
    if isinstance(shown, Refusal) and shown.left_out and "like_regex" in statement:
        names.append(READ_BY_SERVER)
    return names


def is_refused_so(shown, their, names):
    """Whether a path that the library refuses is refused by the server too, or has what is left
    out."""
    return shown.left_out > 0 if names else isinstance(their, str)


def main():
    parser = argparse.ArgumentParser(description=__doc__.split("\n", maxsplit=1)[0])
    parser.add_argument("sources")
    parser.add_argument("--here", action="store_true")
    words = parser.parse_args()
    made = library()
    every = list(statements(words.sources))
    texts = [path_of(it) for it in every]
    prints = [None if it is None else printed(made, it) for it in texts]
    theirs = ask(every, words.here)
    ours = ask(
        [f"select {quoted(shown)}::jsonpath" if isinstance(shown, str) else of_documents(statement)
         for statement, shown in zip(every, prints)], words.here)
    found, left_out, followers, named = (collections.Counter() for _ in range(4))
    for statement, shown, (their, _), (our, told) in zip(every, prints, theirs, ours):
        if is_setting(statement):
            continue
        names = why_left_out(statement, shown)
        left_out.update(names)
        followers.update(told)
        if isinstance(shown, Refusal):
            is_same = is_refused_so(shown, their, names)
            our = {name: getattr(shown, name) for name, _ in Refusal._fields_}
        else:
            is_same = same_names(our) == same_names(their) or NO_DOCUMENT in names
        ways = [] if is_same else [it for it, pattern in NAMED.items() if pattern.search(statement)]
        named.update(ways)
        is_handed = "the server" in told and not names
        found.update(asked=1, left_out=bool(names), handed=is_handed, named=bool(ways),
                     differ=not is_same and not ways)
        if is_handed or not is_same and not ways:
            print("handed over:" if is_same else "differs:", statement)
            print(f"    jsonb:    {json.dumps(their)}\n    kohiblad: {json.dumps(our)}")
    for name, count in left_out.items():
        print(f"{count} statements with {name}")
    for name, count in followers.most_common():
        print(f"{count} statements followed by {name}")
    for name, count in named.items():
        print(f"{count} statements differ by {name}")
    print(f"{found['asked']} statements, {found['left_out']} with what is left out, "
          f"{found['handed']} handed over, {found['differ']} differ, {found['named']} as named")
    return found["handed"] + found["differ"] > 0


if __name__ == "__main__":
    sys.exit(main())
