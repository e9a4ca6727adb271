#!/usr/bin/env python3
"""Asks PostgreSQL's own statements on jsonb of the type kohiblad, and compares the answers.

    bindings/postgresql/tests/statements.sh [--list] [FOLDER]

The statements are those of src/test/regress/sql, jsonb.sql, jsonb_jsonpath.sql and jsonpath.sql.
FOLDER has the sources of the server, or is where tests/peers/run.py downloads Debian's source
package; without it that is a scratch folder. Without the sources the statements are passed over.
Those of jsonpath.sql only read paths: here each path is followed in one document (DOCUMENT).

Each statement is run in a session that has jsonb, and in four others: with `kohiblad` in place of
`jsonb`; with `kohiblad` in place of the type `jsonb` alone, where kohiblad_compat is loaded; the
same where the order of jsonb is set up; and as it is, where kohiblad_compat is loaded. The server
is the one that PGHOST and PGUSER name, and PSQL its client.

Two answers are the same if both are errors with one SQLSTATE, or have the same rows in any order.
Values are compared as JSON where both are JSON, also inside of arrays and records. Statements whose
answers cannot be the same are left out by name (LEFT_OUT). A line has the counts of each session,
and how many of the statements had a path followed by whom, as the messages of the extension say.

    --list    prints each statement whose answers differ, with both
"""
import collections
import csv
import decimal
import glob
import io
import json
import os
import re
import subprocess
import sys
import tarfile
import tempfile

sys.path.insert(0, os.path.join(os.path.dirname(__file__), "../../../tests/peers"))
import run as peers  # noqa: E402

# What a statement that is left out has in it, and why it is.
LEFT_OUT = {
    r"'1(\.3)?e1000?'|'12345\.0{45}5'": "a number past the format's 128 bits",
}
REGRESS = "src/test/regress"
SCRIPTS = ["jsonb", "jsonb_jsonpath", "jsonpath"]
DATA = "data/jsonb.data"
MARK = "-- statement"
# The message, at level DEBUG1, that says which code follows a path.
FOLLOWED = re.compile(r"^DEBUG:  kohiblad: (.*) follows the path$")
# The document in which the paths of jsonpath.sql are followed: a path is a literal with its type.
DOCUMENT = '{"a": [{"b": 1, "c": "x"}, [2, "y", null]], "b": {"c": [true, -2.5]}, "c": "z"}'
PATH = re.compile(r"(E?'(?:[^']|'')*')::jsonpath\b")
# What all sessions set, and which schemas one has beside.
SETTINGS = "-c datestyle=postgres,mdy -c timezone=PST8PDT -c client_min_messages=debug1"
PATHS = {"of_order": " -c search_path=kohiblad_compat,public"}
FIELD_ENDS = {"(": ")", "{": "}"}


def statements_of(text):
    """The statements of a script, without psql's own commands, which stand on lines."""
    token = re.compile(
        r"--[^\n]*|'(?:[^']|'')*'|\"[^\"]*\"|\$(\w*)\$.*?\$\1\$|^\\[^\n]*|;|.", re.S | re.M)
    found, now = [], ""
    for match in token.finditer(text):
        part = match[0]
        if part.startswith("--") or (part.startswith("\\") and not now.strip()):
            continue
        if part == ";":
            found.append(now.strip())
            now = ""
        else:
            now += part
    return found


def fields_of(text):
    """The fields of a record or an array in text, or `None` if it is neither."""
    if len(text) < 2 or FIELD_ENDS.get(text[0]) != text[-1]:
        return None
    fields, now, quoted, in_quotes, i = [], "", False, False, 1
    while i < len(text) - 1:
        char = text[i]
        if char == "\\" and i + 1 < len(text) - 1:
            now += text[i + 1]
            i += 1
        elif char == '"' and in_quotes and text[0] == "(" and text[i + 1] == '"':
            now += '"'
            i += 1
        elif char == '"':
            in_quotes = not in_quotes
            quoted = True
        elif char == "," and not in_quotes:
            fields.append((quoted, now))
            now, quoted = "", False
        else:
            now += char
        i += 1
    return fields + [(quoted, now)]


def frozen(value):
    """A value of JSON in a form that can be compared: numbers by their value, objects unordered."""
    if isinstance(value, dict):
        return ("object", tuple(sorted((key, frozen(it)) for key, it in value.items())))
    if isinstance(value, list):
        return ("array", tuple(frozen(it) for it in value))
    if isinstance(value, bool) or value is None:
        return ("word", str(value))
    if isinstance(value, str):
        return ("string", value)
    return ("number", str(decimal.Decimal(value).normalize()))


def meaning(text, depth=0):
    """What is compared of a value: its JSON, else its fields, else its text."""
    try:
        return frozen(json.loads(text, parse_float=decimal.Decimal, parse_int=decimal.Decimal))
    except (ValueError, decimal.DecimalException):
        fields = fields_of(text) if depth < 9 else None
        if fields is None:
            return ("text", text)
        return ("fields", text[0], tuple((q, meaning(it, depth + 1)) for q, it in fields))


class Answer:
    """What the server says to a statement."""

    def __init__(self, state, output, followed=frozenset()):
        self.state = state
        self.output = output
        self.followed = followed
        rows = csv.reader(io.StringIO(output))
        self.rows = collections.Counter(repr(tuple(meaning(it) for it in row)) for row in rows)

    def is_same(self, other):
        """Whether both are the same error, or the same rows."""
        if self.state != "00000" or other.state != "00000":
            return self.state == other.state
        return self.rows == other.rows

    def __str__(self):
        return self.state if self.state != "00000" else self.output.strip()


def parts_between_marks(text):
    """What a session printed for each statement, with the last word of the mark after it."""
    part = []
    for line in io.StringIO(text):
        if line.startswith(MARK):
            yield "".join(part), line.split()[-1]
            part = []
        else:
            part.append(line)


def followers(messages):
    """Who followed paths, by the messages for a statement."""
    found = map(FOLLOWED.match, messages.splitlines())
    return frozenset(it[1] for it in found if it)


def ask(statements, data, database):
    """The answers to statements, in one session."""
    lines = ["\\set VERBOSITY terse", "\\pset null <NULL>"]
    for number, statement in enumerate(statements):
        lines.append(statement.replace(":'filename'", "STDIN") + ";")
        if statement.startswith("COPY"):
            lines.append(data.rstrip("\n") + "\n\\.")
        lines.append(f"\\echo '{MARK}' {number} :SQLSTATE\n\\warn '{MARK}' {number}")
    run = subprocess.run(
        [os.environ.get("PSQL", "psql"), "-XqAt", "--csv", "-d", database],
        input="\n".join(lines) + "\n", capture_output=True, check=False, encoding="utf-8",
        env={**os.environ, "PGCLIENTENCODING": "UTF8",
             "PGOPTIONS": SETTINGS + PATHS.get(database, "")})
    shown = zip(parts_between_marks(run.stdout), parts_between_marks(run.stderr))
    answers = [Answer(state, output, followers(messages))
               for (output, state), (messages, _) in shown]
    if len(answers) != len(statements):
        raise SystemExit(f"the server broke down after {statements[len(answers)]}\n{run.stderr}")
    return answers


def in_document(statement):
    """A statement of jsonpath.sql with each path followed in a document, and not only read."""
    follows = rf"jsonb_path_query_array(jsonb '{DOCUMENT}', \1::jsonpath, '{{}}', true)"
    return PATH.sub(lambda found: found.expand(follows), statement)


def with_type(statement):
    """The statement with another type in place of jsonb, and the same functions."""
    return re.sub(r"\bjsonb\b", "kohiblad", statement)


# The names of the databases, and the statements that run in each.
SESSIONS = {
    "of_kohiblad": lambda statement: statement.replace("jsonb", "kohiblad"),
    "of_compat": with_type,
    "of_order": with_type,
    "of_both": lambda statement: statement,
}


def reason_of(statement):
    """Why a statement is left out, or `None`."""
    return next((why for what, why in LEFT_OUT.items() if re.search(what, statement)), None)


def files_of_tree(folder, names):
    """The scripts and their data by name, of the sources in a folder, or as many as it has."""
    found = {}
    for name in names:
        path = f"{folder}/{REGRESS}/{name}"
        if os.path.exists(path):
            with open(path, encoding="utf-8") as file:
                found[name] = file.read()
    return found


def files_of_archive(archive, names):
    """The scripts and their data by name, of the sources in an archive, or as many as it has."""
    found = {}
    with tarfile.open(archive) as tar:
        for member in tar:
            for name in names:
                if member.name.endswith(f"{REGRESS}/{name}"):
                    found[name] = tar.extractfile(member).read().decode()
            if len(found) == len(names):
                break
    return found


def files_of(folder):
    """The scripts and their data by name, or `None` if the package cannot be had."""
    names = [f"sql/{script}.sql" for script in SCRIPTS] + [DATA]
    if os.path.isdir(f"{folder}/{REGRESS}"):
        return files_of_tree(folder, names)
    archives = peers.download("postgresql-15", folder)
    files = [files_of_archive(it, names) for it in archives]
    return next((it for it in files if len(it) == len(names)), None)


def answer_in_words(answer, database):
    """The answer with one name for both types, where a session has the other one."""
    if database == "of_both":
        return answer
    output = answer.output.replace("jsonb", "kohiblad")
    return Answer(answer.state, output, answer.followed)


def counted(counts):
    """The counts in words, the greatest last."""
    return ", ".join(f"{counts[it]} {it}" for it in sorted(counts, reverse=True))


def compare(script, database, statements, data, wanted, lists):
    """Prints which answers of a session differ from those that jsonb has, and the counts."""
    changed = [SESSIONS[database](it) for it in statements]
    counts, paths = collections.Counter(), collections.Counter()
    for statement, jsonb, given in zip(changed, wanted, ask(changed, data, database)):
        jsonb, given = answer_in_words(jsonb, database), answer_in_words(given, database)
        reason = reason_of(statement) if database != "of_both" else None
        kind = f"left out, {reason}" if reason else "the same" if jsonb.is_same(given) else "differ"
        counts[kind] += 1
        paths.update(f"by {it}" for it in given.followed)
        if lists and kind == "differ":
            print(f"-- {statement}\n   jsonb:    {jsonb}\n   kohiblad: {given}")
    print(f"{script}, {database}: {len(statements)} statements, {counted(counts)}"
          + (f"; paths followed {counted(paths)}" if paths else ""))


def compare_sessions(folder, lists):
    """Compares each session of each script."""
    files = files_of(folder)
    if not files:
        print("passed over: Debian's source package postgresql-15 cannot be had")
        return 77
    data = files.get(DATA, "")
    for script in SCRIPTS:
        if f"sql/{script}.sql" not in files:
            print(f"passed over: the sources have no {script}.sql")
            continue
        statements = statements_of(files[f"sql/{script}.sql"])
        if script == "jsonpath":
            statements = [in_document(it) for it in statements]
        wanted = ask(statements, data, "of_jsonb")
        for database in SESSIONS:
            compare(script, database, statements, data, wanted, lists)
    return 0


def main():
    """Takes the arguments."""
    given = [it for it in sys.argv[1:] if it != "--list"]
    with tempfile.TemporaryDirectory() as scratch:
        return compare_sessions(given[0] if given else scratch, "--list" in sys.argv)


if __name__ == "__main__":
    sys.exit(main())
