#!/usr/bin/env python3
"""Compares PostgreSQL's functions of paths on jsonb with those of the extension on documents.

    tests/paths/against_extension.py [--seed S] [--count N] [--here] [--large]

Random paths are asked of random documents, each by all calls (CALLS): with variables, aloud and in
silence, and as operators. Two answers are the same if both are errors with one SQLSTATE, or if both
are the same values in the same order, digit for digit. Names have one length, since the server
orders longer ones after all others.

The server is started by bindings/postgresql/tests/server.sh, which has the settings, and is stopped
and removed at the end; without one the status is 77. With --here it is the one that PGHOST and
PGUSER name, with the client PSQL. With --large numbers near the limits of 128 bits are made, past
which the server computes: then all answers of the model are as named.

A difference is one of those that are named (NAMED) only if the model of meaning.py has the
extension's answers, and those of the server once it does the same. The extension's messages tell
how often a path was handed over to the server, since it might take too many steps. The last line is
`N questions of C calls, H handed over, D differ, K as named`, where the K are not among the D, and
the status is 1 unless D is 0.
"""
import argparse
import collections
import contextlib
import os
import re
import subprocess
import sys
import tempfile
from dataclasses import replace

sys.dont_write_bytecode = True
from against_server import NAMED, SKIPPED, PlaceOfServer
from maker import VARIABLES, Maker
from meaning import exists_in, match_in, names_in
from syntax import Exists, Mode, Signed
from texts import number_of, read_document, read_path, write_document, write_path
from values import PathError, Truth

TOP = os.path.dirname(os.path.dirname(os.path.dirname(os.path.abspath(__file__))))
START = """
set -euo pipefail
exec 3<&0 < /dev/null
folder=$PWD/bindings/postgresql
. $folder/tests/server.sh
open_server > /dev/null
psql -c "CREATE EXTENSION kohiblad"
psql -At <&3
"""
HERE = '${PSQL:-psql} -XqAt -v ON_ERROR_STOP=1'
FOLLOWED = re.compile(r"DEBUG:  kohiblad: (.*) follows the path$", re.M)
# How many questions the server is asked at a time.
BATCH = 2000


class MakerOfNames(Maker):
    """Makes names that take quotes, and texts past ASCII, whose code points are in another order in
    UTF-16."""
    NAMES = ["a", "$", '"']
    SCALARS = [*Maker.SCALARS, "\u00e9", "\U0001f600", "\uff5e"]
    LITERALS = [*Maker.LITERALS, "\u00e9", "\U0001f600"]


class MakerOfLargeNumbers(MakerOfNames):
    """Makes numbers from which a step leads past 128 bits, and small ones."""
    NUMBERS = [number_of(it) for it in (
        "0 1 -1 0.1 170141183460469231731687303715884105727 "
        "-170141183460469231731687303715884105728 17014118346046923173168730371588410572.7 "
        "-9999999999999999999.5 13043817825332782212 0.00000000000000000000000000000000000003"
    ).split()]
    SCALARS = ["a", *NUMBERS]
    # The least number is none of a path: its digits without the sign are past 128 bits.
    LITERALS = [it for it in NUMBERS if it.value != -(1 << 127)]


# ---- the calls

# Each call with TYPE in place of jsonb or kohiblad.
VALUES = "(SELECT coalesce(jsonb_agg(it::jsonb), '[]') FROM TYPE_path_query(GIVEN) it)"
CALLS = {
    "query": VALUES.replace("GIVEN", "ALOUD"),
    "silent query": VALUES.replace("GIVEN", "SILENT"),
    "array": "TYPE_path_query_array(ALOUD)::jsonb",
    "silent array": "TYPE_path_query_array_tz(SILENT)::jsonb",
    "first": "TYPE_path_query_first(ALOUD)::jsonb",
    "silent first": "TYPE_path_query_first(SILENT)::jsonb",
    "exists": "to_jsonb(TYPE_path_exists(ALOUD))",
    "silent exists": "to_jsonb(TYPE_path_exists_tz(SILENT))",
    "match": "to_jsonb(TYPE_path_match_tz(ALOUD))",
    "silent match": "to_jsonb(TYPE_path_match(SILENT))",
    "@?": "to_jsonb(document @? path)",
    "@@": "to_jsonb(document @@ path)",
}
OPERATORS = "@?", "@@"
GIVEN = f"document, path, '{write_document(VARIABLES)}'"
FUNCTION = """
CREATE FUNCTION pg_temp.answers(document TYPE, path jsonpath) RETURNS jsonb[] LANGUAGE plpgsql
AS $function$
DECLARE
    answers jsonb[];
    answer jsonb;
    state text;
BEGIN
CALLS
    RETURN answers;
END $function$;
"""
CALL = """
    BEGIN
        answer := {};
    EXCEPTION WHEN OTHERS THEN
        GET STACKED DIAGNOSTICS state = RETURNED_SQLSTATE;
        answer := jsonb_build_object('error', state);
    END;
    answers := answers || answer;
"""
DIFFERENT = """
SELECT json_build_array(shown, path::text, asked, of_jsonb, of_kohiblad)
FROM (SELECT *, pg_temp.answers(jsonb, path) AS of_jsonb,
             pg_temp.answers(kohiblad, path) AS of_kohiblad FROM questions OFFSET 0) s
WHERE of_jsonb IS DISTINCT FROM of_kohiblad;
SET client_min_messages = debug1;
SELECT count(kohiblad_path_exists(kohiblad, path, VARIABLES, true)),
    count(kohiblad_path_match(kohiblad, path, VARIABLES, true)),
    count(kohiblad_path_query_array(kohiblad, path, VARIABLES, true)) FROM questions \\g /dev/null
RESET client_min_messages;
TRUNCATE questions;
"""


def function_of(kind):
    """The function that has the answers of a type to all calls."""
    calls = "".join(CALL.format(call) for call in CALLS.values())
    for name, silent in (("ALOUD", "false"), ("SILENT", "true")):
        calls = calls.replace(name, f"{GIVEN}, {silent}")
    return FUNCTION.replace("CALLS", calls).replace("TYPE", kind)


def script_of(maker, count):
    """What psql is asked: the questions whose answers differ, a batch at a time."""
    yield "CREATE TEMP TABLE questions (shown text, asked text, path jsonpath, jsonb jsonb, " \
          "kohiblad kohiblad);\n"
    for kind in "jsonb", "kohiblad":
        yield function_of(kind)
    for begin in range(0, count, BATCH):
        yield "COPY questions FROM stdin;\n"
        for _ in range(begin, min(begin + BATCH, count)):
            path, document = write_path(maker.query()), write_document(maker.document(3))
            row = "\t".join((document, path, path, document, document))
            yield row.replace("\\", "\\\\") + "\n"
        yield "\\.\n" + DIFFERENT.replace("VARIABLES", f"'{write_document(VARIABLES)}'")


# ---- what is named

def shown_truth(truth, error, is_silent):
    """A truth as a call shows it: null if it is unknown, unless the error is shown."""
    if truth is Truth.UNKNOWN:
        return None if is_silent or not error else {"error": error.value[:5]}
    return truth is Truth.TRUE


def match_shown(outcome, is_silent):
    """What a match shows of an outcome."""
    found = match_in(outcome)
    if not isinstance(found, PathError):
        return None if found is Truth.UNKNOWN else found is Truth.TRUE
    if not is_silent:
        return {"error": found.value[:5]}
    values = outcome.values
    return values[0] if len(values) == 1 and isinstance(values[0], bool) else None


def answers_of(query, place, silent):
    """The answers of a place that is asked aloud, and of one in silence, to the calls."""
    answers = {}
    for mark, it in ("", place), ("silent ", silent):
        outcome = it.follow(query.tree)
        shown = {"error": outcome.error.value} if outcome.error and not mark else None
        answers[f"{mark}query"] = answers[f"{mark}array"] = shown or list(outcome.values)
        answers[f"{mark}first"] = shown or next(iter(outcome.values), None)
        exists = it.judge_exists(query, outcome)
        answers[f"{mark}exists"] = shown_truth(exists, outcome.error, bool(mark))
        answers[f"{mark}match"] = match_shown(outcome, bool(mark))
    answers["@?"], answers["@@"] = answers["silent exists"], answers["silent match"]
    if names_in(query.tree):
        answers["@?"] = answers["@@"] = {"error": PathError.UNDEFINED_VARIABLE.value}
    return answers


class PlaceAsked(PlaceOfServer):
    """A place that also tells whether a whole path has a value."""

    def judge_exists(self, query, outcome):
        """Whether a path has a value: that with a sign at its end is one of `exists`."""
        is_skipped = SKIPPED in self.named and isinstance(query.tree, Signed)
        return self.judge(Exists(query.tree)) if is_skipped else exists_in(query.mode, outcome)


def model(query, document, named=()):
    """The answers of the model, in the ways of the server that are named."""
    is_lax = query.mode is Mode.LAX
    place = PlaceAsked(query.mode, is_lax, document, document, 0, VARIABLES, named)
    return answers_of(query, place, replace(place, is_silent=True))


def without(answers, names):
    return {name: it for name, it in answers.items() if name not in names}


def known(query, document, theirs, ours, is_large):
    """The names of the ways in which the server differs, if they lead to its answers."""
    of_operators = OPERATORS if names_in(query.tree) else ()
    if of_operators and without(theirs, OPERATORS) == without(ours, OPERATORS):
        return ("a variable is looked for only where it is reached",)
    if ours != model(query, document):
        return None
    if is_large:
        return ("a number past 128 bits, or another way",)
    return next((it for it in NAMED if without(model(query, document, it), of_operators)
                 == without(theirs, of_operators)), None)


# ---- the comparison

def ask(maker, words, out, told):
    """Asks the server all questions, unless the client ends before them."""
    ran = subprocess.Popen(
        ["bash", "-c", HERE if words.here else START], cwd=TOP, stdin=subprocess.PIPE, stdout=out,
        stderr=told, text=True)
    with contextlib.suppress(BrokenPipeError), ran.stdin as asked:
        for it in script_of(maker, words.count):
            asked.write(it)
    return ran.wait()


def main():
    parser = argparse.ArgumentParser(description=__doc__.split("\n", maxsplit=1)[0])
    parser.add_argument("--seed", type=int, default=1)
    parser.add_argument("--count", type=int, default=1000)
    parser.add_argument("--here", action="store_true")
    parser.add_argument("--large", action="store_true")
    words = parser.parse_args()
    maker = (MakerOfLargeNumbers if words.large else MakerOfNames)(words.seed)
    with tempfile.TemporaryFile("w+") as out, tempfile.TemporaryFile("w+") as told:
        status = ask(maker, words, out, told)
        out.seek(0)
        told.seek(0)
        if status:
            print(out.read()[-2000:], told.read()[-2000:], end="")
            return status
        followers = collections.Counter(FOLLOWED.findall(told.read()))
        differ, by_name = 0, collections.Counter()
        for line in out:
            shown, path, asked, *both = read_document(line)
            query, document = read_path(asked), read_document(shown)
            theirs, ours = (dict(zip(CALLS, it)) for it in both)
            named = known(query, document, theirs, ours, words.large)
            if named:
                by_name["; ".join(named)] += 1
                continue
            differ += 1
            print(f"differs: {asked} of {shown}")
            for name in CALLS:
                if theirs[name] != ours[name]:
                    print(f"    {name}: jsonb {write_document(theirs[name])}, "
                          f"kohiblad {write_document(ours[name])}")
    for name, count in by_name.items():
        print(f"{count} times {name}")
    handed = followers["the server"]
    print(f"{words.count} questions of {len(CALLS)} calls, {handed} handed over, {differ} differ, "
          f"{sum(by_name.values())} as named")
    return differ > 0


if __name__ == "__main__":
    sys.exit(main())
