#!/usr/bin/env python3
"""Compares the model of meaning.py with a PostgreSQL server on random paths and documents.

    tests/paths/against_server.py [--seed S] [--count N]

The server is started by bindings/postgresql/tests/server.sh, which has the settings, and is stopped
and removed at the end; without one the status is 77. It is asked each path of its document twice,
aloud and in silence. Aloud it has to give the values or the SQLSTATE of the error, in silence the
values before the error.

The server is known to differ in two ways, which are named below (`NAMED`). A difference counts as
one of these only if the model gives the server's answers once it does the same. The last line is
`N questions, D differ, K of the two that are named`, where the K are not among the D, and the
status is 1 unless D is 0.
"""
import argparse
import collections
import os
import subprocess
import sys
from dataclasses import dataclass, replace

sys.dont_write_bytecode = True
from maker import VARIABLES, Maker
from meaning import Outcome, Place, all_unwrapped, below, gives, is_container, path_gives, through
from syntax import Descendants, Exists, Mode, Signed
from texts import read_document, write_document, write_path
from values import Fraction, Truth, truth_of

TOP = os.path.dirname(os.path.dirname(os.path.dirname(os.path.abspath(__file__))))
START = """
set -euo pipefail
exec 3<&0 < /dev/null
. bindings/postgresql/tests/server.sh
find_server
scratch=$(mktemp -d)
trap stop_server EXIT
start_server
psql -At <&3
"""
ASK = """
CREATE TEMP TABLE questions (number int, document jsonb, path text);
CREATE FUNCTION pg_temp.answer(document jsonb, path text, is_silent bool) RETURNS jsonb
LANGUAGE plpgsql AS $$
DECLARE
    state text;
BEGIN
    RETURN (SELECT coalesce(jsonb_agg(it), '[]')
            FROM jsonb_path_query(document, path::jsonpath, '{variables}', is_silent) it);
EXCEPTION WHEN OTHERS THEN
    GET STACKED DIAGNOSTICS state = RETURNED_SQLSTATE;
    RETURN to_jsonb(state);
END $$;
COPY questions FROM stdin;
{questions}
\\.
SELECT jsonb_build_array(
    pg_temp.answer(document, path, false), pg_temp.answer(document, path, true))
FROM questions ORDER BY number;
"""


# ---- where the server differs

@dataclass(frozen=True)
class PlaceOfServer(Place):
    """A place where the server's ways that are named are followed."""
    named: tuple = ()
    is_silent: bool = False

    def along(self, steps, outcome):
        """In silence an error of the value itself is dropped after `.**` from level 0, if the value
        is an array or object."""
        if steps and isinstance(steps[0], Descendants) and steps[0].first == 0 \
                and self.is_silent and DROPPED in self.named:
            return through(lambda it: self.after_descendants(steps, it), outcome)
        return super().along(steps, outcome)

    def after_descendants(self, steps, value):
        """What the other steps give of the value itself, and then of those below it."""
        rest = self.past(steps[0])
        found = rest.along(steps[1:], gives([value]))
        if not is_container(value):
            return found
        later = rest.along(steps[1:], gives(below(steps[0].first, steps[0].last, 0, value)))
        return Outcome(found.values + later.values, later.error)

    def judge(self, test):
        """In lax a sign at the end of `exists` passes over what is no number. A test is in silence.
        """
        silent = replace(self, is_silent=True)
        if isinstance(test, Exists) and isinstance(test.expression, Signed) \
                and self.mode is Mode.LAX and SKIPPED in self.named:
            found = silent.follow(test.expression.operand)
            values = all_unwrapped(self.mode, found.values)
            return Truth.UNKNOWN if found.error else \
                truth_of(any(isinstance(it, Fraction) for it in values))
        return super(PlaceOfServer, silent).judge(test)


SKIPPED = "a sign at the end of `exists` passes over what is no number"
DROPPED = "an error of the value itself after `.**` from level 0 is dropped in silence"
NAMED = (SKIPPED,), (DROPPED,), (SKIPPED, DROPPED)


def answers(aloud, silent):
    """What an outcome is aloud, values or the SQLSTATE of an error, and another one in silence."""
    return [aloud.error.value if aloud.error else aloud.values, silent.values]


def answers_of_server(query, document, named):
    """The answers in these ways of the server."""
    is_lax = query.mode is Mode.LAX
    aloud = PlaceOfServer(query.mode, is_lax, document, document, 0, VARIABLES, named)
    silent = replace(aloud, is_silent=True)
    return answers(aloud.follow(query.tree), silent.follow(query.tree))


def known(query, document, answer):
    """The names of the ways in which the server differs, if they lead to its answers."""
    return next((it for it in NAMED if answers_of_server(query, document, it) == answer), None)


# ---- the comparison

def ask(questions):
    """The server's answers, aloud and in silence, to each path of its document."""
    rows = (f"{number}\t{write_document(document)}\t{write_path(query)}".replace("\\", "\\\\")
            for number, (query, document) in enumerate(questions))
    script = ASK.replace("{variables}", write_document(VARIABLES))
    ran = subprocess.run(
        ["bash", "-c", START], cwd=TOP, input=script.replace("{questions}", "\n".join(rows)),
        stdout=subprocess.PIPE, text=True, check=False,
    )
    if ran.returncode:
        print(ran.stdout, end="")
        sys.exit(ran.returncode)
    return [read_document(it) for it in ran.stdout.splitlines()]


def main():
    parser = argparse.ArgumentParser(description=__doc__.split("\n", maxsplit=1)[0])
    parser.add_argument("--seed", type=int, default=1)
    parser.add_argument("--count", type=int, default=10000)
    words = parser.parse_args()
    maker = Maker(words.seed)
    questions = [(maker.query(), maker.document(3)) for _ in range(words.count)]
    found = ask(questions)
    differ, by_name = 0, collections.Counter()
    for (query, document), answer in zip(questions, found):
        outcome = path_gives(query, VARIABLES, document)
        model = answers(outcome, outcome)
        if model == answer:
            continue
        named = known(query, document, answer)
        if named:
            by_name["; ".join(named)] += 1
            continue
        differ += 1
        print(f"differs: {write_path(query)} of {write_document(document)}")
        for whose, it in ("model", model), ("server", answer):
            print(f"    {whose}: {' | '.join(write_document(part) for part in it)}")
    for name, count in by_name.items():
        print(f"{count} times {name}")
    differ += len(questions) - len(found)
    total = sum(by_name.values())
    print(f"{len(questions)} questions, {differ} differ, {total} of the two that are named")
    return differ > 0


if __name__ == "__main__":
    sys.exit(main())
