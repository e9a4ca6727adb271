#!/usr/bin/env python3
"""Compares the model of meaning.py with a program on random paths and documents.

    tests/paths/against_program.py PROGRAM [--seed S] [--count N]

PROGRAM is run without arguments; answers.c is one, over the library for C. It is to answer each
line of its standard input by a line. A line asked is a path, a document as JSON and an object with
the variables, each in hexadecimal, with spaces between them. The answer has tabs between its parts:
the compact JSON of each value that `Path::query` gives, the name of the error that they end with or
`.`, what `Path::exists` says, `True`, `False` or `Unknown`, and what `Path::matches` says, one of
these or the name of an error. For example `242e61 7b2261223a5b5d7d 7b7d`, which is `$.a` of
`{"a":[]}`, is answered by `[]`, `.`, `True` and `BooleanRequired`.

The last line is `N questions, D differ`, and the status is 1 unless D is 0.
"""
import argparse
import subprocess
import sys

sys.dont_write_bytecode = True
from maker import VARIABLES, Maker
from meaning import exists_in, match_in, path_gives
from texts import read_document, write_document, write_path


def rust_name(member):
    """The name of an enum's member as Rust writes it: `MemberNotFound` for `MEMBER_NOT_FOUND`."""
    return member.name.title().replace("_", "")


def question(query, document):
    """The line that asks a path of a document."""
    words = write_path(query), write_document(document), write_document(VARIABLES)
    return " ".join(it.encode().hex() for it in words)


def expected(query, document):
    """The parts of the answer: values, an error or `.`, whether there is a value, and the match."""
    outcome = path_gives(query, VARIABLES, document)
    error = rust_name(outcome.error) if outcome.error else "."
    values = [write_document(it) for it in outcome.values]
    exists = exists_in(query.mode, outcome)
    return [*values, error, rust_name(exists), rust_name(match_in(outcome))]


def parts_of(answer):
    """The parts of a program's answer, with its values as the model writes them."""
    parts = answer.split("\t")
    return [write_document(read_document(it)) for it in parts[:-3]] + parts[-3:]


def main():
    parser = argparse.ArgumentParser(description=__doc__.split("\n", maxsplit=1)[0])
    parser.add_argument("program")
    parser.add_argument("--seed", type=int, default=1)
    parser.add_argument("--count", type=int, default=10000)
    words = parser.parse_args()
    maker = Maker(words.seed)
    questions = [(maker.query(), maker.document(3)) for _ in range(words.count)]
    lines = "".join(f"{question(*it)}\n" for it in questions)
    ran = subprocess.run(
        [words.program], input=lines, stdout=subprocess.PIPE, text=True, check=False)
    answers = ran.stdout.splitlines()
    differ = abs(len(questions) - len(answers))
    for (query, document), answer in zip(questions, answers):
        model, found = expected(query, document), parts_of(answer)
        if found == model:
            continue
        differ += 1
        print(f"differs: {write_path(query)} of {write_document(document)}")
        print(f"    model: {' | '.join(model)}")
        print(f"    program: {' | '.join(found)}")
    print(f"{len(questions)} questions, {differ} differ")
    return differ > 0


if __name__ == "__main__":
    sys.exit(main())
