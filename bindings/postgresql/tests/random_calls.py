#!/usr/bin/env python3
"""Makes random calls of the extension, and cancels them at random.

    bindings/postgresql/tests/random_calls.sh [MINUTES] [SEED]

The server is the one that PGHOST and PGUSER name, and PSQL is its client. The documents are random,
small and large, shallow and deep; some are damaged in a bit, or cut off, as on a disk. Some calls
have a timeout, and some are cancelled by another session. The status is 1 if a session breaks down,
if a call ends with an internal error, or a cancelled one goes on for long. The last line has the
counts.
"""
import collections
import json
import os
import random
import subprocess
import sys
import threading
import time

MARK = "-- the end of a call --"
# A call that is cancelled ends within so many seconds, also where all of it is instrumented.
LONGEST_AFTER_CANCEL = 20
DOCUMENTS, DAMAGED = 120, 200
NAMES = ["a", "b", "c", "é", "", "x y", "0", "-1", "name", "\u20ac", "tags"]

CALLS = """
{d}
kohiblad_pretty({d})
length(kohiblad_pretty(kohiblad_build_object({k}, {d}, 'x', {d}, 'y', {e})))
kohiblad_canonical({d})
kohiblad_strip_nulls({d})
kohiblad_key({d})
kohiblad_hash({d})
kohiblad_hash_extended({d}, {i})
kohiblad_kind({d}) || kohiblad_typeof({d})
kohiblad_length({d})
kohiblad_array_length({d})
{d} -> {k}
{d} ->> {k}
{d} -> {i}
{d} ->> {i}
{d} #> {p}
{d} #>> {p}
({d})[{i}][{k}]
({d})[{k}][{i}]
kohiblad_at({d}, {e})
{d} @> {e}
{d} @> {d}
{d} <@ {e}
{d} ? {k}
{d} ?| {p}
{d} ?& {p}
{d} ?| {many}
{d} ?& {many}
kohiblad_has({d}, {e})
kohiblad_has_any({d}, {e})
kohiblad_has_all({d}, {e})
{d} || {e}
{d} - {k}
{d} - {p}
{d} - {many}
{d} - {i}
{d} #- {p}
kohiblad_set({d}, {p}, {e}, {truth})
kohiblad_set_lax({d}, {p}, NULL, {truth}, 'use_json_null')
kohiblad_set_lax({d}, {p}, NULL, {truth}, 'delete_key')
kohiblad_insert({d}, {p}, {e}, {truth})
(SELECT count(kohiblad_set(d, {p}, {e}, {truth})) FROM docs WHERE kohiblad_kind(d) = 'object')
(SELECT count(d #- ARRAY[{k}, (i % 3)::text]) FROM docs WHERE kohiblad_kind(d) = 'object')
(SELECT count(d - ARRAY[{k}, (i / 9)::text]) FROM docs WHERE kohiblad_kind(d) = 'array')
(SELECT count(d - {k}) FROM docs WHERE kohiblad_kind(d) = 'object')
(SELECT count(d #>> ARRAY[{k}, (i / 9)::text]) FROM docs)
kohiblad_merge_patch({d}, {e})
kohiblad_build_array({d}, {i}, {k}, NULL, {p}, {e})
kohiblad_build_array(VARIADIC {many})
kohiblad_build_object({k}, {d}, {k}, {e})
kohiblad_object({many})
to_kohiblad({d})
to_kohiblad({many})
(SELECT to_kohiblad(t) FROM (SELECT {i} AS a, {d} AS b, {p} AS c) t)
(SELECT kohiblad_agg(d) FROM docs)
(SELECT kohiblad_survey(d, {e}) FROM docs)
kohiblad_survey({d}, {e})
(SELECT kohiblad_object_agg(i, d) FROM docs)
(SELECT string_agg(key, '') FROM kohiblad_each({d}))
(SELECT count(value) FROM kohiblad_each_text({d}))
(SELECT count(*) FROM kohiblad_object_keys({d}))
(SELECT kohiblad_agg(it) FROM kohiblad_array_elements({d}) it)
(SELECT string_agg(it, '') FROM kohiblad_array_elements_text({d}) it)
(SELECT count(t) FROM kohiblad_populate_record(NULL::shape, {d}) t)
(SELECT count(t) FROM kohiblad_populate_recordset(NULL::shape, {d}) t)
(SELECT count(t) FROM kohiblad_to_record({d}) AS t(a int, b text, c kohiblad, "é" json))
(SELECT count(t) FROM kohiblad_to_recordset({d}) AS t(a int[], b bool, c kohiblad, "0" jsonb))
{d} @? {jsonpath}
{d} @@ {jsonpath}
kohiblad_path_exists({d}, {jsonpath}, '{{"x":1}}', {truth})
kohiblad_path_query_array({d}, {jsonpath}, '{{"x":"\\u0000"}}', {truth})
(SELECT count(*) FROM kohiblad_path_query({d}, {jsonpath}, '{{}}', {truth}))
{d}::json
{d}::jsonb
{d}::numeric
{d}::int
{d}::float8
{d}::bool
{d}::bytea::kohiblad
{bytes}::bytea::kohiblad
{text}::kohiblad
joined({text}, {piece})
joined({text}, {piece})
{d} < {e}
{d} = {e}
{d} OPERATOR(kohiblad_compat.<) {e}
{d} OPERATOR(kohiblad_compat.>=) {d}
kohiblad_compat.jsonb_order_cmp({d}, {e})
(SELECT string_agg(kohiblad_kind(d), '' ORDER BY d USING OPERATOR(kohiblad_compat.<)) FROM docs)
(SELECT count(*) FROM damaged WHERE i < {i} AND d OPERATOR(kohiblad_compat.<=) {e})
kohiblad_cmp({d}, {d})
(SELECT max(d) FROM docs)
(SELECT count(DISTINCT d) FROM docs)
(SELECT string_agg(kohiblad_kind(d), '' ORDER BY d) FROM docs)
(SELECT count(*) FROM docs a JOIN docs b ON a.d = b.d)
(SELECT count(*) FROM damaged WHERE i < {i} AND d = {e})
same_contained({e})
same_contained({e})
same_parts({k}, {k}, {p}, {e})
same_parts({k}, {k}, {p}, {e})
same_names({p})
same_names({p})
same_names({many})
same_names((SELECT array_agg(key) FROM stored, kohiblad_object_keys(d) key WHERE d ? {k}))
same_path({jsonpath})
(SELECT count(*) FROM docs WHERE d @> {e})
(SELECT count(*) FROM docs WHERE d ?| {many})
(SELECT count(*) FROM docs WHERE d ?& {p})
(SELECT count(*) FROM docs WHERE d @? {jsonpath})
(SELECT count(*) FROM docs WHERE d @@ {jsonpath})
(SELECT count(*) FROM docs WHERE d = {e})
(SELECT count(*) FROM docs WHERE d > {e} AND d <= {e} AND d @> {e})
(SELECT count(*) FROM docs WHERE d BETWEEN {e} AND {e} OR d ? {k})
(SELECT count(*) FROM docs a JOIN damaged b ON a.d < b.d AND a.d >= b.d)
(SELECT count(*) FROM damaged WHERE d @> {e} AND d < {e})
""".strip().split("\n")
CHANGES = """
UPDATE docs SET d[{k}] = {e} WHERE i = {n}
UPDATE docs SET d[{i}] = {e} WHERE i = {n}
UPDATE docs SET d[{k}][{i}][{k}] = {e} WHERE i = {n}
UPDATE docs SET d[{far}] = {e} WHERE i = {n}
UPDATE docs SET d[{k}][{far}][{k}][{far}] = {e} WHERE i = {n}
UPDATE docs SET d[{i}][{far}][{i}] = {e}, d[{k}][{i}][{far}] = {d} WHERE i = {n}
UPDATE damaged SET d[{i}][{far}] = {e} WHERE i = {n}
UPDATE docs SET d = d || {e} WHERE i < {i}
INSERT INTO docs VALUES (0, {d})
ANALYZE damaged
""".strip().split("\n")

# The document of a text that is parsed in pieces, which must be that of one call.
JOINED = """
CREATE FUNCTION joined(json text, piece int) RETURNS kohiblad LANGUAGE plpgsql AS $$
DECLARE
    document kohiblad := of_pieces(json, piece);
BEGIN
    IF document IS NOT NULL THEN
        IF NOT kohiblad_fits(json) OR document::bytea <> json::kohiblad::bytea THEN
            RAISE 'another document' USING ERRCODE = 'XX000';
        END IF;
    END IF;
    RETURN document;
END $$;
"""

# What is found in slices of long documents must be what is found in all of their bytes.
SAME = """
CREATE TABLE stored (d kohiblad);
ALTER TABLE stored ALTER d SET STORAGE EXTERNAL;
INSERT INTO stored SELECT d FROM docs WHERE length(d::bytea) > 2000;
CREATE VIEW long AS
    SELECT d, d #> '{}' AS at_hand
    FROM (TABLE stored UNION ALL SELECT d FROM docs WHERE length(d::bytea) > 2000) s;
CREATE FUNCTION same(answer boolean, wanted boolean) RETURNS boolean LANGUAGE plpgsql AS $$
BEGIN
    IF answer IS DISTINCT FROM wanted THEN
        RAISE 'another answer' USING ERRCODE = 'XX000';
    END IF;
    RETURN answer;
END $$;
CREATE FUNCTION same_contained(asked kohiblad) RETURNS bigint LANGUAGE sql VOLATILE AS $$
    SELECT count(same(d @> asked, at_hand @> asked) AND same(asked <@ d, at_hand @> asked))
    FROM long
$$;
CREATE FUNCTION same_parts(a text, b text, names text[], other kohiblad) RETURNS bigint
LANGUAGE sql VOLATILE AS $$
    SELECT count(same(d @> asked, at_hand @> asked))
    FROM long, LATERAL (VALUES (kohiblad_build_object(a, d -> a, b || '2', d -> b)),
                               (kohiblad_build_object(a, other)), (d - names || other),
                               (d - names), (kohiblad_build_array(d -> 1))) v (asked)
    WHERE kohiblad_kind(d) IN ('array', 'object')
$$;
CREATE FUNCTION same_names(names text[]) RETURNS bigint LANGUAGE sql VOLATILE AS $$
    SELECT count(same(d ?| names, at_hand ?| names) AND same(d ?& names, at_hand ?& names)
        AND same(kohiblad_has_any(d, given), at_hand ?| names)
        AND same(kohiblad_has_all(d, given), at_hand ?& names))
    FROM long, (SELECT to_kohiblad(array_remove(names, NULL)) AS given OFFSET 0) g
$$;
CREATE FUNCTION same_path(path jsonpath) RETURNS bigint LANGUAGE sql VOLATILE AS $$
    SELECT count(same(d @? path, at_hand @? path) OR same(d @@ path, at_hand @@ path)) FROM long
$$;
"""


def quoted(text):
    """A literal of SQL."""
    return "'" + text.replace("'", "''") + "'"


def scalar():
    """A random scalar, as JSON has it."""
    return random.choice([
        lambda: None, lambda: True, lambda: random.randint(-9, 9), lambda: random.choice(NAMES),
        lambda: random.randint(-2**127, 2**127 - 1), lambda: "\0" * random.randint(0, 2),
        lambda: "é\u20ac\U0001d11e"[:random.randint(0, 3)] * random.randint(1, 30),
    ])()


def value(depth):
    """A random value that nests so deep at most."""
    if depth == 0 or random.random() < 0.3:
        return scalar()
    count = random.choice([0, 1, 2, 3, 5, 9])
    if random.random() < 0.5:
        return [value(depth - 1) for _ in range(count)]
    return {random.choice(NAMES): value(depth - 1) for _ in range(count)}


def large():
    """The text of a large document."""
    size = random.choice([300, 3000, 20000])
    return random.choice([
        lambda: json.dumps(list(range(size))),
        lambda: json.dumps([[i, {"a": i}] for i in range(size // 4)]),
        lambda: json.dumps({str(i): scalar() for i in range(size)}),
        lambda: json.dumps(["é" * size, "x" * size * 10]),
        lambda: "[" * 999 + json.dumps(scalar()) + "]" * 999,
        lambda: '{"a":' * 999 + "[]" + "}" * 999,
        lambda: json.dumps([[None] * size, value(4)]),
        lambda: json.dumps([str(i) * random.randint(1, 50) for i in range(size)]),
    ])()


def time_document():
    """The document of a random date, timestamp or interval, in hexadecimal."""
    tag, size = random.choice([("10", 4), ("20", 8), ("30", 12), ("30", 9), ("40", 16)])
    fields = f"{random.getrandbits(8 * size):0{2 * size}x}"
    return f"\\x20000000{0x60000001 + size:08x}{tag}{fields}"


def document():
    """The text of a random document; some hold dates or binary data, in hexadecimal."""
    chance = random.random()
    if chance < 0.05:
        return time_document()
    if chance < 0.1:
        return "\\x40000001100000015000000d6180000001600000051000000001"
    return large() if chance < 0.2 else json.dumps(value(5))


def damaged_text():
    """A JSON text of which some characters are gone or others."""
    text = list(document())
    for _ in range(random.randint(0, 3)):
        if text:
            text[random.randrange(len(text))] = random.choice('[]{},:"\\u0e.-1\t')
    return "".join(text[:random.choice([len(text), random.randint(0, len(text))])])


def argument():
    """A document of a table, damaged or not, or one of its own."""
    chance = random.random()
    if chance < 0.55:
        return f"(SELECT d FROM docs WHERE i = {random.randint(1, DOCUMENTS)})"
    if chance < 0.75:
        return f"(SELECT d FROM damaged WHERE i = {random.randint(1, DAMAGED)})"
    return quoted(json.dumps(value(4))) + "::kohiblad"


def texts(most):
    """An array of random texts and nulls."""
    names = [random.choice(NAMES + ["1", "2", "-3"]) for _ in range(random.randint(0, most))]
    shown = [quoted(name) if random.random() < 0.97 else "NULL" for name in names]
    return f"ARRAY[{','.join(shown)}]::text[]"


def many_texts():
    """An array of many texts, which SQL makes."""
    count = random.choice([1, 10, 1000, 20000])
    return f"ARRAY(SELECT left(md5(i::text), {random.randint(1, 9)}) " \
           f"FROM generate_series(1, {count}) i)"


def jsonpath():
    """A random path of SQL/JSON, with a filter or a predicate."""
    mode = random.choice(["", "", "strict "])
    steps = random.choice([0, 1, 2, 3, 3, 1000, 1200])
    path = "$" + "".join(random.choice([".a", ".b", '."é"', "[0]", "[*]", ".tags", ".*", "[last]",
                                        "[0, last - 1 to last]"])
                         for _ in range(steps))
    path += random.choice(["", "", "", ".size()", ".abs()", ".type()", "[$x]", ".**"])
    condition = random.choice(["@ == 1", '@.a == "b" && @.b == null', "exists(@.a)", "@ > 1e400",
                               '@ == "\u20ac"', "@.a == true || @ == 1", "$[*] < @.*[*]",
                               "@ > $x", "@.a + 1 > @.b", "@.size() == 2", "-@ * 2 % 3 < 1",
                               '!(@ starts with "a") && (@.a > 1.50) is unknown'])
    return quoted(mode + random.choice([path, f"{path} == 1", f"{path} ? ({condition})",
                                        f'exists({path} ? ({condition})) && {path} == "a"']))


def damaged_bytes():
    """Bytes that are nearly those of a document."""
    data = bytearray.fromhex(random.choice([
        "4000000210000001100000012000000250000004616240018000 0000",
        "8000000310000003200000034000000061626320 0102", "200000002000000a60ff", ""]))
    if data and random.random() < 0.9:
        data[random.randrange(len(data))] ^= 1 << random.randrange(8)
    return quoted("\\x" + data.hex())


def filled(call):
    """A call with random arguments."""
    makers = {
        "d": argument, "e": argument, "k": lambda: quoted(random.choice(NAMES)) + "::text",
        "i": lambda: str(random.choice([0, 1, 2, -1, -2, 7, 1000, 2**31 - 1, -2**31])),
        "n": lambda: str(random.randint(1, DOCUMENTS)), "p": lambda: texts(5),
        "many": many_texts, "truth": lambda: random.choice(["true", "false"]),
        "jsonpath": jsonpath, "bytes": damaged_bytes, "text": lambda: quoted(damaged_text()),
        "far": lambda: str(random.choice([3000, 100000, 2000000, 40000000])),
        "piece": lambda: str(random.choice([1, 2, 5, 20, 100, 1000, 10000])),
    }

    class Arguments(dict):
        def __missing__(self, name):
            return makers[name]()

    return call.format_map(Arguments())


def statement():
    """A random statement. What is shown is no longer than a number."""
    if random.random() < 0.1:
        return f"BEGIN; {filled(random.choice(CHANGES))}; ROLLBACK;"
    if random.random() < 0.1:
        scan = random.choice(["enable_seqscan", "enable_bitmapscan"])
        return f"SET {scan} = {random.choice(['on', 'off'])};"
    return f"SELECT length(({filled(random.choice(CALLS))})::text);"


class Session:
    """A session of psql, which is asked by lines."""

    def __init__(self):
        self.psql = subprocess.Popen(
            [os.environ["PSQL"], "-XqAt", "-v", "VERBOSITY=sqlstate"], stdin=subprocess.PIPE,
            stdout=subprocess.PIPE, stderr=subprocess.STDOUT, text=True, encoding="utf-8",
            errors="replace")
        self.number = self.ask("SELECT pg_backend_pid();")[0]

    def send(self, line):
        self.psql.stdin.write(f"{line}\n\\echo {MARK}\n")
        self.psql.stdin.flush()

    def answer(self):
        """The lines up to the mark."""
        lines = []
        while True:
            line = self.psql.stdout.readline()
            if line == "" or "server closed the connection" in line:
                raise ConnectionError("\n".join(lines))
            if line.rstrip("\n") == MARK:
                return lines
            lines.append(line.rstrip("\n"))

    def ask(self, line):
        self.send(line)
        return self.answer()


def prepare(session):
    """Makes the tables of documents."""
    session.ask("SET client_encoding = 'UTF8';")
    session.ask("CREATE EXTENSION kohiblad; CREATE EXTENSION kohiblad_compat;")
    session.ask("CREATE FUNCTION of_pieces(json text, piece int) RETURNS kohiblad"
                " AS '$libdir/kohiblad', 'pg_kohiblad_of_pieces' LANGUAGE C STRICT;")
    session.ask(JOINED)
    session.ask("CREATE TYPE shape AS (a int, b text, c int[], \"é\" kohiblad, tags jsonb,"
                " x json);")
    session.ask("CREATE TABLE docs (i int, d kohiblad);")
    session.ask("CREATE INDEX ON docs USING gin (d); CREATE INDEX ON docs USING hash (d);"
                "CREATE INDEX ON docs USING gin (d kohiblad_path_ops);")
    for i in range(1, DOCUMENTS + 1):
        session.ask(f"INSERT INTO docs VALUES ({i}, {quoted(document())});")
    session.ask("ANALYZE docs;")
    session.ask(SAME)
    session.ask("CREATE TABLE damaged (i int, d bytea);"
                " ALTER TABLE damaged ALTER d SET STORAGE EXTERNAL;")
    session.ask(f"""INSERT INTO damaged SELECT i, CASE WHEN i % 3 = 0
            THEN substring(b FROM 1 FOR (random() * length(b))::int)
            ELSE set_bit(b, n, 1 - get_bit(b, n)) END
        FROM generate_series(1, {DAMAGED}) i, LATERAL (SELECT d::bytea AS b FROM docs
            WHERE docs.i = 1 + i % {DOCUMENTS} AND length(d::bytea) < 40000) s,
            LATERAL (SELECT (random() * (8 * length(b) - 1))::bigint AS n) t;""")
    session.ask("SET allow_system_table_mods = on; UPDATE pg_attribute SET atttypid ="
                " 'kohiblad'::regtype WHERE attrelid = 'damaged'::regclass AND attname = 'd';")
    session.ask("SET allow_system_table_mods = off;")


def run(minutes):
    """Makes calls for some minutes; the counts of their ends, and the longest after a cancel."""
    ends, longest = collections.Counter(), 0.0
    session, other = Session(), Session()
    prepare(session)
    stop = time.monotonic() + 60 * minutes
    while time.monotonic() < stop:
        asked, chance, cancelled = statement(), random.random(), []
        if chance < 0.3:
            session.ask(f"SET statement_timeout = {random.choice([1, 3, 10, 30, 100])};")

        def cancel():
            cancelled.append(time.monotonic())
            other.ask(f"SELECT pg_cancel_backend({session.number});")

        timer = threading.Timer(random.choice([0.001, 0.005, 0.02, 0.1, 0.5]), cancel)
        if chance > 0.6:
            timer.start()
        try:
            lines = session.ask(asked)
        except ConnectionError as error:
            print(f"the session broke down at: {asked[:3000]}\n{error}", file=sys.stderr)
            return None, 0
        end = time.monotonic()
        timer.cancel()
        if chance > 0.6:
            timer.join()
        if cancelled:
            longest = max(longest, end - cancelled[0])
        states = [line.split(":")[-1].strip() for line in lines if "ERROR:" in line]
        ends[states[0] if states else "answered"] += 1
        if "XX000" in states or longest > LONGEST_AFTER_CANCEL:
            print(f"{states}, {longest:.1f} s after a cancel: {asked[:3000]}", file=sys.stderr)
            return None, longest
        if chance < 0.3:
            session.ask("SET statement_timeout = 0;")
        if states:
            session.ask("ROLLBACK;")
    return ends, longest


def main():
    minutes = float(sys.argv[1]) if len(sys.argv) > 1 else 1
    seed = int(sys.argv[2]) if len(sys.argv) > 2 else random.randrange(2**32)
    print(f"== random calls for {minutes:g} minutes, seed {seed}", flush=True)
    random.seed(seed)
    ends, longest = run(minutes)
    if ends is None:
        return 1
    shown = ", ".join(f"{count} {state}" for state, count in ends.most_common())
    print(f"bindings/postgresql: {sum(ends.values())} random calls: {shown}; "
          f"at most {longest:.1f} s after a cancel")
    return 0


if __name__ == "__main__":
    sys.exit(main())
