#!/usr/bin/env python3
"""Prints random statements over all functions of the extension: COUNT of them, by SEED.

Documents are whole, broken in a byte, or no documents; paths, names and values are random too.
Most statements end with an error, which is no fault. The last one prints `done`. If COUNT is 0 they
have no end, and one in twenty is over large documents, for tests/soak.c."""
import itertools
import json
import random
import sys

LETTERS = ["a", "b", "c", "ab", "", "é", "a.b", "x y", '"', "\\", "1", "\u0001", "😀"]
# null, a number, a text, arrays and objects, a date, other times, broken ones
BLOBS = ["2000000000000000", "20000000200000025007", "2000000010000002C3A9", "80000000", "40000000",
         "20000000600000051000004E20", "20000000600000092080" + 7 * "00",
         "200000006000000D307F" + 11 * "FF", "20000000600000114080" + 15 * "00",
         "80000001200000055000000005", "00", "", "FFFFFFFF",
         "800000024000000010000001", "4000000110000002500000016161", "8000000110000001FF",
         "20000000200000021001", "800000015000000480000001"]


def value(depth):
    kind = random.randrange(10)
    if depth == 0 or kind < 4:
        return random.choice([None, True, False, 0, -1, 12345678901234567890, "x", "é\n", "", 1.5])
    if kind < 6:
        return [value(depth - 1) for _ in range(random.randrange(4))]
    return {random.choice(LETTERS): value(depth - 1) for _ in range(random.randrange(5))}


def quoted(text):
    return "'" + text.replace("'", "''") + "'"


def text():
    if random.random() < 0.05:
        levels = random.choice([10, 999, 1000, 1001])
        opened, closed = random.choice([("[", "]"), ('{"a":', "}")])
        repeated = "replace(hex(zeroblob(%d)), '00', %s)"
        return "%s || '1' || %s" % (repeated % (levels, quoted(opened)),
                                    repeated % (levels, quoted(closed)))
    made = json.dumps(value(random.randrange(6)), ensure_ascii=random.random() < 0.5)
    if random.random() < 0.05:
        at = random.randrange(len(made))
        made = made[:at] + random.choice('[]{},:"0e') + made[at + 1:]
    return quoted(made.replace("\u0000", ""))


def document():
    kind = random.randrange(12)
    if kind == 0:
        return "x'%s'" % random.choice(BLOBS)
    if kind == 1:
        return random.choice(["NULL", "5", "1.5", "'x'", "zeroblob(40)", text()])
    if kind == 2:
        return nested()
    if kind == 3:
        # One byte changed.
        at, byte = random.randrange(1, 60), random.randrange(256)
        return ("(SELECT CAST(substr(d, 1, %d) || x'%02X' || substr(d, %d) AS BLOB)"
                " FROM (SELECT jb(%s) AS d))" % (at - 1, byte, at + 1, text()))
    return "jb(%s)" % text()


def nested():
    return random.choice([
        "jb_set(%s, %s, %s)" % (document(), path(), sql_value()),
        "jb_patch(%s, %s)" % (document(), text()),
        "jb_concat(%s, %s)" % (document(), document()),
        "jb_array(%s, %s)" % (sql_value(), sql_value()),
        "jb_at(%s, %s)" % (document(), path()),
        "jb_remove(%s, %s)" % (document(), path())])


def sql_value():
    return random.choice(["NULL", "7", "-9223372036854775808", "'x'", "2.5", "hex(zeroblob(3000))",
                          "json(%s)" % text(), document(), "x'%s'" % random.choice(BLOBS)])


def path():
    if random.random() < 0.1:
        return random.choice(["NULL", "5", "''", "'$'", "'a'", "'$.'", "'$[x]'", "'$.a['", "x'00'",
                              "'$' || replace(hex(zeroblob(1200)), '00', '.a')",
                              "'$' || replace(hex(zeroblob(900)), '00', '[0]')"])
    made = "$"
    for _ in range(random.randrange(5)):
        name = random.choice(LETTERS)
        made += random.choice([".a", ".b", '."%s"' % name, "[0]", "[1]", "[#]", "[#-1]", "[#-2]",
                               "[99999999999999999999]", "[00]", "." + name])
    return quoted(made)


def query():
    """A path of SQL/JSON, or a text that is none."""
    if random.random() < 0.1:
        return random.choice(["NULL", "5", "''", "'$.'", "'$[0:2]'", "x'00'", "'$.a = 1'",
                              "'$' || replace(hex(zeroblob(70)), '00', '?(@')",
                              "replace(hex(zeroblob(900)), '00', '1+') || '1'"])
    steps = [".a", ".b", ".*", ".**", ".**{1 to 2}", "[*]", "[0]", "[last]", "[0 to last - 1]",
             "[0, 0]", ".size()", ".abs()", ".type()", ".keyvalue().value", '."%s"' % "x y",
             " ? (@ > 1)", " ? (@.a == @.b)", " ? (exists(@.a[*]))", " ? (@ == $x)",
             ' ? (@ starts with "x" || !(@[*] == $[*])) /* a */']
    made = random.choice(["", "", "strict "]) + "$"
    made += "".join(random.choice(steps) for _ in range(random.randrange(5)))
    made += random.choice(["", "", " > 1", " + $.a", " == $x", " is unknown"])
    return quoted(made)


def question():
    variables = random.choice(["", ", '{\"x\": 1}'", ", '{}', 1", ", " + document(),
                               ", jb_object('x', %s), %d" % (sql_value(), random.randrange(2))])
    return "%s, %s%s" % (document(), query(), variables)


def statement():
    doc, other, at = document(), document(), path()
    name = quoted(random.choice(LETTERS))
    pairs = ", ".join("%s, %s" % (path(), sql_value()) for _ in range(random.randrange(4)))
    pairs = ", " + pairs if pairs else ""
    edit = random.choice(["set", "insert", "replace"])
    table = random.choice(["jb_each", "jb_tree"])
    where = random.choice(["", " WHERE key = %s" % name, " WHERE key = 1",
                           " WHERE key IN ('a', 0, NULL)"])
    frame = random.choice(["1 PRECEDING", "BETWEEN 2 PRECEDING AND 1 PRECEDING",
                           "BETWEEN 1 FOLLOWING AND 3 FOLLOWING", "CURRENT ROW"])
    return random.choice([
        "SELECT jb_text(jb_%s(%s%s))" % (edit, doc, pairs),
        "SELECT jb_valid(jb_%s(%s%s))" % (edit, doc, pairs),
        "SELECT jb_pretty(jb_remove(%s, %s, %s))" % (doc, at, path()),
        "SELECT jb_text(jb_patch(%s, %s))" % (doc, other),
        "SELECT jb_contains(%s, %s), jb_exists(%s, %s)" % (doc, other, doc, name),
        "SELECT jb_exists_any(%s, jb_array(%s, %s))" % (doc, name, quoted(random.choice(LETTERS))),
        "SELECT jb_exists_all(%s, %s), jb_exists_any(%s, %s)" % (doc, other, other, doc),
        "SELECT jb_valid(jb_concat(%s, %s)), jb_compare(%s, %s)" % (doc, other, doc, other),
        "SELECT jb_text(jb_array(%s, %s))" % (sql_value(), sql_value()),
        "SELECT jb_text(jb_object(%s, %s, %s, %s))" % (name, sql_value(), quoted("z"), sql_value()),
        "SELECT * FROM %s(%s, %s)%s" % (table, doc, at, where),
        "SELECT * FROM %s(%s)%s" % (table, doc, where),
        "SELECT jb_at(%s, %s), jb_value(%s, %s), jb_type(%s, %s)" % (doc, at, doc, at, doc, at),
        "SELECT jb_number(%s, %s), jb_blob(%s, %s), jb_get(%s, %s)" % (doc, at, doc, at, doc, name),
        "SELECT jb_kind(%s), jb_length(%s), jb_array_length(%s, %s)" % (doc, doc, doc, at),
        "SELECT jb_key(%s), jb_canonical(%s), jb_of(%s)" % (doc, doc, sql_value()),
        "SELECT jb_text(jb_group_array(value) OVER (ROWS %s)) FROM jb_each(%s)" % (frame, doc),
        "SELECT jb_text(jb_group_object(key, document) OVER (ROWS %s)) FROM jb_each(%s)"
        % (frame, doc),
        "SELECT jb_text(jb_group_object(fullkey, document)) FROM %s(%s)" % (table, doc),
        "SELECT jb_text(jb_survey(document, %s)) FROM %s(%s)" % (at, table, doc),
        "SELECT jb_text(jb_survey(%s, fullkey)) FROM jb_tree(%s)" % (other, doc),
        "SELECT jb_text(jb_query(%s))" % question(),
        "SELECT jb_text(jb_query_first(%s)), jb_path_exists(%s)" % (question(), question()),
        "SELECT jb_path_match(%s), jb_path_exists(%s)" % (question(), question()),
        "SELECT value, jb_query(document, %s) FROM jb_each(jb_query(%s))" % (query(), question()),
        "SELECT t.key, e.key FROM jb_tree(%s) t, jb_each(t.document) e WHERE e.key = %s"
        % (doc, name),
    ])


def long_statement():
    """One that takes some milliseconds to some seconds, if nothing ends it."""
    count = random.choice([300, 1000, 3000, 10000])
    item = random.choice(["i", "i % 7", "0", "json('[1,2.5,\"x\"]')", "jb_object('k', i)",
                          "hex(randomblob(200))"])
    paths = ", ".join("'$[%d]', %s" % (random.randrange(count), random.choice(["1", "jb('[[]]')"]))
                      for _ in range(random.randrange(1, 50)))
    levels = random.randrange(1, 1000)
    deep = "replace(hex(zeroblob(%d)), '00', '[') || '1' || replace(hex(zeroblob(%d)), '00', ']')" \
        % (levels, levels)
    rows = "WITH n(i) AS (SELECT 1 UNION ALL SELECT i + 1 FROM n WHERE i < %d), " \
        "a(x, y) AS (SELECT jb_group_array(%s), jb_concat(jb_group_array(0), i) FROM n) " \
        % (count, item)
    return rows + random.choice([
        "SELECT jb_contains(x, x), jb_contains(y, x) FROM a",
        "SELECT jb_contains(y, jb_group_array(i)) FROM a, n",
        "SELECT jb_contains(jb_object('k', x, 'l', y), jb_object('l', x)) FROM a",
        "SELECT length(jb_set(x, %s)), length(jb_remove(y, '$[#-1]', '$[0]', '$[1]')) FROM a"
        % paths,
        "SELECT sum(length(fullkey) + length(value)), max(id) FROM a, jb_tree(x)",
        "SELECT count(*), max(key) FROM a, jb_each(y) WHERE value >= 0",
        "SELECT length(jb_pretty(x)), length(jb_text(x)), length(jb_key(x)) FROM a",
        "SELECT sum(length(jb_group_array(i) OVER (ROWS 50 PRECEDING))) FROM n",
        "SELECT length(jb_group_object('k' || i, %s)) FROM n" % item,
        "SELECT jb_text(jb_survey(x, '$[' || i || ']')) FROM a, n",
        "SELECT jb_text(jb_survey(jb_array(i, %s), '$[1]')) FROM n" % item,
        "SELECT length(jb_pretty(jb(%s))), length(jb_patch(jb(%s), x)) FROM a" % (deep, deep),
        "SELECT sum(jb_compare(x, y) + jb_compare(jb_text(x), x)) FROM a, n WHERE n.i < 50",
        "SELECT jb_valid(jb_concat(x, y)), jb_exists(x, 'a'), jb_exists(y, 'a') FROM a",
        "SELECT jb_length(jb_query(x, '$[*] ? (@ > $least)', jb_object('least', i))) FROM a, n",
        "SELECT jb_path_exists(y, '$.** ? (@.k > 100000)'), jb_path_match(x, '$[*] > $[*]') FROM a",
        "SELECT jb_exists_any(x, jb_group_array('k' || i)), jb_exists_all(x, x) FROM a, n",
    ])


def main():
    count, seed = int(sys.argv[1]), int(sys.argv[2])
    random.seed(seed)
    for _ in range(count) if count else itertools.count():
        made = long_statement() if not count and random.random() < 0.05 else statement()
        print(made.replace("\n", " ") + ";")
    print("SELECT 'done';")


try:
    main()
except BrokenPipeError:
    # The reader has enough.
    sys.stderr.close()
