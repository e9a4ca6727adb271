#!/usr/bin/python3
"""Measures sizes and times beside jsonb, SQLite's JSON, CBOR and MessagePack for docs/COMPARED.md.

    PREFIX=/usr/local bench/compared.py [--rows N] [--rounds N] [--write]

PREFIX is where the library is installed. It prints the tables of the page, and with --write puts
them into it; `tools/pages --write pictures` then draws the bars. N rows (100000) are loaded,
searched, sorted and printed in a PostgreSQL server of its own, in SQLite and in Python. Each time
is the least of N rounds (7), in which all take turns. Of Debian's packages it takes python3-cbor2,
python3-msgpack, python3-dev, libsqlite3-dev, postgresql-15, postgresql-server-dev-15, gcc and make.
"""
import argparse
import datetime
import json
import os
import pathlib
import random
import shutil
import sqlite3
import subprocess
import sys
import tempfile
import time

TOP = pathlib.Path(__file__).resolve().parent.parent
PAGE = TOP / "docs" / "COMPARED.md"
WORDS = ("north", "river", "stone", "light", "café", "said", '"quick"', "autumn", "over")


def words(numbers, length):
    """Some words of at least this length together."""
    text = ""
    while len(text) < length:
        text += (" " if text else "") + numbers.choice(WORDS)
    return text


def decimal(numbers):
    return f"{numbers.randrange(100_000)}.{numbers.randrange(1, 10)}"


def text_of(value):
    return json.dumps(value, ensure_ascii=False, separators=(",", ":"))


def log_line(numbers):
    at = datetime.datetime(2026, 11, 27) + datetime.timedelta(milliseconds=numbers.randrange(10**8))
    return ('{"at":%s,"level":"%s","service":"%s","trace":"%032x","message":"%s","status":%d,'
            '"ms":%d.%d,"user":%d}' % (
                text_of(at.isoformat(timespec="milliseconds") + "Z"),
                numbers.choice(("info", "info", "info", "warn", "error")),
                numbers.choice(("checkout", "search", "mail")), numbers.getrandbits(128),
                numbers.choice(("order placed", "no such item", "payment was refused")),
                numbers.choice((200, 200, 404, 500)), numbers.randrange(2_000),
                numbers.randrange(1, 10), numbers.randrange(100_000)))


def row(numbers):
    """A row of ten members, as bench/c/texts.cc has it."""
    return ('{"id":%d,"name":%s,"city":%s,"price":%s,"count":%d,"active":%s,"note":null,'
            '"tags":[%s,%s],"zip":"%d","year":%d}' % (
                numbers.randrange(100_000), text_of(words(numbers, 12)), text_of(words(numbers, 6)),
                decimal(numbers), numbers.randrange(1_000), numbers.choice(("true", "false")),
                text_of(words(numbers, 4)), text_of(words(numbers, 4)),
                numbers.randrange(10_000, 100_000), numbers.randrange(1950, 2025)))


def order(numbers):
    """An order of four lines."""
    lines, total = [], 0
    for _ in range(4):
        count, cents = numbers.randrange(1, 5), numbers.randrange(100, 100_000)
        total += count * cents
        lines.append('{"item":"A-%d","title":%s,"count":%d,"price":%d.%02d,"discount":null}' % (
            numbers.randrange(1_000, 10_000), text_of(words(numbers, 14)), count, cents // 100,
            cents % 100))
    return ('{"id":%d,"placed":"2026-11-%02dT%02d:15:30Z","customer":{"id":%d,"name":%s,'
            '"mail":"c%d@shop.example"},"address":{"street":"%s %d","zip":"%04d","city":"%s",'
            '"country":"NO"},"lines":[%s],"currency":"NOK","total":%d.%02d,"paid":%s}' % (
                numbers.randrange(10**7), numbers.randrange(1, 31), numbers.randrange(24),
                numbers.randrange(100_000), text_of(words(numbers, 12)), numbers.randrange(100_000),
                numbers.choice(("Storgata", "Kirkegata")), numbers.randrange(200),
                numbers.randrange(10_000), numbers.choice(("Oslo", "Bergen", "Tromsø")),
                ",".join(lines), total // 100, total % 100, numbers.choice(("true", "false"))))


def tree(numbers, levels):
    if levels == 0:
        return str(numbers.randrange(1_000))
    return '{"left":%s,"right":[%s,%s]}' % tuple(tree(numbers, levels - 1) for _ in range(3))


def documents():
    """The texts whose sizes are compared, by names; of several texts the mean counts."""
    numbers = random.Random(1)
    array = lambda count, item: ["[" + ",".join(item(it) for it in range(count)) + "]"]
    return {
        "a log line of eight members": [log_line(numbers) for _ in range(1_000)],
        "a row of ten members": [row(numbers) for _ in range(1_000)],
        "an order of four lines": [order(numbers) for _ in range(1_000)],
        "1,000 such rows in an array": array(1_000, lambda _: row(numbers)),
        "20,000 numbers": array(20_000, lambda it: decimal(numbers) if it % 2 else
                                str(numbers.randrange(10**6))),
        "2,000 strings": array(2_000, lambda it: text_of(words(numbers, it % 200))),
        "a tree of 6,561 leaves": [tree(numbers, 8)],
        "an object of 1,000 members": ["{" + ",".join(
            f'"key{100_000 + it * 7_919 % 100_000}":{it}' for it in range(1_000)) + "}"],
    }


# The rows that are loaded, searched, sorted and printed: their text, and the member.
ROWS = {"log lines": (log_line, "ms"), "orders": (order, "total")}
CALLS = ("load", "find a member", "sort by it", "print")


def rows_of(name, count):
    numbers = random.Random(2)
    return [ROWS[name][0](numbers) for _ in range(count)]


def least(rounds, programs, clock):
    """The least milliseconds of each program, which take turns in each round."""
    taken = {name: [] for name in programs}
    for _ in range(rounds):
        for name, program in programs.items():
            start = clock()
            program()
            taken[name].append(1_000 * (clock() - start))
    return {name: min(times) for name, times in taken.items()}


# In Python

def in_python(texts, member, rounds):
    """The times of kohiblad, cbor2, msgpack and json, by the call and the name."""
    import cbor2
    import msgpack
    from kohiblad import Document
    ways = {
        "kohiblad": (lambda text: bytes(Document.parse(text)), lambda it: Document(it)[member],
                     lambda it: Document(it).member(member).key(), lambda it: str(Document(it))),
        "cbor2": (lambda text: cbor2.dumps(json.loads(text)), lambda it: cbor2.loads(it)[member],
                  lambda it: cbor2.loads(it)[member], lambda it: text_of(cbor2.loads(it))),
        "msgpack": (lambda text: msgpack.packb(json.loads(text)),
                    lambda it: msgpack.unpackb(it)[member],
                    lambda it: msgpack.unpackb(it)[member],
                    lambda it: text_of(msgpack.unpackb(it))),
        "json": (None, lambda it: json.loads(it)[member], lambda it: json.loads(it)[member], None),
    }
    programs = {}
    for name, (load, find, key, show) in ways.items():
        stored = [load(it) for it in texts] if load else texts
        if load:
            programs["load", name] = lambda load=load: [load(it) for it in texts]
        programs["find a member", name] = lambda s=stored, find=find: [find(it) for it in s]
        programs["sort by it", name] = lambda s=stored, key=key: sorted(s, key=key)
        if show:
            programs["print", name] = lambda s=stored, show=show: [show(it) for it in s]
    return least(rounds, programs, time.process_time)


# In SQLite

def in_sqlite(module, texts, member, rounds):
    """The times of the functions over text and of kohiblad, by the call and the name."""
    data = sqlite3.connect(":memory:")
    data.enable_load_extension(True)
    data.load_extension(module)
    data.execute("CREATE TABLE texts (line TEXT)")
    data.executemany("INSERT INTO texts VALUES (?)", ([it] for it in texts))
    data.execute("CREATE TABLE of_text AS SELECT json(line) AS doc FROM texts")
    data.execute("CREATE TABLE of_kohiblad AS SELECT jb(line) AS doc FROM texts")
    calls = {
        ("load", "text"): "CREATE TABLE loaded AS SELECT json(line) FROM texts",
        ("load", "kohiblad"): "CREATE TABLE loaded AS SELECT jb(line) FROM texts",
        ("find a member", "text"): f"SELECT count(doc ->> '{member}') FROM of_text",
        ("find a member", "kohiblad"):
            f"SELECT count(jb_value(doc, '$.{member}')) FROM of_kohiblad",
        ("sort by it", "text"): "SELECT max(r) FROM (SELECT rowid r FROM of_text "
                                f"ORDER BY doc ->> '{member}' LIMIT {len(texts) - 1})",
        ("sort by it", "kohiblad"): "SELECT max(r) FROM (SELECT rowid r FROM of_kohiblad "
                                    f"ORDER BY jb_key(jb_get(doc, '{member}')) "
                                    f"LIMIT {len(texts) - 1})",
        ("print", "kohiblad"): "SELECT sum(length(jb_text(doc))) FROM of_kohiblad",
    }

    def asked(statement):
        data.execute(statement).fetchall()
        if statement.startswith("CREATE"):
            data.execute("DROP TABLE loaded")

    return least(rounds, {name: lambda it=it: asked(it) for name, it in calls.items()},
                 time.process_time)


# On a PostgreSQL server

SERVER = """
set -euo pipefail
folder=$1
. "$folder/tests/server.sh"
open_server shared_buffers=512MB work_mem=256MB jit=off max_parallel_workers_per_gather=0 \
    autovacuum=off >&2
export PATH=$bin:$PATH
shift
"$@"
"""


def psql(*commands, given=None):
    words = [word for it in commands for word in ("-c", it)]
    return subprocess.run(["psql", "-XqAt", "-v", "ON_ERROR_STOP=1", *words], input=given,
                          stdout=subprocess.PIPE, text=True, check=True).stdout


def copy(table, texts):
    psql(f"CREATE TABLE {table} (line text)")
    psql(f"COPY {table} FROM STDIN", given="".join(
        it.replace("\\", "\\\\") + "\n" for it in texts))


def sizes_on_server():
    """The mean bytes of jsonb for each name."""
    found = {}
    for number, (name, texts) in enumerate(documents().items()):
        copy(f"sized_{number}", texts)
        found[name] = float(psql(f"SELECT avg(pg_column_size(line::jsonb)) FROM sized_{number}"))
    return found


def on_server(name, count, rounds):
    """The times of jsonb and kohiblad, by the call and the name."""
    table, member = name.replace(" ", "_"), ROWS[name][1]
    copy(table, rows_of(name, count))
    for kind in ("jsonb", "kohiblad"):
        psql(f"CREATE TABLE {table}_{kind} AS SELECT line::{kind} AS doc FROM {table}",
             f"VACUUM ANALYZE {table}_{kind}")
    statements = {
        "load": "CREATE TABLE loaded AS SELECT line::KIND AS doc FROM TEXTS",
        "find a member": f"SELECT count(doc -> '{member}') FROM ROWS",
        "sort by it": f"SELECT count(*) FROM (SELECT doc FROM ROWS ORDER BY doc -> '{member}' "
                      "OFFSET 1) s",
        "print": "SELECT sum(length(doc::text)) FROM ROWS",
    }
    taken = {}
    for _ in range(rounds):
        for call, statement in statements.items():
            for kind in ("jsonb", "kohiblad"):
                asked = statement.replace("KIND", kind).replace("TEXTS", table)
                asked = asked.replace("ROWS", f"{table}_{kind}")
                timed = psql("\\timing on", asked).splitlines()[-1]
                if call == "load":
                    psql("DROP TABLE loaded")
                taken.setdefault((call, kind), []).append(float(timed.split()[1]))
    return {key: min(times) for key, times in taken.items()}


def answer_on_server(count, rounds):
    """Prints what the server measures, as JSON."""
    psql("CREATE EXTENSION kohiblad")
    times = {name: {" of ".join(key): it for key, it in on_server(name, count, rounds).items()}
             for name in ROWS}
    version = psql("SHOW server_version").split()[0]
    price = psql("SELECT '{\"id\":7,\"price\":1.50}'::jsonb -> 'price'").strip()
    small = psql("SELECT pg_column_size('{\"id\":7,\"price\":1.50}'::jsonb)").strip()
    print(json.dumps({"version": version, "sizes": sizes_on_server(), "times": times,
                      "price": price, "small": int(small)}))


# The tables

def shown(milliseconds):
    if milliseconds is None:
        return ""
    return f"{milliseconds:,.0f}" if milliseconds >= 9.95 else f"{milliseconds:.1f}"


def table(head, lines):
    rows = [head, ["---"] * len(head), *lines]
    return "".join("| " + " | ".join(it) + " |\n" for it in rows).replace(" --- ", "---")


def small_table(server):
    import cbor2
    import msgpack
    from kohiblad import Document
    text = '{"id":7,"price":1.50}'
    value, document = json.loads(text), Document.parse(text)
    sqlite_price = sqlite3.connect(":memory:").execute(
        "SELECT json_extract(?, '$.price')", [text]).fetchone()[0]
    return table(["", "bytes", "its price is read as"], [
        ["JSON text, read by Python's `json`", str(len(text)), f"`{value['price']}`"],
        ["Kohiblad", str(len(bytes(document))), f"`{document['price']}`"],
        ["PostgreSQL's `jsonb`", str(server["small"]), f"`{server['price']}`"],
        ["SQLite, which keeps the text", str(len(text)), f"`{sqlite_price}`"],
        ["CBOR", str(len(cbor2.dumps(value))), f"`{cbor2.loads(cbor2.dumps(value))['price']}`"],
        ["MessagePack", str(len(msgpack.packb(value))),
         f"`{msgpack.unpackb(msgpack.packb(value))['price']}`"],
    ])


def size_table(server):
    import cbor2
    import msgpack
    from kohiblad import Document
    lines = []
    for name, texts in documents().items():
        mean = lambda size: sum(map(size, texts)) / len(texts)
        text = mean(lambda it: len(it.encode()))
        sizes = [mean(lambda it: len(bytes(Document.parse(it)))), server["sizes"][name],
                 mean(lambda it: len(cbor2.dumps(json.loads(it)))),
                 mean(lambda it: len(msgpack.packb(json.loads(it))))]
        lines.append([name, f"{text:,.0f}"] + [f"{it:,.0f} ({it / text:.2f})" for it in sizes])
    return table(["bytes (share of the text's)", "JSON text", "Kohiblad", "`jsonb`", "CBOR",
                  "MessagePack"], lines)


def times_table(name, count, server, sqlite, python):
    """Each place has a column for Kohiblad, and one for each of the others."""
    lines = []
    for call in CALLS:
        on_pg = [server["times"][name].get(f"{call} of {it}") for it in ("kohiblad", "jsonb")]
        on_sqlite = [sqlite.get((call, it)) for it in ("kohiblad", "text")]
        on_python = [python.get((call, it)) for it in ("kohiblad", "json", "cbor2", "msgpack")]
        lines.append([call] + [shown(it) for it in on_pg + on_sqlite + on_python])
    return table([f"{count:,} {name}, ms", "PostgreSQL: Kohiblad", "`jsonb`", "SQLite: Kohiblad",
                  "text", "Python: Kohiblad", "`json`", "`cbor2`", "`msgpack`"], lines)


def put(name, text):
    """Replaces a table of the page."""
    page = PAGE.read_text()
    begin, end = f"<!-- bench/compared.py, {name} -->\n", "<!-- end -->\n"
    before, rest = page.split(begin)
    PAGE.write_text(before + begin + text + end + rest.split(end, 1)[1])


def build(folder, prefix):
    """Builds the modules in a scratch folder, and makes this process import the package there."""
    os.environ["PKG_CONFIG_PATH"] = f"{prefix}/lib/pkgconfig"
    shutil.copytree(TOP / "bindings" / "python", folder / "python")
    subprocess.run([sys.executable, "build_backend/kohiblad_build.py", "--extension",
                    "src/kohiblad"], cwd=folder / "python", check=True, stdout=subprocess.DEVNULL,
                   env=dict(os.environ, KOHIBLAD_NATIVE="1", PREFIX=prefix))
    os.environ.update(KOHIBLAD_LIBRARY=f"{prefix}/lib/libkohiblad.so", KOHIBLAD_NATIVE="1")
    sys.path.insert(0, str(folder / "python" / "src"))
    subprocess.run(["make", "-s", "-C", TOP / "bindings" / "sqlite", f"OUT={folder / 'sqlite'}"],
                   check=True)
    return str(folder / "sqlite" / "kohiblad")


def main():
    words = argparse.ArgumentParser(description=__doc__.splitlines()[0])
    words.add_argument("--rows", type=int, default=100_000)
    words.add_argument("--rounds", type=int, default=7)
    words.add_argument("--write", action="store_true")
    words.add_argument("--on-server", action="store_true", help=argparse.SUPPRESS)
    asked = words.parse_args()
    if asked.on_server:
        answer_on_server(asked.rows, asked.rounds)
        return
    prefix = os.environ.get("PREFIX") or sys.exit("set PREFIX to where the library is installed")
    load = os.getloadavg()[0]
    ran = subprocess.run(
        ["bash", "-c", SERVER, "compared", TOP / "bindings" / "postgresql", sys.executable,
         os.path.abspath(__file__), "--on-server", "--rows", str(asked.rows), "--rounds",
         str(asked.rounds)], stdout=subprocess.PIPE, text=True, check=True)
    server = json.loads(ran.stdout.splitlines()[-1])
    with tempfile.TemporaryDirectory() as scratch:
        module = build(pathlib.Path(scratch), os.path.abspath(prefix))
        import cbor2
        import msgpack
        tables = {"small": small_table(server), "sizes": size_table(server)}
        for name, (_, member) in ROWS.items():
            texts = rows_of(name, asked.rows)
            tables[name] = times_table(name, asked.rows, server,
                                       in_sqlite(module, texts, member, asked.rounds),
                                       in_python(texts, member, asked.rounds))
    print(f"PostgreSQL {server['version']}, SQLite {sqlite3.sqlite_version}, Python "
          f"{sys.version.split()[0]}, msgpack {'.'.join(map(str, msgpack.version))}; load before "
          f"{load:.1f}, after {os.getloadavg()[0]:.1f}")
    for name, text in tables.items():
        print(f"\n{text}", end="")
        if asked.write:
            put(name, text)


if __name__ == "__main__":
    main()
