"""Takes members of a million rows in Python: by `Column.extract`, and row by row.

    PYTHONPATH=bindings/python/src KOHIBLAD_LIBRARY=libkohiblad.so.0.9 \
        python3 bench/typed/columns.py [ROWS]

Prints, for each way, the least time of the processor of five rounds, in milliseconds. The rows are
as those of columns.c. All ways of one member must have one sum. numpy is needed.
"""
import random
import sys
import time
from decimal import Decimal

from kohiblad import IS_NATIVE, Document
from kohiblad.arrow import Column

ROUNDS = 5
CITIES = ("Oslo", "Bergen", "Bern", "Turku", "Rome", "Lyon", "Gent", "Cork")


def row_of(index, rng):
    """One row in ten has no note, and one price in a hundred is whole."""
    cents, note = rng.randrange(100_000), '"note":"n12",' if rng.randrange(10) else ""
    price = f"{cents // 100}.{cents % 100:02}" if rng.randrange(100) else str(cents // 100)
    return (f'{{"at":{1_700_000_000 + index},"city":"{rng.choice(CITIES)}","id":{index},{note}'
            f'"ok":{rng.choice(("true", "false"))},"price":{price},"qty":{rng.randrange(20) + 1},'
            f'"score":{rng.randrange(2001) - 1000},"sku":"k{rng.randrange(1000):03}",'
            f'"tax":{rng.randrange(250)}}}')


def timed(what, way):
    """What all rounds of a way return, which is one value."""
    times, found = [], set()
    for _ in range(ROUNDS):
        start = time.process_time()
        found.add(way())
        times.append(time.process_time() - start)
    assert len(found) == 1, found
    print(f"{what:60} {min(times) * 1e3:8.1f}", flush=True)
    return found.pop()


def main():
    count, rng = int(sys.argv[1]) if len(sys.argv) > 1 else 1_000_000, random.Random(1)
    column = Column.of(Document.parse(row_of(index, rng)) for index in range(count))
    stored = [column._bytes_at(row) for row in range(count)]
    # Rows of Arrow are checked as they are taken; those of `Column.of` are known to be documents.
    of_arrow = Column.from_arrow(column)
    print(f"{count:,} rows of {sum(map(len, stored)) / count:.0f} bytes, "
          f"{'with' if IS_NATIVE else 'without'} the extension module")
    for name in ("at", "qty", "tax"):
        print(f"$.{name}")
        total = timed("Document(stored)[name] of each row, and the sum",
                      lambda: sum(Document(it)[name] for it in stored))
        for what, rows in (("", column), ("of Arrow, ", of_arrow)):
            assert total == timed(f"{what}extract as int64, and numpy's sum", lambda: int(
                rows.extract([name], ["int64"])[0].numpy.sum()))
        timed("extract of the least type", lambda: len(column.extract([name])[0]))
        timed("survey", lambda: column.survey(name))
        typed, = column.extract([name], ["int64"])
        assert total == timed("numpy's sum alone", lambda: int(typed.numpy.sum()))
        timed("to_list alone", lambda: len(typed.to_list()))
    print("$.price")
    total = timed("Document(stored)[name] of each row, and the sum",
                  lambda: sum(Document(it)["price"] for it in stored))
    for what, rows in (("", column), ("of Arrow, ", of_arrow)):
        assert total == timed(f"{what}extract as decimal 2, and numpy's sum", lambda: Decimal(
            int(rows.extract(["price"], ["decimal 2"])[0].numpy.sum())).scaleb(-2))
    timed("extract of the least type", lambda: len(column.extract(["price"])[0]))
    print("$.sku")
    timed("extract as text", lambda: len(column.extract(["sku"], ["text"])[0]))
    print("$.at, $.qty and $.tax")
    timed("Document(stored) of each row, and three members", lambda: len([
        (it["at"], it["qty"], it["tax"]) for it in map(Document, stored)]))
    for what, rows in (("", column), ("of Arrow, ", of_arrow)):
        timed(f"{what}extract as int64", lambda: len(
            rows.extract(["at", "qty", "tax"], ["int64"] * 3)))


if __name__ == "__main__":
    main()
