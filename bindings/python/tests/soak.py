"""Makes random calls for some minutes, and cancels them at random.

    python3 tests/soak.py MINUTES [SEED]

Signals raise an exception in the main thread, in the middle of calls, and another thread raises one
in each of two threads that make calls, too. A call that was not cancelled has the right answer, or
refuses bytes that were changed at random. To be run with an extension module that was compiled with
sanitizers, as bindings/python/soak.sh does.
"""
import ctypes
import json
import pickle
import random
import signal
import sys
import threading
import time
import warnings
from datetime import date, datetime, timedelta, timezone
from decimal import Decimal

import kohiblad
from kohiblad import Document, Interval, KohibladError, KohibladWarning, dumps, loads
from kohiblad.arrow import Column
from kohiblad.typed_file import TypedFile
from models import FewNames, Values
from test_arrow import Producer

if kohiblad.IS_NATIVE:
    from kohiblad import _native as native

TYPES = ("boolean", "int64", "uint64", "decimal 0", "decimal 2", "decimal 255", "text", "date",
         "timestamp", "timestamp_tz", "interval", "binary", "nothing", "mixed", None)
# Those that a file has.
FILE_TYPES = [it for it in TYPES if it not in ("nothing", "mixed", None)]
NOON = datetime(2026, 11, 29, 12, tzinfo=timezone(timedelta(hours=-3)))
SCALARS = (None, True, 7, -1, 2**63, Decimal("1.50"), Decimal("-0.25"), "t", "é" * 9, b"", b"\xff",
           date(2026, 11, 29), NOON, NOON.replace(tzinfo=None), Interval(1, -2, 3), "2026-11-29",
           NOON.isoformat())

raise_in_thread = ctypes.pythonapi.PyThreadState_SetAsyncExc
raise_in_thread.argtypes = ctypes.c_ulong, ctypes.py_object


class Cancelled(BaseException):
    """What a call is cancelled by."""


def expect(is_right, what):
    if not is_right:
        raise AssertionError(what)


class Calls:
    """Random calls, each with what its answer has to be."""

    def __init__(self, seed):
        self.random = random.Random(seed)
        self.values, self.few = Values(seed), FewNames(seed)
        self.long = [number % 1000 for number in range(20_000)]
        self.sources = []

    def value(self):
        choice = self.random.randrange(20)
        if choice == 0:
            return [self.few.any(depth=3) for _ in range(self.random.randrange(3000))]
        if choice == 1:
            return {f"{self.few.text()}{number}": self.few.any(depth=2)
                    for number in range(self.random.randrange(1000))}
        if choice == 2:
            return [self.long, b"", self.long][:self.random.randrange(4)]
        return (self.values if choice < 10 else self.few).any(depth=5)

    def text(self):
        value = (self.values if self.random.random() < .5 else self.few).plain(depth=5)
        return dumps(value), value

    def bytes(self):
        """Those of a document, some of which are changed."""
        return self.changed(bytes(Document.of(self.value())))

    def changed(self, whole):
        """Bytes, some of which are changed, and which may be cut."""
        data = bytearray(whole)
        for _ in range(self.random.randrange(3) if data else 0):
            data[self.random.randrange(len(data))] ^= 1 << self.random.randrange(8)
        return bytes(data[:self.random.randrange(len(data) + 1)]
                     if self.random.random() < .2 else data)

    def row(self):
        """The members of a row, of all types."""
        return {name: self.random.choice(SCALARS) for name in "abc" if self.random.random() < .8}

    def call_loads(self):
        text, value = self.text()
        expect(loads(text) == value, text)
        cut = text[:self.random.randrange(len(text) + 1)]
        for it in (cut, cut.encode(), text + cut):
            try:
                loads(it)
            except KohibladError:
                pass

    def call_of(self):
        value = self.value()
        document = Document.of(value)
        expect(Document(bytes(document)) == document, value)
        expect(Document.of(document.value()) == document, value)
        expect(loads(dumps(value)) == loads(document.pretty()), value)

    def call_refused(self):
        for value in (1.5, [1, {"a": object()}], {1: 2}, ["\ud800"], Decimal("NaN"), [[2**200]]):
            try:
                Document.of([self.few.any(depth=2), value])
            except (KohibladError, TypeError):
                continue
            raise AssertionError(value)

    def call_bytes(self):
        data = self.bytes()
        try:
            document = Document(data)
        except KohibladError:
            return
        expect(document == Document.of(document.value()), data)
        str(document), document.key(), document.canonical(), hash(document)

    def call_children(self):
        document = Document.of(self.value())
        for it in (document if document.kind in ("array", "object") else ()):
            repr(it)
        if document.kind == "object":
            expect(dict(document.items()) == dict(zip(document, document.values())), document)
        document.select(self.random.choice(["$.*", "$[*]", "$[*].a", "$[last]", "$.a[0 to 3]"]))

    def call_changes(self):
        value = self.few.any(depth=4)
        document, path = Document.of(value), self.few.path(value)
        other = self.few.any(depth=3)
        changed = document.set(path, other).insert(path, other)
        changed.without(path, self.few.path(value))
        document.merge(self.few.patch(value))
        document.without_nulls(), document.distinct(), document.overlaps(other)
        document.get_path(*path)

    def call_contains(self):
        value = self.few.any(depth=4)
        document, part = Document.of(value), self.few.part(value)
        document.contains(part), document.contains(self.few.any(depth=3))
        names = [self.few.text() for _ in range(self.random.randrange(4))]
        found = [document.has_key(it) for it in names]
        expect(document.has_any_key(*names) == any(found), names)
        expect(document.has_all_keys(*names) == all(found), names)

    def call_long_contains(self):
        count = self.random.randrange(5000)
        left, right = Document.of([0] * count + [1]), Document.of([1] * count)
        expect(left.contains(right), count)

    def call_deep(self):
        levels = self.random.randrange(1, 1001)
        opened, closed = self.random.choice([("[", "]"), ('{"a":', "}")])
        document = Document.parse(opened * levels + "1" + closed * levels)
        document.value(), document.key(), document.without_nulls()
        expect(document.contains(document), levels)
        if levels < 300:
            expect(Document.parse(document.pretty()) == document, levels)

    def call_column(self):
        rows = [Document.of(self.few.any(depth=2)) if self.random.random() < .9 else None
                for _ in range(self.random.randrange(50))]
        column = Column.from_arrow(Column.of(rows))
        expect(list(column) == rows, rows)
        order = column.sorted_order()
        there = [rows[it] for it in order if rows[it] is not None]
        expect(there == sorted(there, key=Document.key), rows)

    def call_typed(self):
        count = self.random.randrange(5000)
        values = [self.random.choice([number, f"t{number}", None]) for number in range(count)]
        column = Column.of(map(Document.of, values))
        numbers, texts = column.extract([[], []], ["int64", "text"])
        expect(numbers.to_list() == [it if isinstance(it, int) else None for it in values], values)
        expect(texts.to_list() == [it if isinstance(it, str) else None for it in values], values)
        expect([row for row, _ in numbers.rest]
               == [row for row, it in enumerate(values) if isinstance(it, str)], values)
        expect(column.survey([]).nulls == values.count(None), values)
        numbers.__arrow_c_array__(), texts.__arrow_c_stream__()

    def call_types(self):
        """Each type, of rows that fit it or not, by a subclass that tells another length."""
        rows = [self.row() for _ in range(self.random.randrange(200))]
        told = self.random.choice([0, 3, 2**40])
        members = type("Members", (Column,), {"__len__": lambda it: told})
        column = members.of(Document.of(it) if it else None for it in rows)
        types = [self.random.choice(TYPES) for _ in range(3)]
        columns = column.extract(["a", "b", ["c"]], types, exact=self.random.random() < .5,
                                 unfit=self.random.choice(["rest", "null"]),
                                 iso_dates=self.random.random() < .5)
        for name, typed in zip("abc", columns):
            if typed.type not in ("nothing", "mixed"):
                expect(all(it is None or name in row for it, row in zip(typed, rows)), rows)
            expect(len(typed.to_list()) == len(rows), rows)
            typed[::2], typed.rest, repr(typed), repr(column)
            again = pickle.loads(pickle.dumps(typed))
            expect(again.to_list() == typed.to_list() and again.rest == typed.rest, rows)
            for call in (lambda: typed.zones(self.random.randrange(1, 50)).may_hold(),
                         typed.__arrow_c_array__, typed.__arrow_c_stream__):
                try:
                    call()
                except (TypeError, ValueError):
                    pass

    def call_typed_file(self):
        rows = [self.row() for _ in range(self.random.randrange(60))]
        types = {name: self.random.choice(FILE_TYPES)
                 for name in "abd" if self.random.random() < .8}
        data = TypedFile.build(rows, types)
        expect([it.value() for it in TypedFile(data)] == [Document.of(it).value() for it in rows],
               rows)
        expect(list(pickle.loads(pickle.dumps(TypedFile(data)))) == list(TypedFile(data)), rows)
        TypedFile(TypedFile.build(rows, types, iso_dates=True))
        for it in (data, self.changed(data), self.changed(data)):
            self.read_file(it, self.random.random() < .5)

    def read_file(self, data, is_checked):
        """Reads all of a file, which may be out of form anywhere."""
        try:
            file = TypedFile(data, check=is_checked)
        except KohibladError:
            return
        for call in [*(lambda row=row: file[row] for row in range(min(len(file), 40))),
                     *(lambda it=it: list(it[:40]) for it in file.columns)]:
            try:
                call()
            except (ValueError, IndexError, OverflowError):
                expect(not is_checked, data)

    def call_arrow(self):
        """Rows of another library, which need be no documents, some of them missing."""
        rows = [self.bytes() if self.random.random() < .3 else bytes(Document.of(self.row()))
                for _ in range(self.random.randrange(1, 40))]
        first = self.random.randrange(len(rows))
        source = Producer(rows, self.random.choice([b"z", b"Z"]), first)
        # It has the function by which it is released, so it stays until that was called.
        self.sources = [it for it in self.sources if not it.released] + [source]
        column = Column.from_arrow(source)
        column.survey("a"), column.least_type(["b"])
        for typed in column.extract(["a", "b", ["c", 0]], [self.random.choice(TYPES)
                                                           for _ in range(3)]):
            expect(len(typed) == len(rows) - first, rows)
            typed.to_list(), typed.rest
        order = column.sorted_order()
        expect(sorted(order) == list(range(len(rows) - first)), rows)
        Column.from_arrow(column[self.random.randrange(len(column) + 1):]).sorted_order()

    def call_texts(self):
        """Paths and texts that may be none."""
        document = Document.of(self.few.any(depth=3))
        text = self.random.choice(['$.a[*]?(@.b > 1 && !(exists(@.c) || @ == "x"))',
                                   "$.*[0 to #-1]", "/a/0/-", "{a,-1}", '{"a":[1.50,"\\u00e9"]}'])
        for it in (text, self.changed(text.encode())):
            for call in (document.select, document.path_of, Document.parse):
                try:
                    call(it)
                except KohibladError as error:
                    # The place in a path is shown on lines of its own.
                    expect(str(error).replace("\n", "").isprintable(), it)

    def call_module(self):
        """Functions of the extension module with any arguments."""
        if not kohiblad.IS_NATIVE:
            return
        data = bytes(Document.of(self.value()))
        things = (data, self.bytes(), b"", "a", "\ud800", None, -1, 2**70, 1.5, [], {}, object())
        name = self.random.choice([it for it in dir(native) if it not in (
            "VERSION", "bind", "end_uses", "new_use", "releases") and it[0] != "_"])
        arguments = [self.random.choice(things) for _ in range(self.random.randrange(5))]
        try:
            result = getattr(native, name)(*arguments)
            if name in ("names", "values", "pairs"):
                list(result)
        except (TypeError, ValueError, LookupError, OverflowError, MemoryError):
            pass

    def call_json(self):
        text, value = self.text()
        expect(json.loads(str(Document.parse(text)), parse_float=Decimal) == value, text)

    def one(self):
        calls = [getattr(self, it) for it in dir(self) if it.startswith("call_")]
        self.random.choice(calls)()


class Worker(threading.Thread):
    """Makes calls until the end; an exception may be raised in it at any time."""

    def __init__(self, seed):
        super().__init__()
        self.calls, self.counted = Calls(seed), [0, 0]
        self.is_over, self.failure = False, None

    def run(self):
        while not self.is_over:
            try:
                self.make_calls()
            except Cancelled:
                pass  # It came while another was handled.

    def make_calls(self):
        while not self.is_over:
            try:
                self.calls.one()
                self.counted[0] += 1
            except Cancelled:
                self.counted[1] += 1
            except BaseException as error:
                self.failure, self.is_over = error, True


def cancel(workers, rng, end):
    """Raises exceptions in the workers, until the end."""
    while time.monotonic() < end and not any(it.failure for it in workers):
        time.sleep(rng.random() / 20)
        raise_in_thread(rng.choice(workers).ident, Cancelled)
    for it in workers:
        it.is_over = True


def run_main(calls, end, is_over):
    """Makes calls in the main thread, in which a signal raises an exception."""
    done = cancelled = 0

    def stop(number, frame):
        raise Cancelled

    signal.signal(signal.SIGALRM, stop)
    while time.monotonic() < end and not is_over():
        try:
            try:
                if calls.random.random() < .5:
                    signal.setitimer(signal.ITIMER_REAL, calls.random.random() / 50 + 1e-6)
                calls.one()
                done += 1
            finally:
                signal.setitimer(signal.ITIMER_REAL, 0)
        except Cancelled:
            cancelled += 1
    return done, cancelled


def ignore_cancelled(it):
    """In a function that the garbage collector or C calls, an exception ends that alone."""
    if it.exc_type is not Cancelled:
        sys.__unraisablehook__(it)


def main():
    sys.unraisablehook = ignore_cancelled
    warnings.simplefilter("ignore", KohibladWarning)
    minutes, seed = float(sys.argv[1]), int(sys.argv[2]) if len(sys.argv) > 2 else 1
    end = time.monotonic() + 60 * minutes
    workers = [Worker(seed + number) for number in (1, 2)]
    for it in workers:
        it.start()
    canceller = threading.Thread(target=cancel, args=(workers, random.Random(seed), end))
    canceller.start()
    done, cancelled = run_main(Calls(seed), end, lambda: any(it.failure for it in workers))
    canceller.join()
    for it in workers:
        it.join()
        if it.failure:
            raise it.failure
    done += sum(it.counted[0] for it in workers)
    cancelled += sum(it.counted[1] for it in workers)
    Calls(seed).call_of()
    print(f"{done} calls, {cancelled} cancelled, native {kohiblad.IS_NATIVE}")


if __name__ == "__main__":
    main()
