"""Calls that could take long or much memory: signals end them, and memory is asked for once."""
import random
import signal
import subprocess
import sys
import time
import unittest
from unittest import mock

import kohiblad
from kohiblad import Document, InvalidTextError, TooManyStepsError
from kohiblad import _library as library
from kohiblad import arrow
from kohiblad.arrow import Column

# 1,000 items within 500 arrays, each on a line after 1,000 blanks, and brackets after two for each
# level around them.
LEVELS, ITEMS = 500, 1000
DEEP = Document.parse("[" * LEVELS + ",".join("1" * ITEMS) + "]" * LEVELS)
PRETTY_SIZE = ITEMS * (2 * LEVELS + 3) + 2 * (LEVELS * (LEVELS - 1) + 2 * LEVELS) - 2


class SignalTest(unittest.TestCase):
    def setUp(self):
        self.calls = 0
        before = signal.signal(signal.SIGALRM, self.count)
        self.addCleanup(signal.signal, signal.SIGALRM, before)
        self.addCleanup(signal.setitimer, signal.ITIMER_REAL, 0)

    def count(self, number, frame):
        self.calls += 1

    def test_containment_is_interrupted(self):
        def end(number, frame):
            raise KeyboardInterrupt

        # 400,000,000 pairs of arrays take a minute.
        left, right = Document.of([[0]] * 20_000 + [[1]]), Document.of([[1]] * 20_000)
        signal.signal(signal.SIGALRM, end)
        began = time.process_time()
        signal.setitimer(signal.ITIMER_REAL, 0.2)
        with self.assertRaises(KeyboardInterrupt):
            left.contains(right)
        self.assertLess(time.process_time() - began, 10)

    def test_rounds_of_steps_give_the_answer(self):
        # Fewer steps than there are pairs do not do, and the product of both weights does.
        left, right = Document.of([[0]] * 2_500 + [[1]]), Document.of([[1]] * 2_500)
        self.assertTrue(left.contains(right))
        self.assertTrue(left.contains(right, steps=5_003 * 5_001))
        with self.assertRaises(TooManyStepsError):
            left.contains(right, steps=6_000_000)

    def test_many_scalars_are_looked_for_in_few_steps(self):
        numbers = Document.of(list(range(20_000)))
        self.assertTrue(numbers.contains(numbers, steps=10_000_000))

    def interrupted(self, call, seconds):
        """How long a call takes that a signal ends: the least of some, since other programs may
        take the processor meanwhile."""
        def end(number, frame):
            raise KeyboardInterrupt

        signal.signal(signal.SIGALRM, end)
        taken = []
        for _ in range(7):
            began = time.monotonic()
            signal.setitimer(signal.ITIMER_REAL, seconds)
            with self.assertRaises(KeyboardInterrupt):
                call()
            taken.append(time.monotonic() - began)
        return min(taken)

    def test_a_long_text_is_interrupted(self):
        text = "[" + "1.5," * 1_000_000 + "true]"
        began = time.monotonic()
        document = Document.parse(text)
        whole = time.monotonic() - began
        self.assertEqual(len(document), 1_000_001)
        for call in (lambda: Document.parse(text), lambda: kohiblad.loads(text.encode())):
            self.assertLess(self.interrupted(call, whole / 20), whole / 2)
        # What it raises otherwise is what a short text does.
        with self.assertRaisesRegex(InvalidTextError, "expected ',' or ']' at byte .* the end"):
            Document.parse(text[:-1])

    def test_what_is_made_of_a_long_document_is_attended(self):
        text = '{"a":["' + "x" * (2 << 20) + '"]}'
        document = Document.parse(text)
        calls = (lambda: Document.parse(text), lambda: Document(bytes(document)), document.key,
                 document.canonical, document.pretty, lambda: str(document), document.index_keys,
                 lambda: document.member_key("a"), document["a"].top_keys)
        with mock.patch.object(library, "attended", wraps=library.attended) as attended:
            for count, call in enumerate(calls, 1):
                call()
                self.assertEqual(attended.call_count, count)

    def test_rows_are_sorted_in_rounds(self):
        rng = random.Random(5)
        column = Column.of([Document.of({"id": rng.randrange(10**9)}) for _ in range(60_000)])
        began = time.monotonic()
        order = column.sorted_order()
        whole = time.monotonic() - began
        ids = [column[row]["id"] for row in order[::50]]
        self.assertEqual(ids, sorted(ids))
        self.assertLess(self.interrupted(column.sorted_order, whole / 20), whole / 2)

    def test_rounds_give_the_order_of_all_rows(self):
        rng = random.Random(6)
        rows = [rng.choice([None, Document.of(rng.randrange(40)), Document.of([rng.randrange(9)])])
                for _ in range(500)]
        column = Column.of(rows)
        expected = sorted(range(500), key=lambda row: (
            rows[row] is None, rows[row].key() if rows[row] is not None else b"", row))
        for count in (1, 7, 64, 499, 500, 8192):
            with mock.patch.object(arrow, "_SORTED_AT_ONCE", count):
                self.assertEqual(column.sorted_order(), expected, count)

    @unittest.skipUnless(kohiblad.IS_NATIVE, "the loops are those of the extension module")
    def test_signals_are_handled_while_values_are_read_and_written(self):
        value = [number % 100 for number in range(1_000_000)]
        document = Document.of(value)
        for call in (document.value, lambda: document.select("$[*]"), lambda: Document.of(value),
                     lambda: Document.of([b"", value])):
            self.calls = 0
            signal.setitimer(signal.ITIMER_REAL, 0.001, 0.001)
            call()
            signal.setitimer(signal.ITIMER_REAL, 0)
            self.assertGreater(self.calls, 3)

    @unittest.skipUnless(kohiblad.IS_NATIVE, "the loops are those of the extension module")
    def test_a_handler_s_exception_ends_the_call(self):
        def end(number, frame):
            raise KeyboardInterrupt

        value = [[number % 100] for number in range(1_000_000)]
        document = Document.of(value)
        signal.signal(signal.SIGALRM, end)
        for call in (document.value, lambda: document.select("$[*]"), lambda: Document.of(value),
                     lambda: Document.of([b"", value]), lambda: kohiblad.dumps(value)):
            signal.setitimer(signal.ITIMER_REAL, 0.005)
            with self.assertRaises(KeyboardInterrupt):
                call()
            signal.setitimer(signal.ITIMER_REAL, 0)
        self.assertEqual(document, Document.of(value))


class MemoryTest(unittest.TestCase):
    def test_the_text_on_lines(self):
        text = DEEP.pretty()
        self.assertEqual(len(text), PRETTY_SIZE)
        self.assertEqual(Document.parse(text), DEEP)

    def test_no_more_memory_is_taken_than_there_may_be(self):
        program = (
            "import resource, sys\n"
            "from kohiblad import Document\n"
            "document = Document.parse('[' * 500 + ','.join('1' * 500_000) + ']' * 500)\n"
            "taken = resource.getrusage(resource.RUSAGE_SELF).ru_maxrss\n"
            "pages = int(open('/proc/self/statm').read().split()[0])\n"
            "limit = pages * resource.getpagesize() + (300 << 20)\n"
            "resource.setrlimit(resource.RLIMIT_AS, (limit, limit))\n"
            "try:\n"
            "    document.pretty()\n"
            "except MemoryError:\n"
            "    more = resource.getrusage(resource.RUSAGE_SELF).ru_maxrss - taken\n"
            "    print('refused', more < 50_000 or more)\n")
        done = subprocess.run([sys.executable, "-c", program], stdout=subprocess.PIPE)
        self.assertEqual((done.returncode, done.stdout), (0, b"refused True\n"))


if __name__ == "__main__":
    unittest.main()
