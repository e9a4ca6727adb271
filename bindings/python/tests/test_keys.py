"""Keys of members, of ranges, and cut ones; and the commands that write them."""
import doctest
import itertools
import os
import random
import subprocess
import sys
import tempfile
import unittest
from decimal import Decimal

from kohiblad import Document, keys
from kohiblad.keys import MISSING, above, key_of, key_of_members
from test_command import run, stored

VALUES = [False, True, -5, Decimal("0.5"), 3, "", "\0", "a", "a\0", "ab", {}, {"a": 1}, [], [1],
          None]
MEMBERS = ["city", "price"]
ROWS = ['{"city":"Oslo","price":99.50}', '{"city":"Oslo"}', '[1]', '{"city":"A","price":-3}']


def order(left, right):
    return (left > right) - (left < right)


class KeyTest(unittest.TestCase):
    def test_the_examples(self):
        result = doctest.testmod(keys)
        self.assertEqual((result.failed, result.attempted > 5), (0, True))

    def test_keys_of_several_values_compare_as_tuples(self):
        pairs = [tuple(map(Document.of, pair)) for pair in itertools.product(VALUES, VALUES)]
        written = [key_of(*pair) for pair in pairs]
        shuffled = random.Random(5).sample(range(len(pairs)), len(pairs))
        self.assertEqual([written[it] for it in sorted(shuffled, key=pairs.__getitem__)],
                         sorted(written))
        self.assertEqual(key_of(5, "a"), key_of(Decimal("5.0"), Document.of("a")))

    def test_members_have_the_keys_of_their_values(self):
        row = Document.of({"city": "Oslo", "price": Decimal("99.50"), "at": [{"zip": None}]})
        self.assertEqual(key_of_members(row, MEMBERS), key_of("Oslo", Decimal("99.5")))
        self.assertEqual(key_of_members(row, ["price", "city"]), key_of(Decimal("99.5"), "Oslo"))
        self.assertEqual(key_of_members(row, [["at", -1, "zip"], []]), key_of(None, row))
        self.assertEqual(key_of_members(row, []), b"")

    def test_a_missing_member_is_least_and_keeps_its_place(self):
        missing = [Document.of(it) for it in ({"price": 5}, {"city": "a"}, {}, [], "city", 7)]
        self.assertEqual([key_of_members(it, MEMBERS) for it in missing],
                         [MISSING + key_of(5), key_of("a") + MISSING] + [MISSING * 2] * 4)
        for path in (["city", "a"], ["city", 0], [0], ["none"]):
            self.assertEqual(key_of_members(Document.of({"city": "a"}), [path]), MISSING)
        self.assertEqual(key_of_members(Document.of([1]), [[1], [-2], ["0"], [0]]),
                         MISSING * 3 + key_of(1))
        self.assertLess(MISSING, min(map(key_of, VALUES)))
        self.assertFalse(any(key_of(it).startswith(MISSING) for it in VALUES))

    def test_cut_keys_are_lower_bounds_and_decide_where_they_differ(self):
        for left, right in itertools.product(VALUES, VALUES):
            pair = [Document.of({"city": it, "price": 1}) for it in (left, right)]
            whole = [key_of_members(it, MEMBERS) for it in pair]
            for size in range(6):
                cut = [key_of_members(it, MEMBERS, size) for it in pair]
                self.assertEqual([len(it) for it in cut], [min(size, len(it)) for it in whole])
                self.assertLessEqual(cut[0], whole[0])
                if cut[0] != cut[1]:
                    self.assertEqual(order(*cut), order(*whole))
        with self.assertRaises(ValueError):
            key_of_members(Document.of(5), ["a"], -1)

    def test_a_half_open_range_has_all_that_begin_with_a_key(self):
        for key in map(key_of, VALUES):
            end = above(key)
            for rest in (b"", b"\0", b"\xff", b"\xff" * 9):
                self.assertTrue(key <= key + rest < end)
            # No byte string between is without the beginning: the least that is not below the end.
            self.assertEqual(end[:-1] + bytes([end[-1] - 1]), key)
        self.assertEqual(above(bytes.fromhex("117fffffff")), bytes.fromhex("1180"))
        for none in (b"", b"\xff", b"\xff\xff"):
            with self.assertRaises(ValueError):
                above(none)

    def test_ranges_find_what_a_filter_finds(self):
        rng = random.Random(9)
        rows = [(rng.choice(["Oslo", "Bergen", "Os"]), rng.randrange(200)) for _ in range(2000)]
        entries = sorted((key_of(*row), row) for row in rows)
        low, high = key_of("Oslo", 50), key_of("Oslo", 100)
        self.assertEqual([row for key, row in entries if low <= key < high],
                         sorted(it for it in rows if it[0] == "Oslo" and 50 <= it[1] < 100))
        city = key_of("Os")
        self.assertEqual([row for key, row in entries if city <= key < above(city)],
                         sorted(it for it in rows if it[0] == "Os"))


class KeyCommandTest(unittest.TestCase):
    def lines(self, *arguments, rows=ROWS):
        status, output, message = run(*arguments, given=stored(*rows))
        self.assertEqual((status, message), (0, ""))
        return [bytes.fromhex(it) for it in output.decode().splitlines()]

    def test_keys_of_members(self):
        documents = [Document.parse(it) for it in ROWS]
        self.assertEqual(self.lines("keys", "--member", "city", "--member", "price"),
                         [key_of_members(it, MEMBERS) for it in documents])
        self.assertEqual(self.lines("keys", "--member", "city", "--path", '["at",0]', "--cut", "3"),
                         [key_of_members(it, ["city", ["at", 0]], 3) for it in documents])
        self.assertEqual(self.lines("keys"), [it.key() for it in documents])
        # The third worked key of docs/COMPARABLE.md, and a member of it.
        page = ['{"at":0.005,"n":[12345,null]}']
        self.assertEqual(self.lines("keys", "--member", "at", rows=page), [b"\x81\x7f\x64"])
        self.assertEqual(self.lines("keys", "--path", '["n",0]', rows=page), [b"\x84\x03\x2f\x5a"])

    def test_rows_for_clickhouse(self):
        texts = ["5", '"' + "x" * 300 + '"']
        expected = b""
        for document in map(Document.parse, texts):
            for data in (document.key(), bytes(document)):
                size = bytes([len(data)]) if len(data) < 128 else \
                    bytes([len(data) % 128 + 128, len(data) // 128])
                expected += size + data
        self.assertEqual(run("keys", "--rowbinary", given=stored(*texts)), (0, expected, ""))

    def test_ranges(self):
        low, high = key_of("Oslo", 50), key_of("Oslo", 100)
        self.assertEqual(self.lines("range", '["Oslo",50]', '["Oslo",100]'), [low, high])
        self.assertEqual(self.lines("range", '["Oslo"]'), [key_of("Oslo"), above(key_of("Oslo"))])

    def test_other_arguments_are_usage_errors(self):
        for arguments in (("keys", "--cut", "-1"), ("keys", "--cut", "x"), ("keys", "--path", "a"),
                          ("keys", "--path", '"a"'), ("keys", "--path", "[true]"), ("range",),
                          ("range", "5"), ("range", "[]"), ("range", "[1"), ("merge",)):
            status, output, message = run(*arguments)
            self.assertEqual((status, output), (2, b""), arguments)
            self.assertIn("usage: ", message)


class MergeTest(unittest.TestCase):
    def setUp(self):
        folder = tempfile.TemporaryDirectory()
        self.addCleanup(folder.cleanup)
        self.folder = folder.name

    def path(self, name, content=b""):
        path = os.path.join(self.folder, name)
        with open(path, "wb") as file:
            file.write(content)
        return path

    def test_sorted_files_become_one(self):
        rng = random.Random(3)
        rows = [str(rng.randrange(50)) + rng.choice(["", ".0"]) for _ in range(300)]
        rows += ["[]", "null"]
        parts = [sorted(rows[at::5], key=lambda it: Document.parse(it).key()) for at in range(5)]
        files = [self.path(f"part{at}", stored(*part)) for at, part in enumerate(parts)]
        target = self.path("merged")
        self.assertEqual(run("merge", *files, self.path("none"), "-o", target), (0, b"", ""))
        # A sort is stable, as the merge is: of equal documents that of the first file comes first.
        expected = sorted(itertools.chain(*parts), key=lambda it: Document.parse(it).key())
        with open(target, "rb") as file:
            self.assertEqual(file.read(), stored(*expected))

    def test_a_file_out_of_order_is_refused(self):
        first, second = self.path("first", stored("1", "2")), self.path("second", stored("3", "1"))
        status, output, message = run("merge", first, second)
        self.assertEqual(status, 1)
        self.assertEqual(message,
                         f"kohiblad: {second}: document 2 is less than the one before it\n")
        self.assertTrue(stored("1", "2", "3").startswith(output))
        status, _, message = run("merge", first, second, "-o", second)
        self.assertEqual((status, "is the input" in message), (1, True))

    def test_memory_does_not_grow_with_the_files(self):
        rows = b"".join(stored(f'{{"id":{it},"text":"{"x" * 500}"}}') for it in range(20000))
        files = [self.path(name, rows) for name in ("one", "two", "three")]
        program = ("import resource, sys\nfrom kohiblad.__main__ import main\n"
                   "assert main(sys.argv[1:]) == 0\n"
                   "print(resource.getrusage(resource.RUSAGE_SELF).ru_maxrss)")
        used = [int(subprocess.run([sys.executable, "-c", program, "merge", *some, "-o",
                                    self.path("out")], stdout=subprocess.PIPE, check=True).stdout)
                for some in ([self.path("none")], files)]
        self.assertLess(used[1] - used[0], 4000)


if __name__ == "__main__":
    unittest.main()
