"""Order, equality, hash and key, beside a model of docs/FORMAT.md and known keys."""
import os
import pickle
import random
import unittest
from decimal import Decimal

from kohiblad import Document, InvalidDocumentError
from models import Values, compare, order_key

HERE = os.path.dirname(os.path.abspath(__file__))
LINES = os.path.join(os.environ.get("KOHIBLAD_LINES")
                     or os.path.join(HERE, "..", "..", "..", "tests", "lines", "jsonb_probe"),
                     "comparable-keys")
SIGNS = {"less": -1, "equal": 0, "greater": 1}


def known_answers(wanted):
    """The documents of each command of a name, and its answer, computed by another program."""
    with open(LINES + ".in") as commands, open(LINES + ".out") as answers:
        for command, answer in zip(commands, answers):
            name, *operands = command.rstrip("\n").split(" ")
            if name != wanted:
                continue
            try:
                yield [Document(bytes.fromhex(it)) for it in operands], answer.split()
            except InvalidDocumentError:
                pass


class OrderTest(unittest.TestCase):
    def test_known_keys(self):
        answers = list(known_answers("key"))
        self.assertGreater(len(answers), 300)
        for (document,), (_, key) in answers:
            self.assertEqual(document.key().hex(), key)

    def test_known_comparisons(self):
        answers = list(known_answers("cmp"))
        self.assertGreater(len(answers), 200)
        for (left, right), (order, _) in answers:
            self.assertEqual((left > right) - (left < right), SIGNS[order])
            self.assertEqual(left == right, order == "equal")

    def test_random_pairs_compare_as_the_model(self):
        values = Values(seed=4)
        some = [values.any(depth=2) for _ in range(150)]
        documents = [Document.of(it) for it in some]
        for left, left_document in zip(some, documents):
            for right, right_document in zip(some, documents):
                sign = compare(left, right)
                self.assertEqual(left_document < right_document, sign < 0, (left, right))
                self.assertEqual(left_document >= right_document, sign >= 0)
                self.assertEqual(left_document == right_document, sign == 0, (left, right))
                if sign == 0:
                    self.assertEqual(hash(left_document), hash(right_document))

    def test_sorts_as_the_model(self):
        values = Values(seed=5)
        some = [values.any(depth=3) for _ in range(2000)]
        expected = [Document.of(it) for it in sorted(some, key=order_key)]
        documents = [Document.of(it) for it in some]
        random.Random(6).shuffle(documents)
        self.assertEqual(sorted(documents), expected)
        self.assertEqual(sorted(documents, key=Document.key), expected)

    def test_equal_numbers_are_one_key_of_a_dict(self):
        five, also_five = Document.of(5), Document.of(Decimal("5.0"))
        self.assertNotEqual(bytes(five), bytes(also_five))
        self.assertEqual({five: "x"}[also_five], "x")
        self.assertEqual(len({five, also_five, Document.of("5")}), 2)

    def test_documents_equal_documents_alone(self):
        self.assertNotEqual(Document.of(5), 5)
        self.assertNotEqual(Document.of([1]), [1])
        self.assertNotEqual(Document.of({"a": 1}), {"a": 1})
        with self.assertRaises(TypeError):
            Document.of(5) < 6

    def test_pickles(self):
        values = Values(seed=7)
        for _ in range(100):
            document = Document.of(values.any(depth=3))
            for protocol in range(pickle.HIGHEST_PROTOCOL + 1):
                copy = pickle.loads(pickle.dumps(document, protocol))
                self.assertIs(type(copy), type(document))
                self.assertEqual(bytes(copy), bytes(document))


if __name__ == "__main__":
    unittest.main()
