"""Words of errors, in which no character is one that a terminal might take for a command."""
import json
import unittest

import test_command
from kohiblad import Document, InvalidTextError, KohibladError, PathError, UnfitError, _errors
from kohiblad.arrow import Column
from test_command import run

# C1 controls, marks of direction, separators of lines, and what has no look of its own.
OBEYED = ["\x00", "\x1b", "\x7f", "\x80", "\x9b", "\x9f", "\xad", "\u061c", "\u180e", "\u200b",
          "\u200e", "\u200f", "\u2028", "\u2029", *map(chr, range(0x202a, 0x202f)),
          *map(chr, range(0x2066, 0x206a)), "\ufeff", "\U000e0001"]
# Some that are shown as they are.
SHOWN = ["a", "é", "日", "\u05d0", "\u0627", "\xa0", "\u2010", "\u2030", "\U0001f600"]


def escape(character):
    return json.dumps(character)[1:-1] if character != "\x7f" else r"\u007f"


class TerminalTest(unittest.TestCase):
    def test_each_character(self):
        for it in OBEYED:
            self.assertEqual(_errors.printable(f"a{it}b"), f"a{escape(it)}b", hex(ord(it)))
        for it in SHOWN:
            self.assertEqual(_errors.printable(it), it)
        # What is escaped is not escaped again.
        self.assertEqual(_errors.printable(escape("\u202e")), r"\u202e")

    def assert_safe(self, error):
        for words in (str(error), error.message):
            self.assertEqual(set(words) & set(OBEYED), set())

    def test_texts_and_paths(self):
        for it in OBEYED:
            for text in (f"[x{it}]", f"[{it}]", f'{{"a" {it}'):
                with self.assertRaises(InvalidTextError) as refused:
                    Document.parse(text)
                self.assert_safe(refused.exception)
            with self.assertRaises(PathError) as refused:
                Document.of([]).select(f"$.[{it}")
            self.assert_safe(refused.exception)
        with self.assertRaises(InvalidTextError) as refused:
            Document.parse("[x\x9b31m\u202e]")
        self.assertEqual(refused.exception.message,
                         r"expected a value or ']' at byte 1, found 'x\u009b31m\u202e'")

    def test_members_that_do_not_fit(self):
        name, value = "n\u202e", "v\x9b31m\u2067"
        column = Column.of([Document.of({name: value})])
        with self.assertRaises(UnfitError) as refused:
            column.extract([name], ["int64"], unfit="error")
        self.assertEqual(str(refused.exception), r'row 0: OtherKind: no int64 at ["n\u202e"]: '
                                                 r'"v\u009b31m\u2067"')

    def test_places_and_what_is_pickled(self):
        import copy
        error = KohibladError(1, "Name", "a\x9bb")
        error.place = "rows\x1b[2J"
        self.assertEqual(str(error), r"rows\u001b[2J: Name: a\u009bb")
        self.assertEqual(copy.copy(error).message, r"a\u009bb")


class CommandTest(unittest.TestCase):
    # Not by its name in this module, where its tests would be found and run again.
    setUp, path = test_command.CommandTest.setUp, test_command.CommandTest.path

    def test_names_that_are_given(self):
        """In a line of an error, whatever the name of a file or a word is."""
        source = self.path("in\x9b\u202e\n\x1b", b"[\n")
        for words in (["encode", source], ["decode", source], ["decode", source + "none"],
                      ["show", "zz\x9b"], ["keys", "--path", "\x9b\u202e"], ["range", "\x9b\u202e"],
                      ["sort", "--memory", "\x9b\u202e"], ["extract", "$.\x9b[", "int64"],
                      ["\x9b\u202e"], ["decode", "--\x9b\u202e"], ["encode", source, "-o", source]):
            with self.subTest(words=words):
                status, _, message = run(*words, path=self.folder)
                self.assertNotEqual(status, 0)
                self.assertEqual(set(message.rstrip("\n")) & set(OBEYED), set())
        errors = self.path("errors")
        run("encode", source, "--errors", errors)
        with open(errors, encoding="utf-8") as file:
            self.assertEqual(file.read().count(r"in\u009b\u202e\n\u001b: line 1: InvalidJson"), 1)


if __name__ == "__main__":
    unittest.main()
