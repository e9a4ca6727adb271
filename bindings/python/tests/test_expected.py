"""What the errors of texts and paths say: what could have come, and what came."""
import string
import unittest

from kohiblad import Document, InvalidTextError, PathError, TooDeepError, _expected
from kohiblad import _library as library

# The characters that each word names.
NAMED = {"a value": '"[{-0123456789tfn', "a key": '"', "an escape": '"\\/bfnrtu',
         "a digit": string.digits, "a hexadecimal digit": string.hexdigits,
         "the other half of a surrogate pair": "\\", "a sign": "+-", "an exponent": "eE",
         "the end": "", "the rest of a string": "".join(map(chr, range(32, 127)))}
TEXTS = ['[1,2.5e+1,-7]', '{"ab":true,"c\\n\\u00e9":[false,null]}', ' [ ] ', '{"a":{}}',
         '"\\ud83d\\ude00"', '-0.25E-2 ', '[["x"],[]]']


class ExpectedTest(unittest.TestCase):
    def assert_said(self, text, message, **options):
        with self.subTest(text=text):
            with self.assertRaises((InvalidTextError, TooDeepError)) as refused:
                Document.parse(text, **options)
            self.assertEqual(refused.exception.message, message)

    def test_messages(self):
        for text, message in (
                ("", "expected a value at byte 0, found the end"),
                ('{"a" 1}', "expected ':' at byte 5, found '1'"),
                ("[1 2]", "expected ',' or ']' at byte 3, found '2'"),
                ('{"a":1,}', "expected a key at byte 7, found '}'"),
                ("{1:2}", "expected a key or '}' at byte 1, found '1'"),
                ("[1]]", "expected the end at byte 3, found ']'"),
                ("[True]", "expected a value or ']' at byte 1, found 'True'"),
                ("'a'", 'expected a value at byte 0, found "\'"'),
                ("nulx", "expected 'l' at byte 3, found 'x'"),
                ("[1.5", "expected a digit, ',', ']' or an exponent at byte 4, found the end"),
                ('["a\n"]', "expected the rest of a string at byte 3, found 0x0a"),
                ('"\\x"', "expected an escape at byte 2, found 'x'"),
                ('"\\u00g"', "expected a hexadecimal digit at byte 5, found 'g'"),
                ("\ufeff1", "expected a value at byte 0, found a byte order mark"),
                (b"[\xc3\xa9]", "expected a value or ']' at byte 1, found '\u00e9'"),
                ("[" + "x" * 99,
                 "expected a value or ']' at byte 1, found '" + "x" * 20 + "..'"),
                ("[" + "\u00e9" * 21,
                 "expected a value or ']' at byte 1, found '" + "\u00e9" * 20 + "..'"),
                ("1e99", "at byte 3 of a number that is unfinished or too long, in '1e99'"),
                ("[12.]", "at byte 4 of a number that is unfinished or too long, in '12.'"),
                (b'"\xff"', "no UTF-8 at byte 1, found 0xff")):
            self.assert_said(text, message)
        self.assert_said("[[[]]]", "more brackets than 2 are open at byte 2", depth=2)
        self.assert_said('["[[",[[]]]', "more brackets than 2 are open at byte 7", depth=2)
        self.assert_said("[1e5]", "at byte 2 of a number that is unfinished, too long, or has an "
                                  "exponent, in '1e5'", exponents=False)

    def test_beginnings_are_of_any_length(self):
        text = "[" + "1," * (1 << 20)
        self.assert_said(text + "]", f"expected a value at byte {len(text)}, found ']'")

    def test_each_character_that_can_come_is_named_and_no_other(self):
        for text in TEXTS:
            for size in range(len(text) + 1):
                beginning = text[:size].encode()
                words = _expected._expected(beginning, 1000, True)
                # What is quoted means itself.
                named = set().union(*(NAMED.get(it, it.strip("'")) for it in words))
                can_come = set()
                for it in map(chr, range(33, 127)):
                    tried = beginning + it.encode()
                    fault = library.exports.text_fault(tried, size + 1, 1000, True)
                    if fault.status == library.OK or fault.offset > size:
                        can_come.add(it)
                if "a hexadecimal digit" in words:
                    # Those of a half of a surrogate pair are not all possible.
                    self.assertLessEqual(can_come, named)
                elif words:
                    self.assertEqual(named - {" "}, can_come, (beginning, words))
                else:
                    self.assertLess(len(can_come), 5, beginning)

    def test_paths_are_quoted(self):
        row = Document.of([1])
        for path in ("$.a[", b"$.a["):
            for call in row.path_of, row.select:
                with self.assertRaises(PathError) as refused:
                    call(path)
                self.assertEqual(refused.exception.message, "the text is not a path")
                self.assertEqual(refused.exception.report,
                                 "$.a[\n    ^ expected a value at byte 4, found the end")
        with self.assertRaisesRegex(PathError, "x{60}[.][.]'"):
            row.path_of("x" * 100)
        # So much of a long text is shown, with escapes for what a terminal might obey.
        with self.assertRaises(PathError) as refused:
            row.select("x" * 1000 + " \u202e")
        self.assertEqual(refused.exception.report.split("\n")[0], "x" * 120)
        with self.assertRaises(PathError) as refused:
            row.select("\u202e")
        self.assertEqual(refused.exception.report.split("\n")[0], "\\u202e")


if __name__ == "__main__":
    unittest.main()
