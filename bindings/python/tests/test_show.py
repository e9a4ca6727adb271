"""A document beside its bytes: python -m kohiblad show, and the page of HTML."""
import html
import os
import pty
import re
import shlex
import subprocess
import sys
import tempfile
import unittest

from kohiblad import Document, InvalidDocumentError
from kohiblad._fault import fault_of
from kohiblad._parts import WORD, parts_of
from kohiblad._show import MOST_PARTS, lines_of, page_of
from browser import CHROMIUM, NEEDS_CHROMIUM, Browser
from models import Values

TOP = os.path.dirname(os.path.dirname(os.path.abspath(__file__)))
LINES = os.environ["KOHIBLAD_LINES"]
# [false,10,{"k":"v"}], word by word on docs/FORMAT.md.
PAGE = "80000003300000002000000250" "00000e500a400000011000000110000001" "6b76"
SHOWN = """\
   entry        bytes                       tree
              0 80000003                    array of 3
 4 30000000                                 ├─ 0: false
 8 20000002  16 500a                        ├─ 1: 10
12 5000000e  18 40000001                    └─ 2: object of 1
22 10000001  30 6b                             ├─ key "k"
26 10000001  31 76                             └─ "k": "v"
"""
DEEP = 1000


def run(*arguments, given=b"", **variables):
    """The status of the program, its output and its messages."""
    done = subprocess.run([sys.executable, "-m", "kohiblad", "show", *arguments], input=given,
                          env=dict(os.environ, **variables), stdout=subprocess.PIPE,
                          stderr=subprocess.PIPE)
    return done.returncode, done.stdout.decode(), done.stderr.decode()


def shown(text):
    """The lines for the document of a JSON text."""
    return list(lines_of(bytes(Document.parse(text)), False, False))


def words(line):
    return line.split()


class LinesTest(unittest.TestCase):
    def test_the_document_of_the_page(self):
        self.assertEqual(run(PAGE), (0, SHOWN, ""))

    def test_a_scalar_has_a_header(self):
        self.assertEqual([words(it) for it in shown("1.50")[1:]],
                         [["0", "20000000", "scalar"],
                          ["4", "2000000a", "8", "70000000", "00000000", "9602", "└─", "1.50"]])

    def test_old_forms_and_extension_values(self):
        # The payloads are of the tables of docs/FORMAT.md.
        for payload, meaning in (("2000000340000a", "10 (old form)"),
                                 ("2000000350000a", "10 (old form)"), ("20000002500a", "10"),
                                 ("2000000140", None), ("20000001" "00", "0"),
                                 ("60000003" "00abcd", 'binary "abcd"'),
                                 ("60000005" "1000000007", 'date "7"'),
                                 ("60000009" "20" "000000000000000a", 'timestamp "10"'),
                                 ("6000000a" "30" "000000000000000a" "01",
                                  'timestamp with time zone "10 3600" (old form)'),
                                 ("60000003" "60abcd", 'opaque, tag 60 "60abcd"')):
            data = bytes.fromhex("20000000" + payload)
            if meaning is None:
                self.assertRaises(InvalidDocumentError, Document, data)
                continue
            self.assertEqual([it.meaning for it in parts_of(data)], ["scalar", meaning])

    def test_each_byte_is_shown_once(self):
        values = Values(54)
        for _ in range(200):
            document = bytes(Document.of(values.any(4)))
            places = []
            for part in parts_of(document):
                if part.entry is not None:
                    places += range(part.entry, part.entry + WORD)
                places += range(part.begin, part.own_end)
            self.assertEqual(sorted(places), list(range(len(document))))

    def test_the_tree_is_that_of_the_value(self):
        def titles(value, label, level=0):
            head = f"{label}: " if label else ""
            if isinstance(value, list):
                yield level, f"{head}array of {len(value)}"
                for number, it in enumerate(value):
                    yield from titles(it, str(number), level + 1)
            elif isinstance(value, dict):
                yield level, f"{head}object of {len(value)}"
                for key in sorted(value):
                    yield level + 1, f'key "{key}"'
                    yield from titles(value[key], f'"{key}"', level + 1)
            else:
                yield level, f"{head}{value}"

        value = {"b": [1, [], {"x": [2, 3]}], "a": {}, "": [[[]]]}
        document = bytes(Document.of(value))
        self.assertEqual([(it.level, it.title) for it in parts_of(document)],
                         list(titles(value, "")))

    def test_deep_documents(self):
        lines = shown("[" * DEEP + "]" * DEEP)
        self.assertEqual(len(lines), DEEP + 1)
        self.assertTrue(lines[-1].endswith("   └─ 0: array of 0"), lines[-1])

    def test_long_payloads_are_cut(self):
        document = Document.parse('["' + "a" * 100 + '",7]')
        lines = list(lines_of(bytes(document), False, False))
        self.assertEqual(len(lines), 1 + 1 + 5 + 1)
        self.assertEqual(words(lines[2])[:2], ["4", "10000064"])
        self.assertEqual(words(lines[6])[:3], ["..", "52", "more"])
        whole = list(lines_of(bytes(document), True, False))
        self.assertEqual(sum(it.count("61") for it in whole), 100)
        self.assertNotIn("more", "".join(whole))

    def test_a_text_cannot_command_the_terminal(self):
        text = "\x9b31m\x7f\u202e\U000e0001\u2028é"
        lines = shown(str(Document.of([text])))
        self.assertTrue(lines[2].endswith('0: "\\u009b31m\\u007f\\u202e\\udb40\\udc01\\u2028é"'))

    def test_colors(self):
        plain = list(lines_of(bytes.fromhex(PAGE), False, False))
        colored = list(lines_of(bytes.fromhex(PAGE), False, True))
        self.assertNotEqual(plain, colored)
        self.assertEqual(plain, [re.sub("\x1b\\[\\d+m", "", it).rstrip() for it in colored])
        # The number is of one color in the bytes and in the tree.
        self.assertIn("\x1b[33m500a", colored[3])
        self.assertIn("\x1b[33m1: 10\x1b[0m", colored[3])


class CommandTest(unittest.TestCase):
    def setUp(self):
        folder = tempfile.TemporaryDirectory()
        self.addCleanup(folder.cleanup)
        self.path = os.path.join(folder.name, "row")
        with open(self.path, "wb") as file:
            file.write(bytes.fromhex(PAGE))

    def test_what_is_shown(self):
        spaced = " ".join(re.findall("....", PAGE.upper()))
        for arguments, given in ((["-"], bytes.fromhex(PAGE)), ([self.path], b""), ([spaced], b""),
                                 (["\\x" + PAGE], b""), (["0x" + PAGE], b""),
                                 (["--json", '[false,10,{"k":"v"}]'], b""),
                                 (["--json", "-"], b'[false,10,{"k":"v"}]')):
            self.assertEqual(run(*arguments, given=given), (0, SHOWN, ""), arguments)

    def test_the_sessions_of_readme(self):
        with open(os.path.join(TOP, "README.md"), encoding="utf-8") as file:
            sessions = re.findall(r"^    \$ python3 -m kohiblad show (.*)\n((?:    .*\n)+)",
                                  file.read(), re.M)
        for arguments, printed in sessions:
            _, output, message = run(*shlex.split(arguments))
            self.assertEqual(output + message, re.sub("^    ", "", printed, flags=re.M))
        self.assertEqual(len(sessions), 2)

    def test_rows_of_files(self):
        stored = b"".join(len(it).to_bytes(8, "big") + it for it in
                          (bytes.fromhex("80000000"), bytes.fromhex(PAGE)))
        lines = b'[]\n\n[false,10,{"k":"v"}]\n'
        self.assertEqual(run("--row", "2", "-", given=stored), (0, SHOWN, ""))
        self.assertEqual(run("--row", "2", "--json", "-", given=lines), (0, SHOWN, ""))
        self.assertEqual(run("--row", "3", "-", given=stored),
                         (1, "", "kohiblad: standard input: there is no document 3\n"))
        status, _, message = run("--row", "2", "-", given=stored[:-1])
        self.assertEqual((status, message),
                         (1, "kohiblad: standard input: document 2: InvalidEOF: the file ends "
                             "within it\n"))
        self.assertEqual(run("--row", "0", "-")[0], 2)

    def test_what_cannot_be_shown(self):
        for arguments, message in (
                (["none"], "none: there is no such file, and it is not hexadecimal"),
                (["123"], "123: there is no such file, and it is not hexadecimal"),
                (["--json", "[1,]"],
                 "the text: InvalidJson: expected a value at byte 3, found ']'"),
                ([PAGE + "00"],
                 "the bytes: not a document: InvalidJsonb at byte 32: bytes are left over"),
                (["-"], "standard input: not a document: InvalidEOF at byte 0: "
                        "there is no whole header"),
                (["/"], "[Errno 21] Is a directory: '/'")):
            self.assertEqual(run(*arguments), (1, "", f"kohiblad: {message}\n"), arguments)
        self.assertEqual(run()[0], 2)

    def on_a_terminal(self, *arguments, **variables):
        """What the program prints on a terminal."""
        terminal, other = pty.openpty()
        environment = {key: value for key, value in os.environ.items() if key != "NO_COLOR"}
        environment.update({"TERM": "xterm", **variables})
        subprocess.run([sys.executable, "-m", "kohiblad", "show", *arguments, PAGE], stdout=other,
                       env=environment, check=True)
        os.close(other)
        printed = b""
        try:
            while True:
                printed += os.read(terminal, 1 << 16)
        except OSError:
            # All was read.
            os.close(terminal)
        return printed.decode().replace("\r\n", "\n")

    def test_colors_on_a_terminal(self):
        colored = run("--color", "always", PAGE)[1]
        self.assertIn("\x1b[", colored)
        self.assertEqual(self.on_a_terminal(), colored)
        self.assertEqual(self.on_a_terminal(NO_COLOR=""), colored)
        self.assertEqual(self.on_a_terminal(NO_COLOR="1"), SHOWN)
        self.assertEqual(self.on_a_terminal(TERM="dumb"), SHOWN)
        self.assertEqual(self.on_a_terminal("--color", "never"), SHOWN)
        self.assertEqual(run(PAGE, TERM="xterm")[1], SHOWN)

    def test_html(self):
        target = self.path + ".html"
        self.assertEqual(run("--html", target, self.path), (0, "", ""))
        with open(target, encoding="utf-8") as file:
            self.assertEqual(file.read(), page_of(bytes.fromhex(PAGE), "row"))
        status, output, _ = run("--html", "-", self.path)
        self.assertEqual((status, output), (0, page_of(bytes.fromhex(PAGE), "row")))
        status, _, message = run("--html", self.path, self.path)
        self.assertEqual(status, 1)
        self.assertIn("is the input", message)


class FaultTest(unittest.TestCase):
    def test_the_rows_of_the_page(self):
        # The faults of docs/FORMAT.md, in documents that are put together by hand.
        entries = PAGE[8:]
        for data, offset, name in (
                ("", 0, "InvalidEOF"), ("800000", 0, "InvalidEOF"),
                ("00000000", 0, "InvalidJsonb"), ("e0000000", 0, "InvalidJsonb"),
                ("20000001" "00000000", 0, "InvalidJsonb"),
                ("80000001" "50000008" "20000000" "00000000", 8, "InvalidJsonb"),
                ("20000000", 4, "InvalidEOF"), ("80000003" + entries[:16], 12, "InvalidEOF"),
                ("80000003" + entries[:22], 12, "InvalidEOF"),
                ("80000001" "50000006" "80000001" "0000", 12, "InvalidEOF"),
                ("80000002" "00000000" "b0000000", 8, "InvalidJsonb"),
                ("80000001" "70000000", 4, "InvalidJsonb"),
                ("80000001" "40000001" "00", 4, "InvalidJsonb"),
                ("20000000" "50000004" "80000000", 4, "InvalidJsonb"),
                ("80000002" "10000001" "10000002" "6161", 8, "InvalidJsonb"),
                ("80000001" "10000002" "61ff", 8, "InvalidUtf8"),
                ("80000001" "20000002" "6001", 8, "InvalidJsonbNumber"),
                ("80000001" "60000002" "1001", 8, "InvalidJsonbNumber"),
                ("80000001" "60000002" "4101", 8, "InvalidJsonbExtension"),
                ("80000001" "60000000", 8, "InvalidJsonbExtension"),
                ("40000001" "00000000" "00000000", 4, "InvalidJsonb"),
                ("40000002" "10000001" "10000001" "00000000" "00000000" "6161", 21, "InvalidJsonb"),
                ("40000002" "10000001" "10000001" "00000000" "20000001" "616160", 22,
                 "InvalidJsonbNumber"),
                ("80000000" "00", 4, "InvalidJsonb"), (PAGE + "00", 32, "InvalidJsonb"),
                (PAGE[:-4] + "ff76", 30, "InvalidUtf8")):
            fault = fault_of(bytes.fromhex(data))
            self.assertEqual((fault.offset, fault.name), (offset, name), data)

    def test_deeper_than_is_shown(self):
        def nested(depth):
            data = b""
            for _ in range(depth):
                data = bytes.fromhex("80000001") + (0x50000000 | len(data)).to_bytes(4, "big") \
                    + data if data else bytes.fromhex("80000000")
            return data

        self.assertEqual(len(list(parts_of(bytes(Document(nested(DEEP)))))), DEEP)
        self.assertEqual(fault_of(nested(DEEP + 1)),
                         (8 * DEEP, "TooDeep", "it nests more than 1,000 deep"))
        self.assertEqual(fault_of(nested(3 * DEEP)).offset, 8 * DEEP)

    def test_the_names_are_those_of_the_readers(self):
        # The answers are those of an independent reading of the format.
        tried = 0
        for name in ("reader_faults", "rows-faults"):
            with open(os.path.join(LINES, f"{name}.in"), encoding="utf-8") as asked, \
                    open(os.path.join(LINES, f"{name}.out"), encoding="utf-8") as answers:
                for line, answer in zip(asked, answers):
                    if not line.startswith("value_of "):
                        continue
                    data = bytes.fromhex(line.split(" ")[1])
                    if answer.startswith("ok"):
                        self.assertEqual(bytes(Document(data)), data)
                        continue
                    tried += 1
                    fault = fault_of(data)
                    self.assertEqual(f"error {fault.name}\n", answer, line)
                    self.assertLessEqual(fault.offset, len(data))
        self.assertGreater(tried, 700)


class PageTest(unittest.TestCase):
    def test_it_needs_no_other_file(self):
        page = page_of(bytes.fromhex(PAGE), "row")
        self.assertNotRegex(page, r"(src|href)\s*=|https?:|url\((?!#)|@import|fetch|XMLHttp")
        self.assertIn("default-src 'none'", page)

    def test_what_the_document_has_is_escaped(self):
        texts = ["</script><script>lit=1</script>", "<!--BYTES-->", "\" onclick=\"x", "&lt;", "'"]
        page = page_of(bytes(Document.of({it: it for it in texts})), "<b>")
        self.assertNotIn("<b>", page)
        self.assertEqual(page.count("<script>"), 1)
        self.assertEqual(page.count("<!--"), 0)
        for it in texts:
            self.assertIn(html.escape(it.replace('"', '\\"')), page)
        for it in texts[:3]:
            self.assertNotIn(it, page)

    def test_large_documents_are_refused(self):
        document = bytes(Document.of([None] * MOST_PARTS))
        status, output, message = run("--html", "-", "-", given=document)
        self.assertEqual((status, output), (1, ""))
        self.assertIn("standard input: a page has at most 20,000 parts", message)
        self.assertEqual(len(run("-", given=document)[1].splitlines()), 2 + MOST_PARTS)
        self.assertIn("20,000 parts", page_of(bytes(Document.of([None] * (MOST_PARTS - 1))), "row"))

    def test_the_bytes_are_all_there(self):
        values = Values(55)
        for _ in range(50):
            document = bytes(Document.of(values.any(4)))
            page = page_of(document, "row")
            section = page[page.index("<section"):page.index("</section>")]
            found = re.findall(r"<span[^>]*>([0-9a-f ]+)</span>", section)
            self.assertEqual(bytes.fromhex(" ".join(found)), document)


# The parts of {"id":7,"tags":["a",null]}, in the order of the tree.
ROW = '{"id":7,"price":1.50,"tags":["new",{"of":null}]}'
WHOLE, ID_KEY, ID, PRICE_KEY, PRICE, TAGS_KEY, TAGS, NEW, OBJECT, OF_KEY, OF = range(11)


@unittest.skipUnless(CHROMIUM, NEEDS_CHROMIUM)
class BrowserTest(unittest.TestCase):
    """KOHIBLAD_PICTURES names a folder that gets pictures of the page."""

    @classmethod
    def setUpClass(cls):
        folder = tempfile.TemporaryDirectory()
        cls.addClassCleanup(folder.cleanup)
        path = os.path.join(folder.name, "row.html")
        with open(path, "w", encoding="utf-8") as file:
            file.write(page_of(bytes(Document.parse(ROW)), "row"))
        cls.url = "file://" + path
        cls.browser = Browser()
        cls.browser.__enter__()
        cls.addClassCleanup(cls.browser.__exit__, None, None, None)

    def marked(self, name):
        """The parts with a mark in the tree, and those in the bytes."""
        return tuple(self.browser.value(
            f"[...new Set([...document.querySelectorAll('{pane} .{name}')]"
            ".map(it => Number(it.dataset.part)))].sort((a, b) => a - b)")
            for pane in ("main", "section"))

    def assert_lit(self, part, *inside):
        self.assertEqual(self.marked("lit"), ([part], [part]))
        self.assertEqual(self.marked("within"), (list(inside), list(inside)))

    def test_a_part_lights_up_in_both(self):
        self.browser.show(self.url)
        self.assertEqual(self.marked("lit"), ([], []))
        for part in range(11):
            for pane in ("main", "section"):
                self.browser.point_at(f"{pane} [data-part='{part}']")
                self.assertEqual(self.marked("lit")[0], [part])
                self.assertEqual(self.marked("lit")[1], [part])
        self.browser.point_at(f"main [data-part='{TAGS}']")
        self.assert_lit(TAGS, NEW, OBJECT, OF_KEY, OF)
        self.assertIn("array of 2", self.browser.value("about.textContent"))
        self.browser.point_at(f"section [data-part='{PRICE}']")
        self.assert_lit(PRICE)
        self.assertEqual(self.browser.value("about.textContent"),
                         '"price": 1.50; entry at 20; 10 bytes at 41')
        self.assertTrue(self.browser.value("arrow.getAttribute('d')").startswith("M"))
        self.browser.point_at("header")
        self.assertEqual(self.marked("lit"), ([], []))
        self.assertEqual(self.browser.value("arrow.getAttribute('d')"), "")

    def test_a_part_by_its_address_and_by_keys(self):
        self.browser.show(f"{self.url}#{OBJECT}")
        self.assert_lit(OBJECT, OF_KEY, OF)
        self.browser.value("items[0].focus()")
        for part in (ID_KEY, ID, PRICE_KEY):
            self.browser.press("ArrowDown")
            self.assert_lit(part)
        self.browser.press("ArrowUp")
        self.assert_lit(ID)

    def test_it_asks_for_nothing_else(self):
        self.browser.show("about:blank")
        self.browser.requests.clear()
        self.browser.show(self.url + "#1")
        self.assertEqual({it.split("#")[0] for it in self.browser.requests}, {self.url})

    def test_it_is_readable_in_light_and_dark(self):
        # The least contrast that the guidelines of accessibility (WCAG 2) ask of texts is 4.5.
        contrast = """(() => {
            const light = color => {
                const [r, g, b] = color.match(/[\\d.]+/g).slice(0, 3).map(it => it / 255)
                    .map(it => it <= .04045 ? it / 12.92 : ((it + .055) / 1.055) ** 2.4);
                return .2126 * r + .7152 * g + .0722 * b;
            };
            const ground = it => {
                const color = getComputedStyle(it).backgroundColor;
                return color === "rgba(0, 0, 0, 0)" ? ground(it.parentElement) : color;
            };
            return Math.min(...[...document.querySelectorAll("header *, main *, section *")]
                .filter(it => it.childElementCount === 0 && it.textContent.trim())
                .map(it => [light(getComputedStyle(it).color), light(ground(it))])
                .map(([a, b]) => (Math.max(a, b) + .05) / (Math.min(a, b) + .05)));
        })()"""
        grounds = set()
        for is_dark in (False, True):
            for part in ("", f"#{WHOLE}", f"#{TAGS}", f"#{PRICE}", f"#{PRICE_KEY}", f"#{NEW}",
                         f"#{OF}"):
                self.browser.show(self.url + part, is_dark=is_dark)
                self.assertGreaterEqual(self.browser.value(contrast), 4.5, (is_dark, part))
            grounds.add(self.browser.value("getComputedStyle(document.body).backgroundColor"))
        self.assertEqual(len(grounds), 2)

    def test_the_pictures(self):
        pictures = []
        for name, is_dark in (("light", False), ("dark", True)):
            self.browser.show(f"{self.url}#{PRICE}", width=920, height=345, is_dark=is_dark)
            pictures.append(self.browser.picture())
            self.assertTrue(pictures[-1].startswith(b"\x89PNG"))
            if "KOHIBLAD_PICTURES" in os.environ:
                with open(os.path.join(os.environ["KOHIBLAD_PICTURES"], f"show_{name}.png"),
                          "wb") as file:
                    file.write(pictures[-1])
        self.assertNotEqual(*pictures)


if __name__ == "__main__":
    unittest.main()
