"""The program `python -m kohiblad`."""
import functools
import os
import shutil
import signal
import subprocess
import sys
import tempfile
import time
import unittest
from datetime import date, datetime, timedelta, timezone
from importlib.util import find_spec

import kohiblad
from kohiblad import Date, Document, Interval, Timestamp, TimestampTz

HAS_NUMPY = find_spec("numpy") is not None
LINES = ['{"id":3,"town":"Oslo","at":1.50}', '{"id":1,"town":"Bergen"}', '[2]', '{"id":3.0}']
NDJSON = "".join(line + "\n" for line in LINES).encode()


def stored(*texts):
    """A file of documents, as docs/FORMAT.md says it."""
    return stored_documents(map(Document.parse, texts))


def stored_documents(documents):
    return b"".join(len(bytes(it)).to_bytes(8, "big") + bytes(it) for it in documents)


# The program, which reports a hundred times a second: so a quick run has reports too.
OFTEN = ("import sys, kohiblad.__main__ as program; program._SECONDS_BETWEEN_REPORTS = 0.01; "
         "sys.exit(program.main())")


def run(*arguments, given=b"", path=None, program=("-m", "kohiblad")):
    """The status of the program, its output and its messages; `path` is where it looks for others.
    """
    done = subprocess.run([sys.executable, *program, *arguments], input=given,
                          env=dict(os.environ, **({} if path is None else {"PATH": path})),
                          stdout=subprocess.PIPE, stderr=subprocess.PIPE)
    return done.returncode, done.stdout, done.stderr.decode()


class CommandTest(unittest.TestCase):
    def setUp(self):
        folder = tempfile.TemporaryDirectory()
        self.addCleanup(folder.cleanup)
        self.folder = folder.name

    def path(self, name, content=None):
        path = os.path.join(self.folder, name)
        if content is not None:
            with open(path, "wb") as file:
                file.write(content)
        return path

    def test_encode(self):
        self.assertEqual(run("encode", given=NDJSON), (0, stored(*LINES), ""))
        self.assertEqual(run("encode", given=b"\n1\r\n \n2"), (0, stored("1", "2"), ""))
        self.assertEqual(run("encode"), (0, b"", ""))

    def test_the_column_of_the_page(self):
        data = bytes.fromhex("0000000000000008" "2000000030000000"
                             "0000000000000008" "2000000040000000")
        self.assertEqual(run("encode", given=b"false\ntrue\n")[1], data)
        self.assertEqual(run("decode", given=data)[1], b"false\ntrue\n")

    def test_decode_writes_the_texts_of_the_documents(self):
        sorted_members = NDJSON.replace(LINES[0].encode(), b'{"at":1.50,"id":3,"town":"Oslo"}')
        self.assertEqual(run("decode", given=stored(*LINES)), (0, sorted_members, ""))

    def test_sort_is_by_document_and_stable(self):
        rows = ["[2]", '{"id":3.0}', "3.0", '{"id":3}', "3", '"a"', "null"]
        expected = ["3.0", "3", '"a"', '{"id":3.0}', '{"id":3}', "[2]", "null"]
        self.assertEqual(run("sort", given=stored(*rows)), (0, stored(*expected), ""))
        # Each document is a part of its own.
        self.assertEqual(run("sort", "--memory", "1", given=stored(*rows)),
                         (0, stored(*expected), ""))

    def test_sort_merges_parts_of_parts(self):
        rows = [f'{{"id":{number % 7},"at":{number}}}' for number in range(333)]
        expected = sorted(rows, key=lambda row: Document.parse(row).key())
        for memory in ("0", "1K", "10K", "1M"):
            self.assertEqual(run("sort", "--memory", memory, given=stored(*rows)),
                             (0, stored(*expected), ""))

    def test_sort_refuses_what_is_no_size(self):
        for memory in ("", "-1", "1T", "1.5G", "much"):
            status, output, message = run("sort", f"--memory={memory}")
            self.assertEqual((status, output), (2, b""))
            self.assertIn(f"{memory!r} is no size", message)

    def test_sort_names_the_document_that_ends_the_input(self):
        status, output, message = run("sort", "--memory", "1", given=stored("2", "1") + b"\0")
        self.assertEqual((status, output), (1, b""))
        self.assertIn("document 3: InvalidEOF: the file ends within it", message)

    def test_get_has_a_line_for_each_document(self):
        self.assertEqual(run("get", "town", given=stored(*LINES)),
                         (0, b'"Oslo"\n"Bergen"\n\n\n', ""))
        self.assertEqual(run("get", "a", given=stored('{"a":{"b":[1.50]}}', "5")),
                         (0, b'{"b":[1.50]}\n\n', ""))

    def test_files(self):
        source, target, back = self.path("in", NDJSON), self.path("out"), self.path("back")
        self.assertEqual(run("encode", source, "-o", target), (0, b"", ""))
        self.assertEqual(run("decode", target, "--output", back)[0], 0)
        with open(back, "rb") as file:
            self.assertEqual(len(file.readlines()), len(LINES))

    def test_an_error_leaves_the_output_as_it_was(self):
        output, rows = self.path("out.docs", b"kept"), self.path("rows", stored("1")[:-1])
        for words, given in ((("encode",), b"1\n[1,]\n"), (("sort", rows), b""),
                             (("decode", rows), b""), (("merge", rows), b"")):
            self.assertEqual(run(*words, "-o", output, given=given)[0], 1, words)
            with open(output, "rb") as file:
                self.assertEqual(file.read(), b"kept", words)
            self.assertEqual(run(*words, "-o", self.path("none"), given=given)[0], 1, words)
        self.assertEqual(sorted(os.listdir(self.folder)), ["out.docs", "rows"])

    def test_bad_lines_are_left_out_and_named(self):
        given = b'1\n[1,]\n\n{"a" 1}\n[\xff]\n2\n'
        named = ("standard input: line 2: InvalidJson: expected a value at byte 3, found ']'\n"
                 "standard input: line 4: InvalidJson: expected ':' at byte 5, found '1'\n"
                 "standard input: line 5: InvalidUtf8: no UTF-8 at byte 1, found 0xff\n")
        count = "kohiblad: 3 lines were left out\n"
        self.assertEqual(run("encode", "--skip-bad", given=given),
                         (0, stored("1", "2"), named + count))
        errors = self.path("errors")
        self.assertEqual(run("encode", "--errors", errors, given=given),
                         (0, stored("1", "2"), count))
        with open(errors, encoding="utf-8") as file:
            self.assertEqual(file.read(), named)
        self.assertEqual(run("encode", "--errors", errors, given=b"1"), (0, stored("1"), ""))
        self.assertEqual(os.path.getsize(errors), 0)

    def test_input_is_not_written_over(self):
        source = self.path("in", NDJSON)
        status, _, message = run("encode", source, "-o", source)
        self.assertEqual(status, 1)
        self.assertIn("is the input", message)
        with open(source, "rb") as file:
            self.assertEqual(file.read(), NDJSON)

    def test_no_two_of_the_files_are_one(self):
        """The input, the output and the file of errors, by all of their names."""
        source, link, hard = self.path("in", NDJSON + b"{\n"), self.path("link"), self.path("hard")
        os.symlink("in", link)
        os.link(source, hard)
        rows, missing = self.path("rows", stored("1", "2")), self.path("missing")
        os.symlink("missing", self.path("dangling"))
        other = self.path("other")
        for words, message in (
                ([source, "--errors", source], "is the input: write the errors to another file"),
                ([source, "--errors", link], "is the input"),
                ([source, "--errors", hard, "-o", other], "is the input"),
                ([link, "-o", hard], "is the input: write to another file"),
                ([source, "-o", rows, "--errors", rows], "is the output: write the errors"),
                ([source, "-o", missing, "--errors", missing], "is the output"),
                ([source, "-o", missing, "--errors", self.path("dangling")], "is the output"),
                ([source, "-o", os.path.join(self.folder, ".", "missing"), "--errors", missing],
                 "is the output"),
                (["/dev/zero", "--errors", "/dev/zero"], "is the input"),
                (["/dev/zero", "-o", "/dev/zero"], "is the input")):
            with self.subTest(words=words):
                status, output, told = run("encode", *words)
                self.assertEqual((status, output), (1, b""))
                self.assertRegex(told, f"^kohiblad: .* {message}.*\n$")
        for words in (["sort", rows], ["decode", rows], ["merge", rows], ["merge", source, rows],
                      ["get", "a", rows], ["keys", rows], ["survey", "$.a", rows],
                      ["extract", "$.a", "int64", rows]):
            status, output, told = run(*words, "-o", rows)
            self.assertEqual((status, output), (1, b""), words)
            self.assertIn("is the input", told)
        page = self.path("page", b"5")
        self.assertIn("is the input", run("show", "--json", page, "--html", page)[2])
        with open(source, "rb") as file:
            self.assertEqual(file.read(), NDJSON + b"{\n")
        with open(rows, "rb") as file:
            self.assertEqual(file.read(), stored("1", "2"))
        self.assertEqual(sorted(os.listdir(self.folder)),
                         ["dangling", "hard", "in", "link", "page", "rows"])

    def test_standard_streams_that_are_the_files(self):
        source = self.path("in", NDJSON)
        for given, words in (("r", [source]), ("r", ["-"])):
            with open(source, given + "b") as first, open(source, "ab") as last:
                done = subprocess.run([sys.executable, "-m", "kohiblad", "encode", *words],
                                      stdin=first, stdout=last, stderr=subprocess.PIPE)
            self.assertEqual((done.returncode, done.stderr),
                             (1, b"kohiblad: standard output is the input: write to another "
                                 b"file\n"))
        with open(source, "rb") as file:
            self.assertEqual(file.read(), NDJSON)
        with open(os.devnull, "r+b") as null:
            done = subprocess.run([sys.executable, "-m", "kohiblad", "encode", "--errors",
                                   os.devnull], stdin=null, stdout=null)
        self.assertEqual(done.returncode, 0)

    def test_signals_leave_no_file(self):
        for number in (signal.SIGINT, signal.SIGTERM, signal.SIGHUP):
            output = self.path("out", b"before")
            # A test that runs in the background of a shell has SIGINT ignored.
            heeds = functools.partial(signal.signal, number, signal.SIG_DFL)
            program = subprocess.Popen([sys.executable, "-m", "kohiblad", "encode", "-o", output,
                                        "--errors", self.path("errors")], stdin=subprocess.PIPE,
                                       stderr=subprocess.PIPE, preexec_fn=heeds)
            program.stdin.write(b"1\n[\n")
            program.stdin.flush()
            began = time.monotonic()
            while len(os.listdir(self.folder)) < 3 and time.monotonic() < began + 60:
                time.sleep(0.01)
            self.assertEqual(len(os.listdir(self.folder)), 3)
            program.send_signal(number)
            self.assertEqual(program.wait(60), 128 + number)
            program.stdin.close()
            self.assertEqual(program.stderr.read(), b"")
            program.stderr.close()
            self.assertEqual(os.listdir(self.folder), ["out"], number)
            with open(output, "rb") as file:
                self.assertEqual(file.read(), b"before")

    def test_signals_that_are_ignored_stay_so(self):
        """As by nohup."""
        # Without a buffer, in which some of the output would stay unseen.
        program = subprocess.Popen([sys.executable, "-m", "kohiblad", "encode"], bufsize=0,
                                   stdin=subprocess.PIPE, stdout=subprocess.PIPE,
                                   preexec_fn=lambda: signal.signal(signal.SIGHUP, signal.SIG_IGN))
        program.stdin.write(b"1\n" * 2000)
        program.stdin.flush()
        size = len(stored("1"))
        self.assertEqual(program.stdout.read(size), stored("1"))
        program.send_signal(signal.SIGHUP)
        output, _ = program.communicate()
        self.assertEqual((program.returncode, len(output)), (0, 1999 * size))

    def test_names_that_are_not_utf8(self):
        folder = os.fsencode(self.folder)
        names = [os.path.join(folder, it) for it in (b"in\xff", b"out\x80", b"errors\xfe")]
        with open(names[0], "wb") as file:
            file.write(b"[1.50]\n[\n")
        self.assertEqual(run("encode", names[0], "-o", names[1], "--errors", names[2]),
                         (0, b"", "kohiblad: 1 lines were left out\n"))
        self.assertEqual(run("decode", names[1]), (0, b"[1.50]\n", ""))
        with open(names[2], "rb") as file:
            self.assertIn(rb"in\udcff: line 2: InvalidJson", file.read())
        page = os.path.join(folder, b"page")
        self.assertEqual(run("show", "--row", "1", names[1], "--html", page), (0, b"", ""))
        self.assertEqual(run("show", "--json", names[0], "--html", page)[0], 1)

    def test_faults_name_their_place(self):
        source = self.path("in", b"1\n\n1e99\n")
        self.assertEqual(run("encode", source),
                         (1, stored("1"), f"kohiblad: {source}: line 3: BadNumber: at byte 3 of a "
                                          "number that is unfinished or too long, in '1e99'\n"))
        self.assertEqual(run("encode", given=b'{"a":1,}'),
                         (1, b"", "kohiblad: standard input: line 1: InvalidJson: expected a key "
                                  "at byte 7, found '}'\n"))
        self.assertEqual(run("encode", given=b"[" * 100_000),
                         (1, b"", "kohiblad: standard input: line 1: TooDeep: more brackets than "
                                  "1,000 are open at byte 1000\n"))
        status, _, message = run("decode", given=stored("1") + (8).to_bytes(8, "big") + b"x" * 8)
        self.assertEqual(status, 1)
        self.assertIn("standard input: document 2: InvalidJsonb", message)

    def test_cut_files(self):
        whole = stored("1", "2")
        for size in range(len(whole) // 2 + 1, len(whole), 5):
            status, output, message = run("decode", given=whole[:size])
            self.assertEqual((status, output), (1, b"1\n"))
            self.assertIn("document 2: InvalidEOF: the file ends within it", message)
        status, _, message = run("decode", given=b"\xff" * 12)
        self.assertEqual(status, 1)
        self.assertIn("document 1: InvalidEOF: the file ends within it", message)

    def test_json_lines_are_not_decoded(self):
        status, _, message = run("decode", given=NDJSON)
        self.assertEqual(status, 1)
        self.assertIn("for JSON lines there are `read_lines` and `encode`", message)

    def test_no_such_file(self):
        status, _, message = run("decode", self.path("none"))
        self.assertEqual(status, 1)
        self.assertIn("No such file", message)

    def test_progress_is_on_standard_error(self):
        given = b"1\n" * 300_000
        status, output, message = run("encode", "--progress", given=given, program=("-c", OFTEN))
        self.assertEqual((status, output), (0, stored("1") * 300_000))
        self.assertTrue(message.endswith("300,000 lines\n"), message[-50:])

    def test_progress_of_a_file_has_the_part_that_was_read(self):
        source = self.path("in", b"[1,2,3]\n" * 300_000)
        status, _, message = run("encode", source, "-o", self.path("out"), "--progress",
                                 program=("-c", OFTEN))
        self.assertEqual(status, 0)
        self.assertRegex(message, r"^\r[\d,]+ lines, \d+%, [\d,]+ s left")
        self.assertEqual(message.split("\r")[-1].split(), ["300,000", "lines,", "100%"])

    ROWS = ('{"price":1.50,"sku":"k7"}', '{"price":2,"ok":true}', '{"price":"n/a","ok":false}',
            '{"price":null,"sku":"a\\"b","at":[7]}', '{"sku":""}')

    def test_survey(self):
        for path, *lines in (
                ("$.price", "type mixed", "rows 5", "absent 1", "null 1", "uint64 1", "decimal64 1",
                 "text 1", "length 3", "digits 3", "scales 0 2"),
                ("$.sku", "type text", "rows 5", "absent 2", "text 3", "length 3"),
                ("$.at[0]", "type int64", "rows 5", "absent 4", "uint64 1", "digits 1",
                 "scales 0 0"),
                ("$", "type mixed", "rows 5", "object 5"),
                ('$."no such"', "type nothing", "rows 5", "absent 5")):
            expected = "".join(it + "\n" for it in lines).encode()
            told = 'kohiblad: no row has a value at $."no such"\n' if "nothing" in lines[0] else ""
            self.assertEqual(run("survey", path, given=stored(*self.ROWS)), (0, expected, told),
                             path)
        self.assertEqual(run("survey", "$.a"), (0, b"type nothing\nrows 0\n", ""))
        whole = stored('{"a":2.0}')
        self.assertIn(b"type int64\n", run("survey", "$.a", given=whole)[1])
        self.assertIn(b"type decimal 1\n", run("survey", "--exact", "$.a", given=whole)[1])

    def test_extract(self):
        source = self.path("rows", stored(*self.ROWS))
        for words, lines, unfit in (
                (["$.price", "decimal 2"], ['row,"$.price"', "0,1.50", "1,2.00", "2,", "3,", "4,"],
                 1),
                (["$.price", "decimal 2", "--exact"],
                 ['row,"$.price"', "0,1.50", "1,", "2,", "3,", "4,"], 2),
                (["$.sku", "text"], ['row,"$.sku"', '0,"k7"', "1,", "2,", '3,"a""b"', '4,""'], 0),
                (["$.ok", "least"], ['row,"$.ok"', "0,", "1,true", "2,false", "3,", "4,"], 0),
                (["$.price", "least"], ['row,"$.price"', "0,", "1,", "2,", "3,", "4,"], 3)):
            status, output, message = run("extract", *words[:2], source, *words[2:])
            self.assertEqual((status, output.decode().splitlines()), (0, lines), words)
            self.assertEqual(message.count("no value of the type"), unfit > 0)
            self.assertEqual(f"in {unfit} of 5 rows" in message, unfit > 0)
        many = run("extract", "$.at[#-1]", "int64", source, "--and", "$.sku", "text", "--and",
                   '$."price"', "decimal 37")
        self.assertEqual(many[1].decode().splitlines(), [
            'row,"$.at[#-1]","$.sku","$.""price"""', '0,,"k7",1.5' + 36 * "0",
            "1,,,2." + 37 * "0", "2,,,", '3,7,"a""b",', '4,,"",'])
        small = stored('{"a":0.' + 37 * "0" + '1}')
        self.assertEqual(run("extract", "$.a", "least", given=small)[1],
                         b'row,"$.a"\n0,0.' + 37 * b"0" + b"1\n")
        self.assertEqual(run("extract", "$.a", "int64")[1], b'row,"$.a"\n')
        binary = stored_documents(map(Document.of, ([b"\0\xff"], [b""], [None], ["ff"])))
        self.assertEqual(run("extract", "$[0]", "binary", given=binary)[1],
                         b'row,"$[0]"\n0,00ff\n1,""\n2,\n3,\n')

    def test_extract_refuses(self):
        source = self.path("rows", stored(*self.ROWS))
        status, output, message = run("extract", "$.price", "int64", source, "--unfit", "error")
        self.assertEqual((status, output), (1, b""))
        self.assertEqual(message, 'kohiblad: row 0: OtherKind: no int64 at ["price"]: 1.50\n')
        for words in (["price", "int64"], ["$.a[*]", "int64"], ["$.a", "int"],
                      ["$.a", "decimal 256"]):
            self.assertEqual(run("extract", *words)[:2], (2, b""), words)
        self.assertEqual(run("survey", "a.b")[:2], (2, b""))
        for words in (["a", "int64"], ["$.a", "intervals"], ["$.price", "text"]):
            status, output, _ = run("extract", "$.price", "int64", source, "--and", *words)
            self.assertEqual((status, output), (1, b""), words)
        status, _, message = run("extract", "$.a", "int64", given=stored("1")[:-1])
        self.assertEqual(status, 1)
        self.assertIn("document 1: InvalidEOF", message)
        self.assertEqual(run("extract", "$.price", "int64", source, "-o", source)[0], 1)

    def test_extract_of_moments(self):
        rows = [[date(2026, 11, 28), datetime(2026, 11, 28, 12, 30)],
                [Date(2**31 - 1), Timestamp(-2**63)], [None, 5]]
        given = stored_documents(map(Document.of, rows))
        for types in (["date", "timestamp"], ["least", "timestamp"]):
            status, output, message = run("extract", "$[0]", types[0], "-", "--and", "$[1]",
                                          types[1], given=given)
            self.assertEqual((status, output.decode().splitlines()), (0, [
                'row,"$[0]","$[1]"', "0,2026-11-28,2026-11-28T12:30:00",
                "1,+5881580-07-11,-290308-12-21T19:59:05.224192", "2,,"]))
            self.assertIn("in 1 of 3 rows", message)
        rows = [[datetime(2026, 11, 28, 12, 30, tzinfo=timezone(timedelta(hours=-3))),
                 Interval(14, -31, 10**6)], [TimestampTz(-2**63, 7), 5]]
        output = run("extract", "$[0]", "least", "--and", "$[1]", "interval",
                     given=stored_documents(map(Document.of, rows)))[1]
        self.assertEqual(output.decode().splitlines(), [
            'row,"$[0]","$[1]"', "0,2026-11-28T12:30:00-03:00,P1Y2M-31DT1S",
            "1,-290308-12-21T19:59:12.224192+00:00:07,"])

    def test_extract_counts_the_documents(self):
        given = stored("[7]") * 300_000
        status, output, message = run("extract", "$[0]", "int64", "--progress", given=given,
                                      program=("-c", OFTEN))
        self.assertEqual((status, output.count(b"\n")), (0, 300_001))
        self.assertTrue(message.endswith("300,000 documents\n"), message[-50:])

    @unittest.skipUnless(HAS_NUMPY, "arrays in files: needs the Debian package python3-numpy")
    def test_extract_to_arrays(self):
        import numpy
        source = self.path("rows", stored(*self.ROWS, '{"price":18446744073709551616}'))
        target = self.path("out.npz")
        self.assertEqual(run("extract", "$.price", "decimal 2", source, "--and", "$.sku", "text",
                             "--and", "$.ok", "boolean", "-o", target)[:2], (1, b""))
        source = self.path("rows", stored(*self.ROWS))
        status, _, message = run("extract", "$.price", "decimal 2", source, "--and", "$.sku",
                                 "text", "--and", "$.ok", "boolean", "-o", target)
        self.assertEqual((status, message.count("\n")), (0, 1))
        with numpy.load(target) as found:
            self.assertEqual({name: it.tolist() for name, it in found.items()}, {
                "$.price": [150, 200, 0, 0, 0], "$.price states": [1, 1, 3, 2, 0],
                "$.price scale": 2, "$.sku": ["k7", "", "", 'a"b', ""],
                "$.sku states": [1, 0, 0, 1, 1], "$.ok": [False, True, False, False, False],
                "$.ok states": [0, 1, 1, 0, 0]})
        one = self.path("out.npy")
        status, _, message = run("extract", "$.price", "decimal 2", source, "-o", one)
        self.assertEqual((status, os.path.exists(one)), (1, False))
        self.assertIn("3 rows have no value: write .npz", message)
        numbers = self.path("numbers", stored("[5,true]", "[-1,true]"))
        self.assertEqual(run("extract", "$[0]", "int64", numbers, "-o", one), (0, b"", ""))
        self.assertEqual((numpy.load(one).tolist(), numpy.load(one).dtype.name),
                         ([5, -1], "int64"))
        days = self.path("days", stored_documents([Document.of([date(2026, 11, 28)])]))
        self.assertEqual(run("extract", "$[0]", "date", days, "-o", one), (0, b"", ""))
        self.assertEqual(numpy.load(one).tolist(), [date(2026, 11, 28)])
        status, _, message = run("extract", "$[0]", "int64", numbers, "--and", "$[1]", "boolean",
                                 "-o", one)
        self.assertEqual(status, 1)
        self.assertIn("one array for 2 members", message)
        binary = self.path("binary", stored_documents([Document.of([b"\xff"])]))
        self.assertEqual(run("extract", "$[0]", "binary", binary, "-o", one), (0, b"", ""))
        self.assertEqual(numpy.load(one).tolist(), [b"\xff"])
        binary = self.path("binary", stored_documents([Document.of([b"a\0"])]))
        self.assertEqual(run("extract", "$[0]", "binary", binary, "-o", one)[0], 1)
        zero = self.path("zero", stored(r'["a\u0000"]'))
        self.assertEqual(run("extract", "$[0]", "text", zero, "-o", one)[0], 1)

    @unittest.skipIf(HAS_NUMPY, "numpy is installed")
    def test_arrays_without_numpy(self):
        status, _, message = run("extract", "$.a", "int64", "-o", self.path("out.npy"))
        self.assertEqual(status, 1)
        self.assertIn("needs numpy", message)

    def test_a_reader_that_ends_early(self):
        source = self.path("in", b"[1,2,3]\n" * 100_000)
        program = subprocess.Popen([sys.executable, "-m", "kohiblad", "encode", source],
                                   stdout=subprocess.PIPE, stderr=subprocess.PIPE)
        program.stdout.read(10)
        program.stdout.close()
        self.assertEqual(program.stderr.read(), b"")
        program.stderr.close()
        self.assertEqual(program.wait(), 1)

    def program_path(self):
        """A PATH with a script of the name of the program, and then a program that prints what it
        is given."""
        script, binary = self.path("script"), self.path("binary")
        for folder in (script, binary):
            os.mkdir(folder)
        with open(os.path.join(script, "kohiblad"), "w") as file:
            file.write("#!/bin/sh\necho the script\n")
        os.chmod(os.path.join(script, "kohiblad"), 0o755)
        shutil.copy(shutil.which("echo"), os.path.join(binary, "kohiblad"))
        return os.pathsep.join([self.folder, script, binary])

    def test_what_is_not_here_goes_to_the_program(self):
        path = self.program_path()
        for words in (["filter", "$.a", "rows.ndjson"], ["decode", "--pretty", "rows.docs"],
                      ["sort", "--by", "$.town", "rows.ndjson"], ["encode", "one", "two"],
                      ["get", "-r", "$.who"], ["filter", "--help"], ["no-such-command"]):
            self.assertEqual(run(*words, path=path), (0, " ".join(words).encode() + b"\n", ""))
        self.assertEqual(run("--", "merge", "{}", "a", path=path), (0, b"merge {} a\n", ""))
        self.assertEqual(run("--", "get", "--", "-r", path=path), (0, b"get -- -r\n", ""))
        self.assertEqual(run("--", path=path), (0, b"\n", ""))

    def test_what_is_here_does_not_go_to_the_program(self):
        path = self.program_path()
        self.assertEqual(run("encode", given=b"1", path=path), (0, stored("1"), ""))
        self.assertEqual(run("get", "a", given=stored('{"a":2}'), path=path), (0, b"2\n", ""))
        self.assertEqual(run("--version", path=path)[0], 0)
        for words in ([], ["get"], ["--no-such-option"], ["sort", "--memory", "much"]):
            status, output, message = run(*words, path=path)
            self.assertEqual((status, output), (2, b""), words)
            self.assertIn("usage: ", message)

    def test_without_the_program(self):
        for words, what in ((["filter", "$.a"], "the command filter"),
                            (["decode", "--pretty"], "--pretty of decode"),
                            (["--", "merge"], "what comes after --")):
            self.assertEqual(
                run(*words, path=self.folder),
                (2, b"", f"kohiblad: {what} is for the program kohiblad, which is not on PATH: "
                         "install Debian's package kohiblad, or put bin/kohiblad of a release "
                         "there\n"))

    def test_a_program_that_does_not_run(self):
        with open(self.path("kohiblad"), "wb") as file:
            file.write(b"\x7fELF of another machine")
        self.assertEqual(run("filter", path=self.folder)[2].count("not on PATH"), 1)
        os.chmod(self.path("kohiblad"), 0o755)
        status, output, message = run("filter", path=self.folder)
        self.assertEqual((status, output), (1, b""))
        self.assertIn("Exec format error", message)

    def test_help_and_version(self):
        status, output, _ = run("--help")
        self.assertEqual(status, 0)
        for command in (b"encode", b"decode", b"sort", b"get", b"survey", b"extract",
                        b"show"):
            self.assertIn(command, output)
        self.assertEqual(run("--version")[1].decode().strip(), f"kohiblad {kohiblad.__version__}")
        self.assertEqual(run()[0], 2)


if __name__ == "__main__":
    unittest.main()
