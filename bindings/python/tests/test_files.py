"""Files of documents and of JSON lines: read, read_lines and write."""
import io
import os
import stat
import tempfile
import unittest
from unittest import mock

import kohiblad
from kohiblad import (Document, InvalidDocumentError, InvalidTextError, TooDeepError, _files,
                      _target)

TEXTS = ['{"id":3,"town":"Oslo"}', "[2]", "1.50"]


def stored(*texts):
    """A file of documents, as docs/FORMAT.md says it."""
    documents = [bytes(Document.parse(text)) for text in texts]
    return b"".join(len(it).to_bytes(8, "big") + it for it in documents)


class FilesTest(unittest.TestCase):
    def setUp(self):
        folder = tempfile.TemporaryDirectory()
        self.addCleanup(folder.cleanup)
        self.folder = folder.name

    def path(self, name, content=None):
        path = os.path.join(self.folder, name)
        if content is not None:
            with open(path, "wb") as file:
                file.write(content)
        return path

    def content(self, path):
        with open(path, "rb") as file:
            return file.read()


class ReadTest(FilesTest):
    def test_documents(self):
        path = self.path("rows.docs", stored(*TEXTS))
        self.assertEqual([str(it) for it in kohiblad.read(path)], TEXTS)
        with open(path, "rb") as file:
            self.assertEqual(len(list(kohiblad.read(file))), 3)
            self.assertFalse(file.closed)
        self.assertEqual(list(kohiblad.read(io.BytesIO())), [])

    def test_one_is_read_at_a_time(self):
        file = io.BytesIO(stored("1") + b"\xff")
        rows = kohiblad.read(file)
        self.assertEqual(str(next(rows)), "1")
        with self.assertRaises(InvalidDocumentError) as refused:
            next(rows)
        self.assertEqual(str(refused.exception),
                         "the file: document 2: InvalidEOF: the file ends within it; for JSON "
                         "lines there are `read_lines` and `encode`")

    def test_a_file_that_is_not_there(self):
        for call in (kohiblad.read, kohiblad.read_lines):
            with self.assertRaises(FileNotFoundError):
                call(self.path("none"))

    def test_bytes_that_are_no_documents(self):
        path = self.path("rows.docs", stored("1") + (8).to_bytes(8, "big") + b"x" * 8)
        with self.assertRaises(InvalidDocumentError) as refused:
            list(kohiblad.read(path))
        self.assertEqual(refused.exception.place, f"{path}: document 2")
        for size in (1, 7, 12):
            with self.assertRaisesRegex(InvalidDocumentError, "1: InvalidEOF: the file ends"):
                list(kohiblad.read(io.BytesIO(stored("1")[:size])))


class ReadLinesTest(FilesTest):
    def test_lines(self):
        lines = b'{"id":3,"town":"Oslo"}\r\n\n \n[2]\n1.50'
        self.assertEqual([str(it) for it in kohiblad.read_lines(self.path("in", lines))], TEXTS)
        self.assertEqual([str(it) for it in kohiblad.read_lines(io.BytesIO(lines))], TEXTS)

    def refused(self, lines, kind, **options):
        with self.assertRaises(kind) as refused:
            list(kohiblad.read_lines(io.BytesIO(lines), **options))
        error = refused.exception
        return error.line, error.offset, str(error)

    def test_errors_have_the_line_and_the_byte(self):
        self.assertEqual(self.refused(b'1\n\n{"a" 1}\n', InvalidTextError), (3, 5, (
            "the file: line 3: InvalidJson: expected ':' at byte 5, found '1'")))
        self.assertEqual(self.refused(b"[1,\n2]", InvalidTextError), (1, 3, (
            "the file: line 1: InvalidJson: expected a value at byte 3, found the end")))
        self.assertEqual(self.refused(b'1\n"\xff"', InvalidTextError), (2, 1, (
            "the file: line 2: InvalidUtf8: no UTF-8 at byte 1, found 0xff")))
        self.assertEqual(self.refused(b"1\n" + b"[" * 1001, TooDeepError), (2, 1000, (
            "the file: line 2: TooDeep: more brackets than 1,000 are open at byte 1000")))
        self.assertEqual(self.refused(b"1e5", InvalidTextError, exponents=False)[:2], (1, 1))

    def test_other_files_are_named(self):
        self.assertIn("found a byte order mark",
                      self.refused("\ufeff1\n".encode(), InvalidTextError)[2])
        self.assertIn("line 1: InvalidUtf8: the file is compressed by gzip",
                      self.refused(b"\x1f\x8b\x08\0", InvalidTextError)[2])

    def test_the_file_is_named(self):
        path = self.path("rows.ndjson", b"[\n")
        with self.assertRaises(InvalidTextError) as refused:
            list(kohiblad.read_lines(path))
        self.assertEqual(refused.exception.place, f"{path}: line 1")


class WriteTest(FilesTest):
    def test_documents_and_values(self):
        path = self.path("out.docs")
        values = [Document.parse(TEXTS[0]), [2], Document.parse("1.50")]
        self.assertEqual(kohiblad.write(path, iter(values)), 3)
        self.assertEqual(self.content(path), stored(*TEXTS))
        file = io.BytesIO()
        self.assertEqual(kohiblad.write(file, values), 3)
        self.assertEqual(file.getvalue(), stored(*TEXTS))

    def test_lines_to_documents_and_back(self):
        lines = self.path("in", "".join(it + "\n" for it in TEXTS).encode())
        path = self.path("out.docs")
        kohiblad.write(path, kohiblad.read_lines(lines))
        kohiblad.write(path, kohiblad.read(path))
        self.assertEqual([str(it) for it in kohiblad.read(path)], TEXTS)

    def test_an_error_leaves_the_file(self):
        path = self.path("out.docs", b"before")
        for values in ([1, 1.5], kohiblad.read_lines(io.BytesIO(b"1\n["))):
            with self.assertRaises((TypeError, ValueError)):
                kohiblad.write(path, values)
            self.assertEqual(self.content(path), b"before")
        self.assertEqual(os.listdir(self.folder), ["out.docs"])

    def test_the_mode_of_the_file_stays(self):
        path = self.path("out.docs", b"")
        os.chmod(path, 0o640)
        kohiblad.write(path, [1])
        self.assertEqual(stat.S_IMODE(os.stat(path).st_mode), 0o640)

    def test_the_mode_is_its_owner_s_while_it_is_written(self):
        path, seen = self.path("out.docs", b""), []
        os.chmod(path, 0o600)

        def documents():
            part, = set(os.listdir(self.folder)) - {"out.docs"}
            seen.append((part, stat.S_IMODE(os.stat(self.path(part)).st_mode)))
            yield 1

        for mode in (0o600, 0o644):
            os.chmod(path, mode)
            kohiblad.write(path, documents())
            self.assertEqual(stat.S_IMODE(os.stat(path).st_mode), mode)
        self.assertRegex(seen[0][0], r"^\.out\.docs\.[0-9a-f]{16}\.part$")
        self.assertEqual([mode for _, mode in seen], [0o600, 0o600])

    def test_the_mode_of_a_new_file_is_that_of_any(self):
        for mask in (0o022, 0o077, 0o002):
            before = os.umask(mask)
            self.addCleanup(os.umask, before)
            kohiblad.write(self.path(f"out{mask}"), [1])
            self.assertEqual(stat.S_IMODE(os.stat(self.path(f"out{mask}")).st_mode), 0o666 & ~mask)
            with mock.patch.object(_target, "_told_umask", lambda: None):
                kohiblad.write(self.path("untold"), [1])
            self.assertEqual(stat.S_IMODE(os.stat(self.path("untold")).st_mode), 0o666 & ~mask)
            os.remove(self.path("untold"))

    def test_two_that_write_one_file(self):
        path = self.path("out.docs", b"before")

        def documents():
            self.assertEqual(kohiblad.write(path, ["other"]), 1)
            with self.assertRaises(TypeError):
                kohiblad.write(path, [2.5])
            self.assertEqual(self.content(path), stored('"other"'))
            yield "mine"

        self.assertEqual(kohiblad.write(path, documents()), 1)
        self.assertEqual(self.content(path), stored('"mine"'))
        self.assertEqual(os.listdir(self.folder), ["out.docs"])

    def test_what_another_made_is_not_removed(self):
        path = self.path("out.docs", b"before")
        with mock.patch.object(os, "urandom", lambda size: bytes(size)):
            name = f".out.docs.{'0' * 16}.part"
            self.path(name, b"another's")
            with self.assertRaises(FileExistsError) as refused:
                kohiblad.write(path, [1])
            self.assertEqual(refused.exception.filename, path)
        self.assertEqual((self.content(path), self.content(self.path(name))),
                         (b"before", b"another's"))

    def test_the_bytes_are_on_the_device_before_the_name(self):
        path, done = self.path("out.docs", b"before"), []
        fsync, replace = os.fsync, os.replace

        def synced(number):
            kind = "folder" if stat.S_ISDIR(os.fstat(number).st_mode) else "file"
            if kind == "file":
                self.assertEqual(os.fstat(number).st_size, len(stored("1")))
            done.append(kind)
            fsync(number)

        def replaced(*names, **folders):
            done.append("name")
            replace(*names, **folders)

        with mock.patch.object(os, "fsync", synced), mock.patch.object(os, "replace", replaced):
            kohiblad.write(path, [1])
        self.assertEqual(done, ["file", "name", "folder"])

    def test_a_device_that_fails(self):
        path = self.path("out.docs", b"before")
        with mock.patch.object(os, "fsync", mock.Mock(side_effect=OSError(28, "full"))):
            with self.assertRaises(OSError):
                kohiblad.write(path, [1])
        self.assertEqual((self.content(path), os.listdir(self.folder)), (b"before", ["out.docs"]))

    def test_names_of_any_bytes_and_lengths(self):
        for name in ("x" * 255, "é" * 127, "日" * 85, b"\xff\x80name", b"\x80" * 255):
            path = os.path.join(os.fsencode(self.folder), os.fsencode(name))
            for _ in range(2):
                self.assertEqual(kohiblad.write(path, [1]), 1)
                self.assertEqual([str(it) for it in kohiblad.read(path)], ["1"])
            with open(path, "rb") as file:
                self.assertEqual(file.read(), stored("1"))
        self.assertEqual(len(os.listdir(self.folder)), 5)
        with self.assertRaises(OSError):
            kohiblad.write(self.path("x" * 256), [1])

    def test_a_folder_that_is_not_there(self):
        with self.assertRaises(FileNotFoundError):
            kohiblad.write(self.path("none/out"), [1])

    def test_a_link_stays(self):
        path, link = self.path("out.docs", b""), self.path("link")
        os.symlink(path, link)
        kohiblad.write(link, [None])
        self.assertTrue(os.path.islink(link))
        self.assertEqual(self.content(path), stored("null"))

    def test_what_is_no_regular_file(self):
        self.assertEqual(kohiblad.write(os.devnull, [1, 2]), 2)


class ProgressTest(FilesTest):
    def setUp(self):
        super().setUp()
        often = mock.patch.object(_files, "_SECONDS_BETWEEN_REPORTS", 0)
        often.start()
        self.addCleanup(often.stop)
        self.reports = []

    def report(self, *numbers):
        self.reports.append(numbers)

    def test_read(self):
        content = stored(*TEXTS)
        list(kohiblad.read(self.path("in.docs", content), progress=self.report))
        self.assertEqual(self.reports[0], (1, len(stored(TEXTS[0])), len(content)))
        self.assertEqual(self.reports[-1], (3, len(content), len(content)))

    def test_read_lines(self):
        content = b"1\n\n2\n"
        list(kohiblad.read_lines(self.path("in", content), progress=self.report))
        self.assertEqual(self.reports, [(1, 2, 5), (2, 5, 5), (2, 5, 5)])
        list(kohiblad.read_lines(io.BytesIO(content), progress=self.report))
        self.assertEqual(self.reports[-1], (2, 5, None))

    def test_write(self):
        kohiblad.write(io.BytesIO(), [1, 2], progress=self.report)
        self.assertEqual([it[0] for it in self.reports], [1, 2, 2])
        self.assertEqual(self.reports[-1], (2, len(stored("1", "2")), None))

    def test_an_error_in_it_ends_the_call(self):
        def refuse(*_):
            raise KeyboardInterrupt
        path = self.path("out.docs", b"before")
        with self.assertRaises(KeyboardInterrupt):
            kohiblad.write(path, [1], progress=refuse)
        self.assertEqual(self.content(path), b"before")


if __name__ == "__main__":
    unittest.main()
