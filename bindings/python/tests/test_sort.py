"""The example that sorts by several processes: bindings/examples/dask_sort.py."""
import contextlib
import io
import json
import os
import random
import shutil
import signal
import subprocess
import sys
import tempfile
import unittest

from kohiblad import Document
from test_command import run
from test_stores import EXAMPLES, environment_of, python_with

PROGRAM = os.path.join(os.path.dirname(EXAMPLES), "dask_sort.py")
ROWS = 20000
SECONDS = 200

# So that other processes find its functions, too.
sys.path.append(os.path.dirname(PROGRAM))
import dask_sort  # noqa: E402


class SortFolder(unittest.TestCase):
    def setUp(self):
        folder = tempfile.TemporaryDirectory()
        self.addCleanup(folder.cleanup)
        self.folder = folder.name
        self.source = os.path.join(self.folder, "rows.ndjson")
        self.parts = os.path.join(self.folder, "parts")

    def write(self, rows):
        with open(self.source, "w") as file:
            file.writelines(json.dumps(it) + "\n" for it in rows)

    def check_parts(self):
        """The parts, one after the other, are what the command sort makes of all rows."""
        written = b""
        for part in range(len(os.listdir(self.parts))):
            with open(os.path.join(self.parts, f"part-{part}.docs"), "rb") as file:
                written += file.read()
        documents = run("encode", self.source)[1]
        self.assertEqual(written, run("sort", given=documents)[1])

    def remove_parts(self):
        shutil.rmtree(self.parts)


class SortTest(SortFolder):
    def sort(self, python, *options):
        return subprocess.run([python, PROGRAM, self.source, self.parts, "--workers", "3",
                               *options], stdout=subprocess.PIPE, stderr=subprocess.PIPE,
                              timeout=SECONDS, env=environment_of(python))

    def check(self, python, rows, *options):
        self.write(rows)
        done = self.sort(python, *options)
        self.assertEqual(done.returncode, 0, done.stderr.decode())
        self.assertIn(f"{len(rows)} documents in ", done.stdout.decode())
        self.check_parts()
        self.assertEqual(sorted(os.listdir(self.folder)), ["parts", "rows.ndjson"])

    def test_by_processes(self):
        rng = random.Random(2)
        rows = [{"id": it, "city": rng.choice(["Oslo", "Os", ""])} for it in range(3000)]
        rng.shuffle(rows)
        self.check(sys.executable, rows, "--plain", "--parts", "5")

    def test_few_rows(self):
        self.check(sys.executable, [5, [1], "a"], "--plain")

    def test_no_rows(self):
        self.check(sys.executable, [], "--plain")

    def test_by_dask(self):
        python = python_with("distributed")
        if not python:
            self.skipTest("needs the Debian package python3-distributed")
        rng = random.Random(4)
        rows = [{"id": it, "name": f"customer {it % 977}"} for it in range(ROWS)]
        rng.shuffle(rows)
        self.check(python, rows)

    def test_a_folder_that_has_files(self):
        self.check(sys.executable, [3, 1, 2], "--plain")
        done = self.sort(sys.executable, "--plain", "--parts", "1")
        self.assertEqual((done.returncode, done.stderr.decode()),
                         (1, f"{self.parts} has files: remove them, or name another folder\n"))
        self.check_parts()

    def test_what_an_earlier_sort_left(self):
        os.makedirs(f"{self.parts}.x.unfinished/parts")
        self.check(sys.executable, [3, 1, 2], "--plain")


class TaskTest(SortFolder):
    """Tasks that are made again, as they are when what made them was killed."""

    def test_a_part_whose_inputs_are_gone(self):
        self.write([5, 3, 4])
        size = os.path.getsize(self.source)
        os.mkdir(self.parts)
        self.assertEqual(dask_sort.write_bounds(self.source, size, 1, self.folder), 1)
        for _ in range(2):
            count = dask_sort.scatter(self.source, 0, size, self.folder, 0)
            self.assertEqual(count, 3)
        self.assertEqual(dask_sort.gather(self.folder, 0, 1), 3)
        self.check_parts()
        os.unlink(dask_sort.scattered(self.folder, 0, 0))
        self.assertEqual(dask_sort.gather(self.folder, 0, 1), 3)
        self.check_parts()

    def test_parts_out_of_order(self):
        path, three = self.source, Document.parse("3")
        for texts, words in ((["2", "1"], "1 comes after 2"), (["4"], "of another part: 4")):
            with open(path, "wb") as file:
                file.writelines(dask_sort.stored(bytes(Document.parse(it))) for it in texts)
            with self.assertRaisesRegex(dask_sort.SortError, words):
                dask_sort.verify(path, [three.key()], 0)

    def test_processes_that_are_killed(self):
        engine = self.processes(2)
        numbers = range(6)
        with contextlib.redirect_stderr(io.StringIO()) as told:
            results = dict(engine.run(die_once, [(self.folder, it) for it in numbers]))
        self.assertEqual(results, {it: it for it in numbers})
        self.assertEqual("a process was killed: its task is done again\n" * 3, told.getvalue())
        self.assertEqual(len(os.listdir(self.folder)), 6)

    def test_a_task_that_kills_each_process(self):
        with contextlib.redirect_stderr(io.StringIO()), \
                self.assertRaisesRegex(dask_sort.SortError, "5 processes were killed"):
            list(self.processes(1).run(die, [()]))

    def test_a_task_that_fails(self):
        with self.assertRaisesRegex(ValueError, "invalid literal"):
            list(self.processes(2).run(int, [("1",), ("a",)]))

    def processes(self, count):
        engine = dask_sort.Processes(count)
        self.addCleanup(engine.close)
        return engine


def die():
    os.kill(os.getpid(), signal.SIGKILL)


def die_once(folder, number):
    """The number of a task, which kills its process when an odd one begins for the first time."""
    path = os.path.join(folder, str(number))
    if not os.path.exists(path):
        open(path, "w").close()
        if number % 2:
            die()
    return number


if __name__ == "__main__":
    unittest.main()
