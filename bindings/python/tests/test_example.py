"""The example of ctypes alone, which needs no package: bindings/examples/rows.py."""
import os
import subprocess
import sys
import unittest

EXAMPLES = os.path.join(os.path.dirname(os.path.abspath(__file__)), "..", "..", "examples")


def run(*arguments):
    """The status of the example, its output and its messages."""
    done = subprocess.run([sys.executable, os.path.join(EXAMPLES, "rows.py"), *arguments],
                          stdout=subprocess.PIPE, stderr=subprocess.PIPE)
    return done.returncode, done.stdout.decode(), done.stderr.decode()


class ExampleTest(unittest.TestCase):
    def test_it_prints_the_rows(self):
        with open(os.path.join(EXAMPLES, "rows.out"), encoding="utf-8") as file:
            self.assertEqual(run(os.environ["KOHIBLAD_LIBRARY"]), (0, file.read(), ""))

    def test_other_arguments_are_a_usage_error(self):
        for arguments in ((), ("one.so", "other.so")):
            self.assertEqual(run(*arguments),
                             (2, "", "usage: python3 rows.py libkohiblad.so\n"))


if __name__ == "__main__":
    unittest.main()
