"""The extension module: beside the package without it, and what it is chosen by."""
import os
import subprocess
import sys
import threading
import unittest

from kohiblad import Document

HERE = os.path.dirname(os.path.abspath(__file__))


def run(*arguments, **environment):
    """The output of a program of Python, and of its errors the last line."""
    environment = dict(os.environ, PYTHONHASHSEED="0", **environment)
    done = subprocess.run([sys.executable, *arguments], cwd=HERE, env=environment,
                          stdout=subprocess.PIPE, stderr=subprocess.PIPE)
    errors = done.stderr.decode().splitlines()
    return done.returncode, done.stdout.decode(), errors[-1] if errors else ""


def has_native():
    return run("-c", "import kohiblad", KOHIBLAD_NATIVE="1")[0] == 0


@unittest.skipUnless(has_native(), "the extension module: needs the Debian packages gcc and "
                                   "python3-dev")
class NativeTest(unittest.TestCase):
    def test_the_answers_are_those_without_it(self):
        by_ctypes, by_module = (run("transcript.py", KOHIBLAD_NATIVE=wish) for wish in "01")
        self.assertEqual((by_ctypes[0], by_ctypes[2]), (0, ""))
        self.assertEqual((by_module[0], by_module[2]), (0, ""))
        lines = by_ctypes[1].splitlines()
        self.assertGreater(len(lines), 80_000)
        self.assertEqual(len(lines), len(by_module[1].splitlines()))
        for number, (one, other) in enumerate(zip(lines, by_module[1].splitlines())):
            self.assertEqual(one, other, f"line {number}")

    def test_it_is_chosen_by_the_environment(self):
        program = ("import kohiblad, sys\n"
                   "print(kohiblad.IS_NATIVE, 'kohiblad._native' in sys.modules)\n")
        for wish, expected in (("0", "False False\n"), ("1", "True True\n"), ("", "True True\n")):
            self.assertEqual(run("-c", program, KOHIBLAD_NATIVE=wish)[:2], (0, expected))

    def test_another_version_is_not_used(self):
        program = ("import sys, types\n"
                   "module = types.ModuleType('kohiblad._native')\n"
                   "module.VERSION, module.__file__ = '0.0.1', 'old.so'\n"
                   "sys.modules['kohiblad._native'] = module\n"
                   "import kohiblad\n"
                   "print(kohiblad.IS_NATIVE, kohiblad.loads('[1.50]'))\n")
        self.assertEqual(run("-c", program, KOHIBLAD_NATIVE="")[:2],
                         (0, "False [Decimal('1.50')]\n"))
        status, _, error = run("-c", program, KOHIBLAD_NATIVE="1")
        self.assertEqual(status, 1)
        self.assertRegex(error, "^ImportError: .*old.so is of version 0.0.1, not 0")

    def test_a_missing_module_is_refused_if_it_is_wished_for(self):
        program = "import sys; sys.modules['kohiblad._native'] = None; import kohiblad"
        self.assertEqual(run("-c", program, KOHIBLAD_NATIVE="")[0], 0)
        status, _, error = run("-c", program, KOHIBLAD_NATIVE="1")
        self.assertEqual(status, 1)
        self.assertRegex(error, "^ImportError: KOHIBLAD_NATIVE is 1, but there is no extension")

    def test_its_functions_refuse_what_the_package_never_passes(self):
        program = ("from kohiblad import _native as native\n"
                   "refused = 0\n"
                   "for name in ('value', 'kind', 'count', 'key', 'names', 'to_string'):\n"
                   "    for data in (5, '[]', None, b'', b'\\x80', b'\\xff' * 8):\n"
                   "        try:\n"
                   "            getattr(native, name)(data)\n"
                   "        except (TypeError, ValueError):\n"
                   "            refused += 1\n"
                   "for call in (lambda: native.parse('[]'), lambda: native.member(b'', 5),\n"
                   "             lambda: type(native.names(b'\\x80\\0\\0\\0'))(),\n"
                   "             lambda: native.edit(b'', b'', 0),\n"
                   "             lambda: native.edit(5, b'', 0, b''),\n"
                   "             lambda: native.edit(b'', b'', 'a', b''),\n"
                   "             lambda: native.edit(b'', b'', 2**80, b''),\n"
                   "             lambda: native.concat(5, 5), lambda: native.concat(b'', b''),\n"
                   "             lambda: native.merge_patch(b''), lambda: native.strip_nulls(5),\n"
                   "             lambda: native.merge_patch(b'', '{}'),\n"
                   "             lambda: native.merge_patch(b'', b''),\n"
                   "             lambda: native.strip_nulls(b'\\x80\\0\\0\\1'),\n"
                   "             lambda: native.bind(1, 2), lambda: native.bind({}, {}),\n"
                   "             lambda: native.value(b'\\x80\\0\\0\\0')):\n"
                   "    try:\n"
                   "        call()\n"
                   "    except (TypeError, ValueError, RuntimeError, OverflowError):\n"
                   "        refused += 1\n"
                   "print(refused >= 35)\n")
        self.assertEqual(run("-c", program, KOHIBLAD_NATIVE="1"), (0, "True\n", ""))

    def test_no_memory_is_kept(self):
        """What a run keeps in each of its turns; Python's own stores grow in some of them only."""
        program = ("import gc, sys\n"
                   "from kohiblad import Document, dumps, loads\n"
                   "from models import Values\n"
                   "values = Values(seed=31)\n"
                   "some = [values.any(depth=3) for _ in range(200)]\n"
                   "some += [[1.5], {'a': object()}, {1: 2}, ['\\ud800'], [10**99]]\n"
                   "texts = ['[1,', '1e99', '[' * 2000, b'\\xff', 5, '{\"a\": [1.5, \"b\"]}']\n"
                   "def run():\n"
                   "    for value in some:\n"
                   "        for call in (Document.of, dumps):\n"
                   "            try:\n"
                   "                it = call(value)\n"
                   "            except (TypeError, ValueError):\n"
                   "                continue\n"
                   "            if isinstance(it, Document):\n"
                   "                it.value(), it.key(), list(it) if it.kind == 'array' else 0\n"
                   "                dict(it) if it.kind == 'object' else 0, it.canonical()\n"
                   "                it.set('a', 1), it.without(0), it.merge({'a': {'b': None}})\n"
                   "                it.without_nulls(), it.without(*'abcdefghij')\n"
                   "                it.get_path('a', 0), it.contains(1), it.index_keys()\n"
                   "                it | it if it.kind == 'object' else 0\n"
                   "    for text in texts:\n"
                   "        try:\n"
                   "            loads(text)\n"
                   "        except (TypeError, ValueError):\n"
                   "            pass\n"
                   "def blocks():\n"
                   "    gc.collect()\n"
                   "    return sys.getallocatedblocks()\n"
                   "def growth():\n"
                   "    before = blocks()\n"
                   "    for _ in range(10):\n"
                   "        run()\n"
                   "    return blocks() - before\n"
                   "print(min(growth() for _ in range(8)) < 10)\n")
        self.assertEqual(run("-c", program, KOHIBLAD_NATIVE="1"), (0, "True\n", ""))


class LockTest(unittest.TestCase):
    def test_long_texts_release_the_lock(self):
        """Another thread counts while a long text is parsed, which would not switch by itself."""
        text = "[" + ",".join(['"a text"', "1.50"] * 400_000) + "]"
        interval = sys.getswitchinterval()
        self.addCleanup(sys.setswitchinterval, interval)
        sys.setswitchinterval(100)
        begun, counted = threading.Event(), []

        def count():
            begun.set()
            while not counted:
                time_to_stop.wait(0.0001)
                ticks.append(1)

        ticks, time_to_stop = [], threading.Event()
        thread = threading.Thread(target=count)
        thread.start()
        begun.wait()
        before = len(ticks)
        Document.parse(text)
        after = len(ticks)
        counted.append(True)
        thread.join()
        self.assertGreater(after, before)


if __name__ == "__main__":
    unittest.main()
