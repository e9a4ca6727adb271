"""The package in several interpreters of one process: what one hands out another may release."""
import os
import subprocess
import sys
import tempfile
import unittest

import kohiblad

HERE = os.path.dirname(os.path.abspath(__file__))
# Programs of the first interpreter, and of a second one that it makes by `run`.
BEGINNING = """\
import ctypes, sys, threading
sys.path.insert(0, {here!r})
from kohiblad import _capsules
from kohiblad.arrow import Column
from test_arrow import RELEASE, ROWS, Consumer

def exported():
    _capsules.release_unused()
    return len(_capsules._exported)

def names_of(read):
    return f"RELEASE({{read.release_address}})({{ctypes.addressof(read.taken)}})"
"""
PROGRAM = """\
try:
    import _interpreters as interpreters
except ImportError:
    import _xxsubinterpreters as interpreters

# One that may import what has no lock of its own, as the versions of Python name it.
def create():
    for words, named in ((["legacy"], {{}}), ([], {{"isolated": False}})):
        try:
            return interpreters.create(*words, **named)
        except TypeError:
            continue
    return interpreters.create()

other = create()

def run(program):
    failed = interpreters.run_string(other, program)
    assert failed is None, failed

first, second, third, fourth, kept = (Consumer(Column.of(ROWS)) for _ in range(5))
assert exported() == 5
run({beginning!r} + '''
mine, late = Consumer(Column.of(ROWS)), Consumer(Column.of(ROWS))
assert exported() == 2
words = names_of(mine), names_of(late)
''')
# A release here takes nothing of the other one out.
first.release()
assert exported() == 4
run('''
assert exported() == 2
assert list(mine.rows()) == [bytes(it) for it in ROWS]
''')
# Nor does one there, of a struct of the first interpreter.
run(names_of(second))
assert exported() == 3
run("assert exported() == 2")
# A thread that Python does not know, and one of its own that has the lock.
thread = threading.Thread(target=third.release)
thread.start()
thread.join()
assert exported() == 2
run(f'''
thread = threading.Thread(target=lambda: {{names_of(fourth)}})
thread.start()
thread.join()
assert exported() == 2
import os
fd = os.open({path!r}, os.O_WRONLY)
os.write(fd, repr(words).encode())
''')
assert exported() == 1
with open({path!r}) as file:
    mine, late = eval(file.read())
eval(mine)
run("assert exported() == 1")
# A struct of an interpreter that has ended is released without it.
run("import builtins; builtins.late = late")
interpreters.destroy(other)
assert list(kept.rows()) == [bytes(it) for it in ROWS]
kept.release()
assert exported() == 0
print("done")
"""


def has_interpreters():
    for name in ("_interpreters", "_xxsubinterpreters"):
        try:
            return bool(__import__(name))
        except ImportError:
            continue
    return False


@unittest.skipUnless(kohiblad.IS_NATIVE, "the ends of structs in several interpreters are those of "
                                         "the extension module")
class InterpretersTest(unittest.TestCase):
    def run_program(self, program):
        done = subprocess.run([sys.executable, "-c", program], stdout=subprocess.PIPE,
                              stderr=subprocess.PIPE, timeout=120)
        self.assertEqual((done.returncode, done.stdout), (0, b"done\n"), done.stderr.decode())

    @unittest.skipUnless(has_interpreters(), "this Python makes no other interpreter")
    def test_each_has_what_it_hands_out(self):
        with tempfile.NamedTemporaryFile() as told:
            beginning = BEGINNING.format(here=HERE)
            self.run_program(beginning + PROGRAM.format(beginning=beginning, path=told.name))

    def test_a_struct_is_released_when_the_interpreter_has_ended(self):
        """A handler of the C library, which is called when Python is gone."""
        program = BEGINNING.format(here=HERE) + """
import atexit
read = Consumer(Column.of(ROWS))
library = ctypes.CDLL(None)
kept = ctypes.create_string_buffer(read.taken.raw)
ctypes.pythonapi.Py_IncRef(ctypes.py_object(kept))
on_exit = library.on_exit
on_exit.argtypes = ctypes.c_void_p, ctypes.c_void_p
# As release(status, struct) would be called, the struct is the second argument: a thunk turns them.
import mmap
code = mmap.mmap(-1, 4096, prot=mmap.PROT_READ | mmap.PROT_WRITE | mmap.PROT_EXEC)
code.write(b"\\x48\\x89\\xf7\\x48\\xb8")
code.write(read.release_address.to_bytes(8, "little") + b"\\xff\\xe0")
address = ctypes.addressof((ctypes.c_char * 4096).from_buffer(code))
ctypes.pythonapi.Py_IncRef(ctypes.py_object(code))
assert on_exit(address, ctypes.addressof(kept)) == 0
print("done", flush=True)
"""
        if os.uname().machine != "x86_64":
            self.skipTest("the thunk is for x86-64")
        self.run_program(program)

    @unittest.skipUnless(sys.version_info >= (3, 13), "Python 3.13 has what it needs of ctypes")
    def test_it_works_with_a_lock_of_its_own(self):
        self.run_program("""
import _interpreters as interpreters
other = interpreters.create("isolated")
failed = interpreters.run_string(other, '''
import sys
from kohiblad import Document, IS_NATIVE
assert IS_NATIVE
assert Document.parse("[1.50]").value() == Document.of([Document.parse("1.50")]).value()
''')
assert failed is None, failed
interpreters.destroy(other)
print("done")
""")


if __name__ == "__main__":
    unittest.main()
