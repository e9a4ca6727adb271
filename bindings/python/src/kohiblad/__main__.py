"""Files of JSON lines as files of documents, and back: ``python -m kohiblad --help``."""
import argparse
import contextlib
import heapq
import os
import re
import signal
import stat
import sys
import tempfile
import threading
import time
import warnings
from itertools import islice
from typing import (IO, Any, Callable, ContextManager, Dict, Iterator, List, NoReturn, Optional,
                    Tuple, TypeVar)

from . import Document, KohibladError, KohibladWarning, __version__
from ._changes import warn_of_missing
from ._document import steps_of_name
from ._errors import printable
from ._fault import fault_of
from ._files import documents_of_lines, rest_of, stored, stored_documents
from ._key_lines import add_key_options, add_range_options, key_line, key_row, range_lines
from ._member_lines import (MemberError, add_extract_options, add_survey_options, csv_lines,
                            extracted, is_numpy, survey_lines, unfit_lines, write_numpy)
from ._program import hand_over
from ._show import lines_of, page_of
from ._target import target_of
from .arrow import Column

_DESCRIPTION = """\
Converts files of JSON lines (NDJSON) to files of binary documents and back, sorts and merges
documents, prints one member of each or the key of some, takes members as columns of one type, and
shows the bytes of one. A file of documents has each document after its length: eight bytes, the
most significant first. Two such files joined are a file of both."""

_OTHERS = """\
Commands and options that are not here are those of the program kohiblad for the shell: if it is on
PATH, it is run with the same arguments. What comes after -- always goes to it, as in `-- merge`."""

_SHOW = """\
Prints one document as a tree beside its bytes. Each line has an entry word, the bytes that belong
to it, and what they mean, each with its place. For bytes that are not a document it says where
their first fault is and what, and the status is 1."""

_SECONDS_BETWEEN_REPORTS = 0.5

# What a document takes in memory while it is sorted, beside its bytes and those of its key, which
# are about as many.
_BYTES_OF_A_ROW = 200

# So many temporary files of sorted documents are merged to one, since a process has few open files.
_MOST_RUNS = 100
# The line of a document that has no such member.
_NO_MEMBER = b"\n"
_Row = TypeVar("_Row")


class InputError(Exception):
    """A row of the input cannot be read."""


class Progress:
    """A line on standard error that counts rows, written over itself. If the sources are files, it
    has the part of them that was read, and for how long the rest will take at this pace."""

    def __init__(self, is_shown: bool, unit: str, sources: List[IO[bytes]]) -> None:
        self._is_shown = is_shown
        self._unit = unit
        self._sources = sources
        sizes = list(map(rest_of, sources))
        self._size = sum(it or 0 for it in sizes) if None not in sizes else 0
        self._begin = time.monotonic()
        self._next_time = self._begin + _SECONDS_BETWEEN_REPORTS
        self._shown = ""

    def count(self, rows: Iterator[_Row]) -> Iterator[_Row]:
        """The same rows, counted as they pass."""
        number = 0
        try:
            for row in rows:
                number += 1
                yield row
                if self._is_shown and time.monotonic() >= self._next_time:
                    self._report(number)
        finally:
            if self._shown:
                self._report(number)
                sys.stderr.write("\n")

    def _report(self, number: int) -> None:
        self._next_time = time.monotonic() + _SECONDS_BETWEEN_REPORTS
        # Blanks cover what was longer before.
        length = len(self._shown.rstrip())
        self._shown = f"{number:,} {self._unit}s{self._part_read()}".ljust(length)
        sys.stderr.write(f"\r{self._shown}")
        sys.stderr.flush()

    def _part_read(self) -> str:
        if not self._size:
            return ""
        part = 1 - sum(rest_of(it) or 0 for it in self._sources) / self._size
        if not 0 < part < 1:
            return ", 100%" if part >= 1 else ""
        left = (time.monotonic() - self._begin) * (1 - part) / part
        return f", {int(100 * part)}%, {int(left) + 1:,} s left"


def line_of(document: Document) -> bytes:
    return str(document).encode() + b"\n"


def member_line(document: Document, name: str) -> bytes:
    """The member as a JSON line, which is empty if there is none."""
    if document.kind != "object" or name not in document:
        return _NO_MEMBER
    member = document[name]
    return line_of(member if isinstance(member, Document) else Document.of(member))


def merged(sources: List[Iterator[Document]]) -> Iterator[Document]:
    """The documents of sorted sources in their order; of equal ones that of the first source."""
    return iter(heapq.merge(*sources, key=Document.key))


def sorted_documents(documents: Iterator[Document], memory: int) -> Iterator[Document]:
    """The documents in their order, equal ones as they came. What takes more than about so many
    bytes of memory is sorted in parts, each of which goes to a temporary file."""
    with contextlib.ExitStack() as files:
        runs: List[IO[bytes]] = []
        rows: List[Document] = []
        taken = 0
        for document in documents:
            rows.append(document)
            taken += 2 * len(bytes(document)) + _BYTES_OF_A_ROW
            if taken >= memory:
                rows.sort(key=Document.key)
                runs.append(_run_of(iter(rows), files))
                rows, taken = [], 0
            if len(runs) == _MOST_RUNS:
                joined = _run_of(merged(list(map(_run_documents, runs))), files)
                for run in runs:
                    run.close()
                runs = [joined]
        rows.sort(key=Document.key)
        yield from merged([*map(_run_documents, runs), iter(rows)])


def _run_of(documents: Iterator[Document], files: contextlib.ExitStack) -> IO[bytes]:
    """A temporary file of the documents, which is gone when it is closed."""
    file = files.enter_context(tempfile.TemporaryFile())
    for document in documents:
        file.write(stored(document))
    file.seek(0)
    return file


def _run_documents(file: IO[bytes]) -> Iterator[Document]:
    return stored_documents(file, "a temporary file")


def in_order(documents: Iterator[Document], name: str) -> Iterator[Document]:
    """The same documents. InputError: one of them is less than the one before it."""
    previous = None
    for number, document in enumerate(documents, 1):
        if previous is not None and document < previous:
            raise InputError(f"{name}: document {number} is less than the one before it")
        previous = document
        yield document


class _Parser(argparse.ArgumentParser):
    """One that says what is wrong of arguments, which may have any characters."""

    def error(self, message: str) -> NoReturn:
        super().error(printable(message))


def _parser() -> argparse.ArgumentParser:
    # As it was called: by its own name, or as a module.
    program = os.path.basename(sys.argv[0])
    parser = _Parser(
        prog="python -m kohiblad" if program == "__main__.py" else program,
        description=_DESCRIPTION, epilog=_OTHERS)
    parser.add_argument("--version", action="version", version=f"kohiblad {__version__}")
    commands = parser.add_subparsers(dest="command", metavar="COMMAND")
    commands.required = True
    helps = {"encode": "JSON lines to documents; empty lines are left out",
             "decode": "documents to JSON lines",
             "sort": "documents to documents in their order; what does not fit the memory goes to "
                     "temporary files",
             "get": "documents to the JSON lines of a member, empty where there is none",
             "keys": "documents to lines of hexadecimal: keys that sort as the documents do, or as "
                     "some of their members",
             "survey": "documents to what a member of them is: the least type that holds all, and "
                       "counts of each kind",
             "extract": "documents to a line of CSV for each, with members of one type, or to "
                        "arrays of numpy if the output ends with .npy or .npz",
             "merge": "sorted documents of several files to one, with one of each file in memory"}
    for name, text in helps.items():
        command = commands.add_parser(name, help=text, description=text)
        if name == "encode":
            command.add_argument("--skip-bad", action="store_true",
                                 help="leave out the lines that are not JSON, and name them on "
                                      "standard error")
            command.add_argument("--errors", metavar="FILE",
                                 help="the same, and name them in this file")
        if name == "get":
            command.add_argument("name", metavar="NAME", help="the member's key")
        if name == "keys":
            add_key_options(command)
        if name == "survey":
            add_survey_options(command)
        if name == "extract":
            add_extract_options(command)
        if name == "sort":
            command.add_argument("--memory", metavar="SIZE", type=_size, default=_size("1G"),
                                 help="about how many bytes the documents may take in memory, as "
                                      "500M or 2G; 1G if none")
        if name == "merge":
            command.add_argument("inputs", nargs="+", metavar="FILE", help="a sorted file")
        else:
            command.add_argument("input", nargs="?", default="-", metavar="FILE",
                                 help="the input; standard input if none or -")
        command.add_argument("-o", "--output", default="-", metavar="FILE",
                             help="the output; standard output if none or -")
        command.add_argument("--progress", action="store_true",
                             help="count on standard error, as is done on a terminal")
    text = "the bounds of a half-open range of keys, in hexadecimal: the first, and that after it"
    add_range_options(commands.add_parser("range", help=text, description=text))
    _add_show(commands)
    return parser


def _size(text: str) -> int:
    """A number of bytes, with K, M or G after it for so many times 1,024."""
    found = re.fullmatch(r"([0-9]+)([KMG]?)", text, re.ASCII)
    if not found:
        raise argparse.ArgumentTypeError(f"{text!r} is no size, as 500M or 2G")
    return int(found[1]) << {"": 0, "K": 10, "M": 20, "G": 30}[found[2]]


def _row_number(text: str) -> int:
    number = int(text)
    if number < 1:
        raise ValueError
    return number


def _add_show(commands: Any) -> None:
    command = commands.add_parser("show", help="one document as a tree beside its bytes",
                                  description=_SHOW)
    command.add_argument("input", metavar="FILE|HEX|-",
                         help="a file with the bytes of the document alone, or these bytes in "
                              "hexadecimal; - is standard input")
    command.add_argument("--json", action="store_true",
                         help="take a JSON text, and show its document: a file, the text, or -")
    command.add_argument("--row", metavar="N", type=_row_number,
                         help="take a file of documents, with --json of JSON lines, and show the "
                              "one of this number, from 1")
    command.add_argument("--html", metavar="OUT",
                         help="write a page instead, in which a part lights up in the tree and in "
                              "the bytes")
    command.add_argument("--whole", action="store_true",
                         help="print the bytes of long texts and data whole")
    command.add_argument("--color", choices=("auto", "always", "never"), default="auto",
                         help="auto: on a terminal, unless the variable NO_COLOR is set")


def _say(words: str) -> None:
    """A line on standard error. Names that are given may have any characters."""
    print(f"kohiblad: {printable(words)}", file=sys.stderr)


def _input_name(path: str) -> str:
    return "standard input" if path == "-" else path


class Refusals:
    """The lines that are left out, each with its error on a line of a file or of standard error."""

    def __init__(self, file: IO[bytes]) -> None:
        self._file = file
        self.count = 0

    def add(self, error: KohibladError) -> None:
        self.count += 1
        self._file.write(f"{error}\n".encode("utf-8", "backslashreplace"))
        self._file.flush()


def _refusals(options: argparse.Namespace, files: contextlib.ExitStack) -> Optional[Refusals]:
    if options.command != "encode" or not (options.skip_bad or options.errors):
        return None
    if not options.errors:
        return Refusals(sys.stderr.buffer)
    return Refusals(files.enter_context(target_of(options.errors)))


def _run(options: argparse.Namespace, sources: List[IO[bytes]], target: IO[bytes],
         refusals: Optional[Refusals]) -> None:
    names = list(map(_input_name, options.inputs))
    is_encode = options.command == "encode"
    if is_encode:
        inputs = [documents_of_lines(sources[0], names[0], refusals.add if refusals else None)]
    else:
        inputs = list(map(stored_documents, sources, names))
    rows = merged(list(map(in_order, inputs, names))) if options.command == "merge" else inputs[0]
    is_shown = options.progress or sys.stderr.isatty()
    progress = Progress(is_shown, "line" if is_encode else "document", sources)
    documents = progress.count(rows)
    if options.command == "sort":
        documents = sorted_documents(documents, options.memory)
    written: Dict[str, Callable[[Document], bytes]] = {
        "encode": stored, "decode": line_of, "sort": stored, "merge": stored,
        "get": lambda document: member_line(document, options.name),
        "keys": lambda document: (key_row if options.rowbinary else key_line)(document, options)}
    rows_written, has_value = 0, False
    for document in documents:
        line = written[options.command](document)
        target.write(line)
        rows_written, has_value = rows_written + 1, has_value or line != _NO_MEMBER
    target.flush()
    if options.command == "get" and rows_written and not has_value:
        _tell_missing(options.name)
    if refusals and refusals.count:
        _say(f"{refusals.count:,} lines were left out")


def _tell_missing(name: str) -> None:
    """Warns that no row has the member, and what to run if the name is the text of a path."""
    is_path = steps_of_name(name) is not None
    warn_of_missing([[name]], ": a key is expected, and `extract` takes paths" if is_path else "")


def _shown_input(given: str, is_json: bool) -> Tuple[bytes, str]:
    """The bytes that are to be shown, or the JSON text, and a name for them."""
    if given == "-":
        return sys.stdin.buffer.read(), _input_name(given)
    if os.path.exists(given):
        with open(given, "rb") as file:
            return file.read(), given
    if is_json:
        return given.encode("utf-8", "surrogateescape"), "the text"
    try:
        # As PostgreSQL and others print bytes.
        return bytes.fromhex(re.sub(r"^(\\x|0x)", "", given)), "the bytes"
    except ValueError:
        raise InputError(f"{given}: there is no such file, and it is not hexadecimal") from None


def _row(options: argparse.Namespace) -> Tuple[bytes, str]:
    """The document of a row, and a name for it."""
    name = _input_name(options.input)
    with _opened(options.input) as file:
        rows = documents_of_lines(file, name) if options.json else stored_documents(file, name)
        for document in islice(rows, options.row - 1, None):
            return bytes(document), f"{name}, {options.row}"
    raise InputError(f"{name}: there is no document {options.row}")


def _shown_document(options: argparse.Namespace) -> Tuple[bytes, str]:
    """The document that is to be shown, and a name for it."""
    if options.row is not None:
        return _row(options)
    data, name = _shown_input(options.input, options.json)
    try:
        return bytes(Document.parse(data) if options.json else Document(data)), name
    except KohibladError as error:
        reason = str(error)
    if not options.json:
        fault = fault_of(data)
        reason = f"not a document: {fault.name} at byte {fault.offset}: {fault.reason}"
    raise InputError(f"{name}: {reason}")


def _is_colored(wish: str) -> bool:
    if wish != "auto":
        return wish == "always"
    return sys.stdout.isatty() and not os.environ.get("NO_COLOR") \
        and os.environ.get("TERM") != "dumb"


def _show(options: argparse.Namespace) -> None:
    document, name = _shown_document(options)
    if options.html is not None:
        try:
            page = page_of(document, os.path.basename(name)).encode("utf-8", "backslashreplace")
        except ValueError as error:
            raise InputError(f"{name}: {error}") from None
        with _written(options.html) as target:
            target.write(page)
        return
    for line in lines_of(document, options.whole, _is_colored(options.color)):
        sys.stdout.buffer.write(f"{line}\n".encode())
    sys.stdout.buffer.flush()


def _opened(path: str) -> ContextManager[IO[bytes]]:
    if path == "-":
        return contextlib.nullcontext(sys.stdin.buffer)
    return open(path, "rb")


def _written(path: str) -> ContextManager[IO[bytes]]:
    """The output: a file takes the place of an earlier one when all of it is there."""
    if path == "-":
        return contextlib.nullcontext(sys.stdout.buffer)
    return target_of(path)


def _place_of(path: str, stream: Optional[int] = None) -> Optional[Tuple[Any, ...]]:
    """What all names of one file or device have in common, `-` among them if it is a stream.

    None for what any number may share: the null device, and a stream that is no file.
    """
    is_stream = path == "-" and stream is not None
    try:
        status = os.stat(stream if is_stream and stream is not None else path)
    except OSError:
        return None if is_stream else ("name", os.path.realpath(path))
    if os.path.exists(os.devnull) and os.path.samestat(status, os.stat(os.devnull)):
        return None
    if stat.S_ISREG(status.st_mode):
        return status.st_dev, status.st_ino
    if stat.S_ISBLK(status.st_mode) or stat.S_ISCHR(status.st_mode) and not is_stream:
        return "device", stat.S_IFMT(status.st_mode), status.st_rdev
    return None if is_stream else (status.st_dev, status.st_ino)


def _expect_other_files(options: argparse.Namespace) -> None:
    """InputError: two of the input, the output and the file of errors are one, by any name.

    It is called before one of them is opened.
    """
    inputs = getattr(options, "inputs", [])
    if options.command == "show":
        # The bytes themselves are no file.
        inputs = [it for it in inputs if os.path.exists(it)]
    output = options.html if options.command == "show" else options.output
    errors = getattr(options, "errors", None)
    places = {_place_of(it, stream=0): "the input" for it in inputs}
    for path, stream, wanted in ((output, 1, "write to another file"),
                                 (errors, None, "write the errors to another file")):
        place = None if path is None else _place_of(path, stream)
        if place is not None and place in places:
            name = "standard output" if path == "-" and stream else path
            raise InputError(f"{name} is {places[place]}: {wanted}")
        places[place] = "the output"


def _convert(options: argparse.Namespace) -> None:
    with contextlib.ExitStack() as files:
        sources = [files.enter_context(_opened(it)) for it in options.inputs]
        refusals = _refusals(options, files)
        target = files.enter_context(_written(options.output))
        _run(options, sources, target, refusals)


def _write_members(options: argparse.Namespace) -> None:
    """Surveys a member of the documents, or writes columns of members."""
    with _opened(options.input) as source:
        is_shown = options.progress or sys.stderr.isatty()
        progress = Progress(is_shown, "document", [source])
        column = Column.of(progress.count(stored_documents(source, _input_name(options.input))))
    if options.command == "survey":
        lines = survey_lines(column, options)
    else:
        columns = extracted(column, options)
        for line in unfit_lines(columns):
            _say(line)
        lines = csv_lines(columns)
    with _written(options.output) as target:
        if options.command == "extract" and is_numpy(options.output):
            write_numpy(columns, options.output, target)
        else:
            target.writelines(lines)
        target.flush()


class _Ended(BaseException):
    """A signal came that ends the program."""

    def __init__(self, number: int) -> None:
        super().__init__(number)
        self.number = number


@contextlib.contextmanager
def _raised_signals() -> Iterator[None]:
    """Has the signals that end the program raise an exception, so that no file is left half done.

    Those that the caller ignores or handles, as nohup does, stay so.
    """
    def end(number: int, _: Any) -> None:
        raise _Ended(number)

    before: Dict[int, Any] = {}
    if threading.current_thread() is threading.main_thread():
        for it in (signal.SIGINT, signal.SIGTERM, signal.SIGHUP):
            if signal.getsignal(it) in (signal.SIG_DFL, signal.default_int_handler):
                before[it] = signal.signal(it, end)
    try:
        yield
    finally:
        for number, handler in before.items():
            signal.signal(number, handler)


@contextlib.contextmanager
def _said_warnings() -> Iterator[None]:
    """Has what the package warns of said on a line of its own, once."""
    with warnings.catch_warnings():
        warnings.simplefilter("always", KohibladWarning)
        shown = warnings.showwarning
        said = set()

        def show(message: Any, category: Any, *where: Any, **named: Any) -> None:
            if not issubclass(category, KohibladWarning):
                shown(message, category, *where, **named)
            elif str(message) not in said:
                said.add(str(message))
                _say(str(message))

        warnings.showwarning = show
        yield


def _commands(parser: argparse.ArgumentParser) -> List[str]:
    return [name for action in parser._actions if isinstance(action, argparse._SubParsersAction)
            for name in action.choices]


def _options(words: List[str]) -> Tuple[argparse.Namespace, List[str], str]:
    """What the arguments say; those that are for the program for the shell, and what it is for
    which it is needed."""
    parser = _parser()
    if words[:1] == ["--"]:
        return argparse.Namespace(), words[1:], "what comes after --"
    if words and not words[0].startswith("-") and words[0] not in _commands(parser):
        return argparse.Namespace(), words, f"the command {words[0]}"
    options, others = parser.parse_known_args(words)
    return options, words if others else [], f"{others[0]} of {words[0]}" if others else ""


def main(arguments: Optional[List[str]] = None) -> int:
    options, for_program, what = _options(sys.argv[1:] if arguments is None else arguments)
    try:
        with _raised_signals(), _said_warnings():
            return hand_over(for_program, what) if what else _answer(options)
    except BrokenPipeError:
        # Nobody reads on, as after `| head`. Python would fail once more at its end.
        os.dup2(os.open(os.devnull, os.O_WRONLY), sys.stdout.fileno())
        return 1
    except (InputError, MemberError, KohibladError, OSError) as error:
        _say(str(error))
        return 1
    except _Ended as ended:
        return 128 + ended.number


def _answer(options: argparse.Namespace) -> int:
    if options.command == "range":
        sys.stdout.buffer.write(range_lines(options.low, options.high))
        return 0
    if options.command != "merge":
        options.inputs = [options.input]
    _expect_other_files(options)
    if options.command == "show":
        _show(options)
    elif options.command in ("survey", "extract"):
        _write_members(options)
    else:
        _convert(options)
    return 0


if __name__ == "__main__":
    sys.exit(main())
