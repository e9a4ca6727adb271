"""The program ``kohiblad`` for the shell, to which commands go that this package does not have."""
import os
import sys
from typing import List, Optional

from ._errors import printable

NAME = "kohiblad"
_MAGIC = b"\x7fELF"


def find_program() -> Optional[str]:
    """Where the program is on PATH, or None. This package installs a script of the same name, so
    that scripts are passed over."""
    places = (os.path.join(folder, NAME) for folder in os.get_exec_path())
    return next((it for it in places if _is_program(it)), None)


def _is_program(path: str) -> bool:
    if not os.access(path, os.X_OK):
        return False
    try:
        with open(path, "rb") as file:
            return file.read(len(_MAGIC)) == _MAGIC
    except OSError:
        return False


def hand_over(words: List[str], what: str) -> int:
    """Runs the program in place of this process, with these arguments. Returns the status where
    there is none; `what` is the thing that only the program has. OSError: it cannot be run."""
    path = find_program()
    if path is not None:
        sys.stdout.flush()
        try:
            os.execv(path, [NAME, *words])
        except OSError as error:
            raise OSError(error.errno, error.strerror, path) from None
    print(f"{NAME}: {printable(what)} is for the program {NAME}, which is not on PATH: install "
          f"Debian's package {NAME}, or put bin/{NAME} of a release there", file=sys.stderr)
    return 2
