"""Files that are written beside those whose place they take when all is there."""
import contextlib
import os
import stat
from typing import IO, Any, Iterator, Optional, Union

Path = Union[str, bytes, "os.PathLike[Any]"]
File = Union[Path, IO[bytes]]

_OWN_MODE, _USUAL_MODE = 0o600, 0o666
_ENDING = b".part"


@contextlib.contextmanager
def target_of(file: File) -> Iterator[IO[bytes]]:
    """The file that is written to; at a path a new one, which takes its place at the end.

    The new one has a random name, which no file had, and is its owner's alone until it is whole.
    Then it gets the mode of the file that it replaces, or that of any new file. Its bytes are on
    the device before it takes the place, and the place is before this ends. After an error it is
    gone. What is no regular file, as a device, is written as it is.
    """
    if not isinstance(file, (str, bytes, os.PathLike)):
        yield file
        return
    path = os.path.realpath(os.fsdecode(file))
    if os.path.exists(path) and not os.path.isfile(path):
        with open(path, "wb") as device:
            yield device
        return
    folder, name = os.path.split(path)
    with _opened_folder(folder) as at:
        part = _part_name(os.fsencode(name), os.pathconf(folder, "PC_NAME_MAX"))
        is_own = True
        try:
            try:
                target = _opened_part(part, at)
            except OSError as error:
                is_own, error.filename = False, path
                raise
            with target:
                yield target
                target.flush()
                os.fchmod(target.fileno(), _mode_for(name, at))
                os.fsync(target.fileno())
            os.replace(part, name, src_dir_fd=at, dst_dir_fd=at)
        except BaseException:
            if is_own:
                with contextlib.suppress(FileNotFoundError):
                    os.remove(part, dir_fd=at)
            raise
        _sync_folder(at)


@contextlib.contextmanager
def _opened_folder(folder: str) -> Iterator[int]:
    """A folder, so that names in it are as long as they may be."""
    at = os.open(folder, os.O_PATH | os.O_DIRECTORY)
    try:
        yield at
    finally:
        os.close(at)


def _part_name(name: bytes, most: int) -> bytes:
    """A name that hardly any file has: a point, the beginning of this name, 16 digits, `.part`."""
    ending = b"." + os.urandom(8).hex().encode() + _ENDING
    size = min(len(name), most - len(ending) - 1)
    # No character of UTF-8 is cut.
    while size and size < len(name) and 0x80 <= name[size] < 0xC0:
        size -= 1
    return b"." + name[:size] + ending


def _opened_part(part: bytes, at: int) -> IO[bytes]:
    """A file that was not there before, which its owner alone may open. OSError: it cannot be."""
    return open(part, "xb", opener=lambda name, flags: os.open(name, flags, _OWN_MODE, dir_fd=at))


def _mode_for(name: str, at: int) -> int:
    """The mode of the file of a name, or that of any new one."""
    try:
        return stat.S_IMODE(os.stat(name, dir_fd=at).st_mode)
    except FileNotFoundError:
        return _USUAL_MODE & ~_umask()


def _umask() -> int:
    """What new files may not have. Linux tells it; to ask Python for it is to change it."""
    told = _told_umask()
    if told is not None:
        return told
    mask = os.umask(0o077)
    os.umask(mask)
    return mask


def _told_umask() -> Optional[int]:
    with contextlib.suppress(OSError), open("/proc/self/status", encoding="ascii") as status:
        for line in status:
            name, _, value = line.partition(":")
            if name == "Umask":
                return int(value, 8)
    return None


def _sync_folder(at: int) -> None:
    """Puts the names of a folder on the device, unless it may not be read."""
    try:
        folder = os.open(".", os.O_RDONLY | os.O_DIRECTORY, dir_fd=at)
    except PermissionError:
        return
    try:
        os.fsync(folder)
    finally:
        os.close(folder)
