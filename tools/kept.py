"""What runs on this machine saw or built, kept by the sum of all that it rests on, in
$XDG_CACHE_HOME/kohiblad or ~/.cache/kohiblad: a wrong body that was refused, and the archive of the
library for C. Without that folder nothing is kept, and nothing else changes."""
import hashlib
import os
import shutil

from provers import rt, rtlib
from rattle import text_of

FOLDER = os.environ.get("XDG_CACHE_HOME") or os.path.expanduser("~/.cache")
FOLDER = f"{FOLDER}/kohiblad"
# How many archives of the library for C stay.
ARCHIVES = 4
# What all sums rest on.
KIT = text_of(f"{rtlib.KIT}/KIT-ID")


def sum_of(*parts):
    """The sum of texts; their lengths tell where each begins."""
    made = hashlib.sha256()
    for it in parts:
        text = it.encode(errors="surrogateescape")
        made.update(b"%d:" % len(text) + text)
    return made.hexdigest()


def sum_of_crate(crate):
    """The sum of the kit, of a crate's files and of those of the libraries below it, and of what each
    of them names."""
    parts = [KIT]
    for it in [crate, *sorted(crate.below(), key=lambda below: below.name)]:
        parts.append(repr(it.said))
        for path in sorted(rtlib.files_of(it.folder)):
            parts += [os.path.relpath(path, it.folder), text_of(path)]
    return sum_of(crate.name, *parts)


def has(name):
    return os.path.exists(f"{FOLDER}/{name}")


def keep(name, path=os.devnull):
    """Keeps a file by its sum, if the folder can be written. Another run may do so at once."""
    try:
        os.makedirs(FOLDER, 0o700, exist_ok=True)
        shutil.copyfile(path, f"{FOLDER}/{name}.{os.getpid()}")
        os.replace(f"{FOLDER}/{name}.{os.getpid()}", f"{FOLDER}/{name}")
    except OSError:
        pass


def archive_of(crate):
    """The name by which the archive is kept that is built of these very files."""
    return f"archive-{sum_of_crate(crate)}.a"


def keep_archive(crate, path):
    """Keeps an archive, and removes the oldest of those that are kept."""
    keep(archive_of(crate), path)
    if os.path.isdir(FOLDER):
        found = [f"{FOLDER}/{it}" for it in os.listdir(FOLDER) if it.startswith("archive-")]
        for it in sorted(found, key=os.path.getmtime)[:-ARCHIVES]:
            os.remove(it)


def proofs_are_kept():
    """Whether the kit's own `rt ci` keeps what it proves. Some kits have no such store."""
    return hasattr(rt, "Kept") and rt.Kept([]).at is not None
