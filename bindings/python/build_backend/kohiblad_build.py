"""Builds the packages of kohiblad by the standard library alone (PEP 517 and PEP 660).

The wheel has the shared library inside if it is found: below PREFIX, if that is set, or else by
pkg-config. Without it the package loads the system's. If there is a C compiler with Python's
headers, the wheel also has the extension module of src/native, and is for this version of Python. A
wheel with the library alone is for this platform, and one with neither for all. An editable wheel
leads to src, where the library is linked and the module compiled. The source distribution has what
these builds read. With KOHIBLAD_NATIVE=0 no module is compiled, and with KOHIBLAD_NATIVE=1 it is an
error if it cannot be. To build without pip:

    python3 build_backend/kohiblad_build.py FOLDER              # the wheel
    python3 build_backend/kohiblad_build.py --sdist FOLDER      # the source distribution
    python3 build_backend/kohiblad_build.py --extension FOLDER  # the extension module alone
"""
import base64
import gzip
import hashlib
import io
import os
import re
import shlex
import subprocess
import sys
import sysconfig
import tarfile
import tempfile
import zipfile

TOP = os.path.dirname(os.path.dirname(os.path.abspath(__file__)))
SOURCE = os.path.join(TOP, "src")
NATIVE = os.path.join(SOURCE, "native")
LIBRARY = "libkohiblad.so.0.9"
HEADER = "kohiblad.h"
# Another that is beside it.
STACK_HEADER = "kohiblad_stack.h"
# The extension module for this Python.
EXTENSION = f"_native{sysconfig.get_config_var('EXT_SUFFIX')}"
# What a source distribution has beside the package and its metadata.
OTHERS = ("LICENSE", "README.md", "build_backend/kohiblad_build.py", "pyproject.toml")
# A fixed time, so that the same files make the same package: the beginning of 2020.
DATE, SECONDS = (2020, 1, 1, 0, 0, 0), 1577836800


def build_wheel(wheel_directory, config_settings=None, metadata_directory=None):
    """Writes the wheel to a folder and returns its file name."""
    files, library = package_files(), find_library()
    if library:
        files[f"kohiblad/{LIBRARY}"] = read(library)
    with tempfile.TemporaryDirectory() as folder:
        extension = build_extension(folder)
        if extension:
            files[f"kohiblad/{EXTENSION}"] = read(os.path.join(folder, extension))
    platform = re.sub(r"\W", "_", sysconfig.get_platform())
    if extension:
        python = f"cp{sys.version_info.major}{sys.version_info.minor}"
        flags = sysconfig.get_config_var("SOABI").split("-")[1].lstrip("0123456789")
        return write_wheel(wheel_directory, files, f"{python}-{python}{flags}-{platform}")
    return write_wheel(wheel_directory, files, f"py3-none-{platform if library else 'any'}")


def build_editable(wheel_directory, config_settings=None, metadata_directory=None):
    """Writes a wheel that leads to the package in this folder, and returns its file name."""
    link_library(find_library())
    package = os.path.join(SOURCE, "kohiblad")
    if os.path.exists(os.path.join(package, EXTENSION)):
        os.remove(os.path.join(package, EXTENSION))
    build_extension(package)
    files = {"kohiblad.pth": os.fsencode(SOURCE) + b"\n"}
    return write_wheel(wheel_directory, files, "py3-none-any")


def build_sdist(sdist_directory, config_settings=None):
    """Writes the source distribution to a folder and returns its file name."""
    files = {f"src/{path}": content for path, content in package_files().items()}
    files.update((path, read(os.path.join(TOP, path))) for path in OTHERS)
    files.update((f"src/native/{name}", read(os.path.join(NATIVE, name)))
                 for name in os.listdir(NATIVE))
    header = find_header()
    if header:
        files[HEADER] = read(header)
        files[STACK_HEADER] = read(os.path.join(os.path.dirname(header), STACK_HEADER))
    files["PKG-INFO"] = metadata()
    name = f"kohiblad-{version()}"
    with open(os.path.join(sdist_directory, f"{name}.tar.gz"), "wb") as file, \
            gzip.GzipFile("", "wb", fileobj=file, mtime=SECONDS) as packed, \
            tarfile.open(fileobj=packed, mode="w", format=tarfile.PAX_FORMAT) as archive:
        for path, content in sorted(files.items()):
            entry = tarfile.TarInfo(f"{name}/{path}")
            entry.size, entry.mtime = len(content), SECONDS
            archive.addfile(entry, io.BytesIO(content))
    return f"{name}.tar.gz"


def get_requires_for_build_wheel(config_settings=None):
    """No package is needed."""
    return []


get_requires_for_build_editable = get_requires_for_build_sdist = get_requires_for_build_wheel


def package_files():
    """The files of the package, by their paths in a wheel."""
    names = sorted(os.listdir(os.path.join(SOURCE, "kohiblad")))
    return {f"kohiblad/{name}": read(os.path.join(SOURCE, "kohiblad", name))
            for name in names if name.endswith((".html", ".py", ".pyi", ".typed"))}


def build_extension(folder):
    """Compiles the extension module into a folder and returns its file name.

    None if it cannot be compiled, which is told on standard error, or is not to be.
    """
    wish = os.environ.get("KOHIBLAD_NATIVE")
    if wish == "0":
        return None
    try:
        compile_extension(os.path.join(os.path.abspath(folder), EXTENSION))
    except (OSError, subprocess.CalledProcessError) as error:
        if wish == "1":
            raise
        print(f"kohiblad: built without its extension module: {error}", file=sys.stderr)
        return None
    return EXTENSION


def compile_extension(path):
    """Compiles the extension module. OSError, CalledProcessError: something is missing."""
    if sys.implementation.name != "cpython" or sysconfig.get_config_var("Py_GIL_DISABLED"):
        raise OSError("it is for CPython, with its lock")
    header, paths = find_header(), sysconfig.get_paths()
    if not header:
        raise FileNotFoundError(f"there is no {HEADER}")
    if not os.path.exists(os.path.join(paths["include"], "Python.h")):
        raise FileNotFoundError(f"there is no {paths['include']}/Python.h")
    compiler = os.environ.get("CC") or sysconfig.get_config_var("CC") or "cc"
    folders = (paths["include"], paths["platinclude"], os.path.dirname(os.path.abspath(header)))
    sources = sorted(name for name in os.listdir(NATIVE) if name.endswith(".c"))
    # The files are named without their folder, so that each folder gives the same module.
    subprocess.run([*shlex.split(compiler), "-std=gnu11", "-O2", "-fPIC", "-fvisibility=hidden",
                    *shlex.split(os.environ.get("CFLAGS", "")),
                    f'-DPACKAGE_VERSION="{version()}"', *(f"-I{folder}" for folder in folders),
                    "-shared", "-s", *sources, "-o", path,
                    *shlex.split(os.environ.get("LDFLAGS", ""))], cwd=NATIVE, check=True)


def write_wheel(folder, files, tag):
    """Writes a wheel of files, with what describes them, and returns its file name."""
    info = f"kohiblad-{version()}.dist-info"
    files[f"{info}/licenses/LICENSE"] = read(os.path.join(TOP, "LICENSE"))
    files[f"{info}/METADATA"] = metadata()
    files[f"{info}/WHEEL"] = (f"Wheel-Version: 1.0\nGenerator: kohiblad_build\n"
                              f"Root-Is-Purelib: {'true' if tag.endswith('-any') else 'false'}\n"
                              f"Tag: {tag}\n").encode()
    files[f"{info}/entry_points.txt"] = entry_points()
    files[f"{info}/RECORD"] = record(files, f"{info}/RECORD")
    name = f"kohiblad-{version()}-{tag}.whl"
    with zipfile.ZipFile(os.path.join(folder, name), "w") as wheel:
        for path, content in files.items():
            entry = zipfile.ZipInfo(path, DATE)
            is_code = path.endswith((LIBRARY, EXTENSION))
            entry.external_attr = (0o100755 if is_code else 0o100644) << 16
            wheel.writestr(entry, content, zipfile.ZIP_DEFLATED)
    return name


def find_library():
    """The path of the shared library below PREFIX or by pkg-config, or None.

    FileNotFoundError: PREFIX is set and has none.
    """
    prefix = os.environ.get("PREFIX")
    if prefix:
        path = os.path.join(os.path.abspath(prefix), "lib", LIBRARY)
        if not os.path.exists(path):
            raise FileNotFoundError(f"PREFIX has no {path}")
        return path
    return installed_path("libdir", LIBRARY)


def find_header():
    """The path of the header, of these sources or else of the library, or None."""
    prefix = os.environ.get("PREFIX")
    for folder in (TOP, os.path.dirname(TOP), prefix and os.path.join(prefix, "include")):
        if folder and os.path.exists(os.path.join(folder, HEADER)):
            return os.path.join(folder, HEADER)
    return installed_path("includedir", HEADER)


def installed_path(variable, name):
    """The path of a file in a folder that pkg-config has, or None."""
    try:
        folder = subprocess.check_output(["pkg-config", f"--variable={variable}", "kohiblad"],
                                         stderr=subprocess.DEVNULL, text=True).strip()
    except (OSError, subprocess.CalledProcessError):
        return None
    path = os.path.join(folder, name)
    return path if os.path.exists(path) else None


def link_library(library):
    """Links the library beside the package in src, in place of an earlier link."""
    link = os.path.join(SOURCE, "kohiblad", LIBRARY)
    if os.path.islink(link):
        os.remove(link)
    if library:
        os.symlink(library, link)


def version():
    """The version, as the package has it."""
    text = read(os.path.join(SOURCE, "kohiblad", "__init__.py")).decode()
    return re.search('__version__ = "(.+)"', text).group(1)


def metadata():
    """The METADATA and PKG-INFO file: the fields of pyproject.toml, and README."""
    project = read(os.path.join(TOP, "pyproject.toml")).decode()
    fields = {"Metadata-Version": "2.4", "Name": "kohiblad", "Version": version(),
              "Summary": re.search(r'^description = "(.+)"', project, re.M).group(1),
              "Requires-Python": re.search(r'^requires-python = "(.+)"', project, re.M).group(1),
              "License-Expression": re.search(r'^license = "(.+)"', project, re.M).group(1),
              "License-File": "LICENSE",
              "Description-Content-Type": "text/markdown"}
    lines = "".join(f"{name}: {value}\n" for name, value in fields.items())
    return lines.encode() + b"\n" + read(os.path.join(TOP, "README.md"))


def entry_points():
    """The entry_points.txt file: the scripts of pyproject.toml."""
    project = read(os.path.join(TOP, "pyproject.toml")).decode()
    listed = re.search(r"^\[project\.scripts\]\n((?:.+\n)*)", project, re.M).group(1)
    return f"[console_scripts]\n{listed}".replace('"', "").encode()


def record(files, record_path):
    """The RECORD file: each path with its digest and size."""
    lines = []
    for path, content in files.items():
        digest = base64.urlsafe_b64encode(hashlib.sha256(content).digest()).rstrip(b"=").decode()
        lines.append(f"{path},sha256={digest},{len(content)}\n")
    return "".join(lines + [f"{record_path},,\n"]).encode()


def read(path):
    with open(path, "rb") as file:
        return file.read()


if __name__ == "__main__":
    builds = {"--sdist": build_sdist, "--extension": build_extension}
    print(builds.get(sys.argv[1], build_wheel)(sys.argv[-1]))
