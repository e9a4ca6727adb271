#!/usr/bin/env python3
"""Compares what a program answers on texts of other parsers' test suites with Python's json.

    tests/peers/run.py PROGRAM [FOLDER]

PROGRAM is a built jsonb_cli. The texts come from Debian's source packages, which are downloaded
into FOLDER, or into a scratch folder that is removed at the end; those that are there already are
not downloaded again. A package that cannot be had is named and passed over.

A text is expected to become a document exactly if Python's json takes it, without an exponent, a
lone surrogate or NaN and Infinity, and with numbers that the format holds: 128 bits, and at most
255 digits after the point. The document's text is then read by Python and compared, with the last
of equal keys, and numbers digit for digit.

The last line is `N texts of M packages, K differ`, and the status is 1 unless K is 0.
"""
import glob
import json
import os
import re
import shutil
import subprocess
import sys
import tarfile
import tempfile

# Of each package: where its texts are.
PACKAGES = {
    "jansson": ["test/suites/*/*/input"],
    "cjson": ["tests/inputs/*", "**/*.json"],
    "yajl": ["**/*.json"],
    "json-c": ["**/*.json"],
    "rapidjson": ["**/*.json"],
    "nlohmann-json3": ["**/*.json"],
    "simdjson": ["**/*.json"],
    "libjson-xs-perl": ["**/*.json"],
    "sqlite3": ["test/json1*.test"],
}
# Texts in the tests of SQLite: strings of SQL that begin as arrays, objects or strings do.
QUOTED = re.compile(r"'(\s*[\[{\"](?:[^'\\]|'')*)'")
LONGEST = 4_000_000


def versions(name, options):
    """The versions of a source package in the lists: the newest may be gone from a mirror."""
    shown = subprocess.run(
        ["apt-cache", *options, "showsrc", name], check=False, capture_output=True, text=True)
    return [f"{name}={it}" for it in re.findall(r"(?m)^Version: (\S+)", shown.stdout)]


def download(name, folder):
    """The archives of a source package, downloaded unless they are there."""
    found = glob.glob(f"{folder}/{name}_*.orig.tar.*") + glob.glob(f"{folder}/{name}_*.tar.*")
    archives = [it for it in found if not it.endswith(".asc") and ".debian." not in it]
    if archives:
        return archives[:1]
    lists = f"{folder}/apt"
    os.makedirs(f"{lists}/lists/partial", exist_ok=True)
    options = [
        "-o", f"Dir::Etc::SourceList={lists}/none", "-o", f"Dir::Etc::SourceParts={lists}/parts",
        "-o", f"Dir::State::Lists={lists}/lists", "-o", "APT::Sandbox::User=root",
    ]
    if not os.path.isdir(f"{lists}/parts"):
        os.makedirs(f"{lists}/parts")
        for path in glob.glob("/etc/apt/sources.list") + glob.glob("/etc/apt/sources.list.d/debian*"):
            with open(path, encoding="utf-8") as file:
                text = re.sub(r"(?m)^(Types: )?deb$", r"\1deb-src", file.read())
            text = re.sub(r"(?m)^deb ", "deb-src ", text)
            with open(f"{lists}/parts/{os.path.basename(path)}", "w", encoding="utf-8") as file:
                file.write(text)
        subprocess.run(["apt-get", *options, "-qq", "update"], check=False, capture_output=True)
    for package in [name, *versions(name, options)]:
        subprocess.run(
            ["apt-get", *options, "-qq", "source", "--download-only", package],
            check=False, capture_output=True, cwd=folder,
        )
        found = glob.glob(f"{folder}/{name}_*.tar.*")
        archives = [it for it in found if not it.endswith(".asc") and ".debian." not in it]
        if archives:
            return archives[:1]
    return []


def texts_of(name, folder):
    """The texts of a package, as pairs of a name and bytes; `None` if it cannot be had."""
    texts = []
    for archive in download(name, folder):
        target = f"{folder}/{name}.d"
        if not os.path.isdir(target):
            with tarfile.open(archive) as tar:
                tar.extractall(target, filter="data") if hasattr(tarfile, "data_filter") \
                    else tar.extractall(target)
        for top in glob.glob(f"{target}/*"):
            for pattern in PACKAGES[name]:
                for path in sorted(glob.glob(f"{top}/{pattern}", recursive=True)):
                    if not os.path.isfile(path) or os.path.getsize(path) > LONGEST:
                        continue
                    with open(path, "rb") as file:
                        data = file.read()
                    label = f"{name}: {os.path.relpath(path, top)}"
                    if path.endswith(".test"):
                        quoted = QUOTED.findall(data.decode("utf-8", "replace"))
                        for number, text in enumerate(dict.fromkeys(quoted)):
                            texts.append((f"{label} {number}", text.replace("''", "'").encode()))
                    else:
                        texts.append((label, data))
        return texts
    return None


class Refused(Exception):
    """The format does not hold the text."""


def number(digits):
    """A number as its scale and digits."""
    if "e" in digits or "E" in digits:
        raise Refused
    whole, _, fraction = digits.partition(".")
    value = int(whole + fraction)
    if len(fraction) > 255 or not -(1 << 127) <= value < (1 << 127):
        raise Refused
    if not fraction and value == 0:
        return ("number", 0, 0)
    return ("number", len(fraction), value)


def refuse(_):
    raise Refused


def value_of(data):
    """What Python reads of a text, `None` if the format does not hold it."""
    try:
        text = data.decode("utf-8")
        value = json.loads(text, parse_int=number, parse_float=number, parse_constant=refuse)
        json.dumps(value, ensure_ascii=False).encode("utf-8")
        return (value,)
    except (ValueError, Refused, UnicodeError):
        return None
    except RecursionError:
        # Python's reader goes no deeper; an array that is not closed is no JSON.
        return None if data.count(b"[") != data.count(b"]") else ()


def on_one_line(data):
    """The text without line feeds: blanks outside strings, another control character in them."""
    out, inside, escaped = bytearray(), False, False
    for byte in data:
        if byte == 10:
            byte = 1 if inside else 32
        if inside:
            inside = escaped or byte != 34
            escaped = byte == 92 and not escaped
        elif byte == 34:
            inside, escaped = True, False
        out.append(byte)
    return bytes(out)


def ask(program, lines):
    """The answers of the program to these lines."""
    ran = subprocess.run([program], input=b"".join(it + b"\n" for it in lines), capture_output=True)
    if ran.returncode:
        print(f"{program} ended with the status {ran.returncode}")
    return ran.stdout.split(b"\n")[:-1]


def main():
    if len(sys.argv) not in (2, 3):
        sys.exit(__doc__)
    folder = sys.argv[2] if len(sys.argv) == 3 else tempfile.mkdtemp()
    program = os.path.abspath(sys.argv[1])
    sys.setrecursionlimit(20000)
    os.makedirs(folder, exist_ok=True)
    folder = os.path.abspath(folder)
    texts, packages = [], 0
    for name in PACKAGES:
        found = texts_of(name, folder)
        if found is None:
            print(f"passed over: {name}")
        else:
            packages += 1
            texts += found
    encoded = ask(program, [b"enc " + on_one_line(data) for _, data in texts])
    encoded += [b"no answer"] * (len(texts) - len(encoded))
    words = [it[3:] if it.startswith(b"ok ") else None for it in encoded]
    decoded = iter(ask(program, [b"dec " + word for word in words if word is not None]))
    differ = 0
    for (label, data), answer, word in zip(texts, encoded, words):
        expected = value_of(data)
        if word is None:
            same = answer.startswith(b"error Invalid") and not expected
        else:
            printed = next(decoded, b"no answer")
            same = printed.startswith(b"ok ") and expected is not None
            same = same and expected in ((), value_of(printed[3:]))
        if not same:
            differ += 1
            print(f"differs: {label}: {answer[:60].decode('utf-8', 'replace')}")
    if len(sys.argv) == 2:
        shutil.rmtree(folder)
    print(f"{len(texts)} texts of {packages} packages, {differ} differ")
    return differ > 0


if __name__ == "__main__":
    sys.exit(main())
