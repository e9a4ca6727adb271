"""Compares the paths and file names of all pages with the tree.

It takes each page (`*.md`) and bindings/kohiblad.h. Each relative link must lead to a file, and its
anchor to a heading of that page. Each path that a page names, and each name of a file by its
extension, must be in the tree: `jsonb/text.rt` is crates/jsonb/src/text.rt, and a path may begin
below the top, as `specs/Doc.antt` does. CRATE, FILE, NAME, PATH and PROGRAM match any name. After
`CRATE/specs/FILE.antt` and a colon each name in backticks must be defined in that file, and a
function on a line before `CRATE/FILE.rt` must be one of that file. tools/README.md must name each
file of tools.
"""
import os
import re

from rattle import TOP, function_in, specs_at, text_of

PARTS = ("crates", "docs", "tools", "bench", "bindings", "tests", ".ci", "src", "specs", "proofs",
         "wrong", "must-fail")
KINDS = r"\.(?:rt|antt|py|sh|md|rs|svg|edit|h|in|toml|txt)"
PATH = re.compile(r"(?<![\w./*-])(?:\.ci|[\w*-]+)(?:/[\w.*+-]*[\w*+-])+/?"
                  rf"|(?<![\w./*-])[\w-]+(?:\.rt)?{KINDS}\b(?![(/]|\.\w)")
ANY = r"^(?:CRATE|FILE|NAME|PATH|PROGRAM)\b"
# What a reader of the pages writes.
READERS = {"caller", "program"}
LINK = re.compile(r"\]\((?!\w+:)([^)#\s]*)(?:#([^)\s]+))?\)")
DEFINED = re.compile(r"`((?:\w+/specs/)?[\w/]+\.antt)`: (`[^`]+`(?:, `[^`]+`)*)")
CALLED = re.compile(r"((?:\w+::)?\w+)(?: of [a-z ]*[a-z]| \.\.)? {2,}((?:\w+/)+\w+\.rt)")


def paths_in(folder):
    """All files and folders of the tree, without what builds leave."""
    found = set()
    for at, folders, files in os.walk(folder):
        folders[:] = [it for it in folders if it not in (".git", "out", "__pycache__")]
        found |= {os.path.relpath(os.path.join(at, it), folder) for it in folders + files}
    return found


def places_of(path, tree, crates):
    """The places of the tree that a path on a page can mean."""
    words = [re.sub(ANY, "*", word) for word in path.strip("/").split("/")]
    if "out" in words:
        words = words[:words.index("out")]
    if words[0] in crates:
        words = ["crates"] + words
        if len(words) > 2 and words[2] not in PARTS and words[-1].endswith(".rt"):
            words.insert(2, "src")
    wanted = re.escape("/".join(words)).replace(r"\*", "[^/]*")
    wanted = re.compile(rf"(?:.*/)?{wanted}(?:\.antt)?$")
    return sorted(it for it in tree if wanted.match(it))


def anchors_of(page):
    """The anchors of a page's headings."""
    text = re.sub(r"^```.*?^```", "", text_of(page), flags=re.M | re.S)
    heads = re.findall(r"^#+ (.*)$", text, re.M)
    return {re.sub(r"[^\w -]", "", head.lower()).replace(" ", "-") for head in heads}


def faults_of_links(page, text):
    for path, anchor in LINK.findall(text):
        target = os.path.normpath(os.path.join(os.path.dirname(page), path)) if path else page
        if not os.path.exists(target):
            yield f"the link {path} leads nowhere"
        elif anchor and anchor not in anchors_of(target):
            yield f"the link {path}#{anchor} leads to no heading"


def faults_of_paths(text, tree, crates):
    for path in sorted(set(PATH.findall(text))):
        words = path.split("/")
        is_file = re.search(rf"{KINDS}$", path)
        is_named = words[0] in PARTS or words[0] in crates and len(words) > 1
        is_readers = any(word.split(".")[0] in READERS for word in words)
        if (is_file or is_named) and not is_readers and not places_of(path, tree, crates):
            yield f"{path} is not in the tree"


def faults_of_names(text, tree, crates):
    flat = re.sub(r"\s+", " ", text)
    for path, listed in DEFINED.findall(flat):
        places = [it for it in places_of(path, tree, crates) if "/specs/" in it]
        defined = set().union(*(specs_at(it).defined for it in places))
        for name in re.findall(r"`([^`\s]+)[^`]*`", listed):
            if places and name not in defined:
                yield f"{path} has no {name}"
    for call, path in CALLED.findall(text):
        for it in places_of(path, tree, crates):
            if not function_in(f"{TOP}/{it}", call):
                yield f"{path} has no function {call}"


def faults_of_tools(tree):
    """The files of tools that its page does not name."""
    page = text_of(f"{TOP}/tools/README.md")
    for path in sorted(tree):
        name = path.removeprefix("tools/")
        is_file = name != path and os.path.isfile(f"{TOP}/{path}")
        if is_file and name != "README.md" and f"`{name}`" not in page:
            yield f"tools/README.md does not name {name}"


def compare(_):
    """The faults, and how many pages were compared."""
    tree = paths_in(TOP)
    crates = set(os.listdir(f"{TOP}/crates"))
    pages = [it for it in tree if it.endswith(".md")] + ["bindings/kohiblad.h"]
    found = list(faults_of_tools(tree))
    for page in sorted(pages):
        text = text_of(f"{TOP}/{page}")
        faults = list(faults_of_links(f"{TOP}/{page}", text))
        shown = re.sub(r"\]\([^)]*\)|\w+://\S+|^#include <.*", "", text, flags=re.M)
        faults += faults_of_paths(shown, tree, crates)
        faults += faults_of_names(shown, tree, crates)
        found += [f"{page}: {fault}" for fault in faults]
    return found, f"paths and names of {len(pages)} pages"
