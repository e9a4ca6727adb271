"""Lists the definitions that a reader of the public contracts must believe, in reading order:
compares docs/DEFINITIONS.md with the list, or writes that page.

Public are the functions and the methods of the types that the roots of the crates export, and their
trait impls; the functions of the programs and their loop that ASKED names, with the rule by which a
program answers; and the exports for C. Their clauses cite definitions of `specs/`, and these cite
others: all of them must be believed. All else in `specs/` is cited by the contracts of inner
functions alone, and counts as a helper: a mistake in it can make a proof fail, and no public
contract say less. A name that a file passes on by `pub use`, as `Words` does, is a name of the file
that defines it, and a file that only passes names on is not listed. What the examples of a crate
show stands beside the definitions, and each definition of the first promise has some.
"""
import os
import re
import textwrap

from examples import FILES, block, examples_of, uncited
from rattle import (PROGRAMS, TOP, cited, exported, facts_of, files_of, functions_of, imports_of,
                    specs_of, text_of)

CRATES = [
    "jsonb_value", "json_fault", "jsonb_codec", "jsonb", "jsonb_comparable", "jsonb_functions",
    "jsonb_rows", "jsonb_pattern", "jsonb_path", "text_lookup", "array_items", "kept_rows", "uses",
    "typed_vector", "jsonb_typed", "answer_lines", "jsonb_cli", "jsonb_typed_file",
    "kohiblad_shell", "kohiblad",
]
# The functions of programs that count as public.
ASKED = {"run", "answer", "answer_lines", "ask"}
PAGE = f"{TOP}/docs/DEFINITIONS.md"
HEAD = """# What must be believed

The proofs are checked, so nobody has to read them. A reader has to believe that the definitions say
what this page says of them. The page begins with the promise that all others build on, and then has
for each promise what its clauses reach: the definitions that they cite, and those that these cite,
through all crates. All other words in them are the library's (`List`, `≡`, `All` ..), or types and
constants that the code declares (`Number` ..). At the end are all definitions by notion and by
file. `tools/pages --write` makes this page of the code.

Below definitions are examples of them, which are proved with the crates: bytes and what they mean,
two values and their order, a text and its value, a path and what it selects. So a definition that
said something else would fail there. `hex` is the bytes that hexadecimal digits spell, and `codes`
those of a text; `neg n` is -n; `whole n`, `string s`, `items` and `members` are the trees of an
unsigned integer, a string, an array and an object; `scaled v s` and `wide v s` are decimals of 64
and of 128 bits; and `P → ⊥` says that P does not hold.

"""
IN_WORDS = """In words: if the bytes b are a document of the tree t and a document of the tree u,
then t and u are the same tree."""
BEYOND = """## Each promise

How many definitions the clauses of each promise reach, in how many files and lines. New lines are
those that no promise above it reaches, so who reads from the top reads nothing twice. That every
call returns needs no definition: the prover requires it of each function.

| promise | definitions | files | lines | new lines |
|---|---|---|---|---|
"""
CARRIED = """
After each promise come the clauses that carry it, the definitions that they cite themselves, which
is where to begin, and how many lines of which files they reach beyond those of the headline.

"""
SHOWN = """## Examples

Of the definitions beyond those of the first promise, by the file that defines what they show.

"""
EVERY = """## Every file

The number after a file of `specs/` is how many of its lines must be believed, without comments,
imports and empty lines; the number after a `+` is how many lines of helpers it has, which are
definitions that no public contract cites. Each file cites only those above it.

"""


def public_contracts(crate):
    """The clauses of the public functions of a crate, each with the imports of its file."""
    public = exported().get(crate, set())
    is_program = crate in PROGRAMS
    for path in files_of(crate):
        text = text_of(path)
        imports = imports_of(text)
        is_module = os.path.basename(path)[:-3] in public
        for it in functions_of(path):
            is_asked = it.is_export or is_program and it.name in ASKED
            is_free = it.is_public and (is_module or not it.owner and it.name in public)
            is_method = it.owner and it.owner.name in public and not it.owner.is_trait \
                and (it.is_public or it.owner.trait)
            if is_asked or is_free or is_method:
                yield "\n".join(it.contract), imports
        for kind, facts in facts_of(text).items():
            if kind not in public:
                # By which rule a program answers is a fact of a type of its own.
                facts = [it for it in facts if is_program and it.split()[1] == "rule"]
            yield "\n".join(facts), imports


def believed(files):
    """The paragraphs that the public contracts cite, through all that these cite themselves."""
    return reached(files, set().union(*(
        cited(contract, names, aliases)
        for crate in CRATES for contract, (names, aliases) in public_contracts(crate)
    )))


def reached(files, wanted):
    """The paragraphs that define these names, and those that these cite themselves."""
    seen, parts, wanted = set(), set(), set(wanted)
    while wanted:
        where, name = wanted.pop()
        if (where, name) in seen or where not in files or name not in files[where].defined:
            continue
        seen.add((where, name))
        part = files[where].defined[name]
        if (where, part) not in parts:
            parts.add((where, part))
            wanted |= files[where].cited(files[where].parts[part])
    return parts


class Promise:
    """A promise, the clauses that carry it, and the definitions that these reach."""

    def __init__(self, files, sentence, lines):
        self.sentence, self.carried, self.wanted, self.clauses = sentence, [], set(), []
        for line in lines:
            crate, call, *names = line.split()
            if call == "exports":
                self.add_exports(crate)
                continue
            path, found = self.clauses_of(crate, call)
            found = [it for it in found if it[0] in names or not names]
            if not found or len({name for name, _ in found}) < len(set(names)):
                raise LookupError(f"tools/data/promises: {line.strip()}")
            self.carried.append((crate, call, [name for name, _ in found]))
            self.clauses += [code for _, code in found]
            imports = imports_of(text_of(path))
            for _, code in found:
                self.wanted |= cited("\n".join(code), *imports)
        self.parts = reached(files, self.wanted)

    def add_exports(self, crate):
        """Adds the clauses of all exports of a crate."""
        count = 0
        for path in files_of(crate):
            imports = imports_of(text_of(path))
            for it in functions_of(path):
                if it.is_export:
                    count += 1
                    code = [line for kind, _, lines in it.clauses if kind == "ensures"
                            for line in lines]
                    self.wanted |= cited("\n".join(code), *imports)
        self.carried.append((crate, f"each of the {count} exports", []))

    @staticmethod
    def clauses_of(crate, call):
        """What a call ensures, or the facts of a type: each with its name; and their file."""
        for path in files_of(crate):
            for it in functions_of(path):
                if it.title == call and it.names_of("ensures"):
                    return path, [(name, code) for kind, name, code in it.clauses
                                  if kind == "ensures"]
            if facts := facts_of(text_of(path)).get(call):
                return path, [(it.split()[1], [it]) for it in facts]
        raise LookupError(f"tools/data/promises: {crate} has no {call} with clauses")


def promises(files):
    """The promises of tools/data/promises."""
    text = re.sub(r"^#.*\n", "", text_of(f"{TOP}/tools/data/promises"), flags=re.M)
    return [Promise(files, it[1], it[2].strip("\n").split("\n"))
            for it in re.finditer(r"^(\S.*)\n((?: +.*\n)+)", text, re.M)]


def in_order(files):
    """The files, each after those that it imports."""
    placed = []

    def place(where):
        if where in placed or where not in files:
            return
        file = files[where]
        for other in sorted({it for it, _ in file.names.values()} | set(file.files.values())):
            if other != where:
                place(other)
        if where not in placed:
            placed.append(where)

    for crate in CRATES:
        for where in sorted(files):
            if where[0] == crate:
                place(where)
    return placed


def by_file(files, parts):
    """The files of these paragraphs in reading order, each with the places of its paragraphs."""
    for where in in_order(files):
        if places := sorted(at for it, at in parts if it == where):
            yield where, places


def lines_of(files, parts):
    return sum(files[where].lines(at) for where, at in parts)


def counts_of(files, parts):
    """How many definitions these are, their lines and their files."""
    return len(parts), lines_of(files, parts), len({where for where, _ in parts})


def counted(files, parts):
    return "{:,} definitions, {:,} lines in {} files".format(*counts_of(files, parts))


def of_headline():
    """How many definitions, lines and files the first promise rests on."""
    files = specs_of(CRATES)
    return counts_of(files, promises(files)[0].parts)


def item(text, mark="-"):
    return textwrap.fill(f"{mark} {text}", 100, subsequent_indent="  ", break_long_words=False,
                         break_on_hyphens=False)


def shown(files):
    """The examples, by the file of the definitions that each is one of."""
    order, found = in_order(files), {}
    for it in examples_of(files):
        if where := it.place(files, order):
            found.setdefault(where, []).append(it)
    return found


def link(where):
    path = f"{where[0]}/specs/{where[1]}.antt"
    return f"[{path}](../crates/{path})"


def headline(files, promise, examples):
    """What must be believed of the first promise, definition by definition."""
    made = f"## {promise.sentence.rstrip('.')}\n\n"
    code = "\n".join(line.strip() for it in promise.clauses for line in it)
    _, call, _ = promise.carried[0]
    made += filled(f"This is a clause of the law `{call}`:") + f"\n\n```text\n{code}\n```\n\n"
    made += filled(f"{IN_WORDS} It rests on {counted(files, promise.parts)} of `specs/`. In "
                   "reading order, each with its number of lines:") + "\n\n"
    for where, places in by_file(files, promise.parts):
        lines = lines_of(files, [(where, at) for at in places])
        names = ", ".join(f"`{' '.join(files[where].heads[at])}` {files[where].lines(at)}"
                          for at in places)
        made += item(f"{link(where)}, {lines} lines. {files[where].about} {names}.") + "\n"
        if where in examples:
            made += f"\n{block(examples[where], '  ')}\n"
    return made + "\n"


def other(files, promise, first):
    """What must be believed of a promise: where to begin, and how much is beyond the first."""
    clauses = "; ".join(
        (f"`{call}`" + (": " + ", ".join(f"`{it}`" for it in names) if names != ["_"] else ""))
        if names else call for _, call, names in promise.carried)
    begins = [(where, files[where].defined[name]) for where, name in promise.wanted
              if where in files and name in files[where].defined]
    begins = [f"`{name}`" for where, places in by_file(files, begins) for at in places
              for name in files[where].heads[at] if (where, name) in promise.wanted]
    is_beyond = first.parts <= promise.parts
    parts = promise.parts - first.parts if is_beyond else promise.parts
    rest = {}
    for where, places in by_file(files, parts):
        lines = lines_of(files, [(where, at) for at in places])
        rest.setdefault(where[0], []).append(f"`{where[1]}` {lines}")
    rest = "; ".join(f"{crate} {', '.join(it)}" for crate, it in rest.items())
    beyond = "beyond the headline" if is_beyond else "in all, not all of the headline among them"
    return filled(f"**{promise.sentence}** {clauses}. Cited: {', '.join(begins)}. "
                  f"Lines {beyond}: {rest}.") + "\n\n"


def table(files, listed):
    """The rows of all promises, and a last one of all together."""
    above, rows = set(), []
    for it in listed:
        rows.append((it.sentence, it.parts, lines_of(files, it.parts - above)))
        above |= it.parts
    rows.append(("All of these.", above, lines_of(files, above)))
    for sentence, parts, new in rows:
        count, lines, places = counts_of(files, parts)
        yield f"| {sentence.rstrip('.')} | {count:,} | {places} | {lines:,} | {new:,} |\n"


def filled(text):
    return textwrap.fill(text, 100, break_long_words=False, break_on_hyphens=False)


def listing():
    files = specs_of(CRATES)
    parts = believed(files)
    listed, total, helpers = {}, 0, 0
    for where in in_order(files):
        if where[1] in FILES:
            continue
        file = files[where]
        lines = sum(file.lines(at) for it, at in parts if it == where)
        others = sum(map(file.lines, range(len(file.parts)))) - lines
        total, helpers = total + lines, helpers + others
        if lines:
            counts = f"{lines} + {others}" if others else f"{lines}"
            listed.setdefault(where[0], []).append(f"`{where[1]}` ({counts}): {file.about}")
    alone = [f"`{where[0]}/specs/{where[1]}`" for where in in_order(files)
             if where[1] not in FILES and not any(it == where for it, _ in parts)]
    count = f"{total:,} lines must be believed, in {sum(map(len, listed.values()))} files"
    first, *others = promises(files)
    examples = shown(files)
    made = HEAD + headline(files, first, examples) + BEYOND + "".join(table(files, [first, *others]))
    made += CARRIED + "".join(other(files, it, first) for it in others)
    notions = text_of(f"{TOP}/tools/data/notions").partition("\n")[2]
    made += f"## By notion\n\n{notions}\n{SHOWN}"
    for where in in_order(files):
        if where in examples and where not in {it for it, _ in first.parts}:
            made += f"- {link(where)}\n\n{block(examples[where], '  ')}\n"
    made += f"{EVERY}{count}; {helpers:,} more lines are helpers.\n\n"
    for crate, items in listed.items():
        items = [textwrap.fill(f"- {it}", 100, subsequent_indent="  ") for it in items]
        made += f"### In {crate}\n\n" + "\n".join(items) + "\n\n"
    helpers = textwrap.fill("Files of helpers alone: " + ", ".join(alone) + ".", 100)
    return f"{made}### Helpers\n\n{helpers}\n"


def unshown():
    """The definitions of the first promise of which no example says anything."""
    files = specs_of(CRATES)
    parts, crates = promises(files)[0].parts, {crate for crate, name in files if name == "Examples"}
    beside = [it for where, its in shown(files).items() if where in {it for it, _ in parts}
              for it in its]
    wanted = set().union(*(it.wanted for it in beside))
    for where, at in sorted(parts - reached(files, wanted)):
        if where[0] in crates:
            yield f"crates/{where[0]}/specs/{where[1]}.antt: no example of {files[where].heads[at]}"


def compare(is_to_write):
    """The faults, and how many lines must be believed."""
    made, faults = listing(), [*uncited(specs_of(CRATES)), *unshown()]
    if is_to_write:
        with open(PAGE, "w", encoding="utf-8") as file:
            file.write(made)
    elif text_of(PAGE) != made:
        faults.append("docs/DEFINITIONS.md is not what tools/pages --write makes of the code")
    return faults, re.search(r"^[\d,]+ lines must be believed, in \d+ files", made, re.M)[0]
