"""Compares docs/API.md, the page of every public type and call, with the code, or writes it.

The page has what the roots of CRATES export, by crate and type: each declaration and signature
without its body, the `requires` clauses of a call, which its caller owes, the names of its
`ensures` clauses, and the `///` comments; and the names of the clauses of programs and of the
exports for C.
It is a fault too if a public call, type or constant has no comment; if `jsonb` does not export what
the libraries below it export; or if docs/CALLING.md writes `TYPE::NAME` for what the type does
not have.
"""
import re
import textwrap

from rattle import (CRATES, PROGRAMS, TOP, about_of, exports_for_c, file_of, files_of,
                    functions_of, not_exported, public_items, text_of)

PAGE, CALLING = f"{TOP}/docs/API.md", f"{TOP}/docs/CALLING.md"
HEAD = """# Every public type and call

`tools/pages --write` makes this page of the code: declarations, signatures, comments, and the names
of clauses. [CALLING](CALLING.md) has the recipes, and [PROOFS](PROOFS.md) the promises. Names are
at the root of their crate or in its modules `laws`, for proofs, and `layer`, for the libraries
above. A call that can allocate has `OutOfMemory` among its errors; all others allocate nothing.
What a call `requires` its caller must prove. What it `ensures` is proved: of those clauses the page
has the names (`_` is one without a name), and the source of the call has the clauses.
"""
# The functions of the programs that carry their promises, and their laws.
OF_PROGRAMS = re.compile(r"run|answer|answer_lines|ask|line|reason|decode_shallow|\w+_laws")
IN_C = """
## The exports for C

[kohiblad.h](../bindings/kohiblad.h) says in words what each does, and
[DEFINITIONS](DEFINITIONS.md#exports-for-c) by which definitions it is said.
"""
# Traits that a caller does not name, or that come with another.
SILENT = {"Model", "Drop", "PartialEq", "PartialOrd"}


def filled(doc):
    """The comment as paragraphs and items of lists, in lines of at most 100 characters."""
    parts = []
    for line in doc:
        if not line:
            parts.append([])
        elif line.startswith("- ") or not parts:
            parts.append([line])
        else:
            parts[-1].append(line)
    made = []
    for part in filter(None, parts):
        is_item = part[0].startswith("- ")
        text = textwrap.fill(" ".join(" ".join(part).split()), 100, break_long_words=False,
                             subsequent_indent="  " if is_item else "", break_on_hyphens=False)
        goes_on = is_item and made and made[-1].lstrip().startswith("- ")
        made.append(text if goes_on else f"\n{text}")
    return "\n".join(made) + "\n" if made else ""


def block(lines):
    return "\n```rust\n" + "\n".join(lines) + "\n```\n"


def shown(item):
    """A declaration or a call, with its comment."""
    return block(item.lines) + filled(item.doc)


def anchor(heading):
    return re.sub(r"[^\w -]", "", heading.lower()).replace(" ", "-")


def index(kind, headings):
    """The line of links to these headings."""
    links = ", ".join(f"[{it.split(' ')[0]}](#{anchor(it)})" for it in headings)
    return "\n" + textwrap.fill(f"{kind}: {links}.", 100, break_long_words=False,
                                break_on_hyphens=False) + "\n" if links else ""


def names(clauses):
    return ", ".join(f"`{it}`" for it in clauses)


def traits_of(item):
    named = {it for it in item.traits if it.split("<")[0] not in SILENT}
    named = sorted("Display" if it == "thiserror::Error" else it for it in named)
    made = [", ".join(f"`{it}`" for it in named)]
    made += [f"`{it.name}` ensures {names(it.names_of('ensures'))}" for it in item.trait_calls]
    return "\n" + textwrap.fill(f"Implements {'; '.join(made)}.", 100,
                                break_long_words=False) + "\n" if named else ""


def listed(calls):
    """A list of calls with the names of their clauses, and those last that have one without."""
    calls = dict(sorted(calls))
    made = [f"- `{call}`: {names(it)}" for call, it in calls.items() if it != ["_"]]
    if rest := [call for call, it in calls.items() if it == ["_"]]:
        made.append(f"- with one clause, which has no name: {names(rest)}")
    return "\n" + "\n".join(textwrap.fill(it, 100, subsequent_indent="  ", break_long_words=False,
                                          break_on_hyphens=False) for it in made) + "\n"


def programs():
    """The section of the programs."""
    made = "\n## The programs\n\nThe functions that carry their promises, with the names of their "
    made += "clauses.\n"
    for crate in PROGRAMS:
        calls = [(it.title, it.names_of("ensures")) for path in files_of(crate)
                 for it in functions_of(path) if OF_PROGRAMS.fullmatch(it.name)]
        made += f"\n### {crate} as a program\n" + listed([it for it in calls if it[1]])
    return made


def exports():
    """The section of the exports for C, and of their laws."""
    laws = [it for path in files_of("kohiblad") for it in functions_of(path)
            if it.name.endswith("_laws")]
    return IN_C + listed([(it.name, it.names_of("ensures"))
                          for it in [*(it for _, it in exports_for_c()), *laws]])


def whole(item, heading):
    """A type or call with all that is in it, below its heading."""
    made = f"\n{heading}\n" + shown(item) + traits_of(item)
    return made + "".join(map(shown, item.methods))


def module(item, heading):
    """A module, its constants in one block."""
    made = f"\n{heading}\n" + filled(item.doc)
    constants = [it for it in item.items if it.kind == "const"]
    if constants:
        made += block([line for it in constants for line in
                       [*(f"/// {text}" for text in it.doc), *it.lines]])
    for it in item.items:
        if it.kind != "const":
            made += whole(it, f"#### {item.name}::{it.name}")
    return made


def section(crate, items, twice):
    """The section of a crate."""
    def heading(item):
        return f"{item.name} of {crate}" if item.name in twice else item.name

    types = sorted((it for it in items if it.is_type), key=lambda it: it.name.lower())
    calls = sorted((it for it in items if it not in types), key=lambda it: it.name.lower())
    made = f"\n## The crate {crate}\n" + filled(about_of(file_of(crate, [])))
    made += index("Types", map(heading, types)) + index("Others", map(heading, calls))
    for item in types + calls:
        made += (module if item.kind == "mod" else whole)(item, f"### {heading(item)}")
    return made


def without_comment(crate, items):
    for item in items:
        inner = [it for one in item.items for it in (one, *one.methods)]
        for it in [item, *item.methods, *inner]:
            if not it.doc:
                yield f"{crate}: {it.name} has no comment"


def unknown_methods(items):
    """Methods that CALLING names, and their types do not have."""
    known = {it.name: {call.name for call in it.methods} | it.variants
             for it in items if it.is_type}
    # A type of std has its path before it.
    of_ours = r"(?<!::)\b([A-Z]\w+)::(\w+)"
    for kind, name in sorted(set(re.findall(of_ours, text_of(CALLING)))):
        if kind in known and name not in known[kind]:
            yield f"docs/CALLING.md: {kind} has no {name}"


def compare(is_to_write):
    """The faults, and how much the page has."""
    crates = {crate: public_items(crate) for crate in CRATES}
    every = [it for items in crates.values() for it in items]
    called = [it.name for it in every]
    twice = {it for it in called if called.count(it) > 1}
    made = HEAD + "".join(section(*it, twice) for it in crates.items()) + programs() + exports()
    faults = [it for crate, items in crates.items() for it in without_comment(crate, items)]
    faults += [f"{it} is public, and jsonb does not export it" for it in not_exported()]
    faults += unknown_methods(every)
    if is_to_write:
        with open(PAGE, "w", encoding="utf-8") as file:
            file.write(made)
    elif text_of(PAGE) != made:
        faults.append("docs/API.md is not what tools/pages --write makes of the code")
    methods = sum(len(it.methods) for it in every)
    return faults, f"{len(every)} names with {methods} methods"
