"""The examples of definitions, which `specs/Examples.antt` of a crate states and the prover checks,
for docs/DEFINITIONS.md."""
import os
import re

from rattle import TOP, cited, text_of

# The files of examples, and of the short forms in which these are written.
FILES = ("Examples", "Notation")


class Example:
    """A field of a record of examples: its lines, and the definitions that it cites."""

    def __init__(self, file, statement, named):
        # A line that continues a statement is four further in than its first one.
        lines = statement.split("\n")
        self.lines = [lines[0].strip(), *(it[4:] for it in lines[1:])] if lines[0].strip() \
            else [it[6:] for it in lines[1:]]
        words = set(re.findall(r"\w+", statement))
        self.named = [code for name, code in named.items() if name in words]
        self.wanted = {it for it in cited("\n".join([statement, *self.named]), file.names,
                                          file.files) if it[0][1] not in FILES}

    def place(self, files, order):
        """The last file in reading order of those whose definitions this is an example of."""
        wheres = [where for where, name in self.wanted if where in files
                  and any(name in heads for heads in files[where].heads.values())]
        return max(wheres, key=order.index, default=None)


def examples_of(files):
    """The examples of all crates that have some."""
    found = []
    for where, file in sorted(files.items()):
        if where[1] != "Examples":
            continue
        text = "\n\n".join(file.parts)
        named = dict(re.findall(r"^abbrev (\w+) :.*\n(\1\b.*(?:\n  .*)*)", text, re.M))
        # What has parameters is no value of its own.
        named = {name: " ".join(code.split()) for name, code in named.items()}
        statements = re.findall(r"^  pub \S+ :(.*(?:\n      .*)*)", text, re.M)
        found += [Example(file, it, named) for it in statements]
    return found


def uncited(files):
    """The records of examples that no contract cites, so that nothing proves them."""
    for (crate, name), file in sorted(files.items()):
        if name == "Examples":
            path = f"{TOP}/crates/{crate}/src/examples.rt"
            code = text_of(path) if os.path.isfile(path) else ""
            for record in re.findall(r"^pub record (\w+)", "\n".join(file.parts), re.M):
                if not re.search(rf"^    ensures \w+ {{ {record} }}$", code, re.M):
                    yield f"crates/{crate}/specs/Examples.antt: no clause cites {record}"


def block(examples, indent=""):
    """These examples as a block of code, after the values that they name."""
    lines = list(dict.fromkeys(it for example in examples for it in example.named))
    lines += [""] * bool(lines) + [line for example in examples for line in example.lines]
    return "".join(f"{indent}{it}".rstrip() + "\n" for it in ["```text", *lines, "```"])
