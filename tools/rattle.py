"""Reads Rattle: what crates export, their functions with contracts and bodies, the declarations and
comments of public items, the exports for C, and the definitions of `specs/`.

All scripts that compare the pages or wrong bodies with the code read it by this module. It reads
sources as `rt fmt` lays them out.
"""
import functools
import glob
import os
import re
import textwrap

TOP = os.path.dirname(os.path.dirname(os.path.abspath(__file__)))
# The crates that callers name: `jsonb` exports what the two below it do.
CRATES = ("jsonb", "jsonb_functions", "jsonb_path", "jsonb_pattern", "jsonb_comparable",
          "json_fault", "typed_vector", "jsonb_typed", "jsonb_typed_file", "uses")
# The programs, and the loop that answers their lines.
PROGRAMS = ("answer_lines", "jsonb_cli", "kohiblad_shell")
# The modules of a library that have names for proofs, and for the libraries above.
MODULES = ("laws", "layer")
WIDTH = 100


def text_of(path):
    with open(path, encoding="utf-8") as file:
        return file.read()


@functools.lru_cache(maxsize=None)
def lines_of(path):
    return text_of(path).split("\n")


@functools.lru_cache(maxsize=None)
def files_of(crate, kind="src"):
    """The files of a crate's `src`, or those of its `specs`."""
    ending = "antt" if kind == "specs" else "rt"
    return sorted(glob.glob(f"{TOP}/crates/{crate}/{kind}/**/*.{ending}", recursive=True))


def file_of(crate, module):
    """The file of a module, given by its names from the root on."""
    src = f"{TOP}/crates/{crate}/src"
    return f"{src}/{'/'.join(module)}.rt" if module else f"{src}/lib.rt"


def has_tests(crate):
    return any("#[test]" in text_of(it) for it in files_of(crate))


def constant(path, name):
    """The value of a constant of a source file."""
    return int(re.search(rf"const {name}: usize = ([\d_]+);", text_of(path))[1])


def lines_with_unsafe():
    """The lines of all crates that call what is unsafe."""
    return [line for crate in os.listdir(f"{TOP}/crates") for path in files_of(crate)
            for line in lines_of(path) if re.search(r"^(?!\s*//).*\bunsafe \{", line)]


def numbers_in(text, head):
    """The numbers of a source's constants of 32 bits that begin so, by name, as written there."""
    return dict(re.findall(rf"(?<!\S){head} (\w+): u32 = (0x[0-9a-f_]+|\d+);", text))


def codes_of_errors(text):
    """The number that the function `code` of a source gives to each error, by its name."""
    return dict(re.findall(r"Error::(\w+) => (\d+),", text[text.index("pub fn code(error"):]))


def widths_of_fields(text, kind):
    """The sign and the bits of each public number in a struct of a source."""
    body = re.search(rf"pub struct {kind} \{{(.*?)\n\}}", text, re.S)[1]
    return re.findall(r"pub \w+: ([ui])(\d+)", body)


def about_of(path):
    """The lines of the comment at a file's beginning."""
    return re.findall(r"^//! ?(.*)$", text_of(path), re.M)


def without_contracts(text):
    """A source without its heading, its `ghost use` lines and its clauses."""
    text = re.sub(r"^(//!|ghost use) .*\n", "", text, flags=re.M)
    return re.sub(r"\n    ensures .*?\n\{\n", " {\n", text, flags=re.S)


# Functions.

HEAD = re.compile(r'( *)(pub(?:\([^)]*\))? )?((?:(?:const|unsafe|extern "C") )*)fn (\w+)')
IMPL = re.compile(r"impl(?:<.*?>)? (?:([\w:]+)(<.*>)? for )?(&)?(?:'\w+ )?(\w+)")
TRAIT = re.compile(r"(?:pub )?trait (\w+)")
CYCLE = re.compile(r" *#\[cycle\((\w+)\)\]")
CLAUSE = re.compile(r"\s+(ensures|requires)\*?(?: (\w+))?(?: |$)")


class Owner:
    """An `impl` or a trait: its type, and the trait that the type implements, with its types."""

    def __init__(self, name, trait=None, parameters="", is_reference=False, is_trait=False):
        self.name, self.trait, self.parameters = name, trait, parameters
        self.is_reference, self.is_trait = is_reference, is_trait


class Function:
    """A function: the lines of its attributes, its head, its body and its end, counted from 0; a
    declaration or a law has no body."""

    def __init__(self, lines, at, found, owner, cycle):
        self.lines, self.at, self.owner, self.cycle = lines, at, owner, cycle
        self.indent, self.name = found[1], found[4]
        self.is_public, self.is_export = found[2] == "pub ", 'extern "C"' in found[3]
        self.first = at
        while lines[self.first - 1].startswith(self.indent + "#["):
            self.first -= 1
        self.body, self.end = body_of(lines, at, self.indent) or (None, None)

    @property
    def title(self):
        """The name, with the type before it of a method."""
        return f"{self.owner.name}::{self.name}" if self.owner and self.indent else self.name

    @functools.cached_property
    def contract(self):
        """The lines of the signature and the clauses, without comments."""
        lines = self.lines[self.at:contract_end(self.lines, self.at, self.indent)]
        return [it for it in lines if not re.match(r"\s*//", it)]

    @functools.cached_property
    def clauses(self):
        """The clauses, each as `ensures` or `requires`, its name or `_`, and its lines."""
        found = []
        for line in self.contract[1:]:
            if clause := CLAUSE.match(line):
                found.append((clause[1], clause[2] or "_", [line]))
            elif found:
                found[-1][2].append(line)
        return found

    def names_of(self, kind="ensures"):
        """The names of the clauses of this kind."""
        return [name for of, name, _ in self.clauses if of == kind]

    def promise(self, name):
        """The line of comment above a clause of this name, and the lines of the clause."""
        lines = next(lines for kind, it, lines in self.clauses if (kind, it) == ("ensures", name))
        above = self.lines[self.lines.index(lines[0], self.at) - 1]
        return re.match(r"\s*// (.*)", above)[1], lines

    @functools.cached_property
    def signature(self):
        """The signature in one line."""
        head = []
        for line in self.contract:
            if CLAUSE.match(line):
                break
            head.append(line.strip())
        return " ".join(head)


def is_record_field(line, indent):
    """Whether the line, one of a contract, is a field of a record."""
    return re.match(rf"{indent}    .*\w+ = [^;]*;$", line) is not None


def body_of(lines, head, indent):
    """The line that opens a function's body and the one that ends it."""
    for at in range(head, len(lines)):
        line = lines[at]
        if at == head and line.endswith("}"):
            return at - 1, at + 1
        # A trait's declaration, or a law, has no body.
        if line.endswith(";") and not is_record_field(line, indent) or line == indent + "{}":
            return None
        if line == indent + "{" or line.endswith("{") and line.startswith(indent + ")"):
            return at, lines.index(indent + "}", at)
        if at == head and line.endswith(" {"):
            return at, lines.index(indent + "}", at)
    return None


def contract_end(lines, head, indent):
    """The line behind a function's clauses."""
    for at in range(head, len(lines)):
        line = lines[at]
        if line in (indent + "{", indent + "{}"):
            return at
        if line.endswith((";", "{}")) and not is_record_field(line, indent) \
                or at == head and line.endswith((" {", "}")) \
                or line.startswith(indent + ")") and line.endswith("{"):
            return at + 1
    return len(lines)


def functions_in(lines):
    """The functions of a source."""
    owner, cycle = None, None
    for at, line in enumerate(lines):
        if impl := IMPL.match(line):
            owner = Owner(impl[4], impl[1], impl[2] or "", bool(impl[3]))
        elif trait := TRAIT.match(line):
            owner = Owner(trait[1], is_trait=True)
        elif line == "}":
            owner = None
        if mark := CYCLE.match(line):
            cycle = mark[1]
        if found := HEAD.match(line):
            yield Function(lines, at, found, owner, cycle)
            cycle = None


@functools.lru_cache(maxsize=None)
def functions_of(path):
    """The functions of a file."""
    return list(functions_in(lines_of(path)))


def function_in(path, call):
    """The function of a file that is called so, by its name alone or with its type; or none."""
    return next((it for it in functions_of(path) if call in (it.name, it.title)), None)


def exports_for_c():
    """The exports of the library for C, each with its file."""
    for path in files_of("kohiblad"):
        for it in functions_of(path):
            if it.is_export:
                yield path, it


def arguments_of(function):
    """The types of the arguments, and that of the result."""
    found = re.search(r"fn \w+\((.*)\) -> (\w+)", function.signature)
    return re.findall(r"\w+: ([^,]+)", found[1].rstrip(", ")), found[2]


def comment_above(lines, at):
    """The `///` comment and the attributes above a line."""
    doc, attributes = [], []
    while at and re.match(r"\s*(///|#\[|.*\)\]$)", lines[at - 1]):
        at -= 1
        line = lines[at].strip()
        if line.startswith("///"):
            doc.insert(0, line[4:].rstrip())
            continue
        # An attribute of several lines ends in one of its own.
        while not line.startswith("#["):
            at -= 1
            line = f"{lines[at].strip()} {line}"
        attributes.insert(0, line)
    return doc, attributes


# What crates export.

def names_in(crate, module):
    """What a module exports: pairs of the module or library it comes from, and the name."""
    text = text_of(f"{TOP}/crates/{crate}/src/{module}.rt")
    names = [(crate, name) for name in re.findall(r"^pub (?:mod|fn) (\w+)", text, re.M)]
    return names + [(path[0], name) for path, name in uses_in(text)]


def places_of_names(crate):
    """What a library exports: its names with the path of the module that has each."""
    paths = {"lib": crate}
    for module in MODULES:
        if os.path.isfile(f"{TOP}/crates/{crate}/src/{module}.rt"):
            paths[module] = f"{crate}::{module}"
    return [(source, name, path) for module, path in paths.items()
            for source, name in names_in(crate, module)]


def exported():
    """What the upper libraries and `json_fault` export, by the library it is of."""
    names = {}
    for crate in CRATES:
        for source, name, _ in places_of_names(crate):
            library = source if source.startswith("jsonb_") else crate
            names.setdefault(library, set()).add(name)
    return names


def not_exported():
    """Public names of the two lower libraries that `jsonb` does not export and should."""
    top = {name for _, name, _ in places_of_names("jsonb")}
    return [f"{crate}::{name}" for crate in ("jsonb_value", "jsonb_codec")
            for _, name, _ in places_of_names(crate) if name not in top]


def uses_in(text):
    """The names that a file passes on, each with its path."""
    for path, listed in re.findall(r"^pub use ([\w:]+)::(\{[^}]*\}|\w+);", text, re.M):
        for name in re.findall(r"\w+", listed):
            yield path.split("::"), name


# Public items.

KIND = re.compile(r"pub (?:const )?(fn|struct|enum|trait|type|const|mod) (\w+)")


class Item:
    """A public item: the lines of its declaration, its comment, and what is in it."""

    def __init__(self, kind, name, lines, doc, place=None):
        self.kind, self.name, self.lines, self.doc = kind, name, lines, doc
        # The file and the line of a call, counted from 0.
        self.place = place
        self.is_type = kind in ("struct", "enum", "trait", "type")
        self.methods, self.traits, self.variants = [], [], set()
        # The calls of its traits that have clauses, as functions.
        self.trait_calls = []
        # Those of a module.
        self.items = []


def place_of(crate, module, name):
    """The file that defines the name which this module has, with its crate and module."""
    text = text_of(file_of(crate, module))
    head = rf"^pub (?:const )?(?:fn|struct|enum|trait|type|const) {name}\b"
    if re.search(head, text, re.M):
        return crate, module
    for path, listed in uses_in(text):
        if listed == name:
            if path[0] == "crate":
                return place_of(crate, path[1:], name)
            if os.path.isdir(f"{TOP}/crates/{path[0]}"):
                return place_of(path[0], path[1:], name)
            return place_of(crate, [*module, *path], name)
    raise LookupError(f"{crate} {'::'.join(module)} has no {name}")


def joined(head):
    """A signature in one line, or with its arguments in a line of their own."""
    text = " ".join(head.split()).rstrip(",")
    text = re.sub(r"\( ", "(", re.sub(r",? \)", ")", text))
    if len(text) <= WIDTH:
        return [text]
    # The arguments come after the name and its generics, in which `->` closes nothing.
    level, begin = 0, 0
    for found in re.finditer(r"->|[<>(]", text):
        if found[0] == "(" and not level:
            begin = found.end()
            break
        level += {"<": 1, ">": -1}.get(found[0], 0)
    level, end = 1, begin
    while level:
        level += {"(": 1, ")": -1}.get(text[end], 0)
        end += 1
    return [text[:begin], f"    {text[begin:end - 1]},", text[end - 1:]]


def call_at(path, at):
    """A signature with its `requires` clauses and the names of its `ensures`."""
    function = next(it for it in functions_of(path) if it.at == at)
    indent = len(function.indent)
    owed = [line[indent:] for kind, _, lines in function.clauses if kind == "requires"
            for line in lines]
    head = re.sub(r"( \{|;|\{\})$", "", function.signature)
    names = function.names_of("ensures")
    promised = textwrap.wrap(", ".join(names), WIDTH, initial_indent="    ensures ",
                             subsequent_indent="        ")
    return joined(head) + owed + promised


def body_at(lines, at):
    """The lines of the braces that begin on this line."""
    indent = len(lines[at]) - len(lines[at].lstrip())
    body = []
    for line in lines[at + 1:]:
        if line == " " * indent + "}":
            return body
        body.append(line[indent:])
    raise LookupError(lines[at])


def constant_at(lines, at):
    text = lines[at].strip()
    while not text.endswith(";"):
        at += 1
        text += " " + lines[at].strip()
    return [text]


def is_shown(line):
    return not re.match(r"\s*(ghost |#\[|//(?!/))", line)


def fields_of(body):
    """The fields of a struct that a caller sees, and whether there are others."""
    fields, doc, others = [], [], False
    for line in body:
        if line.strip().startswith("///"):
            doc.append(line)
        elif line.startswith("    pub "):
            fields += doc + [line]
            doc = []
        elif line.strip() and is_shown(line):
            doc, others = [], True
    return fields, others


def struct_at(lines, at):
    """The declaration of a struct."""
    if not lines[at].endswith("{"):
        return [lines[at]]
    head = lines[at].removesuffix(" {")
    fields, others = fields_of(body_at(lines, at))
    if not fields:
        return [head + (" { /* private fields */ }" if others else "")]
    return [head + " {", *fields, *(["    /* private fields */"] if others else []), "}"]


def enum_at(lines, at):
    """The declaration of an enum."""
    if not lines[at].endswith("{"):
        return [lines[at]]
    body = [it for it in body_at(lines, at) if it.strip() and is_shown(it)]
    listed = ", ".join(it.strip().removesuffix(",") for it in body)
    short = f"{lines[at]} {listed} }}"
    if not any("///" in it for it in body) and len(short) <= WIDTH and "{" not in listed:
        return [short]
    return [lines[at], *body, "}"]


def trait_at(lines, at):
    """The declaration of a trait, with the types that it asks for."""
    types = [it for it in body_at(lines, at) if re.match(r"    type ", it)]
    head = lines[at].removesuffix(" {")
    return [head + " {", *types, "}"] if types else [head]


def methods_in(path, begin, is_trait):
    """The calls of an `impl` or a trait, which begins on this line."""
    end = begin + len(body_at(lines_of(path), begin))
    for it in functions_of(path):
        if begin < it.at <= end and it.indent == "    " and is_trait != it.is_public:
            doc, _ = comment_above(lines_of(path), it.at)
            yield Item("fn", it.name, call_at(path, it.at), doc, (path, it.at))


def add_impls(item, crate):
    """Adds the methods, the traits and their calls of a type's `impl` blocks in its crate."""
    head = re.compile(rf"impl(?:<.*?>)? (?:(.+) for )?{item.name}(?:<.*>)? \{{$")
    for path in files_of(crate):
        lines = lines_of(path)
        item.trait_calls += [
            it for it in functions_of(path)
            if it.owner and it.owner.trait and it.owner.name == item.name and it.names_of("ensures")
        ]
        for at, line in enumerate(lines):
            if found := head.match(line):
                if not found[1]:
                    item.methods += methods_in(path, at, False)
                    continue
                trait = re.sub(r"^fmt::", "", found[1])
                given = next((it for it in body_at(lines, at)
                              if re.match(r"    type Item = ", it)), "")
                if trait == "Iterator" and given:
                    trait = f"Iterator<{given.strip()[5:-1]}>"
                item.traits.append(trait)


def item_at(crate, path, at, kind, name):
    """The item that a line of a file begins."""
    lines = lines_of(path)
    doc, attributes = comment_above(lines, at)
    read = {"struct": struct_at, "enum": enum_at, "trait": trait_at, "type": constant_at,
            "const": constant_at}
    shown = call_at(path, at) if kind == "fn" else read[kind](lines, at)
    item = Item(kind, name, shown, doc, (path, at))
    for it in re.findall(r"derive\((.*?)\)", " ".join(attributes)):
        item.traits += it.split(", ")
    if kind == "trait":
        item.methods = list(methods_in(path, at, True))
    elif kind in ("struct", "enum"):
        if kind == "enum":
            item.variants = set(re.findall(r"\b[A-Z]\w*", " ".join(item.lines)))
        add_impls(item, crate)
    return item


def named_item(crate, module, name):
    crate, module = place_of(crate, module, name)
    path = file_of(crate, module)
    for at, line in enumerate(lines_of(path)):
        if (found := KIND.match(line)) and found[2] == name:
            return item_at(crate, path, at, found[1], name)
    raise LookupError(name)


def modules_of(crate, name, shown):
    """A public module with its items, and then the modules that it passes on."""
    path = file_of(crate, [name])
    item, inner = Item("mod", shown, [], about_of(path)), []
    own = [found[2] for line in lines_of(path) if (found := KIND.match(line))]
    for it in own:
        item.items.append(named_item(crate, [name], it))
    for source, it in uses_in(text_of(path)):
        if is_module(source[0], source[1:], it):
            inner += modules_of(source[0], it, f"{shown}::{it}")
        else:
            item.items.append(named_item(crate, [name], it))
    return [item, *inner]


def is_module(crate, module, name):
    """Whether this name of a library's module is a module too."""
    path = file_of(crate, module)
    return os.path.isfile(path) and re.search(rf"^pub mod {name};", text_of(path), re.M)


def public_items(crate):
    """What a crate exports."""
    text = text_of(file_of(crate, []))
    items = [it for name in re.findall(r"^pub mod (\w+);", text, re.M)
             for it in modules_of(crate, name, name)]
    for path, name in uses_in(text):
        source, module = (path[0], path[1:]) if os.path.isdir(f"{TOP}/crates/{path[0]}") \
            else (crate, path)
        if is_module(source, module, name):
            items += modules_of(source, name, name)
        else:
            items.append(named_item(source, module, name))
    return items


# Definitions.

WORD = re.compile(r"[^\s(){}\[\].,;:]+")


def imports_of(text, kinds="(?:ghost |pub )?"):
    """The names that these `use` lines bring, each with its file and its name there."""
    names, files = {}, {}
    line = rf"^\s*{kinds}use Rattle\.(\w+)\.specs\.([\w.]+)(?:\.\{{([^}}]*)\}}| as (\w+));?$"
    for crate, path, listed, alias in re.findall(line, text, re.M):
        where = (crate, path.replace(".", "/"))
        if alias:
            files[alias] = where
        for part in listed.split(","):
            name, _, own = part.strip().partition(" as ")
            names[own or name] = passed_on(where).get(name, (where, name))
    return names, files


@functools.lru_cache(maxsize=None)
def passed_on(where):
    """The names that a file of `specs/` passes on, each with the file that defines it."""
    path = f"{TOP}/crates/{where[0]}/specs/{where[1]}.antt"
    return imports_of(text_of(path), "pub ")[0] if os.path.isfile(path) else {}


class Specs:
    """A file of `specs/`: its paragraphs, with the names that each defines and cites."""

    def __init__(self, crate, path):
        self.where = (crate, path)
        text = text_of(f"{TOP}/crates/{crate}/specs/{path}.antt")
        self.names, self.files = imports_of(text)
        body = "\n".join(line for line in text.split("\n") if not re.match(r"\s*(pub )?use ", line))
        about = " ".join(re.match(r"(?:-- .*\n)+", text)[0].replace("\n-- ", " ").split()[1:])
        self.about = re.match(r".*?\.(?= |$)|.*", about)[0]
        # A paragraph of comments alone defines nothing.
        code = re.compile(r"^(?!\s*(--|$))", re.M)
        self.parts = [part for part in re.split(r"\n\s*\n", body) if code.search(part)]
        # The paragraph of each name, and what each paragraph is called.
        self.defined, self.heads = {}, {}
        define = r"^\s*((?:(?:abbrev|unfoldable|pub|record|data|syntax)\s+)+)([^\s:(){}]+)"
        constructor = r"^    (?:  )?([^\s:(){}]+)\s*:"
        for at, part in enumerate(self.parts):
            found = re.findall(define, part, re.M)
            # A field of a record is `pub`, as a definition among mutual ones is.
            is_record = re.search(r"^\s*(?:\w+ )*record ", part, re.M)
            self.heads[at] = [name for words, name in found if name != "mutual"
                              and not (is_record and words.split() == ["pub"])]
            names = [name for _, name in found] + re.findall(constructor, part, re.M)
            for name in names:
                self.defined.setdefault(name, at)

    def cited(self, text):
        return cited(text, self.names, self.files, self)

    def lines(self, at):
        """How many lines a paragraph has, without comments and empty lines."""
        return sum(1 for it in self.parts[at].split("\n") if re.match(r"\s*(?!--)[^\s-]", it))

    def definition(self, name):
        """The line of comment above a definition, and its lines."""
        about, *lines = self.parts[self.defined[name]].strip().split("\n")
        return about.removeprefix("-- "), [lines[0].removeprefix("abbrev pub "), *lines[1:]]


def specs_at(path):
    """The file of `specs/` with this path below the top."""
    _, crate, _, name = path.removesuffix(".antt").split("/", 3)
    return Specs(crate, name)


def specs_of(crates):
    """The files of `specs/` of these crates, by their crate and path."""
    found = {}
    for crate in crates:
        for path in files_of(crate, "specs"):
            name = os.path.relpath(path, f"{TOP}/crates/{crate}/specs")[:-5]
            file = Specs(crate, name) if os.path.basename(name) != "Lib" else None
            if file and file.parts:
                found[file.where] = file
    return found


def cited(text, names, files, own=None):
    """The definitions that a text cites, as pairs of a file and a name."""
    text = re.sub(r"--.*", "", text)
    found = set()
    for alias, name in re.findall(r"\b(\w+)\.([\w'-]+)", text):
        if alias in files:
            found.add((files[alias], name))
    for word in set(WORD.findall(text)):
        if own and word in own.defined:
            found.add((own.where, word))
        elif word in names:
            found.add(names[word])
    for name, place in names.items():
        if "◌" in name and re.sub("◌", "", name) in text:
            found.add(place)
    return found


def facts_of(text):
    """The facts of the types of a source, by type: what is true of all their values."""
    found = {}
    head = r"^impl(?:<[^\n]*?>)? (?:[^\n]* for )?(\w+)(?:<[^>]*>)? \{\n(.*?)^\}"
    for kind, body in re.findall(head, text, re.M | re.S):
        found.setdefault(kind, []).extend(re.findall(r"^    ghost (?!use)[^\n]*", body, re.M))
    return found
