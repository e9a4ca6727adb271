"""What bindings/kohiblad.h has for each export, made of its declaration: the declaration of the
export itself, and the function of that name, which replaces null, refuses what overlaps, and calls
the export. A function that does more is written by hand, outside the parts that are made.
"""
import re
import textwrap

WIDTH = 100
# The parts of the header that are made: each is below its comment, up to an empty line.
EXPORTS = "/* The exports of the library. */\n"
GUARDS = "/* Null with length 0 becomes a pointer to something that is never read or written. */\n"
FUNCTIONS = "/* The functions that are declared above; those that do more than most come after them. */\n"


def wrapped(text, width=WIDTH, indent="    "):
    """The text, broken after commas into lines of at most so many characters."""
    # Spaces that are not after a comma stay together, as a character that no declaration has.
    joined = re.sub(r"(?<!,) ", "\0", text)
    lines = textwrap.wrap(joined, width, subsequent_indent=indent, break_long_words=False,
                          break_on_hyphens=False)
    return "\n".join(lines).replace("\0", " ")


def aligned(text, indent):
    """A condition, broken after commas into lines that begin below its first argument."""
    first, *_ = text.partition("(")
    return wrapped(f"{indent}{text}", WIDTH, " " * (len(indent) + len(first) + 1))


def labelled(declaration, label):
    """A declaration with the name that it has to the assembler, which is kept in one line."""
    text = wrapped(declaration)
    fits = len(text.split("\n")[-1]) + 1 + len(label) < WIDTH
    return f"{text}{' ' if fits else chr(10) + '    '}{label};"


def declaration(export):
    """The declaration of an export in the header."""
    return labelled(export.with_name(f"kohiblad_export_{export.name}"),
                    f'KOHIBLAD_EXPORT("kohiblad_{export.name}")')


# Null pointers.

def guard(block):
    """The name of the function that replaces null in an argument."""
    way = "out" if block.is_written else "in"
    if block.type == "uint8_t":
        return f"kohiblad_{way}"
    stem = block.type.removeprefix("struct kohiblad_").removesuffix("_t")
    return f"kohiblad_{stem}s_{way}"


def guard_function(block):
    way, const = ("out", "") if block.is_written else ("in", "const ")
    head = f"static inline {const}{block.type} *{guard(block)}({const}{block.type} *{way}) {{"
    if len(head) > WIDTH:
        head = head.replace("(", "(\n    ")
    return f"{head}\n    static {block.type} none;\n    return {way} ? {way} : &none;\n}}"


def guards(exports):
    """A function for each type of a block that may be null."""
    found = {guard(it): it for export in exports for it in export.blocks if it.count}
    return [guard_function(it) for it in found.values()]


# Blocks that lie apart.

def units(export):
    """What an export writes: blocks, those of a room with the length of what is in it."""
    written = list(export.written)
    while written:
        block = written.pop(0)
        has_length = block.count and written and written[0].type == "size_t" \
            and not written[0].count
        yield (block, written.pop(0)) if has_length else (block,)


def meets(unit, block):
    """The condition that a unit and a block have a byte in common."""
    first = unit[0]
    if len(unit) == 2:
        return f"!kohiblad_is_apart({first.name}, {first.size}, {unit[1].name}, {block.name}, " \
            f"{block.size})"
    return f"kohiblad_meet({first.name}, {first.size}, {block.name}, {block.size})"


def meets_read(unit, read):
    """The conditions that a unit and what goes in have a byte in common."""
    if len(unit) == 1 and [it.type for it in read] == ["uint8_t", "size_t", "uint8_t"]:
        # Rows, and a path or names.
        listed = ", ".join(f"{it.name}, {it.count}" for it in [*unit, *read][1:])
        return [f"!kohiblad_is_outside({unit[0].name}, {unit[0].size}, {listed})"]
    return [meets(unit, it) for it in read]


def conditions(export):
    """The conditions under which something that a call writes overlaps something else."""
    found, left = [], list(units(export))
    while left:
        unit = left.pop(0)
        if len(unit) == 2:
            found.append(f"!kohiblad_is_room({unit[0].name}, {unit[0].size}, {unit[1].name})")
        found += [meets(unit, it) for other in left for it in other]
        found += meets_read(unit, export.read)
    return found


def refusal(export, fields):
    """The lines before the call of the export."""
    found = conditions(export)
    if not found:
        return []
    lines, answer = [], "KOHIBLAD_OVERLAP"
    if export.returns_struct:
        zeros = ", 0" * (fields[export.result] - 1)
        lines, answer = [f"    {export.result} overlap = {{ KOHIBLAD_OVERLAP{zeros} }};"], "overlap"
    short = f"    if ({found[0]}) return {answer};"
    if len(found) == 1 and len(short) <= WIDTH:
        return [*lines, short]
    lines.append(aligned(found[0], "    if ("))
    lines += [aligned(it, "        || ") for it in found[1:]]
    return [*lines[:-1], f"{lines[-1]})", f"        return {answer};"]


def function(export, fields):
    """The function that calls an export."""
    blocks = {it.name: it for it in export.blocks}
    passed = [f"{guard(blocks[it.name])}({it.name})" if it.is_pointer and blocks[it.name].count
              else it.name for it in export.arguments]
    head = wrapped(f"static inline {export.with_name('kohiblad_' + export.name)} {{")
    call = wrapped(f"    return kohiblad_export_{export.name}({', '.join(passed)});", WIDTH,
                   " " * 8)
    return "\n".join([head, *refusal(export, fields), call, "}"])


def fields_of(header):
    """How many fields each struct of the header has."""
    return {name: body.count(";") for name, body
            in re.findall(r"^(struct \w+) \{(.*?)^\};", header, re.M | re.S)}


def with_parts(header, exports):
    """The header with the parts that are made of its declarations."""
    fields = fields_of(re.sub(r"/\*.*?\*/", "", header, flags=re.S))
    parts = {
        EXPORTS: [declaration(it) for it in exports],
        GUARDS: guards(exports),
        FUNCTIONS: [],
    }
    by_hand = header.replace(part_of(header, FUNCTIONS), "")
    for it in exports:
        text = function(it, fields)
        if text[:text.index("{") + 1] not in by_hand:
            parts[FUNCTIONS].append(text)
    for head, texts in parts.items():
        header = header.replace(head + part_of(header, head), head + "\n".join(texts) + "\n")
    return header


def part_of(header, head):
    """The lines below a comment, up to an empty line."""
    begin = header.index(head) + len(head)
    return header[begin:header.index("\n\n", begin - 1) + 1]
