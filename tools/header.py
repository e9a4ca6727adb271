"""Compares bindings/kohiblad.h with the exports of crates/kohiblad: the same names, and for each
the same number and width of arguments and the same result; the same statuses; and above each
declaration the export's `///` comment in C's terms. What calls the exports below the declarations
is made of these, and the figures of stack in the first comment of tools/data/exports. Then it
compares bindings/kohiblad_cffi.h, the header's types and exports in the form that Python's cffi
reads, with what it makes of the header; and docs/C.md has to list each status. The recipes in
docs/C.md are programs of bindings/examples. The comments of the header, what is made in it,
kohiblad_cffi.h and the recipes can be written.

An export that is not declared yet is declared after the one above it in its file, or last. Its
place can be changed by hand, and so can the names of its arguments.
"""
import re
import textwrap

import exports
import inline
import rattle
from inline import wrapped
from rattle import TOP, text_of

# How a type crosses: a slice as a pointer and a length, the allocator as nothing.
CROSSES = {
    "Global": [], "&[u8]": ["const uint8_t *", "size_t"], "&mut [u8]": ["uint8_t *", "size_t"],
    "&[usize]": ["const size_t *", "size_t"], "&mut [usize]": ["size_t *", "size_t"],
    "&mut [u64]": ["uint64_t *", "size_t"], "&mut [i64]": ["int64_t *", "size_t"],
    "&mut [u32]": ["uint32_t *", "size_t"],
    "&mut [i32]": ["int32_t *", "size_t"], "&[u64]": ["const uint64_t *", "size_t"],
    "&[i64]": ["const int64_t *", "size_t"], "&[i32]": ["const int32_t *", "size_t"],
    "&[KohibladPlace]": ["const struct kohiblad_place *", "size_t"],
    "&mut usize": ["size_t *"], "usize": ["size_t"], "u32": ["uint32_t"], "u64": ["uint64_t"],
    "i32": ["int32_t"], "i64": ["int64_t"], "bool": ["bool"],
}
# The structs that cross, by value or, where a call writes them, by a pointer.
STRUCTS = {
    "KohibladKind": "struct kohiblad_value_kind", "KohibladPlace": "struct kohiblad_place",
    "KohibladCursor": "struct kohiblad_cursor", "KohibladDecimal": "struct kohiblad_decimal",
    "KohibladInteger": "struct kohiblad_integer", "KohibladTruth": "struct kohiblad_truth",
    "KohibladExtension": "struct kohiblad_extension_value",
    "KohibladFault": "struct kohiblad_fault", "KohibladExpected": "struct kohiblad_expected",
    "KohibladPathFault": "struct kohiblad_path_refusal",
    "KohibladSurvey": "struct kohiblad_survey_counts", "KohibladTaken": "struct kohiblad_taken",
    "KohibladInt128": "struct kohiblad_int128",
    "KohibladTimestampTz": "struct kohiblad_timestamp_tz",
    "KohibladInterval": "struct kohiblad_interval",
    "KohibladInt64Zone": "struct kohiblad_int64_zone",
    "KohibladUInt64Zone": "struct kohiblad_uint64_zone",
    "KohibladDecimalZone": "struct kohiblad_decimal_zone",
    "KohibladDateZone": "struct kohiblad_date_zone",
    "KohibladTypedFile": "struct kohiblad_typed_file",
    "KohibladTypedColumn": "struct kohiblad_typed_column",
}
for rust_name, c_name in STRUCTS.items():
    CROSSES[rust_name] = [c_name]
    CROSSES["&mut " + rust_name] = [c_name + " *"]
    CROSSES[f"&mut [{rust_name}]"] = [c_name + " *", "size_t"]
    CROSSES[f"&[{rust_name}]"] = [f"const {c_name} *", "size_t"]
# What the header's first comment says of all calls, and no other comment has to repeat.
OF_ALL_CALLS = [
    r" A scalar has depth 0, an array or object one more than its deepest child, and at least 1\.",
    r": a scalar has depth 0, an array or object one more than its deepest child, and at least 1",
    r" Deeper levels are not examined\.",
    r",? and its length in bytes to `length`",
    r" If the status is not `OK`, `out` is unchanged, and `length` is 0, or for `NO_ROOM` the "
    r"length of the \w+\.",
    r"; (?:`out`|it) is then unchanged, and `length` is still set",
    r" Row k begins at `offsets\[k\]` and ends at `offsets\[k \+ 1\]`\.",
]
# Words that C has others for.
WORDS = [
    (r"\bposition(s?)\b", r"place\1"), (r"With `edit` 0 ", "With KOHIBLAD_PUT "),
    (r"; with 1 it ", "; with KOHIBLAD_INSERT it "), (r"; with 2 ", "; with KOHIBLAD_REMOVE "),
    (r"With 3 ", "With KOHIBLAD_CREATE "),
    (r"With `exponents` 0 ", "With KOHIBLAD_EXPONENTS_FORBIDDEN "),
    (r"With `fit` 0 ", "With KOHIBLAD_BY_VALUE "),
]
# The groups of calls whose stack for a level was measured, in the header's first comment.
STACK_GROUPS = re.compile(r"(?:^ \*     [ \d].*\n)+(?= \*\n \* The other calls)", re.M)
# The rows of the table of stack in docs/C.md.
STACK_ROWS = re.compile(r"(\| bytes for a level \|.*\n\|[-|]+\n)((?:\| \d.*\n)+)")
# What is said to C alone, after the comment.
ALSO = {
    "kohiblad_status_name": "A name has at most 21 bytes.",
    "kohiblad_compare": "5 and 5.0 are equal. The order is total.",
    "kohiblad_get_key": "Bytes that are not a document can also give some value.",
    "kohiblad_find_key": "Bytes that are not a document can also give some place.",
    "kohiblad_find_index": "Reads one word for each earlier part.",
    "kohiblad_begin": "A walk over all children costs as much as kohiblad_find_index for the last "
                      "one.",
    "kohiblad_next": "Child i of an array is part i; of an object of n pairs the key is part i and "
                     "the value part n + i.",
    "kohiblad_copy": "A scalar's document has 8 bytes more than its payload.",
    "kohiblad_get_member": "The pairs are in ascending order of their keys.",
    "kohiblad_parse": "The document is shorter than 4 times the text plus 8 bytes, and with "
                      "exponents than 5 times the text plus 8: 1e5 is 100000, 25e-1 is 2.5.",
    "kohiblad_text_fault": "It is 3 of [1,], and 2 of [1, which only ends too early. With every "
                           "other status but OK it is 0.",
    "kohiblad_text_expected": "So of {\"a\"1 it is KOHIBLAD_EXPECTED_COLON.",
    "kohiblad_key_layout": "So it changes with the soname alone.",
    "kohiblad_key": "Compare keys by memcmp, and then the shorter first.",
    "kohiblad_contains": "SIZE_MAX is no limit.",
    "kohiblad_edit": "`edit` is one of enum kohiblad_edit_kind. Where nothing is edited, the "
                     "result is the canonical form of the document.",
}
DECLARED = re.compile(r'(?:/\*(?:(?!\*/).)*\*/\n)?^(static inline [^;{]*?'
                      r'KOHIBLAD_INLINE\("(\w+)"\);)', re.M | re.S)

# The blocks of docs/C.md that are made, below what names them. They stand between marks.
RECIPE = re.compile(r"(\]\(\.\./bindings/examples/(\w+\.\w+)\):\n\n<!-- tools/pages -->\n```\w+\n)"
                    r".*?(^```$)", re.M | re.S)


def exported():
    """The exports, each as its result and its arguments in C."""
    found = {}
    for _, it in rattle.exports_for_c():
        types, result = rattle.arguments_of(it)
        found[it.name] = (CROSSES[result][0], [at for kind in types for at in CROSSES[kind]])
    return found


def comments():
    """The `///` comment of each export."""
    return {it.name: " ".join(rattle.comment_above(it.lines, it.at)[0])
            for _, it in rattle.exports_for_c()}


def in_c(name, comment, declaration, statuses):
    """The comment of an export above its declaration in C."""
    for sentence in OF_ALL_CALLS:
        comment = re.sub(sentence, "", comment)
    for word, other in WORDS:
        comment = re.sub(word, other, comment)

    # Statuses and calls are named without the backticks that arguments have.
    comment = re.sub(r"`(\w+)`", lambda it: statuses.get(it[1].replace("_", "").lower(), it[0]),
                     comment)
    comment = re.sub(r"`(kohiblad_\w+)`", r"\1", comment)
    # What a call writes through a pointer.
    listed = re.search(r"\(([^)]*)\)", declaration)[1].split(",") + [""]
    for argument, after in zip(listed, listed[1:]):
        pointer = re.fullmatch(r"(?!const)[\w\s]+\*(\w+)", argument.strip())
        if pointer and not re.search(r"\b\w*room$", after):
            comment = comment.replace(f"`{pointer[1]}`", f"`*{pointer[1]}`")
    text = " ".join([comment, ALSO.get(name, "")]).strip()
    # The comment's end stays with its last word.
    lines = textwrap.fill(f"/* {text}\0*/", 100, subsequent_indent=" * ", break_long_words=False,
                          break_on_hyphens=False)
    return lines.replace("\0", " ")


def with_comments(header):
    """The header with the comments that the exports have."""
    found = comments()
    listed = re.findall(r"KOHIBLAD_(\w+) = \d+", re.search(r"enum kohiblad_status \{.*?\}", header,
                                                           re.S)[0])
    statuses = {name.replace("_", "").lower(): name for name in listed}

    def with_comment(it):
        if it[2] not in found:
            return it[0]
        return f"{in_c(it[2], found[it[2]], it[1], statuses)}\n{it[1]}"

    return DECLARED.sub(with_comment, header)


def for_cffi(header, signatures):
    """The types and exports of the header, in the form that cffi reads."""
    header = exports.COMMENT.sub("", header)
    version = re.search(r"#define KOHIBLAD_VERSION \d+", header)[0]
    kinds = re.findall(r"^(?:enum|struct) \w+ \{.*?^\};", header, re.M | re.S)
    kinds = [re.sub(r" +$", "", it, flags=re.M) for it in kinds]
    note = "/* The exports, for cffi's cdef: tools/pages makes this file of kohiblad.h. */"
    return "\n\n".join([note, version, *kinds, "\n".join(signatures)]) + "\n"


def write(name, text, folder="bindings"):
    with open(f"{TOP}/{folder}/{name}", "w", encoding="utf-8") as file:
        file.write(text)


def stack_groups():
    """The calls whose stack for a level was measured, by the figure or, after all of these, the
    name of one."""
    groups = {}
    for name, facts in exports.table().items():
        groups.setdefault(facts.stack, []).append(name)
    groups.pop("-", None)
    figures = sorted(filter(str.isdecimal, groups), key=int)
    return {it: groups[it] for it in [*figures, *groups]}


def with_stack(header):
    """The header with the figures of stack that are in the table."""
    lines = []
    for figure, calls in stack_groups().items():
        if figure.isdecimal():
            head = f" *     {figure} bytes: "
            lines += textwrap.wrap(", ".join(calls), 100, initial_indent=head,
                                   subsequent_indent=" *".ljust(len(head)))
    return STACK_GROUPS.sub("\n".join(lines) + "\n", header)


def stack_rows(header):
    """The rows of the table of stack: bytes for a level, the calls, and what some levels take."""
    def number_of(name):
        return int(re.search(rf"^#define KOHIBLAD_{name}_STACK (\d+)$", header, re.M)[1])

    rows = []
    for figure, calls in stack_groups().items():
        level = int(figure) if figure.isdecimal() else number_of(figure.upper())
        first, *others = calls
        named = ", ".join([f"`kohiblad_{first}`", *[f"`_{it}`" for it in others]])
        taken = [-(-(levels * level + number_of("CALL")) // 1024) for levels in (64, 1000)]
        rows.append(f"| {level:,} | {named} | {taken[0]:,} KB | {taken[1]:,} KB |\n")
    return "".join(rows)


def with_blocks(page, header):
    """The page of C with the header's figures of stack, and the recipes as the programs are."""
    def recipe(it):
        return it[1] + text_of(f"{TOP}/bindings/examples/{it[2]}") + it[3]

    page = STACK_ROWS.sub(lambda it: it[1] + stack_rows(header), page)
    return RECIPE.sub(recipe, page)


def with_new(header):
    """The header with the declarations of exports that it lacks."""
    above = None
    for path, it in rattle.exports_for_c():
        named = f'KOHIBLAD_INLINE("{it.name}")'
        if named not in header:
            made = f"\n/* */\n{inline.labelled(declaration_of(it), named)}\n"
            place = header.index(inline.EXPORTS) - 1
            if above and above[0] == path:
                place = header.index("\n", header.index(f'KOHIBLAD_INLINE("{above[1]}");')) + 1
            header = header[:place] + made + header[place:]
        above = path, it.name
    return header


def declaration_of(function):
    """An export as C declares it, with the length of each slice named after the slice."""
    found = re.search(r"fn \w+\((.*)\) -> (\w+)", function.signature)
    listed = []
    for name, kind in re.findall(r"(\w+): ([^,]+)", found[1].rstrip(", ")):
        types = [it if it.endswith("*") else it + " " for it in CROSSES[kind]]
        listed += [it + at for it, at in zip(types, [name, length_of(name, kind)])]
    return f"static inline {CROSSES[found[2]][0]} {function.name}({', '.join(listed) or 'void'})"


def length_of(name, kind):
    """The name of a slice's length in C."""
    if kind.startswith("&mut"):
        return "room" if name in ("out", "values", "places") else f"{name}_room"
    if kind == "&[u8]":
        return "size" if name in ("bytes", "text", "payload") else f"{name}_size"
    return "count" if name in ("offsets", "places") else f"{name}_count"


def compare(is_to_write):
    """The faults, and how many exports there are."""
    header = text_of(f"{TOP}/bindings/kohiblad.h")
    made_header = with_stack(with_comments(with_new(header)))
    made_header = inline.with_parts(made_header, exports.declared_in(made_header))
    if is_to_write and made_header != header:
        write("kohiblad.h", made_header)
        header = made_header
    declared = exports.declared_in(header)
    signatures = [wrapped(f"{it.with_name('kohiblad_' + it.name)};") for it in declared]
    made = for_cffi(header, signatures)
    if is_to_write:
        write("kohiblad_cffi.h", made)
    faults = list(exports.faults_of_table(declared))
    if header != made_header:
        faults.append("kohiblad.h is not what is made of the code: tools/pages --write")
    if text_of(f"{TOP}/bindings/kohiblad_cffi.h") != made:
        faults.append("kohiblad_cffi.h is not that of the header: tools/pages --write")
    page = text_of(f"{TOP}/docs/C.md")
    right_page = with_blocks(page, header)
    if is_to_write and right_page != page:
        write("C.md", right_page, "docs")
        page = right_page
    if page != right_page:
        faults.append("docs/C.md has other figures or recipes: tools/pages --write")
    if not STACK_ROWS.search(page) or len(RECIPE.findall(page)) < 3:
        faults.append("docs/C.md lacks figures of stack or recipes")
    left = exported()
    right = {f"kohiblad_{it.name}": (it.result, [at.whole_type for at in it.arguments])
             for it in declared}
    for name in sorted(left.keys() | right.keys()):
        if left.get(name) != right.get(name):
            faults.append(f"{name}: the code has {left.get(name)}, the header {right.get(name)}")
    code = "".join(map(text_of, rattle.files_of("kohiblad")))
    faults += [*faults_of_structs(header, code), *faults_of_numbers(header, code),
               *faults_of_classes(header)]
    if not left:
        faults.append("the library has no exports")
    return faults, f"{len(left)} exports with {len(right)} declarations"


def faults_of_structs(header, code):
    """Where the fields of a struct differ."""
    for kind, struct in STRUCTS.items():
        there = re.search(rf"{struct} \{{(.*?)\n\}};", header, re.S)[1]
        wide = [(sign or "i", bits) for sign, bits in re.findall(r"(u?)int(\d+)_t \w+;", there)]
        if wide != rattle.widths_of_fields(code, kind):
            yield f"{struct}: the fields differ"


def faults_of_numbers(header, code):
    """Where a status differs."""
    numbers = {re.sub("_", "", name).lower(): number
               for name, number in re.findall(r"KOHIBLAD_(\w+) = (\d+)[,\s]", header)}
    for name, number in rattle.codes_of_errors(code).items():
        there = numbers.get(name.lower())
        if there != number:
            yield f"status {name}: the code has {number}, the header {there}"
    for name, number in rattle.numbers_in(code, "pub const").items():
        if numbers.get(re.sub("_", "", name).lower()) != number:
            yield f"status {name}: the header has another number than {number}"
    listed = re.search(r"enum kohiblad_status \{.*?\}", header, re.S)[0]
    page = text_of(f"{TOP}/docs/C.md")
    for name, number in re.findall(r"KOHIBLAD_(\w+) = (\d+)", listed):
        if f"| {number} | `{name}` |" not in page:
            yield f"docs/C.md does not list the status {number}, {name}"
        if header.count(f"case KOHIBLAD_{name}:") != 2:
            yield f"the header has no name or no reason of the status {name}"


def faults_of_classes(header):
    """Where a class of what may come in a text differs, or has no name."""
    code = text_of(f"{TOP}/crates/json_fault/src/classes.rt")
    classes = rattle.numbers_in(code, "pub const")
    there = dict(re.findall(r"KOHIBLAD_(EXPECTED_\w+) = (\w+)", header))
    if [(name, int(number, 0)) for name, number in classes.items()] \
            != [(name, int(number, 0)) for name, number in there.items()]:
        yield "the header has other classes than json_fault"
    for name in there:
        if header.count(f"case KOHIBLAD_{name}:") != 1:
            yield f"the header has no name of the class {name}"
