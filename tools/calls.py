"""Compares tests/c_library/exports.h, by which tests call each export, with what is made of the
declarations of the exports and of tools/data/exports. It can be written.
"""
import exports
from inline import WIDTH, wrapped
from rattle import TOP, text_of

PATH = "tests/c_library/exports.h"
# What the tests give a number of this name; 0 if it has another one.
NUMBERS = {"type": "KOHIBLAD_TYPE_CONTAINER", "steps": "SIZE_MAX", "step": "1",
           "tag": "KOHIBLAD_DATE", "block_rows": "1", "depth": "it->depth"}
HEAD = '''\
/* Each function of the header that calls an export and takes memory of its caller, for tests of
 * them all: tools/pages makes this file of kohiblad.h and tools/data/exports. */
#ifndef EXPORTS_H
#define EXPORTS_H

#include "kohiblad.h"

/* Memory of a call. */
struct region {
    void *at;
    size_t size;
};

enum { MOST_REGIONS = %d };

struct arguments {
    struct region regions[MOST_REGIONS];
    size_t depth;
};

/* What is done with a region: it is read, or the call writes values to it, or how many these are,
 * or one struct. */
enum role { NOTHING, READ, VALUES, COUNT, STRUCT };

struct export {
    const char *name;
    bool takes_memory, has_depth;
    /* The bytes of stack for a level of a document, or 0; and the status if one nests deeper than
     * the depth. */
    size_t level_stack;
    uint32_t deep;
    struct {
        enum role role;
        size_t each;      /* the bytes of a value */
        const char *what; /* what is read */
    } regions[MOST_REGIONS];
    /* Returns the status, or what the call returns instead. */
    uint32_t (*call)(const struct arguments *it);
};

#define BYTES(k) it->regions[k].at, it->regions[k].size
#define ALL(k, type) it->regions[k].at, it->regions[k].size / sizeof(type)
#define ONE(k) it->regions[k].at

'''
ROWS = '''
#undef BYTES
#undef ALL
#undef ONE

#define READS(what, type) { READ, sizeof(type), #what }
#define WRITES(role, type) { role, sizeof(type), NULL }

static const struct export exports[] = {
'''
TAIL = '''};

#undef READS
#undef WRITES

#endif
'''


def call(export):
    """The function that calls an export with its arguments."""
    counts = {it.count for it in export.blocks}
    blocks = {it.name: (at, it) for at, it in enumerate(export.blocks)}
    passed = []
    for argument in export.arguments:
        at, block = blocks.get(argument.name, (None, None))
        if not block:
            if argument.name not in counts:
                passed.append(NUMBERS.get(argument.name, "0"))
        elif not block.count:
            passed.append(f"ONE({at})")
        else:
            passed.append(f"BYTES({at})" if block.type == "uint8_t" else f"ALL({at}, {block.type})")
    made = f"kohiblad_{export.name}({', '.join(passed)})"
    made = {"bool": f"{made} ? KOHIBLAD_OK : KOHIBLAD_INVALID_JSONB", "uint32_t": made,
            "int32_t": f"(uint32_t){made}"}.get(export.result, f"{made}.status")
    body = wrapped(f"    return {made};", WIDTH, " " * 8)
    return f"static uint32_t call_{export.name}(const struct arguments *it) {{\n{body}\n}}\n"


def region(export, block):
    """A region of a call, whose spaces are kept in one line."""
    role = "COUNT" if block.type == "size_t" else "STRUCT"
    if not block.is_written:
        text = f"READS({exports.given(export, block)}, {block.type})"
    else:
        text = f"WRITES({'VALUES' if block.count else role}, {block.type})"
    return text.replace(" ", "\0")


def row(export):
    """An export as a row of the table."""
    facts = exports.table().get(export.name)
    stack, deep = (facts.stack, facts.deep) if facts else ("-", "OK")
    stack = {"-": "0"}.get(stack, stack if stack.isdecimal() else f"KOHIBLAD_{stack.upper()}_STACK")
    takes_memory, has_depth = (str(it).lower() for it in (
        export.name in exports.takers_of_memory(), export.has_depth))
    listed = ", ".join(region(export, it) for it in export.blocks)
    return f'    {{ "{export.name}", {takes_memory}, {has_depth}, {stack}, KOHIBLAD_{deep},\n' \
        + wrapped(f"      {{ {listed} }}, call_{export.name} }},", WIDTH, " " * 8) + "\n"


def made(described):
    described = [it for it in described if it.blocks]
    most = max(len(it.blocks) for it in described)
    return "".join([HEAD % most, *map(call, described), ROWS, *map(row, described), TAIL])


def compare(is_to_write):
    """The faults, and how many calls there are."""
    described = exports.declared_in(text_of(exports.HEADER))
    text = made(described)
    if is_to_write:
        with open(f"{TOP}/{PATH}", "w", encoding="utf-8") as file:
            file.write(text)
    faults = [] if text_of(f"{TOP}/{PATH}") == text else \
        [f"{PATH} is not what is made of kohiblad.h: tools/pages --write"]
    return faults, f"{text.count('static uint32_t')} calls of tests/c_library"
