/* How many levels a call survives on a stack of a given size: depths CALL KILOBYTES LEVELS SHAPE.
 * Ends well where the call came back, and prints how many bytes of the stack the call wrote to.
 * SHAPE is a or o, for nested arrays or objects. Without arguments it prints the calls whose stack
 * for a level was measured, each with the figure. */
#define _DEFAULT_SOURCE
#include "exports.h"

#include <pthread.h>
#include <stdio.h>
#include <stdlib.h>
#include <string.h>
#include <sys/mman.h>

/* What a stack is painted with, and how much below it has no access right. */
enum { PAINT = 0xa5, GUARD = 65536 };

static uint8_t *text, *in;
static size_t text_size, in_size, levels;
/* What a call writes. */
static uint8_t *out[MOST_REGIONS];
static size_t room;
/* The document once more, with another innermost number; both in a row; and the array of both. */
static uint8_t *more, *both, *pair;
static size_t pair_size;
/* A file of typed columns, of one row, which is the document, and no columns. */
static uint8_t *file;
static size_t file_size;
/* The ends of a worker's stack. */
static uint8_t *stack_end, *stack_top;
static const char *name;
static const uint8_t no_names[] = { 0x80, 0, 0, 0 };
static const uint8_t one_name[] = { 0x80, 0, 0, 1, 0x10, 0, 0, 1, 'a' };
static const uint8_t null[] = { 0x20, 0, 0, 0, 0, 0, 0, 0 }, object[] = { 0x40, 0, 0, 0 };

static uint8_t *put_word(uint8_t *at, uint32_t word) {
    for (int shift = 24; shift >= 0; shift -= 8) *at++ = (uint8_t)(word >> shift);
    return at;
}

/* The path to the innermost value: as many zeros, or keys, as there are levels. */
static uint8_t *path_of(size_t *size) {
    bool is_object = in[0] == 0x40;
    uint8_t *path = malloc(*size = 4 + 5 * levels), *at = path;
    if (!path) abort();
    at = put_word(at, 0x80000000 + (uint32_t)levels);
    for (size_t i = 0; i < levels; i++) at = put_word(at, is_object ? 0x10000001 : 0x20000001);
    memset(at, is_object ? 'a' : 0, levels);
    return path;
}

static uint32_t put_pretty(bool is_at, uint8_t *pretty, size_t pretty_room, size_t *length) {
    return is_at ? kohiblad_pretty_at(KOHIBLAD_TYPE_CONTAINER, in, in_size, levels, pretty,
                                      pretty_room, length)
                 : kohiblad_pretty(in, in_size, levels, pretty, pretty_room, length);
}

/* What an export is given to read, by the words of exports.h. */
static struct region given(const char *what) {
    static const uint8_t type[] = { KOHIBLAD_COLUMN_INT64, 0 };
    static const size_t pair_offsets[] = { 0, 0, SIZE_MAX };
    static size_t rows[3], pairs[3];
    static struct kohiblad_place no_place = { KOHIBLAD_NONE, 0, 0, 0 };
    memcpy(pairs, pair_offsets, sizeof pairs);
    pairs[2] = rows[1] = in_size;
    rows[2] = 2 * in_size;
    const struct { const char *what; const void *at; size_t size; } all[] = {
        { "document", in, in_size }, { "other", more, in_size }, { "text", text, text_size },
        { "rows", both, 2 * in_size }, { "offsets", rows, sizeof rows },
        { "pairs", in, in_size }, { "pair_offsets", pairs, sizeof pairs },
        { "file", file, file_size }, { "names", one_name, sizeof one_name },
        { "path", one_name, sizeof one_name }, { "types", type, sizeof type },
        { "path_text", "$", 1 }, { "jsonpath", "exists($.**)", 12 },
        { "no_jsonpath", "$.a[0:2]", 8 }, { "pointer", "/a", 2 }, { "key", "a", 1 },
        { "places", &no_place, sizeof no_place }, { "data", "", 0 }, { "values", "", 0 },
        { "states", "", 0 },
    };
    for (size_t i = 0; i < sizeof all / sizeof *all; i++)
        if (!strcmp(what, all[i].what))
            return (struct region){ (void *)(uintptr_t)all[i].at, all[i].size };
    abort();
}

/* Calls an export within a depth, with ample room for what it writes. */
static uint32_t call_within(const struct export *it, size_t depth) {
    struct arguments arguments = { { { NULL, 0 } }, depth };
    for (int k = 0; k < MOST_REGIONS && it->regions[k].role != NOTHING; k++)
        arguments.regions[k] = it->regions[k].role == READ ? given(it->regions[k].what)
            : (struct region){ out[k], room };
    return it->call(&arguments);
}

/* Each export looks no deeper than its depth, or into no child. */
static uint32_t call_bounded(void) {
    for (size_t i = 0; i < sizeof exports / sizeof *exports; i++) {
        uint32_t status = call_within(&exports[i], 64);
        if (!exports[i].has_depth || status == exports[i].deep) continue;
        printf("%s: the status is %u, not %u\n", exports[i].name, status, exports[i].deep);
        return status ? status : KOHIBLAD_INVALID_JSONB;
    }
    return KOHIBLAD_OK;
}

/* Calls what takes most of the stack with other arguments than its names say; false if that is not
 * so of the call. */
static bool call_by_hand(uint32_t *status) {
    size_t length = 0;
    const size_t row[] = { 0, in_size };
    if (!strcmp(name, "bounded")) {
        *status = call_bounded();
    } else if (!strcmp(name, "pretty") || !strcmp(name, "pretty_at")) {
        /* Without room the text is only counted. */
        bool is_at = !strcmp(name, "pretty_at");
        if (put_pretty(is_at, NULL, 0, &length) != KOHIBLAD_NO_ROOM) abort();
        uint8_t *pretty = malloc(length);
        if (!pretty) abort();
        *status = put_pretty(is_at, pretty, length, &length);
        if (*status != KOHIBLAD_OK) abort();
        free(pretty);
    } else if (!strcmp(name, "compare")) {
        bool is_below = kohiblad_compare(in, in_size, more, in_size, levels) == -1;
        *status = is_below ? KOHIBLAD_OK : KOHIBLAD_OTHER_KIND;
    } else if (!strcmp(name, "concat")) {
        *status = kohiblad_concat(in, in_size, in, in_size, levels, out[0], 0, &length);
    } else if (!strcmp(name, "merge_patch")) {
        *status = kohiblad_merge_patch(in, in_size, in, in_size, levels, out[0], room, &length);
        *status |= kohiblad_merge_patch(object, sizeof object, in, in_size, levels, out[0], room,
                                        &length);
    } else if (!strcmp(name, "pick")) {
        *status = kohiblad_pick(in, in_size, no_names, sizeof no_names, KOHIBLAD_OTHERS, levels,
                                out[0], room, &length);
    } else if (!strcmp(name, "array_distinct")) {
        *status = kohiblad_array_distinct(pair, pair_size, levels + 1, out[0], room, &length);
    } else if (!strcmp(name, "edit")) {
        size_t path_size;
        uint8_t *path = path_of(&path_size);
        bool is_object = in[0] == 0x40;
        *status = kohiblad_edit(in, in_size, path, path_size, KOHIBLAD_PUT, null, sizeof null,
                                levels, out[0], 0, &length);
        *status |= kohiblad_edit(is_object ? object : no_names, sizeof object, path, path_size,
                                 KOHIBLAD_CREATE, null, sizeof null, levels, out[0], room, &length);
        free(path);
    } else if (!strcmp(name, "get_path")) {
        size_t path_size;
        uint8_t *path = path_of(&path_size);
        *status = kohiblad_get_path(in, in_size, path, path_size, levels).status;
        free(path);
    } else if (!strcmp(name, "select") || !strcmp(name, "select_within")) {
        /* A path to the innermost value, with wildcards. */
        bool is_object = in[0] == 0x40;
        size_t each = is_object ? 2 : 3, size = 1 + each * levels;
        uint8_t *path = malloc(size);
        if (!path) abort();
        path[0] = '$';
        for (size_t i = 0; i < levels; i++)
            memcpy(path + 1 + each * i, is_object ? ".*" : "[*]", each);
        *status = name[6] ? kohiblad_select_within(in, in_size, path, size, levels, SIZE_MAX, NULL,
                                                   0, &length)
                          : kohiblad_select(in, in_size, path, size, levels, NULL, 0, &length);
        *status |= (uint32_t)(length != 1) << 8;
        free(path);
    } else if (!strcmp(name, "build_typed_file")) {
        *status = kohiblad_build_typed_file(in, in_size, row, 2, no_names, 4, NULL, 0, levels,
                                            out[0], room, &length);
    } else {
        return false;
    }
    return true;
}

static void *work(void *unused) {
    uint32_t status = KOHIBLAD_OTHER_KIND;
    if (!call_by_hand(&status))
        for (size_t i = 0; i < sizeof exports / sizeof *exports; i++)
            if (!strcmp(name, exports[i].name)) status = call_within(&exports[i], levels);
    /* An array has no keys. */
    if (status != KOHIBLAD_OK && status != KOHIBLAD_NO_ROOM && status != KOHIBLAD_NONE) abort();
    return unused;
}

static void text_of(size_t deep, int shape) {
    size_t each = shape == 'o' ? 5 : 1;
    text = malloc(text_size = deep * (each + 1) + 1);
    if (!text) abort();
    uint8_t *p = text;
    for (size_t i = 0; i < deep; i++, p += each) memcpy(p, shape == 'o' ? "{\"a\":" : "[", each);
    *p++ = '1';
    memset(p, shape == 'o' ? '}' : ']', deep);
}

/* Notes where the stack of the call begins, and calls. */
static void *noted(void *unused) {
    stack_top = __builtin_frame_address(0);
    return work(unused);
}

/* Runs the call on a stack of this size, and returns to how many bytes of it the call wrote. */
static size_t run(size_t size) {
    uint8_t *block = mmap(0, GUARD + size, PROT_READ | PROT_WRITE, MAP_PRIVATE | MAP_ANONYMOUS, -1,
                          0);
    if (block == MAP_FAILED || mprotect(block, GUARD, PROT_NONE)) exit(2);
    stack_end = block + GUARD;
    memset(stack_end, PAINT, size);
    pthread_attr_t attributes;
    pthread_t worker;
    pthread_attr_init(&attributes);
    if (pthread_attr_setstack(&attributes, stack_end, size)
        || pthread_create(&worker, &attributes, noted, NULL))
        exit(2);
    pthread_join(worker, NULL);
    uint8_t *lowest = stack_end;
    while (lowest < stack_top && *lowest == PAINT) lowest++;
    size_t used = (size_t)(stack_top - lowest);
    munmap(block, GUARD + size);
    return used;
}

/* The document of the text, whose depth takes no stack, and what calls compare it with. */
static void make_documents(bool is_object) {
    /* A level has a header, and of an object 9 bytes or of an array 4; the number has 2. */
    in_size = levels * (is_object ? 13 : 8) + 2;
    both = malloc(2 * in_size);
    pair = malloc(pair_size = 12 + 2 * in_size);
    size_t length;
    if (!both || !pair) abort();
    in = both;
    more = both + in_size;
    if (kohiblad_parse(text, text_size, levels, 0, in, in_size, &length) || length != in_size)
        abort();
    memcpy(more, in, in_size);
    more[in_size - 1]++;
    uint8_t *at = put_word(pair, 0x80000002);
    at = put_word(at, KOHIBLAD_TYPE_CONTAINER + (uint32_t)in_size);
    at = put_word(at, KOHIBLAD_TYPE_CONTAINER + (uint32_t)in_size);
    memcpy(at, both, 2 * in_size);

    file = malloc(file_size = 48 + in_size);
    if (!file) abort();
    memcpy(file, "KOHITYPE", 8);
    at = put_word(put_word(file + 8, 1), 0);
    /* Two offsets, and one document. */
    const size_t words[] = { 16, 0, in_size, in_size };
    for (int i = 0; i < 4; i++) at = put_word(put_word(at, 0), (uint32_t)words[i]);
    memcpy(at, in, in_size);
}

static void print_calls(void) {
    for (size_t i = 0; i < sizeof exports / sizeof *exports; i++)
        if (exports[i].level_stack)
            printf("%s %zu\n", exports[i].name, exports[i].level_stack);
}

int main(int argc, char **argv) {
    if (argc == 1) {
        print_calls();
        return 0;
    }
    if (argc != 5 || atol(argv[3]) < 1) return 2;
    name = argv[1];
    levels = (size_t)atol(argv[3]);
    text_of(levels, argv[4][0]);
    make_documents(argv[4][0] == 'o');
    room = 32 * in_size + 64;
    for (int k = 0; k < MOST_REGIONS; k++)
        if (!(out[k] = malloc(room))) return 2;
    printf("%s %zu %c %zu\n", name, levels, argv[4][0], run((size_t)atol(argv[2]) * 1024));
    return 0;
}
