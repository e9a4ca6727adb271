/* What the tests of all exports give these to read, by the words of exports.h: each call that takes
 * memory accepts it, and takes some. */
#ifndef ARGUMENTS_H
#define ARGUMENTS_H

#include "exports.h"

#include <assert.h>
#include <stdlib.h>
#include <string.h>

enum { ROOM = 4096 };

/* A JSON text, and the document of it. One array is so long that its items are sorted. */
static const char json[] = "{\"a\":1,\"b\":[true,\"\\u00e9\"],"
                           "\"c\":{\"d\":\"e\",\"f\":-12.5,\"g\":[[],{}]},"
                           "\"h\":[1,2,3,4,5,6,7,8,9,10,11,12,13,14,15,16,17]}";
static uint8_t document[ROOM], path[ROOM], names[ROOM], file[ROOM];
static size_t document_size, path_size, names_size, file_size;
/* Twice the document, and both after a key. */
static uint8_t rows[2 * ROOM], pairs[2 * ROOM];
static size_t offsets[3], pair_offsets[5];
/* For each of the names a type: whole numbers. */
static uint8_t types[18];
static struct kohiblad_place no_place = { KOHIBLAD_NONE, 0, 0, 0 };

static struct region region_of(const void *at, size_t size) {
    struct region it = { (void *)(uintptr_t)at, size };
    return it;
}

static struct region region_of_text(const char *text) { return region_of(text, strlen(text)); }

/* What a call reads. */
static struct region given(const char *what) {
    const struct { const char *what; struct region region; } all[] = {
        { "document", region_of(document, document_size) },
        { "other", region_of(document, document_size) },
        { "text", region_of_text(json) },
        { "key", region_of_text("b") },
        { "names", region_of(names, names_size) },
        { "path", region_of(path, path_size) },
        { "path_text", region_of_text("$.c.g[0]") },
        { "jsonpath", region_of_text("exists($.c.g[*] ? (@ != 1))") },
        { "no_jsonpath", region_of_text("$.c.g[0:2]") },
        { "pointer", region_of_text("/c/g/0") },
        { "rows", region_of(rows, offsets[2]) },
        { "offsets", region_of(offsets, sizeof offsets) },
        { "pairs", region_of(pairs, pair_offsets[4]) },
        { "pair_offsets", region_of(pair_offsets, sizeof pair_offsets) },
        { "places", region_of(&no_place, sizeof no_place) },
        { "types", region_of(types, sizeof types) },
        { "file", region_of(file, file_size) },
        { "data", region_of("", 0) },
        /* Of no values. */
        { "values", region_of("", 0) },
        { "states", region_of("", 0) },
        /* What tests give in place of others. */
        { "list", region_of_text("{c,\"g\",0}") },
        { "selection", region_of_text("$.c.g[last, 0]") },
        { "wildcard", region_of_text("$.*") },
    };
    for (size_t i = 0; i < sizeof all / sizeof *all; i++)
        if (!strcmp(what, all[i].what)) return all[i].region;
    abort();
}

static void parse_into(const char *text, uint8_t *out, size_t *size) {
    assert(kohiblad_parse((const uint8_t *)text, strlen(text), 8, KOHIBLAD_EXPONENTS_FORBIDDEN, out,
                          ROOM, size) == KOHIBLAD_OK);
}

static void make_arguments(void) {
    parse_into(json, document, &document_size);
    parse_into("[\"c\",\"g\",-1]", path, &path_size);
    /* So many that a table of the members is made. */
    parse_into("[\"a\",\"b\",\"c\",\"d\",\"e\",\"w\",\"x\",\"y\",\"z\"]", names, &names_size);
    size_t size = 0;
    for (int i = 0; i < 2; i++) {
        memcpy(rows + i * document_size, document, document_size);
        offsets[i + 1] = (i + 1) * document_size;
        pairs[size] = i ? 'y' : 'x';
        memcpy(pairs + size + 1, document, document_size);
        pair_offsets[2 * i + 1] = size + 1;
        pair_offsets[2 * i + 2] = size += 1 + document_size;
    }
    for (size_t i = 0; i < sizeof types; i += 2) types[i] = KOHIBLAD_COLUMN_INT64;
    assert(kohiblad_build_typed_file(rows, offsets[2], offsets, 3, names, names_size, types,
                                     sizeof types, 8, file, ROOM, &file_size) == KOHIBLAD_OK);
}

/* The arguments of a call: what it reads, and for what it writes blocks that are full of a byte. */
static struct arguments arguments_of(const struct export *it) {
    enum { PAINT = 0xA5 };
    static uint64_t written[MOST_REGIONS][ROOM / sizeof(uint64_t)];
    struct arguments made = { { { NULL, 0 } }, 8 };
    memset(written, PAINT, sizeof written);
    for (int k = 0; k < MOST_REGIONS; k++)
        made.regions[k] = it->regions[k].role == READ ? given(it->regions[k].what)
            : region_of(written[k], it->regions[k].role == VALUES ? ROOM : it->regions[k].each);
    return made;
}

/* Whether a block that a call may write is as `arguments_of` made it. */
static bool is_unwritten(struct region region) {
    const uint8_t *bytes = region.at;
    for (size_t i = 0; i < region.size; i++)
        if (bytes[i] != 0xA5) return false;
    return true;
}

#endif
