/* Null pointers with length 0, which the header's functions replace: each call answers and writes
 * as with a block of no bytes. */
#include "arguments.h"

#include <stdio.h>

/* Whether null is given in place of a region: of no bytes, and not of a struct or a count. */
static bool may_be_null(const struct export *it, int k) {
    return it->regions[k].role == READ || it->regions[k].role == VALUES;
}

/* A call with no bytes in one region, or in all of them, at null or elsewhere. */
static uint32_t call_without(const struct export *it, int region, void *at,
                             struct arguments *arguments) {
    *arguments = arguments_of(it);
    for (int k = 0; k < MOST_REGIONS; k++)
        if (may_be_null(it, k) && (region == k || region < 0))
            arguments->regions[k] = region_of(at, 0);
    return it->call(arguments);
}

static void test_null(const struct export *it, int region) {
    static uint64_t empty[2];
    static uint8_t before[MOST_REGIONS][ROOM];
    struct arguments arguments;
    uint32_t status = call_without(it, region, empty, &arguments);
    for (int k = 0; k < MOST_REGIONS; k++)
        if (it->regions[k].role > READ)
            memcpy(before[k], arguments.regions[k].at, arguments.regions[k].size);
    assert(call_without(it, region, NULL, &arguments) == status);
    for (int k = 0; k < MOST_REGIONS; k++)
        if (it->regions[k].role > READ && arguments.regions[k].size > 0)
            assert(!memcmp(before[k], arguments.regions[k].at, arguments.regions[k].size));
}

/* What no table says: a look-up in a prefix of no bytes, the words of a fault, the place of a key
 * that is not asked for, and the one offset of no texts. */
static void test_others(void) {
    static const uint8_t null[] = { 0x20, 0, 0, 0, 0, 0, 0, 0 }, whole[] = { 0x80, 0, 0, 0 };
    size_t length = 9, offset = 9;
    uint32_t short_offset = 9;
    assert(kohiblad_version() == KOHIBLAD_VERSION);
    assert(kohiblad_find_key_in_prefix(NULL, 0, 9, NULL, 0).status == KOHIBLAD_INVALID_EOF);
    assert(kohiblad_find_key_in_prefix(NULL, 0, 9, NULL, 0).length == 4);
    assert(kohiblad_find_index_in_prefix(NULL, 0, SIZE_MAX, SIZE_MAX).length == 4);
    assert(kohiblad_fault_words(NULL, 0, 9, 0, NULL, 0).status == KOHIBLAD_INVALID_JSON);
    struct kohiblad_cursor cursor = { 0, 0, 0 };
    struct kohiblad_place value;
    assert(kohiblad_begin(whole, sizeof whole, &cursor) == KOHIBLAD_OK);
    assert(kohiblad_next(whole, sizeof whole, &cursor, NULL, &value) == KOHIBLAD_NONE);
    assert(kohiblad_take_text(NULL, 0, NULL, 0, whole, sizeof whole, 1, NULL, 0, &length, NULL, 0,
                              NULL, 0).status == KOHIBLAD_NO_ROOM);
    assert(length == 0);
    assert(kohiblad_take_text(NULL, 0, NULL, 0, whole, sizeof whole, 1, NULL, 0, &length, &offset,
                              1, NULL, 0).status == KOHIBLAD_OK);
    assert(length == 0 && offset == 0);
    assert(kohiblad_take_text32_unchecked(NULL, 0, NULL, 0, whole, sizeof whole, 1, NULL, 0,
                                          &length, &short_offset, 1, NULL, 0).status
           == KOHIBLAD_OK);
    assert(length == 0 && short_offset == 0);
    /* Of an edit that is none of the four no value is read. */
    assert(kohiblad_edit(null, sizeof null, whole, sizeof whole, 4, NULL, 0, 9, NULL, 0, &length)
           == KOHIBLAD_OTHER_KIND);
    assert(kohiblad_edit(NULL, 0, whole, sizeof whole, 4, NULL, 0, 9, NULL, 0, &length)
           == KOHIBLAD_INVALID_JSONB);
}

/* The limit of a scalar's payload, of which no byte is read where the room is too small. */
static void test_limit(void) {
    size_t limit = (size_t)1 << 28, length;
    uint8_t *payload = calloc(limit, 1);
    assert(payload);
    assert(kohiblad_copy(KOHIBLAD_TYPE_STRING, payload, limit, NULL, 0, &length)
           == KOHIBLAD_INVALID_JSONB);
    assert(length == 0);
    assert(kohiblad_copy(KOHIBLAD_TYPE_STRING, payload, limit - 1, NULL, 0, &length)
           == KOHIBLAD_NO_ROOM);
    assert(length == limit + 7);
    assert(kohiblad_copy(KOHIBLAD_TYPE_CONTAINER, payload, limit, NULL, 0, &length)
           == KOHIBLAD_NO_ROOM);
    assert(length == limit);
    assert(kohiblad_copy(KOHIBLAD_TYPE_EXTENSION + 1, payload, limit, NULL, 0, &length)
           == KOHIBLAD_INVALID_JSONB_JENTRY);
    assert(length == 0);
    free(payload);
}

int main(void) {
    make_arguments();
    for (size_t i = 0; i < sizeof exports / sizeof *exports; i++) {
        test_null(&exports[i], -1);
        for (int k = 0; k < MOST_REGIONS; k++)
            if (may_be_null(&exports[i], k)) test_null(&exports[i], k);
    }
    test_others();
    test_limit();
    puts("null pointers with length 0: ok");
    return 0;
}
