/* @> with a document that is asked of many rows, and <@.
 *
 * A call of the library checks both documents, all of each. So what is looked for is read once, and
 * kept from row to row. Of a row the header is looked at first, then a few members are looked up in
 * it, as -> does, and scalars are compared where they are found. Only the rest is left to the
 * library: what has many members or items, and what nests in arrays. Of a long document that is
 * stored all members are looked up, and only those values are fetched that are compared. */
#include "contain.h"
#include "kept.h"
#include "paths.h"

#include "miscadmin.h"

/* So many members, or items of an array, are looked for one by one. */
#define FEW 4

/* A value that is looked for, with the members or items that it has if they are few. */
typedef struct Wanted {
    Part value;
    Bytes key; /* of a member */
    bool is_array, is_simple;
    struct Wanted *children;
    size_t count;
} Wanted;

static void read_wanted(Part value, Wanted *wanted);

/* Reads the children of a container; whether all of them can be looked for one by one. */
static bool read_children(Bytes container, bool is_array, Wanted *wanted) {
    struct kohiblad_cursor cursor;
    struct kohiblad_place key, value;
    bool are_simple = true;
    uint32_t status = kohiblad_begin(container.at, container.size, &cursor);
    while (status == KOHIBLAD_OK && wanted->count < FEW) {
        CHECK_FOR_INTERRUPTS();
        status = kohiblad_next(container.at, container.size, &cursor, &key, &value);
        if (status != KOHIBLAD_OK) break;
        Wanted *child = &wanted->children[wanted->count++];
        read_wanted(part_at(container, value), child);
        if (!is_array) child->key = part_at(container, key).payload;
        are_simple = are_simple && !(is_array && is_container(child->value));
    }
    if (status != KOHIBLAD_OK && status != KOHIBLAD_NONE) refuse(status, ERRCODE_DATA_CORRUPTED);
    return are_simple;
}

/* Reads a value. What is not simple is left to the library. */
static void read_wanted(Part value, Wanted *wanted) {
    check_stack_depth();
    *wanted = (Wanted){.value = value, .is_simple = true};
    if (!is_container(value)) return;
    wanted->is_simple = false;
    wanted->is_array = is_array(value);
    if (kind_of(value.payload).count > FEW) return;
    wanted->children = palloc0(FEW * sizeof *wanted->children);
    wanted->is_simple = read_children(value.payload, wanted->is_array, wanted);
}

static void *make_wanted(struct varlena *argument) {
    Wanted *whole = palloc(sizeof *whole);
    read_wanted(part_of_document(bytes_of(argument)), whole);
    return whole;
}

/* Whether two scalars are equal, the first of which is fetched if it may be. */
static bool are_equal_scalars(Sliced *document, Part left, Part right) {
    bool are_texts = right.type == KOHIBLAD_TYPE_STRING;
    if (left.type != right.type) return false;
    if (are_texts && left.payload.size != right.payload.size) return false;
    fetch_part(document, left);
    if (are_texts) return memcmp(left.payload.at, right.payload.at, left.payload.size) == 0;
    return compare_scalars(left, right) == 0;
}

/* Whether an array has an item that is equal to a scalar. */
static bool has_scalar(Bytes array, Part scalar) {
    struct kohiblad_cursor cursor;
    struct kohiblad_place place;
    uint32_t status = kohiblad_begin(array.at, array.size, &cursor);
    while (status == KOHIBLAD_OK) {
        CHECK_FOR_INTERRUPTS();
        status = kohiblad_next(array.at, array.size, &cursor, NULL, &place);
        if (status != KOHIBLAD_OK) break;
        Part item = part_at(array, place);
        if (!is_container(item) && are_equal_scalars(NULL, item, scalar)) return true;
    }
    if (status != KOHIBLAD_NONE) refuse(status, ERRCODE_DATA_CORRUPTED);
    return false;
}

static bool contains_wanted(Sliced *document, Part value, const Wanted *wanted);

static bool has_items(Bytes array, const Wanted *wanted) {
    for (size_t i = 0; i < wanted->count; i++)
        if (!has_scalar(array, wanted->children[i].value)) return false;
    return true;
}

static bool has_members(Sliced *document, Bytes object, const Wanted *wanted) {
    for (size_t i = 0; i < wanted->count; i++) {
        Part value;
        const Wanted *member = &wanted->children[i];
        if (!find_key_in(document, object, member->key, &value)) return false;
        if (!contains_wanted(document, value, member)) return false;
    }
    return true;
}

/* The same for any number of members: the keys of both objects are walked over in their order. */
static bool has_many_members(Sliced *document, Bytes object, Bytes wanted) {
    struct kohiblad_cursor cursor, wanted_cursor;
    struct kohiblad_place key, place;
    Part value;
    Wanted member;
    uint32_t status = begin_members_in(document, object, &cursor);
    if (status == KOHIBLAD_OK) status = kohiblad_begin(wanted.at, wanted.size, &wanted_cursor);
    while (status == KOHIBLAD_OK) {
        status = kohiblad_next(wanted.at, wanted.size, &wanted_cursor, &key, &place);
        if (status != KOHIBLAD_OK) break;
        if (!move_to_key(object, &cursor, part_at(wanted, key).payload, &value)) return false;
        read_wanted(part_at(wanted, place), &member);
        if (!contains_wanted(document, value, &member)) return false;
    }
    if (status != KOHIBLAD_NONE) refuse(status, ERRCODE_DATA_CORRUPTED);
    return true;
}

static bool contains_wanted(Sliced *document, Part value, const Wanted *wanted) {
    check_stack_depth();
    if (is_container(value) != is_container(wanted->value)) return false;
    if (!is_container(value)) return are_equal_scalars(document, value, wanted->value);
    if (is_array_in(document, value) != wanted->is_array) return false;
    if (!wanted->is_array && wanted->is_simple)
        return has_members(document, value.payload, wanted);
    if (!wanted->is_array && is_stored(document))
        return has_many_members(document, value.payload, wanted->value.payload);
    fetch_part(document, value);
    return wanted->is_simple ? has_items(value.payload, wanted)
                             : contains_value(value, wanted->value);
}

/* At the top an array contains a scalar that is one of its items. */
static bool contains_at_top(Sliced *document, Part whole, const Wanted *wanted) {
    if (is_container(wanted->value) || !is_array_in(document, whole))
        return contains_wanted(document, whole, wanted);
    fetch_part(document, whole);
    return has_scalar(whole.payload, wanted->value);
}

PG_FUNCTION_INFO_V1(pg_kohiblad_contains);
Datum pg_kohiblad_contains(PG_FUNCTION_ARGS) {
    Sliced document;
    Part whole = open_sliced(&document, PG_GETARG_RAW_VARLENA_P(0));
    const Wanted *wanted = made_of_argument(fcinfo, 1, make_wanted);
    bool result = contains_at_top(&document, whole, wanted);
    close_sliced(&document);
    PG_RETURN_BOOL(result);
}

PG_FUNCTION_INFO_V1(pg_kohiblad_contained);
Datum pg_kohiblad_contained(PG_FUNCTION_ARGS) {
    struct varlena *inner = PG_GETARG_VARLENA_PP(0);
    Sliced document;
    bool result;
    Part whole = open_sliced(&document, PG_GETARG_RAW_VARLENA_P(1));
    if (is_stored(&document)) {
        Wanted wanted;
        read_wanted(part_of_document(bytes_of(inner)), &wanted);
        result = contains_at_top(&document, whole, &wanted);
    } else {
        result = contains_document(whole_of(&document), bytes_of(inner));
    }
    PG_FREE_IF_COPY(inner, 0);
    close_sliced(&document);
    PG_RETURN_BOOL(result);
}
