/* Each function of the header that calls an export and takes memory of its caller, for tests of
 * them all: tools/pages makes this file of kohiblad.h and tools/data/exports. */
#ifndef EXPORTS_H
#define EXPORTS_H

#include "kohiblad.h"

/* Memory of a call. */
struct region {
    void *at;
    size_t size;
};

enum { MOST_REGIONS = 7 };

struct arguments {
    struct region regions[MOST_REGIONS];
    size_t depth;
};

/* What is done with a region: it is read, or the call writes values to it, or how many these are,
 * or one struct. */
enum role { NOTHING, READ, VALUES, COUNT, STRUCT };

struct export {
    const char *name;
    bool takes_memory, has_depth;
    /* The bytes of stack for a level of a document, or 0; and the status if one nests deeper than
     * the depth. */
    size_t level_stack;
    uint32_t deep;
    struct {
        enum role role;
        size_t each;      /* the bytes of a value */
        const char *what; /* what is read */
    } regions[MOST_REGIONS];
    /* Returns the status, or what the call returns instead. */
    uint32_t (*call)(const struct arguments *it);
};

#define BYTES(k) it->regions[k].at, it->regions[k].size
#define ALL(k, type) it->regions[k].at, it->regions[k].size / sizeof(type)
#define ONE(k) it->regions[k].at

static uint32_t call_status_name(const struct arguments *it) {
    return kohiblad_status_name(0, BYTES(0), ONE(1));
}
static uint32_t call_check(const struct arguments *it) {
    return kohiblad_check(BYTES(0), it->depth) ? KOHIBLAD_OK : KOHIBLAD_INVALID_JSONB;
}
static uint32_t call_compare(const struct arguments *it) {
    return (uint32_t)kohiblad_compare(BYTES(0), BYTES(1), it->depth);
}
static uint32_t call_kind(const struct arguments *it) {
    return kohiblad_kind(BYTES(0)).status;
}
static uint32_t call_get_key(const struct arguments *it) {
    return kohiblad_get_key(BYTES(0), BYTES(1), BYTES(2), ONE(3));
}
static uint32_t call_find_key(const struct arguments *it) {
    return kohiblad_find_key(BYTES(0), BYTES(1)).status;
}
static uint32_t call_find_index(const struct arguments *it) {
    return kohiblad_find_index(BYTES(0), 0).status;
}
static uint32_t call_find_key_in_prefix(const struct arguments *it) {
    return kohiblad_find_key_in_prefix(BYTES(0), 0, BYTES(1)).status;
}
static uint32_t call_find_index_in_prefix(const struct arguments *it) {
    return kohiblad_find_index_in_prefix(BYTES(0), 0, 0).status;
}
static uint32_t call_begin(const struct arguments *it) {
    return kohiblad_begin(BYTES(0), ONE(1));
}
static uint32_t call_next(const struct arguments *it) {
    return kohiblad_next(BYTES(0), ONE(1), ONE(2), ONE(3));
}
static uint32_t call_copy(const struct arguments *it) {
    return kohiblad_copy(KOHIBLAD_TYPE_CONTAINER, BYTES(0), BYTES(1), ONE(2));
}
static uint32_t call_get_index(const struct arguments *it) {
    return kohiblad_get_index(BYTES(0), 0, BYTES(1), ONE(2));
}
static uint32_t call_get_member(const struct arguments *it) {
    return kohiblad_get_member(BYTES(0), 0, BYTES(1), ONE(2), BYTES(3), ONE(4));
}
static uint32_t call_as_decimal(const struct arguments *it) {
    return kohiblad_as_decimal(BYTES(0)).status;
}
static uint32_t call_as_int64(const struct arguments *it) {
    return kohiblad_as_int64(BYTES(0)).status;
}
static uint32_t call_as_string(const struct arguments *it) {
    return kohiblad_as_string(BYTES(0)).status;
}
static uint32_t call_as_boolean(const struct arguments *it) {
    return kohiblad_as_boolean(BYTES(0)).status;
}
static uint32_t call_as_extension(const struct arguments *it) {
    return kohiblad_as_extension(BYTES(0)).status;
}
static uint32_t call_of_null(const struct arguments *it) {
    return kohiblad_of_null(BYTES(0), ONE(1));
}
static uint32_t call_of_boolean(const struct arguments *it) {
    return kohiblad_of_boolean(0, BYTES(0), ONE(1));
}
static uint32_t call_of_string(const struct arguments *it) {
    return kohiblad_of_string(BYTES(0), BYTES(1), ONE(2));
}
static uint32_t call_of_int64(const struct arguments *it) {
    return kohiblad_of_int64(0, BYTES(0), ONE(1));
}
static uint32_t call_of_decimal(const struct arguments *it) {
    return kohiblad_of_decimal(0, 0, 0, BYTES(0), ONE(1));
}
static uint32_t call_of_extension(const struct arguments *it) {
    return kohiblad_of_extension(KOHIBLAD_DATE, 0, 0, 0, 0, BYTES(0), BYTES(1), ONE(2));
}
static uint32_t call_print(const struct arguments *it) {
    return kohiblad_print(BYTES(0), it->depth, BYTES(1), ONE(2));
}
static uint32_t call_pretty(const struct arguments *it) {
    return kohiblad_pretty(BYTES(0), it->depth, BYTES(1), ONE(2));
}
static uint32_t call_print_at(const struct arguments *it) {
    return kohiblad_print_at(KOHIBLAD_TYPE_CONTAINER, BYTES(0), it->depth, BYTES(1), ONE(2));
}
static uint32_t call_pretty_at(const struct arguments *it) {
    return kohiblad_pretty_at(KOHIBLAD_TYPE_CONTAINER, BYTES(0), it->depth, BYTES(1), ONE(2));
}
static uint32_t call_parse(const struct arguments *it) {
    return kohiblad_parse(BYTES(0), it->depth, 0, BYTES(1), ONE(2));
}
static uint32_t call_text_fault(const struct arguments *it) {
    return kohiblad_text_fault(BYTES(0), it->depth, 0).status;
}
static uint32_t call_text_expected(const struct arguments *it) {
    return kohiblad_text_expected(BYTES(0), it->depth, 0).status;
}
static uint32_t call_build_array(const struct arguments *it) {
    return kohiblad_build_array(BYTES(0), ALL(1, size_t), it->depth, BYTES(2), ONE(3));
}
static uint32_t call_build_object(const struct arguments *it) {
    return kohiblad_build_object(BYTES(0), ALL(1, size_t), it->depth, BYTES(2), ONE(3));
}
static uint32_t call_is_canonical(const struct arguments *it) {
    return kohiblad_is_canonical(BYTES(0), it->depth) ? KOHIBLAD_OK : KOHIBLAD_INVALID_JSONB;
}
static uint32_t call_canonical(const struct arguments *it) {
    return kohiblad_canonical(BYTES(0), it->depth, BYTES(1), ONE(2));
}
static uint32_t call_key(const struct arguments *it) {
    return kohiblad_key(BYTES(0), it->depth, BYTES(1), ONE(2));
}
static uint32_t call_key_cut(const struct arguments *it) {
    return kohiblad_key_cut(BYTES(0), it->depth, BYTES(1), ONE(2));
}
static uint32_t call_member_key(const struct arguments *it) {
    return kohiblad_member_key(BYTES(0), BYTES(1), it->depth, BYTES(2), ONE(3));
}
static uint32_t call_sort(const struct arguments *it) {
    return kohiblad_sort(BYTES(0), ALL(1, size_t), it->depth, ALL(2, size_t));
}
static uint32_t call_survey(const struct arguments *it) {
    return kohiblad_survey(BYTES(0), ALL(1, size_t), BYTES(2), it->depth).status;
}
static uint32_t call_take_int64(const struct arguments *it) {
    return kohiblad_take_int64(BYTES(0), ALL(1, size_t), BYTES(2), it->depth, 0, ALL(3, int64_t),
        BYTES(4)).status;
}
static uint32_t call_take_uint64(const struct arguments *it) {
    return kohiblad_take_uint64(BYTES(0), ALL(1, size_t), BYTES(2), it->depth, 0, ALL(3, uint64_t),
        BYTES(4)).status;
}
static uint32_t call_take_decimal(const struct arguments *it) {
    return kohiblad_take_decimal(BYTES(0), ALL(1, size_t), BYTES(2), it->depth, 0, 0, ALL(3,
        struct kohiblad_int128), BYTES(4)).status;
}
static uint32_t call_take_boolean(const struct arguments *it) {
    return kohiblad_take_boolean(BYTES(0), ALL(1, size_t), BYTES(2), it->depth, BYTES(3),
        BYTES(4)).status;
}
static uint32_t call_take_text(const struct arguments *it) {
    return kohiblad_take_text(BYTES(0), ALL(1, size_t), BYTES(2), it->depth, BYTES(3), ONE(4),
        ALL(5, size_t), BYTES(6)).status;
}
static uint32_t call_take_int64_unchecked(const struct arguments *it) {
    return kohiblad_take_int64_unchecked(BYTES(0), ALL(1, size_t), BYTES(2), it->depth, 0, ALL(3,
        int64_t), BYTES(4)).status;
}
static uint32_t call_take_uint64_unchecked(const struct arguments *it) {
    return kohiblad_take_uint64_unchecked(BYTES(0), ALL(1, size_t), BYTES(2), it->depth, 0, ALL(3,
        uint64_t), BYTES(4)).status;
}
static uint32_t call_take_decimal_unchecked(const struct arguments *it) {
    return kohiblad_take_decimal_unchecked(BYTES(0), ALL(1, size_t), BYTES(2), it->depth, 0, 0,
        ALL(3, struct kohiblad_int128), BYTES(4)).status;
}
static uint32_t call_take_boolean_unchecked(const struct arguments *it) {
    return kohiblad_take_boolean_unchecked(BYTES(0), ALL(1, size_t), BYTES(2), it->depth, BYTES(3),
        BYTES(4)).status;
}
static uint32_t call_take_text_unchecked(const struct arguments *it) {
    return kohiblad_take_text_unchecked(BYTES(0), ALL(1, size_t), BYTES(2), it->depth, BYTES(3),
        ONE(4), ALL(5, size_t), BYTES(6)).status;
}
static uint32_t call_take_text32(const struct arguments *it) {
    return kohiblad_take_text32(BYTES(0), ALL(1, size_t), BYTES(2), it->depth, BYTES(3), ONE(4),
        ALL(5, uint32_t), BYTES(6)).status;
}
static uint32_t call_take_text32_unchecked(const struct arguments *it) {
    return kohiblad_take_text32_unchecked(BYTES(0), ALL(1, size_t), BYTES(2), it->depth, BYTES(3),
        ONE(4), ALL(5, uint32_t), BYTES(6)).status;
}
static uint32_t call_take_binary(const struct arguments *it) {
    return kohiblad_take_binary(BYTES(0), ALL(1, size_t), BYTES(2), it->depth, BYTES(3), ONE(4),
        ALL(5, size_t), BYTES(6)).status;
}
static uint32_t call_take_binary_unchecked(const struct arguments *it) {
    return kohiblad_take_binary_unchecked(BYTES(0), ALL(1, size_t), BYTES(2), it->depth, BYTES(3),
        ONE(4), ALL(5, size_t), BYTES(6)).status;
}
static uint32_t call_take_date(const struct arguments *it) {
    return kohiblad_take_date(BYTES(0), ALL(1, size_t), BYTES(2), it->depth, ALL(3, int32_t),
        BYTES(4)).status;
}
static uint32_t call_take_date_unchecked(const struct arguments *it) {
    return kohiblad_take_date_unchecked(BYTES(0), ALL(1, size_t), BYTES(2), it->depth, ALL(3,
        int32_t), BYTES(4)).status;
}
static uint32_t call_take_timestamp(const struct arguments *it) {
    return kohiblad_take_timestamp(BYTES(0), ALL(1, size_t), BYTES(2), it->depth, ALL(3, int64_t),
        BYTES(4)).status;
}
static uint32_t call_take_timestamp_unchecked(const struct arguments *it) {
    return kohiblad_take_timestamp_unchecked(BYTES(0), ALL(1, size_t), BYTES(2), it->depth, ALL(3,
        int64_t), BYTES(4)).status;
}
static uint32_t call_take_timestamp_tz(const struct arguments *it) {
    return kohiblad_take_timestamp_tz(BYTES(0), ALL(1, size_t), BYTES(2), it->depth, ALL(3,
        struct kohiblad_timestamp_tz), BYTES(4)).status;
}
static uint32_t call_take_timestamp_tz_unchecked(const struct arguments *it) {
    return kohiblad_take_timestamp_tz_unchecked(BYTES(0), ALL(1, size_t), BYTES(2), it->depth,
        ALL(3, struct kohiblad_timestamp_tz), BYTES(4)).status;
}
static uint32_t call_take_interval(const struct arguments *it) {
    return kohiblad_take_interval(BYTES(0), ALL(1, size_t), BYTES(2), it->depth, ALL(3,
        struct kohiblad_interval), BYTES(4)).status;
}
static uint32_t call_take_interval_unchecked(const struct arguments *it) {
    return kohiblad_take_interval_unchecked(BYTES(0), ALL(1, size_t), BYTES(2), it->depth, ALL(3,
        struct kohiblad_interval), BYTES(4)).status;
}
static uint32_t call_zones_int64(const struct arguments *it) {
    return kohiblad_zones_int64(ALL(0, int64_t), BYTES(1), 1, ALL(2, struct kohiblad_int64_zone),
        ONE(3));
}
static uint32_t call_zones_uint64(const struct arguments *it) {
    return kohiblad_zones_uint64(ALL(0, uint64_t), BYTES(1), 1, ALL(2, struct kohiblad_uint64_zone),
        ONE(3));
}
static uint32_t call_zones_decimal(const struct arguments *it) {
    return kohiblad_zones_decimal(ALL(0, struct kohiblad_int128), BYTES(1), 1, ALL(2,
        struct kohiblad_decimal_zone), ONE(3));
}
static uint32_t call_zones_date(const struct arguments *it) {
    return kohiblad_zones_date(ALL(0, int32_t), BYTES(1), 1, ALL(2, struct kohiblad_date_zone),
        ONE(3));
}
static uint32_t call_build_typed_file(const struct arguments *it) {
    return kohiblad_build_typed_file(BYTES(0), ALL(1, size_t), BYTES(2), BYTES(3), it->depth,
        BYTES(4), ONE(5));
}
static uint32_t call_check_typed_file(const struct arguments *it) {
    return kohiblad_check_typed_file(BYTES(0), it->depth).status;
}
static uint32_t call_typed_columns(const struct arguments *it) {
    return kohiblad_typed_columns(BYTES(0), ALL(1, struct kohiblad_typed_column), ONE(2));
}
static uint32_t call_typed_row(const struct arguments *it) {
    return kohiblad_typed_row(BYTES(0), 0, it->depth, BYTES(1), ONE(2));
}
static uint32_t call_locate(const struct arguments *it) {
    return kohiblad_locate(BYTES(0), ALL(1, size_t), BYTES(2), it->depth, ALL(3,
        struct kohiblad_place));
}
static uint32_t call_locate_unchecked(const struct arguments *it) {
    return kohiblad_locate_unchecked(BYTES(0), ALL(1, size_t), BYTES(2), it->depth, ALL(3,
        struct kohiblad_place));
}
static uint32_t call_take_int64_at(const struct arguments *it) {
    return kohiblad_take_int64_at(BYTES(0), ALL(1, struct kohiblad_place), 1, 0, ALL(2, int64_t),
        BYTES(3)).status;
}
static uint32_t call_take_uint64_at(const struct arguments *it) {
    return kohiblad_take_uint64_at(BYTES(0), ALL(1, struct kohiblad_place), 1, 0, ALL(2, uint64_t),
        BYTES(3)).status;
}
static uint32_t call_take_decimal_at(const struct arguments *it) {
    return kohiblad_take_decimal_at(BYTES(0), ALL(1, struct kohiblad_place), 1, 0, 0, ALL(2,
        struct kohiblad_int128), BYTES(3)).status;
}
static uint32_t call_take_boolean_at(const struct arguments *it) {
    return kohiblad_take_boolean_at(BYTES(0), ALL(1, struct kohiblad_place), 1, BYTES(2),
        BYTES(3)).status;
}
static uint32_t call_take_date_at(const struct arguments *it) {
    return kohiblad_take_date_at(BYTES(0), ALL(1, struct kohiblad_place), 1, ALL(2, int32_t),
        BYTES(3)).status;
}
static uint32_t call_take_timestamp_at(const struct arguments *it) {
    return kohiblad_take_timestamp_at(BYTES(0), ALL(1, struct kohiblad_place), 1, ALL(2, int64_t),
        BYTES(3)).status;
}
static uint32_t call_take_timestamp_tz_at(const struct arguments *it) {
    return kohiblad_take_timestamp_tz_at(BYTES(0), ALL(1, struct kohiblad_place), 1, ALL(2,
        struct kohiblad_timestamp_tz), BYTES(3)).status;
}
static uint32_t call_take_interval_at(const struct arguments *it) {
    return kohiblad_take_interval_at(BYTES(0), ALL(1, struct kohiblad_place), 1, ALL(2,
        struct kohiblad_interval), BYTES(3)).status;
}
static uint32_t call_take_text_at(const struct arguments *it) {
    return kohiblad_take_text_at(BYTES(0), ALL(1, struct kohiblad_place), 1, BYTES(2), ONE(3),
        ALL(4, size_t), BYTES(5)).status;
}
static uint32_t call_take_text32_at(const struct arguments *it) {
    return kohiblad_take_text32_at(BYTES(0), ALL(1, struct kohiblad_place), 1, BYTES(2), ONE(3),
        ALL(4, uint32_t), BYTES(5)).status;
}
static uint32_t call_take_binary_at(const struct arguments *it) {
    return kohiblad_take_binary_at(BYTES(0), ALL(1, struct kohiblad_place), 1, BYTES(2), ONE(3),
        ALL(4, size_t), BYTES(5)).status;
}
static uint32_t call_contains(const struct arguments *it) {
    return kohiblad_contains(BYTES(0), BYTES(1), it->depth, SIZE_MAX).status;
}
static uint32_t call_exists(const struct arguments *it) {
    return kohiblad_exists(BYTES(0), BYTES(1), it->depth).status;
}
static uint32_t call_exists_any(const struct arguments *it) {
    return kohiblad_exists_any(BYTES(0), BYTES(1), it->depth).status;
}
static uint32_t call_exists_all(const struct arguments *it) {
    return kohiblad_exists_all(BYTES(0), BYTES(1), it->depth).status;
}
static uint32_t call_concat(const struct arguments *it) {
    return kohiblad_concat(BYTES(0), BYTES(1), it->depth, BYTES(2), ONE(3));
}
static uint32_t call_merge_patch(const struct arguments *it) {
    return kohiblad_merge_patch(BYTES(0), BYTES(1), it->depth, BYTES(2), ONE(3));
}
static uint32_t call_strip_nulls(const struct arguments *it) {
    return kohiblad_strip_nulls(BYTES(0), it->depth, BYTES(1), ONE(2));
}
static uint32_t call_pick(const struct arguments *it) {
    return kohiblad_pick(BYTES(0), BYTES(1), 0, it->depth, BYTES(2), ONE(3));
}
static uint32_t call_object_keys(const struct arguments *it) {
    return kohiblad_object_keys(BYTES(0), it->depth, BYTES(1), ONE(2));
}
static uint32_t call_array_distinct(const struct arguments *it) {
    return kohiblad_array_distinct(BYTES(0), it->depth, BYTES(1), ONE(2));
}
static uint32_t call_array_intersection(const struct arguments *it) {
    return kohiblad_array_intersection(BYTES(0), BYTES(1), it->depth, BYTES(2), ONE(3));
}
static uint32_t call_array_except(const struct arguments *it) {
    return kohiblad_array_except(BYTES(0), BYTES(1), it->depth, BYTES(2), ONE(3));
}
static uint32_t call_array_overlap(const struct arguments *it) {
    return kohiblad_array_overlap(BYTES(0), BYTES(1), it->depth).status;
}
static uint32_t call_edit(const struct arguments *it) {
    return kohiblad_edit(BYTES(0), BYTES(1), 0, BYTES(2), it->depth, BYTES(3), ONE(4));
}
static uint32_t call_path_of_text(const struct arguments *it) {
    return kohiblad_path_of_text(BYTES(0), BYTES(1), ONE(2));
}
static uint32_t call_path_in(const struct arguments *it) {
    return kohiblad_path_in(BYTES(0), BYTES(1), it->depth, BYTES(2), ONE(3));
}
static uint32_t call_get_path(const struct arguments *it) {
    return kohiblad_get_path(BYTES(0), BYTES(1), it->depth).status;
}
static uint32_t call_select(const struct arguments *it) {
    return kohiblad_select(BYTES(0), BYTES(1), it->depth, ALL(2, struct kohiblad_place), ONE(3));
}
static uint32_t call_select_within(const struct arguments *it) {
    return kohiblad_select_within(BYTES(0), BYTES(1), it->depth, SIZE_MAX, ALL(2,
        struct kohiblad_place), ONE(3));
}
static uint32_t call_index_keys(const struct arguments *it) {
    return kohiblad_index_keys(BYTES(0), it->depth, ALL(1, uint64_t), ONE(2));
}
static uint32_t call_top_keys(const struct arguments *it) {
    return kohiblad_top_keys(BYTES(0), it->depth, ALL(1, uint64_t), ONE(2));
}
static uint32_t call_path_fault(const struct arguments *it) {
    return kohiblad_path_fault(BYTES(0)).status;
}
static uint32_t call_path_report(const struct arguments *it) {
    return kohiblad_path_report(BYTES(0), BYTES(1), ONE(2));
}
static uint32_t call_path_print(const struct arguments *it) {
    return kohiblad_path_print(BYTES(0), BYTES(1), ONE(2));
}
static uint32_t call_path_query(const struct arguments *it) {
    return kohiblad_path_query(BYTES(0), BYTES(1), BYTES(2), 0, it->depth, BYTES(3), ONE(4));
}
static uint32_t call_path_exists(const struct arguments *it) {
    return kohiblad_path_exists(BYTES(0), BYTES(1), BYTES(2), 0, it->depth).status;
}
static uint32_t call_path_match(const struct arguments *it) {
    return kohiblad_path_match(BYTES(0), BYTES(1), BYTES(2), 0, it->depth).status;
}

#undef BYTES
#undef ALL
#undef ONE

#define READS(what, type) { READ, sizeof(type), #what }
#define WRITES(role, type) { role, sizeof(type), NULL }

static const struct export exports[] = {
    { "status_name", false, false, 0, KOHIBLAD_OK,
      { WRITES(VALUES, uint8_t), WRITES(COUNT, size_t) }, call_status_name },
    { "check", false, true, 256, KOHIBLAD_INVALID_JSONB,
      { READS(document, uint8_t) }, call_check },
    { "compare", false, true, 320, KOHIBLAD_OK,
      { READS(document, uint8_t), READS(document, uint8_t) }, call_compare },
    { "kind", false, false, 0, KOHIBLAD_OK,
      { READS(document, uint8_t) }, call_kind },
    { "get_key", false, false, 0, KOHIBLAD_OK,
      { READS(document, uint8_t), READS(key, uint8_t), WRITES(VALUES, uint8_t),
        WRITES(COUNT, size_t) }, call_get_key },
    { "find_key", false, false, 0, KOHIBLAD_OK,
      { READS(document, uint8_t), READS(key, uint8_t) }, call_find_key },
    { "find_index", false, false, 0, KOHIBLAD_OK,
      { READS(document, uint8_t) }, call_find_index },
    { "find_key_in_prefix", false, false, 0, KOHIBLAD_OK,
      { READS(document, uint8_t), READS(key, uint8_t) }, call_find_key_in_prefix },
    { "find_index_in_prefix", false, false, 0, KOHIBLAD_OK,
      { READS(document, uint8_t) }, call_find_index_in_prefix },
    { "begin", false, false, 0, KOHIBLAD_OK,
      { READS(document, uint8_t), WRITES(STRUCT, struct kohiblad_cursor) }, call_begin },
    { "next", false, false, 0, KOHIBLAD_OK,
      { READS(document, uint8_t), WRITES(STRUCT, struct kohiblad_cursor),
        WRITES(STRUCT, struct kohiblad_place), WRITES(STRUCT, struct kohiblad_place) }, call_next },
    { "copy", false, false, 0, KOHIBLAD_OK,
      { READS(document, uint8_t), WRITES(VALUES, uint8_t), WRITES(COUNT, size_t) }, call_copy },
    { "get_index", false, false, 0, KOHIBLAD_OK,
      { READS(document, uint8_t), WRITES(VALUES, uint8_t), WRITES(COUNT, size_t) },
        call_get_index },
    { "get_member", false, false, 0, KOHIBLAD_OK,
      { READS(document, uint8_t), WRITES(VALUES, uint8_t), WRITES(COUNT, size_t),
        WRITES(VALUES, uint8_t), WRITES(COUNT, size_t) }, call_get_member },
    { "as_decimal", false, false, 0, KOHIBLAD_OK,
      { READS(document, uint8_t) }, call_as_decimal },
    { "as_int64", false, false, 0, KOHIBLAD_OK,
      { READS(document, uint8_t) }, call_as_int64 },
    { "as_string", false, false, 0, KOHIBLAD_OK,
      { READS(document, uint8_t) }, call_as_string },
    { "as_boolean", false, false, 0, KOHIBLAD_OK,
      { READS(document, uint8_t) }, call_as_boolean },
    { "as_extension", false, false, 0, KOHIBLAD_OK,
      { READS(document, uint8_t) }, call_as_extension },
    { "of_null", false, false, 0, KOHIBLAD_OK,
      { WRITES(VALUES, uint8_t), WRITES(COUNT, size_t) }, call_of_null },
    { "of_boolean", false, false, 0, KOHIBLAD_OK,
      { WRITES(VALUES, uint8_t), WRITES(COUNT, size_t) }, call_of_boolean },
    { "of_string", false, false, 0, KOHIBLAD_OK,
      { READS(text, uint8_t), WRITES(VALUES, uint8_t), WRITES(COUNT, size_t) }, call_of_string },
    { "of_int64", true, false, 0, KOHIBLAD_OK,
      { WRITES(VALUES, uint8_t), WRITES(COUNT, size_t) }, call_of_int64 },
    { "of_decimal", true, false, 0, KOHIBLAD_OK,
      { WRITES(VALUES, uint8_t), WRITES(COUNT, size_t) }, call_of_decimal },
    { "of_extension", true, false, 0, KOHIBLAD_OK,
      { READS(data, uint8_t), WRITES(VALUES, uint8_t), WRITES(COUNT, size_t) }, call_of_extension },
    { "print", true, true, 320, KOHIBLAD_OK,
      { READS(document, uint8_t), WRITES(VALUES, uint8_t), WRITES(COUNT, size_t) }, call_print },
    { "pretty", true, true, 320, KOHIBLAD_OK,
      { READS(document, uint8_t), WRITES(VALUES, uint8_t), WRITES(COUNT, size_t) }, call_pretty },
    { "print_at", true, true, 320, KOHIBLAD_INVALID_JSONB,
      { READS(document, uint8_t), WRITES(VALUES, uint8_t), WRITES(COUNT, size_t) }, call_print_at },
    { "pretty_at", true, true, 320, KOHIBLAD_INVALID_JSONB,
      { READS(document, uint8_t), WRITES(VALUES, uint8_t), WRITES(COUNT, size_t) },
        call_pretty_at },
    { "parse", true, true, 0, KOHIBLAD_TOO_DEEP,
      { READS(text, uint8_t), WRITES(VALUES, uint8_t), WRITES(COUNT, size_t) }, call_parse },
    { "text_fault", true, true, 0, KOHIBLAD_TOO_DEEP,
      { READS(text, uint8_t) }, call_text_fault },
    { "text_expected", true, true, 0, KOHIBLAD_TOO_DEEP,
      { READS(text, uint8_t) }, call_text_expected },
    { "build_array", true, true, 256, KOHIBLAD_INVALID_JSONB,
      { READS(rows, uint8_t), READS(offsets, size_t), WRITES(VALUES, uint8_t),
        WRITES(COUNT, size_t) }, call_build_array },
    { "build_object", true, true, 256, KOHIBLAD_INVALID_JSONB,
      { READS(pairs, uint8_t), READS(pair_offsets, size_t), WRITES(VALUES, uint8_t),
        WRITES(COUNT, size_t) }, call_build_object },
    { "is_canonical", false, true, 256, KOHIBLAD_INVALID_JSONB,
      { READS(document, uint8_t) }, call_is_canonical },
    { "canonical", true, true, 448, KOHIBLAD_INVALID_JSONB,
      { READS(document, uint8_t), WRITES(VALUES, uint8_t), WRITES(COUNT, size_t) },
        call_canonical },
    { "key", true, true, 320, KOHIBLAD_OK,
      { READS(document, uint8_t), WRITES(VALUES, uint8_t), WRITES(COUNT, size_t) }, call_key },
    { "key_cut", false, true, 320, KOHIBLAD_OK,
      { READS(document, uint8_t), WRITES(VALUES, uint8_t), WRITES(COUNT, size_t) }, call_key_cut },
    { "member_key", true, true, 320, KOHIBLAD_INVALID_JSONB,
      { READS(document, uint8_t), READS(names, uint8_t), WRITES(VALUES, uint8_t),
        WRITES(COUNT, size_t) }, call_member_key },
    { "sort", true, true, 320, KOHIBLAD_OK,
      { READS(rows, uint8_t), READS(offsets, size_t), WRITES(VALUES, size_t) }, call_sort },
    { "survey", true, true, 256, KOHIBLAD_OK,
      { READS(rows, uint8_t), READS(offsets, size_t), READS(path, uint8_t) }, call_survey },
    { "take_int64", true, true, 256, KOHIBLAD_OK,
      { READS(rows, uint8_t), READS(offsets, size_t), READS(path, uint8_t), WRITES(VALUES, int64_t),
        WRITES(VALUES, uint8_t) }, call_take_int64 },
    { "take_uint64", true, true, 0, KOHIBLAD_OK,
      { READS(rows, uint8_t), READS(offsets, size_t), READS(path, uint8_t),
        WRITES(VALUES, uint64_t), WRITES(VALUES, uint8_t) }, call_take_uint64 },
    { "take_decimal", true, true, 0, KOHIBLAD_OK,
      { READS(rows, uint8_t), READS(offsets, size_t), READS(path, uint8_t),
        WRITES(VALUES, struct kohiblad_int128), WRITES(VALUES, uint8_t) }, call_take_decimal },
    { "take_boolean", true, true, 0, KOHIBLAD_OK,
      { READS(rows, uint8_t), READS(offsets, size_t), READS(path, uint8_t), WRITES(VALUES, uint8_t),
        WRITES(VALUES, uint8_t) }, call_take_boolean },
    { "take_text", true, true, 256, KOHIBLAD_OK,
      { READS(rows, uint8_t), READS(offsets, size_t), READS(path, uint8_t), WRITES(VALUES, uint8_t),
        WRITES(COUNT, size_t), WRITES(VALUES, size_t), WRITES(VALUES, uint8_t) }, call_take_text },
    { "take_int64_unchecked", true, true, 0, KOHIBLAD_OK,
      { READS(rows, uint8_t), READS(offsets, size_t), READS(path, uint8_t), WRITES(VALUES, int64_t),
        WRITES(VALUES, uint8_t) }, call_take_int64_unchecked },
    { "take_uint64_unchecked", true, true, 0, KOHIBLAD_OK,
      { READS(rows, uint8_t), READS(offsets, size_t), READS(path, uint8_t),
        WRITES(VALUES, uint64_t), WRITES(VALUES, uint8_t) }, call_take_uint64_unchecked },
    { "take_decimal_unchecked", true, true, 0, KOHIBLAD_OK,
      { READS(rows, uint8_t), READS(offsets, size_t), READS(path, uint8_t),
        WRITES(VALUES, struct kohiblad_int128), WRITES(VALUES, uint8_t) },
        call_take_decimal_unchecked },
    { "take_boolean_unchecked", true, true, 0, KOHIBLAD_OK,
      { READS(rows, uint8_t), READS(offsets, size_t), READS(path, uint8_t), WRITES(VALUES, uint8_t),
        WRITES(VALUES, uint8_t) }, call_take_boolean_unchecked },
    { "take_text_unchecked", true, true, 0, KOHIBLAD_OK,
      { READS(rows, uint8_t), READS(offsets, size_t), READS(path, uint8_t), WRITES(VALUES, uint8_t),
        WRITES(COUNT, size_t), WRITES(VALUES, size_t), WRITES(VALUES, uint8_t) },
        call_take_text_unchecked },
    { "take_text32", true, true, 0, KOHIBLAD_OK,
      { READS(rows, uint8_t), READS(offsets, size_t), READS(path, uint8_t), WRITES(VALUES, uint8_t),
        WRITES(COUNT, size_t), WRITES(VALUES, uint32_t), WRITES(VALUES, uint8_t) },
        call_take_text32 },
    { "take_text32_unchecked", true, true, 0, KOHIBLAD_OK,
      { READS(rows, uint8_t), READS(offsets, size_t), READS(path, uint8_t), WRITES(VALUES, uint8_t),
        WRITES(COUNT, size_t), WRITES(VALUES, uint32_t), WRITES(VALUES, uint8_t) },
        call_take_text32_unchecked },
    { "take_binary", true, true, 0, KOHIBLAD_OK,
      { READS(rows, uint8_t), READS(offsets, size_t), READS(path, uint8_t), WRITES(VALUES, uint8_t),
        WRITES(COUNT, size_t), WRITES(VALUES, size_t), WRITES(VALUES, uint8_t) },
        call_take_binary },
    { "take_binary_unchecked", true, true, 0, KOHIBLAD_OK,
      { READS(rows, uint8_t), READS(offsets, size_t), READS(path, uint8_t), WRITES(VALUES, uint8_t),
        WRITES(COUNT, size_t), WRITES(VALUES, size_t), WRITES(VALUES, uint8_t) },
        call_take_binary_unchecked },
    { "take_date", true, true, 0, KOHIBLAD_OK,
      { READS(rows, uint8_t), READS(offsets, size_t), READS(path, uint8_t), WRITES(VALUES, int32_t),
        WRITES(VALUES, uint8_t) }, call_take_date },
    { "take_date_unchecked", true, true, 0, KOHIBLAD_OK,
      { READS(rows, uint8_t), READS(offsets, size_t), READS(path, uint8_t), WRITES(VALUES, int32_t),
        WRITES(VALUES, uint8_t) }, call_take_date_unchecked },
    { "take_timestamp", true, true, 0, KOHIBLAD_OK,
      { READS(rows, uint8_t), READS(offsets, size_t), READS(path, uint8_t), WRITES(VALUES, int64_t),
        WRITES(VALUES, uint8_t) }, call_take_timestamp },
    { "take_timestamp_unchecked", true, true, 0, KOHIBLAD_OK,
      { READS(rows, uint8_t), READS(offsets, size_t), READS(path, uint8_t), WRITES(VALUES, int64_t),
        WRITES(VALUES, uint8_t) }, call_take_timestamp_unchecked },
    { "take_timestamp_tz", true, true, 0, KOHIBLAD_OK,
      { READS(rows, uint8_t), READS(offsets, size_t), READS(path, uint8_t),
        WRITES(VALUES, struct kohiblad_timestamp_tz), WRITES(VALUES, uint8_t) },
        call_take_timestamp_tz },
    { "take_timestamp_tz_unchecked", true, true, 0, KOHIBLAD_OK,
      { READS(rows, uint8_t), READS(offsets, size_t), READS(path, uint8_t),
        WRITES(VALUES, struct kohiblad_timestamp_tz), WRITES(VALUES, uint8_t) },
        call_take_timestamp_tz_unchecked },
    { "take_interval", true, true, 0, KOHIBLAD_OK,
      { READS(rows, uint8_t), READS(offsets, size_t), READS(path, uint8_t),
        WRITES(VALUES, struct kohiblad_interval), WRITES(VALUES, uint8_t) }, call_take_interval },
    { "take_interval_unchecked", true, true, 0, KOHIBLAD_OK,
      { READS(rows, uint8_t), READS(offsets, size_t), READS(path, uint8_t),
        WRITES(VALUES, struct kohiblad_interval), WRITES(VALUES, uint8_t) },
        call_take_interval_unchecked },
    { "zones_int64", false, false, 0, KOHIBLAD_OK,
      { READS(values, int64_t), READS(states, uint8_t), WRITES(VALUES, struct kohiblad_int64_zone),
        WRITES(COUNT, size_t) }, call_zones_int64 },
    { "zones_uint64", false, false, 0, KOHIBLAD_OK,
      { READS(values, uint64_t), READS(states, uint8_t),
        WRITES(VALUES, struct kohiblad_uint64_zone), WRITES(COUNT, size_t) }, call_zones_uint64 },
    { "zones_decimal", false, false, 0, KOHIBLAD_OK,
      { READS(values, struct kohiblad_int128), READS(states, uint8_t),
        WRITES(VALUES, struct kohiblad_decimal_zone), WRITES(COUNT, size_t) }, call_zones_decimal },
    { "zones_date", false, false, 0, KOHIBLAD_OK,
      { READS(values, int32_t), READS(states, uint8_t), WRITES(VALUES, struct kohiblad_date_zone),
        WRITES(COUNT, size_t) }, call_zones_date },
    { "build_typed_file", true, true, KOHIBLAD_EDIT_LEVEL_STACK, KOHIBLAD_INVALID_JSONB,
      { READS(rows, uint8_t), READS(offsets, size_t), READS(names, uint8_t), READS(types, uint8_t),
        WRITES(VALUES, uint8_t), WRITES(COUNT, size_t) }, call_build_typed_file },
    { "check_typed_file", true, true, 256, KOHIBLAD_TOO_DEEP,
      { READS(file, uint8_t) }, call_check_typed_file },
    { "typed_columns", true, false, 0, KOHIBLAD_INVALID_JSONB,
      { READS(file, uint8_t), WRITES(VALUES, struct kohiblad_typed_column), WRITES(COUNT, size_t) },
        call_typed_columns },
    { "typed_row", true, true, KOHIBLAD_EDIT_LEVEL_STACK, KOHIBLAD_TOO_DEEP,
      { READS(file, uint8_t), WRITES(VALUES, uint8_t), WRITES(COUNT, size_t) }, call_typed_row },
    { "locate", true, true, 256, KOHIBLAD_OK,
      { READS(rows, uint8_t), READS(offsets, size_t), READS(names, uint8_t),
        WRITES(VALUES, struct kohiblad_place) }, call_locate },
    { "locate_unchecked", true, true, 0, KOHIBLAD_OK,
      { READS(rows, uint8_t), READS(offsets, size_t), READS(names, uint8_t),
        WRITES(VALUES, struct kohiblad_place) }, call_locate_unchecked },
    { "take_int64_at", false, false, 0, KOHIBLAD_OK,
      { READS(rows, uint8_t), READS(places, struct kohiblad_place), WRITES(VALUES, int64_t),
        WRITES(VALUES, uint8_t) }, call_take_int64_at },
    { "take_uint64_at", false, false, 0, KOHIBLAD_OK,
      { READS(rows, uint8_t), READS(places, struct kohiblad_place), WRITES(VALUES, uint64_t),
        WRITES(VALUES, uint8_t) }, call_take_uint64_at },
    { "take_decimal_at", false, false, 0, KOHIBLAD_OK,
      { READS(rows, uint8_t), READS(places, struct kohiblad_place),
        WRITES(VALUES, struct kohiblad_int128), WRITES(VALUES, uint8_t) }, call_take_decimal_at },
    { "take_boolean_at", false, false, 0, KOHIBLAD_OK,
      { READS(rows, uint8_t), READS(places, struct kohiblad_place), WRITES(VALUES, uint8_t),
        WRITES(VALUES, uint8_t) }, call_take_boolean_at },
    { "take_date_at", false, false, 0, KOHIBLAD_OK,
      { READS(rows, uint8_t), READS(places, struct kohiblad_place), WRITES(VALUES, int32_t),
        WRITES(VALUES, uint8_t) }, call_take_date_at },
    { "take_timestamp_at", false, false, 0, KOHIBLAD_OK,
      { READS(rows, uint8_t), READS(places, struct kohiblad_place), WRITES(VALUES, int64_t),
        WRITES(VALUES, uint8_t) }, call_take_timestamp_at },
    { "take_timestamp_tz_at", false, false, 0, KOHIBLAD_OK,
      { READS(rows, uint8_t), READS(places, struct kohiblad_place),
        WRITES(VALUES, struct kohiblad_timestamp_tz), WRITES(VALUES, uint8_t) },
        call_take_timestamp_tz_at },
    { "take_interval_at", false, false, 0, KOHIBLAD_OK,
      { READS(rows, uint8_t), READS(places, struct kohiblad_place),
        WRITES(VALUES, struct kohiblad_interval), WRITES(VALUES, uint8_t) },
        call_take_interval_at },
    { "take_text_at", true, false, 0, KOHIBLAD_OK,
      { READS(rows, uint8_t), READS(places, struct kohiblad_place), WRITES(VALUES, uint8_t),
        WRITES(COUNT, size_t), WRITES(VALUES, size_t), WRITES(VALUES, uint8_t) },
        call_take_text_at },
    { "take_text32_at", true, false, 0, KOHIBLAD_OK,
      { READS(rows, uint8_t), READS(places, struct kohiblad_place), WRITES(VALUES, uint8_t),
        WRITES(COUNT, size_t), WRITES(VALUES, uint32_t), WRITES(VALUES, uint8_t) },
        call_take_text32_at },
    { "take_binary_at", true, false, 0, KOHIBLAD_OK,
      { READS(rows, uint8_t), READS(places, struct kohiblad_place), WRITES(VALUES, uint8_t),
        WRITES(COUNT, size_t), WRITES(VALUES, size_t), WRITES(VALUES, uint8_t) },
        call_take_binary_at },
    { "contains", true, true, KOHIBLAD_LEVEL_STACK, KOHIBLAD_INVALID_JSONB,
      { READS(document, uint8_t), READS(other, uint8_t) }, call_contains },
    { "exists", false, true, 256, KOHIBLAD_INVALID_JSONB,
      { READS(document, uint8_t), READS(key, uint8_t) }, call_exists },
    { "exists_any", true, true, 256, KOHIBLAD_INVALID_JSONB,
      { READS(document, uint8_t), READS(names, uint8_t) }, call_exists_any },
    { "exists_all", true, true, 256, KOHIBLAD_INVALID_JSONB,
      { READS(document, uint8_t), READS(names, uint8_t) }, call_exists_all },
    { "concat", true, true, KOHIBLAD_EDIT_LEVEL_STACK, KOHIBLAD_INVALID_JSONB,
      { READS(document, uint8_t), READS(other, uint8_t), WRITES(VALUES, uint8_t),
        WRITES(COUNT, size_t) }, call_concat },
    { "merge_patch", true, true, KOHIBLAD_PATCH_LEVEL_STACK, KOHIBLAD_INVALID_JSONB,
      { READS(document, uint8_t), READS(other, uint8_t), WRITES(VALUES, uint8_t),
        WRITES(COUNT, size_t) }, call_merge_patch },
    { "strip_nulls", true, true, 896, KOHIBLAD_INVALID_JSONB,
      { READS(document, uint8_t), WRITES(VALUES, uint8_t), WRITES(COUNT, size_t) },
        call_strip_nulls },
    { "pick", true, true, 768, KOHIBLAD_INVALID_JSONB,
      { READS(document, uint8_t), READS(names, uint8_t), WRITES(VALUES, uint8_t),
        WRITES(COUNT, size_t) }, call_pick },
    { "object_keys", true, true, 256, KOHIBLAD_INVALID_JSONB,
      { READS(document, uint8_t), WRITES(VALUES, uint8_t), WRITES(COUNT, size_t) },
        call_object_keys },
    { "array_distinct", true, true, 768, KOHIBLAD_INVALID_JSONB,
      { READS(document, uint8_t), WRITES(VALUES, uint8_t), WRITES(COUNT, size_t) },
        call_array_distinct },
    { "array_intersection", true, true, 320, KOHIBLAD_INVALID_JSONB,
      { READS(document, uint8_t), READS(other, uint8_t), WRITES(VALUES, uint8_t),
        WRITES(COUNT, size_t) }, call_array_intersection },
    { "array_except", true, true, 768, KOHIBLAD_INVALID_JSONB,
      { READS(document, uint8_t), READS(other, uint8_t), WRITES(VALUES, uint8_t),
        WRITES(COUNT, size_t) }, call_array_except },
    { "array_overlap", true, true, 320, KOHIBLAD_INVALID_JSONB,
      { READS(document, uint8_t), READS(other, uint8_t) }, call_array_overlap },
    { "edit", true, true, KOHIBLAD_EDIT_LEVEL_STACK, KOHIBLAD_INVALID_JSONB,
      { READS(document, uint8_t), READS(path, uint8_t), READS(document, uint8_t),
        WRITES(VALUES, uint8_t), WRITES(COUNT, size_t) }, call_edit },
    { "path_of_text", true, false, 0, KOHIBLAD_INVALID_JSONB,
      { READS(path_text, uint8_t), WRITES(VALUES, uint8_t), WRITES(COUNT, size_t) },
        call_path_of_text },
    { "path_in", true, true, 256, KOHIBLAD_INVALID_JSONB,
      { READS(document, uint8_t), READS(pointer, uint8_t), WRITES(VALUES, uint8_t),
        WRITES(COUNT, size_t) }, call_path_in },
    { "get_path", true, true, 256, KOHIBLAD_INVALID_JSONB,
      { READS(document, uint8_t), READS(path, uint8_t) }, call_get_path },
    { "select", true, true, 576, KOHIBLAD_INVALID_JSONB,
      { READS(document, uint8_t), READS(path_text, uint8_t), WRITES(VALUES, struct kohiblad_place),
        WRITES(COUNT, size_t) }, call_select },
    { "select_within", true, true, 896, KOHIBLAD_INVALID_JSONB,
      { READS(document, uint8_t), READS(path_text, uint8_t), WRITES(VALUES, struct kohiblad_place),
        WRITES(COUNT, size_t) }, call_select_within },
    { "index_keys", true, true, 448, KOHIBLAD_INVALID_JSONB,
      { READS(document, uint8_t), WRITES(VALUES, uint64_t), WRITES(COUNT, size_t) },
        call_index_keys },
    { "top_keys", true, true, 256, KOHIBLAD_INVALID_JSONB,
      { READS(document, uint8_t), WRITES(VALUES, uint64_t), WRITES(COUNT, size_t) },
        call_top_keys },
    { "path_fault", true, false, 0, KOHIBLAD_INVALID_JSONB,
      { READS(jsonpath, uint8_t) }, call_path_fault },
    { "path_report", true, false, 0, KOHIBLAD_INVALID_JSONB,
      { READS(no_jsonpath, uint8_t), WRITES(VALUES, uint8_t), WRITES(COUNT, size_t) },
        call_path_report },
    { "path_print", true, false, 0, KOHIBLAD_INVALID_JSONB,
      { READS(jsonpath, uint8_t), WRITES(VALUES, uint8_t), WRITES(COUNT, size_t) },
        call_path_print },
    { "path_query", true, true, 0, KOHIBLAD_INVALID_JSONB,
      { READS(document, uint8_t), READS(jsonpath, uint8_t), READS(data, uint8_t),
        WRITES(VALUES, uint8_t), WRITES(COUNT, size_t) }, call_path_query },
    { "path_exists", true, true, 0, KOHIBLAD_INVALID_JSONB,
      { READS(document, uint8_t), READS(jsonpath, uint8_t), READS(data, uint8_t) },
        call_path_exists },
    { "path_match", true, true, 0, KOHIBLAD_INVALID_JSONB,
      { READS(document, uint8_t), READS(jsonpath, uint8_t), READS(data, uint8_t) },
        call_path_match },
};

#undef READS
#undef WRITES

#endif
