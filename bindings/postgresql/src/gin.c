/* The operator classes of GIN indexes. Their keys are whole numbers of 64 bits.
 *
 * Keys of values are those of kohiblad_index_keys, of which it is proved that a document has those
 * of each document that it contains. Keys of names are for ?, ?| and ?&: a hash of each key of an
 * object, and of each text among the items of an array, at the top. The last bit of a key says
 * which of the two it is. So no index misses a document; those that it finds are all checked. */
#include "gin.h"
#include "paths.h"

#include "access/gin.h"
#include "miscadmin.h"

#define FNV_BASIS UINT64CONST(0xcbf29ce484222325)
#define FNV_PRIME UINT64CONST(0x100000001b3)

/* What is hashed before a name. No text in UTF-8 has this byte. */
#define NAME_MARK 0xFF

StaticAssertDecl(sizeof(Datum) == sizeof(uint64_t), "an index key is a Datum");

static Datum key_of_value(uint64_t hash) {
    return UInt64GetDatum(hash & ~UINT64CONST(1));
}

/* FNV-1a of the mark and the name. */
static Datum key_of_name(Bytes name) {
    uint64 hash = (FNV_BASIS ^ NAME_MARK) * FNV_PRIME;
    for (size_t i = 0; i < name.size; i++) {
        if (i % BYTES_UNCHECKED == 0) CHECK_FOR_INTERRUPTS();
        hash = (hash ^ name.at[i]) * FNV_PRIME;
    }
    return UInt64GetDatum(hash | 1);
}

void make_room_for_keys(Keys *keys, size_t more) {
    size_t room = keys->count + more;
    if (keys->at && room <= keys->room) return;
    keys->room = Max(room, 2 * keys->room);
    size_t size = Max(keys->room, 1) * sizeof *keys->at;
    keys->at = keys->at ? repalloc_huge(keys->at, size)
                        : MemoryContextAllocHuge(CurrentMemoryContext, size);
}

/* Each value takes an entry word, so there are no more keys than these. */
void append_values(Keys *keys, Bytes document) {
    size_t room = document.size / ENTRY_SIZE, depth = depth_of_size(document.size), count;
    make_room_for_keys(keys, room);
    Datum *out = keys->at + keys->count;
    check_stack_for(stack_of_depth(depth));
    uint32_t status = kohiblad_index_keys(document.at, document.size, depth, (uint64_t *)out, room,
                                          &count);
    if (status != KOHIBLAD_OK) refuse(status, ERRCODE_DATA_CORRUPTED);
    for (size_t i = 0; i < count; i++) {
        CHECK_FOR_INTERRUPTS();
        out[i] = key_of_value(out[i]);
    }
    keys->count += count;
}

/* Appends the keys of a document's values, and those of extension values as the texts that they are
 * to a path that the server's engine follows. */
static void append_shown_values(Keys *keys, Bytes document) {
    append_values(keys, document);
    if (!holds_extension(document)) return;
    size_t length;
    char *shown = write_after(0, kohiblad_print, document, 2 * document.size,
                              ERRCODE_DATA_CORRUPTED, &length);
    append_values(keys, bytes_of(document_of_json((Bytes){(uint8_t *)shown, length})));
}

static void append_name(Keys *keys, Bytes name) {
    make_room_for_keys(keys, 1);
    keys->at[keys->count++] = key_of_name(name);
}

/* Appends a key for each key of an object, each text of an array, and a text itself. */
static void append_names(Keys *keys, Bytes document) {
    Part whole = part_of_document(document);
    if (whole.type == KOHIBLAD_TYPE_STRING) append_name(keys, whole.payload);
    if (!is_container(whole)) return;
    struct kohiblad_cursor cursor;
    struct kohiblad_place key, value;
    uint32_t status = kohiblad_begin(document.at, document.size, &cursor);
    while (status == KOHIBLAD_OK) {
        CHECK_FOR_INTERRUPTS();
        status = kohiblad_next(document.at, document.size, &cursor, &key, &value);
        if (status != KOHIBLAD_OK) break;
        if (key.status != KOHIBLAD_OK && value.type != KOHIBLAD_TYPE_STRING) continue;
        append_name(keys, part_at(document, key.status == KOHIBLAD_OK ? key : value).payload);
    }
    if (status != KOHIBLAD_NONE) refuse(status, ERRCODE_DATA_CORRUPTED);
}

static Datum answer(const Keys *keys, int32 *count) {
    *count = (int32)keys->count;
    PG_RETURN_POINTER(keys->at);
}

Keys keys_of_document(Bytes document) {
    Keys keys = {0};
    append_shown_values(&keys, document);
    append_names(&keys, document);
    return keys;
}

PG_FUNCTION_INFO_V1(pg_kohiblad_gin_extract);
Datum pg_kohiblad_gin_extract(PG_FUNCTION_ARGS) {
    Keys keys = keys_of_document(bytes_of(PG_GETARG_VARLENA_PP(0)));
    return answer(&keys, (int32 *)PG_GETARG_POINTER(1));
}

PG_FUNCTION_INFO_V1(pg_kohiblad_gin_extract_values);
Datum pg_kohiblad_gin_extract_values(PG_FUNCTION_ARGS) {
    Keys keys = {0};
    append_shown_values(&keys, bytes_of(PG_GETARG_VARLENA_PP(0)));
    return answer(&keys, (int32 *)PG_GETARG_POINTER(1));
}

static void append_given_names(Keys *keys, ArrayType *array) {
    TextPath names = elements_of_array(array);
    for (int i = 0; i < names.count; i++) {
        CHECK_FOR_INTERRUPTS();
        if (!names.nulls[i])
            append_name(keys, utf8_of_text(DatumGetTextPP(names.elements[i])));
    }
}

Keys keys_of_query(Datum query, StrategyNumber strategy) {
    Keys keys = {0};
    switch (strategy) {
        case CONTAINS:
            append_values(&keys, bytes_of((struct varlena *)PG_DETOAST_DATUM_PACKED(query)));
            break;
        case EXISTS: append_name(&keys, utf8_of_text(DatumGetTextPP(query))); break;
        case PATH_EXISTS: append_keys_of_path(&keys, DatumGetJsonPathP(query)); break;
        case PATH_MATCHES: append_keys_of_predicate(&keys, DatumGetJsonPathP(query)); break;
        default: append_given_names(&keys, DatumGetArrayTypeP(query)); break;
    }
    return keys;
}

/* What has no key, as {} or no name of all, may be in every document. */
PG_FUNCTION_INFO_V1(pg_kohiblad_gin_extract_query);
Datum pg_kohiblad_gin_extract_query(PG_FUNCTION_ARGS) {
    StrategyNumber strategy = PG_GETARG_UINT16(2);
    int32 *search_mode = (int32 *)PG_GETARG_POINTER(6);
    Keys keys = keys_of_query(PG_GETARG_DATUM(0), strategy);
    if (keys.count == 0 && strategy != EXISTS_ANY) *search_mode = GIN_SEARCH_MODE_ALL;
    return answer(&keys, (int32 *)PG_GETARG_POINTER(1));
}

/* Whether a document may match that has some of the keys, by what is known of each: it needs one of
 * them for ?|, and else all. */
static bool may_match(const GinTernaryValue *has, int32 count, StrategyNumber strategy) {
    bool needs_one = strategy == EXISTS_ANY;
    for (int32 i = 0; i < count; i++) {
        CHECK_FOR_INTERRUPTS();
        if ((has[i] != GIN_FALSE) == needs_one) return needs_one;
    }
    return !needs_one;
}

PG_FUNCTION_INFO_V1(pg_kohiblad_gin_consistent);
Datum pg_kohiblad_gin_consistent(PG_FUNCTION_ARGS) {
    StaticAssertStmt(sizeof(bool) == sizeof(GinTernaryValue), "false and true are ternary values");
    *(bool *)PG_GETARG_POINTER(5) = true;
    PG_RETURN_BOOL(may_match((GinTernaryValue *)PG_GETARG_POINTER(0), PG_GETARG_INT32(3),
                             PG_GETARG_UINT16(1)));
}

PG_FUNCTION_INFO_V1(pg_kohiblad_gin_triconsistent);
Datum pg_kohiblad_gin_triconsistent(PG_FUNCTION_ARGS) {
    bool matches = may_match((GinTernaryValue *)PG_GETARG_POINTER(0), PG_GETARG_INT32(3),
                             PG_GETARG_UINT16(1));
    PG_RETURN_GIN_TERNARY_VALUE(matches ? GIN_MAYBE : GIN_FALSE);
}
