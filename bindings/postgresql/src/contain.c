/* Whether a document contains another, and whether keys exist. */
#include "contain.h"
#include "paths.h"

#include "miscadmin.h"

/* So many steps, which take some 0.2 seconds, are allowed beside one for each byte: so many scalars
 * in arrays take. To test what is asked in parts, allow fewer. */
#ifndef MOST_STEPS
#define MOST_STEPS 4000000
#endif

/* So many keys are sooner looked up in an object than all of the document is checked. */
#define FEW_KEYS 4

/* Nested arrays may take a product of steps, and a call of the library cannot be cancelled. So it
 * gives up after so many, and then the same is asked in parts, between which a query can be
 * cancelled: a few items of one array at a time against a few of the other, and members one by
 * one. */
static bool contains_in_parts(Part left, Part right);

/* Whether a document contains another; false if that takes more steps than are allowed. */
static bool ends_in_time(Bytes left, Bytes right, bool *answer) {
    CHECK_FOR_INTERRUPTS();
    size_t depth = depth_of_size(Max(left.size, right.size));
    size_t steps = MOST_STEPS + left.size + right.size;
    check_stack_for(stack_of_depth(depth));
    struct kohiblad_truth truth =
        kohiblad_contains(left.at, left.size, right.at, right.size, depth, steps);
    if (truth.status == KOHIBLAD_TOO_MANY_STEPS) return false;
    if (truth.status != KOHIBLAD_OK) refuse(truth.status, ERRCODE_DATA_CORRUPTED);
    *answer = truth.value;
    return true;
}

/* The parts of what has one child take as many steps as the whole. */
static bool has_one_child(Bytes container) {
    return kind_of(container).count == 1;
}

/* Some items of an array in turn: how many are taken next, and where they begin. */
typedef struct Chunks {
    Bytes array;
    struct kohiblad_cursor cursor, next;
    size_t most, count; /* the number of items wanted, and of those that there are */
    Part first;
    struct varlena *items;
} Chunks;

static Chunks chunks_of(Bytes array) {
    Chunks chunks = {.array = array, .most = 1};
    uint32_t status = kohiblad_begin(array.at, array.size, &chunks.cursor);
    if (status != KOHIBLAD_OK) refuse(status, ERRCODE_DATA_CORRUPTED);
    return chunks;
}

/* Takes the array of the items that come next; false if there are none. */
static bool take_items(Chunks *chunks) {
    Bytes array = chunks->array;
    struct kohiblad_place place;
    Rows *rows = new_rows();
    uint32_t status = KOHIBLAD_OK;
    chunks->next = chunks->cursor;
    for (chunks->count = 0; chunks->count < chunks->most; chunks->count++) {
        CHECK_FOR_INTERRUPTS();
        status = kohiblad_next(array.at, array.size, &chunks->next, NULL, &place);
        if (status != KOHIBLAD_OK) break;
        Part item = part_at(array, place);
        if (chunks->count == 0) chunks->first = item;
        add_part(rows, item);
    }
    if (status != KOHIBLAD_OK && status != KOHIBLAD_NONE) refuse(status, ERRCODE_DATA_CORRUPTED);
    if (chunks->count > 0) chunks->items = array_of_rows(rows);
    free_rows(rows);
    return chunks->count > 0;
}

/* Leaves the items that were taken, for twice as many. */
static void pass_items(Chunks *chunks) {
    pfree(chunks->items);
    chunks->cursor = chunks->next;
    chunks->most *= 2;
}

/* Takes half as many of these items; false if it is only one. */
static bool halve_items(Chunks *chunks) {
    if (chunks->count == 1) return false;
    pfree(chunks->items);
    chunks->most = chunks->count / 2;
    return true;
}

/* Whether some item of an array contains the only item of another. */
static bool has_item(Bytes array, Bytes wanted, Part item) {
    bool answer, is_single = has_one_child(array);
    Chunks chunks = chunks_of(array);
    while (take_items(&chunks)) {
        if (is_single || !ends_in_time(bytes_of(chunks.items), wanted, &answer)) {
            if (halve_items(&chunks)) continue;
            answer = contains_in_parts(chunks.first, item);
        }
        pass_items(&chunks);
        if (answer) return true;
    }
    return false;
}

/* Whether for each item of an array some item of the other contains it. */
static bool contains_items(Bytes array, Bytes wanted) {
    bool answer, is_single = has_one_child(wanted);
    Chunks chunks = chunks_of(wanted);
    while (take_items(&chunks)) {
        Bytes items = bytes_of(chunks.items);
        if (is_single || !ends_in_time(array, items, &answer)) {
            if (halve_items(&chunks)) continue;
            answer = has_item(array, items, chunks.first);
        }
        pass_items(&chunks);
        if (!answer) return false;
    }
    return true;
}

bool move_to_key(Bytes object, struct kohiblad_cursor *cursor, Bytes wanted, Part *value) {
    struct kohiblad_place key, place;
    for (;;) {
        CHECK_FOR_INTERRUPTS();
        uint32_t status = kohiblad_next(object.at, object.size, cursor, &key, &place);
        if (status == KOHIBLAD_NONE) return false;
        if (status != KOHIBLAD_OK) refuse(status, ERRCODE_DATA_CORRUPTED);
        int order = compare_bytes(part_at(object, key).payload, wanted);
        *value = part_at(object, place);
        if (order >= 0) return order == 0;
    }
}

bool contains_value(Part left, Part right) {
    bool answer, are_arrays = is_array_part(left) && is_array_part(right);
    bool are_objects = is_object_part(left) && is_object_part(right);
    if ((are_arrays || are_objects) && ends_in_time(left.payload, right.payload, &answer))
        return answer;
    return contains_in_parts(left, right);
}

/* Whether each key of an object is in the other, with a value that contains its own. */
static bool contains_members(Bytes object, Bytes wanted) {
    struct kohiblad_cursor cursor, wanted_cursor;
    struct kohiblad_place key, place;
    Part value;
    bool is_single = has_one_child(wanted);
    uint32_t status = kohiblad_begin(object.at, object.size, &cursor);
    if (status == KOHIBLAD_OK) status = kohiblad_begin(wanted.at, wanted.size, &wanted_cursor);
    while (status == KOHIBLAD_OK) {
        status = kohiblad_next(wanted.at, wanted.size, &wanted_cursor, &key, &place);
        if (status != KOHIBLAD_OK) break;
        if (!move_to_key(object, &cursor, part_at(wanted, key).payload, &value)) return false;
        Part part = part_at(wanted, place);
        if (!(is_single ? contains_in_parts : contains_value)(value, part)) return false;
    }
    if (status != KOHIBLAD_NONE) refuse(status, ERRCODE_DATA_CORRUPTED);
    return true;
}

/* Whether two scalars are equal, which takes no more steps than they have bytes. */
static bool are_equal_scalars(Part left, Part right) {
    bool answer = false;
    struct varlena *l = document_of_part(left), *r = document_of_part(right);
    ends_in_time(bytes_of(l), bytes_of(r), &answer);
    pfree(l);
    pfree(r);
    return answer;
}

static bool contains_in_parts(Part left, Part right) {
    check_stack_depth();
    if (!is_container(left) && !is_container(right)) return are_equal_scalars(left, right);
    if (is_array_part(left) && is_array_part(right))
        return contains_items(left.payload, right.payload);
    return is_object_part(left) && is_object_part(right) &&
           contains_members(left.payload, right.payload);
}

static struct varlena *array_of_part(Part part) {
    Rows *rows = new_rows();
    add_part(rows, part);
    struct varlena *array = array_of_rows(rows);
    free_rows(rows);
    return array;
}

bool contains_document(Bytes left, Bytes right) {
    bool answer;
    if (ends_in_time(left, right, &answer)) return answer;
    Part whole = part_of_document(left), wanted = part_of_document(right);
    if (is_array_part(whole) && !is_container(wanted))
        return contains_items(left, bytes_of(array_of_part(wanted)));
    return contains_in_parts(whole, wanted);
}

/* Whether a document that is no object is a text, or has an item that is this text. */
static bool has_text(Bytes document, Bytes key) {
    size_t depth = depth_of_size(document.size);
    check_stack_for(stack_of_depth(depth));
    struct kohiblad_truth truth =
        kohiblad_exists(document.at, document.size, key.at, key.size, depth);
    if (truth.status != KOHIBLAD_OK) refuse(truth.status, ERRCODE_DATA_CORRUPTED);
    return truth.value;
}

/* Looks a key of an object up, which is sooner done than to check all of the document. */
static bool exists_in(Sliced *document, Part whole, Bytes key) {
    Part member;
    if (is_object_in(document, whole)) return find_key_in(document, whole.payload, key, &member);
    return has_text(whole_of(document), key);
}

PG_FUNCTION_INFO_V1(pg_kohiblad_exists);
Datum pg_kohiblad_exists(PG_FUNCTION_ARGS) {
    Sliced document;
    Part whole = open_sliced(&document, PG_GETARG_RAW_VARLENA_P(0));
    bool result = exists_in(&document, whole, utf8_of_text(PG_GETARG_TEXT_PP(1)));
    close_sliced(&document);
    PG_RETURN_BOOL(result);
}

static void pg_attribute_noreturn() refuse_names(const char *message) {
    ereport(ERROR, (errcode(ERRCODE_INVALID_PARAMETER_VALUE), errmsg("kohiblad: %s", message)));
}

/* Whether an object has any of a few keys, or all of them: each is looked up by itself. */
static bool few_exist(Sliced *document, Bytes object, TextPath keys, bool needs_all) {
    Part member;
    for (int i = 0; i < keys.count; i++) {
        CHECK_FOR_INTERRUPTS();
        if (keys.nulls[i]) continue;
        Bytes key = utf8_of_text(DatumGetTextPP(keys.elements[i]));
        if (find_key_in(document, object, key, &member) != needs_all) return !needs_all;
    }
    return needs_all;
}

/* The array of the keys of an object. */
static struct varlena *array_of_names(Sliced *document, Bytes object) {
    struct kohiblad_cursor cursor;
    struct kohiblad_place key, value;
    Rows *rows = new_rows();
    uint32_t status = begin_members_in(document, object, &cursor);
    while (status == KOHIBLAD_OK) {
        CHECK_FOR_INTERRUPTS();
        status = kohiblad_next(object.at, object.size, &cursor, &key, &value);
        if (status == KOHIBLAD_OK) add_text(rows, part_at(object, key).payload);
    }
    if (status != KOHIBLAD_NONE) refuse(status, ERRCODE_DATA_CORRUPTED);
    struct varlena *array = array_of_rows(rows);
    free_rows(rows);
    return array;
}

/* A document in which the same keys exist: of a long object the array of its keys, so that no value
 * is fetched. */
static Bytes names_in(Sliced *document, Part whole) {
    if (is_stored(document) && is_object_in(document, whole))
        return bytes_of(array_of_names(document, whole.payload));
    return whole_of(document);
}

/* The array of the keys that are texts of the format; whether some are too long for it, and so in
 * no document. */
static struct varlena *array_of_keys(TextPath keys, bool *some_are_too_long) {
    Rows *rows = new_rows();
    *some_are_too_long = false;
    for (int i = 0; i < keys.count; i++) {
        CHECK_FOR_INTERRUPTS();
        if (keys.nulls[i]) continue;
        Bytes key = utf8_of_text(DatumGetTextPP(keys.elements[i]));
        if (key.size < PAYLOAD_LIMIT)
            add_text(rows, key);
        else
            *some_are_too_long = true;
    }
    struct varlena *array = array_of_rows(rows);
    free_rows(rows);
    return array;
}

/* The same for the texts of an array, in one walk over the document. */
static bool texts_exist(Bytes document, Bytes names, bool needs_all) {
    size_t depth = depth_of_size(Max(document.size, names.size));
    check_stack_for(stack_of_depth(depth));
    struct kohiblad_truth truth =
        (needs_all ? kohiblad_exists_all : kohiblad_exists_any)(document.at, document.size,
                                                                names.at, names.size, depth);
    if (truth.status == KOHIBLAD_OTHER_KIND) refuse_names("keys are an array of texts");
    if (truth.status != KOHIBLAD_OK) refuse(truth.status, ERRCODE_DATA_CORRUPTED);
    return truth.value;
}

/* The same for any number of keys. */
static bool many_exist(Bytes document, TextPath keys, bool needs_all) {
    bool some_are_too_long;
    struct varlena *array = array_of_keys(keys, &some_are_too_long);
    if (some_are_too_long && needs_all) return false;
    bool result = texts_exist(document, bytes_of(array), needs_all);
    pfree(array);
    return result;
}

/* Whether any key of an array exists, or all of them; nulls are passed over. */
static bool keys_exist(FunctionCallInfo fcinfo, bool needs_all) {
    Sliced document;
    Part whole = open_sliced(&document, PG_GETARG_RAW_VARLENA_P(0));
    TextPath keys = elements_of_array(PG_GETARG_ARRAYTYPE_P(1));
    bool result = keys.count <= FEW_KEYS && is_object_in(&document, whole)
                      ? few_exist(&document, whole.payload, keys, needs_all)
                      : many_exist(names_in(&document, whole), keys, needs_all);
    close_sliced(&document);
    return result;
}

PG_FUNCTION_INFO_V1(pg_kohiblad_exists_any);
Datum pg_kohiblad_exists_any(PG_FUNCTION_ARGS) {
    PG_RETURN_BOOL(keys_exist(fcinfo, false));
}

PG_FUNCTION_INFO_V1(pg_kohiblad_exists_all);
Datum pg_kohiblad_exists_all(PG_FUNCTION_ARGS) {
    PG_RETURN_BOOL(keys_exist(fcinfo, true));
}

/* What ?, ?| and ?& are sent to other servers as: keys are a document, which has no collation. */
PG_FUNCTION_INFO_V1(pg_kohiblad_has);
Datum pg_kohiblad_has(PG_FUNCTION_ARGS) {
    Sliced document;
    Part whole = open_sliced(&document, PG_GETARG_RAW_VARLENA_P(0));
    Part key = part_of_document(bytes_of(PG_GETARG_VARLENA_PP(1)));
    if (key.type != KOHIBLAD_TYPE_STRING) refuse_names("a key is a text");
    bool result = exists_in(&document, whole, key.payload);
    close_sliced(&document);
    PG_RETURN_BOOL(result);
}

static bool names_exist(FunctionCallInfo fcinfo, bool needs_all) {
    Sliced document;
    Part whole = open_sliced(&document, PG_GETARG_RAW_VARLENA_P(0));
    struct varlena *names = PG_GETARG_VARLENA_PP(1);
    bool result = texts_exist(names_in(&document, whole), bytes_of(names), needs_all);
    close_sliced(&document);
    PG_FREE_IF_COPY(names, 1);
    return result;
}

PG_FUNCTION_INFO_V1(pg_kohiblad_has_any);
Datum pg_kohiblad_has_any(PG_FUNCTION_ARGS) {
    PG_RETURN_BOOL(names_exist(fcinfo, false));
}

PG_FUNCTION_INFO_V1(pg_kohiblad_has_all);
Datum pg_kohiblad_has_all(PG_FUNCTION_ARGS) {
    PG_RETURN_BOOL(names_exist(fcinfo, true));
}
