/* Changed copies of documents: what comes out is canonical, and nests at most MAX_DEPTH levels. */
#include "edit.h"

#include "catalog/pg_type.h"
#include "miscadmin.h"
#include "utils/builtins.h"

/* Copies of a document differ little in size from what they are made of. */
#define EDIT_SLACK 64

/* So many names are sooner looked up in an object than it is copied without them. */
#define FEW_NAMES 4

/* A library call that makes a document of two. */
typedef uint32_t (*PairCall)(const uint8_t *left, size_t left_size, const uint8_t *right,
                             size_t right_size, size_t depth, uint8_t *out, size_t room,
                             size_t *length);

/* Refuses a document that nests too deep to be put below so many levels. */
static void check_depth_below(Bytes document, size_t levels) {
    size_t depth = depth_of_size(document.size);
    if (depth + levels <= MAX_DEPTH) return;
    check_stack_for(stack_of_depth(depth));
    if (levels > MAX_DEPTH || !kohiblad_check(document.at, document.size, MAX_DEPTH - levels))
        refuse(KOHIBLAD_TOO_DEEP, ERRCODE_PROGRAM_LIMIT_EXCEEDED);
}

/* Takes what a call wrote into a new value of so much room, or says how much it needs. */
static struct varlena *taken(struct varlena *value, uint32_t status, size_t length, size_t *room) {
    CHECK_FOR_INTERRUPTS();
    if (status == KOHIBLAD_OK) {
        SET_VARSIZE(value, VARHDRSZ + length);
        return value;
    }
    pfree(value);
    if (status != KOHIBLAD_NO_ROOM) refuse(status, ERRCODE_PROGRAM_LIMIT_EXCEEDED);
    check_room(length);
    *room = length;
    return NULL;
}

struct varlena *edited(Bytes document, Bytes steps, int count, enum kohiblad_edit_kind kind,
                       Bytes value) {
    if (kind != KOHIBLAD_REMOVE) check_depth_below(value, count);
    struct varlena *result = NULL;
    size_t depth = depth_of_size(Max(document.size, value.size)), length;
    size_t room =
        Min(document.size + value.size + 3 * steps.size + EDIT_SLACK, MaxAllocSize - VARHDRSZ);
    check_stack_for(stack_of_levels(Min(MAX_DEPTH, depth + count), KOHIBLAD_EDIT_LEVEL_STACK));
    while (!result) {
        struct varlena *out = palloc(VARHDRSZ + room);
        uint32_t status =
            kohiblad_edit(document.at, document.size, steps.at, steps.size, kind, value.at,
                          value.size, depth, (uint8_t *)VARDATA(out), room, &length);
        result = taken(out, status, length, &room);
    }
    return result;
}

/* The document that a call makes of two, which takes so much stack for each level. */
static struct varlena *made_of_two(PairCall call, size_t level_stack, Bytes left, Bytes right) {
    struct varlena *result = NULL;
    size_t depth = depth_of_size(Max(left.size, right.size)), length;
    size_t room = Min(left.size + right.size + EDIT_SLACK, MaxAllocSize - VARHDRSZ);
    check_stack_for(stack_of_levels(depth, level_stack));
    while (!result) {
        struct varlena *out = palloc(VARHDRSZ + room);
        uint32_t status = call(left.at, left.size, right.at, right.size, depth,
                               (uint8_t *)VARDATA(out), room, &length);
        result = taken(out, status, length, &room);
    }
    return result;
}

/* A value that is put into an array lies one level deeper. */
static void check_joined_depth(Bytes left, Bytes right) {
    uint32_t left_kind = kind_of(left).kind, right_kind = kind_of(right).kind;
    if (left_kind == KOHIBLAD_OBJECT && right_kind == KOHIBLAD_OBJECT) return;
    if (left_kind != KOHIBLAD_ARRAY) check_depth_below(left, 1);
    if (right_kind != KOHIBLAD_ARRAY) check_depth_below(right, 1);
}

struct varlena *joined(Bytes left, Bytes right) {
    check_joined_depth(left, right);
    return made_of_two(kohiblad_concat, KOHIBLAD_EDIT_LEVEL_STACK, left, right);
}

PG_FUNCTION_INFO_V1(pg_kohiblad_concat);
Datum pg_kohiblad_concat(PG_FUNCTION_ARGS) {
    struct varlena *left = PG_GETARG_VARLENA_PP(0), *right = PG_GETARG_VARLENA_PP(1);
    PG_RETURN_POINTER(joined(bytes_of(left), bytes_of(right)));
}

/* The result nests no deeper than the deeper of target and patch. */
PG_FUNCTION_INFO_V1(pg_kohiblad_merge_patch);
Datum pg_kohiblad_merge_patch(PG_FUNCTION_ARGS) {
    struct varlena *target = PG_GETARG_VARLENA_PP(0), *patch = PG_GETARG_VARLENA_PP(1);
    PG_RETURN_POINTER(made_of_two(kohiblad_merge_patch, KOHIBLAD_PATCH_LEVEL_STACK,
                                  bytes_of(target), bytes_of(patch)));
}

static void pg_attribute_noreturn() refuse_edit(const char *reason) {
    ereport(ERROR, (errcode(ERRCODE_INVALID_PARAMETER_VALUE), errmsg("kohiblad: %s", reason)));
}

static bool is_scalar(Bytes document) {
    uint32_t kind = kind_of(document).kind;
    return kind != KOHIBLAD_ARRAY && kind != KOHIBLAD_OBJECT;
}

/* The path of an argument, to change a document that is no scalar. */
static Path *path_to_change(FunctionCallInfo fcinfo, Bytes document, const char *reason) {
    Path *path = kept_path(fcinfo);
    if (is_scalar(document)) refuse_edit(reason);
    return path;
}

/* The document edited at the end that a path was followed to, where an array has this index. */
static struct varlena *edited_at(Bytes document, Path *path, const PathEnd *end, int64 index,
                                 enum kohiblad_edit_kind kind, Bytes value) {
    return edited(document, steps_through(path, end, index), path->count, kind, value);
}

static Datum set_at_path(FunctionCallInfo fcinfo, Bytes value) {
    struct varlena *given = PG_GETARG_VARLENA_PP(0);
    Bytes document = bytes_of(given);
    Path *path = path_to_change(fcinfo, document, "cannot set path in scalar");
    bool may_add = PG_GETARG_BOOL(3);
    PathEnd end;
    if (path->count == 0 || (kind_of(document).count == 0 && !may_add)) PG_RETURN_POINTER(given);
    if (!follow_path(document, path, &end)) PG_RETURN_POINTER(given);
    if (end.level < path->count - 1 || !(may_add || is_end_there(&end))) PG_RETURN_POINTER(given);
    PG_RETURN_POINTER(edited_at(document, path, &end, end.index, KOHIBLAD_PUT, value));
}

PG_FUNCTION_INFO_V1(pg_kohiblad_set);
Datum pg_kohiblad_set(PG_FUNCTION_ARGS) {
    return set_at_path(fcinfo, bytes_of(PG_GETARG_VARLENA_PP(2)));
}

PG_FUNCTION_INFO_V1(pg_kohiblad_delete_path);
Datum pg_kohiblad_delete_path(PG_FUNCTION_ARGS) {
    struct varlena *given = PG_GETARG_VARLENA_PP(0);
    Bytes document = bytes_of(given);
    Path *path = path_to_change(fcinfo, document, "cannot delete path in scalar");
    PathEnd end;
    if (path->count == 0 || kind_of(document).count == 0) PG_RETURN_POINTER(given);
    if (!follow_path(document, path, &end)) PG_RETURN_POINTER(given);
    if (end.level < path->count - 1 || !is_end_there(&end)) PG_RETURN_POINTER(given);
    PG_RETURN_POINTER(edited_at(document, path, &end, end.index, KOHIBLAD_REMOVE, (Bytes){0}));
}

#define TREATMENTS "\"delete_key\", \"return_target\", \"use_json_null\", or \"raise_exception\""

/* What is done where the new value is null of SQL. */
static Datum set_null(FunctionCallInfo fcinfo, const char *treatment) {
    if (strcmp(treatment, "use_json_null") == 0) {
        Rows *null = new_rows();
        add_null(null);
        return set_at_path(fcinfo, (Bytes){(uint8_t *)null->bytes.data, null->bytes.len});
    }
    if (strcmp(treatment, "delete_key") == 0) return pg_kohiblad_delete_path(fcinfo);
    if (strcmp(treatment, "return_target") == 0) PG_RETURN_POINTER(PG_GETARG_VARLENA_PP(0));
    if (strcmp(treatment, "raise_exception") == 0)
        ereport(ERROR, (errcode(ERRCODE_NULL_VALUE_NOT_ALLOWED),
                        errmsg("kohiblad: the new value must not be null"),
                        errdetail("null_value_treatment is \"raise_exception\".")));
    refuse_edit("null_value_treatment must be " TREATMENTS);
}

PG_FUNCTION_INFO_V1(pg_kohiblad_set_lax);
Datum pg_kohiblad_set_lax(PG_FUNCTION_ARGS) {
    if (PG_ARGISNULL(0) || PG_ARGISNULL(1) || PG_ARGISNULL(3)) PG_RETURN_NULL();
    if (PG_ARGISNULL(4)) refuse_edit("null_value_treatment must be " TREATMENTS);
    if (!PG_ARGISNULL(2)) return pg_kohiblad_set(fcinfo);
    return set_null(fcinfo, text_to_cstring(PG_GETARG_TEXT_PP(4)));
}

/* Where an item is inserted, from 0 to the number of items: an index past them is at their end, and
 * one before the first at the front. */
static int64 place_of_item(const PathEnd *end, bool is_after) {
    int64 index = end->index < 0 ? end->index + end->count : end->index;
    if (index < 0) return 0;
    return Min(index + is_after, end->count);
}

PG_FUNCTION_INFO_V1(pg_kohiblad_insert);
Datum pg_kohiblad_insert(PG_FUNCTION_ARGS) {
    struct varlena *given = PG_GETARG_VARLENA_PP(0);
    Bytes document = bytes_of(given), value = bytes_of(PG_GETARG_VARLENA_PP(2));
    Path *path = path_to_change(fcinfo, document, "cannot set path in scalar");
    PathEnd end;
    if (path->count == 0 || !follow_path(document, path, &end)) PG_RETURN_POINTER(given);
    if (end.level < path->count - 1) PG_RETURN_POINTER(given);
    if (!end.is_array && is_end_there(&end))
        ereport(ERROR, (errcode(ERRCODE_INVALID_PARAMETER_VALUE),
                        errmsg("kohiblad: cannot replace existing key"),
                        errhint("kohiblad_set replaces the value of a key.")));
    int64 index = place_of_item(&end, PG_GETARG_BOOL(3));
    PG_RETURN_POINTER(edited_at(document, path, &end, index, KOHIBLAD_INSERT, value));
}

/* Names that go, in order, and their array as the library takes it, NULL until it is needed. */
typedef struct Names {
    Bytes *at;
    size_t count;
    struct varlena *listed;
} Names;

static int compare_names(const void *left, const void *right) {
    CHECK_FOR_INTERRUPTS();
    const Bytes *l = left, *r = right;
    int order = memcmp(l->at, r->at, Min(l->size, r->size));
    return order ? order : (l->size > r->size) - (l->size < r->size);
}

static bool is_among(const Names *names, Bytes name) {
    return names->count && bsearch(&name, names->at, names->count, sizeof name, compare_names);
}

static uint32_t pick_others(const uint8_t *bytes, size_t size, const uint8_t *names,
                            size_t names_size, size_t depth, uint8_t *out, size_t room,
                            size_t *length) {
    return kohiblad_pick(bytes, size, names, names_size, KOHIBLAD_OTHERS, depth, out, room, length);
}

/* The names' array, which is kept as they are. */
static Bytes listed_names(Names *names) {
    if (names->listed) return bytes_of(names->listed);
    Rows *rows = new_rows();
    for (size_t i = 0; i < names->count; i++) {
        CHECK_FOR_INTERRUPTS();
        add_text(rows, names->at[i]);
    }
    MemoryContext caller = MemoryContextSwitchTo(GetMemoryChunkContext(names));
    names->listed = array_of_rows(rows);
    MemoryContextSwitchTo(caller);
    free_rows(rows);
    return bytes_of(names->listed);
}

/* Whether an object has none of some names, as far as that is sooner told than it is copied. */
static bool lacks_few(Bytes object, const Names *names) {
    Part child;
    for (size_t i = 0; i < names->count; i++)
        if (i == FEW_NAMES || find_key(object, names->at[i], &child)) return false;
    return true;
}

/* Whether a document is canonical. Then its parts are, and what the library builds of them, which is
 * sooner done than that it writes a changed document anew. */
static bool is_canonical(Bytes document) {
    size_t depth = depth_of_size(document.size);
    check_stack_for(stack_of_depth(depth));
    CHECK_FOR_INTERRUPTS();
    return kohiblad_is_canonical(document.at, document.size, depth);
}

/* A walk over the children of a container, one by one. */
typedef struct Walk {
    Bytes container;
    struct kohiblad_cursor cursor;
    bool is_list;
    Part key, child; /* an item has no key */
} Walk;

static Walk walk_over(Bytes container) {
    Walk walk = {.container = container, .is_list = has_kind(container, ARRAY_BITS)};
    uint32_t status = kohiblad_begin(container.at, container.size, &walk.cursor);
    if (status != KOHIBLAD_OK) refuse(status, ERRCODE_DATA_CORRUPTED);
    return walk;
}

static bool walks_on(Walk *walk) {
    Bytes container = walk->container;
    struct kohiblad_place key, child;
    CHECK_FOR_INTERRUPTS();
    uint32_t status = kohiblad_next(container.at, container.size, &walk->cursor, &key, &child);
    if (status == KOHIBLAD_NONE) return false;
    if (status != KOHIBLAD_OK) refuse(status, ERRCODE_DATA_CORRUPTED);
    if (!walk->is_list) walk->key = part_at(container, key);
    walk->child = part_at(container, child);
    return true;
}

/* Adds the child that a walk is at, a key and a value of an object. */
static void add_child(Rows *rows, const Walk *walk) {
    if (!walk->is_list) add_row(rows, walk->key.payload);
    add_part(rows, walk->child);
}

/* The container that a walk was over, of these rows. */
static struct varlena *built_of(const Walk *walk, Rows *rows) {
    struct varlena *built = walk->is_list ? array_of_rows(rows) : object_of_unique_rows(rows);
    free_rows(rows);
    return built;
}

/* Whether the child that a walk is at goes: a member by its key, an item if it is a text. */
static bool goes(const Walk *walk, const Names *names) {
    Part named = walk->is_list ? walk->child : walk->key;
    return named.type == KOHIBLAD_TYPE_STRING && is_among(names, named.payload);
}

/* A container without the children that go by some names, or as it was if there are none. */
static struct varlena *without_children(struct varlena *given, const Names *names) {
    Rows *rows = new_rows();
    Walk walk = walk_over(bytes_of(given));
    bool any_goes = false;
    while (walks_on(&walk)) {
        if (goes(&walk, names))
            any_goes = true;
        else
            add_child(rows, &walk);
    }
    if (any_goes) return built_of(&walk, rows);
    free_rows(rows);
    return given;
}

/* An object without the members that are named, or as it was if there are none. */
static struct varlena *without_members(struct varlena *given, Names *names) {
    Bytes document = bytes_of(given);
    if (lacks_few(document, names)) return given;
    if (document.size <= BYTES_UNCHECKED && is_canonical(document))
        return without_children(given, names);
    struct varlena *result =
        made_of_two(pick_others, KOHIBLAD_LEVEL_STACK, document, listed_names(names));
    return kind_of(bytes_of(result)).count == kind_of(document).count ? given : result;
}

static Datum without(struct varlena *given, Names *names) {
    Bytes document = bytes_of(given);
    if (is_scalar(document)) refuse_edit("cannot delete from scalar");
    if (has_kind(document, ARRAY_BITS)) PG_RETURN_POINTER(without_children(given, names));
    PG_RETURN_POINTER(without_members(given, names));
}

static Names *new_names(int most) {
    Names *names = palloc0(sizeof *names);
    names->at = palloc(Max(most, 1) * sizeof *names->at);
    return names;
}

static void *make_name(struct varlena *name) {
    Names *names = new_names(1);
    names->at[names->count++] = utf8_of_text((text *)name);
    return names;
}

static void *make_names(struct varlena *array) {
    TextPath given = path_of_array(DatumGetArrayTypeP(PointerGetDatum(array)));
    Names *names = new_names(given.count);
    for (int i = 0; i < given.count; i++) {
        CHECK_FOR_INTERRUPTS();
        if (!given.nulls[i])
            names->at[names->count++] = utf8_of_text(DatumGetTextPP(given.elements[i]));
    }
    if (names->count) qsort(names->at, names->count, sizeof *names->at, compare_names);
    return names;
}

PG_FUNCTION_INFO_V1(pg_kohiblad_delete);
Datum pg_kohiblad_delete(PG_FUNCTION_ARGS) {
    return without(PG_GETARG_VARLENA_PP(0), made_of_argument(fcinfo, 1, make_name));
}

PG_FUNCTION_INFO_V1(pg_kohiblad_delete_array);
Datum pg_kohiblad_delete_array(PG_FUNCTION_ARGS) {
    return without(PG_GETARG_VARLENA_PP(0), made_of_argument(fcinfo, 1, make_names));
}

PG_FUNCTION_INFO_V1(pg_kohiblad_delete_index);
Datum pg_kohiblad_delete_index(PG_FUNCTION_ARGS) {
    struct varlena *given = PG_GETARG_VARLENA_PP(0);
    Bytes document = bytes_of(given);
    int index = PG_GETARG_INT32(1);
    if (is_scalar(document)) refuse_edit("cannot delete from scalar");
    if (kind_of(document).kind == KOHIBLAD_OBJECT)
        refuse_edit("cannot delete from object using integer index");
    if (!has_index(kind_of(document).count, index)) PG_RETURN_POINTER(given);
    Rows *steps = new_rows();
    add_int64(steps, index);
    Bytes path = bytes_of(array_of_rows(steps));
    PG_RETURN_POINTER(edited(document, path, 1, KOHIBLAD_REMOVE, (Bytes){0}));
}

PG_FUNCTION_INFO_V1(pg_kohiblad_strip_nulls);
Datum pg_kohiblad_strip_nulls(PG_FUNCTION_ARGS) {
    Bytes document = bytes_of(PG_GETARG_VARLENA_PP(0));
    PG_RETURN_POINTER(write_value(kohiblad_strip_nulls, document, document.size,
                                  ERRCODE_PROGRAM_LIMIT_EXCEEDED));
}
