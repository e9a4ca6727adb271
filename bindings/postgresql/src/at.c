/* kohiblad_at, whose path is a document, and how the planner comes to it.
 *
 * A text has a collation, which another server may not have: postgres_fdw sends no call with a text
 * of a query, and so neither -> nor #>. A document has no collation. So the planner turns both, if
 * their path is constant, into kohiblad_at, also in indexes and in the bounds of partitions. ->>
 * stays: its answer is a text, which is compared and sorted by a collation. */
#include "at.h"
#include "paths.h"

#include "catalog/pg_proc.h"
#include "catalog/pg_type.h"
#include "miscadmin.h"
#include "nodes/makefuncs.h"
#include "nodes/supportnodes.h"
#include "utils/builtins.h"
#include "utils/lsyscache.h"
#include "utils/syscache.h"

/* A constant of more bytes is left to -> and #>. */
#define LONGEST_PATH 65536

static int64 index_of_number(Part number) {
    uint8_t room[NUMBER_ROOM];
    if (room_of_part(number) > sizeof room) refuse_path();
    Bytes document = write_part(number, room, sizeof room);
    struct kohiblad_integer index = kohiblad_as_int64(document.at, document.size);
    if (index.status != KOHIBLAD_OK) refuse_path();
    return index.value;
}

static bool find_number(Sliced *document, Part value, Part number, Part *child) {
    int64 index = index_of_number(number);
    return is_container(value) && find_index_in(document, value.payload, index, child);
}

/* Finds what an element of an array leads to, as #> does. */
static bool find_element(Sliced *document, Part value, Part element, Part *child) {
    switch (element.type) {
        case KOHIBLAD_TYPE_NUMBER: return find_number(document, value, element, child);
        case KOHIBLAD_TYPE_STRING:
            return is_container(value)
                && find_step(document, value.payload, element.payload, child);
        default: refuse_path();
    }
}

static bool find_elements(Sliced *document, Part value, Bytes path, Part *child) {
    struct kohiblad_cursor cursor;
    struct kohiblad_place key, element;
    *child = value;
    uint32_t status = kohiblad_begin(path.at, path.size, &cursor);
    while (status == KOHIBLAD_OK) {
        CHECK_FOR_INTERRUPTS();
        status = kohiblad_next(path.at, path.size, &cursor, &key, &element);
        if (status != KOHIBLAD_OK) break;
        if (!find_element(document, *child, part_at(path, element), child)) return false;
    }
    if (status != KOHIBLAD_NONE) refuse(status, ERRCODE_DATA_CORRUPTED);
    return true;
}

/* Finds what a path leads to: a text alone names a member as -> does, and no item. */
static bool find_at(Sliced *document, Part value, Bytes path, Part *child) {
    Part whole = part_of_document(path);
    switch (whole.type) {
        case KOHIBLAD_TYPE_NUMBER: return find_number(document, value, whole, child);
        case KOHIBLAD_TYPE_STRING:
            return is_container(value)
                && find_key_in(document, value.payload, whole.payload, child);
        case KOHIBLAD_TYPE_CONTAINER:
            if (is_array(whole)) return find_elements(document, value, path, child);
            refuse_path();
        default: refuse_path();
    }
}

PG_FUNCTION_INFO_V1(pg_kohiblad_at);
Datum pg_kohiblad_at(PG_FUNCTION_ARGS) {
    struct varlena *path = PG_GETARG_VARLENA_PP(1), *found = NULL;
    Sliced document;
    Part child, whole = open_sliced(&document, PG_GETARG_RAW_VARLENA_P(0));
    if (find_at(&document, whole, bytes_of(path), &child)) {
        fetch_part(&document, child);
        found = document_of_part(child);
    }
    close_sliced(&document);
    PG_FREE_IF_COPY(path, 1);
    if (!found) PG_RETURN_NULL();
    PG_RETURN_POINTER(found);
}

/* The array of a path, or NULL if it has no counterpart: it has two dimensions, or a NULL. */
static struct varlena *array_of_path(ArrayType *array) {
    if (ARR_NDIM(array) > 1 || array_contains_nulls(array)) return NULL;
    TextPath path = elements_of_array(array);
    Rows *rows = new_rows();
    for (int i = 0; i < path.count; i++) {
        CHECK_FOR_INTERRUPTS();
        add_text(rows, utf8_of_text(DatumGetTextPP(path.elements[i])));
    }
    struct varlena *built = array_of_rows(rows);
    free_rows(rows);
    return built;
}

struct varlena *document_of_constant(const Node *argument) {
    const Const *path = (const Const *)argument;
    if (!IsA(argument, Const) || path->constisnull) return NULL;
    if (VARSIZE_ANY_EXHDR(DatumGetPointer(path->constvalue)) > LONGEST_PATH) return NULL;
    switch (path->consttype) {
        case TEXTOID: {
            Bytes name = utf8_of_text(DatumGetTextPP(path->constvalue));
            return document_of_part((Part){KOHIBLAD_TYPE_STRING, name});
        }
        case TEXTARRAYOID: return array_of_path(DatumGetArrayTypeP(path->constvalue));
        default: return NULL;
    }
}

/* kohiblad_at in the schema of a function of the extension, whose type is this one. */
static Oid at_beside(Oid function, Oid type) {
    Oid arguments[] = {type, type};
    return GetSysCacheOid3(PROCNAMEARGSNSP, Anum_pg_proc_oid, CStringGetDatum("kohiblad_at"),
                           PointerGetDatum(buildoidvector(arguments, 2)),
                           ObjectIdGetDatum(get_func_namespace(function)));
}

/* The call of kohiblad_at that does the same, or NULL. */
static Node *call_of_at(const FuncExpr *call) {
    Oid type = call->funcresulttype;
    struct varlena *path = document_of_constant(lsecond(call->args));
    if (!path) return NULL;
    Oid at = at_beside(call->funcid, type);
    if (!OidIsValid(at)) return NULL;
    Const *constant = makeConst(type, -1, InvalidOid, -1, PointerGetDatum(path), false, false);
    return (Node *)makeFuncExpr(at, type, list_make2(linitial(call->args), constant), InvalidOid,
                                InvalidOid, COERCE_EXPLICIT_CALL);
}

PG_FUNCTION_INFO_V1(pg_kohiblad_at_support);
Datum pg_kohiblad_at_support(PG_FUNCTION_ARGS) {
    Node *request = (Node *)PG_GETARG_POINTER(0);
    if (!IsA(request, SupportRequestSimplify)) PG_RETURN_POINTER(NULL);
    PG_RETURN_POINTER(call_of_at(((SupportRequestSimplify *)request)->fcall));
}
