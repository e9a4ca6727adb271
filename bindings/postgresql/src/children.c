/* Functions that return a row for each child of a document. */
#include "document.h"

#include "funcapi.h"
#include "miscadmin.h"
#include "utils/builtins.h"

/* The walk over a document, which puts a row into the result for each child. */
typedef struct Walk {
    Bytes document;
    ReturnSetInfo *result;
    bool has_key;   /* whether a row begins with the key, which is null for an item */
    bool has_value; /* and whether a value follows, as a document or a text */
    bool is_text;
} Walk;

static void put_row(const Walk *walk, struct kohiblad_place key, struct kohiblad_place place) {
    Datum columns[2] = {0};
    bool nulls[2] = {false};
    int count = 0;
    if (walk->has_key) {
        nulls[count] = key.status != KOHIBLAD_OK;
        if (!nulls[count])
            columns[count] = PointerGetDatum(text_of_utf8(part_at(walk->document, key).payload));
        count++;
    }
    if (walk->has_value) {
        Part value = part_at(walk->document, place);
        columns[count] = walk->is_text ? PointerGetDatum(plain_text(value))
                                       : PointerGetDatum(document_of_part(value));
        nulls[count] = !DatumGetPointer(columns[count]);
    }
    tuplestore_putvalues(walk->result->setResult, walk->result->setDesc, columns, nulls);
}

static Datum put_rows(FunctionCallInfo fcinfo, Walk walk) {
    InitMaterializedSRF(fcinfo, MAT_SRF_USE_EXPECTED_DESC | MAT_SRF_BLESS);
    walk.result = (ReturnSetInfo *)fcinfo->resultinfo;
    MemoryContext row_context =
        AllocSetContextCreate(CurrentMemoryContext, "kohiblad rows", ALLOCSET_DEFAULT_SIZES);
    MemoryContext caller = MemoryContextSwitchTo(row_context);
    struct kohiblad_cursor cursor;
    struct kohiblad_place key, place;
    uint32_t status = kohiblad_begin(walk.document.at, walk.document.size, &cursor);
    while (status == KOHIBLAD_OK) {
        CHECK_FOR_INTERRUPTS();
        status =
            kohiblad_next(walk.document.at, walk.document.size, &cursor, &key, &place);
        if (status != KOHIBLAD_OK) break;
        put_row(&walk, key, place);
        MemoryContextReset(row_context);
    }
    if (status != KOHIBLAD_NONE) refuse(status, ERRCODE_DATA_CORRUPTED);
    MemoryContextSwitchTo(caller);
    MemoryContextDelete(row_context);
    return (Datum)0;
}

/* Refuses a document of another kind than a function is for. */
static void need_kind(Bytes document, uint32_t wanted, const char *function) {
    uint32_t kind = kind_of(document).kind;
    if (kind == wanted) return;
    const char *given = kind == KOHIBLAD_ARRAY    ? "an array"
                        : kind == KOHIBLAD_OBJECT ? "an object"
                                                  : "a scalar";
    ereport(ERROR, (errcode(ERRCODE_INVALID_PARAMETER_VALUE),
                    errmsg("kohiblad: cannot call %s on %s", function, given)));
}

PG_FUNCTION_INFO_V1(pg_kohiblad_each);
Datum pg_kohiblad_each(PG_FUNCTION_ARGS) {
    Bytes document = bytes_of(PG_GETARG_VARLENA_PP(0));
    return put_rows(fcinfo, (Walk){document, .has_key = true, .has_value = true});
}

PG_FUNCTION_INFO_V1(pg_kohiblad_each_text);
Datum pg_kohiblad_each_text(PG_FUNCTION_ARGS) {
    Bytes document = bytes_of(PG_GETARG_VARLENA_PP(0));
    return put_rows(fcinfo,
                    (Walk){document, .has_key = true, .has_value = true, .is_text = true});
}

PG_FUNCTION_INFO_V1(pg_kohiblad_object_keys);
Datum pg_kohiblad_object_keys(PG_FUNCTION_ARGS) {
    Bytes document = bytes_of(PG_GETARG_VARLENA_PP(0));
    need_kind(document, KOHIBLAD_OBJECT, "kohiblad_object_keys");
    return put_rows(fcinfo, (Walk){document, .has_key = true});
}

PG_FUNCTION_INFO_V1(pg_kohiblad_array_elements);
Datum pg_kohiblad_array_elements(PG_FUNCTION_ARGS) {
    Bytes document = bytes_of(PG_GETARG_VARLENA_PP(0));
    need_kind(document, KOHIBLAD_ARRAY, "kohiblad_array_elements");
    return put_rows(fcinfo, (Walk){document, .has_value = true});
}

PG_FUNCTION_INFO_V1(pg_kohiblad_array_elements_text);
Datum pg_kohiblad_array_elements_text(PG_FUNCTION_ARGS) {
    Bytes document = bytes_of(PG_GETARG_VARLENA_PP(0));
    need_kind(document, KOHIBLAD_ARRAY, "kohiblad_array_elements_text");
    return put_rows(fcinfo, (Walk){document, .has_value = true, .is_text = true});
}
