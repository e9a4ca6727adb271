/* Records of objects: kohiblad_populate_record, kohiblad_to_record, and both for arrays of objects.
 *
 * Each column takes the value of the key that is its name, as with jsonb: an array or a composite
 * type takes an array or an object, member by member, and every other type the text of the value by
 * its input function. A column of documents takes the document as it is. */
#include "values.h"

#include "access/htup_details.h"
#include "catalog/pg_type.h"
#include "funcapi.h"
#include "miscadmin.h"
#include "utils/array.h"
#include "utils/builtins.h"
#include "utils/lsyscache.h"
#include "utils/typcache.h"

/* A call: the function's name, and the types that it needs to know. */
typedef struct Call {
    const char *function;
    Oid documents; /* the type of documents */
    Oid type;      /* of the record: a composite type, a domain over one, or any record */
    Oid base;
    int32 base_modifier;
    TupleDesc columns;
    HeapTupleHeader given; /* the record whose other columns are kept, or NULL */
} Call;

/* A type of a value, with its modifier. */
typedef struct Type {
    Oid oid;
    int32 modifier;
} Type;

/* An array that is filled, and the numbers of items that it has in each dimension. */
typedef struct Filling {
    const Call *call;
    Type element;
    ArrayBuildState *items;
    int dimensions; /* 0 until the first array without an array in front ends the search */
    int sizes[MAXDIM], counts[MAXDIM];
} Filling;

static Datum value_of(const Call *call, const Part *part, Type type, Datum given, bool *is_null);

static void pg_attribute_noreturn() refuse_array(const char *reason) {
    ereport(ERROR, (errcode(ERRCODE_INVALID_TEXT_REPRESENTATION), errmsg("kohiblad: %s", reason)));
}

static void fill(Filling *filling, Part part, int dimension);

/* Adds an item of the innermost dimension, or fills the next dimension by it. */
static void fill_item(Filling *filling, Part item, int dimension) {
    if (dimension < filling->dimensions || filling->dimensions == 0) {
        fill(filling, item, dimension + 1);
        int *size = &filling->sizes[dimension], *count = &filling->counts[dimension];
        if (*size >= 0 && *size != *count) refuse_array("malformed JSON array");
        *size = *count;
        *count = 0;
    } else {
        bool is_null;
        Datum value = value_of(filling->call, &item, filling->element, 0, &is_null);
        filling->items = accumArrayResult(filling->items, value, is_null, filling->element.oid,
                                          CurrentMemoryContext);
    }
    filling->counts[dimension - 1]++;
}

/* Fills a dimension, from 1, by the items of an array. */
static void fill(Filling *filling, Part part, int dimension) {
    check_stack_depth();
    if (!is_array_part(part)) refuse_array("expected JSON array");
    if (dimension > MAXDIM)
        ereport(ERROR, (errcode(ERRCODE_PROGRAM_LIMIT_EXCEEDED),
                        errmsg("kohiblad: number of array dimensions exceeds the maximum "
                               "allowed (%d)", MAXDIM)));
    Bytes array = part.payload;
    struct kohiblad_cursor cursor;
    struct kohiblad_place place;
    bool is_first = true;
    uint32_t status = kohiblad_begin(array.at, array.size, &cursor);
    while (status == KOHIBLAD_OK) {
        CHECK_FOR_INTERRUPTS();
        status = kohiblad_next(array.at, array.size, &cursor, NULL, &place);
        if (status != KOHIBLAD_OK) break;
        Part item = part_at(array, place);
        if (is_first && filling->dimensions == 0 && !is_array_part(item))
            filling->dimensions = dimension;
        is_first = false;
        fill_item(filling, item, dimension);
    }
    if (status != KOHIBLAD_NONE) refuse(status, ERRCODE_DATA_CORRUPTED);
    if (is_first && filling->dimensions == 0) filling->dimensions = dimension;
}

static Datum array_of(const Call *call, Part part, Type element) {
    Filling filling = {.call = call, .element = element};
    filling.items = initArrayResult(element.oid, CurrentMemoryContext, true);
    int first[MAXDIM];
    for (int i = 0; i < MAXDIM; i++) {
        filling.sizes[i] = -1;
        first[i] = 1;
    }
    fill(&filling, part, 1);
    filling.sizes[0] = filling.counts[0];
    return makeMdArrayResult(filling.items, filling.dimensions, filling.sizes, first,
                             CurrentMemoryContext, true);
}

/* The values of a record, which are null if there is none. */
static void take_apart(HeapTupleHeader given, TupleDesc columns, Datum *values, bool *nulls) {
    memset(nulls, true, columns->natts * sizeof *nulls);
    if (!given) return;
    HeapTupleData tuple = {.t_len = HeapTupleHeaderGetDatumLength(given), .t_data = given};
    heap_deform_tuple(&tuple, columns, values, nulls);
}

static bool find_column(Bytes object, const char *name, Part *part) {
    Bytes key = utf8_of_server(name, strlen(name));
    struct kohiblad_place place = kohiblad_find_key(object.at, object.size, key.at, key.size);
    if (place.status == KOHIBLAD_NONE) return false;
    if (place.status != KOHIBLAD_OK) refuse(place.status, ERRCODE_DATA_CORRUPTED);
    *part = part_at(object, place);
    return true;
}

/* The record of an object. What it lacks is kept of a given one, or else null. */
static HeapTupleHeader record_of(const Call *call, Bytes object, TupleDesc columns,
                                 HeapTupleHeader given) {
    if (given && kind_of(object).count == 0) return given;
    Datum *values = palloc0(columns->natts * sizeof *values);
    bool *nulls = palloc(columns->natts * sizeof *nulls);
    take_apart(given, columns, values, nulls);
    for (int i = 0; i < columns->natts; i++) {
        CHECK_FOR_INTERRUPTS();
        Form_pg_attribute column = TupleDescAttr(columns, i);
        Part part;
        if (column->attisdropped) {
            nulls[i] = true;
            continue;
        }
        bool is_there = find_column(object, NameStr(column->attname), &part);
        if (given && !is_there) continue;
        values[i] = value_of(call, is_there ? &part : NULL,
                             (Type){column->atttypid, column->atttypmod},
                             nulls[i] ? 0 : values[i], &nulls[i]);
    }
    return heap_form_tuple(columns, values, nulls)->t_data;
}

static Bytes object_of_part(Part part) {
    if (!is_object_part(part))
        ereport(ERROR, (errcode(ERRCODE_INVALID_PARAMETER_VALUE),
                        errmsg("kohiblad: cannot make a record of %s",
                               is_container(part) ? "an array" : "a scalar")));
    return part.payload;
}

static Datum composite_of(const Call *call, Part part, Type type, Datum given) {
    TupleDesc columns = lookup_rowtype_tupdesc_copy(type.oid, type.modifier);
    HeapTupleHeader record = given ? record_of_datum(given) : NULL;
    return HeapTupleHeaderGetDatum(record_of(call, object_of_part(part), columns, record));
}

static Datum input(const char *shown, Type type) {
    Oid function, parameter;
    getTypeInputInfo(type.oid, &function, &parameter);
    return OidInputFunctionCall(function, (char *)shown, parameter, type.modifier);
}

/* The value of a type by its input function, of the text that a value has by ->>. */
static Datum read_text(Part part, Type type) {
    return input(text_to_cstring(plain_text(part)), type);
}

static Datum read_json(Part part, Type type) {
    return input(text_to_cstring(compact_text(bytes_of(document_of_part(part)))), type);
}

/* The value of a type that is no domain. */
static Datum plain_value_of(const Call *call, Part part, Type type, Datum given) {
    if (type.oid == call->documents) return PointerGetDatum(document_of_part(part));
    if (type.oid == JSONOID || type.oid == JSONBOID) return read_json(part, type);
    if (part.type == KOHIBLAD_TYPE_STRING) return read_text(part, type);
    Oid element = get_element_type(type.oid);
    if (OidIsValid(element)) return array_of(call, part, (Type){element, type.modifier});
    if (type.oid == RECORDOID || get_typtype(type.oid) == TYPTYPE_COMPOSITE)
        return composite_of(call, part, type, given);
    return read_text(part, type);
}

/* The value of a type for a part, or for none; `given` is what a record had there. */
static Datum value_of(const Call *call, const Part *part, Type type, Datum given, bool *is_null) {
    check_stack_depth();
    *is_null = !part || part->type == KOHIBLAD_TYPE_NULL;
    if (get_typtype(type.oid) != TYPTYPE_DOMAIN)
        return *is_null ? (Datum)0 : plain_value_of(call, *part, type, given);
    int32 modifier = type.modifier;
    Oid base = getBaseTypeAndTypmod(type.oid, &modifier);
    Datum value =
        *is_null ? (Datum)0 : plain_value_of(call, *part, (Type){base, modifier}, given);
    domain_check(value, *is_null, type.oid, NULL, NULL);
    return value;
}

/* The columns that the query expects, where no argument says them. */
static void take_columns_of_query(FunctionCallInfo fcinfo, Call *call) {
    if (get_call_result_type(fcinfo, NULL, &call->columns) != TYPEFUNC_COMPOSITE)
        ereport(ERROR, (errcode(ERRCODE_FEATURE_NOT_SUPPORTED),
                        errmsg("kohiblad: could not determine row type for result of %s",
                               call->function),
                        errhint("Provide a non-null record argument, or call the function in the "
                                "FROM clause using a column definition list.")));
    call->base = call->columns->tdtypeid;
    call->base_modifier = call->columns->tdtypmod;
}

/* The type of the first argument, and the record if it is not null. */
static void take_record(FunctionCallInfo fcinfo, Call *call) {
    call->type = get_fn_expr_argtype(fcinfo->flinfo, 0);
    call->base_modifier = -1;
    call->base = getBaseTypeAndTypmod(call->type, &call->base_modifier);
    if (call->base != RECORDOID && get_typtype(call->base) != TYPTYPE_COMPOSITE)
        ereport(ERROR, (errcode(ERRCODE_DATATYPE_MISMATCH),
                        errmsg("kohiblad: first argument of %s must be a row type",
                               call->function)));
    if (!PG_ARGISNULL(0)) {
        call->given = record_of_datum(PG_GETARG_DATUM(0));
        if (call->type == RECORDOID) {
            call->base = HeapTupleHeaderGetTypeId(call->given);
            call->base_modifier = HeapTupleHeaderGetTypMod(call->given);
        }
    } else if (call->type == RECORDOID) {
        take_columns_of_query(fcinfo, call);
        return;
    }
    call->columns = lookup_rowtype_tupdesc_copy(call->base, call->base_modifier);
}

static Call call_of(FunctionCallInfo fcinfo, const char *function, bool has_record) {
    Call call = {.function = function, .documents = type_of_documents(fcinfo), .type = RECORDOID};
    if (has_record)
        take_record(fcinfo, &call);
    else
        take_columns_of_query(fcinfo, &call);
    return call;
}

/* The record of an object, which a domain may refuse. */
static HeapTupleHeader checked_record(const Call *call, Bytes object) {
    HeapTupleHeader record = record_of(call, object, call->columns, call->given);
    if (get_typtype(call->type) == TYPTYPE_DOMAIN)
        domain_check(HeapTupleHeaderGetDatum(record), false, call->type, NULL, NULL);
    return record;
}

static Datum record(FunctionCallInfo fcinfo, const char *function, bool has_record) {
    Call call = call_of(fcinfo, function, has_record);
    int argument = has_record;
    if (PG_ARGISNULL(argument)) {
        if (!call.given) PG_RETURN_NULL();
        return HeapTupleHeaderGetDatum(call.given);
    }
    Part part = part_of_document(bytes_of(PG_GETARG_VARLENA_PP(argument)));
    return HeapTupleHeaderGetDatum(checked_record(&call, object_of_part(part)));
}

static void put_record(Tuplestorestate *rows, HeapTupleHeader record) {
    HeapTupleData tuple = {.t_len = HeapTupleHeaderGetDatumLength(record), .t_data = record};
    ItemPointerSetInvalid(&tuple.t_self);
    tuplestore_puttuple(rows, &tuple);
}

static void put_records(const Call *call, Bytes array, Tuplestorestate *rows) {
    MemoryContext row_context =
        AllocSetContextCreate(CurrentMemoryContext, "kohiblad records", ALLOCSET_DEFAULT_SIZES);
    MemoryContext caller = MemoryContextSwitchTo(row_context);
    struct kohiblad_cursor cursor;
    struct kohiblad_place place;
    uint32_t status = kohiblad_begin(array.at, array.size, &cursor);
    while (status == KOHIBLAD_OK) {
        CHECK_FOR_INTERRUPTS();
        status = kohiblad_next(array.at, array.size, &cursor, NULL, &place);
        if (status != KOHIBLAD_OK) break;
        Part item = part_at(array, place);
        if (!is_object_part(item))
            ereport(ERROR, (errcode(ERRCODE_INVALID_PARAMETER_VALUE),
                            errmsg("kohiblad: argument of %s must be an array of objects",
                                   call->function)));
        put_record(rows, checked_record(call, item.payload));
        MemoryContextReset(row_context);
    }
    if (status != KOHIBLAD_NONE) refuse(status, ERRCODE_DATA_CORRUPTED);
    MemoryContextSwitchTo(caller);
    MemoryContextDelete(row_context);
}

/* An empty set that the caller takes as a whole, with columns that it compares with its own. */
static Tuplestorestate *begin_set(FunctionCallInfo fcinfo, TupleDesc columns) {
    ReturnSetInfo *result = (ReturnSetInfo *)fcinfo->resultinfo;
    if (!result || !IsA(result, ReturnSetInfo) || !(result->allowedModes & SFRM_Materialize))
        ereport(ERROR, (errcode(ERRCODE_FEATURE_NOT_SUPPORTED),
                        errmsg("kohiblad: a set is not accepted here")));
    MemoryContext caller = MemoryContextSwitchTo(result->econtext->ecxt_per_query_memory);
    result->returnMode = SFRM_Materialize;
    result->setResult = tuplestore_begin_heap(result->allowedModes & SFRM_Materialize_Random,
                                              false, work_mem);
    result->setDesc = CreateTupleDescCopy(columns);
    MemoryContextSwitchTo(caller);
    return result->setResult;
}

static Datum recordset(FunctionCallInfo fcinfo, const char *function, bool has_record) {
    Call call = call_of(fcinfo, function, has_record);
    int argument = has_record;
    Tuplestorestate *rows = begin_set(fcinfo, call.columns);
    if (PG_ARGISNULL(argument)) PG_RETURN_NULL();
    Part part = part_of_document(bytes_of(PG_GETARG_VARLENA_PP(argument)));
    if (!is_array_part(part))
        ereport(ERROR, (errcode(ERRCODE_INVALID_PARAMETER_VALUE),
                        errmsg("kohiblad: cannot call %s on a non-array", function)));
    put_records(&call, part.payload, rows);
    PG_RETURN_NULL();
}

PG_FUNCTION_INFO_V1(pg_kohiblad_populate_record);
Datum pg_kohiblad_populate_record(PG_FUNCTION_ARGS) {
    return record(fcinfo, "kohiblad_populate_record", true);
}

PG_FUNCTION_INFO_V1(pg_kohiblad_to_record);
Datum pg_kohiblad_to_record(PG_FUNCTION_ARGS) {
    return record(fcinfo, "kohiblad_to_record", false);
}

PG_FUNCTION_INFO_V1(pg_kohiblad_populate_recordset);
Datum pg_kohiblad_populate_recordset(PG_FUNCTION_ARGS) {
    return recordset(fcinfo, "kohiblad_populate_recordset", true);
}

PG_FUNCTION_INFO_V1(pg_kohiblad_to_recordset);
Datum pg_kohiblad_to_recordset(PG_FUNCTION_ARGS) {
    return recordset(fcinfo, "kohiblad_to_recordset", false);
}
