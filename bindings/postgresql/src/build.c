/* Documents of SQL values: to_kohiblad, the functions that build arrays and objects, and the
 * aggregates, which gather rows one after another and build at the end. */
#include "values.h"

#include "catalog/pg_type.h"
#include "funcapi.h"
#include "libpq/pqformat.h"
#include "miscadmin.h"
#include "port/pg_bswap.h"
#include "utils/builtins.h"
#include "utils/fmgrprotos.h"
#include "utils/lsyscache.h"

/* The type of an argument, which a caller by another function may not say. */
static Oid argument_type(FunctionCallInfo fcinfo, int argument) {
    Oid type = get_fn_expr_argtype(fcinfo->flinfo, argument);
    if (!OidIsValid(type))
        ereport(ERROR, (errcode(ERRCODE_INVALID_PARAMETER_VALUE),
                        errmsg("kohiblad: could not determine input data type")));
    return type;
}

/* A document of the only row. */
static struct varlena *only_row(const Rows *rows) {
    return (struct varlena *)cstring_to_text_with_len(rows->bytes.data, rows->bytes.len);
}

PG_FUNCTION_INFO_V1(pg_kohiblad_of_any);
Datum pg_kohiblad_of_any(PG_FUNCTION_ARGS) {
    Rows *rows = new_rows();
    add_value(rows, PG_GETARG_DATUM(0), PG_ARGISNULL(0), argument_type(fcinfo, 0),
              kept_types(fcinfo));
    PG_RETURN_POINTER(only_row(rows));
}

PG_FUNCTION_INFO_V1(pg_kohiblad_build_array);
Datum pg_kohiblad_build_array(PG_FUNCTION_ARGS) {
    Datum *values;
    bool *nulls;
    Oid *types;
    int count = extract_variadic_args(fcinfo, 0, true, &values, &types, &nulls);
    if (count < 0) PG_RETURN_NULL();
    Types *known = kept_types(fcinfo);
    Rows *rows = new_rows();
    for (int i = 0; i < count; i++) {
        CHECK_FOR_INTERRUPTS();
        add_value(rows, values[i], nulls[i], types[i], known);
    }
    PG_RETURN_POINTER(array_of_rows(rows));
}

PG_FUNCTION_INFO_V1(pg_kohiblad_build_object);
Datum pg_kohiblad_build_object(PG_FUNCTION_ARGS) {
    Datum *values;
    bool *nulls;
    Oid *types;
    int count = extract_variadic_args(fcinfo, 0, true, &values, &types, &nulls);
    if (count < 0) PG_RETURN_NULL();
    if (count % 2 != 0)
        ereport(ERROR, (errcode(ERRCODE_INVALID_PARAMETER_VALUE),
                        errmsg("kohiblad: argument list must have even number of elements")));
    Types *known = kept_types(fcinfo);
    Rows *rows = new_rows();
    for (int i = 0; i < count; i += 2) {
        CHECK_FOR_INTERRUPTS();
        add_key(rows, values[i], nulls[i], types[i], known);
        add_value(rows, values[i + 1], nulls[i + 1], types[i + 1], known);
    }
    PG_RETURN_POINTER(object_of_rows(rows));
}

PG_FUNCTION_INFO_V1(pg_kohiblad_build_empty_array);
Datum pg_kohiblad_build_empty_array(PG_FUNCTION_ARGS) {
    PG_RETURN_POINTER(array_of_rows(new_rows()));
}

PG_FUNCTION_INFO_V1(pg_kohiblad_build_empty_object);
Datum pg_kohiblad_build_empty_object(PG_FUNCTION_ARGS) {
    PG_RETURN_POINTER(object_of_rows(new_rows()));
}

/* The object of texts, as the server makes it; it holds nothing but strings and nulls. */
static Datum document_of_jsonb(Datum jsonb) {
    char *json = DatumGetCString(DirectFunctionCall1(jsonb_out, jsonb));
    return PointerGetDatum(document_of_json(utf8_of_server(json, strlen(json))));
}

PG_FUNCTION_INFO_V1(pg_kohiblad_object);
Datum pg_kohiblad_object(PG_FUNCTION_ARGS) {
    return document_of_jsonb(DirectFunctionCall1(jsonb_object, PG_GETARG_DATUM(0)));
}

PG_FUNCTION_INFO_V1(pg_kohiblad_object_two);
Datum pg_kohiblad_object_two(PG_FUNCTION_ARGS) {
    return document_of_jsonb(DirectFunctionCall2(jsonb_object_two_arg, PG_GETARG_DATUM(0),
                                                 PG_GETARG_DATUM(1)));
}

/* The rows of an aggregate, in the memory that lives as long as it. */
static Rows *state_of(FunctionCallInfo fcinfo) {
    MemoryContext context;
    if (!AggCheckCallContext(fcinfo, &context))
        elog(ERROR, "kohiblad: an aggregate's function was called outside of an aggregate");
    if (!PG_ARGISNULL(0)) return (Rows *)PG_GETARG_POINTER(0);
    MemoryContext caller = MemoryContextSwitchTo(context);
    Rows *rows = new_rows();
    MemoryContextSwitchTo(caller);
    return rows;
}

PG_FUNCTION_INFO_V1(pg_kohiblad_agg_step);
Datum pg_kohiblad_agg_step(PG_FUNCTION_ARGS) {
    Rows *rows = state_of(fcinfo);
    add_value(rows, PG_GETARG_DATUM(1), PG_ARGISNULL(1), argument_type(fcinfo, 1),
              kept_types(fcinfo));
    PG_RETURN_POINTER(rows);
}

PG_FUNCTION_INFO_V1(pg_kohiblad_object_agg_step);
Datum pg_kohiblad_object_agg_step(PG_FUNCTION_ARGS) {
    Rows *rows = state_of(fcinfo);
    Types *known = kept_types(fcinfo);
    add_key(rows, PG_GETARG_DATUM(1), PG_ARGISNULL(1), argument_type(fcinfo, 1), known);
    add_value(rows, PG_GETARG_DATUM(2), PG_ARGISNULL(2), argument_type(fcinfo, 2), known);
    PG_RETURN_POINTER(rows);
}

PG_FUNCTION_INFO_V1(pg_kohiblad_agg_final);
Datum pg_kohiblad_agg_final(PG_FUNCTION_ARGS) {
    if (PG_ARGISNULL(0)) PG_RETURN_NULL();
    PG_RETURN_POINTER(array_of_rows((Rows *)PG_GETARG_POINTER(0)));
}

PG_FUNCTION_INFO_V1(pg_kohiblad_object_agg_final);
Datum pg_kohiblad_object_agg_final(PG_FUNCTION_ARGS) {
    if (PG_ARGISNULL(0)) PG_RETURN_NULL();
    PG_RETURN_POINTER(object_of_unique_rows((Rows *)PG_GETARG_POINTER(0)));
}

/* The rows of two workers, those of the first before those of the second. */
PG_FUNCTION_INFO_V1(pg_kohiblad_rows_combine);
Datum pg_kohiblad_rows_combine(PG_FUNCTION_ARGS) {
    if (PG_ARGISNULL(0) && PG_ARGISNULL(1)) PG_RETURN_NULL();
    Rows *rows = state_of(fcinfo);
    if (!PG_ARGISNULL(1)) add_rows(rows, (Rows *)PG_GETARG_POINTER(1));
    PG_RETURN_POINTER(rows);
}

/* The number of rows, their lengths, and their bytes. */
PG_FUNCTION_INFO_V1(pg_kohiblad_rows_serialize);
Datum pg_kohiblad_rows_serialize(PG_FUNCTION_ARGS) {
    const Rows *rows = (Rows *)PG_GETARG_POINTER(0);
    StringInfoData out;
    pq_begintypsend(&out);
    pq_sendint64(&out, rows->count);
    for (size_t i = 0; i < rows->count; i++) {
        CHECK_FOR_INTERRUPTS();
        pq_sendint32(&out, rows->offsets[i + 1] - rows->offsets[i]);
    }
    pq_sendbytes(&out, rows->bytes.data, rows->bytes.len);
    PG_RETURN_BYTEA_P(pq_endtypsend(&out));
}

PG_FUNCTION_INFO_V1(pg_kohiblad_rows_deserialize);
Datum pg_kohiblad_rows_deserialize(PG_FUNCTION_ARGS) {
    bytea *sent = PG_GETARG_BYTEA_PP(0);
    StringInfoData in;
    initStringInfo(&in);
    appendBinaryStringInfo(&in, VARDATA_ANY(sent), VARSIZE_ANY_EXHDR(sent));
    size_t count = pq_getmsgint64(&in);
    const char *lengths = pq_getmsgbytes(&in, count * sizeof(uint32));
    Rows *rows = new_rows();
    for (size_t i = 0; i < count; i++) {
        CHECK_FOR_INTERRUPTS();
        uint32 length;
        memcpy(&length, lengths + i * sizeof length, sizeof length);
        length = pg_ntoh32(length);
        add_row(rows, (Bytes){(const uint8_t *)pq_getmsgbytes(&in, length), length});
    }
    pq_getmsgend(&in);
    pfree(in.data);
    PG_RETURN_POINTER(rows);
}
