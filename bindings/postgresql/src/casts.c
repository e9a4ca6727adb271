/* Casts between documents and types of the server: json and jsonb, and of scalars those that jsonb
 * has, with its errors. Only what is exact is cast to a document. */
#include "document.h"

#include "utils/builtins.h"
#include "utils/fmgrprotos.h"
#include "utils/numeric.h"

/* The JSON of a document. It is checked, since type json must not hold anything else. */
static text *json_of_document(Bytes document) {
    check_document(document, ERRCODE_DATA_CORRUPTED);
    return compact_text(document);
}

PG_FUNCTION_INFO_V1(pg_kohiblad_to_json);
Datum pg_kohiblad_to_json(PG_FUNCTION_ARGS) {
    struct varlena *value = PG_GETARG_VARLENA_PP(0);
    text *json = json_of_document(bytes_of(value));
    PG_FREE_IF_COPY(value, 0);
    PG_RETURN_TEXT_P(json);
}

PG_FUNCTION_INFO_V1(pg_kohiblad_to_jsonb);
Datum pg_kohiblad_to_jsonb(PG_FUNCTION_ARGS) {
    struct varlena *value = PG_GETARG_VARLENA_PP(0);
    Bytes document = bytes_of(value);
    Datum jsonb;
    check_document(document, ERRCODE_DATA_CORRUPTED);
    if (!make_jsonb(document, &jsonb)) {
        char *json = text_to_cstring(compact_text(document));
        jsonb = DirectFunctionCall1(jsonb_in, CStringGetDatum(json));
    }
    PG_FREE_IF_COPY(value, 0);
    PG_RETURN_DATUM(jsonb);
}

/* Refuses a document whose scalar could not be read: it is of another kind, or damaged. */
static void pg_attribute_noreturn() refuse_cast(uint32_t status, Bytes document, const char *type) {
    static const char *const kinds_of_jsonb[] = {
        [KOHIBLAD_NULL] = "null",
        [KOHIBLAD_BOOLEAN] = "boolean",
        [KOHIBLAD_NUMBER] = "numeric",
        [KOHIBLAD_STRING] = "string",
        [KOHIBLAD_EXTENSION] = "extension value",
        [KOHIBLAD_ARRAY] = "array",
        [KOHIBLAD_OBJECT] = "object",
    };
    if (status != KOHIBLAD_OTHER_KIND) refuse(status, ERRCODE_DATA_CORRUPTED);
    ereport(ERROR, (errcode(ERRCODE_INVALID_PARAMETER_VALUE),
                    errmsg("cannot cast kohiblad %s to type %s",
                           kinds_of_jsonb[kind_of(document).kind], type)));
}

/* The numeric of a decimal, digit for digit. */
static Datum numeric_of_decimal(struct kohiblad_decimal decimal, Bytes document) {
    bool is_short = decimal.high == (int64)decimal.low >> 63;
    if (is_short && decimal.scale == 0)
        return NumericGetDatum(int64_to_numeric((int64)decimal.low));
    if (is_short)
        return NumericGetDatum(
            int64_div_fast_to_numeric((int64)decimal.low, (int)decimal.scale));
    char *digits = text_to_cstring(compact_text(document));
    return DirectFunctionCall3(numeric_in, CStringGetDatum(digits), ObjectIdGetDatum(InvalidOid),
                               Int32GetDatum(-1));
}

static Datum numeric_of_document(Bytes document, const char *type) {
    struct kohiblad_decimal decimal = kohiblad_as_decimal(document.at, document.size);
    if (decimal.status != KOHIBLAD_OK) refuse_cast(decimal.status, document, type);
    return numeric_of_decimal(decimal, document);
}

/* A number in a form that is no longer written may be longer than those that are. */
Datum numeric_of_number(Part number) {
    uint8_t near[NUMBER_ROOM];
    size_t room = room_of_part(number);
    uint8_t *at = room <= sizeof near ? near : palloc(room);
    return numeric_of_document(write_part(number, at, room), "numeric");
}

static Datum numeric_of_argument(FunctionCallInfo fcinfo, const char *type) {
    struct varlena *value = PG_GETARG_VARLENA_PP(0);
    Datum number = numeric_of_document(bytes_of(value), type);
    PG_FREE_IF_COPY(value, 0);
    return number;
}

PG_FUNCTION_INFO_V1(pg_kohiblad_to_numeric);
Datum pg_kohiblad_to_numeric(PG_FUNCTION_ARGS) {
    PG_RETURN_DATUM(numeric_of_argument(fcinfo, "numeric"));
}

/* The other types take the number from numeric, which rounds it or refuses it. */
#define CAST_TO_NUMBER(name, type, of_numeric)                                      \
    PG_FUNCTION_INFO_V1(name);                                                      \
    Datum name(PG_FUNCTION_ARGS) {                                                  \
        return DirectFunctionCall1(of_numeric, numeric_of_argument(fcinfo, type));  \
    }

CAST_TO_NUMBER(pg_kohiblad_to_int2, "smallint", numeric_int2)
CAST_TO_NUMBER(pg_kohiblad_to_int4, "integer", numeric_int4)
CAST_TO_NUMBER(pg_kohiblad_to_int8, "bigint", numeric_int8)
CAST_TO_NUMBER(pg_kohiblad_to_float4, "real", numeric_float4)
CAST_TO_NUMBER(pg_kohiblad_to_float8, "double precision", numeric_float8)

PG_FUNCTION_INFO_V1(pg_kohiblad_to_bool);
Datum pg_kohiblad_to_bool(PG_FUNCTION_ARGS) {
    struct varlena *value = PG_GETARG_VARLENA_PP(0);
    Bytes document = bytes_of(value);
    struct kohiblad_truth truth = kohiblad_as_boolean(document.at, document.size);
    if (truth.status != KOHIBLAD_OK) refuse_cast(truth.status, document, "boolean");
    PG_FREE_IF_COPY(value, 0);
    PG_RETURN_BOOL(truth.value);
}

/* A document of the bytes that a call wrote. */
static Datum written_document(uint32_t status, const uint8_t *document, size_t size) {
    if (status != KOHIBLAD_OK) refuse(status, ERRCODE_INTERNAL_ERROR);
    PG_RETURN_POINTER(cstring_to_text_with_len((const char *)document, size));
}

static Datum document_of_int64(int64 value) {
    uint8_t document[NUMBER_ROOM];
    size_t size;
    uint32_t status = kohiblad_of_int64(value, document, sizeof document, &size);
    return written_document(status, document, size);
}

PG_FUNCTION_INFO_V1(pg_kohiblad_of_int2);
Datum pg_kohiblad_of_int2(PG_FUNCTION_ARGS) {
    return document_of_int64(PG_GETARG_INT16(0));
}

PG_FUNCTION_INFO_V1(pg_kohiblad_of_int4);
Datum pg_kohiblad_of_int4(PG_FUNCTION_ARGS) {
    return document_of_int64(PG_GETARG_INT32(0));
}

PG_FUNCTION_INFO_V1(pg_kohiblad_of_int8);
Datum pg_kohiblad_of_int8(PG_FUNCTION_ARGS) {
    return document_of_int64(PG_GETARG_INT64(0));
}

PG_FUNCTION_INFO_V1(pg_kohiblad_of_bool);
Datum pg_kohiblad_of_bool(PG_FUNCTION_ARGS) {
    uint8_t document[SCALAR_FRONT];
    size_t size;
    uint32_t status = kohiblad_of_boolean(PG_GETARG_BOOL(0), document, sizeof document, &size);
    return written_document(status, document, size);
}

static void pg_attribute_noreturn() refuse_number(const char *reason) {
    refuse_because(KOHIBLAD_BAD_NUMBER, ERRCODE_NUMERIC_VALUE_OUT_OF_RANGE, reason);
}

/* A numeric is written without an exponent, so its text is JSON unless a limit is passed. */
PG_FUNCTION_INFO_V1(pg_kohiblad_of_numeric);
Datum pg_kohiblad_of_numeric(PG_FUNCTION_ARGS) {
    Numeric number = PG_GETARG_NUMERIC(0);
    if (numeric_is_nan(number) || numeric_is_inf(number))
        refuse_number("JSON has neither NaN nor infinities.");
    const char *digits = DatumGetCString(DirectFunctionCall1(numeric_out, NumericGetDatum(number)));
    uint8_t document[NUMBER_ROOM];
    size_t size;
    uint32_t status = kohiblad_parse((const uint8_t *)digits, strlen(digits), 0,
                                     KOHIBLAD_EXPONENTS_ALLOWED, document, sizeof document, &size);
    if (status == KOHIBLAD_INVALID_JSON)
        refuse_number("A number has at most 128 bits, and 255 digits after its point.");
    return written_document(status, document, size);
}
