/* Parts of documents, and what kind a document is of. */
#include "paths.h"

#include "utils/builtins.h"

static const char *const kind_names[] = {
    [KOHIBLAD_NULL] = "null",           [KOHIBLAD_BOOLEAN] = "boolean",
    [KOHIBLAD_NUMBER] = "number",       [KOHIBLAD_STRING] = "string",
    [KOHIBLAD_EXTENSION] = "extension", [KOHIBLAD_ARRAY] = "array",
    [KOHIBLAD_OBJECT] = "object",
};

static bool find_member(Sliced *document, Part value, const text *name, Part *child) {
    return is_container(value) && find_key_in(document, value.payload, utf8_of_text(name), child);
}

static bool find_item(Sliced *document, Part value, int32 index, Part *child) {
    return is_container(value) && find_index_in(document, value.payload, index, child);
}

static Datum answer_document(FunctionCallInfo fcinfo, bool is_there, Part part) {
    if (!is_there) PG_RETURN_NULL();
    PG_RETURN_POINTER(document_of_part(part));
}

static Datum answer_text(FunctionCallInfo fcinfo, bool is_there, Part part) {
    text *shown = is_there ? plain_text(part) : NULL;
    if (!shown) PG_RETURN_NULL();
    PG_RETURN_TEXT_P(shown);
}

/* The two operators of each way to a child: one returns a document, the other a text. */
#define OPERATOR(name, answer, find, argument)                                        \
    PG_FUNCTION_INFO_V1(name);                                                        \
    Datum name(PG_FUNCTION_ARGS) {                                                    \
        Sliced document;                                                              \
        Part child = {0}, whole = open_sliced(&document, PG_GETARG_RAW_VARLENA_P(0)); \
        bool is_there = find(&document, whole, argument, &child);                     \
        if (is_there) fetch_part(&document, child);                                   \
        Datum answered = answer(fcinfo, is_there, child);                             \
        close_sliced(&document);                                                      \
        return answered;                                                              \
    }

OPERATOR(pg_kohiblad_member, answer_document, find_member, PG_GETARG_TEXT_PP(1))
OPERATOR(pg_kohiblad_member_text, answer_text, find_member, PG_GETARG_TEXT_PP(1))
OPERATOR(pg_kohiblad_item, answer_document, find_item, PG_GETARG_INT32(1))
OPERATOR(pg_kohiblad_item_text, answer_text, find_item, PG_GETARG_INT32(1))
OPERATOR(pg_kohiblad_path, answer_document, find_path, kept_path(fcinfo))
OPERATOR(pg_kohiblad_path_text, answer_text, find_path, kept_path(fcinfo))

PG_FUNCTION_INFO_V1(pg_kohiblad_kind);
Datum pg_kohiblad_kind(PG_FUNCTION_ARGS) {
    Bytes document = bytes_of(PG_GETARG_VARLENA_PP(0));
    PG_RETURN_TEXT_P(cstring_to_text(kind_names[kind_of(document).kind]));
}

PG_FUNCTION_INFO_V1(pg_kohiblad_length);
Datum pg_kohiblad_length(PG_FUNCTION_ARGS) {
    struct kohiblad_value_kind kind = kind_of(bytes_of(PG_GETARG_VARLENA_PP(0)));
    if (kind.kind != KOHIBLAD_ARRAY && kind.kind != KOHIBLAD_OBJECT) PG_RETURN_NULL();
    PG_RETURN_INT32((int32)kind.count);
}

PG_FUNCTION_INFO_V1(pg_kohiblad_array_length);
Datum pg_kohiblad_array_length(PG_FUNCTION_ARGS) {
    struct kohiblad_value_kind kind = kind_of(bytes_of(PG_GETARG_VARLENA_PP(0)));
    if (kind.kind != KOHIBLAD_ARRAY)
        ereport(ERROR, (errcode(ERRCODE_INVALID_PARAMETER_VALUE),
                        errmsg("kohiblad: cannot get array length of a non-array")));
    PG_RETURN_INT32((int32)kind.count);
}
