/* Whether a text or a jsonb can be cast to a document, and why not: what the cast would say, as a
 * value in place of its error. */
#include "document.h"

#include "utils/builtins.h"
#include "utils/fmgrprotos.h"

static const char *fault_of_status(uint32_t status) {
    if (status == KOHIBLAD_OUT_OF_MEMORY) refuse(status, ERRCODE_OUT_OF_MEMORY);
    return psprintf("%s: %s", name_of_status(status), explanation(status));
}

static const char *fault_of_room(size_t bytes) {
    return has_room(bytes) ? NULL : psprintf("the result has %zu bytes, more than 1 GB", bytes);
}

/* A call without room says how long the document is. */
static const char *fault_of_json(Bytes utf8) {
    size_t length;
    struct varlena *document = document_of_long_json(utf8);
    if (document) {
        pfree(document);
        return NULL;
    }
    check_stack_for(KOHIBLAD_CALL_STACK);
    uint32_t status = kohiblad_parse(utf8.at, utf8.size, MAX_DEPTH, KOHIBLAD_EXPONENTS_ALLOWED,
                                     NULL, 0, &length);
    if (status == KOHIBLAD_NO_ROOM) return fault_of_room(length);
    if (status != KOHIBLAD_INVALID_JSON) return fault_of_status(status);
    Fault fault = fault_of_text(utf8, MAX_DEPTH);
    return psprintf("%s: %s", name_of_status(fault.status), fault.detail);
}

static const char *fault_of_hex(const char *given) {
    size_t bad;
    struct varlena *value = bytes_of_hex(given, &bad);
    if (!value) return psprintf("BadHex: The text stops being hexadecimal at byte %zu.", bad);
    return is_document(bytes_of(value)) ? NULL : fault_of_status(KOHIBLAD_INVALID_JSONB);
}

/* Why the input of the type refuses a text, or NULL. */
static const char *fault_of_input(const char *given) {
    if (is_hex(given)) return fault_of_hex(given);
    return fault_of_json(utf8_of_server(given, strlen(given)));
}

static const char *fault_of_text_argument(FunctionCallInfo fcinfo) {
    return fault_of_input(text_to_cstring(PG_GETARG_TEXT_PP(0)));
}

static const char *fault_of_jsonb_argument(FunctionCallInfo fcinfo) {
    return fault_of_input(DatumGetCString(DirectFunctionCall1(jsonb_out, PG_GETARG_DATUM(0))));
}

static Datum shown(FunctionCallInfo fcinfo, const char *fault) {
    if (!fault) PG_RETURN_NULL();
    PG_RETURN_TEXT_P(cstring_to_text(fault));
}

PG_FUNCTION_INFO_V1(pg_kohiblad_fits_text);
Datum pg_kohiblad_fits_text(PG_FUNCTION_ARGS) {
    PG_RETURN_BOOL(fault_of_text_argument(fcinfo) == NULL);
}

PG_FUNCTION_INFO_V1(pg_kohiblad_fits_jsonb);
Datum pg_kohiblad_fits_jsonb(PG_FUNCTION_ARGS) {
    PG_RETURN_BOOL(fault_of_jsonb_argument(fcinfo) == NULL);
}

PG_FUNCTION_INFO_V1(pg_kohiblad_fault_text);
Datum pg_kohiblad_fault_text(PG_FUNCTION_ARGS) {
    return shown(fcinfo, fault_of_text_argument(fcinfo));
}

PG_FUNCTION_INFO_V1(pg_kohiblad_fault_jsonb);
Datum pg_kohiblad_fault_jsonb(PG_FUNCTION_ARGS) {
    return shown(fcinfo, fault_of_jsonb_argument(fcinfo));
}
