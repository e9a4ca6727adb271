/* Documents as values of jsonb, which are made of the parts of a document, with no text between. */
#include "document.h"

#include "mb/pg_wchar.h"
#include "miscadmin.h"
#include "utils/fmgrprotos.h"
#include "utils/jsonb.h"
#include "utils/numeric.h"

static bool push_container(JsonbParseState **state, Bytes container, JsonbValue **pushed);

/* A text of jsonb in the document's own bytes; false if jsonb cannot hold it. */
static bool take_text(Bytes text, JsonbValue *value) {
    if (memchr(text.at, 0, text.size)) return false;
    value->type = jbvString;
    value->val.string.val = (char *)text.at;
    value->val.string.len = (int)text.size;
    return true;
}

/* False if jsonb has no such value. */
static bool take_scalar(Part part, JsonbValue *value) {
    switch (part.type) {
        case KOHIBLAD_TYPE_NULL: value->type = jbvNull; return true;
        case KOHIBLAD_TYPE_FALSE:
        case KOHIBLAD_TYPE_TRUE:
            value->type = jbvBool;
            value->val.boolean = part.type == KOHIBLAD_TYPE_TRUE;
            return true;
        case KOHIBLAD_TYPE_STRING: return take_text(part.payload, value);
        case KOHIBLAD_TYPE_NUMBER:
            value->type = jbvNumeric;
            value->val.numeric = DatumGetNumeric(numeric_of_number(part));
            return true;
        default: return false;
    }
}

/* Pushes a child of a container, after its key in an object. */
static bool push_child(JsonbParseState **state, Part child, bool is_item, JsonbValue **pushed) {
    JsonbValue value;
    if (is_container(child)) return push_container(state, child.payload, pushed);
    if (!take_scalar(child, &value)) return false;
    *pushed = pushJsonbValue(state, is_item ? WJB_ELEM : WJB_VALUE, &value);
    return true;
}

static bool push_children(JsonbParseState **state, Bytes container, bool is_list,
                          JsonbValue **pushed) {
    struct kohiblad_cursor cursor;
    struct kohiblad_place key, child;
    JsonbValue name;
    uint32_t status = kohiblad_begin(container.at, container.size, &cursor);
    while (status == KOHIBLAD_OK) {
        CHECK_FOR_INTERRUPTS();
        status = kohiblad_next(container.at, container.size, &cursor, &key, &child);
        if (status != KOHIBLAD_OK) break;
        if (!is_list) {
            if (!take_text(part_at(container, key).payload, &name)) return false;
            pushJsonbValue(state, WJB_KEY, &name);
        }
        if (!push_child(state, part_at(container, child), is_list, pushed)) return false;
    }
    if (status != KOHIBLAD_NONE) refuse(status, ERRCODE_DATA_CORRUPTED);
    return true;
}

static bool push_container(JsonbParseState **state, Bytes container, JsonbValue **pushed) {
    check_stack_depth();
    bool is_list = is_array((Part){KOHIBLAD_TYPE_CONTAINER, container});
    pushJsonbValue(state, is_list ? WJB_BEGIN_ARRAY : WJB_BEGIN_OBJECT, NULL);
    if (!push_children(state, container, is_list, pushed)) return false;
    *pushed = pushJsonbValue(state, is_list ? WJB_END_ARRAY : WJB_END_OBJECT, NULL);
    return true;
}

bool make_jsonb(Bytes document, Datum *jsonb) {
    JsonbParseState *state = NULL;
    JsonbValue scalar, *value = &scalar;
    int encoding = GetDatabaseEncoding();
    if (encoding != PG_UTF8 && encoding != PG_SQL_ASCII) return false;
    Part whole = part_of_document(document);
    if (is_container(whole) ? !push_container(&state, document, &value)
                            : !take_scalar(whole, &scalar))
        return false;
    *jsonb = JsonbPGetDatum(JsonbValueToJsonb(value));
    return true;
}
