/* Arguments of the SQL functions. */
#include "extension.h"

SQLITE_EXTENSION_INIT3

bool bytes_of(sqlite3_value *value, struct bytes *bytes)
{
    bool is_text = sqlite3_value_type(value) == SQLITE_TEXT;
    bytes->at = is_text ? sqlite3_value_text(value) : sqlite3_value_blob(value);
    bytes->size = (size_t)sqlite3_value_bytes(value);
    /* An empty BLOB is null, too. */
    return bytes->at || (!is_text && bytes->size == 0);
}

static bool get_bytes(const struct caller *caller, sqlite3_value *value, struct bytes *bytes)
{
    if (bytes_of(value, bytes)) return true;
    fail(caller, KOHIBLAD_OUT_OF_MEMORY);
    return false;
}

bool has_json_subtype(sqlite3_value *value)
{
    return sqlite3_value_subtype(value) == JSON_SUBTYPE;
}

bool get_document(const struct caller *caller, sqlite3_value *value, struct bytes *document)
{
    if (sqlite3_value_type(value) == SQLITE_BLOB) return get_bytes(caller, value, document);
    fail_because(caller, KOHIBLAD_INVALID_JSONB, "a document is a BLOB");
    return false;
}

bool get_checked(const struct caller *caller, sqlite3_value *value, struct bytes *document)
{
    if (!get_document(caller, value, document)) return false;
    if (kohiblad_check(document->at, document->size, KOHIBLAD_SQLITE_DEPTH)) return true;
    fail(caller, KOHIBLAD_INVALID_JSONB);
    return false;
}

bool get_data(const struct caller *caller, sqlite3_value *value, struct bytes *data)
{
    if (sqlite3_value_type(value) == SQLITE_BLOB) return get_bytes(caller, value, data);
    fail_because(caller, KOHIBLAD_OTHER_KIND, "binary data is a BLOB");
    return false;
}

bool get_text(const struct caller *caller, sqlite3_value *value, struct bytes *text)
{
    if (sqlite3_value_type(value) == SQLITE_TEXT) return get_bytes(caller, value, text);
    fail_because(caller, KOHIBLAD_OTHER_KIND, "names and paths are TEXT");
    return false;
}

bool get_sql_value(const struct caller *caller, sqlite3_value *value, bool is_json,
                   struct sql_value *sql_value)
{
    *sql_value = (struct sql_value){ .type = sqlite3_value_type(value), .is_json = is_json };
    switch (sql_value->type) {
    case SQLITE_NULL: return true;
    case SQLITE_INTEGER: sql_value->integer = sqlite3_value_int64(value); return true;
    case SQLITE_FLOAT: break;
    default: return get_bytes(caller, value, &sql_value->bytes);
    }
    fail_because(caller, KOHIBLAD_BAD_NUMBER, "a REAL is refused, pass decimals as TEXT");
    return false;
}
