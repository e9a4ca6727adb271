/* Results in memory of SQLite, within its limit of lengths. */
#include "extension.h"

SQLITE_EXTENSION_INIT3

struct bytes bytes_in(const struct buffer *buffer)
{
    return (struct bytes){ buffer->at, buffer->size };
}

void release(struct buffer *buffer)
{
    if (buffer->at != buffer->small) sqlite3_free(buffer->at);
}

static bool is_within_limit(const struct caller *caller, size_t length)
{
    sqlite3 *database = sqlite3_context_db_handle(caller->context);
    return length <= (size_t)sqlite3_limit(database, SQLITE_LIMIT_LENGTH, -1);
}

uint32_t try_fill(const struct caller *caller, struct buffer *buffer, writer *write,
                  const void *input, size_t guess)
{
    size_t room = sizeof buffer->small;
    uint32_t status;
    buffer->at = buffer->small;
    /* A guess past the limit is no error: the result may be shorter. */
    if (guess > room && is_within_limit(caller, guess))
        buffer->at = sqlite3_malloc64(room = guess);
    for (;;) {
        if (!buffer->at) return KOHIBLAD_OUT_OF_MEMORY;
        status = write(input, buffer->at, room, &buffer->size);
        if (status == KOHIBLAD_OK) return status;
        release(buffer);
        if (status != KOHIBLAD_NO_ROOM) return status;
        if (!is_within_limit(caller, buffer->size)) return RESULT_TOO_BIG;
        buffer->at = sqlite3_malloc64(room = buffer->size);
    }
}

bool fill(const struct caller *caller, struct buffer *buffer, writer *write, const void *input,
          size_t guess)
{
    uint32_t status = try_fill(caller, buffer, write, input, guess);
    if (status != KOHIBLAD_OK) fail(caller, status);
    return status == KOHIBLAD_OK;
}

bool fill_document(const struct caller *caller, struct buffer *buffer,
                   const struct sql_value *value)
{
    uint32_t status = try_fill(caller, buffer, write_sql_value, value, guess_of(value));
    if (status != KOHIBLAD_OK) fail_value(caller, status, value);
    return status == KOHIBLAD_OK;
}

bool make_document(const struct caller *caller, sqlite3_value *value, struct buffer *buffer,
                   struct bytes *document)
{
    struct sql_value sql_value;
    buffer->at = buffer->small;
    if (sqlite3_value_type(value) == SQLITE_BLOB) return get_document(caller, value, document);
    if (!get_sql_value(caller, value, true, &sql_value)
        || !fill_document(caller, buffer, &sql_value))
        return false;
    *document = bytes_in(buffer);
    return true;
}

static void (*owner(struct buffer *buffer))(void *)
{
    return buffer->at == buffer->small ? SQLITE_TRANSIENT : sqlite3_free;
}

void give_blob(const struct caller *caller, struct buffer *buffer)
{
    sqlite3_result_blob64(caller->context, buffer->at, buffer->size, owner(buffer));
}

void give_text(const struct caller *caller, struct buffer *buffer)
{
    sqlite3_result_text64(caller->context, (const char *)buffer->at, buffer->size, owner(buffer),
                          SQLITE_UTF8);
}

void give_json(const struct caller *caller, struct buffer *buffer)
{
    give_text(caller, buffer);
    sqlite3_result_subtype(caller->context, JSON_SUBTYPE);
}
