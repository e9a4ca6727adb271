/* The rows of a document that is built. */
#include "extension.h"

#include <string.h>

SQLITE_EXTENSION_INIT3

/* Room for so many bytes more, and one more offset. */
static bool reserve(struct rows *rows, size_t more)
{
    if (rows->room - rows->size < more) {
        size_t room = 2 * rows->room + more;
        uint8_t *bytes = sqlite3_realloc64(rows->bytes, room);
        if (!bytes) return false;
        rows->bytes = bytes;
        rows->room = room;
    }
    if (rows->count + 1 >= rows->offsets_room) {
        size_t room = 2 * rows->offsets_room + 16;
        size_t *offsets = sqlite3_realloc64(rows->offsets, room * sizeof *offsets);
        if (!offsets) return false;
        offsets[0] = 0;
        rows->offsets = offsets;
        rows->offsets_room = room;
    }
    return true;
}

uint32_t append(struct rows *rows, writer *write, const void *input, size_t guess)
{
    size_t length = guess;
    uint32_t status;
    do {
        if (!reserve(rows, length)) return KOHIBLAD_OUT_OF_MEMORY;
        status = write(input, rows->bytes + rows->size, rows->room - rows->size, &length);
    } while (status == KOHIBLAD_NO_ROOM);
    if (status == KOHIBLAD_OK) rows->offsets[++rows->count] = rows->size += length;
    return status;
}

bool append_name(const struct caller *caller, struct rows *rows, sqlite3_value *value)
{
    struct bytes name;
    uint32_t status;
    if (!get_text(caller, value, &name)) return false;
    status = append(rows, write_bytes, &name, name.size);
    if (status != KOHIBLAD_OK) fail(caller, status);
    return status == KOHIBLAD_OK;
}

bool append_value(const struct caller *caller, struct rows *rows, sqlite3_value *value)
{
    struct sql_value sql_value;
    uint32_t status;
    if (!get_sql_value(caller, value, has_json_subtype(value), &sql_value)) return false;
    status = append(rows, write_sql_value, &sql_value, guess_of(&sql_value));
    if (status != KOHIBLAD_OK) fail_value(caller, status, &sql_value);
    return status == KOHIBLAD_OK;
}

/* Moves the wanted rows to the front. */
static void compact(struct rows *rows)
{
    size_t start = rows->offsets[rows->gone];
    memmove(rows->bytes, rows->bytes + start, rows->size - start);
    for (size_t i = 0; i <= rows->count - rows->gone; i++)
        rows->offsets[i] = rows->offsets[rows->gone + i] - start;
    rows->size -= start;
    rows->count -= rows->gone;
    rows->gone = 0;
}

/* Rows are moved when at least half of them and of their bytes are gone, so that each is moved at
 * most once in the mean. */
void drop_first(struct rows *rows, size_t count)
{
    rows->gone += count;
    if (2 * rows->gone >= rows->count && 2 * rows->offsets[rows->gone] >= rows->size)
        compact(rows);
}

void forget(struct rows *rows)
{
    sqlite3_free(rows->bytes);
    sqlite3_free(rows->offsets);
    memset(rows, 0, sizeof *rows);
}

/* A call of the library over rows, within a depth. */
typedef uint32_t builder(const uint8_t *bytes, size_t size, const size_t *offsets, size_t count,
                         size_t depth, uint8_t *out, size_t room, size_t *length);

/* The rows nest one level less deep than the result. */
static uint32_t build(builder *build_within, const struct rows *rows, uint8_t *out, size_t room,
                      size_t *length)
{
    const size_t *offsets = rows->offsets ? rows->offsets + rows->gone : NULL;
    size_t count = rows->offsets ? rows->count - rows->gone + 1 : 0;
    return build_within(rows->bytes, rows->size, offsets, count, KOHIBLAD_SQLITE_DEPTH - 1, out,
                        room, length);
}

uint32_t write_array(const void *input, uint8_t *out, size_t room, size_t *length)
{
    return build(kohiblad_build_array, input, out, room, length);
}

uint32_t write_object(const void *input, uint8_t *out, size_t room, size_t *length)
{
    return build(kohiblad_build_object, input, out, room, length);
}

/* The result is not longer than a header, an entry for each row, and the rows. */
size_t guess_of_rows(const struct rows *rows)
{
    size_t gone = rows->offsets ? rows->offsets[rows->gone] : 0;
    return rows->size - gone + 4 * (rows->count - rows->gone) + 4;
}
