/* Writers: the library's calls over documents, parts and SQL values. */
#include "extension.h"

#include <string.h>

SQLITE_EXTENSION_INIT3

uint32_t write_bytes(const void *input, uint8_t *out, size_t room, size_t *length)
{
    const struct bytes *bytes = input;
    *length = bytes->size;
    if (room < bytes->size) return KOHIBLAD_NO_ROOM;
    if (bytes->size) memcpy(out, bytes->at, bytes->size);
    return KOHIBLAD_OK;
}

uint32_t write_parsed(const void *input, uint8_t *out, size_t room, size_t *length)
{
    const struct bytes *text = input;
    return kohiblad_parse(text->at, text->size, KOHIBLAD_SQLITE_DEPTH,
                          KOHIBLAD_EXPONENTS_ALLOWED, out, room, length);
}

uint32_t write_string(const void *input, uint8_t *out, size_t room, size_t *length)
{
    const struct bytes *text = input;
    return kohiblad_of_string(text->at, text->size, out, room, length);
}

uint32_t write_sql_value(const void *input, uint8_t *out, size_t room, size_t *length)
{
    const struct sql_value *value = input;
    writer *write = value->is_json ? write_parsed : write_string;
    if (value->type == SQLITE_NULL) return kohiblad_of_null(out, room, length);
    if (value->type == SQLITE_INTEGER)
        return kohiblad_of_int64(value->integer, out, room, length);
    if (value->type == SQLITE_BLOB) write = write_bytes;
    return write(&value->bytes, out, room, length);
}

/* Most documents are shorter than twice their JSON text, and numbers have at most 27 bytes. */
size_t guess_of(const struct sql_value *value)
{
    return 32 + (value->is_json ? 2 : 1) * value->bytes.size;
}

uint32_t write_part(const void *input, uint8_t *out, size_t room, size_t *length)
{
    const struct part *part = input;
    return kohiblad_copy(part->type, part->payload.at, part->payload.size, out, room, length);
}

uint32_t write_compact(const void *input, uint8_t *out, size_t room, size_t *length)
{
    const struct bytes *document = input;
    return kohiblad_print(document->at, document->size, KOHIBLAD_SQLITE_DEPTH, out, room,
                          length);
}

uint32_t write_pretty(const void *input, uint8_t *out, size_t room, size_t *length)
{
    const struct bytes *document = input;
    return kohiblad_pretty(document->at, document->size, KOHIBLAD_SQLITE_DEPTH, out, room,
                           length);
}

uint32_t write_canonical(const void *input, uint8_t *out, size_t room, size_t *length)
{
    const struct bytes *document = input;
    return kohiblad_canonical(document->at, document->size, KOHIBLAD_SQLITE_DEPTH, out,
                              room, length);
}

uint32_t write_key(const void *input, uint8_t *out, size_t room, size_t *length)
{
    const struct bytes *document = input;
    return kohiblad_key(document->at, document->size, KOHIBLAD_SQLITE_DEPTH, out, room, length);
}

uint32_t write_concat(const void *input, uint8_t *out, size_t room, size_t *length)
{
    const struct documents *both = input;
    return kohiblad_concat(both->left.at, both->left.size, both->right.at, both->right.size,
                           KOHIBLAD_SQLITE_DEPTH, out, room, length);
}

uint32_t write_patched(const void *input, uint8_t *out, size_t room, size_t *length)
{
    const struct documents *both = input;
    return kohiblad_merge_patch(both->left.at, both->left.size, both->right.at, both->right.size,
                                KOHIBLAD_SQLITE_DEPTH, out, room, length);
}

uint32_t write_edited(const void *input, uint8_t *out, size_t room, size_t *length)
{
    const struct edit *edit = input;
    return kohiblad_edit(edit->document.at, edit->document.size, edit->path.at, edit->path.size,
                         edit->kind, edit->value.at, edit->value.size, KOHIBLAD_SQLITE_DEPTH, out,
                         room, length);
}

uint32_t write_binary(const void *input, uint8_t *out, size_t room, size_t *length)
{
    const struct bytes *data = input;
    return kohiblad_of_extension(KOHIBLAD_BINARY, 0, 0, 0, 0, data->at, data->size, out, room,
                                 length);
}
