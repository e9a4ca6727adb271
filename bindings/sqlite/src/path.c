/* Paths as SQLite's JSON functions write them: $, $.name, $."a name", $[0], $[#-1]. The library
 * reads them, into a document of their steps. */
#include "extension.h"

#include <string.h>

SQLITE_EXTENSION_INIT3

/* Whether a text is of names, points and indexes alone, as `a.b[0]`. */
static bool is_of_names(struct bytes text)
{
    for (size_t i = 0; i < text.size; i++) {
        uint8_t byte = text.at[i], small = byte | 0x20;
        bool is_of_name = byte >= 0x80 || (small >= 'a' && small <= 'z')
            || (byte >= '0' && byte <= '9');
        if (!is_of_name && (byte == 0 || !strchr("_-.[]#", byte))) return false;
    }
    return true;
}

/* Writes the path that is meant by a text without its beginning, as `$.a` by `a`; else no bytes. */
static void write_meant(struct bytes text, char *meant, int room)
{
    uint8_t path[1024];
    size_t length;
    bool has_step = text.size > 0 && (text.at[0] == '.' || text.at[0] == '[');
    *meant = 0;
    if (text.size > 100 || !is_of_names(text)) return;
    sqlite3_snprintf(room, meant, "%s%.*s", has_step ? "$" : "$.", (int)text.size,
                     (const char *)text.at);
    if (kohiblad_path_of_text((const uint8_t *)meant, strlen(meant), path, sizeof path, &length)
        != KOHIBLAD_OK)
        *meant = 0;
}

/* The error of a text that is no path. Null if memory was refused. */
static char *path_message(const char *name, struct bytes text)
{
    char meant[128];
    write_meant(text, meant, sizeof meant);
    return sqlite3_mprintf("%s: the text is not a path: '%.*s'%s%s%s", name, (int)text.size,
                           (const char *)text.at, *meant ? ": did you mean '" : "", meant,
                           *meant ? "'?" : "");
}

uint32_t open_path(const char *name, struct bytes text, struct buffer *path, char **message)
{
    uint32_t status;
    path->at = path->small;
    status = kohiblad_path_of_text(text.at, text.size, path->at, sizeof path->small, &path->size);
    if (status == KOHIBLAD_NO_ROOM) {
        size_t room = path->size;
        path->at = sqlite3_malloc64(room);
        status = path->at
            ? kohiblad_path_of_text(text.at, text.size, path->at, room, &path->size)
            : KOHIBLAD_OUT_OF_MEMORY;
    }
    if (status == KOHIBLAD_OK) return status;
    release(path);
    *message = NULL;
    if (status == KOHIBLAD_OTHER_KIND) *message = path_message(name, text);
    else if (status != KOHIBLAD_OUT_OF_MEMORY) *message = status_message(name, status, NULL);
    return status;
}

static void free_path(void *path)
{
    release(path);
    sqlite3_free(path);
}

const struct buffer *kept_path(const struct caller *caller, sqlite3_value **arguments, int index)
{
    struct buffer *path = sqlite3_get_auxdata(caller->context, index);
    struct bytes text;
    char *message = NULL;
    if (path) return path;
    if (!get_text(caller, arguments[index], &text)) return NULL;
    path = sqlite3_malloc(sizeof *path);
    if (path && open_path(caller->name, text, path, &message) == KOHIBLAD_OK) {
        sqlite3_set_auxdata(caller->context, index, path, free_path);
        /* SQLite may have freed it, for want of memory. */
        path = sqlite3_get_auxdata(caller->context, index);
    } else {
        sqlite3_free(path);
        path = NULL;
    }
    if (!path) fail_with(caller, message);
    return path;
}

struct reader steps_of(const struct buffer *path)
{
    struct reader reader = { bytes_in(path), { 0, 0, 0 } };
    kohiblad_begin(reader.path.at, reader.path.size, &reader.next);
    return reader;
}

/* A number below 0 counts from the end, and the greatest of 64 bits is `[#]`, past the last. */
static void read_index(struct step *step)
{
    uint8_t document[32];
    size_t length;
    struct kohiblad_decimal number = { .status = KOHIBLAD_OTHER_KIND };
    if (kohiblad_copy(step->value.type, step->value.payload.at, step->value.payload.size,
                      document, sizeof document, &length) == KOHIBLAD_OK)
        number = kohiblad_as_decimal(document, length);
    step->kind = number.high < 0 || number.low == UINT64_MAX ? FROM_END : INDEX;
    step->index = number.high < 0 ? -number.low : step->kind == INDEX ? number.low : 0;
}

bool read_step(struct reader *reader, struct step *step)
{
    struct kohiblad_place place;
    if (kohiblad_next(reader->path.at, reader->path.size, &reader->next, NULL, &place)
        != KOHIBLAD_OK)
        return false;
    *step = (struct step){ .kind = NAME };
    step->value = (struct part){ place.type, { reader->path.at + place.offset, place.length } };
    if (place.type == KOHIBLAD_TYPE_STRING) step->name = step->value.payload;
    else read_index(step);
    return true;
}

/* Finds an item of an array only: the parts of an object are its keys and values. */
static struct kohiblad_place find_item(struct bytes document, struct step *step)
{
    struct kohiblad_place none = { .status = KOHIBLAD_NONE };
    struct kohiblad_value_kind kind = kohiblad_kind(document.at, document.size);
    if (kind.status != KOHIBLAD_OK) return (struct kohiblad_place){ .status = kind.status };
    if (kind.kind != KOHIBLAD_ARRAY) return none;
    if (step->kind == FROM_END) {
        if (step->index > kind.count) return none;
        step->index = kind.count - step->index;
        step->kind = INDEX;
    }
    return kohiblad_find_index(document.at, document.size, step->index);
}

uint32_t take_step(struct step *step, struct part *part)
{
    struct bytes document = part->payload;
    struct kohiblad_place place;
    if (part->type != KOHIBLAD_TYPE_CONTAINER) return KOHIBLAD_NONE;
    place = step->kind != NAME
        ? find_item(document, step)
        : kohiblad_find_key(document.at, document.size, step->name.at, step->name.size);
    if (place.status == KOHIBLAD_OK)
        *part = (struct part){ place.type, { document.at + place.offset, place.length } };
    return place.status;
}

uint32_t follow_path(const char *name, struct bytes document, const struct buffer *path,
                     struct part *part, struct step *last, char **message)
{
    struct reader reader = steps_of(path);
    uint32_t status = KOHIBLAD_OK;
    *part = (struct part){ KOHIBLAD_TYPE_CONTAINER, document };
    *last = (struct step){ .kind = NAME };
    while (status == KOHIBLAD_OK && read_step(&reader, last)) status = take_step(last, part);
    *message = status != KOHIBLAD_OK && status != KOHIBLAD_NONE
        ? status_message(name, status, NULL) : NULL;
    return status;
}
