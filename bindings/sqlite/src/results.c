/* Results of the SQL functions: documents, and parts as SQL values. */
#include "extension.h"

#include <stdlib.h>

SQLITE_EXTENSION_INIT3

static const char *const kind_names[] = {
    [KOHIBLAD_NULL] = "null",
    [KOHIBLAD_BOOLEAN] = "boolean",
    [KOHIBLAD_NUMBER] = "number",
    [KOHIBLAD_STRING] = "string",
    [KOHIBLAD_EXTENSION] = "extension",
    [KOHIBLAD_ARRAY] = "array",
    [KOHIBLAD_OBJECT] = "object",
};

static const uint8_t kinds_of_scalars[] = {
    [KOHIBLAD_TYPE_NULL >> 28] = KOHIBLAD_NULL,
    [KOHIBLAD_TYPE_STRING >> 28] = KOHIBLAD_STRING,
    [KOHIBLAD_TYPE_NUMBER >> 28] = KOHIBLAD_NUMBER,
    [KOHIBLAD_TYPE_FALSE >> 28] = KOHIBLAD_BOOLEAN,
    [KOHIBLAD_TYPE_TRUE >> 28] = KOHIBLAD_BOOLEAN,
    [KOHIBLAD_TYPE_EXTENSION >> 28] = KOHIBLAD_EXTENSION,
};

struct kohiblad_value_kind kind_of_part(const struct part *part)
{
    struct kohiblad_value_kind kind = { .status = KOHIBLAD_INVALID_JSONB };
    if (part->type == KOHIBLAD_TYPE_CONTAINER)
        return kohiblad_kind(part->payload.at, part->payload.size);
    if (part->type <= KOHIBLAD_TYPE_EXTENSION) {
        kind.status = KOHIBLAD_OK;
        kind.kind = kinds_of_scalars[part->type >> 28];
    }
    return kind;
}

static void give_name(const struct caller *caller, const char *name)
{
    sqlite3_result_text(caller->context, name, -1, SQLITE_STATIC);
}

void give_kind(const struct caller *caller, const struct part *part)
{
    struct kohiblad_value_kind kind = kind_of_part(part);
    if (kind.status != KOHIBLAD_OK) fail(caller, kind.status);
    else give_name(caller, kind_names[kind.kind]);
}

void give_compact(const struct caller *caller, struct bytes document)
{
    struct buffer buffer;
    if (fill(caller, &buffer, write_compact, &document, document.size + document.size / 2))
        give_json(caller, &buffer);
}

void give_document(const struct caller *caller, const struct part *part)
{
    struct buffer buffer;
    if (fill(caller, &buffer, write_part, part, SCALAR_FRONT + part->payload.size))
        give_blob(caller, &buffer);
}

/* Makes a document, of the kind that the giver is for, the result. */
typedef void giver(const struct caller *caller, struct bytes document);

static void give_by(giver *give, const struct caller *caller, const struct part *part)
{
    struct buffer buffer;
    if (part->type == KOHIBLAD_TYPE_CONTAINER) {
        give(caller, part->payload);
    } else if (fill(caller, &buffer, write_part, part, SCALAR_FRONT + part->payload.size)) {
        give(caller, bytes_in(&buffer));
        release(&buffer);
    }
}

static void give_null(const struct caller *caller, struct bytes document)
{
    (void)document;
    sqlite3_result_null(caller->context);
}

static void give_boolean(const struct caller *caller, struct bytes document)
{
    struct kohiblad_truth truth = kohiblad_as_boolean(document.at, document.size);
    if (truth.status == KOHIBLAD_OK) sqlite3_result_int(caller->context, (int)truth.value);
    else fail(caller, truth.status);
}

static void give_digits(const struct caller *caller, struct bytes document)
{
    struct buffer buffer;
    if (fill(caller, &buffer, write_compact, &document, 0)) give_text(caller, &buffer);
}

/* A sign, "0." and 255 digits. */
enum { LONGEST_NUMBER = 258 };

/* The double nearest to the number of a text. strtod is exact, where SQLite's own reading of texts
 * misses the last bit of some. It reads the point of the locale, so it gets none: of 1.50 it reads
 * 150e-2. */
static double nearest_double(const char *text, size_t size)
{
    char digits[LONGEST_NUMBER + sizeof "e-255"];
    size_t count = 0, scale = 0;
    for (size_t i = 0; i < size; i++) {
        if (text[i] == '.') scale = size - i - 1;
        else digits[count++] = text[i];
    }
    sqlite3_snprintf((int)(sizeof digits - count), digits + count, "e-%d", (int)scale);
    return strtod(digits, NULL);
}

static void give_real(const struct caller *caller, struct bytes document)
{
    char text[LONGEST_NUMBER];
    size_t size;
    uint32_t status = write_compact(&document, (uint8_t *)text, sizeof text, &size);
    if (status != KOHIBLAD_OK) fail(caller, status);
    else sqlite3_result_double(caller->context, nearest_double(text, size));
}

static void give_integer_or(giver *give_other, const struct caller *caller, struct bytes document)
{
    struct kohiblad_integer number = kohiblad_as_int64(document.at, document.size);
    if (number.status == KOHIBLAD_OK) sqlite3_result_int64(caller->context, number.value);
    else if (number.status == KOHIBLAD_PAST_RANGE) give_other(caller, document);
    else fail(caller, number.status);
}

static void give_exact(const struct caller *caller, struct bytes document)
{
    give_integer_or(give_digits, caller, document);
}

static void give_nearest(const struct caller *caller, struct bytes document)
{
    give_integer_or(give_real, caller, document);
}

static void give_string(const struct caller *caller, struct bytes document)
{
    struct kohiblad_place text = kohiblad_as_string(document.at, document.size);
    if (text.status == KOHIBLAD_OK)
        sqlite3_result_text64(caller->context, (const char *)document.at + text.offset, text.length,
                              SQLITE_TRANSIENT, SQLITE_UTF8);
    else fail(caller, text.status);
}

/* The text of an extension value, as it is printed without its quotes; it has no escapes. */
static void give_printed(const struct caller *caller, struct bytes document)
{
    struct buffer buffer;
    if (fill(caller, &buffer, write_compact, &document, 2 * document.size)) {
        sqlite3_result_text64(caller->context, (const char *)buffer.at + 1, buffer.size - 2,
                              SQLITE_TRANSIENT, SQLITE_UTF8);
        release(&buffer);
    }
}

/* A date, a timestamp or an interval is shown in ISO 8601. */
static void give_extension(const struct caller *caller, struct bytes document)
{
    uint8_t text[KOHIBLAD_TIME_TEXT_ROOM];
    size_t size;
    uint32_t status = kohiblad_text_of_extension(
        kohiblad_as_extension(document.at, document.size), text, sizeof text, &size);
    if (status == KOHIBLAD_OK)
        sqlite3_result_text64(caller->context, (const char *)text, size, SQLITE_TRANSIENT,
                              SQLITE_UTF8);
    else if (status == KOHIBLAD_OTHER_KIND) give_printed(caller, document);
    else fail(caller, status);
}

static void give_binary(const struct caller *caller, struct bytes document)
{
    struct kohiblad_extension_value value = kohiblad_as_extension(document.at, document.size);
    if (value.status != KOHIBLAD_OK) fail(caller, value.status);
    else if (value.tag == KOHIBLAD_BINARY)
        sqlite3_result_blob64(caller->context, document.at + value.offset, value.length,
                              SQLITE_TRANSIENT);
}

static void give_container(const struct caller *caller, struct bytes document)
{
    if (kohiblad_check(document.at, document.size, KOHIBLAD_SQLITE_DEPTH))
        give_compact(caller, document);
    else fail(caller, KOHIBLAD_INVALID_JSONB);
}

static giver *const givers[] = {
    [KOHIBLAD_NULL] = give_null,
    [KOHIBLAD_BOOLEAN] = give_boolean,
    [KOHIBLAD_NUMBER] = give_exact,
    [KOHIBLAD_STRING] = give_string,
    [KOHIBLAD_EXTENSION] = give_extension,
    [KOHIBLAD_ARRAY] = give_container,
    [KOHIBLAD_OBJECT] = give_container,
};

void give_value(const struct caller *caller, const struct part *part)
{
    struct kohiblad_value_kind kind = kind_of_part(part);
    if (kind.status == KOHIBLAD_OK) give_by(givers[kind.kind], caller, part);
    else fail(caller, kind.status);
}

static void give_if(uint32_t wanted, giver *give, const struct caller *caller,
                    const struct part *part)
{
    struct kohiblad_value_kind kind = kind_of_part(part);
    if (kind.status != KOHIBLAD_OK) fail(caller, kind.status);
    else if (kind.kind == wanted) give_by(give, caller, part);
}

static void give_type_of_boolean(const struct caller *caller, struct bytes document)
{
    struct kohiblad_truth truth = kohiblad_as_boolean(document.at, document.size);
    if (truth.status == KOHIBLAD_OK) give_name(caller, truth.value ? "true" : "false");
    else fail(caller, truth.status);
}

static void give_type_of_number(const struct caller *caller, struct bytes document)
{
    struct kohiblad_decimal number = kohiblad_as_decimal(document.at, document.size);
    if (number.status == KOHIBLAD_OK) give_name(caller, number.scale ? "real" : "integer");
    else fail(caller, number.status);
}

void give_type(const struct caller *caller, const struct part *part)
{
    struct kohiblad_value_kind kind = kind_of_part(part);
    if (kind.status != KOHIBLAD_OK) fail(caller, kind.status);
    else if (kind.kind == KOHIBLAD_BOOLEAN) give_by(give_type_of_boolean, caller, part);
    else if (kind.kind == KOHIBLAD_NUMBER) give_by(give_type_of_number, caller, part);
    else give_name(caller, kind.kind == KOHIBLAD_STRING ? "text" : kind_names[kind.kind]);
}

void give_array_length(const struct caller *caller, const struct part *part)
{
    struct kohiblad_value_kind kind = kind_of_part(part);
    if (kind.status != KOHIBLAD_OK) fail(caller, kind.status);
    else sqlite3_result_int64(caller->context,
                              kind.kind == KOHIBLAD_ARRAY ? (sqlite3_int64)kind.count : 0);
}

void give_number(const struct caller *caller, const struct part *part)
{
    give_if(KOHIBLAD_NUMBER, give_nearest, caller, part);
}

void give_data(const struct caller *caller, const struct part *part)
{
    give_if(KOHIBLAD_EXTENSION, give_binary, caller, part);
}
