/* What the calls over files of typed columns answer, by the rules of docs/TYPED.md. */
#include "kohiblad.h"

#include <assert.h>
#include <stdio.h>
#include <stdlib.h>
#include <string.h>

enum { ROWS = 9, ROOM = 4096, DEPTH = 3, COLUMNS = 5 };

/* The rows, and what of each stands in no column. */
static const char *const texts[ROWS] = {
    "{\"at\":5,\"city\":\"Oslo\",\"on\":true,\"price\":1.50,\"seen\":18446744073709551615}",
    "{\"at\":-1,\"city\":\"\",\"on\":false,\"price\":-2.00,\"seen\":7,\"x\":[1]}",
    "{\"at\":null,\"city\":1,\"on\":\"no\",\"price\":1.5,\"seen\":-1}",
    "{}", "[5]", "\"Oslo\"", "{\"at\":5.0,\"city\":\"\\u00e9\"}",
    "{\"price\":2}", "{\"at\":9223372036854775807,\"on\":true}",
};
static const char names_text[] = "[\"at\",\"city\",\"on\",\"price\",\"seen\"]";
static const uint8_t types[] = {
    KOHIBLAD_COLUMN_INT64, 0, KOHIBLAD_COLUMN_TEXT, 0, KOHIBLAD_COLUMN_BOOLEAN, 0,
    KOHIBLAD_COLUMN_DECIMAL, 2, KOHIBLAD_COLUMN_UINT64, 0,
};
static uint8_t rows[ROOM], names[ROOM], file[ROOM], out[ROOM];
static size_t offsets[ROWS + 1], size, names_size, length;

/* The document of a text of JSON. */
static size_t parsed(const char *text, uint8_t *at, size_t room) {
    size_t written;
    assert(!kohiblad_parse((const uint8_t *)text, strlen(text), 9, 0, at, room, &written));
    return written;
}

/* The number in so many bytes, the highest first. */
static uint64_t number(const uint8_t *at, size_t count) {
    uint64_t value = 0;
    for (size_t i = 0; i < count; i++) value = value << 8 | at[i];
    return value;
}

static uint32_t built(size_t room) {
    return kohiblad_build_typed_file(rows, size, offsets, ROWS + 1, names, names_size, types,
                                     sizeof types, DEPTH, file, room, &length);
}

static uint32_t status_of(const uint8_t *bytes, size_t count, size_t depth) {
    struct kohiblad_typed_file answer = kohiblad_check_typed_file(bytes, count, depth);
    assert(!answer.status || (!answer.rows && !answer.columns));
    return answer.status;
}

/* Each row comes back as the document that was given. */
static void rows_come_back(void) {
    size_t written;
    for (size_t i = 0; i < ROWS; i++) {
        size_t wanted = offsets[i + 1] - offsets[i];
        assert(kohiblad_typed_row(file, length, i, DEPTH, NULL, 0, &written)
               == KOHIBLAD_NO_ROOM);
        assert(written == wanted);
        memset(out, '.', ROOM);
        assert(!kohiblad_typed_row(file, length, i, DEPTH, out, ROOM, &written));
        assert(written == wanted && !memcmp(out, rows + offsets[i], wanted) && out[wanted] == '.');
    }
    assert(kohiblad_typed_row(file, length, ROWS, DEPTH, out, ROOM, &written) == KOHIBLAD_NONE);
    assert(written == 0);
    assert(kohiblad_typed_row(file, length, SIZE_MAX, DEPTH, out, ROOM, &written)
           == KOHIBLAD_NONE);
    /* Row 1 keeps {"x":[1]}, which nests two levels, and row 3 an object without members. */
    assert(kohiblad_typed_row(file, length, 1, 1, out, ROOM, &written) == KOHIBLAD_TOO_DEEP);
    assert(kohiblad_typed_row(file, length, 3, 1, out, ROOM, &written) == KOHIBLAD_OK);
    assert(kohiblad_typed_row(file, length, 3, 0, out, ROOM, &written) == KOHIBLAD_TOO_DEEP);
    assert(kohiblad_typed_row(file, length, 5, 0, out, ROOM, &written) == KOHIBLAD_OK);
}

static bool has(const struct kohiblad_typed_column *column, size_t row) {
    return file[column->flags + row / 8] >> (row % 8) & 1;
}

/* The buffers of the columns, in their places. */
static void columns_lie(void) {
    static const char *const named[COLUMNS] = { "at", "city", "on", "price", "seen" };
    static const uint32_t kinds[COLUMNS] = { 1, 4, 0, 3, 2 };
    static const char *const set[COLUMNS] = { "110000001", "110000100", "110000001", "110000000",
                                              "110000000" };
    struct kohiblad_typed_column columns[COLUMNS + 1];
    size_t count;
    memset(columns, 0xA5, sizeof columns);
    assert(kohiblad_typed_columns(file, length, NULL, 0, &count) == KOHIBLAD_NO_ROOM);
    assert(count == COLUMNS);
    assert(kohiblad_typed_columns(file, length, columns, COLUMNS - 1, &count)
           == KOHIBLAD_NO_ROOM);
    assert(columns[0].type == 0xA5A5A5A5u);
    assert(!kohiblad_typed_columns(file, length, columns, COLUMNS + 1, &count));
    assert(count == COLUMNS && columns[COLUMNS].type == 0xA5A5A5A5u);
    for (size_t k = 0; k < COLUMNS; k++) {
        assert(columns[k].name_length == strlen(named[k]));
        assert(!memcmp(file + columns[k].name, named[k], strlen(named[k])));
        assert(columns[k].type == kinds[k] && columns[k].scale == (k == 3 ? 2 : 0));
        assert(columns[k].rows == ROWS && columns[k].flags_length == 2);
        for (size_t row = 0; row < ROWS; row++) assert(has(columns + k, row) == set[k][row] - '0');
    }
    const uint8_t *at = file + columns[0].numbers;
    assert(columns[0].numbers_length == 8 * ROWS && columns[0].texts_length == 0);
    assert(number(at, 8) == 5 && number(at + 8, 8) == UINT64_MAX);
    assert(number(at + 8 * 8, 8) == INT64_MAX);
    at = file + columns[1].numbers;
    assert(columns[1].numbers_length == 8 * (ROWS + 1) && columns[1].texts_length == 6);
    assert(number(at, 8) == 0 && number(at + 8, 8) == 4 && number(at + 8 * ROWS, 8) == 6);
    assert(!memcmp(file + columns[1].texts, "Oslo\xC3\xA9", 6));
    assert(columns[2].numbers_length == ROWS && file[columns[2].numbers] == 1);
    assert(file[columns[2].numbers + 1] == 0 && file[columns[2].numbers + 8] == 1);
    at = file + columns[3].numbers;
    assert(columns[3].numbers_length == 16 * ROWS);
    assert(number(at, 8) == 0 && number(at + 8, 8) == 150);
    assert(number(at + 16, 8) == UINT64_MAX && number(at + 24, 8) == (uint64_t)-200);
    assert(number(file + columns[4].numbers, 8) == UINT64_MAX);
}

/* Each refusal of a file has its status. */
static void files_are_refused(void) {
    size_t count;
    for (size_t i = 0; i < length; i++) {
        uint32_t status = status_of(file, i, DEPTH);
        assert(status == (i < 8 ? KOHIBLAD_BAD_MAGIC : KOHIBLAD_INVALID_EOF));
        assert(kohiblad_typed_columns(file, i, NULL, 0, &count) == status && count == 0);
        assert(kohiblad_typed_row(file, i, 0, DEPTH, out, ROOM, &count) == status && count == 0);
    }
    file[length] = 0;
    assert(status_of(file, length + 1, DEPTH) == KOHIBLAD_TRAILING_DATA);
    assert(kohiblad_typed_columns(file, length + 1, NULL, 0, &count) == KOHIBLAD_TRAILING_DATA);
    assert(status_of(file, length, 1) == KOHIBLAD_TOO_DEEP);
    assert(status_of(file, length, 2) == KOHIBLAD_OK);
    file[11] = 2;
    assert(status_of(file, length, DEPTH) == KOHIBLAD_UNKNOWN_VERSION);
    file[11] = 1;
    /* An unknown type, and one whose numbers are longer. */
    struct kohiblad_typed_column columns[COLUMNS];
    assert(!kohiblad_typed_columns(file, length, columns, COLUMNS, &count));
    memcpy(out, file, length);
    out[columns[2].name - 2] = KOHIBLAD_COLUMN_BINARY + 1;
    assert(status_of(out, length, DEPTH) == KOHIBLAD_OUT_OF_FORM);
    out[columns[2].name - 2] = KOHIBLAD_COLUMN_INT64;
    assert(status_of(out, length, DEPTH) == KOHIBLAD_WRONG_LENGTH);
    assert(kohiblad_typed_columns(out, length, NULL, 0, &count) == KOHIBLAD_WRONG_LENGTH);
    memcpy(out, file, length);
    /* A text that is not UTF-8 is found where it is read. */
    out[columns[1].texts + 5] = 'x';
    assert(status_of(out, length, DEPTH) == KOHIBLAD_OUT_OF_FORM);
    assert(!kohiblad_typed_columns(out, length, columns, COLUMNS, &count));
    static uint8_t row[ROOM];
    assert(!kohiblad_typed_row(out, length, 0, DEPTH, row, ROOM, &count));
    assert(kohiblad_typed_row(out, length, 6, DEPTH, row, ROOM, &count) == KOHIBLAD_OUT_OF_FORM);
}

/* Each refusal of rows has its status. */
static void rows_are_refused(void) {
    static uint8_t turned[ROOM], none[8];
    size_t written, turned_size = parsed("[\"city\",\"at\"]", turned, ROOM);
#define REFUSED(status, ...) do { \
        memset(out, '.', ROOM); \
        assert(kohiblad_build_typed_file(__VA_ARGS__, out, ROOM, &written) == (status)); \
        assert(written == 0 && out[0] == '.'); \
    } while (0)
    REFUSED(KOHIBLAD_INVALID_EOF, rows, size - 1, offsets, ROWS + 1, names, names_size, types,
            sizeof types, DEPTH);
    REFUSED(KOHIBLAD_INVALID_JSONB, rows, size, offsets, ROWS + 1, names, names_size - 1, types,
            sizeof types, DEPTH);
    REFUSED(KOHIBLAD_INVALID_JSONB, rows, size, offsets, ROWS + 1, names, names_size, types,
            sizeof types, 1);
    REFUSED(KOHIBLAD_OTHER_KIND, rows, size, offsets, ROWS + 1, rows, offsets[1], types,
            sizeof types, DEPTH);
    REFUSED(KOHIBLAD_OTHER_KIND, rows, size, offsets, ROWS + 1, names, names_size, types,
            sizeof types - 2, DEPTH);
    REFUSED(KOHIBLAD_OTHER_KIND, rows, size, offsets, ROWS + 1, turned, turned_size, types, 2,
            DEPTH);
    REFUSED(KOHIBLAD_OTHER_KIND, rows, size, offsets, ROWS + 1, turned, turned_size, types, 4,
            DEPTH);
    size_t whole[] = { 0, size };
    REFUSED(KOHIBLAD_INVALID_JSONB, rows, size, whole, 2, names, names_size, types, sizeof types,
            DEPTH);
    assert(kohiblad_build_typed_file(rows, size, offsets, ROWS + 1, names, names_size, types,
                                     sizeof types, DEPTH, rows, ROOM, &written)
           == KOHIBLAD_OVERLAP);
    /* A file of no rows and no columns. */
    size_t none_size = parsed("[]", none, sizeof none);
    assert(!kohiblad_build_typed_file(NULL, 0, NULL, 0, none, none_size, NULL, 0, 1, out, ROOM,
                                      &written));
    struct kohiblad_typed_file empty = kohiblad_check_typed_file(out, written, 0);
    assert(!empty.status && empty.rows == 0 && empty.columns == 0 && written == 40);
    assert(kohiblad_typed_row(out, written, 0, 0, NULL, 0, &length) == KOHIBLAD_NONE);
}

int main(void) {
    for (size_t i = 0; i < ROWS; i++)
        offsets[i + 1] = size += parsed(texts[i], rows + size, ROOM - size);
    names_size = parsed(names_text, names, ROOM);
    assert(built(0) == KOHIBLAD_NO_ROOM && length > 0 && length < ROOM && file[0] == 0);
    size_t wanted = length;
    assert(built(wanted - 1) == KOHIBLAD_NO_ROOM && file[0] == 0);
    assert(built(wanted) == KOHIBLAD_OK && length == wanted && !memcmp(file, "KOHITYPE", 8));
    struct kohiblad_typed_file checked = kohiblad_check_typed_file(file, length, DEPTH);
    assert(!checked.status && checked.rows == ROWS && checked.columns == COLUMNS);
    rows_come_back();
    columns_lie();
    files_are_refused();
    rows_are_refused();
    puts("files of typed columns as the rules have them");
    return 0;
}
