#include "rows.h"

#include "miscadmin.h"

/* The library's calls over rows, which differ in nothing but their name. */
typedef uint32_t (*BuildCall)(const uint8_t *bytes, size_t size, const size_t *offsets,
                              size_t count, size_t depth, uint8_t *out, size_t room,
                              size_t *length);

/* A key of an object, and the number of its row. */
typedef struct Key {
    Bytes name;
    size_t row;
} Key;

#define FIRST_ROOM 64

/* The largest document of a whole number of 64 bits. */
#define WHOLE_ROOM (SCALAR_FRONT + 9)

Rows *new_rows(void) {
    Rows *rows = palloc0(sizeof *rows);
    initStringInfo(&rows->bytes);
    rows->room = FIRST_ROOM;
    rows->offsets = palloc(rows->room * sizeof *rows->offsets);
    rows->offsets[0] = 0;
    return rows;
}

void free_rows(Rows *rows) {
    pfree(rows->bytes.data);
    pfree(rows->offsets);
    pfree(rows);
}

void empty_rows(Rows *rows) {
    resetStringInfo(&rows->bytes);
    rows->count = 0;
}

/* Ends the row whose bytes were appended. */
static void end_row(Rows *rows) {
    if (rows->count + 1 == rows->room) {
        rows->room *= 2;
        rows->offsets = repalloc_huge(rows->offsets, rows->room * sizeof *rows->offsets);
    }
    rows->offsets[++rows->count] = rows->bytes.len;
}

void add_row(Rows *rows, Bytes row) {
    appendBinaryStringInfo(&rows->bytes, (const char *)row.at, row.size);
    end_row(rows);
}

static Bytes row_at(const Rows *rows, size_t i) {
    size_t start = rows->offsets[i];
    return (Bytes){(const uint8_t *)rows->bytes.data + start, rows->offsets[i + 1] - start};
}

void add_rows(Rows *rows, const Rows *more) {
    for (size_t i = 0; i < more->count; i++) {
        CHECK_FOR_INTERRUPTS();
        add_row(rows, row_at(more, i));
    }
}

void add_part(Rows *rows, Part part) {
    size_t room = room_of_part(part);
    check_room(room);
    enlargeStringInfo(&rows->bytes, (int)room);
    uint8_t *end = (uint8_t *)rows->bytes.data + rows->bytes.len;
    rows->bytes.len += write_part(part, end, room).size;
    end_row(rows);
}

/* Adds the document of a scalar that a call wrote. */
static void add_scalar(Rows *rows, uint32_t status, const uint8_t *document, size_t size) {
    if (status != KOHIBLAD_OK) refuse(status, ERRCODE_INTERNAL_ERROR);
    add_row(rows, (Bytes){document, size});
}

void add_null(Rows *rows) {
    uint8_t document[SCALAR_FRONT];
    size_t size;
    uint32_t status = kohiblad_of_null(document, sizeof document, &size);
    add_scalar(rows, status, document, size);
}

void add_boolean(Rows *rows, bool value) {
    uint8_t document[SCALAR_FRONT];
    size_t size;
    uint32_t status = kohiblad_of_boolean(value, document, sizeof document, &size);
    add_scalar(rows, status, document, size);
}

void add_int64(Rows *rows, int64 value) {
    uint8_t document[WHOLE_ROOM];
    size_t size;
    uint32_t status = kohiblad_of_int64(value, document, sizeof document, &size);
    add_scalar(rows, status, document, size);
}

void add_text(Rows *rows, Bytes utf8) {
    add_part(rows, (Part){KOHIBLAD_TYPE_STRING, utf8});
}

/* The error where the library takes the rows for none: a document may be too deep for a child. */
static uint32_t row_status(const Rows *rows, size_t step, uint32_t status) {
    if (status != KOHIBLAD_INVALID_JSONB) return status;
    for (size_t i = step - 1; i < rows->count; i += step) {
        CHECK_FOR_INTERRUPTS();
        Bytes row = row_at(rows, i);
        if (!kohiblad_check(row.at, row.size, MAX_DEPTH - 1)) return KOHIBLAD_TOO_DEEP;
    }
    return status;
}

/* Builds the rows, of which each `step` belong to one child. NULL if a key comes twice. Each row
 * takes an entry word and at most its bytes, after the header. */
static struct varlena *build(const Rows *rows, BuildCall call, size_t step) {
    const uint8_t *bytes = (const uint8_t *)rows->bytes.data;
    size_t depth = Min(MAX_DEPTH - 1, depth_of_size(rows->bytes.len)), length;
    size_t room = rows->bytes.len + (rows->count + 1) * ENTRY_SIZE;
    check_stack_for(stack_of_depth(depth));
    check_room(room);
    struct varlena *built = palloc(VARHDRSZ + room);
    uint32_t status = call(bytes, rows->bytes.len, rows->offsets, rows->count + 1, depth,
                           (uint8_t *)VARDATA(built), room, &length);
    if (status == KOHIBLAD_OK) {
        SET_VARSIZE(built, VARHDRSZ + length);
        return built;
    }
    pfree(built);
    if (status == KOHIBLAD_OBJECT_DUPLICATE_KEY) return NULL;
    refuse(row_status(rows, step, status), ERRCODE_PROGRAM_LIMIT_EXCEEDED);
}

struct varlena *array_of_rows(const Rows *rows) {
    return build(rows, kohiblad_build_array, 1);
}

struct varlena *object_of_unique_rows(const Rows *rows) {
    struct varlena *built = build(rows, kohiblad_build_object, 2);
    if (!built) refuse(KOHIBLAD_OBJECT_DUPLICATE_KEY, ERRCODE_DUPLICATE_JSON_OBJECT_KEY_VALUE);
    return built;
}

/* By name, and equal names by row. */
static int compare_keys(const void *left, const void *right) {
    CHECK_FOR_INTERRUPTS();
    const Key *l = left, *r = right;
    int order = memcmp(l->name.at, r->name.at, Min(l->name.size, r->name.size));
    if (order != 0) return order;
    if (l->name.size != r->name.size) return l->name.size < r->name.size ? -1 : 1;
    return (l->row > r->row) - (l->row < r->row);
}

static bool are_same_names(Bytes left, Bytes right) {
    return left.size == right.size && memcmp(left.at, right.at, left.size) == 0;
}

/* The last row of each key, with its value. */
static Rows *last_rows(const Rows *rows) {
    size_t count = rows->count / 2;
    Key *keys = MemoryContextAllocHuge(CurrentMemoryContext, count * sizeof *keys);
    for (size_t i = 0; i < count; i++) {
        CHECK_FOR_INTERRUPTS();
        keys[i] = (Key){row_at(rows, 2 * i), 2 * i};
    }
    qsort(keys, count, sizeof *keys, compare_keys);
    Rows *last = new_rows();
    for (size_t i = 0; i < count; i++) {
        CHECK_FOR_INTERRUPTS();
        if (i + 1 < count && are_same_names(keys[i].name, keys[i + 1].name)) continue;
        add_row(last, keys[i].name);
        add_row(last, row_at(rows, keys[i].row + 1));
    }
    pfree(keys);
    return last;
}

struct varlena *object_of_rows(const Rows *rows) {
    struct varlena *built = build(rows, kohiblad_build_object, 2);
    return built ? built : object_of_unique_rows(last_rows(rows));
}
