/* Which index keys a path of SQL/JSON needs. A value that must equal a scalar is in the document at
 * the end of known keys, with arrays around it or not, since these leave no trace in index keys. So
 * a document has the keys of {"a":{"b":1}} if $.a.b == 1 is true of it. What says less is passed
 * over: the server follows the path in each document that is found. */
#include "gin.h"
#include "pathplan.h"

#include "miscadmin.h"

/* The keys on the way to a value, from the last one to the first; NULL at the top. */
typedef struct Way {
    const struct Way *above;
    Bytes key;
} Way;

static void append_of_predicate(Keys *keys, JsonPathItem *item, const Way *current);

/* Adds the document of a scalar, unless it is past the format's limits; then no document has it. */
static bool add_number(Rows *rows, JsonPathItem *item) {
    uint8_t document[NUMBER_ROOM];
    size_t size;
    if (!write_number(item, document, &size)) return false;
    add_row(rows, (Bytes){document, size});
    return true;
}

static bool add_string(Rows *rows, Bytes utf8) {
    if (utf8.size >= PAYLOAD_LIMIT) return false;
    add_text(rows, utf8);
    return true;
}

static bool add_scalar(Rows *rows, JsonPathItem *item) {
    switch (item->type) {
        case jpiNull: add_null(rows); return true;
        case jpiBool: add_boolean(rows, jspGetBool(item)); return true;
        case jpiNumeric: return add_number(rows, item);
        default: return add_string(rows, string_of_item(item));
    }
}

/* The object of a member. */
static struct varlena *object_around(Bytes key, Bytes value) {
    Rows *member = new_rows();
    add_row(member, key);
    add_row(member, value);
    struct varlena *object = object_of_rows(member);
    free_rows(member);
    return object;
}

/* Appends the key of a scalar at the end of a way, unless that is past the format's limits; then no
 * document has it. */
static void append_scalar(Keys *keys, const Way *way, JsonPathItem *scalar) {
    Rows *rows = new_rows();
    if (!add_scalar(rows, scalar)) return;
    Bytes value = {(uint8_t *)rows->bytes.data, rows->bytes.len};
    struct varlena *inner = NULL, *outer;
    for (int levels = 0; way; way = way->above, levels++, inner = outer) {
        CHECK_FOR_INTERRUPTS();
        if (levels == MAX_DEPTH || way->key.size >= PAYLOAD_LIMIT || value.size >= PAYLOAD_LIMIT)
            return;
        outer = object_around(way->key, value);
        value = bytes_of(outer);
        if (inner) pfree(inner);
    }
    append_values(keys, value);
}

static const Way *below(const Way *above, Bytes key) {
    Way *way = palloc(sizeof *way);
    *way = (Way){above, key};
    return way;
}

/* Follows a path, and appends the keys that its filters need; whether it ends at a known way. */
static bool follow(Keys *keys, JsonPathItem *first, const Way *current, const Way **way) {
    JsonPathItem item = *first, next, filter;
    if (item.type != jpiRoot && item.type != jpiCurrent) return false;
    *way = item.type == jpiRoot ? NULL : current;
    while (jspGetNext(&item, &next)) {
        CHECK_FOR_INTERRUPTS();
        item = next;
        switch (item.type) {
            case jpiKey: *way = below(*way, string_of_item(&item)); break;
            case jpiAnyArray:
            case jpiIndexArray: break;
            case jpiFilter:
                jspGetArg(&item, &filter);
                append_of_predicate(keys, &filter, *way);
                break;
            default: return false;
        }
    }
    return true;
}

static bool is_scalar(const JsonPathItem *item) {
    return jspIsScalar(item->type) && !jspHasNext(item);
}

static void append_of_predicate(Keys *keys, JsonPathItem *item, const Way *current) {
    check_stack_depth();
    CHECK_FOR_INTERRUPTS();
    JsonPathItem left, right;
    const Way *way;
    switch (item->type) {
        case jpiAnd:
            jspGetLeftArg(item, &left);
            jspGetRightArg(item, &right);
            append_of_predicate(keys, &left, current);
            append_of_predicate(keys, &right, current);
            break;
        case jpiEqual:
            jspGetLeftArg(item, &left);
            jspGetRightArg(item, &right);
            if (is_scalar(&right) && follow(keys, &left, current, &way))
                append_scalar(keys, way, &right);
            else if (is_scalar(&left) && follow(keys, &right, current, &way))
                append_scalar(keys, way, &left);
            break;
        case jpiExists:
            jspGetArg(item, &left);
            follow(keys, &left, current, &way);
            break;
        default: break;
    }
}

void append_keys_of_path(Keys *keys, JsonPath *path) {
    JsonPathItem item;
    const Way *way;
    jspInit(&item, path);
    follow(keys, &item, NULL, &way);
}

void append_keys_of_predicate(Keys *keys, JsonPath *path) {
    JsonPathItem item;
    jspInit(&item, path);
    append_of_predicate(keys, &item, NULL);
}
