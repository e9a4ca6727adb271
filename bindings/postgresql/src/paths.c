#include "paths.h"

#include "catalog/pg_type.h"
#include "common/string.h"
#include "miscadmin.h"
#include "utils/builtins.h"

TextPath elements_of_array(ArrayType *array) {
    TextPath path;
    deconstruct_array(array, TEXTOID, -1, false, TYPALIGN_INT, &path.elements, &path.nulls,
                      &path.count);
    return path;
}

TextPath path_of_array(ArrayType *array) {
    if (ARR_NDIM(array) > 1)
        ereport(ERROR, (errcode(ERRCODE_ARRAY_SUBSCRIPT_ERROR),
                        errmsg("kohiblad: a path has one dimension")));
    return elements_of_array(array);
}

static bool index_of_bytes(Bytes element, int *index) {
    char *digits = pnstrdup((const char *)element.at, element.size), *end;
    errno = 0;
    *index = strtoint(digits, &end, 10);
    bool is_index = element.size > 0 && end == digits + element.size && errno == 0;
    pfree(digits);
    return is_index;
}

static Element read_element(TextPath texts, int i) {
    Element element = {0};
    if (texts.nulls && texts.nulls[i]) return element;
    element.given = DatumGetTextPP(texts.elements[i]);
    element.is_index = index_of_bytes(bytes_of(element.given), &element.index);
    return element;
}

Path *path_of_texts(TextPath texts) {
    Path *path = palloc0(sizeof *path);
    size_t places = Max(texts.count, 1);
    path->elements = palloc(places * sizeof *path->elements);
    path->are_indexes = palloc0(places * sizeof *path->are_indexes);
    for (; path->count < texts.count; path->count++) {
        CHECK_FOR_INTERRUPTS();
        path->elements[path->count] = read_element(texts, path->count);
    }
    return path;
}

static void *make_path(struct varlena *array) {
    return path_of_texts(path_of_array(DatumGetArrayTypeP(PointerGetDatum(array))));
}

Path *kept_path(FunctionCallInfo fcinfo) {
    return made_of_argument(fcinfo, 1, make_path);
}

bool find_step(Sliced *document, Bytes container, Bytes element, Part *child) {
    int index;
    struct kohiblad_value_kind kind = kind_in(document, container);
    if (kind.kind != KOHIBLAD_ARRAY) return find_key_in(document, container, element, child);
    return index_of_bytes(element, &index)
        && find_item_in(document, container, kind.count, index, child);
}

bool follow_element(Sliced *document, Bytes container, const Element *element, Part *child) {
    struct kohiblad_value_kind kind = kind_in(document, container);
    if (kind.kind != KOHIBLAD_ARRAY)
        return find_key_in(document, container, utf8_of_text(element->given), child);
    return element->is_index
        && find_item_in(document, container, kind.count, element->index, child);
}

bool find_path(Sliced *document, Part value, const Path *path, Part *child) {
    *child = value;
    for (int i = 0; i < path->count; i++) {
        CHECK_FOR_INTERRUPTS();
        const Element *element = &path->elements[i];
        if (!element->given || !is_container(*child)) return false;
        if (!follow_element(document, child->payload, element, child)) return false;
    }
    return true;
}

static void pg_attribute_noreturn() refuse_element(const Element *element, int level) {
    if (!element->given)
        ereport(ERROR, (errcode(ERRCODE_NULL_VALUE_NOT_ALLOWED),
                        errmsg("kohiblad: path element at position %d is null", level + 1)));
    ereport(ERROR, (errcode(ERRCODE_INVALID_TEXT_REPRESENTATION),
                    errmsg("kohiblad: path element at position %d is not an integer: \"%s\"",
                           level + 1, text_to_cstring(element->given))));
}

/* Takes the element at the end for what it is in its container, a key or an index. */
static void take_element(Path *path, PathEnd *end) {
    const Element *element = &path->elements[end->level];
    struct kohiblad_value_kind kind = kind_of(end->container.payload);
    end->is_array = kind.kind == KOHIBLAD_ARRAY;
    end->count = kind.count;
    if (!end->is_array)
        end->key = utf8_of_text(element->given);
    else if (!element->is_index)
        refuse_element(element, end->level);
    else
        end->index = element->index;
    if (path->are_indexes[end->level] == end->is_array) return;
    path->are_indexes[end->level] = end->is_array;
    path->made = 0;
}

static bool find_end(const PathEnd *end, Part *child) {
    Bytes container = end->container.payload;
    return end->is_array ? find_item_in(NULL, container, end->count, end->index, child)
                         : find_key(container, end->key, child);
}

bool has_index(int64 count, int64 index) {
    return -count <= index && index < count;
}

bool is_end_there(const PathEnd *end) {
    Part child;
    return end->is_array ? has_index(end->count, end->index)
                         : find_key(end->container.payload, end->key, &child);
}

bool follow_path(Bytes document, Path *path, PathEnd *end) {
    *end = (PathEnd){.container = part_of_document(document)};
    for (;; end->level++) {
        CHECK_FOR_INTERRUPTS();
        if (!path->elements[end->level].given)
            refuse_element(&path->elements[end->level], end->level);
        if (!is_container(end->container)) return false;
        take_element(path, end);
        Part child;
        if (end->level == path->count - 1 || !find_end(end, &child)) return true;
        end->container = child;
    }
}

/* The rows of the first elements, the last of which is this index if it is one. */
static Rows *rows_of_steps(const Path *path, int count, int64 last_index) {
    Rows *rows = new_rows();
    for (int i = 0; i < count; i++) {
        CHECK_FOR_INTERRUPTS();
        const Element *element = &path->elements[i];
        if (path->are_indexes[i])
            add_int64(rows, i < count - 1 ? element->index : last_index);
        else
            add_text(rows, utf8_of_text(element->given));
    }
    return rows;
}

static void make_steps(Path *path, int count, int64 last_index) {
    if (path->steps) pfree(path->steps);
    path->steps = NULL;
    path->made = 0;
    Rows *rows = rows_of_steps(path, count, last_index);
    MemoryContext caller = MemoryContextSwitchTo(GetMemoryChunkContext(path));
    path->steps = array_of_rows(rows);
    MemoryContextSwitchTo(caller);
    free_rows(rows);
    path->made = count;
    path->last_index = last_index;
}

static Bytes first_steps(Path *path, int count, int64 last_index) {
    if (path->made != count || path->last_index != last_index)
        make_steps(path, count, last_index);
    return bytes_of(path->steps);
}

Bytes steps_through(Path *path, const PathEnd *end, int64 index) {
    return first_steps(path, end->level + 1, end->is_array ? index : 0);
}

Bytes steps_to_make(const Path *path, const PathEnd *end) {
    int64 index = Min(end->index, end->count);
    if (index < 0) index += end->count;
    Rows *rows = rows_of_steps(path, end->level + 1, index);
    for (int i = end->level + 1; i < path->count; i++) {
        CHECK_FOR_INTERRUPTS();
        const Element *element = &path->elements[i];
        if (element->is_index)
            add_int64(rows, 0);
        else
            add_text(rows, utf8_of_text(element->given));
    }
    Bytes steps = bytes_of(array_of_rows(rows));
    free_rows(rows);
    return steps;
}

void refuse_path(void) {
    ereport(ERROR, (errcode(ERRCODE_INVALID_PARAMETER_VALUE),
                    errmsg("kohiblad: a path is a text, a whole number, or an array of these")));
}
