/* Documents as they are read: whole values, children, and iterators over them. */
#include "native.h"

#include <string.h>

/* The documents of numbers and of most extension values are shorter. */
#define NUMBER_SIZE 64

PyObject *document_of(struct state *state, PyObject *data)
{
    struct kohiblad_value_kind kind = state->library.kind((const uint8_t *)PyBytes_AS_STRING(data),
                                                          (size_t)PyBytes_GET_SIZE(data));
    PyTypeObject *type = (PyTypeObject *)(kind.kind == KOHIBLAD_OBJECT ? state->object_document
                                          : kind.kind == KOHIBLAD_ARRAY ? state->array_document
                                          : state->scalar_document);
    if (kind.status) return raise_status(state, kind.status);
    PyObject *document = type->tp_alloc(type, 0);
    if (!document) return NULL;
    if (Py_TYPE(state->data_slot)->tp_descr_set(state->data_slot, document, data)
        || Py_TYPE(state->key_slot)->tp_descr_set(state->key_slot, document, Py_None))
        Py_CLEAR(document);
    return document;
}

/* The name, which is taken from those that were read lately if it is short and ASCII. */
PyObject *name_of(struct state *state, const uint8_t *bytes, size_t size)
{
    if (size == 0 || size > LONGEST_KEPT_NAME)
        return PyUnicode_DecodeUTF8((const char *)bytes, (Py_ssize_t)size, NULL);
    size_t place = (size * 31 + bytes[0] * 7 + bytes[size / 2] * 5 + bytes[size - 1]) % NAME_PLACES;
    PyObject *kept = state->names[place];
    if (kept && (size_t)PyUnicode_GET_LENGTH(kept) == size
        && !memcmp(PyUnicode_1BYTE_DATA(kept), bytes, size))
        return Py_NewRef(kept);
    PyObject *name = PyUnicode_DecodeUTF8((const char *)bytes, (Py_ssize_t)size, NULL);
    if (name && PyUnicode_IS_COMPACT_ASCII(name)) {
        state->names[place] = Py_NewRef(name);
        Py_XDECREF(kept);
    }
    return name;
}

/* high * 2^64 + low */
static PyObject *whole_number_of(int64_t high, uint64_t low)
{
    if (high == (low >> 63 ? -1 : 0)) return PyLong_FromLongLong((long long)low);
    PyObject *number = NULL, *shifted = NULL;
    PyObject *left = PyLong_FromLongLong(high), *width = PyLong_FromLong(64);
    PyObject *right = PyLong_FromUnsignedLongLong(low);
    if (left && width && right) shifted = PyNumber_Lshift(left, width);
    if (shifted) number = PyNumber_Or(shifted, right);
    Py_XDECREF(left);
    Py_XDECREF(width);
    Py_XDECREF(right);
    Py_XDECREF(shifted);
    return number;
}

/* The Decimal of the text 150E-2, which has just these digits and this exponent. */
static PyObject *decimal_of(struct state *state, const struct kohiblad_decimal *number)
{
    char text[64], *end = text + sizeof text, *at = end;
    bool is_negative = number->high < 0;
    unsigned __int128 left = (unsigned __int128)(uint64_t)number->high << 64 | number->low;
    unsigned scale = number->scale;
    if (is_negative) left = -left;
    do *--at = (char)('0' + scale % 10); while (scale /= 10);
    *--at = '-';
    *--at = 'E';
    for (; left >> 64; left /= 10)
        *--at = (char)('0' + (unsigned)(left % 10));
    uint64_t rest = (uint64_t)left;
    do *--at = (char)('0' + rest % 10); while (rest /= 10);
    if (is_negative) *--at = '-';
    PyObject *made = NULL, *written = PyUnicode_New(end - at, 127);
    if (!written) return NULL;
    memcpy(PyUnicode_1BYTE_DATA(written), at, (size_t)(end - at));
    made = PyObject_CallFunctionObjArgs(state->decimal, written, NULL);
    Py_DECREF(written);
    return made;
}

/* The value of a number's document. */
static PyObject *number_of(struct state *state, const uint8_t *bytes, size_t size)
{
    struct kohiblad_decimal number = state->library.as_decimal(bytes, size);
    if (number.status) return raise_status(state, number.status);
    if (number.scale == 0) return whole_number_of(number.high, number.low);
    return decimal_of(state, &number);
}

/* What the package makes of an extension value's document. */
static PyObject *extension_of(struct state *state, const uint8_t *bytes, size_t size)
{
    struct kohiblad_extension_value it = state->library.as_extension(bytes, size);
    if (it.status) return raise_status(state, it.status);
    return PyObject_CallFunction(state->extension_of, "kLiiiy#", (unsigned long)it.tag,
                                 (long long)it.value, (int)it.months, (int)it.days, (int)it.seconds,
                                 (const char *)bytes + it.offset, (Py_ssize_t)it.length);
}

/* The scalar of a part that is first copied as a document. */
static PyObject *copied_scalar_of(struct state *state, uint32_t type, const uint8_t *payload,
                                  size_t size)
{
    uint8_t near[NUMBER_SIZE], *document = near;
    size_t room = size + 8, length;
    if (room > sizeof near && !(document = PyMem_Malloc(room))) return PyErr_NoMemory();
    PyObject *scalar = NULL;
    uint32_t status = state->library.copy(type, payload, size, document, room, &length);
    if (status) raise_status(state, status);
    else if (type == KOHIBLAD_TYPE_NUMBER) scalar = number_of(state, document, length);
    else scalar = extension_of(state, document, length);
    if (document != near) PyMem_Free(document);
    return scalar;
}

/* The scalar at a place. */
static PyObject *scalar_of(struct state *state, uint32_t type, const uint8_t *payload, size_t size)
{
    switch (type) {
    case KOHIBLAD_TYPE_NULL:
        Py_RETURN_NONE;
    case KOHIBLAD_TYPE_FALSE:
        Py_RETURN_FALSE;
    case KOHIBLAD_TYPE_TRUE:
        Py_RETURN_TRUE;
    case KOHIBLAD_TYPE_STRING:
        return PyUnicode_DecodeUTF8((const char *)payload, (Py_ssize_t)size, NULL);
    default:
        return copied_scalar_of(state, type, payload, size);
    }
}

PyObject *child_of(struct state *state, const uint8_t *bytes, const struct kohiblad_place *place)
{
    const uint8_t *payload = bytes + place->offset;
    if (place->type != KOHIBLAD_TYPE_CONTAINER)
        return scalar_of(state, place->type, payload, place->length);
    PyObject *data = PyBytes_FromStringAndSize((const char *)payload, (Py_ssize_t)place->length);
    if (!data) return NULL;
    PyObject *document = document_of(state, data);
    Py_DECREF(data);
    return document;
}

/* The value of a scalar's document. */
static PyObject *value_of_scalar(struct state *state, const uint8_t *bytes, size_t size,
                                 uint32_t kind)
{
    struct kohiblad_place text;
    struct kohiblad_truth truth;
    switch (kind) {
    case KOHIBLAD_NULL:
        Py_RETURN_NONE;
    case KOHIBLAD_BOOLEAN:
        truth = state->library.as_boolean(bytes, size);
        if (truth.status) return raise_status(state, truth.status);
        return PyBool_FromLong((long)truth.value);
    case KOHIBLAD_NUMBER:
        return number_of(state, bytes, size);
    case KOHIBLAD_STRING:
        text = state->library.as_string(bytes, size);
        if (text.status) return raise_status(state, text.status);
        return PyUnicode_DecodeUTF8((const char *)bytes + text.offset, (Py_ssize_t)text.length,
                                    NULL);
    default:
        return extension_of(state, bytes, size);
    }
}

/* A container whose children are being read. */
struct level {
    const uint8_t *bytes;
    size_t size;
    struct kohiblad_cursor cursor;
    PyObject *made; /* the list or dict, which its own container has too */
    bool is_object;
};

#define NEAR_LEVELS 16

/* The containers around a child, the innermost last. They are no calls of C, since documents nest
 * deeper than a thread may have stack for. */
struct levels {
    struct level *at;
    size_t count, room;
    struct level near[NEAR_LEVELS];
};

/* Opens a container and returns its list or dict. NULL with an exception. */
static PyObject *push_level(struct state *state, struct levels *levels, const uint8_t *bytes,
                            size_t size)
{
    if (levels->count == levels->room) {
        struct level *more = PyMem_Malloc(2 * levels->room * sizeof *more);
        if (!more) return PyErr_NoMemory();
        memcpy(more, levels->at, levels->count * sizeof *more);
        if (levels->at != levels->near) PyMem_Free(levels->at);
        levels->at = more;
        levels->room *= 2;
    }
    struct level *level = &levels->at[levels->count];
    uint32_t status = state->library.begin(bytes, size, &level->cursor);
    if (status) return raise_status(state, status);
    level->bytes = bytes;
    level->size = size;
    level->is_object = state->library.kind(bytes, size).kind == KOHIBLAD_OBJECT;
    level->made = level->is_object ? PyDict_New() : PyList_New(0);
    if (!level->made) return NULL;
    levels->count++;
    return Py_NewRef(level->made);
}

/* Reads one child of the innermost container, and closes the container after the last. */
static bool read_child(struct state *state, struct levels *levels)
{
    struct level *level = &levels->at[levels->count - 1];
    struct kohiblad_place key, place;
    uint32_t status = state->library.next(level->bytes, level->size, &level->cursor, &key, &place);
    if (status == KOHIBLAD_NONE) {
        Py_DECREF(level->made);
        levels->count--;
        return true;
    }
    if (status) return raise_status(state, status) != NULL;
    const uint8_t *bytes = level->bytes, *payload = bytes + place.offset;
    bool is_object = level->is_object;
    /* The container outlives what opening a child does, since it is on the list of levels. */
    PyObject *made = level->made, *name = NULL;
    if (is_object && !(name = name_of(state, bytes + key.offset, key.length))) return false;
    PyObject *child = place.type == KOHIBLAD_TYPE_CONTAINER
        ? push_level(state, levels, payload, place.length)
        : scalar_of(state, place.type, payload, place.length);
    bool is_put = child && (is_object ? PyDict_SetItem(made, name, child)
                                      : PyList_Append(made, child)) == 0;
    Py_XDECREF(child);
    Py_XDECREF(name);
    return is_put;
}

PyObject *value_of(struct state *state, const uint8_t *bytes, size_t size)
{
    struct kohiblad_value_kind kind = state->library.kind(bytes, size);
    if (kind.status) return raise_status(state, kind.status);
    if (kind.kind != KOHIBLAD_ARRAY && kind.kind != KOHIBLAD_OBJECT)
        return value_of_scalar(state, bytes, size, kind.kind);
    struct levels levels;
    levels.at = levels.near;
    levels.count = 0;
    levels.room = NEAR_LEVELS;
    PyObject *value = push_level(state, &levels, bytes, size);
    size_t count = 0;
    while (value && levels.count)
        if (!read_child(state, &levels) || !may_go_on(&count)) Py_CLEAR(value);
    while (levels.count)
        Py_DECREF(levels.at[--levels.count].made);
    if (levels.at != levels.near) PyMem_Free(levels.at);
    return value;
}

PyObject *native_value(PyObject *module, PyObject *data)
{
    struct state *state = state_of(module);
    struct input input;
    if (!state || !open_data(data, &input)) return NULL;
    return value_of(state, input.at, input.size);
}

PyObject *native_kind(PyObject *module, PyObject *data)
{
    struct state *state = state_of(module);
    struct input input;
    if (!state || !open_data(data, &input)) return NULL;
    return PyLong_FromUnsignedLong(state->library.kind(input.at, input.size).kind);
}

PyObject *native_count(PyObject *module, PyObject *data)
{
    struct state *state = state_of(module);
    struct input input;
    if (!state || !open_data(data, &input)) return NULL;
    return PyLong_FromUnsignedLongLong(state->library.kind(input.at, input.size).count);
}

/* Finds a member by its name. -1 with an exception, 0 if there is none. */
static int find_member(struct state *state, const struct input *input, PyObject *name,
                       struct kohiblad_place *place)
{
    if (!PyUnicode_Check(name)) {
        PyErr_Format(PyExc_TypeError, "a str is needed, not %.200s", Py_TYPE(name)->tp_name);
        return -1;
    }
    PyObject *owner = NULL;
    const uint8_t *at;
    Py_ssize_t size;
    if (PyUnicode_IS_COMPACT_ASCII(name)) {
        at = PyUnicode_1BYTE_DATA(name);
        size = PyUnicode_GET_LENGTH(name);
    } else {
        owner = PyUnicode_AsUTF8String(name);
        if (!owner) {
            /* Half of a surrogate pair is in no name of a member. */
            if (!PyErr_ExceptionMatches(PyExc_UnicodeEncodeError)) return -1;
            PyErr_Clear();
            return 0;
        }
        at = (const uint8_t *)PyBytes_AS_STRING(owner);
        size = PyBytes_GET_SIZE(owner);
    }
    *place = state->library.find_key(input->at, input->size, at, (size_t)size);
    Py_XDECREF(owner);
    return place->status == KOHIBLAD_OK;
}

PyObject *native_member(PyObject *module, PyObject *const *arguments, Py_ssize_t count)
{
    struct state *state = state_of(module);
    struct input input;
    struct kohiblad_place place;
    if (!state || !has_count(count, 2) || !open_data(arguments[0], &input)) return NULL;
    int is_found = find_member(state, &input, arguments[1], &place);
    if (is_found < 0) return NULL;
    if (is_found) return child_of(state, input.at, &place);
    return raise_made(PyObject_CallFunctionObjArgs(PyExc_KeyError, arguments[1], NULL));
}

PyObject *native_contains(PyObject *module, PyObject *const *arguments, Py_ssize_t count)
{
    struct state *state = state_of(module);
    struct input input;
    struct kohiblad_place place;
    if (!state || !has_count(count, 2) || !open_data(arguments[0], &input)) return NULL;
    int is_found = find_member(state, &input, arguments[1], &place);
    return is_found < 0 ? NULL : PyBool_FromLong(is_found);
}

PyObject *native_item(PyObject *module, PyObject *const *arguments, Py_ssize_t count)
{
    struct state *state = state_of(module);
    struct input input;
    if (!state || !has_count(count, 2) || !open_data(arguments[0], &input)) return NULL;
    int is_past;
    long long index = PyLong_AsLongLongAndOverflow(arguments[1], &is_past);
    if (index == -1 && PyErr_Occurred()) return NULL;
    uint64_t items = state->library.kind(input.at, input.size).count;
    if (index < 0) index += (long long)items;
    if (is_past || index < 0 || (uint64_t)index >= items) {
        PyErr_SetString(PyExc_IndexError, "array index out of range");
        return NULL;
    }
    struct kohiblad_place place = state->library.find_index(input.at, input.size, (size_t)index);
    if (place.status) return raise_status(state, place.status);
    return child_of(state, input.at, &place);
}

/* What an iterator returns of each child. */
enum what { NAMES, VALUES, PAIRS };

struct walk {
    PyObject_HEAD
    PyObject *module; /* which has the state */
    PyObject *data;
    struct kohiblad_cursor cursor;
    enum what what;
};

static PyObject *walk_over(PyObject *module, PyObject *data, enum what what)
{
    struct state *state = state_of(module);
    struct input input;
    if (!state || !open_data(data, &input)) return NULL;
    struct walk *walk = PyObject_New(struct walk, state->walk);
    if (!walk) return NULL;
    walk->module = Py_NewRef(module);
    walk->data = Py_NewRef(data);
    walk->what = what;
    uint32_t status = state->library.begin(input.at, input.size, &walk->cursor);
    if (!status) return (PyObject *)walk;
    Py_DECREF(walk);
    return raise_status(state, status);
}

static PyObject *walk_next(PyObject *self)
{
    struct walk *walk = (struct walk *)self;
    struct state *state = state_of(walk->module);
    struct input input;
    struct kohiblad_place key, place;
    if (!state || !open_data(walk->data, &input)) return NULL;
    uint32_t status = state->library.next(input.at, input.size, &walk->cursor, &key, &place);
    if (status == KOHIBLAD_NONE) return NULL;
    if (status) return raise_status(state, status);
    if (walk->what == VALUES) return child_of(state, input.at, &place);
    PyObject *name = name_of(state, input.at + key.offset, key.length);
    if (!name || walk->what == NAMES) return name;
    PyObject *child = child_of(state, input.at, &place), *pair = NULL;
    if (child) pair = PyTuple_Pack(2, name, child);
    Py_DECREF(name);
    Py_XDECREF(child);
    return pair;
}

static void walk_free(PyObject *self)
{
    struct walk *walk = (struct walk *)self;
    PyTypeObject *type = Py_TYPE(self);
    Py_DECREF(walk->module);
    Py_DECREF(walk->data);
    PyObject_Free(self);
    Py_DECREF(type);
}

static PyType_Slot walk_slots[] = {
    { Py_tp_dealloc, walk_free },
    { Py_tp_iter, PyObject_SelfIter },
    { Py_tp_iternext, walk_next },
    { 0, NULL },
};

PyType_Spec walk_spec = {
    "kohiblad._native.Walk", sizeof (struct walk), 0, Py_TPFLAGS_DEFAULT, walk_slots,
};

PyObject *native_names(PyObject *module, PyObject *data)
{
    return walk_over(module, data, NAMES);
}

PyObject *native_values(PyObject *module, PyObject *data)
{
    return walk_over(module, data, VALUES);
}

PyObject *native_pairs(PyObject *module, PyObject *data)
{
    return walk_over(module, data, PAIRS);
}
