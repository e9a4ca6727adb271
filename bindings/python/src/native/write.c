/* Python values as documents, by the JSON text of them.
 *
 * The text is written here for values of None, bool, int, Decimal, str, dict, list and tuple. Other
 * scalars, as a datetime, and documents are written by the package. Some are documents and not
 * texts: then only the containers around them are built of their children's documents, which needs
 * marks of where each child's text is. So values are first written without marks.
 *
 * Of values with other containers, and of some that are to be refused, these functions return None,
 * and the package takes the value: so what is refused is refused in one place. */
#include "native.h"

#include <string.h>

/* A text that is being written. */
struct written {
    char *at;
    size_t size, room;
    char near[NEAR_SIZE];
};

enum outcome { FAILED = -1, OTHER = 0, WRITTEN = 1, OPENED = 2 };

static bool make_room(struct written *text, size_t more)
{
    if (more <= text->room - text->size) return true;
    if (more > (size_t)PY_SSIZE_T_MAX / 4 || text->room > (size_t)PY_SSIZE_T_MAX / 4) {
        PyErr_NoMemory();
        return false;
    }
    size_t room = 2 * text->room + more;
    char *at = PyMem_Realloc(text->at == text->near ? NULL : text->at, room);
    if (!at) {
        PyErr_NoMemory();
        return false;
    }
    if (text->at == text->near) memcpy(at, text->near, text->size);
    text->at = at;
    text->room = room;
    return true;
}

static bool write_bytes(struct written *text, const char *bytes, size_t size)
{
    if (!make_room(text, size)) return false;
    memcpy(text->at + text->size, bytes, size);
    text->size += size;
    return true;
}

/* Whether a character is written as an escape. */
static bool is_escaped(Py_UCS4 letter)
{
    return letter < 0x20 || letter == '"' || letter == '\\';
}

static char *write_escape(char *at, Py_UCS4 letter)
{
    static const char digits[] = "0123456789abcdef";
    *at++ = '\\';
    if (letter >= 0x20) {
        *at++ = (char)letter;
        return at;
    }
    memcpy(at, "u00", 3);
    at[3] = digits[letter >> 4];
    at[4] = digits[letter & 15];
    return at + 5;
}

static char *write_utf8(char *at, Py_UCS4 letter)
{
    if (letter < 0x80) {
        *at++ = (char)letter;
        return at;
    }
    if (letter < 0x800) {
        *at++ = (char)(0xC0 | letter >> 6);
    } else {
        if (letter < 0x10000) {
            *at++ = (char)(0xE0 | letter >> 12);
        } else {
            *at++ = (char)(0xF0 | letter >> 18);
            *at++ = (char)(0x80 | (letter >> 12 & 0x3F));
        }
        *at++ = (char)(0x80 | (letter >> 6 & 0x3F));
    }
    *at++ = (char)(0x80 | (letter & 0x3F));
    return at;
}

/* The most bytes that the letters of a str are written as; for a long one, just as many. */
static size_t size_of_letters(PyObject *value, Py_ssize_t length)
{
    /* An escape takes six bytes, and no letter more. */
    if (length <= NEAR_SIZE) return 6 * (size_t)length;
    int kind = PyUnicode_KIND(value);
    const void *letters = PyUnicode_DATA(value);
    size_t size = 0;
    for (Py_ssize_t i = 0; i < length; i++) {
        Py_UCS4 letter = PyUnicode_READ(kind, letters, i);
        size += is_escaped(letter) ? 6
            : 1 + (size_t)(letter >= 0x80) + (letter >= 0x800) + (letter >= 0x10000);
    }
    return size;
}

/* Writes a str. OTHER: it has half of a surrogate pair. */
static enum outcome write_str(struct written *text, PyObject *value)
{
#if PY_VERSION_HEX < 0x030C0000
    if (PyUnicode_READY(value)) return FAILED;
#endif
    Py_ssize_t length = PyUnicode_GET_LENGTH(value);
    if (!make_room(text, size_of_letters(value, length) + 2)) return FAILED;
    char *at = text->at + text->size;
    *at++ = '"';
    if (PyUnicode_IS_ASCII(value)) {
        const Py_UCS1 *letters = PyUnicode_1BYTE_DATA(value);
        for (Py_ssize_t i = 0; i < length; i++) {
            if (is_escaped(letters[i])) at = write_escape(at, letters[i]);
            else *at++ = (char)letters[i];
        }
    } else {
        int kind = PyUnicode_KIND(value);
        const void *letters = PyUnicode_DATA(value);
        for (Py_ssize_t i = 0; i < length; i++) {
            Py_UCS4 letter = PyUnicode_READ(kind, letters, i);
            if (letter >= 0xD800 && letter < 0xE000) return OTHER;
            at = is_escaped(letter) ? write_escape(at, letter) : write_utf8(at, letter);
        }
    }
    *at++ = '"';
    text->size = (size_t)(at - text->at);
    return WRITTEN;
}

/* Writes what a function of the package writes of a number, which may refuse it. */
static enum outcome write_by(struct written *text, PyObject *function, PyObject *number)
{
    PyObject *written = PyObject_CallFunctionObjArgs(function, number, NULL);
    if (!written) return FAILED;
    Py_ssize_t size;
    const char *bytes = PyUnicode_AsUTF8AndSize(written, &size);
    bool is_written = bytes && write_bytes(text, bytes, (size_t)size);
    Py_DECREF(written);
    return is_written ? WRITTEN : FAILED;
}

static enum outcome write_int(struct state *state, struct written *text, PyObject *value)
{
    int is_past;
    long long number = PyLong_AsLongLongAndOverflow(value, &is_past);
    if (is_past) return write_by(text, state->text_of_int, value);
    char digits[24], *end = digits + sizeof digits, *at = end;
    unsigned long long left = number < 0 ? -(unsigned long long)number : (unsigned long long)number;
    do *--at = (char)('0' + left % 10); while (left /= 10);
    if (number < 0) *--at = '-';
    return write_bytes(text, at, (size_t)(end - at)) ? WRITTEN : FAILED;
}

/* Writes a Decimal: its text if that is short and has no exponent, as the package does. */
static enum outcome write_decimal(struct state *state, struct written *text, PyObject *value)
{
    PyObject *written = PyObject_Str(value);
    if (!written) return FAILED;
    bool is_plain = PyUnicode_IS_COMPACT_ASCII(written) && PyUnicode_GET_LENGTH(written) < 39;
    Py_ssize_t size = PyUnicode_GET_LENGTH(written);
    const char *letters = is_plain ? (const char *)PyUnicode_1BYTE_DATA(written) : NULL;
    for (Py_ssize_t i = 0; is_plain && i < size; i++)
        is_plain = (letters[i] >= '0' && letters[i] <= '9') || letters[i] == '.'
            || letters[i] == '-';
    enum outcome outcome = is_plain ? WRITTEN : OTHER;
    if (is_plain && !write_bytes(text, letters, (size_t)size)) outcome = FAILED;
    Py_DECREF(written);
    return outcome == OTHER ? write_by(text, state->text_of_decimal, value) : outcome;
}

/* Writes a scalar. OPENED: the value is a dict, a list or a tuple. OTHER: it is of another type. */
static enum outcome write_scalar(struct state *state, struct written *text, PyObject *value)
{
    PyTypeObject *type = Py_TYPE(value);
    if (type == &PyUnicode_Type) return write_str(text, value);
    if (type == &PyLong_Type) return write_int(state, text, value);
    if (type == (PyTypeObject *)state->decimal) return write_decimal(state, text, value);
    if (value == Py_None) return write_bytes(text, "null", 4) ? WRITTEN : FAILED;
    if (value == Py_True) return write_bytes(text, "true", 4) ? WRITTEN : FAILED;
    if (value == Py_False) return write_bytes(text, "false", 5) ? WRITTEN : FAILED;
    if (type == &PyDict_Type || type == &PyList_Type || type == &PyTuple_Type) return OPENED;
    return OTHER;
}

/* A container whose children are being written. */
struct opened {
    PyObject *container;
    Py_ssize_t place;   /* of the next child */
    Py_ssize_t count;   /* the members that a dict had at first */
    size_t start;       /* where its text begins */
    size_t first;       /* the number of its first child's mark */
    bool is_first;      /* no child was written yet */
    bool has_documents; /* a child is a document, so the text says less than all */
};

/* A child that was written or is being written: of the containers that are open, and the value. */
struct mark {
    PyObject *name;     /* of a member, or NULL */
    PyObject *document; /* or NULL: the child is the text from start to end */
    size_t start, end;
};

#define NEAR_OPENED 16

/* What is being written. */
struct writing {
    struct state *state;
    size_t values; /* that were seen so far */
    struct written text;
    struct opened *opened; /* the containers, the innermost last */
    size_t count, room;
    bool has_marks;
    struct mark *marks;
    size_t mark_count, mark_room;
    struct opened near[NEAR_OPENED];
};

/* Opens a container. OTHER: it nests too deep. */
static enum outcome open_container(struct writing *writing, PyObject *value)
{
    if (writing->count == MOST_DEPTH) return OTHER;
    if (writing->count == writing->room) {
        struct opened *more = PyMem_Malloc(2 * writing->room * sizeof *more);
        if (!more) {
            PyErr_NoMemory();
            return FAILED;
        }
        memcpy(more, writing->opened, writing->count * sizeof *more);
        if (writing->opened != writing->near) PyMem_Free(writing->opened);
        writing->opened = more;
        writing->room *= 2;
    }
    bool is_dict = PyDict_CheckExact(value);
    size_t start = writing->text.size;
    if (!write_bytes(&writing->text, is_dict ? "{" : "[", 1)) return FAILED;
    writing->opened[writing->count++] = (struct opened){
        Py_NewRef(value), 0, is_dict ? PyDict_Size(value) : 0, start, writing->mark_count, true,
        false };
    return WRITTEN;
}

/* Marks that a child begins here. Takes the reference to the name. */
static bool push_mark(struct writing *writing, PyObject *name)
{
    if (writing->mark_count == writing->mark_room) {
        size_t room = 2 * writing->mark_room + 16;
        struct mark *more = room > PY_SSIZE_T_MAX / sizeof *more ? NULL
            : PyMem_Realloc(writing->marks, room * sizeof *more);
        if (!more) {
            Py_XDECREF(name);
            PyErr_NoMemory();
            return false;
        }
        writing->marks = more;
        writing->mark_room = room;
    }
    size_t at = writing->text.size;
    writing->marks[writing->mark_count++] = (struct mark){ name, NULL, at, at };
    return true;
}

static void drop_marks(struct writing *writing, size_t count)
{
    while (writing->mark_count > count) {
        struct mark *mark = &writing->marks[--writing->mark_count];
        Py_XDECREF(mark->name);
        Py_XDECREF(mark->document);
    }
}

/* Ends the child of the last mark: it is what was written since, or a document, whose reference is
 * taken. */
static void end_mark(struct writing *writing, PyObject *document)
{
    struct mark *mark = &writing->marks[writing->mark_count - 1];
    mark->end = writing->text.size;
    mark->document = document;
    if (document && writing->count) writing->opened[writing->count - 1].has_documents = true;
}

/* Writes a scalar of another type, or a document inside the value. OTHER: it is a container. */
static enum outcome write_other(struct writing *writing, PyObject *value)
{
    PyObject *level = PyLong_FromSize_t(writing->count);
    if (!level) return FAILED;
    PyObject *encoded = PyObject_CallFunctionObjArgs(writing->state->encode_other, value, level,
                                                     NULL);
    Py_DECREF(level);
    if (!encoded) return FAILED;
    if (PyBytes_CheckExact(encoded)) {
        end_mark(writing, encoded);
        return WRITTEN;
    }
    enum outcome outcome = OTHER;
    if (PyUnicode_Check(encoded)) {
        /* A text with half of a surrogate pair is refused when the package takes the value. */
        PyObject *bytes = PyUnicode_AsUTF8String(encoded);
        if (bytes) {
            outcome = write_bytes(&writing->text, PyBytes_AS_STRING(bytes),
                                  (size_t)PyBytes_GET_SIZE(bytes)) ? WRITTEN : FAILED;
            if (outcome == WRITTEN) end_mark(writing, NULL);
            Py_DECREF(bytes);
        } else if (PyErr_ExceptionMatches(PyExc_UnicodeEncodeError)) {
            PyErr_Clear();
        } else {
            outcome = FAILED;
        }
    }
    Py_DECREF(encoded);
    return outcome;
}

/* Rows, one after another, and where each ends. */
struct rows {
    struct written bytes;
    size_t *offsets;
    size_t count;
};

static bool write_row(struct rows *rows, const void *bytes, size_t size)
{
    if (!write_bytes(&rows->bytes, bytes, size)) return false;
    rows->offsets[++rows->count] = rows->bytes.size;
    return true;
}

/* Writes the rows of a child: its name if it has one, and its document. */
static bool write_rows(struct writing *writing, struct rows *rows, const struct mark *mark)
{
    if (mark->name) {
        PyObject *name = PyUnicode_AsUTF8String(mark->name);
        bool is_written = name && write_row(rows, PyBytes_AS_STRING(name),
                                            (size_t)PyBytes_GET_SIZE(name));
        Py_XDECREF(name);
        if (!is_written) return false;
    }
    if (mark->document) {
        const char *bytes = PyBytes_AS_STRING(mark->document);
        size_t size = (size_t)PyBytes_GET_SIZE(mark->document);
        size_t depth = depth_left(KOHIBLAD_LEVEL_STACK);
        if (fits(writing->state, (const uint8_t *)bytes, size, depth))
            return write_row(rows, bytes, size);
        raise_too_deep(writing->state, depth);
        return false;
    }
    struct input input = { NULL, (const uint8_t *)writing->text.at + mark->start,
                           mark->end - mark->start };
    struct room room;
    if (!parse_into(writing->state, &input, MOST_DEPTH, true, &room)) return false;
    bool is_written = write_row(rows, room.at, room.length);
    close_room(&room);
    return is_written;
}

/* Builds the innermost container of its children's documents. */
static PyObject *build(struct writing *writing)
{
    const struct opened *opened = &writing->opened[writing->count - 1];
    const struct library *library = &writing->state->library;
    struct rows rows;
    rows.bytes.at = rows.bytes.near;
    rows.bytes.size = rows.count = 0;
    rows.bytes.room = sizeof rows.bytes.near;
    size_t most = 2 * (writing->mark_count - opened->first) + 1;
    rows.offsets = PyMem_Malloc(most * sizeof *rows.offsets);
    bool is_fit = rows.offsets != NULL;
    if (!is_fit) PyErr_NoMemory();
    else rows.offsets[0] = 0;
    for (size_t i = opened->first; is_fit && i < writing->mark_count; i++)
        is_fit = may_go_on(&writing->values) && write_rows(writing, &rows, &writing->marks[i]);
    PyObject *built = NULL;
    size_t length = rows.bytes.size + 4 * rows.count + 8;
    uint32_t status = KOHIBLAD_NO_ROOM;
    while (is_fit && status == KOHIBLAD_NO_ROOM) {
        size_t room = length;
        Py_XDECREF(built);
        built = PyBytes_FromStringAndSize(NULL, (Py_ssize_t)room);
        if (!built) break;
        /* No row nests as deep as all have bytes. */
        status = (PyDict_CheckExact(opened->container) ? library->build_object
                  : library->build_array)((const uint8_t *)rows.bytes.at, rows.bytes.size,
                                          rows.offsets, rows.count + 1, rows.bytes.size,
                                          (uint8_t *)PyBytes_AS_STRING(built), room,
                                          &length);
    }
    if (built && status == KOHIBLAD_OK) {
        _PyBytes_Resize(&built, (Py_ssize_t)length); /* NULL with an exception: no memory */
    } else if (built) {
        Py_CLEAR(built);
        raise_status(writing->state, status);
    }
    if (rows.bytes.at != rows.bytes.near) PyMem_Free(rows.bytes.at);
    PyMem_Free(rows.offsets);
    return built;
}

/* Closes the innermost container. */
static bool close_container(struct writing *writing)
{
    struct opened *opened = &writing->opened[writing->count - 1];
    PyObject *document = NULL;
    if (opened->has_documents) {
        document = build(writing);
        if (!document) return false;
        writing->text.size = opened->start;
    } else if (!write_bytes(&writing->text, PyDict_CheckExact(opened->container) ? "}" : "]", 1)) {
        return false;
    }
    drop_marks(writing, opened->first);
    writing->count--;
    Py_DECREF(opened->container);
    if (writing->has_marks) end_mark(writing, document);
    return true;
}

/* The next child of a container, with its name if it has one: new references. NULL: there is none,
 * or with an exception the container was changed. */
static PyObject *next_child(struct opened *opened, PyObject **name)
{
    PyObject *container = opened->container, *value = NULL;
    *name = NULL;
    if (PyDict_CheckExact(container)) {
        if (PyDict_Size(container) != opened->count) {
            PyErr_SetString(PyExc_RuntimeError, "dictionary changed size during iteration");
            return NULL;
        }
        if (!PyDict_Next(container, &opened->place, name, &value)) return NULL;
        Py_INCREF(*name);
        return Py_NewRef(value);
    }
    if (PyList_CheckExact(container)) {
        if (opened->place < PyList_GET_SIZE(container))
            value = PyList_GET_ITEM(container, opened->place++);
    } else if (opened->place < PyTuple_GET_SIZE(container)) {
        value = PyTuple_GET_ITEM(container, opened->place++);
    }
    Py_XINCREF(value);
    return value;
}

/* Goes on to the next value, after the comma and the name before it; closes the containers that
 * have no more. OPENED: *value is a new reference to the next. WRITTEN: all is written. */
static enum outcome go_on(struct writing *writing, PyObject **value)
{
    while (writing->count) {
        struct opened *opened = &writing->opened[writing->count - 1];
        PyObject *name;
        *value = next_child(opened, &name);
        if (!*value) {
            if (PyErr_Occurred() || !close_container(writing)) return FAILED;
            continue;
        }
        enum outcome outcome = WRITTEN;
        if (!opened->is_first && !write_bytes(&writing->text, ",", 1)) outcome = FAILED;
        opened->is_first = false;
        if (name && outcome == WRITTEN) {
            outcome = PyUnicode_CheckExact(name) ? write_str(&writing->text, name) : OTHER;
            if (outcome == WRITTEN && !write_bytes(&writing->text, ":", 1)) outcome = FAILED;
        }
        if (outcome == WRITTEN && writing->has_marks) {
            if (!push_mark(writing, name)) outcome = FAILED;
        } else {
            Py_XDECREF(name);
        }
        if (outcome == WRITTEN) return OPENED;
        Py_CLEAR(*value);
        return outcome;
    }
    return WRITTEN;
}

/* Writes a value. OTHER: the package is to take it, or without marks, marks are needed. */
static enum outcome write_value(struct writing *writing, PyObject *value)
{
    enum outcome outcome = OPENED;
    if (writing->has_marks && !push_mark(writing, NULL)) return FAILED;
    Py_INCREF(value);
    while (outcome == OPENED) {
        outcome = may_go_on(&writing->values)
            ? write_scalar(writing->state, &writing->text, value) : FAILED;
        if (outcome == OPENED)
            outcome = open_container(writing, value);
        else if (outcome == WRITTEN && writing->has_marks)
            end_mark(writing, NULL);
        else if (outcome == OTHER && writing->has_marks)
            outcome = write_other(writing, value);
        Py_DECREF(value);
        if (outcome == WRITTEN) outcome = go_on(writing, &value);
    }
    return outcome;
}

/* The document of a value in a room. OTHER and FAILED: the room is closed. */
static enum outcome document_into(struct state *state, PyObject *value, struct room *room)
{
    struct writing writing;
    writing.state = state;
    writing.values = 0;
    writing.text.at = writing.text.near;
    writing.text.size = 0;
    writing.text.room = sizeof writing.text.near;
    writing.opened = writing.near;
    writing.count = 0;
    writing.room = NEAR_OPENED;
    writing.has_marks = false;
    writing.marks = NULL;
    writing.mark_count = writing.mark_room = 0;
    enum outcome outcome = write_value(&writing, value);
    if (outcome == OTHER) {
        while (writing.count)
            Py_DECREF(writing.opened[--writing.count].container);
        writing.text.size = 0;
        writing.has_marks = true;
        outcome = write_value(&writing, value);
    }
    if (outcome == WRITTEN && writing.has_marks && writing.marks[0].document) {
        PyObject *document = Py_NewRef(writing.marks[0].document);
        room->bytes = document;
        room->at = (uint8_t *)PyBytes_AS_STRING(document);
        room->size = room->length = (size_t)PyBytes_GET_SIZE(document);
    } else if (outcome == WRITTEN) {
        struct input input = { NULL, (const uint8_t *)writing.text.at, writing.text.size };
        if (!parse_into(state, &input, MOST_DEPTH, true, room)) outcome = FAILED;
    }
    while (writing.count)
        Py_DECREF(writing.opened[--writing.count].container);
    drop_marks(&writing, 0);
    PyMem_Free(writing.marks);
    if (writing.opened != writing.near) PyMem_Free(writing.opened);
    if (writing.text.at != writing.text.near) PyMem_Free(writing.text.at);
    return outcome;
}

PyObject *native_of(PyObject *module, PyObject *value)
{
    struct state *state = state_of(module);
    struct room room;
    if (!state) return NULL;
    switch (document_into(state, value, &room)) {
    case WRITTEN:
        return document_of_room(state, &room);
    case FAILED:
        return NULL;
    default:
        Py_RETURN_NONE;
    }
}

PyObject *native_dumps(PyObject *module, PyObject *value)
{
    struct state *state = state_of(module);
    struct room room, written;
    bool failed;
    if (!state) return NULL;
    enum outcome outcome = document_into(state, value, &room);
    if (outcome == FAILED) return NULL;
    if (outcome == OTHER) Py_RETURN_NONE;
    uint32_t status = call_into(state, CALL_TO_STRING, room.at, room.length, 0, false, &written,
                                &failed);
    close_room(&room);
    if (status) return raise_status(state, status);
    return failed ? NULL : str_of_room(&written);
}

PyObject *native_of_extension(PyObject *module, PyObject *const *arguments, Py_ssize_t count)
{
    struct state *state = state_of(module);
    struct input data;
    uint8_t near[64];
    size_t length;
    if (!state || !has_count(count, 6) || !open_data(arguments[5], &data)) return NULL;
    uint32_t tag = (uint32_t)PyLong_AsUnsignedLongMask(arguments[0]);
    int64_t value = PyLong_AsLongLong(arguments[1]);
    int32_t fields[3];
    for (int i = 0; i < 3 && !PyErr_Occurred(); i++)
        fields[i] = (int32_t)PyLong_AsLong(arguments[2 + i]);
    if (PyErr_Occurred()) return NULL;
    PyObject *document = NULL;
    size_t room = data.size + 32;
    if (room > sizeof near) {
        document = PyBytes_FromStringAndSize(NULL, (Py_ssize_t)room);
        if (!document) return NULL;
    }
    uint32_t status = state->library.of_extension(
        tag, value, fields[0], fields[1], fields[2], data.at, data.size,
        document ? (uint8_t *)PyBytes_AS_STRING(document) : near, room, &length);
    if (status) {
        Py_XDECREF(document);
        return raise_status(state, status);
    }
    if (!document) return PyBytes_FromStringAndSize((const char *)near, (Py_ssize_t)length);
    _PyBytes_Resize(&document, (Py_ssize_t)length); /* NULL with an exception: no memory */
    return document;
}
