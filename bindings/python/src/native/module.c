/* The module itself: what the package hands over, and the calls whose results are bytes. */
#include "native.h"

#include <string.h>

static const struct { const char *name; size_t offset; } exports[] = {
#define ROW(name) { #name, offsetof(struct library, name) },
    EXPORTS(ROW)
};

static const struct { const char *name; size_t offset; } objects[] = {
#define OBJECT(name) { #name, offsetof(struct state, name) }
    OBJECT(scalar_document), OBJECT(object_document), OBJECT(array_document), OBJECT(data_slot),
    OBJECT(key_slot), OBJECT(decimal), OBJECT(bytes_of_text), OBJECT(bytes_of_stored),
    OBJECT(checked_depth), OBJECT(error_of), OBJECT(fault_of), OBJECT(no_document),
    OBJECT(too_deep), OBJECT(extension_of), OBJECT(encode_other), OBJECT(text_of_int),
    OBJECT(text_of_decimal),
};

#define COUNT_OF(list) (sizeof (list) / sizeof *(list))

static PyObject **object_at(struct state *state, size_t offset)
{
    return (PyObject **)((char *)state + offset);
}

struct state *state_of(PyObject *module)
{
    struct state *state = PyModule_GetState(module);
    if (state && state->is_bound) return state;
    if (!PyErr_Occurred()) PyErr_SetString(PyExc_RuntimeError, "the module has no library yet");
    return NULL;
}

bool has_count(Py_ssize_t count, Py_ssize_t expected)
{
    if (count == expected) return true;
    PyErr_Format(PyExc_TypeError, "%zd arguments are needed, not %zd", expected, count);
    return false;
}

bool open_data(PyObject *data, struct input *input)
{
    if (!PyBytes_Check(data)) {
        PyErr_Format(PyExc_TypeError, "bytes are needed, not %.200s", Py_TYPE(data)->tp_name);
        return false;
    }
    input->owner = data;
    input->at = (const uint8_t *)PyBytes_AS_STRING(data);
    input->size = (size_t)PyBytes_GET_SIZE(data);
    return true;
}

/* The address of an export, which a function of Python returns by its name; NULL after an error. */
static void *address_of(PyObject *find, const char *name)
{
    PyObject *found = PyObject_CallFunction(find, "s", name);
    void *address = found ? PyLong_AsVoidPtr(found) : NULL;
    Py_XDECREF(found);
    if (!address && !PyErr_Occurred())
        PyErr_Format(PyExc_ValueError, "there is no export %s", name);
    return address;
}

/* bind(export_address, objects): takes the addresses of the library's exports, which a function
 * returns by their names, and what the package has for the module. ValueError: one is missing. */
static PyObject *native_bind(PyObject *module, PyObject *const *arguments, Py_ssize_t count)
{
    struct state *state = PyModule_GetState(module);
    if (!state || !has_count(count, 2)) return NULL;
    if (!PyCallable_Check(arguments[0]) || !PyDict_Check(arguments[1])) {
        PyErr_SetString(PyExc_TypeError, "a function and a dict are needed");
        return NULL;
    }
    state->is_bound = false;
    for (size_t i = 0; i < COUNT_OF(exports); i++) {
        void *address = address_of(arguments[0], exports[i].name);
        if (!address) return NULL;
        memcpy((char *)&state->library + exports[i].offset, &address, sizeof address);
    }
    for (size_t i = 0; i < COUNT_OF(objects); i++) {
        PyObject **at = object_at(state, objects[i].offset), *before = *at;
        PyObject *given = PyDict_GetItemString(arguments[1], objects[i].name);
        if (!given) {
            PyErr_Format(PyExc_ValueError, "there is no object %s", objects[i].name);
            return NULL;
        }
        Py_INCREF(given);
        *at = given;
        Py_XDECREF(before);
    }
    if (!PyType_Check(state->scalar_document) || !PyType_Check(state->object_document)
        || !PyType_Check(state->array_document) || !PyType_Check(state->decimal)
        || !Py_TYPE(state->data_slot)->tp_descr_set || !Py_TYPE(state->key_slot)->tp_descr_set) {
        PyErr_SetString(PyExc_TypeError, "an object is of a wrong type");
        return NULL;
    }
    state->is_bound = true;
    Py_RETURN_NONE;
}

PyObject *raise_made(PyObject *exception)
{
    if (exception) {
        PyErr_SetObject((PyObject *)Py_TYPE(exception), exception);
        Py_DECREF(exception);
    }
    return NULL;
}

PyObject *raise_status(struct state *state, uint32_t status)
{
    PyObject *number = PyLong_FromUnsignedLong(status);
    if (!number) return NULL;
    PyObject *exception = PyObject_CallFunctionObjArgs(state->error_of, number, NULL);
    Py_DECREF(number);
    return raise_made(exception);
}

static uint32_t make_call(const struct library *library, enum call call, const uint8_t *bytes,
                          size_t size, size_t depth, bool exponents, struct room *room)
{
    uint8_t *out = room->at;
    switch (call) {
    case CALL_KEY:
        return library->key(bytes, size, depth, out, room->size, &room->length);
    case CALL_PARSE:
        return library->parse(bytes, size, depth, exponents, out, room->size, &room->length);
    case CALL_TO_CANONICAL:
        return library->canonical(bytes, size, depth, out, room->size, &room->length);
    case CALL_TO_PRETTY:
        return library->pretty(bytes, size, depth, out, room->size, &room->length);
    default:
        return library->print(bytes, size, depth, out, room->size, &room->length);
    }
}

void close_room(struct room *room)
{
    Py_CLEAR(room->bytes);
}

bool open_room(struct room *room, size_t size)
{
    close_room(room);
    room->size = size > NEAR_SIZE ? size : NEAR_SIZE;
    room->at = room->near;
    if (size <= NEAR_SIZE) return true;
    if (size > (size_t)PY_SSIZE_T_MAX) {
        PyErr_NoMemory();
        return false;
    }
    room->bytes = PyBytes_FromStringAndSize(NULL, (Py_ssize_t)size);
    if (!room->bytes) return false;
    room->at = (uint8_t *)PyBytes_AS_STRING(room->bytes);
    return true;
}

uint32_t call_into(struct state *state, enum call call, const uint8_t *bytes, size_t size,
                   size_t depth, bool exponents, struct room *room, bool *failed)
{
    uint32_t status = KOHIBLAD_NO_ROOM;
    room->bytes = NULL;
    /* An indented text may be hundreds of times as long as its document: its length is asked for
     * first. */
    room->length = call == CALL_TO_PRETTY ? 0 : 2 * size + 64;
    *failed = false;
    if (call != CALL_PARSE) {
        depth = depth_left(KOHIBLAD_LEVEL_STACK);
        if (!fits(state, bytes, size, depth)) {
            raise_too_deep(state, depth);
            *failed = true;
            return KOHIBLAD_OK;
        }
    }
    while (status == KOHIBLAD_NO_ROOM) {
        if (!open_room(room, room->length)) {
            *failed = true;
            return KOHIBLAD_OK;
        }
        if (size < LONG_SIZE) {
            status = make_call(&state->library, call, bytes, size, depth, exponents, room);
        } else {
            Py_BEGIN_ALLOW_THREADS
            status = make_call(&state->library, call, bytes, size, depth, exponents, room);
            Py_END_ALLOW_THREADS
        }
    }
    if (status != KOHIBLAD_OK) close_room(room);
    return status;
}

PyObject *bytes_of_room(struct room *room)
{
    PyObject *bytes = room->bytes;
    if (!bytes)
        return PyBytes_FromStringAndSize((const char *)room->at, (Py_ssize_t)room->length);
    room->bytes = NULL;
    _PyBytes_Resize(&bytes, (Py_ssize_t)room->length); /* NULL with an exception: no memory */
    return bytes;
}

PyObject *str_of_room(struct room *room)
{
    PyObject *text = PyUnicode_DecodeUTF8((const char *)room->at, (Py_ssize_t)room->length, NULL);
    close_room(room);
    return text;
}

PyObject *document_of_room(struct state *state, struct room *room)
{
    PyObject *data = bytes_of_room(room);
    if (!data) return NULL;
    PyObject *document = document_of(state, data);
    Py_DECREF(data);
    return document;
}

/* Raises what the package raises for a text that the library refused. */
static void refuse_text(struct state *state, const struct input *text, size_t depth,
                        bool exponents, uint32_t status)
{
    if (status != KOHIBLAD_INVALID_JSON && status != KOHIBLAD_INVALID_UTF8
        && status != KOHIBLAD_TOO_DEEP) {
        raise_status(state, status);
        return;
    }
    PyObject *data = text->owner && PyBytes_CheckExact(text->owner)
        ? Py_NewRef(text->owner)
        : PyBytes_FromStringAndSize((const char *)text->at, (Py_ssize_t)text->size);
    PyObject *number = PyLong_FromSize_t(depth);
    if (data && number)
        raise_made(PyObject_CallFunctionObjArgs(state->fault_of, data, number,
                                                exponents ? Py_True : Py_False, NULL));
    Py_XDECREF(data);
    Py_XDECREF(number);
}

bool parse_into(struct state *state, const struct input *text, size_t depth, bool exponents,
                struct room *room)
{
    bool failed;
    size_t most = depth_left(KOHIBLAD_LEVEL_STACK);
    if (depth > most) depth = most;
    uint32_t status = call_into(state, CALL_PARSE, text->at, text->size, depth, exponents, room,
                                &failed);
    if (status != KOHIBLAD_OK) refuse_text(state, text, depth, exponents, status);
    return status == KOHIBLAD_OK && !failed;
}

bool open_text(struct state *state, PyObject *text, struct input *input)
{
    PyObject *owner;
    if (PyUnicode_CheckExact(text) && PyUnicode_IS_COMPACT_ASCII(text)) {
        input->owner = Py_NewRef(text);
        input->at = PyUnicode_1BYTE_DATA(text);
        input->size = (size_t)PyUnicode_GET_LENGTH(text);
        return true;
    }
    if (PyBytes_CheckExact(text)) {
        owner = Py_NewRef(text);
    } else {
        owner = PyUnicode_CheckExact(text) ? PyUnicode_AsUTF8String(text) : NULL;
        if (!owner) {
            /* What is neither, and a text with half of a surrogate pair, are the package's. */
            if (PyErr_Occurred()) {
                if (!PyErr_ExceptionMatches(PyExc_UnicodeEncodeError)) return false;
                PyErr_Clear();
            }
            owner = PyObject_CallFunctionObjArgs(state->bytes_of_text, text, NULL);
        }
    }
    if (!owner) return false;
    if (open_data(owner, input)) return true;
    Py_DECREF(owner);
    return false;
}

bool depth_of(struct state *state, PyObject *given, size_t *depth)
{
    PyObject *checked = PyObject_CallFunctionObjArgs(state->checked_depth, given, NULL);
    if (!checked) return false;
    *depth = PyLong_AsSize_t(checked);
    Py_DECREF(checked);
    return *depth != (size_t)-1 || !PyErr_Occurred();
}

/* The same for the usual depths, with no call of Python's. */
static bool quick_depth_of(struct state *state, PyObject *given, size_t *depth)
{
    if (PyLong_CheckExact(given)) {
        int is_past;
        long number = PyLong_AsLongAndOverflow(given, &is_past);
        if (!is_past && number >= 0 && number <= MOST_DEPTH) {
            *depth = (size_t)number;
            return true;
        }
    }
    return depth_of(state, given, depth);
}

PyObject *native_parse(PyObject *module, PyObject *const *arguments, Py_ssize_t count)
{
    struct state *state = state_of(module);
    struct input text;
    struct room room;
    size_t depth;
    if (!state || !has_count(count, 3)) return NULL;
    if (!quick_depth_of(state, arguments[1], &depth)) return NULL;
    int exponents = arguments[2] == Py_True ? 1 : PyObject_IsTrue(arguments[2]);
    if (exponents < 0 || !open_text(state, arguments[0], &text)) return NULL;
    PyObject *document = NULL;
    if (parse_into(state, &text, depth, exponents, &room))
        document = document_of_room(state, &room);
    Py_DECREF(text.owner);
    return document;
}

PyObject *native_loads(PyObject *module, PyObject *given)
{
    struct state *state = state_of(module);
    struct input text;
    struct room room;
    if (!state || !open_text(state, given, &text)) return NULL;
    PyObject *value = NULL;
    bool is_parsed = parse_into(state, &text, MOST_DEPTH, true, &room);
    Py_DECREF(text.owner);
    if (is_parsed) {
        value = value_of(state, room.at, room.length);
        close_room(&room);
    }
    return value;
}

/* Raises what the package raises for bytes that are no document of a depth, within the depth that
 * they were looked at. */
static PyObject *refuse_document(struct state *state, PyObject *data, size_t depth, size_t within)
{
    PyObject *numbers[] = { PyLong_FromSize_t(depth), PyLong_FromSize_t(within) };
    if (numbers[0] && numbers[1])
        raise_made(PyObject_CallFunctionObjArgs(state->no_document, data, numbers[0], numbers[1],
                                                NULL));
    Py_XDECREF(numbers[0]);
    Py_XDECREF(numbers[1]);
    return NULL;
}

PyObject *native_check(PyObject *module, PyObject *const *arguments, Py_ssize_t count)
{
    struct state *state = state_of(module);
    struct input input;
    size_t depth;
    if (!state || !has_count(count, 2)) return NULL;
    PyObject *data = PyBytes_CheckExact(arguments[0])
        ? Py_NewRef(arguments[0])
        : PyObject_CallFunctionObjArgs(state->bytes_of_stored, arguments[0], NULL);
    PyObject *document = NULL;
    if (data && open_data(data, &input) && quick_depth_of(state, arguments[1], &depth)) {
        size_t most = depth_left(KOHIBLAD_LEVEL_STACK), within = depth < most ? depth : most;
        bool is_document;
        if (input.size < LONG_SIZE) {
            is_document = state->library.check(input.at, input.size, within);
        } else {
            Py_BEGIN_ALLOW_THREADS
            is_document = state->library.check(input.at, input.size, within);
            Py_END_ALLOW_THREADS
        }
        document = is_document ? document_of(state, data)
                               : refuse_document(state, data, depth, within);
    }
    Py_XDECREF(data);
    return document;
}

/* The result of a call over a document in a room. */
static bool call_over(PyObject *module, PyObject *data, enum call call, struct room *room)
{
    struct state *state = state_of(module);
    struct input input;
    bool failed;
    if (!state || !open_data(data, &input)) return false;
    uint32_t status = call_into(state, call, input.at, input.size, 0, false, room, &failed);
    if (status != KOHIBLAD_OK) raise_status(state, status);
    return status == KOHIBLAD_OK && !failed;
}

PyObject *native_key(PyObject *module, PyObject *data)
{
    struct room room;
    return call_over(module, data, CALL_KEY, &room) ? bytes_of_room(&room) : NULL;
}

PyObject *native_to_canonical(PyObject *module, PyObject *data)
{
    struct room room;
    return call_over(module, data, CALL_TO_CANONICAL, &room) ? bytes_of_room(&room) : NULL;
}

PyObject *native_to_pretty(PyObject *module, PyObject *data)
{
    struct room room;
    return call_over(module, data, CALL_TO_PRETTY, &room) ? str_of_room(&room) : NULL;
}

PyObject *native_to_string(PyObject *module, PyObject *data)
{
    struct room room;
    return call_over(module, data, CALL_TO_STRING, &room) ? str_of_room(&room) : NULL;
}

#define FAST(name) { #name, (PyCFunction)(void (*)(void))native_##name, METH_FASTCALL, NULL }
#define ONE(name) { #name, native_##name, METH_O, NULL }
#define NO(name) { #name, native_##name, METH_NOARGS, NULL }

static PyMethodDef functions[] = {
    FAST(bind), FAST(check), FAST(concat), FAST(contains), ONE(count), ONE(depth_left), ONE(dumps),
    FAST(edit), NO(end_uses), FAST(item), ONE(key), ONE(kind), ONE(loads), FAST(member),
    FAST(merge_patch), ONE(names), NO(new_use), ONE(of), FAST(of_extension), ONE(pairs),
    FAST(parse), FAST(path_query), ONE(releases), ONE(strip_nulls), ONE(to_canonical),
    ONE(to_pretty), ONE(to_string), ONE(value), ONE(values),
    { NULL, NULL, 0, NULL },
};

static int prepare(PyObject *module)
{
    struct state *state = PyModule_GetState(module);
    state->walk = (PyTypeObject *)PyType_FromSpec(&walk_spec);
    if (!state->walk) return -1;
    state->walk->tp_new = NULL; /* the module alone makes iterators */
    return PyModule_AddStringConstant(module, "VERSION", PACKAGE_VERSION);
}

static int visit_state(PyObject *module, visitproc visit, void *arg)
{
    struct state *state = PyModule_GetState(module);
    if (!state) return 0;
    Py_VISIT(state->walk);
    Py_VISIT(state->exported);
    for (size_t i = 0; i < COUNT_OF(objects); i++)
        Py_VISIT(*object_at(state, objects[i].offset));
    return 0;
}

static int clear_state(PyObject *module)
{
    struct state *state = PyModule_GetState(module);
    if (!state) return 0;
    state->is_bound = false;
    Py_CLEAR(state->walk);
    Py_CLEAR(state->exported);
    for (size_t i = 0; i < COUNT_OF(objects); i++)
        Py_CLEAR(*object_at(state, objects[i].offset));
    for (size_t i = 0; i < NAME_PLACES; i++)
        Py_CLEAR(state->names[i]);
    return 0;
}

static void free_state(void *module)
{
    struct state *state = PyModule_GetState(module);
    clear_state(module);
    if (state) end_exporter(state);
}

static PyModuleDef_Slot slots[] = {
    { Py_mod_exec, (void *)prepare },
    /* All that it has is in its state, but for what guards the uses of Arrow's structs, and where a
     * thread's stack begins, which is one for all interpreters. */
#if PY_VERSION_HEX >= 0x030C0000
    { Py_mod_multiple_interpreters, Py_MOD_PER_INTERPRETER_GIL_SUPPORTED },
#endif
    /* What is in a list or a dict is read without a lock of its own. */
#if PY_VERSION_HEX >= 0x030D0000
    { Py_mod_gil, Py_MOD_GIL_USED },
#endif
    { 0, NULL },
};

static struct PyModuleDef definition = {
    PyModuleDef_HEAD_INIT, "kohiblad._native", NULL, sizeof (struct state), functions, slots,
    visit_state, clear_state, free_state,
};

/* Python 3.8 does not export it by itself. */
__attribute__((visibility("default"))) PyMODINIT_FUNC PyInit__native(void)
{
    return PyModuleDef_Init(&definition);
}
