/* What the files of the extension module kohiblad._native share.
 *
 * The module does in C what the package does by ctypes where the module is missing: the same calls
 * of the same library, with the same answers. It links no library: the package hands it the
 * addresses of the exports. Errors are made by the package's own functions, which it calls. */
#ifndef NATIVE_H
#define NATIVE_H

#define PY_SSIZE_T_CLEAN
#include <Python.h>

#include <kohiblad.h>
#include <stdbool.h>
#include <stddef.h>
#include <stdint.h>

#if KOHIBLAD_VERSION < 9000
#error "the module needs kohiblad.h of version 9000 or newer"
#endif

#if PY_VERSION_HEX < 0x030A0000
static inline PyObject *Py_NewRef(PyObject *object)
{
    Py_INCREF(object);
    return object;
}
#endif

/* The greatest depth of any document and text: DEPTH of the package. */
#define MOST_DEPTH 1000

/* How many bytes of a document a level takes at least, but for the last one. */
#define LEVEL_SIZE 8

/* Python's lock is released for calls over so many bytes or more. */
#define LONG_SIZE (1 << 14)

/* The exports of the library that are called. */
#define EXPORTS(EXPORT) \
    EXPORT(as_boolean) EXPORT(as_decimal) EXPORT(as_extension) EXPORT(as_string) EXPORT(begin) \
    EXPORT(build_array) EXPORT(build_object) EXPORT(canonical) EXPORT(check) EXPORT(concat) \
    EXPORT(copy) EXPORT(edit) EXPORT(find_index) EXPORT(find_key) EXPORT(key) EXPORT(kind) \
    EXPORT(merge_patch) EXPORT(next) EXPORT(of_extension) EXPORT(parse) EXPORT(pretty) \
    EXPORT(path_query) EXPORT(print) EXPORT(strip_nulls)

/* They are of the header's types. */
struct library {
#define FIELD(name) __typeof__(kohiblad_export_##name) *name;
    EXPORTS(FIELD)
#undef FIELD
};

/* Names that were read lately, each at the place that its bytes choose. */
#define NAME_PLACES 256
#define LONGEST_KEPT_NAME 64

struct state {
    struct library library;
    bool is_bound;
    PyTypeObject *walk; /* the type of iterators */
    /* What the package hands over. */
    PyObject *scalar_document, *object_document, *array_document; /* classes */
    PyObject *data_slot, *key_slot;   /* what sets the fields of a document */
    PyObject *decimal;                /* the class Decimal */
    PyObject *bytes_of_text, *bytes_of_stored, *checked_depth;
    PyObject *error_of, *fault_of, *no_document, *too_deep;
    PyObject *extension_of, *encode_other, *text_of_int, *text_of_decimal;
    PyObject *names[NAME_PLACES];
    /* What others use of Arrow's structs, by the addresses of their uses, and what hands them out.
     */
    PyObject *exported;
    struct exporter *exporter;
};

/* The state of the module. NULL with an exception: bind has not been called. */
struct state *state_of(PyObject *module);

/* Bytes that go into a call, and the object that keeps them. */
struct input {
    PyObject *owner;
    const uint8_t *at;
    size_t size;
};

/* Memory for a result, which is inside it while it is short. Takes no memory until it is used. */
#define NEAR_SIZE 1024
struct room {
    PyObject *bytes; /* where a long result is, or NULL */
    uint8_t *at;
    size_t size, length;
    uint8_t near[NEAR_SIZE];
};

/* How deep documents may nest for calls that take so many bytes of stack for each level, here and
 * now: what is left of the thread's stack carries that depth. It is at most MOST_DEPTH. */
size_t depth_left(size_t level_stack);
/* Whether a document nests no deeper than that. */
bool fits(struct state *state, const uint8_t *bytes, size_t size, size_t depth);
/* Raises the exception for a document that nests deeper, and returns NULL. */
PyObject *raise_too_deep(struct state *state, size_t depth);

/* The calls whose results are bytes. */
enum call { CALL_KEY, CALL_PARSE, CALL_TO_CANONICAL, CALL_TO_PRETTY, CALL_TO_STRING };

/* Makes a call over a text or a document into a room. `depth` and `exponents` are those of parse.
 * Returns the status, or OK with *failed set and an exception: Python was refused memory, or the
 * document nests deeper than the thread's stack carries. */
uint32_t call_into(struct state *state, enum call call, const uint8_t *bytes, size_t size,
                   size_t depth, bool exponents, struct room *room, bool *failed);
/* Makes a room of this size. False with an exception: no memory. */
bool open_room(struct room *room, size_t size);
void close_room(struct room *room);

/* Parses a text into a room, no deeper than the thread's stack carries. False with the exception
 * that Document.parse raises: it is refused. */
bool parse_into(struct state *state, const struct input *text, size_t depth, bool exponents,
                struct room *room);

/* The result in a room as bytes and as a str, and the document of it. They close the room. */
PyObject *bytes_of_room(struct room *room);
PyObject *str_of_room(struct room *room);
PyObject *document_of_room(struct state *state, struct room *room);

/* Counts a value in a loop over many, and lets Python handle signals from time to time. False with
 * an exception: a handler raised it, as that of an interrupt from the keyboard does. */
static inline bool may_go_on(size_t *count)
{
    return ++*count % 4096 || PyErr_CheckSignals() == 0;
}

/* Raises the exception of a status, and returns NULL. */
PyObject *raise_status(struct state *state, uint32_t status);
/* Raises an exception that a function of the package returns, and returns NULL. */
PyObject *raise_made(PyObject *exception);

/* The document of checked bytes. */
PyObject *document_of(struct state *state, PyObject *data);
/* The whole value of checked bytes. */
PyObject *value_of(struct state *state, const uint8_t *bytes, size_t size);
/* A child at a place of a document. */
PyObject *child_of(struct state *state, const uint8_t *bytes, const struct kohiblad_place *place);
/* The name of a member. */
PyObject *name_of(struct state *state, const uint8_t *bytes, size_t size);

/* Opens the UTF-8 of a text that a caller gave. False with an exception: it is no text. */
bool open_text(struct state *state, PyObject *text, struct input *input);
/* The depth that a caller gave. False with an exception: it is none. */
bool depth_of(struct state *state, PyObject *given, size_t *depth);

extern PyType_Spec walk_spec;

/* Ends what hands out Arrow's structs, with the state. */
void end_exporter(struct state *state);

/* The functions of the module, as _native.pyi lists them. */
PyObject *native_check(PyObject *module, PyObject *const *arguments, Py_ssize_t count);
PyObject *native_concat(PyObject *module, PyObject *const *arguments, Py_ssize_t count);
PyObject *native_contains(PyObject *module, PyObject *const *arguments, Py_ssize_t count);
PyObject *native_count(PyObject *module, PyObject *data);
PyObject *native_depth_left(PyObject *module, PyObject *level_stack);
PyObject *native_dumps(PyObject *module, PyObject *value);
PyObject *native_edit(PyObject *module, PyObject *const *arguments, Py_ssize_t count);
PyObject *native_item(PyObject *module, PyObject *const *arguments, Py_ssize_t count);
PyObject *native_key(PyObject *module, PyObject *data);
PyObject *native_kind(PyObject *module, PyObject *data);
PyObject *native_loads(PyObject *module, PyObject *text);
PyObject *native_member(PyObject *module, PyObject *const *arguments, Py_ssize_t count);
PyObject *native_merge_patch(PyObject *module, PyObject *const *arguments, Py_ssize_t count);
PyObject *native_path_query(PyObject *module, PyObject *const *arguments, Py_ssize_t count);
PyObject *native_names(PyObject *module, PyObject *data);
PyObject *native_of(PyObject *module, PyObject *value);
PyObject *native_of_extension(PyObject *module, PyObject *const *arguments, Py_ssize_t count);
PyObject *native_pairs(PyObject *module, PyObject *data);
PyObject *native_parse(PyObject *module, PyObject *const *arguments, Py_ssize_t count);
PyObject *native_end_uses(PyObject *module, PyObject *unused);
PyObject *native_new_use(PyObject *module, PyObject *unused);
PyObject *native_releases(PyObject *module, PyObject *exported);
PyObject *native_strip_nulls(PyObject *module, PyObject *data);
PyObject *native_to_canonical(PyObject *module, PyObject *data);
PyObject *native_to_pretty(PyObject *module, PyObject *data);
PyObject *native_to_string(PyObject *module, PyObject *data);
PyObject *native_value(PyObject *module, PyObject *data);
PyObject *native_values(PyObject *module, PyObject *data);

/* Whether a function got as many arguments as it takes; if not, with an exception. */
bool has_count(Py_ssize_t count, Py_ssize_t expected);
/* The stored bytes that are an argument. False with an exception: it is no bytes object. */
bool open_data(PyObject *data, struct input *input);

#endif
