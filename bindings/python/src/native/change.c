/* Documents that are changed: the calls that make a document out of others. */
#include "native.h"

/* What a document is made by. */
enum change_call {
    CHANGE_CONCAT, CHANGE_EDIT, CHANGE_MERGE_PATCH, CHANGE_PATH_QUERY, CHANGE_STRIP_NULLS
};

/* What a call is made of: documents, of an edit its number, and of a query the text of its path in
 * place of another document, its variables as the value, and whether it is silent. */
struct change {
    enum change_call call;
    struct input data, other, value;
    uint32_t edit;
};

static uint32_t make_change(const struct library *library, const struct change *it,
                            struct room *room)
{
    const struct input *data = &it->data, *other = &it->other, *value = &it->value;
    switch (it->call) {
    case CHANGE_EDIT:
        return library->edit(data->at, data->size, other->at, other->size, it->edit, value->at,
                             value->size, MOST_DEPTH, room->at, room->size, &room->length);
    case CHANGE_MERGE_PATCH:
        return library->merge_patch(data->at, data->size, other->at, other->size, MOST_DEPTH,
                                    room->at, room->size, &room->length);
    case CHANGE_PATH_QUERY:
        return library->path_query(data->at, data->size, other->at, other->size, value->at,
                                   value->size, it->edit, MOST_DEPTH, room->at, room->size,
                                   &room->length);
    case CHANGE_STRIP_NULLS:
        return library->strip_nulls(data->at, data->size, MOST_DEPTH, room->at, room->size,
                                    &room->length);
    default:
        return library->concat(data->at, data->size, other->at, other->size, MOST_DEPTH, room->at,
                               room->size, &room->length);
    }
}

/* Whether the thread's stack carries the documents. The package has tested those of an edit, which
 * need more or less by where the path leads. False with an exception: one nests deeper. */
static bool carries(struct state *state, const struct change *it)
{
    if (it->call == CHANGE_EDIT) return true;
    bool is_query = it->call == CHANGE_PATH_QUERY;
    const struct input *other = is_query ? &it->value : &it->other;
    size_t depth = depth_left(it->call == CHANGE_MERGE_PATCH ? KOHIBLAD_PATCH_LEVEL_STACK
                              : is_query || it->call == CHANGE_STRIP_NULLS ? KOHIBLAD_LEVEL_STACK
                              : KOHIBLAD_EDIT_LEVEL_STACK);
    if (fits(state, it->data.at, it->data.size, depth)
        && (!other->at || fits(state, other->at, other->size, depth)))
        return true;
    raise_too_deep(state, depth);
    return false;
}

/* The bytes of the result. */
static PyObject *changed(struct state *state, const struct change *it)
{
    struct room room;
    uint32_t status = KOHIBLAD_NO_ROOM;
    if (!carries(state, it)) return NULL;
    size_t size = it->data.size + it->other.size + it->value.size;
    room.bytes = NULL;
    room.length = size + 64;
    while (status == KOHIBLAD_NO_ROOM) {
        if (!open_room(&room, room.length)) return NULL;
        if (size < LONG_SIZE) {
            status = make_change(&state->library, it, &room);
        } else {
            Py_BEGIN_ALLOW_THREADS
            status = make_change(&state->library, it, &room);
            Py_END_ALLOW_THREADS
        }
    }
    if (status == KOHIBLAD_OK) return bytes_of_room(&room);
    close_room(&room);
    return raise_status(state, status);
}

PyObject *native_edit(PyObject *module, PyObject *const *arguments, Py_ssize_t count)
{
    struct state *state = state_of(module);
    struct change it = { .call = CHANGE_EDIT };
    if (!state || !has_count(count, 4) || !open_data(arguments[0], &it.data)
        || !open_data(arguments[1], &it.other) || !open_data(arguments[3], &it.value))
        return NULL;
    long edit = PyLong_AsLong(arguments[2]);
    if (edit == -1 && PyErr_Occurred()) return NULL;
    it.edit = (uint32_t)edit;
    return changed(state, &it);
}

/* The document of the array of all values that a path gives. The package has tested that the
 * thread's stack carries the path. */
PyObject *native_path_query(PyObject *module, PyObject *const *arguments, Py_ssize_t count)
{
    struct state *state = state_of(module);
    struct change it = { .call = CHANGE_PATH_QUERY };
    if (!state || !has_count(count, 4) || !open_data(arguments[0], &it.data)
        || !open_data(arguments[1], &it.other) || !open_data(arguments[2], &it.value))
        return NULL;
    int silent = PyObject_IsTrue(arguments[3]);
    if (silent < 0) return NULL;
    it.edit = (uint32_t)silent;
    return changed(state, &it);
}

/* What a call makes of two documents. */
static PyObject *made_of_two(PyObject *module, PyObject *const *arguments, Py_ssize_t count,
                             enum change_call call)
{
    struct state *state = state_of(module);
    struct change it = { .call = call };
    if (!state || !has_count(count, 2) || !open_data(arguments[0], &it.data)
        || !open_data(arguments[1], &it.other))
        return NULL;
    return changed(state, &it);
}

PyObject *native_concat(PyObject *module, PyObject *const *arguments, Py_ssize_t count)
{
    return made_of_two(module, arguments, count, CHANGE_CONCAT);
}

PyObject *native_merge_patch(PyObject *module, PyObject *const *arguments, Py_ssize_t count)
{
    return made_of_two(module, arguments, count, CHANGE_MERGE_PATCH);
}

PyObject *native_strip_nulls(PyObject *module, PyObject *data)
{
    struct state *state = state_of(module);
    struct change it = { .call = CHANGE_STRIP_NULLS };
    if (!state || !open_data(data, &it.data)) return NULL;
    return changed(state, &it);
}
