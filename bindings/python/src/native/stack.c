/* How deep documents may nest on the stack that is left to the thread. */
#include "native.h"

#include <kohiblad_stack.h>

/* What Python takes between a look at the stack and a call, or for a signal meanwhile: _stack.py
 * has the same. */
#define OWN_STACK 8192

/* The lowest address of the thread's stack: 0 before it is asked for, and UNKNOWN if it cannot be
 * told. */
static _Thread_local uintptr_t stack_start;
#define UNKNOWN UINTPTR_MAX

size_t depth_left(size_t level_stack)
{
    const char here = 0;
    uintptr_t at = (uintptr_t)&here;
    if (!stack_start) {
        size_t left = kohiblad_stack_left();
        stack_start = left ? at - left : UNKNOWN;
    }
    /* A stack that is not the thread's own is as one of which nothing is known. */
    if (at < stack_start) return MOST_DEPTH;
    size_t left = at - stack_start;
    size_t depth = kohiblad_depth_of_stack(left > OWN_STACK ? left - OWN_STACK : 0, level_stack);
    return depth < MOST_DEPTH ? depth : MOST_DEPTH;
}

bool fits(struct state *state, const uint8_t *bytes, size_t size, size_t depth)
{
    return depth >= MOST_DEPTH || size / LEVEL_SIZE < depth
        || state->library.check(bytes, size, depth);
}

PyObject *raise_too_deep(struct state *state, size_t depth)
{
    PyObject *number = PyLong_FromSize_t(depth);
    if (!number) return NULL;
    PyObject *exception = PyObject_CallFunctionObjArgs(state->too_deep, number, NULL);
    Py_DECREF(number);
    return raise_made(exception);
}

PyObject *native_depth_left(PyObject *module, PyObject *level_stack)
{
    (void)module;
    size_t bytes = PyLong_AsSize_t(level_stack);
    if (bytes == (size_t)-1 && PyErr_Occurred()) return NULL;
    return PyLong_FromSize_t(depth_left(bytes ? bytes : 1));
}
