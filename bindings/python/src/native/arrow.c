/* The ends of what Arrow's C data interface hands out. A consumer may call them in any thread, and
 * while an exception is raised that Python code, by ctypes, would lose. */
#include "native.h"

#include <pthread.h>
#include <stdlib.h>
#include <time.h>

/* As the interface has them. */
struct arrow_schema {
    const char *format, *name, *metadata;
    int64_t flags, n_children;
    struct arrow_schema **children;
    void *dictionary;
    void (*release)(struct arrow_schema *);
    void *private_data;
};

struct arrow_array {
    int64_t length, null_count, offset, n_buffers, n_children;
    void *buffers;
    struct arrow_array **children;
    void *dictionary;
    void (*release)(struct arrow_array *);
    void *private_data;
};

struct arrow_array_stream {
    int (*get_schema)(struct arrow_array_stream *, struct arrow_schema *);
    int (*get_next)(struct arrow_array_stream *, struct arrow_array *);
    const char *(*get_last_error)(struct arrow_array_stream *);
    void (*release)(struct arrow_array_stream *);
    void *private_data;
};

/* An interpreter that hands out structs. Others may release them in any thread, with the lock of
 * any interpreter or of none, also when this one has ended: so what is here is no memory of
 * Python's, and is freed with the last struct. */
struct exporter {
    PyInterpreterState *interpreter;
    PyObject **exported; /* in the state of the module; NULL when that is gone */
    bool is_ending;      /* no other thread enters the interpreter any more */
    size_t entering;     /* the threads that enter it now */
    size_t uses;         /* the structs, and the module */
};

/* A struct in use, which is its private data. The package keeps what it needs by its address. */
struct use {
    struct exporter *exporter;
};

/* Those of the process: they guard the fields of all exporters but `exported`, which is read and
 * written with the lock of its interpreter. */
static pthread_mutex_t lock = PTHREAD_MUTEX_INITIALIZER;
static pthread_cond_t has_left = PTHREAD_COND_INITIALIZER;

static void drop_exporter(struct exporter *exporter)
{
    pthread_mutex_lock(&lock);
    bool is_last = --exporter->uses == 0;
    pthread_mutex_unlock(&lock);
    if (is_last) free(exporter);
}

static PyInterpreterState *interpreter_of(PyThreadState *thread)
{
#if PY_VERSION_HEX >= 0x03090000
    return PyThreadState_GetInterpreter(thread);
#else
    return thread->interp;
#endif
}

/* The state by which this thread has the lock of an interpreter now, or NULL. */
static PyThreadState *current_thread(void)
{
#if PY_VERSION_HEX >= 0x030D0000
    return PyThreadState_GetUnchecked();
#elif PY_VERSION_HEX >= 0x030C0000
    return _PyThreadState_UncheckedGet();
#else
    /* What has the lock is told of the process, and may be another thread. */
    PyThreadState *own = PyGILState_GetThisThreadState(), *running = _PyThreadState_UncheckedGet();
    if (!own || own == running) return own ? running : NULL;
    return running && running->thread_id == PyThread_get_thread_ident() ? running : NULL;
#endif
}

/* How a thread came to have the lock of an interpreter. */
struct entered {
    PyThreadState *before; /* which had the lock of another interpreter */
    PyThreadState *own;    /* which this thread has in the interpreter, or had made for it */
    bool is_made, is_inside;
};

static void leave(struct exporter *exporter, struct entered *entered)
{
    if (entered->is_inside) return;
    if (entered->own && entered->is_made) {
        PyThreadState_Clear(entered->own);
        PyThreadState_DeleteCurrent();
    } else if (entered->own) {
        PyEval_SaveThread();
    }
    if (entered->before) PyEval_RestoreThread(entered->before);
    pthread_mutex_lock(&lock);
    exporter->entering--;
    pthread_cond_broadcast(&has_left);
    pthread_mutex_unlock(&lock);
}

/* Takes the lock of the interpreter. False: it has ended, or is about to. */
static bool enter(struct exporter *exporter, struct entered *entered)
{
    PyThreadState *now = current_thread();
    *entered = (struct entered){ 0 };
    entered->is_inside = now && interpreter_of(now) == exporter->interpreter;
    if (entered->is_inside) return exporter->exported != NULL;
    pthread_mutex_lock(&lock);
    bool may_enter = !exporter->is_ending;
    exporter->entering += may_enter;
    pthread_mutex_unlock(&lock);
    if (!may_enter) return false;
    if (now) entered->before = PyEval_SaveThread();
    PyThreadState *own = PyGILState_GetThisThreadState();
    entered->is_made = !own || interpreter_of(own) != exporter->interpreter;
    entered->own = entered->is_made ? PyThreadState_New(exporter->interpreter) : own;
    if (entered->own) {
        PyEval_RestoreThread(entered->own);
        return true;
    }
    leave(exporter, entered); /* there is no memory */
    return false;
}

/* Lets go of what is kept for a struct. */
static void let_go(struct use *use)
{
    PyObject *type, *value, *traceback;
    PyErr_Fetch(&type, &value, &traceback);
    PyObject *exported = *use->exporter->exported, *key = PyLong_FromVoidPtr(use);
    if (!key || !exported || PyDict_DelItem(exported, key)) PyErr_Clear();
    Py_XDECREF(key);
    PyErr_Restore(type, value, traceback);
}

static void end_use(struct use *use)
{
    struct exporter *exporter = use->exporter;
    free(use);
    drop_exporter(exporter);
}

/* A child that was moved is released where it is now. What the children are in is freed with the
 * interpreter, so after its end they are not read. */
static void release_schema(struct arrow_schema *it)
{
    struct use *use = it->private_data;
    struct entered entered;
    it->release = NULL;
    if (enter(use->exporter, &entered)) {
        for (int64_t i = 0; i < it->n_children; i++)
            if (it->children[i]->release) it->children[i]->release(it->children[i]);
        let_go(use);
        leave(use->exporter, &entered);
    }
    end_use(use);
}

static void release_array(struct arrow_array *it)
{
    struct use *use = it->private_data;
    struct entered entered;
    it->release = NULL;
    if (enter(use->exporter, &entered)) {
        for (int64_t i = 0; i < it->n_children; i++)
            if (it->children[i]->release) it->children[i]->release(it->children[i]);
        let_go(use);
        leave(use->exporter, &entered);
    }
    end_use(use);
}

static void release_stream(struct arrow_array_stream *it)
{
    struct use *use = it->private_data;
    struct entered entered;
    it->release = NULL;
    if (enter(use->exporter, &entered)) {
        let_go(use);
        leave(use->exporter, &entered);
    }
    end_use(use);
}

/* releases(exported): the addresses of these functions, which take keys out of that dict. */
PyObject *native_releases(PyObject *module, PyObject *given)
{
    struct state *state = PyModule_GetState(module);
    if (!PyDict_CheckExact(given)) {
        PyErr_SetString(PyExc_TypeError, "a dict is needed");
        return NULL;
    }
    if (!state->exporter) {
        struct exporter *exporter = calloc(1, sizeof *exporter);
        if (!exporter) return PyErr_NoMemory();
        exporter->interpreter = interpreter_of(PyThreadState_Get());
        exporter->exported = &state->exported;
        exporter->uses = 1;
        state->exporter = exporter;
    }
    PyObject *before = state->exported;
    state->exported = Py_NewRef(given);
    Py_XDECREF(before);
    return Py_BuildValue("(NNN)", PyLong_FromVoidPtr((void *)(uintptr_t)release_schema),
                         PyLong_FromVoidPtr((void *)(uintptr_t)release_array),
                         PyLong_FromVoidPtr((void *)(uintptr_t)release_stream));
}

/* new_use(): the private data of a struct, and the key of what is kept for it. */
PyObject *native_new_use(PyObject *module, PyObject *unused)
{
    struct state *state = PyModule_GetState(module);
    (void)unused;
    if (!state->exporter) {
        PyErr_SetString(PyExc_RuntimeError, "the module has no dict of what is in use yet");
        return NULL;
    }
    struct use *use = malloc(sizeof *use);
    if (!use) return PyErr_NoMemory();
    use->exporter = state->exporter;
    pthread_mutex_lock(&lock);
    use->exporter->uses++;
    pthread_mutex_unlock(&lock);
    return PyLong_FromVoidPtr(use);
}

/* end_uses(): lets no other thread enter the interpreter any more, and waits for those that do. At
 * most a second, since those of a process that forked are not in the other one. */
PyObject *native_end_uses(PyObject *module, PyObject *unused)
{
    struct state *state = PyModule_GetState(module);
    struct exporter *exporter = state->exporter;
    struct timespec end;
    (void)unused;
    if (!exporter) Py_RETURN_NONE;
    clock_gettime(CLOCK_REALTIME, &end);
    end.tv_sec++;
    Py_BEGIN_ALLOW_THREADS
    pthread_mutex_lock(&lock);
    exporter->is_ending = true;
    while (exporter->entering && !pthread_cond_timedwait(&has_left, &lock, &end))
        ;
    pthread_mutex_unlock(&lock);
    Py_END_ALLOW_THREADS
    Py_RETURN_NONE;
}

void end_exporter(struct state *state)
{
    struct exporter *exporter = state->exporter;
    if (!exporter) return;
    state->exporter = NULL;
    pthread_mutex_lock(&lock);
    exporter->is_ending = true;
    pthread_mutex_unlock(&lock);
    exporter->exported = NULL;
    drop_exporter(exporter);
}
