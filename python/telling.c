/* What is told of a pickle, once its instructions were followed. */
#include "uses.h"

static void free_kept(struct kept *kept) {
    PyMem_Free(kept->memo);
    PyMem_Free(kept->dicts);
    Py_XDECREF(kept->far);
}

static void freed(PyObject *capsule) {
    struct kept *kept = PyCapsule_GetPointer(capsule, NULL);
    free_kept(kept);
    PyMem_Free(kept);
}

PyObject *begin_uses(PyObject *Py_UNUSED(module), PyObject *Py_UNUSED(args)) {
    struct kept *kept = zeros(sizeof *kept);
    PyObject *made = kept != NULL ? PyCapsule_New(kept, NULL, freed) : PyErr_NoMemory();
    if (made == NULL)
        PyMem_Free(kept);
    return made;
}

/* What a reader has to judge in the pickle. */
static int judged_in(const struct uses *u, int is) {
    return is != DONE || u->is_named ? NAMES : u->changes.is_more ? OBJECTS : NOTHING;
}

/* Follows the pickle at an offset. */
static int follow(struct uses *u, PyObject *data, size_t start) {
    u->bytes = (const uint8_t *)PyBytes_AsString(data);
    u->length = (size_t)PyBytes_Size(data);
    u->start = start > u->length ? u->length : start;
    u->next = u->changes.last = u->start;
    return followed_all(u);
}

/* Follows a pickle, and returns what is told of it, as `told_of` does if names may be real. */
static PyObject *told(struct uses *u, PyObject *data, size_t start, int *what) {
    PyObject *pieces = NULL;
    int is = follow(u, data, start);
    *what = judged_in(u, is);
    if (is != FAILED && *what == NOTHING && u->are_real)
        return Py_BuildValue("");
    if (*what == OBJECTS && u->are_real) { /* the reader has the real objects */
        Py_CLEAR(u->real);
        for (size_t k = 0; k < u->changes.count; k++)
            u->changes.calls[k] &= (uint8_t)~IS_NEW;
    }
    if (is != FAILED && (u->real == NULL || PyList_Sort(u->real) == 0))
        pieces = u->fault == ABSENT ? respelled(data, u->start, u->next, &u->changes, u->real)
                                    : PyList_New(0);
    if (pieces == NULL || (*what == OBJECTS && u->are_real))
        return pieces;
    int number = kind_of(u->fault) == MADE ? -1 : (int)name_of(u->fault);
    return Py_BuildValue(
        "NOini", pieces, is == DONE ? Py_True : Py_False, number,
        u->fault != ABSENT ? (Py_ssize_t)place_of(u->fault) : -1, *what);
}

static void free_uses(struct uses *u) {
    PyMem_Free(u->stack);
    PyMem_Free(u->changes.bytes);
    PyMem_Free(u->changes.calls);
    Py_XDECREF(u->real);
}

PyObject *uses(PyObject *Py_UNUSED(module), PyObject *args) {
    PyObject *capsule, *data;
    Py_ssize_t start;
    int what;
    struct uses u = {.fault = ABSENT};
    if (!PyArg_ParseTuple(args, "OSnOp", &capsule, &data, &start, &u.number_of, &u.takes_any)
        || (u.kept = PyCapsule_GetPointer(capsule, NULL)) == NULL)
        return NULL;
    PyObject *made = told(&u, data, start < 0 ? (size_t)PyBytes_Size(data) : (size_t)start, &what);
    u.kept->calls += u.changes.count;
    free_uses(&u);
    return made;
}

/* (Roles are written before they are read.) */
static void begin(struct kept *kept) {
    kept->memo = kept->dicts = NULL;
    kept->far = NULL;
    kept->numbers = kept->entries = kept->calls = kept->count = kept->room = 0;
}

PyObject *told_of(PyObject *data, PyObject *number_of, PyObject *numbers, int *what) {
    struct kept kept;
    struct uses u = {.kept = &kept, .fault = ABSENT, .number_of = number_of, .numbers = numbers,
                     .are_real = 1};
    begin(&kept);
    PyObject *made = told(&u, data, 0, what);
    free_uses(&u);
    free_kept(&kept);
    return made;
}

PyObject *unjudged(PyObject *Py_UNUSED(module), PyObject *args) {
    PyObject *values, *number_of, *numbers;
    int takes_any, is_judging, is = DONE, what = NOTHING;
    Py_ssize_t first, next, size;
    if (!PyArg_ParseTuple(args, "O!nOO!pp", &PyList_Type, &values, &first, &number_of,
                          &PyDict_Type, &numbers, &takes_any, &is_judging))
        return NULL;
    char *front = "", *bytes;
    for (next = first; what == NOTHING && next < PyList_Size(values); next++) {
        struct kept kept;
        struct uses u = {.kept = &kept, .fault = ABSENT, .number_of = number_of,
                         .numbers = numbers, .takes_any = takes_any};
        PyObject *data = PyList_GetItem(values, next);
        if (data == NULL || PyBytes_AsStringAndSize(data, &bytes, &size) < 0)
            return NULL;
        front = next == first ? bytes : front;
        if (size < 2 || memcmp(bytes, front, 2) != 0)
            break;
        begin(&kept);
        is = follow(&u, data, 0);
        what = is_judging ? judged_in(&u, is) : is != DONE;
        free_uses(&u);
        free_kept(&kept);
    }
    return is != FAILED ? PyLong_FromSsize_t(next - (what != NOTHING)) : NULL;
}
