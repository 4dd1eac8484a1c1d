/* Finds pickles by where their instructions end: one, or many values by one call. */
#include "finding.h"

#define LEAST 16 /* so many bytes of a walk that finds nothing are counted at the least */

enum { PROTO = 0x80, FIRST = 2, LAST = 5 }; /* the protocols of values */

/* Where the whole instructions from a place on end, at the latest after STOP, and whether the last
   is STOP. */
static size_t passed(const uint8_t *bytes, size_t length, size_t at, int *is_stopped) {
    size_t taken;
    *is_stopped = 0;
    while (!*is_stopped && at < length && (taken = length_of(bytes + at, length - at)) > 0) {
        *is_stopped = bytes[at] == '.';
        at += taken;
    }
    return at;
}

PyObject *walked(PyObject *Py_UNUSED(module), PyObject *args) {
    PyObject *data;
    Py_ssize_t start, count = 1;
    if (!PyArg_ParseTuple(args, "Sn|n", &data, &start, &count))
        return NULL;
    const uint8_t *bytes = (const uint8_t *)PyBytes_AsString(data);
    size_t length = (size_t)PyBytes_Size(data), at = (size_t)start;
    int is_stopped = 1;
    if (start < 0 || at > length) {
        PyErr_SetString(PyExc_ValueError, "the start lies outside of the data");
        return NULL;
    }
    for (; count > 0 && is_stopped; count--)
        at = passed(bytes, length, at, &is_stopped);
    return Py_BuildValue("nN", (Py_ssize_t)at, PyBool_FromLong(is_stopped));
}

PyObject *whole(PyObject *Py_UNUSED(module), PyObject *args) {
    PyObject *data;
    struct parts p = {0};
    Py_ssize_t count = 0;
    int is_stopped = 1;
    if (!PyArg_ParseTuple(args, "SO!O!", &data, &PyList_Type, &p.begins, &PyList_Type, &p.ends))
        return NULL;
    p.length = (size_t)PyBytes_Size(data);
    while (is_stopped && go_on(&p)) {
        size_t end = passed((const uint8_t *)PyBytes_AsString(data), p.end, p.begin, &is_stopped);
        is_stopped = is_stopped && end == p.end;
        count += is_stopped;
    }
    return PyErr_Occurred() ? NULL : PyLong_FromSsize_t(count);
}

PyObject *wholes(PyObject *Py_UNUSED(module), PyObject *args) {
    PyObject *data, *places, *begins = PyList_New(0), *ends = PyList_New(0);
    Py_ssize_t end = 0, most = 0, left = 0;
    int is_stopped, is_wrong = begins == NULL || ends == NULL
        || !PyArg_ParseTuple(args, "SO!nnn", &data, &PyList_Type, &places, &end, &most, &left);
    const uint8_t *bytes = is_wrong ? NULL : (const uint8_t *)PyBytes_AsString(data);
    size_t length = is_wrong ? 0 : (size_t)PyBytes_Size(data);
    for (Py_ssize_t k = 0; !is_wrong && k < PyList_Size(places) && left >= 0; k++) {
        size_t at = PyLong_AsSize_t(PyList_GetItem(places, k));
        if (at >= length || (Py_ssize_t)at < end || bytes[at] != PROTO) {
            is_wrong = PyErr_Occurred() != NULL;
            continue;
        }
        size_t behind = passed(bytes, length, at, &is_stopped);
        if (!is_stopped || (Py_ssize_t)(behind - at) > most) {
            left -= LEAST + (Py_ssize_t)(behind - at);
            continue;
        }
        end = (Py_ssize_t)behind;
        if (bytes[at + 1] >= FIRST && bytes[at + 1] <= LAST)
            is_wrong = !add_place(begins, at) || !add_place(ends, behind);
    }
    return lists_of(begins, ends, NULL, is_wrong);
}
