/* The search for the marks of files. Python searches slowly for short texts. */
#include "walk.h"

#include <string.h>

/* Whether a text that isn't empty stands in the bytes. */
static int is_in(const uint8_t *bytes, size_t length, const uint8_t *text, size_t size) {
    const uint8_t *at = bytes, *end = length < size ? bytes : bytes + length - size + 1;
    while (at < end && (at = memchr(at, text[0], (size_t)(end - at))) != NULL) {
        size_t same = 1;
        while (same < size && at[same] == text[same])
            same++;
        if (same == size)
            return 1;
        at++;
    }
    return 0;
}

PyObject *holds(PyObject *Py_UNUSED(module), PyObject *args) {
    PyObject *data, *texts;
    int is_any = 0;
    if (!PyArg_ParseTuple(args, "SO!", &data, &PyTuple_Type, &texts))
        return NULL;
    const uint8_t *bytes = (const uint8_t *)PyBytes_AsString(data);
    for (Py_ssize_t k = 0; k < PyTuple_Size(texts) && !is_any; k++) {
        PyObject *text = PyTuple_GetItem(texts, k);
        if (!PyBytes_Check(text) || PyBytes_Size(text) == 0) {
            PyErr_SetString(PyExc_TypeError, "a text must be bytes, and not empty");
            return NULL;
        }
        is_any = is_in(
            bytes, (size_t)PyBytes_Size(data), (const uint8_t *)PyBytes_AsString(text),
            (size_t)PyBytes_Size(text));
    }
    return PyBool_FromLong(is_any);
}
