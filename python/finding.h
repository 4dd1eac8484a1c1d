/* What the calls have in common that take and give places in bytes. */
#ifndef FINDING_H
#define FINDING_H

#include "walk.h"

/* Parts of bytes, by lists of where they begin and end, counted from a base on; and the part at
   hand: behind the last one, an empty one at the end. */
struct parts {
    PyObject *begins, *ends;
    Py_ssize_t base, next;
    size_t length, begin, end;
};

/* Goes on to the next part. Returns 0 if there is none, or sets an error. */
int go_on(struct parts *parts);

/* Adds a place to a list. Returns 0, and sets an error, if there is no memory. */
int add_place(PyObject *list, size_t place);

/* A tuple of lists, which it takes, or NULL. The third list may be NULL. */
PyObject *lists_of(PyObject *begins, PyObject *ends, PyObject *other, int is_wrong);

#endif
