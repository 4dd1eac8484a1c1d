/* The pairs of a list with the settings of its checks, as the library reads them. */
#ifndef PAIRS_H
#define PAIRS_H

#include "loads.h"

#include "storklocker.h"

typedef struct {
    PyObject_HEAD
    PyObject *module; /* that made it */
    PyObject *kept; /* a tuple of pairs of bytes objects, which `pairs` points into */
    struct storklocker_pair *pairs;
    size_t count;
    struct storklocker_settings settings; /* for calls that pass none */
} Pairs;

/* Sets a TypeError, and returns 0. */
int type_error(const char *wanted, PyObject *given);

/* Copies settings, which the package has made as bytes. Returns 0 after an error. */
int parse_settings(PyObject *made, struct storklocker_settings *settings);

/* Makes the class. Returns null after an error. */
PyObject *pairs_type(void);

/* Pairs of a subclass of `base`, from the arguments of `pairs_of`. They keep the module. */
PyObject *make_pairs(PyObject *args, PyObject *base, PyObject *module);

#endif
