/* The reader of most pickles with objects: it judges states and items, where no name is judged. */
#ifndef JUDGING_H
#define JUDGING_H

#include "loads.h"

/* Makes what the loads of an interpreter have in common, of the class of readers and its words, a
   function that makes a file of pieces, one that gives what judges the rest of one pickle, one that
   says what a class is, a tuple of classes of containers and a function that counts weak
   references. */
PyObject *begin_judges(PyObject *module, PyObject *args);

/* The object of a pickle in the pieces of `uses`, in which no name is judged. */
PyObject *judged_load(PyObject *judges, PyObject *pieces);
PyObject *judged(PyObject *module, PyObject *args);

#endif
