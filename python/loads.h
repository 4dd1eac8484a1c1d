/* The base class of guards, whose `loads` checks and loads a pickle in one call. */
#ifndef LOADS_H
#define LOADS_H

#define PY_SSIZE_T_CLEAN
#define Py_LIMITED_API 0x03080000
#include <Python.h>
#include <stdint.h>

#ifndef METH_FASTCALL /* part of the stable ABI from 3.10 on, and the same before */
#define METH_FASTCALL 0x0080
#endif
/* A function that takes its arguments as METH_FASTCALL says, for a table of methods. */
#define AS_C_FUNCTION(function) ((PyCFunction)(void (*)(void))(function))

/* None if the pickle is accepted and is all of the bytes, and the number of its imports; or its
   Verdict. */
PyObject *refusal_of(PyObject *pairs, PyObject *data, uint64_t *imports);

/* Makes the class. Returns null after an error. */
PyObject *loads_type(void);

/* Says what `loads` does, once `guard` is of the class, and the lists, for pickles with names of
   Python 3 and of Python 2, are Pairs or None: under None it leaves everything to the guard's
   `_loads`. `reader` is `pickle.loads`, which loads what is
   accepted. What takes longer to judge is left to the guard's `_loads_accepted`: a pickle whose
   BUILD takes an imported object, and with `is_judging` one that imports something. Returns -1
   after an error. */
int set_loads(PyObject *guard, PyObject *const lists[2], PyObject *reader, int is_judging);

/* Makes the function that an installed guard has in place of `pickle.load`, or with a true number
   `pickle.loads`: of the function that it calls, the module `_pickle` and its doc as bytes. */
PyObject *stand_in(PyObject *self, PyObject *words);

/* Says what `told_of` asks of the names in pickles that this guard accepts, and what loads those in
   which no name is judged; None leaves them to `_loads_accepted`. Returns -1 after an error. */
int set_judges(PyObject *guard, PyObject *number_of, PyObject *judges);

/* The second number of the version of Python, of which the first is 3. */
long version(void);

/* Adds the class of the audit hook of installed guards to the module. Returns -1 after an error. */
int add_audit_hook(PyObject *module);

#endif
