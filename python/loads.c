#include "judging.h"
#include "walk.h"

#include <stddef.h>

/* The size from which on a pickle may have so many containers that collections take long. */
enum { LONG = 1 << 14 };

typedef PyObject *fast_function(
    PyObject *self, PyObject *const *given, Py_ssize_t count, PyObject *names);

typedef struct {
    PyObject_HEAD
    PyObject *lists[2]; /* Pairs for pickles with names of Python 3, and of Python 2: a yes under
                           them is enough to load a pickle as it is; or null */
    PyObject *reader; /* `pickle.loads` */
    PyObject *names;  /* ("fix_imports",) */
    fast_function *function; /* what the reader calls, if it is such a function of C */
    PyObject *receiver;      /* its first argument, borrowed from the reader */
    PyObject *collector;     /* the module `gc` if it collects while a reader reads, or null */
    int is_judging;     /* whether pickles with imports are judged while they are loaded */
    PyObject *number_of, *numbers; /* what `told_of` asks of such pickles, and remembers; or null */
    PyObject *judges;              /* what loads them if no name is judged; None or null */
} Loads;

long version(void) {
    static long known = 0;
    if (known == 0)
        known = PyLong_AsLong(PySys_GetObject("hexversion")) >> 16 & 0xFF;
    return known;
}

/* Whether instances say that they refer to their type. Before 3.9 their subclass says it. */
static int is_type_visited(void) {
    return version() >= 9;
}

static int loads_traverse(PyObject *self, visitproc visit, void *arg) {
    const Loads *own = (const Loads *)self;
    if (is_type_visited())
        Py_VISIT(Py_TYPE(self));
    Py_VISIT(own->lists[0]);
    Py_VISIT(own->lists[1]);
    Py_VISIT(own->number_of);
    Py_VISIT(own->numbers);
    Py_VISIT(own->judges);
    return 0; /* the reader refers to no guard */
}

static int loads_clear(PyObject *self) {
    Loads *own = (Loads *)self;
    Py_CLEAR(own->lists[0]);
    Py_CLEAR(own->lists[1]);
    Py_CLEAR(own->number_of);
    Py_CLEAR(own->numbers);
    Py_CLEAR(own->judges);
    return 0;
}

static void loads_dealloc(PyObject *self) {
    Loads *own = (Loads *)self;
    PyTypeObject *type = Py_TYPE(self);
    PyObject_GC_UnTrack(self);
    loads_clear(self);
    Py_CLEAR(own->reader);
    Py_CLEAR(own->names);
    Py_CLEAR(own->collector);
    ((freefunc)PyType_GetSlot(type, Py_tp_free))(self);
    Py_DECREF(type);
}

int set_judges(PyObject *guard, PyObject *number_of, PyObject *judges) {
    Loads *own = (Loads *)guard;
    PyObject *numbers = PyDict_New();
    PyObject *before[] = {own->number_of, own->judges, own->numbers};
    if (numbers == NULL)
        return -1;
    Py_INCREF(number_of);
    Py_INCREF(judges);
    own->number_of = number_of;
    own->judges = judges;
    own->numbers = numbers;
    for (size_t k = 0; k < sizeof before / sizeof *before; k++)
        Py_XDECREF(before[k]);
    return 0;
}

static void find_function(Loads *own) {
#ifdef PYPY_VERSION /* whose `pickle` is written in Python */
    (void)own;
#else
    PyObject *reader = own->reader;
    if (PyCFunction_Check(reader)
        && PyCFunction_GetFlags(reader) == (METH_FASTCALL | METH_KEYWORDS)) {
        own->function = (fast_function *)(void (*)(void))PyCFunction_GetFunction(reader);
        own->receiver = PyCFunction_GetSelf(reader);
        own->collector = version() < 12 ? PyImport_ImportModule("gc") : NULL;
        PyErr_Clear();
    }
#endif
}

int set_loads(PyObject *guard, PyObject *const lists[2], PyObject *reader, int is_judging) {
    Loads *own = (Loads *)guard;
    /* (interned, as the reader's own, which it compares by address first) */
    PyObject *names = Py_BuildValue("(N)", PyUnicode_InternFromString("fix_imports"));
    PyObject *before[] = {own->lists[0], own->lists[1]};
    if (names == NULL)
        return -1;
    if (own->reader == NULL) { /* one that is loading in another thread goes on with it */
        Py_INCREF(reader);
        own->reader = reader;
        own->names = names;
        find_function(own);
    } else
        Py_DECREF(names);
    for (int k = 0; k < 2; k++) {
        own->lists[k] = lists[k] == Py_None ? NULL : lists[k];
        Py_XINCREF(own->lists[k]);
    }
    own->is_judging = is_judging;
    Py_XDECREF(before[0]);
    Py_XDECREF(before[1]);
    return 0;
}

/* A call with these arguments; the values of the names follow the others. */
static PyObject *called(
    PyObject *function, PyObject *const *given, Py_ssize_t count, PyObject *names) {
    PyObject *made = NULL, *words = PyTuple_New(count), *named = names ? PyDict_New() : NULL;
    int is_wrong = function == NULL || words == NULL || (names != NULL && named == NULL);
    for (Py_ssize_t k = 0; k < count && !is_wrong; k++) {
        Py_INCREF(given[k]);
        is_wrong = PyTuple_SetItem(words, k, given[k]) < 0;
    }
    for (Py_ssize_t k = 0; names != NULL && k < PyTuple_Size(names) && !is_wrong; k++)
        is_wrong = PyDict_SetItem(named, PyTuple_GetItem(names, k), given[count + k]) < 0;
    if (!is_wrong)
        made = PyObject_Call(function, words, named);
    Py_XDECREF(words);
    Py_XDECREF(named);
    return made;
}

/* The object of a pickle that was accepted, with the names that were checked. */
static PyObject *loaded(const Loads *own, PyObject *data) {
    PyObject *given[] = {data, Py_False};
    return own->function != NULL
        ? own->function(own->receiver, given, 1, own->names)
        : called(own->reader, given, 1, own->names);
}

/* Calls a function of `gc`, and returns whether the answer is true. An error is cleared. */
static int ask(PyObject *collector, const char *function) {
    PyObject *made = PyObject_CallMethod(collector, function, NULL);
    int is_true = made != NULL && PyObject_IsTrue(made) == 1;
    Py_XDECREF(made);
    PyErr_Clear();
    return is_true;
}

/* Like `loaded`, for a pickle that imports nothing: reading it runs no Python code, so no other
   thread runs before it ends. Until then no garbage is collected. From 3.12 on that is so anyway;
   before, 700 new containers call the collector, which takes longer than making them. */
static PyObject *loaded_at_once(const Loads *own, PyObject *data) {
    PyObject *type, *value, *trace;
    if (own->collector == NULL || PyBytes_Size(data) < LONG || !ask(own->collector, "isenabled"))
        return loaded(own, data);
    ask(own->collector, "disable");
    PyObject *made = loaded(own, data);
    PyErr_Fetch(&type, &value, &trace);
    ask(own->collector, "enable");
    PyErr_Restore(type, value, trace);
    return made;
}

/* Whether the first instruction of a pickle implies protocol 0, 1 or 2. */
static int is_old(PyObject *data) {
    if (!PyBytes_CheckExact(data) || PyBytes_Size(data) < 2)
        return 1;
    const uint8_t *bytes = (const uint8_t *)PyBytes_AsString(data);
    return bytes[0] != 0x80 || bytes[1] < 3;
}

/* Has the guard tell what has stopped a load, and raise it. */
static PyObject *raised(PyObject *self, PyObject *data) {
    PyObject *type, *error, *trace;
    PyErr_Fetch(&type, &error, &trace);
    PyErr_NormalizeException(&type, &error, &trace);
    if (trace != NULL)
        PyException_SetTraceback(error, trace);
    PyObject *made = PyObject_CallMethod(self, "_loads_stopped", "OO", data, error);
    Py_XDECREF(type);
    Py_XDECREF(error);
    Py_XDECREF(trace);
    return made;
}

/* The object of a pickle that was accepted and imports something. What it does with that says who
   loads it. */
static PyObject *loaded_judging(PyObject *self, PyObject *data) {
    const Loads *own = (const Loads *)self;
    PyObject *judges = own->judges, *numbers = own->numbers, *made = NULL, *told;
    int what;
    Py_INCREF(judges); /* (the guard may get others meanwhile) */
    Py_INCREF(numbers);
    told = told_of(data, own->number_of, numbers, &what);
    if (told != NULL && what == NOTHING)
        made = loaded(own, data);
    else if (told != NULL && judges == Py_None)
        made = PyObject_CallMethod(self, "_loads_accepted", "O", data);
    else if (told != NULL && what == OBJECTS)
        made = (made = judged_load(judges, told)) != NULL ? made : raised(self, data);
    else if (told != NULL)
        made = PyObject_CallMethod(self, "_loads_accepted", "OOO", data, Py_True, told);
    Py_DECREF(judges);
    Py_DECREF(numbers);
    Py_XDECREF(told);
    return made;
}

static PyObject *loads(PyObject *self, PyObject *const *given, Py_ssize_t count, PyObject *names) {
    const Loads *own = (const Loads *)self;
    int which = count == 1 && is_old(given[0]);
    PyObject *list = own->lists[which];
    if (list == NULL || count != 1 || names != NULL || !PyBytes_CheckExact(given[0])) {
        PyObject *method = PyObject_GetAttrString(self, "_loads");
        PyObject *made = called(method, given, count, names);
        Py_XDECREF(method);
        return made;
    }
    Py_INCREF(list); /* the guard may get another one while a long check runs without the GIL */
    int is_judging = own->is_judging;
    uint64_t imports;
    PyObject *no = refusal_of(list, given[0], &imports), *made = NULL;
    Py_DECREF(list);
    if (no == Py_None && is_judging && imports > 0)
        made = which == 0 && own->judges != NULL
            ? loaded_judging(self, given[0])
            : PyObject_CallMethod(self, "_loads_accepted", "O", given[0]);
    else if (no == Py_None) /* what imports nothing can't call anything */
        made = imports > 0 ? loaded(own, given[0]) : loaded_at_once(own, given[0]);
    else if (no != NULL)
        made = PyObject_CallMethod(self, "_loads_refused", "OO", given[0], no);
    Py_XDECREF(no);
    return made;
}

static PyMethodDef loads_methods[] = {
    {"loads", AS_C_FUNCTION(loads), METH_FASTCALL | METH_KEYWORDS,
     "loads($self, data, /, *, fix_imports=None, encoding=None, errors=None, buffers=None)\n--\n\n"
     "The object of the pickle in `data`, which must contain nothing else.\n\n"
     "`data` is bytes or a buffer, which is copied first. Raises Refused, MoreBytes if more bytes\n"
     "follow the pickle, and otherwise what `pickle.loads` raises. While it reads a large pickle\n"
     "that imports nothing, no garbage is collected."},
    {NULL, NULL, 0, NULL}};

PyObject *loads_type(void) {
    static PyType_Slot slots[] = {
        {Py_tp_traverse, loads_traverse},
        {Py_tp_clear, loads_clear},
        {Py_tp_dealloc, loads_dealloc},
        {Py_tp_methods, loads_methods},
        {0, NULL}};
    static PyType_Spec spec = {
        "storklocker._storklocker.Loads", sizeof(Loads), 0,
        Py_TPFLAGS_DEFAULT | Py_TPFLAGS_BASETYPE | Py_TPFLAGS_HAVE_GC, slots};
    return PyType_FromSpec(&spec);
}
