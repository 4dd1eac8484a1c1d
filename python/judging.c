#include "judging.h"
#include "walk.h"

#include <string.h>

#define CAPSULE "storklocker.judges"
#define KNOWN 256 /* how many classes are remembered; a power of two */
/* Where CPython has the version of a class: a number that no two classes share, and that changes
   whenever an attribute of the class or of its bases does. */
#define VERSION_AT (48 * sizeof(void *))
#define HAS_VERSION (1UL << 19) /* the flag without which, before 3.11, the number is an old one */

/* What is known of a class: each object has attributes of its own, which are all of its state; or a
   function of Python, borrowed from the class, sets its state; or more is to be judged. */
enum { OTHER, PLAIN, SETTING };
struct known {
    const PyTypeObject *kind; /* borrowed: no other class at its place has its version */
    unsigned version;
    int is;
    PyObject *set_state;
    Py_ssize_t weak; /* where an object has the list of weak references to it; 0 if nowhere */
};

struct judges {
    PyObject *reader, *words;    /* `pickle.Unpickler`, and the words that it is made with */
    PyObject *feed_of;           /* makes a file of more than one piece */
    PyObject *begin;             /* gives the function that judges the rest of one pickle */
    PyObject *kind_of;           /* says of a class that it is plain, its function, or None */
    PyObject *containers;        /* a tuple of classes whose new objects have no attributes */
    PyObject *count_weak;        /* `weakref.getweakrefcount` */
    PyObject *attributes, *load, *persistent; /* names */
    PyTypeObject *reading;
    Py_ssize_t alone, own;       /* the references to an object that only a tuple has, and to the
                                    attributes that only their object and one variable have */
    int has_versions, has_lists; /* whether versions, and lists of weak references, are in place */
    struct known known[KNOWN];
};

/* One load: the file of its reader, if that has one piece, and what judges its objects. */
typedef struct {
    PyObject_HEAD
    PyObject *capsule, *data, *judge; /* `judge` is null until something is left to Python */
    struct judges *judges;
    Py_ssize_t at;
} Reading;

enum { FAILED = -1, UNSURE, DONE };

static unsigned version_of(PyTypeObject *kind) {
    unsigned found;
    memcpy(&found, (const char *)kind + VERSION_AT, sizeof found);
    return version() > 10 || PyType_GetFlags(kind) & HAS_VERSION ? found : 0;
}

static Py_ssize_t weak_of(PyObject *kind) {
    PyObject *place = PyObject_GetAttrString(kind, "__weakrefoffset__");
    Py_ssize_t weak = place != NULL ? PyLong_AsSsize_t(place) : 0;
    Py_XDECREF(place);
    PyErr_Clear();
    return weak;
}

/* Asks Python what a class is. It is remembered if the class has stayed the same meanwhile. */
static int ask_kind(struct judges *own, PyTypeObject *kind, struct known *known) {
    unsigned before = version_of(kind);
    Py_ssize_t weak = weak_of((PyObject *)kind);
    PyObject *said = PyObject_CallFunctionObjArgs(own->kind_of, (PyObject *)kind, NULL);
    if (said == NULL)
        return FAILED;
    int is_function = said != Py_None && said != Py_True;
    known->kind = kind;
    known->version = own->has_versions && before == version_of(kind) ? before : 0;
    known->is = said == Py_True ? PLAIN : is_function ? SETTING : OTHER;
    known->set_state = is_function ? said : NULL;
    known->weak = weak;
    Py_DECREF(said); /* the class has it */
    return DONE;
}

/* What is known of a class; null after an error. */
static const struct known *known_of(struct judges *own, PyTypeObject *kind) {
    size_t place = (size_t)(uintptr_t)kind;
    struct known *known = own->known + ((place >> 4 ^ place >> 12) & (KNOWN - 1));
    unsigned version = version_of(kind);
    if (known->kind == kind && known->version == version && version != 0)
        return known;
    return ask_kind(own, kind, known) == DONE ? known : NULL;
}

static int has_list(PyObject *it, Py_ssize_t place) {
    void *list;
    memcpy(&list, (const char *)it + place, sizeof list);
    return list != NULL;
}

/* Whether nothing but this tuple refers to its first object, of which this is known, or null. */
static int is_alone(
    const struct judges *own, PyObject *asked, const struct known *known) {
    PyObject *it = PyTuple_GetItem(asked, 0);
    if (Py_REFCNT(it) != own->alone)
        return UNSURE;
    if (own->has_lists && known != NULL && known->weak != 0)
        return has_list(it, known->weak) ? UNSURE : DONE;
    PyObject *weak = PyObject_CallFunctionObjArgs(own->count_weak, it, NULL);
    long count = weak != NULL ? PyLong_AsLong(weak) : -1;
    Py_XDECREF(weak);
    return count < 0 ? FAILED : count == 0 ? DONE : UNSURE;
}

/* Whether an object that a call has just made may get a state, or items. */
static int is_new(struct judges *own, PyObject *asked) {
    PyObject *how = PyTuple_GetItem(asked, 2);
    PyTypeObject *kind = Py_TYPE(PyTuple_GetItem(asked, 0));
    for (Py_ssize_t k = 0; k < PyTuple_Size(own->containers); k++)
        if (PyTuple_GetItem(own->containers, k) == (PyObject *)kind)
            return is_alone(own, asked, NULL);
    if (!PyLong_CheckExact(how) || PyLong_AsLong(how) != HAS_STATE)
        return UNSURE;
    const struct known *known = known_of(own, kind);
    if (known == NULL)
        return FAILED;
    return known->is != OTHER ? is_alone(own, asked, known) : UNSURE;
}

/* Whether Python gives a name no meaning. */
static int is_plain_name(PyObject *name) {
    if (!PyUnicode_CheckExact(name))
        return 0;
    Py_ssize_t size = PyUnicode_GetLength(name);
    return size < 2 || PyUnicode_ReadChar(name, 0) != '_' || PyUnicode_ReadChar(name, 1) != '_'
        || PyUnicode_ReadChar(name, size - 2) != '_' || PyUnicode_ReadChar(name, size - 1) != '_';
}

static int has_plain_names(PyObject *state) {
    PyObject *name, *value;
    Py_ssize_t place = 0;
    while (PyDict_Next(state, &place, &name, &value))
        if (!is_plain_name(name))
            return 0;
    return 1;
}

/* Puts a state into the attributes of an object, as CPython does, up to the first name that isn't
   plain. */
static int put_attributes(PyObject *attributes, PyObject *state) {
    PyObject *name, *value;
    Py_ssize_t place = 0;
    while (PyDict_Next(state, &place, &name, &value)) {
        if (!is_plain_name(name))
            return UNSURE;
        Py_INCREF(name);
        Py_INCREF(value);
        PyUnicode_InternInPlace(&name);
        int is = PyDict_SetItem(attributes, name, value) < 0 ? FAILED : DONE;
        Py_DECREF(value);
        Py_DECREF(name);
        if (is == FAILED)
            return FAILED;
    }
    return DONE;
}

/* Sets the state of an object, if nothing more of it is to be judged. */
static int is_built(struct judges *own, PyObject *asked) {
    PyObject *receiver = PyTuple_GetItem(asked, 0), *state = PyTuple_GetItem(asked, 1);
    const struct known *known = known_of(own, Py_TYPE(receiver));
    if (known == NULL)
        return FAILED;
    if (known->is == OTHER || !PyDict_CheckExact(state))
        return UNSURE;
    if (known->is == SETTING) {
        if (!has_plain_names(state))
            return UNSURE;
        PyObject *set_state = known->set_state;
        Py_INCREF(set_state);
        PyObject *made = PyObject_CallFunctionObjArgs(set_state, receiver, state, NULL);
        Py_DECREF(set_state);
        Py_XDECREF(made);
        return made != NULL ? DONE : FAILED;
    }
    PyObject *attributes = PyObject_GetAttr(receiver, own->attributes);
    if (attributes == NULL)
        return FAILED;
    int is_own = PyDict_CheckExact(attributes) && Py_REFCNT(attributes) == own->own;
    int is = is_own ? put_attributes(attributes, state) : UNSURE;
    Py_DECREF(attributes);
    return is;
}

static PyObject *persistent_load(PyObject *self, PyObject *asked) {
    Reading *own = (Reading *)self;
    Py_ssize_t size = PyTuple_CheckExact(asked) ? PyTuple_Size(asked) : 0;
    /* (no variable owns the object: references to it are counted) */
    int is = size == 3 ? is_new(own->judges, asked) : size == 2 ? is_built(own->judges, asked)
                                                                : UNSURE;
    if (is == UNSURE) {
        if (own->judge == NULL)
            own->judge = PyObject_CallObject(own->judges->begin, NULL);
        return own->judge != NULL ? PyObject_CallFunctionObjArgs(own->judge, asked, NULL) : NULL;
    }
    PyObject *it = is == DONE ? PyTuple_GetItem(asked, 0) : NULL;
    Py_XINCREF(it);
    return it;
}

static PyObject *peek(PyObject *self, PyObject *Py_UNUSED(count)) {
    const Reading *own = (const Reading *)self;
    if (own->at > 0) /* (it takes all that it is shown before it asks for more) */
        return PyBytes_FromStringAndSize(NULL, 0);
    Py_INCREF(own->data);
    return own->data;
}

static PyObject *taken(Reading *own, Py_ssize_t count) {
    Py_ssize_t left = PyBytes_Size(own->data) - own->at, begin = own->at;
    count = count < 0 || count > left ? left : count;
    own->at += count;
    return PyBytes_FromStringAndSize(PyBytes_AsString(own->data) + begin, count);
}

static PyObject *read_bytes(PyObject *self, PyObject *given) {
    Py_ssize_t count = PyLong_AsSsize_t(given);
    return count == -1 && PyErr_Occurred() ? NULL : taken((Reading *)self, count);
}

static PyObject *read_line(PyObject *self, PyObject *Py_UNUSED(nothing)) {
    return taken((Reading *)self, -1); /* (a line ends within what it is shown) */
}

static void dealloc(PyObject *self) {
    Reading *own = (Reading *)self;
    PyTypeObject *type = Py_TYPE(self);
    Py_CLEAR(own->data);
    Py_CLEAR(own->judge);
    Py_CLEAR(own->capsule);
    ((freefunc)PyType_GetSlot(type, Py_tp_free))(self);
    Py_DECREF(type);
}

static PyMethodDef methods[] = {
    {"peek", peek, METH_O, NULL},
    {"read", read_bytes, METH_O, NULL},
    {"readline", read_line, METH_NOARGS, NULL},
    {"persistent_load", persistent_load, METH_O, NULL},
    {NULL, NULL, 0, NULL}};

static PyTypeObject *reading_type(void) {
    static PyType_Slot slots[] = {
        {Py_tp_dealloc, dealloc}, {Py_tp_methods, methods}, {0, NULL}};
    static PyType_Spec spec = {
        "storklocker._storklocker.Reading", sizeof(Reading), 0, Py_TPFLAGS_DEFAULT, slots};
    return (PyTypeObject *)PyType_FromSpec(&spec);
}

/* The version of a class, once something was looked up in it. */
static unsigned looked_up(PyObject *kind) {
    Py_XDECREF(PyObject_GetAttrString(kind, "nothing"));
    PyErr_Clear();
    return version_of((PyTypeObject *)kind);
}

/* Whether versions are where they are looked for, of a class and of one that is derived from it. */
static int has_versions(PyObject *base, PyObject *derived) {
    unsigned first = looked_up(base), second = looked_up(derived), third = looked_up(derived);
    if (first == 0 || second == 0 || first == second || second != third
        || PyObject_SetAttrString(base, "something", Py_None) < 0)
        return 0;
    int is_void = version_of((PyTypeObject *)derived) != second;
    third = looked_up(derived);
    return is_void && third != 0 && third != second && third != looked_up(base);
}

/* Finds out what the numbers are by which objects are judged. Returns 0 after an error. */
static int measure(struct judges *own) {
    PyObject *base = PyObject_CallFunction((PyObject *)&PyType_Type, "s(){}", "Base");
    PyObject *derived = base == NULL ? NULL
        : PyObject_CallFunction((PyObject *)&PyType_Type, "s(O){}", "Derived", base);
    PyObject *made = derived != NULL ? PyObject_CallObject(base, NULL) : NULL;
    PyObject *attributes = made != NULL ? PyObject_GetAttr(made, own->attributes) : NULL;
    PyObject *asked = attributes != NULL ? PyTuple_Pack(1, made) : NULL;
    if (asked != NULL) {
        Py_ssize_t place = weak_of(base);
        int had = place == 0 || has_list(made, place);
        PyObject *weak = PyWeakref_NewRef(made, NULL);
        own->has_lists = weak != NULL && !had && has_list(made, place);
        Py_CLEAR(weak);
        own->has_lists = own->has_lists && !has_list(made, place);
        own->own = Py_REFCNT(attributes);
        Py_CLEAR(made);
        own->alone = Py_REFCNT(PyTuple_GetItem(asked, 0));
        own->has_versions = has_versions(base, derived);
    }
    Py_XDECREF(asked);
    Py_XDECREF(attributes);
    Py_XDECREF(made);
    Py_XDECREF(derived);
    Py_XDECREF(base);
    return asked != NULL;
}

static void freed(PyObject *capsule) {
    struct judges *own = PyCapsule_GetPointer(capsule, CAPSULE);
    PyObject *held[] = {
        own->reader, own->words, own->feed_of, own->begin, own->kind_of, own->containers,
        own->count_weak, own->attributes, own->load, own->persistent, (PyObject *)own->reading};
    for (size_t k = 0; k < sizeof held / sizeof *held; k++)
        Py_XDECREF(held[k]);
    PyMem_Free(own);
}

PyObject *begin_judges(PyObject *Py_UNUSED(module), PyObject *args) {
    struct judges *own = zeros(sizeof *own);
    PyObject *capsule = own != NULL ? PyCapsule_New(own, CAPSULE, freed) : PyErr_NoMemory();
    if (capsule == NULL) {
        PyMem_Free(own);
        return NULL;
    }
    if (!PyArg_ParseTuple(
            args, "OO!OOOO!O", &own->reader, &PyDict_Type, &own->words, &own->feed_of, &own->begin,
            &own->kind_of, &PyTuple_Type, &own->containers, &own->count_weak)) {
        memset(own, 0, sizeof *own);
    } else {
        PyObject *given[] = {own->reader, own->words, own->feed_of, own->begin, own->kind_of,
                             own->containers, own->count_weak};
        for (size_t k = 0; k < sizeof given / sizeof *given; k++)
            Py_INCREF(given[k]);
        own->attributes = PyUnicode_InternFromString("__dict__");
        own->load = PyUnicode_InternFromString("load");
        own->persistent = PyUnicode_InternFromString("persistent_load");
        own->reading = reading_type();
        if (own->attributes != NULL && own->load != NULL && own->persistent != NULL
            && own->reading != NULL && measure(own))
            return capsule;
    }
    Py_DECREF(capsule);
    return NULL;
}

/* The bytes of a piece, if it is the only one and all of them; otherwise null. */
static PyObject *whole_piece(PyObject *pieces) {
    PyObject *piece = PyList_Size(pieces) == 1 ? PyList_GetItem(pieces, 0) : NULL;
    if (piece == NULL || !PyTuple_Check(piece) || PyTuple_Size(piece) != 3)
        return NULL;
    PyObject *data = PyTuple_GetItem(piece, 0);
    int is_whole = PyBytes_CheckExact(data) && PyLong_AsSsize_t(PyTuple_GetItem(piece, 1)) == 0
        && PyLong_AsSsize_t(PyTuple_GetItem(piece, 2)) == PyBytes_Size(data);
    return is_whole ? data : NULL;
}

PyObject *judged_load(PyObject *capsule, PyObject *pieces) {
    struct judges *own = PyCapsule_GetPointer(capsule, CAPSULE);
    Reading *reading = own != NULL ? (Reading *)PyType_GenericAlloc(own->reading, 0) : NULL;
    if (reading == NULL)
        return NULL;
    PyObject *self = (PyObject *)reading, *data = whole_piece(pieces), *file = self;
    reading->capsule = capsule;
    reading->judges = own;
    reading->data = data;
    Py_INCREF(capsule);
    Py_XINCREF(data);
    if (data == NULL)
        file = PyErr_Occurred() ? NULL : PyObject_CallFunctionObjArgs(own->feed_of, pieces, NULL);
    else
        Py_INCREF(file);
    PyObject *given = file != NULL ? PyTuple_Pack(1, file) : NULL, *made = NULL;
    PyObject *reader = given != NULL ? PyObject_Call(own->reader, given, own->words) : NULL;
    PyObject *judge = reader != NULL ? PyObject_GetAttr(self, own->persistent) : NULL;
    if (judge != NULL && PyObject_SetAttr(reader, own->persistent, judge) == 0)
        made = PyObject_CallMethodObjArgs(reader, own->load, NULL);
    Py_XDECREF(judge);
    Py_XDECREF(reader);
    Py_XDECREF(given);
    Py_XDECREF(file);
    Py_DECREF(self);
    return made;
}

PyObject *judged(PyObject *Py_UNUSED(module), PyObject *args) {
    PyObject *capsule, *pieces;
    if (!PyArg_ParseTuple(args, "OO!", &capsule, &PyList_Type, &pieces))
        return NULL;
    return judged_load(capsule, pieces);
}
