#include "pairs.h"

#include <string.h>
#include <structmember.h>

int type_error(const char *wanted, PyObject *given) {
    PyErr_Format(PyExc_TypeError, "%s, not %R", wanted, (PyObject *)Py_TYPE(given));
    return 0;
}

int parse_settings(PyObject *made, struct storklocker_settings *settings) {
    if (!PyBytes_Check(made) || (size_t)PyBytes_Size(made) != sizeof *settings)
        return type_error("settings must be the bytes of a struct storklocker_settings", made);
    memcpy(settings, PyBytes_AsString(made), sizeof *settings);
    return 1;
}

static void pairs_dealloc(PyObject *self) {
    PyTypeObject *type = Py_TYPE(self);
    PyMem_Free(((Pairs *)self)->pairs);
    Py_CLEAR(((Pairs *)self)->kept);
    Py_CLEAR(((Pairs *)self)->module);
    ((freefunc)PyType_GetSlot(type, Py_tp_free))(self);
    Py_DECREF(type);
}

static PyObject *pairs_new(
    PyTypeObject *Py_UNUSED(type), PyObject *Py_UNUSED(args), PyObject *Py_UNUSED(kwargs)) {
    PyErr_SetString(PyExc_TypeError, "only pairs_of makes Pairs");
    return NULL;
}

PyObject *make_pairs(PyObject *args, PyObject *base, PyObject *module) {
    PyObject *type, *kept, *made, *text, *name;
    struct storklocker_settings settings;
    if (!PyArg_ParseTuple(args, "O!O!O", &PyType_Type, &type, &PyTuple_Type, &kept, &made)
        || !parse_settings(made, &settings))
        return NULL;
    if (!PyType_IsSubtype((PyTypeObject *)type, (PyTypeObject *)base)) {
        PyErr_Format(PyExc_TypeError, "%R is not a subclass of Pairs", type);
        return NULL;
    }
    Pairs *self = (Pairs *)PyType_GenericAlloc((PyTypeObject *)type, 0);
    if (self == NULL)
        return NULL;
    size_t count = (size_t)PyTuple_Size(kept);
    Py_INCREF(kept);
    self->kept = kept;
    self->settings = settings;
    Py_INCREF(module);
    self->module = module;
    self->pairs = PyMem_New(struct storklocker_pair, count + 1);
    if (self->pairs == NULL)
        PyErr_NoMemory();
    for (; self->count < count && !PyErr_Occurred(); self->count++) {
        PyObject *pair = PyTuple_GetItem(kept, (Py_ssize_t)self->count);
        if (PyArg_ParseTuple(pair, "SS", &text, &name))
            self->pairs[self->count] = (struct storklocker_pair){
                (const uint8_t *)PyBytes_AsString(text), (size_t)PyBytes_Size(text),
                (const uint8_t *)PyBytes_AsString(name), (size_t)PyBytes_Size(name)};
    }
    if (PyErr_Occurred())
        Py_CLEAR(self);
    return (PyObject *)self;
}

static PyMemberDef pairs_members[] = {
    {"_pairs", T_OBJECT_EX, offsetof(Pairs, kept), READONLY, NULL}, {NULL, 0, 0, 0, NULL}};
static PyObject *refusal(PyObject *self, PyObject *data) {
    uint64_t imports;
    return refusal_of(self, data, &imports);
}

static PyMethodDef pairs_methods[] = {
    {"_refusal", refusal, METH_O,
     "None if the pickle is accepted and is all of the bytes, otherwise its Verdict."},
    {NULL, NULL, 0, NULL}};

PyObject *pairs_type(void) {
    static PyType_Slot slots[] = {
        {Py_tp_new, pairs_new},
        {Py_tp_dealloc, pairs_dealloc},
        {Py_tp_members, pairs_members},
        {Py_tp_methods, pairs_methods},
        {0, NULL}};
    static PyType_Spec spec = {
        "storklocker._storklocker.Pairs", sizeof(Pairs), 0,
        Py_TPFLAGS_DEFAULT | Py_TPFLAGS_BASETYPE, slots};
    return PyType_FromSpec(&spec);
}
