#include "loads.h"

#include <stddef.h>
#include <structmember.h>

/* Its members may change while it hooks. It lives as long as the interpreter. */
typedef struct {
    PyObject_HEAD
    PyObject *permitted; /* a container of the pairs that any reader may import; None: all */
    PyObject *judge;     /* called with any other pair that a reader asks for */
} AuditHook;

static void audit_dealloc(PyObject *self) {
    PyTypeObject *type = Py_TYPE(self);
    Py_CLEAR(((AuditHook *)self)->permitted);
    Py_CLEAR(((AuditHook *)self)->judge);
    ((freefunc)PyType_GetSlot(type, Py_tp_free))(self);
    Py_DECREF(type);
}

/* Called with each event of the interpreter. */
static PyObject *audit(PyObject *self, PyObject *const *given, Py_ssize_t count) {
    const AuditHook *own = (const AuditHook *)self;
    PyObject *permitted = own->permitted;
    if (permitted != NULL && permitted != Py_None && count == 2 && PyUnicode_Check(given[0])
        && PyUnicode_CompareWithASCIIString(given[0], "pickle.find_class") == 0) {
        Py_INCREF(permitted); /* another thread may install another guard */
        int is_permitted = PySequence_Contains(permitted, given[1]);
        Py_DECREF(permitted);
        if (is_permitted < 0)
            return NULL;
        if (!is_permitted)
            return PyObject_CallFunctionObjArgs(own->judge, given[1], NULL);
    }
    return Py_BuildValue("");
}

static PyMemberDef audit_members[] = {
    {"permitted", T_OBJECT, offsetof(AuditHook, permitted), 0, NULL},
    {"judge", T_OBJECT, offsetof(AuditHook, judge), 0, NULL},
    {NULL, 0, 0, 0, NULL}};
static PyMethodDef audit_methods[] = {
    {"audit", AS_C_FUNCTION(audit), METH_FASTCALL, "The hook, for sys.addaudithook."},
    {NULL, NULL, 0, NULL}};

/* What is called in place of `pickle.load` and `pickle.loads`. */
static PyObject *called_instead[2];

static PyObject *load(PyObject *self, PyObject *words, PyObject *named) {
    (void)self;
    return PyObject_Call(called_instead[0], words, named);
}

static PyObject *loads(PyObject *self, PyObject *words, PyObject *named) {
    (void)self;
    return PyObject_Call(called_instead[1], words, named);
}

/* A function of C that looks as one of these readers does, and calls a function of Python: it is
   pickled by its name, and not bound where a class has it. It lives as long as the process. */
PyObject *stand_in(PyObject *self, PyObject *words) {
    static PyMethodDef readers[] = {
        {"load", (PyCFunction)(void (*)(void))load, METH_VARARGS | METH_KEYWORDS, NULL},
        {"loads", (PyCFunction)(void (*)(void))loads, METH_VARARGS | METH_KEYWORDS, NULL}};
    int which;
    PyObject *function, *owner, *doc;
    (void)self;
    if (!PyArg_ParseTuple(words, "pOOS", &which, &function, &owner, &doc))
        return NULL;
    if (called_instead[which] != NULL) {
        PyErr_SetString(PyExc_RuntimeError, "another interpreter of this process has a guard");
        return NULL;
    }
    PyObject *name = PyObject_GetAttrString(owner, "__name__");
    if (name == NULL)
        return NULL;
    readers[which].ml_doc = PyBytes_AsString(doc);
    PyObject *made = PyCFunction_NewEx(&readers[which], owner, name);
    Py_DECREF(name);
    if (made != NULL) {
        Py_INCREF(doc);
        Py_INCREF(function);
        called_instead[which] = function;
    }
    return made;
}

int add_audit_hook(PyObject *module) {
    static PyType_Slot slots[] = {
        {Py_tp_dealloc, audit_dealloc},
        {Py_tp_members, audit_members},
        {Py_tp_methods, audit_methods},
        {0, NULL}};
    static PyType_Spec spec = {
        "storklocker._storklocker.AuditHook", sizeof(AuditHook), 0, Py_TPFLAGS_DEFAULT, slots};
    PyObject *made = PyType_FromSpec(&spec);
    int is = made != NULL ? PyObject_SetAttrString(module, "AuditHook", made) : -1;
    Py_XDECREF(made);
    return is;
}
