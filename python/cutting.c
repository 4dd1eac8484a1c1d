#include "walk.h"

#define LONGEST 4096 /* a longer text is nothing that the cutter looks at */

/* Lists and a dict of the cutter: the instructions change them as its own methods do. */
struct follow {
    const uint8_t *bytes;
    size_t length, at, frame;
    PyObject *stack, *memo;
    PyObject *any, *mark; /* what stands for an object that doesn't matter, and for a mark */
    PyObject *dict;       /* the class of dicts */
};

enum { DONE, NOT_PLAIN, FAILED };

static uint64_t number_at(const uint8_t *bytes, unsigned width) {
    uint64_t number = 0;
    for (unsigned k = 0; k < width; k++)
        number |= (uint64_t)bytes[k] << 8 * k;
    return number;
}

static int is_number_or_text(const struct follow *f, PyObject *value) {
    return value == f->any || value == Py_None || PyLong_Check(value)
        || PyUnicode_CheckExact(value);
}

/* Whether a value may go anywhere: no class, and nothing that one makes. */
static int is_plain(const struct follow *f, PyObject *value) {
    if (!PyTuple_CheckExact(value))
        return is_number_or_text(f, value);
    PyObject *first = PyTuple_Size(value) > 0 ? PyTuple_GetItem(value, 0) : Py_None;
    return is_number_or_text(f, first) || PyTuple_CheckExact(first);
}

/* The number of values on the top that are plain; at most `most`. */
static Py_ssize_t plain_on_top(const struct follow *f, Py_ssize_t most) {
    Py_ssize_t size = PyList_Size(f->stack), count = 0;
    most = size < most ? size : most;
    while (count < most && is_plain(f, PyList_GetItem(f->stack, size - 1 - count)))
        count++;
    return count;
}

/* How many plain values lie on the last mark; -1 if others do, or there is no mark. */
static Py_ssize_t plain_to_mark(const struct follow *f) {
    Py_ssize_t size = PyList_Size(f->stack), count = plain_on_top(f, size);
    return count < size && PyList_GetItem(f->stack, size - 1 - count) == f->mark ? count : -1;
}

/* Pushes a new value, which may be null after an error. It steals the reference. */
static int push(struct follow *f, PyObject *value) {
    int is_wrong = value == NULL || PyList_Append(f->stack, value) < 0;
    Py_XDECREF(value);
    return is_wrong ? FAILED : DONE;
}

static int push_any(struct follow *f) {
    return PyList_Append(f->stack, f->any) < 0 ? FAILED : DONE;
}

/* Takes values off the top. */
static int drop(struct follow *f, Py_ssize_t count) {
    Py_ssize_t size = PyList_Size(f->stack);
    return PyList_SetSlice(f->stack, size - count, size, NULL) < 0 ? FAILED : DONE;
}

/* Appends plain values to an object, of which nothing is known then. */
static int append(struct follow *f, Py_ssize_t count) {
    return drop(f, count) == DONE ? push_any(f) : FAILED;
}

static int push_text(struct follow *f, const uint8_t *text, size_t length) {
    if (length > LONGEST)
        return push_any(f);
    PyObject *made = PyUnicode_Decode((const char *)text, (Py_ssize_t)length, "utf-8",
                                      "surrogatepass");
    if (made == NULL && PyErr_ExceptionMatches(PyExc_ValueError)) {
        PyErr_Clear();
        return NOT_PLAIN;
    }
    return push(f, made);
}

/* Makes a tuple of `count` values on the top, above a mark or not. */
static int push_tuple(struct follow *f, Py_ssize_t count, int marks) {
    Py_ssize_t size = PyList_Size(f->stack);
    if (count < 0 || plain_on_top(f, count) < count)
        return NOT_PLAIN;
    PyObject *values = PyList_GetSlice(f->stack, size - count, size);
    PyObject *made = values != NULL ? PyList_AsTuple(values) : NULL;
    Py_XDECREF(values);
    if (made == NULL || drop(f, count + marks) != DONE) {
        Py_XDECREF(made);
        return FAILED;
    }
    return push(f, made);
}

static int put(struct follow *f, uint64_t number) {
    Py_ssize_t size = PyList_Size(f->stack);
    if (size == 0)
        return NOT_PLAIN;
    PyObject *key = PyLong_FromUnsignedLongLong(number);
    int is_wrong = key == NULL
        || PyDict_SetItem(f->memo, key, PyList_GetItem(f->stack, size - 1)) < 0;
    Py_XDECREF(key);
    return is_wrong ? FAILED : DONE;
}

static int get(struct follow *f, uint64_t number) {
    PyObject *key = PyLong_FromUnsignedLongLong(number);
    PyObject *found = key != NULL ? PyDict_GetItemWithError(f->memo, key) : NULL;
    Py_XDECREF(key);
    if (found == NULL)
        return PyErr_Occurred() ? FAILED : NOT_PLAIN;
    return PyList_Append(f->stack, found) < 0 ? FAILED : DONE;
}

/* Follows an instruction of this length, if it is a plain one. */
static int followed_one(struct follow *f, size_t length) {
    const uint8_t *argument = f->bytes + f->at + 1;
    Py_ssize_t count;
    switch (f->bytes[f->at]) {
    case 0x80: /* PROTO */
        return DONE;
    case 0x95: /* FRAME */
        if (number_at(argument, 8) > PY_SSIZE_T_MAX - f->length)
            return NOT_PLAIN;
        f->frame = f->at + length + (size_t)number_at(argument, 8);
        return DONE;
    case '(':
        return PyList_Append(f->stack, f->mark) < 0 ? FAILED : DONE;
    case '0':
        return PyList_Size(f->stack) > 0 ? drop(f, 1) : NOT_PLAIN;
    case '}':
        return push(f, PyObject_CallObject(f->dict, NULL));
    case 'N':
        return push(f, Py_BuildValue(""));
    case 0x88: /* NEWTRUE, and then NEWFALSE */
    case 0x89:
        return push(f, PyBool_FromLong(argument[-1] == 0x88));
    case ')':
        return push(f, PyTuple_New(0));
    case 'K':
        return push(f, PyLong_FromLong(argument[0]));
    case 'M':
        return push(f, PyLong_FromUnsignedLongLong(number_at(argument, 2)));
    case 'J':
        return push(f, PyLong_FromLong((int32_t)(uint32_t)number_at(argument, 4)));
    case 0x8c: /* SHORT_BINUNICODE */
        return push_text(f, argument + 1, length - 2);
    case 'X':
        return push_text(f, argument + 4, length - 5);
    case 'G':  /* BINFLOAT and other values of which nothing is asked */
    case ']':  /* EMPTY_LIST */
    case 0x8f: /* EMPTY_SET */
    case 'C':  /* SHORT_BINBYTES */
    case 'B':  /* BINBYTES */
    case 0x8e: /* BINBYTES8 */
    case 0x96: /* BYTEARRAY8 */
        return push_any(f);
    case 'q':
        return put(f, argument[0]);
    case 'r':
        return put(f, number_at(argument, 4));
    case 0x94: /* MEMOIZE */
        return put(f, (uint64_t)PyDict_Size(f->memo));
    case 'h':
        return get(f, argument[0]);
    case 'j':
        return get(f, number_at(argument, 4));
    case 0x85: /* TUPLE1, TUPLE2, TUPLE3 */
    case 0x86:
    case 0x87:
        return push_tuple(f, argument[-1] - 0x84, 0);
    case 't':
        return push_tuple(f, plain_to_mark(f), 1);
    case 'a':
        return plain_on_top(f, 2) == 2 ? append(f, 2) : NOT_PLAIN;
    case 'e': /* the mark, and the list below it */
        count = plain_to_mark(f);
        if (count < 0 || PyList_Size(f->stack) < count + 2
            || !is_plain(f, PyList_GetItem(f->stack, PyList_Size(f->stack) - count - 2)))
            return NOT_PLAIN;
        return append(f, count + 2);
    }
    return NOT_PLAIN;
}

PyObject *followed(PyObject *Py_UNUSED(module), PyObject *args) {
    PyObject *data;
    Py_ssize_t start;
    struct follow f = {.frame = 0};
    if (!PyArg_ParseTuple(args, "SnO!O!OOO", &data, &start, &PyList_Type, &f.stack, &PyDict_Type,
                          &f.memo, &f.any, &f.mark, &f.dict))
        return NULL;
    f.bytes = (const uint8_t *)PyBytes_AsString(data);
    f.length = (size_t)PyBytes_Size(data);
    f.at = (size_t)start;
    if (start < 0 || f.at > f.length) {
        PyErr_SetString(PyExc_ValueError, "the start lies outside of the data");
        return NULL;
    }
    while (f.at < f.length) {
        size_t length = length_of(f.bytes + f.at, f.length - f.at);
        int is = length > 0 ? followed_one(&f, length) : NOT_PLAIN;
        if (is == FAILED)
            return NULL;
        if (is == NOT_PLAIN)
            break;
        f.at += length;
    }
    return Py_BuildValue("nn", (Py_ssize_t)f.at, (Py_ssize_t)f.frame);
}
