/* Finds out what the names mean that a pickle imports. */
#include "uses.h"

/* Asks what is imported, given the instructions that push the module and the name; -1 after an
   error. */
static long ask_number(struct uses *u, size_t module, size_t first, size_t name, size_t second) {
    PyObject *asked = PyObject_CallFunction(
        u->number_of, "y#y#", (const char *)u->bytes + module, (Py_ssize_t)first,
        (const char *)u->bytes + name, (Py_ssize_t)second);
    long said = asked != NULL ? PyLong_AsLong(asked) : -1;
    Py_XDECREF(asked);
    return said;
}

/* The same, as it was said before, where the instructions follow one another as picklers write
   them: so that these bytes are of no other names. */
static long number_of(struct uses *u, size_t module, size_t first, size_t name, size_t second) {
    size_t end = module + first, between = name != module ? name - end : 0;
    if (u->numbers == NULL || between > 1 || (between == 1 && u->bytes[end] != 0x94))
        return ask_number(u, module, first, name, second);
    PyObject *key = PyBytes_FromStringAndSize(
        (const char *)u->bytes + module, (Py_ssize_t)(name + second - module));
    PyObject *known = key != NULL ? PyDict_GetItemWithError(u->numbers, key) : NULL;
    long said = known != NULL ? PyLong_AsLong(known) : -1;
    if (known == NULL && !PyErr_Occurred()) {
        said = ask_number(u, module, first, name, second);
        if (PyDict_Size(u->numbers) >= REMEMBERED)
            PyDict_Clear(u->numbers);
        PyObject *number = said >= 0 ? PyLong_FromLong(said) : NULL;
        if (number == NULL || PyDict_SetItem(u->numbers, key, number) < 0)
            said = -1;
        Py_XDECREF(number);
    }
    Py_XDECREF(key);
    return said;
}

/* A name without a substitute. */
static slot unnumbered(unsigned role) {
    return SLOT(role & IS_JUDGED ? JUDGED : GIVEN, role & ANSWERS ? MEANT : 0, 0);
}

int imported(struct uses *u, size_t module, size_t name) {
    if (module >= u->length || name >= u->length)
        return LOST;
    size_t first = length_of(u->bytes + module, u->length - module);
    size_t second = length_of(u->bytes + name, u->length - name);
    if (first > LONGEST || second > LONGEST)
        return push(u, GIVEN); /* nothing that is listed */
    long said = number_of(u, module, first, name, second);
    if (said < 0)
        return FAILED;
    if (said % MOST == 0)
        return push(u, unnumbered((unsigned)(said / MOST)));
    u->kept->roles[said % MOST] = (uint32_t)(said / MOST);
    u->is_named |= !(u->are_real && u->kept->roles[said % MOST] & IS_FREE);
    return push(u, SLOT(NAME, said % MOST, u->at));
}
