/* Finds in the bytes of a store what may begin a value, and the values in pages of SQLite. */
#include "finding.h"

#define BYTES 257 /* the values of a byte, and what stands behind the last one */

enum { GROUPS = 4, GROUP = 16, WORD = 8 };
enum { TEXT = 12, MORE = 0x80, PROTO = 0x80, FIRST = 2, LAST = 5 };
enum { LEAST = 4, SHORT = 8, QUIET = 1, QUIET_FRONT = 2 };

int add_place(PyObject *list, size_t place) {
    PyObject *number = PyLong_FromSize_t(place);
    int is_added = number != NULL && PyList_Append(list, number) == 0;
    Py_XDECREF(number);
    return is_added;
}

PyObject *lists_of(PyObject *begins, PyObject *ends, PyObject *other, int is_wrong) {
    PyObject *all = is_wrong ? NULL
        : other == NULL      ? PyTuple_Pack(2, begins, ends)
                             : PyTuple_Pack(3, begins, ends, other);
    Py_XDECREF(begins);
    Py_XDECREF(ends);
    Py_XDECREF(other);
    return all;
}

static size_t place_in(PyObject *list, const struct parts *parts, size_t least) {
    Py_ssize_t place = PyLong_AsSsize_t(PyList_GetItem(list, parts->next));
    place = PyErr_Occurred() || place < parts->base ? 0 : place - parts->base;
    size_t most = (size_t)place < parts->length ? (size_t)place : parts->length;
    return most < least ? least : most;
}

int go_on(struct parts *parts) {
    parts->begin = parts->end = parts->length;
    if (parts->next >= PyList_Size(parts->begins) || parts->next >= PyList_Size(parts->ends))
        return 0;
    parts->begin = place_in(parts->begins, parts, 0);
    if (!PyErr_Occurred())
        parts->end = place_in(parts->ends, parts, parts->begin);
    parts->next++;
    return !PyErr_Occurred();
}

PyObject *joined(PyObject *Py_UNUSED(module), PyObject *args) {
    PyObject *data, *made;
    struct parts p = {0};
    if (!PyArg_ParseTuple(args, "SO!O!", &data, &PyList_Type, &p.begins, &PyList_Type, &p.ends))
        return NULL;
    p.length = (size_t)PyBytes_Size(data);
    size_t size = 0;
    while (go_on(&p))
        size += p.end - p.begin;
    if (PyErr_Occurred() || (made = PyBytes_FromStringAndSize(NULL, (Py_ssize_t)size)) == NULL)
        return NULL;
    char *out = PyBytes_AsString(made);
    for (p.next = 0; go_on(&p); out += p.end - p.begin)
        memcpy(out, PyBytes_AsString(data) + p.begin, p.end - p.begin);
    return made;
}

PyObject *blanked(PyObject *Py_UNUSED(module), PyObject *args) {
    PyObject *data, *made;
    struct parts p = {0};
    if (!PyArg_ParseTuple(
            args, "SnO!O!", &data, &p.base, &PyList_Type, &p.begins, &PyList_Type, &p.ends))
        return NULL;
    p.length = (size_t)PyBytes_Size(data);
    /* (with bytes to copy, one of length 1 would be the one that all of Python shares) */
    if ((made = PyBytes_FromStringAndSize(NULL, (Py_ssize_t)p.length)) == NULL)
        return NULL;
    char *out = memcpy(PyBytes_AsString(made), PyBytes_AsString(data), p.length);
    while (go_on(&p))
        memset(out + p.begin, 0, p.end - p.begin);
    if (PyErr_Occurred())
        Py_CLEAR(made);
    return made;
}

static uint64_t patterns_with(const char *masks, size_t place, unsigned byte) {
    uint64_t found;
    memcpy(&found, masks + WORD * (BYTES * place + byte), WORD);
    return found;
}

/* Which patterns match the bytes, of those with the first one. */
static uint64_t matched(
    const char *masks, size_t depth, const uint8_t *bytes, size_t length, uint64_t left) {
    for (size_t k = 1; k < depth && left != 0; k++) {
        uint64_t ended = patterns_with(masks, k, BYTES - 1);
        if ((left & ~ended) == 0)
            break;
        left &= k < length ? patterns_with(masks, k, bytes[k]) : ended;
    }
    return left;
}

PyObject *begun(PyObject *Py_UNUSED(module), PyObject *args) {
    PyObject *data, *table, *found[GROUPS], *all;
    struct parts p = {0};
    if (!PyArg_ParseTuple(args, "SSO!O!", &data, &table, &PyList_Type, &p.begins, &PyList_Type,
                          &p.ends)
        || (all = PyTuple_New(GROUPS)) == NULL)
        return NULL;
    const uint8_t *bytes = (const uint8_t *)PyBytes_AsString(data);
    const char *masks = PyBytes_AsString(table);
    size_t depth = (size_t)PyBytes_Size(table) / BYTES / WORD, at = 0;
    p.length = (size_t)PyBytes_Size(data);
    int is_wrong = 0;
    for (int k = 0; k < GROUPS; k++)
        is_wrong |= (found[k] = PyList_New(0)) == NULL || PyTuple_SetItem(all, k, found[k]) < 0;
    while (depth > 0 && !is_wrong && at < p.length) {
        is_wrong |= !go_on(&p) && PyErr_Occurred();
        for (; at < p.begin && !is_wrong; at++) {
            uint64_t left = patterns_with(masks, 0, bytes[at]);
            if (left != 0)
                left = matched(masks, depth, bytes + at, p.length - at, left);
            for (int k = 0; left != 0 && !is_wrong; k++, left >>= GROUP)
                if ((left & ((1 << GROUP) - 1)) != 0)
                    is_wrong = !add_place(found[k], at);
        }
        at = p.end > at ? p.end : at;
    }
    if (is_wrong)
        Py_CLEAR(all);
    return all;
}

PyObject *runs(PyObject *Py_UNUSED(module), PyObject *args) {
    PyObject *data, *letters, *begins = PyList_New(0), *ends = PyList_New(0);
    struct parts p = {0};
    Py_ssize_t least = 0;
    int is_wrong = begins == NULL || ends == NULL
        || !PyArg_ParseTuple(args, "SSnO!O!", &data, &letters, &least, &PyList_Type, &p.begins,
                             &PyList_Type, &p.ends);
    const uint8_t *bytes = is_wrong ? NULL : (const uint8_t *)PyBytes_AsString(data);
    const char *is_letter = is_wrong ? NULL : PyBytes_AsString(letters);
    size_t at = 0, run = 1;
    if (!is_wrong && PyBytes_Size(letters) >= BYTES - 1 && least > 0) {
        p.length = (size_t)PyBytes_Size(data);
        run = (size_t)least;
    }
    while (!is_wrong && at < p.length) {
        is_wrong |= !go_on(&p) && PyErr_Occurred();
        while (at < p.begin && p.begin - at >= run && !is_wrong) {
            size_t k = run, behind = at + run;
            while (k > 0 && is_letter[bytes[at + k - 1]])
                k--;
            while (k == 0 && behind < p.begin && is_letter[bytes[behind]])
                behind++;
            is_wrong = k == 0 && (!add_place(begins, at) || !add_place(ends, behind));
            at = k == 0 ? behind : at + k;
        }
        at = p.end;
    }
    return lists_of(begins, ends, NULL, is_wrong);
}

/* The number at a place, of up to so many bytes, and where the next one is: behind the end if it
   isn't whole. */
static uint64_t number_at(const uint8_t *page, size_t end, size_t *at, int most) {
    uint64_t number = 0;
    for (; most > 0 && *at < end; most--) {
        uint8_t byte = page[(*at)++];
        number = number << 7 | (byte & ~MORE & 0xFF);
        if (byte < MORE)
            return number;
    }
    *at = end + 1;
    return 0;
}

/* Whether a value can be no pickle, and nothing that is packed. */
static int is_quiet(const uint8_t *value, size_t size, const char *quiet) {
    int is_so = size < SHORT && (quiet[value[0]] & QUIET_FRONT) != 0;
    for (size_t k = 0; k < size && is_so; k++)
        is_so = quiet[value[k]] & QUIET;
    return is_so;
}

/* Adds the pickles among the values of a short record; without a list for them, says whether there
   is nothing else in it that may be one, and all of it lies in front of the end. */
static int add_values(const uint8_t *page, size_t at, size_t end, const char *quiet,
                      PyObject *begins, PyObject *ends) {
    size_t behind = at + page[at], value = behind, place = at + 1;
    if (page[at] == 0 || page[at] >= MORE || behind > end)
        return 0;
    while (place < behind) {
        static const uint8_t sizes[TEXT] = {0, 1, 2, 3, 4, 6, 8, 8};
        uint64_t kind = number_at(page, behind, &place, 3);
        size_t size = kind < TEXT ? sizes[kind] : (size_t)(kind - TEXT) / 2;
        if (place > behind || size > end - value)
            return 0;
        if (kind >= TEXT && size >= LEAST) {
            const uint8_t *front = page + value;
            int is_claimed = front[0] == PROTO && front[1] >= FIRST && front[1] <= LAST;
            if (!is_claimed && !is_quiet(front, size, quiet))
                return 0;
            if (is_claimed && begins != NULL
                && !(add_place(begins, value) && add_place(ends, value + size)))
                return 0;
        }
        value += size;
    }
    return 1;
}

PyObject *cells(PyObject *Py_UNUSED(module), PyObject *args) {
    PyObject *data, *table, *begins = PyList_New(0), *ends = PyList_New(0), *left = PyList_New(0);
    Py_ssize_t first = 0, count = 0, most = 0;
    int is_of_table, is_wrong = begins == NULL || ends == NULL || left == NULL
        || !PyArg_ParseTuple(args, "SSnnnp", &data, &table, &first, &count, &most, &is_of_table);
    const uint8_t *page = is_wrong ? NULL : (const uint8_t *)PyBytes_AsString(data);
    const char *quiet = is_wrong ? NULL : PyBytes_AsString(table);
    size_t length = is_wrong ? 0 : (size_t)PyBytes_Size(data);
    if (!is_wrong && (first < 0 || count < 0 || most < 0 || PyBytes_Size(table) < BYTES - 1
                      || (size_t)first > length || (size_t)count > (length - (size_t)first) / 2)) {
        PyErr_SetString(PyExc_ValueError, "the places of cells lie outside of the page");
        is_wrong = 1;
    }
    for (Py_ssize_t k = 0; k < count && !is_wrong; k++) {
        const uint8_t *pointer = page + first + 2 * k;
        size_t cell = ((size_t)pointer[0] << 8 | pointer[1]) & (length - 1), at = cell;
        uint64_t size = number_at(page, length, &at, 2);
        if (is_of_table)
            number_at(page, length, &at, 8);
        int is_short = at < length && size > 0 && size < (uint64_t)most && size <= length - at;
        size_t end = at + (size_t)(is_short ? size : 0);
        if (is_short && add_values(page, at, end, quiet, NULL, NULL))
            is_wrong = !add_values(page, at, end, quiet, begins, ends);
        else
            is_wrong = !add_place(left, cell);
    }
    return lists_of(begins, ends, left, is_wrong);
}
