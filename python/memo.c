/* The memo of the pickles that `uses` follows. */
#include "uses.h"

#include <string.h>

enum { NEAR = 4096, FARTHER = 16 }; /* how far numbers may be from those that are there */

static slot far_of(const struct kept *kept, uint64_t number) {
    PyObject *key = kept->far != NULL ? PyLong_FromUnsignedLongLong(number) : NULL;
    PyObject *held = key != NULL ? PyDict_GetItemWithError(kept->far, key) : NULL;
    Py_XDECREF(key);
    return held != NULL ? PyLong_AsUnsignedLongLong(held) : ABSENT;
}

static int keep_far(struct kept *kept, uint64_t number, slot s) {
    if (kept->far == NULL && (kept->far = PyDict_New()) == NULL)
        return FAILED;
    kept->entries += kind_of(far_of(kept, number)) == ABSENT;
    PyObject *key = PyLong_FromUnsignedLongLong(number), *held = PyLong_FromUnsignedLongLong(s);
    int is_wrong = key == NULL || held == NULL || PyDict_SetItem(kept->far, key, held) < 0;
    Py_XDECREF(key);
    Py_XDECREF(held);
    return is_wrong ? FAILED : DONE;
}

/* Enlarges the memo, which takes what was far. */
static int enlarge(struct kept *kept, size_t size) {
    slot *more = PyMem_Realloc(kept->memo, size * sizeof *more);
    PyObject *key, *held;
    if (more == NULL) {
        PyErr_NoMemory();
        return FAILED;
    }
    memset(more + kept->numbers, 0, (size - kept->numbers) * sizeof *more);
    for (Py_ssize_t k = 0; kept->far != NULL && PyDict_Next(kept->far, &k, &key, &held);) {
        size_t number = PyLong_AsSize_t(key);
        if (number >= kept->numbers && number < size)
            more[number] = PyLong_AsUnsignedLongLong(held);
    }
    kept->memo = more;
    kept->numbers = size;
    return DONE;
}

slot kept_under(const struct kept *kept, uint64_t number) {
    return number < kept->numbers ? kept->memo[number] : far_of(kept, number);
}

int keep_under(struct kept *kept, uint64_t number, slot s) {
    if (number >= kept->numbers) {
        if (number > NEAR + FARTHER * kept->entries)
            return keep_far(kept, number, s);
        size_t twice = 2 * kept->numbers;
        if (enlarge(kept, number < twice ? twice : (size_t)number + 16) != DONE)
            return FAILED;
    }
    kept->entries += kind_of(kept->memo[number]) == ABSENT;
    kept->memo[number] = s;
    return DONE;
}
