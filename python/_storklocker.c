/* The extension module of the package storklocker, for Python's stable ABI. It passes arguments to
   the functions of storklocker.h and converts their answers. It decides nothing. */
#include "arena.h"
#include "judging.h"
#include "pairs.h"
#include "walk.h"

#define LOCK_KEPT_BELOW 65536 /* checking fewer bytes costs less than releasing the GIL */
#define ROOM 512              /* names up to this length need no second call */

struct state {
    PyObject *pairs, *loads;         /* the types of this module */
    PyObject *verdict, *row_verdict; /* the classes of answers */
    PyObject *reasons;               /* all, in their order; null before the first refusal */
};

/* The arguments of a call, borrowed from the caller, and what they are converted to. */
struct request {
    PyObject *data, *allow, *made; /* `made`: settings, or None for the list's own */
    const Pairs *list;
    const struct storklocker_settings *settings;
    struct storklocker_settings others;
    const uint8_t *bytes;
    size_t length;
};

static int parse_bytes(struct request *r) {
    if (!PyBytes_CheckExact(r->data))
        return type_error("data must be bytes, which cannot change after the check", r->data);
    r->bytes = (const uint8_t *)PyBytes_AsString(r->data);
    r->length = (size_t)PyBytes_Size(r->data);
    return 1;
}

/* Parses the arguments of a call that takes `wanted`: the bytes, the list, settings or None, .. */
static int parse(
    PyObject *module, PyObject *const *given, Py_ssize_t count, Py_ssize_t wanted,
    struct request *r) {
    const struct state *state = PyModule_GetState(module);
    if (count != wanted) {
        PyErr_Format(PyExc_TypeError, "%zd arguments are needed, not %zd", wanted, count);
        return 0;
    }
    r->data = given[0], r->allow = given[1], r->made = given[2];
    if (!parse_bytes(r))
        return 0;
    if (!PyObject_TypeCheck(r->allow, (PyTypeObject *)state->pairs))
        return type_error("allow must be a storklocker.AllowList", r->allow);
    r->list = (const Pairs *)r->allow;
    r->settings = r->made == Py_None ? &r->list->settings : &r->others;
    return r->made == Py_None || parse_settings(r->made, &r->others);
}

/* How many calls of the library run without the GIL. It changes under the GIL alone. */
static size_t unlocked;

/* Releases the GIL if there are many bytes to check. Otherwise, and if no other call is running,
   this one is alone until it ends, and takes its blocks from the arena. */
static PyThreadState *lock_released(const struct request *r) {
    if (r->length >= LOCK_KEPT_BELOW) {
        unlocked++;
        return PyEval_SaveThread();
    }
    if (unlocked == 0)
        open_arena();
    return NULL;
}

static void take_lock(PyThreadState *thread) {
    if (thread != NULL) {
        PyEval_RestoreThread(thread);
        unlocked--;
    } else
        close_arena();
}

typedef __typeof__(storklocker_check_pairs) call_of_pairs;

static void ask(
    call_of_pairs *call, const struct request *r, uint8_t *room, size_t size,
    struct storklocker_verdict *v) {
    PyThreadState *thread = lock_released(r);
    call(r->list->pairs, r->list->count, r->settings, r->bytes, r->length, room, size, v);
    take_lock(thread);
}

/* All reasons. The enum is made when it is needed: it takes a quarter of the package's import. */
static PyObject *all_reasons(void) {
    PyObject *module = PyImport_ImportModule("storklocker._reasons");
    PyObject *named = module != NULL ? PyObject_GetAttrString(module, "Reason") : NULL;
    PyObject *all = named != NULL ? PySequence_Tuple(named) : NULL;
    Py_XDECREF(named);
    Py_XDECREF(module);
    return all;
}

/* The reason with this number, or None for 0. */
static PyObject *reason_of(struct state *state, uint32_t number) {
    if (number == 0)
        Py_RETURN_NONE;
    if (state->reasons == NULL) {
        PyObject *all = all_reasons(), *before = state->reasons; /* another thread may be as far */
        state->reasons = all;
        Py_XDECREF(before);
    }
    return state->reasons != NULL
        ? PySequence_GetItem(state->reasons, (Py_ssize_t)number - 1) : NULL;
}

/* A Verdict or a RowVerdict. It steals the reference to the pair. */
static PyObject *verdict_of(
    struct state *state, PyObject *type, const struct storklocker_verdict *v, PyObject *pair) {
    int is_numbered = v->reason == STORKLOCKER_UNKNOWN_OPCODE
        || v->reason == STORKLOCKER_UNSUPPORTED_PROTOCOL || v->reason == STORKLOCKER_MISSING_MEMO;
    PyObject *fields[] = {
        PyBool_FromLong(v->status == STORKLOCKER_YES),
        PyLong_FromUnsignedLongLong(v->taken),
        PyLong_FromUnsignedLongLong(v->imports),
        PyLong_FromUnsignedLongLong(v->at),
        reason_of(state, v->reason),
        is_numbered ? PyLong_FromUnsignedLong(v->number) : Py_BuildValue(""),
        pair,
        PyLong_FromUnsignedLongLong(v->pickles)};
    Py_ssize_t count = sizeof fields / sizeof *fields;
    PyObject *made = v->reason == STORKLOCKER_OUT_OF_MEMORY
        ? PyErr_NoMemory() : PyType_GenericAlloc((PyTypeObject *)type, count);
    for (Py_ssize_t k = 0; k < count; k++) {
        if (made != NULL)
            PyTuple_SetItem(made, k, fields[k]);
        else
            Py_XDECREF(fields[k]);
    }
    if (PyErr_Occurred())
        Py_CLEAR(made);
    return made;
}

/* The pair off the list, whose names the room begins with, or None. */
static PyObject *pair_of(const struct storklocker_verdict *v, const uint8_t *room) {
    if (!v->has_pair)
        Py_RETURN_NONE;
    const char *module = (const char *)room, *name = module + v->module_length;
    return Py_BuildValue(
        "s#s#", module, (Py_ssize_t)v->module_length, name, (Py_ssize_t)v->name_length);
}

/* The answer of a call; or, given room for the number of imports, that and None if one accepted
   pickle is all of the bytes. Calls again if the names don't fit. A verdict keeps the arguments for
   its `missing`. */
static PyObject *answered(const struct request *r, call_of_pairs *call, uint64_t *imports) {
    struct state *state = PyModule_GetState(r->list->module);
    PyObject *type = call == storklocker_check_row ? state->row_verdict : state->verdict;
    struct storklocker_verdict v;
    uint8_t few[ROOM], *room = few;
    ask(call, r, room, ROOM, &v);
    if (imports != NULL && v.status == STORKLOCKER_YES && v.taken == r->length) {
        *imports = v.imports;
        Py_RETURN_NONE;
    }
    size_t wanted = (size_t)(v.module_length + v.name_length);
    if (wanted > ROOM) {
        if ((room = PyMem_Malloc(wanted)) == NULL)
            return PyErr_NoMemory();
        ask(call, r, room, wanted, &v);
    }
    PyObject *made = verdict_of(state, type, &v, pair_of(&v, room));
    if (room != few)
        PyMem_Free(room);
    if (made == NULL || type != state->verdict
        || (v.reason != STORKLOCKER_IMPORT_OFF_LIST && v.reason != STORKLOCKER_UNKNOWN_IMPORT))
        return made;
    PyObject *asked = PyTuple_Pack(3, r->data, r->allow, r->made);
    if (asked == NULL || PyObject_SetAttrString(made, "_asked", asked) < 0)
        Py_CLEAR(made);
    Py_XDECREF(asked);
    return made;
}

static PyObject *verdict(PyObject *module, PyObject *const *given, Py_ssize_t count) {
    struct request r;
    int is_parsed = parse(module, given, count, 3, &r);
    return is_parsed ? answered(&r, storklocker_check_within, NULL) : NULL;
}

static PyObject *row_verdict(PyObject *module, PyObject *const *given, Py_ssize_t count) {
    struct request r;
    int is_parsed = parse(module, given, count, 3, &r);
    return is_parsed ? answered(&r, storklocker_check_row, NULL) : NULL;
}

static PyObject *bill(PyObject *module, PyObject *const *given, Py_ssize_t count) {
    struct request r;
    struct storklocker_verdict v;
    uint8_t room[ROOM];
    if (!parse(module, given, count, 3, &r))
        return NULL;
    ask(storklocker_check_pairs, &r, room, ROOM, &v);
    if (v.status != STORKLOCKER_YES)
        Py_RETURN_NONE;
    return Py_BuildValue("IIKKK", v.levels, v.weight, v.work, v.clash, v.memory);
}

PyObject *refusal_of(PyObject *pairs, PyObject *data, uint64_t *imports) {
    struct request r = {.data = data, .allow = pairs, .made = Py_None};
    r.list = (const Pairs *)pairs;
    r.settings = &r.list->settings;
    return parse_bytes(&r) ? answered(&r, storklocker_check_within, imports) : NULL;
}

static PyObject *pairs_of(PyObject *module, PyObject *args) {
    const struct state *state = PyModule_GetState(module);
    return make_pairs(args, state->pairs, module);
}

static PyObject *begin_loads(PyObject *module, PyObject *args) {
    const struct state *state = PyModule_GetState(module);
    PyObject *guard, *lists[2], *reader;
    int is_judging;
    if (!PyArg_ParseTuple(
            args, "O!OOOp", state->loads, &guard, &lists[0], &lists[1], &reader, &is_judging))
        return NULL;
    for (int k = 0; k < 2; k++) {
        int is_none = lists[0] == Py_None && lists[1] == Py_None;
        if (!is_none && !PyObject_TypeCheck(lists[k], (PyTypeObject *)state->pairs)) {
            type_error("the lists must be storklocker.AllowLists or None", lists[k]);
            return NULL;
        }
    }
    return set_loads(guard, lists, reader, is_judging) == 0 ? Py_BuildValue("") : NULL;
}

static PyObject *begin_judging(PyObject *module, PyObject *args) {
    const struct state *state = PyModule_GetState(module);
    PyObject *guard, *number_of, *judges;
    if (!PyArg_ParseTuple(args, "O!OO", state->loads, &guard, &number_of, &judges))
        return NULL;
    return set_judges(guard, number_of, judges) == 0 ? Py_BuildValue("") : NULL;
}

static PyObject *imports(PyObject *module, PyObject *const *given, Py_ssize_t count) {
    struct request r;
    struct storklocker_verdict v;
    uint64_t wanted = 0;
    if (!parse(module, given, count, 4, &r))
        return NULL;
    Py_ssize_t size = PyLong_AsSsize_t(given[3]);
    PyObject *room = PyErr_Occurred() ? NULL : PyBytes_FromStringAndSize(NULL, size);
    if (room == NULL)
        return NULL;
    uint8_t *start = (uint8_t *)PyBytes_AsString(room);
    PyThreadState *thread = lock_released(&r);
    storklocker_imports_loading(r.settings, r.bytes, r.length, start, (size_t)size, &wanted, &v);
    take_lock(thread);
    struct state *state = PyModule_GetState(module);
    PyObject *made = verdict_of(state, state->verdict, &v, Py_BuildValue(""));
    return Py_BuildValue("NKN", made, wanted, room);
}

/* The text of a list, and room for what is copied of it. */
struct listed {
    const uint8_t *text;
    size_t length, size;
    PyObject *room;
};

static int parse_list(PyObject *args, struct listed *l) {
    const char *text;
    Py_ssize_t length, size;
    if (!PyArg_ParseTuple(args, "y#n", &text, &length, &size))
        return 0;
    *l = (struct listed){(const uint8_t *)text, (size_t)length, (size_t)size, NULL};
    l->room = PyBytes_FromStringAndSize(NULL, size);
    return l->room != NULL;
}

static uint8_t *room_of(const struct listed *l) {
    return (uint8_t *)PyBytes_AsString(l->room);
}

static PyObject *read_list(PyObject *Py_UNUSED(module), PyObject *args) {
    struct listed l;
    uint64_t wanted = 0;
    struct storklocker_verdict v;
    struct storklocker_settings s = STORKLOCKER_STANDARD;
    if (!parse_list(args, &l))
        return NULL;
    storklocker_read_list(l.text, l.length, room_of(&l), l.size, &s, &wanted, &v);
    return Py_BuildValue(
        "I(KKKKKI)(IIKKKI)KN", v.reason, s.counted, s.stack, s.memo, s.passed, s.numbers, s.large,
        s.levels, s.weight, s.work, s.clash, s.memory, s.builds, wanted, l.room);
}

static PyObject *list_told(PyObject *Py_UNUSED(module), PyObject *args) {
    struct listed l;
    uint64_t wanted = 0;
    struct storklocker_verdict v;
    struct storklocker_said s = {0};
    if (!parse_list(args, &l))
        return NULL;
    storklocker_list_told(l.text, l.length, room_of(&l), l.size, &s, &wanted, &v);
    return Py_BuildValue(
        "I(IIIIIIII)KN", v.reason, s.limits, s.numbers, s.levels, s.weight, s.work, s.clash,
        s.memory, s.build, wanted, l.room);
}

static PyMethodDef methods[] = {
    {"begin_loads", begin_loads, METH_VARARGS,
     "Says what `loads` of a guard checks new and old pickles with, or None, what it loads with,\n"
     "and whether a pickle with imports is judged while it is loaded."},
    {"begin_judging", begin_judging, METH_VARARGS,
     "Says what `loads` of a guard asks of names, and what loads a pickle if none is judged."},
#ifndef PYPY_VERSION /* which counts no references */
    {"begin_judges", begin_judges, METH_VARARGS, "What the loads by `judged` have in common."},
    {"judged", judged, METH_VARARGS, "The object of a respelled pickle, whose objects are judged."},
#endif
    {"pairs_of", pairs_of, METH_VARARGS, "Pairs of a subclass, from its pairs and settings."},
    {"walked", walked, METH_VARARGS, "Where whole pickles end, and whether with STOP."},
    {"whole", whole, METH_VARARGS, "How many of the first values are each a whole pickle."},
    {"wholes", wholes, METH_VARARGS, "The values that begin at some of these places."},
    {"joined", joined, METH_VARARGS, "Parts of bytes as one."},
    {"blanked", blanked, METH_VARARGS, "The bytes with zeros in these parts."},
    {"begun", begun, METH_VARARGS, "Where one of the patterns of each group matches."},
    {"runs", runs, METH_VARARGS, "Where so many letters follow one another."},
    {"cells", cells, METH_VARARGS, "The pickles in a page of SQLite, and the cells left to read."},
    {"holds", holds, METH_VARARGS, "Whether one of the texts of a tuple stands in the bytes."},
    {"followed", followed, METH_VARARGS,
     "Where the plain instructions end that the cutter of joblib's files follows, and a frame."},
    {"begin_uses", begin_uses, METH_NOARGS, "What `uses` keeps from one pickle to the next."},
    {"uses", uses, METH_VARARGS,
     "What a reader of substitutes is given for a pickle, and what that does with their names."},
    {"unjudged", unjudged, METH_VARARGS, "Where the first pickle is that needs a judge."},
    {"verdict", AS_C_FUNCTION(verdict), METH_FASTCALL,
     "The Verdict of the pickle at the front of the bytes."},
    {"row_verdict", AS_C_FUNCTION(row_verdict), METH_FASTCALL,
     "The RowVerdict of all pickles in the bytes."},
    {"bill", AS_C_FUNCTION(bill), METH_FASTCALL,
     "What loading an accepted pickle costs, if the settings limit costs; None if it is refused."},
    {"imports", AS_C_FUNCTION(imports), METH_FASTCALL,
     "The Verdict with every import permitted, bytes needed, and the imports if costs allow."},
    {"stand_in", stand_in, METH_VARARGS, "A function in place of `pickle.load` or `loads`."},
    {"read_list", read_list, METH_VARARGS, "Fault or 0, limits, costs, bytes needed, the pairs."},
    {"list_told", list_told, METH_VARARGS, "Fault or 0, which keys are said, the substitutes."},
    {NULL, NULL, 0, NULL}};

static int filled(PyObject *module) {
    struct state *state = PyModule_GetState(module);
    PyObject *package = PyImport_ImportModule("storklocker._answers");
    if (package == NULL)
        return -1;
    state->verdict = PyObject_GetAttrString(package, "Verdict");
    state->row_verdict = PyObject_GetAttrString(package, "RowVerdict");
    Py_DECREF(package);
    state->pairs = pairs_type();
    state->loads = loads_type();
    int is_made = state->verdict != NULL && state->row_verdict != NULL && state->pairs != NULL
        && state->loads != NULL && PyObject_SetAttrString(module, "Pairs", state->pairs) == 0
        && PyObject_SetAttrString(module, "Loads", state->loads) == 0
        && add_audit_hook(module) == 0;
    return is_made ? PyModule_AddStringConstant(module, "version", storklocker_version()) : -1;
}

static void freed(void *module) {
    struct state *state = PyModule_GetState(module);
    if (state == NULL)
        return;
    Py_CLEAR(state->pairs);
    Py_CLEAR(state->loads);
    Py_CLEAR(state->verdict);
    Py_CLEAR(state->row_verdict);
    Py_CLEAR(state->reasons);
}

static PyModuleDef_Slot slots[] = {{Py_mod_exec, filled}, {0, NULL}};
static struct PyModuleDef definition = {
    PyModuleDef_HEAD_INIT, "_storklocker", NULL, sizeof(struct state), methods, slots, NULL, NULL,
    freed};

__attribute__((visibility("default"))) PyMODINIT_FUNC PyInit__storklocker(void) {
    return PyModuleDef_Init(&definition);
}
