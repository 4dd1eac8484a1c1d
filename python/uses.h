/* What `uses` knows of the objects of a pickle, for the files that follow its instructions. */
#ifndef USES_H
#define USES_H

#include "walk.h"

/* What is known of an object: its kind, the number of its name, a mask, and the place of the
   instruction that pushed it. For a tuple these are of a class in it, and the mask has a bit for
   each; for a name it is 1 if it can't become real; a dict, and what a call has MADE, has its
   number for a place. GIVEN is what was there before the load, JUDGED a class of which each object
   is judged when it is made. A TEXT has 1 for a name if it is SHORT; a ROW is a tuple without
   classes: it has the number of its parts, at most FULL, TEXTS if they all are such texts, and
   ANSWERS_IN if some were MADE.
   GIVEN, JUDGED and MADE have for a name what it is: given BY_ID; MEANT by the list to answer
   functions, or made by what is; ANSWERING, what a substitute of the list has made. */
typedef uint64_t slot;
enum { ABSENT, MARK, OTHER, TEXT, ROW, GIVEN, MADE, JUDGED, NAME, TUPLE, DICT, WRAPPER };
#define SLOT(kind, name, place) ((slot)(kind) | (slot)(name) << 4 | (slot)(place) << 24)
#define MASK(bits) ((slot)(bits) << 16)
#define MOST 1024
#define LONGEST 4096     /* no listed name is longer */
#define REMEMBERED 4096  /* the most names whose numbers are */
#define SHORT 100        /* the bytes of an instruction with a text that takes no time to parse */
enum { FULL = 15, TEXTS = 16, ANSWERS_IN = 32 };
enum { BY_ID = 1, ANSWERING, MEANT };
#define BY_AN_ID SLOT(GIVEN, BY_ID, 0)

/* What a name is: one that becomes the real object where it is a value; a class that some names
   take as an argument; joblib's wrapper; one whose objects are judged. The bits from TAKES on are
   the arguments that it takes. A substitute does what the real object does when it is called with
   NONE, with ONE, with a short TEXT, with such TEXTS, or makes a NEW object with nothing. What a
   name that ANSWERS has made may be called. */
enum { BECOMES_REAL = 1, IS_PASSED = 2, WRAPS = 4, IS_JUDGED = 8, TAKES = 4 };
enum { OF_NONE = 1 << 12, OF_ONE = 2 << 12, OF_TEXT = 4 << 12, OF_TEXTS = 8 << 12,
       NEW_OF_NONE = 16 << 12, IS_FREE = 31 << 12, ANSWERS = 32 << 12 };

/* What the pickles of one reader have in common. The memo has `numbers` slots. What is kept under a
   far greater number is in a dict, because room for all that are smaller would take too long. */
struct kept {
    slot *memo, *dicts; /* of each dict the class that it has as a value; OTHER if it is shared */
    PyObject *far;
    size_t numbers, entries, calls; /* `calls` of all pickles before this one */
    size_t count, room;             /* of dicts, and for them */
    uint32_t roles[MOST];
};

struct uses {
    struct kept *kept;
    const uint8_t *bytes;
    size_t start, length, at, next; /* `start` of the pickle; `next`: where the instruction ends */
    size_t size, room;              /* of the stack, and for it */
    slot *stack;
    PyObject *number_of, *numbers; /* `numbers`: what that has said, or null */
    PyObject *real;                /* where names become real */
    struct notes changes;       /* where instructions are that a reader is given in other words */
    int takes_any;              /* whether BUILD may take what no call of the pickle has made */
    int are_real;               /* whether names may be real objects if no substitute is needed */
    int is_named;               /* whether a name needs a substitute */
    slot fault;                 /* what is used as a value, or is changed, and can't be */
};

enum { DONE, LOST, FAILED }; /* LOST: a reader gets no further, or needn't */

static inline unsigned kind_of(slot s) {
    return s & 15;
}

static inline unsigned mask_of(slot s) {
    return s >> 16 & 255;
}

static inline size_t place_of(slot s) {
    return (size_t)(s >> 24);
}

static inline unsigned name_of(slot s) {
    return s >> 4 & (MOST - 1);
}

static inline unsigned role_of(const struct uses *u, slot s) {
    return kind_of(s) == NAME ? u->kept->roles[name_of(s)] : 0;
}

/* Makes room for more items in an array. */
static inline int grow(slot **items, size_t *room) {
    size_t wanted = *room == 0 ? 32 : 2 * *room;
    slot *made = PyMem_Realloc(*items, wanted * sizeof *made);
    if (made == NULL) {
        PyErr_NoMemory();
        return FAILED;
    }
    *items = made;
    *room = wanted;
    return DONE;
}

static inline int push(struct uses *u, slot s) {
    if (u->size == u->room && grow(&u->stack, &u->room) != DONE)
        return FAILED;
    u->stack[u->size++] = s;
    return DONE;
}

/* Follows usual instructions from a place on, but not the last of the pickle, as long as there is
   room for what they push. Returns where they end. `last`: the last one that isn't a PUT. */
size_t usual_run(struct uses *u, size_t at, size_t *last);

/* What the memo has under a number, and puts an object there. */
slot kept_under(const struct kept *kept, uint64_t number);
int keep_under(struct kept *kept, uint64_t number, slot s);

/* Pushes what is imported by the names that two instructions push, or one. */
int imported(struct uses *u, size_t module, size_t name);

/* Follows the pickle as long as a reader gets on, and notes what changes up to STOP. */
int followed_all(struct uses *u);

#endif
