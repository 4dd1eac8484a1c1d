/* Calls of the extension module that find the instructions of a pickle by their lengths. They judge
   nothing. */
#ifndef WALK_H
#define WALK_H

#define PY_SSIZE_T_CLEAN
#define Py_LIMITED_API 0x03080000
#include <Python.h>

#include <stdint.h>
#include <string.h>

/* Memory of zeros, or NULL. The limited headers of Python 3.8 and 3.9 declare no PyMem_Calloc. */
static inline void *zeros(size_t size) {
    void *made = PyMem_Malloc(size);
    return made != NULL ? memset(made, 0, size) : NULL;
}

/* Takes bytes, the offset of an instruction, and how many pickles follow one another from there
   on, by default one. Returns where their whole instructions end, at the latest after the last
   STOP, and whether the last is STOP. */
PyObject *walked(PyObject *module, PyObject *args);

/* Parts of bytes are given by two lists: where each begins and where it ends, in their order.
   `whole`: how many of the first have instructions that end with the only STOP. `joined` copies
   them into one. `blanked` takes bytes, the place of the first one, and parts, in which it puts
   zeros. */
PyObject *whole(PyObject *module, PyObject *args);
PyObject *joined(PyObject *module, PyObject *args);
PyObject *blanked(PyObject *module, PyObject *args);

/* Takes bytes, a list of places in them, which ascend, where to begin, the most bytes of a value,
   and how many to walk through for what isn't one. Returns two lists: the begin and the end of each
   value with PROTO of protocol 2 to 5 and STOP, in front of one another. */
PyObject *wholes(PyObject *module, PyObject *args);

/* Takes bytes, patterns, and parts to pass over. A pattern is a bit of 64, and has a word for each
   of its bytes: by the value of that byte, and one for a place behind the last byte. The bit is set
   where the byte may be, and from the end of the pattern on everywhere. Returns a list of places
   for each sixteen of the patterns. */
PyObject *begun(PyObject *module, PyObject *args);

/* Takes bytes, a table that says of each byte whether it is a letter, the fewest letters of a run,
   and parts to pass over. Returns where the runs begin and end, in two lists. */
PyObject *runs(PyObject *module, PyObject *args);

/* Takes a page of SQLite, whose size is a power of two; a table that says of each byte whether it
   may stand, by 1, in a value of fewer than 8 bytes that imports nothing, and by 2 in front; where
   the places of cells are, and how many; the size from which on a record isn't short; and whether a
   number stands in front of each. Returns where the values begin and end that have PROTO, and the
   places of cells that are to be read otherwise. */
PyObject *cells(PyObject *module, PyObject *args);

/* Whether one of the texts in a tuple, bytes that aren't empty, stands in the bytes. */
PyObject *holds(PyObject *module, PyObject *args);

/* Follows plain instructions for the cutter of joblib's files: those that put numbers and texts on
   the stack, into tuples, lists and the memo. Takes bytes, an offset, the stack, the memo, what
   stands there for any other object and for a mark, and the class of dicts. Returns where the
   instruction begins that isn't plain or whole, and where the last frame ends, or 0. */
PyObject *followed(PyObject *module, PyObject *args);

/* Follows what the instructions of a pickle do with the names that are loaded through substitutes.
   `uses` takes what `begin_uses` made for all pickles of a reader, bytes, the offset of the pickle,
   a function that says of each import, given the instructions that push its module and its name,
   or twice the one that has both: 0, or a number below 1024 plus 1024 times the name's role; and
   whether BUILD may take what the pickle hasn't made. The number is 0 where only what the name
   makes is judged, or may be called. Returns what the reader is given in place of the pickle;
   whether it got to STOP; the number of a name that is a value and can't be real, 0 of what can't
   be changed, or -1 of what can't be called, and its place, or -1; and what a reader has to judge:
   0 nothing, 1 objects, 2 what names stand for.

   The reader is given the whole instructions up to STOP, also those that it can't get to: BUILD as
   TUPLE2 BINPERSID, BINPERSID as TUPLE1 BINPERSID, no frames, where a value becomes the real
   object, behind the instruction that pushes it, NONE NONE TUPLE3 BINPERSID, and behind a call
   whose object is judged or changed, NONE BININT1 TUPLE3 BINPERSID. NEWOBJ of a name that has a
   substitute is EMPTY_LIST TUPLE3 BINPERSID, OBJ of one the same behind TUPLE NONE, and NEWOBJ_EX
   behind TUPLE3 NEWTRUE. REDUCE of what an id gave is EMPTY_DICT TUPLE3 BINPERSID. These are
   pieces: bytes, and the begin and end of what counts of them. Long ones are the bytes of the
   pickle. */
PyObject *begin_uses(PyObject *module, PyObject *args);
PyObject *uses(PyObject *module, PyObject *args);

/* Takes a list of pickles, an index, what `uses` takes as a function, a dict that remembers what
   that says, whether BUILD may take what a pickle hasn't made, and whether anything is judged.
   Returns the index of the first pickle from there on in which a reader of it alone has something
   to judge, or, if it judges nothing, which isn't followed up to STOP; or which begins with another
   protocol. */
PyObject *unjudged(PyObject *module, PyObject *args);

/* What a reader has to judge: nothing, objects, or what names stand for. */
enum { NOTHING, OBJECTS, NAMES };

/* What is told of a pickle that is the first of its reader: None if nothing is to be judged; the
   pieces if only objects are; and otherwise what `uses` returns. A name isn't judged if a
   substitute would do no more with its arguments: the pieces are for a reader without substitutes.
   `numbers`, a dict, remembers what `number_of` says. */
PyObject *told_of(PyObject *data, PyObject *number_of, PyObject *numbers, int *what);

/* The library's number of the layout of an opcode's argument: its bytes; 16 for each line; or 64
   and the bytes of the count before a payload. 0 if no opcode has the code. */
uint32_t pkguard_layout(uint8_t code);

/* These numbers, and what they are made of. */
enum { LINE = 16, COUNT = 64 };
extern uint8_t layouts[256];

/* The length of the instruction that begins the bytes, or 0 if it isn't complete; `length_of_long`
   if its argument isn't of a fixed length. */
size_t length_of_long(const uint8_t *bytes, size_t length);
static inline size_t length_of(const uint8_t *bytes, size_t length) {
    unsigned layout = layouts[bytes[0]];
    if (layout < LINE)
        return layout < length ? 1 + layout : 0;
    if (layout == COUNT + 1)
        return length > 1 && bytes[1] < length - 1 ? 2 + (size_t)bytes[1] : 0;
    return length_of_long(bytes, length);
}

/* Reads the memo number of a whole GET or PUT. Returns 0 if it isn't one. */
int parse_number(const uint8_t *bytes, size_t length, uint64_t *number);

/* Places of instructions, which ascend: of each the distance from the one before, seven bits to a
   byte. So they take no more bytes than the instructions. And a byte for each call among them. */
struct notes {
    uint8_t *bytes, *calls;
    size_t size, count, room, places; /* `room` for bytes, `places` for calls */
    size_t last; /* the last place, or where the first instruction begins */
    int is_more; /* whether more than a call is noted, or of one that more is done */
};

/* What happens to the object that a call makes: it gets a state, or items; it is judged; what stands
   for a class makes it. */
enum { HAS_STATE = 1, HAS_ITEMS = 2, OF_JUDGED = 4, IS_NEW = 8 };

/* Notes a place, or a call. Returns 0, and sets an error, if there is no memory. */
int note_far(struct notes *notes, size_t place);
int note_more(struct notes *notes, uint8_t how);
static inline int note(struct notes *notes, size_t place) {
    size_t left = place - notes->last;
    if (left > 127 || notes->size == notes->room)
        return note_far(notes, place);
    notes->bytes[notes->size++] = (uint8_t)left;
    notes->last = place;
    return 1;
}
static inline int note_call(struct notes *notes, uint8_t how) {
    if (notes->count == notes->places)
        return note_more(notes, how);
    notes->calls[notes->count++] = how;
    notes->is_more |= how != 0;
    return 1;
}

/* The pieces that `uses` returns, of the instructions from one place to another. Takes the places
   of BUILD, BINPERSID, FRAME and calls, and those where names become real, in a list that ascends,
   or null. */
PyObject *respelled(
    PyObject *data, size_t begin, size_t end, const struct notes *changes, PyObject *real);

/* A greater memo number than this and the bytes of the pickles is no use. */
#define SPARE (1 << 20)

#endif
