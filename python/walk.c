#include "walk.h"

#include <string.h>

#define LENT (1 << 14) /* so many bytes in a row that don't change aren't copied */
#define FIRST 64       /* the room for the first notes */

enum { BUILD = 'b', FRAME = 0x95 };
uint8_t layouts[256];

/* When the module is loaded, before any call. */
__attribute__((constructor)) static void fill_layouts(void) {
    for (unsigned code = 0; code < sizeof layouts; code++)
        layouts[code] = (uint8_t)pkguard_layout((uint8_t)code);
}

size_t length_of_long(const uint8_t *bytes, size_t length) {
    unsigned layout = layouts[bytes[0]], width = layout % LINE;
    size_t at = 1;
    if (layout >= COUNT) {
        uint64_t count = 0;
        for (unsigned k = width; k > 0 && width < length; k--)
            count = count << 8 | bytes[k];
        return width < length && count < length - width ? 1 + width + (size_t)count : 0;
    }
    for (; layout >= LINE; layout -= LINE) {
        const uint8_t *end = memchr(bytes + at, '\n', length - at);
        if (end == NULL)
            return 0;
        at = (size_t)(end - bytes) + 1;
    }
    return at;
}

int parse_number(const uint8_t *bytes, size_t length, uint64_t *number) {
    int is_line = bytes[0] == 'g' || bytes[0] == 'p';
    *number = 0;
    for (size_t k = 1; k < length - (is_line ? 1 : 0); k++) {
        if (is_line && (bytes[k] < '0' || bytes[k] > '9' || *number > UINT32_MAX))
            return 0;
        *number = is_line ? 10 * *number + (uint64_t)(bytes[k] - '0')
                          : *number | (uint64_t)bytes[k] << 8 * (k - 1);
    }
    return !is_line || length > 2;
}

/* Doubles the room of notes. Returns 0, and sets an error, if there is no memory. */
static int enlarge(uint8_t **bytes, size_t *room) {
    size_t wanted = *room == 0 ? FIRST : 2 * *room;
    uint8_t *more = PyMem_Realloc(*bytes, wanted);
    if (more == NULL) {
        PyErr_NoMemory();
        return 0;
    }
    *bytes = more;
    *room = wanted;
    return 1;
}

int note_far(struct notes *notes, size_t place) {
    size_t left = place - notes->last;
    do {
        if (notes->size == notes->room && !enlarge(&notes->bytes, &notes->room))
            return 0;
        notes->bytes[notes->size++] = (uint8_t)(left > 127 ? 128 | (left & 127) : left);
    } while ((left >>= 7) > 0);
    notes->last = place;
    return 1;
}

int note_more(struct notes *notes, uint8_t how) {
    return enlarge(&notes->calls, &notes->places) && note_call(notes, how);
}

/* The place that is noted from an index on, given the one before it. */
static size_t noted(const struct notes *notes, size_t *index, size_t place) {
    for (unsigned shift = 0;; shift += 7) {
        uint8_t byte = notes->bytes[(*index)++];
        place += (size_t)(byte & 127) << shift;
        if (byte < 128)
            return place;
    }
}

/* The pieces of a pickle in other words, which are first measured and then written. */
struct writing {
    PyObject *data, *made, *pieces;
    const uint8_t *bytes;     /* of `data` */
    uint8_t *out;             /* of `made`, what is copied; null as long as that is measured */
    size_t room, size, begin; /* of what is copied; `begin`: where its last piece begins */
    int is_wrong;
};

static void put(struct writing *w, const void *bytes, size_t count) {
    w->is_wrong |= count > w->room - w->size; /* if someone changes the list, which `gc` shows */
    if (w->is_wrong)
        return;
    if (w->out != NULL)
        memcpy(w->out + w->size, bytes, count);
    w->size += count;
}

static void add_piece(struct writing *w, PyObject *of, size_t begin, size_t end) {
    if (w->pieces == NULL || begin == end)
        return;
    PyObject *piece = Py_BuildValue("Onn", of, (Py_ssize_t)begin, (Py_ssize_t)end);
    w->is_wrong |= piece == NULL || PyList_Append(w->pieces, piece) < 0;
    Py_XDECREF(piece);
}

/* Puts instructions that don't change. */
static void put_stretch(struct writing *w, size_t begin, size_t end) {
    w->is_wrong |= begin > end;
    if (end - begin < LENT) {
        put(w, w->bytes + begin, end - begin);
    } else if (!w->is_wrong) {
        add_piece(w, w->made, w->begin, w->size);
        add_piece(w, w->data, begin, end);
        w->begin = w->size;
    }
}

static int is_call(uint8_t code) {
    return code == 'R' || code == 0x81 || code == 0x92 || code == 'i' || code == 'o';
}

/* How an instruction is written that makes an object of what stands for a class, or calls what an
   id gave. */
static const char *new_of(uint8_t code) {
    return code == 'R' ? "}\x87Q"
        : code == 0x81 ? "]\x87Q"
        : code == 0x92 ? "\x87\x88]\x87Q" : "tN]\x87Q";
}

/* Writes the instructions between two places. A real object comes before what changes there. */
static void write_pieces(
    struct writing *w, size_t at, size_t end, const struct notes *changes, PyObject *real) {
    Py_ssize_t next = 0, count = real != NULL ? PyList_Size(real) : 0;
    size_t index = 0, change = at, calls = 0;
    uint8_t how = 0;
    do {
        change = index < changes->size ? noted(changes, &index, change) : end;
        if (change < end && is_call(w->bytes[change])) {
            how = calls < changes->count ? changes->calls[calls] : 0;
            calls++;
            if (how == 0)
                continue;
        }
        for (; next < count; next++) {
            size_t place = PyLong_AsSize_t(PyList_GetItem(real, next));
            if (place > change)
                break;
            put_stretch(w, at, place);
            put(w, "NN\x87Q", 4);
            at = place;
        }
        put_stretch(w, at, change);
        if (change < end) {
            uint8_t code = w->bytes[change];
            at = change + length_of(w->bytes + change, end - change);
            if (is_call(code)) {
                uint8_t judged[] = {'N', 'K', how & (uint8_t)~IS_NEW, 0x87, 'Q'};
                if (how & IS_NEW)
                    put(w, new_of(code), strlen(new_of(code)));
                else
                    put_stretch(w, change, at);
                put(w, judged, how == IS_NEW ? 0 : sizeof judged);
            } else {
                put(w, code == BUILD ? "\x86Q" : "\x85Q", code == FRAME ? 0 : 2);
            }
        }
    } while (change < end);
    add_piece(w, w->made, w->begin, w->size);
    w->is_wrong |= next < count;
}

#ifdef PYPY_VERSION /* it copies an object's bytes at first sight: so they are written before */
enum { PASSES = 2 };
#else
enum { PASSES = 1 };
#endif

PyObject *respelled(
    PyObject *data, size_t begin, size_t end, const struct notes *changes, PyObject *real) {
    struct writing w = {
        .data = data, .bytes = (const uint8_t *)PyBytes_AsString(data), .room = SIZE_MAX};
    write_pieces(&w, begin, end, changes, real);
    w.room = w.size;
    PyObject *pieces = PyList_New(0);
    w.made = PyBytes_FromStringAndSize(NULL, (Py_ssize_t)w.room);
    w.is_wrong |= pieces == NULL || w.made == NULL;
    for (int left = PASSES; left > 0 && !w.is_wrong; left--) {
        w.size = w.begin = 0;
        w.out = left == PASSES ? (uint8_t *)PyBytes_AsString(w.made) : NULL;
        w.pieces = left == 1 ? pieces : NULL;
        write_pieces(&w, begin, end, changes, real);
    }
    Py_XDECREF(w.made);
    if (!w.is_wrong && w.size == w.room)
        return pieces;
    Py_XDECREF(pieces);
    if (!PyErr_Occurred())
        PyErr_SetString(PyExc_ValueError, "the places of real objects don't ascend in the pickle");
    return NULL;
}
