#include "uses.h"

#include <string.h>

static slot pop(struct uses *u) {
    return u->stack[--u->size];
}

/* Whether there are so many objects on the stack, and no mark among them. */
static int are_there(const struct uses *u, size_t count) {
    for (size_t k = 1; k <= count; k++)
        if (k > u->size || kind_of(u->stack[u->size - k]) == MARK)
            return 0;
    return 1;
}

/* The index of the last mark, or the size of the stack if there is none. */
static size_t last_mark(const struct uses *u) {
    for (size_t k = u->size; k > 0; k--)
        if (kind_of(u->stack[k - 1]) == MARK)
            return k - 1;
    return u->size;
}

/* What an instruction does: it takes values off the top, none to three, or those above a mark; one
   more stays below them; and it gives a new one, unless it KEEPS what is there. `made` follows what
   MAKES, and `moved` what MOVES; a reader is given what CHANGES in other words. (It fails at a byte
   that is no opcode.) */
enum { SLICE = 4, STAYS = 8, KEEPS = 16, MAKES = 32, MOVES = 64, CHANGES = 128 };
enum { IS_TEXT = MOVES | STAYS, IS_PUT = MOVES | KEEPS };
static const uint8_t effects[256] = {
    [0x80] = KEEPS, [0x95] = KEEPS | CHANGES, ['.'] = 1 | KEEPS, [0x98] = STAYS | KEEPS,
    ['Q'] = 1 | CHANGES, ['a'] = 1 | STAYS | KEEPS, ['e'] = SLICE | STAYS | KEEPS,
    [0x90] = SLICE | STAYS | KEEPS, ['i'] = SLICE | CHANGES, ['l'] = SLICE,
    ['o'] = SLICE | CHANGES, [0x91] = SLICE, ['t'] = SLICE | MAKES, ['d'] = SLICE | MAKES,
    ['u'] = SLICE | MAKES, ['}'] = MAKES, [0x85] = 1 | MAKES, [0x86] = 2 | MAKES,
    [0x87] = 3 | MAKES, ['s'] = 2 | MAKES, ['b'] = 2 | MAKES | CHANGES,
    ['R'] = 2 | MAKES | CHANGES, [0x81] = 2 | MAKES | CHANGES, [0x92] = 3 | MAKES | CHANGES,
    ['('] = MOVES, ['0'] = MOVES, ['1'] = SLICE | MOVES, ['2'] = 1 | MOVES, ['c'] = MOVES,
    [0x93] = 2 | MOVES, ['g'] = MOVES, ['h'] = MOVES, ['j'] = MOVES, ['p'] = IS_PUT,
    ['q'] = IS_PUT, ['r'] = IS_PUT, [0x94] = IS_PUT, ['S'] = IS_TEXT, ['T'] = IS_TEXT,
    ['U'] = IS_TEXT, ['V'] = IS_TEXT, ['X'] = IS_TEXT, [0x8c] = IS_TEXT, [0x8d] = IS_TEXT};

/* Whether an instruction pushes what the pickle hasn't made: by a persistent id, EXT, a buffer. */
static int is_given(uint8_t code) {
    return code == 'P' || code == 'Q' || (code >= 0x82 && code <= 0x84) || code == 0x97;
}

/* Has a name become the real object, behind the instruction that pushes it and those that memoize
   it there. */
static int make_real(struct uses *u, size_t at) {
    size_t length;
    do {
        length = length_of(u->bytes + at, u->length - at);
        at += length;
    } while (length > 0 && at < u->length && effects[u->bytes[at]] == IS_PUT);
    if (u->real == NULL && (u->real = PyList_New(0)) == NULL)
        return FAILED;
    PyObject *place = PyLong_FromSize_t(at);
    int is_wrong = place == NULL || PyList_Append(u->real, place) < 0;
    Py_XDECREF(place);
    return is_wrong ? FAILED : DONE;
}

static int use_known(struct uses *u, slot s) {
    if (role_of(u, s) & BECOMES_REAL && mask_of(s) == 0)
        return make_real(u, place_of(s)); /* in this pickle, as all names on the stack */
    if (kind_of(s) == DICT)
        s = u->kept->dicts[place_of(s)];
    if ((kind_of(s) == NAME && !(role_of(u, s) & WRAPS)) || (kind_of(s) == TUPLE && mask_of(s))) {
        u->fault = s;
        return LOST;
    }
    return DONE;
}

/* An object becomes a value: part of another one, or the result. */
static inline int use(struct uses *u, slot s) {
    return kind_of(s) < NAME ? DONE : use_known(u, s);
}

/* The objects from an index on become values, and are taken off the stack down to another index. */
static int use_from(struct uses *u, size_t index, size_t below) {
    int is = DONE;
    while (index < u->size && is == DONE)
        is = use(u, u->stack[index++]);
    u->size = below;
    return is;
}

/* Whether the objects from an index on are short texts. */
static int are_texts(const struct uses *u, size_t index) {
    while (index < u->size && kind_of(u->stack[index]) == TEXT && name_of(u->stack[index]))
        index++;
    return index == u->size;
}

/* The objects from an index on become a tuple, in which only classes stay what they are. */
static int make_tuple(struct uses *u, size_t index, size_t below) {
    size_t count = u->size - index < FULL ? u->size - index : FULL;
    slot made = SLOT(ROW, are_texts(u, index) ? count | TEXTS : count, 0), mask = 0, has = 0;
    int is = DONE;
    for (size_t k = index; k < u->size && is == DONE; k++) {
        slot s = u->stack[k];
        unsigned role = role_of(u, s);
        int is_passed = role & IS_PASSED && k - index < 8;
        if (is_passed || role & WRAPS)
            made = SLOT(role & WRAPS && mask == 0 ? WRAPPER : TUPLE, name_of(s), place_of(s));
        else
            is = use(u, s);
        mask |= is_passed ? MASK(1u << (k - index)) : 0;
        has |= kind_of(s) == MADE ? ANSWERS_IN : 0;
    }
    u->size = below;
    return is == DONE ? push(u, made | mask | (kind_of(made) == ROW ? SLOT(0, has, 0) : 0)) : is;
}

/* Puts the keys and values from an index on into a dict. That of a wrapper's state has a class. */
static int set_items(struct uses *u, size_t index, size_t below, slot dict) {
    slot none = OTHER, *held = kind_of(dict) == DICT ? u->kept->dicts + place_of(dict) : &none;
    int is = DONE;
    for (size_t k = index; k < u->size && is == DONE; k++) {
        slot s = u->stack[k];
        if ((k - index) % 2 == 1 && role_of(u, s) & IS_PASSED && kind_of(*held) != OTHER)
            *held = s;
        else
            is = use(u, s);
    }
    u->size = below;
    return is;
}

static int make_dict(struct uses *u, size_t index, size_t below) {
    struct kept *kept = u->kept;
    if (kept->count == kept->room && grow(&kept->dicts, &kept->room) != DONE)
        return FAILED;
    kept->dicts[kept->count] = ABSENT;
    slot made = SLOT(DICT, 0, kept->count++);
    int is = set_items(u, index, below, made);
    return is == DONE ? push(u, made) : is;
}

/* Notes a call, and pushes what it makes, which gets the number of the call for a place. */
static int push_made(struct uses *u, unsigned how, slot made) {
    struct notes *notes = &u->changes;
    if (!note_call(notes, (uint8_t)how))
        return FAILED;
    return push(u, made | SLOT(0, 0, u->kept->calls + notes->count - 1));
}

/* An object gets a state or items. So may what a call of this pickle has made, but a state only
   once, and no items after it: then an attribute of its own could take them. */
static int change(struct uses *u, slot s, uint8_t how) {
    size_t place = place_of(s), first = u->kept->calls;
    int is_made = kind_of(s) == MADE && place >= first;
    uint8_t *call = is_made ? u->changes.calls + (place - first) : NULL;
    int is_own = how == HAS_ITEMS && (kind_of(s) < GIVEN || kind_of(s) == DICT);
    if (kind_of(s) == WRAPPER || is_own || u->takes_any)
        return DONE;
    if (!is_made || *call & HAS_STATE) {
        u->fault = SLOT(GIVEN, 0, u->at);
        return LOST;
    }
    *call |= how;
    u->changes.is_more = 1;
    return DONE;
}

/* Whether a substitute would do with these arguments what the real object does. */
static int is_free(unsigned role, slot words, uint8_t code) {
    unsigned count = name_of(words) & FULL;
    if (kind_of(words) != ROW || (code != 'R' && code != 0x81))
        return 0;
    if (code == 0x81)
        return count == 0 && role & NEW_OF_NONE;
    int is_of_texts = name_of(words) & TEXTS && role & (count == 1 ? OF_TEXT | OF_TEXTS : OF_TEXTS);
    int is_one = count == 1 && !(name_of(words) & ANSWERS_IN);
    return (count == 0 && role & OF_NONE) || (is_one && role & OF_ONE) || is_of_texts;
}

/* Whether a pickle may call an object. Of what its calls have made these are only joblib's wrapper,
   and the answers of names of which the list says that they answer functions. */
static int is_callable(struct uses *u, slot called) {
    if (kind_of(called) == MADE && name_of(called) == 0)
        u->fault = SLOT(MADE, 0, u->at);
    return u->fault == ABSENT;
}

/* What a call of an object makes. */
static slot answer_of(const struct uses *u, slot called) {
    int is_known = kind_of(called) >= GIVEN && kind_of(called) <= JUDGED;
    int is_meant = is_known && name_of(called) == MEANT;
    return SLOT(MADE, is_meant ? MEANT : role_of(u, called) & ANSWERS ? ANSWERING : 0, 0);
}

/* Calls an object with arguments, or makes an object of a class with them. */
static int call(struct uses *u, slot called, slot words, uint8_t code) {
    unsigned role = role_of(u, called), how = kind_of(called) == NAME && code != 'R' ? IS_NEW : 0;
    int is_new = code != 'R', is_by_id = called == BY_AN_ID && !is_new;
    int is_known = kind_of(called) == GIVEN || kind_of(called) == NAME;
    int is_wrapper = is_new ? (role & WRAPS) != 0 : kind_of(words) == WRAPPER;
    int is = !is_callable(u, called) ? LOST
        : mask_of(words) & ~(is_new ? 0 : role >> TAKES) ? use(u, words) : DONE;
    if (is == DONE && (kind_of(words) == NAME || kind_of(words) == DICT))
        is = use(u, words);
    if (is == DONE && kind_of(called) != NAME)
        is = use(u, called);
    how |= (!is_known || role & IS_JUDGED ? OF_JUDGED : 0) | (is_by_id ? IS_NEW : 0);
    u->is_named |= is_by_id || (kind_of(called) == NAME && !is_free(role, words, code));
    return is == DONE ? push_made(u, how, is_wrapper ? WRAPPER : answer_of(u, called)) : is;
}

/* Follows an instruction that makes, calls or changes an object, and takes what lies from an index
   on, down to another one. */
static int made(struct uses *u, uint8_t code, size_t index, size_t below) {
    slot top;
    int is = DONE;
    switch (code) {
    case 'd':
    case '}':
        return make_dict(u, index, below);
    case 's':
    case 'u':
        is = below > 0 ? set_items(u, index, below, u->stack[below - 1]) : LOST;
        return is == DONE ? change(u, u->stack[below - 1], HAS_ITEMS) : is;
    case 'b': /* the class in the state of a wrapper is an argument of it */
        top = pop(u);
        if (kind_of(top) != DICT || kind_of(u->stack[below]) != WRAPPER)
            is = use(u, top);
        return is == DONE ? change(u, u->stack[below], HAS_STATE) : is;
    case 0x92:
        is = use(u, pop(u)); /* fall through */
    case 'R':
    case 0x81:
        top = pop(u);
        return is == DONE ? call(u, pop(u), top, code) : is;
    }
    return make_tuple(u, index, below);
}

/* An object gets another name in the pickle, by which it may be used a second time. */
static int share(struct uses *u, slot s) {
    if (kind_of(s) != DICT)
        return DONE;
    if (kind_of(u->kept->dicts[place_of(s)]) == NAME)
        return use(u, s);
    u->kept->dicts[place_of(s)] = OTHER;
    return DONE;
}

static int get(struct uses *u) {
    uint64_t number;
    if (!parse_number(u->bytes + u->at, u->next - u->at, &number))
        return LOST;
    slot s = kept_under(u->kept, number);
    if (kind_of(s) == ABSENT || share(u, s) != DONE)
        return LOST;
    return push(u, kind_of(s) == NAME ? SLOT(NAME, name_of(s), u->at) : s);
}

/* Memoizes the object on the top. A name that is memoized later than where it is pushed can't
   become real there, because the memo has to hold what can be called. */
static int put(struct uses *u, size_t last) {
    struct kept *kept = u->kept;
    uint64_t number = kept->entries;
    int is_memoize = u->bytes[u->at] == 0x94;
    if (!is_memoize && !parse_number(u->bytes + u->at, u->next - u->at, &number))
        return LOST;
    if (number > u->length + SPARE || !are_there(u, 1))
        return LOST;
    slot *top = u->stack + u->size - 1;
    if (kind_of(*top) == NAME && place_of(*top) != last)
        *top |= MASK(1);
    return keep_under(kept, number, *top);
}

/* Follows an instruction that moves objects, or pushes a name. */
static int moved(struct uses *u, uint8_t code, size_t mark) {
    slot name, module;
    switch (code) {
    case '(':
        return push(u, MARK);
    case '0':
        u->size -= u->size > 0;
        return DONE;
    case '1':
        u->size = mark;
        return DONE;
    case '2': /* the copy would be real too */
        u->stack[u->size - 1] |= kind_of(u->stack[u->size - 1]) == NAME ? MASK(1) : 0;
        return share(u, u->stack[u->size - 1]) == DONE ? push(u, u->stack[u->size - 1]) : LOST;
    case 'c':
        return imported(u, u->at, u->at);
    case 0x93:
        name = pop(u), module = pop(u);
        return kind_of(name) == TEXT && kind_of(module) == TEXT
            ? imported(u, place_of(module), place_of(name)) : LOST;
    }
    return get(u);
}

static inline slot text(const struct uses *u, uint8_t code) {
    return SLOT(TEXT, (code == 0x8c || code == 'X') && u->next - u->at <= SHORT, u->at);
}

/* Follows an instruction. `last`: the last one before it that isn't a PUT. */
static int followed_one(struct uses *u, uint8_t code, size_t last) {
    uint8_t effect = effects[code];
    if (effect == 0)
        return push(u, is_given(code) ? BY_AN_ID : code == ')' ? SLOT(ROW, TEXTS, 0) : OTHER);
    if (effect == IS_TEXT)
        return push(u, text(u, code));
    if (effect == IS_PUT)
        return put(u, last);
    size_t count = effect & 3, below = effect & SLICE ? last_mark(u) : u->size - count;
    size_t index = below + (effect & SLICE ? 1 : 0);
    if (!are_there(u, count) || index > u->size)
        return LOST;
    if (effect & MAKES)
        return made(u, code, index, below);
    if (effect & MOVES)
        return moved(u, code, below);
    slot called = code == 'o' && index < u->size ? u->stack[index] : GIVEN;
    unsigned how = OF_JUDGED;
    if (kind_of(called) == NAME || called == BY_AN_ID) {
        index += kind_of(called) == NAME; /* the name that OBJ calls isn't to become real */
        how |= IS_NEW;
        u->is_named = 1;
    }
    int is = is_callable(u, called) ? use_from(u, index, below) : LOST;
    is = is == DONE && effect & STAYS && !are_there(u, 1) ? LOST : is;
    if (is == DONE && (code == 'a' || code == 'e' || code == 0x90))
        is = change(u, u->stack[u->size - 1], HAS_ITEMS);
    if (is == DONE && (code == 'i' || code == 'o'))
        return push_made(u, how, answer_of(u, called));
    return is == DONE && !(effect & KEEPS) ? push(u, is_given(code) ? BY_AN_ID : OTHER) : is;
}

int followed_all(struct uses *u) {
    const uint8_t *bytes = u->bytes;
    size_t length = u->length, next, last = u->start;
    int is = DONE, is_stopped = 0;
    for (size_t at = u->start; at < length && !is_stopped; at = next) {
        at = is == DONE ? usual_run(u, at, &last) : at;
        size_t taken = length_of(bytes + at, length - at);
        uint8_t code = bytes[at];
        u->at = at, u->next = next = at + taken;
        if (taken == 0)
            return LOST;
        if (effects[code] & CHANGES && !note(&u->changes, at))
            return FAILED;
        u->changes.is_more |= code == 'b';
        u->is_named |= code == 'i'; /* which imports by itself */
        if (is == DONE && (is = followed_one(u, code, last)) != DONE
            && (is == FAILED || u->fault != ABSENT))
            return is;
        is_stopped = code == '.';
        last = effects[code] == IS_PUT ? last : at;
    }
    return is_stopped ? is : LOST;
}
