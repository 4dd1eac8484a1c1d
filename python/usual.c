/* Instructions of which most pickles consist, followed as `uses.c` does, in fewer steps. */
#include "uses.h"

/* Whether the objects from an index on can be parts of anything: no marks, names or dicts. */
static inline int are_plain(const struct uses *u, size_t index) {
    while (index < u->size && kind_of(u->stack[index]) > MARK && kind_of(u->stack[index]) < NAME)
        index++;
    return index == u->size;
}

/* Puts the plain objects above the last mark into a new container of the pickle; 0 if they, or what
   is below them, are others. */
static inline int is_filled(struct uses *u) {
    size_t mark = u->size;
    while (mark > 0 && kind_of(u->stack[mark - 1]) > MARK && kind_of(u->stack[mark - 1]) < NAME)
        mark--;
    unsigned below = mark > 1 ? kind_of(u->stack[mark - 2]) : MARK;
    if (mark < 2 || kind_of(u->stack[mark - 1]) != MARK || (below != OTHER && below != DICT))
        return 0;
    u->size = mark - 1;
    return 1;
}

/* Memoizes a plain object, for whose number there is room. */
static inline int is_put(struct uses *u, size_t number) {
    struct kept *kept = u->kept;
    unsigned top = u->size > 0 ? kind_of(u->stack[u->size - 1]) : MARK;
    if (number >= kept->numbers || top == MARK || top == NAME)
        return 0;
    kept->entries += kind_of(kept->memo[number]) == ABSENT;
    kept->memo[number] = u->stack[u->size - 1];
    return 1;
}

static inline int is_got(struct uses *u, size_t number) {
    unsigned kind = number < u->kept->numbers ? kind_of(u->kept->memo[number]) : ABSENT;
    if (kind == ABSENT || kind == NAME || kind == DICT)
        return 0;
    u->stack[u->size++] = u->kept->memo[number];
    return 1;
}

/* Calls a name without a substitute with plain arguments. */
static inline int is_called(struct uses *u, size_t at) {
    struct notes *notes = &u->changes;
    if (u->size < 2 || !are_plain(u, u->size - 1) || u->stack[u->size - 2] != GIVEN
        || notes->size == notes->room || notes->count == notes->places || at - notes->last > 127)
        return 0;
    note(notes, at);
    note_call(notes, 0);
    u->stack[--u->size - 1] = SLOT(MADE, 0, u->kept->calls + notes->count - 1);
    return 1;
}

static inline int is_dict(struct uses *u) {
    struct kept *kept = u->kept;
    if (kept->count == kept->room)
        return 0;
    kept->dicts[kept->count] = ABSENT;
    u->stack[u->size++] = SLOT(DICT, 0, kept->count++);
    return 1;
}

static inline int is_row(struct uses *u, size_t count) {
    size_t index = u->size - count;
    unsigned are_short = TEXTS, has = 0;
    if (u->size < count || !are_plain(u, index))
        return 0;
    for (size_t k = index; k < u->size; k++) {
        are_short &= kind_of(u->stack[k]) == TEXT ? name_of(u->stack[k]) * TEXTS : 0;
        has |= kind_of(u->stack[k]) == MADE ? ANSWERS_IN : 0;
    }
    u->stack[index] = SLOT(ROW, count | are_short | has, 0);
    u->size = index + 1;
    return 1;
}

/* Follows an instruction of the kinds that most pickles consist of, for whose object there is room.
   Returns where it ends; or 0 if `followed_one` has to, and then nothing has changed. */
static size_t usual(struct uses *u, size_t at) {
    const uint8_t *bytes = u->bytes + at;
    size_t next = at + 1;
    switch (bytes[0]) {
    case 'G':
        next += 4; /* fall through */
    case 'J':
        next += 2; /* fall through */
    case 'M':
        next++; /* fall through */
    case 'K':
        next++; /* fall through */
    case 'N': case ']': case 0x88: case 0x89: case 0x8f:
        u->stack[u->size++] = OTHER;
        return next;
    case 'C': case 0x8a: case 0x8c:
        next += 1 + (size_t)bytes[1];
        if (next >= u->length)
            return 0;
        u->stack[u->size++] =
            bytes[0] == 0x8c ? SLOT(TEXT, next - at <= SHORT, at) : OTHER;
        return next;
    case '(':
        u->stack[u->size++] = MARK;
        return next;
    case 'h':
        return is_got(u, bytes[1]) ? next + 1 : 0;
    case 'q':
        return is_put(u, bytes[1]) ? next + 1 : 0;
    case 0x94:
        return is_put(u, u->kept->entries) ? next : 0;
    case '}':
        return is_dict(u) ? next : 0;
    case ')': case 0x85: case 0x86: case 0x87:
        return is_row(u, bytes[0] == ')' ? 0 : bytes[0] - 0x84u) ? next : 0;
    case 'R': case 0x81:
        return is_called(u, at) ? next : 0;
    case 'e': case 'u':
        return is_filled(u) ? next : 0;
    }
    return 0;
}

size_t usual_run(struct uses *u, size_t at, size_t *last) {
    size_t next;
    while (at + 9 < u->length && u->size < u->room && (next = usual(u, at)) > 0) {
        *last = u->bytes[at] == 0x94 || u->bytes[at] == 'q' ? *last : at;
        at = next;
        if (u->bytes[at] == 0x94 && is_put(u, u->kept->entries))
            at++;
    }
    return at;
}
