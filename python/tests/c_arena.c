/* The arena of the extension module: its blocks lie apart and keep their bytes, what doesn't fit
   comes from malloc, and it stays closed while a block is in use. */
#define ARENA 4096
#include "../arena.c"

#include <stdio.h>

void grant(long count); /* of refusing.c */

enum { COUNT = 9 };

static int faults;
static void see(int is_right, int line) {
    if (!is_right)
        faults += printf("line %d\n", line) > 0;
}
#define SEE(is_right) see(is_right, __LINE__)

static unsigned char *granted(size_t size, int byte) {
    struct tried tried = rattle_alloc(size, 8);
    SEE(tried.is_granted && (uintptr_t)tried.block % ALIGNMENT == 0);
    memset(tried.block, byte, size);
    return tried.block;
}

static int holds(const unsigned char *block, size_t size, int byte) {
    for (size_t k = 0; k < size; k++)
        if (block[k] != byte)
            return 0;
    return 1;
}

/* As a check does: some blocks, one of which grows within the arena and then out of it. */
static void take_turns(void) {
    unsigned char *blocks[COUNT];
    open_arena();
    for (int k = 0; k < COUNT; k++) {
        blocks[k] = granted(k < 5 ? 100 : 500, k);
        SEE(is_in_arena(blocks[k]));
    }
    SEE(rattle_realloc(blocks[0], 100, LEAST, 8).block == blocks[0]);
    struct tried grown = rattle_realloc(blocks[0], 100, 400, 8);
    SEE(grown.is_granted && is_in_arena(grown.block) && holds(grown.block, 100, 0));
    grown = rattle_realloc(grown.block, 100, ARENA, 8);
    SEE(grown.is_granted && !is_in_arena(grown.block) && holds(grown.block, 100, 0));
    grown = rattle_realloc(grown.block, 100, 2 * ARENA, 8);
    SEE(grown.is_granted && holds(grown.block, 100, 0));
    blocks[0] = grown.block;
    grant(0);
    SEE(!rattle_realloc(blocks[1], 100, ARENA, 8).is_granted);
    SEE(!rattle_alloc(ARENA, 8).is_granted);
    grant(-1);
    for (int k = 0; k < COUNT; k++) {
        SEE(holds(blocks[k], k < 5 ? 100 : 500, k));
        rattle_dealloc(blocks[k]);
    }
    close_arena();
}

int main(void) {
    unsigned char *outside = granted(100, 1);
    SEE(!is_in_arena(outside));
    for (int k = 0; k < 3; k++)
        take_turns();
    rattle_dealloc(outside);
    open_arena();
    unsigned char *kept = granted(100, 2);
    close_arena();
    open_arena();
    outside = granted(100, 3);
    SEE(is_in_arena(kept) && holds(kept, 100, 2) && !is_in_arena(outside));
    close_arena();
    rattle_dealloc(outside);
    rattle_dealloc(kept);
    take_turns();
    return faults != 0;
}
