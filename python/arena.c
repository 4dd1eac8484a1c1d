/* The allocator of the extension module: that of heap.c, with an arena of ARENA bytes, from which
   blocks are taken while it is open. malloc and free take a fifteenth of a short check. */
#define rattle_alloc heap_alloc
#define rattle_realloc heap_realloc
#define rattle_dealloc heap_dealloc
#include "heap.c"
#undef rattle_alloc
#undef rattle_realloc
#undef rattle_dealloc

#include "arena.h"

#include <stdint.h>
#include <string.h>

enum { ALIGNMENT = 16 }; /* that of malloc */

struct tried rattle_alloc(size_t size, size_t alignment);
struct tried rattle_realloc(unsigned char *block, size_t kept, size_t size, size_t alignment);
void rattle_dealloc(unsigned char *block);

/* Its blocks lie behind its free bytes. */
static struct {
    _Alignas(ALIGNMENT) unsigned char bytes[ARENA + 1];
    size_t free, blocks;
} arena;

void open_arena(void) {
    if (arena.blocks == 0) /* otherwise a block was never given back: it stays closed */
        arena.free = ARENA;
}

void close_arena(void) {
    arena.free = 0;
}

static bool is_in_arena(const unsigned char *block) {
    return (uintptr_t)block - (uintptr_t)arena.bytes < ARENA;
}

struct tried rattle_alloc(size_t size, size_t alignment) {
    size_t taken = size < LEAST ? LEAST : size;
    if (taken > arena.free)
        return heap_alloc(size, alignment);
    arena.free = (arena.free - taken) / ALIGNMENT * ALIGNMENT;
    arena.blocks++;
    return (struct tried){true, arena.bytes + arena.free};
}

struct tried rattle_realloc(unsigned char *block, size_t kept, size_t size, size_t alignment) {
    if (size <= LEAST || !is_in_arena(block))
        return heap_realloc(block, kept, size, alignment);
    struct tried other = rattle_alloc(size, alignment);
    if (other.is_granted) {
        memcpy(other.block, block, kept);
        rattle_dealloc(block);
    }
    return other;
}

void rattle_dealloc(unsigned char *block) {
    if (is_in_arena(block))
        arena.blocks--;
    else
        heap_dealloc(block);
}
