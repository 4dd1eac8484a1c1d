/* The allocator of a Rattle archive, which calls these three functions. No block has fewer than
   LEAST bytes, so that the small vectors of a short pickle rarely have to grow. A check with limits
   on costs has nine blocks at a time, five of at most 256 bytes and four of 512; glibc keeps only
   seven freed ones of a size at hand. If an allocation is refused, `block` points to a byte that
   nobody uses. */
#include <stdbool.h>
#include <stddef.h>
#include <stdlib.h>

#ifndef LEAST
#define LEAST 256
#endif

struct tried {
    bool is_granted;
    unsigned char *block;
};

struct tried rattle_alloc(size_t size, size_t alignment);
struct tried rattle_realloc(unsigned char *block, size_t kept, size_t size, size_t alignment);
void rattle_dealloc(unsigned char *block);

static unsigned char nobodys;

static struct tried answer(void *block) {
    return (struct tried){block != NULL, block != NULL ? block : &nobodys};
}

/* malloc aligns to 16 bytes, a multiple of every alignment that is requested. */
struct tried rattle_alloc(size_t size, size_t alignment) {
    (void)alignment;
    return answer(malloc(size < LEAST ? LEAST : size));
}

struct tried rattle_realloc(unsigned char *block, size_t kept, size_t size, size_t alignment) {
    (void)kept, (void)alignment;
    return size <= LEAST ? (struct tried){true, block} : answer(realloc(block, size));
}

void rattle_dealloc(unsigned char *block) {
    free(block);
}
