/* The allocator of a Rattle archive on a machine with a C library; heap.ll has the functions that
   give two words back. As in python/heap.c, no block has fewer than LEAST bytes. */
#include <stdint.h>
#include <stdlib.h>

#ifndef LEAST
#define LEAST 512
#endif

void *storklocker_take(uint64_t size);
void *storklocker_retake(void *block, uint64_t size);
void rattle_dealloc(unsigned char *block);

/* malloc aligns to 16 bytes, a multiple of every alignment that is requested. */
void *storklocker_take(uint64_t size) {
    return malloc(size < LEAST ? LEAST : size);
}

void *storklocker_retake(void *block, uint64_t size) {
    return size <= LEAST ? block : realloc(block, size);
}

void rattle_dealloc(unsigned char *block) {
    free(block);
}
