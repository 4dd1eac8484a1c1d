/* Memory for the archive that can be refused and is counted. Linked with
   --wrap=malloc,--wrap=realloc,--wrap=free. */
#include <stddef.h>

void *__real_malloc(size_t size);
void *__real_realloc(void *block, size_t size);
void __real_free(void *block);
void *__wrap_malloc(size_t size);
void *__wrap_realloc(void *block, size_t size);
void __wrap_free(void *block);
void grant(long count);
long are_left(void);

/* how many allocations are still granted, or -1: all */
static _Atomic long granted = -1;
static _Atomic long blocks;

__attribute__((visibility("default"))) void grant(long count) {
    granted = count;
    if (count >= 0)
        blocks = 0;
}

/* How many blocks are held that were not at the last `grant` of a number; -1 where there are none
   and all that was granted is used up. */
__attribute__((visibility("default"))) long are_left(void) {
    return blocks == 0 && granted == 0 ? -1 : blocks;
}

static int is_refused(void) {
    if (granted == 0)
        return 1;
    if (granted > 0)
        granted--;
    return 0;
}

void *__wrap_malloc(size_t size) {
    void *block = is_refused() ? NULL : __real_malloc(size);
    blocks += block != NULL;
    return block;
}

void *__wrap_realloc(void *block, size_t size) {
    return is_refused() ? NULL : __real_realloc(block, size);
}

void __wrap_free(void *block) {
    blocks -= block != NULL;
    __real_free(block);
}
