/* The memory of the WebAssembly module. What a call takes lies one behind the other, and the caller
   gives all of it back after the call. The toolchain's compiler has no headers. */
typedef __SIZE_TYPE__ size_t;
typedef __UINT32_TYPE__ uint32_t;
typedef __UINT64_TYPE__ uint64_t;
typedef __UINTPTR_TYPE__ uintptr_t;

#define NULL ((void *)0)
#define SIZE_MAX ((size_t)-1)
#define UINT32_MAX ((uint32_t)-1)

enum { PAGE = 65536, ALIGNED = 16 };

void *storklocker_take(uint64_t size);
void *storklocker_retake(void *block, uint64_t size);
void rattle_dealloc(unsigned char *block);
void *reserve(uint64_t size);
void release(void *to);
void limit(uint64_t end);

extern unsigned char __heap_base;
static unsigned char *next, *last;
static uint64_t most = UINT32_MAX;

/* Whether the memory reaches up to here; it grows by half, or by what is needed. */
static int reaches(uint64_t end) {
    uint64_t have = (uint64_t)__builtin_wasm_memory_size(0) * PAGE;
    if (end <= have)
        return 1;
    size_t need = (size_t)((end - have + PAGE - 1) / PAGE), half = (size_t)(have / 2 / PAGE);
    return (half > need && __builtin_wasm_memory_grow(0, half) != SIZE_MAX) ||
        __builtin_wasm_memory_grow(0, need) != SIZE_MAX;
}

/* The address behind a block of this size, 0 if there is no such address. */
static uint64_t end_of(const unsigned char *block, uint64_t size) {
    uint64_t end = (uint64_t)(uintptr_t)block + ((size + ALIGNED - 1) & ~(uint64_t)(ALIGNED - 1));
    return size < most && end < most && reaches(end) ? end : 0;
}

/* The size of a block stands in front of it. */
static void set_size(unsigned char *block, uint64_t end) {
    ((uint32_t *)block)[-1] = (uint32_t)(end - (uint64_t)(uintptr_t)block);
    next = (unsigned char *)(uintptr_t)end;
    last = block;
}

static unsigned char *free_from(void) {
    if (next == NULL)
        next = &__heap_base + (-(uintptr_t)&__heap_base & (ALIGNED - 1));
    return next;
}

void *storklocker_take(uint64_t size) {
    unsigned char *block = free_from() + ALIGNED;
    uint64_t end = end_of(block, size);
    if (end == 0)
        return NULL;
    set_size(block, end);
    return block;
}

void *storklocker_retake(void *given, uint64_t size) {
    unsigned char *block = given;
    uint32_t kept = ((uint32_t *)given)[-1];
    if (size <= kept)
        return block;
    if (block == last) {
        uint64_t end = end_of(block, size);
        if (end == 0)
            return NULL;
        set_size(block, end);
        return block;
    }
    unsigned char *new = storklocker_take(size);
    if (new != NULL)
        __builtin_memcpy(new, block, kept);
    return new;
}

void rattle_dealloc(unsigned char *block) {
    if (block == last) {
        next = block - ALIGNED;
        last = NULL;
    }
}

/* For the caller: room of this size, or null. Without a size, where the next block begins. */
__attribute__((export_name("reserve"))) void *reserve(uint64_t size) {
    unsigned char *room = free_from();
    uint64_t end = end_of(room, size);
    if (end == 0)
        return NULL;
    next = (unsigned char *)(uintptr_t)end;
    last = NULL;
    return room;
}

/* For the caller: gives back all from here on. */
__attribute__((export_name("release"))) void release(void *to) {
    next = to;
    last = NULL;
}

/* For the caller: takes nothing from here on, until it says otherwise. */
__attribute__((export_name("limit"))) void limit(uint64_t end) {
    most = end < UINT32_MAX ? end : UINT32_MAX;
}

/* What LLVM calls for products and shifts of 128 bits. */
struct wide {
    uint64_t low, high;
};

void multiply(struct wide *to, uint64_t a, uint64_t a_high, uint64_t b, uint64_t b_high)
    __asm__("__multi3");
void shift_right(struct wide *to, uint64_t low, uint64_t high, int by) __asm__("__lshrti3");
void shift_left(struct wide *to, uint64_t low, uint64_t high, int by) __asm__("__ashlti3");

void multiply(struct wide *to, uint64_t a, uint64_t a_high, uint64_t b, uint64_t b_high) {
    uint64_t al = (uint32_t)a, au = a >> 32, bl = (uint32_t)b, bu = b >> 32;
    uint64_t low = al * bl, one = al * bu, other = au * bl;
    uint64_t middle = (low >> 32) + (uint32_t)one + (uint32_t)other;
    to->low = (middle << 32) | (uint32_t)low;
    to->high = au * bu + (one >> 32) + (other >> 32) + (middle >> 32) + a * b_high + a_high * b;
}

void shift_right(struct wide *to, uint64_t low, uint64_t high, int by) {
    uint64_t carried = by == 0 || by > 63 ? 0 : high << (64 - by);
    to->low = by > 63 ? high >> (by & 63) : (low >> by) | carried;
    to->high = by > 63 ? 0 : high >> by;
}

void shift_left(struct wide *to, uint64_t low, uint64_t high, int by) {
    uint64_t carried = by == 0 || by > 63 ? 0 : low >> (64 - by);
    to->high = by > 63 ? low << (by & 63) : (high << by) | carried;
    to->low = by > 63 ? 0 : low << by;
}
