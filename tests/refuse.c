/*
 * Refuses a program what it asks of the C library. LD_PRELOAD loads it before that, and the
 * environment tells it what to refuse:
 *
 *   REFUSE_WHAT   memory, read or write; or length: each read and each write is of one byte at most
 *   REFUSE_FIRST  the call that is refused, counted from 1 as the program begins; without it, none
 *   REFUSE_ALL    set where every later call is refused too
 *   REFUSE_TELLS  a descriptor that is written a byte at the first refusal
 *
 * The GNU C library's own calls for memory stand behind these, so nothing is looked up, and nothing
 * runs before them.
 */
#define _GNU_SOURCE
#include <errno.h>
#include <stddef.h>
#include <stdlib.h>
#include <string.h>
#include <sys/syscall.h>
#include <unistd.h>

extern void *__libc_malloc(size_t size);
extern void *__libc_calloc(size_t count, size_t size);
extern void *__libc_realloc(void *old, size_t size);
extern void *__libc_memalign(size_t alignment, size_t size);

static const char *what = "";
static long first, calls;
static int all, tells = -1;

static long number(const char *name) {
    const char *word = getenv(name);
    return word ? atol(word) : -1;
}

/* What the loader asks for before comes before the program, and isn't counted. */
__attribute__((constructor)) static void begin(void) {
    const char *word = getenv("REFUSE_WHAT");
    what = word ? word : "";
    first = number("REFUSE_FIRST");
    all = getenv("REFUSE_ALL") != NULL;
    tells = (int)number("REFUSE_TELLS");
    calls = 0;
}

static int refused(const char *kind) {
    if (strcmp(kind, what) != 0)
        return 0;
    calls++;
    if (calls == first && tells >= 0)
        syscall(SYS_write, tells, "r", 1);
    return all ? first > 0 && calls >= first : calls == first;
}

static void *none(void) {
    errno = ENOMEM;
    return NULL;
}

void *malloc(size_t size) {
    return refused("memory") ? none() : __libc_malloc(size);
}

void *calloc(size_t count, size_t size) {
    return refused("memory") ? none() : __libc_calloc(count, size);
}

void *realloc(void *old, size_t size) {
    return refused("memory") ? none() : __libc_realloc(old, size);
}

void *aligned_alloc(size_t alignment, size_t size) {
    return refused("memory") ? none() : __libc_memalign(alignment, size);
}

void *memalign(size_t alignment, size_t size) {
    return refused("memory") ? none() : __libc_memalign(alignment, size);
}

int posix_memalign(void **to, size_t alignment, size_t size) {
    void *made = refused("memory") ? NULL : __libc_memalign(alignment, size);
    if (!made)
        return ENOMEM;
    *to = made;
    return 0;
}

/* How much of a read or of a write is done. */
static size_t done(size_t size) {
    return size > 1 && strcmp(what, "length") == 0 ? 1 : size;
}

ssize_t read(int from, void *to, size_t size) {
    if (!refused("read"))
        return syscall(SYS_read, from, to, done(size));
    errno = EIO;
    return -1;
}

ssize_t write(int to, const void *from, size_t size) {
    if (!refused("write"))
        return syscall(SYS_write, to, from, done(size));
    errno = EIO;
    return -1;
}

ssize_t __write(int to, const void *from, size_t size) {
    return write(to, from, size);
}
