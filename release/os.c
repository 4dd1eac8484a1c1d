/* What a static program takes of the system: the words of the command line, and errno. The
   toolchain's own file of these is compiled for x86-64 alone. */
#include <errno.h>
#include <stddef.h>
#include <stdint.h>
#include <string.h>

static char **words;
static size_t count;

/* glibc hands each constructor what it hands main */
__attribute__((constructor)) static void keep(int given, char **all) {
    words = all;
    count = given < 0 ? 0 : (size_t)given;
}

/* puts word i, without its NUL, at the start of `to`: its length, -1 where there is no such word,
   -2 where it doesn't fit */
ptrdiff_t rattle_arg(size_t i, unsigned char *to, size_t room) {
    if (i >= count)
        return -1;
    size_t length = strlen(words[i]);
    memcpy(to, words[i], length < room ? length : room);
    return length > room ? -2 : (ptrdiff_t)length;
}

int rattle_errno(void) { return errno; }

void rattle_set_errno(int number) { errno = number; }
