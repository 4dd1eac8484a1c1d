/* What both programs that call the C library begin with. */
#ifndef C_LIBRARY_H
#define C_LIBRARY_H

#include <stddef.h>
#include <stdio.h>
#include <stdlib.h>
#include <string.h>

#include "storklocker.h"

#define BYTES(text) (const uint8_t *)text, sizeof text - 1
#define EIGHT(digit) digit "\0\0\0\0\0\0\0"
/* 65 bytes whose key takes as long to hash as 2 ** 31 objects */
#define TWICE "2\x86" "2\x86" "2\x86" "2\x86" "2\x86"
#define DOUBLED "})" TWICE TWICE TWICE TWICE TWICE TWICE "Ns."
#define IS(fact) ((fact) ? (void)0 : wrong(__LINE__, #fact))
/* calls of two pairs, which tell `verdict` */
#define CHECK(pairs, settings, text) \
    storklocker_check_pairs(pairs, 2, settings, BYTES(text), NULL, 0, &verdict)
#define CHECK_ROW(settings, text) \
    storklocker_check_row(listed, 2, settings, BYTES(text), room, 8, &verdict)

void grant(long count);
long are_left(void);

static const struct storklocker_pair listed[] = {
    {BYTES("a"), BYTES("b")},
    {BYTES("os"), BYTES("path")},
};
static const struct storklocker_settings standard = STORKLOCKER_STANDARD;
static int wrongs;

static void wrong(int line, const char *fact) {
    printf("line %d: %s\n", line, fact);
    wrongs++;
}

static int is_same(const void *room, const char *bytes, size_t length) {
    return memcmp(room, bytes, length) == 0;
}

#endif
