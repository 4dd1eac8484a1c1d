/* Checks a file from C, and prints a verdict like pktool's: guard FILE. `guard` compiles it. */
#include <inttypes.h>
#include <stdio.h>
#include <stdlib.h>

#include "storklocker.h"

#define BYTES(text) (const uint8_t *)(text), sizeof(text) - 1

/* Sorted by module, then by name. */
static const struct storklocker_pair permitted[] = {
    {BYTES("collections"), BYTES("OrderedDict")},
    {BYTES("datetime"), BYTES("datetime")},
};

/* All bytes of a file, for the caller to free, or null if a read or an allocation failed. */
static uint8_t *read_all(FILE *file, size_t *length) {
    size_t room = 1 << 16;
    uint8_t *bytes = malloc(room);
    for (*length = 0; bytes != NULL;) {
        *length += fread(bytes + *length, 1, room - *length, file);
        if (*length < room)
            break;
        uint8_t *more = room <= PTRDIFF_MAX / 2 ? realloc(bytes, room *= 2) : NULL;
        if (more == NULL)
            free(bytes);
        bytes = more;
    }
    if (bytes != NULL && ferror(file)) {
        free(bytes);
        bytes = NULL;
    }
    return bytes;
}

static uint32_t check(const uint8_t *pickle, size_t length, uint8_t *room, size_t size,
    struct storklocker_verdict *verdict) {
    const size_t count = sizeof permitted / sizeof *permitted;
    return storklocker_check_pairs(permitted, count, NULL, pickle, length, room, size, verdict);
}

/* The names are untrusted input: only printable ASCII may reach a terminal or a log. */
static void print_quoted(const uint8_t *name, uint64_t length) {
    putchar('"');
    for (uint64_t i = 0; i < length; i++)
        if (name[i] < ' ' || name[i] > '~' || name[i] == '"' || name[i] == '\\')
            printf("\\x%02x", name[i]);
        else
            putchar(name[i]);
    putchar('"');
}

/* Prints the pair of a refusal. The first call returned its lengths, and a second one writes it. */
static void print_pair(
    const uint8_t *pickle, size_t length, const struct storklocker_verdict *verdict) {
    size_t size = verdict->module_length + verdict->name_length;
    struct storklocker_verdict again;
    uint8_t *names = malloc(size + 1);
    if (names != NULL && check(pickle, length, names, size, &again) == STORKLOCKER_NO
        && again.has_pair) {
        putchar(' ');
        print_quoted(names, again.module_length);
        putchar(' ');
        print_quoted(names + again.module_length, again.name_length);
    }
    free(names);
}

int main(int count, char **words) {
    size_t length;
    struct storklocker_verdict verdict;
    if (count != 2) {
        fputs("usage: guard FILE\n", stderr);
        return 2;
    }
    FILE *file = fopen(words[1], "rb");
    uint8_t *pickle = file != NULL ? read_all(file, &length) : NULL;
    if (pickle == NULL) {
        perror("guard: cannot read the file");
        return 2;
    }
    fclose(file);

    uint32_t status = check(pickle, length, NULL, 0, &verdict);
    if (status == STORKLOCKER_YES) {
        printf("yes: %" PRIu64 " bytes\n", verdict.taken);
    } else {
        printf("no at %" PRIu64 ": %s", verdict.at, storklocker_reason_text(verdict.reason));
        if (verdict.has_pair)
            print_pair(pickle, length, &verdict);
        printf("\n");
    }
    free(pickle);
    return status == STORKLOCKER_YES ? 0 : 1;
}
