#include <inttypes.h>
#include <stdio.h>
#include <storklocker.h>

#define BYTES(text) (const uint8_t *)(text), sizeof(text) - 1

/* Sorted by module, then by name. */
static const struct storklocker_pair permitted[] = {
    {BYTES("collections"), BYTES("OrderedDict")},
    {BYTES("datetime"), BYTES("datetime")},
};

static void print_quoted(const uint8_t *name, uint64_t length) {
    putchar('"');
    for (uint64_t i = 0; i < length; i++)
        if (name[i] < ' ' || name[i] > '~' || name[i] == '"' || name[i] == '\\')
            printf("\\x%02x", name[i]);
        else
            putchar(name[i]);
    putchar('"');
}

int main(void) {
    static uint8_t pickle[1 << 20], names[1 << 10];
    struct storklocker_verdict verdict;
    size_t length = fread(pickle, 1, sizeof pickle, stdin);
    size_t count = sizeof permitted / sizeof *permitted;
    uint32_t status = storklocker_check_pairs(
        permitted, count, NULL, pickle, length, names, sizeof names, &verdict);
    if (status == STORKLOCKER_YES) {
        printf("yes: %" PRIu64 " bytes, %" PRIu64 " imports\n", verdict.taken, verdict.imports);
        return 0;
    }
    printf("no at %" PRIu64 ": %s", verdict.at, storklocker_reason_text(verdict.reason));
    if (verdict.has_pair && verdict.module_length + verdict.name_length <= sizeof names) {
        putchar('(');
        print_quoted(names, verdict.module_length);
        putchar(',');
        print_quoted(names + verdict.module_length, verdict.name_length);
        putchar(')');
    }
    putchar('\n');
    return 1;
}
