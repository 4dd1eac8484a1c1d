/* Prints what the library says of each pickle in a file: answers FILE
   The file has records: the length of a list file in four bytes, the list file, and so a pickle. */
#include "storklocker.h"

#include <stdio.h>
#include <stdlib.h>

enum { ROOM = 1 << 20 };

struct bytes {
    uint8_t *at;
    size_t length;
};

/* The next length and its bytes, or an end of the file. */
static int next(FILE *file, struct bytes *bytes) {
    unsigned char size[4];
    if (fread(size, 1, 4, file) != 4)
        return 0;
    bytes->length = size[0] | size[1] << 8 | size[2] << 16 | (size_t)size[3] << 24;
    bytes->at = realloc(bytes->at, bytes->length + 1);
    if (bytes->at == NULL || fread(bytes->at, 1, bytes->length, file) != bytes->length)
        exit(3);
    return 1;
}

/* A digest of bytes, the same in answers.mjs. */
static unsigned digest(const uint8_t *bytes, uint64_t length) {
    uint32_t sum = 2166136261;
    for (uint64_t i = 0; i < length; i++)
        sum = (sum ^ bytes[i]) * 16777619u;
    return sum;
}

static void print(const struct storklocker_verdict *it) {
    printf(
        "%u %u %u %u %llu %llu %llu %llu %llu %llu", it->status, it->reason, it->number,
        it->has_pair, (unsigned long long)it->at, (unsigned long long)it->taken,
        (unsigned long long)it->imports, (unsigned long long)it->module_length,
        (unsigned long long)it->name_length, (unsigned long long)it->pickles);
}

int main(int count, char **words) {
    static uint8_t room[ROOM];
    struct bytes list = {NULL, 0}, pickle = {NULL, 0};
    FILE *file = count == 2 ? fopen(words[1], "rb") : NULL;
    if (file == NULL)
        return 2;
    while (next(file, &list) && next(file, &pickle)) {
        struct storklocker_settings settings = STORKLOCKER_STANDARD;
        struct storklocker_verdict verdict;
        uint64_t wanted;
        settings.passed = 1ull << 40;
        storklocker_check_list(
            list.at, list.length, &settings, pickle.at, pickle.length, room, ROOM, &verdict);
        print(&verdict);
        printf(" %x | ", digest(room, verdict.module_length + verdict.name_length));
        settings.numbers = UINT32_MAX;
        storklocker_imports(
            &settings, pickle.at, pickle.length, room, ROOM, &wanted, &verdict);
        print(&verdict);
        printf(" %llu %x\n", (unsigned long long)wanted, digest(room, wanted <= ROOM ? wanted : 0));
    }
    return 0;
}
