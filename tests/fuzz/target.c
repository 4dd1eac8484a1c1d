/* What libFuzzer tries: the answers of the library's calls about the same bytes must agree with one
   another, and with a walk over the instructions by their layout alone. */
#include "storklocker.h"

#include <stdbool.h>
#include <stdio.h>
#include <stdlib.h>
#include <string.h>

#define PAIR(module, name) \
    {(const uint8_t *)(module), sizeof(module) - 1, (const uint8_t *)(name), sizeof(name) - 1}
#define ROOM (1 << 20)

typedef struct storklocker_verdict Verdict;

int LLVMFuzzerTestOneInput(const uint8_t *data, size_t size);

static const struct storklocker_pair LISTED[] = {
    PAIR("_codecs", "encode"), PAIR("collections", "OrderedDict"), PAIR("datetime", "datetime"),
    PAIR("m", "f"),
};
static const char LIST[] =
    "version = 1\n[imports]\n_codecs = [\"encode\"]\ncollections = [\"OrderedDict\"]\n"
    "datetime = [\"datetime\"]\nm = [\"f\"]\n";
static const size_t COUNT = sizeof LISTED / sizeof *LISTED;
static uint8_t room[ROOM];

static void must(bool holds, const char *what) {
    if (!holds) {
        fprintf(stderr, "it doesn't hold: %s\n", what);
        abort();
    }
}

static Verdict checked(const uint8_t *data, size_t size, uint32_t old_strings, uint32_t sorted) {
    struct storklocker_settings settings = STORKLOCKER_STANDARD;
    Verdict verdict;
    settings.old_strings = old_strings;
    settings.sorted = sorted;
    uint32_t status =
        storklocker_check_pairs(LISTED, COUNT, &settings, data, size, room, ROOM, &verdict);
    must(status == verdict.status, "the status is in the verdict");
    must(verdict.at <= size && verdict.taken <= size, "places are inside");
    return verdict;
}

static bool is_same(Verdict one, Verdict other) {
    return one.status == other.status && one.reason == other.reason && one.number == other.number &&
           one.at == other.at && one.taken == other.taken && one.imports == other.imports;
}

/* Whether it is refused because of an import. */
static bool is_importing(Verdict verdict) {
    return verdict.reason == STORKLOCKER_IMPORT_OFF_LIST ||
           verdict.reason == STORKLOCKER_UNKNOWN_IMPORT;
}

static uint64_t number_of(const uint8_t *data, size_t length) {
    uint64_t found = 0;
    for (size_t place = length; place > 0; place--) {
        found = found << 8 | data[place - 1];
    }
    return found;
}

/* The length of the argument of an instruction, whose code is in front; SIZE_MAX if it is cut. */
static size_t argument(const uint8_t *data, size_t size) {
    static const char fixed[] = "J4K1M2G8h1j4q1r4\x80" "1\x82" "1\x83" "2\x84" "4\x95" "8";
    static const char counted[] = "B4C1T4U1X4\x8a" "1\x8b" "4\x8c" "1\x8d" "8\x8e" "8\x96" "8";
    uint8_t code = data[0];
    size_t lines = code == 'c' || code == 'i' ? 2 : strchr("FILPSVgp", code) && code ? 1 : 0;
    size_t taken = 0;
    for (; lines > 0; lines--) {
        const uint8_t *end = memchr(data + 1 + taken, '\n', size - 1 - taken);
        if (end == NULL) {
            return SIZE_MAX;
        }
        taken = (size_t)(end - data);
    }
    for (const char *it = fixed; *it; it += 2) {
        taken = (uint8_t)*it == code ? (size_t)(it[1] - '0') : taken;
    }
    for (const char *it = counted; *it; it += 2) {
        size_t width = (size_t)(it[1] - '0');
        if ((uint8_t)*it == code && width < size) {
            uint64_t count = number_of(data + 1, width);
            return count <= size - 1 - width ? width + (size_t)count : SIZE_MAX;
        }
    }
    return taken < size ? taken : SIZE_MAX;
}

/* Where the pickle ends, and how many instructions of it import something. */
static size_t walked(const uint8_t *data, size_t size, uint64_t *imports) {
    size_t at = 0;
    *imports = 0;
    while (at < size) {
        uint8_t code = data[at];
        size_t length = argument(data + at, size - at);
        if (code == '.') {
            return at + 1;
        }
        if (length == SIZE_MAX) {
            return 0;
        }
        *imports += code == 'c' || code == 'i' || code == 0x93;
        at += 1 + length;
    }
    return 0;
}

/* Whether all imports that were written are listed. */
static bool are_listed(uint64_t wanted) {
    size_t at = 0;
    while (at < wanted) {
        uint64_t module = number_of(room + at, 8);
        uint64_t name = module == UINT64_MAX ? 0 : number_of(room + at + 8 + module, 8);
        bool is_listed = false;
        if (module == UINT64_MAX) {
            return false;
        }
        for (size_t place = 0; place < COUNT; place++) {
            const struct storklocker_pair *pair = &LISTED[place];
            is_listed |= module == pair->module_length && name == pair->name_length &&
                         memcmp(room + at + 8, pair->module_name, module) == 0 &&
                         memcmp(room + at + 16 + module, pair->name, name) == 0;
        }
        if (!is_listed) {
            return false;
        }
        at += 16 + module + name;
    }
    return true;
}

static void compare_imports(const uint8_t *data, size_t size, Verdict strict) {
    Verdict wide;
    uint64_t wanted, walked_imports;
    storklocker_imports(NULL, data, size, room, ROOM, &wanted, &wide);
    if (strict.status == STORKLOCKER_YES) {
        must(wide.status == STORKLOCKER_YES, "what a list accepts, any import accepts");
        must(wide.taken == strict.taken && wide.imports == strict.imports, "both take the same");
        must(wanted > ROOM || are_listed(wanted), "what a list accepts imports listed names");
    } else if (wide.status == STORKLOCKER_YES) {
        must(is_importing(strict), "a list alone refuses imports alone");
        must(wanted > ROOM || !are_listed(wanted), "and one of them is not listed");
    } else {
        must(strict.at <= wide.at, "a list refuses no later");
        must(is_importing(strict) || strict.at == wide.at, "at the same place");
    }
    if (wide.status == STORKLOCKER_YES) {
        must(walked(data, size, &walked_imports) == wide.taken, "it ends where its layout ends");
        must(walked_imports == wide.imports, "each instruction that imports is counted");
    }
}

/* Imports within limits on costs are those without, unless a limit is exceeded. */
static void compare_costs(const uint8_t *data, size_t size) {
    struct storklocker_settings settings = STORKLOCKER_STANDARD;
    Verdict free, within, billed;
    uint64_t wanted, wanted_within;
    settings.levels = 3;
    settings.work = 99;
    settings.builds = 0;
    storklocker_imports(&settings, data, size, room, ROOM, &wanted, &free);
    storklocker_imports_loading(&settings, data, size, room, ROOM, &wanted_within, &within);
    if (within.reason < STORKLOCKER_DEEP_KEY) {
        must(is_same(free, within), "limits on costs change no other answer");
        must(wanted == wanted_within, "and no imports");
    } else {
        must(wanted_within == 0, "of what costs too much no import is told");
        must(free.status == STORKLOCKER_YES || within.at < free.at, "a refusal comes first");
    }
    storklocker_check_pairs(LISTED, COUNT, &settings, data, size, room, ROOM, &billed);
    storklocker_check_within(LISTED, COUNT, &settings, data, size, room, ROOM, &within);
    must(is_same(billed, within), "a bound gives the answer of the bill");
}

static void compare_parts(const uint8_t *data, Verdict strict) {
    size_t taken = (size_t)strict.taken;
    uint8_t *copy = malloc(taken);
    must(taken > 0 && data[taken - 1] == '.', "it ends with STOP");
    must(copy != NULL, "there is memory");
    memcpy(copy, data, taken);
    must(is_same(strict, checked(copy, taken, 0, 0)), "what follows doesn't matter");
    Verdict cut = checked(copy, taken - 1, 0, 0);
    must(cut.status == STORKLOCKER_NO, "without STOP it is cut");
    must(cut.reason == STORKLOCKER_TRUNCATED, "and that is the reason");
    free(copy);
}

static void compare_row(const uint8_t *data, size_t size) {
    Verdict row, one;
    uint64_t pickles = 0, at = 0;
    storklocker_check_row(LISTED, COUNT, NULL, data, size, room, ROOM, &row);
    do {
        one = checked(data + at, size - at, 0, 0);
        at += one.taken;
        pickles += one.status == STORKLOCKER_YES;
    } while (one.status == STORKLOCKER_YES && at < size);
    must(row.status == one.status && row.pickles == pickles, "a row is its pickles");
    if (row.status == STORKLOCKER_YES) {
        must(row.taken == size, "all of them");
    } else {
        must(row.reason == one.reason && row.at == at + one.at, "up to the first that is refused");
    }
}

int LLVMFuzzerTestOneInput(const uint8_t *data, size_t size) {
    Verdict strict = checked(data, size, STORKLOCKER_OLD_UNKNOWN, 0), other;
    storklocker_check_list(
        (const uint8_t *)LIST, sizeof LIST - 1, NULL, data, size, room, ROOM, &other);
    must(is_same(strict, other), "a list file is its pairs");
    other = checked(data, size, STORKLOCKER_OLD_UNKNOWN, 1);
    must(is_same(strict, other), "sorted pairs are pairs");
    compare_imports(data, size, strict);
    compare_costs(data, size);
    if (strict.status == STORKLOCKER_YES) {
        for (uint32_t old = STORKLOCKER_OLD_ASCII; old <= STORKLOCKER_OLD_BYTES; old++) {
            other = checked(data, size, old, 0);
            must(!is_importing(other), "no unpickler imports anything else");
        }
        compare_parts(data, strict);
    }
    compare_row(data, size);
    return 0;
}
