/* The C library as a C program calls it that limits what loading costs, or whose header is older and
   can't. Linked with refusing.c under sanitizers; prints what is wrong. */
#include "c_library.h"

/* Each limit on costs: what is accepted without it is refused, and one more is enough. */
static void costs(void) {
    static const struct {
        struct storklocker_settings settings;
        const char *pickle;
        uint32_t reason;
        uint64_t at;
    } limited[] = {
#define LIMITED(levels, weight, work, clash, memory, builds) \
    {sizeof(struct storklocker_settings), 16777216, 1000000, 1000000, 16777216, 1000000, 0, 0, 0, \
     0, levels, weight, work, clash, memory, builds, 0}
#define NONE32 UINT32_MAX
#define NONE UINT64_MAX
        {LIMITED(2, NONE32, NONE, NONE, NONE, 1), "})\x85\x85Ns.", STORKLOCKER_DEEP_KEY, 5},
        {LIMITED(3, NONE32, NONE, NONE, NONE, 1), "})\x85\x85Ns.", 0, 0},
        {LIMITED(NONE32, 1000000, NONE, NONE, NONE, 1), DOUBLED, STORKLOCKER_HEAVY_KEYS, 63},
        {LIMITED(NONE32, 1048574, NONE, NONE, NONE, 1), DOUBLED, STORKLOCKER_HEAVY_KEYS, 63},
        {LIMITED(NONE32, NONE32, NONE, NONE, NONE, 1), DOUBLED, 0, 0},
        {LIMITED(NONE32, NONE32, 1, NONE, NONE, 1), "}(NNNNu.", STORKLOCKER_HEAVY_KEYS, 6},
        {LIMITED(NONE32, NONE32, 2, NONE, NONE, 1), "}(NNNNu.", 0, 0},
        {LIMITED(NONE32, NONE32, NONE, 3, NONE, 1), "\x8f(NNNN\x90.", STORKLOCKER_MANY_KEYS, 6},
        {LIMITED(NONE32, NONE32, NONE, 4, NONE, 1), "\x8f(NNNN\x90.", 0, 0},
        {LIMITED(NONE32, NONE32, NONE, NONE, 743, 1), "](\x8f\x8f" "e.",
         STORKLOCKER_MUCH_MEMORY, 5},
        {LIMITED(NONE32, NONE32, NONE, NONE, 744, 1), "](\x8f\x8f" "e.", 0, 0},
        {LIMITED(NONE32, NONE32, NONE, NONE, NONE, 0), "ca\nb\n}b.", STORKLOCKER_BUILDS_IMPORT,
         6},
        {LIMITED(NONE32, NONE32, NONE, NONE, NONE, 0), "ca\nb\n)R}b.", 0, 0},
    };
    for (size_t k = 0; k < sizeof limited / sizeof *limited; k++) {
        const struct storklocker_settings *limits = &limited[k].settings;
        const uint8_t *pickle = (const uint8_t *)limited[k].pickle;
        size_t length = strlen(limited[k].pickle);
        struct storklocker_verdict verdict, within, free;
        IS(storklocker_check_pairs(listed, 2, NULL, pickle, length, NULL, 0, &free) == 0);
        storklocker_check_pairs(listed, 2, limits, pickle, length, NULL, 0, &verdict);
        if (verdict.status != (limited[k].reason != 0) || verdict.reason != limited[k].reason
            || verdict.at != limited[k].at || verdict.taken != (verdict.status ? 0 : free.taken))
            wrong((int)k, "limited");
        storklocker_check_within(listed, 2, limits, pickle, length, NULL, 0, &within);
        if (within.status != verdict.status || within.reason != verdict.reason
            || within.at != verdict.at || within.taken != verdict.taken || within.memory != 0)
            wrong((int)k, "within limits");
        storklocker_check_row(listed, 2, limits, pickle, length, NULL, 0, &verdict);
        if (verdict.reason != limited[k].reason || verdict.at != limited[k].at)
            wrong((int)k, "limited in a row");
    }
}

/* The bill of the last pickle, which is told where costs are limited and for a yes alone. */
static void bills(void) {
    static const struct storklocker_settings limits = LIMITED(9, 9, 9, 9, 9999, 0);
    struct storklocker_settings given = limits;
    struct storklocker_verdict verdict;
    uint8_t room[9] = "rrrrrrrr";
    IS(CHECK(listed, &limits, "}K\1)\x85\x85s.") == STORKLOCKER_YES);
    IS(verdict.levels == 0 && verdict.weight == 1 && verdict.work == 1 && verdict.clash == 1);
    IS(verdict.memory == 512 && verdict.taken == 8 && verdict.pickles == 1);
    IS(CHECK(listed, &limits, "})\x85NsN.") == STORKLOCKER_NO);
    IS(verdict.reason == STORKLOCKER_LEFT_OVER && verdict.weight == 0 && verdict.memory == 0);
    IS(CHECK(listed, &standard, "})\x85Ns.") == STORKLOCKER_YES && verdict.weight == 0);
    IS(CHECK_ROW(&limits, "}K\1Ns.})\x85Ns.") == STORKLOCKER_YES && verdict.pickles == 2);
    IS(verdict.levels == 2 && verdict.weight == 2 && verdict.work == 2 && verdict.clash == 2);
    IS(CHECK_ROW(&limits, "})\x85Ns.}K\1)\x85\x85s.") == STORKLOCKER_YES && verdict.pickles == 2);
    IS(verdict.levels == 0 && verdict.work == 1 && verdict.memory == 512);
    given.levels = 1;
    IS(CHECK_ROW(&given, "}K\1Ns.})\x85Ns.") == STORKLOCKER_NO && verdict.pickles == 1);
    IS(verdict.reason == STORKLOCKER_DEEP_KEY && verdict.at == 10 && verdict.weight == 0);
    /* what is refused first */
    IS(CHECK_ROW(&given, "})\x85Ns0cos\nx\n.") == STORKLOCKER_NO && verdict.at == 4);
    IS(verdict.reason == STORKLOCKER_DEEP_KEY && is_same(room, "rrrrrrrr", 8));
    IS(CHECK_ROW(&given, "cos\nx\n0})\x85Ns.") == STORKLOCKER_NO && verdict.at == 0);
    IS(verdict.reason == STORKLOCKER_IMPORT_OFF_LIST && is_same(room, "osxrrrrr", 8));
    IS(CHECK_ROW(&given, "])\x85Ns.") == STORKLOCKER_NO && verdict.at == 4);
    IS(verdict.reason == STORKLOCKER_WRONG_CLASS);
}

/* What can't be kept is told so: unknown numbers, and limits on costs beside the text of a list. */
static void unkept(void) {
    struct storklocker_settings given = standard;
    struct storklocker_verdict verdict;
    uint8_t room[8];
    given.builds = 2;
    IS(CHECK(listed, &given, "N.") == STORKLOCKER_USAGE);
    given.builds = 0;
    IS(CHECK(listed, &given, "N.") == STORKLOCKER_YES);
    IS(storklocker_check_list(BYTES("x"), &given, BYTES("N."), room, 8, &verdict) == 3);
    IS(storklocker_imports(&given, BYTES("cx\ny\n}b."), room, 8, NULL, &verdict) == 0);
    given = standard;
    given.levels = 1023;
    IS(CHECK(listed, &given, "N.") == STORKLOCKER_USAGE);
    given.levels = 1022;
    given.weight = 1048575;
    IS(CHECK_ROW(&given, "N.") == STORKLOCKER_USAGE);
    IS(storklocker_check_within(listed, 2, &given, BYTES("N."), NULL, 0, &verdict) == 3);
    IS(storklocker_imports_loading(&given, BYTES("N."), room, 8, NULL, &verdict) == 3);
    given.weight = 1048574;
    IS(CHECK(listed, &given, "N.") == STORKLOCKER_YES);
    given = standard;
    given.unused = 1;
    IS(CHECK(listed, &given, "N.") == STORKLOCKER_USAGE);
    IS(CHECK_ROW(&given, "N.") == STORKLOCKER_USAGE);
    given = standard;
    given.work = 7;
    given.row_memo = 2;
    IS(CHECK(listed, &given, "N.") == STORKLOCKER_USAGE);
    IS(storklocker_read_list(BYTES("version = 1\n[imports]"), room, 8, &given, NULL, NULL) == 0);
    IS(given.size == sizeof given && given.work == UINT64_MAX && given.levels == UINT32_MAX);
    IS(given.builds == 1 && given.unused == 0);
}

/* What a list file says of costs is told to a caller whose header has it, and to no other. */
static void listed_costs(void) {
    static const char few[] = "version = 2\n[imports]\n[limits]\nlevels = 3\nmemory = 9\n";
    static const char made[] = "version = 2\n[imports]\n[rules]\nbuild = 'made'\n";
    static const char any[] = "version = 2\n[imports]\n[limits]\nweight = 4294967295\n"
                              "[rules]\nbuild = 'any'\n";
    struct storklocker_settings given = standard, old = standard;
    struct storklocker_verdict verdict;
    uint64_t wanted = 1;
    IS(storklocker_read_list(BYTES(few), NULL, 0, &given, NULL, NULL) == STORKLOCKER_YES);
    IS(given.levels == 3 && given.memory == 9 && given.weight == UINT32_MAX && given.builds == 1);
    IS(given.work == UINT64_MAX && given.clash == UINT64_MAX && given.stack == 1000000);
    IS(storklocker_read_list(BYTES(made), NULL, 0, &given, NULL, NULL) == STORKLOCKER_YES);
    IS(given.levels == UINT32_MAX && given.memory == UINT64_MAX && given.builds == 0);
    IS(storklocker_check_list(BYTES(few), NULL, BYTES("N."), NULL, 0, &verdict) == 3);
    IS(storklocker_check_list(BYTES(made), NULL, BYTES("N."), NULL, 0, &verdict) == 3);
    IS(storklocker_check_list(BYTES(any), NULL, BYTES("N."), NULL, 0, &verdict) == 3);
    old.size = offsetof(struct storklocker_settings, levels);
    IS(storklocker_read_list(BYTES(few), NULL, 0, &old, &wanted, &verdict) == STORKLOCKER_USAGE);
    IS(verdict.status == STORKLOCKER_USAGE && verdict.reason == 0 && wanted == 0);
    IS(storklocker_read_list(BYTES(made), NULL, 0, &old, NULL, NULL) == STORKLOCKER_USAGE);
    IS(storklocker_read_list(BYTES(any), NULL, 0, &old, NULL, NULL) == STORKLOCKER_YES);
    for (long count = 0; count < 100; count++) {
        grant(count);
        storklocker_read_list(BYTES(few), NULL, 0, &given, &wanted, &verdict);
        grant(-1);
        IS(verdict.status == 0 || verdict.reason == STORKLOCKER_LIST_OUT_OF_MEMORY);
        IS(verdict.status != 0 || (given.levels == 3 && given.memory == 9));
    }
}

/* Which keys a list has, and its substitutes, as the pairs of their names. */
static void told(void) {
    static const char some[] = "version = 2\n[imports]\n[limits]\nnumbers = 4294967295\n"
                               "weight = 4294967295\n[substitutes]\n'm.n' = 'of'\n";
    struct storklocker_said said;
    struct storklocker_verdict verdict;
    struct storklocker_settings given = standard;
    uint64_t wanted = 0;
    uint8_t room[40] = "rrrrrrrr";
#define TOLD(list) \
    storklocker_list_told(BYTES(list), room, sizeof room, &said, &wanted, &verdict)
    IS(TOLD(some) == STORKLOCKER_YES && wanted == 21 && verdict.status == 0);
    IS(said.limits == 1 && said.numbers == 1 && said.weight == 1 && said.levels == 0);
    IS(said.work == 0 && said.clash == 0 && said.memory == 0 && said.build == 0);
    IS(is_same(room, EIGHT("\3") "m.n" EIGHT("\2") "of", 21) && room[21] == 0);
    IS(storklocker_read_list(BYTES(some), NULL, 0, &given, NULL, NULL) == STORKLOCKER_YES);
    IS(given.numbers == 4294967295 && given.weight == UINT32_MAX);
    IS(TOLD("version = 2\nimports = { numbers = [] }\nrules = { build = 'any' }") == 0);
    IS(wanted == 0 && said.limits == 0 && said.numbers == 0 && said.build == 1);
    IS(TOLD("version = 2\nimports = {}\nsubstitutes = { a = 1 }") == STORKLOCKER_NO_LIST);
    IS(verdict.reason == STORKLOCKER_LIST_SHAPE_SUBSTITUTE && said.build == 1);
    IS(storklocker_list_told(NULL, 0, NULL, 0, NULL, NULL, NULL) == STORKLOCKER_NO_LIST);
    for (long count = 0; count < 100; count++) {
        grant(count);
        TOLD(some);
        grant(-1);
        IS(verdict.status == 0 ? wanted == 21 : verdict.reason == STORKLOCKER_LIST_OUT_OF_MEMORY);
    }
}

/* A caller whose header has no costs: no byte of its settings and verdicts beyond them is used. */
static void older(void) {
    size_t size = offsetof(struct storklocker_settings, levels);
    size_t told = offsetof(struct storklocker_verdict, levels);
    struct storklocker_settings *given = malloc(size);
    struct storklocker_verdict *verdict = malloc(told);
    if (given == NULL || verdict == NULL)
        exit(2);
    memcpy(given, &standard, size);
    given->size = size;
    IS(storklocker_check_pairs(listed, 2, given, BYTES(DOUBLED), NULL, 0, verdict) == 0);
    IS(storklocker_check_pairs(listed, 2, NULL, BYTES(DOUBLED), NULL, 0, verdict) == 0);
    IS(storklocker_check_row(listed, 2, given, BYTES(DOUBLED "N."), NULL, 0, verdict) == 0);
    IS(verdict->taken == 67 && verdict->pickles == 2);
    IS(storklocker_imports(given, BYTES(DOUBLED), NULL, 0, NULL, verdict) == STORKLOCKER_YES);
    IS(storklocker_read_list(BYTES("version = 1\n[imports]"), NULL, 0, given, NULL, verdict) == 0);
    IS(given->size == size && given->stack == 1000000 && given->numbers == 1000000);
    for (long count = 0; count < 100; count++) {
        grant(count);
        storklocker_read_list(
            BYTES("version = 1\n[imports]\nnumbers = []"), NULL, 0, given, NULL, verdict);
        grant(-1);
        IS(verdict->status == 0 || verdict->reason == STORKLOCKER_LIST_OUT_OF_MEMORY);
    }
    free(given);
    free(verdict);
}

/* Within limits on costs, a bound gives the verdict of the bill, which isn't told. */
static void within(void) {
    static const struct storklocker_settings limits = LIMITED(9, 9, 99, 99, NONE, 0);
    static const char *const pickles[] = {
        "N.", "}K\1)\x85\x85s.", "](N2\x86" "22\x86" "22\x86" "22\x86" "e.", "cx\ny\n}b.",
        "cx\ny\n)R}b.", "cos\nabs\n.", "](K\1K\2", "NN.", "}\x8c\4" "abcdNs.", "\x8f(NNNN\x90."};
    struct storklocker_settings given = limits;
    struct storklocker_verdict verdict, billed;
    uint8_t room[9] = "rrrrrrrr", same[9] = "rrrrrrrr";
    for (size_t k = 0; k < sizeof pickles / sizeof *pickles; k++) {
        const uint8_t *pickle = (const uint8_t *)pickles[k];
        size_t length = strlen(pickles[k]);
        storklocker_check_pairs(listed, 2, &limits, pickle, length, same, 8, &billed);
        storklocker_check_within(listed, 2, &limits, pickle, length, room, 8, &verdict);
        IS(verdict.weight == 0 && verdict.memory == 0);
        verdict.levels = billed.levels, verdict.weight = billed.weight;
        verdict.work = billed.work, verdict.clash = billed.clash, verdict.memory = billed.memory;
        if (memcmp(&verdict, &billed, sizeof verdict) != 0 || !is_same(room, (char *)same, 8))
            wrong((int)k, "within");
    }
    given.builds = 2;
    IS(storklocker_check_within(listed, 2, &given, BYTES("N."), NULL, 0, &verdict) == 3);
    IS(storklocker_check_within(NULL, 0, &limits, NULL, 0, NULL, 0, NULL) == STORKLOCKER_NO);
    IS(storklocker_check_within(listed, 2, NULL, BYTES("N."), NULL, 0, NULL) == STORKLOCKER_YES);
    for (long count = 0; count < 100; count++) {
        grant(count);
        storklocker_check_within(listed, 2, &limits, BYTES("}K\1Ns."), NULL, 0, &verdict);
        grant(-1);
        IS(verdict.status == 0 || verdict.reason == STORKLOCKER_OUT_OF_MEMORY);
    }
}

/* Imports within limits on costs: the bill of a yes, and none of what exceeds a limit. */
static void imports_within(void) {
    static const struct storklocker_settings limits = LIMITED(9, 9, 9, 9, 9999, 0);
    struct storklocker_settings given = limits;
    struct storklocker_verdict verdict;
    uint64_t wanted = 7;
    uint8_t room[40] = "rrrrrrrr";
#define IMPORTS(settings, pickle) \
    storklocker_imports_loading(settings, BYTES(pickle), room, sizeof room, &wanted, &verdict)
    IS(IMPORTS(&limits, "cx\ny\n}b.") == STORKLOCKER_NO && verdict.at == 6 && wanted == 0);
    IS(verdict.reason == STORKLOCKER_BUILDS_IMPORT && verdict.imports == 0 && room[0] == 'r');
    IS(IMPORTS(&limits, "}K\1cx\ny\ns.N.") == STORKLOCKER_YES && verdict.taken == 10);
    IS(wanted == 18 && verdict.imports == 1 && verdict.pickles == 1 && verdict.weight == 1);
    IS(verdict.work == 1 && verdict.clash == 1 && verdict.memory != 0);
    IS(is_same(room, EIGHT("\1") "x" EIGHT("\1") "y", 18) && room[18] == 0);
    IS(IMPORTS(&limits, "cos\nabs\n\xff") == STORKLOCKER_NO && verdict.at == 8 && wanted == 21);
    IS(verdict.reason == STORKLOCKER_UNKNOWN_OPCODE && verdict.imports == 1 && room[8] == 'o');
    IS(verdict.memory == 0 && verdict.number == 255);
    IS(IMPORTS(NULL, "cx\ny\n}b.") == STORKLOCKER_YES && wanted == 18 && verdict.memory == 0);
    given.builds = 2;
    IS(IMPORTS(&given, "N.") == STORKLOCKER_USAGE && wanted == 0 && verdict.memory == 0);
    IS(storklocker_imports_loading(&limits, NULL, 0, NULL, 0, NULL, NULL) == STORKLOCKER_NO);
    for (long count = 0; count < 100; count++) {
        grant(count);
        IMPORTS(&limits, "cx\ny\n.");
        grant(-1);
        IS(verdict.status == 0 ? wanted == 18 : verdict.reason == STORKLOCKER_OUT_OF_MEMORY);
    }
}

int main(void) {
    costs();
    bills();
    within();
    imports_within();
    unkept();
    older();
    listed_costs();
    told();
    return wrongs != 0;
}
