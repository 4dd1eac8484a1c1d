/* The C library as a C program calls it: nulls, settings of another size, rows, lists, imports, and
   each allocation refused. Linked with refusing.c under sanitizers; prints what is wrong. */
#include "c_library.h"

#include <pthread.h>
#include <sys/wait.h>
#include <unistd.h>

/* A pointer may be null where its length is 0, and what is told through a null is not told. */
static void nulls(void) {
    struct storklocker_verdict verdict;
    uint64_t wanted = 7;
    IS(storklocker_check_pairs(NULL, 0, NULL, BYTES("N."), NULL, 0, &verdict) == STORKLOCKER_YES);
    IS(verdict.taken == 2 && verdict.imports == 0 && verdict.pickles == 1);
    IS(storklocker_check_pairs(NULL, 0, NULL, NULL, 0, NULL, 0, &verdict) == STORKLOCKER_NO);
    IS(verdict.reason == STORKLOCKER_TRUNCATED && verdict.at == 0 && verdict.pickles == 0);
    IS(storklocker_check_pairs(NULL, 0, NULL, BYTES("ca\nb\n."), NULL, 0, NULL) == STORKLOCKER_NO);
    IS(storklocker_check_list(NULL, 0, NULL, NULL, 0, NULL, 0, &verdict) == STORKLOCKER_NO_LIST);
    IS(verdict.reason == STORKLOCKER_LIST_SHAPE_VERSION);
    IS(storklocker_check_row(NULL, 0, NULL, NULL, 0, NULL, 0, &verdict) == STORKLOCKER_NO);
    IS(verdict.reason == STORKLOCKER_TRUNCATED && verdict.pickles == 0);
    IS(storklocker_read_list(NULL, 0, NULL, 0, NULL, NULL, NULL) == STORKLOCKER_NO_LIST);
    IS(storklocker_imports(NULL, BYTES("ca\nb\n."), NULL, 0, NULL, NULL) == STORKLOCKER_YES);
    IS(storklocker_imports(NULL, NULL, 0, NULL, 0, &wanted, NULL) == STORKLOCKER_NO && wanted == 0);
}

/* Settings of another size are told so, and no byte of them beyond that size is read. */
static void sizes(void) {
    const uint64_t others[] = {0, 1, 8, 9, 40, 63, 65, 72, 96, 103, 105, 128, UINT64_MAX};
    for (size_t k = 0; k < sizeof others / sizeof *others; k++) {
        size_t held = others[k] < 8 ? 8 : others[k] < 128 ? (size_t)others[k] : 128;
        struct storklocker_settings *given = calloc(1, held);
        struct storklocker_verdict verdict;
        uint8_t room[8] = "r";
        if (given == NULL)
            exit(2);
        memcpy(given, &others[k], sizeof others[k]);
        IS(CHECK(listed, given, "N.") == STORKLOCKER_USAGE);
        IS(CHECK_ROW(given, "N.") == STORKLOCKER_USAGE);
        IS(storklocker_check_list(BYTES("x"), given, BYTES("N."), room, 8, &verdict) == 3);
        IS(storklocker_imports(given, BYTES("N."), room, 8, NULL, &verdict) == 3);
        IS(storklocker_read_list(BYTES("x"), room, 8, given, NULL, &verdict) == 3);
        IS(verdict.status == STORKLOCKER_USAGE && verdict.reason == 0 && is_same(room, "r", 2));
        free(given);
    }
}

/* A number that stands for nothing is told so. */
static void numbers(void) {
    struct storklocker_settings given[] = {standard, standard, standard, standard};
    struct storklocker_verdict verdict;
    uint8_t room[8];
    given[0].old_strings = 3;
    given[1].row_memo = 2;
    given[2].large = 2;
    given[3].sorted = 2;
    for (int k = 0; k < 4; k++) {
        IS(CHECK(listed, &given[k], "N.") == STORKLOCKER_USAGE);
        IS(CHECK_ROW(&given[k], "N.") == STORKLOCKER_USAGE);
        IS(storklocker_imports(&given[k], BYTES("N."), NULL, 0, NULL, NULL) == STORKLOCKER_USAGE);
    }
}

/* A limit on memo numbers, larger limits, and pairs that are said to be in order. */
static void settings(void) {
    struct storklocker_settings given = standard;
    struct storklocker_verdict verdict;
    size_t many = 1000001;
    uint8_t *marks = malloc(many);
    if (marks == NULL)
        exit(2);
    memset(marks, '(', many);
    IS(storklocker_check_pairs(NULL, 0, NULL, marks, many, NULL, 0, &verdict) == STORKLOCKER_NO);
    IS(verdict.reason == STORKLOCKER_TOO_LARGE && verdict.at == 1000000);
    given.stack = UINT64_MAX;
    storklocker_check_pairs(NULL, 0, &given, marks, many, NULL, 0, &verdict);
    IS(verdict.reason == STORKLOCKER_TOO_LARGE);
    given.large = 1;
    storklocker_check_pairs(NULL, 0, &given, marks, many, NULL, 0, &verdict);
    IS(verdict.reason == STORKLOCKER_TRUNCATED && verdict.at == many);
    free(marks);

    IS(CHECK(listed, NULL, "Nr\x40\x42\x0f\0.") == STORKLOCKER_YES);
    IS(CHECK(listed, NULL, "Nr\x41\x42\x0f\0.") == STORKLOCKER_NO);
    IS(verdict.reason == STORKLOCKER_TOO_LARGE && verdict.at == 1);
    given = standard;
    given.numbers = 999999;
    IS(CHECK(listed, &given, "Nr\x3f\x42\x0f\0.") == STORKLOCKER_YES);
    IS(CHECK(listed, &given, "Nr\x40\x42\x0f\0.") == STORKLOCKER_NO);
    IS(verdict.reason == STORKLOCKER_TOO_LARGE && verdict.at == 1);

    const struct storklocker_pair turned[] = {listed[1], listed[0]};
    given = standard;
    given.sorted = 1;
    IS(CHECK(listed, &given, "ca\nb\n.") == STORKLOCKER_YES);
    IS(CHECK(listed, &given, "cos\npath\n.") == STORKLOCKER_YES);
    IS(CHECK(listed, &given, "cos\nsystem\n.") == STORKLOCKER_NO);
    IS(CHECK(turned, &given, "cos\nsystem\n.") == STORKLOCKER_NO);
    given.sorted = 0;
    IS(CHECK(turned, &given, "ca\nb\n.") == STORKLOCKER_YES);
    IS(CHECK(turned, &given, "cos\npath\n.") == STORKLOCKER_YES);
}

/* Rows under an Unpickler for each pickle, and under one for all. */
static void rows(void) {
    struct storklocker_settings kept = standard;
    struct storklocker_verdict verdict;
    uint8_t room[9] = "rrrrrrrr";
    kept.row_memo = STORKLOCKER_MEMO_KEPT;
    IS(CHECK_ROW(NULL, "ca\nb\n.N.") == STORKLOCKER_YES);
    IS(verdict.taken == 8 && verdict.imports == 1 && verdict.pickles == 2);
    IS(is_same(room, "rrrrrrrr", 8));
    IS(CHECK_ROW(NULL, "N.N.ca\nc\n.") == STORKLOCKER_NO);
    IS(verdict.reason == STORKLOCKER_IMPORT_OFF_LIST && verdict.at == 4 && verdict.pickles == 2);
    IS(verdict.module_length == 1 && verdict.name_length == 1 && is_same(room, "acrrrrrr", 8));
    IS(CHECK_ROW(NULL, "]q\1.h\1.") == STORKLOCKER_NO);
    IS(verdict.reason == STORKLOCKER_MISSING_MEMO && verdict.number == 1 && verdict.at == 4);
    IS(CHECK_ROW(&kept, "]q\1.h\1.") == STORKLOCKER_YES);
    IS(verdict.taken == 7 && verdict.pickles == 2);
}

/* The limit on memo numbers of a list file: the standard one unless the list names another. */
static void numbers_of_lists(void) {
    static const struct {
        const char *text;
        uint64_t numbers;
    } lists[] = {
        {"version = 1\n[imports]\n", 1000000},
        {"version = 2\n[imports]\n", 1000000},
        {"version = 2\n[imports]\nnumbers = ['Number']\n", 1000000},
        {"version = 2\n[imports]\n-umbers = ['a']\nnumbers = ['b']\n[limits]\n", 1000000},
        {"version = 2\n[imports]\n[limits]\n# numbers\nlarge = true\n", 1000000},
        {"version = 2\n[imports]\n[limits]\nnumbers = 7\n", 7},
        {"version = 2\n[imports]\n[limits]\nnumbers = 4_294_967_295\n", 4294967295},
        {"version = 2\nlimits = {'numbers' = 0xffffffff}\nimports.numbers = []", 4294967295},
        {"version = 2\nlimits.numbers = 4294967294\nimports.a = []", 4294967294},
    };
    for (size_t k = 0; k < sizeof lists / sizeof *lists; k++) {
        struct storklocker_settings limits = {.size = sizeof limits};
        const uint8_t *text = (const uint8_t *)lists[k].text;
        size_t length = strlen(lists[k].text);
        IS(storklocker_read_list(text, length, NULL, 0, &limits, NULL, NULL) == STORKLOCKER_YES);
        if (limits.numbers != lists[k].numbers)
            wrong((int)k, lists[k].text);
    }
}

/* The texts of numbers. */
static void texts(void) {
    IS(strcmp(storklocker_reason_text(STORKLOCKER_IMPORT_OFF_LIST), "ImportOffList") == 0);
    IS(strcmp(storklocker_reason_text(STORKLOCKER_NOT_ASCII), "NotAscii") == 0);
    IS(strcmp(storklocker_fault_text(STORKLOCKER_LIST_SHAPE_LIMIT), "Shape(Limit)") == 0);
    IS(strcmp(storklocker_fault_text(STORKLOCKER_LIST_SHAPE_RULE), "Shape(Rule)") == 0);
    IS(strcmp(storklocker_fault_text(STORKLOCKER_LIST_SHAPE_SUBSTITUTE), "Shape(Substitute)") == 0);
    IS(storklocker_fault_text(STORKLOCKER_LIST_SHAPE_SUBSTITUTE + 1)[0] == 0);
    IS(strcmp(storklocker_reason_text(STORKLOCKER_DEEP_KEY), "DeepKey") == 0);
    IS(strcmp(storklocker_reason_text(STORKLOCKER_BUILDS_IMPORT), "BuildsImport") == 0);
    IS(storklocker_reason_text(0)[0] == 0 && storklocker_reason_text(25)[0] == 0);
    IS(storklocker_fault_text(0)[0] == 0 && storklocker_fault_text(UINT32_MAX)[0] == 0);
}

/* What goes to the room fits to the byte, or the room stays as it was. */
static void lists(size_t less) {
    static const char list[] = "version = 2\n[imports]\nos = ['path', 'fork']\na = ['b']\n"
                               "[limits]\nlarge = true\nstack = 5\nnumbers = 9\n";
    static const char pairs[] = EIGHT("\1") "a" EIGHT("\1") "b" EIGHT("\2") "os" EIGHT("\4") "path"
        EIGHT("\2") "os" EIGHT("\4") "fork";
    struct storklocker_settings limits = {.size = sizeof limits};
    struct storklocker_verdict verdict;
    uint64_t wanted = 0;
    size_t length = sizeof pairs - 1 - less;
    uint8_t *room = calloc(1, length);
    if (room == NULL)
        exit(2);
    IS(storklocker_read_list(BYTES(list), room, length, &limits, &wanted, &verdict) == 0);
    IS(wanted == 62 && verdict.status == 0 && verdict.imports == 0);
    IS(is_same(room, less ? "\0\0\0\0\0\0\0\0\0" : pairs, less ? 9 : length));
    IS(limits.size == sizeof limits && limits.stack == 5 && limits.numbers == 9);
    IS(limits.large == 1 && limits.memo == 4294967295);
    IS(limits.passed == 16777216 && limits.sorted == 0);
    IS(storklocker_read_list(BYTES("version = 3"), room, length, &limits, &wanted, &verdict) == 2);
    IS(verdict.reason == STORKLOCKER_LIST_VERSION && wanted == 0 && limits.stack == 5);
    free(room);
}

static void imports(size_t less) {
    static const char made[] = EIGHT("\1") "a" EIGHT("\1") "b"
        "\xff\xff\xff\xff\xff\xff\xff\xff\xff\xff\xff\xff\xff\xff\xff\xff";
    struct storklocker_verdict verdict;
    uint64_t wanted = 7;
    size_t length = sizeof made - 1 - less;
    uint8_t *room = calloc(1, length);
    if (room == NULL)
        exit(2);
    IS(storklocker_imports(NULL, BYTES("ca\nb\nN2\x93."), room, length, &wanted, &verdict) == 1);
    IS(verdict.reason == STORKLOCKER_NOT_TEXT && verdict.at == 7 && verdict.has_pair == 0);
    IS(wanted == 18 && verdict.imports == 1 && is_same(room, made, 18) && room[18] == 0);
    memset(room, 0, length);
    IS(storklocker_imports(NULL, BYTES("ca\nb\n\xff"), room, 17, &wanted, &verdict) == 1);
    IS(wanted == 18 && verdict.imports == 1 && verdict.at == 5 && room[0] == 0);
    IS(storklocker_imports(NULL, BYTES("ca\nb\n)R2\x93."), room, length, &wanted, &verdict) == 0);
    IS(wanted == 34 && verdict.imports == 2 && verdict.taken == 10 && verdict.pickles == 1);
    IS(is_same(room, less ? "\0\0\0\0\0\0\0\0\0" : made, less ? 9 : length));
    free(room);
}

static uint32_t call(int number, struct storklocker_verdict *verdict) {
    struct storklocker_settings billed = standard;
    uint8_t room[64];
    billed.builds = 0;
    if (number == 3)
        return storklocker_check_row(
            listed, 2, &billed, BYTES("ca\nb\n.]q\1.(ca\nb\nt."), room, 64, verdict);
    if (number == 0)
        return storklocker_check_row(
            listed, 2, NULL, BYTES("ca\nb\n.]q\1.(ca\nb\nt."), room, 64, verdict);
    if (number == 1)
        return storklocker_read_list(
            BYTES("version = 1\n[imports]\nnumbers = ['b']\n"), room, 64, NULL, NULL, verdict);
    return storklocker_imports(NULL, BYTES("\x8c\1a\x8c\1b\x93."), room, 64, NULL, verdict);
}

/* Each allocation refused in turn: want of memory, or the answer with ample memory. */
static void refused(void) {
    static const uint32_t wants[] = {
        STORKLOCKER_OUT_OF_MEMORY, STORKLOCKER_LIST_OUT_OF_MEMORY, STORKLOCKER_OUT_OF_MEMORY,
        STORKLOCKER_OUT_OF_MEMORY};
    for (int number = 0; number < 4; number++) {
        struct storklocker_verdict ample = {0}, verdict = {0};
        int is_refused = 1;
        IS(call(number, &ample) == STORKLOCKER_YES);
        for (long count = 0; is_refused && count < 1000; count++) {
            grant(count);
            call(number, &verdict);
            is_refused = are_left() == -1;
            grant(-1);
            IS(are_left() == 0);
            IS(memcmp(&ample, &verdict, sizeof ample) == 0
                || (is_refused && verdict.status != 0 && verdict.reason == wants[number]));
        }
        IS(!is_refused);
    }
}

static void *calls(void *unused) {
    struct storklocker_verdict verdict;
    for (int k = 0; k < 20000; k++)
        IS(CHECK(listed, &standard, "ca\nb\n.") == STORKLOCKER_YES);
    return unused;
}

/* Threads side by side, and in a worker that was forked before they began. */
static void threads(void) {
    pid_t worker = fork();
    pthread_t started[4];
    int status = 1;
    for (int k = 0; k < 4; k++)
        if (pthread_create(&started[k], NULL, calls, NULL) != 0)
            exit(2);
    for (int k = 0; k < 4; k++)
        pthread_join(started[k], NULL);
    if (worker == 0)
        _exit(wrongs != 0);
    IS(waitpid(worker, &status, 0) == worker && status == 0);
}

int main(void) {
    IS(strcmp(storklocker_version(), STORKLOCKER_VERSION) == 0);
    refused(); /* first: refusing.c doesn't count what calloc takes */
    nulls();
    sizes();
    numbers();
    settings();
    numbers_of_lists();
    texts();
    rows();
    for (size_t less = 0; less < 2; less++) {
        lists(less);
        imports(less);
    }
    threads();
    return wrongs != 0;
}
