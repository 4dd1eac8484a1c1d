/*
 * Checks untrusted pickles, from C and from languages that call C. Link with -lstorklocker.
 *
 * Status 0 means that the pickle is accepted: whatever its objects do when it is loaded, it imports
 * only listed pairs and leaves exactly one object. The check executes no part of it. If the
 * settings limit what loading costs, it is within these limits too.
 *
 * Arguments. A pointer parameter may be null if its length is 0. Null settings are the standard
 * ones, and nothing is written to a null `verdict`, `wanted` or `limits`. The two pointers inside a
 * pair must not be null: for an empty name pass any other pointer. A length is at most PTRDIFF_MAX.
 * Structures have C's alignment; bytes need none. The arguments must not change during a call, and
 * the memory that the call writes to (`room`, `verdict`, `wanted`, `limits`) must not overlap any
 * other argument.
 *
 * Threads and processes. A call keeps nothing: no state, no lock, no memory. Any number of threads
 * may call at the same time, and share pairs, lists, settings and pickles. A call uses `malloc`,
 * `realloc` and `free`, and frees all that it allocates, so it has their restrictions. Don't call
 * from a signal handler, or between `fork` and `exec` in the child of a multithreaded process,
 * because another thread may have held a lock of `malloc` at the fork. A worker that was forked
 * before its parent started a second thread, as by a prefork server, may call.
 *
 * Cost. The time of a check is linear in the length of the pickle. If the pairs are sorted, the
 * lookup of an import is logarithmic in their number; a miss falls back to a scan of all pairs,
 * unless `sorted` is set. Memory is bounded by the length of the pickle and by the limits.
 */
#ifndef STORKLOCKER_H
#define STORKLOCKER_H
#include <stddef.h>
#include <stdint.h>

#ifdef __cplusplus
extern "C" {
#endif

#define STORKLOCKER_VERSION "0.3.0.dev25"

/* The version of the running library; STORKLOCKER_VERSION is the version of this header.

       assert(strcmp(storklocker_version(), STORKLOCKER_VERSION) == 0);
*/
const char *storklocker_version(void);

/* A pair of a module and a name, in UTF-8. A pair that isn't UTF-8 permits nothing. The caller owns
   the bytes. */
struct storklocker_pair {
    const uint8_t *module_name;
    size_t module_length;
    const uint8_t *name;
    size_t name_length;
};

/* How the unpickler decodes Python 2 strings. The numbers never change. */
enum storklocker_old_strings {
    STORKLOCKER_OLD_UNKNOWN = 0, /* as anything: the answer holds for every unpickler */
    STORKLOCKER_OLD_ASCII = 1,   /* as text; a byte above 7f is refused */
    STORKLOCKER_OLD_BYTES = 2    /* as bytes */
};

/* Whether the pickles of a row share a memo. The numbers never change. */
enum storklocker_row_memo {
    STORKLOCKER_MEMO_FRESH = 0, /* no: each pickle is loaded by a new Unpickler */
    STORKLOCKER_MEMO_KEPT = 1   /* yes: all are loaded by one Unpickler, one `load` each */
};

/* The settings of a check, with the standard value of each. A limit above its greatest value means
   that value. The greatest value is the standard one, except 1,099,511,627,776 for `passed`,
   4,294,967,295 for `numbers`, and 4,294,967,295 for `counted`, `stack` and `memo` if `large` is
   1. */
struct storklocker_settings {
    uint64_t size;        /* sizeof(struct storklocker_settings), by which the library knows the
                             fields of the caller's header. Later versions add fields at the end,
                             and use the standard values for missing ones */
    uint64_t counted;     /* bytes in the payload of a counted argument; 16,777,216 */
    uint64_t stack;       /* stack entries, marks included; 1,000,000 */
    uint64_t memo;        /* memo entries; 1,000,000 */
    uint64_t passed;      /* bytes in a byte payload, which is skipped; 16,777,216 */
    uint64_t numbers;     /* the greatest memo number of PUT, BINPUT or LONG_BINPUT; CPython
                             allocates 16 bytes for each number up to it; 1,000,000 */
    uint32_t old_strings; /* one of enum storklocker_old_strings */
    uint32_t row_memo;    /* one of enum storklocker_row_memo; ignored for a single pickle */
    uint32_t large;       /* 1: limits may be those for large data; 0 */
    uint32_t sorted;      /* 1: the pairs are sorted by module and then by name, byte for byte, and
                             an unlisted one is refused in logarithmic time. If they aren't sorted
                             after all, nothing unlisted is accepted, but a listed pair may be
                             refused.
                             0: the pairs are in any order, and a miss of the binary search falls
                             back to a scan */
    /* What loading a pickle may cost; the standard is no limit. Keys are those of dicts and the
       items of sets. An object weighs 1, an int in digits or bytes an eighth of these more, a text
       or bytes a 64th of its bytes more, and a tuple or frozenset the weights of its items more.
       What a call gives weighs what a tuple of its operands would, and an import 1. Weights are
       counted up to 1,048,575 and levels up to 1,023. UINT32_MAX is no limit on them; any other
       that no key can exceed is STORKLOCKER_USAGE. */
    uint32_t levels;      /* levels of tuples and results in a key, at most 1,022; UINT32_MAX */
    uint32_t weight;      /* the weight of a key, at most 1,048,574; UINT32_MAX */
    uint64_t work;        /* the weight of all keys together; UINT64_MAX */
    uint64_t clash;       /* the weight of all keys but texts, bytes and answers, which alone can
                             be made to collide; UINT64_MAX */
    uint64_t memory;      /* bytes that loading takes, by estimate; UINT64_MAX */
    uint32_t builds;      /* 0: BUILD may not take an object that an import gave; 1 */
    uint32_t unused;      /* must be 0 */
};

#define STORKLOCKER_STANDARD \
    {sizeof(struct storklocker_settings), 16777216, 1000000, 1000000, 16777216, 1000000, \
     STORKLOCKER_OLD_UNKNOWN, STORKLOCKER_MEMO_FRESH, 0, 0, UINT32_MAX, UINT32_MAX, UINT64_MAX, \
     UINT64_MAX, UINT64_MAX, 1, 0}

/* The answer of the checker. Fields that do not apply to its status are 0. */
struct storklocker_verdict {
    uint32_t status;        /* one of enum storklocker_status */
    uint32_t reason;        /* status 1: enum storklocker_reason; status 2: storklocker_fault */
    uint32_t number;        /* the code byte, protocol or memo number that the reason carries */
    uint32_t has_pair;      /* 1 if the reason is ImportOffList, which has a pair */
    uint64_t at;            /* status 1: the offset of the refused instruction */
    uint64_t taken;         /* status 0: the number of accepted bytes, STOP included */
    uint64_t imports;       /* status 0: the number of imports in them; status 1, if it is the
                               answer of storklocker_imports: the number of those before `at` */
    uint64_t module_length; /* the lengths of the pair's module and name in bytes; both are at */
    uint64_t name_length;   /* the front of `room`, one after the other, if both fit */
    uint64_t pickles;       /* the number of accepted pickles; 1 for a single accepted pickle */
    /* The bill: status 0, where the settings limit costs, what loading the last pickle costs. It is
       written only for settings of this version's size, and not for null ones. */
    uint32_t levels;        /* the levels of tuples in the deepest key */
    uint32_t weight;        /* the weight of the heaviest key */
    uint64_t work;          /* the weight of all keys together */
    uint64_t clash;         /* the weight of all keys but texts, bytes and answers */
    uint64_t memory;        /* the bytes that loading takes, by estimate */
};

enum storklocker_status {
    STORKLOCKER_YES = 0,
    STORKLOCKER_NO = 1,
    STORKLOCKER_NO_LIST = 2, /* the list file cannot be read */
    STORKLOCKER_USAGE = 3    /* nothing was checked, because this library doesn't support the size
                                or a value of the settings */
};

/* Why a pickle is refused. The numbers never change. */
enum storklocker_reason {
    STORKLOCKER_SOURCE = 1, /* never for bytes in memory */
    STORKLOCKER_TRUNCATED = 2,
    STORKLOCKER_UNKNOWN_OPCODE = 3,
    STORKLOCKER_BAD_ARGUMENT = 4,
    STORKLOCKER_TOO_LARGE = 5,
    STORKLOCKER_EXTENSION_CODE = 6,
    STORKLOCKER_UNSUPPORTED_PROTOCOL = 7,
    STORKLOCKER_BROKEN_FRAME = 8,
    STORKLOCKER_MISSING_MARK = 9,
    STORKLOCKER_MISSING_ITEM = 10,
    STORKLOCKER_MISSING_MEMO = 11,
    STORKLOCKER_ODD_ITEMS = 12,
    STORKLOCKER_WRONG_CLASS = 13,
    STORKLOCKER_NOT_TEXT = 14,
    STORKLOCKER_UNKNOWN_IMPORT = 15,
    STORKLOCKER_IMPORT_OFF_LIST = 16,
    STORKLOCKER_LEFT_OVER = 17,
    STORKLOCKER_OUT_OF_MEMORY = 18,
    STORKLOCKER_NOT_ASCII = 19,
    /* by the limits on costs, in the order in which they are tried */
    STORKLOCKER_DEEP_KEY = 20,     /* a key has more levels than `levels` */
    STORKLOCKER_HEAVY_KEYS = 21,   /* a key weighs more than `weight`, or all more than `work` */
    STORKLOCKER_MANY_KEYS = 22,    /* keys that can be made to collide weigh more than `clash` */
    STORKLOCKER_MUCH_MEMORY = 23,  /* loading takes more bytes than `memory` */
    STORKLOCKER_BUILDS_IMPORT = 24 /* BUILD takes an object that an import gave */
};

/* Why a list file cannot be read. The numbers never change. */
enum storklocker_fault {
    STORKLOCKER_LIST_SYNTAX = 1,
    STORKLOCKER_LIST_SHAPE_VERSION = 2,
    STORKLOCKER_LIST_SHAPE_TOP_KEY = 3,
    STORKLOCKER_LIST_SHAPE_IMPORTS = 4,
    STORKLOCKER_LIST_SHAPE_MODULE = 5,
    STORKLOCKER_LIST_SHAPE_NAME = 6,
    STORKLOCKER_LIST_VERSION = 7,
    STORKLOCKER_LIST_OUT_OF_MEMORY = 8,
    STORKLOCKER_LIST_SHAPE_LIMITS = 9,
    STORKLOCKER_LIST_SHAPE_LIMIT_KEY = 10,
    STORKLOCKER_LIST_SHAPE_LIMIT = 11,
    STORKLOCKER_LIST_SHAPE_RULES = 12,
    STORKLOCKER_LIST_SHAPE_RULE_KEY = 13,
    STORKLOCKER_LIST_SHAPE_RULE = 14,
    STORKLOCKER_LIST_SHAPE_SUBSTITUTES = 15,
    STORKLOCKER_LIST_SHAPE_SUBSTITUTE = 16
};

/* The name of a reason, such as "ImportOffList", or of a fault, such as "Shape(Imports)": static
   text, as the program prints it, without the number or the pair that follows some reasons. Empty
   for any other number.

       assert(strcmp(storklocker_reason_text(STORKLOCKER_TRUNCATED), "Truncated") == 0);
       assert(strcmp(storklocker_fault_text(STORKLOCKER_LIST_SYNTAX), "Syntax") == 0);
*/
const char *storklocker_reason_text(uint32_t reason);
const char *storklocker_fault_text(uint32_t fault);

/* Each call below returns the status, which is also in the verdict. In the examples, BYTES(text) is
   a pointer to the bytes of a literal and their number:

       #define BYTES(text) (const uint8_t *)text, sizeof text - 1
*/

/* Checks the pickle at the front of the bytes under pairs. Bytes after its STOP are ignored. If the
   pairs are sorted by module and then by name, byte for byte, a listed pair is found in logarithmic
   time; any other order gives the same answer, unless `sorted` is set. A check with limits on costs
   takes twice as long or more; storklocker_check_within mostly doesn't. Never returns
   STORKLOCKER_NO_LIST.

       const struct storklocker_pair allowed[] = {{BYTES("datetime"), BYTES("date")}};
       uint8_t room[100];
       struct storklocker_verdict verdict;
       storklocker_check_pairs(allowed, 1, NULL, BYTES("cdatetime\ndate\n."), room, sizeof room,
                               &verdict);
       assert(verdict.status == STORKLOCKER_YES && verdict.taken == 16 && verdict.imports == 1);
       storklocker_check_pairs(allowed, 1, NULL, BYTES("cos\nsystem\n(Vecho gone\ntR."), room,
                               sizeof room, &verdict);
       assert(verdict.status == STORKLOCKER_NO && verdict.at == 0);
       assert(verdict.reason == STORKLOCKER_IMPORT_OFF_LIST && verdict.has_pair);
       assert(memcmp(room, "ossystem", verdict.module_length + verdict.name_length) == 0);
*/
uint32_t storklocker_check_pairs(
    const struct storklocker_pair *pairs, size_t pair_count,
    const struct storklocker_settings *settings,
    const uint8_t *pickle, size_t pickle_length,
    uint8_t *room, size_t room_length,
    struct storklocker_verdict *verdict);

/* Like storklocker_check_pairs, without the bill: in the verdict, `levels` to `memory` are 0. If
   costs are limited, but not the memory, a bound from above suffices for most pickles without BUILD
   in which at most some ten tuples hold other tuples or what the memo holds: their check takes a
   tenth to a half more than one without limits.

       struct storklocker_settings settings = STORKLOCKER_STANDARD;
       struct storklocker_verdict verdict;
       settings.levels = 1;
       storklocker_check_within(NULL, 0, &settings, BYTES("}K\1\205Ns."), NULL, 0, &verdict);
       assert(verdict.status == STORKLOCKER_YES);
       storklocker_check_within(NULL, 0, &settings, BYTES("}K\1\205\205Ns."), NULL, 0, &verdict);
       assert(verdict.reason == STORKLOCKER_DEEP_KEY && verdict.at == 6);
*/
uint32_t storklocker_check_within(
    const struct storklocker_pair *pairs, size_t pair_count,
    const struct storklocker_settings *settings,
    const uint8_t *pickle, size_t pickle_length,
    uint8_t *room, size_t room_length,
    struct storklocker_verdict *verdict);

/* Like storklocker_check_pairs, with the text of a list file, which is parsed on every call; to
   parse it once, use storklocker_read_list. Each limit is the smaller of the list's and the
   settings'. The `large` and `sorted` of the settings are ignored. A limit on costs, of the list
   or of the settings, is STORKLOCKER_USAGE: read the list, and check under its pairs.

       uint32_t status = storklocker_check_list(
           BYTES("version = 1\n[imports]\ndatetime = ['date']\n"), NULL,
           BYTES("cdatetime\ndate\n."), NULL, 0, NULL);
       assert(status == STORKLOCKER_YES);
*/
uint32_t storklocker_check_list(
    const uint8_t *list, size_t list_length,
    const struct storklocker_settings *settings,
    const uint8_t *pickle, size_t pickle_length,
    uint8_t *room, size_t room_length,
    struct storklocker_verdict *verdict);

/* Checks one or more pickles that follow one another up to the end of the bytes. If all are
   accepted, `taken` is the number of all bytes, and `imports` that of all imports. If one is
   refused, `pickles` were accepted before it, and `at` counts from the first byte. Never returns
   STORKLOCKER_NO_LIST.

       struct storklocker_verdict verdict;
       storklocker_check_row(NULL, 0, NULL, BYTES("N.K\1."), NULL, 0, &verdict);
       assert(verdict.status == STORKLOCKER_YES && verdict.pickles == 2 && verdict.taken == 5);
       storklocker_check_row(NULL, 0, NULL, BYTES("N.K\1"), NULL, 0, &verdict);
       assert(verdict.reason == STORKLOCKER_TRUNCATED && verdict.pickles == 1 && verdict.at == 4);
*/
uint32_t storklocker_check_row(
    const struct storklocker_pair *pairs, size_t pair_count,
    const struct storklocker_settings *settings,
    const uint8_t *pickles, size_t pickles_length,
    uint8_t *room, size_t room_length,
    struct storklocker_verdict *verdict);

/* The four calls below write pairs to `room`. A pair is the length of its module as eight
   little-endian bytes, the module, the length of its name as eight such bytes, and the name.
   `wanted` receives the number of bytes that all pairs need, at most UINT64_MAX. If `room` is
   smaller, it stays unchanged: allocate a larger one and call again. This finds the pairs there,
   which take at least 16 bytes each:

       static size_t length_at(const uint8_t *bytes) {
           uint64_t length = 0;
           for (int k = 7; k >= 0; k--)
               length = length << 8 | bytes[k];
           return (size_t)length;
       }

       static size_t find_pairs(const uint8_t *at, uint64_t wanted,
                                struct storklocker_pair *pairs) {
           const uint8_t *end = at + wanted;
           size_t count = 0;
           for (; at < end; count++) {
               pairs[count].module_length = length_at(at);
               pairs[count].module_name = at + 8;
               at += 8 + pairs[count].module_length;
               pairs[count].name_length = length_at(at);
               pairs[count].name = at + 8;
               at += 8 + pairs[count].name_length;
           }
           return count;
       }
*/

/* Reads the text of a list file, and returns STORKLOCKER_YES, or STORKLOCKER_NO_LIST with the
   fault. The pairs are in the byte order of their modules, and within a module in the order of its
   array, repetitions included. `limits` receives the limits of the list, and the standard value of
   each that the list leaves out; set its `size` before the call. Its other fields receive their
   standard values. STORKLOCKER_USAGE: the list limits costs, and `limits` is of an earlier version,
   which has no fields for them.

       uint8_t room[100];
       uint64_t wanted;
       struct storklocker_settings limits = STORKLOCKER_STANDARD;
       struct storklocker_pair pairs[sizeof room / 16];
       uint32_t status = storklocker_read_list(
           BYTES("version = 2\n[imports]\nshop = ['Item', 'Order']\n[limits]\nlevels = 9\n"),
           room, sizeof room, &limits, &wanted, NULL);
       assert(status == STORKLOCKER_YES && wanted <= sizeof room && limits.levels == 9);
       size_t count = find_pairs(room, wanted, pairs);
       assert(count == 2 && memcmp(pairs[1].name, "Order", 5) == 0);
       status = storklocker_check_pairs(pairs, count, &limits, BYTES("cshop\nOrder\n."), NULL, 0,
                                        NULL);
       assert(status == STORKLOCKER_YES);
*/
uint32_t storklocker_read_list(
    const uint8_t *list, size_t list_length,
    uint8_t *room, size_t room_length,
    struct storklocker_settings *limits,
    uint64_t *wanted,
    struct storklocker_verdict *verdict);

/* Which keys a list file has: 1 where it has them, otherwise 0. */
struct storklocker_said {
    uint32_t limits; /* the table `limits`; below, its keys */
    uint32_t numbers, levels, weight, work, clash, memory;
    uint32_t build; /* the key `build` of the table `rules` */
};

/* Reads the text of a list file, and returns STORKLOCKER_YES, or STORKLOCKER_NO_LIST with the
   fault. `said` receives which keys it has. The pairs are the rows of its table `substitutes`, in
   the byte order of their names: a name, and what stands for it when a pickle is loaded. No check
   depends on them; a loader that doesn't know them must not load under the list.

       uint64_t wanted;
       struct storklocker_said said;
       uint32_t status = storklocker_list_told(
           BYTES("version = 2\n[imports]\n[limits]\nlevels = 9\n"), NULL, 0, &said, &wanted, NULL);
       assert(status == STORKLOCKER_YES && said.limits == 1 && said.levels == 1 && said.build == 0);
       assert(wanted == 0);  // it has no substitutes
*/
uint32_t storklocker_list_told(
    const uint8_t *list, size_t list_length,
    uint8_t *room, size_t room_length,
    struct storklocker_said *said,
    uint64_t *wanted,
    struct storklocker_verdict *verdict);

/* Checks the pickle at the front of the bytes, permitting every import, and writes its imports in
   order, each as often as it occurs. If it is refused, they are those of the instructions before
   `at`, which a reader may run before it fails: some run gets there, and each run that does has
   made exactly these imports. EXT1, EXT2 and EXT4 import what the reader's registry says, so they
   are refused, and only the reason reports them. An import whose pair the pickle doesn't reveal
   has UINT64_MAX for both lengths, and no bytes. Check `wanted` against a bound before you
   allocate: a pickle of a megabyte may need gigabytes, because a text that it names a thousand
   times is copied a thousand times. At STORKLOCKER_USAGE, `wanted` is 0. Limits on costs are
   ignored. Never returns STORKLOCKER_NO_LIST.

       uint8_t room[100];
       uint64_t wanted;
       struct storklocker_pair pairs[sizeof room / 16];
       uint32_t status = storklocker_imports(
           NULL, BYTES("cos\nsystem\n(Vecho gone\ntR."), room, sizeof room, &wanted, NULL);
       assert(status == STORKLOCKER_YES && wanted <= sizeof room);
       assert(find_pairs(room, wanted, pairs) == 1);
       assert(memcmp(pairs[0].module_name, "os", 2) == 0);
       assert(memcmp(pairs[0].name, "system", 6) == 0);
*/
uint32_t storklocker_imports(
    const struct storklocker_settings *settings,
    const uint8_t *pickle, size_t pickle_length,
    uint8_t *room, size_t room_length,
    uint64_t *wanted,
    struct storklocker_verdict *verdict);

/* Like storklocker_imports, within the limits on costs of the settings. If loading the pickle
   exceeds one, the reason is that of storklocker_check_pairs, and `wanted` is 0: its imports aren't
   written.

       uint64_t wanted;
       struct storklocker_verdict verdict;
       struct storklocker_settings settings = STORKLOCKER_STANDARD;
       settings.levels = 1;
       storklocker_imports_loading(&settings, BYTES("ca\nb\n0}K\1\205\205Ns."), NULL, 0, &wanted,
                                   &verdict);
       assert(verdict.reason == STORKLOCKER_DEEP_KEY && wanted == 0);
*/
uint32_t storklocker_imports_loading(
    const struct storklocker_settings *settings,
    const uint8_t *pickle, size_t pickle_length,
    uint8_t *room, size_t room_length,
    uint64_t *wanted,
    struct storklocker_verdict *verdict);

#ifdef __cplusplus
}
#endif
#endif
