/* The C API of storklocker.h. It wraps proved functions that take no null pointers: it replaces
   null by a valid address, converts settings to this library's version, and asks for costs only
   where they are limited. Of an answer it decides only the limit on memo numbers of a list file
   that names none. */
#include "storklocker.h"

#include <string.h>

/* The sizes of settings and verdicts without costs: those of earlier versions, and of pkguard. */
#define SETTINGS_SIZE offsetof(struct storklocker_settings, levels)
#define VERDICT_SIZE offsetof(struct storklocker_verdict, levels)

/* Limits on what loading costs, and a bill, as pkguard has them. */
struct costs {
    uint32_t levels, weight;
    uint64_t work, clash, memory;
    uint32_t builds;
    uint32_t all; /* 1: all pickles up to the end of the bytes; 0: the first alone */
};
struct bill {
    uint32_t levels, weight;
    uint64_t work, clash, memory;
};

/* Exported by the crate pkguard. */
extern __typeof__(storklocker_check_pairs) pkguard_check_pairs;
extern __typeof__(storklocker_check_list) pkguard_check_list;
extern __typeof__(storklocker_check_row) pkguard_check_row;
extern __typeof__(storklocker_read_list) pkguard_read_list;
extern __typeof__(storklocker_list_told) pkguard_list_told;
extern __typeof__(storklocker_imports) pkguard_imports;
extern uint32_t pkguard_list_costs(
    const uint8_t *, size_t, struct costs *, struct storklocker_verdict *);
extern uint32_t pkguard_check_loading(
    const struct storklocker_pair *, size_t, const struct storklocker_settings *,
    const struct costs *, const uint8_t *, size_t, uint8_t *, size_t, struct storklocker_verdict *,
    struct bill *);
extern uint32_t pkguard_check_within(
    const struct storklocker_pair *, size_t, const struct storklocker_settings *,
    const struct costs *, const uint8_t *, size_t, uint8_t *, size_t, struct storklocker_verdict *);
extern uint32_t pkguard_imports_loading(
    const struct storklocker_settings *, const struct costs *, const uint8_t *, size_t, uint8_t *,
    size_t, uint64_t *, struct storklocker_verdict *, struct bill *);

/* A valid address in place of null. Its length is 0, so nothing is read or written there. */
static void *or_nothing(const void *given) {
    static uint64_t nothing;
    return given != NULL ? (void *)given : &nothing;
}

/* Whether the settings are those of this version. */
static int are_of_this_version(const struct storklocker_settings *given) {
    return given != NULL && given->size == sizeof *given;
}

/* The size by which pkguard knows that it supports the settings, otherwise 0. */
static uint64_t size_of(const struct storklocker_settings *given) {
    return given == NULL || are_of_this_version(given) || given->size == SETTINGS_SIZE
        ? SETTINGS_SIZE
        : 0;
}

/* The settings that the caller's header has, with standard values for the others. Their size is
   that of pkguard. */
static struct storklocker_settings settings_of(const struct storklocker_settings *given) {
    struct storklocker_settings settings = STORKLOCKER_STANDARD;
    if (are_of_this_version(given))
        settings = *given;
    else if (given != NULL && given->size == SETTINGS_SIZE)
        memcpy(&settings, given, SETTINGS_SIZE);
    settings.size = settings.unused == 0 ? size_of(given) : 0;
    return settings;
}

static int limit_costs(const struct storklocker_settings *own) {
    return own->levels != UINT32_MAX || own->weight != UINT32_MAX || own->work != UINT64_MAX
        || own->clash != UINT64_MAX || own->memory != UINT64_MAX || own->builds != 1;
}

static struct costs costs_of(const struct storklocker_settings *own, int all) {
    return (struct costs){
        own->levels, own->weight, own->work, own->clash, own->memory, own->builds, (uint32_t)all};
}

/* Writes the bill to the verdict of a caller whose header has it. */
static void tell(
    const struct storklocker_settings *given, struct bill bill,
    struct storklocker_verdict *verdict) {
    if (!are_of_this_version(given) || verdict == NULL)
        return;
    verdict->levels = bill.levels;
    verdict->weight = bill.weight;
    verdict->work = bill.work;
    verdict->clash = bill.clash;
    verdict->memory = bill.memory;
}

const char *storklocker_version(void) {
    return STORKLOCKER_VERSION;
}

const char *storklocker_reason_text(uint32_t reason) {
    static const char *const texts[] = {
        "", "Source", "Truncated", "UnknownOpcode", "BadArgument", "TooLarge", "ExtensionCode",
        "UnsupportedProtocol", "BrokenFrame", "MissingMark", "MissingItem", "MissingMemo",
        "OddItems", "WrongClass", "NotText", "UnknownImport", "ImportOffList", "LeftOver",
        "OutOfMemory", "NotAscii", "DeepKey", "HeavyKeys", "ManyKeys", "MuchMemory",
        "BuildsImport"};
    return texts[reason < sizeof texts / sizeof *texts ? reason : 0];
}

const char *storklocker_fault_text(uint32_t fault) {
    static const char *const texts[] = {
        "", "Syntax", "Shape(Version)", "Shape(TopKey)", "Shape(Imports)", "Shape(Module)",
        "Shape(Name)", "Version", "OutOfMemory", "Shape(Limits)", "Shape(LimitKey)",
        "Shape(Limit)", "Shape(Rules)", "Shape(RuleKey)", "Shape(Rule)", "Shape(Substitutes)",
        "Shape(Substitute)"};
    return texts[fault < sizeof texts / sizeof *texts ? fault : 0];
}

/* What is checked, and whether the bill is told. */
enum extent { FIRST, ALL, FIRST_WITHOUT_BILL };

/* Checks the first pickle, or all. */
static uint32_t check(
    const struct storklocker_pair *pairs, size_t count, const struct storklocker_settings *settings,
    const uint8_t *pickles, size_t length, uint8_t *room, size_t room_length,
    struct storklocker_verdict *verdict, enum extent extent) {
    struct storklocker_settings own = settings_of(settings);
    struct storklocker_verdict untold;
    struct storklocker_verdict *told = verdict ? verdict : &untold;
    struct bill bill = {0};
    uint32_t status;
    pairs = or_nothing(pairs);
    pickles = or_nothing(pickles);
    room = or_nothing(room);
    if (limit_costs(&own)) {
        struct costs costs = costs_of(&own, extent == ALL);
        status = extent == FIRST_WITHOUT_BILL
            ? pkguard_check_within(
                pairs, count, &own, &costs, pickles, length, room, room_length, told)
            : pkguard_check_loading(
                pairs, count, &own, &costs, pickles, length, room, room_length, told, &bill);
    } else if (extent == ALL)
        status = pkguard_check_row(pairs, count, &own, pickles, length, room, room_length, told);
    else
        status = pkguard_check_pairs(pairs, count, &own, pickles, length, room, room_length, told);
    tell(settings, bill, verdict);
    return status;
}

uint32_t storklocker_check_pairs(
    const struct storklocker_pair *pairs, size_t count, const struct storklocker_settings *settings,
    const uint8_t *pickle, size_t pickle_length, uint8_t *room, size_t room_length,
    struct storklocker_verdict *verdict) {
    return check(pairs, count, settings, pickle, pickle_length, room, room_length, verdict, FIRST);
}

uint32_t storklocker_check_within(
    const struct storklocker_pair *pairs, size_t count, const struct storklocker_settings *settings,
    const uint8_t *pickle, size_t pickle_length, uint8_t *room, size_t room_length,
    struct storklocker_verdict *verdict) {
    return check(
        pairs, count, settings, pickle, pickle_length, room, room_length, verdict,
        FIRST_WITHOUT_BILL);
}

uint32_t storklocker_check_list(
    const uint8_t *list, size_t list_length, const struct storklocker_settings *settings,
    const uint8_t *pickle, size_t pickle_length, uint8_t *room, size_t room_length,
    struct storklocker_verdict *verdict) {
    struct storklocker_settings own = settings_of(settings);
    struct storklocker_verdict untold;
    if (limit_costs(&own))
        own.size = 0; /* pkguard would not limit them */
    tell(settings, (struct bill){0}, verdict);
    return pkguard_check_list(
        or_nothing(list), list_length, &own, or_nothing(pickle), pickle_length, or_nothing(room),
        room_length, verdict ? verdict : &untold);
}

uint32_t storklocker_check_row(
    const struct storklocker_pair *pairs, size_t count, const struct storklocker_settings *settings,
    const uint8_t *pickles, size_t pickles_length, uint8_t *room, size_t room_length,
    struct storklocker_verdict *verdict) {
    return check(pairs, count, settings, pickles, pickles_length, room, room_length, verdict, ALL);
}

/* Writes the limits on costs of a list file that was read. Where it says nothing they stay. Returns
   0 if an allocation is refused. */
static int read_costs(
    const uint8_t *list, size_t length, struct storklocker_settings *limits) {
    struct costs said = {
        limits->levels, limits->weight, limits->work, limits->clash, limits->memory,
        limits->builds, 0};
    struct storklocker_verdict verdict;
    if (pkguard_list_costs(or_nothing(list), length, &said, &verdict) != STORKLOCKER_YES)
        return 0;
    limits->levels = said.levels;
    limits->weight = said.weight;
    limits->work = said.work;
    limits->clash = said.clash;
    limits->memory = said.memory;
    limits->builds = said.builds;
    return 1;
}

uint32_t storklocker_list_told(
    const uint8_t *list, size_t list_length, uint8_t *room, size_t room_length,
    struct storklocker_said *said, uint64_t *wanted, struct storklocker_verdict *verdict) {
    struct storklocker_said unsaid;
    struct storklocker_verdict untold;
    uint64_t unwanted;
    return pkguard_list_told(
        or_nothing(list), list_length, or_nothing(room), room_length, said ? said : &unsaid,
        wanted ? wanted : &unwanted, verdict ? verdict : &untold);
}

/* Writes the standard limit on memo numbers if a list file that was read has none of its own.
   Returns 0 if an allocation is refused. */
static int read_numbers(
    const uint8_t *list, size_t length, struct storklocker_settings *limits) {
    const struct storklocker_settings standard = STORKLOCKER_STANDARD;
    struct storklocker_said said;
    if (storklocker_list_told(list, length, NULL, 0, &said, NULL, NULL) != STORKLOCKER_YES)
        return 0;
    if (said.numbers == 0)
        limits->numbers = standard.numbers;
    return 1;
}

uint32_t storklocker_read_list(
    const uint8_t *list, size_t list_length, uint8_t *room, size_t room_length,
    struct storklocker_settings *limits, uint64_t *wanted, struct storklocker_verdict *verdict) {
    struct storklocker_settings own = STORKLOCKER_STANDARD;
    struct storklocker_verdict untold;
    uint64_t unwanted;
    tell(limits, (struct bill){0}, verdict);
    verdict = verdict ? verdict : &untold;
    wanted = wanted ? wanted : &unwanted;
    own.size = size_of(limits);
    pkguard_read_list(
        or_nothing(list), list_length, or_nothing(room), room_length, &own, wanted, verdict);
    if (verdict->status == STORKLOCKER_YES) {
        struct storklocker_verdict other = {0};
        if (!read_numbers(list, list_length, &own) || !read_costs(list, list_length, &own)) {
            other.status = STORKLOCKER_NO_LIST;
            other.reason = STORKLOCKER_LIST_OUT_OF_MEMORY;
        } else if (limits != NULL && !are_of_this_version(limits) && limit_costs(&own))
            other.status = STORKLOCKER_USAGE; /* the caller's header has no such limits */
        if (other.status != STORKLOCKER_YES) {
            memcpy(verdict, &other, VERDICT_SIZE);
            *wanted = 0;
        }
    }
    if (limits != NULL && verdict->status == STORKLOCKER_YES) {
        own.size = limits->size;
        memcpy(limits, &own, own.size);
    }
    return verdict->status;
}

uint32_t storklocker_imports(
    const struct storklocker_settings *settings, const uint8_t *pickle, size_t pickle_length,
    uint8_t *room, size_t room_length, uint64_t *wanted, struct storklocker_verdict *verdict) {
    struct storklocker_settings own = settings_of(settings);
    struct storklocker_verdict untold;
    uint64_t unwanted;
    tell(settings, (struct bill){0}, verdict);
    return pkguard_imports(
        &own, or_nothing(pickle), pickle_length, or_nothing(room), room_length,
        wanted ? wanted : &unwanted, verdict ? verdict : &untold);
}

uint32_t storklocker_imports_loading(
    const struct storklocker_settings *settings, const uint8_t *pickle, size_t pickle_length,
    uint8_t *room, size_t room_length, uint64_t *wanted, struct storklocker_verdict *verdict) {
    struct storklocker_settings own = settings_of(settings);
    if (!limit_costs(&own))
        return storklocker_imports(
            settings, pickle, pickle_length, room, room_length, wanted, verdict);
    struct costs costs = costs_of(&own, 0);
    struct storklocker_verdict untold;
    struct bill bill;
    uint64_t unwanted;
    uint32_t status = pkguard_imports_loading(
        &own, &costs, or_nothing(pickle), pickle_length, or_nothing(room), room_length,
        wanted ? wanted : &unwanted, verdict ? verdict : &untold, &bill);
    tell(settings, bill, verdict);
    return status;
}
