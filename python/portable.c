/* The functions of the crate pkguard on machines for which the toolchain makes no code: each runs
   the module of WebAssembly, which wasm2c has written as checker.c, in a memory of its own.
   Pickles, lists and answers are copied; nothing here decides an answer. A process that can't have
   a megabyte for this memory is ended. It needs no more of a C library than python/heap.c. */
#define NDEBUG
#define WASM_RT_MEMCHECK_SIGNAL_HANDLER 0
#define WASM_RT_USE_STACK_DEPTH_COUNT 0
#include <wasm-rt.h>

/* Numbers lie little-endian in the module's memory. */
#if __BYTE_ORDER__ == __ORDER_BIG_ENDIAN__
static inline void copy_number(void *to, const void *from, size_t size) {
    for (size_t i = 0; i < size; i++)
        ((uint8_t *)to)[i] = ((const uint8_t *)from)[size - 1 - i];
}
#undef wasm_rt_memcpy
#define wasm_rt_memcpy copy_number
#else
#define copy_number memcpy
#endif
#include <checker.c>
#include "storklocker.h"

enum { PAGE = 65536, MOST_PAGES = 65535, PAIR = 32, LEAST = 16 };

/* The sizes of the fields of a structure, which lie in the module's memory as in C. */
#define SETTINGS "8888884444"
#define COSTS "4488844"
#define BILL "44888"
#define VERDICT "4444888888"
#define SAID "44444444"
#define NUMBER "8"

/* ---- what wasm2c's code asks for */

/* Room that is zero. */
static void *room_of(size_t size) {
    void *room = malloc(size);
    if (room == NULL)
        __builtin_trap();
    return memset(room, 0, size);
}

WASM_RT_NO_RETURN void wasm_rt_trap(wasm_rt_trap_t code) {
    (void)code;
    __builtin_trap();
}

bool wasm_rt_is_initialized(void) {
    return true;
}

/* The module calls nothing by a type. */
uint32_t wasm_rt_register_func_type(uint32_t parameters, uint32_t results, ...) {
    return parameters << 8 | results;
}

void wasm_rt_allocate_memory(wasm_rt_memory_t *memory, uint32_t pages, uint32_t most) {
    memory->data = room_of((size_t)pages * PAGE);
    memory->pages = pages;
    memory->max_pages = most < MOST_PAGES ? most : MOST_PAGES;
    memory->size = pages * PAGE;
}

uint32_t wasm_rt_grow_memory(wasm_rt_memory_t *memory, uint32_t delta) {
    uint32_t old = memory->pages;
    if (delta > memory->max_pages - old)
        return UINT32_MAX;
    uint64_t wanted = (uint64_t)(old + delta) * PAGE;
    uint8_t *data = wanted <= PTRDIFF_MAX ? realloc(memory->data, (size_t)wanted) : NULL;
    if (data == NULL)
        return UINT32_MAX;
    size_t kept = memory->size, added = (size_t)delta * PAGE;
    memset(data + kept, 0, added);
    memory->data = data;
    memory->pages = old + delta;
    memory->size = (uint32_t)(kept + added);
    return old;
}

void wasm_rt_free_memory(wasm_rt_memory_t *memory) {
    free(memory->data);
}

void wasm_rt_allocate_funcref_table(
    wasm_rt_funcref_table_t *table, uint32_t size, uint32_t most) {
    table->data = room_of(size * sizeof *table->data);
    table->size = size;
    table->max_size = most;
}

void wasm_rt_free_funcref_table(wasm_rt_funcref_table_t *table) {
    free(table->data);
}

/* ---- what is copied */

typedef Z_storklocker_instance_t module;

struct call {
    module it;
    int is_full; /* the module's memory has had no room for something */
};

static void begin(struct call *call) {
    Z_storklocker_init_module();
    Z_storklocker_instantiate(&call->it);
    call->is_full = 0;
}

/* Room in the module's memory. */
static uint32_t room_in(struct call *call, uint64_t size) {
    uint32_t at = Z_storklockerZ_reserve(&call->it, size < LEAST ? LEAST : size);
    call->is_full |= at == 0;
    return at;
}

static uint8_t *memory_at(struct call *call, uint32_t at) {
    return call->it.w2c_memory.data + at;
}

static uint32_t put_bytes(struct call *call, const void *bytes, size_t length) {
    uint32_t at = room_in(call, length);
    if (!call->is_full)
        memcpy(memory_at(call, at), bytes, length);
    return at;
}

static void put_fields(struct call *call, uint32_t at, const void *fields, const char *sizes) {
    const uint8_t *from = fields;
    for (; *sizes && !call->is_full; sizes++) {
        size_t size = (size_t)(*sizes - '0');
        copy_number(memory_at(call, at), from, size);
        at += (uint32_t)size;
        from += size;
    }
}

static void take_fields(struct call *call, void *fields, uint32_t at, const char *sizes) {
    uint8_t *to = fields;
    for (; *sizes; sizes++) {
        size_t size = (size_t)(*sizes - '0');
        copy_number(to, memory_at(call, at), size);
        at += (uint32_t)size;
        to += size;
    }
}

/* A structure, or room for one. */
static uint32_t put_structure(struct call *call, const void *fields, const char *sizes) {
    uint32_t at = room_in(call, 8 * strlen(sizes));
    if (fields != NULL)
        put_fields(call, at, fields, sizes);
    return at;
}

static uint32_t put_pairs(struct call *call, const struct storklocker_pair *pairs, size_t count) {
    uint32_t at = room_in(call, (uint64_t)count * PAIR);
    for (size_t i = 0; i < count && !call->is_full; i++) {
        uint64_t words[4] = {
            put_bytes(call, pairs[i].module_name, pairs[i].module_length), pairs[i].module_length,
            put_bytes(call, pairs[i].name, pairs[i].name_length), pairs[i].name_length};
        put_fields(call, at + (uint32_t)i * PAIR, words, "8888");
    }
    return at;
}

/* Ends a call, for which there was no memory or whose verdict lies here. */
static uint32_t end(struct call *call, uint32_t verdict, struct storklocker_verdict *out,
    uint32_t status, uint32_t reason) {
    if (call->is_full) {
        memset(out, 0, offsetof(struct storklocker_verdict, levels));
        out->status = status;
        out->reason = reason;
    } else
        take_fields(call, out, verdict, VERDICT);
    Z_storklocker_free(&call->it);
    return out->status;
}

static uint32_t end_check(struct call *call, uint32_t verdict, struct storklocker_verdict *out) {
    return end(call, verdict, out, STORKLOCKER_NO, STORKLOCKER_OUT_OF_MEMORY);
}

static uint32_t end_list(struct call *call, uint32_t verdict, struct storklocker_verdict *out) {
    return end(call, verdict, out, STORKLOCKER_NO_LIST, STORKLOCKER_LIST_OUT_OF_MEMORY);
}

/* The names of a refusal, which lie in front of the room if both fit. */
static void take_names(struct call *call, uint32_t verdict, uint32_t room, uint8_t *to,
    size_t length) {
    struct storklocker_verdict told;
    if (call->is_full)
        return;
    take_fields(call, &told, verdict, VERDICT);
    if (told.has_pair == 1 && told.module_length + told.name_length <= length)
        memcpy(to, memory_at(call, room), (size_t)(told.module_length + told.name_length));
}

/* How many bytes pairs need, and the pairs if they fit. */
static void take_pairs(struct call *call, uint32_t wanted, uint64_t *need, uint32_t room,
    uint8_t *to, size_t length) {
    *need = 0;
    if (call->is_full)
        return;
    take_fields(call, need, wanted, NUMBER);
    if (*need <= length)
        memcpy(to, memory_at(call, room), (size_t)*need);
}

/* ---- the functions of pkguard */

/* As storklocker.c declares them, and the functions below. */
struct costs {
    uint32_t levels, weight;
    uint64_t work, clash, memory;
    uint32_t builds, all;
};
struct bill {
    uint32_t levels, weight;
    uint64_t work, clash, memory;
};

/* A check that tells the bill if there is room for it. */
static uint32_t check(
    const struct storklocker_pair *pairs, size_t count, const struct storklocker_settings *settings,
    const struct costs *costs, const uint8_t *pickles, size_t length, uint8_t *room,
    size_t room_length, struct storklocker_verdict *out, struct bill *bill) {
    struct call call;
    begin(&call);
    uint32_t list = put_pairs(&call, pairs, count), names = room_in(&call, room_length);
    uint32_t set = put_structure(&call, settings, SETTINGS);
    uint32_t limits = put_structure(&call, costs, COSTS), bytes = put_bytes(&call, pickles, length);
    uint32_t verdict = put_structure(&call, NULL, VERDICT);
    uint32_t billed = put_structure(&call, bill, BILL);
    if (!call.is_full && bill != NULL) {
        Z_storklockerZ_pkguard_check_loading(
            &call.it, list, count, set, limits, bytes, length, names, room_length, verdict, billed);
        take_fields(&call, bill, billed, BILL);
    } else if (!call.is_full)
        Z_storklockerZ_pkguard_check_within(
            &call.it, list, count, set, limits, bytes, length, names, room_length, verdict);
    take_names(&call, verdict, names, room, room_length);
    return end_check(&call, verdict, out);
}

uint32_t pkguard_check_loading(
    const struct storklocker_pair *pairs, size_t count, const struct storklocker_settings *settings,
    const struct costs *costs, const uint8_t *pickles, size_t length, uint8_t *room,
    size_t room_length, struct storklocker_verdict *out, struct bill *bill) {
    memset(bill, 0, sizeof *bill);
    return check(
        pairs, count, settings, costs, pickles, length, room, room_length, out, bill);
}

uint32_t pkguard_check_within(
    const struct storklocker_pair *pairs, size_t count, const struct storklocker_settings *settings,
    const struct costs *costs, const uint8_t *pickles, size_t length, uint8_t *room,
    size_t room_length, struct storklocker_verdict *out) {
    return check(pairs, count, settings, costs, pickles, length, room, room_length, out, NULL);
}

/* A check without limits on costs is one within none. */
static uint32_t check_free(
    const struct storklocker_pair *pairs, size_t count, const struct storklocker_settings *settings,
    const uint8_t *pickles, size_t length, uint8_t *room, size_t room_length,
    struct storklocker_verdict *out, uint32_t all) {
    const struct costs none = {
        UINT32_MAX, UINT32_MAX, UINT64_MAX, UINT64_MAX, UINT64_MAX, 1, all};
    return pkguard_check_within(
        pairs, count, settings, &none, pickles, length, room, room_length, out);
}

uint32_t pkguard_check_pairs(
    const struct storklocker_pair *pairs, size_t count, const struct storklocker_settings *settings,
    const uint8_t *pickle, size_t length, uint8_t *room, size_t room_length,
    struct storklocker_verdict *out) {
    return check_free(pairs, count, settings, pickle, length, room, room_length, out, 0);
}

uint32_t pkguard_check_row(
    const struct storklocker_pair *pairs, size_t count, const struct storklocker_settings *settings,
    const uint8_t *pickles, size_t length, uint8_t *room, size_t room_length,
    struct storklocker_verdict *out) {
    return check_free(pairs, count, settings, pickles, length, room, room_length, out, 1);
}

uint32_t pkguard_check_list(
    const uint8_t *list, size_t list_length, const struct storklocker_settings *settings,
    const uint8_t *pickle, size_t length, uint8_t *room, size_t room_length,
    struct storklocker_verdict *out) {
    struct call call;
    begin(&call);
    uint32_t text = put_bytes(&call, list, list_length), names = room_in(&call, room_length);
    uint32_t set = put_structure(&call, settings, SETTINGS);
    uint32_t bytes = put_bytes(&call, pickle, length);
    uint32_t verdict = put_structure(&call, NULL, VERDICT);
    if (!call.is_full)
        Z_storklockerZ_pkguard_check_list(
            &call.it, text, list_length, set, bytes, length, names, room_length, verdict);
    take_names(&call, verdict, names, room, room_length);
    return end_check(&call, verdict, out);
}

uint32_t pkguard_read_list(
    const uint8_t *list, size_t list_length, uint8_t *room, size_t room_length,
    struct storklocker_settings *limits, uint64_t *wanted, struct storklocker_verdict *out) {
    struct call call;
    begin(&call);
    uint32_t text = put_bytes(&call, list, list_length), pairs = room_in(&call, room_length);
    uint32_t set = put_structure(&call, limits, SETTINGS);
    uint32_t need = put_structure(&call, NULL, NUMBER);
    uint32_t verdict = put_structure(&call, NULL, VERDICT);
    if (!call.is_full) {
        Z_storklockerZ_pkguard_read_list(
            &call.it, text, list_length, pairs, room_length, set, need, verdict);
        take_fields(&call, limits, set, SETTINGS);
    }
    take_pairs(&call, need, wanted, pairs, room, room_length);
    return end_list(&call, verdict, out);
}

uint32_t pkguard_list_told(
    const uint8_t *list, size_t list_length, uint8_t *room, size_t room_length,
    struct storklocker_said *said, uint64_t *wanted, struct storklocker_verdict *out) {
    struct call call;
    begin(&call);
    uint32_t text = put_bytes(&call, list, list_length), pairs = room_in(&call, room_length);
    uint32_t keys = put_structure(&call, said, SAID), need = put_structure(&call, NULL, NUMBER);
    uint32_t verdict = put_structure(&call, NULL, VERDICT);
    if (!call.is_full) {
        Z_storklockerZ_pkguard_list_told(
            &call.it, text, list_length, pairs, room_length, keys, need, verdict);
        take_fields(&call, said, keys, SAID);
    }
    take_pairs(&call, need, wanted, pairs, room, room_length);
    return end_list(&call, verdict, out);
}

uint32_t pkguard_list_costs(
    const uint8_t *list, size_t list_length, struct costs *costs, struct storklocker_verdict *out) {
    struct call call;
    begin(&call);
    uint32_t text = put_bytes(&call, list, list_length);
    uint32_t limits = put_structure(&call, costs, COSTS);
    uint32_t verdict = put_structure(&call, NULL, VERDICT);
    if (!call.is_full) {
        Z_storklockerZ_pkguard_list_costs(&call.it, text, list_length, limits, verdict);
        take_fields(&call, costs, limits, COSTS);
    }
    return end_list(&call, verdict, out);
}

/* The imports, within limits on costs if there are any. */
static uint32_t imports(
    const struct storklocker_settings *settings, const struct costs *costs, const uint8_t *pickle,
    size_t length, uint8_t *room, size_t room_length, uint64_t *wanted,
    struct storklocker_verdict *out, struct bill *bill) {
    struct call call;
    begin(&call);
    uint32_t set = put_structure(&call, settings, SETTINGS);
    uint32_t limits = put_structure(&call, costs, COSTS), bytes = put_bytes(&call, pickle, length);
    uint32_t pairs = room_in(&call, room_length), need = put_structure(&call, NULL, NUMBER);
    uint32_t billed = put_structure(&call, bill, BILL);
    uint32_t verdict = put_structure(&call, NULL, VERDICT);
    if (!call.is_full && costs != NULL) {
        Z_storklockerZ_pkguard_imports_loading(
            &call.it, set, limits, bytes, length, pairs, room_length, need, verdict, billed);
        take_fields(&call, bill, billed, BILL);
    } else if (!call.is_full)
        Z_storklockerZ_pkguard_imports(
            &call.it, set, bytes, length, pairs, room_length, need, verdict);
    take_pairs(&call, need, wanted, pairs, room, room_length);
    return end_check(&call, verdict, out);
}

uint32_t pkguard_imports(
    const struct storklocker_settings *settings, const uint8_t *pickle, size_t length,
    uint8_t *room, size_t room_length, uint64_t *wanted, struct storklocker_verdict *out) {
    return imports(settings, NULL, pickle, length, room, room_length, wanted, out, NULL);
}

uint32_t pkguard_imports_loading(
    const struct storklocker_settings *settings, const struct costs *costs, const uint8_t *pickle,
    size_t length, uint8_t *room, size_t room_length, uint64_t *wanted,
    struct storklocker_verdict *out, struct bill *bill) {
    memset(bill, 0, sizeof *bill);
    return imports(settings, costs, pickle, length, room, room_length, wanted, out, bill);
}

uint32_t pkguard_layout(uint8_t code) {
    struct call call;
    begin(&call);
    uint32_t layout = Z_storklockerZ_pkguard_layout(&call.it, code);
    Z_storklocker_free(&call.it);
    return layout;
}
