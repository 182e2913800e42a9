/* The calls of semver.h as exports of a WebAssembly module, with numbers of 32 bits alone, so that JavaScript needs no BigInt.
 *
 * JavaScript writes the texts of a call one behind another to `input(length)`, and passes their lengths. What a call writes, a text or
 * a list of numbers, is at `output()`, of `output_len()` bytes, until the next call; a place is `place()`, and a new handle `handle()`.
 * Each call returns the code of semver.h. */
#include "heap.h"
#include "semver.h"

/* The tests also compile this file for the machine that they run on, to ask the static library the same. */
#ifdef __wasm__
#define EXPORT(type, name) __attribute__((export_name(#name))) type wasm_##name
typedef uint32_t address;
#else
#define EXPORT(type, name) static __attribute__((unused)) type wasm_##name
typedef uintptr_t address;
#endif

typedef struct {
    char *at;
    size_t room;
} buffer;

static _Alignas(16) char first_input[1024], first_output[1024]; /* aligned as blocks of the heap are */
static buffer input = {first_input, sizeof first_input}, output = {first_output, sizeof first_output};
static size_t needed, place;
static void *made;

/* Makes room for so many bytes. What the buffer holds is lost. */
static int make_room(buffer *it, size_t size) {
    if (size <= it->room) return 1;
    char *larger = heap_take(size);
    if (!larger) return 0;
    if (it->at != first_input && it->at != first_output) heap_free(it->at);
    it->at = larger;
    it->room = size;
    return 1;
}

static address address_of(const void *at) {
    return (address)(uintptr_t)at;
}

/* Where JavaScript writes so many bytes; 0 if memory runs out. */
EXPORT(address, input)(uint32_t size) { return make_room(&input, size) ? address_of(input.at) : 0; }
EXPORT(address, output)(void) { return address_of(output.at); }
EXPORT(uint32_t, output_len)(void) { return (uint32_t)needed; }
EXPORT(uint32_t, place)(void) { return (uint32_t)place; }
EXPORT(address, handle)(void) { return address_of(made); }

/* Whether the output had no room for what the call writes, and has it now. */
static int may_repeat(int32_t *code) {
    if (needed <= output.room) return 0;
    if (make_room(&output, needed)) return 1;
    needed = 0;
    *code = SEMVER_NO_MEMORY;
    return 0;
}

/* Calls, and once more with a larger output where the first one was too small. */
#define WRITES(call)           \
    int32_t code;              \
    do code = (call);          \
    while (may_repeat(&code)); \
    return code

#define OUT output.at, output.room
#define ANSWERS (int8_t *)output.at, output.room /* a byte for each line */
#define TEXT(begin, len) input.at + (begin), len
#define RANGE(number) ((semver_req *)(uintptr_t)(number))
#define LIST(number) ((semver_list *)(uintptr_t)(number))

#include "exports.h" /* the calls that write no places and no handle */

/* Calls that write places: the output has room for `room` of them. Where there are more, the call is repeated. */
static size_t *places(size_t room) {
    return make_room(&output, room * sizeof(size_t)) ? (size_t *)output.at : 0;
}

/* Makes the places numbers of 32 bits. */
static int32_t report_places(int32_t code, size_t count) {
    for (size_t i = 0; code == SEMVER_YES && i < count; i++) ((uint32_t *)output.at)[i] = (uint32_t)((size_t *)output.at)[i];
    needed = code == SEMVER_YES ? count * sizeof(uint32_t) : 0;
    return code;
}

/* `count` is how many lines there are. */
EXPORT(int32_t, sort)(uint32_t versions_len, uint32_t count) {
    size_t *to = places(count);
    return to ? report_places(semver_sort(TEXT(0, versions_len), to, count, &needed, &place), count) : SEMVER_NO_MEMORY;
}

/* A handle is its address. */
static int32_t report_handle(int32_t code, void *handle) {
    if (code != SEMVER_YES) heap_free(handle);
    made = code == SEMVER_YES ? handle : 0;
    return code;
}

static int32_t parse_range(semver_req *handle, uint32_t grammar, uint32_t text_len) {
    int32_t code = semver_req_read(grammar, TEXT(0, text_len), handle, OUT, &needed);
    if (code == SEMVER_YES || !may_repeat(&code)) return code;
    return semver_req_read(grammar, TEXT(0, text_len), handle, OUT, &needed);
}

EXPORT(int32_t, range_read)(uint32_t grammar, uint32_t text_len) {
    semver_req *handle = heap_take(sizeof *handle);
    if (!handle) return SEMVER_NO_MEMORY;
    handle->at = 0;
    return report_handle(parse_range(handle, grammar, text_len), handle);
}

EXPORT(int32_t, list_read)(uint32_t versions_len) {
    size_t lines;
    semver_list *handle = heap_take(sizeof *handle);
    if (!handle) return SEMVER_NO_MEMORY;
    handle->at = 0;
    return report_handle(semver_list_read(TEXT(0, versions_len), handle, &lines), handle);
}

EXPORT(void, range_free)(address range) {
    semver_req_free(RANGE(range));
    heap_free(RANGE(range));
}

EXPORT(void, list_free)(address list) {
    semver_list_free(LIST(list));
    heap_free(LIST(list));
}

/* `count` is how many lines there are. */
EXPORT(int32_t, list_sort)(address list, uint32_t count) {
    size_t *to = places(count);
    int32_t code = to ? semver_list_sort(LIST(list), to, count, &needed) : SEMVER_NO_MEMORY;
    return report_places(code, needed);
}

/* How many bytes the scan at an index takes in the output, and how many its first key has. */
static size_t size_of_scan(const semver_scans *scans, size_t index, size_t *low) {
    char none[2];
    size_t high;
    semver_scan(scans, index, none, 0, low, none + 1, 0, &high);
    return *low + high + 4;
}

/* Writes a scan behind what is in the output: 0 or 1, the code of semver_scan, and the two keys. */
static void put_scan(const semver_scans *scans, size_t index) {
    size_t low, high, size = size_of_scan(scans, index, &low);
    char *to = output.at + needed;
    int32_t code = semver_scan(scans, index, to + 2, low, &low, to + low + 3, size - low - 4, &high);
    to[0] = (char)('0' + code);
    to[1] = to[low + 2] = ' ';
    to[size - 1] = '\n';
    needed += size;
}

static int32_t put_scans(const semver_scans *scans, size_t count) {
    size_t low, size = 0;
    for (size_t i = 0; i < count; i++) size += size_of_scan(scans, i, &low);
    if (!make_room(&output, size)) return SEMVER_NO_MEMORY;
    for (size_t i = 0; i < count; i++) put_scan(scans, i);
    return SEMVER_YES;
}

/* The scans of a range, a line each. */
EXPORT(int32_t, range_scans)(address range, uint32_t pre_releases) {
    semver_scans scans = {0};
    size_t count;
    int32_t code = semver_scans_read(RANGE(range), pre_releases, &scans, &count);
    needed = 0;
    if (code == SEMVER_YES) code = put_scans(&scans, count);
    semver_scans_free(&scans);
    return code;
}
