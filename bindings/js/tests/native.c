/* Asks the static library what a file of questions asks, over the same C code as semver.wasm, and writes the answers: native QUESTIONS
 *
 * A question is the name of an export, how many allocations succeed, three numbers, and two texts; tests/native.mjs writes them. An
 * answer is a code, a place, and what was written. */
#include <stdio.h>
#include <stdlib.h>
#include <string.h>

#include "../wasm/semver_wasm.c"

long heap_limit(long allocations), heap_alive(void); /* of bindings/heap.c */
void *heap_malloc(size_t size);

typedef struct {
    char name[20];
    int32_t allocations, first, last;
    uint32_t lengths[2];
} question;

void *heap_take(size_t size) {
    return heap_malloc(size);
}

static uint32_t a, b;
static const question *asked;

#define IS(call) (strncmp(asked->name, #call, sizeof asked->name) == 0)
#define FIRST (uint32_t) asked->first
#define LAST (uint32_t) asked->last
#define ASK(call, ...) \
    if (IS(call)) return wasm_##call(__VA_ARGS__)

/* Parses the text at the front of the input. */
static int32_t read_range(uint32_t len, address *range) {
    int32_t code = wasm_range_read(FIRST, len);
    *range = wasm_handle();
    return code;
}

/* Asks of a range and the list at the front of the input. */
static int32_t ask_list(address range) {
    int32_t code = wasm_list_read(b);
    if (code != SEMVER_YES) return code;
    address list = wasm_handle();
    code = IS(list_sort)   ? wasm_list_sort(list, LAST)
         : IS(list_best)   ? wasm_list_best(list, range, LAST)
         : IS(list_lowest) ? wasm_list_lowest(list, range, LAST)
                           : wasm_list_filter(list, range, LAST);
    wasm_list_free(list);
    return code;
}

/* Asks of a range and the text at the front of the input. */
static int32_t ask_held_by(address range) {
    address other;
    if (strncmp(asked->name, "list_", 5) == 0) return ask_list(range);
    if (IS(range_fits)) return wasm_range_fits(range, b, LAST);
    if (IS(range_normal)) return wasm_range_normal(range);
    if (IS(range_text)) return wasm_range_text(range);
    if (IS(range_is_tag)) return wasm_range_is_tag(range);
    if (IS(range_scans)) return wasm_range_scans(range, LAST);
    int32_t code = read_range(b, &other);
    if (code != SEMVER_YES) return code;
    code = IS(range_equal) ? wasm_range_equal(range, other) : wasm_range_intersects(range, other);
    wasm_range_free(other);
    return code;
}

/* Parses the first text, and asks of the range and the second one. */
static int32_t ask_held(void) {
    address range;
    int32_t code = read_range(a, &range);
    if (code != SEMVER_YES) return code;
    memmove(input.at, input.at + a, b);
    code = ask_held_by(range);
    wasm_range_free(range);
    return code;
}

static int32_t ask(void) {
    ASK(fits, FIRST, a, b, LAST);
    ASK(filter, FIRST, a, b, LAST);
    ASK(best, FIRST, a, b, LAST);
    ASK(lowest, FIRST, a, b, LAST);
    ASK(simplify, FIRST, a, b, LAST);
    ASK(within, FIRST, a, b, LAST);
    ASK(common, FIRST, a, b, LAST);
    ASK(equivalent, FIRST, a, b, LAST);
    ASK(intersects, FIRST, a, b);
    ASK(increment, FIRST, a, b, LAST);
    ASK(difference, a, b);
    ASK(compare, a, b);
    ASK(sort, a, LAST);
    ASK(min_version, FIRST, a, LAST);
    ASK(common_all, FIRST, a, LAST);
    ASK(normal, FIRST, a);
    ASK(version, a);
    ASK(key, a);
    ASK(explain, FIRST, a, LAST);
    ASK(errors, FIRST, a);
    ASK(package_errors, FIRST, a);
    ASK(reference_errors, a);
    ASK(version_error, a);
    ASK(version_parts, a);
    ASK(package, FIRST, a);
    ASK(reference, a);
    ASK(name_with_version, a);
    ASK(version_reference, a);
    ASK(dependency, FIRST, a);
    ASK(export_name, a);
    ASK(may_be_tag, a);
    return ask_held();
}

static void answer(const char *texts) {
    a = asked->lengths[0];
    b = asked->lengths[1];
    if (!wasm_input(a + b)) abort();
    memcpy(input.at, texts, a + b);
    heap_limit(asked->allocations);
    int32_t code = ask();
    heap_limit(-1);
    uint32_t numbers[] = {(uint32_t)code, wasm_place(), wasm_output_len()};
    fwrite(numbers, sizeof numbers, 1, stdout);
    fwrite(output.at, 1, numbers[2], stdout);
}

int main(int count, char **arguments) {
    static char texts[1 << 22];
    static question q;
    FILE *file = count == 2 ? fopen(arguments[1], "rb") : NULL;
    asked = &q;
    while (file && fread(&q, sizeof q, 1, file) == 1) {
        if (fread(texts, 1, q.lengths[0] + q.lengths[1], file) != q.lengths[0] + q.lengths[1]) return 1;
        answer(texts);
    }
    fprintf(stderr, "%ld blocks are alive\n", heap_alive());
    return file == NULL;
}
