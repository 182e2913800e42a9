/* Asks each question of a flat table (flatten.py) by every call that it concerns: questions FLAT
 *
 * Each is asked with ample memory, and then with every allocation failing in turn. The status is 1 where an answer differs or a block
 * is still alive at the end. */
#include "semver.h"
#include <inttypes.h>
#include <stdio.h>
#include <string.h>

#define BYTES(t) (t).at, (t).len
#define OUT out, sizeof out, &needed
enum { US = 0x1f, GS = 0x1d, RS = 0x1e, FIELDS = 5, LINES = 16, NUMBERS = 3 };

typedef struct {
    const char *at;
    size_t len;
} text;

/* What the codes from 0 on mean in an answer. */
typedef enum { FIT, ORDER, KIND } names;

long heap_alive(void), heap_limit(long allocations); /* of heap.c */

static text row, expected;
static uint32_t grammar, pre_releases;
static int memory_is_short, failed;
static char out[4096];
static size_t needed;

static int is(text t, const char *name) {
    return t.len == strlen(name) && memcmp(t.at, name, t.len) == 0;
}

/* The part of a text before the first mark, or all of it. */
static text before(text t, int mark) {
    const char *end = memchr(t.at, mark, t.len);
    return (text){t.at, end ? (size_t)(end - t.at) : t.len};
}

/* What follows the first separator of fields, or nothing. */
static text behind(text t) {
    size_t front = before(t, US).len;
    return front < t.len ? (text){t.at + front + 1, t.len - front - 1} : (text){t.at + t.len, 0};
}

/* Cuts the front of a text at a mark, and returns it. */
static text cut(text *rest, int mark) {
    text front = before(*rest, mark);
    size_t taken = front.len + (front.len < rest->len);
    *rest = (text){rest->at + taken, rest->len - taken};
    return front;
}

/* The kinds of releases, and that there is none. */
static const char *const KINDS[] = {"major", "minor", "patch", "premajor", "preminor", "prepatch", "prerelease", "release", "none"};
static const char *const BASES[] = {"zero", "one", "nothing"};
static const char *const ENDS[] = {"first", "last"};
static const char *const PARTS[] = {"numbers", "all"};

/* The number of a name among these, or one more than all have. */
static uint32_t number_of(text t, const char *const *names, size_t count) {
    uint32_t number = 0;
    while (number < count && !is(t, names[number])) number++;
    return number;
}

/* The name of a code in the table. */
static const char *name_of(int32_t code, names of) {
    if (of == KIND && code >= 0 && (size_t)code < sizeof KINDS / sizeof *KINDS) return KINDS[code];
    switch (code) {
    case SEMVER_NO: return of == ORDER ? "before" : "no";
    case SEMVER_YES: return of == ORDER ? "same" : "yes";
    case SEMVER_AFTER: return of == ORDER ? "after" : "no such code";
    case SEMVER_TAG: return "tag";
    case SEMVER_INVALID_RANGE: return "invalid range";
    case SEMVER_INVALID_VERSION: return "invalid version";
    case SEMVER_NOT_UTF8: return "invalid UTF-8";
    case SEMVER_NO_GRAMMAR: return "unknown grammar";
    case SEMVER_NO_MEMORY: return "out of memory";
    case SEMVER_NO_INCREMENT: return "no increment";
    default: return "no such code";
    }
}

static int is_invalid(int32_t code) {
    return code == SEMVER_INVALID_RANGE || code == SEMVER_INVALID_VERSION;
}

/* Compares an answer with the expected one: the name of its code, then what the call wrote. Where a call writes nothing, the name
 * alone is compared. */
static void check(int32_t code, names of, const char *written, size_t len) {
    static char answer[sizeof out + 32];
    if (memory_is_short && code == SEMVER_NO_MEMORY) return;
    text wanted = expected;
    if (!written) wanted = before(wanted, US);
    else if (is_invalid(code)) wanted.len = before(wanted, US).len + 1 + before(behind(wanted), US).len;
    int got = written && len ? sprintf(answer, "%s\x1f%.*s", name_of(code, of), (int)len, written)
                             : sprintf(answer, "%s", name_of(code, of));
    if ((size_t)got == wanted.len && memcmp(answer, wanted.at, wanted.len) == 0) return;
    printf("%.*s: %s\n", (int)row.len, row.at, answer);
    failed = 1;
}

/* Compares the place that a call of several arguments wrote: with an invalid one, the third field of the answer; else none is
 * written, except by `best` and `lowest`. */
static void check_place(int32_t code, size_t place) {
    char number[24];
    size_t len = sprintf(number, "%zu", place);
    text wanted = behind(behind(expected));
    if (code == SEMVER_NO_MEMORY && memory_is_short) wanted = (text){"99", 2};
    else if (!is_invalid(code)) wanted = (text){"99", 2};
    if (wanted.len == len && memcmp(wanted.at, number, len) == 0) return;
    printf("%.*s: the place is %s\n", (int)row.len, row.at, number);
    failed = 1;
}

static void check_text(int32_t code) {
    check(code, FIT, out, needed);
}

/* Parses a range. If it is invalid, that is the answer, and the handle has no value. */
static int read_req(text t, semver_req *handle) {
    int32_t code = semver_req_read(grammar, BYTES(t), handle, OUT);
    if (code != SEMVER_YES) check_text(code);
    return code == SEMVER_YES;
}

static int read_version(text t, semver_ver *handle) {
    int32_t code = semver_version_read(BYTES(t), handle, OUT);
    if (code != SEMVER_YES) check_text(code);
    return code == SEMVER_YES;
}

static void fits(const text *t) {
    semver_req r = {0};
    semver_ver v = {0};
    uint64_t numbers[NUMBERS];
    check_text(semver_fits(grammar, BYTES(t[0]), BYTES(t[1]), pre_releases, OUT));
    if (!read_req(t[0], &r)) return;
    check(semver_req_fits(&r, BYTES(t[1]), pre_releases), FIT, NULL, 0);
    if (read_version(t[1], &v)) {
        check(semver_req_matches(&r, &v, pre_releases), FIT, NULL, 0);
        semver_version_free(&v);
    }
    if (semver_version_numbers(BYTES(t[1]), numbers, NUMBERS, &needed) == SEMVER_YES)
        check(semver_req_matches_release(&r, numbers[0], numbers[1], numbers[2]), FIT, NULL, 0);
    semver_req_free(&r);
}

/* Writes an item of a list behind others of this length in `out`, and returns the new length. */
static size_t item(size_t len, const char *name) {
    return len + sprintf(out + len, len ? "\x1f%s" : "%s", name);
}

static int8_t answers[LINES];

static void check_answers(int32_t code) {
    size_t len = 0;
    for (size_t n = 0; n < needed; n++) len = item(len, name_of(answers[n], FIT));
    check(code, FIT, code == SEMVER_YES ? out : NULL, len);
}

static int read_list(text t, semver_list *list) {
    size_t lines;
    int32_t code = semver_list_read(BYTES(t), list, &lines);
    if (code != SEMVER_YES) check(code, FIT, NULL, 0);
    return code == SEMVER_YES;
}

static void check_match(int32_t code, size_t place) {
    check(code, FIT, code == SEMVER_YES ? out : NULL, sprintf(out, "%zu", place));
    if (code != SEMVER_YES) check_place(code, place);
}

static void filter_list(semver_list *list, semver_req *r) {
    check_answers(semver_list_filter(list, r, pre_releases, answers, LINES, &needed));
}

static void best_of_list(semver_list *list, semver_req *r) {
    size_t place = 99;
    int32_t code = semver_list_best(list, r, pre_releases, &place);
    check_match(code, place);
}

static void lowest_of_list(semver_list *list, semver_req *r) {
    size_t place = 99;
    int32_t code = semver_list_lowest(list, r, pre_releases, &place);
    check_match(code, place);
}

/* Asks of a range and a list that are held. */
static void ask_held_list(const text *t, void (*ask)(semver_list *, semver_req *)) {
    semver_req r = {0};
    semver_list list = {0};
    if (!read_req(t[0], &r)) return;
    if (read_list(t[1], &list)) {
        ask(&list, &r);
        semver_list_free(&list);
    }
    semver_req_free(&r);
}

static void above(const text *t) {
    check_text(semver_above(grammar, BYTES(t[0]), BYTES(t[1]), pre_releases, OUT));
}

static void below(const text *t) {
    check_text(semver_below(grammar, BYTES(t[0]), BYTES(t[1]), pre_releases, OUT));
}

static void filter(const text *t) {
    check_answers(semver_filter(grammar, BYTES(t[0]), BYTES(t[1]), pre_releases, answers, LINES, &needed));
    ask_held_list(t, filter_list);
}

static void list_best(const text *t) { ask_held_list(t, best_of_list); }
static void list_lowest(const text *t) { ask_held_list(t, lowest_of_list); }

static void check_places(int32_t code, const size_t *places) {
    size_t len = 0;
    char number[24];
    for (size_t n = 0; n < needed; n++) {
        sprintf(number, "%zu", places[n]);
        len = item(len, number);
    }
    check(code, FIT, code == SEMVER_YES ? out : NULL, len);
}

static void sort(const text *t) {
    size_t places[LINES], place = 99;
    int32_t code = semver_sort(BYTES(t[0]), places, LINES, &needed, &place);
    check_places(code, places);
    check_place(code, place);
}

static void list_sort(const text *t) {
    size_t places[LINES];
    semver_list list = {0};
    if (!read_list(t[0], &list)) return;
    int32_t code = semver_list_sort(&list, places, LINES, &needed);
    check_places(code, places);
    semver_list_free(&list);
}

static void best(const text *t) {
    size_t place = 99;
    int32_t code = semver_best(grammar, BYTES(t[0]), BYTES(t[1]), pre_releases, &place);
    check_match(code, place);
}

static void lowest(const text *t) {
    size_t place = 99;
    int32_t code = semver_lowest(grammar, BYTES(t[0]), BYTES(t[1]), pre_releases, &place);
    check_match(code, place);
}

static void simplify(const text *t) {
    size_t place = 99;
    int32_t code = semver_simplify(grammar, BYTES(t[0]), BYTES(t[1]), pre_releases, OUT, &place);
    check_text(code);
    check_place(code, place);
}

static void intersects(const text *t) {
    size_t place = 99;
    int32_t code = semver_intersects(grammar, BYTES(t[0]), BYTES(t[1]), &place);
    check(code, FIT, NULL, 0);
    check_place(code, place);
}

static void equivalent(const text *t) {
    size_t place = 99;
    int32_t code = semver_equivalent(grammar, BYTES(t[0]), BYTES(t[1]), pre_releases, &place);
    check(code, FIT, NULL, 0);
    check_place(code, place);
}

static void compare(const text *t) {
    size_t place = 99;
    int32_t code = semver_compare(BYTES(t[0]), BYTES(t[1]), &place);
    check(code, ORDER, NULL, 0);
    check_place(code, place);
}

/* The kind, the base, the version and the identifiers. */
static void increment(const text *t) {
    uint32_t kind = number_of(t[0], KINDS, SEMVER_NO_DIFFERENCE), base = number_of(t[1], BASES, sizeof BASES / sizeof *BASES);
    check_text(semver_increment(kind, BYTES(t[2]), BYTES(t[3]), base, OUT));
}

/* Which version, which of its parts, and the string that holds it. */
static void coerce(const text *t) {
    uint32_t end = number_of(t[0], ENDS, sizeof ENDS / sizeof *ENDS), parts = number_of(t[1], PARTS, sizeof PARTS / sizeof *PARTS);
    check_text(semver_coerce(end, BYTES(t[2]), parts, OUT));
}

static void difference(const text *t) {
    size_t place = 99;
    int32_t code = semver_difference(BYTES(t[0]), BYTES(t[1]), &place);
    check(code, KIND, NULL, 0);
    check_place(code, place);
}

static void within(const text *t) {
    size_t place = 99;
    int32_t code = semver_within(grammar, BYTES(t[0]), BYTES(t[1]), pre_releases, OUT, &place);
    check_text(code);
    check_place(code, place);
}

static void common(const text *t) {
    size_t place = 99;
    int32_t code = semver_common(grammar, BYTES(t[0]), BYTES(t[1]), pre_releases, OUT, &place);
    check_text(code);
    check_place(code, place);
}

static void common_all(const text *t) {
    size_t place = 99;
    int32_t code = semver_common_all(grammar, BYTES(t[0]), pre_releases, OUT, &place);
    check_text(code);
    check_place(code, place);
}

static void min_version(const text *t) {
    check_text(semver_min_version(grammar, BYTES(t[0]), pre_releases, OUT));
}

static void explain(const text *t) {
    check_text(semver_explain(grammar, BYTES(t[0]), pre_releases, OUT));
}

static void version_error(const text *t) {
    size_t place = 99;
    int32_t code = semver_version_error(BYTES(t[0]), &place);
    check_match(code, place);
}

/* Writes a scan behind others in `out`, as `item` does. With too little room its keys aren't written. */
static size_t scan(const semver_scans *scans, size_t index, size_t len) {
    char low[256], high[256], few[] = {9, 9};
    size_t low_len, high_len, lens[2];
    int32_t code = semver_scan(scans, index, low, sizeof low, &low_len, high, sizeof high, &high_len);
    semver_scan(scans, index, few, 1, &lens[0], few + 1, 1, &lens[1]);
    if (lens[0] != low_len || lens[1] != high_len || (low_len > 1 && few[0] != 9) || (high_len > 1 && few[1] != 9)) failed = 1;
    len = item(len, code == SEMVER_YES ? "pre" : "release");
    return len + sprintf(out + len, "\x1f%.*s\x1f%.*s", (int)low_len, low, (int)high_len, high);
}

static void scans(const text *t) {
    semver_req r = {0};
    semver_scans held = {0};
    size_t count = 0, len = 0;
    if (!read_req(t[0], &r)) return;
    int32_t code = semver_scans_read(&r, pre_releases, &held, &count);
    for (size_t n = 0; n < count; n++) len = scan(&held, n, len);
    check(code, FIT, code == SEMVER_YES ? out : NULL, len);
    semver_scans_free(&held);
    semver_req_free(&r);
}

/* If there is room for two numbers alone, none is written. */
static void version_numbers(const text *t) {
    uint64_t numbers[NUMBERS], few[] = {99, 99};
    size_t len = 0;
    char number[24];
    check(semver_version_numbers(BYTES(t[0]), few, 2, &needed), FIT, NULL, 0);
    if (few[0] != 99 || few[1] != 99) failed = 1;
    int32_t code = semver_version_numbers(BYTES(t[0]), numbers, NUMBERS, &needed);
    for (size_t n = 0; n < needed && n < NUMBERS; n++) {
        sprintf(number, "%" PRIu64, numbers[n]);
        len = item(len, number);
    }
    check(code, FIT, code >= 0 ? out : NULL, len);
}

/* A handle's text is written when it is parsed, too. */
static void normal(const text *t) {
    semver_req r = {0};
    int32_t code = semver_req_read(grammar, BYTES(t[0]), &r, OUT);
    check_text(code);
    if (code == SEMVER_YES) semver_req_free(&r);
}

static void version(const text *t) {
    semver_ver v = {0};
    int32_t code = semver_version_read(BYTES(t[0]), &v, OUT);
    check_text(code);
    if (code == SEMVER_YES) semver_version_free(&v);
}

static void is_tag(const text *t) {
    semver_req r = {0};
    check_text(semver_is_tag(grammar, BYTES(t[0]), OUT));
    if (!read_req(t[0], &r)) return;
    check(semver_req_is_tag(&r), FIT, NULL, 0);
    semver_req_free(&r);
}

static void may_be_tag(const text *t) {
    check(semver_may_be_tag(BYTES(t[0])), FIT, NULL, 0);
}

/* Compares what a call wrote with a field of the answer. */
static void check_field(int32_t code, text wanted) {
    if (memory_is_short && code == SEMVER_NO_MEMORY) return;
    if (code == SEMVER_YES && needed == wanted.len && memcmp(out, wanted.at, wanted.len) == 0) return;
    printf("%.*s: %.*s\n", (int)row.len, row.at, (int)needed, out);
    failed = 1;
}

/* An answer has the name, the range and its canonical form behind the JSON. */
static void package(const text *t) {
    semver_req r = {0};
    text rest = expected, all = expected;
    if (is(cut(&rest, US), "yes")) expected.len = before(rest, US).len + 4;
    check_text(semver_package(grammar, BYTES(t[0]), OUT));
    int32_t code = semver_package_read(grammar, BYTES(t[0]), &r, OUT);
    if (code == SEMVER_YES) {
        cut(&rest, US);
        check_field(code, cut(&rest, US));
        check_field(semver_req_text(&r, OUT), cut(&rest, US));
        check_field(semver_req_normal(&r, OUT), cut(&rest, US));
        semver_req_free(&r);
    } else {
        check_text(code);
    }
    expected = all;
}

/* A question's name; how many of a grammar and pre-releases stand before its texts; and the calls that answer it: of texts, of two
 * values that are held, of one. */
static const struct call {
    const char *name;
    int options;
    void (*ask)(const text *t);
    int32_t (*text)(const char *, size_t, char *, size_t, size_t *);
    int32_t (*req)(uint32_t, const char *, size_t, char *, size_t, size_t *);
    names of; /* what held_reqs returns */
    int32_t (*held_reqs)(const semver_req *, const semver_req *);
    int32_t (*held_versions)(const semver_ver *, const semver_ver *);
    int32_t (*held_req)(const semver_req *, char *, size_t, size_t *);
    int32_t (*held_version)(const semver_ver *, char *, size_t, size_t *);
} CALLS[] = {
    {"fits", 2, .ask = fits},
    {"above", 2, .ask = above},
    {"below", 2, .ask = below},
    {"filter", 2, .ask = filter},
    {"best", 2, .ask = best},
    {"lowest", 2, .ask = lowest},
    {"simplify", 2, .ask = simplify},
    {"sort", 0, .ask = sort},
    {"list_best", 2, .ask = list_best},
    {"list_lowest", 2, .ask = list_lowest},
    {"list_sort", 0, .ask = list_sort},
    {"may_be_tag", 0, .ask = may_be_tag},
    {"package", 1, .ask = package},
    {"reference", 0, .text = semver_reference},
    {"package_errors", 1, .req = semver_package_errors},
    {"reference_errors", 0, .text = semver_reference_errors},
    {"version_parts", 0, .text = semver_version_parts},
    {"ranges", 1, .req = semver_ranges},
    {"explain", 2, .ask = explain},
    {"errors", 1, .req = semver_errors},
    {"version_error", 0, .ask = version_error},
    {"name_with_version", 0, .text = semver_name_with_version},
    {"version_reference", 0, .text = semver_version_reference},
    {"dependency", 1, .req = semver_dependency},
    {"export_name", 0, .text = semver_export_name},
    {"increment", 0, .ask = increment},
    {"coerce", 0, .ask = coerce},
    {"difference", 0, .ask = difference},
    {"compare", 0, .ask = compare, .held_versions = semver_version_compare},
    {"order", 0, .held_versions = semver_version_order},
    {"intersects", 1, .ask = intersects, .held_reqs = semver_req_intersects},
    {"equal", 1, .held_reqs = semver_req_equal},
    {"req_order", 1, .of = ORDER, .held_reqs = semver_req_order},
    {"is_tag", 1, .ask = is_tag},
    {"within", 2, .ask = within},
    {"equivalent", 2, .ask = equivalent},
    {"common", 2, .ask = common},
    {"common_all", 2, .ask = common_all},
    {"min_version", 2, .ask = min_version},
    {"scans", 2, .ask = scans},
    {"normal", 1, .ask = normal, .req = semver_normal, .held_req = semver_req_normal},
    {"text", 1, .held_req = semver_req_text},
    {"version_numbers", 0, .ask = version_numbers},
    {"version", 0, .ask = version, .text = semver_version, .held_version = semver_version_text},
    {"key", 0, .text = semver_key, .held_version = semver_version_key},
};

static void ask_held_reqs(const struct call *c, const text *t) {
    semver_req r = {0}, s = {0};
    if (!read_req(t[0], &r)) return;
    if (c->held_req) check_text(c->held_req(&r, OUT));
    if (c->held_reqs && read_req(t[1], &s)) {
        check(c->held_reqs(&r, &s), c->of, NULL, 0);
        semver_req_free(&s);
    }
    semver_req_free(&r);
}

static void ask_held_versions(const struct call *c, const text *t) {
    semver_ver v = {0}, w = {0};
    if (!read_version(t[0], &v)) return;
    if (c->held_version) check_text(c->held_version(&v, OUT));
    if (c->held_versions && read_version(t[1], &w)) {
        check(c->held_versions(&v, &w), ORDER, NULL, 0);
        semver_version_free(&w);
    }
    semver_version_free(&v);
}

static void ask(const struct call *c, const text *t) {
    if (c->ask) c->ask(t);
    if (c->text) check_text(c->text(BYTES(t[0]), OUT));
    if (c->req) check_text(c->req(grammar, BYTES(t[0]), OUT));
    if (c->held_req || c->held_reqs) ask_held_reqs(c, t);
    if (c->held_version || c->held_versions) ask_held_versions(c, t);
}

/* Asks with ample memory; then with the first allocation and all after it failing, then from the second on, until none fails. */
static void ask_with_each_limit(const struct call *c, const text *t) {
    memory_is_short = 0;
    ask(c, t);
    memory_is_short = 1;
    for (long allocations = 0, failures = 1; failures > 0; allocations++) {
        heap_limit(allocations);
        ask(c, t);
        failures = heap_limit(-1);
    }
}

/* Every number but 0 admits pre-releases. */
static const uint32_t ADMITTING[] = {SEMVER_ADMITTED, 2, UINT32_MAX};

static void ask_row(void) {
    text fields[FIELDS + 1], rest;
    const struct call *c = CALLS, *end = CALLS + sizeof CALLS / sizeof *CALLS;
    expected = row;
    rest = cut(&expected, GS);
    for (int n = 0; n <= FIELDS; n++) fields[n] = cut(&rest, US);
    while (c < end && !is(fields[0], c->name)) c++;
    grammar = is(fields[1], "npm")          ? SEMVER_NPM
             : is(fields[1], "normalized") ? SEMVER_NORMALIZED
             : is(fields[1], "strict")     ? SEMVER_STRICT
                                           : 3;
    pre_releases = SEMVER_RESTRICTED;
    if (c == end) check(99, FIT, NULL, 0);
    else if (!is(fields[2], "admitted")) ask_with_each_limit(c, fields + 1 + c->options);
    else
        for (size_t n = 0; n < sizeof ADMITTING / sizeof *ADMITTING; n++) {
            pre_releases = ADMITTING[n];
            ask_with_each_limit(c, fields + 1 + c->options);
        }
}

int main(int count, char **arguments) {
    static char table[1 << 17];
    FILE *file = count == 2 ? fopen(arguments[1], "rb") : NULL;
    text rest = {table, file ? fread(table, 1, sizeof table, file) : 0};
    int rows = 0;
    for (; rest.len > 0; rows++) {
        row = cut(&rest, RS);
        ask_row();
    }
    printf("%d questions; %ld blocks are still alive\n", rows, heap_alive());
    return failed || rows == 0 || heap_alive() != 0;
}
