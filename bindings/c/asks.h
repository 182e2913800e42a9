/* The calls that ask handles, for mistakes.c and threads.c. */
#include "semver.h"
#include <string.h>

#define TEXT(s) (s), strlen(s)

enum kind { NONE, REQ, VER, LIST, SCANS };
enum { LINES = 4 };
enum writes { CODE, MESSAGE, ITEMS, PLACE, KEYS };

/* What a call returns and writes. */
typedef struct {
    char out[64], high[64];
    int8_t answers[LINES];
    size_t places[LINES], room, needed, place, high_needed; /* the room in `out`, and in `high` */
    int32_t code;
} answer;

#define OUT it->out, it->room, &it->needed
#define ANSWERS it->answers, LINES, &it->needed
#define PLACES it->places, LINES, &it->needed
#define HIGH it->high, it->room, &it->high_needed

/* Of each call: its name without semver_, the kinds of its handles, what it writes besides its code, and its arguments. */
#define EACH(ask)                                                            \
    ask(req_is_tag, REQ, NONE, CODE, one)                                    \
    ask(req_fits, REQ, NONE, CODE, one, TEXT("1.3.0-rc.1+b"), pre_releases)  \
    ask(req_matches, REQ, VER, CODE, one, other, pre_releases)               \
    ask(req_matches_release, REQ, NONE, CODE, one, 1, 3, 0)                  \
    ask(req_intersects, REQ, REQ, CODE, one, other)                          \
    ask(req_equal, REQ, REQ, CODE, one, other)                               \
    ask(req_order, REQ, REQ, CODE, one, other)                               \
    ask(req_text, REQ, NONE, MESSAGE, one, OUT)                              \
    ask(req_normal, REQ, NONE, MESSAGE, one, OUT)                            \
    ask(version_text, VER, NONE, MESSAGE, one, OUT)                          \
    ask(version_key, VER, NONE, MESSAGE, one, OUT)                           \
    ask(version_compare, VER, VER, CODE, one, other)                         \
    ask(version_order, VER, VER, CODE, one, other)                           \
    ask(list_filter, LIST, REQ, ITEMS, one, other, pre_releases, ANSWERS)    \
    ask(list_best, LIST, REQ, PLACE, one, other, pre_releases, &it->place)   \
    ask(list_lowest, LIST, REQ, PLACE, one, other, pre_releases, &it->place) \
    ask(list_sort, LIST, NONE, ITEMS, one, PLACES)                           \
    ask(scan, SCANS, NONE, KEYS, one, 0, OUT, HIGH)

#define FUNCTION(name, first, second, writes, ...)                                                     \
    static int32_t ask_##name(const void *one, const void *other, uint32_t pre_releases, answer *it) { \
        (void)one, (void)other, (void)pre_releases, (void)it;                                          \
        return semver_##name(__VA_ARGS__);                                                             \
    }
EACH(FUNCTION)

/* The one call that asks a handle and reads into another. */
static int32_t ask_scans_read(const void *one, const void *other, uint32_t pre_releases, answer *it) {
    semver_scans scans = {0};
    (void)other;
    int32_t code = semver_scans_read(one, pre_releases, &scans, &it->place);
    semver_scans_free(&scans);
    return code;
}

#define ROW(name, first, second, writes, ...) {"semver_" #name, first, second, writes, ask_##name},
static const struct call {
    const char *name;
    enum kind one, other;
    enum writes writes;
    int32_t (*ask)(const void *one, const void *other, uint32_t pre_releases, answer *it);
} CALLS[] = {EACH(ROW){"semver_scans_read", REQ, NONE, PLACE, ask_scans_read}};
enum { COUNT = sizeof CALLS / sizeof *CALLS };

/* An answer that no call wrote. */
static void clear(answer *it, size_t room) {
    memset(it, 9, sizeof *it);
    it->room = room;
}

static void ask(const struct call *c, const void *one, const void *other, uint32_t pre_releases, answer *it) {
    clear(it, sizeof it->out);
    it->code = c->ask(one, other, pre_releases, it);
}
