/* What a caller may do wrong with handles: each has an answer, writes what semver.h says and no more, and loses no block. The status is how
 * many fail. */
#include "asks.h"
#include <stdio.h>

long heap_alive(void), heap_limit(long allocations); /* of heap.c */

#define NO_VALUE "The handle holds no value of this kind."

static int failed;
static char out[64];
static size_t needed;

static void is(const char *call, const char *what, int holds) {
    printf("%s %s %s\n", holds ? "ok  " : "FAIL", call, what);
    failed += !holds;
}

static int32_t read_req(void *handle, const char *text) {
    return semver_req_read(SEMVER_NPM, TEXT(text), handle, out, sizeof out, &needed);
}

static int32_t read_package(void *handle, const char *text) {
    return semver_package_read(SEMVER_NPM, TEXT(text), handle, out, sizeof out, &needed);
}

static int32_t read_version(void *handle, const char *text) {
    return semver_version_read(TEXT(text), handle, out, sizeof out, &needed);
}

static int32_t read_list(void *handle, const char *text) {
    return semver_list_read(TEXT(text), handle, &needed);
}

/* Reads the scans of a range. */
static int32_t read_scans(void *handle, const char *text) {
    semver_req range = {0};
    int32_t code = read_req(&range, text);
    if (code == SEMVER_YES) code = semver_scans_read(&range, SEMVER_RESTRICTED, handle, &needed);
    semver_req_free(&range);
    return code;
}

static void free_req(void *handle) { semver_req_free(handle); }
static void free_version(void *handle) { semver_version_free(handle); }
static void free_list(void *handle) { semver_list_free(handle); }
static void free_scans(void *handle) { semver_scans_free(handle); }

/* The calls that read into a handle: a text, one that is invalid, and how the value is freed. */
static const struct reader {
    const char *name, *text, *invalid;
    enum kind kind;
    int32_t (*read)(void *handle, const char *text);
    void (*free)(void *handle);
} READERS[] = {
    {"semver_req_read", "^1.2 || >=3.0.0-rc.1", ">18446744073709551616", REQ, read_req, free_req},
    {"semver_package_read", "@scope/name@^1.2", "scope/name@1", REQ, read_package, free_req},
    {"semver_version_read", "1.3.0-alpha.1+build.7", "1.3", VER, read_version, free_version},
    {"semver_list_read", "1.2.0\nfoo\n1.3.0-rc.1\n", "1.2.0\n\xff", LIST, read_list, free_list},
    {"semver_scans_read", ">=1.2.3-rc.1 <2 || 3.x", "latest", SCANS, read_scans, free_scans},
};
enum { READS = sizeof READERS / sizeof *READERS };

static const semver_req empty;
static semver_req reqs[2];
static semver_ver versions[2];
static semver_list list;
static semver_scans scans;

/* A handle that holds a value of this kind, the first or the second one; the empty one of NONE. */
static const void *held(enum kind kind, int n) {
    const void *const of[] = {[NONE] = &empty, [REQ] = &reqs[n], [VER] = &versions[n], [LIST] = &list, [SCANS] = &scans};
    return of[kind];
}

/* Whether the answer of a call to these handles is that one holds no value of its kind, with so much room for the message. */
static int rejects(const struct call *c, const void *one, const void *other, size_t room) {
    answer it, wanted;
    clear(&it, room);
    clear(&wanted, room);
    it.code = c->ask(one, other, SEMVER_RESTRICTED, &it);
    wanted.code = SEMVER_NO_VALUE;
    if (c->writes == ITEMS || c->writes == KEYS) wanted.needed = 0;
    if (c->writes == KEYS) wanted.high_needed = 0;
    if (c->writes == MESSAGE) wanted.needed = strlen(NO_VALUE);
    if (c->writes == MESSAGE && wanted.needed <= room) memcpy(wanted.out, NO_VALUE, wanted.needed);
    return memcmp(&it, &wanted, sizeof it) == 0;
}

/* Each call, with each two of an empty handle and one of every kind but those that it asks. */
static void wrong_handles(void) {
    for (const struct call *c = CALLS; c < CALLS + COUNT; c++) {
        int holds = 1;
        answer it;
        for (enum kind one = NONE; one <= SCANS; one++)
            for (enum kind other = NONE; other <= SCANS; other++) {
                if (one == c->one && (other == c->other || c->other == NONE)) continue;
                holds &= rejects(c, held(one, 0), held(other, 1), sizeof it.out);
                holds &= rejects(c, held(one, 0), held(other, 1), strlen(NO_VALUE) - 1);
            }
        ask(c, held(c->one, 0), held(c->other, 1), SEMVER_RESTRICTED, &it);
        is(c->name, "finds no value in an empty handle, nor in one of another kind", holds && it.code >= 0);
    }
    int32_t invalid = semver_req_fits(&empty, TEXT("1.3"), SEMVER_RESTRICTED);
    int32_t not_utf8 = semver_req_fits(&empty, TEXT("\xff"), SEMVER_RESTRICTED);
    is("semver_req_fits", "checks the handle before the text", invalid == SEMVER_NO_VALUE && not_utf8 == SEMVER_NO_VALUE);
}

/* A tag has no scans, and a range none behind the last. */
static void no_scans(void) {
    semver_scans other = {0};
    semver_req tag = {0};
    answer it, wanted;
    size_t count = 9;
    read_req(&tag, "latest");
    int32_t code = semver_scans_read(&tag, SEMVER_RESTRICTED, &other, &count);
    is("semver_scans_read", "makes none of a tag", code == SEMVER_TAG && !other.at && count == 9);
    clear(&it, sizeof it.out);
    clear(&wanted, sizeof it.out);
    it.code = semver_scan(&scans, 1, it.out, it.room, &it.needed, it.high, it.room, &it.high_needed);
    wanted.code = SEMVER_NO_VALUE;
    wanted.needed = wanted.high_needed = 0;
    is("semver_scan", "finds none behind the last", memcmp(&it, &wanted, sizeof it) == 0);
    semver_req_free(&tag);
}

static void same_handles(void) {
    for (const struct call *c = CALLS; c < CALLS + COUNT; c++) {
        answer it;
        if (c->one != c->other) continue;
        ask(c, held(c->one, 0), held(c->one, 0), SEMVER_RESTRICTED, &it);
        is(c->name, "takes one handle twice", it.code == 1 /* YES, or SAME */);
    }
}

static void frees(void) {
    for (const struct reader *r = READERS; r < READERS + READS; r++) {
        semver_req handle = {0};
        long alive = heap_alive();
        r->free(&handle);
        int holds = !handle.at && r->read(&handle, r->text) == SEMVER_YES && handle.at && heap_alive() > alive;
        r->free(&handle);
        holds &= !handle.at && heap_alive() == alive;
        r->free(&handle);
        is(r->name, "fills an empty handle that was freed, and it can be freed twice", holds && !handle.at && heap_alive() == alive);
    }
}

/* What a handle has, as calls write it. */
typedef struct {
    const void *at;
    long alive;
    answer of;
} state;

static void look(enum kind kind, const semver_req *handle, state *now) {
    answer *it = &now->of;
    memset(now, 0, sizeof *now);
    clear(it, sizeof it->out);
    now->at = handle->at;
    now->alive = heap_alive();
    it->code = kind == REQ     ? semver_req_text((const void *)handle, OUT)
               : kind == VER   ? semver_version_text((const void *)handle, OUT)
               : kind == SCANS ? semver_scan((const void *)handle, 0, OUT, HIGH)
                               : semver_list_sort((const void *)handle, PLACES);
}

static int is_as_it_was(enum kind kind, const semver_req *handle, const state *before) {
    state now;
    look(kind, handle, &now);
    return now.of.code >= 0 && memcmp(&now, before, sizeof now) == 0;
}

/* Whether a call that reads leaves a full handle as it was: with an invalid text, and whenever memory runs out. */
static int leaves(const struct reader *r, const struct reader *other) {
    semver_req handle = {0};
    state before;
    other->read(&handle, other->text);
    look(other->kind, &handle, &before);
    int holds = r->read(&handle, r->invalid) < 0 && is_as_it_was(other->kind, &handle, &before);
    for (long allocations = 0;; allocations++) {
        heap_limit(allocations);
        int32_t code = r->read(&handle, r->text);
        heap_limit(-1);
        if (code != SEMVER_NO_MEMORY) break;
        holds &= is_as_it_was(other->kind, &handle, &before);
    }
    r->free(&handle);
    return holds;
}

/* Whether a call that reads into a full handle frees what that held. */
static int replaces(const struct reader *r, const struct reader *other) {
    semver_req handle = {0};
    state alone, now;
    r->read(&handle, r->text);
    look(r->kind, &handle, &alone);
    r->free(&handle);
    other->read(&handle, other->text);
    int holds = r->read(&handle, r->text) == SEMVER_YES;
    look(r->kind, &handle, &now);
    now.at = alone.at;
    holds &= now.of.code >= 0 && memcmp(&now, &alone, sizeof now) == 0;
    r->free(&handle);
    return holds && !handle.at;
}

static void full_handles(void) {
    for (const struct reader *r = READERS; r < READERS + READS; r++) {
        int holds = 1;
        for (const struct reader *other = READERS; other < READERS + READS; other++) holds &= leaves(r, other) && replaces(r, other);
        is(r->name, "replaces what a handle holds, or leaves it", holds);
    }
}

int main(void) {
    setvbuf(stdout, NULL, _IONBF, 0); /* shows what came before a crash */
    read_req(&reqs[0], "^1.2");
    read_req(&reqs[1], ">=1.3 <2");
    read_version(&versions[0], "1.3.0-rc.1");
    read_version(&versions[1], "1.3.0");
    read_list(&list, "1.2.0\n1.3.0\nfoo");
    read_scans(&scans, "^1.2");
    wrong_handles();
    no_scans();
    same_handles();
    for (int n = 0; n < 2; n++) {
        semver_req_free(&reqs[n]);
        semver_version_free(&versions[n]);
    }
    semver_list_free(&list);
    semver_scans_free(&scans);
    frees();
    full_handles();
    is("no call", "loses a block", heap_alive() == 0);
    return failed;
}
