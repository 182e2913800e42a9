/* The time of a call, over 100,000 versions: the lowest of seven passes, by the thread's processor time. */
#include "semver.h"
#include <stdio.h>
#include <stdlib.h>
#include <string.h>
#include <time.h>

enum { VERSIONS = 100000, PASSES = 7 };

static const char *starts[VERSIONS];
static size_t lens[VERSIONS], list_len, needed;
static char *list, text[64];
static int8_t answers[VERSIONS];
static semver_ver held[VERSIONS];

static double now(void) {
    struct timespec t;
    clock_gettime(CLOCK_THREAD_CPUTIME_ID, &t);
    return t.tv_sec * 1e9 + t.tv_nsec;
}

static void make_versions(void) {
    char *at = malloc(VERSIONS * 24);
    list = at;
    for (int i = 0; i < VERSIONS; i++) {
        starts[i] = at;
        lens[i] = sprintf(at, i % 3 ? "%d.%d.%d" : "%d.%d.%d-rc.%d", i % 7, i % 31, i % 101, i % 5);
        semver_version_read(starts[i], lens[i], &held[i], text, 0, &needed);
        at += lens[i];
        *at++ = '\n';
    }
    list_len = at - list;
}

static int each_text(const char *req) {
    int sum = 0;
    for (int i = 0; i < VERSIONS; i++)
        sum += semver_fits(SEMVER_NPM, req, strlen(req), starts[i], lens[i], SEMVER_RESTRICTED, text, 0, &needed);
    return sum;
}

static int each_by_handle(const char *req) {
    int sum = 0;
    semver_req r = {0};
    semver_req_read(SEMVER_NPM, req, strlen(req), &r, text, 0, &needed);
    for (int i = 0; i < VERSIONS; i++) sum += semver_req_fits(&r, starts[i], lens[i], SEMVER_RESTRICTED);
    semver_req_free(&r);
    return sum;
}

static int both_by_handle(const char *req) {
    int sum = 0;
    semver_req r = {0};
    semver_req_read(SEMVER_NPM, req, strlen(req), &r, text, 0, &needed);
    for (int i = 0; i < VERSIONS; i++) sum += semver_req_matches(&r, &held[i], SEMVER_RESTRICTED);
    semver_req_free(&r);
    return sum;
}

static int one_call(const char *req) {
    int sum = 0;
    semver_filter(SEMVER_NPM, req, strlen(req), list, list_len, SEMVER_RESTRICTED, answers, VERSIONS, &needed);
    for (int i = 0; i < VERSIONS; i++) sum += answers[i];
    return sum;
}

static double lowest(int (*way)(const char *), const char *req, int expected) {
    double best = 1e18;
    for (int pass = 0; pass < PASSES; pass++) {
        double start = now();
        if (way(req) != expected) exit(1);
        if (now() - start < best) best = now() - start;
    }
    return best / VERSIONS;
}

int main(void) {
    const char *reqs[] = {"^1.2", ">=1.2 <2 || 3.x || ~5.6.7"};
    make_versions();
    for (int r = 0; r < 2; r++) {
        int sum = each_text(reqs[r]);
        printf("%-28s texts %.0f ns, range held %.0f ns, both held %.0f ns, one call %.0f ns a version\n", reqs[r],
               lowest(each_text, reqs[r], sum), lowest(each_by_handle, reqs[r], sum), lowest(both_by_handle, reqs[r], sum),
               lowest(one_call, reqs[r], sum));
    }
    return 0;
}
