/* Calls that ask handles only read them, so threads may ask one handle at once. The handles and their values lie in pages that are made
 * read-only, and then every call asks them: first one thread, then eight at once. Each must be answered as before. A call that writes ends
 * the program, with its name. */
#define _GNU_SOURCE
#include "asks.h"
#include <pthread.h>
#include <signal.h>
#include <stdatomic.h>
#include <stdio.h>
#include <stdlib.h>
#include <sys/mman.h>
#include <unistd.h>

enum { ROOM = 1 << 24, VALUES = 6, RULES = 2, THREADS = 8, TIMES = 100, ALIGN = 16 };

static const char *const RANGES[VALUES] = {
    "^1.2", ">=1.2.0-alpha.1.beta.2.c <2.0.0-rc.1 || 3.x || ~4.5.6-x.y.z+build.5", "latest", "1.2.3 - 2.3.4-a.b.c.d.e || <0.0.1", "*",
    ">=1.0.0-a <1.0.0-b || >=1.0.0-c.1.2.3.4.5",
};
static const char *const VERSIONS[VALUES] = {
    "1.2.3", "1.2.3-alpha.1.beta.2.c+b.1", "1.0.0-c.1.2.3.4.5+x.y", "4.5.6-x.y.z", "0.0.0", "1.2.3-000000000000000000000000000001x.a",
};

typedef struct {
    semver_req reqs[VALUES];
    semver_ver versions[VALUES];
    semver_list list;
    semver_scans scans;
} handles;

static char *pages;
static size_t used;
static int are_closed;
static atomic_long freed;
static handles *held;
static answer answers[COUNT][VALUES][VALUES][RULES];
static _Thread_local const char *asking = "no call";

/* The heap below the library: its blocks lie in the pages until these are closed, each behind its size, and elsewhere from then on. */
void *heap_malloc(size_t size), *heap_realloc(void *block, size_t size);
void heap_free(void *block);

static int is_in_pages(const void *at) {
    return (uintptr_t)at - (uintptr_t)pages < ROOM;
}

void *heap_malloc(size_t size) {
    if (are_closed) return malloc(size);
    size_t taken = ALIGN + (size + ALIGN - 1) / ALIGN * ALIGN;
    if (size > ROOM || taken > ROOM - used) return NULL;
    char *block = pages + used + ALIGN;
    memcpy(block - sizeof size, &size, sizeof size);
    used += taken;
    return block;
}

void *heap_realloc(void *block, size_t size) {
    size_t before;
    if (!block) return heap_malloc(size);
    if (!is_in_pages(block)) return realloc(block, size);
    char *moved = heap_malloc(size);
    memcpy(&before, (char *)block - sizeof before, sizeof before);
    if (moved) memcpy(moved, block, before < size ? before : size);
    heap_free(block);
    return moved;
}

void heap_free(void *block) {
    if (!is_in_pages(block)) free(block);
    else if (are_closed) freed++;
}

static int failed;

static void is(const char *what, int holds) {
    printf("%s %s\n", holds ? "ok  " : "FAIL", what);
    failed += !holds;
}

static void say(const char *text) {
    if (write(STDOUT_FILENO, text, strlen(text)) < 0) _exit(2);
}

static void stop(int number, siginfo_t *fault, void *context) {
    (void)number, (void)context;
    say("FAIL ");
    say(asking);
    say(is_in_pages(fault->si_addr) && are_closed ? " writes to a handle or its value\n" : " reads or writes where it may not\n");
    _exit(1);
}

/* Makes the handles and their values, in the pages. */
static int make(void) {
    char out[1];
    size_t needed, lines, count;
    int made = 1;
    held = heap_malloc(sizeof *held);
    memset(held, 0, sizeof *held);
    for (int n = 0; n < VALUES; n++) {
        made &= semver_req_read(SEMVER_NPM, TEXT(RANGES[n]), &held->reqs[n], out, 0, &needed) == SEMVER_YES;
        made &= semver_version_read(TEXT(VERSIONS[n]), &held->versions[n], out, 0, &needed) == SEMVER_YES;
    }
    made &= semver_list_read(TEXT("1.2.3\nx\n1.2.3-alpha.1.beta.2.c+b.1\n4.5.6-x.y.z"), &held->list, &lines) == SEMVER_YES;
    return made && semver_scans_read(&held->reqs[1], SEMVER_RESTRICTED, &held->scans, &count) == SEMVER_YES;
}

static const void *value(enum kind kind, int n) {
    const void *const of[] = {[NONE] = NULL, [REQ] = &held->reqs[n], [VER] = &held->versions[n], [LIST] = &held->list, [SCANS] = &held->scans};
    return of[kind];
}

static int count_of(enum kind kind) {
    return kind == REQ || kind == VER ? VALUES : 1;
}

/* Asks each call of each value, or each two, by both rules of pre-releases. Keeps the answers, or counts those that differ from the ones
 * that were kept. */
static long ask_all(int keeps) {
    long differ = 0;
    for (int n = 0; n < COUNT; n++)
        for (int i = 0; i < count_of(CALLS[n].one); i++)
            for (int j = 0; j < count_of(CALLS[n].other); j++)
                for (uint32_t rule = 0; rule < RULES; rule++) {
                    answer now, *it = keeps ? &answers[n][i][j][rule] : &now;
                    asking = CALLS[n].name;
                    ask(&CALLS[n], value(CALLS[n].one, i), value(CALLS[n].other, j), rule, it);
                    differ += it->code == SEMVER_NO_VALUE || memcmp(it, &answers[n][i][j][rule], sizeof *it) != 0;
                }
    asking = "no call";
    return differ;
}

static void *ask_often(void *barrier) {
    long differ = 0;
    pthread_barrier_wait(barrier);
    for (int n = 0; n < TIMES; n++) differ += ask_all(0);
    return (void *)(intptr_t)differ;
}

static long ask_at_once(void) {
    pthread_t threads[THREADS];
    pthread_barrier_t barrier;
    long differ = 0;
    pthread_barrier_init(&barrier, NULL, THREADS);
    for (int n = 0; n < THREADS; n++) pthread_create(&threads[n], NULL, ask_often, &barrier);
    for (int n = 0; n < THREADS; n++) {
        void *differs;
        pthread_join(threads[n], &differs);
        differ += (intptr_t)differs;
    }
    pthread_barrier_destroy(&barrier);
    return differ;
}

static void free_all(void) {
    for (int n = 0; n < VALUES; n++) {
        semver_req_free(&held->reqs[n]);
        semver_version_free(&held->versions[n]);
    }
    semver_list_free(&held->list);
    semver_scans_free(&held->scans);
}

int main(void) {
    struct sigaction action = {.sa_sigaction = stop, .sa_flags = SA_SIGINFO};
    sigaction(SIGSEGV, &action, NULL);
    pages = mmap(NULL, ROOM, PROT_READ | PROT_WRITE, MAP_PRIVATE | MAP_ANONYMOUS, -1, 0);
    if (pages == MAP_FAILED) return 1;
    is("values are made", make());
    is("each call asks them", ask_all(1) == 0);
    mprotect(pages, ROOM, PROT_READ);
    are_closed = 1;
    is("and asks them where nothing can be written", ask_all(0) == 0);
    is("eight threads ask them at once", ask_at_once() == 0);
    is("no block of a value is freed", freed == 0);
    mprotect(pages, ROOM, PROT_READ | PROT_WRITE);
    are_closed = 0;
    free_all();
    is("the handles are empty once they are freed", !held->reqs[0].at && !held->versions[0].at && !held->list.at);
    return failed;
}
