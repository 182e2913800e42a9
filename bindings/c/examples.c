/* Examples of the calls, and what the table of questions can't ask: buffers of other lengths, and what handles have. The status is how
 * many fail. */
#include "semver.h"
#include <stdio.h>
#include <string.h>

#define TEXT(s) (s), strlen(s)

long heap_alive(void), heap_limit(long allocations); /* of heap.c */

static int failed;
static char out[256];
static size_t needed;

static void is(const char *what, int holds) {
    printf("%s %s\n", holds ? "ok  " : "FAIL", what);
    failed += !holds;
}

static int wrote(const char *text) {
    return needed == strlen(text) && needed <= sizeof out && memcmp(out, text, needed) == 0;
}

static void texts(void) {
    int32_t code = semver_fits(SEMVER_NPM, TEXT(">=1.2 <2 || 3"), TEXT("1.3.0"), SEMVER_RESTRICTED, out, sizeof out, &needed);
    is("1.3.0 fits >=1.2 <2 || 3", code == SEMVER_YES && needed == 0);
    code = semver_fits(SEMVER_NPM, TEXT("^1.2"), TEXT("1.3"), SEMVER_RESTRICTED, out, 0, &needed);
    is("a text is left out where the buffer has length 0", code == SEMVER_INVALID_VERSION && needed > 0);
}

static void buffers(void) {
    memset(out, '.', sizeof out);
    int32_t code = semver_normal(SEMVER_NPM, TEXT(">=1.2.0 <2.0.0 || 3.x"), out, 10, &needed);
    is("a buffer that is too small stays as it was, and the length is returned", code == SEMVER_YES && needed == 11 && out[0] == '.');
    code = semver_normal(SEMVER_NPM, TEXT(">=1.2.0 <2.0.0 || 3.x"), out, 11, &needed);
    is("a buffer of the text's length holds it", code == SEMVER_YES && wrote("^1.2.0 || 3"));
    code = semver_normal(SEMVER_NPM, TEXT("1"), out, sizeof out, &needed);
    is("behind the text a buffer stays as it was", code == SEMVER_YES && wrote("1") && memcmp(out, "11.2.0 || 3.", 12) == 0);
}

static void lists(void) {
    int8_t answers[4] = {9, 9, 9, 9};
    size_t places[4] = {9, 9, 9, 9}, place = 9;
    const char *list = "1.2.0\n2.0.0\r\n1.9.9\n";
    int32_t code = semver_filter(SEMVER_NPM, TEXT("^1.2"), TEXT(list), SEMVER_RESTRICTED, answers, 2, &needed);
    is("too few answers stay as they were", code == SEMVER_YES && needed == 3 && memcmp(answers, "\11\11\11\11", 4) == 0);
    code = semver_filter(SEMVER_NPM, TEXT("^1.2"), TEXT(list), SEMVER_RESTRICTED, answers, 4, &needed);
    is("answers fill the front", code == SEMVER_YES && needed == 3 && memcmp(answers, "\1\0\1\11", 4) == 0);
    code = semver_filter(SEMVER_NPM, TEXT("latest"), TEXT(list), SEMVER_RESTRICTED, answers, 4, &needed);
    is("answers stay as they were with a tag", code == SEMVER_TAG && needed == 0 && memcmp(answers, "\1\0\1\11", 4) == 0);
    code = semver_sort(TEXT(list), places, 2, &needed, &place);
    is("too few places stay as they were", code == SEMVER_YES && needed == 3 && places[0] == 9 && places[2] == 9);
    code = semver_sort(TEXT(list), places, 4, &needed, &place);
    is("places fill the front", code == SEMVER_YES && places[0] == 0 && places[1] == 2 && places[2] == 1 && places[3] == 9);
    code = semver_sort(TEXT("1.0.0\nx"), places, 4, &needed, &place);
    is("places stay as they were with an invalid version, whose line is the place", code == SEMVER_INVALID_VERSION && needed == 0 && places[1] == 2 && place == 1);
    place = 9;
    code = semver_best(SEMVER_NPM, TEXT("3"), TEXT(list), SEMVER_RESTRICTED, &place);
    is("the place stays as it was where no version matches", code == SEMVER_NO && place == 9);
}

static void held_lists(void) {
    semver_req r = {0};
    semver_list list = {0};
    int8_t answers[4] = {9, 9, 9, 9};
    size_t places[3] = {9, 9, 9}, place = 9, lines = 0;
    int read = semver_req_read(SEMVER_NPM, TEXT("^1.2"), &r, out, sizeof out, &needed) == SEMVER_YES
            && semver_list_read(TEXT("1.2.0\nfoo\n2.0.0\n"), &list, &lines) == SEMVER_YES;
    int32_t code = semver_list_filter(&list, &r, SEMVER_RESTRICTED, answers, 4, &needed);
    is("a list is held, and a line that isn't a version stays in its place", read && lines == 3 && code == SEMVER_YES && needed == 3 && memcmp(answers, "\1\375\0\11", 4) == 0);
    code = semver_list_best(&list, &r, SEMVER_RESTRICTED, &place);
    is("the best match of a held list", code == SEMVER_YES && place == 0);
    code = semver_list_sort(&list, places, 1, &needed);
    is("a buffer for places that is too small stays as it was", code == SEMVER_YES && needed == 2 && places[0] == 9);
    code = semver_list_sort(&list, places, 3, &needed);
    is("lines that aren't versions aren't sorted", code == SEMVER_YES && needed == 2 && places[0] == 0 && places[1] == 2 && places[2] == 9);
    semver_list_free(&list);
    semver_req_free(&r);
    is("a list is freed", !list.at && heap_alive() == 0);
}

static void apis(void) {
    is("the library has the API of the header", semver_api() == SEMVER_API);
}

static void handles(void) {
    semver_req r = {0};
    semver_ver v = {0};
    int32_t code = semver_req_read(SEMVER_NPM, TEXT("^1.2 || >=3"), &r, out, sizeof out, &needed);
    int read = code == SEMVER_YES && wrote("^1.2.0 || >=3.0.0") && semver_version_read(TEXT("v1.3.0"), &v, out, sizeof out, &needed) == SEMVER_YES && wrote("1.3.0");
    is("a range and a version are held, and their texts written", read && semver_req_matches(&r, &v, SEMVER_RESTRICTED) == SEMVER_YES);
    semver_req_free(&r);
    semver_version_free(&v);
    is("a handle has no value once it is freed", !r.at && !v.at && heap_alive() == 0);
    code = semver_req_read(SEMVER_STRICT, TEXT(""), &r, out, sizeof out, &needed);
    is("a handle has no value where the text is invalid", code == SEMVER_INVALID_RANGE && wrote("Empty version constraint.") && !r.at);
    heap_limit(0);
    code = semver_version_read(TEXT("1.3.0"), &v, out, sizeof out, &needed);
    heap_limit(-1);
    is("a handle has no value when out of memory", code == SEMVER_NO_MEMORY && !v.at && heap_alive() == 0);
}

int main(void) {
    texts();
    buffers();
    lists();
    handles();
    held_lists();
    apis();
    return failed;
}
