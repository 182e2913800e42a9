/* SPDX-License-Identifier: MIT */
/* deno_semver, proved: its calls from C.
 *
 * A string is UTF-8 bytes and a length. No call looks for a NUL byte after it, or writes one. For every call:
 * - Pass no null pointer, even with length 0. What a pointer leads to must live, and not change, while the call runs.
 * - What a call may write, which it takes without `const`, must not overlap any other argument. Two `const` arguments may be the same.
 * - No call keeps a pointer that you pass. Several threads may call at once, each with its own memory for what a call may write. Don't
 *   call from a signal handler, nor in the forked child of a program that has threads.
 * - `malloc`, `realloc` and `free` must belong to one allocator. It must align a block to the largest power of two, up to 16, that
 *   divides the block's size.
 *
 * A call returns a code: 0 or more is an answer, and a negative code says why there is none. So `semver_fits(..) > 0` is true exactly if
 * the version matches. A call checks `const` handles first, then the grammar's number, then whether each string is UTF-8, then each
 * string from the left; the first that is invalid decides.
 *
 * A call writes its string to the start of `out` if it fits, and leaves the rest of `out`; if it doesn't fit, `out` stays as it was.
 * Either way the call stores the length in `*needed`, and 0 if there is no string. If the code is SEMVER_INVALID_RANGE or below, the
 * string is an error message. If you want no string, pass a buffer of length 0.
 *
 * Some calls take several arguments of one kind. With SEMVER_INVALID_RANGE or SEMVER_INVALID_VERSION they store in `*place` which one is
 * invalid, counted from 0: the first or the second of two, or the line of a list. With any other code `*place` stays as it was, unless
 * said otherwise. A line ends at "\n" or "\r\n". No empty line follows the last line end, and an empty string has no line. */
#ifndef SEMVER_H
#define SEMVER_H

#define SEMVER_VERSION "0.1.0"
#define SEMVER_API 1

#include <stddef.h>
#include <stdint.h>

#ifdef __cplusplus
extern "C" {
#endif

/* the grammars of ranges; each also takes a tag */
enum {
    SEMVER_NPM = 0,        /* npm's grammar of ranges */
    SEMVER_NORMALIZED = 1, /* comparators separated by whitespace, alternatives by || */
    SEMVER_STRICT = 2      /* the grammar of package specifiers: ~, ^ or nothing before one partial version */
};

/* RESTRICTED: a pre-release matches only if a bound is a pre-release of the same three numbers (npm's rule). ADMITTED, or any other number:
 * each pre-release between the bounds matches. */
enum { SEMVER_RESTRICTED = 0, SEMVER_ADMITTED = 1 };

/* which next version, or what changed between two versions; semver_difference also returns NO_DIFFERENCE */
enum {
    SEMVER_MAJOR = 0, SEMVER_MINOR = 1, SEMVER_PATCH = 2,
    SEMVER_PREMAJOR = 3, SEMVER_PREMINOR = 4, SEMVER_PREPATCH = 5, /* the first pre-release of the next major, minor or patch version */
    SEMVER_PRERELEASE = 6,                                         /* the next pre-release */
    SEMVER_RELEASE = 7,                                            /* the release of a pre-release */
    SEMVER_NO_DIFFERENCE = 8
};

/* the number that a new pre-release gets after its identifiers, or no number */
enum { SEMVER_BASE_ZERO = 0, SEMVER_BASE_ONE = 1, SEMVER_NO_BASE = 2 };

/* semver_coerce returns the first version in a string, or the one that ends last */
enum { SEMVER_FIRST = 0, SEMVER_LAST = 1 };

/* codes */
enum {
    SEMVER_NO = 0,
    SEMVER_YES = 1,
    SEMVER_BEFORE = 0, SEMVER_SAME = 1, SEMVER_AFTER = 2, /* of two versions */
    SEMVER_TAG = -1,             /* a range is a tag, a name that a registry gives a version */
    SEMVER_INVALID_RANGE = -2,   /* a range, a package or a reference is invalid */
    SEMVER_INVALID_VERSION = -3,
    SEMVER_NOT_UTF8 = -4,        /* bytes aren't valid UTF-8 */
    SEMVER_NO_GRAMMAR = -5,      /* a number is none of the call's choices: no grammar, release type, base, .. */
    SEMVER_NO_MEMORY = -6,       /* out of memory */
    SEMVER_NO_VALUE = -7,        /* a handle is empty, or holds a value of another kind */
    SEMVER_NO_INCREMENT = -8     /* there is no next version, or the identifiers of its pre-release are invalid */
};

/* ---- versions and ranges, from strings */

/* Whether the version matches the range: NO, YES or TAG. */
int32_t semver_fits(uint32_t grammar, const char *range, size_t range_len,
                    const char *version, size_t version_len, uint32_t pre_releases,
                    char *out, size_t out_len, size_t *needed);

/* Whether the version is above each version that the range matches: NO, YES or TAG. If the range matches nothing, every version is above
 * and below. */
int32_t semver_above(uint32_t grammar, const char *range, size_t range_len,
                     const char *version, size_t version_len, uint32_t pre_releases,
                     char *out, size_t out_len, size_t *needed);

/* Whether the version is below each version that the range matches: like semver_above. */
int32_t semver_below(uint32_t grammar, const char *range, size_t range_len,
                     const char *version, size_t version_len, uint32_t pre_releases,
                     char *out, size_t out_len, size_t *needed);

/* Which versions of a list, one per line, match the range: YES or TAG. With YES `answers[n]` is NO, YES or INVALID_VERSION for line n,
 * counted from 0, and `*needed` is the number of lines; if that is more than `answers_len`, `answers` stays as it was. With any other code
 * `*needed` is 0, and `answers` stays as it was. */
int32_t semver_filter(uint32_t grammar, const char *range, size_t range_len,
                      const char *versions, size_t versions_len, uint32_t pre_releases,
                      int8_t *answers, size_t answers_len, size_t *needed);

/* The highest of several versions, one per line, that matches the range, the first of equal ones: YES, and `*place` is its line, counted
 * from 0; NO, if none matches; or TAG. With INVALID_VERSION `*place` is that version's line, and with INVALID_RANGE it is 0. */
int32_t semver_best(uint32_t grammar, const char *range, size_t range_len,
                    const char *versions, size_t versions_len, uint32_t pre_releases, size_t *place);

/* The lowest that matches, the first of equal ones: like semver_best. */
int32_t semver_lowest(uint32_t grammar, const char *range, size_t range_len,
                      const char *versions, size_t versions_len, uint32_t pre_releases, size_t *place);

/* A short range that matches the same versions of a list, one per line: YES, with its text, or TAG. It is the range as you wrote it, or, if
 * that is shorter, the ranges in which the versions match, in canonical form. With INVALID_VERSION `*place` is that version's line, and with
 * INVALID_RANGE it is 0. */
int32_t semver_simplify(uint32_t grammar, const char *range, size_t range_len,
                        const char *versions, size_t versions_len, uint32_t pre_releases,
                        char *out, size_t out_len, size_t *needed, size_t *place);

/* Sorts several versions, one per line, by precedence: YES. `places[0]` is the line of the lowest, counted from 0, and `*needed` is the
 * number of lines. Versions that differ only in the build keep their order. If there are more lines than `places_len`, `places` stays as
 * it was. */
int32_t semver_sort(const char *versions, size_t versions_len, size_t *places, size_t places_len, size_t *needed,
                    size_t *place);

/* The order of two versions, builds aside: BEFORE (the first comes before the other), SAME or AFTER. */
int32_t semver_compare(const char *one, size_t one_len, const char *other, size_t other_len, size_t *place);

/* The next major, minor, patch or pre-release version, without a build: YES. A new pre-release has your identifiers, separated by ".", and
 * then the number of `base`. SEMVER_PATCH of 1.2.3-rc.1 is its own release, 1.2.3. SEMVER_MINOR also gives a pre-release's own release if
 * the patch is 0, and SEMVER_MAJOR if the minor and the patch are 0. SEMVER_PRERELEASE raises the last number of a pre-release that begins
 * with your identifiers and goes on with a number. If you give no identifiers, it raises the last number of any pre-release. A pre-release
 * with other identifiers gets yours, so the result may come before the version that you passed. The code is NO_INCREMENT if a number would
 * exceed 18446744073709551615, if you ask for the SEMVER_RELEASE of a release, or if the new pre-release would be empty, invalid or the
 * same as the old one. */
int32_t semver_increment(uint32_t release_type, const char *version, size_t version_len,
                         const char *identifiers, size_t identifiers_len, uint32_t base,
                         char *out, size_t out_len, size_t *needed);

/* The version that a string holds: YES or NO. In the string it is one to three numbers separated by "."; a missing number is 0. A number
 * may have leading zeros; one above 18446744073709551615 belongs to no version. `first_or_last` is SEMVER_FIRST or SEMVER_LAST. If
 * `pre_releases` isn't 0, the version has the pre-release and the build that come right behind its numbers. */
int32_t semver_coerce(uint32_t first_or_last, const char *text, size_t text_len, uint32_t pre_releases,
                      char *out, size_t out_len, size_t *needed);

/* What changed between two versions, whichever is the higher one. It is the first number that differs, such as SEMVER_MINOR, or
 * SEMVER_PREMINOR if the higher version is a pre-release. Between two pre-releases of the same numbers it is SEMVER_PRERELEASE. From a
 * pre-release to its own release, it is SEMVER_PATCH if the release's patch isn't 0, else SEMVER_MINOR if its minor isn't 0, else
 * SEMVER_MAJOR. From a pre-release of a major version to any release, it is SEMVER_MAJOR. SEMVER_NO_DIFFERENCE if the versions have the
 * same precedence. */
int32_t semver_difference(const char *one, size_t one_len, const char *other, size_t other_len, size_t *place);

/* Whether the bounds of two ranges overlap: NO or YES. The overlap may contain no version; semver_common tells. Two tags overlap if they
 * are the same; a tag and a range never do. */
int32_t semver_intersects(uint32_t grammar, const char *one, size_t one_len, const char *other, size_t other_len,
                          size_t *place);

/* Whether the other range matches each version that the first one matches: YES; NO, with the lowest version that only the first one
 * matches; or TAG. */
int32_t semver_within(uint32_t grammar, const char *one, size_t one_len, const char *other, size_t other_len,
                      uint32_t pre_releases, char *out, size_t out_len, size_t *needed, size_t *place);

/* Whether two ranges match the same versions: NO, YES or TAG. */
int32_t semver_equivalent(uint32_t grammar, const char *one, size_t one_len, const char *other, size_t other_len,
                          uint32_t pre_releases, size_t *place);

/* The lowest version that both ranges match: YES, with that version; NO, if there is none; or TAG. */
int32_t semver_common(uint32_t grammar, const char *one, size_t one_len, const char *other, size_t other_len,
                      uint32_t pre_releases, char *out, size_t out_len, size_t *needed, size_t *place);

/* The lowest version that all ranges match, one per line: like semver_common; NO, if there is no line. */
int32_t semver_common_all(uint32_t grammar, const char *ranges, size_t ranges_len, uint32_t pre_releases,
                          char *out, size_t out_len, size_t *needed, size_t *place);

/* The lowest version that the range matches: YES, with that version; NO, if there is none; or TAG. */
int32_t semver_min_version(uint32_t grammar, const char *range, size_t range_len, uint32_t pre_releases,
                           char *out, size_t out_len, size_t *needed);

/* The canonical form of the range: YES. That of a tag is the tag. */
int32_t semver_normal(uint32_t grammar, const char *range, size_t range_len,
                      char *out, size_t out_len, size_t *needed);

/* Whether the range is a tag: NO or YES. */
int32_t semver_is_tag(uint32_t grammar, const char *range, size_t range_len, char *out, size_t out_len, size_t *needed);

/* The version as a string, such as 1.2.3 for v1.2.3: YES. */
int32_t semver_version(const char *version, size_t version_len, char *out, size_t out_len, size_t *needed);

/* The sort key of the version: YES. It is printable ASCII without whitespace. The bytes of two keys compare as semver_compare compares
 * their versions, and no key begins another, so an index that compares by bytes sorts versions. */
int32_t semver_key(const char *version, size_t version_len, char *out, size_t out_len, size_t *needed);

/* The three numbers of a version: YES, if it has neither a pre-release nor a build, or NO, if it has either. With YES and with NO
 * `*needed` is 3, and with any other code 0. If `numbers_len` is less than 3, or with any other code, `numbers` stays as it was. */
int32_t semver_version_numbers(const char *version, size_t version_len, uint64_t *numbers, size_t numbers_len, size_t *needed);

/* Whether the string may be a tag, by npm's rules: NO or YES. */
int32_t semver_may_be_tag(const char *text, size_t text_len);

/* The alternatives of a range in their order, without those that are invalid or end below 0.0.0, as JSON: YES or TAG. Each has the members
 * "end" and "start", its bounds. A bound is null, or an object with "inclusive" (whether the version itself lies within) and "version". */
int32_t semver_ranges(uint32_t grammar, const char *range, size_t range_len, char *out, size_t out_len, size_t *needed);

/* What a range means, as JSON: YES or TAG. The members are "alternatives" (in their order) and "normal" (the canonical form). An
 * alternative has "text", without the whitespace around it. If it is invalid, and so left out, it has "error" (as from semver_errors).
 * Else it has "comparators", "end" and "start" (as from semver_ranges), "lowest" (the lowest version that it matches, or null), and
 * "pre-releases" (an array of the three numbers whose pre-releases match, or "all"). A comparator has "end", "start" and "text", its string
 * as written. A hyphen range counts as one comparator. */
int32_t semver_explain(uint32_t grammar, const char *range, size_t range_len, uint32_t pre_releases,
                       char *out, size_t out_len, size_t *needed);

/* What is wrong with a range, as JSON: YES, with an array of its invalid alternatives in their order. Each has "message", "start" (the
 * index of the byte at which it goes wrong), "end" (where it ends), and "expected" (what could stand at "start": "digit", "letter",
 * "whitespace", "end", or a string such as "."). If the range is a tag, that counts as an invalid alternative, too. In the strict grammar
 * the whole string is one alternative. */
int32_t semver_errors(uint32_t grammar, const char *range, size_t range_len, char *out, size_t out_len, size_t *needed);

/* Finds where a string stops being a version. Returns YES, and `*place` is the index of the first wrong byte: no version begins with the
 * bytes up to and including it. If the string is a version, or could become one if it went on, `*place` is its length. */
int32_t semver_version_error(const char *version, size_t version_len, size_t *place);

/* The parts of a version, as JSON: YES. "major", "minor" and "patch" are strings, and "build" and "pre" are arrays of strings. */
int32_t semver_version_parts(const char *version, size_t version_len, char *out, size_t out_len, size_t *needed);

/* ---- packages, from strings: JSON without whitespace between its parts, with the members in the order given here */

/* The parts of a package with a range, such as @scope/name@^1.2: YES. The members are "name" (without its scope), "normal" (the
 * canonical form of the range), "requirement" (the string that the range was parsed from), and "scope" (without its @, or null). The
 * grammar is that of the range. */
int32_t semver_package(uint32_t grammar, const char *text, size_t text_len, char *out, size_t out_len, size_t *needed);

/* The parts of a reference to a package, such as jsr:@scope/name@1/mod.ts: YES. The members are "export" (the export of a JSR package,
 * or null for npm), "kind" ("jsr" or "npm"), "package" (as from semver_package), and "path" (or null). The range has the strict grammar. */
int32_t semver_reference(const char *text, size_t text_len, char *out, size_t out_len, size_t *needed);

/* What is wrong with a package or a reference, as JSON: YES, with an array. If no part of the string is missing, it is an array as from
 * semver_errors, with indexes into the whole string. If a part is missing, the array has one error: "end" is the string's length,
 * "message" that of semver_package or semver_reference, and "expected" has what is missing at "start": "@", "/", "name", or "jsr:" and
 * "npm:". For a path that isn't allowed, and for a version in the path, "expected" is empty. */
int32_t semver_package_errors(uint32_t grammar, const char *text, size_t text_len, char *out, size_t out_len, size_t *needed);

int32_t semver_reference_errors(const char *text, size_t text_len, char *out, size_t out_len, size_t *needed);

/* The parts of a name with a version, such as @scope/name@1.2.3: YES. The members are "name" (without its scope), "scope" (without its
 * @, or null), and "version". */
int32_t semver_name_with_version(const char *text, size_t text_len, char *out, size_t out_len, size_t *needed);

/* The parts of a reference to one version of a package, such as jsr:@scope/name@1.2.3/mod.ts: YES. The members are "export", "kind" and
 * "path" (as from semver_reference), and "package" (as from semver_name_with_version). */
int32_t semver_version_reference(const char *text, size_t text_len, char *out, size_t out_len, size_t *needed);

/* The parts of a dependency, such as jsr:@scope/name@^1.2 or npm:name@1: YES. The members are "kind" ("jsr" or "npm"), "normal" (the
 * canonical form of the whole string), and "package" (as from semver_package). The grammar is that of the range. */
int32_t semver_dependency(uint32_t grammar, const char *text, size_t text_len, char *out, size_t out_len, size_t *needed);

/* The name of the export, such as ./mod.ts, for a module's path in a JSR package: YES. */
int32_t semver_export_name(const char *path, size_t path_len, char *out, size_t out_len, size_t *needed);

/* ---- values that you keep
 *
 * `semver_req r = {0};` is an empty handle: zero each one before its first call. Calls that end in _read put a value into a handle, and
 * calls that end in _free free it. Let no other code write a handle, nor copy one that holds a value: the copy would be a second owner.
 *
 * A call that takes a handle with `const` only reads the handle and its value. So you may pass one handle twice, and several threads may
 * ask one handle at once, as long as no thread puts a value into it or frees it. That is tested, not proved.
 *
 * If a handle is empty, or holds a value of another kind, the code is NO_VALUE. Then a call that writes a string writes the error
 * message, a call that writes a list stores 0 in `*needed`, and all else stays as it was, unless said otherwise. */
typedef struct {
    void *at;
} semver_req;

typedef struct {
    void *at;
} semver_ver;

/* versions, one per line, that you parse once and match with many ranges */
typedef struct {
    void *at;
} semver_list;

/* what a range matches, as scans of an index on sort keys */
typedef struct {
    void *at;
} semver_scans;

/* Parses a range into a handle: YES, with its canonical form, or the tag. With YES the call frees the value that the handle held before;
 * with any other code the handle stays as it was. */
int32_t semver_req_read(uint32_t grammar, const char *text, size_t text_len, semver_req *handle,
                        char *out, size_t out_len, size_t *needed);

/* Parses a package with a range, such as @scope/name@^1.2: YES, with its name. Its range is put into the handle, as by semver_req_read.
 * The grammar is that of the range. */
int32_t semver_package_read(uint32_t grammar, const char *text, size_t text_len, semver_req *handle,
                            char *out, size_t out_len, size_t *needed);

/* Parses a version into a handle, as semver_req_read does a range: YES, with the version as a string. */
int32_t semver_version_read(const char *text, size_t text_len, semver_ver *handle,
                            char *out, size_t out_len, size_t *needed);

/* Frees the value of a handle, and leaves the handle empty. Freeing an empty handle does nothing. */
void semver_req_free(semver_req *handle);
void semver_version_free(semver_ver *handle);

/* Whether the range is a tag: NO or YES. */
int32_t semver_req_is_tag(const semver_req *handle);

/* Whether the version in a string matches the range: like semver_fits. */
int32_t semver_req_fits(const semver_req *handle, const char *version, size_t version_len, uint32_t pre_releases);

/* Whether the version matches the range: NO, YES or TAG. */
int32_t semver_req_matches(const semver_req *range, const semver_ver *version, uint32_t pre_releases);

/* Whether the version with these numbers, and with neither a pre-release nor a build, matches the range: NO, YES or TAG. The answer is
 * the same for both rules of pre-releases. */
int32_t semver_req_matches_release(const semver_req *handle, uint64_t major, uint64_t minor, uint64_t patch);

/* Whether the bounds of two ranges overlap: like semver_intersects. */
int32_t semver_req_intersects(const semver_req *one, const semver_req *other);

/* Whether two ranges have the same bounds in the same order, or are the same tag, whatever strings they were parsed from: NO or YES. */
int32_t semver_req_equal(const semver_req *one, const semver_req *other);

/* The order of two ranges: BEFORE, SAME or AFTER. A tag comes before ranges, and of two tags the one with the higher bytes comes first. Of
 * two ranges the one that begins higher comes first, and then the one that ends lower; builds are compared last. SAME means what
 * semver_req_equal means. */
int32_t semver_req_order(const semver_req *one, const semver_req *other);

/* The string that the range was parsed from: YES. npm's grammar trims it. */
int32_t semver_req_text(const semver_req *handle, char *out, size_t out_len, size_t *needed);

/* semver_req_normal writes the canonical form of the range, and semver_version_text the version as a string: YES. */
int32_t semver_req_normal(const semver_req *handle, char *out, size_t out_len, size_t *needed);
int32_t semver_version_text(const semver_ver *handle, char *out, size_t out_len, size_t *needed);

/* The sort key of the version: like semver_key. */
int32_t semver_version_key(const semver_ver *handle, char *out, size_t out_len, size_t *needed);

/* The order of two versions: like semver_compare. */
int32_t semver_version_compare(const semver_ver *one, const semver_ver *other);

/* The order of two versions by precedence, and then by their builds: BEFORE, SAME or AFTER. */
int32_t semver_version_order(const semver_ver *one, const semver_ver *other);

/* Parses versions, one per line, into a handle, as semver_req_read does a range: YES, and `*lines` is the number of lines. A line that
 * isn't a version keeps its place and matches nothing. With any other code, NOT_UTF8 or NO_MEMORY, `*lines` stays as it was, too. */
int32_t semver_list_read(const char *versions, size_t versions_len, semver_list *handle, size_t *lines);

/* Frees the versions that a handle holds: like semver_req_free. */
void semver_list_free(semver_list *handle);

/* Which versions of the list match the range: like semver_filter. */
int32_t semver_list_filter(const semver_list *list, const semver_req *range, uint32_t pre_releases,
                           int8_t *answers, size_t answers_len, size_t *needed);

/* Which version of the list is the highest that matches the range, the first of equal ones: YES, and `*place` is its line, counted from
 * 0; NO, if none matches; or TAG. With any code but YES `*place` stays as it was. The call needs no memory, so no code says that memory
 * ran out. */
int32_t semver_list_best(const semver_list *list, const semver_req *range, uint32_t pre_releases, size_t *place);

/* The lowest that matches, the first of equal ones: like semver_list_best. */
int32_t semver_list_lowest(const semver_list *list, const semver_req *range, uint32_t pre_releases, size_t *place);

/* The lines of the list that are versions, in the order of precedence: like semver_sort. A line that isn't a version is left out, and
 * `*needed` is the number of the others. */
int32_t semver_list_sort(const semver_list *list, size_t *places, size_t places_len, size_t *needed);

/* Makes the scans of a range, and puts them into a handle, as semver_req_read does a range: YES, and `*count` is how many there are; or
 * TAG. A scan is either of releases or of pre-releases. The range matches a release exactly if its sort key is in a scan of releases, and a
 * pre-release exactly if its key is in a scan of pre-releases: at or above `low`, and below `high`, compared by bytes. Scans of releases
 * come first, then scans of pre-releases, each in ascending order, with a gap between one scan and the next. No scan is empty. With any
 * code but YES `handle` and `*count` stay as they were. */
int32_t semver_scans_read(const semver_req *range, uint32_t pre_releases, semver_scans *handle, size_t *count);

/* Frees the scans that a handle holds: like semver_req_free. */
void semver_scans_free(semver_scans *handle);

/* The scan at this index, counted from 0: NO, if it is about releases, or YES, if it is about pre-releases. Its keys are written to
 * `low` and `high`, as a string is to `out`. If there is none at the index, the code is NO_VALUE, and both lengths are 0, as for
 * an empty handle. */
int32_t semver_scan(const semver_scans *handle, size_t index, char *low, size_t low_len, size_t *low_needed,
                    char *high, size_t high_len, size_t *high_needed);

/* SEMVER_API of the library: a binding checks it when it loads the library, and rejects any other number. */
uint32_t semver_api(void);

#ifdef __cplusplus
}
#endif
#endif
