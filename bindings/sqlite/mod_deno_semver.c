/* SPDX-License-Identifier: MIT */
/* An extension of SQLite: versions and ranges of npm and JSR packages in SQL. docs/DATABASES.md says what each function does. */
#include <semver.h>
#include <sqlite3ext.h>
#include <stdlib.h>
#include <string.h>

SQLITE_EXTENSION_INIT1

#define OUT(it) (it)->at, (it)->room, &(it)->len

typedef struct {
    const char *at;
    size_t len;
} text;

#define BYTES(t) (t).at, (t).len

/* ---- what calls write, with room for a zero byte behind it */

typedef struct {
    char *at, near[256];
    size_t room, len;
} written;

static void begin(written *it) {
    it->at = it->near;
    it->room = sizeof it->near - 1;
    it->len = 0;
}

/* Whether a call must be repeated, since it had too little room, and has enough now. */
static int must_repeat(written *it, int32_t *code) {
    if (it->len <= it->room) return 0;
    it->at = sqlite3_malloc64(it->len + 1);
    it->room = it->at ? it->len : 0;
    if (!it->at) *code = SEMVER_NO_MEMORY;
    return it->at != NULL;
}

/* Calls, and once more with a larger buffer if what the call writes is long. */
#define WRITES(code, it, call) \
    do code = (call);          \
    while (must_repeat(&(it), &code))

static void end(written *it) {
    if (it->at != it->near) sqlite3_free(it->at);
}

static void result_text(sqlite3_context *context, const written *it) {
    sqlite3_result_text64(context, it->at, it->len, SQLITE_TRANSIENT, SQLITE_UTF8);
}

/* ---- arguments */

static int is_null(sqlite3_value *value) {
    return sqlite3_value_type(value) == SQLITE_NULL;
}

/* The text of an argument that isn't NULL. If memory runs out, it is null. */
static text text_of(sqlite3_value *value) {
    const char *at = (const char *)sqlite3_value_text(value);
    return (text){at, at ? (size_t)sqlite3_value_bytes(value) : 0};
}

/* How a range is read: its grammar, and which pre-releases match. */
typedef struct {
    uint32_t grammar, pre_releases;
} options;

static int grammar_of(text name, uint32_t *grammar) {
    static const char *const NAMES[] = {[SEMVER_NPM] = "npm", [SEMVER_NORMALIZED] = "normalized", [SEMVER_STRICT] = "strict"};
    for (*grammar = 0; *grammar < sizeof NAMES / sizeof *NAMES; ++*grammar)
        if (name.at && name.len == strlen(NAMES[*grammar]) && memcmp(name.at, NAMES[*grammar], name.len) == 0) return 1;
    return 0;
}

/* Reads the optional arguments behind the others: whether pre-releases match throughout, and the name of a grammar. NULL is what is read
 * without an argument. Whether there is such a grammar. */
static int read_options(sqlite3_value *pre_releases, sqlite3_value *grammar, options *it) {
    *it = (options){SEMVER_NPM, SEMVER_RESTRICTED};
    if (pre_releases && sqlite3_value_int(pre_releases)) it->pre_releases = SEMVER_ADMITTED;
    return !grammar || is_null(grammar) || grammar_of(text_of(grammar), &it->grammar);
}

#define NO_GRAMMAR "no such grammar: use 'npm', 'normalized' or 'strict'"

/* ---- errors */

/* The error of a text, for sqlite3_free; null if memory runs out. */
static char *error_of(int32_t code, const char *kind, text t, const written *message, size_t place) {
    if (code == SEMVER_TAG) return sqlite3_mprintf("\"%!.80s\" is a tag, and no range of versions", t.at);
    if (code == SEMVER_NOT_UTF8) return sqlite3_mprintf("a %s isn't UTF-8", kind);
    return sqlite3_mprintf("invalid %s \"%!.80s\" at byte %llu: %.*s", kind, t.at, (sqlite3_uint64)place + 1, (int)message->len, message->at);
}

static char *error_of_version(int32_t code, text version) {
    written message;
    size_t place = 0;
    begin(&message);
    WRITES(code, message, semver_version(BYTES(version), OUT(&message)));
    if (code == SEMVER_INVALID_VERSION && semver_version_error(BYTES(version), &place) != SEMVER_YES) code = SEMVER_NO_MEMORY;
    char *error = code == SEMVER_NO_MEMORY ? NULL : error_of(code, "version", version, &message, place);
    end(&message);
    return error;
}

/* The end of the string of JSON whose first quote is at this place: behind its last one. */
static const char *end_of_string(const char *at) {
    for (at++; *at != '"'; at++)
        if (*at == '\\') at++;
    return at + 1;
}

/* The number of the first member "start" in JSON without whitespace. Strings are passed whole, so one that holds such a text isn't taken for it. */
static size_t start_of(const char *json) {
    static const char NAME[] = "\"start\"";
    while (*json) {
        if (*json != '"') {
            json++;
            continue;
        }
        const char *name = json;
        json = end_of_string(json);
        if (*json == ':' && (size_t)(json - name) == strlen(NAME) && memcmp(name, NAME, strlen(NAME)) == 0) return strtoull(json + 1, NULL, 10);
    }
    return 0;
}

/* Where a range is invalid: "start" of the first of its errors. */
static int32_t find_place(uint32_t grammar, text range, size_t *place) {
    written json;
    int32_t code;
    begin(&json);
    WRITES(code, json, semver_errors(grammar, BYTES(range), OUT(&json)));
    if (code == SEMVER_YES) {
        json.at[json.len] = 0;
        *place = start_of(json.at);
    }
    end(&json);
    return code;
}

static char *error_of_range(int32_t code, uint32_t grammar, text range) {
    written message;
    size_t place = 0;
    if (code == SEMVER_TAG) return error_of(code, "range", range, NULL, 0);
    begin(&message);
    WRITES(code, message, semver_normal(grammar, BYTES(range), OUT(&message)));
    if (code == SEMVER_INVALID_RANGE && find_place(grammar, range, &place) != SEMVER_YES) code = SEMVER_NO_MEMORY;
    char *error = code == SEMVER_NO_MEMORY ? NULL : error_of(code, "range", range, &message, place);
    end(&message);
    return error;
}

/* Reports an error, and frees its message; without one memory ran out. */
static void fail(sqlite3_context *context, char *error) {
    if (error) sqlite3_result_error(context, error, -1);
    else sqlite3_result_error_nomem(context);
    sqlite3_free(error);
}

static void fail_version(sqlite3_context *context, int32_t code, text version) {
    fail(context, code == SEMVER_NO_MEMORY ? NULL : error_of_version(code, version));
}

static void fail_range(sqlite3_context *context, int32_t code, uint32_t grammar, text range) {
    fail(context, code == SEMVER_NO_MEMORY ? NULL : error_of_range(code, grammar, range));
}

/* ---- ranges that are kept */

/* A range, the text that it was read from, and by which grammar. */
typedef struct {
    semver_req req;
    uint32_t grammar;
    size_t len;
    char at[];
} range;

static void free_range(void *it) {
    if (it) semver_req_free(&((range *)it)->req);
    sqlite3_free(it);
}

/* Reads a range; null if it is invalid, or a tag. */
static range *read_range(uint32_t grammar, text t, int32_t *code) {
    size_t needed;
    char none[1];
    range *it = sqlite3_malloc64(sizeof *it + t.len);
    *code = SEMVER_NO_MEMORY;
    if (!it) return NULL;
    it->req.at = NULL;
    it->grammar = grammar;
    it->len = t.len;
    memcpy(it->at, t.at, t.len);
    *code = semver_req_read(grammar, BYTES(t), &it->req, none, 0, &needed);
    if (*code == SEMVER_YES && semver_req_is_tag(&it->req) == SEMVER_YES) *code = SEMVER_TAG;
    if (*code == SEMVER_YES) return it;
    free_range(it);
    return NULL;
}

static int is_range(const range *it, uint32_t grammar, text t) {
    return it && it->grammar == grammar && it->len == t.len && memcmp(it->at, t.at, t.len) == 0;
}

/* ---- scalar functions: the result is NULL if a range or a version is */

/* semver_matches(range, version [, pre_releases [, grammar]]). A range that is constant is parsed once for each statement. */
static void matches(sqlite3_context *context, int count, sqlite3_value **values) {
    options how;
    if (is_null(values[0]) || is_null(values[1])) return;
    if (!read_options(count > 2 ? values[2] : NULL, count > 3 ? values[3] : NULL, &how)) {
        sqlite3_result_error(context, NO_GRAMMAR, -1);
        return;
    }
    text version = text_of(values[1]);
    if (!version.at) {
        sqlite3_result_error_nomem(context);
        return;
    }
    int32_t code = SEMVER_NO_MEMORY;
    range *kept = sqlite3_get_auxdata(context, 0), *it = kept;
    if (!kept || kept->grammar != how.grammar) {
        text t = text_of(values[0]);
        it = t.at ? read_range(how.grammar, t, &code) : NULL;
        if (!it) {
            fail_range(context, code, how.grammar, t);
            return;
        }
    }
    code = semver_req_fits(&it->req, BYTES(version), how.pre_releases);
    if (code >= 0) sqlite3_result_int(context, code);
    else fail_version(context, code, version);
    if (it != kept) sqlite3_set_auxdata(context, 0, it, free_range); /* frees it, if the range isn't constant */
}

/* The text that a call writes of a version, or of a range. */
static void version_text(sqlite3_context *context, text version, int32_t (*call)(const char *, size_t, char *, size_t, size_t *)) {
    written it;
    int32_t code;
    begin(&it);
    WRITES(code, it, call(BYTES(version), OUT(&it)));
    if (code == SEMVER_YES) result_text(context, &it);
    else fail_version(context, code, version);
    end(&it);
}

/* semver_key(version) */
static void key(sqlite3_context *context, int count, sqlite3_value **values) {
    (void)count;
    if (is_null(values[0])) return;
    text version = text_of(values[0]);
    if (version.at) version_text(context, version, semver_key);
    else sqlite3_result_error_nomem(context);
}

/* semver_is_pre(version): 1 for a pre-release, 0 for a release. */
static void is_pre(sqlite3_context *context, int count, sqlite3_value **values) {
    (void)count;
    if (is_null(values[0])) return;
    text version = text_of(values[0]);
    uint64_t numbers[3];
    size_t needed, place;
    int32_t code = version.at ? semver_version_numbers(BYTES(version), numbers, 3, &needed) : SEMVER_NO_MEMORY;
    if (code < 0) {
        fail_version(context, code, version);
        return;
    }
    char release[64];
    sqlite3_snprintf(sizeof release, release, "%llu.%llu.%llu", numbers[0], numbers[1], numbers[2]);
    /* A pre-release is below the release of its numbers. */
    code = semver_compare(BYTES(version), release, strlen(release), &place);
    if (code == SEMVER_NO_MEMORY) sqlite3_result_error_nomem(context);
    else sqlite3_result_int(context, code == SEMVER_BEFORE);
}

/* semver_is_valid(version): whether the text is a version. */
static void is_valid(sqlite3_context *context, int count, sqlite3_value **values) {
    (void)count;
    if (is_null(values[0])) return;
    text version = text_of(values[0]);
    size_t needed;
    char none[1];
    int32_t code = version.at ? semver_version(BYTES(version), none, 0, &needed) : SEMVER_NO_MEMORY;
    if (code == SEMVER_NO_MEMORY) sqlite3_result_error_nomem(context);
    else sqlite3_result_int(context, code == SEMVER_YES);
}

/* semver_canonical(range [, grammar]) */
static void canonical(sqlite3_context *context, int count, sqlite3_value **values) {
    options how;
    written it;
    int32_t code;
    if (is_null(values[0])) return;
    if (!read_options(NULL, count > 1 ? values[1] : NULL, &how)) {
        sqlite3_result_error(context, NO_GRAMMAR, -1);
        return;
    }
    text t = text_of(values[0]);
    begin(&it);
    if (!t.at) code = SEMVER_NO_MEMORY;
    else WRITES(code, it, semver_normal(how.grammar, BYTES(t), OUT(&it)));
    if (code == SEMVER_YES) result_text(context, &it);
    else fail_range(context, code, how.grammar, t);
    end(&it);
}

/* semver_compare(one, other): -1, 0 or 1. */
static void compare(sqlite3_context *context, int count, sqlite3_value **values) {
    (void)count;
    if (is_null(values[0]) || is_null(values[1])) return;
    text one = text_of(values[0]), other = text_of(values[1]);
    size_t place = 0;
    int32_t code = one.at && other.at ? semver_compare(BYTES(one), BYTES(other), &place) : SEMVER_NO_MEMORY;
    if (code >= 0) sqlite3_result_int(context, code - SEMVER_SAME);
    else fail_version(context, code, place == 0 ? one : other);
}

/* ---- the collation SEMVER: versions by precedence, and behind them other texts by their bytes. A collation has no way to fail, so where memory
 * runs out, it interrupts the statement. SQLite looks for that in loops alone, so a statement that writes one row may end before, and leave an
 * index out of order. */
static int collate(void *db, int one_len, const void *one_at, int other_len, const void *other_at) {
    text one = {one_at, (size_t)one_len}, other = {other_at, (size_t)other_len};
    size_t place, needed;
    char none[1];
    int32_t code = semver_compare(BYTES(one), BYTES(other), &place);
    if (code >= 0) return code - SEMVER_SAME;
    int32_t of_one = semver_version(BYTES(one), none, 0, &needed), of_other = semver_version(BYTES(other), none, 0, &needed);
    if (code == SEMVER_NO_MEMORY || of_one == SEMVER_NO_MEMORY || of_other == SEMVER_NO_MEMORY) sqlite3_interrupt(db);
    if ((of_one == SEMVER_YES) != (of_other == SEMVER_YES)) return of_one == SEMVER_YES ? -1 : 1;
    int order = memcmp(one.at, other.at, one.len < other.len ? one.len : other.len);
    return order ? order : (one.len > other.len) - (one.len < other.len);
}

/* ---- aggregates: semver_highest(version [, range [, pre_releases [, grammar]]]), and semver_lowest */

/* The best version so far, which is one of two, with its text, and the last range. */
typedef struct {
    semver_ver versions[2];
    int best;
    char *at;
    size_t len;
    range *range;
} choice;

/* The order in which a version must stand to the best one so far, to be better. */
static const int32_t HIGHEST = SEMVER_AFTER, LOWEST = SEMVER_BEFORE;

/* Whether the version is in the range of the arguments. If that isn't known, the error is reported. */
static int is_asked(sqlite3_context *context, choice *it, int count, sqlite3_value **values, text version) {
    options how;
    int32_t code;
    if (count < 2) return 1;
    if (is_null(values[1])) return 0;
    if (!read_options(count > 2 ? values[2] : NULL, count > 3 ? values[3] : NULL, &how)) {
        sqlite3_result_error(context, NO_GRAMMAR, -1);
        return 0;
    }
    text t = text_of(values[1]);
    if (!t.at) {
        sqlite3_result_error_nomem(context);
        return 0;
    }
    if (!is_range(it->range, how.grammar, t)) {
        free_range(it->range);
        it->range = read_range(how.grammar, t, &code);
        if (!it->range) {
            fail_range(context, code, how.grammar, t);
            return 0;
        }
    }
    code = semver_req_fits(&it->range->req, BYTES(version), how.pre_releases);
    if (code < 0) fail_version(context, code, version);
    return code == SEMVER_YES;
}

/* Makes the other of the two versions, with this text, the best one. */
static void choose(sqlite3_context *context, choice *it, text version) {
    char *at = sqlite3_malloc64(version.len);
    if (!at) {
        sqlite3_result_error_nomem(context);
        return;
    }
    memcpy(at, version.at, version.len);
    sqlite3_free(it->at);
    it->at = at;
    it->len = version.len;
    it->best = !it->best;
}

static void step(sqlite3_context *context, int count, sqlite3_value **values) {
    int32_t wanted = *(const int32_t *)sqlite3_user_data(context);
    choice *it = sqlite3_aggregate_context(context, sizeof *it);
    if (!it) sqlite3_result_error_nomem(context);
    if (!it || is_null(values[0])) return;
    text version = text_of(values[0]);
    if (!version.at) {
        sqlite3_result_error_nomem(context);
        return;
    }
    if (!is_asked(context, it, count, values, version)) return;
    semver_ver *new = &it->versions[!it->best];
    size_t needed;
    char none[1];
    int32_t code = semver_version_read(BYTES(version), new, none, 0, &needed);
    if (code != SEMVER_YES) fail_version(context, code, version);
    else if (!it->at || semver_version_compare(new, &it->versions[it->best]) == wanted) choose(context, it, version);
}

static void finish(sqlite3_context *context) {
    choice *it = sqlite3_aggregate_context(context, 0);
    if (!it) return;
    if (it->at) sqlite3_result_text64(context, it->at, it->len, SQLITE_TRANSIENT, SQLITE_UTF8);
    semver_version_free(&it->versions[0]);
    semver_version_free(&it->versions[1]);
    free_range(it->range);
    sqlite3_free(it->at);
}

/* ---- the table semver_scans(range [, pre_releases [, grammar]]) */

enum column { IS_PRE, LOW, HIGH, RANGE, PRE_RELEASES, GRAMMAR };
enum { PARAMETERS = GRAMMAR - RANGE + 1 };

typedef struct {
    sqlite3_vtab_cursor base;
    sqlite3_value *parameters[PARAMETERS]; /* null where none was given */
    semver_scans scans;
    size_t count, at;
} cursor;

static int connect_scans(sqlite3 *db, void *data, int count, const char *const *arguments, sqlite3_vtab **out, char **error) {
    (void)data, (void)count, (void)arguments, (void)error;
    /* The columns have no types: with one, an index on expressions such as semver_key(version) isn't used. */
    int code = sqlite3_declare_vtab(db, "CREATE TABLE scans(is_pre, low, high, range HIDDEN, pre_releases HIDDEN, grammar HIDDEN)");
    if (code == SQLITE_OK) code = sqlite3_vtab_config(db, SQLITE_VTAB_INNOCUOUS);
    if (code != SQLITE_OK) return code;
    *out = sqlite3_malloc64(sizeof **out);
    if (!*out) return SQLITE_NOMEM;
    memset(*out, 0, sizeof **out);
    return SQLITE_OK;
}

static int disconnect_scans(sqlite3_vtab *table) {
    sqlite3_free(table);
    return SQLITE_OK;
}

/* Takes what the parameters are equal to, of which the range must be given. `idxNum` has a bit for each. */
static int plan(sqlite3_vtab *table, sqlite3_index_info *info) {
    (void)table;
    int given[PARAMETERS] = {0}, arguments = 0;
    for (int n = 0; n < info->nConstraint; n++) {
        int parameter = info->aConstraint[n].iColumn - RANGE;
        if (parameter < 0 || info->aConstraint[n].op != SQLITE_INDEX_CONSTRAINT_EQ) continue;
        if (!info->aConstraint[n].usable) return SQLITE_CONSTRAINT;
        given[parameter] = n + 1;
    }
    if (!given[0]) return SQLITE_CONSTRAINT;
    info->idxNum = 0;
    for (int parameter = 0; parameter < PARAMETERS; parameter++) {
        if (!given[parameter]) continue;
        info->idxNum |= 1 << parameter;
        info->aConstraintUsage[given[parameter] - 1].argvIndex = ++arguments;
        info->aConstraintUsage[given[parameter] - 1].omit = 1;
    }
    info->estimatedCost = 10;
    info->estimatedRows = 2;
    return SQLITE_OK;
}

static int open_scans(sqlite3_vtab *table, sqlite3_vtab_cursor **out) {
    (void)table;
    cursor *it = sqlite3_malloc64(sizeof *it);
    if (!it) return SQLITE_NOMEM;
    memset(it, 0, sizeof *it);
    *out = &it->base;
    return SQLITE_OK;
}

static void clear(cursor *it) {
    semver_scans_free(&it->scans);
    it->count = it->at = 0;
    for (int n = 0; n < PARAMETERS; n++) {
        sqlite3_value_free(it->parameters[n]);
        it->parameters[n] = NULL;
    }
}

static int close_scans(sqlite3_vtab_cursor *base) {
    clear((cursor *)base);
    sqlite3_free(base);
    return SQLITE_OK;
}

/* Keeps an error of the table, and frees the one before; without one memory ran out. */
static int fail_table(sqlite3_vtab *table, char *error) {
    sqlite3_free(table->zErrMsg);
    table->zErrMsg = error;
    return error ? SQLITE_ERROR : SQLITE_NOMEM;
}

static int filter_scans(sqlite3_vtab_cursor *base, int given, const char *name, int count, sqlite3_value **values) {
    (void)name;
    cursor *it = (cursor *)base;
    options how;
    int32_t code;
    clear(it);
    for (int parameter = 0, n = 0; parameter < PARAMETERS && n < count; parameter++)
        if (given & 1 << parameter && !(it->parameters[parameter] = sqlite3_value_dup(values[n++]))) return SQLITE_NOMEM;
    if (is_null(it->parameters[0])) return SQLITE_OK;
    if (!read_options(it->parameters[PRE_RELEASES - RANGE], it->parameters[GRAMMAR - RANGE], &how))
        return fail_table(base->pVtab, sqlite3_mprintf("%s", NO_GRAMMAR));
    text t = text_of(it->parameters[0]);
    range *read = t.at ? read_range(how.grammar, t, &code) : NULL;
    if (!t.at) return SQLITE_NOMEM;
    if (!read) return fail_table(base->pVtab, code == SEMVER_NO_MEMORY ? NULL : error_of_range(code, how.grammar, t));
    code = semver_scans_read(&read->req, how.pre_releases, &it->scans, &it->count);
    free_range(read);
    return code == SEMVER_YES ? SQLITE_OK : SQLITE_NOMEM;
}

static int next_scan(sqlite3_vtab_cursor *base) {
    ((cursor *)base)->at++;
    return SQLITE_OK;
}

static int is_at_end(sqlite3_vtab_cursor *base) {
    return ((cursor *)base)->at >= ((cursor *)base)->count;
}

static int column_of_scan(sqlite3_vtab_cursor *base, sqlite3_context *context, int column) {
    cursor *it = (cursor *)base;
    written low, high;
    int32_t code;
    if (column >= RANGE) {
        if (it->parameters[column - RANGE]) sqlite3_result_value(context, it->parameters[column - RANGE]);
        return SQLITE_OK;
    }
    begin(&low);
    begin(&high);
    do code = semver_scan(&it->scans, it->at, OUT(&low), OUT(&high));
    while (must_repeat(&low, &code) || (code >= 0 && must_repeat(&high, &code)));
    if (code < 0) sqlite3_result_error_nomem(context);
    else if (column == IS_PRE) sqlite3_result_int(context, code);
    else result_text(context, column == LOW ? &low : &high);
    end(&low);
    end(&high);
    return SQLITE_OK;
}

static int row_of_scan(sqlite3_vtab_cursor *base, sqlite3_int64 *row) {
    *row = (sqlite3_int64)((cursor *)base)->at + 1;
    return SQLITE_OK;
}

/* Without xCreate it is a table of its own name, and no other is made of it. */
static const sqlite3_module SCANS = {
    .xConnect = connect_scans,
    .xBestIndex = plan,
    .xDisconnect = disconnect_scans,
    .xOpen = open_scans,
    .xClose = close_scans,
    .xFilter = filter_scans,
    .xNext = next_scan,
    .xEof = is_at_end,
    .xColumn = column_of_scan,
    .xRowid = row_of_scan,
};

/* ---- what SQLite calls */

static const struct function {
    const char *name;
    int least, most; /* how many arguments */
    void (*call)(sqlite3_context *, int, sqlite3_value **);
} FUNCTIONS[] = {
    {"semver_matches", 2, 4, matches}, {"semver_key", 1, 1, key},         {"semver_is_pre", 1, 1, is_pre},
    {"semver_is_valid", 1, 1, is_valid}, {"semver_canonical", 1, 2, canonical}, {"semver_compare", 2, 2, compare},
};

static const struct aggregate {
    const char *name;
    const int32_t *wanted;
} AGGREGATES[] = {{"semver_highest", &HIGHEST}, {"semver_lowest", &LOWEST}};

enum { FLAGS = SQLITE_UTF8 | SQLITE_DETERMINISTIC | SQLITE_INNOCUOUS };

static int add_functions(sqlite3 *db) {
    int code = SQLITE_OK;
    for (const struct function *it = FUNCTIONS; it < FUNCTIONS + sizeof FUNCTIONS / sizeof *FUNCTIONS; it++)
        for (int count = it->least; count <= it->most && code == SQLITE_OK; count++)
            code = sqlite3_create_function(db, it->name, count, FLAGS, NULL, it->call, NULL, NULL);
    return code;
}

static int add_aggregates(sqlite3 *db) {
    int code = SQLITE_OK;
    for (const struct aggregate *it = AGGREGATES; it < AGGREGATES + sizeof AGGREGATES / sizeof *AGGREGATES; it++)
        for (int count = 1; count <= 4 && code == SQLITE_OK; count++)
            code = sqlite3_create_function(db, it->name, count, FLAGS, (void *)it->wanted, NULL, step, finish);
    return code;
}

#ifdef _WIN32
__declspec(dllexport)
#endif
int sqlite3_moddenosemver_init(sqlite3 *db, char **error, const sqlite3_api_routines *api) {
    SQLITE_EXTENSION_INIT2(api);
    if (semver_api() != SEMVER_API) {
        *error = sqlite3_mprintf("libdeno_semver has the API %u, and this extension needs %d", semver_api(), SEMVER_API);
        return SQLITE_ERROR;
    }
    int code = add_functions(db);
    if (code == SQLITE_OK) code = add_aggregates(db);
    if (code == SQLITE_OK) code = sqlite3_create_collation(db, "SEMVER", SQLITE_UTF8, db, collate);
    if (code == SQLITE_OK) code = sqlite3_create_module(db, "semver_scans", &SCANS, NULL);
    return code;
}
