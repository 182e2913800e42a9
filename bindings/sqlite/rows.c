/* Asks SQLite each statement of a file (rows.txt says how it is written) with an extension: rows EXTENSION FILE
 *
 * Then it asks with every allocation of SQLite failing in turn, and with every allocation of the library, which stands over the heap of
 * bindings/heap.c. The answer must be the same, or that memory ran out, and SQLite must find no fault in the indexes. The status is 1 where an
 * answer differs, an index has a fault, or a block is lost. */
#include <dlfcn.h>
#include <sqlite3.h>
#include <stdio.h>
#include <stdlib.h>
#include <string.h>

enum { ROOM = 1 << 16, MOST = 200 };

static long (*heap_limit)(long), (*heap_alive)(void);

/* ---- an allocator of SQLite that can run out of memory */

static sqlite3_mem_methods standard;
static long left = -1, failures;

static int may_allocate(void) {
    if (left == 0) failures++;
    return left != 0 && (left < 0 || left-- > 0);
}

static void *allocate(int size) {
    return may_allocate() ? standard.xMalloc(size) : NULL;
}

static void *reallocate(void *block, int size) {
    return may_allocate() ? standard.xRealloc(block, size) : NULL;
}

/* Fails each allocation of SQLite after so many more, and returns how many failed. */
static long sqlite_limit(long allocations) {
    long failed = failures;
    left = allocations;
    failures = 0;
    return failed;
}

static void use_allocator(void) {
    sqlite3_config(SQLITE_CONFIG_GETMALLOC, &standard);
    sqlite3_mem_methods limited = standard;
    limited.xMalloc = allocate;
    limited.xRealloc = reallocate;
    sqlite3_config(SQLITE_CONFIG_MALLOC, &limited);
    sqlite3_config(SQLITE_CONFIG_LOOKASIDE, 0, 0);
}

/* ---- statements */

static char setup[MOST][ROOM / 64];
static const char *extension;
static int setups, failed;

static sqlite3 *open(void) {
    sqlite3 *db = NULL;
    char *error = NULL;
    if (sqlite3_open(":memory:", &db) != SQLITE_OK || sqlite3_enable_load_extension(db, 1) != SQLITE_OK) exit(2);
    if (sqlite3_load_extension(db, extension, NULL, &error) != SQLITE_OK) {
        fprintf(stderr, "%s\n", error);
        exit(2);
    }
    for (int n = 0; n < setups; n++)
        if (sqlite3_exec(db, setup[n], NULL, NULL, &error) != SQLITE_OK) {
            fprintf(stderr, "%s: %s\n", setup[n], error);
            exit(2);
        }
    return db;
}

/* Writes the answer of a statement as the file has it, and returns the code with which it ends. */
static int answer(sqlite3 *db, const char *sql, char *out) {
    sqlite3_stmt *statement = NULL;
    char *end = out;
    int first = strncmp(sql, "explain", 7) == 0 ? 3 : 0; /* of a plan the last column */
    int code = sqlite3_prepare_v2(db, sql, -1, &statement, NULL);
    while (code == SQLITE_OK && (code = sqlite3_step(statement)) == SQLITE_ROW) {
        for (int n = first; n < sqlite3_column_count(statement); n++) {
            const char *value = (const char *)sqlite3_column_text(statement, n);
            if (!value && sqlite3_column_type(statement, n) != SQLITE_NULL) code = SQLITE_NOMEM;
            end += sprintf(end, "%s%s", n > first ? "|" : "= ", value ? value : "NULL");
        }
        end += sprintf(end, "\n");
        if (code == SQLITE_ROW) code = SQLITE_OK;
    }
    if (code != SQLITE_DONE && code != SQLITE_NOMEM) sprintf(end, "! %s\n", sqlite3_errmsg(db));
    sqlite3_finalize(statement);
    return code;
}

/* Whether the answer says that memory ran out: a collation interrupts the statement then, and for an error SQLite may lack the memory of its
 * message. */
static int is_out_of_memory(int code, const char *got, const char *wanted) {
    return code == SQLITE_NOMEM || code == SQLITE_INTERRUPT || (strstr(wanted, "! ") && strstr(got, "! SQL logic error\n"));
}

/* Whether each index has the rows of its table, in its order. */
static int is_intact(sqlite3 *db) {
    static char out[ROOM];
    out[0] = 0;
    return answer(db, "pragma integrity_check", out) == SQLITE_DONE && strcmp(out, "= ok\n") == 0;
}

static int is_asked(const char *sql, const char *wanted, long (*limit)(long), long allocations) {
    static char out[ROOM];
    sqlite3 *db = open();
    out[0] = 0;
    limit(allocations);
    int code = answer(db, sql, out);
    long failures_now = limit(-1);
    if (!is_intact(db)) {
        printf("%s\nwith %ld allocations, leaves an index with a fault\n", sql, allocations);
        failed = 1;
    }
    sqlite3_close(db);
    if (strcmp(out, wanted) != 0 && !(failures_now && is_out_of_memory(code, out, wanted))) {
        printf("%s\nwith %ld allocations, is answered\n%sand not\n%s", sql, allocations, out, wanted);
        failed = 1;
    }
    return failures_now > 0;
}

static void ask(const char *sql, const char *wanted) {
    is_asked(sql, wanted, sqlite_limit, -1);
    for (long n = 0; is_asked(sql, wanted, sqlite_limit, n);) n++;
    for (long n = 0; is_asked(sql, wanted, heap_limit, n);) n++;
}

int main(int count, char **arguments) {
    static char line[ROOM / 16], sql[ROOM / 16], wanted[ROOM];
    FILE *file = count == 3 ? fopen(arguments[2], "r") : NULL;
    int statements = 0;
    if (!file) return 2;
    extension = arguments[1];
    use_allocator();
    void *library = dlopen(extension, RTLD_NOW);
    heap_limit = library ? (long (*)(long))dlsym(library, "heap_limit") : NULL;
    heap_alive = library ? (long (*)(void))dlsym(library, "heap_alive") : NULL;
    if (!heap_limit || !heap_alive) return 2;
    for (int more = 1; more;) {
        more = fgets(line, sizeof line, file) != NULL;
        if (more && (line[0] == '=' || line[0] == '!')) {
            strcat(wanted, line);
            continue;
        }
        if (sql[0]) ask(sql, wanted), statements++;
        sql[0] = wanted[0] = 0;
        if (!more || line[0] == '#' || line[0] == '\n') continue;
        line[strcspn(line, "\n")] = 0;
        strcpy(line[0] == '+' ? setup[setups++] : sql, line[0] == '+' ? line + 2 : line);
    }
    printf("%d statements; %ld blocks of the library and %lld bytes of SQLite are still alive\n", statements, heap_alive(),
           (long long)sqlite3_memory_used());
    return failed || statements == 0 || heap_alive() != 0;
}
