/* Fails allocations of the program that it is loaded before (LD_PRELOAD).
 *
 * FAIL_AT       the number of the first allocation that fails, from 1; none or 0: no allocation fails
 * FAIL_ALL      1: every later allocation fails too
 * FAIL_LOG      an open file, to which one byte is written for each failure
 * LONG_ARGUMENT a length: the program gets each argument `LONG` as so many letters `1`, since the system passes no argument of
 *               more than 131,071 bytes
 */
#define _GNU_SOURCE
#include <dlfcn.h>
#include <stddef.h>
#include <stdlib.h>
#include <string.h>
#include <unistd.h>

void *__libc_malloc(size_t size);
void *__libc_realloc(void *old, size_t size);
void *__libc_calloc(size_t count, size_t size);
void *__libc_memalign(size_t alignment, size_t size);

static long at, allocations;
static int all, log_file = -1;

static long number(const char *name) {
    const char *text = getenv(name);
    return text ? atol(text) : 0;
}

__attribute__((constructor)) static void begin(void) {
    at = number("FAIL_AT");
    all = number("FAIL_ALL") == 1;
    log_file = getenv("FAIL_LOG") ? (int)number("FAIL_LOG") : -1;
    allocations = 0;
}

static int fails(void) {
    allocations++;
    if (at < 1 || allocations < at || (allocations > at && !all)) return 0;
    if (log_file >= 0 && write(log_file, "x", 1) < 0) log_file = -1;
    return 1;
}

void *malloc(size_t size) { return fails() ? NULL : __libc_malloc(size); }
void *realloc(void *old, size_t size) { return fails() ? NULL : __libc_realloc(old, size); }
void *calloc(size_t count, size_t size) { return fails() ? NULL : __libc_calloc(count, size); }
void *aligned_alloc(size_t alignment, size_t size) { return fails() ? NULL : __libc_memalign(alignment, size); }

int posix_memalign(void **to, size_t alignment, size_t size) {
    void *made = fails() ? NULL : __libc_memalign(alignment, size);
    if (!made) return 12;
    *to = made;
    return 0;
}

typedef int main_function(int, char **, char **);
typedef int start_function(main_function *, int, char **, void (*)(void), void (*)(void), void (*)(void), void *);

static char *letters(long length) {
    char *text = __libc_malloc((size_t)length + 1);
    if (!text) abort();
    memset(text, '1', (size_t)length);
    text[length] = 0;
    return text;
}

int __libc_start_main(main_function *main, int count, char **arguments, void (*init)(void), void (*fini)(void),
                      void (*loader_fini)(void), void *stack_end) {
    start_function *start = (start_function *)dlsym(RTLD_NEXT, "__libc_start_main");
    long length = number("LONG_ARGUMENT");
    for (int i = 1; length && i < count; i++)
        if (!strcmp(arguments[i], "LONG")) arguments[i] = letters(length);
    return start(main, count, arguments, init, fini, loader_fini, stack_end);
}
