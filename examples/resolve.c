/* Which version does each dependency get?
 *
 *     cc resolve.c $(pkg-config --cflags --libs deno_semver) */
#include <deno_semver/semver.h>
#include <stdio.h>
#include <string.h>

#define STRING(s) (s), strlen(s)

static const char ROUTER[] = "2.0.4\n2.1.0\n2.3.1\n3.0.0\n", LOG[] = "1.2.0\n1.3.0-beta.2\n";

static const struct dependency {
    const char *package, *range, *versions;
} DEPENDENCIES[] = {
    {"router", "^2.1", ROUTER},
    {"log", "^1.2 || 2", LOG},
    {"router", "<2.0.4", ROUTER},
    {"router", "^2..1", ROUTER},
};

/* Moves *text to the start of this line, counted from 0, and returns the line's length. */
static int find_line(const char **text, size_t line) {
    while (line--) *text = strchr(*text, '\n') + 1;
    return (int)(strchr(*text, '\n') - *text);
}

static void resolve(const struct dependency *it) {
    const char *found = it->versions;
    char message[128];
    size_t line, len;
    int32_t code = semver_best(SEMVER_NPM, STRING(it->range), STRING(it->versions), SEMVER_RESTRICTED, &line);
    printf("%s %s: ", it->package, it->range);
    if (code == SEMVER_YES) {
        int end = find_line(&found, line);
        printf("%.*s\n", end, found);
    } else if (code == SEMVER_NO) {
        puts("no version matches");
    } else {
        semver_normal(SEMVER_NPM, STRING(it->range), message, sizeof message, &len);
        printf("%.*s\n", len <= sizeof message ? (int)len : 0, message);
    }
}

int main(void) {
    for (size_t i = 0; i < sizeof DEPENDENCIES / sizeof *DEPENDENCIES; i++) resolve(&DEPENDENCIES[i]);
    return 0;
}
