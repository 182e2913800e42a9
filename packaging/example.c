/* Prints whether ^1.2 matches 1.3.0, by the installed library. */
#include <deno_semver/semver.h>
#include <stdio.h>
#include <string.h>

#define TEXT(s) (s), strlen(s)

int main(void) {
    char out[64];
    size_t needed;
    int32_t code = semver_fits(SEMVER_NPM, TEXT("^1.2"), TEXT("1.3.0"), SEMVER_RESTRICTED, out, sizeof out, &needed);
    puts(code == SEMVER_YES ? "yes" : "no");
    return code != SEMVER_YES;
}
