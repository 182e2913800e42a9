/* The programs' arguments, environment, folders and errno on arm64: the kit has these calls for x86-64 alone. They're trusted, as the kit's
 * are; the kit's crate `os` states what they do. Not every kit's library asks for each. */
#include <errno.h>
#include <fcntl.h>
#include <stdint.h>
#include <stdlib.h>
#include <string.h>
#include <sys/types.h>

ssize_t rattle_arg(size_t place, uint8_t *out, size_t room);
ssize_t rattle_env(const uint8_t *name, uint8_t *out, size_t room);
ssize_t rattle_env_at(size_t place, uint8_t *out, size_t room);
int32_t rattle_errno(void);
void rattle_set_errno(int32_t error);
int32_t rattle_open_dir_at(int32_t folder, const uint8_t *name);

extern char **environ;

static size_t count;
static char **arguments;

/* glibc passes it the arguments of main, before main. */
__attribute__((constructor)) static void keep(int argc, char **argv) {
    count = argc > 0 ? (size_t)argc : 0;
    arguments = argv;
}

/* Copies a string and returns its length, or -1 if there is none, or -2 if it's too long, and then its beginning is copied. */
static ssize_t copy(const char *string, uint8_t *out, size_t room) {
    if (string == NULL) return -1;
    size_t length = strlen(string);
    memcpy(out, string, length <= room ? length : room);
    return length <= room ? (ssize_t)length : -2;
}

/* Copies an argument, as copy does. */
ssize_t rattle_arg(size_t place, uint8_t *out, size_t room) {
    return copy(place < count ? arguments[place] : NULL, out, room);
}

/* Copies the value of a variable, whose name ends with a zero byte, as copy does. */
ssize_t rattle_env(const uint8_t *name, uint8_t *out, size_t room) {
    return copy(getenv((const char *)name), out, room);
}

/* Copies an entry NAME=VALUE of the environment, as copy does. */
ssize_t rattle_env_at(size_t place, uint8_t *out, size_t room) {
    for (size_t i = 0; environ != NULL && environ[i] != NULL; i++) {
        if (i == place) return copy(environ[i], out, room);
    }
    return -1;
}

int32_t rattle_errno(void) {
    return errno;
}

void rattle_set_errno(int32_t error) {
    errno = error;
}

/* Opens the folder that a name leads to from an open one, or from the working folder. The name ends with a zero byte, and not in a link. */
int32_t rattle_open_dir_at(int32_t folder, const uint8_t *name) {
    return openat(folder, (const char *)name, O_RDONLY | O_DIRECTORY | O_NOFOLLOW | O_CLOEXEC);
}
