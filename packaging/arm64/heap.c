/* The heap of the proved code on arm64, over the C library's: the kit has one for x86-64 alone. It's trusted, as the kit's is; the
 * kit's crate `libc` states what the three calls do. */
#include <stdbool.h>
#include <stdlib.h>

struct tried {
    bool has_block;
    void *block;
};

struct tried rattle_alloc(size_t size, size_t align);
struct tried rattle_realloc(void *block, size_t kept, size_t size, size_t align);
void rattle_dealloc(void *block);

/* Where there is no block the pointer is this place, since it may not be null. */
static char none;

static struct tried tried(void *block) {
    return (struct tried){block != NULL, block != NULL ? block : &none};
}

/* The C library may return null for no bytes, so such a block has some. */
static size_t some(size_t size, size_t align) {
    return size != 0 ? size : align;
}

/* The alignment divides 16, and so every block of the C library has it. */
struct tried rattle_alloc(size_t size, size_t align) {
    return tried(malloc(some(size, align)));
}

/* The first `kept` bytes are in use; the C library keeps all. If it fails, the block stays. */
struct tried rattle_realloc(void *block, size_t kept, size_t size, size_t align) {
    (void)kept;
    return tried(realloc(block, some(size, align)));
}

void rattle_dealloc(void *block) {
    free(block);
}
