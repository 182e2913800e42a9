/* The heap of the tests: it counts the blocks that are alive, and can run out of memory. test.sh puts its calls in place of malloc,
 * realloc and free below the library, and of no other code. */
#include <stdatomic.h>
#include <stdlib.h>

static atomic_long alive, failures;
static atomic_long left = -1;

void *heap_malloc(size_t size), *heap_realloc(void *block, size_t size);
void heap_free(void *block);
long heap_alive(void), heap_limit(long allocations);

static int may_allocate(void) {
    if (left == 0) {
        failures++;
        return 0;
    }
    if (left > 0) left--;
    return 1;
}

void *heap_malloc(size_t size) {
    void *block = may_allocate() ? malloc(size) : NULL;
    if (block) alive++;
    return block;
}

void *heap_realloc(void *block, size_t size) {
    void *moved = may_allocate() ? realloc(block, size) : NULL;
    if (moved && !block) alive++;
    return moved;
}

void heap_free(void *block) {
    if (block) alive--;
    free(block);
}

/* How many blocks are alive. */
long heap_alive(void) {
    return alive;
}

/* Fails each allocation after so many more; none where the number is negative. Returns how many failed under the limit before. */
long heap_limit(long allocations) {
    left = allocations;
    return atomic_exchange(&failures, 0);
}
