/* The heap of semver.wasm, in place of the C library's: `rattle_alloc`, `rattle_realloc` and `rattle_dealloc` are what the proved code
 * calls. It's trusted, as the kit's is.
 *
 * A block has 2^n bytes, a header of 16 among them. Freed blocks of one size are a list, from which the next block of that size comes;
 * else it comes from the end of memory, which grows by pages of 64 KiB. Addresses have 32 bits once the module is lowered, so no block
 * has more than 2^31 bytes. */
#include "heap.h"

enum { SMALLEST = 5, LARGEST = 31, PAGE = 16, SPARE_PAGES = 16 };

struct header {
    uint64_t bits; /* the block has 2^bits bytes */
    uint64_t unused;
};

struct tried {
    _Bool has_block;
    void *block;
};

struct tried rattle_alloc(size_t size, size_t align);
struct tried rattle_realloc(void *block, size_t used, size_t size, size_t align);
void rattle_dealloc(void *block);

extern unsigned char __heap_base;

static void *freed[LARGEST + 1];
static uintptr_t end_of_blocks, end_of_memory;
static uint32_t blocks, allowed = UINT32_MAX;
static char none; /* the pointer where there is no block, since it may not be null */

static struct header *header_of(void *block) {
    return (struct header *)block - 1;
}

/* Makes room for so many bytes at the end of memory. Lowering to 32 bits makes the failure of `memory.grow`, -1, the number 2^32 - 1. */
static int grow(size_t size) {
    if (!end_of_blocks) {
        end_of_blocks = ((uintptr_t)&__heap_base + 15) & ~(uintptr_t)15;
        end_of_memory = __builtin_wasm_memory_size(0) << PAGE;
    }
    if (size <= end_of_memory - end_of_blocks) return 1;
    size_t pages = ((size - (end_of_memory - end_of_blocks)) >> PAGE) + SPARE_PAGES;
    if ((uint32_t)__builtin_wasm_memory_grow(0, pages) == UINT32_MAX) return 0;
    end_of_memory += pages << PAGE;
    return 1;
}

static int may_allocate(void) {
    if (!allowed) return 0;
    if (allowed != UINT32_MAX) allowed--;
    return 1;
}

/* The bits of the smallest block that has room for so many bytes, or more than LARGEST. */
static uint64_t bits_for(size_t size) {
    uint64_t bits = SMALLEST;
    while (bits <= LARGEST && ((size_t)1 << bits) - sizeof(struct header) < size) bits++;
    return bits;
}

static void *take_block(size_t size) {
    uint64_t bits = bits_for(size);
    if (bits > LARGEST) return 0;
    void *block = freed[bits];
    if (block) {
        freed[bits] = *(void **)block;
    } else {
        if (!grow((size_t)1 << bits)) return 0;
        block = (struct header *)end_of_blocks + 1;
        header_of(block)->bits = bits;
        end_of_blocks += (uintptr_t)1 << bits;
    }
    blocks++;
    return block;
}

void *heap_take(size_t size) {
    return may_allocate() ? take_block(size) : 0;
}

void heap_free(void *block) {
    uint64_t bits = header_of(block)->bits;
    *(void **)block = freed[bits];
    freed[bits] = block;
    blocks--;
}

__attribute__((export_name("heap_blocks"))) uint32_t heap_blocks(void) {
    return blocks;
}

__attribute__((export_name("heap_allow"))) void heap_allow(uint32_t allocations) {
    allowed = allocations;
}

static struct tried tried(void *block) {
    return (struct tried){block != 0, block ? block : &none};
}

/* A block is aligned to 16, which the alignment divides. */
struct tried rattle_alloc(size_t size, size_t align) {
    return tried(heap_take(size ? size : align));
}

/* The first `used` bytes are in use. If it fails, the block stays. */
struct tried rattle_realloc(void *block, size_t used, size_t size, size_t align) {
    size_t needed = size ? size : align;
    if (!may_allocate()) return tried(0);
    if (bits_for(needed) <= header_of(block)->bits) return tried(block);
    void *moved = take_block(needed);
    if (moved) {
        __builtin_memcpy(moved, block, used < needed ? used : needed);
        heap_free(block);
    }
    return tried(moved);
}

void rattle_dealloc(void *block) {
    heap_free(block);
}
