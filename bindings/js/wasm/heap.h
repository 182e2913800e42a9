/* The heap of semver.wasm. */
#ifndef HEAP_H
#define HEAP_H

#include <stddef.h>
#include <stdint.h>

/* A block of so many bytes, or null if memory runs out. */
void *heap_take(size_t size);
void heap_free(void *block);

/* For tests: how many blocks are alive; and how many allocations may still succeed, where UINT32_MAX is no limit. */
uint32_t heap_blocks(void);
void heap_allow(uint32_t allocations);

#endif
