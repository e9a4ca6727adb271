/* Blocks of exactly their size. With GUARD a page behind each block (1) or before it (2) has no
 * access right, which shows what code that no sanitizer saw reads and writes. */
#ifndef BLOCK_H
#define BLOCK_H

#include <assert.h>
#include <stdint.h>
#include <stdlib.h>
#include <string.h>

struct block {
    uint8_t *base, *at;
    size_t size;
};

#ifdef GUARD
#include <sys/mman.h>
enum { PAGE = 4096, MOST = 64, SLOTS = 512 };
static struct block make(size_t size) {
    static uint8_t *ring;
    static unsigned turn;
    if (!ring) {
        ring = mmap(0, (size_t)SLOTS * (MOST + 2) * PAGE, PROT_READ | PROT_WRITE,
                    MAP_PRIVATE | MAP_ANONYMOUS, -1, 0);
        assert(ring != MAP_FAILED);
        for (size_t i = 0; i < SLOTS; i++) {
            mprotect(ring + i * (MOST + 2) * PAGE, PAGE, PROT_NONE);
            mprotect(ring + (i * (MOST + 2) + MOST + 1) * PAGE, PAGE, PROT_NONE);
        }
    }
    assert(size <= (size_t)MOST * PAGE);
    uint8_t *slot = ring + (size_t)(turn++ % SLOTS) * (MOST + 2) * PAGE + PAGE;
    struct block b = { 0, GUARD == 1 ? slot + (size_t)MOST * PAGE - size : slot, size };
    return b;
}
static void drop(struct block b) { (void)b; }
#else
static struct block make(size_t size) {
    struct block b = { malloc(size ? size : 1), 0, size };
    assert(b.base);
    b.at = size ? b.base : b.base + 1;
    return b;
}
static void drop(struct block b) { free(b.base); }
#endif

static struct block copy_of(const void *bytes, size_t size) {
    struct block b = make(size);
    if (size) memcpy(b.at, bytes, size);
    return b;
}

#endif
