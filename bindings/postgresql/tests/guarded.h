/* Included before each source by random_calls.sh: what the extension asks the server for lies in a
 * block of its own, behind whose end each access is found by the address sanitizer. */
#include "postgres.h"

#include "utils/memutils.h"

#include <sanitizer/asan_interface.h>

/* A request of more bytes gets a block of its own. */
#define GUARDED_SIZE 8192

static inline void *guarded_palloc(Size size) {
    Size room = Max(size, GUARDED_SIZE) + 64;
    if (room > MaxAllocSize) return palloc(size);
    char *block = palloc(room);
    __asan_poison_memory_region(block + size, room - size);
    return block;
}

static inline void *guarded_palloc0(Size size) {
    return memset(guarded_palloc(size), 0, size);
}

#define palloc guarded_palloc
#define palloc0 guarded_palloc0

/* Documents of this size are fetched in slices, and what was not fetched is not to be read. */
#define SLICED_FROM 2000
#define MARK_AWAITED __asan_poison_memory_region
#define MARK_FETCHED __asan_unpoison_memory_region
