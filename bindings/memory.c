/* The memory of the library for C: the three functions that the archive of `rt lib` asks for, over
 * those of C. tools/install links them in.
 *
 * A size may be 0, and then the alignment is asked for, so that a null pointer always means that
 * memory was refused. No alignment is greater than 16, which malloc keeps. */
#include <stdint.h>
#include <stdlib.h>

/* Whether there is a block, and its address, which is never null. */
struct answer {
    uint64_t is_there;
    void *block;
};

static char no_block;

static struct answer answer_of(void *block) {
    struct answer given = {block != NULL, block != NULL ? block : &no_block};
    return given;
}

struct answer rattle_alloc(size_t size, size_t alignment) {
    return answer_of(malloc(size != 0 ? size : alignment));
}

struct answer rattle_realloc(void *block, size_t old_size, size_t size, size_t alignment) {
    (void)old_size;
    return answer_of(realloc(block, size != 0 ? size : alignment));
}

void rattle_dealloc(void *block) {
    free(block);
}
