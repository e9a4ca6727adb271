/* The depth that kohiblad_stack.h says fits the stack of a thread, and deeper documents and texts
 * are refused there, by the calls that take most of it. */
#include "kohiblad_stack.h"

#include <assert.h>
#include <sys/mman.h>

enum { PAGE = 4096 };
enum { DEEP = 3000, ROOM = 8 * DEEP };

/* The document of so many arrays inside one another, by docs/FORMAT.md. */
static size_t nest(size_t levels, uint8_t *out) {
    size_t size = 8 * levels - 4;
    for (size_t level = 0; level < levels; level++) {
        size_t left = 8 * (levels - 1 - level);
        uint32_t words[2] = { 0x80000000u + (left > 0), 0x50000000u + (uint32_t)left - 4 };
        for (int i = 0; i < (left > 0 ? 2 : 1); i++)
            for (int byte = 0; byte < 4; byte++)
                out[8 * level + 4 * i + byte] = (uint8_t)(words[i] >> (24 - 8 * byte));
    }
    return size;
}

/* Reads, changes and patches documents as deep as the stack that is left carries, and deeper. */
static void *use_stack(void *most) {
    static uint8_t documents[ROOM], out[4 * ROOM];
    static const uint8_t whole[] = { 0x80, 0, 0, 0 };
    size_t length, depth = kohiblad_depth_left(KOHIBLAD_LEVEL_STACK);
    assert(depth > 0 && depth * KOHIBLAD_LEVEL_STACK < *(size_t *)most);
    if (depth >= DEEP) depth = DEEP - 1;
    for (int deeper = 0; deeper < 2; deeper++) {
        size_t size = nest(depth + deeper, documents);
        assert(kohiblad_check(documents, size, depth) == !deeper);
        assert(kohiblad_strip_nulls(documents, size, depth, out, sizeof out, &length)
               == (deeper ? KOHIBLAD_INVALID_JSONB : KOHIBLAD_OK));
        kohiblad_key(documents, size, depth, out, sizeof out, &length);
        kohiblad_print(documents, size, depth, out, sizeof out, &length);
        assert(kohiblad_compare(documents, size, documents, size, depth) == 0);
    }
    depth = kohiblad_depth_left(KOHIBLAD_EDIT_LEVEL_STACK);
    if (depth >= DEEP) depth = DEEP - 1;
    size_t size = nest(depth, documents);
    assert(kohiblad_edit(documents, size, whole, sizeof whole, KOHIBLAD_PUT, documents, size, depth,
                         out, sizeof out, &length) == KOHIBLAD_OK);
    depth = kohiblad_depth_left(KOHIBLAD_PATCH_LEVEL_STACK);
    if (depth >= DEEP) depth = DEEP - 1;
    size = nest(depth, documents);
    assert(kohiblad_merge_patch(documents, size, documents, size, depth, out, sizeof out, &length)
           == KOHIBLAD_OK);
    return NULL;
}

int main(void) {
    static const size_t kilobytes[] = { 64, 128, 256, 1024, 8192 };
    for (size_t i = 0; i < sizeof kilobytes / sizeof *kilobytes; i++) {
        size_t stack = kilobytes[i] * 1024;
        pthread_attr_t attributes;
        pthread_t thread;
        /* Below the stack is a page without access rights. */
        uint8_t *memory = mmap(NULL, PAGE + stack, PROT_READ | PROT_WRITE,
                               MAP_PRIVATE | MAP_ANONYMOUS, -1, 0);
        assert(memory != MAP_FAILED && mprotect(memory, PAGE, PROT_NONE) == 0);
        assert(pthread_attr_init(&attributes) == 0);
        assert(pthread_attr_setstack(&attributes, memory + PAGE, stack) == 0);
        assert(pthread_create(&thread, &attributes, use_stack, &stack) == 0);
        assert(pthread_join(thread, NULL) == 0);
        pthread_attr_destroy(&attributes);
        munmap(memory, PAGE + stack);
    }
    size_t most = SIZE_MAX;
    use_stack(&most);
    assert(kohiblad_depth_of_stack(0, 1024) == 0);
    assert(kohiblad_depth_of_stack(KOHIBLAD_CALL_STACK + 1023, 1024) == 0);
    assert(kohiblad_depth_of_stack(KOHIBLAD_CALL_STACK + 2048, 1024) == 2);
    return 0;
}
