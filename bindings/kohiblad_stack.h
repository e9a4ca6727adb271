/* How much stack is left to a thread, and how deep documents may nest there, for Linux: what is
 * passed as the depth to the calls of kohiblad.h, so that no document ends the thread.
 *
 *     size_t depth = kohiblad_depth_left(KOHIBLAD_LEVEL_STACK);
 *     uint32_t status = kohiblad_print(row, size, depth, out, room, &length);
 *
 * Include it before all others, or define _GNU_SOURCE: it needs pthread_getattr_np. On a stack of
 * its own, as one for coroutines, a program says itself how much is left, to
 * kohiblad_depth_of_stack. */
#ifndef KOHIBLAD_STACK_H
#define KOHIBLAD_STACK_H

#ifndef _GNU_SOURCE
#define _GNU_SOURCE
#endif
#include <pthread.h>

#include "kohiblad.h"

/* How many bytes of the thread's stack are left: 0 if that cannot be told, or the stack is not the
 * thread's own. The call takes some microseconds, in the first thread more, so ask seldom. */
static inline size_t kohiblad_stack_left(void) {
    pthread_attr_t attributes;
    void *start;
    size_t size;
    const char here = 0;
    if (pthread_getattr_np(pthread_self(), &attributes) != 0) return 0;
    int status = pthread_attr_getstack(&attributes, &start, &size);
    pthread_attr_destroy(&attributes);
    uintptr_t left = (uintptr_t)&here - (uintptr_t)start;
    return status == 0 && left < size ? left : 0;
}

/* The depth that the stack carries which is left to the thread, in calls that take `level_stack`
 * bytes for each level. */
static inline size_t kohiblad_depth_left(size_t level_stack) {
    return kohiblad_depth_of_stack(kohiblad_stack_left(), level_stack);
}

#endif
