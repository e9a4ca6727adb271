/* Loaded into a program by LD_PRELOAD, makes one of its allocations fail: the one whose number,
 * from 1, is REFUSE_REQUEST in the environment (none if that is 0 or not set). A request is a call
 * of malloc, calloc or realloc. Into the file that REFUSE_REPORT names it writes a line `refused`
 * when one fails, and at the program's end a line with the number of requests. So a report without
 * a line `refused` says that the request was not reached. */
#define _GNU_SOURCE
#include <dlfcn.h>
#include <errno.h>
#include <fcntl.h>
#include <stdint.h>
#include <stdlib.h>
#include <string.h>
#include <unistd.h>

static unsigned long chosen;
static unsigned long made;
static int report = -1;

static void tell(const char *line, size_t length) {
    if (report >= 0 && write(report, line, length) != (ssize_t)length)
        _exit(125);
}

__attribute__((constructor)) static void begin(void) {
    const char *number = getenv("REFUSE_REQUEST");
    const char *path = getenv("REFUSE_REPORT");
    if (path && (report = open(path, O_WRONLY | O_CREAT | O_TRUNC | O_CLOEXEC, 0600)) < 0)
        _exit(125);
    /* Requests before the program began are not counted. */
    made = 0;
    chosen = number ? strtoul(number, NULL, 10) : 0;
}

__attribute__((destructor)) static void end(void) {
    char line[24];
    size_t start = sizeof line;
    unsigned long rest = made;
    line[--start] = '\n';
    do {
        line[--start] = (char)('0' + rest % 10);
        rest /= 10;
    } while (rest);
    tell(line + start, sizeof line - start);
}

static int is_granted(void) {
    if (++made != chosen)
        return 1;
    tell("refused\n", 8);
    errno = ENOMEM;
    return 0;
}

/* The C library's function of this name. */
static void *beneath(const char *name) {
    void *function = dlsym(RTLD_NEXT, name);
    if (!function)
        _exit(125);
    return function;
}

void *malloc(size_t size) {
    static void *(*grant)(size_t);
    if (!grant)
        grant = (void *(*)(size_t))beneath("malloc");
    return is_granted() ? grant(size) : NULL;
}

void *realloc(void *block, size_t size) {
    static void *(*grant)(void *, size_t);
    if (!grant)
        grant = (void *(*)(void *, size_t))beneath("realloc");
    return is_granted() ? grant(block, size) : NULL;
}

/* By malloc, as the loader may call calloc before it can be looked up. */
void *calloc(size_t count, size_t size) {
    void *block;
    if (size && count > SIZE_MAX / size) {
        errno = ENOMEM;
        return NULL;
    }
    block = malloc(count * size);
    return block ? memset(block, 0, count * size) : NULL;
}
