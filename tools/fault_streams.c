/* Loaded into a program by LD_PRELOAD, makes its standard streams fail once, by the environment:
 *
 *   READ_FAULT=N      once N bytes of standard input were read, a read fails; those after it do not
 *   WRITE_FAULT=N     once N bytes were written to standard output, a write fails; those after it
 *                     do not
 *   WRITE_NOTHING=1   that write takes no byte in place of failing
 *   READ_MOST=N       a read returns at most N bytes, and fails while a line that was read has no
 *                     line of output
 *
 * A fault is EIO. The program must read and write by `read` and `write`. */
#define _GNU_SOURCE
#include <dlfcn.h>
#include <errno.h>
#include <stdint.h>
#include <stdlib.h>
#include <unistd.h>

typedef ssize_t (*reader)(int, void *, size_t);
typedef ssize_t (*writer)(int, const void *, size_t);

struct stream {
    size_t bytes;
    size_t lines;
    /* How many bytes pass before the fault, -1 for no fault. */
    long fault;
};

static struct stream input = {0, 0, -1}, output = {0, 0, -1};
static size_t most = SIZE_MAX;
static int takes_nothing;

/* A number of the environment, or `otherwise`. */
static long number_in(const char *name, long otherwise) {
    const char *text = getenv(name);
    return text ? strtol(text, NULL, 10) : otherwise;
}

__attribute__((constructor)) static void begin(void) {
    input.fault = number_in("READ_FAULT", -1);
    output.fault = number_in("WRITE_FAULT", -1);
    takes_nothing = number_in("WRITE_NOTHING", 0) != 0;
    most = (size_t)number_in("READ_MOST", -1);
}

/* How many of these bytes pass before the stream's fault, -1 if this call is the fault. */
static ssize_t passing(struct stream *stream, size_t length) {
    if (stream->fault < 0)
        return (ssize_t)length;
    if (stream->bytes == (size_t)stream->fault) {
        stream->fault = -1;
        errno = EIO;
        return -1;
    }
    size_t left = (size_t)stream->fault - stream->bytes;
    return (ssize_t)(length < left ? length : left);
}

static void count(struct stream *stream, const char *bytes, ssize_t length) {
    for (ssize_t at = 0; at < length; at++) {
        stream->bytes++;
        stream->lines += bytes[at] == '\n';
    }
}

ssize_t read(int file, void *bytes, size_t length) {
    reader beneath = (reader)dlsym(RTLD_NEXT, "read");
    if (file != STDIN_FILENO)
        return beneath(file, bytes, length);
    if (most != SIZE_MAX && input.lines != output.lines) {
        errno = EIO;
        return -1;
    }
    ssize_t part = passing(&input, length < most ? length : most);
    if (part < 0)
        return -1;
    ssize_t taken = beneath(file, bytes, (size_t)part);
    count(&input, bytes, taken);
    return taken;
}

ssize_t write(int file, const void *bytes, size_t length) {
    writer beneath = (writer)dlsym(RTLD_NEXT, "write");
    if (file != STDOUT_FILENO)
        return beneath(file, bytes, length);
    ssize_t part = passing(&output, length);
    if (part < 0)
        return takes_nothing ? 0 : -1;
    ssize_t taken = beneath(file, bytes, (size_t)part);
    count(&output, bytes, taken);
    return taken;
}
