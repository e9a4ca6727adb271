/* Prints how much memory a parse takes beside its text: the peak of this process's memory during
 * kohiblad_parse, with its result and without the text, as a multiple of the text's bytes.
 *
 *     memory ones|strings|object|records
 *
 * The text has 20 MB. The call is given no room for the result, which it makes all the same. */
#define _POSIX_C_SOURCE 200809L
#include <kohiblad.h>

#include <fcntl.h>
#include <stdio.h>
#include <stdlib.h>
#include <string.h>
#include <unistd.h>

enum { SIZE = 20000000 };

/* Writes the item of a number, with a comma after it. */
typedef int writer(char *out, unsigned i);

static int write_one(char *out, unsigned i) {
    (void)i;
    return sprintf(out, "1,");
}

static int write_text(char *out, unsigned i) {
    return sprintf(out, "\"%096u\",", i);
}

static int write_member(char *out, unsigned i) {
    return sprintf(out, "\"%08u\":1,", i);
}

static int write_record(char *out, unsigned i) {
    return sprintf(out, "{\"id\":%u,\"name\":\"customer %u\",\"price\":%u.%02u,\"seen\":%s},", i,
                   i * 7919 % 100003, i * 17 % 900, i % 100, i % 3 ? "true" : "null");
}

static const struct {
    const char *name;
    writer *write;
    char open, close;
} kinds[] = {
    {"ones", write_one, '[', ']'},
    {"strings", write_text, '[', ']'},
    {"object", write_member, '{', '}'},
    {"records", write_record, '[', ']'},
};

static void fail(const char *reason) {
    fprintf(stderr, "memory: %s\n", reason);
    exit(1);
}

/* The bytes that a line of /proc/self/status says: those taken now, or the peak since a reset. */
static double taken(const char *line) {
    char words[128];
    double kilobytes = -1;
    FILE *status = fopen("/proc/self/status", "r");
    if (!status) fail("there is no /proc/self/status");
    while (fgets(words, sizeof words, status))
        if (strncmp(words, line, strlen(line)) == 0) kilobytes = atof(words + strlen(line));
    fclose(status);
    if (kilobytes < 0) fail("/proc/self/status does not say what is taken");
    return 1024 * kilobytes;
}

static void reset_peak(void) {
    int file = open("/proc/self/clear_refs", O_WRONLY);
    if (file < 0 || write(file, "5", 1) != 1) fail("/proc/self/clear_refs cannot be written");
    close(file);
}

/* As many items as fit. */
static size_t fill(char *text, size_t kind) {
    char item[128];
    size_t size = 1;
    text[0] = kinds[kind].open;
    for (unsigned i = 0;; i++) {
        size_t length = (size_t)kinds[kind].write(item, i);
        if (size + length > SIZE) break;
        memcpy(text + size, item, length);
        size += length;
    }
    text[size - 1] = kinds[kind].close;
    return size;
}

int main(int count, char **words) {
    size_t size, length, kind = 0;
    size_t count_of_kinds = sizeof kinds / sizeof *kinds;
    double before;
    char *text = malloc(SIZE);
    if (!text) fail("no memory for the text");
    while (count == 2 && kind < count_of_kinds && strcmp(words[1], kinds[kind].name)) kind++;
    if (count != 2 || kind == count_of_kinds) fail("usage: memory ones|strings|object|records");
    size = fill(text, kind);
    reset_peak();
    before = taken("VmRSS:");
    if (kohiblad_parse((const uint8_t *)text, size, 64, KOHIBLAD_EXPONENTS_ALLOWED, NULL, 0,
                       &length) != KOHIBLAD_NO_ROOM)
        fail("the text was not parsed");
    printf("| %s | %.2f | %.2f |\n", kinds[kind].name, (taken("VmHWM:") - before) / (double)size,
           (double)length / (double)size);
    free(text);
    return 0;
}
