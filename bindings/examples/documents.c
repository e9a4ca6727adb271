/* Makes a file of documents of JSON lines: each document comes after its length, in eight bytes of
 * which the most significant is the first.
 *
 *     documents < rows.ndjson > rows.docs
 */
#define _POSIX_C_SOURCE 200809L
#include <kohiblad.h>

#include <stdio.h>
#include <stdlib.h>
#include <string.h>
#include <sys/types.h>

enum { DEPTH = 64 };

static int refuse(unsigned long number, const uint8_t *text, size_t size, uint32_t status) {
    char words[KOHIBLAD_WORDS_ROOM];
    kohiblad_fault_words(text, size, DEPTH, KOHIBLAD_EXPONENTS_ALLOWED, words, sizeof words);
    fprintf(stderr, "line %lu: %s\n", number,
            status == KOHIBLAD_INVALID_JSON ? words : kohiblad_status_reason(status));
    return 1;
}

/* Writes the document of a text, and returns the status. */
static uint32_t put(const uint8_t *text, size_t size) {
    /* A document is shorter than this, so that one call is enough. */
    size_t room = 5 * size + 8, length;
    uint8_t *document = malloc(room);
    if (!document) return KOHIBLAD_OUT_OF_MEMORY;
    uint32_t status = kohiblad_parse(text, size, DEPTH, KOHIBLAD_EXPONENTS_ALLOWED, document, room,
                                     &length);
    if (status == KOHIBLAD_OK) {
        for (int shift = 56; shift >= 0; shift -= 8)
            putchar((int)((uint64_t)length >> shift & 255));
        fwrite(document, 1, length, stdout);
    }
    free(document);
    return status;
}

int main(void) {
    char *line = NULL;
    size_t room = 0;
    ssize_t size;
    unsigned long number = 0;
    while ((size = getline(&line, &room, stdin)) > 0) {
        number++;
        if (line[size - 1] == '\n') size--;
        if ((ssize_t)strspn(line, " \t\r") >= size) continue;
        uint32_t status = put((const uint8_t *)line, (size_t)size);
        if (status != KOHIBLAD_OK) {
            refuse(number, (const uint8_t *)line, (size_t)size, status);
            break;
        }
    }
    free(line);
    return size > 0 || ferror(stdin) || fflush(stdout) || ferror(stdout);
}
