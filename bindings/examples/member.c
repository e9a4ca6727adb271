/* Prints a member of each document of a file, given by a path; the line is empty where there is
 * none.
 *
 *     member '$.price' < rows.docs
 */
#include <kohiblad.h>

#include <stdio.h>
#include <stdlib.h>
#include <string.h>

enum { DEPTH = 64, MOST = 1 << 28 };

/* Reads the next document. NULL with *status OK: there is none. */
static uint8_t *next_document(size_t *size, uint32_t *status) {
    uint8_t prefix[8], *document;
    uint64_t length = 0;
    size_t found = fread(prefix, 1, sizeof prefix, stdin);
    *status = found == 0 ? KOHIBLAD_OK : KOHIBLAD_INVALID_EOF;
    if (found != sizeof prefix) return NULL;
    for (size_t i = 0; i < sizeof prefix; i++) length = length << 8 | prefix[i];
    if (length > MOST) return NULL;
    document = malloc((size_t)length + 1);
    *size = (size_t)length;
    if (document && fread(document, 1, *size, stdin) == *size) return document;
    if (!document) *status = KOHIBLAD_OUT_OF_MEMORY;
    free(document);
    return NULL;
}

/* Prints what is at a place of a document. */
static uint32_t print_at(const uint8_t *document, const struct kohiblad_place *place) {
    const uint8_t *payload = document + place->offset;
    size_t size = (size_t)place->length, length = 2 * size + 16;
    uint32_t status = KOHIBLAD_NO_ROOM;
    /* If the text is longer than is guessed, its length is known then. */
    while (status == KOHIBLAD_NO_ROOM) {
        size_t room = length;
        uint8_t *text = malloc(room);
        if (!text) return KOHIBLAD_OUT_OF_MEMORY;
        status = kohiblad_print_at(place->type, payload, size, DEPTH, text, room, &length);
        if (status == KOHIBLAD_OK) fwrite(text, 1, length, stdout);
        free(text);
    }
    return status;
}

int main(int count, char **words) {
    uint8_t path[4096], *document;
    size_t path_size, size;
    uint32_t status = count == 2
        ? kohiblad_path_of_text((const uint8_t *)words[1], strlen(words[1]), path, sizeof path,
                                &path_size)
        : KOHIBLAD_OTHER_KIND;
    if (status != KOHIBLAD_OK) {
        fprintf(stderr, "usage: member PATH < DOCUMENTS\n");
        return 2;
    }
    while ((document = next_document(&size, &status))) {
        struct kohiblad_place place = kohiblad_get_path(document, size, path, path_size, DEPTH);
        status = place.status == KOHIBLAD_OK ? print_at(document, &place) : place.status;
        free(document);
        if (status != KOHIBLAD_OK && status != KOHIBLAD_NONE) break;
        putchar('\n');
    }
    if (status != KOHIBLAD_OK) fprintf(stderr, "%s\n", kohiblad_status_reason(status));
    return status != KOHIBLAD_OK || fflush(stdout) || ferror(stdout);
}
