/* Prints the value of a key of the first document of a file, and reads no more of it than that
 * takes: its entry words, its keys and the value.
 *
 *     slice price rows.docs
 */
#include <kohiblad.h>

#include <stdio.h>
#include <stdlib.h>
#include <string.h>

enum { DEPTH = 64, WORD = 8 };

/* Reads `size` bytes of the document at `offset`. */
static uint32_t read_slice(FILE *file, uint64_t offset, uint8_t *bytes, size_t size) {
    if (fseek(file, (long)(WORD + offset), SEEK_SET) != 0) return KOHIBLAD_INVALID_EOF;
    return fread(bytes, 1, size, file) == size ? KOHIBLAD_OK : KOHIBLAD_INVALID_EOF;
}

/* Prints the value at a place of the document. */
static uint32_t print_at(FILE *file, const struct kohiblad_place *place) {
    size_t size = (size_t)place->length, length = 2 * size + 16;
    uint8_t *payload = malloc(size + 1);
    uint32_t status = payload ? read_slice(file, place->offset, payload, size)
                              : KOHIBLAD_OUT_OF_MEMORY;
    int is_known = status != KOHIBLAD_OK;
    /* If the text is longer than is guessed, its length is known then. */
    while (!is_known) {
        size_t room = length;
        uint8_t *text = malloc(room);
        status = text ? kohiblad_print_at(place->type, payload, size, DEPTH, text, room, &length)
                      : KOHIBLAD_OUT_OF_MEMORY;
        if (status == KOHIBLAD_OK) printf("%.*s\n", (int)length, (const char *)text);
        is_known = status != KOHIBLAD_NO_ROOM;
        free(text);
    }
    free(payload);
    return status;
}

/* Finds the place of a key, in a prefix that is read as far as the look-up needs it. */
static struct kohiblad_place find_key(FILE *file, size_t size, const char *key) {
    uint8_t *prefix = NULL;
    size_t at_hand = 0;
    struct kohiblad_place place;
    for (;;) {
        place = kohiblad_find_key_in_prefix(prefix, at_hand, size, (const uint8_t *)key,
                                            strlen(key));
        if (place.status != KOHIBLAD_INVALID_EOF || place.length == 0) break;
        size_t end = (size_t)place.length;
        uint8_t *longer = realloc(prefix, end);
        if (!longer) {
            place.status = KOHIBLAD_OUT_OF_MEMORY;
            break;
        }
        prefix = longer;
        place.status = read_slice(file, at_hand, prefix + at_hand, end - at_hand);
        if (place.status != KOHIBLAD_OK) break;
        at_hand = end;
    }
    free(prefix);
    return place;
}

int main(int count, char **words) {
    uint8_t word[WORD];
    size_t size = 0;
    FILE *file = count == 3 ? fopen(words[2], "rb") : NULL;
    if (!file || fread(word, 1, WORD, file) != WORD) {
        fprintf(stderr, "usage: slice KEY DOCUMENTS\n");
        return 2;
    }
    for (size_t i = 0; i < WORD; i++) size = size << 8 | word[i];
    struct kohiblad_place place = find_key(file, size, words[1]);
    uint32_t status = place.status == KOHIBLAD_OK ? print_at(file, &place) : place.status;
    if (status != KOHIBLAD_OK) fprintf(stderr, "%s\n", kohiblad_status_reason(status));
    fclose(file);
    return status != KOHIBLAD_OK || fflush(stdout) || ferror(stdout);
}
