/* Stores JSON texts as rows in one buffer, sorts them, looks a key up and prints. */
#include "kohiblad.h"

#include <stdio.h>
#include <string.h>

enum { ROWS = 5, ROOM = 4096, DEPTH = 64 };

static int fail(const char *what, uint32_t status) {
    uint8_t name[32];
    size_t length;
    kohiblad_status_name(status, name, sizeof name, &length);
    fprintf(stderr, "%s: %.*s\n", what, (int)length, (const char *)name);
    return 1;
}

int main(void) {
    static const char *const texts[ROWS] = {
        "{\"id\": 3, \"price\": 2.50}", "{\"id\": 1, \"price\": null}", "[1, 2]",
        "{\"id\": 2, \"price\": 2.5}", "\"a note\"",
    };
    uint8_t column[ROOM];
    size_t offsets[ROWS + 1] = {0}, order[ROWS], size = 0, length;

    for (size_t i = 0; i < ROWS; i++) {
        const uint8_t *text = (const uint8_t *)texts[i];
        uint32_t status = kohiblad_parse(text, strlen(texts[i]), DEPTH, KOHIBLAD_EXPONENTS_ALLOWED,
                                         column + size, ROOM - size, &length);
        if (status != KOHIBLAD_OK) return fail(texts[i], status);
        size += length;
        offsets[i + 1] = size;
    }
    uint32_t status = kohiblad_sort(column, size, offsets, ROWS + 1, DEPTH, order, ROWS);
    if (status != KOHIBLAD_OK) return fail("sort", status);

    for (size_t i = 0; i < ROWS; i++) {
        const size_t *offset = &offsets[order[i]];
        const uint8_t *row = column + offset[0];
        size_t row_size = offset[1] - offset[0];
        uint8_t text[256], price[64];

        status = kohiblad_print(row, row_size, DEPTH, text, sizeof text, &length);
        if (status != KOHIBLAD_OK) return fail("print", status);
        printf("%.*s", (int)length, (const char *)text);

        status = kohiblad_get_key(row, row_size, (const uint8_t *)"price", 5,
                                  price, sizeof price, &length);
        if (status == KOHIBLAD_OK)
            status = kohiblad_print(price, length, DEPTH, text, sizeof text, &length);
        if (status == KOHIBLAD_OK) printf("  costs %.*s", (int)length, (const char *)text);
        else if (status != KOHIBLAD_NONE) return fail("get_key", status);
        puts("");
    }
    return 0;
}
