/* Answers the questions of against_program.py by the installed library for C.
 *
 *     cc -O2 -I$PREFIX/include tests/paths/answers.c $PREFIX/lib/libkohiblad.a -o answers
 *     tests/paths/against_program.py ./answers --seed S --count N
 *
 * A line asks a path, a document and variables, each in hexadecimal. The answer has tabs between
 * the values, the error that they end with or `.`, whether there is a value, and what a match says.
 */
#include <kohiblad.h>

#include <stdio.h>
#include <stdlib.h>
#include <string.h>

#define ROOM (1 << 20)
#define DEPTH 100

struct bytes {
    uint8_t *at;
    size_t size;
};

static struct bytes new_bytes(void) {
    struct bytes made = {malloc(ROOM), 0};
    if (!made.at) exit(1);
    return made;
}

static void check(uint32_t status) {
    if (status == KOHIBLAD_OK) return;
    fprintf(stderr, "answers: %s\n", kohiblad_status_reason(status));
    exit(1);
}

/* Reads a word in hexadecimal; false at the end of the line. */
static int read_word(char **line, struct bytes *word) {
    unsigned byte;
    word->size = 0;
    *line += strspn(*line, " ");
    while (word->size < ROOM && sscanf(*line, "%2x", &byte) == 1 && **line != ' ') {
        word->at[word->size++] = (uint8_t)byte;
        *line += 2;
    }
    return word->size > 0;
}

static void read_document(char **line, struct bytes *text, struct bytes *document) {
    if (!read_word(line, text)) exit(1);
    check(kohiblad_parse(text->at, text->size, DEPTH, KOHIBLAD_EXPONENTS_ALLOWED, document->at,
                         ROOM, &document->size));
}

static void print_status(uint32_t status) {
    char name[64];
    size_t length;
    check(kohiblad_status_name(status, (uint8_t *)name, sizeof name, &length));
    printf("%.*s", (int)length, name);
}

static void print_truth(struct kohiblad_truth truth) {
    if (truth.status == KOHIBLAD_OK)
        printf("%s", truth.value ? "True" : "False");
    else if (truth.status == KOHIBLAD_NONE)
        printf("Unknown");
    else
        print_status(truth.status);
}

/* Prints each item of an array, and a tab after it. */
static void print_items(struct bytes array, struct bytes item, struct bytes text) {
    struct kohiblad_cursor cursor;
    struct kohiblad_place key, place;
    check(kohiblad_begin(array.at, array.size, &cursor));
    while (kohiblad_next(array.at, array.size, &cursor, &key, &place) == KOHIBLAD_OK) {
        check(kohiblad_copy(place.type, array.at + place.offset, place.length, item.at, ROOM,
                            &item.size));
        check(kohiblad_print(item.at, item.size, DEPTH, text.at, ROOM, &text.size));
        printf("%.*s\t", (int)text.size, (const char *)text.at);
    }
}

int main(void) {
    struct bytes path = new_bytes(), text = new_bytes(), document = new_bytes();
    struct bytes variables = new_bytes(), found = new_bytes(), item = new_bytes();
    char *line = (char *)new_bytes().at;
    while (fgets(line, ROOM, stdin)) {
        char *at = line;
        if (!read_word(&at, &path)) return 1;
        read_document(&at, &text, &document);
        read_document(&at, &text, &variables);
        uint32_t status = kohiblad_path_query(
            document.at, document.size, path.at, path.size, variables.at, variables.size, 0,
            DEPTH, found.at, ROOM, &found.size);
        uint32_t error = status;
        if (error != KOHIBLAD_OK)
            check(kohiblad_path_query(document.at, document.size, path.at, path.size,
                                      variables.at, variables.size, 1, DEPTH, found.at, ROOM,
                                      &found.size));
        print_items(found, item, text);
        if (error == KOHIBLAD_OK)
            printf(".");
        else
            print_status(error);
        printf("\t");
        print_truth(kohiblad_path_exists(document.at, document.size, path.at, path.size,
                                         variables.at, variables.size, 1, DEPTH));
        printf("\t");
        print_truth(kohiblad_path_match(document.at, document.size, path.at, path.size,
                                        variables.at, variables.size, 0, DEPTH));
        printf("\n");
    }
    return 0;
}
