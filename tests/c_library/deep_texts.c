/* Each call that takes a text, on texts that nest 100,000 and 1,000,000 levels deep, as arrays, as
 * objects and as both in turn, cut off where the brackets begin to close, and whole. They run on a
 * stack of 256 KB, so none may recurse with the depth. */
#define _DEFAULT_SOURCE
#include "kohiblad.h"

#include <pthread.h>
#include <stdio.h>
#include <stdlib.h>
#include <string.h>

static char *text, *around;
static size_t size, levels;
static bool is_whole;
static const char *shape;
static const uint8_t object[] = { 0x40, 0, 0, 0 };

static void expect(const char *call, uint32_t status, uint32_t right) {
    if (status == right) return;
    printf("%s of %zu levels of %s, %s: status %u and not %u\n", call, levels, shape,
           is_whole ? "whole" : "cut off", status, right);
    exit(1);
}

static bool is_object(size_t level) { return shape[0] == 'o' || (shape[0] == 'b' && level % 2); }

static void make_text(void) {
    char *at = text;
    for (size_t i = 0; i < levels; i++) {
        bool is_innermost = i == levels - 1;
        const char *opened = !is_object(i) ? "[" : is_innermost ? "{" : "{\"k\":";
        memcpy(at, opened, strlen(opened));
        at += strlen(opened);
    }
    for (size_t i = levels; is_whole && i-- > 0;) *at++ = is_object(i) ? '}' : ']';
    size = (size_t)(at - text);
}

/* The text between these two. */
static size_t put_around(const char *before, const char *after) {
    size_t first = strlen(before), last = strlen(after);
    memcpy(around, before, first);
    memcpy(around + first, text, size);
    memcpy(around + first + size, after, last);
    return first + size + last;
}

static void ask_readers(const uint8_t *in) {
    uint32_t fault = is_whole ? KOHIBLAD_OK : KOHIBLAD_INVALID_JSON;
    size_t length;
    for (uint32_t exponents = 0; exponents < 2; exponents++) {
        expect("parse", kohiblad_parse(in, size, SIZE_MAX, exponents, NULL, 0, &length),
               is_whole ? KOHIBLAD_NO_ROOM : KOHIBLAD_INVALID_JSON);
        expect("parse within 64 levels", kohiblad_parse(in, size, 64, exponents, NULL, 0, &length),
               KOHIBLAD_TOO_DEEP);
        struct kohiblad_fault found = kohiblad_text_fault(in, size, SIZE_MAX, exponents);
        expect("text_fault", found.status, fault);
        expect("the offset of text_fault", found.offset == size, true);
        struct kohiblad_expected it = kohiblad_text_expected(in, size, SIZE_MAX, exponents);
        expect("text_expected", it.status, KOHIBLAD_OK);
        expect("the end in text_expected", it.classes == KOHIBLAD_EXPECTED_END, is_whole);
        expect("text_fault within 64 levels", kohiblad_text_fault(in, size, 64, exponents).status,
               KOHIBLAD_TOO_DEEP);
    }
    expect("of_string", kohiblad_of_string(in, size, NULL, 0, &length), KOHIBLAD_NO_ROOM);
    expect("get_key", kohiblad_get_key(object, sizeof object, in, size, NULL, 0, &length),
           KOHIBLAD_NONE);
    expect("find_key", kohiblad_find_key(object, sizeof object, in, size).status, KOHIBLAD_NONE);
    expect("exists", kohiblad_exists(object, sizeof object, in, size, 64).value, 0);
}

/* A text that is no path, to each call that takes one. */
static void ask_paths(const uint8_t *path, size_t path_size) {
    size_t length;
    expect("path_of_text", kohiblad_path_of_text(path, path_size, NULL, 0, &length),
           KOHIBLAD_OTHER_KIND);
    expect("path_in", kohiblad_path_in(object, sizeof object, path, path_size, 64, NULL, 0, &length),
           KOHIBLAD_OTHER_KIND);
    expect("select", kohiblad_select(object, sizeof object, path, path_size, 64, NULL, 0, &length),
           KOHIBLAD_OTHER_KIND);
}

static void *work(void *unused) {
    const uint8_t *in = (const uint8_t *)text, *path = (const uint8_t *)around;
    size_t length;
    ask_readers(in);
    ask_paths(in, size);
    ask_paths(path, put_around("$", ""));
    ask_paths(path, put_around("$[", "]"));
    ask_paths(path, put_around("$?(@ == ", ")"));
    ask_paths(path, put_around("$.a?(@.b < ", ")"));
    /* The whole text is the one name of a JSON pointer. */
    size_t path_size = put_around("/", "");
    expect("path_in of a pointer",
           kohiblad_path_in(object, sizeof object, path, path_size, 64, NULL, 0, &length),
           KOHIBLAD_NO_ROOM);
    return unused;
}

static void run(void) {
    pthread_attr_t attributes;
    pthread_t worker;
    pthread_attr_init(&attributes);
    pthread_attr_setstacksize(&attributes, 256 * 1024);
    make_text();
    if (pthread_create(&worker, &attributes, work, NULL)) exit(2);
    pthread_join(worker, NULL);
}

int main(void) {
    static const char *const shapes[] = { "arrays", "objects", "both in turn" };
    size_t most = 6 * 1000000;
    text = malloc(most);
    around = malloc(most + 32);
    if (!text || !around) return 2;
    for (levels = 100000; levels <= 1000000; levels *= 10)
        for (size_t i = 0; i < 3; i++)
            for (int whole = 0; whole < 2; whole++) {
                shape = shapes[i];
                is_whole = whole;
                run();
            }
    return 0;
}
