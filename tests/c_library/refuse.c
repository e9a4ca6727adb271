/* Each request for memory is refused in turn: a call that takes memory answers OUT_OF_MEMORY with
 * its room untouched and the length 0, or the right answer; the others ask for none. Linked with
 * --wrap=malloc,realloc. */
#include "arguments.h"

#include <stdio.h>

void *__real_malloc(size_t size);
void *__real_realloc(void *block, size_t size);
void *__wrap_malloc(size_t size);
void *__wrap_realloc(void *block, size_t size);

static long left = -1;
static bool refused;
static bool refuses(void) {
    if (left < 0 || left-- > 0) return false;
    return refused = true;
}
void *__wrap_malloc(size_t size) { return refuses() ? NULL : __real_malloc(size); }
void *__wrap_realloc(void *block, size_t size) {
    return refuses() ? NULL : __real_realloc(block, size);
}

/* Calls that make other requests where they read something else than exports.h says. */
static const struct { const char *name, *what, *instead; } variants[] = {
    { "path_in", "pointer", "list" },
    { "select", "path_text", "wildcard" },
    { "select", "path_text", "selection" },
    { "select_within", "path_text", "selection" },
};

static void test_refusal(const struct export *it, const struct arguments *arguments) {
    for (int k = 0; k < MOST_REGIONS; k++) {
        enum role role = it->regions[k].role;
        if (role == VALUES) assert(is_unwritten(arguments->regions[k]));
        if (role == COUNT) assert(*(size_t *)arguments->regions[k].at == 0);
    }
}

/* Refuses each request of a call, in which what it reads may be another; returns how many runs. */
static long test_requests(const struct export *it, const char *what, const char *instead) {
    for (long nth = 0;; nth++) {
        struct arguments arguments = arguments_of(it);
        for (int k = 0; what && k < MOST_REGIONS; k++)
            if (it->regions[k].role == READ && !strcmp(it->regions[k].what, what))
                arguments.regions[k] = given(instead);
        left = nth;
        refused = false;
        uint32_t status = it->call(&arguments);
        left = -1;
        if (!refused) {
            printf("%s: %ld requests\n", it->name, nth);
            assert(it->takes_memory ? nth > 0 && status == KOHIBLAD_OK : nth == 0);
            return nth + 1;
        }
        assert(it->takes_memory && status == KOHIBLAD_OUT_OF_MEMORY);
        test_refusal(it, &arguments);
    }
}

int main(void) {
    make_arguments();
    long runs = 0;
    for (size_t i = 0; i < sizeof exports / sizeof *exports; i++) {
        runs += test_requests(&exports[i], NULL, NULL);
        for (size_t j = 0; j < sizeof variants / sizeof *variants; j++)
            if (!strcmp(exports[i].name, variants[j].name))
                runs += test_requests(&exports[i], variants[j].what, variants[j].instead);
    }
    /* Without a fault the class is told, and with one that no memory tells there is none. */
    const uint8_t *text = (const uint8_t *)json;
    size_t size = sizeof json - 1, length, counted;
    assert(kohiblad_text_expected(text, size, 8, 1).classes == KOHIBLAD_EXPECTED_END);
    left = 0;
    assert(kohiblad_text_expected(text, size, 8, 1).classes == 0);
    /* A text that does not fit is counted without memory. */
    left = 0;
    assert(kohiblad_pretty_at(KOHIBLAD_TYPE_STRING, text, size, 0, NULL, 0, &length)
           == KOHIBLAD_NO_ROOM);
    assert(kohiblad_pretty_at(KOHIBLAD_TYPE_CONTAINER, document, document_size, 8, NULL, 0, &length)
           == KOHIBLAD_NO_ROOM);
    assert(kohiblad_pretty(document, document_size, 8, NULL, 0, &counted) == KOHIBLAD_NO_ROOM);
    left = -1;
    static uint8_t out[ROOM];
    assert(counted == length);
    assert(kohiblad_pretty(document, document_size, 8, out, ROOM, &length) == KOHIBLAD_OK);
    assert(length == counted);
    printf("%ld runs\n", runs);
    return 0;
}
