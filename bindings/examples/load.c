/* Loads the library while the program runs, stores a JSON text, looks a key up and prints.
 *
 *     load libkohiblad.so
 *
 * The header does not guard calls of what is loaded so: no argument of them may be null. */
#define _POSIX_C_SOURCE 200809L
#include <kohiblad.h>

#include <dlfcn.h>
#include <stdio.h>
#include <string.h>

typedef uint32_t parse_call(const uint8_t *, size_t, size_t, uint32_t, uint8_t *, size_t, size_t *);
typedef uint32_t get_call(const uint8_t *, size_t, const uint8_t *, size_t,
                          uint8_t *, size_t, size_t *);
typedef uint32_t text_call(const uint8_t *, size_t, size_t, uint8_t *, size_t, size_t *);

/* ISO C has no conversion from the pointer of dlsym to that of a function: its bytes are copied. */
static int find_call(void *library, const char *name, void *call) {
    void *found = dlsym(library, name);
    memcpy(call, &found, sizeof found);
    return found != NULL;
}

int main(int count, char **words) {
    static const char text[] = "{\"id\": 3, \"price\": 2.50}";
    uint8_t row[256], price[64], shown[64];
    size_t size, price_size, shown_size;
    parse_call *parse;
    get_call *get;
    text_call *print;

    void *library = count == 2 ? dlopen(words[1], RTLD_NOW | RTLD_LOCAL) : NULL;
    if (!library) {
        fprintf(stderr, "%s\n", count == 2 ? dlerror() : "usage: load libkohiblad.so");
        return 1;
    }
    if (!find_call(library, "kohiblad_parse", &parse)
        || !find_call(library, "kohiblad_get_key", &get)
        || !find_call(library, "kohiblad_print", &print)) {
        fprintf(stderr, "%s\n", dlerror());
        return 1;
    }
    if (parse((const uint8_t *)text, sizeof text - 1, 64, 1, row, sizeof row, &size)
        || get(row, size, (const uint8_t *)"price", 5, price, sizeof price, &price_size)
        || print(price, price_size, 64, shown, sizeof shown, &shown_size)) {
        return 1;
    }
    printf("%.*s\n", (int)shown_size, (const char *)shown);
    return dlclose(library);
}
