/* Adds up several members of each document of a file, with two digits after the point. Each row is
 * walked once for all of them. The names ascend by their bytes.
 *
 *     sums '["id","price"]' < rows.docs
 */
#include <kohiblad.h>

#include <inttypes.h>
#include <stdio.h>
#include <string.h>

enum { DEPTH = 64, BATCH = 2048, ROOM = 1 << 22, SCALE = 2, MOST = 16 };

static uint8_t rows[ROOM], states[BATCH];
static size_t offsets[BATCH + 1];
static struct kohiblad_place places[MOST * BATCH];
static struct kohiblad_int128 values[BATCH];

/* Reads up to a batch of documents into `rows`, and returns how many: 0 at the end, and -1 if the
 * file is cut or a document longer than there is room. The one that did not fit comes next. */
static long next_batch(void) {
    static uint8_t prefix[8];
    static uint64_t length;
    static int is_kept;
    size_t size = 0;
    for (long count = 0;; count++) {
        if (!is_kept && count < BATCH) {
            size_t found = fread(prefix, 1, sizeof prefix, stdin);
            if (found == 0) return count;
            if (found < sizeof prefix) return -1;
            length = 0;
            for (size_t i = 0; i < sizeof prefix; i++) length = length << 8 | prefix[i];
            is_kept = 1;
        }
        if (count == BATCH || length > ROOM - size) return count > 0 ? count : -1;
        if (fread(rows + size, 1, (size_t)length, stdin) < length) return -1;
        is_kept = 0;
        size += (size_t)length;
        offsets[count + 1] = size;
    }
}

/* Adds up the members of a batch, which `kohiblad_locate` found: of row k and name j of `names` at
 * `places[k * names + j]`. */
static void add_batch(size_t batch, size_t names, kohiblad_int128_t *sums, uint64_t *unfit) {
    for (size_t j = 0; j < names; j++) {
        struct kohiblad_taken taken = kohiblad_take_decimal_at(rows, offsets[batch], places + j,
            batch * names - j, names, KOHIBLAD_BY_VALUE, SCALE, values, BATCH, states, BATCH);
        unfit[j] += taken.unfit;
        /* A row without a value has 0. */
        for (size_t i = 0; i < batch; i++) sums[j] += kohiblad_int128_value(values[i]);
    }
}

/* Prints a number with its digits after the point. */
static uint32_t print_number(kohiblad_int128_t number) {
    struct kohiblad_int128 halves = kohiblad_int128_of(number);
    uint8_t document[32], text[64];
    size_t size, length;
    uint32_t status = kohiblad_of_decimal(halves.high, halves.low, SCALE, document, sizeof document,
                                          &size);
    if (status == KOHIBLAD_OK)
        status = kohiblad_print(document, size, DEPTH, text, sizeof text, &length);
    if (status == KOHIBLAD_OK) printf("%.*s", (int)length, (const char *)text);
    return status;
}

int main(int count, char **words) {
    uint8_t names[4096];
    size_t size;
    kohiblad_int128_t sums[MOST] = { 0 };
    uint64_t unfit[MOST] = { 0 };
    long batch;
    if (count != 2
        || kohiblad_parse((const uint8_t *)words[1], strlen(words[1]), DEPTH, 0, names,
                          sizeof names, &size)
        || kohiblad_kind(names, size).count > MOST) {
        fprintf(stderr, "usage: sums NAMES < DOCUMENTS\n");
        return 2;
    }
    size_t wanted = (size_t)kohiblad_kind(names, size).count;
    while ((batch = next_batch()) > 0) {
        uint32_t status = kohiblad_locate(rows, offsets[batch], offsets, (size_t)batch + 1, names,
                                          size, DEPTH, places, wanted * BATCH);
        if (status != KOHIBLAD_OK) {
            fprintf(stderr, "%s\n", kohiblad_status_reason(status));
            return 1;
        }
        add_batch((size_t)batch, wanted, sums, unfit);
    }
    if (batch < 0) {
        fprintf(stderr, "the file is cut, or a document is too long\n");
        return 1;
    }
    for (size_t j = 0; j < wanted; j++) {
        struct kohiblad_place name = kohiblad_find_index(names, size, j);
        printf("%.*s ", (int)name.length, (const char *)names + name.offset);
        if (print_number(sums[j]) != KOHIBLAD_OK) return 1;
        printf(", and %" PRIu64 " rows with something else\n", unfit[j]);
    }
    return fflush(stdout) || ferror(stdout);
}
