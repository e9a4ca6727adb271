/* Takes a member out of a million rows of ten members: columns [ROWS]. Prints, for each way, the
 * least time of the processor of five rounds, in milliseconds. All ways must have one sum. */
#define _POSIX_C_SOURCE 200809L
#include "kohiblad.h"

#include <assert.h>
#include <stdio.h>
#include <stdlib.h>
#include <string.h>
#include <time.h>

enum { ROUNDS = 5, BATCH = 2048, ROOM = 512, DEPTH = 64 };

static uint8_t *rows, states[BATCH];
static size_t *offsets, count, path_size;
static uint8_t path[64];
static const char *name;
static int64_t values[BATCH];
static struct kohiblad_int128 decimals[BATCH];

static uint64_t state = 88172645463325252u;
static unsigned below(unsigned limit) {
    state ^= state << 13;
    state ^= state >> 7;
    state ^= state << 17;
    return (unsigned)((state >> 11) % limit);
}

/* One row in ten has no note, and one price in a hundred is whole. */
static void make_rows(void) {
    static const char *const cities[] = { "Oslo", "Bergen", "Bern", "Turku", "Rome", "Lyon", "Gent",
                                          "Cork" };
    size_t size = 0, room = 256 * count, length;
    rows = malloc(room);
    offsets = malloc((count + 1) * sizeof *offsets);
    assert(rows && offsets);
    offsets[0] = 0;
    for (size_t i = 0; i < count; i++) {
        char text[ROOM], price[32];
        unsigned cents = below(100000);
        snprintf(price, sizeof price, below(100) ? "%u.%02u" : "%u", cents / 100, cents % 100);
        int wide = snprintf(text, sizeof text,
            "{\"at\":%zu,\"city\":\"%s\",\"id\":%zu,%s\"ok\":%s,\"price\":%s,\"qty\":%u,"
            "\"score\":%d,\"sku\":\"k%03u\",\"tax\":%u}", 1700000000 + i, cities[below(8)], i,
            below(10) ? "\"note\":\"n12\"," : "", below(2) ? "true" : "false", price,
            below(20) + 1, (int)below(2001) - 1000, below(1000), below(250));
        assert(!kohiblad_parse((const uint8_t *)text, (size_t)wide, DEPTH, 0, rows + size,
                               room - size, &length));
        offsets[i + 1] = size += length;
    }
    printf("%zu rows of %.0f bytes\n", count, (double)size / (double)count);
}

static uint32_t word(const uint8_t *at) {
    return (uint32_t)at[0] << 24 | (uint32_t)at[1] << 16 | (uint32_t)at[2] << 8 | at[3];
}

/* The rows read through, a word of each 64 bytes. */
static int64_t read_all(void) {
    uint32_t sum = 0;
    for (size_t at = 0; at + 4 <= offsets[count]; at += 64) sum += word(rows + at);
    return sum ? 0 : 1;
}

/* What a C program does that trusts its rows: it searches the keys, and reads the payload. */
static int64_t trusting(void) {
    int64_t sum = 0;
    size_t wanted = strlen(name);
    for (size_t i = 0; i < count; i++) {
        const uint8_t *row = rows + offsets[i];
        size_t members = word(row) & 0xFFFFFFF, key = 4 + 8 * members;
        for (size_t k = 0; k < members; k++) {
            size_t size = word(row + 4 + 4 * k) & 0xFFFFFFF;
            if (size == wanted && !memcmp(row + key, name, size)) {
                size_t at = key;
                for (size_t j = k; j < members + k; j++)
                    at += word(row + 4 + 4 * j) & 0xFFFFFFF;
                size_t bytes = (word(row + 4 + 4 * (members + k)) & 0xFFFFFFF) - 1;
                uint64_t bits = 0;
                for (size_t j = 0; j < bytes; j++) bits = bits << 8 | row[at + 1 + j];
                if (row[at] == 0x40 && bytes < 8 && bytes)
                    bits |= ~(uint64_t)0 << (8 * bytes);
                sum += (int64_t)bits;
                break;
            }
            key += size;
        }
    }
    return sum;
}

static int64_t one_by_one(void) {
    int64_t sum = 0;
    for (size_t i = 0; i < count; i++) {
        uint8_t document[ROOM];
        size_t length;
        if (!kohiblad_get_key(rows + offsets[i], offsets[i + 1] - offsets[i], (const uint8_t *)name,
                              strlen(name), document, sizeof document, &length))
            sum += kohiblad_as_int64(document, length).value;
    }
    return sum;
}

static int64_t checked(void) {
    int64_t bad = 0;
    for (size_t i = 0; i < count; i++)
        bad += !kohiblad_check(rows + offsets[i], offsets[i + 1] - offsets[i], DEPTH);
    return bad;
}

typedef struct kohiblad_taken TakeInt64(const uint8_t *, size_t, const size_t *, size_t,
                                        const uint8_t *, size_t, size_t, uint32_t, int64_t *,
                                        size_t, uint8_t *, size_t);
typedef struct kohiblad_taken TakeDecimal(const uint8_t *, size_t, const size_t *, size_t,
                                          const uint8_t *, size_t, size_t, uint32_t, uint32_t,
                                          struct kohiblad_int128 *, size_t, uint8_t *, size_t);

static int64_t sum_by(TakeInt64 *take) {
    int64_t sum = 0;
    for (size_t first = 0; first < count; first += BATCH) {
        size_t many = count - first < BATCH ? count - first : BATCH;
        struct kohiblad_taken answer = take(rows, offsets[count], offsets + first, many + 1, path,
                                            path_size, DEPTH, KOHIBLAD_BY_VALUE, values, BATCH,
                                            states, BATCH);
        assert(answer.status == KOHIBLAD_OK && answer.unfit == 0);
        for (size_t i = 0; i < many; i++) sum += values[i];
    }
    return sum;
}

static int64_t taken(void) { return sum_by(kohiblad_take_int64); }

static int64_t taken_unchecked(void) { return sum_by(kohiblad_take_int64_unchecked); }

static int64_t sum_of_decimals_by(TakeDecimal *take) {
    int64_t sum = 0;
    for (size_t first = 0; first < count; first += BATCH) {
        size_t many = count - first < BATCH ? count - first : BATCH;
        struct kohiblad_taken answer = take(rows, offsets[count], offsets + first, many + 1, path,
                                            path_size, DEPTH, KOHIBLAD_BY_VALUE, 2, decimals, BATCH,
                                            states, BATCH);
        assert(answer.status == KOHIBLAD_OK && answer.unfit == 0);
        for (size_t i = 0; i < many; i++) sum += (int64_t)decimals[i].low;
    }
    return sum;
}

static int64_t taken_decimals(void) { return sum_of_decimals_by(kohiblad_take_decimal); }

static int64_t taken_decimals_unchecked(void) {
    return sum_of_decimals_by(kohiblad_take_decimal_unchecked);
}

static int64_t surveyed(void) {
    struct kohiblad_survey_counts counts = kohiblad_survey(rows, offsets[count], offsets, count + 1,
                                                           path, path_size, DEPTH);
    assert(counts.status == KOHIBLAD_OK && counts.rows == count);
    return 0;
}

static int64_t timed(const char *what, int64_t (*way)(void)) {
    double least = 1e9;
    int64_t sum = 0;
    for (int round = 0; round < ROUNDS; round++) {
        struct timespec from, to;
        clock_gettime(CLOCK_PROCESS_CPUTIME_ID, &from);
        sum = way();
        clock_gettime(CLOCK_PROCESS_CPUTIME_ID, &to);
        double took = (double)(to.tv_sec - from.tv_sec) * 1e3
            + (double)(to.tv_nsec - from.tv_nsec) / 1e6;
        if (took < least) least = took;
    }
    printf("%-44s %8.1f\n", what, least);
    return sum;
}

static void set_member(const char *member) {
    char text[16];
    name = member;
    snprintf(text, sizeof text, "$.%s", member);
    assert(!kohiblad_path_of_text((const uint8_t *)text, strlen(text), path, sizeof path,
                                  &path_size));
}

static void ask(const char *member) {
    set_member(member);
    printf("$.%s\n", member);
}

static const char *const members[] = { "at", "qty", "tax" };

static int64_t three(int64_t (*first)(void), int64_t (*later)(void)) {
    int64_t sum = 0;
    for (int i = 0; i < 3; i++) {
        set_member(members[i]);
        sum += (i ? later : first)();
    }
    return sum;
}

static int64_t three_trusting(void) { return three(trusting, trusting); }

static int64_t three_checked_once(void) { return three(taken, taken_unchecked); }

static int64_t three_unchecked(void) { return three(taken_unchecked, taken_unchecked); }

/* Members in the order of their names, those of whole numbers, found in one walk over each row. */
static const char *const five[] = { "at", "id", "qty", "score", "tax" };
static struct kohiblad_place places[10 * BATCH];
typedef uint32_t Locate(const uint8_t *, size_t, const size_t *, size_t, const uint8_t *, size_t,
                        size_t, struct kohiblad_place *, size_t);

static int64_t sum_at(Locate *locate, const char *text, size_t wanted) {
    uint8_t names[128];
    size_t names_size;
    int64_t sum = 0;
    assert(!kohiblad_parse((const uint8_t *)text, strlen(text), DEPTH, 0, names, sizeof names,
                           &names_size));
    for (size_t first = 0; first < count; first += BATCH) {
        size_t many = count - first < BATCH ? count - first : BATCH;
        assert(!locate(rows, offsets[count], offsets + first, many + 1, names, names_size, DEPTH,
                       places, 10 * BATCH));
        for (size_t j = 0; j < wanted; j++) {
            struct kohiblad_taken answer = kohiblad_take_int64_at(rows, offsets[count], places + j,
                many * wanted - j, wanted, KOHIBLAD_BY_VALUE, values, BATCH, states, BATCH);
            assert(answer.status == KOHIBLAD_OK && answer.unfit == 0);
            for (size_t i = 0; i < many; i++) sum += values[i];
        }
    }
    return sum;
}

static int64_t three_located(void) {
    return sum_at(kohiblad_locate, "[\"at\",\"qty\",\"tax\"]", 3);
}

static int64_t three_located_unchecked(void) {
    return sum_at(kohiblad_locate_unchecked, "[\"at\",\"qty\",\"tax\"]", 3);
}

static int64_t five_located_unchecked(void) {
    return sum_at(kohiblad_locate_unchecked,
                  "[\"at\",\"id\",\"qty\",\"score\",\"tax\"]", 5);
}

static int64_t five_unchecked(void) {
    int64_t sum = 0;
    for (int i = 0; i < 5; i++) {
        set_member(five[i]);
        sum += taken_unchecked();
    }
    return sum;
}

/* All ten members, each as values of its type: whole numbers, texts, truth values and decimals. */
static const struct { const char *name; char type; } ten[] = {
    { "at", 'n' }, { "city", 't' }, { "id", 'n' }, { "note", 't' }, { "ok", 'b' },
    { "price", 'd' }, { "qty", 'n' }, { "score", 'n' }, { "sku", 't' }, { "tax", 'n' },
};
static uint8_t letters[16 * BATCH], truths[BATCH];
static size_t starts[BATCH + 1], letter_count;

static int64_t sum_taken(char type, size_t many) {
    int64_t sum = type == 't' ? (int64_t)letter_count : 0;
    for (size_t i = 0; i < many && type != 't'; i++)
        sum += type == 'n' ? values[i] : type == 'b' ? truths[i] : (int64_t)decimals[i].low;
    return sum;
}

static struct kohiblad_taken take_rows(char type, size_t first, size_t many) {
    const size_t *from = offsets + first;
    size_t size = offsets[count];
    switch (type) {
    case 'n': return kohiblad_take_int64_unchecked(rows, size, from, many + 1, path, path_size,
        DEPTH, KOHIBLAD_BY_VALUE, values, BATCH, states, BATCH);
    case 'd': return kohiblad_take_decimal_unchecked(rows, size, from, many + 1, path, path_size,
        DEPTH, KOHIBLAD_BY_VALUE, 2, decimals, BATCH, states, BATCH);
    case 'b': return kohiblad_take_boolean_unchecked(rows, size, from, many + 1, path, path_size,
        DEPTH, truths, BATCH, states, BATCH);
    default: return kohiblad_take_text_unchecked(rows, size, from, many + 1, path, path_size,
        DEPTH, letters, sizeof letters, &letter_count, starts, BATCH + 1, states, BATCH);
    }
}

static struct kohiblad_taken take_places(char type, size_t j, size_t many) {
    const struct kohiblad_place *from = places + j;
    size_t size = offsets[count], left = 10 * many - j;
    switch (type) {
    case 'n': return kohiblad_take_int64_at(rows, size, from, left, 10, KOHIBLAD_BY_VALUE, values,
        BATCH, states, BATCH);
    case 'd': return kohiblad_take_decimal_at(rows, size, from, left, 10, KOHIBLAD_BY_VALUE, 2,
        decimals, BATCH, states, BATCH);
    case 'b': return kohiblad_take_boolean_at(rows, size, from, left, 10, truths, BATCH, states,
        BATCH);
    default: return kohiblad_take_text_at(rows, size, from, left, 10, letters, sizeof letters,
        &letter_count, starts, BATCH + 1, states, BATCH);
    }
}

static int64_t ten_unchecked(void) {
    int64_t sum = 0;
    for (int j = 0; j < 10; j++) {
        set_member(ten[j].name);
        for (size_t first = 0; first < count; first += BATCH) {
            size_t many = count - first < BATCH ? count - first : BATCH;
            struct kohiblad_taken answer = take_rows(ten[j].type, first, many);
            assert(answer.status == KOHIBLAD_OK && answer.unfit == 0);
            sum += sum_taken(ten[j].type, many);
        }
    }
    return sum;
}

static int64_t ten_located_unchecked(void) {
    static const char text[] = "[\"at\",\"city\",\"id\",\"note\",\"ok\",\"price\",\"qty\","
                               "\"score\",\"sku\",\"tax\"]";
    uint8_t names[256];
    size_t names_size;
    int64_t sum = 0;
    assert(!kohiblad_parse((const uint8_t *)text, sizeof text - 1, DEPTH, 0, names, sizeof names,
                           &names_size));
    for (size_t first = 0; first < count; first += BATCH) {
        size_t many = count - first < BATCH ? count - first : BATCH;
        assert(!kohiblad_locate_unchecked(rows, offsets[count], offsets + first, many + 1, names,
                                          names_size, DEPTH, places, 10 * BATCH));
        for (size_t j = 0; j < 10; j++) {
            struct kohiblad_taken answer = take_places(ten[j].type, j, many);
            assert(answer.status == KOHIBLAD_OK && answer.unfit == 0);
            sum += sum_taken(ten[j].type, many);
        }
    }
    return sum;
}

int main(int many, char **words) {
    count = many > 1 ? strtoul(words[1], NULL, 10) : 1000000;
    make_rows();
    timed("a word of each cache line", read_all);
    assert(timed("kohiblad_check of each row", checked) == 0);
    for (int i = 0; i < 3; i++) {
        ask(members[i]);
        int64_t sum = timed("a loop in C that trusts the rows", trusting);
        assert(timed("kohiblad_get_key and _as_int64 of each row", one_by_one) == sum);
        assert(timed("kohiblad_take_int64, 2,048 rows at a time", taken) == sum);
        assert(timed("kohiblad_take_int64_unchecked", taken_unchecked) == sum);
    }
    printf("the three members\n");
    int64_t total = timed("a loop in C that trusts the rows", three_trusting);
    assert(timed("_take_int64, then twice _unchecked", three_checked_once) == total);
    assert(timed("_take_int64_unchecked", three_unchecked) == total);
    assert(timed("kohiblad_locate and _take_int64_at", three_located) == total);
    assert(timed("kohiblad_locate_unchecked, the same", three_located_unchecked) == total);
    printf("five members\n");
    total = timed("_take_int64_unchecked", five_unchecked);
    assert(timed("kohiblad_locate_unchecked, _take_int64_at", five_located_unchecked) == total);
    printf("all ten members, by their types\n");
    total = timed("_take_int64_unchecked and so on", ten_unchecked);
    assert(timed("kohiblad_locate_unchecked, _take_int64_at ..", ten_located_unchecked) == total);
    ask("price");
    int64_t prices = timed("kohiblad_take_decimal, scale 2", taken_decimals);
    assert(timed("kohiblad_take_decimal_unchecked", taken_decimals_unchecked) == prices);
    timed("kohiblad_survey", surveyed);
    return 0;
}
