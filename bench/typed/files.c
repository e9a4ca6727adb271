/* Stores the rows of columns.c as a file of typed columns, as a stored column of documents, and as
 * lines of JSON: files [ROWS]. Prints, for each, its size and the least time of the processor of
 * three rounds, in milliseconds: to make it of the rows, to load it (to check all of it), to sum
 * one member of all rows, and to read all rows back as documents. All sums are one. */
#define _POSIX_C_SOURCE 200809L
#include "kohiblad.h"

#include <assert.h>
#include <stdio.h>
#include <stdlib.h>
#include <string.h>
#include <time.h>

enum { ROUNDS = 3, BATCH = 2048, ROOM = 512, DEPTH = 64, COLUMNS = 10 };

static const char names_text[] = "[\"at\",\"city\",\"id\",\"note\",\"ok\",\"price\",\"qty\","
                                 "\"score\",\"sku\",\"tax\"]";
/* The types of these. */
static const uint8_t types[2 * COLUMNS] = {
    KOHIBLAD_COLUMN_INT64, 0, KOHIBLAD_COLUMN_TEXT, 0, KOHIBLAD_COLUMN_INT64, 0,
    KOHIBLAD_COLUMN_TEXT, 0, KOHIBLAD_COLUMN_BOOLEAN, 0, KOHIBLAD_COLUMN_DECIMAL, 2,
    KOHIBLAD_COLUMN_INT64, 0, KOHIBLAD_COLUMN_INT64, 0, KOHIBLAD_COLUMN_TEXT, 0,
    KOHIBLAD_COLUMN_INT64, 0,
};
static uint8_t *rows, *lines, *column, *file, states[BATCH], names[ROOM], path[64];
static size_t *offsets, count, lines_size, column_size, file_size, names_size, path_size;
static int64_t values[BATCH];

static uint64_t state = 88172645463325252u;
static unsigned below(unsigned limit) {
    state ^= state << 13;
    state ^= state >> 7;
    state ^= state << 17;
    return (unsigned)((state >> 11) % limit);
}

static void *memory(size_t size) {
    void *block = malloc(size ? size : 1);
    assert(block);
    return block;
}

/* One row in ten has no note, and one price in a hundred is whole. */
static void make_rows(void) {
    static const char *const cities[] = { "Oslo", "Bergen", "Bern", "Turku", "Rome", "Lyon", "Gent",
                                          "Cork" };
    size_t size = 0, room = 256 * count, length;
    rows = memory(room);
    lines = memory(room);
    offsets = memory((count + 1) * sizeof *offsets);
    offsets[0] = 0;
    for (size_t i = 0; i < count; i++) {
        char *text = (char *)lines + lines_size, price[32];
        unsigned cents = below(100000);
        snprintf(price, sizeof price, below(100) ? "%u.%02u" : "%u", cents / 100, cents % 100);
        int wide = snprintf(text, room - lines_size,
            "{\"at\":%zu,\"city\":\"%s\",\"id\":%zu,%s\"ok\":%s,\"price\":%s,\"qty\":%u,"
            "\"score\":%d,\"sku\":\"k%03u\",\"tax\":%u}\n", 1700000000 + i, cities[below(8)], i,
            below(10) ? "\"note\":\"n12\"," : "", below(2) ? "true" : "false", price,
            below(20) + 1, (int)below(2001) - 1000, below(1000), below(250));
        assert(!kohiblad_parse((const uint8_t *)text, (size_t)wide, DEPTH, 0, rows + size,
                               room - size, &length));
        offsets[i + 1] = size += length;
        lines_size += (size_t)wide;
    }
    printf("%zu rows of %.0f bytes\n", count, (double)size / (double)count);
}

/* The number in eight bytes, the highest first. */
static uint64_t number(const uint8_t *at) {
    uint64_t value = 0;
    for (size_t i = 0; i < 8; i++) value = value << 8 | at[i];
    return value;
}

static int64_t make_column(void) {
    uint8_t *to = column;
    for (size_t i = 0; i < count; i++) {
        size_t size = offsets[i + 1] - offsets[i];
        for (int k = 0; k < 8; k++) *to++ = (uint8_t)(size >> (56 - 8 * k));
        memcpy(to, rows + offsets[i], size);
        to += size;
    }
    column_size = (size_t)(to - column);
    return 0;
}

static int64_t make_file(void) {
    return kohiblad_build_typed_file(rows, offsets[count], offsets, count + 1, names, names_size,
                                     types, sizeof types, DEPTH, file, 256 * count + ROOM,
                                     &file_size);
}

static int64_t load_lines(void) {
    uint8_t row[ROOM];
    size_t at = 0, length;
    while (at < lines_size) {
        size_t end = (size_t)((const uint8_t *)memchr(lines + at, '\n', lines_size - at) - lines);
        assert(!kohiblad_parse(lines + at, end - at, DEPTH, 0, row, sizeof row, &length));
        at = end + 1;
    }
    return 0;
}

/* The rows of the stored column, each with its length before it. */
static int64_t load_column(void) {
    size_t at = 0, i = 0;
    while (at < column_size) {
        size_t size = number(column + at);
        assert(kohiblad_check(column + at + 8, size, DEPTH));
        at += 8 + size;
        i++;
    }
    return i == count ? 0 : 1;
}

static int64_t load_file(void) {
    struct kohiblad_typed_file told = kohiblad_check_typed_file(file, file_size, DEPTH);
    return told.rows == count ? told.status : 1;
}

static int64_t sum_lines(void) {
    uint8_t row[ROOM], document[64];
    size_t at = 0, length;
    int64_t sum = 0;
    while (at < lines_size) {
        size_t end = (size_t)((const uint8_t *)memchr(lines + at, '\n', lines_size - at) - lines);
        assert(!kohiblad_parse(lines + at, end - at, DEPTH, 0, row, sizeof row, &length));
        assert(!kohiblad_get_key(row, length, (const uint8_t *)"qty", 3, document, sizeof document,
                                 &length));
        sum += kohiblad_as_int64(document, length).value;
        at = end + 1;
    }
    return sum;
}

static int64_t sum_column(void) {
    uint8_t document[64];
    size_t at = 0, length;
    int64_t sum = 0;
    while (at < column_size) {
        size_t size = number(column + at);
        assert(!kohiblad_get_key(column + at + 8, size, (const uint8_t *)"qty", 3, document,
                                 sizeof document, &length));
        sum += kohiblad_as_int64(document, length).value;
        at += 8 + size;
    }
    return sum;
}

/* The same of the rows with their offsets, as Arrow has them, by the call for columns. */
static int64_t sum_rows(void) {
    int64_t sum = 0;
    for (size_t first = 0; first < count; first += BATCH) {
        size_t many = count - first < BATCH ? count - first : BATCH;
        struct kohiblad_taken taken = kohiblad_take_int64_unchecked(rows, offsets[count],
            offsets + first, many + 1, path, path_size, DEPTH, KOHIBLAD_BY_VALUE, values, BATCH,
            states, BATCH);
        assert(taken.status == KOHIBLAD_OK && taken.unfit == 0);
        for (size_t i = 0; i < many; i++) sum += values[i];
    }
    return sum;
}

static int64_t sum_file(void) {
    struct kohiblad_typed_column columns[COLUMNS];
    size_t many;
    assert(!kohiblad_typed_columns(file, file_size, columns, COLUMNS, &many));
    const struct kohiblad_typed_column *it = columns;
    while (it->name_length != 3 || memcmp(file + it->name, "qty", 3)) it++;
    int64_t sum = 0;
    for (size_t i = 0; i < it->rows; i++)
        if (file[it->flags + i / 8] >> (i % 8) & 1)
            sum += (int64_t)number(file + it->numbers + 8 * i);
    return sum;
}

static int64_t read_lines(void) { return load_lines(); }

static int64_t read_column(void) {
    uint8_t row[ROOM];
    size_t at = 0;
    while (at < column_size) {
        size_t size = number(column + at);
        memcpy(row, column + at + 8, size);
        at += 8 + size;
    }
    return row[0] ? 0 : 1;
}

static int64_t read_file(void) {
    uint8_t row[ROOM];
    size_t length;
    for (size_t i = 0; i < count; i++)
        assert(!kohiblad_typed_row(file, file_size, i, DEPTH, row, sizeof row, &length));
    return 0;
}

static double least(int64_t (*way)(void), int64_t *answer) {
    double best = 0;
    for (int round = 0; round < ROUNDS; round++) {
        struct timespec from, to;
        clock_gettime(CLOCK_PROCESS_CPUTIME_ID, &from);
        *answer = way();
        clock_gettime(CLOCK_PROCESS_CPUTIME_ID, &to);
        double took = (double)(to.tv_sec - from.tv_sec) * 1e3
            + (double)(to.tv_nsec - from.tv_nsec) / 1e6;
        if (!round || took < best) best = took;
    }
    return best;
}

int main(int argc, char **argv) {
    count = argc > 1 ? strtoul(argv[1], NULL, 10) : 1000000;
    int64_t answer, sum, other;
    make_rows();
    assert(!kohiblad_parse((const uint8_t *)names_text, strlen(names_text), DEPTH, 0, names, ROOM,
                           &names_size));
    assert(!kohiblad_path_of_text((const uint8_t *)"$.qty", 5, path, sizeof path, &path_size));
    column = memory(offsets[count] + 8 * count);
    file = memory(256 * count + ROOM);
    double row_sum = least(sum_rows, &sum), column_made = least(make_column, &answer);
    double file_made = least(make_file, &answer);
    assert(answer == KOHIBLAD_OK);
    printf("| | bytes of a row | made | loaded | `$.qty` summed | all rows read |\n"
           "|---|---|---|---|---|---|\n");
#define ROW(what, size, made, load, sum_of, read) do { \
        double loaded = least(load, &answer); \
        assert(answer == 0); \
        double summed = least(sum_of, &other); \
        assert(other == sum); \
        double again = least(read, &answer); \
        assert(answer == 0); \
        printf("| %s | %.1f | %.0f | %.0f | %.1f | %.0f |\n", what, \
               (double)(size) / (double)count, made, loaded, summed, again); \
    } while (0)
    ROW("lines of JSON", lines_size, 0.0, load_lines, sum_lines, read_lines);
    ROW("a stored column", column_size, column_made, load_column, sum_column, read_column);
    ROW("a file of typed columns", file_size, file_made, load_file, sum_file, read_file);
    printf("`$.qty` of the rows in memory, by kohiblad_take_int64_unchecked: %.1f\n", row_sum);
    return 0;
}
