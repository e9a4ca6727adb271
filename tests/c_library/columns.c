/* What the calls that take a member out of rows answer, by the rules of docs/TYPED.md. */
#include "kohiblad.h"

#include <assert.h>
#include <stdio.h>
#include <string.h>

enum { ROWS = 12, ROOM = 4096, DEPTH = 4 };

/* The documents of texts, of which NULL is a row of no bytes and "?" one of other bytes. */
static const char *const texts[ROWS] = {
    "{\"a\":5}", "{\"a\":1.5}", "{\"a\":-3}", "{\"a\":null}", "{\"b\":1}", NULL, "?",
    "{\"a\":\"x\\u00e9\"}", "{\"a\":true}", "{\"a\":18446744073709551615}", "{\"a\":2.00}",
    "{\"a\":[[[[1]]]]}",
};
static uint8_t rows[ROOM], path[64], states[ROWS + 1];
static size_t offsets[ROWS + 1], path_size;

/* Where each row has which state, as digits, and how many are unfit. */
static void expect(struct kohiblad_taken taken, const char *wanted) {
    uint64_t unfit = 0, first = ROWS;
    assert(taken.status == KOHIBLAD_OK);
    for (int i = ROWS - 1; i >= 0; i--) {
        assert(states[i] == wanted[i] - '0');
        if (wanted[i] > '2') unfit++, first = (uint64_t)i;
    }
    assert(taken.unfit == unfit && taken.first_unfit == first);
    assert(states[ROWS] == 9);
}

static void refused(struct kohiblad_taken taken, uint32_t status) {
    assert(taken.status == status && taken.unfit == 0 && taken.first_unfit == 0);
    for (int i = 0; i <= ROWS; i++) assert(states[i] == 9);
}

/* Zones of seven rows in blocks of three: from -3 to 5, none, and that of the last row alone. */
static void make_zones(void) {
    static const int64_t numbers[] = { 5, -3, 99, 7, 7, 7, INT64_MIN };
    static const uint64_t words[] = { 5, 3, 99, 7, 7, 7, UINT64_MAX };
    static const int32_t days[] = { 5, -3, 99, 7, 7, 7, INT32_MAX };
    static const struct kohiblad_int128 prices[] = { { 5, 0 }, { (uint64_t)-3, -1 }, { 99, 0 },
                                                     { 7, 0 }, { 7, 0 }, { 7, 0 }, { 1, 1 } };
    static const uint8_t seen[] = { 1, 1, 3, 0, 2, 4, 1 };
    struct kohiblad_int64_zone zones[4];
    struct kohiblad_uint64_zone of_words[3];
    struct kohiblad_date_zone of_days[3];
    struct kohiblad_decimal_zone of_prices[3];
    size_t count;
    memset(zones, 0xA5, sizeof zones);
    assert(kohiblad_zones_int64(numbers, 7, seen, 7, 3, zones, 2, &count) == KOHIBLAD_NO_ROOM);
    assert(count == 3 && (uint64_t)zones[0].least == 0xA5A5A5A5A5A5A5A5u);
    assert(kohiblad_zones_int64(numbers, 7, seen, 6, 3, zones, 4, &count) == KOHIBLAD_INVALID_EOF);
    assert(count == 0 && (uint64_t)zones[0].least == 0xA5A5A5A5A5A5A5A5u);
    assert(!kohiblad_zones_int64(numbers, 7, seen, 7, 3, zones, 4, &count) && count == 3);
    assert(zones[0].least == -3 && zones[0].greatest == 5 && zones[0].has_value == 1);
    assert(zones[1].least == 0 && zones[1].greatest == 0 && zones[1].has_value == 0);
    assert(zones[2].least == INT64_MIN && zones[2].greatest == INT64_MIN && zones[2].has_value);
    assert((uint64_t)zones[3].least == 0xA5A5A5A5A5A5A5A5u);
    assert(!kohiblad_zones_uint64(words, 7, seen, 7, 3, of_words, 3, &count) && count == 3);
    assert(of_words[0].least == 3 && of_words[0].greatest == 5 && !of_words[1].has_value);
    assert(of_words[2].greatest == UINT64_MAX);
    assert(!kohiblad_zones_date(days, 7, seen, 7, 3, of_days, 3, &count) && count == 3);
    assert(of_days[0].least == -3 && of_days[0].greatest == 5 && !of_days[1].has_value);
    assert(of_days[2].greatest == INT32_MAX);
    assert(!kohiblad_zones_decimal(prices, 7, seen, 7, 3, of_prices, 3, &count) && count == 3);
    assert(of_prices[0].least.high == -1 && of_prices[0].least.low == (uint64_t)-3);
    assert(of_prices[0].greatest.high == 0 && of_prices[0].greatest.low == 5);
    assert(of_prices[1].has_value == 0 && of_prices[1].least.low == 0);
    assert(of_prices[2].least.high == 1 && of_prices[2].greatest.low == 1);

    /* A block of 0 rows counts as one of 1, and one may be as large as a number allows. */
    assert(kohiblad_zones_int64(numbers, 7, seen, 7, 0, zones, 4, &count) == KOHIBLAD_NO_ROOM);
    assert(count == 7);
    assert(!kohiblad_zones_int64(numbers, 7, seen, 7, SIZE_MAX, zones, 4, &count) && count == 1);
    assert(zones[0].least == INT64_MIN && zones[0].greatest == 5);
}

/* The document of a text of JSON. */
static size_t parsed(const char *text, uint8_t *out) {
    size_t length;
    assert(!kohiblad_parse((const uint8_t *)text, strlen(text), 9, 0, out, ROOM, &length));
    return length;
}

/* Takes the member "a" at the places, and out of the rows: the same states, counts and values.
 * Where the rows are not checked, row 6, which has other bytes, may have any state. */
static void same_at(size_t size, const struct kohiblad_place *places, size_t count,
                    bool is_checked) {
    int64_t ints[2][ROWS] = { { 0 } };
    uint64_t naturals[2][ROWS] = { { 0 } };
    struct kohiblad_int128 decimals[2][ROWS];
    uint8_t truths[2][ROWS] = { { 0 } }, bytes[2][ROWS] = { { 0 } }, seen[2][ROWS];
    struct kohiblad_timestamp_tz zoned[2][ROWS];
    struct kohiblad_interval intervals[2][ROWS];
    size_t starts[2][ROWS + 1], lengths[2];
    uint32_t short_starts[2][ROWS + 1];
    struct kohiblad_taken one, other;
    memset(decimals, 0, sizeof decimals);
    memset(zoned, 0, sizeof zoned);
    memset(intervals, 0, sizeof intervals);
#define SAME(values, at, checked, unchecked) do { \
        memset(seen, 9, sizeof seen); \
        one = at; \
        other = is_checked ? checked : unchecked; \
        assert(one.status == KOHIBLAD_OK && other.status == KOHIBLAD_OK); \
        assert(!is_checked \
               || (one.unfit == other.unfit && one.first_unfit == other.first_unfit)); \
        if (!is_checked) seen[0][6] = seen[1][6]; \
        assert(!memcmp(seen[0], seen[1], ROWS)); \
        assert(!memcmp(values[0], values[1], sizeof values[0])); \
    } while (0)
    for (uint32_t fit = 0; fit < 2; fit++) {
        SAME(ints, kohiblad_take_int64_at(rows, size, places, count, 2, fit, ints[0], ROWS, seen[0],
                                          ROWS),
             kohiblad_take_int64(rows, size, offsets, ROWS + 1, path, path_size, DEPTH, fit,
                                 ints[1], ROWS, seen[1], ROWS),
             kohiblad_take_int64_unchecked(rows, size, offsets, ROWS + 1, path, path_size, DEPTH,
                                           fit, ints[1], ROWS, seen[1], ROWS));
        SAME(naturals, kohiblad_take_uint64_at(rows, size, places, count, 2, fit, naturals[0], ROWS,
                                               seen[0], ROWS),
             kohiblad_take_uint64(rows, size, offsets, ROWS + 1, path, path_size, DEPTH, fit,
                                  naturals[1], ROWS, seen[1], ROWS),
             kohiblad_take_uint64_unchecked(rows, size, offsets, ROWS + 1, path, path_size, DEPTH,
                                            fit, naturals[1], ROWS, seen[1], ROWS));
        SAME(decimals, kohiblad_take_decimal_at(rows, size, places, count, 2, fit, 2, decimals[0],
                                                ROWS, seen[0], ROWS),
             kohiblad_take_decimal(rows, size, offsets, ROWS + 1, path, path_size, DEPTH, fit, 2,
                                   decimals[1], ROWS, seen[1], ROWS),
             kohiblad_take_decimal_unchecked(rows, size, offsets, ROWS + 1, path, path_size, DEPTH,
                                             fit, 2, decimals[1], ROWS, seen[1], ROWS));
    }
    SAME(zoned, kohiblad_take_timestamp_tz_at(rows, size, places, count, 2, zoned[0], ROWS, seen[0],
                                              ROWS),
         kohiblad_take_timestamp_tz(rows, size, offsets, ROWS + 1, path, path_size, DEPTH, zoned[1],
                                    ROWS, seen[1], ROWS),
         kohiblad_take_timestamp_tz_unchecked(rows, size, offsets, ROWS + 1, path, path_size, DEPTH,
                                              zoned[1], ROWS, seen[1], ROWS));
    SAME(intervals, kohiblad_take_interval_at(rows, size, places, count, 2, intervals[0], ROWS,
                                              seen[0], ROWS),
         kohiblad_take_interval(rows, size, offsets, ROWS + 1, path, path_size, DEPTH, intervals[1],
                                ROWS, seen[1], ROWS),
         kohiblad_take_interval_unchecked(rows, size, offsets, ROWS + 1, path, path_size, DEPTH,
                                          intervals[1], ROWS, seen[1], ROWS));
    SAME(bytes, kohiblad_take_text_at(rows, size, places, count, 2, bytes[0], ROWS, lengths,
                                      starts[0], ROWS + 1, seen[0], ROWS),
         kohiblad_take_text(rows, size, offsets, ROWS + 1, path, path_size, DEPTH, bytes[1], ROWS,
                            lengths + 1, starts[1], ROWS + 1, seen[1], ROWS),
         kohiblad_take_text_unchecked(rows, size, offsets, ROWS + 1, path, path_size, DEPTH,
                                      bytes[1], ROWS, lengths + 1, starts[1], ROWS + 1, seen[1],
                                      ROWS));
    assert(lengths[0] == 3 && lengths[1] == 3 && !memcmp(bytes[0], "x\xc3\xa9", 3));
    assert(!memcmp(starts[0], starts[1], sizeof starts[0]) && starts[0][8] == 3);
    SAME(bytes, kohiblad_take_text32_at(rows, size, places, count, 2, bytes[0], ROWS, lengths,
                                        short_starts[0], ROWS + 1, seen[0], ROWS),
         kohiblad_take_text32(rows, size, offsets, ROWS + 1, path, path_size, DEPTH, bytes[1], ROWS,
                              lengths + 1, short_starts[1], ROWS + 1, seen[1], ROWS),
         kohiblad_take_text32_unchecked(rows, size, offsets, ROWS + 1, path, path_size, DEPTH,
                                        bytes[1], ROWS, lengths + 1, short_starts[1], ROWS + 1,
                                        seen[1], ROWS));
    assert(!memcmp(short_starts[0], short_starts[1], sizeof short_starts[0]));
    assert(lengths[0] == 3 && short_starts[0][7] == 0 && short_starts[0][8] == 3);
    SAME(bytes, kohiblad_take_binary_at(rows, size, places, count, 2, bytes[0], ROWS, lengths,
                                        starts[0], ROWS + 1, seen[0], ROWS),
         kohiblad_take_binary(rows, size, offsets, ROWS + 1, path, path_size, DEPTH, bytes[1], ROWS,
                              lengths + 1, starts[1], ROWS + 1, seen[1], ROWS),
         kohiblad_take_binary_unchecked(rows, size, offsets, ROWS + 1, path, path_size, DEPTH,
                                        bytes[1], ROWS, lengths + 1, starts[1], ROWS + 1, seen[1],
                                        ROWS));
    assert(lengths[0] == 0 && !memcmp(starts[0], starts[1], sizeof starts[0]));
    SAME(truths, kohiblad_take_boolean_at(rows, size, places, count, 2, truths[0], ROWS, seen[0],
                                          ROWS),
         kohiblad_take_boolean(rows, size, offsets, ROWS + 1, path, path_size, DEPTH, truths[1],
                               ROWS, seen[1], ROWS),
         kohiblad_take_boolean_unchecked(rows, size, offsets, ROWS + 1, path, path_size, DEPTH,
                                         truths[1], ROWS, seen[1], ROWS));
#undef SAME
}

/* Members of the kinds that rows of JSON have not, at their places, and what is refused. */
static void other_kinds_at(void) {
    static const uint8_t pair[] = { 128, 0, 0, 1, 16, 0, 0, 1, 'a' };
    uint8_t stored[256], text[3];
    size_t starts[4] = { 0 }, ends[4], length = 0, size = 0;
    struct kohiblad_place at[3];
    for (int i = 0; i < 3; i++) {
        uint8_t value[32];
        uint32_t status = i == 0
            ? kohiblad_of_extension(KOHIBLAD_TIMESTAMP_TZ, 77, 0, 0, 3600, NULL, 0, value,
                                    sizeof value, &length)
            : i == 1 ? kohiblad_of_extension(KOHIBLAD_INTERVAL, 9, 7, -8, 0, NULL, 0,
                                             value, sizeof value, &length)
            : kohiblad_of_extension(KOHIBLAD_BINARY, 0, 0, 0, 0, (const uint8_t *)"xy", 2,
                                    value, sizeof value, &length);
        assert(!status);
        /* An object of the one member "a", with the entry and the payload of the value. */
        static const uint8_t head[] = { 64, 0, 0, 1, 16, 0, 0, 1 };
        memcpy(stored + size, head, 8);
        memcpy(stored + size + 8, value + 4, 4);
        stored[size + 12] = 'a';
        memcpy(stored + size + 13, value + 8, length - 8);
        starts[i + 1] = size += 5 + length;
    }
    assert(!kohiblad_locate(stored, size, starts, 4, pair, sizeof pair, 2, at, 3));
    struct kohiblad_timestamp_tz zoned[3];
    struct kohiblad_interval intervals[3];
    uint8_t seen[3];
    assert(kohiblad_take_timestamp_tz_at(stored, size, at, 3, 1, zoned, 3, seen, 3).unfit == 2);
    assert(seen[0] == KOHIBLAD_ROW_VALUE && zoned[0].value == 77 && zoned[0].seconds == 3600);
    assert(seen[1] == KOHIBLAD_ROW_UNFIT && zoned[1].value == 0 && zoned[1].seconds == 0);
    assert(kohiblad_take_interval_at(stored, size, at, 3, 1, intervals, 3, seen, 3).unfit == 2);
    assert(seen[1] == KOHIBLAD_ROW_VALUE && intervals[1].months == 7 && intervals[1].days == -8);
    assert(intervals[1].micros == 9 && intervals[0].micros == 0 && intervals[2].months == 0);
    assert(kohiblad_take_binary_at(stored, size, at, 3, 1, text, 2, &length, ends, 4, seen, 3).unfit
           == 2);
    assert(length == 2 && !memcmp(text, "xy", 2) && ends[2] == 0 && ends[3] == 2);

    /* What is too short is refused, and nothing is written. */
    memset(text, 'z', sizeof text);
    memset(seen, 9, sizeof seen);
    assert(kohiblad_take_binary_at(stored, size, at, 3, 1, text, 1, &length, ends, 4, seen, 3)
           .status == KOHIBLAD_NO_ROOM);
    assert(length == 2 && text[0] == 'z' && seen[0] == 9);
    assert(kohiblad_take_binary_at(stored, size, at, 3, 1, text, 2, &length, ends, 3, seen, 3)
           .status == KOHIBLAD_NO_ROOM);
    assert(kohiblad_take_binary_at(stored, size, at, 3, 1, text, 2, &length, ends, 4, seen, 2)
           .status == KOHIBLAD_NO_ROOM);
    assert(kohiblad_take_text_at(stored, size, at, 3, 1, (uint8_t *)at, 2, &length, ends, 4, seen,
                                 3).status == KOHIBLAD_OVERLAP);
    assert(kohiblad_take_text_at(stored, size, at, 3, 1, text, 2, &length, &length, 1, seen, 3)
           .status == KOHIBLAD_OVERLAP);
    assert(text[0] == 'z' && seen[0] == 9 && length == 2);
}

/* Rows of other shapes, by turns: each has the places that it has by itself. */
static void shapes(void) {
    static const char *const texts_of[] = {
        "{\"a\":1,\"c\":2,\"e\":3}", "{\"a\":1,\"c\":2,\"e\":3}", "{\"a\":1,\"e\":3}",
        "{\"b\":0,\"c\":2}", "{}", "{\"a\":1,\"b\":0,\"c\":2,\"d\":0,\"e\":3}",
        "{\"aa\":9,\"cc\":9,\"ee\":9}", "[1,2,3]", "{\"c\":2}", "{\"a\":1,\"c\":2,\"e\":3}",
    };
    enum { SHAPES = 10 };
    static uint8_t stored[ROOM], names[64];
    size_t starts[SHAPES + 1] = { 0 }, size = 0;
    for (int i = 0; i < SHAPES; i++)
        starts[i + 1] = size += parsed(texts_of[i], stored + size);
    size_t names_size = parsed("[\"a\",\"c\",\"e\"]", names);
    struct kohiblad_place at[3 * SHAPES], alone;
    for (int is_checked = 0; is_checked < 2; is_checked++) {
        assert(!(is_checked ? kohiblad_locate : kohiblad_locate_unchecked)(
            stored, size, starts, SHAPES + 1, names, names_size, 3, at, 3 * SHAPES));
        for (int i = 0; i < SHAPES; i++)
            for (int j = 0; j < 3; j++) {
                alone = kohiblad_find_key(stored + starts[i], starts[i + 1] - starts[i],
                                          (const uint8_t *)"ace" + j, 1);
                if (!alone.status) alone.offset += starts[i];
                assert(at[3 * i + j].status == alone.status && at[3 * i + j].type == alone.type);
                assert(at[3 * i + j].offset == alone.offset);
                assert(at[3 * i + j].length == alone.length);
            }
    }
}

/* Two members of all rows, as many at a time as there are places for, are what each call takes. */
static void members(size_t size) {
    static uint8_t names[64], other[64], broken[3];
    size_t names_size = parsed("[\"a\",\"b\"]", names), length;
    struct kohiblad_place places[2 * ROWS];
    struct kohiblad_int128 prices[ROWS], wanted_prices[ROWS];
    int64_t numbers[ROWS], wanted_numbers[ROWS];
    uint8_t price_states[ROWS], wanted_states[2][ROWS];
    struct kohiblad_member wanted[2] = {
        { KOHIBLAD_COLUMN_DECIMAL, 2, prices, price_states, { 0, 0, 0 } },
        { KOHIBLAD_COLUMN_INT64, 0, numbers, states, { 0, 0, 0 } },
    };
    assert(!kohiblad_path_of_text((const uint8_t *)"$.b", 3, other, sizeof other, &length));
    struct kohiblad_taken taken[2] = {
        kohiblad_take_decimal(rows, size, offsets, ROWS + 1, path, path_size, DEPTH,
                              KOHIBLAD_BY_VALUE, 2, wanted_prices, ROWS, wanted_states[0], ROWS),
        kohiblad_take_int64(rows, size, offsets, ROWS + 1, other, length, DEPTH, KOHIBLAD_BY_VALUE,
                            wanted_numbers, ROWS, wanted_states[1], ROWS),
    };
    for (size_t room = 2; room <= 2 * ROWS; room++) {
        memset(prices, 9, sizeof prices), memset(numbers, 9, sizeof numbers);
        memset(states, 9, ROWS), memset(price_states, 9, sizeof price_states);
        assert(!kohiblad_take_members(rows, size, offsets, ROWS + 1, names, names_size, DEPTH,
                                      KOHIBLAD_BY_VALUE, wanted, 2, places, room));
        assert(!memcmp(prices, wanted_prices, sizeof prices));
        assert(!memcmp(numbers, wanted_numbers, sizeof numbers));
        assert(!memcmp(price_states, wanted_states[0], ROWS));
        assert(!memcmp(states, wanted_states[1], ROWS));
        for (int j = 0; j < 2; j++) {
            assert(wanted[j].taken.status == taken[j].status);
            assert(wanted[j].taken.unfit == taken[j].unfit);
            assert(wanted[j].taken.first_unfit == taken[j].first_unfit);
        }
    }
    /* No rows, and what is refused. */
    assert(!kohiblad_take_members(rows, size, offsets, 1, names, names_size, DEPTH,
                                  KOHIBLAD_BY_VALUE, wanted, 2, places, 2));
    assert(wanted[0].taken.unfit == 0 && wanted[0].taken.first_unfit == 0);
    assert(kohiblad_take_members(rows, size, offsets, ROWS + 1, names, names_size, DEPTH,
                                 KOHIBLAD_BY_VALUE, wanted, 2, places, 1) == KOHIBLAD_NO_ROOM);
    assert(kohiblad_take_members(rows, size, offsets, ROWS + 1, names, names_size, DEPTH,
                                 KOHIBLAD_BY_VALUE, wanted, 1, places, 2) == KOHIBLAD_WRONG_LENGTH);
    assert(kohiblad_take_members(rows, size, offsets, ROWS + 1, broken, 3, DEPTH, KOHIBLAD_BY_VALUE,
                                 wanted, 2, places, 2) == KOHIBLAD_INVALID_JSONB);
    assert(kohiblad_take_members(rows, size - 1, offsets, ROWS + 1, names, names_size, DEPTH,
                                 KOHIBLAD_BY_VALUE, wanted, 2, places, 2) == KOHIBLAD_INVALID_EOF);
    wanted[1].type = KOHIBLAD_COLUMN_TEXT;
    assert(kohiblad_take_members(rows, size, offsets, ROWS + 1, names, names_size, DEPTH,
                                 KOHIBLAD_BY_VALUE, wanted, 2, places, 2)
           == KOHIBLAD_INVALID_JSONB);

    /* Of no names the offsets are tested too, and that they are an array. */
    static uint8_t none[ROOM], object[ROOM];
    size_t none_size = parsed("[]", none), object_size = parsed("{}", object);
    assert(!kohiblad_take_members(rows, size, offsets, ROWS + 1, none, none_size, DEPTH,
                                  KOHIBLAD_BY_VALUE, wanted, 0, places, 0));
    assert(kohiblad_take_members(rows, size - 1, offsets, ROWS + 1, none, none_size, DEPTH,
                                 KOHIBLAD_BY_VALUE, wanted, 0, places, 0) == KOHIBLAD_INVALID_EOF);
    assert(kohiblad_take_members(rows, size, offsets, ROWS + 1, object, object_size, DEPTH,
                                 KOHIBLAD_BY_VALUE, wanted, 0, places, 0) == KOHIBLAD_OTHER_KIND);
}

/* The zeros in front of a number without its point are no digits. */
static void less_than_one(void) {
    static uint8_t row[ROOM], whole[ROOM];
    size_t ends[2] = { 0, parsed("0.05", row) }, whole_size = parsed("[]", whole);
    struct kohiblad_survey_counts one = kohiblad_survey(row, ends[1], ends, 2, whole, whole_size,
                                                        DEPTH);
    assert(one.most_digits == 1 && one.least_scale == 2 && one.greatest_scale == 2);
}

/* Of two members with one value each has its own place, and a place of none gives no value. */
static void own_places(void) {
    static uint8_t row[ROOM], names[ROOM];
    size_t size = parsed("{\"a\":true,\"b\":true,\"c\":7,\"d\":7}", row);
    size_t names_size = parsed("[\"a\",\"b\",\"c\",\"d\"]", names);
    size_t ends[2] = { 0, size };
    const char *keys[4] = { "a", "b", "c", "d" };
    struct kohiblad_place places[4];
    assert(!kohiblad_locate(row, size, ends, 2, names, names_size, DEPTH, places, 4));
    for (int j = 0; j < 4; j++) {
        struct kohiblad_place own = kohiblad_find_key(row, size, (const uint8_t *)keys[j], 1);
        assert(own.type == places[j].type && own.offset == places[j].offset);
        assert(own.length == places[j].length);
    }
    assert(places[2].offset + places[2].length == places[3].offset);

    /* A status of no call, a payload of no such type, a null with bytes, and a container. */
    struct kohiblad_place others[4] = { places[2], places[2], places[2], places[2] };
    others[0].status = 99;
    others[1].length -= 1;
    others[2].type = KOHIBLAD_TYPE_NULL;
    others[3].type = KOHIBLAD_TYPE_CONTAINER;
    int64_t values[4];
    uint8_t their[5] = { 9, 9, 9, 9, 9 };
    kohiblad_take_int64_at(row, size, others, 4, 1, KOHIBLAD_BY_VALUE, values, 4, their, 4);
    assert(!memcmp(their, "\4\4\4\3\11", 5));
    for (int j = 0; j < 4; j++) assert(values[j] == 0);
    others[0].status = KOHIBLAD_NONE;
    kohiblad_take_int64_at(row, size, others, 1, 1, KOHIBLAD_BY_VALUE, values, 1, their, 1);
    assert(their[0] == KOHIBLAD_ROW_ABSENT && values[0] == 0);
}

/* The members "a" and "b" of the rows in one walk over each. */
static void located(size_t size) {
    static uint8_t names[ROOM], turned[ROOM];
    size_t names_size = parsed("[\"a\",\"b\"]", names);
    size_t turned_size = parsed("[\"b\",\"a\"]", turned);
    struct kohiblad_place places[2 * ROWS + 1], kept[2 * ROWS + 1];
    int64_t values[ROWS];
    memset(places, 9, sizeof places);
    memcpy(kept, places, sizeof kept);
    assert(kohiblad_locate(rows, size, offsets, ROWS + 1, names, names_size, DEPTH, places,
                           2 * ROWS + 1) == KOHIBLAD_OK);
    assert(!memcmp(places + 2 * ROWS, kept + 2 * ROWS, sizeof *kept));
    assert(places[0].type == KOHIBLAD_TYPE_NUMBER && places[0].offset + places[0].length <= size);
    assert(places[1].status == KOHIBLAD_NONE && places[8].status == KOHIBLAD_NONE);
    assert(places[9].status == KOHIBLAD_OK && places[10].status == KOHIBLAD_NONE);
    assert(places[12].status == KOHIBLAD_INVALID_JSONB && places[12].length == 0);
    same_at(size, places, 2 * ROWS, true);
    struct kohiblad_taken b = kohiblad_take_int64_at(rows, size, places + 1, 2 * ROWS - 1, 2,
                                                     KOHIBLAD_EXACT, values, ROWS, states, ROWS);
    assert(b.status == KOHIBLAD_OK && b.unfit == 2 && b.first_unfit == 6);
    assert(states[4] == KOHIBLAD_ROW_VALUE && values[4] == 1);
    assert(kohiblad_locate_unchecked(rows, size, offsets, ROWS + 1, names, names_size, DEPTH,
                                     places, 2 * ROWS) == KOHIBLAD_OK);
    same_at(size, places, 2 * ROWS, false);

    /* What is refused changes nothing. */
    memcpy(places, kept, sizeof kept);
    assert(kohiblad_locate(rows, size - 1, offsets, ROWS + 1, names, names_size, DEPTH, places,
                           2 * ROWS) == KOHIBLAD_INVALID_EOF);
    assert(kohiblad_locate(rows, size, offsets, ROWS + 1, names, names_size, 0, places, 2 * ROWS)
           == KOHIBLAD_INVALID_JSONB);
    assert(kohiblad_locate(rows, size, offsets, ROWS + 1, turned, turned_size, DEPTH, places,
                           2 * ROWS) == KOHIBLAD_OTHER_KIND);
    assert(kohiblad_locate(rows, size, offsets, ROWS + 1, rows, offsets[1], DEPTH, places,
                           2 * ROWS) == KOHIBLAD_OTHER_KIND);
    assert(kohiblad_locate(rows, size, offsets, ROWS + 1, names, names_size, DEPTH, places,
                           2 * ROWS - 1) == KOHIBLAD_NO_ROOM);
    assert(kohiblad_locate(rows, size, offsets, ROWS + 1, names, names_size, DEPTH,
                           (struct kohiblad_place *)(void *)offsets, 2) == KOHIBLAD_OVERLAP);
    assert(!memcmp(places, kept, sizeof kept));

    /* At a place beyond the bytes nothing is read; with 0 steps each place is. */
    memset(states, 9, sizeof states);
    places[0].status = places[1].status = KOHIBLAD_OK;
    places[0].type = places[1].type = KOHIBLAD_TYPE_NUMBER;
    places[0].offset = UINT64_MAX, places[0].length = 2;
    places[1].offset = size - 1, places[1].length = 2;
    b = kohiblad_take_int64_at(rows, size, places, 2, 0, KOHIBLAD_EXACT, values, ROWS, states, 2);
    assert(b.unfit == 2 && b.first_unfit == 0 && states[2] == 9);
    assert(states[0] == KOHIBLAD_ROW_NO_DOCUMENT && states[1] == KOHIBLAD_ROW_NO_DOCUMENT);
    memset(states, 9, sizeof states);
    refused(kohiblad_take_int64_at(rows, size, places, 2 * ROWS, 2, KOHIBLAD_EXACT, values,
                                   ROWS - 1, states, ROWS), KOHIBLAD_NO_ROOM);
    refused(kohiblad_take_int64_at(rows, size, places, 2 * ROWS, 2, KOHIBLAD_EXACT, values, ROWS,
                                   states, ROWS - 1), KOHIBLAD_NO_ROOM);
    refused(kohiblad_take_int64_at(rows, size, places, 2 * ROWS, 2, KOHIBLAD_EXACT,
                                   (int64_t *)(void *)places, ROWS, states, ROWS),
            KOHIBLAD_OVERLAP);
}

int main(void) {
    size_t length, size = 0;
    for (int i = 0; i < ROWS; i++) {
        length = 0;
        if (texts[i] && *texts[i] == '?') {
            rows[size] = '?';
            length = 1;
        } else if (texts[i]) {
            assert(!kohiblad_parse((const uint8_t *)texts[i], strlen(texts[i]), 9, 0, rows + size,
                                   ROOM - size, &length));
        }
        offsets[i + 1] = size += length;
    }
    assert(!kohiblad_path_of_text((const uint8_t *)"$.a", 3, path, sizeof path, &path_size));

    struct kohiblad_survey_counts all = kohiblad_survey(rows, size, offsets, ROWS + 1, path,
                                                        path_size, DEPTH);
    assert(all.status == KOHIBLAD_OK && all.rows == ROWS && all.not_documents == 2);
    assert(all.absent == 2 && all.nulls == 1 && all.booleans == 1 && all.texts == 1);
    assert(all.int64s == 1 && all.uint64s == 2 && all.decimal64s == 2 && all.decimal128s == 0);
    assert(all.arrays == 0 && all.objects == 0 && all.dates == 0 && all.binaries == 0);
    assert(all.least_scale == 0 && all.greatest_scale == 2 && all.most_digits == 20);
    assert(all.longest_text == 3);
    less_than_one();
    assert(kohiblad_survey(rows, size, offsets, ROWS + 1, path, path_size, 5).arrays == 1);

    int64_t whole[ROWS + 1];
    memset(whole, 0xA5, sizeof whole);
    memset(states, 9, sizeof states);
    expect(kohiblad_take_int64(rows, size, offsets, ROWS + 1, path, path_size, DEPTH,
                               KOHIBLAD_BY_VALUE, whole, ROWS, states, ROWS), "131200433314");
    assert(whole[0] == 5 && whole[1] == 0 && whole[2] == -3 && whole[10] == 2 && whole[11] == 0);
    assert((uint64_t)whole[12] == 0xA5A5A5A5A5A5A5A5u);
    expect(kohiblad_take_int64(rows, size, offsets, ROWS + 1, path, path_size, DEPTH,
                               KOHIBLAD_EXACT, whole, ROWS, states, ROWS), "131200433334");

    uint64_t unsigned_numbers[ROWS];
    expect(kohiblad_take_uint64(rows, size, offsets, ROWS + 1, path, path_size, DEPTH,
                                KOHIBLAD_EXACT, unsigned_numbers, ROWS, states, ROWS),
           "133200433134");
    assert(unsigned_numbers[9] == UINT64_MAX && unsigned_numbers[2] == 0);

    struct kohiblad_int128 prices[ROWS];
    expect(kohiblad_take_decimal(rows, size, offsets, ROWS + 1, path, path_size, DEPTH,
                                 KOHIBLAD_BY_VALUE, 2, prices, ROWS, states, ROWS),
           "111200433114");
    assert(prices[0].low == 500 && prices[1].low == 150 && prices[10].low == 200);
    assert(prices[2].high == -1 && prices[2].low == (uint64_t)-300);
    /* 1844674407370955161500 is 100 times 2^64, less 100. */
    assert(prices[9].high == 99 && prices[9].low == (uint64_t)-100);
    expect(kohiblad_take_decimal(rows, size, offsets, ROWS + 1, path, path_size, DEPTH,
                                 KOHIBLAD_EXACT, 2, prices, ROWS, states, ROWS), "333200433314");

    uint8_t truths[ROWS];
    expect(kohiblad_take_boolean(rows, size, offsets, ROWS + 1, path, path_size, DEPTH, truths,
                                 ROWS, states, ROWS), "333200431334");
    assert(truths[8] == 1 && truths[0] == 0);

    uint8_t out[4] = "....";
    size_t text_offsets[ROWS + 1];
    expect(kohiblad_take_text(rows, size, offsets, ROWS + 1, path, path_size, DEPTH, out, 3,
                              &length, text_offsets, ROWS + 1, states, ROWS), "333200413334");
    assert(length == 3 && !memcmp(out, "x\xC3\xA9.", 4));
    for (int i = 0; i <= ROWS; i++) assert(text_offsets[i] == (i < 8 ? 0 : 3));
    uint32_t short_offsets[ROWS + 2];
    memset(short_offsets, 0xA5, sizeof short_offsets);
    expect(kohiblad_take_text32(rows, size, offsets, ROWS + 1, path, path_size, DEPTH, out, 3,
                                &length, short_offsets, ROWS + 1, states, ROWS), "333200413334");
    assert(length == 3 && !memcmp(out, "x\xC3\xA9.", 4));
    for (int i = 0; i <= ROWS; i++) assert(short_offsets[i] == (i < 8 ? 0 : 3));
    assert(short_offsets[ROWS + 1] == 0xA5A5A5A5);

    /* Of documents and rows of no bytes the same, without a check: row 6 has other bytes, and
     * row 11 nests too deep for the calls that check. */
    memset(whole, 0xA5, sizeof whole);
    expect(kohiblad_take_int64_unchecked(rows, size, offsets, ROWS + 1, path, path_size, DEPTH,
                                         KOHIBLAD_BY_VALUE, whole, ROWS, states, ROWS),
           "131200433313");
    assert(whole[0] == 5 && whole[1] == 0 && whole[2] == -3 && whole[10] == 2 && whole[11] == 0);
    assert((uint64_t)whole[12] == 0xA5A5A5A5A5A5A5A5u);
    expect(kohiblad_take_uint64_unchecked(rows, size, offsets, ROWS + 1, path, path_size, DEPTH,
                                          KOHIBLAD_EXACT, unsigned_numbers, ROWS, states, ROWS),
           "133200433133");
    assert(unsigned_numbers[9] == UINT64_MAX && unsigned_numbers[2] == 0);
    expect(kohiblad_take_decimal_unchecked(rows, size, offsets, ROWS + 1, path, path_size, DEPTH,
                                           KOHIBLAD_BY_VALUE, 2, prices, ROWS, states, ROWS),
           "111200433113");
    assert(prices[1].low == 150 && prices[9].high == 99);
    expect(kohiblad_take_boolean_unchecked(rows, size, offsets, ROWS + 1, path, path_size, DEPTH,
                                           truths, ROWS, states, ROWS), "333200431333");
    assert(truths[8] == 1 && truths[0] == 0);
    expect(kohiblad_take_text_unchecked(rows, size, offsets, ROWS + 1, path, path_size, DEPTH, out,
                                        3, &length, text_offsets, ROWS + 1, states, ROWS),
           "333200413333");
    assert(length == 3 && !memcmp(out, "x\xC3\xA9.", 4));
    memset(short_offsets, 0xA5, sizeof short_offsets);
    expect(kohiblad_take_text32_unchecked(rows, size, offsets, ROWS + 1, path, path_size, DEPTH,
                                          out, 3, &length, short_offsets, ROWS + 1, states, ROWS),
           "333200413333");
    for (int i = 0; i <= ROWS; i++) assert(short_offsets[i] == (i < 8 ? 0 : 3));

    /* What is refused changes nothing. */
    memset(states, 9, sizeof states);
    refused(kohiblad_take_int64(rows, size - 1, offsets, ROWS + 1, path, path_size, DEPTH, 0, whole,
                                ROWS, states, ROWS), KOHIBLAD_INVALID_EOF);
    refused(kohiblad_take_int64(rows, size, offsets, ROWS + 1, path, path_size, 0, 0, whole, ROWS,
                                states, ROWS), KOHIBLAD_INVALID_JSONB);
    refused(kohiblad_take_int64(rows, size, offsets, ROWS + 1, path, path_size, DEPTH, 0, whole,
                                ROWS - 1, states, ROWS), KOHIBLAD_NO_ROOM);
    refused(kohiblad_take_int64(rows, size, offsets, ROWS + 1, path, path_size, DEPTH, 0, whole,
                                ROWS, states, ROWS - 1), KOHIBLAD_NO_ROOM);
    refused(kohiblad_take_int64(rows, size, offsets, ROWS + 1, rows, offsets[1], DEPTH, 0, whole,
                                ROWS, states, ROWS), KOHIBLAD_OTHER_KIND);
    refused(kohiblad_take_decimal(rows, size, offsets, ROWS + 1, path, path_size, DEPTH, 0, 256,
                                  prices, ROWS, states, ROWS), KOHIBLAD_INVALID_JSONB);
    refused(kohiblad_take_int64_unchecked(rows, size - 1, offsets, ROWS + 1, path, path_size, DEPTH,
                                          0, whole, ROWS, states, ROWS), KOHIBLAD_INVALID_EOF);
    refused(kohiblad_take_int64_unchecked(rows, size, offsets, ROWS + 1, path, path_size, 0, 0,
                                          whole, ROWS, states, ROWS), KOHIBLAD_INVALID_JSONB);
    refused(kohiblad_take_int64_unchecked(rows, size, offsets, ROWS + 1, path, path_size, DEPTH, 0,
                                          whole, ROWS, states, ROWS - 1), KOHIBLAD_NO_ROOM);
    refused(kohiblad_take_text(rows, size, offsets, ROWS + 1, path, path_size, DEPTH, out, 2,
                               &length, text_offsets, ROWS + 1, states, ROWS), KOHIBLAD_NO_ROOM);
    assert(length == 3);
    refused(kohiblad_take_text(rows, size, offsets, ROWS + 1, path, path_size, DEPTH, out, 3,
                               &length, text_offsets, ROWS, states, ROWS), KOHIBLAD_NO_ROOM);
    short_offsets[0] = 9;
    refused(kohiblad_take_text32(rows, size, offsets, ROWS + 1, path, path_size, DEPTH, out, 3,
                                 &length, short_offsets, ROWS, states, ROWS), KOHIBLAD_NO_ROOM);
    assert(length == 3 && short_offsets[0] == 9);
    refused(kohiblad_take_text(rows, size, offsets, ROWS + 1, path, path_size, 0, out, 3, &length,
                               text_offsets, ROWS + 1, states, ROWS), KOHIBLAD_INVALID_JSONB);
    assert(length == 0);
    assert(kohiblad_survey(rows, size, offsets, ROWS + 1, rows, offsets[1], DEPTH).status
           == KOHIBLAD_OTHER_KIND);

    /* A date, a timestamp and no bytes, each a row that is the member itself. */
    int32_t days[3];
    int64_t moments[3];
    uint8_t times[64], whole_path[] = { 0x80, 0, 0, 0 };
    size_t ends[4] = { 0 };
    assert(!kohiblad_of_extension(KOHIBLAD_DATE, -719162, 0, 0, 0, NULL, 0, times, 64, &length));
    ends[1] = length;
    assert(!kohiblad_of_extension(KOHIBLAD_TIMESTAMP, 1700000000000000, 0, 0, 0, NULL, 0,
                                  times + ends[1], 64 - ends[1], &length));
    ends[2] = ends[3] = ends[1] + length;
    struct kohiblad_taken dates = kohiblad_take_date(times, ends[3], ends, 4, whole_path, 4, 1,
                                                     days, 3, states, 3);
    assert(dates.status == KOHIBLAD_OK && dates.unfit == 1 && dates.first_unfit == 1);
    assert(!memcmp(states, "\1\3", 3) && days[0] == -719162 && days[1] == 0 && days[2] == 0);
    days[0] = 1;
    dates = kohiblad_take_date_unchecked(times, ends[3], ends, 4, whole_path, 4, 1, days, 3,
                                         states, 3);
    assert(dates.unfit == 1 && !memcmp(states, "\1\3", 3) && days[0] == -719162);
    dates = kohiblad_take_timestamp(times, ends[3], ends, 4, whole_path, 4, 1, moments, 3, states,
                                    3);
    assert(dates.unfit == 1 && dates.first_unfit == 0 && !memcmp(states, "\3\1", 3));
    assert(moments[0] == 0 && moments[1] == 1700000000000000 && moments[2] == 0);
    moments[1] = 1;
    dates = kohiblad_take_timestamp_unchecked(times, ends[3], ends, 4, whole_path, 4, 1, moments, 3,
                                              states, 3);
    assert(dates.unfit == 1 && !memcmp(states, "\3\1", 3) && moments[1] == 1700000000000000);

    /* Two binary values, the first of no bytes, a date and other bytes. */
    uint8_t stored[64], data[4] = "....";
    size_t starts[5] = { 0 }, value_offsets[5];
    assert(!kohiblad_of_extension(KOHIBLAD_BINARY, 0, 0, 0, 0, NULL, 0, stored, 64, &length));
    starts[1] = length;
    assert(!kohiblad_of_extension(KOHIBLAD_BINARY, 0, 0, 0, 0, (const uint8_t *)"\0\xFF\n", 3,
                                  stored + starts[1], 64 - starts[1], &length));
    starts[2] = starts[1] + length;
    memcpy(stored + starts[2], times, ends[1]);
    starts[3] = starts[2] + ends[1];
    stored[starts[3]] = '?';
    starts[4] = starts[3] + 1;
    struct kohiblad_taken taken = kohiblad_take_binary(stored, starts[4], starts, 5, whole_path, 4,
                                                       1, data, 3, &length, value_offsets, 5,
                                                       states, 4);
    assert(taken.status == KOHIBLAD_OK && taken.unfit == 2 && taken.first_unfit == 2);
    assert(!memcmp(states, "\1\1\3\4", 4) && length == 3 && !memcmp(data, "\0\xFF\n.", 4));
    for (int i = 0; i < 5; i++) assert(value_offsets[i] == (i < 2 ? 0 : 3));
    memset(data, '.', sizeof data);
    taken = kohiblad_take_binary_unchecked(stored, starts[3], starts, 4, whole_path, 4, 1, data, 3,
                                           &length, value_offsets, 5, states, 4);
    assert(taken.status == KOHIBLAD_OK && taken.unfit == 1 && taken.first_unfit == 2);
    assert(!memcmp(states, "\1\1\3\4", 4) && length == 3 && !memcmp(data, "\0\xFF\n.", 4));
    memset(states, 9, sizeof states);
    refused(kohiblad_take_binary(stored, starts[4], starts, 5, whole_path, 4, 1, data, 2, &length,
                                 value_offsets, 5, states, 4), KOHIBLAD_NO_ROOM);
    assert(length == 3);
    /* Of texts there are none. */
    taken = kohiblad_take_text(stored, starts[3], starts, 4, whole_path, 4, 1, data, 3, &length,
                               value_offsets, 5, states, 4);
    assert(taken.unfit == 3 && length == 0);

    /* A timestamp with a zone, an interval and no bytes. */
    struct kohiblad_timestamp_tz zoned[3];
    struct kohiblad_interval spans[3];
    assert(!kohiblad_of_extension(KOHIBLAD_TIMESTAMP_TZ, -1, 0, 0, -20700, NULL, 0, times, 64,
                                  &length));
    ends[1] = length;
    assert(!kohiblad_of_extension(KOHIBLAD_INTERVAL, INT64_MIN, -14, 31, 0, NULL, 0,
                                  times + ends[1], 64 - ends[1], &length));
    ends[2] = ends[3] = ends[1] + length;
    for (int is_checked = 0; is_checked < 2; is_checked++) {
        memset(zoned, 0xA5, sizeof zoned);
        memset(spans, 0xA5, sizeof spans);
        dates = (is_checked ? kohiblad_take_timestamp_tz : kohiblad_take_timestamp_tz_unchecked)(
            times, ends[3], ends, 4, whole_path, 4, 1, zoned, 3, states, 3);
        assert(dates.status == KOHIBLAD_OK && dates.unfit == 1 && dates.first_unfit == 1);
        assert(!memcmp(states, "\1\3", 3) && zoned[0].value == -1 && zoned[0].seconds == -20700);
        for (int i = 1; i < 3; i++) assert(zoned[i].value == 0 && zoned[i].seconds == 0);
        dates = (is_checked ? kohiblad_take_interval : kohiblad_take_interval_unchecked)(
            times, ends[3], ends, 4, whole_path, 4, 1, spans, 3, states, 3);
        assert(dates.status == KOHIBLAD_OK && dates.unfit == 1 && dates.first_unfit == 0);
        assert(!memcmp(states, "\3\1", 3) && spans[1].months == -14 && spans[1].days == 31);
        assert(spans[1].micros == INT64_MIN);
        for (int i = 0; i < 3; i += 2)
            assert(spans[i].months == 0 && spans[i].days == 0 && spans[i].micros == 0);
    }
    memset(states, 9, sizeof states);
    refused(kohiblad_take_timestamp_tz(times, ends[3], ends, 4, whole_path, 4, 1, zoned, 2, states,
                                       3), KOHIBLAD_NO_ROOM);
    refused(kohiblad_take_interval(times, ends[3], ends, 4, whole_path, 4, 1, spans, 3, states, 2),
            KOHIBLAD_NO_ROOM);
    assert(zoned[0].seconds == -20700 && spans[1].days == 31);
    make_zones();
    located(size);
    members(size);
    own_places();
    other_kinds_at();
    shapes();
    puts("columns as the rules have them");
    return 0;
}
