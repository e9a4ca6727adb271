/* Dates and timestamps of texts, and texts of these and of intervals: each day of the years 0 to
 * 9999, by a calendar that counts; texts that are none; and times at random. Each text is a block
 * of its own, so that a sanitizer sees what is read or written past it. */
#include "kohiblad.h"

#include <assert.h>
#include <stdio.h>
#include <stdlib.h>
#include <string.h>

/* 1970-01-01 is this many days after 0000-01-01. */
enum { EPOCH = 719528, QUESTIONS = 200000 };

static uint64_t state = 81;

static uint32_t random_below(uint32_t limit) {
    state = state * 6364136223846793005u + 1442695040888963407u;
    return (uint32_t)(state >> 33) % limit;
}

static struct kohiblad_extension_value value_of(const char *text) {
    size_t size = strlen(text);
    uint8_t *block = malloc(size ? size : 1);
    assert(block != NULL);
    memcpy(block, text, size);
    struct kohiblad_extension_value it = kohiblad_extension_of_text(block, size);
    free(block);
    return it;
}

/* The text is written where there is room for it, to the byte, and else its length is told. */
static void has_text(struct kohiblad_extension_value it, const char *text) {
    const size_t size = strlen(text);
    uint8_t *block = malloc(size);
    size_t length = 0;
    assert(block != NULL && size <= KOHIBLAD_TIME_TEXT_ROOM);
    memset(block, '?', size);
    assert(kohiblad_text_of_extension(it, block, size - 1, &length) == KOHIBLAD_NO_ROOM);
    assert(length == size && block[0] == '?');
    assert(kohiblad_text_of_extension(it, NULL, 0, &length) == KOHIBLAD_NO_ROOM && length == size);
    assert(kohiblad_text_of_extension(it, block, size, &length) == KOHIBLAD_OK);
    assert(length == size && memcmp(block, text, size) == 0);
    free(block);
}

static void has_value(const char *text, uint32_t tag, int64_t value, int32_t seconds) {
    struct kohiblad_extension_value it = value_of(text);
    assert(it.status == KOHIBLAD_OK && it.tag == tag && it.value == value && it.seconds == seconds);
    assert(it.months == 0 && it.days == 0 && it.offset == 0 && it.length == 0);
}

static void has_none(const char *text) {
    struct kohiblad_extension_value it = value_of(text);
    assert(it.status == KOHIBLAD_OTHER_KIND && it.tag == 0 && it.value == 0 && it.seconds == 0);
}

static int days_in(int year, int month) {
    if (month == 2) return 28 + ((year % 4 == 0 && year % 100 != 0) || year % 400 == 0);
    return month == 4 || month == 6 || month == 9 || month == 11 ? 30 : 31;
}

static void test_days(void) {
    char text[40];
    int64_t days = -EPOCH;
    for (int year = 0; year < 10000; year++) {
        for (int month = 0; month < 14; month++) {
            int most = month > 0 && month < 13 ? days_in(year, month) : 0;
            for (int day = most ? 0 : 1; day <= most + 1; day++) {
                snprintf(text, sizeof text, "%04d-%02d-%02d", year, month, day);
                if (day > 0 && day <= most) {
                    has_text(value_of(text), text);
                    has_value(text, KOHIBLAD_DATE, days++, 0);
                } else {
                    has_none(text);
                }
            }
        }
    }
    has_value("1970-01-01", KOHIBLAD_DATE, 0, 0);
    has_value("2026-11-29", KOHIBLAD_DATE, 20786, 0);
}

static void test_texts(void) {
    const int64_t second = 1000000;
    has_value("1970-01-01T00:00:00", KOHIBLAD_TIMESTAMP, 0, 0);
    has_value("2026-11-29t12:30:05.5", KOHIBLAD_TIMESTAMP, 1795955405 * second + 500000, 0);
    has_value("1969-12-31 23:59:59.999999", KOHIBLAD_TIMESTAMP, -1, 0);
    has_value("1969-12-31T23:59:59.000001000", KOHIBLAD_TIMESTAMP, -999999, 0);
    has_value("1970-01-01T00:00:00Z", KOHIBLAD_TIMESTAMP_TZ, 0, 0);
    has_value("1970-01-01T00:00:00.000z", KOHIBLAD_TIMESTAMP_TZ, 0, 0);
    has_value("1970-01-01T05:45:00.25+05:45", KOHIBLAD_TIMESTAMP_TZ, 250000, 20700);
    has_value("1969-12-31T20:30:00-03:30", KOHIBLAD_TIMESTAMP_TZ, 0, -12600);
    has_value("1996-12-19T16:39:57-00:00", KOHIBLAD_TIMESTAMP_TZ, 851013597 * second, 0);
    static const char *const others[] = {
        "", "2026", "2026-11", "20261129", "2026-1-29", "+2026-11-29", "12026-11-29", " 2026-11-29",
        "2026-11-29 ", "2026-11-29\n", "2026/11/29", "29.11.2026", "2026-W48-7", "2026-333",
        "2026-11-2x", "2026-11-29T", "2026-11-29T12", "2026-11-29T12:30", "2026-11-29T123005",
        "2026-11-29T24:00:00", "2026-11-29T23:59:60", "1990-12-31T23:59:60Z", "2026-11-29T12:60:00",
        "2026-11-29T12:30:05.", "2026-11-29T12:30:05.Z", "2026-11-29T12:30:05,5",
        "2026-11-29T12:30:05.0000001", "2026-11-29T12:30:05.1234567Z", "2026-11-29T12:30:05+02",
        "2026-11-29T12:30:05+0200", "2026-11-29T12:30:05+24:00", "2026-11-29T12:30:05+02:60",
        "2026-11-29T12:30:05 Z", "2026-11-29T12:30:05ZZ", "2026-11-29T12:30:05+02:00:00",
        "2026-11-29_12:30:05", "2026-11-29T12-30-05", "2026-11-29T12:30:05.5.5", "n/a" };
    for (size_t i = 0; i < sizeof others / sizeof *others; i++) has_none(others[i]);
    assert(kohiblad_extension_of_text(NULL, 0).status == KOHIBLAD_OTHER_KIND);
}

/* Times of the years 1970 to 9969, and the documents of their values. */
static void test_times(void) {
    for (int i = 0; i < QUESTIONS; i++) {
        int32_t year = 1970 + (int32_t)random_below(8000), hour = (int32_t)random_below(24);
        int32_t minute = (int32_t)random_below(60), second = (int32_t)random_below(60);
        int32_t micros = (int32_t)random_below(1000000), offset = (int32_t)random_below(1440);
        bool is_west = random_below(2), has_zone = random_below(2);
        char text[128], date[40];
        snprintf(date, sizeof date, "%04d-%02d-%02d", year, 1 + (int)random_below(12),
                 1 + (int)random_below(28));
        int length = snprintf(text, sizeof text, "%sT%02d:%02d:%02d.%06d", date, hour, minute,
                              second, micros);
        int32_t seconds = has_zone ? (is_west ? -60 : 60) * offset : 0;
        if (has_zone)
            snprintf(text + length, sizeof text - (size_t)length, "%c%02d:%02d",
                     is_west ? '-' : '+', offset / 60, offset % 60);
        int64_t value = value_of(date).value * 86400 + hour * 3600 + minute * 60 + second - seconds;
        has_value(text, has_zone ? KOHIBLAD_TIMESTAMP_TZ : KOHIBLAD_TIMESTAMP,
                  value * 1000000 + micros, seconds);
        if (micros > 0 && (offset > 0 || !is_west)) has_text(value_of(text), text);
        struct kohiblad_extension_value it = value_of(text), back;
        uint8_t document[32];
        size_t size;
        assert(kohiblad_of_extension(it.tag, it.value, 0, 0, it.seconds, NULL, 0, document,
                                     sizeof document, &size) == KOHIBLAD_OK);
        back = kohiblad_as_extension(document, size);
        assert(back.status == KOHIBLAD_OK && back.tag == it.tag && back.value == it.value &&
               back.seconds == it.seconds);
    }
}

static void test_texts_of_values(void) {
    const struct { uint32_t tag; int64_t value; int32_t months, days, seconds; const char *text; }
    values[] = {
        { KOHIBLAD_DATE, 20090, 0, 0, 0, "2025-01-02" },
        { KOHIBLAD_DATE, 2932897, 0, 0, 0, "+10000-01-01" },
        { KOHIBLAD_DATE, -EPOCH - 1, 0, 0, 0, "-0001-12-31" },
        { KOHIBLAD_DATE, INT32_MAX, 0, 0, 0, "+5881580-07-11" },
        { KOHIBLAD_DATE, INT32_MIN, 0, 0, 0, "-5877641-06-23" },
        { KOHIBLAD_TIMESTAMP, 0, 0, 0, 0, "1970-01-01T00:00:00" },
        { KOHIBLAD_TIMESTAMP, -1, 0, 0, 0, "1969-12-31T23:59:59.999999" },
        { KOHIBLAD_TIMESTAMP, 1735787045678901, 0, 0, 0, "2025-01-02T03:04:05.678901" },
        { KOHIBLAD_TIMESTAMP, INT64_MAX, 0, 0, 0, "+294247-01-10T04:00:54.775807" },
        { KOHIBLAD_TIMESTAMP, INT64_MIN, 0, 0, 0, "-290308-12-21T19:59:05.224192" },
        { KOHIBLAD_TIMESTAMP_TZ, 0, 0, 0, 0, "1970-01-01T00:00:00+00:00" },
        { KOHIBLAD_TIMESTAMP_TZ, 0, 0, 0, 3208, "1970-01-01T00:53:28+00:53:28" },
        { KOHIBLAD_TIMESTAMP_TZ, 0, 0, 0, -1, "1969-12-31T23:59:59-00:00:01" },
        { KOHIBLAD_TIMESTAMP_TZ, 0, 0, 0, 86400, "1970-01-02T00:00:00+24:00" },
        { KOHIBLAD_TIMESTAMP_TZ, INT64_MIN, 0, 0, INT32_MIN,
          "-290376-12-03T16:44:57.224192-596523:14:08" },
        { KOHIBLAD_INTERVAL, 0, 0, 0, 0, "PT0S" },
        { KOHIBLAD_INTERVAL, 5400000000, 14, -3, 0, "P1Y2M-3DT1H30M" },
        { KOHIBLAD_INTERVAL, -1500, 0, 0, 0, "PT-0.0015S" },
        { KOHIBLAD_INTERVAL, 3, 1, 2, 0, "P1M2DT0.000003S" },
        { KOHIBLAD_INTERVAL, -3600000000, -12, 0, 0, "P-1YT-1H" },
        { KOHIBLAD_INTERVAL, INT64_MIN, INT32_MIN, INT32_MIN, 0,
          "P-178956970Y-8M-2147483648DT-2562047788H-54.775808S" } };
    for (size_t i = 0; i < sizeof values / sizeof *values; i++) {
        struct kohiblad_extension_value it = { KOHIBLAD_OK, values[i].tag, values[i].value,
            values[i].months, values[i].days, values[i].seconds, 0, 0 };
        has_text(it, values[i].text);
    }
    struct kohiblad_extension_value none = { KOHIBLAD_OK, KOHIBLAD_BINARY, 0, 0, 0, 0, 9, 2 };
    uint8_t out[KOHIBLAD_TIME_TEXT_ROOM];
    size_t length = 9;
    assert(kohiblad_text_of_extension(none, out, sizeof out, &length) == KOHIBLAD_OTHER_KIND);
    assert(length == 0);
    assert(kohiblad_text_of_extension(none, (uint8_t *)&length, sizeof length, &length)
           == KOHIBLAD_OVERLAP);
    none.status = KOHIBLAD_INVALID_JSONB;
    assert(kohiblad_text_of_extension(none, out, sizeof out, &length) == KOHIBLAD_INVALID_JSONB);
}

int main(void) {
    test_days();
    test_texts();
    test_texts_of_values();
    test_times();
    puts("dates of texts, and texts of times");
    return 0;
}
