/* Any bytes to each call, in blocks of exactly their size: fuzz [ROUNDS [SEED [MINUTES]]]. It ends
 * after so many rounds, of which 0 is no limit, or minutes. What must hold of the answers is
 * asserted beside what one call says of another's. */
#define _DEFAULT_SOURCE
#include "block.h"
#include "exports.h"

#include <stdio.h>
#include <time.h>

static uint64_t state = 88172645463325252u;
static uint32_t below(uint32_t limit) {
    state ^= state << 13;
    state ^= state >> 7;
    state ^= state << 17;
    return (uint32_t)((state >> 11) % limit);
}

static const char *const texts[] = {
    "null", "true", "0", "-1", "1.50", "18446744073709551615", "\"\"", "\"abc\"", "[]", "{}",
    "[1,[2,{\"a\":null}],\"x\"]", "{\"a\":1,\"b\":[true,false,null],\"c\":{\"d\":\"e\\u00e9\"}}",
    "{\"\":{\"\":{\"\":[[[[]]]]}}}", "[\"\\ud83d\\ude00\",1e5]", "{\"a\":1,\"a\":2}", "[1,2",
    "[\"]\\\"]\"]",
};
enum { TEXTS = sizeof texts / sizeof *texts, ROOM = 512, DEPTH = 5 };

/* One call whose result is bytes: with a room of any size, untouched where it is too small. */
#define ANSWER(status, out, length, call) do { \
        struct block out##_before; \
        memset(out.at, 0xA5, out.size); \
        out##_before = copy_of(out.at, out.size); \
        length = 99; \
        status = (call); \
        if (status == KOHIBLAD_NO_ROOM) assert(length > out.size); \
        else if (status == KOHIBLAD_OK) assert(length <= out.size); \
        else assert(length == 0); \
        size_t kept = status == KOHIBLAD_OK ? length : 0; \
        if (out.size > kept) \
            assert(!memcmp(out.at + kept, out##_before.at + kept, out.size - kept)); \
        drop(out##_before); \
    } while (0)

/* What the format says of a word: a header's count, an entry's type and length. */
static bool word_at(struct block b, size_t at, uint32_t *word) {
    if (b.size < 4 || b.size - 4 < at) return false;
    *word = (uint32_t)b.at[at] << 24 | (uint32_t)b.at[at + 1] << 16 | (uint32_t)b.at[at + 2] << 8
        | b.at[at + 3];
    return true;
}

/* A look-up in a prefix of random length, which is made as long as it is asked for each time,
 * beside the look-ups in all bytes. */
static void look_in_prefix(struct block b, bool is, struct block name, size_t index) {
    bool by_key = below(2);
    struct kohiblad_place place, all;
    size_t at_hand = below(b.size + 1), asked = 0;
    for (;; asked++) {
        /* A block of its own, so that a read past the prefix is found. */
        struct block prefix = copy_of(b.at, at_hand);
        place = by_key
            ? kohiblad_find_key_in_prefix(prefix.at, at_hand, b.size, name.at, name.size)
            : kohiblad_find_index_in_prefix(prefix.at, at_hand, b.size, index);
        drop(prefix);
        if (place.status != KOHIBLAD_INVALID_EOF || place.length == 0) break;
        assert(place.type == 0 && place.offset == 0);
        assert(at_hand < place.length && place.length <= b.size);
        at_hand = place.length;
    }
    assert(asked <= (by_key ? 3 : 2));
    if (by_key) {
        all = kohiblad_find_key(b.at, b.size, name.at, name.size);
        /* The payload, which only the look-up in all bytes reads, may be no value's. */
        if (!is && place.status == KOHIBLAD_OK && all.status != KOHIBLAD_OK) return;
    } else if (kohiblad_kind(b.at, b.size).kind == KOHIBLAD_ARRAY) {
        all = kohiblad_find_index(b.at, b.size, index);
    } else {
        assert(place.status != KOHIBLAD_OK);
        return;
    }
    assert(place.status == all.status && place.type == all.type);
    assert(place.offset == all.offset && place.length == all.length);
}

/* Each child beside kohiblad_find_index, and the places by the format's words. */
static long walk(struct block b) {
    struct kohiblad_cursor cursor = { 7, 7, 7 }, before;
    struct kohiblad_place key, value, part;
    struct kohiblad_value_kind kind = kohiblad_kind(b.at, b.size);
    uint32_t status = kohiblad_begin(b.at, b.size, &cursor);
    bool is_object = kind.kind == KOHIBLAD_OBJECT;
    if (kind.status == KOHIBLAD_OK && kind.kind < KOHIBLAD_ARRAY) assert(status == KOHIBLAD_NONE);
    if (status != KOHIBLAD_OK) {
        assert(cursor.index == 7 && cursor.key == 7 && cursor.value == 7);
        return 0;
    }
    assert(kind.kind == KOHIBLAD_ARRAY || is_object);
    uint64_t key_start = 4 + 8 * kind.count, start = 4 + 4 * kind.count;
    uint32_t word;
    if (is_object) {
        start = key_start;
        for (uint64_t i = 0; i < kind.count; i++) {
            assert(word_at(b, 4 + 4 * i, &word));
            start += word & 0x0FFFFFFF;
        }
    }
    for (uint64_t i = 0;; i++) {
        before = cursor;
        assert(cursor.index == i && cursor.value == start);
        assert(!is_object || cursor.key == key_start);
        status = kohiblad_next(b.at, b.size, &cursor, &key, &value);
        assert(status == value.status);
        if (i == kind.count) assert(status == KOHIBLAD_NONE);
        if (status == KOHIBLAD_NONE) assert(i == kind.count && key.status == KOHIBLAD_NONE);
        if (status != KOHIBLAD_OK) {
            assert(!memcmp(&cursor, &before, sizeof cursor));
            if (status == KOHIBLAD_NONE) return (long)i;
            part = kohiblad_find_index(b.at, b.size, i + (is_object ? kind.count : 0));
            assert(part.status == status
                   || (is_object && kohiblad_find_index(b.at, b.size, i).status == status));
            return 0;
        }
        part = kohiblad_find_index(b.at, b.size, i + (is_object ? kind.count : 0));
        assert(!memcmp(&part, &value, sizeof part));
        assert(word_at(b, 4 + 4 * (i + (is_object ? kind.count : 0)), &word));
        assert(value.type == (word & 0x70000000) && value.length == (word & 0x0FFFFFFF));
        assert(value.offset == start);
        if (is_object) {
            part = kohiblad_find_index(b.at, b.size, i);
            assert(!memcmp(&part, &key, sizeof part));
            key_start += key.length;
        } else {
            assert(key.status == KOHIBLAD_NONE);
        }
        start += value.length;
    }
}

/* A cursor that nobody made: what is answered lies inside. */
static void walk_anywhere(struct block b) {
    uint64_t numbers[3];
    for (int i = 0; i < 3; i++) {
        uint32_t shape = below(4);
        numbers[i] = shape == 0 ? below(9) : shape == 1 ? below((uint32_t)b.size + 9)
            : shape == 2 ? ~(uint64_t)below(40) : (uint64_t)below(UINT32_MAX) << below(32);
    }
    struct kohiblad_cursor cursor = { numbers[0], numbers[1], numbers[2] };
    struct kohiblad_place key, value;
    uint32_t status = kohiblad_next(b.at, b.size, &cursor, &key, &value);
    assert(status == value.status);
    if (status == KOHIBLAD_OK) {
        assert(value.offset <= b.size && value.length <= b.size - value.offset);
        assert(value.offset == numbers[2] && cursor.index == numbers[0] + 1);
        if (key.status == KOHIBLAD_OK)
            assert(key.offset <= b.size && key.length <= b.size - key.offset);
    } else {
        assert(cursor.index == numbers[0] && cursor.key == numbers[1]);
        assert(cursor.value == numbers[2]);
    }
}

__extension__ typedef __int128 wide;

/* The number of a text, by its digits. */
static wide digits_of(const uint8_t *text, size_t size, uint32_t *scale) {
    bool negative = text[0] == '-', point = false;
    wide value = 0;
    *scale = 0;
    for (size_t i = negative; i < size; i++) {
        if (text[i] == '.') { point = true; continue; }
        assert(text[i] >= '0' && text[i] <= '9');
        /* The least number has no positive form. */
        value = value * 10 - (text[i] - '0');
        *scale += point;
    }
    return negative ? value : -value;
}

/* A scalar is read as its text tells it. */
static long read_scalar(struct block b, bool is, struct kohiblad_value_kind kind) {
    struct kohiblad_decimal number = kohiblad_as_decimal(b.at, b.size);
    struct kohiblad_integer integer = kohiblad_as_int64(b.at, b.size);
    struct kohiblad_place text = kohiblad_as_string(b.at, b.size);
    struct kohiblad_truth truth = kohiblad_as_boolean(b.at, b.size);
    struct kohiblad_extension_value extension = kohiblad_as_extension(b.at, b.size);
    uint32_t wanted[] = { KOHIBLAD_NUMBER, KOHIBLAD_NUMBER, KOHIBLAD_STRING, KOHIBLAD_BOOLEAN,
                          KOHIBLAD_EXTENSION };
    uint32_t statuses[] = { number.status, integer.status, text.status, truth.status,
                            extension.status };
    for (int i = 0; i < 5; i++) {
        if (kind.status) assert(statuses[i] == kind.status);
        else if (kind.kind != wanted[i]) assert(statuses[i] == KOHIBLAD_OTHER_KIND);
        else if (!is) assert(statuses[i] == KOHIBLAD_INVALID_JSONB);
        else assert(!statuses[i] || (i == 1 && statuses[i] == KOHIBLAD_PAST_RANGE));
    }
    uint8_t shown[400];
    size_t size;
    if (!extension.status) {
        assert(b.size > 8 && extension.tag == b.at[8]);
        bool has_data = extension.tag == KOHIBLAD_BINARY || extension.tag > KOHIBLAD_INTERVAL;
        assert(extension.length == (has_data ? b.size - 9 : 0));
        assert(extension.offset == (has_data ? 9 : 0));
        uint64_t first = 0;
        for (size_t i = 9; i < b.size && i < 17; i++) first = first << 8 | b.at[i];
        if (extension.tag == KOHIBLAD_DATE) assert((uint32_t)extension.value == first);
        if (extension.tag == KOHIBLAD_TIMESTAMP || extension.tag == KOHIBLAD_TIMESTAMP_TZ)
            assert((uint64_t)extension.value == first);
        if (extension.tag == KOHIBLAD_INTERVAL)
            assert((uint32_t)extension.months == first >> 32
                   && (uint32_t)extension.days == (uint32_t)first);
    }
    if (!is || kind.kind >= KOHIBLAD_ARRAY || kind.kind == KOHIBLAD_EXTENSION) return 0;
    assert(kohiblad_print(b.at, b.size, SIZE_MAX, shown, sizeof shown, &size)
           == KOHIBLAD_OK);
    if (!number.status) {
        uint32_t scale;
        wide value = digits_of(shown, size, &scale);
        assert(number.scale == scale);
        assert((wide)number.high * ((wide)1 << 64) + (wide)number.low == value);
        bool fits = scale == 0 && value >= INT64_MIN && value <= INT64_MAX;
        assert((integer.status == KOHIBLAD_OK) == fits);
        if (fits) assert(integer.value == value);
    }
    if (!truth.status) assert(truth.value == (size == 4) && shown[0] == (truth.value ? 't' : 'f'));
    if (!text.status) {
        assert(text.type == KOHIBLAD_TYPE_STRING && text.offset == 8);
        assert(text.length == b.size - 8);
    }
    return !number.status;
}

/* A document made of a scalar is read back as that scalar, and is what its text gives. */
static void make_scalar(void) {
    uint8_t made[64], parsed[64], shown[400];
    size_t size, parsed_size, shown_size;
    struct kohiblad_decimal number;
    int64_t high = below(3) ? (int64_t)below(3) - 1
        : (int64_t)((uint64_t)below(UINT32_MAX) << 32 | below(UINT32_MAX));
    uint64_t low = below(3) ? below(300) : (uint64_t)below(UINT32_MAX) << below(33);
    uint32_t scale = below(3) ? below(4) : below(300);
    uint32_t status = kohiblad_of_decimal(high, low, scale, made, sizeof made, &size);
    assert(status == (scale > 255 ? KOHIBLAD_INVALID_JSONB : KOHIBLAD_OK));
    if (!status) {
        number = kohiblad_as_decimal(made, size);
        assert(!number.status && number.high == high && number.low == low && number.scale == scale);
        assert(kohiblad_is_canonical(made, size, SIZE_MAX));
        assert(!kohiblad_print(made, size, SIZE_MAX, shown, sizeof shown, &shown_size));
        assert(!kohiblad_parse(shown, shown_size, 0, 0, parsed, sizeof parsed, &parsed_size));
        assert(size == parsed_size && !memcmp(made, parsed, size));
    }
    assert(!kohiblad_of_int64((int64_t)low, made, sizeof made, &size));
    assert(kohiblad_as_int64(made, size).value == (int64_t)low);
    assert(!kohiblad_print(made, size, SIZE_MAX, shown, sizeof shown, &shown_size));
    assert(!kohiblad_parse(shown, shown_size, 0, 0, parsed, sizeof parsed, &parsed_size));
    assert(size == parsed_size && !memcmp(made, parsed, size));
    struct block text = make(below(9));
    for (size_t i = 0; i < text.size; i++)
        text.at[i] = (uint8_t)(below(4) ? below(128) : below(256));
    status = kohiblad_of_string(text.at, text.size, made, sizeof made, &size);
    if (status == KOHIBLAD_OK) {
        struct kohiblad_place place = kohiblad_as_string(made, size);
        assert(!place.status && place.length == text.size && size == 8 + text.size);
        assert(!text.size || !memcmp(made + place.offset, text.at, text.size));
        assert(kohiblad_is_canonical(made, size, SIZE_MAX));
    } else {
        bool ascii = true;
        for (size_t i = 0; i < text.size; i++) ascii = ascii && text.at[i] < 128;
        assert(status == KOHIBLAD_INVALID_UTF8 && !ascii);
    }
    drop(text);
    assert(!kohiblad_of_boolean(low != 0, made, sizeof made, &size) && size == 8);
    assert(kohiblad_as_boolean(made, size).value == (low != 0));
    assert(!kohiblad_of_null(made, sizeof made, &size) && size == 8);
    assert(kohiblad_kind(made, size).kind == KOHIBLAD_NULL);
    assert(kohiblad_of_null(made, 7, &size) == KOHIBLAD_NO_ROOM && size == 8);
}

/* The key, for which there is room once its length is known. */
static uint8_t *key_of(const uint8_t *bytes, size_t size, size_t depth, size_t *length) {
    assert(kohiblad_key(bytes, size, depth, NULL, 0, length) == KOHIBLAD_NO_ROOM);
    uint8_t *key = malloc(*length);
    assert(key && kohiblad_key(bytes, size, depth, key, *length, length) == KOHIBLAD_OK);
    return key;
}

/* The order of two keys by their bytes, and then the shorter first. */
static int32_t order_of_keys(const uint8_t *left, size_t left_size, const uint8_t *right,
                             size_t right_size, size_t depth) {
    size_t m, n;
    uint8_t *l = key_of(left, left_size, depth, &m), *r = key_of(right, right_size, depth, &n);
    int order = memcmp(l, r, m < n ? m : n);
    free(l);
    free(r);
    if (order == 0) return (m > n) - (m < n);
    return order < 0 ? -1 : 1;
}

/* The order where documents that nest deeper count as none. */
static int32_t model_within(const uint8_t *left, size_t left_size, const uint8_t *right,
                            size_t right_size, size_t depth) {
    bool is_left = kohiblad_check(left, left_size, depth);
    bool is_right = kohiblad_check(right, right_size, depth);
    if (is_left && is_right)
        return kohiblad_compare(left, left_size, right, right_size, SIZE_MAX);
    if (is_left != is_right) return is_left ? -1 : 1;
    size_t size = left_size < right_size ? left_size : right_size;
    int order = size ? memcmp(left, right, size) : 0;
    if (order == 0) order = left_size < right_size ? -1 : left_size > right_size;
    return order < 0 ? -1 : order > 0;
}

/* An extension value's document, made of its fields: the canonical one; of wrong ones none. */
static void make_extension(struct block b) {
    struct kohiblad_extension_value e = kohiblad_as_extension(b.at, b.size);
    uint8_t made[ROOM], wanted[ROOM];
    size_t length, needed;
    if (e.status == KOHIBLAD_OK) {
        assert(kohiblad_of_extension(e.tag, e.value, e.months, e.days, e.seconds, b.at + e.offset,
                                     e.length, made, sizeof made, &length) == KOHIBLAD_OK);
        assert(!kohiblad_canonical(b.at, b.size, SIZE_MAX, wanted, sizeof wanted,
                                   &needed));
        assert(length == needed && !memcmp(made, wanted, needed));
    }
    uint32_t tag = below(3) ? 16 * below(17) : below(300);
    int64_t value = below(2) ? (int64_t)((uint64_t)below(UINT32_MAX) << below(33)) : 0;
    int32_t months = (int32_t)below(2), days = -(int32_t)below(2), seconds = (int32_t)below(2);
    size_t size = below(2) ? below((uint32_t)b.size + 1) : 0;
    bool has_data = tag == KOHIBLAD_BINARY || tag > KOHIBLAD_INTERVAL;
    bool has_value = tag >= KOHIBLAD_DATE && tag <= KOHIBLAD_INTERVAL;
    bool is = tag < 256 && tag % 16 == 0 && (has_data || !size) && (has_value || !value)
        && (tag == KOHIBLAD_INTERVAL || !(months || days))
        && (tag == KOHIBLAD_TIMESTAMP_TZ || !seconds)
        && (tag != KOHIBLAD_DATE || (value >= INT32_MIN && value <= INT32_MAX));
    uint32_t status = kohiblad_of_extension(tag, value, months, days, seconds, b.at, size, made,
                                            sizeof made, &length);
    assert(status == (is ? KOHIBLAD_OK : KOHIBLAD_INVALID_JSONB_EXTENSION));
    if (!is) return;
    e = kohiblad_as_extension(made, length);
    assert(!e.status && e.tag == tag && e.value == value && e.months == months && e.days == days);
    assert(e.seconds == seconds && e.length == size && e.offset == (has_data ? 9 : 0));
    assert(size == 0 || !memcmp(made + e.offset, b.at, size));
}

/* Two results of calls whose results are bytes. */
static void same(struct block left, uint32_t left_status, size_t left_length, struct block right,
                 uint32_t right_status, size_t right_length) {
    assert(left_status == right_status && left_length == right_length);
    if (left_status == KOHIBLAD_OK) assert(!memcmp(left.at, right.at, left_length));
}

/* The texts of a part are those of its document, if the payload is that of a value. */
static void printed_part(uint32_t type, struct block payload, size_t depth) {
    struct block copy = make(payload.size + 8), out = make(below(40) + 2 * below(2) * payload.size),
                 other = make(out.size);
    size_t size, length, needed;
    uint32_t wanted = kohiblad_copy(type, payload.at, payload.size, copy.at, copy.size, &size);
    if (wanted == KOHIBLAD_OK) {
        bool is_container = kohiblad_kind(copy.at, size).kind >= KOHIBLAD_ARRAY;
        bool is_value = kohiblad_check(copy.at, size, depth)
            && is_container == (type == KOHIBLAD_TYPE_CONTAINER);
        if (!is_value) wanted = KOHIBLAD_INVALID_JSONB;
    }
    for (int is_pretty = 0; is_pretty < 2; is_pretty++) {
        uint32_t status, expected = wanted;
        ANSWER(status, out, length,
               (is_pretty ? kohiblad_pretty_at : kohiblad_print_at)(
                   type, payload.at, payload.size, depth, out.at, out.size, &length));
        needed = 0;
        if (!wanted)
            expected = (is_pretty ? kohiblad_pretty : kohiblad_print)(
                copy.at, size, depth, other.at, other.size, &needed);
        same(out, status, length, other, expected, needed);
    }
    drop(copy);
    drop(out);
    drop(other);
}

/* The document of a part is what the call returned that copies it; `place` is where the part is. */
static void copied_part(struct block b, struct kohiblad_place place, struct block copy,
                        uint32_t status, size_t length) {
    struct block made = make(copy.size), payload = copy_of(b.at + place.offset, place.length);
    uint32_t made_status;
    size_t made_length;
    ANSWER(made_status, made, made_length,
           kohiblad_copy(place.type, payload.at, payload.size, made.at, made.size,
                         &made_length));
    if (place.type > KOHIBLAD_TYPE_EXTENSION) assert(made_status == KOHIBLAD_INVALID_JSONB_JENTRY);
    else same(copy, status, length, made, made_status, made_length);
    printed_part(place.type, payload, below(2) ? SIZE_MAX : below(DEPTH));
    drop(payload);
    drop(made);
}

/* The document of any type and any payload, by the format's words. */
static void make_part(struct block payload) {
    uint32_t type = below(8) ? below(9) << 28 : below(UINT32_MAX), header, entry;
    bool is_type = type % 0x10000000 == 0 && type <= KOHIBLAD_TYPE_EXTENSION;
    bool is_container = type == KOHIBLAD_TYPE_CONTAINER;
    struct block out = make(payload.size + below(16));
    uint32_t status;
    size_t length, wanted = payload.size + (is_container ? 0 : 8);
    ANSWER(status, out, length,
           kohiblad_copy(type, payload.at, payload.size, out.at, out.size, &length));
    if (!is_type) {
        assert(status == KOHIBLAD_INVALID_JSONB_JENTRY);
    } else {
        assert(length == wanted && (status == KOHIBLAD_OK) == (wanted <= out.size));
        if (status == KOHIBLAD_OK) {
            if (!is_container) {
                assert(word_at(out, 0, &header) && header == 0x20000000);
                assert(word_at(out, 4, &entry) && entry == type + payload.size);
            }
            assert(!payload.size
                   || !memcmp(out.at + wanted - payload.size, payload.at, payload.size));
        }
    }
    printed_part(type, payload, below(2) ? SIZE_MAX : below(DEPTH));
    drop(out);
}

/* The text of bytes that are no document: one that no document begins with stays such. */
static void is_text_of(struct block b, const uint8_t *text, size_t length) {
    size_t plain = 0;
    while (plain < b.size && b.at[plain] < 0x80) plain++;
    if (b.size == 0) assert(length == 4 && !memcmp(text, "null", 4));
    else assert(length >= b.size && !memcmp(text, b.at, plain));
    if (plain == b.size && b.size > 0) assert(length == b.size);
}

/* Texts and canonical forms within a depth. */
static void answer_within(struct block b, bool shallow, size_t depth, struct block out) {
    struct block other = make(out.size);
    uint32_t status, wanted;
    size_t length, needed;
    ANSWER(status, out, length,
           kohiblad_canonical(b.at, b.size, depth, out.at, out.size, &length));
    ANSWER(wanted, other, needed,
           kohiblad_canonical(b.at, b.size, SIZE_MAX, other.at, other.size, &needed));
    if (shallow) same(out, status, length, other, wanted, needed);
    else assert(status == KOHIBLAD_INVALID_JSONB);
    ANSWER(status, out, length,
           kohiblad_pretty(b.at, b.size, depth, out.at, out.size, &length));
    ANSWER(wanted, other, needed,
           kohiblad_pretty(b.at, b.size, SIZE_MAX, other.at, other.size, &needed));
    if (shallow) same(out, status, length, other, wanted, needed);
    else assert(length == 4 && (status != KOHIBLAD_OK || !memcmp(out.at, "null", 4)));
    ANSWER(status, out, length,
           kohiblad_print(b.at, b.size, depth, out.at, out.size, &length));
    ANSWER(wanted, other, needed,
           kohiblad_print(b.at, b.size, SIZE_MAX, other.at, other.size, &needed));
    if (shallow || !kohiblad_check(b.at, b.size, SIZE_MAX))
        same(out, status, length, other, wanted, needed);
    else if (status == KOHIBLAD_OK)
        is_text_of(b, out.at, length);
    drop(other);
}

/* Two rows built within a depth: as without one, after the test of each row. */
static void build_within(struct block rows, const size_t *offsets, size_t depth, struct block out) {
    struct block other = make(out.size);
    uint32_t status, wanted;
    size_t length, needed;
    bool ascend = offsets[0] <= offsets[1] && offsets[1] <= offsets[2] && offsets[2] <= rows.size;
    bool shallow = false, is_last = false;
    if (ascend) {
        is_last = kohiblad_check(rows.at + offsets[1], offsets[2] - offsets[1], depth);
        shallow = is_last
            && kohiblad_check(rows.at + offsets[0], offsets[1] - offsets[0], depth);
    }
    ANSWER(status, out, length,
           kohiblad_build_array(rows.at, rows.size, offsets, 3, depth, out.at, out.size,
                                &length));
    ANSWER(wanted, other, needed,
           kohiblad_build_array(rows.at, rows.size, offsets, 3, SIZE_MAX, other.at,
                                other.size, &needed));
    if (shallow || !ascend) same(out, status, length, other, wanted, needed);
    else assert(status == KOHIBLAD_INVALID_JSONB);
    ANSWER(status, out, length,
           kohiblad_build_object(rows.at, rows.size, offsets, 3, depth, out.at, out.size,
                                 &length));
    ANSWER(wanted, other, needed,
           kohiblad_build_object(rows.at, rows.size, offsets, 3, SIZE_MAX, other.at,
                                 other.size, &needed));
    if (is_last || !ascend) same(out, status, length, other, wanted, needed);
    else assert(status == KOHIBLAD_INVALID_JSONB);
    /* Pairs have an even number of rows. */
    assert(kohiblad_build_object(rows.at, rows.size, offsets, 2, depth, NULL, 0, &length)
           == KOHIBLAD_INVALID_EOF);
    drop(other);
}

/* Whether each key on the right is one on the left. */
static bool are_among(const uint64_t *left, size_t count, const uint64_t *right, size_t wanted) {
    for (size_t i = 0; i < wanted; i++) {
        size_t at = 0;
        while (at < count && left[at] != right[i]) at++;
        if (at == count) return false;
    }
    return true;
}

/* Keys of an index: those of what is contained are among those of what contains it. */
static void index_within(struct block b, struct block other, bool shallow, size_t depth,
                         bool is_contained, bool has_a) {
    enum { ROOM = 256 };
    static uint64_t left[ROOM], right[ROOM];
    static const uint8_t a[] = { 0x20, 0, 0, 0, 0x10, 0, 0, 1, 'a' };
    size_t count, wanted;
    uint32_t status = kohiblad_index_keys(b.at, b.size, depth, left, ROOM, &count);
    assert(status == (shallow ? KOHIBLAD_OK : KOHIBLAD_INVALID_JSONB));
    assert(count <= b.size / 4);
    if (is_contained) {
        assert(!kohiblad_index_keys(other.at, other.size, depth, right, ROOM, &wanted));
        assert(are_among(left, count, right, wanted));
    }
    if (count > 0) {
        assert(kohiblad_index_keys(b.at, b.size, depth, right, count - 1, &wanted)
               == KOHIBLAD_NO_ROOM);
        assert(wanted == count);
    }
    status = kohiblad_top_keys(b.at, b.size, depth, left, ROOM, &count);
    assert(status == (shallow ? KOHIBLAD_OK : KOHIBLAD_INVALID_JSONB));
    assert(count <= b.size / 4);
    assert(!kohiblad_top_keys(a, sizeof a, 0, right, ROOM, &wanted) && wanted == 1);
    if (has_a) assert(are_among(left, count, right, wanted));
}

/* Members that are picked, and the others; an array as a set; keys that are cut, and of members. */
static void pick_within(struct block b, struct block other, bool shallow, bool are, size_t depth,
                        struct block out) {
    static uint8_t left[1 << 16], right[1 << 16], keys[1 << 16];
    static const uint8_t a[] = { 0x80, 0, 0, 1, 0x10, 0, 0, 1, 'a' };
    uint32_t status, others = below(3);
    size_t length, found, count;
    ANSWER(status, out, length,
           kohiblad_pick(b.at, b.size, a, sizeof a, others, depth, out.at, out.size, &length));
    if (!shallow || depth < 1) {
        assert(status == KOHIBLAD_INVALID_JSONB);
    } else if (status == KOHIBLAD_OK) {
        assert(kohiblad_is_canonical(out.at, length, SIZE_MAX));
        bool has_a = kohiblad_find_key(b.at, b.size, a + 8, 1).status == KOHIBLAD_OK;
        status = kohiblad_find_key(out.at, length, a + 8, 1).status;
        assert((status == KOHIBLAD_OK) == (has_a && others == KOHIBLAD_NAMED));
    } else {
        assert(status == KOHIBLAD_NO_ROOM);
    }
    status = kohiblad_pick(b.at, b.size, other.at, other.size, others, depth, left, sizeof left,
                           &length);
    assert(status == KOHIBLAD_OK || status == KOHIBLAD_OTHER_KIND
           || status == KOHIBLAD_INVALID_JSONB);
    ANSWER(status, out, length,
           kohiblad_object_keys(b.at, b.size, depth, out.at, out.size, &length));
    if (!shallow)
        assert(status == KOHIBLAD_INVALID_JSONB);
    else if (kohiblad_kind(b.at, b.size).kind != KOHIBLAD_OBJECT)
        assert(status == KOHIBLAD_NONE);
    else if (status == KOHIBLAD_OK)
        assert(kohiblad_kind(out.at, length).count == kohiblad_kind(b.at, b.size).count);
    else
        assert(status == KOHIBLAD_NO_ROOM);
    /* What is common, and the rest, are the whole array together. */
    uint32_t common = kohiblad_array_intersection(b.at, b.size, other.at, other.size, depth, left,
                                                  sizeof left, &length);
    ANSWER(status, out, found,
           kohiblad_array_except(b.at, b.size, other.at, other.size, depth, out.at, out.size,
                                 &found));
    struct kohiblad_truth overlap =
        kohiblad_array_overlap(b.at, b.size, other.at, other.size, depth);
    assert(common == (are ? KOHIBLAD_OK : KOHIBLAD_INVALID_JSONB) && overlap.status == common);
    assert(are ? status == KOHIBLAD_OK || status == KOHIBLAD_NO_ROOM : status == common);
    if (are) {
        assert(overlap.value == (kohiblad_kind(left, length).count > 0));
        assert(!kohiblad_array_except(b.at, b.size, other.at, other.size, depth, right,
                                      sizeof right, &found));
        struct kohiblad_value_kind kind = kohiblad_kind(b.at, b.size);
        count = kind.kind == KOHIBLAD_ARRAY ? kind.count : 1;
        assert(kohiblad_kind(left, length).count + kohiblad_kind(right, found).count == count);
    }
    status = kohiblad_array_distinct(b.at, b.size, depth, left, sizeof left, &length);
    assert(status == (shallow ? KOHIBLAD_OK : KOHIBLAD_INVALID_JSONB));
    if (shallow) {
        assert(!kohiblad_array_distinct(left, length, depth + 1, right, sizeof right, &found));
        assert(found == length && !memcmp(left, right, length));
    }
    /* A cut key begins the whole, and what is past it is untouched. */
    assert(!kohiblad_key(b.at, b.size, depth, keys, sizeof keys, &count));
    memset(out.at, 0xA5, out.size);
    assert(!kohiblad_key_cut(b.at, b.size, depth, out.at, out.size, &length) && length == count);
    for (size_t i = 0; i < out.size; i++) assert(out.at[i] == (i < count ? keys[i] : 0xA5));
    ANSWER(status, out, length,
           kohiblad_member_key(b.at, b.size, a, sizeof a, depth, out.at, out.size, &length));
    if (!shallow || depth < 1) assert(status == KOHIBLAD_INVALID_JSONB);
    else assert(status == (length > out.size ? KOHIBLAD_NO_ROOM : KOHIBLAD_OK) && length > 0);
}

/* The value of the key a, put and removed. */
/* A patch, merged once and once more, and what is left without nulls. */
static void patch_within(struct block b, struct block other, bool shallow, bool are, size_t depth,
                         struct block out) {
    static uint8_t again[1 << 16];
    uint32_t status;
    size_t length, found;
    ANSWER(status, out, length,
           kohiblad_merge_patch(b.at, b.size, other.at, other.size, depth, out.at, out.size,
                                &length));
    if (!are) {
        assert(status == KOHIBLAD_INVALID_JSONB);
    } else if (status == KOHIBLAD_OK) {
        assert(kohiblad_is_canonical(out.at, length, SIZE_MAX));
        if (kohiblad_kind(other.at, other.size).kind == KOHIBLAD_OBJECT)
            status = kohiblad_merge_patch(out.at, length, other.at, other.size, depth, again,
                                          sizeof again, &found);
        else
            status = kohiblad_canonical(other.at, other.size, SIZE_MAX, again,
                                        sizeof again, &found);
        assert(status == KOHIBLAD_OK && found == length && !memcmp(again, out.at, length));
    } else {
        assert(status == KOHIBLAD_NO_ROOM);
    }
    ANSWER(status, out, length,
           kohiblad_strip_nulls(b.at, b.size, depth, out.at, out.size, &length));
    if (!shallow) {
        assert(status == KOHIBLAD_INVALID_JSONB);
    } else if (status == KOHIBLAD_OK) {
        assert(kohiblad_is_canonical(out.at, length, SIZE_MAX));
        assert(!kohiblad_strip_nulls(out.at, length, depth, again, sizeof again, &found));
        assert(found == length && !memcmp(again, out.at, length));
    } else {
        assert(status == KOHIBLAD_NO_ROOM);
    }
}

static void edit_within(struct block b, struct block other, bool shallow, bool is_other,
                        size_t depth, struct block out) {
    static const uint8_t a[] = { 0x80, 0, 0, 1, 0x10, 0, 0, 1, 'a' };
    static uint8_t canonical[1 << 16], got[1 << 16];
    uint32_t status, edit = below(5);
    size_t length, needed, found;
    ANSWER(status, out, length,
           kohiblad_edit(b.at, b.size, a, sizeof a, edit, other.at, other.size, depth + 1, out.at,
                         out.size, &length));
    assert(length <= kohiblad_edit_room(b.size, sizeof a, other.size));
    if (!shallow && !kohiblad_check(b.at, b.size, depth + 1)) {
        assert(status == KOHIBLAD_INVALID_JSONB);
        return;
    }
    if (edit > KOHIBLAD_CREATE) {
        assert(status == KOHIBLAD_OTHER_KIND);
        return;
    }
    if (edit != KOHIBLAD_REMOVE && !is_other && !kohiblad_check(other.at, other.size, depth + 1)) {
        assert(status == KOHIBLAD_INVALID_JSONB);
        return;
    }
    assert(status == KOHIBLAD_OK || status == KOHIBLAD_NO_ROOM);
    if (status != KOHIBLAD_OK) return;
    assert(kohiblad_is_canonical(out.at, length, SIZE_MAX));
    if (kohiblad_kind(b.at, b.size).kind != KOHIBLAD_OBJECT) {
        assert(!kohiblad_canonical(b.at, b.size, SIZE_MAX, got, sizeof got, &found));
        assert(found == length && !memcmp(got, out.at, length));
        return;
    }
    bool had = kohiblad_find_key(b.at, b.size, (const uint8_t *)"a", 1).status == KOHIBLAD_OK;
    status = kohiblad_get_key(out.at, length, (const uint8_t *)"a", 1, got, sizeof got, &found);
    if (edit == KOHIBLAD_REMOVE) {
        assert(status == KOHIBLAD_NONE);
    } else if (edit != KOHIBLAD_INSERT || !had) {
        assert(!kohiblad_canonical(other.at, other.size, SIZE_MAX, canonical,
                                   sizeof canonical, &needed));
        assert(status == KOHIBLAD_OK && found == needed && !memcmp(got, canonical, found));
    } else {
        assert(status == KOHIBLAD_OK);
    }
}

/* Texts that are paths without wildcards, with the path as JSON. */
static const char *const paths[][2] = {
    { "$", "[]" }, { "$.a", "[\"a\"]" }, { "$.\"a\"", "[\"a\"]" }, { "$[0]", "[0]" },
    { "$[#-1]", "[-1]" }, { "$.c.d", "[\"c\",\"d\"]" }, { "$[1][1].a", "[1,1,\"a\"]" },
    { "$.b[#-3]", "[\"b\",-3]" }, { "$.\"\".\"\"", "[\"\",\"\"]" },
    { "$[007]", "[7]" }, { "$[#-9999999999999999999]", "[-9223372036854775808]" },
    { "$[99999999999999999999]", "[18446744073709551615]" },
    { "$[last]", "[-1]" }, { "$[last - 2].a[last-0]", "[-3,\"a\",-1]" },
};
enum { PATHS = sizeof paths / sizeof *paths };

/* A path as a text, and as the document that is made of it: both lead to the same place. */
static void path_within(struct block b, bool shallow, size_t depth) {
    static uint8_t wanted[ROOM], path[ROOM];
    uint32_t which = below(PATHS);
    const char *text = paths[which][0], *json = paths[which][1];
    size_t size, length, count = 9;
    uint32_t status;
    struct block t = copy_of(text, strlen(text)), out = make(below(64));
    assert(!kohiblad_parse((const uint8_t *)json, strlen(json), 1, 0, wanted, ROOM, &size));
    ANSWER(status, out, length, kohiblad_path_of_text(t.at, t.size, out.at, out.size, &length));
    assert(length == size && status == (size > out.size ? KOHIBLAD_NO_ROOM : KOHIBLAD_OK));
    assert(!kohiblad_path_of_text(t.at, t.size, path, ROOM, &length));
    assert(length == size && !memcmp(path, wanted, size));
    ANSWER(status, out, length,
           kohiblad_path_in(b.at, b.size, t.at, t.size, depth, out.at, out.size, &length));
    if (!shallow) assert(status == KOHIBLAD_INVALID_JSONB);
    else assert(length == size && status == (size > out.size ? KOHIBLAD_NO_ROOM : KOHIBLAD_OK));
    struct block p = copy_of(path, size);
    struct kohiblad_place place = kohiblad_get_path(b.at, b.size, p.at, p.size, depth), one;
    memset(&one, 0, sizeof one);
    status = kohiblad_select(b.at, b.size, t.at, t.size, depth, &one, 1, &count);
    if (!shallow || depth < 1) {
        assert(place.status == KOHIBLAD_INVALID_JSONB);
        assert(status == (shallow ? KOHIBLAD_OK : KOHIBLAD_INVALID_JSONB));
    } else if (place.status == KOHIBLAD_OK) {
        assert(status == KOHIBLAD_OK && count == 1 && !memcmp(&place, &one, sizeof one));
        assert(place.offset <= b.size && place.length <= b.size - place.offset);
        if (!strcmp(text, "$.a")) {
            one = kohiblad_find_key(b.at, b.size, (const uint8_t *)"a", 1);
            assert(!memcmp(&place, &one, sizeof one));
        }
    } else {
        assert(place.status == KOHIBLAD_NONE && status == KOHIBLAD_OK && count == 0);
        assert(place.type == 0 && place.offset == 0 && place.length == 0);
    }
    drop(p); drop(out); drop(t);
}

/* The same without a check: of documents and rows of no bytes the same state and value, of other
 * bytes some state. */
static void unchecked_column_of(struct block rows, const size_t *where, const uint8_t *path,
                                size_t path_size, size_t depth, uint32_t status,
                                const int64_t *values, const uint8_t *states) {
    struct block mine = make(3 * sizeof(int64_t)), seen = make(3);
    const int64_t *at = (const int64_t *)(const void *)mine.at;
    struct kohiblad_taken taken = kohiblad_take_int64_unchecked(rows.at, rows.size, where, 4, path,
        path_size, depth, KOHIBLAD_BY_VALUE, (int64_t *)(void *)mine.at, 3, seen.at, 3);
    assert(taken.status == status);
    for (size_t i = 0; i < 3 && !status; i++) {
        assert(seen.at[i] < 5 && (at[i] == 0 || seen.at[i] == KOHIBLAD_ROW_VALUE));
        if (states[i] != KOHIBLAD_ROW_NO_DOCUMENT)
            assert(seen.at[i] == states[i] && at[i] == values[i]);
    }
    drop(seen); drop(mine);
}

/* The members "a" and "c" of the same rows in one walk over each: at the places of "a" the same
 * states and values as the calls that look it up take, in rows of any bytes that are not checked
 * some. */
static void located_in(struct block rows, const size_t *where, bool good, size_t depth) {
    static const uint8_t names[] = { 128, 0, 0, 2, 16, 0, 0, 1, 16, 0, 0, 1, 'a', 'c' };
    static const uint8_t path[] = { 128, 0, 0, 1, 16, 0, 0, 1, 'a' };
    struct block found = make(6 * sizeof(struct kohiblad_place));
    struct block mine = make(3 * sizeof(int64_t)), seen = make(3);
    struct block its = make(3 * sizeof(int64_t)), states = make(3);
    struct kohiblad_place *places = (struct kohiblad_place *)(void *)found.at;
    for (int is_checked = 0; is_checked < 2; is_checked++) {
        uint32_t status = is_checked
            ? kohiblad_locate(rows.at, rows.size, where, 4, names, sizeof names, depth, places, 6)
            : kohiblad_locate_unchecked(rows.at, rows.size, where, 4, names, sizeof names, depth,
                                        places, 6);
        assert(status == (!good ? KOHIBLAD_INVALID_EOF : depth < 1 ? KOHIBLAD_INVALID_JSONB
                                                                   : KOHIBLAD_OK));
        if (status) continue;
        for (size_t i = 0; i < 6; i++)
            assert(places[i].status || (places[i].offset <= rows.size
                                        && places[i].length <= rows.size - places[i].offset));
        struct kohiblad_taken one = kohiblad_take_int64_at(rows.at, rows.size, places, 6, 2,
            KOHIBLAD_BY_VALUE, (int64_t *)(void *)mine.at, 3, seen.at, 3);
        struct kohiblad_taken other = kohiblad_take_int64(rows.at, rows.size, where, 4, path,
            sizeof path, depth, KOHIBLAD_BY_VALUE, (int64_t *)(void *)its.at, 3, states.at, 3);
        assert(one.status == KOHIBLAD_OK && other.status == KOHIBLAD_OK);
        for (size_t i = 0; i < 3; i++) {
            assert(seen.at[i] < 5);
            if (!is_checked && states.at[i] == KOHIBLAD_ROW_NO_DOCUMENT) continue;
            assert(seen.at[i] == states.at[i]);
            assert(!memcmp(mine.at + 8 * i, its.at + 8 * i, 8));
        }
    }
    drop(states); drop(its); drop(seen); drop(mine); drop(found);
}

/* The places of any bytes: nothing beyond the bytes is read. */
static void taken_at_any(struct block rows) {
    struct block found = make(3 * sizeof(struct kohiblad_place));
    struct block values = make(3 * sizeof(int64_t)), states = make(3);
    struct kohiblad_place *places = (struct kohiblad_place *)(void *)found.at;
    for (size_t i = 0; i < 3; i++) {
        places[i].status = below(4) ? KOHIBLAD_OK : (uint32_t)below(20);
        places[i].type = (uint32_t)below(9) << 28;
        places[i].offset = below(8) ? below((uint32_t)rows.size + 9) : SIZE_MAX - below(9);
        places[i].length = below(8) ? below((uint32_t)rows.size + 9) : SIZE_MAX - below(9);
    }
    struct kohiblad_taken taken = kohiblad_take_int64_at(rows.at, rows.size, places, 3, below(3),
        KOHIBLAD_BY_VALUE, (int64_t *)(void *)values.at, 3, states.at, 3);
    assert(taken.status == KOHIBLAD_OK && taken.unfit <= 3 && taken.first_unfit <= 3);
    struct block starts = make(4 * sizeof(size_t)), letters = make(3 * rows.size);
    size_t *offsets = (size_t *)(void *)starts.at, length;
    for (int is_text = 0; is_text < 2; is_text++) {
        taken = (is_text ? kohiblad_take_text_at : kohiblad_take_binary_at)(rows.at, rows.size,
            places, 3, 1, letters.at, letters.size, &length, offsets, 4, states.at, 3);
        assert(taken.status == KOHIBLAD_OK && offsets[0] == 0 && offsets[3] == length);
        for (size_t i = 0; i < 3; i++)
            assert(states.at[i] == KOHIBLAD_ROW_VALUE ? offsets[i] <= offsets[i + 1]
                                                      : offsets[i] == offsets[i + 1]);
    }
    drop(letters); drop(starts); drop(states); drop(values); drop(found);
}

/* A member of rows of any bytes as a column: of each row the state and the value are what the calls
 * for one document say of it. */
static void column_of(struct block rows, const size_t *where, bool good, size_t depth) {
    static const char *const wanted[] = { "$.a", "$", "$[0]", "$.c.d" };
    static uint8_t path[ROOM], copy[2 * ROOM];
    const char *text = wanted[below(4)];
    size_t path_size, length;
    assert(!kohiblad_path_of_text((const uint8_t *)text, strlen(text), path, ROOM, &path_size));
    struct block values = make(3 * sizeof(int64_t)), states = make(3);
    memset(states.at, 9, 3);
    const int64_t *at = (const int64_t *)(const void *)values.at;
    struct kohiblad_taken taken = kohiblad_take_int64(rows.at, rows.size, where, 4, path, path_size,
        depth, KOHIBLAD_BY_VALUE, (int64_t *)(void *)values.at, 3, states.at, 3);
    struct kohiblad_survey_counts all = kohiblad_survey(rows.at, rows.size, where, 4, path,
                                                        path_size, depth);
    assert(taken.status == (!good ? KOHIBLAD_INVALID_EOF : depth < 1 ? KOHIBLAD_INVALID_JSONB
                                                                    : KOHIBLAD_OK));
    assert(all.status == taken.status && all.rows == (all.status ? 0 : 3));
    unchecked_column_of(rows, where, path, path_size, depth, taken.status, at, states.at);
    located_in(rows, where, good, depth);
    taken_at_any(rows);
    uint64_t counts[5] = { 0 };
    for (size_t i = 0; i < 3; i++) {
        uint8_t state = states.at[i];
        if (taken.status) {
            assert(state == 9);
            continue;
        }
        assert(state < 5);
        counts[state]++;
        const uint8_t *row = rows.at + where[i];
        size_t row_size = where[i + 1] - where[i];
        if (row_size == 0 || !kohiblad_check(row, row_size, depth)) {
            assert(state == (row_size ? KOHIBLAD_ROW_NO_DOCUMENT : KOHIBLAD_ROW_ABSENT));
            continue;
        }
        struct kohiblad_place place = kohiblad_get_path(row, row_size, path, path_size, depth);
        assert((state == KOHIBLAD_ROW_ABSENT) == (place.status == KOHIBLAD_NONE));
        if (state == KOHIBLAD_ROW_ABSENT) continue;
        assert((state == KOHIBLAD_ROW_NULL) == (place.type == KOHIBLAD_TYPE_NULL));
        if (place.length + 8 > sizeof copy) continue;
        assert(!kohiblad_copy(place.type, row + place.offset, place.length, copy, sizeof copy,
                              &length));
        struct kohiblad_integer number = kohiblad_as_int64(copy, length);
        assert(number.status || (state == KOHIBLAD_ROW_VALUE && at[i] == number.value));
        assert(state == KOHIBLAD_ROW_VALUE || at[i] == 0);
    }
    if (taken.status == KOHIBLAD_OK) {
        assert(all.absent == counts[0] && all.nulls == counts[2] && all.not_documents == counts[4]);
        assert(taken.unfit == counts[3] + counts[4] && taken.first_unfit <= 3);
    }
    drop(states); drop(values);
}

/* Any bytes as a file of typed columns: that of rows, with some bytes changed. What is told lies
 * inside it, and the rows of a file that is checked are documents. */
static void typed_file_of(struct block rows, const size_t *where) {
    static const uint8_t names[] = { 128, 0, 0, 2, 16, 0, 0, 1, 16, 0, 0, 1, 'a', 'c' };
    uint8_t kinds[4];
    for (size_t i = 0; i < 2; i++) {
        kinds[2 * i] = (uint8_t)below(10);
        kinds[2 * i + 1] = kinds[2 * i] == KOHIBLAD_COLUMN_DECIMAL ? (uint8_t)below(4) : 0;
    }
    static uint8_t made[4 * ROOM], row[4 * ROOM];
    size_t length, count, size;
    uint32_t status = kohiblad_build_typed_file(rows.at, rows.size, where, 2, names, sizeof names,
        kinds, sizeof kinds, DEPTH, made, sizeof made, &length);
    if (status) return;
    struct block file = copy_of(made, below(8) ? length : below((uint32_t)length + 1));
    for (uint32_t edits = below(4); edits > 0 && file.size > 0; edits--)
        file.at[below((uint32_t)file.size)] = (uint8_t)below(256);
    struct kohiblad_typed_file told = kohiblad_check_typed_file(file.at, file.size, DEPTH);
    assert(!told.status || (!told.rows && !told.columns));
    struct block lie = make(2 * sizeof(struct kohiblad_typed_column));
    struct kohiblad_typed_column *columns = (struct kohiblad_typed_column *)(void *)lie.at;
    status = kohiblad_typed_columns(file.at, file.size, columns, 2, &count);
    assert(told.status || (!status && count == told.columns));
    for (size_t i = 0; i < count && !status; i++) {
        assert(columns[i].name + columns[i].name_length <= file.size);
        assert(columns[i].flags + columns[i].flags_length <= file.size);
        assert(columns[i].numbers + columns[i].numbers_length <= file.size);
        assert(columns[i].texts + columns[i].texts_length <= file.size);
    }
    for (size_t i = 0; i < 2; i++) {
        status = kohiblad_typed_row(file.at, file.size, i, DEPTH, row, sizeof row, &size);
        if (!status) assert(kohiblad_is_canonical(row, size, DEPTH));
        if (!told.status) assert(status == (i < told.rows ? KOHIBLAD_OK : KOHIBLAD_NONE));
    }
    drop(lie); drop(file);
}

/* Two members of rows in one walk, of any types: what the calls at the places of each take. */
static void members_of(struct block rows, const size_t *where, bool good, size_t depth) {
    static const uint8_t names[] = { 128, 0, 0, 2, 16, 0, 0, 1, 16, 0, 0, 1, 'a', 'c' };
    static const uint32_t types[] = {
        KOHIBLAD_COLUMN_BOOLEAN, KOHIBLAD_COLUMN_INT64, KOHIBLAD_COLUMN_UINT64,
        KOHIBLAD_COLUMN_DECIMAL, KOHIBLAD_COLUMN_DATE, KOHIBLAD_COLUMN_TIMESTAMP,
        KOHIBLAD_COLUMN_TIMESTAMP_TZ, KOHIBLAD_COLUMN_INTERVAL, KOHIBLAD_COLUMN_TEXT, 99,
    };
    struct block places = make(6 * sizeof(struct kohiblad_place));
    struct block values[2], states[2], alone = make(48), its = make(3);
    struct kohiblad_place *at = (struct kohiblad_place *)(void *)places.at;
    struct kohiblad_member members[2];
    size_t room = 2 + 2 * below(3);
    uint32_t fit = below(2);
    bool known = true;
    for (size_t j = 0; j < 2; j++) {
        uint32_t type = types[below(10)];
        struct kohiblad_member member = { type, below(4), NULL, NULL, { 0, 0, 0 } };
        values[j] = make(3 * kohiblad_value_size(type));
        states[j] = make(3);
        member.values = values[j].at, member.states = states[j].at;
        members[j] = member;
        known &= kohiblad_value_size(type) > 0;
    }
    uint32_t status = kohiblad_take_members(rows.at, rows.size, where, 4, names, sizeof names,
                                            depth, fit, members, 2, at, room);
    if (good && depth > 0) assert(status == (known ? KOHIBLAD_OK : KOHIBLAD_INVALID_JSONB));
    else assert(status == KOHIBLAD_INVALID_EOF || status == KOHIBLAD_INVALID_JSONB);
    if (!status) {
        assert(!kohiblad_locate(rows.at, rows.size, where, 4, names, sizeof names, depth, at, 6));
        for (size_t j = 0; j < 2; j++) {
            struct kohiblad_member member = members[j];
            member.values = alone.at, member.states = its.at;
            struct kohiblad_taken taken =
                kohiblad_take_batch(rows.at, rows.size, at + j, 6 - j, 2, fit, &member, 0, 3);
            assert(taken.unfit == members[j].taken.unfit);
            assert(taken.first_unfit == members[j].taken.first_unfit);
            assert(!memcmp(its.at, states[j].at, 3));
            assert(!memcmp(alone.at, values[j].at, values[j].size));
        }
    }
    members[1].states = members[0].states;
    assert(kohiblad_take_members(rows.at, rows.size, where, 4, names, sizeof names, depth, fit,
                                 members, 2, at, room) == KOHIBLAD_OVERLAP);
    for (size_t j = 0; j < 2; j++) drop(states[j]), drop(values[j]);
    drop(its); drop(alone); drop(places);
}

/* A member of rows as texts or binary values, with either offsets, checked or not, in room that may
 * be too small: they lie one after another. */
static void bytes_of(struct block rows, const size_t *where, bool good) {
    static const uint8_t path[] = { 128, 0, 0, 1, 16, 0, 0, 1, 'a' };
    struct block out = make(below(3) ? rows.size : below((uint32_t)rows.size + 1));
    struct block starts = make(4 * sizeof(size_t)), short_starts = make(4 * sizeof(uint32_t));
    struct block states = make(3);
    size_t *offsets = (size_t *)(void *)starts.at, length = 0;
    uint32_t *short_offsets = (uint32_t *)(void *)short_starts.at;
    for (int which = 0; which < 6; which++) {
        struct kohiblad_taken taken;
        if (which < 4)
            taken = (which == 0 ? kohiblad_take_text : which == 1 ? kohiblad_take_text_unchecked
                     : which == 2 ? kohiblad_take_binary : kohiblad_take_binary_unchecked)(
                rows.at, rows.size, where, 4, path, sizeof path, DEPTH, out.at, out.size, &length,
                offsets, 4, states.at, 3);
        else
            taken = (which == 4 ? kohiblad_take_text32 : kohiblad_take_text32_unchecked)(
                rows.at, rows.size, where, 4, path, sizeof path, DEPTH, out.at, out.size, &length,
                short_offsets, 4, states.at, 3);
        assert(good || taken.status == KOHIBLAD_INVALID_EOF);
        assert(!taken.status || taken.status == KOHIBLAD_INVALID_EOF
               || (taken.status == KOHIBLAD_NO_ROOM && length > out.size));
        for (int i = 0; i < 4 && !taken.status; i++) {
            size_t start = which < 4 ? offsets[i] : short_offsets[i];
            assert(start <= length && (i < 3 || start == length));
        }
    }
    drop(states); drop(short_starts); drop(starts); drop(out);
}

/* The words for the fault of a text of any bytes: within their room they end with a zero byte, and
 * have nothing that a terminal may obey. */
static void words_of(void) {
    static const char *const parts[] = {
        "[", "]", "{", "\"", ",", ":", "1", "1e", "-", "true", "a", "'", " ", "\n", "\\", "\x7f",
        "\302\233", "\342\200\256", "\341\246", "\357\273\277", "\363\240\201\201", "\377",
        "\303\251",
    };
    char text[128];
    size_t size = 0;
    for (uint32_t i = below(12); i > 0; i--) {
        const char *part = parts[below(sizeof parts / sizeof *parts)];
        size += (size_t)sprintf(text + size, "%s", part);
    }
    struct block in = copy_of(text, size), out = make(below(2) ? KOHIBLAD_WORDS_ROOM : below(60));
    char *words = (char *)out.at;
    struct kohiblad_fault fault =
        kohiblad_fault_words(in.at, in.size, DEPTH, below(2), words, out.size);
    assert(fault.offset <= in.size);
    if (out.size > 0) assert(memchr(words, 0, out.size));
    for (size_t i = 0; out.size > 0 && words[i]; i++) {
        assert((uint8_t)words[i] >= 0x20 && words[i] != 0x7f);
        assert((uint8_t)words[i] != 0xc2 || !words[i + 1] || (uint8_t)words[i + 1] >= 0xa0);
    }
    drop(out); drop(in);
}

/* The zone that a block of rows has: by a loop over its values of the state 1. */
static struct kohiblad_int64_zone zone_of(const int64_t *values, const uint8_t *states,
                                          size_t from, size_t to) {
    struct kohiblad_int64_zone zone = { 0, 0, 0 };
    for (size_t i = from; i < to; i++) {
        if (states[i] != KOHIBLAD_ROW_VALUE) continue;
        if (!zone.has_value || values[i] < zone.least) zone.least = values[i];
        if (!zone.has_value || values[i] > zone.greatest) zone.greatest = values[i];
        zone.has_value = 1;
    }
    return zone;
}

/* Zone maps of up to nine numbers, as each type has them, in blocks of any size. */
static void zones_of(void) {
    size_t rows = below(10), block_rows = below(8) ? below(5) : SIZE_MAX, count = 99;
    size_t step = block_rows ? block_rows : 1, wanted = rows / step + (rows % step != 0);
    size_t states_count = below(8) ? rows : below(10), room = below(5) ? wanted : below(10);
    struct block all = make(rows * sizeof(int64_t)), seen = make(states_count);
    struct block halves = make(rows * sizeof(struct kohiblad_int128));
    struct block days = make(rows * sizeof(int32_t));
    struct block made = make(room * sizeof(struct kohiblad_int64_zone));
    struct block dates = make(room * sizeof(struct kohiblad_date_zone));
    struct block wide = make(room * sizeof(struct kohiblad_decimal_zone));
    int64_t *values = (int64_t *)(void *)all.at;
    for (size_t i = 0; i < rows; i++) {
        int64_t value = below(4) ? (int64_t)below(9) - 4 : below(2) ? INT32_MIN : INT32_MAX;
        /* The high half decides first. */
        struct kohiblad_int128 half = { (uint64_t)-value, value };
        values[i] = value;
        ((int32_t *)(void *)days.at)[i] = (int32_t)value;
        ((struct kohiblad_int128 *)(void *)halves.at)[i] = half;
    }
    for (size_t i = 0; i < states_count; i++) seen.at[i] = (uint8_t)(below(2) ? 1 : below(6));
    memset(made.at, 0xA5, made.size);
    struct kohiblad_int64_zone *zones = (struct kohiblad_int64_zone *)(void *)made.at;
    uint32_t status = kohiblad_zones_int64(values, rows, seen.at, states_count, block_rows, zones,
                                           room, &count);
    assert(status == (states_count != rows ? KOHIBLAD_INVALID_EOF : room < wanted
                                           ? KOHIBLAD_NO_ROOM : KOHIBLAD_OK));
    assert(count == (status == KOHIBLAD_INVALID_EOF ? 0 : wanted));
    if (status) wanted = 0;
    for (size_t i = wanted * sizeof *zones; i < made.size; i++) assert(made.at[i] == 0xA5);

    struct kohiblad_date_zone *of_days = (struct kohiblad_date_zone *)(void *)dates.at;
    struct kohiblad_decimal_zone *of_halves = (struct kohiblad_decimal_zone *)(void *)wide.at;
    assert(kohiblad_zones_date((int32_t *)(void *)days.at, rows, seen.at, states_count, block_rows,
                               of_days, room, &count) == status);
    assert(kohiblad_zones_decimal((struct kohiblad_int128 *)(void *)halves.at, rows, seen.at,
                                  states_count, block_rows, of_halves, room, &count) == status);
    for (size_t i = 0; i < wanted; i++) {
        size_t from = i * step, to = rows - from < step ? rows : from + step;
        struct kohiblad_int64_zone zone = zone_of(values, seen.at, from, to);
        assert(zones[i].has_value == zone.has_value && zones[i].least == zone.least);
        assert(zones[i].greatest == zone.greatest);
        assert(of_days[i].has_value == zone.has_value && of_days[i].least == zone.least);
        assert(of_days[i].greatest == zone.greatest);
        assert(of_halves[i].has_value == zone.has_value && of_halves[i].least.high == zone.least);
        assert(of_halves[i].greatest.high == zone.greatest);
        assert(of_halves[i].greatest.low == (uint64_t)-zone.greatest);
    }
    drop(wide); drop(dates); drop(made); drop(days); drop(halves); drop(seen); drop(all);
}

/* Any bytes as names: the path that they give leads somewhere, or nowhere. */
static void names_within(struct block b, bool shallow, size_t depth) {
    static const char letters[] = "//~~01{{}},,\"\"\\-2ab $.[]N\xC3\xA9";
    struct block t = make(below(9)), out = make(below(64));
    size_t length;
    uint32_t status;
    for (size_t i = 0; i < t.size; i++) t.at[i] = (uint8_t)letters[below(sizeof letters - 1)];
    if (t.size && below(2)) t.at[0] = '/';
    if (t.size > 1 && below(2)) t.at[0] = '{', t.at[t.size - 1] = '}';
    ANSWER(status, out, length,
           kohiblad_path_in(b.at, b.size, t.at, t.size, depth, out.at, out.size, &length));
    if (status == KOHIBLAD_OK) {
        struct block p = copy_of(out.at, length);
        struct kohiblad_place place = kohiblad_get_path(b.at, b.size, p.at, p.size, depth);
        if (depth < 1) assert(place.status == KOHIBLAD_INVALID_JSONB);
        else assert(place.status == KOHIBLAD_OK || place.status == KOHIBLAD_NONE);
        drop(p);
    } else if (shallow) {
        assert(status == KOHIBLAD_NO_ROOM || status == KOHIBLAD_OTHER_KIND
               || status == KOHIBLAD_INVALID_UTF8);
    } else {
        assert(status == KOHIBLAD_INVALID_JSONB || status == KOHIBLAD_INVALID_UTF8);
    }
    drop(out); drop(t);
}

/* The children of a document are what wildcards select, in order. */
static void select_within(struct block b, bool shallow, size_t depth,
                          struct kohiblad_value_kind kind) {
    enum { MANY = 64, GOOD = 10 };
    static struct kohiblad_place out[MANY], before[MANY], within[MANY], whole[MANY];
    static const char *const tried[] = { "$[*]", "$.*", "$[1 to #-1]", "$[*][*]", "$.*.*",
                                         "$[0 to 0].*", "$?(@ == null)", "$[*]?(@[0] != 5)",
                                         "$[last, 0,0]", "$.*[0, last - 1]",
                                         "a", "$[", "$.", "$[1 to]", "", "$?(@ == )",
                                         "$[*]?(@[*] < 5)", "$[*]?(@ < 5" };
    uint32_t which = below(sizeof tried / sizeof *tried);
    struct block t = copy_of(tried[which], strlen(tried[which]));
    size_t count = 9, again = 9, room = below(4) ? MANY : below(3);
    memset(out, 0xA5, sizeof out);
    memset(before, 0xA5, sizeof before);
    uint32_t status = kohiblad_select(b.at, b.size, t.at, t.size, depth, out, room, &count);
    if (status == KOHIBLAD_NO_ROOM) {
        assert(count > room && !memcmp(out, before, sizeof out));
        assert(!kohiblad_select(b.at, b.size, t.at, t.size, depth, out, MANY, &again));
        assert(count == again);
        status = KOHIBLAD_OK;
    }
    if (!shallow) assert(status == KOHIBLAD_INVALID_JSONB);
    else assert(status == (which < GOOD ? KOHIBLAD_OK : KOHIBLAD_OTHER_KIND));
    if (status != KOHIBLAD_OK) assert(count == 0);
    /* With steps enough the answer is the same, and with fewer the same or that they are too few. */
    memset(whole, 0xA5, sizeof whole);
    memset(within, 0xA5, sizeof within);
    assert(kohiblad_select(b.at, b.size, t.at, t.size, depth, whole, MANY, &again) == status);
    uint32_t limited = kohiblad_select_within(b.at, b.size, t.at, t.size, depth, SIZE_MAX, within,
                                              MANY, &again);
    assert(limited == status && again == count && !memcmp(within, whole, sizeof whole));
    limited = kohiblad_select_within(b.at, b.size, t.at, t.size, depth, below(20), within, MANY,
                                     &again);
    if (limited == KOHIBLAD_TOO_MANY_STEPS) assert(status == KOHIBLAD_OK && again == 0);
    else assert(limited == status && again == count);
    for (size_t i = 0; i < count; i++) {
        assert(out[i].status == KOHIBLAD_OK);
        assert(out[i].offset <= b.size && out[i].length <= b.size - out[i].offset);
        assert(i == 0 || out[i - 1].offset + out[i - 1].length <= out[i].offset
               || strchr(tried[which], ','));
    }
    assert(count == MANY || !memcmp(out + count, before, (MANY - count) * sizeof *out));
    if (status == KOHIBLAD_OK && which < 3) {
        uint64_t first = which == 2, wanted = 0;
        if (which == 1 && kind.kind == KOHIBLAD_OBJECT) first = wanted = kind.count;
        if (which != 1 && kind.kind == KOHIBLAD_ARRAY)
            wanted = kind.count < first ? 0 : kind.count - first;
        assert(count == wanted);
        for (size_t i = 0; i < count; i++) {
            struct kohiblad_place part = kohiblad_find_index(b.at, b.size, first + i);
            assert(!memcmp(&part, &out[i], sizeof part));
        }
    }
    drop(t);
}

/* Several keys at once are there as each of them is. */
static void keys_within(struct block b, struct block other, bool shallow, bool are, size_t depth) {
    static const char *const keys[] = { "a", "x", "", "abc", "b", "\303\251", "a" };
    enum { KEYS = sizeof keys / sizeof *keys };
    uint8_t text[64], names[128];
    size_t end = 0, size, count = below(4);
    bool any = false, all = true;
    text[end++] = '[';
    for (size_t i = 0; i < count; i++) {
        const char *key = keys[below(KEYS)];
        bool has = kohiblad_exists(b.at, b.size, (const uint8_t *)key, strlen(key), depth).value;
        any |= has;
        all &= has;
        end += (size_t)sprintf((char *)text + end, "%s\"%s\"", i ? "," : "", key);
    }
    text[end++] = ']';
    assert(!kohiblad_parse(text, end, 1, 0, names, sizeof names, &size));
    struct block exact = copy_of(names, size);
    struct kohiblad_truth some = kohiblad_exists_any(b.at, b.size, exact.at, size, depth);
    struct kohiblad_truth each = kohiblad_exists_all(b.at, b.size, exact.at, size, depth);
    assert(some.status == (shallow && depth > 0 ? KOHIBLAD_OK : KOHIBLAD_INVALID_JSONB));
    assert(each.status == some.status);
    assert(some.value == (!some.status && any) && each.value == (!each.status && all));
    drop(exact);
    some = kohiblad_exists_any(b.at, b.size, other.at, other.size, depth);
    each = kohiblad_exists_all(b.at, b.size, other.at, other.size, depth);
    assert(some.status == each.status);
    if (!are) assert(some.status == KOHIBLAD_INVALID_JSONB);
    else assert(some.status == KOHIBLAD_OK || some.status == KOHIBLAD_OTHER_KIND);
    if (some.status) assert(!some.value && !each.value);
}

/* The functions over documents, by their laws. */
static void answer_functions(struct block b, struct block other, size_t depth, struct block out) {
    bool shallow = kohiblad_check(b.at, b.size, depth);
    bool is_other = kohiblad_check(other.at, other.size, depth), are = shallow && is_other;
    struct kohiblad_truth contained =
        kohiblad_contains(b.at, b.size, other.at, other.size, depth, SIZE_MAX);
    assert(contained.status == (are ? KOHIBLAD_OK : KOHIBLAD_INVALID_JSONB));
    assert(contained.value <= are);
    struct kohiblad_truth few =
        kohiblad_contains(b.at, b.size, other.at, other.size, depth, below(20));
    if (few.status == KOHIBLAD_TOO_MANY_STEPS) assert(are && few.value == 0);
    else assert(few.status == contained.status && few.value == contained.value);
    if (shallow) assert(kohiblad_contains(b.at, b.size, b.at, b.size, depth, SIZE_MAX).value == 1);
    struct kohiblad_truth has =
        kohiblad_exists(b.at, b.size, (const uint8_t *)"a", 1, depth);
    assert(has.status == (shallow ? KOHIBLAD_OK : KOHIBLAD_INVALID_JSONB));
    uint32_t kind = kohiblad_kind(b.at, b.size).kind;
    if (shallow && kind == KOHIBLAD_OBJECT)
        assert(has.value
               == (kohiblad_find_key(b.at, b.size, (const uint8_t *)"a", 1).status == KOHIBLAD_OK));
    index_within(b, other, shallow, depth, contained.value, has.value);
    uint32_t status;
    size_t length;
    ANSWER(status, out, length,
           kohiblad_concat(b.at, b.size, other.at, other.size, depth, out.at, out.size, &length));
    assert(length <= kohiblad_concat_room(b.size, other.size));
    if (!are) {
        assert(status == KOHIBLAD_INVALID_JSONB);
    } else if (status == KOHIBLAD_OK) {
        assert(kohiblad_is_canonical(out.at, length, SIZE_MAX));
        bool is_object = kohiblad_kind(out.at, length).kind == KOHIBLAD_OBJECT;
        if (is_object || kind == KOHIBLAD_ARRAY)
            assert(kohiblad_contains(out.at, length, other.at, other.size, depth + 1, SIZE_MAX)
                       .value
                   || kohiblad_kind(other.at, other.size).kind == KOHIBLAD_OBJECT);
    } else {
        assert(status == KOHIBLAD_NO_ROOM);
    }
    keys_within(b, other, shallow, are, depth);
    patch_within(b, other, shallow, are, depth, out);
    pick_within(b, other, shallow, are, depth, out);
    edit_within(b, other, shallow, is_other, depth, out);
    path_within(b, shallow, depth);
    names_within(b, shallow, depth);
    select_within(b, shallow, depth, kohiblad_kind(b.at, b.size));
}

/* What a call reads: bytes, or numbers that may be offsets in them. */
static struct block read_by(size_t each, struct block b, struct block other) {
    if (each == 1) return below(3) ? copy_of(b.at, b.size) : copy_of(other.at, other.size);
    struct block made = make(each * (1 + below(4)));
    memset(made.at, 0, made.size);
    for (size_t i = 0; i + sizeof(size_t) <= made.size; i += sizeof(size_t)) {
        size_t offset = below((uint32_t)b.size + 2);
        memcpy(made.at + i, &offset, sizeof offset);
    }
    return made;
}

/* Some export over any bytes: nothing is written but with OK, and then no more than there is room
 * for, which is said by what is beside the blocks. */
static void call_some(struct block b, struct block other, size_t depth) {
    enum { EXPORTS = sizeof exports / sizeof *exports, LARGEST = 8 * ROOM };
    static uint8_t before[MOST_REGIONS][LARGEST];
    const struct export *it = &exports[below(EXPORTS)];
    struct arguments arguments = { { { NULL, 0 } }, depth };
    struct block blocks[MOST_REGIONS];
    int count = 0;
    for (; count < MOST_REGIONS && it->regions[count].role != NOTHING; count++) {
        enum role role = it->regions[count].role;
        size_t each = it->regions[count].each;
        struct block made = role == READ ? read_by(each, b, other)
            : make(role == VALUES ? each * (1 + below(40)) : each);
        if (role != READ) memset(made.at, 0xA5, made.size);
        blocks[count] = made;
        assert(made.size <= LARGEST);
        memcpy(before[count], made.at, made.size);
        arguments.regions[count] = (struct region){ made.at, made.size };
    }
    uint32_t status = it->call(&arguments);
    for (int k = 0; k < count; k++) {
        bool is_same = !memcmp(blocks[k].at, before[k], blocks[k].size);
        enum role role = it->regions[k].role;
        assert(is_same || (role == VALUES ? status == KOHIBLAD_OK : role != READ));
        size_t written = 0;
        if (role == COUNT) memcpy(&written, blocks[k].at, sizeof written);
        if (status != KOHIBLAD_OK && status != KOHIBLAD_NO_ROOM) assert(written == 0);
        drop(blocks[k]);
    }
}

/* Whether so many minutes have gone by. */
static bool is_over(double minutes) {
    static time_t start;
    if (start == 0) start = time(NULL);
    return difftime(time(NULL), start) >= 60 * minutes;
}

int main(int argc, char **argv) {
    long rounds = argc > 1 ? atol(argv[1]) : 20000;
    double minutes = argc > 3 ? atof(argv[3]) : 0;
    if (argc > 2) state += strtoul(argv[2], NULL, 10);
    static uint8_t docs[TEXTS][ROOM];
    size_t sizes[TEXTS], length, again;
    uint32_t count = 0, status;
    for (int i = 0; i < TEXTS; i++) {
        struct block t = copy_of(texts[i], strlen(texts[i]));
        uint32_t exponents = below(2);
        status = kohiblad_parse(t.at, t.size, DEPTH, exponents, docs[count], ROOM, &length);
        struct kohiblad_fault fault = kohiblad_text_fault(t.at, t.size, DEPTH, exponents);
        assert(fault.status == status
               || (status == KOHIBLAD_INVALID_JSON && fault.status == KOHIBLAD_BAD_NUMBER));
        assert(status != KOHIBLAD_OK || fault.offset == t.size);
        struct kohiblad_expected expected = kohiblad_text_expected(t.at, t.size, DEPTH, exponents);
        bool ends = expected.classes & KOHIBLAD_EXPECTED_END;
        assert(expected.status == (status == KOHIBLAD_TOO_DEEP ? status : KOHIBLAD_OK));
        assert((expected.classes == 0) == (status == KOHIBLAD_TOO_DEEP));
        assert(status != KOHIBLAD_OK || ends);
        if (status == KOHIBLAD_OK) {
            assert(kohiblad_check(docs[count], length, DEPTH));
            assert(kohiblad_is_canonical(docs[count], length, SIZE_MAX));
            sizes[count++] = length;
        } else {
            assert(status == KOHIBLAD_INVALID_JSON || status == KOHIBLAD_TOO_DEEP);
        }
        drop(t);
    }
    long documents = 0, found = 0, built = 0, sorted = 0, children = 0, numbers_read = 0;
    long round = 0;
    for (; (rounds == 0 || round < rounds) && (minutes == 0 || !is_over(minutes)); round++) {
        zones_of();
        uint32_t from = below(count);
        size_t size = below(3) ? sizes[from] : below((uint32_t)sizes[from] + 1);
        struct block b = make(size + (below(4) ? 0 : below(9)));
        for (size_t i = 0; i < b.size; i++)
            b.at[i] = i < size ? docs[from][i] : (uint8_t)below(256);
        for (uint32_t edits = below(4); edits > 0 && b.size > 0; edits--) {
            uint8_t other = below(2) ? (uint8_t)below(256) : (uint8_t)(1u << below(8));
            b.at[below((uint32_t)b.size)] = other;
        }
        bool is = kohiblad_check(b.at, b.size, SIZE_MAX);
        documents += is;
        assert(kohiblad_check(b.at, b.size, 1000) == is);
        assert(is || !kohiblad_is_canonical(b.at, b.size, SIZE_MAX));
        assert(kohiblad_compare(b.at, b.size, b.at, b.size, SIZE_MAX) == 0);
        uint32_t other = below(count);
        int32_t order = kohiblad_compare(b.at, b.size, docs[other], sizes[other], SIZE_MAX);
        assert(order == -kohiblad_compare(docs[other], sizes[other], b.at, b.size,
                                          SIZE_MAX));
        assert(is || order > 0);
        struct kohiblad_value_kind kind = kohiblad_kind(b.at, b.size);
        assert(!is || (kind.status == KOHIBLAD_OK && kind.kind <= KOHIBLAD_OBJECT));
        children += walk(b);
        walk_anywhere(b);
        make_scalar();
        make_extension(b);
        make_part(b);
        numbers_read += read_scalar(b, is, kind);
        size_t depth = below(5);
        int32_t within = kohiblad_compare(b.at, b.size, docs[other], sizes[other], depth);
        assert(within == model_within(b.at, b.size, docs[other], sizes[other], depth));
        assert(within == order_of_keys(b.at, b.size, docs[other], sizes[other], depth));

        /* Parts: copied and told are the same. */
        struct block out = make(below(64)), key = make(below(8)), name = copy_of("a", below(2));
        size_t index = below(5), key_length;
        struct kohiblad_place place = kohiblad_find_index(b.at, b.size, index);
        if (place.status == KOHIBLAD_OK) assert(place.offset + place.length <= b.size);
        ANSWER(status, out, length,
               kohiblad_get_index(b.at, b.size, index, out.at, out.size, &length));
        if (kind.kind == KOHIBLAD_ARRAY && place.status == KOHIBLAD_OK)
            copied_part(b, place, out, status, length);
        if (is && kind.kind == KOHIBLAD_ARRAY) {
            assert((status == KOHIBLAD_NONE) == (index >= kind.count));
            assert((status == KOHIBLAD_NONE) == (place.status == KOHIBLAD_NONE));
            if (status == KOHIBLAD_OK && place.type == KOHIBLAD_TYPE_CONTAINER)
                assert(length == place.length && !memcmp(out.at, b.at + place.offset, length));
        } else if (is) {
            assert(status == KOHIBLAD_NONE);
        }
        if (is && status == KOHIBLAD_OK) assert(kohiblad_check(out.at, length, SIZE_MAX));
        memset(key.at, 0xA5, key.size);
        memset(out.at, 0xA5, out.size);
        status = kohiblad_get_member(b.at, b.size, index, key.at, key.size, &key_length,
                                     out.at, out.size, &length);
        if (status == KOHIBLAD_NO_ROOM) assert(key_length > key.size || length > out.size);
        else if (status == KOHIBLAD_OK) assert(key_length <= key.size && length <= out.size);
        else assert(key_length == 0 && length == 0);
        size_t key_kept = status == KOHIBLAD_OK ? key_length : 0;
        size_t out_kept = status == KOHIBLAD_OK ? length : 0;
        for (size_t i = key_kept; i < key.size; i++) assert(key.at[i] == 0xA5);
        for (size_t i = out_kept; i < out.size; i++) assert(out.at[i] == 0xA5);
        if (is && status == KOHIBLAD_OK) assert(kohiblad_check(out.at, length, SIZE_MAX));
        bool is_member = kind.kind == KOHIBLAD_OBJECT && index < kind.count;
        if (is) assert((status == KOHIBLAD_NONE) == !is_member);
        place = kohiblad_find_key(b.at, b.size, name.at, name.size);
        if (place.status == KOHIBLAD_OK) assert(place.offset + place.length <= b.size);
        /* The rounds go on as without it: few of them find all that main looks for. */
        uint64_t kept = state;
        look_in_prefix(b, is, name, index);
        state = kept;
        ANSWER(status, out, length,
               kohiblad_get_key(b.at, b.size, name.at, name.size, out.at, out.size, &length));
        if (status == KOHIBLAD_OK) found++;
        if (place.status == KOHIBLAD_OK) copied_part(b, place, out, status, length);
        if (status == KOHIBLAD_OK && is) assert(kohiblad_check(out.at, length, SIZE_MAX));
        if (status != KOHIBLAD_NO_ROOM) assert(status == place.status);
        bool is_answer = status == KOHIBLAD_OK || status == KOHIBLAD_NO_ROOM;
        assert(!is || is_answer || status == KOHIBLAD_NONE);

        /* Texts, and read again. */
        ANSWER(status, out, length, kohiblad_pretty(b.at, b.size, SIZE_MAX, out.at,
                                                    out.size, &length));
        assert(status == KOHIBLAD_OK || status == KOHIBLAD_NO_ROOM);
        ANSWER(status, out, length, kohiblad_print(b.at, b.size, SIZE_MAX, out.at,
                                                   out.size, &length));
        assert(status == KOHIBLAD_OK || status == KOHIBLAD_NO_ROOM);
        struct block text = make(length);
        status = kohiblad_print(b.at, b.size, SIZE_MAX, text.at, text.size, &again);
        assert(status == KOHIBLAD_OK && again == length);
        struct block back = make(4 * length + 8);
        status = kohiblad_parse(text.at, text.size, below(8), below(2), back.at, back.size, &again);
        assert(status == KOHIBLAD_OK || status == KOHIBLAD_TOO_DEEP || !is || again == 0);
        assert(status != KOHIBLAD_OK || kohiblad_is_canonical(back.at, again, SIZE_MAX));
        ANSWER(status, out, length, kohiblad_canonical(b.at, b.size, SIZE_MAX, out.at,
                                                       out.size, &length));
        if (is) assert(status == KOHIBLAD_OK || status == KOHIBLAD_NO_ROOM);
        else assert(status == KOHIBLAD_INVALID_JSONB);

        /* The same within a depth: as the call without one, or as of no document. */
        bool shallow = kohiblad_check(b.at, b.size, depth);
        assert(kohiblad_is_canonical(b.at, b.size, depth)
               == (shallow && kohiblad_is_canonical(b.at, b.size, SIZE_MAX)));
        answer_within(b, shallow, depth, out);
        struct block asked = copy_of(docs[other], sizes[other]), wide = make(below(256));
        answer_functions(b, asked, depth, wide);
        kept = state;
        call_some(b, asked, depth);
        call_some(asked, b, depth);
        state = kept;
        drop(wide);
        drop(asked);

        /* Rows: the bytes once more behind a document, with offsets that may be wrong, or begin
         * behind the document. */
        struct block rows = make(b.size + sizes[other]), offsets = make(4 * sizeof(size_t));
        struct block numbers = make(3 * sizeof(size_t));
        memcpy(rows.at, docs[other], sizes[other]);
        if (b.size) memcpy(rows.at + sizes[other], b.at, b.size);
        size_t stops[4] = { 0, sizes[other], rows.size, rows.size }, order_of[3] = { 7, 7, 7 };
        bool moved = below(8) == 0;
        if (moved) stops[below(4)] = below((uint32_t)rows.size + 4);
        memcpy(offsets.at, stops, sizeof stops);
        memcpy(numbers.at, order_of, sizeof order_of);
        bool good = stops[0] <= stops[1] && stops[1] <= stops[2] && stops[2] <= stops[3]
            && stops[3] <= rows.size;
        const size_t *where = (const size_t *)(const void *)offsets.at;
        size_t *to = (size_t *)(void *)numbers.at;
        size_t room = below(5) ? 3 : below(3);
        status = kohiblad_sort(rows.at, rows.size, where, 4, SIZE_MAX, to, room);
        assert(status
               == (!good ? KOHIBLAD_INVALID_EOF : room < 3 ? KOHIBLAD_NO_ROOM : KOHIBLAD_OK));
        memcpy(order_of, numbers.at, sizeof order_of);
        if (status == KOHIBLAD_OK) {
            sorted++;
            assert(order_of[0] + order_of[1] + order_of[2] == 3 && order_of[0] != order_of[1]);
            for (int i = 0; i < 2; i++) {
                size_t l = order_of[i], r = order_of[i + 1];
                size_t ls = stops[l], rs = stops[r];
                order = kohiblad_compare(rows.at + ls, stops[l + 1] - ls, rows.at + rs,
                                         stops[r + 1] - rs, SIZE_MAX);
                assert(order < 0 || (order == 0 && l < r));
            }
            size_t order_within[3];
            assert(!kohiblad_sort(rows.at, rows.size, where, 4, depth, order_within, 3));
            for (int i = 0; i < 2; i++) {
                size_t l = order_within[i], r = order_within[i + 1];
                size_t ls = stops[l], rs = stops[r];
                order = model_within(rows.at + ls, stops[l + 1] - ls,
                                     rows.at + rs, stops[r + 1] - rs, depth);
                assert(order < 0 || (order == 0 && l < r));
            }
            assert(order_within[0] + order_within[1] + order_within[2] == 3);
        } else {
            assert(order_of[0] == 7 && order_of[1] == 7 && order_of[2] == 7);
        }
        column_of(rows, where, good, depth);
        members_of(rows, where, good, depth);
        bytes_of(rows, where, good);
        words_of();
        typed_file_of(rows, where);
        ANSWER(status, out, length,
               kohiblad_build_array(rows.at, rows.size, where, 3, SIZE_MAX, out.at, out.size,
                                    &length));
        if (!moved) assert(is == (status == KOHIBLAD_OK || status == KOHIBLAD_NO_ROOM));
        if (status == KOHIBLAD_OK) {
            built++;
            assert(kohiblad_check(out.at, length, SIZE_MAX));
        }
        build_within(rows, where, depth, out);
        size_t pairs = 2 + below(2);
        ANSWER(status, out, length,
               kohiblad_build_object(rows.at, rows.size, where, pairs + 1, SIZE_MAX, out.at,
                                     out.size,
                                     &length));
        if (pairs == 3) assert(status == KOHIBLAD_INVALID_EOF);
        if (status == KOHIBLAD_OK) assert(kohiblad_check(out.at, length, SIZE_MAX));
        drop(numbers); drop(offsets); drop(rows); drop(back); drop(text);
        drop(name); drop(key); drop(out); drop(b);
    }
    assert(documents && found && built && sorted && children && numbers_read);
    printf("%ld rounds: %ld documents, %ld values found, %ld built, %ld sorted, %ld children, "
           "%ld numbers\n", round, documents, found, built, sorted, children, numbers_read);
    return 0;
}
