/* Documents on a scale, as convert_to_scalar of the server has its own types: numbers by their
 * values, and all others by the bytes of their comparable keys after the common ones, which are the
 * digits of a fraction. */
#include "scale.h"

#include <math.h>

/* A key is read so far, and of what differs so many bytes. */
#define KEY_READ 2048
#define DIGITS 12

/* Bytes below it end texts and containers, or are before one that is escaped. */
#define FIRST_OF_TEXT 3

/* The bytes that are the digits of a fraction. */
typedef struct Base {
    int least, greatest;
} Base;

static bool is_number(Part part) {
    return part.type == KOHIBLAD_TYPE_NUMBER;
}

static double double_of_number(Bytes document) {
    struct kohiblad_decimal decimal = kohiblad_as_decimal(document.at, document.size);
    if (decimal.status != KOHIBLAD_OK) refuse(decimal.status, ERRCODE_DATA_CORRUPTED);
    return (ldexp((double)decimal.high, 64) + (double)decimal.low) / pow(10, decimal.scale);
}

static Bytes key_of(Bytes document, uint8_t *room) {
    size_t depth = depth_of_size(document.size), length;
    check_stack_for(stack_of_depth(depth));
    uint32_t status =
        kohiblad_key_cut(document.at, document.size, depth, room, KEY_READ, &length);
    if (status != KOHIBLAD_OK) refuse(status, ERRCODE_DATA_CORRUPTED);
    return (Bytes){room, Min(length, KEY_READ)};
}

static size_t common_size(Bytes left, Bytes right) {
    size_t limit = Min(left.size, right.size), common = 0;
    while (common < limit && left.at[common] == right.at[common]) common++;
    return common;
}

/* The first bytes after so many. */
static Bytes digits_after(Bytes key, size_t common) {
    return (Bytes){key.at + common, Min(key.size - common, DIGITS)};
}

static void widen_to(Base *base, int first, int last) {
    if (base->least > last || base->greatest < first) return;
    base->least = Min(base->least, first);
    base->greatest = Max(base->greatest, last);
}

static void widen_by(Base *base, Bytes digits) {
    for (size_t i = 0; i < digits.size; i++) {
        if (digits.at[i] < FIRST_OF_TEXT) continue;
        base->least = Min(base->least, digits.at[i]);
        base->greatest = Max(base->greatest, digits.at[i]);
    }
}

/* The bytes that come in both bounds; of the letters and digits of ASCII all, if one does. Of fewer
 * than ten too little is known, and then all of ASCII counts. */
static Base base_of(Bytes low, Bytes high) {
    Base base = {UINT8_MAX, 0};
    widen_by(&base, low);
    widen_by(&base, high);
    widen_to(&base, 'A', 'Z');
    widen_to(&base, 'a', 'z');
    widen_to(&base, '0', '9');
    if (base.greatest - base.least < 9)
        base = (Base){Min(base.least, ' '), Max(base.greatest, INT8_MAX)};
    return base;
}

/* Digits after the point; a byte out of the base is next to it. */
static double fraction_of(Bytes digits, Base base) {
    double size = base.greatest - base.least + 1, unit = 1, fraction = 0;
    for (size_t i = 0; i < digits.size; i++) {
        int digit = digits.at[i] - base.least;
        unit /= size;
        fraction += unit * Max(-1, Min(digit, size));
    }
    return fraction;
}

static double place_on_line(double low, double value, double high) {
    if (!(low < high)) return 0.5;
    return Max(0, Min((value - low) / (high - low), 1));
}

static double place_by_keys(Bytes low, Bytes value, Bytes high) {
    uint8_t low_room[KEY_READ], value_room[KEY_READ], high_room[KEY_READ];
    Bytes low_key = key_of(low, low_room), value_key = key_of(value, value_room),
          high_key = key_of(high, high_room);
    size_t common = Min(common_size(low_key, high_key), common_size(low_key, value_key));
    Bytes low_digits = digits_after(low_key, common), high_digits = digits_after(high_key, common);
    Base base = base_of(low_digits, high_digits);
    return place_on_line(fraction_of(low_digits, base),
                         fraction_of(digits_after(value_key, common), base),
                         fraction_of(high_digits, base));
}

double place_between(Bytes low, Bytes value, Bytes high) {
    if (is_number(part_of_document(low)) && is_number(part_of_document(value)) &&
        is_number(part_of_document(high)))
        return place_on_line(double_of_number(low), double_of_number(value),
                             double_of_number(high));
    return place_by_keys(low, value, high);
}
