/* Decimals as numbers of C: the unscaled value at a scale, by hand and there and back; and the
 * nearest double, beside strtod and the exact digits of that double. */
#include "kohiblad.h"

#include <assert.h>
#include <stdio.h>
#include <stdlib.h>
#include <string.h>

enum { QUESTIONS = 50000, DIGITS_ROOM = 1400 };

static struct kohiblad_decimal decimal_of(int64_t high, uint64_t low, uint32_t scale) {
    struct kohiblad_decimal it = { KOHIBLAD_OK, scale, high, low };
    return it;
}

static struct kohiblad_decimal of_int128(kohiblad_int128_t value, uint32_t scale) {
    struct kohiblad_int128 halves = kohiblad_int128_of(value);
    return decimal_of(halves.high, halves.low, scale);
}

static kohiblad_int128_t power_of_ten(int exponent) {
    kohiblad_int128_t power = 1;
    while (exponent-- > 0) power *= 10;
    return power;
}

static const kohiblad_int128_t most = (kohiblad_int128_t)(~(kohiblad_uint128_t)0 >> 1);

static void has_unscaled(struct kohiblad_decimal it, uint32_t scale, kohiblad_int128_t right) {
    kohiblad_unscaled got = kohiblad_decimal_unscaled(it, scale);
    assert(got.status == KOHIBLAD_OK && got.value == right);
}

static void has_no_unscaled(struct kohiblad_decimal it, uint32_t scale, uint32_t status) {
    kohiblad_unscaled got = kohiblad_decimal_unscaled(it, scale);
    assert(got.status == status && got.value == 0);
}

static void test_unscaled(void) {
    struct kohiblad_decimal refused = { KOHIBLAD_OTHER_KIND, 0, 0, 0 };
    struct kohiblad_int128 minus_one = kohiblad_int128_of(-1);
    assert(minus_one.high == -1 && minus_one.low == UINT64_MAX);
    assert(kohiblad_int128_value(minus_one) == -1);
    assert(kohiblad_int128_value(kohiblad_int128_of(-most - 1)) == -most - 1);

    has_unscaled(of_int128(15, 1), 2, 150);
    has_unscaled(of_int128(-150, 2), 2, -150);
    has_unscaled(of_int128(-150, 2), 1, -15);
    has_unscaled(of_int128(7, 0), 0, 7);
    has_unscaled(of_int128(1200, 2), 0, 12);
    has_no_unscaled(of_int128(155, 2), 1, KOHIBLAD_PAST_RANGE);
    has_no_unscaled(of_int128(-1, 255), 254, KOHIBLAD_PAST_RANGE);

    /* 2^127 - 1 is 170141183460469231731687303715884105727, of 39 digits. */
    has_unscaled(of_int128(most, 7), 7, most);
    has_no_unscaled(of_int128(most, 7), 8, KOHIBLAD_PAST_RANGE);
    has_unscaled(of_int128(-most - 1, 7), 7, -most - 1);
    has_no_unscaled(of_int128(-most - 1, 7), 8, KOHIBLAD_PAST_RANGE);
    has_unscaled(of_int128(1, 0), 38, power_of_ten(38));
    has_unscaled(of_int128(-power_of_ten(38), 255), 217, -1);
    has_no_unscaled(of_int128(1, 0), 39, KOHIBLAD_PAST_RANGE);
    has_no_unscaled(of_int128(2, 0), 38, KOHIBLAD_PAST_RANGE);
    has_no_unscaled(of_int128(-2, 0), 38, KOHIBLAD_PAST_RANGE);

    /* Zero is zero at each scale, soon. */
    has_unscaled(of_int128(0, 255), 0, 0);
    has_unscaled(of_int128(0, 0), UINT32_MAX, 0);
    has_no_unscaled(of_int128(1, 0), UINT32_MAX, KOHIBLAD_PAST_RANGE);
    has_no_unscaled(of_int128(0, 256), 0, KOHIBLAD_INVALID_JSONB);
    has_no_unscaled(refused, 0, KOHIBLAD_OTHER_KIND);
}

static void has_double(struct kohiblad_decimal it, double value, double error) {
    kohiblad_double got = kohiblad_decimal_double(it);
    assert(got.status == KOHIBLAD_OK && got.value == value && got.error == error);
}

static void test_doubles(void) {
    struct kohiblad_decimal refused = { KOHIBLAD_PAST_RANGE, 0, 0, 0 };
    const kohiblad_int128_t bit_53 = (kohiblad_int128_t)1 << 53;
    assert(kohiblad_decimal_double(refused).status == KOHIBLAD_PAST_RANGE);
    assert(kohiblad_decimal_double(of_int128(0, 256)).status == KOHIBLAD_INVALID_JSONB);
    has_double(of_int128(150, 2), 1.5, 0);
    has_double(of_int128(-125, 3), -0.125, 0);
    has_double(of_int128(0, 255), 0, 0);
    has_double(of_int128(1, 1), 0.1, 0x1p-57);
    has_double(of_int128(-1, 1), -0.1, 0x1p-57);
    has_double(of_int128(1, 255), 1e-255, 0x1p-901);
    has_double(of_int128(bit_53, 0), 0x1p53, 0);
    /* Halfway between two doubles the one with an even last bit is taken. */
    has_double(of_int128(bit_53 + 1, 0), 0x1p53, 1);
    has_double(of_int128(bit_53 + 3, 0), 0x1p53 + 4, 1);
    has_double(of_int128(bit_53 * 10 + 11, 1), 0x1p53 + 2, 1);
    has_double(of_int128(most, 0), 0x1p127, 0x1p73);
    has_double(of_int128(-most - 1, 0), -0x1p127, 0);
}

static uint64_t state = 88172645463325252u;

static uint64_t random_bits(void) {
    state ^= state << 13;
    state ^= state >> 7;
    return state ^= state << 17;
}

/* Writes the digits of a number with `scale` of them after the point. */
static void write_digits(kohiblad_int128_t value, uint32_t scale, char *out) {
    char digits[300];
    size_t count = 0;
    kohiblad_uint128_t left = value < 0 ? -(kohiblad_uint128_t)value : (kohiblad_uint128_t)value;
    for (; left != 0 || count <= scale; left /= 10)
        digits[count++] = (char)('0' + (int)(left % 10));
    if (value < 0) *out++ = '-';
    while (count > 0) {
        if (count == scale) *out++ = '.';
        *out++ = digits[--count];
    }
    *out = 0;
}

/* Whether two numbers in digits are one, where the second has no fewer digits after the point. */
static bool are_equal(const char *left, const char *right) {
    size_t size = strlen(left);
    if (strncmp(left, right, size) != 0) return false;
    return strspn(right + size, strchr(left, '.') ? "0" : ".0") == strlen(right + size);
}

static void ask_double(kohiblad_int128_t value, uint32_t scale) {
    char digits[DIGITS_ROOM], exact[DIGITS_ROOM];
    kohiblad_double got = kohiblad_decimal_double(of_int128(value, scale));
    double magnitude = got.value < 0 ? -got.value : got.value;
    write_digits(value, scale, digits);
    snprintf(exact, sizeof exact, "%.1000f", got.value);
    assert(got.status == KOHIBLAD_OK && got.value == strtod(digits, NULL));
    assert((got.error == 0) == are_equal(digits, exact));
    assert(got.error >= 0 && got.error <= magnitude * 0x1p-53);
}

static void test_random(void) {
    for (int i = 0; i < QUESTIONS; i++) {
        struct kohiblad_int128 halves = { random_bits(), (int64_t)random_bits() };
        kohiblad_int128_t value = kohiblad_int128_value(halves);
        uint32_t scale = (uint32_t)(random_bits() % (i % 2 ? 5 : 256));
        /* Of all lengths, and at times of few bits, which a double holds. */
        value >>= random_bits() % 128;
        if (i % 8 == 0) value = (value & 0xffff) << random_bits() % 100;
        ask_double(value, scale);
        uint32_t more = (uint32_t)(random_bits() % 20);
        kohiblad_unscaled up = kohiblad_decimal_unscaled(of_int128(value, scale), scale + more);
        bool is_far = value != 0 && (value > most / power_of_ten((int)more)
                                     || value < -(most / power_of_ten((int)more)));
        if (up.status == KOHIBLAD_OK) {
            assert(up.value == value * power_of_ten((int)more));
            if (scale + more <= KOHIBLAD_MOST_SCALE)
                has_unscaled(of_int128(up.value, scale + more), scale, value);
        } else {
            assert(up.status == KOHIBLAD_PAST_RANGE && is_far);
        }
    }
}

int main(void) {
    test_unscaled();
    test_doubles();
    test_random();
    printf("%d decimals\n", QUESTIONS);
    return 0;
}
