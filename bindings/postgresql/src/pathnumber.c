/* Arithmetic of paths, exact in whole numbers of 128 bits with digits after the point. */
#include "pathplan.h"

#define MAX_SCALE 255

typedef struct Decimal {
    kohiblad_int128_t value;
    uint32_t scale; /* how many of its digits come after the point */
} Decimal;

static Decimal decimal_of(Part number) {
    uint8_t document[NUMBER_ROOM];
    Bytes bytes = write_part(number, document, sizeof document);
    struct kohiblad_decimal decimal = kohiblad_as_decimal(bytes.at, bytes.size);
    if (decimal.status != KOHIBLAD_OK) refuse(decimal.status, ERRCODE_DATA_CORRUPTED);
    struct kohiblad_int128 halves = {decimal.low, decimal.high};
    return (Decimal){kohiblad_int128_value(halves), decimal.scale};
}

static Part part_of_decimal(Decimal decimal) {
    uint8_t *document = palloc(NUMBER_ROOM);
    size_t size;
    uint32_t status =
        kohiblad_of_decimal((int64_t)(decimal.value >> 64), (uint64_t)decimal.value,
                            decimal.scale, document, NUMBER_ROOM, &size);
    if (status != KOHIBLAD_OK) refuse(status, ERRCODE_INTERNAL_ERROR);
    return part_of_document((Bytes){document, size});
}

/* Multiplies by a power of ten; false if the product has more than 128 bits. */
static bool raise(kohiblad_int128_t *value, uint32_t power) {
    for (; power > 0 && *value != 0; power--)
        if (__builtin_mul_overflow(*value, 10, value)) return false;
    return true;
}

/* Brings both to the greater scale. */
static bool level(Decimal *left, Decimal *right) {
    uint32_t scale = Max(left->scale, right->scale);
    if (!raise(&left->value, scale - left->scale) || !raise(&right->value, scale - right->scale))
        return false;
    left->scale = right->scale = scale;
    return true;
}

static uint32_t multiply(Decimal *left, Decimal right) {
    left->scale += right.scale;
    return __builtin_mul_overflow(left->value, right.value, &left->value) ||
           left->scale > MAX_SCALE ? KOHIBLAD_OUT_OF_RANGE : KOHIBLAD_OK;
}

/* What is left of a division has the dividend's sign. */
static void divide(Decimal *left, Decimal right) {
    left->value = right.value == -1 ? 0 : left->value % right.value;
}

/* The greatest whole number that is not above, or the least that is not below. */
static void round_to(JsonPathItemType type, Decimal *decimal) {
    kohiblad_int128_t unit = 1, whole = 0, rest = decimal->value;
    if (raise(&unit, decimal->scale)) {
        whole = decimal->value / unit;
        rest = decimal->value % unit;
    }
    if (type == jpiFloor && rest < 0) whole--;
    if (type == jpiCeiling && rest > 0) whole++;
    *decimal = (Decimal){whole, 0};
}

static uint32_t negate(Decimal *decimal) {
    return __builtin_sub_overflow(0, decimal->value, &decimal->value) ? KOHIBLAD_OUT_OF_RANGE
                                                                      : KOHIBLAD_OK;
}

static uint32_t calculate_one(JsonPathItemType type, Decimal *number) {
    switch (type) {
        case jpiMinus: return negate(number);
        case jpiAbs: return number->value < 0 ? negate(number) : KOHIBLAD_OK;
        case jpiFloor:
        case jpiCeiling: round_to(type, number); return KOHIBLAD_OK;
        default: return KOHIBLAD_OK;
    }
}

/* KOHIBLAD_NONE if a sum or a rest that may have fewer bits needs more of them on the way. */
static uint32_t calculate_two(JsonPathItemType type, Decimal *left, Decimal right) {
    if (type == jpiMul) return multiply(left, right);
    if (type == jpiMod && right.value == 0) return KOHIBLAD_DIVISION_BY_ZERO;
    if (!level(left, &right)) return KOHIBLAD_NONE;
    bool is_past = false;
    if (type == jpiMod)
        divide(left, right);
    else if (type == jpiAdd)
        is_past = __builtin_add_overflow(left->value, right.value, &left->value);
    else
        is_past = __builtin_sub_overflow(left->value, right.value, &left->value);
    return is_past ? KOHIBLAD_OUT_OF_RANGE : KOHIBLAD_OK;
}

uint32_t number_of_one(JsonPathItemType type, Part operand, Part *result) {
    Decimal number = decimal_of(operand);
    uint32_t status = calculate_one(type, &number);
    if (status == KOHIBLAD_OK) *result = part_of_decimal(number);
    return status;
}

uint32_t number_of_two(JsonPathItemType type, Part left, Part right, Part *result) {
    Decimal number = decimal_of(left);
    uint32_t status = calculate_two(type, &number, decimal_of(right));
    if (status == KOHIBLAD_OK) *result = part_of_decimal(number);
    return status;
}
