/* The exports, for cffi's cdef: tools/pages makes this file of kohiblad.h. */

#define KOHIBLAD_VERSION 9000

enum kohiblad_exponents { KOHIBLAD_EXPONENTS_FORBIDDEN = 0, KOHIBLAD_EXPONENTS_ALLOWED = 1 };


enum kohiblad_edit_kind {
    KOHIBLAD_PUT = 0,
    KOHIBLAD_INSERT = 1,
    KOHIBLAD_REMOVE = 2,
    KOHIBLAD_CREATE = 3
};

enum kohiblad_members { KOHIBLAD_NAMED = 0, KOHIBLAD_OTHERS = 1 };


enum kohiblad_status {
    KOHIBLAD_OK = 0,
    KOHIBLAD_INVALID_EOF = 1,
    KOHIBLAD_INVALID_JSONB = 2,
    KOHIBLAD_INVALID_JSONB_HEADER = 3,
    KOHIBLAD_INVALID_JSONB_JENTRY = 4,
    KOHIBLAD_INVALID_JSONB_NUMBER = 5,
    KOHIBLAD_INVALID_JSONB_EXTENSION = 6,
    KOHIBLAD_INVALID_UTF8 = 7,
    KOHIBLAD_OBJECT_DUPLICATE_KEY = 8,
    KOHIBLAD_INVALID_JSON = 9,
    KOHIBLAD_OUT_OF_MEMORY = 10,
    KOHIBLAD_NO_ROOM = 11,
    KOHIBLAD_NONE = 12,
    KOHIBLAD_TOO_DEEP = 13,
    KOHIBLAD_OTHER_KIND = 14,
    KOHIBLAD_PAST_RANGE = 15,
    KOHIBLAD_OVERLAP = 16,
    KOHIBLAD_BAD_NUMBER = 17,
    KOHIBLAD_TOO_MANY_STEPS = 18,
    KOHIBLAD_BAD_MAGIC = 19,
    KOHIBLAD_UNKNOWN_VERSION = 20,
    KOHIBLAD_TRAILING_DATA = 21,
    KOHIBLAD_WRONG_LENGTH = 22,
    KOHIBLAD_OUT_OF_FORM = 23,
    KOHIBLAD_NOT_READ_BACK = 24,
    KOHIBLAD_MEMBER_NOT_FOUND = 25,
    KOHIBLAD_OBJECT_NOT_FOUND = 26,
    KOHIBLAD_ARRAY_NOT_FOUND = 27,
    KOHIBLAD_INVALID_SUBSCRIPT = 28,
    KOHIBLAD_NON_NUMERIC_ITEM = 29,
    KOHIBLAD_SINGLETON_REQUIRED = 30,
    KOHIBLAD_NUMBER_NOT_FOUND = 31,
    KOHIBLAD_DIVISION_BY_ZERO = 32,
    KOHIBLAD_OUT_OF_RANGE = 33,
    KOHIBLAD_UNDEFINED_VARIABLE = 34,
    KOHIBLAD_BOOLEAN_REQUIRED = 35
};

enum kohiblad_expected_class {
    KOHIBLAD_EXPECTED_STRING = 0x1,
    KOHIBLAD_EXPECTED_VALUE = 0x2,
    KOHIBLAD_EXPECTED_KEY = 0x4,
    KOHIBLAD_EXPECTED_ESCAPE = 0x8,
    KOHIBLAD_EXPECTED_HEX_DIGIT = 0x10,
    KOHIBLAD_EXPECTED_LOW_HALF = 0x20,
    KOHIBLAD_EXPECTED_DIGIT = 0x40,
    KOHIBLAD_EXPECTED_SIGN = 0x80,
    KOHIBLAD_EXPECTED_POINT = 0x100,
    KOHIBLAD_EXPECTED_COLON = 0x200,
    KOHIBLAD_EXPECTED_COMMA = 0x400,
    KOHIBLAD_EXPECTED_ARRAY_END = 0x800,
    KOHIBLAD_EXPECTED_OBJECT_END = 0x1000,
    KOHIBLAD_EXPECTED_EXPONENT = 0x2000,
    KOHIBLAD_EXPECTED_A = 0x4000,
    KOHIBLAD_EXPECTED_E = 0x8000,
    KOHIBLAD_EXPECTED_L = 0x10000,
    KOHIBLAD_EXPECTED_R = 0x20000,
    KOHIBLAD_EXPECTED_S = 0x40000,
    KOHIBLAD_EXPECTED_U = 0x80000,
    KOHIBLAD_EXPECTED_END = 0x100000
};

enum kohiblad_path_reason {
    KOHIBLAD_PATH_UNCLOSED_COMMENT = 1,
    KOHIBLAD_PATH_UNCLOSED_TEXT = 2,
    KOHIBLAD_PATH_INVALID_ESCAPE = 3,
    KOHIBLAD_PATH_INVALID_NUMBER = 4,
    KOHIBLAD_PATH_EXPECTED = 5,
    KOHIBLAD_PATH_LEFT_OUT = 6,
    KOHIBLAD_PATH_TOO_DEEP = 7
};

enum kohiblad_path_expected {
    KOHIBLAD_PATH_EXPECTED_KEY = 1,
    KOHIBLAD_PATH_EXPECTED_LEVEL = 2,
    KOHIBLAD_PATH_EXPECTED_KEY_OR_VALUE = 3,
    KOHIBLAD_PATH_EXPECTED_VALUE = 4,
    KOHIBLAD_PATH_EXPECTED_TEXT = 5,
    KOHIBLAD_PATH_EXPECTED_MARK = 6,
    KOHIBLAD_PATH_EXPECTED_EXPRESSION = 7,
    KOHIBLAD_PATH_EXPECTED_TEST = 8,
    KOHIBLAD_PATH_EXPECTED_END = 9
};

enum kohiblad_path_found {
    KOHIBLAD_PATH_FOUND_END = 1,
    KOHIBLAD_PATH_FOUND_WORD = 2,
    KOHIBLAD_PATH_FOUND_TEXT = 3,
    KOHIBLAD_PATH_FOUND_VARIABLE = 4,
    KOHIBLAD_PATH_FOUND_NUMBER = 5,
    KOHIBLAD_PATH_FOUND_MARK = 6
};

enum kohiblad_path_left_out {
    KOHIBLAD_PATH_DOUBLE = 1,
    KOHIBLAD_PATH_DATETIME = 2,
    KOHIBLAD_PATH_WIDE_NUMBER = 3,
    KOHIBLAD_PATH_DIVISION = 4,
    KOHIBLAD_PATH_LIKE_REGEX = 5
};

enum kohiblad_kind_number {
    KOHIBLAD_NULL = 0,
    KOHIBLAD_BOOLEAN = 1,
    KOHIBLAD_NUMBER = 2,
    KOHIBLAD_STRING = 3,
    KOHIBLAD_EXTENSION = 4,
    KOHIBLAD_ARRAY = 5,
    KOHIBLAD_OBJECT = 6
};

enum kohiblad_type {
    KOHIBLAD_TYPE_NULL = 0x00000000,
    KOHIBLAD_TYPE_STRING = 0x10000000,
    KOHIBLAD_TYPE_NUMBER = 0x20000000,
    KOHIBLAD_TYPE_FALSE = 0x30000000,
    KOHIBLAD_TYPE_TRUE = 0x40000000,
    KOHIBLAD_TYPE_CONTAINER = 0x50000000,
    KOHIBLAD_TYPE_EXTENSION = 0x60000000
};

enum kohiblad_extension_tag {
    KOHIBLAD_BINARY = 0x00,
    KOHIBLAD_DATE = 0x10,
    KOHIBLAD_TIMESTAMP = 0x20,
    KOHIBLAD_TIMESTAMP_TZ = 0x30,
    KOHIBLAD_INTERVAL = 0x40
};

struct kohiblad_value_kind {
    uint32_t status;
    uint32_t kind;
    uint64_t count;
};

struct kohiblad_place {
    uint32_t status;
    uint32_t type;
    uint64_t offset;
    uint64_t length;
};

struct kohiblad_fault {
    uint32_t status;
    uint64_t offset;
};

struct kohiblad_expected {
    uint32_t status;
    uint32_t classes;
};

struct kohiblad_path_refusal {
    uint32_t status;
    uint32_t reason;
    uint64_t offset;
    uint32_t expected;
    uint32_t mark;
    uint32_t found;
    uint32_t left_out;
};

struct kohiblad_cursor {
    uint64_t index;
    uint64_t key;
    uint64_t value;
};

struct kohiblad_decimal {
    uint32_t status;
    uint32_t scale;
    int64_t high;
    uint64_t low;
};

struct kohiblad_integer {
    uint32_t status;
    int64_t value;
};

struct kohiblad_truth {
    uint32_t status;
    uint32_t value;
};

struct kohiblad_extension_value {
    uint32_t status;
    uint32_t tag;
    int64_t value;
    int32_t months;
    int32_t days;
    int32_t seconds;
    uint64_t offset;
    uint64_t length;
};

enum kohiblad_fit {
    KOHIBLAD_BY_VALUE = 0,
    KOHIBLAD_EXACT = 1
};

enum kohiblad_row_state {
    KOHIBLAD_ROW_ABSENT = 0,
    KOHIBLAD_ROW_VALUE = 1,
    KOHIBLAD_ROW_NULL = 2,
    KOHIBLAD_ROW_UNFIT = 3,
    KOHIBLAD_ROW_NO_DOCUMENT = 4
};

struct kohiblad_int128 {
    uint64_t low;
    int64_t high;
};

struct kohiblad_timestamp_tz {
    int64_t value;
    int32_t seconds;
};

struct kohiblad_interval {
    int32_t months;
    int32_t days;
    int64_t micros;
};

struct kohiblad_int64_zone {
    int64_t least;
    int64_t greatest;
    uint64_t has_value;
};

struct kohiblad_uint64_zone {
    uint64_t least;
    uint64_t greatest;
    uint64_t has_value;
};

struct kohiblad_decimal_zone {
    struct kohiblad_int128 least;
    struct kohiblad_int128 greatest;
    uint64_t has_value;
};

struct kohiblad_date_zone {
    int32_t least;
    int32_t greatest;
    uint64_t has_value;
};

enum kohiblad_column_type {
    KOHIBLAD_COLUMN_BOOLEAN = 0,
    KOHIBLAD_COLUMN_INT64 = 1,
    KOHIBLAD_COLUMN_UINT64 = 2,
    KOHIBLAD_COLUMN_DECIMAL = 3,
    KOHIBLAD_COLUMN_TEXT = 4,
    KOHIBLAD_COLUMN_DATE = 5,
    KOHIBLAD_COLUMN_TIMESTAMP = 6,
    KOHIBLAD_COLUMN_TIMESTAMP_TZ = 7,
    KOHIBLAD_COLUMN_INTERVAL = 8,
    KOHIBLAD_COLUMN_BINARY = 9
};

struct kohiblad_typed_file {
    uint32_t status;
    uint64_t rows;
    uint64_t columns;
};

struct kohiblad_typed_column {
    uint32_t type;
    uint32_t scale;
    uint64_t rows;
    uint64_t name;
    uint64_t name_length;
    uint64_t flags;
    uint64_t flags_length;
    uint64_t numbers;
    uint64_t numbers_length;
    uint64_t texts;
    uint64_t texts_length;
};

struct kohiblad_taken {
    uint32_t status;
    uint64_t unfit;
    uint64_t first_unfit;
};

struct kohiblad_member {
    uint32_t type;
    uint32_t scale;
    void *values;
    uint8_t *states;
    struct kohiblad_taken taken;
};

struct kohiblad_survey_counts {
    uint32_t status;
    uint32_t least_scale;
    uint32_t greatest_scale;
    uint64_t most_digits;
    uint64_t longest_text;
    uint64_t rows;
    uint64_t not_documents;
    uint64_t absent;
    uint64_t nulls;
    uint64_t booleans;
    uint64_t int64s;
    uint64_t uint64s;
    uint64_t decimal64s;
    uint64_t decimal128s;
    uint64_t texts;
    uint64_t binaries;
    uint64_t dates;
    uint64_t timestamps;
    uint64_t zoned_timestamps;
    uint64_t intervals;
    uint64_t opaques;
    uint64_t arrays;
    uint64_t objects;
};

uint32_t kohiblad_version(void);
uint32_t kohiblad_status_name(uint32_t status, uint8_t *out, size_t room, size_t *length);
bool kohiblad_check(const uint8_t *bytes, size_t size, size_t depth);
int32_t kohiblad_compare(const uint8_t *left, size_t left_size, const uint8_t *right,
    size_t right_size, size_t depth);
struct kohiblad_value_kind kohiblad_kind(const uint8_t *bytes, size_t size);
uint32_t kohiblad_get_key(const uint8_t *bytes, size_t size, const uint8_t *name, size_t name_size,
    uint8_t *out, size_t room, size_t *length);
struct kohiblad_place kohiblad_find_key(const uint8_t *bytes, size_t size, const uint8_t *name,
    size_t name_size);
struct kohiblad_place kohiblad_find_index(const uint8_t *bytes, size_t size, size_t number);
struct kohiblad_place kohiblad_find_key_in_prefix(const uint8_t *prefix, size_t prefix_size,
    size_t size, const uint8_t *name, size_t name_size);
struct kohiblad_place kohiblad_find_index_in_prefix(const uint8_t *prefix, size_t prefix_size,
    size_t size, size_t index);
uint32_t kohiblad_begin(const uint8_t *bytes, size_t size, struct kohiblad_cursor *cursor);
uint32_t kohiblad_next(const uint8_t *bytes, size_t size, struct kohiblad_cursor *cursor,
    struct kohiblad_place *key, struct kohiblad_place *value);
uint32_t kohiblad_copy(uint32_t type, const uint8_t *payload, size_t size, uint8_t *out,
    size_t room, size_t *length);
uint32_t kohiblad_get_index(const uint8_t *bytes, size_t size, size_t index, uint8_t *out,
    size_t room, size_t *length);
uint32_t kohiblad_get_member(const uint8_t *bytes, size_t size, size_t index, uint8_t *key,
    size_t key_room, size_t *key_length, uint8_t *out, size_t room, size_t *length);
struct kohiblad_decimal kohiblad_as_decimal(const uint8_t *bytes, size_t size);
struct kohiblad_integer kohiblad_as_int64(const uint8_t *bytes, size_t size);
struct kohiblad_place kohiblad_as_string(const uint8_t *bytes, size_t size);
struct kohiblad_truth kohiblad_as_boolean(const uint8_t *bytes, size_t size);
struct kohiblad_extension_value kohiblad_as_extension(const uint8_t *bytes, size_t size);
uint32_t kohiblad_of_null(uint8_t *out, size_t room, size_t *length);
uint32_t kohiblad_of_boolean(uint32_t value, uint8_t *out, size_t room, size_t *length);
uint32_t kohiblad_of_string(const uint8_t *text, size_t size, uint8_t *out, size_t room,
    size_t *length);
uint32_t kohiblad_of_int64(int64_t value, uint8_t *out, size_t room, size_t *length);
uint32_t kohiblad_of_decimal(int64_t high, uint64_t low, uint32_t scale, uint8_t *out, size_t room,
    size_t *length);
uint32_t kohiblad_of_extension(uint32_t tag, int64_t value, int32_t months, int32_t days,
    int32_t seconds, const uint8_t *data, size_t size, uint8_t *out, size_t room, size_t *length);
uint32_t kohiblad_print(const uint8_t *bytes, size_t size, size_t depth, uint8_t *out, size_t room,
    size_t *length);
uint32_t kohiblad_pretty(const uint8_t *bytes, size_t size, size_t depth, uint8_t *out, size_t room,
    size_t *length);
uint32_t kohiblad_print_at(uint32_t type, const uint8_t *payload, size_t size, size_t depth,
    uint8_t *out, size_t room, size_t *length);
uint32_t kohiblad_pretty_at(uint32_t type, const uint8_t *payload, size_t size, size_t depth,
    uint8_t *out, size_t room, size_t *length);
uint32_t kohiblad_parse(const uint8_t *text, size_t size, size_t depth, uint32_t exponents,
    uint8_t *out, size_t room, size_t *length);
struct kohiblad_fault kohiblad_text_fault(const uint8_t *text, size_t size, size_t depth,
    uint32_t exponents);
struct kohiblad_expected kohiblad_text_expected(const uint8_t *text, size_t size, size_t depth,
    uint32_t exponents);
uint32_t kohiblad_build_array(const uint8_t *bytes, size_t size, const size_t *offsets,
    size_t count, size_t depth, uint8_t *out, size_t room, size_t *length);
uint32_t kohiblad_build_object(const uint8_t *bytes, size_t size, const size_t *offsets,
    size_t count, size_t depth, uint8_t *out, size_t room, size_t *length);
bool kohiblad_is_canonical(const uint8_t *bytes, size_t size, size_t depth);
uint32_t kohiblad_canonical(const uint8_t *bytes, size_t size, size_t depth, uint8_t *out,
    size_t room, size_t *length);
uint32_t kohiblad_key_layout(void);
uint32_t kohiblad_key(const uint8_t *bytes, size_t size, size_t depth, uint8_t *out, size_t room,
    size_t *length);
uint32_t kohiblad_key_cut(const uint8_t *bytes, size_t size, size_t depth, uint8_t *out,
    size_t room, size_t *length);
uint32_t kohiblad_member_key(const uint8_t *bytes, size_t size, const uint8_t *names,
    size_t names_size, size_t depth, uint8_t *out, size_t room, size_t *length);
uint32_t kohiblad_sort(const uint8_t *bytes, size_t size, const size_t *offsets, size_t count,
    size_t depth, size_t *order, size_t room);
struct kohiblad_survey_counts kohiblad_survey(const uint8_t *bytes, size_t size,
    const size_t *offsets, size_t count, const uint8_t *path, size_t path_size, size_t depth);
struct kohiblad_taken kohiblad_take_int64(const uint8_t *bytes, size_t size, const size_t *offsets,
    size_t count, const uint8_t *path, size_t path_size, size_t depth, uint32_t fit,
    int64_t *values, size_t room, uint8_t *states, size_t states_room);
struct kohiblad_taken kohiblad_take_uint64(const uint8_t *bytes, size_t size, const size_t *offsets,
    size_t count, const uint8_t *path, size_t path_size, size_t depth, uint32_t fit,
    uint64_t *values, size_t room, uint8_t *states, size_t states_room);
struct kohiblad_taken kohiblad_take_decimal(const uint8_t *bytes, size_t size,
    const size_t *offsets, size_t count, const uint8_t *path, size_t path_size, size_t depth,
    uint32_t fit, uint32_t scale, struct kohiblad_int128 *values, size_t room, uint8_t *states,
    size_t states_room);
struct kohiblad_taken kohiblad_take_boolean(const uint8_t *bytes, size_t size,
    const size_t *offsets, size_t count, const uint8_t *path, size_t path_size, size_t depth,
    uint8_t *values, size_t room, uint8_t *states, size_t states_room);
struct kohiblad_taken kohiblad_take_text(const uint8_t *bytes, size_t size, const size_t *offsets,
    size_t count, const uint8_t *path, size_t path_size, size_t depth, uint8_t *out, size_t room,
    size_t *length, size_t *text_offsets, size_t offsets_room, uint8_t *states, size_t states_room);
struct kohiblad_taken kohiblad_take_int64_unchecked(const uint8_t *bytes, size_t size,
    const size_t *offsets, size_t count, const uint8_t *path, size_t path_size, size_t depth,
    uint32_t fit, int64_t *values, size_t room, uint8_t *states, size_t states_room);
struct kohiblad_taken kohiblad_take_uint64_unchecked(const uint8_t *bytes, size_t size,
    const size_t *offsets, size_t count, const uint8_t *path, size_t path_size, size_t depth,
    uint32_t fit, uint64_t *values, size_t room, uint8_t *states, size_t states_room);
struct kohiblad_taken kohiblad_take_decimal_unchecked(const uint8_t *bytes, size_t size,
    const size_t *offsets, size_t count, const uint8_t *path, size_t path_size, size_t depth,
    uint32_t fit, uint32_t scale, struct kohiblad_int128 *values, size_t room, uint8_t *states,
    size_t states_room);
struct kohiblad_taken kohiblad_take_boolean_unchecked(const uint8_t *bytes, size_t size,
    const size_t *offsets, size_t count, const uint8_t *path, size_t path_size, size_t depth,
    uint8_t *values, size_t room, uint8_t *states, size_t states_room);
struct kohiblad_taken kohiblad_take_text_unchecked(const uint8_t *bytes, size_t size,
    const size_t *offsets, size_t count, const uint8_t *path, size_t path_size, size_t depth,
    uint8_t *out, size_t room, size_t *length, size_t *text_offsets, size_t offsets_room,
    uint8_t *states, size_t states_room);
struct kohiblad_taken kohiblad_take_text32(const uint8_t *bytes, size_t size, const size_t *offsets,
    size_t count, const uint8_t *path, size_t path_size, size_t depth, uint8_t *out, size_t room,
    size_t *length, uint32_t *text_offsets, size_t offsets_room, uint8_t *states,
    size_t states_room);
struct kohiblad_taken kohiblad_take_text32_unchecked(const uint8_t *bytes, size_t size,
    const size_t *offsets, size_t count, const uint8_t *path, size_t path_size, size_t depth,
    uint8_t *out, size_t room, size_t *length, uint32_t *text_offsets, size_t offsets_room,
    uint8_t *states, size_t states_room);
struct kohiblad_taken kohiblad_take_binary(const uint8_t *bytes, size_t size, const size_t *offsets,
    size_t count, const uint8_t *path, size_t path_size, size_t depth, uint8_t *out, size_t room,
    size_t *length, size_t *value_offsets, size_t offsets_room, uint8_t *states,
    size_t states_room);
struct kohiblad_taken kohiblad_take_binary_unchecked(const uint8_t *bytes, size_t size,
    const size_t *offsets, size_t count, const uint8_t *path, size_t path_size, size_t depth,
    uint8_t *out, size_t room, size_t *length, size_t *value_offsets, size_t offsets_room,
    uint8_t *states, size_t states_room);
struct kohiblad_taken kohiblad_take_date(const uint8_t *bytes, size_t size, const size_t *offsets,
    size_t count, const uint8_t *path, size_t path_size, size_t depth, int32_t *values, size_t room,
    uint8_t *states, size_t states_room);
struct kohiblad_taken kohiblad_take_date_unchecked(const uint8_t *bytes, size_t size,
    const size_t *offsets, size_t count, const uint8_t *path, size_t path_size, size_t depth,
    int32_t *values, size_t room, uint8_t *states, size_t states_room);
struct kohiblad_taken kohiblad_take_timestamp(const uint8_t *bytes, size_t size,
    const size_t *offsets, size_t count, const uint8_t *path, size_t path_size, size_t depth,
    int64_t *values, size_t room, uint8_t *states, size_t states_room);
struct kohiblad_taken kohiblad_take_timestamp_unchecked(const uint8_t *bytes, size_t size,
    const size_t *offsets, size_t count, const uint8_t *path, size_t path_size, size_t depth,
    int64_t *values, size_t room, uint8_t *states, size_t states_room);
struct kohiblad_taken kohiblad_take_timestamp_tz(const uint8_t *bytes, size_t size,
    const size_t *offsets, size_t count, const uint8_t *path, size_t path_size, size_t depth,
    struct kohiblad_timestamp_tz *values, size_t room, uint8_t *states, size_t states_room);
struct kohiblad_taken kohiblad_take_timestamp_tz_unchecked(const uint8_t *bytes, size_t size,
    const size_t *offsets, size_t count, const uint8_t *path, size_t path_size, size_t depth,
    struct kohiblad_timestamp_tz *values, size_t room, uint8_t *states, size_t states_room);
struct kohiblad_taken kohiblad_take_interval(const uint8_t *bytes, size_t size,
    const size_t *offsets, size_t count, const uint8_t *path, size_t path_size, size_t depth,
    struct kohiblad_interval *values, size_t room, uint8_t *states, size_t states_room);
struct kohiblad_taken kohiblad_take_interval_unchecked(const uint8_t *bytes, size_t size,
    const size_t *offsets, size_t count, const uint8_t *path, size_t path_size, size_t depth,
    struct kohiblad_interval *values, size_t room, uint8_t *states, size_t states_room);
uint32_t kohiblad_zones_int64(const int64_t *values, size_t values_count, const uint8_t *states,
    size_t states_count, size_t block_rows, struct kohiblad_int64_zone *out, size_t room,
    size_t *count);
uint32_t kohiblad_zones_uint64(const uint64_t *values, size_t values_count, const uint8_t *states,
    size_t states_count, size_t block_rows, struct kohiblad_uint64_zone *out, size_t room,
    size_t *count);
uint32_t kohiblad_zones_decimal(const struct kohiblad_int128 *values, size_t values_count,
    const uint8_t *states, size_t states_count, size_t block_rows,
    struct kohiblad_decimal_zone *out, size_t room, size_t *count);
uint32_t kohiblad_zones_date(const int32_t *values, size_t values_count, const uint8_t *states,
    size_t states_count, size_t block_rows, struct kohiblad_date_zone *out, size_t room,
    size_t *count);
uint32_t kohiblad_build_typed_file(const uint8_t *bytes, size_t size, const size_t *offsets,
    size_t count, const uint8_t *names, size_t names_size, const uint8_t *types, size_t types_size,
    size_t depth, uint8_t *out, size_t room, size_t *length);
struct kohiblad_typed_file kohiblad_check_typed_file(const uint8_t *bytes, size_t size,
    size_t depth);
uint32_t kohiblad_typed_columns(const uint8_t *bytes, size_t size,
    struct kohiblad_typed_column *out, size_t room, size_t *count);
uint32_t kohiblad_typed_row(const uint8_t *bytes, size_t size, size_t index, size_t depth,
    uint8_t *out, size_t room, size_t *length);
uint32_t kohiblad_locate(const uint8_t *bytes, size_t size, const size_t *offsets, size_t count,
    const uint8_t *names, size_t names_size, size_t depth, struct kohiblad_place *places,
    size_t room);
uint32_t kohiblad_locate_unchecked(const uint8_t *bytes, size_t size, const size_t *offsets,
    size_t count, const uint8_t *names, size_t names_size, size_t depth,
    struct kohiblad_place *places, size_t room);
struct kohiblad_taken kohiblad_take_int64_at(const uint8_t *bytes, size_t size,
    const struct kohiblad_place *places, size_t count, size_t step, uint32_t fit, int64_t *values,
    size_t room, uint8_t *states, size_t states_room);
struct kohiblad_taken kohiblad_take_uint64_at(const uint8_t *bytes, size_t size,
    const struct kohiblad_place *places, size_t count, size_t step, uint32_t fit, uint64_t *values,
    size_t room, uint8_t *states, size_t states_room);
struct kohiblad_taken kohiblad_take_decimal_at(const uint8_t *bytes, size_t size,
    const struct kohiblad_place *places, size_t count, size_t step, uint32_t fit, uint32_t scale,
    struct kohiblad_int128 *values, size_t room, uint8_t *states, size_t states_room);
struct kohiblad_taken kohiblad_take_boolean_at(const uint8_t *bytes, size_t size,
    const struct kohiblad_place *places, size_t count, size_t step, uint8_t *values, size_t room,
    uint8_t *states, size_t states_room);
struct kohiblad_taken kohiblad_take_date_at(const uint8_t *bytes, size_t size,
    const struct kohiblad_place *places, size_t count, size_t step, int32_t *values, size_t room,
    uint8_t *states, size_t states_room);
struct kohiblad_taken kohiblad_take_timestamp_at(const uint8_t *bytes, size_t size,
    const struct kohiblad_place *places, size_t count, size_t step, int64_t *values, size_t room,
    uint8_t *states, size_t states_room);
struct kohiblad_taken kohiblad_take_timestamp_tz_at(const uint8_t *bytes, size_t size,
    const struct kohiblad_place *places, size_t count, size_t step,
    struct kohiblad_timestamp_tz *values, size_t room, uint8_t *states, size_t states_room);
struct kohiblad_taken kohiblad_take_interval_at(const uint8_t *bytes, size_t size,
    const struct kohiblad_place *places, size_t count, size_t step,
    struct kohiblad_interval *values, size_t room, uint8_t *states, size_t states_room);
struct kohiblad_taken kohiblad_take_text_at(const uint8_t *bytes, size_t size,
    const struct kohiblad_place *places, size_t count, size_t step, uint8_t *out, size_t room,
    size_t *length, size_t *text_offsets, size_t offsets_room, uint8_t *states, size_t states_room);
struct kohiblad_taken kohiblad_take_text32_at(const uint8_t *bytes, size_t size,
    const struct kohiblad_place *places, size_t count, size_t step, uint8_t *out, size_t room,
    size_t *length, uint32_t *text_offsets, size_t offsets_room, uint8_t *states,
    size_t states_room);
struct kohiblad_taken kohiblad_take_binary_at(const uint8_t *bytes, size_t size,
    const struct kohiblad_place *places, size_t count, size_t step, uint8_t *out, size_t room,
    size_t *length, size_t *value_offsets, size_t offsets_room, uint8_t *states,
    size_t states_room);
struct kohiblad_truth kohiblad_contains(const uint8_t *left, size_t left_size, const uint8_t *right,
    size_t right_size, size_t depth, size_t steps);
struct kohiblad_truth kohiblad_exists(const uint8_t *bytes, size_t size, const uint8_t *key,
    size_t key_size, size_t depth);
struct kohiblad_truth kohiblad_exists_any(const uint8_t *bytes, size_t size, const uint8_t *names,
    size_t names_size, size_t depth);
struct kohiblad_truth kohiblad_exists_all(const uint8_t *bytes, size_t size, const uint8_t *names,
    size_t names_size, size_t depth);
uint32_t kohiblad_concat(const uint8_t *left, size_t left_size, const uint8_t *right,
    size_t right_size, size_t depth, uint8_t *out, size_t room, size_t *length);
uint32_t kohiblad_merge_patch(const uint8_t *target, size_t target_size, const uint8_t *patch,
    size_t patch_size, size_t depth, uint8_t *out, size_t room, size_t *length);
uint32_t kohiblad_strip_nulls(const uint8_t *bytes, size_t size, size_t depth, uint8_t *out,
    size_t room, size_t *length);
uint32_t kohiblad_pick(const uint8_t *bytes, size_t size, const uint8_t *names, size_t names_size,
    uint32_t others, size_t depth, uint8_t *out, size_t room, size_t *length);
uint32_t kohiblad_object_keys(const uint8_t *bytes, size_t size, size_t depth, uint8_t *out,
    size_t room, size_t *length);
uint32_t kohiblad_array_distinct(const uint8_t *bytes, size_t size, size_t depth, uint8_t *out,
    size_t room, size_t *length);
uint32_t kohiblad_array_intersection(const uint8_t *left, size_t left_size, const uint8_t *right,
    size_t right_size, size_t depth, uint8_t *out, size_t room, size_t *length);
uint32_t kohiblad_array_except(const uint8_t *left, size_t left_size, const uint8_t *right,
    size_t right_size, size_t depth, uint8_t *out, size_t room, size_t *length);
struct kohiblad_truth kohiblad_array_overlap(const uint8_t *left, size_t left_size,
    const uint8_t *right, size_t right_size, size_t depth);
uint32_t kohiblad_edit(const uint8_t *bytes, size_t size, const uint8_t *path, size_t path_size,
    uint32_t edit, const uint8_t *value, size_t value_size, size_t depth, uint8_t *out, size_t room,
    size_t *length);
uint32_t kohiblad_path_of_text(const uint8_t *text, size_t size, uint8_t *out, size_t room,
    size_t *length);
uint32_t kohiblad_path_in(const uint8_t *bytes, size_t size, const uint8_t *text, size_t text_size,
    size_t depth, uint8_t *out, size_t room, size_t *length);
struct kohiblad_place kohiblad_get_path(const uint8_t *bytes, size_t size, const uint8_t *path,
    size_t path_size, size_t depth);
uint32_t kohiblad_select(const uint8_t *bytes, size_t size, const uint8_t *path, size_t path_size,
    size_t depth, struct kohiblad_place *out, size_t room, size_t *count);
uint32_t kohiblad_select_within(const uint8_t *bytes, size_t size, const uint8_t *path,
    size_t path_size, size_t depth, size_t steps, struct kohiblad_place *out, size_t room,
    size_t *count);
uint32_t kohiblad_index_keys(const uint8_t *bytes, size_t size, size_t depth, uint64_t *out,
    size_t room, size_t *count);
uint32_t kohiblad_top_keys(const uint8_t *bytes, size_t size, size_t depth, uint64_t *out,
    size_t room, size_t *count);
struct kohiblad_path_refusal kohiblad_path_fault(const uint8_t *path, size_t path_size);
uint32_t kohiblad_path_report(const uint8_t *path, size_t path_size, uint8_t *out, size_t room,
    size_t *length);
uint32_t kohiblad_path_print(const uint8_t *path, size_t path_size, uint8_t *out, size_t room,
    size_t *length);
uint32_t kohiblad_path_query(const uint8_t *bytes, size_t size, const uint8_t *path,
    size_t path_size, const uint8_t *variables, size_t variables_size, uint32_t silent,
    size_t depth, uint8_t *out, size_t room, size_t *length);
struct kohiblad_truth kohiblad_path_exists(const uint8_t *bytes, size_t size, const uint8_t *path,
    size_t path_size, const uint8_t *variables, size_t variables_size, uint32_t silent,
    size_t depth);
struct kohiblad_truth kohiblad_path_match(const uint8_t *bytes, size_t size, const uint8_t *path,
    size_t path_size, const uint8_t *variables, size_t variables_size, uint32_t silent,
    size_t depth);
