/* Kohiblad, for C and C++: JSON values as binary documents, searched, compared, sorted and printed
 * in place. docs/C.md says what is proved of each call, and what a caller owes.
 *
 *     uint8_t row[256];
 *     size_t length;
 *     uint32_t status = kohiblad_parse(text, text_size, 64, KOHIBLAD_EXPONENTS_ALLOWED, row,
 *         sizeof row, &length);
 *
 * BYTES go in as a pointer and a length. Any bytes may be given: no call reads outside them, and
 * each says what it returns if they are not a document. No call writes to its input.
 *
 * DEPTH: a scalar has depth 0, an array or object one more than its deepest child, and at least 1.
 * Each call that walks a document takes a depth, and looks no deeper: to it a document that nests
 * deeper is not a document. Give the depth for which the thread has stack (see STACK). Bytes that
 * were checked before, by kohiblad_check, need no limit again: SIZE_MAX is none, since bytes do not
 * nest deeper than they are many. The depth counts for each document that goes in: a path and names
 * are arrays, so with the depth 0 each of them is refused.
 *
 * RESULTS that are bytes are written as snprintf writes: `out` has room for `room` bytes, and
 * `*length` is set to the number of bytes that the result has, also if they do not fit. Then the
 * status is KOHIBLAD_NO_ROOM and `out` is untouched, and the call can be repeated with more room;
 * `room` 0 gives the length alone. With every other status but KOHIBLAD_OK, `out` is untouched and
 * `*length` is 0. So it is with a `*count` of hashes, places or zones. A struct whose status is not
 * KOHIBLAD_OK has zeros beside it. The calls that differ say so. Texts are UTF-8, without a zero
 * byte at the end.
 *
 * ORDER: if a call has several reasons to refuse, KOHIBLAD_OVERLAP comes first, and then
 * KOHIBLAD_INVALID_EOF for offsets of rows. Then come texts, keys and names that are not UTF-8, in
 * calls with a depth bytes that are not documents within it, what is of another kind, what is past
 * a limit of the format, and last KOHIBLAD_NO_ROOM. KOHIBLAD_OUT_OF_MEMORY comes after the tests
 * for UTF-8 and documents, and in place of any status that would be found later. The calls that
 * differ say so: kohiblad_parse, kohiblad_text_fault and kohiblad_text_expected;
 * kohiblad_build_object and kohiblad_build_typed_file; the three kohiblad_take_decimal calls and
 * kohiblad_take_members; and kohiblad_sort, kohiblad_pretty and kohiblad_pretty_at, which ask for
 * memory only where there is room.
 *
 * OWNERSHIP: everything belongs to the caller. No call keeps a pointer, and none hands memory out.
 * What a call writes must lie apart from its input, and from all else that it writes. If it does
 * not, the functions below return KOHIBLAD_OVERLAP and write nothing, `*length` neither.
 *
 * MEMORY: calls that say so allocate by malloc and realloc, and free all of it before they return.
 * If an allocation fails, the status is KOHIBLAD_OUT_OF_MEMORY. All other calls allocate nothing.
 * Beside malloc, realloc and free the library needs memcpy, memmove and memset, and nothing else.
 *
 * THREADS: the library is reentrant: it has no state. Any call may run in any thread, beside any
 * other, also over the same bytes, as long as nobody writes them. Do not call it in a signal
 * handler.
 *
 * STACK: calls with a depth recurse as deep as the document nests, up to that depth.
 * KOHIBLAD_LEVEL_STACK bytes for each level, and KOHIBLAD_CALL_STACK beside them, are enough for
 * all but the five calls below: 64 levels need 72 KB, and 1,000 levels 1,008 KB. So many levels fit
 * a stack as kohiblad_depth_of_stack says; kohiblad_stack.h asks how much is left to a thread. Most
 * calls need fewer bytes for each level (these were measured and rounded up, so that 1,000 levels
 * need 258 KB in kohiblad_check):
 *
 *     256 bytes: check, is_canonical, build_array, build_object, exists, exists_any, exists_all,
 *                object_keys, top_keys, get_path, path_in, survey, locate, take_int64, take_text,
 *                check_typed_file
 *     320 bytes: print, print_at, pretty, pretty_at, key, key_cut, member_key, compare, sort,
 *                array_intersection, array_overlap
 *     448 bytes: canonical, index_keys
 *     576 bytes: select
 *     768 bytes: pick, array_distinct, array_except
 *     896 bytes: strip_nulls, select_within
 *
 * The other calls that take members need no more than take_int64 and take_text. kohiblad_edit and
 * kohiblad_concat take KOHIBLAD_EDIT_LEVEL_STACK bytes for each level of their result, and so do
 * kohiblad_build_typed_file and kohiblad_typed_row for each level of a row. That of an edit may
 * nest as deep as the path is long and the value nests together, also where these are within the
 * depth; that of kohiblad_concat may nest one level deeper than that.
 * kohiblad_merge_patch takes KOHIBLAD_PATCH_LEVEL_STACK bytes for each level. parse, text_fault and
 * text_expected do not recurse, but the depth given to kohiblad_parse is also how deep its document
 * nests. The calls without a depth do not recurse, but for those that take a path of SQL/JSON:
 * kohiblad_path_query, _path_exists, _path_match, _path_fault, _path_report and _path_print take up
 * to 11 KB for each level of parentheses, filters, subscripts and signs of the path, of which it
 * has at most 64, and then up to 1,900 bytes for each of the 400 levels at most of its operators
 * and other parts. So KOHIBLAD_PATH_STACK bytes are enough for any path, beside those for the
 * document's levels.
 *
 * NULL is allowed for bytes, texts, offsets, values, states, out and order whose length is 0, and
 * for `key` of kohiblad_next. A `length`, a `count`, a cursor and `value` of kohiblad_next are
 * never null.
 *
 * OTHER LANGUAGES: the functions below are inline. They replace null and refuse overlaps, and then
 * call the library's export of the same name. A caller that loads the library by itself calls the
 * exports, with the same arguments: it must pass pointers that are not null, and keep what is
 * written apart. kohiblad_cffi.h declares the exports alone. */
#ifndef KOHIBLAD_H
#define KOHIBLAD_H

#include <stdbool.h>
#include <stddef.h>
#include <stdint.h>

/* The version that this header describes: millions, thousands and ones. */
#define KOHIBLAD_VERSION 9000

/* The stack that is enough, in bytes: see STACK above. These were measured, on x86-64. */
#define KOHIBLAD_LEVEL_STACK 1024
#define KOHIBLAD_EDIT_LEVEL_STACK 2048
#define KOHIBLAD_PATCH_LEVEL_STACK 2432
#define KOHIBLAD_CALL_STACK 8192
#define KOHIBLAD_PATH_STACK 1048576

/* The room that is enough for the words of a fault. */
#define KOHIBLAD_WORDS_ROOM 512

/* The room that is enough for the text of a date, a timestamp or an interval. */
#define KOHIBLAD_TIME_TEXT_ROOM 64

/* How the functions of this header are named to the assembler: an inline function must not have its
 * export's name, and an export is declared here by another. */
#define KOHIBLAD_INLINE(name) __asm__(name "_inline")
#define KOHIBLAD_EXPORT(name) __asm__(name)

#ifdef __cplusplus
extern "C" {
#endif

/* The depth that so many bytes of stack carry, in calls that take `level_stack` of them for each
 * level: KOHIBLAD_LEVEL_STACK, KOHIBLAD_EDIT_LEVEL_STACK or KOHIBLAD_PATCH_LEVEL_STACK. */
static inline size_t kohiblad_depth_of_stack(size_t stack, size_t level_stack) {
    return stack > KOHIBLAD_CALL_STACK ? (stack - KOHIBLAD_CALL_STACK) / level_stack : 0;
}

/* Whether kohiblad_parse and kohiblad_text_fault take numbers with an exponent. */
enum kohiblad_exponents { KOHIBLAD_EXPONENTS_FORBIDDEN = 0, KOHIBLAD_EXPONENTS_ALLOWED = 1 };

/* What kohiblad_edit does at the end of a path. */
enum kohiblad_edit_kind {
    KOHIBLAD_PUT = 0,    /* the value comes in place of what is there, or is added */
    KOHIBLAD_INSERT = 1, /* the value comes before an item, or as a member with a new key */
    KOHIBLAD_REMOVE = 2, /* what is there goes; no value is read */
    KOHIBLAD_CREATE = 3  /* as KOHIBLAD_PUT, and what the path lacks is made */
};

/* Which members kohiblad_pick keeps. */
enum kohiblad_members { KOHIBLAD_NAMED = 0, KOHIBLAD_OTHERS = 1 };

/* What a call returns. */
enum kohiblad_status {
    KOHIBLAD_OK = 0,
    KOHIBLAD_INVALID_EOF = 1,             /* the bytes are cut, or rows are outside them */
    KOHIBLAD_INVALID_JSONB = 2,           /* no document, or past a limit of the format */
    KOHIBLAD_INVALID_JSONB_HEADER = 3,
    KOHIBLAD_INVALID_JSONB_JENTRY = 4,
    KOHIBLAD_INVALID_JSONB_NUMBER = 5,
    KOHIBLAD_INVALID_JSONB_EXTENSION = 6,
    KOHIBLAD_INVALID_UTF8 = 7,
    KOHIBLAD_OBJECT_DUPLICATE_KEY = 8,
    KOHIBLAD_INVALID_JSON = 9,            /* the text is no JSON */
    KOHIBLAD_OUT_OF_MEMORY = 10,
    KOHIBLAD_NO_ROOM = 11,
    KOHIBLAD_NONE = 12,                   /* no such item, member or key */
    KOHIBLAD_TOO_DEEP = 13,
    KOHIBLAD_OTHER_KIND = 14,             /* the value is of another kind */
    KOHIBLAD_PAST_RANGE = 15,             /* the number does not fit what was asked for */
    KOHIBLAD_OVERLAP = 16,                /* what a call writes overlaps something else */
    KOHIBLAD_BAD_NUMBER = 17,             /* the text has an unfinished or too large number */
    KOHIBLAD_TOO_MANY_STEPS = 18,         /* the call took more steps than it may */
    KOHIBLAD_BAD_MAGIC = 19,              /* the bytes do not begin as a file of typed columns */
    KOHIBLAD_UNKNOWN_VERSION = 20,        /* the file has another version of the format */
    KOHIBLAD_TRAILING_DATA = 21,          /* there are bytes after the end of the file */
    KOHIBLAD_WRONG_LENGTH = 22,           /* a length does not fit the number of rows */
    KOHIBLAD_OUT_OF_FORM = 23,            /* what is in the file is out of form */
    KOHIBLAD_NOT_READ_BACK = 24,          /* the file did not give its rows back */
    KOHIBLAD_MEMBER_NOT_FOUND = 25,       /* of a path: an object has no such member */
    KOHIBLAD_OBJECT_NOT_FOUND = 26,       /* of a path: a value is no object */
    KOHIBLAD_ARRAY_NOT_FOUND = 27,        /* of a path: a value is no array */
    KOHIBLAD_INVALID_SUBSCRIPT = 28,      /* of a path: no index, or out of bounds */
    KOHIBLAD_NON_NUMERIC_ITEM = 29,       /* of a path: a value to be rounded is no number */
    KOHIBLAD_SINGLETON_REQUIRED = 30,     /* of a path: an operand is not one number */
    KOHIBLAD_NUMBER_NOT_FOUND = 31,       /* of a path: a value after a sign is no number */
    KOHIBLAD_DIVISION_BY_ZERO = 32,       /* of a path: a remainder by zero */
    KOHIBLAD_OUT_OF_RANGE = 33,           /* of a path: a computed number does not fit */
    KOHIBLAD_UNDEFINED_VARIABLE = 34,     /* of a path: a variable is not given */
    KOHIBLAD_BOOLEAN_REQUIRED = 35        /* of a path: there is no one boolean or null */
};

/* What may come in a text: kohiblad_text_expected returns the sum of some of them. */
enum kohiblad_expected_class {
    KOHIBLAD_EXPECTED_STRING = 0x1,      /* the rest of a string: any but control characters */
    KOHIBLAD_EXPECTED_VALUE = 0x2,
    KOHIBLAD_EXPECTED_KEY = 0x4,
    KOHIBLAD_EXPECTED_ESCAPE = 0x8,      /* what follows a backslash */
    KOHIBLAD_EXPECTED_HEX_DIGIT = 0x10,  /* of an escape */
    KOHIBLAD_EXPECTED_LOW_HALF = 0x20,   /* the escape that ends a surrogate pair */
    KOHIBLAD_EXPECTED_DIGIT = 0x40,      /* of a number, where no value may begin */
    KOHIBLAD_EXPECTED_SIGN = 0x80,       /* of an exponent */
    KOHIBLAD_EXPECTED_POINT = 0x100,
    KOHIBLAD_EXPECTED_COLON = 0x200,
    KOHIBLAD_EXPECTED_COMMA = 0x400,
    KOHIBLAD_EXPECTED_ARRAY_END = 0x800,
    KOHIBLAD_EXPECTED_OBJECT_END = 0x1000,
    KOHIBLAD_EXPECTED_EXPONENT = 0x2000,
    KOHIBLAD_EXPECTED_A = 0x4000,        /* this letter of true, false or null, and those below */
    KOHIBLAD_EXPECTED_E = 0x8000,
    KOHIBLAD_EXPECTED_L = 0x10000,
    KOHIBLAD_EXPECTED_R = 0x20000,
    KOHIBLAD_EXPECTED_S = 0x40000,
    KOHIBLAD_EXPECTED_U = 0x80000,       /* and that of the escape that ends a surrogate pair */
    KOHIBLAD_EXPECTED_END = 0x100000     /* the text may end */
};

/* Why a text is no path, as kohiblad_path_fault says it. */
enum kohiblad_path_reason {
    KOHIBLAD_PATH_UNCLOSED_COMMENT = 1,
    KOHIBLAD_PATH_UNCLOSED_TEXT = 2,
    KOHIBLAD_PATH_INVALID_ESCAPE = 3, /* a backslash begins no escape */
    KOHIBLAD_PATH_INVALID_NUMBER = 4, /* a number goes on with a letter or another digit */
    KOHIBLAD_PATH_EXPECTED = 5,       /* something else is expected: enum kohiblad_path_expected */
    KOHIBLAD_PATH_LEFT_OUT = 6,       /* it is not read here: enum kohiblad_path_left_out */
    KOHIBLAD_PATH_TOO_DEEP = 7        /* parentheses and the like nest 64 levels, all parts 400 */
};

/* What may come where a text is no path. */
enum kohiblad_path_expected {
    KOHIBLAD_PATH_EXPECTED_KEY = 1,          /* or `*`, `**` or a method, after a point */
    KOHIBLAD_PATH_EXPECTED_LEVEL = 2,        /* of `.**`: a number below 2^31, or `last` */
    KOHIBLAD_PATH_EXPECTED_KEY_OR_VALUE = 3, /* after `.keyvalue()` */
    KOHIBLAD_PATH_EXPECTED_VALUE = 4,
    KOHIBLAD_PATH_EXPECTED_TEXT = 5,         /* or a variable, after `starts with` */
    KOHIBLAD_PATH_EXPECTED_MARK = 6,         /* the character `mark` */
    KOHIBLAD_PATH_EXPECTED_EXPRESSION = 7,   /* and no test, before this place */
    KOHIBLAD_PATH_EXPECTED_TEST = 8,         /* and no expression, before this place */
    KOHIBLAD_PATH_EXPECTED_END = 9           /* or an operator or an accessor */
};

/* What stands where something else is expected. */
enum kohiblad_path_found {
    KOHIBLAD_PATH_FOUND_END = 1,
    KOHIBLAD_PATH_FOUND_WORD = 2,
    KOHIBLAD_PATH_FOUND_TEXT = 3, /* in quotes */
    KOHIBLAD_PATH_FOUND_VARIABLE = 4,
    KOHIBLAD_PATH_FOUND_NUMBER = 5,
    KOHIBLAD_PATH_FOUND_MARK = 6  /* one character, or two that are one operator */
};

/* What PostgreSQL reads in a path, and this library does not. */
enum kohiblad_path_left_out {
    KOHIBLAD_PATH_DOUBLE = 1,      /* `.double()` */
    KOHIBLAD_PATH_DATETIME = 2,    /* `.datetime()` */
    KOHIBLAD_PATH_WIDE_NUMBER = 3, /* past 128 bits or a scale of 255 */
    KOHIBLAD_PATH_DIVISION = 4,    /* `/` */
    KOHIBLAD_PATH_LIKE_REGEX = 5   /* `like_regex` */
};

/* The kinds of values, as kohiblad_kind returns them. */
enum kohiblad_kind_number {
    KOHIBLAD_NULL = 0,
    KOHIBLAD_BOOLEAN = 1,
    KOHIBLAD_NUMBER = 2,
    KOHIBLAD_STRING = 3,
    KOHIBLAD_EXTENSION = 4,
    KOHIBLAD_ARRAY = 5,
    KOHIBLAD_OBJECT = 6
};

/* The types of entries, as kohiblad_find_index and kohiblad_find_key return them, and as
 * kohiblad_copy, kohiblad_print_at and kohiblad_pretty_at take them. */
enum kohiblad_type {
    KOHIBLAD_TYPE_NULL = 0x00000000,      /* no payload */
    KOHIBLAD_TYPE_STRING = 0x10000000,    /* the payload is the text */
    KOHIBLAD_TYPE_NUMBER = 0x20000000,
    KOHIBLAD_TYPE_FALSE = 0x30000000,     /* no payload */
    KOHIBLAD_TYPE_TRUE = 0x40000000,      /* no payload */
    KOHIBLAD_TYPE_CONTAINER = 0x50000000, /* the payload is a document: an array or an object */
    KOHIBLAD_TYPE_EXTENSION = 0x60000000
};

/* The tags of extension values. */
enum kohiblad_extension_tag {
    KOHIBLAD_BINARY = 0x00,
    KOHIBLAD_DATE = 0x10,
    KOHIBLAD_TIMESTAMP = 0x20,
    KOHIBLAD_TIMESTAMP_TZ = 0x30,
    KOHIBLAD_INTERVAL = 0x40
};

struct kohiblad_value_kind {
    uint32_t status;
    uint32_t kind;  /* enum kohiblad_kind_number */
    uint64_t count; /* of an array its items, of an object its pairs, else 0 */
};

struct kohiblad_place {
    uint32_t status;
    uint32_t type;   /* enum kohiblad_type */
    uint64_t offset; /* of the payload, from the start of the bytes */
    uint64_t length; /* of the payload */
};

/* Where a text is not JSON. */
struct kohiblad_fault {
    uint32_t status;
    uint64_t offset; /* after the longest beginning of the text that begins some JSON text */
};

/* What may come where a text is not JSON. */
struct kohiblad_expected {
    uint32_t status;
    uint32_t classes; /* the sum of some of enum kohiblad_expected_class */
};

/* Where and why a text is no path. */
struct kohiblad_path_refusal {
    uint32_t status;
    uint32_t reason;   /* enum kohiblad_path_reason, or 0 */
    uint64_t offset;   /* of what cannot stand there */
    uint32_t expected; /* enum kohiblad_path_expected, or 0 */
    uint32_t mark;     /* the character of the mark that is expected, or 0 */
    uint32_t found;    /* enum kohiblad_path_found, or 0 */
    uint32_t left_out; /* enum kohiblad_path_left_out, or 0 */
};

/* The state of a walk: the index of the next child, and the offsets of its key and value. */
struct kohiblad_cursor {
    uint64_t index;
    uint64_t key;
    uint64_t value;
};

struct kohiblad_decimal {
    uint32_t status;
    uint32_t scale; /* how many digits come after the point */
    int64_t high;   /* the number without its point is high * 2^64 + low */
    uint64_t low;
};

struct kohiblad_integer {
    uint32_t status;
    int64_t value;
};

struct kohiblad_truth {
    uint32_t status;
    uint32_t value; /* 0 or 1 */
};

/* An extension value: fields that its tag has not are 0. Data is in the bytes, at an offset from
 * their front: of a binary value, and of those of newer kinds, tags 0x50, 0x60 to 0xF0. */
struct kohiblad_extension_value {
    uint32_t status;
    uint32_t tag;    /* the payload's first byte: enum kohiblad_extension_tag, or a newer one */
    int64_t value;   /* of a date and a timestamp; of an interval its micros */
    int32_t months;  /* of an interval */
    int32_t days;    /* of an interval */
    int32_t seconds; /* of a timestamp with a zone: the zone's offset */
    uint64_t offset; /* of the data */
    uint64_t length; /* of the data */
};

/* When a number fits a column of numbers. */
enum kohiblad_fit {
    KOHIBLAD_BY_VALUE = 0, /* if it equals the value: 1.5 and 2 fit scale 2 */
    KOHIBLAD_EXACT = 1     /* if the value gives its kind and digits back: 1.50 fits scale 2 */
};

/* What a row has in a column of one type. */
enum kohiblad_row_state {
    KOHIBLAD_ROW_ABSENT = 0,     /* no member, or the row has no bytes */
    KOHIBLAD_ROW_VALUE = 1,      /* a value */
    KOHIBLAD_ROW_NULL = 2,       /* null */
    KOHIBLAD_ROW_UNFIT = 3,      /* another member, which is no value of the type */
    KOHIBLAD_ROW_NO_DOCUMENT = 4 /* bytes that are not a document */
};

/* A whole number of 128 bits, high * 2^64 + low. Where the least byte comes first, as on x86-64,
 * its bytes are those of Arrow's decimal128. */
struct kohiblad_int128 {
    uint64_t low;
    int64_t high;
};

/* A timestamp with a time zone. */
struct kohiblad_timestamp_tz {
    int64_t value;   /* the number that is stored */
    int32_t seconds; /* the zone's offset */
};

/* An interval, of three numbers apart. Where the least byte comes first, it lies as Arrow's
 * interval of months, days and nanoseconds does, with microseconds in their place. */
struct kohiblad_interval {
    int32_t months;
    int32_t days;
    int64_t micros;
};

/* The least and the greatest value of a block of rows, and whether it has a value: 1, or 0 beside
 * limits of 0. */
struct kohiblad_int64_zone {
    int64_t least;
    int64_t greatest;
    uint64_t has_value;
};
struct kohiblad_uint64_zone {
    uint64_t least;
    uint64_t greatest;
    uint64_t has_value;
};
struct kohiblad_decimal_zone {
    struct kohiblad_int128 least;
    struct kohiblad_int128 greatest;
    uint64_t has_value;
};
struct kohiblad_date_zone {
    int32_t least;
    int32_t greatest;
    uint64_t has_value;
};

/* The types of the columns of a file, as kohiblad_build_typed_file takes them and
 * kohiblad_typed_columns tells them. */
enum kohiblad_column_type {
    KOHIBLAD_COLUMN_BOOLEAN = 0,
    KOHIBLAD_COLUMN_INT64 = 1,
    KOHIBLAD_COLUMN_UINT64 = 2,
    KOHIBLAD_COLUMN_DECIMAL = 3, /* with the digits after the point beside it */
    KOHIBLAD_COLUMN_TEXT = 4,
    KOHIBLAD_COLUMN_DATE = 5,
    KOHIBLAD_COLUMN_TIMESTAMP = 6,
    KOHIBLAD_COLUMN_TIMESTAMP_TZ = 7,
    KOHIBLAD_COLUMN_INTERVAL = 8,
    KOHIBLAD_COLUMN_BINARY = 9
};

/* How many rows and columns a file of typed columns has. */
struct kohiblad_typed_file {
    uint32_t status;
    uint64_t rows;
    uint64_t columns;
};

/* A column of a file: its type, the number of rows, and how many bytes of the file are before its
 * name and its buffers, and how many each has. */
struct kohiblad_typed_column {
    uint32_t type;
    uint32_t scale;
    uint64_t rows;
    uint64_t name;
    uint64_t name_length;
    uint64_t flags;
    uint64_t flags_length;
    uint64_t numbers;
    uint64_t numbers_length;
    uint64_t texts;
    uint64_t texts_length;
};

/* The rows of a column that are unfit or no document: how many, and the first of them. */
struct kohiblad_taken {
    uint32_t status;
    uint64_t unfit;
    uint64_t first_unfit; /* the number of rows, if there is none */
};

/* A member that kohiblad_take_members takes: the type of its values, where these and the states of
 * the rows go, one of each for each row, and the answer. */
struct kohiblad_member {
    uint32_t type;  /* enum kohiblad_column_type, and neither text nor binary */
    uint32_t scale; /* the digits after the point, of decimals */
    void *values;   /* as the call of that type takes them: for int64 an array of int64_t */
    uint8_t *states;
    struct kohiblad_taken taken;
};

/* What the members of rows are: in how many rows they are what a count is named after. */
struct kohiblad_survey_counts {
    uint32_t status;
    uint32_t least_scale;    /* the least and the greatest number of digits after the point */
    uint32_t greatest_scale;
    uint64_t most_digits;    /* of a number, written without its point */
    uint64_t longest_text;   /* in bytes */
    uint64_t rows;
    uint64_t not_documents;
    uint64_t absent;
    uint64_t nulls;
    uint64_t booleans;
    uint64_t int64s;         /* numbers by the kind in which they are stored: */
    uint64_t uint64s;        /* whole numbers that are not negative are mostly of this one */
    uint64_t decimal64s;
    uint64_t decimal128s;
    uint64_t texts;
    uint64_t binaries;
    uint64_t dates;
    uint64_t timestamps;
    uint64_t zoned_timestamps;
    uint64_t intervals;
    uint64_t opaques;
    uint64_t arrays;
    uint64_t objects;
};

/* The version number of the library: a million per major, a thousand per minor and one per patch
 * version. */
static inline uint32_t kohiblad_version(void) KOHIBLAD_INLINE("kohiblad_version");

/* Copies the name of a status, or `Unknown` for other numbers, to `out`. A name has at most 21
 * bytes. */
static inline uint32_t kohiblad_status_name(uint32_t status, uint8_t *out, size_t room,
    size_t *length) KOHIBLAD_INLINE("kohiblad_status_name");

/* The name of a status, as kohiblad_status_name copies it, or `Unknown` for other numbers: a text
 * that stays, with a zero byte at its end. */
static inline const char *kohiblad_status_text(uint32_t status) {
    switch (status) {
    case KOHIBLAD_OK: return "Ok";
    case KOHIBLAD_INVALID_EOF: return "InvalidEOF";
    case KOHIBLAD_INVALID_JSONB: return "InvalidJsonb";
    case KOHIBLAD_INVALID_JSONB_HEADER: return "InvalidJsonbHeader";
    case KOHIBLAD_INVALID_JSONB_JENTRY: return "InvalidJsonbJEntry";
    case KOHIBLAD_INVALID_JSONB_NUMBER: return "InvalidJsonbNumber";
    case KOHIBLAD_INVALID_JSONB_EXTENSION: return "InvalidJsonbExtension";
    case KOHIBLAD_INVALID_UTF8: return "InvalidUtf8";
    case KOHIBLAD_OBJECT_DUPLICATE_KEY: return "ObjectDuplicateKey";
    case KOHIBLAD_INVALID_JSON: return "InvalidJson";
    case KOHIBLAD_OUT_OF_MEMORY: return "OutOfMemory";
    case KOHIBLAD_NO_ROOM: return "NoRoom";
    case KOHIBLAD_NONE: return "None";
    case KOHIBLAD_TOO_DEEP: return "TooDeep";
    case KOHIBLAD_OTHER_KIND: return "OtherKind";
    case KOHIBLAD_PAST_RANGE: return "PastRange";
    case KOHIBLAD_OVERLAP: return "Overlap";
    case KOHIBLAD_BAD_NUMBER: return "BadNumber";
    case KOHIBLAD_TOO_MANY_STEPS: return "TooManySteps";
    case KOHIBLAD_BAD_MAGIC: return "BadMagic";
    case KOHIBLAD_UNKNOWN_VERSION: return "UnknownVersion";
    case KOHIBLAD_TRAILING_DATA: return "TrailingData";
    case KOHIBLAD_WRONG_LENGTH: return "WrongLength";
    case KOHIBLAD_OUT_OF_FORM: return "OutOfForm";
    case KOHIBLAD_NOT_READ_BACK: return "NotReadBack";
    case KOHIBLAD_MEMBER_NOT_FOUND: return "MemberNotFound";
    case KOHIBLAD_OBJECT_NOT_FOUND: return "ObjectNotFound";
    case KOHIBLAD_ARRAY_NOT_FOUND: return "ArrayNotFound";
    case KOHIBLAD_INVALID_SUBSCRIPT: return "InvalidSubscript";
    case KOHIBLAD_NON_NUMERIC_ITEM: return "NonNumericItem";
    case KOHIBLAD_SINGLETON_REQUIRED: return "SingletonRequired";
    case KOHIBLAD_NUMBER_NOT_FOUND: return "NumberNotFound";
    case KOHIBLAD_DIVISION_BY_ZERO: return "DivisionByZero";
    case KOHIBLAD_OUT_OF_RANGE: return "OutOfRange";
    case KOHIBLAD_UNDEFINED_VARIABLE: return "UndefinedVariable";
    case KOHIBLAD_BOOLEAN_REQUIRED: return "BooleanRequired";
    default: return "Unknown";
    }
}

/* Why there is no result, in a few words, to be put after what was tried: the reason of a status,
 * also of that of a fault in a text. */
static inline const char *kohiblad_status_reason(uint32_t status) {
    switch (status) {
    case KOHIBLAD_OK: return "the result is there";
    case KOHIBLAD_INVALID_EOF: return "the bytes are cut, or rows are outside them";
    case KOHIBLAD_INVALID_JSONB:
        return "no document within the depth, or past a limit of the format";
    case KOHIBLAD_INVALID_JSONB_HEADER: return "the header is of no kind";
    case KOHIBLAD_INVALID_JSONB_JENTRY: return "entries have no such type";
    case KOHIBLAD_INVALID_JSONB_NUMBER: return "the payload is not that of a number";
    case KOHIBLAD_INVALID_JSONB_EXTENSION: return "there is no such extension value";
    case KOHIBLAD_INVALID_UTF8: return "the text is not UTF-8";
    case KOHIBLAD_OBJECT_DUPLICATE_KEY: return "a key comes twice";
    case KOHIBLAD_INVALID_JSON: return "the text is no JSON";
    case KOHIBLAD_OUT_OF_MEMORY: return "an allocation failed";
    case KOHIBLAD_NO_ROOM: return "the result is longer than the room for it";
    case KOHIBLAD_NONE: return "there is no such item, member, key or child";
    case KOHIBLAD_TOO_DEEP: return "the text nests deeper than the depth";
    case KOHIBLAD_OTHER_KIND: return "it is of another kind than the call takes";
    case KOHIBLAD_PAST_RANGE:
        return "the number is too large, or has too many digits after its point";
    case KOHIBLAD_OVERLAP: return "what a call writes overlaps something else";
    case KOHIBLAD_BAD_NUMBER: return "the text has an unfinished or too large number";
    case KOHIBLAD_TOO_MANY_STEPS: return "the call took more steps than it may";
    case KOHIBLAD_BAD_MAGIC: return "the bytes do not begin as a file of typed columns";
    case KOHIBLAD_UNKNOWN_VERSION: return "the file has another version of the format";
    case KOHIBLAD_TRAILING_DATA: return "there are bytes after the end of the file";
    case KOHIBLAD_WRONG_LENGTH: return "a length does not fit the number of rows";
    case KOHIBLAD_OUT_OF_FORM: return "what is in the file is out of form";
    case KOHIBLAD_NOT_READ_BACK: return "the file did not give its rows back";
    case KOHIBLAD_MEMBER_NOT_FOUND: return "the path asks for a member that is not there";
    case KOHIBLAD_OBJECT_NOT_FOUND: return "the path asks for the members of what is no object";
    case KOHIBLAD_ARRAY_NOT_FOUND: return "the path asks for the items of what is no array";
    case KOHIBLAD_INVALID_SUBSCRIPT: return "a subscript of the path is no index, or out of bounds";
    case KOHIBLAD_NON_NUMERIC_ITEM: return "the path rounds what is no number";
    case KOHIBLAD_SINGLETON_REQUIRED: return "an operand of the path is not one number";
    case KOHIBLAD_NUMBER_NOT_FOUND: return "what is after a sign of the path is no number";
    case KOHIBLAD_DIVISION_BY_ZERO: return "the path takes a remainder by zero";
    case KOHIBLAD_OUT_OF_RANGE: return "a number that the path computes does not fit";
    case KOHIBLAD_UNDEFINED_VARIABLE: return "a variable of the path is not given";
    case KOHIBLAD_BOOLEAN_REQUIRED: return "the path gives no one boolean or null";
    default: return "the status is unknown";
    }
}

/* What may come in a text, in a few words: the name of one class, or `Unknown`. */
static inline const char *kohiblad_expected_text(uint32_t expected_class) {
    switch (expected_class) {
    case KOHIBLAD_EXPECTED_STRING: return "the rest of a string";
    case KOHIBLAD_EXPECTED_VALUE: return "a value";
    case KOHIBLAD_EXPECTED_KEY: return "a key";
    case KOHIBLAD_EXPECTED_ESCAPE: return "an escape";
    case KOHIBLAD_EXPECTED_HEX_DIGIT: return "a hexadecimal digit";
    case KOHIBLAD_EXPECTED_LOW_HALF: return "the other half of a surrogate pair";
    case KOHIBLAD_EXPECTED_DIGIT: return "a digit";
    case KOHIBLAD_EXPECTED_SIGN: return "a sign";
    case KOHIBLAD_EXPECTED_POINT: return "'.'";
    case KOHIBLAD_EXPECTED_COLON: return "':'";
    case KOHIBLAD_EXPECTED_COMMA: return "','";
    case KOHIBLAD_EXPECTED_ARRAY_END: return "']'";
    case KOHIBLAD_EXPECTED_OBJECT_END: return "'}'";
    case KOHIBLAD_EXPECTED_EXPONENT: return "an exponent";
    case KOHIBLAD_EXPECTED_A: return "'a'";
    case KOHIBLAD_EXPECTED_E: return "'e'";
    case KOHIBLAD_EXPECTED_L: return "'l'";
    case KOHIBLAD_EXPECTED_R: return "'r'";
    case KOHIBLAD_EXPECTED_S: return "'s'";
    case KOHIBLAD_EXPECTED_U: return "'u'";
    case KOHIBLAD_EXPECTED_END: return "the end";
    default: return "Unknown";
    }
}

/* Whether the bytes are a document of at most this depth. */
static inline bool kohiblad_check(const uint8_t *bytes, size_t size, size_t depth)
    KOHIBLAD_INLINE("kohiblad_check");

/* Compares byte strings by their meaning, with the result -1, 0 or 1: documents of at most this
 * depth compare by their values and are less than all other bytes, which compare as bytes. So a
 * document that nests deeper than `depth` levels compares by its bytes. 5 and 5.0 are equal. The
 * order is total. */
static inline int32_t kohiblad_compare(const uint8_t *left, size_t left_size, const uint8_t *right,
    size_t right_size, size_t depth) KOHIBLAD_INLINE("kohiblad_compare");

/* The kind of a value, read from the first two words, with the number of an array's items or an
 * object's pairs; nothing else is checked. INVALID_EOF if one of these words is cut off,
 * INVALID_JSONB if they are of no kind. */
static inline struct kohiblad_value_kind kohiblad_kind(const uint8_t *bytes, size_t size)
    KOHIBLAD_INLINE("kohiblad_kind");

/* Copies the value of a key to `out`, as a document of its own. INVALID_UTF8 if the name is not
 * UTF-8; NONE if the object has no such key, or the bytes are not an object; for bytes that are not
 * a document, the error of looking up the key in them. Bytes that are not a document can also give
 * some value. */
static inline uint32_t kohiblad_get_key(const uint8_t *bytes, size_t size, const uint8_t *name,
    size_t name_size, uint8_t *out, size_t room, size_t *length)
    KOHIBLAD_INLINE("kohiblad_get_key");

/* The place of the value of a key. INVALID_UTF8 if the name is not UTF-8; NONE if the object has no
 * such key, or the bytes are not an object; for bytes that are not a document, the error of looking
 * up the key in them. Bytes that are not a document can also give some place. */
static inline struct kohiblad_place kohiblad_find_key(const uint8_t *bytes, size_t size,
    const uint8_t *name, size_t name_size) KOHIBLAD_INLINE("kohiblad_find_key");

/* The place of a part of an array or object, by number: the items of an array from 0; for an object
 * of n pairs the keys from 0 and the values from n. NONE if there is no such part; INVALID_EOF if
 * the header or an entry word that is read is cut off; INVALID_JSONB if the header is of no kind,
 * or the payload runs past the end. Reads one word for each earlier part. */
static inline struct kohiblad_place kohiblad_find_index(const uint8_t *bytes, size_t size,
    size_t number) KOHIBLAD_INLINE("kohiblad_find_index");

/* The place of the value of a key in `size` bytes that begin with `prefix`, for a caller that
 * fetches a long value piece by piece. It is that in all bytes, and the payload may be past the
 * prefix. If more bytes have to be at hand, INVALID_EOF with their end as `length`: the header,
 * then all entry words, then all keys. So a caller that fetches what is needed asks three times at
 * most. INVALID_UTF8 if the name is not UTF-8; NONE if the object has no such key, or the bytes are
 * not an object. Of bytes that are not a document, INVALID_EOF with the `length` 0 if the header or
 * an entry word that is read is cut off by their end; INVALID_JSONB if the header is of no kind, or
 * a key of the name's length or the value runs past it. The payload is not read. A `size` below the
 * length of the prefix counts as that length. */
static inline struct kohiblad_place kohiblad_find_key_in_prefix(const uint8_t *prefix,
    size_t prefix_size, size_t size, const uint8_t *name, size_t name_size)
    KOHIBLAD_INLINE("kohiblad_find_key_in_prefix");

/* The place of the item at an index, counted from 0, of an array in `size` bytes that begin with
 * `prefix`, for a caller that fetches a long value piece by piece. It is that in all bytes, and the
 * payload may be past the prefix. If more bytes have to be at hand, INVALID_EOF with their end as
 * `length`: the header, then the entry words up to the item's own. So a caller that fetches what is
 * needed asks twice at most. NONE if the index is not below the number of items, or the bytes are
 * not an array. Of bytes that are not a document, INVALID_EOF with the `length` 0 if the header or
 * an entry word that is read is cut off by their end; INVALID_JSONB if the header is of no kind, or
 * the item runs past it. The payload is not read. A `size` below the length of the prefix counts as
 * that length. */
static inline struct kohiblad_place kohiblad_find_index_in_prefix(const uint8_t *prefix,
    size_t prefix_size, size_t size, size_t index)
    KOHIBLAD_INLINE("kohiblad_find_index_in_prefix");

/* Puts the cursor before the first child of an array or object. NONE if the bytes are neither;
 * INVALID_EOF if the header is cut off, or of an object the entry word of a key; INVALID_JSONB if
 * the header is of no kind. If the status is not OK, the cursor is unchanged. No other word is
 * read: the header of five items alone gives OK and an offset past the bytes, at which
 * kohiblad_next returns INVALID_EOF. A walk over all children costs as much as kohiblad_find_index
 * for the last one. */
static inline uint32_t kohiblad_begin(const uint8_t *bytes, size_t size,
    struct kohiblad_cursor *cursor) KOHIBLAD_INLINE("kohiblad_begin");

/* Stores the place of the child at the cursor in `*value`, and that of an object's key in `*key`,
 * and moves the cursor after the child. In a walk from kohiblad_begin on, these are the places that
 * kohiblad_find_index returns. NONE if there are no more children, or the bytes are neither an
 * array nor an object; INVALID_EOF if the header or an entry word that is read is cut off;
 * INVALID_JSONB if the header is of no kind, or the key or value runs past the end. Both places
 * have the status that is returned, but with OK the key of an array's item has NONE; a place whose
 * status is not OK has zeros. If the status that is returned is not OK, the cursor is unchanged.
 * Any cursor may be given: a place with OK is inside the bytes. Child i of an array is part i; of
 * an object of n pairs the key is part i and the value part n + i. */
static inline uint32_t kohiblad_next(const uint8_t *bytes, size_t size,
    struct kohiblad_cursor *cursor, struct kohiblad_place *key, struct kohiblad_place *value)
    KOHIBLAD_INLINE("kohiblad_next");

/* Copies the document of a part to `out`. The part is given by the type of its entry and its
 * payload: an array or object is copied as it is, and a scalar is written as a document of its own.
 * At a place in a document, as kohiblad_find_index, kohiblad_find_key and kohiblad_next return it,
 * this is what kohiblad_get_index and kohiblad_get_key copy. The payload is not checked: null, true
 * and false are also written with the one that is given, which in a document has no bytes.
 * INVALID_JSONB_JENTRY if entries have no such type; INVALID_JSONB if the payload of a scalar has
 * 2^28 bytes or more. A scalar's document has 8 bytes more than its payload. */
static inline uint32_t kohiblad_copy(uint32_t type, const uint8_t *payload, size_t size,
    uint8_t *out, size_t room, size_t *length) KOHIBLAD_INLINE("kohiblad_copy");

/* Copies the item of an array at an index, counted from 0, to `out`, as a document of its own. NONE
 * if the index is not below the number of items, or the bytes are not an array; INVALID_EOF if the
 * header or an entry word that is read is cut off; INVALID_JSONB if the header is of no kind, or
 * the item runs past the end. */
static inline uint32_t kohiblad_get_index(const uint8_t *bytes, size_t size, size_t index,
    uint8_t *out, size_t room, size_t *length) KOHIBLAD_INLINE("kohiblad_get_index");

/* Copies the key of an object's pair at an index, counted from 0, to `key`, and its value to `out`,
 * as a document of its own, and their lengths in bytes to `*key_length` and `*length`. NONE if the
 * index is not below the number of pairs, or the bytes are not an object; INVALID_EOF if the header
 * or an entry word that is read is cut off; INVALID_JSONB if the header is of no kind, or the key
 * or value runs past the end; NO_ROOM if `key` or `out` is too short. If the status is not OK,
 * `key` and `out` are unchanged, and both lengths are 0, or for NO_ROOM the lengths of the key and
 * the document. The pairs are in ascending order of their keys. */
static inline uint32_t kohiblad_get_member(const uint8_t *bytes, size_t size, size_t index,
    uint8_t *key, size_t key_room, size_t *key_length, uint8_t *out, size_t room, size_t *length)
    KOHIBLAD_INLINE("kohiblad_get_member");

/* SCALARS: the values in documents of scalars. kohiblad_get_key and kohiblad_get_index give
 * documents of values. The first two words of a document show its kind, as kohiblad_kind returns
 * it. With every status but OK, all fields are 0. */

/* The number in the document of a number, as a whole number of 128 bits in two halves and a scale,
 * the count of its digits after the point. INVALID_EOF if one of the first two words is cut off;
 * INVALID_JSONB if these are of no kind, or the bytes begin like a number but are not a document;
 * OTHER_KIND if they begin like a value of another kind. */
static inline struct kohiblad_decimal kohiblad_as_decimal(const uint8_t *bytes, size_t size)
    KOHIBLAD_INLINE("kohiblad_as_decimal");

/* The number in the document of a number, if it is a whole number of 64 bits, signed. PAST_RANGE if
 * it does not fit or has digits after its point, even zeros; INVALID_EOF if one of the first two
 * words is cut off; INVALID_JSONB if these are of no kind, or the bytes begin like a number but are
 * not a document; OTHER_KIND if they begin like a value of another kind. */
static inline struct kohiblad_integer kohiblad_as_int64(const uint8_t *bytes, size_t size)
    KOHIBLAD_INLINE("kohiblad_as_int64");

/* The place of the text in the document of a text: its bytes in UTF-8, without quotes and escapes.
 * INVALID_EOF if one of the first two words is cut off; INVALID_JSONB if these are of no kind, or
 * the bytes begin like a text but are not a document; OTHER_KIND if they begin like a value of
 * another kind. */
static inline struct kohiblad_place kohiblad_as_string(const uint8_t *bytes, size_t size)
    KOHIBLAD_INLINE("kohiblad_as_string");

/* The truth value in the document of a truth value, as 0 or 1. INVALID_EOF if one of the first two
 * words is cut off; INVALID_JSONB if these are of no kind, or the bytes begin like a truth value
 * but are not a document; OTHER_KIND if they begin like a value of another kind. */
static inline struct kohiblad_truth kohiblad_as_boolean(const uint8_t *bytes, size_t size)
    KOHIBLAD_INLINE("kohiblad_as_boolean");

/* The tag and fields of the extension value in the document of one. INVALID_EOF if one of the first
 * two words is cut off; INVALID_JSONB if these are of no kind, or the bytes begin like an extension
 * value but are not a document; OTHER_KIND if they begin like a value of another kind. */
static inline struct kohiblad_extension_value kohiblad_as_extension(const uint8_t *bytes,
    size_t size) KOHIBLAD_INLINE("kohiblad_as_extension");

/* NUMBERS OF C: a decimal is a whole number of 128 bits and a scale, the count of its digits after
 * the point. These functions make numbers of the compiler of it, with no call of the library. */

/* The greatest scale of a number of the format. */
#define KOHIBLAD_MOST_SCALE 255

#ifdef __SIZEOF_INT128__
/* Whole numbers of 128 bits, as the compiler has them. */
__extension__ typedef __int128 kohiblad_int128_t;
__extension__ typedef unsigned __int128 kohiblad_uint128_t;

/* A decimal's whole number of 128 bits at some scale, and 0 beside every status but OK. */
typedef struct {
    uint32_t status;
    kohiblad_int128_t value;
} kohiblad_unscaled;

/* The number of two halves, as the calls that take decimals write it to an array. */
static inline kohiblad_int128_t kohiblad_int128_value(struct kohiblad_int128 halves) {
    return (kohiblad_int128_t)((kohiblad_uint128_t)(uint64_t)halves.high << 64 | halves.low);
}

/* The two halves of a number, as kohiblad_of_decimal takes them. */
static inline struct kohiblad_int128 kohiblad_int128_of(kohiblad_int128_t value) {
    kohiblad_uint128_t bits = (kohiblad_uint128_t)value;
    struct kohiblad_int128 halves = { (uint64_t)bits, (int64_t)(uint64_t)(bits >> 64) };
    return halves;
}

/* The unscaled value of a decimal at a scale: the decimal times ten to the power of `scale`, so
 * that 1.5 with scale 2 is 150. It is exact. PAST_RANGE if the decimal has digits past the scale
 * that are not zeros, or the number is past 128 bits; INVALID_JSONB if the decimal's own scale is
 * above 255, as that of no document is; and the status of the decimal if that is not OK. */
static inline kohiblad_unscaled kohiblad_decimal_unscaled(struct kohiblad_decimal decimal,
    uint32_t scale) {
    const kohiblad_unscaled refusal = { KOHIBLAD_PAST_RANGE, 0 };
    struct kohiblad_int128 halves = { decimal.low, decimal.high };
    kohiblad_unscaled out = { decimal.status, 0 };
    kohiblad_int128_t value = kohiblad_int128_value(halves);
    uint32_t at = decimal.scale;
    if (out.status == KOHIBLAD_OK && at > KOHIBLAD_MOST_SCALE) out.status = KOHIBLAD_INVALID_JSONB;
    if (out.status != KOHIBLAD_OK) return out;
    /* Of a number that is not 0 each loop ends within 39 steps, as 128 bits have 39 digits. */
    for (; value != 0 && at < scale; at++)
        if (__builtin_mul_overflow(value, 10, &value)) return refusal;
    for (; value != 0 && at > scale; at--) {
        if (value % 10 != 0) return refusal;
        value /= 10;
    }
    out.value = value;
    return out;
}
#endif

/* The double nearest to a decimal, and the greatest error that it may have: 0 if it equals the
 * decimal, and otherwise half of the distance between the doubles there. Beside every status but OK
 * both are 0. */
typedef struct {
    uint32_t status;
    double value;
    double error;
} kohiblad_double;

/* Times two to the power of `exponent`, which is exact as long as the result is no subnormal. */
static inline double kohiblad_times_power(double number, int exponent) {
    const double much = 4294967296.0;
    for (; exponent >= 32; exponent -= 32) number *= much;
    for (; exponent > 0; exponent--) number *= 2;
    for (; exponent <= -32; exponent += 32) number /= much;
    for (; exponent < 0; exponent++) number /= 2;
    return number;
}

/* Divides a whole number of limbs of 32 bits, the least first; whether a remainder is left. */
static inline bool kohiblad_divide_limbs(uint32_t *limbs, size_t count, uint32_t divisor) {
    uint64_t remainder = 0;
    for (size_t i = count; i-- > 0;) {
        uint64_t part = remainder << 32 | limbs[i];
        limbs[i] = (uint32_t)(part / divisor);
        remainder = part % divisor;
    }
    return remainder != 0;
}

/* The double nearest to a decimal, of two that are as near that with an even last bit, where the
 * program rounds to nearest, as C begins. The error is at most 2^-53 of the number: 0.1 becomes
 * 0.1000000000000000055511151231257827.., with the error 2^-57, and 1.50 is 1.5 with the error 0.
 * INVALID_JSONB if the decimal's scale is above 255, as that of no document is; and the status of
 * the decimal if that is not OK. */
static inline kohiblad_double kohiblad_decimal_double(struct kohiblad_decimal decimal) {
    /* The number without its sign, times two to the power of 32 * shift, so that what is left after
     * the division by ten to the power of the scale has more than 64 bits. */
    enum { SHIFT_MOST = 2 + (KOHIBLAD_MOST_SCALE + 7) / 8 };
    uint32_t limbs[SHIFT_MOST + 4] = { 0 };
    kohiblad_double out = { decimal.status, 0, 0 };
    uint64_t low = decimal.low, high = (uint64_t)decimal.high, head;
    bool has_rest = false;
    if (out.status == KOHIBLAD_OK && decimal.scale > KOHIBLAD_MOST_SCALE)
        out.status = KOHIBLAD_INVALID_JSONB;
    if (out.status != KOHIBLAD_OK || (low == 0 && high == 0)) return out;
    if (decimal.high < 0) {
        low = ~low + 1;
        high = ~high + (low == 0);
    }
    size_t shift = 2 + (decimal.scale + 7) / 8, top = shift + 3;
    limbs[shift] = (uint32_t)low;
    limbs[shift + 1] = (uint32_t)(low >> 32);
    limbs[shift + 2] = (uint32_t)high;
    limbs[shift + 3] = (uint32_t)(high >> 32);
    for (uint32_t left = decimal.scale; left > 0;) {
        uint32_t divisor = 1;
        for (int digits = 0; digits < 9 && left > 0; digits++, left--) divisor *= 10;
        if (kohiblad_divide_limbs(limbs, shift + 4, divisor)) has_rest = true;
    }
    while (limbs[top] == 0) top--;

    /* Its first 64 bits, of which the last also stands for all bits after them. */
    uint32_t next = limbs[top - 2];
    int exponent = 32 * ((int)top - 1 - (int)shift);
    head = (uint64_t)limbs[top] << 32 | limbs[top - 1];
    for (; !(head >> 63); exponent--) {
        head = head << 1 | next >> 31;
        next <<= 1;
    }
    for (size_t i = 0; i < top - 2; i++)
        if (limbs[i] != 0) has_rest = true;
    if (has_rest || next != 0) head |= 1;
    /* A double has 53 bits, so the last 11 are rounded. */
    out.value = kohiblad_times_power(decimal.high < 0 ? -(double)head : (double)head, exponent);
    if (head & 0x7ff) out.error = kohiblad_times_power(1024, exponent);
    return out;
}

/* DATES AS TEXTS: JSON has no dates, so rows that were read from JSON have texts in their place.
 * This makes values of them, and texts for people of values, with no call of the library. */

/* The whole number that so many digits are; -1 if one of them is none. */
static inline int32_t kohiblad_digits(const uint8_t *text, size_t count) {
    int32_t number = 0;
    for (size_t i = 0; i < count; i++) {
        if (text[i] < '0' || text[i] > '9') return -1;
        number = 10 * number + (text[i] - '0');
    }
    return number;
}

/* Whether ten bytes are a date, and its days from 1970-01-01. */
static inline bool kohiblad_days_of_text(const uint8_t *text, int64_t *days) {
    static const uint8_t most[] = { 31, 28, 31, 30, 31, 30, 31, 31, 30, 31, 30, 31 };
    int32_t year = kohiblad_digits(text, 4), month = kohiblad_digits(text + 5, 2);
    int32_t day = kohiblad_digits(text + 8, 2);
    bool is_leap = year % 4 == 0 && (year % 100 != 0 || year % 400 == 0);
    if (text[4] != '-' || text[7] != '-' || year < 0 || month < 1 || month > 12) return false;
    if (day < 1 || day > most[month - 1] + (month == 2 && is_leap)) return false;
    /* Years that begin in March end with the leap day. 400 years of 146,097 days are added, so that
     * no number is negative; the year 0 begins so 719,468 days before 1970-01-01. */
    int64_t years = year + 400 - (month < 3), months = (month + 9) % 12;
    *days = 365 * years + years / 4 - years / 100 + years / 400 + (153 * months + 2) / 5 + day - 1 -
        719468 - 146097;
    return true;
}

/* The date or timestamp that a text of RFC 3339, a profile of ISO 8601, is, as
 * kohiblad_as_extension returns it and kohiblad_of_extension takes it: a date is as 2026-11-29, a
 * timestamp as 2026-11-29T12:30:00 with as many digits after a point as one likes, and one with a
 * zone has Z or an offset as +02:00 after it; t, z and a blank for T are read too. OTHER_KIND if no
 * value is exactly what the text says, as for a leap second or digits past the microseconds. */
static inline struct kohiblad_extension_value kohiblad_extension_of_text(const uint8_t *text,
    size_t size) {
    const struct kohiblad_extension_value none = { KOHIBLAD_OTHER_KIND, 0, 0, 0, 0, 0, 0, 0 };
    struct kohiblad_extension_value out = { KOHIBLAD_OK, KOHIBLAD_DATE, 0, 0, 0, 0, 0, 0 };
    int64_t micros = 0, unit = 100000;
    if (size < 10 || !kohiblad_days_of_text(text, &out.value)) return none;
    if (size == 10) return out;
    if (size < 19 || (text[10] != 'T' && text[10] != 't' && text[10] != ' ')) return none;
    int32_t hour = kohiblad_digits(text + 11, 2), minute = kohiblad_digits(text + 14, 2);
    int32_t second = kohiblad_digits(text + 17, 2);
    if (hour < 0 || hour > 23 || minute < 0 || minute > 59 || second < 0 || second > 59 ||
        text[13] != ':' || text[16] != ':')
        return none;
    size_t at = 19;
    if (at < size && text[at] == '.') {
        const size_t point = at++;
        for (; at < size && text[at] >= '0' && text[at] <= '9'; at++, unit /= 10) {
            if (unit == 0 && text[at] != '0') return none;
            micros += (text[at] - '0') * unit;
        }
        if (at == point + 1) return none;
    }
    out.tag = at == size ? KOHIBLAD_TIMESTAMP : KOHIBLAD_TIMESTAMP_TZ;
    if (size - at == 6 && (text[at] == '+' || text[at] == '-') && text[at + 3] == ':') {
        int32_t hours = kohiblad_digits(text + at + 1, 2);
        int32_t minutes = kohiblad_digits(text + at + 4, 2);
        if (hours < 0 || hours > 23 || minutes < 0 || minutes > 59) return none;
        out.seconds = (text[at] == '-' ? -60 : 60) * (60 * hours + minutes);
    } else if (at < size && (size - at != 1 || (text[at] != 'Z' && text[at] != 'z'))) {
        return none;
    }
    out.value = out.value * 86400 + 3600 * hour + 60 * minute + second - out.seconds;
    out.value = out.value * 1000000 + micros;
    return out;
}

/* Writes the text in ISO 8601 of a date, a timestamp or an interval, as kohiblad_as_extension
 * returned it, to `out`: a date as 2026-11-29; a timestamp as 2026-11-29T12:30:05.250000, without
 * the point and its six digits if they are zero; one with a zone as a clock there shows it, with
 * the offset after it, as +02:00 and +00:53:28. A year outside 0 to 9999 has a sign, and more
 * digits where it needs them. An interval is a duration each part of which has its own sign, as
 * P1Y2M-3DT1H30.5S, or PT0S. OTHER_KIND for other extension values; the status of a value that is
 * not OK. KOHIBLAD_TIME_TEXT_ROOM are enough. */
static inline uint32_t kohiblad_text_of_extension(struct kohiblad_extension_value value,
    uint8_t *out, size_t room, size_t *length);

/* DOCUMENTS OF SCALARS. */

/* Copies the canonical document of null to `out`. */
static inline uint32_t kohiblad_of_null(uint8_t *out, size_t room, size_t *length)
    KOHIBLAD_INLINE("kohiblad_of_null");

/* Copies the canonical document of a truth value to `out`. The value is false if `value` is 0, and
 * true for every other number. */
static inline uint32_t kohiblad_of_boolean(uint32_t value, uint8_t *out, size_t room,
    size_t *length) KOHIBLAD_INLINE("kohiblad_of_boolean");

/* Copies the canonical document of a text, given as its bytes, to `out`. INVALID_UTF8 if the bytes
 * are not UTF-8; INVALID_JSONB if there are 2^28 or more. */
static inline uint32_t kohiblad_of_string(const uint8_t *text, size_t size, uint8_t *out,
    size_t room, size_t *length) KOHIBLAD_INLINE("kohiblad_of_string");

/* Copies the canonical document of a whole number to `out`. It is the document that kohiblad_parse
 * makes of the number's digits. OUT_OF_MEMORY if an allocation fails. */
static inline uint32_t kohiblad_of_int64(int64_t value, uint8_t *out, size_t room, size_t *length)
    KOHIBLAD_INLINE("kohiblad_of_int64");

/* Copies the canonical document of the number `high` times 2 to the power of 64, plus `low`, with
 * `scale` of its digits after the point, to `out`. It is the document that kohiblad_parse makes of
 * the number: 150 with scale 2 is 1.50. INVALID_JSONB if the scale is above 255; OUT_OF_MEMORY if
 * an allocation fails. */
static inline uint32_t kohiblad_of_decimal(int64_t high, uint64_t low, uint32_t scale,
    uint8_t *out, size_t room, size_t *length) KOHIBLAD_INLINE("kohiblad_of_decimal");

/* Copies the canonical document of an extension value to `out`. The value is given by its tag and
 * fields as kohiblad_as_extension returns them, and by its data; fields that the tag does not have
 * must be 0, and the data empty. INVALID_JSONB_EXTENSION if no extension value has this tag, these
 * fields and this data, so also if a date does not fit in 32 bits; INVALID_JSONB if the data have
 * 2^28 - 1 bytes or more; OUT_OF_MEMORY if an allocation fails. */
static inline uint32_t kohiblad_of_extension(uint32_t tag, int64_t value, int32_t months,
    int32_t days, int32_t seconds, const uint8_t *data, size_t size, uint8_t *out, size_t room,
    size_t *length) KOHIBLAD_INLINE("kohiblad_of_extension");

/* Copies the text of the bytes to `out`: the compact text of a document, `null` for no bytes, and
 * for all other bytes their own text, with U+FFFD in place of invalid UTF-8. A document that nests
 * deeper than `depth` levels counts as bytes that are not a document, so its text is that of its
 * bytes. OUT_OF_MEMORY if an allocation fails. */
static inline uint32_t kohiblad_print(const uint8_t *bytes, size_t size, size_t depth, uint8_t *out,
    size_t room, size_t *length) KOHIBLAD_INLINE("kohiblad_print");

/* Copies the pretty text of the bytes to `out`: that of a document with each item or pair on its
 * own line, indented by two spaces for each enclosing container, and `null` for all other bytes. A
 * document that nests deeper than `depth` levels counts as bytes that are not a document, so its
 * text is `null`. NO_ROOM if `out` is shorter than the text, which is counted first, in one walk
 * over the bytes and without memory; the length is `SIZE_MAX` if the text is longer. OUT_OF_MEMORY
 * if an allocation fails, which is asked for only if there is room, and once, for the text. */
static inline uint32_t kohiblad_pretty(const uint8_t *bytes, size_t size, size_t depth,
    uint8_t *out, size_t room, size_t *length) KOHIBLAD_INLINE("kohiblad_pretty");

/* Copies the compact text of an entry's value to `out`. The entry is given by its type and its
 * payload, as a place in a document says them, and is not copied: the text is that which
 * kohiblad_print makes of the document that kohiblad_copy makes of it. INVALID_JSONB_JENTRY if
 * entries have no such type; INVALID_JSONB if the payload is not that of a value which nests at
 * most `depth` deep. OUT_OF_MEMORY if an allocation fails. */
static inline uint32_t kohiblad_print_at(uint32_t type, const uint8_t *payload, size_t size,
    size_t depth, uint8_t *out, size_t room, size_t *length) KOHIBLAD_INLINE("kohiblad_print_at");

/* Copies the pretty text of an entry's value to `out`: that which kohiblad_pretty makes of the
 * document that kohiblad_copy makes of the entry, which is given by its type and its payload, as a
 * place in a document says them, and is not copied. INVALID_JSONB_JENTRY if entries have no such
 * type; INVALID_JSONB if the payload is not that of a value which nests at most `depth` deep.
 * NO_ROOM if `out` is shorter than the text, which is counted first, in one walk over the bytes and
 * without memory; the length is `SIZE_MAX` if the text is longer. OUT_OF_MEMORY if an allocation
 * fails, which is asked for only if there is room. */
static inline uint32_t kohiblad_pretty_at(uint32_t type, const uint8_t *payload, size_t size,
    size_t depth, uint8_t *out, size_t room, size_t *length) KOHIBLAD_INLINE("kohiblad_pretty_at");

/* Parses a JSON text and copies the canonical document of its value to `out`. With
 * KOHIBLAD_EXPONENTS_FORBIDDEN a number with an exponent is refused; otherwise it means exactly its
 * value, as `1e5` means 100000. TOO_DEEP if more than `depth` brackets outside strings are open at
 * once, before any other status; INVALID_UTF8 if the text is not UTF-8; INVALID_JSON if it is not
 * accepted JSON; INVALID_JSONB if a limit of the format is exceeded; OUT_OF_MEMORY if an allocation
 * fails. The document is shorter than 4 times the text plus 8 bytes, and with exponents than 5
 * times the text plus 8: 1e5 is 100000, 25e-1 is 2.5. */
static inline uint32_t kohiblad_parse(const uint8_t *text, size_t size, size_t depth,
    uint32_t exponents, uint8_t *out, size_t room, size_t *length)
    KOHIBLAD_INLINE("kohiblad_parse");

/* Whether a text is JSON, and where it is not. With KOHIBLAD_EXPONENTS_FORBIDDEN no number has an
 * exponent. OK, with the length of the text, if it is JSON; TOO_DEEP if more than `depth` brackets
 * outside strings are open at once, tested before anything else; INVALID_UTF8 if the text is not
 * UTF-8; BAD_NUMBER if its longest beginning that begins some JSON text ends in an unfinished or
 * too large number, as `1.`; INVALID_JSON if it is not JSON for another reason, as `01` and `1.5.`,
 * in which by the grammar of RFC 8259 the number ends before the last character; OUT_OF_MEMORY if
 * an allocation fails. Of BAD_NUMBER and INVALID_JSON the offset is the length in bytes of that
 * beginning. It is 3 of [1,], and 2 of [1, which only ends too early. With every other status but
 * OK it is 0. */
static inline struct kohiblad_fault kohiblad_text_fault(const uint8_t *text, size_t size,
    size_t depth, uint32_t exponents) KOHIBLAD_INLINE("kohiblad_text_fault");

/* What may come after the longest beginning of a text that begins some JSON text, which is of JSON
 * the whole text, and otherwise what is before its fault: the sum of the classes that may come.
 * With KOHIBLAD_EXPONENTS_FORBIDDEN no number has an exponent. OK with the classes: each comes
 * exactly if that beginning with one of its characters after it begins some JSON text, and the
 * class of the end if that beginning is JSON. A quote is a key only if no value may begin, and a
 * digit one of a number only if neither a value nor a hexadecimal digit may come; in a string the
 * one class is the rest of the string. White space has no class. TOO_DEEP if more than `depth`
 * brackets outside strings are open at once, tested before anything else; INVALID_UTF8 if the text
 * is not UTF-8; OUT_OF_MEMORY if an allocation fails. So of {"a"1 it is KOHIBLAD_EXPECTED_COLON. */
static inline struct kohiblad_expected kohiblad_text_expected(const uint8_t *text, size_t size,
    size_t depth, uint32_t exponents) KOHIBLAD_INLINE("kohiblad_text_expected");

/* The same as kohiblad_text_fault, and writes why the text is refused, in words that are put after
 * what was tried: "expected ':' at byte 5, found '1'", "at byte 3 of a number that is unfinished or
 * too long, in '1.'", or the reason of the status. In what is quoted of the text, characters that a
 * terminal may obey have escapes, as \u202e. Writes no more bytes than `room`, the last of them
 * zero; KOHIBLAD_WORDS_ROOM are enough. If an allocation fails, there are fewer words. OVERLAP if
 * `out` overlaps the text. */
static inline struct kohiblad_fault kohiblad_fault_words(const uint8_t *text, size_t size,
    size_t depth, uint32_t exponents, char *out, size_t room);

/* ROWS follow one another in `bytes` without gaps. `offsets` are `count` numbers, one more than
 * there are rows: row k begins at offsets[k] and ends at offsets[k + 1]. The first need not be 0,
 * so the offsets of an Arrow column, or of a slice of one, can be given as they are, where they
 * have 64 bits; widen those of 32 bits. Of nulls and views of Arrow the calls know nothing: take
 * the rows of those together first. No offset and one offset are no rows. INVALID_EOF: an offset is
 * less than the one before it, or past the bytes. */

/* Builds the array of the documents in the rows, and copies it to `out`. INVALID_EOF if an offset
 * is below the previous one or beyond the bytes; then, before anything is built, INVALID_JSONB if a
 * row is not a document of at most this depth. INVALID_JSONB also if a limit of the format is
 * exceeded; OUT_OF_MEMORY if an allocation fails. */
static inline uint32_t kohiblad_build_array(const uint8_t *bytes, size_t size,
    const size_t *offsets, size_t count, size_t depth, uint8_t *out, size_t room, size_t *length)
    KOHIBLAD_INLINE("kohiblad_build_array");

/* Builds the object of the pairs in the rows: a key, then its document, and so on. It is copied to
 * `out`. INVALID_EOF if an offset is below the previous one or beyond the bytes, or the number of
 * rows is odd; then, before the keys are looked at, INVALID_JSONB if a document is not one of at
 * most this depth; then, before keys are compared, INVALID_UTF8 if one is not UTF-8.
 * OBJECT_DUPLICATE_KEY if a key occurs twice; INVALID_JSONB also if a limit of the format is
 * exceeded; OUT_OF_MEMORY if an allocation fails. */
static inline uint32_t kohiblad_build_object(const uint8_t *bytes, size_t size,
    const size_t *offsets, size_t count, size_t depth, uint8_t *out, size_t room, size_t *length)
    KOHIBLAD_INLINE("kohiblad_build_object");

/* Whether the bytes are a document of at most this depth, and canonical: those that the encoder
 * writes for some value. */
static inline bool kohiblad_is_canonical(const uint8_t *bytes, size_t size, size_t depth)
    KOHIBLAD_INLINE("kohiblad_is_canonical");

/* Copies the canonical document of the value that the bytes mean to `out`. INVALID_JSONB if the
 * bytes are not a document of at most this depth, or a payload in an older form exceeds its limit
 * in its newer form; OUT_OF_MEMORY if an allocation fails. */
static inline uint32_t kohiblad_canonical(const uint8_t *bytes, size_t size, size_t depth,
    uint8_t *out, size_t room, size_t *length) KOHIBLAD_INLINE("kohiblad_canonical");

/* The number of the layout of comparable keys, and of what is hashed for index keys and top keys.
 * It changes only with the major version of the library: keys that are to be compared must be of
 * libraries with the same number. So it changes with the soname alone. */
static inline uint32_t kohiblad_key_layout(void) KOHIBLAD_INLINE("kohiblad_key_layout");

/* Copies the comparable key of any bytes to `out`. Keys compare by their bytes, a prefix before
 * what continues it, as kohiblad_compare compares the bytes at this depth; no key begins another. A
 * document that nests deeper than `depth` levels counts as bytes that are not a document.
 * OUT_OF_MEMORY if an allocation fails. Compare keys by memcmp, and then the shorter first. */
static inline uint32_t kohiblad_key(const uint8_t *bytes, size_t size, size_t depth, uint8_t *out,
    size_t room, size_t *length) KOHIBLAD_INLINE("kohiblad_key");

/* Copies the first bytes of the comparable key of any bytes to the start of `out`, as many as there
 * is room, and the length of the whole key in bytes to `*length`: the key is cut if that is more
 * than the length of `out`. It is `SIZE_MAX` if the key is longer. A cut key is a lower bound: it
 * is never above its key, and where two keys cut to one length differ, the keys compare as they do.
 * The key is that of kohiblad_key. No memory is requested, and the status is always OK. A document
 * that nests deeper than `depth` levels counts as bytes that are not a document. */
static inline uint32_t kohiblad_key_cut(const uint8_t *bytes, size_t size, size_t depth,
    uint8_t *out, size_t room, size_t *length) KOHIBLAD_INLINE("kohiblad_key_cut");

/* Copies the comparable keys of some members of a document to `out`, one after another, and their
 * length in bytes to `*length`. `names` is the document of an array of texts, the members' keys. A
 * member that is not there has the key of one byte, 0, which is below all other keys; a document
 * that is not an object has no members. No key begins another, so these keys compare by their bytes
 * as the lists of the members' values do. INVALID_JSONB if the bytes or the names are not a
 * document of at most this depth; OTHER_KIND if the names are not an array of texts; OUT_OF_MEMORY
 * if an allocation fails. The length is `SIZE_MAX` if the keys are longer. */
static inline uint32_t kohiblad_member_key(const uint8_t *bytes, size_t size,
    const uint8_t *names, size_t names_size, size_t depth, uint8_t *out, size_t room,
    size_t *length) KOHIBLAD_INLINE("kohiblad_member_key");

/* Writes the numbers of the rows, counted from 0, to the start of `order`, sorted as
 * kohiblad_compare compares the rows at this depth; equal rows keep their order. A document that
 * nests deeper than `depth` levels counts as bytes that are not a document, and sorts by its bytes
 * after all documents. Each row is checked once, and deeper levels are not examined. INVALID_EOF if
 * an offset is below the previous one or beyond the bytes; then, before memory is requested,
 * NO_ROOM if `order` has fewer numbers than there are rows; OUT_OF_MEMORY if an allocation fails.
 * If the status is not OK, `order` is unchanged. */
static inline uint32_t kohiblad_sort(const uint8_t *bytes, size_t size, const size_t *offsets,
    size_t count, size_t depth, size_t *order, size_t room) KOHIBLAD_INLINE("kohiblad_sort");

/* Counts what the members of rows at the end of a path are: numbers by the kind in which they are
 * stored, and rows without the member. A row of no bytes has no member, and one that is not a
 * document of at most this depth has a count of its own. Beside the counts are the least and the
 * greatest number of digits after the point, the most digits of a number without its point and the
 * zeros in front of it, as 1 of 0.05, and the longest text in bytes; each is 0 if there is no
 * number or text. `path` is the document of a path, as kohiblad_get_path takes it. INVALID_EOF if
 * an offset is below the previous one or beyond the bytes; then INVALID_JSONB if the path is not a
 * document of at most this depth; OTHER_KIND if it is not an array of texts and whole numbers of 64
 * bits; OUT_OF_MEMORY if an allocation fails, which only the path makes. If the status is not OK,
 * all fields are 0. */
static inline struct kohiblad_survey_counts kohiblad_survey(const uint8_t *bytes, size_t size,
    const size_t *offsets, size_t count, const uint8_t *path, size_t path_size, size_t depth)
    KOHIBLAD_INLINE("kohiblad_survey");

/* Takes the members of rows at the end of a path as whole numbers of 64 bits with a sign. For row
 * k, which begins at `offsets[k]` and ends at `offsets[k + 1]`, `values[k]` is the number, and
 * `states[k]` is 1; or the value is 0, and the state 0 if the row has no such member or no bytes, 2
 * if the member is null, 3 if it is no such number, and 4 if the row is not a document of at most
 * this depth. With KOHIBLAD_BY_VALUE a number is taken if it equals the value, as 2.0 equals 2;
 * otherwise only if it is stored in the kind that the value's digits have in a JSON text. `path` is
 * the document of a path, as kohiblad_get_path takes it. The answer counts the rows of states 3 and
 * 4, and names the first of them, or their number if there is none. INVALID_EOF if an offset is
 * below the previous one or beyond the bytes; then INVALID_JSONB if the path is not a document of
 * at most this depth; OTHER_KIND if it is not an array of texts and whole numbers of 64 bits;
 * OUT_OF_MEMORY if an allocation fails, which only the path makes; then NO_ROOM if `values` or
 * `states` has fewer places than there are rows. If the status is not OK, `values` and `states` are
 * unchanged, and the counts are 0. */
static inline struct kohiblad_taken kohiblad_take_int64(const uint8_t *bytes, size_t size,
    const size_t *offsets, size_t count, const uint8_t *path, size_t path_size, size_t depth,
    uint32_t fit, int64_t *values, size_t room, uint8_t *states, size_t states_room)
    KOHIBLAD_INLINE("kohiblad_take_int64");

/* Takes the members of rows at the end of a path as whole numbers of 64 bits without a sign. All
 * else is as kohiblad_take_int64 has it. */
static inline struct kohiblad_taken kohiblad_take_uint64(const uint8_t *bytes, size_t size,
    const size_t *offsets, size_t count, const uint8_t *path, size_t path_size, size_t depth,
    uint32_t fit, uint64_t *values, size_t room, uint8_t *states, size_t states_room)
    KOHIBLAD_INLINE("kohiblad_take_uint64");

/* Takes the members of rows at the end of a path as decimals with `scale` digits after the point,
 * each a whole number of 128 bits without its point: 5 with scale 2 is 500. With KOHIBLAD_BY_VALUE
 * a number is taken if it equals the value; otherwise only if it is stored in the kind that the
 * value's digits have in a JSON text, with as many of them after the point: 1.50, and not 1.5.
 * INVALID_JSONB also, before all others, if the scale is above 255. All else is as
 * kohiblad_take_int64 has it. */
static inline struct kohiblad_taken kohiblad_take_decimal(const uint8_t *bytes, size_t size,
    const size_t *offsets, size_t count, const uint8_t *path, size_t path_size, size_t depth,
    uint32_t fit, uint32_t scale, struct kohiblad_int128 *values, size_t room, uint8_t *states,
    size_t states_room) KOHIBLAD_INLINE("kohiblad_take_decimal");

/* Takes the members of rows at the end of a path as truth values, 0 or 1. All else is as
 * kohiblad_take_int64 has it. */
static inline struct kohiblad_taken kohiblad_take_boolean(const uint8_t *bytes, size_t size,
    const size_t *offsets, size_t count, const uint8_t *path, size_t path_size, size_t depth,
    uint8_t *values, size_t room, uint8_t *states, size_t states_room)
    KOHIBLAD_INLINE("kohiblad_take_boolean");

/* Takes the members of rows at the end of a path as texts, and copies them to `out`, one after
 * another, and their length in bytes to `*length`. The text of row k, which begins at `offsets[k]`
 * and ends at `offsets[k + 1]`, begins at `text_offsets[k]` and ends at `text_offsets[k + 1]`; so
 * there is one offset more than there are rows, and the first is 0. `states[k]` is 1; or the text
 * is empty, and the state 0 if the row has no such member or no bytes, 2 if the member is null, 3
 * if it is no text, and 4 if the row is not a document of at most this depth. `path` is the
 * document of a path, as kohiblad_get_path takes it. The answer counts the rows of states 3 and 4,
 * and names the first of them, or their number if there is none. INVALID_EOF if an offset is below
 * the previous one or beyond the bytes; then INVALID_JSONB if the path is not a document of at most
 * this depth; OTHER_KIND if it is not an array of texts and whole numbers of 64 bits; OUT_OF_MEMORY
 * if an allocation fails; NO_ROOM if `out`, `text_offsets` or `states` is too short. If the status
 * is not OK, these are unchanged, the counts are 0, and `*length` is 0, or for NO_ROOM the length
 * of the texts. */
static inline struct kohiblad_taken kohiblad_take_text(const uint8_t *bytes, size_t size,
    const size_t *offsets, size_t count, const uint8_t *path, size_t path_size, size_t depth,
    uint8_t *out, size_t room, size_t *length, size_t *text_offsets, size_t offsets_room,
    uint8_t *states, size_t states_room) KOHIBLAD_INLINE("kohiblad_take_text");

/* Takes the members of rows at the end of a path as whole numbers of 64 bits with a sign, without
 * checking the rows, which takes most of the time of kohiblad_take_int64. Of each row that is a
 * document, of any depth, or has no bytes, value and state are as that call has them. Any other
 * bytes do no harm: nothing beyond the row is read, and its state is one of the five, with the
 * value 0 unless it is 1; so rows from outside are checked once, by kohiblad_check or by the state
 * 4 of a call that checks them. The depth is that of the path. All else is as kohiblad_take_int64
 * has it. */
static inline struct kohiblad_taken kohiblad_take_int64_unchecked(const uint8_t *bytes, size_t size,
    const size_t *offsets, size_t count, const uint8_t *path, size_t path_size, size_t depth,
    uint32_t fit, int64_t *values, size_t room, uint8_t *states, size_t states_room)
    KOHIBLAD_INLINE("kohiblad_take_int64_unchecked");

/* Takes the members of rows at the end of a path as whole numbers of 64 bits without a sign,
 * without checking the rows. All else is as kohiblad_take_int64_unchecked has it. */
static inline struct kohiblad_taken kohiblad_take_uint64_unchecked(const uint8_t *bytes,
    size_t size, const size_t *offsets, size_t count, const uint8_t *path, size_t path_size,
    size_t depth, uint32_t fit, uint64_t *values, size_t room, uint8_t *states, size_t states_room)
    KOHIBLAD_INLINE("kohiblad_take_uint64_unchecked");

/* Takes the members of rows at the end of a path as decimals, as kohiblad_take_decimal has them,
 * without checking the rows. All else is as kohiblad_take_int64_unchecked has it. */
static inline struct kohiblad_taken kohiblad_take_decimal_unchecked(const uint8_t *bytes,
    size_t size, const size_t *offsets, size_t count, const uint8_t *path, size_t path_size,
    size_t depth, uint32_t fit, uint32_t scale, struct kohiblad_int128 *values, size_t room,
    uint8_t *states, size_t states_room) KOHIBLAD_INLINE("kohiblad_take_decimal_unchecked");

/* Takes the members of rows at the end of a path as truth values, 0 or 1, without checking the
 * rows. All else is as kohiblad_take_int64_unchecked has it. */
static inline struct kohiblad_taken kohiblad_take_boolean_unchecked(const uint8_t *bytes,
    size_t size, const size_t *offsets, size_t count, const uint8_t *path, size_t path_size,
    size_t depth, uint8_t *values, size_t room, uint8_t *states, size_t states_room)
    KOHIBLAD_INLINE("kohiblad_take_boolean_unchecked");

/* Takes the members of rows at the end of a path as texts, without checking the rows. What holds of
 * them and of the depth is as kohiblad_take_int64_unchecked has it, and a text is UTF-8. All else
 * is as kohiblad_take_text has it. */
static inline struct kohiblad_taken kohiblad_take_text_unchecked(const uint8_t *bytes, size_t size,
    const size_t *offsets, size_t count, const uint8_t *path, size_t path_size, size_t depth,
    uint8_t *out, size_t room, size_t *length, size_t *text_offsets, size_t offsets_room,
    uint8_t *states, size_t states_room) KOHIBLAD_INLINE("kohiblad_take_text_unchecked");

/* Takes the members of rows at the end of a path as texts, with offsets of 32 bits, which are below
 * 2^31, as those of Arrow are. NO_ROOM also if the texts have 2^31 bytes or more. All else is as
 * kohiblad_take_text has it. */
static inline struct kohiblad_taken kohiblad_take_text32(const uint8_t *bytes, size_t size,
    const size_t *offsets, size_t count, const uint8_t *path, size_t path_size, size_t depth,
    uint8_t *out, size_t room, size_t *length, uint32_t *text_offsets, size_t offsets_room,
    uint8_t *states, size_t states_room) KOHIBLAD_INLINE("kohiblad_take_text32");

/* Takes the members of rows at the end of a path as texts, with offsets of 32 bits, as
 * kohiblad_take_text32 has them, without checking the rows. All else is as
 * kohiblad_take_text_unchecked has it. */
static inline struct kohiblad_taken kohiblad_take_text32_unchecked(const uint8_t *bytes,
    size_t size, const size_t *offsets, size_t count, const uint8_t *path, size_t path_size,
    size_t depth, uint8_t *out, size_t room, size_t *length, uint32_t *text_offsets,
    size_t offsets_room, uint8_t *states, size_t states_room)
    KOHIBLAD_INLINE("kohiblad_take_text32_unchecked");

/* Takes the members of rows at the end of a path as binary values, and copies them to `out`, one
 * after another, and their length in bytes to `*length`. The value of row k begins at
 * `value_offsets[k]` and ends at `value_offsets[k + 1]`; where a row has none, it is empty. The
 * state of a row is 3 if its member is neither null nor a binary value. All else is as
 * kohiblad_take_text has it. */
static inline struct kohiblad_taken kohiblad_take_binary(const uint8_t *bytes, size_t size,
    const size_t *offsets, size_t count, const uint8_t *path, size_t path_size, size_t depth,
    uint8_t *out, size_t room, size_t *length, size_t *value_offsets, size_t offsets_room,
    uint8_t *states, size_t states_room) KOHIBLAD_INLINE("kohiblad_take_binary");

/* Takes the members of rows at the end of a path as binary values, without checking the rows. What
 * holds of them and of the depth is as kohiblad_take_int64_unchecked has it. All else is as
 * kohiblad_take_binary has it. */
static inline struct kohiblad_taken kohiblad_take_binary_unchecked(const uint8_t *bytes,
    size_t size, const size_t *offsets, size_t count, const uint8_t *path, size_t path_size,
    size_t depth, uint8_t *out, size_t room, size_t *length, size_t *value_offsets,
    size_t offsets_room, uint8_t *states, size_t states_room)
    KOHIBLAD_INLINE("kohiblad_take_binary_unchecked");

/* Takes the members of rows at the end of a path as dates, each the number that is stored for it.
 * The format does not say what it counts; writers store the days since 1970. All else is as
 * kohiblad_take_int64 has it. */
static inline struct kohiblad_taken kohiblad_take_date(const uint8_t *bytes, size_t size,
    const size_t *offsets, size_t count, const uint8_t *path, size_t path_size, size_t depth,
    int32_t *values, size_t room, uint8_t *states, size_t states_room)
    KOHIBLAD_INLINE("kohiblad_take_date");

/* Takes the members of rows at the end of a path as dates, as kohiblad_take_date has them, without
 * checking the rows. All else is as kohiblad_take_int64_unchecked has it. */
static inline struct kohiblad_taken kohiblad_take_date_unchecked(const uint8_t *bytes, size_t size,
    const size_t *offsets, size_t count, const uint8_t *path, size_t path_size, size_t depth,
    int32_t *values, size_t room, uint8_t *states, size_t states_room)
    KOHIBLAD_INLINE("kohiblad_take_date_unchecked");

/* Takes the members of rows at the end of a path as timestamps without a time zone, each the number
 * that is stored for it. The format does not say what it counts; writers store the microseconds
 * since 1970. All else is as kohiblad_take_int64 has it. */
static inline struct kohiblad_taken kohiblad_take_timestamp(const uint8_t *bytes, size_t size,
    const size_t *offsets, size_t count, const uint8_t *path, size_t path_size, size_t depth,
    int64_t *values, size_t room, uint8_t *states, size_t states_room)
    KOHIBLAD_INLINE("kohiblad_take_timestamp");

/* Takes the members of rows at the end of a path as timestamps, as kohiblad_take_timestamp has
 * them, without checking the rows. All else is as kohiblad_take_int64_unchecked has it. */
static inline struct kohiblad_taken kohiblad_take_timestamp_unchecked(const uint8_t *bytes,
    size_t size, const size_t *offsets, size_t count, const uint8_t *path, size_t path_size,
    size_t depth, int64_t *values, size_t room, uint8_t *states, size_t states_room)
    KOHIBLAD_INLINE("kohiblad_take_timestamp_unchecked");

/* Takes the members of rows at the end of a path as timestamps with a time zone, each the number
 * that is stored for it and the offset of its zone in seconds. The format does not say what the
 * number counts; writers store the microseconds since 1970 in UTC. All else is as
 * kohiblad_take_int64 has it, and a blank value is 0 in both fields. */
static inline struct kohiblad_taken kohiblad_take_timestamp_tz(const uint8_t *bytes, size_t size,
    const size_t *offsets, size_t count, const uint8_t *path, size_t path_size, size_t depth,
    struct kohiblad_timestamp_tz *values, size_t room, uint8_t *states, size_t states_room)
    KOHIBLAD_INLINE("kohiblad_take_timestamp_tz");

/* Takes the members of rows at the end of a path as timestamps with a time zone, as
 * kohiblad_take_timestamp_tz has them, without checking the rows. All else is as
 * kohiblad_take_int64_unchecked has it. */
static inline struct kohiblad_taken kohiblad_take_timestamp_tz_unchecked(const uint8_t *bytes,
    size_t size, const size_t *offsets, size_t count, const uint8_t *path, size_t path_size,
    size_t depth, struct kohiblad_timestamp_tz *values, size_t room, uint8_t *states,
    size_t states_room)
    KOHIBLAD_INLINE("kohiblad_take_timestamp_tz_unchecked");

/* Takes the members of rows at the end of a path as intervals, each the three numbers that are
 * stored for it. All else is as kohiblad_take_int64 has it, and a blank value is 0 in all three
 * fields. */
static inline struct kohiblad_taken kohiblad_take_interval(const uint8_t *bytes, size_t size,
    const size_t *offsets, size_t count, const uint8_t *path, size_t path_size, size_t depth,
    struct kohiblad_interval *values, size_t room, uint8_t *states, size_t states_room)
    KOHIBLAD_INLINE("kohiblad_take_interval");

/* Takes the members of rows at the end of a path as intervals, as kohiblad_take_interval has them,
 * without checking the rows. All else is as kohiblad_take_int64_unchecked has it. */
static inline struct kohiblad_taken kohiblad_take_interval_unchecked(const uint8_t *bytes,
    size_t size, const size_t *offsets, size_t count, const uint8_t *path, size_t path_size,
    size_t depth, struct kohiblad_interval *values, size_t room, uint8_t *states,
    size_t states_room)
    KOHIBLAD_INLINE("kohiblad_take_interval_unchecked");
/* Copies the zone map of a column of whole numbers of 64 bits with a sign to `out`: for each block
 * of `block_rows` rows, where 0 counts as 1, the least and the greatest value; or 0 in all fields
 * if no row of the block has a value. Row k has the value `values[k]` if `states[k]` is 1, as
 * kohiblad_take_int64 writes them, and otherwise none. The last block may have fewer rows. A reader
 * who wants values of a range passes over the blocks without a value, and over those whose greatest
 * value is below the range, or whose least one is above it: no row there has a value in it.
 * Timestamps, by their numbers, have their zones by this call too. INVALID_EOF if there are not as
 * many states as values. */
static inline uint32_t kohiblad_zones_int64(const int64_t *values, size_t values_count,
    const uint8_t *states, size_t states_count, size_t block_rows, struct kohiblad_int64_zone *out,
    size_t room, size_t *count) KOHIBLAD_INLINE("kohiblad_zones_int64");

/* Copies the zone map of a column of whole numbers of 64 bits without a sign to `out`. All else is
 * as kohiblad_zones_int64 has it. */
static inline uint32_t kohiblad_zones_uint64(const uint64_t *values, size_t values_count,
    const uint8_t *states, size_t states_count, size_t block_rows, struct kohiblad_uint64_zone *out,
    size_t room, size_t *count) KOHIBLAD_INLINE("kohiblad_zones_uint64");

/* Copies the zone map of a column of decimals of one scale, without their point, to `out`. All else
 * is as kohiblad_zones_int64 has it. */
static inline uint32_t kohiblad_zones_decimal(const struct kohiblad_int128 *values,
    size_t values_count, const uint8_t *states, size_t states_count, size_t block_rows,
    struct kohiblad_decimal_zone *out, size_t room, size_t *count)
    KOHIBLAD_INLINE("kohiblad_zones_decimal");

/* Copies the zone map of a column of dates, by their numbers, to `out`. All else is as
 * kohiblad_zones_int64 has it. */
static inline uint32_t kohiblad_zones_date(const int32_t *values, size_t values_count,
    const uint8_t *states, size_t states_count, size_t block_rows, struct kohiblad_date_zone *out,
    size_t room, size_t *count) KOHIBLAD_INLINE("kohiblad_zones_date");

/* Writes rows as a file of typed columns, and copies it to `out`. `names` is the document of an
 * array of texts, which ascend by their bytes: the keys of the members that are kept in columns.
 * `types` has two bytes for each of them, the type and the digits after the point: 0 and 0 for
 * truth values, 1 and 0 for whole numbers of 64 bits with a sign, 2 and 0 for those without one, 3
 * and the digits for decimals, 4 and 0 for texts, 5 and 0 for dates, 6 and 0 for timestamps, 7 and
 * 0 for timestamps with a zone, 8 and 0 for intervals, 9 and 0 for binary values. A member is kept
 * in its column if it is a value of that type with its kind and its digits, and otherwise in the
 * rest of its row. INVALID_EOF if an offset is below the previous one or beyond the bytes; then
 * INVALID_JSONB if the names are not a document of at most this depth; OTHER_KIND if they are not
 * an array of texts, or `types` has not two bytes for each of them, or an unknown type;
 * INVALID_JSONB if a row is not a document of at most this depth; OTHER_KIND if a text is not
 * greater than the one before it; INVALID_JSONB if a row exceeds a limit of the format;
 * OUT_OF_MEMORY if an allocation fails. The file is read again before it is handed over:
 * NOT_READ_BACK if it does not give the rows back. */
static inline uint32_t kohiblad_build_typed_file(const uint8_t *bytes, size_t size,
    const size_t *offsets, size_t count, const uint8_t *names, size_t names_size,
    const uint8_t *types, size_t types_size, size_t depth, uint8_t *out, size_t room,
    size_t *length) KOHIBLAD_INLINE("kohiblad_build_typed_file");

/* Checks the bytes of a file of typed columns, and returns how many rows and columns it has.
 * BAD_MAGIC if they do not begin as one, UNKNOWN_VERSION if they have another version than 1,
 * INVALID_EOF if they end before the file does, TRAILING_DATA if they go on after it, WRONG_LENGTH
 * if a length does not fit the number of rows, TOO_DEEP if the rest of a row nests deeper than this
 * depth, OUT_OF_FORM if a type is unknown, the names are not UTF-8 or do not ascend strictly, a
 * text is not UTF-8 or the rest of a row is not a document; OUT_OF_MEMORY if an allocation
 * fails. */
static inline struct kohiblad_typed_file kohiblad_check_typed_file(const uint8_t *bytes,
    size_t size, size_t depth) KOHIBLAD_INLINE("kohiblad_check_typed_file");

/* Copies the columns of a file of typed columns to `out`, in the order of their names, and how many
 * they are to `*count`: of each its type, the number of rows and where its name and its buffers lie
 * in the bytes. Types and lengths are tested, and that each name is UTF-8, and no buffer is read:
 * kohiblad_check_typed_file checks what is in them, and that the names ascend. Flags have a bit for
 * each row, eight in a byte, the first in the lowest bit; it is 1 if the row has a value. Numbers
 * have 8 bytes for each row, the highest first, and of decimals 16; of truth values 1, which is 0
 * for false; of dates 4; of timestamps with a zone 12, the last four for the offset of the zone;
 * and of intervals 16, four for the months, four for the days and eight for the microseconds. Of
 * texts and binary values they are offsets of 8 bytes, one more than there are rows. The statuses
 * are those of kohiblad_check_typed_file. */
static inline uint32_t kohiblad_typed_columns(const uint8_t *bytes, size_t size,
    struct kohiblad_typed_column *out, size_t room, size_t *count)
    KOHIBLAD_INLINE("kohiblad_typed_columns");

/* Copies the canonical document of a row of a file of typed columns, counted from 0, to `out`: its
 * rest with the members that are kept in columns. Only that row is read, and checked before. NONE
 * if the index is not below the number of rows; TOO_DEEP if the rest of the row nests deeper than
 * this depth; OUT_OF_FORM if the rest is not a document, or a text is not UTF-8; INVALID_JSONB if
 * the row exceeds a limit of the format; and otherwise the statuses of
 * kohiblad_check_typed_file. */
static inline uint32_t kohiblad_typed_row(const uint8_t *bytes, size_t size, size_t index,
    size_t depth, uint8_t *out, size_t room, size_t *length)
    KOHIBLAD_INLINE("kohiblad_typed_row");

/* Finds the members of rows that have these names, in one walk over each row, and writes their
 * places: of row k and name j of m to `places[k * m + j]`. `names` is the document of an array of
 * texts, which ascend by their bytes. A place has the type and the length of the member's payload,
 * and its offset in the bytes of all rows: the row's own member of that name, also where another
 * has an equal value. It has the status NONE if the row has no such member or no bytes, and
 * INVALID_JSONB if the row is not a document of at most this depth. The calls whose names end in
 * `_at` take values there. INVALID_EOF if an offset is below the previous one or beyond the bytes;
 * then INVALID_JSONB if the names are not a document of at most this depth; OTHER_KIND if they are
 * not an array of texts, or a text is not greater than the one before it; OUT_OF_MEMORY if an
 * allocation fails, which only the names make; then NO_ROOM if `places` has fewer than there are
 * rows times names. If the status is not OK, `places` is unchanged. */
static inline uint32_t kohiblad_locate(const uint8_t *bytes, size_t size, const size_t *offsets,
    size_t count, const uint8_t *names, size_t names_size, size_t depth,
    struct kohiblad_place *places, size_t room) KOHIBLAD_INLINE("kohiblad_locate");

/* Finds the members of rows as kohiblad_locate does, without checking the rows. Of each row that is
 * a document, of any depth, or has no bytes, the places are as that call has them. Of any other
 * bytes each place has the status NONE, or is one inside the row. The depth is that of the
 * names. */
static inline uint32_t kohiblad_locate_unchecked(const uint8_t *bytes, size_t size,
    const size_t *offsets, size_t count, const uint8_t *names, size_t names_size, size_t depth,
    struct kohiblad_place *places, size_t room) KOHIBLAD_INLINE("kohiblad_locate_unchecked");

/* Takes the members at places, as kohiblad_locate writes them, as whole numbers of 64 bits with a
 * sign: at the first place, and then at each that is `step` places after the one before it; 0
 * counts as 1. So of three names, the places of the second are those from `places + 1` on, each 3
 * after the one before it. The bytes are those of all rows, as that call had them. Values and
 * states are as kohiblad_take_int64 has them, which looks up the name in each row; after
 * kohiblad_locate_unchecked as kohiblad_take_int64_unchecked has them. At any other place nothing
 * beyond the bytes is read, and what is taken is what is there: a payload of its type as that
 * member, and everywhere else no value, with the state 0 of the status NONE, 3 where the type is
 * that of arrays and objects, and otherwise 4. With KOHIBLAD_BY_VALUE a number is taken if it
 * equals the value, as 2.0 equals 2; otherwise only if it is stored in the kind that the value's
 * digits have in a JSON text. The answer counts the rows of states 3 and 4, and names the first of
 * them, or their number if there is none. NO_ROOM if `values` or `states` has fewer places than are
 * read; they are then unchanged, and the counts are 0. */
static inline struct kohiblad_taken kohiblad_take_int64_at(const uint8_t *bytes, size_t size,
    const struct kohiblad_place *places, size_t count, size_t step, uint32_t fit, int64_t *values,
    size_t room, uint8_t *states, size_t states_room) KOHIBLAD_INLINE("kohiblad_take_int64_at");

/* Takes the members at places as whole numbers of 64 bits without a sign. All else is as
 * kohiblad_take_int64_at has it. */
static inline struct kohiblad_taken kohiblad_take_uint64_at(const uint8_t *bytes, size_t size,
    const struct kohiblad_place *places, size_t count, size_t step, uint32_t fit, uint64_t *values,
    size_t room, uint8_t *states, size_t states_room) KOHIBLAD_INLINE("kohiblad_take_uint64_at");

/* Takes the members at places as decimals, as kohiblad_take_decimal has them. INVALID_JSONB also,
 * before all others, if the scale is above 255. All else is as kohiblad_take_int64_at has it. */
static inline struct kohiblad_taken kohiblad_take_decimal_at(const uint8_t *bytes, size_t size,
    const struct kohiblad_place *places, size_t count, size_t step, uint32_t fit, uint32_t scale,
    struct kohiblad_int128 *values, size_t room, uint8_t *states, size_t states_room)
    KOHIBLAD_INLINE("kohiblad_take_decimal_at");

/* Takes the members at places as truth values, 0 or 1. All else is as kohiblad_take_int64_at has
 * it. */
static inline struct kohiblad_taken kohiblad_take_boolean_at(const uint8_t *bytes, size_t size,
    const struct kohiblad_place *places, size_t count, size_t step, uint8_t *values, size_t room,
    uint8_t *states, size_t states_room) KOHIBLAD_INLINE("kohiblad_take_boolean_at");

/* Takes the members at places as dates, as kohiblad_take_date has them. All else is as
 * kohiblad_take_int64_at has it. */
static inline struct kohiblad_taken kohiblad_take_date_at(const uint8_t *bytes, size_t size,
    const struct kohiblad_place *places, size_t count, size_t step, int32_t *values, size_t room,
    uint8_t *states, size_t states_room) KOHIBLAD_INLINE("kohiblad_take_date_at");

/* Takes the members at places as timestamps without a time zone, as kohiblad_take_timestamp has
 * them. All else is as kohiblad_take_int64_at has it. */
static inline struct kohiblad_taken kohiblad_take_timestamp_at(const uint8_t *bytes, size_t size,
    const struct kohiblad_place *places, size_t count, size_t step, int64_t *values, size_t room,
    uint8_t *states, size_t states_room) KOHIBLAD_INLINE("kohiblad_take_timestamp_at");

/* Takes the members at places as timestamps with a time zone, as kohiblad_take_timestamp_tz has
 * them. All else is as kohiblad_take_int64_at has it. */
static inline struct kohiblad_taken kohiblad_take_timestamp_tz_at(const uint8_t *bytes, size_t size,
    const struct kohiblad_place *places, size_t count, size_t step,
    struct kohiblad_timestamp_tz *values, size_t room, uint8_t *states, size_t states_room)
    KOHIBLAD_INLINE("kohiblad_take_timestamp_tz_at");

/* Takes the members at places as intervals, as kohiblad_take_interval has them. All else is as
 * kohiblad_take_int64_at has it. */
static inline struct kohiblad_taken kohiblad_take_interval_at(const uint8_t *bytes, size_t size,
    const struct kohiblad_place *places, size_t count, size_t step,
    struct kohiblad_interval *values, size_t room, uint8_t *states, size_t states_room)
    KOHIBLAD_INLINE("kohiblad_take_interval_at");

/* Takes the members at places, as kohiblad_locate writes them, as texts, and copies them to `out`,
 * with their offsets and the states of the rows as kohiblad_take_text has them: at the first place,
 * and then at each that is `step` places after the one before it; 0 counts as 1. What holds of the
 * bytes and of other places is as kohiblad_take_int64_at has it, and a text is UTF-8. OUT_OF_MEMORY
 * if an allocation fails; NO_ROOM if `out`, `text_offsets` or `states` is too short. If the status
 * is not OK, these are unchanged, the counts are 0, and `*length` is 0, or for NO_ROOM the length
 * of the texts. */
static inline struct kohiblad_taken kohiblad_take_text_at(const uint8_t *bytes, size_t size,
    const struct kohiblad_place *places, size_t count, size_t step, uint8_t *out, size_t room,
    size_t *length, size_t *text_offsets, size_t offsets_room, uint8_t *states, size_t states_room)
    KOHIBLAD_INLINE("kohiblad_take_text_at");

/* Takes the members at places as texts, with offsets of 32 bits, as kohiblad_take_text32 has them.
 * NO_ROOM also if the texts have 2^31 bytes or more. All else is as kohiblad_take_text_at has
 * it. */
static inline struct kohiblad_taken kohiblad_take_text32_at(const uint8_t *bytes, size_t size,
    const struct kohiblad_place *places, size_t count, size_t step, uint8_t *out, size_t room,
    size_t *length, uint32_t *text_offsets, size_t offsets_room, uint8_t *states,
    size_t states_room) KOHIBLAD_INLINE("kohiblad_take_text32_at");

/* Takes the members at places as binary values, as kohiblad_take_binary has them. All else is as
 * kohiblad_take_text_at has it. */
static inline struct kohiblad_taken kohiblad_take_binary_at(const uint8_t *bytes, size_t size,
    const struct kohiblad_place *places, size_t count, size_t step, uint8_t *out, size_t room,
    size_t *length, size_t *value_offsets, size_t offsets_room, uint8_t *states, size_t states_room)
    KOHIBLAD_INLINE("kohiblad_take_binary_at");

/* Takes several members of rows, of types whose values are of one size, in one walk over each row:
 * by kohiblad_locate and the kohiblad_take calls at places, for as many rows at a time as `places`
 * has room for. With some 2,048 rows at a time the places stay in the processor's cache. Member j
 * is that of name j of `names`, and its values and states have room for all rows. What is written
 * there and to `taken` of each member is what kohiblad_take_int64, or the same of its type, with
 * the path of that name alone writes and answers. INVALID_JSONB if the names are not a document of
 * at most this depth, or the type of a member is text, binary or unknown; WRONG_LENGTH if there are
 * not as many names as members; NO_ROOM if `places` has fewer than there are names; else each
 * status that is not OK of kohiblad_locate and of those calls. If the status is not OK, members of
 * some rows may have been written, and no answer means anything. */
static inline uint32_t kohiblad_take_members(const uint8_t *bytes, size_t size,
    const size_t *offsets, size_t count, const uint8_t *names, size_t names_size, size_t depth,
    uint32_t fit, struct kohiblad_member *members, size_t wanted, struct kohiblad_place *places,
    size_t room);

/* Whether the document `left` contains `right`, as 0 or 1. An object contains the objects whose
 * keys it has, with values that contain those; an array contains the arrays for each of whose items
 * it has one that contains it; a scalar contains what equals it; and at the top an array also
 * contains a scalar that is one of its items. TOO_MANY_STEPS exactly if that takes more than
 * `steps` steps. There is one for each pair of values that are compared, and for each member that
 * is passed in search of a key, up to the first whose key is not below it; and one for each byte of
 * the keys of these members, and of two texts, or two binary or opaque values, that are compared
 * and equally long: 4 for {"a":1} in {"a":1}. If more than 16 items are looked for in an array of
 * more than 16, there is a step in place of these for each scalar of the array, which are sorted,
 * and for each that is looked for, and one for each of its bytes. `steps` always suffice that are
 * at least the product of the weights of both, the numbers of their values and keys and of the
 * bytes of texts, keys, and binary and opaque values. INVALID_JSONB if `left` or `right` is not a
 * document of at most this depth; OUT_OF_MEMORY if an allocation fails, which only such a sort
 * makes. SIZE_MAX is no limit. */
static inline struct kohiblad_truth kohiblad_contains(const uint8_t *left, size_t left_size,
    const uint8_t *right, size_t right_size, size_t depth, size_t steps)
    KOHIBLAD_INLINE("kohiblad_contains");

/* Whether the document is an object with this key, an array with this text among its items, or the
 * text itself, as 0 or 1. INVALID_UTF8 if the key is not UTF-8; INVALID_JSONB if the bytes are not
 * a document of at most this depth. */
static inline struct kohiblad_truth kohiblad_exists(const uint8_t *bytes, size_t size,
    const uint8_t *key, size_t key_size, size_t depth) KOHIBLAD_INLINE("kohiblad_exists");

/* Whether some of these keys is in a document, in the sense of kohiblad_exists, as 0 or 1; of no
 * keys none is. `names` is the document of an array of texts; it does not matter how often or in
 * which order they are listed. INVALID_JSONB if the bytes or the names are not a document of at
 * most this depth; OTHER_KIND if the names are not an array of texts; OUT_OF_MEMORY if an
 * allocation fails. */
static inline struct kohiblad_truth kohiblad_exists_any(const uint8_t *bytes, size_t size,
    const uint8_t *names, size_t names_size, size_t depth)
    KOHIBLAD_INLINE("kohiblad_exists_any");

/* Whether all of these keys are in a document, in the sense of kohiblad_exists, as 0 or 1; of no
 * keys all are. `names` is the document of an array of texts; it does not matter how often or in
 * which order they are listed. INVALID_JSONB if the bytes or the names are not a document of at
 * most this depth; OTHER_KIND if the names are not an array of texts; OUT_OF_MEMORY if an
 * allocation fails. */
static inline struct kohiblad_truth kohiblad_exists_all(const uint8_t *bytes, size_t size,
    const uint8_t *names, size_t names_size, size_t depth)
    KOHIBLAD_INLINE("kohiblad_exists_all");

/* Copies the canonical document of two documents put together to `out`: of two objects the object
 * of all members, with the value of `right` for a key of both; of all others the array of the items
 * of both, to which a value that is not an array adds itself. INVALID_JSONB if `left` or `right` is
 * not a document of at most this depth, or the result exceeds a limit of the format; OUT_OF_MEMORY
 * if an allocation fails. The document is at most 14 bytes and a quarter longer than both. */
static inline uint32_t kohiblad_concat(const uint8_t *left, size_t left_size,
    const uint8_t *right, size_t right_size, size_t depth, uint8_t *out, size_t room,
    size_t *length) KOHIBLAD_INLINE("kohiblad_concat");

/* Copies the canonical document of a document that is changed by a JSON Merge Patch (RFC 7396) to
 * `out`. A `patch` that is not an object takes the place of `target`. Each member of one that is an
 * object removes the member with its key if it is null, and else patches the value of that member,
 * or an empty object if there is no such member; a `target` that is not an object counts as an
 * empty one. INVALID_JSONB if `target` or `patch` is not a document of at most this depth, or the
 * result exceeds a limit of the format; OUT_OF_MEMORY if an allocation fails. */
static inline uint32_t kohiblad_merge_patch(const uint8_t *target, size_t target_size,
    const uint8_t *patch, size_t patch_size, size_t depth, uint8_t *out, size_t room,
    size_t *length) KOHIBLAD_INLINE("kohiblad_merge_patch");

/* Copies the canonical document of a document without the members that are null, in each object in
 * it, to `out`. Items that are null stay, and so does a document that is null itself. INVALID_JSONB
 * if the bytes are not a document of at most this depth, or the result exceeds a limit of the
 * format; OUT_OF_MEMORY if an allocation fails. */
static inline uint32_t kohiblad_strip_nulls(const uint8_t *bytes, size_t size, size_t depth,
    uint8_t *out, size_t room, size_t *length) KOHIBLAD_INLINE("kohiblad_strip_nulls");

/* Copies the canonical document of an object with some of its members to `out`. `names` is the
 * document of an array of texts. With `others` 0 the members whose keys are among them are kept,
 * and otherwise the others; it does not matter how often or in which order they are listed. What is
 * not an object is kept whole. INVALID_JSONB if the bytes or the names are not a document of at
 * most this depth, or the result exceeds a limit of the format; OTHER_KIND if the names are not an
 * array of texts; OUT_OF_MEMORY if an allocation fails. */
static inline uint32_t kohiblad_pick(const uint8_t *bytes, size_t size, const uint8_t *names,
    size_t names_size, uint32_t others, size_t depth, uint8_t *out, size_t room, size_t *length)
    KOHIBLAD_INLINE("kohiblad_pick");

/* Copies the canonical document of the array of an object's keys to `out`: texts in the order in
 * which the keys are stored, which is that of their bytes. INVALID_JSONB if the bytes are not a
 * document of at most this depth; NONE if the document is not an object; OUT_OF_MEMORY if an
 * allocation fails. */
static inline uint32_t kohiblad_object_keys(const uint8_t *bytes, size_t size, size_t depth,
    uint8_t *out, size_t room, size_t *length) KOHIBLAD_INLINE("kohiblad_object_keys");

/* Copies the canonical document of an array's items without those that are equal to one before them
 * to `out`. A value that is not an array is the one item. INVALID_JSONB if the bytes are not a
 * document of at most this depth, or the result exceeds a limit of the format; OUT_OF_MEMORY if an
 * allocation fails. */
static inline uint32_t kohiblad_array_distinct(const uint8_t *bytes, size_t size, size_t depth,
    uint8_t *out, size_t room, size_t *length) KOHIBLAD_INLINE("kohiblad_array_distinct");

/* Copies the canonical document of the items that both arrays have to `out`, in the order of
 * `left`. Of equal items there are as many as both have: the first ones of `left`. A value that is
 * not an array is one item. INVALID_JSONB if `left` or `right` is not a document of at most this
 * depth, or the result exceeds a limit of the format; OUT_OF_MEMORY if an allocation fails. */
static inline uint32_t kohiblad_array_intersection(const uint8_t *left, size_t left_size,
    const uint8_t *right, size_t right_size, size_t depth, uint8_t *out, size_t room,
    size_t *length) KOHIBLAD_INLINE("kohiblad_array_intersection");

/* Copies the canonical document of the items of `left` without one for each equal item of `right`
 * to `out`. Of equal items the first ones go. A value that is not an array is one item.
 * INVALID_JSONB if `left` or `right` is not a document of at most this depth, or the result exceeds
 * a limit of the format; OUT_OF_MEMORY if an allocation fails. */
static inline uint32_t kohiblad_array_except(const uint8_t *left, size_t left_size,
    const uint8_t *right, size_t right_size, size_t depth, uint8_t *out, size_t room,
    size_t *length) KOHIBLAD_INLINE("kohiblad_array_except");

/* Whether some item of the array `left` is equal to one of `right`, as 0 or 1. A value that is not
 * an array is one item. INVALID_JSONB if `left` or `right` is not a document of at most this depth;
 * OUT_OF_MEMORY if an allocation fails. */
static inline struct kohiblad_truth kohiblad_array_overlap(const uint8_t *left,
    size_t left_size, const uint8_t *right, size_t right_size, size_t depth)
    KOHIBLAD_INLINE("kohiblad_array_overlap");

/* Copies the canonical document of a document that is edited at the end of a path to `out`. `path`
 * is the document of an array: a text is the key of a member, and a whole number the index of an
 * item, counted from 0, or from -1 at the end; one that is stored as a decimal is none. With
 * KOHIBLAD_PUT the value is put there, in place of what is there; with KOHIBLAD_INSERT it is
 * inserted before an item, or as a member whose key is not there; with KOHIBLAD_REMOVE what is
 * there is removed, and no value is read. Past the last item a value comes after it, and before the
 * first one in front of it. If a step before the last leads nowhere nothing is edited, and neither
 * is the whole document but by putting a value. With KOHIBLAD_CREATE the value is put there, and
 * what the path lacks is made: an object for each missing key, an array for the index 0 or 2^64 -
 * 1; an item is added right after the last one only, at its index or at 2^64 - 1. Any other number
 * is refused without reading the value. INVALID_JSONB if the bytes, the path or the value are not a
 * document of at most this depth, or the result exceeds a limit of the format; OTHER_KIND if there
 * is no such edit, or the path is not an array of texts and whole numbers of 64 bits; OUT_OF_MEMORY
 * if an allocation fails. The document has at most 5/4 of the bytes of the document and the value
 * together, 3 times those of the path, and 2 more. `edit` is one of enum kohiblad_edit_kind. Where
 * nothing is edited, the result is the canonical form of the document. */
static inline uint32_t kohiblad_edit(const uint8_t *bytes, size_t size, const uint8_t *path,
    size_t path_size, uint32_t edit, const uint8_t *value, size_t value_size, size_t depth,
    uint8_t *out, size_t room, size_t *length) KOHIBLAD_INLINE("kohiblad_edit");

/* The room in which each result of kohiblad_edit fits, by the sizes of the document, the path and
 * the value; and that of each result of kohiblad_concat. */
static inline size_t kohiblad_edit_room(size_t size, size_t path_size, size_t value_size) {
    return size + size / 4 + value_size + value_size / 4 + 3 * path_size + 3;
}
static inline size_t kohiblad_concat_room(size_t left_size, size_t right_size) {
    return left_size + left_size / 4 + right_size + right_size / 4 + 15;
}

/* Copies the document of the path that a text gives to `out`. The text is `$`, and then the steps:
 * `.name` is the value of a key, and so is `."any name"`, if there are points, brackets or question
 * marks in it; `[7]` is an item, also as `[007]`, `[#-1]` the last one, and `[#]`, or `[#-0]`,
 * none, past the last one. `[last]` is the last one too, and `[last - 1]`, or `[last-1]`, the one
 * before it. The keys are the text's bytes, without escapes: `.a\b` has a backslash, and `.*a` is
 * the key `*a`. The document is what kohiblad_edit and kohiblad_get_path take: an array with a text
 * for each key and a whole number for each item, where -1 is the last one. An index past 2^64 - 1
 * is stored as that, and one from the end past 2^63 as -2^63. INVALID_UTF8 if the text is not
 * UTF-8; OTHER_KIND if it is not a path, or one with wildcards, ranges, lists or filters;
 * INVALID_JSONB if a key has 2^28 bytes or more, or the path 2^29 steps or more; OUT_OF_MEMORY if
 * an allocation fails; NO_ROOM if `out` is shorter than the document. */
static inline uint32_t kohiblad_path_of_text(const uint8_t *text, size_t size, uint8_t *out,
    size_t room, size_t *length) KOHIBLAD_INLINE("kohiblad_path_of_text");

/* Copies the document of the path that a text gives in a document to `out`. The text is a path as
 * kohiblad_path_of_text reads it, or names: a JSON pointer (RFC 6901) such as `/a/0`, or a list
 * such as PostgreSQL's `{a,0,"b c"}`, in which a name with one of the six white space characters of
 * ASCII is written between quotes. A name is a key, but in an array of the document `0`, and other
 * digits that do not begin with `0`, are an index, `-1` is the last item, and `-` is past it, as is
 * every number past 2^64 - 2. kohiblad_edit and kohiblad_get_path take the result. INVALID_UTF8 if
 * the text is not UTF-8; INVALID_JSONB if the bytes are not a document of at most this depth, or as
 * for kohiblad_path_of_text; OTHER_KIND if the text is none of these, or a path with wildcards,
 * ranges or filters; OUT_OF_MEMORY if an allocation fails. */
static inline uint32_t kohiblad_path_in(const uint8_t *bytes, size_t size, const uint8_t *text,
    size_t text_size, size_t depth, uint8_t *out, size_t room, size_t *length)
    KOHIBLAD_INLINE("kohiblad_path_in");

/* The place of the value at the end of a path. `path` is the document of an array: a text is the
 * key of a member, and a whole number the index of an item, counted from 0, or from -1 at the end.
 * A number that is stored as a decimal is no index, also one without digits after its point. At the
 * end of an empty path is the whole value: all bytes of an array or object, and the payload of a
 * scalar. NONE if the path leads nowhere; INVALID_JSONB if the bytes or the path are not a document
 * of at most this depth; OTHER_KIND if the path is not an array of texts and whole numbers of 64
 * bits; OUT_OF_MEMORY if an allocation fails. If the status is not OK, type, offset and length are
 * 0. */
static inline struct kohiblad_place kohiblad_get_path(const uint8_t *bytes, size_t size,
    const uint8_t *path, size_t path_size, size_t depth) KOHIBLAD_INLINE("kohiblad_get_path");

/* Copies the places of the values that a path selects to `out`, in the order in which they are
 * stored, those at a list of indexes in the order of these, and how many they are to `*count`. The
 * path is a text as kohiblad_path_of_text reads it, in which `[*]` is each item of an array, `[0 to
 * #-2]` the items from one to another, as far as they are there (`[0 to #]` selects all, `[# to 1]`
 * none), `[0, 2, last]` the items at these indexes, as far as they are there, `.*` each member's
 * value of an object, and `?(@.price < 3)` keeps a value if what is at the end of the path that
 * begins with `@` compares so with a literal, by the order of documents. That path has no
 * wildcards, ranges, lists and filters, and a key with a space in it is written between quotes. The
 * comparison is `==`, `!=` or `<>`, `<`, `<=`, `>` or `>=`, with one space before and after it, and
 * the literal `null`, `true`, `false`, a JSON number, which is read exactly, or a string without
 * quotes and escapes in it, in which a backslash is a backslash. `exists(@.price)` in place of a
 * comparison keeps a value if such a path leads to a value, which may be null, and
 * `!exists(@.price)` if it leads nowhere. `&&` and `||` join these, in groups in parentheses, and
 * `!` turns a group. INVALID_UTF8 if the text is not UTF-8; INVALID_JSONB if the bytes are not a
 * document of at most this depth; OTHER_KIND if the text is not a path; OUT_OF_MEMORY if an
 * allocation fails; NO_ROOM if `out` is too short. If the status is not OK, `out` is unchanged, and
 * `*count` is 0, or for NO_ROOM the number of places. Each list multiplies the time and the places
 * of what follows it by the number of its indexes. */
static inline uint32_t kohiblad_select(const uint8_t *bytes, size_t size, const uint8_t *path,
    size_t path_size, size_t depth, struct kohiblad_place *out, size_t room, size_t *count)
    KOHIBLAD_INLINE("kohiblad_select");

/* Copies the places of the values that a path selects, as kohiblad_select does, unless that takes
 * more than `steps` steps, for a path that others chose. There is a step for each value that a step
 * of the path is asked of, and one for each of its items or members, or of the bytes of a text, or
 * of binary or opaque data; a list of indexes takes as many for each of them. A filter takes one
 * for each comparison, `exists`, `&&`, `||`, `!(`, `(` and `)`, and for a comparison or `exists`
 * also one for each item, member or byte of each value on the way of its path: `$.*?(@ > 1)` takes
 * 3 of {"a":2}. INVALID_UTF8 if the text is not UTF-8; INVALID_JSONB if the bytes are not a
 * document of at most this depth; OTHER_KIND if the text is not a path; TOO_MANY_STEPS if the steps
 * do not suffice; OUT_OF_MEMORY if an allocation fails; NO_ROOM if `out` is too short. If the
 * status is not OK, `out` is unchanged, and `*count` is 0, or for NO_ROOM the number of places. */
static inline uint32_t kohiblad_select_within(const uint8_t *bytes, size_t size,
    const uint8_t *path, size_t path_size, size_t depth, size_t steps, struct kohiblad_place *out,
    size_t room, size_t *count) KOHIBLAD_INLINE("kohiblad_select_within");

/* Copies the index keys of a document to `out`: one for each scalar, the FNV-1a hash of 64 bits of
 * the keys of the objects around it, from the outermost, each escaped and ended as in a comparable
 * key, then a byte 0, and then the scalar's comparable key. A document that contains another has
 * each of its index keys, so an index over them misses no document; two scalars may have the same
 * key. There are at most as many as a quarter of `size`. INVALID_JSONB if the bytes are not a
 * document of at most this depth; OUT_OF_MEMORY if an allocation fails. */
static inline uint32_t kohiblad_index_keys(const uint8_t *bytes, size_t size, size_t depth,
    uint64_t *out, size_t room, size_t *count) KOHIBLAD_INLINE("kohiblad_index_keys");

/* Copies the top keys of a document to `out`: the FNV-1a hash of 64 bits of two bytes 0 and then
 * each key of an object, each text among an array's items, or the text itself. They are apart from
 * the index keys, so one index holds both. If a key exists in a document, the one top key of the
 * key's own document is one of the document's. There are at most as many as a quarter of `size`.
 * INVALID_JSONB if the bytes are not a document of at most this depth; OUT_OF_MEMORY if an
 * allocation fails. */
static inline uint32_t kohiblad_top_keys(const uint8_t *bytes, size_t size, size_t depth,
    uint64_t *out, size_t room, size_t *count) KOHIBLAD_INLINE("kohiblad_top_keys");

/* Whether a text is a path of SQL/JSON, and where and why it is not. OK, with the length of the
 * text, if it is one; INVALID_UTF8 if the text is not UTF-8; OTHER_KIND if it is not a path, at the
 * byte of the offset and by the reason; OUT_OF_MEMORY if an allocation fails. If the reason is that
 * something else is expected there, `expected` says what, with `mark` the character of a mark that
 * is expected, and `found` what is there. If it is left out here, `left_out` says what. Other
 * fields are 0, and with every other status but OK and OTHER_KIND all of them. */
static inline struct kohiblad_path_refusal kohiblad_path_fault(const uint8_t *path,
    size_t path_size) KOHIBLAD_INLINE("kohiblad_path_fault");

/* Copies why a text is not a path of SQL/JSON to `out`: the text about the place as a line, and on
 * the next one a caret under the place, what may come there, what was found, and of some texts how
 * they are written here. INVALID_UTF8 if the text is not UTF-8; NONE if it is a path; OUT_OF_MEMORY
 * if an allocation fails. */
static inline uint32_t kohiblad_path_report(const uint8_t *path, size_t path_size, uint8_t *out,
    size_t room, size_t *length) KOHIBLAD_INLINE("kohiblad_path_report");

/* Copies the text of a path of SQL/JSON as PostgreSQL prints a `jsonpath` to `out`: `lax` is left
 * out, keys are quoted, and an operator stands in parentheses unless it binds tighter than the one
 * around it. INVALID_UTF8 if the path is not UTF-8; OTHER_KIND if the text is not a path;
 * OUT_OF_MEMORY if an allocation fails. */
static inline uint32_t kohiblad_path_print(const uint8_t *path, size_t path_size, uint8_t *out,
    size_t room, size_t *length) KOHIBLAD_INLINE("kohiblad_path_print");

/* Copies the canonical document of the array of all values that a path of SQL/JSON gives of a
 * document to `out`. The path is a text as PostgreSQL reads its `jsonpath`, and `variables` the
 * document of an object: each member is the variable of this name. No bytes are no variables. With
 * `silent` 0 an error that gives the path up is the status, which is the name of the error;
 * otherwise the values before it are copied, and only UNDEFINED_VARIABLE stays a status.
 * INVALID_UTF8 if the path is not UTF-8; then INVALID_JSONB if the bytes or the variables are not a
 * document of at most this depth; then OTHER_KIND if the text is not a path, or the variables are
 * not an object; then the status of the error; INVALID_JSONB also if the array exceeds a limit of
 * the format; OUT_OF_MEMORY if an allocation fails. */
static inline uint32_t kohiblad_path_query(const uint8_t *bytes, size_t size, const uint8_t *path,
    size_t path_size, const uint8_t *variables, size_t variables_size, uint32_t silent,
    size_t depth, uint8_t *out, size_t room, size_t *length) KOHIBLAD_INLINE("kohiblad_path_query");

/* Whether a path of SQL/JSON gives a value of a document, as 0 or 1. The path is a text as
 * PostgreSQL reads its `jsonpath`, and `variables` the document of an object: each member is the
 * variable of this name. No bytes are no variables. An error that gives the path up is the status,
 * which is the name of the error, unless the path is not strict and a value comes before the error;
 * with a `silent` other than 0 the status is NONE in its place, but for UNDEFINED_VARIABLE.
 * INVALID_UTF8 if the path is not UTF-8; then INVALID_JSONB if the bytes or the variables are not a
 * document of at most this depth; then OTHER_KIND if the text is not a path, or the variables are
 * not an object; OUT_OF_MEMORY if an allocation fails. */
static inline struct kohiblad_truth kohiblad_path_exists(const uint8_t *bytes, size_t size,
    const uint8_t *path, size_t path_size, const uint8_t *variables, size_t variables_size,
    uint32_t silent, size_t depth) KOHIBLAD_INLINE("kohiblad_path_exists");

/* The truth that a path of SQL/JSON gives of a document, as 0 or 1, as `jsonb_path_match` of
 * PostgreSQL: of its one value, which is a boolean; NONE if it is null. The path is a text as
 * PostgreSQL reads its `jsonpath`, and `variables` the document of an object: each member is the
 * variable of this name. No bytes are no variables. An error that gives the path up is the status,
 * which is the name of the error, and BOOLEAN_REQUIRED if there is another number of values or
 * another value; with a `silent` other than 0 these are hidden, but for UNDEFINED_VARIABLE: then
 * the answer is that of the one value before the error, or NONE. INVALID_UTF8 if the path is not
 * UTF-8; then INVALID_JSONB if the bytes or the variables are not a document of at most this depth;
 * then OTHER_KIND if the text is not a path, or the variables are not an object; OUT_OF_MEMORY if
 * an allocation fails. */
static inline struct kohiblad_truth kohiblad_path_match(const uint8_t *bytes, size_t size,
    const uint8_t *path, size_t path_size, const uint8_t *variables, size_t variables_size,
    uint32_t silent, size_t depth) KOHIBLAD_INLINE("kohiblad_path_match");

/* The exports of the library. */
uint32_t kohiblad_export_version(void) KOHIBLAD_EXPORT("kohiblad_version");
uint32_t kohiblad_export_status_name(uint32_t status, uint8_t *out, size_t room, size_t *length)
    KOHIBLAD_EXPORT("kohiblad_status_name");
bool kohiblad_export_check(const uint8_t *bytes, size_t size, size_t depth)
    KOHIBLAD_EXPORT("kohiblad_check");
int32_t kohiblad_export_compare(const uint8_t *left, size_t left_size, const uint8_t *right,
    size_t right_size, size_t depth) KOHIBLAD_EXPORT("kohiblad_compare");
struct kohiblad_value_kind kohiblad_export_kind(const uint8_t *bytes, size_t size)
    KOHIBLAD_EXPORT("kohiblad_kind");
uint32_t kohiblad_export_get_key(const uint8_t *bytes, size_t size, const uint8_t *name,
    size_t name_size, uint8_t *out, size_t room, size_t *length)
    KOHIBLAD_EXPORT("kohiblad_get_key");
struct kohiblad_place kohiblad_export_find_key(const uint8_t *bytes, size_t size,
    const uint8_t *name, size_t name_size) KOHIBLAD_EXPORT("kohiblad_find_key");
struct kohiblad_place kohiblad_export_find_index(const uint8_t *bytes, size_t size, size_t number)
    KOHIBLAD_EXPORT("kohiblad_find_index");
struct kohiblad_place kohiblad_export_find_key_in_prefix(const uint8_t *prefix, size_t prefix_size,
    size_t size, const uint8_t *name, size_t name_size)
    KOHIBLAD_EXPORT("kohiblad_find_key_in_prefix");
struct kohiblad_place kohiblad_export_find_index_in_prefix(const uint8_t *prefix,
    size_t prefix_size, size_t size, size_t index) KOHIBLAD_EXPORT("kohiblad_find_index_in_prefix");
uint32_t kohiblad_export_begin(const uint8_t *bytes, size_t size, struct kohiblad_cursor *cursor)
    KOHIBLAD_EXPORT("kohiblad_begin");
uint32_t kohiblad_export_next(const uint8_t *bytes, size_t size, struct kohiblad_cursor *cursor,
    struct kohiblad_place *key, struct kohiblad_place *value) KOHIBLAD_EXPORT("kohiblad_next");
uint32_t kohiblad_export_copy(uint32_t type, const uint8_t *payload, size_t size, uint8_t *out,
    size_t room, size_t *length) KOHIBLAD_EXPORT("kohiblad_copy");
uint32_t kohiblad_export_get_index(const uint8_t *bytes, size_t size, size_t index, uint8_t *out,
    size_t room, size_t *length) KOHIBLAD_EXPORT("kohiblad_get_index");
uint32_t kohiblad_export_get_member(const uint8_t *bytes, size_t size, size_t index, uint8_t *key,
    size_t key_room, size_t *key_length, uint8_t *out, size_t room, size_t *length)
    KOHIBLAD_EXPORT("kohiblad_get_member");
struct kohiblad_decimal kohiblad_export_as_decimal(const uint8_t *bytes, size_t size)
    KOHIBLAD_EXPORT("kohiblad_as_decimal");
struct kohiblad_integer kohiblad_export_as_int64(const uint8_t *bytes, size_t size)
    KOHIBLAD_EXPORT("kohiblad_as_int64");
struct kohiblad_place kohiblad_export_as_string(const uint8_t *bytes, size_t size)
    KOHIBLAD_EXPORT("kohiblad_as_string");
struct kohiblad_truth kohiblad_export_as_boolean(const uint8_t *bytes, size_t size)
    KOHIBLAD_EXPORT("kohiblad_as_boolean");
struct kohiblad_extension_value kohiblad_export_as_extension(const uint8_t *bytes, size_t size)
    KOHIBLAD_EXPORT("kohiblad_as_extension");
uint32_t kohiblad_export_of_null(uint8_t *out, size_t room, size_t *length)
    KOHIBLAD_EXPORT("kohiblad_of_null");
uint32_t kohiblad_export_of_boolean(uint32_t value, uint8_t *out, size_t room, size_t *length)
    KOHIBLAD_EXPORT("kohiblad_of_boolean");
uint32_t kohiblad_export_of_string(const uint8_t *text, size_t size, uint8_t *out, size_t room,
    size_t *length) KOHIBLAD_EXPORT("kohiblad_of_string");
uint32_t kohiblad_export_of_int64(int64_t value, uint8_t *out, size_t room, size_t *length)
    KOHIBLAD_EXPORT("kohiblad_of_int64");
uint32_t kohiblad_export_of_decimal(int64_t high, uint64_t low, uint32_t scale, uint8_t *out,
    size_t room, size_t *length) KOHIBLAD_EXPORT("kohiblad_of_decimal");
uint32_t kohiblad_export_of_extension(uint32_t tag, int64_t value, int32_t months, int32_t days,
    int32_t seconds, const uint8_t *data, size_t size, uint8_t *out, size_t room, size_t *length)
    KOHIBLAD_EXPORT("kohiblad_of_extension");
uint32_t kohiblad_export_print(const uint8_t *bytes, size_t size, size_t depth, uint8_t *out,
    size_t room, size_t *length) KOHIBLAD_EXPORT("kohiblad_print");
uint32_t kohiblad_export_pretty(const uint8_t *bytes, size_t size, size_t depth, uint8_t *out,
    size_t room, size_t *length) KOHIBLAD_EXPORT("kohiblad_pretty");
uint32_t kohiblad_export_print_at(uint32_t type, const uint8_t *payload, size_t size, size_t depth,
    uint8_t *out, size_t room, size_t *length) KOHIBLAD_EXPORT("kohiblad_print_at");
uint32_t kohiblad_export_pretty_at(uint32_t type, const uint8_t *payload, size_t size, size_t depth,
    uint8_t *out, size_t room, size_t *length) KOHIBLAD_EXPORT("kohiblad_pretty_at");
uint32_t kohiblad_export_parse(const uint8_t *text, size_t size, size_t depth, uint32_t exponents,
    uint8_t *out, size_t room, size_t *length) KOHIBLAD_EXPORT("kohiblad_parse");
struct kohiblad_fault kohiblad_export_text_fault(const uint8_t *text, size_t size, size_t depth,
    uint32_t exponents) KOHIBLAD_EXPORT("kohiblad_text_fault");
struct kohiblad_expected kohiblad_export_text_expected(const uint8_t *text, size_t size,
    size_t depth, uint32_t exponents) KOHIBLAD_EXPORT("kohiblad_text_expected");
uint32_t kohiblad_export_build_array(const uint8_t *bytes, size_t size, const size_t *offsets,
    size_t count, size_t depth, uint8_t *out, size_t room, size_t *length)
    KOHIBLAD_EXPORT("kohiblad_build_array");
uint32_t kohiblad_export_build_object(const uint8_t *bytes, size_t size, const size_t *offsets,
    size_t count, size_t depth, uint8_t *out, size_t room, size_t *length)
    KOHIBLAD_EXPORT("kohiblad_build_object");
bool kohiblad_export_is_canonical(const uint8_t *bytes, size_t size, size_t depth)
    KOHIBLAD_EXPORT("kohiblad_is_canonical");
uint32_t kohiblad_export_canonical(const uint8_t *bytes, size_t size, size_t depth, uint8_t *out,
    size_t room, size_t *length) KOHIBLAD_EXPORT("kohiblad_canonical");
uint32_t kohiblad_export_key_layout(void) KOHIBLAD_EXPORT("kohiblad_key_layout");
uint32_t kohiblad_export_key(const uint8_t *bytes, size_t size, size_t depth, uint8_t *out,
    size_t room, size_t *length) KOHIBLAD_EXPORT("kohiblad_key");
uint32_t kohiblad_export_key_cut(const uint8_t *bytes, size_t size, size_t depth, uint8_t *out,
    size_t room, size_t *length) KOHIBLAD_EXPORT("kohiblad_key_cut");
uint32_t kohiblad_export_member_key(const uint8_t *bytes, size_t size, const uint8_t *names,
    size_t names_size, size_t depth, uint8_t *out, size_t room, size_t *length)
    KOHIBLAD_EXPORT("kohiblad_member_key");
uint32_t kohiblad_export_sort(const uint8_t *bytes, size_t size, const size_t *offsets,
    size_t count, size_t depth, size_t *order, size_t room) KOHIBLAD_EXPORT("kohiblad_sort");
struct kohiblad_survey_counts kohiblad_export_survey(const uint8_t *bytes, size_t size,
    const size_t *offsets, size_t count, const uint8_t *path, size_t path_size, size_t depth)
    KOHIBLAD_EXPORT("kohiblad_survey");
struct kohiblad_taken kohiblad_export_take_int64(const uint8_t *bytes, size_t size,
    const size_t *offsets, size_t count, const uint8_t *path, size_t path_size, size_t depth,
    uint32_t fit, int64_t *values, size_t room, uint8_t *states, size_t states_room)
    KOHIBLAD_EXPORT("kohiblad_take_int64");
struct kohiblad_taken kohiblad_export_take_uint64(const uint8_t *bytes, size_t size,
    const size_t *offsets, size_t count, const uint8_t *path, size_t path_size, size_t depth,
    uint32_t fit, uint64_t *values, size_t room, uint8_t *states, size_t states_room)
    KOHIBLAD_EXPORT("kohiblad_take_uint64");
struct kohiblad_taken kohiblad_export_take_decimal(const uint8_t *bytes, size_t size,
    const size_t *offsets, size_t count, const uint8_t *path, size_t path_size, size_t depth,
    uint32_t fit, uint32_t scale, struct kohiblad_int128 *values, size_t room, uint8_t *states,
    size_t states_room) KOHIBLAD_EXPORT("kohiblad_take_decimal");
struct kohiblad_taken kohiblad_export_take_boolean(const uint8_t *bytes, size_t size,
    const size_t *offsets, size_t count, const uint8_t *path, size_t path_size, size_t depth,
    uint8_t *values, size_t room, uint8_t *states, size_t states_room)
    KOHIBLAD_EXPORT("kohiblad_take_boolean");
struct kohiblad_taken kohiblad_export_take_text(const uint8_t *bytes, size_t size,
    const size_t *offsets, size_t count, const uint8_t *path, size_t path_size, size_t depth,
    uint8_t *out, size_t room, size_t *length, size_t *text_offsets, size_t offsets_room,
    uint8_t *states, size_t states_room) KOHIBLAD_EXPORT("kohiblad_take_text");
struct kohiblad_taken kohiblad_export_take_int64_unchecked(const uint8_t *bytes, size_t size,
    const size_t *offsets, size_t count, const uint8_t *path, size_t path_size, size_t depth,
    uint32_t fit, int64_t *values, size_t room, uint8_t *states, size_t states_room)
    KOHIBLAD_EXPORT("kohiblad_take_int64_unchecked");
struct kohiblad_taken kohiblad_export_take_uint64_unchecked(const uint8_t *bytes, size_t size,
    const size_t *offsets, size_t count, const uint8_t *path, size_t path_size, size_t depth,
    uint32_t fit, uint64_t *values, size_t room, uint8_t *states, size_t states_room)
    KOHIBLAD_EXPORT("kohiblad_take_uint64_unchecked");
struct kohiblad_taken kohiblad_export_take_decimal_unchecked(const uint8_t *bytes, size_t size,
    const size_t *offsets, size_t count, const uint8_t *path, size_t path_size, size_t depth,
    uint32_t fit, uint32_t scale, struct kohiblad_int128 *values, size_t room, uint8_t *states,
    size_t states_room) KOHIBLAD_EXPORT("kohiblad_take_decimal_unchecked");
struct kohiblad_taken kohiblad_export_take_boolean_unchecked(const uint8_t *bytes, size_t size,
    const size_t *offsets, size_t count, const uint8_t *path, size_t path_size, size_t depth,
    uint8_t *values, size_t room, uint8_t *states, size_t states_room)
    KOHIBLAD_EXPORT("kohiblad_take_boolean_unchecked");
struct kohiblad_taken kohiblad_export_take_text_unchecked(const uint8_t *bytes, size_t size,
    const size_t *offsets, size_t count, const uint8_t *path, size_t path_size, size_t depth,
    uint8_t *out, size_t room, size_t *length, size_t *text_offsets, size_t offsets_room,
    uint8_t *states, size_t states_room) KOHIBLAD_EXPORT("kohiblad_take_text_unchecked");
struct kohiblad_taken kohiblad_export_take_text32(const uint8_t *bytes, size_t size,
    const size_t *offsets, size_t count, const uint8_t *path, size_t path_size, size_t depth,
    uint8_t *out, size_t room, size_t *length, uint32_t *text_offsets, size_t offsets_room,
    uint8_t *states, size_t states_room) KOHIBLAD_EXPORT("kohiblad_take_text32");
struct kohiblad_taken kohiblad_export_take_text32_unchecked(const uint8_t *bytes, size_t size,
    const size_t *offsets, size_t count, const uint8_t *path, size_t path_size, size_t depth,
    uint8_t *out, size_t room, size_t *length, uint32_t *text_offsets, size_t offsets_room,
    uint8_t *states, size_t states_room) KOHIBLAD_EXPORT("kohiblad_take_text32_unchecked");
struct kohiblad_taken kohiblad_export_take_binary(const uint8_t *bytes, size_t size,
    const size_t *offsets, size_t count, const uint8_t *path, size_t path_size, size_t depth,
    uint8_t *out, size_t room, size_t *length, size_t *value_offsets, size_t offsets_room,
    uint8_t *states, size_t states_room) KOHIBLAD_EXPORT("kohiblad_take_binary");
struct kohiblad_taken kohiblad_export_take_binary_unchecked(const uint8_t *bytes, size_t size,
    const size_t *offsets, size_t count, const uint8_t *path, size_t path_size, size_t depth,
    uint8_t *out, size_t room, size_t *length, size_t *value_offsets, size_t offsets_room,
    uint8_t *states, size_t states_room) KOHIBLAD_EXPORT("kohiblad_take_binary_unchecked");
struct kohiblad_taken kohiblad_export_take_date(const uint8_t *bytes, size_t size,
    const size_t *offsets, size_t count, const uint8_t *path, size_t path_size, size_t depth,
    int32_t *values, size_t room, uint8_t *states, size_t states_room)
    KOHIBLAD_EXPORT("kohiblad_take_date");
struct kohiblad_taken kohiblad_export_take_date_unchecked(const uint8_t *bytes, size_t size,
    const size_t *offsets, size_t count, const uint8_t *path, size_t path_size, size_t depth,
    int32_t *values, size_t room, uint8_t *states, size_t states_room)
    KOHIBLAD_EXPORT("kohiblad_take_date_unchecked");
struct kohiblad_taken kohiblad_export_take_timestamp(const uint8_t *bytes, size_t size,
    const size_t *offsets, size_t count, const uint8_t *path, size_t path_size, size_t depth,
    int64_t *values, size_t room, uint8_t *states, size_t states_room)
    KOHIBLAD_EXPORT("kohiblad_take_timestamp");
struct kohiblad_taken kohiblad_export_take_timestamp_unchecked(const uint8_t *bytes, size_t size,
    const size_t *offsets, size_t count, const uint8_t *path, size_t path_size, size_t depth,
    int64_t *values, size_t room, uint8_t *states, size_t states_room)
    KOHIBLAD_EXPORT("kohiblad_take_timestamp_unchecked");
struct kohiblad_taken kohiblad_export_take_timestamp_tz(const uint8_t *bytes, size_t size,
    const size_t *offsets, size_t count, const uint8_t *path, size_t path_size, size_t depth,
    struct kohiblad_timestamp_tz *values, size_t room, uint8_t *states, size_t states_room)
    KOHIBLAD_EXPORT("kohiblad_take_timestamp_tz");
struct kohiblad_taken kohiblad_export_take_timestamp_tz_unchecked(const uint8_t *bytes, size_t size,
    const size_t *offsets, size_t count, const uint8_t *path, size_t path_size, size_t depth,
    struct kohiblad_timestamp_tz *values, size_t room, uint8_t *states, size_t states_room)
    KOHIBLAD_EXPORT("kohiblad_take_timestamp_tz_unchecked");
struct kohiblad_taken kohiblad_export_take_interval(const uint8_t *bytes, size_t size,
    const size_t *offsets, size_t count, const uint8_t *path, size_t path_size, size_t depth,
    struct kohiblad_interval *values, size_t room, uint8_t *states, size_t states_room)
    KOHIBLAD_EXPORT("kohiblad_take_interval");
struct kohiblad_taken kohiblad_export_take_interval_unchecked(const uint8_t *bytes, size_t size,
    const size_t *offsets, size_t count, const uint8_t *path, size_t path_size, size_t depth,
    struct kohiblad_interval *values, size_t room, uint8_t *states, size_t states_room)
    KOHIBLAD_EXPORT("kohiblad_take_interval_unchecked");
uint32_t kohiblad_export_zones_int64(const int64_t *values, size_t values_count,
    const uint8_t *states, size_t states_count, size_t block_rows, struct kohiblad_int64_zone *out,
    size_t room, size_t *count) KOHIBLAD_EXPORT("kohiblad_zones_int64");
uint32_t kohiblad_export_zones_uint64(const uint64_t *values, size_t values_count,
    const uint8_t *states, size_t states_count, size_t block_rows, struct kohiblad_uint64_zone *out,
    size_t room, size_t *count) KOHIBLAD_EXPORT("kohiblad_zones_uint64");
uint32_t kohiblad_export_zones_decimal(const struct kohiblad_int128 *values, size_t values_count,
    const uint8_t *states, size_t states_count, size_t block_rows,
    struct kohiblad_decimal_zone *out, size_t room, size_t *count)
    KOHIBLAD_EXPORT("kohiblad_zones_decimal");
uint32_t kohiblad_export_zones_date(const int32_t *values, size_t values_count,
    const uint8_t *states, size_t states_count, size_t block_rows, struct kohiblad_date_zone *out,
    size_t room, size_t *count) KOHIBLAD_EXPORT("kohiblad_zones_date");
uint32_t kohiblad_export_build_typed_file(const uint8_t *bytes, size_t size, const size_t *offsets,
    size_t count, const uint8_t *names, size_t names_size, const uint8_t *types, size_t types_size,
    size_t depth, uint8_t *out, size_t room, size_t *length)
    KOHIBLAD_EXPORT("kohiblad_build_typed_file");
struct kohiblad_typed_file kohiblad_export_check_typed_file(const uint8_t *bytes, size_t size,
    size_t depth) KOHIBLAD_EXPORT("kohiblad_check_typed_file");
uint32_t kohiblad_export_typed_columns(const uint8_t *bytes, size_t size,
    struct kohiblad_typed_column *out, size_t room, size_t *count)
    KOHIBLAD_EXPORT("kohiblad_typed_columns");
uint32_t kohiblad_export_typed_row(const uint8_t *bytes, size_t size, size_t index, size_t depth,
    uint8_t *out, size_t room, size_t *length) KOHIBLAD_EXPORT("kohiblad_typed_row");
uint32_t kohiblad_export_locate(const uint8_t *bytes, size_t size, const size_t *offsets,
    size_t count, const uint8_t *names, size_t names_size, size_t depth,
    struct kohiblad_place *places, size_t room) KOHIBLAD_EXPORT("kohiblad_locate");
uint32_t kohiblad_export_locate_unchecked(const uint8_t *bytes, size_t size, const size_t *offsets,
    size_t count, const uint8_t *names, size_t names_size, size_t depth,
    struct kohiblad_place *places, size_t room) KOHIBLAD_EXPORT("kohiblad_locate_unchecked");
struct kohiblad_taken kohiblad_export_take_int64_at(const uint8_t *bytes, size_t size,
    const struct kohiblad_place *places, size_t count, size_t step, uint32_t fit, int64_t *values,
    size_t room, uint8_t *states, size_t states_room) KOHIBLAD_EXPORT("kohiblad_take_int64_at");
struct kohiblad_taken kohiblad_export_take_uint64_at(const uint8_t *bytes, size_t size,
    const struct kohiblad_place *places, size_t count, size_t step, uint32_t fit, uint64_t *values,
    size_t room, uint8_t *states, size_t states_room) KOHIBLAD_EXPORT("kohiblad_take_uint64_at");
struct kohiblad_taken kohiblad_export_take_decimal_at(const uint8_t *bytes, size_t size,
    const struct kohiblad_place *places, size_t count, size_t step, uint32_t fit, uint32_t scale,
    struct kohiblad_int128 *values, size_t room, uint8_t *states, size_t states_room)
    KOHIBLAD_EXPORT("kohiblad_take_decimal_at");
struct kohiblad_taken kohiblad_export_take_boolean_at(const uint8_t *bytes, size_t size,
    const struct kohiblad_place *places, size_t count, size_t step, uint8_t *values, size_t room,
    uint8_t *states, size_t states_room) KOHIBLAD_EXPORT("kohiblad_take_boolean_at");
struct kohiblad_taken kohiblad_export_take_date_at(const uint8_t *bytes, size_t size,
    const struct kohiblad_place *places, size_t count, size_t step, int32_t *values, size_t room,
    uint8_t *states, size_t states_room) KOHIBLAD_EXPORT("kohiblad_take_date_at");
struct kohiblad_taken kohiblad_export_take_timestamp_at(const uint8_t *bytes, size_t size,
    const struct kohiblad_place *places, size_t count, size_t step, int64_t *values, size_t room,
    uint8_t *states, size_t states_room) KOHIBLAD_EXPORT("kohiblad_take_timestamp_at");
struct kohiblad_taken kohiblad_export_take_timestamp_tz_at(const uint8_t *bytes, size_t size,
    const struct kohiblad_place *places, size_t count, size_t step,
    struct kohiblad_timestamp_tz *values, size_t room, uint8_t *states, size_t states_room)
    KOHIBLAD_EXPORT("kohiblad_take_timestamp_tz_at");
struct kohiblad_taken kohiblad_export_take_interval_at(const uint8_t *bytes, size_t size,
    const struct kohiblad_place *places, size_t count, size_t step,
    struct kohiblad_interval *values, size_t room, uint8_t *states, size_t states_room)
    KOHIBLAD_EXPORT("kohiblad_take_interval_at");
struct kohiblad_taken kohiblad_export_take_text_at(const uint8_t *bytes, size_t size,
    const struct kohiblad_place *places, size_t count, size_t step, uint8_t *out, size_t room,
    size_t *length, size_t *text_offsets, size_t offsets_room, uint8_t *states, size_t states_room)
    KOHIBLAD_EXPORT("kohiblad_take_text_at");
struct kohiblad_taken kohiblad_export_take_text32_at(const uint8_t *bytes, size_t size,
    const struct kohiblad_place *places, size_t count, size_t step, uint8_t *out, size_t room,
    size_t *length, uint32_t *text_offsets, size_t offsets_room, uint8_t *states,
    size_t states_room) KOHIBLAD_EXPORT("kohiblad_take_text32_at");
struct kohiblad_taken kohiblad_export_take_binary_at(const uint8_t *bytes, size_t size,
    const struct kohiblad_place *places, size_t count, size_t step, uint8_t *out, size_t room,
    size_t *length, size_t *value_offsets, size_t offsets_room, uint8_t *states, size_t states_room)
    KOHIBLAD_EXPORT("kohiblad_take_binary_at");
struct kohiblad_truth kohiblad_export_contains(const uint8_t *left, size_t left_size,
    const uint8_t *right, size_t right_size, size_t depth, size_t steps)
    KOHIBLAD_EXPORT("kohiblad_contains");
struct kohiblad_truth kohiblad_export_exists(const uint8_t *bytes, size_t size, const uint8_t *key,
    size_t key_size, size_t depth) KOHIBLAD_EXPORT("kohiblad_exists");
struct kohiblad_truth kohiblad_export_exists_any(const uint8_t *bytes, size_t size,
    const uint8_t *names, size_t names_size, size_t depth) KOHIBLAD_EXPORT("kohiblad_exists_any");
struct kohiblad_truth kohiblad_export_exists_all(const uint8_t *bytes, size_t size,
    const uint8_t *names, size_t names_size, size_t depth) KOHIBLAD_EXPORT("kohiblad_exists_all");
uint32_t kohiblad_export_concat(const uint8_t *left, size_t left_size, const uint8_t *right,
    size_t right_size, size_t depth, uint8_t *out, size_t room, size_t *length)
    KOHIBLAD_EXPORT("kohiblad_concat");
uint32_t kohiblad_export_merge_patch(const uint8_t *target, size_t target_size,
    const uint8_t *patch, size_t patch_size, size_t depth, uint8_t *out, size_t room,
    size_t *length) KOHIBLAD_EXPORT("kohiblad_merge_patch");
uint32_t kohiblad_export_strip_nulls(const uint8_t *bytes, size_t size, size_t depth, uint8_t *out,
    size_t room, size_t *length) KOHIBLAD_EXPORT("kohiblad_strip_nulls");
uint32_t kohiblad_export_pick(const uint8_t *bytes, size_t size, const uint8_t *names,
    size_t names_size, uint32_t others, size_t depth, uint8_t *out, size_t room, size_t *length)
    KOHIBLAD_EXPORT("kohiblad_pick");
uint32_t kohiblad_export_object_keys(const uint8_t *bytes, size_t size, size_t depth, uint8_t *out,
    size_t room, size_t *length) KOHIBLAD_EXPORT("kohiblad_object_keys");
uint32_t kohiblad_export_array_distinct(const uint8_t *bytes, size_t size, size_t depth,
    uint8_t *out, size_t room, size_t *length) KOHIBLAD_EXPORT("kohiblad_array_distinct");
uint32_t kohiblad_export_array_intersection(const uint8_t *left, size_t left_size,
    const uint8_t *right, size_t right_size, size_t depth, uint8_t *out, size_t room,
    size_t *length) KOHIBLAD_EXPORT("kohiblad_array_intersection");
uint32_t kohiblad_export_array_except(const uint8_t *left, size_t left_size, const uint8_t *right,
    size_t right_size, size_t depth, uint8_t *out, size_t room, size_t *length)
    KOHIBLAD_EXPORT("kohiblad_array_except");
struct kohiblad_truth kohiblad_export_array_overlap(const uint8_t *left, size_t left_size,
    const uint8_t *right, size_t right_size, size_t depth)
    KOHIBLAD_EXPORT("kohiblad_array_overlap");
uint32_t kohiblad_export_edit(const uint8_t *bytes, size_t size, const uint8_t *path,
    size_t path_size, uint32_t edit, const uint8_t *value, size_t value_size, size_t depth,
    uint8_t *out, size_t room, size_t *length) KOHIBLAD_EXPORT("kohiblad_edit");
uint32_t kohiblad_export_path_of_text(const uint8_t *text, size_t size, uint8_t *out, size_t room,
    size_t *length) KOHIBLAD_EXPORT("kohiblad_path_of_text");
uint32_t kohiblad_export_path_in(const uint8_t *bytes, size_t size, const uint8_t *text,
    size_t text_size, size_t depth, uint8_t *out, size_t room, size_t *length)
    KOHIBLAD_EXPORT("kohiblad_path_in");
struct kohiblad_place kohiblad_export_get_path(const uint8_t *bytes, size_t size,
    const uint8_t *path, size_t path_size, size_t depth) KOHIBLAD_EXPORT("kohiblad_get_path");
uint32_t kohiblad_export_select(const uint8_t *bytes, size_t size, const uint8_t *path,
    size_t path_size, size_t depth, struct kohiblad_place *out, size_t room, size_t *count)
    KOHIBLAD_EXPORT("kohiblad_select");
uint32_t kohiblad_export_select_within(const uint8_t *bytes, size_t size, const uint8_t *path,
    size_t path_size, size_t depth, size_t steps, struct kohiblad_place *out, size_t room,
    size_t *count) KOHIBLAD_EXPORT("kohiblad_select_within");
uint32_t kohiblad_export_index_keys(const uint8_t *bytes, size_t size, size_t depth, uint64_t *out,
    size_t room, size_t *count) KOHIBLAD_EXPORT("kohiblad_index_keys");
uint32_t kohiblad_export_top_keys(const uint8_t *bytes, size_t size, size_t depth, uint64_t *out,
    size_t room, size_t *count) KOHIBLAD_EXPORT("kohiblad_top_keys");
struct kohiblad_path_refusal kohiblad_export_path_fault(const uint8_t *path, size_t path_size)
    KOHIBLAD_EXPORT("kohiblad_path_fault");
uint32_t kohiblad_export_path_report(const uint8_t *path, size_t path_size, uint8_t *out,
    size_t room, size_t *length) KOHIBLAD_EXPORT("kohiblad_path_report");
uint32_t kohiblad_export_path_print(const uint8_t *path, size_t path_size, uint8_t *out,
    size_t room, size_t *length) KOHIBLAD_EXPORT("kohiblad_path_print");
uint32_t kohiblad_export_path_query(const uint8_t *bytes, size_t size, const uint8_t *path,
    size_t path_size, const uint8_t *variables, size_t variables_size, uint32_t silent,
    size_t depth, uint8_t *out, size_t room, size_t *length) KOHIBLAD_EXPORT("kohiblad_path_query");
struct kohiblad_truth kohiblad_export_path_exists(const uint8_t *bytes, size_t size,
    const uint8_t *path, size_t path_size, const uint8_t *variables, size_t variables_size,
    uint32_t silent, size_t depth) KOHIBLAD_EXPORT("kohiblad_path_exists");
struct kohiblad_truth kohiblad_export_path_match(const uint8_t *bytes, size_t size,
    const uint8_t *path, size_t path_size, const uint8_t *variables, size_t variables_size,
    uint32_t silent, size_t depth) KOHIBLAD_EXPORT("kohiblad_path_match");

/* Whether two blocks have a byte in common. */
static inline bool kohiblad_meet(const void *left, size_t left_size,
                                 const void *right, size_t right_size) {
    uintptr_t l = (uintptr_t)left, r = (uintptr_t)right;
    return l < r ? r - l < left_size && right_size > 0 : l - r < right_size && left_size > 0;
}

/* Whether a room and its length, or count, lie apart from each other, */
static inline bool kohiblad_is_room(const void *out, size_t room_size, const size_t *length) {
    return !kohiblad_meet(out, room_size, length, sizeof *length);
}

/* and both from another block. */
static inline bool kohiblad_is_apart(const void *out, size_t room_size, const size_t *length,
                                     const void *other, size_t size) {
    return !kohiblad_meet(out, room_size, other, size)
        && !kohiblad_meet(length, sizeof *length, other, size);
}

/* Whether a block lies apart from rows, and from a path or names. */
static inline bool kohiblad_is_outside(const void *out, size_t out_size, const uint8_t *bytes,
                                       size_t size, const size_t *offsets, size_t count,
                                       const uint8_t *path, size_t path_size) {
    return !kohiblad_meet(out, out_size, bytes, size)
        && !kohiblad_meet(out, out_size, offsets, count * sizeof *offsets)
        && !kohiblad_meet(out, out_size, path, path_size);
}

/* Null with length 0 becomes a pointer to something that is never read or written. */
static inline uint8_t *kohiblad_out(uint8_t *out) {
    static uint8_t none;
    return out ? out : &none;
}
static inline const uint8_t *kohiblad_in(const uint8_t *in) {
    static uint8_t none;
    return in ? in : &none;
}
static inline const size_t *kohiblad_sizes_in(const size_t *in) {
    static size_t none;
    return in ? in : &none;
}
static inline size_t *kohiblad_sizes_out(size_t *out) {
    static size_t none;
    return out ? out : &none;
}
static inline int64_t *kohiblad_int64s_out(int64_t *out) {
    static int64_t none;
    return out ? out : &none;
}
static inline uint64_t *kohiblad_uint64s_out(uint64_t *out) {
    static uint64_t none;
    return out ? out : &none;
}
static inline struct kohiblad_int128 *kohiblad_int128s_out(struct kohiblad_int128 *out) {
    static struct kohiblad_int128 none;
    return out ? out : &none;
}
static inline uint32_t *kohiblad_uint32s_out(uint32_t *out) {
    static uint32_t none;
    return out ? out : &none;
}
static inline int32_t *kohiblad_int32s_out(int32_t *out) {
    static int32_t none;
    return out ? out : &none;
}
static inline struct kohiblad_timestamp_tz *kohiblad_timestamp_tzs_out(
    struct kohiblad_timestamp_tz *out) {
    static struct kohiblad_timestamp_tz none;
    return out ? out : &none;
}
static inline struct kohiblad_interval *kohiblad_intervals_out(struct kohiblad_interval *out) {
    static struct kohiblad_interval none;
    return out ? out : &none;
}
static inline const int64_t *kohiblad_int64s_in(const int64_t *in) {
    static int64_t none;
    return in ? in : &none;
}
static inline struct kohiblad_int64_zone *kohiblad_int64_zones_out(
    struct kohiblad_int64_zone *out) {
    static struct kohiblad_int64_zone none;
    return out ? out : &none;
}
static inline const uint64_t *kohiblad_uint64s_in(const uint64_t *in) {
    static uint64_t none;
    return in ? in : &none;
}
static inline struct kohiblad_uint64_zone *kohiblad_uint64_zones_out(
    struct kohiblad_uint64_zone *out) {
    static struct kohiblad_uint64_zone none;
    return out ? out : &none;
}
static inline const struct kohiblad_int128 *kohiblad_int128s_in(const struct kohiblad_int128 *in) {
    static struct kohiblad_int128 none;
    return in ? in : &none;
}
static inline struct kohiblad_decimal_zone *kohiblad_decimal_zones_out(
    struct kohiblad_decimal_zone *out) {
    static struct kohiblad_decimal_zone none;
    return out ? out : &none;
}
static inline const int32_t *kohiblad_int32s_in(const int32_t *in) {
    static int32_t none;
    return in ? in : &none;
}
static inline struct kohiblad_date_zone *kohiblad_date_zones_out(struct kohiblad_date_zone *out) {
    static struct kohiblad_date_zone none;
    return out ? out : &none;
}
static inline struct kohiblad_typed_column *kohiblad_typed_columns_out(
    struct kohiblad_typed_column *out) {
    static struct kohiblad_typed_column none;
    return out ? out : &none;
}
static inline struct kohiblad_place *kohiblad_places_out(struct kohiblad_place *out) {
    static struct kohiblad_place none;
    return out ? out : &none;
}
static inline const struct kohiblad_place *kohiblad_places_in(const struct kohiblad_place *in) {
    static struct kohiblad_place none;
    return in ? in : &none;
}

/* The functions that are declared above; those that do more than most come after them. */
static inline uint32_t kohiblad_version(void) {
    return kohiblad_export_version();
}
static inline uint32_t kohiblad_status_name(uint32_t status, uint8_t *out, size_t room,
    size_t *length) {
    if (!kohiblad_is_room(out, room, length)) return KOHIBLAD_OVERLAP;
    return kohiblad_export_status_name(status, kohiblad_out(out), room, length);
}
static inline bool kohiblad_check(const uint8_t *bytes, size_t size, size_t depth) {
    return kohiblad_export_check(kohiblad_in(bytes), size, depth);
}
static inline int32_t kohiblad_compare(const uint8_t *left, size_t left_size, const uint8_t *right,
    size_t right_size, size_t depth) {
    return kohiblad_export_compare(kohiblad_in(left), left_size, kohiblad_in(right), right_size,
        depth);
}
static inline struct kohiblad_value_kind kohiblad_kind(const uint8_t *bytes, size_t size) {
    return kohiblad_export_kind(kohiblad_in(bytes), size);
}
static inline uint32_t kohiblad_get_key(const uint8_t *bytes, size_t size, const uint8_t *name,
    size_t name_size, uint8_t *out, size_t room, size_t *length) {
    if (!kohiblad_is_room(out, room, length)
        || !kohiblad_is_apart(out, room, length, bytes, size)
        || !kohiblad_is_apart(out, room, length, name, name_size))
        return KOHIBLAD_OVERLAP;
    return kohiblad_export_get_key(kohiblad_in(bytes), size, kohiblad_in(name), name_size,
        kohiblad_out(out), room, length);
}
static inline struct kohiblad_place kohiblad_find_key(const uint8_t *bytes, size_t size,
    const uint8_t *name, size_t name_size) {
    return kohiblad_export_find_key(kohiblad_in(bytes), size, kohiblad_in(name), name_size);
}
static inline struct kohiblad_place kohiblad_find_index(const uint8_t *bytes, size_t size,
    size_t number) {
    return kohiblad_export_find_index(kohiblad_in(bytes), size, number);
}
static inline struct kohiblad_place kohiblad_find_key_in_prefix(const uint8_t *prefix,
    size_t prefix_size, size_t size, const uint8_t *name, size_t name_size) {
    return kohiblad_export_find_key_in_prefix(kohiblad_in(prefix), prefix_size, size,
        kohiblad_in(name), name_size);
}
static inline struct kohiblad_place kohiblad_find_index_in_prefix(const uint8_t *prefix,
    size_t prefix_size, size_t size, size_t index) {
    return kohiblad_export_find_index_in_prefix(kohiblad_in(prefix), prefix_size, size, index);
}
static inline uint32_t kohiblad_begin(const uint8_t *bytes, size_t size,
    struct kohiblad_cursor *cursor) {
    if (kohiblad_meet(cursor, sizeof *cursor, bytes, size)) return KOHIBLAD_OVERLAP;
    return kohiblad_export_begin(kohiblad_in(bytes), size, cursor);
}
static inline uint32_t kohiblad_copy(uint32_t type, const uint8_t *payload, size_t size,
    uint8_t *out, size_t room, size_t *length) {
    if (!kohiblad_is_room(out, room, length)
        || !kohiblad_is_apart(out, room, length, payload, size))
        return KOHIBLAD_OVERLAP;
    return kohiblad_export_copy(type, kohiblad_in(payload), size, kohiblad_out(out), room, length);
}
static inline uint32_t kohiblad_get_index(const uint8_t *bytes, size_t size, size_t index,
    uint8_t *out, size_t room, size_t *length) {
    if (!kohiblad_is_room(out, room, length)
        || !kohiblad_is_apart(out, room, length, bytes, size))
        return KOHIBLAD_OVERLAP;
    return kohiblad_export_get_index(kohiblad_in(bytes), size, index, kohiblad_out(out), room,
        length);
}
static inline uint32_t kohiblad_get_member(const uint8_t *bytes, size_t size, size_t index,
    uint8_t *key, size_t key_room, size_t *key_length, uint8_t *out, size_t room, size_t *length) {
    if (!kohiblad_is_room(key, key_room, key_length)
        || !kohiblad_is_apart(key, key_room, key_length, out, room)
        || !kohiblad_is_apart(key, key_room, key_length, length, sizeof *length)
        || !kohiblad_is_apart(key, key_room, key_length, bytes, size)
        || !kohiblad_is_room(out, room, length)
        || !kohiblad_is_apart(out, room, length, bytes, size))
        return KOHIBLAD_OVERLAP;
    return kohiblad_export_get_member(kohiblad_in(bytes), size, index, kohiblad_out(key), key_room,
        key_length, kohiblad_out(out), room, length);
}
static inline struct kohiblad_decimal kohiblad_as_decimal(const uint8_t *bytes, size_t size) {
    return kohiblad_export_as_decimal(kohiblad_in(bytes), size);
}
static inline struct kohiblad_integer kohiblad_as_int64(const uint8_t *bytes, size_t size) {
    return kohiblad_export_as_int64(kohiblad_in(bytes), size);
}
static inline struct kohiblad_place kohiblad_as_string(const uint8_t *bytes, size_t size) {
    return kohiblad_export_as_string(kohiblad_in(bytes), size);
}
static inline struct kohiblad_truth kohiblad_as_boolean(const uint8_t *bytes, size_t size) {
    return kohiblad_export_as_boolean(kohiblad_in(bytes), size);
}
static inline struct kohiblad_extension_value kohiblad_as_extension(const uint8_t *bytes,
    size_t size) {
    return kohiblad_export_as_extension(kohiblad_in(bytes), size);
}
static inline uint32_t kohiblad_of_null(uint8_t *out, size_t room, size_t *length) {
    if (!kohiblad_is_room(out, room, length)) return KOHIBLAD_OVERLAP;
    return kohiblad_export_of_null(kohiblad_out(out), room, length);
}
static inline uint32_t kohiblad_of_boolean(uint32_t value, uint8_t *out, size_t room,
    size_t *length) {
    if (!kohiblad_is_room(out, room, length)) return KOHIBLAD_OVERLAP;
    return kohiblad_export_of_boolean(value, kohiblad_out(out), room, length);
}
static inline uint32_t kohiblad_of_string(const uint8_t *text, size_t size, uint8_t *out,
    size_t room, size_t *length) {
    if (!kohiblad_is_room(out, room, length)
        || !kohiblad_is_apart(out, room, length, text, size))
        return KOHIBLAD_OVERLAP;
    return kohiblad_export_of_string(kohiblad_in(text), size, kohiblad_out(out), room, length);
}
static inline uint32_t kohiblad_of_int64(int64_t value, uint8_t *out, size_t room, size_t *length) {
    if (!kohiblad_is_room(out, room, length)) return KOHIBLAD_OVERLAP;
    return kohiblad_export_of_int64(value, kohiblad_out(out), room, length);
}
static inline uint32_t kohiblad_of_decimal(int64_t high, uint64_t low, uint32_t scale, uint8_t *out,
    size_t room, size_t *length) {
    if (!kohiblad_is_room(out, room, length)) return KOHIBLAD_OVERLAP;
    return kohiblad_export_of_decimal(high, low, scale, kohiblad_out(out), room, length);
}
static inline uint32_t kohiblad_of_extension(uint32_t tag, int64_t value, int32_t months,
    int32_t days, int32_t seconds, const uint8_t *data, size_t size, uint8_t *out, size_t room,
    size_t *length) {
    if (!kohiblad_is_room(out, room, length)
        || !kohiblad_is_apart(out, room, length, data, size))
        return KOHIBLAD_OVERLAP;
    return kohiblad_export_of_extension(tag, value, months, days, seconds, kohiblad_in(data), size,
        kohiblad_out(out), room, length);
}
static inline uint32_t kohiblad_print(const uint8_t *bytes, size_t size, size_t depth, uint8_t *out,
    size_t room, size_t *length) {
    if (!kohiblad_is_room(out, room, length)
        || !kohiblad_is_apart(out, room, length, bytes, size))
        return KOHIBLAD_OVERLAP;
    return kohiblad_export_print(kohiblad_in(bytes), size, depth, kohiblad_out(out), room, length);
}
static inline uint32_t kohiblad_pretty(const uint8_t *bytes, size_t size, size_t depth,
    uint8_t *out, size_t room, size_t *length) {
    if (!kohiblad_is_room(out, room, length)
        || !kohiblad_is_apart(out, room, length, bytes, size))
        return KOHIBLAD_OVERLAP;
    return kohiblad_export_pretty(kohiblad_in(bytes), size, depth, kohiblad_out(out), room, length);
}
static inline uint32_t kohiblad_print_at(uint32_t type, const uint8_t *payload, size_t size,
    size_t depth, uint8_t *out, size_t room, size_t *length) {
    if (!kohiblad_is_room(out, room, length)
        || !kohiblad_is_apart(out, room, length, payload, size))
        return KOHIBLAD_OVERLAP;
    return kohiblad_export_print_at(type, kohiblad_in(payload), size, depth, kohiblad_out(out),
        room, length);
}
static inline uint32_t kohiblad_pretty_at(uint32_t type, const uint8_t *payload, size_t size,
    size_t depth, uint8_t *out, size_t room, size_t *length) {
    if (!kohiblad_is_room(out, room, length)
        || !kohiblad_is_apart(out, room, length, payload, size))
        return KOHIBLAD_OVERLAP;
    return kohiblad_export_pretty_at(type, kohiblad_in(payload), size, depth, kohiblad_out(out),
        room, length);
}
static inline uint32_t kohiblad_parse(const uint8_t *text, size_t size, size_t depth,
    uint32_t exponents, uint8_t *out, size_t room, size_t *length) {
    if (!kohiblad_is_room(out, room, length)
        || !kohiblad_is_apart(out, room, length, text, size))
        return KOHIBLAD_OVERLAP;
    return kohiblad_export_parse(kohiblad_in(text), size, depth, exponents, kohiblad_out(out), room,
        length);
}
static inline struct kohiblad_fault kohiblad_text_fault(const uint8_t *text, size_t size,
    size_t depth, uint32_t exponents) {
    return kohiblad_export_text_fault(kohiblad_in(text), size, depth, exponents);
}
static inline struct kohiblad_expected kohiblad_text_expected(const uint8_t *text, size_t size,
    size_t depth, uint32_t exponents) {
    return kohiblad_export_text_expected(kohiblad_in(text), size, depth, exponents);
}
static inline uint32_t kohiblad_build_array(const uint8_t *bytes, size_t size,
    const size_t *offsets, size_t count, size_t depth, uint8_t *out, size_t room, size_t *length) {
    if (!kohiblad_is_room(out, room, length)
        || !kohiblad_is_apart(out, room, length, bytes, size)
        || !kohiblad_is_apart(out, room, length, offsets, count * sizeof *offsets))
        return KOHIBLAD_OVERLAP;
    return kohiblad_export_build_array(kohiblad_in(bytes), size, kohiblad_sizes_in(offsets), count,
        depth, kohiblad_out(out), room, length);
}
static inline uint32_t kohiblad_build_object(const uint8_t *bytes, size_t size,
    const size_t *offsets, size_t count, size_t depth, uint8_t *out, size_t room, size_t *length) {
    if (!kohiblad_is_room(out, room, length)
        || !kohiblad_is_apart(out, room, length, bytes, size)
        || !kohiblad_is_apart(out, room, length, offsets, count * sizeof *offsets))
        return KOHIBLAD_OVERLAP;
    return kohiblad_export_build_object(kohiblad_in(bytes), size, kohiblad_sizes_in(offsets), count,
        depth, kohiblad_out(out), room, length);
}
static inline bool kohiblad_is_canonical(const uint8_t *bytes, size_t size, size_t depth) {
    return kohiblad_export_is_canonical(kohiblad_in(bytes), size, depth);
}
static inline uint32_t kohiblad_canonical(const uint8_t *bytes, size_t size, size_t depth,
    uint8_t *out, size_t room, size_t *length) {
    if (!kohiblad_is_room(out, room, length)
        || !kohiblad_is_apart(out, room, length, bytes, size))
        return KOHIBLAD_OVERLAP;
    return kohiblad_export_canonical(kohiblad_in(bytes), size, depth, kohiblad_out(out), room,
        length);
}
static inline uint32_t kohiblad_key_layout(void) {
    return kohiblad_export_key_layout();
}
static inline uint32_t kohiblad_key(const uint8_t *bytes, size_t size, size_t depth, uint8_t *out,
    size_t room, size_t *length) {
    if (!kohiblad_is_room(out, room, length)
        || !kohiblad_is_apart(out, room, length, bytes, size))
        return KOHIBLAD_OVERLAP;
    return kohiblad_export_key(kohiblad_in(bytes), size, depth, kohiblad_out(out), room, length);
}
static inline uint32_t kohiblad_key_cut(const uint8_t *bytes, size_t size, size_t depth,
    uint8_t *out, size_t room, size_t *length) {
    if (!kohiblad_is_room(out, room, length)
        || !kohiblad_is_apart(out, room, length, bytes, size))
        return KOHIBLAD_OVERLAP;
    return kohiblad_export_key_cut(kohiblad_in(bytes), size, depth, kohiblad_out(out), room,
        length);
}
static inline uint32_t kohiblad_member_key(const uint8_t *bytes, size_t size, const uint8_t *names,
    size_t names_size, size_t depth, uint8_t *out, size_t room, size_t *length) {
    if (!kohiblad_is_room(out, room, length)
        || !kohiblad_is_apart(out, room, length, bytes, size)
        || !kohiblad_is_apart(out, room, length, names, names_size))
        return KOHIBLAD_OVERLAP;
    return kohiblad_export_member_key(kohiblad_in(bytes), size, kohiblad_in(names), names_size,
        depth, kohiblad_out(out), room, length);
}
static inline uint32_t kohiblad_sort(const uint8_t *bytes, size_t size, const size_t *offsets,
    size_t count, size_t depth, size_t *order, size_t room) {
    if (kohiblad_meet(order, room * sizeof *order, bytes, size)
        || kohiblad_meet(order, room * sizeof *order, offsets, count * sizeof *offsets))
        return KOHIBLAD_OVERLAP;
    return kohiblad_export_sort(kohiblad_in(bytes), size, kohiblad_sizes_in(offsets), count, depth,
        kohiblad_sizes_out(order), room);
}
static inline struct kohiblad_survey_counts kohiblad_survey(const uint8_t *bytes, size_t size,
    const size_t *offsets, size_t count, const uint8_t *path, size_t path_size, size_t depth) {
    return kohiblad_export_survey(kohiblad_in(bytes), size, kohiblad_sizes_in(offsets), count,
        kohiblad_in(path), path_size, depth);
}
static inline struct kohiblad_taken kohiblad_take_int64(const uint8_t *bytes, size_t size,
    const size_t *offsets, size_t count, const uint8_t *path, size_t path_size, size_t depth,
    uint32_t fit, int64_t *values, size_t room, uint8_t *states, size_t states_room) {
    struct kohiblad_taken overlap = { KOHIBLAD_OVERLAP, 0, 0 };
    if (kohiblad_meet(values, room * sizeof *values, states, states_room)
        || !kohiblad_is_outside(values, room * sizeof *values, bytes, size, offsets, count, path,
                                path_size)
        || !kohiblad_is_outside(states, states_room, bytes, size, offsets, count, path, path_size))
        return overlap;
    return kohiblad_export_take_int64(kohiblad_in(bytes), size, kohiblad_sizes_in(offsets), count,
        kohiblad_in(path), path_size, depth, fit, kohiblad_int64s_out(values), room,
        kohiblad_out(states), states_room);
}
static inline struct kohiblad_taken kohiblad_take_uint64(const uint8_t *bytes, size_t size,
    const size_t *offsets, size_t count, const uint8_t *path, size_t path_size, size_t depth,
    uint32_t fit, uint64_t *values, size_t room, uint8_t *states, size_t states_room) {
    struct kohiblad_taken overlap = { KOHIBLAD_OVERLAP, 0, 0 };
    if (kohiblad_meet(values, room * sizeof *values, states, states_room)
        || !kohiblad_is_outside(values, room * sizeof *values, bytes, size, offsets, count, path,
                                path_size)
        || !kohiblad_is_outside(states, states_room, bytes, size, offsets, count, path, path_size))
        return overlap;
    return kohiblad_export_take_uint64(kohiblad_in(bytes), size, kohiblad_sizes_in(offsets), count,
        kohiblad_in(path), path_size, depth, fit, kohiblad_uint64s_out(values), room,
        kohiblad_out(states), states_room);
}
static inline struct kohiblad_taken kohiblad_take_decimal(const uint8_t *bytes, size_t size,
    const size_t *offsets, size_t count, const uint8_t *path, size_t path_size, size_t depth,
    uint32_t fit, uint32_t scale, struct kohiblad_int128 *values, size_t room, uint8_t *states,
    size_t states_room) {
    struct kohiblad_taken overlap = { KOHIBLAD_OVERLAP, 0, 0 };
    if (kohiblad_meet(values, room * sizeof *values, states, states_room)
        || !kohiblad_is_outside(values, room * sizeof *values, bytes, size, offsets, count, path,
                                path_size)
        || !kohiblad_is_outside(states, states_room, bytes, size, offsets, count, path, path_size))
        return overlap;
    return kohiblad_export_take_decimal(kohiblad_in(bytes), size, kohiblad_sizes_in(offsets), count,
        kohiblad_in(path), path_size, depth, fit, scale, kohiblad_int128s_out(values), room,
        kohiblad_out(states), states_room);
}
static inline struct kohiblad_taken kohiblad_take_boolean(const uint8_t *bytes, size_t size,
    const size_t *offsets, size_t count, const uint8_t *path, size_t path_size, size_t depth,
    uint8_t *values, size_t room, uint8_t *states, size_t states_room) {
    struct kohiblad_taken overlap = { KOHIBLAD_OVERLAP, 0, 0 };
    if (kohiblad_meet(values, room, states, states_room)
        || !kohiblad_is_outside(values, room, bytes, size, offsets, count, path, path_size)
        || !kohiblad_is_outside(states, states_room, bytes, size, offsets, count, path, path_size))
        return overlap;
    return kohiblad_export_take_boolean(kohiblad_in(bytes), size, kohiblad_sizes_in(offsets), count,
        kohiblad_in(path), path_size, depth, kohiblad_out(values), room, kohiblad_out(states),
        states_room);
}
static inline struct kohiblad_taken kohiblad_take_text(const uint8_t *bytes, size_t size,
    const size_t *offsets, size_t count, const uint8_t *path, size_t path_size, size_t depth,
    uint8_t *out, size_t room, size_t *length, size_t *text_offsets, size_t offsets_room,
    uint8_t *states, size_t states_room) {
    struct kohiblad_taken overlap = { KOHIBLAD_OVERLAP, 0, 0 };
    if (!kohiblad_is_room(out, room, length)
        || !kohiblad_is_apart(out, room, length, text_offsets, offsets_room * sizeof *text_offsets)
        || !kohiblad_is_apart(out, room, length, states, states_room)
        || !kohiblad_is_apart(out, room, length, bytes, size)
        || !kohiblad_is_apart(out, room, length, offsets, count * sizeof *offsets)
        || !kohiblad_is_apart(out, room, length, path, path_size)
        || kohiblad_meet(text_offsets, offsets_room * sizeof *text_offsets, states, states_room)
        || !kohiblad_is_outside(text_offsets, offsets_room * sizeof *text_offsets, bytes, size,
                                offsets, count, path, path_size)
        || !kohiblad_is_outside(states, states_room, bytes, size, offsets, count, path, path_size))
        return overlap;
    return kohiblad_export_take_text(kohiblad_in(bytes), size, kohiblad_sizes_in(offsets), count,
        kohiblad_in(path), path_size, depth, kohiblad_out(out), room, length,
        kohiblad_sizes_out(text_offsets), offsets_room, kohiblad_out(states), states_room);
}
static inline struct kohiblad_taken kohiblad_take_int64_unchecked(const uint8_t *bytes, size_t size,
    const size_t *offsets, size_t count, const uint8_t *path, size_t path_size, size_t depth,
    uint32_t fit, int64_t *values, size_t room, uint8_t *states, size_t states_room) {
    struct kohiblad_taken overlap = { KOHIBLAD_OVERLAP, 0, 0 };
    if (kohiblad_meet(values, room * sizeof *values, states, states_room)
        || !kohiblad_is_outside(values, room * sizeof *values, bytes, size, offsets, count, path,
                                path_size)
        || !kohiblad_is_outside(states, states_room, bytes, size, offsets, count, path, path_size))
        return overlap;
    return kohiblad_export_take_int64_unchecked(kohiblad_in(bytes), size,
        kohiblad_sizes_in(offsets), count, kohiblad_in(path), path_size, depth, fit,
        kohiblad_int64s_out(values), room, kohiblad_out(states), states_room);
}
static inline struct kohiblad_taken kohiblad_take_uint64_unchecked(const uint8_t *bytes,
    size_t size, const size_t *offsets, size_t count, const uint8_t *path, size_t path_size,
    size_t depth, uint32_t fit, uint64_t *values, size_t room, uint8_t *states,
    size_t states_room) {
    struct kohiblad_taken overlap = { KOHIBLAD_OVERLAP, 0, 0 };
    if (kohiblad_meet(values, room * sizeof *values, states, states_room)
        || !kohiblad_is_outside(values, room * sizeof *values, bytes, size, offsets, count, path,
                                path_size)
        || !kohiblad_is_outside(states, states_room, bytes, size, offsets, count, path, path_size))
        return overlap;
    return kohiblad_export_take_uint64_unchecked(kohiblad_in(bytes), size,
        kohiblad_sizes_in(offsets), count, kohiblad_in(path), path_size, depth, fit,
        kohiblad_uint64s_out(values), room, kohiblad_out(states), states_room);
}
static inline struct kohiblad_taken kohiblad_take_decimal_unchecked(const uint8_t *bytes,
    size_t size, const size_t *offsets, size_t count, const uint8_t *path, size_t path_size,
    size_t depth, uint32_t fit, uint32_t scale, struct kohiblad_int128 *values, size_t room,
    uint8_t *states, size_t states_room) {
    struct kohiblad_taken overlap = { KOHIBLAD_OVERLAP, 0, 0 };
    if (kohiblad_meet(values, room * sizeof *values, states, states_room)
        || !kohiblad_is_outside(values, room * sizeof *values, bytes, size, offsets, count, path,
                                path_size)
        || !kohiblad_is_outside(states, states_room, bytes, size, offsets, count, path, path_size))
        return overlap;
    return kohiblad_export_take_decimal_unchecked(kohiblad_in(bytes), size,
        kohiblad_sizes_in(offsets), count, kohiblad_in(path), path_size, depth, fit, scale,
        kohiblad_int128s_out(values), room, kohiblad_out(states), states_room);
}
static inline struct kohiblad_taken kohiblad_take_boolean_unchecked(const uint8_t *bytes,
    size_t size, const size_t *offsets, size_t count, const uint8_t *path, size_t path_size,
    size_t depth, uint8_t *values, size_t room, uint8_t *states, size_t states_room) {
    struct kohiblad_taken overlap = { KOHIBLAD_OVERLAP, 0, 0 };
    if (kohiblad_meet(values, room, states, states_room)
        || !kohiblad_is_outside(values, room, bytes, size, offsets, count, path, path_size)
        || !kohiblad_is_outside(states, states_room, bytes, size, offsets, count, path, path_size))
        return overlap;
    return kohiblad_export_take_boolean_unchecked(kohiblad_in(bytes), size,
        kohiblad_sizes_in(offsets), count, kohiblad_in(path), path_size, depth,
        kohiblad_out(values), room, kohiblad_out(states), states_room);
}
static inline struct kohiblad_taken kohiblad_take_text_unchecked(const uint8_t *bytes, size_t size,
    const size_t *offsets, size_t count, const uint8_t *path, size_t path_size, size_t depth,
    uint8_t *out, size_t room, size_t *length, size_t *text_offsets, size_t offsets_room,
    uint8_t *states, size_t states_room) {
    struct kohiblad_taken overlap = { KOHIBLAD_OVERLAP, 0, 0 };
    if (!kohiblad_is_room(out, room, length)
        || !kohiblad_is_apart(out, room, length, text_offsets, offsets_room * sizeof *text_offsets)
        || !kohiblad_is_apart(out, room, length, states, states_room)
        || !kohiblad_is_apart(out, room, length, bytes, size)
        || !kohiblad_is_apart(out, room, length, offsets, count * sizeof *offsets)
        || !kohiblad_is_apart(out, room, length, path, path_size)
        || kohiblad_meet(text_offsets, offsets_room * sizeof *text_offsets, states, states_room)
        || !kohiblad_is_outside(text_offsets, offsets_room * sizeof *text_offsets, bytes, size,
                                offsets, count, path, path_size)
        || !kohiblad_is_outside(states, states_room, bytes, size, offsets, count, path, path_size))
        return overlap;
    return kohiblad_export_take_text_unchecked(kohiblad_in(bytes), size, kohiblad_sizes_in(offsets),
        count, kohiblad_in(path), path_size, depth, kohiblad_out(out), room, length,
        kohiblad_sizes_out(text_offsets), offsets_room, kohiblad_out(states), states_room);
}
static inline struct kohiblad_taken kohiblad_take_text32(const uint8_t *bytes, size_t size,
    const size_t *offsets, size_t count, const uint8_t *path, size_t path_size, size_t depth,
    uint8_t *out, size_t room, size_t *length, uint32_t *text_offsets, size_t offsets_room,
    uint8_t *states, size_t states_room) {
    struct kohiblad_taken overlap = { KOHIBLAD_OVERLAP, 0, 0 };
    if (!kohiblad_is_room(out, room, length)
        || !kohiblad_is_apart(out, room, length, text_offsets, offsets_room * sizeof *text_offsets)
        || !kohiblad_is_apart(out, room, length, states, states_room)
        || !kohiblad_is_apart(out, room, length, bytes, size)
        || !kohiblad_is_apart(out, room, length, offsets, count * sizeof *offsets)
        || !kohiblad_is_apart(out, room, length, path, path_size)
        || kohiblad_meet(text_offsets, offsets_room * sizeof *text_offsets, states, states_room)
        || !kohiblad_is_outside(text_offsets, offsets_room * sizeof *text_offsets, bytes, size,
                                offsets, count, path, path_size)
        || !kohiblad_is_outside(states, states_room, bytes, size, offsets, count, path, path_size))
        return overlap;
    return kohiblad_export_take_text32(kohiblad_in(bytes), size, kohiblad_sizes_in(offsets), count,
        kohiblad_in(path), path_size, depth, kohiblad_out(out), room, length,
        kohiblad_uint32s_out(text_offsets), offsets_room, kohiblad_out(states), states_room);
}
static inline struct kohiblad_taken kohiblad_take_text32_unchecked(const uint8_t *bytes,
    size_t size, const size_t *offsets, size_t count, const uint8_t *path, size_t path_size,
    size_t depth, uint8_t *out, size_t room, size_t *length, uint32_t *text_offsets,
    size_t offsets_room, uint8_t *states, size_t states_room) {
    struct kohiblad_taken overlap = { KOHIBLAD_OVERLAP, 0, 0 };
    if (!kohiblad_is_room(out, room, length)
        || !kohiblad_is_apart(out, room, length, text_offsets, offsets_room * sizeof *text_offsets)
        || !kohiblad_is_apart(out, room, length, states, states_room)
        || !kohiblad_is_apart(out, room, length, bytes, size)
        || !kohiblad_is_apart(out, room, length, offsets, count * sizeof *offsets)
        || !kohiblad_is_apart(out, room, length, path, path_size)
        || kohiblad_meet(text_offsets, offsets_room * sizeof *text_offsets, states, states_room)
        || !kohiblad_is_outside(text_offsets, offsets_room * sizeof *text_offsets, bytes, size,
                                offsets, count, path, path_size)
        || !kohiblad_is_outside(states, states_room, bytes, size, offsets, count, path, path_size))
        return overlap;
    return kohiblad_export_take_text32_unchecked(kohiblad_in(bytes), size,
        kohiblad_sizes_in(offsets), count, kohiblad_in(path), path_size, depth, kohiblad_out(out),
        room, length, kohiblad_uint32s_out(text_offsets), offsets_room, kohiblad_out(states),
        states_room);
}
static inline struct kohiblad_taken kohiblad_take_binary(const uint8_t *bytes, size_t size,
    const size_t *offsets, size_t count, const uint8_t *path, size_t path_size, size_t depth,
    uint8_t *out, size_t room, size_t *length, size_t *value_offsets, size_t offsets_room,
    uint8_t *states, size_t states_room) {
    struct kohiblad_taken overlap = { KOHIBLAD_OVERLAP, 0, 0 };
    if (!kohiblad_is_room(out, room, length)
        || !kohiblad_is_apart(out, room, length, value_offsets,
                              offsets_room * sizeof *value_offsets)
        || !kohiblad_is_apart(out, room, length, states, states_room)
        || !kohiblad_is_apart(out, room, length, bytes, size)
        || !kohiblad_is_apart(out, room, length, offsets, count * sizeof *offsets)
        || !kohiblad_is_apart(out, room, length, path, path_size)
        || kohiblad_meet(value_offsets, offsets_room * sizeof *value_offsets, states, states_room)
        || !kohiblad_is_outside(value_offsets, offsets_room * sizeof *value_offsets, bytes, size,
                                offsets, count, path, path_size)
        || !kohiblad_is_outside(states, states_room, bytes, size, offsets, count, path, path_size))
        return overlap;
    return kohiblad_export_take_binary(kohiblad_in(bytes), size, kohiblad_sizes_in(offsets), count,
        kohiblad_in(path), path_size, depth, kohiblad_out(out), room, length,
        kohiblad_sizes_out(value_offsets), offsets_room, kohiblad_out(states), states_room);
}
static inline struct kohiblad_taken kohiblad_take_binary_unchecked(const uint8_t *bytes,
    size_t size, const size_t *offsets, size_t count, const uint8_t *path, size_t path_size,
    size_t depth, uint8_t *out, size_t room, size_t *length, size_t *value_offsets,
    size_t offsets_room, uint8_t *states, size_t states_room) {
    struct kohiblad_taken overlap = { KOHIBLAD_OVERLAP, 0, 0 };
    if (!kohiblad_is_room(out, room, length)
        || !kohiblad_is_apart(out, room, length, value_offsets,
                              offsets_room * sizeof *value_offsets)
        || !kohiblad_is_apart(out, room, length, states, states_room)
        || !kohiblad_is_apart(out, room, length, bytes, size)
        || !kohiblad_is_apart(out, room, length, offsets, count * sizeof *offsets)
        || !kohiblad_is_apart(out, room, length, path, path_size)
        || kohiblad_meet(value_offsets, offsets_room * sizeof *value_offsets, states, states_room)
        || !kohiblad_is_outside(value_offsets, offsets_room * sizeof *value_offsets, bytes, size,
                                offsets, count, path, path_size)
        || !kohiblad_is_outside(states, states_room, bytes, size, offsets, count, path, path_size))
        return overlap;
    return kohiblad_export_take_binary_unchecked(kohiblad_in(bytes), size,
        kohiblad_sizes_in(offsets), count, kohiblad_in(path), path_size, depth, kohiblad_out(out),
        room, length, kohiblad_sizes_out(value_offsets), offsets_room, kohiblad_out(states),
        states_room);
}
static inline struct kohiblad_taken kohiblad_take_date(const uint8_t *bytes, size_t size,
    const size_t *offsets, size_t count, const uint8_t *path, size_t path_size, size_t depth,
    int32_t *values, size_t room, uint8_t *states, size_t states_room) {
    struct kohiblad_taken overlap = { KOHIBLAD_OVERLAP, 0, 0 };
    if (kohiblad_meet(values, room * sizeof *values, states, states_room)
        || !kohiblad_is_outside(values, room * sizeof *values, bytes, size, offsets, count, path,
                                path_size)
        || !kohiblad_is_outside(states, states_room, bytes, size, offsets, count, path, path_size))
        return overlap;
    return kohiblad_export_take_date(kohiblad_in(bytes), size, kohiblad_sizes_in(offsets), count,
        kohiblad_in(path), path_size, depth, kohiblad_int32s_out(values), room,
        kohiblad_out(states), states_room);
}
static inline struct kohiblad_taken kohiblad_take_date_unchecked(const uint8_t *bytes, size_t size,
    const size_t *offsets, size_t count, const uint8_t *path, size_t path_size, size_t depth,
    int32_t *values, size_t room, uint8_t *states, size_t states_room) {
    struct kohiblad_taken overlap = { KOHIBLAD_OVERLAP, 0, 0 };
    if (kohiblad_meet(values, room * sizeof *values, states, states_room)
        || !kohiblad_is_outside(values, room * sizeof *values, bytes, size, offsets, count, path,
                                path_size)
        || !kohiblad_is_outside(states, states_room, bytes, size, offsets, count, path, path_size))
        return overlap;
    return kohiblad_export_take_date_unchecked(kohiblad_in(bytes), size, kohiblad_sizes_in(offsets),
        count, kohiblad_in(path), path_size, depth, kohiblad_int32s_out(values), room,
        kohiblad_out(states), states_room);
}
static inline struct kohiblad_taken kohiblad_take_timestamp(const uint8_t *bytes, size_t size,
    const size_t *offsets, size_t count, const uint8_t *path, size_t path_size, size_t depth,
    int64_t *values, size_t room, uint8_t *states, size_t states_room) {
    struct kohiblad_taken overlap = { KOHIBLAD_OVERLAP, 0, 0 };
    if (kohiblad_meet(values, room * sizeof *values, states, states_room)
        || !kohiblad_is_outside(values, room * sizeof *values, bytes, size, offsets, count, path,
                                path_size)
        || !kohiblad_is_outside(states, states_room, bytes, size, offsets, count, path, path_size))
        return overlap;
    return kohiblad_export_take_timestamp(kohiblad_in(bytes), size, kohiblad_sizes_in(offsets),
        count, kohiblad_in(path), path_size, depth, kohiblad_int64s_out(values), room,
        kohiblad_out(states), states_room);
}
static inline struct kohiblad_taken kohiblad_take_timestamp_unchecked(const uint8_t *bytes,
    size_t size, const size_t *offsets, size_t count, const uint8_t *path, size_t path_size,
    size_t depth, int64_t *values, size_t room, uint8_t *states, size_t states_room) {
    struct kohiblad_taken overlap = { KOHIBLAD_OVERLAP, 0, 0 };
    if (kohiblad_meet(values, room * sizeof *values, states, states_room)
        || !kohiblad_is_outside(values, room * sizeof *values, bytes, size, offsets, count, path,
                                path_size)
        || !kohiblad_is_outside(states, states_room, bytes, size, offsets, count, path, path_size))
        return overlap;
    return kohiblad_export_take_timestamp_unchecked(kohiblad_in(bytes), size,
        kohiblad_sizes_in(offsets), count, kohiblad_in(path), path_size, depth,
        kohiblad_int64s_out(values), room, kohiblad_out(states), states_room);
}
static inline struct kohiblad_taken kohiblad_take_timestamp_tz(const uint8_t *bytes, size_t size,
    const size_t *offsets, size_t count, const uint8_t *path, size_t path_size, size_t depth,
    struct kohiblad_timestamp_tz *values, size_t room, uint8_t *states, size_t states_room) {
    struct kohiblad_taken overlap = { KOHIBLAD_OVERLAP, 0, 0 };
    if (kohiblad_meet(values, room * sizeof *values, states, states_room)
        || !kohiblad_is_outside(values, room * sizeof *values, bytes, size, offsets, count, path,
                                path_size)
        || !kohiblad_is_outside(states, states_room, bytes, size, offsets, count, path, path_size))
        return overlap;
    return kohiblad_export_take_timestamp_tz(kohiblad_in(bytes), size, kohiblad_sizes_in(offsets),
        count, kohiblad_in(path), path_size, depth, kohiblad_timestamp_tzs_out(values), room,
        kohiblad_out(states), states_room);
}
static inline struct kohiblad_taken kohiblad_take_timestamp_tz_unchecked(const uint8_t *bytes,
    size_t size, const size_t *offsets, size_t count, const uint8_t *path, size_t path_size,
    size_t depth, struct kohiblad_timestamp_tz *values, size_t room, uint8_t *states,
    size_t states_room) {
    struct kohiblad_taken overlap = { KOHIBLAD_OVERLAP, 0, 0 };
    if (kohiblad_meet(values, room * sizeof *values, states, states_room)
        || !kohiblad_is_outside(values, room * sizeof *values, bytes, size, offsets, count, path,
                                path_size)
        || !kohiblad_is_outside(states, states_room, bytes, size, offsets, count, path, path_size))
        return overlap;
    return kohiblad_export_take_timestamp_tz_unchecked(kohiblad_in(bytes), size,
        kohiblad_sizes_in(offsets), count, kohiblad_in(path), path_size, depth,
        kohiblad_timestamp_tzs_out(values), room, kohiblad_out(states), states_room);
}
static inline struct kohiblad_taken kohiblad_take_interval(const uint8_t *bytes, size_t size,
    const size_t *offsets, size_t count, const uint8_t *path, size_t path_size, size_t depth,
    struct kohiblad_interval *values, size_t room, uint8_t *states, size_t states_room) {
    struct kohiblad_taken overlap = { KOHIBLAD_OVERLAP, 0, 0 };
    if (kohiblad_meet(values, room * sizeof *values, states, states_room)
        || !kohiblad_is_outside(values, room * sizeof *values, bytes, size, offsets, count, path,
                                path_size)
        || !kohiblad_is_outside(states, states_room, bytes, size, offsets, count, path, path_size))
        return overlap;
    return kohiblad_export_take_interval(kohiblad_in(bytes), size, kohiblad_sizes_in(offsets),
        count, kohiblad_in(path), path_size, depth, kohiblad_intervals_out(values), room,
        kohiblad_out(states), states_room);
}
static inline struct kohiblad_taken kohiblad_take_interval_unchecked(const uint8_t *bytes,
    size_t size, const size_t *offsets, size_t count, const uint8_t *path, size_t path_size,
    size_t depth, struct kohiblad_interval *values, size_t room, uint8_t *states,
    size_t states_room) {
    struct kohiblad_taken overlap = { KOHIBLAD_OVERLAP, 0, 0 };
    if (kohiblad_meet(values, room * sizeof *values, states, states_room)
        || !kohiblad_is_outside(values, room * sizeof *values, bytes, size, offsets, count, path,
                                path_size)
        || !kohiblad_is_outside(states, states_room, bytes, size, offsets, count, path, path_size))
        return overlap;
    return kohiblad_export_take_interval_unchecked(kohiblad_in(bytes), size,
        kohiblad_sizes_in(offsets), count, kohiblad_in(path), path_size, depth,
        kohiblad_intervals_out(values), room, kohiblad_out(states), states_room);
}
static inline uint32_t kohiblad_zones_int64(const int64_t *values, size_t values_count,
    const uint8_t *states, size_t states_count, size_t block_rows, struct kohiblad_int64_zone *out,
    size_t room, size_t *count) {
    if (!kohiblad_is_room(out, room * sizeof *out, count)
        || !kohiblad_is_apart(out, room * sizeof *out, count, values, values_count * sizeof *values)
        || !kohiblad_is_apart(out, room * sizeof *out, count, states, states_count))
        return KOHIBLAD_OVERLAP;
    return kohiblad_export_zones_int64(kohiblad_int64s_in(values), values_count,
        kohiblad_in(states), states_count, block_rows, kohiblad_int64_zones_out(out), room, count);
}
static inline uint32_t kohiblad_zones_uint64(const uint64_t *values, size_t values_count,
    const uint8_t *states, size_t states_count, size_t block_rows, struct kohiblad_uint64_zone *out,
    size_t room, size_t *count) {
    if (!kohiblad_is_room(out, room * sizeof *out, count)
        || !kohiblad_is_apart(out, room * sizeof *out, count, values, values_count * sizeof *values)
        || !kohiblad_is_apart(out, room * sizeof *out, count, states, states_count))
        return KOHIBLAD_OVERLAP;
    return kohiblad_export_zones_uint64(kohiblad_uint64s_in(values), values_count,
        kohiblad_in(states), states_count, block_rows, kohiblad_uint64_zones_out(out), room, count);
}
static inline uint32_t kohiblad_zones_decimal(const struct kohiblad_int128 *values,
    size_t values_count, const uint8_t *states, size_t states_count, size_t block_rows,
    struct kohiblad_decimal_zone *out, size_t room, size_t *count) {
    if (!kohiblad_is_room(out, room * sizeof *out, count)
        || !kohiblad_is_apart(out, room * sizeof *out, count, values, values_count * sizeof *values)
        || !kohiblad_is_apart(out, room * sizeof *out, count, states, states_count))
        return KOHIBLAD_OVERLAP;
    return kohiblad_export_zones_decimal(kohiblad_int128s_in(values), values_count,
        kohiblad_in(states), states_count, block_rows, kohiblad_decimal_zones_out(out), room,
        count);
}
static inline uint32_t kohiblad_zones_date(const int32_t *values, size_t values_count,
    const uint8_t *states, size_t states_count, size_t block_rows, struct kohiblad_date_zone *out,
    size_t room, size_t *count) {
    if (!kohiblad_is_room(out, room * sizeof *out, count)
        || !kohiblad_is_apart(out, room * sizeof *out, count, values, values_count * sizeof *values)
        || !kohiblad_is_apart(out, room * sizeof *out, count, states, states_count))
        return KOHIBLAD_OVERLAP;
    return kohiblad_export_zones_date(kohiblad_int32s_in(values), values_count, kohiblad_in(states),
        states_count, block_rows, kohiblad_date_zones_out(out), room, count);
}
static inline uint32_t kohiblad_build_typed_file(const uint8_t *bytes, size_t size,
    const size_t *offsets, size_t count, const uint8_t *names, size_t names_size,
    const uint8_t *types, size_t types_size, size_t depth, uint8_t *out, size_t room,
    size_t *length) {
    if (!kohiblad_is_room(out, room, length)
        || !kohiblad_is_apart(out, room, length, bytes, size)
        || !kohiblad_is_apart(out, room, length, offsets, count * sizeof *offsets)
        || !kohiblad_is_apart(out, room, length, names, names_size)
        || !kohiblad_is_apart(out, room, length, types, types_size))
        return KOHIBLAD_OVERLAP;
    return kohiblad_export_build_typed_file(kohiblad_in(bytes), size, kohiblad_sizes_in(offsets),
        count, kohiblad_in(names), names_size, kohiblad_in(types), types_size, depth,
        kohiblad_out(out), room, length);
}
static inline struct kohiblad_typed_file kohiblad_check_typed_file(const uint8_t *bytes,
    size_t size, size_t depth) {
    return kohiblad_export_check_typed_file(kohiblad_in(bytes), size, depth);
}
static inline uint32_t kohiblad_typed_columns(const uint8_t *bytes, size_t size,
    struct kohiblad_typed_column *out, size_t room, size_t *count) {
    if (!kohiblad_is_room(out, room * sizeof *out, count)
        || !kohiblad_is_apart(out, room * sizeof *out, count, bytes, size))
        return KOHIBLAD_OVERLAP;
    return kohiblad_export_typed_columns(kohiblad_in(bytes), size, kohiblad_typed_columns_out(out),
        room, count);
}
static inline uint32_t kohiblad_typed_row(const uint8_t *bytes, size_t size, size_t index,
    size_t depth, uint8_t *out, size_t room, size_t *length) {
    if (!kohiblad_is_room(out, room, length)
        || !kohiblad_is_apart(out, room, length, bytes, size))
        return KOHIBLAD_OVERLAP;
    return kohiblad_export_typed_row(kohiblad_in(bytes), size, index, depth, kohiblad_out(out),
        room, length);
}
static inline uint32_t kohiblad_locate(const uint8_t *bytes, size_t size, const size_t *offsets,
    size_t count, const uint8_t *names, size_t names_size, size_t depth,
    struct kohiblad_place *places, size_t room) {
    if (!kohiblad_is_outside(places, room * sizeof *places, bytes, size, offsets, count, names,
                             names_size))
        return KOHIBLAD_OVERLAP;
    return kohiblad_export_locate(kohiblad_in(bytes), size, kohiblad_sizes_in(offsets), count,
        kohiblad_in(names), names_size, depth, kohiblad_places_out(places), room);
}
static inline uint32_t kohiblad_locate_unchecked(const uint8_t *bytes, size_t size,
    const size_t *offsets, size_t count, const uint8_t *names, size_t names_size, size_t depth,
    struct kohiblad_place *places, size_t room) {
    if (!kohiblad_is_outside(places, room * sizeof *places, bytes, size, offsets, count, names,
                             names_size))
        return KOHIBLAD_OVERLAP;
    return kohiblad_export_locate_unchecked(kohiblad_in(bytes), size, kohiblad_sizes_in(offsets),
        count, kohiblad_in(names), names_size, depth, kohiblad_places_out(places), room);
}
static inline struct kohiblad_taken kohiblad_take_int64_at(const uint8_t *bytes, size_t size,
    const struct kohiblad_place *places, size_t count, size_t step, uint32_t fit, int64_t *values,
    size_t room, uint8_t *states, size_t states_room) {
    struct kohiblad_taken overlap = { KOHIBLAD_OVERLAP, 0, 0 };
    if (kohiblad_meet(values, room * sizeof *values, states, states_room)
        || kohiblad_meet(values, room * sizeof *values, bytes, size)
        || kohiblad_meet(values, room * sizeof *values, places, count * sizeof *places)
        || kohiblad_meet(states, states_room, bytes, size)
        || kohiblad_meet(states, states_room, places, count * sizeof *places))
        return overlap;
    return kohiblad_export_take_int64_at(kohiblad_in(bytes), size, kohiblad_places_in(places),
        count, step, fit, kohiblad_int64s_out(values), room, kohiblad_out(states), states_room);
}
static inline struct kohiblad_taken kohiblad_take_uint64_at(const uint8_t *bytes, size_t size,
    const struct kohiblad_place *places, size_t count, size_t step, uint32_t fit, uint64_t *values,
    size_t room, uint8_t *states, size_t states_room) {
    struct kohiblad_taken overlap = { KOHIBLAD_OVERLAP, 0, 0 };
    if (kohiblad_meet(values, room * sizeof *values, states, states_room)
        || kohiblad_meet(values, room * sizeof *values, bytes, size)
        || kohiblad_meet(values, room * sizeof *values, places, count * sizeof *places)
        || kohiblad_meet(states, states_room, bytes, size)
        || kohiblad_meet(states, states_room, places, count * sizeof *places))
        return overlap;
    return kohiblad_export_take_uint64_at(kohiblad_in(bytes), size, kohiblad_places_in(places),
        count, step, fit, kohiblad_uint64s_out(values), room, kohiblad_out(states), states_room);
}
static inline struct kohiblad_taken kohiblad_take_decimal_at(const uint8_t *bytes, size_t size,
    const struct kohiblad_place *places, size_t count, size_t step, uint32_t fit, uint32_t scale,
    struct kohiblad_int128 *values, size_t room, uint8_t *states, size_t states_room) {
    struct kohiblad_taken overlap = { KOHIBLAD_OVERLAP, 0, 0 };
    if (kohiblad_meet(values, room * sizeof *values, states, states_room)
        || kohiblad_meet(values, room * sizeof *values, bytes, size)
        || kohiblad_meet(values, room * sizeof *values, places, count * sizeof *places)
        || kohiblad_meet(states, states_room, bytes, size)
        || kohiblad_meet(states, states_room, places, count * sizeof *places))
        return overlap;
    return kohiblad_export_take_decimal_at(kohiblad_in(bytes), size, kohiblad_places_in(places),
        count, step, fit, scale, kohiblad_int128s_out(values), room, kohiblad_out(states),
        states_room);
}
static inline struct kohiblad_taken kohiblad_take_boolean_at(const uint8_t *bytes, size_t size,
    const struct kohiblad_place *places, size_t count, size_t step, uint8_t *values, size_t room,
    uint8_t *states, size_t states_room) {
    struct kohiblad_taken overlap = { KOHIBLAD_OVERLAP, 0, 0 };
    if (kohiblad_meet(values, room, states, states_room)
        || kohiblad_meet(values, room, bytes, size)
        || kohiblad_meet(values, room, places, count * sizeof *places)
        || kohiblad_meet(states, states_room, bytes, size)
        || kohiblad_meet(states, states_room, places, count * sizeof *places))
        return overlap;
    return kohiblad_export_take_boolean_at(kohiblad_in(bytes), size, kohiblad_places_in(places),
        count, step, kohiblad_out(values), room, kohiblad_out(states), states_room);
}
static inline struct kohiblad_taken kohiblad_take_date_at(const uint8_t *bytes, size_t size,
    const struct kohiblad_place *places, size_t count, size_t step, int32_t *values, size_t room,
    uint8_t *states, size_t states_room) {
    struct kohiblad_taken overlap = { KOHIBLAD_OVERLAP, 0, 0 };
    if (kohiblad_meet(values, room * sizeof *values, states, states_room)
        || kohiblad_meet(values, room * sizeof *values, bytes, size)
        || kohiblad_meet(values, room * sizeof *values, places, count * sizeof *places)
        || kohiblad_meet(states, states_room, bytes, size)
        || kohiblad_meet(states, states_room, places, count * sizeof *places))
        return overlap;
    return kohiblad_export_take_date_at(kohiblad_in(bytes), size, kohiblad_places_in(places), count,
        step, kohiblad_int32s_out(values), room, kohiblad_out(states), states_room);
}
static inline struct kohiblad_taken kohiblad_take_timestamp_at(const uint8_t *bytes, size_t size,
    const struct kohiblad_place *places, size_t count, size_t step, int64_t *values, size_t room,
    uint8_t *states, size_t states_room) {
    struct kohiblad_taken overlap = { KOHIBLAD_OVERLAP, 0, 0 };
    if (kohiblad_meet(values, room * sizeof *values, states, states_room)
        || kohiblad_meet(values, room * sizeof *values, bytes, size)
        || kohiblad_meet(values, room * sizeof *values, places, count * sizeof *places)
        || kohiblad_meet(states, states_room, bytes, size)
        || kohiblad_meet(states, states_room, places, count * sizeof *places))
        return overlap;
    return kohiblad_export_take_timestamp_at(kohiblad_in(bytes), size, kohiblad_places_in(places),
        count, step, kohiblad_int64s_out(values), room, kohiblad_out(states), states_room);
}
static inline struct kohiblad_taken kohiblad_take_timestamp_tz_at(const uint8_t *bytes, size_t size,
    const struct kohiblad_place *places, size_t count, size_t step,
    struct kohiblad_timestamp_tz *values, size_t room, uint8_t *states, size_t states_room) {
    struct kohiblad_taken overlap = { KOHIBLAD_OVERLAP, 0, 0 };
    if (kohiblad_meet(values, room * sizeof *values, states, states_room)
        || kohiblad_meet(values, room * sizeof *values, bytes, size)
        || kohiblad_meet(values, room * sizeof *values, places, count * sizeof *places)
        || kohiblad_meet(states, states_room, bytes, size)
        || kohiblad_meet(states, states_room, places, count * sizeof *places))
        return overlap;
    return kohiblad_export_take_timestamp_tz_at(kohiblad_in(bytes), size,
        kohiblad_places_in(places), count, step, kohiblad_timestamp_tzs_out(values), room,
        kohiblad_out(states), states_room);
}
static inline struct kohiblad_taken kohiblad_take_interval_at(const uint8_t *bytes, size_t size,
    const struct kohiblad_place *places, size_t count, size_t step,
    struct kohiblad_interval *values, size_t room, uint8_t *states, size_t states_room) {
    struct kohiblad_taken overlap = { KOHIBLAD_OVERLAP, 0, 0 };
    if (kohiblad_meet(values, room * sizeof *values, states, states_room)
        || kohiblad_meet(values, room * sizeof *values, bytes, size)
        || kohiblad_meet(values, room * sizeof *values, places, count * sizeof *places)
        || kohiblad_meet(states, states_room, bytes, size)
        || kohiblad_meet(states, states_room, places, count * sizeof *places))
        return overlap;
    return kohiblad_export_take_interval_at(kohiblad_in(bytes), size, kohiblad_places_in(places),
        count, step, kohiblad_intervals_out(values), room, kohiblad_out(states), states_room);
}
static inline struct kohiblad_taken kohiblad_take_text_at(const uint8_t *bytes, size_t size,
    const struct kohiblad_place *places, size_t count, size_t step, uint8_t *out, size_t room,
    size_t *length, size_t *text_offsets, size_t offsets_room, uint8_t *states,
    size_t states_room) {
    struct kohiblad_taken overlap = { KOHIBLAD_OVERLAP, 0, 0 };
    if (!kohiblad_is_room(out, room, length)
        || !kohiblad_is_apart(out, room, length, text_offsets, offsets_room * sizeof *text_offsets)
        || !kohiblad_is_apart(out, room, length, states, states_room)
        || !kohiblad_is_apart(out, room, length, bytes, size)
        || !kohiblad_is_apart(out, room, length, places, count * sizeof *places)
        || kohiblad_meet(text_offsets, offsets_room * sizeof *text_offsets, states, states_room)
        || kohiblad_meet(text_offsets, offsets_room * sizeof *text_offsets, bytes, size)
        || kohiblad_meet(text_offsets, offsets_room * sizeof *text_offsets, places,
                         count * sizeof *places)
        || kohiblad_meet(states, states_room, bytes, size)
        || kohiblad_meet(states, states_room, places, count * sizeof *places))
        return overlap;
    return kohiblad_export_take_text_at(kohiblad_in(bytes), size, kohiblad_places_in(places), count,
        step, kohiblad_out(out), room, length, kohiblad_sizes_out(text_offsets), offsets_room,
        kohiblad_out(states), states_room);
}
static inline struct kohiblad_taken kohiblad_take_text32_at(const uint8_t *bytes, size_t size,
    const struct kohiblad_place *places, size_t count, size_t step, uint8_t *out, size_t room,
    size_t *length, uint32_t *text_offsets, size_t offsets_room, uint8_t *states,
    size_t states_room) {
    struct kohiblad_taken overlap = { KOHIBLAD_OVERLAP, 0, 0 };
    if (!kohiblad_is_room(out, room, length)
        || !kohiblad_is_apart(out, room, length, text_offsets, offsets_room * sizeof *text_offsets)
        || !kohiblad_is_apart(out, room, length, states, states_room)
        || !kohiblad_is_apart(out, room, length, bytes, size)
        || !kohiblad_is_apart(out, room, length, places, count * sizeof *places)
        || kohiblad_meet(text_offsets, offsets_room * sizeof *text_offsets, states, states_room)
        || kohiblad_meet(text_offsets, offsets_room * sizeof *text_offsets, bytes, size)
        || kohiblad_meet(text_offsets, offsets_room * sizeof *text_offsets, places,
                         count * sizeof *places)
        || kohiblad_meet(states, states_room, bytes, size)
        || kohiblad_meet(states, states_room, places, count * sizeof *places))
        return overlap;
    return kohiblad_export_take_text32_at(kohiblad_in(bytes), size, kohiblad_places_in(places),
        count, step, kohiblad_out(out), room, length, kohiblad_uint32s_out(text_offsets),
        offsets_room, kohiblad_out(states), states_room);
}
static inline struct kohiblad_taken kohiblad_take_binary_at(const uint8_t *bytes, size_t size,
    const struct kohiblad_place *places, size_t count, size_t step, uint8_t *out, size_t room,
    size_t *length, size_t *value_offsets, size_t offsets_room, uint8_t *states,
    size_t states_room) {
    struct kohiblad_taken overlap = { KOHIBLAD_OVERLAP, 0, 0 };
    if (!kohiblad_is_room(out, room, length)
        || !kohiblad_is_apart(out, room, length, value_offsets,
                              offsets_room * sizeof *value_offsets)
        || !kohiblad_is_apart(out, room, length, states, states_room)
        || !kohiblad_is_apart(out, room, length, bytes, size)
        || !kohiblad_is_apart(out, room, length, places, count * sizeof *places)
        || kohiblad_meet(value_offsets, offsets_room * sizeof *value_offsets, states, states_room)
        || kohiblad_meet(value_offsets, offsets_room * sizeof *value_offsets, bytes, size)
        || kohiblad_meet(value_offsets, offsets_room * sizeof *value_offsets, places,
                         count * sizeof *places)
        || kohiblad_meet(states, states_room, bytes, size)
        || kohiblad_meet(states, states_room, places, count * sizeof *places))
        return overlap;
    return kohiblad_export_take_binary_at(kohiblad_in(bytes), size, kohiblad_places_in(places),
        count, step, kohiblad_out(out), room, length, kohiblad_sizes_out(value_offsets),
        offsets_room, kohiblad_out(states), states_room);
}
static inline struct kohiblad_truth kohiblad_contains(const uint8_t *left, size_t left_size,
    const uint8_t *right, size_t right_size, size_t depth, size_t steps) {
    return kohiblad_export_contains(kohiblad_in(left), left_size, kohiblad_in(right), right_size,
        depth, steps);
}
static inline struct kohiblad_truth kohiblad_exists(const uint8_t *bytes, size_t size,
    const uint8_t *key, size_t key_size, size_t depth) {
    return kohiblad_export_exists(kohiblad_in(bytes), size, kohiblad_in(key), key_size, depth);
}
static inline struct kohiblad_truth kohiblad_exists_any(const uint8_t *bytes, size_t size,
    const uint8_t *names, size_t names_size, size_t depth) {
    return kohiblad_export_exists_any(kohiblad_in(bytes), size, kohiblad_in(names), names_size,
        depth);
}
static inline struct kohiblad_truth kohiblad_exists_all(const uint8_t *bytes, size_t size,
    const uint8_t *names, size_t names_size, size_t depth) {
    return kohiblad_export_exists_all(kohiblad_in(bytes), size, kohiblad_in(names), names_size,
        depth);
}
static inline uint32_t kohiblad_concat(const uint8_t *left, size_t left_size, const uint8_t *right,
    size_t right_size, size_t depth, uint8_t *out, size_t room, size_t *length) {
    if (!kohiblad_is_room(out, room, length)
        || !kohiblad_is_apart(out, room, length, left, left_size)
        || !kohiblad_is_apart(out, room, length, right, right_size))
        return KOHIBLAD_OVERLAP;
    return kohiblad_export_concat(kohiblad_in(left), left_size, kohiblad_in(right), right_size,
        depth, kohiblad_out(out), room, length);
}
static inline uint32_t kohiblad_merge_patch(const uint8_t *target, size_t target_size,
    const uint8_t *patch, size_t patch_size, size_t depth, uint8_t *out, size_t room,
    size_t *length) {
    if (!kohiblad_is_room(out, room, length)
        || !kohiblad_is_apart(out, room, length, target, target_size)
        || !kohiblad_is_apart(out, room, length, patch, patch_size))
        return KOHIBLAD_OVERLAP;
    return kohiblad_export_merge_patch(kohiblad_in(target), target_size, kohiblad_in(patch),
        patch_size, depth, kohiblad_out(out), room, length);
}
static inline uint32_t kohiblad_strip_nulls(const uint8_t *bytes, size_t size, size_t depth,
    uint8_t *out, size_t room, size_t *length) {
    if (!kohiblad_is_room(out, room, length)
        || !kohiblad_is_apart(out, room, length, bytes, size))
        return KOHIBLAD_OVERLAP;
    return kohiblad_export_strip_nulls(kohiblad_in(bytes), size, depth, kohiblad_out(out), room,
        length);
}
static inline uint32_t kohiblad_pick(const uint8_t *bytes, size_t size, const uint8_t *names,
    size_t names_size, uint32_t others, size_t depth, uint8_t *out, size_t room, size_t *length) {
    if (!kohiblad_is_room(out, room, length)
        || !kohiblad_is_apart(out, room, length, bytes, size)
        || !kohiblad_is_apart(out, room, length, names, names_size))
        return KOHIBLAD_OVERLAP;
    return kohiblad_export_pick(kohiblad_in(bytes), size, kohiblad_in(names), names_size, others,
        depth, kohiblad_out(out), room, length);
}
static inline uint32_t kohiblad_object_keys(const uint8_t *bytes, size_t size, size_t depth,
    uint8_t *out, size_t room, size_t *length) {
    if (!kohiblad_is_room(out, room, length)
        || !kohiblad_is_apart(out, room, length, bytes, size))
        return KOHIBLAD_OVERLAP;
    return kohiblad_export_object_keys(kohiblad_in(bytes), size, depth, kohiblad_out(out), room,
        length);
}
static inline uint32_t kohiblad_array_distinct(const uint8_t *bytes, size_t size, size_t depth,
    uint8_t *out, size_t room, size_t *length) {
    if (!kohiblad_is_room(out, room, length)
        || !kohiblad_is_apart(out, room, length, bytes, size))
        return KOHIBLAD_OVERLAP;
    return kohiblad_export_array_distinct(kohiblad_in(bytes), size, depth, kohiblad_out(out), room,
        length);
}
static inline uint32_t kohiblad_array_intersection(const uint8_t *left, size_t left_size,
    const uint8_t *right, size_t right_size, size_t depth, uint8_t *out, size_t room,
    size_t *length) {
    if (!kohiblad_is_room(out, room, length)
        || !kohiblad_is_apart(out, room, length, left, left_size)
        || !kohiblad_is_apart(out, room, length, right, right_size))
        return KOHIBLAD_OVERLAP;
    return kohiblad_export_array_intersection(kohiblad_in(left), left_size, kohiblad_in(right),
        right_size, depth, kohiblad_out(out), room, length);
}
static inline uint32_t kohiblad_array_except(const uint8_t *left, size_t left_size,
    const uint8_t *right, size_t right_size, size_t depth, uint8_t *out, size_t room,
    size_t *length) {
    if (!kohiblad_is_room(out, room, length)
        || !kohiblad_is_apart(out, room, length, left, left_size)
        || !kohiblad_is_apart(out, room, length, right, right_size))
        return KOHIBLAD_OVERLAP;
    return kohiblad_export_array_except(kohiblad_in(left), left_size, kohiblad_in(right),
        right_size, depth, kohiblad_out(out), room, length);
}
static inline struct kohiblad_truth kohiblad_array_overlap(const uint8_t *left, size_t left_size,
    const uint8_t *right, size_t right_size, size_t depth) {
    return kohiblad_export_array_overlap(kohiblad_in(left), left_size, kohiblad_in(right),
        right_size, depth);
}
static inline uint32_t kohiblad_edit(const uint8_t *bytes, size_t size, const uint8_t *path,
    size_t path_size, uint32_t edit, const uint8_t *value, size_t value_size, size_t depth,
    uint8_t *out, size_t room, size_t *length) {
    if (!kohiblad_is_room(out, room, length)
        || !kohiblad_is_apart(out, room, length, bytes, size)
        || !kohiblad_is_apart(out, room, length, path, path_size)
        || !kohiblad_is_apart(out, room, length, value, value_size))
        return KOHIBLAD_OVERLAP;
    return kohiblad_export_edit(kohiblad_in(bytes), size, kohiblad_in(path), path_size, edit,
        kohiblad_in(value), value_size, depth, kohiblad_out(out), room, length);
}
static inline uint32_t kohiblad_path_of_text(const uint8_t *text, size_t size, uint8_t *out,
    size_t room, size_t *length) {
    if (!kohiblad_is_room(out, room, length)
        || !kohiblad_is_apart(out, room, length, text, size))
        return KOHIBLAD_OVERLAP;
    return kohiblad_export_path_of_text(kohiblad_in(text), size, kohiblad_out(out), room, length);
}
static inline uint32_t kohiblad_path_in(const uint8_t *bytes, size_t size, const uint8_t *text,
    size_t text_size, size_t depth, uint8_t *out, size_t room, size_t *length) {
    if (!kohiblad_is_room(out, room, length)
        || !kohiblad_is_apart(out, room, length, bytes, size)
        || !kohiblad_is_apart(out, room, length, text, text_size))
        return KOHIBLAD_OVERLAP;
    return kohiblad_export_path_in(kohiblad_in(bytes), size, kohiblad_in(text), text_size, depth,
        kohiblad_out(out), room, length);
}
static inline struct kohiblad_place kohiblad_get_path(const uint8_t *bytes, size_t size,
    const uint8_t *path, size_t path_size, size_t depth) {
    return kohiblad_export_get_path(kohiblad_in(bytes), size, kohiblad_in(path), path_size, depth);
}
static inline uint32_t kohiblad_select(const uint8_t *bytes, size_t size, const uint8_t *path,
    size_t path_size, size_t depth, struct kohiblad_place *out, size_t room, size_t *count) {
    if (!kohiblad_is_room(out, room * sizeof *out, count)
        || !kohiblad_is_apart(out, room * sizeof *out, count, bytes, size)
        || !kohiblad_is_apart(out, room * sizeof *out, count, path, path_size))
        return KOHIBLAD_OVERLAP;
    return kohiblad_export_select(kohiblad_in(bytes), size, kohiblad_in(path), path_size, depth,
        kohiblad_places_out(out), room, count);
}
static inline uint32_t kohiblad_select_within(const uint8_t *bytes, size_t size,
    const uint8_t *path, size_t path_size, size_t depth, size_t steps, struct kohiblad_place *out,
    size_t room, size_t *count) {
    if (!kohiblad_is_room(out, room * sizeof *out, count)
        || !kohiblad_is_apart(out, room * sizeof *out, count, bytes, size)
        || !kohiblad_is_apart(out, room * sizeof *out, count, path, path_size))
        return KOHIBLAD_OVERLAP;
    return kohiblad_export_select_within(kohiblad_in(bytes), size, kohiblad_in(path), path_size,
        depth, steps, kohiblad_places_out(out), room, count);
}
static inline uint32_t kohiblad_index_keys(const uint8_t *bytes, size_t size, size_t depth,
    uint64_t *out, size_t room, size_t *count) {
    if (!kohiblad_is_room(out, room * sizeof *out, count)
        || !kohiblad_is_apart(out, room * sizeof *out, count, bytes, size))
        return KOHIBLAD_OVERLAP;
    return kohiblad_export_index_keys(kohiblad_in(bytes), size, depth, kohiblad_uint64s_out(out),
        room, count);
}
static inline uint32_t kohiblad_top_keys(const uint8_t *bytes, size_t size, size_t depth,
    uint64_t *out, size_t room, size_t *count) {
    if (!kohiblad_is_room(out, room * sizeof *out, count)
        || !kohiblad_is_apart(out, room * sizeof *out, count, bytes, size))
        return KOHIBLAD_OVERLAP;
    return kohiblad_export_top_keys(kohiblad_in(bytes), size, depth, kohiblad_uint64s_out(out),
        room, count);
}
static inline struct kohiblad_path_refusal kohiblad_path_fault(const uint8_t *path,
    size_t path_size) {
    return kohiblad_export_path_fault(kohiblad_in(path), path_size);
}
static inline uint32_t kohiblad_path_report(const uint8_t *path, size_t path_size, uint8_t *out,
    size_t room, size_t *length) {
    if (!kohiblad_is_room(out, room, length)
        || !kohiblad_is_apart(out, room, length, path, path_size))
        return KOHIBLAD_OVERLAP;
    return kohiblad_export_path_report(kohiblad_in(path), path_size, kohiblad_out(out), room,
        length);
}
static inline uint32_t kohiblad_path_print(const uint8_t *path, size_t path_size, uint8_t *out,
    size_t room, size_t *length) {
    if (!kohiblad_is_room(out, room, length)
        || !kohiblad_is_apart(out, room, length, path, path_size))
        return KOHIBLAD_OVERLAP;
    return kohiblad_export_path_print(kohiblad_in(path), path_size, kohiblad_out(out), room,
        length);
}
static inline uint32_t kohiblad_path_query(const uint8_t *bytes, size_t size, const uint8_t *path,
    size_t path_size, const uint8_t *variables, size_t variables_size, uint32_t silent,
    size_t depth, uint8_t *out, size_t room, size_t *length) {
    if (!kohiblad_is_room(out, room, length)
        || !kohiblad_is_apart(out, room, length, bytes, size)
        || !kohiblad_is_apart(out, room, length, path, path_size)
        || !kohiblad_is_apart(out, room, length, variables, variables_size))
        return KOHIBLAD_OVERLAP;
    return kohiblad_export_path_query(kohiblad_in(bytes), size, kohiblad_in(path), path_size,
        kohiblad_in(variables), variables_size, silent, depth, kohiblad_out(out), room, length);
}
static inline struct kohiblad_truth kohiblad_path_exists(const uint8_t *bytes, size_t size,
    const uint8_t *path, size_t path_size, const uint8_t *variables, size_t variables_size,
    uint32_t silent, size_t depth) {
    return kohiblad_export_path_exists(kohiblad_in(bytes), size, kohiblad_in(path), path_size,
        kohiblad_in(variables), variables_size, silent, depth);
}
static inline struct kohiblad_truth kohiblad_path_match(const uint8_t *bytes, size_t size,
    const uint8_t *path, size_t path_size, const uint8_t *variables, size_t variables_size,
    uint32_t silent, size_t depth) {
    return kohiblad_export_path_match(kohiblad_in(bytes), size, kohiblad_in(path), path_size,
        kohiblad_in(variables), variables_size, silent, depth);
}

static inline uint32_t kohiblad_next(const uint8_t *bytes, size_t size,
    struct kohiblad_cursor *cursor, struct kohiblad_place *key, struct kohiblad_place *value) {
    struct kohiblad_place unused;
    if (!key) key = &unused;
    if (kohiblad_meet(cursor, sizeof *cursor, bytes, size)
        || kohiblad_meet(key, sizeof *key, bytes, size)
        || kohiblad_meet(value, sizeof *value, bytes, size)
        || kohiblad_meet(key, sizeof *key, value, sizeof *value)
        || kohiblad_meet(cursor, sizeof *cursor, key, sizeof *key)
        || kohiblad_meet(cursor, sizeof *cursor, value, sizeof *value))
        return KOHIBLAD_OVERLAP;
    return kohiblad_export_next(kohiblad_in(bytes), size, cursor, key, value);
}

/* Takes one member of a batch of rows, which begins at row `first`. */
static inline struct kohiblad_taken kohiblad_take_batch(const uint8_t *bytes, size_t size,
    const struct kohiblad_place *places, size_t count, size_t step, uint32_t fit,
    const struct kohiblad_member *member, size_t first, size_t rows) {
    struct kohiblad_taken unknown = { KOHIBLAD_INVALID_JSONB, 0, 0 };
    uint8_t *states = member->states + first;
    switch (member->type) {
    case KOHIBLAD_COLUMN_BOOLEAN:
        return kohiblad_take_boolean_at(bytes, size, places, count, step,
            (uint8_t *)member->values + first, rows, states, rows);
    case KOHIBLAD_COLUMN_INT64:
        return kohiblad_take_int64_at(bytes, size, places, count, step, fit,
            (int64_t *)member->values + first, rows, states, rows);
    case KOHIBLAD_COLUMN_UINT64:
        return kohiblad_take_uint64_at(bytes, size, places, count, step, fit,
            (uint64_t *)member->values + first, rows, states, rows);
    case KOHIBLAD_COLUMN_DECIMAL:
        return kohiblad_take_decimal_at(bytes, size, places, count, step, fit, member->scale,
            (struct kohiblad_int128 *)member->values + first, rows, states, rows);
    case KOHIBLAD_COLUMN_DATE:
        return kohiblad_take_date_at(bytes, size, places, count, step,
            (int32_t *)member->values + first, rows, states, rows);
    case KOHIBLAD_COLUMN_TIMESTAMP:
        return kohiblad_take_timestamp_at(bytes, size, places, count, step,
            (int64_t *)member->values + first, rows, states, rows);
    case KOHIBLAD_COLUMN_TIMESTAMP_TZ:
        return kohiblad_take_timestamp_tz_at(bytes, size, places, count, step,
            (struct kohiblad_timestamp_tz *)member->values + first, rows, states, rows);
    case KOHIBLAD_COLUMN_INTERVAL:
        return kohiblad_take_interval_at(bytes, size, places, count, step,
            (struct kohiblad_interval *)member->values + first, rows, states, rows);
    default: return unknown;
    }
}

/* The bytes of one value of a member, 0 of a type that kohiblad_take_members does not take. */
static inline size_t kohiblad_value_size(uint32_t type) {
    switch (type) {
    case KOHIBLAD_COLUMN_BOOLEAN: return sizeof(uint8_t);
    case KOHIBLAD_COLUMN_INT64: return sizeof(int64_t);
    case KOHIBLAD_COLUMN_UINT64: return sizeof(uint64_t);
    case KOHIBLAD_COLUMN_DECIMAL: return sizeof(struct kohiblad_int128);
    case KOHIBLAD_COLUMN_DATE: return sizeof(int32_t);
    case KOHIBLAD_COLUMN_TIMESTAMP: return sizeof(int64_t);
    case KOHIBLAD_COLUMN_TIMESTAMP_TZ: return sizeof(struct kohiblad_timestamp_tz);
    case KOHIBLAD_COLUMN_INTERVAL: return sizeof(struct kohiblad_interval);
    default: return 0;
    }
}

/* Whether the values and states of a member lie apart from a block, */
static inline bool kohiblad_is_member_apart(const struct kohiblad_member *member, size_t rows,
                                            const void *other, size_t size) {
    return !kohiblad_meet(member->values, rows * kohiblad_value_size(member->type), other, size)
        && !kohiblad_meet(member->states, rows, other, size);
}
/* from each other, and from those of the members after it, */
static inline bool kohiblad_is_member_alone(const struct kohiblad_member *member, size_t after,
                                            size_t rows) {
    size_t size = rows * kohiblad_value_size(member->type);
    if (kohiblad_meet(member->values, size, member->states, rows)) return false;
    for (size_t j = 1; j <= after; j++)
        if (!kohiblad_is_member_apart(&member[j], rows, member->values, size)
            || !kohiblad_is_member_apart(&member[j], rows, member->states, rows))
            return false;
    return true;
}
/* and from rows and names. */
static inline bool kohiblad_is_member_outside(const struct kohiblad_member *member,
                                              const uint8_t *bytes, size_t size,
                                              const size_t *offsets, size_t count,
                                              const uint8_t *names, size_t names_size) {
    size_t rows = count > 0 ? count - 1 : 0;
    return kohiblad_is_member_apart(member, rows, bytes, size)
        && kohiblad_is_member_apart(member, rows, offsets, count * sizeof *offsets)
        && kohiblad_is_member_apart(member, rows, names, names_size);
}

/* Adds the answer of a batch of rows, which begins at row `first`, to that of the rows before. */
static inline void kohiblad_add_taken(struct kohiblad_taken *all, struct kohiblad_taken batch,
    size_t first) {
    if (all->unfit == 0 && batch.unfit > 0) all->first_unfit = first + batch.first_unfit;
    all->unfit += batch.unfit;
}

static inline uint32_t kohiblad_take_members(const uint8_t *bytes, size_t size,
    const size_t *offsets, size_t count, const uint8_t *names, size_t names_size, size_t depth,
    uint32_t fit, struct kohiblad_member *members, size_t wanted, struct kohiblad_place *places,
    size_t room) {
    size_t rows = count > 0 ? count - 1 : 0, first = 0;
    size_t members_size = wanted * sizeof *members, places_size = room * sizeof *places;
    struct kohiblad_taken none = { KOHIBLAD_OK, 0, rows };
    if (kohiblad_meet(members, members_size, places, places_size)
        || !kohiblad_is_outside(members, members_size, bytes, size, offsets, count, names,
                                names_size)
        || !kohiblad_is_outside(places, places_size, bytes, size, offsets, count, names,
                                names_size))
        return KOHIBLAD_OVERLAP;
    for (size_t j = 0; j < wanted; j++)
        if (!kohiblad_is_member_apart(&members[j], rows, members, members_size)
            || !kohiblad_is_member_apart(&members[j], rows, places, places_size)
            || !kohiblad_is_member_alone(&members[j], wanted - j - 1, rows)
            || !kohiblad_is_member_outside(&members[j], bytes, size, offsets, count, names,
                                           names_size))
            return KOHIBLAD_OVERLAP;
    if (!kohiblad_check(names, names_size, depth)) return KOHIBLAD_INVALID_JSONB;
    if (kohiblad_kind(names, names_size).count != wanted) return KOHIBLAD_WRONG_LENGTH;
    if (wanted == 0)
        return kohiblad_locate(bytes, size, offsets, count, names, names_size, depth, places, 0);
    if (room < wanted) return KOHIBLAD_NO_ROOM;
    for (size_t j = 0; j < wanted; j++) members[j].taken = none;
    do {
        size_t batch = rows - first < room / wanted ? rows - first : room / wanted;
        uint32_t status = kohiblad_locate(bytes, size, offsets + first, count > 0 ? batch + 1 : 0,
            names, names_size, depth, places, room);
        if (status != KOHIBLAD_OK) return status;
        for (size_t j = 0; j < wanted && batch > 0; j++) {
            struct kohiblad_taken taken = kohiblad_take_batch(bytes, size, places + j,
                batch * wanted - j, wanted, fit, &members[j], first, batch);
            if (taken.status != KOHIBLAD_OK) return members[j].taken.status = taken.status;
            kohiblad_add_taken(&members[j].taken, taken, first);
        }
        first += batch;
    } while (first < rows);
    return KOHIBLAD_OK;
}

/* A text in ISO 8601, which is written from its front. */
typedef struct {
    size_t size;
    uint8_t at[KOHIBLAD_TIME_TEXT_ROOM];
} kohiblad_time_text;

static inline void kohiblad_time_put_letter(kohiblad_time_text *text, char letter) {
    text->at[text->size++] = (uint8_t)letter;
}

/* Puts a number, with zeros before it if it has fewer digits. */
static inline void kohiblad_time_put_digits(kohiblad_time_text *text, uint64_t number,
    size_t digits) {
    char last_first[20];
    size_t count = 0;
    for (; number != 0 || count < digits; number /= 10)
        last_first[count++] = (char)('0' + number % 10);
    while (count > 0) kohiblad_time_put_letter(text, last_first[--count]);
}

static inline uint64_t kohiblad_magnitude(int64_t number) {
    return number < 0 ? 0 - (uint64_t)number : (uint64_t)number;
}

/* How often a size is in a number, which is rounded down, and what is left of it. */
static inline int64_t kohiblad_split_off(int64_t *number, int64_t size) {
    int64_t whole = *number / size;
    *number %= size;
    if (*number >= 0) return whole;
    *number += size;
    return whole - 1;
}

/* Puts the date so many days from 1970-01-01; a year that needs it has a sign and more digits. */
static inline void kohiblad_time_put_date(kohiblad_time_text *text, int64_t days) {
    /* After 400 years, of 146,097 days, the calendar is the same. Years that begin in March end
     * with the leap day; the year 0 begins so 719,468 days before 1970-01-01. */
    int64_t periods = kohiblad_split_off(&days, 146097);
    days += 719468;
    periods += kohiblad_split_off(&days, 146097);
    int64_t years = (days - days / 1460 + days / 36524 - days / 146096) / 365;
    int64_t day = days - 365 * years - years / 4 + years / 100;
    int64_t month = (5 * day + 2) / 153;
    int64_t year = 400 * periods + years + (month > 9);
    if (year < 0 || year > 9999) kohiblad_time_put_letter(text, year < 0 ? '-' : '+');
    kohiblad_time_put_digits(text, kohiblad_magnitude(year), 4);
    kohiblad_time_put_letter(text, '-');
    kohiblad_time_put_digits(text, (uint64_t)(month > 9 ? month - 9 : month + 3), 2);
    kohiblad_time_put_letter(text, '-');
    kohiblad_time_put_digits(text, (uint64_t)(day - (153 * month + 2) / 5 + 1), 2);
}

/* Puts hours and minutes, and the seconds if they are asked for. */
static inline void kohiblad_time_put_clock(kohiblad_time_text *text, uint64_t seconds,
    bool has_seconds) {
    kohiblad_time_put_digits(text, seconds / 3600, 2);
    kohiblad_time_put_letter(text, ':');
    kohiblad_time_put_digits(text, seconds / 60 % 60, 2);
    if (!has_seconds) return;
    kohiblad_time_put_letter(text, ':');
    kohiblad_time_put_digits(text, seconds % 60, 2);
}

/* Puts the date and the time that a clock shows so many seconds from UTC. */
static inline void kohiblad_time_put_timestamp(kohiblad_time_text *text, int64_t micros,
    int64_t offset) {
    int64_t seconds = kohiblad_split_off(&micros, 1000000) + offset;
    kohiblad_time_put_date(text, kohiblad_split_off(&seconds, 86400));
    kohiblad_time_put_letter(text, 'T');
    kohiblad_time_put_clock(text, (uint64_t)seconds, true);
    if (micros == 0) return;
    kohiblad_time_put_letter(text, '.');
    kohiblad_time_put_digits(text, (uint64_t)micros, 6);
}

/* Puts a part of a duration, unless it is zero. */
static inline void kohiblad_time_put_part(kohiblad_time_text *text, bool is_negative,
    uint64_t number, char unit) {
    if (number == 0) return;
    if (is_negative) kohiblad_time_put_letter(text, '-');
    kohiblad_time_put_digits(text, number, 1);
    kohiblad_time_put_letter(text, unit);
}

/* Puts seconds with as many digits after the point as they need, unless they are zero. */
static inline void kohiblad_time_put_seconds(kohiblad_time_text *text, bool is_negative,
    uint64_t micros) {
    size_t digits = 6;
    uint64_t below = micros % 1000000;
    if (micros == 0) return;
    if (is_negative) kohiblad_time_put_letter(text, '-');
    kohiblad_time_put_digits(text, micros / 1000000, 1);
    if (below != 0) {
        for (; below % 10 == 0; digits--) below /= 10;
        kohiblad_time_put_letter(text, '.');
        kohiblad_time_put_digits(text, below, digits);
    }
    kohiblad_time_put_letter(text, 'S');
}

static inline void kohiblad_time_put_interval(kohiblad_time_text *text, int32_t months,
    int32_t days, int64_t value) {
    uint64_t all_months = kohiblad_magnitude(months), micros = kohiblad_magnitude(value);
    kohiblad_time_put_letter(text, 'P');
    kohiblad_time_put_part(text, months < 0, all_months / 12, 'Y');
    kohiblad_time_put_part(text, months < 0, all_months % 12, 'M');
    kohiblad_time_put_part(text, days < 0, kohiblad_magnitude(days), 'D');
    if (micros != 0 || text->size == 1) kohiblad_time_put_letter(text, 'T');
    kohiblad_time_put_part(text, value < 0, micros / 3600000000u, 'H');
    kohiblad_time_put_part(text, value < 0, micros / 60000000 % 60, 'M');
    kohiblad_time_put_seconds(text, value < 0, micros % 60000000);
    if (text->size > 2) return;
    kohiblad_time_put_letter(text, '0');
    kohiblad_time_put_letter(text, 'S');
}

static inline uint32_t kohiblad_text_of_extension(struct kohiblad_extension_value value,
    uint8_t *out, size_t room, size_t *length) {
    kohiblad_time_text text = { 0, { 0 } };
    if (!kohiblad_is_room(out, room, length)) return KOHIBLAD_OVERLAP;
    *length = 0;
    if (value.status != KOHIBLAD_OK) return value.status;
    switch (value.tag) {
    case KOHIBLAD_DATE: kohiblad_time_put_date(&text, value.value); break;
    case KOHIBLAD_TIMESTAMP: kohiblad_time_put_timestamp(&text, value.value, 0); break;
    case KOHIBLAD_TIMESTAMP_TZ:
        kohiblad_time_put_timestamp(&text, value.value, value.seconds);
        kohiblad_time_put_letter(&text, value.seconds < 0 ? '-' : '+');
        kohiblad_time_put_clock(&text, kohiblad_magnitude(value.seconds), value.seconds % 60 != 0);
        break;
    case KOHIBLAD_INTERVAL:
        kohiblad_time_put_interval(&text, value.months, value.days, value.value);
        break;
    default: return KOHIBLAD_OTHER_KIND;
    }
    *length = text.size;
    if (text.size > room) return KOHIBLAD_NO_ROOM;
    for (size_t i = 0; i < text.size; i++) out[i] = text.at[i];
    return KOHIBLAD_OK;
}

/* Words one after another, of which `out` has those for which there is room. */
typedef struct {
    char *out;
    size_t room;
    size_t length;
} kohiblad_words;

static inline void kohiblad_words_add_byte(kohiblad_words *words, uint8_t byte) {
    if (words->length + 1 < words->room) words->out[words->length] = (char)byte;
    words->length++;
}
static inline void kohiblad_words_add(kohiblad_words *words, const char *more) {
    for (; *more; more++) kohiblad_words_add_byte(words, (uint8_t)*more);
}
static inline void kohiblad_words_add_offset(kohiblad_words *words, uint64_t offset) {
    char digits[20];
    size_t count = 0;
    kohiblad_words_add(words, "at byte ");
    do digits[count++] = (char)('0' + offset % 10);
    while (offset /= 10);
    while (count > 0) kohiblad_words_add_byte(words, (uint8_t)digits[--count]);
}
static inline void kohiblad_words_add_expected(kohiblad_words *words, uint32_t classes) {
    const char *between = "expected ";
    for (uint32_t one = 1; classes; one <<= 1) {
        if (!(classes & one)) continue;
        classes -= one;
        kohiblad_words_add(words, between);
        kohiblad_words_add(words, kohiblad_expected_text(one));
        between = classes & (classes - 1) ? ", " : " or ";
        if (!classes) kohiblad_words_add(words, " ");
    }
}

static inline bool kohiblad_is_digit(uint8_t byte) { return byte >= '0' && byte <= '9'; }

/* The character of UTF-8 at a byte, and how many bytes it has. */
static inline uint32_t kohiblad_character_at(const uint8_t *at, size_t left, size_t *size) {
    size_t whole = at[0] < 0xc0 ? 1 : at[0] < 0xe0 ? 2 : at[0] < 0xf0 ? 3 : 4;
    uint32_t character = whole == 1 ? at[0] : at[0] & (0xffu >> (whole + 1));
    for (*size = 1; *size < whole && *size < left; (*size)++)
        character = character << 6 | (at[*size] & 0x3fu);
    return character;
}

/* Whether a character has an escape in words that are quoted: a control character, a separator of
 * lines, and one that changes the direction or the look of the text around it. */
static inline bool kohiblad_is_escaped(uint32_t character) {
    static const uint32_t ranges[][2] = {
        { 0x0, 0x1f }, { 0x7f, 0x9f }, { 0xad, 0xad }, { 0x61c, 0x61c }, { 0x180e, 0x180e },
        { 0x200b, 0x200f }, { 0x2028, 0x202e }, { 0x2060, 0x206f }, { 0xfeff, 0xfeff },
        { 0xe0000, 0xe0fff },
    };
    for (size_t i = 0; i < sizeof ranges / sizeof *ranges; i++)
        if (ranges[i][0] <= character && character <= ranges[i][1]) return true;
    return false;
}

/* Adds the escape of a unit of UTF-16, as JSON has it. */
static inline void kohiblad_words_add_escape(kohiblad_words *words, uint32_t unit) {
    kohiblad_words_add(words, "\\u");
    for (int shift = 12; shift >= 0; shift -= 4)
        kohiblad_words_add_byte(words, (uint8_t)"0123456789abcdef"[unit >> shift & 15]);
}

/* Adds the character of UTF-8 at a byte, or its escape; returns how many bytes it has. */
static inline size_t kohiblad_words_add_character(kohiblad_words *words, const uint8_t *at,
    size_t left) {
    size_t size;
    uint32_t character = kohiblad_character_at(at, left, &size);
    if (!kohiblad_is_escaped(character)) {
        for (size_t i = 0; i < size; i++) kohiblad_words_add_byte(words, at[i]);
    } else if (character < 0x10000) {
        kohiblad_words_add_escape(words, character);
    } else {
        kohiblad_words_add_escape(words, 0xd800 + ((character - 0x10000) >> 10));
        kohiblad_words_add_escape(words, 0xdc00 + (character & 0x3ff));
    }
    return size;
}

/* Whether words that are quoted have the byte; all bytes of characters past ASCII are taken. */
static inline bool kohiblad_is_of_word(uint8_t byte) {
    uint8_t small = byte | 0x20;
    return byte >= 0x80 || byte == '_' || kohiblad_is_digit(byte) || (small >= 'a' && small <= 'z');
}
static inline bool kohiblad_is_of_number(uint8_t byte) {
    return kohiblad_is_digit(byte) || byte == '-' || byte == '+' || byte == '.'
        || (byte | 0x20) == 'e';
}

/* What is at a byte of a text: a word of at most 20 characters, or one character. */
static inline void kohiblad_words_add_found(kohiblad_words *words, const uint8_t *at,
    size_t left) {
    const char *digits = "0123456789abcdef", *quote = "'";
    size_t size = 0, characters = 0;
    if (left == 0) {
        kohiblad_words_add(words, "the end");
        return;
    }
    if (left >= 3 && at[0] == 0xef && at[1] == 0xbb && at[2] == 0xbf) {
        kohiblad_words_add(words, "a byte order mark");
        return;
    }
    if (at[0] < 0x20 || at[0] == 0x7f) {
        kohiblad_words_add(words, "0x");
        kohiblad_words_add_byte(words, (uint8_t)digits[at[0] >> 4]);
        kohiblad_words_add_byte(words, (uint8_t)digits[at[0] & 15]);
        return;
    }
    if (at[0] == '\'') quote = "\"";
    kohiblad_words_add(words, quote);
    while (size < left && kohiblad_is_of_word(at[size]) && characters++ < 20)
        size += kohiblad_words_add_character(words, at + size, left - size);
    if (size == 0) kohiblad_words_add_byte(words, at[0]);
    if (characters > 20) kohiblad_words_add(words, "..");
    kohiblad_words_add(words, quote);
}

/* The number around a byte of a text, of at most 40 characters. */
static inline void kohiblad_words_add_number(kohiblad_words *words, const uint8_t *text,
    size_t size, size_t offset) {
    size_t begin = offset, end = offset;
    while (begin > 0 && offset - begin < 40 && kohiblad_is_of_number(text[begin - 1])) begin--;
    while (end < size && end - begin < 41 && kohiblad_is_of_number(text[end])) end++;
    kohiblad_words_add(words, "'");
    for (size_t i = begin; i < end && i - begin < 40; i++) kohiblad_words_add_byte(words, text[i]);
    kohiblad_words_add(words, end - begin > 40 ? "..'" : "'");
}

static inline struct kohiblad_fault kohiblad_fault_words(const uint8_t *text, size_t size,
    size_t depth, uint32_t exponents, char *out, size_t room) {
    kohiblad_words words = { out, room, 0 };
    const uint8_t *in = kohiblad_in(text);
    if (kohiblad_meet(out, room, text, size)) {
        struct kohiblad_fault overlap = { KOHIBLAD_OVERLAP, 0 };
        return overlap;
    }
    struct kohiblad_fault fault = kohiblad_text_fault(in, size, depth, exponents);
    size_t offset = (size_t)fault.offset;
    if (fault.status == KOHIBLAD_INVALID_JSON) {
        struct kohiblad_expected it = kohiblad_text_expected(in, size, depth, exponents);
        kohiblad_words_add_expected(&words, it.classes);
        kohiblad_words_add_offset(&words, offset);
        kohiblad_words_add(&words, ", found ");
        kohiblad_words_add_found(&words, in + offset, size - offset);
    } else if (fault.status == KOHIBLAD_BAD_NUMBER) {
        kohiblad_words_add_offset(&words, offset);
        kohiblad_words_add(&words, exponents ? " of a number that is unfinished or too long, in "
            : " of a number that is unfinished, too long, or has an exponent, in ");
        kohiblad_words_add_number(&words, in, size, offset);
    } else {
        kohiblad_words_add(&words, kohiblad_status_reason(fault.status));
    }
    if (room > 0) out[words.length < room ? words.length : room - 1] = 0;
    return fault;
}

#ifdef __cplusplus
}
#endif

#undef KOHIBLAD_INLINE
#undef KOHIBLAD_EXPORT

#endif
