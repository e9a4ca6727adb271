/* The aggregate jb_survey: what the members of rows at a path are. Rows are gathered one after
 * another, and counted by the library some at a time, so that the memory that it takes has a bound,
 * and a query can be interrupted between two batches. */
#include "extension.h"

#include <stddef.h>
#include <string.h>

SQLITE_EXTENSION_INIT3

/* A batch has at most so many rows and bytes, or one row. */
enum { MOST_ROWS = 2048, MOST_BYTES = 1048576 };

/* Whole numbers of so many digits have 64 bits, and a decimal type has so many digits at most. */
enum { INT64_DIGITS = 18, DECIMAL_DIGITS = 38 };

static const char name_of_survey[] = "jb_survey";

typedef struct kohiblad_survey_counts counts_of_kinds;

/* All zeros are no rows, before the first. */
struct survey {
    struct rows rows;    /* those that are not counted yet, and none that is gone */
    struct bytes given;  /* the text of their path, */
    struct buffer path;  /* and its steps; nothing before the first row */
    counts_of_kinds counts;
    bool has_no_int64s;  /* some number that was counted equals none of 64 bits, */
    bool has_no_uint64s; /* or none of 64 bits without a sign */
};

/* The counts, by the names that they have in the answer. */
static const struct {
    const char *name;
    size_t place;
} names[] = {
    { "rows", offsetof(counts_of_kinds, rows) },
    { "no_document", offsetof(counts_of_kinds, not_documents) },
    { "absent", offsetof(counts_of_kinds, absent) },
    { "null", offsetof(counts_of_kinds, nulls) },
    { "boolean", offsetof(counts_of_kinds, booleans) },
    { "int64", offsetof(counts_of_kinds, int64s) },
    { "uint64", offsetof(counts_of_kinds, uint64s) },
    { "decimal64", offsetof(counts_of_kinds, decimal64s) },
    { "decimal128", offsetof(counts_of_kinds, decimal128s) },
    { "date", offsetof(counts_of_kinds, dates) },
    { "timestamp", offsetof(counts_of_kinds, timestamps) },
    { "timestamp_tz", offsetof(counts_of_kinds, zoned_timestamps) },
    { "interval", offsetof(counts_of_kinds, intervals) },
    { "binary", offsetof(counts_of_kinds, binaries) },
    { "opaque", offsetof(counts_of_kinds, opaques) },
    { "text", offsetof(counts_of_kinds, texts) },
    { "array", offsetof(counts_of_kinds, arrays) },
    { "object", offsetof(counts_of_kinds, objects) },
};

enum { COUNTS = sizeof names / sizeof *names };

static uint64_t *count_at(counts_of_kinds *counts, size_t i)
{
    return (uint64_t *)((char *)counts + names[i].place);
}

static uint64_t numbers_of(const counts_of_kinds *counts)
{
    return counts->int64s + counts->uint64s + counts->decimal64s + counts->decimal128s;
}

static void add_counts(counts_of_kinds *total, counts_of_kinds *more)
{
    if (numbers_of(more)) {
        if (!numbers_of(total) || more->least_scale < total->least_scale)
            total->least_scale = more->least_scale;
        if (more->greatest_scale > total->greatest_scale)
            total->greatest_scale = more->greatest_scale;
        if (more->most_digits > total->most_digits) total->most_digits = more->most_digits;
    }
    if (more->longest_text > total->longest_text) total->longest_text = more->longest_text;
    for (size_t i = 0; i < COUNTS; i++) *count_at(total, i) += *count_at(more, i);
}

/* Rows as the library takes them. */
struct batch {
    struct bytes bytes;
    const size_t *offsets;
    size_t count;
};

/* Whether the library takes all members that are not null as whole numbers of 64 bits, with a sign
 * or without; rows that are no document do not count. After another status than KOHIBLAD_OK it is
 * not known. */
static uint32_t test_numbers(const struct survey *survey, const struct batch *batch,
                             const counts_of_kinds *counts, bool has_sign, bool *are_taken)
{
    struct kohiblad_taken taken = { .status = KOHIBLAD_OUT_OF_MEMORY };
    uint64_t *values = sqlite3_malloc64(batch->count * (sizeof *values + 1));
    if (values) {
        uint8_t *states = (uint8_t *)(values + batch->count);
        taken = has_sign
            ? kohiblad_take_int64(batch->bytes.at, batch->bytes.size, batch->offsets,
                                  batch->count + 1, survey->path.at, survey->path.size,
                                  KOHIBLAD_SQLITE_DEPTH, KOHIBLAD_BY_VALUE, (int64_t *)values,
                                  batch->count, states, batch->count)
            : kohiblad_take_uint64(batch->bytes.at, batch->bytes.size, batch->offsets,
                                   batch->count + 1, survey->path.at, survey->path.size,
                                   KOHIBLAD_SQLITE_DEPTH, KOHIBLAD_BY_VALUE, values, batch->count,
                                   states, batch->count);
        sqlite3_free(values);
    }
    *are_taken = taken.unfit == counts->not_documents;
    return taken.status;
}

/* Finds out whether the numbers of a batch are whole ones of 64 bits, where the counts do not say
 * it. Members of other kinds end both: the type is mixed then anyway. */
static uint32_t test_types(struct survey *survey, const struct batch *batch,
                           const counts_of_kinds *counts)
{
    bool are_short = counts->greatest_scale == 0 && counts->most_digits <= INT64_DIGITS;
    bool are_taken = true;
    uint32_t status = KOHIBLAD_OK;
    if (!numbers_of(counts)) return status;
    if (!survey->has_no_int64s && !are_short)
        status = test_numbers(survey, batch, counts, true, &are_taken);
    survey->has_no_int64s |= !are_taken;
    are_taken = true;
    if (status == KOHIBLAD_OK && !survey->has_no_uint64s && !(are_short && !counts->int64s))
        status = test_numbers(survey, batch, counts, false, &are_taken);
    survey->has_no_uint64s |= !are_taken;
    return status;
}

static uint32_t count_rows(struct survey *survey, const struct batch *batch)
{
    counts_of_kinds counts = kohiblad_survey(batch->bytes.at, batch->bytes.size, batch->offsets,
                                             batch->count + 1, survey->path.at, survey->path.size,
                                             KOHIBLAD_SQLITE_DEPTH);
    if (counts.status != KOHIBLAD_OK) return counts.status;
    add_counts(&survey->counts, &counts);
    return test_types(survey, batch, &counts);
}

static uint32_t count_gathered(struct survey *survey)
{
    struct rows *rows = &survey->rows;
    struct batch batch = { { rows->bytes, rows->size }, rows->offsets, rows->count };
    uint32_t status = rows->count ? count_rows(survey, &batch) : KOHIBLAD_OK;
    rows->count = rows->size = 0;
    return status;
}

static uint32_t gather(struct survey *survey, struct bytes row)
{
    size_t ends[] = { 0, row.size };
    struct batch only = { row, ends, 1 };
    uint32_t status;
    if (row.size > MOST_BYTES) return count_rows(survey, &only);
    status = append(&survey->rows, write_bytes, &row, row.size);
    if (status == KOHIBLAD_OK
        && (survey->rows.count == MOST_ROWS || survey->rows.size >= MOST_BYTES))
        status = count_gathered(survey);
    return status;
}

static void forget_path(struct survey *survey)
{
    if (!survey->given.at) return;
    release(&survey->path);
    sqlite3_free((void *)survey->given.at);
    survey->given = (struct bytes){ NULL, 0 };
}

/* Takes another path for the rows that come. After `false` it has reported why. */
static bool follow(const struct caller *caller, struct survey *survey, struct bytes given)
{
    char *message = NULL;
    uint32_t status = count_gathered(survey);
    uint8_t *copy = sqlite3_malloc64(given.size + 1);
    forget_path(survey);
    if (status == KOHIBLAD_OK && !copy) status = KOHIBLAD_OUT_OF_MEMORY;
    if (status != KOHIBLAD_OK) fail(caller, status);
    else if (open_path(caller->name, given, &survey->path, &message) == KOHIBLAD_OK) {
        memcpy(copy, given.at, given.size);
        survey->given = (struct bytes){ copy, given.size };
        return true;
    } else fail_with(caller, message);
    sqlite3_free(copy);
    return false;
}

static bool is_followed(const struct survey *survey, struct bytes given)
{
    return survey->given.at && survey->given.size == given.size
        && !memcmp(survey->given.at, given.at, given.size);
}

/* A row that is NULL, and one whose path is, has no such member. */
static void step(sqlite3_context *context, int count, sqlite3_value **arguments)
{
    struct caller caller = { context, name_of_survey };
    struct survey *survey = sqlite3_aggregate_context(context, sizeof *survey);
    struct bytes row, path;
    uint32_t status;
    (void)count;
    if (!survey) {
        fail(&caller, KOHIBLAD_OUT_OF_MEMORY);
    } else if (sqlite3_value_type(arguments[0]) == SQLITE_NULL
               || sqlite3_value_type(arguments[1]) == SQLITE_NULL) {
        survey->counts.rows++;
        survey->counts.absent++;
    } else if (get_document(&caller, arguments[0], &row)
               && get_text(&caller, arguments[1], &path)
               && (is_followed(survey, path) || follow(&caller, survey, path))) {
        status = gather(survey, row);
        if (status != KOHIBLAD_OK) fail(&caller, status);
    }
}

/* The first of the types of docs/TYPED.md that holds all members, by value. Of the digits that a
 * number has at the greatest scale none exceeds those of `digits`. */
static const char *type_of_numbers(const struct survey *survey, char *room, int size)
{
    const counts_of_kinds *counts = &survey->counts;
    uint64_t digits = counts->most_digits + counts->greatest_scale - counts->least_scale;
    if (!survey->has_no_int64s) return "int64";
    if (!survey->has_no_uint64s) return "uint64";
    if (digits > DECIMAL_DIGITS) return "mixed";
    return sqlite3_snprintf(size, room, "decimal %u", (unsigned)counts->greatest_scale);
}

static const char *least_type(const struct survey *survey, char *room, int size)
{
    const counts_of_kinds *counts = &survey->counts;
    uint64_t members = counts->rows - counts->not_documents - counts->absent - counts->nulls;
    if (!members) return "nothing";
    if (numbers_of(counts) == members) return type_of_numbers(survey, room, size);
    if (counts->booleans == members) return "boolean";
    if (counts->texts == members) return "text";
    if (counts->dates == members) return "date";
    if (counts->timestamps == members) return "timestamp";
    if (counts->zoned_timestamps == members) return "timestamp_tz";
    if (counts->intervals == members) return "interval";
    return counts->binaries == members ? "binary" : "mixed";
}

static struct bytes bytes_of_name(const char *name)
{
    return (struct bytes){ (const uint8_t *)name, strlen(name) };
}

static uint32_t add_value(struct rows *rows, const struct sql_value *value)
{
    return append(rows, write_sql_value, value, guess_of(value));
}

static uint32_t add_count(struct rows *rows, uint64_t count)
{
    struct sql_value value = { .type = SQLITE_INTEGER, .integer = (int64_t)count };
    return add_value(rows, &value);
}

static uint32_t add_name(struct rows *rows, const char *name)
{
    struct bytes bytes = bytes_of_name(name);
    return append(rows, write_bytes, &bytes, bytes.size);
}

static uint32_t add_named(struct rows *rows, const char *name, uint64_t count)
{
    uint32_t status = add_name(rows, name);
    return status == KOHIBLAD_OK ? add_count(rows, count) : status;
}

static uint32_t add_scales(struct rows *rows, const counts_of_kinds *counts)
{
    struct rows both = { 0 };
    uint32_t status = add_name(rows, "scales");
    if (status == KOHIBLAD_OK) status = add_count(&both, counts->least_scale);
    if (status == KOHIBLAD_OK) status = add_count(&both, counts->greatest_scale);
    if (status == KOHIBLAD_OK) status = append(rows, write_array, &both, guess_of_rows(&both));
    forget(&both);
    return status;
}

static uint32_t add_type(struct rows *rows, const struct survey *survey)
{
    char room[16];
    struct sql_value type = { .type = SQLITE_TEXT };
    uint32_t status = add_name(rows, "type");
    type.bytes = bytes_of_name(least_type(survey, room, sizeof room));
    return status == KOHIBLAD_OK ? add_value(rows, &type) : status;
}

/* All counts that are not 0, the number of rows, and the type. */
static uint32_t add_answer(struct rows *rows, struct survey *survey)
{
    counts_of_kinds *counts = &survey->counts;
    uint32_t status = add_type(rows, survey);
    for (size_t i = 0; status == KOHIBLAD_OK && i < COUNTS; i++)
        if (i == 0 || *count_at(counts, i))
            status = add_named(rows, names[i].name, *count_at(counts, i));
    if (status == KOHIBLAD_OK && counts->texts)
        status = add_named(rows, "length", counts->longest_text);
    if (status != KOHIBLAD_OK || !numbers_of(counts)) return status;
    status = add_named(rows, "digits", counts->most_digits);
    return status == KOHIBLAD_OK ? add_scales(rows, counts) : status;
}

static void finish(sqlite3_context *context)
{
    struct caller caller = { context, name_of_survey };
    struct survey none, *survey = sqlite3_aggregate_context(context, 0);
    struct rows answer = { 0 };
    struct buffer buffer;
    uint32_t status;
    if (!survey) {
        memset(&none, 0, sizeof none);
        survey = &none;
    }
    status = count_gathered(survey);
    if (status == KOHIBLAD_OK) status = add_answer(&answer, survey);
    if (status != KOHIBLAD_OK) fail(&caller, status);
    else if (fill(&caller, &buffer, write_object, &answer, guess_of_rows(&answer)))
        give_blob(&caller, &buffer);
    forget(&answer);
    forget(&survey->rows);
    forget_path(survey);
}

int register_survey(sqlite3 *database)
{
    int flags = SQLITE_UTF8 | SQLITE_DETERMINISTIC | SQLITE_INNOCUOUS;
    return sqlite3_create_function(database, name_of_survey, 2, flags, NULL, NULL, step, finish);
}
