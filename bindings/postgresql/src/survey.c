/* kohiblad_survey, an aggregate: what the members of rows at a path are.
 *
 * Rows are gathered one after another, and counted by the library some at a time, so that the
 * memory that it takes has a bound, and a query can be cancelled between two batches. */
#include "paths.h"

#include "libpq/pqformat.h"
#include "miscadmin.h"

/* A batch has at most so many rows and bytes, or one row. */
#define MOST_ROWS 2048
#define MOST_BYTES 1048576

/* Whole numbers of so many digits have 64 bits, and a decimal type has so many digits at most. */
#define INT64_DIGITS 18
#define DECIMAL_DIGITS 38

typedef struct kohiblad_survey_counts Counts;

typedef struct Survey {
    Rows *rows;          /* those that are not counted yet */
    size_t longest;      /* of these rows, in bytes */
    struct varlena *given; /* the path of these rows, */
    struct varlena *path;  /* and its steps, an array; both NULL before the first row */
    Counts counts;
    bool is_int64;       /* whether each number that was counted equals one of 64 bits, */
    bool is_uint64;      /* and one of 64 bits without a sign */
} Survey;

/* The counts, by the names that they have in the answer. */
static const struct {
    const char *name;
    size_t place;
} names[] = {
    {"rows", offsetof(Counts, rows)},
    {"no_document", offsetof(Counts, not_documents)},
    {"absent", offsetof(Counts, absent)},
    {"null", offsetof(Counts, nulls)},
    {"boolean", offsetof(Counts, booleans)},
    {"int64", offsetof(Counts, int64s)},
    {"uint64", offsetof(Counts, uint64s)},
    {"decimal64", offsetof(Counts, decimal64s)},
    {"decimal128", offsetof(Counts, decimal128s)},
    {"date", offsetof(Counts, dates)},
    {"timestamp", offsetof(Counts, timestamps)},
    {"timestamp_tz", offsetof(Counts, zoned_timestamps)},
    {"interval", offsetof(Counts, intervals)},
    {"binary", offsetof(Counts, binaries)},
    {"opaque", offsetof(Counts, opaques)},
    {"text", offsetof(Counts, texts)},
    {"array", offsetof(Counts, arrays)},
    {"object", offsetof(Counts, objects)},
};

static uint64 *count_at(Counts *counts, size_t i) {
    return (uint64 *)((char *)counts + names[i].place);
}

static uint64 numbers_of(const Counts *counts) {
    return counts->int64s + counts->uint64s + counts->decimal64s + counts->decimal128s;
}

static void add_counts(Counts *total, Counts *more) {
    if (numbers_of(more) > 0) {
        bool is_first = numbers_of(total) == 0;
        total->least_scale =
            is_first ? more->least_scale : Min(total->least_scale, more->least_scale);
        total->greatest_scale = Max(total->greatest_scale, more->greatest_scale);
        total->most_digits = Max(total->most_digits, more->most_digits);
    }
    total->longest_text = Max(total->longest_text, more->longest_text);
    for (size_t i = 0; i < lengthof(names); i++) *count_at(total, i) += *count_at(more, i);
}

/* Whether the rows have no member that the call refuses; rows that are no document do not count. */
static bool are_all_taken(struct kohiblad_taken taken, const Counts *counts) {
    if (taken.status != KOHIBLAD_OK) refuse(taken.status, ERRCODE_INTERNAL_ERROR);
    return taken.unfit == counts->not_documents;
}

/* Finds out whether the numbers of a batch are whole ones of 64 bits, where the counts do not say
 * it. Members of other kinds end both: the type is mixed then anyway. */
static void test_numbers(Survey *survey, const Counts *counts, const uint8_t *bytes, size_t size,
                         const size_t *offsets, size_t count) {
    static uint64 values[MOST_ROWS];
    static uint8_t states[MOST_ROWS];
    Bytes path = bytes_of(survey->path);
    if (numbers_of(counts) == 0) return;
    bool is_whole = counts->greatest_scale == 0 && counts->most_digits <= INT64_DIGITS;
    if (survey->is_int64 && !is_whole)
        survey->is_int64 = are_all_taken(
            kohiblad_take_int64(bytes, size, offsets, count + 1, path.at, path.size, MAX_DEPTH,
                                KOHIBLAD_BY_VALUE, (int64_t *)values, count, states, count),
            counts);
    if (survey->is_uint64 && !(is_whole && counts->int64s == 0))
        survey->is_uint64 = are_all_taken(
            kohiblad_take_uint64(bytes, size, offsets, count + 1, path.at, path.size, MAX_DEPTH,
                                 KOHIBLAD_BY_VALUE, (uint64_t *)values, count, states, count),
            counts);
}

/* Counts rows, of which none is longer than `longest`. */
static void count_rows(Survey *survey, const uint8_t *bytes, size_t size, const size_t *offsets,
                       size_t count, size_t longest) {
    Bytes path = bytes_of(survey->path);
    CHECK_FOR_INTERRUPTS();
    check_stack_for(stack_of_depth(depth_of_size(Max(longest, path.size))));
    Counts counts =
        kohiblad_survey(bytes, size, offsets, count + 1, path.at, path.size, MAX_DEPTH);
    if (counts.status == KOHIBLAD_OTHER_KIND) refuse_path();
    if (counts.status != KOHIBLAD_OK) refuse(counts.status, ERRCODE_DATA_CORRUPTED);
    add_counts(&survey->counts, &counts);
    test_numbers(survey, &counts, bytes, size, offsets, count);
}

static void count_gathered(Survey *survey) {
    Rows *rows = survey->rows;
    if (rows->count == 0) return;
    count_rows(survey, (const uint8_t *)rows->bytes.data, rows->bytes.len, rows->offsets,
               rows->count, survey->longest);
    empty_rows(rows);
    survey->longest = 0;
}

static void gather(Survey *survey, Bytes row) {
    Rows *rows = survey->rows;
    if (row.size > MOST_BYTES) {
        size_t offsets[] = {0, row.size};
        count_rows(survey, row.at, row.size, offsets, 1, row.size);
        return;
    }
    add_row(rows, row);
    survey->longest = Max(survey->longest, row.size);
    if (rows->count == MOST_ROWS || rows->bytes.len >= MOST_BYTES) count_gathered(survey);
}

/* The steps of a path: a text or a number alone is one. */
static struct varlena *steps_of_path(Bytes path) {
    Part whole = part_of_document(path);
    if (is_array_part(whole)) return document_of_part(whole);
    Rows *rows = new_rows();
    add_row(rows, path);
    struct varlena *steps = array_of_rows(rows);
    free_rows(rows);
    return steps;
}

/* Takes another path for the rows that come. One that is none is refused. */
static void follow(Survey *survey, Bytes given) {
    static const size_t no_rows[] = {0};
    count_gathered(survey);
    if (survey->given) pfree(survey->given);
    if (survey->path) pfree(survey->path);
    survey->given = survey->path = NULL;
    survey->given = document_of_part((Part){KOHIBLAD_TYPE_CONTAINER, given});
    survey->path = steps_of_path(given);
    count_rows(survey, NULL, 0, no_rows, 0, 0);
}

static bool is_followed(const Survey *survey, Bytes given) {
    return survey->given && compare_bytes(bytes_of(survey->given), given) == 0;
}

static Survey *new_survey(void) {
    Survey *survey = palloc0(sizeof *survey);
    survey->rows = new_rows();
    survey->is_int64 = survey->is_uint64 = true;
    return survey;
}

/* The state of the aggregate, and the memory that lives as long as it. */
static Survey *survey_of(FunctionCallInfo fcinfo, MemoryContext *context) {
    if (!AggCheckCallContext(fcinfo, context))
        elog(ERROR, "kohiblad: an aggregate's function was called outside of an aggregate");
    if (!PG_ARGISNULL(0)) return (Survey *)PG_GETARG_POINTER(0);
    MemoryContext caller = MemoryContextSwitchTo(*context);
    Survey *survey = new_survey();
    MemoryContextSwitchTo(caller);
    return survey;
}

/* A row that is NULL, and one whose path is, has no such member. */
PG_FUNCTION_INFO_V1(pg_kohiblad_survey_step);
Datum pg_kohiblad_survey_step(PG_FUNCTION_ARGS) {
    MemoryContext context;
    Survey *survey = survey_of(fcinfo, &context);
    if (PG_ARGISNULL(1) || PG_ARGISNULL(2)) {
        survey->counts.rows++;
        survey->counts.absent++;
        PG_RETURN_POINTER(survey);
    }
    struct varlena *row = PG_GETARG_VARLENA_PP(1), *path = PG_GETARG_VARLENA_PP(2);
    MemoryContext caller = MemoryContextSwitchTo(context);
    if (!is_followed(survey, bytes_of(path))) follow(survey, bytes_of(path));
    gather(survey, bytes_of(row));
    MemoryContextSwitchTo(caller);
    PG_FREE_IF_COPY(row, 1);
    PG_FREE_IF_COPY(path, 2);
    PG_RETURN_POINTER(survey);
}

/* What two workers counted. */
PG_FUNCTION_INFO_V1(pg_kohiblad_survey_combine);
Datum pg_kohiblad_survey_combine(PG_FUNCTION_ARGS) {
    MemoryContext context;
    if (PG_ARGISNULL(0) && PG_ARGISNULL(1)) PG_RETURN_NULL();
    Survey *survey = survey_of(fcinfo, &context);
    if (!PG_ARGISNULL(1)) {
        Survey *more = (Survey *)PG_GETARG_POINTER(1);
        count_gathered(more);
        add_counts(&survey->counts, &more->counts);
        survey->is_int64 &= more->is_int64;
        survey->is_uint64 &= more->is_uint64;
    }
    PG_RETURN_POINTER(survey);
}

/* The counts as this server's workers have them. */
PG_FUNCTION_INFO_V1(pg_kohiblad_survey_serialize);
Datum pg_kohiblad_survey_serialize(PG_FUNCTION_ARGS) {
    Survey *survey = (Survey *)PG_GETARG_POINTER(0);
    StringInfoData out;
    count_gathered(survey);
    pq_begintypsend(&out);
    pq_sendbytes(&out, (const char *)&survey->counts, sizeof survey->counts);
    pq_sendbyte(&out, survey->is_int64);
    pq_sendbyte(&out, survey->is_uint64);
    PG_RETURN_BYTEA_P(pq_endtypsend(&out));
}

PG_FUNCTION_INFO_V1(pg_kohiblad_survey_deserialize);
Datum pg_kohiblad_survey_deserialize(PG_FUNCTION_ARGS) {
    bytea *sent = PG_GETARG_BYTEA_PP(0);
    StringInfoData in;
    initStringInfo(&in);
    appendBinaryStringInfo(&in, VARDATA_ANY(sent), VARSIZE_ANY_EXHDR(sent));
    Survey *survey = new_survey();
    pq_copymsgbytes(&in, (char *)&survey->counts, sizeof survey->counts);
    survey->is_int64 = pq_getmsgbyte(&in);
    survey->is_uint64 = pq_getmsgbyte(&in);
    pq_getmsgend(&in);
    pfree(in.data);
    PG_RETURN_POINTER(survey);
}

static const char *type_of_numbers(const Survey *survey) {
    const Counts *counts = &survey->counts;
    if (survey->is_int64) return "int64";
    if (survey->is_uint64) return "uint64";
    /* Of the digits that a number has at the greatest scale none exceeds this. */
    uint64 digits = counts->most_digits + counts->greatest_scale - counts->least_scale;
    return digits > DECIMAL_DIGITS ? "mixed" : psprintf("decimal %u", counts->greatest_scale);
}

/* The first of the types of docs/TYPED.md that holds all members, by value. */
static const char *least_type(const Survey *survey) {
    const Counts *counts = &survey->counts;
    uint64 members = counts->rows - counts->not_documents - counts->absent - counts->nulls;
    if (members == 0) return "nothing";
    if (numbers_of(counts) == members) return type_of_numbers(survey);
    if (counts->booleans == members) return "boolean";
    if (counts->texts == members) return "text";
    if (counts->dates == members) return "date";
    if (counts->timestamps == members) return "timestamp";
    if (counts->zoned_timestamps == members) return "timestamp_tz";
    if (counts->intervals == members) return "interval";
    return counts->binaries == members ? "binary" : "mixed";
}

static Bytes bytes_of_name(const char *name) {
    return (Bytes){(const uint8_t *)name, strlen(name)};
}

static void add_count(Rows *rows, const char *name, uint64 count) {
    add_row(rows, bytes_of_name(name));
    add_int64(rows, (int64)count);
}

static void add_scales(Rows *rows, const Counts *counts) {
    Rows *both = new_rows();
    add_int64(both, counts->least_scale);
    add_int64(both, counts->greatest_scale);
    add_row(rows, bytes_of_name("scales"));
    add_row(rows, bytes_of(array_of_rows(both)));
    free_rows(both);
}

/* The object of all counts that are not 0, of the number of rows, and of the type. */
static struct varlena *document_of_survey(Survey *survey) {
    Counts *counts = &survey->counts;
    Rows *rows = new_rows();
    for (size_t i = 0; i < lengthof(names); i++)
        if (i == 0 || *count_at(counts, i) > 0)
            add_count(rows, names[i].name, *count_at(counts, i));
    if (counts->texts > 0) add_count(rows, "length", counts->longest_text);
    if (numbers_of(counts) > 0) {
        add_count(rows, "digits", counts->most_digits);
        add_scales(rows, counts);
    }
    add_row(rows, bytes_of_name("type"));
    add_text(rows, bytes_of_name(least_type(survey)));
    return object_of_rows(rows);
}

PG_FUNCTION_INFO_V1(pg_kohiblad_survey_final);
Datum pg_kohiblad_survey_final(PG_FUNCTION_ARGS) {
    Survey *survey = PG_ARGISNULL(0) ? new_survey() : (Survey *)PG_GETARG_POINTER(0);
    count_gathered(survey);
    PG_RETURN_POINTER(document_of_survey(survey));
}
