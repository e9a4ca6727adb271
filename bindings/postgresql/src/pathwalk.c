/* Paths of SQL/JSON followed in documents. In lax mode a key or a filter is also asked of the items
 * of an array, and an index finds a scalar or an object as the only item; in strict mode these are
 * errors, unless the step comes after `.**`. Values of two kinds are neither equal nor unequal, but
 * for null. */
#include "paths.h"
#include "pathplan.h"
#include "pathtext.h"

#include "catalog/pg_collation.h"
#include "miscadmin.h"
#include "regex/regex.h"

enum truth { IS_FALSE, IS_TRUE, IS_UNKNOWN };

/* A walk over a document. It is lost after it came to a text that the server's engine of patterns
 * does not take: then nothing that it found counts. */
typedef struct Run {
    Sliced *document; /* NULL if it is at hand */
    Part root, current;
    Part *variables;
    bool is_strict, forgives;
    uint32_t error; /* why the path was given up, or KOHIBLAD_OK: then the walk has ended */
    bool is_lost;
} Run;

/* What is done with each value at the end of the steps: true ends the walk. */
typedef struct Taker {
    bool (*take)(Run *run, struct Taker *taker, Part value);
    bool is_blind; /* whether it does not look at values, whose bytes need not be at hand then */
} Taker;

typedef struct Gatherer {
    Taker taker;
    Parts *parts;
    bool unwraps; /* whether the items of an array are taken in its place */
} Gatherer;

typedef struct Comparer {
    Taker taker;
    const Test *test;
    const Parts *others;
    bool is_inside; /* whether the items of an array are compared in its place */
    bool is_true, is_unknown; /* whether that is some pair */
} Comparer;

typedef struct Finder {
    Taker taker;
    bool is_found;
} Finder;

static bool follow(Run *run, const Step *step, Part value, bool unwraps, Taker *taker);
static bool follow_source(Run *run, const Source *source, Taker *taker);
static enum truth judge(Run *run, const Test *test);

/* What is not there gives nothing, or in strict mode an error. Whether the walk has ended. */
static bool is_refused(Run *run, uint32_t error) {
    if (run->is_strict && !run->forgives) run->error = error;
    return run->error != KOHIBLAD_OK;
}

/* Follows steps from the items between two indexes. */
static bool follow_items(Run *run, const Step *step, Bytes array, uint64 first, uint64 last,
                         bool unwraps, Taker *taker) {
    struct kohiblad_cursor cursor;
    struct kohiblad_place key, place;
    uint32_t status = kohiblad_begin(array.at, array.size, &cursor);
    for (uint64 i = 0; status == KOHIBLAD_OK && i <= last; i++) {
        CHECK_FOR_INTERRUPTS();
        status = kohiblad_next(array.at, array.size, &cursor, &key, &place);
        if (status != KOHIBLAD_OK || i < first) continue;
        if (follow(run, step, part_at(array, place), unwraps, taker)) return true;
    }
    if (status != KOHIBLAD_OK && status != KOHIBLAD_NONE) refuse(status, ERRCODE_DATA_CORRUPTED);
    return false;
}

static bool follow_all_items(Run *run, const Step *step, Part array, bool unwraps, Taker *taker) {
    return follow_items(run, step, array.payload, 0, PG_UINT64_MAX, unwraps, taker);
}

static bool follow_members(Run *run, const Step *step, Part value, bool unwraps, Taker *taker) {
    if (is_object_part(value)) return follow_all_items(run, step->next, value, true, taker);
    if (unwraps && is_container(value)) return follow_all_items(run, step, value, false, taker);
    return is_refused(run, KOHIBLAD_OBJECT_NOT_FOUND);
}

static bool follow_wildcard(Run *run, const Step *step, Part value, Taker *taker) {
    if (is_array_part(value)) return follow_all_items(run, step->next, value, true, taker);
    if (run->is_strict) return is_refused(run, KOHIBLAD_ARRAY_NOT_FOUND);
    return follow(run, step->next, value, true, taker);
}

/* Follows steps from the values at some levels below a container, each before those below it. The
 * level `last` alone is that of scalars. */
static bool follow_below(Run *run, const Step *step, Bytes container, uint32 level,
                         Taker *taker) {
    struct kohiblad_cursor cursor;
    struct kohiblad_place key, place;
    check_stack_depth();
    uint32_t status = kohiblad_begin(container.at, container.size, &cursor);
    while (status == KOHIBLAD_OK) {
        CHECK_FOR_INTERRUPTS();
        status = kohiblad_next(container.at, container.size, &cursor, &key, &place);
        if (status != KOHIBLAD_OK) break;
        Part child = part_at(container, place);
        bool is_meant = step->first_level == PG_UINT32_MAX
            ? step->last_level == PG_UINT32_MAX && !is_container(child)
            : level >= step->first_level;
        if (is_meant && follow(run, step->next, child, true, taker)) return true;
        if (level < step->last_level && is_container(child) &&
            follow_below(run, step, child.payload, level + 1, taker))
            return true;
    }
    if (status != KOHIBLAD_NONE) refuse(status, ERRCODE_DATA_CORRUPTED);
    return false;
}

static bool follow_levels(Run *run, const Step *step, Part value, Taker *taker) {
    bool forgave = run->forgives;
    run->forgives = true;
    bool is_done = step->first_level == 0 && follow(run, step->next, value, true, taker);
    if (!is_done && step->last_level > 0 && is_container(value))
        is_done = follow_below(run, step, value.payload, 1, taker);
    run->forgives = forgave;
    return is_done;
}

static int64 place_of(Subscript index, int64 count) {
    return index.is_from_last ? count - 1 + index.number : index.number;
}

static bool follow_one(Run *run, const Step *step, Bytes array, int64 index, Taker *taker) {
    Part item;
    return find_index_in(run->document, array, index, &item)
        && follow(run, step, item, true, taker);
}

/* What is no array is the only item of one in lax mode. */
static bool follow_indexes(Run *run, const Step *step, Part value, Taker *taker) {
    bool is_alone = !is_array_in(run->document, value), is_done = false;
    if (is_alone && run->is_strict) return is_refused(run, KOHIBLAD_ARRAY_NOT_FOUND);
    int64 count = is_alone ? 1 : kind_in(run->document, value.payload).count;
    for (int i = 0; i < step->range_count && !is_done; i++) {
        CHECK_FOR_INTERRUPTS();
        int64 first = place_of(step->ranges[i].first, count);
        int64 last = place_of(step->ranges[i].last, count);
        bool is_within = 0 <= first && first <= last && last < count;
        if (!is_within && is_refused(run, KOHIBLAD_INVALID_SUBSCRIPT)) return true;
        first = Max(first, 0);
        last = Min(last, count - 1);
        if (first > last) continue;
        if (is_alone) {
            is_done = follow(run, step->next, value, true, taker);
        } else if (first == last) {
            is_done = follow_one(run, step->next, value.payload, first, taker);
        } else {
            fetch_all(run->document);
            is_done = follow_items(run, step->next, value.payload, first, last, true, taker);
        }
    }
    return is_done;
}

static bool follow_filter(Run *run, const Step *step, Part value, bool unwraps, Taker *taker) {
    if (unwraps && is_array_part(value))
        return follow_all_items(run, step, value, false, taker);
    Part outer = run->current;
    run->current = value;
    enum truth truth = judge(run, step->filter);
    run->current = outer;
    return truth == IS_TRUE && follow(run, step->next, value, true, taker);
}

static Part part_of_count(int64 count) {
    uint8_t *document = palloc(NUMBER_ROOM);
    size_t size;
    uint32_t status = kohiblad_of_int64(count, document, NUMBER_ROOM, &size);
    if (status != KOHIBLAD_OK) refuse(status, ERRCODE_INTERNAL_ERROR);
    return part_of_document((Bytes){document, size});
}

/* What is no array is the only item of one in lax mode. */
static Part size_of(Run *run, Part value) {
    bool is_list = is_array_in(run->document, value);
    return part_of_count(is_list ? kind_in(run->document, value.payload).count : 1);
}

/* The payload of an extension value begins with its tag. */
static const char *name_of_extension(Run *run, Part value) {
    fetch_part(run->document, value);
    if (value.payload.size == 0) refuse(KOHIBLAD_INVALID_JSONB, ERRCODE_DATA_CORRUPTED);
    switch (value.payload.at[0]) {
        case KOHIBLAD_BINARY: return "binary";
        case KOHIBLAD_DATE: return "date";
        case KOHIBLAD_TIMESTAMP: return "timestamp";
        case KOHIBLAD_TIMESTAMP_TZ: return "timestamp_tz";
        case KOHIBLAD_INTERVAL: return "interval";
        default: return "opaque";
    }
}

static const char *name_of_type(Run *run, Part value) {
    switch (value.type) {
        case KOHIBLAD_TYPE_NULL: return "null";
        case KOHIBLAD_TYPE_FALSE:
        case KOHIBLAD_TYPE_TRUE: return "boolean";
        case KOHIBLAD_TYPE_NUMBER: return "number";
        case KOHIBLAD_TYPE_STRING: return "string";
        case KOHIBLAD_TYPE_EXTENSION: return name_of_extension(run, value);
        default: return is_array_in(run->document, value) ? "array" : "object";
    }
}

static Part part_of_name(const char *name) {
    return (Part){KOHIBLAD_TYPE_STRING, {(const uint8_t *)name, strlen(name)}};
}

/* Takes the value that the last step makes. */
static bool take_made(Run *run, const Step *step, Part value, Taker *taker) {
    if (step->type == jpiSize && run->is_strict && !is_array_in(run->document, value))
        return is_refused(run, KOHIBLAD_ARRAY_NOT_FOUND);
    Part made = step->type == jpiSize ? size_of(run, value)
                                      : part_of_name(name_of_type(run, value));
    return taker->take(run, taker, made);
}

/* Ends the walk by an error, or where the library has to tell. */
static bool give_up(Run *run, uint32_t error) {
    if (error == KOHIBLAD_NONE)
        run->is_lost = true;
    else
        run->error = error;
    return true;
}

static bool follow_number(Run *run, const Step *step, Part value, bool unwraps, Taker *taker) {
    Part made;
    if (unwraps && is_array_part(value)) return follow_all_items(run, step, value, false, taker);
    if (value.type != KOHIBLAD_TYPE_NUMBER) return give_up(run, KOHIBLAD_NON_NUMERIC_ITEM);
    uint32_t status = number_of_one(step->type, value, &made);
    if (status != KOHIBLAD_OK) return give_up(run, status);
    return follow(run, step->next, made, true, taker);
}

/* Follows steps from a value; whether the taker ended the walk. The first step is asked of the
 * items of an array if it unwraps. */
static bool follow(Run *run, const Step *step, Part value, bool unwraps, Taker *taker) {
    check_stack_depth();
    unwraps &= !run->is_strict;
    for (; step && step->type == jpiKey; step = step->next, unwraps = !run->is_strict) {
        CHECK_FOR_INTERRUPTS();
        if (!is_container(value)) return is_refused(run, KOHIBLAD_MEMBER_NOT_FOUND);
        if (find_key_in(run->document, value.payload, step->key, &value)) continue;
        if (!unwraps || !is_array_in(run->document, value))
            return is_refused(run, KOHIBLAD_MEMBER_NOT_FOUND);
        fetch_all(run->document);
        return follow_all_items(run, step, value, false, taker);
    }
    if (run->is_lost) return true;
    if (!step) {
        if (!taker->is_blind) fetch_part(run->document, value);
        return taker->take(run, taker, value);
    }
    if (step->type == jpiIndexArray) return follow_indexes(run, step, value, taker);
    if (step->type == jpiSize || step->type == jpiType) return take_made(run, step, value, taker);
    fetch_all(run->document);
    switch (step->type) {
        case jpiAnyKey: return follow_members(run, step, value, unwraps, taker);
        case jpiAnyArray: return follow_wildcard(run, step, value, taker);
        case jpiAny: return follow_levels(run, step, value, taker);
        case jpiAbs:
        case jpiFloor:
        case jpiCeiling: return follow_number(run, step, value, unwraps, taker);
        default: return follow_filter(run, step, value, unwraps, taker);
    }
}

static void add_value(Parts *parts, Part value) {
    if (parts->count == parts->room) {
        size_t room = parts->room ? 2 * parts->room : 8;
        Part *grown = MemoryContextAllocHuge(CurrentMemoryContext, room * sizeof *grown);
        if (parts->count) {
            memcpy(grown, parts->at, parts->count * sizeof *grown);
            pfree(parts->at);
        }
        parts->at = grown;
        parts->room = room;
    }
    parts->at[parts->count++] = value;
}

static bool take_value(Run *run, Taker *taker, Part value) {
    Gatherer *gatherer = (Gatherer *)taker;
    if (gatherer->unwraps && is_array_part(value)) {
        Gatherer inner = {{take_value, false}, gatherer->parts, false};
        return follow_all_items(run, NULL, value, false, &inner.taker);
    }
    add_value(gatherer->parts, value);
    return false;
}

/* All values of an operand, with the items of an array in its place in lax mode. */
static Parts operand_values(Run *run, const Source *operand) {
    Parts values = {0};
    Gatherer gatherer = {{take_value, false}, &values, !run->is_strict};
    follow_source(run, operand, &gatherer.taker);
    return values;
}

static bool has_ended(const Run *run) {
    return run->error != KOHIBLAD_OK || run->is_lost;
}

static bool follow_sign(Run *run, const Source *source, Taker *taker) {
    Parts values = operand_values(run, source->left);
    bool is_done = has_ended(run);
    for (size_t i = 0; i < values.count && !is_done; i++) {
        Part made;
        CHECK_FOR_INTERRUPTS();
        if (values.at[i].type != KOHIBLAD_TYPE_NUMBER)
            return give_up(run, KOHIBLAD_NUMBER_NOT_FOUND);
        uint32_t status = number_of_one(source->type, values.at[i], &made);
        if (status != KOHIBLAD_OK) return give_up(run, status);
        is_done = follow(run, source->steps, made, true, taker);
    }
    if (values.room) pfree(values.at);
    return is_done;
}

static bool is_number(const Parts *values) {
    return values->count == 1 && values->at[0].type == KOHIBLAD_TYPE_NUMBER;
}

/* Both operands are followed before either has to be one number. */
static bool follow_operator(Run *run, const Source *source, Taker *taker) {
    Part made;
    Parts left = operand_values(run, source->left);
    if (has_ended(run)) return true;
    Parts right = operand_values(run, source->right);
    if (has_ended(run)) return true;
    if (!is_number(&left) || !is_number(&right)) return give_up(run, KOHIBLAD_SINGLETON_REQUIRED);
    uint32_t status = number_of_two(source->type, left.at[0], right.at[0], &made);
    pfree(left.at);
    pfree(right.at);
    if (status != KOHIBLAD_OK) return give_up(run, status);
    return follow(run, source->steps, made, true, taker);
}

static bool follow_source(Run *run, const Source *source, Taker *taker) {
    switch (source->type) {
        case jpiRoot: return follow(run, source->steps, run->root, true, taker);
        case jpiCurrent: return follow(run, source->steps, run->current, true, taker);
        case jpiVariable:
            return follow(run, source->steps, run->variables[source->variable], true, taker);
        case jpiPlus:
        case jpiMinus: return follow_sign(run, source, taker);
        case jpiAdd:
        case jpiSub:
        case jpiMul:
        case jpiMod: return follow_operator(run, source, taker);
        default:
            if (source->steps) return follow(run, source->steps, source->literal, true, taker);
            return taker->take(run, taker, source->literal);
    }
}

/* In strict mode all values are looked for, since an error may come after one. */
static bool take_note(Run *run, Taker *taker, Part value pg_attribute_unused()) {
    ((Finder *)taker)->is_found = true;
    return !run->is_strict;
}

static bool exists(Run *run, const Source *source) {
    Finder finder = {{take_note, true}, false};
    follow_source(run, source, &finder.taker);
    return finder.is_found;
}

/* A type that true and false share. */
static uint32_t shared_type(Part value) {
    return value.type == KOHIBLAD_TYPE_FALSE ? KOHIBLAD_TYPE_TRUE : value.type;
}

/* The order of two scalars of one kind. */
static int order_of(Part left, Part right) {
    switch (left.type) {
        case KOHIBLAD_TYPE_NULL: return 0;
        case KOHIBLAD_TYPE_STRING: return compare_bytes(left.payload, right.payload);
        case KOHIBLAD_TYPE_NUMBER: return compare_scalars(left, right);
        default: return (left.type > right.type) - (left.type < right.type);
    }
}

static bool is_so(JsonPathItemType type, int order) {
    switch (type) {
        case jpiEqual: return order == 0;
        case jpiNotEqual: return order != 0;
        case jpiLess: return order < 0;
        case jpiLessOrEqual: return order <= 0;
        case jpiGreater: return order > 0;
        default: return order >= 0;
    }
}

static enum truth compare(JsonPathItemType type, Part left, Part right) {
    if (shared_type(left) != shared_type(right)) {
        bool any_null = left.type == KOHIBLAD_TYPE_NULL || right.type == KOHIBLAD_TYPE_NULL;
        if (!any_null) return IS_UNKNOWN;
        return type == jpiNotEqual ? IS_TRUE : IS_FALSE;
    }
    if (is_container(left) || left.type == KOHIBLAD_TYPE_EXTENSION) return IS_UNKNOWN;
    return is_so(type, order_of(left, right)) ? IS_TRUE : IS_FALSE;
}

static enum truth begins(Part left, Part right) {
    if (left.type != KOHIBLAD_TYPE_STRING || right.type != KOHIBLAD_TYPE_STRING) return IS_UNKNOWN;
    if (left.payload.size < right.payload.size) return IS_FALSE;
    return memcmp(left.payload.at, right.payload.at, right.payload.size) == 0 ? IS_TRUE : IS_FALSE;
}

/* Whether a text matches a pattern, by the server's engine, to which a zero byte ends it. */
static enum truth match(Run *run, const Test *test, Part value) {
    if (value.type != KOHIBLAD_TYPE_STRING) return IS_UNKNOWN;
    Bytes utf8 = value.payload;
    run->is_lost |= memchr(utf8.at, 0, utf8.size) != NULL;
    if (run->is_lost) return IS_UNKNOWN;
    bool is_match = RE_compile_and_execute(test->pattern, (char *)utf8.at, (int)utf8.size,
                                           test->flags, DEFAULT_COLLATION_OID, 0, NULL);
    return is_match ? IS_TRUE : IS_FALSE;
}

static enum truth judge_pair(Run *run, const Test *test, Part value, Part other) {
    switch (test->type) {
        case jpiLikeRegex: return match(run, test, value);
        case jpiStartsWith: return begins(value, other);
        default: return compare(test->type, value, other);
    }
}

/* Whether no other pair matters. An error in lax mode does. */
static bool is_decided(const Run *run, const Comparer *comparer) {
    if (run->is_strict) return comparer->is_unknown;
    return comparer->is_true && !comparer->test->source.makes_numbers;
}

static bool compare_with_all(Run *run, Comparer *comparer, Part value) {
    for (size_t i = 0; i < comparer->others->count; i++) {
        CHECK_FOR_INTERRUPTS();
        Part other = comparer->others->at[i];
        enum truth truth = judge_pair(run, comparer->test, value, other);
        comparer->is_true |= truth == IS_TRUE;
        comparer->is_unknown |= truth == IS_UNKNOWN;
        if (is_decided(run, comparer) || run->is_lost) return true;
    }
    return false;
}

static bool take_compared(Run *run, Taker *taker, Part value) {
    Comparer *comparer = (Comparer *)taker;
    if (comparer->is_inside || run->is_strict || !is_array_part(value))
        return compare_with_all(run, comparer, value);
    comparer->is_inside = true;
    bool is_done = follow_all_items(run, NULL, value, false, taker);
    comparer->is_inside = false;
    return is_done;
}

static bool is_literal(const Source *source) {
    return jspIsScalar(source->type) && !source->steps;
}

/* The truth of a test, which is unknown after an error. */
static enum truth truth_unless_given_up(Run *run, enum truth truth) {
    if (run->error == KOHIBLAD_OK) return truth;
    run->error = KOHIBLAD_OK;
    return IS_UNKNOWN;
}

/* In lax mode one true pair says true, and in strict mode one that is unknown says so. */
static enum truth truth_of_pairs(const Run *run, const Comparer *comparer) {
    if (comparer->is_unknown && (run->is_strict || !comparer->is_true)) return IS_UNKNOWN;
    return comparer->is_true ? IS_TRUE : IS_FALSE;
}

/* The text that others start with is one value, and no array of them. */
static enum truth compare_sources(Run *run, const Test *test) {
    Part literal = test->other.literal;
    Parts others = {&literal, 1, 0};
    if (!is_literal(&test->other)) {
        bool unwraps = test->type != jpiStartsWith && !run->is_strict;
        others = (Parts){0};
        Gatherer gatherer = {{take_value, false}, &others, unwraps};
        follow_source(run, &test->other, &gatherer.taker);
    }
    Comparer comparer = {{take_compared, false}, test, &others, false, false, false};
    if (!has_ended(run)) follow_source(run, &test->source, &comparer.taker);
    if (others.room) pfree(others.at);
    return truth_unless_given_up(run, truth_of_pairs(run, &comparer));
}

static enum truth judge_exists(Run *run, const Source *source) {
    bool is_found = exists(run, source);
    return truth_unless_given_up(run, is_found ? IS_TRUE : IS_FALSE);
}

static enum truth judge_both(Run *run, const Test *test, enum truth decided) {
    enum truth left = judge(run, test->left);
    if (left == decided || run->is_lost) return left;
    enum truth right = judge(run, test->right);
    return right == IS_UNKNOWN || right == decided ? right : left;
}

static enum truth judge_not(enum truth truth) {
    if (truth == IS_UNKNOWN) return IS_UNKNOWN;
    return truth == IS_TRUE ? IS_FALSE : IS_TRUE;
}

static enum truth judge(Run *run, const Test *test) {
    check_stack_depth();
    CHECK_FOR_INTERRUPTS();
    switch (test->type) {
        case jpiAnd: return judge_both(run, test, IS_FALSE);
        case jpiOr: return judge_both(run, test, IS_TRUE);
        case jpiNot: return judge_not(judge(run, test->left));
        case jpiIsUnknown: return judge(run, test->left) == IS_UNKNOWN ? IS_TRUE : IS_FALSE;
        case jpiExists: return judge_exists(run, &test->source);
        default: return compare_sources(run, test);
    }
}

/* Begins a walk: all variables are looked for first. If it goes to values apart from the document,
 * no part of that can be fetched by itself. */
static Run run_of(const PathPlan *plan, const Asked *asked) {
    Run run = {.document = asked->document,
               .root = asked->root,
               .current = asked->root,
               .is_strict = plan->is_strict};
    if (plan->goes_apart) {
        fetch_all(asked->document);
        run.document = NULL;
    }
    if (plan->name_count == 0) return run;
    run.variables = palloc(plan->name_count * sizeof *run.variables);
    for (int i = 0; i < plan->name_count; i++) {
        CHECK_FOR_INTERRUPTS();
        if (asked->variables.size == 0 ||
            !find_key(asked->variables, plan->names[i], &run.variables[i]))
            give_up_path(KOHIBLAD_UNDEFINED_VARIABLE);
    }
    return run;
}

static uint32_t type_of_truth(enum truth truth) {
    static const uint32_t types[] = {
        [IS_FALSE] = KOHIBLAD_TYPE_FALSE,
        [IS_TRUE] = KOHIBLAD_TYPE_TRUE,
        [IS_UNKNOWN] = KOHIBLAD_TYPE_NULL,
    };
    return types[truth];
}

/* Raises the error that the path was given up for, unless the call is silent. */
static void end_walk(const Run *run, const Asked *asked) {
    if (run->error != KOHIBLAD_OK && !asked->is_silent) give_up_path(run->error);
}

/* What a predicate says is a value, whatever it is. */
bool find_any(const PathPlan *plan, const Asked *asked, bool *is_null, bool *answer) {
    Run run = run_of(plan, asked);
    *answer = plan->test || exists(&run, &plan->source);
    if (run.is_lost) return false;
    end_walk(&run, asked);
    *is_null = run.error != KOHIBLAD_OK;
    return true;
}

static bool gather(const PathPlan *plan, Run *run, Parts *values) {
    Gatherer gatherer = {{take_value, false}, values, false};
    if (plan->test)
        add_value(values, (Part){type_of_truth(judge(run, plan->test))});
    else
        follow_source(run, &plan->source, &gatherer.taker);
    return !run->is_lost;
}

/* Whether a type is that of a truth. */
static bool is_truth(uint32_t type) {
    return type == KOHIBLAD_TYPE_NULL || type == KOHIBLAD_TYPE_FALSE || type == KOHIBLAD_TYPE_TRUE;
}

bool find_truth(const PathPlan *plan, const Asked *asked, bool *is_null, bool *answer) {
    Run run = run_of(plan, asked);
    Parts values = {0};
    if (!gather(plan, &run, &values)) return false;
    end_walk(&run, asked);
    bool is_boolean = values.count == 1 && is_truth(values.at[0].type);
    if (!is_boolean && !asked->is_silent) give_up_path(KOHIBLAD_BOOLEAN_REQUIRED);
    *is_null = !is_boolean || values.at[0].type == KOHIBLAD_TYPE_NULL;
    *answer = is_boolean && values.at[0].type == KOHIBLAD_TYPE_TRUE;
    return true;
}

bool find_values(const PathPlan *plan, const Asked *asked, Parts *values) {
    Run run = run_of(plan, asked);
    *values = (Parts){0};
    if (!gather(plan, &run, values)) return false;
    end_walk(&run, asked);
    return true;
}
