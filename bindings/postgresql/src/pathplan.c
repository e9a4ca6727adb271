/* Which paths of SQL/JSON are followed in documents, and what they are made of. */
#include "pathplan.h"

#include "mb/pg_wchar.h"
#include "miscadmin.h"
#include "utils/builtins.h"
#include "utils/fmgrprotos.h"
#include "utils/numeric.h"

/* An index as far from 0, or from the last one, is past every item, and for the server no error. */
#define MAX_INDEX (1 << 30)

static const Test *plan_test(PathPlan *plan, JsonPathItem *item);

bool write_number(JsonPathItem *item, uint8_t *out, size_t *size) {
    Datum number = NumericGetDatum(jspGetNumeric(item));
    const char *digits = DatumGetCString(DirectFunctionCall1(numeric_out, number));
    return kohiblad_parse((const uint8_t *)digits, strlen(digits), 0, KOHIBLAD_EXPONENTS_ALLOWED,
                          out, NUMBER_ROOM, size) == KOHIBLAD_OK;
}

Bytes string_of_item(JsonPathItem *item) {
    int32 size;
    const char *shown = jspGetString(item, &size);
    return utf8_of_server(shown, size);
}

static bool plan_number(JsonPathItem *item, Part *literal) {
    uint8_t *document = palloc(NUMBER_ROOM);
    size_t size;
    if (!write_number(item, document, &size)) return false;
    *literal = part_of_document((Bytes){document, size});
    return true;
}

static bool plan_literal(JsonPathItem *item, Part *literal) {
    switch (item->type) {
        case jpiNull: *literal = (Part){KOHIBLAD_TYPE_NULL}; return true;
        case jpiBool:
            *literal = (Part){jspGetBool(item) ? KOHIBLAD_TYPE_TRUE : KOHIBLAD_TYPE_FALSE};
            return true;
        case jpiString: *literal = (Part){KOHIBLAD_TYPE_STRING, string_of_item(item)}; return true;
        case jpiNumeric: return plan_number(item, literal);
        default: return false;
    }
}

/* A whole number that is an index for the server too. */
static bool plan_whole(JsonPathItem *item, int64 *number) {
    uint8_t document[NUMBER_ROOM];
    size_t size;
    if (item->type != jpiNumeric || jspHasNext(item) || !write_number(item, document, &size))
        return false;
    struct kohiblad_integer whole = kohiblad_as_int64(document, size);
    *number = whole.value;
    return whole.status == KOHIBLAD_OK && -MAX_INDEX <= whole.value && whole.value <= MAX_INDEX;
}

bool plan_index(JsonPathItem *item, Subscript *index) {
    JsonPathItem left, right;
    *index = (Subscript){.is_from_last = item->type != jpiNumeric};
    if (jspHasNext(item)) return false;
    if (item->type == jpiLast) return true;
    if (item->type != jpiSub) return plan_whole(item, &index->number);
    jspGetLeftArg(item, &left);
    jspGetRightArg(item, &right);
    bool is_whole = plan_whole(&right, &index->number);
    index->number = -index->number;
    return left.type == jpiLast && !jspHasNext(&left) && is_whole;
}

static bool plan_ranges(JsonPathItem *item, Step *step) {
    Range *ranges = palloc(item->content.array.nelems * sizeof *ranges);
    step->ranges = ranges;
    step->range_count = item->content.array.nelems;
    for (int i = 0; i < step->range_count; i++) {
        CHECK_FOR_INTERRUPTS();
        JsonPathItem from, to;
        bool has_end = jspGetArraySubscript(item, &from, &to, i);
        if (!plan_index(&from, &ranges[i].first)) return false;
        ranges[i].last = ranges[i].first;
        if (has_end && !plan_index(&to, &ranges[i].last)) return false;
    }
    return true;
}

static bool plan_filter(PathPlan *plan, JsonPathItem *item, Step *step) {
    JsonPathItem filter;
    jspGetArg(item, &filter);
    step->filter = plan_test(plan, &filter);
    return step->filter != NULL;
}

static bool plan_step(PathPlan *plan, JsonPathItem *item, Step *step) {
    step->type = item->type;
    switch (item->type) {
        case jpiKey: step->key = string_of_item(item); return true;
        case jpiAnyKey:
        case jpiAnyArray: return true;
        case jpiAny:
            step->first_level = item->content.anybounds.first;
            step->last_level = item->content.anybounds.last;
            return true;
        case jpiIndexArray: return plan_ranges(item, step);
        case jpiFilter: return plan_filter(plan, item, step);
        case jpiAbs:
        case jpiFloor:
        case jpiCeiling: return true;
        case jpiSize:
        case jpiType: return !jspHasNext(item);
        default: return false;
    }
}

/* The number of a variable, which is added to those of the path. */
static int plan_variable(PathPlan *plan, JsonPathItem *item) {
    Bytes *names = palloc((plan->name_count + 1) * sizeof *names);
    if (plan->name_count) memcpy(names, plan->names, plan->name_count * sizeof *names);
    names[plan->name_count] = string_of_item(item);
    plan->names = names;
    return plan->name_count++;
}

static bool plan_source(PathPlan *plan, JsonPathItem *first, Source *source);

static const Source *plan_operand(PathPlan *plan, JsonPathItem *item) {
    Source *operand = palloc(sizeof *operand);
    return plan_source(plan, item, operand) ? operand : NULL;
}

static bool plan_sign(PathPlan *plan, JsonPathItem *item, Source *source) {
    JsonPathItem operand;
    jspGetArg(item, &operand);
    source->makes_numbers = true;
    source->left = plan_operand(plan, &operand);
    return source->left != NULL;
}

static bool plan_operator(PathPlan *plan, JsonPathItem *item, Source *source) {
    JsonPathItem left, right;
    jspGetLeftArg(item, &left);
    jspGetRightArg(item, &right);
    source->makes_numbers = true;
    source->left = plan_operand(plan, &left);
    if (!source->left) return false;
    source->right = plan_operand(plan, &right);
    return source->right != NULL;
}

/* What comes before the steps. */
static bool plan_head(PathPlan *plan, JsonPathItem *item, Source *source) {
    switch (item->type) {
        case jpiRoot:
        case jpiCurrent: return true;
        case jpiVariable: source->variable = plan_variable(plan, item); return true;
        case jpiPlus:
        case jpiMinus: return plan_sign(plan, item, source);
        case jpiAdd:
        case jpiSub:
        case jpiMul:
        case jpiMod: return plan_operator(plan, item, source);
        default: return plan_literal(item, &source->literal);
    }
}

static bool makes_number(JsonPathItemType type) {
    return type == jpiAbs || type == jpiFloor || type == jpiCeiling;
}

static bool plan_source(PathPlan *plan, JsonPathItem *first, Source *source) {
    JsonPathItem item = *first, next;
    const Step **end = &source->steps;
    check_stack_depth();
    *source = (Source){.type = item.type};
    if (!plan_head(plan, &item, source)) return false;
    bool is_inside = item.type == jpiRoot || item.type == jpiCurrent;
    plan->goes_apart |= !is_inside && (jspHasNext(&item) || !jspIsScalar(item.type));
    while (jspGetNext(&item, &next)) {
        CHECK_FOR_INTERRUPTS();
        item = next;
        Step *step = palloc0(sizeof *step);
        if (!plan_step(plan, &item, step)) return false;
        source->makes_numbers |= makes_number(item.type);
        plan->goes_apart |= source->makes_numbers;
        *end = step;
        end = &step->next;
    }
    return true;
}

static bool plan_below(PathPlan *plan, JsonPathItem *item, Test *test) {
    JsonPathItem left, right;
    jspGetLeftArg(item, &left);
    test->left = plan_test(plan, &left);
    if (!test->left) return false;
    jspGetRightArg(item, &right);
    test->right = plan_test(plan, &right);
    return test->right != NULL;
}

static bool plan_sources(PathPlan *plan, JsonPathItem *item, Test *test) {
    JsonPathItem left, right;
    jspGetLeftArg(item, &left);
    jspGetRightArg(item, &right);
    return plan_source(plan, &left, &test->source) && plan_source(plan, &right, &test->other);
}

/* Texts have other bytes in other encodings, and the server's engine of patterns takes its own. */
static bool plan_pattern(PathPlan *plan, JsonPathItem *item, Test *test) {
    JsonPathItem left;
    if (GetDatabaseEncoding() != PG_UTF8) return false;
    jspInitByBuffer(&left, item->base, item->content.like_regex.expr);
    test->pattern = cstring_to_text_with_len(item->content.like_regex.pattern,
                                             item->content.like_regex.patternlen);
#if PG_VERSION_NUM >= 160000
    jspConvertRegexFlags(item->content.like_regex.flags, &test->flags, NULL);
#else
    test->flags = jspConvertRegexFlags(item->content.like_regex.flags);
#endif
    return plan_source(plan, &left, &test->source);
}

static bool fill_test(PathPlan *plan, JsonPathItem *item, Test *test) {
    JsonPathItem argument;
    switch (item->type) {
        case jpiAnd:
        case jpiOr: return plan_below(plan, item, test);
        case jpiNot:
        case jpiIsUnknown:
            jspGetArg(item, &argument);
            test->left = plan_test(plan, &argument);
            return test->left != NULL;
        case jpiExists:
            jspGetArg(item, &argument);
            return plan_source(plan, &argument, &test->source);
        case jpiEqual:
        case jpiNotEqual:
        case jpiLess:
        case jpiLessOrEqual:
        case jpiGreater:
        case jpiGreaterOrEqual:
        case jpiStartsWith: return plan_sources(plan, item, test);
        case jpiLikeRegex: return plan_pattern(plan, item, test);
        default: return false;
    }
}

/* NULL where another engine is needed. */
static const Test *plan_test(PathPlan *plan, JsonPathItem *item) {
    check_stack_depth();
    CHECK_FOR_INTERRUPTS();
    Test *test = palloc0(sizeof *test);
    test->type = item->type;
    return !jspHasNext(item) && fill_test(plan, item, test) ? test : NULL;
}

const PathPlan *plan_of_path(JsonPath *path) {
    JsonPathItem item;
    PathPlan *plan = palloc0(sizeof *plan);
    plan->is_strict = !(path->header & JSONPATH_LAX);
    jspInit(&item, path);
    if (plan_source(plan, &item, &plan->source)) return plan;
    plan->test = plan_test(plan, &item);
    return plan->test ? plan : NULL;
}
