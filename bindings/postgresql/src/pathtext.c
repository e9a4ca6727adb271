/* Which paths of SQL/JSON the library follows, how long that may take, and its answers. A path is
 * left to the server's engine if the library does not read it, or may take too long. */
#include "pathtext.h"

#include "pathplan.h"

#include "miscadmin.h"

/* The stack that a path takes for each level of its brackets and signs, and of its operators. */
#define BRACKET_STACK (11 * 1024)
#define OPERATOR_STACK 1900

/* Documents mostly have no more levels than some of these, and then fewer steps. */
static const size_t flat_levels[] = {3, 6, 16};

/* The greatest bound of a call's steps, about a second: it is not cancelled while it runs. */
#define MAX_STEPS (1 << 25)

/* How far the numbers of a pattern's bound are looked for: the library reads up to `{255,255}`. */
#define BOUND_SIZE 16

/* What an array of values mostly takes beside them. */
#define FIRST_ROOM 64

/* An upper bound that depends on `@`: so many for each value at and below it, and so many once. */
typedef struct Line {
    double each, once;
} Line;

/* What an expression gives: values at and below a root, each at most `times` times, and the steps
 * that take them. They are nested if some may be below others. */
typedef struct Flow {
    Line root, steps;
    double times;
    bool is_nested;
} Flow;

/* What a walk over a path finds out, for documents of so many values and levels. */
typedef struct Study {
    double values, levels;
    bool is_left;
    int level, levels_of_path; /* how deep an item is in the path, and at most */
} Study;

static Flow flow_of(Study *study, JsonPathItem *item);
static Line steps_of_test(Study *study, JsonPathItem *item);

static Line plus(Line left, Line right) {
    return (Line){left.each + right.each, left.once + right.once};
}

static Line scaled(Line line, double times) {
    return (Line){line.each * times, line.once * times};
}

static Line product(const Study *study, Line left, Line right) {
    double each = left.each * right.each * study->values;
    return (Line){each + left.each * right.once + left.once * right.each, left.once * right.once};
}

static Line count_of(const Flow *flow) {
    return scaled(flow->root, flow->times);
}

/* Goes one level deeper into the path. */
static void enter(Study *study) {
    check_stack_depth();
    CHECK_FOR_INTERRUPTS();
    study->level++;
    study->levels_of_path = Max(study->levels_of_path, study->level);
}

/* The steps of a test on each value. All values below these together are as many as those below the
 * root, or in nested ones as often as there are levels. */
static Line steps_of_filter(const Study *study, const Flow *flow, Line test) {
    double below = flow->is_nested ? study->levels : 1;
    return scaled(count_of(flow), test.each * below + test.once);
}

static void add_filter(Study *study, JsonPathItem *item, Flow *flow) {
    JsonPathItem filter;
    jspGetArg(item, &filter);
    Line test = steps_of_test(study, &filter);
    flow->steps = plus(flow->steps, steps_of_filter(study, flow, test));
}

static void add_subscript(Study *study, JsonPathItem *item, Flow *flow) {
    Subscript index;
    if (plan_index(item, &index)) return;
    Flow inner = flow_of(study, item);
    flow->steps = plus(flow->steps, product(study, count_of(flow), inner.steps));
}

static void add_subscripts(Study *study, JsonPathItem *item, Flow *flow) {
    for (int i = 0; i < item->content.array.nelems; i++) {
        JsonPathItem from, to;
        bool has_end = jspGetArraySubscript(item, &from, &to, i);
        add_subscript(study, &from, flow);
        if (has_end) add_subscript(study, &to, flow);
    }
    flow->times *= item->content.array.nelems;
}

/* In lax mode values below others may come from an array beside them, and so twice. */
static void add_accessor(Study *study, JsonPathItem *item, Flow *flow) {
    flow->steps = plus(flow->steps, plus(scaled(count_of(flow), 2), (Line){0, 1}));
    if (flow->is_nested) flow->times *= 2;
    switch (item->type) {
        case jpiKey:
        case jpiAnyKey:
        case jpiAnyArray:
        case jpiKeyValue:
        case jpiType:
        case jpiSize:
        case jpiAbs:
        case jpiFloor:
        case jpiCeiling: break;
        case jpiAny:
            if (flow->is_nested) flow->times *= study->levels;
            flow->is_nested = true;
            break;
        case jpiIndexArray: add_subscripts(study, item, flow); break;
        case jpiFilter: add_filter(study, item, flow); break;
        default: study->is_left = true; break;
    }
}

static Flow one_value(Line steps) {
    return (Flow){.root = {0, 1}, .steps = steps, .times = 1};
}

static Flow all_values(Line root) {
    return (Flow){.root = root, .times = 1};
}

static Flow flow_of_pair(Study *study, JsonPathItem *item) {
    JsonPathItem left, right;
    jspGetLeftArg(item, &left);
    jspGetRightArg(item, &right);
    return one_value(plus(flow_of(study, &left).steps, flow_of(study, &right).steps));
}

static Flow flow_of_sign(Study *study, JsonPathItem *item) {
    JsonPathItem operand;
    jspGetArg(item, &operand);
    Flow inner = flow_of(study, &operand);
    Flow flow = all_values(scaled(count_of(&inner), 2));
    flow.steps = plus(inner.steps, flow.root);
    return flow;
}

static Flow flow_of_head(Study *study, JsonPathItem *item) {
    switch (item->type) {
        case jpiNull:
        case jpiBool:
        case jpiNumeric:
        case jpiString:
        case jpiLast: return one_value((Line){0, 1});
        case jpiRoot:
        case jpiVariable: return all_values((Line){0, study->values});
        case jpiCurrent: return all_values((Line){1, 0});
        case jpiAdd:
        case jpiSub:
        case jpiMul:
        case jpiMod: return flow_of_pair(study, item);
        case jpiPlus:
        case jpiMinus: return flow_of_sign(study, item);
        default: return one_value(steps_of_test(study, item));
    }
}

/* What an expression gives: what it begins with, and the accessors after that. */
static Flow flow_of(Study *study, JsonPathItem *first) {
    enter(study);
    JsonPathItem item = *first, next;
    Flow flow = flow_of_head(study, &item);
    while (jspGetNext(&item, &next)) {
        CHECK_FOR_INTERRUPTS();
        item = next;
        add_accessor(study, &item, &flow);
    }
    study->level--;
    return flow;
}

static Line steps_of_exists(Study *study, JsonPathItem *item) {
    JsonPathItem argument;
    jspGetArg(item, &argument);
    return flow_of(study, &argument).steps;
}

/* Each value is compared with each, and an array counts as its items too. */
static Line steps_of_comparison(Study *study, JsonPathItem *item) {
    JsonPathItem left, right;
    jspGetLeftArg(item, &left);
    jspGetRightArg(item, &right);
    Flow one = flow_of(study, &left), other = flow_of(study, &right);
    Line pairs = product(study, count_of(&one), count_of(&other));
    return plus(plus(one.steps, other.steps), scaled(pairs, 4));
}

/* The greatest number from here to the end of a bound, as 3 in `{2,3}`. */
static double bound_at(const char *pattern, int32 size) {
    double greatest = 0, number = 0;
    for (int32 i = 1; i < size && pattern[i] != '}'; i++) {
        bool is_digit = pattern[i] >= '0' && pattern[i] <= '9';
        number = is_digit ? number * 10 + (pattern[i] - '0') : 0;
        greatest = Max(greatest, number);
    }
    return greatest;
}

/* How many states a pattern has, about: those before a bound are there as often as it says. */
static double states_of(const char *pattern, int32 size) {
    double states = size;
    for (int32 i = 0; i < size; i++) {
        CHECK_FOR_INTERRUPTS();
        if (pattern[i] == '{') states *= 1 + bound_at(pattern + i, Min(size - i, BOUND_SIZE));
    }
    return states;
}

/* The library compiles the pattern in each call. Each byte of a text is met once by each state. */
static Line steps_of_pattern(Study *study, JsonPathItem *item) {
    JsonPathItem operand;
    jspInitByBuffer(&operand, item->base, item->content.like_regex.expr);
    Flow flow = flow_of(study, &operand);
    double states = states_of(item->content.like_regex.pattern,
                              item->content.like_regex.patternlen);
    Line searches = scaled(count_of(&flow), states * ENTRY_SIZE);
    return plus(flow.steps, plus(searches, (Line){0, states}));
}

static Line steps_of_both(Study *study, JsonPathItem *item) {
    JsonPathItem left, right;
    jspGetLeftArg(item, &left);
    jspGetRightArg(item, &right);
    return plus(steps_of_test(study, &left), steps_of_test(study, &right));
}

static Line steps_of_inner(Study *study, JsonPathItem *item) {
    JsonPathItem inner;
    jspGetArg(item, &inner);
    return steps_of_test(study, &inner);
}

static Line steps_of_kind(Study *study, JsonPathItem *item) {
    switch (item->type) {
        case jpiAnd:
        case jpiOr: return steps_of_both(study, item);
        case jpiNot:
        case jpiIsUnknown: return steps_of_inner(study, item);
        case jpiExists: return steps_of_exists(study, item);
        case jpiEqual:
        case jpiNotEqual:
        case jpiLess:
        case jpiLessOrEqual:
        case jpiGreater:
        case jpiGreaterOrEqual:
        case jpiStartsWith: return steps_of_comparison(study, item);
        case jpiLikeRegex: return steps_of_pattern(study, item);
        default: study->is_left = true; return (Line){0};
    }
}

static Line steps_of_test(Study *study, JsonPathItem *item) {
    enter(study);
    Line steps = steps_of_kind(study, item);
    study->level--;
    return steps;
}

/* The steps that the library takes at most in a document of so many bytes and levels. */
static double steps_in(JsonPath *path, size_t size, size_t levels, Study *study) {
    JsonPathItem item;
    *study = (Study){.values = size / ENTRY_SIZE + 1, .levels = levels};
    jspInit(&item, path);
    Flow flow = flow_of(study, &item);
    Line all = plus(flow.steps, count_of(&flow));
    return all.each * study->values + all.once;
}

static bool reads(const PathText *path) {
    check_stack_for(path->stack + KOHIBLAD_CALL_STACK);
    return kohiblad_path_fault(path->text.at, path->text.size).status == KOHIBLAD_OK;
}

PathText *text_of_path(JsonPath *path) {
    Study study;
    StringInfoData written;
    if (steps_in(path, 0, 1, &study) > MAX_STEPS || study.is_left) return NULL;
    initStringInfo(&written);
    size_t levels = write_path(&written, path);
    size_t stack = levels * BRACKET_STACK + study.levels_of_path * OPERATOR_STACK;
    PathText *text = palloc(sizeof *text);
    *text = (PathText){.path = path,
                       .text = utf8_of_server(written.data, written.len),
                       .stack = Min(stack, KOHIBLAD_PATH_STACK)};
    return reads(text) ? text : NULL;
}

static bool is_flat(Bytes document, size_t levels) {
    return kohiblad_check(document.at, document.size, levels);
}

static bool are_flat(const Question *question, size_t levels) {
    return is_flat(question->document, levels) &&
           (!question->variables.size || is_flat(question->variables, levels));
}

static bool are_few(const PathText *path, size_t size, size_t levels) {
    Study study;
    return steps_in(path->path, size, levels, &study) <= MAX_STEPS;
}

/* Whether the steps of the library are few enough, as they are in a smaller document. */
static bool is_bounded(const Question *question) {
    PathText *path = question->path;
    size_t size = question->document.size + question->variables.size;
    if (size <= path->bounded) return true;
    if (are_few(path, size, depth_of_size(size))) {
        path->bounded = size;
        return true;
    }
    for (size_t i = 0; i < lengthof(flat_levels); i++)
        if (are_few(path, size, flat_levels[i]) && are_flat(question, flat_levels[i])) return true;
    return false;
}

bool is_for_library(const Question *question) {
    return is_bounded(question);
}

static size_t depth_of_question(const Question *question) {
    size_t depth = depth_of_size(Max(question->document.size, question->variables.size));
    check_stack_for(stack_of_depth(depth) + question->path->stack);
    return depth;
}

static int code_of_error(uint32_t status) {
    switch (status) {
        case KOHIBLAD_MEMBER_NOT_FOUND: return ERRCODE_SQL_JSON_MEMBER_NOT_FOUND;
        case KOHIBLAD_OBJECT_NOT_FOUND: return ERRCODE_SQL_JSON_OBJECT_NOT_FOUND;
        case KOHIBLAD_ARRAY_NOT_FOUND: return ERRCODE_SQL_JSON_ARRAY_NOT_FOUND;
        case KOHIBLAD_INVALID_SUBSCRIPT: return ERRCODE_INVALID_SQL_JSON_SUBSCRIPT;
        case KOHIBLAD_NON_NUMERIC_ITEM: return ERRCODE_NON_NUMERIC_SQL_JSON_ITEM;
        case KOHIBLAD_SINGLETON_REQUIRED:
        case KOHIBLAD_BOOLEAN_REQUIRED: return ERRCODE_SINGLETON_SQL_JSON_ITEM_REQUIRED;
        case KOHIBLAD_NUMBER_NOT_FOUND: return ERRCODE_SQL_JSON_NUMBER_NOT_FOUND;
        case KOHIBLAD_DIVISION_BY_ZERO: return ERRCODE_DIVISION_BY_ZERO;
        case KOHIBLAD_OUT_OF_RANGE: return ERRCODE_NUMERIC_VALUE_OUT_OF_RANGE;
        case KOHIBLAD_UNDEFINED_VARIABLE: return ERRCODE_UNDEFINED_OBJECT;
        default: return 0;
    }
}

void give_up_path(uint32_t status) {
    char *detail = psprintf("%s.", kohiblad_status_reason(status));
    detail[0] = pg_toupper((unsigned char)detail[0]);
    refuse_because(status, code_of_error(status), detail);
}

/* Raises the error of a path, or of a document that is damaged. */
static void refuse_question(uint32_t status, const Question *question) {
    if (code_of_error(status)) give_up_path(status);
    bool are_whole = is_document(question->document) &&
                     (!question->variables.size || is_document(question->variables));
    refuse(status, are_whole ? ERRCODE_PROGRAM_LIMIT_EXCEEDED : ERRCODE_DATA_CORRUPTED);
}

/* Writes the array of values into new memory of so much room. */
static uint32_t write_values(const Question *question, size_t depth, bool is_silent, size_t *room,
                             struct varlena **array) {
    Bytes document = question->document, path = question->path->text;
    size_t length;
    *array = palloc(VARHDRSZ + *room);
    uint32_t status = kohiblad_path_query(document.at, document.size, path.at, path.size,
                                          question->variables.at, question->variables.size,
                                          is_silent, depth, (uint8_t *)VARDATA(*array), *room,
                                          &length);
    CHECK_FOR_INTERRUPTS();
    if (status == KOHIBLAD_OK) {
        SET_VARSIZE(*array, VARHDRSZ + length);
        return status;
    }
    pfree(*array);
    *room = length;
    return status;
}

static uint32_t values_of_library(const Question *question, size_t depth, bool is_silent,
                                  struct varlena **array) {
    size_t room = question->document.size + FIRST_ROOM;
    check_room(room);
    uint32_t status = write_values(question, depth, is_silent, &room, array);
    if (status != KOHIBLAD_NO_ROOM) return status;
    check_room(room);
    return write_values(question, depth, is_silent, &room, array);
}

struct varlena *ask_values(const Question *question, bool is_silent) {
    struct varlena *array;
    size_t depth = depth_of_question(question);
    uint32_t status = values_of_library(question, depth, is_silent, &array);
    if (status != KOHIBLAD_OK) refuse_question(status, question);
    return array;
}

/* A call of the library that answers by a truth. */
typedef struct kohiblad_truth (*TruthCall)(const uint8_t *bytes, size_t size, const uint8_t *path,
                                           size_t path_size, const uint8_t *variables,
                                           size_t variables_size, uint32_t silent, size_t depth);

static struct kohiblad_truth truth_of_library(const Question *question, TruthCall call,
                                              bool is_silent) {
    Bytes document = question->document, path = question->path->text;
    size_t depth = depth_of_question(question);
    struct kohiblad_truth truth =
        call(document.at, document.size, path.at, path.size, question->variables.at,
             question->variables.size, is_silent, depth);
    CHECK_FOR_INTERRUPTS();
    return truth;
}

static bool ask_truth(const Question *question, TruthCall call, bool is_silent, bool *is_null) {
    struct kohiblad_truth truth = truth_of_library(question, call, is_silent);
    *is_null = truth.status == KOHIBLAD_NONE;
    if (truth.status != KOHIBLAD_OK && !*is_null) refuse_question(truth.status, question);
    return truth.value;
}

bool ask_any(const Question *question, bool is_silent, bool *is_null) {
    return ask_truth(question, kohiblad_path_exists, is_silent, is_null);
}

bool ask_match(const Question *question, bool is_silent, bool *is_null) {
    return ask_truth(question, kohiblad_path_match, is_silent, is_null);
}
