/* How many steps a path of SQL/JSON takes at most. The library does not count them, and a query is
 * not interrupted while it runs. The bound is found by one walk over the text of a path, which was
 * read before, and is never too low. */
#include "extension.h"

#include <string.h>

SQLITE_EXTENSION_INIT3

/* An upper bound that depends on `@`: so many for each value at and below it, and so many once. */
struct line {
    double each, once;
};

/* What an operand gives: values at and below a root, each at most `times` times, and the steps that
 * take them. They are nested if some may be below others. */
struct flow {
    struct line root, steps;
    double times;
    bool is_nested, has_head;
};

/* What stands in brackets: operands, and what is between them. */
struct group {
    struct line steps, count; /* and how many values the last operand gives */
    bool is_nested;
    bool compares; /* the operator after the last operand compares */
    int operands, lists;
};

/* What is left of a text, for documents of so many values and levels. */
struct walk {
    const uint8_t *at, *end;
    double values, levels;
};

static struct line plus(struct line left, struct line right)
{
    return (struct line){ left.each + right.each, left.once + right.once };
}

static struct line scaled(struct line line, double times)
{
    return (struct line){ line.each * times, line.once * times };
}

static struct line product(const struct walk *walk, struct line left, struct line right)
{
    double each = left.each * right.each * walk->values;
    return (struct line){ each + left.each * right.once + left.once * right.each,
                          left.once * right.once };
}

static struct line count_of(const struct flow *flow)
{
    return scaled(flow->root, flow->times);
}

static const struct flow no_operand = { .times = 1 };

static bool is_at(const struct walk *walk, uint8_t byte)
{
    return walk->at < walk->end && *walk->at == byte;
}

static bool passes(struct walk *walk, uint8_t byte)
{
    if (!is_at(walk, byte)) return false;
    walk->at++;
    return true;
}

static void pass_until(struct walk *walk, uint8_t last)
{
    while (walk->at < walk->end && !passes(walk, last)) walk->at++;
}

static void pass_quoted(struct walk *walk)
{
    walk->at++;
    while (walk->at < walk->end && !passes(walk, '"'))
        walk->at += *walk->at == '\\' && walk->end - walk->at > 1 ? 2 : 1;
}

static bool is_white(uint8_t byte)
{
    return byte && strchr(" \t\n\r\f", byte);
}

static void pass_comment(struct walk *walk)
{
    walk->at++;
    passes(walk, '*');
    do pass_until(walk, '*');
    while (walk->at < walk->end && !passes(walk, '/'));
}

/* White space and comments. No other token has a slash, since division is not read. */
static void pass_white(struct walk *walk)
{
    while (walk->at < walk->end && (*walk->at == '/' || is_white(*walk->at))) {
        if (*walk->at == '/') pass_comment(walk);
        else walk->at++;
    }
}

static bool is_of_word(uint8_t byte)
{
    return !byte || !(is_white(byte) || strchr("!#$%&()*+,-./:<=>?@[]{|}\"", byte));
}

/* A name, in quotes or not. */
static void pass_name(struct walk *walk)
{
    if (is_at(walk, '"')) {
        pass_quoted(walk);
        return;
    }
    while (walk->at < walk->end && (is_of_word(*walk->at) || *walk->at == '\\'))
        walk->at += *walk->at == '\\' && walk->end - walk->at > 1 ? 2 : 1;
}

static bool is_word(const uint8_t *at, size_t size, const char *word)
{
    return size == strlen(word) && !sqlite3_strnicmp((const char *)at, word, (int)size);
}

/* Ends an operand before an operator. The pairs of two that are compared are counted; an array
 * counts as its items too. */
static void end_operand(const struct walk *walk, struct group *group, struct flow *flow,
                        bool compares)
{
    struct line count = count_of(flow);
    if (!flow->has_head) {
        group->compares |= compares;
        return;
    }
    group->steps = plus(group->steps, flow->steps);
    if (group->compares)
        group->steps = plus(group->steps, scaled(product(walk, group->count, count), 4));
    group->count = count;
    group->is_nested = flow->is_nested;
    group->compares = compares;
    group->operands++;
    *flow = no_operand;
}

/* In lax mode values below others may come from an array beside them, and so twice. */
static void add_step(struct flow *flow)
{
    flow->steps = plus(flow->steps, plus(scaled(count_of(flow), 2), (struct line){ 0, 1 }));
    if (flow->is_nested) flow->times *= 2;
}

static void add_root(struct flow *flow, struct line root)
{
    flow->root = plus(flow->root, root);
    flow->has_head = true;
}

static struct group group_of(struct walk *walk, uint8_t last);

/* What stands after a point: a key, a method or a wildcard. */
static void take_member(struct walk *walk, struct flow *flow)
{
    pass_white(walk);
    add_step(flow);
    if (!passes(walk, '*')) {
        pass_name(walk);
        pass_white(walk);
        if (passes(walk, '(')) group_of(walk, ')');
    } else if (passes(walk, '*')) {
        if (flow->is_nested) flow->times *= walk->levels;
        flow->is_nested = true;
        pass_white(walk);
        if (passes(walk, '{')) pass_until(walk, '}');
    }
}

/* A test is asked of each value. All values below these together are as many as those below the
 * root, or in nested ones as often as there are levels. */
static void take_filter(struct walk *walk, struct flow *flow)
{
    double below = flow->is_nested ? walk->levels : 1;
    struct group test;
    pass_white(walk);
    passes(walk, '(');
    test = group_of(walk, ')');
    add_step(flow);
    flow->steps = plus(flow->steps, scaled(count_of(flow),
                                           test.steps.each * below + test.steps.once));
}

static void take_subscripts(struct walk *walk, struct flow *flow)
{
    struct group inner = group_of(walk, ']');
    add_step(flow);
    flow->steps = plus(flow->steps, product(walk, count_of(flow), inner.steps));
    flow->times *= inner.lists + 1;
}

/* Two operands and an operator give one value. */
static void take_parentheses(struct walk *walk, struct flow *flow, bool is_test)
{
    struct group inner = group_of(walk, ')');
    bool is_one = is_test || inner.operands != 1;
    add_root(flow, is_one ? (struct line){ 0, 1 } : inner.count);
    flow->steps = plus(flow->steps, inner.steps);
    flow->is_nested |= !is_one && inner.is_nested;
}

/* A literal, or a word of the language: `exists` before its parentheses, or an operator. */
static void take_word(struct walk *walk, struct group *group, struct flow *flow)
{
    const uint8_t *word = walk->at;
    size_t size;
    pass_name(walk);
    size = (size_t)(walk->at - word);
    if (flow->has_head) {
        end_operand(walk, group, flow, is_word(word, size, "starts"));
    } else if (is_word(word, size, "exists")) {
        pass_white(walk);
        if (passes(walk, '(')) take_parentheses(walk, flow, true);
    } else if (!is_word(word, size, "with")) {
        add_root(flow, (struct line){ 0, 1 });
    }
}

static void take_operator(struct walk *walk, struct group *group, struct flow *flow)
{
    bool compares = false;
    do {
        compares |= strchr("<>=", *walk->at) != NULL;
        group->lists += *walk->at == ',';
        walk->at++;
    } while (walk->at < walk->end && *walk->at && strchr("<>=&|", *walk->at));
    end_operand(walk, group, flow, compares);
}

static void take_token(struct walk *walk, struct group *group, struct flow *flow)
{
    switch (*walk->at) {
    case '$':
        walk->at++;
        pass_name(walk);
        add_root(flow, (struct line){ 0, walk->values });
        break;
    case '@': walk->at++; add_root(flow, (struct line){ 1, 0 }); break;
    case '"': pass_quoted(walk); add_root(flow, (struct line){ 0, 1 }); break;
    case '.': walk->at++; take_member(walk, flow); break;
    case '?': walk->at++; take_filter(walk, flow); break;
    case '[': walk->at++; take_subscripts(walk, flow); break;
    case '(': walk->at++; take_parentheses(walk, flow, false); break;
    case '<': case '>': case '=': case '!': case '&': case '|': case '+': case '-': case '*':
    case '%': case ',': take_operator(walk, group, flow); break;
    default:
        if (is_of_word(*walk->at) || *walk->at == '\\') take_word(walk, group, flow);
        else walk->at++;
    }
}

/* What stands up to a closing bracket, or 0 at the end of the text. */
static struct group group_of(struct walk *walk, uint8_t last)
{
    struct group group = { 0 };
    struct flow flow = no_operand;
    for (pass_white(walk); walk->at < walk->end && !passes(walk, last); pass_white(walk))
        take_token(walk, &group, &flow);
    end_operand(walk, &group, &flow, false);
    return group;
}

double steps_of_path(struct bytes path, size_t size, size_t levels)
{
    struct walk walk = { path.at, path.at + path.size, (double)size / 4 + 1, (double)levels };
    struct group all = group_of(&walk, 0);
    struct line steps = plus(all.steps, all.count);
    return steps.each * walk.values + steps.once;
}
