/* Paths of SQL/JSON are written as texts that the library reads as the same paths. The server's own
 * text may lack the parentheses of an operator before an accessor, and has a pair of them for each
 * operator of a long sum. */
#include "pathtext.h"

#include "miscadmin.h"
#include "utils/fmgrprotos.h"
#include "utils/json.h"

/* How tight an operator binds, from the loosest on. */
enum rank { ANY, EITHER, BOTH, TEST, SUM, PRODUCT, SIGN, CHAIN };

typedef struct Writer {
    StringInfo out;
    int level, levels; /* how deep brackets and signs nest here, and at most */
} Writer;

/* The flags of a pattern, in the server's order. */
static const struct {
    uint32 flag;
    char letter;
} flags_of_patterns[] = {
    {JSP_REGEX_ICASE, 'i'}, {JSP_REGEX_DOTALL, 's'}, {JSP_REGEX_MLINE, 'm'},
    {JSP_REGEX_WSPACE, 'x'}, {JSP_REGEX_QUOTE, 'q'},
};

static void write_item(Writer *writer, JsonPathItem *first, enum rank least);

static void begin(Writer *writer, const char *mark) {
    appendStringInfoString(writer->out, mark);
    writer->level++;
    writer->levels = Max(writer->levels, writer->level);
}

static void end(Writer *writer, const char *mark) {
    appendStringInfoString(writer->out, mark);
    writer->level--;
}

static void write_string(Writer *writer, JsonPathItem *item) {
    escape_json(writer->out, jspGetString(item, NULL));
}

static void write_argument(Writer *writer, JsonPathItem *item, enum rank least) {
    JsonPathItem argument;
    jspGetArg(item, &argument);
    write_item(writer, &argument, least);
}

/* Two operands, of which the second takes parentheses where the first needs none. */
static void write_operands(Writer *writer, JsonPathItem *item, const char *operator, enum rank left,
                           enum rank right) {
    JsonPathItem argument;
    jspGetLeftArg(item, &argument);
    write_item(writer, &argument, left);
    appendStringInfo(writer->out, " %s ", operator);
    jspGetRightArg(item, &argument);
    write_item(writer, &argument, right);
}

static void write_pattern(Writer *writer, JsonPathItem *item) {
    JsonPathItem argument;
    jspInitByBuffer(&argument, item->base, item->content.like_regex.expr);
    write_item(writer, &argument, SUM);
    appendStringInfoString(writer->out, " like_regex ");
    escape_json(writer->out, item->content.like_regex.pattern);
    if (item->content.like_regex.flags == 0) return;
    appendStringInfoString(writer->out, " flag \"");
    for (size_t i = 0; i < lengthof(flags_of_patterns); i++)
        if (item->content.like_regex.flags & flags_of_patterns[i].flag)
            appendStringInfoChar(writer->out, flags_of_patterns[i].letter);
    appendStringInfoChar(writer->out, '"');
}

static void write_sign(Writer *writer, JsonPathItem *item, const char *sign) {
    begin(writer, sign);
    write_argument(writer, item, SIGN);
    end(writer, "");
}

static void write_number_of(Writer *writer, JsonPathItem *item) {
    Datum number = NumericGetDatum(jspGetNumeric(item));
    appendStringInfoString(writer->out, DatumGetCString(DirectFunctionCall1(numeric_out, number)));
}

static enum rank rank_of(const JsonPathItem *item) {
    switch (item->type) {
        case jpiOr: return EITHER;
        case jpiAnd: return BOTH;
        case jpiNot:
        case jpiIsUnknown:
        case jpiExists:
        case jpiEqual:
        case jpiNotEqual:
        case jpiLess:
        case jpiLessOrEqual:
        case jpiGreater:
        case jpiGreaterOrEqual:
        case jpiStartsWith:
        case jpiLikeRegex: return TEST;
        case jpiAdd:
        case jpiSub: return SUM;
        case jpiMul:
        case jpiDiv:
        case jpiMod: return PRODUCT;
        case jpiPlus:
        case jpiMinus: return SIGN;
        default: return CHAIN;
    }
}

/* What stands before the accessors. */
static void write_head(Writer *writer, JsonPathItem *item) {
    StringInfo out = writer->out;
    switch (item->type) {
        case jpiNull: appendStringInfoString(out, "null"); break;
        case jpiBool: appendStringInfoString(out, jspGetBool(item) ? "true" : "false"); break;
        case jpiNumeric: write_number_of(writer, item); break;
        case jpiString: write_string(writer, item); break;
        case jpiVariable:
            appendStringInfoChar(out, '$');
            write_string(writer, item);
            break;
        case jpiRoot: appendStringInfoChar(out, '$'); break;
        case jpiCurrent: appendStringInfoChar(out, '@'); break;
        case jpiLast: appendStringInfoString(out, "last"); break;
        case jpiNot:
            begin(writer, "!(");
            write_argument(writer, item, ANY);
            end(writer, ")");
            break;
        case jpiIsUnknown:
            begin(writer, "(");
            write_argument(writer, item, ANY);
            end(writer, ") is unknown");
            break;
        case jpiExists:
            begin(writer, "exists(");
            write_argument(writer, item, ANY);
            end(writer, ")");
            break;
        case jpiPlus: write_sign(writer, item, "+"); break;
        case jpiMinus: write_sign(writer, item, "-"); break;
        case jpiStartsWith: write_operands(writer, item, "starts with", SUM, SUM); break;
        case jpiLikeRegex: write_pattern(writer, item); break;
        case jpiOr: write_operands(writer, item, "||", EITHER, BOTH); break;
        case jpiAnd: write_operands(writer, item, "&&", BOTH, TEST); break;
        case jpiAdd:
        case jpiSub:
            write_operands(writer, item, jspOperationName(item->type), SUM, PRODUCT);
            break;
        case jpiMul:
        case jpiDiv:
        case jpiMod:
            write_operands(writer, item, jspOperationName(item->type), PRODUCT, SIGN);
            break;
        default: write_operands(writer, item, jspOperationName(item->type), SUM, SUM); break;
    }
}

static void write_subscripts(Writer *writer, JsonPathItem *item) {
    begin(writer, "[");
    for (int i = 0; i < item->content.array.nelems; i++) {
        CHECK_FOR_INTERRUPTS();
        JsonPathItem from, to;
        bool has_end = jspGetArraySubscript(item, &from, &to, i);
        if (i > 0) appendStringInfoChar(writer->out, ',');
        write_item(writer, &from, ANY);
        if (!has_end) continue;
        appendStringInfoString(writer->out, " to ");
        write_item(writer, &to, ANY);
    }
    end(writer, "]");
}

static void write_level(Writer *writer, const char *mark, uint32 level) {
    appendStringInfoString(writer->out, mark);
    if (level == PG_UINT32_MAX)
        appendStringInfoString(writer->out, "last");
    else
        appendStringInfo(writer->out, "%u", level);
}

static void write_accessor(Writer *writer, JsonPathItem *item) {
    StringInfo out = writer->out;
    switch (item->type) {
        case jpiKey:
            appendStringInfoChar(out, '.');
            write_string(writer, item);
            break;
        case jpiAnyKey: appendStringInfoString(out, ".*"); break;
        case jpiAnyArray: appendStringInfoString(out, "[*]"); break;
        case jpiIndexArray: write_subscripts(writer, item); break;
        case jpiAny:
            write_level(writer, ".**{", item->content.anybounds.first);
            write_level(writer, " to ", item->content.anybounds.last);
            appendStringInfoChar(out, '}');
            break;
        case jpiFilter:
            begin(writer, "?(");
            write_argument(writer, item, ANY);
            end(writer, ")");
            break;
        default: appendStringInfo(out, ".%s()", jspOperationName(item->type)); break;
    }
}

/* What an item begins with, in parentheses where it binds less tight than it has to. */
static void write_item(Writer *writer, JsonPathItem *first, enum rank least) {
    check_stack_depth();
    CHECK_FOR_INTERRUPTS();
    JsonPathItem item = *first, next;
    enum rank rank = rank_of(&item);
    bool has_steps = jspHasNext(&item);
    bool is_inside = rank < least || (has_steps && (rank < CHAIN || item.type == jpiNumeric));
    if (is_inside) begin(writer, "(");
    write_head(writer, &item);
    if (is_inside) end(writer, ")");
    while (jspGetNext(&item, &next)) {
        CHECK_FOR_INTERRUPTS();
        item = next;
        write_accessor(writer, &item);
    }
}

int write_path(StringInfo out, JsonPath *path) {
    JsonPathItem item;
    Writer writer = {.out = out};
    if (!(path->header & JSONPATH_LAX)) appendStringInfoString(out, "strict ");
    jspInit(&item, path);
    write_item(&writer, &item, ANY);
    return writer.levels;
}
