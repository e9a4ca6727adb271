/* How many rows <, <=, > and >= find, by the statistics of the table.
 *
 * The server's estimators for these know in which bucket of a histogram a value is, but only of its
 * own types where in the bucket: for others they say the middle, so that a range within a bucket
 * has no rows. Nor can another estimator be put beside theirs: by it the server tells which two
 * conditions are the ends of one range, whose estimates are not independent. So both are done here:
 * what the server says is moved to the place in the bucket, and the upper end of a range finds its
 * lower end among the conditions beside it. Its estimate then is of the rows that the lower one
 * leaves, so that the product of both is that of the range. */
#include "scale.h"

#include "access/htup_details.h"
#include "access/stratnum.h"
#include "catalog/pg_statistic.h"
#include "miscadmin.h"
#include "nodes/nodeFuncs.h"
#include "nodes/pathnodes.h"
#include "optimizer/optimizer.h"
#include "utils/lsyscache.h"
#include "utils/selfuncs.h"
#include "utils/typcache.h"

/* What the server takes for a range that has no rows. */
#define LEAST_RANGE 1.0e-10

/* A difference of estimates that is below it is no rounding: one of them is a guess. */
#define LEAST_DIFFERENCE -0.01

/* Among more conditions no ends of ranges are looked for, which takes the square of their number. */
#define MOST_CONDITIONS 64

/* What an estimator is asked, by a condition on one table or on two. */
typedef struct Question {
    PlannerInfo *root;
    int relation;               /* the only table whose columns vary, or 0 */
    SpecialJoinInfo *join_info; /* NULL if the condition is on one table */
} Question;

/* A condition `small < big` or `small <= big`. */
typedef struct Inequality {
    Oid operator;
    List *arguments;
    Node *small, *big;
} Inequality;

static StrategyNumber strategy_of(Oid operator) {
    Oid left, right;
    op_input_types(operator, &left, &right);
    TypeCacheEntry *type = lookup_type_cache(left, TYPECACHE_BTREE_OPFAMILY);
    return OidIsValid(type->btree_opf) ? get_op_opfamily_strategy(operator, type->btree_opf) : 0;
}

static bool is_greater(StrategyNumber strategy) {
    return strategy == BTGreaterStrategyNumber || strategy == BTGreaterEqualStrategyNumber;
}

static bool has_equal(StrategyNumber strategy) {
    return strategy == BTLessEqualStrategyNumber || strategy == BTGreaterEqualStrategyNumber;
}

static Bytes document_of_datum(Datum value) {
    return bytes_of((struct varlena *)PG_DETOAST_DATUM_PACKED(value));
}

/* The first of the sorted bounds that is not below a value, as the server searches it. */
static int bound_above(const AttStatsSlot *slot, FmgrInfo *compare, bool is_greater, Datum value) {
    int first = 0, last = slot->nvalues;
    while (first < last) {
        int middle = (first + last) / 2;
        bool holds = DatumGetBool(
            FunctionCall2Coll(compare, InvalidOid, slot->values[middle], value));
        if (holds != is_greater)
            first = middle + 1;
        else
            last = middle;
    }
    return first;
}

/* An estimate that took a value for the middle of its bucket, with its place there. */
static double with_place(double estimate, VariableStatData *variable, FmgrInfo *compare,
                         bool is_greater, Datum value) {
    AttStatsSlot slot;
    if (!statistic_proc_security_check(variable, compare->fn_oid) ||
        !get_attstatsslot(&slot, variable->statsTuple, STATISTIC_KIND_HISTOGRAM, InvalidOid,
                          ATTSTATSSLOT_VALUES))
        return estimate;
    int above = bound_above(&slot, compare, is_greater, value);
    if (0 < above && above < slot.nvalues) {
        double place = place_between(document_of_datum(slot.values[above - 1]),
                                     document_of_datum(value),
                                     document_of_datum(slot.values[above]));
        double moved = (place - 0.5) / (slot.nvalues - 1);
        estimate += is_greater ? -moved : moved;
    }
    free_attstatsslot(&slot);
    CLAMP_PROBABILITY(estimate);
    return estimate;
}

/* The share of all rows whose value is so to this one. */
static double share_at(PlannerInfo *root, VariableStatData *variable, Oid operator, Datum value) {
    if (!HeapTupleIsValid(variable->statsTuple)) return DEFAULT_INEQ_SEL;
    FmgrInfo compare;
    StrategyNumber strategy = strategy_of(operator);
    fmgr_info(get_opcode(operator), &compare);
    double common;
    double of_common = mcv_selectivity(variable, &compare, InvalidOid, value, true, &common);
    double of_others = ineq_histogram_selectivity(root, variable, operator, &compare,
                                                  is_greater(strategy), has_equal(strategy),
                                                  InvalidOid, value, variable->vartype);
    of_others = of_others < 0 ? 0.5
                              : with_place(of_others, variable, &compare, is_greater(strategy),
                                           value);
    double nulls = ((Form_pg_statistic)GETSTRUCT(variable->statsTuple))->stanullfrac;
    double share = of_common + of_others * (1 - nulls - common);
    CLAMP_PROBABILITY(share);
    return share;
}

/* The most common values, each with its share of the rows. */
static double share_at_common(PlannerInfo *root, VariableStatData *variable, Oid operator,
                             VariableStatData *other, double *common) {
    AttStatsSlot slot;
    double share = 0;
    *common = 0;
    if (!get_attstatsslot(&slot, other->statsTuple, STATISTIC_KIND_MCV, InvalidOid,
                          ATTSTATSSLOT_VALUES | ATTSTATSSLOT_NUMBERS))
        return 0;
    for (int i = 0; i < slot.nvalues; i++) {
        CHECK_FOR_INTERRUPTS();
        *common += slot.numbers[i];
        share += slot.numbers[i] * share_at(root, variable, operator, slot.values[i]);
    }
    free_attstatsslot(&slot);
    return share;
}

/* The mean over the bounds of a histogram, of which the first and the last count half. */
static double share_at_bounds(PlannerInfo *root, VariableStatData *variable, Oid operator,
                             VariableStatData *other) {
    AttStatsSlot slot;
    double sum = 0;
    if (!get_attstatsslot(&slot, other->statsTuple, STATISTIC_KIND_HISTOGRAM, InvalidOid,
                          ATTSTATSSLOT_VALUES))
        return DEFAULT_INEQ_SEL;
    for (int i = 0; i < slot.nvalues; i++) {
        CHECK_FOR_INTERRUPTS();
        double weight = i == 0 || i == slot.nvalues - 1 ? 0.5 : 1;
        sum += weight * share_at(root, variable, operator, slot.values[i]);
    }
    double share = slot.nvalues > 1 ? sum / (slot.nvalues - 1) : DEFAULT_INEQ_SEL;
    free_attstatsslot(&slot);
    return share;
}

/* The share of all pairs of rows whose values are so to each other. */
static double share_of_pairs(PlannerInfo *root, VariableStatData *variable, Oid operator,
                            VariableStatData *other) {
    if (!HeapTupleIsValid(variable->statsTuple) || !HeapTupleIsValid(other->statsTuple) ||
        !statistic_proc_security_check(other, get_opcode(operator)))
        return DEFAULT_INEQ_SEL;
    double nulls = ((Form_pg_statistic)GETSTRUCT(other->statsTuple))->stanullfrac, common;
    double share = share_at_common(root, variable, operator, other, &common);
    double others = 1 - nulls - common;
    if (others > 0) share += others * share_at_bounds(root, variable, operator, other);
    CLAMP_PROBABILITY(share);
    return share;
}

/* What is not constant may be a column of another table. */
static double share_beside(PlannerInfo *root, VariableStatData *variable, Oid operator,
                          Node *other) {
    if (IsA(other, Const)) {
        const Const *constant = (const Const *)other;
        return constant->constisnull ? 0 : share_at(root, variable, operator, constant->constvalue);
    }
    VariableStatData column;
    examine_variable(root, other, 0, &column);
    double share = share_of_pairs(root, variable, operator, &column);
    ReleaseVariableStats(column);
    return share;
}

static double share_of_table(const Question *question, const Inequality *condition) {
    VariableStatData variable;
    Node *other;
    bool is_left;
    if (!get_restriction_variable(question->root, condition->arguments, question->relation,
                                  &variable, &other, &is_left))
        return DEFAULT_INEQ_SEL;
    Oid operator = is_left ? condition->operator : get_commutator(condition->operator);
    double share = OidIsValid(operator) ? share_beside(question->root, &variable, operator, other)
                                       : DEFAULT_INEQ_SEL;
    ReleaseVariableStats(variable);
    return share;
}

static double share_of_join(const Question *question, const Inequality *condition) {
    VariableStatData left, right;
    bool is_reversed;
    get_join_variables(question->root, condition->arguments, question->join_info, &left, &right,
                       &is_reversed);
    double share = share_of_pairs(question->root, &left, condition->operator, &right);
    ReleaseVariableStats(left);
    ReleaseVariableStats(right);
    return share;
}

static double share_of_condition(const Question *question, const Inequality *condition) {
    return (question->join_info ? share_of_join : share_of_table)(question, condition);
}

static bool read_inequality(Oid operator, List *arguments, Inequality *condition) {
    StrategyNumber strategy = list_length(arguments) == 2 ? strategy_of(operator) : 0;
    if (strategy == 0 || strategy == BTEqualStrategyNumber) return false;
    bool is_reversed = is_greater(strategy);
    *condition = (Inequality){operator, arguments, list_nth(arguments, is_reversed),
                              list_nth(arguments, !is_reversed)};
    return true;
}

static Node *clause_of(Node *node) {
    if (!IsA(node, RestrictInfo)) return node;
    const RestrictInfo *info = (const RestrictInfo *)node;
    return (Node *)(info->orclause ? info->orclause : info->clause);
}

/* The conditions that are joined by AND to the one with these arguments, and with it; NIL if it is
 * not found. */
static List *conditions_around(List *conditions, const List *arguments) {
    ListCell *cell;
    check_stack_depth();
    foreach (cell, conditions) {
        CHECK_FOR_INTERRUPTS();
        Node *clause = clause_of(lfirst(cell));
        if (is_opclause(clause) && ((const OpExpr *)clause)->args == arguments) return conditions;
        if (!is_orclause(clause) && !is_andclause(clause)) continue;
        List *parts = ((const BoolExpr *)clause)->args;
        List *found = conditions_around(parts, arguments);
        /* Those that are joined by OR are not around one another. */
        if (found != NIL && !(is_orclause(clause) && found == parts)) return found;
    }
    return NIL;
}

/* The same for a condition in a query, wherever it is known of a table. */
static List *conditions_beside(PlannerInfo *root, const Inequality *condition) {
    Relids tables = pull_varnos(root, (Node *)condition->arguments);
    List *found = NIL;
    for (int table = -1; found == NIL && (table = bms_next_member(tables, table)) >= 0;) {
        RelOptInfo *relation =
            table < root->simple_rel_array_size ? root->simple_rel_array[table] : NULL;
        if (!relation) continue;
        found = conditions_around(relation->baserestrictinfo, condition->arguments);
        if (found == NIL) found = conditions_around(relation->joininfo, condition->arguments);
    }
    bms_free(tables);
    return found;
}

static bool varies(PlannerInfo *root, Node *expression) {
    Relids tables = pull_varnos(root, expression);
    bool result = !bms_is_empty(tables);
    bms_free(tables);
    return result;
}

/* One end of ranges of an expression, in conditions on the same tables. */
typedef struct End {
    Node *expression;
    Relids tables;
    bool is_upper;
} End;

/* Reads a condition that is on this end. */
static bool read_end(PlannerInfo *root, const End *end, Node *node, Inequality *condition) {
    const OpExpr *clause = (const OpExpr *)clause_of(node);
    if (!is_opclause(clause) || !read_inequality(clause->opno, clause->args, condition) ||
        !equal(end->is_upper ? condition->small : condition->big, end->expression))
        return false;
    Relids tables = pull_varnos(root, (Node *)condition->arguments);
    bool is_same = bms_equal(tables, end->tables);
    bms_free(tables);
    return is_same;
}

/* Whether another condition on the same end leaves fewer rows, or as few and comes first. */
static bool is_implied(const Question *question, List *conditions, const List *arguments,
                       double share, const End *end) {
    ListCell *cell;
    bool comes_first = true;
    if (!varies(question->root, end->expression)) return false;
    foreach (cell, conditions) {
        CHECK_FOR_INTERRUPTS();
        Inequality other;
        if (!read_end(question->root, end, lfirst(cell), &other)) continue;
        if (other.arguments == arguments) {
            comes_first = false;
            continue;
        }
        double of_other = share_of_condition(question, &other);
        if (of_other < share || (of_other == share && comes_first)) return true;
    }
    return false;
}

/* The least share that a condition on an end leaves; false if there is none. */
static bool find_least(const Question *question, List *conditions, const End *end,
                       double *share) {
    ListCell *cell;
    bool is_found = false;
    if (!varies(question->root, end->expression)) return false;
    foreach (cell, conditions) {
        CHECK_FOR_INTERRUPTS();
        Inequality condition;
        if (!read_end(question->root, end, lfirst(cell), &condition)) continue;
        double of_condition = share_of_condition(question, &condition);
        *share = is_found ? Min(*share, of_condition) : of_condition;
        is_found = true;
    }
    return is_found;
}

/* The share of the rows in a range, by those of its ends, as the server has it. */
static double share_of_range(const Question *question, Node *expression, double lower,
                             double upper) {
    if (lower == DEFAULT_INEQ_SEL || upper == DEFAULT_INEQ_SEL) return DEFAULT_RANGE_INEQ_SEL;
    double nulls = nulltestsel(question->root, IS_NULL, expression, question->relation, JOIN_INNER,
                               question->join_info);
    double share = lower + upper + nulls - 1;
    if (share > 0) return share;
    return share < LEAST_DIFFERENCE ? DEFAULT_RANGE_INEQ_SEL : LEAST_RANGE;
}

/* The share of the rows that a condition leaves, of those that the ones beside it leave which are
 * ends of the same range. */
static double share_beside_others(const Question *question, const Inequality *condition) {
    double share = share_of_condition(question, condition), of_lower;
    List *conditions = conditions_beside(question->root, condition);
    if (list_length(conditions) < 2 || list_length(conditions) > MOST_CONDITIONS) return share;
    Relids tables = pull_varnos(question->root, (Node *)condition->arguments);
    End upper = {condition->small, tables, true}, lower = {condition->big, tables, false};
    End lower_of_same = {condition->small, tables, false};
    if (is_implied(question, conditions, condition->arguments, share, &upper) ||
        is_implied(question, conditions, condition->arguments, share, &lower))
        return 1;
    if (find_least(question, conditions, &lower_of_same, &of_lower) && of_lower > 0)
        share = share_of_range(question, condition->small, of_lower, share) / of_lower;
    CLAMP_PROBABILITY(share);
    return share;
}

static double estimate(const Question *question, Oid operator, List *arguments) {
    Inequality condition;
    if (!read_inequality(operator, arguments, &condition)) return DEFAULT_INEQ_SEL;
    return share_beside_others(question, &condition);
}

PG_FUNCTION_INFO_V1(pg_kohiblad_rangesel);
Datum pg_kohiblad_rangesel(PG_FUNCTION_ARGS) {
    Question question = {.root = (PlannerInfo *)PG_GETARG_POINTER(0),
                         .relation = PG_GETARG_INT32(3)};
    PG_RETURN_FLOAT8(estimate(&question, PG_GETARG_OID(1), (List *)PG_GETARG_POINTER(2)));
}

PG_FUNCTION_INFO_V1(pg_kohiblad_rangejoinsel);
Datum pg_kohiblad_rangejoinsel(PG_FUNCTION_ARGS) {
    JoinType type = (JoinType)PG_GETARG_INT16(3);
    Question question = {.root = (PlannerInfo *)PG_GETARG_POINTER(0),
                         .join_info = (SpecialJoinInfo *)PG_GETARG_POINTER(4)};
    /* Whether a row has a partner at all is another question. */
    if (type == JOIN_SEMI || type == JOIN_ANTI) PG_RETURN_FLOAT8(DEFAULT_INEQ_SEL);
    PG_RETURN_FLOAT8(estimate(&question, PG_GETARG_OID(1), (List *)PG_GETARG_POINTER(2)));
}
