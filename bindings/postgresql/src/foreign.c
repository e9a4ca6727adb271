/* How ?, ?| and ?& come to other servers, and to the indexes there.
 *
 * Their keys are texts, and a text has a collation, so postgres_fdw does not send them. So on a
 * foreign table the planner turns them into kohiblad_has, _has_any and _has_all, whose keys are a
 * document. On any other table it turns these into the operators, which have indexes and
 * statistics: so the server that is asked finds its index. How many rows of a foreign table such a
 * function finds is what the operator would find. */
#include "at.h"

#include "catalog/pg_class.h"
#include "catalog/pg_collation.h"
#include "catalog/pg_operator.h"
#include "catalog/pg_proc.h"
#include "catalog/pg_type.h"
#include "mb/pg_wchar.h"
#include "miscadmin.h"
#include "nodes/makefuncs.h"
#include "nodes/nodeFuncs.h"
#include "nodes/pathnodes.h"
#include "nodes/supportnodes.h"
#include "optimizer/plancat.h"
#include "parser/parsetree.h"
#include "utils/array.h"
#include "utils/builtins.h"
#include "utils/lsyscache.h"
#include "utils/syscache.h"

/* A function of an operator whose keys are texts, the operator, and the function of a document. */
static const struct {
    const char *of_texts, *operator, *of_document;
    Oid type;
} forms[] = {
    {"kohiblad_exists", "?", "kohiblad_has", TEXTOID},
    {"kohiblad_exists_any", "?|", "kohiblad_has_any", TEXTARRAYOID},
    {"kohiblad_exists_all", "?&", "kohiblad_has_all", TEXTARRAYOID},
};

/* Whether an expression has a column of a foreign table. */
static bool has_foreign_column(Node *node, void *root) {
    if (!node) return false;
    if (IsA(node, Var)) {
        const Var *column = (const Var *)node;
        if (column->varlevelsup > 0 || IS_SPECIAL_VARNO(column->varno)) return false;
        const RangeTblEntry *table = planner_rt_fetch(column->varno, (PlannerInfo *)root);
        return table->rtekind == RTE_RELATION && table->relkind == RELKIND_FOREIGN_TABLE;
    }
    return expression_tree_walker(node, has_foreign_column, root);
}

static int form_of(const char *name) {
    for (size_t i = 0; i < lengthof(forms); i++)
        if (strcmp(name, forms[i].of_texts) == 0 || strcmp(name, forms[i].of_document) == 0)
            return i;
    return -1;
}

/* The call of the function that takes a document, or NULL. */
static Node *call_of_document(const FuncExpr *call, int form) {
    Oid type = exprType(linitial(call->args)), arguments[] = {type, type};
    struct varlena *keys = document_of_constant(lsecond(call->args));
    if (!keys) return NULL;
    Oid function = GetSysCacheOid3(PROCNAMEARGSNSP, Anum_pg_proc_oid,
                                   CStringGetDatum(forms[form].of_document),
                                   PointerGetDatum(buildoidvector(arguments, 2)),
                                   ObjectIdGetDatum(get_func_namespace(call->funcid)));
    if (!OidIsValid(function)) return NULL;
    Const *constant = makeConst(type, -1, InvalidOid, -1, PointerGetDatum(keys), false, false);
    return (Node *)makeFuncExpr(function, BOOLOID, list_make2(linitial(call->args), constant),
                                InvalidOid, InvalidOid, COERCE_EXPLICIT_CALL);
}

/* Whether a text of a document is one of this server too. */
static bool is_plain(Part part) {
    return part.type == KOHIBLAD_TYPE_STRING && GetDatabaseEncoding() == PG_UTF8 &&
           !memchr(part.payload.at, 0, part.payload.size);
}

/* The array of texts of a document, or NULL if it is not one. */
static ArrayType *texts_of_array(Bytes array) {
    struct kohiblad_cursor cursor;
    struct kohiblad_place place;
    size_t count = 0;
    Datum *texts = palloc(Max(kind_of(array).count, 1) * sizeof *texts);
    uint32_t status = kohiblad_begin(array.at, array.size, &cursor);
    while (status == KOHIBLAD_OK) {
        CHECK_FOR_INTERRUPTS();
        status = kohiblad_next(array.at, array.size, &cursor, NULL, &place);
        if (status != KOHIBLAD_OK) break;
        Part item = part_at(array, place);
        if (!is_plain(item)) return NULL;
        texts[count++] = PointerGetDatum(text_of_utf8(item.payload));
    }
    if (status != KOHIBLAD_NONE) return NULL;
    return construct_array(texts, count, TEXTOID, -1, false, TYPALIGN_INT);
}

/* The constant text or array of texts of a document, or NULL. */
static Const *constant_of_document(const Node *argument, Oid type) {
    const Const *constant = (const Const *)argument;
    void *made = NULL;
    if (!IsA(argument, Const) || constant->constisnull) return NULL;
    Bytes keys = bytes_of((struct varlena *)PG_DETOAST_DATUM_PACKED(constant->constvalue));
    Part part = part_of_document(keys);
    if (type == TEXTARRAYOID && is_array_part(part)) made = texts_of_array(keys);
    if (type == TEXTOID && is_plain(part)) made = text_of_utf8(part.payload);
    if (!made) return NULL;
    return makeConst(type, -1, DEFAULT_COLLATION_OID, -1, PointerGetDatum(made), false, false);
}

/* The operator that does the same as a function of a document, or NULL. */
static OpExpr *operator_of_texts(Oid function, List *arguments, int form) {
    Oid type = exprType(linitial(arguments));
    Const *keys = constant_of_document(lsecond(arguments), forms[form].type);
    if (!keys) return NULL;
    Oid operator = GetSysCacheOid4(OPERNAMENSP, Anum_pg_operator_oid,
                                   CStringGetDatum(forms[form].operator), ObjectIdGetDatum(type),
                                   ObjectIdGetDatum(forms[form].type),
                                   ObjectIdGetDatum(get_func_namespace(function)));
    if (!OidIsValid(operator)) return NULL;
    OpExpr *condition =
        (OpExpr *)make_opclause(operator, BOOLOID, false, linitial(arguments), (Expr *)keys,
                                InvalidOid, DEFAULT_COLLATION_OID);
    set_opfuncid(condition);
    return condition;
}

/* The other form of a call, if it is the one that the tables in it want. */
static Node *other_form(PlannerInfo *root, const FuncExpr *call) {
    const char *name = get_func_name(call->funcid);
    int form = name ? form_of(name) : -1;
    if (form < 0) return NULL;
    bool is_foreign = root && has_foreign_column((Node *)call->args, root);
    bool is_of_document = strcmp(name, forms[form].of_document) == 0;
    if (is_foreign == is_of_document) return NULL;
    return is_of_document ? (Node *)operator_of_texts(call->funcid, call->args, form)
                          : call_of_document(call, form);
}

/* Puts in the share of the rows that a function of a document finds; whether that is known. */
static bool estimate_share(SupportRequestSelectivity *request) {
    const char *name = get_func_name(request->funcid);
    int form = name ? form_of(name) : -1;
    if (form < 0 || request->is_join || strcmp(name, forms[form].of_document) != 0) return false;
    const OpExpr *condition = operator_of_texts(request->funcid, request->args, form);
    if (!condition) return false;
    request->selectivity =
        restriction_selectivity(request->root, condition->opno, condition->args,
                                condition->inputcollid, request->varRelid);
    return true;
}

PG_FUNCTION_INFO_V1(pg_kohiblad_has_support);
Datum pg_kohiblad_has_support(PG_FUNCTION_ARGS) {
    Node *request = (Node *)PG_GETARG_POINTER(0);
    if (IsA(request, SupportRequestSelectivity))
        PG_RETURN_POINTER(estimate_share((SupportRequestSelectivity *)request) ? request : NULL);
    if (!IsA(request, SupportRequestSimplify)) PG_RETURN_POINTER(NULL);
    const SupportRequestSimplify *simplify = (const SupportRequestSimplify *)request;
    PG_RETURN_POINTER(other_form(simplify->root, simplify->fcall));
}
