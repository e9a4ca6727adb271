/* Paths of SQL/JSON. Those that pathplan.c knows are followed in the document, and those that
 * pathtext.c knows by the library. The few others, as those with `/`, .double(), .datetime() or the
 * object of .keyvalue(), are followed by the server's own functions over a jsonb of the document:
 * what they return is read back as a document. Numbers come back digit for digit; extension values
 * are texts. */
#include "pathplan.h"
#include "pathtext.h"
#include "rows.h"

#include "funcapi.h"
#include "miscadmin.h"
#include "utils/builtins.h"
#include "utils/fmgrprotos.h"

/* The first code point that the text of a document has an escape for only if the server's encoding
 * lacks it. */
#define FIRST_PAST_ASCII 0x80

/* Whether jsonb has each character of a JSON text that this extension wrote: it has no \u0000, and
 * none that the server's encoding lacks. */
static bool has_jsonb(const char *json) {
    for (const char *at = strchr(json, '\\'); at; at = strchr(at + 2, '\\')) {
        CHECK_FOR_INTERRUPTS();
        if (at[1] != 'u') continue;
        char digits[] = {at[2], at[3], at[4], at[5], 0};
        unsigned long point = strtoul(digits, NULL, 16);
        if (point == 0 || point >= FIRST_PAST_ASCII) return false;
    }
    return true;
}

/* Operators pass over what a path cannot be followed in, and functions if their last argument says
 * so. */
static bool is_silent(FunctionCallInfo fcinfo) {
    return PG_NARGS() == 2 || PG_GETARG_BOOL(3);
}

/* What a function returns where a path finds nothing and says nothing. */
static Datum nothing(FunctionCallInfo fcinfo, PGFunction function) {
    if (function == jsonb_path_query_array || function == jsonb_path_query_array_tz)
        return DirectFunctionCall1(jsonb_in, CStringGetDatum("[]"));
    if (fcinfo->flinfo->fn_retset)
        ((ReturnSetInfo *)fcinfo->resultinfo)->isDone = ExprEndResult;
    PG_RETURN_NULL();
}

/* Puts a document among the arguments as jsonb into those of a call. False if it has no jsonb, and
 * that is to be passed over. */
static bool put_jsonb(FunctionCallInfo fcinfo, FunctionCallInfo call, int argument, bool passes) {
    Bytes document = bytes_of(PG_GETARG_VARLENA_PP(argument));
    check_document(document, ERRCODE_DATA_CORRUPTED);
    if (make_jsonb(document, &call->args[argument].value)) return true;
    char *json = text_to_cstring(compact_text(document));
    if (passes && !has_jsonb(json)) return false;
    call->args[argument].value = DirectFunctionCall1(jsonb_in, CStringGetDatum(json));
    return true;
}

/* Puts all documents: the first argument, and the variables, which are the third. */
static bool put_documents(FunctionCallInfo fcinfo, FunctionCallInfo call) {
    if (!put_jsonb(fcinfo, call, 0, is_silent(fcinfo))) return false;
    return PG_NARGS() == 2 || put_jsonb(fcinfo, call, 2, false);
}

/* Who follows a path. */
static const char BY_EXTENSION[] = "the extension";
static const char BY_LIBRARY[] = "the library";
static const char BY_SERVER[] = "the server";

/* What a call keeps for the next one, which mostly has the same path. */
typedef struct Kept {
    FmgrInfo server;       /* of the server's function, which keeps its own state in it */
    MemoryContext context; /* of the path, its plan and its text */
    JsonPath *path;
    const PathPlan *plan; /* NULL if it is not followed in the document */
    PathText *text;       /* NULL if it was not needed, or the library does not follow it */
    bool is_text_made;
    const char *follower; /* who the session was told to follow paths here */
} Kept;

static Kept *kept_of(FunctionCallInfo fcinfo) {
    FmgrInfo *info = fcinfo->flinfo;
    if (info->fn_extra) return info->fn_extra;
    Kept *kept = MemoryContextAllocZero(info->fn_mcxt, sizeof *kept);
    fmgr_info_copy(&kept->server, info, info->fn_mcxt);
    kept->context =
        AllocSetContextCreate(info->fn_mcxt, "kohiblad path", ALLOCSET_SMALL_SIZES);
    info->fn_extra = kept;
    return kept;
}

/* Tells a session that listens to messages for debugging who follows the path, once. */
static void tell_follower(Kept *kept, const char *follower) {
    if (kept->follower == follower) return;
    kept->follower = follower;
    ereport(DEBUG1, (errmsg_internal("kohiblad: %s follows the path", follower)));
}

static void keep_path(Kept *kept, const JsonPath *path) {
    kept->path = NULL;
    kept->text = NULL;
    kept->is_text_made = false;
    MemoryContextReset(kept->context);
    MemoryContext caller = MemoryContextSwitchTo(kept->context);
    JsonPath *copy = palloc(VARSIZE(path));
    memcpy(copy, path, VARSIZE(path));
    kept->plan = plan_of_path(copy);
    kept->path = copy;
    MemoryContextSwitchTo(caller);
}

/* What is kept of the path of a call. */
static Kept *kept_of_path(FunctionCallInfo fcinfo) {
    Kept *kept = kept_of(fcinfo);
    JsonPath *path = PG_GETARG_JSONPATH_P(1);
    bool is_kept = kept->path && VARSIZE(kept->path) == VARSIZE(path) &&
                   memcmp(kept->path, path, VARSIZE(path)) == 0;
    if (!is_kept) keep_path(kept, path);
    PG_FREE_IF_COPY(path, 1);
    return kept;
}

static const PathText *text_of_kept(Kept *kept) {
    if (kept->is_text_made) return kept->text;
    MemoryContext caller = MemoryContextSwitchTo(kept->context);
    kept->text = text_of_path(kept->path);
    kept->is_text_made = true;
    MemoryContextSwitchTo(caller);
    return kept->text;
}

/* Refuses variables that are not an object, as the server does. */
static void check_variables(FunctionCallInfo fcinfo) {
    if (PG_NARGS() == 2) return;
    Bytes variables = bytes_of(PG_GETARG_VARLENA_PP(2));
    if (kind_of(variables).kind == KOHIBLAD_OBJECT) return;
    ereport(ERROR, (errcode(ERRCODE_INVALID_PARAMETER_VALUE),
                    errmsg("kohiblad: the variables of a path are the members of an object")));
}

/* The plan of a call, NULL if the path is not followed in the document. */
static const PathPlan *plan_of_call(FunctionCallInfo fcinfo) {
    return kept_of_path(fcinfo)->plan;
}

/* The variables of a call; no bytes if it has none. */
static Bytes variables_of_call(FunctionCallInfo fcinfo) {
    return PG_NARGS() > 2 ? bytes_of(PG_GETARG_VARLENA_PP(2)) : (Bytes){0};
}

/* What the path of a call is followed in. */
static Asked open_asked(FunctionCallInfo fcinfo, Sliced *document) {
    Part root = open_sliced(document, PG_GETARG_RAW_VARLENA_P(0));
    tell_follower(kept_of(fcinfo), BY_EXTENSION);
    return (Asked){document, root, variables_of_call(fcinfo), is_silent(fcinfo)};
}

/* The question to the library, if that follows the path of a call. */
static bool question_of_call(FunctionCallInfo fcinfo, Question *question) {
    Kept *kept = kept_of_path(fcinfo);
    if (!text_of_kept(kept)) return false;
    *question = (Question){kept->text, bytes_of(PG_GETARG_VARLENA_PP(0)),
                           variables_of_call(fcinfo)};
    if (!is_for_library(question)) return false;
    tell_follower(kept, BY_LIBRARY);
    return true;
}

/* Calls a function of the server with the same arguments, but with documents as jsonb. A set takes
 * them in its first call alone. */
static Datum call_with_jsonb(FunctionCallInfo fcinfo, PGFunction function) {
    Kept *kept = kept_of(fcinfo);
    FmgrInfo *server = &kept->server;
    tell_follower(kept, BY_SERVER);
    LOCAL_FCINFO(call, 4);
    InitFunctionCallInfoData(*call, server, PG_NARGS(), PG_GET_COLLATION(), fcinfo->context,
                             fcinfo->resultinfo);
    for (int i = 0; i < PG_NARGS(); i++) call->args[i] = fcinfo->args[i];
    bool is_first = !server->fn_retset || !server->fn_extra;
    if (is_first && !put_documents(fcinfo, call)) return nothing(fcinfo, function);
    Datum result = function(call);
    fcinfo->isnull = call->isnull;
    return result;
}

static Datum document_of_jsonb(Datum jsonb) {
    char *json = DatumGetCString(DirectFunctionCall1(jsonb_out, jsonb));
    return PointerGetDatum(document_of_json(utf8_of_server(json, strlen(json))));
}

static Datum call_for_document(FunctionCallInfo fcinfo, PGFunction function) {
    Datum result = call_with_jsonb(fcinfo, function);
    ReturnSetInfo *set = (ReturnSetInfo *)fcinfo->resultinfo;
    bool is_done = fcinfo->flinfo->fn_retset && set->isDone == ExprEndResult;
    return is_done || fcinfo->isnull ? result : document_of_jsonb(result);
}

static bool walk_finds_any(FunctionCallInfo fcinfo, bool *is_null, bool *answer) {
    const PathPlan *plan = plan_of_call(fcinfo);
    if (!plan) return false;
    Sliced document;
    Asked asked = open_asked(fcinfo, &document);
    bool is_found = find_any(plan, &asked, is_null, answer);
    close_sliced(&document);
    return is_found;
}

static bool library_finds_any(FunctionCallInfo fcinfo, bool *is_null, bool *answer) {
    Question question;
    if (!question_of_call(fcinfo, &question)) return false;
    *answer = ask_any(&question, is_silent(fcinfo), is_null);
    return true;
}

static Datum answer_exists(FunctionCallInfo fcinfo, PGFunction function) {
    bool answer, is_null;
    check_variables(fcinfo);
    if (!walk_finds_any(fcinfo, &is_null, &answer) &&
        !library_finds_any(fcinfo, &is_null, &answer))
        return call_with_jsonb(fcinfo, function);
    if (is_null) PG_RETURN_NULL();
    PG_RETURN_BOOL(answer);
}

static bool walk_finds_truth(FunctionCallInfo fcinfo, bool *is_null, bool *answer) {
    const PathPlan *plan = plan_of_call(fcinfo);
    if (!plan) return false;
    Sliced document;
    Asked asked = open_asked(fcinfo, &document);
    bool is_found = find_truth(plan, &asked, is_null, answer);
    close_sliced(&document);
    return is_found;
}

static bool library_finds_truth(FunctionCallInfo fcinfo, bool *is_null, bool *answer) {
    Question question;
    if (!question_of_call(fcinfo, &question)) return false;
    *answer = ask_match(&question, is_silent(fcinfo), is_null);
    return true;
}

static Datum answer_match(FunctionCallInfo fcinfo, PGFunction function) {
    bool answer, is_null;
    check_variables(fcinfo);
    if (!walk_finds_truth(fcinfo, &is_null, &answer) &&
        !library_finds_truth(fcinfo, &is_null, &answer))
        return call_with_jsonb(fcinfo, function);
    if (is_null) PG_RETURN_NULL();
    PG_RETURN_BOOL(answer);
}

static bool walk_finds_all(FunctionCallInfo fcinfo, Parts *values) {
    const PathPlan *plan = plan_of_call(fcinfo);
    if (!plan) return false;
    /* The values are in the document, which lasts as long as the call's memory. */
    Sliced document;
    Asked asked = open_asked(fcinfo, &document);
    return find_values(plan, &asked, values);
}

/* The items of an array that the library wrote. */
static void take_items(const struct varlena *array, Parts *values) {
    Bytes items = bytes_of(array);
    struct kohiblad_cursor cursor;
    struct kohiblad_place key, place;
    *values = (Parts){.room = kind_of(items).count};
    values->at = MemoryContextAllocHuge(CurrentMemoryContext,
                                        (values->room + 1) * sizeof *values->at);
    uint32_t status = kohiblad_begin(items.at, items.size, &cursor);
    while (status == KOHIBLAD_OK && values->count < values->room) {
        CHECK_FOR_INTERRUPTS();
        status = kohiblad_next(items.at, items.size, &cursor, &key, &place);
        if (status == KOHIBLAD_OK) values->at[values->count++] = part_at(items, place);
    }
    if (status != KOHIBLAD_OK) refuse(status, ERRCODE_INTERNAL_ERROR);
}

static bool values_of_call(FunctionCallInfo fcinfo, Parts *values) {
    Question question;
    check_variables(fcinfo);
    if (walk_finds_all(fcinfo, values)) return true;
    if (!question_of_call(fcinfo, &question)) return false;
    take_items(ask_values(&question, is_silent(fcinfo)), values);
    return true;
}

static Datum answer_first(FunctionCallInfo fcinfo, PGFunction function) {
    Parts values;
    if (!values_of_call(fcinfo, &values)) return call_for_document(fcinfo, function);
    if (values.count == 0) PG_RETURN_NULL();
    PG_RETURN_POINTER(document_of_part(values.at[0]));
}

static struct varlena *array_of_parts(const Parts *values) {
    Rows *rows = new_rows();
    for (size_t i = 0; i < values->count; i++) {
        CHECK_FOR_INTERRUPTS();
        add_part(rows, values->at[i]);
    }
    return array_of_rows(rows);
}

static Datum answer_array(FunctionCallInfo fcinfo, PGFunction function) {
    Parts values;
    Question question;
    check_variables(fcinfo);
    if (walk_finds_all(fcinfo, &values)) PG_RETURN_POINTER(array_of_parts(&values));
    if (question_of_call(fcinfo, &question))
        PG_RETURN_POINTER(ask_values(&question, is_silent(fcinfo)));
    return call_for_document(fcinfo, function);
}

/* Whether the caller takes a set as a whole, and the server's function has not begun one. */
static bool may_put_rows(FunctionCallInfo fcinfo) {
    ReturnSetInfo *set = (ReturnSetInfo *)fcinfo->resultinfo;
    return set && IsA(set, ReturnSetInfo) && (set->allowedModes & SFRM_Materialize) &&
           !kept_of(fcinfo)->server.fn_extra;
}

static Datum answer_rows(FunctionCallInfo fcinfo, PGFunction function) {
    Parts values;
    if (!may_put_rows(fcinfo) || !values_of_call(fcinfo, &values))
        return call_for_document(fcinfo, function);
    InitMaterializedSRF(fcinfo, MAT_SRF_USE_EXPECTED_DESC | MAT_SRF_BLESS);
    ReturnSetInfo *set = (ReturnSetInfo *)fcinfo->resultinfo;
    for (size_t i = 0; i < values.count; i++) {
        CHECK_FOR_INTERRUPTS();
        bool is_null = false;
        Datum value = PointerGetDatum(document_of_part(values.at[i]));
        tuplestore_putvalues(set->setResult, set->setDesc, &value, &is_null);
        pfree(DatumGetPointer(value));
    }
    return (Datum)0;
}

#define PATH_FUNCTION(name, answer, function)       \
    PG_FUNCTION_INFO_V1(name);                      \
    Datum name(PG_FUNCTION_ARGS) {                  \
        return answer(fcinfo, function);            \
    }

PATH_FUNCTION(pg_kohiblad_path_exists, answer_exists, jsonb_path_exists)
PATH_FUNCTION(pg_kohiblad_path_exists_tz, answer_exists, jsonb_path_exists_tz)
PATH_FUNCTION(pg_kohiblad_path_exists_opr, answer_exists, jsonb_path_exists_opr)
PATH_FUNCTION(pg_kohiblad_path_match, answer_match, jsonb_path_match)
PATH_FUNCTION(pg_kohiblad_path_match_tz, answer_match, jsonb_path_match_tz)
PATH_FUNCTION(pg_kohiblad_path_match_opr, answer_match, jsonb_path_match_opr)
PATH_FUNCTION(pg_kohiblad_path_query, answer_rows, jsonb_path_query)
PATH_FUNCTION(pg_kohiblad_path_query_tz, answer_rows, jsonb_path_query_tz)
PATH_FUNCTION(pg_kohiblad_path_query_array, answer_array, jsonb_path_query_array)
PATH_FUNCTION(pg_kohiblad_path_query_array_tz, answer_array, jsonb_path_query_array_tz)
PATH_FUNCTION(pg_kohiblad_path_query_first, answer_first, jsonb_path_query_first)
PATH_FUNCTION(pg_kohiblad_path_query_first_tz, answer_first, jsonb_path_query_first_tz)
