/* What kohiblad_compat has beside the functions of kohiblad: functions of jsonb that take a text.
 * Only a call knows the columns of its records, so these cannot be in SQL. */
#include "document.h"

#include "utils/builtins.h"
#include "utils/fmgrprotos.h"

/* Calls a function of the server with the same arguments, but with the last, a text, as jsonb. */
static Datum call_with_text(FunctionCallInfo fcinfo, PGFunction function) {
    LOCAL_FCINFO(call, 2);
    InitFunctionCallInfoData(*call, fcinfo->flinfo, PG_NARGS(), PG_GET_COLLATION(),
                             fcinfo->context, fcinfo->resultinfo);
    int last = PG_NARGS() - 1;
    for (int i = 0; i <= last; i++) call->args[i] = fcinfo->args[i];
    if (!PG_ARGISNULL(last)) {
        char *json = text_to_cstring(PG_GETARG_TEXT_PP(last));
        call->args[last].value = DirectFunctionCall1(jsonb_in, CStringGetDatum(json));
    }
    Datum result = function(call);
    fcinfo->isnull = call->isnull;
    return result;
}

#define BY_TEXT(name, function)                     \
    PG_FUNCTION_INFO_V1(name);                      \
    Datum name(PG_FUNCTION_ARGS) {                  \
        return call_with_text(fcinfo, function);    \
    }

BY_TEXT(pg_jsonb_populate_record_of_text, jsonb_populate_record)
BY_TEXT(pg_jsonb_populate_recordset_of_text, jsonb_populate_recordset)
BY_TEXT(pg_jsonb_to_record_of_text, jsonb_to_record)
BY_TEXT(pg_jsonb_to_recordset_of_text, jsonb_to_recordset)
