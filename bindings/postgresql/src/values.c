#include "values.h"

#include "access/htup_details.h"
#include "access/transam.h"
#include "catalog/pg_type.h"
#include "funcapi.h"
#include "miscadmin.h"
#include "parser/parse_coerce.h"
#include "utils/array.h"
#include "utils/builtins.h"
#include "utils/date.h"
#include "utils/datetime.h"
#include "utils/fmgrprotos.h"
#include "utils/json.h"
#include "utils/jsonb.h"
#include "utils/lsyscache.h"
#include "utils/syscache.h"
#include "utils/typcache.h"

/* What a value becomes: the kinds of to_jsonb, and documents. */
enum form {
    BOOLEAN_FORM,
    WHOLE_FORM,
    NUMBER_FORM,
    TIME_FORM,
    DOCUMENT_FORM,
    JSON_FORM,
    JSONB_FORM,
    CAST_FORM, /* a type with a cast to json */
    ARRAY_FORM,
    ROW_FORM,
    TEXT_FORM
};

/* So many types are kept. A function that meets more asks for the others anew. */
#define MOST_KEPT 16

/* A type: what it is a domain over, and what its values become by which function. */
typedef struct Known {
    Oid type, base;
    enum form form;
    FmgrInfo function; /* the output of numbers and texts, or the cast to json */
} Known;

struct Types {
    Oid documents;
    MemoryContext context;
    int count;
    Known kept[MOST_KEPT];
};

Oid type_of_documents(FunctionCallInfo fcinfo) {
    Oid schema = get_func_namespace(fcinfo->flinfo->fn_oid);
    Oid type = GetSysCacheOid2(TYPENAMENSP, Anum_pg_type_oid, CStringGetDatum("kohiblad"),
                               ObjectIdGetDatum(schema));
    if (!OidIsValid(type)) elog(ERROR, "kohiblad: there is no type of this name");
    return type;
}

Types *kept_types(FunctionCallInfo fcinfo) {
    FmgrInfo *info = fcinfo->flinfo;
    if (info->fn_extra) return info->fn_extra;
    Types *types = MemoryContextAllocZero(info->fn_mcxt, sizeof *types);
    types->documents = type_of_documents(fcinfo);
    types->context = info->fn_mcxt;
    info->fn_extra = types;
    return types;
}

/* Whether a type that is not built in has a function that casts it to json. */
static bool has_json_cast(Oid type, Oid *function) {
    return type >= FirstNormalObjectId &&
           find_coercion_pathway(JSONOID, type, COERCION_EXPLICIT, function) == COERCION_PATH_FUNC;
}

static enum form form_of(Oid type, Oid documents, Oid *cast) {
    if (type == documents) return DOCUMENT_FORM;
    switch (type) {
        case BOOLOID: return BOOLEAN_FORM;
        case INT2OID:
        case INT4OID:
        case INT8OID: return WHOLE_FORM;
        case FLOAT4OID:
        case FLOAT8OID:
        case NUMERICOID: return NUMBER_FORM;
        case DATEOID:
        case TIMESTAMPOID:
        case TIMESTAMPTZOID: return TIME_FORM;
        case JSONOID: return JSON_FORM;
        case JSONBOID: return JSONB_FORM;
        case ANYARRAYOID:
        case ANYCOMPATIBLEARRAYOID:
        case RECORDARRAYOID: return ARRAY_FORM;
        default: break;
    }
    if (OidIsValid(get_element_type(type))) return ARRAY_FORM;
    if (type_is_rowtype(type)) return ROW_FORM;
    return has_json_cast(type, cast) ? CAST_FORM : TEXT_FORM;
}

/* Whether the values of a form are written by the output function of their type. */
static bool is_shown(enum form form) {
    return form == NUMBER_FORM || form == TEXT_FORM || form == JSONB_FORM || form == WHOLE_FORM;
}

static void ask(Known *known, Oid type, Oid documents, MemoryContext context) {
    Oid function = InvalidOid;
    bool is_varlena;
    known->base = getBaseType(type);
    known->form = form_of(known->base, documents, &function);
    if (is_shown(known->form)) getTypeOutputInfo(known->base, &function, &is_varlena);
    if (OidIsValid(function)) fmgr_info_cxt(function, &known->function, context);
    known->type = type;
}

/* What is known of a type, in this room if it is not kept. */
static Known *known_type(Types *types, Oid type, Known *room) {
    for (int i = 0; i < types->count; i++)
        if (types->kept[i].type == type) return &types->kept[i];
    bool is_kept = types->count < MOST_KEPT;
    Known *known = is_kept ? &types->kept[types->count] : room;
    ask(known, type, types->documents, is_kept ? types->context : CurrentMemoryContext);
    if (is_kept) types->count++;
    return known;
}

static int64 whole_of(Datum value, Oid type) {
    switch (type) {
        case INT2OID: return DatumGetInt16(value);
        case INT4OID: return DatumGetInt32(value);
        default: return DatumGetInt64(value);
    }
}

static char *output_of(Datum value, Known *known) {
    return OutputFunctionCall(&known->function, value);
}

static void add_server_text(Rows *rows, const char *shown) {
    add_text(rows, utf8_of_server(shown, strlen(shown)));
}

static void add_json(Rows *rows, const char *json, size_t size) {
    struct varlena *document = document_of_json(utf8_of_server(json, size));
    add_row(rows, bytes_of(document));
    pfree(document);
}

/* NaN and infinities are texts, since JSON has no such numbers. */
static void add_number(Rows *rows, Datum value, Known *known) {
    char *shown = output_of(value, known);
    size_t size = strlen(shown);
    char last = shown[size - 1];
    if (last < '0' || last > '9') {
        add_server_text(rows, shown);
        return;
    }
    uint8_t document[NUMBER_ROOM];
    size_t length;
    uint32_t status = kohiblad_parse((const uint8_t *)shown, size, 0, KOHIBLAD_EXPONENTS_ALLOWED,
                                     document, sizeof document, &length);
    if (status == KOHIBLAD_INVALID_JSON)
        refuse_because(KOHIBLAD_BAD_NUMBER, ERRCODE_NUMERIC_VALUE_OUT_OF_RANGE,
                       "A number has at most 128 bits, and 255 digits after its point.");
    if (status != KOHIBLAD_OK) refuse(status, ERRCODE_INTERNAL_ERROR);
    add_row(rows, (Bytes){document, length});
    pfree(shown);
}

static void add_document(Rows *rows, Datum value) {
    struct varlena *document = PG_DETOAST_DATUM_PACKED(value);
    add_row(rows, bytes_of(document));
    if ((Pointer)document != DatumGetPointer(value)) pfree(document);
}

/* Adds an array of one dimension or more, from the element that comes next on. */
static void add_dimension(Rows *rows, const int *sizes, int dimensions, Datum **elements,
                          bool **nulls, Oid type, Types *types) {
    check_stack_depth();
    Rows *items = new_rows();
    for (int i = 0; i < sizes[0]; i++) {
        CHECK_FOR_INTERRUPTS();
        if (dimensions > 1)
            add_dimension(items, sizes + 1, dimensions - 1, elements, nulls, type, types);
        else
            add_value(items, *(*elements)++, *(*nulls)++, type, types);
    }
    struct varlena *array = array_of_rows(items);
    add_row(rows, bytes_of(array));
    pfree(array);
    free_rows(items);
}

static void add_array(Rows *rows, Datum value, Types *types) {
    ArrayType *array = DatumGetArrayTypeP(value);
    Oid type = ARR_ELEMTYPE(array);
    int16 length;
    bool by_value;
    char alignment;
    Datum *elements;
    bool *nulls;
    int count, none = 0;
    get_typlenbyvalalign(type, &length, &by_value, &alignment);
    deconstruct_array(array, type, length, by_value, alignment, &elements, &nulls, &count);
    if (count == 0)
        add_dimension(rows, &none, 1, &elements, &nulls, type, types);
    else
        add_dimension(rows, ARR_DIMS(array), ARR_NDIM(array), &elements, &nulls, type, types);
}

/* Servers from 15.20 on check a record where it is taken, by a function; the headers of older ones
 * have a macro. The function is looked for when the module is loaded, so that one that was compiled
 * for a newer server is loaded by the older ones too. */
#ifdef DatumGetHeapTupleHeader
HeapTupleHeader record_of_datum(Datum value) {
    return DatumGetHeapTupleHeader(value);
}
#else
#pragma weak DatumGetHeapTupleHeader
HeapTupleHeader record_of_datum(Datum value) {
    if (DatumGetHeapTupleHeader) return DatumGetHeapTupleHeader(value);
    return (HeapTupleHeader)PG_DETOAST_DATUM(value);
}
#endif

static void add_object(Rows *rows, Datum value, Types *types) {
    HeapTupleHeader header = record_of_datum(value);
    TupleDesc columns = lookup_rowtype_tupdesc(HeapTupleHeaderGetTypeId(header),
                                               HeapTupleHeaderGetTypMod(header));
    HeapTupleData tuple = {.t_len = HeapTupleHeaderGetDatumLength(header), .t_data = header};
    Datum *fields = palloc(columns->natts * sizeof *fields);
    bool *nulls = palloc(columns->natts * sizeof *nulls);
    heap_deform_tuple(&tuple, columns, fields, nulls);
    Rows *members = new_rows();
    for (int i = 0; i < columns->natts; i++) {
        CHECK_FOR_INTERRUPTS();
        Form_pg_attribute column = TupleDescAttr(columns, i);
        if (column->attisdropped) continue;
        const char *name = NameStr(column->attname);
        add_row(members, utf8_of_server(name, strlen(name)));
        add_value(members, fields[i], nulls[i], column->atttypid, types);
    }
    ReleaseTupleDesc(columns);
    pfree(fields);
    pfree(nulls);
    struct varlena *object = object_of_rows(members);
    add_row(rows, bytes_of(object));
    pfree(object);
    free_rows(members);
}

static void add_time(Rows *rows, Datum value, Oid type) {
    char shown[MAXDATELEN + 1];
    JsonEncodeDateTime(shown, value, type, NULL);
    add_server_text(rows, shown);
}

void add_value(Rows *rows, Datum value, bool is_null, Oid type, Types *types) {
    check_stack_depth();
    if (is_null) {
        add_null(rows);
        return;
    }
    Known room, *known = known_type(types, type, &room);
    switch (known->form) {
        case BOOLEAN_FORM: add_boolean(rows, DatumGetBool(value)); break;
        case WHOLE_FORM: add_int64(rows, whole_of(value, known->base)); break;
        case NUMBER_FORM: add_number(rows, value, known); break;
        case TIME_FORM: add_time(rows, value, known->base); break;
        case DOCUMENT_FORM: add_document(rows, value); break;
        case ARRAY_FORM: add_array(rows, value, types); break;
        case ROW_FORM: add_object(rows, value, types); break;
        case CAST_FORM:
            value = FunctionCall1(&known->function, value);
            /* FALLTHROUGH */
        case JSON_FORM: {
            text *json = DatumGetTextPP(value);
            add_json(rows, VARDATA_ANY(json), VARSIZE_ANY_EXHDR(json));
            break;
        }
        case JSONB_FORM: {
            char *json = output_of(value, known);
            add_json(rows, json, strlen(json));
            break;
        }
        case TEXT_FORM: add_server_text(rows, output_of(value, known)); break;
    }
}

/* A key is the text that the value has as a string. */
void add_key(Rows *rows, Datum value, bool is_null, Oid type, Types *types) {
    if (is_null)
        ereport(ERROR, (errcode(ERRCODE_INVALID_PARAMETER_VALUE),
                        errmsg("kohiblad: a key must not be null")));
    Known room, *known = known_type(types, type, &room);
    char shown[MAXDATELEN + 1];
    const char *name;
    switch (known->form) {
        case BOOLEAN_FORM: name = DatumGetBool(value) ? "true" : "false"; break;
        case TIME_FORM: name = JsonEncodeDateTime(shown, value, known->base, NULL); break;
        case WHOLE_FORM:
        case NUMBER_FORM:
        case TEXT_FORM: name = output_of(value, known); break;
        default:
            ereport(ERROR, (errcode(ERRCODE_INVALID_PARAMETER_VALUE),
                            errmsg("kohiblad: a key must be a scalar, and no array, composite or "
                                   "JSON")));
    }
    add_row(rows, utf8_of_server(name, strlen(name)));
}
