/* Subscripts, read and written as those of jsonb: doc['a'][0]. What is written is made where it is
 * not there: an object for a text, and for an integer an array, with nulls before the item: the
 * gap. The document is made without its gaps, and then copied once with them. */
#include "edit.h"

#include "catalog/pg_type.h"
#include "executor/execExpr.h"
#include "miscadmin.h"
#include "nodes/nodeFuncs.h"
#include "nodes/subscripting.h"
#include "parser/parse_coerce.h"
#include "parser/parse_expr.h"
#include "port/pg_bswap.h"
#include "utils/builtins.h"
#include "utils/fmgrprotos.h"

/* No gap makes a longer array, as in jsonb, and all gaps together have fewer items. */
#define MOST_ITEMS 16777216

/* The subscripts of one expression, as texts, and the types that they are written with. */
typedef struct Subscripts {
    bool begins_with_index;
    Datum *elements;
    Oid *types;
} Subscripts;

static void pg_attribute_noreturn() refuse_subscript(ParseState *state, Node *given,
                                                     const char *reason) {
    ereport(ERROR, (errcode(ERRCODE_DATATYPE_MISMATCH), errmsg("kohiblad: %s", reason),
                    parser_errposition(state, exprLocation(given))));
}

/* A subscript is an integer or a text, by the one implicit cast that its type has to them. */
static Oid type_of_subscript(ParseState *state, Node *given, Oid type) {
    Oid whole = INT4OID, name = TEXTOID;
    if (type == UNKNOWNOID) return TEXTOID;
    bool is_whole = can_coerce_type(1, &type, &whole, COERCION_IMPLICIT);
    bool is_name = can_coerce_type(1, &type, &name, COERCION_IMPLICIT);
    if (is_whole == is_name) refuse_subscript(state, given, "a subscript is an integer or a text");
    return is_whole ? INT4OID : TEXTOID;
}

static void transform(SubscriptingRef *reference, List *indirection, ParseState *state,
                      bool is_slice, bool is_assignment pg_attribute_unused()) {
    List *subscripts = NIL;
    ListCell *cell;
    foreach (cell, indirection) {
        A_Indices *indices = lfirst_node(A_Indices, cell);
        Node *given = indices->uidx ? indices->uidx : indices->lidx;
        if (is_slice || !indices->uidx)
            refuse_subscript(state, given, "subscripts do not support slices");
        Node *expression = transformExpr(state, indices->uidx, state->p_expr_kind);
        Oid type = exprType(expression);
        expression = coerce_type(state, expression, type,
                                 type_of_subscript(state, expression, type), -1,
                                 COERCION_IMPLICIT, COERCE_IMPLICIT_CAST, -1);
        subscripts = lappend(subscripts, expression);
    }
    reference->refupperindexpr = subscripts;
    reference->reflowerindexpr = NIL;
    reference->refrestype = reference->refcontainertype;
    reference->reftypmod = -1;
}

/* Takes the subscripts' values. One that is null makes what is read null, and cannot be written. */
static bool take_subscripts(ExprState *state pg_attribute_unused(), ExprEvalStep *step,
                            ExprContext *context pg_attribute_unused()) {
    SubscriptingRefState *reference = step->d.sbsref_subscript.state;
    Subscripts *subscripts = reference->workspace;
    subscripts->begins_with_index = subscripts->types[0] == INT4OID;
    for (int i = 0; i < reference->numupper; i++) {
        if (reference->upperindexnull[i]) {
            if (reference->isassignment)
                ereport(ERROR, (errcode(ERRCODE_NULL_VALUE_NOT_ALLOWED),
                                errmsg("kohiblad: a subscript in an assignment must not be null")));
            *step->resnull = true;
            return false;
        }
        Datum value = reference->upperindex[i];
        if (subscripts->types[i] == INT4OID) {
            char *digits = DatumGetCString(DirectFunctionCall1(int4out, value));
            value = CStringGetTextDatum(digits);
        }
        subscripts->elements[i] = value;
    }
    return true;
}

static Path *path_of(const SubscriptingRefState *reference) {
    const Subscripts *subscripts = reference->workspace;
    return path_of_texts((TextPath){subscripts->elements, NULL, reference->numupper});
}

/* The value at the subscripts, or null. */
static Datum value_at(Datum given, const Path *path, bool *is_null) {
    Sliced document;
    Part child;
    Part whole = open_sliced(&document, (struct varlena *)DatumGetPointer(given));
    *is_null = !find_path(&document, whole, path, &child);
    if (!*is_null) fetch_part(&document, child);
    Datum value = *is_null ? (Datum)0 : PointerGetDatum(document_of_part(child));
    close_sliced(&document);
    return value;
}

static void fetch(ExprState *state pg_attribute_unused(), ExprEvalStep *step,
                  ExprContext *context pg_attribute_unused()) {
    *step->resvalue = value_at(*step->resvalue, path_of(step->d.sbsref.state), step->resnull);
}

static void fetch_old(ExprState *state pg_attribute_unused(), ExprEvalStep *step,
                      ExprContext *context pg_attribute_unused()) {
    SubscriptingRefState *reference = step->d.sbsref.state;
    reference->prevnull = true;
    reference->prevvalue = (Datum)0;
    if (!*step->resnull)
        reference->prevvalue = value_at(*step->resvalue, path_of(reference), &reference->prevnull);
}

/* The nulls before the value in each array of a path, by its elements, and how many they are. */
typedef struct Gaps {
    int64 *nulls;
    int64 sum;
} Gaps;

/* Adds the nulls before an index that so many items do not reach. */
static void add_gap(Gaps *gaps, int level, int64 index, int64 count) {
    if (index <= count) return;
    gaps->nulls[level] = index - count;
    gaps->sum += index - count;
    if (index >= MOST_ITEMS || gaps->sum >= MOST_ITEMS)
        ereport(ERROR, (errcode(ERRCODE_PROGRAM_LIMIT_EXCEEDED),
                        errmsg("kohiblad: number of array elements exceeds the maximum allowed "
                               "(%d)", MOST_ITEMS)));
}

/* The gaps of a path that was followed to an end: the one there, and those in the containers that
 * the rest of it names. */
static Gaps gaps_of(const Path *path, const PathEnd *end) {
    Gaps gaps = {palloc0(path->count * sizeof *gaps.nulls), 0};
    if (end->is_array) add_gap(&gaps, end->level, end->index, end->count);
    for (int i = end->level + 1; i < path->count; i++) {
        CHECK_FOR_INTERRUPTS();
        if (path->elements[i].is_index) add_gap(&gaps, i, path->elements[i].index, 0);
    }
    return gaps;
}

static uint32 word_at(Bytes document, size_t offset) {
    uint32 word;
    memcpy(&word, document.at + offset, sizeof word);
    return pg_ntoh32(word);
}

/* A copy that is being made of a document: how far it is read and written. */
typedef struct Copy {
    Bytes document;
    size_t read;
    uint8_t *out;
} Copy;

static void copy_to(Copy *copy, size_t offset) {
    size_t size = offset - copy->read;
    memcpy(copy->out, copy->document.at + copy->read, size);
    copy->out += size;
    copy->read = offset;
}

/* Writes the word at an offset with more in its number, which has 28 bits. */
static void copy_word(Copy *copy, size_t offset, size_t more) {
    uint32 word = word_at(copy->document, offset);
    if ((word & (PAYLOAD_LIMIT - 1)) + more >= PAYLOAD_LIMIT)
        refuse(KOHIBLAD_INVALID_JSONB, ERRCODE_PROGRAM_LIMIT_EXCEEDED);
    copy_to(copy, offset);
    word = pg_hton32(word + (uint32)more);
    memcpy(copy->out, &word, sizeof word);
    copy->out += sizeof word;
    copy->read += sizeof word;
}

/* The offset of the entry word of a child, whose payload is not empty, in an array or object. */
static size_t word_of_child(Bytes container, Bytes child) {
    struct kohiblad_value_kind kind = kind_of(container);
    size_t words = kind.kind == KOHIBLAD_OBJECT ? 2 * kind.count : kind.count;
    size_t payload = HEADER_SIZE + words * ENTRY_SIZE, offset = child.at - container.at;
    for (size_t i = 0; i < words; i++) {
        size_t place = HEADER_SIZE + i * ENTRY_SIZE;
        size_t size = word_at(container, place) & (PAYLOAD_LIMIT - 1);
        if (payload == offset && size == child.size) return place;
        payload += size;
    }
    refuse(KOHIBLAD_INVALID_JSONB, ERRCODE_DATA_CORRUPTED);
}

/* The offset of the last entry word of an array. */
static size_t word_of_last(Bytes array) {
    return HEADER_SIZE + (kind_of(array).count - 1) * ENTRY_SIZE;
}

/* What an element names in a container where it is known to be, and there in an array the last
 * item. */
static Part child_of(Bytes container, const Element *element) {
    Part child;
    if (!follow_element(NULL, container, element, &child))
        refuse(KOHIBLAD_NONE, ERRCODE_DATA_CORRUPTED);
    return child;
}
static Part end_of(Bytes container, const Element *element) {
    Part child;
    return find_index(container, -1, &child) ? child : child_of(container, element);
}

/* The document with its gaps, each before the last item of its array; from the level after the end
 * on each array has one item. Of a null the format has its entry word alone, which is 0. */
static struct varlena *widened(Bytes document, const Path *path, int end, const Gaps *gaps) {
    size_t left = gaps->sum * ENTRY_SIZE, size = document.size + left;
    check_room(size);
    struct varlena *value = palloc(VARHDRSZ + size);
    Copy copy = {document, 0, (uint8_t *)VARDATA(value)};
    Part part = part_of_document(document);
    for (int level = 0; left > 0; level++) {
        CHECK_FOR_INTERRUPTS();
        Bytes container = part.payload;
        const Element *element = &path->elements[level];
        size_t start = container.at - document.at, gap = gaps->nulls[level] * ENTRY_SIZE;
        part = gap > 0 || level > end ? end_of(container, element) : child_of(container, element);
        if (gap > 0) {
            copy_word(&copy, start, gaps->nulls[level]);
            copy_to(&copy, start + word_of_last(container));
            memset(copy.out, 0, gap);
            copy.out += gap;
            left -= gap;
        }
        if (left > 0) copy_word(&copy, start + word_of_child(container, part.payload), left);
    }
    copy_to(&copy, document.size);
    SET_VARSIZE(value, VARHDRSZ + size);
    return value;
}

static void pg_attribute_noreturn() refuse_scalar(void) {
    ereport(ERROR, (errcode(ERRCODE_INVALID_PARAMETER_VALUE),
                    errmsg("kohiblad: cannot replace existing key"),
                    errdetail("The path leads into a scalar.")));
}

/* The document with a value at the subscripts, in containers that are made where there is none. */
static struct varlena *with_value(Bytes document, Path *path, Bytes value) {
    PathEnd end;
    if (!follow_path(document, path, &end)) refuse_scalar();
    if (end.is_array && end.index < -end.count)
        ereport(ERROR, (errcode(ERRCODE_INVALID_PARAMETER_VALUE),
                        errmsg("kohiblad: path element at position %d is out of range: %d",
                               end.level + 1, (int)end.index)));
    Gaps gaps = gaps_of(path, &end);
    check_room(document.size + value.size + gaps.sum * ENTRY_SIZE);
    struct varlena *made =
        edited(document, steps_to_make(path, &end), path->count, KOHIBLAD_CREATE, value);
    return gaps.sum > 0 ? widened(bytes_of(made), path, end.level, &gaps) : made;
}

/* An empty array or object, for a column that is null. */
static Bytes empty_container(bool is_list) {
    Rows *rows = new_rows();
    return bytes_of(is_list ? array_of_rows(rows) : object_of_rows(rows));
}

static Bytes null_document(void) {
    Rows *rows = new_rows();
    add_null(rows);
    return (Bytes){(uint8_t *)rows->bytes.data, rows->bytes.len};
}

static void assign(ExprState *state pg_attribute_unused(), ExprEvalStep *step,
                   ExprContext *context pg_attribute_unused()) {
    SubscriptingRefState *reference = step->d.sbsref.state;
    const Subscripts *subscripts = reference->workspace;
    Bytes value = reference->replacenull
                      ? null_document()
                      : bytes_of(PG_DETOAST_DATUM_PACKED(reference->replacevalue));
    Bytes document = *step->resnull ? empty_container(subscripts->begins_with_index)
                                    : bytes_of(PG_DETOAST_DATUM_PACKED(*step->resvalue));
    *step->resvalue = PointerGetDatum(with_value(document, path_of(reference), value));
    *step->resnull = false;
}

static void set_up(const SubscriptingRef *reference, SubscriptingRefState *state,
                   SubscriptExecSteps *steps) {
    int count = list_length(reference->refupperindexpr);
    Subscripts *subscripts = palloc0(sizeof *subscripts);
    subscripts->elements = palloc0(count * sizeof *subscripts->elements);
    subscripts->types = palloc0(count * sizeof *subscripts->types);
    ListCell *cell;
    foreach (cell, reference->refupperindexpr)
        subscripts->types[foreach_current_index(cell)] = exprType(lfirst(cell));
    state->workspace = subscripts;
    steps->sbs_check_subscripts = take_subscripts;
    steps->sbs_fetch = fetch;
    steps->sbs_assign = assign;
    steps->sbs_fetch_old = fetch_old;
}

PG_FUNCTION_INFO_V1(pg_kohiblad_subscript);
Datum pg_kohiblad_subscript(PG_FUNCTION_ARGS) {
    static const SubscriptRoutines routines = {
        .transform = transform,
        .exec_setup = set_up,
        .fetch_strict = true,     /* what is read of null is null */
        .fetch_leakproof = false, /* what is read may be damaged on the disk */
        .store_leakproof = false, /* what is written may be refused */
    };
    PG_RETURN_POINTER(&routines);
}
