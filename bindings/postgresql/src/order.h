/* What the functions of an order of documents share, whichever order it is. */
#ifndef PG_KOHIBLAD_ORDER_H
#define PG_KOHIBLAD_ORDER_H

#include "document.h"

/* Less than 0, 0 or more, as memcmp has them. */
typedef int (*CompareCall)(Bytes left, Bytes right);

/* The order of the two arguments of a function. */
static inline int compare_arguments_by(FunctionCallInfo fcinfo, CompareCall compare) {
    struct varlena *left = PG_GETARG_VARLENA_PP(0), *right = PG_GETARG_VARLENA_PP(1);
    int order = compare(bytes_of(left), bytes_of(right));
    PG_FREE_IF_COPY(left, 0);
    PG_FREE_IF_COPY(right, 1);
    return order;
}

/* The order of two values of a sort. */
static inline int compare_datums_by(Datum left, Datum right, CompareCall compare) {
    struct varlena *l = PG_DETOAST_DATUM_PACKED(left), *r = PG_DETOAST_DATUM_PACKED(right);
    int order = compare(bytes_of(l), bytes_of(r));
    if ((Pointer)l != DatumGetPointer(left)) pfree(l);
    if ((Pointer)r != DatumGetPointer(right)) pfree(r);
    return order;
}

/* The sign of an order, which is what a B-tree's comparison returns. */
static inline int32 sign_of(int order) {
    return (order > 0) - (order < 0);
}

/* A function of two documents that returns a truth value. */
#define COMPARISON(name, condition)      \
    PG_FUNCTION_INFO_V1(name);           \
    Datum name(PG_FUNCTION_ARGS) {       \
        PG_RETURN_BOOL(condition);       \
    }

#endif
