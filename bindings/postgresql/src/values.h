/* SQL values as documents, as to_jsonb has them. */
#ifndef PG_KOHIBLAD_VALUES_H
#define PG_KOHIBLAD_VALUES_H

#include "rows.h"

#include "access/htup.h"

/* What a function knows of the types of its values. */
typedef struct Types Types;

#pragma GCC visibility push(hidden)

/* The SQL type of documents: it is in the schema of the extension's functions. */
extern Oid type_of_documents(FunctionCallInfo fcinfo);

/* What a function knows of types, which it keeps from call to call, and nothing else beside it. */
extern Types *kept_types(FunctionCallInfo fcinfo);

/* The record of a value of a composite type. */
extern HeapTupleHeader record_of_datum(Datum value);

/* Adds the document of a value of a type, or a value as a key. Null is null of JSON, and no key. */
extern void add_value(Rows *rows, Datum value, bool is_null, Oid type, Types *types);
extern void add_key(Rows *rows, Datum value, bool is_null, Oid type, Types *types);

#pragma GCC visibility pop

#endif
