/* Keys of GIN indexes: whole numbers of 64 bits. */
#ifndef PG_KOHIBLAD_GIN_H
#define PG_KOHIBLAD_GIN_H

#include "rows.h"

#include "access/stratnum.h"
#include "utils/jsonpath.h"

/* The numbers of the operators, which are those of jsonb's operator classes. */
enum {
    CONTAINS = 7,
    EXISTS = 9,
    EXISTS_ANY = 10,
    EXISTS_ALL = 11,
    PATH_EXISTS = 15,
    PATH_MATCHES = 16
};

typedef struct Keys {
    Datum *at;
    size_t count, room;
} Keys;

#pragma GCC visibility push(hidden)

/* Makes room for so many keys more, in the memory context of those that there are. */
extern void make_room_for_keys(Keys *keys, size_t more);

/* Appends the keys of a document's values. */
extern void append_values(Keys *keys, Bytes document);

/* Appends keys that every document has in which a path finds something, or whose predicate is
 * true. There may be none. */
extern void append_keys_of_path(Keys *keys, JsonPath *path);
extern void append_keys_of_predicate(Keys *keys, JsonPath *path);

/* The keys of a document's values and names; and of what an operator looks for, which a document
 * that matches has all, or of EXISTS_ANY one. */
extern Keys keys_of_document(Bytes document);
extern Keys keys_of_query(Datum query, StrategyNumber strategy);

#pragma GCC visibility pop

#endif
