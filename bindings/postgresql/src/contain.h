/* Whether values contain others. */
#ifndef PG_KOHIBLAD_CONTAIN_H
#define PG_KOHIBLAD_CONTAIN_H

#include "document.h"

#pragma GCC visibility push(hidden)

/* Whether a value contains another, as inside of documents; and whether a document contains
 * another: an array contains a scalar too that is one of its items. In parts if need be. */
extern bool contains_value(Part left, Part right);
extern bool contains_document(Bytes left, Bytes right);

/* Moves on in an object to a key, in the order of its keys. */
extern bool move_to_key(Bytes object, struct kohiblad_cursor *cursor, Bytes wanted, Part *value);

#pragma GCC visibility pop

#endif
