/* Documents changed at the end of a path. */
#ifndef PG_KOHIBLAD_EDIT_H
#define PG_KOHIBLAD_EDIT_H

#include "paths.h"

#pragma GCC visibility push(hidden)

/* A document that is edited at the end of so many steps, which the library takes as a document; a
 * removal has no value. */
extern struct varlena *edited(Bytes document, Bytes steps, int count, enum kohiblad_edit_kind kind,
                              Bytes value);

/* Two documents put together. */
extern struct varlena *joined(Bytes left, Bytes right);

#pragma GCC visibility pop

#endif
