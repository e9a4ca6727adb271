/* Texts of a query as documents, which have no collation. */
#ifndef PG_KOHIBLAD_AT_H
#define PG_KOHIBLAD_AT_H

#include "document.h"

#include "nodes/nodes.h"

#pragma GCC visibility push(hidden)

/* The document of a constant text or array of texts, as kohiblad_at and kohiblad_has take it; NULL
 * if it is neither, has NULL or two dimensions, or is long. */
extern struct varlena *document_of_constant(const Node *argument);

#pragma GCC visibility pop

#endif
