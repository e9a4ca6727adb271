/* Where a document is between two others, for the planner. */
#ifndef PG_KOHIBLAD_SCALE_H
#define PG_KOHIBLAD_SCALE_H

#include "document.h"

#pragma GCC visibility push(hidden)

/* How far a document is from `low`, 0, to `high`, 1, if documents are spread evenly between these:
 * numbers by their values, and all others by their comparable keys. 0.5 if that says nothing. */
extern double place_between(Bytes low, Bytes value, Bytes high);

#pragma GCC visibility pop

#endif
