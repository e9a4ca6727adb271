/* What a call makes of an argument and keeps for the next call of the same expression, which mostly
 * has the same argument. */
#ifndef PG_KOHIBLAD_KEPT_H
#define PG_KOHIBLAD_KEPT_H

#include "document.h"

/* Makes something of a copy of an argument, in the current memory context, which has both. */
typedef void *(*MakeCall)(struct varlena *argument);

#pragma GCC visibility push(hidden)

/* What is made of an argument. It lasts until a call of the expression has another argument. A
 * function keeps one argument only, and nothing else beside it. */
extern void *made_of_argument(FunctionCallInfo fcinfo, int argument, MakeCall make);

#pragma GCC visibility pop

#endif
