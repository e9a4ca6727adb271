#include "kept.h"

typedef struct Kept {
    MemoryContext context; /* of the argument and what is made of it */
    struct varlena *given; /* NULL if nothing is kept */
    void *made;
} Kept;

static Kept *kept_of(FmgrInfo *info) {
    if (info->fn_extra) return info->fn_extra;
    Kept *kept = MemoryContextAllocZero(info->fn_mcxt, sizeof *kept);
    kept->context =
        AllocSetContextCreate(info->fn_mcxt, "kohiblad argument", ALLOCSET_SMALL_SIZES);
    info->fn_extra = kept;
    return kept;
}

static bool is_same(const struct varlena *left, const struct varlena *right) {
    size_t size = VARSIZE_ANY(left);
    return size == VARSIZE_ANY(right) && memcmp(left, right, size) == 0;
}

static void keep(Kept *kept, const struct varlena *given, MakeCall make) {
    kept->given = NULL;
    MemoryContextReset(kept->context);
    MemoryContext caller = MemoryContextSwitchTo(kept->context);
    struct varlena *copy = palloc(VARSIZE_ANY(given));
    memcpy(copy, given, VARSIZE_ANY(given));
    kept->made = make(copy);
    kept->given = copy;
    MemoryContextSwitchTo(caller);
}

void *made_of_argument(FunctionCallInfo fcinfo, int argument, MakeCall make) {
    Kept *kept = kept_of(fcinfo->flinfo);
    struct varlena *given = PG_GETARG_VARLENA_PP(argument);
    if (!kept->given || !is_same(kept->given, given)) keep(kept, given, make);
    PG_FREE_IF_COPY(given, argument);
    return kept->made;
}
