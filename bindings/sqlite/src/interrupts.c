/* Queries that are interrupted while a function runs. */
#include "extension.h"

SQLITE_EXTENSION_INIT3

/* Headers before 3.41 do not declare the call, and SQLite before 3.41 does not have it. */
#define FIRST_WITH_INTERRUPTS 3041000
#if SQLITE_VERSION_NUMBER >= FIRST_WITH_INTERRUPTS

bool has_interrupts(void)
{
    return sqlite3_libversion_number() >= FIRST_WITH_INTERRUPTS;
}

bool is_interrupted(const struct caller *caller)
{
    return has_interrupts() && sqlite3_is_interrupted(sqlite3_context_db_handle(caller->context));
}

#else

bool has_interrupts(void)
{
    return false;
}

bool is_interrupted(const struct caller *caller)
{
    (void)caller;
    return false;
}

#endif
