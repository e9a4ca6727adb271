/* The entry point. */
#include "extension.h"

SQLITE_EXTENSION_INIT1

__attribute__((visibility("default")))
int sqlite3_kohiblad_init(sqlite3 *database, char **message, const sqlite3_api_routines *api)
{
    int code;
    (void)message;
    SQLITE_EXTENSION_INIT2(api);
    code = register_functions(database);
    if (code == SQLITE_OK) code = register_builders(database);
    if (code == SQLITE_OK) code = register_edits(database);
    if (code == SQLITE_OK) code = register_aggregates(database);
    if (code == SQLITE_OK) code = register_each(database);
    if (code == SQLITE_OK) code = register_survey(database);
    if (code == SQLITE_OK) code = register_queries(database);
    return code;
}
