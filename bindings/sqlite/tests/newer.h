/* Compiled into the extension, SQLite's header is as that of 3.41, and the program that loads the
 * extension says whether a query was interrupted: so tests/interrupt.c runs beside any SQLite. */
#include <sqlite3ext.h>

#undef SQLITE_VERSION_NUMBER
#define SQLITE_VERSION_NUMBER 3041000
#undef sqlite3_libversion_number
#define sqlite3_libversion_number() 3041000
#undef sqlite3_is_interrupted
#define sqlite3_is_interrupted tests_is_interrupted

int tests_is_interrupted(sqlite3 *database);
