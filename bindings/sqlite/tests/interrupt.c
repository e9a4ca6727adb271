/* Interrupts functions while they run. The extension is the argument, built with tests/newer.h, so
 * that it asks this program whether a query was interrupted. Prints how many tests passed. */
#include <sqlite3.h>
#include <stdio.h>
#include <stdlib.h>
#include <string.h>

static long asked, interrupted_at;

/* The extension finds this. */
int tests_is_interrupted(sqlite3 *database);
int tests_is_interrupted(sqlite3 *database)
{
    (void)database;
    return ++asked == interrupted_at;
}

static int passed;

static void fail(const char *what, const char *sql)
{
    fprintf(stderr, "tests/interrupt.c: %s: %s\n", what, sql);
    exit(1);
}

#define ARRAYS(length) "WITH n(i) AS (SELECT 1 UNION ALL SELECT i + 1 FROM n WHERE i < " \
    #length "), " \
    "a(l, r) AS (SELECT jb_concat(jb_group_array(jb('[0]')), '[[1]]'), " \
    "jb_group_array(jb('[1]')) FROM n) "

/* How often the function asks if it is not interrupted, and what comes then. */
static const struct { const char *sql; long asks; const char *answer; } statements[] = {
    /* Rounds of 1, 4, 16 and 20 million steps, two of which each pair of arrays takes. */
    { ARRAYS(5000) "SELECT jb_contains(l, r) FROM a", 3, "jb_contains: TooManySteps" },
    { ARRAYS(2000) "SELECT jb_contains(jb_object('a', l), jb_object('a', r)) FROM a", 2, "1" },
    { "SELECT jb_contains('[1,2]', '[2]')", 0, "1" },
    { "SELECT jb_text(jb_set(jb('{}'), '$.a', 1, '$.b', 2))", 2, "{\"a\":1,\"b\":2}" },
    { "SELECT jb_text(jb_remove(jb('[1,2,3]'), '$[0]', '$[0]'))", 2, "[3]" },
};

/* The code, and the text of the only row or of the error. */
static int run(sqlite3 *database, const char *sql, char *answer, size_t room)
{
    sqlite3_stmt *statement;
    const unsigned char *text = NULL;
    int code = sqlite3_prepare_v2(database, sql, -1, &statement, NULL);
    asked = 0;
    if (code == SQLITE_OK) code = sqlite3_step(statement);
    if (code == SQLITE_ROW) text = sqlite3_column_text(statement, 0);
    snprintf(answer, room, "%s", text ? (const char *)text : sqlite3_errmsg(database));
    sqlite3_finalize(statement);
    return code;
}

int main(int count, char **arguments)
{
    sqlite3 *database;
    char answer[64], *message = NULL;
    if (count != 2) return 2;
    if (sqlite3_open(":memory:", &database) != SQLITE_OK
        || sqlite3_enable_load_extension(database, 1) != SQLITE_OK
        || sqlite3_load_extension(database, arguments[1], NULL, &message) != SQLITE_OK)
        fail("the extension is not loaded", message ? message : "");
    for (size_t i = 0; i < sizeof statements / sizeof *statements; i++) {
        const char *sql = statements[i].sql;
        interrupted_at = 0;
        run(database, sql, answer, sizeof answer);
        if (strcmp(answer, statements[i].answer)) fail(answer, sql);
        if (asked != statements[i].asks) fail("it asks another number of times", sql);
        for (interrupted_at = 1; interrupted_at <= statements[i].asks; interrupted_at++) {
            if (run(database, sql, answer, sizeof answer) != SQLITE_INTERRUPT)
                fail("it is not interrupted", sql);
            if (asked != interrupted_at) fail("it goes on", sql);
            passed++;
        }
        passed++;
    }
    if (sqlite3_close(database) != SQLITE_OK) fail("the database stays open", "");
    printf("%d\n", passed);
    return 0;
}
