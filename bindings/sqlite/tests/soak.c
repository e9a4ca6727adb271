/* Runs the statements of standard input, each on one line, for some minutes, and cancels them at
 * random: by sqlite3_interrupt in another thread, by a progress handler, and by limits on memory
 * and on lengths. Each ends with rows, an error or as cancelled, and all memory is freed. To be built
 * with sanitizers, for an extension that was built with them and with tests/newer.h.
 *
 *     python3 tests/random_statements.py 0 SEED | soak EXTENSION MINUTES SEED */
#define _POSIX_C_SOURCE 200809L
#include <pthread.h>
#include <sqlite3.h>
#include <stdatomic.h>
#include <stdbool.h>
#include <stdint.h>
#include <stdio.h>
#include <stdlib.h>
#include <string.h>
#include <time.h>

static sqlite3 *database;
static atomic_bool is_cancelled, is_over;
/* In so many milliseconds the statement is interrupted, if it is not 0. */
static atomic_int patience;

int tests_is_interrupted(sqlite3 *asked);
int tests_is_interrupted(sqlite3 *asked)
{
    (void)asked;
    return is_cancelled;
}

static void fail(const char *what, const char *sql)
{
    fprintf(stderr, "tests/soak.c: %s: %s\n", what, sql);
    exit(1);
}

/* xorshift64 */
static uint64_t state;
static unsigned below(unsigned bound)
{
    state ^= state << 13, state ^= state >> 7, state ^= state << 17;
    return (unsigned)((state >> 20) % bound);
}

static void *interrupt(void *unused)
{
    struct timespec millisecond = { 0, 1000000 };
    while (!is_over) {
        nanosleep(&millisecond, NULL);
        if (patience > 0 && atomic_fetch_sub(&patience, 1) == 1) {
            is_cancelled = true;
            sqlite3_interrupt(database);
        }
    }
    return unused;
}

static int progress(void *unused)
{
    (void)unused;
    return below(50) == 0;
}

enum { ROWS, ERRORS, INTERRUPTED, NO_MEMORY, TOO_BIG, OUTCOMES };
static const char *const names[] = { "rows", "errors", "interrupted", "no memory", "too big" };
static long outcomes[OUTCOMES];

static void count_outcome(int code, const char *sql)
{
    switch (code) {
    case SQLITE_OK: outcomes[ROWS]++; break;
    case SQLITE_ERROR: outcomes[ERRORS]++; break;
    case SQLITE_INTERRUPT: outcomes[INTERRUPTED]++; break;
    case SQLITE_NOMEM: outcomes[NO_MEMORY]++; break;
    case SQLITE_TOOBIG: outcomes[TOO_BIG]++; break;
    default: fail(sqlite3_errmsg(database), sql);
    }
}

/* Reads all columns of all rows. */
static int run(const char *sql)
{
    sqlite3_stmt *statement;
    int code = sqlite3_prepare_v2(database, sql, -1, &statement, NULL);
    if (code == SQLITE_OK)
        while (sqlite3_step(statement) == SQLITE_ROW)
            for (int i = 0; i < sqlite3_column_count(statement); i++) {
                const uint8_t *bytes = sqlite3_column_blob(statement, i);
                int size = sqlite3_column_bytes(statement, i);
                if (size && bytes) state += bytes[0] + bytes[size - 1];
            }
    else return code;
    return sqlite3_finalize(statement);
}

static void run_cancelled(const char *sql)
{
    unsigned way = below(10);
    is_cancelled = false;
    if (way < 3) patience = 1 + (int)below(way ? 20 : 300);
    if (way == 3) sqlite3_progress_handler(database, 1 + (int)below(100), progress, NULL);
    if (way == 4) sqlite3_hard_heap_limit64(sqlite3_memory_used() + below(200000));
    if (way == 5) sqlite3_limit(database, SQLITE_LIMIT_LENGTH, 1000 + (int)below(100000));
    count_outcome(run(sql), sql);
    patience = 0;
    sqlite3_progress_handler(database, 0, NULL, NULL);
    sqlite3_hard_heap_limit64(1 << 28);
    sqlite3_limit(database, SQLITE_LIMIT_LENGTH, 1000000000);
}

/* After all that was cancelled the answers are the right ones. */
static void check(void)
{
    static const char sql[] = "SELECT 1 / (jb_text(jb_set(jb('{\"a\":[1.50]}'), '$.b', 'x'))"
        " = '{\"a\":[1.50],\"b\":\"x\"}') WHERE jb_contains('[1,[2]]', '[[2]]')";
    sqlite3_stmt *statement;
    is_cancelled = false;
    if (sqlite3_prepare_v2(database, sql, -1, &statement, NULL) != SQLITE_OK
        || sqlite3_step(statement) != SQLITE_ROW || sqlite3_column_int(statement, 0) != 1)
        fail("a wrong answer", sql);
    sqlite3_finalize(statement);
}

static void open_database(const char *extension)
{
    char *message = NULL;
    if (sqlite3_open(":memory:", &database) != SQLITE_OK
        || sqlite3_enable_load_extension(database, 1) != SQLITE_OK
        || sqlite3_load_extension(database, extension, NULL, &message) != SQLITE_OK)
        fail("the extension is not loaded", message ? message : "");
}

static double now(void)
{
    struct timespec time;
    clock_gettime(CLOCK_MONOTONIC, &time);
    return (double)time.tv_sec + 1e-9 * (double)time.tv_nsec;
}

int main(int count, char **arguments)
{
    static char line[1 << 20];
    pthread_t thread;
    double end;
    long done = 0;
    if (count != 4) return 2;
    end = now() + 60 * strtod(arguments[2], NULL);
    state = 88172645463325252u + strtoul(arguments[3], NULL, 10);
    open_database(arguments[1]);
    if (pthread_create(&thread, NULL, interrupt, NULL)) fail("no thread", "");
    while (now() < end && fgets(line, sizeof line, stdin)) {
        run_cancelled(line);
        if (++done % 1000 == 0) check();
    }
    check();
    is_over = true;
    pthread_join(thread, NULL);
    if (sqlite3_close(database) != SQLITE_OK) fail("the database stays open", "");
    if (sqlite3_memory_used() != 0) fail("memory is lost", "");
    printf("%ld statements:", done);
    for (int i = 0; i < OUTCOMES; i++) printf(" %ld %s%s", outcomes[i], names[i],
                                              i + 1 < OUTCOMES ? "," : "\n");
    return 0;
}
