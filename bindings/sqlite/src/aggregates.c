/* The aggregates jb_group_array and jb_group_object, which are window functions, too. */
#include "extension.h"

SQLITE_EXTENSION_INIT3

struct aggregate {
    const char *name;
    int arguments;
    writer *build;
};

static void step(sqlite3_context *context, int count, sqlite3_value **arguments)
{
    const struct aggregate *aggregate = sqlite3_user_data(context);
    struct caller caller = { context, aggregate->name };
    struct rows *rows = sqlite3_aggregate_context(context, sizeof *rows);
    if (!rows) fail(&caller, KOHIBLAD_OUT_OF_MEMORY);
    else if (count == 1 || append_name(&caller, rows, arguments[0]))
        append_value(&caller, rows, arguments[count - 1]);
}

/* The first row leaves the window. After an error there may be none. */
static void step_back(sqlite3_context *context, int count, sqlite3_value **arguments)
{
    struct rows *rows = sqlite3_aggregate_context(context, 0);
    (void)arguments;
    if (rows && rows->offsets && rows->gone + (size_t)count <= rows->count)
        drop_first(rows, (size_t)count);
}

static void give_rows(sqlite3_context *context, const struct rows *rows)
{
    const struct aggregate *aggregate = sqlite3_user_data(context);
    struct caller caller = { context, aggregate->name };
    struct buffer buffer;
    if (fill(&caller, &buffer, aggregate->build, rows, guess_of_rows(rows)))
        give_blob(&caller, &buffer);
}

/* The result so far, in a window. */
static void give_so_far(sqlite3_context *context)
{
    struct rows none = { 0 }, *rows = sqlite3_aggregate_context(context, 0);
    give_rows(context, rows ? rows : &none);
}

static void finish(sqlite3_context *context)
{
    struct rows *rows = sqlite3_aggregate_context(context, 0);
    give_so_far(context);
    if (rows) forget(rows);
}

static const struct aggregate aggregates[] = {
    { "jb_group_array", 1, write_array },
    { "jb_group_object", 2, write_object },
};

int register_aggregates(sqlite3 *database)
{
    int flags = SQLITE_UTF8 | SQLITE_DETERMINISTIC | SQLITE_INNOCUOUS | SQLITE_SUBTYPE;
    int code = SQLITE_OK;
    for (size_t i = 0; i < sizeof aggregates / sizeof *aggregates && code == SQLITE_OK; i++)
        code = sqlite3_create_window_function(database, aggregates[i].name, aggregates[i].arguments,
                                              flags, (void *)&aggregates[i], step, finish,
                                              give_so_far, step_back, NULL);
    return code;
}
