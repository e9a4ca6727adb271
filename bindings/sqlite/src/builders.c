/* Documents built of the arguments: jb_array and jb_object. */
#include "extension.h"

SQLITE_EXTENSION_INIT3

struct builder {
    const char *name;
    bool has_names; /* before each value */
    writer *build;
};

static bool append_all(const struct caller *caller, const struct builder *builder,
                       struct rows *rows, int count, sqlite3_value **arguments)
{
    for (int i = 0; i < count; i++) {
        if (builder->has_names && !append_name(caller, rows, arguments[i++])) return false;
        if (!append_value(caller, rows, arguments[i])) return false;
    }
    return true;
}

static void build(sqlite3_context *context, int count, sqlite3_value **arguments)
{
    const struct builder *builder = sqlite3_user_data(context);
    struct caller caller = { context, builder->name };
    struct rows rows = { 0 };
    struct buffer buffer;
    if (builder->has_names && count % 2)
        fail_with(&caller, sqlite3_mprintf("%s: a name has no value", builder->name));
    else if (append_all(&caller, builder, &rows, count, arguments)
             && fill(&caller, &buffer, builder->build, &rows, guess_of_rows(&rows)))
        give_blob(&caller, &buffer);
    forget(&rows);
}

static const struct builder builders[] = {
    { "jb_array", false, write_array },
    { "jb_object", true, write_object },
};

int register_builders(sqlite3 *database)
{
    int flags = SQLITE_UTF8 | SQLITE_DETERMINISTIC | SQLITE_INNOCUOUS | SQLITE_SUBTYPE;
    int code = SQLITE_OK;
    for (size_t i = 0; i < sizeof builders / sizeof *builders && code == SQLITE_OK; i++)
        code = sqlite3_create_function_v2(database, builders[i].name, -1, flags,
                                          (void *)&builders[i], build, NULL, NULL, NULL);
    return code;
}
