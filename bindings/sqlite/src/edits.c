/* Documents changed at paths: jb_set, jb_insert, jb_replace and jb_remove. */
#include "extension.h"

SQLITE_EXTENSION_INIT3

struct edit_function {
    const char *name;
    bool has_values; /* after each path */
    bool creates;    /* what is not there */
    bool overwrites; /* what is there */
};

/* Where a path leads. */
struct target {
    bool is_there;
    bool can_be_made;   /* it is not there, and the containers that it needs can be made */
    struct buffer path; /* the document of its steps */
    size_t steps;
};

/* Whether a step that leads nowhere can be made in a part: a member of an object, or an item after
 * the last. */
static bool can_make(const struct step *step, const struct part *part)
{
    struct kohiblad_value_kind kind = kind_of_part(part);
    if (kind.status != KOHIBLAD_OK) return false;
    if (step->kind == NAME) return kind.kind == KOHIBLAD_OBJECT;
    return step->kind == INDEX && kind.kind == KOHIBLAD_ARRAY && step->index == kind.count;
}

/* Whether a step makes the container that it leads into: SQLite reads [0] there, and no other
 * index. */
static bool makes_container(const struct step *step)
{
    return step->kind == NAME || (step->kind == INDEX && step->index == 0);
}

/* Follows a path as far as it leads. After another status than KOHIBLAD_OK *message is what to
 * report; otherwise the caller releases target->path. */
static uint32_t find_target(const struct caller *caller, struct bytes document, struct bytes text,
                            struct target *target, char **message)
{
    struct part part = { KOHIBLAD_TYPE_CONTAINER, document };
    struct step step;
    struct reader reader;
    uint32_t status = open_path(caller->name, text, &target->path, message);
    if (status != KOHIBLAD_OK) return status;
    for (reader = steps_of(&target->path); read_step(&reader, &step); target->steps++) {
        if (status == KOHIBLAD_NONE) {
            target->can_be_made = target->can_be_made && makes_container(&step);
            continue;
        }
        status = take_step(&step, &part);
        target->can_be_made = status == KOHIBLAD_NONE && can_make(&step, &part);
        if (status != KOHIBLAD_OK && status != KOHIBLAD_NONE) {
            release(&target->path);
            *message = status_message(caller->name, status, NULL);
            return status;
        }
    }
    target->is_there = status == KOHIBLAD_OK;
    return KOHIBLAD_OK;
}

/* The document edited at the end of its path. */
static bool fill_edited(const struct caller *caller, struct buffer *buffer, struct edit edit)
{
    return fill(caller, buffer, write_edited, &edit,
                edit.document.size + edit.path.size + edit.value.size);
}

/* Whether the value may be so many levels below the top. */
static bool is_shallow(const struct caller *caller, struct bytes value, size_t steps)
{
    if (steps <= KOHIBLAD_SQLITE_DEPTH
        && kohiblad_check(value.at, value.size, KOHIBLAD_SQLITE_DEPTH - steps))
        return true;
    fail(caller, KOHIBLAD_INVALID_JSONB);
    return false;
}

/* The document with the value at the target, and the containers that are made for it. */
static bool put(const struct caller *caller, struct buffer *buffer, struct bytes document,
                const struct target *target, sqlite3_value *argument)
{
    struct edit edit = { .document = document, .path = bytes_in(&target->path),
                         .kind = KOHIBLAD_CREATE };
    struct buffer value;
    struct sql_value sql_value;
    bool is_made;
    if (!get_sql_value(caller, argument, has_json_subtype(argument), &sql_value)
        || !fill_document(caller, &value, &sql_value))
        return false;
    edit.value = bytes_in(&value);
    is_made = is_shallow(caller, edit.value, target->steps) && fill_edited(caller, buffer, edit);
    release(&value);
    return is_made;
}

enum outcome { FAILED, UNCHANGED, CHANGED, REMOVED };

/* Edits at a target. `value` is null if the function has no values. */
static enum outcome edit_target(const struct caller *caller, const struct edit_function *function,
                                struct buffer *buffer, struct bytes document,
                                const struct target *target, sqlite3_value *value)
{
    struct edit removal = { .document = document, .path = bytes_in(&target->path),
                            .kind = KOHIBLAD_REMOVE };
    bool is_wanted = target->is_there ? function->overwrites
        : function->creates && target->can_be_made;
    if (!is_wanted) return UNCHANGED;
    if (function->has_values)
        return put(caller, buffer, document, target, value) ? CHANGED : FAILED;
    if (target->steps == 0) return REMOVED;
    return fill_edited(caller, buffer, removal) ? CHANGED : FAILED;
}

/* Edits once, at the path that an argument is. */
static enum outcome edit_at(const struct caller *caller, const struct edit_function *function,
                            struct buffer *buffer, struct bytes document, sqlite3_value *argument,
                            sqlite3_value *value)
{
    struct target target = { .steps = 0 };
    struct bytes path;
    char *message;
    enum outcome outcome = FAILED;
    if (is_interrupted(caller)) {
        fail(caller, INTERRUPTED);
        return FAILED;
    }
    if (!get_text(caller, argument, &path)) return FAILED;
    if (find_target(caller, document, path, &target, &message) == KOHIBLAD_OK) {
        outcome = edit_target(caller, function, buffer, document, &target, value);
        release(&target.path);
    } else {
        fail_with(caller, message);
    }
    return outcome;
}

/* Edits in turn: each finds what those before it left. Two buffers take turns, and
 * buffers[*last] has the result. */
static enum outcome edit_all(const struct caller *caller, const struct edit_function *function,
                             struct buffer *buffers, int *last, struct bytes document, int count,
                             sqlite3_value **arguments)
{
    enum outcome all = UNCHANGED;
    int each = function->has_values ? 2 : 1;
    for (int i = 0; i < count; i += each) {
        sqlite3_value *value = function->has_values ? arguments[i + 1] : NULL;
        enum outcome outcome = edit_at(caller, function, &buffers[1 - *last], document,
                                       arguments[i], value);
        if (outcome == UNCHANGED) continue;
        if (all == CHANGED) release(&buffers[*last]);
        if (outcome != CHANGED) return outcome;
        all = CHANGED;
        *last = 1 - *last;
        document = bytes_in(&buffers[*last]);
    }
    return all;
}

static bool has_null(const struct edit_function *function, int count, sqlite3_value **arguments)
{
    for (int i = 0; i < count; i++) {
        bool is_value = function->has_values && i > 0 && i % 2 == 0;
        if (!is_value && sqlite3_value_type(arguments[i]) == SQLITE_NULL) return true;
    }
    return false;
}

/* Without arguments the result is NULL, as that of SQLite's functions. */
static void run(sqlite3_context *context, int count, sqlite3_value **arguments)
{
    const struct edit_function *function = sqlite3_user_data(context);
    struct caller caller = { context, function->name };
    struct buffer buffers[2];
    struct bytes document;
    int last = 0;
    if (count > 0 && function->has_values && count % 2 == 0) {
        fail_with(&caller, sqlite3_mprintf("%s: a path has no value", function->name));
        return;
    }
    if (count == 0 || has_null(function, count, arguments)) return;
    if (!get_checked(&caller, arguments[0], &document)) return;
    switch (edit_all(&caller, function, buffers, &last, document, count - 1, arguments + 1)) {
    case UNCHANGED: sqlite3_result_value(context, arguments[0]); break;
    case CHANGED: give_blob(&caller, &buffers[last]); break;
    case FAILED: case REMOVED: break;
    }
}

static const struct edit_function functions[] = {
    { "jb_set", true, true, true },
    { "jb_insert", true, true, false },
    { "jb_replace", true, false, true },
    { "jb_remove", false, false, true },
};

int register_edits(sqlite3 *database)
{
    int flags = SQLITE_UTF8 | SQLITE_DETERMINISTIC | SQLITE_INNOCUOUS | SQLITE_SUBTYPE;
    int code = SQLITE_OK;
    for (size_t i = 0; i < sizeof functions / sizeof *functions && code == SQLITE_OK; i++)
        code = sqlite3_create_function_v2(database, functions[i].name, -1, flags,
                                          (void *)&functions[i], run, NULL, NULL, NULL);
    return code;
}
