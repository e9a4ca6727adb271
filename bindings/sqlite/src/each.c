/* The table-valued functions jb_each(document [, path]), a row for each child in one walk, and
 * jb_tree(document [, path]), a row for each value. */
#include "extension.h"

#include <string.h>

SQLITE_EXTENSION_INIT3

enum column { KEY, VALUE, KIND, DOCUMENT, TYPE, ATOM, ID, PARENT, FULLKEY, PATH, SOURCE, ROOT };

#define COLUMNS "key, value, kind, document, type, atom, id, parent, fullkey, path, " \
    "source HIDDEN, root HIDDEN"

/* What differs between both. */
struct table_function {
    const char *name, *schema;
    bool is_tree;
};

struct table {
    sqlite3_vtab base;
    const struct table_function *function;
};

/* The plans of xBestIndex: how many arguments were given, and whether a key is looked up. */
enum { ARGUMENTS = 3, WITH_KEY = 4 };

/* A walk over the children of a container. */
struct level {
    struct bytes container;
    struct kohiblad_value_kind kind;
    struct kohiblad_cursor next;
    uint64_t index;         /* of the child at hand */
    struct part key, value; /* of the child at hand */
    sqlite3_int64 id;       /* of the container */
};

struct each {
    sqlite3_vtab_cursor base;
    sqlite3_value *source, *root, *wanted; /* copies of the arguments, and of a key to be found */
    struct bytes document, path;
    struct buffer steps;  /* the document of the path, if it is open */
    bool has_steps;
    struct step last;     /* of the path */
    struct part top;      /* what is at the path */
    struct level *levels; /* from the top to the child at hand; of jb_each there is one */
    size_t depth, room;
    bool is_at_top;       /* the row is the top itself */
    bool is_only_row;     /* the child was looked up */
    bool is_end;
    sqlite3_int64 row;
};

static const struct table_function *function_of(const struct each *each)
{
    return ((struct table *)each->base.pVtab)->function;
}

static int connect_each(sqlite3 *database, void *data, int count, const char *const *arguments,
                        sqlite3_vtab **table, char **message)
{
    const struct table_function *function = data;
    int code = sqlite3_declare_vtab(database, function->schema);
    struct table *made;
    (void)count, (void)arguments, (void)message;
    if (code != SQLITE_OK) return code;
    sqlite3_vtab_config(database, SQLITE_VTAB_INNOCUOUS);
    made = sqlite3_malloc(sizeof *made);
    if (!made) return SQLITE_NOMEM;
    memset(made, 0, sizeof *made);
    made->function = function;
    *table = &made->base;
    return SQLITE_OK;
}

static int disconnect_each(sqlite3_vtab *table)
{
    sqlite3_free(table);
    return SQLITE_OK;
}

/* Whether a constraint is `key = x`, by the bytes of both. */
static bool is_of_key(sqlite3_index_info *info, int number)
{
    return info->aConstraint[number].iColumn == KEY && info->aConstraint[number].usable
        && info->aConstraint[number].op == SQLITE_INDEX_CONSTRAINT_EQ
        && sqlite3_stricmp(sqlite3_vtab_collation(info, number), "BINARY") == 0;
}

/* As json_each: arguments are equalities with hidden columns, and must be usable. A key of jb_each
 * is looked up; SQLite tests the row again. */
static int choose_plan(sqlite3_vtab *table, sqlite3_index_info *info)
{
    bool is_tree = ((struct table *)table)->function->is_tree;
    int given[2] = { -1, -1 }, unusable[2] = { 0, 0 }, key = -1;
    for (int i = 0; i < info->nConstraint; i++) {
        int argument = info->aConstraint[i].iColumn - SOURCE;
        if (!is_tree && is_of_key(info, i)) key = i;
        if (argument < 0) continue;
        if (!info->aConstraint[i].usable) unusable[argument] = 1;
        else if (info->aConstraint[i].op == SQLITE_INDEX_CONSTRAINT_EQ) given[argument] = i;
    }
    for (int argument = 0; argument < 2; argument++)
        if (unusable[argument] && given[argument] < 0) return SQLITE_CONSTRAINT;
    info->idxNum = given[0] < 0 ? 0 : given[1] < 0 ? 1 : 2;
    for (int argument = 0; argument < info->idxNum; argument++) {
        info->aConstraintUsage[given[argument]].argvIndex = argument + 1;
        info->aConstraintUsage[given[argument]].omit = 1;
    }
    if (info->idxNum == 0) return SQLITE_OK;
    info->estimatedCost = 10;
    if (key < 0) return SQLITE_OK;
    info->aConstraintUsage[key].argvIndex = info->idxNum + 1;
    info->idxNum += WITH_KEY;
    info->estimatedCost = 1;
    info->estimatedRows = 1;
    return SQLITE_OK;
}

static int open_each(sqlite3_vtab *table, sqlite3_vtab_cursor **cursor)
{
    struct each *each = sqlite3_malloc(sizeof *each);
    (void)table;
    if (!each) return SQLITE_NOMEM;
    memset(each, 0, sizeof *each);
    *cursor = &each->base;
    return SQLITE_OK;
}

static void forget_arguments(struct each *each)
{
    sqlite3_value_free(each->source);
    sqlite3_value_free(each->root);
    sqlite3_value_free(each->wanted);
    each->source = each->root = each->wanted = NULL;
    if (each->has_steps) release(&each->steps);
    each->has_steps = false;
}

static int close_each(sqlite3_vtab_cursor *cursor)
{
    struct each *each = (struct each *)cursor;
    forget_arguments(each);
    sqlite3_free(each->levels);
    sqlite3_free(each);
    return SQLITE_OK;
}

static int fail_each(struct each *each, char *message)
{
    sqlite3_vtab *table = each->base.pVtab;
    sqlite3_free(table->zErrMsg);
    table->zErrMsg = message;
    each->is_end = true;
    return message ? SQLITE_ERROR : SQLITE_NOMEM;
}

/* The status is not OUT_OF_MEMORY: the calls here take no memory of the library. */
static int fail_each_by(struct each *each, uint32_t status, const char *note)
{
    return fail_each(each, status_message(function_of(each)->name, status, note));
}

static bool is_container(const struct kohiblad_value_kind *kind)
{
    return kind->kind == KOHIBLAD_ARRAY || kind->kind == KOHIBLAD_OBJECT;
}

static struct part part_of(const struct level *level, const struct kohiblad_place *place)
{
    return (struct part){ place->type, { level->container.at + place->offset, place->length } };
}

/* Moves the level to its next child. */
static uint32_t read_child(struct level *level)
{
    struct kohiblad_place key, value;
    uint32_t status;
    level->index = level->next.index;
    status = kohiblad_next(level->container.at, level->container.size, &level->next, &key, &value);
    if (status != KOHIBLAD_OK) return status;
    level->key = part_of(level, &key);
    level->value = part_of(level, &value);
    return KOHIBLAD_OK;
}

/* The deepest level. There is one. */
static struct level *deepest(const struct each *each)
{
    return &each->levels[each->depth - 1];
}

/* The value of the row. */
static const struct part *value_of(const struct each *each)
{
    return each->is_at_top ? &each->top : &deepest(each)->value;
}

/* Where the entry of the child is in the whole document. */
static sqlite3_int64 id_of_child(const struct each *each, const struct level *level)
{
    uint64_t before = level->kind.kind == KOHIBLAD_OBJECT ? level->kind.count : 0;
    return (level->container.at - each->document.at)
        + 4 * (sqlite3_int64)(1 + before + level->index);
}

static sqlite3_int64 id_of(const struct each *each)
{
    return each->is_at_top ? 0 : id_of_child(each, deepest(each));
}

/* Goes down into the value of the row, which is a container, before its first child. */
static int go_down(struct each *each, const struct kohiblad_value_kind *kind)
{
    struct level level = { .container = value_of(each)->payload, .kind = *kind, .id = id_of(each) };
    uint32_t status = kohiblad_begin(level.container.at, level.container.size, &level.next);
    if (status != KOHIBLAD_OK) return fail_each_by(each, status, NULL);
    if (each->depth == each->room) {
        size_t room = 2 * each->room + 4;
        struct level *levels = sqlite3_realloc64(each->levels, room * sizeof *levels);
        if (!levels) return fail_each(each, NULL);
        each->levels = levels;
        each->room = room;
    }
    each->levels[each->depth++] = level;
    each->is_at_top = false;
    return SQLITE_OK;
}

/* Moves to the next child of the deepest level, or to that of a level above. */
static int go_on(struct each *each)
{
    uint32_t status = KOHIBLAD_NONE;
    while (each->depth > 0) {
        status = read_child(deepest(each));
        if (status != KOHIBLAD_NONE) break;
        each->depth--;
    }
    if (status == KOHIBLAD_OK) return SQLITE_OK;
    each->is_end = true;
    return status == KOHIBLAD_NONE ? SQLITE_OK : fail_each_by(each, status, NULL);
}

static int find_top(struct each *each)
{
    const char *name = function_of(each)->name;
    struct bytes whole = { (const uint8_t *)"$", 1 };
    char *message;
    uint32_t status;
    if (sqlite3_value_type(each->source) != SQLITE_BLOB)
        return fail_each_by(each, KOHIBLAD_INVALID_JSONB, "a document is a BLOB");
    if (each->root && sqlite3_value_type(each->root) != SQLITE_TEXT)
        return fail_each_by(each, KOHIBLAD_OTHER_KIND, "names and paths are TEXT");
    each->path = whole;
    if (!bytes_of(each->source, &each->document)
        || (each->root && !bytes_of(each->root, &each->path)))
        return fail_each(each, NULL);
    status = open_path(name, each->path, &each->steps, &message);
    each->has_steps = status == KOHIBLAD_OK;
    if (each->has_steps)
        status = follow_path(name, each->document, &each->steps, &each->top, &each->last, &message);
    if (status == KOHIBLAD_NONE) return SQLITE_DONE;
    if (status != KOHIBLAD_OK) return fail_each(each, message);
    if (function_of(each)->is_tree
        && !kohiblad_check(each->document.at, each->document.size, KOHIBLAD_SQLITE_DEPTH))
        return fail_each_by(each, KOHIBLAD_INVALID_JSONB, NULL);
    return SQLITE_OK;
}

/* Looks the wanted key up: a name in an object, an index in an array. Of other keys, which SQLite
 * may convert before it compares them, all children are rows. */
static bool is_looked_up(const struct each *each, const struct kohiblad_value_kind *kind)
{
    int type = each->wanted ? sqlite3_value_type(each->wanted) : SQLITE_NULL;
    return (type == SQLITE_TEXT && kind->kind == KOHIBLAD_OBJECT)
        || (type == SQLITE_INTEGER && kind->kind == KOHIBLAD_ARRAY);
}

static int look_up(struct each *each)
{
    struct level *level = deepest(each);
    struct bytes container = level->container, name;
    struct kohiblad_place place;
    if (level->kind.kind == KOHIBLAD_ARRAY) {
        level->index = (uint64_t)sqlite3_value_int64(each->wanted);
        place = kohiblad_find_index(container.at, container.size, level->index);
    } else {
        if (!bytes_of(each->wanted, &name)) return fail_each(each, NULL);
        level->key = (struct part){ KOHIBLAD_TYPE_STRING, name };
        place = kohiblad_find_key(container.at, container.size, name.at, name.size);
    }
    each->is_only_row = true;
    each->is_end = place.status == KOHIBLAD_NONE || place.status == KOHIBLAD_INVALID_UTF8;
    if (each->is_end) return SQLITE_OK;
    if (place.status != KOHIBLAD_OK) return fail_each_by(each, place.status, NULL);
    level->value = part_of(level, &place);
    return SQLITE_OK;
}

/* A scalar is the only row, as in json_each. */
static int begin_walk(struct each *each)
{
    struct kohiblad_value_kind kind = kind_of_part(&each->top);
    int code;
    if (kind.status != KOHIBLAD_OK) return fail_each_by(each, kind.status, NULL);
    each->is_end = false;
    each->is_at_top = true;
    if (function_of(each)->is_tree || !is_container(&kind)) return SQLITE_OK;
    code = go_down(each, &kind);
    if (code != SQLITE_OK) return code;
    return is_looked_up(each, &kind) ? look_up(each) : go_on(each);
}

static bool is_null(sqlite3_value *value)
{
    return sqlite3_value_type(value) == SQLITE_NULL;
}

/* Copies the arguments: they may change before the walk ends. */
static bool keep_arguments(struct each *each, int plan, sqlite3_value **arguments)
{
    int count = plan & ARGUMENTS;
    each->source = sqlite3_value_dup(arguments[0]);
    if (count == 2) each->root = sqlite3_value_dup(arguments[1]);
    if (plan & WITH_KEY) each->wanted = sqlite3_value_dup(arguments[count]);
    return each->source && (count < 2 || each->root) && (!(plan & WITH_KEY) || each->wanted);
}

static int start_each(sqlite3_vtab_cursor *cursor, int plan, const char *text, int count,
                      sqlite3_value **arguments)
{
    struct each *each = (struct each *)cursor;
    int code;
    (void)text, (void)count;
    forget_arguments(each);
    each->row = 0;
    each->depth = 0;
    each->is_only_row = false;
    each->is_end = true;
    for (int i = 0; i < (plan & ARGUMENTS); i++)
        if (is_null(arguments[i])) return SQLITE_OK;
    if ((plan & ARGUMENTS) == 0) return SQLITE_OK;
    if (!keep_arguments(each, plan, arguments)) return fail_each(each, NULL);
    code = find_top(each);
    if (code == SQLITE_DONE) return SQLITE_OK;
    return code == SQLITE_OK ? begin_walk(each) : code;
}

static int next_each(sqlite3_vtab_cursor *cursor)
{
    struct each *each = (struct each *)cursor;
    each->row++;
    if (function_of(each)->is_tree) {
        struct kohiblad_value_kind kind = kind_of_part(value_of(each));
        int code = is_container(&kind) ? go_down(each, &kind) : SQLITE_OK;
        return code == SQLITE_OK ? go_on(each) : code;
    }
    if (!each->is_at_top && !each->is_only_row) return go_on(each);
    each->is_end = true;
    return SQLITE_OK;
}

static int is_end_of_each(sqlite3_vtab_cursor *cursor)
{
    return ((struct each *)cursor)->is_end;
}

/* The key of the top in jb_tree is the last step of the path. */
static void give_key(const struct caller *caller, const struct each *each)
{
    const struct step *last = &each->last;
    if (!each->is_at_top) {
        const struct level *level = deepest(each);
        if (level->kind.kind == KOHIBLAD_OBJECT) give_value(caller, &level->key);
        else sqlite3_result_int64(caller->context, (sqlite3_int64)level->index);
    } else if (function_of(each)->is_tree && last->value.payload.at) {
        if (last->kind == NAME)
            give_value(caller, &(struct part){ KOHIBLAD_TYPE_STRING, last->name });
        else sqlite3_result_int64(caller->context, (sqlite3_int64)last->index);
    }
}

static void give_atom(const struct caller *caller, const struct part *value)
{
    struct kohiblad_value_kind kind = kind_of_part(value);
    if (kind.status != KOHIBLAD_OK) fail(caller, kind.status);
    else if (!is_container(&kind)) give_value(caller, value);
}

/* The index of a member that was looked up is found by a walk, for those who ask. */
static void give_id(const struct caller *caller, const struct each *each)
{
    struct level level;
    if (each->is_only_row && deepest(each)->kind.kind == KOHIBLAD_OBJECT) {
        level = *deepest(each);
        while (read_child(&level) == KOHIBLAD_OK)
            if (level.value.payload.at == deepest(each)->value.payload.at
                && level.key.payload.size == deepest(each)->key.payload.size
                && memcmp(level.key.payload.at, deepest(each)->key.payload.at,
                          level.key.payload.size) == 0) break;
        sqlite3_result_int64(caller->context, id_of_child(each, &level));
    } else {
        sqlite3_result_int64(caller->context, id_of(each));
    }
}

static void give_parent(const struct caller *caller, const struct each *each)
{
    if (function_of(each)->is_tree && !each->is_at_top)
        sqlite3_result_int64(caller->context, deepest(each)->id);
}

static bool is_letter(uint8_t byte)
{
    return (byte >= 'a' && byte <= 'z') || (byte >= 'A' && byte <= 'Z');
}

/* Names of letters and digits are written without quotes, as in json_each. */
static bool is_plain(struct bytes name)
{
    if (name.size == 0 || !is_letter(name.at[0])) return false;
    for (size_t i = 1; i < name.size; i++)
        if (!is_letter(name.at[i]) && (name.at[i] < '0' || name.at[i] > '9')) return false;
    return true;
}

static void append_bytes(sqlite3_str *text, struct bytes bytes)
{
    sqlite3_str_append(text, (const char *)bytes.at, (int)bytes.size);
}

static void append_child(sqlite3_str *text, const struct level *level)
{
    struct bytes name = level->key.payload;
    if (level->kind.kind == KOHIBLAD_ARRAY) {
        sqlite3_str_appendf(text, "[%llu]", (sqlite3_uint64)level->index);
        return;
    }
    sqlite3_str_appendall(text, is_plain(name) ? "." : ".\"");
    append_bytes(text, name);
    if (!is_plain(name)) sqlite3_str_appendall(text, "\"");
}

/* The path to the top, and through so many levels. */
static void give_path(const struct caller *caller, const struct each *each, struct bytes top,
                      size_t levels)
{
    sqlite3_str *text = sqlite3_str_new(sqlite3_context_db_handle(caller->context));
    int code, size;
    append_bytes(text, top);
    for (size_t i = 0; i < levels; i++) append_child(text, &each->levels[i]);
    code = sqlite3_str_errcode(text);
    size = sqlite3_str_length(text);
    if (code == SQLITE_OK)
        sqlite3_result_text64(caller->context, sqlite3_str_finish(text), (sqlite3_uint64)size,
                              sqlite3_free, SQLITE_UTF8);
    else {
        sqlite3_free(sqlite3_str_finish(text));
        fail(caller, code == SQLITE_TOOBIG ? RESULT_TOO_BIG : KOHIBLAD_OUT_OF_MEMORY);
    }
}

/* How long the text of a path's last step is. A name between quotes has no quote in it. */
static size_t size_of_step(struct bytes text, const struct step *step)
{
    struct bytes name = step->name;
    size_t size = 1;
    if (step->kind == NAME) {
        bool is_quoted = name.size == 0
            || (text.at[text.size - 1] == '"' && name.at[name.size - 1] != '"');
        return name.size + (is_quoted ? 3 : 1);
    }
    while (text.at[text.size - size] != '[') size++;
    return size;
}

/* The path to the container that holds the row: of the top that is without its last step. */
static void give_path_of_parent(const struct caller *caller, const struct each *each)
{
    struct bytes top = each->path;
    if (each->is_at_top && function_of(each)->is_tree && each->last.value.payload.at)
        top.size -= size_of_step(top, &each->last);
    give_path(caller, each, top, each->is_at_top ? 0 : each->depth - 1);
}

static int give_column(sqlite3_vtab_cursor *cursor, sqlite3_context *context, int column)
{
    const struct each *each = (struct each *)cursor;
    struct caller caller = { context, function_of(each)->name };
    switch ((enum column)column) {
    case KEY: give_key(&caller, each); break;
    case VALUE: give_value(&caller, value_of(each)); break;
    case KIND: give_kind(&caller, value_of(each)); break;
    case DOCUMENT: give_document(&caller, value_of(each)); break;
    case TYPE: give_type(&caller, value_of(each)); break;
    case ATOM: give_atom(&caller, value_of(each)); break;
    case ID: give_id(&caller, each); break;
    case PARENT: give_parent(&caller, each); break;
    case FULLKEY:
        give_path(&caller, each, each->path, each->is_at_top ? 0 : each->depth);
        break;
    case PATH: give_path_of_parent(&caller, each); break;
    case SOURCE: sqlite3_result_value(context, each->source); break;
    case ROOT: if (each->root) sqlite3_result_value(context, each->root); break;
    }
    return SQLITE_OK;
}

static int give_row(sqlite3_vtab_cursor *cursor, sqlite3_int64 *row)
{
    *row = ((struct each *)cursor)->row;
    return SQLITE_OK;
}

static sqlite3_module each_module = {
    .xConnect = connect_each,
    .xBestIndex = choose_plan,
    .xDisconnect = disconnect_each,
    .xOpen = open_each,
    .xClose = close_each,
    .xFilter = start_each,
    .xNext = next_each,
    .xEof = is_end_of_each,
    .xColumn = give_column,
    .xRowid = give_row,
};

static const struct table_function functions[] = {
    { "jb_each", "CREATE TABLE jb_each(" COLUMNS ")", false },
    { "jb_tree", "CREATE TABLE jb_tree(" COLUMNS ")", true },
};

int register_each(sqlite3 *database)
{
    int code = SQLITE_OK;
    for (size_t i = 0; i < sizeof functions / sizeof *functions && code == SQLITE_OK; i++)
        code = sqlite3_create_module_v2(database, functions[i].name, &each_module,
                                        (void *)&functions[i], NULL);
    return code;
}
