/* The functions that ask a document by a path of SQL/JSON. */
#include "extension.h"

#include <string.h>

SQLITE_EXTENSION_INIT3

/* Documents mostly have no more levels than these, and then fewer steps. */
enum { FLAT_LEVELS = 16 };

/* What a level of a document takes of bytes at least, but for the last one. */
enum { LEVEL_SIZE = 8 };

/* What an array of values mostly takes beside them. */
enum { ARRAY_FRONT = 64 };

/* The words about a text that is no path, which are those about a part of it. */
enum { REPORT_ROOM = 1024 };

/* What is asked of a document. No bytes are no variables. */
struct question {
    struct bytes document, path, variables;
    bool is_silent;
};

/* A function that asks a path. */
struct query {
    const char *name;
    void (*answer)(const struct caller *caller, const struct question *question);
};

/* The text of a path that was read, or the document of variables. SQLite keeps them for the next
 * rows if the argument is a constant. */
struct kept {
    size_t size;
    uint8_t bytes[];
};

static bool is_kept(const struct caller *caller, int index, struct bytes *bytes)
{
    const struct kept *kept = sqlite3_get_auxdata(caller->context, index);
    if (kept) *bytes = (struct bytes){ kept->bytes, kept->size };
    return kept != NULL;
}

/* SQLite may free it at once, and without memory nothing is kept: the call goes on with its own. */
static void keep(const struct caller *caller, int index, struct bytes bytes)
{
    struct kept *kept = sqlite3_malloc64(sizeof *kept + bytes.size);
    if (!kept) return;
    kept->size = bytes.size;
    if (bytes.size > 0) memcpy(kept->bytes, bytes.at, bytes.size);
    sqlite3_set_auxdata(caller->context, index, kept, sqlite3_free);
}

/* The text with a caret under the place. If memory for that is refused, the status is reported. */
static void fail_path(const struct caller *caller, struct bytes path)
{
    uint8_t report[REPORT_ROOM];
    size_t length;
    if (kohiblad_path_report(path.at, path.size, report, sizeof report, &length) == KOHIBLAD_OK)
        fail_with(caller, sqlite3_mprintf("%s: the text is not a path:\n%.*s", caller->name,
                                          (int)length, (const char *)report));
    else fail(caller, KOHIBLAD_OTHER_KIND);
}

/* What a path takes of stack for each byte that may nest it. */
enum { NESTING_STACK = 12288 };

/* Whether a path takes no more stack than it may. */
static bool is_carried(struct bytes path)
{
    size_t levels = 2;
    for (size_t i = 0; i < path.size; i++)
        if (path.at[i] && strchr("([?!+-*/%<>=&|", path.at[i])) levels++;
    return KOHIBLAD_SQLITE_PATH_STACK >= KOHIBLAD_PATH_STACK
        || levels <= KOHIBLAD_SQLITE_PATH_STACK / NESTING_STACK;
}

static bool is_path(const struct caller *caller, struct bytes path)
{
    uint32_t status = KOHIBLAD_TOO_DEEP;
    if (is_carried(path)) status = kohiblad_path_fault(path.at, path.size).status;
    if (status == KOHIBLAD_OTHER_KIND) fail_path(caller, path);
    else if (status != KOHIBLAD_OK) fail(caller, status);
    return status == KOHIBLAD_OK;
}

static bool get_path_text(const struct caller *caller, sqlite3_value **arguments, int index,
                          struct bytes *path)
{
    if (is_kept(caller, index, path)) return true;
    if (!get_text(caller, arguments[index], path) || !is_path(caller, *path)) return false;
    keep(caller, index, *path);
    return true;
}

/* The document that jb makes of the argument. After `true` the caller releases the buffer. */
static bool get_variables(const struct caller *caller, sqlite3_value **arguments, int index,
                          struct buffer *buffer, struct bytes *variables)
{
    buffer->at = buffer->small;
    if (is_kept(caller, index, variables)) return true;
    if (!make_document(caller, arguments[index], buffer, variables)) return false;
    keep(caller, index, *variables);
    return true;
}

static bool is_flat(struct bytes document)
{
    return document.size == 0 || kohiblad_check(document.at, document.size, FLAT_LEVELS);
}

static bool are_few(const struct question *question, size_t size, size_t levels)
{
    return steps_of_path(question->path, size, levels) <= KOHIBLAD_SQLITE_STEPS;
}

/* Whether the path takes few enough steps. */
static bool is_bounded(const struct question *question)
{
    size_t size = question->document.size + question->variables.size;
    size_t levels = size / LEVEL_SIZE + 1;
    if (levels > KOHIBLAD_SQLITE_DEPTH) levels = KOHIBLAD_SQLITE_DEPTH;
    return are_few(question, size, levels)
        || (are_few(question, size, FLAT_LEVELS) && is_flat(question->document)
            && is_flat(question->variables));
}

/* Reports why a path was given up, or what it was asked of refused. */
static void fail_query(const struct caller *caller, uint32_t status)
{
    if (status == KOHIBLAD_OTHER_KIND)
        fail_because(caller, status, "variables are an object");
    else if (status >= KOHIBLAD_MEMBER_NOT_FOUND && status <= KOHIBLAD_BOOLEAN_REQUIRED)
        fail_because(caller, status, kohiblad_status_reason(status));
    else fail(caller, status);
}

/* The document of the array of all values; of type `writer`. */
static uint32_t write_values(const void *input, uint8_t *out, size_t room, size_t *length)
{
    const struct question *it = input;
    return kohiblad_path_query(it->document.at, it->document.size, it->path.at, it->path.size,
                               it->variables.at, it->variables.size, it->is_silent,
                               KOHIBLAD_SQLITE_DEPTH, out, room, length);
}

static bool fill_values(const struct caller *caller, struct buffer *buffer,
                        const struct question *question)
{
    uint32_t status = try_fill(caller, buffer, write_values, question,
                               question->document.size + ARRAY_FRONT);
    if (status != KOHIBLAD_OK) fail_query(caller, status);
    return status == KOHIBLAD_OK;
}

/* A value that nests as deep as it may becomes an item, one level deeper. */
static void give_values(const struct caller *caller, const struct question *question)
{
    struct buffer buffer;
    if (!fill_values(caller, &buffer, question)) return;
    if (buffer.size / LEVEL_SIZE < KOHIBLAD_SQLITE_DEPTH
        || kohiblad_check(buffer.at, buffer.size, KOHIBLAD_SQLITE_DEPTH)) {
        give_blob(caller, &buffer);
    } else {
        release(&buffer);
        fail(caller, KOHIBLAD_INVALID_JSONB);
    }
}

static void give_first(const struct caller *caller, const struct question *question)
{
    struct buffer buffer;
    struct kohiblad_place place;
    if (!fill_values(caller, &buffer, question)) return;
    place = kohiblad_find_index(buffer.at, buffer.size, 0);
    if (place.status == KOHIBLAD_OK)
        give_document(caller, &(struct part){
            place.type, { buffer.at + place.offset, place.length } });
    release(&buffer);
}

/* A call of the library that answers by a truth. */
typedef struct kohiblad_truth truth_call(const uint8_t *bytes, size_t size, const uint8_t *path,
                                         size_t path_size, const uint8_t *variables,
                                         size_t variables_size, uint32_t silent, size_t depth);

/* What is unknown is NULL. */
static void give_truth(const struct caller *caller, const struct question *it, truth_call *call)
{
    struct kohiblad_truth truth = call(it->document.at, it->document.size, it->path.at,
                                       it->path.size, it->variables.at, it->variables.size,
                                       it->is_silent, KOHIBLAD_SQLITE_DEPTH);
    if (truth.status == KOHIBLAD_OK) sqlite3_result_int(caller->context, (int)truth.value);
    else if (truth.status != KOHIBLAD_NONE) fail_query(caller, truth.status);
}

static void give_existence(const struct caller *caller, const struct question *question)
{
    give_truth(caller, question, kohiblad_path_exists);
}

static void give_match(const struct caller *caller, const struct question *question)
{
    give_truth(caller, question, kohiblad_path_match);
}

/* The document, the path, its variables and whether it is silent. */
enum { DOCUMENT, PATH, VARIABLES, SILENT, MOST_ARGUMENTS };

static void answer(const struct caller *caller, const struct query *query,
                   const struct question *question)
{
    if (is_bounded(question)) query->answer(caller, question);
    else fail(caller, KOHIBLAD_TOO_MANY_STEPS);
}

static void run(sqlite3_context *context, int count, sqlite3_value **arguments)
{
    const struct query *query = sqlite3_user_data(context);
    struct caller caller = { context, query->name };
    struct question question = { 0 };
    struct buffer buffer;
    for (int i = 0; i < count; i++)
        if (sqlite3_value_type(arguments[i]) == SQLITE_NULL) return;
    question.is_silent = count > SILENT && sqlite3_value_int(arguments[SILENT]) != 0;
    if (!get_document(&caller, arguments[DOCUMENT], &question.document)
        || !get_path_text(&caller, arguments, PATH, &question.path))
        return;
    if (count <= VARIABLES) {
        answer(&caller, query, &question);
    } else if (get_variables(&caller, arguments, VARIABLES, &buffer, &question.variables)) {
        answer(&caller, query, &question);
        release(&buffer);
    }
}

static const struct query queries[] = {
    { "jb_query", give_values },
    { "jb_query_first", give_first },
    { "jb_path_exists", give_existence },
    { "jb_path_match", give_match },
};

int register_queries(sqlite3 *database)
{
    int flags = SQLITE_UTF8 | SQLITE_DETERMINISTIC | SQLITE_INNOCUOUS;
    int code = SQLITE_OK;
    for (size_t i = 0; i < sizeof queries / sizeof *queries; i++)
        for (int count = PATH + 1; count <= MOST_ARGUMENTS && code == SQLITE_OK; count++)
            code = sqlite3_create_function_v2(database, queries[i].name, count, flags,
                                              (void *)&queries[i], run, NULL, NULL, NULL);
    return code;
}
