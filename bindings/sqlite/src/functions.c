/* The scalar functions. */
#include "extension.h"

SQLITE_EXTENSION_INIT3

struct function {
    const char *name;
    int arguments;
    int flags;
    bool takes_null; /* else NULL gives NULL */
    void (*run)(const struct caller *caller, sqlite3_value **arguments);
};

static void give_same(const struct caller *caller, sqlite3_value *value)
{
    struct bytes document;
    if (get_checked(caller, value, &document)) sqlite3_result_value(caller->context, value);
}

static void give_document_of(const struct caller *caller, sqlite3_value *value, bool is_json)
{
    struct buffer buffer;
    struct sql_value sql_value;
    if (sqlite3_value_type(value) == SQLITE_BLOB)
        give_same(caller, value);
    else if (get_sql_value(caller, value, is_json, &sql_value)
             && fill_document(caller, &buffer, &sql_value))
        give_blob(caller, &buffer);
}

static void jb(const struct caller *caller, sqlite3_value **arguments)
{
    give_document_of(caller, *arguments, true);
}

static void jb_of(const struct caller *caller, sqlite3_value **arguments)
{
    give_document_of(caller, *arguments, has_json_subtype(*arguments));
}

static void jb_binary(const struct caller *caller, sqlite3_value **arguments)
{
    struct buffer buffer;
    struct bytes data;
    if (get_data(caller, *arguments, &data)
        && fill(caller, &buffer, write_binary, &data, SCALAR_FRONT + 1 + data.size))
        give_blob(caller, &buffer);
}

static void jb_text(const struct caller *caller, sqlite3_value **arguments)
{
    struct bytes document;
    if (get_checked(caller, *arguments, &document)) give_compact(caller, document);
}

/* The text may be hundreds of times as long as the document. So no memory is taken before the
 * length is known. */
static void jb_pretty(const struct caller *caller, sqlite3_value **arguments)
{
    struct buffer buffer;
    struct bytes document;
    if (get_checked(caller, *arguments, &document)
        && fill(caller, &buffer, write_pretty, &document, 0))
        give_json(caller, &buffer);
}

static void jb_canonical(const struct caller *caller, sqlite3_value **arguments)
{
    struct buffer buffer;
    struct bytes document;
    if (get_document(caller, *arguments, &document)
        && fill(caller, &buffer, write_canonical, &document, document.size))
        give_blob(caller, &buffer);
}

static void jb_key(const struct caller *caller, sqlite3_value **arguments)
{
    struct buffer buffer;
    struct bytes document;
    if (get_document(caller, *arguments, &document)
        && fill(caller, &buffer, write_key, &document, document.size))
        give_blob(caller, &buffer);
}

/* Calls `use` with the documents that jb makes of both arguments. */
static void with_both(const struct caller *caller, sqlite3_value **arguments,
                      void (*use)(const struct caller *, const struct documents *))
{
    struct buffer left, right;
    struct documents both;
    if (!make_document(caller, arguments[0], &left, &both.left)) return;
    if (make_document(caller, arguments[1], &right, &both.right)) {
        use(caller, &both);
        release(&right);
    }
    release(&left);
}

static void give_order(const struct caller *caller, const struct documents *both)
{
    sqlite3_result_int(caller->context,
                       kohiblad_compare(both->left.at, both->left.size, both->right.at,
                                        both->right.size, KOHIBLAD_SQLITE_DEPTH));
}

static void jb_compare(const struct caller *caller, sqlite3_value **arguments)
{
    with_both(caller, arguments, give_order);
}

static void give_truth(const struct caller *caller, struct kohiblad_truth truth)
{
    if (truth.status == KOHIBLAD_OK) sqlite3_result_int(caller->context, (int)truth.value);
    else fail(caller, truth.status);
}

static struct kohiblad_truth contains_in_steps(const struct documents *both, size_t steps)
{
    return kohiblad_contains(both->left.at, both->left.size, both->right.at, both->right.size,
                             KOHIBLAD_SQLITE_DEPTH, steps);
}

/* So many steps take less than a tenth of a second. */
enum { FIRST_STEPS = 1000000 };

/* The call gives up after some steps and begins anew with four times as many, so that a query can
 * be interrupted between two calls. Where SQLite cannot say that it was, there is one call. */
static void give_contains(const struct caller *caller, const struct documents *both)
{
    size_t steps = KOHIBLAD_SQLITE_STEPS;
    struct kohiblad_truth truth;
    if (has_interrupts() && steps > FIRST_STEPS) steps = FIRST_STEPS;
    truth = contains_in_steps(both, steps);
    while (truth.status == KOHIBLAD_TOO_MANY_STEPS && steps < KOHIBLAD_SQLITE_STEPS) {
        if (is_interrupted(caller)) {
            truth.status = INTERRUPTED;
            break;
        }
        steps = steps < KOHIBLAD_SQLITE_STEPS / 4 ? 4 * steps : KOHIBLAD_SQLITE_STEPS;
        truth = contains_in_steps(both, steps);
    }
    give_truth(caller, truth);
}

static void jb_contains(const struct caller *caller, sqlite3_value **arguments)
{
    with_both(caller, arguments, give_contains);
}

/* An object beside a value that is none becomes an item, one level deeper. */
static void give_concat(const struct caller *caller, const struct documents *both)
{
    struct buffer buffer;
    if (!fill(caller, &buffer, write_concat, both, both->left.size + both->right.size + 12)) return;
    if (kohiblad_check(buffer.at, buffer.size, KOHIBLAD_SQLITE_DEPTH)) {
        give_blob(caller, &buffer);
    } else {
        release(&buffer);
        fail(caller, KOHIBLAD_INVALID_JSONB);
    }
}

static void jb_concat(const struct caller *caller, sqlite3_value **arguments)
{
    with_both(caller, arguments, give_concat);
}

static void give_patched(const struct caller *caller, const struct documents *both)
{
    struct buffer buffer;
    if (fill(caller, &buffer, write_patched, both, both->left.size + both->right.size))
        give_blob(caller, &buffer);
}

static void jb_patch(const struct caller *caller, sqlite3_value **arguments)
{
    with_both(caller, arguments, give_patched);
}

static void jb_exists(const struct caller *caller, sqlite3_value **arguments)
{
    struct bytes document, key;
    if (get_document(caller, arguments[0], &document) && get_text(caller, arguments[1], &key))
        give_truth(caller, kohiblad_exists(document.at, document.size, key.at, key.size,
                                           KOHIBLAD_SQLITE_DEPTH));
}

/* Whether some or all of several keys are there, of which the call is told by a document. */
typedef struct kohiblad_truth key_test(const uint8_t *bytes, size_t size, const uint8_t *names,
                                       size_t names_size, size_t depth);

static void test_keys(const struct caller *caller, sqlite3_value **arguments, key_test *test)
{
    struct bytes document, names;
    struct buffer buffer;
    if (!get_document(caller, arguments[0], &document)
        || !make_document(caller, arguments[1], &buffer, &names))
        return;
    give_truth(caller, test(document.at, document.size, names.at, names.size,
                            KOHIBLAD_SQLITE_DEPTH));
    release(&buffer);
}

static void jb_exists_any(const struct caller *caller, sqlite3_value **arguments)
{
    test_keys(caller, arguments, kohiblad_exists_any);
}

static void jb_exists_all(const struct caller *caller, sqlite3_value **arguments)
{
    test_keys(caller, arguments, kohiblad_exists_all);
}

static void jb_valid(const struct caller *caller, sqlite3_value **arguments)
{
    struct bytes bytes;
    if (sqlite3_value_type(*arguments) != SQLITE_BLOB)
        sqlite3_result_int(caller->context, 0);
    else if (get_document(caller, *arguments, &bytes))
        sqlite3_result_int(caller->context,
                           kohiblad_check(bytes.at, bytes.size, KOHIBLAD_SQLITE_DEPTH));
}

/* Makes a part, in some form, the result. */
typedef void part_giver(const struct caller *caller, const struct part *part);

static void give_whole(const struct caller *caller, sqlite3_value **arguments, part_giver *give)
{
    struct bytes document;
    if (!get_document(caller, *arguments, &document)) return;
    give(caller, &(struct part){ KOHIBLAD_TYPE_CONTAINER, document });
}

static void jb_kind(const struct caller *caller, sqlite3_value **arguments)
{
    give_whole(caller, arguments, give_kind);
}

static void jb_type(const struct caller *caller, sqlite3_value **arguments)
{
    give_whole(caller, arguments, give_type);
}

static void jb_array_length(const struct caller *caller, sqlite3_value **arguments)
{
    give_whole(caller, arguments, give_array_length);
}

static void jb_length(const struct caller *caller, sqlite3_value **arguments)
{
    struct bytes document;
    struct kohiblad_value_kind kind;
    if (!get_document(caller, *arguments, &document)) return;
    kind = kohiblad_kind(document.at, document.size);
    if (kind.status != KOHIBLAD_OK) fail(caller, kind.status);
    else if (kind.kind == KOHIBLAD_ARRAY || kind.kind == KOHIBLAD_OBJECT)
        sqlite3_result_int64(caller->context, (sqlite3_int64)kind.count);
}

static void jb_get(const struct caller *caller, sqlite3_value **arguments)
{
    struct bytes document, name;
    struct kohiblad_place place;
    if (!get_document(caller, arguments[0], &document) || !get_text(caller, arguments[1], &name))
        return;
    place = kohiblad_find_key(document.at, document.size, name.at, name.size);
    if (place.status == KOHIBLAD_OK)
        give_document(caller, &(struct part){
            place.type, { document.at + place.offset, place.length } });
    else if (place.status != KOHIBLAD_NONE) fail(caller, place.status);
}

static void give_at(const struct caller *caller, sqlite3_value **arguments, part_giver *give)
{
    const struct buffer *path;
    struct bytes document;
    struct step last;
    struct part part;
    char *message;
    uint32_t status;
    if (!get_document(caller, arguments[0], &document)
        || !(path = kept_path(caller, arguments, 1)))
        return;
    status = follow_path(caller->name, document, path, &part, &last, &message);
    if (status == KOHIBLAD_OK) give(caller, &part);
    else if (status != KOHIBLAD_NONE) fail_with(caller, message);
}

static void jb_at(const struct caller *caller, sqlite3_value **arguments)
{
    give_at(caller, arguments, give_document);
}

static void jb_value(const struct caller *caller, sqlite3_value **arguments)
{
    give_at(caller, arguments, give_value);
}

static void jb_number(const struct caller *caller, sqlite3_value **arguments)
{
    give_at(caller, arguments, give_number);
}

static void jb_blob(const struct caller *caller, sqlite3_value **arguments)
{
    give_at(caller, arguments, give_data);
}

static void jb_type_at(const struct caller *caller, sqlite3_value **arguments)
{
    give_at(caller, arguments, give_type);
}

static void jb_array_length_at(const struct caller *caller, sqlite3_value **arguments)
{
    give_at(caller, arguments, give_array_length);
}

/* The library's version in digits: millions, thousands and ones. */
static void jb_version(const struct caller *caller, sqlite3_value **arguments)
{
    uint32_t version = kohiblad_version();
    char text[sizeof "4294.999.999"];
    (void)arguments;
    sqlite3_snprintf(sizeof text, text, "%u.%u.%u", version / 1000000, version / 1000 % 1000,
                     version % 1000);
    sqlite3_result_text(caller->context, text, -1, SQLITE_TRANSIENT);
}

/* All but jb_version return the same for the same arguments, also after an upgrade, unless
 * CHANGELOG.md says which indexes to make again. */
enum {
    SAME = SQLITE_DETERMINISTIC,
    READS_SUBTYPE = SAME | SQLITE_SUBTYPE,
    SETS_SUBTYPE = SAME | SQLITE_RESULT_SUBTYPE
};

static const struct function functions[] = {
    { "jb", 1, SAME, false, jb },
    { "jb_of", 1, READS_SUBTYPE, true, jb_of },
    { "jb_binary", 1, SAME, false, jb_binary },
    { "jb_text", 1, SETS_SUBTYPE, false, jb_text },
    { "jb_pretty", 1, SETS_SUBTYPE, false, jb_pretty },
    { "jb_canonical", 1, SAME, false, jb_canonical },
    { "jb_key", 1, SAME, false, jb_key },
    { "jb_compare", 2, SAME, false, jb_compare },
    { "jb_contains", 2, SAME, false, jb_contains },
    { "jb_exists", 2, SAME, false, jb_exists },
    { "jb_exists_any", 2, SAME, false, jb_exists_any },
    { "jb_exists_all", 2, SAME, false, jb_exists_all },
    { "jb_concat", 2, SAME, false, jb_concat },
    { "jb_patch", 2, SAME, false, jb_patch },
    { "jb_valid", 1, SAME, false, jb_valid },
    { "jb_kind", 1, SAME, false, jb_kind },
    { "jb_type", 1, SAME, false, jb_type },
    { "jb_type", 2, SAME, false, jb_type_at },
    { "jb_length", 1, SAME, false, jb_length },
    { "jb_array_length", 1, SAME, false, jb_array_length },
    { "jb_array_length", 2, SAME, false, jb_array_length_at },
    { "jb_get", 2, SAME, false, jb_get },
    { "jb_at", 2, SAME, false, jb_at },
    { "jb_value", 2, SETS_SUBTYPE, false, jb_value },
    { "jb_number", 2, SAME, false, jb_number },
    { "jb_blob", 2, SAME, false, jb_blob },
    { "jb_version", 0, 0, false, jb_version },
};

static void run(sqlite3_context *context, int count, sqlite3_value **arguments)
{
    const struct function *function = sqlite3_user_data(context);
    struct caller caller = { context, function->name };
    for (int i = 0; i < count; i++)
        if (sqlite3_value_type(arguments[i]) == SQLITE_NULL && !function->takes_null) return;
    function->run(&caller, arguments);
}

int register_functions(sqlite3 *database)
{
    int code = SQLITE_OK;
    for (size_t i = 0; i < sizeof functions / sizeof *functions && code == SQLITE_OK; i++) {
        const struct function *function = &functions[i];
        int flags = SQLITE_UTF8 | SQLITE_INNOCUOUS | function->flags;
        code = sqlite3_create_function_v2(database, function->name, function->arguments, flags,
                                          (void *)function, run, NULL, NULL, NULL);
    }
    return code;
}
