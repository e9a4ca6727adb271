/* Runs SQL with each allocation refused in turn: the answer is the right one or SQLITE_NOMEM, and
 * all memory is freed. Then passes hostile and broken documents, and makes results past SQLite's
 * limits of lengths and of memory. All in the locale of the environment, whose decimal point may be
 * a comma. Prints how many tests passed. The extension is its argument. */
#define _GNU_SOURCE
#include <dlfcn.h>
#include <locale.h>
#include <sqlite3.h>
#include <stdbool.h>
#include <stdint.h>
#include <stdio.h>
#include <stdlib.h>
#include <string.h>

static bool is_counting;
static long countdown; /* the allocation that comes when it is 0 is refused */

static size_t largest; /* that was asked for */

static bool is_refused(size_t size)
{
    if (size > largest) largest = size;
    return is_counting && countdown-- == 0;
}

/* The extension and its library find these before those of libc. */
void *malloc(size_t size)
{
    static void *(*next)(size_t);
    if (!next) next = (void *(*)(size_t))(uintptr_t)dlsym(RTLD_NEXT, "malloc");
    return is_refused(size) ? NULL : next(size);
}

void *realloc(void *block, size_t size)
{
    static void *(*next)(void *, size_t);
    if (!next) next = (void *(*)(void *, size_t))(uintptr_t)dlsym(RTLD_NEXT, "realloc");
    return is_refused(size) ? NULL : next(block, size);
}

static const char *extension;
static int passed;

static void fail(const char *what, const char *sql)
{
    fprintf(stderr, "tests/refuse.c: %s: %s\n", what, sql);
    exit(1);
}

static sqlite3 *open_database(void)
{
    sqlite3 *database;
    char *message = NULL;
    if (sqlite3_open(":memory:", &database) != SQLITE_OK
        || sqlite3_enable_load_extension(database, 1) != SQLITE_OK
        || sqlite3_load_extension(database, extension, NULL, &message) != SQLITE_OK)
        fail("the extension is not loaded", message ? message : "");
    return database;
}

enum { ANSWER = 128 };

/* The code of a statement, and the text of its only row or of its error. */
static int run(sqlite3 *database, const char *sql, const void *blob, int size, char *answer)
{
    sqlite3_stmt *statement;
    const unsigned char *text;
    int code = sqlite3_prepare_v2(database, sql, -1, &statement, NULL);
    *answer = 0;
    if (code == SQLITE_OK && blob)
        code = sqlite3_bind_blob(statement, 1, blob, size, SQLITE_STATIC);
    if (code == SQLITE_OK) code = sqlite3_step(statement);
    if (code == SQLITE_ROW) {
        text = sqlite3_column_text(statement, 0);
        if (text) snprintf(answer, ANSWER, "%s", (const char *)text);
        else if (sqlite3_errcode(database) == SQLITE_NOMEM) code = SQLITE_NOMEM;
    }
    sqlite3_finalize(statement);
    if (code == SQLITE_ERROR) snprintf(answer, ANSWER, "%s", sqlite3_errmsg(database));
    return code;
}

static const struct { const char *sql, *answer; } statements[] = {
    { "SELECT jb_text(jb('{\"a\":[1,2.50,\"x\"]}'))", "{\"a\":[1,2.50,\"x\"]}" },
    { "SELECT length(jb('\"' || replace(hex(zeroblob(5000)), '0', 'x') || '\"'))", "10008" },
    { "SELECT length(jb_pretty(jb('[1,{\"a\":2}]')))", "27" },
    { "SELECT length(jb_canonical(jb('[1.5]')))", "18" },
    { "SELECT jb_key(jb('5')) = jb_key(jb('5.0'))", "1" },
    { "SELECT jb_value(jb('{\"a\":[1,\"x\"]}'), '$.a[#-1]')", "x" },
    { "SELECT jb_value(jb('[1.50]'), '$[0]')", "1.50" },
    { "SELECT jb_value(x'20000000600000051000004E20', '$')", "2024-10-04" },
    { "SELECT jb_value(x'200000006000000350ABCD', '$')", "50abcd" },
    { "SELECT jb_value(jb_of(replace(hex(zeroblob(4000)), '0', 'x')), '$') LIKE 'xx%'", "1" },
    { "SELECT jb_text(jb_get(jb('{\"a\":{}}'), 'a'))", "{}" },
    { "SELECT jb_text(jb_group_array(value)) FROM json_each('[1,\"x\",null]')", "[1,\"x\",null]" },
    { "SELECT jb_text(jb_group_object(key, value)) FROM json_each('{\"b\":1,\"a\":\"x\"}')",
      "{\"a\":\"x\",\"b\":1}" },
    { "SELECT length(jb_group_array(jb(value))) FROM json_each('[[],[],[]]')", "28" },
    { "SELECT jb_text(jb_query(jb('{\"a\":[1,2.50]}'), '$.a[*] ? (@ > $x)', '{\"x\":2}'))",
      "[2.50]" },
    { "SELECT jb_text(jb_query_first(jb('{\"a\":[1,2.50]}'), '$.a[last]'))", "2.50" },
    { "SELECT jb_path_exists(jb('[7]'), '$[*] ? (@ > 6)') || jb_path_match(jb('7'), '$ > 7')",
      "10" },
    { "SELECT length(jb_query(jb_of(replace(hex(zeroblob(4000)), '0', 'x')), '$'))", "8008" },
    { "SELECT group_concat(key || value || kind) FROM jb_each(jb('{\"k\":[7]}'), '$.k')",
      "07number" },
    { "SELECT group_concat(key || fullkey || path || atom) FROM jb_tree(jb('{\"k\":[7]}'), '$.k')",
      "0$.k[0]$.k7" },
    { "SELECT value || id FROM jb_each(jb('{\"a\":[7,8]}'), '$.a') WHERE key = 1", "821" },
    { "SELECT value || id FROM jb_each(jb('{\"a\":1,\"b\":2}')) WHERE key = 'b'", "216" },
    { "SELECT sum(length(document)) FROM jb_each(jb('[1,\"x\",[]]'))", "23" },
    { "SELECT jb_number(jb('{\"a\":[1.50]}'), '$.a[0]')", "1.5" },
    { "SELECT jb_number(jb('-18446744073709551616.0'), '$')", "-1.84467440737096e+19" },
    { "SELECT jb_number(jb('12'), '$')", "12" },
    { "SELECT jb_compare(jb('[1.5]'), '[1.50]') || jb_compare(2, '\"x\"')", "0-1" },
    { "SELECT jb_compare('\"' || x || '\"', '\"' || x || '\"')"
      " FROM (SELECT hex(zeroblob(4000)) AS x)", "0" },
    { "SELECT json_group_array(jb_text(jb(value))) FROM json_each('[[1],{}]')", "[[1],{}]" },
    { "SELECT json_array(jb_value(jb('{\"a\":[1]}'), '$.a'), jb_pretty(jb('2')))", "[[1],2]" },
    { "SELECT jb_text(jb_of(json('[1, \"x\"]')))", "[1,\"x\"]" },
    { "SELECT jb_text(jb_group_array(value)) FROM json_each('[[1],{\"a\":2.50}]')",
      "[[1],{\"a\":2.50}]" },
    { "SELECT jb_text(jb_group_object(key, value)) FROM json_each('{\"a\":[1]}')",
      "{\"a\":[1]}" },
    { "SELECT jb_value(jb_group_array(jb_binary(x'00FF')), '$[0]')", "00ff" },
    { "SELECT hex(jb_blob(jb_group_array(jb_binary(x'00FF')), '$[0]'))", "00FF" },
    { "SELECT length(jb_blob(jb_binary(zeroblob(5000)), '$'))", "5000" },
    { "SELECT jb_text(jb_set(jb('{\"a\":[1]}'), '$.a[#]', 2, '$.b.c[0]', 'x'))",
      "{\"a\":[1,2],\"b\":{\"c\":[\"x\"]}}" },
    { "SELECT length(jb_set(jb('{}'), '$.a.b', hex(zeroblob(4000)), '$.c', json('[1]')))", "8045" },
    { "SELECT jb_text(jb_insert(jb('{\"a\":1}'), '$.a', 2, '$.b', 2))", "{\"a\":1,\"b\":2}" },
    { "SELECT jb_text(jb_remove(jb('{\"a\":[1],\"b\":2}'), '$.a[0]', '$.b'))", "{\"a\":[]}" },
    { "SELECT jb_text(jb_replace(jb('[1]'), '$', jb('{}')))", "{}" },
    { "SELECT jb_text(jb_array(1, json('[2]'), jb_object('a', 'x')))", "[1,[2],{\"a\":\"x\"}]" },
    { "SELECT jb_text(jb_group_array(value) OVER (ROWS BETWEEN 1 FOLLOWING AND 2 FOLLOWING))"
      " FROM json_each('[1,\"x\",[2],null]')", "[\"x\",\"[2]\"]" },
    { "SELECT jb_text(jb_group_object('k' || key, value) OVER (ROWS 1 PRECEDING))"
      " FROM json_each('[1,\"x\",[2],null]') LIMIT 1 OFFSET 3", "{\"k2\":\"[2]\",\"k3\":null}" },
    { "SELECT jb_text(jb_survey(jb_of(value), '$')) FROM json_each('[1,\"xy\",null]')",
      "{\"digits\":1,\"length\":2,\"null\":1,\"rows\":3,\"scales\":[0,0],\"text\":1,"
      "\"type\":\"mixed\",\"uint64\":1}" },
    { "SELECT jb_value(jb_survey(jb('9223372036854775808'), '$[' || key || ']'), '$.absent')"
      " FROM json_each('[1,2]')", "2" },
    { "SELECT jb_value(jb_survey(jb('9223372036854775808'), '$'), '$.type')", "uint64" },
    { "SELECT jb_contains(jb('{\"a\":[1,2]}'), '{\"a\":[2]}')", "1" },
    { "SELECT jb_exists(jb('{\"a\":1}'), 'a')", "1" },
    { "SELECT jb_exists_any(jb('{\"a\":1}'), '[\"b\",\"a\"]')", "1" },
    { "SELECT jb_exists_all(jb('[\"a\"]'), jb('[\"b\",\"a\"]'))", "0" },
    { "SELECT jb_text(jb_concat(jb('{\"a\":1}'), '{\"b\":2}'))", "{\"a\":1,\"b\":2}" },
    { "SELECT jb_text(jb_patch(jb('{\"a\":{\"b\":1,\"c\":2},\"d\":3}'),"
      " '{\"a\":{\"b\":null,\"e\":{\"f\":4}},\"d\":null}'))",
      "{\"a\":{\"c\":2,\"e\":{\"f\":4}}}" },
    { "SELECT length(jb_patch('{\"a\":1}', jb_object('b', hex(zeroblob(3000)))))", "6024" },
    { "SELECT jb_type(jb('[true]'), '$[0]') || jb_array_length(jb('[1]'))", "true1" },
    { "SELECT jb_version() LIKE '%.%.%'", "1" },
};

/* The place of a text's fault needs memory, and so does what could have come there: if one of these
 * is refused, the error is the second or the third. */
#define SHORT " of a number that is unfinished or too long, in "
static const struct { const char *sql, *error, *fewer, *unplaced; } faults[] = {
    { "SELECT jb('[1,]')", "jb: InvalidJson: expected a value at byte 3, found ']'",
      "jb: InvalidJson: at byte 3, found ']'", "jb: InvalidJson" },
    { "SELECT jb('[1, 1e99]')", "jb: BadNumber: at byte 7" SHORT "'1e99'", "", "jb: InvalidJson" },
    { "SELECT jb_of(json('[1e99]'))", "jb_of: BadNumber: at byte 4" SHORT "'1e99'", "",
      "jb_of: InvalidJson" },
    { "SELECT jb_compare(jb('1'), 'x')",
      "jb_compare: InvalidJson: expected a value at byte 0, found 'x'",
      "jb_compare: InvalidJson: at byte 0, found 'x'", "jb_compare: InvalidJson" },
    { "SELECT jb_compare('\"' || hex(zeroblob(4000)) || '\"', 'x')",
      "jb_compare: InvalidJson: expected a value at byte 0, found 'x'",
      "jb_compare: InvalidJson: at byte 0, found 'x'", "jb_compare: InvalidJson" },
    { "SELECT jb_set(jb('[]'), '$[0]', json('1e99'))",
      "jb_set: BadNumber: at byte 3" SHORT "'1e99'", "", "jb_set: InvalidJson" },
    { "SELECT jb_query(jb('1'), '$.')", "jb_query: the text is not a path:\n$.\n"
      "  ^ expected a key, `*`, `**` or a method at byte 2, found the end", "",
      "jb_query: OtherKind" },
    { "SELECT jb_array(json('1e99'))", "jb_array: BadNumber: at byte 3" SHORT "'1e99'", "",
      "jb_array: InvalidJson" },
    { "SELECT jb_group_array(json('1e99'))", "jb_group_array: BadNumber: at byte 3" SHORT "'1e99'",
      "", "jb_group_array: InvalidJson" },
};

static void expect(const char *sql, const char *got, const char *right, const char *fewer,
                   const char *unplaced)
{
    if (strcmp(got, right) && (!unplaced || (strcmp(got, fewer) && strcmp(got, unplaced))))
        fail(got, sql);
}

/* Refuses the first allocation, the second and so on, until the statement needs no more. SQLite can
 * do without some. `fewer` and `unplaced` are those of a fault, else null. */
static void refuse_each(const char *sql, const char *right, const char *fewer,
                        const char *unplaced)
{
    bool was_refused = true;
    for (long refused = 0; was_refused; refused++) {
        sqlite3_int64 used = sqlite3_memory_used();
        sqlite3 *database = open_database();
        char answer[ANSWER];
        int code;
        countdown = refused;
        is_counting = true;
        code = run(database, sql, NULL, 0, answer);
        is_counting = false;
        was_refused = countdown < 0;
        if (code == (unplaced ? SQLITE_ERROR : SQLITE_ROW))
            expect(sql, answer, right, fewer, was_refused ? unplaced : NULL);
        else if (code != SQLITE_NOMEM || !was_refused) fail(sqlite3_errmsg(database), sql);
        if (sqlite3_close(database) != SQLITE_OK) fail("the database stays open", sql);
        if (sqlite3_memory_used() != used) fail("memory is lost", sql);
        if (refused > 100000) fail("it takes memory without end", sql);
    }
    passed++;
}

/* Arrays inside one another, of so many levels. */
static uint8_t *nested(uint32_t levels, int *size)
{
    uint8_t *bytes = calloc(levels, 8), *at = bytes;
    *size = (int)(8 * levels - 4);
    for (uint32_t level = levels - 1; level > 0; level--, at += 8) {
        uint32_t entry = 0x50000000 | (8 * level - 4);
        at[0] = 0x80, at[3] = 1;
        for (int i = 0; i < 4; i++) at[4 + i] = (uint8_t)(entry >> (24 - 8 * i));
    }
    at[0] = 0x80;
    return bytes;
}

/* An answer with `code` SQLITE_ROW, else the message of the error. */
static const struct { const char *sql; int code; const char *answer; } hostile[] = {
    { "SELECT jb_valid(?)", SQLITE_ROW, "0" },
    { "SELECT jb(?)", SQLITE_ERROR, "jb: InvalidJsonb" },
    { "SELECT jb_of(?)", SQLITE_ERROR, "jb_of: InvalidJsonb" },
    { "SELECT jb_text(?)", SQLITE_ERROR, "jb_text: InvalidJsonb" },
    { "SELECT jb_pretty(?)", SQLITE_ERROR, "jb_pretty: InvalidJsonb" },
    { "SELECT jb_canonical(?)", SQLITE_ERROR, "jb_canonical: InvalidJsonb" },
    { "SELECT jb_value(?, '$')", SQLITE_ERROR, "jb_value: InvalidJsonb" },
    { "SELECT jb_group_array(?)", SQLITE_ERROR, "jb_group_array: InvalidJsonb" },
    { "SELECT jb_group_object('a', ?)", SQLITE_ERROR, "jb_group_object: InvalidJsonb" },
    { "SELECT jb_set(?, '$', 1)", SQLITE_ERROR, "jb_set: InvalidJsonb" },
    { "SELECT jb_insert(?, '$[0]', 1)", SQLITE_ERROR, "jb_insert: InvalidJsonb" },
    { "SELECT jb_set(jb('[]'), '$[#]', ?)", SQLITE_ERROR, "jb_set: InvalidJsonb" },
    { "SELECT jb_remove(?, '$[0][0]')", SQLITE_ERROR, "jb_remove: InvalidJsonb" },
    { "SELECT jb_contains(?, '[]')", SQLITE_ERROR, "jb_contains: InvalidJsonb" },
    { "SELECT jb_contains('[]', ?)", SQLITE_ERROR, "jb_contains: InvalidJsonb" },
    { "SELECT jb_exists(?, 'a')", SQLITE_ERROR, "jb_exists: InvalidJsonb" },
    { "SELECT jb_exists_any(?, '[]')", SQLITE_ERROR, "jb_exists_any: InvalidJsonb" },
    { "SELECT jb_exists_all(jb('{}'), ?)", SQLITE_ERROR, "jb_exists_all: InvalidJsonb" },
    { "SELECT jb_concat(?, 1)", SQLITE_ERROR, "jb_concat: InvalidJsonb" },
    { "SELECT jb_patch(?, '{}')", SQLITE_ERROR, "jb_patch: InvalidJsonb" },
    { "SELECT jb_patch('{}', ?)", SQLITE_ERROR, "jb_patch: InvalidJsonb" },
    { "SELECT jb_query(?, '$')", SQLITE_ERROR, "jb_query: InvalidJsonb" },
    { "SELECT jb_query_first(?, '$[0][0]')", SQLITE_ERROR, "jb_query_first: InvalidJsonb" },
    { "SELECT jb_path_exists(?, '$.a')", SQLITE_ERROR, "jb_path_exists: InvalidJsonb" },
    { "SELECT jb_path_match(jb('1'), '$ > 1', ?)", SQLITE_ERROR, "jb_path_match: InvalidJsonb" },
    { "SELECT jb_path_exists(?, '$.** ? (@ == $[*])')", SQLITE_ERROR,
      "jb_path_exists: TooManySteps" },
    { "SELECT jb_type(?)", SQLITE_ROW, "array" },
    { "SELECT jb_array(?)", SQLITE_ERROR, "jb_array: InvalidJsonb" },
    { "SELECT jb_object('a', ?)", SQLITE_ERROR, "jb_object: InvalidJsonb" },
    { "SELECT value FROM jb_each(?)", SQLITE_ERROR, "jb_each: InvalidJsonb" },
    { "SELECT kind FROM jb_each(?)", SQLITE_ROW, "array" },
    { "SELECT kind FROM jb_tree(?)", SQLITE_ERROR, "jb_tree: InvalidJsonb" },
    { "SELECT jb_key(?) > jb_key(jb('null'))", SQLITE_ROW, "1" },
    { "SELECT jb_compare(?1, 'null') - jb_compare('null', ?1) + jb_compare(?1, ?1)", SQLITE_ROW,
      "2" },
    { "SELECT jb_number(?, '$')", SQLITE_ROW, "" },
    { "SELECT jb_blob(?, '$')", SQLITE_ROW, "" },
    { "SELECT length(jb_blob(jb_binary(?), '$'))", SQLITE_ROW, "799996" },
    { "SELECT jb_kind(?)", SQLITE_ROW, "array" },
    { "SELECT jb_length(jb_at(?, '$[0][0]'))", SQLITE_ROW, "1" },
};

static void pass_hostile(void)
{
    sqlite3 *database = open_database();
    char answer[ANSWER];
    int size;
    uint8_t *bytes = nested(100000, &size);
    for (size_t i = 0; i < sizeof hostile / sizeof *hostile; i++, passed++) {
        int code = run(database, hostile[i].sql, bytes, size, answer);
        if (code != hostile[i].code || strcmp(answer, hostile[i].answer))
            fail(answer, hostile[i].sql);
    }
    free(bytes);
    if (sqlite3_close(database) != SQLITE_OK) fail("the database stays open", "");
}

static const struct { const char *sql; bool is_checked; } broken[] = {
    { "SELECT jb(?)", true },
    { "SELECT jb_of(?)", true },
    { "SELECT jb_text(?)", true },
    { "SELECT jb_pretty(?)", true },
    { "SELECT jb_canonical(?)", true },
    { "SELECT jb_group_array(?)", true },
    { "SELECT jb_group_object('a', ?)", true },
    { "SELECT jb_set(?, '$.a[#]', 1, '$.b.c', 'x')", true },
    { "SELECT jb_set(jb('{}'), '$.a.b', ?)", true },
    { "SELECT jb_replace(?, '$', 1)", true },
    { "SELECT jb_remove(?, '$.a[1]', '$.b.d')", true },
    { "SELECT jb_array(?, ?)", true },
    { "SELECT jb_contains(?, '{\"a\":[\"x\"]}')", true },
    { "SELECT jb_contains('[]', ?)", true },
    { "SELECT jb_exists(?, 'e')", true },
    { "SELECT jb_exists_any(?, '[\"x\",\"e\"]')", true },
    { "SELECT jb_exists_all(?, '[\"a\",\"e\"]')", true },
    { "SELECT jb_concat(?, '{\"a\":1}')", true },
    { "SELECT jb_patch(?, '{\"b\":{\"c\":null,\"d\":{\"x\":1}}}')", true },
    { "SELECT jb_patch('{\"b\":{\"c\":1}}', ?)", true },
    { "SELECT jb_query(?, '$.**')", true },
    { "SELECT jb_query_first(?, '$.a[*] ? (@ != null)')", true },
    { "SELECT jb_path_exists(?, '$.b.*')", true },
    { "SELECT jb_path_match(?, '$.a[0] == $.b.c')", true },
    { "SELECT jb_type(?, '$.b.c')", false },
    { "SELECT jb_value(?, '$')", false },
    { "SELECT jb_value(?, '$.a[#-1]')", false },
    { "SELECT jb_value(?, '$.e')", false },
    { "SELECT jb_at(?, '$.b.c')", false },
    { "SELECT jb_get(?, 'b')", false },
    { "SELECT group_concat(key || value || kind || document) FROM jb_each(?)", false },
    { "SELECT count(value) FROM jb_each(?, '$.b')", false },
    { "SELECT group_concat(fullkey || path || id) FROM jb_each(?)", false },
    { "SELECT max(value) || max(id) FROM jb_each(?) WHERE key = 'b'", false },
    { "SELECT max(value) || max(id) FROM jb_each(?, '$.a') WHERE key = 1", false },
    { "SELECT group_concat(value || fullkey || path || id || type) FROM jb_tree(?)", true },
    { "SELECT jb_key(?)", false },
    { "SELECT jb_compare(?, '{}')", false },
    { "SELECT jb_number(?, '$.b.c')", false },
    { "SELECT jb_number(?, '$.a[0]')", false },
    { "SELECT jb_blob(?, '$.e')", false },
    { "SELECT json_array(jb_value(?, '$.a'))", false },
    { "SELECT jb_length(?)", false },
    { "SELECT jb_kind(?)", false },
};

/* A document with one byte changed or its end cut off: each call ends with an answer or an error,
 * and those that check the whole document have an answer exactly if it is valid. */
static void pass_broken(sqlite3 *database, const uint8_t *bytes, int size)
{
    char valid[ANSWER], answer[ANSWER];
    uint8_t *copy = malloc(size ? (size_t)size : 1); /* so that valgrind sees its end */
    memcpy(copy, bytes, (size_t)size);
    if (run(database, "SELECT jb_valid(?)", copy, size, valid) != SQLITE_ROW) fail("valid", "");
    for (size_t i = 0; i < sizeof broken / sizeof *broken; i++) {
        int code = run(database, broken[i].sql, copy, size, answer);
        if (code != SQLITE_ROW && code != SQLITE_DONE && code != SQLITE_ERROR)
            fail(sqlite3_errmsg(database), broken[i].sql);
        if (*valid == '1' && code == SQLITE_ERROR) fail("refuses a document", broken[i].sql);
        if (*valid == '0' && code != SQLITE_ERROR && broken[i].is_checked)
            fail("takes what is no document", broken[i].sql);
    }
    free(copy);
}

static void break_each_byte(void)
{
    /* {"a":[1,"x",null],"b":{"c":2.50,"d":true},"e":a date} */
    static const uint8_t whole[] =
        "\x40\0\0\3\x10\0\0\1\x10\0\0\1\x10\0\0\1\x50\0\0\x13\x50\0\0\x20\x60\0\0\5abe"
        "\x80\0\0\3\x20\0\0\2\x10\0\0\1\0\0\0\0\x50\1x"
        "\x40\0\0\2\x10\0\0\1\x10\0\0\1\x20\0\0\x0a\x40\0\0\0cd\x70\0\0\0\0\0\0\0\xfa\2"
        "\x10\0\0\x4e\x20";
    enum { SIZE = sizeof whole - 1 };
    sqlite3 *database = open_database();
    char answer[ANSWER];
    uint8_t bytes[SIZE];
    if (run(database, "SELECT jb_valid(?)", whole, SIZE, answer) != SQLITE_ROW || *answer != '1')
        fail("the document is wrong", "");
    for (int at = 0; at < SIZE; at++) {
        static const uint8_t changes[] = { 1, 2, 4, 8, 16, 32, 64, 128, 255 };
        for (size_t change = 0; change < sizeof changes; change++) {
            memcpy(bytes, whole, SIZE);
            bytes[at] ^= changes[change];
            pass_broken(database, bytes, SIZE);
        }
        pass_broken(database, whole, at);
    }
    passed++;
    if (sqlite3_close(database) != SQLITE_OK) fail("the database stays open", "");
}

/* Results longer than SQLite's limit, with a first room for them and without. */
static const char *const too_big[] = {
    "SELECT jb_of(replace(hex(zeroblob(1000)), '0', 'x'))",
    "SELECT jb_text(jb_of(replace(hex(zeroblob(500)), '0', char(1))))",
    "SELECT jb_group_array(hex(zeroblob(400))) FROM json_each('[1,2,3]')",
    "SELECT jb_compare('[' || replace(hex(zeroblob(400)), '0', '1,') || '1]', 'null')",
    "SELECT jb_binary(zeroblob(1995))",
    "SELECT jb_set(jb('{}'), '$.a', hex(zeroblob(700)), '$.b', hex(zeroblob(700)))",
    "SELECT jb_set(jb('{}'), '$.' || hex(zeroblob(900)) || '.a', hex(zeroblob(100)))",
    "SELECT jb_array(hex(zeroblob(700)), hex(zeroblob(700)))",
    "SELECT jb_concat(jb_of(hex(zeroblob(700))), jb_of(hex(zeroblob(700))))",
    "SELECT jb_patch(jb_object('a', hex(zeroblob(700))), jb_object('b', hex(zeroblob(700))))",
};

static void pass_limit(void)
{
    sqlite3 *database = open_database();
    char answer[ANSWER];
    sqlite3_limit(database, SQLITE_LIMIT_LENGTH, 2000);
    for (size_t i = 0; i < sizeof too_big / sizeof *too_big; i++, passed++)
        if (run(database, too_big[i], NULL, 0, answer) != SQLITE_TOOBIG)
            fail(sqlite3_errmsg(database), too_big[i]);
    if (sqlite3_close(database) != SQLITE_OK) fail("the database stays open", "");
}

/* A text that is some sixty times as long as its document: 40,001 items within 200 arrays inside
 * one another, each indented. SQLite's limits decide before memory is asked for, also by the
 * library. */
static void pass_memory(void)
{
    static const char made[] = "CREATE TABLE deep AS SELECT jb("
        "replace(hex(zeroblob(100)), '0', '[') || replace(hex(zeroblob(40000)), '00', '1,')"
        " || '1' || replace(hex(zeroblob(100)), '0', ']')) AS doc";
    static const char pretty[] = "SELECT length(jb_pretty(doc)) FROM deep";
    static const char compact[] = "SELECT length(jb_text(doc)) FROM deep";
    sqlite3 *database = open_database();
    char answer[ANSWER];
    if (run(database, made, NULL, 0, answer) != SQLITE_DONE) fail("no document is made", made);
    /* 40,001 items, each after 400 blanks, and brackets after two for each level around them:
     * 40,001 * 403 + 2 * (2 * 199 * 200 / 2 + 2 * 200) - 2. */
    largest = 0;
    if (run(database, pretty, NULL, 0, answer) != SQLITE_ROW || strcmp(answer, "16200801"))
        fail(answer, pretty);
    if (largest > 2 * 16200801) fail("it asks for more than the text", pretty);
    sqlite3_hard_heap_limit64(2000000);
    if (run(database, compact, NULL, 0, answer) != SQLITE_ROW) fail(answer, compact);
    largest = 0;
    if (run(database, pretty, NULL, 0, answer) != SQLITE_NOMEM) fail(answer, pretty);
    if (largest > 2000000) fail("it asks for memory past the limit", pretty);
    sqlite3_hard_heap_limit64(0);
    sqlite3_limit(database, SQLITE_LIMIT_LENGTH, 2000000);
    largest = 0;
    if (run(database, pretty, NULL, 0, answer) != SQLITE_TOOBIG) fail(answer, pretty);
    if (largest > 2000000) fail("it asks for memory past the limit of lengths", pretty);
    if (sqlite3_close(database) != SQLITE_OK) fail("the database stays open", "");
    passed += 3;
}

int main(int count, char **arguments)
{
    if (count != 2) return 2;
    extension = arguments[1];
    if (!setlocale(LC_ALL, "")) fail("there is no such locale", "");
    sqlite3_initialize();
    for (size_t i = 0; i < sizeof statements / sizeof *statements; i++)
        refuse_each(statements[i].sql, statements[i].answer, NULL, NULL);
    for (size_t i = 0; i < sizeof faults / sizeof *faults; i++)
        refuse_each(faults[i].sql, faults[i].error, faults[i].fewer, faults[i].unplaced);
    pass_hostile();
    break_each_byte();
    pass_limit();
    pass_memory();
    printf("%d\n", passed);
    return 0;
}
