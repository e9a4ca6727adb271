/* Full text search over documents: the words and places of a jsonb of the document, which are those
 * of its strings in the order of jsonb, without making one. */
#include "document.h"

#include "mb/pg_wchar.h"
#include "miscadmin.h"
#include "tsearch/ts_cache.h"
#include "tsearch/ts_utils.h"
#include "utils/fmgrprotos.h"

extern Datum pg_kohiblad_to_jsonb(PG_FUNCTION_ARGS);

/* The room for words at first, as the server has it. */
#define FIRST_WORDS 16

/* What is searched, and the words so far. */
typedef struct Search {
    Oid config;
    ParsedText words;
} Search;

/* A member of an object. */
typedef struct Member {
    Bytes key;
    Part value;
} Member;

static bool add_words(Search *search, Part part);

/* A string's words come one place further after those of the string before it. False if jsonb
 * cannot hold it. */
static bool add_string(Search *search, Bytes text) {
    ParsedText *words = &search->words;
    if (memchr(text.at, 0, text.size)) return false;
    if (!words->words) {
        words->lenwords = FIRST_WORDS;
        words->words = palloc(FIRST_WORDS * sizeof *words->words);
    }
    int before = words->curwords;
    parsetext(search->config, words, (char *)text.at, (int)text.size);
    if (words->curwords > before) words->pos++;
    return true;
}

/* jsonb has shorter keys first. */
static int compare_members(const void *left, const void *right) {
    CHECK_FOR_INTERRUPTS();
    const Member *l = left, *r = right;
    if (l->key.size != r->key.size) return l->key.size < r->key.size ? -1 : 1;
    return memcmp(l->key.at, r->key.at, l->key.size);
}

/* The children of a container, of which so many have room; those of an object in the order of
 * jsonb. False if jsonb cannot hold a key. */
static bool gather(Bytes container, bool is_list, Member *members, size_t room) {
    struct kohiblad_cursor cursor;
    struct kohiblad_place key, child;
    size_t count = 0;
    uint32_t status = kohiblad_begin(container.at, container.size, &cursor);
    while (status == KOHIBLAD_OK) {
        CHECK_FOR_INTERRUPTS();
        status = kohiblad_next(container.at, container.size, &cursor, &key, &child);
        if (status != KOHIBLAD_OK || count == room) break;
        Member member = {.value = part_at(container, child)};
        if (!is_list) member.key = part_at(container, key).payload;
        if (!is_list && memchr(member.key.at, 0, member.key.size)) return false;
        members[count++] = member;
    }
    if (status != KOHIBLAD_NONE || count != room)
        refuse(KOHIBLAD_INVALID_EOF, ERRCODE_DATA_CORRUPTED);
    if (!is_list) qsort(members, count, sizeof *members, compare_members);
    return true;
}

static bool add_children(Search *search, Bytes container) {
    check_stack_depth();
    struct kohiblad_value_kind kind = kind_of(container);
    if (kind.count > container.size / ENTRY_SIZE)
        refuse(KOHIBLAD_INVALID_EOF, ERRCODE_DATA_CORRUPTED);
    Member *members =
        MemoryContextAllocHuge(CurrentMemoryContext, (kind.count + 1) * sizeof *members);
    bool is_whole = gather(container, kind.kind == KOHIBLAD_ARRAY, members, kind.count);
    for (size_t i = 0; i < kind.count && is_whole; i++) {
        CHECK_FOR_INTERRUPTS();
        is_whole = add_words(search, members[i].value);
    }
    pfree(members);
    return is_whole;
}

/* Adds the words of a part; false if only jsonb says what they are. */
static bool add_words(Search *search, Part part) {
    switch (part.type) {
        case KOHIBLAD_TYPE_CONTAINER: return add_children(search, part.payload);
        case KOHIBLAD_TYPE_STRING: return add_string(search, part.payload);
        default: return part.type != KOHIBLAD_TYPE_EXTENSION;
    }
}

static Datum words_of(Oid config, Datum argument) {
    Search search = {.config = config};
    Bytes document = bytes_of(PG_DETOAST_DATUM_PACKED(argument));
    check_document(document, ERRCODE_DATA_CORRUPTED);
    if (GetDatabaseEncoding() == PG_UTF8 && add_words(&search, part_of_document(document)))
        return TSVectorGetDatum(make_tsvector(&search.words));
    Datum jsonb = DirectFunctionCall1(pg_kohiblad_to_jsonb, argument);
    return DirectFunctionCall2(jsonb_string_to_tsvector_byid, ObjectIdGetDatum(config), jsonb);
}

PG_FUNCTION_INFO_V1(pg_kohiblad_to_tsvector);
Datum pg_kohiblad_to_tsvector(PG_FUNCTION_ARGS) {
    return words_of(getTSCurrentConfig(true), PG_GETARG_DATUM(0));
}

PG_FUNCTION_INFO_V1(pg_kohiblad_to_tsvector_by);
Datum pg_kohiblad_to_tsvector_by(PG_FUNCTION_ARGS) {
    return words_of(PG_GETARG_OID(0), PG_GETARG_DATUM(1));
}
