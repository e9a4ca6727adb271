/* Texts in the encoding of the server, which may lack characters that documents have.
 *
 * JSON has escapes for such characters, in its strings, where all characters past ASCII are. A
 * plain text has none, and is refused. */
#include "document.h"

#include "catalog/namespace.h"
#include "lib/stringinfo.h"
#include "mb/pg_wchar.h"
#include "miscadmin.h"
#include "utils/builtins.h"

/* So many bytes are converted at once. */
#define CHUNK 1024

/* The room in which the server converts so many bytes, of which it needs one byte more. */
#define ROOM_FOR(size) (((size) + 1) * MAX_CONVERSION_GROWTH)

/* The first code point that is written as two surrogates, and the first of these. */
#define FIRST_PAIRED 0x10000
#define FIRST_HIGH 0xD800
#define FIRST_LOW 0xDC00

/* The server's functions between UTF-8 and its encoding, which are 0 if there are none. */
typedef struct Conversion {
    int encoding;
    Oid from_utf8, to_utf8;
} Conversion;

/* Converts a chunk by a function; false if it did not convert all of it. */
static bool convert(Oid function, int from, int to, Bytes chunk, uint8_t *out, size_t room,
                    size_t *size) {
    int done = pg_do_encoding_conversion_buf(function, from, to, (uint8_t *)chunk.at,
                                             (int)chunk.size, out, (int)room, true);
    *size = strlen((char *)out);
    return done == (int)chunk.size;
}

/* Appends a chunk in the server's encoding, if it is the same when it is read back. */
static bool append_converted(StringInfo out, const Conversion *conversion, Bytes chunk) {
    uint8_t there[ROOM_FOR(CHUNK)], back[ROOM_FOR(ROOM_FOR(CHUNK))];
    size_t size, size_back;
    int encoding = conversion->encoding;
    if (!OidIsValid(conversion->from_utf8) || !OidIsValid(conversion->to_utf8)) return false;
    if (!convert(conversion->from_utf8, PG_UTF8, encoding, chunk, there, sizeof there, &size) ||
        !convert(conversion->to_utf8, encoding, PG_UTF8, (Bytes){there, size}, back, sizeof back,
                 &size_back))
        return false;
    if (size_back != chunk.size || memcmp(back, chunk.at, chunk.size) != 0) return false;
    appendBinaryStringInfo(out, (char *)there, (int)size);
    return true;
}

static void append_escape(StringInfo out, const uint8_t *character) {
    pg_wchar point = utf8_to_unicode(character);
    if (point < FIRST_PAIRED) {
        appendStringInfo(out, "\\u%04x", point);
        return;
    }
    point -= FIRST_PAIRED;
    appendStringInfo(out, "\\u%04x\\u%04x", FIRST_HIGH + (point >> 10),
                     FIRST_LOW + (point & 0x3FF));
}

/* Appends a chunk of which something is to be escaped. */
static void append_characters(StringInfo out, const Conversion *conversion, Bytes chunk) {
    size_t size;
    for (size_t i = 0; i < chunk.size; i += size) {
        const uint8_t *character = chunk.at + i;
        size = pg_utf_mblen(character);
        if (size == 1)
            appendStringInfoChar(out, *character);
        else if (!append_converted(out, conversion, (Bytes){character, size}))
            append_escape(out, character);
    }
}

/* The first bytes of a text, as many as fit a chunk, up to the end of a character. */
static Bytes chunk_of(Bytes text) {
    size_t size = Min(text.size, CHUNK);
    while (size > 1 && size < text.size && (text.at[size] & 0xC0) == 0x80) size--;
    return (Bytes){text.at, size};
}

Bytes server_json(Bytes json) {
    int encoding = GetDatabaseEncoding();
    if (encoding == PG_UTF8 || encoding == PG_SQL_ASCII) return json;
    Conversion conversion = {encoding, FindDefaultConversionProc(PG_UTF8, encoding),
                             FindDefaultConversionProc(encoding, PG_UTF8)};
    StringInfoData out;
    initStringInfo(&out);
    while (json.size > 0) {
        CHECK_FOR_INTERRUPTS();
        Bytes chunk = chunk_of(json);
        if (!append_converted(&out, &conversion, chunk))
            append_characters(&out, &conversion, chunk);
        json = (Bytes){json.at + chunk.size, json.size - chunk.size};
    }
    return (Bytes){(uint8_t *)out.data, out.len};
}

/* A text that the server can hold: it ends texts by a zero byte, which a string here may have. */
text *text_of_utf8(Bytes utf8) {
    if (memchr(utf8.at, 0, utf8.size))
        ereport(ERROR, (errcode(ERRCODE_UNTRANSLATABLE_CHARACTER),
                        errmsg("kohiblad: \\u0000 cannot be converted to text")));
    const char *shown = (const char *)utf8.at;
    if (GetDatabaseEncoding() == PG_UTF8) return cstring_to_text_with_len(shown, utf8.size);
    char *converted = pg_any_to_server(shown, utf8.size, PG_UTF8);
    if (converted == shown) return cstring_to_text_with_len(shown, utf8.size);
    text *result = cstring_to_text(converted);
    pfree(converted);
    return result;
}

Bytes utf8_of_server(const char *given, size_t size) {
    char *utf8 = pg_server_to_any(given, size, PG_UTF8);
    return (Bytes){(const uint8_t *)utf8, utf8 == given ? size : strlen(utf8)};
}

Bytes utf8_of_text(const text *name) {
    return utf8_of_server(VARDATA_ANY(name), VARSIZE_ANY_EXHDR(name));
}
