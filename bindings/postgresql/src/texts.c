/* Documents as texts, which the server has in its own encoding.
 *
 * The text of a column is JSON, but for documents that hold an extension value: JSON has none, and
 * what is copied, dumped, or sent to another server as text must come back as it was. Those are
 * written in hexadecimal. The other functions show an extension value as a string: as the format
 * prints it, but a date, a timestamp or an interval by itself in ISO 8601. */
#include "document.h"

#include "miscadmin.h"
#include "utils/builtins.h"

/* The room for the text of a number that is tried first: most have it. */
#define SCALAR_TEXT_ROOM 44

/* The longest payload of a date, a timestamp or an interval: a tag, two counts and microseconds. */
#define MOST_OF_TIME 17

/* More than the characters of a number of 64 bits: its digits, or as many as its scale, a zero, a
 * point and a sign. */
#define NUMBER_TEXT_ROOM (KOHIBLAD_MOST_SCALE + 24)

/* The words for a fault, as a sentence in the server's encoding. */
Fault fault_of_text(Bytes utf8, size_t depth) {
    char words[KOHIBLAD_WORDS_ROOM];
    CHECK_FOR_INTERRUPTS();
    struct kohiblad_fault found = kohiblad_fault_words(
        utf8.at, utf8.size, depth, KOHIBLAD_EXPONENTS_ALLOWED, words, sizeof words);
    if (found.status != KOHIBLAD_INVALID_JSON && found.status != KOHIBLAD_BAD_NUMBER)
        return (Fault){found.status, explanation(found.status)};
    words[0] = pg_toupper((unsigned char)words[0]);
    Bytes shown = server_json((Bytes){(const uint8_t *)words, strlen(words)});
    return (Fault){found.status, psprintf("%.*s.", (int)shown.size, (const char *)shown.at)};
}

/* Parses a text, which takes no stack for its depth, and says where it is not JSON. */
static uint32_t parse(const uint8_t *given, size_t size, size_t depth, uint8_t *out, size_t room,
                      size_t *length) {
    uint32_t status =
        kohiblad_parse(given, size, depth, KOHIBLAD_EXPONENTS_ALLOWED, out, room, length);
    if (status != KOHIBLAD_INVALID_JSON) return status;
    Fault fault = fault_of_text((Bytes){given, size}, depth);
    refuse_because(fault.status, ERRCODE_INVALID_TEXT_REPRESENTATION, fault.detail);
}

struct varlena *document_of_json(Bytes utf8) {
    struct varlena *document = document_of_long_json(utf8);
    if (document) return document;
    return write_value_of_text(parse, utf8, 4 * utf8.size + SCALAR_FRONT,
                               ERRCODE_INVALID_TEXT_REPRESENTATION);
}

/* Texts are seldom longer than twice their documents. */
static size_t text_guess(Bytes document) {
    return 2 * document.size + 64;
}

/* The JSON text that a call wrote, as a text of the server. */
static text *server_text(struct varlena *written) {
    Bytes utf8 = bytes_of(written), json = server_json(utf8);
    if (json.at == utf8.at) return written;
    pfree(written);
    text *result = cstring_to_text_with_len((const char *)json.at, json.size);
    pfree((void *)json.at);
    return result;
}

text *compact_text(Bytes document) {
    struct varlena *shown = write_value(kohiblad_print, document, text_guess(document),
                                        ERRCODE_DATA_CORRUPTED);
    return server_text(shown);
}

/* The text of a scalar, which is written where it stays, or again with the room that it needs. */
static struct varlena *text_of_scalar(Part part) {
    size_t room = SCALAR_TEXT_ROOM, length;
    for (;;) {
        struct varlena *shown = palloc(VARHDRSZ + room);
        uint32_t status = kohiblad_print_at(part.type, part.payload.at, part.payload.size, 0,
                                            (uint8_t *)VARDATA(shown), room, &length);
        if (status == KOHIBLAD_OK) {
            SET_VARSIZE(shown, VARHDRSZ + length);
            return shown;
        }
        pfree(shown);
        if (status != KOHIBLAD_NO_ROOM) refuse(status, ERRCODE_DATA_CORRUPTED);
        check_room(length);
        room = length;
    }
}

/* The digits of a number at the end of some room, with zeros before them up to its scale and one
 * more, and with the point; where they begin. */
static char *put_decimal(char *end, uint64 digits, uint32_t scale) {
    char *at = end;
    for (uint32_t place = 0; digits > 0 || place <= scale; place++) {
        if (place == scale && scale > 0) *--at = '.';
        *--at = '0' + digits % 10;
        digits /= 10;
    }
    return at;
}

/* The text of a number of 64 bits, as kohiblad_print has it, which asks for memory for each; NULL
 * of a longer one. */
static text *text_of_number(Part number) {
    uint8_t document[NUMBER_ROOM];
    char room[NUMBER_TEXT_ROOM], *end = room + sizeof room;
    if (room_of_part(number) > sizeof document) return NULL;
    Bytes whole = write_part(number, document, sizeof document);
    struct kohiblad_decimal decimal = kohiblad_as_decimal(whole.at, whole.size);
    if (decimal.status != KOHIBLAD_OK || decimal.high != (int64)decimal.low >> 63) return NULL;
    uint64 digits = decimal.high < 0 ? -decimal.low : decimal.low;
    char *at = put_decimal(end, digits, Min(decimal.scale, KOHIBLAD_MOST_SCALE));
    if (decimal.high < 0) *--at = '-';
    return cstring_to_text_with_len(at, end - at);
}

/* The text in ISO 8601 of a date, a timestamp or an interval; NULL if the part is none. */
static text *text_of_time(Part part) {
    uint8_t document[SCALAR_FRONT + MOST_OF_TIME], shown[KOHIBLAD_TIME_TEXT_ROOM];
    size_t length;
    if (part.payload.size > MOST_OF_TIME) return NULL;
    Bytes whole = write_part(part, document, sizeof document);
    uint32_t status = kohiblad_text_of_extension(kohiblad_as_extension(whole.at, whole.size), shown,
                                                 sizeof shown, &length);
    return status == KOHIBLAD_OK ? cstring_to_text_with_len((char *)shown, length) : NULL;
}

static text *text_of_extension(Part part) {
    text *shown = text_of_time(part);
    if (shown) return shown;
    shown = server_text(text_of_scalar(part));
    text *unquoted = cstring_to_text_with_len(VARDATA(shown) + 1, VARSIZE(shown) - VARHDRSZ - 2);
    pfree(shown);
    return unquoted;
}

text *plain_text(Part part) {
    if (part.type == KOHIBLAD_TYPE_NULL) return NULL;
    if (part.type == KOHIBLAD_TYPE_STRING) return text_of_utf8(part.payload);
    if (part.type == KOHIBLAD_TYPE_CONTAINER) return compact_text(part.payload);
    if (part.type == KOHIBLAD_TYPE_EXTENSION) return text_of_extension(part);
    text *number = part.type == KOHIBLAD_TYPE_NUMBER ? text_of_number(part) : NULL;
    return number ? number : server_text(text_of_scalar(part));
}

/* Whether a part is an extension value or holds one. The walk reads each entry once. */
static bool finds_extension(Part part) {
    if (part.type != KOHIBLAD_TYPE_CONTAINER) return part.type == KOHIBLAD_TYPE_EXTENSION;
    check_stack_depth();
    Bytes container = part.payload;
    struct kohiblad_cursor cursor;
    struct kohiblad_place child;
    uint32_t status = kohiblad_begin(container.at, container.size, &cursor);
    while (status == KOHIBLAD_OK) {
        CHECK_FOR_INTERRUPTS();
        status = kohiblad_next(container.at, container.size, &cursor, NULL, &child);
        if (status == KOHIBLAD_OK && finds_extension(part_at(container, child))) return true;
    }
    if (status != KOHIBLAD_NONE) refuse(status, ERRCODE_DATA_CORRUPTED);
    return false;
}

/* Few documents need the walk: unless there are payloads of 2^24 bytes, the entry word of an
 * extension value begins with the byte of its type, which is rare in texts and small numbers. */
bool holds_extension(Bytes document) {
    if (document.size < 1 << 24 &&
        !memchr(document.at, KOHIBLAD_TYPE_EXTENSION >> 24, document.size))
        return false;
    return finds_extension(part_of_document(document));
}

static char *json_of_document(Bytes document) {
    size_t length;
    char *shown = write_after(0, kohiblad_print, document, text_guess(document),
                              ERRCODE_DATA_CORRUPTED, &length);
    return (char *)server_json((Bytes){(uint8_t *)shown, length}).at;
}

static char *hex_of_document(Bytes document) {
    size_t length = HEX_MARK_SIZE + 2 * document.size;
    check_room(length);
    char *shown = palloc(length + 1);
    memcpy(shown, HEX_MARK, HEX_MARK_SIZE);
    hex_encode((const char *)document.at, document.size, shown + HEX_MARK_SIZE);
    shown[length] = 0;
    return shown;
}

static int value_of_digit(char digit) {
    if (digit >= '0' && digit <= '9') return digit - '0';
    if (digit >= 'a' && digit <= 'f') return digit - 'a' + 10;
    if (digit >= 'A' && digit <= 'F') return digit - 'A' + 10;
    return -1;
}

static void pg_attribute_noreturn() refuse_hex(size_t place) {
    ereport(ERROR, (errcode(ERRCODE_INVALID_TEXT_REPRESENTATION), errmsg("kohiblad: BadHex"),
                    errdetail("The text stops being hexadecimal at byte %zu.", place)));
}

/* The zero byte after the text is no digit. */
struct varlena *bytes_of_hex(const char *given, size_t *bad) {
    size_t size = strlen(given);
    struct varlena *value = palloc(VARHDRSZ + size / 2);
    uint8_t *end = (uint8_t *)VARDATA(value);
    for (size_t i = HEX_MARK_SIZE; i < size; i += 2) {
        if (i % BYTES_UNCHECKED == 0) CHECK_FOR_INTERRUPTS();
        int high = value_of_digit(given[i]), low = high < 0 ? 0 : value_of_digit(given[i + 1]);
        if (high < 0 || low < 0) {
            *bad = high < 0 ? i : i + 1;
            return NULL;
        }
        *end++ = high << 4 | low;
    }
    SET_VARSIZE(value, end - (uint8_t *)value);
    return value;
}

static struct varlena *document_of_hex(const char *given) {
    size_t bad;
    struct varlena *value = bytes_of_hex(given, &bad);
    if (!value) refuse_hex(bad);
    check_document(bytes_of(value), ERRCODE_INVALID_BINARY_REPRESENTATION);
    return value;
}

PG_FUNCTION_INFO_V1(pg_kohiblad_in);
Datum pg_kohiblad_in(PG_FUNCTION_ARGS) {
    const char *given = PG_GETARG_CSTRING(0);
    if (is_hex(given)) PG_RETURN_POINTER(document_of_hex(given));
    PG_RETURN_POINTER(document_of_json(utf8_of_server(given, strlen(given))));
}

PG_FUNCTION_INFO_V1(pg_kohiblad_out);
Datum pg_kohiblad_out(PG_FUNCTION_ARGS) {
    struct varlena *value = PG_GETARG_VARLENA_PP(0);
    Bytes document = bytes_of(value);
    char *shown =
        holds_extension(document) ? hex_of_document(document) : json_of_document(document);
    PG_FREE_IF_COPY(value, 0);
    PG_RETURN_CSTRING(shown);
}

/* A text of lines that is written value by value, and the room for one of them. */
typedef struct Lines {
    char *at, *end;
    char *piece;
    size_t piece_room;
} Lines;

static void pg_attribute_noreturn() refuse_damaged(void) {
    refuse(KOHIBLAD_INVALID_JSONB, ERRCODE_DATA_CORRUPTED);
}

static void put(Lines *lines, const char *text, size_t size) {
    if (size > lines->end - lines->at) refuse_damaged();
    memcpy(lines->at, text, size);
    lines->at += size;
}

static void put_line_end(Lines *lines, int level) {
    put(lines, "\n", 1);
    if (2 * level > lines->end - lines->at) refuse_damaged();
    memset(lines->at, ' ', 2 * level);
    lines->at += 2 * level;
}

/* Puts what a call of the library writes of a part, with each of its lines indented. */
static void put_piece(Lines *lines, uint32_t (*call)(uint32_t, const uint8_t *, size_t, size_t,
                                                     uint8_t *, size_t, size_t *),
                      Part part, int level) {
    size_t length, depth = depth_of_size(part.payload.size);
    check_stack_for(stack_of_depth(depth));
    for (;;) {
        uint32_t status = call(part.type, part.payload.at, part.payload.size, depth,
                               (uint8_t *)lines->piece, lines->piece_room, &length);
        if (status == KOHIBLAD_OK) break;
        if (status != KOHIBLAD_NO_ROOM) refuse(status, ERRCODE_DATA_CORRUPTED);
        check_room(length);
        lines->piece_room = length;
        lines->piece = repalloc(lines->piece, length);
    }
    const char *text = lines->piece, *end = text + length, *line;
    for (; (line = memchr(text, '\n', end - text)); text = line + 1) {
        put(lines, text, line - text);
        put_line_end(lines, level);
    }
    put(lines, text, end - text);
}

static void put_lines(Lines *lines, Part part, int level);

/* Puts the children of a container of many bytes one after another. */
static void put_children(Lines *lines, Bytes container, int level) {
    bool is_list = is_array((Part){KOHIBLAD_TYPE_CONTAINER, container});
    struct kohiblad_cursor cursor;
    struct kohiblad_place key, child;
    put(lines, is_list ? "[" : "{", 1);
    uint32_t status = kohiblad_begin(container.at, container.size, &cursor);
    while (status == KOHIBLAD_OK) {
        CHECK_FOR_INTERRUPTS();
        bool is_first = cursor.index == 0;
        status = kohiblad_next(container.at, container.size, &cursor, &key, &child);
        if (status != KOHIBLAD_OK) break;
        if (!is_first) put(lines, ",", 1);
        put_line_end(lines, level + 1);
        if (!is_list) {
            put_piece(lines, kohiblad_print_at, part_at(container, key), 0);
            put(lines, ": ", 2);
        }
        put_lines(lines, part_at(container, child), level + 1);
    }
    if (status != KOHIBLAD_NONE) refuse(status, ERRCODE_DATA_CORRUPTED);
    put_line_end(lines, level);
    put(lines, is_list ? "]" : "}", 1);
}

static void put_lines(Lines *lines, Part part, int level) {
    check_stack_depth();
    if (is_container(part) && part.payload.size > BYTES_UNCHECKED)
        put_children(lines, part.payload, level);
    else
        put_piece(lines, kohiblad_pretty_at, part, level);
}

/* The pretty text of a container of many bytes, whose length was asked for: it is written where it
 * stays, a few bytes at a time. */
static struct varlena *long_lines(Bytes container, size_t length) {
    check_room(length);
    struct varlena *value = palloc(VARHDRSZ + length);
    Lines lines = {VARDATA(value), VARDATA(value) + length, palloc(BYTES_UNCHECKED),
                   BYTES_UNCHECKED};
    put_lines(&lines, (Part){KOHIBLAD_TYPE_CONTAINER, container}, 0);
    if (lines.at != lines.end) refuse_damaged();
    pfree(lines.piece);
    SET_VARSIZE(value, VARHDRSZ + length);
    return value;
}

/* Each line is indented, so the text may be a thousand times as long as the document: its length is
 * asked for first, without room for it. That of damaged bytes is `null`. */
static struct varlena *pretty_lines(Bytes document) {
    size_t length, depth = depth_of_size(document.size);
    if (document.size <= BYTES_UNCHECKED || !is_container(part_of_document(document)))
        return write_value(kohiblad_pretty, document, 0, ERRCODE_DATA_CORRUPTED);
    check_stack_for(stack_of_depth(depth));
    uint32_t status = kohiblad_pretty(document.at, document.size, depth, NULL, 0, &length);
    if (status != KOHIBLAD_NO_ROOM) refuse(status, ERRCODE_DATA_CORRUPTED);
    if (length == strlen("null")) refuse_damaged();
    return long_lines(document, length);
}

PG_FUNCTION_INFO_V1(pg_kohiblad_pretty);
Datum pg_kohiblad_pretty(PG_FUNCTION_ARGS) {
    PG_RETURN_TEXT_P(server_text(pretty_lines(bytes_of(PG_GETARG_VARLENA_PP(0)))));
}
