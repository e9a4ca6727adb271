/* Stored documents: how they are taken from arguments, written, shown and refused.
 *
 * A value of the SQL type is a varlena whose bytes are one document of at most MAX_DEPTH levels.
 * Input, receive and the cast from bytea check that, so nothing checks a stored value again. No
 * call here reads outside a value whose bytes were damaged on the disk. */
#ifndef PG_KOHIBLAD_DOCUMENT_H
#define PG_KOHIBLAD_DOCUMENT_H

#include "postgres.h"

#if PG_VERSION_NUM >= 160000
#include "varatt.h"
#endif

#include "fmgr.h"
#include "utils/memutils.h"

#include <kohiblad.h>

/* No stored document nests deeper. */
#define MAX_DEPTH 1000

/* The bytes before the payload in the document of a scalar. */
#define SCALAR_FRONT 8

/* What comes before hexadecimal, as in bytea. No JSON text begins so. */
#define HEX_MARK "\\x"
#define HEX_MARK_SIZE 2

/* The first number of bytes that no text has, and no key. */
#define PAYLOAD_LIMIT (1 << 28)

/* The largest document of a number, a decimal of 128 bits. */
#define NUMBER_ROOM (SCALAR_FRONT + 18)

/* A header, and an entry word, of which each value and each key has one; and what each level but
 * the last takes at least: a header, and the entry word of the next. */
#define HEADER_SIZE 4
#define ENTRY_SIZE 4
#define LEVEL_SIZE 8

/* The kind in the first byte of a header, and the type in that of an entry word: docs/FORMAT.md. */
#define KIND_BITS 0xE0
#define ARRAY_BITS 0x80
#define OBJECT_BITS 0x40
#define SCALAR_BITS 0x20
#define TYPE_BITS 0x70

/* Loops over bytes ask after so many whether the query is cancelled. */
#define BYTES_UNCHECKED 65536

typedef struct Bytes {
    const uint8_t *at;
    size_t size;
} Bytes;

/* A value inside a document: the type of its entry, and its payload. */
typedef struct Part {
    uint32_t type;
    Bytes payload;
} Part;

/* Why a text is refused: the status of the library, and what the error says beside it. */
typedef struct Fault {
    uint32_t status;
    const char *detail;
} Fault;

/* A library call that reads bytes within a depth and writes as snprintf does. */
typedef uint32_t (*WriteCall)(const uint8_t *bytes, size_t size, size_t depth, uint8_t *out,
                              size_t room, size_t *length);

#pragma GCC visibility push(hidden)

static inline Bytes bytes_of(const struct varlena *value) {
    return (Bytes){(const uint8_t *)VARDATA_ANY(value), VARSIZE_ANY_EXHDR(value)};
}

/* Whether bytes begin as a document of this kind. A call of the library takes longer to say it. */
static inline bool has_kind(Bytes document, uint8_t bits) {
    return document.size >= HEADER_SIZE && (document.at[0] & KIND_BITS) == bits;
}

/* Whether bytes begin as an array or an object. */
static inline bool is_container_document(Bytes document) {
    return has_kind(document, OBJECT_BITS) || has_kind(document, ARRAY_BITS);
}

static inline bool are_same_bytes(Bytes left, Bytes right) {
    return left.size == right.size && memcmp(left.at, right.at, left.size) == 0;
}

/* The order of texts and keys: by bytes, and the shorter first. */
static inline int compare_bytes(Bytes left, Bytes right) {
    int order = memcmp(left.at, right.at, Min(left.size, right.size));
    if (order != 0) return order;
    return (left.size > right.size) - (left.size < right.size);
}

/* No document of so many bytes nests deeper, and none that is stored. */
static inline size_t depth_of_size(size_t size) {
    return Min(MAX_DEPTH, size / LEVEL_SIZE + 1);
}

/* The stack that a call takes over documents of this depth, where each level takes so much; and
 * that of most calls. */
static inline size_t stack_of_levels(size_t depth, size_t level) {
    return depth * level + KOHIBLAD_CALL_STACK;
}
static inline size_t stack_of_depth(size_t depth) {
    return stack_of_levels(depth, KOHIBLAD_LEVEL_STACK);
}

/* The name of a status, and what it means, NULL if its name says all. */
extern const char *name_of_status(uint32_t status);
extern const char *explanation(uint32_t status);

/* Raises an error that names the library's status, with what it means or with another detail. */
extern void refuse(uint32_t status, int code) pg_attribute_noreturn();
extern void refuse_because(uint32_t status, int code, const char *detail) pg_attribute_noreturn();

/* Whether a value can have so many bytes, and whether bytes are a document of at most MAX_DEPTH
 * levels. */
extern bool has_room(size_t bytes);
extern bool is_document(Bytes given);

/* Raises an error unless so much stack is left, unless a value can have so many bytes, and unless
 * bytes are a document of at most MAX_DEPTH levels. */
extern void check_stack_for(size_t bytes);
extern void check_room(size_t bytes);
extern void check_document(Bytes given, int code);

/* The result of a call over a document after `prefix` bytes that the caller fills in, and before a
 * zero byte; `guess` is the room that is tried first. */
extern char *write_after(size_t prefix, WriteCall call, Bytes document, size_t guess, int code,
                         size_t *length);

/* The result of a call over a document, or over a text of any depth, as a new value. */
extern struct varlena *write_value(WriteCall call, Bytes document, size_t guess, int code);
extern struct varlena *write_value_of_text(WriteCall call, Bytes text, size_t guess, int code);

/* A JSON text in the server's encoding, with escapes for the characters that this lacks; the same
 * bytes where it needs no other. */
extern Bytes server_json(Bytes json);

/* UTF-8 of the library as a plain text of the server's encoding, and texts of the server as
 * UTF-8. */
extern text *text_of_utf8(Bytes utf8);
extern Bytes utf8_of_server(const char *given, size_t size);
extern Bytes utf8_of_text(const text *name);

/* The kind of a document, and how many children it has. */
extern struct kohiblad_value_kind kind_of(Bytes document);

/* A document as a part, a part of a document as a part, and a part as a document of its own. */
extern Part part_of_document(Bytes document);
static inline Part part_at(Bytes document, struct kohiblad_place place) {
    return (Part){place.type, {document.at + place.offset, place.length}};
}
extern struct varlena *document_of_part(Part part);

/* How many bytes the document of a part has, and writing it. */
static inline size_t room_of_part(Part part) {
    return part.payload.size + (part.type == KOHIBLAD_TYPE_CONTAINER ? 0 : SCALAR_FRONT);
}
extern Bytes write_part(Part part, uint8_t *out, size_t room);

/* The order of two numbers, or of two extension values. */
extern int compare_scalars(Part left, Part right);

/* Whether a document is an extension value or holds one. */
extern bool holds_extension(Bytes document);

/* The compact text of a document. That of a part is that of a string without its quotes, and NULL
 * for null. */
extern text *compact_text(Bytes document);
extern text *plain_text(Part part);

/* The numeric of a part that is a number. */
extern Datum numeric_of_number(Part number);

/* Makes the jsonb of a document; false if jsonb cannot hold what is in it, or the server's encoding
 * is not UTF-8: the server says that of its text. The document is one, whose bytes were checked. */
extern bool make_jsonb(Bytes document, Datum *jsonb);

/* The document of a JSON text in UTF-8, which is refused as the text of a column is. */
extern struct varlena *document_of_json(Bytes utf8);

/* The same document, made of pieces of at least so many bytes, or of a text that is long. NULL if
 * it is not made so, and if the text is refused. */
extern struct varlena *document_of_pieces(Bytes utf8, size_t piece);
extern struct varlena *document_of_long_json(Bytes utf8);

/* Where and why a text in UTF-8 that is read within a depth is not JSON. */
extern Fault fault_of_text(Bytes utf8, size_t depth);

/* Whether a text of a column has a document in hexadecimal, and its bytes: NULL if they are not
 * hexadecimal, and at which byte. */
static inline bool is_hex(const char *given) {
    return strncmp(given, HEX_MARK, HEX_MARK_SIZE) == 0;
}
extern struct varlena *bytes_of_hex(const char *given, size_t *bad);

/* Whether the part is an array, and not an object. */
static inline bool is_array(Part container) {
    return has_kind(container.payload, ARRAY_BITS);
}

/* Whether a part is an array or an object, and which. */
static inline bool is_container(Part part) {
    return part.type == KOHIBLAD_TYPE_CONTAINER;
}
static inline bool is_object_part(Part part) {
    return is_container(part) && !is_array(part);
}
static inline bool is_array_part(Part part) {
    return is_container(part) && is_array(part);
}

#pragma GCC visibility pop

#endif
