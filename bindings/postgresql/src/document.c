#include "document.h"

#include "libpq/pqformat.h"
#include "miscadmin.h"
#include "tcop/tcopprot.h"
#include "utils/builtins.h"

PG_MODULE_MAGIC;

#define MAX_ROOM (MaxAllocSize - VARHDRSZ)
#define STATUS_NAME_ROOM 21

/* What check_stack_depth leaves below its limit, less a reserve for the server's own calls. */
#define STACK_LEFT (STACK_DEPTH_SLOP - 64 * 1024)

const char *explanation(uint32_t status) {
    switch (status) {
        case KOHIBLAD_INVALID_JSONB:
            return "The bytes are no document of at most " CppAsString2(MAX_DEPTH)
                   " levels, or past a limit of the format.";
        case KOHIBLAD_INVALID_UTF8:
            return "The bytes are not UTF-8.";
        case KOHIBLAD_TOO_DEEP:
            return "At most " CppAsString2(MAX_DEPTH) " arrays and objects may be nested.";
        case KOHIBLAD_OBJECT_DUPLICATE_KEY:
            return "A key comes twice.";
        default:
            return NULL;
    }
}

static int code_of(uint32_t status, int code) {
    switch (status) {
        case KOHIBLAD_OUT_OF_MEMORY: return ERRCODE_OUT_OF_MEMORY;
        case KOHIBLAD_TOO_DEEP: return ERRCODE_PROGRAM_LIMIT_EXCEEDED;
        default: return code;
    }
}

const char *name_of_status(uint32_t status) {
    uint8_t name[STATUS_NAME_ROOM];
    size_t length;
    if (kohiblad_status_name(status, name, sizeof name, &length) != KOHIBLAD_OK)
        elog(ERROR, "kohiblad: status %u", status);
    return pnstrdup((const char *)name, length);
}

void refuse_because(uint32_t status, int code, const char *detail) {
    ereport(ERROR, (errcode(code_of(status, code)), errmsg("kohiblad: %s", name_of_status(status)),
                    detail ? errdetail("%s", detail) : 0));
}

void refuse(uint32_t status, int code) {
    refuse_because(status, code, explanation(status));
}

/* Asks the server from as far down as the call will go. */
static pg_noinline bool has_stack(size_t below) {
    volatile char *frame = __builtin_alloca(below + 1);
    frame[0] = 0;
    return !stack_is_too_deep();
}

void check_stack_for(size_t bytes) {
    check_stack_depth();
    if (bytes > STACK_LEFT && !has_stack(bytes - STACK_LEFT))
        ereport(ERROR, (errcode(ERRCODE_STATEMENT_TOO_COMPLEX),
                        errmsg("kohiblad: stack depth limit exceeded"),
                        errhint("Increase the configuration parameter \"max_stack_depth\".")));
}

bool has_room(size_t bytes) {
    return bytes <= MAX_ROOM - 1;
}

void check_room(size_t bytes) {
    if (!has_room(bytes))
        ereport(ERROR, (errcode(ERRCODE_PROGRAM_LIMIT_EXCEEDED),
                        errmsg("kohiblad: the result has %zu bytes, more than 1 GB", bytes)));
}

/* The result of a call within a depth, as write_after has it. */
static char *write_within(size_t depth, size_t prefix, WriteCall call, Bytes in, size_t guess,
                          int code, size_t *length) {
    size_t room = Min(guess, MAX_ROOM - 1);
    char *out = palloc(prefix + room + 1);
    uint32_t status = call(in.at, in.size, depth, (uint8_t *)out + prefix, room, length);
    CHECK_FOR_INTERRUPTS();
    if (status == KOHIBLAD_NO_ROOM) {
        pfree(out);
        room = *length;
        check_room(room);
        out = palloc(prefix + room + 1);
        status = call(in.at, in.size, depth, (uint8_t *)out + prefix, room, length);
    }
    if (status != KOHIBLAD_OK) refuse(status, code);
    out[prefix + *length] = 0;
    return out;
}

char *write_after(size_t prefix, WriteCall call, Bytes document, size_t guess, int code,
                  size_t *length) {
    size_t depth = depth_of_size(document.size);
    check_stack_for(stack_of_depth(depth));
    return write_within(depth, prefix, call, document, guess, code, length);
}

static struct varlena *sized_value(char *written, size_t length) {
    struct varlena *value = (struct varlena *)written;
    SET_VARSIZE(value, VARHDRSZ + length);
    return value;
}

struct varlena *write_value(WriteCall call, Bytes document, size_t guess, int code) {
    size_t length;
    char *written = write_after(VARHDRSZ, call, document, guess, code, &length);
    return sized_value(written, length);
}

/* Texts are read without stack for their depth. */
struct varlena *write_value_of_text(WriteCall call, Bytes text, size_t guess, int code) {
    size_t length;
    check_stack_for(KOHIBLAD_CALL_STACK);
    char *written = write_within(MAX_DEPTH, VARHDRSZ, call, text, guess, code, &length);
    return sized_value(written, length);
}

struct kohiblad_value_kind kind_of(Bytes document) {
    struct kohiblad_value_kind kind = kohiblad_kind(document.at, document.size);
    if (kind.status != KOHIBLAD_OK) refuse(kind.status, ERRCODE_DATA_CORRUPTED);
    return kind;
}

/* The type in the entry word of a scalar; false if there is none. */
static bool tells_type(Bytes document, uint32_t *type) {
    if (document.size < SCALAR_FRONT || !has_kind(document, SCALAR_BITS)) return false;
    *type = (uint32_t)(document.at[HEADER_SIZE] & TYPE_BITS) << 24;
    return *type != KOHIBLAD_TYPE_CONTAINER && *type <= KOHIBLAD_TYPE_EXTENSION;
}

Part part_of_document(Bytes document) {
    uint32_t type;
    if (is_container_document(document)) return (Part){KOHIBLAD_TYPE_CONTAINER, document};
    if (tells_type(document, &type))
        return (Part){type, {document.at + SCALAR_FRONT, document.size - SCALAR_FRONT}};
    kind_of(document);
    refuse(KOHIBLAD_INVALID_JSONB, ERRCODE_DATA_CORRUPTED);
}

Bytes write_part(Part part, uint8_t *out, size_t room) {
    size_t length;
    uint32_t status =
        kohiblad_copy(part.type, part.payload.at, part.payload.size, out, room, &length);
    if (status != KOHIBLAD_OK) refuse(status, ERRCODE_DATA_CORRUPTED);
    return (Bytes){out, length};
}

/* A container is its own document. */
struct varlena *document_of_part(Part part) {
    Bytes payload = part.payload;
    if (is_container(part))
        return (struct varlena *)cstring_to_text_with_len((const char *)payload.at, payload.size);
    size_t room = room_of_part(part);
    struct varlena *value = palloc(VARHDRSZ + room);
    Bytes document = write_part(part, (uint8_t *)VARDATA(value), room);
    SET_VARSIZE(value, VARHDRSZ + document.size);
    return value;
}

bool is_document(Bytes given) {
    size_t depth = depth_of_size(given.size);
    check_stack_for(stack_of_depth(depth));
    return kohiblad_check(given.at, given.size, depth);
}

void check_document(Bytes given, int code) {
    if (!is_document(given)) refuse(KOHIBLAD_INVALID_JSONB, code);
}

static struct varlena *checked_document(Bytes given) {
    check_document(given, ERRCODE_INVALID_BINARY_REPRESENTATION);
    return (struct varlena *)cstring_to_text_with_len((const char *)given.at, given.size);
}

PG_FUNCTION_INFO_V1(pg_kohiblad_recv);
Datum pg_kohiblad_recv(PG_FUNCTION_ARGS) {
    StringInfo message = (StringInfo)PG_GETARG_POINTER(0);
    size_t size = message->len - message->cursor;
    const char *given = pq_getmsgbytes(message, size);
    PG_RETURN_POINTER(checked_document((Bytes){(const uint8_t *)given, size}));
}

PG_FUNCTION_INFO_V1(pg_kohiblad_of_bytea);
Datum pg_kohiblad_of_bytea(PG_FUNCTION_ARGS) {
    PG_RETURN_POINTER(checked_document(bytes_of(PG_GETARG_VARLENA_PP(0))));
}

PG_FUNCTION_INFO_V1(pg_kohiblad_canonical);
Datum pg_kohiblad_canonical(PG_FUNCTION_ARGS) {
    Bytes document = bytes_of(PG_GETARG_VARLENA_PP(0));
    PG_RETURN_POINTER(write_value(kohiblad_canonical, document, document.size,
                                  ERRCODE_PROGRAM_LIMIT_EXCEEDED));
}

PG_FUNCTION_INFO_V1(pg_kohiblad_version);
Datum pg_kohiblad_version(PG_FUNCTION_ARGS) {
    uint32_t version = kohiblad_version();
    char *shown = psprintf("%u.%u.%u", version / 1000000, version / 1000 % 1000, version % 1000);
    PG_RETURN_TEXT_P(cstring_to_text(shown));
}
