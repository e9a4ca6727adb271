/* The order of documents, for B-trees, sorts and hashes. docs/FORMAT.md says what it is.
 *
 * kohiblad_compare checks both of its inputs each time. Stored documents were checked before, so
 * containers are compared here child by child, by the library's walk, and that call only compares
 * numbers and extension values. Sorts first compare parts of comparable keys, and hashes are those
 * of comparable keys: docs/COMPARABLE.md. */
#include "order.h"

#include "common/hashfn.h"
#include "lib/hyperloglog.h"
#include "miscadmin.h"
#include "port/pg_bswap.h"
#include "utils/sortsupport.h"

#define SMALL_SCALAR 64

/* Values of so many bytes that are the same are sooner seen to be so than compared. */
#define FEW_BYTES 256

#define KEY_ROOM 512

/* Where the kinds come in the order; false and true are of one kind. */
enum rank {
    EXTENSION_RANK,
    FALSE_RANK,
    TRUE_RANK,
    NUMBER_RANK,
    STRING_RANK,
    OBJECT_RANK,
    ARRAY_RANK,
    NULL_RANK
};

static int compare_parts(Part left, Part right);

static enum rank rank_of(Part part) {
    switch (part.type) {
        case KOHIBLAD_TYPE_NULL: return NULL_RANK;
        case KOHIBLAD_TYPE_STRING: return STRING_RANK;
        case KOHIBLAD_TYPE_NUMBER: return NUMBER_RANK;
        case KOHIBLAD_TYPE_FALSE: return FALSE_RANK;
        case KOHIBLAD_TYPE_TRUE: return TRUE_RANK;
        case KOHIBLAD_TYPE_CONTAINER: return is_array(part) ? ARRAY_RANK : OBJECT_RANK;
        default: return EXTENSION_RANK;
    }
}

/* The document of a scalar, in the buffer if it is small. */
static Bytes scalar_document(Part part, uint8_t *small) {
    size_t room = room_of_part(part);
    uint8_t *out = room <= SMALL_SCALAR ? small : palloc(room);
    return write_part(part, out, room);
}

int compare_scalars(Part left, Part right) {
    uint8_t small_left[SMALL_SCALAR], small_right[SMALL_SCALAR];
    if (are_same_bytes(left.payload, right.payload)) return 0;
    Bytes l = scalar_document(left, small_left), r = scalar_document(right, small_right);
    int order = kohiblad_compare(l.at, l.size, r.at, r.size, 0);
    if (l.at != small_left) pfree((void *)l.at);
    if (r.at != small_right) pfree((void *)r.at);
    return order;
}

/* Compares two arrays, or two objects: key, value, and the shorter first. */
static int compare_containers(Bytes left, Bytes right) {
    check_stack_depth();
    struct kohiblad_cursor left_cursor, right_cursor;
    struct kohiblad_place left_key, right_key, left_value, right_value;
    uint32_t left_status = kohiblad_begin(left.at, left.size, &left_cursor);
    uint32_t right_status = kohiblad_begin(right.at, right.size, &right_cursor);
    for (;;) {
        CHECK_FOR_INTERRUPTS();
        if (left_status == KOHIBLAD_OK)
            left_status = kohiblad_next(left.at, left.size, &left_cursor, &left_key, &left_value);
        if (right_status == KOHIBLAD_OK)
            right_status =
                kohiblad_next(right.at, right.size, &right_cursor, &right_key, &right_value);
        if (left_status != KOHIBLAD_OK || right_status != KOHIBLAD_OK) break;
        int order = 0;
        if (left_key.status == KOHIBLAD_OK)
            order =
                compare_bytes(part_at(left, left_key).payload, part_at(right, right_key).payload);
        if (order == 0)
            order = compare_parts(part_at(left, left_value), part_at(right, right_value));
        if (order != 0) return order;
    }
    if (left_status != KOHIBLAD_OK && left_status != KOHIBLAD_NONE)
        refuse(left_status, ERRCODE_DATA_CORRUPTED);
    if (right_status != KOHIBLAD_OK && right_status != KOHIBLAD_NONE)
        refuse(right_status, ERRCODE_DATA_CORRUPTED);
    return (left_status == KOHIBLAD_OK) - (right_status == KOHIBLAD_OK);
}

static int compare_parts(Part left, Part right) {
    if (left.type == right.type && left.payload.size <= FEW_BYTES &&
        are_same_bytes(left.payload, right.payload))
        return 0;
    enum rank rank = rank_of(left), right_rank = rank_of(right);
    if (rank != right_rank) return rank < right_rank ? -1 : 1;
    switch (rank) {
        case STRING_RANK: return compare_bytes(left.payload, right.payload);
        case OBJECT_RANK:
        case ARRAY_RANK: return compare_containers(left.payload, right.payload);
        case NUMBER_RANK:
        case EXTENSION_RANK: return compare_scalars(left, right);
        default: return 0;
    }
}

static int compare_documents(Bytes left, Bytes right) {
    return compare_parts(part_of_document(left), part_of_document(right));
}

static int compare_arguments(FunctionCallInfo fcinfo) {
    return compare_arguments_by(fcinfo, compare_documents);
}

/* Documents of the same bytes are equal, whatever is in them. */
static bool are_equal(FunctionCallInfo fcinfo) {
    struct varlena *left = PG_GETARG_VARLENA_PP(0), *right = PG_GETARG_VARLENA_PP(1);
    Bytes l = bytes_of(left), r = bytes_of(right);
    bool equal = are_same_bytes(l, r) || compare_documents(l, r) == 0;
    PG_FREE_IF_COPY(left, 0);
    PG_FREE_IF_COPY(right, 1);
    return equal;
}

PG_FUNCTION_INFO_V1(pg_kohiblad_cmp);
Datum pg_kohiblad_cmp(PG_FUNCTION_ARGS) {
    PG_RETURN_INT32(sign_of(compare_arguments(fcinfo)));
}

COMPARISON(pg_kohiblad_lt, compare_arguments(fcinfo) < 0)
COMPARISON(pg_kohiblad_le, compare_arguments(fcinfo) <= 0)
COMPARISON(pg_kohiblad_eq, are_equal(fcinfo))
COMPARISON(pg_kohiblad_ne, !are_equal(fcinfo))
COMPARISON(pg_kohiblad_ge, compare_arguments(fcinfo) >= 0)
COMPARISON(pg_kohiblad_gt, compare_arguments(fcinfo) > 0)

/* The lesser or the greater argument, and the first of equal ones. */
static struct varlena *chosen_argument(FunctionCallInfo fcinfo, bool is_lesser) {
    struct varlena *left = PG_GETARG_VARLENA_PP(0), *right = PG_GETARG_VARLENA_PP(1);
    int order = compare_documents(bytes_of(left), bytes_of(right));
    return (is_lesser ? order <= 0 : order >= 0) ? left : right;
}

PG_FUNCTION_INFO_V1(pg_kohiblad_smaller);
Datum pg_kohiblad_smaller(PG_FUNCTION_ARGS) {
    PG_RETURN_POINTER(chosen_argument(fcinfo, true));
}

PG_FUNCTION_INFO_V1(pg_kohiblad_larger);
Datum pg_kohiblad_larger(PG_FUNCTION_ARGS) {
    PG_RETURN_POINTER(chosen_argument(fcinfo, false));
}

/* The comparable key of a stored document, as kohiblad_key writes it, or its first bytes where all
 * have no room. No memory is requested, and no key is measured before it is written. */
static uint32_t whole_key(const uint8_t *bytes, size_t size, size_t depth, uint8_t *out,
                          size_t room, size_t *length) {
    uint32_t status = kohiblad_key_cut(bytes, size, depth, out, room, length);
    return status == KOHIBLAD_OK && *length > room ? KOHIBLAD_NO_ROOM : status;
}

PG_FUNCTION_INFO_V1(pg_kohiblad_key);
Datum pg_kohiblad_key(PG_FUNCTION_ARGS) {
    Bytes document = bytes_of(PG_GETARG_VARLENA_PP(0));
    PG_RETURN_BYTEA_P(write_value(whole_key, document, document.size, ERRCODE_DATA_CORRUPTED));
}

/* Room for comparable keys, which grows as they need it; at first it is the caller's. */
typedef struct KeyRoom {
    uint8_t *at;
    size_t size;
    MemoryContext context;
    bool is_allocated;
} KeyRoom;

static void free_room(KeyRoom *room) {
    if (room->is_allocated) pfree(room->at);
}

static Bytes write_key(Bytes document, KeyRoom *room) {
    size_t depth = depth_of_size(document.size), length;
    check_stack_for(stack_of_depth(depth));
    uint32_t status = whole_key(document.at, document.size, depth, room->at, room->size, &length);
    if (status == KOHIBLAD_NO_ROOM) {
        free_room(room);
        room->at = MemoryContextAllocHuge(room->context, length);
        room->size = length;
        room->is_allocated = true;
        status = whole_key(document.at, document.size, depth, room->at, room->size, &length);
    }
    if (status != KOHIBLAD_OK) refuse(status, ERRCODE_DATA_CORRUPTED);
    return (Bytes){room->at, length};
}

static uint64 hash_of(FunctionCallInfo fcinfo, uint64 seed) {
    struct varlena *value = PG_GETARG_VARLENA_PP(0);
    uint8_t small[KEY_ROOM];
    KeyRoom room = {small, sizeof small, CurrentMemoryContext, false};
    Bytes key = write_key(bytes_of(value), &room);
    uint64 hash = hash_bytes_extended(key.at, key.size, seed);
    free_room(&room);
    PG_FREE_IF_COPY(value, 0);
    return hash;
}

/* With seed 0 the low half is the hash of 32 bits, as hash operator classes require. */
PG_FUNCTION_INFO_V1(pg_kohiblad_hash);
Datum pg_kohiblad_hash(PG_FUNCTION_ARGS) {
    PG_RETURN_UINT32((uint32)hash_of(fcinfo, 0));
}

PG_FUNCTION_INFO_V1(pg_kohiblad_hash_extended);
Datum pg_kohiblad_hash_extended(PG_FUNCTION_ARGS) {
    PG_RETURN_UINT64(hash_of(fcinfo, PG_GETARG_INT64(1)));
}

/* A sort: the room for keys, the key of its first document, and how many abbreviations differ. */
typedef struct Sort {
    KeyRoom room;
    Bytes reference;
    hyperLogLogState distinct;
    int64 count;
    bool is_counting;
} Sort;

#define MAX_COMMON 0x7FFF      /* of the common bytes, what 15 bits can count */
#define NEXT_BYTES 6           /* the bytes after them that an abbreviation has */
#define FIRST_ESTIMATE 10000   /* documents before the abbreviations are judged */
#define ENOUGH_DISTINCT 100000 /* after so many they are not judged again */
#define DOCUMENTS_EACH 2000    /* with more documents for each abbreviation they do not pay */

static int compare_datums(Datum left, Datum right, SortSupport support pg_attribute_unused()) {
    return compare_datums_by(left, right, compare_documents);
}

/* A number for a key that rises with it, from where the key differs from a reference. Documents of
 * one table often begin alike, so the first bytes of their keys would decide little.
 *
 * Keys below the reference come before those above. Of two below, the one that has more bytes in
 * common with it is nearer and so greater; of two above, it is less. Where both have as many, the
 * next bytes decide; these are filled up with zeros, since no key begins another. */
static uint64 abbreviation(Bytes key, Bytes reference) {
    size_t limit = Min(key.size, reference.size), common = 0;
    while (common < limit && key.at[common] == reference.at[common]) common++;
    bool is_above = common < limit ? key.at[common] > reference.at[common]
                                   : key.size > reference.size;
    uint64 next = 0;
    memcpy((uint8_t *)&next + sizeof next - NEXT_BYTES, key.at + common,
           Min(key.size - common, NEXT_BYTES));
    uint64 nearness = is_above ? MAX_COMMON - common : common;
    return (uint64)is_above << 63 | nearness << (8 * NEXT_BYTES) | pg_ntoh64(next);
}

static Bytes copy_beginning(Bytes key, size_t limit, MemoryContext context) {
    size_t size = Min(key.size, limit);
    uint8_t *copy = MemoryContextAlloc(context, size);
    memcpy(copy, key.at, size);
    return (Bytes){copy, size};
}

static Datum abbreviate(Datum original, SortSupport support) {
    Sort *sort = support->ssup_extra;
    struct varlena *value = PG_DETOAST_DATUM_PACKED(original);
    Bytes key = write_key(bytes_of(value), &sort->room);
    if (!sort->reference.at)
        sort->reference = copy_beginning(key, MAX_COMMON, support->ssup_cxt);
    uint64 abbreviated = abbreviation(key, sort->reference);
    sort->count++;
    if (sort->is_counting) {
        uint32 folded = (uint32)abbreviated ^ (uint32)(abbreviated >> 32);
        addHyperLogLog(&sort->distinct, DatumGetUInt32(hash_uint32(folded)));
    }
    if ((Pointer)value != DatumGetPointer(original)) pfree(value);
    return UInt64GetDatum(abbreviated);
}

static bool should_abort(int given, SortSupport support) {
    Sort *sort = support->ssup_extra;
    if (given < FIRST_ESTIMATE || sort->count < FIRST_ESTIMATE || !sort->is_counting) return false;
    double distinct = estimateHyperLogLog(&sort->distinct);
    if (distinct > ENOUGH_DISTINCT) {
        sort->is_counting = false;
        return false;
    }
    return distinct < (double)sort->count / DOCUMENTS_EACH + 0.5;
}

PG_FUNCTION_INFO_V1(pg_kohiblad_sortsupport);
Datum pg_kohiblad_sortsupport(PG_FUNCTION_ARGS) {
    SortSupport support = (SortSupport)PG_GETARG_POINTER(0);
    support->comparator = compare_datums;
    if (!support->abbreviate) PG_RETURN_VOID();
    MemoryContext caller = MemoryContextSwitchTo(support->ssup_cxt);
    Sort *sort = palloc(sizeof *sort);
    *sort = (Sort){.room = {palloc(KEY_ROOM), KEY_ROOM, support->ssup_cxt, true},
                   .is_counting = true};
    initHyperLogLog(&sort->distinct, 10);
    support->ssup_extra = sort;
    support->comparator = ssup_datum_unsigned_cmp;
    support->abbrev_converter = abbreviate;
    support->abbrev_abort = should_abort;
    support->abbrev_full_comparator = compare_datums;
    MemoryContextSwitchTo(caller);
    PG_RETURN_VOID();
}
