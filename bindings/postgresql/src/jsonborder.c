/* The order of jsonb, for queries that were written for it: over documents in place, by the
 * library's walk, what compareJsonbContainers of the server says of their values.
 *
 * By kinds it is null, texts, numbers, booleans, arrays, objects; but an empty array that is in no
 * other value comes before null. The array of fewer items, and the object of fewer pairs, comes
 * first. Objects of as many pairs are compared key by key and value by value, as jsonb stores them:
 * by the lengths of keys, and then by their bytes. Texts and keys are compared by the collation of
 * the database, where their bytes decide between those that it takes for equal. So the values that
 * are equal are those that are so in the order of documents, and both orders have one `=`.
 * Extension values, which jsonb has not, come first, in the order of documents. */
#include "order.h"

#include "catalog/pg_collation.h"
#include "miscadmin.h"
#include "utils/sortsupport.h"
#include "utils/varlena.h"

enum rank {
    EXTENSION_RANK,
    EMPTY_ARRAY_RANK, /* of a document; in another value it is an array */
    NULL_RANK,
    STRING_RANK,
    NUMBER_RANK,
    FALSE_RANK,
    TRUE_RANK,
    ARRAY_RANK,
    OBJECT_RANK
};

/* A part, where its kind comes, and how many children it has. */
typedef struct Ranked {
    Part part;
    enum rank rank;
    uint64 count;
} Ranked;

/* A member of an object, which has these places. */
typedef struct Member {
    struct kohiblad_place key, value;
} Member;

static Ranked ranked_container(Part part) {
    struct kohiblad_value_kind kind = kind_of(part.payload);
    return (Ranked){part, kind.kind == KOHIBLAD_ARRAY ? ARRAY_RANK : OBJECT_RANK, kind.count};
}

static Ranked ranked(Part part) {
    switch (part.type) {
        case KOHIBLAD_TYPE_NULL: return (Ranked){part, NULL_RANK, 0};
        case KOHIBLAD_TYPE_STRING: return (Ranked){part, STRING_RANK, 0};
        case KOHIBLAD_TYPE_NUMBER: return (Ranked){part, NUMBER_RANK, 0};
        case KOHIBLAD_TYPE_FALSE: return (Ranked){part, FALSE_RANK, 0};
        case KOHIBLAD_TYPE_TRUE: return (Ranked){part, TRUE_RANK, 0};
        case KOHIBLAD_TYPE_CONTAINER: return ranked_container(part);
        default: return (Ranked){part, EXTENSION_RANK, 0};
    }
}

static Ranked ranked_document(Bytes document) {
    Ranked whole = ranked(part_of_document(document));
    if (whole.rank == ARRAY_RANK && whole.count == 0) whole.rank = EMPTY_ARRAY_RANK;
    return whole;
}

/* In an encoding that lacks characters, their escapes stand for them. */
static int compare_by_collation(Bytes left, Bytes right) {
    Bytes l = server_json(left), r = server_json(right);
    int order = varstr_cmp((const char *)l.at, (int)l.size, (const char *)r.at, (int)r.size,
                           DEFAULT_COLLATION_OID);
    if (l.at != left.at) pfree((void *)l.at);
    if (r.at != right.at) pfree((void *)r.at);
    return order;
}

static int compare_texts(Bytes left, Bytes right) {
    int order = compare_by_collation(left, right);
    return order != 0 ? order : compare_bytes(left, right);
}

static int compare_ranked(Ranked left, Ranked right);

/* Compares values of two containers. */
static int compare_values(Bytes left, struct kohiblad_place left_place, Bytes right,
                          struct kohiblad_place right_place) {
    CHECK_FOR_INTERRUPTS();
    return compare_ranked(ranked(part_at(left, left_place)), ranked(part_at(right, right_place)));
}

static struct kohiblad_cursor cursor_of(Bytes container) {
    struct kohiblad_cursor cursor;
    uint32_t status = kohiblad_begin(container.at, container.size, &cursor);
    if (status != KOHIBLAD_OK) refuse(status, ERRCODE_DATA_CORRUPTED);
    return cursor;
}

/* Takes the next child of a container; false if there is none. */
static bool take_child(Bytes container, struct kohiblad_cursor *cursor, Member *child) {
    uint32_t status =
        kohiblad_next(container.at, container.size, cursor, &child->key, &child->value);
    if (status != KOHIBLAD_OK && status != KOHIBLAD_NONE) refuse(status, ERRCODE_DATA_CORRUPTED);
    return status == KOHIBLAD_OK;
}

/* Compares two arrays of as many items. */
static int compare_arrays(Bytes left, Bytes right) {
    struct kohiblad_cursor left_cursor = cursor_of(left), right_cursor = cursor_of(right);
    Member left_item, right_item;
    int order = 0;
    while (order == 0 && take_child(left, &left_cursor, &left_item) &&
           take_child(right, &right_cursor, &right_item))
        order = compare_values(left, left_item.value, right, right_item.value);
    return order;
}

/* Whether a member comes before another as jsonb stores them. Documents store keys by their bytes,
 * so of keys of one length it is the one that is stored first. */
static int compare_stored(const void *left, const void *right, void *unused pg_attribute_unused()) {
    const Member *l = left, *r = right;
    if (l->key.length != r->key.length) return l->key.length < r->key.length ? -1 : 1;
    return (l->key.offset > r->key.offset) - (l->key.offset < r->key.offset);
}

/* The places of an object's members, as jsonb stores these. A damaged header may count more than
 * there is room for, which the walk refuses. */
static Member *members_of(Bytes object, uint64 count) {
    size_t room = Min(count, object.size / (2 * ENTRY_SIZE)), taken = 0;
    Member *members = palloc_extended(Max(room, 1) * sizeof *members, MCXT_ALLOC_HUGE);
    struct kohiblad_cursor cursor = cursor_of(object);
    bool is_sorted = true;
    while (taken < room && take_child(object, &cursor, &members[taken])) {
        CHECK_FOR_INTERRUPTS();
        if (taken > 0)
            is_sorted &= members[taken - 1].key.length <= members[taken].key.length;
        taken++;
    }
    if (taken < count) refuse(KOHIBLAD_INVALID_EOF, ERRCODE_DATA_CORRUPTED);
    if (!is_sorted) qsort_interruptible(members, taken, sizeof *members, compare_stored, NULL);
    return members;
}

/* Where two objects differ: whether they have the same keys, and of the members whose values have
 * other bytes the one that jsonb stores first. */
typedef struct Difference {
    bool has_same_keys, is_found;
    Member left, right;
} Difference;

static bool have_same_bytes(Bytes left, struct kohiblad_place left_place, Bytes right,
                            struct kohiblad_place right_place) {
    Part l = part_at(left, left_place), r = part_at(right, right_place);
    return l.type == r.type && are_same_bytes(l.payload, r.payload);
}

static Difference difference_of(Bytes left, Bytes right) {
    Difference difference = {.has_same_keys = true};
    struct kohiblad_cursor left_cursor = cursor_of(left), right_cursor = cursor_of(right);
    Member l, r;
    while (take_child(left, &left_cursor, &l) && take_child(right, &right_cursor, &r)) {
        CHECK_FOR_INTERRUPTS();
        if (!have_same_bytes(left, l.key, right, r.key)) return (Difference){false};
        if (difference.is_found && l.key.length >= difference.left.key.length) continue;
        if (!have_same_bytes(left, l.value, right, r.value))
            difference = (Difference){true, true, l, r};
    }
    return difference;
}

/* Compares two objects member by member, and those with the same keys after their difference. */
static int compare_members(Bytes left, Bytes right, uint64 count, const Difference *difference) {
    Member *left_members = members_of(left, count), *right_members = members_of(right, count);
    bool is_before = difference->has_same_keys;
    int order = 0;
    for (uint64 i = 0; order == 0 && i < count; i++) {
        const Member *l = &left_members[i], *r = &right_members[i];
        if (is_before) {
            is_before = l->key.offset != difference->left.key.offset;
            continue;
        }
        order = compare_texts(part_at(left, l->key).payload, part_at(right, r->key).payload);
        if (order == 0) order = compare_values(left, l->value, right, r->value);
    }
    pfree(left_members);
    pfree(right_members);
    return order;
}

/* Compares two objects of as many pairs. Most have the same keys, and the first difference decides:
 * their members are sorted only if it does not, as that of 5 and 5.0. */
static int compare_objects(Bytes left, Bytes right, uint64 count) {
    Difference difference = difference_of(left, right);
    if (difference.has_same_keys) {
        if (!difference.is_found) return 0;
        int order = compare_values(left, difference.left.value, right, difference.right.value);
        if (order != 0) return order;
    }
    return compare_members(left, right, count, &difference);
}

static int compare_ranked(Ranked left, Ranked right) {
    check_stack_depth();
    if (left.rank != right.rank) return left.rank < right.rank ? -1 : 1;
    if (left.count != right.count) return left.count < right.count ? -1 : 1;
    Bytes l = left.part.payload, r = right.part.payload;
    switch (left.rank) {
        case STRING_RANK: return compare_texts(l, r);
        case NUMBER_RANK:
        case EXTENSION_RANK: return compare_scalars(left.part, right.part);
        case ARRAY_RANK: return compare_arrays(l, r);
        case OBJECT_RANK: return compare_objects(l, r, left.count);
        default: return 0;
    }
}

static int compare_as_jsonb(Bytes left, Bytes right) {
    return compare_ranked(ranked_document(left), ranked_document(right));
}

static int compare_arguments(FunctionCallInfo fcinfo) {
    return compare_arguments_by(fcinfo, compare_as_jsonb);
}

PG_FUNCTION_INFO_V1(pg_kohiblad_jsonb_order_cmp);
Datum pg_kohiblad_jsonb_order_cmp(PG_FUNCTION_ARGS) {
    PG_RETURN_INT32(sign_of(compare_arguments(fcinfo)));
}

COMPARISON(pg_kohiblad_jsonb_order_lt, compare_arguments(fcinfo) < 0)
COMPARISON(pg_kohiblad_jsonb_order_le, compare_arguments(fcinfo) <= 0)
COMPARISON(pg_kohiblad_jsonb_order_ge, compare_arguments(fcinfo) >= 0)
COMPARISON(pg_kohiblad_jsonb_order_gt, compare_arguments(fcinfo) > 0)

static int compare_datums(Datum left, Datum right, SortSupport support pg_attribute_unused()) {
    return compare_datums_by(left, right, compare_as_jsonb);
}

PG_FUNCTION_INFO_V1(pg_kohiblad_jsonb_order_sortsupport);
Datum pg_kohiblad_jsonb_order_sortsupport(PG_FUNCTION_ARGS) {
    SortSupport support = (SortSupport)PG_GETARG_POINTER(0);
    support->comparator = compare_datums;
    PG_RETURN_VOID();
}
