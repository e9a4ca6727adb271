#include "slices.h"

#include "access/detoast.h"
#include "access/heaptoast.h"

/* Shorter documents are fetched whole, which takes one look into the table of chunks. */
#ifndef SLICED_FROM
#define SLICED_FROM (16 * TOAST_MAX_CHUNK_SIZE)
#endif

/* For tests: what is done with bytes that are still to be fetched, and with those that are. */
#ifndef MARK_AWAITED
#define MARK_AWAITED(at, size)
#define MARK_FETCHED(at, size)
#endif

/* The first slice. It has all that is needed before the value in an object of a hundred members. */
#define FIRST_SLICE (2 * TOAST_MAX_CHUNK_SIZE)

/* How many chunks there are up to an end. */
static size_t chunks_up_to(size_t end) {
    return (end + TOAST_MAX_CHUNK_SIZE - 1) / TOAST_MAX_CHUNK_SIZE;
}

/* The end of a run of chunks which are all at hand, or all not. */
static size_t end_of_run(const Sliced *sliced, size_t chunk) {
    size_t end = chunks_up_to(sliced->size);
    const char *first = sliced->at_hand + chunk, *other = memchr(first, !*first, end - chunk);
    return other ? other - sliced->at_hand : end;
}

/* Fetches chunks from one up to another. */
static void fetch_chunks(Sliced *sliced, size_t first, size_t end) {
    size_t from = first * TOAST_MAX_CHUNK_SIZE;
    size_t size = Min(end * TOAST_MAX_CHUNK_SIZE, sliced->size) - from;
    struct varlena *slice =
        PG_DETOAST_DATUM_SLICE(PointerGetDatum(sliced->stored), from, size);
    if (VARSIZE_ANY_EXHDR(slice) != size) refuse(KOHIBLAD_INVALID_EOF, ERRCODE_DATA_CORRUPTED);
    MARK_FETCHED(sliced->bytes + from, size);
    memcpy(sliced->bytes + from, VARDATA_ANY(slice), size);
    pfree(slice);
    memset(sliced->at_hand + first, true, end - first);
}

/* Fetches more of a compressed document, of which all before is decompressed again: so at least as
 * much as was fetched before. */
static void decompress(Sliced *sliced, size_t end) {
    size_t before = sliced->at_hand[0] ? end_of_run(sliced, 0) : 0;
    fetch_chunks(sliced, 0, Min(Max(end, 2 * before), chunks_up_to(sliced->size)));
}

/* Fetches the chunks between two places that are not at hand. */
static void fetch(Sliced *sliced, size_t from, size_t to) {
    to = Min(to, sliced->size);
    if (from >= to) return;
    size_t chunk = from / TOAST_MAX_CHUNK_SIZE, end = chunks_up_to(to), next;
    for (; chunk < end; chunk = next) {
        next = end_of_run(sliced, chunk);
        if (sliced->at_hand[chunk]) continue;
        if (sliced->is_compressed)
            decompress(sliced, end);
        else
            fetch_chunks(sliced, chunk, Min(next, end));
    }
}

bool is_stored(const Sliced *sliced) {
    return sliced && sliced->stored;
}

static size_t place_in(const Sliced *sliced, Bytes bytes) {
    return bytes.at - sliced->bytes;
}

void fetch_part(Sliced *sliced, Part part) {
    if (!is_stored(sliced)) return;
    size_t from = place_in(sliced, part.payload);
    fetch(sliced, from, from + part.payload.size);
}

/* Whether an argument is stored by itself and long, and how. */
static bool is_sliced(Sliced *sliced, const struct varlena *argument) {
    struct varatt_external pointer;
    if (!VARATT_IS_EXTERNAL_ONDISK(argument)) return false;
    VARATT_EXTERNAL_GET_POINTER(pointer, argument);
    sliced->size = pointer.va_rawsize - VARHDRSZ;
    sliced->is_compressed = VARATT_EXTERNAL_IS_COMPRESSED(pointer);
    return sliced->size >= SLICED_FROM;
}

Part open_sliced(Sliced *sliced, struct varlena *argument) {
    *sliced = (Sliced){.argument = argument};
    if (!is_sliced(sliced, argument)) {
        sliced->whole = pg_detoast_datum_packed(argument);
        return part_of_document(bytes_of(sliced->whole));
    }
    sliced->stored = argument;
    sliced->bytes = palloc(sliced->size);
    sliced->at_hand = palloc0(chunks_up_to(sliced->size));
    MARK_AWAITED(sliced->bytes, sliced->size);
    fetch(sliced, 0, FIRST_SLICE);
    Bytes whole = {sliced->bytes, sliced->size};
    if (!is_container_document(whole)) fetch(sliced, 0, sliced->size);
    return part_of_document(whole);
}

Bytes whole_of(Sliced *sliced) {
    if (sliced->whole) return bytes_of(sliced->whole);
    fetch(sliced, 0, sliced->size);
    return (Bytes){sliced->bytes, sliced->size};
}

void fetch_all(Sliced *sliced) {
    if (is_stored(sliced)) fetch(sliced, 0, sliced->size);
}

void close_sliced(Sliced *sliced) {
    if (sliced->stored) {
        pfree(sliced->bytes);
        pfree(sliced->at_hand);
    } else if (sliced->whole != sliced->argument) {
        pfree(sliced->whole);
    }
}

static void fetch_header(Sliced *sliced, Bytes container) {
    if (!is_stored(sliced)) return;
    size_t header = place_in(sliced, container);
    fetch(sliced, header, header + HEADER_SIZE);
}

struct kohiblad_value_kind kind_in(Sliced *sliced, Bytes container) {
    fetch_header(sliced, container);
    return kind_of(container);
}

static bool has_kind_in(Sliced *sliced, Part part, uint8_t bits) {
    if (!is_container(part)) return false;
    fetch_header(sliced, part.payload);
    return has_kind(part.payload, bits);
}

bool is_array_in(Sliced *sliced, Part part) {
    return has_kind_in(sliced, part, ARRAY_BITS);
}

bool is_object_in(Sliced *sliced, Part part) {
    return has_kind_in(sliced, part, OBJECT_BITS);
}

/* How many bytes from the beginning of a container on are at hand. */
static size_t size_at_hand(const Sliced *sliced, Bytes container) {
    size_t place = place_in(sliced, container), chunk = place / TOAST_MAX_CHUNK_SIZE;
    if (container.size == 0 || !sliced->at_hand[chunk]) return 0;
    return Min(end_of_run(sliced, chunk) * TOAST_MAX_CHUNK_SIZE - place, container.size);
}

/* Fetches what a look-up needs next; false if it has come to its end. */
static bool fetch_more(Sliced *sliced, Bytes container, struct kohiblad_place found) {
    if (found.status != KOHIBLAD_INVALID_EOF || found.length == 0) return false;
    size_t place = place_in(sliced, container);
    fetch(sliced, place, place + found.length);
    return true;
}

static bool is_found(struct kohiblad_place place, Bytes container, Part *child) {
    if (place.status == KOHIBLAD_NONE) return false;
    if (place.status != KOHIBLAD_OK) refuse(place.status, ERRCODE_DATA_CORRUPTED);
    *child = part_at(container, place);
    return true;
}

bool find_key_in(Sliced *sliced, Bytes object, Bytes key, Part *child) {
    struct kohiblad_place place;
    if (!is_stored(sliced))
        place = kohiblad_find_key(object.at, object.size, key.at, key.size);
    else
        do
            place = kohiblad_find_key_in_prefix(object.at, size_at_hand(sliced, object),
                                                object.size, key.at, key.size);
        while (fetch_more(sliced, object, place));
    return is_found(place, object, child);
}

bool find_item_in(Sliced *sliced, Bytes array, int64 count, int64 index, Part *child) {
    struct kohiblad_place place;
    if (index < 0) index += count;
    if (index < 0) return false;
    if (!is_stored(sliced))
        place = kohiblad_find_index(array.at, array.size, index);
    else
        do
            place = kohiblad_find_index_in_prefix(array.at, size_at_hand(sliced, array), array.size,
                                                  index);
        while (fetch_more(sliced, array, place));
    return is_found(place, array, child);
}

bool find_index_in(Sliced *sliced, Bytes container, int64 index, Part *child) {
    struct kohiblad_value_kind kind = kind_in(sliced, container);
    return kind.kind == KOHIBLAD_ARRAY && find_item_in(sliced, container, kind.count, index, child);
}

/* Fetches the header and the entry words of an object, two for each member. */
static void fetch_entries(Sliced *sliced, Bytes object) {
    size_t place = place_in(sliced, object), count = kind_in(sliced, object).count;
    if (count > object.size / (2 * ENTRY_SIZE))
        refuse(KOHIBLAD_INVALID_EOF, ERRCODE_DATA_CORRUPTED);
    fetch(sliced, place, place + HEADER_SIZE + count * 2 * ENTRY_SIZE);
}

uint32_t begin_members_in(Sliced *sliced, Bytes object, struct kohiblad_cursor *cursor) {
    if (is_stored(sliced)) fetch_entries(sliced, object);
    uint32_t status = kohiblad_begin(object.at, object.size, cursor);
    if (status != KOHIBLAD_OK || !is_stored(sliced)) return status;
    /* All keys are before the first value. */
    size_t place = place_in(sliced, object);
    fetch(sliced, place, place + cursor->value);
    return status;
}
