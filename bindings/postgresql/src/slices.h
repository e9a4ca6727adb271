/* Documents that are so long that a look-up in them fetches only what it needs.
 *
 * TOAST stores a long value in chunks. Of one that is stored as it is, the chunks of any slice can
 * be fetched by themselves, and a compressed one is decompressed only as far as a slice goes. So of
 * each container that a look-up comes to, the header, the entry words and the keys are fetched, and
 * at the end the value that is found. What is fetched lies in one block, each byte at its own
 * place: a part points to its payload there, as in a document that is at hand. */
#ifndef PG_KOHIBLAD_SLICES_H
#define PG_KOHIBLAD_SLICES_H

#include "document.h"

/* A document that is an argument. It is at hand as a whole; or it is stored, of so many bytes, of
 * which each chunk is fetched at most once, or if it is compressed those before it again. */
typedef struct Sliced {
    const struct varlena *argument;
    struct varlena *whole, *stored; /* one of them is NULL */
    uint8_t *bytes;
    char *at_hand; /* of each chunk whether it was fetched */
    size_t size;
    bool is_compressed;
} Sliced;

#pragma GCC visibility push(hidden)

/* The document of an argument as a part. Of a container the header is at hand, and of a scalar all
 * bytes. What was fetched is freed at the end. */
extern Part open_sliced(Sliced *sliced, struct varlena *argument);
extern void close_sliced(Sliced *sliced);

/* All bytes of the document, which are fetched. */
extern Bytes whole_of(Sliced *sliced);

/* In what follows NULL stands for a document that is at hand.
 *
 * Whether the document is fetched in slices. */
extern bool is_stored(const Sliced *sliced);

/* Fetches all bytes of a part, and all of the document. */
extern void fetch_part(Sliced *sliced, Part part);
extern void fetch_all(Sliced *sliced);

/* The kind of a container, and whether a part is an array or an object. */
extern struct kohiblad_value_kind kind_in(Sliced *sliced, Bytes container);
extern bool is_array_in(Sliced *sliced, Part part);
extern bool is_object_in(Sliced *sliced, Part part);

/* Finds a member of an object, an item of an array of so many, and an item of any container: a
 * negative index counts from the end, and an object has none. */
extern bool find_key_in(Sliced *sliced, Bytes object, Bytes key, Part *child);
extern bool find_item_in(Sliced *sliced, Bytes array, int64 count, int64 index, Part *child);
extern bool find_index_in(Sliced *sliced, Bytes container, int64 index, Part *child);

/* Puts a cursor before the first member of an object, and fetches its entry words and keys: a walk
 * by kohiblad_next reads no more. What values hold is fetched by itself. */
extern uint32_t begin_members_in(Sliced *sliced, Bytes object, struct kohiblad_cursor *cursor);

#pragma GCC visibility pop

#endif
