/* Documents of long texts, which are parsed a piece at a time, so that a query can be cancelled.
 *
 * A text between brackets is an array or an object exactly if each part between the commas of its
 * own level is an item or a member. So some of these together, between brackets of their own, are a
 * text that the library parses, and the entries and payloads of these documents make the whole one
 * (docs/FORMAT.md). An item that is long itself is divided likewise. Of what cannot be divided so,
 * the caller asks the library as a whole: it knows the fault and its place. */
#include "document.h"

#include "lib/binaryheap.h"
#include "miscadmin.h"
#include "port/pg_bswap.h"
#include "utils/builtins.h"

/* Longer texts are divided into pieces of at least so many bytes. */
#define LONG_TEXT (4 << 20)
#define PIECE (256 << 10)

/* Arrays and objects that are divided inside one another. Each level copies what is below it. */
#define LEVELS 4

/* The words of docs/FORMAT.md. */
#define ARRAY_TAG 0x80000000u
#define OBJECT_TAG 0x40000000u
#define COUNT_MASK 0x1fffffffu
#define LENGTH_MASK 0x0fffffffu

/* The room for pieces that is made at first. */
#define FIRST_ROOM 64

/* A document has fewer bytes than this many times its text, which may have exponents, and 8. */
#define MOST_GROWTH 5

/* In the order of members, that a later piece has the key too. */
#define IS_REPLACED 0x80000000u

/* A text that is divided: how many brackets may be open in it at once, in how many levels it is
 * divided, how long a piece is, and where the document is allocated. */
typedef struct Text {
    Bytes utf8;
    size_t depth;
    int levels;
    size_t piece;
    MemoryContext context;
} Text;

/* Documents of one kind, the next of which has the next items or members of a text. */
typedef struct Pieces {
    bool is_list;
    Bytes *at;
    uint32_t count, room;
} Pieces;

/* The next member of an object, and how many there are from it on. */
typedef struct Member {
    const uint8_t *key_entry, *value_entry;
    Bytes key, value;
    size_t left;
    uint32_t piece;
} Member;

/* The four parts of an object that is written, each up to where it goes on. */
typedef struct Parts {
    uint8_t *key_entries, *value_entries, *keys, *values;
} Parts;

static uint32_t word_at(const uint8_t *at) {
    uint32_t word;
    memcpy(&word, at, sizeof word);
    return pg_ntoh32(word);
}

static void put_word(uint8_t *at, uint32_t word) {
    word = pg_hton32(word);
    memcpy(at, &word, sizeof word);
}

static size_t count_of(Bytes document) {
    return word_at(document.at) & COUNT_MASK;
}

static size_t length_at(const uint8_t *entry) {
    return word_at(entry) & LENGTH_MASK;
}

/* Copies bytes, and returns the end of the copy. */
static uint8_t *put_bytes(uint8_t *out, const uint8_t *from, size_t size) {
    while (size > BYTES_UNCHECKED) {
        CHECK_FOR_INTERRUPTS();
        memcpy(out, from, BYTES_UNCHECKED);
        out += BYTES_UNCHECKED, from += BYTES_UNCHECKED, size -= BYTES_UNCHECKED;
    }
    memcpy(out, from, size);
    return out + size;
}

static void *new_bytes(size_t size) {
    return MemoryContextAllocHuge(CurrentMemoryContext, size);
}

static bool is_space(uint8_t byte) {
    return byte == ' ' || byte == '\t' || byte == '\n' || byte == '\r';
}

/* The text without the white space around it. */
static Bytes trimmed(Bytes text) {
    const uint8_t *at = text.at, *end = at + text.size;
    for (; at < end && is_space(*at); at++)
        if ((end - at) % BYTES_UNCHECKED == 0) CHECK_FOR_INTERRUPTS();
    for (; end > at && is_space(end[-1]); end--)
        if ((end - at) % BYTES_UNCHECKED == 0) CHECK_FOR_INTERRUPTS();
    return (Bytes){at, end - at};
}

static bool is_bracketed(Bytes text) {
    return text.size >= 2 && ((*text.at == '[' && text.at[text.size - 1] == ']') ||
                              (*text.at == '{' && text.at[text.size - 1] == '}'));
}

/* The quote that ends a string, whose first one is before `at`, or the end of the text. */
static const uint8_t *end_of_string(const uint8_t *at, const uint8_t *end) {
    for (; at < end && *at != '"'; at++) {
        if ((end - at) % BYTES_UNCHECKED == 0) CHECK_FOR_INTERRUPTS();
        if (*at == '\\' && at + 1 < end) at++;
    }
    return at;
}

/* The comma or the bracket that ends a child, or the end of the text. */
static const uint8_t *end_of_child(const uint8_t *at, const uint8_t *end) {
    size_t depth = 0;
    for (; at < end; at++) {
        if ((end - at) % BYTES_UNCHECKED == 0) CHECK_FOR_INTERRUPTS();
        switch (*at) {
            case '"':
                at = end_of_string(at + 1, end);
                if (at == end) return end;
                break;
            case '[':
            case '{':
                depth++;
                break;
            case ']':
            case '}':
                if (depth-- == 0) return at;
                break;
            case ',':
                if (depth == 0) return at;
                break;
        }
    }
    return end;
}

static void add_piece(Pieces *pieces, Bytes document) {
    if (pieces->count == pieces->room) {
        pieces->room *= 2;
        pieces->at = repalloc_huge(pieces->at, pieces->room * sizeof *pieces->at);
    }
    pieces->at[pieces->count++] = document;
}

/* The document of a text between an opening bracket and an end; false if it has none that is short
 * enough, and if the text between them is empty. */
static bool parse_between(char open, Bytes inside, const char *close, size_t depth,
                          Bytes *document) {
    size_t end_size = strlen(close), size = 1 + inside.size + end_size, length;
    size_t room = MOST_GROWTH * size + SCALAR_FRONT;
    uint8_t *text = new_bytes(size), *out = new_bytes(room);
    text[0] = open;
    memcpy(put_bytes(text + 1, inside.at, inside.size), close, end_size);
    uint32_t status =
        kohiblad_parse(text, size, depth, KOHIBLAD_EXPONENTS_ALLOWED, out, room, &length);
    CHECK_FOR_INTERRUPTS();
    pfree(text);
    if (status != KOHIBLAD_OK) return false;
    *document = (Bytes){repalloc_huge(out, length), length};
    return count_of(*document) != 0;
}

static bool add_parsed(Pieces *pieces, const Text *text, Bytes children) {
    Bytes document;
    if (!parse_between(pieces->is_list ? '[' : '{', children, pieces->is_list ? "]" : "}",
                       text->depth, &document))
        return false;
    add_piece(pieces, document);
    return true;
}

static bool divide(const Text *text, size_t front, Bytes *document);

/* Divides a value, and leaves bytes free before its document. */
static bool divide_below(const Text *text, Bytes value, size_t front, Bytes *document) {
    Text below = {value, text->depth - 1, text->levels - 1, text->piece, CurrentMemoryContext};
    return divide(&below, front, document) && document->size - front <= LENGTH_MASK;
}

/* Adds an array of one long item. */
static bool add_item(Pieces *pieces, const Text *text, Bytes item) {
    Bytes document;
    size_t front = HEADER_SIZE + ENTRY_SIZE;
    if (!divide_below(text, item, front, &document)) return false;
    uint8_t *at = (uint8_t *)document.at;
    put_word(at, ARRAY_TAG | 1);
    put_word(at + HEADER_SIZE, KOHIBLAD_TYPE_CONTAINER | (document.size - front));
    add_piece(pieces, document);
    return true;
}

/* Adds an object of one member, whose value is long. The document of the key with null is all of it
 * but the value's length and payload. */
static bool add_member(Pieces *pieces, const Text *text, Bytes key, Bytes value) {
    Bytes named, document;
    if (!parse_between('{', key, ":null}", 1, &named)) return false;
    if (!divide_below(text, value, named.size, &document)) return false;
    uint8_t *at = (uint8_t *)document.at;
    memcpy(at, named.at, named.size);
    put_word(at + HEADER_SIZE + ENTRY_SIZE,
             KOHIBLAD_TYPE_CONTAINER | (document.size - named.size));
    add_piece(pieces, document);
    return true;
}

/* Adds an item or a member that is long: if its value has brackets, this is divided. */
static bool add_long(Pieces *pieces, const Text *text, Bytes child) {
    Bytes whole = trimmed(child), key = {whole.at, 0}, value = whole;
    if (!pieces->is_list && whole.size > 0 && *whole.at == '"') {
        const uint8_t *end = whole.at + whole.size;
        key.size = Min(end_of_string(whole.at + 1, end) + 1, end) - whole.at;
        value = trimmed((Bytes){whole.at + key.size, whole.size - key.size});
        if (value.size == 0 || *value.at != ':') return false;
        value = trimmed((Bytes){value.at + 1, value.size - 1});
    }
    if (text->levels == 0 || !is_bracketed(value)) return add_parsed(pieces, text, child);
    return pieces->is_list ? add_item(pieces, text, value) : add_member(pieces, text, key, value);
}

/* Parses the children of a text, those that are short together. */
static bool add_children(Pieces *pieces, const Text *text, const uint8_t *at, const uint8_t *end) {
    const uint8_t *first = at;
    for (;;) {
        const uint8_t *child_end = end_of_child(at, end);
        Bytes child = {at, child_end - at}, children = {first, child_end - first};
        bool is_last = child_end == end;
        if (!is_last && *child_end != ',') return false;
        if (child.size > text->piece) {
            if (first < at && !add_parsed(pieces, text, (Bytes){first, at - 1 - first}))
                return false;
            if (!add_long(pieces, text, child)) return false;
            first = child_end + 1;
        } else if (is_last || children.size >= text->piece) {
            if (!add_parsed(pieces, text, children)) return false;
            first = child_end + 1;
        }
        if (is_last) return true;
        at = child_end + 1;
    }
}

/* The array of all items, after free bytes. */
static bool join_items(const Text *text, const Pieces *pieces, size_t front, Bytes *document) {
    size_t count = 0, size = HEADER_SIZE;
    for (uint32_t i = 0; i < pieces->count; i++) {
        count += count_of(pieces->at[i]);
        size += pieces->at[i].size - HEADER_SIZE;
    }
    if (count > COUNT_MASK || !has_room(size)) return false;
    uint8_t *out = MemoryContextAllocHuge(text->context, front + size);
    uint8_t *entries = out + front + HEADER_SIZE;
    uint8_t *payloads = entries + count * ENTRY_SIZE;
    put_word(out + front, ARRAY_TAG | count);
    for (uint32_t i = 0; i < pieces->count; i++) {
        Bytes piece = pieces->at[i];
        size_t head = count_of(piece) * ENTRY_SIZE;
        const uint8_t *from = piece.at + HEADER_SIZE;
        entries = put_bytes(entries, from, head);
        payloads = put_bytes(payloads, from + head, piece.size - HEADER_SIZE - head);
        pfree((void *)piece.at);
    }
    *document = (Bytes){out, front + size};
    return true;
}

static void measure(Member *member) {
    member->key.size = length_at(member->key_entry);
    member->value.size = length_at(member->value_entry);
}

static Member first_member(Bytes piece, uint32_t number) {
    size_t count = count_of(piece);
    const uint8_t *entries = piece.at + HEADER_SIZE, *keys = entries + 2 * count * ENTRY_SIZE;
    const uint8_t *values = keys;
    for (size_t i = 0; i < count; i++) {
        if (i % BYTES_UNCHECKED == 0) CHECK_FOR_INTERRUPTS();
        values += length_at(entries + i * ENTRY_SIZE);
    }
    Member first = {entries, entries + count * ENTRY_SIZE, {keys, 0}, {values, 0}, count, number};
    measure(&first);
    return first;
}

/* Goes on to the next member; false if there is none. */
static bool advance(Member *member) {
    if (--member->left == 0) return false;
    member->key.at += member->key.size;
    member->value.at += member->value.size;
    member->key_entry += ENTRY_SIZE;
    member->value_entry += ENTRY_SIZE;
    measure(member);
    return true;
}

static Member *first_members(const Pieces *pieces) {
    Member *members = new_bytes(pieces->count * sizeof *members);
    for (uint32_t i = 0; i < pieces->count; i++) members[i] = first_member(pieces->at[i], i);
    return members;
}

/* The heap has the least key at its top, and of equal keys that of the first piece. */
static int compare_members(Datum left, Datum right, void *context) {
    const Member *l = (Member *)DatumGetPointer(left), *r = (Member *)DatumGetPointer(right);
    int order = compare_bytes(r->key, l->key);
    return order != 0 ? order : (r->piece > l->piece) - (r->piece < l->piece);
}

/* The pieces of all members in the order of their keys, with a mark if a later one has the key.
 * Adds up how many members are left, and their bytes. */
static uint32_t *order_members(const Pieces *pieces, size_t total, size_t *count, size_t *keys,
                               size_t *values) {
    Member *members = first_members(pieces), last = {0};
    uint32_t *order = new_bytes(total * sizeof *order);
    binaryheap *heap = binaryheap_allocate(pieces->count, compare_members, NULL);
    for (uint32_t i = 0; i < pieces->count; i++)
        binaryheap_add_unordered(heap, PointerGetDatum(&members[i]));
    binaryheap_build(heap);
    for (size_t i = 0; i < total; i++) {
        CHECK_FOR_INTERRUPTS();
        Member *member = (Member *)DatumGetPointer(binaryheap_first(heap));
        if (i > 0 && compare_bytes(last.key, member->key) == 0) {
            order[i - 1] |= IS_REPLACED;
            *count -= 1, *keys -= last.key.size, *values -= last.value.size;
        }
        last = *member;
        order[i] = member->piece;
        *count += 1, *keys += last.key.size, *values += last.value.size;
        if (advance(member))
            binaryheap_replace_first(heap, PointerGetDatum(member));
        else
            binaryheap_remove_first(heap);
    }
    binaryheap_free(heap);
    pfree(members);
    return order;
}

static void put_member(Parts *parts, const Member *member) {
    memcpy(parts->key_entries, member->key_entry, ENTRY_SIZE);
    memcpy(parts->value_entries, member->value_entry, ENTRY_SIZE);
    parts->key_entries += ENTRY_SIZE;
    parts->value_entries += ENTRY_SIZE;
    parts->keys = put_bytes(parts->keys, member->key.at, member->key.size);
    parts->values = put_bytes(parts->values, member->value.at, member->value.size);
}

/* The object of all members, after free bytes. Of a key that comes twice the last value counts. */
static bool join_members(const Text *text, const Pieces *pieces, size_t front, Bytes *document) {
    size_t total = 0, count = 0, keys = 0, values = 0;
    for (uint32_t i = 0; i < pieces->count; i++) total += count_of(pieces->at[i]);
    uint32_t *order = order_members(pieces, total, &count, &keys, &values);
    size_t size = HEADER_SIZE + 2 * count * ENTRY_SIZE + keys + values;
    if (count > COUNT_MASK || !has_room(size)) return false;
    uint8_t *out = MemoryContextAllocHuge(text->context, front + size);
    uint8_t *at = out + front + HEADER_SIZE;
    Parts parts = {at, at + count * ENTRY_SIZE, at + 2 * count * ENTRY_SIZE,
                   at + 2 * count * ENTRY_SIZE + keys};
    put_word(out + front, OBJECT_TAG | count);
    Member *members = first_members(pieces);
    for (size_t i = 0; i < total; i++) {
        CHECK_FOR_INTERRUPTS();
        Member *member = &members[order[i] & ~IS_REPLACED];
        if (!(order[i] & IS_REPLACED)) put_member(&parts, member);
        advance(member);
    }
    for (uint32_t i = 0; i < pieces->count; i++) pfree((void *)pieces->at[i].at);
    pfree(members);
    pfree(order);
    *document = (Bytes){out, front + size};
    return true;
}

/* Divides a text, and leaves bytes free before its document; false if it cannot be divided, or is
 * refused. */
static bool divide(const Text *text, size_t front, Bytes *document) {
    Bytes whole = trimmed(text->utf8);
    if (!is_bracketed(whole)) return false;
    Bytes inside = trimmed((Bytes){whole.at + 1, whole.size - 2});
    Pieces pieces = {*whole.at == '[', new_bytes(FIRST_ROOM * sizeof *pieces.at), 0, FIRST_ROOM};
    if (inside.size > 0 && !add_children(&pieces, text, inside.at, inside.at + inside.size))
        return false;
    bool is_joined = pieces.is_list ? join_items(text, &pieces, front, document)
                                    : join_members(text, &pieces, front, document);
    pfree(pieces.at);
    return is_joined;
}

/* The documents of pieces are in a context of their own, which is deleted whether all are joined or
 * the library is asked about the whole. */
struct varlena *document_of_pieces(Bytes utf8, size_t piece) {
    Bytes document;
    check_stack_for(KOHIBLAD_CALL_STACK);
    MemoryContext pieces = AllocSetContextCreate(CurrentMemoryContext, "pieces of a long text",
                                                 ALLOCSET_DEFAULT_SIZES);
    MemoryContext before = MemoryContextSwitchTo(pieces);
    Text text = {utf8, MAX_DEPTH, LEVELS, piece, before};
    bool is_divided = divide(&text, VARHDRSZ, &document);
    MemoryContextSwitchTo(before);
    MemoryContextDelete(pieces);
    if (!is_divided) return NULL;
    struct varlena *value = (struct varlena *)document.at;
    SET_VARSIZE(value, document.size);
    return value;
}

struct varlena *document_of_long_json(Bytes utf8) {
    return utf8.size > LONG_TEXT ? document_of_pieces(utf8, PIECE) : NULL;
}

/* For tests alone, which declare it: the document of a text in pieces of so many bytes, NULL if it
 * has none that is made so. */
PG_FUNCTION_INFO_V1(pg_kohiblad_of_pieces);
Datum pg_kohiblad_of_pieces(PG_FUNCTION_ARGS) {
    Bytes utf8 = utf8_of_text(PG_GETARG_TEXT_PP(0));
    struct varlena *document = document_of_pieces(utf8, PG_GETARG_INT32(1));
    if (!document) PG_RETURN_NULL();
    PG_RETURN_POINTER(document);
}
