/* Paths of texts, as #>, kohiblad_set and subscripts take them, and how they lead into a document:
 * by a key into an object, and by an index into an array. */
#ifndef PG_KOHIBLAD_PATHS_H
#define PG_KOHIBLAD_PATHS_H

#include "kept.h"
#include "rows.h"
#include "slices.h"

#include "utils/array.h"

typedef struct TextPath {
    Datum *elements;
    bool *nulls; /* NULL if none is null */
    int count;
} TextPath;

/* An element of a path: a key in an object, and in an array an index, if it is one. */
typedef struct Element {
    const text *given; /* NULL if it is null */
    bool is_index;
    int index;
} Element;

/* A path whose elements are read; and the document of its first `made` elements, as the library
 * takes them, which is taken again as long as they lead through containers of the same kinds. */
typedef struct Path {
    Element *elements;
    int count;
    bool *are_indexes; /* whether an array was there, where each element was last looked up */
    struct varlena *steps;
    int made;         /* 0 if there is no such document */
    int64 last_index; /* of the last of these elements, 0 if it is a key */
} Path;

/* Where a path ends in a document, or stops to lead on. */
typedef struct PathEnd {
    Part container; /* the value that the next element is looked up in */
    int level;      /* the number of elements before that one */
    int64 index;    /* the next element in an array of `count` items; from its end below 0 */
    int64 count;
    Bytes key;      /* the next element in an object */
    bool is_array;
} PathEnd;

#pragma GCC visibility push(hidden)

/* The elements of an array, and those of one that has one dimension at most. */
extern TextPath elements_of_array(ArrayType *array);
extern TextPath path_of_array(ArrayType *array);

/* The path of texts, and that of the second argument, which has one dimension: it is kept from call
 * to call. */
extern Path *path_of_texts(TextPath texts);
extern Path *kept_path(FunctionCallInfo fcinfo);

/* Finds a member of an object, or an item of an array; a negative index counts from the end. */
static inline bool find_key(Bytes document, Bytes key, Part *child) {
    return find_key_in(NULL, document, key, child);
}
static inline bool find_index(Bytes document, int64 index, Part *child) {
    return find_index_in(NULL, document, index, child);
}

/* Finds what an element of a path names: a member, or in an array the item at an index. NULL stands
 * for a document that is at hand. */
extern bool find_step(Sliced *document, Bytes container, Bytes element, Part *child);
extern bool follow_element(Sliced *document, Bytes container, const Element *element, Part *child);

/* Finds what a path leads to from a value. */
extern bool find_path(Sliced *document, Part value, const Path *path, Part *child);

/* Follows a path, which has an element, as far as it leads but for its last element, which is not
 * looked up. False if it leads to a scalar before its end. Refuses a null element, and for an array
 * one that is no index. */
extern bool follow_path(Bytes document, Path *path, PathEnd *end);

/* The document of the elements that a path was followed by to an end, and of the next one, which in
 * an array is this index. It is the path's own. */
extern Bytes steps_through(Path *path, const PathEnd *end, int64 index);

/* The document of all elements of a path, by which KOHIBLAD_CREATE makes what is not there: past
 * the last item of an array the end is right after it, and in what is made each index is 0. */
extern Bytes steps_to_make(const Path *path, const PathEnd *end);

/* Whether an array of so many items has one at an index; a negative one counts from the end. */
extern bool has_index(int64 count, int64 index);

/* Raises the error of a document that is no path. */
extern void refuse_path(void) pg_attribute_noreturn();

/* Whether the next element of a path leads somewhere from its end. */
extern bool is_end_there(const PathEnd *end);

#pragma GCC visibility pop

#endif
