/* Paths of SQL/JSON that the extension follows in documents: those of keys, indexes, wildcards,
 * levels, variables, filters and arithmetic, and their predicates. */
#ifndef PG_KOHIBLAD_PATHPLAN_H
#define PG_KOHIBLAD_PATHPLAN_H

#include "slices.h"

#include "utils/jsonpath.h"

/* The items between two indexes, which are counted from the first item, or from the last one. */
typedef struct Subscript {
    int64 number;
    bool is_from_last;
} Subscript;
typedef struct Range {
    Subscript first, last;
} Range;

struct Test;

/* A step of a path: jpiKey, jpiAnyKey, jpiAnyArray, jpiAny, jpiIndexArray or jpiFilter; or one that
 * makes a value: jpiAbs, jpiFloor or jpiCeiling, and as the last one jpiSize or jpiType. */
typedef struct Step {
    JsonPathItemType type;
    const struct Step *next; /* NULL at the end */
    Bytes key;
    const Range *ranges; /* the subscripts of an index step */
    int range_count;
    uint32 first_level, last_level; /* of jpiAny; `last` is the greatest number */
    const struct Test *filter;
} Step;

/* Where values come from: a literal, or the steps after jpiRoot, jpiCurrent or jpiVariable, after
 * jpiPlus or jpiMinus with one operand, or after jpiAdd, jpiSub, jpiMul or jpiMod with two. */
typedef struct Source {
    JsonPathItemType type;
    const Step *steps;
    const struct Source *left, *right;
    int variable; /* its number */
    Part literal;
    bool makes_numbers; /* so that an error may come in lax mode too */
} Source;

/* A predicate. jpiAnd and jpiOr have two below them, and jpiNot and jpiIsUnknown one. Comparisons
 * and jpiStartsWith have two sources, jpiExists and jpiLikeRegex one. */
typedef struct Test {
    JsonPathItemType type;
    const struct Test *left, *right;
    Source source, other;
    text *pattern; /* of jpiLikeRegex, with its flags as the server's engine has them */
    int flags;
} Test;

/* A whole path: its predicate, or where its values come from if that is NULL; and the names of its
 * variables. */
typedef struct PathPlan {
    const Test *test;
    Source source;
    const Bytes *names;
    int name_count;
    bool is_strict;
    bool goes_apart; /* whether steps may follow from values that are not in the document */
} PathPlan;

/* What a path is followed in: a document, and the object of the variables, or no bytes; and whether
 * an error is passed over. */
typedef struct Asked {
    Sliced *document;
    Part root;
    Bytes variables;
    bool is_silent;
} Asked;

/* Values that a path found. */
typedef struct Parts {
    Part *at;
    size_t count, room;
} Parts;

#pragma GCC visibility push(hidden)

/* The plan of a path, in the current memory context; it points into the path. NULL if the path has
 * another step. */
extern const PathPlan *plan_of_path(JsonPath *path);

/* A number, `last`, or `last` less a number, that is an index for the server too. */
extern bool plan_index(JsonPathItem *item, Subscript *index);

/* The text of a key or a string in a path, and the document of a number, unless that is past the
 * format's limits. */
extern Bytes string_of_item(JsonPathItem *item);
extern bool write_number(JsonPathItem *item, uint8_t *out, size_t *size);

/* Whether there is a value; what the predicate says, or the only value if it is a boolean or null;
 * and all values, in order. In silence these are the values before an error, and there may be no
 * answer. False where another engine has to be asked. */
extern bool find_any(const PathPlan *plan, const Asked *asked, bool *is_null, bool *answer);
extern bool find_truth(const PathPlan *plan, const Asked *asked, bool *is_null, bool *answer);
extern bool find_values(const PathPlan *plan, const Asked *asked, Parts *values);

/* The number that a sign or a method, or an operator, makes. KOHIBLAD_OUT_OF_RANGE, or
 * KOHIBLAD_DIVISION_BY_ZERO; KOHIBLAD_NONE if the library has to tell. */
extern uint32_t number_of_one(JsonPathItemType type, Part operand, Part *result);
extern uint32_t number_of_two(JsonPathItemType type, Part left, Part right, Part *result);

#pragma GCC visibility pop

#endif
