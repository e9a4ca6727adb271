/* Paths of SQL/JSON that the library follows, in a document that is at hand as a whole. */
#ifndef PG_KOHIBLAD_PATHTEXT_H
#define PG_KOHIBLAD_PATHTEXT_H

#include "document.h"

#include "lib/stringinfo.h"
#include "utils/jsonpath.h"

/* A path as the library takes it, with the stack that reading it needs, and the bytes of documents
 * and variables that are known to be few enough for it. */
typedef struct PathText {
    JsonPath *path;
    Bytes text;
    size_t stack, bounded;
} PathText;

/* What a path is to be asked of. */
typedef struct Question {
    PathText *path;
    Bytes document, variables;
} Question;

#pragma GCC visibility push(hidden)

/* Writes a path as the library reads it, in the server's encoding. Returns how deep brackets and
 * signs nest. */
extern int write_path(StringInfo out, JsonPath *path);

/* The text of a path, in the current memory context; it points to the path. NULL if the library
 * does not follow it. */
extern PathText *text_of_path(JsonPath *path);

/* Whether the library may be asked: no call of it is cancelled while it runs. */
extern bool is_for_library(const Question *question);

/* The array of all values, whether there is a value, and what a predicate says. In silence the
 * values are those before an error, and there may be no answer. */
extern struct varlena *ask_values(const Question *question, bool is_silent);
extern bool ask_any(const Question *question, bool is_silent, bool *is_null);
extern bool ask_match(const Question *question, bool is_silent, bool *is_null);

/* Raises the error of a path. */
extern void give_up_path(uint32_t status) pg_attribute_noreturn();

#pragma GCC visibility pop

#endif
