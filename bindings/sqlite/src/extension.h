/* What the files of the extension share. */
#ifndef KOHIBLAD_SQLITE_EXTENSION_H
#define KOHIBLAD_SQLITE_EXTENSION_H

#include <kohiblad.h>
#include <sqlite3ext.h>

/* How deep texts and documents may nest. The stack that this needs is KOHIBLAD_CALL_STACK and
 * KOHIBLAD_LEVEL_STACK for each level, 1,008 KB; for changes KOHIBLAD_EDIT_LEVEL_STACK, which is
 * 2,008 KB, and for jb_patch KOHIBLAD_PATCH_LEVEL_STACK, 2,383 KB. */
#ifndef KOHIBLAD_SQLITE_DEPTH
#define KOHIBLAD_SQLITE_DEPTH 1000
#endif

/* How many steps jb_contains and a path of SQL/JSON may take, which is a second or two. Without a
 * limit jb_contains takes a product of the lengths of both arguments, and a path a power of that of
 * the document. */
#ifndef KOHIBLAD_SQLITE_STEPS
#define KOHIBLAD_SQLITE_STEPS 20000000
#endif

/* Headers before 3.45 have no name for this flag, and SQLite before 3.45 ignores it. */
#ifndef SQLITE_RESULT_SUBTYPE
#define SQLITE_RESULT_SUBTYPE 0x001000000
#endif

/* The most stack that a path of SQL/JSON may take beside that for the levels of the document. One
 * that nests in brackets and operators takes at most so much for each. */
#ifndef KOHIBLAD_SQLITE_PATH_STACK
#define KOHIBLAD_SQLITE_PATH_STACK KOHIBLAD_PATH_STACK
#endif

/* The subtype of TEXT that is JSON: SQLite's JSON functions set and read it. */
enum { JSON_SUBTYPE = 'J' };

/* Statuses beside those of the library: the result is past SQLite's limit of lengths, and the query
 * was interrupted. */
enum { RESULT_TOO_BIG = 1000, INTERRUPTED = 1001 };

struct bytes {
    const uint8_t *at;
    size_t size;
};

/* A value inside a document: the type of its entry and its payload. Of the type
 * KOHIBLAD_TYPE_CONTAINER the payload is a document by itself. A whole document is such a part,
 * too, also of a scalar. */
struct part {
    uint32_t type;
    struct bytes payload;
};

/* An SQL value that becomes a document. */
struct sql_value {
    int type;
    bool is_json;       /* TEXT is JSON, else it is a string */
    int64_t integer;
    struct bytes bytes; /* of TEXT and BLOBs */
};

/* Where the result of an SQL function goes, and the name that its errors begin with. */
struct caller {
    sqlite3_context *context;
    const char *name;
};

/* Bytes that a writer wrote: in `small` if they fit, else in memory of SQLite. */
struct buffer {
    uint8_t *at;
    size_t size;
    uint8_t small[4096];
};

/* Writes a result of the input as the calls of the library do: KOHIBLAD_NO_ROOM and the length that
 * it has, if it needs more room. */
typedef uint32_t writer(const void *input, uint8_t *out, size_t room, size_t *length);

/* errors.c */

/* "NAME: Status", and ": note" if there is one. Null if memory was refused. The caller frees it by
 * sqlite3_free. */
char *status_message(const char *name, uint32_t status, const char *note);
/* Makes a message the error of a function, and frees it. Null means that memory was refused. */
void fail_with(const struct caller *caller, char *message);
void fail(const struct caller *caller, uint32_t status);
void fail_because(const struct caller *caller, uint32_t status, const char *note);
/* Reports why a value has no document, and where a JSON text is at fault. */
void fail_value(const struct caller *caller, uint32_t status, const struct sql_value *value);

/* interrupts.c */

/* Whether SQLite can say that a query was interrupted, as it can from 3.41 on. */
bool has_interrupts(void);
/* Whether the query was interrupted. */
bool is_interrupted(const struct caller *caller);

/* arguments.c: where a function whose name begins with get returns false, it has reported why. */

/* The bytes of a BLOB, or of TEXT in UTF-8; false if memory was refused. */
bool bytes_of(sqlite3_value *value, struct bytes *bytes);
/* Whether TEXT has the subtype of JSON. */
bool has_json_subtype(sqlite3_value *value);
/* The bytes of a BLOB, which are not checked. */
bool get_document(const struct caller *caller, sqlite3_value *value, struct bytes *document);
/* The bytes of a BLOB that is a document. */
bool get_checked(const struct caller *caller, sqlite3_value *value, struct bytes *document);
/* The bytes of a BLOB, which need be no document. */
bool get_data(const struct caller *caller, sqlite3_value *value, struct bytes *data);
/* TEXT in UTF-8. */
bool get_text(const struct caller *caller, sqlite3_value *value, struct bytes *text);
/* Any value but a REAL. A BLOB is not checked. */
bool get_sql_value(const struct caller *caller, sqlite3_value *value, bool is_json,
                   struct sql_value *sql_value);

/* writers.c: these are of type `writer`. */

/* A copy of struct bytes. */
writer write_bytes;
/* The document of a JSON text in struct bytes, and the string of such a text. */
writer write_parsed, write_string;
/* The document of struct sql_value. */
writer write_sql_value;
/* The room that the document of such a value mostly needs. */
size_t guess_of(const struct sql_value *value);
/* The document of struct part, which has at most SCALAR_FRONT bytes more than its payload. */
enum { SCALAR_FRONT = 8 };
writer write_part;
/* Of a document in struct bytes. */
writer write_compact, write_pretty, write_canonical, write_key;
/* The document of struct bytes as binary data. */
writer write_binary;
/* Two documents put together, or one patched by the other, struct documents. */
struct documents {
    struct bytes left, right;
};
writer write_concat;
writer write_patched;
/* A document edited at a path, struct edit. */
struct edit {
    struct bytes document, path, value;
    uint32_t kind; /* enum kohiblad_edit_kind */
};
writer write_edited;

/* rows.c */

/* The rows of a document that is built: documents, and before each the text of its name if it is an
 * object, one after another. All zeros are no rows. */
struct rows {
    uint8_t *bytes;
    size_t size, room;
    size_t *offsets; /* of the rows, and the end of the last; null before the first row */
    size_t count, offsets_room;
    size_t gone;     /* how many of the first rows are no longer wanted */
};

/* Appends what the writer writes; `guess` is the room that it mostly needs. */
uint32_t append(struct rows *rows, writer *write, const void *input, size_t guess);
/* Append a name, and the document of a value. Where they return false, they have reported why. */
bool append_name(const struct caller *caller, struct rows *rows, sqlite3_value *value);
bool append_value(const struct caller *caller, struct rows *rows, sqlite3_value *value);
/* The first so many rows are no longer wanted. */
void drop_first(struct rows *rows, size_t count);
/* Frees the memory; then there are no rows. */
void forget(struct rows *rows);
/* The array and the object of struct rows, and the room that they mostly need. */
writer write_array, write_object;
size_t guess_of_rows(const struct rows *rows);

/* buffer.c */

/* Calls the writer with room for `guess` bytes, and again if it needs more. After another status
 * than KOHIBLAD_OK the buffer holds no memory. */
uint32_t try_fill(const struct caller *caller, struct buffer *buffer, writer *write,
                  const void *input, size_t guess);
/* The same. After `false` it has reported the error and the buffer holds no memory. */
bool fill(const struct caller *caller, struct buffer *buffer, writer *write, const void *input,
          size_t guess);
/* The same with the document of a value. */
bool fill_document(const struct caller *caller, struct buffer *buffer,
                   const struct sql_value *value);
/* The document that jb makes of a value: TEXT is JSON; a BLOB is taken as it is, and not checked.
 * After `true` the caller releases the buffer. */
bool make_document(const struct caller *caller, sqlite3_value *value, struct buffer *buffer,
                   struct bytes *document);
/* What is in the buffer. */
struct bytes bytes_in(const struct buffer *buffer);
void release(struct buffer *buffer);
/* These hand the buffer's memory to SQLite. */
void give_blob(const struct caller *caller, struct buffer *buffer);
void give_text(const struct caller *caller, struct buffer *buffer);
/* Gives the TEXT the subtype of JSON. */
void give_json(const struct caller *caller, struct buffer *buffer);

/* results.c */

/* The text of a document, with the subtype of JSON. */
void give_compact(const struct caller *caller, struct bytes document);
void give_document(const struct caller *caller, const struct part *part);
/* A part as an SQL value: NULL, an INTEGER or TEXT. */
void give_value(const struct caller *caller, const struct part *part);
/* An INTEGER or a REAL; nothing of other kinds. */
void give_number(const struct caller *caller, const struct part *part);
/* The bytes of binary data; nothing of other kinds. */
void give_data(const struct caller *caller, const struct part *part);
struct kohiblad_value_kind kind_of_part(const struct part *part);
/* The name of a part's kind. */
void give_kind(const struct caller *caller, const struct part *part);

/* The type of a part as json_type names it; of an extension value `extension`. */
void give_type(const struct caller *caller, const struct part *part);
/* The number of an array's items, and 0 of all others. */
void give_array_length(const struct caller *caller, const struct part *part);

/* path.c */

enum step_kind { NAME, INDEX, FROM_END };

struct step {
    enum step_kind kind;
    struct bytes name;
    uint64_t index;
    struct part value; /* in the document of the path; its payload is null if there is no step */
};

/* The steps of a path that are not yet read. */
struct reader {
    struct bytes path;
    struct kohiblad_cursor next;
};

/* Reads the text of a path into the document of its steps. KOHIBLAD_OK: the caller releases it.
 * After another status *message is what to report; null if memory was refused. */
uint32_t open_path(const char *name, struct bytes text, struct buffer *path, char **message);
/* The same of an argument, which SQLite keeps for the next rows if it is a constant. Null after an
 * error that was reported. */
const struct buffer *kept_path(const struct caller *caller, sqlite3_value **arguments, int index);
/* The steps of such a document, from the first on. */
struct reader steps_of(const struct buffer *path);
/* Reads the next step, if there is one. */
bool read_step(struct reader *reader, struct step *step);
/* Follows a step from a part. A step from the end becomes an INDEX if the part is an array that is
 * so long. KOHIBLAD_NONE: nothing is there. */
uint32_t take_step(struct step *step, struct part *part);
/* Follows a path from the whole document. KOHIBLAD_OK, or KOHIBLAD_NONE: nothing is there. After
 * another status *message is what to report. `last` becomes the last step that was followed. */
uint32_t follow_path(const char *name, struct bytes document, const struct buffer *path,
                     struct part *part, struct step *last, char **message);

/* path_steps.c */

/* How many steps a path of SQL/JSON takes at most in documents of so many bytes and levels. The text
 * is one that the library reads. */
double steps_of_path(struct bytes path, size_t size, size_t levels);

/* These return codes of SQLite. */
int register_functions(sqlite3 *database);  /* functions.c */
int register_builders(sqlite3 *database);   /* builders.c */
int register_edits(sqlite3 *database);      /* edits.c */
int register_aggregates(sqlite3 *database); /* aggregates.c */
int register_each(sqlite3 *database);       /* each.c */
int register_survey(sqlite3 *database);     /* survey.c */
int register_queries(sqlite3 *database);    /* queries.c */

#endif
