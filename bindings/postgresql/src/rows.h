/* Rows as the library's builders take them: their bytes one after another, and one offset more than
 * there are rows. Each row is an item of an array, or in turn a key and a value of an object. */
#ifndef PG_KOHIBLAD_ROWS_H
#define PG_KOHIBLAD_ROWS_H

#include "document.h"

#include "lib/stringinfo.h"

typedef struct Rows {
    StringInfoData bytes;
    size_t *offsets;
    size_t count, room;
} Rows;

#pragma GCC visibility push(hidden)

/* No rows, in the current memory context. */
extern Rows *new_rows(void);
extern void free_rows(Rows *rows);

/* Takes all rows out, and keeps their memory for others. */
extern void empty_rows(Rows *rows);

extern void add_row(Rows *rows, Bytes row);
extern void add_rows(Rows *rows, const Rows *more);
extern void add_part(Rows *rows, Part part);
extern void add_null(Rows *rows);
extern void add_text(Rows *rows, Bytes utf8);
extern void add_int64(Rows *rows, int64 value);
extern void add_boolean(Rows *rows, bool value);

/* The array or the object of rows. Of a key that comes twice the last value counts, or it is
 * refused with the error of the standard. */
extern struct varlena *array_of_rows(const Rows *rows);
extern struct varlena *object_of_rows(const Rows *rows);
extern struct varlena *object_of_unique_rows(const Rows *rows);

#pragma GCC visibility pop

#endif
