/* pmb_table.h: the objects of a capture as columns of a table, handed on by the Arrow C stream
 * interface. The Python package is over it (docs/notebook.md). Nothing here is proved.
 *
 * What comes in are lines as pmb_reader_take of pmb.h writes them (docs/json.md): those of the proved
 * library. A table is made in memory, and then read by any number of streams, also by several threads
 * at one time. Before its end a table is used by one thread at a time.
 */
#ifndef PMB_TABLE_H
#define PMB_TABLE_H

#include <stddef.h>
#include <stdint.h>

#ifdef __cplusplus
extern "C" {
#endif

/* The structs of the Arrow C data and stream interfaces, by their specification. */
#ifndef ARROW_C_DATA_INTERFACE
#define ARROW_C_DATA_INTERFACE

#define ARROW_FLAG_DICTIONARY_ORDERED 1
#define ARROW_FLAG_NULLABLE 2
#define ARROW_FLAG_MAP_KEYS_SORTED 4

struct ArrowSchema {
    const char *format;
    const char *name;
    const char *metadata;
    int64_t flags;
    int64_t n_children;
    struct ArrowSchema **children;
    struct ArrowSchema *dictionary;
    void (*release)(struct ArrowSchema *);
    void *private_data;
};

struct ArrowArray {
    int64_t length;
    int64_t null_count;
    int64_t offset;
    int64_t n_buffers;
    int64_t n_children;
    const void **buffers;
    struct ArrowArray **children;
    struct ArrowArray *dictionary;
    void (*release)(struct ArrowArray *);
    void *private_data;
};
#endif

#ifndef ARROW_C_STREAM_INTERFACE
#define ARROW_C_STREAM_INTERFACE

struct ArrowArrayStream {
    int (*get_schema)(struct ArrowArrayStream *, struct ArrowSchema *out);
    int (*get_next)(struct ArrowArrayStream *, struct ArrowArray *out);
    const char *(*get_last_error)(struct ArrowArrayStream *);
    void (*release)(struct ArrowArrayStream *);
    void *private_data;
};
#endif

/* (all else of the library is hidden) */
#ifdef __GNUC__
#pragma GCC visibility push(default)
#endif

/* The status of a call. */
enum pmb_table_status {
    PMB_TABLE_OK = 0,
    /* malloc or realloc had no memory. */
    PMB_TABLE_NO_MEMORY = 1,
    /* A line is none of pmb_reader_take. */
    PMB_TABLE_BAD_LINE = 2,
    /* A time is a date where seconds are wanted. */
    PMB_TABLE_IS_DATE = 3,
    /* A time is seconds where dates are wanted. */
    PMB_TABLE_IS_SECONDS = 4,
    /* A date is none of the calendar, or not from 1678 to 2261. */
    PMB_TABLE_BAD_DATE = 5,
    /* Some dates have a zone, and some have none. */
    PMB_TABLE_MIXED_ZONES = 6,
    /* The table has ended, or has not. */
    PMB_TABLE_ENDED = 7
};

/* What the column `time` has: seconds, as float64; dates, as nanoseconds with their zone; or the text
 * of the capture. */
enum pmb_table_time { PMB_TABLE_SECONDS = 0, PMB_TABLE_TIMESTAMP = 1, PMB_TABLE_TEXT = 2 };

typedef struct pmb_table pmb_table;

/* The most bytes of a time that pmb_table_fault writes, with its NUL. */
#define PMB_TABLE_MOST_TIME 48

/* An empty table; or null where there is no memory, or `time` is none of enum pmb_table_time. */
pmb_table *pmb_table_open(int32_t time);

/* Adds a row for each object. The bytes are whole lines, each with its LF; lines with counts, which stand
 * at the end of a capture, add nothing. After a status other than PMB_TABLE_OK the table takes no more,
 * and every later call returns the same status. */
int32_t pmb_table_add(pmb_table *table, const char *lines, size_t length);

/* The table is complete: memory that isn't needed is given back, and streams may be opened. */
int32_t pmb_table_end(pmb_table *table);

/* How many rows there are. */
int64_t pmb_table_rows(const pmb_table *table);

/* How many bytes of memory the columns take. */
size_t pmb_table_bytes(const pmb_table *table);

/* Of a time that has a fault: the line of its packet's object in the capture, and its text, with a NUL. */
int64_t pmb_table_fault(const pmb_table *table, char time[PMB_TABLE_MOST_TIME]);

/* Opens a stream over a table that has ended. The table stays in memory until it is closed, and each
 * stream and each array that came of one is released.
 * Returns PMB_TABLE_OK; or PMB_TABLE_NO_MEMORY, PMB_TABLE_ENDED where the table has not ended, or what
 * pmb_table_add returned; then `out` stays. */
int32_t pmb_table_stream(pmb_table *table, struct ArrowArrayStream *out);

/* Closes the table. Null is none. */
void pmb_table_close(pmb_table *table);

/* ---- a PyCapsule of a stream, for Python
 *
 * `get_pointer` is PyCapsule_GetPointer. It is given once, before the first capsule. */
void pmb_table_python(void *(*get_pointer)(void *capsule, const char *name));

/* A stream in memory of its own, for PyCapsule_New; or null, where `status` says why. */
struct ArrowArrayStream *pmb_table_new_stream(pmb_table *table, int32_t *status);

/* Releases a stream of pmb_table_new_stream, if nobody has, and its memory. */
void pmb_table_drop_stream(struct ArrowArrayStream *stream);

/* The destructor of its capsule, whose name is "arrow_array_stream". */
void pmb_table_drop_capsule(void *capsule);

#ifdef __GNUC__
#pragma GCC visibility pop
#endif

#ifdef __cplusplus
}
#endif

#endif
