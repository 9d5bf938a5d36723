/* What the files of this folder share: a table, its batches, and their columns. */
#ifndef PMB_TABLE_INNER_H
#define PMB_TABLE_INNER_H

#include "pmb_table.h"

/* What a column holds. Each has a bit beside each row that says whether there is a value. */
enum form {
    WHOLE, /* int64 */
    REAL,  /* float64 */
    FLAG,  /* a bit */
    NAME,  /* int16, the number of a text in the column's dictionary */
    TEXT,  /* utf8 */
    NAMES  /* a list of utf8 */
};

/* The columns, in the order of the table. */
enum column_id {
    TIME, KIND, DEVICE, DEVICE_NAME, PAGE, CODE, COMMAND, VALUE, UNIT, EXACT, BITS, CLEARS, REASON, PHASE,
    PAGE_MODE, MODE, RATIO, RAW, TEXT_OF, SAYS, BYTES, SENT, REPLY, PEC, RIGHT_PEC, BYTE, REFUSED, EXPECTED,
    GOT, WORD, PART, PARTS, AT, LINE, COLUMN, COLUMNS
};

/* Texts one after the other: text i is from offsets[i] to offsets[i + 1]. */
struct texts {
    int32_t *offsets;
    int32_t offsets_room;
    char *bytes;
    int32_t used;
    int32_t room;
};

/* The rows of a column in one batch. A column without a value in the batch has no memory of its own. */
struct column {
    uint8_t *valid;
    void *values;       /* of WHOLE, REAL, FLAG and NAME */
    int32_t *offsets;   /* of NAMES: row r has the items from offsets[r] to offsets[r + 1] */
    int32_t items;      /* of NAMES: how many there are */
    struct texts texts; /* of TEXT a text for each row, of NAMES one for each item */
    int32_t present;    /* how many rows have a value */
};

/* Rows that are handed on as one array. */
struct batch {
    struct column columns[COLUMNS];
    int32_t rows;
    int32_t room;
};

/* The texts of a column of names, each once. */
struct dictionary {
    struct texts texts;
    int32_t count;
    int16_t last;   /* the one that was found last, which the next row mostly has too */
    int16_t *slots; /* a hash table: numbers of texts, -1 where there is none */
    int32_t slots_count;
};

struct pmb_table {
    int32_t users; /* who still needs it: its owner, and each stream and array; changed atomically */
    int32_t status;
    int32_t ended;
    int32_t time; /* one of enum pmb_table_time */
    int64_t rows;
    struct batch **batches;
    size_t batches_count;
    size_t batches_room;
    struct dictionary dictionaries[COLUMNS];
    size_t bytes;
    /* Of a column of dates: whether one has come; its zone, and whether others have other ones. */
    int32_t has_zone;
    int32_t zone; /* minutes east of UTC, or NO_ZONE */
    int32_t zones_differ;
    int64_t fault_line;
    char fault_time[PMB_TABLE_MOST_TIME];
};

#define NO_ZONE 10000

/* The most rows of a batch. */
#define MOST_ROWS 65536

/* Zeros, which stand for a column of a batch without a value. Nobody writes to them. */
extern uint8_t pmb_table_nothing[(MOST_ROWS + 1) * 8];

/* ---- columns.c */

enum form form_of(const pmb_table *table, int id);

/* The batch that takes the next row, or null where there is no memory. */
struct batch *batch_for_row(pmb_table *table);

/* Each puts a value into the next row of a column, and returns a status. */
int32_t put_whole(pmb_table *table, struct batch *batch, int id, int64_t value);
int32_t put_real(pmb_table *table, struct batch *batch, int id, double value);
int32_t put_flag(pmb_table *table, struct batch *batch, int id, int value);
int32_t put_name(pmb_table *table, struct batch *batch, int id, const char *text, size_t length);
int32_t put_text(pmb_table *table, struct batch *batch, int id, const char *text, size_t length);
/* The items of a list come after put_list, each by put_item. */
int32_t put_list(pmb_table *table, struct batch *batch, int id);
int32_t put_item(struct batch *batch, int id, const char *text, size_t length);

/* The row is complete. */
int32_t end_row(pmb_table *table, struct batch *batch);

/* No more rows come: gives back what isn't needed, and counts the rest. */
void trim(pmb_table *table);

/* One more, or one fewer, needs the table. The last frees it. */
void hold(pmb_table *table);
void let_go(pmb_table *table);

/* ---- times.c */

/* The float64 that is nearest to a text of digits with at most one point, a sign before them or none;
 * or to a fraction of whole numbers below 2^53. Returns 0 where it is none of these. */
int real_of(const char *text, size_t length, double *value);

/* Puts the time of a row. */
int32_t put_time(pmb_table *table, struct batch *batch, const char *text, size_t length);

#endif
