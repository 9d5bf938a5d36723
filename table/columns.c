/* The columns of a table as they grow. A batch begins small, and all its columns have the same room; a
 * column gets memory with its first value. So what a capture doesn't have costs nothing.
 *
 * Where there is no memory, what stands so far stays as it is, and let_go frees it. */
#include <stdlib.h>
#include <string.h>

#include "table.h"

uint8_t pmb_table_nothing[(MOST_ROWS + 1) * 8];

static const uint8_t forms[COLUMNS] = {
    [TIME] = REAL, [KIND] = NAME, [DEVICE] = NAME, [DEVICE_NAME] = NAME, [PAGE] = NAME, [CODE] = NAME,
    [COMMAND] = NAME, [VALUE] = REAL, [UNIT] = NAME, [EXACT] = TEXT, [BITS] = NAMES, [CLEARS] = NAMES,
    [REASON] = NAME, [PHASE] = NAME, [PAGE_MODE] = NAME, [MODE] = NAME, [RATIO] = REAL, [RAW] = NAME,
    [TEXT_OF] = TEXT, [SAYS] = TEXT, [BYTES] = TEXT, [SENT] = TEXT, [REPLY] = TEXT, [PEC] = FLAG,
    [RIGHT_PEC] = NAME, [BYTE] = NAME, [REFUSED] = NAME, [EXPECTED] = NAMES, [GOT] = NAME, [WORD] = TEXT,
    [PART] = WHOLE, [PARTS] = WHOLE, [AT] = WHOLE, [LINE] = WHOLE, [COLUMN] = WHOLE,
};

enum form form_of(const pmb_table *table, int id)
{
    if (id == TIME && table->time == PMB_TABLE_TIMESTAMP) return WHOLE;
    if (id == TIME && table->time == PMB_TABLE_TEXT) return TEXT;
    return (enum form)forms[id];
}

/* ---- texts */

/* Room for so many offsets. */
static int32_t make_offsets_room(struct texts *texts, int32_t count)
{
    int32_t *const made = realloc(texts->offsets, (size_t)count * sizeof *made);
    if (made == NULL) return PMB_TABLE_NO_MEMORY;
    if (texts->offsets_room == 0) made[0] = 0;
    texts->offsets = made;
    texts->offsets_room = count;
    return PMB_TABLE_OK;
}

static int32_t append(struct texts *texts, const char *text, size_t length)
{
    if (length > (size_t)(INT32_MAX / 2 - texts->used)) return PMB_TABLE_NO_MEMORY;
    if ((int32_t)length > texts->room - texts->used) {
        int32_t room = texts->room != 0 ? texts->room : 64;
        while (room < texts->used + (int32_t)length) room *= 2;
        char *const made = realloc(texts->bytes, (size_t)room);
        if (made == NULL) return PMB_TABLE_NO_MEMORY;
        texts->bytes = made;
        texts->room = room;
    }
    if (length != 0) memcpy(texts->bytes + texts->used, text, length);
    texts->used += (int32_t)length;
    return PMB_TABLE_OK;
}

/* Appends a text as the one of a number. */
static int32_t append_as(struct texts *texts, int32_t number, const char *text, size_t length)
{
    int32_t status = PMB_TABLE_OK;
    if (number + 2 > texts->offsets_room) {
        status = make_offsets_room(texts, texts->offsets_room != 0 ? 2 * texts->offsets_room : 16);
    }
    if (status == PMB_TABLE_OK) status = append(texts, text, length);
    if (status == PMB_TABLE_OK) texts->offsets[number + 1] = texts->used;
    return status;
}

/* ---- dictionaries */

static int is_text(const struct texts *texts, int32_t number, const char *text, size_t length)
{
    const int32_t begin = texts->offsets[number];
    return (size_t)(texts->offsets[number + 1] - begin) == length &&
           memcmp(texts->bytes + begin, text, length) == 0;
}

/* The slot in which a text's number stands, or might stand. */
static int32_t slot_of(const struct dictionary *of, const char *text, size_t length)
{
    uint32_t hash = 2166136261u;
    for (size_t i = 0; i < length; i++) hash = (hash ^ (uint8_t)text[i]) * 16777619u;
    int32_t at = (int32_t)(hash & (uint32_t)(of->slots_count - 1));
    while (of->slots[at] >= 0 && !is_text(&of->texts, of->slots[at], text, length)) {
        at = (at + 1) & (of->slots_count - 1);
    }
    return at;
}

/* Makes a hash table of twice the size, at most half of which is then taken. */
static int32_t make_slots(struct dictionary *of)
{
    const int32_t count = of->slots_count != 0 ? 2 * of->slots_count : 32;
    int16_t *const made = malloc((size_t)count * sizeof *made);
    if (made == NULL) return PMB_TABLE_NO_MEMORY;
    memset(made, 0xff, (size_t)count * sizeof *made);
    free(of->slots);
    of->slots = made;
    of->slots_count = count;
    for (int32_t i = 0; i < of->count; i++) {
        const int32_t begin = of->texts.offsets[i];
        made[slot_of(of, of->texts.bytes + begin, (size_t)(of->texts.offsets[i + 1] - begin))] = (int16_t)i;
    }
    return PMB_TABLE_OK;
}

/* The number of a text in a dictionary, which gets it where it lacks it. */
static int32_t number_of(struct dictionary *of, const char *text, size_t length, int16_t *number)
{
    if (of->count == 0 || !is_text(&of->texts, of->last, text, length)) {
        if (2 * of->count >= of->slots_count) {
            const int32_t status = make_slots(of);
            if (status != PMB_TABLE_OK) return status;
        }
        const int32_t at = slot_of(of, text, length);
        if (of->slots[at] < 0) {
            /* (a profile has fewer names than that) */
            if (of->count == INT16_MAX) return PMB_TABLE_BAD_LINE;
            const int32_t status = append_as(&of->texts, of->count, text, length);
            if (status != PMB_TABLE_OK) return status;
            of->slots[at] = (int16_t)of->count;
            of->count++;
        }
        of->last = of->slots[at];
    }
    *number = of->last;
    return PMB_TABLE_OK;
}

/* ---- columns */

/* How many bytes the values of so many rows take. */
static size_t values_size(enum form form, int32_t rows)
{
    switch (form) {
    case WHOLE:
    case REAL: return (size_t)rows * 8;
    case NAME: return (size_t)rows * 2;
    case FLAG: return (size_t)rows / 8 + 1;
    case TEXT:
    case NAMES: return 0;
    }
    return 0;
}

static size_t valid_size(int32_t rows)
{
    return (size_t)rows / 8 + 1;
}

/* Memory that grows from a size to another one, with zeros in what is new. */
static void *grown(void *block, size_t size, size_t wanted)
{
    uint8_t *const made = realloc(block, wanted);
    if (made != NULL && wanted > size) memset(made + size, 0, wanted - size);
    return made;
}

/* Gives a column room for more rows. One that has none yet gets that of the batch. */
static int32_t make_room(struct column *column, enum form form, int32_t rows, int32_t wanted)
{
    const int is_new = column->valid == NULL;
    void *made = grown(column->valid, is_new ? 0 : valid_size(rows), valid_size(wanted));
    if (made == NULL) return PMB_TABLE_NO_MEMORY;
    column->valid = made;
    if (form == TEXT || form == NAMES) {
        int32_t **const offsets = form == TEXT ? &column->texts.offsets : &column->offsets;
        const size_t size = is_new ? 0 : ((size_t)rows + 1) * sizeof **offsets;
        made = grown(*offsets, size, ((size_t)wanted + 1) * sizeof **offsets);
        if (made == NULL) return PMB_TABLE_NO_MEMORY;
        *offsets = made;
        if (form == TEXT) column->texts.offsets_room = wanted + 1;
        return PMB_TABLE_OK;
    }
    made = grown(column->values, is_new ? 0 : values_size(form, rows), values_size(form, wanted));
    if (made == NULL) return PMB_TABLE_NO_MEMORY;
    column->values = made;
    return PMB_TABLE_OK;
}

/* Marks the next row of a column as one with a value, and returns the column; null without memory. */
static struct column *present(pmb_table *table, struct batch *batch, int id)
{
    struct column *const column = &batch->columns[id];
    const int32_t row = batch->rows;
    /* (a column that memory failed for has less than it needs: the table takes no more then) */
    if (column->present == 0 &&
        make_room(column, form_of(table, id), batch->room, batch->room) != PMB_TABLE_OK) {
        return NULL;
    }
    const uint8_t bit = (uint8_t)(1u << row % 8);
    if ((column->valid[row / 8] & bit) == 0) column->present++;
    column->valid[row / 8] |= bit;
    return column;
}

int32_t put_whole(pmb_table *table, struct batch *batch, int id, int64_t value)
{
    struct column *const column = present(table, batch, id);
    if (column == NULL) return PMB_TABLE_NO_MEMORY;
    ((int64_t *)column->values)[batch->rows] = value;
    return PMB_TABLE_OK;
}

int32_t put_real(pmb_table *table, struct batch *batch, int id, double value)
{
    struct column *const column = present(table, batch, id);
    if (column == NULL) return PMB_TABLE_NO_MEMORY;
    ((double *)column->values)[batch->rows] = value;
    return PMB_TABLE_OK;
}

int32_t put_flag(pmb_table *table, struct batch *batch, int id, int value)
{
    struct column *const column = present(table, batch, id);
    if (column == NULL) return PMB_TABLE_NO_MEMORY;
    if (value) ((uint8_t *)column->values)[batch->rows / 8] |= (uint8_t)(1u << batch->rows % 8);
    return PMB_TABLE_OK;
}

int32_t put_name(pmb_table *table, struct batch *batch, int id, const char *text, size_t length)
{
    int16_t number;
    const int32_t status = number_of(&table->dictionaries[id], text, length, &number);
    if (status != PMB_TABLE_OK) return status;
    struct column *const column = present(table, batch, id);
    if (column == NULL) return PMB_TABLE_NO_MEMORY;
    ((int16_t *)column->values)[batch->rows] = number;
    return PMB_TABLE_OK;
}

int32_t put_text(pmb_table *table, struct batch *batch, int id, const char *text, size_t length)
{
    struct column *const column = present(table, batch, id);
    return column == NULL ? PMB_TABLE_NO_MEMORY : append(&column->texts, text, length);
}

int32_t put_list(pmb_table *table, struct batch *batch, int id)
{
    return present(table, batch, id) == NULL ? PMB_TABLE_NO_MEMORY : PMB_TABLE_OK;
}

int32_t put_item(struct batch *batch, int id, const char *text, size_t length)
{
    struct column *const column = &batch->columns[id];
    const int32_t status = append_as(&column->texts, column->items, text, length);
    if (status == PMB_TABLE_OK) column->items++;
    return status;
}

int32_t end_row(pmb_table *table, struct batch *batch)
{
    batch->rows++;
    table->rows++;
    for (int id = 0; id < COLUMNS; id++) {
        struct column *const column = &batch->columns[id];
        if (column->present == 0) continue;
        if (column->offsets != NULL) {
            column->offsets[batch->rows] = column->items;
        } else if (column->values == NULL) {
            column->texts.offsets[batch->rows] = column->texts.used;
        }
    }
    return PMB_TABLE_OK;
}

/* ---- batches */

/* Gives back what a block has beyond a size, which may be 0. */
static void *trimmed(void *block, size_t size)
{
    void *const made = block == NULL ? NULL : realloc(block, size != 0 ? size : 1);
    return made != NULL ? made : block;
}

static size_t trim_texts(struct texts *texts, int32_t count)
{
    texts->bytes = trimmed(texts->bytes, (size_t)texts->used);
    texts->room = texts->used;
    if (texts->offsets == NULL) return 0;
    const size_t size = ((size_t)count + 1) * sizeof *texts->offsets;
    texts->offsets = trimmed(texts->offsets, size);
    texts->offsets_room = count + 1;
    return size + (size_t)texts->used;
}

static size_t trim_column(struct column *column, enum form form, int32_t rows)
{
    if (column->present == 0) return 0;
    size_t bytes = valid_size(rows) + values_size(form, rows);
    column->valid = trimmed(column->valid, valid_size(rows));
    column->values = trimmed(column->values, values_size(form, rows));
    if (form == NAMES) {
        const size_t size = ((size_t)rows + 1) * sizeof *column->offsets;
        column->offsets = trimmed(column->offsets, size);
        bytes += size;
    }
    return bytes + trim_texts(&column->texts, form == NAMES ? column->items : rows);
}

static void trim_batch(pmb_table *table, struct batch *batch)
{
    for (int id = 0; id < COLUMNS; id++) {
        table->bytes += trim_column(&batch->columns[id], form_of(table, id), batch->rows);
    }
    batch->room = batch->rows;
    table->bytes += sizeof *batch;
}

void trim(pmb_table *table)
{
    if (table->batches_count != 0) trim_batch(table, table->batches[table->batches_count - 1]);
    for (int id = 0; id < COLUMNS; id++) {
        struct dictionary *const of = &table->dictionaries[id];
        table->bytes += trim_texts(&of->texts, of->count);
        free(of->slots);
        of->slots = NULL;
    }
}

/* Begins a batch. The one before it is complete. */
static struct batch *begin_batch(pmb_table *table)
{
    if (table->batches_count == table->batches_room) {
        const size_t room = table->batches_room != 0 ? 2 * table->batches_room : 4;
        struct batch **const made = realloc(table->batches, room * sizeof *made);
        if (made == NULL) return NULL;
        table->batches = made;
        table->batches_room = room;
    }
    struct batch *const batch = malloc(sizeof *batch);
    if (batch == NULL) return NULL;
    memset(batch, 0, sizeof *batch);
    batch->room = 64;
    if (table->batches_count != 0) trim_batch(table, table->batches[table->batches_count - 1]);
    table->batches[table->batches_count++] = batch;
    return batch;
}

struct batch *batch_for_row(pmb_table *table)
{
    struct batch *const last = table->batches_count != 0 ? table->batches[table->batches_count - 1] : NULL;
    if (last == NULL || last->rows == MOST_ROWS) return begin_batch(table);
    if (last->rows < last->room) return last;
    for (int id = 0; id < COLUMNS; id++) {
        struct column *const column = &last->columns[id];
        if (column->present != 0 &&
            make_room(column, form_of(table, id), last->room, 2 * last->room) != PMB_TABLE_OK) {
            return NULL;
        }
    }
    last->room *= 2;
    return last;
}

/* ---- the table itself */

pmb_table *pmb_table_open(int32_t time)
{
    if (time < PMB_TABLE_SECONDS || time > PMB_TABLE_TEXT) return NULL;
    pmb_table *const table = malloc(sizeof *table);
    if (table == NULL) return NULL;
    memset(table, 0, sizeof *table);
    table->time = time;
    table->users = 1;
    return table;
}

void hold(pmb_table *table)
{
    __atomic_fetch_add(&table->users, 1, __ATOMIC_RELAXED);
}

static void free_column(struct column *column)
{
    free(column->valid);
    free(column->values);
    free(column->offsets);
    free(column->texts.offsets);
    free(column->texts.bytes);
}

void let_go(pmb_table *table)
{
    if (__atomic_sub_fetch(&table->users, 1, __ATOMIC_ACQ_REL) != 0) return;
    for (size_t i = 0; i < table->batches_count; i++) {
        for (int id = 0; id < COLUMNS; id++) free_column(&table->batches[i]->columns[id]);
        free(table->batches[i]);
    }
    free(table->batches);
    for (int id = 0; id < COLUMNS; id++) {
        free(table->dictionaries[id].texts.offsets);
        free(table->dictionaries[id].texts.bytes);
        free(table->dictionaries[id].slots);
    }
    free(table);
}

void pmb_table_close(pmb_table *table)
{
    if (table != NULL) let_go(table);
}

int64_t pmb_table_rows(const pmb_table *table)
{
    return table->rows;
}

size_t pmb_table_bytes(const pmb_table *table)
{
    return table->bytes;
}

int64_t pmb_table_fault(const pmb_table *table, char time[PMB_TABLE_MOST_TIME])
{
    memcpy(time, table->fault_time, PMB_TABLE_MOST_TIME);
    return table->fault_line;
}
