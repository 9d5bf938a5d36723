/* A table as a stream of arrays, by the Arrow C data and stream interfaces. Nothing is copied: an array
 * points into the table's columns, and holds the table until it is released. So each array and each of
 * its parts may be moved away by whoever reads it, as the specification allows. */
#include <stdlib.h>
#include <string.h>

#include "table.h"

/* (those of Linux) */
#define NO_MEMORY 12
#define INVALID 22

static const char *const names[COLUMNS] = {
    [TIME] = "time", [KIND] = "kind", [DEVICE] = "device", [DEVICE_NAME] = "name", [PAGE] = "page",
    [CODE] = "code", [COMMAND] = "command", [VALUE] = "value", [UNIT] = "unit", [EXACT] = "exact",
    [BITS] = "bits", [CLEARS] = "clears", [REASON] = "reason", [PHASE] = "phase",
    [PAGE_MODE] = "page_mode", [MODE] = "mode", [RATIO] = "ratio", [RAW] = "raw", [TEXT_OF] = "text",
    [SAYS] = "says", [BYTES] = "bytes", [SENT] = "sent", [REPLY] = "reply", [PEC] = "pec",
    [RIGHT_PEC] = "right_pec", [BYTE] = "byte", [REFUSED] = "refused", [EXPECTED] = "expected",
    [GOT] = "got", [WORD] = "word", [PART] = "part", [PARTS] = "parts", [AT] = "at", [LINE] = "line",
    [COLUMN] = "column",
};

/* ---- the schema */

struct kept_schema {
    char format[24];
    struct ArrowSchema *children[COLUMNS];
    struct ArrowSchema dictionary;
    struct ArrowSchema parts[]; /* as many as there are children */
};

static void release_schema(struct ArrowSchema *schema)
{
    struct kept_schema *const kept = schema->private_data;
    for (int64_t i = 0; i < schema->n_children; i++) {
        if (schema->children[i]->release != NULL) schema->children[i]->release(schema->children[i]);
    }
    if (schema->dictionary != NULL && schema->dictionary->release != NULL) {
        schema->dictionary->release(schema->dictionary);
    }
    schema->release = NULL;
    free(kept);
}

/* Makes a schema whose children, if there are any, are to be made by the caller. */
static int make_schema(struct ArrowSchema *out, const char *format, const char *name, int32_t children)
{
    struct kept_schema *const kept = malloc(sizeof *kept + (size_t)children * sizeof *kept->parts);
    if (kept == NULL) return NO_MEMORY;
    memset(kept, 0, sizeof *kept + (size_t)children * sizeof *kept->parts);
    memcpy(kept->format, format, strlen(format) + 1);
    for (int32_t i = 0; i < children; i++) kept->children[i] = &kept->parts[i];
    *out = (struct ArrowSchema){
        .format = kept->format,
        .name = name,
        .flags = ARROW_FLAG_NULLABLE,
        .n_children = children,
        .children = children != 0 ? kept->children : NULL,
        .release = release_schema,
        .private_data = kept,
    };
    return 0;
}

/* The format of the column of dates: with its zone, or UTC where there are several. */
static void timestamp_format(const pmb_table *table, char format[24])
{
    memcpy(format, "tsn:", 5);
    if (table->has_zone && table->zone == NO_ZONE) return;
    const int32_t zone = table->zones_differ || !table->has_zone ? 0 : table->zone;
    if (zone == 0) {
        memcpy(format + 4, "UTC", 4);
        return;
    }
    const int32_t minutes = zone < 0 ? -zone : zone;
    const char digits[] = {zone < 0 ? '-' : '+', (char)('0' + minutes / 600), (char)('0' + minutes / 60 % 10), ':',
                           (char)('0' + minutes % 60 / 10), (char)('0' + minutes % 10), '\0'};
    memcpy(format + 4, digits, sizeof digits);
}

static int make_column_schema(const pmb_table *table, int id, struct ArrowSchema *out)
{
    char format[24];
    int error;
    switch (form_of(table, id)) {
    case WHOLE:
        memcpy(format, "l", 2);
        if (id == TIME) timestamp_format(table, format);
        return make_schema(out, format, names[id], 0);
    case REAL: return make_schema(out, "g", names[id], 0);
    case FLAG: return make_schema(out, "b", names[id], 0);
    case TEXT: return make_schema(out, "u", names[id], 0);
    case NAME:
        error = make_schema(out, "s", names[id], 0);
        if (error != 0) return error;
        out->dictionary = &((struct kept_schema *)out->private_data)->dictionary;
        return make_schema(out->dictionary, "u", "", 0);
    case NAMES:
        error = make_schema(out, "+l", names[id], 1);
        return error != 0 ? error : make_schema(out->children[0], "u", "item", 0);
    }
    return INVALID;
}

static int make_table_schema(const pmb_table *table, struct ArrowSchema *out)
{
    int error = make_schema(out, "+s", "", COLUMNS);
    if (error != 0) return error;
    out->flags = 0;
    for (int id = 0; id < COLUMNS && error == 0; id++) {
        error = make_column_schema(table, id, out->children[id]);
    }
    if (error != 0) out->release(out);
    return error;
}

/* ---- arrays */

struct kept_array {
    pmb_table *table;
    const void *buffers[3];
    struct ArrowArray *children[COLUMNS];
    struct ArrowArray dictionary;
    struct ArrowArray parts[]; /* as many as there are children */
};

static void release_array(struct ArrowArray *array)
{
    struct kept_array *const kept = array->private_data;
    for (int64_t i = 0; i < array->n_children; i++) {
        if (array->children[i]->release != NULL) array->children[i]->release(array->children[i]);
    }
    if (array->dictionary != NULL && array->dictionary->release != NULL) {
        array->dictionary->release(array->dictionary);
    }
    array->release = NULL;
    let_go(kept->table);
    free(kept);
}

/* Makes an array whose buffers, and children if there are any, are to be made by the caller. */
static int make_array(pmb_table *table, struct ArrowArray *out, int64_t length, int64_t buffers, int32_t children)
{
    struct kept_array *const kept = malloc(sizeof *kept + (size_t)children * sizeof *kept->parts);
    if (kept == NULL) return NO_MEMORY;
    memset(kept, 0, sizeof *kept + (size_t)children * sizeof *kept->parts);
    kept->table = table;
    hold(table);
    for (int32_t i = 0; i < children; i++) kept->children[i] = &kept->parts[i];
    *out = (struct ArrowArray){
        .length = length,
        .n_buffers = buffers,
        .n_children = children,
        .buffers = kept->buffers,
        .children = children != 0 ? kept->children : NULL,
        .release = release_array,
        .private_data = kept,
    };
    return 0;
}

/* Memory, or zeros where there is none. */
static const void *some(const void *block)
{
    return block != NULL ? block : pmb_table_nothing;
}

/* The array of some texts, each of which is there. */
static int make_texts(pmb_table *table, const struct texts *texts, int32_t count, struct ArrowArray *out)
{
    const int error = make_array(table, out, count, 3, 0);
    if (error != 0) return error;
    out->buffers[1] = some(texts->offsets);
    out->buffers[2] = some(texts->bytes);
    return 0;
}

static int make_column(pmb_table *table, const struct batch *batch, int id, struct ArrowArray *out)
{
    const struct column *const column = &batch->columns[id];
    const enum form form = form_of(table, id);
    const int error = make_array(table, out, batch->rows, form == TEXT ? 3 : 2, form == NAMES ? 1 : 0);
    if (error != 0) return error;
    out->null_count = batch->rows - column->present;
    if (out->null_count != 0) out->buffers[0] = some(column->valid);
    switch (form) {
    case TEXT:
        out->buffers[1] = some(column->texts.offsets);
        out->buffers[2] = some(column->texts.bytes);
        return 0;
    case NAMES:
        out->buffers[1] = some(column->offsets);
        return make_texts(table, &column->texts, column->items, out->children[0]);
    case NAME:
        out->buffers[1] = some(column->values);
        out->dictionary = &((struct kept_array *)out->private_data)->dictionary;
        return make_texts(table, &table->dictionaries[id].texts, table->dictionaries[id].count, out->dictionary);
    case WHOLE:
    case REAL:
    case FLAG: out->buffers[1] = some(column->values); return 0;
    }
    return INVALID;
}

static int make_batch(pmb_table *table, const struct batch *batch, struct ArrowArray *out)
{
    int error = make_array(table, out, batch->rows, 1, COLUMNS);
    if (error != 0) return error;
    for (int id = 0; id < COLUMNS && error == 0; id++) {
        error = make_column(table, batch, id, out->children[id]);
    }
    if (error != 0) out->release(out);
    return error;
}

/* ---- streams */

struct kept_stream {
    pmb_table *table;
    size_t next;
    int error;
};

static int get_schema(struct ArrowArrayStream *stream, struct ArrowSchema *out)
{
    struct kept_stream *const kept = stream->private_data;
    kept->error = make_table_schema(kept->table, out);
    return kept->error;
}

static int get_next(struct ArrowArrayStream *stream, struct ArrowArray *out)
{
    struct kept_stream *const kept = stream->private_data;
    if (kept->next == kept->table->batches_count) {
        /* (the end) */
        memset(out, 0, sizeof *out);
        return 0;
    }
    kept->error = make_batch(kept->table, kept->table->batches[kept->next], out);
    if (kept->error == 0) kept->next++;
    return kept->error;
}

static const char *get_last_error(struct ArrowArrayStream *stream)
{
    const struct kept_stream *const kept = stream->private_data;
    return kept->error == NO_MEMORY ? "no memory for the table" : NULL;
}

static void release_stream(struct ArrowArrayStream *stream)
{
    struct kept_stream *const kept = stream->private_data;
    stream->release = NULL;
    let_go(kept->table);
    free(kept);
}

int32_t pmb_table_stream(pmb_table *table, struct ArrowArrayStream *out)
{
    if (table->status != PMB_TABLE_OK) return table->status;
    if (!table->ended) return PMB_TABLE_ENDED;
    struct kept_stream *const kept = malloc(sizeof *kept);
    if (kept == NULL) return PMB_TABLE_NO_MEMORY;
    *kept = (struct kept_stream){.table = table};
    hold(table);
    *out = (struct ArrowArrayStream){
        .get_schema = get_schema,
        .get_next = get_next,
        .get_last_error = get_last_error,
        .release = release_stream,
        .private_data = kept,
    };
    return PMB_TABLE_OK;
}

/* ---- for Python */

static void *(*pointer_of)(void *capsule, const char *name);

void pmb_table_python(void *(*get_pointer)(void *capsule, const char *name))
{
    pointer_of = get_pointer;
}

struct ArrowArrayStream *pmb_table_new_stream(pmb_table *table, int32_t *status)
{
    struct ArrowArrayStream *const stream = malloc(sizeof *stream);
    *status = stream != NULL ? pmb_table_stream(table, stream) : PMB_TABLE_NO_MEMORY;
    if (*status == PMB_TABLE_OK) return stream;
    free(stream);
    return NULL;
}

void pmb_table_drop_stream(struct ArrowArrayStream *stream)
{
    if (stream->release != NULL) stream->release(stream);
    free(stream);
}

void pmb_table_drop_capsule(void *capsule)
{
    struct ArrowArrayStream *const stream = pointer_of(capsule, "arrow_array_stream");
    if (stream != NULL) pmb_table_drop_stream(stream);
}
