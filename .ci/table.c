/* Reads a table of table/pmb_table.h as a program would that takes arrays: by the specification of the
 * Arrow C data and stream interfaces, to the last value. The lines of objects are those of a file.
 *
 *   table whole FILE      each form of the stream; arrays, parts of arrays and dictionaries that are moved
 *                         away, and released after all else; the table closed first
 *   table refused FILE    with REFUSES defined: each allocation refused, and then all after it too
 *   table broken FILE N   N times with some bytes changed: a status, and no more
 */
#include <stdint.h>
#include <stdio.h>
#include <stdlib.h>
#include <string.h>

#include "../table/pmb_table.h"
#include "allocations.h"

#define COLUMNS 35

static long passed, failed;

#define EXPECT(holds)                                                         \
    do {                                                                      \
        if (holds) {                                                          \
            passed++;                                                         \
        } else if (failed++ < 10) {                                           \
            fprintf(stderr, "table.c: line %d: %s\n", __LINE__, #holds);      \
        }                                                                     \
    } while (0)

static char *lines;
static size_t length;

static int read_lines(const char *path)
{
    FILE *const file = fopen(path, "rb");
    if (file == NULL) return 0;
    lines = malloc(1 << 24);
    length = fread(lines, 1, 1 << 24, file);
    fclose(file);
    return 1;
}

/* ---- what a reader reads */

static uint64_t sum;

static void read_bytes(const void *at, size_t size)
{
    const unsigned char *const bytes = at;
    for (size_t i = 0; i < size; i++) sum = sum * 31 + bytes[i];
}

static int64_t nulls_of(const struct ArrowArray *array)
{
    const uint8_t *const valid = array->buffers[0];
    int64_t count = 0;
    if (valid == NULL) return 0;
    for (int64_t i = 0; i < array->length; i++) count += (valid[i / 8] >> i % 8 & 1) == 0;
    return count;
}

/* Offsets that begin at 0 and never fall. Returns the last. */
static int32_t offsets_of(const struct ArrowArray *array)
{
    const int32_t *const offsets = array->buffers[1];
    EXPECT(offsets != NULL && offsets[0] == 0);
    for (int64_t i = 0; i < array->length; i++) {
        if (offsets[i + 1] < offsets[i]) EXPECT(!"offsets fall");
    }
    return offsets[array->length];
}

static void read_array(const struct ArrowSchema *schema, const struct ArrowArray *array)
{
    const char form = schema->format[0] == '+' ? schema->format[1] : schema->format[0];
    EXPECT(array->release != NULL && array->offset == 0 && nulls_of(array) == array->null_count);
    EXPECT(array->n_children == schema->n_children);
    EXPECT((array->dictionary != NULL) == (schema->dictionary != NULL));
    switch (schema->format[0] == '+' ? schema->format[1] : form) {
    case 't':
    case 'g':
        EXPECT(array->n_buffers == 2);
        read_bytes(array->buffers[1], (size_t)array->length * 8);
        break;
    case 'b':
        EXPECT(array->n_buffers == 2);
        read_bytes(array->buffers[1], ((size_t)array->length + 7) / 8);
        break;
    case 'u':
        EXPECT(array->n_buffers == 3);
        read_bytes(array->buffers[2], (size_t)offsets_of(array));
        break;
    case 's':
        /* (+s is the whole) */
        if (schema->format[0] == '+') break;
        EXPECT(array->n_buffers == 2);
        for (int64_t i = 0; i < array->length; i++) {
            const int16_t number = ((const int16_t *)array->buffers[1])[i];
            const int is_null = array->buffers[0] != NULL &&
                                (((const uint8_t *)array->buffers[0])[i / 8] >> i % 8 & 1) == 0;
            if (!is_null && (number < 0 || number >= array->dictionary->length)) EXPECT(!"a number without a name");
        }
        read_array(schema->dictionary, array->dictionary);
        break;
    case 'l':
        EXPECT(array->n_buffers == 2);
        if (schema->format[0] == 'l') {
            read_bytes(array->buffers[1], (size_t)array->length * 8);
        } else {
            EXPECT(offsets_of(array) == array->children[0]->length);
        }
        break;
    default: EXPECT(!"another format");
    }
    for (int64_t i = 0; i < array->n_children; i++) read_array(schema->children[i], array->children[i]);
}

/* ---- whole */

static pmb_table *table_of(int32_t time, size_t step)
{
    pmb_table *const table = pmb_table_open(time);
    if (table == NULL) return NULL;
    for (size_t at = 0; at < length;) {
        /* (whole lines) */
        size_t end = at + step < length ? at + step : length;
        while (end < length && lines[end - 1] != '\n') end++;
        const int32_t status = pmb_table_add(table, lines + at, end - at);
        if (status != PMB_TABLE_OK) break;
        at = end;
    }
    return table;
}

static void try_whole(void)
{
    struct ArrowArrayStream stream;
    struct ArrowSchema schema;
    struct ArrowArray array;
    struct ArrowArray moved[64];
    int count = 0;
    counting = 1;
    pmb_table *const table = table_of(PMB_TABLE_TEXT, 1000);
    EXPECT(pmb_table_stream(table, &stream) == PMB_TABLE_ENDED);
    EXPECT(pmb_table_end(table) == PMB_TABLE_OK && pmb_table_end(table) == PMB_TABLE_OK);
    EXPECT(pmb_table_add(table, lines, length) == PMB_TABLE_ENDED);
    const int64_t rows = pmb_table_rows(table);
    EXPECT(rows > 0 && pmb_table_stream(table, &stream) == PMB_TABLE_OK);
    pmb_table_close(table);
    EXPECT(stream.get_schema(&stream, &schema) == 0);
    EXPECT(schema.n_children == COLUMNS && strcmp(schema.format, "+s") == 0 && schema.flags == 0);
    int64_t found = 0;
    while (stream.get_next(&stream, &array) == 0 && array.release != NULL) {
        EXPECT(array.length <= 65536);
        read_array(&schema, &array);
        found += array.length;
        /* a part, and of another part its dictionary, are moved away */
        if (count + 2 <= 64) {
            moved[count++] = *array.children[3];
            array.children[3]->release = NULL;
            moved[count++] = *array.children[1]->dictionary;
            array.children[1]->dictionary->release = NULL;
        }
        array.release(&array);
        EXPECT(array.release == NULL);
    }
    EXPECT(found == rows);
    EXPECT(stream.get_next(&stream, &array) == 0 && array.release == NULL);
    EXPECT(stream.get_last_error(&stream) == NULL);
    stream.release(&stream);
    EXPECT(stream.release == NULL);
    for (int i = 0; i < count; i++) {
        read_array(i % 2 == 0 ? schema.children[3] : schema.children[1]->dictionary, &moved[i]);
        moved[i].release(&moved[i]);
    }
    struct ArrowSchema part = *schema.children[10];
    schema.children[10]->release = NULL;
    schema.release(&schema);
    EXPECT(strcmp(part.format, "+l") == 0 && strcmp(part.name, "bits") == 0);
    part.release(&part);
    EXPECT(live == 0);
    counting = 0;
    /* a capture that has nothing, and bad arguments */
    EXPECT(pmb_table_open(3) == NULL && pmb_table_open(-1) == NULL);
    pmb_table_close(NULL);
    pmb_table *const empty = pmb_table_open(PMB_TABLE_TIMESTAMP);
    EXPECT(pmb_table_add(empty, NULL, 0) == PMB_TABLE_OK && pmb_table_end(empty) == PMB_TABLE_OK);
    EXPECT(pmb_table_stream(empty, &stream) == PMB_TABLE_OK && stream.get_schema(&stream, &schema) == 0);
    EXPECT(strcmp(schema.children[0]->format, "tsn:UTC") == 0);
    EXPECT(stream.get_next(&stream, &array) == 0 && array.release == NULL);
    schema.release(&schema);
    stream.release(&stream);
    pmb_table_close(empty);
}

/* Lines of a later library, and lines that are none. */
static void try_forms(void)
{
    static const struct {
        const char *line;
        int32_t status;
    } forms[] = {
        {"{\"at\":0,\"new\":{\"a\":[1,\"}\"]},\"kind\":\"read\",\"newer\":[1,2]}\n", PMB_TABLE_OK},
        {"{\"at\":0,\"new\":-1.5,\"kind\":\"read\",\"newer\":null,\"newest\":\"x\"}\n", PMB_TABLE_OK},
        {"{\"kind\":\"end\",\"packets\":0}\n", PMB_TABLE_OK},
        {"{\"kind\":\"read\",\"at\":0}", PMB_TABLE_BAD_LINE},
        {"{\"line\":1,\"at\":0}\n", PMB_TABLE_BAD_LINE},
        {"{\"at\":0}", PMB_TABLE_BAD_LINE},
        {"{\"at\":0,}\n", PMB_TABLE_BAD_LINE},
        {"{\"at\":0,\"New\":1}\n", PMB_TABLE_BAD_LINE},
        {"{\"at\":0,\"new\":\"x}\n", PMB_TABLE_BAD_LINE},
        {"{\"at\":-1}\n", PMB_TABLE_BAD_LINE},
        {"{\"at\":9223372036854775808}\n", PMB_TABLE_BAD_LINE},
        {"{\"at\":0,\"kind\":\"a\\u00g0\"}\n", PMB_TABLE_BAD_LINE},
        {"{\"at\":0,\"value\":\"1/0\"}\n", PMB_TABLE_BAD_LINE},
        {"{\"at\":0,\"value\":\"1/9007199254740992\"}\n", PMB_TABLE_BAD_LINE},
        {"{\"at\":0,\"value\":\"1.2.3\"}\n", PMB_TABLE_BAD_LINE},
        {"\n", PMB_TABLE_BAD_LINE},
    };
    for (size_t i = 0; i < sizeof forms / sizeof *forms; i++) {
        pmb_table *const table = pmb_table_open(PMB_TABLE_SECONDS);
        EXPECT(pmb_table_add(table, forms[i].line, strlen(forms[i].line)) == forms[i].status);
        EXPECT(pmb_table_end(table) == forms[i].status);
        pmb_table_close(table);
    }
}

/* ---- refused */

/* Whether all was done. */
static int is_done(void)
{
    struct ArrowArrayStream stream;
    struct ArrowSchema schema;
    struct ArrowArray array;
    int done = 0;
    pmb_table *const table = table_of(PMB_TABLE_TEXT, 1 << 20);
    if (table == NULL) return 0;
    int32_t status = pmb_table_end(table);
    EXPECT(status == PMB_TABLE_OK || status == PMB_TABLE_NO_MEMORY);
    if (status == PMB_TABLE_NO_MEMORY) {
        EXPECT(pmb_table_add(table, lines, length) == PMB_TABLE_NO_MEMORY);
        EXPECT(pmb_table_stream(table, &stream) == PMB_TABLE_NO_MEMORY);
    } else {
        status = pmb_table_stream(table, &stream);
        EXPECT(status == PMB_TABLE_OK || status == PMB_TABLE_NO_MEMORY);
    }
    pmb_table_close(table);
    if (status != PMB_TABLE_OK) return 0;
    int error = stream.get_schema(&stream, &schema);
    if (error == 0) {
        while ((error = stream.get_next(&stream, &array)) == 0 && array.release != NULL) {
            read_array(&schema, &array);
            array.release(&array);
        }
        done = error == 0;
        schema.release(&schema);
    }
    if (error != 0) EXPECT(error == 12 && strcmp(stream.get_last_error(&stream), "no memory for the table") == 0);
    stream.release(&stream);
    return done;
}

static void try_refused(void)
{
    for (later = 0; later < 2; later++) {
        int done = 0;
        for (refused = 1; !done && refused < 5000; refused++) {
            counting = 1;
            allocations = live = 0;
            done = is_done();
            /* (memory that can't be given back is kept, and all is done) */
            done = done && allocations < refused;
            EXPECT(live == 0);
            counting = 0;
        }
        EXPECT(done && refused > 100);
    }
}

/* ---- broken */

static uint64_t chance = 88172645463325252u;

static size_t drawn(size_t below)
{
    chance ^= chance << 13;
    chance ^= chance >> 7;
    chance ^= chance << 17;
    return (size_t)(chance % below);
}

static void try_broken(long times)
{
    static const char likely[] = "\"\\{}[],:\n0129-./+eTZu \x7f\x80\xff";
    char *const whole = lines;
    const size_t whole_length = length;
    for (long i = 0; i < times; i++) {
        /* some lines, of which some bytes are changed, and mostly the end is cut off */
        size_t begin = drawn(whole_length);
        while (begin != 0 && whole[begin - 1] != '\n') begin--;
        length = drawn(3000);
        if (length > whole_length - begin) length = whole_length - begin;
        lines = malloc(length + 1);
        memcpy(lines, whole + begin, length);
        for (size_t n = drawn(4); n != 0 && length != 0; n--) {
            lines[drawn(length)] = likely[drawn(sizeof likely - 1)];
        }
        /* (the byte behind the end isn't there) */
        char *const exact = malloc(length != 0 ? length : 1);
        memcpy(exact, lines, length);
        free(lines);
        lines = exact;
        pmb_table *const table = pmb_table_open((int32_t)drawn(3));
        const int32_t status = pmb_table_add(table, lines, length);
        EXPECT(status == PMB_TABLE_OK || (status >= PMB_TABLE_BAD_LINE && status <= PMB_TABLE_MIXED_ZONES));
        EXPECT(pmb_table_end(table) == status);
        struct ArrowArrayStream stream;
        EXPECT(pmb_table_stream(table, &stream) == status);
        if (status == PMB_TABLE_OK) {
            struct ArrowSchema schema;
            struct ArrowArray array;
            EXPECT(stream.get_schema(&stream, &schema) == 0);
            while (stream.get_next(&stream, &array) == 0 && array.release != NULL) {
                read_array(&schema, &array);
                array.release(&array);
            }
            schema.release(&schema);
            stream.release(&stream);
        }
        pmb_table_close(table);
        free(lines);
    }
    lines = whole;
    length = whole_length;
}

int main(int count, char **words)
{
    if (count < 3 || !read_lines(words[2])) return 2;
    if (strcmp(words[1], "whole") == 0) {
        try_whole();
        try_forms();
    }
    if (strcmp(words[1], "refused") == 0) try_refused();
    if (strcmp(words[1], "broken") == 0) try_broken(count > 3 ? atol(words[3]) : 1000);
    free(lines);
    printf("%ld passed, %ld failed\n", passed, failed);
    return failed != 0;
}
