/* Reads the lines of objects (docs/json.md). They are those of the proved library, and have one form:
 * the keys of each kind in the same order, without blanks, and in ASCII. So a key is looked for from
 * the place of the one before it. A key that isn't known is passed over, with its value. What has another
 * form is a bad line, and nothing is read beyond it. */
#include <string.h>

#include "table.h"

/* The rest of the lines. */
struct rest {
    const char *at;
    const char *end;
};

/* What is done with the value of a key. */
enum reading {
    A_WHOLE,    /* a number into a column of whole ones */
    A_TIME,     /* a text into the column of times */
    A_NAME,     /* a text, or a number as digits, or null, into a column of names */
    A_SELECTED, /* the same, where null is `unknown` */
    A_TEXT,
    A_LIST,
    A_FLAG,     /* true or false, "right" or "wrong" */
    A_VALUE,    /* the exact text of a number, and the number */
    AN_OBJECT,  /* as it stands */
    NOTHING     /* passed over */
};

/* The keys, in an order that each kind of object has them in. */
static const struct key {
    const char *name;
    uint8_t length;
    uint8_t reading;
    uint8_t column;
} keys[] = {
#define KEY(name, reading, column) {name, sizeof name - 1, reading, column}
    KEY("at", A_WHOLE, AT),
    KEY("line", A_WHOLE, LINE),
    KEY("column", A_WHOLE, COLUMN),
    KEY("time", A_TIME, TIME),
    KEY("kind", A_NAME, KIND),
    KEY("part", A_WHOLE, PART),
    KEY("parts", A_WHOLE, PARTS),
    KEY("reason", A_NAME, REASON),
    KEY("expected", A_LIST, EXPECTED),
    KEY("got", A_NAME, GOT),
    KEY("device", A_NAME, DEVICE),
    KEY("name", A_NAME, DEVICE_NAME),
    KEY("refused", A_NAME, REFUSED),
    KEY("code", A_NAME, CODE),
    KEY("command", A_NAME, COMMAND),
    KEY("page", A_SELECTED, PAGE),
    KEY("page_mode", A_NAME, PAGE_MODE),
    KEY("phase", A_SELECTED, PHASE),
    KEY("bytes", A_TEXT, BYTES),
    KEY("sent", A_TEXT, SENT),
    KEY("reply", A_TEXT, REPLY),
    KEY("byte", A_NAME, BYTE),
    KEY("pec", A_FLAG, PEC),
    KEY("right_pec", A_NAME, RIGHT_PEC),
    KEY("value", A_VALUE, VALUE),
    KEY("number", NOTHING, 0),
    KEY("ratio", A_VALUE, RATIO),
    KEY("mode", A_NAME, MODE),
    KEY("unit", A_NAME, UNIT),
    KEY("raw", A_NAME, RAW),
    KEY("bits", A_LIST, BITS),
    KEY("clears", A_LIST, CLEARS),
    KEY("text", A_TEXT, TEXT_OF),
    KEY("says", AN_OBJECT, SAYS),
    KEY("word", A_TEXT, WORD),
#undef KEY
};

#define KEYS (sizeof keys / sizeof *keys)

/* The most bytes of a text with characters that are written as \u00hh. Other texts have any length. */
#define MOST_UNESCAPED 4096

struct text {
    const char *at;
    size_t length;
};

static int is_at(struct rest *rest, const char *text, size_t length)
{
    if ((size_t)(rest->end - rest->at) < length || memcmp(rest->at, text, length) != 0) return 0;
    rest->at += length;
    return 1;
}

static int is_byte(struct rest *rest, char byte)
{
    if (rest->at == rest->end || *rest->at != byte) return 0;
    rest->at++;
    return 1;
}

static int digit_of(char byte)
{
    if (byte >= '0' && byte <= '9') return byte - '0';
    if (byte >= 'a' && byte <= 'f') return byte - 'a' + 10;
    return -1;
}

/* The rest of a text after its first `\`: \u00hh is the character of that number, in UTF-8. */
static int unescaped(struct rest *rest, struct text *text, char room[MOST_UNESCAPED])
{
    const size_t before = (size_t)(rest->at - text->at);
    size_t used = before;
    if (before > MOST_UNESCAPED - 2) return 0;
    memcpy(room, text->at, before);
    while (rest->at != rest->end && *rest->at != '"') {
        if (used > MOST_UNESCAPED - 2) return 0;
        if (*rest->at != '\\') {
            room[used++] = *rest->at++;
            continue;
        }
        if (rest->end - rest->at < 6 || memcmp(rest->at, "\\u00", 4) != 0) return 0;
        const int high = digit_of(rest->at[4]);
        const int low = digit_of(rest->at[5]);
        if (high < 0 || low < 0) return 0;
        const int character = 16 * high + low;
        if (character < 0x80) {
            room[used++] = (char)character;
        } else {
            room[used++] = (char)(0xc0 | character >> 6);
            room[used++] = (char)(0x80 | (character & 0x3f));
        }
        rest->at += 6;
    }
    *text = (struct text){room, used};
    return is_byte(rest, '"');
}

/* A text, which may be in the room. */
static int read_text(struct rest *rest, struct text *text, char room[MOST_UNESCAPED])
{
    if (!is_byte(rest, '"')) return 0;
    text->at = rest->at;
    while (rest->at != rest->end && *rest->at != '"') {
        if (*rest->at == '\\') return unescaped(rest, text, room);
        if (*rest->at < ' ' || *rest->at > '~') return 0;
        rest->at++;
    }
    text->length = (size_t)(rest->at - text->at);
    return is_byte(rest, '"');
}

static int read_whole(struct rest *rest, int64_t *value)
{
    const char *const begin = rest->at;
    uint64_t found = 0;
    while (rest->at != rest->end && *rest->at >= '0' && *rest->at <= '9') {
        if (found > (uint64_t)(INT64_MAX / 10 - 1)) return 0;
        found = 10 * found + (uint64_t)(*rest->at++ - '0');
    }
    *value = (int64_t)found;
    return rest->at != begin;
}

/* A number, as its text. */
static int read_number(struct rest *rest, struct text *text)
{
    text->at = rest->at;
    while (rest->at != rest->end && ((*rest->at >= '0' && *rest->at <= '9') || *rest->at == '.' || *rest->at == '-')) {
        rest->at++;
    }
    text->length = (size_t)(rest->at - text->at);
    return text->length != 0;
}

/* An object, or a list, as its text. */
static int read_nested(struct rest *rest, struct text *text)
{
    int depth = 0;
    int is_inside = 0;
    text->at = rest->at;
    do {
        if (rest->at == rest->end || *rest->at == '\n') return 0;
        const char byte = *rest->at++;
        /* (a quote inside a text is \u0022) */
        if (byte == '"') is_inside = !is_inside;
        if (!is_inside && (byte == '{' || byte == '[')) depth++;
        if (!is_inside && (byte == '}' || byte == ']')) depth--;
    } while (depth > 0 || is_inside);
    text->length = (size_t)(rest->at - text->at);
    return *text->at == '{' || *text->at == '[';
}

static int is_key_byte(char byte)
{
    return (byte >= 'a' && byte <= 'z') || byte == '_';
}

/* A key that isn't known, with its value: one of a later library, which has no column. */
static int skip_key(struct rest *rest)
{
    char room[MOST_UNESCAPED];
    struct text text;
    if (!is_byte(rest, '"')) return 0;
    while (rest->at != rest->end && is_key_byte(*rest->at)) rest->at++;
    if (!is_at(rest, "\":", 2) || rest->at == rest->end) return 0;
    if (*rest->at == '"') return read_text(rest, &text, room);
    if (*rest->at == '{' || *rest->at == '[') return read_nested(rest, &text);
    return is_at(rest, "null", 4) || is_at(rest, "true", 4) || is_at(rest, "false", 5) || read_number(rest, &text);
}

/* ---- values */

static int32_t read_a_name(pmb_table *table, struct batch *batch, struct rest *rest, const struct key *key)
{
    char room[MOST_UNESCAPED];
    struct text text;
    if (is_at(rest, "null", 4)) {
        return key->reading == A_SELECTED ? put_name(table, batch, key->column, "unknown", 7) : PMB_TABLE_OK;
    }
    const int is_text = rest->at != rest->end && *rest->at == '"';
    if (is_text ? !read_text(rest, &text, room) : !read_number(rest, &text)) return PMB_TABLE_BAD_LINE;
    return put_name(table, batch, key->column, text.at, text.length);
}

static int32_t read_a_text(pmb_table *table, struct batch *batch, struct rest *rest, const struct key *key)
{
    char room[MOST_UNESCAPED];
    struct text text;
    if (key->reading == AN_OBJECT ? !read_nested(rest, &text) : !read_text(rest, &text, room)) {
        return PMB_TABLE_BAD_LINE;
    }
    if (key->reading == A_TIME) return put_time(table, batch, text.at, text.length);
    return put_text(table, batch, key->column, text.at, text.length);
}

static int32_t read_a_list(pmb_table *table, struct batch *batch, struct rest *rest, const struct key *key)
{
    char room[MOST_UNESCAPED];
    struct text text;
    int32_t status = put_list(table, batch, key->column);
    if (!is_byte(rest, '[')) return PMB_TABLE_BAD_LINE;
    if (is_byte(rest, ']')) return status;
    do {
        if (!read_text(rest, &text, room)) return PMB_TABLE_BAD_LINE;
        if (status == PMB_TABLE_OK) status = put_item(batch, key->column, text.at, text.length);
    } while (is_byte(rest, ','));
    return is_byte(rest, ']') ? status : PMB_TABLE_BAD_LINE;
}

static int32_t read_a_flag(pmb_table *table, struct batch *batch, struct rest *rest, const struct key *key)
{
    if (is_at(rest, "true", 4) || is_at(rest, "\"right\"", 7)) return put_flag(table, batch, key->column, 1);
    if (is_at(rest, "false", 5) || is_at(rest, "\"wrong\"", 7)) return put_flag(table, batch, key->column, 0);
    return PMB_TABLE_BAD_LINE;
}

static int32_t read_a_value(pmb_table *table, struct batch *batch, struct rest *rest, const struct key *key)
{
    char room[MOST_UNESCAPED];
    struct text text;
    double value;
    if (!read_text(rest, &text, room) || !real_of(text.at, text.length, &value)) return PMB_TABLE_BAD_LINE;
    const int32_t status = put_text(table, batch, EXACT, text.at, text.length);
    return status != PMB_TABLE_OK ? status : put_real(table, batch, key->column, value);
}

static int32_t read_a_whole(pmb_table *table, struct batch *batch, struct rest *rest, const struct key *key)
{
    int64_t value;
    if (!read_whole(rest, &value)) return PMB_TABLE_BAD_LINE;
    /* (it comes before the time, which may have a fault) */
    if (key->column == LINE) table->fault_line = value;
    return put_whole(table, batch, key->column, value);
}

static int32_t read_value(pmb_table *table, struct batch *batch, struct rest *rest, const struct key *key)
{
    struct text passed;
    switch ((enum reading)key->reading) {
    case A_WHOLE: return read_a_whole(table, batch, rest, key);
    case A_NAME:
    case A_SELECTED: return read_a_name(table, batch, rest, key);
    case A_TIME:
    case A_TEXT:
    case AN_OBJECT: return read_a_text(table, batch, rest, key);
    case A_LIST: return read_a_list(table, batch, rest, key);
    case A_FLAG: return read_a_flag(table, batch, rest, key);
    case A_VALUE: return read_a_value(table, batch, rest, key);
    case NOTHING: return read_number(rest, &passed) ? PMB_TABLE_OK : PMB_TABLE_BAD_LINE;
    }
    return PMB_TABLE_BAD_LINE;
}

/* ---- lines */

/* The key that comes next, of those from `first` on; or KEYS. */
static size_t key_next(struct rest *rest, size_t first)
{
    for (size_t i = first; i < KEYS; i++) {
        const size_t length = keys[i].length;
        /* (a quote is before it, and a quote and a colon after it) */
        if ((size_t)(rest->end - rest->at) > length + 2 && rest->at[length + 1] == '"' &&
            memcmp(rest->at + 1, keys[i].name, length) == 0 && rest->at[0] == '"' &&
            rest->at[length + 2] == ':') {
            rest->at += length + 3;
            return i;
        }
    }
    return KEYS;
}

/* A line after its `{`. */
static int32_t read_row(pmb_table *table, struct rest *rest)
{
    struct batch *const batch = batch_for_row(table);
    size_t next = 0;
    if (batch == NULL) return PMB_TABLE_NO_MEMORY;
    do {
        const size_t found = key_next(rest, next);
        if (found == KEYS) {
            /* (a key in another order isn't passed over) */
            struct rest again = *rest;
            if (key_next(&again, 0) != KEYS || !skip_key(rest)) return PMB_TABLE_BAD_LINE;
            continue;
        }
        const int32_t status = read_value(table, batch, rest, &keys[found]);
        if (status != PMB_TABLE_OK) return status;
        next = found + 1;
    } while (is_byte(rest, ','));
    if (!is_at(rest, "}\n", 2)) return PMB_TABLE_BAD_LINE;
    return end_row(table, batch);
}

/* A line with counts, which begins with its kind. */
static int skip_counts(struct rest *rest)
{
    if (!is_at(rest, "\"kind\"", 6)) return 0;
    while (rest->at != rest->end && *rest->at != '\n') rest->at++;
    return 1;
}

int32_t pmb_table_add(pmb_table *table, const char *lines, size_t length)
{
    struct rest rest = {lines, length != 0 ? lines + length : lines};
    if (table->status != PMB_TABLE_OK) return table->status;
    if (table->ended) return PMB_TABLE_ENDED;
    while (rest.at != rest.end && table->status == PMB_TABLE_OK) {
        if (!is_byte(&rest, '{')) {
            table->status = PMB_TABLE_BAD_LINE;
        } else if (skip_counts(&rest)) {
            if (!is_byte(&rest, '\n')) table->status = PMB_TABLE_BAD_LINE;
        } else {
            table->status = read_row(table, &rest);
        }
    }
    return table->status;
}

int32_t pmb_table_end(pmb_table *table)
{
    if (table->status != PMB_TABLE_OK) return table->status;
    if (!table->ended) trim(table);
    table->ended = 1;
    return PMB_TABLE_OK;
}
