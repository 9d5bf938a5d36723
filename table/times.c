/* Numbers and times from their texts.
 *
 * A float64 is the nearest one. Where the digits are a whole number below 2^53, and the power of ten is
 * at most 10^22, both are exact as float64, and one division rounds once. strtod reads what is longer,
 * without a point, which it would look for as the locale has it. */
#include <stdlib.h>
#include <string.h>

#include "table.h"

#define EXACT_WHOLE ((uint64_t)1 << 53)
#define MOST_DIGITS 64

static const double tens[] = {1e0,  1e1,  1e2,  1e3,  1e4,  1e5,  1e6,  1e7,  1e8,  1e9,  1e10, 1e11,
                              1e12, 1e13, 1e14, 1e15, 1e16, 1e17, 1e18, 1e19, 1e20, 1e21, 1e22};

static int is_digit(char byte)
{
    return byte >= '0' && byte <= '9';
}

/* Digits with at most one point, and so without a sign. */
static int decimal_of(const char *text, size_t length, double *value)
{
    char digits[MOST_DIGITS + 8];
    size_t count = 0;
    size_t after = 0;
    int has_point = 0;
    uint64_t whole = 0;
    if (length > MOST_DIGITS) return 0;
    for (size_t i = 0; i < length; i++) {
        if (text[i] == '.' && !has_point) {
            has_point = 1;
            continue;
        }
        if (!is_digit(text[i])) return 0;
        digits[count++] = text[i];
        after += (size_t)has_point;
        whole = whole < EXACT_WHOLE ? 10 * whole + (uint64_t)(text[i] - '0') : EXACT_WHOLE;
    }
    if (count == 0) return 0;
    if (whole < EXACT_WHOLE && after < sizeof tens / sizeof *tens) {
        *value = (double)whole / tens[after];
        return 1;
    }
    digits[count++] = 'e';
    digits[count++] = '-';
    digits[count++] = (char)('0' + after / 10);
    digits[count++] = (char)('0' + after % 10);
    digits[count] = '\0';
    *value = strtod(digits, NULL);
    return 1;
}

int real_of(const char *text, size_t length, double *value)
{
    const size_t sign = length != 0 && (text[0] == '-' || text[0] == '+');
    const int is_negative = sign && text[0] == '-';
    text += sign;
    length -= sign;
    size_t slash = 0;
    while (slash < length && text[slash] != '/') slash++;
    if (!decimal_of(text, slash, value)) return 0;
    if (slash < length) {
        double below;
        if (!decimal_of(text + slash + 1, length - slash - 1, &below)) return 0;
        /* (each value of a format is such a fraction) */
        if (*value >= (double)EXACT_WHOLE || below >= (double)EXACT_WHOLE || below <= 0) return 0;
        *value /= below;
    }
    if (is_negative) *value = -*value;
    return 1;
}

/* ---- dates */

struct date {
    const char *text;
    size_t length;
    size_t at;
};

/* Whether so many digits come next, and their number. */
static int digits_next(struct date *date, size_t count, int32_t *number)
{
    *number = 0;
    if (date->length - date->at < count) return 0;
    for (size_t i = 0; i < count; i++) {
        const char byte = date->text[date->at + i];
        if (!is_digit(byte)) return 0;
        *number = 10 * *number + (byte - '0');
    }
    date->at += count;
    return 1;
}

static int is_next(const struct date *date, char byte)
{
    return date->at < date->length && date->text[date->at] == byte;
}

static int skips(struct date *date, char byte)
{
    if (!is_next(date, byte)) return 0;
    date->at++;
    return 1;
}

/* The days of a date since 1970-01-01, in the Gregorian calendar. Years are counted from March, so that
 * the 29th of February is the last day of one. */
static int64_t days_of(int32_t year, int32_t month, int32_t day)
{
    const int64_t y = month > 2 ? year : year - 1;
    const int64_t m = month > 2 ? month - 3 : month + 9;
    return 365 * y + y / 4 - y / 100 + y / 400 + (153 * m + 2) / 5 + day - 1 - 719468;
}

static int is_day(int32_t year, int32_t month, int32_t day)
{
    static const uint8_t lengths[] = {31, 28, 31, 30, 31, 30, 31, 31, 30, 31, 30, 31};
    if (month < 1 || month > 12 || day < 1) return 0;
    const int is_leap = (year % 4 == 0 && year % 100 != 0) || year % 400 == 0;
    return day <= lengths[month - 1] + (month == 2 && is_leap);
}

/* Digits after a point, as nanoseconds. Those after the ninth are left out. */
static int nanoseconds_next(struct date *date, int64_t *nanoseconds)
{
    int64_t unit = 100000000;
    *nanoseconds = 0;
    if (!skips(date, '.')) return 1;
    if (date->at == date->length || !is_digit(date->text[date->at])) return 0;
    while (date->at < date->length && is_digit(date->text[date->at])) {
        *nanoseconds += unit * (date->text[date->at++] - '0');
        unit /= 10;
    }
    return 1;
}

/* Z, or the hours and minutes of a zone; or nothing. */
static int zone_next(struct date *date, int32_t *zone)
{
    int32_t hours;
    int32_t minutes = 0;
    *zone = NO_ZONE;
    if (date->at == date->length) return 1;
    *zone = 0;
    if (skips(date, 'Z')) return date->at == date->length;
    const int is_west = is_next(date, '-');
    if (!skips(date, '-') && !skips(date, '+')) return 0;
    if (!digits_next(date, 2, &hours)) return 0;
    if (date->at < date->length) {
        skips(date, ':');
        if (!digits_next(date, 2, &minutes)) return 0;
    }
    *zone = (is_west ? -1 : 1) * (60 * hours + minutes);
    return date->at == date->length && hours < 24 && minutes < 60;
}

/* The nanoseconds since 1970 of YYYY-MM-DDTHH, with minutes, seconds and their decimals after it, where
 * the text has them, and with a zone. Without one they are those of the clock that wrote it. */
static int date_of(struct date *date, int64_t *nanoseconds, int32_t *zone)
{
    int32_t year;
    int32_t month;
    int32_t day;
    int32_t hour;
    int32_t minute = 0;
    int32_t second = 0;
    int64_t decimals = 0;
    if (!digits_next(date, 4, &year) || !skips(date, '-') || !digits_next(date, 2, &month)) return 0;
    if (!skips(date, '-') || !digits_next(date, 2, &day) || !skips(date, 'T')) return 0;
    if (!digits_next(date, 2, &hour)) return 0;
    if (skips(date, ':')) {
        if (!digits_next(date, 2, &minute)) return 0;
        if (skips(date, ':') && !(digits_next(date, 2, &second) && nanoseconds_next(date, &decimals))) return 0;
    }
    if (!zone_next(date, zone)) return 0;
    /* (nanoseconds in 64 bits reach a little further on both sides) */
    if (year < 1678 || year > 2261 || !is_day(year, month, day)) return 0;
    if (hour > 23 || minute > 59 || second > 59) return 0;
    const int64_t east = *zone == NO_ZONE ? 0 : *zone;
    const int64_t minutes = (days_of(year, month, day) * 24 + hour) * 60 + minute - east;
    *nanoseconds = (minutes * 60 + second) * 1000000000 + decimals;
    return 1;
}

/* Notes the zone of a date. */
static int32_t note_zone(pmb_table *table, int32_t zone)
{
    if (!table->has_zone) {
        table->has_zone = 1;
        table->zone = zone;
    } else if (zone != table->zone) {
        if (zone == NO_ZONE || table->zone == NO_ZONE) return PMB_TABLE_MIXED_ZONES;
        table->zones_differ = 1;
    }
    return PMB_TABLE_OK;
}

static int32_t put_date(pmb_table *table, struct batch *batch, const char *text, size_t length)
{
    struct date date = {text, length, 0};
    int64_t nanoseconds;
    int32_t zone;
    if (!date_of(&date, &nanoseconds, &zone)) return PMB_TABLE_BAD_DATE;
    const int32_t status = note_zone(table, zone);
    return status != PMB_TABLE_OK ? status : put_whole(table, batch, TIME, nanoseconds);
}

/* Whether a time is a date: seconds have no T. */
static int has_t(const char *text, size_t length)
{
    for (size_t i = 0; i < length; i++) {
        if (text[i] == 'T') return 1;
    }
    return 0;
}

int32_t put_time(pmb_table *table, struct batch *batch, const char *text, size_t length)
{
    int32_t status;
    double seconds;
    if (table->time == PMB_TABLE_TEXT) return put_text(table, batch, TIME, text, length);
    if (table->time == PMB_TABLE_SECONDS) {
        if (has_t(text, length)) {
            status = PMB_TABLE_IS_DATE;
        } else if (!real_of(text, length, &seconds)) {
            return PMB_TABLE_BAD_LINE;
        } else {
            return put_real(table, batch, TIME, seconds);
        }
    } else {
        status = has_t(text, length) ? put_date(table, batch, text, length) : PMB_TABLE_IS_SECONDS;
    }
    if (status >= PMB_TABLE_IS_DATE && status <= PMB_TABLE_MIXED_ZONES) {
        const size_t kept = length < PMB_TABLE_MOST_TIME - 1 ? length : PMB_TABLE_MOST_TIME - 1;
        memcpy(table->fault_time, text, kept);
        table->fault_time[kept] = '\0';
    }
    return status;
}
