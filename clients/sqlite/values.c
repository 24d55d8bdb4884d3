/* Arguments and results of SQLite as values of the library, and back, and the errors of the functions. */
#include "values.h"
SQLITE_EXTENSION_INIT3

#include <stdio.h>
#include <string.h>

#include "fotsevindre_zones.h"

/* ---- errors */

char *sql_message(const char *what, int32_t status)
{
    return sqlite3_mprintf("%s: %s", what, fots_error_text(status).bytes);
}

void sql_text_reason(char bytes[SQL_REASON_BYTES], sql_text text, int32_t status, size_t position, const fots_format *format)
{
    size_t character = position <= text.length, at;
    for (at = 0; position <= text.length && at < position; at++) {
        character += (text.bytes[at] & 0xC0) != 0x80;
    }
    sql_reason(bytes, status, position, character, text.bytes, text.length, format);
}

char *sql_text_message(const char *what, sql_text text, int32_t status, size_t position)
{
    return sql_format_message(what, text, status, position, NULL);
}

/* Shows at most 60 bytes, up to the end of a character. */
char *sql_format_message(const char *what, sql_text text, int32_t status, size_t position, const fots_format *format)
{
    char reason[SQL_REASON_BYTES];
    size_t shown = text.length < 60 ? text.length : 60;
    while (shown < text.length && shown > 0 && (text.bytes[shown] & 0xC0) == 0x80) {
        shown--;
    }
    sql_text_reason(reason, text, status, position, format);
    return sqlite3_mprintf("invalid %s: \"%.*s\": %s", what, (int)shown, text.bytes, reason);
}

void sql_fail(sqlite3_context *context, char *message)
{
    if (message) {
        sqlite3_result_error(context, message, -1);
        sqlite3_free(message);
    } else {
        sqlite3_result_error_nomem(context);
    }
}

int sql_check(sqlite3_context *context, const char *what, int32_t status)
{
    if (status != FOTS_OK) {
        sql_fail(context, sql_message(what, status));
    }
    return status == FOTS_OK;
}

int sql_check_text(sqlite3_context *context, const char *what, sql_text text, int32_t status, size_t position)
{
    if (status != FOTS_OK) {
        sql_fail(context, sql_text_message(what, text, status, position));
    }
    return status == FOTS_OK;
}

/* ---- arguments */

sql_text sql_text_of(sqlite3_value *value)
{
    sql_text text;
    text.bytes = (const char *)sqlite3_value_text(value);
    text.length = text.bytes ? (size_t)sqlite3_value_bytes(value) : 0;
    text.bytes = text.bytes ? text.bytes : "";
    return text;
}

/* A date is a string of ISO 8601, or its Julian day as an integer. */
fots_parse_moment_result sql_parse_date(sqlite3_value *value)
{
    fots_parse_moment_result found = {FOTS_OK, {0}, 0, {0}, 0, SIZE_MAX};
    if (sqlite3_value_type(value) == SQLITE_INTEGER) {
        const fots_date_result made = fots_date_from_julian_day(sqlite3_value_int64(value));
        found.status = made.status;
        found.date = made.date;
    } else {
        const sql_text text = sql_text_of(value);
        const fots_parse_date_result parsed = fots_date_parse(text.bytes, text.length);
        found.status = parsed.status;
        found.date = parsed.date;
        found.position = parsed.position;
    }
    return found;
}

/* Rounds a number of seconds to microseconds. */
static int32_t seconds_of(sqlite3_value *value, fots_duration *duration)
{
    const int type = sqlite3_value_numeric_type(value);
    duration->nanoseconds = 0;
    duration->seconds = sqlite3_value_int64(value);
    if (type == SQLITE_FLOAT) {
        const double number = sqlite3_value_double(value);
        int64_t whole;
        double rest;
        fots_duration_result made;
        if (!(number > -1e15 && number < 1e15)) {
            return FOTS_RESULT_OUT_OF_RANGE;
        }
        whole = (int64_t)number;
        rest = (number - (double)whole) * 1e6;
        made = fots_duration_new(whole, (int32_t)(rest < 0 ? rest - 0.5 : rest + 0.5) * 1000);
        *duration = made.duration;
        return made.status;
    }
    return type == SQLITE_INTEGER ? FOTS_OK : FOTS_INVALID_DURATION;
}

/* An instant is a Unix time, or a string of RFC 3339. */
fots_parse_moment_result sql_parse_instant(sqlite3_value *value)
{
    fots_parse_moment_result found = {FOTS_OK, {0}, 0, {0}, 0, SIZE_MAX};
    if (sqlite3_value_type(value) == SQLITE_TEXT) {
        const sql_text text = sql_text_of(value);
        return fots_moment_parse(text.bytes, text.length);
    } else {
        fots_duration unix_time;
        const int32_t status = seconds_of(value, &unix_time);
        const fots_moment_result made = fots_moment_from_unix_time(unix_time);
        found.status = status != FOTS_OK ? status : made.status;
        found.date = made.moment.date;
        found.time = made.moment.time;
    }
    return found;
}

int get_date(sqlite3_context *context, sqlite3_value *value, fots_date *date)
{
    const fots_parse_moment_result parsed = sql_parse_date(value);
    *date = parsed.date;
    return parsed.status == FOTS_OK || sql_check_text(context, "date", sql_text_of(value), parsed.status, parsed.position);
}

int get_local(sqlite3_context *context, sqlite3_value *value, fots_moment *local)
{
    const sql_text text = sql_text_of(value);
    const fots_parse_moment_result parsed = fots_pair_parse(text.bytes, text.length);
    local->date = parsed.date;
    local->time = parsed.time;
    local->offset.seconds = 0;
    return sql_check_text(context, "local time", text, parsed.status, parsed.position);
}

int get_instant(sqlite3_context *context, sqlite3_value *value, fots_moment *instant)
{
    const fots_parse_moment_result parsed = sql_parse_instant(value);
    instant->date = parsed.date;
    instant->time = parsed.time;
    instant->offset = parsed.offset;
    return parsed.status == FOTS_OK || sql_check_text(context, "instant", sql_text_of(value), parsed.status, parsed.position);
}

int get_seconds(sqlite3_context *context, sqlite3_value *value, fots_duration *duration)
{
    return sql_check(context, "seconds", seconds_of(value, duration));
}

int get_period(sqlite3_context *context, sqlite3_value *value, fots_period *period)
{
    const sql_text text = sql_text_of(value);
    const fots_parse_period_result parsed = fots_period_parse(text.bytes, text.length);
    *period = parsed.period;
    return sql_check_text(context, "period", text, parsed.status, parsed.position);
}

int get_number(sqlite3_context *context, sqlite3_value *value, int32_t *number)
{
    const sqlite3_int64 wide = sqlite3_value_int64(value);
    *number = (int32_t)wide;
    if (sqlite3_value_numeric_type(value) != SQLITE_INTEGER || wide < INT32_MIN || wide > INT32_MAX) {
        sqlite3_result_error(context, "expected an integer of 32 bits", -1);
        return 0;
    }
    return 1;
}

int get_zone(sqlite3_context *context, sqlite3_value *value, const fots_zone **zone)
{
    const sql_text text = sql_text_of(value);
    const fots_named_zone found = fots_zone_named_by(text.bytes, text.length);
    *zone = found.zone;
    if (!found.zone) {
        const int shown = text.length < 60 ? (int)text.length : 60;
        sql_fail(context, sqlite3_mprintf("time zone \"%.*s\" not recognized: %s", shown, text.bytes, fots_named_zone_reason(found)));
    }
    return found.zone != NULL;
}

int get_name(sqlite3_context *context, const fots_names *names, int count, sqlite3_value **values, int index, uint32_t otherwise, uint32_t *number)
{
    sql_text text = {"", 0};
    *number = otherwise;
    if (index < count) {
        text = sql_text_of(values[index]);
        *number = fots_number_named(names, text.bytes, text.length);
    }
    if (*number == FOTS_NO_NUMBER) {
        const int shown = text.length < 60 ? (int)text.length : 60;
        sql_fail(context, sqlite3_mprintf("unknown %s \"%.*s\"; expected %s", names->what, shown, text.bytes, names->expected));
    }
    return *number != FOTS_NO_NUMBER;
}

/* ---- results */

void set_text(sqlite3_context *context, const char *bytes, size_t length)
{
    sqlite3_result_text(context, bytes, (int)length, SQLITE_TRANSIENT);
}

void set_number(sqlite3_context *context, const char *what, int32_t status, int64_t number)
{
    if (sql_check(context, what, status)) {
        sqlite3_result_int64(context, number);
    }
}

void set_date(sqlite3_context *context, const char *what, fots_date_result found)
{
    if (sql_check(context, what, found.status)) {
        const fots_text_result text = fots_date_calendar_text(found.date);
        set_text(context, text.bytes, text.length);
    }
}

/* Prints as SQLite does, with a fraction only if there is one. */
void set_local(sqlite3_context *context, const char *what, int32_t status, fots_date date, fots_time time)
{
    char bytes[64];
    const fots_text_result text = fots_date_calendar_text(date);
    const fots_hms_nano_result parts = fots_time_as_hms_nano(time);
    int length;
    if (!sql_check(context, what, status)) {
        return;
    }
    length = snprintf(bytes, sizeof bytes, "%s %02u:%02u:%02u.%09u", text.bytes, (unsigned)parts.hour, (unsigned)parts.minute,
        (unsigned)parts.second, (unsigned)parts.nanosecond);
    while (bytes[length - 1] == '0' && parts.nanosecond != 0) {
        length--;
    }
    set_text(context, bytes, (size_t)(parts.nanosecond == 0 ? length - 10 : length));
}

/* Seconds are an integer, or with a fraction a number that is rounded down to microseconds. */
static void set_seconds_of(sqlite3_context *context, fots_duration duration)
{
    if (duration.nanoseconds == 0) {
        sqlite3_result_int64(context, duration.seconds);
    } else {
        const int below = duration.nanoseconds < 0 && duration.nanoseconds % 1000 != 0;
        sqlite3_result_double(context, (double)duration.seconds + (double)(duration.nanoseconds / 1000 - below) / 1e6);
    }
}

void set_instant(sqlite3_context *context, const char *what, fots_moment_result found)
{
    if (sql_check(context, what, found.status)) {
        set_seconds_of(context, fots_moment_unix_time(found.moment).duration);
    }
}

void set_seconds(sqlite3_context *context, const char *what, fots_duration_result found)
{
    if (sql_check(context, what, found.status)) {
        set_seconds_of(context, found.duration);
    }
}

void set_period(sqlite3_context *context, const char *what, int32_t status, fots_period period)
{
    const fots_period_text_result text = fots_period_text(period);
    if (sql_check(context, what, status != FOTS_OK ? status : text.status)) {
        set_text(context, text.bytes, text.length);
    }
}
