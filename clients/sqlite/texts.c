/* Functions of texts: strict parsing, and formats both ways. */
#include "values.h"
SQLITE_EXTENSION_INIT3

#include <string.h>

/* The format of an argument, or the one of a date without it. SQLite keeps the format of a constant. */
static int get_format(const sql_function *function, sqlite3_context *context, int count, sqlite3_value **values, int index,
    const fots_format **format)
{
    sql_text text;
    fots_format_result made;
    fots_format *kept;
    *format = index < count ? sqlite3_get_auxdata(context, index) : &function->shared->date_format;
    if (*format) {
        return 1;
    }
    text = sql_text_of(values[index]);
    made = fots_format_new(text.bytes, text.length);
    if (!sql_check_text(context, "format", text, made.status, made.position)) {
        return 0;
    }
    kept = sqlite3_malloc(sizeof *kept);
    if (!kept) {
        sqlite3_result_error_nomem(context);
        return 0;
    }
    *kept = made.format;
    sqlite3_set_auxdata(context, index, kept, sqlite3_free);
    *format = sqlite3_get_auxdata(context, index);
    if (!*format) {
        sqlite3_result_error_nomem(context);
    }
    return *format != NULL;
}

/* Writes the names of the language in an argument. */
static int get_language(sqlite3_context *context, sqlite3_value *value, fots_language_names *names)
{
    const sql_text code = sql_text_of(value);
    return sql_check(context, "language", fots_names_of_language(code.bytes, code.length, names));
}

static fots_parse_moment_result of_date(fots_parse_date_result parsed)
{
    return (fots_parse_moment_result){parsed.status, parsed.date, 0, {0}, 0, parsed.position};
}

static fots_parse_moment_result by_format(sql_text text, const fots_format *format, int form)
{
    if (form == SQL_DATE) {
        return of_date(fots_date_parse_format(text.bytes, text.length, format));
    }
    return form == SQL_LOCAL ? fots_pair_parse_format(text.bytes, text.length, format) : fots_moment_parse_format(text.bytes, text.length, format);
}

static fots_parse_moment_result in_language(sql_text text, const fots_format *format, const fots_language_names *names, int form)
{
    if (form == SQL_DATE) {
        return of_date(fots_date_parse_names(text.bytes, text.length, format, names));
    }
    return form == SQL_LOCAL ? fots_pair_parse_names(text.bytes, text.length, format, names)
                             : fots_moment_parse_names(text.bytes, text.length, format, names);
}

/* Parses the first argument, by a format and with the names of a language if there are any. The format is NULL without one, and
 * with a language, as sentences have English names. */
static int get_parsed(const sql_function *function, sqlite3_context *context, int count, sqlite3_value **values, fots_parse_moment_result *found,
    const fots_format **by)
{
    const sql_text text = sql_text_of(values[0]);
    const int form = function->call->form;
    const fots_format *format;
    *by = NULL;
    if (count == 1 && form != SQL_DATE) {
        *found = form == SQL_LOCAL ? fots_pair_parse(text.bytes, text.length) : fots_moment_parse(text.bytes, text.length);
        return 1;
    }
    if (!get_format(function, context, count, values, 1, &format)) {
        return 0;
    }
    if (count == 3) {
        fots_language_names names;
        if (!get_language(context, values[2], &names)) {
            return 0;
        }
        *found = in_language(text, format, &names, form);
    } else {
        *by = format;
        *found = by_format(text, format, form);
    }
    if (found->status == FOTS_INSUFFICIENT_FORMAT || found->status == FOTS_AMBIGUOUS_NAMES || found->status == FOTS_AMBIGUOUS_NUMBER) {
        return sql_check(context, "format", found->status);
    }
    return 1;
}

static void valid(const sql_function *function, sqlite3_context *context, int count, sqlite3_value **values)
{
    fots_parse_moment_result parsed;
    const fots_format *format;
    if (get_parsed(function, context, count, values, &parsed, &format)) {
        sqlite3_result_int(context, parsed.status == FOTS_OK);
    }
}

/* The reason why a string isn't valid, or NULL for a valid one. */
static void error(const sql_function *function, sqlite3_context *context, int count, sqlite3_value **values)
{
    char reason[SQL_REASON_BYTES];
    fots_parse_moment_result parsed;
    const fots_format *format;
    if (get_parsed(function, context, count, values, &parsed, &format) && parsed.status != FOTS_OK) {
        sql_text_reason(reason, sql_text_of(values[0]), parsed.status, parsed.position, format);
        set_text(context, reason, strlen(reason));
    }
}

static void parse(const sql_function *function, sqlite3_context *context, int count, sqlite3_value **values)
{
    static const char *const names[] = {"date", "local time", "instant"};
    const int form = function->call->form;
    fots_parse_moment_result parsed;
    const fots_format *format;
    if (!get_parsed(function, context, count, values, &parsed, &format)) {
        return;
    }
    if (parsed.status != FOTS_OK) {
        sql_fail(context, sql_format_message(names[form], sql_text_of(values[0]), parsed.status, parsed.position, format));
        return;
    }
    if (form == SQL_DATE) {
        set_date(context, names[form], (fots_date_result){FOTS_OK, parsed.date});
    } else if (form == SQL_LOCAL) {
        set_local(context, names[form], FOTS_OK, parsed.date, parsed.time);
    } else {
        set_instant(context, names[form], fots_moment_new(parsed.date, parsed.time, parsed.offset));
    }
}

#define FORMAT_BYTES (FOTS_MAX_ITEMS * FOTS_MAX_ITEM_LENGTH)
#define NAMED_BYTES (FOTS_MAX_ITEMS * FOTS_MAX_NAME_LENGTH)

static void format(const sql_function *function, sqlite3_context *context, int count, sqlite3_value **values)
{
    char bytes[NAMED_BYTES];
    const fots_format *made;
    fots_language_names names;
    fots_moment moment = {{0}, {0}, 0};
    fots_length_result printed;
    if (function->call->form == SQL_DATE ? !get_date(context, values[0], &moment.date) : !get_local(context, values[0], &moment)) {
        return;
    }
    if (!get_format(function, context, count, values, 1, &made)) {
        return;
    }
    if (count == 3) {
        if (!get_language(context, values[2], &names)) {
            return;
        }
        printed = function->call->form == SQL_DATE ? fots_date_format_names(moment.date, made, &names, bytes, sizeof bytes)
                                                   : fots_pair_format_names(moment.date, moment.time, made, &names, bytes, sizeof bytes);
    } else {
        printed = function->call->form == SQL_DATE ? fots_date_format(moment.date, made, bytes, sizeof bytes)
                                                   : fots_pair_format(moment.date, moment.time, made, bytes, sizeof bytes);
    }
    if (sql_check(context, "format", printed.status)) {
        set_text(context, bytes, printed.length);
    }
}

static void format_zoned(const sql_function *function, sqlite3_context *context, int count, sqlite3_value **values)
{
    char bytes[FORMAT_BYTES];
    const fots_format *made;
    const fots_zone *zone;
    fots_moment moment;
    if (get_instant(context, values[0], &moment) && get_zone(context, values[1], &zone) && get_format(function, context, count, values, 2, &made)) {
        const fots_length_result printed = fots_moment_format_in_zone(moment, zone, made, bytes, sizeof bytes);
        if (sql_check(context, "format", printed.status)) {
            set_text(context, bytes, printed.length);
        }
    }
}

static void recurrence_text(const sql_function *function, sqlite3_context *context, int count, sqlite3_value **values)
{
    const sql_text text = sql_text_of(values[0]);
    const fots_recurrence_text_result found = fots_recurrence_text(text.bytes, text.length);
    (void)function, (void)count;
    if (sql_check_text(context, "recurrence", text, found.status, found.position)) {
        set_text(context, found.bytes, found.length);
    }
}

static void recurrence_lines(const sql_function *function, sqlite3_context *context, int count, sqlite3_value **values)
{
    const sql_text text = sql_text_of(values[0]);
    size_t room = text.length + 512;
    fots_event_set_result found;
    (void)function, (void)count;
    do {
        char *const bytes = sqlite3_malloc64(room);
        if (!bytes) {
            sqlite3_result_error_nomem(context);
            return;
        }
        found = fots_event_recurrence_lines(text.bytes, text.length, bytes, room);
        if (found.status == FOTS_OK) {
            set_text(context, bytes, found.length);
        }
        sqlite3_free(bytes);
        room *= 2;
    } while (found.status == FOTS_BUFFER_TOO_SHORT);
    sql_check_text(context, "recurrence", text, found.status, found.position);
}

/* A fold can be within a character, so the result is a blob. */
static void fold(const sql_function *function, sqlite3_context *context, int count, sqlite3_value **values)
{
    const sql_text text = sql_text_of(values[0]);
    const size_t room = text.length + text.length / 24;
    char *const bytes = sqlite3_malloc64(room + 1);
    (void)function, (void)count;
    if (bytes) {
        sqlite3_result_blob64(context, bytes, fots_fold(text.bytes, text.length, bytes, room).length, sqlite3_free);
    } else {
        sqlite3_result_error_nomem(context);
    }
}

const sql_call sql_text_calls[] = {
    {"cal_valid", 1, 2, valid, NULL, NULL, NULL, SQL_DATE, 0},
    {"cal_valid_local", 1, 2, valid, NULL, NULL, NULL, SQL_LOCAL, 0},
    {"cal_valid_instant", 1, 2, valid, NULL, NULL, NULL, SQL_INSTANT, 0},
    {"cal_error", 1, 2, error, NULL, NULL, NULL, SQL_DATE, 0},
    {"cal_error_local", 1, 2, error, NULL, NULL, NULL, SQL_LOCAL, 0},
    {"cal_error_instant", 1, 2, error, NULL, NULL, NULL, SQL_INSTANT, 0},
    {"cal_parse", 1, 3, parse, NULL, NULL, NULL, SQL_DATE, 0},
    {"cal_parse_local", 1, 3, parse, NULL, NULL, NULL, SQL_LOCAL, 0},
    {"cal_parse_instant", 1, 3, parse, NULL, NULL, NULL, SQL_INSTANT, 0},
    {"cal_format", 2, 3, format, NULL, NULL, NULL, SQL_DATE, 0},
    {"cal_format_local", 2, 3, format, NULL, NULL, NULL, SQL_LOCAL, 0},
    {"cal_format_zoned", 3, 3, format_zoned, NULL, NULL, NULL, SQL_INSTANT, 1},
    {"cal_recurrence_text", 1, 1, recurrence_text, NULL, NULL, NULL, 0, 0},
    {"cal_recurrence_lines", 1, 1, recurrence_lines, NULL, NULL, NULL, 0, 0},
    {"cal_fold", 1, 1, fold, NULL, NULL, NULL, 0, 0},
    SQL_NO_CALL,
};
