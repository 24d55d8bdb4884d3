/* Functions that return rows: series by a period, recurrences and holidays. Their arguments are hidden columns.
 *
 * A step that finds no row yet is shown as a row of NULLs. SQLite drops it, since it compares the
 * first argument itself, and between two rows a program can stop the query. */
#include "values.h"
SQLITE_EXTENSION_INIT3

#include <string.h>

#include "../sql/holidays.h"
#include "../sql/series.h"
#include "fotsevindre_zones.h"

#define ARGUMENTS 7

enum kind { SERIES, DAYS, TIMES, HOLIDAYS };

typedef struct table_kind {
    const char *name;
    const char *declaration;
    enum kind kind;
    enum sql_form form; /* SQL_INSTANT has a zone, and the local time as its second column */
    int columns; /* before the arguments */
    int needed; /* the number of arguments that must be there */
} table_kind;

static const table_kind kinds[] = {
    {"cal_series", "CREATE TABLE x(day TEXT, start HIDDEN, stop HIDDEN, step HIDDEN)", SERIES, SQL_DATE, 1, 3},
    {"cal_series_local", "CREATE TABLE x(time TEXT, start HIDDEN, stop HIDDEN, step HIDDEN)", SERIES, SQL_LOCAL, 1, 3},
    {"cal_series_zoned", "CREATE TABLE x(instant, local TEXT, start HIDDEN, stop HIDDEN, step HIDDEN, zone HIDDEN, policy HIDDEN)", SERIES,
        SQL_INSTANT, 2, 4},
    {"cal_days", "CREATE TABLE x(day TEXT, rule HIDDEN, start HIDDEN, first HIDDEN, last HIDDEN, rdates HIDDEN, exdates HIDDEN)", DAYS, SQL_DATE, 1, 2},
    {"cal_times_local", "CREATE TABLE x(time TEXT, rule HIDDEN, start HIDDEN, first HIDDEN, last HIDDEN, rdates HIDDEN, exdates HIDDEN)", TIMES, SQL_LOCAL, 1, 2},
    {"cal_times_zoned",
        "CREATE TABLE x(instant, local TEXT, rule HIDDEN, start HIDDEN, zone HIDDEN, first HIDDEN, last HIDDEN, rdates HIDDEN, exdates HIDDEN)",
        TIMES, SQL_INSTANT, 2, 3},
    {"cal_holidays", "CREATE TABLE x(day TEXT, rules HIDDEN, first HIDDEN, last HIDDEN)", HOLIDAYS, SQL_DATE, 1, 3},
};

typedef struct table {
    sqlite3_vtab base;
    const table_kind *kind;
} table;

/* The state of the rows of one call. It doesn't move, as its parts point into it. */
typedef struct cursor {
    sqlite3_vtab_cursor base;
    sqlite3_value *arguments[ARGUMENTS]; /* or NULL */
    fots_moment *dates; /* of a recurrence or holidays, or NULL */
    enum sql_step step;
    sqlite3_int64 rowid;
    fots_moment row;
    union {
        sql_series series;
        sql_recurrence recurrence;
        struct {
            int next, length;
        } holidays;
    } rows;
} cursor;

/* ---- tables and cursors */

static int connect_rows(sqlite3 *database, void *kind, int count, const char *const *words, sqlite3_vtab **made, char **error)
{
    const table_kind *const found = kind;
    const int status = sqlite3_declare_vtab(database, found->declaration);
    table *const one = status == SQLITE_OK ? sqlite3_malloc(sizeof *one) : NULL;
    (void)count, (void)words, (void)error;
    if (!one) {
        return status == SQLITE_OK ? SQLITE_NOMEM : status;
    }
    memset(one, 0, sizeof *one);
    one->kind = found;
    if (found->form != SQL_INSTANT) {
        sqlite3_vtab_config(database, SQLITE_VTAB_INNOCUOUS);
    }
    *made = &one->base;
    return SQLITE_OK;
}

static int disconnect_rows(sqlite3_vtab *base)
{
    sqlite3_free(base);
    return SQLITE_OK;
}

static int open_rows(sqlite3_vtab *base, sqlite3_vtab_cursor **made)
{
    cursor *const one = sqlite3_malloc(sizeof *one);
    (void)base;
    if (!one) {
        return SQLITE_NOMEM;
    }
    memset(one, 0, sizeof *one);
    *made = &one->base;
    return SQLITE_OK;
}

static void free_arguments(cursor *one)
{
    int at;
    for (at = 0; at < ARGUMENTS; at++) {
        sqlite3_value_free(one->arguments[at]);
        one->arguments[at] = NULL;
    }
    sqlite3_free(one->dates);
    one->dates = NULL;
}

static int close_rows(sqlite3_vtab_cursor *base)
{
    free_arguments((cursor *)base);
    sqlite3_free(base);
    return SQLITE_OK;
}

/* The bits of the plan are the arguments that are there. */
static int plan(sqlite3_vtab *base, sqlite3_index_info *info)
{
    const table_kind *const kind = ((table *)base)->kind;
    int at, bits = 0, next = 0, place[ARGUMENTS] = {-1, -1, -1, -1, -1, -1, -1};
    for (at = 0; at < info->nConstraint; at++) {
        const int column = info->aConstraint[at].iColumn - kind->columns;
        if (column < 0 || info->aConstraint[at].op != SQLITE_INDEX_CONSTRAINT_EQ) {
            continue;
        }
        if (!info->aConstraint[at].usable) {
            return SQLITE_CONSTRAINT;
        }
        bits |= 1 << column;
        place[column] = at;
    }
    if (~bits & ((1 << kind->needed) - 1)) {
        sqlite3_free(base->zErrMsg);
        base->zErrMsg = sqlite3_mprintf("%s: expected at least %d arguments", kind->name, kind->needed);
        return SQLITE_ERROR;
    }
    for (at = 0; at < ARGUMENTS; at++) {
        if (place[at] >= 0) {
            info->aConstraintUsage[place[at]].argvIndex = ++next;
            info->aConstraintUsage[place[at]].omit = at > 0;
        }
    }
    info->idxNum = bits;
    info->estimatedCost = 1000;
    info->estimatedRows = 100;
    info->orderByConsumed = kind->kind != SERIES && info->nOrderBy == 1 && info->aOrderBy[0].iColumn == 0 && !info->aOrderBy[0].desc;
    return SQLITE_OK;
}

/* ---- the arguments of a call */

static int fail(cursor *one, char *message)
{
    sqlite3_free(one->base.pVtab->zErrMsg);
    one->base.pVtab->zErrMsg = message;
    return message ? SQLITE_ERROR : SQLITE_NOMEM;
}

/* Reads an argument in the form of the rows, with local times at offset 0. */
static int read_moment(cursor *one, int argument, enum sql_form form, fots_moment *moment)
{
    static const char *const names[] = {"date", "local time", "instant"};
    sqlite3_value *const value = one->arguments[argument];
    const sql_text text = sql_text_of(value);
    const fots_parse_moment_result parsed
        = form == SQL_DATE ? sql_parse_date(value) : form == SQL_LOCAL ? fots_pair_parse(text.bytes, text.length) : sql_parse_instant(value);
    moment->date = parsed.date;
    moment->time = parsed.time;
    moment->offset = parsed.offset;
    return parsed.status == FOTS_OK ? SQLITE_OK : fail(one, sql_text_message(names[form], text, parsed.status, parsed.position));
}

static int read_zone(cursor *one, int argument, const fots_zone **zone)
{
    const sql_text text = sql_text_of(one->arguments[argument]);
    const fots_named_zone found = fots_zone_named_by(text.bytes, text.length);
    *zone = found.zone;
    return found.zone ? SQLITE_OK : fail(one, sqlite3_mprintf("time zone not recognized: %s", fots_named_zone_reason(found)));
}

/* Reads a bound, or one end of the range of the form without it. */
static int read_bound(cursor *one, int argument, enum sql_form form, fots_moment otherwise, fots_moment *moment)
{
    *moment = otherwise;
    return one->arguments[argument] ? read_moment(one, argument, form, moment) : SQLITE_OK;
}

static int begin_series(cursor *one, enum sql_form form)
{
    const sql_text text = sql_text_of(one->arguments[2]);
    const fots_parse_period_result parsed = fots_period_parse(text.bytes, text.length);
    const int has_duration = parsed.period.duration.seconds != 0 || parsed.period.duration.nanoseconds != 0;
    const fots_zone *zone = NULL;
    uint32_t policy = FOTS_COMPATIBLE;
    fots_moment start, stop;
    int32_t status;
    if (read_moment(one, 0, form, &start) != SQLITE_OK || read_moment(one, 1, form, &stop) != SQLITE_OK) {
        return SQLITE_ERROR;
    }
    if (parsed.status != FOTS_OK) {
        return fail(one, sql_text_message("period", text, parsed.status, parsed.position));
    }
    if (form == SQL_INSTANT) {
        if (read_zone(one, 3, &zone) != SQLITE_OK) {
            return SQLITE_ERROR;
        }
        start = fots_moment_in_zone(start, zone).moment;
    }
    if (one->arguments[4]) {
        const sql_text name = sql_text_of(one->arguments[4]);
        policy = fots_number_named(fots_policy_names(), name.bytes, name.length);
    }
    if (policy == FOTS_NO_NUMBER) {
        return fail(one, sqlite3_mprintf("unknown policy; expected %s", fots_policy_names()->expected));
    }
    status = sql_series_begin(&one->rows.series, start, stop, parsed.period);
    one->rows.series.zone = zone;
    one->rows.series.policy = policy;
    status = status == FOTS_OK && form == SQL_DATE && has_duration ? FOTS_PERIOD_HAS_DURATION : status;
    return status == FOTS_OK ? SQLITE_OK : fail(one, sql_message("series", status));
}

/* Reads one of the other dates, a date or a local time. */
static int read_date(cursor *one, int is_day, sql_text text, fots_moment *moment)
{
    fots_parse_moment_result parsed = fots_pair_parse(text.bytes, text.length);
    if (is_day) {
        const fots_parse_date_result day = fots_date_parse(text.bytes, text.length);
        parsed = (fots_parse_moment_result){day.status, day.date, 0, {0}, 0, day.position};
    }
    moment->date = parsed.date;
    moment->time = parsed.time;
    moment->offset.seconds = 0;
    return parsed.status == FOTS_OK ? SQLITE_OK
                                    : fail(one, sql_text_message(is_day ? "date" : "local time", text, parsed.status, parsed.position));
}

/* Reads values with commas between them. An empty string has none. */
static int read_dates(cursor *one, int is_day, sql_text list, fots_moment *moments, size_t *length)
{
    int status = SQLITE_OK, has_next = list.length > 0;
    while (status == SQLITE_OK && has_next) {
        const char *const comma = memchr(list.bytes, ',', list.length);
        const sql_text text = {list.bytes, comma ? (size_t)(comma - list.bytes) : list.length};
        if (*length == FOTS_MAX_DATES) {
            return fail(one, sql_message("recurrence", FOTS_TOO_MANY_DATES));
        }
        status = read_date(one, is_day, text, &moments[(*length)++]);
        has_next = comma != NULL;
        list.bytes += text.length + (size_t)has_next;
        list.length -= text.length + (size_t)has_next;
    }
    return status;
}

/* Adds the other dates and the exceptions, from an argument on. */
static int add_dates(cursor *one, int argument)
{
    sql_recurrence *const recurrence = &one->rows.recurrence;
    const int is_day = !recurrence->has_times;
    size_t lengths[] = {0, 0};
    int at, status = SQLITE_OK;
    int32_t added;
    if (!one->arguments[argument] && !one->arguments[argument + 1]) {
        return SQLITE_OK;
    }
    one->dates = sqlite3_malloc64(2 * FOTS_MAX_DATES * sizeof *one->dates);
    if (!one->dates) {
        return SQLITE_NOMEM;
    }
    for (at = 0; at < 2 && status == SQLITE_OK; at++) {
        if (one->arguments[argument + at]) {
            status = read_dates(one, is_day, sql_text_of(one->arguments[argument + at]), one->dates + at * FOTS_MAX_DATES, &lengths[at]);
        }
    }
    if (status != SQLITE_OK) {
        return status;
    }
    added = sql_recurrence_add(recurrence, one->dates, lengths[0], one->dates + FOTS_MAX_DATES, lengths[1]);
    return added == FOTS_OK ? SQLITE_OK : fail(one, sql_message("recurrence", added));
}

static int begin_recurrence(cursor *one, const table_kind *kind)
{
    const fots_moment least = {{FOTS_MIN_JULIAN_DAY}, {0}, 0}, greatest = {{FOTS_MAX_JULIAN_DAY}, {0}, FOTS_MAX_TIME};
    const sql_text text = sql_text_of(one->arguments[0]);
    const int has_zone = kind->form == SQL_INSTANT;
    sql_recurrence *const recurrence = &one->rows.recurrence;
    const fots_zone *zone = NULL;
    fots_moment start, first, last;
    sql_fault fault;
    if (read_moment(one, 1, has_zone ? SQL_LOCAL : kind->form, &start) != SQLITE_OK || (has_zone && read_zone(one, 2, &zone) != SQLITE_OK)
        || read_bound(one, 2 + has_zone, kind->form, least, &first) != SQLITE_OK
        || read_bound(one, 3 + has_zone, kind->form, greatest, &last) != SQLITE_OK) {
        return SQLITE_ERROR;
    }
    fault = kind->kind == DAYS ? sql_recurrence_begin_days(recurrence, text.bytes, text.length, start.date, first.date, last.date)
                               : sql_recurrence_begin_times(recurrence, text.bytes, text.length, start, zone, first, last);
    if (fault.status != FOTS_OK) {
        return fail(one, sql_text_message("recurrence", text, fault.status, fault.position));
    }
    if (!one->arguments[3 + has_zone] && !sql_recurrence_has_end(recurrence)) {
        return fail(one, sqlite3_mprintf("the recurrence has no end; give it COUNT or UNTIL, or the call its argument last"));
    }
    return add_dates(one, 4 + has_zone);
}

static int begin_holidays(cursor *one)
{
    const sql_text text = sql_text_of(one->arguments[0]);
    fots_date days[FOTS_MAX_HOLIDAYS];
    fots_holidays_result found;
    fots_moment first, last;
    int at;
    if (read_moment(one, 1, SQL_DATE, &first) != SQLITE_OK || read_moment(one, 2, SQL_DATE, &last) != SQLITE_OK) {
        return SQLITE_ERROR;
    }
    found = sql_holidays(text.bytes, text.length, first.date, last.date, days);
    if (found.status != FOTS_OK) {
        return fail(one, sql_text_message("holidays", text, found.status, found.position));
    }
    one->dates = sqlite3_malloc64(((size_t)found.number + 1) * sizeof *one->dates);
    if (!one->dates) {
        return SQLITE_NOMEM;
    }
    for (at = 0; at < found.number; at++) {
        one->dates[at] = (fots_moment){days[at], {0}, 0};
    }
    one->rows.holidays.next = 0;
    one->rows.holidays.length = found.number;
    return SQLITE_OK;
}

/* ---- rows */

static enum sql_step next_holiday(cursor *one)
{
    if (one->rows.holidays.next == one->rows.holidays.length) {
        return SQL_END;
    }
    one->row = one->dates[one->rows.holidays.next++];
    return SQL_ROW;
}

static int next(sqlite3_vtab_cursor *base)
{
    cursor *const one = (cursor *)base;
    const table_kind *const kind = ((table *)base->pVtab)->kind;
    int32_t status = FOTS_OK;
    one->rowid += 1;
    if (kind->kind == HOLIDAYS) {
        one->step = next_holiday(one);
    } else if (kind->kind == SERIES) {
        one->step = sql_series_step(&one->rows.series, &one->row);
        status = one->rows.series.status;
    } else {
        one->step = sql_recurrence_step(&one->rows.recurrence, &one->row);
        status = one->rows.recurrence.status;
    }
    return one->step == SQL_FAILED ? fail(one, sql_message(kind->name, status)) : SQLITE_OK;
}

static int filter(sqlite3_vtab_cursor *base, int bits, const char *unused, int count, sqlite3_value **values)
{
    cursor *const one = (cursor *)base;
    const table_kind *const kind = ((table *)base->pVtab)->kind;
    int at, given = 0, status;
    (void)unused, (void)count;
    free_arguments(one);
    memset(&one->row, 0, sizeof one->row);
    one->rowid = 0;
    one->step = SQL_END;
    for (at = 0; at < ARGUMENTS; at++) {
        if (bits & 1 << at) {
            if (sqlite3_value_type(values[given]) == SQLITE_NULL) {
                return SQLITE_OK;
            }
            one->arguments[at] = sqlite3_value_dup(values[given++]);
            if (!one->arguments[at]) {
                return SQLITE_NOMEM;
            }
        }
    }
    status = kind->kind == HOLIDAYS ? begin_holidays(one) : kind->kind == SERIES ? begin_series(one, kind->form) : begin_recurrence(one, kind);
    return status == SQLITE_OK ? next(base) : status;
}

static int is_at_end(sqlite3_vtab_cursor *base)
{
    return ((cursor *)base)->step == SQL_END;
}

static int column(sqlite3_vtab_cursor *base, sqlite3_context *context, int number)
{
    const cursor *const one = (const cursor *)base;
    const table_kind *const kind = ((table *)base->pVtab)->kind;
    const fots_moment_result row = {FOTS_OK, 0, one->row};
    if (one->step != SQL_ROW) {
        return SQLITE_OK;
    }
    if (number >= kind->columns) {
        if (one->arguments[number - kind->columns]) {
            sqlite3_result_value(context, one->arguments[number - kind->columns]);
        }
    } else if (number == 0 && kind->form == SQL_DATE) {
        const fots_date_result date = {FOTS_OK, row.moment.date};
        set_date(context, kind->name, date);
    } else if (number == 0 && kind->form == SQL_INSTANT) {
        set_instant(context, kind->name, row);
    } else if (kind->form == SQL_INSTANT && kind->kind == TIMES) {
        const fots_moment_result local = fots_moment_in_zone(row.moment, one->rows.recurrence.rule.times.zone);
        set_local(context, kind->name, local.status, local.moment.date, local.moment.time);
    } else {
        set_local(context, kind->name, FOTS_OK, row.moment.date, row.moment.time);
    }
    return SQLITE_OK;
}

static int rowid(sqlite3_vtab_cursor *base, sqlite3_int64 *row)
{
    *row = ((cursor *)base)->rowid;
    return SQLITE_OK;
}

int sql_add_rows(sqlite3 *database)
{
    static const sqlite3_module module = {
        .xConnect = connect_rows,
        .xBestIndex = plan,
        .xDisconnect = disconnect_rows,
        .xOpen = open_rows,
        .xClose = close_rows,
        .xFilter = filter,
        .xNext = next,
        .xEof = is_at_end,
        .xColumn = column,
        .xRowid = rowid,
    };
    int status = SQLITE_OK;
    size_t at;
    for (at = 0; status == SQLITE_OK && at < sizeof kinds / sizeof kinds[0]; at++) {
        status = sqlite3_create_module_v2(database, kinds[at].name, &module, (void *)&kinds[at], NULL);
    }
    return status;
}
