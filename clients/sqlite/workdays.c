/* Functions of working days. cal_calendar(day [, weekmask]) is an aggregate. Its result is a blob: the
 * weekmask, and the holidays in order. */
#include "values.h"
SQLITE_EXTENSION_INIT3

#include <string.h>

#include "../sql/holidays.h"

/* ---- the aggregate */

typedef struct collected {
    fots_date *days;
    size_t length, room;
    int32_t weekmask;
    int has_weekmask;
} collected;

static void calendar_step(sqlite3_context *context, int count, sqlite3_value **values)
{
    collected *const all = sqlite3_aggregate_context(context, sizeof *all);
    fots_date day;
    if (!all) {
        sqlite3_result_error_nomem(context);
        return;
    }
    if (count == 2 && sqlite3_value_type(values[1]) != SQLITE_NULL) {
        if (!get_number(context, values[1], &all->weekmask)) {
            return;
        }
        all->has_weekmask = 1;
    }
    if (sqlite3_value_type(values[0]) == SQLITE_NULL || !get_date(context, values[0], &day)) {
        return;
    }
    if (all->length == all->room) {
        const size_t room = all->room == 0 ? 64 : 2 * all->room;
        fots_date *const days = sqlite3_realloc64(all->days, room * sizeof *days);
        if (!days) {
            sqlite3_result_error_nomem(context);
            return;
        }
        all->days = days;
        all->room = room;
    }
    all->days[all->length++] = day;
}

static void calendar_final(sqlite3_context *context)
{
    collected *const all = sqlite3_aggregate_context(context, 0);
    const size_t room = all ? all->length : 0;
    const fots_date weekmask = {all && all->has_weekmask ? all->weekmask : (int32_t)FOTS_MONDAY_TO_FRIDAY};
    fots_date *const bytes = sqlite3_malloc64((1 + room) * sizeof *bytes + (1 + room) * sizeof(uint32_t));
    fots_workdays_view view;
    if (!bytes) {
        sqlite3_result_error_nomem(context);
    } else {
        bytes[0] = weekmask;
        if (room > 0) {
            memcpy(bytes + 1, all->days, room * sizeof *bytes);
        }
        if (sql_check(context, "cal_calendar", sql_workdays((uint32_t)weekmask.julian_day, bytes + 1, room, (uint32_t *)(bytes + 1 + room), &view))) {
            sqlite3_result_blob64(context, bytes, (1 + view.holidays_length) * sizeof *bytes, SQLITE_TRANSIENT);
        }
        sqlite3_free(bytes);
    }
    if (all) {
        sqlite3_free(all->days);
    }
}

int sql_add_calendar(sqlite3 *database)
{
    const int flags = SQLITE_UTF8 | SQLITE_DETERMINISTIC | SQLITE_INNOCUOUS;
    const int status = sqlite3_create_function_v2(database, "cal_calendar", 1, flags, NULL, NULL, calendar_step, calendar_final, NULL);
    return status != SQLITE_OK
        ? status
        : sqlite3_create_function_v2(database, "cal_calendar", 2, flags, NULL, NULL, calendar_step, calendar_final, NULL);
}

/* ---- functions of the result */

/* Keeps the calendar of a blob with a number of holidays in a place. Returns 1, or 0 after an error. */
static int keep_calendar(sql_shared *all, unsigned place, sqlite3_context *context, const void *blob, size_t holidays)
{
    const size_t size = (1 + holidays) * sizeof(fots_date);
    fots_date *const kept = sqlite3_malloc64(size + (1 + holidays) * sizeof(uint32_t));
    uint32_t *const counts = (uint32_t *)(kept + 1 + holidays);
    if (!kept) {
        sqlite3_result_error_nomem(context);
        return 0;
    }
    memcpy(kept, blob, size);
    if (!sql_check(context, "calendar", fots_workdays_view_count((uint32_t)kept->julian_day, kept + 1, holidays, counts, holidays + 1).status)) {
        sqlite3_free(kept);
        return 0;
    }
    sqlite3_free(all->calendars[place].blob);
    all->calendars[place].blob = kept;
    all->calendars[place].length = (int)size;
    all->calendars[place].workdays = (fots_workdays_view){(uint32_t)kept->julian_day, 0, kept + 1, holidays, counts, holidays + 1};
    return 1;
}

/* The calendar of an argument, or Monday to Friday without it. */
static int get_workdays(const sql_function *function, sqlite3_context *context, int count, sqlite3_value **values, int index,
    const fots_workdays_view **workdays)
{
    sql_shared *const all = function->shared;
    const void *const blob = index < count ? sqlite3_value_blob(values[index]) : NULL;
    const int length = index < count ? sqlite3_value_bytes(values[index]) : 0, unit = (int)sizeof(fots_date);
    const unsigned place = all->next;
    unsigned at;
    *workdays = &all->weekdays;
    if (index >= count) {
        return 1;
    }
    for (at = 0; at < SQL_CALENDARS; at++) {
        if (length > 0 && all->calendars[at].length == length && memcmp(all->calendars[at].blob, blob, (size_t)length) == 0) {
            *workdays = &all->calendars[at].workdays;
            return 1;
        }
    }
    if (sqlite3_value_type(values[index]) != SQLITE_BLOB || length < unit || length % unit != 0) {
        sqlite3_result_error(context, "expected a result of cal_calendar", -1);
        return 0;
    }
    if (!keep_calendar(all, place, context, blob, (size_t)(length / unit - 1))) {
        return 0;
    }
    all->next = (place + 1) % SQL_CALENDARS;
    *workdays = &all->calendars[place].workdays;
    return 1;
}

static void between(const sql_function *function, sqlite3_context *context, int count, sqlite3_value **values)
{
    fots_date date, other;
    const fots_workdays_view *workdays;
    if (get_date(context, values[0], &date) && get_date(context, values[1], &other)
        && get_workdays(function, context, count, values, 2, &workdays)) {
        const fots_number_result found = fots_workdays_view_between(workdays, date, other);
        set_number(context, function->call->name, found.status, found.number);
    }
}

static void add(const sql_function *function, sqlite3_context *context, int count, sqlite3_value **values)
{
    fots_date date;
    int32_t days;
    const fots_workdays_view *workdays;
    if (get_date(context, values[0], &date) && get_number(context, values[1], &days)
        && get_workdays(function, context, count, values, 2, &workdays)) {
        set_date(context, function->call->name, fots_workdays_view_add(workdays, date, days));
    }
}

static void is_workday(const sql_function *function, sqlite3_context *context, int count, sqlite3_value **values)
{
    fots_date date;
    const fots_workdays_view *workdays;
    if (get_date(context, values[0], &date) && get_workdays(function, context, count, values, 1, &workdays)) {
        const fots_component_result found = fots_workdays_view_contains(workdays, date);
        set_number(context, function->call->name, found.status, found.number);
    }
}

static void adjust(const sql_function *function, sqlite3_context *context, int count, sqlite3_value **values)
{
    fots_date date;
    uint32_t convention;
    const fots_workdays_view *workdays;
    if (get_date(context, values[0], &date) && get_name(context, fots_convention_names(), count, values, 1, FOTS_UNADJUSTED, &convention)
        && get_workdays(function, context, count, values, 2, &workdays)) {
        set_date(context, function->call->name, fots_workdays_view_adjust(workdays, date, convention));
    }
}

const sql_call sql_workday_calls[] = {
    {"cal_workdays", 2, 3, between, NULL, NULL, NULL, 0, 0},
    {"cal_add_workdays", 2, 3, add, NULL, NULL, NULL, 0, 0},
    {"cal_is_workday", 1, 2, is_workday, NULL, NULL, NULL, 0, 0},
    {"cal_adjust", 2, 3, adjust, NULL, NULL, NULL, 0, 0},
    SQL_NO_CALL,
};
