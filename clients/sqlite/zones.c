/* Functions with a time zone. */
#include "values.h"
SQLITE_EXTENSION_INIT3

#include <stdio.h>
#include <string.h>

static void instant(const sql_function *function, sqlite3_context *context, int count, sqlite3_value **values)
{
    fots_moment local;
    const fots_zone *zone;
    uint32_t policy;
    if (get_local(context, values[0], &local) && get_zone(context, values[1], &zone)
        && get_name(context, fots_policy_names(), count, values, 2, FOTS_COMPATIBLE, &policy)) {
        set_instant(context, function->call->name, fots_zone_moment(zone, local.date, local.time, policy));
    }
}

static void local(const sql_function *function, sqlite3_context *context, int count, sqlite3_value **values)
{
    fots_moment moment;
    const fots_zone *zone;
    (void)count;
    if (get_instant(context, values[0], &moment) && get_zone(context, values[1], &zone)) {
        const fots_moment_result found = fots_moment_in_zone(moment, zone);
        set_local(context, function->call->name, found.status, found.moment.date, found.moment.time);
    }
}

static void local_kind(const sql_function *function, sqlite3_context *context, int count, sqlite3_value **values)
{
    static const char *const names[] = {"", "single", "gap", "fold"};
    fots_moment moment;
    const fots_zone *zone;
    (void)count;
    if (get_local(context, values[0], &moment) && get_zone(context, values[1], &zone)) {
        const fots_local_result found = fots_zone_resolve(zone, moment.date, moment.time);
        if (sql_check(context, function->call->name, found.status)) {
            set_text(context, names[found.kind], strlen(names[found.kind]));
        }
    }
}

/* A JSON array of all instants of a local time: none in a gap, two in a fold. */
static void instants(const sql_function *function, sqlite3_context *context, int count, sqlite3_value **values)
{
    char bytes[64] = "[]";
    fots_moment moment;
    const fots_zone *zone;
    (void)count;
    if (get_local(context, values[0], &moment) && get_zone(context, values[1], &zone)) {
        const fots_local_result found = fots_zone_resolve(zone, moment.date, moment.time);
        if (!sql_check(context, function->call->name, found.status)) {
            return;
        }
        if (found.kind == FOTS_SINGLE) {
            snprintf(bytes, sizeof bytes, "[%lld]", (long long)found.earlier);
        } else if (found.kind == FOTS_FOLD) {
            snprintf(bytes, sizeof bytes, "[%lld,%lld]", (long long)found.earlier, (long long)found.later);
        }
        set_text(context, bytes, strlen(bytes));
    }
}

/* NULL if no change follows, or none came before. */
static void change(const sql_function *function, sqlite3_context *context, int count, sqlite3_value **values)
{
    fots_moment moment;
    const fots_zone *zone;
    (void)count;
    if (get_instant(context, values[0], &moment) && get_zone(context, values[1], &zone)) {
        const int64_t seconds = fots_moment_unix_timestamp(moment).number;
        const fots_int64_result found = function->call->form ? fots_zone_next_change(zone, seconds) : fots_zone_previous_change(zone, seconds);
        if (found.status != FOTS_RESULT_OUT_OF_RANGE) {
            set_number(context, function->call->name, found.status, found.number);
        }
    }
}

/* An instant by the clocks of a zone. */
static int get_zoned(sqlite3_context *context, sqlite3_value *value, sqlite3_value *name, const fots_zone **zone, fots_moment *zoned)
{
    if (get_instant(context, value, zoned) && get_zone(context, name, zone)) {
        const fots_moment_result found = fots_moment_in_zone(*zoned, *zone);
        *zoned = found.moment;
        return sql_check(context, "instant", found.status);
    }
    return 0;
}

static void add_period(const sql_function *function, sqlite3_context *context, int count, sqlite3_value **values)
{
    fots_moment moment;
    fots_period period;
    const fots_zone *zone;
    uint32_t policy;
    if (get_zoned(context, values[0], values[2], &zone, &moment) && get_period(context, values[1], &period)
        && get_name(context, fots_policy_names(), count, values, 3, FOTS_COMPATIBLE, &policy)) {
        set_instant(context, function->call->name, fots_zoned_add_period(zone, moment, period, policy));
    }
}

static void period(const sql_function *function, sqlite3_context *context, int count, sqlite3_value **values)
{
    fots_moment start, stop;
    const fots_zone *zone;
    uint32_t unit, policy;
    if (get_zoned(context, values[0], values[2], &zone, &start) && get_zoned(context, values[1], values[2], &zone, &stop)
        && get_name(context, fots_unit_names(), count, values, 3, FOTS_YEAR, &unit)
        && get_name(context, fots_policy_names(), count, values, 4, FOTS_COMPATIBLE, &policy)) {
        const fots_exact_period_result found = fots_zoned_period_until(zone, start, stop, unit, policy);
        set_period(context, function->call->name, found.status, found.period);
    }
}

/* The first second of a unit, or the last one. */
static void unit_of_instant(const sql_function *function, sqlite3_context *context, int count, sqlite3_value **values)
{
    fots_moment moment;
    const fots_zone *zone;
    uint32_t unit;
    if (get_zoned(context, values[0], values[2], &zone, &moment) && get_name(context, fots_unit_names(), count, values, 1, FOTS_DAY, &unit)) {
        const fots_moment_result found = function->call->form ? fots_zoned_end_of(zone, moment, unit) : fots_zoned_start_of(zone, moment, unit);
        if (sql_check(context, function->call->name, found.status)) {
            sqlite3_result_int64(context, fots_moment_unix_timestamp(found.moment).number);
        }
    }
}

static void day_length(const sql_function *function, sqlite3_context *context, int count, sqlite3_value **values)
{
    fots_date date;
    const fots_zone *zone;
    (void)count;
    if (get_date(context, values[0], &date) && get_zone(context, values[1], &zone)) {
        set_seconds(context, function->call->name, fots_zoned_day_length(zone, date));
    }
}

const sql_call sql_zone_calls[] = {
    {"cal_instant", 2, 3, instant, NULL, NULL, NULL, 0, 1},
    {"cal_local", 2, 2, local, NULL, NULL, NULL, 0, 1},
    {"cal_local_kind", 2, 2, local_kind, NULL, NULL, NULL, 0, 1},
    {"cal_instants", 2, 2, instants, NULL, NULL, NULL, 0, 1},
    {"cal_next_change", 2, 2, change, NULL, NULL, NULL, 1, 1},
    {"cal_previous_change", 2, 2, change, NULL, NULL, NULL, 0, 1},
    {"cal_add_period_zoned", 3, 4, add_period, NULL, NULL, NULL, 0, 1},
    {"cal_period_zoned", 3, 5, period, NULL, NULL, NULL, 0, 1},
    {"cal_start_of_zoned", 3, 3, unit_of_instant, NULL, NULL, NULL, 0, 1},
    {"cal_end_of_zoned", 3, 3, unit_of_instant, NULL, NULL, NULL, 1, 1},
    {"cal_day_length", 2, 2, day_length, NULL, NULL, NULL, 0, 1},
    SQL_NO_CALL,
};
