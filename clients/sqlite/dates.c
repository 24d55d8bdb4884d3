/* Functions of dates, periods and durations. */
#include "values.h"
SQLITE_EXTENSION_INIT3

#include <stdio.h>

/* ---- functions of one shape */

static void date_and_number(const sql_function *function, sqlite3_context *context, int count, sqlite3_value **values)
{
    fots_date date;
    int32_t number;
    (void)count;
    if (get_date(context, values[0], &date) && get_number(context, values[1], &number)) {
        set_date(context, function->call->name, function->call->date(date, number));
    }
}

static void component(const sql_function *function, sqlite3_context *context, int count, sqlite3_value **values)
{
    fots_date date;
    (void)count;
    if (get_date(context, values[0], &date)) {
        const fots_component_result found = function->call->component(date);
        set_number(context, function->call->name, found.status, found.number);
    }
}

static void two_dates(const sql_function *function, sqlite3_context *context, int count, sqlite3_value **values)
{
    fots_date date, other;
    (void)count;
    if (get_date(context, values[0], &date) && get_date(context, values[1], &other)) {
        const fots_number_result found = function->call->number(date, other);
        set_number(context, function->call->name, found.status, found.number);
    }
}

static fots_date_result next_weekday(fots_date date, int32_t weekday)
{
    return fots_date_next_occurrence(date, (uint32_t)weekday);
}

static fots_date_result previous_weekday(fots_date date, int32_t weekday)
{
    return fots_date_prev_occurrence(date, (uint32_t)weekday);
}

static fots_date_result on_or_after(fots_date date, int32_t weekday)
{
    return fots_date_on_or_after(date, (uint32_t)weekday);
}

static fots_date_result on_or_before(fots_date date, int32_t weekday)
{
    return fots_date_on_or_before(date, (uint32_t)weekday);
}

static void unit_of_date(const sql_function *function, sqlite3_context *context, int count, sqlite3_value **values)
{
    fots_date date;
    uint32_t unit;
    if (get_date(context, values[0], &date) && get_name(context, fots_unit_names(), count, values, 1, FOTS_DAY, &unit)) {
        set_date(context, function->call->name, function->call->date(date, (int32_t)unit));
    }
}

static fots_date_result start_of(fots_date date, int32_t unit)
{
    return sql_start_of(date, (uint32_t)unit);
}

static fots_date_result end_of(fots_date date, int32_t unit)
{
    return sql_end_of(date, (uint32_t)unit);
}

/* ---- other functions of dates */

static void add_period(const sql_function *function, sqlite3_context *context, int count, sqlite3_value **values)
{
    fots_date date;
    fots_period period;
    (void)count;
    if (get_date(context, values[0], &date) && get_period(context, values[1], &period)) {
        set_date(context, function->call->name, fots_date_add_period(date, period));
    }
}

/* NULL if the month has no such day. */
static void nth_weekday(const sql_function *function, sqlite3_context *context, int count, sqlite3_value **values)
{
    int32_t year, month, weekday, n;
    (void)count;
    if (get_number(context, values[0], &year) && get_number(context, values[1], &month) && get_number(context, values[2], &weekday)
        && get_number(context, values[3], &n)) {
        const fots_date_result found = sql_nth_weekday(year, month, weekday, n);
        if (found.status != FOTS_WEEKDAY_OUT_OF_RANGE) {
            set_date(context, function->call->name, found);
        }
    }
}

static void from_iso_week(const sql_function *function, sqlite3_context *context, int count, sqlite3_value **values)
{
    int32_t year, week, weekday;
    (void)count;
    if (get_number(context, values[0], &year) && get_number(context, values[1], &week) && get_number(context, values[2], &weekday)) {
        set_date(context, function->call->name, fots_date_from_iso_week_date(year, (uint32_t)week, (uint32_t)weekday));
    }
}

static void easter(const sql_function *function, sqlite3_context *context, int count, sqlite3_value **values)
{
    int32_t year;
    (void)count;
    if (get_number(context, values[0], &year)) {
        set_date(context, function->call->name, function->call->form ? fots_julian_easter(year) : fots_easter(year));
    }
}

static void iso_year(const sql_function *function, sqlite3_context *context, int count, sqlite3_value **values)
{
    fots_date date;
    (void)count;
    if (get_date(context, values[0], &date)) {
        const fots_iso_week_date_result found = fots_date_to_iso_week_date(date);
        set_number(context, function->call->name, found.status, found.year);
    }
}

static void week_text(const sql_function *function, sqlite3_context *context, int count, sqlite3_value **values)
{
    fots_date date;
    (void)count;
    if (get_date(context, values[0], &date)) {
        const fots_text_result text = fots_date_week_text(date);
        if (sql_check(context, function->call->name, text.status)) {
            set_text(context, text.bytes, text.length);
        }
    }
}

static void age(const sql_function *function, sqlite3_context *context, int count, sqlite3_value **values)
{
    fots_date born, on;
    uint32_t leap_birthday;
    if (get_date(context, values[0], &born) && get_date(context, values[1], &on)
        && get_name(context, &sql_leap_birthdays, count, values, 2, SQL_MARCH, &leap_birthday)) {
        const fots_number_result found = sql_age(born, on, leap_birthday);
        set_number(context, function->call->name, found.status, found.number);
    }
}

static void period(const sql_function *function, sqlite3_context *context, int count, sqlite3_value **values)
{
    fots_date date, other;
    uint32_t unit;
    if (get_date(context, values[0], &date) && get_date(context, values[1], &other)
        && get_name(context, fots_unit_names(), count, values, 2, FOTS_YEAR, &unit)) {
        const fots_period_result found = fots_date_period_until_by(date, other, unit);
        const fots_period parts = {found.years, found.months, found.weeks, found.days, {0, 0, 0}};
        set_period(context, function->call->name, found.status, parts);
    }
}

/* ---- day counts */

static int get_day_count(const sql_function *function, sqlite3_context *context, int count, sqlite3_value **values, fots_year_fraction_result *found)
{
    fots_date date, other;
    uint32_t convention;
    if (!get_date(context, values[0], &date) || !get_date(context, values[1], &other)
        || !get_name(context, fots_day_count_names(), count, values, 2, FOTS_NO_NUMBER, &convention)) {
        return 0;
    }
    *found = fots_date_day_count(date, other, convention);
    return sql_check(context, function->call->name, found->status);
}

static void day_count(const sql_function *function, sqlite3_context *context, int count, sqlite3_value **values)
{
    fots_year_fraction_result found;
    if (get_day_count(function, context, count, values, &found)) {
        sqlite3_result_double(context, (double)found.numerator / found.denominator);
    }
}

static void day_count_fraction(const sql_function *function, sqlite3_context *context, int count, sqlite3_value **values)
{
    char bytes[40];
    fots_year_fraction_result found;
    if (get_day_count(function, context, count, values, &found)) {
        const int length = snprintf(bytes, sizeof bytes, "%lld/%lu", (long long)found.numerator, (unsigned long)found.denominator);
        set_text(context, bytes, (size_t)length);
    }
}

/* ---- durations, in seconds, and rounding */

static void duration_text(const sql_function *function, sqlite3_context *context, int count, sqlite3_value **values)
{
    fots_duration duration;
    (void)count;
    if (get_seconds(context, values[0], &duration)) {
        const fots_text_result text = fots_duration_text(duration);
        if (sql_check(context, function->call->name, text.status)) {
            set_text(context, text.bytes, text.length);
        }
    }
}

static void parse_duration(const sql_function *function, sqlite3_context *context, int count, sqlite3_value **values)
{
    const sql_text text = sql_text_of(values[0]);
    const fots_parse_duration_result parsed = fots_duration_parse(text.bytes, text.length);
    const fots_duration_result found = {parsed.status, 0, parsed.duration};
    (void)count;
    if (sql_check_text(context, "duration", text, parsed.status, parsed.position)) {
        set_seconds(context, function->call->name, found);
    }
}

static void round_duration(const sql_function *function, sqlite3_context *context, int count, sqlite3_value **values)
{
    fots_duration duration, unit;
    uint32_t mode;
    if (get_seconds(context, values[0], &duration) && get_seconds(context, values[1], &unit)
        && get_name(context, fots_rounding_mode_names(), count, values, 2, FOTS_HALF_CEIL, &mode)) {
        set_seconds(context, function->call->name, fots_duration_round(duration, unit, mode));
    }
}

static void round_local(const sql_function *function, sqlite3_context *context, int count, sqlite3_value **values)
{
    fots_moment local;
    fots_duration unit;
    uint32_t mode;
    if (get_local(context, values[0], &local) && get_seconds(context, values[1], &unit)
        && get_name(context, fots_rounding_mode_names(), count, values, 2, FOTS_HALF_CEIL, &mode)) {
        const fots_pair_result found = fots_pair_round(local.date, local.time, unit, mode);
        set_local(context, function->call->name, found.status, found.date, found.time);
    }
}

const sql_call sql_date_calls[] = {
    {"cal_add_months", 2, 2, date_and_number, fots_date_add_months, NULL, NULL, 0, 0},
    {"cal_add_years", 2, 2, date_and_number, fots_date_add_years, NULL, NULL, 0, 0},
    {"cal_next_weekday", 2, 2, date_and_number, next_weekday, NULL, NULL, 0, 0},
    {"cal_previous_weekday", 2, 2, date_and_number, previous_weekday, NULL, NULL, 0, 0},
    {"cal_weekday_on_or_after", 2, 2, date_and_number, on_or_after, NULL, NULL, 0, 0},
    {"cal_weekday_on_or_before", 2, 2, date_and_number, on_or_before, NULL, NULL, 0, 0},
    {"cal_start_of", 2, 2, unit_of_date, start_of, NULL, NULL, 0, 0},
    {"cal_end_of", 2, 2, unit_of_date, end_of, NULL, NULL, 0, 0},
    {"cal_weekday", 1, 1, component, NULL, fots_date_weekday, NULL, 0, 0},
    {"cal_iso_week", 1, 1, component, NULL, fots_date_iso_week, NULL, 0, 0},
    {"cal_quarter", 1, 1, component, NULL, fots_date_quarter, NULL, 0, 0},
    {"cal_months_between", 2, 2, two_dates, NULL, NULL, fots_date_months_until, 0, 0},
    {"cal_years_between", 2, 2, two_dates, NULL, NULL, fots_date_years_until, 0, 0},
    {"cal_add_period", 2, 2, add_period, NULL, NULL, NULL, 0, 0},
    {"cal_nth_weekday", 4, 4, nth_weekday, NULL, NULL, NULL, 0, 0},
    {"cal_from_iso_week", 3, 3, from_iso_week, NULL, NULL, NULL, 0, 0},
    {"cal_easter", 1, 1, easter, NULL, NULL, NULL, 0, 0},
    {"cal_julian_easter", 1, 1, easter, NULL, NULL, NULL, 1, 0},
    {"cal_iso_year", 1, 1, iso_year, NULL, NULL, NULL, 0, 0},
    {"cal_week_text", 1, 1, week_text, NULL, NULL, NULL, 0, 0},
    {"cal_age", 2, 3, age, NULL, NULL, NULL, 0, 0},
    {"cal_period", 2, 3, period, NULL, NULL, NULL, 0, 0},
    {"cal_day_count", 3, 3, day_count, NULL, NULL, NULL, 0, 0},
    {"cal_day_count_fraction", 3, 3, day_count_fraction, NULL, NULL, NULL, 0, 0},
    {"cal_duration_text", 1, 1, duration_text, NULL, NULL, NULL, 0, 0},
    {"cal_parse_duration", 1, 1, parse_duration, NULL, NULL, NULL, 0, 0},
    {"cal_round_duration", 2, 3, round_duration, NULL, NULL, NULL, 0, 0},
    {"cal_round_local", 2, 3, round_local, NULL, NULL, NULL, 0, 0},
    SQL_NO_CALL,
};
