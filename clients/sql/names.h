/* The names that the functions of both databases take, and what a status of the library means there. */
#ifndef FOTSEVINDRE_SQL_NAMES_H
#define FOTSEVINDRE_SQL_NAMES_H

#include <stdint.h>
#include <stdio.h>
#include <string.h>

#include "fotsevindre_names.h"

/* When someone born on 29 February has a birthday in a common year. */
enum sql_leap_birthday { SQL_MARCH = 0, SQL_FEBRUARY = 1 };
static const fots_names sql_leap_birthdays = {"leap birthday", "march or february", SQL_MARCH, 2, {"march", "february", 0, 0, 0}};

/* Returns 1 if a status names a component that is out of range. */
static inline int sql_is_component(int32_t status)
{
    return (status >= FOTS_YEAR_OUT_OF_RANGE && status <= FOTS_TIMESTAMP_OUT_OF_RANGE) || status == FOTS_MONTH_OUT_OF_RANGE
        || fots_status_is_conditional(status) || (status >= FOTS_YEARS_OUT_OF_RANGE && status <= FOTS_MINUTES_OUT_OF_RANGE);
}

/* A kind of error: a string without the form, a value out of range, or another invalid argument. */
enum sql_error { SQL_INVALID_TEXT, SQL_OUT_OF_RANGE, SQL_INVALID_ARGUMENT };

static inline enum sql_error sql_error_of(int32_t status)
{
    switch (status) {
    case FOTS_UNEXPECTED_BYTE:
    case FOTS_UNEXPECTED_END:
    case FOTS_CONTRADICTION:
        return SQL_INVALID_TEXT;
    case FOTS_RESULT_OUT_OF_RANGE:
    case FOTS_INVALID_DATE:
    case FOTS_INVALID_MOMENT:
    case FOTS_SKIPPED_TIME:
    case FOTS_REPEATED_TIME:
        return SQL_OUT_OF_RANGE;
    default:
        return sql_is_component(status) ? SQL_OUT_OF_RANGE : SQL_INVALID_ARGUMENT;
    }
}

#define SQL_REASON_BYTES sizeof(((fots_sentence *)0)->bytes)

/* Writes why a string isn't valid, by a format or NULL, such as "day 29 is out of range 1 to 28 (February
 * 2023)". `character` is the one at the position, counted from 1, or 0 if the error has no position. */
static inline void sql_reason(char bytes[SQL_REASON_BYTES], int32_t status, size_t position, size_t character, const char *text, size_t length,
    const fots_format *format)
{
    if (status == FOTS_CONTRADICTION || character == 0) {
        const size_t place = status == FOTS_CONTRADICTION ? position : SIZE_MAX;
        const fots_sentence sentence = format ? fots_format_error_text(status, place, text, length, format, FOTS_NO_PIVOT)
                                              : fots_parse_error_text(status, place, text, length);
        memcpy(bytes, sentence.bytes, sizeof sentence.bytes);
    } else {
        snprintf(bytes, SQL_REASON_BYTES, "%s at character %llu", fots_status_name(status), (unsigned long long)character);
    }
}

/* Returns the age at a date, in whole years. A birthday of 29 February is 1 March or 28 February in a
 * common year. */
static inline fots_number_result sql_age(fots_date born, fots_date on, uint32_t leap_birthday)
{
    fots_number_result years = fots_date_years_until(born, on);
    if (years.status == FOTS_OK && years.number > 0 && leap_birthday == SQL_MARCH
        && fots_date_add_years(born, years.number).date.julian_day == on.julian_day
        && fots_date_day(born).number != fots_date_day(on).number) {
        years.number -= 1;
    }
    return years;
}

/* Returns the n-th weekday of a month, or the last one for -1. */
static inline fots_date_result sql_nth_weekday(int32_t year, int32_t month, int32_t weekday, int32_t n)
{
    return n == -1 ? fots_date_last_weekday_of_month(year, (uint32_t)month, (uint32_t)weekday)
                   : fots_date_nth_weekday_of_month(year, (uint32_t)month, (uint32_t)weekday, (uint32_t)n);
}

/* Return the first and the last day of a unit. */
static inline fots_date_result sql_start_of(fots_date date, uint32_t unit)
{
    switch (unit) {
    case FOTS_WEEK: return fots_date_first_of_iso_week(date);
    case FOTS_MONTH: return fots_date_first_of_month(date);
    case FOTS_QUARTER: return fots_date_first_of_quarter(date);
    case FOTS_YEAR: return fots_date_first_of_year(date);
    default: return fots_date_add_days(date, 0);
    }
}

static inline fots_date_result sql_end_of(fots_date date, uint32_t unit)
{
    switch (unit) {
    case FOTS_WEEK: return fots_date_last_of_iso_week(date);
    case FOTS_MONTH: return fots_date_last_of_month(date);
    case FOTS_QUARTER: return fots_date_last_of_quarter(date);
    case FOTS_YEAR: return fots_date_last_of_year(date);
    default: return fots_date_add_days(date, 0);
    }
}

#endif
