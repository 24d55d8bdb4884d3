/* Functions that the compiler can inline, for C and C++, for some functions of fotsevindre.h that cost
 * little. Each has the name of its call with `_inline`, and the same parameters, results and
 * statuses, also for invalid arguments. They are tested beside the library on every day of the
 * range, but not proved. Use them in a loop in which such a function takes most of the time, and the functions
 * elsewhere. */
#ifndef FOTSEVINDRE_INLINE_H
#define FOTSEVINDRE_INLINE_H

#include "fotsevindre.h"

#ifdef __cplusplus
#define FOTS_INLINE_CAST(type, number) static_cast<type>(number)
#else
#define FOTS_INLINE_CAST(type, number) ((type)(number))
#endif

/* The number of the last day. Day 0 is -999999-01-01, a Monday. */
#define FOTS_INLINE_LAST_DAY UINT32_C(730484633)

/* ---- days by their numbers: for this header only */

/* Years that end with their leap day, if they have one, and the days after them. */
typedef struct fots_inline_years {
    uint32_t years;
    uint32_t days;
} fots_inline_years;

/* Returns the number of a date, which is above the last day if the date is invalid. */
static inline uint32_t fots_inline_day_number(fots_date date)
{
    return FOTS_INLINE_CAST(uint32_t, date.julian_day) - FOTS_INLINE_CAST(uint32_t, FOTS_MIN_JULIAN_DAY);
}

/* Splits days into years. The first year is one after a year that 400 divides. */
static inline fots_inline_years fots_inline_split(uint32_t days)
{
    fots_inline_years split;
    uint32_t centuries = (4 * days + 3) / 146097;
    /* With the leap days that the centuries lack, every fourth year has one. */
    uint32_t julian = days + centuries - centuries / 4;
    split.years = (4 * julian + 3) / 1461;
    split.days = julian - 1461 * split.years / 4;
    return split;
}

/* Returns the days since Monday, from 0 to 6. */
static inline uint32_t fots_inline_days_since_monday(uint32_t number)
{
    /* `part` is the fraction of a week that has passed, times 2^32, so 7/8 of it over 2^29 is the
     * days. */
    uint32_t part = number * UINT32_C(613566757);
    return (part - part / 8) >> 29;
}

/* Returns the days of a month of a year, which is counted from -1000000. */
static inline uint32_t fots_inline_month_length(uint32_t years, uint32_t month)
{
    uint32_t is_leap = (years & (years % 25 == 0 ? 15 : 3)) == 0;
    return month == 2 ? 28 + is_leap : 30 + (month + month / 8) % 2;
}

/* ---- create dates */

static inline fots_date_result fots_date_from_calendar_date_inline(int32_t year, uint32_t month, uint32_t day)
{
    fots_date_result result = {FOTS_OK, {FOTS_NO_VALUE}};
    uint32_t years = FOTS_INLINE_CAST(uint32_t, year) + UINT32_C(1000000);
    if (month - 1 > 11) {
        result.status = FOTS_MONTH_OUT_OF_RANGE;
    } else if (years - 1 > UINT32_C(1999998)) {
        result.status = FOTS_YEAR_OUT_OF_RANGE;
    } else if (day - 1 >= fots_inline_month_length(years, month)) {
        result.status = FOTS_DAY_OUT_OF_RANGE;
    } else {
        /* Years begin on 1 March here, and January and February are months 13 and 14. */
        uint32_t is_early = month <= 2;
        uint32_t march_years = years - is_early, centuries = march_years / 100;
        uint32_t march_month = month + 12 * is_early;
        uint32_t days = 1461 * march_years / 4 - centuries + centuries / 4 + (979 * march_month - 2919) / 32 + day;
        /* 306 days are from 1 March -1000000 to day 0. */
        result.date.julian_day = FOTS_INLINE_CAST(int32_t, days) + (FOTS_MIN_JULIAN_DAY - 307);
    }
    return result;
}

/* ---- components of a date */

static inline fots_calendar_date_result fots_date_to_calendar_date_inline(fots_date date)
{
    fots_calendar_date_result result = {FOTS_INVALID_DATE, FOTS_NO_VALUE, 0, 0};
    uint32_t number = fots_inline_day_number(date);
    if (number <= FOTS_INLINE_LAST_DAY) {
        /* Years begin on 1 March here. `months` is the month, from 3 to 14, times 2^16. */
        fots_inline_years march = fots_inline_split(number + 306);
        uint32_t months = 2141 * march.days + 197913;
        uint32_t is_late = march.days >= 306;
        result.status = FOTS_OK;
        result.year = FOTS_INLINE_CAST(int32_t, march.years + is_late) + (FOTS_MIN_YEAR - 1);
        result.month = months / 65536 - 12 * is_late;
        result.day = months % 65536 / 2141 + 1;
    }
    return result;
}

static inline fots_iso_week_date_result fots_date_to_iso_week_date_inline(fots_date date)
{
    fots_iso_week_date_result result = {FOTS_INVALID_DATE, FOTS_NO_VALUE, 0, 0};
    uint32_t number = fots_inline_day_number(date);
    if (number <= FOTS_INLINE_LAST_DAY) {
        /* A week is in the year of its Thursday. */
        uint32_t weekday = fots_inline_days_since_monday(number);
        fots_inline_years thursday = fots_inline_split(number - weekday + 3);
        result.status = FOTS_OK;
        result.year = FOTS_INLINE_CAST(int32_t, thursday.years) + FOTS_MIN_YEAR;
        result.week = thursday.days / 7 + 1;
        result.weekday = weekday + 1;
    }
    return result;
}

static inline fots_number_result fots_date_year_inline(fots_date date)
{
    fots_number_result result = {FOTS_INVALID_DATE, FOTS_NO_VALUE};
    uint32_t number = fots_inline_day_number(date);
    if (number <= FOTS_INLINE_LAST_DAY) {
        result.status = FOTS_OK;
        result.number = FOTS_INLINE_CAST(int32_t, fots_inline_split(number).years) + FOTS_MIN_YEAR;
    }
    return result;
}

static inline fots_component_result fots_date_month_inline(fots_date date)
{
    fots_calendar_date_result calendar = fots_date_to_calendar_date_inline(date);
    fots_component_result result = {calendar.status, calendar.status == FOTS_OK ? calendar.month : FOTS_NO_COMPONENT};
    return result;
}

static inline fots_component_result fots_date_day_inline(fots_date date)
{
    fots_calendar_date_result calendar = fots_date_to_calendar_date_inline(date);
    fots_component_result result = {calendar.status, calendar.status == FOTS_OK ? calendar.day : FOTS_NO_COMPONENT};
    return result;
}

static inline fots_component_result fots_date_weekday_inline(fots_date date)
{
    fots_component_result result = {FOTS_INVALID_DATE, FOTS_NO_COMPONENT};
    uint32_t number = fots_inline_day_number(date);
    if (number <= FOTS_INLINE_LAST_DAY) {
        result.status = FOTS_OK;
        result.number = fots_inline_days_since_monday(number) + 1;
    }
    return result;
}

/* ---- move dates */

static inline fots_date_result fots_date_add_days_inline(fots_date date, int64_t days)
{
    fots_date_result result = {FOTS_INVALID_DATE, {FOTS_NO_VALUE}};
    uint32_t number = fots_inline_day_number(date);
    if (number <= FOTS_INLINE_LAST_DAY) {
        /* A negative sum, or one above INT64_MAX, wraps to a number above the last day. */
        uint64_t later = FOTS_INLINE_CAST(uint64_t, days) + number;
        result.status = FOTS_RESULT_OUT_OF_RANGE;
        if (later <= FOTS_INLINE_LAST_DAY) {
            result.status = FOTS_OK;
            result.date.julian_day = FOTS_INLINE_CAST(int32_t, later) + FOTS_MIN_JULIAN_DAY;
        }
    }
    return result;
}

static inline fots_date_result fots_date_next_day_inline(fots_date date)
{
    fots_date_result result = {FOTS_INVALID_DATE, {FOTS_NO_VALUE}};
    uint32_t number = fots_inline_day_number(date);
    if (number < FOTS_INLINE_LAST_DAY) {
        result.status = FOTS_OK;
        result.date.julian_day = date.julian_day + 1;
    } else if (number == FOTS_INLINE_LAST_DAY) {
        result.status = FOTS_RESULT_OUT_OF_RANGE;
    }
    return result;
}

static inline fots_date_result fots_date_previous_day_inline(fots_date date)
{
    fots_date_result result = {FOTS_INVALID_DATE, {FOTS_NO_VALUE}};
    uint32_t number = fots_inline_day_number(date);
    if (number - 1 < FOTS_INLINE_LAST_DAY) {
        result.status = FOTS_OK;
        result.date.julian_day = date.julian_day - 1;
    } else if (number == 0) {
        result.status = FOTS_RESULT_OUT_OF_RANGE;
    }
    return result;
}

#undef FOTS_INLINE_CAST
#undef FOTS_INLINE_LAST_DAY

#endif
