/* Checks worked rows of dates, durations, times, offsets and texts. */
#include <string.h>

#include "fotsevindre.h"
#include "testing.h"

#define COUNT(rows) ((int)(sizeof(rows) / sizeof(rows)[0]))
#define DAY 86400LL

static const fots_duration zero = {0, 0, 0};
static const fots_duration min_duration = {INT64_MIN, -999999999, 0};
static const fots_duration max_duration = {INT64_MAX, 999999999, 0};

static fots_duration seconds(int64_t seconds)
{
    fots_duration duration = {0, 0, 0};
    duration.seconds = seconds;
    return duration;
}

static fots_duration nanoseconds(int32_t nanoseconds)
{
    fots_duration duration = {0, 0, 0};
    duration.nanoseconds = nanoseconds;
    return duration;
}

static fots_duration both(int64_t seconds, int32_t nanoseconds)
{
    fots_duration duration = {0, 0, 0};
    duration.seconds = seconds;
    duration.nanoseconds = nanoseconds;
    return duration;
}

static fots_date date_of(int32_t year, uint32_t month, uint32_t day)
{
    fots_date_result result = fots_date_from_calendar_date(year, month, day);
    check(result.status == FOTS_OK, "a day of a row", year, month * 100 + day);
    return result.date;
}

static void is_date(fots_date_result result, fots_date date, const char *what)
{
    check(result.status == FOTS_OK && result.date.julian_day == date.julian_day, what, result.status, result.date.julian_day);
}

static void is_no_date(fots_date_result result, int32_t status, const char *what)
{
    check(result.status == status && result.date.julian_day == FOTS_NO_VALUE, what, result.status, result.date.julian_day);
}

static void is_duration(fots_duration_result result, fots_duration duration, const char *what)
{
    check(result.status == FOTS_OK && result.duration.seconds == duration.seconds
        && result.duration.nanoseconds == duration.nanoseconds, what, result.duration.seconds, result.duration.nanoseconds);
}

static void is_no_duration(fots_duration_result result, int32_t status, const char *what)
{
    check(result.status == status && result.duration.seconds == INT64_MIN && result.duration.nanoseconds == FOTS_NO_VALUE, what,
        result.status, result.duration.seconds);
}

static void is_time(fots_time_result result, fots_time time, const char *what)
{
    check(result.status == FOTS_OK && result.time == time, what, result.status, (long long)result.time);
}

static void is_number(fots_number_result result, int32_t number, const char *what)
{
    check(result.status == FOTS_OK && result.number == number, what, result.status, result.number);
}

static void is_component(fots_component_result result, uint32_t number, const char *what)
{
    check(result.status == FOTS_OK && result.number == number, what, result.status, result.number);
}

static void is_text(fots_text_result result, const char *text, const char *what)
{
    size_t length = strlen(text);
    int rest_is_zero = 1;
    for (size_t k = length; k < sizeof(result.bytes); k++) {
        rest_is_zero &= result.bytes[k] == 0;
    }
    check(result.status == FOTS_OK && result.length == length && memcmp(result.bytes, text, length) == 0 && rest_is_zero, what,
        result.status, result.length);
}

static void is_no_text(fots_text_result result, int32_t status, const char *what)
{
    static const char none[sizeof(result.bytes)];
    check(result.status == status && result.length == 0 && memcmp(result.bytes, none, sizeof(none)) == 0, what, result.status,
        result.length);
}

static void is_parsed(fots_parse_date_result result, fots_date date, const char *what)
{
    check(result.status == FOTS_OK && result.date.julian_day == date.julian_day && result.position == SIZE_MAX, what, result.status,
        result.date.julian_day);
}

/* Checks an error, with the position of FOTS_UNEXPECTED_BYTE and FOTS_UNEXPECTED_END. */
static void is_parse_error(fots_parse_date_result result, int32_t status, size_t position, const char *what)
{
    check(result.status == status && result.date.julian_day == FOTS_NO_VALUE && result.position == position, what, result.status,
        (long long)result.position);
}

static void is_moment(fots_parse_moment_result result, fots_date date, fots_time time, fots_offset offset, const char *what)
{
    check(result.status == FOTS_OK && result.date.julian_day == date.julian_day && result.time == time
        && result.offset.seconds == offset.seconds && result.position == SIZE_MAX, what, result.status, result.date.julian_day);
}

static void is_no_moment(fots_parse_moment_result result, int32_t status, size_t position, const char *what)
{
    check(result.status == status && result.date.julian_day == FOTS_NO_VALUE && result.time == FOTS_NO_TIME
        && result.offset.seconds == FOTS_NO_VALUE && result.position == position, what, result.status, (long long)result.position);
}

static fots_time time_of(uint32_t hour, uint32_t minute, uint32_t second, uint32_t nanosecond)
{
    return ((hour * 60ULL + minute) * 60ULL + second) * 1000000000ULL + nanosecond;
}

/* Days with all their parts. */
static void days(void)
{
    static const struct {
        int32_t julian_day, year;
        uint32_t month, day, ordinal;
        int32_t iso_year;
        uint32_t week, weekday;
    } rows[] = {
        {0, -4713, 11, 24, 328, -4713, 48, 1},
        {-363521074, -999999, 1, 1, 1, -999999, 1, 1},
        {366963559, 999999, 12, 31, 365, 999999, 52, 5},
        {-1930999, -9999, 1, 1, 1, -9999, 1, 1},
        {5373484, 9999, 12, 31, 365, 9999, 52, 5},
        {5373485, 10000, 1, 1, 1, 9999, 52, 6},
        {1721060, 0, 1, 1, 1, -1, 52, 6},
        {2451545, 2000, 1, 1, 1, 1999, 52, 6},
        {2451546, 2000, 1, 2, 2, 1999, 52, 7},
        {2451604, 2000, 2, 29, 60, 2000, 9, 2},
        {2415080, 1900, 3, 1, 60, 1900, 9, 4},
        {2459215, 2020, 12, 31, 366, 2020, 53, 4},
        {2459216, 2021, 1, 1, 1, 2020, 53, 5},
        {2458848, 2019, 12, 30, 364, 2020, 1, 1},
        {2458485, 2019, 1, 1, 1, 2019, 1, 2},
        {2458849, 2019, 12, 31, 365, 2020, 1, 2},
        {2460370, 2024, 2, 29, 60, 2024, 9, 4},
    };
    for (int k = 0; k < COUNT(rows); k++) {
        int32_t julian_day = rows[k].julian_day;
        fots_date date = date_at(julian_day);
        fots_calendar_date_result calendar = fots_date_to_calendar_date(date);
        fots_ordinal_date_result ordinal = fots_date_to_ordinal_date(date);
        fots_iso_week_date_result week = fots_date_to_iso_week_date(date);
        check(calendar.status == FOTS_OK && calendar.year == rows[k].year && calendar.month == rows[k].month
            && calendar.day == rows[k].day, "the calendar date of a row", julian_day, calendar.year);
        check(ordinal.status == FOTS_OK && ordinal.year == rows[k].year && ordinal.ordinal == rows[k].ordinal,
            "the ordinal date of a row", julian_day, ordinal.ordinal);
        check(week.status == FOTS_OK && week.year == rows[k].iso_year && week.week == rows[k].week
            && week.weekday == rows[k].weekday, "the week date of a row", julian_day, week.week);
        is_date(fots_date_from_calendar_date(rows[k].year, rows[k].month, rows[k].day), date, "a row by calendar date");
        is_date(fots_date_from_ordinal_date(rows[k].year, rows[k].ordinal), date, "a row by ordinal date");
        is_date(fots_date_from_iso_week_date(rows[k].iso_year, rows[k].week, rows[k].weekday), date, "a row by week date");
        is_date(fots_date_from_julian_day(julian_day), date, "a row by Julian day");
        is_number(fots_date_year(date), rows[k].year, "the year of a row");
        is_component(fots_date_month(date), rows[k].month, "the month of a row");
        is_component(fots_date_day(date), rows[k].day, "the day of a row");
        is_component(fots_date_ordinal(date), rows[k].ordinal, "the ordinal of a row");
        is_component(fots_date_iso_week(date), rows[k].week, "the week of a row");
        is_component(fots_date_weekday(date), rows[k].weekday, "the weekday of a row");
    }
    is_component(fots_date_sunday_based_week(date_of(2019, 1, 1)), 0, "Sundays");
    is_component(fots_date_monday_based_week(date_of(2019, 1, 1)), 0, "Mondays");
    is_component(fots_date_sunday_based_week(date_of(2020, 12, 31)), 52, "Sundays");
    is_component(fots_date_monday_based_week(date_of(2020, 12, 31)), 52, "Mondays");
}

/* Errors with their names. */
static void errors(void)
{
    is_no_date(fots_date_from_julian_day(-363521075), FOTS_JULIAN_DAY_OUT_OF_RANGE, "before the first day");
    is_no_date(fots_date_from_julian_day(366963560), FOTS_JULIAN_DAY_OUT_OF_RANGE, "after the last day");
    is_no_date(fots_date_from_julian_day(4294967296 + 2451545), FOTS_JULIAN_DAY_OUT_OF_RANGE, "a Julian day of 33 bits");
    is_no_date(fots_date_from_calendar_date(1900, 2, 29), FOTS_DAY_OUT_OF_RANGE, "1900-02-29");
    is_no_date(fots_date_from_calendar_date(2000, 2, 0), FOTS_DAY_OUT_OF_RANGE, "2000-02-00");
    is_no_date(fots_date_from_calendar_date(2000, 1, 257), FOTS_DAY_OUT_OF_RANGE, "2000-01-257");
    is_no_date(fots_date_from_calendar_date(1000000, 13, 1), FOTS_MONTH_OUT_OF_RANGE, "month 13 of 1000000");
    is_no_date(fots_date_from_calendar_date(2000, 258, 1), FOTS_MONTH_OUT_OF_RANGE, "month 258");
    is_no_date(fots_date_from_calendar_date(1000000, 1, 32), FOTS_YEAR_OUT_OF_RANGE, "1000000-01-32");
    is_no_date(fots_date_from_ordinal_date(1900, 366), FOTS_ORDINAL_OUT_OF_RANGE, "1900-366");
    is_no_date(fots_date_from_ordinal_date(2000, 65537), FOTS_ORDINAL_OUT_OF_RANGE, "2000-65537");
    is_no_date(fots_date_from_ordinal_date(10000000, 1), FOTS_YEAR_OUT_OF_RANGE, "10000000-001");
    is_no_date(fots_date_from_iso_week_date(999999, 52, 6), FOTS_WEEKDAY_OUT_OF_RANGE, "999999-W52-6");
    is_no_date(fots_date_from_iso_week_date(999999, 52, 7), FOTS_WEEKDAY_OUT_OF_RANGE, "999999-W52-7");
    is_no_date(fots_date_from_iso_week_date(999999, 53, 1), FOTS_WEEK_OUT_OF_RANGE, "999999-W53-1");
    is_no_date(fots_date_from_iso_week_date(1000000, 53, 1), FOTS_YEAR_OUT_OF_RANGE, "1000000-W53-1");
    is_no_date(fots_date_from_iso_week_date(2019, 53, 1), FOTS_WEEK_OUT_OF_RANGE, "2019-W53-1");
    is_no_date(fots_date_from_iso_week_date(2020, 257, 1), FOTS_WEEK_OUT_OF_RANGE, "2020-W257-1");
    is_no_date(fots_date_from_iso_week_date(1000000, 0, 0), FOTS_INVALID_WEEKDAY, "1000000-W00-0");
    is_no_date(fots_date_replace_year(date_of(2024, 2, 29), 2023), FOTS_DAY_OUT_OF_RANGE, "29 February of 2023");
    is_no_date(fots_date_replace_year(date_of(2024, 2, 29), 1000000), FOTS_YEAR_OUT_OF_RANGE, "29 February of 1000000");
    is_no_date(fots_date_replace_month(date_of(2022, 1, 30), 2), FOTS_DAY_OUT_OF_RANGE, "30 February");
    is_no_date(fots_date_replace_month(date_of(2022, 1, 30), 0), FOTS_MONTH_OUT_OF_RANGE, "month 0");
    is_no_date(fots_date_replace_day(date_of(2022, 2, 18), 30), FOTS_DAY_OUT_OF_RANGE, "30 February");
    is_no_date(fots_date_replace_day(date_of(2022, 2, 18), 0), FOTS_DAY_OUT_OF_RANGE, "0 February");
    is_no_date(fots_date_replace_ordinal(date_of(2022, 2, 18), 366), FOTS_ORDINAL_OUT_OF_RANGE, "ordinal 366 of 2022");
    is_date(fots_date_replace_year(date_of(2024, 2, 29), 10000), date_of(10000, 2, 29), "29 February of 10000");
    is_date(fots_date_replace_year(date_of(2024, 3, 1), 2023), date_of(2023, 3, 1), "1 March of 2023");
    is_date(fots_date_replace_year(date_of(2023, 3, 1), 2024), date_of(2024, 3, 1), "1 March of 2024");
    is_date(fots_date_replace_year(date_of(2022, 2, 18), 2019), date_of(2019, 2, 18), "18 February of 2019");
    is_date(fots_date_replace_month(date_of(2022, 2, 18), 3), date_of(2022, 3, 18), "18 March");
    is_date(fots_date_replace_day(date_of(2022, 2, 18), 1), date_of(2022, 2, 1), "1 February");
    is_date(fots_date_replace_ordinal(date_of(2022, 2, 18), 1), date_of(2022, 1, 1), "1 January");
}

/* Moved days. */
static void arithmetic(void)
{
    fots_date first = date_at(FOTS_MIN_JULIAN_DAY), last = date_at(FOTS_MAX_JULIAN_DAY);
    is_date(fots_date_checked_add(first, seconds(-23 * 3600)), first, "23 hours before the first day");
    is_no_date(fots_date_checked_add(first, seconds(-DAY)), FOTS_RESULT_OUT_OF_RANGE, "a day before the first day");
    is_date(fots_date_checked_sub(first, seconds(23 * 3600)), first, "23 hours before the first day");
    is_date(fots_date_checked_add(last, seconds(23 * 3600)), last, "23 hours after the last day");
    is_no_date(fots_date_checked_add(last, seconds(DAY)), FOTS_RESULT_OUT_OF_RANGE, "a day after the last day");
    is_date(fots_date_saturating_add(last, seconds(DAY)), last, "clamped to the last day");
    is_date(fots_date_saturating_sub(first, seconds(DAY)), first, "clamped to the first day");
    is_date(fots_date_saturating_sub(first, min_duration), last, "clamped to the last day");
    is_date(fots_date_saturating_add(last, min_duration), first, "clamped to the first day");
    is_date(fots_date_checked_add(date_of(2020, 12, 31), seconds(47 * 3600)), date_of(2021, 1, 1), "47 hours after");
    is_date(fots_date_checked_sub(date_of(2020, 12, 31), seconds(47 * 3600)), date_of(2020, 12, 30), "47 hours before");
    is_date(fots_date_next_day(date_of(2019, 12, 31)), date_of(2020, 1, 1), "the day after");
    is_date(fots_date_previous_day(date_of(2020, 1, 1)), date_of(2019, 12, 31), "the day before");
    is_date(fots_date_next_day(date_of(9999, 12, 31)), date_of(10000, 1, 1), "the day after");
    is_no_date(fots_date_next_day(last), FOTS_RESULT_OUT_OF_RANGE, "after the last day");
    is_no_date(fots_date_previous_day(first), FOTS_RESULT_OUT_OF_RANGE, "before the first day");
    is_date(fots_date_add_days(first, 730484633), last, "the last day from the first");
    is_date(fots_date_add_days(last, -730484633), first, "the first day from the last");
    is_no_date(fots_date_add_days(last, INT64_MAX), FOTS_RESULT_OUT_OF_RANGE, "days past an i64");
    is_no_date(fots_date_add_days(first, INT64_MIN), FOTS_RESULT_OUT_OF_RANGE, "days past an i64");
    is_duration(fots_date_duration_since(date_of(2020, 1, 1), date_of(2019, 12, 31)), seconds(DAY), "a day between");
    is_duration(fots_date_duration_since(first, last), seconds(-730484633 * DAY), "the whole range");
    is_date(fots_date_next_occurrence(date_of(2023, 6, 28), 1), date_of(2023, 7, 3), "the next Monday");
    is_date(fots_date_prev_occurrence(date_of(2023, 6, 19), 1), date_of(2023, 6, 12), "the Monday before");
    is_date(fots_date_nth_next_occurrence(date_of(2023, 6, 25), 1, 5), date_of(2023, 7, 24), "the fifth Monday after");
    is_date(fots_date_nth_next_occurrence(date_of(2023, 6, 26), 1, 5), date_of(2023, 7, 31), "the fifth Monday after a Monday");
    is_date(fots_date_nth_prev_occurrence(date_of(2023, 6, 27), 1, 3), date_of(2023, 6, 12), "the third Monday before");
    is_date(fots_date_nth_prev_occurrence(date_of(2023, 6, 26), 1, 3), date_of(2023, 6, 5), "the third Monday before a Monday");
    is_no_date(fots_date_nth_next_occurrence(date_of(2023, 6, 26), 1, 0), FOTS_RESULT_OUT_OF_RANGE, "the Monday of count 0");
    is_no_date(fots_date_nth_next_occurrence(date_of(2023, 6, 26), 1, 257), FOTS_INVALID_COUNT, "count 257");
    for (uint32_t weekday = 1; weekday <= 7; weekday++) {
        is_no_date(fots_date_next_occurrence(last, weekday), FOTS_RESULT_OUT_OF_RANGE, "a weekday after the last day");
        is_no_date(fots_date_prev_occurrence(first, weekday), FOTS_RESULT_OUT_OF_RANGE, "a weekday before the first day");
    }
}

/* Durations. */
static void durations(void)
{
    fots_duration long_one = both(-3074457345618258602, -999999999);
    fots_int64_result whole;
    is_duration(fots_duration_new(1, 2000000000), seconds(3), "1 s and 2000000000 ns");
    is_duration(fots_duration_new(-1, 1), nanoseconds(-999999999), "-1 s and 1 ns");
    is_no_duration(fots_duration_new(INT64_MAX, 1000000000), FOTS_RESULT_OUT_OF_RANGE, "past the maximum");
    is_duration(fots_duration_new(INT64_MIN, 1), both(INT64_MIN + 1, -999999999), "the minimum and 1 ns");
    is_duration(fots_duration_saturating_sub(zero, min_duration), max_duration, "zero less the minimum");
    is_duration(fots_duration_checked_sub(nanoseconds(-1), seconds(INT64_MIN)), max_duration, "-1 ns less the minimum seconds");
    is_no_duration(fots_duration_checked_sub(min_duration, nanoseconds(1)), FOTS_RESULT_OUT_OF_RANGE, "the minimum less 1 ns");
    is_duration(fots_duration_checked_add(max_duration, min_duration), seconds(-1), "the maximum and the minimum");
    is_no_duration(fots_duration_checked_add(max_duration, nanoseconds(1)), FOTS_RESULT_OUT_OF_RANGE, "the maximum and 1 ns");
    is_duration(fots_duration_saturating_add(max_duration, nanoseconds(1)), max_duration, "clamped to the maximum");
    is_duration(fots_duration_saturating_mul(long_one, -3), max_duration, "a product clamped to the maximum");
    is_no_duration(fots_duration_checked_mul(long_one, -3), FOTS_RESULT_OUT_OF_RANGE, "a product past the maximum");
    is_duration(fots_duration_saturating_mul(min_duration, -2), max_duration, "the minimum times -2");
    is_duration(fots_duration_saturating_mul(max_duration, -2), min_duration, "the maximum times -2");
    is_duration(fots_duration_checked_mul(seconds(1), 200), seconds(200), "200 s");
    is_duration(fots_duration_checked_div(both(-7, -500000000), 2), both(-3, -750000000), "half of -7.5 s");
    is_duration(fots_duration_checked_div(nanoseconds(-1), 2), zero, "half of -1 ns");
    is_no_duration(fots_duration_checked_div(seconds(1), 0), FOTS_RESULT_OUT_OF_RANGE, "a second by 0");
    is_no_duration(fots_duration_checked_div(seconds(INT64_MIN), -1), FOTS_RESULT_OUT_OF_RANGE, "the minimum seconds by -1");
    is_no_duration(fots_duration_checked_neg(min_duration), FOTS_RESULT_OUT_OF_RANGE, "the minimum negated");
    is_duration(fots_duration_checked_neg(seconds(1)), seconds(-1), "a second negated");
    is_duration(fots_duration_abs(min_duration), max_duration, "the magnitude of the minimum");
    is_duration(fots_duration_days(-3), seconds(-259200), "-3 days");
    is_duration(fots_duration_days(106751991167300), seconds(106751991167300 * DAY), "the most days");
    is_no_duration(fots_duration_days(106751991167301), FOTS_RESULT_OUT_OF_RANGE, "one day more");
    is_duration(fots_duration_weeks(-15250284452471), seconds(-15250284452471 * 7 * DAY), "the minimum weeks");
    is_no_duration(fots_duration_weeks(-15250284452472), FOTS_RESULT_OUT_OF_RANGE, "one week less");
    is_no_duration(fots_duration_hours(2562047788015216), FOTS_RESULT_OUT_OF_RANGE, "too many hours");
    is_no_duration(fots_duration_minutes(-153722867280912931), FOTS_RESULT_OUT_OF_RANGE, "too few minutes");
    is_duration(fots_duration_milliseconds(-1500), both(-1, -500000000), "-1500 ms");
    is_duration(fots_duration_microseconds(1500000), both(1, 500000000), "1500000 us");
    is_duration(fots_duration_nanoseconds(-1), nanoseconds(-1), "-1 ns");
    whole = fots_duration_whole_weeks(seconds(-6 * DAY));
    check(whole.status == FOTS_OK && whole.number == 0, "the weeks of -6 days", whole.status, whole.number);
    whole = fots_duration_whole_days(seconds(-47 * 3600));
    check(whole.status == FOTS_OK && whole.number == -1, "the days of -47 hours", whole.status, whole.number);
    whole = fots_duration_whole_milliseconds(both(-1, -500000000));
    check(whole.status == FOTS_OK && whole.number == -1500, "the milliseconds of -1.5 s", whole.status, whole.number);
    whole = fots_duration_whole_nanoseconds(seconds(9223372036));
    check(whole.status == FOTS_OK && whole.number == 9223372036000000000, "the most whole seconds", whole.status, whole.number);
    whole = fots_duration_whole_nanoseconds(seconds(9223372037));
    check(whole.status == FOTS_RESULT_OUT_OF_RANGE && whole.number == INT64_MIN, "one second more", whole.status, whole.number);
    is_number(fots_duration_subsec_milliseconds(both(-1, -500000000)), -500, "-500 ms past the second");
    is_number(fots_duration_subsec_microseconds(both(1, 2500)), 2, "2 us past the second");
    is_number(fots_duration_compare(min_duration, max_duration), -1, "the minimum and the maximum");
    is_number(fots_duration_compare(zero, zero), 0, "zero and zero");
    is_number(fots_duration_compare(nanoseconds(1), nanoseconds(-1)), 1, "1 ns and -1 ns");
}

/* Times of day, and dates with times. */
static void times(void)
{
    fots_time noon = time_of(12, 0, 0, 0), one = time_of(1, 2, 3, 4005006);
    fots_adjusted_time_result adjusted;
    fots_pair_result pair;
    check(fots_time_from_hms_micro(0, 0, 0, 4294968).status == FOTS_MICROSECOND_OUT_OF_RANGE, "4294968 us", 0, 0);
    check(fots_time_from_hms(24, 60, 60).status == FOTS_HOUR_OUT_OF_RANGE, "24:60:60", 0, 0);
    check(fots_time_from_hms(256, 0, 0).status == FOTS_HOUR_OUT_OF_RANGE, "256:00:00", 0, 0);
    check(fots_time_from_hms_milli(0, 0, 0, 1000).status == FOTS_MILLISECOND_OUT_OF_RANGE, "1000 ms", 0, 0);
    check(fots_time_from_hms_milli(0, 0, 0, 65536).status == FOTS_MILLISECOND_OUT_OF_RANGE, "65536 ms", 0, 0);
    check(fots_time_from_hms_nano(23, 59, 59, 1000000000).status == FOTS_NANOSECOND_OUT_OF_RANGE, "1000000000 ns", 0, 0);
    is_time(fots_time_from_hms_nano(23, 59, 59, 999999999), FOTS_MAX_TIME, "the last nanosecond");
    is_time(fots_time_from_hms_nano(1, 2, 3, 4005006), one, "1:02:03.004005006");
    is_duration(fots_time_duration_until(time_of(23, 59, 59, 500000000), 200000000), nanoseconds(700000000), "until 0:00:00.2");
    is_duration(fots_time_duration_until(time_of(23, 0, 0, 0), time_of(1, 0, 0, 0)), seconds(7200), "until 1:00");
    is_duration(fots_time_duration_since(0, time_of(23, 0, 0, 0)), seconds(3600), "since 23:00");
    adjusted = fots_time_adjusting_add(0, min_duration);
    check(adjusted.status == FOTS_OK && adjusted.carry == -1 && adjusted.time == time_of(8, 29, 51, 1),
        "midnight and the minimum duration", adjusted.carry, (long long)adjusted.time);
    adjusted = fots_time_adjusting_sub(0, min_duration);
    check(adjusted.status == FOTS_OK && adjusted.carry == 0 && adjusted.time == time_of(15, 30, 8, 999999999),
        "midnight less the minimum duration", adjusted.carry, (long long)adjusted.time);
    is_time(fots_time_sub(time_of(0, 0, 1, 0), seconds(2)), time_of(23, 59, 59, 0), "two seconds before 0:00:01");
    is_time(fots_time_add(time_of(23, 0, 0, 0), seconds(26 * 3600)), time_of(1, 0, 0, 0), "26 hours after 23:00");
    is_time(fots_time_replace_microsecond(one, 7008), time_of(1, 2, 3, 7008000), "7008 us");
    is_time(fots_time_replace_hour(one, 7), time_of(7, 2, 3, 4005006), "hour 7");
    is_time(fots_time_truncate_to_hour(one), time_of(1, 0, 0, 0), "truncated to the hour");
    is_time(fots_time_truncate_to_minute(one), time_of(1, 2, 0, 0), "truncated to the minute");
    is_time(fots_time_truncate_to_second(one), time_of(1, 2, 3, 0), "truncated to the second");
    is_time(fots_time_truncate_to_millisecond(one), time_of(1, 2, 3, 4000000), "truncated to the millisecond");
    is_time(fots_time_truncate_to_microsecond(one), time_of(1, 2, 3, 4005000), "truncated to the microsecond");
    is_time(fots_time_truncate_to_hour(FOTS_MAX_TIME), time_of(23, 0, 0, 0), "the last hour");
    is_duration(fots_time_difference(0, time_of(23, 0, 0, 0)), seconds(-23 * 3600), "0:00 less 23:00");
    is_duration(fots_time_difference(FOTS_MAX_TIME, 0), both(86399, 999999999), "the last nanosecond less midnight");
    is_duration(fots_time_difference(one, one), zero, "a time less itself");
    is_component(fots_time_millisecond(one), 4, "the millisecond");
    is_component(fots_time_microsecond(one), 4005, "the microsecond");
    is_component(fots_time_nanosecond(one), 4005006, "the nanosecond");
    check(fots_add_to_pair(date_at(FOTS_MAX_JULIAN_DAY), FOTS_MAX_TIME, nanoseconds(1)).status == FOTS_RESULT_OUT_OF_RANGE,
        "past the last moment", 0, 0);
    check(fots_sub_from_pair(date_at(FOTS_MIN_JULIAN_DAY), noon, seconds(13 * 3600)).status == FOTS_RESULT_OUT_OF_RANGE,
        "before the first moment", 0, 0);
    pair = fots_add_to_pair(date_of(2020, 12, 31), time_of(23, 0, 0, 0), seconds(7200));
    check(pair.status == FOTS_OK && pair.date.julian_day == 2459216 && pair.time == time_of(1, 0, 0, 0), "two hours later",
        pair.date.julian_day, (long long)pair.time);
    pair = fots_sub_from_pair(date_of(2021, 1, 1), time_of(1, 0, 0, 0), seconds(7200));
    check(pair.status == FOTS_OK && pair.date.julian_day == 2459215 && pair.time == time_of(23, 0, 0, 0), "two hours earlier",
        pair.date.julian_day, (long long)pair.time);
}

/* Offsets. */
static void offsets(void)
{
    static const struct {
        int32_t hours, minutes, seconds, offset, parts[3];
    } rows[] = {
        {0, -30, 15, -1815, {0, -30, -15}},
        {-25, 59, 59, -93599, {-25, -59, -59}},
        {1, -2, -3, 3723, {1, 2, 3}},
        {-5, 30, 0, -19800, {-5, -30, 0}},
        {0, 0, 0, 0, {0, 0, 0}},
    };
    for (int k = 0; k < COUNT(rows); k++) {
        fots_offset_result made = fots_offset_from_hms(rows[k].hours, rows[k].minutes, rows[k].seconds);
        fots_offset_hms_result parts = fots_offset_as_hms(offset_at(rows[k].offset));
        check(made.status == FOTS_OK && made.offset.seconds == rows[k].offset, "an offset of a row", k, made.offset.seconds);
        check(parts.status == FOTS_OK && parts.hours == rows[k].parts[0] && parts.minutes == rows[k].parts[1]
            && parts.seconds == rows[k].parts[2], "the parts of an offset", k, parts.hours);
    }
    check(fots_offset_from_hms(26, 99, 0).status == FOTS_OFFSET_HOUR_OUT_OF_RANGE, "26 hours", 0, 0);
    check(fots_offset_from_hms(256, 0, 0).status == FOTS_OFFSET_HOUR_OUT_OF_RANGE, "256 hours", 0, 0);
    check(fots_offset_from_hms(0, -60, 0).status == FOTS_OFFSET_MINUTE_OUT_OF_RANGE, "-60 minutes", 0, 0);
    check(fots_offset_from_hms(0, 0, 60).status == FOTS_OFFSET_SECOND_OUT_OF_RANGE, "60 seconds", 0, 0);
    check(fots_offset_from_whole_seconds(93600).status == FOTS_SECONDS_OUT_OF_RANGE, "93600 seconds", 0, 0);
    check(fots_offset_from_whole_seconds(4294967296).status == FOTS_SECONDS_OUT_OF_RANGE, "seconds of 33 bits", 0, 0);
    check(fots_offset_from_whole_seconds(-93599).offset.seconds == -93599, "-93599 seconds", 0, 0);
    check(fots_offset_neg(offset_at(-19800)).offset.seconds == 19800, "the other side", 0, 0);
    is_number(fots_offset_whole_hours(offset_at(-5400)), -1, "the hours of -1:30");
    is_number(fots_offset_whole_minutes(offset_at(-5400)), -90, "the minutes of -1:30");
    is_number(fots_offset_minutes_past_hour(offset_at(-5400)), -30, "the minutes past the hour");
    is_number(fots_offset_seconds_past_minute(offset_at(3723)), 3, "the seconds past the minute");
}

/* Months, weekdays and years. */
static void cycles(void)
{
    is_component(fots_month_length(2, 2000), 29, "February of 2000");
    is_component(fots_month_length(2, 1900), 28, "February of 1900");
    is_component(fots_month_nth_next(7, 9), 4, "nine months after July");
    is_component(fots_month_nth_next(1, 255), 4, "255 months after January");
    is_component(fots_month_nth_prev(7, 9), 10, "nine months before July");
    is_component(fots_month_nth_prev(1, 4), 9, "four months before January");
    is_component(fots_weekday_nth_next(7, 10), 3, "ten days after Sunday");
    is_component(fots_weekday_nth_prev(7, 10), 4, "ten days before Sunday");
    is_component(fots_weekday_number_from_sunday(5), 6, "Friday from Sunday");
    is_component(fots_weekday_number_from_sunday(7), 1, "Sunday from Sunday");
    check(fots_month_nth_next(0, 1).status == FOTS_MONTH_OUT_OF_RANGE && fots_month_nth_next(13, 1).status == FOTS_MONTH_OUT_OF_RANGE, "no month", 0, 0);
    check(fots_is_leap_year(2000) == 1 && fots_is_leap_year(1900) == 0 && fots_is_leap_year(INT32_MIN) == 1, "leap years", 0, 0);
    check(fots_days_in_year(2020) == 366 && fots_days_in_year(2019) == 365, "days of a year", 0, 0);
    check(fots_weeks_in_year(2020) == 53 && fots_weeks_in_year(2019) == 52, "weeks of a year", 0, 0);
}

/* Texts of days, printed and parsed. */
static void texts_of_days(void)
{
    static const struct {
        int32_t julian_day;
        const char *calendar, *ordinal, *week, *julian;
    } rows[] = {
        {2460370, "2024-02-29", "2024-060", "2024-W09-4", "J2460370"},
        {2459216, "2021-01-01", "2021-001", "2020-W53-5", "J2459216"},
        {2458484, "2018-12-31", "2018-365", "2019-W01-1", "J2458484"},
        {1721060, "0000-01-01", "0000-001", "-0001-W52-6", "J1721060"},
        {1721059, "-0001-12-31", "-0001-365", "-0001-W52-5", "J1721059"},
        {5373485, "+10000-01-01", "+10000-001", "9999-W52-6", "J5373485"},
        {-1, "-4713-11-23", "-4713-327", "-4713-W47-7", "J-1"},
        {366963559, "+999999-12-31", "+999999-365", "+999999-W52-5", "J366963559"},
        {-363521074, "-999999-01-01", "-999999-001", "-999999-W01-1", "J-363521074"},
    };
    for (int k = 0; k < COUNT(rows); k++) {
        fots_date date = date_at(rows[k].julian_day);
        is_text(fots_date_calendar_text(date), rows[k].calendar, rows[k].calendar);
        is_text(fots_date_ordinal_text(date), rows[k].ordinal, rows[k].ordinal);
        is_text(fots_date_week_text(date), rows[k].week, rows[k].week);
        is_text(fots_date_julian_text(date), rows[k].julian, rows[k].julian);
        is_parsed(fots_date_parse(rows[k].calendar, strlen(rows[k].calendar)), date, rows[k].calendar);
        is_parsed(fots_date_parse(rows[k].ordinal, strlen(rows[k].ordinal)), date, rows[k].ordinal);
        is_parsed(fots_date_parse(rows[k].week, strlen(rows[k].week)), date, rows[k].week);
        is_parsed(fots_julian_day_parse(rows[k].julian, strlen(rows[k].julian)), date, rows[k].julian);
    }
    is_parsed(fots_date_parse("2024-060-", 8), date_at(2460370), "no byte after the length is looked at");
    is_no_text(fots_date_calendar_text(date_at(FOTS_MAX_JULIAN_DAY + 1)), FOTS_INVALID_DATE, "the text of no date");
}

/* Texts that are not days, with the position or the component. */
static void invalid_texts_of_days(void)
{
    static const struct {
        const char *text;
        int32_t status;
        size_t position;
    } rows[] = {
        {"", FOTS_UNEXPECTED_END, 0}, {"2024x", FOTS_UNEXPECTED_BYTE, 4}, {"2024", FOTS_UNEXPECTED_END, 4}, {"20240229", FOTS_UNEXPECTED_BYTE, 4},
        {"12345-01-01", FOTS_UNEXPECTED_BYTE, 4}, {"+2024-01-01", FOTS_UNEXPECTED_BYTE, 5}, {"+02024-01-01", FOTS_UNEXPECTED_BYTE, 1},
        {"-0000-01-01", FOTS_UNEXPECTED_BYTE, 4}, {"-12345678901-001", FOTS_UNEXPECTED_BYTE, 10}, {"2024-60", FOTS_UNEXPECTED_END, 7},
        {"2024-02-2", FOTS_UNEXPECTED_END, 9}, {"2024-02-29 ", FOTS_UNEXPECTED_BYTE, 10}, {"2024-w09-4", FOTS_UNEXPECTED_BYTE, 5},
        {"2024-W09-0", FOTS_UNEXPECTED_BYTE, 9}, {"2024-W09-8", FOTS_UNEXPECTED_BYTE, 9}, {"2024-02-29T", FOTS_UNEXPECTED_BYTE, 10},
        {"2024-13-01", FOTS_MONTH_OUT_OF_RANGE, SIZE_MAX}, {"+1000000-13-01", FOTS_MONTH_OUT_OF_RANGE, SIZE_MAX}, {"+1000000-001", FOTS_YEAR_OUT_OF_RANGE, SIZE_MAX},
        {"2023-02-29", FOTS_DAY_OUT_OF_RANGE, SIZE_MAX}, {"2023-366", FOTS_ORDINAL_OUT_OF_RANGE, SIZE_MAX}, {"2021-W53-1", FOTS_WEEK_OUT_OF_RANGE, SIZE_MAX},
        {"+999999-W52-6", FOTS_WEEKDAY_OUT_OF_RANGE, SIZE_MAX},
    };
    static const struct {
        const char *text;
        int32_t status;
        size_t position;
    } julian_days[] = {
        {"", FOTS_UNEXPECTED_END, 0}, {"2460370", FOTS_UNEXPECTED_BYTE, 0}, {"J", FOTS_UNEXPECTED_END, 1}, {"J-", FOTS_UNEXPECTED_END, 2},
        {"J+1", FOTS_UNEXPECTED_BYTE, 1}, {"J-0", FOTS_UNEXPECTED_BYTE, 2}, {"J02", FOTS_UNEXPECTED_BYTE, 2}, {"J24603700000", FOTS_UNEXPECTED_BYTE, 10},
        {"J2460370 ", FOTS_UNEXPECTED_BYTE, 8}, {"J366963560", FOTS_JULIAN_DAY_OUT_OF_RANGE, SIZE_MAX}, {"J-363521075", FOTS_JULIAN_DAY_OUT_OF_RANGE, SIZE_MAX},
    };
    for (int k = 0; k < COUNT(rows); k++) {
        is_parse_error(fots_date_parse(rows[k].text, strlen(rows[k].text)), rows[k].status, rows[k].position, rows[k].text);
    }
    for (int k = 0; k < COUNT(julian_days); k++) {
        const char *text = julian_days[k].text;
        is_parse_error(fots_julian_day_parse(text, strlen(text)), julian_days[k].status, julian_days[k].position, text);
    }
}

/* A text with the result of a call. The date-time is at an offset. */
typedef struct TextRow {
    const char *text;
    int32_t status;
    size_t position;
    fots_time time;
    int32_t offset, year;
    uint32_t month, day;
} TextRow;

#define END_AT(text, position) {text, FOTS_UNEXPECTED_END, position, 0, 0, 0, 0, 0}
#define BYTE_AT(text, position) {text, FOTS_UNEXPECTED_BYTE, position, 0, 0, 0, 0, 0}
#define OUT_OF_RANGE(text, status) {text, status, SIZE_MAX, 0, 0, 0, 0, 0}

static void texts_of_times(void)
{
    static const TextRow rows[] = {
        {"9:05", FOTS_OK, SIZE_MAX, 32700000000000, 0, 0, 0, 0}, {"09:05:07", FOTS_OK, SIZE_MAX, 32707000000000, 0, 0, 0, 0},
        {"0:00", FOTS_OK, SIZE_MAX, 0, 0, 0, 0, 0}, {"23:59:59.25", FOTS_OK, SIZE_MAX, 86399250000000, 0, 0, 0, 0},
        {"23:59:59.999999999", FOTS_OK, SIZE_MAX, 86399999999999, 0, 0, 0, 0},
        OUT_OF_RANGE("24:60:60", FOTS_HOUR_OUT_OF_RANGE), OUT_OF_RANGE("23:60:60", FOTS_MINUTE_OUT_OF_RANGE), OUT_OF_RANGE("23:59:60", FOTS_SECOND_OUT_OF_RANGE),
        END_AT("", 0), END_AT("9", 1), END_AT("9:", 2), END_AT("9:0", 3), END_AT("9:05:", 5), END_AT("9:05:0", 6), END_AT("9:05:00.", 8),
        BYTE_AT("T9:05", 0), BYTE_AT("009:05", 2), BYTE_AT("0905", 2), BYTE_AT("9:5:00", 3), BYTE_AT("9:05x", 4), BYTE_AT("9:05:00Z", 7),
        BYTE_AT("9:05:00,5", 7), BYTE_AT("9:05:00.1234567891", 17),
    };
    for (int k = 0; k < COUNT(rows); k++) {
        const fots_parse_time_result found = fots_time_parse(rows[k].text, strlen(rows[k].text));
        check(found.status == rows[k].status && found.position == rows[k].position && found.time == (found.status ? FOTS_NO_TIME : rows[k].time), rows[k].text,
            found.status, (long long)found.position);
    }
}

/* Texts of ISO 8601-1, of RFC 3339, part 5.8, and as PostgreSQL prints them. */
static void texts_of_iso(void)
{
    static const char *const april[] = {"1985-04-12", "19850412", "1985-102", "1985102", "1985-W15-5", "1985W155"};
    const fots_date day = date_of(1985, 4, 12);
    const fots_offset none = fots_pair_parse("1985-04-12T00:00", 16).offset;
    for (int k = 0; k < COUNT(april); k++) {
        is_parsed(fots_date_parse_iso(april[k], strlen(april[k])), day, april[k]);
        is_moment(fots_pair_parse_iso(april[k], strlen(april[k])), day, 0, none, april[k]);
    }
    is_parsed(fots_date_parse_iso("1985-W15", 8), date_of(1985, 4, 8), "the Monday of a week");
    is_parse_error(fots_date_parse_iso("1985-0412", 9), FOTS_UNEXPECTED_BYTE, 8, "a hyphen only after the year");
    is_parse_error(fots_date_parse_iso("198504-12", 9), FOTS_UNEXPECTED_BYTE, 6, "no hyphen after the year");
    is_parse_error(fots_date_parse_iso("1985-04", 7), FOTS_UNEXPECTED_END, 7, "a month");
    is_moment(fots_pair_parse_iso("19850412T101530", 15), day, 36930000000000, none, "a date-time in the basic format");
    const fots_parse_time_result time = fots_time_parse_iso("T232050,5", 9);
    check(time.status == FOTS_OK && time.time == 84050500000000 && time.position == SIZE_MAX, "a fraction after a comma", time.status, (long long)time.time);
    const fots_parse_time_result late = fots_time_parse_iso("24:00", 5);
    check(late.status == FOTS_HOUR_OUT_OF_RANGE && late.time == FOTS_NO_TIME, "the hour 24", late.status, (long long)late.time);
    const fots_parse_time_result many = fots_time_parse_iso("23:20:50.1234567890001", 22);
    check(many.status == FOTS_UNEXPECTED_BYTE && many.position == 21, "more than a nanosecond", many.status, (long long)many.position);
    is_moment(fots_moment_parse_iso("1985-04-12T23:20:50.5200000000000000000000Z", 43), day, 84050520000000, offset_at(0), "22 digits of a fraction");
    is_moment(fots_moment_parse_iso("1985-04-12T23:20:50.52Z", 23), day, 84050520000000, offset_at(0), "a moment of RFC 3339");
    is_moment(fots_moment_parse_iso("2024-02-29 22:59:59.25+00", 25), date_of(2024, 2, 29), 82799250000000, offset_at(0), "a moment of PostgreSQL");
    is_moment(fots_moment_parse_iso("19850412T101530+0400", 20), day, 36930000000000, offset_at(14400), "a moment in the basic format");
}

static void texts_of_offsets(void)
{
    static const TextRow rows[] = {
        {"Z", FOTS_OK, SIZE_MAX, 0, 0, 0, 0, 0}, {"z", FOTS_OK, SIZE_MAX, 0, 0, 0, 0, 0}, {"-00:00", FOTS_OK, SIZE_MAX, 0, 0, 0, 0, 0},
        {"+05:30", FOTS_OK, SIZE_MAX, 0, 19800, 0, 0, 0}, {"-05:30:15", FOTS_OK, SIZE_MAX, 0, -19815, 0, 0, 0}, {"-00:00:01", FOTS_OK, SIZE_MAX, 0, -1, 0, 0, 0},
        {"+25:59:59", FOTS_OK, SIZE_MAX, 0, 93599, 0, 0, 0}, {"-25:59:59", FOTS_OK, SIZE_MAX, 0, -93599, 0, 0, 0},
        OUT_OF_RANGE("+26:60:60", FOTS_OFFSET_HOUR_OUT_OF_RANGE), OUT_OF_RANGE("-25:60:60", FOTS_OFFSET_MINUTE_OUT_OF_RANGE),
        OUT_OF_RANGE("+25:59:60", FOTS_OFFSET_SECOND_OUT_OF_RANGE),
        END_AT("", 0), END_AT("+", 1), END_AT("+01", 3), END_AT("+01:0", 5), END_AT("+01:00:", 7), END_AT("+01:00:0", 8),
        BYTE_AT("01:00", 0), BYTE_AT(" Z", 0), BYTE_AT("Zx", 1), BYTE_AT("+1:00", 2), BYTE_AT("+0100", 3), BYTE_AT("+01:00x", 6), BYTE_AT("+01:00:00.5", 9),
    };
    for (int k = 0; k < COUNT(rows); k++) {
        const fots_parse_offset_result found = fots_offset_parse(rows[k].text, strlen(rows[k].text));
        check(found.status == rows[k].status && found.position == rows[k].position && found.offset.seconds == (found.status ? FOTS_NO_VALUE : rows[k].offset),
            rows[k].text, found.status, (long long)found.position);
    }
}

/* Checks a date-time of a row, or its error. */
static void is_date_time(fots_parse_moment_result found, const TextRow *row)
{
    if (row->status == FOTS_OK) {
        is_moment(found, date_of(row->year, row->month, row->day), row->time, offset_at(row->offset), row->text);
    } else {
        is_no_moment(found, row->status, row->position, row->text);
    }
}

static void texts_of_date_times(void)
{
    static const TextRow pairs[] = {
        {"2024-02-29 23:59:59.25", FOTS_OK, SIZE_MAX, 86399250000000, 0, 2024, 2, 29}, {"2024-W09-4T9:05", FOTS_OK, SIZE_MAX, 32700000000000, 0, 2024, 2, 29},
        {"2024-060t09:05:07", FOTS_OK, SIZE_MAX, 32707000000000, 0, 2024, 2, 29}, {"-0001-12-31 0:00", FOTS_OK, SIZE_MAX, 0, 0, -1, 12, 31},
        {"+999999-12-31T23:59:59.999999999", FOTS_OK, SIZE_MAX, 86399999999999, 0, 999999, 12, 31},
        OUT_OF_RANGE("2024-13-01T24:00", FOTS_MONTH_OUT_OF_RANGE), OUT_OF_RANGE("+1000000-01-01T24:00", FOTS_YEAR_OUT_OF_RANGE),
        OUT_OF_RANGE("2023-02-29T24:00", FOTS_DAY_OUT_OF_RANGE), OUT_OF_RANGE("2024-02-29T24:60", FOTS_HOUR_OUT_OF_RANGE),
        END_AT("", 0), END_AT("2024-02-29", 10), END_AT("2024-02-29T", 11), END_AT("2024-02-29T9", 12), END_AT("2023-02-29T9:0", 14),
        BYTE_AT("2024-02-2T9:05", 9), BYTE_AT("2024-02-29_9:05", 10), BYTE_AT("2024-02-29  9:05", 11), BYTE_AT("2023-02-29T9:5:0", 14), BYTE_AT("2024-02-29T9:05Z", 15),
    };
    static const TextRow moments[] = {
        {"2024-02-29 9:05 +01:00", FOTS_OK, SIZE_MAX, 32700000000000, 3600, 2024, 2, 29}, {"2024-02-29T23:59:59.25-25:59:59", FOTS_OK, SIZE_MAX, 86399250000000, -93599, 2024, 2, 29},
        {"2024-W09-4t9:05z", FOTS_OK, SIZE_MAX, 32700000000000, 0, 2024, 2, 29}, {"-0001-365T00:00 Z", FOTS_OK, SIZE_MAX, 0, 0, -1, 12, 31},
        OUT_OF_RANGE("2023-02-29T24:00+26:00", FOTS_DAY_OUT_OF_RANGE), OUT_OF_RANGE("2024-02-29T23:60+26:00", FOTS_MINUTE_OUT_OF_RANGE),
        OUT_OF_RANGE("2024-02-29T23:59:60Z", FOTS_SECOND_OUT_OF_RANGE), OUT_OF_RANGE("2024-02-29T23:59+26:60", FOTS_OFFSET_HOUR_OUT_OF_RANGE),
        OUT_OF_RANGE("2024-02-29T23:59 +25:60", FOTS_OFFSET_MINUTE_OUT_OF_RANGE), OUT_OF_RANGE("2024-02-29T23:59-00:00:60", FOTS_OFFSET_SECOND_OUT_OF_RANGE),
        END_AT("", 0), END_AT("2024-02-29", 10), END_AT("2024-02-29T9:05", 15), END_AT("2024-02-29T9:05 ", 16), END_AT("2024-02-29T9:05+1", 17),
        BYTE_AT("2024-02-29Z", 10), BYTE_AT("2024-02-29T9:05x", 15), BYTE_AT("2024-02-29T9:05  Z", 16), BYTE_AT("2024-02-29T9:05Zx", 16),
        BYTE_AT("2024-02-29T9:05+1:00", 17), BYTE_AT("2024-02-29T00:00:00.1234567891Z", 29),
    };
    for (int k = 0; k < COUNT(pairs); k++) {
        is_date_time(fots_pair_parse(pairs[k].text, strlen(pairs[k].text)), &pairs[k]);
    }
    for (int k = 0; k < COUNT(moments); k++) {
        is_date_time(fots_offset_date_time_parse(moments[k].text, strlen(moments[k].text)), &moments[k]);
    }
}

/* Moments of RFC 3339, with the examples of the standard first. */
static void texts_of_moments(void)
{
    static const struct {
        const char *text, *printed;
        int32_t year;
        uint32_t month, day, hour, minute, second, nanosecond;
        int32_t offset;
    } rows[] = {
        {"1985-04-12T23:20:50.52Z", "1985-04-12T23:20:50.52Z", 1985, 4, 12, 23, 20, 50, 520000000, 0},
        {"1996-12-19T16:39:57-08:00", "1996-12-19T16:39:57-08:00", 1996, 12, 19, 16, 39, 57, 0, -28800},
        {"1937-01-01T12:00:27.87+00:20", "1937-01-01T12:00:27.87+00:20", 1937, 1, 1, 12, 0, 27, 870000000, 1200},
        {"2024-02-29T23:59:59.25+01:00", "2024-02-29T23:59:59.25+01:00", 2024, 2, 29, 23, 59, 59, 250000000, 3600},
        {"0000-01-01t00:00:00z", "0000-01-01T00:00:00Z", 0, 1, 1, 0, 0, 0, 0, 0},
        {"9999-12-31 23:59:59.999999999-23:59", "9999-12-31T23:59:59.999999999-23:59", 9999, 12, 31, 23, 59, 59, 999999999, -86340},
        {"2024-02-29T00:00:00.00000000190-00:00", "2024-02-29T00:00:00.000000001Z", 2024, 2, 29, 0, 0, 0, 1, 0},
    };
    static const struct {
        const char *text;
        int32_t status;
        size_t position;
    } invalid[] = {
        {"1990-12-31T23:59:60Z", FOTS_SECOND_OUT_OF_RANGE, SIZE_MAX}, {"1990-12-31T15:59:60-08:00", FOTS_SECOND_OUT_OF_RANGE, SIZE_MAX},
        {"2024-00-99T99:99:99Z", FOTS_MONTH_OUT_OF_RANGE, SIZE_MAX}, {"2023-02-29T24:00:00Z", FOTS_DAY_OUT_OF_RANGE, SIZE_MAX},
        {"2024-02-29T24:60:60Z", FOTS_HOUR_OUT_OF_RANGE, SIZE_MAX}, {"2024-02-29T23:60:60+24:00", FOTS_MINUTE_OUT_OF_RANGE, SIZE_MAX},
        {"2024-02-29T23:59:59+24:60", FOTS_OFFSET_HOUR_OUT_OF_RANGE, SIZE_MAX}, {"2024-02-29T23:59:59-23:60", FOTS_OFFSET_MINUTE_OUT_OF_RANGE, SIZE_MAX},
        {"", FOTS_UNEXPECTED_END, 0}, {"-2024-02-29T00:00:00Z", FOTS_UNEXPECTED_BYTE, 0}, {"2024-02-29", FOTS_UNEXPECTED_END, 10},
        {"2024-02-29  00:00:00Z", FOTS_UNEXPECTED_BYTE, 11}, {"2024-02-29T00:00Z", FOTS_UNEXPECTED_BYTE, 16},
        {"2024-02-29T00:00:00.Z", FOTS_UNEXPECTED_BYTE, 20}, {"2024-02-29T00:00:00.5", FOTS_UNEXPECTED_END, 21},
        {"2024-02-29T00:00:00Z ", FOTS_UNEXPECTED_BYTE, 20}, {"2024-02-29T00:00:00+0100", FOTS_UNEXPECTED_BYTE, 22},
    };
    for (int k = 0; k < COUNT(rows); k++) {
        fots_date date = date_of(rows[k].year, rows[k].month, rows[k].day);
        fots_offset offset = offset_at(rows[k].offset);
        fots_time time = time_of(rows[k].hour, rows[k].minute, rows[k].second, rows[k].nanosecond);
        is_moment(fots_moment_parse(rows[k].text, strlen(rows[k].text)), date, time, offset, rows[k].text);
        is_text(fots_moment_text(date, time, offset), rows[k].printed, rows[k].printed);
    }
    for (int k = 0; k < COUNT(invalid); k++) {
        const char *text = invalid[k].text;
        is_no_moment(fots_moment_parse(text, strlen(text)), invalid[k].status, invalid[k].position, text);
    }
    is_no_text(fots_moment_text(date_of(10000, 1, 1), 0, offset_at(0)), FOTS_RESULT_OUT_OF_RANGE, "a moment of the year 10000");
    is_no_text(fots_moment_text(date_of(-1, 12, 31), 0, offset_at(0)), FOTS_RESULT_OUT_OF_RANGE, "a moment of the year -1");
    is_no_text(fots_moment_text(date_of(2024, 2, 29), 0, offset_at(86400)), FOTS_RESULT_OUT_OF_RANGE, "an offset of a day");
    is_no_text(fots_moment_text(date_of(2024, 2, 29), 0, offset_at(-1)), FOTS_RESULT_OUT_OF_RANGE, "an offset with seconds");
    is_no_text(fots_moment_text(date_at(FOTS_NO_VALUE), FOTS_NO_TIME, offset_at(FOTS_NO_VALUE)), FOTS_INVALID_DATE, "no date first");
    is_no_text(fots_moment_text(date_at(2460370), FOTS_NO_TIME, offset_at(FOTS_NO_VALUE)), FOTS_INVALID_TIME, "no time second");
    is_no_text(fots_moment_text(date_at(FOTS_MAX_JULIAN_DAY), 0, offset_at(FOTS_NO_VALUE)), FOTS_INVALID_OFFSET,
        "no offset before what has no text");
}

/* Unix times as durations and texts. */
static void unix_times(void)
{
    static const struct {
        int32_t julian_day;
        fots_time time;
        int32_t offset;
        int64_t seconds;
        int32_t nanoseconds;
        const char *text;
    } rows[] = {
        {2440588, 0, 0, 0, 0, "@0"},
        {2460370, 500000000, 0, 1709164800, 500000000, "@1709164800.5"},
        {2460370, 3600000000000, 3600, 1709164800, 0, "@1709164800"},
        {2440587, 86399999999999, 0, 0, -1, "@-0.000000001"},
        {2440587, 86398750000000, 0, -1, -250000000, "@-1.25"},
        {2465443, 11647000000000, 0, 2147483647, 0, "@2147483647"},
        {366963559, 86399999999999, 0, 31494784780799, 999999999, "@31494784780799.999999999"},
        {-363521074, 0, 0, -31619087596800, 0, "@-31619087596800"},
        {-363521074, 0, 93599, -31619087690399, 0, "@-31619087690399"},
    };
    static const struct {
        const char *text;
        int32_t status;
        size_t position;
    } invalid[] = {
        {"@31494784780800", FOTS_TIMESTAMP_OUT_OF_RANGE, SIZE_MAX}, {"@-31619087596800.000000001", FOTS_TIMESTAMP_OUT_OF_RANGE, SIZE_MAX},
        {"@999999999999999999", FOTS_TIMESTAMP_OUT_OF_RANGE, SIZE_MAX}, {"", FOTS_UNEXPECTED_END, 0}, {"@", FOTS_UNEXPECTED_END, 1},
        {"@+1", FOTS_UNEXPECTED_BYTE, 1}, {"@01", FOTS_UNEXPECTED_BYTE, 2}, {"@-0", FOTS_UNEXPECTED_END, 3}, {"@-0.0", FOTS_UNEXPECTED_END, 5},
        {"@1.", FOTS_UNEXPECTED_END, 3}, {"@1.1234567890", FOTS_UNEXPECTED_BYTE, 12}, {"@1000000000000000000", FOTS_UNEXPECTED_BYTE, 19},
    };
    fots_pair_result pair;
    for (int k = 0; k < COUNT(rows); k++) {
        fots_date date = date_at(rows[k].julian_day);
        fots_offset offset = offset_at(rows[k].offset);
        fots_duration duration = both(rows[k].seconds, rows[k].nanoseconds);
        is_duration(fots_unix_time(date, rows[k].time, offset), duration, rows[k].text);
        is_text(fots_unix_text(date, rows[k].time, offset), rows[k].text, rows[k].text);
        pair = fots_unix_pair(duration, offset);
        check(pair.status == FOTS_OK && pair.date.julian_day == rows[k].julian_day && pair.time == rows[k].time, rows[k].text,
            pair.date.julian_day,
            k);
        if (rows[k].offset == 0) {
            is_moment(fots_unix_parse(rows[k].text, strlen(rows[k].text)), date, rows[k].time, offset, rows[k].text);
        }
    }
    is_moment(fots_unix_parse("@1709164800.50", 14), date_at(2460370), 500000000, offset_at(0), "a zero at the end");
    for (int k = 0; k < COUNT(invalid); k++) {
        const char *text = invalid[k].text;
        is_no_moment(fots_unix_parse(text, strlen(text)), invalid[k].status, invalid[k].position, text);
    }
    pair = fots_unix_pair(seconds(31494784780799), offset_at(3600));
    check(pair.status == FOTS_RESULT_OUT_OF_RANGE && pair.date.julian_day == FOTS_NO_VALUE && pair.time == FOTS_NO_TIME, "past the last day",
        pair.date.julian_day, 0);
    check(fots_unix_pair(both(1, -1), offset_at(FOTS_NO_VALUE)).status == FOTS_INVALID_DURATION, "no duration first", 0, 0);
    check(fots_unix_pair(max_duration, offset_at(FOTS_NO_VALUE)).status == FOTS_INVALID_OFFSET, "no offset before the range", 0, 0);
    is_no_duration(fots_unix_time(date_at(FOTS_NO_VALUE), FOTS_NO_TIME, offset_at(0)), FOTS_INVALID_DATE, "the Unix time of no date");
}

/* Names of months and weekdays. */
static void names_of_cycles(void)
{
    static const char *const months[] = {"January", "February", "March", "April", "May", "June", "July", "August", "September",
        "October", "November", "December"};
    static const char *const weekdays[] = {"Monday", "Tuesday", "Wednesday", "Thursday", "Friday", "Saturday", "Sunday"};
    for (uint32_t k = 0; k < 12; k++) {
        is_text(fots_month_name(k + 1), months[k], months[k]);
    }
    for (uint32_t k = 0; k < 7; k++) {
        is_text(fots_weekday_name(k + 1), weekdays[k], weekdays[k]);
    }
    is_no_text(fots_month_name(0), FOTS_MONTH_OUT_OF_RANGE, "month 0");
    is_no_text(fots_month_name(258), FOTS_MONTH_OUT_OF_RANGE, "month 258");
    is_no_text(fots_weekday_name(8), FOTS_INVALID_WEEKDAY, "weekday 8");
    is_no_text(fots_weekday_name(0), FOTS_INVALID_WEEKDAY, "weekday 0");
}

/* Names of statuses. */
static void names(void)
{
    check(strcmp(fots_status_name(FOTS_DAY_OUT_OF_RANGE), "day") == 0, "the name of a component", FOTS_DAY_OUT_OF_RANGE, 0);
    check(strcmp(fots_status_name(FOTS_OFFSET_HOUR_OUT_OF_RANGE), "offset hour") == 0, "the name of a component", FOTS_OFFSET_HOUR_OUT_OF_RANGE, 0);
    check(strcmp(fots_status_name(FOTS_RESULT_OUT_OF_RANGE), "result out of range") == 0, "the name of a status", FOTS_RESULT_OUT_OF_RANGE, 0);
    check(strcmp(fots_status_name(FOTS_UNEXPECTED_BYTE), "unexpected byte") == 0, "the name of a status", FOTS_UNEXPECTED_BYTE, 0);
    check(strcmp(fots_status_name(FOTS_UNEXPECTED_END), "unexpected end") == 0, "the name of a status", FOTS_UNEXPECTED_END, 0);
    check(strcmp(fots_status_name(FOTS_TIMESTAMP_OUT_OF_RANGE), "timestamp") == 0, "the name of a component", FOTS_TIMESTAMP_OUT_OF_RANGE, 0);
    check(strcmp(fots_status_name(FOTS_INVALID_BOUNDS), "invalid bounds") == 0, "the name of a status", FOTS_INVALID_BOUNDS, 0);
    check(!fots_status_is_conditional(FOTS_TIMESTAMP_OUT_OF_RANGE) && !fots_status_is_conditional(FOTS_UNEXPECTED_BYTE), "the marks", 0, 0);
    check(strcmp(fots_status_name(-1), "unknown") == 0, "the name of no status", -1, 0);
    check(fots_status_is_conditional(FOTS_WEEK_OUT_OF_RANGE) && !fots_status_is_conditional(FOTS_YEAR_OUT_OF_RANGE), "the marks", 0, 0);
}

/* Error results that are passed on. */
static void errors_passed_on(void)
{
    fots_calendar_date_result calendar = fots_date_to_calendar_date(fots_date_from_calendar_date(2023, 2, 29).date);
    fots_hms_nano_result clock = fots_time_as_hms_nano(fots_time_from_hms(24, 0, 0).time);
    fots_offset_hms_result parts = fots_offset_as_hms(fots_offset_from_hms(26, 0, 0).offset);
    fots_component_result part = fots_date_month(date_at(FOTS_NO_VALUE));
    check(calendar.status == FOTS_INVALID_DATE && clock.status == FOTS_INVALID_TIME && parts.status == FOTS_INVALID_OFFSET, "values", 0, 0);
    check(part.status == FOTS_INVALID_DATE && part.number == FOTS_NO_COMPONENT, "no part", part.status, part.number);
    is_no_date(fots_date_from_calendar_date(2023, calendar.month, 1), FOTS_MONTH_OUT_OF_RANGE, "no month");
    is_no_date(fots_date_from_calendar_date(calendar.year, 1, 1), FOTS_YEAR_OUT_OF_RANGE, "no year");
    is_no_date(fots_date_from_calendar_date(2023, 1, calendar.day), FOTS_DAY_OUT_OF_RANGE, "no day");
    is_no_date(fots_date_from_calendar_date(2023, part.number, 1), FOTS_MONTH_OUT_OF_RANGE, "no part as a month");
    is_no_date(fots_date_from_ordinal_date(2023, part.number), FOTS_ORDINAL_OUT_OF_RANGE, "no part as an ordinal");
    is_no_date(fots_date_from_iso_week_date(2023, part.number, 1), FOTS_WEEK_OUT_OF_RANGE, "no part as a week");
    is_no_date(fots_date_next_occurrence(date_at(0), part.number), FOTS_INVALID_WEEKDAY, "no part as a weekday");
    is_no_date(fots_date_nth_next_occurrence(date_at(0), 1, part.number), FOTS_INVALID_COUNT, "no part as a count");
    check(fots_time_from_hms(clock.hour, 0, 0).status == FOTS_HOUR_OUT_OF_RANGE && fots_time_from_hms(part.number, 0, 0).status == FOTS_HOUR_OUT_OF_RANGE,
        "no hour",
        0, 0);
    check(fots_offset_from_hms(parts.hours, 0, 0).status == FOTS_OFFSET_HOUR_OUT_OF_RANGE, "no hours of an offset", 0, 0);
    is_component(fots_month_length(2, calendar.year), 29, "a year of no date, which each year call takes");
    check(fots_duration_compare(fots_duration_days(INT64_MAX).duration, zero).number < 0, "no duration, which is below as less is", 0,
        0);
    is_date(fots_date_saturating_add_months(date_at(0), fots_date_months_until(date_at(FOTS_NO_VALUE), date_at(0)).number),
        date_at(FOTS_MIN_JULIAN_DAY), "months of no date, and then the first day");
    is_date(fots_date_next_day(date_at(0)), date_at(1), "a date of zero bytes, which is one");
}

int main(void)
{
    days();
    errors();
    arithmetic();
    durations();
    times();
    offsets();
    cycles();
    texts_of_days();
    invalid_texts_of_days();
    texts_of_times();
    texts_of_iso();
    texts_of_offsets();
    texts_of_date_times();
    texts_of_moments();
    unix_times();
    names_of_cycles();
    names();
    errors_passed_on();
    check(fots_version() == 1000000 * FOTS_VERSION_MAJOR + 1000 * FOTS_VERSION_MINOR + FOTS_VERSION_PATCH, "the version",
        fots_version(), 0);
    return ended("rows");
}
