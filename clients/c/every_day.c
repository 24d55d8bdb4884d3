/* Compares the calls on every day of the range with a count of one day at a time. */
#include "fotsevindre.h"
#include "testing.h"

/* A day of the count. */
struct day {
    int32_t julian_day, year, iso_year;
    uint32_t month, day, ordinal, iso_week, weekday, sundays, mondays;
};

static int is_leap(int32_t year)
{
    return year % 4 == 0 && (year % 100 != 0 || year % 400 == 0);
}

static uint32_t length_of_month(int32_t year, uint32_t month)
{
    switch (month) {
    case 2: return is_leap(year) ? 29 : 28;
    case 4: case 6: case 9: case 11: return 30;
    default: return 31;
    }
}

/* Returns the next day. A Monday starts week 1 if its Thursday is one of the first seven days of
 * a year. */
static struct day day_after(struct day it)
{
    it.julian_day++;
    it.ordinal++;
    it.weekday = it.weekday == 7 ? 1 : it.weekday + 1;
    if (it.day < length_of_month(it.year, it.month)) {
        it.day++;
    } else {
        it.day = 1;
        if (it.month < 12) {
            it.month++;
        } else {
            it.month = 1;
            it.year++;
            it.ordinal = 1;
            it.sundays = it.mondays = 0;
        }
    }
    it.sundays += it.weekday == 7;
    it.mondays += it.weekday == 1;
    if (it.weekday == 1) {
        it.iso_week++;
        if (it.month == 12 && it.day >= 29) {
            it.iso_year = it.year + 1;
            it.iso_week = 1;
        } else if (it.month == 1 && it.day <= 4) {
            it.iso_year = it.year;
            it.iso_week = 1;
        }
    }
    return it;
}

/* Checks that each form of the day makes its date. */
static int is_made(struct day it)
{
    fots_date_result by_calendar = fots_date_from_calendar_date(it.year, it.month, it.day);
    fots_date_result by_ordinal = fots_date_from_ordinal_date(it.year, it.ordinal);
    fots_date_result by_week = fots_date_from_iso_week_date(it.iso_year, it.iso_week, it.weekday);
    fots_date_result by_julian_day = fots_date_from_julian_day(it.julian_day);
    return by_calendar.status == FOTS_OK && by_calendar.date.julian_day == it.julian_day
        && by_ordinal.status == FOTS_OK && by_ordinal.date.julian_day == it.julian_day
        && by_week.status == FOTS_OK && by_week.date.julian_day == it.julian_day
        && by_julian_day.status == FOTS_OK && by_julian_day.date.julian_day == it.julian_day;
}

/* Checks that the date of the day returns each form. */
static int has_all(struct day it)
{
    fots_calendar_date_result calendar = fots_date_to_calendar_date(date_at(it.julian_day));
    fots_ordinal_date_result ordinal = fots_date_to_ordinal_date(date_at(it.julian_day));
    fots_iso_week_date_result week = fots_date_to_iso_week_date(date_at(it.julian_day));
    return calendar.status == FOTS_OK && calendar.year == it.year && calendar.month == it.month && calendar.day == it.day
        && ordinal.status == FOTS_OK && ordinal.year == it.year && ordinal.ordinal == it.ordinal
        && week.status == FOTS_OK && week.year == it.iso_year && week.week == it.iso_week && week.weekday == it.weekday;
}

static int is_number(fots_number_result result, int32_t number)
{
    return result.status == FOTS_OK && result.number == number;
}

static int is_component(fots_component_result result, uint32_t number)
{
    return result.status == FOTS_OK && result.number == number;
}

/* Checks the parts one by one, only for some days, because each is a conversion. */
static int has_components(struct day it)
{
    fots_date date = date_at(it.julian_day);
    return is_number(fots_date_year(date), it.year) && is_component(fots_date_month(date), it.month)
        && is_component(fots_date_day(date), it.day) && is_component(fots_date_ordinal(date), it.ordinal)
        && is_component(fots_date_iso_week(date), it.iso_week) && is_component(fots_date_weekday(date), it.weekday)
        && is_component(fots_date_sunday_based_week(date), it.sundays) && is_component(fots_date_monday_based_week(date), it.mondays);
}

/* Checks the next and the previous day, if the range has them. */
static int has_neighbours(struct day it)
{
    fots_date_result next = fots_date_next_day(date_at(it.julian_day)), previous = fots_date_previous_day(date_at(it.julian_day));
    int last = it.julian_day == FOTS_MAX_JULIAN_DAY, first = it.julian_day == FOTS_MIN_JULIAN_DAY;
    return next.status == (last ? FOTS_RESULT_OUT_OF_RANGE : FOTS_OK) && next.date.julian_day == (last ? FOTS_NO_VALUE : it.julian_day + 1)
        && previous.status == (first ? FOTS_RESULT_OUT_OF_RANGE : FOTS_OK)
            && previous.date.julian_day == (first ? FOTS_NO_VALUE : it.julian_day - 1);
}

/* Checks that the days past the end of a month and a year are errors. */
static int rejects_days_beside(struct day it)
{
    if (it.day == 1 || it.ordinal == 1) {
        fots_date_result day = fots_date_from_calendar_date(it.year, it.month, length_of_month(it.year, it.month) + 1);
        fots_date_result zero = fots_date_from_calendar_date(it.year, it.month, 0);
        fots_date_result ordinal = fots_date_from_ordinal_date(it.year, is_leap(it.year) ? 367 : 366);
        fots_date_result none = fots_date_from_ordinal_date(it.year, 0);
        return day.status == FOTS_DAY_OUT_OF_RANGE && zero.status == FOTS_DAY_OUT_OF_RANGE && ordinal.status == FOTS_ORDINAL_OUT_OF_RANGE && none.status == FOTS_ORDINAL_OUT_OF_RANGE
            && day.date.julian_day == FOTS_NO_VALUE && zero.date.julian_day == FOTS_NO_VALUE && ordinal.date.julian_day == FOTS_NO_VALUE
                && none.date.julian_day == FOTS_NO_VALUE;
    }
    return 1;
}

static void check_day(struct day it, int all_components)
{
    check(has_all(it), "what a day has", it.julian_day, it.year);
    check(is_made(it), "what a day is made of", it.julian_day, it.year);
    check(rejects_days_beside(it), "what no day has", it.julian_day, it.year);
    if (all_components) {
        check(has_components(it), "the parts of a day", it.julian_day, it.year);
        check(has_neighbours(it), "the days beside a day", it.julian_day, it.year);
    }
}

/* Checks the days before this one for 'low', the others for 'high'. The count goes over all. */
#define HALF 1721243

int main(int count, char **arguments)
{
    int low = count < 2 || arguments[1][0] == 'l', high = count < 2 || arguments[1][0] == 'h';
    /* -999999-01-01 is a Monday, in week 1. */
    struct day it = {FOTS_MIN_JULIAN_DAY, FOTS_MIN_YEAR, FOTS_MIN_YEAR, 1, 1, 1, 1, 1, 0, 1};
    uint32_t drawn = 1;
    for (;;) {
        drawn = drawn * 1664525 + 1013904223;
        if (it.julian_day < HALF ? low : high) {
            check_day(it, drawn >> 28 == 0 || it.year < FOTS_MIN_YEAR + 2 || it.year > FOTS_MAX_YEAR - 2);
        }
        if (it.julian_day == FOTS_MAX_JULIAN_DAY) {
            break;
        }
        it = day_after(it);
    }
    check(it.year == FOTS_MAX_YEAR && it.month == 12 && it.day == 31, "the last day", it.julian_day, it.year);
    return ended("every day");
}
