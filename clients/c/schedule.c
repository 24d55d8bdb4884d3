/* Checks months, periods, working days, recurrences and day counts: rows from other sources,
 * invalid values, and random values against a count of one day at a time. */
#include <stdlib.h>
#include <string.h>

#include "fotsevindre_names.h"
#include "testing.h"

#define COUNT(values) ((int)(sizeof(values) / sizeof(values)[0]))
#define DRAWN 2000

static uint64_t drawn(void)
{
    static uint64_t state = 88172645463325252ULL;
    state ^= state << 13;
    state ^= state >> 7;
    state ^= state << 17;
    return state;
}

static fots_date day(int32_t year, uint32_t month, uint32_t of_month)
{
    return fots_date_from_calendar_date(year, month, of_month).date;
}

static void is_day(fots_date_result result, fots_date wanted, const char *what)
{
    check(result.status == FOTS_OK && result.date.julian_day == wanted.julian_day, what, wanted.julian_day, result.date.julian_day);
}

static void is_error(fots_date_result result, int32_t status, const char *what)
{
    check(result.status == status && result.date.julian_day == FOTS_NO_VALUE, what, status, result.status);
}

/* The ends of February. */
static void months(void)
{
    is_day(fots_date_add_months(day(2023, 1, 31), 1), day(2023, 2, 28), "a month after 31 January 2023");
    is_day(fots_date_add_months(day(2024, 1, 31), 1), day(2024, 2, 29), "a month after 31 January 2024");
    is_day(fots_date_add_months(day(2024, 3, 31), -1), day(2024, 2, 29), "a month before 31 March 2024");
    is_day(fots_date_add_months(day(2023, 12, 15), 1), day(2024, 1, 15), "a month after 15 December 2023");
    is_day(fots_date_add_years(day(2024, 2, 29), 1), day(2025, 2, 28), "a year after 29 February 2024");
    is_day(fots_date_add_years(day(2024, 2, 29), 4), day(2028, 2, 29), "four years after it");
    is_error(fots_date_add_months(day(999999, 12, 1), 1), FOTS_RESULT_OUT_OF_RANGE, "a month after the last one");
    is_error(fots_date_add_months(day(-999999, 1, 31), -1), FOTS_RESULT_OUT_OF_RANGE, "a month before the first one");
    is_error(fots_date_add_years(day(2024, 2, 29), INT32_MAX), FOTS_RESULT_OUT_OF_RANGE, "as many years as there are");
    is_day(fots_date_saturating_add_months(day(999999, 12, 1), 1), date_at(FOTS_MAX_JULIAN_DAY), "the last day in place of the next month");
    is_day(fots_date_saturating_add_months(day(-999999, 1, 1), INT32_MIN), date_at(FOTS_MIN_JULIAN_DAY), "the first day");

    /* An age increases on the birthday. */
    check(fots_date_years_until(day(1980, 6, 1), day(2024, 5, 31)).number == 43, "the age on the day before", 0, 0);
    check(fots_date_years_until(day(1980, 6, 1), day(2024, 6, 1)).number == 44, "the age on the birthday", 0, 0);
    check(fots_date_months_until(day(2023, 1, 31), day(2023, 2, 27)).number == 0, "months to 27 February", 0, 0);
    check(fots_date_months_until(day(2023, 1, 31), day(2023, 2, 28)).number == 1, "months to 28 February", 0, 0);
    const fots_period_result period = fots_date_period_until(day(2023, 1, 31), day(2024, 3, 2));
    check(period.status == FOTS_OK && period.years == 1 && period.months == 1 && period.days == 2, "a year, a month and 2 days", period.months, period.days);
    const int32_t by_unit[5][4] = {{0, 0, 0, 396}, {0, 0, 56, 4}, {0, 13, 0, 2}, {0, 13, 0, 2}, {1, 1, 0, 2}};
    for (uint32_t unit = FOTS_DAY; unit <= FOTS_YEAR; unit++) {
        const fots_period_result found = fots_date_period_until_by(day(2000, 1, 31), day(2001, 3, 2), unit);
        const int32_t *wanted = by_unit[unit - 1];
        check(found.status == FOTS_OK && found.years == wanted[0] && found.months == wanted[1] && found.weeks == wanted[2] && found.days == wanted[3],
            "a period by a unit", (int32_t)unit, found.days);
    }
    const fots_period month = {0, 1, 0, 0, {0, 0, 0}}, hour = {0, 1, 0, 0, {3600, 0, 0}}, none = {0, 0, 0, 0, {0, 0, 0}};
    const fots_date last = day(2000, 1, 31);
    check(fots_date_step_of(last, month, day(2000, 2, 28)).number == 0, "the step of 28 February", 0, 0);
    check(fots_date_step_of(last, month, day(2000, 2, 29)).number == 1, "the step of 29 February", 0, 0);
    check(fots_date_step_of(last, month, day(2000, 3, 30)).number == 1, "the step of 30 March", 0, 0);
    check(fots_date_step_of(last, month, day(2000, 3, 31)).number == 2, "the step of 31 March", 0, 0);
    check(fots_date_step_of(last, month, day(2000, 1, 30)).status == FOTS_RESULT_OUT_OF_RANGE, "the step of a date before the start", 0, 0);
    check(fots_date_step_of(last, hour, last).status == FOTS_RESULT_OUT_OF_RANGE, "the step of a period with a duration", 0, 0);
    check(fots_date_step_of(last, none, last).status == FOTS_RESULT_OUT_OF_RANGE, "the step of an empty period", 0, 0);
}

/* March 2024, the days from 22 March to 1 May, the end of March, and the leap day in its year. */
static void ranges(void)
{
    const fots_date_range march = {day(2024, 3, 1), day(2024, 4, 1)}, later = {day(2024, 3, 22), day(2024, 5, 1)};
    const fots_date_range empty = {day(2024, 4, 1), day(2024, 4, 1)}, inside = {day(2024, 3, 9), day(2024, 3, 9)}, backward = {march.end, march.start};
    const fots_date_range year = {day(2024, 1, 1), day(2025, 1, 1)}, leap = {day(2024, 2, 29), day(2024, 3, 1)};
    const struct {
        fots_date_range range, other;
        uint32_t overlaps, common, days;
    } rows[] = {{march, later, 1, 10, 31}, {later, march, 1, 10, 40}, {march, empty, 0, 0, 31}, {empty, march, 0, 0, 0}, {march, inside, 0, 0, 31},
        {leap, march, 0, 0, 1}, {year, leap, 1, 1, 366}, {year, year, 1, 366, 366}};
    for (size_t row = 0; row < sizeof rows / sizeof rows[0]; row++) {
        const fots_share_result share = fots_date_range_share(rows[row].range, rows[row].other);
        check(share.status == FOTS_OK && share.common == rows[row].common && share.days == rows[row].days, "a share", (int32_t)row, (int32_t)share.common);
        check(fots_date_range_length(rows[row].range).number == rows[row].days, "the days of a range", (int32_t)row, 0);
        check(fots_date_range_overlaps(rows[row].range, rows[row].other).number == rows[row].overlaps, "a common day", (int32_t)row, 0);
        const fots_date_range_result both = fots_date_range_intersection(rows[row].range, rows[row].other);
        check(both.status == (rows[row].overlaps ? FOTS_OK : FOTS_RESULT_OUT_OF_RANGE), "the common days", (int32_t)row, both.status);
    }
    const fots_date_range both = fots_date_range_intersection(march, later).range;
    check(both.start.julian_day == later.start.julian_day && both.end.julian_day == march.end.julian_day, "from 22 to 31 March", 0, 0);
    check(fots_date_range_contains(march, day(2024, 3, 1)).number == 1 && fots_date_range_contains(march, day(2024, 3, 31)).number == 1, "in March", 0, 0);
    check(fots_date_range_contains(march, day(2024, 2, 29)).number == 0 && fots_date_range_contains(march, march.end).number == 0, "not in March", 0, 0);
    check(fots_date_range_length(backward).status == FOTS_INVALID_RANGE, "an end before the start", 0, 0);
}

/* Published dates of Easter: in 1954 and 2049 an exception makes it a week earlier. */
static void easter(void)
{
    static const struct {
        int32_t year;
        uint32_t month, day, orthodox_month, orthodox_day;
    } rows[] = {{1583, 4, 10, 4, 10}, {1598, 3, 22, 4, 26}, {1943, 4, 25, 4, 25}, {1954, 4, 18, 4, 25}, {2000, 4, 23, 4, 30}, {2024, 3, 31, 5, 5},
        {2038, 4, 25, 4, 25}, {2049, 4, 18, 4, 25}, {4099, 4, 19, 5, 3}};
    for (size_t row = 0; row < sizeof rows / sizeof rows[0]; row++) {
        const int32_t year = rows[row].year;
        is_day(fots_easter(year), fots_date_from_calendar_date(year, rows[row].month, rows[row].day).date, "Easter");
        is_day(fots_julian_easter(year), fots_date_from_calendar_date(year, rows[row].orthodox_month, rows[row].orthodox_day).date, "orthodox Easter");
    }
    is_error(fots_easter(1000000), FOTS_YEAR_OUT_OF_RANGE, "Easter after the range");
    is_error(fots_easter(-1000000), FOTS_YEAR_OUT_OF_RANGE, "Easter before the range");
    is_error(fots_julian_easter(INT32_MIN), FOTS_YEAR_OUT_OF_RANGE, "orthodox Easter before the range");
    is_error(fots_julian_easter(999999), FOTS_YEAR_OUT_OF_RANGE, "an orthodox Easter after the last date");
}

static void ends(void)
{
    const fots_date leap = day(2024, 2, 29);
    is_day(fots_date_first_of_month(leap), day(2024, 2, 1), "the first of the month");
    is_day(fots_date_last_of_month(day(2024, 2, 1)), leap, "the last of the month");
    is_day(fots_date_first_of_quarter(day(2024, 5, 31)), day(2024, 4, 1), "the first of the quarter");
    is_day(fots_date_last_of_quarter(day(2024, 5, 31)), day(2024, 6, 30), "the last of the quarter");
    is_day(fots_date_first_of_year(leap), day(2024, 1, 1), "the first of the year");
    is_day(fots_date_last_of_year(leap), day(2024, 12, 31), "the last of the year");
    is_day(fots_date_first_of_iso_week(day(2021, 1, 1)), day(2020, 12, 28), "the Monday of the week");
    is_day(fots_date_last_of_iso_week(day(2021, 1, 1)), day(2021, 1, 3), "the Sunday of the week");
    is_error(fots_date_last_of_iso_week(date_at(FOTS_MAX_JULIAN_DAY)), FOTS_RESULT_OUT_OF_RANGE, "the Sunday past the last day");
    check(fots_date_quarter(day(2024, 3, 31)).number == 1 && fots_date_quarter(day(2024, 4, 1)).number == 2, "the quarter", 0, 0);

    /* The last Fridays of 2024 and Thanksgivings, from a calendar. */
    static const uint32_t fridays[12] = {26, 23, 29, 26, 31, 28, 26, 30, 27, 25, 29, 27};
    for (uint32_t month = 1; month <= 12; month++) {
        is_day(fots_date_last_weekday_of_month(2024, month, 5), day(2024, month, fridays[month - 1]), "the last Friday");
    }
    is_day(fots_date_nth_weekday_of_month(2023, 11, 4, 4), day(2023, 11, 23), "Thanksgiving of 2023");
    is_day(fots_date_nth_weekday_of_month(2024, 11, 4, 4), day(2024, 11, 28), "Thanksgiving of 2024");
    is_error(fots_date_nth_weekday_of_month(2024, 11, 4, 5), FOTS_WEEKDAY_OUT_OF_RANGE, "a fifth Thursday");
    is_error(fots_date_nth_weekday_of_month(2024, 13, 8, 256), FOTS_MONTH_OUT_OF_RANGE, "a month past the last");
    is_error(fots_date_nth_weekday_of_month(2024, 11, 8, 256), FOTS_INVALID_WEEKDAY, "a weekday past the last");
    is_error(fots_date_nth_weekday_of_month(1000000, 11, 4, 256), FOTS_INVALID_COUNT, "a count past 255");
    is_error(fots_date_nth_weekday_of_month(1000000, 11, 4, 4), FOTS_YEAR_OUT_OF_RANGE, "a year past the last");
    is_error(fots_date_last_weekday_of_month(-1000000, 11, 4), FOTS_YEAR_OUT_OF_RANGE, "a year before the first");
    is_day(fots_date_on_or_after(day(2024, 3, 1), 1), day(2024, 3, 4), "the Monday on or after");
    is_day(fots_date_on_or_before(day(2024, 3, 1), 1), day(2024, 2, 26), "the Monday on or before");
    is_day(fots_date_on_or_after(day(2024, 3, 1), 5), day(2024, 3, 1), "the Friday itself");
    is_error(fots_date_on_or_after(date_at(FOTS_MAX_JULIAN_DAY), 6), FOTS_RESULT_OUT_OF_RANGE, "a Saturday past the last day, a Friday");
}

/* The examples of ISDA's memorandum on actual/actual, and 31sts in the 30-day conventions. */
static void day_counts(void)
{
    static const struct {
        int32_t from[3], to[3];
        uint32_t convention;
        int64_t numerator;
        uint32_t denominator;
    } rows[] = {
        {{2003, 11, 1}, {2004, 5, 1}, FOTS_ACTUAL_ACTUAL, 61 * 366 + 121 * 365, 133590},
        {{1999, 2, 1}, {1999, 7, 1}, FOTS_ACTUAL_ACTUAL, 150 * 366, 133590},
        {{1999, 7, 1}, {2000, 7, 1}, FOTS_ACTUAL_ACTUAL, 184 * 366 + 182 * 365, 133590},
        {{2002, 8, 15}, {2003, 7, 15}, FOTS_ACTUAL_ACTUAL, 334 * 366, 133590},
        {{1999, 7, 30}, {2000, 1, 30}, FOTS_ACTUAL_ACTUAL, 155 * 366 + 29 * 365, 133590},
        {{2000, 1, 30}, {2000, 6, 30}, FOTS_ACTUAL_ACTUAL, 152 * 365, 133590},
        {{2003, 11, 1}, {2004, 5, 1}, FOTS_ACTUAL_360, 182, 360},
        {{2003, 11, 1}, {2004, 5, 1}, FOTS_ACTUAL_365_FIXED, 182, 365},
        {{2024, 1, 30}, {2024, 3, 31}, FOTS_THIRTY_360, 60, 360},
        {{2024, 1, 15}, {2024, 3, 31}, FOTS_THIRTY_360, 76, 360},
        {{2024, 1, 15}, {2024, 3, 31}, FOTS_THIRTY_E_360, 75, 360},
    };
    for (int row = 0; row < COUNT(rows); row++) {
        const fots_date from = day(rows[row].from[0], (uint32_t)rows[row].from[1], (uint32_t)rows[row].from[2]);
        const fots_date to = day(rows[row].to[0], (uint32_t)rows[row].to[1], (uint32_t)rows[row].to[2]);
        const fots_year_fraction_result fraction = fots_date_day_count(from, to, rows[row].convention);
        check(fraction.status == FOTS_OK && fraction.numerator == rows[row].numerator && fraction.denominator == rows[row].denominator, "a day count", row,
            fraction.numerator);
    }
    const fots_year_fraction_result none = fots_date_day_count(day(2024, 1, 1), day(2024, 1, 1), 6);
    check(none.status == FOTS_INVALID_CONVENTION && none.denominator == 0 && none.numerator == INT64_MIN, "no convention", none.status, 0);
}

/* Compares random months with the calendar date, and adds random periods again. */
static void drawn_months(void)
{
    for (int turn = 0; turn < DRAWN; turn++) {
        const fots_date date = date_at((int32_t)(drawn() % 4000000));
        const int32_t count = (int32_t)(drawn() % 4001) - 2000;
        const fots_calendar_date_result parts = fots_date_to_calendar_date(date);
        const int32_t index = parts.year * 12 + (int32_t)parts.month - 1 + count;
        const int32_t year = index >= 0 ? index / 12 : -((11 - index) / 12);
        const uint32_t month = (uint32_t)(index - year * 12) + 1;
        const uint32_t month_length = fots_month_length(month, year).number;
        is_day(fots_date_add_months(date, count), day(year, month, parts.day < month_length ? parts.day : month_length), "drawn months");
        const fots_date other = date_at((int32_t)(drawn() % 4000000));
        const fots_period_result period = fots_date_period_until(date, other);
        const fots_date later = fots_date_add_months(date, period.years * 12 + period.months).date;
        check(period.status == FOTS_OK && later.julian_day + period.days == other.julian_day, "a drawn period", date.julian_day, other.julian_day);
    }
}

/* Ten holidays of the United States in 2024. */
static const int32_t of_2024[10][2] = {{1, 1}, {1, 15}, {2, 19}, {5, 27}, {6, 19}, {7, 4}, {9, 2}, {11, 11}, {11, 28}, {12, 25}};

static fots_workdays week_of(uint32_t weekmask, const fots_date *holidays, size_t length)
{
    return fots_workdays_new(weekmask, holidays, length).workdays;
}

/* Returns the holidays of rules in 2024, in an array with room for `room`. */
static fots_holidays_result rules_of_2024(const char *rules, fots_date *days, size_t room)
{
    return fots_rules_holidays(rules, strlen(rules), day(2024, 1, 1), day(2024, 12, 31), days, room);
}

static void fails_at(fots_holidays_result found, int32_t status, size_t position, const char *what)
{
    check(found.status == status && found.position == position && found.number == INT32_MIN, what, found.status, (long long)found.position);
}

/* Compares the holidays of rules with published days, and the errors with their positions. */
static void holidays_of_rules(void)
{
    static fots_date days[FOTS_MAX_HOLIDAYS];
    static char long_text[6 * (FOTS_MAX_HOLIDAYS + 1) + 1];
    const fots_date year[] = {day(2024, 1, 1), day(2024, 3, 29), day(2024, 5, 5), day(2024, 5, 27), day(2024, 11, 20), day(2024, 11, 28),
        day(2024, 12, 25), day(2024, 12, 27)};
    const char rules[] = "# A bank\r\n01-01\neaster-2\n julian-easter # orthodox\n05-lastMO\n11-WE>=16 2000..\n11-4TH\n12-25 SA-1 SU+1\n"
                         "12-26 ..2023\n2024-12-27\n";
    const fots_holidays_result found = rules_of_2024(rules, days, 8);
    check(found.status == FOTS_OK && found.number == 8 && found.position == SIZE_MAX, "rules", found.status, found.number);
    check(memcmp(days, year, sizeof year) == 0, "the days of rules", 0, 0);
    fails_at(rules_of_2024(rules, days, 7), FOTS_TOO_MANY_HOLIDAYS, SIZE_MAX, "no room for rules");
    fails_at(rules_of_2024("12-25\n02-30", days, 8), FOTS_INVALID_HOLIDAY_RULE, 6, "30 February");
    fails_at(rules_of_2024("12-25 1999.. x", days, 8), FOTS_INVALID_HOLIDAY_RULE, 13, "an unknown word");
    check(rules_of_2024("", days, 0).number == 0, "no rules", 0, 0);
    check(fots_rules_holidays("01-01 SA-1", 10, day(2021, 12, 1), day(2021, 12, 31), days, 1).number == 1
            && days[0].julian_day == day(2021, 12, 31).julian_day, "New Year in December", 0, 0);
    fails_at(fots_rules_holidays("12-25", 5, date_at(INT32_MIN), date_at(INT32_MIN), days, 8), FOTS_INVALID_DATE, SIZE_MAX, "no first date");
    fails_at(fots_rules_holidays("12-25", 5, day(2024, 1, 1), date_at(INT32_MAX), days, 8), FOTS_INVALID_DATE, SIZE_MAX, "no last date");
    fails_at(fots_rules_holidays("x", 1, date_at(INT32_MIN), date_at(INT32_MIN), days, 8), FOTS_INVALID_HOLIDAY_RULE, 0, "rules before dates");
    for (size_t rule = 0; rule <= FOTS_MAX_HOLIDAYS; rule++) {
        memcpy(long_text + 6 * rule, "12-25\n", 6);
    }
    check(fots_rules_holidays(long_text, 6 * FOTS_MAX_HOLIDAYS, day(2024, 1, 1), day(2024, 12, 31), days, 1).number == 1, "many rules", 0, 0);
    fails_at(rules_of_2024(long_text, days, 8), FOTS_TOO_MANY_HOLIDAYS, 6 * FOTS_MAX_HOLIDAYS, "a rule too many");
}

static void workdays(void)
{
    fots_date holidays[10];
    for (int row = 0; row < 10; row++) {
        holidays[row] = day(2024, (uint32_t)of_2024[row][0], (uint32_t)of_2024[row][1]);
    }
    const fots_workdays of_year = week_of(FOTS_MONDAY_TO_FRIDAY, holidays, 10), none = week_of(FOTS_MONDAY_TO_FRIDAY, holidays, 0);
    check(fots_workdays_between(&of_year, day(2024, 1, 1), day(2025, 1, 1)).number == 252, "the working days of 2024", 0, 0);
    check(fots_workdays_between(&of_year, day(2025, 1, 1), day(2024, 1, 1)).number == -252, "and back", 0, 0);
    check(fots_workdays_between(&none, day(2024, 1, 1), day(2025, 1, 1)).number == 262, "with no holidays", 0, 0);
    check(fots_workdays_contains(&of_year, day(2024, 7, 4)).number == 0, "a holiday", 0, 0);
    check(fots_workdays_contains(&of_year, day(2024, 7, 5)).number == 1, "the day after it", 0, 0);
    is_day(fots_workdays_add(&of_year, day(2024, 8, 30), 1), day(2024, 9, 3), "after the Friday before Labor Day");
    is_day(fots_workdays_add(&of_year, day(2024, 9, 3), -1), day(2024, 8, 30), "before the Tuesday after it");
    is_day(fots_workdays_adjust(&of_year, day(2024, 8, 31), FOTS_FOLLOWING), day(2024, 9, 3), "following");
    is_day(fots_workdays_adjust(&of_year, day(2024, 8, 31), FOTS_MODIFIED_FOLLOWING), day(2024, 8, 30), "modified following");
    is_day(fots_workdays_adjust(&of_year, day(2024, 9, 1), FOTS_PRECEDING), day(2024, 8, 30), "preceding");
    is_day(fots_workdays_adjust(&of_year, day(2024, 9, 1), FOTS_MODIFIED_PRECEDING), day(2024, 9, 3), "modified preceding");
    is_day(fots_workdays_adjust(&of_year, day(2024, 9, 1), FOTS_UNADJUSTED), day(2024, 9, 1), "unadjusted");
    is_error(fots_workdays_adjust(&of_year, day(2024, 8, 30), 5), FOTS_INVALID_CONVENTION, "no convention");
    is_error(fots_workdays_add(&of_year, date_at(INT32_MAX), 1), FOTS_INVALID_DATE, "no date");
    const fots_workdays never = week_of(0, holidays, 10);
    is_error(fots_workdays_add(&never, day(2024, 8, 30), 1), FOTS_RESULT_OUT_OF_RANGE, "a week with no working day");
    check(fots_workdays_new(128, holidays, SIZE_MAX / 8).status == FOTS_INVALID_WEEKMASK, "an eighth mark", 0, 0);
    static fots_date many[FOTS_MAX_HOLIDAYS + 1];
    for (int row = 0; row <= FOTS_MAX_HOLIDAYS; row++) {
        many[row] = date_at(2460000 + row);
    }
    check(fots_workdays_new(31, many, FOTS_MAX_HOLIDAYS + 1).status == FOTS_TOO_MANY_HOLIDAYS, "a holiday too many", 0, 0);
    const fots_workdays full = week_of(127, many, FOTS_MAX_HOLIDAYS);
    is_day(fots_workdays_add(&full, date_at(2459999), 1), date_at(2460000 + FOTS_MAX_HOLIDAYS), "past as many as there can be");
    many[7] = many[6];
    check(fots_workdays_new(31, many, 8).status == FOTS_INVALID_HOLIDAYS, "a holiday twice", 0, 0);
    many[7] = date_at(INT32_MAX);
    check(fots_workdays_new(31, many, 8).status == FOTS_INVALID_HOLIDAYS, "a holiday that is no date", 0, 0);

    /* Counts the published holidays of a year. */
    static const struct { uint32_t calendar; int32_t year, number; } calendars[] = {
        {FOTS_TARGET, 2024, 6}, {FOTS_US_FEDERAL, 2021, 12}, {FOTS_NYSE, 2025, 11}, {FOTS_ENGLAND_AND_WALES, 2022, 10},
        {FOTS_DE_BW, 2019, 12}, {FOTS_DE_BE, 2019, 10}, {FOTS_DE_TH, 2019, 11},
    };
    for (size_t row = 0; row < sizeof calendars / sizeof *calendars; row++) {
        const fots_date first = day(calendars[row].year, 1, 1), last = day(calendars[row].year, 12, 31);
        const fots_number_result found = fots_calendar_holidays(calendars[row].calendar, first, last, many, FOTS_MAX_HOLIDAYS);
        check(found.status == FOTS_OK && found.number == calendars[row].number, "holidays of a year", calendars[row].calendar, found.number);
        check(fots_calendar_holidays(calendars[row].calendar, first, last, many, (size_t)found.number - 1).status == FOTS_TOO_MANY_HOLIDAYS,
            "room for one less", calendars[row].calendar, 0);
    }
    fots_calendar_holidays(FOTS_US_FEDERAL, day(2021, 12, 1), day(2021, 12, 31), many, 2);
    check(many[0].julian_day == day(2021, 12, 24).julian_day && many[1].julian_day == day(2021, 12, 31).julian_day, "Christmas and New Year", 0, 0);
    check(fots_calendar_holidays(20, day(2024, 1, 1), day(2024, 1, 1), many, 1).status == FOTS_INVALID_CALENDAR, "no calendar", 0, 0);
    check(fots_calendar_holidays(0, date_at(INT32_MIN), day(2024, 1, 1), many, 1).status == FOTS_INVALID_DATE, "no first date", 0, 0);
    check(fots_calendar_holidays(0, day(2024, 1, 1), date_at(INT32_MAX), many, 1).status == FOTS_INVALID_DATE, "no last date", 0, 0);
    check(fots_calendar_holidays(0, day(2024, 1, 2), day(2024, 1, 1), many, 0).number == 0, "no days", 0, 0);
    holidays_of_rules();

    /* Compares random weeks and moves with a count of one day at a time. */
    for (int turn = 0; turn < DRAWN; turn++) {
        const uint32_t marks = (uint32_t)(drawn() % 127) + 1;
        const fots_workdays drawn_week = week_of(marks, holidays, 10);
        const fots_date date = date_at(holidays[0].julian_day - 40 + (int32_t)(drawn() % 440));
        const int32_t moves = (int32_t)(drawn() % 61) - 30;
        fots_date at = date;
        for (int32_t left = moves; left != 0 || (moves == 0 && !fots_workdays_contains(&drawn_week, at).number);) {
            at.julian_day += moves < 0 ? -1 : 1;
            int is_workday = (int)(marks >> (at.julian_day % 7) & 1);
            for (int row = 0; row < 10; row++) {
                is_workday = is_workday && at.julian_day != holidays[row].julian_day;
            }
            check((int)fots_workdays_contains(&drawn_week, at).number == is_workday, "a drawn day", at.julian_day, (long long)marks);
            left -= left == 0 ? 0 : is_workday * (moves < 0 ? -1 : 1);
        }
        is_day(fots_workdays_add(&drawn_week, date, moves), at, "drawn working days");
    }
}

/* A row: its weekdays end with a weekday of 0, and its other lists with 0. */
typedef struct {
    const char *text;
    uint32_t frequency, interval, week_start;
    uint8_t months[4];
    int8_t weeks[4];
    int16_t year_days[4];
    int8_t month_days[14];
    fots_rule_weekday weekdays[8];
    int16_t set_positions[4];
    int32_t start, until; /* such as 19970902; 0 for no end */
    int32_t days[12]; /* the first ones, up to a 0 */
    int ends; /* whether these are all */
} recurrence;

static fots_date of_number(int32_t number)
{
    return day(number / 10000, (uint32_t)(number / 100 % 100), (uint32_t)(number % 100));
}

/* The examples of RFC 5545 with their first days. */
static const recurrence recurrences[] = {
    {"FREQ=DAILY;INTERVAL=10;COUNT=5", FOTS_DAILY, 10, 1, {0}, {0}, {0}, {0}, {{0, 0}}, {0}, 19970902, 0, {19970902, 19970912, 19970922, 19971002, 19971012}, 0},
    {"FREQ=DAILY;UNTIL=19970905", FOTS_DAILY, 1, 1, {0}, {0}, {0}, {0}, {{0, 0}}, {0}, 19970902, 19970905, {19970902, 19970903, 19970904, 19970905}, 1},
    {"FREQ=WEEKLY;INTERVAL=2;WKST=SU", FOTS_WEEKLY, 2, 7, {0}, {0}, {0}, {0}, {{0, 0}}, {0}, 19970902, 0, {19970902, 19970916, 19970930, 19971014}, 0},
    {"FREQ=WEEKLY;UNTIL=19971006;WKST=SU;BYDAY=TU,TH", FOTS_WEEKLY, 1, 7, {0}, {0}, {0}, {0}, {{0, 2}, {0, 4}}, {0}, 19970902, 19971006,
        {19970902, 19970904, 19970909, 19970911, 19970916, 19970918, 19970923, 19970925, 19970930, 19971002}, 1},
    {"FREQ=WEEKLY;INTERVAL=2;COUNT=4;BYDAY=TU,SU;WKST=MO", FOTS_WEEKLY, 2, 1, {0}, {0}, {0}, {0}, {{0, 2}, {0, 7}}, {0}, 19970805, 0,
        {19970805, 19970810, 19970819, 19970824}, 0},
    {"FREQ=WEEKLY;INTERVAL=2;COUNT=4;BYDAY=TU,SU;WKST=SU", FOTS_WEEKLY, 2, 7, {0}, {0}, {0}, {0}, {{0, 2}, {0, 7}}, {0}, 19970805, 0,
        {19970805, 19970817, 19970819, 19970831}, 0},
    {"FREQ=MONTHLY;COUNT=10;BYDAY=1FR", FOTS_MONTHLY, 1, 1, {0}, {0}, {0}, {0}, {{1, 5}}, {0}, 19970905, 0, {19970905, 19971003, 19971107, 19971205, 19980102}, 0},
    {"FREQ=MONTHLY;INTERVAL=2;COUNT=10;BYDAY=1SU,-1SU", FOTS_MONTHLY, 2, 1, {0}, {0}, {0}, {0}, {{1, 7}, {-1, 7}}, {0}, 19970907, 0,
        {19970907, 19970928, 19971102, 19971130, 19980104, 19980125, 19980301, 19980329, 19980503, 19980531}, 0},
    {"FREQ=MONTHLY;COUNT=6;BYDAY=-2MO", FOTS_MONTHLY, 1, 1, {0}, {0}, {0}, {0}, {{-2, 1}}, {0}, 19970922, 0, {19970922, 19971020, 19971117, 19971222, 19980119, 19980216}, 0},
    {"FREQ=MONTHLY;BYMONTHDAY=-3", FOTS_MONTHLY, 1, 1, {0}, {0}, {0}, {-3}, {{0, 0}}, {0}, 19970928, 0, {19970928, 19971029, 19971128, 19971229, 19980129, 19980226}, 0},
    {"FREQ=MONTHLY;BYDAY=FR;BYMONTHDAY=13", FOTS_MONTHLY, 1, 1, {0}, {0}, {0}, {13}, {{0, 5}}, {0}, 19970902, 0, {19980213, 19980313, 19981113, 19990813, 20001013}, 0},
    {"FREQ=MONTHLY;BYDAY=SA;BYMONTHDAY=7,8,9,10,11,12,13", FOTS_MONTHLY, 1, 1, {0}, {0}, {0}, {7, 8, 9, 10, 11, 12, 13}, {{0, 6}}, {0}, 19970913, 0,
        {19970913, 19971011, 19971108, 19971213, 19980110, 19980207, 19980307, 19980411, 19980509, 19980613}, 0},
    {"FREQ=YEARLY;COUNT=10;BYMONTH=6,7", FOTS_YEARLY, 1, 1, {6, 7}, {0}, {0}, {0}, {{0, 0}}, {0}, 19970610, 0, {19970610, 19970710, 19980610, 19980710, 19990610}, 0},
    {"FREQ=YEARLY;BYDAY=20MO", FOTS_YEARLY, 1, 1, {0}, {0}, {0}, {0}, {{20, 1}}, {0}, 19970519, 0, {19970519, 19980518, 19990517}, 0},
    {"FREQ=YEARLY;BYMONTH=3;BYDAY=TH", FOTS_YEARLY, 1, 1, {3}, {0}, {0}, {0}, {{0, 4}}, {0}, 19970313, 0,
        {19970313, 19970320, 19970327, 19980305, 19980312, 19980319, 19980326, 19990304, 19990311, 19990318, 19990325}, 0},
    {"FREQ=YEARLY;INTERVAL=4;BYMONTH=11;BYDAY=TU;BYMONTHDAY=2,3,4,5,6,7,8", FOTS_YEARLY, 4, 1, {11}, {0}, {0}, {2, 3, 4, 5, 6, 7, 8}, {{0, 2}}, {0}, 19961105, 0,
        {19961105, 20001107, 20041102}, 0},
    {"FREQ=YEARLY;INTERVAL=3;COUNT=10;BYYEARDAY=1,100,200", FOTS_YEARLY, 3, 1, {0}, {0}, {1, 100, 200}, {0}, {{0, 0}}, {0}, 19970101, 0,
        {19970101, 19970410, 19970719, 20000101, 20000409, 20000718, 20030101, 20030410, 20030719, 20060101}, 0},
    {"FREQ=YEARLY;BYWEEKNO=20;BYDAY=MO", FOTS_YEARLY, 1, 1, {0}, {20}, {0}, {0}, {{0, 1}}, {0}, 19970512, 0, {19970512, 19980511, 19990517}, 0},
    {"FREQ=MONTHLY;COUNT=3;BYDAY=TU,WE,TH;BYSETPOS=3", FOTS_MONTHLY, 1, 1, {0}, {0}, {0}, {0}, {{0, 2}, {0, 3}, {0, 4}}, {3}, 19970904, 0,
        {19970904, 19971007, 19971106}, 0},
    {"FREQ=MONTHLY;BYDAY=MO,TU,WE,TH,FR;BYSETPOS=-2", FOTS_MONTHLY, 1, 1, {0}, {0}, {0}, {0}, {{0, 1}, {0, 2}, {0, 3}, {0, 4}, {0, 5}}, {-2},
        19970929, 0, {19970929, 19971030, 19971127, 19971230, 19980129, 19980226, 19980330}, 0},
};

/* Whether two lists are equal. */
#define SAME(list) \
    (said.list##_length == rule->list##_length && memcmp(said.list, rule->list, sizeof *rule->list * rule->list##_length) == 0)

/* Sets a list of a rule to the values of a row up to a 0. */
#define SET(list, value) \
    for (rule.list = its->list; its->list[rule.list##_length] value != 0; rule.list##_length++) {}

static fots_recurrence_result of_text(const char *text, fots_date start, fots_date from, fots_date *days, size_t length)
{
    return fots_recurrence_days(text, strlen(text), start, from, days, length);
}

/* Checks the days of a row by pages of 1, 2 and 3 days, and from its second day on. The days end if
 * the row has all of them, or else after those of COUNT. */
static void by_pages(const recurrence *its)
{
    const fots_date start = of_number(its->start);
    const char *count = strstr(its->text, "COUNT=");
    size_t length = 0;
    while (length < (size_t)COUNT(its->days) && its->days[length] != 0) {
        length++;
    }
    const int ends = its->ends || (count != NULL && (size_t)atoi(count + strlen("COUNT=")) == length);
    for (size_t size = 1; size <= 3; size++) {
        for (size_t first = 0; first < 2; first++) {
            fots_recurrence_cursor cursor = fots_recurrence_cursor_new(its->text, strlen(its->text)).cursor;
            const fots_date from = first == 0 ? start : of_number(its->days[first]);
            size_t written = size;
            for (size_t index = first; index < length && written == size; index += written) {
                fots_date page[3];
                written = fots_recurrence_next_days(its->text, strlen(its->text), start, from, &cursor, page, size).length;
                check(written == size || (ends && index + written == length), its->text, (long long)index, (long long)written);
                for (size_t k = 0; k < written && index + k < length; k++) {
                    check(page[k].julian_day == of_number(its->days[index + k]).julian_day, its->text, (long long)index, page[k].julian_day);
                }
                check(written == 0 || cursor.date.julian_day == page[written - 1].julian_day, its->text, cursor.date.julian_day, (long long)written);
            }
        }
    }
}

/* Checks the text of a row: all days to COUNT, and each one from the day after the previous. */
static void by_its_text(const recurrence *its)
{
    const fots_date start = of_number(its->start);
    fots_date found[COUNT(its->days)], from = start;
    const fots_recurrence_result written = of_text(its->text, start, start, found, COUNT(found));
    check(written.status == FOTS_OK && written.part == 0 && written.position == SIZE_MAX, its->text, written.status, (long long)written.position);
    size_t length = 0;
    for (; length < (size_t)COUNT(found) && its->days[length] != 0; length++) {
        const fots_date wanted = of_number(its->days[length]);
        check(length < written.length && found[length].julian_day == wanted.julian_day, its->text, (long long)length, (long long)written.length);
        fots_date one;
        const fots_recurrence_result next = of_text(its->text, start, from, &one, 1);
        check(next.status == FOTS_OK && next.length == 1 && one.julian_day == wanted.julian_day, its->text, from.julian_day, wanted.julian_day);
        from = date_at(wanted.julian_day + 1);
    }
    const char *count = strstr(its->text, "COUNT=");
    if (its->ends || count != NULL) {
        const size_t wanted = its->ends ? length : (size_t)atoi(count + strlen("COUNT="));
        check(written.length == wanted, its->text, (long long)written.length, (long long)wanted);
        from = date_at(found[written.length - 1].julian_day);
        check(of_text(its->text, start, from, found, COUNT(found)).length == 1, its->text, from.julian_day, 0);
        from.julian_day++;
        check(of_text(its->text, start, from, found, COUNT(found)).length == 0, its->text, from.julian_day, 0);
    }
}

/* Checks the parts of its text, and their rule. */
static void by_its_parts(const recurrence *its, const fots_rule *rule)
{
    const fots_parse_recurrence_result read = fots_recurrence_parse(its->text, strlen(its->text));
    const fots_rule said = fots_recurrence_rule(&read.recurrence, rule->start);
    const char *count = strstr(its->text, "COUNT=");
    check(read.status == FOTS_OK && read.part == 0 && read.position == SIZE_MAX, its->text, read.status, (long long)read.position);
    check(read.recurrence.count == (count == NULL ? 0 : (uint32_t)atoi(count + strlen("COUNT="))), its->text, read.recurrence.count, 0);
    check((read.recurrence.until.julian_day == FOTS_NO_VALUE) == (its->until == 0), its->text, read.recurrence.until.julian_day, 0);
    check(said.start.julian_day == rule->start.julian_day && said.until.julian_day == rule->until.julian_day, its->text, said.until.julian_day, 0);
    check(said.frequency == rule->frequency && said.interval == rule->interval && said.week_start == rule->week_start, its->text, said.interval, 0);
    check(SAME(months) && SAME(weeks) && SAME(year_days) && SAME(month_days) && SAME(weekdays) && SAME(set_positions), its->text, 0, 0);
    check(said.dates_length == 0 && said.exceptions_length == 0, its->text, 0, 0);
    for (size_t index = said.weekdays_length; index < 62; index++) {
        check(said.weekdays[index].number == 0 && said.weekdays[index].weekday == 0, its->text, (long long)index, 0);
    }
}

/* Checks the first day, the next ones, a column of them, and the days in between. */
static void recurrences_of_the_rfc(void)
{
    for (int row = 0; row < COUNT(recurrences); row++) {
        const recurrence *its = &recurrences[row];
        by_its_text(its);
        by_pages(its);
        fots_rule rule = fots_rule_new(of_number(its->start), its->frequency);
        rule.interval = its->interval;
        rule.week_start = its->week_start;
        if (its->until != 0) {
            rule.until = of_number(its->until);
        }
        SET(months, )
        SET(weeks, )
        SET(year_days, )
        SET(month_days, )
        SET(weekdays, .weekday)
        SET(set_positions, )
        by_its_parts(its, &rule);
        fots_date found[COUNT(its->days)];
        const fots_days_result written = fots_rule_days_after(&rule, date_at(rule.start.julian_day - 1), found, COUNT(found));
        check(written.status == FOTS_OK && written.length <= (size_t)COUNT(found), its->text, row, (long long)written.length);
        fots_date_result next = fots_rule_first(&rule);
        size_t index = 0;
        for (; index < (size_t)COUNT(found) && its->days[index] != 0; index++) {
            is_day(next, of_number(its->days[index]), its->text);
            check(found[index].julian_day == next.date.julian_day, its->text, row, (long long)index);
            const fots_date_result previous = fots_rule_previous_before(&rule, next.date);
            if (index == 0) {
                is_error(previous, FOTS_RESULT_OUT_OF_RANGE, its->text);
            } else {
                is_day(previous, of_number(its->days[index - 1]), its->text);
            }
            const fots_date_result after = fots_rule_next_after(&rule, next.date);
            for (fots_date date = next.date; date.julian_day <= next.date.julian_day + 6; date.julian_day++) {
                const int is_one = date.julian_day == next.date.julian_day || (after.status == FOTS_OK && after.date.julian_day <= date.julian_day);
                if (after.status != FOTS_OK || date.julian_day <= after.date.julian_day) {
                    check((int)fots_rule_contains(&rule, date).number == is_one, its->text, row, date.julian_day);
                }
            }
            next = after;
        }
        if (its->ends) {
            is_error(next, FOTS_RESULT_OUT_OF_RANGE, its->text);
            check(written.length == index, its->text, row, (long long)written.length);
        }
    }
}

static void rule_errors(void)
{
    const fots_rule daily = fots_rule_new(day(2024, 1, 1), FOTS_DAILY);
    fots_date days[3] = {{1}, {2}, {3}};
    check(fots_rule_days_after(&daily, daily.start, days, 0).length == 0 && days[0].julian_day == 1, "no room", 0, 0);
    check(fots_rule_days_after(&daily, daily.start, days, 2).length == 2 && days[2].julian_day == 3, "room for two", 0, 0);
    is_day(fots_rule_next_after(&daily, date_at(FOTS_MIN_JULIAN_DAY)), day(2024, 1, 1), "the start, from long before");
    is_error(fots_rule_next_after(&daily, date_at(FOTS_MAX_JULIAN_DAY)), FOTS_RESULT_OUT_OF_RANGE, "past the last day");
    check(fots_rule_days_after(&daily, date_at(FOTS_MAX_JULIAN_DAY - 2), days, 3).length == 2, "the last two days", 0, 0);
    const uint8_t february = 2;
    const int8_t the_30th = 30;
    fots_rule never = daily;
    never.months = &february;
    never.months_length = 1;
    never.month_days = &the_30th;
    never.month_days_length = 1;
    is_error(fots_rule_first(&never), FOTS_RESULT_OUT_OF_RANGE, "30 February");
    check(fots_rule_days_after(&never, never.start, days, 3).length == 0, "30 February", 0, 0);

    static uint8_t months[FOTS_MAX_VALUES + 1];
    static int8_t month_days[FOTS_MAX_VALUES + 1];
    static int16_t numbers[FOTS_MAX_VALUES + 1];
    static fots_rule_weekday weekdays[FOTS_MAX_VALUES + 1];
    for (int index = 0; index <= FOTS_MAX_VALUES; index++) {
        months[index] = (uint8_t)(index % 12 + 1);
        month_days[index] = (int8_t)(index - 31);
        numbers[index] = (int16_t)(index - 31);
        weekdays[index].number = (int8_t)(index / 7 - 4);
        weekdays[index].weekday = (uint8_t)(index % 7 + 1);
    }
    fots_rule rule = daily;
    rule.months = months;
    rule.weeks = month_days;
    rule.year_days = numbers;
    rule.month_days = month_days;
    rule.weekdays = weekdays;
    rule.set_positions = numbers;
    rule.months_length = 62;
    rule.weeks_length = 62;
    rule.year_days_length = 62;
    rule.set_positions_length = 62;
    rule.month_days_length = 62;
    rule.weekdays_length = 62;
    is_day(fots_rule_first(&rule), day(2024, 1, 1), "as many parts as there can be");
    /* From the last part to the first, each is wrong before the parts that are wrong already. */
    weekdays[61].weekday = 8;
    is_error(fots_rule_first(&rule), FOTS_INVALID_WEEKDAY, "weekday 8");
    weekdays[61].weekday = 0;
    is_error(fots_rule_first(&rule), FOTS_INVALID_WEEKDAY, "weekday 0");
    months[61] = 13;
    is_error(fots_rule_first(&rule), FOTS_MONTH_OUT_OF_RANGE, "month 13");
    months[61] = 0;
    is_error(fots_rule_first(&rule), FOTS_MONTH_OUT_OF_RANGE, "month 0");
    rule.months_length = 63;
    is_error(fots_rule_first(&rule), FOTS_TOO_MANY_PARTS, "63 months");
    rule.months_length = 62;
    rule.weeks_length = 63;
    is_error(fots_rule_first(&rule), FOTS_TOO_MANY_PARTS, "63 weeks");
    rule.weeks_length = 62;
    rule.year_days_length = 63;
    is_error(fots_rule_first(&rule), FOTS_TOO_MANY_PARTS, "63 days of the year");
    rule.year_days_length = 62;
    rule.set_positions_length = 63;
    is_error(fots_rule_first(&rule), FOTS_TOO_MANY_PARTS, "63 positions");
    rule.set_positions_length = 62;
    rule.month_days_length = 63;
    is_error(fots_rule_first(&rule), FOTS_TOO_MANY_PARTS, "63 days of the month");
    rule.month_days_length = 62;
    rule.weekdays_length = 63;
    is_error(fots_rule_first(&rule), FOTS_TOO_MANY_PARTS, "63 weekdays");
    rule.week_start = 8;
    is_error(fots_rule_first(&rule), FOTS_INVALID_WEEKDAY, "a week that begins with weekday 8");
    rule.frequency = 5;
    is_error(fots_rule_first(&rule), FOTS_INVALID_FREQUENCY, "frequency 5");
    rule.frequency = 0;
    is_error(fots_rule_first(&rule), FOTS_INVALID_FREQUENCY, "frequency 0");
    rule.until = date_at(FOTS_MAX_JULIAN_DAY + 1);
    is_error(fots_rule_first(&rule), FOTS_INVALID_DATE, "until no date");
    is_error(fots_rule_next_after(&rule, date_at(0)), FOTS_INVALID_DATE, "until no date");
    rule = daily;
    rule.start = date_at(FOTS_NO_VALUE);
    is_error(fots_rule_next_after(&rule, date_at(0)), FOTS_INVALID_DATE, "from no date");
    is_error(fots_rule_next_after(&daily, date_at(FOTS_NO_VALUE)), FOTS_INVALID_DATE, "after no date");
    is_error(fots_rule_previous_before(&daily, date_at(FOTS_NO_VALUE)), FOTS_INVALID_DATE, "before no date");
    is_error(fots_rule_previous_before(&daily, daily.start), FOTS_RESULT_OUT_OF_RANGE, "before the start");
    check(fots_rule_contains(&daily, date_at(FOTS_NO_VALUE)).number == FOTS_NO_COMPONENT, "no date of a rule", 0, 0);
    days[0].julian_day = 1;
    const fots_days_result none = fots_rule_days_after(&daily, date_at(FOTS_NO_VALUE), days, 3);
    check(none.status == FOTS_INVALID_DATE && none.length == 0 && days[0].julian_day == 1, "days after no date", none.status, 0);
    check(fots_rule_days_after(&rule, daily.start, days, 3).status == FOTS_INVALID_DATE && days[0].julian_day == 1, "days from no date", 0, 0);
}

/* Checks that a rule with lists of dates has exactly these days. */
static void has_days(const fots_rule *rule, const fots_date *wanted, size_t length, const char *what)
{
    fots_date found[16];
    fots_date_result next = fots_rule_first(rule);
    const fots_days_result written = fots_rule_days_after(rule, date_at(FOTS_MIN_JULIAN_DAY), found, COUNT(found));
    check(written.status == FOTS_OK && written.length == length, what, written.status, (long long)written.length);
    is_error(fots_rule_previous_before(rule, wanted[0]), FOTS_RESULT_OUT_OF_RANGE, what);
    for (size_t index = 0; index < length; index++) {
        is_day(next, wanted[index], what);
        check(found[index].julian_day == wanted[index].julian_day, what, (long long)index, found[index].julian_day);
        next = fots_rule_next_after(rule, wanted[index]);
        const int32_t end = index + 1 < length ? wanted[index + 1].julian_day : wanted[index].julian_day + 40;
        is_day(fots_rule_previous_before(rule, date_at(end)), wanted[index], what);
        for (fots_date date = wanted[index]; date.julian_day < end; date.julian_day++) {
            check(fots_rule_contains(rule, date).number == (date.julian_day == wanted[index].julian_day), what, (long long)index, date.julian_day);
        }
    }
    is_error(next, FOTS_RESULT_OUT_OF_RANGE, what);
}

/* Sets of RFC 5545: its example of RDATE, its Fridays the 13th, and a set with the days that dateutil gives. */
static void sets(void)
{
    const int32_t holidays[] = {19970101, 19970120, 19970217, 19970421, 19970526, 19970704, 19970901, 19971014, 19971128, 19971129, 19971225};
    const int32_t dates[] = {20240223, 20231225, 20240229, 20240701, 20240201, 20231225, 20240229};
    const int32_t exceptions[] = {20240531, 20240126, 20240701, 20240102, 20240126};
    const int32_t days[] = {20231225, 20240201, 20240223, 20240229, 20240329, 20240426, 20240628};
    const int32_t fridays[] = {19980213, 19980313, 19981113, 19990813, 20001013};
    fots_date list[16], left_out[16], wanted[16];
    fots_rule rule = fots_rule_new(day(1997, 9, 2), FOTS_DAILY);
    rule.until = day(1997, 9, 1);
    for (size_t index = 0; index < (size_t)COUNT(holidays); index++) {
        wanted[index] = of_number(holidays[index]);
        list[COUNT(holidays) - 1 - index] = wanted[index];
    }
    rule.dates = list;
    rule.dates_length = COUNT(holidays);
    has_days(&rule, wanted, COUNT(holidays), "RDATE");

    const fots_rule_weekday last_friday = {-1, 5};
    rule = fots_rule_new(day(2024, 1, 1), FOTS_MONTHLY);
    rule.until = day(2024, 6, 30);
    rule.weekdays = &last_friday;
    rule.weekdays_length = 1;
    for (size_t index = 0; index < (size_t)COUNT(dates); index++) {
        list[index] = of_number(dates[index]);
        wanted[index] = of_number(days[index]);
        left_out[index] = of_number(exceptions[index % (size_t)COUNT(exceptions)]);
    }
    rule.dates = list;
    rule.dates_length = COUNT(dates);
    rule.exceptions = left_out;
    rule.exceptions_length = COUNT(exceptions);
    has_days(&rule, wanted, COUNT(days), "RDATE and EXDATE");

    const fots_rule_weekday friday = {0, 5};
    const int8_t the_13th = 13;
    rule = fots_rule_new(day(1997, 9, 2), FOTS_MONTHLY);
    rule.until = day(2000, 12, 31);
    rule.weekdays = &friday;
    rule.weekdays_length = 1;
    rule.month_days = &the_13th;
    rule.month_days_length = 1;
    rule.exceptions = &rule.start;
    rule.exceptions_length = 1;
    for (size_t index = 0; index < (size_t)COUNT(fridays); index++) {
        wanted[index] = of_number(fridays[index]);
    }
    has_days(&rule, wanted, COUNT(fridays), "EXDATE");
}

/* The longest lists of dates, and wrong ones. */
static void set_errors(void)
{
    static fots_date dates[FOTS_MAX_DATES + 1], exceptions[FOTS_MAX_DATES + 1], days[FOTS_MAX_DATES + 1];
    fots_rule rule = fots_rule_new(date_at(0), FOTS_DAILY);
    rule.until = date_at(FOTS_MAX_DATES - 1);
    for (int index = 0; index <= FOTS_MAX_DATES; index++) {
        dates[index] = date_at(-index);
        exceptions[index] = date_at(FOTS_MAX_DATES - 1 - index);
    }
    rule.dates = dates + 1;
    rule.dates_length = FOTS_MAX_DATES;
    rule.exceptions = exceptions;
    rule.exceptions_length = FOTS_MAX_DATES;
    check(fots_rule_days_after(&rule, date_at(FOTS_MIN_JULIAN_DAY), days, FOTS_MAX_DATES + 1).length == FOTS_MAX_DATES, "1024 dates", 0, 0);
    is_day(fots_rule_first(&rule), date_at(-FOTS_MAX_DATES), "the last of 1024 dates");
    is_error(fots_rule_next_after(&rule, date_at(-1)), FOTS_RESULT_OUT_OF_RANGE, "1024 exceptions");
    rule.exceptions_length = FOTS_MAX_DATES - 1;
    is_day(fots_rule_next_after(&rule, date_at(-1)), date_at(0), "1023 exceptions");
    is_error(fots_rule_next_after(&rule, date_at(FOTS_NO_VALUE)), FOTS_INVALID_DATE, "after no date");
    /* From the last check to the first. */
    exceptions[FOTS_MAX_DATES - 2] = date_at(FOTS_MAX_JULIAN_DAY + 1);
    is_error(fots_rule_first(&rule), FOTS_INVALID_DATE, "an exception that is no date");
    rule.exceptions_length = FOTS_MAX_DATES - 2;
    dates[FOTS_MAX_DATES] = date_at(FOTS_MIN_JULIAN_DAY - 1);
    is_error(fots_rule_previous_before(&rule, date_at(0)), FOTS_INVALID_DATE, "another day that is no date");
    rule.exceptions_length = FOTS_MAX_DATES + 1;
    is_error(fots_rule_first(&rule), FOTS_TOO_MANY_DATES, "1025 exceptions");
    rule.exceptions_length = 0;
    rule.dates = dates;
    rule.dates_length = FOTS_MAX_DATES + 1;
    is_error(fots_rule_first(&rule), FOTS_TOO_MANY_DATES, "1025 dates");
    check(fots_rule_contains(&rule, date_at(0)).status == FOTS_TOO_MANY_DATES, "1025 dates", 0, 0);
    check(fots_rule_days_after(&rule, date_at(0), days, 1).status == FOTS_TOO_MANY_DATES, "1025 dates", 0, 0);
    const uint8_t no_month = 13;
    rule.months = &no_month;
    rule.months_length = 1;
    is_error(fots_rule_first(&rule), FOTS_MONTH_OUT_OF_RANGE, "month 13 before 1025 dates");
}

/* Checks that each call accepts a rule of every day with lists of this length, or rejects it as too long. */
static void accepts_up_to_62(const fots_rule *rule, const char *made, long long length, int lists)
{
    const int32_t status = length <= 62 ? FOTS_OK : FOTS_TOO_MANY_PARTS;
    fots_date days[2] = {{1}, {2}};
    const fots_days_result written = fots_rule_days_after(rule, rule->start, days, 1);
    check(fots_rule_first(rule).status == status, made, length, lists);
    check(fots_rule_next_after(rule, rule->start).status == status, made, length, lists);
    check(fots_rule_contains(rule, rule->start).status == status, made, length, lists);
    check(written.status == status && (days[0].julian_day == 1) == (status != FOTS_OK) && days[1].julian_day == 2, made, length, lists);
}

/* Sets the lengths of the lists that the bits select to a length, and of the others to 0. */
#define SET_LENGTHS(its) \
    its.months_length = (lists & 1) == 0 ? 0 : lengths[row]; \
    its.month_days_length = (lists & 2) == 0 ? 0 : lengths[row]; \
    its.weekdays_length = (lists & 4) == 0 ? 0 : lengths[row]; \
    its.weeks_length = (lists & 8) == 0 ? 0 : lengths[row]; \
    its.year_days_length = (lists & 16) == 0 ? 0 : lengths[row]; \
    its.set_positions_length = (lists & 32) == 0 ? 0 : lengths[row];

/* Checks lengths of each list around the limit. */
static void long_lists(void)
{
    static const size_t lengths[] = {0, 1, 61, 62, 63, 64, 65, 100000};
    static uint8_t months[100000];
    static int8_t month_days[100000];
    static int16_t year_days[100000];
    static fots_rule_weekday weekdays[100000];
    for (int index = 0; index < COUNT(months); index++) {
        months[index] = (uint8_t)(index % 12 + 1);
        month_days[index] = (int8_t)(index % 31 + 1);
        year_days[index] = (int16_t)(index % 366 + 1);
        weekdays[index].weekday = (uint8_t)(index % 7 + 1);
    }
    for (int row = 0; row < COUNT(lengths); row++) {
        for (int lists = 1; lists < 64; lists++) {
            fots_rule rule = fots_rule_new(day(2024, 1, 1), FOTS_DAILY);
            rule.months = months;
            rule.weeks = month_days;
            rule.year_days = year_days;
            rule.month_days = month_days;
            rule.weekdays = weekdays;
            rule.set_positions = year_days;
            SET_LENGTHS(rule)
            accepts_up_to_62(&rule, "a list of a rule", (long long)lengths[row], lists);
        }
    }
}

/* Fills the lists of a recurrence of every day, and checks lengths of each list around the limit. */
static void filled_by_hand(void)
{
    static const uint32_t lengths[] = {0, 1, 61, 62, 63, 64, 65, 100000, UINT32_MAX - 1, (uint32_t)SIZE_MAX};
    fots_recurrence *const recurrence = calloc(1, sizeof *recurrence);
    if (recurrence == NULL) {
        check(0, "memory", 0, 0);
        return;
    }
    *recurrence = fots_recurrence_parse("FREQ=DAILY", 10).recurrence;
    for (int index = 0; index < 62; index++) {
        recurrence->months[index] = (uint8_t)(index % 12 + 1);
        recurrence->weeks[index] = (int8_t)(index + 1);
        recurrence->year_days[index] = (int16_t)(index + 1);
        recurrence->month_days[index] = (int8_t)(index < 31 ? index + 1 : 30 - index);
        recurrence->weekdays[index].weekday = (uint8_t)(index % 7 + 1);
        recurrence->set_positions[index] = (int16_t)(index + 1);
    }
    for (int row = 0; row < COUNT(lengths); row++) {
        for (int lists = 1; lists < 64; lists++) {
            SET_LENGTHS((*recurrence))
            const fots_rule rule = fots_recurrence_rule(recurrence, day(2024, 1, 1));
            check(rule.months_length <= 63 && rule.month_days_length <= 62 && rule.weekdays_length <= 62, "inside the struct", lengths[row], lists);
            check(rule.weeks_length <= 62 && rule.year_days_length <= 62 && rule.set_positions_length <= 62, "inside the struct", lengths[row], lists);
            accepts_up_to_62(&rule, "a recurrence filled by hand", lengths[row], lists);
        }
    }
    free(recurrence);
}

/* Checks the written text, which parses as the same. The last one has full lists. */
static void texts_in_one_order(void)
{
    static char words[2048] = "FREQ=MONTHLY;INTERVAL=4294967295;COUNT=4294967295", *at;
    static const struct {
        const char *text, *written;
    } rows[] = {
        {"byday=-01fr;count=3;freq=monthly", "FREQ=MONTHLY;COUNT=3;BYDAY=-1FR"},
        {"WKST=MO;FREQ=DAILY;INTERVAL=1", "FREQ=DAILY"},
        {"FREQ=WEEKLY;INTERVAL=2;COUNT=4;BYDAY=TU,SU;WKST=SU", "FREQ=WEEKLY;INTERVAL=2;COUNT=4;BYDAY=TU,SU;WKST=SU"},
        {"FREQ=MONTHLY;BYDAY=FR;BYMONTHDAY=13", "FREQ=MONTHLY;BYMONTHDAY=13;BYDAY=FR"},
        {"byday=tu,+02we,-1su;bymonthday=-31,+07;bymonth=06,12;until=19971231;wkst=su;interval=002;freq=yearly",
            "FREQ=YEARLY;INTERVAL=2;UNTIL=19971231;BYMONTH=6,12;BYMONTHDAY=-31,7;BYDAY=TU,2WE,-1SU;WKST=SU"},
        {"freq=yearly;bysetpos=-366,+002;byday=mo;byyearday=-001,100;byweekno=53,-01",
            "FREQ=YEARLY;BYWEEKNO=53,-1;BYYEARDAY=-1,100;BYDAY=MO;BYSETPOS=-366,2"},
        {"byhour=09,17;freq=daily;until=20241231t235960z", "FREQ=DAILY;UNTIL=20241231T235959Z;BYHOUR=9,17"},
        {words, words},
    };
    for (int list = 0; list < 4; list++) {
        static const char *const names[] = {";BYMONTH=", ";BYMONTHDAY=", ";BYDAY=", ";BYSETPOS="}, *const values[] = {"12,", "-31,", "-53WE,", "-366,"};
        at = strcat(words, names[list]);
        for (int value = 0; value < 62; value++) {
            strcat(words, values[list]);
        }
        at[strlen(at) - 1] = 0;
    }
    strcat(words, ";WKST=SU");
    const size_t sizeof_fields = offsetof(fots_recurrence, set_positions) + FOTS_MAX_VALUES * sizeof(int16_t);
    for (int row = 0; row < COUNT(rows); row++) {
        const size_t length = strlen(rows[row].written);
        const fots_recurrence_text_result text = fots_recurrence_text(rows[row].text, strlen(rows[row].text));
        check(text.status == FOTS_OK && text.part == 0 && text.position == SIZE_MAX, rows[row].text, text.status, 0);
        check(text.length == length && strcmp(text.bytes, rows[row].written) == 0, text.bytes, text.length, (long long)length);
        for (size_t index = length; index < sizeof text.bytes; index++) {
            check(text.bytes[index] == 0, "a byte after the text", row, (long long)index);
        }
        const fots_parse_recurrence_result read = fots_recurrence_parse(rows[row].text, strlen(rows[row].text));
        const fots_parse_recurrence_result again = fots_recurrence_parse(text.bytes, text.length);
        check(again.status == FOTS_OK && memcmp(&read.recurrence, &again.recurrence, sizeof_fields) == 0, "read again", row, 0);
    }
    const fots_parse_recurrence_result longest = fots_recurrence_parse(words, strlen(words));
    const fots_rule rule = fots_recurrence_rule(&longest.recurrence, day(2024, 1, 1));
    check(rule.months_length == 62 && rule.months[61] == 12 && rule.month_days[61] == -31 && rule.weekdays[61].number == -53
        && rule.set_positions_length == 62 && rule.set_positions[61] == -366 && rule.weeks_length == 0 && rule.year_days_length == 0, "full lists", 0, 0);
    is_error(fots_rule_first(&rule), FOTS_RESULT_OUT_OF_RANGE, "no 53rd Wednesday of a month");
}

/* Checks the first wrong part, its position and its reason, and one value too many. */
static void text_errors(void)
{
    static const struct {
        const char *text;
        int32_t status;
        uint32_t part;
        size_t position;
    } rows[] = {
        {"", FOTS_UNKNOWN_PART, 0, 0},
        {"FREQ=MONTHLY;HOUR=9;BYDAY=FR", FOTS_UNKNOWN_PART, 0, 13},
        {"FREQ=DAILY;", FOTS_UNKNOWN_PART, 0, 11},
        {"FREQ=DAILY;UNTIL=20241231;COUNT=3", FOTS_DUPLICATE_PART, FOTS_RULE_COUNT, 26},
        {"FREQ=DAILY;freq=daily", FOTS_DUPLICATE_PART, FOTS_RULE_FREQ, 11},
        {"FREQ=HOURLYS;COUNT=0", FOTS_INVALID_VALUE, FOTS_RULE_FREQ, 0},
        {"FREQ=HOURLY;COUNT=0", FOTS_INVALID_VALUE, FOTS_RULE_COUNT, 12},
        {"FREQ=DAILY;INTERVAL=0", FOTS_INVALID_VALUE, FOTS_RULE_INTERVAL, 11},
        {"FREQ=DAILY;WKST=1MO", FOTS_INVALID_VALUE, FOTS_RULE_WKST, 11},
        {"FREQ=DAILY;BYMONTH=12,13", FOTS_INVALID_VALUE, FOTS_RULE_BYMONTH, 11},
        {"FREQ=DAILY;BYMONTHDAY=-32", FOTS_INVALID_VALUE, FOTS_RULE_BYMONTHDAY, 11},
        {"FREQ=DAILY;BYDAY=54MO", FOTS_INVALID_VALUE, FOTS_RULE_BYDAY, 11},
        {"FREQ=DAILY;UNTIL=20241231T240000Z", FOTS_INVALID_VALUE, FOTS_RULE_UNTIL, 11},
        {"FREQ=DAILY;COUNT=4294967296", FOTS_INVALID_VALUE, FOTS_RULE_COUNT, 11},
        {"FREQ=YEARLY;BYWEEKNO=54", FOTS_INVALID_VALUE, FOTS_RULE_BYWEEKNO, 12},
        {"FREQ=DAILY;BYHOUR=24", FOTS_INVALID_VALUE, FOTS_RULE_BYHOUR, 11},
        {"FREQ=DAILY;BYMINUTE=60", FOTS_INVALID_VALUE, FOTS_RULE_BYMINUTE, 11},
        {"FREQ=DAILY;BYSECOND=61", FOTS_INVALID_VALUE, FOTS_RULE_BYSECOND, 11},
        {"FREQ=YEARLY;BYYEARDAY=0", FOTS_INVALID_VALUE, FOTS_RULE_BYYEARDAY, 12},
        {"FREQ=YEARLY;BYDAY=MO;BYSETPOS=367", FOTS_INVALID_VALUE, FOTS_RULE_BYSETPOS, 21},
        {"FREQ=YEARLY;BYSETPOS=1", FOTS_INVALID_VALUE, FOTS_RULE_BYSETPOS, 12},
        {"BYWEEKNO=1;FREQ=MONTHLY", FOTS_INVALID_VALUE, FOTS_RULE_FREQ, 11},
        {"FREQ=MONTHLY;BYYEARDAY=1", FOTS_INVALID_VALUE, FOTS_RULE_BYYEARDAY, 13},
        {"FREQ=WEEKLY;BYMONTHDAY=1", FOTS_INVALID_VALUE, FOTS_RULE_BYMONTHDAY, 12},
        {"FREQ=YEARLY;BYDAY=1MO;BYWEEKNO=20", FOTS_INVALID_VALUE, FOTS_RULE_BYWEEKNO, 22},
        {"BYDAY=MO", FOTS_MISSING_FREQUENCY, 0, 8},
    };
    fots_date days[2] = {{1}, {2}};
    for (int row = 0; row < COUNT(rows); row++) {
        const fots_recurrence_result found = of_text(rows[row].text, date_at(FOTS_NO_VALUE), date_at(0), days, 2);
        check(found.status == rows[row].status && found.part == rows[row].part && found.position == rows[row].position && found.length == 0
            && days[0].julian_day == 1, rows[row].text, found.status, (long long)found.position);
        const fots_parse_recurrence_result read = fots_recurrence_parse(rows[row].text, strlen(rows[row].text));
        check(read.status == found.status && read.part == found.part && read.position == found.position, rows[row].text, read.status, 0);
        check(read.recurrence.frequency == 0 && read.recurrence.until.julian_day == FOTS_NO_VALUE && read.recurrence.weekdays_length == 0
            && read.recurrence.weekdays[61].weekday == 0, rows[row].text, read.recurrence.frequency, 0);
        const fots_recurrence_text_result text = fots_recurrence_text(rows[row].text, strlen(rows[row].text));
        check(text.status == found.status && text.part == found.part && text.position == found.position && text.length == 0 && text.bytes[0] == 0,
            rows[row].text, text.status, text.length);
    }
    char many[256] = "FREQ=MONTHLY;BYMONTHDAY=1";
    for (int word = 2; word <= 62; word++) {
        strcat(many, ",1");
    }
    const fots_date start = day(2024, 1, 15);
    check(of_text(many, start, start, days, 1).length == 1 && days[0].julian_day == day(2024, 2, 1).julian_day, "62 values", days[0].julian_day, 0);
    const fots_recurrence_result found = of_text(strcat(many, ",1"), start, start, days, 2);
    check(found.status == FOTS_TOO_MANY_VALUES && found.part == FOTS_RULE_BYMONTHDAY && found.position == 13, "63 values", found.status, 0);

    const char *daily = "FREQ=DAILY";
    days[0].julian_day = 1;
    check(of_text(daily, start, date_at(FOTS_NO_VALUE), days, 2).status == FOTS_INVALID_DATE, "from no date", 0, 0);
    const fots_recurrence_result invalid = of_text(daily, date_at(FOTS_MAX_JULIAN_DAY + 1), start, days, 2);
    check(invalid.status == FOTS_INVALID_DATE && invalid.position == SIZE_MAX && invalid.length == 0 && days[0].julian_day == 1, "no start", invalid.status, 0);
    check(of_text(daily, start, start, days, 0).status == FOTS_OK && days[0].julian_day == 1, "no room", 0, 0);
    check(of_text(daily, start, date_at(FOTS_MIN_JULIAN_DAY), days, 1).length == 1 && days[0].julian_day == start.julian_day, "before the start", 0, 0);
    check(of_text(daily, date_at(FOTS_MAX_JULIAN_DAY), date_at(FOTS_MAX_JULIAN_DAY), days, 2).length == 1, "the last day", 0, 0);
    check(of_text("FREQ=YEARLY;BYMONTH=2;BYMONTHDAY=30", start, start, days, 2).length == 0, "30 February", 0, 0);
}

static fots_moment reading(uint32_t month, uint32_t of_month, uint32_t hour, uint32_t minute)
{
    const fots_moment made = {day(2024, month, of_month), {0}, (hour * 60ULL + minute) * 60000000000ULL};
    return made;
}

static int is_moment(fots_moment moment, fots_moment wanted, int32_t offset)
{
    return moment.date.julian_day == wanted.date.julian_day && moment.time == wanted.time && moment.offset.seconds == offset;
}

static void is_written(fots_recurrence_result result, size_t length, const char *what)
{
    check(result.status == FOTS_OK && result.part == 0 && result.position == SIZE_MAX && result.length == length, what, result.status, (long long)result.length);
}

static fots_recurrence_set set_of(const char *text, fots_moment start)
{
    return fots_recurrence_set_new(text, strlen(text), start);
}

/* "Every 20 minutes from 9:00 AM to 4:40 PM every day" of RFC 5545, and a rule with other readings. */
/* The examples of RFC 5545 by hours and minutes. Days of such a rule don't exist. */
static void hours(void)
{
    static const struct {
        const char *text;
        size_t length;
        uint32_t minutes;
    } rows[] = {{"FREQ=HOURLY;INTERVAL=3;UNTIL=20240902T170000", 3, 180}, {"FREQ=MINUTELY;INTERVAL=15;COUNT=6", 6, 15}, {"FREQ=MINUTELY;INTERVAL=90;COUNT=4", 4, 90},
        {"FREQ=MINUTELY;INTERVAL=20;BYHOUR=9,10,11,12,13,14,15,16;COUNT=24", 24, 20}, {"FREQ=SECONDLY;INTERVAL=60;COUNT=3", 3, 1}};
    fots_moment found[50];
    for (size_t row = 0; row < COUNT(rows); row++) {
        const fots_recurrence_set set = set_of(rows[row].text, reading(9, 2, 9, 0));
        is_written(fots_recurrence_readings(&set, reading(1, 1, 0, 0), found, COUNT(found)), rows[row].length, rows[row].text);
        for (uint32_t index = 0; index < rows[row].length; index++) {
            const uint32_t minute = 540 + index * rows[row].minutes;
            check(is_moment(found[index], reading(9, 2, minute / 60, minute % 60), 0), rows[row].text, index, (long long)found[index].time);
        }
    }
    const fots_parse_recurrence_result parsed = fots_recurrence_parse("FREQ=SECONDLY;COUNT=3", 21);
    check(parsed.status == FOTS_OK && parsed.recurrence.frequency == FOTS_SECONDLY && parsed.recurrence.count == 3, "parts", parsed.status, parsed.recurrence.frequency);
    check(strcmp(fots_recurrence_text("COUNT=3;FREQ=HOURLY", 19).bytes, "FREQ=HOURLY;COUNT=3") == 0, "a text", 0, 0);
    fots_date days[1];
    const fots_recurrence_result none = fots_recurrence_days("COUNT=3;FREQ=HOURLY", 19, (fots_date){2450694}, (fots_date){2450694}, days, 1);
    check(none.status == FOTS_INVALID_VALUE && none.part == FOTS_RULE_FREQ && none.position == 8, "days by hours", none.status, (long long)none.position);
}

static void times_of_day(void)
{
    fots_moment found[50];
    fots_recurrence_set set = set_of("FREQ=DAILY;BYHOUR=9,10,11,12,13,14,15,16;BYMINUTE=0,20,40", reading(9, 2, 9, 0));
    is_written(fots_recurrence_readings(&set, reading(9, 3, 8, 59), found, COUNT(found)), (size_t)COUNT(found), "every 20 minutes");
    for (uint32_t index = 0; index < (uint32_t)COUNT(found); index++) {
        check(is_moment(found[index], reading(9, 3 + index / 24, 9 + index % 24 / 3, index % 3 * 20), 0), "every 20 minutes", index, (long long)found[index].time);
    }
    set = set_of("FREQ=DAILY;BYHOUR=9,17;COUNT=3", reading(9, 2, 9, 0));
    const fots_moment more[2] = {reading(1, 1, 0, 0), reading(9, 3, 9, 0)}, less[2] = {reading(9, 2, 9, 0), reading(9, 4, 9, 0)};
    set.dates = more;
    set.dates_length = 2;
    set.exceptions = less;
    set.exceptions_length = 2;
    found[3].time = 1;
    is_written(fots_recurrence_readings(&set, reading(1, 1, 0, 0), found, COUNT(found)), 3, "a set");
    check(is_moment(found[0], more[0], 0) && is_moment(found[1], reading(9, 2, 17, 0), 0) && is_moment(found[2], more[1], 0) && found[3].time == 1, "a set", 0, 0);
    is_written(fots_recurrence_readings(&set, reading(9, 2, 17, 0), found, 1), 1, "one of a set");
    check(is_moment(found[0], reading(9, 2, 17, 0), 0) && is_moment(found[1], reading(9, 2, 17, 0), 0), "one of a set", 0, 0);
    is_written(fots_recurrence_readings(&set, reading(9, 3, 9, 1), found, 9), 0, "after a set");
}

static void times_in_zones(void)
{
    static const char text[] = "CET-1CEST,M3.5.0,M10.5.0/3";
    fots_zone berlin = fots_zone_from_posix(text, sizeof text - 1).zone;
    fots_moment found[9];
    fots_recurrence_set set = set_of("FREQ=WEEKLY;BYDAY=SU,MO;BYHOUR=2,3;BYMINUTE=30;UNTIL=20240407T003000Z", reading(3, 30, 0, 0));
    is_written(fots_recurrence_moments(&set, &berlin, reading(1, 1, 0, 0), found, COUNT(found)), 4, "in Berlin");
    check(is_moment(found[0], reading(3, 31, 3, 30), 7200) && is_moment(found[1], reading(4, 1, 2, 30), 7200) && is_moment(found[2], reading(4, 1, 3, 30), 7200)
        && is_moment(found[3], reading(4, 7, 2, 30), 7200), "in Berlin", found[0].offset.seconds, found[3].offset.seconds);
    /* An exception is a reading of the gap, which means the same moment as another. */
    const fots_moment gap = reading(3, 31, 2, 30);
    set.exceptions = &gap;
    set.exceptions_length = 1;
    is_written(fots_recurrence_moments(&set, &berlin, reading(3, 31, 1, 29), found, 1), 1, "the other reading");
    check(is_moment(found[0], reading(3, 31, 3, 30), 7200), "the other reading", found[0].offset.seconds, 0);
    is_written(fots_recurrence_moments(&set, &berlin, reading(3, 31, 1, 30), found, 1), 1, "after a moment");
    check(is_moment(found[0], reading(4, 1, 2, 30), 7200), "after a moment", found[0].offset.seconds, 0);
    /* An UNTIL ends the rule, and not the other readings. */
    const fots_moment later = reading(4, 8, 2, 30);
    set.dates = &later;
    set.dates_length = 1;
    is_written(fots_recurrence_moments(&set, &berlin, reading(4, 7, 0, 0), found, COUNT(found)), 2, "after the rule");
    check(is_moment(found[0], reading(4, 7, 2, 30), 7200) && is_moment(found[1], later, 7200), "after the rule", found[0].offset.seconds, found[1].offset.seconds);
    set = set_of("FREQ=DAILY;BYHOUR=2,3;COUNT=4", reading(10, 26, 2, 30));
    is_written(fots_recurrence_moments(&set, &berlin, reading(10, 27, 0, 0), found, COUNT(found)), 2, "in the fold");
    check(is_moment(found[0], reading(10, 27, 2, 30), 7200) && is_moment(found[1], reading(10, 27, 3, 30), 3600), "in the fold", found[0].offset.seconds, 0);
    berlin.bytes_length = 3;
    found[0].time = 1;
    const fots_recurrence_result cut = fots_recurrence_moments(&set, &berlin, reading(10, 27, 0, 0), found, 2);
    check(cut.status == FOTS_INVALID_ZONE && cut.length == 0 && cut.position == SIZE_MAX && found[0].time == 1, "without an offset", cut.status, 0);
}

/* The first and the last days of long counts. */
static void long_counts(void)
{
    static const char utc[] = "UTC0";
    static const struct {
        const char *text;
        uint32_t first;
        int length;
    } counts[] = {
        {"FREQ=DAILY;COUNT=4294967295", 0, 300},
        {"FREQ=DAILY;COUNT=4294967295", 5000, 300},
        {"FREQ=DAILY;COUNT=64", 0, 64},
        {"FREQ=DAILY;COUNT=65", 0, 65},
        {"FREQ=DAILY;COUNT=5100", 5000, 100},
        {"FREQ=DAILY;COUNT=5000", 5000, 0},
    };
    const fots_zone zone = fots_zone_from_posix(utc, sizeof utc - 1).zone;
    for (int row = 0; row < COUNT(counts); row++) {
        fots_moment found[300];
        const int32_t first = reading(1, 1, 9, 0).date.julian_day + (int32_t)counts[row].first;
        fots_moment from = reading(1, 1, 9, 0), after = reading(1, 1, 8, 0);
        from.date.julian_day = after.date.julian_day = first;
        const fots_recurrence_set set = set_of(counts[row].text, reading(1, 1, 9, 0));
        for (int turn = 0; turn < 2; turn++) {
            is_written(turn == 0 ? fots_recurrence_readings(&set, from, found, COUNT(found)) : fots_recurrence_moments(&set, &zone, after, found, COUNT(found)),
                (size_t)counts[row].length, counts[row].text);
            for (int index = 0; index < counts[row].length; index++) {
                check(found[index].date.julian_day == first + index && found[index].time == from.time, counts[row].text, turn, index);
            }
        }
    }
}

/* A million days by pages of a thousand, and the last one by a first page that skips to it. The
 * millionth day from 2024-01-01 on is 4761-11-27. */
static void long_pages(void)
{
    static const char text[] = "FREQ=DAILY;COUNT=1000000";
    static fots_date page[1000];
    const fots_date start = day(2024, 1, 1), last = day(4761, 11, 27);
    fots_recurrence_cursor cursor = fots_recurrence_cursor_new(text, strlen(text)).cursor;
    check(cursor.date.julian_day == FOTS_NO_VALUE && cursor.left == 1000000 && cursor.time == 0, text, cursor.left, 0);
    for (int32_t first = 0; first < 1000000; first += 1000) {
        is_written(fots_recurrence_next_days(text, strlen(text), start, start, &cursor, page, 1000), 1000, text);
        check(page[0].julian_day == start.julian_day + first && page[999].julian_day == start.julian_day + first + 999, text, first, page[0].julian_day);
        check(cursor.left == (uint32_t)(999000 - first) && cursor.date.julian_day == page[999].julian_day, text, first, cursor.left);
    }
    check(page[999].julian_day == last.julian_day, text, page[999].julian_day, last.julian_day);
    is_written(fots_recurrence_next_days(text, strlen(text), start, start, &cursor, page, 1000), 0, text);
    cursor = fots_recurrence_cursor_new(text, strlen(text)).cursor;
    is_written(fots_recurrence_next_days(text, strlen(text), start, last, &cursor, page, 0), 0, text);
    check(cursor.left == 1 && cursor.date.julian_day == last.julian_day - 1, text, cursor.left, cursor.date.julian_day);
    is_written(fots_recurrence_next_days(text, strlen(text), start, last, &cursor, page, 1000), 1, text);
    check(page[0].julian_day == last.julian_day && cursor.left == 0, text, page[0].julian_day, cursor.left);
}

/* The example of RFC 5545 by pages, with another reading and without one, and in a zone. */
static void pages_of_readings(void)
{
    static const char text[] = "FREQ=DAILY;BYHOUR=9,10,11,12,13,14,15,16;BYMINUTE=0,20,40;COUNT=200", utc[] = "UTC0";
    const fots_zone zone = fots_zone_from_posix(utc, sizeof utc - 1).zone;
    const fots_moment more = reading(9, 2, 8, 30), less = reading(9, 2, 9, 20);
    fots_recurrence_set set = set_of(text, reading(9, 2, 9, 0));
    set.dates = &more;
    set.exceptions = &less;
    set.dates_length = set.exceptions_length = 1;
    for (uint32_t turn = 0; turn < 6; turn++) {
        const size_t size = turn / 2 + 1;
        fots_recurrence_cursor cursor = fots_recurrence_cursor_new(text, strlen(text)).cursor;
        fots_moment page[3], from = reading(1, 1, 0, 0);
        size_t written = size;
        /* The readings without the one that is left out. The first one is the other reading. */
        for (uint32_t index = 0; written == size; index += (uint32_t)written) {
            const fots_recurrence_result result = turn % 2 == 0 ? fots_recurrence_next_readings(&set, from, &cursor, page, size)
                                                               : fots_recurrence_next_moments(&set, &zone, from, &cursor, page, size);
            written = result.length;
            check(result.status == FOTS_OK && (written == size || index + written == 200), text, index, (long long)written);
            for (uint32_t k = 0; k < written; k++) {
                const uint32_t nth = index + k < 2 ? index + k - 1 : index + k;
                const fots_moment wanted = index + k == 0 ? more : reading(9, 2 + nth / 24, 9 + nth % 24 / 3, nth % 3 * 20);
                check(is_moment(page[k], wanted, 0), text, index + k, (long long)page[k].time);
                from = page[k];
                from.time += turn % 2 == 0;
            }
            check(cursor.left < 200 && cursor.time != 0, text, cursor.left, (long long)cursor.time);
        }
        check(cursor.left == 0 && cursor.date.julian_day == reading(9, 10, 0, 0).date.julian_day, text, cursor.left, cursor.date.julian_day);
    }
}

/* After an error a cursor is as before. Any numbers of a cursor are valid. */
static void wrong_cursors(void)
{
    static const char utc[] = "UTC0", daily[] = "FREQ=DAILY;COUNT=9";
    const fots_date start = day(2024, 1, 1);
    fots_zone zone = fots_zone_from_posix(utc, sizeof utc - 1).zone;
    fots_date days[9] = {{1}};
    fots_moment moments[9] = {{{1}, {0}, 0}};
    const fots_recurrence_cursor before = {{5}, 3, 7};
    fots_recurrence_cursor cursor = before;
    const fots_recurrence_cursor_result unread = fots_recurrence_cursor_new("FREQ=DAILY;COUNT=x", 18);
    check(unread.status == FOTS_INVALID_VALUE && unread.part == FOTS_RULE_COUNT && unread.position == 11, "a cursor of no text", unread.status, (long long)unread.position);
    check(unread.cursor.date.julian_day == FOTS_NO_VALUE && unread.cursor.left == 0 && unread.cursor.time == 0, "a cursor of no text", unread.cursor.left, 0);
    const fots_recurrence_cursor_result all = fots_recurrence_cursor_new("FREQ=HOURLY", 11);
    check(all.status == FOTS_OK && all.part == 0 && all.position == SIZE_MAX && all.cursor.left == UINT32_MAX, "a cursor without COUNT", all.status, all.cursor.left);
    check(fots_recurrence_next_days("FREQ=X", 6, start, start, &cursor, days, 9).status == FOTS_INVALID_VALUE, "days of no text", 0, 0);
    check(fots_recurrence_next_days(daily, 18, date_at(FOTS_NO_VALUE), start, &cursor, days, 9).status == FOTS_INVALID_DATE, "days from no start", 0, 0);
    check(fots_recurrence_next_days(daily, 18, start, date_at(FOTS_NO_VALUE), &cursor, days, 9).status == FOTS_INVALID_DATE, "days from no date", 0, 0);
    for (int turn = 0; turn < 4; turn++) {
        const int32_t wanted = turn == 0 ? FOTS_INVALID_ZONE : turn == 1 ? FOTS_INVALID_MOMENT : turn == 2 ? FOTS_TOO_MANY_DATES : FOTS_UNKNOWN_PART;
        fots_recurrence_set set = set_of(daily, reading(1, 1, turn == 0 ? 9 : 24, 0));
        zone.bytes_length = 0;
        set.dates_length = turn > 1 ? FOTS_MAX_DATES + 1 : 0;
        set.text_length = turn == 3 ? 0 : set.text_length;
        check(turn == 0 || fots_recurrence_next_readings(&set, reading(1, 1, 0, 0), &cursor, moments, 9).status == wanted, "readings of no set", turn, wanted);
        check(fots_recurrence_next_moments(&set, &zone, reading(1, 1, 0, 0), &cursor, moments, 9).status == wanted, "moments of no set", turn, wanted);
    }
    check(memcmp(&cursor, &before, sizeof cursor) == 0 && days[0].julian_day == 1 && moments[0].date.julian_day == 1, "after errors", cursor.left, days[0].julian_day);
    /* Nothing is counted up to no date. */
    cursor.date.julian_day = FOTS_MAX_JULIAN_DAY + 1;
    is_written(fots_recurrence_next_days(daily, 18, start, start, &cursor, days, 9), 3, "no date");
    check(days[0].julian_day == start.julian_day && cursor.left == 0 && cursor.time == 0, "no date", days[0].julian_day, cursor.left);
    fots_recurrence_set set = set_of(daily, reading(1, 1, 9, 0));
    cursor = before;
    cursor.time = UINT64_MAX;
    is_written(fots_recurrence_next_readings(&set, reading(1, 1, 0, 0), &cursor, moments, 9), 3, "no time");
    check(is_moment(moments[2], reading(1, 3, 9, 0), 0) && cursor.left == 0, "no time", moments[2].date.julian_day, cursor.left);
}

/* Every seventh day from a Saturday is no Monday, so only the other days are left. A search for a
 * Monday takes as long as many thousand steps, and isn't made again for each of them. */
static void rule_without_days(void)
{
    static const char text[] = "FREQ=DAILY;INTERVAL=7;BYDAY=MO", utc[] = "UTC0";
    static fots_moment more[FOTS_MAX_DATES], found[FOTS_MAX_DATES + 1];
    static fots_date dates[FOTS_MAX_DATES], days[FOTS_MAX_DATES + 1];
    const fots_moment saturday = reading(1, 6, 9, 0);
    for (int index = 0; index < FOTS_MAX_DATES; index++) {
        more[index] = saturday;
        more[index].date.julian_day += 3 * (FOTS_MAX_DATES - index);
        dates[index] = more[index].date;
    }
    fots_recurrence_set set = set_of(text, saturday);
    set.dates = more;
    set.dates_length = FOTS_MAX_DATES;
    const fots_zone zone = fots_zone_from_posix(utc, sizeof utc - 1).zone;
    for (int turn = 0; turn < 2; turn++) {
        is_written(turn == 0 ? fots_recurrence_readings(&set, saturday, found, COUNT(found)) : fots_recurrence_moments(&set, &zone, saturday, found, COUNT(found)),
            FOTS_MAX_DATES, text);
        for (int index = 0; index < FOTS_MAX_DATES; index++) {
            check(is_moment(found[index], more[FOTS_MAX_DATES - 1 - index], 0), text, turn, index);
        }
    }
    const fots_rule_weekday monday = {0, 1};
    fots_rule rule = fots_rule_new(saturday.date, FOTS_DAILY);
    rule.interval = 7;
    rule.weekdays = &monday;
    rule.weekdays_length = 1;
    rule.dates = dates;
    rule.dates_length = FOTS_MAX_DATES;
    check(fots_rule_days_after(&rule, saturday.date, days, COUNT(days)).length == FOTS_MAX_DATES, text, 2, 0);
    for (int index = 0; index < FOTS_MAX_DATES; index++) {
        check(days[index].julian_day == dates[FOTS_MAX_DATES - 1 - index].julian_day, text, 2, index);
    }
    rule.exceptions = dates;
    rule.exceptions_length = FOTS_MAX_DATES;
    is_error(fots_rule_next_after(&rule, saturday.date), FOTS_RESULT_OUT_OF_RANGE, text);
}

/* From the last part to the first, each is wrong before the parts that are wrong already. */
static void time_errors(void)
{
    static const char utc[] = "UTC0";
    static fots_moment many[FOTS_MAX_DATES + 1];
    fots_zone zone = fots_zone_from_posix(utc, sizeof utc - 1).zone;
    fots_moment found = reading(1, 1, 0, 0), invalid = found;
    invalid.time = 86400000000000ULL;
    for (int index = 0; index <= FOTS_MAX_DATES; index++) {
        many[index] = reading(1, 1, 1, 0);
    }
    fots_recurrence_set set = set_of("FREQ=DAILY", found);
    set.dates = many;
    set.exceptions = many;
    set.dates_length = FOTS_MAX_DATES;
    set.exceptions_length = FOTS_MAX_DATES;
    is_written(fots_recurrence_readings(&set, found, &found, 0), 0, "no room");
    is_written(fots_recurrence_moments(&set, &zone, found, &found, 0), 0, "no room");
    is_written(fots_recurrence_readings(&set, found, &found, 1), 1, "as many as there can be");
    for (int turn = 0; turn < 8; turn++) {
        const int32_t wanted = turn < 5 ? FOTS_INVALID_MOMENT : turn < 7 ? FOTS_TOO_MANY_DATES : FOTS_UNKNOWN_PART;
        zone.bytes_length = 0;
        many[FOTS_MAX_DATES - 1] = turn == 1 || turn == 2 ? invalid : many[0];
        set.dates = turn == 2 ? &many[1] : many;
        many[FOTS_MAX_DATES - 1].date.julian_day += turn == 3 ? FOTS_MAX_JULIAN_DAY : 0;
        many[FOTS_MAX_DATES - 1].offset.seconds = turn == 4 ? 93600 : 0;
        set.start = turn == 0 || turn > 4 ? invalid : found;
        set.dates_length = turn == 5 ? FOTS_MAX_DATES + 1 : FOTS_MAX_DATES;
        set.exceptions_length = turn == 6 ? FOTS_MAX_DATES + 1 : turn == 2 ? 0 : FOTS_MAX_DATES;
        set.text_length = turn == 7 ? 0 : 10;
        const fots_recurrence_result one = fots_recurrence_readings(&set, found, &found, 1), other = fots_recurrence_moments(&set, &zone, found, &found, 1);
        check(one.status == wanted && one.length == 0 && one.position == (turn == 7 ? 0 : SIZE_MAX), "an invalid set", turn, one.status);
        check(other.status == wanted && other.length == 0 && other.position == one.position, "an invalid set in a zone", turn, other.status);
    }
    set = set_of("FREQ=DAILY", found);
    check(fots_recurrence_readings(&set, invalid, &found, 1).status == FOTS_INVALID_MOMENT, "from no moment", 0, 0);
    check(fots_recurrence_moments(&set, &zone, invalid, &found, 1).status == FOTS_INVALID_MOMENT, "after no moment", 0, 0);
    check(fots_recurrence_moments(&set, &zone, found, &found, 1).status == FOTS_INVALID_ZONE, "in no zone", 0, 0);
    check(is_moment(found, reading(1, 1, 0, 0), 0), "an array after errors", found.date.julian_day, (long long)found.time);
}

static void invalid_dates(void)
{
    static const int32_t invalid[] = {FOTS_MIN_JULIAN_DAY - 1, FOTS_MAX_JULIAN_DAY + 1, INT32_MIN, INT32_MAX};
    for (int row = 0; row < COUNT(invalid); row++) {
        const fots_date date = date_at(invalid[row]);
        is_error(fots_date_add_months(date, 0), FOTS_INVALID_DATE, "no date and months");
        is_error(fots_date_add_years(date, 0), FOTS_INVALID_DATE, "no date and years");
        is_error(fots_date_first_of_month(date), FOTS_INVALID_DATE, "the first of no date");
        is_error(fots_date_on_or_after(date, 8), FOTS_INVALID_DATE, "no date and no weekday");
        check(fots_date_months_until(date_at(0), date).status == FOTS_INVALID_DATE, "months until no date", invalid[row], 0);
        check(fots_date_period_until(date, date_at(0)).years == FOTS_NO_VALUE, "the period from no date", invalid[row], 0);
        check(fots_date_quarter(date).number == FOTS_NO_COMPONENT, "the quarter of no date", invalid[row], 0);
        check(fots_date_day_count(date, date, 9).status == FOTS_INVALID_DATE, "the day count of no date", invalid[row], 0);
    }
}

/* Each name has its number, and back. */
static void names(void)
{
    const fots_names *const tables[] = {fots_policy_names(), fots_unit_names(), fots_rounding_mode_names(), fots_day_count_names(), fots_convention_names(),
        fots_calendar_names()};
    for (size_t at = 0; at < sizeof tables / sizeof tables[0]; at++) {
        for (uint32_t number = 0; number < 24; number++) {
            const char *const name = fots_name_of(tables[at], number);
            check(!name || fots_number_named(tables[at], name, strlen(name)) == number, tables[at]->what, number, 0);
            check(!name || strstr(tables[at]->expected, name), "an expected name", (long long)at, number);
        }
        check(fots_number_named(tables[at], "", 0) == FOTS_NO_NUMBER && !fots_name_of(tables[at], UINT32_MAX), "no name", (long long)at, 0);
    }
    check(fots_number_named(tables[0], "later", 5) == FOTS_LATER && fots_number_named(tables[0], "laterx", 6) == FOTS_NO_NUMBER, "policies", 0, 0);
    check(fots_number_named(tables[1], "quarter", 7) == FOTS_QUARTER && fots_number_named(tables[2], "half even", 9) == FOTS_HALF_EVEN, "units and modes", 0, 0);
    check(fots_number_named(tables[3], "30e/360", 7) == FOTS_THIRTY_E_360 && fots_number_named(tables[4], "preceding", 9) == FOTS_PRECEDING, "day counts and conventions", 0, 0);
    check(fots_number_named(tables[5], "nyse", 4) == FOTS_NYSE && fots_number_named(tables[5], "de-th", 5) == FOTS_DE_TH, "calendars", 0, 0);
}

int main(void)
{
    names();
    months();
    ranges();
    easter();
    ends();
    day_counts();
    workdays();
    drawn_months();
    recurrences_of_the_rfc();
    rule_errors();
    sets();
    set_errors();
    long_lists();
    filled_by_hand();
    texts_in_one_order();
    text_errors();
    times_of_day();
    hours();
    times_in_zones();
    long_counts();
    long_pages();
    pages_of_readings();
    wrong_cursors();
    rule_without_days();
    time_errors();
    invalid_dates();
    return ended("schedule");
}
