/* Tries invalid arguments, random or with every bit pattern. A call returns the status of the
 * first one and no value. Valid arguments never give that status. Also tries bytes that are not
 * a text. */
#include <string.h>

#include "fotsevindre.h"
#include "testing.h"

#define COUNT(values) ((int)(sizeof(values) / sizeof(values)[0]))
#define DRAWN 400

static uint64_t drawn(void)
{
    static uint64_t state = 88172645463325252ULL;
    state ^= state << 13;
    state ^= state >> 7;
    state ^= state << 17;
    return state;
}

static int is_date(fots_date date)
{
    return date.julian_day >= FOTS_MIN_JULIAN_DAY && date.julian_day <= FOTS_MAX_JULIAN_DAY;
}

static int is_time(fots_time time)
{
    return time <= FOTS_MAX_TIME;
}

static int is_offset(fots_offset offset)
{
    return offset.seconds >= -FOTS_MAX_OFFSET_SECONDS && offset.seconds <= FOTS_MAX_OFFSET_SECONDS;
}

static int is_duration(fots_duration duration)
{
    return duration.nanoseconds > -1000000000 && duration.nanoseconds < 1000000000
        && !(duration.seconds > 0 && duration.nanoseconds < 0) && !(duration.seconds < 0 && duration.nanoseconds > 0);
}

static int is_weekday(uint32_t weekday)
{
    return weekday >= 1 && weekday <= 7;
}

static int is_month(uint32_t month)
{
    return month >= 1 && month <= 12;
}

/* Return the status of the first invalid argument, or FOTS_OK. */
static int32_t of_date(fots_date date)
{
    return is_date(date) ? FOTS_OK : FOTS_INVALID_DATE;
}

static int32_t of_duration(fots_duration duration)
{
    return is_duration(duration) ? FOTS_OK : FOTS_INVALID_DURATION;
}

static int32_t of_time(fots_time time)
{
    return is_time(time) ? FOTS_OK : FOTS_INVALID_TIME;
}

static int32_t of_offset(fots_offset offset)
{
    return is_offset(offset) ? FOTS_OK : FOTS_INVALID_OFFSET;
}

static int32_t first_of(int32_t one, int32_t other)
{
    return one != FOTS_OK ? one : other;
}

/* Checks the expected status, or for valid arguments one that no invalid argument gives. */
static void status_is(int32_t wanted, int32_t status, int has_value, const char *what, long long first, long long second)
{
    int fits = wanted != FOTS_OK ? status == wanted
        : status == FOTS_OK || status == FOTS_RESULT_OUT_OF_RANGE || status == FOTS_INVALID_COUNT || (status >= FOTS_YEAR_OUT_OF_RANGE
            && status <= FOTS_WEEKDAY_OUT_OF_RANGE);
    check(fits, what, first, second);
    check((status == FOTS_OK) == has_value, what, first, second);
}

/* Returns the length of a text, or -1 if it is not ASCII and then zero bytes. */
static int bytes_of_text(const fots_text_result *result)
{
    size_t k = 0;
    while (k < sizeof(result->bytes) && result->bytes[k] > ' ' && result->bytes[k] <= '~') {
        k++;
    }
    for (size_t rest = k; rest < sizeof(result->bytes); rest++) {
        if (result->bytes[rest] != 0) {
            return -1;
        }
    }
    return k == result->length && k <= 38 ? (int)k : -1;
}

#define DATE(wanted, call) \
    do { \
        fots_date_result result = call; \
        status_is(wanted, result.status, is_date(result.date), #call, julian_day, result.status); \
        check(result.status == FOTS_OK || result.date.julian_day == FOTS_NO_VALUE, #call, julian_day, result.date.julian_day); \
    } while (0)
#define NUMBER(wanted, call, first) \
    do { \
        fots_number_result result = call; \
        status_is(wanted, result.status, result.number != FOTS_NO_VALUE, #call, (long long)(first), result.status); \
    } while (0)
#define COMPONENT(wanted, call, first) \
    do { \
        fots_component_result result = call; \
        status_is(wanted, result.status, result.number != FOTS_NO_COMPONENT, #call, (long long)(first), result.status); \
    } while (0)
#define INT64(wanted, call) \
    do { \
        fots_int64_result result = call; \
        int fits = wanted != FOTS_OK ? result.status == wanted : result.status == FOTS_OK || result.status == FOTS_RESULT_OUT_OF_RANGE; \
        check(fits, #call, duration.seconds, result.status); \
        check(result.status == FOTS_OK || result.number == INT64_MIN, #call, duration.seconds, result.status); \
    } while (0)
#define TIME(wanted, call) \
    do { \
        fots_time_result result = call; \
        status_is(wanted, result.status, is_time(result.time), #call, (long long)time, result.status); \
        check(result.status == FOTS_OK || result.time == FOTS_NO_TIME, #call, (long long)time, result.status); \
    } while (0)
#define TEXT(wanted, call, first) \
    do { \
        fots_text_result result = call; \
        status_is(wanted, result.status, bytes_of_text(&result) > 0, #call, (long long)(first), result.status); \
        check(bytes_of_text(&result) >= 0, #call, (long long)(first), result.length); \
    } while (0)
#define DURATION(wanted, call, first) \
    do { \
        fots_duration_result result = call; \
        status_is(wanted, result.status, is_duration(result.duration), #call, (long long)(first), result.status); \
    } while (0)

/* Takes every 32 bits as a date: an error outside the range, and years in order inside. */
static void every_date(int32_t from, int32_t to)
{
    int32_t year = INT32_MIN;
    for (int64_t bits = from; bits <= to; bits++) {
        fots_date date = date_at((int32_t)bits);
        fots_number_result result = fots_date_year(date);
        if (is_date(date)) {
            int in_order = result.status == FOTS_OK && result.number >= FOTS_MIN_YEAR && result.number <= FOTS_MAX_YEAR
                && (year == INT32_MIN || result.number == year || result.number == year + 1);
            check(in_order, "the year of a date", bits, result.number);
            year = result.number;
        } else {
            check(result.status == FOTS_INVALID_DATE && result.number == FOTS_NO_VALUE, "the year of no date", bits, result.number);
        }
    }
}

/* Takes every 32 bits as an offset. */
static void every_offset(int32_t from, int32_t to)
{
    for (int64_t bits = from; bits <= to; bits++) {
        fots_offset offset = offset_at((int32_t)bits);
        fots_number_result result = fots_offset_whole_minutes(offset);
        if (is_offset(offset)) {
            check(result.status == FOTS_OK && result.number == bits / 60, "the minutes of an offset", bits, result.number);
        } else {
            check(result.status == FOTS_INVALID_OFFSET && result.number == FOTS_NO_VALUE, "the minutes of no offset", bits, result.number);
        }
    }
}

static void dates(int32_t julian_day, uint32_t number, fots_duration duration)
{
    fots_date date = date_at(julian_day), other = date_at((int32_t)number);
    int32_t wrong = of_date(date), with_duration = first_of(wrong, of_duration(duration));
    int32_t with_weekday = first_of(wrong, is_weekday(number) ? FOTS_OK : FOTS_INVALID_WEEKDAY);
    fots_calendar_date_result calendar = fots_date_to_calendar_date(date);
    fots_ordinal_date_result ordinal = fots_date_to_ordinal_date(date);
    fots_iso_week_date_result week = fots_date_to_iso_week_date(date);
    status_is(wrong, calendar.status, calendar.month != 0, "to_calendar_date", julian_day, calendar.year);
    status_is(wrong, ordinal.status, ordinal.ordinal != 0, "to_ordinal_date", julian_day, ordinal.year);
    status_is(wrong, week.status, week.week != 0, "to_iso_week_date", julian_day, week.year);
    NUMBER(wrong, fots_date_year(date), julian_day);
    COMPONENT(wrong, fots_date_month(date), julian_day);
    COMPONENT(wrong, fots_date_day(date), julian_day);
    COMPONENT(wrong, fots_date_ordinal(date), julian_day);
    COMPONENT(wrong, fots_date_iso_week(date), julian_day);
    COMPONENT(wrong, fots_date_weekday(date), julian_day);
    COMPONENT(wrong, fots_date_sunday_based_week(date), julian_day);
    COMPONENT(wrong, fots_date_monday_based_week(date), julian_day);
    TEXT(wrong, fots_date_calendar_text(date), julian_day);
    TEXT(wrong, fots_date_ordinal_text(date), julian_day);
    TEXT(wrong, fots_date_week_text(date), julian_day);
    TEXT(wrong, fots_date_julian_text(date), julian_day);
    DATE(wrong, fots_date_next_day(date));
    DATE(wrong, fots_date_previous_day(date));
    DATE(wrong, fots_date_add_days(date, duration.seconds));
    DATE(with_duration, fots_date_checked_add(date, duration));
    DATE(with_duration, fots_date_checked_sub(date, duration));
    DATE(with_duration, fots_date_saturating_add(date, duration));
    DATE(with_duration, fots_date_saturating_sub(date, duration));
    DURATION(first_of(wrong, of_date(other)), fots_date_duration_since(date, other), julian_day);
    DATE(with_weekday, fots_date_next_occurrence(date, number));
    DATE(with_weekday, fots_date_prev_occurrence(date, number));
    DATE(with_weekday, fots_date_nth_next_occurrence(date, number, (uint32_t)duration.nanoseconds));
    DATE(with_weekday, fots_date_nth_prev_occurrence(date, number, (uint32_t)duration.nanoseconds));
    DATE(wrong, fots_date_replace_year(date, (int32_t)number));
    DATE(first_of(wrong, is_month(number) ? FOTS_OK : FOTS_MONTH_OUT_OF_RANGE), fots_date_replace_month(date, number));
    DATE(wrong, fots_date_replace_day(date, number));
    DATE(wrong, fots_date_replace_ordinal(date, number));
    DATE(FOTS_OK, fots_date_from_julian_day(duration.seconds));
    DATE(is_month(number) ? FOTS_OK : FOTS_MONTH_OUT_OF_RANGE, fots_date_from_calendar_date(julian_day, number, (uint32_t)duration.nanoseconds));
    DATE(FOTS_OK, fots_date_from_ordinal_date(julian_day, number));
    DATE(is_weekday(number) ? FOTS_OK : FOTS_INVALID_WEEKDAY, fots_date_from_iso_week_date(julian_day, (uint32_t)duration.nanoseconds,
        number));
}

static void months(int32_t julian_day, uint32_t number, int32_t count)
{
    fots_date date = date_at(julian_day), other = date_at((int32_t)number);
    int32_t wrong = of_date(date), with_other = first_of(wrong, of_date(other));
    int32_t no_weekday = is_weekday(number) ? FOTS_OK : FOTS_INVALID_WEEKDAY;
    fots_period_result period = fots_date_period_until(date, other);
    fots_year_fraction_result fraction = fots_date_day_count(date, other, (uint32_t)count);
    status_is(with_other, period.status, period.days != FOTS_NO_VALUE, "period_until", julian_day, period.days);
    status_is(first_of(with_other, count >= 1 && count <= 5 ? FOTS_OK : FOTS_INVALID_CONVENTION), fraction.status,
        fraction.denominator != 0, "day_count", julian_day, count);
    fots_period_result by_unit = fots_date_period_until_by(date, other, (uint32_t)count);
    status_is(first_of(with_other, count >= 1 && count <= 5 ? FOTS_OK : FOTS_INVALID_UNIT), by_unit.status, by_unit.days != FOTS_NO_VALUE,
        "period_until_by", julian_day, count);
    fots_period step = {0, 1, 0, count < 0 ? -1 : 0, {0, 0, 0}};
    int32_t no_period = first_of(wrong, count < 0 ? FOTS_INVALID_PERIOD : FOTS_OK);
    NUMBER(first_of(no_period, of_date(other)), fots_date_step_of(date, step, other), julian_day);
    fots_date_range range = {date, other};
    int32_t no_range = with_other != FOTS_OK || julian_day > other.julian_day ? FOTS_INVALID_RANGE : FOTS_OK;
    COMPONENT(no_range, fots_date_range_length(range), julian_day);
    COMPONENT(first_of(no_range, of_date(date_at(count))), fots_date_range_contains(range, date_at(count)), julian_day);
    COMPONENT(no_range, fots_date_range_overlaps(range, range), julian_day);
    fots_share_result share = fots_date_range_share(range, range);
    status_is(no_range, share.status, share.status == FOTS_OK && share.common == share.days, "share", julian_day, count);
    check(share.status == FOTS_OK || (share.common == 0 && share.days == 0), "no share", julian_day, count);
    int32_t no_days = first_of(no_range, julian_day == other.julian_day ? FOTS_RESULT_OUT_OF_RANGE : FOTS_OK);
    fots_date_range_result both = fots_date_range_intersection(range, range);
    status_is(no_days, both.status, both.range.start.julian_day != FOTS_NO_VALUE, "intersection", julian_day, count);
    NUMBER(with_other, fots_date_months_until(date, other), julian_day);
    NUMBER(with_other, fots_date_years_until(date, other), julian_day);
    DATE(wrong, fots_date_add_months(date, count));
    DATE(wrong, fots_date_saturating_add_months(date, count));
    DATE(wrong, fots_date_add_years(date, count));
    DATE(wrong, fots_date_first_of_month(date));
    DATE(wrong, fots_date_last_of_month(date));
    DATE(wrong, fots_date_first_of_quarter(date));
    DATE(wrong, fots_date_last_of_quarter(date));
    DATE(wrong, fots_date_first_of_year(date));
    DATE(wrong, fots_date_last_of_year(date));
    DATE(wrong, fots_date_first_of_iso_week(date));
    DATE(wrong, fots_date_last_of_iso_week(date));
    COMPONENT(wrong, fots_date_quarter(date), julian_day);
    DATE(first_of(wrong, no_weekday), fots_date_on_or_after(date, number));
    DATE(first_of(wrong, no_weekday), fots_date_on_or_before(date, number));
    DATE(is_month((uint32_t)count) ? no_weekday : FOTS_MONTH_OUT_OF_RANGE, fots_date_last_weekday_of_month(julian_day, (uint32_t)count, number));
    DATE(is_month((uint32_t)count) ? no_weekday : FOTS_MONTH_OUT_OF_RANGE,
        fots_date_nth_weekday_of_month(julian_day, (uint32_t)count, number, (uint32_t)julian_day));
}

static void workdays(int32_t julian_day, uint32_t number, int32_t count)
{
    static const fots_date rising[] = {{2451545}, {2451604}}, falling[] = {{2451604}, {2451545}};
    fots_date date = date_at(julian_day), other = date_at(count);
    int32_t no_week = number < 128 ? FOTS_OK : FOTS_INVALID_WEEKMASK, wrong = first_of(no_week, of_date(date));
    int32_t no_convention = (uint32_t)count <= 4 ? FOTS_OK : FOTS_INVALID_CONVENTION;
    fots_workdays_result made = fots_workdays_new(number, rising, 2);
    status_is(no_week, made.status, made.workdays.weekmask < 128, "workdays_new", number, 0);
    COMPONENT(wrong, fots_workdays_contains(&made.workdays, date), julian_day);
    DATE(wrong, fots_workdays_add(&made.workdays, date, count));
    NUMBER(first_of(wrong, of_date(other)), fots_workdays_between(&made.workdays, date, other), julian_day);
    DATE(first_of(wrong, no_convention), fots_workdays_adjust(&made.workdays, date, (uint32_t)count));
    made = fots_workdays_new(number, falling, 2);
    status_is(first_of(no_week, FOTS_INVALID_HOLIDAYS), made.status, made.workdays.weekmask < 128, "falling holidays", number, 0);
    /* Their number is checked before they are read, so the array may be shorter. */
    made = fots_workdays_new(number, rising, FOTS_MAX_HOLIDAYS + 1);
    status_is(first_of(no_week, FOTS_TOO_MANY_HOLIDAYS), made.status, made.workdays.weekmask < 128, "many holidays", number, 0);
}

/* Two holidays of any bits, an order that a view rejects, and lengths that don't match. */
static void workdays_views(int32_t julian_day, uint32_t number, int32_t count)
{
    static const fots_date rising[] = {{2451545}, {2451604}};
    uint32_t counts[] = {0, 0, 0};
    fots_date date = date_at(julian_day), other = date_at(count), holidays[] = {{julian_day}, {count}};
    fots_workdays_view view = {number, 0, rising, 2, counts, 3};
    int32_t no_week = number < 128 ? FOTS_OK : FOTS_INVALID_WEEKMASK, wrong = first_of(no_week, of_date(date));
    int32_t no_convention = (uint32_t)count <= 4 ? FOTS_OK : FOTS_INVALID_CONVENTION;
    int32_t no_holidays = is_date(date) && is_date(other) && julian_day < count ? FOTS_OK : FOTS_INVALID_HOLIDAYS;
    NUMBER(first_of(no_week, no_holidays), fots_workdays_view_count(number, holidays, 2, counts, 3), julian_day);
    NUMBER(first_of(no_week, FOTS_INVALID_HOLIDAYS), fots_workdays_view_count(number, rising, 2, counts, 2), julian_day);
    NUMBER(no_week, fots_workdays_view_count(number, rising, 2, counts, 3), julian_day);
    COMPONENT(wrong, fots_workdays_view_contains(&view, date), julian_day);
    DATE(wrong, fots_workdays_view_add(&view, date, count));
    NUMBER(first_of(wrong, of_date(other)), fots_workdays_view_between(&view, date, other), julian_day);
    DATE(first_of(wrong, no_convention), fots_workdays_view_adjust(&view, date, (uint32_t)count));
    view.marked_before_length = number & 1 ? 2 : 0;
    wrong = first_of(no_week, FOTS_INVALID_HOLIDAYS);
    COMPONENT(wrong, fots_workdays_view_contains(&view, date), julian_day);
    DATE(wrong, fots_workdays_view_add(&view, date, count));
    NUMBER(wrong, fots_workdays_view_between(&view, date, other), julian_day);
    DATE(wrong, fots_workdays_view_adjust(&view, date, (uint32_t)count));
}

/* Any bits are sorted, each once. */
static void sorted(int32_t julian_day, uint32_t number, int32_t count)
{
    const int32_t given[] = {julian_day, count, (int32_t)number, julian_day};
    fots_date days[] = {{given[0]}, {given[1]}, {given[2]}, {given[3]}};
    size_t kept = fots_dates_sort(days, COUNT(given)), found = 0;
    check(kept >= 1 && kept <= 3 && fots_dates_sort(days, 0) == 0, "sorted", julian_day, (long long)kept);
    for (size_t k = 0; k < kept; k++) {
        check(k == 0 || days[k - 1].julian_day < days[k].julian_day, "sorted in order", julian_day, count);
    }
    for (int k = 0; k < COUNT(given); k++) {
        for (size_t place = 0; place < kept; place++) {
            found += days[place].julian_day == given[k];
        }
    }
    check(found == COUNT(given), "sorted, each once", julian_day, count);
}

static void rules(int32_t julian_day, uint32_t number, int32_t count)
{
    fots_date date = date_at(julian_day), other = date_at(count), days[3];
    uint8_t month = (uint8_t)number;
    fots_rule rule = fots_rule_new(date, number & 7);
    fots_days_result written;
    int32_t no_frequency = (number & 7) >= 1 && (number & 7) <= 4 ? FOTS_OK : FOTS_INVALID_FREQUENCY, wrong, with_other;
    rule.interval = number;
    rule.week_start = (number >> 3) & 7;
    rule.months = &month;
    rule.months_length = (number >> 6) & 1;
    wrong = first_of(first_of(of_date(date), no_frequency), is_weekday(rule.week_start) ? FOTS_OK : FOTS_INVALID_WEEKDAY);
    wrong = first_of(wrong, rule.months_length == 0 || is_month(month) ? FOTS_OK : FOTS_MONTH_OUT_OF_RANGE);
    with_other = first_of(wrong, of_date(other));
    DATE(wrong, fots_rule_first(&rule));
    DATE(with_other, fots_rule_next_after(&rule, other));
    DATE(with_other, fots_rule_previous_before(&rule, other));
    COMPONENT(with_other, fots_rule_contains(&rule, other), julian_day);
    written = fots_rule_days_after(&rule, other, days, 3);
    check(written.status == with_other && written.length <= (with_other == FOTS_OK ? 3 : 0), "days_after", julian_day,
        (long long)written.length);
    /* Their number is checked before they are read, so the arrays may be shorter. */
    rule.months_length = FOTS_MAX_VALUES + 1;
    wrong = first_of(first_of(of_date(date), no_frequency), is_weekday(rule.week_start) ? FOTS_OK : FOTS_INVALID_WEEKDAY);
    wrong = first_of(wrong, FOTS_TOO_MANY_PARTS);
    DATE(wrong, fots_rule_first(&rule));
    rule.months_length = 1;
    rule.month_days_length = FOTS_MAX_VALUES + 1;
    DATE(wrong, fots_rule_first(&rule));
    rule.month_days_length = 0;
    rule.weekdays_length = FOTS_MAX_VALUES + 1;
    DATE(wrong, fots_rule_first(&rule));
    rule.weekdays_length = 0;
    rule.weeks_length = FOTS_MAX_VALUES + 1;
    DATE(wrong, fots_rule_first(&rule));
    rule.weeks_length = 0;
    rule.year_days_length = FOTS_MAX_VALUES + 1;
    DATE(wrong, fots_rule_first(&rule));
    rule.year_days_length = 0;
    rule.set_positions_length = FOTS_MAX_VALUES + 1;
    DATE(wrong, fots_rule_first(&rule));
    rule.set_positions_length = 0;
    rule.months_length = 0;
    rule.dates = &other;
    rule.exceptions = &other;
    wrong = first_of(first_of(of_date(date), no_frequency), is_weekday(rule.week_start) ? FOTS_OK : FOTS_INVALID_WEEKDAY);
    rule.dates_length = 1;
    DATE(first_of(wrong, of_date(other)), fots_rule_first(&rule));
    rule.exceptions_length = FOTS_MAX_DATES + 1;
    DATE(first_of(wrong, FOTS_TOO_MANY_DATES), fots_rule_first(&rule));
    rule.dates_length = 0;
    rule.exceptions_length = 1;
    DATE(first_of(wrong, of_date(other)), fots_rule_first(&rule));
    rule.dates_length = FOTS_MAX_DATES + 1;
    DATE(first_of(wrong, FOTS_TOO_MANY_DATES), fots_rule_first(&rule));
}

/* A daily rule has the date as its first day from there on, or the start if that is later. */
static void recurrences(int32_t julian_day, int32_t from)
{
    fots_date start = date_at(julian_day), day = date_at(FOTS_NO_VALUE);
    const fots_recurrence_result found = fots_recurrence_days("FREQ=DAILY", 10, start, date_at(from), &day, 1);
    status_is(first_of(of_date(start), of_date(date_at(from))), found.status, found.length == 1 && is_date(day), "recurrence_days", julian_day, from);
    check(day.julian_day == (found.status == FOTS_OK ? (julian_day > from ? julian_day : from) : FOTS_NO_VALUE), "the first day", julian_day, from);
}

static void times(fots_time time, uint32_t number, fots_duration duration)
{
    int32_t wrong = of_time(time), with_duration = first_of(wrong, of_duration(duration));
    fots_time other = (fots_time)duration.seconds;
    int32_t with_other = first_of(wrong, of_time(other));
    fots_date date = date_at((int32_t)number);
    int32_t of_pair = first_of(of_date(date), with_duration);
    fots_hms_nano_result clock = fots_time_as_hms_nano(time);
    fots_adjusted_time_result later = fots_time_adjusting_add(time, duration), earlier = fots_time_adjusting_sub(time, duration);
    fots_pair_result after = fots_add_to_pair(date, time, duration), before = fots_sub_from_pair(date, time, duration);
    status_is(wrong, clock.status, clock.hour < 24 && clock.minute < 60 && clock.second < 60 && clock.nanosecond < 1000000000,
        "as_hms_nano", (long long)time, clock.hour);
    status_is(with_duration, later.status, is_time(later.time), "adjusting_add", (long long)time, later.carry);
    status_is(with_duration, earlier.status, is_time(earlier.time), "adjusting_sub", (long long)time, earlier.carry);
    status_is(of_pair, after.status, is_date(after.date) && is_time(after.time), "add_to_pair", (long long)time,
        after.date.julian_day);
    status_is(of_pair, before.status, is_date(before.date) && is_time(before.time), "sub_from_pair", (long long)time,
        before.date.julian_day);
    COMPONENT(wrong, fots_time_hour(time), time);
    COMPONENT(wrong, fots_time_minute(time), time);
    COMPONENT(wrong, fots_time_second(time), time);
    COMPONENT(wrong, fots_time_millisecond(time), time);
    COMPONENT(wrong, fots_time_microsecond(time), time);
    COMPONENT(wrong, fots_time_nanosecond(time), time);
    TIME(wrong, fots_time_replace_hour(time, number));
    TIME(wrong, fots_time_replace_minute(time, number));
    TIME(wrong, fots_time_replace_second(time, number));
    TIME(wrong, fots_time_replace_millisecond(time, number));
    TIME(wrong, fots_time_replace_microsecond(time, number));
    TIME(wrong, fots_time_replace_nanosecond(time, number));
    TIME(with_duration, fots_time_add(time, duration));
    TIME(with_duration, fots_time_sub(time, duration));
    DURATION(with_other, fots_time_duration_until(time, other), time);
    DURATION(with_other, fots_time_duration_since(time, other), time);
    DURATION(with_other, fots_time_difference(time, other), time);
    TIME(wrong, fots_time_truncate_to_hour(time));
    TIME(wrong, fots_time_truncate_to_minute(time));
    TIME(wrong, fots_time_truncate_to_second(time));
    TIME(wrong, fots_time_truncate_to_millisecond(time));
    TIME(wrong, fots_time_truncate_to_microsecond(time));
    TIME(FOTS_OK, fots_time_from_hms(number, (uint32_t)time, (uint32_t)duration.seconds));
    TIME(FOTS_OK, fots_time_from_hms_milli(number, (uint32_t)time, (uint32_t)duration.seconds, (uint32_t)duration.nanoseconds));
    TIME(FOTS_OK, fots_time_from_hms_micro(number, (uint32_t)time, (uint32_t)duration.seconds, (uint32_t)duration.nanoseconds));
    TIME(FOTS_OK, fots_time_from_hms_nano(number, (uint32_t)time, (uint32_t)duration.seconds, (uint32_t)duration.nanoseconds));
}

static void offsets(int32_t seconds, int32_t number)
{
    fots_offset offset = offset_at(seconds);
    int32_t wrong = of_offset(offset);
    fots_offset_hms_result parts = fots_offset_as_hms(offset);
    fots_offset_result negated = fots_offset_neg(offset);
    fots_offset_result made = fots_offset_from_hms(seconds, number, (int32_t)((uint32_t)seconds ^ (uint32_t)number));
    fots_offset_result whole = fots_offset_from_whole_seconds((int64_t)seconds * number);
    status_is(wrong, parts.status, parts.hours != FOTS_NO_VALUE, "as_hms", seconds, parts.hours);
    status_is(wrong, negated.status, is_offset(negated.offset), "negated", seconds, negated.offset.seconds);
    status_is(FOTS_OK, made.status, is_offset(made.offset), "from_hms", seconds, made.offset.seconds);
    status_is(FOTS_OK, whole.status, is_offset(whole.offset), "from_whole_seconds", seconds, whole.offset.seconds);
    NUMBER(wrong, fots_offset_whole_hours(offset), seconds);
    NUMBER(wrong, fots_offset_whole_minutes(offset), seconds);
    NUMBER(wrong, fots_offset_minutes_past_hour(offset), seconds);
    NUMBER(wrong, fots_offset_seconds_past_minute(offset), seconds);
}

static void durations(fots_duration duration, fots_duration other, int32_t number)
{
    int32_t wrong = of_duration(duration), with_other = first_of(wrong, of_duration(other));
    INT64(wrong, fots_duration_whole_weeks(duration));
    INT64(wrong, fots_duration_whole_days(duration));
    INT64(wrong, fots_duration_whole_hours(duration));
    INT64(wrong, fots_duration_whole_minutes(duration));
    INT64(wrong, fots_duration_whole_seconds(duration));
    INT64(wrong, fots_duration_whole_milliseconds(duration));
    INT64(wrong, fots_duration_whole_microseconds(duration));
    INT64(wrong, fots_duration_whole_nanoseconds(duration));
    NUMBER(wrong, fots_duration_subsec_milliseconds(duration), duration.seconds);
    NUMBER(wrong, fots_duration_subsec_microseconds(duration), duration.seconds);
    NUMBER(with_other, fots_duration_compare(duration, other), duration.seconds);
    DURATION(wrong, fots_duration_abs(duration), duration.seconds);
    DURATION(wrong, fots_duration_checked_neg(duration), duration.seconds);
    DURATION(wrong, fots_duration_checked_mul(duration, number), duration.seconds);
    DURATION(wrong, fots_duration_checked_div(duration, number), duration.seconds);
    DURATION(wrong, fots_duration_saturating_mul(duration, number), duration.seconds);
    DURATION(with_other, fots_duration_checked_add(duration, other), duration.seconds);
    DURATION(with_other, fots_duration_checked_sub(duration, other), duration.seconds);
    DURATION(with_other, fots_duration_saturating_add(duration, other), duration.seconds);
    DURATION(with_other, fots_duration_saturating_sub(duration, other), duration.seconds);
    DURATION(FOTS_OK, fots_duration_new(duration.seconds, duration.nanoseconds), duration.seconds);
    DURATION(FOTS_OK, fots_duration_weeks(duration.seconds), duration.seconds);
    DURATION(FOTS_OK, fots_duration_days(duration.seconds), duration.seconds);
    DURATION(FOTS_OK, fots_duration_hours(duration.seconds), duration.seconds);
    DURATION(FOTS_OK, fots_duration_minutes(duration.seconds), duration.seconds);
    DURATION(FOTS_OK, fots_duration_seconds(duration.seconds), duration.seconds);
    DURATION(FOTS_OK, fots_duration_milliseconds(duration.seconds), duration.seconds);
    DURATION(FOTS_OK, fots_duration_microseconds(duration.seconds), duration.seconds);
    DURATION(FOTS_OK, fots_duration_nanoseconds(duration.seconds), duration.seconds);
}

static void cycles(uint32_t number, uint32_t count)
{
    int32_t no_month = is_month(number) ? FOTS_OK : FOTS_MONTH_OUT_OF_RANGE, no_weekday = is_weekday(number) ? FOTS_OK : FOTS_INVALID_WEEKDAY;
    int32_t year = (int32_t)count;
    COMPONENT(no_month, fots_month_length(number, year), number);
    COMPONENT(no_month, fots_month_nth_next(number, count), number);
    COMPONENT(no_month, fots_month_nth_prev(number, count), number);
    COMPONENT(no_weekday, fots_weekday_nth_next(number, count), number);
    COMPONENT(no_weekday, fots_weekday_nth_prev(number, count), number);
    COMPONENT(no_weekday, fots_weekday_number_from_sunday(number), number);
    TEXT(no_month, fots_month_name(number), number);
    TEXT(no_weekday, fots_weekday_name(number), number);
    check(fots_is_leap_year(year) == (year % 4 == 0 && (year % 100 != 0 || year % 400 == 0) ? 1 : 0), "is_leap_year", year, 0);
    check(fots_days_in_year(year) == 365 + fots_is_leap_year(year), "days_in_year", year, 0);
    check(fots_weeks_in_year(year) == 52 || fots_weeks_in_year(year) == 53, "weeks_in_year", year, 0);
}

/* RFC 3339 has the years 0 to 9999, and offsets of whole minutes below 24 hours. */
static int has_moment_text(int32_t julian_day, int32_t seconds)
{
    return julian_day >= 1721060 && julian_day <= 5373484 && seconds % 60 == 0 && seconds > -86400 && seconds < 86400;
}

static void moments(int32_t julian_day, fots_time time, int32_t seconds, fots_duration duration)
{
    fots_date date = date_at(julian_day);
    fots_offset offset = offset_at(seconds);
    int32_t wrong = first_of(first_of(of_date(date), of_time(time)), of_offset(offset));
    fots_duration_result since_epoch = fots_unix_time(date, time, offset);
    fots_pair_result pair = fots_unix_pair(duration, offset);
    status_is(first_of(of_duration(duration), of_offset(offset)), pair.status, is_date(pair.date) && is_time(pair.time), "unix_pair",
        duration.seconds, pair.date.julian_day);
    TEXT(wrong == FOTS_OK && !has_moment_text(julian_day, seconds) ? FOTS_RESULT_OUT_OF_RANGE : wrong, fots_moment_text(date, time, offset),
        julian_day);
    TEXT(wrong, fots_unix_text(date, time, offset), julian_day);
    status_is(wrong, since_epoch.status, is_duration(since_epoch.duration), "unix_time", julian_day, since_epoch.duration.seconds);
    if (since_epoch.status == FOTS_OK) {
        pair = fots_unix_pair(since_epoch.duration, offset);
        check(pair.status == FOTS_OK && pair.date.julian_day == julian_day && pair.time == time, "the pair of a Unix time",
            julian_day,
            pair.date.julian_day);
    }
}

static int is_date_status(int32_t status)
{
    return status == FOTS_MONTH_OUT_OF_RANGE || status == FOTS_YEAR_OUT_OF_RANGE || (status >= FOTS_DAY_OUT_OF_RANGE && status <= FOTS_WEEKDAY_OUT_OF_RANGE);
}

static int is_time_status(int32_t status) { return status >= FOTS_HOUR_OUT_OF_RANGE && status <= FOTS_SECOND_OUT_OF_RANGE; }
static int is_offset_status(int32_t status) { return status >= FOTS_OFFSET_HOUR_OUT_OF_RANGE && status <= FOTS_OFFSET_SECOND_OUT_OF_RANGE; }

/* Checks the status and the position of a text: a byte of it, its length, or SIZE_MAX. */
static void reads(int32_t status, size_t position, size_t length, int is_listed, int has_value, const char *what)
{
    check(status == FOTS_OK || status == FOTS_UNEXPECTED_BYTE || status == FOTS_UNEXPECTED_END || is_listed, what, status, (long long)length);
    check(status == FOTS_UNEXPECTED_BYTE ? position < length : position == (status == FOTS_UNEXPECTED_END ? length : SIZE_MAX), what, status,
        (long long)position);
    check((status == FOTS_OK) == has_value, what, status, (long long)length);
}

/* Checks that the bytes before an unexpected one begin a text, and with it no longer do. */
#define CHECK_POSITION(call, read) \
    if (read.status == FOTS_UNEXPECTED_BYTE) { \
        check(call(bytes, read.position).status != FOTS_UNEXPECTED_BYTE, "what a text begins with, " #call, (long long)read.position, (long long)length); \
        check(call(bytes, read.position + 1).position == read.position, "the position, " #call, (long long)read.position, (long long)length); \
    }

static int is_this(fots_text_result text, const char *bytes, size_t length)
{
    return text.status == FOTS_OK && text.length == length && memcmp(text.bytes, bytes, length) == 0;
}

static int reads_as_date(fots_text_result text, fots_date date)
{
    fots_parse_date_result read = fots_date_parse(text.bytes, text.length);
    return read.status == FOTS_OK && read.date.julian_day == date.julian_day;
}

/* Checks that a parsed date prints the text in one form, and that its three texts parse. */
static void read_date(const char *bytes, size_t length)
{
    fots_parse_date_result read = fots_date_parse(bytes, length);
    reads(read.status, read.position, length, is_date_status(read.status), is_date(read.date), "date_read");
    CHECK_POSITION(fots_date_parse, read)
    if (read.status == FOTS_OK) {
        fots_text_result calendar = fots_date_calendar_text(read.date), ordinal = fots_date_ordinal_text(read.date);
        fots_text_result week = fots_date_week_text(read.date);
        check(is_this(calendar, bytes, length) || is_this(ordinal, bytes, length) || is_this(week, bytes, length),
            "the text of a date",
            read.date.julian_day, (long long)length);
        check(reads_as_date(calendar, read.date) && reads_as_date(ordinal, read.date) && reads_as_date(week, read.date),
            "a date read back", read.date.julian_day, (long long)length);
    }
}

static void read_julian_day(const char *bytes, size_t length)
{
    fots_parse_date_result read = fots_julian_day_parse(bytes, length);
    reads(read.status, read.position, length, read.status == FOTS_JULIAN_DAY_OUT_OF_RANGE, is_date(read.date), "julian_day_read");
    CHECK_POSITION(fots_julian_day_parse, read)
    if (read.status == FOTS_OK) {
        check(is_this(fots_date_julian_text(read.date), bytes, length), "the text of a Julian day", read.date.julian_day,
            (long long)length);
    }
}

static int is_moment(fots_parse_moment_result read)
{
    return is_date(read.date) && is_time(read.time) && is_offset(read.offset);
}

static int is_same_moment(fots_parse_moment_result one, fots_parse_moment_result other)
{
    return one.status == FOTS_OK && other.status == FOTS_OK && one.date.julian_day == other.date.julian_day
        && one.time == other.time && one.offset.seconds == other.offset.seconds;
}

static void read_moment(const char *bytes, size_t length)
{
    fots_parse_moment_result read = fots_moment_parse(bytes, length);
    reads(read.status, read.position, length, read.status == FOTS_MONTH_OUT_OF_RANGE || read.status == FOTS_DAY_OUT_OF_RANGE
        || is_time_status(read.status) || read.status == FOTS_OFFSET_HOUR_OUT_OF_RANGE || read.status == FOTS_OFFSET_MINUTE_OUT_OF_RANGE, is_moment(read), "moment_read");
    CHECK_POSITION(fots_moment_parse, read)
    if (read.status == FOTS_OK) {
        fots_text_result text = fots_moment_text(read.date, read.time, read.offset);
        check(is_same_moment(fots_moment_parse(text.bytes, text.length), read), "a moment read back", read.date.julian_day,
            read.offset.seconds);
    }
}

static void read_unix(const char *bytes, size_t length)
{
    fots_parse_moment_result read = fots_unix_parse(bytes, length);
    reads(read.status, read.position, length, read.status == FOTS_TIMESTAMP_OUT_OF_RANGE, is_moment(read) && read.offset.seconds == 0, "unix_read");
    CHECK_POSITION(fots_unix_parse, read)
    if (read.status == FOTS_OK) {
        fots_text_result text = fots_unix_text(read.date, read.time, offset_at(0));
        check(is_same_moment(fots_unix_parse(text.bytes, text.length), read), "a Unix time read back", read.date.julian_day,
            (long long)length);
    }
}

static void read_date_time(const char *bytes, size_t length)
{
    const fots_parse_time_result time = fots_time_parse(bytes, length);
    const fots_parse_offset_result offset = fots_offset_parse(bytes, length);
    const fots_parse_moment_result pair = fots_pair_parse(bytes, length), moment = fots_offset_date_time_parse(bytes, length);
    reads(time.status, time.position, length, is_time_status(time.status), is_time(time.time), "time_parse");
    reads(offset.status, offset.position, length, is_offset_status(offset.status), is_offset(offset.offset), "offset_parse");
    reads(pair.status, pair.position, length, is_date_status(pair.status) || is_time_status(pair.status), is_moment(pair), "pair_parse");
    reads(moment.status, moment.position, length, is_date_status(moment.status) || is_time_status(moment.status) || is_offset_status(moment.status), is_moment(moment),
        "offset_date_time_parse");
    CHECK_POSITION(fots_time_parse, time)
    CHECK_POSITION(fots_offset_parse, offset)
    CHECK_POSITION(fots_pair_parse, pair)
    CHECK_POSITION(fots_offset_date_time_parse, moment)
    check(pair.status != FOTS_OK || pair.offset.seconds == 0, "the offset of a pair", pair.offset.seconds, (long long)length);
}

static void read_repeated(const char *bytes, size_t length)
{
    const fots_parse_repeated_pairs_result read = fots_repeated_pairs_parse(bytes, length);
    const int is_listed = is_date_status(read.status) || is_time_status(read.status) || read.status == FOTS_COUNT_OUT_OF_RANGE
        || read.status == FOTS_MISSING_START || read.status == FOTS_PERIOD_NOT_POSITIVE || read.status == FOTS_END_BEFORE_START
        || read.status == FOTS_RESULT_OUT_OF_RANGE;
    reads(read.status, read.position, length, is_listed, is_date(read.start_date) && is_time(read.start_time), "repeated_pairs_parse");
    CHECK_POSITION(fots_repeated_pairs_parse, read)
    check(read.unused == 0 && (read.status == FOTS_OK || (read.count == 0 && !is_date(read.start_date) && !is_time(read.start_time))),
        "no repeated interval", read.status, read.count);
}

/* A row of a column is the same as one call, and bounds outside the bytes are an error. */
static void read_columns(const char *bytes, size_t length)
{
    const fots_parse_date_result date = fots_date_parse_iso(bytes, length);
    const fots_parse_moment_result moment = fots_moment_parse_iso(bytes, length);
    const int32_t end = (int32_t)length, bounds[][2] = {{0, end}, {0, end + 1}, {-1, end}, {1, 0}, {INT32_MIN, INT32_MAX}};
    for (int k = 0; k < COUNT(bounds); k++) {
        int32_t day = 0, moment_day = 0, offset = 0;
        uint64_t time = 0;
        uint8_t status = 0, moment_status = 0;
        size_t failed = fots_dates_parse_iso(bytes, length, bounds[k], 2, &day, 1, &status, 1);
        size_t moment_failed = fots_moments_parse_iso(bytes, length, bounds[k], 2, &moment_day, 1, &time, 1, &offset, 1, &moment_status, 1);
        check(status == (k == 0 ? date.status : FOTS_INVALID_BOUNDS) && failed == (status != FOTS_OK), "a column of dates", status, k);
        check(day == (k == 0 ? date.date.julian_day : FOTS_NO_VALUE), "a date of a column", day, k);
        check(moment_status == (k == 0 ? moment.status : FOTS_INVALID_BOUNDS) && moment_failed == (moment_status != FOTS_OK), "a column of moments",
            moment_status, k);
        check(moment_day == (k == 0 ? moment.date.julian_day : FOTS_NO_VALUE) && time == (k == 0 ? moment.time : FOTS_NO_TIME)
            && offset == (k == 0 ? moment.offset.seconds : FOTS_NO_VALUE), "a moment of a column", moment_day, k);
    }
}

static void read_all(const char *bytes, size_t length)
{
    read_repeated(bytes, length);
    read_columns(bytes, length);
    read_date(bytes, length);
    read_julian_day(bytes, length);
    read_moment(bytes, length);
    read_unix(bytes, length);
    read_date_time(bytes, length);
}

#define LONGEST 64

/* Takes valid texts, cut at each length, and with a byte changed, removed or inserted. */
static void nearly_texts(void)
{
    static const char *const texts[] = {"2024-02-29", "+12024-02-29", "-999999-01-01", "2024-060", "+999999-365", "2024-W09-4",
        "-0001-W52-6", "J2460370", "J-363521074", "J0", "2024-02-29T23:59:59.25+01:00", "0000-01-01t00:00:00z",
        "9999-12-31 23:59:59.999999999-23:59", "9:05", "-25:59:59", "2024-W09-4T9:05 z", "@0", "@1709164800.5", "@-0.000000001", "@-31619087596800",
        "R12/2024-01-31T09:00:00/P1M", "R/2024-01-31T09:00/2024-01-31T10:00", "R3/PT90M/2024-01-31T09:00", "20240229T235959+01"};
    for (int k = 0; k < COUNT(texts); k++) {
        size_t length = strlen(texts[k]);
        for (size_t position = 0; position <= length; position++) {
            char changed[LONGEST], longer[LONGEST], shorter[LONGEST];
            memcpy(changed, texts[k], length + 1);
            memcpy(shorter, texts[k], position);
            memcpy(shorter + position, texts[k] + position + 1, length - position);
            memcpy(longer, texts[k], position);
            memcpy(longer + position + 1, texts[k] + position, length - position);
            read_all(texts[k], position);
            read_all(shorter, length - 1);
            for (int byte = 0; byte < 256; byte++) {
                changed[position] = longer[position] = (char)byte;
                read_all(changed, length);
                read_all(longer, length + 1);
            }
        }
    }
}

/* Takes random bytes of each length, half of them from texts. */
static void drawn_texts(void)
{
    static const char used[] = "0123456789-+:.TtZzW J@0011223344";
    for (int k = 0; k < 4000; k++) {
        for (size_t length = 0; length <= LONGEST; length++) {
            char bytes[LONGEST];
            for (size_t position = 0; position < length; position++) {
                uint64_t word = drawn();
                bytes[position] = k % 2 == 0 ? used[word % (sizeof(used) - 1)] : (char)(word >> 24);
            }
            read_all(bytes, length);
        }
    }
}

/* The number of texts that were recurrences. */
static unsigned long long recurrences_read;

/* Checks the parts, the text and the rule against the days. */
static void spelled(const char *bytes, size_t length, fots_recurrence_result found, fots_date start, const fots_date *days)
{
    const fots_parse_recurrence_result read = fots_recurrence_parse(bytes, length);
    const fots_recurrence_text_result text = fots_recurrence_text(bytes, length);
    check(read.status == found.status && read.part == found.part && read.position == found.position, "its parts", read.status, found.status);
    check(text.status == found.status && text.part == found.part && text.position == found.position, "its text", text.status, found.status);
    const fots_rule rule = fots_recurrence_rule(&read.recurrence, start);
    if (found.status != FOTS_OK) {
        check(text.length == 0 && text.bytes[0] == 0, "no text", text.length, (long long)length);
        check(fots_rule_first(&rule).status == FOTS_INVALID_FREQUENCY, "no rule", read.status, (long long)length);
        return;
    }
    const fots_parse_recurrence_result again = fots_recurrence_parse(text.bytes, text.length);
    const size_t sizeof_fields = offsetof(fots_recurrence, set_positions) + FOTS_MAX_VALUES * sizeof(int16_t);
    check(text.length == strlen(text.bytes) && again.status == FOTS_OK && memcmp(&again.recurrence, &read.recurrence, sizeof_fields) == 0,
        "read again", text.length, (long long)length);
    if (found.length > 0) {
        check(fots_rule_first(&rule).date.julian_day == days[0].julian_day, "the first of its rule", days[0].julian_day, (long long)length);
    }
    if (found.length > 1) {
        check(fots_rule_next_after(&rule, days[0]).date.julian_day == days[1].julian_day, "the next of its rule", days[1].julian_day, (long long)length);
    }
}

/* Checks days in order; or a wrong part after valid ones, and no day. */
static void read_recurrence(const char *bytes, size_t length)
{
    const fots_date start = date_at(2460311);
    fots_date days[3] = {{-1}, {-1}, {-1}};
    const fots_recurrence_result found = fots_recurrence_days(bytes, length, start, start, days, 2);
    check(days[2].julian_day == -1, "a day past the room", found.status, (long long)length);
    spelled(bytes, length, found, start, days);
    const fots_moment midnight = {start, {0}, 0};
    const fots_recurrence_set set = fots_recurrence_set_new(bytes, length, midnight);
    fots_moment room[2] = {midnight, midnight};
    const fots_recurrence_result timed = fots_recurrence_readings(&set, midnight, room, 1);
    check(timed.status == found.status && timed.part == found.part && timed.position == found.position && memcmp(&room[1], &midnight, sizeof midnight) == 0,
        "its readings", timed.status, found.status);
    if (found.status == FOTS_OK) {
        recurrences_read++;
        check(found.part == 0 && found.position == SIZE_MAX && found.length <= 2, "a recurrence", found.part, (long long)found.length);
        check(found.length == 0 || (is_date(days[0]) && days[0].julian_day >= start.julian_day), "its first day", days[0].julian_day, (long long)length);
        check(found.length < 2 || (is_date(days[1]) && days[1].julian_day > days[0].julian_day), "its second day", days[1].julian_day, (long long)length);
        return;
    }
    const int names_part = found.status >= FOTS_DUPLICATE_PART && found.status <= FOTS_INVALID_VALUE;
    check(names_part ? found.part >= FOTS_RULE_FREQ && found.part <= FOTS_RULE_BYSECOND : found.part == 0, "its part", found.status, found.part);
    check(found.length == 0 && days[0].julian_day == -1, "no day", found.status, (long long)found.length);
    if (found.status == FOTS_MISSING_FREQUENCY) {
        check(found.position == length, "missing frequency", (long long)found.position, (long long)length);
        return;
    }
    check(names_part || found.status == FOTS_UNKNOWN_PART, "the status of a recurrence", found.status, (long long)length);
    if (!check(found.position == 0 || (found.position <= length && bytes[found.position - 1] == ';'), "the position of a part", (long long)found.position,
            (long long)length) || found.position == 0) {
        return;
    }
    const fots_recurrence_result before = fots_recurrence_days(bytes, found.position - 1, start, start, days, 0);
    /* Parts that exclude each other, or a BYSETPOS without another list, are wrong only if all parts are right by themselves. */
    const int is_later = before.status == FOTS_INVALID_VALUE && (before.part == FOTS_RULE_FREQ || before.part == FOTS_RULE_BYDAY ||
        before.part == FOTS_RULE_BYMONTHDAY || before.part == FOTS_RULE_BYYEARDAY || before.part == FOTS_RULE_BYWEEKNO || before.part == FOTS_RULE_BYSETPOS);
    check(before.status == FOTS_OK || before.status == FOTS_MISSING_FREQUENCY || is_later, "the parts before", before.status, (long long)found.position);
}

/* Takes texts of recurrences in the same way, and random parts. */
static void recurrence_texts(void)
{
    static const char *const texts[] = {"FREQ=MONTHLY;COUNT=12;BYDAY=-1FR", "freq=yearly;until=20261231;bymonth=2,11;bymonthday=-1,29",
        "INTERVAL=2;WKST=SU;FREQ=WEEKLY;BYDAY=TU,SU"};
    static const char *const pieces[] = {"FREQ=", "INTERVAL=", "WKST=", "BYMONTH=", "BYMONTHDAY=", "BYDAY=", "UNTIL=", "COUNT=", "DAILY",
        "YEARLY", "MO", "-1", "20", "4294967296", "20240229", ",", ";", ";", "\0", "\xff"};
    for (int k = 0; k < COUNT(texts); k++) {
        const size_t length = strlen(texts[k]);
        for (size_t position = 0; position <= length; position++) {
            char changed[LONGEST], longer[LONGEST], shorter[LONGEST];
            memcpy(changed, texts[k], length + 1);
            memcpy(shorter, texts[k], position);
            memcpy(shorter + position, texts[k] + position + 1, length - position);
            memcpy(longer, texts[k], position);
            memcpy(longer + position + 1, texts[k] + position, length - position);
            read_recurrence(texts[k], position);
            read_recurrence(shorter, length - 1);
            for (int byte = 0; byte < 256; byte++) {
                changed[position] = longer[position] = (char)byte;
                read_recurrence(changed, length);
                read_recurrence(longer, length + 1);
            }
        }
    }
    for (int k = 0; k < 100000; k++) {
        char bytes[16 * LONGEST] = "FREQ=DAILY;";
        size_t length = k % 2 == 0 ? strlen(bytes) : 0;
        for (uint64_t left = drawn() % 16; left > 0; left--) {
            const char *piece = pieces[drawn() % (uint64_t)COUNT(pieces)];
            const size_t size = *piece == 0 ? 1 : strlen(piece);
            memcpy(bytes + length, piece, size);
            length += size;
        }
        read_recurrence(bytes, length);
    }
    check(recurrences_read > 1000, "recurrences that were read", (long long)recurrences_read, 0);
}

static const int32_t border_dates[] = {INT32_MIN, INT32_MIN + 1, FOTS_MIN_JULIAN_DAY - 1, FOTS_MIN_JULIAN_DAY,
    FOTS_MIN_JULIAN_DAY + 1, -93600, -93599,
    -1, 0, 1, 93599, 93600, 1721059, 1721060, 2451545, 5373484, 5373485, FOTS_MAX_JULIAN_DAY - 1, FOTS_MAX_JULIAN_DAY,
        FOTS_MAX_JULIAN_DAY + 1,
    INT32_MAX - 1, INT32_MAX};
static const uint32_t border_numbers[] = {0, 1, 2, 7, 8, 12, 13, 23, 24, 28, 29, 30, 31, 32, 52, 53, 54, 59, 60, 128, 255, 256, 257,
    258,
    263, 268, 365, 366, 367, 999, 1000, 65535, 65536, 65537, 999999, 1000000, 999999999, 1000000000, 2147483647, 2147483648,
    4294967295};
static const uint64_t border_times[] = {0, 1, 86399999999998, 86399999999999, 86400000000000, 4294967296, 9223372036854775807ULL,
    9223372036854775808ULL, UINT64_MAX - 1, UINT64_MAX};
static const int64_t border_seconds[] = {INT64_MIN, INT64_MIN + 1, -106751991167301, -86400, -1, 0, 1, 86399, 86400, 363521074,
    366963559, 4294967296, 106751991167301, INT64_MAX - 1, INT64_MAX};
static const int32_t border_nanoseconds[] = {INT32_MIN, -1000000000, -999999999, -1, 0, 1, 255, 256, 999999999, 1000000000,
    INT32_MAX};

static const int32_t border_offsets[] = {INT32_MIN, -93600, -93599, -86400, -86399, -86340, -3600, -60, -1, 0, 1, 60, 19800, 86340,
    86400,
    93599, 93600, INT32_MAX};

/* Returns random bits, cut to a random length, with or without a sign. */
static int64_t drawn_signed(void)
{
    uint64_t bits = drawn();
    return (int64_t)bits >> (drawn() & 63);
}

static uint64_t drawn_unsigned(void)
{
    uint64_t bits = drawn();
    return bits >> (drawn() & 63);
}

static int32_t drawn_short(void)
{
    return (int32_t)drawn_signed();
}

static fots_duration drawn_duration(int k)
{
    fots_duration duration = {0, 0, 0};
    if (k < COUNT(border_seconds) * COUNT(border_nanoseconds)) {
        duration.seconds = border_seconds[k / COUNT(border_nanoseconds)];
        duration.nanoseconds = border_nanoseconds[k % COUNT(border_nanoseconds)];
        return duration;
    }
    duration.seconds = drawn_signed();
    duration.nanoseconds = drawn_short();
    return duration;
}

static int32_t drawn_date(int k)
{
    return k < COUNT(border_dates) ? border_dates[k] : drawn_short();
}

static uint32_t drawn_number(int k)
{
    return k < COUNT(border_numbers) ? border_numbers[k] : (uint32_t)drawn_unsigned();
}

static fots_time drawn_time(int k)
{
    return k < COUNT(border_times) ? border_times[k] : drawn_unsigned();
}

static int32_t drawn_offset(int k)
{
    return k < COUNT(border_offsets) ? border_offsets[k] : drawn_short();
}

/* Takes each limit with each other limit, and random values. */
static void everything(void)
{
    for (int k = 0; k < DRAWN; k++) {
        fots_duration duration = drawn_duration(k);
        for (int date = 0; date < 40; date++) {
            for (int number = 0; number < 60; number++) {
                int32_t julian_day = drawn_date(date);
                uint32_t drawn_with = drawn_number(number);
                dates(julian_day, drawn_with, duration);
                months(julian_day, drawn_with, duration.nanoseconds);
                workdays(julian_day, drawn_with, duration.nanoseconds);
                workdays_views(julian_day, drawn_with, duration.nanoseconds);
                sorted(julian_day, drawn_with, duration.nanoseconds);
            }
        }
        for (int time = 0; time < 20; time++) {
            for (int number = 0; number < 60; number++) {
                fots_time since_midnight = drawn_time(time);
                uint32_t drawn_with = drawn_number(number);
                times(since_midnight, drawn_with, duration);
            }
        }
        for (int date = 0; date < 40; date++) {
            for (int offset = 0; offset < 40; offset++) {
                int32_t julian_day = drawn_date(date);
                fots_time since_midnight = drawn_time(offset % 20);
                int32_t seconds = drawn_offset(offset);
                moments(julian_day, since_midnight, seconds, duration);
            }
        }
        for (int other = 0; other < DRAWN; other++) {
            fots_duration drawn_with = drawn_duration(other);
            int32_t factor = (int32_t)drawn_number(other % 80);
            durations(duration, drawn_with, factor);
        }
    }
    for (int number = 0; number < 2000; number++) {
        for (int other = 0; other < 80; other++) {
            uint32_t drawn_first = drawn_number(number), drawn_with = drawn_number(other);
            int32_t seconds = drawn_date(number), day = drawn_date(other);
            cycles(drawn_first, drawn_with);
            offsets(seconds, (int32_t)drawn_with);
            rules(day, drawn_first, seconds);
            recurrences(day, seconds);
        }
    }
    nearly_texts();
    drawn_texts();
    recurrence_texts();
}

/* Tests all 32 bits with 'low' for negative numbers and 'high', and all else without. */
int main(int count, char **arguments)
{
    if (count > 1) {
        int low = arguments[1][0] == 'l';
        every_date(low ? INT32_MIN : 0, low ? -1 : INT32_MAX);
        every_offset(low ? INT32_MIN : 0, low ? -1 : INT32_MAX);
    } else {
        everything();
    }
    return ended(count > 1 ? "all 32 bits" : "wrong values");
}
