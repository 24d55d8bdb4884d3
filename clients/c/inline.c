/* Compares the functions of fotsevindre_inline.h with the library: on every day of the range, or
 * for invalid and random values. */
#include "fotsevindre_inline.h"
#include "testing.h"

#define COUNT(values) ((int)(sizeof(values) / sizeof(values)[0]))
#define BLOCK 2048

static uint64_t drawn(void)
{
    static uint64_t state = 88172645463325252ULL;
    state ^= state << 13;
    state ^= state >> 7;
    state ^= state << 17;
    return state;
}

/* Return 0 if two results are equal. */
static uint32_t differs(int32_t one, int32_t other)
{
    return (uint32_t)(one ^ other);
}

static uint32_t date_differs(fots_date_result one, fots_date_result other)
{
    return differs(one.status, other.status) | differs(one.date.julian_day, other.date.julian_day);
}

static uint32_t number_differs(fots_number_result one, fots_number_result other)
{
    return differs(one.status, other.status) | differs(one.number, other.number);
}

static uint32_t component_differs(fots_component_result one, fots_component_result other)
{
    return differs(one.status, other.status) | (one.number ^ other.number);
}

static uint32_t calendar_date_differs(fots_calendar_date_result one, fots_calendar_date_result other)
{
    return differs(one.status, other.status) | differs(one.year, other.year) | (one.month ^ other.month) | (one.day ^ other.day);
}

static uint32_t week_date_differs(fots_iso_week_date_result one, fots_iso_week_date_result other)
{
    return differs(one.status, other.status) | differs(one.year, other.year) | (one.week ^ other.week) | (one.weekday ^ other.weekday);
}

/* ---- one value at a time, beside the calls */

static void from_calendar_date(int32_t year, uint32_t month, uint32_t day)
{
    fots_date_result date = fots_date_from_calendar_date_inline(year, month, day);
    check(!date_differs(date, fots_date_from_calendar_date(year, month, day)), "from_calendar_date", year, month * 100LL + day);
}

static void add_days(fots_date date, int64_t days)
{
    check(!date_differs(fots_date_add_days_inline(date, days), fots_date_add_days(date, days)), "add_days", date.julian_day, days);
}

static fots_calendar_date_result each(fots_date date)
{
    int32_t day = date.julian_day;
    fots_calendar_date_result calendar = fots_date_to_calendar_date(date);
    check(!calendar_date_differs(fots_date_to_calendar_date_inline(date), calendar), "to_calendar_date", day, calendar.year);
    check(!week_date_differs(fots_date_to_iso_week_date_inline(date), fots_date_to_iso_week_date(date)), "to_iso_week_date", day, 0);
    check(!number_differs(fots_date_year_inline(date), fots_date_year(date)), "year", day, 0);
    check(!component_differs(fots_date_month_inline(date), fots_date_month(date)), "month", day, 0);
    check(!component_differs(fots_date_day_inline(date), fots_date_day(date)), "day", day, 0);
    check(!component_differs(fots_date_weekday_inline(date), fots_date_weekday(date)), "weekday", day, 0);
    check(!date_differs(fots_date_next_day_inline(date), fots_date_next_day(date)), "next_day", day, 0);
    check(!date_differs(fots_date_previous_day_inline(date), fots_date_previous_day(date)), "previous_day", day, 0);
    from_calendar_date(calendar.year, calendar.month, calendar.day);
    return calendar;
}

/* ---- a block of days, beside rows of columns, which cost less than calls */

static int32_t days[BLOCK], years[BLOCK], iso_years[BLOCK];
static uint8_t months[BLOCK], month_days[BLOCK], iso_weeks[BLOCK], weekdays[BLOCK], statuses[BLOCK];

/* Fills the block with days and what the library returns for them. */
static void fill(int32_t first, int length)
{
    size_t rows = (size_t)length, errors;
    for (int k = 0; k < length; k++) {
        days[k] = first + k;
    }
    errors = fots_dates_to_calendar_dates(days, rows, years, rows, months, rows, month_days, rows, statuses, rows);
    errors += fots_dates_to_iso_week_dates(days, rows, iso_years, rows, iso_weeks, rows, weekdays, rows, statuses, rows);
    check(errors == 0, "rows of the library", first, length);
}

static uint32_t calendar_dates_differ(int length)
{
    uint32_t differing = 0;
    for (int k = 0; k < length; k++) {
        fots_date date = date_at(days[k]);
        fots_calendar_date_result calendar = {FOTS_OK, years[k], months[k], month_days[k]};
        fots_number_result year = {FOTS_OK, years[k]};
        fots_component_result month = {FOTS_OK, months[k]}, day = {FOTS_OK, month_days[k]};
        differing |= calendar_date_differs(fots_date_to_calendar_date_inline(date), calendar)
            | number_differs(fots_date_year_inline(date), year) | component_differs(fots_date_month_inline(date), month)
            | component_differs(fots_date_day_inline(date), day);
    }
    return differing;
}

static uint32_t dates_differ(int length)
{
    uint32_t differing = 0;
    for (int k = 0; k < length; k++) {
        fots_date_result date = {FOTS_OK, {days[k]}};
        differing |= date_differs(fots_date_from_calendar_date_inline(years[k], months[k], month_days[k]), date);
    }
    return differing;
}

static uint32_t week_dates_differ(int length)
{
    uint32_t differing = 0;
    for (int k = 0; k < length; k++) {
        fots_iso_week_date_result week_date = {FOTS_OK, iso_years[k], iso_weeks[k], weekdays[k]};
        fots_component_result weekday = {FOTS_OK, weekdays[k]};
        differing |= week_date_differs(fots_date_to_iso_week_date_inline(date_at(days[k])), week_date)
            | component_differs(fots_date_weekday_inline(date_at(days[k])), weekday);
    }
    return differing;
}

/* Compares the days beside each day, and from every fourth day one that is farther. */
static uint32_t moves_differ(int32_t first, int length)
{
    uint32_t differing = 0;
    for (int k = 0; k < length; k++) {
        fots_date date = date_at(first + k);
        differing |= date_differs(fots_date_next_day_inline(date), fots_date_next_day(date));
        differing |= date_differs(fots_date_previous_day_inline(date), fots_date_previous_day(date));
    }
    int64_t farther = (int64_t)(drawn() >> 34) - 536870912;
    for (int k = 0; k < length; k += 4) {
        fots_date date = date_at(first + k);
        differing |= date_differs(fots_date_add_days_inline(date, farther - 3 * k), fots_date_add_days(date, farther - 3 * k));
    }
    return differing;
}

/* Compares some days with the calls, and the days that each month lacks. */
static void some_days(int length)
{
    for (int k = (int)(drawn() >> 56); k < length; k += 256) {
        each(date_at(days[k]));
    }
    for (int k = 0; k < length; k += month_days[k] == 1 ? 28 : 1) {
        if (month_days[k] == 1) {
            from_calendar_date(years[k], months[k], 0);
            from_calendar_date(years[k], months[k], fots_month_length(months[k], years[k]).number + 1);
        }
    }
}

/* Compares all on the days from one to another. If a block differs, its days are named. */
static void every_day(int32_t from, int32_t to)
{
    for (int32_t first = from; first <= to; first += BLOCK) {
        int length = to - first < BLOCK ? to - first + 1 : BLOCK;
        fill(first, length);
        uint32_t differing = calendar_dates_differ(length) | dates_differ(length) | week_dates_differ(length) | moves_differ(first, length);
        if (!check(!differing, "a block of days", first, length)) {
            for (int k = 0; k < length; k++) {
                each(date_at(days[k]));
            }
        }
        some_days(length);
    }
}

/* ---- invalid and random values */

static const int32_t border_days[] = {INT32_MIN, INT32_MIN + 1, FOTS_MIN_JULIAN_DAY - 307, FOTS_MIN_JULIAN_DAY - 2,
    FOTS_MIN_JULIAN_DAY - 1, FOTS_MIN_JULIAN_DAY, FOTS_MIN_JULIAN_DAY + 1, -1, 0, 1, FOTS_MAX_JULIAN_DAY - 1, FOTS_MAX_JULIAN_DAY,
    FOTS_MAX_JULIAN_DAY + 1, FOTS_MAX_JULIAN_DAY + 2, INT32_MAX - 1, INT32_MAX};
static const int32_t border_years[] = {INT32_MIN, INT32_MIN + 1, -1000001, -1000000, -999999, -999998, -400, -100, -4, -1, 0, 1, 4, 100,
    400, 1900, 2000, 2023, 2024, 999998, 999999, 1000000, 1000001, INT32_MAX - 1, INT32_MAX};
static const uint32_t border_numbers[] = {0, 1, 2, 3, 4, 5, 6, 7, 8, 9, 10, 11, 12, 13, 14, 27, 28, 29, 30, 31, 32, 255, 256, 257, 258,
    268, 65535, 65536, 65537, 65538, 2147483647, 2147483648, 4294967294, 4294967295};

/* Takes any 32 bits as a date, and goes to each limit, beside it, and 2^32 or about 2^63 days on. */
static void any_date(int32_t julian_day)
{
    fots_date date = date_at(julian_day);
    each(date);
    for (int k = 0; k < COUNT(border_days); k++) {
        int64_t distance = (int64_t)border_days[k] - julian_day;
        add_days(date, border_days[k]);
        add_days(date, distance);
        add_days(date, distance + INT64_C(4294967296));
        add_days(date, distance - INT64_C(4294967296));
        add_days(date, distance < 0 ? distance - INT64_MIN : distance + INT64_MIN);
    }
    add_days(date, INT64_MIN);
    add_days(date, INT64_MAX);
    add_days(date, (int64_t)drawn() >> (drawn() & 63));
}

/* Takes each limit with each other limit, and random bits. */
static void any_calendar_date(int32_t year)
{
    for (int month = 0; month < COUNT(border_numbers); month++) {
        for (int day = 0; day < COUNT(border_numbers); day++) {
            from_calendar_date(year, border_numbers[month], border_numbers[day]);
        }
        from_calendar_date(year, border_numbers[month], (uint32_t)drawn());
        from_calendar_date(year, (uint32_t)drawn(), border_numbers[month]);
    }
}

static void any_values(void)
{
    for (int k = 0; k < COUNT(border_days); k++) {
        any_date(border_days[k]);
    }
    for (int k = 0; k < COUNT(border_years); k++) {
        any_calendar_date(border_years[k]);
    }
    for (int k = 0; k < 100000; k++) {
        any_date((int32_t)(drawn() >> 32));
        from_calendar_date((int32_t)drawn(), (uint32_t)drawn() % 13, (uint32_t)drawn() % 33);
    }
    for (int k = 0; k < 1000; k++) {
        any_calendar_date((int32_t)(drawn() % 2000001) - 1000000);
        any_calendar_date((int32_t)drawn());
    }
}

/* Tests the days before 0001-01-01 with 'low', the others with 'high', and other values without. */
#define HALF 1721426

int main(int count, char **arguments)
{
    if (count > 1) {
        int low = arguments[1][0] == 'l';
        every_day(low ? FOTS_MIN_JULIAN_DAY : HALF, low ? HALF - 1 : FOTS_MAX_JULIAN_DAY);
    } else {
        any_values();
    }
    return ended(count > 1 ? "inline, every day" : "inline, other values");
}
