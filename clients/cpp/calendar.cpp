// Checks the C headers in C++: some calls, an error by its name, and the inline functions.
#include <cstdio>
#include <cstring>

#include "fotsevindre.h"
#include "fotsevindre_inline.h"

namespace {

int failed = 0;

void check(bool holds, const char *what)
{
    if (!holds) {
        failed++;
        std::printf("failed: %s\n", what);
    }
}

// Passes the numbers of each call to the next one without a cast.
void chained()
{
    const fots_date date = fots_date_from_julian_day(2460370).date;
    const fots_calendar_date_result calendar = fots_date_to_calendar_date(date);
    const fots_ordinal_date_result ordinal = fots_date_to_ordinal_date(date);
    const fots_iso_week_date_result week = fots_date_to_iso_week_date(date);
    check(fots_date_from_calendar_date(calendar.year, calendar.month, calendar.day).date.julian_day == 2460370, "by the calendar");
    check(fots_date_from_ordinal_date(ordinal.year, ordinal.ordinal).date.julian_day == 2460370, "by the ordinal");
    check(fots_date_from_iso_week_date(week.year, week.week, week.weekday).date.julian_day == 2460370, "by the week");
    check(fots_date_replace_month(date, fots_month_nth_next(fots_date_month(date).number, 12).number).date.julian_day == 2460370,
        "months");
    check(fots_date_replace_day(date, fots_month_length(fots_date_month(date).number,
        fots_date_year(date).number).number).date.julian_day
        == 2460370, "the length of a month");
    check(fots_date_replace_ordinal(date, fots_date_ordinal(date).number).date.julian_day == 2460370, "an ordinal");
    check(fots_date_next_occurrence(date, fots_weekday_nth_next(fots_date_weekday(date).number, 7).number).date.julian_day == 2460377,
        "weekdays");
    const fots_time time = fots_time_from_hms_nano(1, 2, 3, 4).time;
    const fots_hms_nano_result clock = fots_time_as_hms_nano(time);
    check(fots_time_from_hms_nano(clock.hour, clock.minute, clock.second, clock.nanosecond).time == time, "a clock");
    check(fots_time_replace_hour(time, fots_time_hour(time).number).time == time, "an hour");
    const fots_offset offset = fots_offset_from_whole_seconds(fots_offset_from_hms(-1, 30, 0).offset.seconds).offset;
    const fots_offset_hms_result parts = fots_offset_as_hms(offset);
    check(fots_offset_from_hms(parts.hours, parts.minutes, parts.seconds).offset.seconds == -5400, "the parts of an offset");
    const fots_duration duration = fots_duration_days(fots_duration_whole_days(fots_duration_weeks(1).duration).number).duration;
    const fots_text_result text = fots_unix_text(date, time, offset);
    const fots_parse_moment_result moment = fots_unix_parse(text.bytes, text.length);
    check(fots_add_to_pair(moment.date, moment.time, duration).status == FOTS_OK, "a moment moved");
    check(fots_date_add_days(date, fots_days_in_year(calendar.year)).date.julian_day == 2460736, "a year of days");
    check(fots_duration_new(duration.seconds, duration.nanoseconds).status == FOTS_OK, "a duration by its numbers");
}

// Calls each inline function.
void inlined()
{
    const fots_date date = fots_date_from_calendar_date_inline(2024, 2, 29).date;
    const fots_calendar_date_result calendar = fots_date_to_calendar_date_inline(date);
    const fots_iso_week_date_result week = fots_date_to_iso_week_date_inline(date);
    check(date.julian_day == 2460370 && calendar.year == 2024 && calendar.month == 2 && calendar.day == 29, "inline, the calendar");
    check(week.year == 2024 && week.week == 9 && week.weekday == fots_date_weekday_inline(date).number, "inline, the week");
    check(fots_date_year_inline(date).number == 2024 && fots_date_month_inline(date).number == 2 && fots_date_day_inline(date).number == 29,
        "inline, the components");
    check(fots_date_next_day_inline(date).date.julian_day == 2460371 && fots_date_previous_day_inline(date).date.julian_day == 2460369
        && fots_date_add_days_inline(date, -366).date.julian_day == 2460004, "inline, moves");
    check(fots_date_weekday_inline(fots_date_from_calendar_date_inline(2023, 2, 29).date).status == FOTS_INVALID_DATE, "inline, no date");
}

} // namespace

int main()
{
    const fots_date_result leap_day = fots_date_from_calendar_date(2024, 2, 29);
    check(leap_day.status == FOTS_OK && leap_day.date.julian_day == 2460370, "2024-02-29");
    const fots_date_result later = fots_date_checked_add(leap_day.date, fots_duration_days(366).duration);
    const fots_calendar_date_result calendar = fots_date_to_calendar_date(later.date);
    check(calendar.year == 2025 && calendar.month == 3 && calendar.day == 1, "366 days later");
    const fots_date_result none = fots_date_replace_year(leap_day.date, 2023);
    check(none.status == FOTS_DAY_OUT_OF_RANGE && std::strcmp(fots_status_name(none.status), "day") == 0, "29 February of 2023");
    check(fots_status_is_conditional(none.status) == 1, "the mark of a day");
    check(fots_date_weekday(none.date).status == FOTS_INVALID_DATE, "the weekday of no date");
    const fots_parse_date_result parse = fots_date_parse("2024-060", 8);
    check(parse.status == FOTS_OK && parse.date.julian_day == leap_day.date.julian_day && parse.position == SIZE_MAX,
        "an ordinal date read");
    const fots_text_result text = fots_date_week_text(parse.date);
    check(text.length == 10 && std::strcmp(text.bytes, "2024-W09-4") == 0, "a week date printed");
    chained();
    inlined();
    std::printf("calendar in C++: %d failed\n", failed);
    return failed != 0;
}
