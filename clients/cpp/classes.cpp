// Checks the classes of fotsevindre.hpp: worked rows, order, errors, empty results, and <chrono>.
#include <array>
#include <cstdio>
#include <ctime>
#include <initializer_list>
#include <map>
#include <sstream>
#include <type_traits>
#include <unordered_set>
#include <vector>

#include "fotsevindre.hpp"
#include "fotsevindre_locale.h"

using namespace fotsevindre;

namespace {

int failed = 0;

void check(bool holds, const char *what)
{
    if (!holds) {
        failed++;
        std::printf("failed: %s\n", what);
    }
}

// Checks the error of a call: its status and its message.
template <class Call> void throws(Call call, std::int32_t status, const std::string &message, const char *what)
{
    try {
        static_cast<void>(call());
        check(false, what);
    } catch (const error &thrown) {
        check(thrown.status() == status && thrown.what() == message, what);
    }
}

template <class Call> void has_no_room(Call call, const char *what)
{
    try {
        static_cast<void>(call());
        check(false, what);
    } catch (const std::length_error &) {
        check(true, what);
    }
}

// Returns whether a call takes a zone that lives on, and no temporary one.
template <class Call> constexpr bool needs_lasting_zone(Call)
{
    return std::is_invocable_v<Call, const Zone &> && std::is_invocable_v<Call, Zone &> && !std::is_invocable_v<Call, Zone>
        && !std::is_invocable_v<Call, const Zone>;
}

// A call that compiles if its expression does, where ZONE is the argument.
#define WITH_ZONE(...) [](auto &&zone) -> decltype(__VA_ARGS__) { return __VA_ARGS__; }
#define ZONE std::forward<decltype(zone)>(zone)

// A value that refers to a zone is made of no temporary one, where it would dangle.
static_assert(needs_lasting_zone(WITH_ZONE(ZonedDateTime(std::declval<OffsetDateTime>(), ZONE))));
static_assert(needs_lasting_zone(WITH_ZONE(ZonedDateTime::now(ZONE))));
static_assert(needs_lasting_zone(WITH_ZONE(ZonedDateTime::from_unix_duration(std::declval<Duration>(), ZONE))));
static_assert(needs_lasting_zone(WITH_ZONE(ZonedDateTime::from_local(std::declval<PlainDateTime>(), ZONE))));
static_assert(needs_lasting_zone(WITH_ZONE(ZonedDateTime::from_local(std::declval<PlainDateTime>(), ZONE, Policy::Reject))));
static_assert(needs_lasting_zone(WITH_ZONE(std::declval<ZonedDateTime>().in_zone(ZONE))));
static_assert(needs_lasting_zone(WITH_ZONE(ZONE.start_of_day(std::declval<Date>()))));

void dates()
{
    const Date day = Date::from_calendar_date(2024, Month::February, 29);
    check(Date::easter(2024) == Date::parse("2024-03-31") && Date::julian_easter(2024) == Date::parse("2024-05-05"), "Easter");
    throws([] { return Date::easter(1000000); }, FOTS_YEAR_OUT_OF_RANGE, "year 1000000 is out of range -999999 to 999999", "Easter after the range");
    check(day == Date::from_ordinal_date(2024, 60) && day == Date::from_iso_week_date(2024, 9, Weekday::Thursday), "made thrice");
    check(day == Date::from_julian_day(2460370) && day == Date::parse("2024-W09-4") && day == Date(day.c()), "the same day");
    check(day < Date::max() && day > Date::min() && day <= day && day >= day && !(day != day), "the order of dates");
    check(day.to_calendar_date() == std::tuple(2024, Month::February, 29U), "the calendar date");
    check(day.to_ordinal_date() == std::tuple(2024, 60U), "the ordinal date");
    check(day.to_iso_week_date() == std::tuple(2024, 9U, Weekday::Thursday), "the week date");
    check(day.year() == 2024 && day.month() == Month::February && day.day() == 29 && day.ordinal() == 60 && day.iso_week() == 9,
        "parts");
    check(day.weekday() == Weekday::Thursday && to_string(day.weekday()) == "Thursday" && to_string(day.month()) == "February",
        "names");
    check(to_string(day + Duration::days(366)) == "2025-03-01" && day - Duration::hours(47) == Date::parse("2024-02-28"), "moves");
    check(Date::max() - day == Duration::days(364503189), "the days between");
    check(day.next_day() == Date::parse("2024-03-01") && Date::max().next_day() == std::nullopt, "the day after");
    check(day.previous_day() == Date::parse("2024-02-28") && Date::min().previous_day() == std::nullopt, "the day before");
    check(day.checked_add_days(-60) == Date::parse("2023-12-31") && Date::max().checked_add(Duration::days(1)) == std::nullopt,
        "none");
    check(Date::min().checked_sub(Duration::days(1)) == std::nullopt, "none");
    check(Date::max().saturating_add(Duration::days(1)) == Date::max()
        && Date::min().saturating_sub(Duration::days(1)) == Date::min(),
        "clamped");
    check(day.checked_next_occurrence(Weekday::Monday) == Date::parse("2024-03-04"), "the next Monday");
    check(day.checked_prev_occurrence(Weekday::Monday) == Date::parse("2024-02-26"), "the Monday before");
    check(day.replace_year(2020) == Date::parse("2020-02-29") && day.replace_month(Month::May) == Date::parse("2024-05-29"),
        "replaced");
    check(day.replace_day(1) == Date::parse("2024-02-01") && day.replace_ordinal(366) == Date::parse("2024-12-31"), "replaced");
    check(day.ordinal_text() == "2024-060" && day.week_text() == "2024-W09-4", "texts");
    std::ostringstream printed;
    printed << day << ' ' << day.month() << ' ' << day.weekday();
    check(printed.str() == "2024-02-29 February Thursday", "printed");
    check(std::map<Date, int>{{day, 1}}.count(day) == 1 && std::unordered_set<Date>{day}.count(day) == 1, "as keys");
}

void errors()
{
    throws([] { return Date::from_calendar_date(2023, 2, 29); }, FOTS_DAY_OUT_OF_RANGE, "day 29 is out of range 1 to 28 (February 2023)",
        "29 February of 2023");
    throws([] { return Date::parse("2024-02-3"); }, FOTS_UNEXPECTED_END, "unexpected end at position 9", "a text that ends too early");
    throws([] { return Date::parse("2024x"); }, FOTS_UNEXPECTED_BYTE, "unexpected \"x\" at position 4", "a wrong byte");
    throws([] { return Date::parse(""); }, FOTS_UNEXPECTED_END, "unexpected end at position 0", "no text");
    throws([] { return Date::parse(std::string_view()); }, FOTS_UNEXPECTED_END, "unexpected end at position 0", "no text at all");
    throws([] { return Time::parse("9:05x"); }, FOTS_UNEXPECTED_BYTE, "unexpected \"x\" at position 4", "a time with a letter");
    throws([] { return Time::parse("24:00"); }, FOTS_HOUR_OUT_OF_RANGE, "hour 24 is out of range 0 to 23", "24:00");
    throws([] { return UtcOffset::parse("+01"); }, FOTS_UNEXPECTED_END, "unexpected end at position 3", "an offset without minutes");
    throws([] { return PlainDateTime::parse("2024-02-29"); }, FOTS_UNEXPECTED_END, "unexpected end at position 10", "a date without a time");
    throws([] { return PlainDateTime::parse("2023-02-29T9:05"); }, FOTS_DAY_OUT_OF_RANGE, "day 29 is out of range 1 to 28 (February 2023)",
        "29 February with a time");
    throws([] { return Date::parse("30/02/2024", Format("%d/%m/%Y")); }, FOTS_DAY_OUT_OF_RANGE, "day 30 is out of range 1 to 29 (February 2024)",
        "30 February by a format");
    throws([] { return Date::parse("2/29/71", LenientFormat(Format("%m/%d/%y"), 1970)); }, FOTS_DAY_OUT_OF_RANGE,
        "day 29 is out of range 1 to 28 (February 1971)", "29 February by a lenient format");
    throws([] { return OffsetDateTime::parse("2024-02-29T9:05"); }, FOTS_UNEXPECTED_END, "unexpected end at position 15", "a time without an offset");
    throws([] { return Date::max() + Duration::days(1); }, FOTS_RESULT_OUT_OF_RANGE, "the result is out of range, or does not exist",
        "a day after the last one");
    throws([] { return Date(fots_date{FOTS_NO_VALUE}); }, FOTS_INVALID_DATE, "invalid date; expected a Julian day from -363521074 to 366963559", "no date");
    throws([] { return Time::from_hms(24, 0, 0); }, FOTS_HOUR_OUT_OF_RANGE, "hour 24 is out of range 0 to 23", "hour 24");
    throws([] { return Time(FOTS_NO_TIME); }, FOTS_INVALID_TIME, "invalid time; expected 0 to 86399999999999 nanoseconds since midnight", "no time");
    throws([] { return UtcOffset::from_hms(26, 0, 0); }, FOTS_OFFSET_HOUR_OUT_OF_RANGE, "offset hour 26 is out of range -25 to 25", "26 hours");
    throws([] { return UtcOffset(fots_offset{FOTS_NO_VALUE}); }, FOTS_INVALID_OFFSET, "invalid offset; expected -93599 to 93599 seconds", "no offset");
    throws([] { return Duration(fots_duration{1, -1, 0}); }, FOTS_INVALID_DURATION, "invalid duration; expected -999999999 to 999999999 ns, signed like the seconds",
        "no duration");
    throws([] { return Duration::seconds(1) / 0; }, FOTS_RESULT_OUT_OF_RANGE, "the result is out of range, or does not exist", "a second by 0");
    try {
        static_cast<void>(Date::from_calendar_date(2023, 2, 29));
    } catch (const error &thrown) {
        check(std::string(thrown.name()) == "day" && thrown.is_conditional() && thrown.position() == SIZE_MAX, "the name and the mark");
    }
}

void others()
{
    const Time late = Time::from_hms(23, 0, 0);
    check(late + Duration::hours(26) == Time::from_hms(1, 0, 0) && late - Duration::hours(24) == late, "round the clock");
    check(Time::from_hms(0, 0, 0) - late == -Duration::hours(23), "a difference");
    const Time one = Time::from_hms_nano(1, 2, 3, 4);
    check(one.hour() == 1 && one.minute() == 2 && one.second() == 3 && one.nanosecond() == 4 && one < late, "the parts of a time");
    check(-UtcOffset::from_hms(-5, 30, 0) == UtcOffset::from_whole_seconds(19800) && UtcOffset::utc().whole_seconds() == 0,
        "offsets");
    check(UtcOffset::from_hms(-1, 30, 0).as_hms() == std::tuple(-1, -30, 0), "the parts of an offset");
    check(Duration::milliseconds(-1500).c().nanoseconds == -500000000 && Duration::of(-1, 1) == Duration::nanoseconds(-999999999),
        "durations");
    check(Duration::weeks(1) == Duration::days(7) && Duration::minutes(60) == Duration::hours(1)
        && Duration::microseconds(2).whole_seconds() == 0, "units");
    check(Duration::hours(47).whole_days() == 1 && Duration::days(-13).whole_weeks() == -1
        && Duration::minutes(-90).whole_hours() == -1, "whole units");
    check(Duration::seconds(90).whole_minutes() == 1
        && (3 * Duration::seconds(5) - Duration::seconds(1)) / 7 + Duration::seconds(0) == Duration::seconds(2), "reckoned");
    check((-Duration::seconds(1)).abs() > Duration::seconds(0) && Duration::nanoseconds(5).subsec_nanoseconds() == 5, "magnitudes");
    const auto later = add_to_pair(Date::parse("2020-12-31"), late, Duration::hours(2));
    check(later == std::pair(Date::parse("2021-01-01"), Time::from_hms(1, 0, 0)), "two hours later");
    check(sub_from_pair(later->first, later->second, Duration::hours(2)) == std::pair(Date::parse("2020-12-31"), late), "and back");
    check(add_to_pair(Date::max(), late, Duration::hours(2)) == std::nullopt, "past the last moment");
    const auto [date, time, offset] = parse_rfc3339("2024-02-29T23:59:59.25+01:00");
    check(rfc3339_text(date, time, offset) == "2024-02-29T23:59:59.25+01:00", "RFC 3339 both ways");
    check(rfc3339_text(Date::max(), time, offset) == std::nullopt, "no text of RFC 3339");
    const Duration since = unix_duration(date, time, offset);
    check(since == Duration::of(1709247599, 250000000) && unix_pair(since, offset) == std::pair(date, time),
        "the Unix time both ways");
}

void moments()
{
    const auto [date, time, offset] = parse_rfc3339("2024-02-29T23:59:59.25+01:00");
    const OffsetDateTime night = OffsetDateTime::new_in_offset(date, time, offset);
    const OffsetDateTime at_utc = night.to_utc();
    const UtcOffset east = UtcOffset::from_hms(1, 0, 0), west = UtcOffset::from_hms(-2, 0, 0);
    check(night.date() == date && night.time() == time && night.offset() == offset, "the parts");
    check(at_utc.date() == date && at_utc.time() == Time::from_hms_nano(22, 59, 59, 250000000), "the clock at UTC");
    check(night == at_utc && night <= at_utc && !(night < at_utc) && night == OffsetDateTime(night.c()), "one instant");
    check(night < night.replace_offset(UtcOffset::utc()), "a later instant");
    check(night.replace_offset(UtcOffset::utc()) - night == Duration::hours(1), "an hour later");
    check(night.unix_timestamp() == 1709247599 && night.unix_duration() == Duration::of(1709247599, 250000000), "the Unix time");
    check(Time::parse("23:59:59.25") == time && UtcOffset::parse("+01:00") == offset && UtcOffset::parse("Z") == UtcOffset::utc(), "parsed parts");
    check(PlainDateTime::parse("2024-W09-4 23:59:59.25") == night.local(), "a parsed date-time");
    check(OffsetDateTime::parse("2024-02-29T23:59:59.25 +01:00") == night && OffsetDateTime::parse("2024-060t22:59:59.250z") == night, "a parsed moment");
    check(OffsetDateTime::from_unix_duration(night.unix_duration()) == night, "of the Unix time");
    check(OffsetDateTime::from_unix_timestamp(-1) + Duration::seconds(1) == OffsetDateTime::from_unix_timestamp(0), "moves");
    check((OffsetDateTime::from_unix_timestamp(0) - Duration::milliseconds(500)).unix_timestamp() == -1, "rounded toward the past");
    const OffsetDateTime last = OffsetDateTime::new_utc(Date::max(), Time(FOTS_MAX_TIME));
    const OffsetDateTime later = OffsetDateTime::new_in_offset(Date::max(), Time::from_hms(23, 0, 0), west);
    const OffsetDateTime first = OffsetDateTime::new_utc(Date::min(), Time(0));
    check(later > last && later.checked_to_utc() == std::nullopt, "at no date at UTC");
    check(OffsetDateTime::new_in_offset(Date::min(), Time(0), east) < first, "before the first at UTC");
    check(first.checked_add(Duration::seconds(INT64_MAX)) == std::nullopt, "past the last moment");
    check(first.saturating_add(Duration::seconds(INT64_MAX)) == last && last.saturating_sub(Duration::seconds(INT64_MAX)) == first, "clamped");
    check(last.checked_sub(Duration::days(1)) == last - Duration::days(1), "a day before");
    throws([&] { return later.to_utc(); }, FOTS_RESULT_OUT_OF_RANGE, "the result is out of range, or does not exist", "no date at UTC");
    throws([&] { return first - Duration::nanoseconds(1); }, FOTS_RESULT_OUT_OF_RANGE, "the result is out of range, or does not exist", "before the first");
    throws([] { return OffsetDateTime::from_unix_timestamp(INT64_MAX); },
        FOTS_TIMESTAMP_OUT_OF_RANGE, "timestamp 9223372036854775807 is out of range -31619087596800 to 31494784780799", "no timestamp");
    throws([] { OffsetDateTime(fots_moment{{0}, {0}, FOTS_NO_TIME}); }, FOTS_INVALID_MOMENT, "invalid moment; expected a valid date, time and offset",
        "no moment");
}

void schedule()
{
    const Date end = Date::parse("2024-01-31"), leap = Date::parse("2024-02-29");
    check(end.checked_add_months(1) == leap && leap.checked_add_years(1) == Date::parse("2025-02-28"), "the ends of February");
    check(Date::max().checked_add_months(1) == std::nullopt && Date::max().saturating_add_months(1) == Date::max(), "past the last month");
    const Date born = Date::parse("1980-06-01");
    check(born.years_until(Date::parse("2024-05-31")) == 43 && born.years_until(Date::parse("2024-06-01")) == 44, "an age");
    check(end.months_until(leap) == 1 && end.period_until(Date::parse("2025-03-02")) == Period(1, 1, 0, 2), "months, and a period");
    check(end.period_until_by(Date::parse("2025-03-02"), CalendarUnit::Month) == Period(0, 13, 0, 2)
        && end.period_until_by(Date::parse("2025-03-02"), CalendarUnit::Week) == Period(0, 0, 56, 4), "a period by a unit");
    check(end.step_of(Period::from_months(1), leap) == 1 && end.step_of(Period::from_months(1), born) == std::nullopt
        && end.step_of(Period::from_days(0), leap) == std::nullopt, "the step of a date");
    const DateRange march(Date::parse("2024-03-01"), Date::parse("2024-04-01")), later(Date::parse("2024-03-22"), Date::parse("2024-05-01"));
    check(march.share(later) == std::tuple(10u, 31u) && march.length() == 31 && march.contains(march.start()) && !march.contains(march.end()), "a share");
    check(march.overlaps(later) && march.intersection(later) == DateRange(later.start(), march.end()), "common days");
    const DateRange touching(leap, march.start());
    check(!march.overlaps(touching) && march.intersection(touching) == std::nullopt && touching != march, "no common days");
    throws([&] { return DateRange(march.end(), march.start()); }, FOTS_INVALID_RANGE, "invalid range; expected two dates, and no end before the start",
        "an end before the start");
    check(leap.first_of_month() == Date::parse("2024-02-01") && leap.last_of_month() == leap, "the ends of the month");
    check(leap.first_of_quarter() == Date::parse("2024-01-01") && leap.last_of_quarter() == Date::parse("2024-03-31")
        && leap.quarter() == 1, "the quarter");
    check(leap.first_of_year() == Date::parse("2024-01-01") && leap.last_of_year() == Date::parse("2024-12-31"), "the year");
    check(leap.first_of_iso_week() == Date::parse("2024-02-26") && leap.last_of_iso_week() == Date::parse("2024-03-03"), "the week");
    check(Date::max().last_of_iso_week() == std::nullopt && Date::max().on_or_after(Weekday::Saturday) == std::nullopt, "none");
    check(Date::nth_weekday_of_month(2024, Month::November, Weekday::Thursday, 4) == Date::parse("2024-11-28"), "Thanksgiving");
    check(Date::last_weekday_of_month(2024, Month::May, Weekday::Friday) == Date::parse("2024-05-31"), "a last Friday");
    check(leap.on_or_after(Weekday::Monday) == Date::parse("2024-03-04") && leap.on_or_before(Weekday::Thursday) == leap, "a weekday");
    const YearFraction fraction = Date::parse("2003-11-01").day_count(Date::parse("2004-05-01"), DayCount::ActualActual);
    check(fraction.numerator == 61 * 366 + 121 * 365 && fraction.denominator == 133590, "the memorandum of the ISDA");
    throws([] { return Date::nth_weekday_of_month(2024, Month::November, Weekday::Thursday, 5); }, FOTS_WEEKDAY_OUT_OF_RANGE, "weekday is out of range",
        "a fifth");
}

void workdays()
{
    const Date labor_day = Date::parse("2024-09-02"), friday = Date::parse("2024-08-30"), tuesday = Date::parse("2024-09-03");
    const Workdays plain, work({labor_day});
    check(plain.is_workday(labor_day) && !work.is_workday(labor_day) && !work.is_workday(Date::parse("2024-08-31")), "working days");
    check(work.next_workday(friday) == tuesday && work.previous_workday(tuesday) == friday, "round a holiday");
    check(work.checked_add_workdays(friday, 2) == Date::parse("2024-09-04") && work.workdays_between(friday, tuesday) == 1, "counted");
    check(work.adjust(Date::parse("2024-08-31"), Convention::Following) == tuesday
        && work.adjust(Date::parse("2024-08-31"), Convention::ModifiedFollowing) == friday, "moved to one");
    check(plain.workdays_between(Date::parse("2024-01-01"), Date::parse("2025-01-01")) == 262, "those of 2024");
    check(Workdays({false, false, false, false, false, true, true}, {}).next_workday(friday) == Date::parse("2024-08-31"), "a weekend");
    check(Workdays(std::array<bool, 7>{}, {}).next_workday(friday) == std::nullopt, "no working day");
    const Workdays target = Workdays::of(Calendar::Target, Date::parse("2024-01-01"), Date::parse("2024-12-31"));
    check(target.next_workday(Date::parse("2024-03-28")) == Date::parse("2024-04-02"), "after Maundy Thursday");
    const Workdays bank = Workdays::from_rules("easter-2\n# Christmas\n12-25 SA-1 SU+1\n", Date::parse("2020-01-01"), Date::parse("2024-12-31"));
    check(bank.next_workday(Date::parse("2024-03-28")) == Date::parse("2024-04-01"), "after Good Friday");
    check(!bank.is_workday(Date::parse("2021-12-24")) && bank.is_workday(Date::parse("2021-12-27")), "a Christmas on Saturday");
    throws([] { return Workdays::from_rules("12-25\n12-32", Date::parse("2024-01-01"), Date::parse("2024-12-31")); }, FOTS_INVALID_HOLIDAY_RULE,
        "invalid rule of a holiday at position 6; expected a day, years or a move", "32 December");
    throws([] { return Workdays::of(Calendar::UsFederal, Date::parse("1971-01-01"), Date::parse("2099-12-31")); }, FOTS_TOO_MANY_HOLIDAYS,
        "too many holidays; expected at most 1024", "the holidays of 129 years");
    throws([&] { return Workdays({labor_day, labor_day}); }, FOTS_INVALID_HOLIDAYS, "holidays[1] is not after holidays[0]", "a holiday twice");
    throws([&] { return Workdays({friday, labor_day, tuesday, labor_day}); }, FOTS_INVALID_HOLIDAYS, "holidays[3] is not after holidays[2]", "holidays out of order");
}

// Examples of RFC 5545.
void recurrences()
{
    const auto dates = [](std::initializer_list<const char *> texts) {
        std::vector<Date> made;
        for (const char *text : texts) {
            made.push_back(Date::parse(text));
        }
        return made;
    };
    Rule mondays(Date::parse("1997-09-22"), Frequency::Monthly);
    mondays.weekdays = {{-2, Weekday::Monday}};
    check(mondays.first_days(6) == dates({"1997-09-22", "1997-10-20", "1997-11-17", "1997-12-22", "1998-01-19", "1998-02-16"}), "BYDAY=-2MO");
    check(mondays.next_after(Date::parse("1997-12-22")) == Date::parse("1998-01-19") && mondays.contains(Date::parse("1998-02-16"))
        && !mondays.contains(Date::parse("1998-02-23")), "one at a time");
    check(mondays.previous_before(Date::parse("1998-01-19")) == Date::parse("1997-12-22") && !mondays.previous_before(mondays.start), "before a day");
    check(mondays.first_days(0).empty() && mondays.days_after(Date::parse("1997-11-17"), 1) == dates({"1997-12-22"}), "after a day");
    has_no_room([&] { return mondays.days_after(Date::min(), SIZE_MAX); }, "room for too many days after a day");
    Rule election(Date::parse("1996-11-05"), Frequency::Yearly);
    election.interval = 4;
    election.months = {Month::November};
    election.weekdays = {Weekday::Tuesday};
    election.month_days = {2, 3, 4, 5, 6, 7, 8};
    check(election.first_days(3) == dates({"1996-11-05", "2000-11-07", "2004-11-02"}), "BYMONTH=11;BYDAY=TU;BYMONTHDAY=2,3,4,5,6,7,8");
    Rule weeks(Date::parse("1997-08-05"), Frequency::Weekly);
    weeks.interval = 2;
    weeks.weekdays = {Weekday::Tuesday, Weekday::Sunday};
    check(weeks.first_days(4) == dates({"1997-08-05", "1997-08-10", "1997-08-19", "1997-08-24"}), "WKST=MO");
    weeks.week_start = Weekday::Sunday;
    check(weeks.first_days(4) == dates({"1997-08-05", "1997-08-17", "1997-08-19", "1997-08-31"}), "WKST=SU");
    weeks.until = Date::parse("1997-08-18");
    check(weeks.first_days(4) == dates({"1997-08-05", "1997-08-17"}), "an end");
    weeks.until = Date::min();
    check(weeks.first() == std::nullopt && weeks.first_days(4).empty(), "no day");
    for (const std::size_t length : std::initializer_list<std::size_t>{FOTS_MAX_VALUES + 1, 64, 100000}) {
        Rule many(Date::parse("1997-08-05"), Frequency::Weekly);
        many.months.assign(length, Month::August);
        throws([&] { return many.first(); }, FOTS_TOO_MANY_PARTS, "too many values in a list of a rule; expected at most 62", "months");
        many.months.resize(FOTS_MAX_VALUES, Month::August);
        many.month_days.assign(length, 5);
        throws([&] { return many.contains(many.start); }, FOTS_TOO_MANY_PARTS, "too many values in a list of a rule; expected at most 62", "days of the month");
        many.month_days.resize(FOTS_MAX_VALUES);
        many.weekdays.assign(length, Weekday::Tuesday);
        throws([&] { return many.next_after(many.start); }, FOTS_TOO_MANY_PARTS, "too many values in a list of a rule; expected at most 62", "weekdays");
        many.weekdays.resize(FOTS_MAX_VALUES, Weekday::Tuesday);
        many.weeks.assign(length, 32);
        throws([&] { return many.first(); }, FOTS_TOO_MANY_PARTS, "too many values in a list of a rule; expected at most 62", "weeks");
        many.weeks.resize(FOTS_MAX_VALUES);
        many.year_days.assign(length, 217);
        throws([&] { return many.first(); }, FOTS_TOO_MANY_PARTS, "too many values in a list of a rule; expected at most 62", "days of the year");
        many.year_days.resize(FOTS_MAX_VALUES);
        many.set_positions.assign(length, 1);
        throws([&] { return many.first(); }, FOTS_TOO_MANY_PARTS, "too many values in a list of a rule; expected at most 62", "positions");
        many.set_positions.resize(FOTS_MAX_VALUES);
        check(many.first() == many.start, "62 values");
    }
    Rule fridays(Date::parse("2024-01-01"), Frequency::Monthly);
    fridays.until = Date::parse("2024-06-30");
    fridays.weekdays = {{-1, Weekday::Friday}};
    fridays.dates = dates({"2024-02-23", "2023-12-25", "2024-02-29", "2024-07-01", "2024-02-01", "2023-12-25"});
    fridays.exceptions = dates({"2024-05-31", "2024-01-26", "2024-07-01", "2024-01-02"});
    check(fridays.first_days(9) == dates({"2023-12-25", "2024-02-01", "2024-02-23", "2024-02-29", "2024-03-29", "2024-04-26", "2024-06-28"}), "RDATE, EXDATE");
    check(fridays.contains(fridays.dates[1]) && !fridays.contains(fridays.exceptions[1]), "a day and an exception");
    fridays.dates.assign(FOTS_MAX_DATES + 1, fridays.start);
    throws([&] { return fridays.first(); }, FOTS_TOO_MANY_DATES, "too many dates or exceptions of a rule; expected at most 1024", "dates");
    fridays.dates.clear();
    fridays.exceptions.assign(FOTS_MAX_DATES + 1, fridays.start);
    throws([&] { return fridays.first(); }, FOTS_TOO_MANY_DATES, "too many dates or exceptions of a rule; expected at most 1024", "exceptions");
    Rule third(Date::parse("1997-09-04"), Frequency::Monthly);
    third.weekdays = {Weekday::Tuesday, Weekday::Wednesday, Weekday::Thursday};
    third.set_positions = {3};
    check(third.first_days(3) == dates({"1997-09-04", "1997-10-07", "1997-11-06"}), "BYSETPOS=3");
    Rule week_20(Date::parse("1997-05-12"), Frequency::Yearly);
    week_20.weeks = {20};
    week_20.weekdays = {Weekday::Monday};
    check(week_20.first_days(3) == dates({"1997-05-12", "1998-05-11", "1999-05-17"}), "BYWEEKNO=20");
    Rule ordinals(Date::parse("1997-01-01"), Frequency::Yearly);
    ordinals.interval = 3;
    ordinals.year_days = {1, 100, 200};
    check(ordinals.first_days(5) == dates({"1997-01-01", "1997-04-10", "1997-07-19", "2000-01-01", "2000-04-09"}), "BYYEARDAY=1,100,200");

    const Recurrence by_text = Recurrence::parse("FREQ=MONTHLY;COUNT=6;BYDAY=-2MO");
    const Date start = Date::parse("1997-09-22");
    check(by_text.days(start, 9) == mondays.first_days(6) && by_text.days(start, 2) == mondays.first_days(2), "by its text");
    check(by_text.days_from(start, Date::parse("1998-01-01"), 9) == dates({"1998-01-19", "1998-02-16"}), "from a day on");
    check(by_text.days(start, 0).empty() && by_text.days_from(start, Date::max(), 9).empty(), "none of them");
    RecurrenceCursor cursor = by_text.cursor();
    check(by_text.next_days(start, start, 4, cursor) == dates({"1997-09-22", "1997-10-20", "1997-11-17", "1997-12-22"}), "a first page");
    const RecurrenceCursor first_page = cursor;
    check(by_text.next_days(start, start, 4, cursor) == dates({"1998-01-19", "1998-02-16"}) && by_text.next_days(start, start, 4, cursor).empty(), "a last page");
    cursor = {first_page.date, first_page.left, first_page.time};
    check(by_text.next_days(start, Date::parse("1998-02-01"), 4, cursor) == dates({"1998-02-16"}), "a page from a day on");
    has_no_room([&] { return by_text.days(start, SIZE_MAX); }, "room for too many days of a recurrence");
    check(by_text.rule(start).next_after(Date::parse("1998-02-16")) == Date::parse("1998-03-23") && by_text.rule(start).contains(start), "its rule");
    check(by_text.count() == 6 && !by_text.until() && by_text.interval() == 1 && by_text.frequency() == Frequency::Monthly, "its parts");
    const Recurrence all_parts = Recurrence::parse("byday=tu,+02we,-1su;bymonthday=-31,+07;bymonth=06,12;until=19971231;wkst=su;interval=002;freq=yearly");
    check(all_parts.text() == "FREQ=YEARLY;INTERVAL=2;UNTIL=19971231;BYMONTH=6,12;BYMONTHDAY=-31,7;BYDAY=TU,2WE,-1SU;WKST=SU", "in one order");
    check(all_parts.months() == std::vector{Month::June, Month::December} && all_parts.month_days() == std::vector<std::int8_t>{-31, 7}, "lists");
    const Recurrence numbered = Recurrence::parse("FREQ=YEARLY;BYWEEKNO=1,-1;BYYEARDAY=1,-366;BYDAY=MO;BYSETPOS=2,-366");
    check(numbered.weeks() == std::vector<std::int8_t>{1, -1} && numbered.year_days() == std::vector<std::int16_t>{1, -366}
        && numbered.set_positions() == std::vector<std::int16_t>{2, -366}, "weeks, days of the year and positions");
    const Rule of_text = numbered.rule(start);
    check(of_text.weeks == numbered.weeks() && of_text.year_days == numbered.year_days() && of_text.set_positions == numbered.set_positions(), "its rule's lists");
    const std::vector<ByDay> by = all_parts.weekdays();
    check(by.size() == 3 && by[0].number == 0 && by[1].number == 2 && by[2].number == -1 && by[2].weekday == Weekday::Sunday, "weekdays");
    check(all_parts.until() == Date::parse("1997-12-31") && all_parts.week_start() == Weekday::Sunday && !all_parts.count(), "the other parts");
    check(Recurrence::parse(all_parts.text()) == all_parts && all_parts != by_text, "read again");
    std::ostringstream printed;
    printed << by_text;
    check(printed.str() == by_text.text() && by_text.text() == "FREQ=MONTHLY;COUNT=6;BYDAY=-2MO", "printed");
    throws([] { return Recurrence::parse("FREQ=DAILY;UNTIL=20241231;COUNT=3"); }, FOTS_DUPLICATE_PART, "duplicate COUNT at position 26", "two ends");
    throws([] { return Recurrence::parse(""); }, FOTS_UNKNOWN_PART, "unknown part at position 0", "no text");
    try {
        static_cast<void>(Recurrence::parse("FREQ=DAILY;BYDAY=XX"));
        check(false, "no weekday");
    } catch (const parse_rule_error &thrown) {
        check(thrown.part() == FOTS_RULE_BYDAY && thrown.position() == 11 && thrown.status() == FOTS_INVALID_VALUE, "the part at fault");
        check(thrown.part_name() == std::string("BYDAY") && thrown.what() == std::string("invalid value of BYDAY at position 11"), "its name");
    }
    const std::string &kept = Recurrence::parse("freq=daily").text();
    check(kept == "FREQ=DAILY", "the text of a temporary");
}

void plain_moments()
{
    const PlainDateTime night(Date::parse("2020-12-31"), Time::from_hms(23, 0, 0));
    check(night + Duration::hours(2) == PlainDateTime(Date::parse("2021-01-01"), Time::from_hms(1, 0, 0)), "two hours later");
    check((night + Duration::hours(2)) - night == Duration::hours(2) && night - Duration::days(1) < night, "the difference, and order");
    const PlainDateTime last(Date::max(), Time(FOTS_MAX_TIME));
    check(last.checked_add(Duration::nanoseconds(1)) == std::nullopt && last.saturating_add(Duration::days(1)) == last, "past the last");
    check(last.checked_sub(Duration::days(1)) == last.replace_date(*Date::max().previous_day()), "a day before it");
    check(last.saturating_sub(Duration::seconds(INT64_MAX)) == PlainDateTime(Date::min(), Time(0)), "the first");
    const OffsetDateTime shown = night.assume_offset(UtcOffset::from_hms(1, 0, 0));
    check(shown.local() == night && shown.to_utc().local() == night - Duration::hours(1) && night.assume_utc() > shown, "at offsets");
    check(night.replace_time(Time(0)).date() == night.date() && night.time() == Time::from_hms(23, 0, 0), "the parts");
}

// The instants are those of GNU date.
void zones()
{
    const Zone berlin = Zone::from_posix("CET-1CEST,M3.5.0,M10.5.0/3");
    check(berlin.offset_at(1711846799) == UtcOffset::from_hms(1, 0, 0) && berlin.offset_at(1711846800) == UtcOffset::from_hms(2, 0, 0),
        "offsets");
    check(!berlin.is_daylight_at(1711846799) && berlin.is_daylight_at(1711846800) && berlin.abbreviation_at(1711846800) == "CEST",
        "daylight saving time");
    check(berlin.next_change(1700000000) == 1711846800 && berlin.previous_change(1711846800) == 1711846800, "changes");
    check(Zone::from_posix("<-03>3").next_change(0) == std::nullopt, "no change");
    const PlainDateTime in_gap(Date::parse("2024-03-31"), Time::from_hms(2, 30, 0)), in_fold(Date::parse("2024-10-27"), Time::from_hms(2, 30, 0));
    const Local gap = berlin.resolve(in_gap), fold = berlin.resolve(in_fold);
    check(gap.kind == LocalKind::Gap && gap.earlier == 1711845000 && gap.later == 1711848600, "a gap");
    check(fold.kind == LocalKind::Fold && fold.earlier == 1729989000 && fold.later == 1729992600, "a fold");
    check(fold.earlier_offset == UtcOffset::from_hms(2, 0, 0) && fold.later_offset == UtcOffset::from_hms(1, 0, 0), "offsets of a fold");
    check(berlin.date_time(in_gap).local() == PlainDateTime(Date::parse("2024-03-31"), Time::from_hms(3, 30, 0)), "after the gap");
    check(berlin.date_time(in_fold, Policy::Later) == OffsetDateTime::from_unix_timestamp(1729992600), "the second");
    check(OffsetDateTime::from_unix_timestamp(1729989000).in_zone(berlin).local() == in_fold, "in a zone");
    check(OffsetDateTime::from_unix_timestamp(1711846800).format(Format("%H:%M %Z"), berlin) == "03:00 CEST", "an abbreviation");
    throws([&] { return OffsetDateTime::from_unix_timestamp(0).format(Format("%Z")); },
        FOTS_UNSUPPORTED_ITEM, "the format shows something that the value doesn't have", "no zone");
    throws([&] { return berlin.date_time(in_gap, Policy::Reject); }, FOTS_SKIPPED_TIME, "the clocks of the zone skip the date and time", "in a gap");
    throws([&] { return berlin.date_time(in_fold, Policy::Reject); }, FOTS_REPEATED_TIME, "the clocks of the zone show the date and time twice", "in a fold");
    check(berlin.offsets({1711846799, 1711846800}) == std::vector<std::int32_t>{3600, 7200} && berlin.offsets({}).empty(), "a column of offsets");
    const InstantColumn instants = berlin.instants({1711852200, 1729996200, 1719801000});
    check(instants.seconds == std::vector<std::int64_t>{1711848600, 1729989000, 1719793800} && instants.errors == 0, "a column of instants");
    const InstantColumn rejected = berlin.instants({1711852200, 1729996200, 1719801000}, Policy::Reject);
    check(rejected.statuses == std::vector<std::uint8_t>{FOTS_SKIPPED_TIME, FOTS_REPEATED_TIME, FOTS_OK} && rejected.errors == 2, "rejected");
    check(rejected.seconds[2] == 1719793800 && berlin.instants({}).errors == 0, "the others");
    throws([] { return Zone::from_posix("CET"); }, FOTS_INVALID_POSIX_OFFSET, "invalid POSIX offset at position 3; expected an offset of at most 24 hours",
        "no offset");
    throws([] { return Zone::from_bytes("TZif"); }, FOTS_UNEXPECTED_END, "unexpected end at position 4", "no header");
}

// The instants are those of GNU date, and the moves those of Temporal.
void zoned()
{
    const Zone berlin = Zone::from_posix("CET-1CEST,M3.5.0,M10.5.0/3"), utc = Zone::from_posix("UTC0");
    const Date skipping = Date::parse("2024-03-31"), repeating = Date::parse("2024-10-27");
    const PlainDateTime in_gap(skipping, Time::from_hms(2, 30, 0)), in_fold(repeating, Time::from_hms(2, 30, 0));
    const ZonedDateTime start(OffsetDateTime::from_unix_timestamp(1711846800), berlin);
    check(start.date() == skipping && start.time() == Time::from_hms(3, 0, 0) && start.offset() == UtcOffset::from_hms(2, 0, 0), "the parts");
    check(ZonedDateTime::from_unix_duration(Duration::seconds(1711846800), berlin) == start && &start.zone() == &berlin, "at an instant");
    check(start.unix_timestamp() == 1711846800 && start.in_zone(utc) == start && start.in_zone(utc).time() == Time::from_hms(1, 0, 0), "another zone");
    check(ZonedDateTime::from_local(in_gap, berlin).time() == Time::from_hms(3, 30, 0), "in a gap");
    throws([&] { return ZonedDateTime::from_local(in_gap, berlin, Policy::Reject); }, FOTS_SKIPPED_TIME, "the clocks of the zone skip the date and time",
        "rejected");
    const ZonedDateTime second = ZonedDateTime::from_local(in_fold, berlin, Policy::Later);
    check(second.unix_timestamp() == 1729992600 && second.with_time(Time::from_hms(2, 45, 0)) - second == Duration::minutes(15), "in a fold");
    check(start - Duration::minutes(30) < start && (start - Duration::minutes(30)).time() == Time::from_hms(1, 30, 0), "half an hour earlier");
    check((start + Duration::days(1)).time() == Time::from_hms(3, 0, 0), "24 hours later");
    check((second + Period::from_days(-210)).local() == PlainDateTime(skipping, Time::from_hms(3, 30, 0)), "210 days earlier, in a gap");
    check((second + Period(0, 1, 0, 1, Duration::hours(1))).local() == PlainDateTime(Date::parse("2024-11-28"), Time::from_hms(3, 30, 0)), "each part");
    check(second.with_date(skipping).time() == Time::from_hms(3, 30, 0) && second.with_local(in_fold) == second, "another date");
    check(start.start_of_day().unix_timestamp() == 1711839600 && start.day_length() == Duration::hours(23), "a day of 23 hours");
    check(berlin.day_length(repeating) == Duration::hours(25) && berlin.start_of_day(repeating).local().time() == Time(0), "a day of 25 hours");
    check(start.format(Format("%H:%M %Z")) == "03:00 CEST" && start.to_offset_date_time().local() == start.local(), "a text");
    const ZonedDateTime before = ZonedDateTime::from_local({Date::parse("2024-03-30"), Time::from_hms(2, 30, 0)}, berlin);
    check(before.moved_to(skipping).time() == Time::from_hms(3, 30, 0) && second.moved_to(repeating) == second, "on another date");
    check(start.start_of(CalendarUnit::Month).local() == PlainDateTime(Date::parse("2024-03-01"), Time(0)), "the start of a month");
    check(before.end_of(CalendarUnit::Week).local() == PlainDateTime(skipping, Time(FOTS_MAX_TIME)), "the end of a week");
    check(before.nth_period(Period::from_days(1), 2).local() == PlainDateTime(Date::parse("2024-04-01"), Time::from_hms(2, 30, 0)), "two days at once");
    check(before.period_until(start, CalendarUnit::Day) == Period(0, 0, 0, 0, Duration::of(84600, 0)), "less than a day");
    check(before.period_until(second.in_zone(utc), CalendarUnit::Month) == Period(0, 6, 0, 27, Duration::hours(1)), "the period until a date-time");
    const InstantColumn days = berlin.add_days({1711846800, 1711760400}, {1, 1}), months = berlin.add_months({1711846800}, {1});
    check(days.seconds == std::vector<std::int64_t>{1711933200, 1711846800} && days.errors == 0, "a column of days");
    check(months.seconds == std::vector<std::int64_t>{1714438800} && berlin.starts_of_day({1711846800}).seconds[0] == 1711839600, "columns");
    check(berlin.add_days({}, {}).errors == 0 && berlin.starts_of_day({}).errors == 0, "no rows");
}

// The examples of Temporal.
void rounding()
{
    const Time time = Time::from_hms_nano(19, 39, 9, 68346205);
    const PlainDateTime local(Date::parse("1995-12-07"), Time::from_hms_nano(3, 24, 30, 3500));
    check(time.round(Duration::hours(1), RoundingMode::HalfCeil) == Time::from_hms(20, 0, 0), "a time to an hour");
    check(time.round(Duration::minutes(30), RoundingMode::Floor) == Time::from_hms(19, 30, 0), "a time down");
    check(local.round(Duration::minutes(30), RoundingMode::HalfCeil).time() == Time::from_hms(3, 30, 0), "a local date-time");
    check(local.assume_utc().round(Duration::hours(24), RoundingMode::Ceil).date() == Date::parse("1995-12-08"), "a date-time at an offset");
    check(Duration::seconds(-90).round(Duration::minutes(1), RoundingMode::HalfEven) == Duration::minutes(-2), "a duration");
    throws([&] { return time.round(Duration::minutes(7), RoundingMode::Ceil); },
        FOTS_INVALID_ROUNDING_UNIT, "invalid rounding unit; expected a positive duration, which divides 24 h for times of day", "7 minutes");
    const Zone angeles = Zone::from_posix("PST8PDT,M4.1.0,M10.5.0"), berlin = Zone::from_posix("CET-1CEST,M3.5.0,M10.5.0/3");
    const ZonedDateTime zoned = ZonedDateTime::from_local(local, angeles);
    check(zoned.round(Duration::hours(1), RoundingMode::HalfCeil).local().time() == Time::from_hms(3, 0, 0), "in a zone to an hour");
    check(zoned.round(Duration::minutes(30), RoundingMode::HalfCeil).local().time() == Time::from_hms(3, 30, 0), "in a zone to half an hour");
    const ZonedDateTime half = ZonedDateTime::from_local({Date::parse("2024-03-31"), Time::from_hms(12, 30, 0)}, berlin);
    check(half.round(Duration::hours(24), RoundingMode::HalfCeil) == berlin.start_of_day(Date::parse("2024-04-01")), "half of a day of 23 hours");
    throws([&] { return half.round(Duration::hours(48), RoundingMode::Ceil); },
        FOTS_INVALID_ROUNDING_UNIT, "invalid rounding unit; expected a positive duration, which divides 24 h for times of day", "two days");
}

// Rows as for the single calls, no rows, and columns of other lengths.
void columns()
{
    const std::uint64_t time = Time::from_hms_nano(19, 39, 9, 68346205).c();
    const TimeColumn times = round_times({time, FOTS_NO_TIME}, Duration::minutes(30), RoundingMode::HalfCeil);
    check(times.times[0] == Time::from_hms(19, 30, 0).c() && times.statuses[1] == FOTS_INVALID_TIME && times.errors == 1, "rounded times");
    const PairColumn pairs = round_pairs({Date::parse("2024-02-29").to_julian_day()}, {Time::from_hms(23, 50, 0).c()}, Duration::hours(1), RoundingMode::HalfCeil);
    check(pairs.dates[0] == Date::parse("2024-03-01").to_julian_day() && pairs.times[0] == 0 && pairs.errors == 0, "rounded dates and times");
    const DurationColumn durations = parse_durations("PT2H30M-PT90MP1D", {0, 7, 13, 16});
    check(durations.seconds[0] == 9000 && durations.seconds[1] == -5400 && durations.statuses[2] == FOTS_UNEXPECTED_BYTE && durations.errors == 1, "parsed durations");
    const TextColumn texts = duration_texts(durations.seconds, durations.nanoseconds);
    check(texts.bytes == "PT2H30M-PT1H30M" && texts.bounds == std::vector<std::int32_t>{0, 7, 15, 15} && texts.errors == 1, "texts of durations");
    check(round_times({}, Duration::hours(1), RoundingMode::Ceil).errors == 0 && parse_durations("", {}).seconds.empty(), "no rows");
    check(round_pairs({}, {}, Duration::hours(1), RoundingMode::Ceil).errors == 0 && duration_texts({}, {}).bounds.size() == 1, "no rows, either");
    for (const bool is_text : {false, true}) {
        bool is_thrown = false;
        try {
            is_text ? static_cast<void>(duration_texts({}, {1})) : static_cast<void>(round_pairs({1}, {}, Duration::hours(1), RoundingMode::Ceil));
        } catch (const std::invalid_argument &) {
            is_thrown = true;
        }
        check(is_thrown, "columns of other lengths");
    }
}

// The current time is between two readings of another clock of the system.
void current_time()
{
    const Zone berlin = Zone::from_posix("CET-1CEST,M3.5.0,M10.5.0/3");
    const std::time_t before = std::time(nullptr);
    const OffsetDateTime utc = OffsetDateTime::now_utc();
    const ZonedDateTime here = ZonedDateTime::now(berlin);
    const PlainDateTime local = PlainDateTime::now(berlin), again(Date::today(berlin), Time::now(berlin));
    const std::time_t after = std::time(nullptr);
    check(utc.offset() == UtcOffset::utc() && utc.unix_timestamp() >= before - 1 && utc.unix_timestamp() <= after, "the time at UTC");
    check(&here.zone() == &berlin && here.to_offset_date_time() >= utc && here.unix_timestamp() <= after, "the time in a zone");
    check(local >= here.local() || here.offset() != ZonedDateTime::now(berlin).offset(), "the local time");
    check(again - local < Duration::hours(1) || again.date() != local.date(), "the date and the time of day");
}

void periods()
{
    const Date january = Date::parse("2024-01-31");
    const Period month = Period::from_months(1), day = Period::from_days(1), all(1, 2, 3, 4, Duration::hours(5));
    check(january.checked_add_period(month) == Date::parse("2024-02-29") && january.nth_period(month, 2) == Date::parse("2024-03-31"), "months");
    check(Date::max().checked_add_period(day) == std::nullopt && january.checked_add_period(Period::from_weeks(1)) == Date::parse("2024-02-07"), "weeks");
    check(all.years() == 1 && all.months() == 2 && all.weeks() == 3 && all.days() == 4 && all.duration() == Duration::hours(5), "the parts");
    check(month == Period(0, 1, 0, 0) && month != day && Period::from_years(1) != Period::from_months(12), "equality");
    check(DateRange::parse("2024-01-31/P1M") == DateRange(january, Date::parse("2024-02-29")) && DateRange::parse("P1M/2024-03-01").length() == 29, "intervals");
    const std::pair<PlainDateTime, PlainDateTime> shift = PlainDateTime::parse_interval("2024-01-01T08:00/PT90M");
    check(shift.second - shift.first == Duration::minutes(90) && shift.first.time() == Time::from_hms(8, 0, 0), "an interval of date-times");
    std::string repeated;
    for (const Date step : Steps<Date>::parse("R3/2024-01-31/P1M")) {
        repeated += step.calendar_text() + " ";
    }
    check(repeated == "2024-01-31 2024-02-29 2024-03-31 ", "a repeated interval");
    std::vector<PlainDateTime> shifts;
    for (const PlainDateTime step : Steps<PlainDateTime>::parse("R3/2024-01-31T09:00/P1M")) {
        shifts.push_back(step);
    }
    check(shifts.size() == 3 && shifts[1] == PlainDateTime::parse("2024-02-29T09:00") && shifts[2] == PlainDateTime::parse("2024-03-31T09:00"), "repeated date-times");
    throws([] { return DateRange::parse("2024-02-01/2024-01-01"); }, FOTS_END_BEFORE_START, "the end of the interval is before its start",
        "an end before the start");
    throws([] { return Steps<Date>::parse("R0/2024-01-31/P1M"); }, FOTS_COUNT_OUT_OF_RANGE, "count out of range; expected 1 to 4294967295 repetitions",
        "no occurrence");
    throws([] { return Steps<PlainDateTime>::parse("R2/P1M/2024-01-31T09:00"); }, FOTS_MISSING_START, "missing start; expected the start of the interval to repeat",
        "no start");
    const PlainDateTime night(january, Time::from_hms(23, 30, 0));
    check(night.checked_add_period(Period(0, 1, 0, 0, Duration::hours(2))) == PlainDateTime(Date::parse("2024-03-01"), Time::from_hms(1, 30, 0)), "a pair");
    check(night.period_until({Date::parse("2024-03-01"), Time(0)}, CalendarUnit::Month) == Period(0, 1, 0, 0, Duration::minutes(30)), "the period between pairs");
    std::vector<Date> days;
    for (const Date step : Steps(january, month)) {
        if (step > Date::parse("2024-04-30")) {
            break;
        }
        days.push_back(step);
    }
    check(days == std::vector<Date>{january, Date::parse("2024-02-29"), Date::parse("2024-03-31"), Date::parse("2024-04-30")}, "steps of a month");
    check(night.nth_period(month, 2) == PlainDateTime(Date::parse("2024-03-31"), Time::from_hms(23, 30, 0)), "two months after a pair");
    check(night.step_of(month, *night.nth_period(month, 3)) == 3 && night.step_of(day, PlainDateTime(january, Time(0))) == std::nullopt, "the step of a pair");
    const Steps<PlainDateTime> hours(night, Period::from_duration(Duration::hours(1)));
    check(*++hours.begin() == PlainDateTime(Date::parse("2024-02-01"), Time::from_hms(0, 30, 0)), "steps of an hour");
    const Steps<Date> last(Date::max(), day);
    check(std::distance(last.begin(), last.end()) == 1 && *last.begin() == Date::max(), "the steps end with the range");
    bool is_rejected = false;
    try {
        const Steps<Date> none(january, Period::from_days(0));
    } catch (const std::invalid_argument &) {
        is_rejected = true;
    }
    check(is_rejected, "steps of nothing");
    check(Period::parse("P1Y2M3W4DT5H") == Period(1, 2, 3, 4, Duration::hours(5)) && all.text() == "P1Y2M3W4DT5H", "a period in text");
    check(Duration::parse("-PT90M") == Duration::minutes(-90) && Duration::minutes(-90).text() == "-PT1H30M", "a duration in text");
    throws([] { return Period::parse("P1"); }, FOTS_UNEXPECTED_END, "unexpected end at position 2", "a period that ends too early");
    throws([] { return Period::parse("P2147483648D"); }, FOTS_DAYS_OUT_OF_RANGE, "days are out of range", "too many days");
    throws([] { return Period(1, -1, 0, 0); }, FOTS_INVALID_PERIOD, "invalid period; expected parts of one sign and a valid duration", "two signs");
    throws([&] { return january.checked_add_period(Period::from_duration(Duration::hours(1))); },
        FOTS_PERIOD_HAS_DURATION, "a date has no time of day, so a period of it has no duration", "a date and a duration");
}

// Zones by name, if the system has files.
void named_zones()
{
    const auto is_invalid = [](const char *name) {
        try {
            Zone::named(name);
        } catch (const std::invalid_argument &) {
            return true;
        }
        return false;
    };
    const auto is_unread = [](const char *path) {
        try {
            static_cast<void>(Zone::from_file(path));
        } catch (const std::system_error &) {
            return true;
        }
        return false;
    };
    check(is_invalid("") && is_invalid("/etc/passwd") && is_invalid("../zone") && is_invalid("Europe/B\xe9rlin") && is_invalid("+1"), "invalid names");
    check(is_unread("/nowhere") && is_unread("/") && is_unread("/dev/null"), "not regular files");
    if (std::filesystem::exists("/usr/share/zoneinfo/Europe/Berlin") && !std::getenv("TZDIR")) {
        const Zone &berlin = Zone::named("Europe/Berlin");
        check(berlin.offset_at(1711846800) == UtcOffset::from_hms(2, 0, 0) && &berlin == &Zone::named("Europe/Berlin"), "a zone by name");
        check(Zone::from_file("/usr/share/zoneinfo/Europe/Berlin").next_change(1700000000) == 1711846800, "a zone of a file");
    }
}

// The texts are from GNU date by the locales of glibc 2.36, as in clients/c/names.c.
void names_of_languages()
{
    const Date day = Date::from_calendar_date(2024, Month::February, 29);
    const OffsetDateTime evening = PlainDateTime(day, Time::from_hms(19, 30, 0)).assume_offset(UtcOffset::from_hms(1, 0, 0));
    const Names french = Names::of_language("fr"), polish = Names::of_language("pl");
    const NamedFormat date = Format("%A, %-d %B %Y").with_names(french), all = Format("%a %e %b %Y %R %z").with_names(french);
    check(day.format(date) == "jeudi, 29 février 2024" && Date::parse("jeudi, 29 février 2024", date) == day, "a date in French");
    check(evening.format(all) == "jeu. 29 févr. 2024 19:30 +0100" && OffsetDateTime::parse("jeu. 29 févr. 2024 19:30 +0100", all) == evening, "a date-time at an offset");
    const NamedFormat local = Format("%-d %B %Y, %R").with_names(french);
    check(evening.local().format(local) == "29 février 2024, 19:30" && PlainDateTime::parse("29 février 2024, 19:30", local) == evening.local(), "a local date-time");
    const NamedFormat half = Format("%p%-I:%M").with_names(Names::of_language("ja"));
    check(evening.time().format(half) == "午後7:30" && Time::parse("午後7:30", half) == evening.time(), "a time in Japanese");
    check(day.format(Format("%-d %B").with_names(polish)) == "29 lutego" && day.format(Format("%OB %Y").with_names(polish)) == "luty 2024", "two forms");
    const locale_t locale = newlocale(LC_TIME_MASK, "C", nullptr);
    fots_language_names values;
    fots_names_of_locale(locale, &values);
    check(day.format(Format("%A %B").with_names(Names::from(values))) == "Thursday February", "the names of a locale");
    freelocale(locale);
    Names own = french;
    own.months[1] = std::string(FOTS_MAX_NAME_LENGTH, 'a');
    check(day.format(Format("%B%B").with_names(own)).size() == 2 * FOTS_MAX_NAME_LENGTH && date.names().months[1] == "février", "own names");
    throws([&] { return Date::parse("jeudi, 29 fevrier 2024", date); }, FOTS_UNEXPECTED_BYTE, "unexpected \"e\" at position 11", "no accent");
    throws([&] { return Date::parse("mardi, 29 février 2024", date); }, FOTS_CONTRADICTION, "weekday contradicts the other components", "another weekday");
    throws([&] { return Date::parse("02", Format("%m").with_names(french)); }, FOTS_INSUFFICIENT_FORMAT, "the texts of a format don't determine such a value", "a month only");
    throws([] { return Names::of_language("xx"); }, FOTS_UNKNOWN_LANGUAGE, "unknown language; expected ar, de, en, es, fr, it, ja, pl, pt, ru, tr or zh", "no language");
    throws([] { return Format("%Atesi %F").with_names(Names::of_language("tr")); }, FOTS_AMBIGUOUS_NAMES, "\"Pazar\" of item 0 can go on to \"Pazartesi\"", "names that go on");
    throws([&] { return Format("%I:%M %p").with_names(french); }, FOTS_AMBIGUOUS_NAMES, "two names of item 4 are \"\"", "empty names");
    throws([] { return Format("%-d%B %Y").with_names(Names::of_language("ja")); }, FOTS_AMBIGUOUS_NUMBER, "item 0 can go on with '1'", "a number that goes on");
    own.periods[0] = "\xff";
    throws([&] { return Format("%F").with_names(own); }, FOTS_INVALID_NAMES, "invalid names; expected UTF-8 of at most 127 bytes each", "no UTF-8");
}

void formats()
{
    const Date day = Date::parse("2024-02-29");
    const OffsetDateTime night = OffsetDateTime::new_in_offset(day, Time::from_hms(23, 59, 59), UtcOffset::from_hms(5, 30, 0));
    const Format day_first("%d/%m/%Y"), described = Format::from_description("[weekday], [day padding:none] [month repr:long]");
    check(day.format(day_first) == "29/02/2024" && day.format(described) == "Thursday, 29 February", "dates by formats");
    check(night.time().format(Format("%H:%M")) == "23:59" && night.offset().format(Format("%:z")) == "+05:30", "others by formats");
    check(night.local().format(Format("%F %R")) == "2024-02-29 23:59", "a local date-time by a format");
    check(night.format(Format("%d/%b/%Y:%T %z")) == "29/Feb/2024:23:59:59 +0530", "a date-time at an offset by a format");
    check(day.format(Format("")).empty() && day.format(Format("%Y\xe5\xb9\xb4")) == "2024\xe5\xb9\xb4", "texts of formats");
    check(Date::parse("29/02/2024", day_first) == day && Time::parse("9:05 PM", Format("%-I:%M %p")) == Time::from_hms(21, 5, 0), "parsed");
    check(UtcOffset::parse("-0530", Format("%z")) == UtcOffset::from_hms(-5, -30, 0), "an offset, parsed");
    check(PlainDateTime::parse("2024-02-29 23:59:59", Format("%F %T")) == night.local(), "a local date-time, parsed");
    check(OffsetDateTime::parse("29/Feb/2024:23:59:59 +0530", Format("%d/%b/%Y:%T %z")) == night, "a date-time at an offset, parsed");
    const LenientFormat lenient(Format("%d-%b-%Y")), pivot(Format("%d %B %y"), 1970);
    check(Date::parse("29-FEB-2024", lenient) == day && Date::parse("1 jan 69", pivot) == Date::parse("2069-01-01"), "variants of dates");
    check(Time::parse("9:5:1", LenientFormat(Format("%T"))) == Time::from_hms(9, 5, 1), "a variant of a time");
    check(PlainDateTime::parse("29 february 2024  23:59:59", LenientFormat(Format("%d %B %Y %T"))) == night.local(), "a variant of a date-time");
    check(OffsetDateTime::parse("29/feb/2024:23:59:59 +0530", LenientFormat(Format("%d/%b/%Y:%T %z"))) == night, "one at an offset");
    check(Date::parse_iso("2024W094") == day && Date::parse_iso("20240229") == day && Time::parse_iso("T232050,5") == Time::parse("23:20:50.5"), "texts of ISO 8601");
    check(PlainDateTime::parse_iso("20240229T235959") == night.local() && OffsetDateTime::parse_iso("20240229T235959+0530") == night, "date-times of ISO 8601");
    check(Time::parse_iso("T232050,5" + std::string(39, '0')) == Time::parse("23:20:50.5"), "40 digits of a fraction");
    throws([] { return Date::parse_iso("198504-12"); }, FOTS_UNEXPECTED_BYTE, "unexpected \"-\" at position 6", "two formats of ISO 8601");
    throws([] { return Date::parse("20240229", LenientFormat(Format("%Y%m%d"))); }, FOTS_INSUFFICIENT_FORMAT, "the texts of a format don't determine such a value",
        "no space between numbers");
    throws([] { return Date::parse("29.02.2024", Format("%d/%m/%Y")); }, FOTS_UNEXPECTED_BYTE, "unexpected \".\" at position 2", "a wrong byte");
    throws([] { return Date::parse("Wed 2024-02-29", Format("%a %F")); }, FOTS_CONTRADICTION, "weekday contradicts the other components",
        "a wrong weekday");
    throws([] { return Date::parse("02", Format("%m")); }, FOTS_INSUFFICIENT_FORMAT, "the texts of a format don't determine such a value", "a month only");
    throws([] { return Date::parse("2/29/24", Format("%-m/%-d/%y")); }, FOTS_INSUFFICIENT_FORMAT, "\"%y\" has no century: use %Y or a pivot", "two digits");
    throws([] { return Time::parse("10:30", Format("%I:%M")); }, FOTS_INSUFFICIENT_FORMAT, "\"%I\" has no half of the day: use %H or add %p", "no half");
    throws([] { return Format("ab%"); }, FOTS_UNKNOWN_ITEM, "unknown item \"%\" at position 2", "no item");
    throws([] { return Format("%F %-Q!"); }, FOTS_UNKNOWN_ITEM, "unknown item \"%-Q\" at position 3", "a wrong letter");
    throws([] { return Format::from_description("[day] [wekday]"); }, FOTS_UNKNOWN_ITEM, "unknown item \"[wekday]\" at position 6", "a wrong component");
    throws([] { return Format("a\xff"); }, FOTS_UNEXPECTED_BYTE, "unexpected byte 0xFF at position 1", "no UTF-8");
    throws([] { return Format(std::string(65, 'a')); }, FOTS_TOO_MANY_ITEMS, "too many items in a format; expected at most 64", "65 items");
    throws([day] { return day.format(Format("%H")); }, FOTS_UNSUPPORTED_ITEM, "the format shows something that the value doesn't have", "the hour of a date");
}

#if __cplusplus >= 202002L
void days_of_chrono()
{
    using namespace std::chrono;
    const sys_days leap_day = 2024y / February / 29;
    check(Date::from_sys_days(leap_day) == Date::parse("2024-02-29") && Date::parse("2024-02-29").to_sys_days() == leap_day,
        "both ways");
    check(Date::from_sys_days(sys_days{}) == Date::parse("1970-01-01"), "the first day of Unix time");
    check(Date::from_sys_days(Date::max().to_sys_days()) == Date::max()
        && Date::from_sys_days(Date::min().to_sys_days()) == Date::min(), "the ends");
    throws([] { return Date::from_sys_days(Date::max().to_sys_days() + days(1)); }, FOTS_JULIAN_DAY_OUT_OF_RANGE,
        "julian day 366963560 is out of range -363521074 to 366963559", "past the last day");
    throws([] { return Date::from_sys_days(sys_days::max()); }, FOTS_JULIAN_DAY_OUT_OF_RANGE,
        "julian day 9223372036854775807 is out of range -363521074 to 366963559", "the last day of chrono");
    // Every 89th day of the years of chrono, compared with chrono.
    for (sys_days day = sys_days(year::min() / January / 1); day <= sys_days(year::max() / December / 31); day += days(89)) {
        const year_month_day calendar(day);
        const auto [found, month, of_month] = Date::from_sys_days(day).to_calendar_date();
        check(found == int(calendar.year()) && static_cast<unsigned>(month) == unsigned(calendar.month())
            && of_month == unsigned(calendar.day())
            && static_cast<unsigned>(Date::from_sys_days(day).weekday()) == weekday(day).iso_encoding(), "a day of chrono");
    }
}
#endif

} // namespace

static_assert(!std::is_convertible_v<UtcOffset, Date> && !std::is_convertible_v<int, Date> && !std::is_default_constructible_v<Date>);
static_assert(sizeof(Date) == sizeof(fots_date) && std::is_trivially_copyable_v<Date> && std::is_trivially_copyable_v<Duration>);

// "Every 20 minutes from 9:00 AM to 4:40 PM every day" of RFC 5545, and a gap of Berlin with exceptions.
void times_of_day()
{
    const auto at = [](const char *date, std::uint32_t hour, std::uint32_t minute) { return PlainDateTime(Date::parse(date), Time::from_hms(hour, minute, 0)); };
    RecurrenceSet set(Recurrence::parse("FREQ=DAILY;BYHOUR=9,10,11,12,13,14,15,16;BYMINUTE=0,20,40"), at("1997-09-02", 9, 0));
    const std::vector<PlainDateTime> found = set.readings_from(set.start, 25);
    check(found.size() == 25 && found[0] == set.start && found[23] == at("1997-09-02", 16, 40) && found[24] == at("1997-09-03", 9, 0), "every 20 minutes");
    set.exceptions = {at("1997-09-02", 9, 0), at("1997-09-02", 9, 40)};
    set.dates = {at("1997-09-02", 9, 30)};
    check(set.readings_from(set.start, 3) == std::vector<PlainDateTime>{at("1997-09-02", 9, 20), at("1997-09-02", 9, 30), at("1997-09-02", 10, 0)}, "two lists");
    check(set.readings_from(set.start, 0).empty(), "no readings");
    has_no_room([&] { return set.readings_from(set.start, SIZE_MAX); }, "room for too many readings");
    const Zone berlin = Zone::from_posix("CET-1CEST,M3.5.0,M10.5.0/3");
    RecurrenceSet nights(Recurrence::parse("FREQ=DAILY;BYHOUR=2,3;UNTIL=20240401T003000Z"), at("2024-03-30", 2, 30));
    nights.exceptions = {at("2024-03-30", 3, 30), at("2024-03-31", 3, 30)};
    const std::vector<OffsetDateTime> moments = nights.moments_after(berlin, at("2024-01-01", 0, 0).assume_utc(), 9);
    check(moments.size() == 3 && moments[0].local() == nights.start && moments[1].local() == at("2024-03-31", 3, 30)
        && moments[1].offset() == UtcOffset::from_hms(2, 0, 0) && moments[2].local() == at("2024-04-01", 2, 30), "in Berlin");
    check(nights.moments_after(berlin, moments[1], 9) == std::vector<OffsetDateTime>{moments[2]} && nights.moments_after(berlin, moments[2], 9).empty(), "after one");
    nights.recurrence = Recurrence::parse("FREQ=DAILY;BYHOUR=2,3;COUNT=5");
    RecurrenceCursor cursor = nights.recurrence.cursor();
    check(nights.next_readings(nights.start, 2, cursor) == std::vector<PlainDateTime>{nights.start, at("2024-03-31", 2, 30)}, "a first page");
    check(nights.next_readings(at("2024-03-31", 2, 31), 2, cursor) == std::vector<PlainDateTime>{at("2024-04-01", 2, 30)}, "a last page");
    cursor = nights.recurrence.cursor();
    check(nights.next_moments(berlin, at("2024-01-01", 0, 0).assume_utc(), 2, cursor) == std::vector<OffsetDateTime>{moments[0], moments[1]}
        && nights.next_moments(berlin, moments[1], 2, cursor) == std::vector<OffsetDateTime>{moments[2]}, "pages in Berlin");
    nights.dates.assign(FOTS_MAX_DATES + 1, nights.start);
    throws([&] { return nights.readings_from(nights.start, 1); }, FOTS_TOO_MANY_DATES, "too many dates or exceptions of a rule; expected at most 1024",
        "too many readings");
}

// Events of RFC 5545 and of other calendars; clients/c/events.c has more of them.
void events_of_files()
{
    const auto at = [](const char *date, std::uint32_t hour, std::uint32_t minute) { return PlainDateTime(Date::parse(date), Time::from_hms(hour, minute, 0)); };
    const std::vector<Event> found = events("BEGIN:VCALENDAR\r\nBEGIN:VEVENT\r\nDTSTART;VALUE=DATE:19971102\r\nSUMMARY:Our Blissful\r\n  Anniversary\r\nRRULE:FREQ=YEARLY\r\n"
        "BEGIN:VALARM\r\nDTSTART:1\r\nEND:VALARM\r\nEXDATE;VALUE=DATE:19981102\r\nEND:VEVENT\r\nBEGIN:VEVENT\r\nDTSTART;TZID=Europe/Berlin:20240330T023000\r\n"
        "RRULE:FREQ=DAILY;COUNT=3\r\nEXDATE;TZID=Europe/Berlin:20240401T023000\r\nEND:VEVENT\r\nBEGIN:VEVENT\r\nDTSTART:19960401T010000Z\r\n"
        "DTEND:19960401T020000Z\r\nEND:VEVENT\r\nEND:VCALENDAR\r\n");
    if (found.size() != 3) {
        return check(false, "three events");
    }
    check(found[0].kind() == EventKind::date && found[1].kind() == EventKind::local && found[2].kind() == EventKind::utc, "the kinds of three starts");
    check(found[0].start() == at("1997-11-02", 0, 0) && found[1].start() == at("2024-03-30", 2, 30) && found[2].start() == at("1996-04-01", 1, 0), "three starts");
    check(found[0].value("summary") == "Our Blissful Anniversary" && found[2].value("DTEND") == "19960401T020000Z" && !found[1].value("DTEND"), "values of events");
    check(!found[0].zone() && found[1].zone() == "Europe/Berlin" && !found[2].zone(), "the zone of an event");
    check(found[0].days_from(Date::parse("1997-11-02"), 2) == std::vector{Date::parse("1997-11-02"), Date::parse("1999-11-02")}, "days of an event");
    check(found[1].readings_from(at("2024-03-31", 0, 0), 9) == std::vector{at("2024-03-31", 2, 30)} && found[2].readings_from(at("1996-01-01", 0, 0), 9) == std::vector{at("1996-04-01", 1, 0)}, "readings of events");
    const Zone berlin = Zone::from_posix("CET-1CEST,M3.5.0,M10.5.0/3");
    const std::vector<OffsetDateTime> moments = found[1].moments_after(berlin, at("2024-03-30", 0, 0).assume_utc(), 9);
    check(moments.size() == 2 && moments[0].local() == found[1].start() && moments[1].local() == at("2024-03-31", 3, 30) && moments[1].offset() == UtcOffset::from_hms(2, 0, 0), "moments of an event");
    check(found[0].recurrence_lines() == "DTSTART;VALUE=DATE:19971102\r\nRRULE:FREQ=YEARLY\r\nEXDATE;VALUE=DATE:19981102\r\n", "lines of a set");
    check(found[2].recurrence_lines() == "DTSTART:19960401T010000Z\r\nRRULE:FREQ=DAILY;COUNT=1\r\n" && Event(found[1].recurrence_lines()).recurrence_lines() == found[1].recurrence_lines(), "the same lines again");
    // Longer than the lines that say it.
    std::string many = "DTSTART:20240101T090000\nRDATE:20240102", zone(200, 'z');
    for (int index = 0; index < 30; index++) {
        many += index % 2 == 0 ? ",20240103T090000" : ",20240104";
    }
    const Event mixed("DTSTART;TZID=" + zone + many.substr(7));
    check(mixed.recurrence_lines().size() > 4000 && Event(mixed.recurrence_lines()).recurrence_lines() == mixed.recurrence_lines(), "lines that grow");
    throws([] { return Event("UID:1\nDTSTART:x").recurrence_lines(); }, FOTS_INVALID_VALUE, "invalid value in DTSTART at position 6", "lines of no set");
    const std::string line(75, 'x');
    check(fold(line) == line && fold(line + "\r\n") == line + "\r\n" && fold("").empty() && fold(std::string_view()).empty(), "short lines");
    check(fold(line + line + "\n") == line + "\r\n " + std::string(74, 'x') + "\r\n x\n", "folded lines");
    check(events("").empty() && events(std::string_view()).empty() && found[0].days_from(Date::max(), 0).empty(), "no events and no days");
    throws([&] { return found[0].readings_from(at("1997-11-02", 0, 0), 1); }, FOTS_WRONG_KIND, "wrong kind of value in DTSTART", "readings of dates");
    throws([&] { return found[2].days_from(Date::min(), 1); }, FOTS_WRONG_KIND, "wrong kind of value in DTSTART", "days of times");
    throws([] { return events("BEGIN:VEVENT\nEND:VEVENT\nX:1\nBEGIN:VEVENT\n"); }, FOTS_UNCLOSED_EVENT, "unclosed event at position 28; expected a line END:VEVENT",
        "an event without an end");
    throws([] { return events("BEGIN:VEVENT\nEND:VEVENT\nBEGIN:VEVENT\nEND:VTODO"); }, FOTS_OTHER_END, "other end of an event at position 37; expected END:VEVENT",
        "another end");
    throws([] { return Event("UID:1\n").kind(); }, FOTS_MISSING_START, "missing start at position 6", "no DTSTART");
    try {
        static_cast<void>(Event("DTSTART:20240101\nRDATE:x\n").zone());
        check(false, "an invalid RDATE");
    } catch (const parse_event_error &thrown) {
        check(thrown.status() == FOTS_INVALID_VALUE && thrown.line() == FOTS_EVENT_RDATE && thrown.position() == 17, "an invalid RDATE");
        check(thrown.what() == std::string("invalid value in RDATE at position 17"), "the message of an invalid RDATE");
    }
}

int main()
{
    dates();
    errors();
    others();
    moments();
    schedule();
    workdays();
    recurrences();
    plain_moments();
    zones();
    zoned();
    current_time();
    rounding();
    columns();
    periods();
    named_zones();
    times_of_day();
    events_of_files();
    formats();
    names_of_languages();
#if __cplusplus >= 202002L
    days_of_chrono();
#endif
    std::printf("classes in C++: %d failed\n", failed);
    return failed != 0;
}
