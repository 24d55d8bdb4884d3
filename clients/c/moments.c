/* Checks moments: worked rows, invalid arguments, and random values with 128-bit numbers. */
#include "fotsevindre.h"
#include "testing.h"

#define COUNT(rows) ((int)(sizeof(rows) / sizeof(rows)[0]))
#define DRAWN 200000

__extension__ typedef __int128 wide;

static const wide SECOND = 1000000000;
static const wide DAY = (wide)86400 * 1000000000;

static fots_moment moment_at(int32_t julian_day, int32_t offset, fots_time time)
{
    fots_moment moment = {{0}, {0}, 0};
    moment.date.julian_day = julian_day;
    moment.offset.seconds = offset;
    moment.time = time;
    return moment;
}

static fots_duration duration_of(int64_t seconds, int32_t nanoseconds)
{
    fots_duration duration = {0, 0, 0};
    duration.seconds = seconds;
    duration.nanoseconds = nanoseconds;
    return duration;
}

/* Returns the moment of a calendar date, a time and whole hours from UTC. */
static fots_moment moment_on(int32_t year, uint32_t month, uint32_t day, uint32_t hour, uint32_t minute, uint32_t second, uint32_t nanosecond,
    int32_t hours)
{
    fots_date_result date = fots_date_from_calendar_date(year, month, day);
    fots_time_result time = fots_time_from_hms_nano(hour, minute, second, nanosecond);
    fots_offset_result offset = fots_offset_from_hms(hours, 0, 0);
    fots_moment_result moment = fots_moment_new(date.date, time.time, offset.offset);
    check(moment.status == FOTS_OK, "a moment of a row", year, month * 100 + day);
    return moment.moment;
}

static int is_same(fots_moment one, fots_moment other)
{
    return one.date.julian_day == other.date.julian_day && one.offset.seconds == other.offset.seconds && one.time == other.time;
}

static void is_moment(fots_moment_result result, fots_moment moment, const char *what)
{
    check(result.status == FOTS_OK && is_same(result.moment, moment), what, result.status, result.moment.date.julian_day);
}

static void is_no_moment(fots_moment_result result, int32_t status, const char *what)
{
    check(result.status == status && is_same(result.moment, moment_at(FOTS_NO_VALUE, FOTS_NO_VALUE, FOTS_NO_TIME)), what, result.status,
        result.moment.date.julian_day);
}

static void is_duration(fots_duration_result result, fots_duration duration, const char *what)
{
    check(result.status == FOTS_OK && result.duration.seconds == duration.seconds
        && result.duration.nanoseconds == duration.nanoseconds, what, result.duration.seconds, result.duration.nanoseconds);
}

static void is_no_duration(fots_duration_result result, int32_t status, const char *what)
{
    check(result.status == status && result.duration.seconds == INT64_MIN && result.duration.nanoseconds == FOTS_NO_VALUE, what,
        result.status, result.duration.seconds);
}

/* Checks a comparison, and its opposite with the parameters swapped. */
static void is_order(fots_moment one, fots_moment other, int32_t order, const char *what)
{
    fots_number_result there = fots_moment_compare(one, other);
    fots_number_result back = fots_moment_compare(other, one);
    check(there.status == FOTS_OK && there.number == order, what, there.status, there.number);
    check(back.status == FOTS_OK && back.number == -order, what, back.status, back.number);
}

/* ---- worked rows */

static void a_leap_night(void)
{
    fots_moment night = moment_on(2024, 2, 29, 23, 59, 59, 250000000, 1);
    fots_moment at_utc = moment_on(2024, 2, 29, 22, 59, 59, 250000000, 0);
    fots_moment east_of_it = moment_on(2024, 3, 1, 0, 59, 59, 250000000, 2);
    fots_int64_result seconds = fots_moment_unix_timestamp(night);
    check(is_same(night, moment_at(2460370, 3600, UINT64_C(86399250000000))), "the numbers", night.date.julian_day, night.offset.seconds);
    check(seconds.status == FOTS_OK && seconds.number == 1709247599, "whole seconds", seconds.status, seconds.number);
    is_duration(fots_moment_unix_time(night), duration_of(1709247599, 250000000), "Unix time");
    is_moment(fots_moment_from_unix_time(duration_of(1709247599, 250000000)), at_utc, "of a Unix time");
    is_moment(fots_moment_from_unix_timestamp(1709247599), moment_on(2024, 2, 29, 22, 59, 59, 0, 0), "of whole seconds");
    is_moment(fots_moment_to_offset(night, offset_at(0)), at_utc, "at UTC");
    is_moment(fots_moment_to_offset(night, offset_at(7200)), east_of_it, "further east");
    is_moment(fots_moment_replace_offset(night, offset_at(0)), moment_on(2024, 2, 29, 23, 59, 59, 250000000, 0), "another offset");
    is_order(night, at_utc, 0, "the same instant");
    is_order(night, east_of_it, 0, "the same instant, on another day");
    is_order(night, moment_on(2024, 2, 29, 23, 59, 59, 250000000, 0), -1, "the same clock, further east");
    is_duration(fots_moment_duration_since(night, east_of_it), duration_of(0, 0), "since the same instant");
    is_moment(fots_moment_checked_add(night, duration_of(7200, 0)), moment_on(2024, 3, 1, 1, 59, 59, 250000000, 1), "two hours later");
    is_moment(fots_moment_checked_sub(night, duration_of(86400, 250000000)), moment_on(2024, 2, 28, 23, 59, 59, 0, 1), "earlier");
    is_duration(fots_moment_duration_since(moment_on(2024, 2, 29, 0, 0, 0, 0, 0), moment_on(2024, 2, 29, 0, 0, 0, 0, 1)), duration_of(3600, 0),
        "since the same clock, further east");
}

static void before_the_epoch(void)
{
    fots_moment epoch = moment_on(1970, 1, 1, 0, 0, 0, 0, 0);
    fots_moment half = moment_on(1969, 12, 31, 23, 59, 59, 500000000, 0);
    fots_int64_result seconds = fots_moment_unix_timestamp(half);
    check(seconds.status == FOTS_OK && seconds.number == -1, "half a second before", seconds.status, seconds.number);
    is_duration(fots_moment_unix_time(half), duration_of(0, -500000000), "half a second before, exactly");
    is_moment(fots_moment_from_unix_time(duration_of(0, -500000000)), half, "of half a second before");
    is_moment(fots_moment_from_unix_timestamp(0), epoch, "the epoch");
    is_duration(fots_moment_duration_since(half, epoch), duration_of(0, -500000000), "since the epoch");
}

static void ends_of_the_range(void)
{
    fots_moment last = moment_on(999999, 12, 31, 23, 59, 59, 999999999, 0);
    fots_moment first = moment_on(-999999, 1, 1, 0, 0, 0, 0, 0);
    fots_moment west = moment_on(999999, 12, 31, 23, 0, 0, 0, -2);
    fots_moment east = moment_on(-999999, 1, 1, 0, 0, 0, 0, 1);
    fots_duration max_duration = duration_of(INT64_MAX, 999999999), min_duration = duration_of(INT64_MIN, -999999999);
    is_no_moment(fots_moment_to_offset(west, offset_at(0)), FOTS_RESULT_OUT_OF_RANGE, "at no date at UTC");
    is_order(west, moment_on(999999, 12, 31, 23, 59, 59, 0, 0), 1, "later than the last day at UTC");
    is_order(west, last, 1, "later than the last moment at UTC");
    is_duration(fots_moment_duration_since(west, last), duration_of(3600, 1), "since the last moment at UTC");
    is_no_moment(fots_moment_to_offset(east, offset_at(0)), FOTS_RESULT_OUT_OF_RANGE, "before the first day at UTC");
    is_order(east, first, -1, "earlier than the first moment at UTC");
    is_no_moment(fots_moment_checked_add(last, duration_of(0, 1)), FOTS_RESULT_OUT_OF_RANGE, "after the last");
    is_no_moment(fots_moment_checked_sub(first, duration_of(0, 1)), FOTS_RESULT_OUT_OF_RANGE, "before the first");
    is_no_moment(fots_moment_checked_add(first, max_duration), FOTS_RESULT_OUT_OF_RANGE, "the maximum move");
    is_moment(fots_moment_saturating_add(first, max_duration), last, "the maximum move, clamped");
    is_moment(fots_moment_saturating_add(first, min_duration), first, "the minimum move, clamped");
    is_moment(fots_moment_saturating_sub(last, max_duration), first, "the maximum move back, clamped");
    is_moment(fots_moment_saturating_sub(east, min_duration), moment_at(last.date.julian_day, 3600, last.time), "clamped to its offset");
    is_no_moment(fots_moment_from_unix_timestamp(INT64_MAX), FOTS_TIMESTAMP_OUT_OF_RANGE, "the maximum seconds");
    is_no_moment(fots_moment_from_unix_timestamp(INT64_MIN), FOTS_TIMESTAMP_OUT_OF_RANGE, "the minimum seconds");
    is_no_moment(fots_moment_from_unix_time(max_duration), FOTS_TIMESTAMP_OUT_OF_RANGE, "the maximum Unix time");
    is_moment(fots_moment_from_unix_timestamp(fots_moment_unix_timestamp(first).number), first, "the first seconds");
    is_no_moment(fots_moment_from_unix_timestamp(fots_moment_unix_timestamp(first).number - 1), FOTS_TIMESTAMP_OUT_OF_RANGE, "before the first");
    is_moment(fots_moment_from_unix_time(fots_moment_unix_time(last).duration), last, "the last Unix time");
    is_no_moment(fots_moment_from_unix_timestamp(fots_moment_unix_timestamp(last).number + 1), FOTS_TIMESTAMP_OUT_OF_RANGE, "after the last");
}

/* ---- invalid values */

static void wrong_parts(void)
{
    const fots_date date = date_at(2460370), no_date = date_at(FOTS_MAX_JULIAN_DAY + 1);
    const fots_offset offset = offset_at(3600), no_offset = offset_at(-FOTS_MAX_OFFSET_SECONDS - 1);
    is_no_moment(fots_moment_new(no_date, FOTS_NO_TIME, no_offset), FOTS_INVALID_DATE, "no date");
    is_no_moment(fots_moment_new(date, FOTS_MAX_TIME + 1, no_offset), FOTS_INVALID_TIME, "no time");
    is_no_moment(fots_moment_new(date, FOTS_MAX_TIME, no_offset), FOTS_INVALID_OFFSET, "no offset");
    is_moment(fots_moment_new(date, FOTS_MAX_TIME, offset), moment_at(2460370, 3600, FOTS_MAX_TIME), "of right parts");
}

/* Checks that each call rejects an invalid moment before another invalid argument. */
static void wrong_moment(fots_moment wrong, const char *what)
{
    const fots_moment right = moment_at(0, 0, 0);
    const fots_offset no_offset = offset_at(FOTS_MAX_OFFSET_SECONDS + 1);
    const fots_duration no_duration = duration_of(1, -1);
    fots_number_result order = fots_moment_compare(wrong, right), back = fots_moment_compare(right, wrong);
    fots_int64_result seconds = fots_moment_unix_timestamp(wrong);
    is_no_moment(fots_moment_to_offset(wrong, no_offset), FOTS_INVALID_MOMENT, what);
    is_no_moment(fots_moment_replace_offset(wrong, no_offset), FOTS_INVALID_MOMENT, what);
    is_no_moment(fots_moment_checked_add(wrong, no_duration), FOTS_INVALID_MOMENT, what);
    is_no_moment(fots_moment_checked_sub(wrong, no_duration), FOTS_INVALID_MOMENT, what);
    is_no_moment(fots_moment_saturating_add(wrong, no_duration), FOTS_INVALID_MOMENT, what);
    is_no_moment(fots_moment_saturating_sub(wrong, no_duration), FOTS_INVALID_MOMENT, what);
    is_no_duration(fots_moment_duration_since(wrong, right), FOTS_INVALID_MOMENT, what);
    is_no_duration(fots_moment_duration_since(right, wrong), FOTS_INVALID_MOMENT, what);
    is_no_duration(fots_moment_unix_time(wrong), FOTS_INVALID_MOMENT, what);
    check(order.status == FOTS_INVALID_MOMENT && order.number == FOTS_NO_VALUE, what, order.status, order.number);
    check(back.status == FOTS_INVALID_MOMENT && back.number == FOTS_NO_VALUE, what, back.status, back.number);
    check(seconds.status == FOTS_INVALID_MOMENT && seconds.number == INT64_MIN, what, seconds.status, seconds.number);
}

static void wrong_values(void)
{
    const fots_moment right = moment_at(0, 0, 0);
    const int32_t no_days[] = {FOTS_NO_VALUE, FOTS_MIN_JULIAN_DAY - 1, FOTS_MAX_JULIAN_DAY + 1, INT32_MAX};
    const int32_t no_offsets[] = {FOTS_NO_VALUE, -FOTS_MAX_OFFSET_SECONDS - 1, FOTS_MAX_OFFSET_SECONDS + 1, INT32_MAX};
    const fots_time no_times[] = {FOTS_MAX_TIME + 1, UINT64_C(1) << 63, FOTS_NO_TIME};
    const fots_duration no_durations[] = {{0, 1000000000, 0}, {0, FOTS_NO_VALUE, 0}, {1, -1, 0}, {-1, 1, 0}, {INT64_MIN, FOTS_NO_VALUE, 0}};
    wrong_parts();
    for (int k = 0; k < COUNT(no_days); k++) {
        wrong_moment(moment_at(no_days[k], 0, 0), "a moment of no date");
    }
    for (int k = 0; k < COUNT(no_times); k++) {
        wrong_moment(moment_at(0, 0, no_times[k]), "a moment of no time");
    }
    for (int k = 0; k < COUNT(no_offsets); k++) {
        wrong_moment(moment_at(0, no_offsets[k], 0), "a moment at no offset");
        is_no_moment(fots_moment_to_offset(right, offset_at(no_offsets[k])), FOTS_INVALID_OFFSET, "at no offset");
        is_no_moment(fots_moment_replace_offset(right, offset_at(no_offsets[k])), FOTS_INVALID_OFFSET, "replaced by no offset");
    }
    for (int k = 0; k < COUNT(no_durations); k++) {
        is_no_moment(fots_moment_checked_add(right, no_durations[k]), FOTS_INVALID_DURATION, "later by no duration");
        is_no_moment(fots_moment_checked_sub(right, no_durations[k]), FOTS_INVALID_DURATION, "earlier by no duration");
        is_no_moment(fots_moment_saturating_add(right, no_durations[k]), FOTS_INVALID_DURATION, "clamped, later by no duration");
        is_no_moment(fots_moment_saturating_sub(right, no_durations[k]), FOTS_INVALID_DURATION, "clamped, earlier by no duration");
        is_no_moment(fots_moment_from_unix_time(no_durations[k]), FOTS_INVALID_DURATION, "of no Unix time");
    }
}

/* ---- random values */

static uint64_t drawn(void)
{
    static uint64_t state = 88172645463325252ULL;
    state ^= state << 13;
    state ^= state >> 7;
    state ^= state << 17;
    return state;
}

/* Returns a number from 0 to below the other. */
static int64_t below(uint64_t number)
{
    return (int64_t)(drawn() % number);
}

/* Returns a moment, at an end of the range for one in four. */
static fots_moment drawn_moment(void)
{
    const uint64_t days = (uint64_t)((int64_t)FOTS_MAX_JULIAN_DAY - FOTS_MIN_JULIAN_DAY + 1);
    int64_t day = below(days);
    const int32_t offset = (int32_t)(below(2 * FOTS_MAX_OFFSET_SECONDS + 1) - FOTS_MAX_OFFSET_SECONDS);
    const fots_time time = (fots_time)below(FOTS_MAX_TIME + 1);
    switch (below(8)) {
    case 0: day = below(2); break;
    case 1: day = (int64_t)days - 1 - below(2); break;
    default: break;
    }
    return moment_at((int32_t)(FOTS_MIN_JULIAN_DAY + day), offset, time);
}

/* Returns a duration of any size, of days or of seconds. */
static fots_duration drawn_duration(void)
{
    static const uint64_t sizes[] = {100000, UINT64_C(100000000000000), INT64_MAX};
    int64_t seconds = below(sizes[below(3)]);
    int32_t nanoseconds = (int32_t)below(1000000000);
    return below(2) ? duration_of(seconds, nanoseconds) : duration_of(-seconds, -nanoseconds);
}

/* Return the local date-time and the instant, in nanoseconds from the first day of the range. */
static wide local_of(fots_moment moment)
{
    return (wide)(moment.date.julian_day - (int64_t)FOTS_MIN_JULIAN_DAY) * DAY + (wide)moment.time;
}

static wide instant_of(fots_moment moment)
{
    return local_of(moment) - moment.offset.seconds * SECOND;
}

static wide nanoseconds_of(fots_duration duration)
{
    return duration.seconds * SECOND + duration.nanoseconds;
}

static wide last_local(void)
{
    return local_of(moment_at(FOTS_MAX_JULIAN_DAY, 0, FOTS_MAX_TIME));
}

/* Checks that the result is the moment of this local date-time, or an error if there is none. */
static void is_at(fots_moment_result result, wide local, int32_t offset, int32_t error, const char *what)
{
    if (local < 0 || local > last_local()) {
        is_no_moment(result, error, what);
    } else {
        is_moment(result, moment_at((int32_t)(FOTS_MIN_JULIAN_DAY + (int64_t)(local / DAY)), offset, (fots_time)(local % DAY)), what);
    }
}

static wide clamped(wide local)
{
    return local < 0 ? 0 : local > last_local() ? last_local() : local;
}

static void add_and_sub(fots_moment moment, fots_duration duration)
{
    const wide local = local_of(moment), by = nanoseconds_of(duration);
    const int32_t offset = moment.offset.seconds;
    is_at(fots_moment_checked_add(moment, duration), local + by, offset, FOTS_RESULT_OUT_OF_RANGE, "drawn, later");
    is_at(fots_moment_checked_sub(moment, duration), local - by, offset, FOTS_RESULT_OUT_OF_RANGE, "drawn, earlier");
    is_at(fots_moment_saturating_add(moment, duration), clamped(local + by), offset, FOTS_OK, "drawn, later and clamped");
    is_at(fots_moment_saturating_sub(moment, duration), clamped(local - by), offset, FOTS_OK, "drawn, earlier and clamped");
}

static void compare(fots_moment moment, fots_moment other)
{
    const wide one = instant_of(moment), two = instant_of(other), between = one - two;
    is_order(moment, other, one < two ? -1 : one > two ? 1 : 0, "drawn, compared");
    is_duration(fots_moment_duration_since(moment, other), duration_of((int64_t)(between / SECOND), (int32_t)(between % SECOND)),
        "drawn, measured");
    is_at(fots_moment_to_offset(moment, other.offset), one + other.offset.seconds * SECOND, other.offset.seconds, FOTS_RESULT_OUT_OF_RANGE,
        "drawn, at an offset");
    is_at(fots_moment_replace_offset(moment, other.offset), local_of(moment), other.offset.seconds, FOTS_OK, "drawn, another offset");
}

static void unix_times(fots_moment moment, fots_duration duration)
{
    const wide epoch = (wide)(2440588 - (int64_t)FOTS_MIN_JULIAN_DAY) * DAY;
    const wide since = instant_of(moment) - epoch;
    const wide past = since % SECOND < 0 ? 1 : 0;
    const fots_int64_result seconds = fots_moment_unix_timestamp(moment);
    const fots_pair_result pair = fots_unix_pair(fots_moment_unix_time(moment).duration, moment.offset);
    check(seconds.status == FOTS_OK && seconds.number == (int64_t)(since / SECOND - past), "drawn, whole seconds", seconds.status,
        seconds.number);
    is_duration(fots_moment_unix_time(moment), duration_of((int64_t)(since / SECOND), (int32_t)(since % SECOND)), "drawn, Unix time");
    check((fots_time)(moment.time % 1000000000) == (fots_time)(since - (since / SECOND - past) * SECOND), "drawn, past whole seconds",
        seconds.number, (long long)moment.time);
    check(pair.date.julian_day == moment.date.julian_day && pair.time == moment.time, "drawn, there and back", pair.status,
        pair.date.julian_day);
    is_at(fots_moment_from_unix_time(duration), epoch + nanoseconds_of(duration), 0, FOTS_TIMESTAMP_OUT_OF_RANGE, "drawn, of a Unix time");
    is_at(fots_moment_from_unix_timestamp(duration.seconds), epoch + duration.seconds * SECOND, 0, FOTS_TIMESTAMP_OUT_OF_RANGE,
        "drawn, of whole seconds");
}

static void drawn_values(void)
{
    for (int k = 0; k < DRAWN; k++) {
        fots_moment moment = drawn_moment();
        fots_duration duration = drawn_duration();
        fots_moment_result same = fots_moment_to_offset(moment, offset_at((int32_t)below(7) * 3600));
        add_and_sub(moment, duration);
        compare(moment, drawn_moment());
        unix_times(moment, duration);
        if (same.status == FOTS_OK) {
            compare(moment, same.moment);
        }
    }
}

int main(void)
{
    a_leap_night();
    before_the_epoch();
    ends_of_the_range();
    wrong_values();
    drawn_values();
    return ended("moments");
}
