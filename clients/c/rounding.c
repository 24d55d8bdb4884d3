/* Checks rounding: the examples of Temporal for round(), and numbers by whole numbers. */
#include <stdint.h>

#include "fotsevindre.h"
#include "testing.h"

#define MINUTE INT64_C(60)
#define HOUR INT64_C(3600)

static fots_duration of(int64_t seconds, int32_t nanoseconds)
{
    const fots_duration duration = {seconds, nanoseconds, 0};
    return duration;
}

static fots_time at(uint32_t hour, uint32_t minute, uint32_t second, uint32_t nanosecond)
{
    return fots_time_from_hms_nano(hour, minute, second, nanosecond).time;
}

static void times(void)
{
    const fots_time time = at(19, 39, 9, 68346205), late = at(23, 59, 0, 0), tie = at(9, 7, 30, 0);
    const fots_duration hour = of(HOUR, 0), half = of(30 * MINUTE, 0), quarter = of(15 * MINUTE, 0);
    check(fots_time_round(time, hour, FOTS_HALF_CEIL).time == at(20, 0, 0, 0), "to an hour", 0, 0);
    check(fots_time_round(time, half, FOTS_HALF_CEIL).time == at(19, 30, 0, 0), "to half an hour", 0, 0);
    check(fots_time_round(time, half, FOTS_CEIL).time == at(20, 0, 0, 0), "up to half an hour", 0, 0);
    check(fots_time_round(time, half, FOTS_FLOOR).time == at(19, 30, 0, 0), "down to half an hour", 0, 0);
    check(fots_time_round(time, of(0, 1000), FOTS_TRUNC).time == at(19, 39, 9, 68346000), "to a microsecond", 0, 0);
    check(fots_time_round(late, hour, FOTS_HALF_CEIL).time == 0, "24:00 is 0:00", 0, 0);
    check(fots_time_round(tie, quarter, FOTS_HALF_CEIL).time == at(9, 15, 0, 0), "a tie up", 0, 0);
    check(fots_time_round(tie, quarter, FOTS_HALF_EVEN).time == at(9, 0, 0, 0), "a tie to the even one", 0, 0);
    check(fots_time_round(at(9, 22, 30, 0), quarter, FOTS_HALF_EVEN).time == at(9, 30, 0, 0), "a tie to the even one above", 0, 0);
    check(fots_time_round(at(9, 0, 0, 0), quarter, FOTS_CEIL).time == at(9, 0, 0, 0), "a multiple stays", 0, 0);
    check(fots_time_round(FOTS_NO_TIME, of(0, 0), 5).status == FOTS_INVALID_TIME, "no time", 0, 0);
    check(fots_time_round(0, of(0, 0), 5).status == FOTS_INVALID_ROUNDING_UNIT, "a unit of nothing", 0, 0);
    check(fots_time_round(0, of(7 * MINUTE, 0), 5).status == FOTS_INVALID_ROUNDING_UNIT, "a unit that doesn't divide a day", 0, 0);
    check(fots_time_round(0, of(-HOUR, 0), 5).status == FOTS_INVALID_ROUNDING_UNIT, "a negative unit", 0, 0);
    check(fots_time_round(0, of(48 * HOUR, 0), 5).status == FOTS_INVALID_ROUNDING_UNIT, "a unit above a day", 0, 0);
    check(fots_time_round(0, of(1, -1), 5).status == FOTS_INVALID_ROUNDING_UNIT, "no duration", 0, 0);
    check(fots_time_round(0, hour, 5).status == FOTS_INVALID_ROUNDING_MODE, "no mode", 0, 0);
}

static void date_times(void)
{
    const fots_date date = fots_date_from_calendar_date(1995, 12, 7).date, none = {FOTS_NO_VALUE}, last = {FOTS_MAX_JULIAN_DAY};
    const fots_time time = at(3, 24, 30, 3500), late = at(23, 50, 0, 0);
    const fots_duration hour = of(HOUR, 0), half = of(30 * MINUTE, 0), day = of(24 * HOUR, 0);
    const fots_moment moment = {date, {-HOUR}, late}, invalid = {none, {0}, 0};
    const fots_pair_result next = fots_pair_round(date, late, hour, FOTS_HALF_CEIL);
    const fots_moment_result rounded = fots_moment_round(moment, hour, FOTS_CEIL);
    check(fots_pair_round(date, time, hour, FOTS_HALF_CEIL).time == at(3, 0, 0, 0), "to an hour", 0, 0);
    check(fots_pair_round(date, time, half, FOTS_HALF_CEIL).time == at(3, 30, 0, 0), "to half an hour", 0, 0);
    check(fots_pair_round(date, time, half, FOTS_FLOOR).time == at(3, 0, 0, 0), "down to half an hour", 0, 0);
    check(next.date.julian_day == date.julian_day + 1 && next.time == 0, "to the next date", next.date.julian_day, 0);
    check(fots_pair_round(date, time, day, FOTS_HALF_CEIL).date.julian_day == date.julian_day, "to a date", 0, 0);
    check(rounded.moment.date.julian_day == date.julian_day + 1 && rounded.moment.time == 0 && rounded.moment.offset.seconds == -HOUR, "at an offset", rounded.status, 0);
    check(fots_pair_round(none, FOTS_NO_TIME, of(0, 0), 5).status == FOTS_INVALID_DATE, "no date", 0, 0);
    check(fots_pair_round(date, FOTS_NO_TIME, of(0, 0), 5).status == FOTS_INVALID_TIME, "no time", 0, 0);
    check(fots_pair_round(date, 0, of(0, 0), 5).status == FOTS_INVALID_ROUNDING_UNIT, "no unit", 0, 0);
    check(fots_pair_round(date, 0, hour, 5).status == FOTS_INVALID_ROUNDING_MODE, "no mode", 0, 0);
    check(fots_pair_round(last, late, hour, FOTS_CEIL).status == FOTS_RESULT_OUT_OF_RANGE, "past the range", 0, 0);
    check(fots_moment_round(invalid, of(0, 0), 5).status == FOTS_INVALID_MOMENT, "no moment", 0, 0);
    check(fots_moment_round(moment, of(0, 0), 5).status == FOTS_INVALID_ROUNDING_UNIT, "no unit of a moment", 0, 0);
    check(fots_moment_round(moment, hour, 5).status == FOTS_INVALID_ROUNDING_MODE, "no mode of a moment", 0, 0);
}

/* Columns have the results of the single calls, whose values come from the examples of Temporal. */
static void columns(void)
{
    const fots_duration half = of(30 * MINUTE, 0), day = of(24 * HOUR, 0);
    const int32_t date = fots_date_from_calendar_date(1995, 12, 7).date.julian_day;
    const fots_time times[] = {at(19, 39, 9, 68346205), FOTS_NO_TIME, at(23, 50, 0, 0)};
    const int32_t dates[] = {date, FOTS_NO_VALUE, FOTS_MAX_JULIAN_DAY};
    fots_time rounded[3] = {77, 77, 77};
    int32_t days[3] = {77, 77, 77};
    uint8_t statuses[3] = {77, 77, 77};
    check(fots_times_round(times, 3, half, FOTS_HALF_CEIL, rounded, 2, statuses, 3) == FOTS_LENGTH_MISMATCH, "a time too few", 0, 0);
    check(fots_times_round(times, 3, half, FOTS_HALF_CEIL, rounded, 3, statuses, 2) == FOTS_LENGTH_MISMATCH, "a status too few", 0, 0);
    check(fots_pairs_round(dates, 3, times, 2, half, FOTS_HALF_CEIL, days, 3, rounded, 3, statuses, 3) == FOTS_LENGTH_MISMATCH, "a time of day too few", 0, 0);
    check(fots_pairs_round(dates, 3, times, 3, half, FOTS_HALF_CEIL, days, 3, rounded, 2, statuses, 3) == FOTS_LENGTH_MISMATCH, "a rounded time too few", 0, 0);
    check(rounded[0] == 77 && days[0] == 77 && statuses[0] == 77, "what stood there", statuses[0], days[0]);
    check(fots_times_round(times, 0, half, FOTS_HALF_CEIL, rounded, 0, statuses, 0) == 0 && rounded[0] == 77, "no rows", 0, 0);
    check(fots_times_round(times, 3, half, FOTS_HALF_CEIL, rounded, 3, statuses, 3) == 1, "a row without a time", 0, 0);
    check(rounded[0] == at(19, 30, 0, 0) && rounded[1] == FOTS_NO_TIME && rounded[2] == 0, "rounded times", 0, 0);
    check(statuses[0] == FOTS_OK && statuses[1] == FOTS_INVALID_TIME && statuses[2] == FOTS_OK, "their statuses", statuses[0], statuses[1]);
    check(fots_times_round(times, 3, of(7 * MINUTE, 0), 5, rounded, 3, statuses, 3) == 3 && statuses[0] == FOTS_INVALID_ROUNDING_UNIT, "no unit", 0, 0);
    check(fots_times_round(times, 3, half, 5, rounded, 3, statuses, 3) == 3 && statuses[2] == FOTS_INVALID_ROUNDING_MODE, "no mode", 0, 0);
    check(fots_pairs_round(dates, 3, times, 3, day, FOTS_CEIL, days, 3, rounded, 3, statuses, 3) == 2, "two rows without a pair", 0, 0);
    check(days[0] == date + 1 && rounded[0] == 0 && statuses[0] == FOTS_OK, "the next date", days[0], date);
    check(days[1] == FOTS_NO_VALUE && rounded[1] == FOTS_NO_TIME && statuses[1] == FOTS_INVALID_DATE, "no date", days[1], statuses[1]);
    check(days[2] == FOTS_NO_VALUE && rounded[2] == FOTS_NO_TIME && statuses[2] == FOTS_RESULT_OUT_OF_RANGE, "past the range", days[2], statuses[2]);
    for (uint32_t mode = 0; mode < 5; mode++) {
        fots_times_round(times, 3, half, mode, rounded, 3, statuses, 3);
        for (size_t row = 0; row < 3; row++) {
            const fots_time_result single = fots_time_round(times[row], half, mode);
            check(rounded[row] == single.time && statuses[row] == single.status, "as the single call", mode, (long long)row);
        }
    }
}

/* Rounds whole numbers by the definition of each mode. */
static int64_t rounded(int64_t number, int64_t unit, uint32_t mode)
{
    const int64_t past = (number % unit + unit) % unit, down = number - past, up = past == 0 ? down : down + unit;
    const int64_t to_down = number - down, to_up = up - number;
    switch (mode) {
    case FOTS_FLOOR: return down;
    case FOTS_CEIL: return up;
    case FOTS_TRUNC: return number < 0 ? up : down;
    case FOTS_HALF_CEIL: return to_down < to_up ? down : up;
    default: return to_down < to_up || (to_down == to_up && down / unit % 2 == 0) ? down : up;
    }
}

static void durations(void)
{
    static const int64_t units[] = {1, 7, 60, 900, 86400};
    const fots_duration longest = of(INT64_MAX, 999999999), two_signs = of(1, -1);
    for (int64_t seconds = -2000; seconds <= 2000; seconds += 5) {
        for (size_t row = 0; row < sizeof units / sizeof units[0]; row++) {
            for (uint32_t mode = 0; mode <= 4; mode++) {
                const fots_duration_result found = fots_duration_round(of(seconds, 0), of(units[row], 0), mode);
                check(found.status == FOTS_OK && found.duration.seconds == rounded(seconds, units[row], mode) && found.duration.nanoseconds == 0, "a duration", seconds,
                    found.duration.seconds);
            }
        }
    }
    check(fots_duration_round(of(-90, 0), of(60, 0), FOTS_HALF_EVEN).duration.seconds == -120, "-90 s to the even minute", 0, 0);
    check(fots_duration_round(of(0, 1500), of(0, 1000), FOTS_HALF_CEIL).duration.nanoseconds == 2000, "nanoseconds", 0, 0);
    check(fots_duration_round(two_signs, of(0, 0), 5).status == FOTS_INVALID_DURATION, "no duration", 0, 0);
    check(fots_duration_round(longest, of(0, 0), 5).status == FOTS_INVALID_ROUNDING_UNIT, "no unit", 0, 0);
    check(fots_duration_round(longest, two_signs, 5).status == FOTS_INVALID_ROUNDING_UNIT, "no duration as a unit", 0, 0);
    check(fots_duration_round(longest, of(60, 0), 5).status == FOTS_INVALID_ROUNDING_MODE, "no mode", 0, 0);
    check(fots_duration_round(longest, of(60, 0), FOTS_CEIL).status == FOTS_RESULT_OUT_OF_RANGE, "past the longest", 0, 0);
}

int main(void)
{
    times();
    date_times();
    columns();
    durations();
    return ended("rounding");
}
