/* Checks durations and periods in text: examples of ISO 8601 and of Temporal, and errors with their
 * positions. */
#include <stdint.h>
#include <string.h>

#include "fotsevindre.h"
#include "testing.h"

typedef struct period_row {
    const char *text;
    int32_t years, months, weeks, days;
    int64_t seconds;
    int32_t nanoseconds;
    const char *printed; /* or NULL for the same text */
} period_row;

/* The examples of ISO 8601-1:2019, 5.5.2, and of Temporal.Duration.from, with their components. */
static const period_row periods[] = {
    {"P1Y2M10DT2H30M", 1, 2, 0, 10, 9000, 0, NULL},
    {"P3Y6M4DT12H30M5S", 3, 6, 0, 4, 45005, 0, NULL},
    {"P2W", 0, 0, 2, 0, 0, 0, NULL},
    {"P1Y", 1, 0, 0, 0, 0, 0, NULL},
    {"P12W", 0, 0, 12, 0, 0, 0, NULL},
    {"-P1D", 0, 0, 0, -1, 0, 0, NULL},
    {"P1Y1D", 1, 0, 0, 1, 0, 0, NULL},
    {"P1M", 0, 1, 0, 0, 0, 0, NULL},
    {"PT1M", 0, 0, 0, 0, 60, 0, NULL},
    {"PT36H", 0, 0, 0, 0, 129600, 0, NULL},
    {"PT0.0021S", 0, 0, 0, 0, 0, 2100000, NULL},
    {"PT0,5S", 0, 0, 0, 0, 0, 500000000, "PT0.5S"},
    {"-PT1.000000001S", 0, 0, 0, 0, -1, -1, NULL},
    {"P001Y02M", 1, 2, 0, 0, 0, 0, "P1Y2M"},
    {"P0D", 0, 0, 0, 0, 0, 0, "PT0S"},
    {"PT0S", 0, 0, 0, 0, 0, 0, NULL},
    {"P1Y1M1W1DT1H1M1.1S", 1, 1, 1, 1, 3661, 100000000, NULL},
};

typedef struct error_row {
    const char *text;
    int32_t status;
    size_t position; /* or SIZE_MAX */
} error_row;

static const error_row period_errors[] = {
    {"", FOTS_UNEXPECTED_END, 0}, {"P", FOTS_UNEXPECTED_END, 1}, {"P1", FOTS_UNEXPECTED_END, 2}, {"P1S", FOTS_UNEXPECTED_BYTE, 2},
    {"p1D", FOTS_UNEXPECTED_BYTE, 0}, {"+P1D", FOTS_UNEXPECTED_BYTE, 0}, {"P-1D", FOTS_UNEXPECTED_BYTE, 1}, {"PT", FOTS_UNEXPECTED_END, 2},
    {"P1DT", FOTS_UNEXPECTED_END, 4}, {"P1D2M", FOTS_UNEXPECTED_BYTE, 3}, {"PT1D", FOTS_UNEXPECTED_BYTE, 3}, {"PT0.5H", FOTS_UNEXPECTED_BYTE, 5},
    {"PT1.0000000001S", FOTS_UNEXPECTED_BYTE, 13}, {"P1D ", FOTS_UNEXPECTED_BYTE, 3}, {"P2147483648Y", FOTS_YEARS_OUT_OF_RANGE, SIZE_MAX},
    {"-P2147483649M", FOTS_MONTHS_OUT_OF_RANGE, SIZE_MAX}, {"P2147483648W", FOTS_WEEKS_OUT_OF_RANGE, SIZE_MAX},
    {"P2147483648D", FOTS_DAYS_OUT_OF_RANGE, SIZE_MAX}, {"PT9223372036854775808H", FOTS_HOURS_OUT_OF_RANGE, SIZE_MAX},
    {"PT2562047788015215H60M", FOTS_MINUTES_OUT_OF_RANGE, SIZE_MAX}, {"PT9223372036854775808S", FOTS_SECONDS_OUT_OF_RANGE, SIZE_MAX},
};

static void period_texts(void)
{
    for (size_t row = 0; row < sizeof periods / sizeof periods[0]; row++) {
        const period_row wanted = periods[row];
        const fots_parse_period_result found = fots_period_parse(wanted.text, strlen(wanted.text));
        const fots_period period = found.period;
        check(found.status == FOTS_OK && found.position == SIZE_MAX, wanted.text, found.status, (long long)found.position);
        check(period.years == wanted.years && period.months == wanted.months && period.weeks == wanted.weeks && period.days == wanted.days, wanted.text,
            period.months, period.days);
        check(period.duration.seconds == wanted.seconds && period.duration.nanoseconds == wanted.nanoseconds, wanted.text, period.duration.seconds, 0);
    }
    for (size_t row = 0; row < sizeof period_errors / sizeof period_errors[0]; row++) {
        const error_row wanted = period_errors[row];
        const fots_parse_period_result found = fots_period_parse(wanted.text, strlen(wanted.text));
        check(found.status == wanted.status && found.position == wanted.position, wanted.text, found.status, (long long)found.position);
        check(found.period.years == FOTS_NO_VALUE, "no period", (long long)row, found.period.years);
    }
}

/* What is printed parses again. */
static void printed_periods(void)
{
    for (size_t row = 0; row < sizeof periods / sizeof periods[0]; row++) {
        const period_row wanted = periods[row];
        const char *const text = wanted.printed ? wanted.printed : wanted.text;
        const fots_period period = fots_period_parse(wanted.text, strlen(wanted.text)).period;
        const fots_period_text_result printed = fots_period_text(period);
        check(printed.status == FOTS_OK && printed.length == strlen(text) && strcmp(printed.bytes, text) == 0, text, printed.status, printed.length);
    }
    const fots_period longest = {INT32_MIN, INT32_MIN, INT32_MIN, INT32_MIN, {INT64_MIN, -999999999, 0}}, two_signs = {1, -1, 0, 0, {0, 0, 0}};
    const char *const text = "-P2147483648Y2147483648M2147483648W2147483648DT2562047788015215H30M8.999999999S";
    check(strcmp(fots_period_text(longest).bytes, text) == 0 && fots_period_text(longest).length == strlen(text), "the longest period", 0, 0);
    check(fots_period_parse(text, strlen(text)).period.duration.seconds == INT64_MIN, "the longest period, parsed", 0, 0);
    check(fots_period_text(two_signs).status == FOTS_INVALID_PERIOD && fots_period_text(two_signs).length == 0, "two signs", 0, 0);
}

static void duration_texts(void)
{
    static const error_row errors[] = {{"P1D", FOTS_UNEXPECTED_BYTE, 1}, {"PT", FOTS_UNEXPECTED_END, 2}, {"PT1H1H", FOTS_UNEXPECTED_BYTE, 5},
        {"-PT9223372036854775809S", FOTS_SECONDS_OUT_OF_RANGE, SIZE_MAX}, {"PT2562047788015216H", FOTS_HOURS_OUT_OF_RANGE, SIZE_MAX}};
    const fots_duration half = {-1, -500000000, 0}, two_signs = {1, -1, 0};
    const fots_parse_duration_result found = fots_duration_parse("-PT90M", 6);
    check(found.status == FOTS_OK && found.duration.seconds == -5400 && found.position == SIZE_MAX, "-90 minutes", found.duration.seconds, 0);
    check(strcmp(fots_duration_text(half).bytes, "-PT1.5S") == 0, "-1.5 s", 0, 0);
    check(strcmp(fots_duration_text(found.duration).bytes, "-PT1H30M") == 0, "-1 h 30 min", 0, 0);
    check(fots_duration_text(two_signs).status == FOTS_INVALID_DURATION, "two signs", 0, 0);
    for (size_t row = 0; row < sizeof errors / sizeof errors[0]; row++) {
        const fots_parse_duration_result error = fots_duration_parse(errors[row].text, strlen(errors[row].text));
        check(error.status == errors[row].status && error.position == errors[row].position, errors[row].text, error.status, (long long)error.position);
        check(error.duration.seconds == INT64_MIN, "no duration", (long long)row, 0);
    }
}

/* Columns have the results of the single calls. */
static void duration_columns(void)
{
    static const char texts[] = "PT2H30M-PT90MP1DPT0,5SPT9223372036854775808S";
    const int32_t bounds[] = {0, 7, 13, 16, 22, 44, 45};
    const uint8_t wanted[] = {FOTS_OK, FOTS_OK, FOTS_UNEXPECTED_BYTE, FOTS_OK, FOTS_SECONDS_OUT_OF_RANGE, FOTS_INVALID_BOUNDS};
    int64_t seconds[6] = {77};
    int32_t nanoseconds[6] = {77}, printed[7] = {77};
    uint8_t statuses[6] = {77};
    char bytes[6 * FOTS_MAX_DURATION_LENGTH] = {77};
    check(fots_durations_parse(texts, 44, bounds, 6, seconds, 6, nanoseconds, 6, statuses, 6) == FOTS_LENGTH_MISMATCH, "a bound too few", 0, 0);
    check(fots_durations_parse(texts, 44, bounds, 7, seconds, 6, nanoseconds, 5, statuses, 6) == FOTS_LENGTH_MISMATCH, "a column too short", 0, 0);
    check(fots_durations_texts(seconds, 6, nanoseconds, 5, bytes, sizeof bytes, printed, 7, statuses, 6) == FOTS_LENGTH_MISMATCH, "nanoseconds too few", 0, 0);
    check(fots_durations_texts(seconds, 6, nanoseconds, 6, bytes, sizeof bytes - 1, printed, 7, statuses, 6) == FOTS_LENGTH_MISMATCH, "a byte too few", 0, 0);
    check(seconds[0] == 77 && nanoseconds[0] == 77 && statuses[0] == 77 && bytes[0] == 77 && printed[0] == 77, "what stood there", seconds[0], bytes[0]);
    check(fots_durations_parse(texts, 44, bounds, 7, seconds, 6, nanoseconds, 6, statuses, 6) == 3, "three rows without a duration", 0, 0);
    check(seconds[0] == 9000 && seconds[1] == -5400 && seconds[3] == 0 && nanoseconds[3] == 500000000, "parsed durations", seconds[0], seconds[1]);
    for (size_t row = 0; row < 6; row++) {
        check(statuses[row] == wanted[row], "the status of a text", (long long)row, statuses[row]);
        check((statuses[row] == FOTS_OK) == (seconds[row] != INT64_MIN) && (statuses[row] == FOTS_OK) == (nanoseconds[row] != FOTS_NO_VALUE), "no duration",
            seconds[row], nanoseconds[row]);
    }
    check(fots_durations_texts(seconds, 6, nanoseconds, 6, bytes, sizeof bytes, printed, 7, statuses, 6) == 3, "three rows without a text", 0, 0);
    check(printed[6] == 21 && memcmp(bytes, "PT2H30M-PT1H30MPT0.5S", 21) == 0, "printed durations", printed[6], 0);
    check(printed[2] == printed[3] && statuses[2] == FOTS_INVALID_DURATION, "no bytes", printed[2], statuses[2]);
    seconds[0] = INT64_MIN;
    nanoseconds[0] = -999999999;
    check(fots_durations_texts(seconds, 1, nanoseconds, 1, bytes, FOTS_MAX_DURATION_LENGTH, printed, 2, statuses, 1) == 0, "the longest duration", 0, 0);
    check(memcmp(bytes, "-PT2562047788015215H30M8.999999999S", (size_t)printed[1]) == 0 && printed[1] == 35, "its text", printed[1], 0);
    check(fots_durations_texts(seconds, 0, nanoseconds, 0, bytes, 0, printed, 1, statuses, 0) == 0 && printed[0] == 0, "no rows", printed[0], 0);
}

static int is_on(fots_date date, int32_t year, uint32_t month, uint32_t day)
{
    return date.julian_day == fots_date_from_calendar_date(year, month, day).date.julian_day;
}

/* Repeated date-times, counted from the first one by hand, and texts of none. */
static void repeated_pairs(void)
{
    static const error_row errors[] = {{"R0/2024-01-31T09:00/P1M", FOTS_COUNT_OUT_OF_RANGE, SIZE_MAX}, {"R4294967296/2024-01-31T09:00/P1M", FOTS_COUNT_OUT_OF_RANGE, SIZE_MAX},
        {"R5/P1M/2024-01-31T09:00", FOTS_MISSING_START, SIZE_MAX}, {"R5/2024-01-31T09:00/PT0S", FOTS_PERIOD_NOT_POSITIVE, SIZE_MAX},
        {"R5/2024-01-31T09:00/2024-01-31T09:00", FOTS_PERIOD_NOT_POSITIVE, SIZE_MAX}, {"R5/2024-01-31T09:00/2024-01-31T08:59", FOTS_END_BEFORE_START, SIZE_MAX},
        {"R5/2024-01-31/P1M", FOTS_UNEXPECTED_BYTE, 13}, {"R5/2024-01-31T09:00", FOTS_UNEXPECTED_END, 19}, {"R5/2024-02-30T09:00/P1M", FOTS_DAY_OUT_OF_RANGE, SIZE_MAX},
        {"R5/2024-01-31T25:00/P1M", FOTS_HOUR_OUT_OF_RANGE, SIZE_MAX}};
    const uint64_t hour = UINT64_C(3600000000000);
    for (size_t row = 0; row < sizeof errors / sizeof errors[0]; row++) {
        const fots_parse_repeated_pairs_result found = fots_repeated_pairs_parse(errors[row].text, strlen(errors[row].text));
        check(found.status == errors[row].status && found.position == errors[row].position, errors[row].text, found.status, (long long)found.position);
        check(found.start_date.julian_day == FOTS_NO_VALUE && found.start_time == FOTS_NO_TIME && found.count == 0 && found.period.years == FOTS_NO_VALUE, "no repetition", (long long)row, found.count);
    }
    const fots_parse_repeated_pairs_result months = fots_repeated_pairs_parse("R12/2024-01-31T09:00:00/P1M", 27), shifts = fots_repeated_pairs_parse("R/2024-01-01T08:00/2024-01-01T09:30", 35);
    check(months.status == FOTS_OK && is_on(months.start_date, 2024, 1, 31) && months.start_time == 9 * hour && months.count == 12 && months.period.months == 1, "twelve months", months.status, months.count);
    check(months.position == SIZE_MAX && months.unused == 0 && months.period.duration.seconds == 0, "no position", 0, 0);
    const fots_pair_result second = fots_pair_nth_period(months.start_date, months.start_time, months.period, 1), twelfth = fots_pair_nth_period(months.start_date, months.start_time, months.period, 11);
    check(is_on(second.date, 2024, 2, 29) && second.time == 9 * hour && is_on(twelfth.date, 2024, 12, 31), "months from the first one", second.status, twelfth.status);
    check(shifts.status == FOTS_OK && shifts.count == 0 && shifts.period.duration.seconds == 5400 && shifts.period.days == 0, "an exact duration", shifts.status, 0);
}

/* Three texts of each interval, and those of none. */
static void intervals(void)
{
    static const char *const january[] = {"2024-01-01/2024-02-01", "2024-01-01/P1M", "P1M/2024-02-01", "2024-001/P4W3D", "2024-W01-1/2024-W05-4"};
    static const char *const shift[] = {"2024-01-01T08:00/2024-01-01T09:30", "2024-01-01T08:00/PT90M", "PT1,5H/2024-01-01T09:30", "2024-001 08:00:00.0/PT5400S"};
    static const error_row errors[] = {{"2024-02-01/2024-01-01", FOTS_END_BEFORE_START, SIZE_MAX}, {"2024-01-01/PT1H", FOTS_PERIOD_HAS_DURATION, SIZE_MAX},
        {"+999999-12-31/P1D", FOTS_RESULT_OUT_OF_RANGE, SIZE_MAX}, {"2024-13-01/P1M", FOTS_MONTH_OUT_OF_RANGE, SIZE_MAX}, {"2024-01-01/2024-02-30", FOTS_DAY_OUT_OF_RANGE, SIZE_MAX},
        {"2024-01-01/P2147483648Y", FOTS_YEARS_OUT_OF_RANGE, SIZE_MAX}, {"2024-01-01", FOTS_UNEXPECTED_END, 10}, {"2024-01-01/-P1M", FOTS_UNEXPECTED_BYTE, 12},
        {"2024-01-01T08:00/P1D", FOTS_UNEXPECTED_BYTE, 10}, {"P1D/P1D", FOTS_UNEXPECTED_BYTE, 4}, {"", FOTS_UNEXPECTED_END, 0}};
    static const error_row of_pairs[] = {{"2024-01-01T09:30/2024-01-01T08:00", FOTS_END_BEFORE_START, SIZE_MAX}, {"2024-01-01T24:00/P1D", FOTS_HOUR_OUT_OF_RANGE, SIZE_MAX},
        {"+999999-12-31T23:00/PT1H", FOTS_RESULT_OUT_OF_RANGE, SIZE_MAX}, {"2024-01-01/P1D", FOTS_UNEXPECTED_BYTE, 10}};
    static const error_row of_repeats[] = {{"R0/2024-01-31/P1M", FOTS_COUNT_OUT_OF_RANGE, SIZE_MAX}, {"R4294967296/2024-01-31/P1M", FOTS_COUNT_OUT_OF_RANGE, SIZE_MAX},
        {"R5/P1M/2024-01-31", FOTS_MISSING_START, SIZE_MAX}, {"R5/2024-01-31/P0D", FOTS_PERIOD_NOT_POSITIVE, SIZE_MAX}, {"R5/2024-01-31/PT1H", FOTS_PERIOD_HAS_DURATION, SIZE_MAX},
        {"R5/2024-01-31/2024-01-30", FOTS_END_BEFORE_START, SIZE_MAX}, {"5/2024-01-31/P1M", FOTS_UNEXPECTED_BYTE, 0}, {"R-1/2024-01-31/P1M", FOTS_UNEXPECTED_BYTE, 1},
        {"R5/2024-02-30/P1M", FOTS_DAY_OUT_OF_RANGE, SIZE_MAX}};
    for (size_t row = 0; row < sizeof january / sizeof january[0]; row++) {
        const fots_parse_date_range_result found = fots_date_interval_parse(january[row], strlen(january[row]));
        check(found.status == FOTS_OK && found.position == SIZE_MAX && found.unused == 0, january[row], found.status, (long long)found.position);
        check(is_on(found.range.start, 2024, 1, 1) && is_on(found.range.end, 2024, 2, 1), january[row], found.range.start.julian_day, found.range.end.julian_day);
    }
    for (size_t row = 0; row < sizeof shift / sizeof shift[0]; row++) {
        const fots_parse_pair_range_result found = fots_pair_interval_parse(shift[row], strlen(shift[row]));
        if (row == 2) {
            check(found.status == FOTS_UNEXPECTED_BYTE && found.position == 5, "a fraction of hours", found.status, (long long)found.position);
            continue;
        }
        check(found.status == FOTS_OK && found.position == SIZE_MAX && found.unused == 0, shift[row], found.status, (long long)found.position);
        check(is_on(found.start_date, 2024, 1, 1) && is_on(found.end_date, 2024, 1, 1), shift[row], found.start_date.julian_day, found.end_date.julian_day);
        check(found.start_time == UINT64_C(8) * 3600000000000 && found.end_time == UINT64_C(5700) * 6000000000, shift[row], 0, 0);
    }
    for (size_t row = 0; row < sizeof errors / sizeof errors[0]; row++) {
        const fots_parse_date_range_result found = fots_date_interval_parse(errors[row].text, strlen(errors[row].text));
        check(found.status == errors[row].status && found.position == errors[row].position, errors[row].text, found.status, (long long)found.position);
        check(found.range.start.julian_day == FOTS_NO_VALUE && found.range.end.julian_day == FOTS_NO_VALUE, "no range", (long long)row, 0);
    }
    for (size_t row = 0; row < sizeof of_pairs / sizeof of_pairs[0]; row++) {
        const fots_parse_pair_range_result found = fots_pair_interval_parse(of_pairs[row].text, strlen(of_pairs[row].text));
        check(found.status == of_pairs[row].status && found.position == of_pairs[row].position, of_pairs[row].text, found.status, (long long)found.position);
        check(found.start_date.julian_day == FOTS_NO_VALUE && found.start_time == FOTS_NO_TIME && found.end_time == FOTS_NO_TIME, "no ends", (long long)row, 0);
    }
    for (size_t row = 0; row < sizeof of_repeats / sizeof of_repeats[0]; row++) {
        const fots_parse_repeated_dates_result found = fots_repeated_dates_parse(of_repeats[row].text, strlen(of_repeats[row].text));
        check(found.status == of_repeats[row].status && found.position == of_repeats[row].position, of_repeats[row].text, found.status, (long long)found.position);
        check(found.start.julian_day == FOTS_NO_VALUE && found.count == 0 && found.period.years == FOTS_NO_VALUE, "no repetition", (long long)row, found.count);
    }
    const fots_parse_repeated_dates_result months = fots_repeated_dates_parse("R12/2024-01-31/P1M", 18), days = fots_repeated_dates_parse("R/2024-01-01/2024-01-08", 23);
    check(months.status == FOTS_OK && is_on(months.start, 2024, 1, 31) && months.count == 12 && months.period.months == 1, "twelve months", months.status, months.count);
    check(is_on(fots_date_nth_period(months.start, months.period, 11).date, 2024, 12, 31), "the twelfth one", 0, 0);
    check(days.status == FOTS_OK && days.count == 0 && days.period.days == 7 && days.period.months == 0, "weeks without an end", days.status, days.period.days);
}

int main(void)
{
    period_texts();
    printed_periods();
    duration_texts();
    duration_columns();
    intervals();
    repeated_pairs();
    return ended("durations");
}
