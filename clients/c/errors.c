/* Tests of the sentences of errors. Each sentence stands here once, word for word. The ranges in them
 * are tried with the calls that have them. */
#include <string.h>

#include "testing.h"

#define COUNT(rows) ((int)(sizeof(rows) / sizeof(rows)[0]))

/* Checks a sentence, its length and the zero bytes after it. */
static void says(fots_sentence found, const char *expected)
{
    size_t length = strlen(expected);
    int is_same = found.length == length && length < sizeof found.bytes && memcmp(found.bytes, expected, length) == 0;
    for (size_t at = length; is_same && at < sizeof found.bytes; at++) {
        is_same = found.bytes[at] == 0;
    }
    if (!check(is_same, expected, found.length, (long long)length)) {
        printf("found: %.*s\n", (int)sizeof found.bytes, found.bytes);
    }
}

/* ---- statuses */

static const char *const sentences[] = {
    "no error",
    "the result is out of range, or does not exist",
    "invalid date; expected a Julian day from -363521074 to 366963559",
    "invalid time; expected 0 to 86399999999999 nanoseconds since midnight",
    "invalid offset; expected -93599 to 93599 seconds",
    "invalid duration; expected -999999999 to 999999999 ns, signed like the seconds",
    "invalid weekday; expected 1 (Monday) to 7 (Sunday)",
    "invalid count; expected n from 0 to 255",
    "unexpected byte",
    "invalid moment; expected a valid date, time and offset",
    "invalid frequency; expected 1 (daily) to 4 (yearly)",
    "too many values in a list of a rule; expected at most 62",
    "invalid convention; expected 0 to 4, or 1 to 5 for a count of days",
    "invalid weekmask; expected 0 to 127, with a bit for each weekday",
    "holidays must be in ascending order, without duplicates",
    "too many holidays; expected at most 1024",
    "year is out of range",
    "month is out of range",
    "julian day is out of range",
    "hour is out of range",
    "minute is out of range",
    "second is out of range",
    "millisecond is out of range",
    "microsecond is out of range",
    "nanosecond is out of range",
    "offset hour is out of range",
    "offset minute is out of range",
    "offset second is out of range",
    "seconds are out of range",
    "timestamp is out of range",
    "invalid bounds; expected ascending positions in the texts",
    "unexpected end",
    "unknown part",
    "duplicate part",
    "too many values; expected at most 62",
    "invalid value",
    "missing FREQ",
    "invalid format; expected one that a function made",
    "unknown item",
    "too many items in a format; expected at most 64",
    "the format shows something that the value doesn't have",
    "the texts of a format don't determine such a value",
    "the buffer has no room for the text",
    "a component contradicts the other components",
    "too many dates or exceptions of a rule; expected at most 1024",
    "invalid zone; expected one that a function made",
    "invalid policy; expected 0 (compatible) to 3 (reject)",
    "the clocks of the zone skip the date and time",
    "the clocks of the zone show the date and time twice",
    "not a zone file; expected TZif",
    "unsupported version; expected 2, 3 or 4",
    "leap seconds; expected a file without them",
    "missing local time type",
    "invalid type index",
    "invalid local time type; expected an offset of at most 93599 seconds and a flag 0 or 1",
    "invalid abbreviation; expected ASCII, and at least 3 letters in a POSIX text",
    "changes out of order; expected rising instants from -2^60 to 2^60",
    "overlapping changes; expected gaps and folds apart from each other",
    "missing newline; expected a footer between two newlines",
    "invalid POSIX offset; expected an offset of at most 24 hours",
    "invalid day of a rule; expected a day such as M3.5.0",
    "invalid time of a rule; expected a time of at most 167 hours",
    "months of a rule too close; expected a month between them",
    "trailing bytes; expected the end",
    "day is out of range",
    "ordinal is out of range",
    "week is out of range",
    "weekday is out of range",
    "invalid period; expected parts of one sign and a valid duration",
    "a date has no time of day, so a period of it has no duration",
    "the offset of the moment isn't that of the zone at its instant",
    "invalid unit; expected 1 (day) to 5 (year)",
    "invalid range; expected two dates, and no end before the start",
    "invalid rounding unit; expected a positive duration, which divides 24 h for times of day",
    "invalid rounding mode; expected 0 (floor) to 4 (half even)",
    "years are out of range",
    "months are out of range",
    "weeks are out of range",
    "days are out of range",
    "hours are out of range",
    "minutes are out of range",
    "the end of the interval is before its start",
    "missing start; expected the start of the interval to repeat",
    "period not positive; expected a positive period to repeat",
    "count out of range; expected 1 to 4294967295 repetitions",
    "invalid calendar; expected 0 (TARGET) to 19 (Thuringia)",
    "unclosed event; expected a line END:VEVENT",
    "other end of an event; expected END:VEVENT",
    "other zone; expected the zone of the lines before it",
    "wrong kind of value; expected the kind that the call reads",
    "invalid rule of a holiday; expected a day, years or a move",
    "invalid names; expected UTF-8 of at most 127 bytes each",
    "unknown language; expected ar, de, en, es, fr, it, ja, pl, pt, ru, tr or zh",
    "ambiguous names; expected names that end before what comes after them",
    "ambiguous number; expected another byte after it",
};

static void statuses(void)
{
    const int32_t others[] = {-1, COUNT(sentences), 1000, INT32_MIN, INT32_MAX};
    for (int32_t status = 0; status < COUNT(sentences); status++) {
        says(fots_error_text(status), sentences[status]);
        /* A component is in the sentence under its name. */
        if (strstr(sentences[status], "is out of range") && status != FOTS_RESULT_OUT_OF_RANGE && status != FOTS_JULIAN_DAY_OUT_OF_RANGE) {
            const char *name = fots_status_name(status);
            check(strncmp(sentences[status], name, strlen(name)) == 0, name, status, 0);
        }
    }
    for (int k = 0; k < COUNT(others); k++) {
        says(fots_error_text(others[k]), "unknown error");
    }
    check(strcmp(fots_status_name(COUNT(sentences) - 1), "unknown") != 0 && strcmp(fots_status_name(COUNT(sentences)), "unknown") == 0,
        "a sentence for each status", COUNT(sentences), 0);
}

/* ---- components */

/* A name, the place of the component in a struct, and the ends of a range that is always the same. */
typedef struct range {
    int32_t status;
    size_t offset;
    const char *name;
    int64_t min;
    int64_t max;
} range;

#define RANGE(status, field, name, min, max) {FOTS_##status##_OUT_OF_RANGE, offsetof(fots_components, field), name, min, max}

static const range ranges[] = {
    RANGE(YEAR, year, "year", -999999, 999999),
    RANGE(MONTH, month, "month", 1, 12),
    RANGE(JULIAN_DAY, julian_day, "julian day", -363521074, 366963559),
    RANGE(HOUR, hour, "hour", 0, 23),
    RANGE(MINUTE, minute, "minute", 0, 59),
    RANGE(SECOND, second, "second", 0, 59),
    RANGE(MILLISECOND, millisecond, "millisecond", 0, 999),
    RANGE(MICROSECOND, microsecond, "microsecond", 0, 999999),
    RANGE(NANOSECOND, nanosecond, "nanosecond", 0, 999999999),
    RANGE(OFFSET_HOUR, offset_hour, "offset hour", -25, 25),
    RANGE(OFFSET_MINUTE, offset_minute, "offset minute", -59, 59),
    RANGE(OFFSET_SECOND, offset_second, "offset second", -59, 59),
    RANGE(SECONDS, seconds, "seconds", -93599, 93599),
    RANGE(TIMESTAMP, timestamp, "timestamp", INT64_C(-31619087596800), INT64_C(31494784780799)),
};

/* Returns the status of a call that takes the component. */
static int32_t status_of(int32_t status, int64_t value)
{
    const uint32_t unsigned_value = value < 0 ? UINT32_MAX : (uint32_t)value;
    switch (status) {
    case FOTS_YEAR_OUT_OF_RANGE: return fots_date_from_calendar_date((int32_t)value, 1, 1).status;
    case FOTS_MONTH_OUT_OF_RANGE: return fots_date_from_calendar_date(2023, unsigned_value, 1).status;
    case FOTS_JULIAN_DAY_OUT_OF_RANGE: return fots_date_from_julian_day(value).status;
    case FOTS_HOUR_OUT_OF_RANGE: return fots_time_from_hms(unsigned_value, 0, 0).status;
    case FOTS_MINUTE_OUT_OF_RANGE: return fots_time_from_hms(0, unsigned_value, 0).status;
    case FOTS_SECOND_OUT_OF_RANGE: return fots_time_from_hms(0, 0, unsigned_value).status;
    case FOTS_MILLISECOND_OUT_OF_RANGE: return fots_time_from_hms_milli(0, 0, 0, unsigned_value).status;
    case FOTS_MICROSECOND_OUT_OF_RANGE: return fots_time_from_hms_micro(0, 0, 0, unsigned_value).status;
    case FOTS_NANOSECOND_OUT_OF_RANGE: return fots_time_from_hms_nano(0, 0, 0, unsigned_value).status;
    case FOTS_OFFSET_HOUR_OUT_OF_RANGE: return fots_offset_from_hms((int32_t)value, 0, 0).status;
    case FOTS_OFFSET_MINUTE_OUT_OF_RANGE: return fots_offset_from_hms(0, (int32_t)value, 0).status;
    case FOTS_OFFSET_SECOND_OUT_OF_RANGE: return fots_offset_from_hms(0, 0, (int32_t)value).status;
    case FOTS_SECONDS_OUT_OF_RANGE: return fots_offset_from_whole_seconds((int32_t)value).status;
    default: return fots_moment_from_unix_timestamp(value).status;
    }
}

static void says_range(const range *one, int64_t value)
{
    fots_components components;
    char expected[200];
    memset(&components, 0x55, sizeof components);
    memcpy((char *)&components + one->offset, &value, sizeof value);
    snprintf(expected, sizeof expected, "%s %lld is out of range %lld to %lld", one->name, (long long)value, (long long)one->min, (long long)one->max);
    says(fots_component_error_text(one->status, &components), expected);
}

/* A value in the range was rejected for another reason. */
static void says_no_range(const range *one, int64_t value)
{
    fots_components components;
    memset(&components, 0x55, sizeof components);
    memcpy((char *)&components + one->offset, &value, sizeof value);
    says(fots_component_error_text(one->status, &components), sentences[one->status]);
}

static void unconditional(void)
{
    for (int k = 0; k < COUNT(ranges); k++) {
        const range *one = &ranges[k];
        const int64_t ends[] = {one->min, one->max};
        says_range(one, one->min - 1);
        says_range(one, one->max + 1);
        says_range(one, INT64_MIN);
        says_range(one, INT64_MAX);
        for (int end = 0; end < 2; end++) {
            const int64_t outside = end ? ends[end] + 1 : ends[end] - 1;
            says_no_range(one, ends[end]);
            check(status_of(one->status, ends[end]) == FOTS_OK, one->name, ends[end], 0);
            check(status_of(one->status, outside) == one->status, one->name, outside, 0);
        }
    }
}

static fots_sentence of_day(int64_t year, int64_t month, int64_t day)
{
    fots_components components = {0};
    components.year = year;
    components.month = month;
    components.day = day;
    return fots_component_error_text(FOTS_DAY_OUT_OF_RANGE, &components);
}

static fots_sentence of_year(int32_t status, int64_t year, int64_t number)
{
    fots_components components = {0};
    components.year = year;
    components.ordinal = status == FOTS_ORDINAL_OUT_OF_RANGE ? number : 1;
    components.week = status == FOTS_WEEK_OUT_OF_RANGE ? number : 1;
    return fots_component_error_text(status, &components);
}

/* Tries a day of a month: a sentence has it if and only if the call rejects it. */
static void tries_day(int32_t year, uint32_t month, uint32_t days, const char *name)
{
    char expected[200];
    for (uint32_t day = 0; day < 34; day++) {
        const int32_t status = fots_date_from_calendar_date(year, month, day).status;
        snprintf(expected, sizeof expected, "day %u is out of range 1 to %u (%s %d)", (unsigned)day, (unsigned)days, name, (int)year);
        check((status == FOTS_OK) == (day >= 1 && day <= days), "a day of a month", year, day);
        says(of_day(year, month, day), status == FOTS_OK ? "day is out of range" : expected);
    }
}

static void conditional(void)
{
    static const char *const names[] = {"January", "February", "March", "April", "May", "June", "July", "August", "September", "October",
        "November", "December"};
    static const uint32_t days[] = {31, 28, 31, 30, 31, 30, 31, 31, 30, 31, 30, 31};
    fots_components none = {0};
    says(of_day(2023, 2, 29), "day 29 is out of range 1 to 28 (February 2023)");
    says(of_day(2024, 2, 30), "day 30 is out of range 1 to 29 (February 2024)");
    says(of_day(1900, 2, 29), "day 29 is out of range 1 to 28 (February 1900)");
    says(of_day(-1, 4, -5), "day -5 is out of range 1 to 30 (April -1)");
    says(of_day(-999999, 9, INT64_MIN), "day -9223372036854775808 is out of range 1 to 30 (September -999999)");
    for (uint32_t month = 1; month <= 12; month++) {
        tries_day(2023, month, days[month - 1], names[month - 1]);
        tries_day(2000, month, days[month - 1] + (month == 2), names[month - 1]);
    }
    /* Without a month or a year a day has no range. */
    says(of_day(2023, 0, 32), "day is out of range");
    says(of_day(2023, 13, 32), "day is out of range");
    says(of_day(1000000, 1, 32), "day is out of range");
    says(of_day(-1000000, 1, 32), "day is out of range");
    says(of_year(FOTS_ORDINAL_OUT_OF_RANGE, 2023, 366), "ordinal 366 is out of range 1 to 365 (2023)");
    says(of_year(FOTS_ORDINAL_OUT_OF_RANGE, 2024, 367), "ordinal 367 is out of range 1 to 366 (2024)");
    says(of_year(FOTS_ORDINAL_OUT_OF_RANGE, -44, 0), "ordinal 0 is out of range 1 to 366 (-44)");
    says(of_year(FOTS_ORDINAL_OUT_OF_RANGE, 2024, 366), "ordinal is out of range");
    says(of_year(FOTS_ORDINAL_OUT_OF_RANGE, 1000000, 367), "ordinal is out of range");
    says(of_year(FOTS_WEEK_OUT_OF_RANGE, 2023, 53), "week 53 is out of range 1 to 52 (2023)");
    says(of_year(FOTS_WEEK_OUT_OF_RANGE, 2020, 54), "week 54 is out of range 1 to 53 (2020)");
    says(of_year(FOTS_WEEK_OUT_OF_RANGE, 2020, 0), "week 0 is out of range 1 to 53 (2020)");
    says(of_year(FOTS_WEEK_OUT_OF_RANGE, 2020, 53), "week is out of range");
    says(of_year(FOTS_WEEK_OUT_OF_RANGE, -1000000, 54), "week is out of range");
    says(fots_component_error_text(FOTS_WEEKDAY_OUT_OF_RANGE, &none), "weekday is out of range");
    says(fots_component_error_text(FOTS_INVALID_DATE, &none), sentences[FOTS_INVALID_DATE]);
    says(fots_component_error_text(-1, &none), "unknown error");
}

/* ---- texts */

#define PARSED(name, type, parse) \
    static fots_sentence of_##name(const char *text) \
    { \
        const fots_parse_##type##_result parsed = parse(text, strlen(text)); \
        return fots_parse_error_text(parsed.status, parsed.position, text, strlen(text)); \
    }
PARSED(text, date, fots_date_parse)
PARSED(iso_date, date, fots_date_parse_iso)
PARSED(time, time, fots_time_parse)
PARSED(iso_time, time, fots_time_parse_iso)
PARSED(offset, offset, fots_offset_parse)
PARSED(pair, moment, fots_pair_parse)
PARSED(iso_pair, moment, fots_pair_parse_iso)
PARSED(moment, moment, fots_moment_parse)
PARSED(offset_date_time, moment, fots_offset_date_time_parse)
PARSED(iso_moment, moment, fots_moment_parse_iso)

static fots_sentence of_zone(const char *text)
{
    const fots_zone_parts_result parsed = fots_zone_posix_parts(text, strlen(text));
    return fots_parse_error_text(parsed.status, parsed.position, text, strlen(text));
}

static fots_sentence of_format(const char *text)
{
    const fots_format_result made = fots_format_new(text, strlen(text));
    return fots_parse_error_text(made.status, made.position, text, strlen(text));
}

static fots_sentence of_recurrence(const char *text)
{
    const fots_parse_recurrence_result parsed = fots_recurrence_parse(text, strlen(text));
    return fots_recurrence_error_text(parsed.status, parsed.part, parsed.position);
}

static void texts(void)
{
    static const struct row {
        fots_sentence (*of)(const char *text);
        const char *text;
        const char *sentence;
    } rows[] = {
        {of_text, "2023-02-2x", "unexpected \"x\" at position 9"},
        {of_text, "2023-02-2\x7f", "unexpected byte 0x7F at position 9"},
        {of_text, "2023-02-2~", "unexpected \"~\" at position 9"},
        {of_text, "2023 02-02", "unexpected \" \" at position 4"},
        {of_text, "2023\x1f", "unexpected byte 0x1F at position 4"},
        {of_text, "2024\xe2\x80\x93""02", "unexpected byte 0xE2 at position 4"},
        {of_text, "2023-02-2", "unexpected end at position 9"},
        {of_text, "", "unexpected end at position 0"},
        {of_text, "2023-13-01", "month 13 is out of range 1 to 12"},
        {of_text, "2023-02-29", "day 29 is out of range 1 to 28 (February 2023)"},
        {of_text, "+1000000-01-01", "year 1000000 is out of range -999999 to 999999"},
        {of_text, "-0001-366", "ordinal 366 is out of range 1 to 365 (-1)"},
        {of_text, "2023-W53-1", "week 53 is out of range 1 to 52 (2023)"},
        {of_iso_date, "20230229", "day 29 is out of range 1 to 28 (February 2023)"},
        {of_iso_date, "2023W53", "week 53 is out of range 1 to 52 (2023)"},
        {of_time, "9:60", "minute 60 is out of range 0 to 59"},
        {of_iso_time, "2460", "hour 24 is out of range 0 to 23"},
        {of_iso_time, "T235960,5", "second 60 is out of range 0 to 59"},
        {of_offset, "-26:00", "offset hour -26 is out of range -25 to 25"},
        {of_offset, "+01:60", "offset minute 60 is out of range -59 to 59"},
        {of_offset, "+01:00:99", "offset second 99 is out of range -59 to 59"},
        {of_pair, "2024-02-29 23:60", "minute 60 is out of range 0 to 59"},
        {of_iso_pair, "20240229T24", "hour 24 is out of range 0 to 23"},
        {of_moment, "2024-02-29T23:00:00+24:00", "offset hour 24 is out of range -23 to 23"},
        {of_moment, "2023-02-29T23:00:00.1234567890123Z", "day 29 is out of range 1 to 28 (February 2023)"},
        {of_offset_date_time, "2024-02-29T23:00:00 +26:00", "offset hour 26 is out of range -25 to 25"},
        {of_iso_moment, "20240229T2300-26", "offset hour -26 is out of range -25 to 25"},
        {of_zone, "CET", "invalid POSIX offset at position 3; expected an offset of at most 24 hours"},
        {of_zone, "CET-1CEST,M3.5.0,M10.5.0/3x", "trailing bytes at position 26; expected the end"},
        {of_format, "%d %Q", "unknown item \"%Q\" at position 3"},
        {of_format, "%F %-10!%d", "unknown item \"%-10!\" at position 3"},
        {of_format, "ab%", "unknown item \"%\" at position 2"},
        {of_format, "%\xC3\xA9", "unknown item at position 0"},
        {of_format, "a\xff", "unexpected byte 0xFF at position 1"},
        {of_recurrence, "FREQ=DAILY;X=1", "unknown part at position 11"},
        {of_recurrence, "FREQ=DAILY;UNTIL=20241231;COUNT=3", "duplicate COUNT at position 26"},
        {of_recurrence, "FREQ=DAILY;BYDAY=8MO", "invalid value of BYDAY at position 11"},
        {of_recurrence, "FREQ=HOURLX", "invalid value of FREQ at position 0"},
        {of_recurrence, "COUNT=3", "missing FREQ at position 7"},
    };
    for (int k = 0; k < COUNT(rows); k++) {
        says(rows[k].of(rows[k].text), rows[k].sentence);
    }
}

static void other_positions(void)
{
    static const char *const parts[] = {"FREQ", "INTERVAL", "WKST", "BYMONTH", "BYMONTHDAY", "BYDAY", "UNTIL", "COUNT", "BYSETPOS",
        "BYYEARDAY", "BYWEEKNO", "BYHOUR", "BYMINUTE", "BYSECOND"};
    char expected[200];
    says(fots_parse_error_text(FOTS_UNEXPECTED_BYTE, 1, "x", 1), "unexpected byte at position 1");
    says(fots_parse_error_text(FOTS_UNEXPECTED_BYTE, SIZE_MAX, "x", 1), "unexpected byte");
    says(fots_parse_error_text(FOTS_UNEXPECTED_END, SIZE_MAX - 1, "", 0), "unexpected end at position 18446744073709551614");
    says(fots_parse_error_text(FOTS_INVALID_LOCAL_TYPE, SIZE_MAX - 1, "", 0),
        "invalid local time type at position 18446744073709551614; expected an offset of at most 93599 seconds and a flag 0 or 1");
    says(fots_parse_error_text(FOTS_CONTRADICTION, FOTS_WEEKDAY_OUT_OF_RANGE, "x", 1), "weekday contradicts the other components");
    says(fots_parse_error_text(FOTS_CONTRADICTION, FOTS_OFFSET_HOUR_OUT_OF_RANGE, "x", 1), "offset hour contradicts the other components");
    says(fots_parse_error_text(FOTS_CONTRADICTION, FOTS_WEEKDAY_OUT_OF_RANGE + (UINT64_C(1) << 32), "x", 1),
        "a component contradicts the other components at position 4294967363");
    says(fots_parse_error_text(FOTS_CONTRADICTION, SIZE_MAX, "x", 1), "a component contradicts the other components");
    for (uint32_t k = 0; k < 14; k++) {
        snprintf(expected, sizeof expected, "duplicate %s at position %u", parts[k], (unsigned)k);
        says(fots_recurrence_error_text(FOTS_DUPLICATE_PART, k + 1, k), expected);
        snprintf(expected, sizeof expected, "too many values in %s", parts[k]);
        says(fots_recurrence_error_text(FOTS_TOO_MANY_VALUES, k + 1, SIZE_MAX), expected);
        snprintf(expected, sizeof expected, "invalid value of %s at position 18446744073709551614", parts[k]);
        says(fots_recurrence_error_text(FOTS_INVALID_VALUE, k + 1, SIZE_MAX - 1), expected);
    }
    says(fots_recurrence_error_text(FOTS_INVALID_VALUE, 15, 3), "invalid value at position 3");
    says(fots_recurrence_error_text(FOTS_DUPLICATE_PART, 0, 3), "duplicate part at position 3");
    says(fots_recurrence_error_text(FOTS_INVALID_DATE, 3, SIZE_MAX), sentences[FOTS_INVALID_DATE]);
}

/* ---- formats */

static void formats(void)
{
    static const struct row {
        const char *format;
        const char *sentence;
    } rows[] = {
        {"%y", "\"%y\" has no century: use %Y or a pivot"},
        {"%-d/%-m/%y", "\"%y\" has no century: use %Y or a pivot"},
        {"%I:%M %y", "\"%y\" has no century: use %Y or a pivot"},
        {"%I:%M", "\"%I\" has no half of the day: use %H or add %p"},
        {"%-I:%M", "\"%I\" has no half of the day: use %H or add %p"},
        {"%I:%M %p", "the texts of a format don't determine such a value"},
        {"%C%y", "the texts of a format don't determine such a value"},
        {"%H:%M", "the texts of a format don't determine such a value"},
        {"", "the texts of a format don't determine such a value"},
    };
    fots_format_result made;
    for (int k = 0; k < COUNT(rows); k++) {
        made = fots_format_new(rows[k].format, strlen(rows[k].format));
        check(made.status == FOTS_OK, rows[k].format, made.status, 0);
        says(fots_format_error_text(FOTS_INSUFFICIENT_FORMAT, SIZE_MAX, "x", 1, &made.format, FOTS_NO_PIVOT), rows[k].sentence);
        says(fots_format_error_text(FOTS_UNSUPPORTED_ITEM, SIZE_MAX, "x", 1, &made.format, FOTS_NO_PIVOT), sentences[FOTS_UNSUPPORTED_ITEM]);
        made.format.length = FOTS_MAX_ITEMS + 1;
        says(fots_format_error_text(FOTS_INSUFFICIENT_FORMAT, SIZE_MAX, "x", 1, &made.format, FOTS_NO_PIVOT), sentences[FOTS_INSUFFICIENT_FORMAT]);
    }
}

static const int32_t not_lenient = -2;

static fots_sentence of_date_by(const char *text, const fots_format *format, int32_t pivot)
{
    const size_t length = strlen(text);
    const fots_parse_date_result parsed =
        pivot == not_lenient ? fots_date_parse_format(text, length, format) : fots_date_parse_leniently(text, length, format, pivot);
    return fots_format_error_text(parsed.status, parsed.position, text, length, format, pivot);
}

static fots_sentence of_time_by(const char *text, const fots_format *format, int32_t pivot)
{
    const size_t length = strlen(text);
    const fots_parse_time_result parsed =
        pivot == not_lenient ? fots_time_parse_format(text, length, format) : fots_time_parse_leniently(text, length, format, pivot);
    return fots_format_error_text(parsed.status, parsed.position, text, length, format, pivot);
}

static fots_sentence of_moment_by(const char *text, const fots_format *format, int32_t pivot)
{
    const size_t length = strlen(text);
    const fots_parse_moment_result parsed =
        pivot == not_lenient ? fots_moment_parse_format(text, length, format) : fots_moment_parse_leniently(text, length, format, pivot);
    return fots_format_error_text(parsed.status, parsed.position, text, length, format, pivot);
}

static void strings_of_formats(void)
{
    static const struct row {
        fots_sentence (*of)(const char *text, const fots_format *format, int32_t pivot);
        const char *text;
        const char *format;
        int32_t pivot;
        const char *sentence;
    } rows[] = {
        {of_date_by, "30/02/2024", "%d/%m/%Y", -2, "day 30 is out of range 1 to 29 (February 2024)"},
        {of_date_by, "32/02/2024", "%d/%m/%Y", -2, "day 32 is out of range 1 to 29 (February 2024)"},
        {of_date_by, "00/02/2024", "%d/%m/%Y", -2, "day 0 is out of range 1 to 29 (February 2024)"},
        {of_date_by, "29/13/2024", "%d/%m/%Y", -2, "month 13 is out of range 1 to 12"},
        {of_date_by, "32/13/2024", "%d/%m/%Y", -2, "day is out of range"},
        {of_date_by, "29 February 2100", "%d %B %Y", -2, "day 29 is out of range 1 to 28 (February 2100)"},
        {of_date_by, "29/02/2100", "%d/%m/%C%y", -2, "day 29 is out of range 1 to 28 (February 2100)"},
        {of_date_by, "2023-366", "%Y-%j", -2, "ordinal 366 is out of range 1 to 365 (2023)"},
        {of_date_by, "2023-W53-1", "%G-W%V-%u", -2, "week 53 is out of range 1 to 52 (2023)"},
        {of_date_by, "2023-W52-8", "%G-W%V-%u", -2, "weekday 8 is out of range 1 to 7"},
        {of_date_by, "2024-02-29 7", "%F %w", -2, "weekday 7 is out of range 0 to 6"},
        {of_date_by, "2024-02-29 54", "%F %U", -2, "week 54 is out of range 0 to 53"},
        {of_date_by, "2024-02-29 54", "%F %W", -2, "week 54 is out of range 0 to 53"},
        {of_date_by, "2024-02-29 5", "%F %u", -2, "weekday contradicts the other components"},
        {of_date_by, "30/02/202x", "%d/%m/%Y", -2, "unexpected \"x\" at position 9"},
        {of_date_by, "29/02/23", "%d/%m/%y", -2, "\"%y\" has no century: use %Y or a pivot"},
        {of_date_by, "2/30/24", "%m/%d/%y", 1970, "day 30 is out of range 1 to 29 (February 2024)"},
        {of_date_by, "2/29/71", "%m/%d/%y", 1970, "day 29 is out of range 1 to 28 (February 1971)"},
        {of_date_by, "2/29/00", "%m/%d/%y", 2001, "day 29 is out of range 1 to 28 (February 2100)"},
        {of_date_by, "30 FEB 2024", "%d %B %Y", FOTS_NO_PIVOT, "day 30 is out of range 1 to 29 (February 2024)"},
        {of_time_by, "13:00 PM", "%I:%M %p", -2, "hour 13 is out of range 1 to 12"},
        {of_time_by, "0:00 AM", "%-I:%M %p", -2, "hour 0 is out of range 1 to 12"},
        {of_time_by, "25:00:00", "%T", -2, "hour 25 is out of range 0 to 23"},
        {of_time_by, "23:60:00", "%T", -2, "minute 60 is out of range 0 to 59"},
        {of_time_by, "23:59:60", "%T", -2, "second 60 is out of range 0 to 59"},
        {of_moment_by, "2024-02-29 23:00 -2600", "%F %R %z", -2, "offset hour -26 is out of range -25 to 25"},
        {of_moment_by, "2024-02-29 23:00 +0160", "%F %R %z", -2, "offset minute 60 is out of range -59 to 59"},
        {of_moment_by, "99999999999999", "%s", -2, "timestamp 99999999999999 is out of range -31619087596800 to 31494784780799"},
        {of_moment_by, "-99999999999999", "%s", -2, "timestamp -99999999999999 is out of range -31619087596800 to 31494784780799"},
    };
    for (int k = 0; k < COUNT(rows); k++) {
        const fots_format_result made = fots_format_new(rows[k].format, strlen(rows[k].format));
        check(made.status == FOTS_OK, rows[k].format, made.status, 0);
        says(rows[k].of(rows[k].text, &made.format, rows[k].pivot), rows[k].sentence);
    }
}

int main(void)
{
    statuses();
    unconditional();
    conditional();
    texts();
    other_positions();
    formats();
    strings_of_formats();
    return ended("errors");
}
