/* Dates, times of day, offsets from UTC, durations, moments, months, weekdays, working days, time
 * zones, recurrences and their texts, for C and C++. The calendar is the proleptic Gregorian one of
 * ISO 8601, with a year 0, from the year -999999 to 999999. fotsevindre(3) is the manual.
 *
 *   fots_date      a date, by its Julian day: -363521074 (-999999-01-01) to 366963559
 *                  (999999-12-31). The difference of two Julian days is the days between them.
 *   fots_time      a time of day, in nanoseconds since midnight: 0 to 86399999999999
 *   fots_offset    an offset from UTC, in seconds, positive to the east: -93599 to 93599
 *   fots_duration  a signed length of time: seconds, and nanoseconds with the same sign, from
 *                  -999999999 to 999999999. {-1, -500000000} is -1.5 s.
 *   fots_moment    a date and a time of day at an offset
 *   month          1 (January) to 12 (December)
 *   weekday        1 (Monday) to 7 (Sunday)
 *
 * The examples write values as text: 2000-02-29 for {2451604}, 1:00 for 3600000000000, +01:00 for
 * {3600}, 47 h for {169200, 0}.
 *
 * Most calls return a struct that starts with a status. The first invalid argument is reported as
 * FOTS_INVALID_DATE, FOTS_INVALID_TIME, FOTS_INVALID_OFFSET, FOTS_INVALID_DURATION,
 * FOTS_INVALID_WEEKDAY, FOTS_INVALID_MOMENT or FOTS_MONTH_OUT_OF_RANGE. Then come the errors that a
 * call lists, in their order. After an error each number is outside its type, such as FOTS_NO_VALUE
 * for a date, so that the next function rejects it. The manual lists the functions that accept every
 * number.
 *
 * No call allocates, keeps a pointer or has state, so any thread can make any call at any time,
 * unless one call writes an array that another call uses. Only calls with texts, formats, holidays,
 * working days, rules, zones or columns take pointers. None may be null, even for a length of 0.
 * The library runs on Linux, on processors with x86-64-v2 or ARM. */
#ifndef FOTSEVINDRE_H
#define FOTSEVINDRE_H

#include <stddef.h>
#include <stdint.h>

#ifdef __cplusplus
extern "C" {
#endif

/* The version of this header. fots_version() returns the version of the library. */
#define FOTS_VERSION "0.2.0"
#define FOTS_VERSION_MAJOR 0
#define FOTS_VERSION_MINOR 2
#define FOTS_VERSION_PATCH 0

/* Each is passed as its one number. They are structs so that the compiler keeps them distinct. */
typedef struct fots_date {
    int32_t julian_day;
} fots_date;

typedef uint64_t fots_time;

typedef struct fots_offset {
    int32_t seconds;
} fots_offset;

typedef struct fots_duration {
    int64_t seconds;
    int32_t nanoseconds;
    uint32_t unused; /* 0, so that equal durations have equal bytes */
} fots_duration;

/* How much later something is by the calendar and by the clock: no part is negative if another one
 * is positive. 12 months move a date like a year, and 7 days like a week. */
typedef struct fots_period {
    int32_t years;
    int32_t months;
    int32_t weeks;
    int32_t days;
    fots_duration duration;
} fots_period;

/* The days from `start` up to `end`, without `end`. There may be none. */
typedef struct fots_date_range {
    fots_date start;
    fots_date end;
} fots_date_range;

/* In this order the fields take 16 bytes. */
typedef struct fots_moment {
    fots_date date;
    fots_offset offset;
    fots_time time;
} fots_moment;

/* A weekday of a rule: every one if number is 0, else the n-th in the month, or in the year in a
 * yearly rule without months. A negative number counts from the end: {-1, 5} is the last Friday. */
typedef struct fots_rule_weekday {
    int8_t number;
    uint8_t weekday;
} fots_rule_weekday;

/* The maximum number of values of a list of a rule or a recurrence. */
#define FOTS_MAX_VALUES 62

/* A recurrence of RFC 5545 without its start. An empty list excludes no day. A list has as many
 * values as its length says, at most FOTS_MAX_VALUES, and then zeros. */
typedef struct fots_recurrence {
    uint32_t frequency; /* a fots_frequency */
    uint32_t interval;
    uint32_t week_start;
    fots_date until; /* the last day, or {FOTS_NO_VALUE} */
    uint32_t count; /* the number of times, or 0 */
    uint32_t months_length;
    uint32_t weeks_length;
    uint32_t year_days_length;
    uint32_t month_days_length;
    uint32_t weekdays_length;
    uint32_t set_positions_length;
    uint8_t months[FOTS_MAX_VALUES];
    int8_t weeks[FOTS_MAX_VALUES];
    int16_t year_days[FOTS_MAX_VALUES];
    int8_t month_days[FOTS_MAX_VALUES];
    fots_rule_weekday weekdays[FOTS_MAX_VALUES];
    int16_t set_positions[FOTS_MAX_VALUES];
    uint16_t unused; /* 0, so that equal recurrences have equal bytes */
} fots_recurrence;

/* How far a recurrence is counted, for its next page. Any numbers are valid: if the date or the time
 * isn't, nothing is counted. So a cursor of another recurrence can give other values, but nothing
 * worse. */
typedef struct fots_recurrence_cursor {
    fots_date date; /* the last day that is counted, or the date of the last reading; or {FOTS_NO_VALUE} */
    uint32_t left; /* the maximum number of days or readings after it */
    fots_time time; /* the time of the last reading, or 0 */
} fots_recurrence_cursor;

/* The maximum number of holidays, and of the dates and the exceptions of a rule or a set. */
#define FOTS_MAX_HOLIDAYS 1024
#define FOTS_MAX_DATES 1024

/* Working days, which fots_workdays_new fills. After a change by hand results can be wrong, but no
 * call reads past the struct. */
typedef struct fots_workdays {
    uint32_t weekmask;
    uint32_t holidays_length;
    fots_date holidays[FOTS_MAX_HOLIDAYS]; /* in ascending order, then zeros */
    uint32_t marked_before[1025]; /* the holidays before each index that are days of the weekmask, then 0 */
} fots_workdays;

/* Working days with any number of holidays, which stay in the caller's memory. fots_workdays_view_count
 * fills the second array. After another change results can be wrong, but no function reads past the
 * arrays. */
typedef struct fots_workdays_view {
    uint32_t weekmask;
    uint32_t unused; /* 0 */
    const fots_date *holidays; /* in ascending order */
    size_t holidays_length;
    const uint32_t *marked_before; /* as above */
    size_t marked_before_length; /* holidays_length + 1 */
} fots_workdays_view;

/* The maximum number of items of a format, and the bytes that the text of each takes at most. */
#define FOTS_MAX_ITEMS 64
#define FOTS_MAX_ITEM_LENGTH 15

/* An item of a format, by its kind and a number, as fots_format_new makes it. */
typedef struct fots_format_item {
    uint8_t kind;
    uint8_t value;
} fots_format_item;

/* A format of texts: as many items as its length says. */
typedef struct fots_format {
    uint32_t length;
    fots_format_item items[FOTS_MAX_ITEMS];
} fots_format;

/* The maximum length of a name, in bytes. */
#define FOTS_MAX_NAME_LENGTH 127

/* A name in UTF-8. It may be empty. */
typedef struct fots_name {
    const char *text;
    size_t text_length;
} fots_name;

/* The names of a language: months from January on, weekdays from Monday on, and AM before PM. */
typedef struct fots_language_names {
    fots_name months[12]; /* beside a day: "stycznia" in Polish */
    fots_name months_alone[12]; /* without a day: "styczeń", for "%OB" */
    fots_name short_months[12];
    fots_name weekdays[7];
    fots_name short_weekdays[7];
    fots_name periods[2];
    fots_name lower_periods[2];
} fots_language_names;

#define FOTS_MIN_JULIAN_DAY (-363521074)
#define FOTS_MAX_JULIAN_DAY 366963559
#define FOTS_MIN_YEAR (-999999)
#define FOTS_MAX_YEAR 999999
#define FOTS_MAX_TIME UINT64_C(86399999999999)
#define FOTS_MAX_OFFSET_SECONDS 93599

/* Numbers after an error: for dates, offsets and years; for unsigned components; for times. */
#define FOTS_NO_VALUE INT32_MIN
#define FOTS_NO_COMPONENT UINT32_C(2147483648)
#define FOTS_NO_TIME UINT64_MAX

/* The status of a function. FOTS_YEAR_OUT_OF_RANGE to FOTS_TIMESTAMP_OUT_OF_RANGE and
 * FOTS_DAY_OUT_OF_RANGE to FOTS_WEEKDAY_OUT_OF_RANGE name a component that is out of range; the
 * range of the latter depends on other components. FOTS_YEARS_OUT_OF_RANGE to
 * FOTS_MINUTES_OUT_OF_RANGE name a part of a text of a duration. */
enum fots_status {
    FOTS_OK = 0,
    FOTS_RESULT_OUT_OF_RANGE = 1, /* the result is out of range, or does not exist */
    FOTS_INVALID_DATE = 2, /* expected a Julian day from -363521074 to 366963559 */
    FOTS_INVALID_TIME = 3, /* expected 0 to 86399999999999 nanoseconds since midnight */
    FOTS_INVALID_OFFSET = 4, /* expected -93599 to 93599 seconds */
    FOTS_INVALID_DURATION = 5, /* expected -999999999 to 999999999 ns, signed like the seconds */
    FOTS_INVALID_WEEKDAY = 6, /* expected 1 (Monday) to 7 (Sunday) */
    FOTS_INVALID_COUNT = 7, /* expected n from 0 to 255 */
    FOTS_UNEXPECTED_BYTE = 8, /* unexpected byte in the text: no text of the form has it there */
    FOTS_INVALID_MOMENT = 9, /* expected a valid date, time and offset */
    FOTS_INVALID_FREQUENCY = 10, /* expected 1 (daily) to 4 (yearly) */
    FOTS_TOO_MANY_PARTS = 11, /* too many values in a list of a rule; expected at most 62 */
    FOTS_INVALID_CONVENTION = 12, /* expected 0 to 4, or 1 to 5 for a count of days */
    FOTS_INVALID_WEEKMASK = 13, /* expected 0 to 127, with a bit for each weekday */
    FOTS_INVALID_HOLIDAYS = 14, /* holidays must be in ascending order, without duplicates */
    FOTS_TOO_MANY_HOLIDAYS = 15, /* too many holidays; expected at most 1024 */
    FOTS_YEAR_OUT_OF_RANGE = 16,
    FOTS_MONTH_OUT_OF_RANGE = 17,
    FOTS_JULIAN_DAY_OUT_OF_RANGE = 18,
    FOTS_HOUR_OUT_OF_RANGE = 19,
    FOTS_MINUTE_OUT_OF_RANGE = 20,
    FOTS_SECOND_OUT_OF_RANGE = 21,
    FOTS_MILLISECOND_OUT_OF_RANGE = 22,
    FOTS_MICROSECOND_OUT_OF_RANGE = 23,
    FOTS_NANOSECOND_OUT_OF_RANGE = 24,
    FOTS_OFFSET_HOUR_OUT_OF_RANGE = 25,
    FOTS_OFFSET_MINUTE_OUT_OF_RANGE = 26,
    FOTS_OFFSET_SECOND_OUT_OF_RANGE = 27,
    FOTS_SECONDS_OUT_OF_RANGE = 28,
    FOTS_TIMESTAMP_OUT_OF_RANGE = 29, /* no date in the range has the Unix time */
    FOTS_INVALID_BOUNDS = 30, /* expected ascending positions in the texts */
    FOTS_UNEXPECTED_END = 31, /* unexpected end of the text: more bytes could complete it */
    FOTS_UNKNOWN_PART = 32, /* a part of the text of a recurrence has another name */
    FOTS_DUPLICATE_PART = 33, /* a part is there twice, or is a second end */
    FOTS_TOO_MANY_VALUES = 34, /* a part has more than 62 values */
    FOTS_INVALID_VALUE = 35, /* a part has an invalid value */
    FOTS_MISSING_FREQUENCY = 36, /* FREQ is missing in a recurrence */
    FOTS_INVALID_FORMAT = 37, /* a fots_format has other numbers than a call makes */
    FOTS_UNKNOWN_ITEM = 38, /* no item begins at a position of the text of a format */
    FOTS_TOO_MANY_ITEMS = 39, /* a format has more than 64 items */
    FOTS_UNSUPPORTED_ITEM = 40, /* a format shows something that the value doesn't have */
    FOTS_INSUFFICIENT_FORMAT = 41, /* the texts of a format don't determine such a value */
    FOTS_BUFFER_TOO_SHORT = 42, /* a buffer has no room for the text */
    FOTS_CONTRADICTION = 43, /* a component of a text isn't that of the value, as a weekday */
    FOTS_TOO_MANY_DATES = 44, /* too many dates or exceptions of a rule; expected at most 1024 */
    FOTS_INVALID_ZONE = 45, /* a fots_zone has other numbers than a call makes */
    FOTS_INVALID_POLICY = 46, /* expected 0 (compatible) to 3 (reject) */
    FOTS_SKIPPED_TIME = 47, /* the clocks of a zone skip the date and time */
    FOTS_REPEATED_TIME = 48, /* the clocks of a zone show the date and time twice */
    FOTS_NOT_A_ZONE_FILE = 49, /* a file does not begin with TZif */
    FOTS_UNSUPPORTED_VERSION = 50, /* the version of a file is not 2, 3 or 4 */
    FOTS_LEAP_SECONDS = 51, /* a file has leap seconds */
    FOTS_MISSING_LOCAL_TYPE = 52, /* a file has no local time type */
    FOTS_INVALID_TYPE_INDEX = 53, /* a change has the index of a type that does not exist */
    FOTS_INVALID_LOCAL_TYPE = 54, /* the offset or the daylight flag of a type is out of range */
    FOTS_INVALID_ABBREVIATION = 55, /* an abbreviation is missing, too short or not ASCII */
    FOTS_CHANGES_OUT_OF_ORDER = 56, /* changes do not rise, or are outside -2^60 to 2^60 */
    FOTS_OVERLAPPING_CHANGES = 57, /* the gaps or folds of two changes overlap */
    FOTS_MISSING_NEWLINE = 58, /* a footer is not between two newlines at the end */
    FOTS_INVALID_POSIX_OFFSET = 59, /* a POSIX text has no offset of at most 24 hours */
    FOTS_INVALID_RULE_DAY = 60, /* a POSIX text has no day such as M3.5.0 */
    FOTS_INVALID_RULE_TIME = 61, /* a POSIX text has no time of at most 167 hours */
    FOTS_MONTHS_TOO_CLOSE = 62, /* the months of a POSIX text are the same or neighbours */
    FOTS_TRAILING_BYTES = 63, /* a POSIX text has bytes after its end */
    FOTS_DAY_OUT_OF_RANGE = 64,
    FOTS_ORDINAL_OUT_OF_RANGE = 65,
    FOTS_WEEK_OUT_OF_RANGE = 66,
    FOTS_WEEKDAY_OUT_OF_RANGE = 67,
    FOTS_INVALID_PERIOD = 68, /* expected parts of one sign and a valid duration */
    FOTS_PERIOD_HAS_DURATION = 69, /* a date has no time of day, so a period of it has no duration */
    FOTS_WRONG_OFFSET = 70, /* the offset of the moment isn't that of the zone at its instant */
    FOTS_INVALID_UNIT = 71, /* expected 1 (day) to 5 (year) */
    FOTS_INVALID_RANGE = 72, /* expected two dates, and no end before the start */
    FOTS_INVALID_ROUNDING_UNIT = 73, /* expected a positive duration, which divides 24 h for times of day */
    FOTS_INVALID_ROUNDING_MODE = 74, /* expected 0 (floor) to 4 (half even) */
    FOTS_YEARS_OUT_OF_RANGE = 75,
    FOTS_MONTHS_OUT_OF_RANGE = 76,
    FOTS_WEEKS_OUT_OF_RANGE = 77,
    FOTS_DAYS_OUT_OF_RANGE = 78,
    FOTS_HOURS_OUT_OF_RANGE = 79,
    FOTS_MINUTES_OUT_OF_RANGE = 80,
    FOTS_END_BEFORE_START = 81, /* the end of the interval is before its start */
    FOTS_MISSING_START = 82, /* expected the start of the interval to repeat */
    FOTS_PERIOD_NOT_POSITIVE = 83, /* expected a positive period to repeat */
    FOTS_COUNT_OUT_OF_RANGE = 84, /* expected 1 to 4294967295 repetitions */
    FOTS_INVALID_CALENDAR = 85, /* expected 0 (TARGET) to 19 (Thuringia) */
    FOTS_UNCLOSED_EVENT = 86, /* no line END ends an event of a calendar file */
    FOTS_OTHER_END = 87, /* a line END that isn't END:VEVENT ends an event */
    FOTS_OTHER_ZONE = 88, /* a line names another zone than a line before it, or two (TZID) */
    FOTS_WRONG_KIND = 89, /* a line of an event has a value of another kind, such as a time with Z */
    FOTS_INVALID_HOLIDAY_RULE = 90, /* a word of a rule of a holiday isn't a day, years or a move */
    FOTS_INVALID_NAMES = 91, /* a name isn't UTF-8 of at most 127 bytes */
    FOTS_UNKNOWN_LANGUAGE = 92, /* expected ar, de, en, es, fr, it, ja, pl, pt, ru, tr or zh */
    FOTS_AMBIGUOUS_NAMES = 93, /* a name in a format can be read as another name */
    FOTS_AMBIGUOUS_NUMBER = 94 /* a number in a format goes on with what comes after it */
};

/* Returns the name of a status: the component, such as "day", or words such as "result out of
 * range"; "unknown" for other numbers. */
static inline const char *fots_status_name(int32_t status)
{
    switch (status) {
    case FOTS_OK: return "ok";
    case FOTS_RESULT_OUT_OF_RANGE: return "result out of range";
    case FOTS_INVALID_DATE: return "invalid date";
    case FOTS_INVALID_TIME: return "invalid time";
    case FOTS_INVALID_OFFSET: return "invalid offset";
    case FOTS_INVALID_DURATION: return "invalid duration";
    case FOTS_INVALID_WEEKDAY: return "invalid weekday";
    case FOTS_INVALID_COUNT: return "invalid count";
    case FOTS_UNEXPECTED_BYTE: return "unexpected byte";
    case FOTS_INVALID_MOMENT: return "invalid moment";
    case FOTS_INVALID_FREQUENCY: return "invalid frequency";
    case FOTS_TOO_MANY_PARTS: return "too many parts";
    case FOTS_INVALID_CONVENTION: return "invalid convention";
    case FOTS_INVALID_WEEKMASK: return "invalid weekmask";
    case FOTS_INVALID_HOLIDAYS: return "invalid holidays";
    case FOTS_TOO_MANY_HOLIDAYS: return "too many holidays";
    case FOTS_YEAR_OUT_OF_RANGE: return "year";
    case FOTS_MONTH_OUT_OF_RANGE: return "month";
    case FOTS_JULIAN_DAY_OUT_OF_RANGE: return "julian_day";
    case FOTS_HOUR_OUT_OF_RANGE: return "hour";
    case FOTS_MINUTE_OUT_OF_RANGE: return "minute";
    case FOTS_SECOND_OUT_OF_RANGE: return "second";
    case FOTS_MILLISECOND_OUT_OF_RANGE: return "millisecond";
    case FOTS_MICROSECOND_OUT_OF_RANGE: return "microsecond";
    case FOTS_NANOSECOND_OUT_OF_RANGE: return "nanosecond";
    case FOTS_OFFSET_HOUR_OUT_OF_RANGE: return "offset hour";
    case FOTS_OFFSET_MINUTE_OUT_OF_RANGE: return "offset minute";
    case FOTS_OFFSET_SECOND_OUT_OF_RANGE: return "offset second";
    case FOTS_SECONDS_OUT_OF_RANGE: return "seconds";
    case FOTS_TIMESTAMP_OUT_OF_RANGE: return "timestamp";
    case FOTS_INVALID_BOUNDS: return "invalid bounds";
    case FOTS_UNEXPECTED_END: return "unexpected end";
    case FOTS_UNKNOWN_PART: return "unknown part";
    case FOTS_DUPLICATE_PART: return "duplicate part";
    case FOTS_TOO_MANY_VALUES: return "too many values";
    case FOTS_INVALID_VALUE: return "invalid value";
    case FOTS_MISSING_FREQUENCY: return "missing FREQ";
    case FOTS_INVALID_FORMAT: return "invalid format";
    case FOTS_UNKNOWN_ITEM: return "unknown item";
    case FOTS_TOO_MANY_ITEMS: return "too many items";
    case FOTS_UNSUPPORTED_ITEM: return "unsupported item";
    case FOTS_INSUFFICIENT_FORMAT: return "insufficient format";
    case FOTS_BUFFER_TOO_SHORT: return "buffer too short";
    case FOTS_CONTRADICTION: return "contradiction";
    case FOTS_TOO_MANY_DATES: return "too many dates";
    case FOTS_INVALID_ZONE: return "invalid zone";
    case FOTS_INVALID_POLICY: return "invalid policy";
    case FOTS_SKIPPED_TIME: return "skipped time";
    case FOTS_REPEATED_TIME: return "repeated time";
    case FOTS_NOT_A_ZONE_FILE: return "not a zone file";
    case FOTS_UNSUPPORTED_VERSION: return "unsupported version";
    case FOTS_LEAP_SECONDS: return "leap seconds";
    case FOTS_MISSING_LOCAL_TYPE: return "missing local time type";
    case FOTS_INVALID_TYPE_INDEX: return "invalid type index";
    case FOTS_INVALID_LOCAL_TYPE: return "invalid local time type";
    case FOTS_INVALID_ABBREVIATION: return "invalid abbreviation";
    case FOTS_CHANGES_OUT_OF_ORDER: return "changes out of order";
    case FOTS_OVERLAPPING_CHANGES: return "overlapping changes";
    case FOTS_MISSING_NEWLINE: return "missing newline";
    case FOTS_INVALID_POSIX_OFFSET: return "invalid POSIX offset";
    case FOTS_INVALID_RULE_DAY: return "invalid day of a rule";
    case FOTS_INVALID_RULE_TIME: return "invalid time of a rule";
    case FOTS_MONTHS_TOO_CLOSE: return "months of a rule too close";
    case FOTS_TRAILING_BYTES: return "trailing bytes";
    case FOTS_DAY_OUT_OF_RANGE: return "day";
    case FOTS_ORDINAL_OUT_OF_RANGE: return "ordinal";
    case FOTS_WEEK_OUT_OF_RANGE: return "week";
    case FOTS_WEEKDAY_OUT_OF_RANGE: return "weekday";
    case FOTS_INVALID_PERIOD: return "invalid period";
    case FOTS_PERIOD_HAS_DURATION: return "period has a duration";
    case FOTS_WRONG_OFFSET: return "wrong offset";
    case FOTS_INVALID_UNIT: return "invalid unit";
    case FOTS_INVALID_RANGE: return "invalid range";
    case FOTS_INVALID_ROUNDING_UNIT: return "invalid rounding unit";
    case FOTS_INVALID_ROUNDING_MODE: return "invalid rounding mode";
    case FOTS_YEARS_OUT_OF_RANGE: return "years";
    case FOTS_MONTHS_OUT_OF_RANGE: return "months";
    case FOTS_WEEKS_OUT_OF_RANGE: return "weeks";
    case FOTS_DAYS_OUT_OF_RANGE: return "days";
    case FOTS_HOURS_OUT_OF_RANGE: return "hours";
    case FOTS_MINUTES_OUT_OF_RANGE: return "minutes";
    case FOTS_END_BEFORE_START: return "end before start";
    case FOTS_MISSING_START: return "missing start";
    case FOTS_PERIOD_NOT_POSITIVE: return "period not positive";
    case FOTS_COUNT_OUT_OF_RANGE: return "count out of range";
    case FOTS_INVALID_CALENDAR: return "invalid calendar";
    case FOTS_UNCLOSED_EVENT: return "unclosed event";
    case FOTS_OTHER_END: return "other end of an event";
    case FOTS_OTHER_ZONE: return "other zone";
    case FOTS_WRONG_KIND: return "wrong kind of value";
    case FOTS_INVALID_HOLIDAY_RULE: return "invalid rule of a holiday";
    case FOTS_INVALID_NAMES: return "invalid names";
    case FOTS_UNKNOWN_LANGUAGE: return "unknown language";
    case FOTS_AMBIGUOUS_NAMES: return "ambiguous names";
    case FOTS_AMBIGUOUS_NUMBER: return "ambiguous number";
    default: return "unknown";
    }
}

/* Returns 1 if the range of the component depends on other components, as for
 * FOTS_DAY_OUT_OF_RANGE, else 0. */
static inline int fots_status_is_conditional(int32_t status)
{
    return status >= FOTS_DAY_OUT_OF_RANGE && status <= FOTS_WEEKDAY_OUT_OF_RANGE;
}

/* A sentence in ASCII, which ends with a zero byte. */
typedef struct fots_sentence {
    uint32_t length; /* without the zero byte */
    char bytes[220];
} fots_sentence;

/* The components of a value: set those that you passed. */
typedef struct fots_components {
    int64_t year;
    int64_t month;
    int64_t day;
    int64_t ordinal;
    int64_t week;
    int64_t julian_day;
    int64_t hour;
    int64_t minute;
    int64_t second;
    int64_t millisecond;
    int64_t microsecond;
    int64_t nanosecond;
    int64_t offset_hour;
    int64_t offset_minute;
    int64_t offset_second;
    int64_t seconds; /* of a whole offset */
    int64_t timestamp;
} fots_components;

/* ---- results, each with the value after an error */

typedef struct fots_date_result {
    int32_t status;
    fots_date date; /* or {FOTS_NO_VALUE} */
} fots_date_result;

/* An unsigned component of a value, such as a month. */
typedef struct fots_component_result {
    int32_t status;
    uint32_t number; /* or FOTS_NO_COMPONENT */
} fots_component_result;

/* A year, a component of an offset or a duration, or a sign. */
typedef struct fots_number_result {
    int32_t status;
    int32_t number; /* or FOTS_NO_VALUE */
} fots_number_result;

typedef struct fots_int64_result {
    int32_t status;
    uint32_t unused; /* 0 */
    int64_t number; /* or INT64_MIN, which is also a valid number of whole seconds */
} fots_int64_result;

typedef struct fots_calendar_date_result {
    int32_t status;
    int32_t year; /* or FOTS_NO_VALUE */
    uint32_t month; /* or 0 */
    uint32_t day; /* or 0 */
} fots_calendar_date_result;

typedef struct fots_ordinal_date_result {
    int32_t status;
    int32_t year; /* or FOTS_NO_VALUE */
    uint32_t ordinal; /* or 0 */
} fots_ordinal_date_result;

typedef struct fots_iso_week_date_result {
    int32_t status;
    int32_t year; /* or FOTS_NO_VALUE */
    uint32_t week; /* or 0 */
    uint32_t weekday; /* or 0 */
} fots_iso_week_date_result;

typedef struct fots_time_result {
    int32_t status;
    uint32_t unused; /* 0 */
    fots_time time; /* or FOTS_NO_TIME */
} fots_time_result;

typedef struct fots_adjusted_time_result {
    int32_t status;
    int32_t carry; /* -1, 0 or 1; or FOTS_NO_VALUE */
    fots_time time; /* or FOTS_NO_TIME */
} fots_adjusted_time_result;

typedef struct fots_hms_nano_result {
    int32_t status;
    uint32_t hour; /* or UINT32_MAX, as for the next fields */
    uint32_t minute;
    uint32_t second;
    uint32_t nanosecond;
} fots_hms_nano_result;

typedef struct fots_offset_result {
    int32_t status;
    fots_offset offset; /* or {FOTS_NO_VALUE} */
} fots_offset_result;

typedef struct fots_offset_hms_result {
    int32_t status;
    int32_t hours; /* or FOTS_NO_VALUE, as for the next fields */
    int32_t minutes;
    int32_t seconds;
} fots_offset_hms_result;

typedef struct fots_duration_result {
    int32_t status;
    uint32_t unused; /* 0 */
    fots_duration duration; /* or {INT64_MIN, FOTS_NO_VALUE} */
} fots_duration_result;

typedef struct fots_pair_result {
    int32_t status;
    fots_date date; /* or {FOTS_NO_VALUE} */
    fots_time time; /* or FOTS_NO_TIME */
} fots_pair_result;

typedef struct fots_moment_result {
    int32_t status;
    uint32_t unused; /* 0 */
    fots_moment moment; /* or {{FOTS_NO_VALUE}, {FOTS_NO_VALUE}, FOTS_NO_TIME} */
} fots_moment_result;

typedef struct fots_text_result {
    int32_t status;
    uint32_t length; /* in bytes, or 0 */
    char bytes[40]; /* ASCII, then zero bytes */
} fots_text_result;

/* The position of an error: the first wrong byte, from 0, for FOTS_UNEXPECTED_BYTE; the length for
 * FOTS_UNEXPECTED_END; the status of the component, such as FOTS_WEEKDAY_OUT_OF_RANGE, for
 * FOTS_CONTRADICTION; else SIZE_MAX. */
typedef struct fots_parse_date_result {
    int32_t status;
    fots_date date; /* or {FOTS_NO_VALUE} */
    size_t position;
} fots_parse_date_result;

typedef struct fots_parse_moment_result {
    int32_t status;
    fots_date date; /* or {FOTS_NO_VALUE} */
    fots_time time; /* or FOTS_NO_TIME */
    fots_offset offset; /* or {FOTS_NO_VALUE} */
    uint32_t unused; /* 0 */
    size_t position; /* as above */
} fots_parse_moment_result;

typedef struct fots_parse_time_result {
    int32_t status;
    uint32_t unused; /* 0 */
    fots_time time; /* or FOTS_NO_TIME */
    size_t position; /* as above */
} fots_parse_time_result;

typedef struct fots_parse_offset_result {
    int32_t status;
    fots_offset offset; /* or {FOTS_NO_VALUE} */
    size_t position; /* as above */
} fots_parse_offset_result;

typedef struct fots_parse_duration_result {
    int32_t status;
    uint32_t unused; /* 0 */
    fots_duration duration; /* or {INT64_MIN, FOTS_NO_VALUE} */
    size_t position; /* as above */
} fots_parse_duration_result;

typedef struct fots_parse_period_result {
    int32_t status;
    uint32_t unused; /* 0 */
    fots_period period; /* or the minimum for each part */
    size_t position; /* as above */
} fots_parse_period_result;

/* A text of a period, which ends with a zero byte. */
typedef struct fots_period_text_result {
    int32_t status;
    uint32_t length; /* without the zero byte, or 0 after an error */
    char bytes[88];
} fots_period_text_result;

typedef struct fots_format_result {
    int32_t status;
    fots_format format; /* or one that calls reject */
    size_t position; /* of the fault, or SIZE_MAX */
} fots_format_result;

/* The first item of a format that can be read in two ways with names. */
typedef struct fots_names_check_result {
    int32_t status;
    uint32_t byte; /* with which the number goes on, or 0 */
    size_t item; /* its index, or SIZE_MAX */
    size_t name; /* the index of its name in the array of the names, or SIZE_MAX */
    size_t other; /* the index of the other name, or SIZE_MAX */
} fots_names_check_result;

typedef struct fots_length_result {
    int32_t status;
    uint32_t unused; /* 0 */
    size_t length; /* in bytes; also for FOTS_BUFFER_TOO_SHORT, else 0 after an error */
} fots_length_result;

/* Years, months, weeks and days, all positive or 0, or all negative or 0. */
typedef struct fots_period_result {
    int32_t status;
    int32_t years; /* or FOTS_NO_VALUE, as for the next fields */
    int32_t months;
    int32_t weeks;
    int32_t days;
} fots_period_result;

/* A period with its duration. After an error each part is the minimum of its type. */
typedef struct fots_exact_period_result {
    int32_t status;
    uint32_t unused; /* 0 */
    fots_period period;
} fots_exact_period_result;

/* The number of dates that were written. */
typedef struct fots_days_result {
    int32_t status;
    uint32_t unused; /* 0 */
    size_t length; /* or 0 */
} fots_days_result;

/* The number of values that were written. After an error of the text, part is a fots_rule_part, or 0
 * for FOTS_UNKNOWN_PART and FOTS_MISSING_FREQUENCY, and position is its start, from 0, or the
 * length for FOTS_MISSING_FREQUENCY. Else they are 0 and SIZE_MAX. */
typedef struct fots_recurrence_result {
    int32_t status;
    uint32_t part;
    size_t length; /* or 0 */
    size_t position;
} fots_recurrence_result;

typedef struct fots_recurrence_cursor_result {
    int32_t status;
    uint32_t part; /* this and position as above */
    size_t position;
    fots_recurrence_cursor cursor; /* or {{FOTS_NO_VALUE}, 0, 0} */
} fots_recurrence_cursor_result;

typedef struct fots_parse_recurrence_result {
    int32_t status;
    uint32_t part; /* this and position as above */
    size_t position;
    fots_recurrence recurrence; /* or zeros, with {FOTS_NO_VALUE} for until */
    uint32_t unused; /* 0 */
} fots_parse_recurrence_result;

typedef struct fots_recurrence_text_result {
    int32_t status;
    uint32_t part; /* this and position as above */
    size_t position;
    uint32_t length; /* in bytes, or 0 */
    char bytes[4064]; /* ASCII, then zero bytes */
    uint32_t unused; /* 0 */
} fots_recurrence_text_result;

/* Where the lines of an event are in a text. For FOTS_UNCLOSED_EVENT, position is the start of its
 * BEGIN:VEVENT, and for FOTS_OTHER_END the start of the wrong END. After each error next is SIZE_MAX
 * and length 0, and position is SIZE_MAX for FOTS_RESULT_OUT_OF_RANGE. */
typedef struct fots_event_result {
    int32_t status;
    uint32_t unused; /* 0 */
    size_t position; /* of the first line after BEGIN:VEVENT */
    size_t length; /* of the lines before END:VEVENT, in bytes */
    size_t next; /* the position after END:VEVENT and its line break */
} fots_event_result;

/* The number of values or bytes that were written. For an invalid line of an event, line is a
 * fots_event_line, or 0 for FOTS_MISSING_START. position is the start of the line, or the length of
 * the lines for FOTS_MISSING_START, or else SIZE_MAX, as it is for FOTS_WRONG_KIND. */
typedef struct fots_event_set_result {
    int32_t status;
    uint32_t line; /* or 0 */
    size_t length; /* or 0 */
    size_t position;
} fots_event_set_result;

typedef struct fots_event_start_result {
    int32_t status;
    uint32_t line; /* this and position as above */
    size_t position;
    fots_moment start; /* at the offset 0, or an invalid moment */
    uint32_t kind; /* a fots_event_kind, or 0 */
    uint32_t unused; /* 0 */
} fots_event_start_result;

typedef struct fots_workdays_result {
    int32_t status;
    fots_workdays workdays; /* or one that every call rejects as FOTS_INVALID_WEEKMASK */
} fots_workdays_result;

typedef struct fots_holidays_result {
    int32_t status;
    int32_t number; /* of holidays */
    size_t position; /* of the wrong word, or SIZE_MAX */
} fots_holidays_result;

typedef struct fots_year_fraction_result {
    int32_t status;
    uint32_t denominator; /* or 0 */
    int64_t numerator; /* or INT64_MIN */
} fots_year_fraction_result;

typedef struct fots_date_range_result {
    int32_t status;
    fots_date_range range; /* or {{FOTS_NO_VALUE}, {FOTS_NO_VALUE}} */
} fots_date_range_result;

typedef struct fots_parse_date_range_result {
    int32_t status;
    fots_date_range range; /* as above */
    uint32_t unused; /* 0 */
    size_t position; /* as for a date */
} fots_parse_date_range_result;

typedef struct fots_parse_pair_range_result {
    int32_t status;
    fots_date start_date; /* or {FOTS_NO_VALUE}, as the end */
    fots_time start_time; /* or FOTS_NO_TIME, as the end */
    fots_time end_time;
    fots_date end_date;
    uint32_t unused; /* 0 */
    size_t position; /* as for a date */
} fots_parse_pair_range_result;

typedef struct fots_parse_repeated_dates_result {
    int32_t status;
    fots_date start; /* or {FOTS_NO_VALUE} */
    uint32_t count; /* of occurrences with the start, or 0 without an end */
    uint32_t unused; /* 0 */
    fots_period period;
    size_t position; /* as for a date */
} fots_parse_repeated_dates_result;

typedef struct fots_parse_repeated_pairs_result {
    int32_t status;
    fots_date start_date; /* or {FOTS_NO_VALUE} */
    fots_time start_time; /* or FOTS_NO_TIME */
    uint32_t count; /* as above */
    uint32_t unused; /* 0 */
    fots_period period;
    size_t position; /* as for a date */
} fots_parse_repeated_pairs_result;

typedef struct fots_share_result {
    int32_t status;
    uint32_t common; /* the days in both ranges, or 0 */
    uint32_t days; /* the days of the first range, or 0 */
} fots_share_result;

/* ---- version */

/* Returns the version of the library: 1000000 * major + 1000 * minor + patch. 0.2.0 is 2000. */
uint32_t fots_version(void);

/* ---- errors as sentences
 *
 * Each returns a sentence for any arguments. After a call without components, a string or a format,
 * use fots_error_text. */

/* Returns the sentence of a status. FOTS_INVALID_WEEKDAY is "invalid weekday; expected 1 (Monday) to
 * 7 (Sunday)", and another number "unknown error". */
fots_sentence fots_error_text(int32_t status);

/* Returns the sentence of a component that is out of range: its value, its range, and the month or
 * the year that has it. FOTS_DAY_OUT_OF_RANGE for {.year = 2023, .month = 2, .day = 29} is "day 29 is
 * out of range 1 to 28 (February 2023)". If the value is in the range, or a day has no month, it is
 * "day is out of range". */
fots_sentence fots_component_error_text(int32_t status, const fots_components *components);

/* Returns the sentence of a status and its position after a call that parses a text, a format or a
 * zone: "unexpected "x" at position 9", or "unexpected byte 0xE2 at position 4" if the byte isn't
 * printable ASCII, "unexpected end at position 9", "weekday contradicts the other components" or
 * "unknown item "%Q" at position 3". A component that a text of ISO 8601 or RFC 3339 shows has its value
 * and its range: FOTS_DAY_OUT_OF_RANGE for "2023-02-29" is as for fots_component_error_text. */
fots_sentence fots_parse_error_text(int32_t status, size_t position, const char *text, size_t text_length);

/* Returns the sentence of a status and its position after a call that parses a text by a format, with
 * the pivot of a lenient call, or a negative number: FOTS_DAY_OUT_OF_RANGE for "30/02/2024" by
 * %d/%m/%Y is "day 30 is out of range 1 to 29 (February 2024)". FOTS_INSUFFICIENT_FORMAT has a remedy if
 * there is one, such as "\"%y\" has no century: use %Y or a pivot". */
fots_sentence fots_format_error_text(int32_t status, size_t position, const char *text, size_t text_length, const fots_format *format,
    int32_t pivot);

/* Returns the sentence of an error in the text of a recurrence, such as "invalid value of BYDAY at
 * position 11". */
fots_sentence fots_recurrence_error_text(int32_t status, uint32_t part, size_t position);

/* ---- create dates */

/* Returns the date with a Julian day, or FOTS_JULIAN_DAY_OUT_OF_RANGE. 2451604 is 2000-02-29. */
fots_date_result fots_date_from_julian_day(int64_t julian_day);

/* Returns the date of a year (-999999 to 999999), a month and a day of the month. Errors:
 * FOTS_MONTH_OUT_OF_RANGE, FOTS_YEAR_OUT_OF_RANGE, FOTS_DAY_OUT_OF_RANGE. 2000, 2, 29 is
 * 2000-02-29; 1900, 2, 29 is FOTS_DAY_OUT_OF_RANGE. */
fots_date_result fots_date_from_calendar_date(int32_t year, uint32_t month, uint32_t day);

/* Returns the date of a year (-999999 to 999999) and an ordinal (1 to 365, or 366 in a leap year).
 * Errors: FOTS_YEAR_OUT_OF_RANGE, FOTS_ORDINAL_OUT_OF_RANGE. 2000, 60 is 2000-02-29. */
fots_date_result fots_date_from_ordinal_date(int32_t year, uint32_t ordinal);

/* Returns the date of an ISO 8601 week date: an ISO year (-999999 to 999999), a week (1 to 52, or
 * 53 in a long year) and a weekday. Errors: FOTS_YEAR_OUT_OF_RANGE, FOTS_WEEK_OUT_OF_RANGE, and
 * FOTS_WEEKDAY_OUT_OF_RANGE after the last date, which is Friday of 999999-W52. 2000, 9, 2 is
 * 2000-02-29. */
fots_date_result fots_date_from_iso_week_date(int32_t year, uint32_t week, uint32_t weekday);

/* ---- components of a date */

/* Returns the year, the month and the day of the month. For 2000-02-29: 2000, 2, 29. */
fots_calendar_date_result fots_date_to_calendar_date(fots_date date);

/* Returns the year and the ordinal. For 2000-02-29: 2000, 60. */
fots_ordinal_date_result fots_date_to_ordinal_date(fots_date date);

/* Returns the ISO year (-999999 to 999999), week (1 to 53) and weekday. For 2000-02-29:
 * 2000, 9, 2. */
fots_iso_week_date_result fots_date_to_iso_week_date(fots_date date);

/* Return the year (-999999 to 999999), the month, the day of the month (1 to 31), the ordinal (1 to
 * 366), the ISO week (1 to 53) and the weekday. For 2000-02-29: 2000, 2, 29, 60, 9, 2. */
fots_number_result fots_date_year(fots_date date);
fots_component_result fots_date_month(fots_date date);
fots_component_result fots_date_day(fots_date date);
fots_component_result fots_date_ordinal(fots_date date);
fots_component_result fots_date_iso_week(fots_date date);
fots_component_result fots_date_weekday(fots_date date);

/* Return the Sundays or Mondays of the year up to the date: 0 to 53. For 2000-02-29: 9, 9. */
fots_component_result fots_date_sunday_based_week(fots_date date);
fots_component_result fots_date_monday_based_week(fots_date date);

/* ---- move dates */

/* Return the next or previous day, or FOTS_RESULT_OUT_OF_RANGE. For 2000-02-29: 2000-03-01,
 * 2000-02-28. */
fots_date_result fots_date_next_day(fots_date date);
fots_date_result fots_date_previous_day(fots_date date);

/* Returns the date `days` later, or earlier if negative; FOTS_RESULT_OUT_OF_RANGE. 366 days after
 * 2000-02-29 is 2001-03-01. */
fots_date_result fots_date_add_days(fots_date date, int64_t days);

/* Return the date later or earlier by the whole days of a duration, truncated toward zero;
 * FOTS_RESULT_OUT_OF_RANGE. 2000-02-29 plus 47 h is 2000-03-01. */
fots_date_result fots_date_checked_add(fots_date date, fots_duration duration);
fots_date_result fots_date_checked_sub(fots_date date, fots_duration duration);

/* Return the same, clamped to the range: 999999-12-31 plus 24 h is 999999-12-31. */
fots_date_result fots_date_saturating_add(fots_date date, fots_duration duration);
fots_date_result fots_date_saturating_sub(fots_date date, fots_duration duration);

/* Returns the duration from `other` to `date` in whole days, negative if `other` is later. From
 * 2000-01-01 to 2000-02-29: {5097600, 0}, which is 59 days. */
fots_duration_result fots_date_duration_since(fots_date date, fots_date other);

/* Return the first date after this one with a weekday, or the last one before it;
 * FOTS_RESULT_OUT_OF_RANGE. The first Monday after 2023-06-28 is 2023-07-03. */
fots_date_result fots_date_next_occurrence(fots_date date, uint32_t weekday);
fots_date_result fots_date_prev_occurrence(fots_date date, uint32_t weekday);

/* Return the n-th date after or before this one with a weekday. n is 1 to 255: above is
 * FOTS_INVALID_COUNT, 0 is FOTS_RESULT_OUT_OF_RANGE. The fifth Monday after 2023-06-25 is
 * 2023-07-24. */
fots_date_result fots_date_nth_next_occurrence(fots_date date, uint32_t weekday, uint32_t n);
fots_date_result fots_date_nth_prev_occurrence(fots_date date, uint32_t weekday, uint32_t n);

/* ---- months and years */

/* Return the date some months or years later, or earlier if negative: the same day of the month, or
 * the last day of a shorter month. A year is 12 months. If the month is out of range, the
 * saturating call returns the nearest end of the range, and the others FOTS_RESULT_OUT_OF_RANGE.
 * One month after 2000-01-31 is 2000-02-29; one year after that is 2001-02-28. */
fots_date_result fots_date_add_months(fots_date date, int32_t months);
fots_date_result fots_date_saturating_add_months(fots_date date, int32_t months);
fots_date_result fots_date_add_years(fots_date date, int32_t years);

/* Return the largest number of months or years that you can add to `date` without passing `other`.
 * If `other` is earlier, they count back, and the number is negative or 0. Years are an age. From
 * 2000-01-31 to 2000-02-29: 1 month, 0 years. */
fots_number_result fots_date_months_until(fots_date date, fots_date other);
fots_number_result fots_date_years_until(fots_date date, fots_date other);

/* Returns years and months, as many as fots_date_months_until, and then days. From 2000-01-31 to
 * 2001-03-02: 1 year, 1 month and 2 days. */
fots_period_result fots_date_period_until(fots_date date, fots_date other);

enum fots_calendar_unit {
    FOTS_DAY = 1,
    FOTS_WEEK = 2, /* from Monday */
    FOTS_MONTH = 3,
    FOTS_QUARTER = 4,
    FOTS_YEAR = 5
};

/* Returns a period with the unit as its largest part: for FOTS_DAY days, for FOTS_WEEK weeks and
 * days, for FOTS_MONTH and FOTS_QUARTER months and days, and for FOTS_YEAR the same as
 * fots_date_period_until. FOTS_INVALID_UNIT. From 2000-01-31 to 2001-03-02: 13 months and 2 days by
 * FOTS_MONTH, and 56 weeks and 4 days by FOTS_WEEK. */
fots_period_result fots_date_period_until_by(fots_date date, fots_date other, uint32_t unit);

/* Return the date a period later, or `n` periods later at once, without a drift: the years and the
 * months are added first, and then the weeks and the days. FOTS_INVALID_PERIOD,
 * FOTS_PERIOD_HAS_DURATION, FOTS_RESULT_OUT_OF_RANGE. 2 months after 2000-01-31, in one step or by
 * n = 2, is 2000-03-31. */
fots_date_result fots_date_add_period(fots_date date, fots_period period);
fots_date_result fots_date_nth_period(fots_date date, fots_period period, int32_t n);

/* Returns the step that a date is in: the greatest `n` for which fots_date_nth_period of `start`
 * isn't after it. FOTS_INVALID_PERIOD, and FOTS_RESULT_OUT_OF_RANGE if the date is before the start,
 * or if the period has a duration or isn't positive. By months from 2000-01-31, 2000-02-28 is in
 * step 0, and 2000-02-29 in step 1. */
fots_number_result fots_date_step_of(fots_date start, fots_period period, fots_date date);

/* Return the first or last day of the month, quarter, year or ISO week, and the quarter (1 to 4).
 * Only the Sunday of the last ISO week is FOTS_RESULT_OUT_OF_RANGE. For 2000-02-29: 2000-02-01,
 * 2000-02-29, 2000-01-01, 2000-03-31, 2000-01-01, 2000-12-31, 2000-02-28, 2000-03-05, 1. */
fots_date_result fots_date_first_of_month(fots_date date);
fots_date_result fots_date_last_of_month(fots_date date);
fots_date_result fots_date_first_of_quarter(fots_date date);
fots_date_result fots_date_last_of_quarter(fots_date date);
fots_date_result fots_date_first_of_year(fots_date date);
fots_date_result fots_date_last_of_year(fots_date date);
fots_date_result fots_date_first_of_iso_week(fots_date date);
fots_date_result fots_date_last_of_iso_week(fots_date date);
fots_component_result fots_date_quarter(fots_date date);

/* Return the n-th (1 to 255), or the last, date with a weekday in a month. Errors:
 * FOTS_INVALID_COUNT, FOTS_YEAR_OUT_OF_RANGE, and FOTS_WEEKDAY_OUT_OF_RANGE if the month has no
 * such date. In 2000-02, the fifth Tuesday is 2000-02-29, and the last Friday is 2000-02-25. */
fots_date_result fots_date_nth_weekday_of_month(int32_t year, uint32_t month, uint32_t weekday, uint32_t n);
fots_date_result fots_date_last_weekday_of_month(int32_t year, uint32_t month, uint32_t weekday);

/* Return the first date on or after this one with a weekday, or the last one on or before it;
 * FOTS_RESULT_OUT_OF_RANGE. For Friday and 2000-02-29: 2000-03-03 and 2000-02-25. */
fots_date_result fots_date_on_or_after(fots_date date, uint32_t weekday);
fots_date_result fots_date_on_or_before(fots_date date, uint32_t weekday);

/* Return Easter Sunday of a year, by the Gregorian calendar as in western churches and by the Julian
 * one as in orthodox churches. FOTS_YEAR_OUT_OF_RANGE, also if the orthodox day is out of range. For
 * 2024: 2024-03-31 and 2024-05-05. */
fots_date_result fots_easter(int32_t year);
fots_date_result fots_julian_easter(int32_t year);

/* ---- ranges of days */

/* Return 1 if the date is in the range, or if a day is in both ranges, else 0. FOTS_INVALID_RANGE.
 * From 2024-03-01 to 2024-04-01: 2024-03-31 is in the range, and 2024-04-01 isn't. */
fots_component_result fots_date_range_contains(fots_date_range range, fots_date date);
fots_component_result fots_date_range_overlaps(fots_date_range range, fots_date_range other);

/* Returns the number of days. FOTS_INVALID_RANGE. From 2024-03-01 to 2024-04-01: 31. */
fots_component_result fots_date_range_length(fots_date_range range);

/* Returns the days that are in both ranges. FOTS_INVALID_RANGE, and FOTS_RESULT_OUT_OF_RANGE if
 * there are none. */
fots_date_range_result fots_date_range_intersection(fots_date_range range, fots_date_range other);

/* Returns how many days of the range are in the other one, and how many days it has, for a price by
 * the day. FOTS_INVALID_RANGE. From 2024-03-01 to 2024-04-01, from 2024-03-22 to 2024-05-01: 10,
 * 31. */
fots_share_result fots_date_range_share(fots_date_range range, fots_date_range other);

/* ---- working days
 *
 * A weekmask is the sum of its working days: 1 for Monday, 2 for Tuesday, 4, 8, 16, 32, and 64 for
 * Sunday. The examples have FOTS_MONDAY_TO_FRIDAY and no holidays. */
#define FOTS_MONDAY_TO_FRIDAY 31u

/* Checks a weekmask and its holidays once, for any number of calls. Errors: FOTS_INVALID_WEEKMASK
 * for a weekmask above 127, and FOTS_TOO_MANY_HOLIDAYS and FOTS_INVALID_HOLIDAYS unless the holidays
 * are at most FOTS_MAX_HOLIDAYS dates in strictly ascending order. The other calls report a struct
 * with an invalid weekmask or length first. */
fots_workdays_result fots_workdays_new(uint32_t weekmask, const fots_date *holidays, size_t holidays_length);

/* Returns 1 if the date is a working day, else 0. Tuesday 2000-02-29 is 1. */
fots_component_result fots_workdays_contains(const fots_workdays *workdays, fots_date date);

/* Returns the n-th working day after the date, or before it if `days` is negative; for 0 the date
 * itself, or the first working day after it; FOTS_RESULT_OUT_OF_RANGE. 2000-02-29 and 10 is
 * 2000-03-14. */
fots_date_result fots_workdays_add(const fots_workdays *workdays, fots_date date, int32_t days);

/* Returns the number of working days from the earlier date on, without the later date; negative or
 * 0 if `other` is earlier. From 2000-01-01 to 2001-01-01 it is 260, and back -260. */
fots_number_result fots_workdays_between(const fots_workdays *workdays, fots_date date, fots_date other);

/* How a date moves to a working day, with the names of the ISDA Definitions. */
enum fots_convention {
    FOTS_UNADJUSTED = 0,
    FOTS_FOLLOWING = 1,
    FOTS_MODIFIED_FOLLOWING = 2, /* FOTS_FOLLOWING; FOTS_PRECEDING if that is in another month */
    FOTS_PRECEDING = 3,
    FOTS_MODIFIED_PRECEDING = 4 /* FOTS_PRECEDING; FOTS_FOLLOWING if that is in another month */
};

/* Returns the working day that the date moves to. Errors: FOTS_INVALID_CONVENTION, and at last
 * FOTS_RESULT_OUT_OF_RANGE. Saturday 2000-04-29 moves to 2000-05-01 by FOTS_FOLLOWING, and to
 * 2000-04-28 by FOTS_MODIFIED_FOLLOWING. */
fots_date_result fots_workdays_adjust(const fots_workdays *workdays, fots_date date, uint32_t convention);

/* Sorts dates in place, moves each of them to the front once, and returns how many these are. What
 * stands behind them isn't specified. 2024-12-25, 2024-01-01 and 2024-12-25 become 2024-01-01 and
 * 2024-12-25, and 2 is returned. */
size_t fots_dates_sort(fots_date *dates, size_t dates_length);

/* Checks a weekmask and any number of holidays once for a view, writes the number of holidays that are
 * days of the weekmask before each index, and returns the number of all of these. Errors:
 * FOTS_INVALID_WEEKMASK, and FOTS_INVALID_HOLIDAYS unless the holidays are dates in strictly ascending
 * order and the second array has one place more than they. Sunday 2023-12-31 and 2024-01-01: 0, 0, 1. */
fots_number_result fots_workdays_view_count(uint32_t weekmask, const fots_date *holidays, size_t holidays_length,
    uint32_t *marked_before, size_t marked_before_length);

/* The same as for fots_workdays. Errors of the view come first: FOTS_INVALID_WEEKMASK, and
 * FOTS_INVALID_HOLIDAYS for wrong lengths. */
fots_component_result fots_workdays_view_contains(const fots_workdays_view *view, fots_date date);
fots_date_result fots_workdays_view_add(const fots_workdays_view *view, fots_date date, int32_t days);
fots_number_result fots_workdays_view_between(const fots_workdays_view *view, fots_date date, fots_date other);
fots_date_result fots_workdays_view_adjust(const fots_workdays_view *view, fots_date date, uint32_t convention);

/* Known calendars of holidays. */
enum fots_calendar {
    FOTS_TARGET = 0, /* the payment system of the euro, since 1999 */
    FOTS_US_FEDERAL = 1, /* the federal offices of the United States, since 1971 */
    FOTS_NYSE = 2, /* the New York Stock Exchange, since 1986 */
    FOTS_ENGLAND_AND_WALES = 3, /* bank holidays, since 1978 */
    FOTS_DE_BW = 4, /* the states of Germany, since 1995 */
    FOTS_DE_BY = 5,
    FOTS_DE_BE = 6,
    FOTS_DE_BB = 7,
    FOTS_DE_HB = 8,
    FOTS_DE_HH = 9,
    FOTS_DE_HE = 10,
    FOTS_DE_MV = 11,
    FOTS_DE_NI = 12,
    FOTS_DE_NW = 13,
    FOTS_DE_RP = 14,
    FOTS_DE_SL = 15,
    FOTS_DE_SN = 16,
    FOTS_DE_ST = 17,
    FOTS_DE_SH = 18,
    FOTS_DE_TH = 19
};

/* Writes the holidays of a calendar from one date through another to the front of the array, in
 * ascending order as fots_workdays_new takes them, and returns their number. FOTS_INVALID_CALENDAR;
 * FOTS_TOO_MANY_HOLIDAYS if there are more than the array has room for, or than FOTS_MAX_HOLIDAYS.
 * FOTS_TARGET has 6 from 2024-01-01 through 2024-12-31. */
fots_number_result fots_calendar_holidays(uint32_t calendar, fots_date first, fots_date last, fots_date *holidays,
    size_t holidays_length);

/* Writes the holidays of rules like those of a calendar. A line of the string has a rule: a day, and
 * after it years in force and moves, with spaces between them. "#" begins a comment. Days: 12-25,
 * 11-4TH (the fourth Thursday of November), 05-lastMO, 11-WE>=16 (the first Wednesday on or after 16
 * November), easter-2, julian-easter, and each of these in one year, such as 2024-12-27. Years: 1999..,
 * ..2009, 1999..2009. Moves: SA-1 SU+1 (from a Saturday to Friday, and from a Sunday to Monday).
 * Errors: FOTS_INVALID_HOLIDAY_RULE and the position of a word; FOTS_TOO_MANY_HOLIDAYS and the
 * position of a line, for more than FOTS_MAX_HOLIDAYS rules; then those of a calendar.
 * "easter-2\n12-25" has 2 holidays from 2024-01-01 through 2024-12-31. */
fots_holidays_result fots_rules_holidays(const char *text, size_t text_length, fots_date first, fots_date last,
    fots_date *holidays, size_t holidays_length);

/* Add working days to dates, and count them between dates, like the functions for one date. */
size_t fots_workdays_add_dates(const fots_workdays *workdays, const int32_t *dates, size_t dates_length, const int32_t *days,
    size_t days_length, int32_t *moved, size_t moved_length, uint8_t *statuses, size_t length);
size_t fots_workdays_between_dates(const fots_workdays *workdays, const int32_t *dates, size_t dates_length, const int32_t *others,
    size_t others_length, int32_t *numbers, size_t numbers_length, uint8_t *statuses, size_t length);

/* The same for a view. */
size_t fots_workdays_view_add_dates(const fots_workdays_view *workdays, const int32_t *dates, size_t dates_length, const int32_t *days,
    size_t days_length, int32_t *moved, size_t moved_length, uint8_t *statuses, size_t length);
size_t fots_workdays_view_between_dates(const fots_workdays_view *workdays, const int32_t *dates, size_t dates_length, const int32_t *others,
    size_t others_length, int32_t *numbers, size_t numbers_length, uint8_t *statuses, size_t length);

/* ---- recurrences */

/* The unit of the interval of a rule. */
/* The last three only in a recurrence with times of day: a fots_rule with them is invalid. */
enum fots_frequency {
    FOTS_DAILY = 1, FOTS_WEEKLY = 2, FOTS_MONTHLY = 3, FOTS_YEARLY = 4, FOTS_HOURLY = 5, FOTS_MINUTELY = 6, FOTS_SECONDLY = 7
};

/* A recurrence rule in a subset of RFC 5545. A day matches if it matches all parts; an empty list
 * excludes no day. A list has at most FOTS_MAX_VALUES values. A rule without days of the year, days
 * of the month and weekdays takes the day of its start. Weeks, days and positions count from 1, or
 * from -1 at the end; 0 matches no day. The days of the rule are the days that match and the dates,
 * also those outside start and until, without the exceptions. */
typedef struct fots_rule {
    fots_date start; /* the first possible day; it counts only if it matches */
    fots_date until; /* the last possible day; {FOTS_MAX_JULIAN_DAY} for no end */
    uint32_t frequency;
    uint32_t interval; /* every n-th period, counted from the start; 0 counts as 1 */
    uint32_t week_start; /* the first weekday of a week */
    uint32_t unused; /* 0 */
    const uint8_t *months;
    size_t months_length;
    const int8_t *weeks; /* of the year; a week belongs to the year that has its fourth day */
    size_t weeks_length;
    const int16_t *year_days;
    size_t year_days_length;
    const int8_t *month_days;
    size_t month_days_length;
    const fots_rule_weekday *weekdays;
    size_t weekdays_length;
    const int16_t *set_positions; /* among the days of a period that match the lists above */
    size_t set_positions_length;
    const fots_date *dates; /* RDATE, in any order, at most FOTS_MAX_DATES */
    size_t dates_length;
    const fots_date *exceptions; /* EXDATE, in any order, at most FOTS_MAX_DATES */
    size_t exceptions_length;
} fots_rule;

/* Returns the rule of every day, or the same day of every week (from Monday), month or year. */
static inline fots_rule fots_rule_new(fots_date start, uint32_t frequency)
{
    static const fots_rule_weekday none = {0, 0};
    static const int16_t no_number = 0;
    static const fots_date no_date = {0};
    fots_rule rule;
    rule.start = start;
    rule.until.julian_day = FOTS_MAX_JULIAN_DAY;
    rule.frequency = frequency;
    rule.interval = 1;
    rule.week_start = 1;
    rule.months = &none.weekday;
    rule.months_length = 0;
    rule.weeks = &none.number;
    rule.weeks_length = 0;
    rule.year_days = &no_number;
    rule.year_days_length = 0;
    rule.month_days = &none.number;
    rule.month_days_length = 0;
    rule.weekdays = &none;
    rule.weekdays_length = 0;
    rule.set_positions = &no_number;
    rule.set_positions_length = 0;
    rule.dates = &no_date;
    rule.dates_length = 0;
    rule.exceptions = &no_date;
    rule.exceptions_length = 0;
    return rule;
}

/* The functions check the rule first: FOTS_INVALID_DATE for start and until, FOTS_INVALID_FREQUENCY,
 * FOTS_INVALID_WEEKDAY for week_start, FOTS_TOO_MANY_PARTS, FOTS_MONTH_OUT_OF_RANGE,
 * FOTS_INVALID_WEEKDAY, FOTS_TOO_MANY_DATES, FOTS_INVALID_DATE for dates and exceptions; then
 * FOTS_INVALID_DATE for `date`. The examples have the last Fridays from 2024-01-01 on. */

/* Return the first day of the rule, the first one after a date, or the last one before a date;
 * FOTS_RESULT_OUT_OF_RANGE if no such day exists. The first is 2024-01-26, the next one 2024-02-23,
 * and the last one before 2024-02-23 is 2024-01-26. */
fots_date_result fots_rule_first(const fots_rule *rule);
fots_date_result fots_rule_next_after(const fots_rule *rule, fots_date date);
fots_date_result fots_rule_previous_before(const fots_rule *rule, fots_date date);

/* Returns 1 if the date is a day of the rule, else 0. 2024-01-26 is 1, and 2024-01-19 is 0. */
fots_component_result fots_rule_contains(const fots_rule *rule, fots_date date);

/* Writes the days of the rule after a date, in order, and returns their number: `days_length`, or
 * fewer if no more follow. The array must not overlap the rule or its lists. */
fots_days_result fots_rule_days_after(const fots_rule *rule, fots_date date, fots_date *days, size_t days_length);

/* The parts of the text of a recurrence. */
enum fots_rule_part {
    FOTS_RULE_FREQ = 1,
    FOTS_RULE_INTERVAL = 2,
    FOTS_RULE_WKST = 3,
    FOTS_RULE_BYMONTH = 4,
    FOTS_RULE_BYMONTHDAY = 5,
    FOTS_RULE_BYDAY = 6,
    FOTS_RULE_UNTIL = 7,
    FOTS_RULE_COUNT = 8,
    FOTS_RULE_BYSETPOS = 9,
    FOTS_RULE_BYYEARDAY = 10,
    FOTS_RULE_BYWEEKNO = 11,
    FOTS_RULE_BYHOUR = 12,
    FOTS_RULE_BYMINUTE = 13,
    FOTS_RULE_BYSECOND = 14
};

/* Parses the text of a recurrence, as RFC 5545 has it after RRULE:. It can also begin with RRULE:.
 * Calls with such a text return its first wrong part as FOTS_UNKNOWN_PART, FOTS_TOO_MANY_VALUES,
 * FOTS_DUPLICATE_PART or FOTS_INVALID_VALUE, or else FOTS_MISSING_FREQUENCY. After these errors,
 * FOTS_INVALID_VALUE is for a list that FREQ excludes, the first in this order: BYDAY with a number,
 * BYMONTHDAY, BYYEARDAY, BYWEEKNO. BYWEEKNO excludes BYDAY with a number. The wrong part is the later
 * of the two in the text. Last comes a BYSETPOS without another list.
 * BYHOUR, BYMINUTE, BYSECOND and the time of an UNTIL count only for readings and moments.
 * "FREQ=MONTHLY;BYDAY=-1FR;COUNT=3" has FOTS_MONTHLY, the interval 1, the week start 1, the count 3
 * and the weekday {-1, 5}. */
fots_parse_recurrence_result fots_recurrence_parse(const char *text, size_t text_length);

/* Returns the text of the same recurrence with its parts in one order.
 * "byday=-01fr;count=3;freq=monthly" becomes "FREQ=MONTHLY;COUNT=3;BYDAY=-1FR". */
fots_recurrence_text_result fots_recurrence_text(const char *text, size_t text_length);

/* Returns the rule of a recurrence from a start, without its count. It uses the lists of the
 * recurrence, so keep that for as long as you use the rule. If a length is above FOTS_MAX_VALUES,
 * each call rejects the rule with FOTS_TOO_MANY_PARTS. */
static inline fots_rule fots_recurrence_rule(const fots_recurrence *recurrence, fots_date start)
{
    fots_rule rule = fots_rule_new(start, recurrence->frequency);
    if (recurrence->until.julian_day != FOTS_NO_VALUE) {
        rule.until = recurrence->until;
    }
    rule.interval = recurrence->interval;
    rule.week_start = recurrence->week_start;
    rule.months = recurrence->months;
    if (recurrence->months_length > FOTS_MAX_VALUES || recurrence->weeks_length > FOTS_MAX_VALUES
        || recurrence->year_days_length > FOTS_MAX_VALUES || recurrence->month_days_length > FOTS_MAX_VALUES
        || recurrence->weekdays_length > FOTS_MAX_VALUES || recurrence->set_positions_length > FOTS_MAX_VALUES) {
        /* One month too many, and still inside the struct. */
        rule.months_length = FOTS_MAX_VALUES + 1;
        return rule;
    }
    rule.months_length = recurrence->months_length;
    rule.weeks = recurrence->weeks;
    rule.weeks_length = recurrence->weeks_length;
    rule.year_days = recurrence->year_days;
    rule.year_days_length = recurrence->year_days_length;
    rule.month_days = recurrence->month_days;
    rule.month_days_length = recurrence->month_days_length;
    rule.weekdays = recurrence->weekdays;
    rule.weekdays_length = recurrence->weekdays_length;
    rule.set_positions = recurrence->set_positions;
    rule.set_positions_length = recurrence->set_positions_length;
    return rule;
}

/* Writes the days of a recurrence with this start from a date on, in order, and returns their
 * number: `days_length`, or fewer if no more follow. COUNT counts from the start. After errors of
 * the text comes FOTS_INVALID_DATE. The array must not overlap the text. The example above with the
 * start 2024-01-01 has 2024-02-23 and 2024-03-29 from 2024-02-09 on. */
fots_recurrence_result fots_recurrence_days(const char *text, size_t text_length, fots_date start, fots_date from, fots_date *days,
    size_t days_length);

/* Returns the cursor of a recurrence for its first page. "FREQ=DAILY;COUNT=3" has 3 days or readings
 * left, and a text without COUNT has UINT32_MAX. */
fots_recurrence_cursor_result fots_recurrence_cursor_new(const char *text, size_t text_length);

/* Writes the days of a recurrence like fots_recurrence_days, but only those that a cursor leaves.
 * Then the cursor leaves the days after them, so pass it with the same text, start and date for the
 * next page: COUNT isn't counted from the start again. Days before `from` are counted too, and a
 * length of 0 only counts them. After an error the cursor is as before. It must not overlap the
 * array. "FREQ=MONTHLY;BYDAY=-1FR;COUNT=3" with the start 2024-01-01 has 2024-01-26 and 2024-02-23
 * on its first page of two days, and 2024-03-29 on its second. */
fots_recurrence_result fots_recurrence_next_days(const char *text, size_t text_length, fots_date start, fots_date from,
    fots_recurrence_cursor *cursor, fots_date *days, size_t days_length);

/* A recurrence with times of day: its text, its start, other readings and exceptions. A reading is
 * the date and the time of a moment, whose offset doesn't count. */
typedef struct fots_recurrence_set {
    const char *text;
    size_t text_length;
    fots_moment start; /* DTSTART: the first possible reading, and the times that the text lacks */
    const fots_moment *dates; /* RDATE, in any order, at most FOTS_MAX_DATES */
    size_t dates_length;
    const fots_moment *exceptions; /* EXDATE, in any order, at most FOTS_MAX_DATES */
    size_t exceptions_length;
} fots_recurrence_set;

/* Returns the set of a text and a start, without other readings. */
static inline fots_recurrence_set fots_recurrence_set_new(const char *text, size_t text_length, fots_moment start)
{
    static const fots_moment none = {{0}, {0}, 0};
    const fots_recurrence_set set = {text, text_length, start, &none, 0, &none, 0};
    return set;
}

/* Writes the readings of a set from a reading on, in order, as moments at the offset 0, and returns
 * their number: `readings_length`, or fewer if no more follow. COUNT counts from the start, without
 * the other readings. BYSETPOS counts the readings of a period. A second of 60 never matches. An
 * UNTIL that is a date includes its day, and one with Z ends at its date and time. After errors of
 * the text come FOTS_TOO_MANY_DATES and FOTS_INVALID_MOMENT. The array must not overlap the set.
 * "FREQ=DAILY;BYHOUR=9,17;COUNT=3" from 1997-09-02 9:00 on has 9:00 and 17:00 on that day, and 9:00
 * on the next one. */
fots_recurrence_result fots_recurrence_readings(const fots_recurrence_set *set, fots_moment from, fots_moment *readings, size_t readings_length);

/* Writes the readings of a set like fots_recurrence_readings, with a cursor that holds what is
 * counted of COUNT. For the next page pass the cursor, the same set, and a nanosecond after the last
 * reading as `from`. After an error the cursor is as before. It must not overlap the array.
 * "FREQ=DAILY;BYHOUR=9,17;COUNT=3" from 1997-09-02 9:00 on has 9:00 and 17:00 on its first page of
 * two readings. */
fots_recurrence_result fots_recurrence_next_readings(const fots_recurrence_set *set, fots_moment from, fots_recurrence_cursor *cursor,
    fots_moment *readings, size_t readings_length);

/* ---- events of calendar files */

/* The lines of an event that its set has. */
enum fots_event_line {
    FOTS_EVENT_DTSTART = 1,
    FOTS_EVENT_RRULE = 2,
    FOTS_EVENT_RDATE = 3,
    FOTS_EVENT_EXDATE = 4
};

/* The kinds of DTSTART. */
enum fots_event_kind {
    FOTS_EVENT_DATE = 1, /* 20240131: read days */
    FOTS_EVENT_LOCAL = 2, /* 20240131T090000: read moments in a zone, or readings */
    FOTS_EVENT_UTC = 3 /* 20240131T090000Z: read readings, which are in UTC */
};

/* Writes a text without its folds (RFC 5545): LF or CR LF, and a space or a tab. Returns the number
 * of bytes, or FOTS_BUFFER_TOO_SHORT with the length of the text if the buffer has fewer bytes. The
 * buffer must not overlap the text. "RDATE:20240704,\r\n 20240705" becomes
 * "RDATE:20240704,20240705". */
fots_length_result fots_unfold(const char *text, size_t text_length, char *bytes, size_t bytes_length);

/* Writes a text with its lines folded (RFC 5545): CR LF and a space come before the 76th byte of a
 * line, without its end, and then before each 74 bytes. A line of 75 bytes stays. Returns the number
 * of bytes, or FOTS_BUFFER_TOO_SHORT with the length text_length + text_length / 24, which is always
 * enough, if the buffer has fewer bytes. A fold can be within a character of several bytes. The
 * buffer must not overlap the text. A line of 76 bytes becomes one of 75 and one of 2. */
fots_length_result fots_fold(const char *text, size_t text_length, char *bytes, size_t bytes_length);

/* Finds the first VEVENT of a calendar file (RFC 5545) whose lines are unfolded. Call it again with
 * the rest of the text from `next` on, until it returns FOTS_RESULT_OUT_OF_RANGE. The other errors
 * are FOTS_UNCLOSED_EVENT and FOTS_OTHER_END. Lines end with LF or CR LF, and names match in any
 * case. The lines of components in an event, such as VALARM, aren't lines of the event. In
 * "BEGIN:VEVENT\nUID:1\nEND:VEVENT\n", position is 13, length 6 and next 30. */
fots_event_result fots_event_first(const char *text, size_t text_length);

/* Writes the value of the first line of an event with a name, such as SUMMARY or DTEND. Returns
 * FOTS_RESULT_OUT_OF_RANGE without such a line, and FOTS_BUFFER_TOO_SHORT with the length. Escapes
 * such as \, stay. The buffer must not overlap the text. For "SUMMARY;LANGUAGE=en:Meeting" it is
 * "Meeting". */
fots_length_result fots_event_value(const char *lines, size_t lines_length, const char *name, size_t name_length, char *bytes,
    size_t bytes_length);

/* Writes the name of the zone of an event, the TZID of its set. Returns FOTS_RESULT_OUT_OF_RANGE if
 * no line of the set names a zone, the status of the first invalid line, or FOTS_BUFFER_TOO_SHORT
 * with the length. For "DTSTART;TZID=Europe/Berlin:20240101T090000" it is "Europe/Berlin". */
fots_length_result fots_event_zone(const char *lines, size_t lines_length, char *bytes, size_t bytes_length);

/* Returns the start of an event and its kind. The set of an event is its lines DTSTART, RRULE, RDATE
 * and EXDATE. Calls for the set return the first invalid line: FOTS_DUPLICATE_PART for a second
 * DTSTART or RRULE, FOTS_TOO_MANY_VALUES for more than 62 values, FOTS_INVALID_VALUE,
 * FOTS_OTHER_ZONE, or the status of the first wrong part of an RRULE; or else FOTS_MISSING_START.
 * For "DTSTART:20240101T090000Z" it is 2024-01-01 9:00, FOTS_EVENT_UTC. */
fots_event_start_result fots_event_start(const char *lines, size_t lines_length);

/* Writes the lines of the set of an event in one form: DTSTART, RRULE, RDATE and EXDATE, each with
 * CR LF and without folds. Returns the number of bytes, the first invalid line, or
 * FOTS_BUFFER_TOO_SHORT; then the bytes can be anything. The written lines have the same set. The
 * buffer must not overlap the lines. "dtstart:20240101" becomes "DTSTART;VALUE=DATE:20240101\r\n
 * RRULE:FREQ=DAILY;COUNT=1\r\n". */
fots_event_set_result fots_event_recurrence_lines(const char *lines, size_t lines_length, char *bytes, size_t bytes_length);

/* Writes the days of an event of dates from a date on, in order, and returns their number:
 * `days_length`, or fewer if no more follow. COUNT counts from the start, without the other dates.
 * After errors of the lines come FOTS_INVALID_DATE, and FOTS_WRONG_KIND with the first line with a
 * time of day, or RRULE with periods within days. The array must not overlap the lines.
 * "DTSTART:20240101\nRRULE:FREQ=DAILY;COUNT=3" has 2024-01-02 and 2024-01-03 from 2024-01-02 on. */
fots_event_set_result fots_event_days(const char *lines, size_t lines_length, fots_date from, fots_date *days, size_t days_length);

/* Writes the readings of an event of times from a reading on, as fots_recurrence_readings does. If
 * DTSTART has a Z, they are date-times in UTC. After errors of the lines come FOTS_INVALID_MOMENT,
 * and FOTS_WRONG_KIND with the first line with a date, or with a time with Z if DTSTART has no Z, or
 * the other way round. The array must not overlap the lines. "DTSTART:20240101T090000\n
 * RRULE:FREQ=DAILY;COUNT=2" has 9:00 on 2024-01-01 and 2024-01-02. */
fots_event_set_result fots_event_readings(const char *lines, size_t lines_length, fots_moment from, fots_moment *readings,
    size_t readings_length);

/* ---- day counts */

/* Day counts of the 2006 ISDA Definitions. The first day counts, and the last one does not. */
enum fots_day_count {
    FOTS_ACTUAL_360 = 1,
    FOTS_ACTUAL_365_FIXED = 2,
    FOTS_THIRTY_360 = 3, /* bond basis */
    FOTS_THIRTY_E_360 = 4, /* Eurobond basis */
    FOTS_ACTUAL_ACTUAL = 5 /* ISDA; the denominator is 365 * 366 */
};

/* Returns the fraction of a year from `date` to `other`; FOTS_INVALID_CONVENTION. From 2003-11-01
 * to 2004-05-01 by FOTS_ACTUAL_ACTUAL it is 66491 / 133590. */
fots_year_fraction_result fots_date_day_count(fots_date date, fots_date other, uint32_t convention);

/* ---- replace a component of a date; the others stay as they are */

/* Replaces the year; FOTS_YEAR_OUT_OF_RANGE; FOTS_DAY_OUT_OF_RANGE for 29 February in a common
 * year. */
fots_date_result fots_date_replace_year(fots_date date, int32_t year);

/* Replaces the month; FOTS_DAY_OUT_OF_RANGE. 2000-02-29 and 3 is 2000-03-29. */
fots_date_result fots_date_replace_month(fots_date date, uint32_t month);

/* Replaces the day of the month; FOTS_DAY_OUT_OF_RANGE. 2000-02-29 and 1 is 2000-02-01. */
fots_date_result fots_date_replace_day(fots_date date, uint32_t day);

/* Replaces the ordinal; FOTS_ORDINAL_OUT_OF_RANGE. 2000-02-29 and 1 is 2000-01-01. */
fots_date_result fots_date_replace_ordinal(fots_date date, uint32_t ordinal);

/* ---- create times of day */

/* Return the time of an hour (0 to 23), a minute and a second (0 to 59), and milliseconds (0 to
 * 999), microseconds (0 to 999999) or nanoseconds (0 to 999999999). Errors: FOTS_HOUR_OUT_OF_RANGE,
 * FOTS_MINUTE_OUT_OF_RANGE, FOTS_SECOND_OUT_OF_RANGE; FOTS_MILLISECOND_OUT_OF_RANGE,
 * FOTS_MICROSECOND_OUT_OF_RANGE, FOTS_NANOSECOND_OUT_OF_RANGE. 1, 2, 3, 4 ms: 1:02:03.004. */
fots_time_result fots_time_from_hms(uint32_t hour, uint32_t minute, uint32_t second);
fots_time_result fots_time_from_hms_milli(uint32_t hour, uint32_t minute, uint32_t second, uint32_t millisecond);
fots_time_result fots_time_from_hms_micro(uint32_t hour, uint32_t minute, uint32_t second, uint32_t microsecond);
fots_time_result fots_time_from_hms_nano(uint32_t hour, uint32_t minute, uint32_t second, uint32_t nanosecond);

/* ---- components of a time of day */

/* Returns the hour, minute, second and nanosecond. For 1:02:03.004005006: 1, 2, 3, 4005006. */
fots_hms_nano_result fots_time_as_hms_nano(fots_time time);

/* Return the hour, the minute, the second, and the part below the second in milliseconds,
 * microseconds or nanoseconds. For 1:02:03.004005006: 1, 2, 3, 4, 4005, 4005006. */
fots_component_result fots_time_hour(fots_time time);
fots_component_result fots_time_minute(fots_time time);
fots_component_result fots_time_second(fots_time time);
fots_component_result fots_time_millisecond(fots_time time);
fots_component_result fots_time_microsecond(fots_time time);
fots_component_result fots_time_nanosecond(fots_time time);

/* ---- replace a component of a time of day; the last three replace all below the second */
fots_time_result fots_time_replace_hour(fots_time time, uint32_t hour);
fots_time_result fots_time_replace_minute(fots_time time, uint32_t minute);
fots_time_result fots_time_replace_second(fots_time time, uint32_t second);
fots_time_result fots_time_replace_millisecond(fots_time time, uint32_t millisecond);
fots_time_result fots_time_replace_microsecond(fots_time time, uint32_t microsecond);
fots_time_result fots_time_replace_nanosecond(fots_time time, uint32_t nanosecond);

/* Return the time with all below its hour, minute, second, millisecond or microsecond set to zero.
 * 1:02:03.004005006 becomes 1:00:00, 1:02:00, 1:02:03, 1:02:03.004, 1:02:03.004005. */
fots_time_result fots_time_truncate_to_hour(fots_time time);
fots_time_result fots_time_truncate_to_minute(fots_time time);
fots_time_result fots_time_truncate_to_second(fots_time time);
fots_time_result fots_time_truncate_to_millisecond(fots_time time);
fots_time_result fots_time_truncate_to_microsecond(fots_time time);

/* How to round to a multiple of a unit, with the names of Temporal. For -7.5 and 2.5 and whole
 * numbers: -8, 2; -7, 3; -7, 2; -7, 3; -8, 2. */
enum fots_rounding_mode {
    FOTS_FLOOR = 0, /* down */
    FOTS_CEIL = 1, /* up */
    FOTS_TRUNC = 2, /* toward zero */
    FOTS_HALF_CEIL = 3, /* to the nearest multiple, of two to the greater */
    FOTS_HALF_EVEN = 4 /* to the nearest multiple, of two to the even one */
};

/* Returns the time rounded to a multiple of a unit since midnight; 24:00 is 0:00. The unit divides a
 * day of 24 hours. FOTS_INVALID_ROUNDING_UNIT, FOTS_INVALID_ROUNDING_MODE. 9:07:30 to 15 minutes by
 * FOTS_HALF_CEIL is 9:15. */
fots_time_result fots_time_round(fots_time time, fots_duration unit, uint32_t mode);

/* ---- move times of day */

/* Return the time of day a duration later or earlier, modulo 24 hours. 23:00 plus 2 h is 1:00. */
fots_time_result fots_time_add(fots_time time, fots_duration duration);
fots_time_result fots_time_sub(fots_time time, fots_duration duration);

/* Return the same, and a carry of -1, 0 or 1: the days moved beyond the whole days of the duration.
 * 23:00 plus 26 h is 1:00 two days later, so the carry is 1. */
fots_adjusted_time_result fots_time_adjusting_add(fots_time time, fots_duration duration);
fots_adjusted_time_result fots_time_adjusting_sub(fots_time time, fots_duration duration);

/* Return the duration forward to `other`, or from it: 0 to below 24 h. 23:00 until 1:00: 2 h. */
fots_duration_result fots_time_duration_until(fots_time time, fots_time other);
fots_duration_result fots_time_duration_since(fots_time time, fots_time other);

/* Returns `time` minus `other`, negative if `other` is later. 0:00 minus 23:00 is -23 h. */
fots_duration_result fots_time_difference(fots_time time, fots_time other);

/* ---- offsets */

/* Returns the offset of hours (-25 to 25), minutes and seconds (-59 to 59). The first one that is
 * not zero gives the sign of all. Errors: FOTS_OFFSET_HOUR_OUT_OF_RANGE,
 * FOTS_OFFSET_MINUTE_OUT_OF_RANGE, FOTS_OFFSET_SECOND_OUT_OF_RANGE. -1, 30, 0 is -01:30. */
fots_offset_result fots_offset_from_hms(int32_t hours, int32_t minutes, int32_t seconds);

/* Returns the offset of seconds, or FOTS_SECONDS_OUT_OF_RANGE outside -93599 to 93599. -5400 is
 * -01:30. */
fots_offset_result fots_offset_from_whole_seconds(int64_t seconds);

/* Returns the hours, minutes and seconds, with one sign. For -01:30: -1, -30, 0. */
fots_offset_hms_result fots_offset_as_hms(fots_offset offset);

/* Return the whole hours, the whole minutes, the minutes past the hours, and the seconds past the
 * minutes, with one sign. For -01:30: -1, -90, -30, 0. */
fots_number_result fots_offset_whole_hours(fots_offset offset);
fots_number_result fots_offset_whole_minutes(fots_offset offset);
fots_number_result fots_offset_minutes_past_hour(fots_offset offset);
fots_number_result fots_offset_seconds_past_minute(fots_offset offset);

/* Returns the offset with the other sign. For -01:30: +01:30. */
fots_offset_result fots_offset_neg(fots_offset offset);

/* ---- create durations */

/* Returns the sum of seconds and nanoseconds; FOTS_RESULT_OUT_OF_RANGE. -1 and 1 is
 * {0, -999999999}. */
fots_duration_result fots_duration_new(int64_t seconds, int32_t nanoseconds);

/* Return the duration of weeks of 7 days, days of 24 hours, hours or minutes;
 * FOTS_RESULT_OUT_OF_RANGE. -3 days is {-259200, 0}. */
fots_duration_result fots_duration_weeks(int64_t weeks);
fots_duration_result fots_duration_days(int64_t days);
fots_duration_result fots_duration_hours(int64_t hours);
fots_duration_result fots_duration_minutes(int64_t minutes);

/* Return the duration of these units. -1500 ms is {-1, -500000000}. */
fots_duration_result fots_duration_seconds(int64_t seconds);
fots_duration_result fots_duration_milliseconds(int64_t milliseconds);
fots_duration_result fots_duration_microseconds(int64_t microseconds);
fots_duration_result fots_duration_nanoseconds(int64_t nanoseconds);

/* ---- components of a duration, truncated toward zero */

/* Return the whole weeks, days, hours, minutes and seconds. -47 h: 0, -1, -47, -2820, -169200. */
fots_int64_result fots_duration_whole_weeks(fots_duration duration);
fots_int64_result fots_duration_whole_days(fots_duration duration);
fots_int64_result fots_duration_whole_hours(fots_duration duration);
fots_int64_result fots_duration_whole_minutes(fots_duration duration);
fots_int64_result fots_duration_whole_seconds(fots_duration duration);

/* Return the whole milliseconds, microseconds and nanoseconds; FOTS_RESULT_OUT_OF_RANGE outside
 * int64_t. For -1.5 s: -1500, -1500000, -1500000000. */
fots_int64_result fots_duration_whole_milliseconds(fots_duration duration);
fots_int64_result fots_duration_whole_microseconds(fots_duration duration);
fots_int64_result fots_duration_whole_nanoseconds(fots_duration duration);

/* Return the part below the second in milliseconds or microseconds. For -1.5 s: -500, -500000. */
fots_number_result fots_duration_subsec_milliseconds(fots_duration duration);
fots_number_result fots_duration_subsec_microseconds(fots_duration duration);

/* Returns the absolute value, clamped to the maximum duration. */
fots_duration_result fots_duration_abs(fots_duration duration);

/* Returns -1, 0 or 1 if the duration is less than, equal to or greater than the other one. */
fots_number_result fots_duration_compare(fots_duration duration, fots_duration other);

/* Parse a text of ISO 8601, as fots_date_parse does: a duration of hours, minutes and seconds, such as
 * "PT2H30M0.5S" or "-PT90M", and a period, which can also have years, months, weeks and days, such
 * as "P1Y2M10DT2H30M" or "-P1D". Errors: FOTS_YEARS_OUT_OF_RANGE to FOTS_MINUTES_OUT_OF_RANGE and
 * FOTS_SECONDS_OUT_OF_RANGE for the first part that is too large. "P1D" isn't a duration. */
fots_parse_duration_result fots_duration_parse(const char *text, size_t length);
fots_parse_period_result fots_period_parse(const char *text, size_t length);

/* Parse an interval of ISO 8601 by its two ends or by one end and a period, as fots_date_parse does:
 * dates such as "2024-01-01/2024-02-01", "2024-01-01/P1M" or "P1M/2024-02-01", and dates and times
 * such as "2024-01-01T08:00/PT90M". The end isn't in the range. Errors: those of a date, a time and
 * a period, FOTS_END_BEFORE_START, FOTS_PERIOD_HAS_DURATION for dates, FOTS_RESULT_OUT_OF_RANGE. */
fots_parse_date_range_result fots_date_interval_parse(const char *text, size_t length);
fots_parse_pair_range_result fots_pair_interval_parse(const char *text, size_t length);

/* Parses a repeated interval of dates, such as "R12/2024-01-31/P1M", or "R/2024-01-31/P1M" without an
 * end, to its start, its period and the number of its occurrences; fots_date_nth_period returns each
 * of them. Two dates repeat their number of days. Errors: as above, FOTS_COUNT_OUT_OF_RANGE for R0,
 * FOTS_MISSING_START and FOTS_PERIOD_NOT_POSITIVE. */
fots_parse_repeated_dates_result fots_repeated_dates_parse(const char *text, size_t length);

/* Parses a repeated interval of dates and times, such as "R12/2024-01-31T09:00/P1M", to its start, its
 * period and the number of its occurrences; fots_pair_nth_period returns each of them. Two ends repeat
 * their exact duration. Errors: as for dates, but a period may have a duration. */
fots_parse_repeated_pairs_result fots_repeated_pairs_parse(const char *text, size_t length);

/* Return a duration or a period as such a text, without parts that are zero; "PT0S" if all are.
 * FOTS_INVALID_PERIOD. {5400, 0} is "PT1H30M". */
fots_text_result fots_duration_text(fots_duration duration);
fots_period_text_result fots_period_text(fots_period period);

/* Returns the duration rounded to a multiple of a positive unit by a fots_rounding_mode;
 * FOTS_INVALID_ROUNDING_UNIT, FOTS_INVALID_ROUNDING_MODE, FOTS_RESULT_OUT_OF_RANGE. -90 s to a
 * minute by FOTS_HALF_CEIL is -60 s. */
fots_duration_result fots_duration_round(fots_duration duration, fots_duration unit, uint32_t mode);

/* ---- arithmetic of durations */

/* Return the sum, the difference, the product, the quotient truncated toward zero, and the
 * negation; FOTS_RESULT_OUT_OF_RANGE, also for a divisor of 0. Half of -3 s is -1.5 s. */
fots_duration_result fots_duration_checked_add(fots_duration duration, fots_duration other);
fots_duration_result fots_duration_checked_sub(fots_duration duration, fots_duration other);
fots_duration_result fots_duration_checked_mul(fots_duration duration, int32_t factor);
fots_duration_result fots_duration_checked_div(fots_duration duration, int32_t divisor);
fots_duration_result fots_duration_checked_neg(fots_duration duration);

/* Return the sum, the difference and the product, clamped to the minimum or maximum duration. */
fots_duration_result fots_duration_saturating_add(fots_duration duration, fots_duration other);
fots_duration_result fots_duration_saturating_sub(fots_duration duration, fots_duration other);
fots_duration_result fots_duration_saturating_mul(fots_duration duration, int32_t factor);

/* ---- months, weekdays and years */

/* Returns the number of days of a month in a year: 28 to 31. For 2, 2000: 29. */
fots_component_result fots_month_length(uint32_t month, int32_t year);

/* Return the month or weekday n places after or before. 9 months after 7 is 4. */
fots_component_result fots_month_nth_next(uint32_t month, uint32_t n);
fots_component_result fots_month_nth_prev(uint32_t month, uint32_t n);
fots_component_result fots_weekday_nth_next(uint32_t weekday, uint32_t n);
fots_component_result fots_weekday_nth_prev(uint32_t weekday, uint32_t n);

/* Returns the number of a weekday from 1 (Sunday) to 7 (Saturday). For 5 (Friday): 6. */
fots_component_result fots_weekday_number_from_sunday(uint32_t weekday);

/* Return 1 for a leap year, else 0; the days of a year (365, 366); its ISO weeks (52, 53). All
 * years are valid. */
uint32_t fots_is_leap_year(int32_t year);
uint32_t fots_days_in_year(int32_t year);
uint32_t fots_weeks_in_year(int32_t year);

/* ---- date and time of day together */

/* Return the date and time a duration later or earlier; FOTS_RESULT_OUT_OF_RANGE. 2 h after
 * 2000-02-29 23:00 is 2000-03-01 1:00. */
fots_pair_result fots_add_to_pair(fots_date date, fots_time time, fots_duration duration);
fots_pair_result fots_sub_from_pair(fots_date date, fots_time time, fots_duration duration);

/* Returns the date and time rounded as by fots_time_round; 24:00 is the next date;
 * FOTS_RESULT_OUT_OF_RANGE. 2024-02-29 23:50 to an hour by FOTS_HALF_CEIL is 2024-03-01 0:00. */
fots_pair_result fots_pair_round(fots_date date, fots_time time, fots_duration unit, uint32_t mode);

/* Return the date and time a period later, or `n` periods later at once: the date as
 * fots_date_nth_period moves it, and then the duration is added. FOTS_INVALID_PERIOD,
 * FOTS_RESULT_OUT_OF_RANGE. A month and 2 h after 2000-01-31 23:00 is 2000-03-01 1:00. */
fots_pair_result fots_pair_add_period(fots_date date, fots_time time, fots_period period);
fots_pair_result fots_pair_nth_period(fots_date date, fots_time time, fots_period period, int32_t n);

/* Returns the step that a date and time are in: the greatest `n` for which fots_pair_nth_period of
 * the start isn't after them, at most INT32_MAX. FOTS_INVALID_PERIOD, and FOTS_RESULT_OUT_OF_RANGE
 * if they are before the start, or if the period isn't positive. By months from 2000-01-31 8:00,
 * 2000-02-29 7:59 is in step 0, and 8:00 in step 1. */
fots_number_result fots_pair_step_of(fots_date start_date, fots_time start_time, fots_period period, fots_date date, fots_time time);

/* Returns the period from one date and time to another: whole units as fots_date_period_until_by
 * counts them, and then the exact rest, less than a day. fots_pair_add_period leads back to the
 * second. FOTS_INVALID_UNIT. From 2024-01-31 12:00 to 2024-03-01 11:00: a month and 23 h by
 * FOTS_MONTH. */
fots_exact_period_result fots_pair_period_until(fots_date date, fots_time time, fots_date other_date, fots_time other_time, uint32_t unit);

/* ---- Unix times: durations from 1970-01-01 0:00 UTC, without leap seconds */

/* Returns the Unix time of a date and time at an offset. 2024-02-29 0:00:00.5 UTC is
 * {1709164800, 500000000}. */
fots_duration_result fots_unix_time(fots_date date, fots_time time, fots_offset offset);

/* Returns the date and time of a Unix time at an offset; FOTS_RESULT_OUT_OF_RANGE. {1709164800, 0}
 * at +01:00 is 2024-02-29 1:00. */
fots_pair_result fots_unix_pair(fots_duration duration, fots_offset offset);

/* ---- moments: a date and a time of day at an offset
 *
 * Moments at different offsets can be the same instant. Use offset 0 for a date and time without
 * one. The examples have 2024-02-29 23:59:59.25 +01:00, {2460370, 3600, 86399250000000}. */

/* Returns the moment of these components. */
fots_moment_result fots_moment_new(fots_date date, fots_time time, fots_offset offset);

/* Returns the same instant at another offset; FOTS_RESULT_OUT_OF_RANGE. At UTC: 2024-02-29
 * 22:59:59.25. */
fots_moment_result fots_moment_to_offset(fots_moment moment, fots_offset offset);

/* Returns the same date and time of day at another offset, which is another instant. */
fots_moment_result fots_moment_replace_offset(fots_moment moment, fots_offset offset);

/* Return the moment a duration later or earlier, at the same offset; FOTS_RESULT_OUT_OF_RANGE. 2 h
 * later: 2024-03-01 1:59:59.25 +01:00. */
fots_moment_result fots_moment_checked_add(fots_moment moment, fots_duration duration);
fots_moment_result fots_moment_checked_sub(fots_moment moment, fots_duration duration);

/* Return the same, clamped to the first or last date and time at the offset. */
fots_moment_result fots_moment_saturating_add(fots_moment moment, fots_duration duration);
fots_moment_result fots_moment_saturating_sub(fots_moment moment, fots_duration duration);

/* Returns the duration from the instant of `other` to the instant of `moment`, negative if `other`
 * is later. From 0:00 +01:00 to 0:00 UTC: 1 h. */
fots_duration_result fots_moment_duration_since(fots_moment moment, fots_moment other);

/* Returns the moment whose date and time are rounded as by fots_pair_round, at the same offset. */
fots_moment_result fots_moment_round(fots_moment moment, fots_duration unit, uint32_t mode);

/* Returns -1, 0 or 1 if the instant is before, the same as or after the other one. */
fots_number_result fots_moment_compare(fots_moment moment, fots_moment other);

/* Return the moment at UTC of a Unix time; FOTS_TIMESTAMP_OUT_OF_RANGE outside the range.
 * 1709247599 is 2024-02-29 22:59:59. fots_duration_new makes a Unix time of a struct timespec. */
fots_moment_result fots_moment_from_unix_timestamp(int64_t seconds);
fots_moment_result fots_moment_from_unix_time(fots_duration duration);

/* Return the Unix time in whole seconds, rounded down, or as a duration. Half a second before 1970:
 * -1 and {0, -500000000}. In a struct timespec, tv_nsec is time % 1000000000. */
fots_int64_result fots_moment_unix_timestamp(fots_moment moment);
fots_duration_result fots_moment_unix_time(fots_moment moment);

/* ---- print texts: at most 38 ASCII bytes and a zero byte, so `bytes` is a C string */

/* Return the date as in ISO 8601, "2024-02-29", "2024-060" or "2024-W09-4", and its Julian day,
 * "J2460370". A negative year has a minus sign, and one above 9999 a plus sign: "+999999-12-31". */
fots_text_result fots_date_calendar_text(fots_date date);
fots_text_result fots_date_ordinal_text(fots_date date);
fots_text_result fots_date_week_text(fots_date date);
fots_text_result fots_date_julian_text(fots_date date);

/* Returns the moment as in RFC 3339: "2024-02-29T23:59:59.25+01:00". The fraction has no trailing
 * zeros, and UTC is "Z". FOTS_RESULT_OUT_OF_RANGE for a year outside 0 to 9999, and for an offset
 * with seconds or of 24 hours or more. */
fots_text_result fots_moment_text(fots_date date, fots_time time, fots_offset offset);

/* Returns the Unix time, such as "@1709164800.5" or "@-0.000000001". */
fots_text_result fots_unix_text(fots_date date, fots_time time, fots_offset offset);

/* Return the English name of a month or a weekday, such as "February" or "Thursday". */
fots_text_result fots_month_name(uint32_t month);
fots_text_result fots_weekday_name(uint32_t weekday);

/* ---- parse texts
 *
 * A text is a pointer and a length, and needs no zero byte. The form must match exactly. First come
 * FOTS_UNEXPECTED_BYTE and FOTS_UNEXPECTED_END, then the first component out of range. */

/* Parses a calendar date, an ordinal date or a week date of ISO 8601, as they are printed. Errors:
 * FOTS_MONTH_OUT_OF_RANGE, FOTS_YEAR_OUT_OF_RANGE, FOTS_DAY_OUT_OF_RANGE,
 * FOTS_ORDINAL_OUT_OF_RANGE, FOTS_WEEK_OUT_OF_RANGE; FOTS_WEEKDAY_OUT_OF_RANGE after the last date.
 * "2024x" is FOTS_UNEXPECTED_BYTE at 4, "2024-02-3" FOTS_UNEXPECTED_END, and "2023-02-29"
 * FOTS_DAY_OUT_OF_RANGE. */
fots_parse_date_result fots_date_parse(const char *text, size_t length);

/* Parses a Julian day, such as "J2460370" or "J-1". Error: FOTS_JULIAN_DAY_OUT_OF_RANGE. */
fots_parse_date_result fots_julian_day_parse(const char *text, size_t length);

/* Parses a time of day, such as "9:05" or "23:59:59.25": one or two digits of the hour, a colon, and
 * two digits of the minute; then optionally a colon and two digits of the second; and then
 * optionally a point and one to nine digits. Errors: FOTS_HOUR_OUT_OF_RANGE,
 * FOTS_MINUTE_OUT_OF_RANGE, FOTS_SECOND_OUT_OF_RANGE (also 60). "9:05:" is FOTS_UNEXPECTED_END, and
 * "24:00" FOTS_HOUR_OUT_OF_RANGE. */
fots_parse_time_result fots_time_parse(const char *text, size_t length);

/* Parses an offset: Z, z, or a sign and two digits each of the hours, the minutes and optionally the
 * seconds, such as "+05:30" or "-00:00:01". Errors: FOTS_OFFSET_HOUR_OUT_OF_RANGE above 25,
 * FOTS_OFFSET_MINUTE_OUT_OF_RANGE, FOTS_OFFSET_SECOND_OUT_OF_RANGE. "+1:00" is FOTS_UNEXPECTED_BYTE
 * at 2, and "+01" FOTS_UNEXPECTED_END. */
fots_parse_offset_result fots_offset_parse(const char *text, size_t length);

/* Parses a date and a time of day, such as "2024-02-29 23:59:59.25" or "2024-W09-4T9:05". The date is
 * as for fots_date_parse, and the time as for fots_time_parse, with T, t or a space between them. The
 * errors are as for the date, then as for the time, and the offset is 0. "2024-02-29" is
 * FOTS_UNEXPECTED_END, and "2023-02-29T24:00" FOTS_DAY_OUT_OF_RANGE. */
fots_parse_moment_result fots_pair_parse(const char *text, size_t length);

/* Parses a date, a time of day and an offset, such as "2024-02-29 9:05 +01:00". The date and the time
 * are as for fots_pair_parse, and the offset as for fots_offset_parse, with one space before it or
 * none. The errors are as for fots_pair_parse, then as for the offset. "2024-02-29T9:05" is
 * FOTS_UNEXPECTED_END, and "2024-02-29T24:00+26:00" FOTS_HOUR_OUT_OF_RANGE. */
fots_parse_moment_result fots_offset_date_time_parse(const char *text, size_t length);

/* Parse any format of ISO 8601, in the extended or in the basic format: a date such as "20240229",
 * "2024060" or "2024W094"; a time of day such as "225959,25", "T2259" or "22"; both, with T, t or a
 * space between them, where a date alone is its midnight; and both with an offset, such as "Z",
 * "+01", "+0100" or "+01:00:30", with one space before it or none. A fraction has any number of
 * digits, of which those after the ninth are zeros. The errors are as for fots_date_parse,
 * fots_time_parse, fots_pair_parse and fots_offset_date_time_parse. "2024-0229" is
 * FOTS_UNEXPECTED_BYTE at 8, and "20240229T10" is FOTS_UNEXPECTED_END for fots_moment_parse_iso. */
fots_parse_date_result fots_date_parse_iso(const char *text, size_t length);
fots_parse_time_result fots_time_parse_iso(const char *text, size_t length);
fots_parse_moment_result fots_pair_parse_iso(const char *text, size_t length);
fots_parse_moment_result fots_moment_parse_iso(const char *text, size_t length);

/* Parses a moment of RFC 3339, such as "2024-02-29T23:59:59.25+01:00". T may be t or a space, and Z
 * may be z. Digits after the ninth of a fraction are ignored. Errors: FOTS_MONTH_OUT_OF_RANGE,
 * FOTS_DAY_OUT_OF_RANGE, FOTS_HOUR_OUT_OF_RANGE, FOTS_MINUTE_OUT_OF_RANGE, FOTS_SECOND_OUT_OF_RANGE
 * (also 60), FOTS_OFFSET_HOUR_OUT_OF_RANGE above 23, FOTS_OFFSET_MINUTE_OUT_OF_RANGE. */
fots_parse_moment_result fots_moment_parse(const char *text, size_t length);

/* Parses a Unix time, such as "@1709164800.5", to a moment at UTC: @, a minus sign if negative, at
 * most 18 digits, and optionally a fraction of at most 9. Error: FOTS_TIMESTAMP_OUT_OF_RANGE. */
fots_parse_moment_result fots_unix_parse(const char *text, size_t length);

/* ---- formats
 *
 * A format is a struct that you copy as you like. FORMATS.md lists the items, and says which values
 * a format holds: those that are read back from their texts. */

/* Return the format of a text in the syntax of strftime, such as "%d/%m/%Y", or of the Rust crate
 * time, such as "[day]/[month]/[year]". FOTS_UNEXPECTED_BYTE at the first byte that isn't UTF-8,
 * FOTS_UNKNOWN_ITEM at a position, or FOTS_TOO_MANY_ITEMS. */
fots_format_result fots_format_new(const char *text, size_t text_length);
fots_format_result fots_format_from_description(const char *text, size_t text_length);

/* Write the text of a value to the front of the bytes, without a zero byte, and return its length.
 * Errors: FOTS_INVALID_FORMAT; FOTS_UNSUPPORTED_ITEM, as for the hour of a date, and for "%Z";
 * FOTS_BUFFER_TOO_SHORT with the length. After an error the bytes are as before. No text is longer
 * than FOTS_MAX_ITEMS * FOTS_MAX_ITEM_LENGTH. */
fots_length_result fots_date_format(fots_date date, const fots_format *format, char *bytes, size_t bytes_length);
fots_length_result fots_time_format(fots_time time, const fots_format *format, char *bytes, size_t bytes_length);
fots_length_result fots_offset_format(fots_offset offset, const fots_format *format, char *bytes, size_t bytes_length);
fots_length_result fots_pair_format(fots_date date, fots_time time, const fots_format *format, char *bytes, size_t bytes_length);
fots_length_result fots_moment_format(fots_moment moment, const fots_format *format, char *bytes, size_t bytes_length);

/* Parse the text of a value that the format holds, and accept no other text. Errors:
 * FOTS_INVALID_FORMAT; FOTS_INSUFFICIENT_FORMAT, as for "%m" and a date; FOTS_UNEXPECTED_BYTE,
 * FOTS_UNEXPECTED_END, the first component out of range, or FOTS_CONTRADICTION, as for the weekday
 * of "Wed 2024-02-29". The pair is a date and a time of day at the offset 0. */
fots_parse_date_result fots_date_parse_format(const char *text, size_t text_length, const fots_format *format);
fots_parse_time_result fots_time_parse_format(const char *text, size_t text_length, const fots_format *format);
fots_parse_offset_result fots_offset_parse_format(const char *text, size_t text_length, const fots_format *format);
fots_parse_moment_result fots_pair_parse_format(const char *text, size_t text_length, const fots_format *format);
fots_parse_moment_result fots_moment_parse_format(const char *text, size_t text_length, const fots_format *format);

/* Writes the names of a language by its code of ISO 639-1, such as "fr", from a locale of glibc. The
 * names stay valid. For another code writes empty names and returns FOTS_UNKNOWN_LANGUAGE. */
int32_t fots_names_of_language(const char *code, size_t code_length, fots_language_names *names);

/* Checks that each text of a format with names has one value. Errors: FOTS_INVALID_FORMAT;
 * FOTS_INVALID_NAMES; FOTS_AMBIGUOUS_NAMES if two names of an item are the same, or a name goes on to
 * another one with what comes after the item, as "Pazar" of "%Atesi" to "Pazartesi" in Turkish;
 * FOTS_AMBIGUOUS_NUMBER if a number does, as in Japanese that of "%-d%B" to "1" of "1月". */
fots_names_check_result fots_names_check(const fots_format *format, const fots_language_names *names);

/* Write the text of a value like fots_date_format, with names in place of the English names, such as
 * "29 février 2024" by "%-d %B %Y". Error, after FOTS_INVALID_FORMAT: FOTS_INVALID_NAMES. No text is
 * longer than FOTS_MAX_ITEMS * FOTS_MAX_NAME_LENGTH. The bytes must not overlap the names. */
fots_length_result fots_date_format_names(fots_date date, const fots_format *format, const fots_language_names *names, char *bytes, size_t bytes_length);
fots_length_result fots_time_format_names(fots_time time, const fots_format *format, const fots_language_names *names, char *bytes, size_t bytes_length);
fots_length_result fots_pair_format_names(fots_date date, fots_time time, const fots_format *format, const fots_language_names *names, char *bytes,
    size_t bytes_length);
fots_length_result fots_moment_format_names(fots_moment moment, const fots_format *format, const fots_language_names *names, char *bytes,
    size_t bytes_length);

/* Parse the text of a value like fots_date_parse_format, with names in place of the English names.
 * Bytes are compared as they are, and the longest name wins. Errors: FOTS_INVALID_FORMAT;
 * FOTS_INVALID_NAMES; FOTS_INSUFFICIENT_FORMAT; FOTS_AMBIGUOUS_NAMES and FOTS_AMBIGUOUS_NUMBER, as
 * for fots_names_check, with the index of the item as position; then those of the text. */
fots_parse_date_result fots_date_parse_names(const char *text, size_t text_length, const fots_format *format, const fots_language_names *names);
fots_parse_time_result fots_time_parse_names(const char *text, size_t text_length, const fots_format *format, const fots_language_names *names);
fots_parse_moment_result fots_pair_parse_names(const char *text, size_t text_length, const fots_format *format, const fots_language_names *names);
fots_parse_moment_result fots_moment_parse_names(const char *text, size_t text_length, const fots_format *format, const fots_language_names *names);

/* No pivot, for a function that takes one. */
#define FOTS_NO_PIVOT (-1)

/* Parse the text of a value that the format holds, or a variant of it (FORMATS.md): numbers with or
 * without padding, names in any case or by their first three letters, and any run of white space for
 * a space. With a pivot from 0 to 9900, "%y" is one of the 100 years from it on: 1970 to 2069 with
 * 1970. Errors as above; FOTS_INSUFFICIENT_FORMAT also if two values could have the same text, as for
 * "%Y%m%d", and for a pivot above 9900 or a format without "%y". */
fots_parse_date_result fots_date_parse_leniently(const char *text, size_t text_length, const fots_format *format, int32_t pivot);
fots_parse_time_result fots_time_parse_leniently(const char *text, size_t text_length, const fots_format *format, int32_t pivot);
fots_parse_moment_result fots_pair_parse_leniently(const char *text, size_t text_length, const fots_format *format, int32_t pivot);
fots_parse_moment_result fots_moment_parse_leniently(const char *text, size_t text_length, const fots_format *format, int32_t pivot);

/* ---- whole columns
 *
 * A column is one array for each component of a value: Julian days and years as int32_t, ordinals
 * as uint16_t, months, days, weeks and weekdays as uint8_t. Each row has the result and the status
 * of the single call. After an error it has FOTS_NO_VALUE for a date, a year, an offset or a count,
 * FOTS_NO_TIME for a time, and 0 for a component with 8 or 16 bits, which the next call rejects. A
 * Unix time is INT64_MIN then, which fots_zone_offsets accepts, so check the status.
 *
 * A function returns the number of rows without a result. Each array is followed by its length. If the
 * lengths differ, it writes nothing and returns FOTS_LENGTH_MISMATCH. A written array overlaps no
 * other, except that it may be an array of the same type that the call reads. */
#define FOTS_LENGTH_MISMATCH SIZE_MAX

size_t fots_dates_from_julian_days(const int64_t *julian_days, size_t julian_days_length, int32_t *dates, size_t dates_length,
    uint8_t *statuses, size_t length);

size_t fots_dates_from_calendar_dates(const int32_t *years, size_t years_length, const uint8_t *months, size_t months_length,
    const uint8_t *days, size_t days_length, int32_t *dates, size_t dates_length, uint8_t *statuses, size_t length);

size_t fots_dates_from_ordinal_dates(const int32_t *years, size_t years_length, const uint16_t *ordinals, size_t ordinals_length,
    int32_t *dates, size_t dates_length, uint8_t *statuses, size_t length);

size_t fots_dates_from_iso_week_dates(const int32_t *years, size_t years_length, const uint8_t *weeks, size_t weeks_length,
    const uint8_t *weekdays, size_t weekdays_length, int32_t *dates, size_t dates_length, uint8_t *statuses, size_t length);

size_t fots_dates_to_calendar_dates(const int32_t *dates, size_t dates_length, int32_t *years, size_t years_length, uint8_t *months,
    size_t months_length, uint8_t *days, size_t days_length, uint8_t *statuses, size_t length);

size_t fots_dates_to_ordinal_dates(const int32_t *dates, size_t dates_length, int32_t *years, size_t years_length, uint16_t *ordinals,
    size_t ordinals_length, uint8_t *statuses, size_t length);

size_t fots_dates_to_iso_week_dates(const int32_t *dates, size_t dates_length, int32_t *years, size_t years_length, uint8_t *weeks,
    size_t weeks_length, uint8_t *weekdays, size_t weekdays_length, uint8_t *statuses, size_t length);

size_t fots_dates_weekdays(const int32_t *dates, size_t dates_length, uint8_t *weekdays, size_t weekdays_length, uint8_t *statuses,
    size_t length);

/* Converts years, months and days to ISO week dates. */
size_t fots_calendar_dates_to_iso_week_dates(const int32_t *years, size_t years_length, const uint8_t *months, size_t months_length,
    const uint8_t *days, size_t days_length, int32_t *iso_years, size_t iso_years_length, uint8_t *weeks, size_t weeks_length,
    uint8_t *weekdays, size_t weekdays_length, uint8_t *statuses, size_t length);

size_t fots_dates_add_days(const int32_t *dates, size_t dates_length, const int64_t *days, size_t days_length, int32_t *moved,
    size_t moved_length, uint8_t *statuses, size_t length);

size_t fots_dates_add_months(const int32_t *dates, size_t dates_length, const int32_t *months, size_t months_length, int32_t *moved,
    size_t moved_length, uint8_t *statuses, size_t length);

/* Round times of day to multiples of a unit like fots_time_round, and dates and times like
 * fots_pair_round. A moment is rounded as its date and time, and keeps its offset. */
size_t fots_times_round(const uint64_t *times, size_t times_length, fots_duration unit, uint32_t mode, uint64_t *rounded_times,
    size_t rounded_times_length, uint8_t *statuses, size_t length);
size_t fots_pairs_round(const int32_t *dates, size_t dates_length, const uint64_t *times, size_t times_length, fots_duration unit,
    uint32_t mode, int32_t *rounded_dates, size_t rounded_dates_length, uint64_t *rounded_times, size_t rounded_times_length,
    uint8_t *statuses, size_t length);

/* ---- columns of texts
 *
 * One array has the bytes of all texts, and another their bounds, one more than rows, as in Arrow:
 * text k is the bytes from bounds[k] to bounds[k + 1]. Times are uint64_t, and offsets int32_t. */

/* Parses like fots_date_parse, without positions. FOTS_INVALID_BOUNDS if the bounds of a row are
 * out of range or descend. */
size_t fots_dates_parse(const char *bytes, size_t bytes_length, const int32_t *bounds, size_t bounds_length, int32_t *dates,
    size_t dates_length, uint8_t *statuses, size_t length);

/* Parses like fots_moment_parse, in the same way. */
size_t fots_moments_parse(const char *bytes, size_t bytes_length, const int32_t *bounds, size_t bounds_length, int32_t *dates,
    size_t dates_length, uint64_t *times, size_t times_length, int32_t *offsets, size_t offsets_length, uint8_t *statuses, size_t length);

/* Parse like fots_date_parse_iso and fots_moment_parse_iso, in the same way. */
size_t fots_dates_parse_iso(const char *bytes, size_t bytes_length, const int32_t *bounds, size_t bounds_length, int32_t *dates,
    size_t dates_length, uint8_t *statuses, size_t length);
size_t fots_moments_parse_iso(const char *bytes, size_t bytes_length, const int32_t *bounds, size_t bounds_length, int32_t *dates,
    size_t dates_length, uint64_t *times, size_t times_length, int32_t *offsets, size_t offsets_length, uint8_t *statuses, size_t length);

/* Parses like fots_duration_parse, in the same way: the seconds and the nanoseconds of durations. */
size_t fots_durations_parse(const char *bytes, size_t bytes_length, const int32_t *bounds, size_t bounds_length, int64_t *seconds,
    size_t seconds_length, int32_t *nanoseconds, size_t nanoseconds_length, uint8_t *statuses, size_t length);

/* The bytes of room for each text of the next calls. */
#define FOTS_MAX_DATE_LENGTH 13
#define FOTS_MAX_MOMENT_LENGTH 38
#define FOTS_MAX_DURATION_LENGTH 36

/* Prints like fots_date_calendar_text, one text after another. A row without a result has no bytes.
 * Bytes after the last bound stay as they are. FOTS_LENGTH_MISMATCH also if there are fewer than
 * FOTS_MAX_DATE_LENGTH bytes for each row, or that is more than INT32_MAX in all. */
size_t fots_dates_calendar_texts(const int32_t *dates, size_t dates_length, char *bytes, size_t bytes_length, int32_t *bounds,
    size_t bounds_length, uint8_t *statuses, size_t length);

/* Prints like fots_moment_text, in the same way, with FOTS_MAX_MOMENT_LENGTH bytes for each row. */
size_t fots_moments_texts(const int32_t *dates, size_t dates_length, const uint64_t *times, size_t times_length, const int32_t *offsets,
    size_t offsets_length, char *bytes, size_t bytes_length, int32_t *bounds, size_t bounds_length, uint8_t *statuses, size_t length);

/* Prints like fots_duration_text, in the same way, with FOTS_MAX_DURATION_LENGTH bytes for each row. */
size_t fots_durations_texts(const int64_t *seconds, size_t seconds_length, const int32_t *nanoseconds, size_t nanoseconds_length, char *bytes,
    size_t bytes_length, int32_t *bounds, size_t bounds_length, uint8_t *statuses, size_t length);

/* Parses like fots_date_parse_format, without positions, and prints like fots_date_format, in the
 * same way. Each row of the bytes has room for FOTS_MAX_ITEM_LENGTH bytes for each item of the
 * format, or for one item if there is none. */
size_t fots_dates_parse_format(const char *bytes, size_t bytes_length, const int32_t *bounds, size_t bounds_length, const fots_format *format,
    int32_t *dates, size_t dates_length, uint8_t *statuses, size_t length);
size_t fots_dates_format(const int32_t *dates, size_t dates_length, const fots_format *format, char *bytes, size_t bytes_length,
    int32_t *bounds, size_t bounds_length, uint8_t *statuses, size_t length);

/* ---- time zones
 *
 * A zone is the bytes of a TZif file, such as /usr/share/zoneinfo/Europe/Berlin, or a POSIX text,
 * such as CET-1CEST,M3.5.0,M10.5.0/3, and where its changes are there. fots_zone_from_file and
 * fots_zone_from_posix check the bytes once, in 1.5 microseconds for Europe/Berlin. Keep them
 * unchanged while you use the zone; if they move, set the pointer. After a change by hand results
 * can be wrong, but no function reads past the bytes. A zone with other numbers than a function makes is an
 * invalid argument, FOTS_INVALID_ZONE. Unix times are in seconds. The examples are for
 * Europe/Berlin. */
typedef struct fots_zone_clock {
    int32_t offset; /* in seconds, positive to the east, from -93599 to 93599 */
    uint32_t is_daylight;
    size_t name_start; /* this and the next field are positions in the bytes of the zone */
    size_t name_end;
} fots_zone_clock;

typedef struct fots_zone_yearly {
    uint8_t month; /* from 0 */
    uint8_t week; /* 5 for the last one */
    uint8_t weekday; /* from 0 for Monday */
    uint8_t unused; /* 0, so that equal zones have equal bytes */
    int32_t time; /* in seconds after midnight by the clocks before, from -604800 to 604800 */
    fots_zone_clock clock;
} fots_zone_yearly;

typedef struct fots_zone_layout {
    size_t times; /* this and the next fields are positions in the bytes of the zone */
    size_t indexes;
    size_t types;
    size_t names;
    size_t names_end;
    size_t changes; /* how many there are, as for the next field */
    size_t kinds;
} fots_zone_layout;

typedef struct fots_zone_parts {
    uint32_t rule; /* 1 for a zone without a rule after its last change, 2 with one */
    uint32_t skip; /* the changes of the rule that are not after that change */
    fots_zone_layout layout;
    fots_zone_clock first;
    fots_zone_yearly one; /* the changes of the rule, or zeros, as for the next field */
    fots_zone_yearly other;
} fots_zone_parts;

typedef struct fots_zone {
    const uint8_t *bytes;
    size_t bytes_length;
    fots_zone_parts parts;
} fots_zone;

typedef struct fots_zone_parts_result {
    int32_t status;
    uint32_t unused; /* 0 */
    size_t position; /* of the first wrong byte, from 0, or the length; or SIZE_MAX */
    fots_zone_parts parts; /* or some that every call rejects as FOTS_INVALID_ZONE */
} fots_zone_parts_result;

typedef struct fots_zone_result {
    int32_t status;
    uint32_t unused; /* 0 */
    size_t position; /* as above */
    fots_zone zone; /* or one that every call rejects as FOTS_INVALID_ZONE */
} fots_zone_result;

typedef struct fots_local_type_result {
    int32_t status;
    fots_offset offset; /* or {FOTS_NO_VALUE} */
    uint32_t is_daylight; /* 1 for daylight saving time, else 0 */
    uint32_t unused; /* 0 */
    size_t abbreviation; /* its position in the bytes of the zone, or SIZE_MAX */
    size_t abbreviation_length; /* or 0 */
} fots_local_type_result;

/* How often the clocks of a zone show a date and a time of day: once, never or twice. */
enum fots_local_kind { FOTS_SINGLE = 1, FOTS_GAP = 2, FOTS_FOLD = 3 };

/* Unix times and the offsets there: the same two times for FOTS_SINGLE, both instants of a fold in
 * order, and the results of FOTS_EARLIER and FOTS_LATER for a gap. */
typedef struct fots_local_result {
    int32_t status;
    uint32_t kind; /* a fots_local_kind, or 0 */
    int64_t earlier; /* or INT64_MIN, as for the next field */
    int64_t later;
    fots_offset earlier_offset; /* or {FOTS_NO_VALUE}, as for the next field */
    fots_offset later_offset;
} fots_local_result;

/* What a date and a time mean. In a gap, FOTS_COMPATIBLE and FOTS_LATER move forward by the length
 * of the gap, and FOTS_EARLIER back; in a fold, FOTS_COMPATIBLE and FOTS_EARLIER mean the first. */
enum fots_policy { FOTS_COMPATIBLE = 0, FOTS_EARLIER = 1, FOTS_LATER = 2, FOTS_REJECT = 3 };

/* Check bytes, and return the parts of their zone, or the first error with its position:
 * FOTS_UNEXPECTED_END, or one of FOTS_NOT_A_ZONE_FILE to FOTS_TRAILING_BYTES. "CET" is
 * FOTS_INVALID_POSIX_OFFSET at 3. */
fots_zone_parts_result fots_zone_file_parts(const uint8_t *bytes, size_t length);
fots_zone_parts_result fots_zone_posix_parts(const char *text, size_t length);

/* Return the zone of the bytes of a file, or of a POSIX text, or the first error. Neither opens a
 * file. */
static inline fots_zone_result fots_zone_from_file(const uint8_t *bytes, size_t length)
{
    const fots_zone_parts_result found = fots_zone_file_parts(bytes, length);
    const fots_zone_result made = {found.status, 0, found.position, {bytes, length, found.parts}};
    return made;
}

static inline fots_zone_result fots_zone_from_posix(const char *text, size_t length)
{
    const fots_zone_parts_result found = fots_zone_posix_parts(text, length);
#ifdef __cplusplus
    const uint8_t *bytes = reinterpret_cast<const uint8_t *>(text);
#else
    const uint8_t *bytes = (const uint8_t *)text;
#endif
    const fots_zone_result made = {found.status, 0, found.position, {bytes, length, found.parts}};
    return made;
}

/* Return the offset at a Unix time; also whether this is daylight saving time, and its
 * abbreviation. 1711846800 is the start of +02:00, CEST. */
fots_offset_result fots_zone_offset(const fots_zone *zone, int64_t seconds);
fots_local_type_result fots_zone_local_type(const fots_zone *zone, int64_t seconds);

/* Return the Unix time of the first change after a Unix time, or of the last change at or before
 * it; FOTS_RESULT_OUT_OF_RANGE if there is none. After 1700000000: 1711846800. */
fots_int64_result fots_zone_next_change(const fots_zone *zone, int64_t seconds);
fots_int64_result fots_zone_previous_change(const fots_zone *zone, int64_t seconds);

/* Returns the same instant in a zone; FOTS_RESULT_OUT_OF_RANGE. 2024-03-31 1:00 UTC is 3:00
 * +02:00. */
fots_moment_result fots_moment_in_zone(fots_moment moment, const fots_zone *zone);

/* Writes the text of the same instant in a zone, as fots_moment_format does, with the abbreviation
 * as "%Z"; FOTS_INVALID_FORMAT, FOTS_INVALID_ZONE, FOTS_RESULT_OUT_OF_RANGE, FOTS_UNSUPPORTED_ITEM
 * for an abbreviation of more than 15 bytes, and FOTS_BUFFER_TOO_SHORT. 2024-03-31 1:00 UTC is
 * "03:00 CEST" by "%H:%M %Z". */
fots_length_result fots_moment_format_in_zone(fots_moment moment, const fots_zone *zone, const fots_format *format, char *bytes,
    size_t bytes_length);

/* Returns exactly the instants at which the clocks of a zone show a date and a time of day.
 * 2024-10-27 2:30 is a fold, of 1729989000 at +02:00 and 1729992600 at +01:00; 2024-03-31 2:30 is a
 * gap. */
fots_local_result fots_zone_resolve(const fots_zone *zone, fots_date date, fots_time time);

/* Returns the moment that a date and a time of day mean by a fots_policy. Errors:
 * FOTS_INVALID_POLICY, FOTS_SKIPPED_TIME and FOTS_REPEATED_TIME for FOTS_REJECT,
 * FOTS_RESULT_OUT_OF_RANGE. 2024-03-31 2:30 is 3:30 +02:00 by FOTS_COMPATIBLE. */
fots_moment_result fots_zone_moment(const fots_zone *zone, fots_date date, fots_time time, uint32_t policy);

/* Writes the moments that the readings of a set mean by FOTS_COMPATIBLE, after a moment, in order,
 * each once, and returns their number: `moments_length`, or fewer if no more follow. An UNTIL with
 * Z ends the rule at its instant. It uses only the bytes of the zone, and checks them again. Errors
 * are those of fots_recurrence_readings, and then FOTS_INVALID_ZONE if they are not a zone. The
 * array must not overlap the set or the zone. "FREQ=DAILY" from 2024-03-30 2:30 has 2024-03-31 3:30
 * +02:00 after 2024-03-31 0:00 UTC. */
fots_recurrence_result fots_recurrence_moments(const fots_recurrence_set *set, const fots_zone *zone, fots_moment after, fots_moment *moments,
    size_t moments_length);

/* Writes the moments of a set like fots_recurrence_moments, with a cursor that holds what is counted
 * of COUNT. For the next page pass the cursor, the same set and zone, and the last moment as
 * `after`. After an error the cursor is as before. It must not overlap the array. "FREQ=DAILY" from
 * 2024-03-30 2:30 has 2024-03-31 3:30 +02:00 on a page of one moment after 2024-03-31 0:00 UTC. */
fots_recurrence_result fots_recurrence_next_moments(const fots_recurrence_set *set, const fots_zone *zone, fots_moment after,
    fots_recurrence_cursor *cursor, fots_moment *moments, size_t moments_length);

/* Writes the moments of an event with a local DTSTART in a zone, after a moment, as
 * fots_recurrence_moments does. Values of RDATE and EXDATE with Z are instants. After errors of the
 * lines come FOTS_INVALID_MOMENT, FOTS_INVALID_ZONE, and FOTS_WRONG_KIND with the first of DTSTART,
 * RDATE and EXDATE with a date, or DTSTART with a Z. The array must not overlap the lines or the
 * zone. "DTSTART:20240330T023000\nRRULE:FREQ=DAILY;COUNT=2" in Berlin has 2024-03-31 3:30 +02:00
 * after 2024-03-31 0:00 UTC. */
fots_event_set_result fots_event_moments(const char *lines, size_t lines_length, const fots_zone *zone, fots_moment after,
    fots_moment *moments, size_t moments_length);

/* Writes the offsets at Unix times, as other calls for columns do. */
size_t fots_zone_offsets(const fots_zone *zone, const int64_t *seconds, size_t seconds_length, int32_t *offsets, size_t offsets_length,
    uint8_t *statuses, size_t length);

/* Writes the Unix times of readings by a policy: a reading is the seconds by the clock since
 * 1970-01-01 0:00. Errors: FOTS_INVALID_POLICY, FOTS_RESULT_OUT_OF_RANGE for a reading outside
 * -2^60 to 2^60, FOTS_SKIPPED_TIME and FOTS_REPEATED_TIME for FOTS_REJECT. */
size_t fots_zone_instants(const fots_zone *zone, const int64_t *readings, size_t readings_length, uint32_t policy, int64_t *seconds,
    size_t seconds_length, uint8_t *statuses, size_t length);

/* ---- date-times in a zone: moments with the offset of the zone
 *
 * Each call takes a zone, and first a moment if it moves one; it fails with FOTS_WRONG_OFFSET if
 * the offset of the moment isn't the zone's at its instant. Compare them, and count the duration
 * between two, as moments. fots_moment_in_zone converts to a zone. A result is out of range,
 * FOTS_RESULT_OUT_OF_RANGE, if what the clocks show is. The examples are in Europe/Berlin. */

/* Returns the moment at a Unix time. {1711846800, 0} is 2024-03-31 3:00 +02:00. */
fots_moment_result fots_zoned_at(const fots_zone *zone, fots_duration unix_time);

/* Returns the moment that a date and a time of day mean by a fots_policy, as fots_zone_moment, but
 * in a gap by its instant: the date and time at the offset before the gap, or after it for
 * FOTS_EARLIER, as the clocks show it then. This differs only if another change comes within the
 * length of the gap. The errors are the same. */
fots_moment_result fots_zoned_from_local(const fots_zone *zone, fots_date date, fots_time time, uint32_t policy);

/* Moves a moment to another date and time of day. Keeps its offset if the clocks show them at it,
 * and otherwise goes by the policy, as fots_zoned_from_local does. 2024-10-27 2:30 +01:00 at 2:45
 * is 2:45 +01:00. Pass the date or the time of the moment to replace only the other one. */
fots_moment_result fots_zoned_with_local(const fots_zone *zone, fots_moment moment, fots_date date, fots_time time, uint32_t policy);

/* Return the moment a duration later or earlier. 1 h after 2024-03-31 1:30 +01:00 is 3:30 +02:00. */
fots_moment_result fots_zoned_checked_add(const fots_zone *zone, fots_moment moment, fots_duration duration);
fots_moment_result fots_zoned_checked_sub(const fots_zone *zone, fots_moment moment, fots_duration duration);

/* Returns the moment a period later: the date as fots_date_add_period moves it, with the same time
 * of day, by the policy as in fots_zoned_from_local, and then the duration later. A period with
 * only a duration ignores the policy. FOTS_INVALID_PERIOD. A day after 2024-03-30 2:30 +01:00 is
 * 2024-03-31 3:30 +02:00. */
fots_moment_result fots_zoned_add_period(const fots_zone *zone, fots_moment moment, fots_period period, uint32_t policy);

/* Returns the moment `n` periods later at once, without a drift. 2 months after 2024-01-31 2:30
 * +01:00 is 2024-03-31 3:30 +02:00. */
fots_moment_result fots_zoned_nth_period(const fots_zone *zone, fots_moment moment, fots_period period, int32_t n, uint32_t policy);

/* Returns the period from one moment to another: the whole units up to the last day on which the
 * time of day, by the policy, isn't past the other moment, and then the exact rest. Adding it by the
 * same policy gives the other moment. `unit` is a fots_calendar_unit; FOTS_INVALID_UNIT. From
 * 2024-03-30 12:00 +01:00 to 2024-03-31 13:00 +02:00: a day and 1 h by FOTS_DAY. */
fots_exact_period_result fots_zoned_period_until(const fots_zone *zone, fots_moment moment, fots_moment other, uint32_t unit, uint32_t policy);

/* Moves a moment to another date, such as the next working day. The time of day stays, by the policy
 * as in fots_zoned_from_local. On its own date it stays as it is, also in the second half of a fold.
 * 2024-03-30 2:30 +01:00 on 2024-03-31 is 3:30 +02:00. */
fots_moment_result fots_zoned_moved_to(const fots_zone *zone, fots_moment moment, fots_date date, uint32_t policy);

/* Return the start of the day, ISO week, month, quarter or year, as fots_zoned_start_of_day does,
 * and its end, a nanosecond before the start of the next one. `unit` is a fots_calendar_unit;
 * FOTS_INVALID_UNIT. The month of 2024-03-31 12:00 +02:00 starts at 2024-03-01 0:00 +01:00 and ends
 * at 2024-03-31 23:59:59.999999999 +02:00. */
fots_moment_result fots_zoned_start_of(const fots_zone *zone, fots_moment moment, uint32_t unit);
fots_moment_result fots_zoned_end_of(const fots_zone *zone, fots_moment moment, uint32_t unit);

/* Returns the moment rounded to a multiple of a unit since the midnight of its date, by what the
 * clocks show, as by fots_pair_round. It keeps its offset if the clocks show the result at it, and
 * otherwise goes by FOTS_COMPATIBLE. To 24 hours it is rounded to the start of its day or of the
 * next one. 2024-03-31 1:50 +01:00 to an hour by FOTS_HALF_CEIL is 3:00 +02:00. */
fots_moment_result fots_zoned_round(const fots_zone *zone, fots_moment moment, fots_duration unit, uint32_t mode);

/* Return the first instant at which the clocks have reached a date, and the length of the day from
 * there to the start of the next. 2024-03-31 has 23 h. In Toronto 1919-03-31 starts at 0:30. */
fots_moment_result fots_zoned_start_of_day(const fots_zone *zone, fots_date date);
fots_duration_result fots_zoned_day_length(const fots_zone *zone, fots_date date);

/* Write the Unix times some days or months after Unix times, by the clocks of the zone, as
 * fots_zoned_add_period does and other calls for columns do. Errors: FOTS_INVALID_POLICY,
 * FOTS_RESULT_OUT_OF_RANGE, FOTS_SKIPPED_TIME and FOTS_REPEATED_TIME for FOTS_REJECT. */
size_t fots_zoned_add_days(const fots_zone *zone, const int64_t *seconds, size_t seconds_length, const int64_t *days, size_t days_length,
    uint32_t policy, int64_t *moved, size_t moved_length, uint8_t *statuses, size_t length);
size_t fots_zoned_add_months(const fots_zone *zone, const int64_t *seconds, size_t seconds_length, const int32_t *months, size_t months_length,
    uint32_t policy, int64_t *moved, size_t moved_length, uint8_t *statuses, size_t length);

/* Writes the Unix times of the starts of the days that the clocks show at Unix times. */
size_t fots_zoned_starts_of_day(const fots_zone *zone, const int64_t *seconds, size_t seconds_length, int64_t *starts, size_t starts_length,
    uint8_t *statuses, size_t length);

#ifdef __cplusplus
}
#endif

#endif
