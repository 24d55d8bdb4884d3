/* Prints a hash of the results of each call with drawn arguments, and of each conversion of days.
 * The first argument is the number of draws, the second the step between days, and the third a TZif
 * file. tests/hashes writes calls.h: a function for each call of the header that draws the
 * arguments, and adds the results to the hash. */
#include <stdlib.h>
#include <string.h>

#include "fotsevindre.h"
#include "testing.h"

#define COUNT(values) (sizeof(values) / sizeof(values)[0])
/* The rows of a column, its bytes, and how many of these are added to the hash. */
#define ROWS 40
#define BYTES (ROWS * FOTS_MAX_ITEMS * FOTS_MAX_ITEM_LENGTH)
#define HASHED 1024

static uint64_t state, hash;

static uint64_t draw(void)
{
    state ^= state << 13;
    state ^= state >> 7;
    state ^= state << 17;
    return state * 0x2545F4914F6CDD1DULL >> 1;
}

/* Returns whether the next draw is one of so many. */
static int one_of(uint64_t number)
{
    return draw() % number == 0;
}

static void add(uint64_t number)
{
    hash = (hash ^ number) * 0x9E3779B97F4A7C15ULL;
    hash ^= hash >> 29;
}

static void add_bytes(const char *bytes, size_t length)
{
    for (size_t k = 0; k < length; k++) {
        add((uint8_t)bytes[k]);
    }
}

/* Draws a number, one in 16 outside the range or at its ends. */
static int64_t number(int64_t first, int64_t last)
{
    switch (draw() % 32) {
    case 0: return (int64_t)draw() - INT64_MAX / 2;
    case 1: return (int64_t)(one_of(2) ? (uint64_t)first - 1 : (uint64_t)last + 1);
    case 2: return one_of(2) ? first : last;
    default: return (int64_t)((uint64_t)first + draw() % ((uint64_t)last - (uint64_t)first + 1));
    }
}

/* Draws a date, mostly of the years 1800 to 2200. */
static fots_date any_fots_date(void)
{
    return date_at((int32_t)(one_of(4) ? number(FOTS_MIN_JULIAN_DAY, FOTS_MAX_JULIAN_DAY) : number(2378497, 2524594)));
}

static fots_time any_fots_time(void)
{
    return (fots_time)(one_of(4) ? 1800000000000 * (uint64_t)number(0, 47) : (uint64_t)number(0, FOTS_MAX_TIME));
}

static fots_offset any_fots_offset(void)
{
    return offset_at((int32_t)(one_of(2) ? 1800 * (number(-24, 28) % 100) : number(-FOTS_MAX_OFFSET_SECONDS, FOTS_MAX_OFFSET_SECONDS)));
}

/* In what follows each draw is a statement, since C doesn't order those of an expression. */
static fots_duration any_fots_duration(void)
{
    fots_duration duration = {0, 0, 0};
    const int64_t most = INT64_MAX >> draw() % 64;
    duration.seconds = number(-most, most);
    duration.nanoseconds = (int32_t)number(0, 999999999);
    duration.nanoseconds = duration.seconds < 0 ? -duration.nanoseconds : duration.nanoseconds;
    return duration;
}

/* Mostly parts of one sign, and no duration in half of the draws. */
static fots_date_range any_fots_date_range(void)
{
    const fots_date start = any_fots_date();
    return (fots_date_range){start, {one_of(2) ? start.julian_day + number(0, 400) : any_fots_date().julian_day}};
}

static fots_period any_fots_period(void)
{
    fots_period period;
    const int64_t least = one_of(2) ? 0 : -400, most = least == 0 || one_of(8) ? 400 : 0;
    period.years = (int32_t)number(least, most);
    period.months = (int32_t)number(least, most);
    period.weeks = (int32_t)number(least, most);
    period.days = (int32_t)number(least, most);
    period.duration.seconds = one_of(2) ? 0 : 3600 * number(least, most);
    period.duration.nanoseconds = 0;
    return period;
}

static fots_moment any_fots_moment(void)
{
    fots_moment moment;
    moment.date = any_fots_date();
    moment.offset = any_fots_offset();
    moment.time = any_fots_time();
    return moment;
}

static fots_components any_fots_components(void)
{
    fots_components components;
    memset(&components, 0, sizeof components);
    components.year = number(-1000001, 1000001);
    components.month = number(0, 13);
    components.day = number(0, 32);
    components.ordinal = number(0, 367);
    components.week = number(0, 54);
    components.julian_day = number(FOTS_MIN_JULIAN_DAY - 1, FOTS_MAX_JULIAN_DAY + 1);
    components.hour = components.offset_hour = number(-26, 26);
    components.minute = components.second = components.offset_minute = components.offset_second = number(-60, 60);
    components.millisecond = components.microsecond = components.nanosecond = number(-1, 1000000000);
    components.seconds = number(-93600, 93600);
    components.timestamp = number(INT64_C(-31619087596801), INT64_C(31494784780800));
    return components;
}

/* ---- texts, and what is made from them */

static const char *const texts[] = {"2024-02-29", "-004713-11-24", "2024-060", "2024-W09-4", "J2460370", "J-12", "@1709247599.25", "@-1",
    "2024-02-29T23:59:59.25+01:00", "2024-02-29 12:00Z", "2016-12-31T23:59:60Z", "Thursday, 29 February 2024", "29.02.24 07:05:09 PM +0530",
    "9:05", "24:00", "23:59:59.25", "Z", "+05:30", "-00:00:01", "2024-W09-4T9:05", "2024-02-29 9:05 +01:00"};
static const char *const printed[] = {"%H:%M:%S", "%-H:%M:%S%.f", "%:z", "%::z", "%F %R", "%FT%-H:%M:%S%.f", "%F %R %:z", "%G-W%V-%uT%T%::z"};
static const char *const formats[] = {"%Y-%m-%d", "%A, %-d %B %Y", "%G-W%V-%u", "%Y-%j", "%H:%M:%S.%9f %z", "%d.%m.%y %I:%M:%S %p %z", "%s", "%Y-%m-%dT%H:%M:%S%:z", "%H:%M:%S", "%I:%M %p", "%:z", "%Y-%m-%d %H:%M"};
static const char *const descriptions[] = {"[year]-[month]-[day]", "[weekday repr:short], [day padding:none] [month repr:long] [year]",
    "[hour repr:12]:[minute]:[second].[subsecond digits:3] [period]", "[offset_hour sign:mandatory]:[offset_minute]", "[year][ordinal]"};
static const char *const recurrences[] = {"FREQ=DAILY;COUNT=10", "FREQ=WEEKLY;INTERVAL=2;BYDAY=MO,WE,FR;WKST=SU;COUNT=40", "FREQ=MONTHLY;BYDAY=-1FR",
    "FREQ=MONTHLY;BYMONTHDAY=31,-1;UNTIL=20301231", "FREQ=YEARLY;BYMONTH=2;BYMONTHDAY=29", "FREQ=YEARLY;BYWEEKNO=53;BYDAY=SU", "FREQ=YEARLY;BYYEARDAY=1,100,-1",
    "FREQ=MONTHLY;BYDAY=MO,TU,WE,TH,FR;BYSETPOS=-2", "FREQ=DAILY;BYHOUR=9,17;BYMINUTE=0,30;COUNT=7", "FREQ=HOURLY", "FREQ=MINUTELY;INTERVAL=90;COUNT=9", "FREQ=FORTNIGHTLY"};
static const char *const zones[] = {"CET-1CEST,M3.5.0,M10.5.0/3", "EST5EDT,M3.2.0,M11.1.0", "<+0530>-5:30", "IST-2IDT,M3.4.4/26,M10.5.0", "<-03>3<-02>,M3.5.0/-2,M10.5.0/-1", "UTC0"};

static const char *const durations[] = {"P1Y2M10DT2H30M", "-P1D", "PT36H", "P2W", "PT0.5S", "PT1,000000001S", "P2147483648Y", "PT9223372036854775807S", "-PT2562047788015215H30M8S", "P1Y1M1W1DT1H1M1S"};

static const char *const intervals[] = {"2024-01-01/2024-02-01", "2024-01-31/P1M", "P1Y/2024-02-29", "2024-02-01/2024-01-01", "2024-03-30T09:30/P1DT2H", "2024-03-30T09:30/2024-03-31T00:00", "PT8H/2024-03-30T17:00",
    "R12/2024-01-31/P1M", "R/2024-02-29/P1Y", "R3/P1W/2024-03-01", "R0/2024-01-01/P1D", "R2/2024-01-01/2024-01-15", "R99999999999/2024-01-01/P1D", "2024-01-01/P0D"};
static const char *const calendars[] = {"BEGIN:VCALENDAR\r\nBEGIN:VEVENT\r\nUID:one\r\nSUMMARY:Team\r\n  meeting\r\nDTSTART:20240101T090000Z\r\nBEGIN:VALARM\r\nEND:VALARM\r\nEND:VEVENT\r\nEND:VCALENDAR\r\n",
    "BEGIN:VEVENT\nDTSTART:20240101\nEND:VEVENT\nBEGIN:VEVENT\nDTSTART:20240102\nEND:VEVENT", "BEGIN:VEVENT\nUID:1\nEND:VCALENDAR\n", "X:1\nBEGIN:VEVENT\nUID:1\n\t2\n", "BEGIN:VTODO\nEND:VTODO",
    "BEGIN:VEVENT\r\nDESCRIPTION:This is a long description that exists on a long line, which has 108 bytes: it is folded once.\r\nDTSTART:20240101\r\nEND:VEVENT\r\n"};
static const char *const events[] = {"SUMMARY:Rent\r\nDTSTART;VALUE=DATE:20240131\r\nRRULE:FREQ=MONTHLY;BYMONTHDAY=-1;COUNT=9\r\nEXDATE;VALUE=DATE:20240229\r\n",
    "DTSTART;TZID=Europe/Berlin:20240330T023000\nRRULE:FREQ=DAILY;COUNT=30\nRDATE:20240601T100000Z\nEXDATE;TZID=Europe/Berlin:20240401T023000\n",
    "DTSTART:20240101T090000Z\nRRULE:FREQ=WEEKLY;BYDAY=MO,TH;UNTIL=20241231T235959Z\nBEGIN:VALARM\nDTSTART:1\nEND:VALARM\nDTEND:20240101T100000Z\n",
    "DTSTART:20240101T090000\nRDATE:20240105T090000,20240103T090000\nsummary;LANGUAGE=en:Talk\n", "DTSTART:20240101\nRRULE:FREQ=HOURLY\n", "RRULE:FREQ=DAILY\nUID:1\n", "DTSTART;TZID=A:20240101T090000\nEXDATE;TZID=B:20240101T090000\n"};
static const char *const properties[] = {"SUMMARY", "dtend", "UID", "DTSTART", "RRULE"};
static const char *const rules[] = {"01-01 SA-1 SU+1\neaster-2 2000..\n05-lastMO\n11-4TH\n12-25 1999..2009", "11-WE>=16\njulian-easter+1 # Monday\r\n2024-12-27\n02-29", "2024-easter+39\n\n 06-5FR ..2030 FR+3"};
static const char *const iso_texts[] = {"20240229", "2024-060", "2024060", "2024-W09", "2024W094", "T232050,5", "2320", "23", "20240229T235959", "2024-02-29 22:59:59.25+00", "19850412T101530+0400", "1985-04-12t23:20:50.52z", "+0020240229", "2024-060T22:59:59,1234567890000000000000000000000Z"};

static char drawn_text[256];

/* Draws a text of a list into drawn_text, one in four with another byte or another end. */
static size_t text_of(const char *const *list, size_t count)
{
    const char *text = list[draw() % count];
    size_t length = strlen(text);
    memcpy(drawn_text, text, length);
    if (one_of(4)) {
        drawn_text[draw() % length] = one_of(8) ? (char)(draw() % 256) : (char)(32 + draw() % 95);
        length -= one_of(3) ? draw() % length : 0;
    }
    return length;
}

/* Draws a text of a date, a time, an offset or a moment that the library prints, or one of the list. */
static size_t any_text(void)
{
    const fots_moment moment = any_fots_moment();
    const char *const format_text = printed[draw() % COUNT(printed)];
    fots_format format;
    fots_text_result text;
    switch (draw() % 10) {
    case 0: text = fots_date_calendar_text(moment.date); break;
    case 1: text = fots_date_ordinal_text(moment.date); break;
    case 2: text = fots_date_week_text(moment.date); break;
    case 3: text = fots_date_julian_text(moment.date); break;
    case 4: text = fots_moment_text(moment.date, moment.time, moment.offset); break;
    case 5: text = fots_unix_text(moment.date, moment.time, moment.offset); break;
    case 6:
    case 7:
        format = fots_format_new(format_text, strlen(format_text)).format;
        return fots_moment_format(moment, &format, drawn_text, sizeof drawn_text).length;
    default: return text_of(texts, COUNT(texts));
    }
    memcpy(drawn_text, text.bytes, sizeof text.bytes);
    return text.length;
}

static size_t any_format_text(void) { return text_of(formats, COUNT(formats)); }
static size_t any_description(void) { return text_of(descriptions, COUNT(descriptions)); }
static size_t any_recurrence_text(void) { return text_of(recurrences, COUNT(recurrences)); }
static size_t any_duration_text(void) { return text_of(durations, COUNT(durations)); }
static size_t any_interval_text(void) { return text_of(intervals, COUNT(intervals)); }
static size_t any_iso_text(void) { return text_of(iso_texts, COUNT(iso_texts)); }
static size_t any_calendar_text(void) { return text_of(calendars, COUNT(calendars)); }
static size_t any_event(void) { return text_of(events, COUNT(events)); }
static size_t any_property(void) { return text_of(properties, COUNT(properties)); }
static size_t any_rules_text(void) { return text_of(rules, COUNT(rules)); }
static size_t any_zone_text(void) { return text_of(zones, COUNT(zones)); }

static const char *const codes[] = {"ar", "de", "en", "es", "fr", "it", "ja", "pl", "pt", "ru", "tr", "zh", "xx", "fra"};

static size_t any_language(void) { return text_of(codes, COUNT(codes)); }

/* Names of one language, some with a name of another one or with bytes that aren't UTF-8. */
static fots_language_names any_fots_language_names(void)
{
    static fots_language_names names, others;
    const char *const code = codes[draw() % 12], *const other = codes[draw() % 12];
    fots_names_of_language(code, 2, &names);
    fots_names_of_language(other, 2, &others);
    if (one_of(4)) {
        names.months[draw() % 12] = others.short_months[draw() % 12];
        names.weekdays[draw() % 7] = others.weekdays[draw() % 7];
    }
    if (one_of(16)) {
        names.short_weekdays[draw() % 7] = (fots_name){"\xe6\x9c", 2};
    }
    return names;
}

static fots_format any_fots_format(void)
{
    const size_t length = one_of(3) ? any_description() : any_format_text();
    return drawn_text[0] == '[' ? fots_format_from_description(drawn_text, length).format : fots_format_new(drawn_text, length).format;
}

/* Draws the text of a moment by a format, or another text. */
static size_t any_text_by(const fots_format *format)
{
    fots_length_result text;
    if (one_of(4)) {
        return any_text();
    }
    text = fots_moment_format(any_fots_moment(), format, drawn_text, sizeof drawn_text);
    return text.status == FOTS_OK ? text.length : 0;
}

static fots_recurrence any_fots_recurrence(void)
{
    const size_t length = any_recurrence_text();
    return fots_recurrence_parse(drawn_text, length).recurrence;
}

static char file_bytes[4096];
static size_t file_length;

/* Draws the bytes of the file, one in eight with another byte. */
static size_t any_file(uint8_t *bytes)
{
    memcpy(bytes, file_bytes, file_length);
    if (one_of(8)) {
        bytes[draw() % file_length] = (uint8_t)draw();
    }
    return file_length;
}

/* Draws a zone of the file or of a POSIX text. The bytes stay unchanged. */
static fots_zone any_fots_zone(void)
{
    const char *text = zones[draw() % COUNT(zones)];
    return one_of(2) ? fots_zone_from_file((const uint8_t *)file_bytes, file_length).zone : fots_zone_from_posix(text, strlen(text)).zone;
}

/* Draws a Unix time, mostly near a change of the zone. */
static int64_t any_instant(const fots_zone *zone)
{
    const int64_t seconds = number(-3000000000, 8000000000);
    const fots_int64_result change = fots_zone_next_change(zone, seconds);
    if (change.status != FOTS_OK || one_of(3)) {
        return seconds;
    }
    return change.number + (one_of(2) ? number(-1, 1) : number(-7200, 7200)) % 100000;
}

/* Draws the local date and time of such a Unix time, and returns the date. */
static fots_moment reading;
static fots_date any_reading(const fots_zone *zone)
{
    int64_t seconds = any_instant(zone);
    seconds = seconds % 100000000000 + fots_zone_offset(zone, seconds).offset.seconds + (one_of(2) ? 0 : number(-7200, 7200) % 100000);
    reading = fots_moment_from_unix_timestamp(seconds).moment;
    return reading.date;
}

/* Draws a moment in the zone, or one with another offset. */
static fots_moment any_zoned(const fots_zone *zone)
{
    const fots_moment moment = fots_moment_from_unix_timestamp(any_instant(zone)).moment;
    return one_of(16) ? any_fots_moment() : fots_moment_in_zone(moment, zone).moment;
}

/* ---- lists */

static fots_date drawn_days[(ROWS + 1)];
static fots_moment drawn_moments[(ROWS + 1)];

/* Draws dates in ascending order, one in 16 without an order. */
static size_t any_holidays(void)
{
    const size_t length = draw() % 40;
    int32_t day = (int32_t)number(2378497, 2524594);
    for (size_t k = 0; k < length; k++) {
        day += one_of(400) ? -1 : 1 + (int32_t)(draw() % 300);
        drawn_days[k].julian_day = day;
    }
    return length;
}

static fots_workdays any_fots_workdays(void)
{
    const size_t length = any_holidays();
    return fots_workdays_new((uint32_t)number(0, 127), drawn_days, length).workdays;
}

static fots_workdays_view any_fots_workdays_view(void)
{
    static uint32_t counts[sizeof drawn_days / sizeof *drawn_days + 1];
    const size_t length = any_holidays();
    const fots_workdays_view view = {(uint32_t)number(0, 127), 0, drawn_days, length, counts, length + 1};
    fots_workdays_view_count(view.weekmask, view.holidays, length, counts, length + 1);
    return view;
}

static fots_rule any_fots_rule(void)
{
    static fots_recurrence recurrence;
    recurrence = any_fots_recurrence();
    fots_rule rule = fots_recurrence_rule(&recurrence, any_fots_date());
    rule.interval = one_of(4) ? (uint32_t)number(0, 1000) : rule.interval;
    rule.week_start = one_of(4) ? (uint32_t)number(1, 7) : rule.week_start;
    rule.dates_length = rule.exceptions_length = any_holidays() % 8;
    rule.dates = drawn_days;
    rule.exceptions = drawn_days + 5;
    return rule;
}

/* Draws a cursor. It has few left if the text has a COUNT, as a call counts all of them where it begins after the last one. */
static fots_recurrence_cursor any_fots_recurrence_cursor(void)
{
    fots_recurrence_cursor cursor;
    cursor.date = any_fots_date();
    cursor.date.julian_day = one_of(4) ? FOTS_NO_VALUE : cursor.date.julian_day;
    cursor.left = strstr(drawn_text, "COUNT") == NULL && one_of(2) ? UINT32_MAX >> draw() % 2 : (uint32_t)draw() % 100;
    cursor.time = any_fots_time();
    return cursor;
}

static fots_recurrence_set any_fots_recurrence_set(void)
{
    const size_t length = any_recurrence_text();
    fots_moment start = any_fots_moment();
    start.date.julian_day = (int32_t)number(2378497, 2524594);
    fots_recurrence_set set = fots_recurrence_set_new(drawn_text, length, start);
    set.dates_length = set.exceptions_length = draw() % 4;
    for (size_t k = 0; k < 8; k++) {
        drawn_moments[k] = any_fots_moment();
    }
    set.dates = drawn_moments;
    set.exceptions = drawn_moments + 2;
    return set;
}

/* Draws a text for each row, by a format if it isn't null. The bounds are where they begin and end. */
static size_t any_rows(char *bytes, int32_t *bounds, size_t rows, const fots_format *format)
{
    size_t at = 0;
    for (size_t row = 0; row < rows; row++) {
        bounds[row] = (int32_t)at;
        const size_t length = format == NULL ? any_text() : any_text_by(format);
        memcpy(bytes + at, drawn_text, length);
        at += length;
    }
    bounds[rows] = (int32_t)at;
    return at;
}

#include "calls.h"

/* ---- days */

static void add_day(int32_t julian_day)
{
    const fots_date date = date_at(julian_day);
    const fots_calendar_date_result calendar = fots_date_to_calendar_date(date);
    const fots_ordinal_date_result ordinal = fots_date_to_ordinal_date(date);
    const fots_iso_week_date_result week = fots_date_to_iso_week_date(date);
    add((uint64_t)calendar.year << 32 ^ (uint64_t)ordinal.year << 20 ^ calendar.month << 12 ^ calendar.day);
    add((uint64_t)week.year << 32 ^ week.week << 12 ^ week.weekday << 20 ^ ordinal.ordinal);
    add((uint64_t)fots_date_from_calendar_date(calendar.year, calendar.month, calendar.day).date.julian_day << 32
        ^ (uint64_t)fots_date_from_ordinal_date(ordinal.year, ordinal.ordinal).date.julian_day);
    add((uint64_t)fots_date_from_iso_week_date(week.year, week.week, week.weekday).date.julian_day << 32
        ^ (uint64_t)fots_date_from_julian_day(julian_day).date.julian_day);
}

static void add_texts(int32_t julian_day)
{
    const fots_date date = date_at(julian_day);
    const fots_text_result all[] = {fots_date_calendar_text(date), fots_date_ordinal_text(date), fots_date_week_text(date), fots_date_julian_text(date)};
    for (size_t k = 0; k < COUNT(all); k++) {
        add_bytes(all[k].bytes, all[k].length);
        const fots_parse_date_result parsed = k < 3 ? fots_date_parse(all[k].bytes, all[k].length) : fots_julian_day_parse(all[k].bytes, all[k].length);
        add((uint64_t)parsed.date.julian_day);
    }
}

/* Adds the days from the first one on, each this number after the last, and the texts of one in 64. */
static void add_days(int32_t step)
{
    hash = 1;
    int32_t rows = 0;
    for (int64_t day = FOTS_MIN_JULIAN_DAY; day <= FOTS_MAX_JULIAN_DAY; day += step, rows++) {
        add_day((int32_t)day);
        if (rows % 64 == 0) {
            add_texts((int32_t)day);
        }
    }
    printf("days %016llx\n", (unsigned long long)hash);
}

int main(int count, char **arguments)
{
    FILE *file = count == 4 ? fopen(arguments[3], "rb") : NULL;
    if (file == NULL) {
        return 2;
    }
    file_length = fread(file_bytes, 1, sizeof file_bytes, file);
    fclose(file);
    for (size_t k = 0; k < COUNT(calls); k++) {
        state = 88172645463325252ULL;
        hash = 1;
        for (int draws = atoi(arguments[1]) / calls[k].cost; draws > 0; draws--) {
            calls[k].run();
        }
        printf("%s %016llx\n", calls[k].name, (unsigned long long)hash);
    }
    add_days(atoi(arguments[2]));
    return 0;
}
