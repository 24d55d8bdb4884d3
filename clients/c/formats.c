/* Checks formats: texts as Python's datetime and GNU date print them, faults, structs filled by
 * hand, and buffers. */
#include <string.h>

#include "testing.h"

#define COUNT(rows) ((int)(sizeof(rows) / sizeof(rows)[0]))
#define ROOM (FOTS_MAX_ITEMS * FOTS_MAX_ITEM_LENGTH)
#define LONG 65536

/* A format, and the text of 2024-02-29 9:05:07.25 +05:30 in the C locale. */
typedef struct Row {
    const char *format, *text;
} Row;

static const Row ROWS[] = {
    {"%Y", "2024"}, {"%C", "20"}, {"%y", "24"}, {"%m", "02"}, {"%-m", "2"}, {"%B", "February"}, {"%OB", "February"}, {"%b", "Feb"}, {"%h", "Feb"},
    {"%d", "29"}, {"%-d", "29"}, {"%e", "29"}, {"%j", "060"}, {"%G", "2024"}, {"%V", "09"}, {"%U", "08"}, {"%W", "09"},
    {"%A", "Thursday"}, {"%a", "Thu"}, {"%u", "4"}, {"%w", "4"}, {"%H", "09"}, {"%-H", "9"}, {"%I", "09"}, {"%-I", "9"}, {"%p", "AM"},
    {"%M", "05"}, {"%S", "07"}, {"%f", "250000"}, {"%3N", "250"}, {"%6N", "250000"}, {"%N", "250000000"}, {"%9N", "250000000"},
    {"%.f", ".25"}, {"%z", "+0530"}, {"%:z", "+05:30"}, {"%::z", "+05:30:00"}, {"%F", "2024-02-29"}, {"%T", "09:05:07"},
    {"%R", "09:05"}, {"%D", "02/29/24"}, {"%s", "1709177707"}, {"%s.%3N", "1709177707.250"}, {"%n%t%%", "\n\t%"}, {"", ""}, {"%Y\xe5\xb9\xb4%-m\xe6\x9c\x88", "2024\xe5\xb9\xb4" "2\xe6\x9c\x88"},
    {"%a, %d %b %Y %T %z", "Thu, 29 Feb 2024 09:05:07 +0530"}, {"%d/%b/%Y:%T %z", "29/Feb/2024:09:05:07 +0530"},
};

static const Row DESCRIPTIONS[] = {
    {"[year]-[month]-[day]", "2024-02-29"}, {"[weekday repr:short], [day padding:none] [month repr:long]", "Thu, 29 February"},
    {"[hour repr:12 padding:none]:[minute] [period]", "9:05 AM"}, {"[year base:iso_week]-W[week_number]", "2024-W09"},
    {"[[[ordinal]]", "[060]"}, {"[unix_timestamp].[subsecond]", "1709177707.25"}, {"[ hour padding:none\trepr:12 ]", "9"}, {"[offset_hour sign:mandatory]:[offset_minute]", "+05:30"},
    {"[offset_hour]:[offset_minute]", "05:30"}, {"[year sign:mandatory padding:none]", "+2024"}, {"[subsecond digits:1]", "2"}, {"[period case:lower]", "am"}, {"[unix_timestamp sign:mandatory]", "+1709177707"},
};

/* A text that is not a format, and where its fault is. */
typedef struct Fault {
    const char *text;
    int32_t status;
    size_t position;
} Fault;

static const Fault FAULTS[] = {
    {"%", FOTS_UNKNOWN_ITEM, 0}, {"ab%", FOTS_UNKNOWN_ITEM, 2}, {"%Y%Q", FOTS_UNKNOWN_ITEM, 2}, {"%-", FOTS_UNKNOWN_ITEM, 0},
    {"%:", FOTS_UNKNOWN_ITEM, 0}, {"%::", FOTS_UNKNOWN_ITEM, 0}, {"%5N", FOTS_UNKNOWN_ITEM, 0}, {"%c", FOTS_UNKNOWN_ITEM, 0},
    {"\xe5\xb9", FOTS_UNEXPECTED_BYTE, 0}, {"%Y\xe5\xb9", FOTS_UNEXPECTED_BYTE, 2}, {"%\xff", FOTS_UNEXPECTED_BYTE, 1},
};

static const Fault DESCRIPTION_FAULTS[] = {
    {"[", FOTS_UNKNOWN_ITEM, 0}, {"-[year", FOTS_UNKNOWN_ITEM, 1}, {"[day]]", FOTS_OK, SIZE_MAX}, {"[nothing]", FOTS_UNKNOWN_ITEM, 0},
};

static char buffer[ROOM];

static fots_format format_of(const char *text)
{
    fots_format_result made = fots_format_new(text, strlen(text));
    check(made.status == FOTS_OK && made.position == SIZE_MAX, text, made.status, (long long)made.position);
    return made.format;
}

static fots_moment a_moment(void)
{
    fots_moment moment = {{2460370}, {19800}, UINT64_C(32707250000000)};
    return moment;
}

static int is_text(fots_length_result result, const char *text)
{
    return result.status == FOTS_OK && result.length == strlen(text) && memcmp(buffer, text, result.length) == 0;
}

static void rows(void)
{
    for (int k = 0; k < COUNT(ROWS); k++) {
        fots_format format = format_of(ROWS[k].format);
        check(is_text(fots_moment_format(a_moment(), &format, buffer, ROOM), ROWS[k].text), ROWS[k].format, k, 0);
    }
    for (int k = 0; k < COUNT(DESCRIPTIONS); k++) {
        const char *text = DESCRIPTIONS[k].format;
        fots_format_result made = fots_format_from_description(text, strlen(text));
        check(is_text(fots_moment_format(a_moment(), &made.format, buffer, ROOM), DESCRIPTIONS[k].text), text, made.status, k);
    }
}

static void each_type(void)
{
    fots_format date = format_of("%d/%m/%Y"), time = format_of("%H:%M"), offset = format_of("%:z"), pair = format_of("%F %R"), zone = format_of("%Z");
    fots_moment at = a_moment();
    check(is_text(fots_date_format(at.date, &date, buffer, ROOM), "29/02/2024"), "a date", 0, 0);
    check(is_text(fots_time_format(at.time, &time, buffer, ROOM), "09:05"), "a time", 0, 0);
    check(is_text(fots_offset_format(at.offset, &offset, buffer, ROOM), "+05:30"), "an offset", 0, 0);
    check(is_text(fots_pair_format(at.date, at.time, &pair, buffer, ROOM), "2024-02-29 09:05"), "a pair", 0, 0);
    check(fots_date_format(at.date, &time, buffer, ROOM).status == FOTS_UNSUPPORTED_ITEM, "the hour of a date", 0, 0);
    check(fots_time_format(at.time, &pair, buffer, ROOM).status == FOTS_UNSUPPORTED_ITEM, "the date of a time", 0, 0);
    check(fots_offset_format(at.offset, &date, buffer, ROOM).status == FOTS_UNSUPPORTED_ITEM, "the date of an offset", 0, 0);
    check(fots_pair_format(at.date, at.time, &offset, buffer, ROOM).status == FOTS_UNSUPPORTED_ITEM, "the offset of a pair", 0, 0);
    check(fots_moment_format(at, &zone, buffer, ROOM).status == FOTS_UNSUPPORTED_ITEM, "a zone without one", 0, 0);
    /* The years -44 and 12024, as fots_date_calendar_text has them. */
    check(is_text(fots_date_format(fots_date_from_calendar_date(-44, 3, 15).date, &date, buffer, ROOM), "15/03/-0044"), "-44", 0, 0);
    check(is_text(fots_date_format(fots_date_from_calendar_date(12024, 1, 1).date, &date, buffer, ROOM), "01/01/+12024"), "12024", 0, 0);
}

static void is_fault(fots_format_result made, int32_t status, size_t position, const char *what)
{
    check(made.status == status && made.position == position, what, made.status, (long long)made.position);
    if (made.status != FOTS_OK) {
        check(fots_date_format(date_at(0), &made.format, buffer, ROOM).status == FOTS_INVALID_FORMAT, what, 0, 0);
    }
}

static void faults(void)
{
    static char text[LONG];
    for (int k = 0; k < COUNT(FAULTS); k++) {
        is_fault(fots_format_new(FAULTS[k].text, strlen(FAULTS[k].text)), FAULTS[k].status, FAULTS[k].position, FAULTS[k].text);
    }
    for (int k = 0; k < COUNT(DESCRIPTION_FAULTS); k++) {
        Fault fault = DESCRIPTION_FAULTS[k];
        is_fault(fots_format_from_description(fault.text, strlen(fault.text)), fault.status, fault.position, fault.text);
    }
    memset(text, 'a', LONG);
    is_fault(fots_format_new(text, 64), FOTS_OK, SIZE_MAX, "64 items");
    is_fault(fots_format_new(text, 65), FOTS_TOO_MANY_ITEMS, SIZE_MAX, "65 items");
    is_fault(fots_format_new(text, LONG), FOTS_TOO_MANY_ITEMS, SIZE_MAX, "many items");
    text[LONG - 1] = '%';
    is_fault(fots_format_new(text, LONG), FOTS_TOO_MANY_ITEMS, SIZE_MAX, "many items and a fault");
    text[0] = '%';
    is_fault(fots_format_new(text, LONG), FOTS_OK + FOTS_TOO_MANY_ITEMS, SIZE_MAX, "a weekday and many items");
    memset(text, '%', LONG);
    is_fault(fots_format_new(text, LONG), FOTS_TOO_MANY_ITEMS, SIZE_MAX, "many percent signs");
    text[0] = '\xff';
    is_fault(fots_format_new(text, LONG), FOTS_UNEXPECTED_BYTE, 0, "a wrong byte first");
    is_fault(fots_format_new("", 0), FOTS_OK, SIZE_MAX, "no text");
}

static uint32_t drawn(void)
{
    static uint32_t state = 1;
    state = state * 1664525 + 1013904223;
    return state >> 8;
}

/* Each kind with each number, and numbers that are drawn: a call takes them, or rejects them all. */
static void filled_by_hand(void)
{
    static const int values[] = {256, 34, 34, 34, 7, 1, 1, 1, 1, 1, 34, 34, 34, 1, 1};
    fots_format format;
    for (int kind = 0; kind < 256; kind++) {
        for (int value = 0; value < 256; value++) {
            memset(&format, 255, sizeof format);
            format.length = 1;
            format.items[0].kind = (uint8_t)kind;
            format.items[0].value = (uint8_t)value;
            int is_item = kind < COUNT(values) && value < values[kind];
            fots_length_result result = fots_moment_format(a_moment(), &format, buffer, ROOM);
            check(result.status == (!is_item ? FOTS_INVALID_FORMAT : kind != 9 ? FOTS_OK : FOTS_UNSUPPORTED_ITEM), "an item by hand", kind, value);
        }
    }
    memset(&format, 0, sizeof format);
    check(fots_moment_format(a_moment(), &format, buffer, 0).status == FOTS_OK, "no items", 0, 0);
    for (uint32_t length = 65; length >= 65; length <<= 1) {
        format.length = length;
        check(fots_moment_format(a_moment(), &format, buffer, ROOM).status == FOTS_INVALID_FORMAT, "too long", format.length, 0);
    }
    for (int round = 0; round < 200000; round++) {
        unsigned char *bytes = (unsigned char *)&format;
        for (size_t k = 0; k < sizeof format; k++) {
            bytes[k] = (unsigned char)(drawn() % 8);
        }
        format.length = drawn() % 70;
        fots_length_result result = fots_moment_format(a_moment(), &format, buffer, ROOM);
        check(result.status == FOTS_OK || (result.status == FOTS_INVALID_FORMAT && result.length == 0), "drawn", result.status, round);
        fots_parse_moment_result read = fots_moment_parse_format(buffer, result.length, &format);
        check(read.status == FOTS_OK || read.time == FOTS_NO_TIME, "drawn and parsed", read.status, round);
    }
}

static int is_filled(size_t from, char byte)
{
    while (from < ROOM && buffer[from] == byte) {
        from++;
    }
    return from == ROOM;
}

/* The buffer is as before after an error, and the bytes after the text are. */
static void buffers(void)
{
    fots_format format = format_of("%A, %d %B %Y"), hour = format_of("%H");
    const char *text = "Thursday, 29 February 2024";
    for (size_t length = 0; length < 40; length++) {
        memset(buffer, '~', ROOM);
        fots_length_result result = fots_date_format(date_at(2460370), &format, buffer, length);
        if (length < strlen(text)) {
            check(result.status == FOTS_BUFFER_TOO_SHORT && result.length == strlen(text) && is_filled(0, '~'), "short", (long long)length, 0);
        } else {
            check(is_text(result, text) && is_filled(strlen(text), '~'), "long", (long long)length, 0);
        }
    }
    memset(buffer, '~', ROOM);
    check(fots_date_format(date_at(2460370), &hour, buffer, ROOM).length == 0 && is_filled(0, '~'), "unsupported", 0, 0);
    check(fots_date_format(date_at(FOTS_NO_VALUE), &format, buffer, ROOM).status == FOTS_INVALID_DATE && is_filled(0, '~'), "no date", 0, 0);
    /* The longest text. */
    for (int k = 0; k < FOTS_MAX_ITEMS; k++) {
        format.items[k].kind = 5;
        format.items[k].value = 0;
    }
    format.length = FOTS_MAX_ITEMS;
    fots_length_result result = fots_time_format(UINT64_C(123456789), &format, buffer, ROOM);
    check(result.status == FOTS_OK && result.length == 640 && memcmp(buffer + 630, ".123456789", 10) == 0, "the longest", result.status, 0);
    check(fots_time_format(UINT64_C(123456789), &format, buffer, 639).status == FOTS_BUFFER_TOO_SHORT, "one byte less", 0, 0);
}

/* A format, a text, and the status and the position of its error. */
typedef struct Rejected {
    const char *format, *text;
    int32_t status;
    size_t position;
} Rejected;

static const Rejected REJECTED[] = {
    {"%F", "", FOTS_UNEXPECTED_END, 0}, {"%F", "2024-02-2", FOTS_UNEXPECTED_END, 9}, {"%F", "2024-02-29 ", FOTS_UNEXPECTED_BYTE, 10},
    {"%F", "2024/02/29", FOTS_UNEXPECTED_BYTE, 4}, {"%d %b %Y", "29 feb 2024", FOTS_UNEXPECTED_BYTE, 3},
    {"%F", "2024-W09-4", FOTS_UNEXPECTED_BYTE, 5}, {"%F", "2024-060", FOTS_UNEXPECTED_BYTE, 7}, {"%F", "+12024-02-29", FOTS_UNEXPECTED_BYTE, 0},
    {"%-d.%-m.%Y", "29.02.2024", FOTS_UNEXPECTED_BYTE, 4}, {"%F", "2023-02-29", FOTS_DAY_OUT_OF_RANGE, SIZE_MAX},
    {"%F", "2024-13-01", FOTS_MONTH_OUT_OF_RANGE, SIZE_MAX}, {"%Y-%j", "2023-366", FOTS_ORDINAL_OUT_OF_RANGE, SIZE_MAX},
    {"%a %F", "Wed 2024-02-29", FOTS_CONTRADICTION, FOTS_WEEKDAY_OUT_OF_RANGE}, {"%m", "02", FOTS_INSUFFICIENT_FORMAT, SIZE_MAX},
    {"%y-%m-%d", "24-02-29", FOTS_INSUFFICIENT_FORMAT, SIZE_MAX}, {"%F %H", "2024-02-29 09", FOTS_INSUFFICIENT_FORMAT, SIZE_MAX},
    {"%Y%-m%d", "2024229", FOTS_INSUFFICIENT_FORMAT, SIZE_MAX},
    {"%G-W%V-%u", "2024-W09", FOTS_UNEXPECTED_END, 8}, {"%G-W%V-%u", "2024-W09-40", FOTS_UNEXPECTED_BYTE, 10},
    {"%G-W%V-%u", "2024-02-29", FOTS_UNEXPECTED_BYTE, 5}, {"%G-W%V-%u", "2024W09-4", FOTS_UNEXPECTED_BYTE, 4},
    {"%G-W%V-%u", "-044-W09-4", FOTS_UNEXPECTED_BYTE, 0}, {"%G-W%V-%u", "2024-W9-4", FOTS_UNEXPECTED_BYTE, 7},
    {"%G-W%V-%u", "2024-W09-8", FOTS_WEEKDAY_OUT_OF_RANGE, SIZE_MAX}, {"%G-W%V-%u", "2024-W09-0", FOTS_WEEKDAY_OUT_OF_RANGE, SIZE_MAX},
    {"%G-W%V-%u", "2024-W00-4", FOTS_WEEK_OUT_OF_RANGE, SIZE_MAX}, {"%G-W%V-%u", "2024-W53-1", FOTS_WEEK_OUT_OF_RANGE, SIZE_MAX},
};

static const Rejected REJECTED_TIMES[] = {
    {"%H:%M:%S", "", FOTS_UNEXPECTED_END, 0}, {"%H:%M:%S", "09:05", FOTS_UNEXPECTED_END, 5}, {"%H:%M:%S", "09:05:0", FOTS_UNEXPECTED_END, 7},
    {"%H:%M:%S", "9:05:07", FOTS_UNEXPECTED_BYTE, 1}, {"%H:%M:%S", "09:05:07 ", FOTS_UNEXPECTED_BYTE, 8}, {"%H:%M:%S", "09:05:07.25", FOTS_UNEXPECTED_BYTE, 8},
    {"%H:%M:%S", "09.05.07", FOTS_UNEXPECTED_BYTE, 2}, {"%H:%M:%S", "24:00:00", FOTS_HOUR_OUT_OF_RANGE, SIZE_MAX},
    {"%H:%M:%S", "09:60:07", FOTS_MINUTE_OUT_OF_RANGE, SIZE_MAX}, {"%H:%M:%S", "23:59:60", FOTS_SECOND_OUT_OF_RANGE, SIZE_MAX},
    {"%H:%M", "09:05:07", FOTS_UNEXPECTED_BYTE, 5}, {"%H:%M", "09:", FOTS_UNEXPECTED_END, 3}, {"%H:%M", "24:00", FOTS_HOUR_OUT_OF_RANGE, SIZE_MAX},
    {"%H:%M", "23:60", FOTS_MINUTE_OUT_OF_RANGE, SIZE_MAX}, {"%H:%M:", "09:05:07", FOTS_UNEXPECTED_BYTE, 6}, {"%H:%S", "09:05", FOTS_INSUFFICIENT_FORMAT, SIZE_MAX},
};

static void parsed_dates(void)
{
    static const char *const formats[] = {"%F", "%d/%m/%Y", "%A, %-d %B %Y", "%a %e %b %C%y", "%Y-%j", "%G-W%V-%u", "%Y%m%d %U %W %w"};
    for (int k = 0; k < COUNT(formats); k++) {
        fots_format format = format_of(formats[k]);
        for (int32_t day = 1721060; day < 5373485; day += 1237) {
            fots_length_result printed = fots_date_format(date_at(day), &format, buffer, ROOM);
            fots_parse_date_result read = fots_date_parse_format(buffer, printed.length, &format);
            int32_t year = fots_date_to_iso_week_date(date_at(day)).year;
            if (year >= 0 && year < 10000) {
                check(read.status == FOTS_OK && read.date.julian_day == day && read.position == SIZE_MAX, formats[k], day, read.status);
            }
        }
    }
    for (int k = 0; k < COUNT(REJECTED); k++) {
        fots_format format = format_of(REJECTED[k].format);
        fots_parse_date_result read = fots_date_parse_format(REJECTED[k].text, strlen(REJECTED[k].text), &format);
        check(read.status == REJECTED[k].status && read.position == REJECTED[k].position && read.date.julian_day == FOTS_NO_VALUE,
            REJECTED[k].text, read.status, (long long)read.position);
    }
}

/* Each second of a day, and each minute. */
static void parsed_times(void)
{
    const fots_format second = format_of("%H:%M:%S"), minute = format_of("%H:%M");
    for (int at = 0; at < 86400; at++) {
        snprintf(buffer, ROOM, "%02d:%02d:%02d", at / 3600, at / 60 % 60, at % 60);
        fots_parse_time_result read = fots_time_parse_format(buffer, 8, &second);
        check(read.status == FOTS_OK && read.time == (fots_time)at * 1000000000U && read.position == SIZE_MAX, "a second", at, read.status);
        read = fots_time_parse_format(buffer, 5, &minute);
        check(read.status == FOTS_OK && read.time == (fots_time)(at / 60) * 60000000000U && read.position == SIZE_MAX, "a minute", at, read.status);
    }
    for (int k = 0; k < COUNT(REJECTED_TIMES); k++) {
        const fots_format format = format_of(REJECTED_TIMES[k].format);
        const fots_parse_time_result read = fots_time_parse_format(REJECTED_TIMES[k].text, strlen(REJECTED_TIMES[k].text), &format);
        check(read.status == REJECTED_TIMES[k].status && read.position == REJECTED_TIMES[k].position && read.time == FOTS_NO_TIME,
            REJECTED_TIMES[k].text, read.status, (long long)read.position);
    }
}

static void parsed_others(void)
{
    fots_format time = format_of("%-I:%M %p"), offset = format_of("%z"), pair = format_of("%F %T%.f"), moment = format_of("%d/%b/%Y:%T%.f %:z");
    fots_parse_time_result read_time = fots_time_parse_format("9:05 PM", 7, &time);
    check(read_time.status == FOTS_OK && read_time.time == UINT64_C(75900000000000), "a time", read_time.status, 0);
    fots_parse_offset_result read_offset = fots_offset_parse_format("-0530", 5, &offset);
    check(read_offset.status == FOTS_OK && read_offset.offset.seconds == -19800, "an offset", read_offset.status, 0);
    fots_parse_moment_result read = fots_pair_parse_format("2024-02-29 09:05:07.25", 22, &pair);
    check(read.status == FOTS_OK && read.date.julian_day == 2460370 && read.time == a_moment().time && read.offset.seconds == 0, "a pair",
        read.status, 0);
    read = fots_moment_parse_format("29/Feb/2024:09:05:07.25 +05:30", 30, &moment);
    check(read.status == FOTS_OK && read.date.julian_day == 2460370 && read.time == a_moment().time && read.offset.seconds == 19800,
        "a moment", read.status, 0);
    check(fots_time_parse_format("9:05 XM", 7, &time).status == FOTS_UNEXPECTED_BYTE, "no half of a day", 0, 0);
    check(fots_time_parse_format("13:05 PM", 8, &time).status == FOTS_HOUR_OUT_OF_RANGE, "no such hour", 0, 0);
    check(fots_offset_parse_format("-0000", 5, &offset).status != FOTS_OK, "no negative zero", 0, 0);
    check(fots_time_parse_format("+0000", 5, &offset).status == FOTS_INSUFFICIENT_FORMAT, "no time", 0, 0);
    check(fots_moment_parse_format("", 0, &pair).status == FOTS_INSUFFICIENT_FORMAT, "no offset", 0, 0);
}

/* Columns have the texts and the statuses of single calls. */
static void columns(void)
{
    static const char texts[] = "29/02/202430/02/202429/02/2024";
    fots_format named = format_of("%A %-d "), day_first = format_of("%d/%m/%Y"), hour = format_of("%H");
    int32_t dates[3] = {2460370, FOTS_NO_VALUE, 2451545}, bounds[4] = {0, 10, 20, 19}, read[3];
    uint8_t statuses[3];
    memset(buffer, '~', ROOM);
    check(fots_dates_format(dates, 3, &named, buffer, 179, bounds, 4, statuses, 3) == FOTS_LENGTH_MISMATCH, "no room", 0, 0);
    check(is_filled(0, '~') && bounds[3] == 19, "nothing written", 0, 0);
    check(fots_dates_format(dates, 3, &named, buffer, 180, bounds, 4, statuses, 3) == 1, "printed", 0, 0);
    check(bounds[0] == 0 && bounds[1] == 12 && bounds[2] == 12 && bounds[3] == 23, "bounds", bounds[1], bounds[3]);
    check(memcmp(buffer, "Thursday 29 Saturday 1 ", 23) == 0 && is_filled(23, '~'), "texts", 0, 0);
    check(statuses[0] == FOTS_OK && statuses[1] == FOTS_INVALID_DATE && statuses[2] == FOTS_OK, "statuses", statuses[1], 0);
    check(fots_dates_format(dates, 3, &hour, buffer, ROOM, bounds, 4, statuses, 3) == 3 && statuses[0] == FOTS_UNSUPPORTED_ITEM
        && bounds[3] == 0, "unsupported", statuses[0], 0);
    bounds[1] = 10, bounds[2] = 20, bounds[3] = 19;
    check(fots_dates_parse_format(texts, 30, bounds, 4, &day_first, read, 3, statuses, 3) == 2, "parsed", 0, 0);
    check(read[0] == 2460370 && read[1] == FOTS_NO_VALUE && statuses[0] == FOTS_OK && statuses[1] == FOTS_DAY_OUT_OF_RANGE
        && statuses[2] == FOTS_INVALID_BOUNDS, "parsed rows", statuses[1], statuses[2]);
    day_first.items[0].kind = 255;
    check(fots_dates_parse_format(texts, 30, bounds, 4, &day_first, read, 3, statuses, 3) == 3 && statuses[0] == FOTS_INVALID_FORMAT, "by hand",
        statuses[0], 0);
    check(fots_dates_format(dates, 3, &day_first, buffer, ROOM, bounds, 4, statuses, 3) == 3 && statuses[0] == FOTS_INVALID_FORMAT, "by hand",
        statuses[0], 0);
    day_first.length = UINT32_MAX;
    check(fots_dates_format(dates, 1, &day_first, buffer, ROOM, bounds, 2, statuses, 1) == 1 && statuses[0] == FOTS_INVALID_FORMAT, "too long",
        statuses[0], 0);
}

/* Rows as datetime.strptime of Python reads them, and faults. */
static void lenient(void)
{
    static const struct {
        const char *format, *text;
        int32_t pivot, status, julian_day;
    } dates[] = {{"%d-%b-%Y", "29-FEB-2024", FOTS_NO_PIVOT, FOTS_OK, 2460370}, {"%d-%b-%Y", "29-feb-2024", FOTS_NO_PIVOT, FOTS_OK, 2460370},
        {"%d %B %Y", "29  Feb 2024", FOTS_NO_PIVOT, FOTS_OK, 2460370}, {"%d/%m/%Y", "1/1/2000", FOTS_NO_PIVOT, FOTS_OK, 2451545},
        {"%d/%m/%y", "1/1/00", 1970, FOTS_OK, 2451545}, {"%d/%m/%y", "01/01/70", 1970, FOTS_OK, 2440588}, {"%d/%m/%y", "1/1/00", FOTS_NO_PIVOT, FOTS_INSUFFICIENT_FORMAT, FOTS_NO_VALUE},
        {"%d/%m/%Y", "1/1/2000", 1970, FOTS_INSUFFICIENT_FORMAT, FOTS_NO_VALUE}, {"%d/%m/%y", "1/1/00", 9901, FOTS_INSUFFICIENT_FORMAT, FOTS_NO_VALUE},
        {"%d/%m/%y", "1/1/00", INT32_MAX, FOTS_INSUFFICIENT_FORMAT, FOTS_NO_VALUE}, {"%Y%m%d", "20240229", FOTS_NO_PIVOT, FOTS_INSUFFICIENT_FORMAT, FOTS_NO_VALUE},
        {"%H", "9", FOTS_NO_PIVOT, FOTS_INSUFFICIENT_FORMAT, FOTS_NO_VALUE}, {"%d/%m/%Y", "30/2/2024", FOTS_NO_PIVOT, FOTS_DAY_OUT_OF_RANGE, FOTS_NO_VALUE},
        {"%d/%m/%Y", "1/1", FOTS_NO_PIVOT, FOTS_UNEXPECTED_END, FOTS_NO_VALUE}, {"%d/%m/%Y", "1-1", FOTS_NO_PIVOT, FOTS_UNEXPECTED_BYTE, FOTS_NO_VALUE}};
    for (size_t row = 0; row < sizeof dates / sizeof dates[0]; row++) {
        const fots_format format = fots_format_new(dates[row].format, strlen(dates[row].format)).format;
        const fots_parse_date_result found = fots_date_parse_leniently(dates[row].text, strlen(dates[row].text), &format, dates[row].pivot);
        check(found.status == dates[row].status && found.date.julian_day == dates[row].julian_day, dates[row].text, found.status, found.date.julian_day);
    }
    fots_format format = fots_format_new("%d/%m/%Y %I:%M %p %z", 20).format;
    const fots_parse_moment_result moment = fots_moment_parse_leniently("29/2/2024 9:5 pm +0530", 22, &format, FOTS_NO_PIVOT);
    check(moment.status == FOTS_OK && moment.date.julian_day == 2460370 && moment.time == UINT64_C(75900000000000) && moment.offset.seconds == 19800, "a moment",
        moment.status, (long long)moment.position);
    format = fots_format_new("%d/%m/%Y %I:%M %p", 17).format;
    const fots_parse_moment_result pair = fots_pair_parse_leniently("29/2/2024 9:5 pm", 16, &format, FOTS_NO_PIVOT);
    check(pair.status == FOTS_OK && pair.date.julian_day == 2460370 && pair.time == UINT64_C(75900000000000), "a date and a time", pair.status, 0);
    format = fots_format_new("%T", 2).format;
    const fots_parse_time_result time = fots_time_parse_leniently("9:5:1", 5, &format, FOTS_NO_PIVOT);
    check(time.status == FOTS_OK && time.time == UINT64_C(32701000000000), "a time", time.status, (long long)time.position);
    format.items[0].kind = 255;
    check(fots_date_parse_leniently("", 0, &format, 0).status == FOTS_INVALID_FORMAT && fots_time_parse_leniently("", 0, &format, 0).status == FOTS_INVALID_FORMAT
        && fots_pair_parse_leniently("", 0, &format, 0).status == FOTS_INVALID_FORMAT && fots_moment_parse_leniently("", 0, &format, 0).status == FOTS_INVALID_FORMAT,
        "by hand", 0, 0);
}

int main(void)
{
    columns();
    rows();
    each_type();
    parsed_dates();
    parsed_times();
    parsed_others();
    faults();
    lenient();
    filled_by_hand();
    buffers();
    return ended("formats");
}
