/* Checks time zones: rows of GNU date, invalid arguments, and for a file, if there is one with the
 * name in the first argument, hostile bytes and structs, and drawn instants against localtime_r. */
#define _DEFAULT_SOURCE
#include <stddef.h>
#include <stdlib.h>
#include <string.h>
#include <time.h>

#include "fotsevindre.h"
#include "testing.h"

#define DRAWN 100000

static const char CET[] = "CET-1CEST,M3.5.0,M10.5.0/3";

static fots_date day(int32_t year, uint32_t month, uint32_t of_month)
{
    return fots_date_from_calendar_date(year, month, of_month).date;
}

static fots_time half_past(uint32_t hour)
{
    return fots_time_from_hms_nano(hour, 30, 0, 0).time;
}

static fots_zone posix(const char *text)
{
    return fots_zone_from_posix(text, strlen(text)).zone;
}

static void instants(void)
{
    const fots_zone berlin = posix(CET), fixed = posix("<-03>3");
    const fots_local_type_result winter = fots_zone_local_type(&berlin, 1711846799), summer = fots_zone_local_type(&berlin, 1711846800);
    check(winter.status == FOTS_OK && winter.offset.seconds == 3600 && !winter.is_daylight, "winter", winter.offset.seconds, winter.is_daylight);
    check(winter.abbreviation == 0 && winter.abbreviation_length == 3, "CET", (long long)winter.abbreviation, (long long)winter.abbreviation_length);
    check(summer.offset.seconds == 7200 && summer.is_daylight == 1, "summer", summer.offset.seconds, summer.is_daylight);
    check(summer.abbreviation == 5 && summer.abbreviation_length == 4, "CEST", (long long)summer.abbreviation, (long long)summer.abbreviation_length);
    check(fots_zone_offset(&berlin, 1711846800).offset.seconds == 7200, "the offset", 0, 0);
    check(fots_zone_next_change(&berlin, 1700000000).number == 1711846800, "the next change", 0, 0);
    check(fots_zone_previous_change(&berlin, 1711846800).number == 1711846800, "the previous change", 0, 0);
    check(fots_zone_next_change(&fixed, 0).status == FOTS_RESULT_OUT_OF_RANGE, "no next change", 0, 0);
    check(fots_zone_previous_change(&fixed, 0).number == INT64_MIN, "no previous change", 0, 0);
    check(fots_zone_offset(&fixed, INT64_MIN).offset.seconds == -10800, "the first instant", 0, 0);
    const fots_moment moment = fots_moment_from_unix_timestamp(1711846800).moment;
    const fots_moment_result shown = fots_moment_in_zone(moment, &berlin);
    check(shown.moment.date.julian_day == day(2024, 3, 31).julian_day && shown.moment.time == UINT64_C(10800000000000), "3:00", 0, 0);
}

static void readings(void)
{
    const fots_zone berlin = posix(CET);
    const fots_local_result gap = fots_zone_resolve(&berlin, day(2024, 3, 31), half_past(2));
    check(gap.kind == FOTS_GAP && gap.earlier == 1711845000 && gap.later == 1711848600, "a gap", gap.earlier, gap.later);
    check(gap.earlier_offset.seconds == 3600 && gap.later_offset.seconds == 7200, "the offsets of a gap", 0, 0);
    const fots_local_result fold = fots_zone_resolve(&berlin, day(2024, 10, 27), half_past(2));
    check(fold.kind == FOTS_FOLD && fold.earlier == 1729989000 && fold.later == 1729992600, "a fold", fold.earlier, fold.later);
    check(fold.earlier_offset.seconds == 7200 && fold.later_offset.seconds == 3600, "the offsets of a fold", 0, 0);
    const fots_local_result once = fots_zone_resolve(&berlin, day(2024, 7, 1), half_past(2));
    check(once.kind == FOTS_SINGLE && once.earlier == 1719793800 && once.later == once.earlier, "once", once.earlier, once.later);

    const fots_moment_result moved = fots_zone_moment(&berlin, day(2024, 3, 31), half_past(2), FOTS_COMPATIBLE);
    check(moved.status == FOTS_OK && moved.moment.time == half_past(3) && moved.moment.offset.seconds == 7200, "after the gap", 0, 0);
    check(fots_zone_moment(&berlin, day(2024, 3, 31), half_past(2), FOTS_EARLIER).moment.time == half_past(1), "before the gap", 0, 0);
    check(fots_zone_moment(&berlin, day(2024, 10, 27), half_past(2), FOTS_LATER).moment.offset.seconds == 3600, "the second", 0, 0);
    check(fots_zone_moment(&berlin, day(2024, 3, 31), half_past(2), FOTS_REJECT).status == FOTS_SKIPPED_TIME, "skipped", 0, 0);
    check(fots_zone_moment(&berlin, day(2024, 10, 27), half_past(2), FOTS_REJECT).status == FOTS_REPEATED_TIME, "repeated", 0, 0);
}

/* A zone, a Unix time, a format, and the text of GNU date. */
typedef struct Row {
    const char *zone;
    int64_t seconds;
    const char *format, *text;
} Row;

static const Row ROWS[] = {
    {CET, 1711846799, "%a, %d %b %Y %T %Z %z", "Sun, 31 Mar 2024 01:59:59 CET +0100"}, {CET, 1711846800, "%H:%M %Z", "03:00 CEST"},
    {"<-03>3", 1711846800, "%H:%M%Z", "22:00-03"}, {"<+0545>-5:45", 1711846800, "%F %R%Z|%Z", "2024-03-31 06:45+0545|+0545"},
};

static fots_length_result print(const fots_zone *zone, int64_t seconds, const char *format, char *text, size_t length)
{
    const fots_format made = fots_format_new(format, strlen(format)).format;
    memset(text, '~', length);
    return fots_moment_format_in_zone(fots_moment_from_unix_timestamp(seconds).moment, zone, &made, text, length);
}

static void texts(void)
{
    const fots_zone berlin = posix(CET), east = posix("<+0545>-5:45");
    const fots_zone most = posix("<ABCDEFGHIJKLMNO>0"), more = posix("<ABCDEFGHIJKLMNOP>0");
    const fots_format hour = fots_format_new("%H", 2).format;
    const fots_moment last = fots_moment_new(day(999999, 12, 31), FOTS_MAX_TIME, (fots_offset){0}).moment, no_moment = {{FOTS_NO_VALUE}, {0}, 0};
    char text[40];
    for (size_t k = 0; k < sizeof ROWS / sizeof *ROWS; k++) {
        const fots_zone zone = posix(ROWS[k].zone);
        const fots_length_result result = print(&zone, ROWS[k].seconds, ROWS[k].format, text, sizeof text);
        const size_t length = strlen(ROWS[k].text);
        check(result.status == FOTS_OK && result.length == length && !memcmp(text, ROWS[k].text, length), ROWS[k].text, result.status, 0);
    }
    check(print(&berlin, 0, "%Z", text, 2).status == FOTS_BUFFER_TOO_SHORT && text[0] == '~' && text[1] == '~', "no room", 0, 0);
    check(print(&most, 0, "%Z", text, 15).status == FOTS_OK, "15 bytes", 0, 0);
    check(print(&more, 0, "%Z", text, 16).status == FOTS_UNSUPPORTED_ITEM && text[0] == '~', "16 bytes", 0, 0);
    check(print(&berlin, 0, "%", text, 16).status == FOTS_INVALID_FORMAT && text[0] == '~', "no format", 0, 0);
    check(fots_moment_format_in_zone(last, &east, &hour, text, 16).status == FOTS_RESULT_OUT_OF_RANGE, "after the last day", 0, 0);
    check(fots_moment_format_in_zone(no_moment, &east, &hour, text, 16).status == FOTS_INVALID_MOMENT, "no moment", 0, 0);
}

/* Strings that POSIX does not allow, with the values of GNU date. */
static void lenient(void)
{
    const fots_zone hours = posix("CET-001"), minute = posix("CET-1:5");
    const fots_zone month = posix("CET-1CEST,M03.5.0,M10.5.0/3"), late = posix("EET-2EEST,M3.4.4/50,M10.4.4/50");
    check(fots_zone_offset(&hours, 0).offset.seconds == 3600, "three digits of hours", 0, 0);
    check(fots_zone_offset(&minute, 0).offset.seconds == 3900, "a minute of one digit", 0, 0);
    check(fots_zone_next_change(&month, 1700000000).number == 1711846800, "a month with a zero", 0, 0);
    check(fots_zone_next_change(&late, 1700000000).number == 1711756800, "a change after 50 hours", 0, 0);
}

/* Equal zones have equal bytes: no byte of the parts is padding. */
static void equal_bytes(void)
{
    const fots_zone_parts one = fots_zone_posix_parts(CET, strlen(CET)).parts, other = fots_zone_posix_parts(CET, strlen(CET)).parts;
    check(offsetof(fots_zone_yearly, unused) == 3 && offsetof(fots_zone_yearly, time) == 4, "the unused byte", 0, 0);
    check(one.one.unused == 0 && one.other.unused == 0, "unused is 0", one.one.unused, one.other.unused);
    check(memcmp(&one, &other, sizeof one) == 0, "equal parts", 0, 0);
}

static void is_rejected(const fots_zone *zone, long long which)
{
    char text[16];
    const fots_date no_day = {FOTS_NO_VALUE};
    const fots_moment no_moment = {{FOTS_NO_VALUE}, {0}, 0};
    const fots_duration no_duration = {1, -1, 0};
    const fots_period no_period = {1, -1, 0, 0, no_duration};
    int64_t second = 0;
    int32_t offset = 0;
    uint8_t status;
    check(fots_zone_offset(zone, 0).status == FOTS_INVALID_ZONE && fots_zone_offset(zone, 0).offset.seconds == FOTS_NO_VALUE, "offset", which, 0);
    check(fots_zone_local_type(zone, 0).status == FOTS_INVALID_ZONE, "local type", which, 0);
    check(fots_zone_next_change(zone, 0).status == FOTS_INVALID_ZONE, "next change", which, 0);
    check(fots_zone_previous_change(zone, 0).status == FOTS_INVALID_ZONE, "previous change", which, 0);
    check(fots_zone_resolve(zone, no_day, 0).status == FOTS_INVALID_ZONE && fots_zone_resolve(zone, no_day, 0).kind == 0, "resolve", which, 0);
    check(fots_zone_moment(zone, no_day, 0, 4).status == FOTS_INVALID_ZONE, "moment", which, 0);
    check(fots_moment_in_zone(no_moment, zone).status == FOTS_INVALID_MOMENT, "no moment", which, 0);
    check(fots_moment_in_zone(fots_moment_from_unix_timestamp(0).moment, zone).status == FOTS_INVALID_ZONE, "in zone", which, 0);
    check(print(zone, 0, "%Z", text, sizeof text).status == FOTS_INVALID_ZONE && text[0] == '~', "a text", which, 0);
    check(fots_zone_offsets(zone, &second, 1, &offset, 1, &status, 1) == 1 && status == FOTS_INVALID_ZONE, "offsets", which, offset);
    check(fots_zone_instants(zone, &second, 1, 4, &second, 1, &status, 1) == 1 && status == FOTS_INVALID_ZONE, "instants", which, second);
    check(fots_zoned_at(zone, no_duration).status == FOTS_INVALID_ZONE, "at an instant", which, 0);
    check(fots_zoned_from_local(zone, no_day, 0, 4).status == FOTS_INVALID_ZONE, "from a local date-time", which, 0);
    check(fots_zoned_with_local(zone, no_moment, no_day, 0, 4).status == FOTS_INVALID_ZONE, "with a local date-time", which, 0);
    check(fots_zoned_checked_add(zone, no_moment, no_duration).status == FOTS_INVALID_ZONE, "a duration later", which, 0);
    check(fots_zoned_checked_sub(zone, no_moment, no_duration).status == FOTS_INVALID_ZONE, "a duration earlier", which, 0);
    check(fots_zoned_add_period(zone, no_moment, no_period, 4).status == FOTS_INVALID_ZONE, "a period later", which, 0);
    check(fots_zoned_nth_period(zone, no_moment, no_period, 2, 4).status == FOTS_INVALID_ZONE, "some periods later", which, 0);
    check(fots_zoned_period_until(zone, no_moment, no_moment, 0, 4).status == FOTS_INVALID_ZONE, "the period until a moment", which, 0);
    check(fots_zoned_moved_to(zone, no_moment, no_day, 4).status == FOTS_INVALID_ZONE, "on another date", which, 0);
    check(fots_zoned_start_of(zone, no_moment, 0).status == FOTS_INVALID_ZONE, "the start of a unit", which, 0);
    check(fots_zoned_end_of(zone, no_moment, 0).status == FOTS_INVALID_ZONE, "the end of a unit", which, 0);
    check(fots_zoned_start_of_day(zone, no_day).status == FOTS_INVALID_ZONE, "start of a day", which, 0);
    check(fots_zoned_round(zone, no_moment, no_duration, 5).status == FOTS_INVALID_ZONE, "rounded", which, 0);
    check(fots_zoned_day_length(zone, no_day).status == FOTS_INVALID_ZONE, "length of a day", which, 0);
    check(fots_zoned_add_days(zone, &second, 1, &second, 1, 4, &second, 1, &status, 1) == 1 && status == FOTS_INVALID_ZONE, "days", which, second);
    check(fots_zoned_add_months(zone, &second, 1, &offset, 1, 4, &second, 1, &status, 1) == 1 && status == FOTS_INVALID_ZONE, "months", which, second);
    check(fots_zoned_starts_of_day(zone, &second, 1, &second, 1, &status, 1) == 1 && status == FOTS_INVALID_ZONE, "starts of days", which, second);
}

static void is_error(const char *text, int32_t status, size_t position)
{
    const fots_zone_result found = fots_zone_from_posix(text, strlen(text));
    check(found.status == status && found.position == position, text, found.status, (long long)found.position);
    is_rejected(&found.zone, status);
}

static void errors(void)
{
    is_error("", FOTS_INVALID_ABBREVIATION, 0);
    is_error("CET", FOTS_INVALID_POSIX_OFFSET, 3);
    is_error("CET25", FOTS_INVALID_POSIX_OFFSET, 3);
    is_error("CET-1CEST,J60,J300", FOTS_INVALID_RULE_DAY, 10);
    is_error("CET-1CEST,M3.5.0/168,M10.5.0", FOTS_INVALID_RULE_TIME, 16);
    is_error("CET-1CEST,M3.5.0,M4.5.0", FOTS_MONTHS_TOO_CLOSE, 5);
    is_error("CET-1CEST,M3.5.0,M10.5.0/3x", FOTS_TRAILING_BYTES, 26);

    const fots_zone zone = posix(CET), fixed = posix("<-03>3");
    const fots_date no_day = {FOTS_NO_VALUE};
    const fots_moment no_moment = {{FOTS_NO_VALUE}, {0}, 0};
    check(fots_zone_resolve(&zone, no_day, 0).status == FOTS_INVALID_DATE, "no date", 0, 0);
    check(fots_zone_resolve(&zone, day(2024, 1, 1), FOTS_NO_TIME).status == FOTS_INVALID_TIME, "no time", 0, 0);
    check(fots_zone_moment(&zone, day(2024, 1, 1), 0, 4).status == FOTS_INVALID_POLICY, "no policy", 0, 0);
    check(fots_moment_in_zone(no_moment, &zone).status == FOTS_INVALID_MOMENT, "no moment", 0, 0);
    check(fots_zone_from_file((const uint8_t *)CET, strlen(CET)).status == FOTS_UNEXPECTED_END, "a text is not a file", 0, 0);
    check(fots_zone_from_posix(CET, strlen(CET)).position == SIZE_MAX, "no error", 0, 0);

    fots_zone other;
    memset(&other, 0, sizeof other);
    other.bytes = (const uint8_t *)CET;
    is_rejected(&other, 0);
    for (other = fixed, other.parts.rule = 0; other.parts.rule < 9; other.parts.rule += 3) {
        is_rejected(&other, other.parts.rule);
    }
    other = fixed, other.parts.rule = 2;
    is_rejected(&other, 1);
    other = fixed, other.parts.skip = 3999999;
    is_rejected(&other, 2);
    other = fixed, other.parts.layout.changes = SIZE_MAX;
    is_rejected(&other, 3);
    other = zone, other.parts.one.month = 12;
    is_rejected(&other, 4);
    other = zone, other.parts.other.weekday = 7;
    is_rejected(&other, 5);
    other = zone, other.parts.one.week = 6;
    is_rejected(&other, 6);
}

/* Two instants of a reading have its offsets, if the zone is one that a call made. */
static void is_shown(const fots_zone *zone)
{
    const fots_local_result local = fots_zone_resolve(zone, day(2024, 10, 27), half_past(2));
    check(local.status == FOTS_OK, "a reading", local.status, 0);
    if (local.kind != FOTS_GAP) {
        check(fots_zone_offset(zone, local.earlier).offset.seconds == local.earlier_offset.seconds, "the first", local.earlier, 0);
        check(fots_zone_offset(zone, local.later).offset.seconds == local.later_offset.seconds, "the second", local.later, 0);
    }
}

/* The bytes are an error, or a zone whose instants show their readings. */
static void is_sound(const uint8_t *bytes, size_t length)
{
    const fots_zone_result found = fots_zone_from_file(bytes, length);
    if (found.status == FOTS_OK) {
        is_shown(&found.zone);
    } else {
        check(found.position <= length, "a position", (long long)found.position, (long long)length);
        check(fots_zone_resolve(&found.zone, day(2024, 10, 27), half_past(2)).status == FOTS_INVALID_ZONE, "rejected", found.status, 0);
    }
}

/* Checks that instants can be written onto their readings, in a gap and in a fold. */
static void instants_in_place(const fots_zone *zone)
{
    int64_t column[] = {1711850400, 1711852200, 1729996200}, found[3];
    uint8_t statuses[3];
    fots_zone_instants(zone, column, 3, FOTS_COMPATIBLE, found, 3, statuses, 3);
    fots_zone_instants(zone, column, 3, FOTS_COMPATIBLE, column, 3, statuses, 3);
    check(memcmp(found, column, sizeof found) == 0, "instants in place", column[1], found[1]);
}

/* Makes all calls with a struct that no call made. Only the sanitizers can see an error. */
static void is_safe(const fots_zone *zone)
{
    int64_t seconds[] = {INT64_MIN, -1, 1711846800, INT64_MAX}, found[4];
    int32_t offsets[4];
    uint8_t statuses[4];
    char text[16];
    int row;
    for (row = 0; row < 4; row++) {
        const fots_local_type_result type = fots_zone_local_type(zone, seconds[row]);
        check(type.abbreviation_length == 0 || type.abbreviation + type.abbreviation_length <= zone->bytes_length, "inside", row, 0);
        fots_zone_offset(zone, seconds[row]);
        fots_zone_next_change(zone, seconds[row]);
        fots_zone_previous_change(zone, seconds[row]);
    }
    fots_zone_resolve(zone, day(2024, 10, 27), half_past(2));
    fots_zone_moment(zone, day(2024, 3, 31), half_past(2), FOTS_EARLIER);
    fots_moment_in_zone(fots_moment_from_unix_timestamp(1711846800).moment, zone);
    print(zone, 1711846800, "%T %Z", text, sizeof text);
    fots_zone_offsets(zone, seconds, 4, offsets, 4, statuses, 4);
    fots_zone_instants(zone, seconds, 4, FOTS_LATER, found, 4, statuses, 4);
    for (row = 0; row < 4; row++) {
        const fots_duration time = {seconds[row], 0, 0};
        const fots_period step = {0, 1, 0, 1, {3600, 0, 0}};
        const fots_moment_result from = fots_zoned_at(zone, time);
        offsets[row] = row;
        fots_zoned_from_local(zone, day(2024, 10, 27), half_past(2), (uint32_t)row);
        fots_zoned_with_local(zone, from.moment, day(2024, 3, 31), half_past(2), (uint32_t)row);
        fots_zoned_checked_add(zone, from.moment, time);
        fots_zoned_checked_sub(zone, from.moment, time);
        fots_zoned_add_period(zone, from.moment, step, (uint32_t)row);
        fots_zoned_day_length(zone, from.moment.date);
        fots_zoned_moved_to(zone, from.moment, day(2024, 3, 31), (uint32_t)row);
        fots_zoned_nth_period(zone, from.moment, step, row, (uint32_t)row);
        fots_zoned_period_until(zone, from.moment, fots_zoned_add_period(zone, from.moment, step, 0).moment, 1 + (uint32_t)row, (uint32_t)row);
        fots_zoned_start_of(zone, from.moment, (uint32_t)row);
        fots_zoned_end_of(zone, from.moment, (uint32_t)row);
        fots_zoned_round(zone, from.moment, (fots_duration){row % 2 ? 3600 : 86400, 0, 0}, (uint32_t)row);
    }
    fots_zoned_start_of_day(zone, day(2024, 3, 31));
    fots_zoned_add_days(zone, seconds, 4, seconds, 4, FOTS_LATER, found, 4, statuses, 4);
    fots_zoned_add_months(zone, seconds, 4, offsets, 4, FOTS_EARLIER, found, 4, statuses, 4);
    fots_zoned_starts_of_day(zone, seconds, 4, found, 4, statuses, 4);
}

/* Changes each byte of a struct. */
static void hostile_struct(const fots_zone *zone)
{
    const size_t start = offsetof(fots_zone, parts);
    size_t index;
    int other;
    for (index = start; index < sizeof *zone; index++) {
        for (other = 1; other < 256; other += other < 4 ? 1 : 50) {
            fots_zone changed = *zone;
            ((uint8_t *)&changed)[index] += (uint8_t)other;
            is_safe(&changed);
        }
    }
}

static uint8_t bytes[1 << 16];

/* Returns the length of a file, or 0 without one. */
static size_t read_file(const char *name)
{
    FILE *file = fopen(name, "rb");
    const size_t length = file ? fread(bytes, 1, sizeof bytes, file) : 0;
    if (file) {
        fclose(file);
    }
    return length;
}

/* Cuts the bytes at each place, and changes each byte. */
static void hostile(size_t length)
{
    size_t index;
    int other;
    for (index = 0; index < length; index++) {
        is_sound(bytes, index);
    }
    for (index = 0; index < length; index++) {
        const uint8_t byte = bytes[index], others[] = {0, 255, (uint8_t)(byte + 1)};
        for (other = 0; other < 3; other++) {
            bytes[index] = others[other];
            is_sound(bytes, length);
        }
        bytes[index] = byte;
    }
}

/* Compares instants of the years 1834 to 2310, and their texts, with the C library. */
static void against_localtime(const char *name, size_t length)
{
    const char *items = "%a %F %T %z %Z";
    const fots_format format = fots_format_new(items, strlen(items)).format;
    const fots_zone zone = fots_zone_from_file(bytes, length).zone;
    uint64_t state = 88172645463325252ULL;
    int drawn;
    setenv("TZ", name, 1);
    tzset();
    for (drawn = 0; drawn < DRAWN && length; drawn++) {
        struct tm shown;
        time_t seconds;
        state ^= state << 13;
        state ^= state >> 7;
        state ^= state << 17;
        seconds = (time_t)(state % 15000000000ULL) - 4280000000LL;
        if (check(localtime_r(&seconds, &shown) != NULL, "localtime_r", seconds, 0)) {
            const fots_local_type_result found = fots_zone_local_type(&zone, seconds);
            check(found.offset.seconds == shown.tm_gmtoff && (int)found.is_daylight == shown.tm_isdst, "an offset", seconds, shown.tm_gmtoff);
            check(strlen(shown.tm_zone) == found.abbreviation_length && !memcmp(shown.tm_zone, bytes + found.abbreviation, found.abbreviation_length),
                "an abbreviation", seconds, 0);
            char ours[64], theirs[64];
            const fots_length_result text = fots_moment_format_in_zone(fots_moment_from_unix_timestamp(seconds).moment, &zone, &format, ours, 64);
            const size_t their_length = strftime(theirs, 64, items, &shown);
            check(text.status == FOTS_OK && text.length == their_length && !memcmp(ours, theirs, their_length), "a text", seconds, text.status);
        }
    }
}

/* ---- date-times in a zone */

static fots_moment moment(fots_date date, uint32_t hour, uint32_t minute, int32_t hours)
{
    const fots_moment made = {date, {hours * 3600}, fots_time_from_hms_nano(hour, minute, 0, 0).time};
    return made;
}

static void is_moment(fots_moment_result found, fots_moment wanted, const char *what)
{
    check(found.status == FOTS_OK && found.moment.date.julian_day == wanted.date.julian_day && found.moment.time == wanted.time
        && found.moment.offset.seconds == wanted.offset.seconds, what, found.status, found.moment.offset.seconds);
}

static void is_not_moment(fots_moment_result found, int32_t status, const char *what)
{
    check(found.status == status && found.moment.date.julian_day == FOTS_NO_VALUE && found.moment.time == FOTS_NO_TIME, what, found.status, status);
}

static fots_period period(int32_t years, int32_t months, int32_t weeks, int32_t days, int64_t seconds)
{
    const fots_period made = {years, months, weeks, days, {seconds, 0, 0}};
    return made;
}

/* By the rules of RFC 9557 and Temporal for gaps and folds, which have examples in Berlin. */
static void moves(void)
{
    const fots_zone berlin = posix(CET), azores = posix("<-01>1<+00>,M3.5.0/0,M10.5.0/1");
    const fots_date skipping = day(2024, 3, 31), repeating = day(2024, 10, 27);
    const fots_moment winter = moment(day(2024, 3, 30), 2, 30, 1), second = moment(repeating, 2, 30, 1);
    const fots_duration start = {1711846800, 0, 0}, hour = {3600, 0, 0};
    is_moment(fots_zoned_at(&berlin, start), moment(skipping, 3, 0, 2), "at an instant");
    is_moment(fots_zoned_from_local(&berlin, skipping, half_past(2), FOTS_COMPATIBLE), moment(skipping, 3, 30, 2), "a gap");
    is_moment(fots_zoned_from_local(&berlin, skipping, half_past(2), FOTS_EARLIER), moment(skipping, 1, 30, 1), "a gap, earlier");
    is_moment(fots_zoned_from_local(&berlin, repeating, half_past(2), FOTS_LATER), second, "a fold, later");
    is_moment(fots_zoned_with_local(&berlin, second, repeating, half_past(2) + UINT64_C(900000000000), FOTS_EARLIER), moment(repeating, 2, 45, 1), "the same half of a fold");
    is_moment(fots_zoned_with_local(&berlin, winter, repeating, half_past(2), FOTS_COMPATIBLE), second, "at the own offset");
    is_moment(fots_zoned_with_local(&berlin, winter, skipping, half_past(2), FOTS_COMPATIBLE), moment(skipping, 3, 30, 2), "not at the own offset");
    is_moment(fots_zoned_checked_add(&berlin, moment(skipping, 1, 30, 1), hour), moment(skipping, 3, 30, 2), "an hour later");
    is_moment(fots_zoned_checked_sub(&berlin, moment(skipping, 3, 30, 2), hour), moment(skipping, 1, 30, 1), "an hour earlier");
    is_moment(fots_zoned_add_period(&berlin, winter, period(0, 0, 0, 1, 0), FOTS_COMPATIBLE), moment(skipping, 3, 30, 2), "a day later");
    is_moment(fots_zoned_add_period(&berlin, moment(day(2024, 1, 31), 2, 30, 1), period(0, 1, 0, 31, 0), FOTS_COMPATIBLE), moment(skipping, 3, 30, 2), "a month, and then 31 days");
    is_moment(fots_zoned_add_period(&berlin, winter, period(0, 0, 0, 2, 3600), FOTS_REJECT), moment(day(2024, 4, 1), 3, 30, 2), "two days and an hour later");
    is_moment(fots_zoned_add_period(&berlin, second, period(0, 0, 0, 0, 0), FOTS_EARLIER), second, "a period of nothing");
    is_moment(fots_zoned_start_of_day(&berlin, skipping), moment(skipping, 0, 0, 1), "the start of a day");
    is_moment(fots_zoned_start_of_day(&azores, skipping), moment(skipping, 1, 0, 0), "a midnight that is skipped");
    check(fots_zoned_day_length(&berlin, skipping).duration.seconds == 23 * 3600, "23 hours", 0, 0);
    check(fots_zoned_day_length(&berlin, repeating).duration.seconds == 25 * 3600, "25 hours", 0, 0);
    check(fots_zoned_day_length(&azores, skipping).duration.seconds == 23 * 3600, "23 hours from 1:00", 0, 0);
}

/* From the examples of Temporal for startOfDay and disambiguation, by the calendar. */
static void moved_and_ends(void)
{
    const fots_zone berlin = posix(CET), azores = posix("<-01>1<+00>,M3.5.0/0,M10.5.0/1");
    const fots_date skipping = day(2024, 3, 31), repeating = day(2024, 10, 27), last = {FOTS_MAX_JULIAN_DAY}, none = {FOTS_NO_VALUE};
    const fots_moment winter = moment(day(2024, 3, 30), 2, 30, 1), second = moment(repeating, 2, 30, 1), noon = moment(skipping, 12, 0, 2);
    const fots_moment wrong = moment(skipping, 12, 0, 1), invalid = moment(none, 0, 0, 1), at_end = moment(last, 12, 0, 1);
    fots_moment end = moment(skipping, 23, 59, 2);
    end.time = FOTS_MAX_TIME;
    is_moment(fots_zoned_moved_to(&berlin, winter, skipping, FOTS_COMPATIBLE), moment(skipping, 3, 30, 2), "moved into a gap");
    is_moment(fots_zoned_moved_to(&berlin, winter, repeating, FOTS_COMPATIBLE), moment(repeating, 2, 30, 2), "moved into a fold");
    is_moment(fots_zoned_moved_to(&berlin, second, repeating, FOTS_REJECT), second, "moved to its own date");
    is_moment(fots_zoned_start_of(&berlin, noon, FOTS_DAY), moment(skipping, 0, 0, 1), "the start of a day");
    is_moment(fots_zoned_start_of(&berlin, noon, FOTS_WEEK), moment(day(2024, 3, 25), 0, 0, 1), "the start of a week");
    is_moment(fots_zoned_start_of(&berlin, noon, FOTS_MONTH), moment(day(2024, 3, 1), 0, 0, 1), "the start of a month");
    is_moment(fots_zoned_start_of(&berlin, noon, FOTS_QUARTER), moment(day(2024, 1, 1), 0, 0, 1), "the start of a quarter");
    is_moment(fots_zoned_start_of(&berlin, moment(repeating, 2, 30, 1), FOTS_YEAR), moment(day(2024, 1, 1), 0, 0, 1), "the start of a year");
    is_moment(fots_zoned_start_of(&azores, moment(skipping, 12, 0, 0), FOTS_DAY), moment(skipping, 1, 0, 0), "a midnight that is skipped");
    is_moment(fots_zoned_end_of(&berlin, winter, FOTS_MONTH), end, "the end of a month");
    is_moment(fots_zoned_end_of(&berlin, winter, FOTS_WEEK), end, "the end of a week");
    is_moment(fots_zoned_end_of(&berlin, winter, FOTS_QUARTER), end, "the end of a quarter");
    end = moment(day(2024, 12, 31), 0, 0, 1);
    end.time = FOTS_MAX_TIME;
    is_moment(fots_zoned_end_of(&berlin, noon, FOTS_YEAR), end, "the end of a year");
    end = moment(day(2024, 3, 30), 0, 0, -1);
    end.time = FOTS_MAX_TIME;
    is_moment(fots_zoned_end_of(&azores, moment(end.date, 12, 0, -1), FOTS_DAY), end, "the end before a gap at midnight");
    is_not_moment(fots_zoned_moved_to(&berlin, invalid, none, 4), FOTS_INVALID_MOMENT, "no moment on a date");
    is_not_moment(fots_zoned_moved_to(&berlin, wrong, none, 4), FOTS_WRONG_OFFSET, "another offset on a date");
    is_not_moment(fots_zoned_moved_to(&berlin, noon, none, 4), FOTS_INVALID_DATE, "on no date");
    is_not_moment(fots_zoned_moved_to(&berlin, noon, skipping, 4), FOTS_INVALID_POLICY, "on its own date by no policy");
    is_not_moment(fots_zoned_moved_to(&berlin, winter, skipping, FOTS_REJECT), FOTS_SKIPPED_TIME, "a gap, rejected");
    is_not_moment(fots_zoned_start_of(&berlin, invalid, 0), FOTS_INVALID_MOMENT, "the start around no moment");
    is_not_moment(fots_zoned_start_of(&berlin, wrong, 0), FOTS_WRONG_OFFSET, "the start around another offset");
    is_not_moment(fots_zoned_start_of(&berlin, noon, 0), FOTS_INVALID_UNIT, "the start of no unit");
    is_not_moment(fots_zoned_end_of(&berlin, invalid, 6), FOTS_INVALID_MOMENT, "the end around no moment");
    is_not_moment(fots_zoned_end_of(&berlin, wrong, 6), FOTS_WRONG_OFFSET, "the end around another offset");
    is_not_moment(fots_zoned_end_of(&berlin, noon, 6), FOTS_INVALID_UNIT, "the end of no unit");
    is_not_moment(fots_zoned_end_of(&berlin, at_end, FOTS_YEAR), FOTS_RESULT_OUT_OF_RANGE, "the end of the last year");
}

/* The examples of Temporal for ZonedDateTime.round, and a day of 23 and one of 25 hours by a count. */
static void rounded(void)
{
    const fots_zone berlin = posix(CET), angeles = posix("PST8PDT,M3.2.0,M11.1.0"), azores = posix("<-01>1<+00>,M3.5.0/0,M10.5.0/1");
    const fots_date skipping = day(2024, 3, 31), repeating = day(2024, 10, 27), next = day(2024, 4, 1), last = {FOTS_MAX_JULIAN_DAY}, none = {FOTS_NO_VALUE};
    const fots_date december = day(1995, 12, 7);
    const fots_duration hour = {3600, 0, 0}, half = {1800, 0, 0}, whole = {86400, 0, 0}, week = {7 * 86400, 0, 0};
    fots_moment example = moment(december, 3, 24, -8);
    example.time += UINT64_C(30000003500);
    is_moment(fots_zoned_round(&angeles, example, hour, FOTS_HALF_CEIL), moment(december, 3, 0, -8), "to an hour");
    is_moment(fots_zoned_round(&angeles, example, half, FOTS_HALF_CEIL), moment(december, 3, 30, -8), "to half an hour");
    is_moment(fots_zoned_round(&angeles, example, half, FOTS_FLOOR), moment(december, 3, 0, -8), "down to half an hour");
    is_moment(fots_zoned_round(&berlin, moment(skipping, 1, 50, 1), hour, FOTS_HALF_CEIL), moment(skipping, 3, 0, 2), "into a gap");
    is_moment(fots_zoned_round(&berlin, moment(repeating, 2, 20, 1), half, FOTS_HALF_CEIL), moment(repeating, 2, 30, 1), "in the second half of a fold");
    is_moment(fots_zoned_round(&berlin, moment(repeating, 2, 20, 2), half, FOTS_HALF_CEIL), moment(repeating, 2, 30, 2), "in the first half of a fold");
    is_moment(fots_zoned_round(&berlin, moment(skipping, 12, 29, 2), whole, FOTS_HALF_CEIL), moment(skipping, 0, 0, 1), "before the middle of 23 hours");
    is_moment(fots_zoned_round(&berlin, moment(skipping, 12, 30, 2), whole, FOTS_HALF_CEIL), moment(next, 0, 0, 2), "the middle of 23 hours");
    is_moment(fots_zoned_round(&berlin, moment(skipping, 12, 30, 2), whole, FOTS_HALF_EVEN), moment(skipping, 0, 0, 1), "the middle of 23 hours, to the even one");
    is_moment(fots_zoned_round(&berlin, moment(repeating, 11, 29, 1), whole, FOTS_HALF_CEIL), moment(repeating, 0, 0, 2), "before the middle of 25 hours");
    is_moment(fots_zoned_round(&berlin, moment(repeating, 11, 30, 1), whole, FOTS_HALF_CEIL), moment(day(2024, 10, 28), 0, 0, 1), "the middle of 25 hours");
    is_moment(fots_zoned_round(&azores, moment(skipping, 2, 0, 0), whole, FOTS_FLOOR), moment(skipping, 1, 0, 0), "to a midnight that is skipped");
    is_not_moment(fots_zoned_round(&berlin, moment(none, 0, 0, 1), week, 5), FOTS_INVALID_MOMENT, "no moment, rounded");
    is_not_moment(fots_zoned_round(&berlin, moment(skipping, 12, 0, 1), week, 5), FOTS_WRONG_OFFSET, "another offset, rounded");
    is_not_moment(fots_zoned_round(&berlin, moment(skipping, 12, 0, 2), week, 5), FOTS_INVALID_ROUNDING_UNIT, "to a week");
    is_not_moment(fots_zoned_round(&berlin, moment(skipping, 12, 0, 2), hour, 5), FOTS_INVALID_ROUNDING_MODE, "by no mode");
    is_not_moment(fots_zoned_round(&berlin, moment(last, 23, 50, 1), hour, FOTS_CEIL), FOTS_RESULT_OUT_OF_RANGE, "past the range");
    is_not_moment(fots_zoned_round(&berlin, moment(last, 0, 0, 1), whole, FOTS_FLOOR), FOTS_RESULT_OUT_OF_RANGE, "on the last day");
}

static void is_period(fots_exact_period_result found, fots_period wanted, const char *what)
{
    check(found.status == FOTS_OK && found.period.years == wanted.years && found.period.months == wanted.months && found.period.weeks == wanted.weeks
        && found.period.days == wanted.days && found.period.duration.seconds == wanted.duration.seconds
        && found.period.duration.nanoseconds == wanted.duration.nanoseconds, what, found.period.days, found.period.duration.seconds);
}

/* From 2019-01-31 15:30 to 2020-03-01 9:00, which are 394 days and 17:30 h apart, by each unit, and back. */
static void periods_between(void)
{
    const fots_date from = day(2019, 1, 31), to = day(2020, 3, 1), none = {FOTS_NO_VALUE};
    const fots_time start = half_past(15), end = half_past(9) - UINT64_C(1800000000000);
    const int64_t rest = 17 * 3600 + 1800;
    is_period(fots_pair_period_until(from, start, to, end, FOTS_DAY), period(0, 0, 0, 394, rest), "days");
    is_period(fots_pair_period_until(from, start, to, end, FOTS_WEEK), period(0, 0, 56, 2, rest), "weeks");
    is_period(fots_pair_period_until(from, start, to, end, FOTS_MONTH), period(0, 13, 0, 0, rest), "months");
    is_period(fots_pair_period_until(from, start, to, end, FOTS_YEAR), period(1, 1, 0, 0, rest), "years");
    is_period(fots_pair_period_until(to, end, from, start, FOTS_DAY), period(0, 0, 0, -394, -rest), "back");
    is_period(fots_pair_period_until(to, end, to, end, FOTS_YEAR), period(0, 0, 0, 0, 0), "nothing");
    const fots_pair_result second_month = fots_pair_nth_period(from, start, period(0, 1, 0, 0, 60), 2);
    check(second_month.date.julian_day == day(2019, 3, 31).julian_day && second_month.time == start + UINT64_C(120000000000), "two months at once", second_month.status, 0);
    check(fots_pair_step_of(from, start, period(0, 1, 0, 0, 0), day(2019, 2, 28), start - 1).number == 0, "step 0", 0, 0);
    check(fots_pair_step_of(from, start, period(0, 1, 0, 0, 0), day(2019, 2, 28), start).number == 1, "step 1", 0, 0);
    check(fots_pair_step_of(from, start, period(0, 0, 0, 0, 1800), to, end).number == (394 * 24 * 2 + 35), "steps of half an hour", 0, 0);
    check(fots_pair_step_of(to, start, period(0, 1, 0, 0, 0), to, end).status == FOTS_RESULT_OUT_OF_RANGE, "before the start", 0, 0);
    check(fots_pair_step_of(from, start, period(0, 0, 0, 0, 0), to, end).status == FOTS_RESULT_OUT_OF_RANGE, "steps of nothing", 0, 0);
    check(fots_pair_step_of(none, start, period(1, -1, 0, 0, 0), none, end).status == FOTS_INVALID_DATE, "from no date", 0, 0);
    check(fots_pair_step_of(from, FOTS_NO_TIME, period(1, -1, 0, 0, 0), none, end).status == FOTS_INVALID_TIME, "from no time", 0, 0);
    check(fots_pair_step_of(from, start, period(1, -1, 0, 0, 0), none, end).status == FOTS_INVALID_PERIOD, "two signs", 0, 0);
    check(fots_pair_step_of(from, start, period(1, 0, 0, 0, 0), none, end).status == FOTS_INVALID_DATE, "no date", 0, 0);
    check(fots_pair_step_of(from, start, period(1, 0, 0, 0, 0), to, FOTS_NO_TIME).status == FOTS_INVALID_TIME, "no time", 0, 0);
    check(fots_pair_nth_period(none, FOTS_NO_TIME, period(1, -1, 0, 0, 0), 1).status == FOTS_INVALID_DATE, "no date", 0, 0);
    check(fots_pair_nth_period(from, FOTS_NO_TIME, period(1, -1, 0, 0, 0), 1).status == FOTS_INVALID_TIME, "no time", 0, 0);
    check(fots_pair_nth_period(from, start, period(1, -1, 0, 0, 0), 1).status == FOTS_INVALID_PERIOD, "two signs", 0, 0);
    check(fots_pair_nth_period(from, start, period(1, 0, 0, 0, 0), INT32_MAX).status == FOTS_RESULT_OUT_OF_RANGE, "past the range", 0, 0);
    check(fots_pair_period_until(none, FOTS_NO_TIME, none, FOTS_NO_TIME, 0).status == FOTS_INVALID_DATE, "from no date", 0, 0);
    check(fots_pair_period_until(from, FOTS_NO_TIME, none, FOTS_NO_TIME, 0).status == FOTS_INVALID_TIME, "from no time", 0, 0);
    check(fots_pair_period_until(from, 0, none, FOTS_NO_TIME, 0).status == FOTS_INVALID_DATE, "to no date", 0, 0);
    check(fots_pair_period_until(from, 0, to, FOTS_NO_TIME, 0).status == FOTS_INVALID_TIME, "to no time", 0, 0);
    check(fots_pair_period_until(from, 0, to, 0, 0).status == FOTS_INVALID_UNIT, "by no unit", 0, 0);
    check(fots_pair_period_until(from, 0, to, 0, 0).period.years == FOTS_NO_VALUE, "no period", 0, 0);
}

/* Periods in a zone: the example of Temporal for a day of 23 hours, and others by the calendar. */
static void zoned_periods(void)
{
    const fots_zone berlin = posix(CET);
    const fots_date skipping = day(2024, 3, 31), none = {FOTS_NO_VALUE};
    const fots_moment noon = moment(day(2024, 3, 30), 12, 0, 1), later = moment(skipping, 13, 0, 2), january = moment(day(2024, 1, 31), 2, 30, 1);
    const fots_moment wrong = moment(skipping, 12, 0, 1), invalid = moment(none, 0, 0, 1);
    const fots_period month = period(0, 1, 0, 0, 0), mixed = period(1, -1, 0, 0, 0);
    is_period(fots_zoned_period_until(&berlin, noon, later, FOTS_DAY, FOTS_COMPATIBLE), period(0, 0, 0, 1, 3600), "a day and an hour");
    is_period(fots_zoned_period_until(&berlin, later, noon, FOTS_DAY, FOTS_COMPATIBLE), period(0, 0, 0, -1, -3600), "back");
    is_period(fots_zoned_period_until(&berlin, january, moment(skipping, 3, 30, 2), FOTS_MONTH, FOTS_COMPATIBLE), period(0, 2, 0, 0, 0), "two months");
    is_moment(fots_zoned_nth_period(&berlin, january, month, 2, FOTS_COMPATIBLE), moment(skipping, 3, 30, 2), "two months at once");
    is_moment(fots_zoned_nth_period(&berlin, january, month, -1, FOTS_REJECT), moment(day(2023, 12, 31), 2, 30, 1), "a month back");
    is_moment(fots_zoned_nth_period(&berlin, january, month, 0, FOTS_REJECT), january, "no month");
    is_not_moment(fots_zoned_nth_period(&berlin, invalid, mixed, 1, 4), FOTS_INVALID_MOMENT, "after no moment");
    is_not_moment(fots_zoned_nth_period(&berlin, wrong, mixed, 1, 4), FOTS_WRONG_OFFSET, "after another offset");
    is_not_moment(fots_zoned_nth_period(&berlin, january, mixed, 1, 4), FOTS_INVALID_PERIOD, "two signs");
    is_not_moment(fots_zoned_nth_period(&berlin, january, month, 1, 4), FOTS_INVALID_POLICY, "by no policy");
    is_not_moment(fots_zoned_nth_period(&berlin, january, month, 2, FOTS_REJECT), FOTS_SKIPPED_TIME, "into a gap");
    check(fots_zoned_period_until(&berlin, invalid, invalid, 0, 4).status == FOTS_INVALID_MOMENT, "from no moment", 0, 0);
    check(fots_zoned_period_until(&berlin, wrong, invalid, 0, 4).status == FOTS_WRONG_OFFSET, "from another offset", 0, 0);
    check(fots_zoned_period_until(&berlin, noon, invalid, 0, 4).status == FOTS_INVALID_MOMENT, "to no moment", 0, 0);
    check(fots_zoned_period_until(&berlin, noon, wrong, 0, 4).status == FOTS_WRONG_OFFSET, "to another offset", 0, 0);
    check(fots_zoned_period_until(&berlin, noon, later, 0, 4).status == FOTS_INVALID_UNIT, "by no unit", 0, 0);
    check(fots_zoned_period_until(&berlin, noon, later, 1, 4).status == FOTS_INVALID_POLICY, "by no policy", 0, 0);
}

static void periods(void)
{
    const fots_date january = day(2024, 1, 31);
    const fots_period month = period(0, 1, 0, 0, 0);
    const fots_pair_result pair = fots_pair_add_period(january, half_past(23), period(0, 1, 0, 0, 7200));
    check(fots_date_add_period(january, month).date.julian_day == day(2024, 2, 29).julian_day, "a month", 0, 0);
    check(fots_date_add_period(january, period(1, 1, 1, 1, 0)).date.julian_day == day(2025, 3, 8).julian_day, "each part", 0, 0);
    check(fots_date_nth_period(january, month, 2).date.julian_day == day(2024, 3, 31).julian_day, "two months without a drift", 0, 0);
    check(fots_date_nth_period(january, month, -2).date.julian_day == day(2023, 11, 30).julian_day, "two months back", 0, 0);
    check(pair.date.julian_day == day(2024, 3, 1).julian_day && pair.time == half_past(1), "a month and two hours", pair.status, 0);
}

static void wrong_moves(void)
{
    const fots_zone berlin = posix(CET);
    const fots_date date = day(2024, 3, 30), none = {FOTS_NO_VALUE}, last = {FOTS_MAX_JULIAN_DAY}, skipping = day(2024, 3, 31);
    const fots_moment right = moment(date, 2, 30, 1), wrong = moment(date, 2, 30, 2), invalid = moment(none, 0, 0, 1);
    const fots_moment in_gap = moment(skipping, 2, 30, 1);
    const fots_duration hour = {3600, 0, 0}, two_signs = {1, -1, 0}, longest = {INT64_MAX, 0, 0};
    const fots_period mixed = period(1, -1, 0, 0, 0), exact = period(0, 0, 0, 1, 1), day_later = period(0, 0, 0, 1, 0);
    fots_period bad = day_later;
    bad.duration = two_signs;
    is_not_moment(fots_zoned_at(&berlin, two_signs), FOTS_INVALID_DURATION, "at no duration");
    is_not_moment(fots_zoned_at(&berlin, longest), FOTS_RESULT_OUT_OF_RANGE, "at an instant past the range");
    is_not_moment(fots_zoned_from_local(&berlin, none, 0, 0), FOTS_INVALID_DATE, "from no date");
    is_not_moment(fots_zoned_from_local(&berlin, date, FOTS_NO_TIME, 0), FOTS_INVALID_TIME, "from no time");
    is_not_moment(fots_zoned_from_local(&berlin, date, 0, 4), FOTS_INVALID_POLICY, "by no policy");
    is_not_moment(fots_zoned_from_local(&berlin, skipping, half_past(2), FOTS_REJECT), FOTS_SKIPPED_TIME, "a gap, rejected");
    is_not_moment(fots_zoned_from_local(&berlin, day(2024, 10, 27), half_past(2), FOTS_REJECT), FOTS_REPEATED_TIME, "a fold, rejected");
    is_not_moment(fots_zoned_with_local(&berlin, invalid, date, 0, 0), FOTS_INVALID_MOMENT, "of no moment");
    is_not_moment(fots_zoned_with_local(&berlin, wrong, none, 0, 0), FOTS_WRONG_OFFSET, "of a moment with another offset");
    is_not_moment(fots_zoned_with_local(&berlin, in_gap, none, 0, 0), FOTS_WRONG_OFFSET, "of a moment in a gap");
    is_not_moment(fots_zoned_with_local(&berlin, right, none, FOTS_NO_TIME, 4), FOTS_INVALID_DATE, "to no date");
    is_not_moment(fots_zoned_with_local(&berlin, right, date, FOTS_NO_TIME, 4), FOTS_INVALID_TIME, "to no time");
    is_not_moment(fots_zoned_with_local(&berlin, right, date, 0, 4), FOTS_INVALID_POLICY, "to a date by no policy");
    is_not_moment(fots_zoned_checked_add(&berlin, invalid, hour), FOTS_INVALID_MOMENT, "an hour after no moment");
    is_not_moment(fots_zoned_checked_add(&berlin, wrong, two_signs), FOTS_WRONG_OFFSET, "after another offset");
    is_not_moment(fots_zoned_checked_add(&berlin, right, two_signs), FOTS_INVALID_DURATION, "no duration later");
    is_not_moment(fots_zoned_checked_add(&berlin, right, longest), FOTS_RESULT_OUT_OF_RANGE, "past the range");
    is_not_moment(fots_zoned_checked_sub(&berlin, invalid, hour), FOTS_INVALID_MOMENT, "an hour before no moment");
    is_not_moment(fots_zoned_checked_sub(&berlin, wrong, two_signs), FOTS_WRONG_OFFSET, "before another offset");
    is_not_moment(fots_zoned_checked_sub(&berlin, right, two_signs), FOTS_INVALID_DURATION, "no duration earlier");
    is_not_moment(fots_zoned_checked_sub(&berlin, right, longest), FOTS_RESULT_OUT_OF_RANGE, "before the range");
    is_not_moment(fots_zoned_add_period(&berlin, invalid, mixed, 4), FOTS_INVALID_MOMENT, "a period after no moment");
    is_not_moment(fots_zoned_add_period(&berlin, wrong, mixed, 4), FOTS_WRONG_OFFSET, "a period after another offset");
    is_not_moment(fots_zoned_add_period(&berlin, right, mixed, 4), FOTS_INVALID_PERIOD, "a period of two signs");
    is_not_moment(fots_zoned_add_period(&berlin, right, bad, 4), FOTS_INVALID_PERIOD, "a period with no duration");
    is_not_moment(fots_zoned_add_period(&berlin, right, day_later, 4), FOTS_INVALID_POLICY, "a period by no policy");
    is_not_moment(fots_zoned_add_period(&berlin, right, day_later, FOTS_REJECT), FOTS_SKIPPED_TIME, "a period into a gap");
    is_not_moment(fots_zoned_add_period(&berlin, right, period(INT32_MAX, 0, 0, 0, 0), 0), FOTS_RESULT_OUT_OF_RANGE, "a period past the range");
    is_not_moment(fots_zoned_start_of_day(&berlin, none), FOTS_INVALID_DATE, "the start of no day");
    check(fots_zoned_day_length(&berlin, none).status == FOTS_INVALID_DATE, "the length of no day", 0, 0);
    check(fots_zoned_day_length(&berlin, last).status == FOTS_RESULT_OUT_OF_RANGE, "the length of the last day", 0, 0);
    check(fots_date_add_period(none, mixed).status == FOTS_INVALID_DATE, "after no date", 0, 0);
    check(fots_date_add_period(date, mixed).status == FOTS_INVALID_PERIOD, "two signs", 0, 0);
    check(fots_date_add_period(date, exact).status == FOTS_PERIOD_HAS_DURATION, "a date plus a second", 0, 0);
    check(fots_date_add_period(last, day_later).status == FOTS_RESULT_OUT_OF_RANGE, "after the last date", 0, 0);
    check(fots_date_nth_period(none, day_later, 0).status == FOTS_INVALID_DATE, "no date", 0, 0);
    check(fots_date_nth_period(date, day_later, INT32_MIN).status == FOTS_RESULT_OUT_OF_RANGE, "before the first date", 0, 0);
    check(fots_pair_add_period(none, 0, mixed).status == FOTS_INVALID_DATE, "a pair of no date", 0, 0);
    check(fots_pair_add_period(date, FOTS_NO_TIME, mixed).status == FOTS_INVALID_TIME, "a pair of no time", 0, 0);
    check(fots_pair_add_period(date, 0, mixed).status == FOTS_INVALID_PERIOD, "a pair and two signs", 0, 0);
    check(fots_pair_add_period(last, 0, exact).status == FOTS_RESULT_OUT_OF_RANGE, "a pair past the range", 0, 0);
}

/* Days that don't fit in 32 bits go past the range either way. */
static int32_t clamped(int64_t days)
{
    return (int32_t)(days < INT32_MIN ? INT32_MIN : days > INT32_MAX ? INT32_MAX : days);
}

/* Each row of a column is the result of the single calls. */
static void moved_columns(const fots_zone *zone)
{
    enum { ROWS_OF_COLUMN = 4096 };
    static int64_t seconds[ROWS_OF_COLUMN], moved[ROWS_OF_COLUMN], starts[ROWS_OF_COLUMN];
    static int32_t steps[ROWS_OF_COLUMN];
    static int64_t days[ROWS_OF_COLUMN];
    static uint8_t statuses[ROWS_OF_COLUMN], start_statuses[ROWS_OF_COLUMN];
    uint64_t state = 88172645463325252ULL;
    for (int k = 0; k < ROWS_OF_COLUMN; k++) {
        state ^= state << 13;
        state ^= state >> 7;
        state ^= state << 17;
        const fots_int64_result change = fots_zone_next_change(zone, (int64_t)(state % 4000000000ULL));
        seconds[k] = (change.status == FOTS_OK ? change.number : 0) + (int64_t)(state >> 40) % 200000 - 100000;
        days[k] = steps[k] = (int32_t)(state >> 20) % 50 - 25;
    }
    seconds[0] = INT64_MIN;
    seconds[1] = INT64_MAX;
    days[2] = steps[2] = INT32_MAX;
    days[3] = INT64_MAX;
    days[4] = INT64_MIN;
    days[5] = (int64_t)1 << 32;
    for (uint32_t policy = 0; policy <= 4; policy++) {
        for (int months = 0; months < 2; months++) {
            size_t errors = 0;
            const size_t found = months
                ? fots_zoned_add_months(zone, seconds, ROWS_OF_COLUMN, steps, ROWS_OF_COLUMN, policy, moved, ROWS_OF_COLUMN, statuses, ROWS_OF_COLUMN)
                : fots_zoned_add_days(zone, seconds, ROWS_OF_COLUMN, days, ROWS_OF_COLUMN, policy, moved, ROWS_OF_COLUMN, statuses, ROWS_OF_COLUMN);
            for (int k = 0; k < ROWS_OF_COLUMN; k++) {
                const fots_duration time = {seconds[k], 0, 0};
                const fots_moment_result from = fots_zoned_at(zone, time);
                const fots_moment_result one = fots_zoned_add_period(zone, from.moment, months ? period(0, steps[k], 0, 0, 0) : period(0, 0, 0, clamped(days[k]), 0), policy);
                const int32_t status = policy > 3 ? FOTS_INVALID_POLICY : from.status ? from.status : one.status;
                check(statuses[k] == status && moved[k] == (status ? INT64_MIN : fots_moment_unix_timestamp(one.moment).number), "a moved row", k, statuses[k]);
                errors += status != FOTS_OK;
            }
            check(found == errors, "the errors of a column", (long long)found, (long long)errors);
        }
    }
    fots_zoned_starts_of_day(zone, seconds, ROWS_OF_COLUMN, starts, ROWS_OF_COLUMN, start_statuses, ROWS_OF_COLUMN);
    for (int k = 0; k < ROWS_OF_COLUMN; k++) {
        const fots_duration time = {seconds[k], 0, 0};
        const fots_moment_result from = fots_zoned_at(zone, time), one = fots_zoned_start_of_day(zone, from.moment.date);
        const int32_t status = from.status ? from.status : one.status;
        check(start_statuses[k] == status && starts[k] == (status ? INT64_MIN : fots_moment_unix_timestamp(one.moment).number), "a start of a day", k, status);
        check(status || starts[k] <= seconds[k], "a start after its day", k, starts[k]);
    }
    check(fots_zoned_add_days(zone, seconds, 2, days, 1, 0, moved, 2, statuses, 2) == SIZE_MAX, "unequal lengths", 0, 0);
    check(fots_zoned_add_months(zone, seconds, 2, steps, 2, 0, moved, 1, statuses, 2) == SIZE_MAX, "unequal lengths", 0, 0);
    check(fots_zoned_starts_of_day(zone, seconds, 2, starts, 2, statuses, 1) == SIZE_MAX, "unequal lengths", 0, 0);
}

int main(int count, char **arguments)
{
    instants();
    readings();
    texts();
    errors();
    lenient();
    equal_bytes();
    moves();
    moved_and_ends();
    rounded();
    periods_between();
    zoned_periods();
    periods();
    wrong_moves();
    const fots_zone berlin = posix(CET);
    moved_columns(&berlin);
    instants_in_place(&berlin);
    hostile_struct(&berlin);
    if (count > 1) {
        const size_t length = read_file(arguments[1]);
        const fots_zone zone = fots_zone_from_file(bytes, length).zone;
        moved_columns(&zone);
        hostile_struct(&zone);
        hostile(length);
        against_localtime(arguments[1], length);
    }
    return ended("zones");
}
