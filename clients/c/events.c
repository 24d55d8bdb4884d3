/* Tests events of calendar files: the examples of RFC 5545, and files in the forms that calendars
 * export. The dates of the recurrences are the ones that the RFC lists. */
#include <stdlib.h>
#include <string.h>

#include "fotsevindre.h"
#include "testing.h"

#define COUNT(values) ((int)(sizeof(values) / sizeof(values)[0]))
/* The time zone of the examples. */
#define NEW_YORK "EST5EDT,M3.2.0,M11.1.0"

static fots_date day(int32_t year, uint32_t month, uint32_t of_month)
{
    return fots_date_from_calendar_date(year, month, of_month).date;
}

static fots_moment at(fots_date date, uint64_t hour, uint64_t minute)
{
    const fots_moment moment = {date, {0}, (hour * 60 + minute) * 60000000000};
    return moment;
}

static int same_moment(fots_moment one, fots_moment other)
{
    return one.date.julian_day == other.date.julian_day && one.offset.seconds == other.offset.seconds && one.time == other.time;
}

static int same_text(const char *bytes, size_t length, const char *text)
{
    return length == strlen(text) && memcmp(bytes, text, length) == 0;
}

/* ---- files */

/* Sections 3.6.1 and 4 of RFC 5545, with some of their lines. */
static const char file[] = "BEGIN:VCALENDAR\r\nPRODID:-//xyz Corp//NONSGML PDA Calendar Version 1.0//EN\r\nVERSION:2.0\r\n"
    "BEGIN:VTIMEZONE\r\nTZID:America/New_York\r\nBEGIN:STANDARD\r\nDTSTART:19981025T020000\r\nTZOFFSETFROM:-0400\r\nTZOFFSETTO:-0500\r\n"
    "TZNAME:EST\r\nEND:STANDARD\r\nEND:VTIMEZONE\r\n"
    "BEGIN:VEVENT\r\nDTSTAMP:19960704T120000Z\r\nUID:uid1@example.com\r\nDTSTART:19960918T143000Z\r\nDTEND:19960920T220000Z\r\n"
    "SUMMARY:Networld+Interop Conference\r\nDESCRIPTION:Networld+Interop Conference\r\n  and Exhibit\\nAtlanta World Congress Center\\n\r\n Atlanta\\, Georgia\r\nEND:VEVENT\r\n"
    "BEGIN:VEVENT\r\nUID:guid-1.example.com\r\nATTENDEE;RSVP=TRUE;ROLE=REQ-PARTICIPANT;CUTYPE=GROUP:\r\n mailto:employee-A@example.com\r\n"
    "SUMMARY:XYZ Project Review\r\nDTSTART;TZID=America/New_York:19980312T083000\r\nDTEND;TZID=America/New_York:19980312T093000\r\nEND:VEVENT\r\n"
    "BEGIN:VEVENT\r\nUID:19970901T130000Z-123403@example.com\r\nDTSTART;VALUE=DATE:19971102\r\nSUMMARY:Our Blissful Anniversary\r\nRRULE:FREQ=YEARLY\r\n"
    "BEGIN:VALARM\r\nTRIGGER:-PT30M\r\nSUMMARY:Alarm\r\nEND:VALARM\r\nEND:VEVENT\r\n"
    "BEGIN:VTODO\r\nDTSTART:20070514T110000Z\r\nSUMMARY:Submit\r\nEND:VTODO\r\n"
    "begin:vevent\r\ndtstart;value=date:20070628\r\ndtend;value=date:20070709\r\nsummary:Festival International de Jazz de Montreal\r\nend:vevent\r\n"
    "END:VCALENDAR\r\n";

/* Copies a file with LF in place of CR LF. */
static size_t with_line_feeds(const char *text, size_t length, char *bytes)
{
    size_t filled = 0;
    for (size_t index = 0; index < length; index++) {
        if (text[index] != '\r') {
            bytes[filled++] = text[index];
        }
    }
    return filled;
}

/* Each event of a file, its start and its values. */
static void events_of(const char *text, size_t length)
{
    static const struct {
        uint32_t kind;
        int32_t year;
        uint32_t month, day;
        uint64_t hour, minute;
        const char *zone, *name, *value;
    } rows[] = {
        {FOTS_EVENT_UTC, 1996, 9, 18, 14, 30, NULL, "description", "Networld+Interop Conference and Exhibit\\nAtlanta World Congress Center\\nAtlanta\\, Georgia"},
        {FOTS_EVENT_LOCAL, 1998, 3, 12, 8, 30, "America/New_York", "ATTENDEE", "mailto:employee-A@example.com"},
        {FOTS_EVENT_DATE, 1997, 11, 2, 0, 0, NULL, "SUMMARY", "Our Blissful Anniversary"},
        {FOTS_EVENT_DATE, 2007, 6, 28, 0, 0, NULL, "DTEND", "20070709"},
    };
    char bytes[200];
    int row = 0;
    while (1) {
        const fots_event_result event = fots_event_first(text, length);
        if (event.status != FOTS_OK) {
            check(event.status == FOTS_RESULT_OUT_OF_RANGE && event.position == SIZE_MAX && event.length == 0 && event.next == SIZE_MAX, "the end of a file", row, event.status);
            break;
        }
        const char *const lines = text + event.position;
        const fots_event_start_result start = fots_event_start(lines, event.length);
        check(row < COUNT(rows) && start.status == FOTS_OK && start.line == 0 && start.position == SIZE_MAX && start.kind == rows[row].kind, "a start", row, start.status);
        check(same_moment(start.start, at(day(rows[row].year, rows[row].month, rows[row].day), rows[row].hour, rows[row].minute)), "the time of a start", row, 0);
        fots_length_result value = fots_event_value(lines, event.length, rows[row].name, strlen(rows[row].name), bytes, sizeof bytes);
        check(value.status == FOTS_OK && same_text(bytes, value.length, rows[row].value), rows[row].value, row, value.status);
        value = fots_event_value(lines, event.length, "TRIGGER", 7, bytes, sizeof bytes);
        check(value.status == FOTS_RESULT_OUT_OF_RANGE && value.length == 0, "the value of an alarm", row, value.status);
        value = fots_event_zone(lines, event.length, bytes, sizeof bytes);
        check(value.status == (rows[row].zone ? FOTS_OK : FOTS_RESULT_OUT_OF_RANGE) && same_text(bytes, value.length, rows[row].zone ? rows[row].zone : ""), "a zone", row, value.status);
        text += event.next;
        length -= event.next;
        row++;
    }
    check(row == COUNT(rows), "the events of a file", row, 0);
}

static void files(void)
{
    static char with_feeds[sizeof file], unfolded[sizeof file];
    fots_length_result written = fots_unfold(file, sizeof file - 1, unfolded, sizeof unfolded);
    check(written.status == FOTS_OK && written.length == sizeof file - 1 - 9, "a file with 3 folds", (long long)written.length, written.status);
    events_of(unfolded, written.length);
    written = fots_unfold(with_feeds, with_line_feeds(file, sizeof file - 1, with_feeds), unfolded, sizeof unfolded);
    events_of(unfolded, written.length);
}

static void folds(void)
{
    static const struct {
        const char *text, *unfolded;
    } rows[] = {
        {"DESCRIPTION:This is a lo\r\n ng description\r\n  that exists on a long line.", "DESCRIPTION:This is a long description that exists on a long line."},
        {"RDATE:20240704,\n\t20240705\n", "RDATE:20240704,20240705\n"},
        {"A\r\nB\n C", "A\r\nBC"},
        {"A\r B\n", "A\r B\n"},
        {" A", " A"},
        {"", ""},
    };
    for (int row = 0; row < COUNT(rows); row++) {
        char bytes[100] = {0};
        const size_t length = strlen(rows[row].text);
        fots_length_result written = fots_unfold(rows[row].text, length, bytes, length);
        check(written.status == FOTS_OK && same_text(bytes, written.length, rows[row].unfolded), rows[row].text, row, written.status);
        if (length > 0) {
            memset(bytes, 'x', sizeof bytes);
            written = fots_unfold(rows[row].text, length, bytes, length - 1);
            check(written.status == FOTS_BUFFER_TOO_SHORT && written.length == length && bytes[0] == 'x', "a short buffer", row, written.status);
        }
    }
}

/* Lines that are folded before their 76th byte, and then before each 74 bytes (RFC 5545, 3.1). */
static void folded_lines(void)
{
#define TEN "0123456789"
#define SEVENTY TEN TEN TEN TEN TEN TEN TEN
    static const struct {
        const char *text, *folded;
    } rows[] = {
        {"", ""},
        {"DESCRIPTION:This is a long description that exists on a long line.", "DESCRIPTION:This is a long description that exists on a long line."},
        {SEVENTY "01234", SEVENTY "01234"},
        {SEVENTY "01234\r", SEVENTY "01234\r"},
        {SEVENTY "01234\nA\n", SEVENTY "01234\nA\n"},
        {SEVENTY "01234\r\nA\r\n", SEVENTY "01234\r\nA\r\n"},
        {SEVENTY "012345", SEVENTY "01234\r\n 5"},
        {SEVENTY "012345\r\n", SEVENTY "01234\r\n 5\r\n"},
        {SEVENTY "01234\rA", SEVENTY "01234\r\n \rA"},
        {SEVENTY "01234" SEVENTY "0123", SEVENTY "01234\r\n " SEVENTY "0123"},
        {SEVENTY "01234" SEVENTY "01234\n", SEVENTY "01234\r\n " SEVENTY "0123\r\n 4\n"},
        {"A\n" SEVENTY "012345\n" SEVENTY TEN, "A\n" SEVENTY "01234\r\n 5\n" SEVENTY "01234\r\n 56789"},
        /* a fold within a character of two bytes */
        {SEVENTY "0123\303\251", SEVENTY "0123\303\r\n \251"},
    };
    for (int row = 0; row < COUNT(rows); row++) {
        char bytes[300], unfolded[300];
        const char *const text = rows[row].text;
        const size_t length = strlen(text), room = length + length / 24;
        memset(bytes, 'x', sizeof bytes);
        fots_length_result written = fots_fold(text, length, bytes, room);
        check(written.status == FOTS_OK && same_text(bytes, written.length, rows[row].folded) && bytes[written.length] == 'x', text, row, (long long)written.length);
        written = fots_unfold(bytes, written.length, unfolded, sizeof unfolded);
        check(written.status == FOTS_OK && same_text(unfolded, written.length, text), "a text without its folds", row, written.status);
        if (length > 0) {
            memset(bytes, 'x', sizeof bytes);
            written = fots_fold(text, length, bytes, room - 1);
            check(written.status == FOTS_BUFFER_TOO_SHORT && written.length == room && bytes[0] == 'x', "a short buffer for folds", row, written.status);
        }
    }
    /* Each length up to 1000: each line but the last has 75 bytes. */
    for (size_t length = 0; length <= 1000; length++) {
        static char text[1000], bytes[1100];
        memset(text, 'A', sizeof text);
        const size_t folds = length > 75 ? (length - 75 + 73) / 74 : 0;
        const fots_length_result written = fots_fold(text, length, bytes, length + length / 24);
        check(written.status == FOTS_OK && written.length == length + 3 * folds, "a long line", (long long)length, (long long)written.length);
    }
}

/* Errors of the lines that begin and end events. */
static void wrong_files(void)
{
    static const struct {
        const char *text;
        int32_t status;
        size_t position;
    } rows[] = {
        {"", FOTS_RESULT_OUT_OF_RANGE, SIZE_MAX},
        {"BEGIN:VCALENDAR\nEND:VCALENDAR\n", FOTS_RESULT_OUT_OF_RANGE, SIZE_MAX},
        {"END:VEVENT\n", FOTS_RESULT_OUT_OF_RANGE, SIZE_MAX},
        {"BEGIN:VEVENT", FOTS_UNCLOSED_EVENT, 0},
        {"X:1\nBEGIN:VEVENT\nUID:1\n", FOTS_UNCLOSED_EVENT, 4},
        {"BEGIN:VEVENT\nEND:VCALENDAR\n", FOTS_OTHER_END, 13},
        {"BEGIN:VEVENT\r\nBEGIN:VALARM\r\nEND:VEVENT\r\nEND:VCALENDAR\r\n", FOTS_OTHER_END, 40},
        {"BEGIN:VEVENT\nBEGIN:VALARM\nEND:VEVENT\n", FOTS_UNCLOSED_EVENT, 0},
    };
    for (int row = 0; row < COUNT(rows); row++) {
        const fots_event_result event = fots_event_first(rows[row].text, strlen(rows[row].text));
        check(event.status == rows[row].status && event.position == rows[row].position, rows[row].text, event.status, (long long)event.position);
        check(event.length == 0 && event.next == SIZE_MAX, "no event", row, 0);
    }
    const fots_event_result last = fots_event_first("BEGIN:VEVENT\nEND:VEVENT", 23);
    check(last.status == FOTS_OK && last.position == 13 && last.length == 0 && last.next == 23, "an empty event at the end", last.status, (long long)last.next);
}

/* ---- sets */

/* Errors of the lines of an event. */
static void wrong_lines(void)
{
    static const struct {
        const char *lines;
        int32_t status;
        uint32_t line;
        size_t position;
    } rows[] = {
        {"UID:1\n", FOTS_MISSING_START, 0, 6},
        {"", FOTS_MISSING_START, 0, 0},
        {"UID:1\nDTSTART:2024-01-01\n", FOTS_INVALID_VALUE, FOTS_EVENT_DTSTART, 6},
        {"UID:1\nDTSTART:20230229\n", FOTS_INVALID_VALUE, FOTS_EVENT_DTSTART, 6},
        {"DTSTART;VALUE=DATE:20240101T090000\n", FOTS_INVALID_VALUE, FOTS_EVENT_DTSTART, 0},
        {"DTSTART:20240101\nSUMMARY:Two\nDTSTART:20240102\n", FOTS_DUPLICATE_PART, FOTS_EVENT_DTSTART, 29},
        {"DTSTART:20240101\nRRULE:FREQ=DAILY\nRRULE:FREQ=WEEKLY\n", FOTS_DUPLICATE_PART, FOTS_EVENT_RRULE, 34},
        {"DTSTART:20240101\r\nRRULE:FREQ=FORTNIGHTLY\r\n", FOTS_INVALID_VALUE, FOTS_EVENT_RRULE, 18},
        {"DTSTART:20240101\nRRULE:COUNT=2\n", FOTS_MISSING_FREQUENCY, FOTS_EVENT_RRULE, 17},
        {"DTSTART:20240101\nRRULE:FREQ=DAILY;EVERY=2\n", FOTS_UNKNOWN_PART, FOTS_EVENT_RRULE, 17},
        {"DTSTART:20240101\nRDATE:20240102,x\n", FOTS_INVALID_VALUE, FOTS_EVENT_RDATE, 17},
        {"DTSTART:20240101\nEXDATE:\n", FOTS_INVALID_VALUE, FOTS_EVENT_EXDATE, 17},
        {"DTSTART;TZID=Europe/Berlin:20240101T090000\nEXDATE;TZID=Europe/Paris:20240102T090000\n", FOTS_OTHER_ZONE, FOTS_EVENT_EXDATE, 43},
        {"DTSTART;TZID=Europe/Berlin:20240101T090000Z\n", FOTS_INVALID_VALUE, FOTS_EVENT_DTSTART, 0},
    };
    const fots_zone zone = fots_zone_from_posix(NEW_YORK, strlen(NEW_YORK)).zone;
    fots_date date = date_at(7);
    fots_moment moment = at(date, 0, 0);
    for (int row = 0; row < COUNT(rows); row++) {
        const char *const lines = rows[row].lines;
        const size_t length = strlen(lines);
        char bytes[20] = "x";
        const fots_event_start_result start = fots_event_start(lines, length);
        check(start.status == rows[row].status && start.line == rows[row].line && start.position == rows[row].position && start.kind == 0
            && start.start.date.julian_day == FOTS_NO_VALUE && start.start.offset.seconds == FOTS_NO_VALUE && start.start.time == FOTS_NO_TIME, lines, start.status, (long long)start.position);
        const fots_event_set_result found[] = {
            fots_event_days(lines, length, date_at(INT32_MAX), &date, 1),
            fots_event_readings(lines, length, moment, &moment, 1),
            fots_event_moments(lines, length, &zone, moment, &moment, 1),
            fots_event_recurrence_lines(lines, length, bytes, 0),
        };
        for (int call = 0; call < COUNT(found); call++) {
            check(found[call].status == rows[row].status && found[call].line == rows[row].line && found[call].position == rows[row].position && found[call].length == 0, lines, call, found[call].status);
        }
        check(fots_event_zone(lines, length, bytes, sizeof bytes).status == rows[row].status && bytes[0] == 'x', lines, row, 0);
    }
    check(date.julian_day == 7 && same_moment(moment, at(date_at(7), 0, 0)), "arrays after errors", 0, 0);
}

/* The lines of sets in one form, which have the same set. */
static void recurrence_lines(void)
{
    static const struct {
        const char *lines, *written;
    } rows[] = {
        {"dtstart:20240101", "DTSTART;VALUE=DATE:20240101\r\nRRULE:FREQ=DAILY;COUNT=1\r\n"},
        /* RFC 5545, 3.8.5.3 and 3.8.5.2 */
        {"DTSTART;TZID=America/New_York:19970902T090000\r\nRRULE:FREQ=DAILY;COUNT=10\r\n", "DTSTART;TZID=America/New_York:19970902T090000\r\nRRULE:FREQ=DAILY;COUNT=10\r\n"},
        {"DTSTART;VALUE=DATE:19970101\nRDATE;VALUE=DATE:19970101,19970120,19970217\nRDATE:19970421\n",
            "DTSTART;VALUE=DATE:19970101\r\nRRULE:FREQ=DAILY;COUNT=1\r\nRDATE;VALUE=DATE:19970101,19970120,19970217,19970421\r\n"},
        {"EXDATE:19960402T010000Z,19960403T010000Z\nSUMMARY:Last\nBEGIN:VALARM\nDTSTART:1\nEND:VALARM\nrrule:byday=-01su;freq=yearly;until=19961231\ndtstart:19960401T010000Z",
            "DTSTART:19960401T010000Z\r\nRRULE:FREQ=YEARLY;UNTIL=19961231;BYDAY=-1SU\r\nEXDATE:19960402T010000Z,19960403T010000Z\r\n"},
        /* the starts of periods */
        {"DTSTART:19960405T090000Z\nRDATE;VALUE=PERIOD:19960403T020000Z/19960403T040000Z,19960404T010000Z/PT3H\n",
            "DTSTART:19960405T090000Z\r\nRRULE:FREQ=DAILY;COUNT=1\r\nRDATE:19960403T020000Z,19960404T010000Z\r\n"},
        /* values of several kinds */
        {"DTSTART;TZID=\"Europe/Berlin\":20240101T090000\nRDATE:20240102,20240103T090000Z,20240104T090000Z,20240105T090000\n",
            "DTSTART;TZID=Europe/Berlin:20240101T090000\r\nRRULE:FREQ=DAILY;COUNT=1\r\nRDATE;VALUE=DATE:20240102\r\nRDATE:20240103T090000Z,20240104T090000Z\r\n"
            "RDATE;TZID=Europe/Berlin:20240105T090000\r\n"},
    };
    for (int row = 0; row < COUNT(rows); row++) {
        char bytes[400], again[400];
        const char *const lines = rows[row].lines;
        const size_t length = strlen(rows[row].written);
        memset(bytes, 'x', sizeof bytes);
        fots_event_set_result written = fots_event_recurrence_lines(lines, strlen(lines), bytes, length);
        check(written.status == FOTS_OK && written.line == 0 && written.position == SIZE_MAX && same_text(bytes, written.length, rows[row].written) && bytes[length] == 'x', lines, row, (long long)written.length);
        written = fots_event_recurrence_lines(bytes, length, again, sizeof again);
        check(written.status == FOTS_OK && same_text(again, written.length, rows[row].written), "the same lines again", row, written.status);
        written = fots_event_recurrence_lines(lines, strlen(lines), again, length - 1);
        check(written.status == FOTS_BUFFER_TOO_SHORT && written.line == 0 && written.length == 0 && written.position == SIZE_MAX, "a short buffer for lines", row, written.status);
        fots_date days[2][6];
        const fots_event_set_result found[2] = {fots_event_days(lines, strlen(lines), date_at(0), days[0], 6), fots_event_days(bytes, length, date_at(0), days[1], 6)};
        check(found[0].status == found[1].status && found[0].length == found[1].length && memcmp(days[0], days[1], found[0].length * sizeof(fots_date)) == 0, "the same days", row, found[1].status);
        check(fots_event_start(bytes, length).kind == fots_event_start(lines, strlen(lines)).kind, "the same kind", row, 0);
    }
}

/* Lists of 62 values, the limit, and of 63. */
static void long_lists(void)
{
    char lines[1000] = "DTSTART:20240101\nEXDATE:20240101\nRDATE:20240102";
    fots_date days[70];
    for (int index = 0; index < 61; index++) {
        char *const next = lines + strlen(lines);
        snprintf(next, sizeof lines - (size_t)(next - lines), ",2024%02d%02d", 2 + index / 20, 1 + index % 20);
    }
    fots_event_set_result found = fots_event_days(lines, strlen(lines), date_at(0), days, 70);
    check(found.status == FOTS_OK && found.length == 62 && days[0].julian_day == day(2024, 1, 2).julian_day && days[61].julian_day == day(2024, 5, 1).julian_day, "62 dates", found.status, (long long)found.length);
    strcat(lines, ",20240601");
    found = fots_event_days(lines, strlen(lines), date_at(0), days, 70);
    check(found.status == FOTS_TOO_MANY_VALUES && found.line == FOTS_EVENT_RDATE && found.position == 33, "63 dates", found.status, (long long)found.position);
}

/* Events whose values don't belong to one call. */
static void wrong_kinds(void)
{
    static const struct {
        const char *lines;
        uint32_t days, readings, moments; /* the wrong line, or 0 */
    } rows[] = {
        {"DTSTART:20240101\n", 0, 1, 1},
        {"DTSTART:20240101T090000\n", 1, 0, 0},
        {"DTSTART:20240101T090000Z\n", 1, 0, 1},
        {"DTSTART:20240101\nRRULE:FREQ=HOURLY\n", 2, 1, 1},
        {"DTSTART:20240101\nRRULE:FREQ=DAILY;UNTIL=20240103T000000Z\n", 0, 1, 1},
        {"DTSTART:20240101\nEXDATE:20240101T090000\nRDATE:20240101\n", 4, 1, 1},
        {"DTSTART:20240101T090000\nRRULE:FREQ=DAILY;UNTIL=20240103T000000Z\n", 1, 2, 0},
        {"DTSTART:20240101T090000Z\nRRULE:FREQ=DAILY;UNTIL=20240103T000000\n", 1, 2, 1},
        {"DTSTART:20240101T090000\nRDATE:20240102T090000Z\n", 1, 3, 0},
        {"DTSTART:20240101T090000\nRDATE:20240102\nEXDATE:20240102\n", 1, 3, 3},
        {"DTSTART:20240101T090000Z\nEXDATE:20240102T090000\n", 1, 4, 1},
        {"DTSTART:20240101T090000\nEXDATE;VALUE=DATE:20240102\n", 1, 4, 4},
    };
    const fots_zone zone = fots_zone_from_posix(NEW_YORK, strlen(NEW_YORK)).zone;
    const fots_moment from = at(day(2023, 1, 1), 0, 0);
    for (int row = 0; row < COUNT(rows); row++) {
        const size_t length = strlen(rows[row].lines);
        fots_date date;
        fots_moment moment;
        const fots_event_set_result found[] = {
            fots_event_days(rows[row].lines, length, from.date, &date, 1),
            fots_event_readings(rows[row].lines, length, from, &moment, 1),
            fots_event_moments(rows[row].lines, length, &zone, from, &moment, 1),
        };
        const uint32_t wanted[] = {rows[row].days, rows[row].readings, rows[row].moments};
        for (int call = 0; call < COUNT(found); call++) {
            check(found[call].status == (wanted[call] ? FOTS_WRONG_KIND : FOTS_OK) && found[call].line == wanted[call] && found[call].length == (wanted[call] ? 0 : 1)
                && found[call].position == SIZE_MAX, rows[row].lines, call, found[call].status);
        }
    }
}

/* The arguments after the lines, in their order. */
static void wrong_arguments(void)
{
    static const char dates[] = "DTSTART:20240101\n", times[] = "DTSTART:20240101T090000\n", nothing[] = "";
    fots_zone zone = fots_zone_from_posix(NEW_YORK, strlen(NEW_YORK)).zone;
    fots_date date = date_at(INT32_MIN);
    fots_moment moment = at(date_at(0), 24, 0);
    check(fots_event_days(times, sizeof times - 1, date, &date, 1).status == FOTS_INVALID_DATE, "from no date", 0, 0);
    check(fots_event_readings(dates, sizeof dates - 1, moment, &moment, 1).status == FOTS_INVALID_MOMENT, "from no reading", 0, 0);
    zone.bytes = (const uint8_t *)nothing;
    zone.bytes_length = 0;
    check(fots_event_moments(dates, sizeof dates - 1, &zone, moment, &moment, 1).status == FOTS_INVALID_MOMENT, "after no moment", 0, 0);
    moment.time = 0;
    check(fots_event_moments(dates, sizeof dates - 1, &zone, moment, &moment, 1).status == FOTS_INVALID_ZONE, "in no zone", 0, 0);
    char bytes[3] = "xx";
    const fots_length_result value = fots_event_value("SUMMARY:abc", 11, "SUMMARY", 7, bytes, 2);
    check(value.status == FOTS_BUFFER_TOO_SHORT && value.length == 3 && bytes[0] == 'x', "a short buffer", value.status, (long long)value.length);
}

/* Days, by their numbers in a month, in ascending order. */
static void days_of_events(void)
{
    static const struct {
        const char *lines;
        int32_t from; /* year, month and day as a number */
        int count;
        int32_t days[12];
    } rows[] = {
        /* RFC 5545, 3.6.1: an anniversary, and an event without a rule */
        {"DTSTART;VALUE=DATE:19971102\nSUMMARY:Our Blissful Anniversary\nRRULE:FREQ=YEARLY\n", 19971102, 3, {19971102, 19981102, 19991102}},
        {"DTSTART;VALUE=DATE:20070628\nDTEND;VALUE=DATE:20070709\n", 19700101, 1, {20070628}},
        {"DTSTART;VALUE=DATE:20070628\nDTEND;VALUE=DATE:20070709\n", 20070629, 0, {0}},
        /* RFC 5545, 3.8.5.2: RDATE */
        {"DTSTART:19970101\nRDATE;VALUE=DATE:19970101,19970120,19970217,19970421,\n", 19700101, -1, {0}},
        {"DTSTART:19970101\nRDATE;VALUE=DATE:19970101,19970120,19970217,19970421,19970526,19970704,19970901,19971014,19971128,19971129,19971225\n", 19970101, 11,
            {19970101, 19970120, 19970217, 19970421, 19970526, 19970704, 19970901, 19971014, 19971128, 19971129, 19971225}},
        /* RFC 5545, 3.8.5.3: the first Friday for 10 occurrences; every Friday the 13th, without its start */
        {"DTSTART:19970905\nRRULE:FREQ=MONTHLY;COUNT=10;BYDAY=1FR\n", 19970905, 10,
            {19970905, 19971003, 19971107, 19971205, 19980102, 19980206, 19980306, 19980403, 19980501, 19980605}},
        {"DTSTART:19970902\r\nEXDATE:19970902\r\nRRULE:FREQ=MONTHLY;BYDAY=FR;BYMONTHDAY=13\r\n", 19970902, 5, {19980213, 19980313, 19981113, 19990813, 20001013}},
        /* an alarm in the event, other parameters, and lines in another order */
        {"RRULE:FREQ=DAILY;COUNT=4\nBEGIN:VALARM\nEXDATE:20240102\nRRULE:x\nEND:VALARM\nexdate;x-a=\"b:c;d\":20240103\ndtstart;value=date:20240101\n", 20240102, 2, {20240102, 20240104}},
        {"DTSTART:20240101\nRRULE:FREQ=DAILY;COUNT=2\nRDATE:20231231\nRDATE:20240109,20240102\n", 19700101, 4, {20231231, 20240101, 20240102, 20240109}},
    };
    for (int row = 0; row < COUNT(rows); row++) {
        fots_date found[12];
        const fots_date from = day(rows[row].from / 10000, (uint32_t)(rows[row].from / 100 % 100), (uint32_t)(rows[row].from % 100));
        const fots_event_set_result written = fots_event_days(rows[row].lines, strlen(rows[row].lines), from, found, (size_t)(rows[row].count < 12 && rows[row].count > 0 ? rows[row].count : 12));
        if (rows[row].count < 0) {
            check(written.status == FOTS_INVALID_VALUE, rows[row].lines, row, written.status);
            continue;
        }
        if (!check(written.status == FOTS_OK && written.length == (size_t)rows[row].count, rows[row].lines, row, (long long)written.length)) {
            continue;
        }
        for (int index = 0; index < rows[row].count; index++) {
            const int32_t wanted = rows[row].days[index];
            check(found[index].julian_day == day(wanted / 10000, (uint32_t)(wanted / 100 % 100), (uint32_t)(wanted % 100)).julian_day, rows[row].lines, row, index);
        }
    }
}

/* Times of day by readings, and by moments in New York where a zone is named. */
static void times_of_events(void)
{
    static const struct {
        const char *lines;
        int in_zone, count;
        struct {
            int32_t day;
            uint64_t hour, minute;
            int32_t offset;
        } found[10];
    } rows[] = {
        /* RFC 5545, 3.8.5.3: daily, here 4 times */
        {"DTSTART;TZID=America/New_York:19970902T090000\nRRULE:FREQ=DAILY;COUNT=4\n", 0, 4, {{19970902, 9, 0, 0}, {19970903, 9, 0, 0}, {19970904, 9, 0, 0}, {19970905, 9, 0, 0}}},
        /* every other month on the first and last Sunday, at 9:00 EDT and EST */
        {"DTSTART;TZID=America/New_York:19970907T090000\nRRULE:FREQ=MONTHLY;INTERVAL=2;COUNT=10;BYDAY=1SU,-1SU\n", 1, 10,
            {{19970907, 9, 0, -4}, {19970928, 9, 0, -4}, {19971102, 9, 0, -5}, {19971130, 9, 0, -5}, {19980104, 9, 0, -5}, {19980125, 9, 0, -5}, {19980301, 9, 0, -5}, {19980329, 9, 0, -5}, {19980503, 9, 0, -4}, {19980531, 9, 0, -4}}},
        /* RFC 5545, 3.8.5.1: an exception; an UNTIL with Z in a zone */
        {"DTSTART:19960401T010000Z\nRRULE:FREQ=DAILY;UNTIL=19960406T010000Z\nEXDATE:19960402T010000Z,19960403T010000Z,19960404T010000Z\n", 0, 3, {{19960401, 1, 0, 0}, {19960405, 1, 0, 0}, {19960406, 1, 0, 0}}},
        {"DTSTART;TZID=America/New_York:19980101T090000\nRRULE:FREQ=DAILY;UNTIL=19980103T140000Z\n", 1, 3, {{19980101, 9, 0, -5}, {19980102, 9, 0, -5}, {19980103, 9, 0, -5}}},
        {"DTSTART;TZID=America/New_York:19980101T090000\nRRULE:FREQ=DAILY;UNTIL=19980103T135959Z\n", 1, 2, {{19980101, 9, 0, -5}, {19980102, 9, 0, -5}}},
        /* instants among the dates and the exceptions: 13:00 UTC is 9:00 EDT */
        {"DTSTART;TZID=America/New_York:19970902T090000\nRRULE:FREQ=DAILY;COUNT=3\nRDATE:19970902T120000Z\nEXDATE:19970903T130000Z\n", 1, 3, {{19970902, 12, 0, 0}, {19970902, 9, 0, -4}, {19970904, 9, 0, -4}}},
    };
    const fots_zone zone = fots_zone_from_posix("EST5EDT,M4.1.0,M10.5.0", 22).zone;
    for (int row = 0; row < COUNT(rows); row++) {
        fots_moment found[11];
        const size_t length = strlen(rows[row].lines);
        const fots_moment from = at(day(1970, 1, 1), 0, 0);
        const fots_event_set_result written = rows[row].in_zone ? fots_event_moments(rows[row].lines, length, &zone, from, found, 11) : fots_event_readings(rows[row].lines, length, from, found, 11);
        if (!check(written.status == FOTS_OK && written.length == (size_t)rows[row].count, rows[row].lines, row, (long long)written.length)) {
            continue;
        }
        for (int index = 0; index < rows[row].count; index++) {
            const int32_t wanted = rows[row].found[index].day;
            fots_moment moment = at(day(wanted / 10000, (uint32_t)(wanted / 100 % 100), (uint32_t)(wanted % 100)), rows[row].found[index].hour, rows[row].found[index].minute);
            moment.offset.seconds = 3600 * rows[row].found[index].offset;
            check(same_moment(found[index], moment), rows[row].lines, row, index);
        }
    }
}

int main(void)
{
    folds();
    folded_lines();
    files();
    wrong_files();
    wrong_lines();
    recurrence_lines();
    long_lists();
    wrong_kinds();
    wrong_arguments();
    days_of_events();
    times_of_events();
    return ended("events");
}
