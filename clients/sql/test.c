/* Compares the rows of series.h, which come in pages and windows, with those of one call of the
 * library, for rules of hours, minutes and seconds around the ends of windows, with COUNT, and with
 * other dates and exceptions. */
#include <stdio.h>
#include <stdlib.h>

#include "series.h"
#include "fotsevindre_zones.h"

#define ROWS 120
#define DATES 24

static const char *const zones[] = {NULL, "Europe/Berlin", "Pacific/Apia", "America/Jamaica", "Asia/Kolkata", "Australia/Lord_Howe"};
static const char *const rules[] = {"FREQ=HOURLY;INTERVAL=9", "FREQ=MINUTELY;INTERVAL=13", "FREQ=SECONDLY;INTERVAL=3607",
    "FREQ=HOURLY;BYMONTH=12,1;BYMONTHDAY=31,1", "FREQ=MINUTELY;INTERVAL=7;BYMONTH=12;BYMONTHDAY=31", "FREQ=SECONDLY;INTERVAL=86399;BYMONTH=2",
    "FREQ=HOURLY;INTERVAL=50;COUNT=90", "FREQ=MINUTELY;INTERVAL=11;COUNT=100;BYMONTH=12,1", "FREQ=HOURLY;INTERVAL=5;UNTIL=20010102T030000Z",
    "FREQ=HOURLY;INTERVAL=5;UNTIL=19000101T030000", "FREQ=HOURLY;BYMINUTE=0,30;BYSETPOS=-1", "FREQ=HOURLY;INTERVAL=777;COUNT=500",
    "FREQ=SECONDLY;BYMONTH=12;BYMONTHDAY=31;BYHOUR=23;BYMINUTE=59;BYSECOND=59", "FREQ=MINUTELY;BYMONTH=1;BYMONTHDAY=1;BYHOUR=0;BYMINUTE=0;BYSECOND=0,1",
    "FREQ=HOURLY;BYMONTH=1;BYMONTHDAY=1;BYHOUR=0;BYMINUTE=0,30;BYSETPOS=-1", "FREQ=DAILY;BYHOUR=2,3;COUNT=200", "FREQ=WEEKLY;BYDAY=SU;BYHOUR=2;BYMINUTE=30;UNTIL=20241027"};

static fots_moment drawn(int year, int is_year_end)
{
    const uint32_t month = is_year_end ? 12 : 1 + (uint32_t)(rand() % 12), day = is_year_end ? 29 + (uint32_t)(rand() % 3) : 1 + (uint32_t)(rand() % 28);
    fots_moment moment = sql_midnight(year, month, day);
    moment.time = (uint64_t)(rand() % 86400) * 1000000000u + (uint64_t)(rand() % 2) * 500000000u;
    return moment;
}

/* Draws local times of the rule from the first row on, and others around it. */
static void draw_dates(fots_recurrence_set set, fots_moment first, fots_moment *dates)
{
    fots_moment rows[ROWS];
    const size_t length = fots_recurrence_readings(&set, first, rows, ROWS).length;
    size_t at;
    for (at = 0; at < DATES; at++) {
        dates[at] = first;
        dates[at].time = (uint64_t)(rand() % 86400) * 1000000000u;
        dates[at].date.julian_day += rand() % 40 - 5;
        if (length > 0 && rand() % 2) {
            dates[at] = rows[(size_t)rand() % length];
        }
    }
}

/* Returns the number of rows, at most ROWS. */
static size_t rows_of(const fots_recurrence_set *set, const fots_zone *zone, fots_moment first, fots_moment last, fots_moment *rows)
{
    static sql_recurrence all;
    static fots_moment dates[DATES], exceptions[DATES];
    enum sql_step step;
    size_t length = 0;
    memcpy(dates, set->dates, set->dates_length * sizeof *dates);
    memcpy(exceptions, set->exceptions, set->exceptions_length * sizeof *exceptions);
    if (sql_recurrence_begin_times(&all, set->text, set->text_length, set->start, zone, first, last).status != FOTS_OK
        || sql_recurrence_add(&all, dates, set->dates_length, exceptions, set->exceptions_length) != FOTS_OK) {
        return SIZE_MAX;
    }
    do {
        step = sql_recurrence_step(&all, &rows[length]);
        length += step == SQL_ROW;
    } while (length < ROWS && (step == SQL_ROW || step == SQL_PAUSE));
    return step == SQL_FAILED ? SIZE_MAX : length;
}

static int is_same(fots_recurrence_set set, const fots_zone *zone, fots_moment first, fots_moment last)
{
    static fots_moment rows[ROWS + 1], others[ROWS];
    const fots_duration nanosecond = {0, 1, 0};
    const size_t length = rows_of(&set, zone, first, last, rows);
    const size_t found = zone ? fots_recurrence_moments(&set, zone, fots_moment_checked_sub(first, nanosecond).moment, others, ROWS).length
                              : fots_recurrence_readings(&set, first, others, ROWS).length;
    size_t at = 0;
    while (at < length && at < found && fots_moment_compare(rows[at], others[at]).number == 0) {
        at++;
    }
    return at == length && (at == ROWS || at == found || fots_moment_compare(others[at], last).number > 0);
}

/* Compares without other dates, or with some, some exceptions, or both. */
static int is_same_with(const char *rule, fots_moment start, const fots_zone *zone, fots_moment first, fots_moment last, int lists)
{
    static fots_moment dates[DATES], exceptions[DATES];
    fots_recurrence_set set = fots_recurrence_set_new(rule, strlen(rule), start);
    draw_dates(set, first, dates);
    draw_dates(set, first, exceptions);
    if (lists & 1) {
        memcpy(exceptions, dates, DATES / 4 * sizeof *dates);
        set.dates = dates;
        set.dates_length = DATES;
    }
    if (lists & 2) {
        set.exceptions = exceptions;
        set.exceptions_length = DATES;
    }
    return is_same(set, zone, first, last);
}

int main(void)
{
    size_t rule, zone;
    int draw, passed = 0, failed = 0;
    for (rule = 0; rule < sizeof rules / sizeof rules[0]; rule++) {
        for (zone = 0; zone < sizeof zones / sizeof zones[0]; zone++) {
            for (draw = 0; draw < 8; draw++) {
                const int year = draw % 2 == 0 ? 1780 + rand() % 240 : draw % 4 == 1 ? 1799 + rand() % 3 : 1899 + rand() % 2;
                const fots_moment start = drawn(year, draw % 3 > 0);
                fots_moment first = start, last = start;
                first.date.julian_day += draw % 5 == 0 ? rand() % 40000 : rand() % 5 - 2;
                last.date.julian_day = first.date.julian_day + (draw % 2 ? rand() % 400 : 60000);
                if (is_same_with(rules[rule], start, zones[zone] ? fots_zone_named_by(zones[zone], strlen(zones[zone])).zone : NULL, first, last,
                        draw / 2)) {
                    passed++;
                } else {
                    failed++;
                    printf("%s in %s from %d differs\n", rules[rule], zones[zone] ? zones[zone] : "no zone", year);
                }
            }
        }
    }
    printf("series: %d passed, %d failed\n", passed, failed);
    return failed != 0;
}
