/* Rows of days, local times and instants, for both databases. A step makes at most one page of work,
 * so that a caller can stop between two steps: SQL_PAUSE means to make the next one. */
#ifndef FOTSEVINDRE_SQL_SERIES_H
#define FOTSEVINDRE_SQL_SERIES_H

#include <stdio.h>
#include <stdlib.h>
#include <string.h>

#include "fotsevindre.h"

#define SQL_PAGE 64
/* With BYSETPOS a row can cost a few milliseconds, and in a zone with many seconds of a day, too. */
#define SQL_SMALL_PAGE 2

enum sql_step { SQL_ROW, SQL_PAUSE, SQL_END, SQL_FAILED };

/* An error, and its position in a string, from 0, or SIZE_MAX. */
typedef struct sql_fault {
    int32_t status;
    size_t position;
} sql_fault;

/* ---- a period again and again, counted from the start, so that no step moves the next ones */

typedef struct sql_series {
    fots_moment start, last; /* at offset 0 without a zone */
    fots_period period;
    const fots_zone *zone; /* or NULL */
    uint32_t policy;
    int32_t n, sign, status;
} sql_series;

static inline int32_t sql_sign_of(fots_period period)
{
    const int64_t parts[] = {period.years, period.months, period.weeks, period.days, period.duration.seconds, period.duration.nanoseconds};
    size_t at;
    for (at = 0; at < sizeof parts / sizeof parts[0]; at++) {
        if (parts[at] != 0) {
            return parts[at] > 0 ? 1 : -1;
        }
    }
    return 0;
}

/* Sets the series up to `last`, which is in it. Returns FOTS_INVALID_PERIOD for a period of 0. */
static inline int32_t sql_series_begin(sql_series *all, fots_moment start, fots_moment last, fots_period period)
{
    memset(all, 0, sizeof *all);
    all->start = start;
    all->last = last;
    all->period = period;
    all->sign = sql_sign_of(period);
    return all->sign == 0 ? FOTS_INVALID_PERIOD : FOTS_OK;
}

static inline enum sql_step sql_series_step(sql_series *all, fots_moment *row)
{
    fots_moment_result found;
    if (all->n < 0) {
        all->status = FOTS_RESULT_OUT_OF_RANGE;
        return SQL_FAILED;
    }
    if (all->zone) {
        found = fots_zoned_nth_period(all->zone, all->start, all->period, all->n, all->policy);
    } else {
        const fots_pair_result pair = fots_pair_nth_period(all->start.date, all->start.time, all->period, all->n);
        found.status = pair.status;
        found.moment.date = pair.date;
        found.moment.time = pair.time;
        found.moment.offset.seconds = 0;
    }
    if (found.status == FOTS_RESULT_OUT_OF_RANGE) {
        return SQL_END;
    }
    all->status = found.status;
    if (found.status != FOTS_OK) {
        return SQL_FAILED;
    }
    *row = found.moment;
    all->n = all->n == INT32_MAX ? -1 : all->n + 1;
    return fots_moment_compare(found.moment, all->last).number * all->sign > 0 ? SQL_END : SQL_ROW;
}

/* ---- the days of a recurrence */

typedef struct sql_days {
    fots_recurrence recurrence;
    fots_rule rule; /* has pointers into the recurrence */
    fots_date first, after;
    uint32_t left; /* of COUNT, which isn't counted again for each page */
    int32_t status;
    int is_last;
    size_t at, length;
    fots_date page[SQL_PAGE];
} sql_days;

/* Sets the days from `first` to `last`. */
static inline sql_fault sql_days_begin(sql_days *all, const char *text, size_t length, fots_date start, fots_date first, fots_date last)
{
    const fots_parse_recurrence_result parsed = fots_recurrence_parse(text, length);
    sql_fault fault = {parsed.status, parsed.position};
    memset(all, 0, sizeof *all);
    if (parsed.status == FOTS_OK && parsed.recurrence.frequency > FOTS_YEARLY) {
        fault.status = FOTS_INVALID_FREQUENCY;
    }
    all->recurrence = parsed.recurrence;
    all->rule = fots_recurrence_rule(&all->recurrence, start);
    if (all->rule.until.julian_day > last.julian_day) {
        all->rule.until = last;
    }
    all->left = parsed.recurrence.count;
    all->first = first;
    all->after = all->left > 0 || first.julian_day < start.julian_day ? start : first;
    if (all->after.julian_day > FOTS_MIN_JULIAN_DAY) {
        all->after.julian_day -= 1;
    } else if (parsed.status == FOTS_OK && fots_rule_contains(&all->rule, all->after).number == 1) {
        all->page[all->length++] = all->after;
    }
    return fault;
}

static inline enum sql_step sql_days_step(sql_days *all, fots_date *day)
{
    fots_days_result found;
    while (all->at < all->length) {
        *day = all->page[all->at++];
        if (all->recurrence.count > 0 && all->left-- == 0) {
            return SQL_END;
        }
        if (day->julian_day >= all->first.julian_day) {
            return SQL_ROW;
        }
    }
    if (all->is_last) {
        return SQL_END;
    }
    found = fots_rule_days_after(&all->rule, all->after, all->page, SQL_PAGE);
    all->at = 0;
    all->length = found.length;
    all->is_last = found.length < SQL_PAGE;
    all->status = found.status;
    if (found.length > 0) {
        all->after = all->page[found.length - 1];
    }
    return found.status == FOTS_OK ? SQL_PAUSE : SQL_FAILED;
}

/* ---- the local times of a recurrence, or its instants in a zone
 *
 * Rules of hours, minutes or seconds are read in windows of ten years, up to the year 9999: a rule with
 * an interval can have a day in many thousand years, and a rule of seconds can try each second. A window
 * ends with an UNTIL. */

#define SQL_WINDOW_YEARS 10
#define SQL_LAST_YEAR 9999

typedef struct sql_times {
    char text[4128]; /* of the recurrence, without COUNT */
    char until[24]; /* of a rule with windows, or empty */
    size_t base_length; /* of the text without UNTIL */
    int has_windows;
    int32_t window; /* the year at whose end the window ends, or 0 for the end of the recurrence */
    fots_recurrence_set set; /* has a pointer to the text */
    const fots_zone *zone; /* or NULL for local times */
    fots_moment first, last; /* in the rows, at offset 0: local times without a zone, else at UTC */
    fots_moment from; /* the next local time */
    fots_moment after; /* the last instant */
    uint32_t count, left;
    int32_t status;
    int is_counting; /* for a zone, until the last time of COUNT is known */
    int is_last, has_until;
    size_t at, length, page_length, zoned_page_length;
    fots_moment page[SQL_PAGE];
} sql_times;

static inline fots_moment sql_midnight(int32_t year, uint32_t month, uint32_t day)
{
    const fots_moment moment = {fots_date_from_calendar_date(year, month, day).date, {0}, 0};
    return moment;
}

/* Cuts a part out of the text, and copies its value. */
static inline int sql_times_cut(sql_times *all, const char *part, char *value, size_t size)
{
    char *const found = strstr(all->text, part);
    const size_t name_length = strlen(part);
    size_t length;
    if (!found) {
        return 0;
    }
    length = strcspn(found + name_length, ";");
    if (length < size) {
        memcpy(value, found + name_length, length);
        value[length] = 0;
    }
    memmove(found, found + name_length + length, strlen(found + name_length + length) + 1);
    return 1;
}

/* Ends the text with an UNTIL, in place of another one that was put there. */
static inline void sql_times_put_until(sql_times *all, const char *until)
{
    snprintf(all->text + all->base_length, sizeof all->text - all->base_length, ";UNTIL=%s", until);
    all->set.text_length = strlen(all->text);
}

/* Ends the text with the window that has a year, or at last with the end of the recurrence. */
static inline void sql_times_open_window(sql_times *all, int32_t year)
{
    char until[24];
    char digits[5] = {0};
    int32_t last_year = SQL_LAST_YEAR;
    if (all->until[0]) {
        memcpy(digits, all->until, 4);
        last_year = (int32_t)strtol(digits, NULL, 10);
    }
    all->window = year <= -SQL_WINDOW_YEARS ? 1 : year + SQL_WINDOW_YEARS;
    if (all->window >= last_year) {
        all->window = 0;
        sql_times_put_until(all, all->until[0] ? all->until : "99991231T235959");
        return;
    }
    /* The first second of the next year, since a second of the start can have a fraction. */
    snprintf(until, sizeof until, "%04d0101T000000", (int)all->window + 1);
    sql_times_put_until(all, until);
}

/* Returns 1 if a text has a list of more than one second. */
static inline int sql_has_seconds(const char *text)
{
    const char *const list = strstr(text, ";BYSECOND=");
    return list && list[1 + strcspn(list + 1, ",;")] == ',';
}

/* Copies the text of a recurrence. Cuts COUNT out of it, and UNTIL if it needs windows. */
static inline void sql_times_text(sql_times *all, const fots_recurrence_text_result *text)
{
    char count[24] = "";
    memcpy(all->text, text->bytes, sizeof text->bytes);
    if (sql_times_cut(all, ";COUNT=", count, sizeof count)) {
        all->count = (uint32_t)strtoul(count, NULL, 10);
    }
    all->has_until = strstr(all->text, ";UNTIL=") != NULL;
    all->page_length = strstr(all->text, ";BYSETPOS=") ? SQL_SMALL_PAGE : SQL_PAGE;
    all->zoned_page_length = strstr(all->text, "FREQ=SECONDLY") || sql_has_seconds(all->text) ? SQL_SMALL_PAGE : all->page_length;
    all->has_windows = strstr(all->text, "FREQ=HOURLY") || strstr(all->text, "FREQ=MINUTELY") || strstr(all->text, "FREQ=SECONDLY");
    if (all->has_windows) {
        sql_times_cut(all, ";UNTIL=", all->until, sizeof all->until);
    }
    all->base_length = strlen(all->text);
}

/* Starts with the first row, or for a COUNT with the start. */
static inline void sql_times_restart(sql_times *all)
{
    const fots_duration nanosecond = {0, 1, 0};
    const int is_from_start = all->is_counting || (!all->zone && all->count > 0) || fots_moment_compare(all->first, all->set.start).number < 0;
    all->from = is_from_start ? all->set.start : all->first;
    all->after = fots_moment_saturating_sub(all->first, nanosecond).moment;
    all->at = all->length = 0;
    all->is_last = 0;
    if (all->has_windows) {
        sql_times_open_window(all, fots_date_year(all->from.date).number);
    }
}

/* Sets the times from `first` to `last`. `zone` is NULL for local times. */
static inline sql_fault sql_times_begin(sql_times *all, const char *text, size_t length, fots_moment start, const fots_zone *zone,
    fots_moment first, fots_moment last)
{
    const fots_recurrence_text_result printed = fots_recurrence_text(text, length);
    const sql_fault fault = {printed.status, printed.position};
    memset(all, 0, sizeof *all);
    sql_times_text(all, &printed);
    all->set = fots_recurrence_set_new(all->text, strlen(all->text), start);
    all->zone = zone;
    all->first = first;
    all->last = last;
    all->left = all->count;
    all->is_counting = zone && all->count > 0;
    sql_times_restart(all);
    return fault;
}

/* Goes on with the next window when this one has no more rows. Its last days can lack instants of
 * local times that its end excludes, so they are read again. */
static inline void sql_times_next_window(sql_times *all, int is_local)
{
    const fots_duration nanosecond = {0, 1, 0}, two_days = {172800, 0, 0};
    const fots_moment next = sql_midnight(all->window + 1, 1, 1), cutoff = sql_midnight(all->window, 12, 28);
    if (fots_moment_compare(next, fots_moment_saturating_add(all->last, two_days).moment).number > 0) {
        return;
    }
    while (!is_local && all->length > 0 && fots_moment_compare(all->page[all->length - 1], cutoff).number > 0) {
        all->length -= 1;
        all->is_last = 1;
    }
    if (!all->is_last) {
        return;
    }
    all->is_last = 0;
    all->from = fots_moment_saturating_add(next, nanosecond).moment;
    all->after = fots_moment_compare(all->first, cutoff).number > 0 ? fots_moment_saturating_sub(all->first, nanosecond).moment : cutoff;
    sql_times_open_window(all, all->window);
}

/* Reads the next page of local times, or of instants. */
static inline enum sql_step sql_times_page(sql_times *all)
{
    const fots_duration nanosecond = {0, 1, 0};
    const int is_local = !all->zone || all->is_counting;
    const size_t page_length = is_local ? all->page_length : all->zoned_page_length;
    const fots_recurrence_result found = is_local ? fots_recurrence_readings(&all->set, all->from, all->page, page_length)
                                                  : fots_recurrence_moments(&all->set, all->zone, all->after, all->page, page_length);
    all->at = 0;
    all->length = found.length;
    all->is_last = found.length < page_length;
    all->status = found.status;
    if (found.length > 0) {
        all->after = is_local ? all->after : all->page[found.length - 1];
        all->from = is_local ? fots_moment_saturating_add(all->page[found.length - 1], nanosecond).moment : all->from;
    }
    if (all->window && found.status == FOTS_OK) {
        sql_times_next_window(all, is_local);
    }
    return found.status == FOTS_OK ? SQL_PAUSE : SQL_FAILED;
}

/* Ends the recurrence with a local time, the last one of COUNT. */
static inline enum sql_step sql_times_end_with(sql_times *all, fots_moment reading)
{
    const fots_duration up = {0, (int32_t)((1000000000 - reading.time % 1000000000) % 1000000000), 0};
    const fots_moment until = fots_moment_saturating_add(reading, up).moment;
    const fots_calendar_date_result date = fots_date_to_calendar_date(until.date);
    const fots_hms_nano_result time = fots_time_as_hms_nano(until.time);
    if (date.year < 0 || date.year > SQL_LAST_YEAR) {
        all->status = FOTS_RESULT_OUT_OF_RANGE;
        return SQL_FAILED;
    }
    snprintf(all->until, sizeof all->until, "%04d%02u%02uT%02u%02u%02u", (int)date.year, (unsigned)date.month, (unsigned)date.day,
        (unsigned)time.hour, (unsigned)time.minute, (unsigned)time.second);
    sql_times_put_until(all, all->until);
    return SQL_PAUSE;
}

/* Counts a page of local times, up to COUNT or until no instant up to `last` can follow. */
static inline enum sql_step sql_times_count(sql_times *all)
{
    const fots_duration two_days = {172800, 0, 0};
    enum sql_step step = sql_times_page(all);
    int is_done = 0;
    if (step != SQL_PAUSE) {
        return step;
    }
    if (all->left <= all->length) {
        step = sql_times_end_with(all, all->page[all->left - 1]);
        is_done = 1;
    } else if (all->is_last || fots_moment_compare(all->from, fots_moment_saturating_add(all->last, two_days).moment).number > 0) {
        is_done = 1;
    }
    all->left -= (uint32_t)all->length;
    if (is_done) {
        all->is_counting = 0;
        sql_times_restart(all);
    }
    all->length = 0;
    return step;
}

static inline enum sql_step sql_times_step(sql_times *all, fots_moment *row)
{
    if (all->is_counting) {
        return sql_times_count(all);
    }
    while (all->at < all->length) {
        *row = all->page[all->at++];
        if ((!all->zone && all->count > 0 && all->left-- == 0) || fots_moment_compare(*row, all->last).number > 0) {
            return SQL_END;
        }
        if (fots_moment_compare(*row, all->first).number >= 0) {
            return SQL_ROW;
        }
    }
    return all->is_last ? SQL_END : sql_times_page(all);
}

/* ---- a recurrence: the rows of its rule and other dates, RDATE, without exceptions, EXDATE
 *
 * Other dates need not match the rule, its start or its end. In a zone both are local times. */

typedef struct sql_recurrence {
    union {
        sql_days days;
        sql_times times;
    } rule;
    int has_times; /* else rows are days, at midnight */
    fots_moment first, last;
    const fots_moment *dates, *exceptions; /* in order, in the caller's memory */
    size_t dates_length, exceptions_length;
    size_t at; /* the next date */
    enum sql_step step; /* of the rule: SQL_ROW has `next` */
    fots_moment next;
    int32_t status;
} sql_recurrence;

/* Sets the days from `first` to `last`. */
static inline sql_fault sql_recurrence_begin_days(sql_recurrence *all, const char *text, size_t length, fots_date start, fots_date first,
    fots_date last)
{
    memset(all, 0, sizeof *all);
    all->first.date = first;
    all->last.date = last;
    all->step = SQL_PAUSE;
    return sql_days_begin(&all->rule.days, text, length, start, first, last);
}

/* Sets the times from `first` to `last`. `zone` is NULL for local times. */
static inline sql_fault sql_recurrence_begin_times(sql_recurrence *all, const char *text, size_t length, fots_moment start, const fots_zone *zone,
    fots_moment first, fots_moment last)
{
    memset(all, 0, sizeof *all);
    all->has_times = 1;
    all->first = first;
    all->last = last;
    all->step = SQL_PAUSE;
    return sql_times_begin(&all->rule.times, text, length, start, zone, first, last);
}

/* Returns 1 if the rule has COUNT or UNTIL. */
static inline int sql_recurrence_has_end(const sql_recurrence *all)
{
    return all->has_times ? all->rule.times.count > 0 || all->rule.times.has_until
                          : all->rule.days.recurrence.count > 0 || all->rule.days.recurrence.until.julian_day != FOTS_NO_VALUE;
}

static inline int sql_compare(const void *one, const void *other)
{
    return fots_moment_compare(*(const fots_moment *)one, *(const fots_moment *)other).number;
}

static inline int sql_is_exception(const sql_recurrence *all, fots_moment row)
{
    return all->exceptions_length > 0 && bsearch(&row, all->exceptions, all->exceptions_length, sizeof row, sql_compare) != NULL;
}

/* Sets the other dates without exceptions, as rows in order, each once. Returns a status. */
static inline int32_t sql_recurrence_add_dates(sql_recurrence *all, fots_moment *dates, size_t length)
{
    const fots_zone *const zone = all->has_times ? all->rule.times.zone : NULL;
    fots_moment_result date = {FOTS_OK, 0, {{0}, {0}, 0}};
    size_t at, kept = 0;
    for (at = 0; at < length; at++) {
        date.moment = dates[at];
        if (sql_is_exception(all, date.moment)) {
            continue;
        }
        if (zone) {
            date = fots_zone_moment(zone, date.moment.date, date.moment.time, FOTS_COMPATIBLE);
        }
        if (date.status != FOTS_OK) {
            return date.status;
        }
        if (sql_compare(&date.moment, &all->first) >= 0 && sql_compare(&date.moment, &all->last) <= 0) {
            dates[kept++] = date.moment;
        }
    }
    if (kept > 0) {
        qsort(dates, kept, sizeof *dates, sql_compare);
        all->dates_length = 1;
    }
    for (at = 1; at < kept; at++) {
        if (sql_compare(&dates[all->dates_length - 1], &dates[at]) != 0) {
            dates[all->dates_length++] = dates[at];
        }
    }
    all->dates = dates;
    return FOTS_OK;
}

/* Gives local times in a zone the offsets at which they are the instants that they mean, in order. A
 * local time in a gap has the offset before it. */
static inline void sql_put_offsets(const fots_zone *zone, fots_moment *locals, size_t length)
{
    size_t at;
    for (at = 0; at < length; at++) {
        const fots_moment_result found = fots_zone_moment(zone, locals[at].date, locals[at].time, FOTS_COMPATIBLE);
        if (found.status == FOTS_OK) {
            locals[at].offset.seconds = (int32_t)fots_moment_duration_since(locals[at], found.moment).duration.seconds;
        }
    }
    qsort(locals, length, sizeof *locals, sql_compare);
}

/* Sets other dates and exceptions, in any order and at offset 0. They stay in the caller's memory, and
 * are changed there. Returns a status. */
static inline int32_t sql_recurrence_add(sql_recurrence *all, fots_moment *dates, size_t dates_length, fots_moment *exceptions,
    size_t exceptions_length)
{
    int32_t status;
    if (dates_length > FOTS_MAX_DATES || exceptions_length > FOTS_MAX_DATES) {
        return FOTS_TOO_MANY_DATES;
    }
    if (exceptions_length > 0) {
        qsort(exceptions, exceptions_length, sizeof *exceptions, sql_compare);
        all->exceptions = exceptions;
        all->exceptions_length = exceptions_length;
    }
    status = sql_recurrence_add_dates(all, dates, dates_length);
    if (all->has_times && all->rule.times.zone) {
        sql_put_offsets(all->rule.times.zone, exceptions, exceptions_length);
    }
    return status;
}

/* Returns 1 if a row of the rule is still one without the exceptions. In a zone another local time of
 * the rule can be the same instant, if one of both is in a gap. */
static inline int sql_is_row(const sql_recurrence *all, fots_moment row)
{
    const fots_duration nanosecond = {0, 1, 0};
    fots_recurrence_set set;
    fots_moment moment = row;
    size_t from = 0, to;
    if (!sql_is_exception(all, row) || !all->has_times || !all->rule.times.zone) {
        return !sql_is_exception(all, row);
    }
    while (sql_compare(&all->exceptions[from], &row) != 0) {
        from++;
    }
    for (to = from; to < all->exceptions_length && sql_compare(&all->exceptions[to], &row) == 0; to++) {
    }
    set = all->rule.times.set;
    set.exceptions = &all->exceptions[from];
    set.exceptions_length = to - from;
    return fots_recurrence_moments(&set, all->rule.times.zone, fots_moment_saturating_sub(row, nanosecond).moment, &moment, 1).length == 1
        && sql_compare(&moment, &row) == 0;
}

/* Makes a step of the rule up to a row that isn't an exception. */
static inline void sql_recurrence_advance(sql_recurrence *all)
{
    if (all->has_times) {
        all->step = sql_times_step(&all->rule.times, &all->next);
        all->status = all->rule.times.status;
    } else {
        all->step = sql_days_step(&all->rule.days, &all->next.date);
        all->status = all->rule.days.status;
    }
    if (all->step == SQL_ROW && !sql_is_row(all, all->next)) {
        all->step = SQL_PAUSE;
    }
}

static inline enum sql_step sql_recurrence_step(sql_recurrence *all, fots_moment *row)
{
    const int has_date = all->at < all->dates_length;
    int order = -1;
    if (all->step == SQL_PAUSE) {
        sql_recurrence_advance(all);
    }
    if (all->step == SQL_PAUSE || all->step == SQL_FAILED || (all->step == SQL_END && !has_date)) {
        return all->step;
    }
    if (has_date) {
        order = all->step == SQL_END ? 1 : sql_compare(&all->next, &all->dates[all->at]);
    }
    *row = order > 0 ? all->dates[all->at] : all->next;
    all->at += order >= 0;
    all->step = order > 0 ? all->step : SQL_PAUSE;
    return SQL_ROW;
}

#endif
