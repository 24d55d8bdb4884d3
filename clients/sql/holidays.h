/* Working days of holidays in any order and with duplicates, as tables have them, and the holidays of
 * calendars and rules. */
#ifndef FOTSEVINDRE_SQL_HOLIDAYS_H
#define FOTSEVINDRE_SQL_HOLIDAYS_H

#include <stdint.h>

#include "fotsevindre_names.h"

/* Sorts holidays in place, each once, and counts them into an array with one place more than them. Sets
 * the view, which keeps pointers to both, and returns a status. */
static inline int32_t sql_workdays(uint32_t weekmask, fots_date *days, size_t length, uint32_t *counts, fots_workdays_view *view)
{
    const size_t kept = fots_dates_sort(days, length);
    view->weekmask = weekmask;
    view->holidays = days;
    view->holidays_length = kept;
    view->marked_before = counts;
    view->marked_before_length = kept + 1;
    return fots_workdays_view_count(weekmask, days, kept, counts, kept + 1).status;
}

/* Writes the holidays of a calendar, by its name, or of rules from one date through another to an array
 * of FOTS_MAX_HOLIDAYS. */
static inline fots_holidays_result sql_holidays(const char *text, size_t length, fots_date first, fots_date last, fots_date *days)
{
    const uint32_t calendar = fots_number_named(fots_calendar_names(), text, length);
    fots_holidays_result found = {FOTS_OK, 0, SIZE_MAX};
    fots_number_result of_calendar;
    if (calendar == FOTS_NO_NUMBER) {
        return fots_rules_holidays(text, length, first, last, days, FOTS_MAX_HOLIDAYS);
    }
    of_calendar = fots_calendar_holidays(calendar, first, last, days, FOTS_MAX_HOLIDAYS);
    found.status = of_calendar.status;
    found.number = of_calendar.number;
    return found;
}

#endif
