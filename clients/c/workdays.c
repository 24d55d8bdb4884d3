/* Compares working days with a count by whole weeks and each holiday, and fills structs with any
 * bytes. */
#include <stdlib.h>
#include <string.h>

#include "testing.h"

#define ROWS 64
#define DRAWN 20000

static uint64_t drawn(void)
{
    static uint64_t state = 88172645463325252ULL;
    state ^= state << 13;
    state ^= state >> 7;
    state ^= state << 17;
    return state;
}

/* Returns a date near the holidays, near an end, or any number. */
static fots_date drawn_date(void)
{
    switch (drawn() % 16) {
    case 0: return date_at(FOTS_MIN_JULIAN_DAY + (int32_t)(drawn() % 40) - 2);
    case 1: return date_at(FOTS_MAX_JULIAN_DAY - (int32_t)(drawn() % 40) + 2);
    case 2: return date_at((int32_t)drawn());
    default: return date_at(2400000 + (int32_t)(drawn() % 110000));
    }
}

static int32_t drawn_days(void)
{
    return drawn() % 8 == 0 ? (int32_t)drawn() : (int32_t)(drawn() % 400) - 200;
}

static int same_date(fots_date_result first, fots_date_result second)
{
    return first.status == second.status && first.date.julian_day == second.date.julian_day;
}

/* A week and its holidays, whose working days are counted without the library. */
typedef struct Week {
    uint32_t weekmask;
    const fots_date *holidays;
    size_t length;
} Week;

static int is_marked(const Week *week, int64_t julian_day)
{
    return (int)(week->weekmask >> ((julian_day % 7 + 7) % 7) & 1);
}

/* Returns the working days before a day, counted from the Monday before the first date. */
static int64_t rank(const Week *week, int64_t julian_day)
{
    const int64_t monday = FOTS_MIN_JULIAN_DAY - (FOTS_MIN_JULIAN_DAY % 7 + 7) % 7, days = julian_day - monday;
    int64_t before = 0;
    for (int64_t index = 0; index < 7; index++) {
        before += is_marked(week, index) * (days / 7 + (index < days % 7));
    }
    for (size_t index = 0; index < week->length && week->holidays[index].julian_day < julian_day; index++) {
        before -= is_marked(week, week->holidays[index].julian_day);
    }
    return before;
}

static int is_workday(const Week *week, int64_t julian_day)
{
    return rank(week, julian_day) < rank(week, julian_day + 1);
}

/* Checks that a result is the working day with a rank, or out of range. */
static void has_rank(fots_date_result result, const Week *week, int64_t wanted, const char *what, fots_date date, int32_t given)
{
    const int64_t least = rank(week, FOTS_MIN_JULIAN_DAY), past = rank(week, (int64_t)FOTS_MAX_JULIAN_DAY + 1), found = result.date.julian_day;
    check(wanted < least || wanted >= past ? result.status == FOTS_RESULT_OUT_OF_RANGE
        : result.status == FOTS_OK && is_workday(week, found) && rank(week, found) == wanted, what, date.julian_day, given);
}

static int is_same_month(fots_date first, fots_date second)
{
    const fots_calendar_date_result of_first = fots_date_to_calendar_date(first), of_second = fots_date_to_calendar_date(second);
    return of_first.year == of_second.year && of_first.month == of_second.month;
}

/* Checks each convention. The modified ones stay in the month of the date if they can. */
static void adjusts(const fots_workdays *workdays, const Week *week, fots_date date)
{
    const fots_date_result following = fots_workdays_adjust(workdays, date, FOTS_FOLLOWING);
    const fots_date_result preceding = fots_workdays_adjust(workdays, date, FOTS_PRECEDING);
    has_rank(following, week, rank(week, date.julian_day), "following", date, 0);
    has_rank(preceding, week, rank(week, (int64_t)date.julian_day + 1) - 1, "preceding", date, 0);
    check(same_date(fots_workdays_adjust(workdays, date, FOTS_MODIFIED_FOLLOWING),
        following.status == FOTS_OK && is_same_month(following.date, date) ? following : preceding),
        "modified following", date.julian_day, 0);
    check(same_date(fots_workdays_adjust(workdays, date, FOTS_MODIFIED_PRECEDING),
        preceding.status == FOTS_OK && is_same_month(preceding.date, date) ? preceding : following),
        "modified preceding", date.julian_day, 0);
    check(fots_workdays_adjust(workdays, date, FOTS_UNADJUSTED).date.julian_day == date.julian_day, "unadjusted", date.julian_day, 0);
}

/* Compares each call with the ranks of a week. */
static void same_days(uint32_t weekmask, const fots_date *holidays, size_t length, int rows, int32_t status)
{
    const fots_workdays_result made = fots_workdays_new(weekmask, holidays, length);
    const fots_workdays *workdays = &made.workdays;
    const Week week = {weekmask, holidays, length};
    check(made.status == status, "the status", made.status, (long long)length);
    if (made.status) {
        check(fots_workdays_contains(workdays, date_at(0)).status == FOTS_INVALID_WEEKMASK, "an error rejected", made.status, 0);
        return;
    }
    for (int row = 0; row < rows; row++) {
        const fots_date date = drawn_date(), other = drawn_date();
        const int32_t days = drawn_days();
        const int64_t before = rank(&week, date.julian_day), after = rank(&week, (int64_t)date.julian_day + 1);
        const fots_date_result added = fots_workdays_add(workdays, date, days);
        if (date.julian_day < FOTS_MIN_JULIAN_DAY || date.julian_day > FOTS_MAX_JULIAN_DAY) {
            check(fots_workdays_contains(workdays, date).status == FOTS_INVALID_DATE && added.status == FOTS_INVALID_DATE, "no date",
                date.julian_day, days);
            continue;
        }
        check(fots_workdays_contains(workdays, date).number == (uint32_t)(after - before), "a working day", date.julian_day, (long long)length);
        has_rank(added, &week, days > 0 ? after + days - 1 : before + days, "working days later", date, days);
        adjusts(workdays, &week, date);
        const fots_number_result between = fots_workdays_between(workdays, date, other);
        check(between.status ? between.status == FOTS_INVALID_DATE : between.number == rank(&week, other.julian_day) - before, "between",
            date.julian_day, other.julian_day);
    }
}

/* Takes each list of holidays with each number of working days in a week. */
static void lists_of_holidays(void)
{
    static fots_date holidays[FOTS_MAX_HOLIDAYS + 1];
    for (int turn = 0; turn < 3; turn++) {
        for (int index = 0; index <= FOTS_MAX_HOLIDAYS; index++) {
            holidays[index] = date_at(turn == 0 ? 2400000 + 100 * index
                : turn == 1 ? 2450000 + index
                : index < 512 ? FOTS_MIN_JULIAN_DAY + 2 * index : FOTS_MAX_JULIAN_DAY - 3 * (FOTS_MAX_HOLIDAYS - index));
        }
        for (uint32_t weekmask = 0; weekmask <= 128; weekmask = 2 * weekmask + 1) {
            for (size_t length = 0; length <= FOTS_MAX_HOLIDAYS + 1; length = length < 16 ? length + 5 : length < 1024 ? 1024 : length + 1) {
                same_days(weekmask, holidays, length, 400, weekmask > 127 ? FOTS_INVALID_WEEKMASK : length > FOTS_MAX_HOLIDAYS ? FOTS_TOO_MANY_HOLIDAYS : FOTS_OK);
            }
        }
        same_days(128, holidays, 0, 1, FOTS_INVALID_WEEKMASK);
        same_days(96, holidays, FOTS_MAX_HOLIDAYS, 400, FOTS_OK);
    }
    holidays[7] = holidays[6];
    same_days(31, holidays, 8, 1, FOTS_INVALID_HOLIDAYS);
    holidays[7] = date_at(FOTS_NO_VALUE);
    same_days(31, holidays, 8, 1, FOTS_INVALID_HOLIDAYS);
}

/* Checks that a result is a date of the range or an error. */
static void is_result(fots_date_result result)
{
    check(result.status ? result.date.julian_day == FOTS_NO_VALUE
        : result.date.julian_day >= FOTS_MIN_JULIAN_DAY && result.date.julian_day <= FOTS_MAX_JULIAN_DAY, "a result", result.status,
        result.date.julian_day);
}

/* Compares a view of many holidays with the ranks of a week, and one of few with a struct. */
static void views(void)
{
    enum { MANY = 100000 };
    fots_date *const holidays = malloc(MANY * sizeof *holidays);
    uint32_t *const marked_before = malloc((MANY + 1) * sizeof *marked_before);
    if (!holidays || !marked_before) {
        check(0, "memory", 0, 0);
        free(holidays);
        free(marked_before);
        return;
    }
    for (int index = 0; index < MANY; index++) {
        holidays[index] = date_at(2400000 + index + index / 3);
    }
    for (size_t length = 0; length <= MANY; length = length < 1000 ? 2 * length + 1 : length < MANY ? MANY : length + 1) {
        for (uint32_t weekmask = 1; weekmask <= 255; weekmask = 2 * weekmask + 1) {
            const Week week = {weekmask, holidays, length};
            const fots_workdays_view view = {weekmask, 0, holidays, length, marked_before, length + 1};
            const fots_number_result made = fots_workdays_view_count(weekmask, holidays, length, marked_before, length + 1);
            const fots_workdays_result few = fots_workdays_new(weekmask, holidays, length);
            check(made.status == (weekmask > 127 ? FOTS_INVALID_WEEKMASK : FOTS_OK), "a view", made.status, (long long)length);
            check(fots_workdays_view_contains(&view, date_at(0)).status == made.status, "the weekmask of a view", made.status, weekmask);
            for (int row = 0; made.status == FOTS_OK && row < 40; row++) {
                const fots_date date = date_at(2400000 + (int32_t)(drawn() % 140000)), other = drawn_date();
                const int32_t days = drawn_days();
                const int64_t before = rank(&week, date.julian_day), after = rank(&week, (int64_t)date.julian_day + 1);
                const fots_date_result added = fots_workdays_view_add(&view, date, days), next = fots_workdays_view_adjust(&view, date, FOTS_FOLLOWING);
                const fots_number_result between = fots_workdays_view_between(&view, date, other);
                check(fots_workdays_view_contains(&view, date).number == (uint32_t)(after - before), "a working day of a view", date.julian_day, (long long)length);
                has_rank(added, &week, days > 0 ? after + days - 1 : before + days, "working days later in a view", date, days);
                has_rank(next, &week, before, "following in a view", date, 0);
                check(between.status ? between.status == FOTS_INVALID_DATE : between.number == rank(&week, other.julian_day) - before, "between in a view",
                    date.julian_day, other.julian_day);
                check(few.status || same_date(added, fots_workdays_add(&few.workdays, date, days)), "a view and a struct", date.julian_day, days);
                check(few.status || same_date(fots_workdays_view_adjust(&view, date, FOTS_MODIFIED_PRECEDING), fots_workdays_adjust(&few.workdays, date, FOTS_MODIFIED_PRECEDING)),
                    "a view and a struct by a convention", date.julian_day, days);
            }
        }
    }
    free(holidays);
    free(marked_before);
}

/* Views whose arrays are wrong: each error of the view comes first, and an array stays as it was. */
static void wrong_views(void)
{
    const fots_date falling[] = {{2451547}, {2451545}}, rising[] = {{2451545}, {2451547}}, beyond[] = {{FOTS_MAX_JULIAN_DAY}, {FOTS_MAX_JULIAN_DAY + 1}};
    uint32_t counts[4] = {77, 77, 77, 77};
    fots_workdays_view view = {31, 0, rising, 2, counts, 3};
    check(fots_workdays_view_count(128, rising, 2, counts, 3).status == FOTS_INVALID_WEEKMASK, "the weekmask", 0, 0);
    check(fots_workdays_view_count(31, falling, 2, counts, 3).status == FOTS_INVALID_HOLIDAYS, "falling", 0, 0);
    check(fots_workdays_view_count(31, beyond, 2, counts, 3).status == FOTS_INVALID_HOLIDAYS, "no date", 0, 0);
    check(fots_workdays_view_count(31, rising, 2, counts, 4).status == FOTS_INVALID_HOLIDAYS, "a place too many", 0, 0);
    check(fots_workdays_view_count(31, rising, 2, counts, 2).status == FOTS_INVALID_HOLIDAYS, "a place too few", 0, 0);
    check(counts[0] == 77 && counts[1] == 77 && counts[2] == 77 && counts[3] == 77, "what stood there", counts[0], counts[2]);
    /* 2000-01-01 was a Saturday. */
    const fots_number_result made = fots_workdays_view_count(31, rising, 2, counts, 3);
    check(made.status == FOTS_OK && made.number == 1 && counts[0] == 0 && counts[1] == 0 && counts[2] == 1 && counts[3] == 77, "counted", made.number, counts[2]);
    view.marked_before_length = 2;
    check(fots_workdays_view_add(&view, date_at(0), 1).status == FOTS_INVALID_HOLIDAYS, "a count too few", 0, 0);
    check(fots_workdays_view_between(&view, date_at(0), date_at(0)).status == FOTS_INVALID_HOLIDAYS, "a count too few between", 0, 0);
    check(fots_workdays_view_adjust(&view, date_at(FOTS_NO_VALUE), 9).status == FOTS_INVALID_HOLIDAYS, "a count too few first", 0, 0);
    view.weekmask = 128;
    check(fots_workdays_view_contains(&view, date_at(FOTS_NO_VALUE)).status == FOTS_INVALID_WEEKMASK, "the weekmask first", 0, 0);
    view.weekmask = 31;
    view.marked_before_length = 3;
    check(fots_workdays_view_adjust(&view, date_at(FOTS_NO_VALUE), 9).status == FOTS_INVALID_DATE, "then the date", 0, 0);
    check(fots_workdays_view_adjust(&view, date_at(0), 9).status == FOTS_INVALID_CONVENTION, "then the convention", 0, 0);
    /* Any counts: some result, and no read past the arrays. */
    for (int turn = 0; turn < DRAWN; turn++) {
        counts[turn % 3] = (uint32_t)drawn();
        is_result(fots_workdays_view_add(&view, date_at(2451540 + turn % 10), drawn_days()));
        is_result(fots_workdays_view_adjust(&view, drawn_date(), (uint32_t)(drawn() % 5)));
        check(fots_workdays_view_between(&view, date_at(FOTS_MIN_JULIAN_DAY), date_at(FOTS_MAX_JULIAN_DAY)).status == FOTS_OK, "any counts", counts[0], counts[1]);
    }
}

static int compare_dates(const void *one, const void *other)
{
    const int32_t a = ((const fots_date *)one)->julian_day, b = ((const fots_date *)other)->julian_day;
    return (a > b) - (a < b);
}

/* Sorts arrays, and compares them with those that qsort sorts and a loop thins. */
static void sorted(void)
{
    static fots_date dates[300], expected[300];
    for (int turn = 0; turn < 2000; turn++) {
        const size_t length = drawn() % 300, range = 1 + drawn() % 400;
        size_t kept = 0;
        for (size_t at = 0; at < length; at++) {
            expected[at] = dates[at] = date_at(turn % 9 == 0 ? (int32_t)drawn() : 2451545 + (int32_t)(drawn() % range));
        }
        qsort(expected, length, sizeof *expected, compare_dates);
        for (size_t at = 0; at < length; at++) {
            if (kept == 0 || expected[kept - 1].julian_day != expected[at].julian_day) {
                expected[kept++] = expected[at];
            }
        }
        check(fots_dates_sort(dates, length) == kept, "how many are sorted", turn, (long long)length);
        check(memcmp(dates, expected, kept * sizeof *dates) == 0, "sorted", turn, (long long)kept);
    }
}

/* Compares the columns with single calls. */
static void columns(void)
{
    static int32_t dates[ROWS], others[ROWS], days[ROWS], found[ROWS];
    static uint8_t statuses[ROWS];
    const fots_date holidays[] = {{2451545}, {2451547}, {2455000}};
    const fots_workdays_result made = fots_workdays_new(FOTS_MONDAY_TO_FRIDAY, holidays, 3);
    for (int turn = 0; turn < 100; turn++) {
        fots_workdays workdays = made.workdays;
        workdays.weekmask += turn == 98 ? 128 : 0;
        workdays.holidays_length += turn == 99 ? 1024 : 0;
        size_t refused = 0;
        for (int row = 0; row < ROWS; row++) {
            dates[row] = drawn_date().julian_day;
            others[row] = drawn_date().julian_day;
            days[row] = drawn_days();
        }
        const size_t errors = fots_workdays_add_dates(&workdays, dates, ROWS, days, ROWS, found, ROWS, statuses, ROWS);
        for (int row = 0; row < ROWS; row++) {
            const fots_date_result single = fots_workdays_add(&workdays, date_at(dates[row]), days[row]);
            check(single.status == statuses[row] && single.date.julian_day == found[row], "a row of dates", row, turn);
            refused += single.status != FOTS_OK;
        }
        check(errors == refused, "errors of dates", (long long)errors, turn);
        fots_workdays_between_dates(&workdays, dates, ROWS, others, ROWS, found, ROWS, statuses, ROWS);
        for (int row = 0; row < ROWS; row++) {
            const fots_number_result single = fots_workdays_between(&workdays, date_at(dates[row]), date_at(others[row]));
            check(single.status == statuses[row] && single.number == found[row], "a row of numbers", row, turn);
        }
    }
    check(fots_workdays_add_dates(&made.workdays, dates, 2, days, 1, found, 2, statuses, 2) == FOTS_LENGTH_MISMATCH, "a number too few", 0, 0);
}

/* Calls with a struct of any bytes, which no call reads past. */
static void filled_by_hand(void)
{
    fots_workdays *const workdays = malloc(sizeof *workdays);
    if (workdays == NULL) {
        check(0, "memory", 0, 0);
        return;
    }
    for (int turn = 0; turn < DRAWN; turn++) {
        if (turn % 64 == 0) {
            unsigned char *const bytes = (unsigned char *)workdays;
            for (size_t index = 0; index < sizeof *workdays; index++) {
                bytes[index] = (unsigned char)(drawn() >> 20);
            }
        }
        workdays->weekmask = turn % 8 == 0 ? (uint32_t)drawn() : (uint32_t)(drawn() % 130);
        workdays->holidays_length = turn % 8 == 1 ? (uint32_t)drawn() : (uint32_t)(drawn() % 1027);
        const fots_date date = date_at(2451545 + (int32_t)(drawn() % 1000));
        const int32_t wrong = workdays->weekmask > 127 ? FOTS_INVALID_WEEKMASK
            : workdays->holidays_length > FOTS_MAX_HOLIDAYS ? FOTS_TOO_MANY_HOLIDAYS : FOTS_OK;
        const fots_component_result is = fots_workdays_contains(workdays, date);
        const fots_number_result between = fots_workdays_between(workdays, drawn_date(), date);
        check(is.status == wrong && (wrong ? is.number == FOTS_NO_COMPONENT : is.number <= 1), "any bytes", workdays->weekmask,
            workdays->holidays_length);
        check(wrong == FOTS_OK || between.status == wrong, "any bytes between", between.status, wrong);
        is_result(fots_workdays_add(workdays, date, drawn_days()));
        is_result(fots_workdays_adjust(workdays, drawn_date(), (uint32_t)(drawn() % 5)));
    }
    free(workdays);
}

int main(void)
{
    lists_of_holidays();
    views();
    wrong_views();
    sorted();
    columns();
    filled_by_hand();
    return ended("workdays");
}
