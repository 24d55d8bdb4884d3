/* Times functions, their inline functions and the rows of columns, each over 4096 values. */
#include "fotsevindre_inline.h"

#include "bench.h"

static fots_date dates[VALUES];
static fots_offset offsets[VALUES];
static int64_t days[VALUES];
static fots_date_result made[VALUES];
static fots_component_result numbers[VALUES];
static fots_calendar_date_result calendars[VALUES], shown[VALUES];
static fots_iso_week_date_result week_dates[VALUES];

/* Columns. */
static int32_t julian_days[VALUES], years[VALUES], found[VALUES];
static uint8_t months[VALUES], month_days[VALUES], weeks[VALUES], weekdays[VALUES], statuses[VALUES];

/* Fills in dates of the years 1 to 9999, offsets, and moves of up to 10000 days. */
static void draw(void)
{
    for (int k = 0; k < VALUES; k++) {
        dates[k].julian_day = (int32_t)(1721426 + drawn() % 3652059);
        julian_days[k] = dates[k].julian_day;
        offsets[k].seconds = (int32_t)(drawn() % 187199) - FOTS_MAX_OFFSET_SECONDS;
        days[k] = (int64_t)(drawn() % 20001) - 10000;
    }
    for (int k = 0; k < VALUES; k++) {
        calendars[k] = fots_date_to_calendar_date(dates[k]);
    }
    fots_dates_to_calendar_dates(julian_days, VALUES, years, VALUES, months, VALUES, month_days, VALUES, statuses, VALUES);
}

static void no_call(void)
{
    for (int k = 0; k < VALUES; k++) {
        keep(-offsets[k].seconds);
    }
}

static void one_offset_negated(void)
{
    for (int k = 0; k < VALUES; k++) {
        keep(fots_offset_neg(offsets[k]).offset.seconds);
    }
}

static void column_of_weekdays(void)
{
    keep((int64_t)fots_dates_weekdays(julian_days, VALUES, weekdays, VALUES, statuses, VALUES));
}

static void column_of_added_days(void)
{
    keep((int64_t)fots_dates_add_days(julian_days, VALUES, days, VALUES, found, VALUES, statuses, VALUES));
}

static void column_of_calendar_dates(void)
{
    keep((int64_t)fots_dates_to_calendar_dates(julian_days, VALUES, found, VALUES, weeks, VALUES, weekdays, VALUES, statuses, VALUES));
}

static void column_from_calendar_dates(void)
{
    keep((int64_t)fots_dates_from_calendar_dates(years, VALUES, months, VALUES, month_days, VALUES, found, VALUES, statuses, VALUES));
}

static void column_of_week_dates(void)
{
    keep((int64_t)fots_dates_to_iso_week_dates(julian_days, VALUES, found, VALUES, weeks, VALUES, weekdays, VALUES, statuses, VALUES));
}

static void column_of_calendar_to_week_dates(void)
{
    keep((int64_t)fots_calendar_dates_to_iso_week_dates(years, VALUES, months, VALUES, month_days, VALUES, found, VALUES, weeks, VALUES,
        weekdays, VALUES, statuses, VALUES));
}

/* A loop over a call, which stores each result. */
#define LOOP(name, results, call) \
    static void name(void) \
    { \
        for (int k = 0; k < VALUES; k++) { \
            results[k] = call; \
        } \
        __asm__ volatile("" : : "r"(results) : "memory"); \
    }

/* Loops over a call and over its inline function. */
#define PAIR(name, results, call, inlined) LOOP(name##_called, results, call) LOOP(name##_inlined, results, inlined)

PAIR(next_day, made, fots_date_next_day(dates[k]), fots_date_next_day_inline(dates[k]))
PAIR(add_days, made, fots_date_add_days(dates[k], days[k]), fots_date_add_days_inline(dates[k], days[k]))
PAIR(weekday, numbers, fots_date_weekday(dates[k]), fots_date_weekday_inline(dates[k]))
PAIR(month, numbers, fots_date_month(dates[k]), fots_date_month_inline(dates[k]))
PAIR(calendar, shown, fots_date_to_calendar_date(dates[k]), fots_date_to_calendar_date_inline(dates[k]))
PAIR(week, week_dates, fots_date_to_iso_week_date(dates[k]), fots_date_to_iso_week_date_inline(dates[k]))
PAIR(date, made, fots_date_from_calendar_date(calendars[k].year, calendars[k].month, calendars[k].day),
    fots_date_from_calendar_date_inline(calendars[k].year, calendars[k].month, calendars[k].day))

/* Calls with texts, formats, zones, working days and rules. */
static char texts[VALUES * 10], printed[960];
static int32_t bounds[VALUES + 1];
static int64_t instants[VALUES];
static int32_t moves[VALUES];
static fots_format format;
static fots_zone zone;
static fots_workdays workdays;
static fots_rule rule;
static uint32_t sums[VALUES];

/* Fills in what these calls take. */
static void prepare(void)
{
    static const int8_t last = -1;
    const char *rules = "CET-1CEST,M3.5.0,M10.5.0/3", *dates_as = "%d %B %Y, %A";
    fots_date holidays[8];
    for (int k = 0; k < VALUES; k++) {
        memcpy(texts + 10 * k, fots_date_calendar_text(dates[k]).bytes, 10);
        bounds[k] = 10 * k;
        instants[k] = (int64_t)(drawn() % 4000000000U);
        moves[k] = (int32_t)(drawn() % 400) - 200;
    }
    bounds[VALUES] = 10 * VALUES;
    for (int k = 0; k < 8; k++) {
        holidays[k].julian_day = 2460000 + 40 * k;
    }
    format = fots_format_new(dates_as, strlen(dates_as)).format;
    zone = fots_zone_from_posix(rules, strlen(rules)).zone;
    workdays = fots_workdays_new(FOTS_MONDAY_TO_FRIDAY, holidays, 8).workdays;
    rule = fots_rule_new(dates[0], FOTS_MONTHLY);
    rule.start.julian_day = 1721426;
    rule.month_days = &last;
    rule.month_days_length = 1;
}

LOOP(one_from_julian_day, made, fots_date_from_julian_day(julian_days[k]))
LOOP(one_from_ordinal_date, made, fots_date_from_ordinal_date(calendars[k].year, 1 + calendars[k].day))
LOOP(one_add_months, made, fots_date_add_months(dates[k], moves[k]))
LOOP(one_months_until, sums, (uint32_t)fots_date_months_until(dates[k], dates[VALUES - 1 - k]).number)
LOOP(one_quarter, numbers, fots_date_quarter(dates[k]))
LOOP(one_parse, sums, (uint32_t)fots_date_parse(texts + 10 * k, 10).date.julian_day)
LOOP(one_moment_text, sums, (uint32_t)fots_moment_text(dates[k], (fots_time)instants[k], (fots_offset){3600}).bytes[9])
LOOP(one_moment_parse, sums, (uint32_t)fots_moment_parse("2024-02-29T23:59:59.25+01:00", 28).date.julian_day)
LOOP(one_date_format, sums, (uint32_t)fots_date_format(dates[k], &format, printed, sizeof printed).length)
LOOP(one_zone_offset, sums, (uint32_t)fots_zone_offset(&zone, instants[k]).offset.seconds)
LOOP(one_zone_resolve, sums, fots_zone_resolve(&zone, dates[k], (fots_time)instants[k]).kind)
LOOP(one_workdays_add, made, fots_workdays_add(&workdays, dates[k], moves[k]))
LOOP(one_rule_next_after, made, fots_rule_next_after(&rule, dates[k]))

static void column_of_added_months(void)
{
    keep((int64_t)fots_dates_add_months(julian_days, VALUES, moves, VALUES, found, VALUES, statuses, VALUES));
}

static void column_of_texts(void)
{
    keep((int64_t)fots_dates_parse(texts, 10 * VALUES, bounds, VALUES + 1, found, VALUES, statuses, VALUES));
}

static void column_of_zone_offsets(void)
{
    keep((int64_t)fots_zone_offsets(&zone, instants, VALUES, found, VALUES, statuses, VALUES));
}

static void column_of_zone_instants(void)
{
    static int64_t resolved[VALUES];
    keep((int64_t)fots_zone_instants(&zone, instants, VALUES, FOTS_COMPATIBLE, resolved, VALUES, statuses, VALUES));
}

/* A function, its inline function and its rows. */
static const struct {
    const char *name;
    void (*called)(void), (*inlined)(void), (*column)(void);
} tasks[] = {
    {"no function", no_call, NULL, NULL},
    {"fots_offset_neg", one_offset_negated, NULL, NULL},
    {"fots_date_next_day", next_day_called, next_day_inlined, NULL},
    {"fots_date_add_days", add_days_called, add_days_inlined, column_of_added_days},
    {"fots_date_weekday", weekday_called, weekday_inlined, column_of_weekdays},
    {"fots_date_month", month_called, month_inlined, NULL},
    {"fots_date_to_calendar_date", calendar_called, calendar_inlined, column_of_calendar_dates},
    {"fots_date_to_iso_week_date", week_called, week_inlined, column_of_week_dates},
    {"fots_date_from_calendar_date", date_called, date_inlined, column_from_calendar_dates},
    {"fots_calendar_dates_to_iso_week_dates", NULL, NULL, column_of_calendar_to_week_dates},
    {"fots_date_from_julian_day", one_from_julian_day, NULL, NULL},
    {"fots_date_from_ordinal_date", one_from_ordinal_date, NULL, NULL},
    {"fots_date_add_months", one_add_months, NULL, column_of_added_months},
    {"fots_date_months_until", one_months_until, NULL, NULL},
    {"fots_date_quarter", one_quarter, NULL, NULL},
    {"fots_date_parse", one_parse, NULL, column_of_texts},
    {"fots_moment_text", one_moment_text, NULL, NULL},
    {"fots_moment_parse", one_moment_parse, NULL, NULL},
    {"fots_date_format", one_date_format, NULL, NULL},
    {"fots_zone_offset", one_zone_offset, NULL, column_of_zone_offsets},
    {"fots_zone_resolve", one_zone_resolve, NULL, column_of_zone_instants},
    {"fots_workdays_add", one_workdays_add, NULL, NULL},
    {"fots_rule_next_after", one_rule_next_after, NULL, NULL},
};

int main(int argc, char **argv)
{
    draw();
    prepare();
    for (size_t k = 0; k < sizeof tasks / sizeof *tasks; k++) {
        const struct timed loops[MAX_LOOPS] = {{"here", tasks[k].called}, {"inlined", tasks[k].inlined}, {"a row", tasks[k].column}};
        compare("calls", "", tasks[k].name, loops, rounds_of(argc, argv));
    }
    return 0;
}
