/* Functions that return rows: series by a period, and recurrences. */
#include "values.h"

#include "funcapi.h"
#include "miscadmin.h"
#include "utils/array.h"
#include "utils/builtins.h"
#include "utils/rangetypes.h"
#include "utils/typcache.h"

#include "../sql/series.h"

/* The state of the rows of one call. It doesn't move, as its parts point into it. */
typedef union rows {
    sql_series series;
    sql_recurrence recurrence;
} rows;

/* Makes steps up to the next row, and lets the server stop the query between two steps. */
#define NEXT_ROW(step, call) \
    do { \
        CHECK_FOR_INTERRUPTS(); \
        (step) = (call); \
    } while ((step) == SQL_PAUSE)

static rows *new_rows(FuncCallContext *context)
{
    context->user_fctx = MemoryContextAllocZero(context->multi_call_memory_ctx, sizeof(rows));
    return context->user_fctx;
}

/* ---- series by a period */

static Datum series_row(FunctionCallInfo fcinfo, bool is_date)
{
    FuncCallContext *const context = SRF_PERCALL_SETUP();
    sql_series *const series = &((rows *)context->user_fctx)->series;
    fots_moment_result row = {FOTS_OK, 0, {{0}, {0}, 0}};
    enum sql_step step;
    NEXT_ROW(step, sql_series_step(series, &row.moment));
    if (step == SQL_FAILED) {
        fail("series", series->status);
    }
    if (step == SQL_END) {
        SRF_RETURN_DONE(context);
    }
    if (is_date) {
        const fots_date_result found = {FOTS_OK, row.moment.date};
        SRF_RETURN_NEXT(context, DateADTGetDatum(from_date("series", found)));
    }
    SRF_RETURN_NEXT(context, TimestampGetDatum(from_moment("series", row)));
}

static fots_moment midnight(fots_date date)
{
    const fots_moment moment = {date, {0}, 0};
    return moment;
}

PG_FUNCTION_INFO_V1(cal_series);
Datum cal_series(PG_FUNCTION_ARGS)
{
    if (SRF_IS_FIRSTCALL()) {
        const fots_period period = period_of(PG_GETARG_INTERVAL_P(2));
        sql_series *const series = &new_rows(SRF_FIRSTCALL_INIT())->series;
        succeed("series", sql_series_begin(series, midnight(GET_DATE(0)), midnight(GET_DATE(1)), period));
        succeed("series", period.duration.seconds || period.duration.nanoseconds ? FOTS_PERIOD_HAS_DURATION : FOTS_OK);
    }
    return series_row(fcinfo, true);
}

PG_FUNCTION_INFO_V1(cal_series_local);
Datum cal_series_local(PG_FUNCTION_ARGS)
{
    if (SRF_IS_FIRSTCALL()) {
        sql_series *const series = &new_rows(SRF_FIRSTCALL_INIT())->series;
        succeed("series", sql_series_begin(series, moment_of(PG_GETARG_TIMESTAMP(0)), moment_of(PG_GETARG_TIMESTAMP(1)),
                              period_of(PG_GETARG_INTERVAL_P(2))));
    }
    return series_row(fcinfo, false);
}

PG_FUNCTION_INFO_V1(cal_series_zoned);
Datum cal_series_zoned(PG_FUNCTION_ARGS)
{
    if (SRF_IS_FIRSTCALL()) {
        sql_series *const series = &new_rows(SRF_FIRSTCALL_INIT())->series;
        const fots_zone *const zone = zone_named(PG_GETARG_TEXT_PP(3));
        const fots_moment_result start = fots_moment_in_zone(moment_of(PG_GETARG_TIMESTAMPTZ(0)), zone);
        succeed("series", start.status);
        succeed("series", sql_series_begin(series, start.moment, moment_of(PG_GETARG_TIMESTAMPTZ(1)), period_of(PG_GETARG_INTERVAL_P(2))));
        series->zone = zone;
        series->policy = GET_NUMBER(fots_policy_names(), 4);
    }
    return series_row(fcinfo, false);
}

/* ---- recurrences */

/* FROM keeps all rows of a function, so rows without an end would fill the disk. */
static void needs_end(bool has_end)
{
    if (!has_end) {
        ereport(ERROR, (errcode(ERRCODE_INVALID_PARAMETER_VALUE), errmsg("the recurrence has no end"),
                           errhint("Give it COUNT or UNTIL, or the range an upper bound.")));
    }
}

static void check_recurrence(const text *value, sql_fault fault)
{
    if (fault.status != FOTS_OK) {
        fail_text("recurrence", value, fault.status, fault.position);
    }
}

/* The bounds of a range, both included. A bound of infinity is none. */
typedef struct bounds {
    bool is_empty, has_lower, has_upper;
    int64 lower, upper;
} bounds;

static bounds bounds_of(RangeType *range, bool is_date)
{
    TypeCacheEntry *const type = lookup_type_cache(RangeTypeGetOid(range), TYPECACHE_RANGE_INFO);
    RangeBound lower, upper;
    bounds found = {false, false, false, 0, 0};
    range_deserialize(type, range, &lower, &upper, &found.is_empty);
    if (!found.is_empty && !lower.infinite) {
        const int64 value = is_date ? DatumGetDateADT(lower.val) : DatumGetTimestamp(lower.val);
        found.is_empty = is_date ? DATE_IS_NOEND(value) : TIMESTAMP_IS_NOEND(value);
        found.has_lower = is_date ? !DATE_NOT_FINITE(value) : !TIMESTAMP_NOT_FINITE(value);
        found.lower = value + (lower.inclusive ? 0 : 1);
    }
    if (!found.is_empty && !upper.infinite) {
        const int64 value = is_date ? DatumGetDateADT(upper.val) : DatumGetTimestamp(upper.val);
        found.is_empty = is_date ? DATE_IS_NOBEGIN(value) : TIMESTAMP_IS_NOBEGIN(value);
        found.has_upper = is_date ? !DATE_NOT_FINITE(value) : !TIMESTAMP_NOT_FINITE(value);
        found.upper = value - (upper.inclusive ? 0 : 1);
    }
    return found;
}

/* An array of dates or timestamps as moments. */
typedef struct moments {
    fots_moment *values;
    size_t length;
} moments;

static moments moments_of(FunctionCallInfo fcinfo, int argument, MemoryContext memory, bool is_date)
{
    ArrayType *const array = PG_GETARG_ARRAYTYPE_P(argument);
    const DateADT *const dates = (const DateADT *)ARR_DATA_PTR(array);
    const Timestamp *const stamps = (const Timestamp *)ARR_DATA_PTR(array);
    moments found = {NULL, (size_t)ArrayGetNItems(ARR_NDIM(array), ARR_DIMS(array))};
    if (ARR_HASNULL(array) && array_contains_nulls(array)) {
        ereport(ERROR, (errcode(ERRCODE_NULL_VALUE_NOT_ALLOWED), errmsg("rdates and exdates must not be null")));
    }
    succeed("recurrence", found.length > FOTS_MAX_DATES ? FOTS_TOO_MANY_DATES : FOTS_OK);
    found.values = MemoryContextAlloc(memory, sizeof(fots_moment) * (found.length + 1));
    for (size_t at = 0; at < found.length; at++) {
        found.values[at] = is_date ? midnight(date_of(dates[at])) : moment_of(stamps[at]);
    }
    return found;
}

/* Adds the other dates and the exceptions, from an argument on. Ends the rows of an empty range. */
static void add_dates(FunctionCallInfo fcinfo, int argument, MemoryContext memory, sql_recurrence *recurrence, const bounds *within)
{
    const bool is_date = !recurrence->has_times;
    const moments dates = moments_of(fcinfo, argument, memory, is_date), exceptions = moments_of(fcinfo, argument + 1, memory, is_date);
    needs_end(within->has_upper || within->is_empty || sql_recurrence_has_end(recurrence));
    succeed("recurrence", sql_recurrence_add(recurrence, dates.values, dates.length, exceptions.values, exceptions.length));
    if (within->is_empty) {
        recurrence->step = SQL_END;
        recurrence->dates_length = 0;
    }
}

/* Returns the next row, or false after the last one. */
static bool recurrence_row(FuncCallContext *context, fots_moment *row)
{
    sql_recurrence *const recurrence = &((rows *)context->user_fctx)->recurrence;
    enum sql_step step;
    NEXT_ROW(step, sql_recurrence_step(recurrence, row));
    if (step == SQL_FAILED) {
        fail("recurrence", recurrence->status);
    }
    return step == SQL_ROW;
}

static void begin_days(FunctionCallInfo fcinfo)
{
    FuncCallContext *const context = SRF_FIRSTCALL_INIT();
    const text *const rule = PG_GETARG_TEXT_PP(0);
    const fots_date start = GET_DATE(1), least = {0}, greatest = {FOTS_MAX_JULIAN_DAY};
    const bounds within = bounds_of(PG_GETARG_RANGE_P(2), true);
    const fots_date first = within.has_lower ? date_of((DateADT)within.lower) : least;
    const fots_date last = within.has_upper && within.upper < FOTS_MAX_JULIAN_DAY - POSTGRES_EPOCH_JDATE ? date_of((DateADT)within.upper) : greatest;
    sql_recurrence *const recurrence = &new_rows(context)->recurrence;
    check_recurrence(rule, sql_recurrence_begin_days(recurrence, VARDATA_ANY(rule), VARSIZE_ANY_EXHDR(rule), start, first, last));
    add_dates(fcinfo, 3, context->multi_call_memory_ctx, recurrence, &within);
}

PG_FUNCTION_INFO_V1(cal_days);
Datum cal_days(PG_FUNCTION_ARGS)
{
    FuncCallContext *context;
    fots_moment row = {{0}, {0}, 0};
    fots_date_result day = {FOTS_OK, {0}};
    if (SRF_IS_FIRSTCALL()) {
        begin_days(fcinfo);
    }
    context = SRF_PERCALL_SETUP();
    if (!recurrence_row(context, &row)) {
        SRF_RETURN_DONE(context);
    }
    day.date = row.date;
    SRF_RETURN_NEXT(context, DateADTGetDatum(from_date("recurrence", day)));
}

/* Begins the times of a recurrence, in a zone or without one, with the range in an argument. */
static void begin_times(FunctionCallInfo fcinfo, const fots_zone *zone, int argument)
{
    FuncCallContext *const context = SRF_FIRSTCALL_INIT();
    const text *const rule = PG_GETARG_TEXT_PP(0);
    const bounds within = bounds_of(PG_GETARG_RANGE_P(argument), false);
    const fots_moment start = moment_of(PG_GETARG_TIMESTAMP(1));
    const fots_moment first = moment_of(within.has_lower ? within.lower : MIN_TIMESTAMP);
    const fots_moment last = moment_of(within.has_upper ? within.upper : END_TIMESTAMP - 1);
    sql_recurrence *const recurrence = &new_rows(context)->recurrence;
    check_recurrence(rule, sql_recurrence_begin_times(recurrence, VARDATA_ANY(rule), VARSIZE_ANY_EXHDR(rule), start, zone, first, last));
    add_dates(fcinfo, argument + 1, context->multi_call_memory_ctx, recurrence, &within);
}

static Datum times_row(FunctionCallInfo fcinfo)
{
    FuncCallContext *const context = SRF_PERCALL_SETUP();
    fots_moment_result row = {FOTS_OK, 0, {{0}, {0}, 0}};
    if (!recurrence_row(context, &row.moment)) {
        SRF_RETURN_DONE(context);
    }
    SRF_RETURN_NEXT(context, TimestampGetDatum(from_moment("recurrence", row)));
}

PG_FUNCTION_INFO_V1(cal_times_local);
Datum cal_times_local(PG_FUNCTION_ARGS)
{
    if (SRF_IS_FIRSTCALL()) {
        begin_times(fcinfo, NULL, 2);
    }
    return times_row(fcinfo);
}

PG_FUNCTION_INFO_V1(cal_times_zoned);
Datum cal_times_zoned(PG_FUNCTION_ARGS)
{
    if (SRF_IS_FIRSTCALL()) {
        begin_times(fcinfo, zone_named(PG_GETARG_TEXT_PP(2)), 3);
    }
    return times_row(fcinfo);
}
