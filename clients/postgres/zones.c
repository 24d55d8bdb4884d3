/* Functions with a time zone. */
#include "values.h"

#include "catalog/pg_type.h"
#include "utils/array.h"
#include "utils/builtins.h"

#define GET_ZONE(n) zone_named(PG_GETARG_TEXT_PP(n))

/* ---- local times and instants */

PG_FUNCTION_INFO_V1(cal_instant);
Datum cal_instant(PG_FUNCTION_ARGS)
{
    const fots_zone *const zone = GET_ZONE(1);
    const uint32 policy = GET_NUMBER(fots_policy_names(), 2);
    fots_moment local;
    RETURN_INFINITE_TIMESTAMP(0);
    local = moment_of(PG_GETARG_TIMESTAMP(0));
    PG_RETURN_TIMESTAMPTZ(from_moment("local time", fots_zone_moment(zone, local.date, local.time, policy)));
}

static Timestamp local_of(const char *what, fots_moment_result found)
{
    return from_local(what, found.status, found.moment.date, found.moment.time);
}

PG_FUNCTION_INFO_V1(cal_local);
Datum cal_local(PG_FUNCTION_ARGS)
{
    const fots_zone *const zone = GET_ZONE(1);
    RETURN_INFINITE_TIMESTAMP(0);
    PG_RETURN_TIMESTAMP(local_of("instant", fots_moment_in_zone(moment_of(PG_GETARG_TIMESTAMPTZ(0)), zone)));
}

static fots_local_result resolve(FunctionCallInfo fcinfo)
{
    const fots_moment local = moment_of(PG_GETARG_TIMESTAMP(0));
    const fots_local_result found = fots_zone_resolve(GET_ZONE(1), local.date, local.time);
    succeed("local time", found.status);
    return found;
}

PG_FUNCTION_INFO_V1(cal_local_kind);
Datum cal_local_kind(PG_FUNCTION_ARGS)
{
    static const char *const names[] = {"", "single", "gap", "fold"};
    PG_RETURN_TEXT_P(cstring_to_text(names[resolve(fcinfo).kind]));
}

/* All instants of a local time: none in a gap, two in a fold. */
PG_FUNCTION_INFO_V1(cal_instants);
Datum cal_instants(PG_FUNCTION_ARGS)
{
    const fots_local_result found = resolve(fcinfo);
    const fots_moment local = moment_of(PG_GETARG_TIMESTAMP(0));
    const fots_moment_result earlier = fots_moment_new(local.date, local.time, found.earlier_offset);
    const fots_moment_result later = fots_moment_new(local.date, local.time, found.later_offset);
    const int count = found.kind == FOTS_GAP ? 0 : found.kind == FOTS_FOLD ? 2 : 1;
    Datum values[2] = {0, 0};
    if (count > 0) {
        values[0] = TimestampTzGetDatum(from_moment("local time", earlier));
        values[1] = TimestampTzGetDatum(from_moment("local time", later));
    }
    PG_RETURN_ARRAYTYPE_P(construct_array(values, count, TIMESTAMPTZOID, sizeof(TimestampTz), FLOAT8PASSBYVAL, TYPALIGN_DOUBLE));
}

/* ---- changes of the clocks, or NULL */

static Datum change(FunctionCallInfo fcinfo, fots_int64_result found)
{
    if (found.status == FOTS_RESULT_OUT_OF_RANGE) {
        PG_RETURN_NULL();
    }
    succeed("change", found.status);
    PG_RETURN_TIMESTAMPTZ(from_moment("change", fots_moment_from_unix_timestamp(found.number)));
}

PG_FUNCTION_INFO_V1(cal_next_change);
Datum cal_next_change(PG_FUNCTION_ARGS)
{
    const int64 seconds = fots_moment_unix_timestamp(moment_of(PG_GETARG_TIMESTAMPTZ(0))).number;
    return change(fcinfo, fots_zone_next_change(GET_ZONE(1), seconds));
}

PG_FUNCTION_INFO_V1(cal_previous_change);
Datum cal_previous_change(PG_FUNCTION_ARGS)
{
    const int64 seconds = fots_moment_unix_timestamp(moment_of(PG_GETARG_TIMESTAMPTZ(0))).number;
    return change(fcinfo, fots_zone_previous_change(GET_ZONE(1), seconds));
}

/* ---- date-times in a zone */

static fots_moment in_zone(TimestampTz stamp, const fots_zone *zone)
{
    const fots_moment_result found = fots_moment_in_zone(moment_of(stamp), zone);
    succeed("instant", found.status);
    return found.moment;
}

PG_FUNCTION_INFO_V1(cal_add_period_zoned);
Datum cal_add_period_zoned(PG_FUNCTION_ARGS)
{
    const fots_period period = period_of(PG_GETARG_INTERVAL_P(1));
    const fots_zone *const zone = GET_ZONE(2);
    const uint32 policy = GET_NUMBER(fots_policy_names(), 3);
    RETURN_INFINITE_TIMESTAMP(0);
    PG_RETURN_TIMESTAMPTZ(
        from_moment("add period", fots_zoned_add_period(zone, in_zone(PG_GETARG_TIMESTAMPTZ(0), zone), period, policy)));
}

PG_FUNCTION_INFO_V1(cal_period_zoned);
Datum cal_period_zoned(PG_FUNCTION_ARGS)
{
    const fots_zone *const zone = GET_ZONE(2);
    const fots_moment from = in_zone(PG_GETARG_TIMESTAMPTZ(0), zone), to = in_zone(PG_GETARG_TIMESTAMPTZ(1), zone);
    const fots_exact_period_result found
        = fots_zoned_period_until(zone, from, to, GET_NUMBER(fots_unit_names(), 3), GET_NUMBER(fots_policy_names(), 4));
    PG_RETURN_INTERVAL_P(from_period("period", found.status, found.period));
}

PG_FUNCTION_INFO_V1(cal_start_of_zoned);
Datum cal_start_of_zoned(PG_FUNCTION_ARGS)
{
    const uint32 unit = GET_NUMBER(fots_unit_names(), 1);
    const fots_zone *const zone = GET_ZONE(2);
    RETURN_INFINITE_TIMESTAMP(0);
    PG_RETURN_TIMESTAMPTZ(from_moment("start of", fots_zoned_start_of(zone, in_zone(PG_GETARG_TIMESTAMPTZ(0), zone), unit)));
}

/* The last microsecond of the unit. */
PG_FUNCTION_INFO_V1(cal_end_of_zoned);
Datum cal_end_of_zoned(PG_FUNCTION_ARGS)
{
    const uint32 unit = GET_NUMBER(fots_unit_names(), 1);
    const fots_zone *const zone = GET_ZONE(2);
    RETURN_INFINITE_TIMESTAMP(0);
    PG_RETURN_TIMESTAMPTZ(from_moment("end of", fots_zoned_end_of(zone, in_zone(PG_GETARG_TIMESTAMPTZ(0), zone), unit)));
}

PG_FUNCTION_INFO_V1(cal_day_length);
Datum cal_day_length(PG_FUNCTION_ARGS)
{
    const fots_duration_result found = fots_zoned_day_length(GET_ZONE(1), GET_DATE(0));
    const fots_period period = {0, 0, 0, 0, found.duration};
    PG_RETURN_INTERVAL_P(from_period("day length", found.status, period));
}
