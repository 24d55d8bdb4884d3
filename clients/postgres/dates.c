/* Functions of dates, periods and durations. */
#include "values.h"

#include "catalog/pg_type.h"
#include "funcapi.h"
#include "utils/builtins.h"
#include "utils/numeric.h"

/* ---- a date to a date */

PG_FUNCTION_INFO_V1(cal_add_months);
Datum cal_add_months(PG_FUNCTION_ARGS)
{
    RETURN_INFINITE_DATE(0);
    PG_RETURN_DATEADT(from_date("add months", fots_date_add_months(GET_DATE(0), GET_INT32(1))));
}

PG_FUNCTION_INFO_V1(cal_add_years);
Datum cal_add_years(PG_FUNCTION_ARGS)
{
    RETURN_INFINITE_DATE(0);
    PG_RETURN_DATEADT(from_date("add years", fots_date_add_years(GET_DATE(0), GET_INT32(1))));
}

PG_FUNCTION_INFO_V1(cal_add_period);
Datum cal_add_period(PG_FUNCTION_ARGS)
{
    RETURN_INFINITE_DATE(0);
    PG_RETURN_DATEADT(from_date("add period", fots_date_add_period(GET_DATE(0), period_of(PG_GETARG_INTERVAL_P(1)))));
}

PG_FUNCTION_INFO_V1(cal_next_weekday);
Datum cal_next_weekday(PG_FUNCTION_ARGS)
{
    RETURN_INFINITE_DATE(0);
    PG_RETURN_DATEADT(from_date("next weekday", fots_date_next_occurrence(GET_DATE(0), (uint32)GET_INT32(1))));
}

PG_FUNCTION_INFO_V1(cal_previous_weekday);
Datum cal_previous_weekday(PG_FUNCTION_ARGS)
{
    RETURN_INFINITE_DATE(0);
    PG_RETURN_DATEADT(from_date("previous weekday", fots_date_prev_occurrence(GET_DATE(0), (uint32)GET_INT32(1))));
}

PG_FUNCTION_INFO_V1(cal_weekday_on_or_after);
Datum cal_weekday_on_or_after(PG_FUNCTION_ARGS)
{
    RETURN_INFINITE_DATE(0);
    PG_RETURN_DATEADT(from_date("weekday on or after", fots_date_on_or_after(GET_DATE(0), (uint32)GET_INT32(1))));
}

PG_FUNCTION_INFO_V1(cal_weekday_on_or_before);
Datum cal_weekday_on_or_before(PG_FUNCTION_ARGS)
{
    RETURN_INFINITE_DATE(0);
    PG_RETURN_DATEADT(from_date("weekday on or before", fots_date_on_or_before(GET_DATE(0), (uint32)GET_INT32(1))));
}

PG_FUNCTION_INFO_V1(cal_start_of);
Datum cal_start_of(PG_FUNCTION_ARGS)
{
    const uint32 unit = GET_NUMBER(fots_unit_names(), 1);
    RETURN_INFINITE_DATE(0);
    PG_RETURN_DATEADT(from_date("start of", sql_start_of(GET_DATE(0), unit)));
}

PG_FUNCTION_INFO_V1(cal_end_of);
Datum cal_end_of(PG_FUNCTION_ARGS)
{
    const uint32 unit = GET_NUMBER(fots_unit_names(), 1);
    RETURN_INFINITE_DATE(0);
    PG_RETURN_DATEADT(from_date("end of", sql_end_of(GET_DATE(0), unit)));
}

/* ---- numbers to a date */

/* NULL if the month has no such day. */
PG_FUNCTION_INFO_V1(cal_nth_weekday);
Datum cal_nth_weekday(PG_FUNCTION_ARGS)
{
    const fots_date_result found = sql_nth_weekday(GET_INT32(0), GET_INT32(1), GET_INT32(2), GET_INT32(3));
    if (found.status == FOTS_WEEKDAY_OUT_OF_RANGE) {
        PG_RETURN_NULL();
    }
    PG_RETURN_DATEADT(from_date("nth weekday", found));
}

PG_FUNCTION_INFO_V1(cal_from_iso_week);
Datum cal_from_iso_week(PG_FUNCTION_ARGS)
{
    PG_RETURN_DATEADT(from_date("ISO week", fots_date_from_iso_week_date(GET_INT32(0), (uint32)GET_INT32(1), (uint32)GET_INT32(2))));
}

PG_FUNCTION_INFO_V1(cal_easter);
Datum cal_easter(PG_FUNCTION_ARGS)
{
    PG_RETURN_DATEADT(from_date("Easter", fots_easter(GET_INT32(0))));
}

PG_FUNCTION_INFO_V1(cal_julian_easter);
Datum cal_julian_easter(PG_FUNCTION_ARGS)
{
    PG_RETURN_DATEADT(from_date("Easter", fots_julian_easter(GET_INT32(0))));
}

/* ---- a date to a number or a text */

static Datum number_of(const char *what, int32 status, int32 number)
{
    succeed(what, status);
    return Int32GetDatum(number);
}

PG_FUNCTION_INFO_V1(cal_weekday);
Datum cal_weekday(PG_FUNCTION_ARGS)
{
    const fots_component_result found = fots_date_weekday(GET_DATE(0));
    return number_of("weekday", found.status, (int32)found.number);
}

PG_FUNCTION_INFO_V1(cal_iso_year);
Datum cal_iso_year(PG_FUNCTION_ARGS)
{
    const fots_iso_week_date_result found = fots_date_to_iso_week_date(GET_DATE(0));
    return number_of("ISO year", found.status, found.year);
}

PG_FUNCTION_INFO_V1(cal_iso_week);
Datum cal_iso_week(PG_FUNCTION_ARGS)
{
    const fots_component_result found = fots_date_iso_week(GET_DATE(0));
    return number_of("ISO week", found.status, (int32)found.number);
}

PG_FUNCTION_INFO_V1(cal_quarter);
Datum cal_quarter(PG_FUNCTION_ARGS)
{
    const fots_component_result found = fots_date_quarter(GET_DATE(0));
    return number_of("quarter", found.status, (int32)found.number);
}

PG_FUNCTION_INFO_V1(cal_week_text);
Datum cal_week_text(PG_FUNCTION_ARGS)
{
    const fots_text_result found = fots_date_week_text(GET_DATE(0));
    succeed("week text", found.status);
    PG_RETURN_TEXT_P(text_of(found.bytes, found.length));
}

/* ---- two dates */

PG_FUNCTION_INFO_V1(cal_months_between);
Datum cal_months_between(PG_FUNCTION_ARGS)
{
    const fots_number_result found = fots_date_months_until(GET_DATE(0), GET_DATE(1));
    return number_of("months between", found.status, found.number);
}

PG_FUNCTION_INFO_V1(cal_years_between);
Datum cal_years_between(PG_FUNCTION_ARGS)
{
    const fots_number_result found = fots_date_years_until(GET_DATE(0), GET_DATE(1));
    return number_of("years between", found.status, found.number);
}

PG_FUNCTION_INFO_V1(cal_age);
Datum cal_age(PG_FUNCTION_ARGS)
{
    const fots_number_result found = sql_age(GET_DATE(0), GET_DATE(1), GET_NUMBER(&sql_leap_birthdays, 2));
    return number_of("age", found.status, found.number);
}

PG_FUNCTION_INFO_V1(cal_period);
Datum cal_period(PG_FUNCTION_ARGS)
{
    const fots_period_result found = fots_date_period_until_by(GET_DATE(0), GET_DATE(1), GET_NUMBER(fots_unit_names(), 2));
    const fots_period period = {found.years, found.months, found.weeks, found.days, {0, 0, 0}};
    PG_RETURN_INTERVAL_P(from_period("period", found.status, period));
}

static fots_year_fraction_result day_count(FunctionCallInfo fcinfo)
{
    const fots_year_fraction_result found = fots_date_day_count(GET_DATE(0), GET_DATE(1), GET_NUMBER(fots_day_count_names(), 2));
    succeed("day count", found.status);
    return found;
}

PG_FUNCTION_INFO_V1(cal_day_count);
Datum cal_day_count(PG_FUNCTION_ARGS)
{
    const fots_year_fraction_result found = day_count(fcinfo);
    const Datum numerator = NumericGetDatum(int64_to_numeric(found.numerator));
    return DirectFunctionCall2(numeric_div, numerator, NumericGetDatum(int64_to_numeric(found.denominator)));
}

PG_FUNCTION_INFO_V1(cal_day_count_fraction);
Datum cal_day_count_fraction(PG_FUNCTION_ARGS)
{
    const fots_year_fraction_result found = day_count(fcinfo);
    const Datum values[] = {Int64GetDatum(found.numerator), Int32GetDatum((int32)found.denominator)};
    const bool nulls[] = {false, false};
    TupleDesc row;
    if (get_call_result_type(fcinfo, NULL, &row) != TYPEFUNC_COMPOSITE) {
        elog(ERROR, "return type must be a row type");
    }
    PG_RETURN_DATUM(HeapTupleGetDatum(heap_form_tuple(BlessTupleDesc(row), (Datum *)values, (bool *)nulls)));
}

/* ---- texts and rounding of intervals */

PG_FUNCTION_INFO_V1(cal_period_text);
Datum cal_period_text(PG_FUNCTION_ARGS)
{
    const fots_period_text_result found = fots_period_text(period_of(PG_GETARG_INTERVAL_P(0)));
    succeed("period", found.status);
    PG_RETURN_TEXT_P(text_of(found.bytes, found.length));
}

PG_FUNCTION_INFO_V1(cal_duration_text);
Datum cal_duration_text(PG_FUNCTION_ARGS)
{
    const fots_text_result found = fots_duration_text(duration_of(PG_GETARG_INTERVAL_P(0)));
    succeed("duration", found.status);
    PG_RETURN_TEXT_P(text_of(found.bytes, found.length));
}

PG_FUNCTION_INFO_V1(cal_parse_period);
Datum cal_parse_period(PG_FUNCTION_ARGS)
{
    const text *const value = PG_GETARG_TEXT_PP(0);
    const fots_parse_period_result parsed = fots_period_parse(VARDATA_ANY(value), VARSIZE_ANY_EXHDR(value));
    if (parsed.status != FOTS_OK) {
        fail_text("period", value, parsed.status, parsed.position);
    }
    PG_RETURN_INTERVAL_P(from_period("period", FOTS_OK, parsed.period));
}

PG_FUNCTION_INFO_V1(cal_parse_duration);
Datum cal_parse_duration(PG_FUNCTION_ARGS)
{
    const text *const value = PG_GETARG_TEXT_PP(0);
    const fots_parse_duration_result parsed = fots_duration_parse(VARDATA_ANY(value), VARSIZE_ANY_EXHDR(value));
    const fots_period period = {0, 0, 0, 0, parsed.duration};
    if (parsed.status != FOTS_OK) {
        fail_text("duration", value, parsed.status, parsed.position);
    }
    PG_RETURN_INTERVAL_P(from_period("duration", FOTS_OK, period));
}

PG_FUNCTION_INFO_V1(cal_round_duration);
Datum cal_round_duration(PG_FUNCTION_ARGS)
{
    const fots_duration_result found = fots_duration_round(
        duration_of(PG_GETARG_INTERVAL_P(0)), duration_of(PG_GETARG_INTERVAL_P(1)), GET_NUMBER(fots_rounding_mode_names(), 2));
    const fots_period period = {0, 0, 0, 0, found.duration};
    PG_RETURN_INTERVAL_P(from_period("round", found.status, period));
}

PG_FUNCTION_INFO_V1(cal_round_local);
Datum cal_round_local(PG_FUNCTION_ARGS)
{
    const fots_duration unit = duration_of(PG_GETARG_INTERVAL_P(1));
    const uint32 mode = GET_NUMBER(fots_rounding_mode_names(), 2);
    fots_moment moment;
    fots_pair_result found;
    RETURN_INFINITE_TIMESTAMP(0);
    moment = moment_of(PG_GETARG_TIMESTAMP(0));
    found = fots_pair_round(moment.date, moment.time, unit, mode);
    PG_RETURN_TIMESTAMP(from_local("round", found.status, found.date, found.time));
}
