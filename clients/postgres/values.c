/* Values of PostgreSQL as values of the library, and back, and the errors of the functions. */
#include "values.h"

#include "common/int.h"
#include "mb/pg_wchar.h"
#include "utils/builtins.h"
#include "utils/memutils.h"

#include "fotsevindre_zones.h"

PG_MODULE_MAGIC;

static int code_of(int32 status)
{
    switch (sql_error_of(status)) {
    case SQL_INVALID_TEXT: return ERRCODE_INVALID_DATETIME_FORMAT;
    case SQL_OUT_OF_RANGE: return ERRCODE_DATETIME_VALUE_OUT_OF_RANGE;
    default: return ERRCODE_INVALID_PARAMETER_VALUE;
    }
}

void fail(const char *what, int32 status)
{
    ereport(ERROR, (errcode(code_of(status)), errmsg("%s: %s", what, fots_error_text(status).bytes)));
}

void reason_of(char bytes[SQL_REASON_BYTES], const text *value, int32 status, size_t position, const fots_format *format)
{
    const size_t length = VARSIZE_ANY_EXHDR(value);
    const size_t character = position <= length ? (size_t)pg_mbstrlen_with_len(VARDATA_ANY(value), (int)position) + 1 : 0;
    sql_reason(bytes, status, position, character, VARDATA_ANY(value), length, format);
}

void fail_text(const char *what, const text *value, int32 status, size_t position)
{
    fail_format(what, value, status, position, NULL);
}

void fail_format(const char *what, const text *value, int32 status, size_t position, const fots_format *format)
{
    char reason[SQL_REASON_BYTES];
    reason_of(reason, value, status, position, format);
    ereport(ERROR, (errcode(code_of(status)), errmsg("invalid %s: \"%s\"", what, text_to_cstring(value)), errdetail_internal("%s", reason)));
}

static void fail_infinite(const char *what)
{
    ereport(ERROR, (errcode(ERRCODE_DATETIME_VALUE_OUT_OF_RANGE), errmsg("%s must be finite", what)));
}

fots_date date_of(DateADT date)
{
    fots_date converted;
    if (unlikely(DATE_NOT_FINITE(date))) {
        fail_infinite("date");
    }
    converted.julian_day = date + POSTGRES_EPOCH_JDATE;
    if (unlikely(converted.julian_day > FOTS_MAX_JULIAN_DAY)) {
        ereport(ERROR, (errcode(ERRCODE_DATETIME_VALUE_OUT_OF_RANGE), errmsg("date out of range"),
                           errdetail("The functions go to the year %d.", FOTS_MAX_YEAR)));
    }
    return converted;
}

DateADT from_date(const char *what, fots_date_result found)
{
    succeed(what, found.status);
    if (unlikely(found.date.julian_day < DATETIME_MIN_JULIAN)) {
        fail(what, FOTS_RESULT_OUT_OF_RANGE);
    }
    return found.date.julian_day - POSTGRES_EPOCH_JDATE;
}

fots_moment moment_of(Timestamp stamp)
{
    fots_moment moment;
    int64 day = stamp / USECS_PER_DAY, rest = stamp % USECS_PER_DAY;
    if (unlikely(TIMESTAMP_NOT_FINITE(stamp))) {
        fail_infinite("timestamp");
    }
    if (rest < 0) {
        rest += USECS_PER_DAY;
        day -= 1;
    }
    moment.date.julian_day = (int32)(day + POSTGRES_EPOCH_JDATE);
    moment.offset.seconds = 0;
    moment.time = (uint64)rest * 1000;
    return moment;
}

/* Rounds down to a microsecond. */
Timestamp from_moment(const char *what, fots_moment_result found)
{
    const int64 day = (int64)found.moment.date.julian_day - POSTGRES_EPOCH_JDATE;
    int64 stamp;
    succeed(what, found.status);
    if (pg_mul_s64_overflow(day, USECS_PER_DAY, &stamp)
        || pg_add_s64_overflow(stamp, (int64)(found.moment.time / 1000) - (int64)found.moment.offset.seconds * USECS_PER_SEC, &stamp)
        || !IS_VALID_TIMESTAMP(stamp)) {
        fail(what, FOTS_RESULT_OUT_OF_RANGE);
    }
    return stamp;
}

Timestamp from_local(const char *what, int32 status, fots_date date, fots_time time)
{
    const fots_moment_result found = {status, 0, {date, {0}, time}};
    return from_moment(what, found);
}

static void finite_interval(const Interval *interval)
{
#ifdef INTERVAL_NOT_FINITE
    if (INTERVAL_NOT_FINITE(interval)) {
        fail_infinite("interval");
    }
#else
    (void)interval;
#endif
}

fots_period period_of(const Interval *interval)
{
    fots_period period = {0, 0, 0, 0, {0, 0, 0}};
    finite_interval(interval);
    period.years = interval->month / MONTHS_PER_YEAR;
    period.months = interval->month % MONTHS_PER_YEAR;
    period.days = interval->day;
    period.duration.seconds = interval->time / USECS_PER_SEC;
    period.duration.nanoseconds = (int32)(interval->time % USECS_PER_SEC) * 1000;
    return period;
}

/* A duration has no months and no days, whose length depends on the date and the zone. */
fots_duration duration_of(const Interval *interval)
{
    finite_interval(interval);
    if (interval->month != 0 || interval->day != 0) {
        ereport(ERROR, (errcode(ERRCODE_INVALID_PARAMETER_VALUE), errmsg("expected an interval of hours, minutes and seconds")));
    }
    return period_of(interval).duration;
}

Interval *from_period(const char *what, int32 status, fots_period period)
{
    Interval *const interval = palloc0(sizeof(Interval));
    int32 weeks;
    succeed(what, status);
    if (pg_mul_s32_overflow(period.years, MONTHS_PER_YEAR, &interval->month)
        || pg_add_s32_overflow(interval->month, period.months, &interval->month) || pg_mul_s32_overflow(period.weeks, 7, &weeks)
        || pg_add_s32_overflow(weeks, period.days, &interval->day)
        || pg_mul_s64_overflow(period.duration.seconds, USECS_PER_SEC, &interval->time)
        || pg_add_s64_overflow(interval->time, period.duration.nanoseconds / 1000, &interval->time)) {
        ereport(ERROR, (errcode(ERRCODE_INTERVAL_FIELD_OVERFLOW), errmsg("interval out of range")));
    }
    return interval;
}

uint32 number_named(const fots_names *names, const text *name)
{
    const uint32 number = fots_number_named(names, VARDATA_ANY(name), VARSIZE_ANY_EXHDR(name));
    if (unlikely(number == FOTS_NO_NUMBER)) {
        ereport(ERROR, (errcode(ERRCODE_INVALID_PARAMETER_VALUE),
                           errmsg("unknown %s \"%s\"; expected %s", names->what, text_to_cstring(name), names->expected)));
    }
    return number;
}

text *text_of(const char *bytes, size_t length)
{
    return cstring_to_text_with_len(bytes, (int)length);
}

void *kept_for(FunctionCallInfo call, size_t size)
{
    if (call->flinfo->fn_extra == NULL) {
        call->flinfo->fn_extra = MemoryContextAllocZero(call->flinfo->fn_mcxt, size);
    }
    return call->flinfo->fn_extra;
}

const fots_zone *zone_named(const text *name)
{
    const fots_named_zone found = fots_zone_named_by(VARDATA_ANY(name), VARSIZE_ANY_EXHDR(name));
    if (unlikely(found.zone == NULL)) {
        ereport(ERROR, (errcode(found.error == FOTS_ZONE_MEMORY ? ERRCODE_OUT_OF_MEMORY : ERRCODE_INVALID_PARAMETER_VALUE),
                           errmsg("time zone \"%s\" not recognized", text_to_cstring(name)), errdetail("%s", fots_named_zone_reason(found))));
    }
    return found.zone;
}
