/* Values of PostgreSQL as values of the library, and back, and the errors of the functions. */
#ifndef FOTSEVINDRE_POSTGRES_VALUES_H
#define FOTSEVINDRE_POSTGRES_VALUES_H

#include "postgres.h"

#include "fmgr.h"
#include "utils/date.h"
#include "utils/timestamp.h"
/* postgres.h has these macros before PostgreSQL 16. */
#if PG_VERSION_NUM >= 160000
#include "varatt.h"
#endif

#include "../sql/names.h"

/* The server loads extensions into one name space. */
#pragma GCC visibility push(hidden)

/* Raises an error of the library: `what`, and the name of the status. */
extern void fail(const char *what, int32 status) pg_attribute_noreturn();

/* Writes why a string isn't valid, by a format or NULL, with the position of its first wrong character. */
extern void reason_of(char bytes[SQL_REASON_BYTES], const text *value, int32 status, size_t position, const fots_format *format);

/* Raise an error of a string, without a format or by one, with the position of its first wrong character. */
extern void fail_text(const char *what, const text *value, int32 status, size_t position) pg_attribute_noreturn();
extern void fail_format(const char *what, const text *value, int32 status, size_t position, const fots_format *format) pg_attribute_noreturn();

static inline void succeed(const char *what, int32 status)
{
    if (unlikely(status != FOTS_OK)) {
        fail(what, status);
    }
}

/* Convert, or raise an error for infinity and values out of range. */
extern fots_date date_of(DateADT date);
extern DateADT from_date(const char *what, fots_date_result found);
extern fots_moment moment_of(Timestamp stamp);
extern Timestamp from_moment(const char *what, fots_moment_result found);
extern fots_period period_of(const Interval *interval);
extern fots_duration duration_of(const Interval *interval);
extern Interval *from_period(const char *what, int32 status, fots_period period);

/* Returns the result at offset 0: the local time of a moment. */
extern Timestamp from_local(const char *what, int32 status, fots_date date, fots_time time);

/* Returns the number of a name, or raises an error that lists the names. */
extern uint32 number_named(const fots_names *names, const text *name);

extern text *text_of(const char *bytes, size_t length);

/* Returns memory that a query keeps for a function from row to row, of zeros at first. */
extern void *kept_for(FunctionCallInfo call, size_t size);

/* Returns the zone with a name, or raises an error. */
extern const fots_zone *zone_named(const text *name);

#pragma GCC visibility pop

#define GET_DATE(n) date_of(PG_GETARG_DATEADT(n))
#define GET_INT32(n) PG_GETARG_INT32(n)
#define GET_NUMBER(names, n) number_named((names), PG_GETARG_TEXT_PP(n))

/* A function from a date to a date returns infinity as it is, like the operators of PostgreSQL. */
#define RETURN_INFINITE_DATE(n) \
    if (DATE_NOT_FINITE(PG_GETARG_DATEADT(n))) { \
        PG_RETURN_DATEADT(PG_GETARG_DATEADT(n)); \
    }
#define RETURN_INFINITE_TIMESTAMP(n) \
    if (TIMESTAMP_NOT_FINITE(PG_GETARG_TIMESTAMP(n))) { \
        PG_RETURN_TIMESTAMP(PG_GETARG_TIMESTAMP(n)); \
    }

#endif
