/* Functions of working days. */
#include "values.h"

#include "catalog/pg_type.h"
#include "utils/array.h"
#include "utils/memutils.h"

#include "../sql/holidays.h"

/* The calendars of a call site. A row finds its own by the bytes of its array, which needs no
 * decompression, so that a few calendars in turn are as fast as one. */
#define CALENDARS 8

typedef struct calendar {
    int32 weekmask;
    Size size;
    char *array; /* the bytes of the array as they come */
    fots_date *days;
    uint32 *counts;
    fots_workdays_view workdays; /* of the days and the counts */
} calendar;

typedef struct kept_calendars {
    calendar *calendars[CALENDARS];
    uint32 next; /* to be replaced */
} kept_calendars;

/* Returns a copy of an array in a memory that lasts longer. */
static void *kept_copy(MemoryContext memory, const void *from, Size size)
{
    void *const copy = MemoryContextAllocHuge(memory, size);
    memcpy(copy, from, size);
    return copy;
}

/* Sets the working days of an array of dates, in any order and with duplicates. */
static void set_workdays(calendar *one, struct varlena *value, MemoryContext memory)
{
    ArrayType *const array = DatumGetArrayTypeP(PointerGetDatum(value));
    const int count = ArrayGetNItems(ARR_NDIM(array), ARR_DIMS(array));
    const DateADT *const dates = (const DateADT *)ARR_DATA_PTR(array);
    fots_date *days;
    uint32 *counts;
    /* An array with NULL has no bytes for it. */
    if (ARR_HASNULL(array) && array_contains_nulls(array)) {
        ereport(ERROR, (errcode(ERRCODE_NULL_VALUE_NOT_ALLOWED), errmsg("holidays must not be null")));
    }
    days = palloc_extended(sizeof(fots_date) * ((Size)count + 1), MCXT_ALLOC_HUGE);
    counts = palloc_extended(sizeof(uint32) * ((Size)count + 1), MCXT_ALLOC_HUGE);
    for (int at = 0; at < count; at++) {
        days[at] = date_of(dates[at]);
    }
    succeed("working days", sql_workdays((uint32)one->weekmask, days, (size_t)count, counts, &one->workdays));
    one->days = kept_copy(memory, days, sizeof(fots_date) * (one->workdays.holidays_length + 1));
    one->counts = kept_copy(memory, counts, sizeof(uint32) * one->workdays.marked_before_length);
    one->workdays.holidays = one->days;
    one->workdays.marked_before = one->counts;
    pfree(days);
    pfree(counts);
}

static void free_calendar(calendar *one)
{
    if (one != NULL) {
        pfree(one->array);
        pfree(one->days);
        pfree(one->counts);
        pfree(one);
    }
}

/* Keeps the calendar of an array. Nothing that lasts is allocated before the last error. */
static const fots_workdays_view *keep(FunctionCallInfo fcinfo, kept_calendars *kept, struct varlena *array, int32 weekmask)
{
    const MemoryContext memory = fcinfo->flinfo->fn_mcxt;
    calendar **const place = &kept->calendars[kept->next];
    calendar made = {.weekmask = weekmask, .size = VARSIZE_ANY(array)};
    set_workdays(&made, array, memory);
    made.array = kept_copy(memory, array, made.size);
    free_calendar(*place);
    *place = kept_copy(memory, &made, sizeof(calendar));
    kept->next = (kept->next + 1) % CALENDARS;
    return &(*place)->workdays;
}

/* Returns the working days of an array and the weekmask after it. */
static const fots_workdays_view *workdays(FunctionCallInfo fcinfo, int argument)
{
    struct varlena *array = (struct varlena *)PG_GETARG_POINTER(argument);
    const int32 weekmask = GET_INT32(argument + 1);
    kept_calendars *const kept = kept_for(fcinfo, sizeof(kept_calendars));
    Size size;
    /* A pointer to a TOAST table, or an array of a variable of PL/pgSQL. */
    if (VARATT_IS_EXTERNAL(array)) {
        array = PG_DETOAST_DATUM(PointerGetDatum(array));
    }
    size = VARSIZE_ANY(array);
    for (int at = 0; at < CALENDARS && kept->calendars[at] != NULL; at++) {
        const calendar *const one = kept->calendars[at];
        if (one->size == size && one->weekmask == weekmask && memcmp(one->array, array, size) == 0) {
            return &one->workdays;
        }
    }
    return keep(fcinfo, kept, array, weekmask);
}

PG_FUNCTION_INFO_V1(cal_workdays);
Datum cal_workdays(PG_FUNCTION_ARGS)
{
    const fots_number_result found = fots_workdays_view_between(workdays(fcinfo, 2), GET_DATE(0), GET_DATE(1));
    succeed("working days", found.status);
    PG_RETURN_INT32(found.number);
}

PG_FUNCTION_INFO_V1(cal_add_workdays);
Datum cal_add_workdays(PG_FUNCTION_ARGS)
{
    RETURN_INFINITE_DATE(0);
    PG_RETURN_DATEADT(from_date("add working days", fots_workdays_view_add(workdays(fcinfo, 2), GET_DATE(0), GET_INT32(1))));
}

PG_FUNCTION_INFO_V1(cal_is_workday);
Datum cal_is_workday(PG_FUNCTION_ARGS)
{
    const fots_component_result found = fots_workdays_view_contains(workdays(fcinfo, 1), GET_DATE(0));
    succeed("working days", found.status);
    PG_RETURN_BOOL(found.number == 1);
}

PG_FUNCTION_INFO_V1(cal_adjust);
Datum cal_adjust(PG_FUNCTION_ARGS)
{
    const uint32 convention = GET_NUMBER(fots_convention_names(), 1);
    RETURN_INFINITE_DATE(0);
    PG_RETURN_DATEADT(from_date("adjust", fots_workdays_view_adjust(workdays(fcinfo, 2), GET_DATE(0), convention)));
}

PG_FUNCTION_INFO_V1(cal_holidays);
Datum cal_holidays(PG_FUNCTION_ARGS)
{
    const text *const value = PG_GETARG_TEXT_PP(0);
    fots_date days[FOTS_MAX_HOLIDAYS];
    Datum dates[FOTS_MAX_HOLIDAYS];
    const fots_holidays_result found
        = sql_holidays(VARDATA_ANY(value), (size_t)VARSIZE_ANY_EXHDR(value), GET_DATE(1), GET_DATE(2), days);
    if (found.status != FOTS_OK) {
        fail_text("holidays", value, found.status, found.position);
    }
    for (int at = 0; at < found.number; at++) {
        dates[at] = DateADTGetDatum(from_date("holidays", (fots_date_result){FOTS_OK, days[at]}));
    }
    PG_RETURN_ARRAYTYPE_P(construct_array(dates, found.number, DATEOID, sizeof(DateADT), true, TYPALIGN_INT));
}
