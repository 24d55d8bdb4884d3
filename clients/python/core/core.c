/* The values of Python, and what converts from and to them. module.c includes the files of the
 * extension in one unit, so that their functions are static and need no declarations. */
#ifndef Py_LIMITED_API
#define Py_LIMITED_API 0x030A0000
#endif
#define PY_SSIZE_T_CLEAN
/* It comes first, since it says which functions of POSIX the others declare. */
#include <Python.h>

#include <stdio.h>
#include <stdlib.h>
#include <string.h>
#include <time.h>

#include "fotsevindre.h"

/* A date or a date-time, and its year, month and day in one number, or 0 if no one has asked for
 * them. */
typedef struct DateParts {
    fots_date date;
    uint32_t parts;
} DateParts;
typedef struct MomentParts {
    fots_moment moment;
    uint32_t parts;
} MomentParts;

/* A value of each type except Workdays. A date-time is a moment, of which the date is the first
 * field, so DATE is right for it, too. A PlainDateTime has the offset 0. */
typedef struct Value {
    PyObject_HEAD
    union {
        fots_date date;
        DateParts date_parts;
        fots_time time;
        fots_offset offset;
        fots_duration duration;
        fots_period period;
        fots_moment moment;
        MomentParts moment_parts;
    };
} Value;

/* A view of memory that the object owns, which starts with the counts. */
typedef struct WorkdaysObject {
    PyObject_HEAD
    fots_workdays_view workdays;
    uint32_t *memory;
} WorkdaysObject;

/* The size of a value with a field, which takes a multiple of 8 bytes. */
#define SIZE_OF(field) (offsetof(Value, field) + (sizeof(((Value *)0)->field) + 7) / 8 * 8)
#define VALUE(object) ((Value *)(object))
#define DATE(object) (VALUE(object)->date)
#define TIME(object) (VALUE(object)->time)
#define OFFSET(object) (VALUE(object)->offset)
#define DURATION(object) (VALUE(object)->duration)
#define PERIOD(object) (VALUE(object)->period)
#define MOMENT(object) (VALUE(object)->moment)
#define WORKDAYS(object) (&((WorkdaysObject *)(object))->workdays)

/* What a module has in one interpreter: the types in the order of types.pyi, two other types, and
 * then the arguments of setup. All fields are pointers to objects. */
typedef struct State {
    PyTypeObject *date, *time, *offset, *duration, *period, *plain, *moment, *workdays;
    PyTypeObject *unit, *iso_calendar_date;
    PyTypeObject *other_date, *other_time, *other_date_time, *timedelta, *tzinfo;
    PyObject *timezone;
    PyObject *has_layouts; /* True if datetime has the layouts of standard.c */
    PyObject *weekday, *calendar_unit, *rounding_mode, *convention, *day_count, *year_fraction;
    PyObject *named_format; /* the type NamedFormat */
    PyObject *status_error, *format_error, *insufficient_format, *component_range, *parse_error;
    PyObject *components; /* by status: the arguments of component_range, or None */
    PyObject *months[12], *weekdays[7];
} State;

static inline const State *state_of_type(PyTypeObject *type) { return PyType_GetModuleState(type); }
static inline const State *state_of(PyObject *self) { return state_of_type(Py_TYPE(self)); }
static inline const State *state_of_module(PyObject *module) { return PyModule_GetState(module); }

#define new_reference(object) Py_NewRef(object)

/* The Julian day of 1970-01-01. */
#define UNIX_EPOCH 2440588

/* ---- arguments: each function converts one, or returns 0 after it has raised an error */

/* Checks that an object has exactly this type. */
static int is_kind(PyObject *object, const void *type)
{
    if (Py_TYPE(object) == type) {
        return 1;
    }
    PyObject *expected = PyObject_GetAttrString((PyObject *)type, "__name__");
    PyObject *found = PyObject_GetAttrString((PyObject *)Py_TYPE(object), "__name__");
    if (expected && found) {
        PyErr_Format(PyExc_TypeError, "expected %U, not %U", expected, found);
    }
    Py_XDECREF(expected);
    Py_XDECREF(found);
    return 0;
}

static int is_count(const char *name, Py_ssize_t count, Py_ssize_t expected)
{
    if (count != expected) {
        PyErr_Format(
            PyExc_TypeError, "%s() takes %zd arguments (%zd given)", name, expected, count);
    }
    return count == expected;
}

/* Takes the arguments of a constructor or of `replace`: at most so many by position, the others by
 * name, and the first ones are required. Those that aren't given stay NULL. */
static int take_arguments(const char *function, PyObject *arguments, PyObject *named,
    const char *const *names, Py_ssize_t positional, Py_ssize_t required, PyObject **given)
{
    Py_ssize_t count = PyTuple_Size(arguments), position = 0;
    PyObject *name, *value;
    if (count > positional) {
        PyErr_Format(PyExc_TypeError, "%s() takes at most %zd positional arguments (%zd given)",
            function, positional, count);
        return 0;
    }
    for (Py_ssize_t index = 0; index < count; index++) {
        given[index] = PyTuple_GetItem(arguments, index);
    }
    while (named && PyDict_Next(named, &position, &name, &value)) {
        Py_ssize_t index = 0;
        while (names[index] && PyUnicode_CompareWithASCIIString(name, names[index])) {
            index++;
        }
        if (!names[index] || given[index]) {
            PyErr_Format(PyExc_TypeError, names[index] ? "%s() got '%U' twice" :
                "%s() got an unexpected keyword argument '%U'", function, name);
            return 0;
        }
        given[index] = value;
    }
    for (Py_ssize_t index = 0; index < required; index++) {
        if (!given[index]) {
            PyErr_Format(PyExc_TypeError, "%s() missing required argument '%s'", function,
                names[index]);
            return 0;
        }
    }
    return 1;
}

#define TO_VALUE(name, field) \
    static int to_##name(const State *state, PyObject *object, fots_##field *value) \
    { \
        if (!is_kind(object, state->name)) { \
            return 0; \
        } \
        *value = VALUE(object)->field; \
        return 1; \
    }
TO_VALUE(date, date)
TO_VALUE(time, time)
TO_VALUE(offset, offset)
TO_VALUE(duration, duration)
TO_VALUE(period, period)
TO_VALUE(plain, moment)
TO_VALUE(moment, moment)

/* Converts a member of an enum. */
static int to_member(PyObject *type, PyObject *object, uint32_t *number)
{
    if (!is_kind(object, type)) {
        return 0;
    }
    *number = (uint32_t)PyLong_AsLong(object);
    return 1;
}

/* Monday is 0 in Python, and 1 in C. */
static int to_weekday(const State *state, PyObject *object, uint32_t *number)
{
    return to_member(state->weekday, object, number) && ++*number;
}

/* Converts an int to the nearest number from minimum to maximum. If it must fit, others raise
 * OverflowError. */
static int to_number(PyObject *object, int must_fit, int64_t minimum, int64_t maximum,
    int64_t *number)
{
    int overflow;
    *number = PyLong_AsLongLongAndOverflow(object, &overflow);
    if (*number == -1 && !overflow && PyErr_Occurred()) {
        return 0;
    }
    overflow = overflow ? overflow : (*number > maximum) - (*number < minimum);
    if (overflow && must_fit) {
        PyErr_Format(PyExc_OverflowError, "%S is out of range; expected %lld to %lld", object,
            (long long)minimum, (long long)maximum);
        return 0;
    }
    *number = overflow < 0 ? minimum : overflow > 0 ? maximum : *number;
    return 1;
}

/* A negative int becomes the maximum of uint32_t, which no call takes. */
#define TO_INT(name, type, must_fit, minimum, maximum) \
    static int name(const State *Py_UNUSED(state), PyObject *object, type *number) \
    { \
        int64_t wide; \
        if (!to_number(object, must_fit, minimum, maximum, &wide)) { \
            return 0; \
        } \
        *number = (type)wide; \
        return 1; \
    }
TO_INT(to_int32, int32_t, 0, INT32_MIN, INT32_MAX)
TO_INT(to_int64, int64_t, 0, INT64_MIN, INT64_MAX)
TO_INT(to_uint32, uint32_t, 0, -1, UINT32_MAX)
TO_INT(fit_int32, int32_t, 1, INT32_MIN, INT32_MAX)
TO_INT(fit_int64, int64_t, 1, INT64_MIN, INT64_MAX)
TO_INT(fit_uint32, uint32_t, 1, 0, UINT32_MAX)

/* A text in bytes, of which a lone surrogate is a wrong one. Every byte before the first wrong one
 * is ASCII, so its position is the same among the characters. */
typedef struct Text {
    PyObject *bytes;
    const char *start;
    size_t length;
} Text;

/* Converts a str. The caller releases `bytes`, if there are any. */
static int to_text(const State *Py_UNUSED(state), PyObject *object, Text *text)
{
    Py_ssize_t size = 0;
    if (!PyUnicode_Check(object)) {
        return is_kind(object, &PyUnicode_Type);
    }
    text->start = PyUnicode_AsUTF8AndSize(object, &size);
    if (!text->start) {
        PyErr_Clear();
        text->bytes = PyUnicode_AsEncodedString(object, "utf-8", "surrogatepass");
        text->start = text->bytes ? PyBytes_AsString(text->bytes) : NULL;
        size = text->bytes ? PyBytes_Size(text->bytes) : 0;
    }
    text->length = (size_t)size;
    return text->start != NULL;
}

/* ---- results */

/* Raises an error that was made, unless that failed. Returns NULL. */
static PyObject *raise_made(PyObject *error)
{
    if (error) {
        PyErr_SetObject((PyObject *)Py_TYPE(error), error);
        Py_DECREF(error);
    }
    return NULL;
}

/* Returns the arguments of component_range for a status, or NULL for another one. */
static PyObject *component_of(const State *state, int32_t status)
{
    PyObject *component = status < PyTuple_Size(state->components) ?
        PyTuple_GetItem(state->components, status) : Py_None;
    return component == Py_None ? NULL : component;
}

static PyObject *raise_position(const State *state, int32_t status, size_t position, uint32_t part)
{
    PyObject *component = component_of(state, status);
    if (component) {
        PyErr_SetObject(state->component_range, component);
        return NULL;
    }
    return raise_made(PyObject_CallFunction(state->status_error, "inI", (int)status,
        (Py_ssize_t)position, (unsigned)part));
}

/* Calls that aren't generated, in the order of CALLS_EXPLAINED of tools/python_members. */
enum { CALL_NEW_DATE_TIME, CALL_REPLACE_DATE_TIME, CALL_STRPTIME };

/* Raises an error with the call that failed, of which it makes its sentence when it is printed: what
 * has the method, the number of the call, and its arguments come after those of the error. Returns
 * NULL. */
static PyObject *raise_explained(const State *state, int32_t status, size_t position,
    PyObject *self, long call, PyObject *const *given, Py_ssize_t count)
{
    PyObject *component = component_of(state, status);
    int is_end = status == FOTS_UNEXPECTED_END;
    if (!component && !is_end && status != FOTS_UNEXPECTED_BYTE) {
        return raise_position(state, status, position, 0);
    }
    PyObject *arguments = PyTuple_New(4 + count);
    if (!arguments) {
        return NULL;
    }
    PyTuple_SetItem(arguments, 0, component ? new_reference(PyTuple_GetItem(component, 0)) :
        PyLong_FromSize_t(position));
    PyTuple_SetItem(arguments, 1, component ? new_reference(PyTuple_GetItem(component, 1)) :
        PyBool_FromLong(is_end));
    PyTuple_SetItem(arguments, 2, new_reference(self));
    PyTuple_SetItem(arguments, 3, PyLong_FromLong(call));
    for (Py_ssize_t index = 0; index < count; index++) {
        PyObject *one = given[index] ? given[index] : Py_None;
        PyTuple_SetItem(arguments, 4 + index, new_reference(one));
    }
    PyErr_SetObject(component ? state->component_range : state->parse_error, arguments);
    Py_DECREF(arguments);
    return NULL;
}

/* Raises the error of a status that has no position. */
static PyObject *raise_status(const State *state, int32_t status)
{
    return raise_position(state, status, 0, 0);
}

#define NEW(field, parameter, type) \
    static PyObject *new_##field(parameter, fots_##field value) \
    { \
        Value *object = PyObject_New(Value, type); \
        if (object) { \
            object->field = value; \
        } \
        return (PyObject *)object; \
    }
static PyObject *new_date(const State *state, fots_date date)
{
    Value *object = PyObject_New(Value, state->date);
    if (object) {
        object->date_parts = (DateParts){date, 0};
    }
    return (PyObject *)object;
}

static PyObject *new_moment(PyTypeObject *type, fots_moment moment)
{
    Value *object = PyObject_New(Value, type);
    if (object) {
        object->moment_parts = (MomentParts){moment, 0};
    }
    return (PyObject *)object;
}

NEW(time, const State *state, state->time)
NEW(offset, const State *state, state->offset)
NEW(duration, const State *state, state->duration)
NEW(period, const State *state, state->period)

static PyObject *new_sentence(const State *Py_UNUSED(state), fots_sentence sentence)
{
    return PyUnicode_FromStringAndSize(sentence.bytes, (Py_ssize_t)sentence.length);
}

/* Returns the sentence of a component with a value, in a year and a month. */
static fots_sentence core_component_text(int32_t status, int64_t value, int64_t year, int64_t month)
{
    int64_t values[sizeof(fots_components) / sizeof value];
    fots_components components;
    for (size_t index = 0; index < sizeof values / sizeof value; index++) {
        values[index] = value;
    }
    memcpy(&components, values, sizeof components);
    components.year = status == FOTS_YEAR_OUT_OF_RANGE ? value : year;
    components.month = status == FOTS_MONTH_OUT_OF_RANGE ? value : month;
    return fots_component_error_text(status, &components);
}

/* Returns the sentence of a component of a string, and of one by a format, with a pivot or -1. */
static fots_sentence core_parse_error_text(int32_t status, const char *text, size_t text_length)
{
    return fots_parse_error_text(status, SIZE_MAX, text, text_length);
}

static fots_sentence core_format_error_text(int32_t status, const char *text, size_t text_length,
    const fots_format *format, int32_t pivot)
{
    return fots_format_error_text(status, SIZE_MAX, text, text_length, format, pivot);
}

/* Returns the year, the Month and the day, quicker than Py_BuildValue. */
static PyObject *tuple_of(const State *state, fots_calendar_date_result date)
{
    PyObject *year = PyLong_FromLong(date.year), *day = PyLong_FromUnsignedLong(date.day);
    PyObject *month = state->months[date.month - 1];
    PyObject *tuple = year && day ? PyTuple_Pack(3, year, month, day) : NULL;
    Py_XDECREF(year);
    Py_XDECREF(day);
    return tuple;
}

/* A function that makes a value of a result, or raises its error. */
#define OF(name, type, value) \
    static PyObject *of_##name(const State *state, fots_##type##_result result) \
    { \
        return result.status ? raise_status(state, result.status) : value; \
    }
OF(date, date, new_date(state, result.date))
OF(time, time, new_time(state, result.time))
OF(adjusted_time, adjusted_time,
    Py_BuildValue("iN", (int)result.carry, new_time(state, result.time)))
OF(hms, hms_nano, Py_BuildValue("III", result.hour, result.minute, result.second))
#define HMS_AND(below) Py_BuildValue("IIII", result.hour, result.minute, result.second, below)
OF(hms_milli, hms_nano, HMS_AND(result.nanosecond / 1000000))
OF(hms_micro, hms_nano, HMS_AND(result.nanosecond / 1000))
OF(hms_nano, hms_nano, HMS_AND(result.nanosecond))
OF(offset, offset, new_offset(state, result.offset))
OF(offset_hms, offset_hms,
    Py_BuildValue("iii", (int)result.hours, (int)result.minutes, (int)result.seconds))
OF(duration, duration, new_duration(state, result.duration))
OF(pair, pair, Py_BuildValue("NN", new_date(state, result.date), new_time(state, result.time)))
OF(number, number, PyLong_FromLong(result.number))
OF(int64, int64, PyLong_FromLongLong(result.number))
OF(component, component, PyLong_FromUnsignedLong(result.number))
OF(bool, component, PyBool_FromLong((long)result.number))
OF(month, component, new_reference(state->months[result.number - 1]))
OF(weekday, component, new_reference(state->weekdays[result.number - 1]))
OF(text, text, PyUnicode_FromStringAndSize(result.bytes, (Py_ssize_t)result.length))
OF(calendar_date, calendar_date, tuple_of(state, result))
OF(ordinal_date, ordinal_date, Py_BuildValue("iI", (int)result.year, (unsigned)result.ordinal))
OF(iso_week_date, iso_week_date, Py_BuildValue("iIO", (int)result.year, (unsigned)result.week,
    state->weekdays[result.weekday - 1]))
OF(period, period, new_period(state, (fots_period){result.years, result.months, result.weeks,
    result.days, {0, 0, 0}}))
OF(date_range, date_range, Py_BuildValue("NN", new_date(state, result.range.start),
    new_date(state, result.range.end)))
OF(share, share, Py_BuildValue("II", (unsigned)result.common, (unsigned)result.days))
OF(exact_period, exact_period, new_period(state, result.period))
OF(period_text, period_text, PyUnicode_FromStringAndSize(result.bytes, (Py_ssize_t)result.length))
OF(year_fraction, year_fraction, PyObject_CallFunction(state->year_fraction, "LI",
    (long long)result.numerator, (unsigned)result.denominator))

static PyObject *of_moment(const State *state, PyTypeObject *type, fots_moment_result result)
{
    return result.status ? raise_status(state, result.status) : new_moment(type, result.moment);
}

/* A list, and its length in bytes. */
#define LIST(list) found->list, (Py_ssize_t)(found->list##_length * sizeof found->list[0])

/* Returns the numbers of a recurrence: frequency, interval, week_start, until, count, and bytes
 * for its lists. */
static PyObject *parts_of_recurrence(const State *state, const fots_recurrence *found)
{
    PyObject *until = found->until.julian_day == FOTS_NO_VALUE ? new_reference(Py_None) :
        new_date(state, found->until);
    return Py_BuildValue("IIONIy#y#y#y#y#y#", (unsigned)found->frequency,
        (unsigned)found->interval, state->weekdays[found->week_start - 1], until,
        (unsigned)found->count, LIST(months), LIST(weeks), LIST(year_days), LIST(month_days),
        LIST(weekdays), LIST(set_positions));
}

static PyObject *tuple_of_cursor(fots_recurrence_cursor cursor)
{
    return Py_BuildValue("iIK", cursor.date.julian_day, (unsigned)cursor.left,
        (unsigned long long)cursor.time);
}

/* A function that makes a value of what was parsed, or raises its error. */
#define OF_PARSED(name, type, part, value) \
    static PyObject *of_##name(const State *state, fots_##type##_result result) \
    { \
        return !result.status ? value : \
            raise_position(state, result.status, result.position, part); \
    }
OF_PARSED(parse_date, parse_date, 0, new_date(state, result.date))
OF_PARSED(parse_time, parse_time, 0, new_time(state, result.time))
OF_PARSED(parse_offset, parse_offset, 0, new_offset(state, result.offset))
OF_PARSED(parse_duration, parse_duration, 0, new_duration(state, result.duration))
OF_PARSED(parse_period, parse_period, 0, new_period(state, result.period))
OF_PARSED(parse_moment, parse_moment, 0, Py_BuildValue("NNN", new_date(state, result.date),
    new_time(state, result.time), new_offset(state, result.offset)))
OF_PARSED(parse_pair, parse_moment, 0,
    Py_BuildValue("NN", new_date(state, result.date), new_time(state, result.time)))
OF_PARSED(parse_date_range, parse_date_range, 0, Py_BuildValue("NN",
    new_date(state, result.range.start), new_date(state, result.range.end)))
#define NEW_PLAIN(which) new_moment(state->plain, \
    (fots_moment){result.which##_date, {0}, result.which##_time})
OF_PARSED(parse_pair_range, parse_pair_range, 0, Py_BuildValue("NN", NEW_PLAIN(start),
    NEW_PLAIN(end)))
OF_PARSED(parse_repeated_dates, parse_repeated_dates, 0, Py_BuildValue("NNI",
    new_date(state, result.start), new_period(state, result.period), (unsigned)result.count))
OF_PARSED(parse_repeated_pairs, parse_repeated_pairs, 0, Py_BuildValue("NNI",
    NEW_PLAIN(start), new_period(state, result.period), (unsigned)result.count))
OF_PARSED(parse_recurrence, parse_recurrence, result.part,
    parts_of_recurrence(state, &result.recurrence))
OF_PARSED(recurrence_cursor, recurrence_cursor, result.part, tuple_of_cursor(result.cursor))
OF_PARSED(recurrence_text, recurrence_text, result.part,
    PyUnicode_FromStringAndSize(result.bytes, (Py_ssize_t)result.length))

static PyObject *of_parsed_moment(const State *state, PyTypeObject *type,
    fots_parse_moment_result result)
{
    const fots_moment moment = {result.date, result.offset, result.time};
    return !result.status ? new_moment(type, moment) :
        raise_position(state, result.status, result.position, 0);
}

#define LIST_OF(field, parameter, type) \
    static PyObject *list_of_##field(parameter, const fots_##field *values, size_t length) \
    { \
        PyObject *list = PyList_New((Py_ssize_t)length); \
        for (size_t index = 0; list && index < length; index++) { \
            PyObject *value = new_##field(type, values[index]); \
            if (!value || PyList_SetItem(list, (Py_ssize_t)index, value)) { \
                Py_CLEAR(list); \
            } \
        } \
        return list; \
    }
LIST_OF(date, const State *state, state)
LIST_OF(moment, PyTypeObject *type, type)
