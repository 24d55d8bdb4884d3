/* Members of the values that aren't one call of C. The code in members.h calls those with types of
 * C. */

static void value_free(PyObject *self)
{
    PyTypeObject *type = Py_TYPE(self);
    PyObject_Free(self);
    Py_DECREF(type);
}

/* The units that durations have as attributes, too, after those that they don't have. */
enum { PART_OF_DAYS = 4, PART_OF_SECONDS, PART_OF_MICROSECONDS, PART_OF_NANOSECONDS };

static int32_t date_to_julian_day(fots_date date) { return date.julian_day; }

/* Returns the day, 5 bits, the month, 4 bits, and the year from -1000000 on. A value keeps them. */
static uint32_t parts_of(PyObject *self, uint32_t *parts)
{
    if (!*parts) {
        fots_calendar_date_result date = fots_date_to_calendar_date(DATE(self));
        *parts = (uint32_t)(date.year + 1000000) << 9 | date.month << 5 | date.day;
    }
    return *parts;
}

/* A component of the date of a value, of which `parts` are the field. */
#define DATE_PART(name, field, made) \
    static PyObject *name(PyObject *self, void *Py_UNUSED(none)) \
    { \
        uint32_t parts = parts_of(self, &VALUE(self)->field.parts); \
        return made; \
    }
#define YEAR PyLong_FromLong((long)(parts >> 9) - 1000000)
#define MONTH new_reference(state_of(self)->months[(parts >> 5 & 15) - 1])
#define DAY PyLong_FromLong(parts & 31)
DATE_PART(date_year, date_parts, YEAR)
DATE_PART(date_month, date_parts, MONTH)
DATE_PART(date_day, date_parts, DAY)
DATE_PART(moment_year, moment_parts, YEAR)
DATE_PART(moment_month, moment_parts, MONTH)
DATE_PART(moment_day, moment_parts, DAY)

/* A component of a time of day, which is its nanoseconds since midnight. A call of the library takes
 * a tenth longer than datetime does. */
#define PART(name, time, unit, count) \
    static PyObject *name(PyObject *self, void *Py_UNUSED(none)) \
    { \
        return PyLong_FromLong((long)(time / UINT64_C(unit) % count)); \
    }
PART(time_hour, TIME(self), 3600000000000, 24)
PART(time_minute, TIME(self), 60000000000, 60)
PART(time_second, TIME(self), 1000000000, 60)
PART(time_microsecond, TIME(self), 1000, 1000000)
PART(moment_hour, MOMENT(self).time, 3600000000000, 24)
PART(moment_minute, MOMENT(self).time, 60000000000, 60)
PART(moment_second, MOMENT(self).time, 1000000000, 60)
PART(moment_microsecond, MOMENT(self).time, 1000, 1000000)

/* ---- offsets */

static int32_t offset_whole_seconds(fots_offset offset) { return offset.seconds; }
static uint32_t offset_is_utc(fots_offset offset) { return offset.seconds == 0; }
static uint32_t offset_is_positive(fots_offset offset) { return offset.seconds > 0; }
static uint32_t offset_is_negative(fots_offset offset) { return offset.seconds < 0; }

/* ---- durations */

/* Sums up the units. A sum of 128 bits holds every one. */
static fots_duration_result duration_create(int64_t weeks, int64_t days, int64_t hours,
    int64_t minutes, int64_t seconds, int64_t milliseconds, int64_t microseconds,
    int64_t nanoseconds)
{
    const __int128 second = 1000000000;
    __int128 sum = second * 604800 * weeks + second * 86400 * days + second * 3600 * hours +
        second * 60 * minutes + second * seconds + (__int128)1000000 * milliseconds +
        (__int128)1000 * microseconds + nanoseconds;
    fots_duration_result outside = {FOTS_RESULT_OUT_OF_RANGE, 0, {0, 0, 0}};
    __int128 whole = sum / second;
    return whole < INT64_MIN || whole > INT64_MAX ? outside :
        fots_duration_new((int64_t)whole, (int32_t)(sum % second));
}

static int sign_of(fots_duration duration)
{
    return fots_duration_compare(duration, (fots_duration){0, 0, 0}).number;
}

static uint32_t duration_is_zero(fots_duration duration) { return sign_of(duration) == 0; }
static uint32_t duration_is_negative(fots_duration duration) { return sign_of(duration) < 0; }
static uint32_t duration_is_positive(fots_duration duration) { return sign_of(duration) > 0; }
static int32_t duration_subsec_nanoseconds(fots_duration duration) { return duration.nanoseconds; }

/* Returns the parts of a `timedelta`, which are rounded down, so `(b - a).days == 1` is right: the
 * days, and the seconds, microseconds and nanoseconds from there on. */
static int64_t part_of(fots_duration duration, int unit)
{
    int64_t days = duration.seconds / 86400, nanoseconds = duration.nanoseconds;
    int64_t rest = duration.seconds % 86400 - (nanoseconds < 0);
    nanoseconds += nanoseconds < 0 ? 1000000000 : 0;
    return unit == PART_OF_DAYS ? days - (rest < 0) :
        unit == PART_OF_SECONDS ? rest + (rest < 0 ? 86400 : 0) :
        unit == PART_OF_MICROSECONDS ? nanoseconds / 1000 : nanoseconds % 1000;
}

/* Returns the nanoseconds as an int of any size. */
static PyObject *duration_whole_nanoseconds(PyObject *self, PyObject *Py_UNUSED(none))
{
    fots_int64_result result = fots_duration_whole_nanoseconds(DURATION(self));
    if (!result.status) {
        return PyLong_FromLongLong(result.number);
    }
    PyObject *seconds = PyLong_FromLongLong(DURATION(self).seconds);
    PyObject *factor = PyLong_FromLong(1000000000);
    PyObject *below = PyLong_FromLong(DURATION(self).nanoseconds);
    PyObject *product = seconds && factor && below ? PyNumber_Multiply(seconds, factor) : NULL;
    PyObject *sum = product ? PyNumber_Add(product, below) : NULL;
    Py_XDECREF(seconds);
    Py_XDECREF(factor);
    Py_XDECREF(below);
    Py_XDECREF(product);
    return sum;
}

/* Returns the nearest float to the seconds. Doubles have all ints up to 2^53. */
static PyObject *seconds_of(PyObject *value, fots_duration duration)
{
    if (!duration.nanoseconds && llabs(duration.seconds) < INT64_C(1) << 53) {
        return PyFloat_FromDouble((double)duration.seconds);
    }
    if (duration.nanoseconds % 1000 == 0 && llabs(duration.seconds) < 9000000000) {
        int64_t whole = 1000000 * duration.seconds + duration.nanoseconds / 1000;
        return PyFloat_FromDouble((double)whole / 1e6);
    }
    const State *state = state_of(value);
    PyObject *self = new_duration(state, duration), *second = PyLong_FromLong(1000000000);
    PyObject *number = self && second ? duration_whole_nanoseconds(self, NULL) : NULL;
    PyObject *made = number ? PyNumber_TrueDivide(number, second) : NULL;
    Py_XDECREF(self);
    Py_XDECREF(second);
    Py_XDECREF(number);
    return made;
}

static PyObject *duration_total_seconds(PyObject *self, PyObject *Py_UNUSED(none))
{
    return seconds_of(self, DURATION(self));
}

static PyObject *moment_timestamp(PyObject *self, PyObject *Py_UNUSED(none))
{
    return seconds_of(self, fots_moment_unix_time(MOMENT(self)).duration);
}

/* ---- periods */

/* Only an invalid period can't be added. */
static fots_exact_period_result period_create(int32_t years, int32_t months, int32_t weeks,
    int32_t days, fots_duration duration)
{
    fots_period period = {years, months, weeks, days, duration};
    fots_pair_result moved = fots_pair_add_period((fots_date){UNIX_EPOCH}, (fots_time){0}, period);
    int is_invalid = moved.status == FOTS_INVALID_PERIOD;
    return (fots_exact_period_result){is_invalid ? moved.status : FOTS_OK, 0, period};
}

/* The least int32_t has no opposite. */
static fots_exact_period_result period_negative(fots_period own)
{
    fots_duration_result duration = fots_duration_checked_neg(own.duration);
    int is_outside = own.years == INT32_MIN || own.months == INT32_MIN || own.weeks == INT32_MIN ||
        own.days == INT32_MIN || duration.status;
    if (is_outside) {
        return (fots_exact_period_result){FOTS_RESULT_OUT_OF_RANGE, 0, own};
    }
    return (fots_exact_period_result){FOTS_OK, 0,
        {-own.years, -own.months, -own.weeks, -own.days, duration.duration}};
}

static int32_t period_years(fots_period period) { return period.years; }
static int32_t period_months(fots_period period) { return period.months; }
static int32_t period_weeks(fots_period period) { return period.weeks; }
static int32_t period_days(fots_period period) { return period.days; }
static fots_duration period_duration(fots_period period) { return period.duration; }

/* ---- ranges of days */

static fots_component_result core_date_range_contains(fots_date start, fots_date end,
    fots_date date)
{
    return fots_date_range_contains((fots_date_range){start, end}, date);
}

static fots_component_result core_date_range_length(fots_date start, fots_date end)
{
    return fots_date_range_length((fots_date_range){start, end});
}

static fots_component_result core_date_range_overlaps(fots_date start, fots_date end,
    fots_date first, fots_date last)
{
    return fots_date_range_overlaps((fots_date_range){start, end}, (fots_date_range){first, last});
}

static fots_date_range_result core_date_range_intersection(fots_date start, fots_date end,
    fots_date first, fots_date last)
{
    return fots_date_range_intersection((fots_date_range){start, end},
        (fots_date_range){first, last});
}

static fots_share_result core_date_range_share(fots_date start, fots_date end,
    fots_date first, fots_date last)
{
    return fots_date_range_share((fots_date_range){start, end}, (fots_date_range){first, last});
}
