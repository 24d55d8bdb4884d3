/* Values of the module datetime. They are read by their layouts and made by the functions of its
 * capsule, if Python has these as CPython 3.10 to 3.14 do, and else by attributes and calls. */

typedef struct Delta {
    PyObject_HEAD
    Py_hash_t hash;
    int days, seconds, microseconds;
} Delta;

/* The start of a date, which has 4 bytes, of a time of day, which has 6, and of a date-time, which
 * has both. */
typedef struct Other {
    PyObject_HEAD
    Py_hash_t hash;
    char has_tzinfo;
    unsigned char bytes[10];
} Other;

/* The start of the capsule datetime.datetime_CAPI. */
typedef struct OtherFunctions {
    PyTypeObject *date, *date_time, *time, *timedelta, *tzinfo;
    PyObject *utc;
    PyObject *(*new_date)(int, int, int, PyTypeObject *);
    PyObject *(*new_date_time)(int, int, int, int, int, int, int, PyObject *, PyTypeObject *);
    PyObject *(*new_time)(int, int, int, int, PyObject *, PyTypeObject *);
    PyObject *(*new_delta)(int, int, int, int, PyTypeObject *);
} OtherFunctions;

/* These are the same in each interpreter, or aren't used. */
static const OtherFunctions *other_functions;

static const OtherFunctions *functions_of(const State *state)
{
    const OtherFunctions *found = state->has_layouts == Py_True ? other_functions : NULL;
    return found && found->date == state->other_date && found->time == state->other_time &&
        found->date_time == state->other_date_time && found->timedelta == state->timedelta ?
        found : NULL;
}

static int has_size(PyObject *object, size_t size)
{
    PyObject *found = PyObject_GetAttrString((PyObject *)Py_TYPE(object), "__basicsize__");
    int is_size = found && PyLong_AsSize_t(found) == size;
    Py_XDECREF(found);
    return is_size;
}

/* Takes the date 2024-02-29, the time 1:02:03.000004, both as a date-time, and a timedelta of -1
 * days, 2 seconds and 3 microseconds. Returns whether they have the layouts above. */
static PyObject *core_has_layouts(PyObject *Py_UNUSED(self), PyObject *given)
{
    const unsigned char bytes[] = {2024 >> 8, 2024 & 255, 2, 29, 1, 2, 3, 0, 0, 4};
    const size_t word = sizeof(void *), start = offsetof(Other, bytes);
    const Other *date, *time, *date_time;
    const Delta *delta;
    if (!PyArg_ParseTuple(given, "OOOO", &date, &time, &date_time, &delta)) {
        return NULL;
    }
    int is_usual = has_size((PyObject *)date, (start + 4 + word - 1) / word * word) &&
        has_size((PyObject *)time, (start + 7 + word - 1) / word * word + word) &&
        has_size((PyObject *)date_time, (start + 11 + word - 1) / word * word + word) &&
        has_size((PyObject *)delta, sizeof *delta) && !memcmp(date->bytes, bytes, 4) &&
        !memcmp(time->bytes, bytes + 4, 6) && !memcmp(date_time->bytes, bytes, 10) &&
        !time->has_tzinfo && !date_time->has_tzinfo && delta->days == -1 && delta->seconds == 2 &&
        delta->microseconds == 3;
    other_functions = PyCapsule_Import("datetime.datetime_CAPI", 0);
    PyErr_Clear();
    return PyBool_FromLong(is_usual);
}

/* ---- reading */

typedef struct Numbers {
    int64_t year, month, day, hour, minute, second, nanosecond;
} Numbers;

/* Adds an attribute times a factor to a number. One that is optional may be missing. */
static int add_attribute(PyObject *object, const char *name, int is_optional, int64_t factor,
    int64_t *number)
{
    int64_t found;
    PyObject *attribute = PyObject_GetAttrString(object, name);
    if (!attribute && is_optional) {
        PyErr_Clear();
        return 1;
    }
    int is_read = attribute && to_number(attribute, 1, INT32_MIN, INT32_MAX, &found);
    Py_XDECREF(attribute);
    *number += is_read ? factor * found : 0;
    return is_read;
}

static int is_usual(const State *state, PyObject *object, const PyTypeObject *type)
{
    return Py_TYPE(object) == type && state->has_layouts == Py_True;
}

static int read_date(const State *state, PyObject *object, fots_date *date)
{
    Numbers numbers = {0};
    if (is_usual(state, object, state->other_date) ||
        is_usual(state, object, state->other_date_time)) {
        const unsigned char *bytes = ((const Other *)object)->bytes;
        numbers = (Numbers){bytes[0] << 8 | bytes[1], bytes[2], bytes[3], 0, 0, 0, 0};
    } else if (!add_attribute(object, "year", 0, 1, &numbers.year) ||
        !add_attribute(object, "month", 0, 1, &numbers.month) ||
        !add_attribute(object, "day", 0, 1, &numbers.day)) {
        return 0;
    }
    fots_date_result result = fots_date_from_calendar_date((int32_t)numbers.year,
        (uint32_t)numbers.month, (uint32_t)numbers.day);
    *date = result.date;
    return !result.status || raise_status(state, result.status);
}

/* Reads a time of day. Those of pandas have nanoseconds, too. */
static int read_time(const State *state, PyObject *object, fots_time *time)
{
    Numbers numbers = {0};
    int is_date_time = is_usual(state, object, state->other_date_time);
    if (is_date_time || is_usual(state, object, state->other_time)) {
        const unsigned char *bytes = ((const Other *)object)->bytes + 4 * is_date_time;
        numbers = (Numbers){0, 0, 0, bytes[0], bytes[1], bytes[2],
            1000 * (bytes[3] << 16 | bytes[4] << 8 | bytes[5])};
    } else if (!add_attribute(object, "hour", 0, 1, &numbers.hour) ||
        !add_attribute(object, "minute", 0, 1, &numbers.minute) ||
        !add_attribute(object, "second", 0, 1, &numbers.second) ||
        !add_attribute(object, "microsecond", 0, 1000, &numbers.nanosecond) ||
        !add_attribute(object, "nanosecond", 1, 1, &numbers.nanosecond)) {
        return 0;
    }
    fots_time_result result = fots_time_from_hms_nano((uint32_t)numbers.hour,
        (uint32_t)numbers.minute, (uint32_t)numbers.second, (uint32_t)numbers.nanosecond);
    *time = result.time;
    return !result.status || raise_status(state, result.status);
}

static int read_delta(const State *state, PyObject *object, fots_duration *duration)
{
    int64_t days = 0, seconds = 0, nanoseconds = 0;
    if (is_usual(state, object, state->timedelta)) {
        const Delta *delta = (const Delta *)object;
        int is_negative = delta->days < 0 && delta->microseconds;
        duration->seconds = (int64_t)delta->days * 86400 + delta->seconds + is_negative;
        duration->nanoseconds = 1000 * (delta->microseconds - 1000000 * is_negative);
        return 1;
    }
    if (!add_attribute(object, "days", 0, 1, &days) ||
        !add_attribute(object, "seconds", 0, 1, &seconds) ||
        !add_attribute(object, "microseconds", 0, 1000, &nanoseconds) ||
        !add_attribute(object, "nanoseconds", 1, 1, &nanoseconds)) {
        return 0;
    }
    fots_duration_result result = fots_duration_new(86400 * days + seconds, (int32_t)nanoseconds);
    *duration = result.duration;
    return !result.status || raise_status(state, result.status);
}

/* Returns whether a time or a date-time has no time zone. Raises ValueError otherwise. */
static int is_plain(const State *state, PyObject *object, const PyTypeObject *type)
{
    if (!is_usual(state, object, type) || ((const Other *)object)->has_tzinfo) {
        PyObject *tzinfo = PyObject_GetAttrString(object, "tzinfo");
        Py_XDECREF(tzinfo);
        if (tzinfo && tzinfo != Py_None) {
            PyErr_Format(PyExc_ValueError, "expected a datetime.%s without tzinfo",
                type == state->other_time ? "time" : "datetime");
        }
        return tzinfo == Py_None;
    }
    return 1;
}

/* Checks that an object has a type or one that extends it. */
static int is_a(PyObject *object, PyTypeObject *type)
{
    return PyObject_TypeCheck(object, type) || is_kind(object, type);
}

static int read_offset(const State *state, PyObject *delta, fots_offset *offset)
{
    fots_duration duration;
    if (!read_delta(state, delta, &duration)) {
        return 0;
    }
    if (duration.nanoseconds) {
        PyErr_Format(PyExc_ValueError, "expected an offset of whole seconds, not %S", delta);
        return 0;
    }
    fots_offset_result result = fots_offset_from_whole_seconds(duration.seconds);
    *offset = result.offset;
    return !result.status || raise_status(state, result.status);
}

static PyObject *date_from_date(PyObject *self, PyObject *object)
{
    const State *state = state_of_type((PyTypeObject *)self);
    fots_date date;
    if (PyObject_TypeCheck(object, state->other_date_time)) {
        return PyErr_Format(PyExc_TypeError, "expected date, not datetime; use its date()");
    }
    return is_a(object, state->other_date) && read_date(state, object, &date) ?
        new_date(state, date) : NULL;
}

static PyObject *time_from_time(PyObject *self, PyObject *object)
{
    const State *state = state_of_type((PyTypeObject *)self);
    fots_time time;
    return is_a(object, state->other_time) && is_plain(state, object, state->other_time) &&
        read_time(state, object, &time) ? new_time(state, time) : NULL;
}

static PyObject *plain_from_datetime(PyObject *self, PyObject *object)
{
    const State *state = state_of_type((PyTypeObject *)self);
    fots_moment found = {{0}, {0}, 0};
    return is_a(object, state->other_date_time) &&
        is_plain(state, object, state->other_date_time) &&
        read_date(state, object, &found.date) && read_time(state, object, &found.time) ?
        new_moment(state->plain, found) : NULL;
}

static PyObject *moment_from_datetime(PyObject *self, PyObject *object)
{
    const State *state = state_of_type((PyTypeObject *)self);
    fots_moment found = {{0}, {0}, 0};
    PyObject *delta = is_a(object, state->other_date_time) ?
        PyObject_CallMethod(object, "utcoffset", NULL) : NULL;
    if (delta == Py_None) {
        PyErr_SetString(PyExc_ValueError, "expected a datetime.datetime with a UTC offset");
    }
    int is_read = delta && delta != Py_None && read_offset(state, delta, &found.offset) &&
        read_date(state, object, &found.date) && read_time(state, object, &found.time);
    Py_XDECREF(delta);
    return is_read ? new_moment(state->moment, found) : NULL;
}

static PyObject *duration_from_timedelta(PyObject *self, PyObject *object)
{
    const State *state = state_of_type((PyTypeObject *)self);
    fots_duration duration;
    return is_a(object, state->timedelta) && read_delta(state, object, &duration) ?
        new_duration(state, duration) : NULL;
}

static PyObject *offset_from_timezone(PyObject *self, PyObject *object)
{
    const State *state = state_of_type((PyTypeObject *)self);
    fots_offset offset;
    PyObject *delta = is_a(object, (PyTypeObject *)state->timezone) ?
        PyObject_CallMethod(object, "utcoffset", "O", Py_None) : NULL;
    int is_read = delta && read_offset(state, delta, &offset);
    Py_XDECREF(delta);
    return is_read ? new_offset(state, offset) : NULL;
}

/* ---- making */

/* Converts nanoseconds to microseconds, or raises an error if they aren't whole. */
static int to_microseconds(int32_t nanoseconds, const char *name, int *microseconds)
{
    *microseconds = nanoseconds / 1000;
    if (nanoseconds % 1000) {
        PyErr_Format(PyExc_ValueError,
            "%s has no nanoseconds; truncate %d ns to microseconds first", name, (int)nanoseconds);
    }
    return nanoseconds % 1000 == 0;
}

static int has_year(int32_t year)
{
    if (year < 1 || year > 9999) {
        PyErr_Format(PyExc_OverflowError,
            "year %d is out of range of datetime.date; expected 1 to 9999", (int)year);
    }
    return year >= 1 && year <= 9999;
}

static PyObject *date_to_date(PyObject *self, PyObject *Py_UNUSED(none))
{
    const State *state = state_of(self);
    const OtherFunctions *functions = functions_of(state);
    fots_calendar_date_result date = fots_date_to_calendar_date(DATE(self));
    int year = date.year, month = (int)date.month, day = (int)date.day;
    return !has_year(date.year) ? NULL :
        functions ? functions->new_date(year, month, day, state->other_date) :
        PyObject_CallFunction((PyObject *)state->other_date, "iii", year, month, day);
}

static PyObject *time_to_time(PyObject *self, PyObject *Py_UNUSED(none))
{
    const State *state = state_of(self);
    const OtherFunctions *functions = functions_of(state);
    fots_hms_nano_result time = fots_time_as_hms_nano(TIME(self));
    int hour = (int)time.hour, minute = (int)time.minute, second = (int)time.second, below;
    return !to_microseconds((int32_t)time.nanosecond, "datetime.time", &below) ? NULL :
        functions ? functions->new_time(hour, minute, second, below, Py_None, state->other_time) :
        PyObject_CallFunction((PyObject *)state->other_time, "iiii", hour, minute, second, below);
}

/* Makes a timedelta of seconds and microseconds of one sign. */
static PyObject *new_delta(const State *state, int64_t seconds, int microseconds)
{
    const OtherFunctions *functions = functions_of(state);
    int64_t days = seconds / 86400;
    if (days > 1000000000 || days < -1000000000) {
        return PyErr_Format(PyExc_OverflowError, "%lld days are out of range of "
            "datetime.timedelta", (long long)days);
    }
    return functions ? functions->new_delta((int)days, (int)(seconds % 86400), microseconds, 1,
        state->timedelta) : PyObject_CallFunction((PyObject *)state->timedelta, "iii", (int)days,
        (int)(seconds % 86400), microseconds);
}

static PyObject *duration_to_timedelta(PyObject *self, PyObject *Py_UNUSED(none))
{
    int below;
    return to_microseconds(DURATION(self).nanoseconds, "datetime.timedelta", &below) ?
        new_delta(state_of(self), DURATION(self).seconds, below) : NULL;
}

static PyObject *new_timezone(const State *state, fots_offset offset)
{
    PyObject *delta = new_delta(state, offset.seconds, 0);
    PyObject *made = delta ? PyObject_CallFunctionObjArgs(state->timezone, delta, NULL) : NULL;
    Py_XDECREF(delta);
    return made;
}

static PyObject *offset_to_timezone(PyObject *self, PyObject *Py_UNUSED(none))
{
    return new_timezone(state_of(self), OFFSET(self));
}

static PyObject *moment_to_datetime(PyObject *self, PyObject *Py_UNUSED(none))
{
    const State *state = state_of(self);
    const OtherFunctions *functions = functions_of(state);
    fots_calendar_date_result date = fots_date_to_calendar_date(DATE(self));
    fots_hms_nano_result time = fots_time_as_hms_nano(MOMENT(self).time);
    int year = date.year, month = (int)date.month, day = (int)date.day, hour = (int)time.hour;
    int minute = (int)time.minute, second = (int)time.second, below;
    PyTypeObject *type = state->other_date_time;
    PyObject *timezone = !has_year(date.year) ||
        !to_microseconds((int32_t)time.nanosecond, "datetime.time", &below) ? NULL :
        Py_TYPE(self) == state->plain ? new_reference(Py_None) :
        new_timezone(state, MOMENT(self).offset);
    PyObject *made = !timezone ? NULL : functions ?
        functions->new_date_time(year, month, day, hour, minute, second, below, timezone, type) :
        PyObject_CallFunction((PyObject *)type, "iiiiiiiO", year, month, day, hour, minute, second,
            below, timezone);
    Py_XDECREF(timezone);
    return made;
}

/* ---- the current time */

/* Returns the Unix time. */
static fots_duration now(void)
{
    struct timespec time;
    timespec_get(&time, TIME_UTC);
    return (fots_duration){time.tv_sec, (int32_t)time.tv_nsec, 0};
}

static PyObject *moment_now(PyObject *self, PyObject *const *given, Py_ssize_t count)
{
    const State *state = state_of_type((PyTypeObject *)self);
    fots_offset offset = {0};
    if (count > 1) {
        return PyErr_Format(PyExc_TypeError, "now() takes at most 1 argument (%zd given)", count);
    }
    if (count && !to_offset(state, given[0], &offset)) {
        return NULL;
    }
    fots_moment_result result = fots_moment_from_unix_time(now());
    return of_moment(state, state->moment,
        result.status ? result : fots_moment_to_offset(result.moment, offset));
}

/* Returns the date and time of the system's local clock. A leap second isn't counted. */
static PyObject *core_local_now(PyObject *self, PyObject *Py_UNUSED(none))
{
    const State *state = state_of_module(self);
    fots_duration unix_time = now();
    time_t seconds = (time_t)unix_time.seconds;
    struct tm local;
    if (!localtime_r(&seconds, &local)) {
        return PyErr_SetFromErrno(PyExc_OSError);
    }
    fots_date_result date = fots_date_from_calendar_date(local.tm_year + 1900,
        (uint32_t)local.tm_mon + 1, (uint32_t)local.tm_mday);
    fots_time_result time = fots_time_from_hms_nano((uint32_t)local.tm_hour,
        (uint32_t)local.tm_min, local.tm_sec > 59 ? 59 : (uint32_t)local.tm_sec,
        (uint32_t)unix_time.nanoseconds);
    int32_t status = date.status ? date.status : time.status;
    return status ? raise_status(state, status) :
        new_moment(state->plain, (fots_moment){date.date, {0}, time.time});
}

static PyObject *core_now(PyObject *self, PyObject *Py_UNUSED(none))
{
    return new_duration(state_of_module(self), now());
}
