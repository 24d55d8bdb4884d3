/* Members of PlainDateTime and OffsetDateTime that aren't one call of C. */

static const fots_offset utc = {0};

static fots_date moment_date(fots_moment moment) { return moment.date; }
static fots_time moment_time(fots_moment moment) { return moment.time; }
static fots_offset moment_offset(fots_moment moment) { return moment.offset; }
static fots_moment plain_assume_utc(fots_moment moment) { return moment; }
static fots_moment_result plain_add_period(fots_moment moment, fots_period period)
{
    fots_pair_result moved = fots_pair_add_period(moment.date, moment.time, period);
    return (fots_moment_result){moved.status, 0, {moved.date, utc, moved.time}};
}

static fots_moment_result plain_round(fots_moment moment, fots_duration unit, uint32_t mode)
{
    fots_pair_result rounded = fots_pair_round(moment.date, moment.time, unit, mode);
    return (fots_moment_result){rounded.status, 0, {rounded.date, utc, rounded.time}};
}

static fots_moment_result plain_nth_period(fots_moment moment, fots_period period, int32_t n)
{
    fots_pair_result moved = fots_pair_nth_period(moment.date, moment.time, period, n);
    return (fots_moment_result){moved.status, 0, {moved.date, utc, moved.time}};
}

static fots_number_result plain_step_of(fots_moment start, fots_period period, fots_moment plain)
{
    return fots_pair_step_of(start.date, start.time, period, plain.date, plain.time);
}

static fots_exact_period_result plain_period_until_by(fots_moment moment, fots_moment other,
    uint32_t unit)
{
    return fots_pair_period_until(moment.date, moment.time, other.date, other.time, unit);
}

static fots_exact_period_result plain_period_until(fots_moment moment, fots_moment other)
{
    return plain_period_until_by(moment, other, FOTS_YEAR);
}

static fots_moment moment_local(fots_moment own) { return (fots_moment){own.date, utc, own.time}; }
static fots_moment_result moment_to_utc(fots_moment own) { return fots_moment_to_offset(own, utc); }

/* Moves the date by months, and keeps the time of day and the offset. */
static fots_moment_result moment_checked_add_months(fots_moment moment, int32_t number)
{
    fots_date_result moved = fots_date_add_months(moment.date, number);
    return (fots_moment_result){moved.status, 0, {moved.date, moment.offset, moment.time}};
}

static fots_moment_result moment_checked_add_years(fots_moment moment, int32_t number)
{
    fots_date_result moved = fots_date_add_years(moment.date, number);
    return (fots_moment_result){moved.status, 0, {moved.date, moment.offset, moment.time}};
}

static fots_moment moment_replace_date(fots_moment m, fots_date date) { m.date = date; return m; }
static fots_moment moment_replace_time(fots_moment m, fots_time time) { m.time = time; return m; }

static const char *const component_names[] = {"year", "month", "day", "hour", "minute", "second",
    "nanosecond", "offset", NULL};
static const char *const plain_names[] = {"year", "month", "day", "hour", "minute", "second",
    "nanosecond", NULL};

/* Converts components to a date-time with the components of another one where none are given. The
 * last one is an offset, or NULL. An error has the call. */
static int to_components(const State *state, PyObject *self, long call,
    PyObject *const *given, fots_moment *moment)
{
    fots_calendar_date_result own = {0};
    fots_hms_nano_result time = {0};
    uint32_t *const numbers[] = {&own.month, &own.day, &time.hour, &time.minute, &time.second,
        &time.nanosecond};
    if (moment->date.julian_day != FOTS_NO_VALUE) {
        own = fots_date_to_calendar_date(moment->date);
        time = fots_time_as_hms_nano(moment->time);
    }
    if (given[0] && given[0] != Py_None && !to_int32(state, given[0], &own.year)) {
        return 0;
    }
    for (int index = 1; index < 7; index++) {
        if (given[index] && given[index] != Py_None &&
            !to_uint32(state, given[index], numbers[index - 1])) {
            return 0;
        }
    }
    if (given[7] && given[7] != Py_None && !to_offset(state, given[7], &moment->offset)) {
        return 0;
    }
    fots_date_result date = fots_date_from_calendar_date(own.year, own.month, own.day);
    fots_time_result clock = fots_time_from_hms_nano(time.hour, time.minute, time.second,
        time.nanosecond);
    moment->date = date.date;
    moment->time = clock.time;
    int32_t status = date.status ? date.status : clock.status;
    return !status || raise_explained(state, status, 0, self, call, given, 7);
}

/* Makes a date-time of a date, a time and, if it has one, an offset, or of components by position
 * and by name. */
static PyObject *moment_create(PyTypeObject *type, PyObject *arguments, PyObject *named)
{
    static const char *const value_names[] = {"date", "time", "offset", NULL};
    static const char *const pair_names[] = {"date", "time", NULL};
    const State *state = state_of_type(type);
    int is_plain = type == state->plain;
    const char *name = is_plain ? "PlainDateTime" : "OffsetDateTime";
    PyObject *given[8] = {0};
    fots_moment moment = {{FOTS_NO_VALUE}, {0}, 0};
    PyObject *first = PyTuple_Size(arguments) ? PyTuple_GetItem(arguments, 0) : NULL;
    int is_pair = (first && Py_TYPE(first) == state->date) ||
        (named && PyDict_GetItemString(named, "date"));
    if (is_pair) {
        return take_arguments(name, arguments, named, is_plain ? pair_names : value_names,
            3 - is_plain, 3 - is_plain, given) &&
            to_date(state, given[0], &moment.date) && to_time(state, given[1], &moment.time) &&
            (is_plain || to_offset(state, given[2], &moment.offset)) ?
            new_moment(type, moment) : NULL;
    }
    if (!take_arguments(name, arguments, named, is_plain ? plain_names : component_names, 6, 3,
            given)) {
        return NULL;
    }
    if (!is_plain && !given[7]) {
        return PyErr_Format(PyExc_TypeError, "%s() missing required argument 'offset'", name);
    }
    return to_components(state, (PyObject *)type, CALL_NEW_DATE_TIME, given, &moment) ?
        new_moment(type, moment) : NULL;
}

static PyObject *moment_replace(PyObject *self, PyObject *arguments, PyObject *named)
{
    const State *state = state_of(self);
    PyTypeObject *type = Py_TYPE(self);
    PyObject *given[8] = {0};
    fots_moment moment = MOMENT(self);
    return take_arguments("replace", arguments, named, type == state->plain ? plain_names :
        component_names, 0, 0, given) &&
        to_components(state, self, CALL_REPLACE_DATE_TIME, given, &moment) ?
        new_moment(type, moment) : NULL;
}
