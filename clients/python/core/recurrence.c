/* Rules and recurrences, for the file schedules.py. */

/* The maximum length of a page: the days or times that a call returns at once. */
#define AT_MOST 4096

/* Fails for a longer page: an iteration would take a page that was cut for the last one. */
static int to_length(PyObject *number, size_t *length)
{
    *length = PyLong_AsSize_t(number);
    if (*length > AT_MOST && !PyErr_Occurred()) {
        PyErr_SetString(PyExc_ValueError, "page too long");
    }
    return !PyErr_Occurred();
}

#define LIST_OF_RULE(list) &rule->list, &rule->list##_length

/* Converts a tuple: start, until, frequency, interval, week_start, and for each list bytes as C has
 * them. */
static int to_rule(const State *state, PyObject *tuple, fots_rule *rule)
{
    PyObject *start, *until, *week_start;
    if (!PyArg_ParseTuple(tuple, "OOIIOy#y#y#y#y#y#y#y#", &start, &until, &rule->frequency,
            &rule->interval, &week_start, LIST_OF_RULE(months), LIST_OF_RULE(weeks),
            LIST_OF_RULE(year_days), LIST_OF_RULE(month_days), LIST_OF_RULE(weekdays),
            LIST_OF_RULE(set_positions), LIST_OF_RULE(dates), LIST_OF_RULE(exceptions))) {
        return 0;
    }
    /* The lengths are in bytes, and some values take more than one. */
    rule->year_days_length /= sizeof *rule->year_days;
    rule->weekdays_length /= sizeof *rule->weekdays;
    rule->set_positions_length /= sizeof *rule->set_positions;
    rule->dates_length /= sizeof *rule->dates;
    rule->exceptions_length /= sizeof *rule->exceptions;
    return to_date(state, start, &rule->start) && to_date(state, until, &rule->until) &&
        to_weekday(state, week_start, &rule->week_start);
}

static PyObject *core_rule_days_after(PyObject *self, PyObject *const *given, Py_ssize_t count)
{
    const State *state = state_of_module(self);
    fots_rule rule;
    fots_date date, days[AT_MOST];
    size_t length;
    if (!is_count("rule_days_after", count, 3) || !to_rule(state, given[0], &rule) ||
        !to_date(state, given[1], &date) || !to_length(given[2], &length)) {
        return NULL;
    }
    fots_days_result result = fots_rule_days_after(&rule, date, days, length);
    return result.status ? raise_status(state, result.status) :
        list_of_date(state, days, result.length);
}

/* Returns the holidays of a calendar, by its number, from one day through another. */
static PyObject *core_calendar_holidays(PyObject *self, PyObject *const *given, Py_ssize_t count)
{
    const State *state = state_of_module(self);
    fots_date first, last, holidays[FOTS_MAX_HOLIDAYS];
    if (!is_count("calendar_holidays", count, 3) || !to_date(state, given[1], &first) ||
        !to_date(state, given[2], &last)) {
        return NULL;
    }
    unsigned long calendar = PyLong_AsUnsignedLong(given[0]);
    if (PyErr_Occurred()) {
        return NULL;
    }
    fots_number_result result =
        fots_calendar_holidays((uint32_t)calendar, first, last, holidays, FOTS_MAX_HOLIDAYS);
    return result.status ? raise_status(state, result.status) :
        list_of_date(state, holidays, (size_t)result.number);
}

/* Returns the holidays of rules from one day through another. */
static PyObject *core_rules_holidays(PyObject *self, PyObject *const *given, Py_ssize_t count)
{
    const State *state = state_of_module(self);
    fots_date first, last, holidays[FOTS_MAX_HOLIDAYS];
    Text text = {NULL, NULL, 0};
    if (!is_count("rules_holidays", count, 3) || !to_date(state, given[1], &first) ||
        !to_date(state, given[2], &last) || !to_text(state, given[0], &text)) {
        return NULL;
    }
    fots_holidays_result result = fots_rules_holidays(text.start, text.length, first, last,
        holidays, FOTS_MAX_HOLIDAYS);
    size_t position = release(&text, result.status, result.position);
    return result.status ? raise_position(state, result.status, position, 0) :
        list_of_date(state, holidays, (size_t)result.number);
}

/* Converts a cursor, which is a tuple of its numbers. */
static int to_cursor(PyObject *tuple, fots_recurrence_cursor *cursor)
{
    unsigned long long time;
    if (!PyTuple_Check(tuple)) {
        PyErr_SetString(PyExc_TypeError, "expected a RecurrenceCursor");
        return 0;
    }
    if (!PyArg_ParseTuple(tuple, "iIK", &cursor->date.julian_day, &cursor->left, &time)) {
        return 0;
    }
    cursor->time = time;
    return 1;
}

/* Returns a page and its cursor, or NULL without the page. */
static PyObject *page_of(PyObject *values, const fots_recurrence_cursor *cursor)
{
    return values == NULL ? NULL : Py_BuildValue("NN", values, tuple_of_cursor(*cursor));
}

/* Returns the first days that a cursor leaves of a recurrence with a start from a day on, and the
 * cursor after them. */
static PyObject *core_recurrence_days(PyObject *self, PyObject *const *given, Py_ssize_t count)
{
    const State *state = state_of_module(self);
    Text text = {NULL, NULL, 0};
    fots_date start, from, days[AT_MOST];
    fots_recurrence_cursor cursor;
    size_t length;
    if (!is_count("recurrence_days", count, 5) || !to_date(state, given[1], &start) ||
        !to_date(state, given[2], &from) || !to_length(given[3], &length) ||
        !to_cursor(given[4], &cursor) || !to_text(state, given[0], &text)) {
        return NULL;
    }
    fots_recurrence_result result =
        fots_recurrence_next_days(text.start, text.length, start, from, &cursor, days, length);
    Py_XDECREF(text.bytes);
    return result.status ?
        raise_position(state, result.status, result.position, result.part) :
        page_of(list_of_date(state, days, result.length), &cursor);
}

/* Takes a set, which is a tuple of a text, a start, and two lists as bytes, a zone or None, and a
 * reading. Returns the readings from that one on, or with a zone the moments after a moment, and the
 * cursor after them. */
static PyObject *core_recurrence_times(PyObject *self, PyObject *const *given, Py_ssize_t count)
{
    const State *state = state_of_module(self);
    PyObject *start;
    fots_recurrence_set set;
    fots_zone zone;
    fots_moment first, times[AT_MOST];
    fots_recurrence_cursor cursor;
    size_t length;
    if (!is_count("recurrence_times", count, 5) || !to_length(given[3], &length) ||
        !to_cursor(given[4], &cursor) ||
        !PyArg_ParseTuple(given[0], "s#Oy#y#", &set.text, &set.text_length, &start, &set.dates,
            &set.dates_length, &set.exceptions, &set.exceptions_length)) {
        return NULL;
    }
    int is_plain = given[1] == Py_None;
    if (!to_plain(state, start, &set.start) || !(is_plain || to_zone(state, given[1], &zone)) ||
        !(is_plain ? to_plain : to_moment)(state, given[2], &first)) {
        return NULL;
    }
    set.dates_length /= sizeof *set.dates;
    set.exceptions_length /= sizeof *set.exceptions;
    fots_recurrence_result result = is_plain ?
        fots_recurrence_next_readings(&set, first, &cursor, times, length) :
        fots_recurrence_next_moments(&set, &zone, first, &cursor, times, length);
    return result.status ? raise_status(state, result.status) :
        page_of(list_of_moment(is_plain ? state->plain : state->moment, times, result.length),
            &cursor);
}
