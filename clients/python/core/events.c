/* Events of calendar files, for the file events.py. */

/* The lines of an event. The bytes live as long as the object. */
typedef struct Lines {
    const char *start;
    size_t length;
} Lines;

static int to_lines(PyObject *object, Lines *lines)
{
    char *bytes;
    Py_ssize_t length;
    if (PyBytes_AsStringAndSize(object, &bytes, &length)) {
        return 0;
    }
    *lines = (Lines){bytes, (size_t)length};
    return 1;
}

/* Appends the lines of each event of a text without folds to a list, as bytes. */
static int append_events(const State *state, const char *text, size_t length, PyObject *list)
{
    for (size_t start = 0;;) {
        fots_event_result event = fots_event_first(text + start, length - start);
        if (event.status == FOTS_RESULT_OUT_OF_RANGE) {
            return 1;
        }
        if (event.status) {
            raise_position(state, event.status, start + event.position, 0);
            return 0;
        }
        PyObject *lines = PyBytes_FromStringAndSize(text + start + event.position,
            (Py_ssize_t)event.length);
        int failed = !lines || PyList_Append(list, lines);
        Py_XDECREF(lines);
        if (failed) {
            return 0;
        }
        start += event.next;
    }
}

/* Returns the lines of each event of a calendar file. */
static PyObject *core_event_lines(PyObject *self, PyObject *file)
{
    Lines text;
    if (!to_lines(file, &text)) {
        return NULL;
    }
    char *unfolded = PyMem_Malloc(text.length + 1);
    PyObject *list = unfolded ? PyList_New(0) : PyErr_NoMemory();
    if (list) {
        size_t length = fots_unfold(text.start, text.length, unfolded, text.length).length;
        if (!append_events(state_of_module(self), unfolded, length, list)) {
            Py_CLEAR(list);
        }
    }
    PyMem_Free(unfolded);
    return list;
}

/* Returns a text with its lines folded. */
static PyObject *core_fold(PyObject *Py_UNUSED(self), PyObject *file)
{
    Lines text;
    if (!to_lines(file, &text)) {
        return NULL;
    }
    size_t room = text.length + text.length / 24;
    char *folded = PyMem_Malloc(room + 1);
    if (!folded) {
        return PyErr_NoMemory();
    }
    size_t length = fots_fold(text.start, text.length, folded, room).length;
    PyObject *bytes = PyBytes_FromStringAndSize(folded, (Py_ssize_t)length);
    PyMem_Free(folded);
    return bytes;
}

/* Returns a part of the lines of an event as bytes, or None without it: the value of the line with
 * a name, or without a name the zone. */
static PyObject *core_event_value(PyObject *self, PyObject *const *given, Py_ssize_t count)
{
    const State *state = state_of_module(self);
    Lines lines, name = {NULL, 0};
    if (!is_count("event_value", count, 2) || !to_lines(given[0], &lines) ||
        !(given[1] == Py_None || to_lines(given[1], &name))) {
        return NULL;
    }
    char *bytes = PyMem_Malloc(lines.length + 1);
    if (!bytes) {
        return PyErr_NoMemory();
    }
    fots_length_result found = name.start ?
        fots_event_value(lines.start, lines.length, name.start, name.length, bytes, lines.length) :
        fots_event_zone(lines.start, lines.length, bytes, lines.length);
    PyObject *value = found.status == FOTS_RESULT_OUT_OF_RANGE ? new_reference(Py_None) :
        found.status ? raise_status(state, found.status) :
        PyBytes_FromStringAndSize(bytes, (Py_ssize_t)found.length);
    PyMem_Free(bytes);
    return value;
}

/* Raises the error of the lines of an event, or of an argument. The number of a line comes after
 * the parts of a recurrence, and a position of SIZE_MAX becomes -1. */
static PyObject *raise_line(const State *state, int32_t status, size_t position, uint32_t line)
{
    return !line && position == SIZE_MAX ? raise_status(state, status) :
        raise_position(state, status, position, FOTS_RULE_BYSECOND + 1 + line);
}

/* Returns the start of an event: a Date, a PlainDateTime, or an OffsetDateTime in UTC. */
static PyObject *core_event_start(PyObject *self, PyObject *given)
{
    const State *state = state_of_module(self);
    Lines lines;
    if (!to_lines(given, &lines)) {
        return NULL;
    }
    fots_event_start_result found = fots_event_start(lines.start, lines.length);
    if (found.status) {
        return raise_line(state, found.status, found.position, found.line);
    }
    return found.kind == FOTS_EVENT_DATE ? new_date(state, found.start.date) :
        new_moment(found.kind == FOTS_EVENT_LOCAL ? state->plain : state->moment, found.start);
}

/* Returns the lines of the set of an event in one form, as bytes. */
static PyObject *core_event_recurrence_lines(PyObject *self, PyObject *given)
{
    const State *state = state_of_module(self);
    Lines lines;
    if (!to_lines(given, &lines)) {
        return NULL;
    }
    for (size_t room = lines.length + 512;; room *= 2) {
        char *bytes = PyMem_Malloc(room);
        if (!bytes) {
            return PyErr_NoMemory();
        }
        fots_event_set_result found = fots_event_recurrence_lines(lines.start, lines.length,
            bytes, room);
        PyObject *text = found.status ? NULL :
            PyBytes_FromStringAndSize(bytes, (Py_ssize_t)found.length);
        PyMem_Free(bytes);
        if (found.status != FOTS_BUFFER_TOO_SHORT) {
            return found.status ? raise_line(state, found.status, found.position, found.line) :
                text;
        }
    }
}

/* Returns the first days of an event from a day on. */
static PyObject *core_event_days(PyObject *self, PyObject *const *given, Py_ssize_t count)
{
    const State *state = state_of_module(self);
    Lines lines;
    fots_date from, days[AT_MOST];
    size_t length;
    if (!is_count("event_days", count, 3) || !to_lines(given[0], &lines) ||
        !to_date(state, given[1], &from) || !to_length(given[2], &length)) {
        return NULL;
    }
    fots_event_set_result found = fots_event_days(lines.start, lines.length, from, days, length);
    return found.status ? raise_line(state, found.status, found.position, found.line) :
        list_of_date(state, days, found.length);
}

/* Takes the lines of an event, a zone or None, and a reading. Returns the readings from that one on,
 * or with a zone the moments after a moment. */
static PyObject *core_event_times(PyObject *self, PyObject *const *given, Py_ssize_t count)
{
    const State *state = state_of_module(self);
    Lines lines;
    fots_zone zone;
    fots_moment first, times[AT_MOST];
    size_t length;
    if (!is_count("event_times", count, 4) || !to_lines(given[0], &lines) ||
        !to_length(given[3], &length)) {
        return NULL;
    }
    int is_plain = given[1] == Py_None;
    if (!(is_plain || to_zone(state, given[1], &zone)) ||
        !(is_plain ? to_plain : to_moment)(state, given[2], &first)) {
        return NULL;
    }
    fots_event_set_result found = is_plain ?
        fots_event_readings(lines.start, lines.length, first, times, length) :
        fots_event_moments(lines.start, lines.length, &zone, first, times, length);
    return found.status ? raise_line(state, found.status, found.position, found.line) :
        list_of_moment(is_plain ? state->plain : state->moment, times, found.length);
}
