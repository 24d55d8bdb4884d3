/* Formats, for the file formats.py. A format is the bytes of its struct. The library checks each of
 * its numbers. */

/* Releases a text that was parsed, and returns the position of the character of a wrong byte. For
 * FOTS_CONTRADICTION there is a status in its place. */
static size_t release(Text *text, int32_t status, size_t position)
{
    if (status && status != FOTS_CONTRADICTION && position <= text->length) {
        PyObject *front = PyUnicode_DecodeUTF8(text->start, (Py_ssize_t)position, "ignore");
        position = front ? (size_t)PyUnicode_GetLength(front) : position;
        Py_XDECREF(front);
    }
    Py_XDECREF(text->bytes);
    return position;
}

/* Parses a format in the syntax of strftime, or in that of the Rust crate time. */
static int parse_format(const State *state, PyObject *object, int is_description,
    fots_format *format)
{
    Text text = {NULL, NULL, 0};
    if (!to_text(state, object, &text)) {
        return 0;
    }
    fots_format_result result = is_description ?
        fots_format_from_description(text.start, text.length) :
        fots_format_new(text.start, text.length);
    *format = result.format;
    /* A lone surrogate isn't UTF-8, and no item begins with one. */
    int32_t status = result.status == FOTS_UNEXPECTED_BYTE ? FOTS_UNKNOWN_ITEM : result.status;
    size_t position = release(&text, status, result.position);
    return !status || raise_made(PyObject_CallFunction(state->format_error, "inOi", (int)status,
        (Py_ssize_t)position, object, is_description));
}

/* Converts a Format, the bytes of one, or a text in the syntax of strftime. */
static int to_format(const State *state, PyObject *object, fots_format *format)
{
    PyObject *items = PyBytes_Check(object) ? new_reference(object) : PyUnicode_Check(object) ?
        NULL : PyObject_GetAttrString(object, "_items");
    int is_format = items && PyBytes_Check(items) && (size_t)PyBytes_Size(items) == sizeof *format;
    if (is_format) {
        memcpy(format, PyBytes_AsString(items), sizeof *format);
    }
    Py_XDECREF(items);
    PyErr_Clear();
    return is_format || parse_format(state, object, 0, format);
}

/* Takes a text, and whether it is in the syntax of the Rust crate time. Returns bytes. */
static PyObject *core_format_new(PyObject *self, PyObject *const *given, Py_ssize_t count)
{
    fots_format format;
    int is_made = is_count("format_new", count, 2) &&
        parse_format(state_of_module(self), given[0], given[1] == Py_True, &format);
    return is_made ? Py_BuildValue("y#", &format, (Py_ssize_t)sizeof format) : NULL;
}

/* ---- formats with names */

/* The number of names of a language. In Python they are bytes: each name, and a zero byte after it. */
#define NAME_COUNT (sizeof(fots_language_names) / sizeof(fots_name))

/* The format and the names of a NamedFormat, which point into its bytes. */
typedef struct Named {
    PyObject *bytes;
    fots_format format;
    fots_language_names names;
} Named;

/* Splits the bytes of a format and of names. Returns 0 for other bytes. */
static int split_named(const char *bytes, size_t length, Named *named)
{
    fots_name *names = named->names.months;
    size_t at = sizeof named->format, count = 0;
    if (length < at) {
        return 0;
    }
    memcpy(&named->format, bytes, at);
    for (; at < length && count < NAME_COUNT; count++) {
        const char *end = memchr(bytes + at, 0, length - at);
        if (!end) {
            return 0;
        }
        names[count] = (fots_name){bytes + at, (size_t)(end - bytes) - at};
        at += names[count].text_length + 1;
    }
    return at == length && count == NAME_COUNT;
}

/* Takes the bytes of a format and of names, or raises TypeError. */
static int to_named_bytes(PyObject *bytes, Named *named)
{
    named->bytes = bytes;
    if (bytes && PyBytes_Check(bytes) &&
        split_named(PyBytes_AsString(bytes), (size_t)PyBytes_Size(bytes), named)) {
        return 1;
    }
    PyErr_SetString(PyExc_TypeError, "expected the bytes of a format with names");
    return 0;
}

static int is_named(const State *state, PyObject *format)
{
    return (PyObject *)Py_TYPE(format) == state->named_format;
}

/* Takes a NamedFormat. The caller releases its bytes. */
static int to_named(PyObject *format, Named *named)
{
    PyObject *bytes = PyObject_GetAttrString(format, "_named");
    int is_taken = to_named_bytes(bytes, named);
    if (!is_taken) {
        Py_XDECREF(bytes);
    }
    return is_taken;
}

/* Takes the code of a language. Returns the bytes of its names. */
static PyObject *core_names_of_language(PyObject *self, PyObject *object)
{
    const State *state = state_of_module(self);
    Text code = {NULL, NULL, 0};
    fots_language_names names;
    if (!to_text(state, object, &code)) {
        return NULL;
    }
    int32_t status = fots_names_of_language(code.start, code.length, &names);
    Py_XDECREF(code.bytes);
    if (status) {
        return raise_status(state, status);
    }
    char bytes[NAME_COUNT * (FOTS_MAX_NAME_LENGTH + 1)];
    size_t length = 0;
    for (size_t index = 0; index < NAME_COUNT; index++) {
        const fots_name *name = (const fots_name *)&names + index;
        memcpy(bytes + length, name->text, name->text_length);
        length += name->text_length;
        bytes[length++] = 0;
    }
    return PyBytes_FromStringAndSize(bytes, (Py_ssize_t)length);
}

/* Takes the bytes of a format and of names. Returns the fields of fots_names_check_result. */
static PyObject *core_names_check(PyObject *Py_UNUSED(self), PyObject *object)
{
    Named named;
    if (!to_named_bytes(object, &named)) {
        return NULL;
    }
    fots_names_check_result found = fots_names_check(&named.format, &named.names);
    return Py_BuildValue("(iInnn)", (int)found.status, (unsigned)found.byte,
        (Py_ssize_t)found.item, (Py_ssize_t)found.name, (Py_ssize_t)found.other);
}

/* ---- the methods strftime and strptime, by the name of the value in C */

/* Formats a value, whose arguments in C are given, as by fots_date_format. */
#define STRFTIME(name, part, ...) \
    static PyObject *named_##name(const State *state, PyObject *self, PyObject *object) \
    { \
        Named named; \
        char bytes[FOTS_MAX_ITEMS * FOTS_MAX_NAME_LENGTH]; \
        if (!to_named(object, &named)) { \
            return NULL; \
        } \
        fots_length_result result = fots_##part##_format_names( \
            __VA_ARGS__, &named.format, &named.names, bytes, sizeof bytes); \
        Py_DECREF(named.bytes); \
        return result.status ? raise_status(state, result.status) : \
            PyUnicode_FromStringAndSize(bytes, (Py_ssize_t)result.length); \
    } \
    static PyObject *name(PyObject *self, PyObject *object) \
    { \
        const State *state = state_of(self); \
        fots_format format; \
        char bytes[FOTS_MAX_ITEMS * FOTS_MAX_ITEM_LENGTH]; \
        if (is_named(state, object)) { \
            return named_##name(state, self, object); \
        } \
        if (!to_format(state, object, &format)) { \
            return NULL; \
        } \
        fots_length_result result = \
            fots_##part##_format(__VA_ARGS__, &format, bytes, sizeof bytes); \
        return result.status ? raise_status(state, result.status) : \
            PyUnicode_FromStringAndSize(bytes, (Py_ssize_t)result.length); \
    }
STRFTIME(date_strftime, date, DATE(self))
STRFTIME(time_strftime, time, TIME(self))
STRFTIME(plain_strftime, pair, MOMENT(self).date, MOMENT(self).time)
STRFTIME(moment_strftime, moment, MOMENT(self))

/* In place of a pivot: the format isn't lenient. */
#define NO_LENIENCY (-2)

/* Returns the pivot of a lenient format, FOTS_NO_PIVOT without one, or NO_LENIENCY. */
static int32_t pivot_of(PyObject *format)
{
    PyObject *pivot = PyUnicode_Check(format) ? NULL : PyObject_GetAttrString(format, "_pivot");
    int32_t found = pivot && pivot != Py_None ? (int32_t)PyLong_AsLong(pivot) : NO_LENIENCY;
    Py_XDECREF(pivot);
    PyErr_Clear();
    return found;
}

/* An offset alone has no variants and no names. */
static fots_parse_offset_result fots_offset_parse_leniently(
    const char *Py_UNUSED(text), size_t Py_UNUSED(length), const fots_format *Py_UNUSED(format),
    int32_t Py_UNUSED(pivot))
{
    return (fots_parse_offset_result){FOTS_INSUFFICIENT_FORMAT, {FOTS_NO_VALUE}, SIZE_MAX};
}

static fots_parse_offset_result fots_offset_parse_names(const char *text, size_t length,
    const fots_format *format, const fots_language_names *Py_UNUSED(names))
{
    return fots_offset_parse_leniently(text, length, format, FOTS_NO_PIVOT);
}

/* Raises the error of a string that has no value by a format. Returns NULL. */
static PyObject *raise_strptime(const State *state, int32_t status, size_t position,
    PyObject *self, PyObject *const *given)
{
    return status == FOTS_INSUFFICIENT_FORMAT ?
        raise_made(PyObject_CallFunctionObjArgs(state->insufficient_format, given[1], NULL)) :
        raise_explained(state, status, position, self, CALL_STRPTIME, given, 2);
}

#define STRPTIME(name, part, kind, value) \
    static PyObject *named_##name(const State *state, PyObject *self, PyObject *const *given) \
    { \
        Text text = {NULL, NULL, 0}; \
        Named named; \
        if (!to_text(state, given[0], &text)) { \
            return NULL; \
        } \
        if (!to_named(given[1], &named)) { \
            release(&text, 0, 0); \
            return NULL; \
        } \
        fots_parse_##kind##_result result = fots_##part##_parse_names( \
            text.start, text.length, &named.format, &named.names); \
        Py_DECREF(named.bytes); \
        size_t position = release(&text, result.status, result.position); \
        return result.status ? raise_strptime(state, result.status, position, self, given) : value; \
    } \
    static PyObject *name(PyObject *self, PyObject *const *given, Py_ssize_t count) \
    { \
        const State *state = state_of_type((PyTypeObject *)self); \
        Text text = {NULL, NULL, 0}; \
        fots_format format; \
        if (!is_count("strptime", count, 2)) { \
            return NULL; \
        } \
        if (is_named(state, given[1])) { \
            return named_##name(state, self, given); \
        } \
        if (!to_format(state, given[1], &format) || !to_text(state, given[0], &text)) { \
            return NULL; \
        } \
        int32_t pivot = pivot_of(given[1]); \
        fots_parse_##kind##_result result = pivot == NO_LENIENCY ? \
            fots_##part##_parse_format(text.start, text.length, &format) : \
            fots_##part##_parse_leniently(text.start, text.length, &format, pivot); \
        size_t position = release(&text, result.status, result.position); \
        return result.status ? raise_strptime(state, result.status, position, self, given) : value; \
    }
STRPTIME(date_strptime, date, date, new_date(state, result.date))
STRPTIME(time_strptime, time, time, new_time(state, result.time))
STRPTIME(offset_strptime, offset, offset, new_offset(state, result.offset))
STRPTIME(plain_strptime, pair, moment,
    new_moment(state->plain, (fots_moment){result.date, {0}, result.time}))
STRPTIME(moment_strptime, moment, moment,
    new_moment(state->moment, (fots_moment){result.date, result.offset, result.time}))

/* ---- columns */

/* Parses rows like fots_dates_parse_format, by variants if the format is lenient. */
static size_t core_dates_parse_format(const char *bytes, size_t bytes_length,
    const int32_t *bounds, size_t bounds_length, const fots_format *format, int32_t pivot,
    int32_t *dates, size_t dates_length, uint8_t *statuses, size_t length)
{
    size_t error_count = 0;
    if (pivot == NO_LENIENCY || dates_length != length || bounds_length != length + 1) {
        return fots_dates_parse_format(bytes, bytes_length, bounds, bounds_length, format, dates,
            dates_length, statuses, length);
    }
    for (size_t row = 0; row < length; row++) {
        int64_t start = bounds[row], end = bounds[row + 1];
        int is_inside = start >= 0 && start <= end && (uint64_t)end <= bytes_length;
        fots_parse_date_result result = {FOTS_INVALID_BOUNDS, {FOTS_NO_VALUE}, SIZE_MAX};
        if (is_inside) {
            result = fots_date_parse_leniently(bytes + start, (size_t)(end - start), format, pivot);
        }
        dates[row] = result.date.julian_day;
        statuses[row] = (uint8_t)result.status;
        error_count += result.status != FOTS_OK;
    }
    return error_count;
}
