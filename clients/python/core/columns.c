/* Calls over whole columns. The file columns.py prepares them; this file checks that each has
 * the numbers that C expects. */

#if Py_LIMITED_API < 0x030B0000
/* These are in the limited API from 3.11 on. Python 3.10 has the same ones, with the same
 * struct. */
typedef struct {
    void *buf; PyObject *obj; Py_ssize_t len, itemsize; int readonly, ndim; char *format;
    Py_ssize_t *shape, *strides, *suboffsets; void *internal;
} Py_buffer;
int PyObject_GetBuffer(PyObject *object, Py_buffer *view, int flags);
void PyBuffer_Release(Py_buffer *view);
#define PyBUF_READ 0x100
#define PyBUF_WRITABLE 0x0001
#define PyBUF_FORMAT 0x0004
#define PyBUF_C_CONTIGUOUS (0x0020 | 0x0010 | 0x0008)
#endif

/* The columns that a call reads and then those that it writes, and its other arguments. C works on
 * `data`, which is a copy if the buffer has other numbers. */
typedef struct Columns {
    Py_buffer views[8];
    void *data[8], *copies[8];
    size_t lengths[8];
    int count;
    const fots_workdays_view *workdays;
    fots_format format;
    int32_t pivot;
    fots_zone zone;
    uint32_t policy;
    fots_duration unit;
    uint32_t mode;
} Columns;

/* A call. The columns that it reads and writes have the letters of the module array, and "W" if
 * they are weekdays: Monday is 0 in Python, and 1 in C. `extra` is the first letter of its other
 * argument, or 0. */
typedef struct ColumnCall {
    const char *name, *reads, *writes;
    char extra;
    size_t (*call)(const Columns *columns);
} ColumnCall;
extern const ColumnCall column_calls[];

static size_t size_of(char letter)
{
    return letter == 'q' || letter == 'Q' ? 8 : letter == 'i' ? 4 : letter == 'H' ? 2 : 1;
}

/* Numpy counts days from 1970-01-01, in 64 bits. What is far away is no date, and its days without
 * a date are the minimum. */
static void read_days(int32_t *dates, const uint8_t *bytes, size_t rows)
{
    for (size_t row = 0; row < rows; row++) {
        uint64_t day;
        memcpy(&day, bytes + row * sizeof day, sizeof day);
        int64_t julian_day = (int64_t)(day + UNIX_EPOCH);
        dates[row] = julian_day == (int32_t)julian_day ? (int32_t)julian_day : FOTS_NO_VALUE;
    }
}

/* The dates lie at the start of the bytes. From the last row on, each becomes 64 bits. */
static void write_days(uint8_t *bytes, size_t rows)
{
    while (rows--) {
        int32_t date;
        memcpy(&date, bytes + rows * sizeof date, sizeof date);
        int64_t day = date == FOTS_NO_VALUE ? INT64_MIN : (int64_t)date - UNIX_EPOCH;
        memcpy(bytes + rows * sizeof day, &day, sizeof day);
    }
}

/* Copies a column, with the numbers of C. */
static void *copy_of(const Py_buffer *view, char letter, size_t rows)
{
    size_t size = size_of(letter);
    uint8_t *copy = PyMem_Malloc(rows * size);
    if (!copy) {
        return PyErr_NoMemory();
    }
    if ((size_t)view->itemsize == size) {
        memcpy(copy, view->buf, rows * size);
    } else {
        read_days((int32_t *)(void *)copy, view->buf, rows);
    }
    for (size_t row = 0; letter == 'W' && row < rows; row++) {
        copy[row]++;
    }
    return copy;
}

/* Gets the buffer of the next column, with the numbers of a letter, or days in 64 bits. */
static int get_column(Columns *columns, PyObject *tuple, char letter, int is_read)
{
    int index = columns->count;
    PyObject *column = PyTuple_GetItem(tuple, index);
    Py_buffer *view = &columns->views[index];
    size_t size = size_of(letter);
    int flags = PyBUF_C_CONTIGUOUS | PyBUF_FORMAT | (is_read ? 0 : PyBUF_WRITABLE);
    if (!column || PyObject_GetBuffer(column, view, flags)) {
        return 0;
    }
    columns->count++;
    columns->data[index] = view->buf;
    size_t rows = columns->lengths[index] = (size_t)view->len / (size_t)view->itemsize;
    int is_days = letter == 'i' && view->itemsize == 8;
    if (view->ndim != 1 || !(is_days || (size_t)view->itemsize == size)) {
        PyErr_SetString(PyExc_TypeError, "a column has other numbers than the call takes");
        return 0;
    }
    /* An empty buffer can lie anywhere, and one of another library on odd bytes. */
    if (!rows || (uintptr_t)view->buf % size || (is_read && (is_days || letter == 'W'))) {
        columns->data[index] = columns->copies[index] = copy_of(view, letter, rows);
    }
    return columns->data[index] != NULL;
}

static int get_columns(Columns *columns, PyObject *tuple, const char *letters, int is_read)
{
    while (*letters && get_column(columns, tuple, *letters, is_read)) {
        letters++;
    }
    return !*letters;
}

/* Converts the columns that a call wrote to the numbers of Python. A row without a weekday gets
 * 255. */
static void put_columns(const Columns *columns, const ColumnCall *call)
{
    int index = (int)strlen(call->reads);
    for (const char *letter = call->writes; *letter; letter++, index++) {
        uint8_t *bytes = columns->data[index];
        size_t rows = columns->lengths[index];
        if (*letter == 'i' && columns->views[index].itemsize == 8) {
            write_days(bytes, rows);
        }
        for (size_t row = 0; *letter == 'W' && row < rows; row++) {
            bytes[row]--;
        }
    }
}

/* Converts a tuple of a unit and a mode of rounding. A unit that isn't one is an error of all rows, so
 * it raises here. */
static int to_unit_and_mode(const State *state, PyObject *tuple, fots_duration *unit, uint32_t *mode)
{
    PyObject *first, *second;
    if (!PyArg_ParseTuple(tuple, "OO", &first, &second) || !to_duration(state, first, unit) ||
        !to_member(state->rounding_mode, second, mode)) {
        return 0;
    }
    int32_t status = fots_time_round(0, *unit, *mode).status;
    if (status) {
        raise_status(state, status);
    }
    return !status;
}

/* Converts the other argument of a call. */
static int get_extra(Columns *columns, char extra, const State *state, PyObject *object)
{
    columns->workdays = WORKDAYS(object);
    columns->pivot = extra == 'f' ? pivot_of(object) : NO_LENIENCY;
    return extra == 'f' ? to_format(state, object, &columns->format) :
        extra == 'z' ? to_zone_and_policy(object, &columns->zone, &columns->policy) :
        extra == 'u' ? to_unit_and_mode(state, object, &columns->unit, &columns->mode) :
        extra != 'w' || PyObject_TypeCheck(object, state->workdays) ||
            is_kind(object, state->workdays);
}

/* Takes the name of a call, a tuple of columns, and working days, a format, a zone, a unit or None.
 * Returns the number of rows without a result. */
static PyObject *core_over_columns(PyObject *self, PyObject *const *given, Py_ssize_t count)
{
    const State *state = state_of_module(self);
    const ColumnCall *call = column_calls;
    size_t error_count = FOTS_LENGTH_MISMATCH;
    Columns columns = {.count = 0};
    if (!is_count("over_columns", count, 3)) {
        return NULL;
    }
    while (call->name && PyUnicode_CompareWithASCIIString(given[0], call->name)) {
        call++;
    }
    if (!call->name) {
        return PyErr_Format(PyExc_TypeError, "no call '%S'", given[0]);
    }
    if (get_extra(&columns, call->extra, state, given[2]) &&
        get_columns(&columns, given[1], call->reads, 1) &&
        get_columns(&columns, given[1], call->writes, 0)) {
        /* The call runs without the lock of the interpreter. */
        PyThreadState *thread = PyEval_SaveThread();
        error_count = call->call(&columns);
        if (error_count != FOTS_LENGTH_MISMATCH) {
            put_columns(&columns, call);
        }
        PyEval_RestoreThread(thread);
        if (error_count == FOTS_LENGTH_MISMATCH) {
            PyErr_SetString(PyExc_ValueError, "expected columns of the same length");
        }
    }
    while (columns.count) {
        PyBuffer_Release(&columns.views[--columns.count]);
        PyMem_Free(columns.copies[columns.count]);
    }
    return error_count == FOTS_LENGTH_MISMATCH ? NULL : PyLong_FromSize_t(error_count);
}
