/* Days after the days and times of arrays of numpy, which take no longer than an addition there. */

/* What the attribute __array_struct__ of numpy's arrays and numbers points to. */
typedef struct ArrayStruct {
    int two, dimensions;
    char kind;
    int item_size, flags;
    Py_ssize_t *shape, *strides;
    void *data;
    PyObject *fields;
} ArrayStruct;

/* One after another, aligned, and in this machine's order of bytes. */
#define IN_ONE_PIECE (0x1 | 0x100 | 0x200)
#define IS_WRITABLE 0x400

/* The columns of a call. The days to add lie in `days`, or are `same` in each row. The others are
 * days, or times in nanoseconds. */
typedef struct DaysLater {
    const int64_t *times, *days;
    int64_t same, *made;
    uint8_t *statuses;
    size_t rows;
    int are_times, are_made_times;
} DaysLater;

/* The rows that are read at a time. */
enum { PART = 512 };

#define NANOSECONDS_OF_DAY INT64_C(86400000000000)

/* Days less than this many from 1970-01-01 are dates. */
#define NEAR (UINT64_C(1) << 28)

/* Adds days to days: those of a column, or the same to each. Returns whether all of both are near
 * 1970-01-01. A day that wraps around isn't. */
#if defined(__GNUC__) && !defined(__clang__)
__attribute__((optimize("O3"))) /* with two rows at a time */
#endif
static int all_later(const uint64_t *restrict dates, const uint64_t *restrict days, uint64_t same,
    uint64_t *restrict made, size_t rows)
{
    uint64_t bits = 0;
    for (size_t row = 0; row < rows; row++) {
        uint64_t date = dates[row], later = date + (days ? days[row] : same);
        bits |= (date + NEAR) | (later + NEAR);
        made[row] = later;
    }
    return bits < 2 * NEAR;
}

/* Adds days to days of which some aren't dates, or don't stay so, by the call of the library.
 * Returns the number of rows without a result. */
static size_t some_later(const int64_t *dates, const int64_t *days, int64_t same, int64_t *made,
    uint8_t *statuses, size_t rows)
{
    int32_t read[PART], written[PART];
    int64_t moves[PART];
    read_days(read, (const uint8_t *)dates, rows);
    for (size_t row = 0; row < rows; row++) {
        moves[row] = days ? days[row] : same;
    }
    size_t error_count =
        fots_dates_add_days(read, rows, moves, rows, written, rows, statuses, rows);
    memcpy(made, written, rows * sizeof *written);
    write_days((uint8_t *)made, rows);
    return error_count;
}

/* Converts times to days. Returns whether all are whole days or NaT. */
static int to_days(const int64_t *restrict times, int64_t *restrict days, size_t rows)
{
    int64_t rest = 0;
    for (size_t row = 0; row < rows; row++) {
        int is_time = times[row] != INT64_MIN;
        days[row] = is_time ? times[row] / NANOSECONDS_OF_DAY : INT64_MIN;
        rest |= is_time ? times[row] % NANOSECONDS_OF_DAY : 0;
    }
    return !rest;
}

/* Converts days to times. Returns whether all fit. */
static int to_times(int64_t *days, size_t rows)
{
    int is_outside = 0;
    for (size_t row = 0; row < rows; row++) {
        is_outside |= days[row] != INT64_MIN &&
            __builtin_mul_overflow(days[row], NANOSECONDS_OF_DAY, &days[row]);
    }
    return !is_outside;
}

/* Adds the days. Returns the number of rows without a result, or -1 if a time isn't a whole day or
 * one that is made doesn't fit. */
static Py_ssize_t add_days(const DaysLater *all)
{
    int64_t whole[PART];
    size_t error_count = 0;
    for (size_t row = 0; row < all->rows; row += PART) {
        size_t rows = all->rows - row < PART ? all->rows - row : PART;
        const int64_t *dates = all->times + row, *days = all->days ? all->days + row : NULL;
        int64_t *made = all->made + row;
        if (all->are_times) {
            if (!to_days(dates, whole, rows)) {
                return -1;
            }
            dates = whole;
        }
        if (!all_later((const uint64_t *)dates, (const uint64_t *)days, (uint64_t)all->same,
            (uint64_t *)made, rows)) {
            error_count += some_later(dates, days, all->same, made, all->statuses + row, rows);
        }
        if (all->are_made_times && !to_times(made, rows)) {
            return -1;
        }
    }
    return (Py_ssize_t)error_count;
}

/* Gets an array of numbers with this many bytes in one piece, or one such number. Returns what
 * keeps it, or NULL. */
static PyObject *get_array(PyObject *object, int size, int flags, const ArrayStruct **array)
{
    PyObject *capsule = PyObject_GetAttrString(object, "__array_struct__");
    const ArrayStruct *found = capsule ? PyCapsule_GetPointer(capsule, NULL) : NULL;
    if (found && found->two == 2 && found->dimensions < 2 && found->item_size == size &&
        (found->flags & flags) == flags) {
        *array = found;
        return capsule;
    }
    Py_XDECREF(capsule);
    return NULL;
}

/* Gets the arrays of times, of what is made, of its statuses and of days, unless that is an int.
 * Returns whether they are such arrays, with as many rows. */
static int get_arrays(DaysLater *all, PyObject *const *given, PyObject **kept)
{
    static const int sizes[] = {8, 8, 1, 8};
    const ArrayStruct *arrays[4] = {NULL};
    int count = PyLong_Check(given[3]) ? 3 : 4, are_rows = 1;
    for (int index = 0; are_rows && index < count; index++) {
        int flags = IN_ONE_PIECE | (index == 1 || index == 2 ? IS_WRITABLE : 0);
        kept[index] = get_array(given[index], sizes[index], flags, &arrays[index]);
        are_rows = kept[index] && (arrays[index]->dimensions ?
            arrays[index]->shape[0] == arrays[0]->shape[0] : index == 3);
    }
    if (are_rows) {
        const void *days = count == 4 ? arrays[3]->data : NULL;
        all->times = arrays[0]->data;
        all->made = arrays[1]->data;
        all->statuses = arrays[2]->data;
        all->rows = (size_t)arrays[0]->shape[0];
        if (days && arrays[3]->dimensions) {
            all->days = days;
        } else if (days) {
            memcpy(&all->same, days, sizeof all->same);
        }
    }
    return are_rows;
}

/* Takes arrays of days or of times in nanoseconds, of those that are made, of their statuses, which
 * are 0, and of days to add or one number of them, and whether the first and the second have times.
 * Returns the number of rows without a result, or None for other arrays. */
static PyObject *core_days_later(
    PyObject *Py_UNUSED(self), PyObject *const *given, Py_ssize_t count)
{
    PyObject *kept[4] = {NULL};
    DaysLater all = {0};
    Py_ssize_t error_count = -1;
    if (!is_count("days_later", count, 6) || (PyLong_Check(given[3]) &&
        !to_number(given[3], 1, INT64_MIN, INT64_MAX, &all.same))) {
        return NULL;
    }
    all.are_times = given[4] == Py_True;
    all.are_made_times = given[5] == Py_True;
    if (get_arrays(&all, given, kept)) {
        PyThreadState *thread = PyEval_SaveThread();
        error_count = add_days(&all);
        PyEval_RestoreThread(thread);
    }
    for (int index = 0; index < 4; index++) {
        Py_XDECREF(kept[index]);
    }
    return PyErr_Occurred() ? NULL :
        error_count < 0 ? new_reference(Py_None) : PyLong_FromSsize_t(error_count);
}
