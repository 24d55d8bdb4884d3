/* Columns of strings as C takes them, and columns of Apache Arrow by its C data interface, for the
 * files strings.py and arrow.py. */

struct ArrowSchema {
    const char *format, *name, *metadata;
    int64_t flags, n_children;
    struct ArrowSchema **children, *dictionary;
    void (*release)(struct ArrowSchema *);
    void *private_data;
};

struct ArrowArray {
    int64_t length, null_count, offset, n_buffers, n_children;
    const void **buffers;
    struct ArrowArray **children, *dictionary;
    void (*release)(struct ArrowArray *);
    void *private_data;
};

struct ArrowArrayStream {
    int (*get_schema)(struct ArrowArrayStream *, struct ArrowSchema *);
    int (*get_next)(struct ArrowArrayStream *, struct ArrowArray *);
    const char *(*get_last_error)(struct ArrowArrayStream *);
    void (*release)(struct ArrowArrayStream *);
    void *private_data;
};

static const char schema_name[] = "arrow_schema", array_name[] = "arrow_array";
static const char stream_name[] = "arrow_array_stream";

/* ---- strings, one after another */

/* The bytes of rows so far, and their bounds. */
typedef struct Joined {
    char *bytes;
    int32_t *bounds;
    size_t length, room;
} Joined;

static int too_many_bytes(void)
{
    PyErr_SetString(PyExc_OverflowError, "too many bytes; expected at most 2147483647 in one call");
    return 0;
}

/* Appends the bytes of a row. */
static int append_bytes(Joined *joined, size_t row, const char *start, size_t length)
{
    if (length > INT32_MAX - joined->length) {
        return too_many_bytes();
    }
    if (length > joined->room - joined->length) {
        size_t room = joined->room + joined->room / 2 + length + 4096;
        char *bytes = PyMem_Realloc(joined->bytes, room);
        if (!bytes) {
            PyErr_NoMemory();
            return 0;
        }
        joined->bytes = bytes;
        joined->room = room;
    }
    if (length) {
        memcpy(joined->bytes + joined->length, start, length);
    }
    joined->length += length;
    joined->bounds[row + 1] = (int32_t)joined->length;
    return 1;
}

static int start_rows(Joined *joined, size_t rows)
{
    *joined = (Joined){NULL, PyMem_Malloc((rows + 1) * sizeof *joined->bounds), 0, 0};
    if (!joined->bounds) {
        PyErr_NoMemory();
        return 0;
    }
    joined->bounds[0] = 0;
    return 1;
}

/* Returns bytes for the bytes and bytes for the bounds, and frees both, if all rows are there. */
static int end_rows(Joined *joined, size_t rows, int is_whole, PyObject **bytes, PyObject **bounds)
{
    *bytes = is_whole ?
        PyBytes_FromStringAndSize(joined->bytes, (Py_ssize_t)joined->length) : NULL;
    *bounds = is_whole ? PyBytes_FromStringAndSize((const char *)joined->bounds,
        (Py_ssize_t)((rows + 1) * sizeof *joined->bounds)) : NULL;
    PyMem_Free(joined->bytes);
    PyMem_Free(joined->bounds);
    return *bytes && *bounds;
}

/* Returns a new reference to a row of a list or of a buffer of objects. */
static PyObject *row_of(PyObject *rows, PyObject *const *objects, Py_ssize_t row)
{
    PyObject *found = objects ? objects[row] : PyList_GetItem(rows, row);
    /* An array of objects that were never set has null pointers, which are None. */
    return !objects && !found ? NULL : new_reference(found ? found : Py_None);
}

/* Appends a string, or no bytes for a missing one, whose row is then in the list. */
static int append_string(Joined *joined, size_t row, PyObject *string, PyObject *is_missing,
    PyObject *missing)
{
    Text text = {NULL, NULL, 0};
    if (PyUnicode_Check(string)) {
        int is_appended = to_text(NULL, string, &text) &&
            append_bytes(joined, row, text.start, text.length);
        Py_XDECREF(text.bytes);
        return is_appended;
    }
    PyObject *found = PyObject_CallFunctionObjArgs(is_missing, string, NULL);
    PyObject *number = found == Py_True ? PyLong_FromSize_t(row) : NULL;
    int is_appended = number && !PyList_Append(missing, number) &&
        append_bytes(joined, row, NULL, 0);
    if (found == Py_False) {
        PyErr_Format(PyExc_TypeError, "row %zu: expected a string, not %R", row, string);
    }
    Py_XDECREF(number);
    Py_XDECREF(found);
    return is_appended;
}

/* Takes a list of strings or an array of numpy with objects, and a function that tells missing
 * values from others. Returns the bytes of all rows, their bounds, and the missing rows. */
static PyObject *core_join_strings(PyObject *Py_UNUSED(self), PyObject *const *given,
    Py_ssize_t count)
{
    Py_buffer view = {0};
    int is_list = is_count("join_strings", count, 2) && PyList_Check(given[0]);
    if (count != 2 || (!is_list &&
        PyObject_GetBuffer(given[0], &view, PyBUF_C_CONTIGUOUS | PyBUF_FORMAT))) {
        return NULL;
    }
    PyObject *const *objects = is_list ? NULL : view.buf;
    size_t rows = is_list ? (size_t)PyList_Size(given[0]) : (size_t)view.len / sizeof *objects;
    PyObject *missing = PyList_New(0), *bytes, *bounds, *made = NULL;
    Joined joined;
    size_t row = 0;
    int is_whole = missing && (is_list || !strcmp(view.format, "O")) && start_rows(&joined, rows);
    if (is_whole) {
        for (; is_whole && row < rows; row++) {
            PyObject *string = row_of(given[0], objects, (Py_ssize_t)row);
            is_whole = string && append_string(&joined, row, string, given[1], missing);
            Py_XDECREF(string);
        }
        if (end_rows(&joined, rows, is_whole, &bytes, &bounds)) {
            made = PyTuple_Pack(3, bytes, bounds, missing);
        }
        Py_XDECREF(bytes);
        Py_XDECREF(bounds);
    } else if (!PyErr_Occurred()) {
        PyErr_SetString(PyExc_TypeError, "expected an array of objects");
    }
    Py_XDECREF(missing);
    if (!is_list) {
        PyBuffer_Release(&view);
    }
    return made;
}

/* ---- reading */

/* What another package releases can run code of Python, so an error is set aside. */
static void array_free(PyObject *capsule)
{
    PyObject *type, *value, *traceback;
    struct ArrowArray *array = PyCapsule_GetPointer(capsule, array_name);
    PyErr_Fetch(&type, &value, &traceback);
    if (array->release) {
        array->release(array);
    }
    free(array);
    PyErr_Restore(type, value, traceback);
}

/* Returns a byte for each row, 1 if it is missing, or None if no row is. */
static PyObject *missing_rows(const struct ArrowArray *array)
{
    const uint8_t *bits = array->n_buffers ? array->buffers[0] : NULL;
    if (!bits || !array->null_count) {
        return new_reference(Py_None);
    }
    PyObject *made = PyBytes_FromStringAndSize(NULL, (Py_ssize_t)array->length);
    char *bytes = made ? PyBytes_AsString(made) : NULL;
    for (int64_t row = 0; bytes && row < array->length; row++) {
        int64_t bit = array->offset + row;
        bytes[row] = !(bits[bit / 8] >> bit % 8 & 1);
    }
    return made;
}

static PyObject *view_of(const void *start, int64_t length)
{
    /* An empty buffer can be missing. */
    return length ? PyMemoryView_FromMemory((char *)(uintptr_t)start, (Py_ssize_t)length,
        PyBUF_READ) : PyBytes_FromStringAndSize(NULL, 0);
}

/* Makes the bytes and the bounds in 32 bits of strings with bounds in 64. */
static int read_large_strings(const struct ArrowArray *array, PyObject **bytes, PyObject **bounds)
{
    const int64_t *from = (const int64_t *)array->buffers[1] + array->offset;
    int64_t length = from[array->length] - from[0];
    if (length > INT32_MAX) {
        return too_many_bytes();
    }
    *bytes = view_of((const char *)array->buffers[2] + from[0], length);
    *bounds = PyBytes_FromStringAndSize(NULL, (Py_ssize_t)((array->length + 1) * 4));
    char *to = *bounds ? PyBytes_AsString(*bounds) : NULL;
    for (int64_t row = 0; to && row <= array->length; row++) {
        int32_t bound = (int32_t)(from[row] - from[0]);
        memcpy(to + 4 * row, &bound, 4);
    }
    return *bytes && *bounds;
}

/* Copies strings of which the first bytes, or a buffer and where they begin in it, are in 16 bytes. */
static int read_views(const struct ArrowArray *array, const uint8_t *missing, PyObject **bytes,
    PyObject **bounds)
{
    const char *views = (const char *)array->buffers[1] + 16 * array->offset;
    size_t rows = (size_t)array->length, row = 0;
    Joined joined;
    if (!start_rows(&joined, rows)) {
        return 0;
    }
    for (int is_appended = 1; is_appended && row < rows; row += (size_t)is_appended) {
        int32_t parts[4];
        memcpy(parts, views + 16 * row, 16);
        size_t length = missing && missing[row] ? 0 : (size_t)parts[0];
        const char *start = length > 12 ? (const char *)array->buffers[2 + parts[2]] + parts[3] :
            views + 16 * row + 4;
        is_appended = append_bytes(&joined, row, start, length);
    }
    return end_rows(&joined, rows, row == rows, bytes, bounds);
}

/* Makes the buffers of a column: the bytes and the bounds of strings, or numbers and NULL. */
static int read_buffers(const struct ArrowArray *array, const char *format, PyObject *missing,
    PyObject **first, PyObject **second)
{
    int is_view = format[0] == 'v', is_large = format[0] == 'U' || format[0] == 'Z';
    int is_string = is_view || is_large || format[0] == 'u' || format[0] == 'z';
    int64_t size = strcmp(format, "tdD") ? 8 : 4;
    if (!is_string) {
        *first = view_of((const char *)array->buffers[1] + size * array->offset,
            size * array->length);
        return *first != NULL;
    }
    if (!array->length) {
        *first = PyBytes_FromStringAndSize(NULL, 0);
        *second = PyBytes_FromStringAndSize("\0\0\0", 4);
        return *first && *second;
    }
    if (is_view) {
        return read_views(array, PyBytes_Check(missing) ?
            (const uint8_t *)PyBytes_AsString(missing) : NULL, first, second);
    }
    if (is_large) {
        return read_large_strings(array, first, second);
    }
    const int32_t *bounds = (const int32_t *)array->buffers[1] + array->offset;
    *first = view_of(array->buffers[2], bounds[array->length]);
    *second = view_of(bounds, 4 * (array->length + 1));
    return *first && *second;
}

/* Returns the buffers of a column, the missing rows, and what keeps the buffers. */
static PyObject *read_array(PyObject *capsule, const char *format)
{
    const struct ArrowArray *array = PyCapsule_GetPointer(capsule, array_name);
    PyObject *first = NULL, *second = NULL, *made = NULL;
    PyObject *missing = array ? missing_rows(array) : NULL;
    if (missing && read_buffers(array, format, missing, &first, &second)) {
        made = PyTuple_Pack(4, first, second ? second : Py_None, missing, capsule);
    }
    Py_XDECREF(first);
    Py_XDECREF(second);
    Py_XDECREF(missing);
    return made;
}

static const char *format_of(const struct ArrowSchema *schema)
{
    return schema->dictionary ? "dictionary" : schema->format;
}

/* The columns that arrow_read can return. */
static int is_read(const char *format)
{
    static const char *const names[] = {"u", "U", "vu", "z", "Z", "vz", "tdD", "tdm"};
    int index = 0;
    while (index < 8 && strcmp(format, names[index])) {
        index++;
    }
    return index < 8 || !strncmp(format, "ts", 2);
}

/* Appends the next array of a stream to a list. Returns 0 at the end and after an error. */
static int append_next(struct ArrowArrayStream *stream, const char *format, PyObject *list)
{
    struct ArrowArray *array = calloc(1, sizeof *array);
    if (!array) {
        PyErr_NoMemory();
        return 0;
    }
    int status = stream->get_next(stream, array);
    if (status || !array->release) {
        const char *said = status ? stream->get_last_error(stream) : NULL;
        if (status) {
            PyErr_Format(PyExc_OSError, "a stream of Arrow failed: %s", said ? said : "no reason");
        }
        free(array);
        return 0;
    }
    PyObject *capsule = PyCapsule_New(array, array_name, array_free);
    PyObject *made = capsule ? read_array(capsule, format) : NULL;
    int is_appended = made && !PyList_Append(list, made);
    Py_XDECREF(capsule);
    Py_XDECREF(made);
    return is_appended;
}

static PyObject *read_stream(PyObject *capsule)
{
    struct ArrowArrayStream *stream = PyCapsule_GetPointer(capsule, stream_name);
    struct ArrowSchema schema = {0};
    if (!stream) {
        return NULL;
    }
    if (stream->get_schema(stream, &schema)) {
        const char *said = stream->get_last_error(stream);
        return PyErr_Format(PyExc_OSError, "a stream of Arrow failed: %s", said ? said : "no reason");
    }
    PyObject *format = PyUnicode_FromString(format_of(&schema)), *list = PyList_New(0), *made = NULL;
    schema.release(&schema);
    const char *text = format && list ? PyUnicode_AsUTF8AndSize(format, NULL) : NULL;
    while (text && is_read(text) && append_next(stream, text, list)) {
    }
    if (text && !PyErr_Occurred()) {
        made = PyTuple_Pack(2, format, list);
    }
    Py_XDECREF(format);
    Py_XDECREF(list);
    return made;
}

/* Takes what `__arrow_c_stream__` or `__arrow_c_array__` returned. Returns the format of the column
 * and a list of its parts, which is empty for a format that isn't one of strings, dates or times. */
static PyObject *core_arrow_read(PyObject *Py_UNUSED(self), PyObject *given)
{
    PyObject *schema_capsule, *capsule;
    if (!PyTuple_Check(given)) {
        return read_stream(given);
    }
    if (!PyArg_ParseTuple(given, "OO", &schema_capsule, &capsule)) {
        return NULL;
    }
    const struct ArrowSchema *schema = PyCapsule_GetPointer(schema_capsule, schema_name);
    if (!schema || !is_read(format_of(schema))) {
        return schema ? Py_BuildValue("s[]", format_of(schema)) : NULL;
    }
    PyObject *made = read_array(capsule, schema->format);
    return made ? Py_BuildValue("s[N]", schema->format, made) : NULL;
}

/* ---- making */

static void schema_release(struct ArrowSchema *schema)
{
    free(schema->private_data);
    schema->release = NULL;
}

static void schema_free(PyObject *capsule)
{
    struct ArrowSchema *schema = PyCapsule_GetPointer(capsule, schema_name);
    if (schema->release) {
        schema->release(schema);
    }
    free(schema);
}

static void array_release(struct ArrowArray *array)
{
    free(array->private_data);
    array->release = NULL;
}

/* Takes a format. Returns a capsule with its schema, whose rows can be missing. */
static PyObject *core_arrow_schema(PyObject *Py_UNUSED(self), PyObject *format)
{
    Text text = {NULL, NULL, 0};
    if (!to_text(NULL, format, &text)) {
        return NULL;
    }
    struct ArrowSchema *schema = calloc(1, sizeof *schema);
    char *copy = schema ? calloc(1, text.length + 1) : NULL;
    PyObject *made = copy ? PyCapsule_New(schema, schema_name, schema_free) : PyErr_NoMemory();
    if (made) {
        memcpy(copy, text.start, text.length);
        *schema = (struct ArrowSchema){copy, "", NULL, 2, 0, NULL, NULL, schema_release, copy};
    } else {
        free(copy);
        free(schema);
    }
    Py_XDECREF(text.bytes);
    return made;
}

/* Takes the number of rows, that of the missing ones, and two or three bytes, of which the first ones
 * are empty if no row is missing. Returns a capsule with an array of copies of these. */
static PyObject *core_arrow_array(PyObject *Py_UNUSED(self), PyObject *given)
{
    long long rows, null_count;
    const char *bytes[3] = {NULL, NULL, NULL};
    Py_ssize_t lengths[3] = {0, 0, 0};
    if (!PyArg_ParseTuple(given, "LLy#y#|y#", &rows, &null_count, &bytes[0], &lengths[0], &bytes[1],
        &lengths[1], &bytes[2], &lengths[2])) {
        return NULL;
    }
    /* The pointers, and each buffer at a multiple of 64 bytes. */
    size_t places[3] = {64}, size = 64;
    for (int index = 0; index < 3; index++) {
        places[index] = size;
        size += ((size_t)lengths[index] + 63) / 64 * 64;
    }
    struct ArrowArray *array = calloc(1, sizeof *array);
    char *block = array ? aligned_alloc(64, size) : NULL;
    PyObject *made = block ? PyCapsule_New(array, array_name, array_free) : PyErr_NoMemory();
    if (!made) {
        free(block);
        free(array);
        return NULL;
    }
    const void **buffers = (const void **)(void *)block;
    for (int index = 0; index < 3; index++) {
        buffers[index] = index || null_count ?
            memcpy(block + places[index], bytes[index] ? bytes[index] : "", (size_t)lengths[index]) : NULL;
    }
    *array = (struct ArrowArray){rows, null_count, 0, bytes[2] ? 3 : 2, 0, buffers, NULL, NULL,
        array_release, block};
    return made;
}
