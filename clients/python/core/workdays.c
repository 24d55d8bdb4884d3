/* Members of Workdays, which a call of C checks once. */

static void workdays_free(PyObject *self)
{
    PyTypeObject *type = Py_TYPE(self);
    PyMem_Free(((WorkdaysObject *)self)->memory);
    ((freefunc)PyType_GetSlot(type, Py_tp_free))(self);
    Py_DECREF(type);
}

/* Returns the state of a type that this one, such as the one in schedules.py, extends. */
static const State *workdays_state_of_type(PyTypeObject *type)
{
    while (PyType_GetSlot(type, Py_tp_dealloc) != (void *)workdays_free) {
        type = PyType_GetSlot(type, Py_tp_base);
    }
    return state_of_type(type);
}

static const State *workdays_state(PyObject *self) { return workdays_state_of_type(Py_TYPE(self)); }

/* Takes a weekmask and the bytes of holidays in any order. */
static PyObject *workdays_create(PyTypeObject *type, PyObject *arguments,
    PyObject *Py_UNUSED(named))
{
    uint32_t weekmask;
    const char *bytes;
    Py_ssize_t size;
    PyObject *self = !PyArg_ParseTuple(arguments, "Iy#", &weekmask, &bytes, &size) ? NULL :
        ((allocfunc)PyType_GetSlot(type, Py_tp_alloc))(type, 0);
    if (!self) {
        return NULL;
    }
    size_t most = (size_t)size / sizeof(fots_date);
    uint32_t *counts = ((WorkdaysObject *)self)->memory = PyMem_Malloc(4 * (2 * most + 1));
    if (!counts) {
        Py_DECREF(self);
        return PyErr_NoMemory();
    }
    fots_date *holidays = (fots_date *)(counts + most + 1);
    memcpy(holidays, bytes, most * sizeof *holidays);
    size_t length = fots_dates_sort(holidays, most);
    fots_number_result made =
        fots_workdays_view_count(weekmask, holidays, length, counts, length + 1);
    if (made.status) {
        Py_DECREF(self);
        return raise_status(workdays_state_of_type(type), made.status);
    }
    *WORKDAYS(self) = (fots_workdays_view){weekmask, 0, holidays, length, counts, length + 1};
    return self;
}

static fots_date_result workdays_next_workday(const fots_workdays_view *workdays, fots_date date)
{
    return fots_workdays_view_add(workdays, date, 1);
}

static fots_date_result workdays_previous_workday(const fots_workdays_view *workdays,
    fots_date date)
{
    return fots_workdays_view_add(workdays, date, -1);
}

static uint32_t workdays__weekmask(const fots_workdays_view *workdays)
{
    return workdays->weekmask;
}

static PyObject *workdays__holidays(PyObject *self, void *Py_UNUSED(none))
{
    const fots_workdays_view *workdays = WORKDAYS(self);
    return list_of_date(workdays_state(self), workdays->holidays, workdays->holidays_length);
}
