/* Two more types: the units of durations, and the ISO week date of datetime. */

/* ---- units: attributes of durations, and functions of their type */

typedef struct Unit {
    PyObject_HEAD
    PyObject *make;
    int unit;
} Unit;

/* Makes what is both: it takes the function, and the place among the units of a duration. */
static PyObject *core_unit(PyObject *self, PyObject *const *given, Py_ssize_t count)
{
    int32_t unit;
    if (!is_count("unit", count, 2) || !to_int32(NULL, given[1], &unit)) {
        return NULL;
    }
    Unit *made = PyObject_New(Unit, state_of_module(self)->unit);
    if (made) {
        made->make = new_reference(given[0]);
        made->unit = unit;
    }
    return (PyObject *)made;
}

static void unit_free(PyObject *self)
{
    Py_DECREF(((Unit *)self)->make);
    value_free(self);
}

static PyObject *unit_get(PyObject *self, PyObject *duration, PyObject *Py_UNUSED(type))
{
    static const char *const names[] = {"weeks", "hours", "minutes", "milliseconds"};
    const Unit *unit = (const Unit *)self;
    if (!duration || duration == Py_None) {
        return new_reference(unit->make);
    }
    if (unit->unit >= PART_OF_DAYS) {
        return PyLong_FromLongLong(part_of(DURATION(duration), unit->unit));
    }
    return PyErr_Format(PyExc_AttributeError, "a SignedDuration has no %s; use whole_%s()",
        names[unit->unit], names[unit->unit]);
}

static PyType_Slot unit_slots[] = {{Py_tp_dealloc, (void *)unit_free},
    {Py_tp_descr_get, (void *)unit_get}, {0, NULL}};
static PyType_Spec unit_spec = {"fotsevindre._core._Unit", sizeof(Unit), 0, Py_TPFLAGS_DEFAULT,
    unit_slots};

/* ---- the ISO week date of datetime */

static PyStructSequence_Field iso_calendar_fields[] = {{"year", "The ISO year."},
    {"week", "The week, from 1 to 53."}, {"weekday", "The weekday, from 1 (Monday) to 7."},
    {NULL, NULL}};
static PyStructSequence_Desc iso_calendar_description = {"fotsevindre.IsoCalendarDate",
    "An ISO week date, whose weekday counts from 1.", iso_calendar_fields, 3};

static PyObject *iso_calendar_of(const State *state, fots_date date)
{
    fots_iso_week_date_result found = fots_date_to_iso_week_date(date);
    PyObject *made = PyStructSequence_New(state->iso_calendar_date);
    if (made) {
        PyStructSequence_SetItem(made, 0, PyLong_FromLong(found.year));
        PyStructSequence_SetItem(made, 1, PyLong_FromUnsignedLong(found.week));
        PyStructSequence_SetItem(made, 2, PyLong_FromUnsignedLong(found.weekday));
    }
    return made;
}

static PyObject *value_isocalendar(PyObject *self, PyObject *Py_UNUSED(none))
{
    return iso_calendar_of(state_of(self), DATE(self));
}
