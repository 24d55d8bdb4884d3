/* Pickles and copies of values. */

static PyObject *value_copy(PyObject *self, PyObject *Py_UNUSED(none)) { return new_reference(self); }
static PyObject *value_deepcopy(PyObject *self, PyObject *Py_UNUSED(memo))
{
    return new_reference(self);
}

/* Returns a function of the module, whose name pickles keep. */
static PyObject *maker(PyTypeObject *type, const char *name)
{
    return PyObject_GetAttrString(PyType_GetModule(type), name);
}

static PyObject *reduced_date(PyTypeObject *type, fots_date own)
{
    fots_calendar_date_result date = fots_date_to_calendar_date(own);
    return Py_BuildValue("O(iII)", type, (int)date.year, (unsigned)date.month, (unsigned)date.day);
}

static PyObject *reduced_time(PyTypeObject *type, fots_time own)
{
    fots_hms_nano_result time = fots_time_as_hms_nano(own);
    return time.nanosecond ?
        Py_BuildValue("N(K)", maker(type, "make_time"), (unsigned long long)own) :
        Py_BuildValue("O(III)", type, (unsigned)time.hour, (unsigned)time.minute,
            (unsigned)time.second);
}

static PyObject *reduced_plain(PyTypeObject *type, fots_moment own)
{
    fots_calendar_date_result date = fots_date_to_calendar_date(own.date);
    fots_hms_nano_result time = fots_time_as_hms_nano(own.time);
    return time.nanosecond ?
        Py_BuildValue("N(iK)", maker(type, "make_plain"), (int)own.date.julian_day,
            (unsigned long long)own.time) :
        Py_BuildValue("O(iIIIII)", type, (int)date.year, (unsigned)date.month, (unsigned)date.day,
            (unsigned)time.hour, (unsigned)time.minute, (unsigned)time.second);
}

/* Returns a function and what it takes to make the value: the type for what has components only by
 * position, and else a function of the module. */
static PyObject *value_reduce(PyObject *self, PyObject *Py_UNUSED(none))
{
    PyTypeObject *type = Py_TYPE(self);
    const State *state = state_of_type(type);
    if (type == state->offset) {
        fots_offset_hms_result own = fots_offset_as_hms(OFFSET(self));
        return Py_BuildValue("O(iii)", type, (int)own.hours, (int)own.minutes, (int)own.seconds);
    }
    if (type == state->duration) {
        return Py_BuildValue("N(Li)", maker(type, "make_duration"),
            (long long)DURATION(self).seconds, (int)DURATION(self).nanoseconds);
    }
    if (type == state->moment) {
        return Py_BuildValue("N(iKi)", maker(type, "make_moment"), (int)DATE(self).julian_day,
            (unsigned long long)MOMENT(self).time, (int)MOMENT(self).offset.seconds);
    }
    return type == state->date ? reduced_date(type, DATE(self)) :
        type == state->time ? reduced_time(type, TIME(self)) : reduced_plain(type, MOMENT(self));
}

/* Called by `pickle` and `copy`, which take longer to find the function above. */
static PyObject *value_reduce_ex(PyObject *self, PyObject *Py_UNUSED(protocol))
{
    return value_reduce(self, NULL);
}

static fots_time_result core_make_time(int64_t nanoseconds)
{
    fots_duration_result since = fots_duration_nanoseconds(nanoseconds);
    int is_time = nanoseconds >= 0 && (uint64_t)nanoseconds <= FOTS_MAX_TIME;
    return is_time ? fots_time_add(0, since.duration) :
        (fots_time_result){FOTS_HOUR_OUT_OF_RANGE, 0, 0};
}

static fots_moment_result core_make_moment(int32_t julian_day, int64_t nanoseconds, int32_t seconds)
{
    fots_time_result time = core_make_time(nanoseconds);
    fots_moment_result none = {time.status, 0, {{0}, {0}, 0}};
    return time.status ? none :
        fots_moment_new((fots_date){julian_day}, time.time, (fots_offset){seconds});
}

static fots_moment_result core_make_plain(int32_t julian_day, int64_t nanoseconds)
{
    return core_make_moment(julian_day, nanoseconds, 0);
}

static fots_duration_result core_make_duration(int64_t seconds, int32_t nanoseconds)
{
    return fots_duration_new(seconds, nanoseconds);
}
