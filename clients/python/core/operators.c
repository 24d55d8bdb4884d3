/* Operators of the values. */

/* ---- order and hashes */

/* Raises TypeError for a value of datetime, with which no value here is equal: its hash is another
 * one, so a set of both couldn't find either. Python asks other values themselves. */
static PyObject *not_compared(PyObject *self, PyObject *other)
{
    const State *state = state_of(self);
    if (!PyObject_TypeCheck(other, state->other_date) &&
        !PyObject_TypeCheck(other, state->other_time) &&
        !PyObject_TypeCheck(other, state->timedelta) && !PyObject_TypeCheck(other, state->tzinfo)) {
        return new_reference(Py_NotImplemented);
    }
    PyObject *own = PyObject_GetAttrString((PyObject *)Py_TYPE(self), "__name__");
    PyObject *name = PyObject_GetAttrString((PyObject *)Py_TYPE(other), "__name__");
    if (own && name) {
        PyErr_Format(PyExc_TypeError, "can't compare %U with %U; convert one of them first, such as "
            "with Date.from_date, OffsetDateTime.from_datetime or SignedDuration.from_timedelta",
            own, name);
    }
    Py_XDECREF(own);
    Py_XDECREF(name);
    return NULL;
}

/* The parts of a duration have one sign, so the seconds come first. */
static int order_of_durations(fots_duration one, fots_duration two)
{
    return one.seconds != two.seconds ? (one.seconds > two.seconds) - (one.seconds < two.seconds) :
        (one.nanoseconds > two.nanoseconds) - (one.nanoseconds < two.nanoseconds);
}

/* Returns the order of the instants, which at one offset is the order of the dates and times. */
static int order_of_moments(fots_moment one, fots_moment two)
{
    return one.offset.seconds != two.offset.seconds ? fots_moment_compare(one, two).number :
        one.date.julian_day != two.date.julian_day ?
        (one.date.julian_day > two.date.julian_day ? 1 : -1) :
        (one.time > two.time) - (one.time < two.time);
}

#define COMPARE(name, value, other_value) \
    static PyObject *name(PyObject *self, PyObject *other, int operation) \
    { \
        if (Py_TYPE(other) != Py_TYPE(self)) { \
            return not_compared(self, other); \
        } \
        Py_RETURN_RICHCOMPARE(value, other_value, operation); \
    }
COMPARE(date_compare, DATE(self).julian_day, DATE(other).julian_day)
COMPARE(time_compare, TIME(self), TIME(other))
COMPARE(offset_compare, OFFSET(self).seconds, OFFSET(other).seconds)
COMPARE(duration_compare, order_of_durations(DURATION(self), DURATION(other)), 0)
COMPARE(moment_compare, order_of_moments(MOMENT(self), MOMENT(other)), 0)

/* Periods have no order: a month isn't a number of days. */
static PyObject *period_compare(PyObject *self, PyObject *other, int operation)
{
    if (Py_TYPE(other) != Py_TYPE(self) || (operation != Py_EQ && operation != Py_NE)) {
        return not_compared(self, other);
    }
    fots_period one = PERIOD(self), two = PERIOD(other);
    int is_equal = one.years == two.years && one.months == two.months && one.weeks == two.weeks &&
        one.days == two.days && !fots_duration_compare(one.duration, two.duration).number;
    return PyBool_FromLong(is_equal == (operation == Py_EQ));
}

/* Mixes the bits of a number. Values of other types have other hashes. */
static Py_hash_t mixed(uint64_t number, uint64_t kind)
{
    Py_hash_t hash;
    number = (number ^ kind << 56) * UINT64_C(0x9e3779b97f4a7c15);
    hash = (Py_hash_t)(number ^ number >> 32);
    return hash == -1 ? -2 : hash;
}

static uint64_t number_of(fots_duration duration)
{
    return (uint64_t)duration.seconds * 1000000007 + (uint64_t)duration.nanoseconds;
}

static uint64_t number_of_period(fots_period period)
{
    uint64_t months = (uint64_t)period.years << 32 ^ (uint32_t)period.months;
    uint64_t days = (uint64_t)period.weeks << 32 ^ (uint32_t)period.days;
    return (months * 1000003 + days) * 1000003 + number_of(period.duration);
}

/* The same number for the same instant. It wraps around. */
static uint64_t number_of_moment(fots_moment moment)
{
    return (uint64_t)moment.date.julian_day * UINT64_C(86400000000000) + moment.time -
        (uint64_t)moment.offset.seconds * 1000000000;
}

#define HASH(name, number, kind) \
    static Py_hash_t name(PyObject *self) { return mixed(number, kind); }
HASH(date_hash, (uint64_t)DATE(self).julian_day, 0)
HASH(time_hash, TIME(self), 1)
HASH(offset_hash, (uint64_t)OFFSET(self).seconds, 2)
HASH(duration_hash, number_of(DURATION(self)), 3)
HASH(period_hash, number_of_period(PERIOD(self)), 6)
HASH(plain_hash, number_of_moment(MOMENT(self)), 4)
HASH(moment_hash, number_of_moment(MOMENT(self)), 5)

/* ---- addition and subtraction */

/* Returns the state if the object is a value, else NULL: Python also calls an operator of the
 * second operand. */
static const State *state_of_value(PyObject *object)
{
    PyTypeObject *type = Py_TYPE(object);
    return PyType_GetSlot(type, Py_tp_dealloc) == (void *)value_free ? state_of_type(type) : NULL;
}

/* Converts a SignedDuration or a timedelta. Returns 0 for another object, and after an error. */
static int to_move(const State *state, PyObject *object, fots_duration *by)
{
    if (Py_TYPE(object) == state->duration) {
        *by = DURATION(object);
        return 1;
    }
    return PyObject_TypeCheck(object, state->timedelta) && read_delta(state, object, by);
}

/* The sum or the difference of a value and a duration, by the start of the names of the calls. */
#define MOVED(call, value) (back ? fots_##call##_sub(value, by) : fots_##call##_add(value, by))

/* Moves a date, or a date-time without an offset, by a period, forward or back. */
static PyObject *moved_by_period(const State *state, PyObject *self, fots_period period, int back)
{
    PyTypeObject *type = Py_TYPE(self);
    if (back) {
        fots_exact_period_result opposite = period_negative(period);
        if (opposite.status) {
            return raise_status(state, opposite.status);
        }
        period = opposite.period;
    }
    return type == state->date ? of_date(state, fots_date_add_period(DATE(self), period)) :
        type == state->plain ? of_moment(state, type, plain_add_period(MOMENT(self), period)) :
        new_reference(Py_NotImplemented);
}

/* Moves a value by a duration, or a date or date-time by a timedelta. */
static PyObject *moved(const State *state, PyObject *self, PyObject *other, int back)
{
    PyTypeObject *type = Py_TYPE(self);
    int is_date_time = type == state->plain || type == state->moment;
    int is_delta = Py_TYPE(other) != state->duration;
    fots_duration by = {0, 0, 0};
    if ((is_delta && !is_date_time && type != state->date) || !to_move(state, other, &by)) {
        return PyErr_Occurred() ? NULL : new_reference(Py_NotImplemented);
    }
    if (is_date_time) {
        return of_moment(state, type, MOVED(moment_checked, MOMENT(self)));
    }
    if (is_delta) {
        int64_t days = by.seconds / 86400;
        if (by.seconds % 86400 || by.nanoseconds) {
            return PyErr_Format(PyExc_ValueError, "expected a timedelta of whole days; convert "
                "others with SignedDuration.from_timedelta");
        }
        return of_date(state, fots_date_add_days(DATE(self), back ? -days : days));
    }
    return type == state->date ? of_date(state, MOVED(date_checked, DATE(self))) :
        type == state->time ? of_time(state, MOVED(time, TIME(self))) :
        type == state->duration ? of_duration(state, MOVED(duration_checked, DURATION(self))) :
        new_reference(Py_NotImplemented);
}

/* A timedelta can also come first. */
static PyObject *value_add(PyObject *self, PyObject *other)
{
    if (Py_TYPE(self) == Py_TYPE(other)) {
        const State *own = state_of(self);
        return Py_TYPE(self) != own->duration ? new_reference(Py_NotImplemented) :
            of_duration(own, fots_duration_checked_add(DURATION(self), DURATION(other)));
    }
    const State *state = state_of_value(self);
    if (state && Py_TYPE(other) == state->period) {
        return moved_by_period(state, self, PERIOD(other), 0);
    }
    return state ? moved(state, self, other, 0) : moved(state_of(other), other, self, 0);
}

static PyObject *value_subtract(PyObject *self, PyObject *other)
{
    PyTypeObject *type = Py_TYPE(self);
    const State *state = type == Py_TYPE(other) ? state_of(self) : state_of_value(self);
    if (!state) {
        return new_reference(Py_NotImplemented);
    }
    if (Py_TYPE(other) == state->period) {
        return moved_by_period(state, self, PERIOD(other), 1);
    }
    if (type != Py_TYPE(other) || type == state->duration) {
        return moved(state, self, other, 1);
    }
    return of_duration(state,
        type == state->date ? fots_date_duration_since(DATE(self), DATE(other)) :
        type == state->time ? fots_time_difference(TIME(self), TIME(other)) :
        fots_moment_duration_since(MOMENT(self), MOMENT(other)));
}

/* ---- operators of durations */

static int duration_bool(PyObject *self)
{
    return DURATION(self).seconds || DURATION(self).nanoseconds;
}

/* Returns the product or the quotient of a duration and an int. */
static PyObject *scaled(PyObject *self, PyObject *other, int is_quotient)
{
    const State *state = state_of_value(self);
    int32_t number;
    if (!state || Py_TYPE(self) != state->duration || !PyIndex_Check(other)) {
        return new_reference(Py_NotImplemented);
    }
    if (!fit_int32(state, other, &number)) {
        return NULL;
    }
    if (is_quotient && !number) {
        return PyErr_Format(PyExc_ZeroDivisionError, "division of a duration by zero");
    }
    return of_duration(state, is_quotient ? fots_duration_checked_div(DURATION(self), number) :
        fots_duration_checked_mul(DURATION(self), number));
}

/* An int can also come first. */
static PyObject *duration_multiply(PyObject *self, PyObject *other)
{
    return state_of_value(self) ? scaled(self, other, 0) : scaled(other, self, 0);
}

/* Does an operation of ints with the nanoseconds of two durations. */
static PyObject *of_nanoseconds(PyObject *self, PyObject *other,
    PyObject *(*operation)(PyObject *, PyObject *))
{
    const State *state = state_of_value(self);
    if (!state || Py_TYPE(self) != state->duration || Py_TYPE(other) != state->duration) {
        return new_reference(Py_NotImplemented);
    }
    if (!sign_of(DURATION(other))) {
        return PyErr_Format(PyExc_ZeroDivisionError, "division of a duration by zero");
    }
    PyObject *number = duration_whole_nanoseconds(self, NULL);
    PyObject *divisor = duration_whole_nanoseconds(other, NULL);
    PyObject *made = number && divisor ? operation(number, divisor) : NULL;
    Py_XDECREF(number);
    Py_XDECREF(divisor);
    return made;
}

static PyObject *duration_divide(PyObject *self, PyObject *other)
{
    return Py_TYPE(other) == Py_TYPE(self) ? of_nanoseconds(self, other, PyNumber_TrueDivide) :
        scaled(self, other, 1);
}

static PyObject *duration_floor_divide(PyObject *self, PyObject *other)
{
    return of_nanoseconds(self, other, PyNumber_FloorDivide);
}

/* The rest is nearer to zero than the second duration, so it is in the range. */
static PyObject *duration_remainder(PyObject *self, PyObject *other)
{
    PyObject *rest = of_nanoseconds(self, other, PyNumber_Remainder);
    if (!rest || rest == Py_NotImplemented) {
        return rest;
    }
    PyObject *made = PyObject_CallMethod((PyObject *)Py_TYPE(self), "nanoseconds_i128", "N", rest);
    return made;
}
