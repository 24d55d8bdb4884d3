/* Texts of the values: `str` is what ISO 8601 has, and `repr` is what makes the value. */

/* The formats of texts: with a date or without, without a fraction, with microseconds or with
 * nanoseconds, and without an offset, with minutes or with seconds. The last ones are of an offset
 * alone. They are the same in each interpreter. */
static fots_format iso_formats[2][3][3], offset_formats[2];

static void make_format(fots_format *format, const char *date, const char *time, const char *offset)
{
    char text[32];
    int length = snprintf(text, sizeof text, "%s%s%s", date, time, offset);
    *format = fots_format_new(text, (size_t)length).format;
}

static void make_formats(void)
{
    static const char *const dates[] = {"", "%FT"}, *const times[] = {"%T", "%T.%f", "%T.%N"};
    static const char *const offsets[] = {"", "%:z", "%::z"};
    for (int index = 0; index < 18; index++) {
        make_format(&iso_formats[index / 9][index / 3 % 3][index % 3], dates[index / 9],
            times[index / 3 % 3], offsets[index % 3]);
    }
    make_format(&offset_formats[0], "", "", offsets[1]);
    make_format(&offset_formats[1], "", "", offsets[2]);
}

/* Returns which fraction a text of a time of day has. */
static int fraction_of(fots_time time)
{
    uint32_t below = fots_time_nanosecond(time).number;
    return below == 0 ? 0 : below % 1000 == 0 ? 1 : 2;
}

static int has_seconds(fots_offset offset) { return offset.seconds % 60 != 0; }

/* A function that returns a text by a format. */
#define STRING(name, call) \
    static PyObject *name(PyObject *self) \
    { \
        char bytes[8 * FOTS_MAX_ITEM_LENGTH]; \
        fots_length_result result = call; \
        return result.status ? raise_status(state_of(self), result.status) : \
            PyUnicode_FromStringAndSize(bytes, (Py_ssize_t)result.length); \
    }
STRING(time_string, fots_time_format(TIME(self), &iso_formats[0][fraction_of(TIME(self))][0], bytes,
    sizeof bytes))
STRING(plain_string, fots_pair_format(MOMENT(self).date, MOMENT(self).time,
    &iso_formats[1][fraction_of(MOMENT(self).time)][0], bytes, sizeof bytes))
STRING(moment_string, fots_moment_format(MOMENT(self), &iso_formats[1][fraction_of(MOMENT(self).time)]
    [1 + has_seconds(MOMENT(self).offset)], bytes, sizeof bytes))
STRING(offset_string, fots_offset_format(OFFSET(self), &offset_formats[has_seconds(OFFSET(self))], bytes,
    sizeof bytes))

static PyObject *value_isoformat(PyObject *self, PyObject *Py_UNUSED(none))
{
    return PyObject_Str(self);
}

/* ---- what makes a value */

static PyObject *date_repr(PyObject *self)
{
    fots_calendar_date_result date = fots_date_to_calendar_date(DATE(self));
    return PyUnicode_FromFormat("Date(%d, %u, %u)", (int)date.year, (unsigned)date.month,
        (unsigned)date.day);
}

/* Writes an hour and a minute, and what isn't zero below. */
static void put_clock(char *bytes, size_t size, fots_time time)
{
    fots_hms_nano_result own = fots_time_as_hms_nano(time);
    int length = snprintf(bytes, size, "%u, %u", (unsigned)own.hour, (unsigned)own.minute);
    if (own.second) {
        length += snprintf(bytes + length, size - (size_t)length, ", %u", (unsigned)own.second);
    }
    if (own.nanosecond) {
        snprintf(bytes + length, size - (size_t)length, ", nanosecond=%u",
            (unsigned)own.nanosecond);
    }
}

static PyObject *time_repr(PyObject *self)
{
    char clock[64];
    put_clock(clock, sizeof clock, TIME(self));
    return PyUnicode_FromFormat("Time(%s)", clock);
}

/* Writes the parts that aren't zero, up to the last one of these. */
static void put_offset(char *bytes, size_t size, fots_offset offset)
{
    fots_offset_hms_result own = fots_offset_as_hms(offset);
    bytes[0] = '\0';
    if (own.seconds) {
        snprintf(bytes, size, "%d, %d, %d", (int)own.hours, (int)own.minutes, (int)own.seconds);
    } else if (own.minutes) {
        snprintf(bytes, size, "%d, %d", (int)own.hours, (int)own.minutes);
    } else if (own.hours) {
        snprintf(bytes, size, "%d", (int)own.hours);
    }
}

static PyObject *offset_repr(PyObject *self)
{
    char offset[64];
    put_offset(offset, sizeof offset, OFFSET(self));
    return PyUnicode_FromFormat("UtcOffset(%s)", offset);
}

static PyObject *plain_repr(PyObject *self)
{
    char clock[64];
    fots_calendar_date_result date = fots_date_to_calendar_date(DATE(self));
    put_clock(clock, sizeof clock, MOMENT(self).time);
    return PyUnicode_FromFormat("PlainDateTime(%d, %u, %u, %s)", (int)date.year,
        (unsigned)date.month, (unsigned)date.day, clock);
}

static PyObject *moment_repr(PyObject *self)
{
    char clock[64], offset[64];
    fots_calendar_date_result date = fots_date_to_calendar_date(DATE(self));
    put_clock(clock, sizeof clock, MOMENT(self).time);
    put_offset(offset, sizeof offset, MOMENT(self).offset);
    return PyUnicode_FromFormat("OffsetDateTime(%d, %u, %u, %s, offset=UtcOffset(%s))",
        (int)date.year, (unsigned)date.month, (unsigned)date.day, clock, offset);
}

static PyObject *duration_repr(PyObject *self)
{
    static const char *const names[] = {"days", "hours", "minutes", "seconds", "milliseconds",
        "microseconds", "nanoseconds"};
    const char *sign = sign_of(DURATION(self)) < 0 ? "-" : "";
    unsigned long long seconds = (unsigned long long)DURATION(self).seconds;
    unsigned long long below = (unsigned long long)abs(DURATION(self).nanoseconds);
    seconds = *sign ? -seconds : seconds;
    unsigned long long numbers[] = {seconds / 86400, seconds / 3600 % 24, seconds / 60 % 60,
        seconds % 60, below / 1000000, below / 1000 % 1000, below % 1000};
    char bytes[160] = "";
    int length = 0;
    for (int unit = 0; unit < 7; unit++) {
        if (numbers[unit]) {
            length += snprintf(bytes + length, sizeof bytes - (size_t)length, "%s%s=%s%llu",
                length ? ", " : "", names[unit], sign, numbers[unit]);
        }
    }
    return PyUnicode_FromFormat("SignedDuration(%s)", bytes);
}
