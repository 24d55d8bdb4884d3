/* Time zones, for the file zones.py. */

static const char zone_name[] = "fotsevindre.zone";

static void zone_free(PyObject *capsule) { PyMem_Free(PyCapsule_GetPointer(capsule, zone_name)); }

/* Takes the bytes of a zone, and whether they are a POSIX text. Returns a capsule with the zone,
 * which has its bytes after it. */
static PyObject *core_zone_new(PyObject *self, PyObject *const *given, Py_ssize_t count)
{
    char *bytes;
    Py_ssize_t length;
    if (!is_count("zone_new", count, 2) || PyBytes_AsStringAndSize(given[0], &bytes, &length)) {
        return NULL;
    }
    fots_zone *zone = PyMem_Malloc(sizeof *zone + (size_t)length);
    if (!zone) {
        return PyErr_NoMemory();
    }
    zone->bytes_length = (size_t)length;
    zone->bytes = memcpy(zone + 1, bytes, (size_t)length);
    fots_zone_parts_result result = given[1] == Py_True ?
        fots_zone_posix_parts((const char *)zone->bytes, (size_t)length) :
        fots_zone_file_parts(zone->bytes, (size_t)length);
    zone->parts = result.parts;
    PyObject *made = result.status ?
        raise_position(state_of_module(self), result.status, result.position, 0) :
        PyCapsule_New(zone, zone_name, zone_free);
    if (!made) {
        PyMem_Free(zone);
    }
    return made;
}

/* Converts a capsule with a zone. */
static int to_zone(const State *Py_UNUSED(state), PyObject *object, fots_zone *zone)
{
    const fots_zone *found = PyCapsule_GetPointer(object, zone_name);
    if (found) {
        *zone = *found;
    }
    return found != NULL;
}

/* Converts a capsule, or a tuple of one and a policy. */
static int to_zone_and_policy(PyObject *object, fots_zone *zone, uint32_t *policy)
{
    PyObject *capsule = object;
    return (!PyTuple_Check(object) || PyArg_ParseTuple(object, "OI", &capsule, policy)) &&
        to_zone(NULL, capsule, zone);
}

/* The offset, whether this is daylight saving time, and where the abbreviation is in the bytes. */
OF(local_type, local_type, Py_BuildValue("NNnn", new_offset(state, result.offset),
    PyBool_FromLong((long)result.is_daylight), (Py_ssize_t)result.abbreviation,
    (Py_ssize_t)result.abbreviation_length))
/* The number of the kind, the Unix times and the offsets. */
OF(local, local, Py_BuildValue("ILLNN", (unsigned)result.kind, (long long)result.earlier,
    (long long)result.later, new_offset(state, result.earlier_offset),
    new_offset(state, result.later_offset)))

/* ---- calls with a PlainDateTime */

static fots_local_result core_zone_resolve(const fots_zone *zone, fots_moment plain)
{
    return fots_zone_resolve(zone, plain.date, plain.time);
}

static fots_moment_result core_zone_moment(const fots_zone *zone, fots_moment plain,
    uint32_t policy)
{
    return fots_zone_moment(zone, plain.date, plain.time, policy);
}

static fots_moment_result core_zoned_from_local(const fots_zone *zone, fots_moment plain,
    uint32_t policy)
{
    return fots_zoned_from_local(zone, plain.date, plain.time, policy);
}
