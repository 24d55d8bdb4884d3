/* The module fotsevindre._core, which the package fotsevindre sets up. Each interpreter has its
 * own. */
#include "core.c"
#include "standard.c"
#include "types.c"
#include "date_times.c"
#include "extras.c"
#include "pickles.c"
#include "texts.c"
#include "operators.c"
#include "workdays.c"
#include "formats.c"
#include "zones.c"
#include "recurrence.c"
#include "events.c"
#include "columns.c"
#include "numpy.c"
#include "arrow.c"

/* Takes what is in Python, in the order of State. */
static PyObject *core_setup(PyObject *self, PyObject *given)
{
    State *state = PyModule_GetState(self);
    PyObject **fields = (PyObject **)&state->other_date, **end = (PyObject **)(state + 1);
    if (!is_count("setup", PyTuple_Size(given), end - fields)) {
        return NULL;
    }
    for (Py_ssize_t index = 0; index < end - fields; index++) {
        Py_XDECREF(fields[index]);
        fields[index] = new_reference(PyTuple_GetItem(given, index));
    }
    return new_reference(Py_None);
}

/* ---- types */

/* A type: its name, its specification and its static functions. */
typedef struct Type {
    const char *name;
    PyType_Spec *spec;
    PyMethodDef *statics;
} Type;

#include "members.h"

/* Adds a type to the module, with its static functions, which have the type as `self`. */
static PyTypeObject *add_type(PyObject *module, const Type *type)
{
    PyObject *made = PyType_FromModuleAndSpec(module, type->spec, NULL);
    int failed = !made || PyModule_AddObjectRef(module, type->name, made);
    for (PyMethodDef *method = type->statics; !failed && method->ml_name; method++) {
        PyObject *function = PyCFunction_NewEx(method, made, NULL);
        failed = !function || PyObject_SetAttrString(made, method->ml_name, function);
        Py_XDECREF(function);
    }
    if (failed) {
        Py_CLEAR(made);
    }
    return (PyTypeObject *)made;
}

/* ---- the module */

static int execute(PyObject *module)
{
    State *state = PyModule_GetState(module);
    PyTypeObject **made = &state->date;
    if (fots_version() !=
        1000000 * FOTS_VERSION_MAJOR + 1000 * FOTS_VERSION_MINOR + FOTS_VERSION_PATCH) {
        PyErr_SetString(PyExc_ImportError, "the header and the library have different versions");
        return -1;
    }
    for (size_t index = 0; index < sizeof types / sizeof types[0]; index++) {
        made[index] = add_type(module, &types[index]);
        if (!made[index]) {
            return -1;
        }
    }
    make_formats();
    state->unit = (PyTypeObject *)PyType_FromModuleAndSpec(module, &unit_spec, NULL);
    state->iso_calendar_date = PyStructSequence_NewType(&iso_calendar_description);
    return !state->unit || !state->iso_calendar_date || PyModule_AddObjectRef(module,
        "IsoCalendarDate", (PyObject *)state->iso_calendar_date) ? -1 : 0;
}

/* Does something with each field of the state of a module. */
#define EACH_FIELD(action) \
    PyObject **fields = PyModule_GetState(module); \
    for (size_t index = 0; index < sizeof(State) / sizeof *fields; index++) { \
        action(fields[index]); \
    } \
    return 0

static int traverse(PyObject *module, visitproc visit, void *arg) { EACH_FIELD(Py_VISIT); }
static int clear(PyObject *module) { EACH_FIELD(Py_CLEAR); }

static PyModuleDef_Slot slots[] = {{Py_mod_exec, (void *)execute}, {0, NULL}, {0, NULL}};
static struct PyModuleDef definition = {PyModuleDef_HEAD_INIT, "fotsevindre._core", NULL,
    sizeof(State), functions, slots, traverse, clear, NULL};

PyMODINIT_FUNC PyInit__core(void)
{
    /* From 3.12 on a module says that interpreters with locks of their own can load it, by
     * Py_mod_multiple_interpreters and Py_MOD_PER_INTERPRETER_GIL_SUPPORTED. */
    if (strtol(Py_GetVersion() + 2, NULL, 10) >= 12) {
        slots[1].slot = 3;
        slots[1].value = (void *)2;
    }
    return PyModuleDef_Init(&definition);
}
