/* The module sizhetom._sizhetom: reads and writes property lists by the functions of sizhetom.h. */
#include "module.h"

#include "dates.h"
#include "events.h"
#include "reading.h"
#include "records.h"
#include "values.h"

/* The most bytes of a file for a record: its object without the string or data, a reference to it,
 * and its entry in the table of offsets, if the file has less than 4 GiB. For a longer file the
 * writer is called again, with the length that it has returned. A test sets it to 0. */
#ifndef OBJECT
#define OBJECT 25
#endif

void raise_fault(const module_state *state, const sizhetom_outcome *outcome)
{
    PyObject *error;
    if (outcome->fault == SIZHETOM_OUT_OF_MEMORY) {
        PyErr_NoMemory();
        return;
    }
    error = PyObject_CallFunction(
        state->error_of, "KKKKK", (unsigned long long)outcome->fault,
        (unsigned long long)outcome->detail, (unsigned long long)outcome->expected,
        (unsigned long long)outcome->has_offset, (unsigned long long)outcome->offset);
    if (error != NULL) {
        PyErr_SetObject((PyObject *)Py_TYPE(error), error);
        Py_DECREF(error);
    }
}

/* Stores a limit, an integer of at least 0 or None. Returns 1, or 0 with an exception. */
static int limit_of(PyObject *value, void *limit)
{
    int overflow = 0;
    long long number = -1;
    if (value != Py_None) {
        number = PyLong_AsLongLongAndOverflow(value, &overflow);
        if (number == -1 && PyErr_Occurred()) {
            return 0;
        }
        if (number < 0 && overflow <= 0) {
            PyErr_SetString(PyExc_ValueError, "a limit must not be negative");
            return 0;
        }
    }
    *(uint64_t *)limit = number < 0 ? UINT64_MAX : (uint64_t)number;
    return 1;
}

/* Reads the data under the limits that the arguments of a call name. Returns 0, or -1 with an
 * exception. */
static int read_arguments(reading *read, reader *read_input, PyObject *arguments)
{
    PyObject *data;
    sizhetom_limits limits;
    if (!PyArg_ParseTuple(arguments, "OO&O&O&", &data, limit_of, &limits.depth, limit_of,
                          &limits.events, limit_of, &limits.bytes)) {
        return -1;
    }
    return read_object(read, read_input, data, &limits);
}

static PyObject *loads(PyObject *module, PyObject *arguments)
{
    const module_state *state = PyModule_GetState(module);
    reading read;
    PyObject *value = NULL;
    if (read_arguments(&read, sizhetom_read, arguments) < 0) {
        return NULL;
    }
    if (read.outcome.fault == SIZHETOM_OK) {
        value = value_of(state, &read);
    } else {
        raise_fault(state, &read.outcome);
    }
    free_reading(&read);
    return value;
}

static PyObject *events(PyObject *module, PyObject *arguments)
{
    reading read;
    if (read_arguments(&read, sizhetom_read_events, arguments) < 0) {
        return NULL;
    }
    return iterator_of(PyModule_GetState(module), &read);
}

/* Writes the file of these records into a bytes object of a length. Returns it, or NULL with an
 * exception, or NULL and the length that is needed in the outcome. */
static PyObject *written(const records *stored, int share, size_t length, sizhetom_outcome *outcome)
{
    /* The writer takes no null pointer. */
    static const uint8_t no_bytes;
    const uint8_t *bytes = stored->bytes == NULL ? &no_bytes : stored->bytes;
    PyObject *file = PyBytes_FromStringAndSize(NULL, (Py_ssize_t)length);
    if (file == NULL) {
        return NULL;
    }
    Py_BEGIN_ALLOW_THREADS
    *outcome = sizhetom_write(stored->events, stored->count, bytes, stored->length, share != 0,
                              (uint8_t *)PyBytes_AS_STRING(file), length);
    Py_END_ALLOW_THREADS
    if (outcome->fault == SIZHETOM_OK) {
        _PyBytes_Resize(&file, (Py_ssize_t)outcome->bytes);
    } else {
        Py_CLEAR(file);
    }
    return file;
}

/* Returns the file of these records, or NULL with an exception. */
static PyObject *file_of(const module_state *state, const records *stored, int share)
{
    sizhetom_outcome outcome = {0};
    size_t length = OBJECT * (stored->count + 2) + 2 * stored->length;
    PyObject *file = written(stored, share, length, &outcome);
    if (outcome.fault == SIZHETOM_NO_ROOM) {
        file = written(stored, share, outcome.bytes, &outcome);
    }
    if (file == NULL && !PyErr_Occurred()) {
        raise_fault(state, &outcome);
    }
    return file;
}

static PyObject *dumps(PyObject *module, PyObject *arguments)
{
    const module_state *state = PyModule_GetState(module);
    records stored = {0};
    PyObject *value, *file = NULL;
    int share;
    if (!PyArg_ParseTuple(arguments, "Op", &value, &share)) {
        return NULL;
    }
    if (store_value(state, &stored, value) == 0) {
        file = file_of(state, &stored, share);
    }
    free_records(&stored);
    return file;
}

static PyObject *library_version(PyObject *Py_UNUSED(module), PyObject *Py_UNUSED(arguments))
{
    sizhetom_number version = sizhetom_version();
    return Py_BuildValue("III", version.major, version.minor, version.patch);
}

static PyMethodDef functions[] = {
    {"loads", loads, METH_VARARGS,
     "loads(data, max_depth, max_events, max_bytes, /)\n--\n\n"
     "Returns the value of a property list."},
    {"events", events, METH_VARARGS,
     "events(data, max_depth, max_events, max_bytes, /)\n--\n\n"
     "Returns an iterator over the events of a property list."},
    {"dumps", dumps, METH_VARARGS,
     "dumps(value, share, /)\n--\n\n"
     "Returns the binary property list of a value."},
    {"library_version", library_version, METH_NOARGS,
     "library_version()\n--\n\n"
     "Returns the version of the library, as three numbers."},
    {NULL, NULL, 0, NULL},
};

/* Returns an attribute of a module by its name. */
static PyObject *imported(const char *module, const char *name)
{
    PyObject *attribute = NULL, *found = PyImport_ImportModule(module);
    if (found != NULL) {
        attribute = PyObject_GetAttrString(found, name);
        Py_DECREF(found);
    }
    return attribute;
}

static int execute(PyObject *module)
{
    module_state *state = PyModule_GetState(module);
    if ((state->uid_type = imported("plistlib", "UID")) == NULL
        || (state->error_of = imported("sizhetom._errors", "error_of")) == NULL
        || (state->event_kinds = imported("sizhetom._errors", "EVENT_KINDS")) == NULL
        || (state->epoch = import_dates()) == NULL) {
        return -1;
    }
    return add_event_types(module, state);
}

static int traverse(PyObject *module, visitproc visit, void *arg)
{
    module_state *state = PyModule_GetState(module);
    Py_VISIT(state->uid_type);
    Py_VISIT(state->error_of);
    Py_VISIT(state->event_kinds);
    Py_VISIT(state->epoch);
    Py_VISIT(state->event_type);
    Py_VISIT(state->iterator_type);
    return 0;
}

static int clear(PyObject *module)
{
    module_state *state = PyModule_GetState(module);
    Py_CLEAR(state->uid_type);
    Py_CLEAR(state->error_of);
    Py_CLEAR(state->event_kinds);
    Py_CLEAR(state->epoch);
    Py_CLEAR(state->event_type);
    Py_CLEAR(state->iterator_type);
    return 0;
}

static void release(void *module)
{
    clear(module);
}

static PyModuleDef_Slot slots[] = {
    {Py_mod_exec, execute},
    {0, NULL},
};

static struct PyModuleDef definition = {
    PyModuleDef_HEAD_INIT,
    .m_name = "sizhetom._sizhetom",
    .m_doc = "The functions of the archive, over Python's values.",
    .m_size = sizeof(module_state),
    .m_methods = functions,
    .m_slots = slots,
    .m_traverse = traverse,
    .m_clear = clear,
    .m_free = release,
};

PyMODINIT_FUNC PyInit__sizhetom(void)
{
    return PyModuleDef_Init(&definition);
}
