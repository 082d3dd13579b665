/* Builds Python's values of records, without recursion: the values that belong to no collection yet
 * lie on a stack, from which the end of a collection takes its items. */
#include "values.h"

#include "dates.h"

#include <string.h>

/* No collection is open. */
#define NONE UINT64_MAX

double real_of(const sizhetom_event *event)
{
    uint32_t bits = (uint32_t)event->number;
    float narrow;
    double wide;
    if (event->size == sizeof narrow) {
        memcpy(&narrow, &bits, sizeof narrow);
        return narrow;
    }
    memcpy(&wide, &event->number, sizeof wide);
    return wide;
}

/* Returns the date of a record. */
static PyObject *date_of_event(const sizhetom_event *event)
{
    double seconds;
    memcpy(&seconds, &event->number, sizeof seconds);
    return date_of(seconds);
}

/* Returns the UID of a record. */
static PyObject *uid_of(const module_state *state, const sizhetom_event *event)
{
    PyObject *uid, *number = PyLong_FromUnsignedLongLong(event->number);
    if (number == NULL) {
        return NULL;
    }
    uid = PyObject_CallOneArg(state->uid_type, number);
    Py_DECREF(number);
    return uid;
}

PyObject *scalar_of(const module_state *state, const reading *read, made_strings *strings,
                    const sizhetom_event *event)
{
    const uint8_t *bytes = read->bytes;
    switch (event->kind) {
    case SIZHETOM_STRING:
        return string_of(strings, bytes + event->number, event->size);
    case SIZHETOM_DATA:
        bytes += event->number;
        return PyBytes_FromStringAndSize((const char *)bytes, (Py_ssize_t)event->size);
    case SIZHETOM_BOOLEAN:
        return PyBool_FromLong((long)event->number);
    case SIZHETOM_INTEGER:
        return event->size == 1 ? PyLong_FromLongLong((int64_t)event->number)
                                : PyLong_FromUnsignedLongLong(event->number);
    case SIZHETOM_REAL:
        return PyFloat_FromDouble(real_of(event));
    case SIZHETOM_DATE:
        return date_of_event(event);
    default:
        return uid_of(state, event);
    }
}

/* What is built. */
typedef struct {
    const module_state *state;
    reading *read;
    made_strings strings;
    /* The stack of values that belong to no collection yet. */
    PyObject **values;
    size_t count;
    /* The index of the innermost open collection's record, or NONE. Its number was replaced by the
     * index for the next outer collection, and its size by where its items begin on the stack. */
    uint64_t open;
} building;

/* Returns a list of these values. It owns them from then on. */
static PyObject *list_of(PyObject **values, size_t count)
{
    PyObject *list = PyList_New((Py_ssize_t)count);
    if (list != NULL) {
        for (size_t i = 0; i < count; i++) {
            PyList_SET_ITEM(list, (Py_ssize_t)i, values[i]);
        }
    }
    return list;
}

/* Returns a dictionary of these keys and values, which follow one another. It owns them from then
 * on. A key that is given twice has its first position and its last value. */
static PyObject *dictionary_of(PyObject **values, size_t count)
{
    PyObject *dictionary = PyDict_New();
    if (dictionary == NULL) {
        return NULL;
    }
    for (size_t i = 0; i < count; i += 2) {
        if (PyDict_SetItem(dictionary, values[i], values[i + 1]) < 0) {
            Py_DECREF(dictionary);
            return NULL;
        }
    }
    for (size_t i = 0; i < count; i++) {
        Py_DECREF(values[i]);
    }
    return dictionary;
}

/* Replaces the items of the innermost open collection on the stack by the collection. Returns 0, or
 * -1 with an exception. */
static int end_collection(building *built)
{
    const sizhetom_event *start = &built->read->events[built->open];
    PyObject **items = built->values + start->size;
    size_t count = built->count - start->size;
    PyObject *collection = start->kind == SIZHETOM_START_ARRAY ? list_of(items, count)
                                                               : dictionary_of(items, count);
    if (collection == NULL) {
        return -1;
    }
    built->count -= count;
    built->values[built->count++] = collection;
    built->open = start->number;
    return 0;
}

/* Puts the value of a scalar's record on the stack. Returns 0, or -1 with an exception. */
static int push_scalar(building *built, const sizhetom_event *event)
{
    PyObject *value = scalar_of(built->state, built->read, &built->strings, event);
    if (value == Py_None) {
        sizhetom_outcome outcome = {.fault = SIZHETOM_YEAR_OUT_OF_RANGE};
        Py_DECREF(value);
        raise_fault(built->state, &outcome);
        return -1;
    }
    if (value == NULL) {
        return -1;
    }
    built->values[built->count++] = value;
    return 0;
}

/* Puts the value of all records on the stack. Returns 0, or -1 with an exception. */
static int push_all(building *built)
{
    int result = 0;
    for (size_t i = 0; result == 0 && i < built->read->outcome.events; i++) {
        sizhetom_event *event = &built->read->events[i];
        switch (event->kind) {
        case SIZHETOM_START_ARRAY:
        case SIZHETOM_START_DICTIONARY:
            event->number = built->open;
            event->size = built->count;
            built->open = i;
            break;
        case SIZHETOM_END_COLLECTION:
            result = end_collection(built);
            break;
        default:
            result = push_scalar(built, event);
        }
    }
    return result;
}

PyObject *value_of(const module_state *state, reading *read)
{
    PyObject *value = NULL;
    building built = {.state = state, .read = read, .open = NONE};
    built.values = PyMem_RawMalloc(read->outcome.events * sizeof *built.values);
    if (built.values == NULL) {
        return PyErr_NoMemory();
    }
    if (start_strings(&built.strings, read->outcome.events) == 0) {
        if (push_all(&built) == 0) {
            value = built.values[--built.count];
        }
        end_strings(&built.strings);
    }
    while (built.count > 0) {
        Py_DECREF(built.values[--built.count]);
    }
    PyMem_RawFree(built.values);
    return value;
}
