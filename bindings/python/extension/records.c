/* Turns Python's values into records, without recursion. As plistlib, it takes subclasses of the
 * types, and raises a TypeError for any other value. */
#include "records.h"

#include "dates.h"

#include <string.h>

#define LEAST 64

/* Returns a capacity that is at least the needed one, and at least twice the former one. Returns 0
 * if no memory has that size. */
static size_t grown(size_t capacity, size_t needed, size_t size)
{
    size_t wanted = capacity > needed / 2 ? 2 * capacity : needed;
    wanted = wanted < LEAST ? LEAST : wanted;
    return wanted > PY_SSIZE_T_MAX / size ? 0 : wanted;
}

/* Adds a record. Returns 0, or -1 with an exception. */
static int add_event(records *stored, uint64_t kind, uint64_t number, uint64_t size)
{
    if (stored->count == stored->capacity) {
        size_t capacity = grown(stored->capacity, stored->count + 1, sizeof *stored->events);
        sizhetom_event *events
            = capacity == 0 ? NULL : PyMem_RawRealloc(stored->events, capacity * sizeof *events);
        if (events == NULL) {
            PyErr_NoMemory();
            return -1;
        }
        stored->events = events;
        stored->capacity = capacity;
    }
    stored->events[stored->count++] = (sizhetom_event){kind, number, size};
    return 0;
}

/* Adds the record of a string or of data, and its bytes. Returns 0, or -1 with an exception. */
static int add_bytes(records *stored, uint64_t kind, const void *bytes, size_t length)
{
    if (length > stored->room - stored->length) {
        size_t room = grown(stored->room, stored->length + length, 1);
        uint8_t *larger = room == 0 ? NULL : PyMem_RawRealloc(stored->bytes, room);
        if (larger == NULL) {
            PyErr_NoMemory();
            return -1;
        }
        stored->bytes = larger;
        stored->room = room;
    }
    if (length > 0) {
        memcpy(stored->bytes + stored->length, bytes, length);
    }
    stored->length += length;
    return add_event(stored, kind, stored->length - length, length);
}

/* Adds the record of a string. Returns 0, or -1 with an exception: it has a lone surrogate. */
static int add_string(records *stored, PyObject *value)
{
    PyObject *encoded;
    int result;
    if (PyUnicode_IS_COMPACT_ASCII(value)) {
        return add_bytes(stored, SIZHETOM_STRING, PyUnicode_DATA(value),
                         (size_t)PyUnicode_GET_LENGTH(value));
    }
    encoded = PyUnicode_AsUTF8String(value);
    if (encoded == NULL) {
        return -1;
    }
    result = add_bytes(stored, SIZHETOM_STRING, PyBytes_AS_STRING(encoded),
                       (size_t)PyBytes_GET_SIZE(encoded));
    Py_DECREF(encoded);
    return result;
}

/* Stores an integer from -2^63 to 2^64 - 1, and whether it is negative. Returns 0, or -1 with an
 * exception. */
static int store_number(PyObject *value, uint64_t *number, int *is_negative)
{
    int overflow;
    long long narrow = PyLong_AsLongLongAndOverflow(value, &overflow);
    *is_negative = overflow < 0 || (overflow == 0 && narrow < 0);
    *number = (uint64_t)narrow;
    if (overflow > 0) {
        *number = PyLong_AsUnsignedLongLong(value);
    } else if (overflow < 0) {
        PyErr_SetObject(PyExc_OverflowError, value);
    }
    return *number == UINT64_MAX && PyErr_Occurred() ? -1 : 0;
}

/* Adds the record of an integer. Returns 0, or -1 with an exception. */
static int add_integer(records *stored, PyObject *value)
{
    uint64_t number;
    int is_negative;
    if (store_number(value, &number, &is_negative) < 0) {
        return -1;
    }
    return add_event(stored, SIZHETOM_INTEGER, number, (uint64_t)is_negative);
}

/* Adds the record of a double. Returns 0, or -1 with an exception. */
static int add_double(records *stored, uint64_t kind, double number)
{
    uint64_t bits;
    memcpy(&bits, &number, sizeof bits);
    return add_event(stored, kind, bits, kind == SIZHETOM_REAL ? sizeof bits : 0);
}

/* Adds the record of a datetime. Returns 0, or -1 with an exception. */
static int add_date(const module_state *state, records *stored, PyObject *value)
{
    double seconds;
    if (seconds_of(value, state->epoch, &seconds) < 0) {
        return -1;
    }
    return add_double(stored, SIZHETOM_DATE, seconds);
}

/* Adds the record of a UID. Returns 0, or -1 with an exception. */
static int add_uid(records *stored, PyObject *value)
{
    uint64_t number;
    int is_negative, result;
    PyObject *data = PyObject_GetAttrString(value, "data");
    if (data == NULL) {
        return -1;
    }
    result = store_number(data, &number, &is_negative);
    Py_DECREF(data);
    if (is_negative && (result == 0 || PyErr_ExceptionMatches(PyExc_OverflowError))) {
        PyErr_SetString(PyExc_ValueError, "UIDs must be positive");
        return -1;
    }
    return result < 0 ? -1 : add_event(stored, SIZHETOM_UID, number, 0);
}

/* Opens a list, a tuple or a dictionary. Returns 0, or -1 with an exception. */
static int add_start(const module_state *state, records *stored, PyObject *value)
{
    sizhetom_outcome contains_itself = {.fault = SIZHETOM_RECURSIVE_OBJECT};
    uint64_t kind = PyDict_Check(value) ? SIZHETOM_START_DICTIONARY : SIZHETOM_START_ARRAY;
    PyObject *pairs = NULL;
    int opened;
    if (PyDict_Check(value) && !PyDict_CheckExact(value)) {
        pairs = PyMapping_Items(value);
        if (pairs == NULL) {
            return -1;
        }
    }
    opened = open_inner(&stored->open, value, pairs);
    if (opened == 0) {
        raise_fault(state, &contains_itself);
    }
    return opened > 0 ? add_event(stored, kind, 0, 0) : -1;
}

/* Adds the record of a scalar, or opens a collection. Returns 0, or -1 with an exception. */
static int add_value(const module_state *state, records *stored, PyObject *value)
{
    if (PyUnicode_Check(value)) {
        return add_string(stored, value);
    }
    if (PyBool_Check(value)) {
        return add_event(stored, SIZHETOM_BOOLEAN, value == Py_True, 0);
    }
    if (PyLong_Check(value)) {
        return add_integer(stored, value);
    }
    if (PyFloat_Check(value)) {
        return add_double(stored, SIZHETOM_REAL, PyFloat_AS_DOUBLE(value));
    }
    if (PyBytes_Check(value)) {
        return add_bytes(stored, SIZHETOM_DATA, PyBytes_AS_STRING(value),
                         (size_t)PyBytes_GET_SIZE(value));
    }
    if (PyByteArray_Check(value)) {
        return add_bytes(stored, SIZHETOM_DATA, PyByteArray_AS_STRING(value),
                         (size_t)PyByteArray_GET_SIZE(value));
    }
    if (PyList_Check(value) || PyTuple_Check(value) || PyDict_Check(value)) {
        return add_start(state, stored, value);
    }
    if (is_date(value)) {
        return add_date(state, stored, value);
    }
    switch (PyObject_IsInstance(value, state->uid_type)) {
    case 1:
        return add_uid(stored, value);
    case 0:
        PyErr_Format(PyExc_TypeError, "a property list can't contain a value of type %.200s",
                     Py_TYPE(value)->tp_name);
    }
    return -1;
}

/* Adds the record of a key. Returns 0, or -1 with an exception. */
static int add_key(records *stored, PyObject *key)
{
    if (!PyUnicode_Check(key)) {
        PyErr_SetString(PyExc_TypeError, "keys must be strings");
        return -1;
    }
    return add_string(stored, key);
}

/* Stores the next item of a list or a tuple. Returns 1, or 0 after the last one. */
static int next_item(open_collection *inner, PyObject **value)
{
    if (inner->next >= PySequence_Fast_GET_SIZE(inner->collection)) {
        return 0;
    }
    *value = PySequence_Fast_GET_ITEM(inner->collection, inner->next++);
    return 1;
}

/* Stores the next pair of a dictionary. Returns 1; or 0 after the last one; or -1 with an
 * exception. */
static int next_pair(open_collection *inner, PyObject **key, PyObject **value)
{
    PyObject *pair;
    if (inner->pairs == NULL) {
        return PyDict_Next(inner->collection, &inner->next, key, value);
    }
    if (inner->next >= PyList_GET_SIZE(inner->pairs)) {
        return 0;
    }
    pair = PyList_GET_ITEM(inner->pairs, inner->next++);
    if (!PyTuple_Check(pair) || PyTuple_GET_SIZE(pair) != 2) {
        PyErr_SetString(PyExc_TypeError, "items() of a dictionary must return pairs");
        return -1;
    }
    *key = PyTuple_GET_ITEM(pair, 0);
    *value = PyTuple_GET_ITEM(pair, 1);
    return 1;
}

/* Adds the next item or pair of the innermost open collection, or closes it. Returns 0, or -1 with
 * an exception. */
static int add_next(const module_state *state, records *stored)
{
    open_collection *inner = &stored->open.stack[stored->open.count - 1];
    PyObject *key = NULL, *value;
    int result = PyDict_Check(inner->collection) ? next_pair(inner, &key, &value)
                                                 : next_item(inner, &value);
    if (result == 0) {
        close_inner(&stored->open);
        return add_event(stored, SIZHETOM_END_COLLECTION, 0, 0);
    }
    if (result < 0) {
        return -1;
    }
    /* Code of a subclass could otherwise free the value while it is stored. */
    Py_INCREF(value);
    result = key == NULL ? 0 : add_key(stored, key);
    if (result == 0) {
        result = add_value(state, stored, value);
    }
    Py_DECREF(value);
    return result;
}

int store_value(const module_state *state, records *stored, PyObject *value)
{
    int result = add_value(state, stored, value);
    while (result == 0 && stored->open.count > 0) {
        result = add_next(state, stored);
    }
    return result;
}

void free_records(records *stored)
{
    free_open(&stored->open);
    PyMem_RawFree(stored->events);
    PyMem_RawFree(stored->bytes);
}
