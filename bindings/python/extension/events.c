/* The iterator over the events of an input. */
#include "events.h"

#include "values.h"

/* The iterator. */
typedef struct {
    PyObject_HEAD
    module_state *state;
    reading read;
    made_strings strings;
    /* The index of the next record. */
    size_t next;
} event_iterator;

static PyStructSequence_Field fields[] = {
    {"kind", "The kind, for example \"StartArray\" or \"String\"."},
    {"value", "The number of items or pairs of a start, or None if it isn't known; the value of a "
              "scalar; or None."},
    {"bits", "The bytes of a real or a date in a binary file, or None."},
    {NULL, NULL},
};

static PyStructSequence_Desc event_description = {
    .name = "sizhetom.Event",
    .doc = "An event of a property list.",
    .fields = fields,
    .n_in_sequence = 3,
};

/* Returns the length of a start, or None. */
static PyObject *length_of(const sizhetom_event *event)
{
    if (event->size == 0) {
        Py_RETURN_NONE;
    }
    return PyLong_FromUnsignedLongLong(event->number);
}

/* Returns the value of an event. */
static PyObject *event_value(event_iterator *iterator, const sizhetom_event *event)
{
    switch (event->kind) {
    case SIZHETOM_START_ARRAY:
    case SIZHETOM_START_DICTIONARY:
        return length_of(event);
    case SIZHETOM_END_COLLECTION:
        Py_RETURN_NONE;
    default:
        return scalar_of(iterator->state, &iterator->read, &iterator->strings, event);
    }
}

/* Returns the bytes of a real or a date, the most significant first, or None. */
static PyObject *event_bits(const sizhetom_event *event)
{
    size_t length = event->kind == SIZHETOM_DATE ? sizeof event->number : event->size;
    uint8_t bytes[sizeof event->number];
    if (event->kind != SIZHETOM_REAL && event->kind != SIZHETOM_DATE) {
        Py_RETURN_NONE;
    }
    for (size_t i = 0; i < length; i++) {
        bytes[i] = (uint8_t)(event->number >> 8 * (length - 1 - i));
    }
    return PyBytes_FromStringAndSize((const char *)bytes, (Py_ssize_t)length);
}

/* Returns the named tuple of an event. */
static PyObject *event_of(event_iterator *iterator, const sizhetom_event *event)
{
    PyObject *kind = PyTuple_GET_ITEM(iterator->state->event_kinds, (Py_ssize_t)event->kind);
    PyObject *value, *bits, *made = PyStructSequence_New(iterator->state->event_type);
    if (made == NULL) {
        return NULL;
    }
    Py_INCREF(kind);
    PyStructSequence_SET_ITEM(made, 0, kind);
    value = event_value(iterator, event);
    PyStructSequence_SET_ITEM(made, 1, value);
    bits = value == NULL ? NULL : event_bits(event);
    PyStructSequence_SET_ITEM(made, 2, bits);
    if (bits == NULL) {
        Py_DECREF(made);
        return NULL;
    }
    return made;
}

/* Returns the next event, or raises the fault after the last one, once. */
static PyObject *next_event(PyObject *self)
{
    event_iterator *iterator = (event_iterator *)self;
    sizhetom_outcome *outcome = &iterator->read.outcome;
    if (iterator->next < outcome->events) {
        return event_of(iterator, &iterator->read.events[iterator->next++]);
    }
    if (outcome->fault != SIZHETOM_OK) {
        raise_fault(iterator->state, outcome);
        outcome->fault = SIZHETOM_OK;
    }
    return NULL;
}

static void free_iterator(PyObject *self)
{
    event_iterator *iterator = (event_iterator *)self;
    PyTypeObject *type = Py_TYPE(self);
    end_strings(&iterator->strings);
    free_reading(&iterator->read);
    type->tp_free(self);
    Py_DECREF(type);
}

static PyType_Slot slots[] = {
    {Py_tp_dealloc, free_iterator},
    {Py_tp_iter, PyObject_SelfIter},
    {Py_tp_iternext, next_event},
    {Py_tp_doc, "An iterator over the events of a property list."},
    {0, NULL},
};

static PyType_Spec iterator_specification = {
    .name = "sizhetom._sizhetom.EventIterator",
    .basicsize = sizeof(event_iterator),
    .flags = Py_TPFLAGS_DEFAULT | Py_TPFLAGS_DISALLOW_INSTANTIATION | Py_TPFLAGS_IMMUTABLETYPE,
    .slots = slots,
};

int add_event_types(PyObject *module, module_state *state)
{
    state->event_type = PyStructSequence_NewType(&event_description);
    if (state->event_type == NULL || PyModule_AddType(module, state->event_type) < 0) {
        return -1;
    }
    state->iterator_type
        = (PyTypeObject *)PyType_FromModuleAndSpec(module, &iterator_specification, NULL);
    return state->iterator_type == NULL ? -1 : 0;
}

PyObject *iterator_of(module_state *state, reading *read)
{
    event_iterator *iterator = PyObject_New(event_iterator, state->iterator_type);
    if (iterator == NULL) {
        free_reading(read);
        return NULL;
    }
    iterator->state = state;
    iterator->read = *read;
    iterator->next = 0;
    iterator->strings.made = NULL;
    if (start_strings(&iterator->strings, read->outcome.events) < 0) {
        Py_DECREF(iterator);
        return NULL;
    }
    return (PyObject *)iterator;
}
