/* Python's values of records. */
#ifndef SIZHETOM_VALUES_H
#define SIZHETOM_VALUES_H

#include "reading.h"
#include "strings.h"

/* Returns the real of a record, of four or eight bytes. */
double real_of(const sizhetom_event *event);

/* Returns the value of a scalar's record. For a date it is None if datetime has no such year. */
PyObject *scalar_of(const module_state *state, const reading *read, made_strings *strings,
                    const sizhetom_event *event);

/* Returns the value of the records that sizhetom_read stored, which are those of one value. They
 * are changed. */
PyObject *value_of(const module_state *state, reading *read);

#endif
