/* Dates of property lists and Python's datetime. */
#ifndef SIZHETOM_DATES_H
#define SIZHETOM_DATES_H

#define PY_SSIZE_T_CLEAN
#include <Python.h>

/* Prepares the other functions. Returns the start of 2001, or NULL with an exception. */
PyObject *import_dates(void);

/* Returns the datetime, without a time zone, of these seconds since the start of 2001. Returns None
 * if its year isn't from 1 to 9999. */
PyObject *date_of(double seconds);

/* Tells whether a value is a datetime. */
int is_date(PyObject *value);

/* Stores the seconds of a datetime since the start of 2001. Returns 0, or -1 with an exception: it
 * has a time zone. */
int seconds_of(PyObject *date, PyObject *epoch, double *seconds);

#endif
