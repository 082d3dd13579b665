/* Dates of property lists and Python's datetime, converted as plistlib converts them. */
#include "dates.h"

#include <datetime.h>
#include <math.h>

#define SECOND INT64_C(1000000)
#define DAY (86400 * SECOND)
/* The starts of the years 1 and 10000, in seconds since the start of 2001. */
#define YEAR_1 (-63113904000.0)
#define YEAR_10000 252423993600.0
/* Days from the first of March of the year 0 to the start of 2001. */
#define DAYS_BEFORE 730791
/* Days of 400, 100, 4 years. */
#define DAYS_OF_400 146097
#define DAYS_OF_100 36524
#define DAYS_OF_4 1461

PyObject *import_dates(void)
{
    PyDateTime_IMPORT;
    return PyDateTimeAPI == NULL ? NULL : PyDateTime_FromDateAndTime(2001, 1, 1, 0, 0, 0, 0);
}

/* Returns these seconds in microseconds, rounded as datetime.timedelta does: half to even. */
static int64_t microseconds_of(double seconds)
{
    double whole, most;
    double fraction = modf(seconds, &whole);
    double rest = modf(fraction * (double)SECOND, &most);
    int64_t sum = (int64_t)whole * SECOND + (int64_t)most;
    double rounded = round(rest);
    if (fabs(rounded - rest) == 0.5) {
        int odd = sum % 2 != 0;
        rounded = 2.0 * round((rest + odd) * 0.5) - odd;
    }
    return sum + (int64_t)rounded;
}

/* Stores the year, the month and the day of a day, which is numbered from the first of March of the
 * year 0. The year begins in March here, so that a leap day is its last day. */
static void store_day(int64_t number, int *year, int *month, int *day)
{
    int in_400 = (int)(number % DAYS_OF_400);
    int years = (in_400 - in_400 / (DAYS_OF_4 - 1) + in_400 / DAYS_OF_100
                 - in_400 / (DAYS_OF_400 - 1)) / 365;
    int in_year = in_400 - (365 * years + years / 4 - years / 100);
    int months = (5 * in_year + 2) / 153;
    *day = in_year - (153 * months + 2) / 5 + 1;
    *month = months < 10 ? months + 3 : months - 9;
    *year = (int)(number / DAYS_OF_400) * 400 + years + (*month <= 2);
}

PyObject *date_of(double seconds)
{
    int year, month, day, second;
    int64_t sum, in_day;
    if (!(seconds >= YEAR_1 && seconds < YEAR_10000)) {
        Py_RETURN_NONE;
    }
    /* Rounding may leave the range again. */
    sum = microseconds_of(seconds) + DAYS_BEFORE * DAY;
    if (sum < (int64_t)YEAR_1 * SECOND + DAYS_BEFORE * DAY
        || sum >= (int64_t)YEAR_10000 * SECOND + DAYS_BEFORE * DAY) {
        Py_RETURN_NONE;
    }
    store_day(sum / DAY, &year, &month, &day);
    in_day = sum % DAY;
    second = (int)(in_day / SECOND);
    return PyDateTime_FromDateAndTime(year, month, day, second / 3600, second / 60 % 60,
                                      second % 60, (int)(in_day % SECOND));
}

int is_date(PyObject *value)
{
    return PyDateTime_Check(value);
}

int seconds_of(PyObject *date, PyObject *epoch, double *seconds)
{
    PyObject *total = NULL, *past = PyNumber_Subtract(date, epoch);
    if (past != NULL) {
        total = PyObject_CallMethod(past, "total_seconds", NULL);
        Py_DECREF(past);
    }
    if (total == NULL) {
        return -1;
    }
    *seconds = PyFloat_AsDouble(total);
    Py_DECREF(total);
    return *seconds == -1.0 && PyErr_Occurred() ? -1 : 0;
}
