/* Numbers of Python in whole units of a metric. */
#include "extension.h"

#include <math.h>

enum { TOO_LARGE = 12 };

static int too_large(const Metric *metric) {
    raise_refusal(metric->registry, metric->name, TOO_LARGE);
    return -1;
}

static int of_integer(const Metric *metric, PyObject *integer, int64_t *units) {
    int overflow = 0;
    long long whole = PyLong_AsLongLongAndOverflow(integer, &overflow);
    if (whole == -1 && !overflow && PyErr_Occurred()) return -1;
    if (overflow || whole > metric->most || whole < -metric->most) return too_large(metric);
    *units = whole * metric->unit;
    return 0;
}

/* Of a metric with a resolution the nearest unit, as a measured number is not exact anyway; of others a whole number alone. */
static int of_real(const Metric *metric, PyObject *given, double real, int64_t *units) {
    double scaled = real * (double)metric->unit;
    double whole = nearbyint(scaled);
    if (isnan(real) || (metric->unit == 1 && isfinite(real) && whole != scaled)) {
        raise_not_whole(metric, given);
        return -1;
    }
    if (fabs(whole) >= 281474976710656.0) return too_large(metric);
    *units = (int64_t)whole;
    return 0;
}

/* `below` tells whether the number is below zero, also where its nearest unit is zero. */
static int convert(const Metric *metric, PyObject *given, int64_t *units, int *below) {
    int answer;
    if (PyLong_Check(given)) {
        answer = of_integer(metric, given, units);
        *below = !answer && *units < 0;
        return answer;
    }
    if (!PyFloat_Check(given) && PyIndex_Check(given)) {
        PyObject *integer = PyNumber_Index(given);
        answer = integer ? of_integer(metric, integer, units) : -1;
        Py_XDECREF(integer);
        *below = !answer && *units < 0;
        return answer;
    }
    double real = PyFloat_AsDouble(given);
    if (real == -1.0 && PyErr_Occurred()) return -1;
    *below = real < 0;
    return of_real(metric, given, real, units);
}

int units_of(const Metric *metric, PyObject *given, int64_t *units) {
    int below;
    return convert(metric, given, units, &below);
}

/* What a counter or a histogram takes. */
int natural_of(const Metric *metric, PyObject *given, int64_t *units) {
    int below;
    if (convert(metric, given, units, &below)) return -1;
    if (!below) return 0;
    PyErr_Format(PyExc_ValueError, "%U takes no number below zero: %R", metric->name, given);
    return -1;
}

/* The one argument, by its place or its name; null where there is none. */
int argument_of(const Metric *metric, PyObject *const *args, Py_ssize_t count, PyObject *words, const char *name, PyObject **given) {
    Py_ssize_t named = words ? PyTuple_Size(words) : 0;
    *given = NULL;
    if (!metric->is_child) {
        raise_unusable(metric);
        return -1;
    }
    if (count + named > 1) {
        PyErr_Format(PyExc_TypeError, "one number is taken, '%s', and %zd were given", name, count + named);
        return -1;
    }
    if (named) {
        PyObject *word = PyTuple_GetItem(words, 0);
        if (PyUnicode_CompareWithASCIIString(word, name)) {
            PyErr_Format(PyExc_TypeError, "the number is called '%s', not %R", name, word);
            return -1;
        }
    }
    if (count + named) *given = args[0];
    return 0;
}

/* A duration in units, the nearest. A metric of whole numbers does not tell what its unit is. */
int nanoseconds_of(const Metric *metric, int64_t nanoseconds, int64_t *units) {
    if (metric->unit == 1) {
        PyErr_Format(metric->registry->not_whole, "%U counts whole units: a duration needs a resolution (resolution=1e-6, or a name in _seconds)",
                     metric->name);
        return -1;
    }
    int64_t each = 1000000000 / metric->unit;
    *units = nanoseconds < 0 ? 0 : nanoseconds / each + (nanoseconds % each >= (each + 1) / 2);
    return 0;
}
