/* What counts: one call of the library each, which is one version of the board. */
#include "extension.h"

static PyObject *none_or_refusal(const Metric *metric, uint32_t number) {
    if (number) return raise_refusal(metric->registry, metric->name, number);
    Py_RETURN_NONE;
}

static PyObject *counter_inc(PyObject *self, PyObject *const *args, Py_ssize_t count, PyObject *words) {
    Metric *metric = (Metric *)self;
    PyObject *given;
    int64_t by = metric->unit;
    if (argument_of(metric, args, count, words, "amount", &given) || (given && natural_of(metric, given, &by))) return NULL;
    return none_or_refusal(metric, boards_inc(&metric->registry->boards, &metric->handle.counter, (uint64_t)by));
}

/* What this process has moved the gauge to. One that was forked begins at zero where it counts on its parent's boards, so that a gauge which each
   process sets is their sum. */
static int64_t value_of(Metric *metric) {
    if (metric->process != boards_process()) {
        metric->process = boards_process();
        metric->value = 0;
    }
    return metric->value;
}

void gauge_moved(Metric *metric, int64_t by) {
    metric->value = value_of(metric) + by;
}

/* The value is raised after the board has taken the move, so it is right after a refusal, too. */
static PyObject *move(Metric *metric, int64_t by) {
    uint32_t number = boards_move(&metric->registry->boards, &metric->handle.gauge, by);
    if (!number) gauge_moved(metric, by);
    return none_or_refusal(metric, number);
}

static PyObject *gauge_inc(PyObject *self, PyObject *const *args, Py_ssize_t count, PyObject *words) {
    Metric *metric = (Metric *)self;
    PyObject *given;
    int64_t by = metric->unit;
    if (argument_of(metric, args, count, words, "amount", &given) || (given && units_of(metric, given, &by))) return NULL;
    return move(metric, by);
}

static PyObject *gauge_dec(PyObject *self, PyObject *const *args, Py_ssize_t count, PyObject *words) {
    Metric *metric = (Metric *)self;
    PyObject *given;
    int64_t by = metric->unit;
    if (argument_of(metric, args, count, words, "amount", &given) || (given && units_of(metric, given, &by))) return NULL;
    return move(metric, -by);
}

/* The difference to the value is taken behind all that may run Python code, which may move the gauge. */
static PyObject *gauge_set(PyObject *self, PyObject *const *args, Py_ssize_t count, PyObject *words) {
    Metric *metric = (Metric *)self;
    PyObject *given;
    int64_t to;
    if (argument_of(metric, args, count, words, "value", &given)) return NULL;
    if (!given) return PyErr_Format(PyExc_TypeError, "set takes a number, 'value'");
    if (units_of(metric, given, &to)) return NULL;
    return move(metric, to - value_of(metric));
}

static PyObject *observe(Metric *metric, int64_t units) {
    return none_or_refusal(metric, boards_observe(&metric->registry->boards, &metric->handle.histogram, (uint64_t)units));
}

static PyObject *histogram_observe(PyObject *self, PyObject *const *args, Py_ssize_t count, PyObject *words) {
    Metric *metric = (Metric *)self;
    PyObject *given;
    int64_t units;
    if (argument_of(metric, args, count, words, "amount", &given)) return NULL;
    if (!given) return PyErr_Format(PyExc_TypeError, "observe takes a number, 'amount'");
    return natural_of(metric, given, &units) ? NULL : observe(metric, units);
}

/* A duration that a metric of seconds takes: a histogram counts it, a gauge is set to it. */
PyObject *take_duration(Metric *metric, int64_t nanoseconds) {
    int64_t units;
    if (!metric->is_child) return raise_unusable(metric);
    if (nanoseconds_of(metric, nanoseconds, &units)) return NULL;
    return metric->kind == GAUGE ? move(metric, units - value_of(metric)) : observe(metric, units);
}

static PyObject *histogram_observe_ns(PyObject *self, PyObject *given) {
    Metric *metric = (Metric *)self;
    int overflow = 0;
    if (!metric->is_child) return raise_unusable(metric);
    if (!PyIndex_Check(given)) return PyErr_Format(PyExc_TypeError, "observe_ns takes a whole number of nanoseconds, not %R", given);
    PyObject *integer = PyNumber_Index(given);
    if (!integer) return NULL;
    long long nanoseconds = PyLong_AsLongLongAndOverflow(integer, &overflow);
    Py_DECREF(integer);
    if (nanoseconds == -1 && !overflow && PyErr_Occurred()) return NULL;
    if (overflow > 0) return raise_refusal(metric->registry, metric->name, 12);
    if (overflow < 0 || nanoseconds < 0) return PyErr_Format(PyExc_ValueError, "%U takes no number below zero: %R", metric->name, given);
    return take_duration(metric, nanoseconds);
}

PyMethodDef counter_methods[] = {
    {"inc", WITH_WORDS(counter_inc), METH_FASTCALL | METH_KEYWORDS, "inc(amount=1): the counter rises by a whole number."},
    {0},
};
PyMethodDef gauge_methods[] = {
    {"inc", WITH_WORDS(gauge_inc), METH_FASTCALL | METH_KEYWORDS, "inc(amount=1): the gauge rises."},
    {"dec", WITH_WORDS(gauge_dec), METH_FASTCALL | METH_KEYWORDS, "dec(amount=1): the gauge falls."},
    {"set", WITH_WORDS(gauge_set), METH_FASTCALL | METH_KEYWORDS, "set(value): the gauge moves up or down to the value."},
    {0},
};
PyMethodDef histogram_methods[] = {
    {"observe", WITH_WORDS(histogram_observe), METH_FASTCALL | METH_KEYWORDS, "observe(amount): bucket, sum and count rise together."},
    {"observe_ns", histogram_observe_ns, METH_O, "observe_ns(nanoseconds): counts a duration, rounded to the resolution."},
    {0},
};
