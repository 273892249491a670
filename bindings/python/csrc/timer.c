/* Timer: what a block takes, for a histogram, which counts it, or a gauge, which is set to it. */
#include "extension.h"

#include <time.h>

typedef struct Timer {
    PyObject_HEAD
    Metric *metric;
    int64_t begun; /* 0 before a block has */
} Timer;

static int64_t now(void) {
    struct timespec time;
    clock_gettime(CLOCK_MONOTONIC, &time);
    return (int64_t)time.tv_sec * 1000000000 + time.tv_nsec;
}

/* Of a metric of whole numbers no duration is taken, which is said before the block runs. */
static int timer_init(PyObject *self, PyObject *args, PyObject *words) {
    Timer *timer = (Timer *)self;
    Metric *metric;
    int64_t units;
    (void)words;
    if (!PyArg_ParseTuple(args, "O", &metric)) return -1;
    if (!native_type(Py_TYPE(metric), metric_dealloc)) {
        PyErr_Format(PyExc_TypeError, "a timer takes a metric, not %R", metric);
        return -1;
    }
    if (!metric->name) {
        raise_unusable(metric);
        return -1;
    }
    if (metric->kind == COUNTER) {
        PyErr_Format(PyExc_TypeError, "%U is a counter, which takes no time", metric->name);
        return -1;
    }
    if (nanoseconds_of(metric, 0, &units)) return -1;
    Metric *old = timer->metric;
    Py_INCREF(metric), timer->metric = metric;
    Py_XDECREF(old);
    timer->begun = 0;
    return 0;
}

static PyObject *timer_enter(PyObject *self, PyObject *none) {
    (void)none;
    ((Timer *)self)->begun = now();
    return Py_NewRef(self);
}

static PyObject *timer_exit(PyObject *self, PyObject *const *args, Py_ssize_t count) {
    Timer *timer = (Timer *)self;
    (void)args, (void)count;
    int64_t took = now() - timer->begun;
    if (!timer->metric || !timer->begun) return PyErr_Format(PyExc_ValueError, "no block of the timer has begun");
    PyObject *taken = take_duration(timer->metric, took);
    if (!taken) return NULL;
    Py_DECREF(taken);
    Py_RETURN_FALSE;
}

static PyObject *timer_labels(PyObject *self, PyObject *const *args, Py_ssize_t count, PyObject *words) {
    Timer *timer = (Timer *)self;
    if (!timer->metric) return PyErr_Format(PyExc_ValueError, "the timer has no metric");
    PyObject *child = metric_labels((PyObject *)timer->metric, args, count, words);
    if (!child) return NULL;
    PyObject *old = (PyObject *)timer->metric;
    timer->metric = (Metric *)child;
    Py_DECREF(old);
    Py_RETURN_NONE;
}

static PyObject *get_metric(PyObject *self, void *none) {
    Timer *timer = (Timer *)self;
    (void)none;
    return Py_NewRef(timer->metric ? (PyObject *)timer->metric : Py_None);
}

static int timer_traverse(PyObject *self, visitproc visit, void *arg) {
    Py_VISIT(Py_TYPE(self)); /* an object of a type on the heap holds it */
    Py_VISIT(((Timer *)self)->metric);
    return 0;
}

static int timer_clear(PyObject *self) {
    Py_CLEAR(((Timer *)self)->metric);
    return 0;
}

static void timer_dealloc(PyObject *self) {
    PyObject_GC_UnTrack(self);
    timer_clear(self);
    deallocate(self);
}

static PyMethodDef timer_methods[] = {
    {"__enter__", timer_enter, METH_NOARGS, "The block begins."},
    {"__exit__", WITH_WORDS(timer_exit), METH_FASTCALL, "The block has ended, also by an exception."},
    {"labels", WITH_WORDS(timer_labels), METH_FASTCALL | METH_KEYWORDS, "labels(..): the child that takes the time, where the block tells its label values."},
    {0},
};
static PyGetSetDef timer_attributes[] = {{"_metric", get_metric, NULL, NULL, NULL}, {0}};
static PyType_Slot timer_slots[] = {
    {Py_tp_init, timer_init},   {Py_tp_dealloc, timer_dealloc}, {Py_tp_traverse, timer_traverse},
    {Py_tp_clear, timer_clear}, {Py_tp_methods, timer_methods}, {Py_tp_getset, timer_attributes}, {0, 0},
};
PyType_Spec timer_spec = {
    EXTENSION ".Timer", sizeof(Timer), 0, Py_TPFLAGS_DEFAULT | Py_TPFLAGS_BASETYPE | Py_TPFLAGS_HAVE_GC, timer_slots,
};
