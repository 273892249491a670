/* dirgwako._dirgwako, and dirgwako._shared, whose boards forked processes share: registries, metrics and timers, over the limited API of Python 3.10, so
   that one wheel serves it and all later ones.

   The GIL. No function here gives it away between the begin and the end of a call of boards.h, a scrape among them: that takes some ten microseconds a
   board, and who gives the GIL away waits for it up to a switch interval, 5 milliseconds. What may run Python code (a `__str__`, a `__float__`, an
   allocation that collects garbage) is done before such a call, and what was read before it is read again. */
#ifndef DIRGWAKO_EXTENSION_H
#define DIRGWAKO_EXTENSION_H

#define PY_SSIZE_T_CLEAN
#include <Python.h>

#include "boards.h"

#ifdef Py_GIL_DISABLED
#error "a Python without the GIL: two threads would use one recorder at once"
#endif

#ifdef DIRGWAKO_SHARED
#define EXTENSION "dirgwako._shared"
#define BEGIN PyInit__shared
#else
#define EXTENSION "dirgwako._dirgwako"
#define BEGIN PyInit__dirgwako
#endif

/* What an interpreter's module holds; each interpreter has its own. */
typedef struct module_state {
    PyObject *refusal, *not_whole;
    PyTypeObject *registry, *metric, *kinds[3]; /* of metrics, by their kind */
} module_state;

typedef struct Registry {
    PyObject_HEAD
    boards boards;
    PyObject *refusal, *not_whole; /* the classes of its interpreter, so that what counts need not look for them */
    PyTypeObject *metric;
    uint8_t *buffer;
    size_t room;
} Registry;

/* A metric: of labels, with its children, or a child, also the only one of a metric without labels. Of a counter and a gauge the memory ends
   behind their own handle, which is shorter than a histogram's. */
typedef struct Metric {
    PyObject_HEAD
    Registry *registry; /* null until it is made, as all below */
    PyObject *name, *labelnames;
    PyObject *labelvalues; /* of a child with labels */
    PyObject *children;    /* of a metric with labels: by the one value, or by the tuple of values */
    enum kind kind;
    int is_child;
    unsigned digits;
    int64_t unit; /* 10 to the digits: so many units are one */
    int64_t most; /* what may be given at most */
    int64_t value; /* of a gauge, in units: what this process has moved it to */
    unsigned process; /* of which process the value is */
    family family;
    handle handle;
} Metric;

/* faults.c: each sets an exception, and answers null. `of` is a metric's name, or null. */
PyObject *raise_refusal(const Registry *registry, PyObject *of, uint32_t number);
PyObject *raise_not_whole(const Metric *metric, PyObject *given);
PyObject *raise_unusable(const Metric *metric);

/* amounts.c: what is given, in units. They answer 0, or -1 with an exception set; they may run Python code. */
int units_of(const Metric *metric, PyObject *given, int64_t *units);
int natural_of(const Metric *metric, PyObject *given, int64_t *units);
int argument_of(const Metric *metric, PyObject *const *args, Py_ssize_t count, PyObject *words, const char *name, PyObject **given);
int nanoseconds_of(const Metric *metric, int64_t nanoseconds, int64_t *units);

/* counting.c: answers null with an exception, or None. */
PyObject *take_duration(Metric *metric, int64_t nanoseconds);
void gauge_moved(Metric *metric, int64_t by);
extern PyMethodDef counter_methods[], gauge_methods[], histogram_methods[];

/* metric.c, registry.c, timer.c, module.c */
extern PyType_Spec metric_spec, counter_spec, gauge_spec, histogram_spec, registry_spec, timer_spec;
PyObject *metric_labels(PyObject *self, PyObject *const *args, Py_ssize_t count, PyObject *words);
void metric_dealloc(PyObject *self);

/* The type of this extension that a type is, or is derived of; null where it is of none. What is freed by a function of the extension has its layout,
   and only what was made by it is freed so; bases are those whose layout is taken. Nothing is raised on the way, as by PyType_GetModule of a class in
   Python. */
static inline PyTypeObject *native_type(PyTypeObject *type, destructor freed_by) {
    while (type && (destructor)PyType_GetSlot(type, Py_tp_dealloc) != freed_by) type = PyType_GetSlot(type, Py_tp_base);
    return type;
}

/* What the module of a type holds. Null with an exception where it holds nothing any more: the interpreter ends. */
static inline module_state *state_of(PyTypeObject *type, destructor freed_by) {
    module_state *state = PyType_GetModuleState(native_type(type, freed_by));
    if (!state || state->metric) return state;
    PyErr_SetString(PyExc_RuntimeError, "no metric is made when the interpreter ends");
    return NULL;
}

/* A new object of a type on the heap, all zeros behind its head. */
static inline void *allocate(PyTypeObject *type) {
    return ((allocfunc)PyType_GetSlot(type, Py_tp_alloc))(type, 0);
}

/* Frees an object of a type on the heap, which the object holds. */
static inline void deallocate(PyObject *self) {
    PyTypeObject *type = Py_TYPE(self);
    ((freefunc)PyType_GetSlot(type, Py_tp_free))(self);
    Py_DECREF(type);
}

/* A function with keywords as the table of methods wants it. */
#define WITH_WORDS(function) ((PyCFunction)(void (*)(void))(function))

#endif
