/* What is raised. The words of a refusal are the library's own. */
#include "extension.h"

enum { NO_MEMORY = 6 };

PyObject *raise_refusal(const Registry *registry, PyObject *of, uint32_t number) {
    char words[128];
    if (number == NO_MEMORY) return PyErr_NoMemory();
    PyObject *made = PyObject_CallFunction(registry->refusal, "IsO", (unsigned)number, boards_words(number, words, sizeof words), of ? of : Py_None);
    if (made) PyErr_SetObject(registry->refusal, made);
    Py_XDECREF(made);
    return NULL;
}

PyObject *raise_not_whole(const Metric *metric, PyObject *given) {
    return PyErr_Format(metric->registry->not_whole,
                        "%U counts whole units, and %R is no whole number: round it, or make the metric with a resolution (resolution=1e-6)",
                        metric->name, given);
}

PyObject *raise_unusable(const Metric *metric) {
    if (!metric->name) return PyErr_Format(PyExc_ValueError, "the metric was not made: its __init__ has not run, or has failed");
    return PyErr_Format(PyExc_ValueError, "%U has labels %R: count on what labels(..) gives", metric->name, metric->labelnames);
}
