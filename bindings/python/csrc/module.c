/* The module. It is initialised in several phases and holds all it has in its state, so each interpreter of a process has its own. */
#include "extension.h"

static PyObject *words(PyObject *module, PyObject *given) {
    char room[128];
    (void)module;
    unsigned long number = PyLong_AsUnsignedLong(given);
    if (PyErr_Occurred()) return NULL;
    return PyUnicode_FromString(boards_words(number > UINT32_MAX ? UINT32_MAX : (uint32_t)number, room, sizeof room));
}

static int add_type(PyObject *module, PyType_Spec *spec, const char *name, PyTypeObject *base, PyTypeObject **out) {
    PyObject *type = PyType_FromModuleAndSpec(module, spec, (PyObject *)base);
    if (!type) return -1;
    *out = (PyTypeObject *)type;
    return PyModule_AddObjectRef(module, name, type);
}

static int add_classes(PyObject *module, module_state *state) {
    PyObject *faults = PyImport_ImportModule("dirgwako._faults");
    if (!faults) return -1;
    state->refusal = PyObject_GetAttrString(faults, "Refusal");
    state->not_whole = state->refusal ? PyObject_GetAttrString(faults, "NotWhole") : NULL;
    Py_DECREF(faults);
    if (!state->not_whole) return -1;
    PyTypeObject *timer = NULL;
    int failed = add_type(module, &registry_spec, "Registry", NULL, &state->registry) || add_type(module, &metric_spec, "Metric", NULL, &state->metric) ||
                 add_type(module, &counter_spec, "Counter", state->metric, &state->kinds[COUNTER]) ||
                 add_type(module, &gauge_spec, "Gauge", state->metric, &state->kinds[GAUGE]) ||
                 add_type(module, &histogram_spec, "Histogram", state->metric, &state->kinds[HISTOGRAM]) ||
                 add_type(module, &timer_spec, "Timer", NULL, &timer);
    Py_XDECREF(timer);
    return failed ? -1 : 0;
}

static int execute(PyObject *module) {
    dirgwako_abi built = {0};
    if (!boards_built_for(&built)) {
        PyErr_SetString(PyExc_ImportError, "dirgwako: the archive is not of the header that this extension was compiled with: build it again");
        return -1;
    }
    if (add_classes(module, PyModule_GetState(module))) return -1;
    const struct {
        const char *name;
        size_t value;
    } numbers[] = {
        {"WORKERS", built.workers}, {"COUNTERS", built.counters}, {"HISTOGRAMS", built.histograms},
        {"GAUGES", built.gauges},   {"CHANGES", built.changes},
    };
    for (size_t i = 0; i < sizeof numbers / sizeof *numbers; i++)
        if (PyModule_AddIntConstant(module, numbers[i].name, (long)numbers[i].value)) return -1;
    return 0;
}

static int traverse(PyObject *module, visitproc visit, void *arg) {
    module_state *state = PyModule_GetState(module);
    Py_VISIT(state->refusal);
    Py_VISIT(state->not_whole);
    Py_VISIT(state->registry);
    Py_VISIT(state->metric);
    for (int i = 0; i < 3; i++) Py_VISIT(state->kinds[i]);
    return 0;
}

static int clear(PyObject *module) {
    module_state *state = PyModule_GetState(module);
    Py_CLEAR(state->metric); /* at first: where it is there, all is */
    Py_CLEAR(state->refusal);
    Py_CLEAR(state->not_whole);
    Py_CLEAR(state->registry);
    for (int i = 0; i < 3; i++) Py_CLEAR(state->kinds[i]);
    return 0;
}

static PyMethodDef functions[] = {{"words", words, METH_O, "words(number): what a refusal of this number says."}, {0}};
static PyModuleDef_Slot slots[] = {{Py_mod_exec, execute}, {0, NULL}};
static struct PyModuleDef definition = {
    PyModuleDef_HEAD_INIT, EXTENSION, "The boards, and what counts on them.", sizeof(module_state), functions, slots, traverse, clear, NULL,
};

PyMODINIT_FUNC BEGIN(void);
PyMODINIT_FUNC BEGIN(void) {
    return PyModuleDef_Init(&definition);
}
