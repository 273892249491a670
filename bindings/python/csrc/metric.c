/* Metric: how one is made, and its children. */
#include "extension.h"

#include <stddef.h>
#include <string.h>

/* The text lives as long as the object that it is read from. */
static int text_of(PyObject *given, dirgwako_text *out) {
    Py_ssize_t len;
    const char *at = PyUnicode_AsUTF8AndSize(given, &len);
    if (!at) return -1;
    out->at = (const uint8_t *)at, out->len = (size_t)len;
    return 0;
}

static int texts_of(PyObject *tuple, dirgwako_text *out) {
    for (Py_ssize_t i = 0; i < PyTuple_Size(tuple); i++)
        if (text_of(PyTuple_GetItem(tuple, i), &out[i])) return -1;
    return 0;
}

/* Which of the three types the object is of; one of several, or of none, counts nothing. */
static int kind_of(const module_state *state, PyObject *self, enum kind *kind) {
    int found = 0;
    for (int i = 0; i < 3; i++) {
        if (!PyObject_TypeCheck(self, state->kinds[i])) continue;
        *kind = (enum kind)i;
        found++;
    }
    if (found == 1) return 0;
    PyErr_Format(PyExc_TypeError, "a metric is a counter, a gauge or a histogram");
    return -1;
}

static int describe(const Registry *registry, PyObject *name, PyObject *help, PyObject *labels, PyObject *bounds, description *out) {
    Py_ssize_t label_count = PyTuple_Size(labels), bound_count = PyTuple_Size(bounds);
    if (label_count > DIRGWAKO_MOST_LABELS) raise_refusal(registry, name, 9);
    else if (bound_count > MOST_BOUNDS) raise_refusal(registry, name, 10);
    if (PyErr_Occurred() || text_of(name, &out->name) || text_of(help, &out->help) || texts_of(labels, out->labels)) return -1;
    for (Py_ssize_t i = 0; i < bound_count; i++) {
        out->bounds[i] = PyLong_AsUnsignedLongLong(PyTuple_GetItem(bounds, i));
        if (PyErr_Occurred()) return -1;
    }
    out->label_count = (size_t)label_count, out->bound_count = (size_t)bound_count;
    return 0;
}

/* The family, and of a metric without labels its only child. */
static uint32_t begin(Metric *metric, Registry *registry, const description *described) {
    static const dirgwako_text none[DIRGWAKO_MOST_LABELS];
    uint32_t number = boards_family(&registry->boards, described, &metric->family);
    if (number || described->label_count) return number;
    return boards_child(&registry->boards, described->kind, &metric->family, none, 0, &metric->handle);
}

/* What a metric, and each child of it, begins with. */
static void settle(Metric *metric, const description *described, Registry *registry, PyObject *name, PyObject *labelnames) {
    metric->kind = described->kind;
    metric->process = boards_process();
    metric->digits = (unsigned)described->digits;
    metric->unit = 1;
    for (unsigned i = 0; i < metric->digits; i++) metric->unit *= 10;
    metric->most = ((INT64_C(1) << 48) - 1) / metric->unit;
    Py_INCREF(registry), metric->registry = registry;
    Py_INCREF(labelnames), metric->labelnames = labelnames;
    Py_INCREF(name), metric->name = name;
}

/* _make(registry, name, help, label names, bounds in units, digits, group) */
static PyObject *metric_make(PyObject *self, PyObject *args) {
    Metric *metric = (Metric *)self;
    PyObject *registry, *name, *help, *labels, *bounds;
    Py_ssize_t digits, group;
    description described = {0};
    module_state *state = state_of(Py_TYPE(self), metric_dealloc);
    if (!state || kind_of(state, self, &described.kind)) return NULL;
    if (!PyArg_ParseTuple(args, "O!UUO!O!nn", state->registry, &registry, &name, &help, &PyTuple_Type, &labels, &PyTuple_Type, &bounds, &digits, &group))
        return NULL;
    if (metric->name) return PyErr_Format(PyExc_RuntimeError, "%U was made before", metric->name);
    if (digits < 0 || digits > MOST_DIGITS) return raise_refusal((Registry *)registry, name, DIRGWAKO_TOO_MANY_DIGITS);
    if (group < 0) return PyErr_Format(PyExc_ValueError, "%U: a group is a number from 0", name);
    if (describe((Registry *)registry, name, help, labels, bounds, &described)) return NULL;
    described.digits = (size_t)digits, described.group = (size_t)group;
    PyObject *children = described.label_count ? PyDict_New() : NULL;
    if (described.label_count && !children) return NULL;
    uint32_t number = begin(metric, (Registry *)registry, &described);
    if (number) {
        Py_XDECREF(children);
        return raise_refusal((Registry *)registry, name, number);
    }
    settle(metric, &described, (Registry *)registry, name, labels);
    metric->children = children;
    metric->is_child = !children;
    Py_RETURN_NONE;
}

/* A text of its own, not of a class that is derived of str: comparing those may run Python code. */
static PyObject *value_of(PyObject *given) {
    if (PyUnicode_CheckExact(given)) {
        Py_INCREF(given);
        return given;
    }
    PyObject *text = PyObject_Str(given);
    if (!text || PyUnicode_CheckExact(text)) return text;
    PyObject *plain = PyUnicode_FromObject(text);
    Py_DECREF(text);
    return plain;
}

/* The value that is given for a label, by its name; null where there is none. */
static PyObject *named_value(PyObject *label, PyObject *const *args, PyObject *words) {
    for (Py_ssize_t i = 0; i < PyTuple_Size(words); i++) {
        PyObject *word = PyTuple_GetItem(words, i);
        if (word == label || !PyUnicode_Compare(word, label)) return args[i];
    }
    return NULL;
}

/* What a child is found by: the text of one value, or a tuple of several in the order of the labels. */
static PyObject *key_of(const Metric *metric, PyObject *const *args, Py_ssize_t count, PyObject *words) {
    Py_ssize_t named = words ? PyTuple_Size(words) : 0, wanted = PyTuple_Size(metric->labelnames);
    if (count && named) return PyErr_Format(PyExc_ValueError, "%U: label values by their places or by their names, not both", metric->name);
    if (count + named != wanted) return raise_refusal(metric->registry, metric->name, 21);
    if (wanted == 1 && count) return value_of(args[0]);
    PyObject *key = PyTuple_New(wanted);
    for (Py_ssize_t i = 0; key && i < wanted; i++) {
        PyObject *given = named ? named_value(PyTuple_GetItem(metric->labelnames, i), args, words) : args[i];
        PyObject *value = given ? value_of(given) : PyErr_Format(PyExc_ValueError, "%U has the labels %R, not %R", metric->name, metric->labelnames, words);
        if (value) PyTuple_SetItem(key, i, value);
        else Py_CLEAR(key);
    }
    if (!key || wanted > 1) return key;
    PyObject *only = PyTuple_GetItem(key, 0);
    Py_INCREF(only);
    Py_DECREF(key);
    return only;
}

/* Gives a new child its slot and its place in the dict. Nothing here runs Python code, so of two threads the first one's child stays. */
static PyObject *place_child(Metric *metric, PyObject *key, PyObject *values, Metric *made) {
    dirgwako_text texts[DIRGWAKO_MOST_LABELS] = {{NULL, 0}};
    const description described = {.kind = metric->kind, .digits = metric->digits};
    if (texts_of(values, texts)) return NULL;
    PyObject *there = PyDict_GetItemWithError(metric->children, key);
    if (there) Py_INCREF(there);
    if (there || PyErr_Occurred()) return there;
    uint32_t number =
        boards_child(&metric->registry->boards, metric->kind, &metric->family, texts, (size_t)PyTuple_Size(values), &made->handle);
    if (number) return raise_refusal(metric->registry, metric->name, number);
    settle(made, &described, metric->registry, metric->name, metric->labelnames);
    Py_INCREF(values), made->labelvalues = values;
    made->is_child = 1;
    if (PyDict_SetItem(metric->children, key, (PyObject *)made)) return NULL; /* the next call finds the slot */
    Py_INCREF(made);
    return (PyObject *)made;
}

/* Both allocations may collect garbage, which may run Python code that makes the same child. */
static PyObject *make_child(Metric *metric, PyObject *key) {
    PyObject *values = PyTuple_Check(key) ? Py_NewRef(key) : PyTuple_Pack(1, key);
    Metric *made = values ? allocate(Py_TYPE(metric)) : NULL;
    PyObject *child = made ? place_child(metric, key, values, made) : NULL;
    Py_XDECREF(made);
    Py_XDECREF(values);
    return child;
}

static PyObject *raise_no_children(const Metric *metric) {
    if (!metric->name) return raise_unusable(metric);
    return PyErr_Format(PyExc_ValueError, metric->labelvalues ? "%U: this child has its label values already" : "%U was made without labels",
                        metric->name);
}

PyObject *metric_labels(PyObject *self, PyObject *const *args, Py_ssize_t count, PyObject *words) {
    Metric *metric = (Metric *)self;
    PyObject *key = metric->children ? key_of(metric, args, count, words) : raise_no_children(metric);
    if (!key) return NULL;
    PyObject *child = PyDict_GetItemWithError(metric->children, key); /* no child is ever taken out */
    if (child) Py_INCREF(child);
    else if (!PyErr_Occurred()) child = make_child(metric, key);
    Py_DECREF(key);
    return child;
}

static PyObject *metric_board(PyObject *self, PyObject *none) {
    Metric *metric = (Metric *)self;
    size_t board = 0;
    (void)none;
    if (!metric->is_child) return raise_unusable(metric);
    uint32_t number = boards_number(&metric->registry->boards, metric->kind, &metric->handle, &board);
    return number ? raise_refusal(metric->registry, metric->name, number) : PyLong_FromSize_t(board);
}

static PyObject *or_none(PyObject *it) {
    return Py_NewRef(it ? it : Py_None);
}

static PyObject *get_name(PyObject *self, void *none) {
    (void)none;
    return or_none(((Metric *)self)->name);
}

static PyObject *get_labelnames(PyObject *self, void *none) {
    (void)none;
    return or_none(((Metric *)self)->labelnames);
}

static PyObject *get_labelvalues(PyObject *self, void *none) {
    (void)none;
    return or_none(((Metric *)self)->labelvalues);
}

static PyObject *get_digits(PyObject *self, void *none) {
    (void)none;
    return PyLong_FromUnsignedLong(((Metric *)self)->digits);
}

static PyObject *get_is_child(PyObject *self, void *none) {
    (void)none;
    return PyBool_FromLong(((Metric *)self)->is_child);
}

/* Children hold their registry and no parent, so a cycle goes through the dict of a class in Python alone; what is visited is enough to find it. */
static int metric_traverse(PyObject *self, visitproc visit, void *arg) {
    Metric *metric = (Metric *)self;
    Py_VISIT(Py_TYPE(self)); /* an object of a type on the heap holds it */
    Py_VISIT(metric->registry);
    Py_VISIT(metric->children);
    return 0;
}

/* A metric that is cleared counts no more: its registry may be gone. */
static int metric_clear(PyObject *self) {
    Metric *metric = (Metric *)self;
    metric->is_child = 0;
    Py_CLEAR(metric->children);
    Py_CLEAR(metric->name);
    Py_CLEAR(metric->labelnames);
    Py_CLEAR(metric->labelvalues);
    Py_CLEAR(metric->registry);
    return 0;
}

void metric_dealloc(PyObject *self) {
    PyObject_GC_UnTrack(self);
    metric_clear(self);
    deallocate(self);
}

static PyMethodDef metric_methods[] = {
    {"_make", metric_make, METH_VARARGS, "Registers the metric."},
    {"labels", WITH_WORDS(metric_labels), METH_FASTCALL | METH_KEYWORDS,
     "labels(*values) or labels(**values): the child of these label values, which is made where there is none."},
    {"board", metric_board, METH_NOARGS, "board(): the number of the board that it is on. What is on one board is of one moment in each scrape."},
    {0},
};

static PyGetSetDef metric_attributes[] = {
    {"_name", get_name, NULL, NULL, NULL},           {"_labelnames", get_labelnames, NULL, NULL, NULL}, {"_labelvalues", get_labelvalues, NULL, NULL, NULL},
    {"_digits", get_digits, NULL, NULL, NULL},       {"_is_child", get_is_child, NULL, NULL, NULL},     {0},
};

static PyType_Slot metric_slots[] = {
    {Py_tp_dealloc, metric_dealloc}, {Py_tp_traverse, metric_traverse},  {Py_tp_clear, metric_clear},
    {Py_tp_methods, metric_methods}, {Py_tp_getset, metric_attributes}, {0, 0},
};

/* The three kinds have slots of their own for what frees them: a type without takes its base's, and not the base's flags. */
#define KIND_SLOTS(methods)                                                                                                             \
    {{Py_tp_dealloc, metric_dealloc}, {Py_tp_traverse, metric_traverse}, {Py_tp_clear, metric_clear}, {Py_tp_methods, methods}, {0, 0}}
static PyType_Slot counter_slots[] = KIND_SLOTS(counter_methods);
static PyType_Slot gauge_slots[] = KIND_SLOTS(gauge_methods);
static PyType_Slot histogram_slots[] = KIND_SLOTS(histogram_methods);

enum {
    FLAGS = Py_TPFLAGS_DEFAULT | Py_TPFLAGS_BASETYPE | Py_TPFLAGS_HAVE_GC,
    SHORT = offsetof(Metric, handle) + sizeof(dirgwako_counter),
};

PyType_Spec metric_spec = {EXTENSION ".Metric", SHORT, 0, FLAGS, metric_slots};
PyType_Spec counter_spec = {EXTENSION ".Counter", SHORT, 0, FLAGS, counter_slots};
PyType_Spec gauge_spec = {EXTENSION ".Gauge", SHORT, 0, FLAGS, gauge_slots};
PyType_Spec histogram_spec = {EXTENSION ".Histogram", sizeof(Metric), 0, FLAGS, histogram_slots};
