/* Registry: the boards, their scrapes, and changes that are one version. */
#include "extension.h"

#include <string.h>

static void registry_dealloc(PyObject *self);

/* `type` may be a class in Python, which has no module's state. */
static PyObject *registry_new(PyTypeObject *type, PyObject *args, PyObject *words) {
    (void)args, (void)words;
    module_state *state = state_of(type, registry_dealloc);
    Registry *made = state ? allocate(type) : NULL;
    if (!made) return NULL;
    Py_INCREF(state->refusal), made->refusal = state->refusal;
    Py_INCREF(state->not_whole), made->not_whole = state->not_whole;
    Py_INCREF(state->metric), made->metric = state->metric;
    uint32_t number = boards_begin(&made->boards);
    if (!number) return (PyObject *)made;
    raise_refusal(made, NULL, number);
    Py_DECREF(made);
    return NULL;
}

static int registry_traverse(PyObject *self, visitproc visit, void *arg) {
    Registry *registry = (Registry *)self;
    Py_VISIT(Py_TYPE(self)); /* an object of a type on the heap holds it */
    Py_VISIT(registry->refusal);
    Py_VISIT(registry->not_whole);
    Py_VISIT(registry->metric);
    return 0;
}

/* The classes stay as long as the object: what counts in a finalizer of the same cycle needs them, and they hold no registry. */
static void registry_dealloc(PyObject *self) {
    Registry *registry = (Registry *)self;
    PyObject_GC_UnTrack(self);
    boards_end(&registry->boards);
    PyMem_Free(registry->buffer);
    Py_XDECREF(registry->refusal);
    Py_XDECREF(registry->not_whole);
    Py_XDECREF(registry->metric);
    deallocate(self);
}

enum { TOO_SHORT = DIRGWAKO_TOO_SHORT, SLACK = 64 };

/* The buffer is kept: the next text is about as long. */
static int grow(Registry *registry, size_t len) {
    size_t room = len + len / 4 + SLACK;
    uint8_t *more = PyMem_Realloc(registry->buffer, room);
    if (!more) {
        PyErr_NoMemory();
        return -1;
    }
    registry->buffer = more, registry->room = room;
    return 0;
}

static PyObject *registry_scrape(PyObject *self, PyObject *none) {
    Registry *registry = (Registry *)self;
    uint32_t number;
    size_t len = 0;
    (void)none;
    if (!registry->buffer && grow(registry, 4096)) return NULL;
    while ((number = boards_scrape(&registry->boards, registry->buffer, registry->room, &len)) == TOO_SHORT)
        if (grow(registry, len)) return NULL;
    if (number) return raise_refusal(registry, NULL, number);
    return PyBytes_FromStringAndSize((const char *)registry->buffer, (Py_ssize_t)len);
}

static PyObject *registry_boards(PyObject *self, PyObject *none) {
    size_t count = 0;
    (void)none;
    uint32_t number = boards_count(&((Registry *)self)->boards, &count);
    return number ? raise_refusal((Registry *)self, NULL, number) : PyLong_FromSize_t(count);
}

/* A change that is listed, with what it moves a gauge by. */
typedef struct listed {
    dirgwako_change change;
    Metric *metric;
    int64_t by;
} listed;

static int list_change(const Registry *registry, PyObject *pair, listed *out) {
    PyObject *metric = PyTuple_Check(pair) && PyTuple_Size(pair) == 2 ? PyTuple_GetItem(pair, 0) : NULL;
    if (!metric || !PyObject_TypeCheck(metric, registry->metric)) {
        PyErr_Format(PyExc_TypeError, "publish takes pairs of a metric and a number, not %R", pair);
        return -1;
    }
    out->metric = (Metric *)metric;
    if (!out->metric->is_child) {
        raise_unusable(out->metric);
        return -1;
    }
    if (out->metric->registry != registry) {
        raise_refusal(registry, out->metric->name, 16);
        return -1;
    }
    int (*read)(const Metric *, PyObject *, int64_t *) = out->metric->kind == GAUGE ? units_of : natural_of;
    if (read(out->metric, PyTuple_GetItem(pair, 1), &out->by)) return -1;
    out->change = boards_change(out->metric->kind, &out->metric->handle, out->by);
    return 0;
}

/* The metric that a refused list names: of two boards the first that is not on the board of the list's first, else none. */
static PyObject *culprit(const listed *list, Py_ssize_t count, uint32_t number) {
    for (Py_ssize_t i = 1; number == DIRGWAKO_TWO_BOARDS && i < count; i++)
        if (list[i].change.registry != list[0].change.registry) return list[i].metric->name;
    return count == 1 ? list[0].metric->name : NULL;
}

/* All numbers are read before anything is published: that may run Python code. The pairs hold the metrics meanwhile. */
static PyObject *publish_list(Registry *registry, PyObject *const *args, Py_ssize_t count, listed *list, dirgwako_change *changes) {
    for (Py_ssize_t i = 0; i < count; i++) {
        if (list_change(registry, args[i], &list[i])) return NULL;
        changes[i] = list[i].change;
    }
    uint32_t number = boards_publish(&registry->boards, changes, (size_t)count);
    if (number) return raise_refusal(registry, culprit(list, count, number), number);
    for (Py_ssize_t i = 0; i < count; i++)
        if (list[i].metric->kind == GAUGE) gauge_moved(list[i].metric, list[i].by);
    Py_RETURN_NONE;
}

enum { FEW = 8 };

static PyObject *registry_publish(PyObject *self, PyObject *const *args, Py_ssize_t count) {
    listed few[FEW];
    dirgwako_change few_changes[FEW];
    if (count <= FEW) return publish_list((Registry *)self, args, count, few, few_changes);
    listed *list = PyMem_Calloc((size_t)count, sizeof *list);
    dirgwako_change *changes = PyMem_Calloc((size_t)count, sizeof *changes);
    PyObject *answer = list && changes ? publish_list((Registry *)self, args, count, list, changes) : PyErr_NoMemory();
    PyMem_Free(list);
    PyMem_Free(changes);
    return answer;
}

static PyMethodDef registry_methods[] = {
    {"_scrape", registry_scrape, METH_NOARGS, "The text of a scrape, all series of a board at one moment."},
    {"boards", registry_boards, METH_NOARGS, "boards(): how many boards there are."},
    {"publish", WITH_WORDS(registry_publish), METH_FASTCALL,
     "publish((metric, amount), ..): changes of one board as one version: a scrape sees all of them or none."},
    {0},
};

static PyType_Slot registry_slots[] = {
    {Py_tp_new, registry_new},         {Py_tp_dealloc, registry_dealloc}, {Py_tp_traverse, registry_traverse},
    {Py_tp_methods, registry_methods}, {Py_tp_doc, "The boards of one registry."}, {0, 0},
};

PyType_Spec registry_spec = {
    EXTENSION ".Registry", sizeof(Registry), 0, Py_TPFLAGS_DEFAULT | Py_TPFLAGS_BASETYPE | Py_TPFLAGS_HAVE_GC, registry_slots,
};
