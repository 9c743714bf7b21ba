/* The module _persist: sessions of libpersist in Python's own process. tools/persist/embedded.py is over it. */
#define PY_SSIZE_T_CLEAN
#include <Python.h>
#include "persist.h"

typedef struct { PyObject_HEAD persist p; } Session;

static PyObject *Refused;

/* -1, with an error set, where a status is not that of a call that was done. */
static int check(int32_t status) {
    if (status == PERSIST_DONE) return 0;
    if (status == PERSIST_NO_MEMORY) PyErr_NoMemory();
    else if (status == PERSIST_CLOSED) PyErr_SetString(PyExc_ValueError, "the session is closed");
    else PyErr_SetString(PyExc_OverflowError, status == PERSIST_TOO_LONG ? "the program is too long" : "more was counted than an image can hold");
    return -1;
}

static int bytes_in(PyObject *given, const uint8_t **at, size_t *length) {
    char *text;
    Py_ssize_t size;
    if (PyBytes_AsStringAndSize(given, &text, &size)) return -1;
    *at = (const uint8_t *)text;
    *length = (size_t)size;
    return 0;
}

static PyObject *made(Session *s, size_t length) {
    PyObject *bytes = PyBytes_FromStringAndSize(NULL, (Py_ssize_t)length);
    if (bytes) persist_text(&s->p, 0, (uint8_t *)PyBytes_AsString(bytes), length);
    return bytes;
}

/* open(program): raises Refused with the line of the fault. */
static PyObject *open_text(Session *s, PyObject *program) {
    const uint8_t *text;
    uint8_t fault[64];
    size_t length, told = 0;
    if (bytes_in(program, &text, &length)) return NULL;
    int32_t status = persist_open(&s->p, text, length, fault, sizeof fault, &told);
    if (status == PERSIST_REFUSED) {
        PyObject *line = PyUnicode_FromStringAndSize((char *)fault, (Py_ssize_t)told);
        if (line) PyErr_SetObject(Refused, line);
        Py_XDECREF(line);
        return NULL;
    }
    if (check(status)) return NULL;
    Py_RETURN_NONE;
}

/* resume(image): how many bytes the image has; raises Refused with the number of the rule that fails. */
static PyObject *resume(Session *s, PyObject *image) {
    const uint8_t *bytes;
    size_t length, used = 0;
    uint32_t rule = 0;
    if (bytes_in(image, &bytes, &length)) return NULL;
    int32_t status = persist_resume(&s->p, bytes, length, &used, &rule);
    if (status == PERSIST_REFUSED) {
        PyErr_Format(Refused, "refused image %u\n", (unsigned)rule);
        return NULL;
    }
    return check(status) ? NULL : PyLong_FromSize_t(used);
}

static int line(Session *s, PyObject *given, persist_reply *reply) {
    const uint8_t *text;
    size_t length;
    return bytes_in(given, &text, &length) || check(persist_line(&s->p, text, length, reply)) ? -1 : 0;
}

/* say(line): the bytes of the reply. */
static PyObject *say(Session *s, PyObject *given) {
    persist_reply reply;
    return line(s, given, &reply) ? NULL : made(s, reply.length);
}

static PyObject *printed(Session *s, size_t count) {
    PyObject *numbers = PyTuple_New((Py_ssize_t)count);
    for (size_t i = 0; numbers && i < count; i++) {
        int64_t number = 0;
        persist_printed(&s->p, i, &number, 1);
        PyObject *item = PyLong_FromLongLong(number);
        if (!item) Py_CLEAR(numbers);
        else PyTuple_SetItem(numbers, (Py_ssize_t)i, item);
    }
    return numbers;
}

/* made(length): so many of the bytes that were made last. */
static PyObject *made_last(Session *s, PyObject *length) {
    size_t count = PyLong_AsSize_t(length);
    return PyErr_Occurred() ? NULL : made(s, count);
}

/* do(line): kind, detail, number, the numbers that were printed, and how many bytes the text has. */
static PyObject *carry_out(Session *s, PyObject *given) {
    persist_reply reply;
    if (line(s, given, &reply)) return NULL;
    PyObject *numbers = printed(s, reply.printed);
    return numbers ? Py_BuildValue("IIKNn", reply.kind, reply.detail, (unsigned long long)reply.number, numbers, (Py_ssize_t)reply.length) : NULL;
}

static PyObject *dump(Session *s, PyObject *version) {
    size_t length = 0;
    unsigned long number = PyLong_AsUnsignedLong(version);
    if (PyErr_Occurred()) return NULL;
    return check(persist_dump(&s->p, (uint32_t)number, &length)) ? NULL : made(s, length);
}

static PyObject *changed(Session *s, PyObject *words) {
    unsigned int version;
    const char *path;
    Py_ssize_t size;
    size_t length = 0;
    if (!PyArg_ParseTuple(words, "Iy#", &version, &path, &size)) return NULL;
    return check(persist_changed(&s->p, version, (const uint8_t *)path, (size_t)size, &length)) ? NULL : made(s, length);
}

static PyObject *image(Session *s, PyObject *Py_UNUSED(none)) {
    size_t length = 0;
    return check(persist_image(&s->p, &length)) ? NULL : made(s, length);
}

static PyObject *close_session(Session *s, PyObject *Py_UNUSED(none)) {
    persist_close(&s->p);
    Py_RETURN_NONE;
}

static void dealloc(PyObject *self) {
    PyTypeObject *type = Py_TYPE(self);
    persist_close(&((Session *)self)->p);
    ((freefunc)PyType_GetSlot(type, Py_tp_free))(self);
    Py_DECREF(type);
}

static PyMethodDef methods[] = {
    {"open", (PyCFunction)open_text, METH_O, NULL}, {"resume", (PyCFunction)resume, METH_O, NULL}, {"say", (PyCFunction)say, METH_O, NULL},
    {"do", (PyCFunction)carry_out, METH_O, NULL},
    {"made", (PyCFunction)made_last, METH_O, NULL}, {"dump", (PyCFunction)dump, METH_O, NULL}, {"changed", (PyCFunction)changed, METH_VARARGS, NULL},
    {"image", (PyCFunction)image, METH_NOARGS, NULL}, {"close", (PyCFunction)close_session, METH_NOARGS, NULL}, {NULL, NULL, 0, NULL}};
static PyType_Slot slots[] = {{Py_tp_methods, methods}, {Py_tp_dealloc, (void *)dealloc}, {0, NULL}};
static PyType_Spec spec = {"_persist.Session", sizeof(Session), 0, Py_TPFLAGS_DEFAULT, slots};
static struct PyModuleDef module = {PyModuleDef_HEAD_INIT, "_persist", NULL, -1, NULL, NULL, NULL, NULL, NULL};

PyMODINIT_FUNC PyInit__persist(void) {
    PyObject *m = PyModule_Create(&module);
    PyObject *type = m ? PyType_FromSpec(&spec) : NULL;
    Refused = type ? PyErr_NewException("_persist.Refused", NULL, NULL) : NULL;
    if (!Refused || PyModule_AddObject(m, "Session", type) || PyModule_AddObject(m, "Refused", Refused)) return NULL;
    return m;
}
