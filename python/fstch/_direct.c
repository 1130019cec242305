/* The calls of a store that are made most often, without the time that ctypes takes for each: they are handed the library's functions, and call
 * nothing else of it. The module goes on without this file where it isn't built. */
#define PY_SSIZE_T_CLEAN
#define Py_LIMITED_API 0x03090000
#include <Python.h>
#include <fstch.h>

static int32_t (*get_value)(const fstch_store *, const void *, size_t, void *, size_t, size_t *);
static int32_t (*put_value)(fstch_store *, uint32_t, const void *, size_t, const void *, size_t);
static int32_t (*delete_key)(fstch_store *, uint32_t, const void *, size_t);
/* A call that finds a key by one that it is given. */
typedef int32_t finding(const fstch_store *, const void *, size_t, void *, size_t, size_t *, size_t *);
static finding *next_key, *previous_key;

/* Takes the addresses of fstch_get, fstch_put, fstch_delete, fstch_next and fstch_previous. */
static PyObject *bind(PyObject *module, PyObject *given) {
    unsigned long long get, put, delete, next, previous;
    (void)module;
    if (!PyArg_ParseTuple(given, "KKKKK", &get, &put, &delete, &next, &previous)) {
        return NULL;
    }
    *(void **)&get_value = (void *)(uintptr_t)get;
    *(void **)&put_value = (void *)(uintptr_t)put;
    *(void **)&delete_key = (void *)(uintptr_t)delete;
    *(void **)&next_key = (void *)(uintptr_t)next;
    *(void **)&previous_key = (void *)(uintptr_t)previous;
    Py_RETURN_NONE;
}

/* The value of a key, of this length. */
static PyObject *copy_of(const fstch_store *store, const char *key, Py_ssize_t key_length, size_t length) {
    PyObject *value = PyBytes_FromStringAndSize(NULL, (Py_ssize_t)length);
    if (value == NULL) {
        return NULL;
    }
    int32_t answer = get_value(store, key, (size_t)key_length, PyBytes_AsString(value), length, &length);
    if (answer != FSTCH_DONE) {
        Py_DECREF(value);
        return PyLong_FromLong(answer);
    }
    return value;
}

/* The value of a key, or the number of why there is none: of the store at this address. */
static PyObject *get(PyObject *module, PyObject *given) {
    unsigned long long at;
    const char *key;
    Py_ssize_t key_length;
    char room[1024];
    size_t length = 0;
    (void)module;
    if (!PyArg_ParseTuple(given, "Ky#", &at, &key, &key_length)) {
        return NULL;
    }
    const fstch_store *store = (const fstch_store *)(uintptr_t)at;
    int32_t answer = get_value(store, key, (size_t)key_length, room, sizeof room, &length);
    if (answer == FSTCH_DONE) {
        return PyBytes_FromStringAndSize(room, (Py_ssize_t)length);
    }
    return answer == FSTCH_BUFFER_TOO_SMALL ? copy_of(store, key, key_length, length) : PyLong_FromLong(answer);
}

/* The number that the library answers a put with, and a delete. */
static PyObject *put(PyObject *module, PyObject *given) {
    unsigned long long at;
    unsigned int writer;
    const char *key, *value;
    Py_ssize_t key_length, value_length;
    (void)module;
    if (!PyArg_ParseTuple(given, "KIy#y#", &at, &writer, &key, &key_length, &value, &value_length)) {
        return NULL;
    }
    return PyLong_FromLong(put_value((fstch_store *)(uintptr_t)at, writer, key, (size_t)key_length, value, (size_t)value_length));
}

static PyObject *delete(PyObject *module, PyObject *given) {
    unsigned long long at;
    unsigned int writer;
    const char *key;
    Py_ssize_t key_length;
    (void)module;
    if (!PyArg_ParseTuple(given, "KIy#", &at, &writer, &key, &key_length)) {
        return NULL;
    }
    return PyLong_FromLong(delete_key((fstch_store *)(uintptr_t)at, writer, key, (size_t)key_length));
}

/* The key that such a call finds with the length of its value, or the number of why there is none. */
static PyObject *entry(finding *find, PyObject *given) {
    unsigned long long at;
    const char *by;
    Py_ssize_t by_length;
    char key[FSTCH_MAX_KEY];
    size_t key_length = 0, value_length = 0;
    if (!PyArg_ParseTuple(given, "Ky#", &at, &by, &by_length)) {
        return NULL;
    }
    int32_t answer = find((const fstch_store *)(uintptr_t)at, by, (size_t)by_length, key, sizeof key, &key_length, &value_length);
    if (answer != FSTCH_DONE) {
        return PyLong_FromLong(answer);
    }
    return Py_BuildValue("(y#n)", key, (Py_ssize_t)key_length, (Py_ssize_t)value_length);
}

static PyObject *next_entry(PyObject *module, PyObject *given) {
    (void)module;
    return entry(next_key, given);
}

static PyObject *previous_entry(PyObject *module, PyObject *given) {
    (void)module;
    return entry(previous_key, given);
}

static PyMethodDef calls[] = {
    {"bind", bind, METH_VARARGS, "Takes the addresses of fstch_get, fstch_put, fstch_delete, fstch_next and fstch_previous."},
    {"get", get, METH_VARARGS, "The value of a key, or the number of why there is none."},
    {"put", put, METH_VARARGS, "The answer of a put."},
    {"delete", delete, METH_VARARGS, "The answer of a delete."},
    {"next_entry", next_entry, METH_VARARGS, "The least key from one on with the length of its value, or the number of why there is none."},
    {"previous_entry", previous_entry, METH_VARARGS, "The same of the greatest key before one."},
    {NULL, NULL, 0, NULL},
};

static struct PyModuleDef described = {PyModuleDef_HEAD_INIT, "_direct", NULL, -1, calls, NULL, NULL, NULL, NULL};

PyMODINIT_FUNC PyInit__direct(void) {
    PyObject *module = PyModule_Create(&described);
    if (module != NULL && PyModule_AddIntConstant(module, "VERSION", FSTCH_VERSION) != 0) {
        Py_DECREF(module);
        return NULL;
    }
    return module;
}
