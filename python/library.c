/* tdl._library: sessions of libtdl for the module tdl, by the stable ABI of Python 3.9 and later.

   A session is in one call at a time. Its lock is held from the call of the library to the copy of the answer; only calls for many texts
   and the load release the global lock meanwhile, so a call for one text waits only if such a call is under way. */
#define PY_SSIZE_T_CLEAN
#define Py_LIMITED_API 0x03090000
#include <Python.h>
#include <pythread.h>
#include <stdlib.h>
#include <string.h>
#include "tdl.h"

/* the most texts that are answered while the global lock is released */
enum { MOST = 1024 };

typedef struct {
    PyObject_HEAD
    tdl_handle handle;
    PyThread_type_lock lock;
    PyObject *bytes_of, *rejected;
    uint8_t *out;
    size_t room;
    int is_lost;
} Session;

static int take(Session *self) {
    if (!PyThread_acquire_lock(self->lock, NOWAIT_LOCK)) {
        Py_BEGIN_ALLOW_THREADS
        PyThread_acquire_lock(self->lock, WAIT_LOCK);
        Py_END_ALLOW_THREADS
    }
    if (!self->is_lost)
        return 1;
    PyThread_release_lock(self->lock);
    PyErr_SetString(PyExc_RuntimeError, "another thread had this session in a call when the process was forked");
    return 0;
}

static void give(Session *self) { PyThread_release_lock(self->lock); }

static PyObject *failed(uint32_t status) {
    if (status == TDL_MEMORY)
        return PyErr_NoMemory();
    if (status == TDL_SHUT)
        PyErr_SetString(PyExc_ValueError, "this is closed");
    else
        PyErr_SetString(PyExc_ValueError, "the library rejects these options: it may be of another version");
    return NULL;
}

/* Returns the bytes of a text. */
static PyObject *bytes_of(Session *self, PyObject *text) {
    PyObject *found = NULL;
    if (PyBytes_CheckExact(text)) {
        Py_INCREF(text);
        found = text;
    } else if (PyUnicode_Check(text)) {
        found = PyUnicode_AsUTF8String(text);
        if (!found)
            PyErr_Clear();
    }
    if (!found)
        found = PyObject_CallFunctionObjArgs(self->bytes_of, text, NULL);
    if (found && memchr(PyBytes_AsString(found), '\n', (size_t)PyBytes_Size(found))) {
        PyErr_SetString(PyExc_ValueError, "a text has no line feed: each line is a separate text");
        Py_CLEAR(found);
    }
    return found;
}

static int grow(Session *self, size_t needed) {
    uint8_t *more = realloc(self->out, needed);
    if (!more)
        return 0;
    self->out = more;
    self->room = needed;
    return 1;
}

static PyObject *session_new(PyTypeObject *type, PyObject *args, PyObject *named) {
    tdl_choice choice = { .size = sizeof choice };
    unsigned char keys_only;
    const char *encoding, *stem, *tables, *prefixes;
    Py_ssize_t encoding_len, stem_len, tables_len, prefixes_len;
    PyObject *bytes_of_text, *rejected, *refused;
    (void)named;
    if (!PyArg_ParseTuple(args, "bbbbby#y#y#y#OOO:Session", &choice.from, &choice.to, &choice.filter, &choice.gcp, &keys_only, &encoding,
                          &encoding_len, &stem, &stem_len, &tables, &tables_len, &prefixes, &prefixes_len, &bytes_of_text, &rejected, &refused))
        return NULL;
    choice.flags = keys_only ? TDL_KEYS_ONLY : 0;
    allocfunc allocate = (allocfunc)PyType_GetSlot(type, Py_tp_alloc);
    Session *self = (Session *)allocate(type, 0);
    if (!self)
        return NULL;
    Py_INCREF(bytes_of_text);
    Py_INCREF(rejected);
    self->bytes_of = bytes_of_text, self->rejected = rejected;
    self->lock = PyThread_allocate_lock();
    if (!self->lock || !grow(self, TDL_ROOM)) {
        Py_DECREF(self);
        return PyErr_NoMemory();
    }
    uint32_t status;
    size_t len = 0;
    Py_BEGIN_ALLOW_THREADS
    status = tdl_open(&self->handle, &choice, (const uint8_t *)encoding, (size_t)encoding_len, (const uint8_t *)stem, (size_t)stem_len,
                      (const uint8_t *)tables, (size_t)tables_len, (const uint8_t *)prefixes, (size_t)prefixes_len, self->out, self->room - 1, &len);
    Py_END_ALLOW_THREADS
    if (status == TDL_OK)
        return (PyObject *)self;
    if (status == TDL_TABLES || status == TDL_PREFIXES) {
        self->out[len < self->room ? len : 0] = 0;
        PyErr_Format(refused, "refused %s %s", status == TDL_TABLES ? "tables" : "prefixes", (const char *)self->out);
    } else
        failed(status);
    Py_DECREF(self);
    return NULL;
}

static void session_dealloc(Session *self) {
    PyTypeObject *type = Py_TYPE(self);
    tdl_close(&self->handle);
    if (self->lock)
        PyThread_free_lock(self->lock);
    free(self->out);
    Py_XDECREF(self->bytes_of);
    Py_XDECREF(self->rejected);
    freefunc release = (freefunc)PyType_GetSlot(type, Py_tp_free);
    release(self);
    Py_DECREF(type);
}

static PyObject *reason_of(Session *self, PyObject *asked, const uint8_t *reason, size_t len) {
    PyObject *told = PyUnicode_DecodeLatin1((const char *)reason, (Py_ssize_t)len, NULL);
    PyObject *found = told ? PyObject_CallFunctionObjArgs(self->rejected, asked, told, NULL) : NULL;
    Py_XDECREF(told);
    return found;
}

static PyObject *session_translate(Session *self, PyObject *text) {
    PyObject *asked = bytes_of(self, text), *answer = NULL, *told = NULL;
    if (!asked)
        return NULL;
    if (!take(self)) {
        Py_DECREF(asked);
        return NULL;
    }
    const uint8_t *at = (const uint8_t *)PyBytes_AsString(asked);
    size_t length = (size_t)PyBytes_Size(asked), len;
    uint32_t status = tdl_translate(&self->handle, at, length, self->out, self->room, &len);
    if (status == TDL_SMALL)
        status = grow(self, len) ? tdl_translate(&self->handle, at, length, self->out, self->room, &len) : TDL_MEMORY;
    if (status <= TDL_NO)
        told = PyUnicode_DecodeLatin1((const char *)self->out, (Py_ssize_t)len, NULL);
    give(self);
    if (status == TDL_OK)
        answer = told;
    else if (told) {
        PyObject *error = PyObject_CallFunctionObjArgs(self->rejected, asked, told, NULL);
        Py_DECREF(told);
        if (error) {
            PyErr_SetObject((PyObject *)Py_TYPE(error), error);
            Py_DECREF(error);
        }
    } else if (status > TDL_NO)
        failed(status);
    Py_DECREF(asked);
    return answer;
}

/* Texts that are answered at once: where each begins in `in`, and its answer in `out`. */
typedef struct {
    size_t count, in_len, in_room, out_len, out_room, ends[MOST], out_ends[MOST];
    uint8_t statuses[MOST], *in, *out;
} Batch;

static int put(Batch *batch, PyObject *asked) {
    size_t length = (size_t)PyBytes_Size(asked), needed = batch->in_len + length;
    if (needed > batch->in_room) {
        uint8_t *more = realloc(batch->in, 2 * needed);
        if (!more)
            return 0;
        batch->in = more;
        batch->in_room = 2 * needed;
    }
    memcpy(batch->in + batch->in_len, PyBytes_AsString(asked), length);
    batch->in_len = batch->ends[batch->count++] = needed;
    return 1;
}

static uint32_t answer(tdl_handle *handle, Batch *batch) {
    size_t at = 0, len;
    batch->out_len = 0;
    for (size_t n = 0; n < batch->count; at = batch->ends[n++]) {
        uint32_t status = TDL_SMALL;
        for (len = TDL_ROOM; status == TDL_SMALL;) {
            if (len > batch->out_room - batch->out_len) {
                uint8_t *more = realloc(batch->out, 2 * (batch->out_len + len));
                if (!more)
                    return TDL_MEMORY;
                batch->out = more;
                batch->out_room = 2 * (batch->out_len + len);
            }
            status = tdl_translate(handle, batch->in + at, batch->ends[n] - at, batch->out + batch->out_len, batch->out_room - batch->out_len, &len);
        }
        if (status > TDL_NO)
            return status;
        batch->statuses[n] = (uint8_t)status;
        batch->out_len = batch->out_ends[n] = batch->out_len + len;
    }
    return TDL_OK;
}

/* Takes texts of a tuple from a place on, as many as fit, and returns whether that could be. */
static int fill(Session *self, Batch *batch, PyObject *texts, Py_ssize_t from, Py_ssize_t count) {
    batch->count = batch->in_len = 0;
    for (Py_ssize_t n = from; n < count && batch->count < MOST; n++) {
        PyObject *asked = bytes_of(self, PyTuple_GetItem(texts, n));
        int is_put = asked && put(batch, asked);
        if (asked && !is_put)
            PyErr_NoMemory();
        Py_XDECREF(asked);
        if (!is_put)
            return 0;
    }
    return 1;
}

/* Puts the answers into the list from a place on, and returns whether that could be. */
static int spread(Session *self, Batch *batch, PyObject *found, Py_ssize_t from) {
    size_t at = 0, in_at = 0;
    for (size_t n = 0; n < batch->count; at = batch->out_ends[n], in_at = batch->ends[n], n++) {
        size_t len = batch->out_ends[n] - at;
        PyObject *one;
        if (batch->statuses[n] == TDL_OK)
            one = PyUnicode_DecodeLatin1((const char *)batch->out + at, (Py_ssize_t)len, NULL);
        else {
            PyObject *asked = PyBytes_FromStringAndSize((const char *)batch->in + in_at, (Py_ssize_t)(batch->ends[n] - in_at));
            one = asked ? reason_of(self, asked, batch->out + at, len) : NULL;
            Py_XDECREF(asked);
        }
        if (!one || PyList_SetItem(found, from + (Py_ssize_t)n, one) < 0)
            return 0;
    }
    return 1;
}

static PyObject *session_translate_list(Session *self, PyObject *given) {
    PyObject *texts = PySequence_Tuple(given), *found = NULL;
    Batch *batch = texts ? calloc(1, sizeof *batch) : NULL;
    if (texts && !batch)
        PyErr_NoMemory();
    Py_ssize_t count = texts ? PyTuple_Size(texts) : 0;
    int goes_on = batch && (found = PyList_New(count)) != NULL;
    for (Py_ssize_t done = 0; goes_on && done < count; done += (Py_ssize_t)batch->count) {
        goes_on = fill(self, batch, texts, done, count) && take(self);
        if (goes_on) {
            uint32_t status;
            Py_BEGIN_ALLOW_THREADS
            status = answer(&self->handle, batch);
            Py_END_ALLOW_THREADS
            give(self);
            if (status != TDL_OK)
                failed(status);
            goes_on = status == TDL_OK && spread(self, batch, found, done) && !PyErr_CheckSignals();
        }
    }
    if (!goes_on)
        Py_CLEAR(found);
    if (batch) {
        free(batch->in);
        free(batch->out);
        free(batch);
    }
    Py_XDECREF(texts);
    return found;
}

static PyObject *session_print_answers(Session *self, PyObject *lines) {
    if (!PyBytes_CheckExact(lines)) {
        PyErr_SetString(PyExc_TypeError, "lines are bytes");
        return NULL;
    }
    const uint8_t *at = (const uint8_t *)PyBytes_AsString(lines);
    size_t length = (size_t)PyBytes_Size(lines), len = 4 * length + TDL_ROOM;
    uint8_t *out = NULL;
    uint32_t status = TDL_SMALL;
    if (!take(self))
        return NULL;
    Py_BEGIN_ALLOW_THREADS
    while (status == TDL_SMALL) {
        size_t room = len;
        free(out);
        out = malloc(room);
        status = out ? tdl_translate_lines(&self->handle, at, length, out, room, &len) : TDL_MEMORY;
    }
    Py_END_ALLOW_THREADS
    give(self);
    PyObject *found = status <= TDL_NO ? PyBytes_FromStringAndSize((const char *)out, (Py_ssize_t)len) : failed(status);
    free(out);
    return found;
}

static PyObject *session_after_fork(Session *self, PyObject *nothing) {
    (void)nothing;
    if (PyThread_acquire_lock(self->lock, NOWAIT_LOCK)) {
        PyThread_release_lock(self->lock);
        Py_RETURN_TRUE;
    }
    /* (a thread that this process does not have holds it) */
    PyThread_type_lock lock = PyThread_allocate_lock();
    if (!lock)
        return PyErr_NoMemory();
    self->lock = lock;
    self->is_lost = 1;
    self->handle.at = NULL;
    Py_RETURN_FALSE;
}

static PyMethodDef methods[] = {
    { "translate", (PyCFunction)session_translate, METH_O, "Returns the answer to a text. Raises what `rejected` makes of its bytes and the reason if it has none." },
    { "translate_list", (PyCFunction)session_translate_list, METH_O, "Returns the answer to each text; one without an answer has what `rejected` makes there." },
    { "print_answers", (PyCFunction)session_print_answers, METH_O, "Returns the answers to lines as the program prints them." },
    { "after_fork", (PyCFunction)session_after_fork, METH_NOARGS, "Returns whether the session can be used in this process, which was forked off." },
    { NULL, NULL, 0, NULL },
};

static PyType_Slot slots[] = {
    { Py_tp_new, session_new },
    { Py_tp_dealloc, session_dealloc },
    { Py_tp_methods, methods },
    { Py_tp_doc, "A session of libtdl." },
    { 0, NULL },
};

static PyType_Spec spec = { "tdl._library.Session", sizeof(Session), 0, Py_TPFLAGS_DEFAULT, slots };

static int fill_module(PyObject *module) {
    PyObject *type = PyType_FromSpec(&spec);
    if (!type)
        return -1;
    int status = PyModule_AddObject(module, "Session", type);
    if (status < 0) {
        Py_DECREF(type);
        return status;
    }
    return PyModule_AddIntConstant(module, "VERSION", (long)tdl_version_number());
}

static PyModuleDef_Slot module_slots[] = { { Py_mod_exec, fill_module }, { 0, NULL } };

static struct PyModuleDef module = { PyModuleDef_HEAD_INIT, "tdl._library", "Sessions of libtdl.", 0, NULL, module_slots, NULL, NULL, NULL };

PyMODINIT_FUNC PyInit__library(void) { return PyModuleDef_Init(&module); }
