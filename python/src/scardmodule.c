/* The module _scard: its state, its conversions, and its list of functions. */
#include "scardmodule.h"

struct state *state_of(PyObject *module)
{
    return (struct state *)PyModule_GetState(module);
}

bool count_is(Py_ssize_t count, Py_ssize_t wanted)
{
    if (count != wanted) {
        PyErr_Format(PyExc_TypeError, "%zd arguments, and not %zd", wanted, count);
    }
    return count == wanted;
}

bool octets_of(PyObject *value, struct octets *out)
{
    if (PyBytes_CheckExact(value)) {
        Py_INCREF(value);
        out->held = value;
    } else if (PyObject_CheckBuffer(value)) {
        out->held = PyBytes_FromObject(value);
    } else {
        out->held = NULL;
        PyErr_SetString(PyExc_TypeError, "octets have to be bytes, or another object with a buffer");
    }
    if (out->held == NULL) {
        return false;
    }
    out->at = (const uint8_t *)PyBytes_AsString(out->held);
    out->count = (size_t)PyBytes_Size(out->held);
    return true;
}

void octets_release(struct octets *octets)
{
    Py_CLEAR(octets->held);
}

/* Takes only an int, or what says that it is a number of that kind. A bool is one. */
bool number_of(PyObject *value, uint64_t most, uint64_t *out)
{
    PyObject *index = PyNumber_Index(value);
    unsigned long long number;
    if (index == NULL) {
        return false;
    }
    number = PyLong_AsUnsignedLongLong(index);
    Py_DECREF(index);
    if (PyErr_Occurred() != NULL) {
        return false;
    }
    if (number > most) {
        PyErr_Format(PyExc_OverflowError, "a number above %llu", (unsigned long long)most);
        return false;
    }
    *out = number;
    return true;
}

bool octet_of(PyObject *value, uint8_t *out)
{
    uint64_t number;
    if (!number_of(value, 255, &number)) {
        return false;
    }
    *out = (uint8_t)number;
    return true;
}

bool octet_or_none(PyObject *value, uint8_t *has, uint8_t *out)
{
    *has = value != Py_None;
    *out = 0;
    return value == Py_None || octet_of(value, out);
}

PyObject *bytes_of(const uint8_t *octets, size_t count)
{
    return PyBytes_FromStringAndSize((const char *)octets, (Py_ssize_t)count);
}

PyObject *number_or_none(uint8_t has, uint8_t number)
{
    if (has == 0) {
        Py_RETURN_NONE;
    }
    return PyLong_FromLong(number);
}

PyObject *text_of(const struct scard_text *text)
{
    return PyUnicode_FromString(text->text);
}

/* Sets the field with a number of a value that is being made. Takes the field's value over. */
static bool set_field(PyObject *value, PyObject *fields, Py_ssize_t number, PyObject *part)
{
    PyObject *name = PyTuple_GetItem(fields, number);
    int failed = name == NULL || part == NULL || PyObject_GenericSetAttr(value, name, part) != 0;
    Py_XDECREF(part);
    return !failed;
}

PyObject *make(PyObject *module, enum made made, PyObject **values, Py_ssize_t count)
{
    struct state *state = state_of(module);
    PyObject *class = state->classes[made];
    PyObject *value = class != NULL ? PyType_GenericAlloc((PyTypeObject *)class, 0) : NULL;
    bool is_good = value != NULL;
    Py_ssize_t at;
    for (at = 0; at < count; at++) {
        if (!is_good) {
            Py_XDECREF(values[at]);
        } else {
            is_good = set_field(value, state->fields[made], at, values[at]);
        }
    }
    if (!is_good) {
        Py_CLEAR(value);
    }
    return value;
}

PyObject *member(PyObject *module, enum made made, uint8_t number)
{
    PyObject *members = state_of(module)->fields[made];
    PyObject *one = members != NULL && number < PyTuple_Size(members) ? PyTuple_GetItem(members, number) : NULL;
    if (one == NULL || one == Py_None) {
        return PyLong_FromLong(number);
    }
    Py_INCREF(one);
    return one;
}

/* Returns null with an exception of a class of the package, made from `words`, which this call takes over. */
static PyObject *raise_made(PyObject *module, enum made made, PyObject *words)
{
    PyObject *class = state_of(module)->classes[made];
    PyObject *exception = NULL;
    if (words != NULL && class != NULL) {
        exception = PyObject_CallObject(class, words);
    }
    if (exception != NULL) {
        PyErr_SetObject(class, exception);
    }
    Py_XDECREF(exception);
    Py_XDECREF(words);
    return NULL;
}

PyObject *raise_argument(PyObject *module, const char *text)
{
    return raise_made(module, MADE_ARGUMENT, Py_BuildValue("(s)", text));
}

PyObject *raise_verdict(PyObject *module, struct scard_verdict verdict, uint8_t codec)
{
    const unsigned long long place = verdict.place;
    switch (verdict.status) {
    case SCARD_AT:
        return raise_made(module, MADE_REFUSED,
                     Py_BuildValue("(Ksi)", place, scard_reason_name(codec, verdict.reason), (int)codec));
    case SCARD_SHORT:
        return raise_made(module, MADE_SHORT, Py_BuildValue("(KiO)", place, (int)codec, Py_None));
    case SCARD_DUPLICATE:
        return raise_made(module, MADE_DUPLICATE, Py_BuildValue("(s)", "two known values have the same tag"));
    case SCARD_MEMORY:
        return PyErr_NoMemory();
    default:
        return raise_argument(module, "an argument is out of its range");
    }
}

PyObject *raise_verdict_on(PyObject *module, struct scard_verdict verdict, uint8_t codec, const uint8_t *octets,
                           size_t count)
{
    const unsigned long long place = verdict.place;
    if (verdict.status != SCARD_SHORT) {
        return raise_verdict(module, verdict, codec);
    }
    return raise_made(module, MADE_SHORT,
                      Py_BuildValue("(KiK)", place, (int)codec,
                                    (unsigned long long)scard_least(codec, octets, count)));
}

/* ---- states in capsules ---- */

/* Through a volatile pointer, so that no compiler leaves it out. */
static void *(*const volatile overwrite)(void *, int, size_t) = memset;

void kept_close(struct kept *kept)
{
    const size_t size = kept->size;
    overwrite(kept, 0, size);
    kept->size = size;
}

static void kept_free(PyObject *capsule)
{
    struct kept *kept = (struct kept *)PyCapsule_GetPointer(capsule, PyCapsule_GetName(capsule));
    if (kept != NULL) {
        kept_close(kept);
        PyMem_Free(kept);
    }
}

PyObject *kept_new(const char *name, size_t size)
{
    struct kept *kept = (struct kept *)PyMem_Calloc(1, size);
    PyObject *capsule;
    if (kept == NULL) {
        return PyErr_NoMemory();
    }
    kept->size = size;
    kept->is_open = true;
    capsule = PyCapsule_New(kept, name, kept_free);
    if (capsule == NULL) {
        PyMem_Free(kept);
    }
    return capsule;
}

void *kept_of(PyObject *module, PyObject *capsule, const char *name)
{
    struct kept *kept;
    if (!PyCapsule_IsValid(capsule, name)) {
        return PyErr_Format(PyExc_TypeError, "this isn't a %s", name);
    }
    kept = (struct kept *)PyCapsule_GetPointer(capsule, name);
    if (kept != NULL && !kept->is_open) {
        return raise_made(module, MADE_CLOSED, Py_BuildValue("(s)", name));
    }
    return kept;
}

/* ---- the module ---- */

/* Puts an object in the place of another one. */
static void keep(PyObject **place, PyObject *object)
{
    PyObject *before = *place;
    Py_INCREF(object);
    *place = object;
    Py_XDECREF(before);
}

/* begin(pair..): takes the classes of which this module makes values. A pair is a class and the names of its
 * fields.
 */
static PyObject *begin(PyObject *module, arguments given, Py_ssize_t count)
{
    struct state *state = state_of(module);
    Py_ssize_t at;
    if (!count_is(count, MADE_COUNT)) {
        return NULL;
    }
    for (at = 0; at < count; at++) {
        PyObject *class, *fields;
        if (!PyTuple_Check(given[at]) || !PyArg_ParseTuple(given[at], "O!O!", &PyType_Type, &class, &PyTuple_Type,
                                                           &fields)) {
            return NULL;
        }
        keep(&state->classes[at], class);
        keep(&state->fields[at], fields);
    }
    Py_RETURN_NONE;
}

static int traverse(PyObject *module, visitproc visit, void *arg)
{
    struct state *state = state_of(module);
    int at;
    for (at = 0; state != NULL && at < MADE_COUNT; at++) {
        Py_VISIT(state->classes[at]);
        Py_VISIT(state->fields[at]);
    }
    return 0;
}

static int clear(PyObject *module)
{
    struct state *state = state_of(module);
    int at;
    for (at = 0; state != NULL && at < MADE_COUNT; at++) {
        Py_CLEAR(state->classes[at]);
        Py_CLEAR(state->fields[at]);
    }
    return 0;
}

static void free_module(void *module)
{
    clear((PyObject *)module);
}

/* Adds the functions of all files, and the text of the library's version. */
static int execute(PyObject *module)
{
    static PyMethodDef *const files[] = {codec_functions, object_functions, reader_functions, end_functions,
                                         judge_functions, session_functions};
    size_t at;
    for (at = 0; at < sizeof files / sizeof files[0]; at++) {
        if (PyModule_AddFunctions(module, files[at]) != 0) {
            return -1;
        }
    }
    return PyModule_AddStringConstant(module, "VERSION", SCARD_VERSION_TEXT);
}

static PyMethodDef functions[] = {FUNCTION(begin), LAST_FUNCTION};

static PyModuleDef_Slot slots[] = {{Py_mod_exec, (void *)execute}, {0, NULL}};

static struct PyModuleDef definition = {
    PyModuleDef_HEAD_INIT, "_scard", "The calls of scard.h, for the package scard.", sizeof(struct state), functions,
    slots, traverse, clear, free_module,
};

PyMODINIT_FUNC PyInit__scard(void);

PyMODINIT_FUNC PyInit__scard(void)
{
    return PyModuleDef_Init(&definition);
}
