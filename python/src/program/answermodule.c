/* The module _answer: the program scard over the C of its module. It hands words, input and text from one side to the
 * other. Each answer has a memory of its own, and other threads run meanwhile. */
#define PY_SSIZE_T_CLEAN
#include <Python.h>

#include "module.h"

#include <stdbool.h>
#include <stdlib.h>

/* An answer: the input that is left, and the text so far. */
struct answer {
    const u8 *input;
    size_t left;
    u8 *text;
    size_t count, room;
    bool is_short; /* whether there was no memory for all of it */
    u32 status;
};

/* The answer of this thread. */
static OWN struct answer *current;

/* The words of an answer, with an octet 0 between two. */
struct words {
    const char *at;
    size_t count;
};

u64 host_read(u8 *m, u32 stream, u64 at, u64 count)
{
    u8 *to = piece(m, (u32)at, count);
    size_t part = count < current->left ? (size_t)count : current->left;
    (void)stream;
    memcpy(to, current->input, part);
    current->input += part;
    current->left -= part;
    return part;
}

/* Makes room for more text. Returns false if there is no memory. */
static bool has_room(struct answer *answer, u64 more)
{
    u64 needed = answer->count + more, room = needed + needed / 2;
    u8 *text;
    if (needed <= answer->room) {
        return true;
    }
    text = room <= PY_SSIZE_T_MAX ? realloc(answer->text, (size_t)room) : NULL;
    if (text == NULL) {
        return false;
    }
    answer->text = text;
    answer->room = (size_t)room;
    return true;
}

u64 host_write(u8 *m, u32 stream, u64 at, u64 count)
{
    const u8 *from = piece(m, (u32)at, count);
    (void)stream;
    if (!has_room(current, count)) {
        current->is_short = true;
        return (u64)-1;
    }
    if (count > 0) {
        memcpy(current->text + current->count, from, (size_t)count);
    }
    current->count += (size_t)count;
    return count;
}

/* Runs the program over a memory. */
static void run(u8 *m, struct answer *answer, struct words words)
{
    u64 room = words.count < UINT32_MAX ? scard_room(m, words.count + 1u) : 0;
    if (room == 0) {
        answer->is_short = true;
        return;
    }
    memcpy(piece(m, (u32)room, words.count), words.at, words.count);
    current = answer;
    answer->status = scard_answer(m, room, words.count);
    current = NULL;
}

/* Runs the program over a memory of its own. */
static void run_alone(struct answer *answer, struct words words)
{
    u8 *m = machine_begin();
    if (m == NULL) {
        answer->is_short = true;
        return;
    }
    run(m, answer, words);
    machine_end(m);
}

/* Takes the octets of a `bytes`, which the caller holds. */
static bool bytes_are(PyObject *value, const char **at, size_t *count)
{
    char *first;
    Py_ssize_t size;
    if (PyBytes_AsStringAndSize(value, &first, &size) != 0) {
        return false;
    }
    *at = first;
    *count = (size_t)size;
    return true;
}

/* answer(words, input): the exit status, and what the program writes to standard output. The words have an octet 0
 * between two. */
static PyObject *answer(PyObject *module, PyObject *const *given, Py_ssize_t count)
{
    struct answer made = {0};
    struct words words;
    const char *input;
    PyObject *result;
    (void)module;
    if (count != 2) {
        PyErr_SetString(PyExc_TypeError, "an answer is made of words and input");
        return NULL;
    }
    if (!bytes_are(given[0], &words.at, &words.count) || !bytes_are(given[1], &input, &made.left)) {
        return NULL;
    }
    made.input = (const u8 *)input;
    Py_BEGIN_ALLOW_THREADS
    run_alone(&made, words);
    Py_END_ALLOW_THREADS
    result = made.is_short ? PyErr_NoMemory()
                           : Py_BuildValue("(ky#)", (unsigned long)made.status, made.count > 0 ? (char *)made.text : "",
                                           (Py_ssize_t)made.count);
    free(made.text);
    return result;
}

static PyMethodDef functions[] = {
    {"answer", (PyCFunction)(void (*)(void))answer, METH_FASTCALL, NULL},
    {NULL, NULL, 0, NULL},
};

static PyModuleDef_Slot slots[] = {{0, NULL}};

static struct PyModuleDef definition = {
    PyModuleDef_HEAD_INIT, "_answer", "The program scard, for the package scard.", 0, functions, slots, NULL, NULL,
    NULL,
};

PyMODINIT_FUNC PyInit__answer(void);

PyMODINIT_FUNC PyInit__answer(void)
{
    return PyModuleDef_Init(&definition);
}
