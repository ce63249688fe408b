/* What the files of the module _scard share: conversions between values of Python and what scard.h takes.
 *
 * A function of the module gets its arguments as an array. It first converts all of them, which may run code of Python,
 * and only then looks at a state that it keeps in a capsule. So that code can't close the state in between. Octets that
 * come in anything but a `bytes` are copied, so nothing can change them during a call of the library.
 */
#ifndef SCARDMODULE_H
#define SCARDMODULE_H

#define PY_SSIZE_T_CLEAN
#include <Python.h>

#include "scard.h"

#include <string.h>

/* The classes of Python of which this module makes values, in the order in which `begin` gets them. */
enum made {
    MADE_REFUSED, MADE_SHORT, MADE_ARGUMENT, MADE_DUPLICATE, MADE_CLOSED,
    MADE_ATR, MADE_INTERFACE, MADE_INDICATED, MADE_T1, MADE_RATES,
    MADE_BLOCK, MADE_COMMAND, MADE_RESPONSE, MADE_OBJECT, MADE_ENTRY,
    MADE_TURN, MADE_DUE, MADE_JUDGMENT, MADE_EXERCISE, MADE_TIMED, MADE_STEP,
    MADE_SHAPE, MADE_KIND, MADE_OWED, MADE_ASKED, MADE_JUDGED, MADE_RULE, MADE_SILENCE, MADE_OFF_TIME,
    MADE_COUNT
};

/* The most fields of one of these classes. */
#define MOST_FIELDS 12

/* The state of the module: these classes, the names of the fields of those that are dataclasses, and the members of
 * those that are enums, by their numbers.
 */
struct state {
    PyObject *classes[MADE_COUNT];
    PyObject *fields[MADE_COUNT];
};

/* Octets of a caller: a `bytes` that is held until octets_release. */
struct octets {
    PyObject *held;
    const uint8_t *at;
    size_t count;
};

typedef PyObject *const *arguments;

struct state *state_of(PyObject *module);

/* Each returns false with an exception of Python if the arguments aren't such. */
bool count_is(Py_ssize_t count, Py_ssize_t wanted);
bool octets_of(PyObject *value, struct octets *out);
bool number_of(PyObject *value, uint64_t most, uint64_t *out);
bool octet_of(PyObject *value, uint8_t *out);
bool octet_or_none(PyObject *value, uint8_t *has, uint8_t *out);

void octets_release(struct octets *octets);

/* Returns the octets as a `bytes`. */
PyObject *bytes_of(const uint8_t *octets, size_t count);

/* Returns a number, or None if `has` is 0. */
PyObject *number_or_none(uint8_t has, uint8_t number);

/* Returns a value of a class with the values of its fields, which this call takes over. If one of them is null, it
 * returns null.
 */
PyObject *make(PyObject *module, enum made made, PyObject **values, Py_ssize_t count);

/* Returns the member of an enum with a number, or the number if the enum has none. */
PyObject *member(PyObject *module, enum made made, uint8_t number);

/* Returns a text of the library. */
PyObject *text_of(const struct scard_text *text);

/* Returns null with the exception for a verdict that isn't SCARD_OK. */
PyObject *raise_verdict(PyObject *module, struct scard_verdict verdict, uint8_t codec);

/* Returns the same for a verdict on octets: if they are short, the exception says how many more must come at least. */
PyObject *raise_verdict_on(PyObject *module, struct scard_verdict verdict, uint8_t codec, const uint8_t *octets,
                           size_t count);

/* Returns null with the exception for an argument that the library doesn't take. */
PyObject *raise_argument(PyObject *module, const char *text);

/* From this many octets on, other threads run while the library works. */
#define LONG_WORK 16384

/* ---- states in capsules ---- */

/* What each state in a capsule begins with. */
struct kept {
    size_t size; /* of all of it */
    bool is_open;
};

/* Returns a capsule with a state of `size` octets, all 0, or null. `name` says what it is. */
PyObject *kept_new(const char *name, size_t size);

/* Returns the open state of a capsule, or null with an exception. */
void *kept_of(PyObject *module, PyObject *capsule, const char *name);

/* Overwrites the state of a capsule, which is closed from then on. */
void kept_close(struct kept *kept);

/* The functions of each file. */
extern PyMethodDef codec_functions[], object_functions[], reader_functions[], end_functions[], judge_functions[],
    session_functions[];

#define FUNCTION(name) {#name, (PyCFunction)(void (*)(void))name, METH_FASTCALL, NULL}
#define LAST_FUNCTION {NULL, NULL, 0, NULL}

#endif
