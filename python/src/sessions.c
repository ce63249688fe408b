/* Both ends of a session with the line's times and limits, step by step: they neither send nor wait. */
#include "scardmodule.h"

#define SESSION "session"
#define CARD_SESSION "session of a card"

/* A session, with the block that it sends, and its two buffers after it: of commands, and of answers. */
struct session {
    struct kept kept;
    size_t command_room, answer_room;
    struct scard_lent_setup setup;
    union {
        struct scard_lent_session terminal;
        struct scard_lent_card_session card;
    } as;
    uint8_t out[SCARD_BLOCK_ROOM];
    uint8_t buffers[];
};

/* The arguments with which each call of the library begins, and with which those that send end. */
#define BUFFERS(it) (it)->buffers, (it)->command_room, (it)->buffers + (it)->command_room, (it)->answer_room
#define AS_TERMINAL(it) &(it)->as.terminal, BUFFERS(it)
#define AS_CARD(it) &(it)->as.card, BUFFERS(it)
#define OUT(it) (it)->out, sizeof (it)->out

/* The rooms are those of the longest messages at most. */
#define LONGEST_COMMAND 65544
#define LONGEST_ANSWER 65538

/* The numbers of a setup, in the order of their arguments, with the most that each field takes. */
enum { SILENCE, MOST_MICROSECONDS, HERTZ, MOST_BLOCKS, FI, DI, IFSC, BWI, CWI, CLOCK, ECHO_, EMPTY, SHORT_, NUMBERS };

static const uint64_t most[NUMBERS] = {UINT64_MAX, UINT64_MAX, UINT32_MAX, UINT32_MAX, 65535, 65535, 255, 255, 255,
                                       1, 1, 1, 1};

/* Takes the setup from a tuple of numbers. */
static bool setup_of(PyObject *value, struct scard_lent_setup *setup)
{
    uint64_t number[NUMBERS];
    Py_ssize_t at;
    if (!PyTuple_Check(value) || PyTuple_Size(value) != NUMBERS) {
        PyErr_SetString(PyExc_TypeError, "a setup has other numbers");
        return false;
    }
    for (at = 0; at < NUMBERS; at++) {
        if (!number_of(PyTuple_GetItem(value, at), most[at], &number[at])) {
            return false;
        }
    }
    setup->silence = number[SILENCE];
    setup->most_time = number[MOST_MICROSECONDS];
    setup->hertz = (uint32_t)number[HERTZ];
    setup->most_blocks = (uint32_t)number[MOST_BLOCKS];
    setup->fi = (uint16_t)number[FI];
    setup->di = (uint16_t)number[DI];
    setup->ifsc = (uint8_t)number[IFSC];
    setup->bwi = (uint8_t)number[BWI];
    setup->cwi = (uint8_t)number[CWI];
    setup->has_clock = (uint8_t)number[CLOCK];
    setup->has_echo = (uint8_t)number[ECHO_];
    setup->refuses_empty = (uint8_t)number[EMPTY];
    setup->host_takes_short = (uint8_t)number[SHORT_];
    return true;
}

/* Makes a session from (setup, command_room, answer_room). */
static PyObject *made(PyObject *module, arguments given, Py_ssize_t count, const char *name, bool is_card)
{
    struct scard_lent_setup setup;
    uint64_t command_room, answer_room;
    struct scard_verdict verdict;
    struct session *session;
    PyObject *capsule;
    memset(&setup, 0, sizeof setup);
    if (!count_is(count, 3) || !setup_of(given[0], &setup) || !number_of(given[1], LONGEST_COMMAND, &command_room)
        || !number_of(given[2], LONGEST_ANSWER, &answer_room)) {
        return NULL;
    }
    capsule = kept_new(name, sizeof *session + (size_t)(command_room + answer_room));
    if (capsule == NULL) {
        return NULL;
    }
    session = (struct session *)PyCapsule_GetPointer(capsule, name);
    session->command_room = (size_t)command_room;
    session->answer_room = (size_t)answer_room;
    session->setup = setup;
    verdict = is_card ? scard_lent_card_session_begin(AS_CARD(session), &setup)
                      : scard_lent_session_begin(AS_TERMINAL(session), &setup);
    if (verdict.status != SCARD_OK) {
        Py_DECREF(capsule);
        return raise_verdict(module, verdict, 0);
    }
    return capsule;
}

/* Returns a step: its kind, its wait, and the octets that go with the kind. These are the block to send, or the message
 * at the front of a buffer.
 */
static PyObject *step_made(PyObject *module, struct scard_session_next next, const struct session *session,
                           const uint8_t *message)
{
    const bool has_message = next.kind == SCARD_DONE || next.kind == SCARD_SESSION_NO_STATUS;
    PyObject *values[3];
    values[0] = member(module, MADE_KIND, next.kind);
    values[1] = PyLong_FromUnsignedLongLong(next.wait);
    if (next.kind == SCARD_SEND) {
        values[2] = bytes_of(session->out, (size_t)next.count);
    } else {
        values[2] = bytes_of(message, has_message ? (size_t)next.count : 0);
    }
    return make(module, MADE_STEP, values, 3);
}

/* What a call takes beside its session: octets, a number, and the time. */
struct input {
    struct octets octets;
    uint8_t number;
    uint64_t now;
};

/* A call of a session. */
typedef struct scard_session_next calls(struct session *session, const struct input *input);

/* Makes a call whose arguments are (session, octets, number, now). */
static PyObject *called(PyObject *module, arguments given, Py_ssize_t count, bool is_card, calls *call)
{
    struct scard_session_next next;
    struct session *session;
    struct input input;
    PyObject *step = NULL;
    if (!count_is(count, 4) || !octet_of(given[2], &input.number) || !number_of(given[3], UINT64_MAX, &input.now)
        || !octets_of(given[1], &input.octets)) {
        return NULL;
    }
    session = (struct session *)kept_of(module, given[0], is_card ? CARD_SESSION : SESSION);
    if (session != NULL) {
        next = call(session, &input);
        step = step_made(module, next, session, session->buffers + (is_card ? 0 : session->command_room));
    }
    octets_release(&input.octets);
    return step;
}

static PyObject *closed(arguments given, Py_ssize_t count, const char *name)
{
    if (!count_is(count, 1)) {
        return NULL;
    }
    if (PyCapsule_IsValid(given[0], name)) {
        kept_close((struct kept *)PyCapsule_GetPointer(given[0], name));
    }
    Py_RETURN_NONE;
}

/* ---- the terminal ---- */

static struct scard_session_next call_exchange(struct session *session, const struct input *input)
{
    return scard_lent_session_exchange(AS_TERMINAL(session), input->octets.at, input->octets.count, input->now,
                                       OUT(session));
}

static struct scard_session_next call_ask_ifs(struct session *session, const struct input *input)
{
    return scard_lent_session_ask_ifs(AS_TERMINAL(session), input->number, input->now, OUT(session));
}

static struct scard_session_next call_resync(struct session *session, const struct input *input)
{
    return scard_lent_session_resync(AS_TERMINAL(session), &session->setup, input->now, OUT(session));
}

static struct scard_session_next call_step(struct session *session, const struct input *input)
{
    return scard_lent_session_step(AS_TERMINAL(session), input->number, input->octets.at, input->octets.count,
                                   input->now, OUT(session));
}

static PyObject *session_new(PyObject *module, arguments given, Py_ssize_t count)
{
    return made(module, given, count, SESSION, false);
}

static PyObject *session_exchange(PyObject *module, arguments given, Py_ssize_t count)
{
    return called(module, given, count, false, call_exchange);
}

static PyObject *session_ask_ifs(PyObject *module, arguments given, Py_ssize_t count)
{
    return called(module, given, count, false, call_ask_ifs);
}

static PyObject *session_resync(PyObject *module, arguments given, Py_ssize_t count)
{
    return called(module, given, count, false, call_resync);
}

static PyObject *session_step(PyObject *module, arguments given, Py_ssize_t count)
{
    return called(module, given, count, false, call_step);
}

static PyObject *session_close(PyObject *module, arguments given, Py_ssize_t count)
{
    (void)module;
    return closed(given, count, SESSION);
}

/* ---- the card ---- */

static struct scard_session_next call_serve(struct session *session, const struct input *input)
{
    return scard_lent_card_session_serve(AS_CARD(session), input->now);
}

static struct scard_session_next call_reply(struct session *session, const struct input *input)
{
    return scard_lent_card_session_reply(AS_CARD(session), input->octets.at, input->octets.count, input->now,
                                         OUT(session));
}

static struct scard_session_next call_more_time(struct session *session, const struct input *input)
{
    return scard_lent_card_session_more_time(AS_CARD(session), input->number, input->now, OUT(session));
}

static struct scard_session_next call_card_ask_ifs(struct session *session, const struct input *input)
{
    return scard_lent_card_session_ask_ifs(AS_CARD(session), input->number, input->now, OUT(session));
}

static struct scard_session_next call_card_step(struct session *session, const struct input *input)
{
    return scard_lent_card_session_step(AS_CARD(session), input->number, input->octets.at, input->octets.count,
                                        input->now, OUT(session));
}

static PyObject *card_session_new(PyObject *module, arguments given, Py_ssize_t count)
{
    return made(module, given, count, CARD_SESSION, true);
}

static PyObject *card_session_serve(PyObject *module, arguments given, Py_ssize_t count)
{
    return called(module, given, count, true, call_serve);
}

static PyObject *card_session_reply(PyObject *module, arguments given, Py_ssize_t count)
{
    return called(module, given, count, true, call_reply);
}

static PyObject *card_session_more_time(PyObject *module, arguments given, Py_ssize_t count)
{
    return called(module, given, count, true, call_more_time);
}

static PyObject *card_session_ask_ifs(PyObject *module, arguments given, Py_ssize_t count)
{
    return called(module, given, count, true, call_card_ask_ifs);
}

static PyObject *card_session_step(PyObject *module, arguments given, Py_ssize_t count)
{
    return called(module, given, count, true, call_card_step);
}

/* card_session_granted(session): how many requests of the host about the command were granted. */
static PyObject *card_session_granted(PyObject *module, arguments given, Py_ssize_t count)
{
    struct session *session = count_is(count, 1) ? (struct session *)kept_of(module, given[0], CARD_SESSION) : NULL;
    return session == NULL ? NULL : PyLong_FromUnsignedLongLong(session->as.card.granted);
}

static PyObject *card_session_close(PyObject *module, arguments given, Py_ssize_t count)
{
    (void)module;
    return closed(given, count, CARD_SESSION);
}

PyMethodDef session_functions[] = {
    FUNCTION(session_new), FUNCTION(session_exchange), FUNCTION(session_ask_ifs), FUNCTION(session_resync),
    FUNCTION(session_step), FUNCTION(session_close), FUNCTION(card_session_new), FUNCTION(card_session_serve),
    FUNCTION(card_session_reply), FUNCTION(card_session_more_time), FUNCTION(card_session_ask_ifs),
    FUNCTION(card_session_step), FUNCTION(card_session_granted), FUNCTION(card_session_close), LAST_FUNCTION,
};
